/*
 * Calls the library with invalid and extreme arguments: null pointers, lengths that no memory has, pointers that aren't aligned,
 * overlap of what a call writes with each other memory of the call, memory that is a byte too small, an image that changes while
 * it is opened, and segments that two calls use at once. Also creates, grows and shrinks segments, in memory from malloc and in
 * memory of its own, which it makes read-only for a client that only reads. Prints each wrong result, and at the end how many
 * results are wrong.
 *
 *   calls IMAGE CLIENT     the image of 784 bytes whose number `x`, at 720, is 41, and the client that adds 1 and prints it
 *
 * Link with -Wl,--wrap=malloc,--wrap=realloc: some calls are made, and bytes changed, during the library's requests for memory.
 */
#define _DEFAULT_SOURCE
#include <lezgauri.h>

#include <pthread.h>
#include <stdalign.h>
#include <stdbool.h>
#include <stdio.h>
#include <stdlib.h>
#include <string.h>
#include <sys/mman.h>

static int made;
static int wrong;

static void expect(const char *call, uint64_t got, uint64_t wanted)
{
    made++;
    if (got != wanted) {
        wrong++;
        printf("%s: %llu, wanted %llu\n", call, (unsigned long long)got, (unsigned long long)wanted);
    }
}

/* ---- the library's requests for memory */

void *__real_malloc(size_t size);
void *__real_realloc(void *block, size_t size);

static size_t asked;
static size_t requests;
static size_t image_requests; /* the requests for exactly the image's length */
static size_t image_len;
static void (*at_request)(size_t request);

static void note(size_t size)
{
    asked += size;
    requests++;
    image_requests += size == image_len;
    if (at_request != NULL) {
        at_request(requests);
    }
}

void *__wrap_malloc(size_t size)
{
    note(size);
    return __real_malloc(size);
}

void *__wrap_realloc(void *block, size_t size)
{
    note(size);
    return __real_realloc(block, size);
}

/* Counts requests from 0 again, and makes this call at each of them. */
static void watch(void (*call)(size_t request))
{
    asked = 0;
    requests = 0;
    image_requests = 0;
    at_request = call;
}

static void *room(size_t len)
{
    void *block = malloc(len);
    if (block == NULL) {
        exit(2);
    }
    return block;
}

/* A file's bytes in a block of exactly their length, so that a read after the end is noticed. */
static uint8_t *read_file(const char *name, size_t *len)
{
    static uint8_t bytes[4096];
    FILE *file = fopen(name, "rb");
    if (file == NULL) {
        perror(name);
        exit(2);
    }
    *len = fread(bytes, 1, sizeof bytes, file);
    fclose(file);
    uint8_t *exact = room(*len);
    memcpy(exact, bytes, *len);
    return exact;
}

static uint8_t *image;
static uint8_t *client;
static size_t client_len;
static char *text; /* the client's canonical text */
static size_t text_len;

/* ---- each call alone */

static void check_calls(void)
{
    lezgauri_fault fault;
    expect("check", lezgauri_check(image, image_len, &fault), LEZGAURI_OK);
    expect("check: number", fault.number, 0);
    expect("check without a fault", lezgauri_check(image, image_len, NULL), LEZGAURI_OK);
    expect("check of null", lezgauri_check(NULL, image_len, &fault), LEZGAURI_BAD_ARGUMENT);
    expect("check of null: number", fault.number, LEZGAURI_BAD_ARGUMENT);
    expect("check of null and 0", lezgauri_check(NULL, 0, &fault), LEZGAURI_BAD_HEADER);
    expect("check of 0 bytes", lezgauri_check(image, 0, &fault), LEZGAURI_BAD_HEADER);
    expect("check of 735 bytes", lezgauri_check(image, 735, &fault), LEZGAURI_BAD_HEADER);
    image[0] ^= 1;
    expect("check of a changed image", lezgauri_check(image, image_len, &fault), LEZGAURI_BAD_HEADER);
    expect("check of a changed image: client", fault.client, LEZGAURI_NO_CLIENT);
    image[0] ^= 1;
    uint8_t *shifted = room(image_len + 1);
    memcpy(shifted + 1, image, image_len);
    expect("check of an image at an odd address", lezgauri_check(shifted + 1, image_len, &fault), LEZGAURI_OK);
    free(shifted);
}

static void verify_calls(void)
{
    lezgauri_fault fault;
    uint64_t bound = 7;
    expect("verify", lezgauri_verify(image, image_len, client, client_len, &bound, &fault), LEZGAURI_OK);
    expect("verify: bound", bound, 6);
    bound = 7;
    expect("verify of 0 bytes", lezgauri_verify(image, image_len, client, 0, &bound, &fault), LEZGAURI_BAD_CODE);
    expect("verify of 0 bytes: client", fault.client, 0);
    expect("verify of 0 bytes: bound", bound, 7);
    expect("verify of null and 0", lezgauri_verify(image, image_len, NULL, 0, &bound, NULL), LEZGAURI_BAD_CODE);
    expect("verify of a cut client", lezgauri_verify(image, image_len, client, client_len - 1, NULL, NULL), LEZGAURI_BAD_CODE);
    expect("verify of bytes of the image", lezgauri_verify(image, image_len, image + 3, 7, NULL, &fault), LEZGAURI_BAD_CODE);
}

static void run_calls(void)
{
    lezgauri_bytes clients[] = {{client, client_len}, {client, client_len}};
    lezgauri_report reports[2];
    lezgauri_fault fault;
    size_t written;
    char *output = room(6);
    uint8_t *saved = room(image_len);
    expect("run", lezgauri_run(image, image_len, clients, 2, NULL, 0, output, 6, &written, saved, reports, &fault), LEZGAURI_OK);
    expect("run: written", written, 6);
    expect("run: output", (uint64_t)memcmp(output, "42\n43\n", 6), 0);
    expect("run: image as before", image[720], 41);
    expect("run: saved", saved[720], 43);
    expect("run: steps", reports[1].steps, 6);
    expect("run: ended", reports[1].ended, 0);
    expect("run, too little room",
           lezgauri_run(image, image_len, clients, 2, NULL, 0, output, 5, &written, saved, reports, NULL),
           LEZGAURI_OUTPUT_FULL);
    expect("run, too little room: written", written, 5);
    expect("run, too little room: ended", reports[1].ended, 1);
    expect("run, no room", lezgauri_run(image, image_len, clients, 1, NULL, 0, NULL, 0, &written, saved, NULL, NULL),
           LEZGAURI_OUTPUT_FULL);
    expect("run of no clients", lezgauri_run(image, image_len, NULL, 0, NULL, 0, NULL, 0, NULL, saved, NULL, NULL), LEZGAURI_OK);
    expect("run of no clients: version", saved[8], 2);
    saved[8] = image[8];
    expect("run of no clients: saved", (uint64_t)memcmp(image, saved, image_len), 0);
    expect("run, the client as input",
           lezgauri_run(image, image_len, clients, 1, client, client_len, output, 6, NULL, saved, NULL, NULL), LEZGAURI_OK);
    expect("run, more clients than fit",
           lezgauri_run(image, image_len, clients, SIZE_MAX / 8, NULL, 0, output, 6, NULL, saved, NULL, NULL),
           LEZGAURI_BAD_ARGUMENT);
    clients[1].len = client_len - 1;
    expect("run, a cut client",
           lezgauri_run(image, image_len, clients, 2, NULL, 0, output, 6, &written, saved, reports, &fault),
           LEZGAURI_BAD_CODE);
    expect("run, a cut client: which", fault.client, 1);
    expect("run, a cut client: written", written, 0);
    clients[1] = (lezgauri_bytes){NULL, 0};
    expect("run, a client null", lezgauri_run(image, image_len, clients, 2, NULL, 0, output, 6, NULL, saved, NULL, NULL),
           LEZGAURI_BAD_ARGUMENT);
    clients[1] = (lezgauri_bytes){client, SIZE_MAX};
    expect("run, a client too long", lezgauri_run(image, image_len, clients, 2, NULL, 0, output, 6, NULL, saved, NULL, NULL),
           LEZGAURI_BAD_ARGUMENT);
    clients[1] = (lezgauri_bytes){saved, client_len};
    expect("run, a client in saved", lezgauri_run(image, image_len, clients, 2, NULL, 0, output, 6, NULL, saved, NULL, NULL),
           LEZGAURI_BAD_ARGUMENT);
    clients[1] = (lezgauri_bytes){(uint8_t *)&fault, sizeof fault};
    memset(&fault, 0x55, sizeof fault);
    expect("run, a client in the fault", lezgauri_run(image, image_len, clients, 2, NULL, 0, output, 6, NULL, saved, NULL, &fault),
           LEZGAURI_BAD_ARGUMENT);
    expect("run, a client in the fault: as before", fault.number, 0x55555555);
    free(output);
    free(saved);
}

static lezgauri_handle *opened(void)
{
    lezgauri_handle *handle = NULL;
    expect("open", lezgauri_open(image, image_len, &handle, NULL), LEZGAURI_OK);
    if (handle == NULL) {
        exit(2);
    }
    return handle;
}

/* The number `x` of an open segment, which must be sound. */
static uint8_t x_of(lezgauri_handle *handle)
{
    uint8_t *saved = room(image_len);
    expect("save", lezgauri_save(handle, saved, image_len, NULL), LEZGAURI_OK);
    expect("save: sound", lezgauri_check(saved, image_len, NULL), LEZGAURI_OK);
    uint8_t x = saved[720];
    free(saved);
    return x;
}

static void open_calls(void)
{
    lezgauri_handle *handle = (lezgauri_handle *)image;
    lezgauri_fault fault;
    expect("open of 0 bytes", lezgauri_open(image, 0, &handle, &fault), LEZGAURI_BAD_HEADER);
    expect("open of 0 bytes: no segment", handle != NULL, 0);
    handle = (lezgauri_handle *)image;
    expect("open of null", lezgauri_open(NULL, image_len, &handle, &fault), LEZGAURI_BAD_ARGUMENT);
    expect("open of null: no segment", handle != NULL, 0);
    handle = (lezgauri_handle *)image;
    expect("open of a length past the largest", lezgauri_open(image, SIZE_MAX - 16, &handle, &fault), LEZGAURI_BAD_ARGUMENT);
    expect("open of a length past the largest: no segment", handle != NULL, 0);
    expect("open, handle null", lezgauri_open(image, image_len, NULL, &fault), LEZGAURI_BAD_ARGUMENT);
    expect("open, handle null: number", fault.number, LEZGAURI_BAD_ARGUMENT);
    lezgauri_close(NULL);
    uint8_t *shifted = room(image_len + 1);
    memcpy(shifted + 1, image, image_len);
    expect("open of an image at an odd address", lezgauri_open(shifted + 1, image_len, &handle, &fault), LEZGAURI_OK);
    free(shifted);
    lezgauri_close(handle);
    lezgauri_handle *one = opened();
    lezgauri_handle *other = opened();
    expect("run on one of two segments of an image", lezgauri_run_on(one, client, client_len, NULL, 0, NULL, 0, NULL, NULL, NULL),
           LEZGAURI_OUTPUT_FULL);
    expect("two segments of an image: one", x_of(one), 42);
    expect("two segments of an image: the other", x_of(other), 41);
    lezgauri_close(one);
    lezgauri_close(other);
}

static void run_on_calls(void)
{
    lezgauri_handle *handle = opened();
    lezgauri_report report;
    lezgauri_fault fault;
    size_t written;
    char *output = room(3);
    for (char last = '2'; last < '6'; last++) {
        expect("run on", lezgauri_run_on(handle, client, client_len, NULL, 0, output, 3, &written, &report, &fault), LEZGAURI_OK);
        expect("run on: output", output[0] == '4' && output[1] == last && written == 3, 1);
        expect("run on: steps", report.steps, 6);
    }
    expect("run on, cut client", lezgauri_run_on(handle, client, client_len - 1, NULL, 0, output, 3, &written, NULL, &fault),
           LEZGAURI_BAD_CODE);
    expect("run on, cut client: written", written, 0);
    expect("run on, cut client: as before", x_of(handle), 45);
    expect("run on, too little room", lezgauri_run_on(handle, client, client_len, NULL, 0, output, 2, &written, &report, NULL),
           LEZGAURI_OUTPUT_FULL);
    expect("run on, too little room: written", written, 2);
    expect("run on, too little room: ended", report.ended, 1);
    expect("run on, too little room: as it was there", x_of(handle), 46);
    expect("run on, the client as input",
           lezgauri_run_on(handle, client, client_len, client, client_len, output, 3, NULL, NULL, NULL), LEZGAURI_OK);
    free(output);
    lezgauri_close(handle);
}

static void run_whole_calls(void)
{
    lezgauri_handle *handle = opened();
    lezgauri_report report = {.steps = 7};
    lezgauri_fault fault;
    size_t needed;
    char *output = room(3);
    expect("run whole, no room", lezgauri_run_whole(handle, client, client_len, NULL, 0, NULL, 0, &needed, &report, &fault),
           LEZGAURI_OUTPUT_FULL);
    expect("run whole, no room: needed", needed, 3);
    expect("run whole, no room: number", fault.number, 0);
    expect("run whole, no room: report", report.steps, 7);
    expect("run whole, no room: as before", x_of(handle), 41);
    expect("run whole, a byte too small", lezgauri_run_whole(handle, client, client_len, NULL, 0, output, 2, &needed, &report, NULL),
           LEZGAURI_OUTPUT_FULL);
    expect("run whole, a byte too small: needed", needed, 3);
    expect("run whole, a byte too small: as before", x_of(handle), 41);
    expect("run whole, needed null", lezgauri_run_whole(handle, client, client_len, NULL, 0, output, 2, NULL, NULL, NULL),
           LEZGAURI_OUTPUT_FULL);
    expect("run whole", lezgauri_run_whole(handle, client, client_len, NULL, 0, output, needed, &needed, &report, &fault),
           LEZGAURI_OK);
    expect("run whole: needed", needed, 3);
    expect("run whole: output", (uint64_t)memcmp(output, "42\n", 3), 0);
    expect("run whole: steps", report.steps, 6);
    expect("run whole: ended", report.ended, 0);
    expect("run whole: x", x_of(handle), 42);
    expect("run whole, all null", lezgauri_run_whole(handle, client, client_len, NULL, 0, output, 3, NULL, NULL, NULL), LEZGAURI_OK);
    expect("run whole, cut client",
           lezgauri_run_whole(handle, client, client_len - 1, NULL, 0, output, 3, &needed, &report, &fault), LEZGAURI_BAD_CODE);
    expect("run whole, cut client: needed", needed, 0);
    expect("run whole, cut client: number", fault.number, LEZGAURI_BAD_CODE);
    expect("run whole, cut client: as before", x_of(handle), 43);
    free(output);
    lezgauri_close(handle);
}

/* Runs on an open segment request no copy of the image, except lezgauri_run_whole, and no memory for the output. Only the first one requests
 * memory for the segment's types. */
static void memory_of_runs(void)
{
    lezgauri_handle *handle = opened();
    char *output = room(1 << 20);
    expect("memory of the types", lezgauri_run_on(handle, client, client_len, NULL, 0, output, 3, NULL, NULL, NULL), LEZGAURI_OK);
    watch(NULL);
    expect("memory of run on", lezgauri_run_on(handle, client, client_len, NULL, 0, output, 3, NULL, NULL, NULL), LEZGAURI_OK);
    size_t little = asked;
    expect("memory of run on: the image", image_requests, 0);
    watch(NULL);
    expect("memory of run on, more room", lezgauri_run_on(handle, client, client_len, NULL, 0, output, 1 << 20, NULL, NULL, NULL),
           LEZGAURI_OK);
    expect("memory of run on, more room: as much", asked, little);
    watch(NULL);
    expect("memory of run whole", lezgauri_run_whole(handle, client, client_len, NULL, 0, output, 1 << 20, NULL, NULL, NULL),
           LEZGAURI_OK);
    expect("memory of run whole: the image", image_requests, 1);
    expect("memory of run whole: no more", asked, little + image_len);
    watch(NULL);
    free(output);
    lezgauri_close(handle);
}

static lezgauri_client *prepared_on(const lezgauri_handle *handle)
{
    lezgauri_client *prepared = NULL;
    expect("prepare", lezgauri_prepare(handle, client, client_len, &prepared, NULL), LEZGAURI_OK);
    if (prepared == NULL) {
        exit(2);
    }
    return prepared;
}

/* Whether two segments have the same image. */
static bool are_same(lezgauri_handle *one, lezgauri_handle *other)
{
    uint8_t *saved = room(2 * image_len);
    expect("save", lezgauri_save(one, saved, image_len, NULL), LEZGAURI_OK);
    expect("save", lezgauri_save(other, saved + image_len, image_len, NULL), LEZGAURI_OK);
    bool are = memcmp(saved, saved + image_len, image_len) == 0;
    free(saved);
    return are;
}

static void prepare_calls(void)
{
    lezgauri_handle *handle = opened();
    lezgauri_client *prepared = (lezgauri_client *)image;
    lezgauri_fault fault;
    expect("prepare of a cut client", lezgauri_prepare(handle, client, client_len - 1, &prepared, &fault), LEZGAURI_BAD_CODE);
    expect("prepare of a cut client: no client", prepared != NULL, 0);
    expect("prepare of a cut client: which", fault.client, 0);
    prepared = (lezgauri_client *)image;
    expect("prepare of 0 bytes", lezgauri_prepare(handle, NULL, 0, &prepared, &fault), LEZGAURI_BAD_CODE);
    expect("prepare of 0 bytes: no client", prepared != NULL, 0);
    prepared = (lezgauri_client *)image;
    expect("prepare for no segment", lezgauri_prepare(NULL, client, client_len, &prepared, &fault), LEZGAURI_BAD_ARGUMENT);
    expect("prepare for no segment: no client", prepared != NULL, 0);
    expect("prepare, prepared null", lezgauri_prepare(handle, client, client_len, NULL, &fault), LEZGAURI_BAD_ARGUMENT);
    expect("prepare, prepared null: number", fault.number, LEZGAURI_BAD_ARGUMENT);
    lezgauri_client_close(NULL);
    expect("prepare: the segment is as before", x_of(handle), 41);
    lezgauri_close(handle);
}

/* Runs of a prepared client do the same as runs of its bytes. */
static void run_client_calls(void)
{
    lezgauri_handle *handle = opened();
    lezgauri_handle *other = opened();
    uint8_t *bytes = room(client_len);
    memcpy(bytes, client, client_len);
    lezgauri_client *prepared = NULL;
    lezgauri_fault fault;
    expect("prepare", lezgauri_prepare(handle, bytes, client_len, &prepared, &fault), LEZGAURI_OK);
    expect("prepare: number", fault.number, 0);
    memset(bytes, 0, client_len);
    free(bytes);
    lezgauri_report reports[2];
    size_t written[2];
    char *output = room(6);
    watch(NULL);
    for (size_t capacity = 0; capacity < 5; capacity++) {
        for (int i = 0; i < 10; i++) {
            memset(output, 0x55, 6);
            memset(reports, 0, sizeof reports);
            uint32_t status = lezgauri_run_on(other, client, client_len, NULL, 0, output, capacity, &written[0], &reports[0], NULL);
            requests = 0;
            expect("run client", lezgauri_run_client(handle, prepared, NULL, 0, output + 3, capacity < 3 ? capacity : 3, &written[1],
                   &reports[1], &fault), status);
            expect("run client: no request for memory", requests, 0);
            expect("run client: number", fault.number, 0);
            expect("run client: written", written[1], written[0]);
            expect("run client: output", (uint64_t)memcmp(output, output + 3, 3), 0);
            expect("run client: report", (uint64_t)memcmp(&reports[0], &reports[1], sizeof reports[0]), 0);
            expect("run client: the image", are_same(handle, other), 1);
        }
    }
    expect("run client: x", x_of(handle), 91);
    expect("run client, no client", lezgauri_run_client(handle, NULL, NULL, 0, output, 3, &written[0], &reports[0], &fault),
           LEZGAURI_BAD_ARGUMENT);
    expect("run client, no segment", lezgauri_run_client(NULL, prepared, NULL, 0, output, 3, &written[0], &reports[0], &fault),
           LEZGAURI_BAD_ARGUMENT);
    lezgauri_close(handle);
    expect("run client after its segment was closed", lezgauri_run_client(other, prepared, NULL, 0, output, 3, NULL, NULL, NULL),
           LEZGAURI_OK);
    expect("run client after its segment was closed: x", x_of(other), 92);
    free(output);
    lezgauri_client_close(prepared);
    lezgauri_close(other);
}

enum { TYPED_CLIENT = 52 };

/* A client without instructions, with the type i64 and another type, of this kind and without parts. */
static void put_typed_client(uint8_t bytes[TYPED_CLIENT], uint8_t kind)
{
    static const uint8_t header[20] = {'S', 'E', 'G', 'C', 1, 0, 0, 0, 2};
    memset(bytes, 0, TYPED_CLIENT);
    memcpy(bytes, header, sizeof header);
    bytes[20] = 1;
    bytes[36] = kind;
}

/* A prepared client runs if the segment's types agree with its own. Another client may add types that don't. */
static void client_types(void)
{
    lezgauri_handle *handle = opened();
    lezgauri_handle *other = opened();
    uint8_t numbers[TYPED_CLIENT], texts[TYPED_CLIENT];
    put_typed_client(numbers, 1);
    put_typed_client(texts, 2);
    lezgauri_client *prepared = NULL;
    lezgauri_client *refused_one = (lezgauri_client *)image;
    lezgauri_report report = {.steps = 7};
    lezgauri_fault fault;
    size_t written = 7;
    char output[3] = "ab";
    expect("types: prepare", lezgauri_prepare(handle, numbers, TYPED_CLIENT, &prepared, &fault), LEZGAURI_OK);
    expect("types: another client", lezgauri_run_on(handle, texts, TYPED_CLIENT, NULL, 0, NULL, 0, NULL, NULL, NULL), LEZGAURI_OK);
    uint8_t x = x_of(handle);
    expect("types differ", lezgauri_run_client(handle, prepared, NULL, 0, output, 3, &written, &report, &fault),
           LEZGAURI_TYPE_MISMATCH);
    expect("types differ: number", fault.number, LEZGAURI_TYPE_MISMATCH);
    expect("types differ: position", fault.position, 1);
    expect("types differ: client", fault.client, 0);
    expect("types differ: written", written, 0);
    expect("types differ: report", report.steps, 7);
    expect("types differ: output", (uint64_t)memcmp(output, "ab", 3), 0);
    expect("types differ: x", x_of(handle), x);
    expect("types differ: prepare", lezgauri_prepare(handle, numbers, TYPED_CLIENT, &refused_one, &fault), LEZGAURI_TYPE_MISMATCH);
    expect("types differ: no client", refused_one != NULL, 0);
    expect("types agree", lezgauri_run_client(other, prepared, NULL, 0, NULL, 0, NULL, NULL, NULL), LEZGAURI_OK);
    expect("types agree: again", lezgauri_run_client(other, prepared, NULL, 0, NULL, 0, NULL, NULL, NULL), LEZGAURI_OK);
    expect("types agree: the others", lezgauri_run_on(other, texts, TYPED_CLIENT, NULL, 0, NULL, 0, NULL, NULL, NULL),
           LEZGAURI_TYPE_MISMATCH);
    lezgauri_client_close(prepared);
    lezgauri_close(handle);
    lezgauri_close(other);
}

/* Exports, and memory and types that are lent to them, as in include/lezgauri.c. */
typedef struct lent {
    uint8_t *at;
    size_t len;
    size_t room;
} lent;

typedef struct kept_types {
    void *at;
    bool is_there;
} kept_types;

uint32_t lezgauri_raw_open_types(const uint8_t *image, size_t len, kept_types *types);
void lezgauri_raw_close_types(kept_types *types);
uint32_t lezgauri_raw_run_on(lent *image, kept_types *types, const uint8_t *client, size_t client_len, const uint8_t *input,
                             size_t input_len, lent *output, lezgauri_report *report, lezgauri_fault *fault);

static void came_back(const char *name, lent memory, const uint8_t *at, size_t len, size_t capacity)
{
    expect(name, memory.at == at && memory.len == len && memory.room == capacity, 1);
}

/* Memory that is lent to the library is returned at the same address, and an image has the same length. */
static void lent_memory(void)
{
    uint8_t *bytes = room(image_len);
    uint8_t *output = room(16);
    lezgauri_report report;
    lezgauri_fault fault;
    memcpy(bytes, image, image_len);
    memset(output, 0x55, 16);
    lent segment = {bytes, image_len, image_len};
    lent printed = {output, 0, 16};
    kept_types types = {NULL, false};
    expect("lent, no types", lezgauri_raw_run_on(&segment, &types, client, client_len, output, 0, &printed, &report, &fault),
           LEZGAURI_BAD_ARGUMENT);
    expect("lent, no types: number", fault.number, LEZGAURI_BAD_ARGUMENT);
    came_back("lent, no types: the image", segment, bytes, image_len, image_len);
    came_back("lent, no types: the output", printed, output, 0, 16);
    expect("lent: the types", lezgauri_raw_open_types(bytes, image_len, &types), LEZGAURI_OK);
    expect("lent", lezgauri_raw_run_on(&segment, &types, client, client_len, output, 0, &printed, &report, &fault), LEZGAURI_OK);
    came_back("lent: the image", segment, bytes, image_len, image_len);
    came_back("lent: the output", printed, output, 3, 16);
    expect("lent: printed", (uint64_t)memcmp(output, "42\n\x55", 4), 0);
    expect("lent: more behind it", lezgauri_raw_run_on(&segment, &types, client, client_len, output, 0, &printed, &report, &fault),
           LEZGAURI_OK);
    came_back("lent: more behind it: the output", printed, output, 6, 16);
    expect("lent: more behind it: printed", (uint64_t)memcmp(output, "42\n43\n\x55", 7), 0);
    expect("lent, a cut client", lezgauri_raw_run_on(&segment, &types, client, client_len - 1, output, 0, &printed, &report, &fault),
           LEZGAURI_BAD_CODE);
    came_back("lent, a cut client: the image", segment, bytes, image_len, image_len);
    came_back("lent, a cut client: the output", printed, output, 6, 16);
    memset(bytes, 0xFF, image_len);
    lezgauri_raw_run_on(&segment, &types, client, client_len, output, 0, &printed, &report, &fault);
    came_back("lent bytes that are no image", segment, bytes, image_len, image_len);
    lezgauri_raw_close_types(&types);
    free(bytes);
    free(output);
}

static void save_calls(void)
{
    lezgauri_handle *handle = opened();
    uint8_t *saved = room(image_len);
    size_t needed;
    expect("save, no room", lezgauri_save(handle, NULL, 0, &needed), LEZGAURI_TOO_SMALL);
    expect("save: needed", needed, image_len);
    expect("save, a byte too small", lezgauri_save(handle, saved, image_len - 1, NULL), LEZGAURI_TOO_SMALL);
    expect("save over the image that was opened", lezgauri_save(handle, image, image_len, NULL), LEZGAURI_OK);
    expect("save over the image that was opened: x", image[720], 41);
    free(saved);
    lezgauri_close(handle);
}

/* ---- segments in the caller's memory, new segments, and their size */

static size_t size_of(const lezgauri_handle *handle)
{
    size_t size = 0;
    expect("size", lezgauri_size(handle, &size), LEZGAURI_OK);
    return size;
}

/* The image of a segment where it is. It must be sound, and as long as the segment. */
static const uint8_t *image_of(const lezgauri_handle *handle)
{
    lezgauri_bytes bytes = {NULL, 0};
    expect("image", lezgauri_image(handle, &bytes), LEZGAURI_OK);
    expect("image: length", bytes.len, size_of(handle));
    expect("image: sound", lezgauri_check(bytes.bytes, bytes.len, NULL), LEZGAURI_OK);
    return bytes.bytes;
}

static bool are_all(const uint8_t *bytes, size_t len, uint8_t value)
{
    for (size_t i = 0; i < len; i++) {
        if (bytes[i] != value) {
            return false;
        }
    }
    return true;
}

/* A segment in lent memory is there, and nowhere else. */
static void open_in_calls(void)
{
    enum { ROOM = 64 };
    uint8_t *bytes = room(image_len + ROOM);
    memcpy(bytes, image, image_len);
    memset(bytes + image_len, 0x55, ROOM);
    lezgauri_handle *handle = (lezgauri_handle *)image;
    lezgauri_fault fault;
    expect("open in: room below the length", lezgauri_open_in(bytes, image_len, image_len - 1, &handle, &fault), LEZGAURI_BAD_ARGUMENT);
    expect("open in: room below the length: no segment", handle != NULL, 0);
    expect("open in of null and 0", lezgauri_open_in(NULL, 0, 0, &handle, &fault), LEZGAURI_BAD_HEADER);
    expect("open in of a part", lezgauri_open_in(bytes, image_len - 16, image_len, &handle, &fault), LEZGAURI_BAD_HEADER);
    expect("open in of a part: number", fault.number, LEZGAURI_BAD_HEADER);
    bytes[708] ^= 1;
    expect("open in of a changed image", lezgauri_open_in(bytes, image_len, image_len + ROOM, &handle, &fault), LEZGAURI_BAD_BLOCK);
    expect("open in of a changed image: position", fault.position, 704);
    expect("open in of a changed image: no segment", handle != NULL, 0);
    bytes[708] ^= 1;
    expect("open in: the image is as before", (uint64_t)memcmp(bytes, image, image_len), 0);
    watch(NULL);
    expect("open in", lezgauri_open_in(bytes, image_len, image_len + ROOM, &handle, &fault), LEZGAURI_OK);
    expect("open in: no copy", image_requests, 0);
    expect("open in: the image is as before", (uint64_t)memcmp(bytes, image, image_len), 0);
    expect("open in: the image is there", image_of(handle) == bytes, 1);
    char output[3];
    expect("open in: run", lezgauri_run_on(handle, client, client_len, NULL, 0, output, 3, NULL, NULL, NULL), LEZGAURI_OK);
    expect("open in: x", bytes[720], 42);
    expect("open in: x of the saved image", x_of(handle), 42);
    size_t needed;
    expect("open in: run whole", lezgauri_run_whole(handle, client, client_len, NULL, 0, output, 3, &needed, NULL, NULL), LEZGAURI_OK);
    expect("open in: x", bytes[720], 43);
    expect("open in: the room is as before", are_all(bytes + image_len, ROOM, 0x55), 1);
    expect("open in: an input in the room", lezgauri_run_on(handle, client, client_len, bytes + image_len, 1, output, 3, NULL, NULL, NULL),
           LEZGAURI_BAD_ARGUMENT);
    size_t size = 7;
    expect("grow, 8 bytes", lezgauri_grow(handle, 8, &size), LEZGAURI_BAD_SIZE);
    expect("grow past the room", lezgauri_grow(handle, ROOM + 16, &size), LEZGAURI_NO_HOST_ROOM);
    expect("grow past the largest size", lezgauri_grow(handle, (size_t)1 << 30, &size), LEZGAURI_BAD_SIZE);
    expect("grow by 2^32", lezgauri_grow(handle, (size_t)1 << 32, &size), LEZGAURI_BAD_SIZE);
    expect("grow by the largest length", lezgauri_grow(handle, SIZE_MAX - 15, &size), LEZGAURI_BAD_SIZE);
    expect("grow, refused: size", size, 7);
    expect("grow, refused: the room is as before", are_all(bytes + image_len, ROOM, 0x55), 1);
    expect("grow, refused: the size is as before", size_of(handle), image_len);
    size_t all = 0, largest = 0;
    expect("free memory", lezgauri_free_memory(handle, &all, &largest), LEZGAURI_OK);
    size_t free_before = all;
    expect("grow", lezgauri_grow(handle, ROOM - 16, &size), LEZGAURI_OK);
    expect("grow: size", size, image_len + ROOM - 16);
    expect("grow: the image is there", image_of(handle) == bytes, 1);
    expect("grow: the rest is as before", are_all(bytes + image_len + ROOM - 16, 16, 0x55), 1);
    expect("free memory, larger", lezgauri_free_memory(handle, &all, &largest), LEZGAURI_OK);
    expect("free memory, larger: all", all, free_before + ROOM - 16);
    expect("free memory: largest", largest >= ROOM - 16 && largest <= all, 1);
    expect("grow, size null", lezgauri_grow(handle, 16, NULL), LEZGAURI_OK);
    expect("grow by nothing", lezgauri_grow(handle, 0, &size), LEZGAURI_OK);
    expect("grow by nothing: size", size, image_len + ROOM);
    expect("grow: x", image_of(handle)[720], 43);
    expect("shrink", lezgauri_shrink(handle, &size), LEZGAURI_OK);
    expect("shrink: size", size == size_of(handle) && size <= image_len, 1);
    expect("shrink, size null", lezgauri_shrink(handle, NULL), LEZGAURI_OK);
    expect("shrink: x", image_of(handle)[720], 43);
    lezgauri_close(handle);
    expect("close: the image stays", lezgauri_open_in(bytes, size, size, &handle, NULL), LEZGAURI_OK);
    lezgauri_handle *other;
    expect("two handles", lezgauri_open_in(bytes, size, size, &other, NULL), LEZGAURI_OK);
    expect("two handles: one", lezgauri_run_on(handle, client, client_len, NULL, 0, output, 3, NULL, NULL, NULL), LEZGAURI_OK);
    expect("two handles: the other", lezgauri_run_on(other, client, client_len, NULL, 0, output, 3, NULL, NULL, NULL), LEZGAURI_OK);
    expect("two handles: x", bytes[720], 45);
    lezgauri_close(handle);
    lezgauri_close(other);
    uint8_t *shifted = room(image_len + 1);
    memcpy(shifted + 1, image, image_len);
    expect("open in at an odd address", lezgauri_open_in(shifted + 1, image_len, image_len, &handle, NULL), LEZGAURI_OK);
    expect("run at an odd address", lezgauri_run_on(handle, client, client_len, NULL, 0, output, 3, NULL, NULL, NULL), LEZGAURI_OK);
    lezgauri_close(handle);
    free(shifted);
    free(bytes);
}

/* A client that changes nothing runs on an image of version 2 that can't be written. */
static void read_only(void)
{
    enum { STORE_AT = 71, CONST_AT = 55, INSTRUCTION = 8 };
    uint8_t *reader = room(client_len);
    memcpy(reader, client, client_len);
    memcpy(reader + STORE_AT, client + CONST_AT, INSTRUCTION);
    uint8_t *bytes = mmap(NULL, image_len, PROT_READ | PROT_WRITE, MAP_PRIVATE | MAP_ANONYMOUS, -1, 0);
    lezgauri_handle *handle = NULL;
    lezgauri_client *prepared = NULL;
    char output[3];
    memcpy(bytes, image, image_len);
    bytes[8] = 2;
    mprotect(bytes, image_len, PROT_READ);
    expect("read-only: open in", lezgauri_open_in(bytes, image_len, image_len, &handle, NULL), LEZGAURI_OK);
    expect("read-only: run on", lezgauri_run_on(handle, reader, client_len, NULL, 0, output, 3, NULL, NULL, NULL), LEZGAURI_OK);
    expect("read-only: output", (uint64_t)memcmp(output, "42\n", 3), 0);
    expect("read-only: prepare", lezgauri_prepare(handle, reader, client_len, &prepared, NULL), LEZGAURI_OK);
    expect("read-only: run client", lezgauri_run_client(handle, prepared, NULL, 0, output, 3, NULL, NULL, NULL), LEZGAURI_OK);
    size_t all;
    expect("read-only: free memory", lezgauri_free_memory(handle, &all, NULL), LEZGAURI_OK);
    expect("read-only: x", x_of(handle), 41);
    lezgauri_client_close(prepared);
    lezgauri_close(handle);
    /* opened only for reading, also an image of version 1 */
    mprotect(bytes, image_len, PROT_READ | PROT_WRITE);
    bytes[8] = 1;
    mprotect(bytes, image_len, PROT_READ);
    int64_t x = 0;
    lezgauri_place place;
    expect("read", lezgauri_read(bytes, image_len, &handle, NULL), LEZGAURI_OK);
    expect("read: prepare", lezgauri_prepare(handle, reader, client_len, &prepared, NULL), LEZGAURI_OK);
    expect("read: run client", lezgauri_run_client(handle, prepared, NULL, 0, output, 3, NULL, NULL, NULL), LEZGAURI_READ_ONLY);
    expect("read: free memory", lezgauri_free_memory(handle, &all, NULL), LEZGAURI_OK);
    expect("read: find", lezgauri_find(handle, "x", 0, &place), LEZGAURI_OK);
    expect("read: load", lezgauri_load(handle, place, &x), LEZGAURI_OK);
    expect("read: x", (uint64_t)x, 41);
    expect("read: store", lezgauri_store(handle, place, 42), LEZGAURI_READ_ONLY);
    lezgauri_client_close(prepared);
    lezgauri_close(handle);
    munmap(bytes, image_len);
    free(reader);
}

static void create_calls(void)
{
    enum { SIZE = 4096, LEAST = 736, HEAP = 704 };
    static const size_t sizes[] = {0, 16, LEAST - 16, LEAST - 1, LEAST + 8, ((size_t)1 << 30) + 16, ((size_t)1 << 32) + LEAST, SIZE_MAX};
    lezgauri_handle *handle;
    uint8_t *bytes = room(SIZE);
    for (size_t i = 0; i < sizeof sizes / sizeof *sizes; i++) {
        handle = (lezgauri_handle *)image;
        expect("create, a wrong size", lezgauri_create(sizes[i], LEZGAURI_SEQ_FIT, LEZGAURI_FLAT_INDEX, &handle), LEZGAURI_BAD_SIZE);
        expect("create, a wrong size: no segment", handle != NULL, 0);
        handle = (lezgauri_handle *)image;
        expect("create in, a wrong size", lezgauri_create_in(bytes, SIZE, sizes[i], LEZGAURI_SEQ_FIT, LEZGAURI_FLAT_INDEX, &handle),
               LEZGAURI_BAD_SIZE);
        expect("create in, a wrong size: no segment", handle != NULL, 0);
    }
    expect("create, no such allocator", lezgauri_create(SIZE, 2, LEZGAURI_FLAT_INDEX, &handle), LEZGAURI_BAD_ARGUMENT);
    expect("create, no such index", lezgauri_create(SIZE, LEZGAURI_SEQ_FIT, 2, &handle), LEZGAURI_BAD_ARGUMENT);
    expect("create, handle null", lezgauri_create(SIZE, LEZGAURI_SEQ_FIT, LEZGAURI_FLAT_INDEX, NULL), LEZGAURI_BAD_ARGUMENT);
    expect("create in, handle null", lezgauri_create_in(bytes, SIZE, SIZE, LEZGAURI_SEQ_FIT, LEZGAURI_FLAT_INDEX, NULL),
           LEZGAURI_BAD_ARGUMENT);
    expect("create in of null", lezgauri_create_in(NULL, SIZE, SIZE, LEZGAURI_SEQ_FIT, LEZGAURI_FLAT_INDEX, &handle),
           LEZGAURI_BAD_ARGUMENT);
    expect("create in of null and 0", lezgauri_create_in(NULL, 0, SIZE, LEZGAURI_SEQ_FIT, LEZGAURI_FLAT_INDEX, &handle),
           LEZGAURI_NO_HOST_ROOM);
    expect("create in, no length", lezgauri_create_in(bytes, SIZE_MAX, SIZE, LEZGAURI_SEQ_FIT, LEZGAURI_FLAT_INDEX, &handle),
           LEZGAURI_BAD_ARGUMENT);
    memset(bytes, 0x55, SIZE);
    expect("create in, too little room", lezgauri_create_in(bytes, SIZE - 1, SIZE, LEZGAURI_SEQ_FIT, LEZGAURI_FLAT_INDEX, &handle),
           LEZGAURI_NO_HOST_ROOM);
    expect("create in, the handle in the memory",
           lezgauri_create_in(bytes, SIZE, SIZE, LEZGAURI_SEQ_FIT, LEZGAURI_FLAT_INDEX, (lezgauri_handle **)bytes), LEZGAURI_BAD_ARGUMENT);
    expect("create in, refused: the memory is as before", are_all(bytes, SIZE, 0x55), 1);
    for (uint32_t kinds = 0; kinds < 8; kinds++) {
        uint32_t allocator = kinds & 1 ? LEZGAURI_BEST_FIT : LEZGAURI_SEQ_FIT;
        uint32_t index = kinds & 2 ? LEZGAURI_TREE_INDEX : LEZGAURI_FLAT_INDEX;
        size_t size = SIZE - 1024, all = 0, largest = 0;
        memset(bytes, 0x55, SIZE);
        if (kinds & 4) {
            expect("create in", lezgauri_create_in(bytes, SIZE, size, allocator, index, &handle), LEZGAURI_OK);
            expect("create in: the image is there", image_of(handle) == bytes, 1);
            expect("create in: the rest is as before", are_all(bytes + size, SIZE - size, 0x55), 1);
        } else {
            expect("create", lezgauri_create(size, allocator, index, &handle), LEZGAURI_OK);
        }
        const uint8_t *made_image = image_of(handle);
        expect("create: version, allocator, index", made_image[8] == 2 && made_image[16] == allocator && made_image[20] == index, 1);
        expect("create: size", size_of(handle), size);
        expect("create: free memory", lezgauri_free_memory(handle, &all, &largest), LEZGAURI_OK);
        expect("create: free memory", all == size - HEAP && largest == all, 1);
        expect("create: a client without objects", lezgauri_run_on(handle, client, client_len, NULL, 0, NULL, 0, NULL, NULL, NULL),
               LEZGAURI_OK);
        expect("create: shrink", lezgauri_shrink(handle, &size), LEZGAURI_OK);
        expect("create: shrink: size", size, LEAST);
        expect("create: shrink: sound", image_of(handle) != NULL, 1);
        expect("create: grow", lezgauri_grow(handle, 1008, &size), LEZGAURI_OK);
        expect("create: grow: size", size == size_of(handle) && size == LEAST + 1008, 1);
        expect("create: grow: sound", image_of(handle) != NULL, 1);
        lezgauri_close(handle);
    }
    free(bytes);
}

/* Memory from malloc grows as far as malloc allows. */
static void grow_calls(void)
{
    lezgauri_handle *handle = opened();
    size_t size = image_len;
    /* a single unit would be added to the last block */
    for (size_t extra = 32; extra <= 1 << 20; extra *= 2) {
        size_t grown = 0;
        expect("grow", lezgauri_grow(handle, extra, &grown), LEZGAURI_OK);
        size += extra;
        expect("grow: size", grown, size);
        expect("grow: x", image_of(handle)[720], 41);
    }
    expect("grow: shrink", lezgauri_shrink(handle, &size), LEZGAURI_OK);
    expect("grow: shrink: size", size <= image_len, 1);
    watch(NULL);
    expect("grow again", lezgauri_grow(handle, 1 << 20, &size), LEZGAURI_OK);
    expect("grow again: no request for memory", requests, 0);
    char output[3];
    expect("grow: run", lezgauri_run_on(handle, client, client_len, NULL, 0, output, 3, NULL, NULL, NULL), LEZGAURI_OK);
    expect("grow: x", image_of(handle)[720], 42);
    expect("grow, no segment", lezgauri_grow(NULL, 16, &size), LEZGAURI_BAD_ARGUMENT);
    expect("shrink, no segment", lezgauri_shrink(NULL, &size), LEZGAURI_BAD_ARGUMENT);
    expect("shrink, a size that isn't aligned", lezgauri_shrink(handle, (size_t *)(output + ((uintptr_t)output + 1) % 2)),
           LEZGAURI_BAD_ARGUMENT);
    lezgauri_close(handle);
}

static void print_calls(void)
{
    lezgauri_fault fault;
    expect("print, no room", lezgauri_print(client, client_len, NULL, 0, &text_len, &fault), LEZGAURI_TOO_SMALL);
    expect("print, no room: number", fault.number, LEZGAURI_TOO_SMALL);
    text = room(text_len + 1);
    memset(text, 0x55, text_len + 1);
    expect("print, a byte too small", lezgauri_print(client, client_len, text, text_len - 1, NULL, NULL), LEZGAURI_TOO_SMALL);
    expect("print, a byte too small: as before", text[0], 0x55);
    size_t needed;
    expect("print", lezgauri_print(client, client_len, text, text_len + 1, &needed, &fault), LEZGAURI_OK);
    expect("print: needed", needed, text_len);
    expect("print: number", fault.number, 0);
    expect("print: the last line ends", text[text_len - 1], '\n');
    expect("print: nothing after it", text[text_len], 0x55);
    char first[] = "type i64\nname x\n";
    expect("print: the first lines", (uint64_t)memcmp(text, first, sizeof first - 1), 0);
    expect("print of a cut client", lezgauri_print(client, client_len - 1, text, text_len, &needed, &fault), LEZGAURI_BAD_CODE);
    expect("print of a cut client: position", fault.position, client_len - 8);
    expect("print of a cut client: client", fault.client, 0);
    expect("print of a cut client: needed", needed, 0);
    expect("print of null and 0", lezgauri_print(NULL, 0, text, text_len, &needed, &fault), LEZGAURI_BAD_CODE);
    expect("print: as before", (uint64_t)memcmp(text, first, sizeof first - 1), 0);
}

static void assemble_calls(void)
{
    lezgauri_fault fault;
    size_t needed;
    uint8_t *made_client = room(client_len);
    memset(made_client, 0x55, client_len);
    expect("assemble, a byte too small", lezgauri_assemble(text, text_len, made_client, client_len - 1, &needed, &fault),
           LEZGAURI_TOO_SMALL);
    expect("assemble, a byte too small: needed", needed, client_len);
    expect("assemble, a byte too small: as before", made_client[0], 0x55);
    expect("assemble", lezgauri_assemble(text, text_len, made_client, client_len, &needed, &fault), LEZGAURI_OK);
    expect("assemble: needed", needed, client_len);
    expect("assemble: number", fault.number, 0);
    expect("assemble: the client", (uint64_t)memcmp(made_client, client, client_len), 0);
    expect("assemble, all null", lezgauri_assemble(text, text_len, made_client, client_len, NULL, NULL), LEZGAURI_OK);
    expect("assemble of a cut text", lezgauri_assemble(text, text_len - 4, made_client, client_len, &needed, &fault),
           LEZGAURI_BAD_LINE);
    expect("assemble of a cut text: line", fault.position, 10);
    expect("assemble of a cut text: client", fault.client, LEZGAURI_NO_CLIENT);
    expect("assemble of a cut text: needed", needed, 0);
    expect("assemble of a cut text: as before", (uint64_t)memcmp(made_client, client, client_len), 0);
    expect("assemble of null and 0", lezgauri_assemble(NULL, 0, made_client, client_len, &needed, NULL), LEZGAURI_OK);
    expect("assemble of null and 0: a client without a line", needed, 20);
    free(made_client);
}

static void types_calls(void)
{
    lezgauri_handle *handle = opened();
    lezgauri_type types[LEZGAURI_MOST_TYPES];
    uint8_t texts[TYPED_CLIENT];
    size_t needed = 7;
    expect("types", lezgauri_types(handle, types, LEZGAURI_MOST_TYPES, &needed), LEZGAURI_OK);
    expect("types: needed", needed, 1);
    expect("types: kind", types[0].kind, LEZGAURI_KIND_I64);
    expect("types: count", types[0].count, 0);
    put_typed_client(texts, LEZGAURI_KIND_STR);
    expect("types: another client", lezgauri_run_on(handle, texts, TYPED_CLIENT, NULL, 0, NULL, 0, NULL, NULL, NULL), LEZGAURI_OK);
    memset(types, 0x55, sizeof types);
    expect("types, no room", lezgauri_types(handle, NULL, 0, &needed), LEZGAURI_TOO_SMALL);
    expect("types, no room: needed", needed, 2);
    expect("types, one too small", lezgauri_types(handle, types, 1, NULL), LEZGAURI_TOO_SMALL);
    expect("types, one too small: as before", types[0].kind, 0x55);
    expect("types of two", lezgauri_types(handle, types, 2, NULL), LEZGAURI_OK);
    expect("types of two: kind", types[1].kind, LEZGAURI_KIND_STR);
    expect("types of two: nothing after them", types[2].kind, 0x55);
    expect("types of the entries", (uint64_t)memcmp(types, texts + 20, 2 * sizeof *types), 0);
    expect("types of no segment", lezgauri_types(NULL, types, LEZGAURI_MOST_TYPES, &needed), LEZGAURI_BAD_ARGUMENT);
    lezgauri_close(handle);
}

static void text_calls(void)
{
    expect("version", (uint64_t)strcmp(lezgauri_version(), LEZGAURI_VERSION), 0);
    for (uint32_t number = 0; number < 200; number++) {
        expect("a status has a text", strlen(lezgauri_status_text(number)) > 0, 1);
        expect("a reason has a text", strlen(lezgauri_reason_text(number)) > 0, 1);
    }
    expect("text of a fault", (uint64_t)strcmp(lezgauri_status_text(LEZGAURI_DOUBLE_OWNER),
           "one pointer should own the block, but two do"), 0);
    expect("text of no status", (uint64_t)strcmp(lezgauri_status_text(UINT32_MAX), "unknown status"), 0);
    expect("text of no reason", (uint64_t)strcmp(lezgauri_reason_text(0), "unknown reason"), 0);
}

/* ---- each invalid argument of each call */

/* A pointer argument: the length of its memory, its alignment, and what the call does with it. */
typedef struct argument {
    const char *name;
    uint8_t *at;
    size_t len;
    size_t align;
    bool is_written;
    bool may_be_null;
    bool is_counted; /* the caller gives its length */
    bool is_image;
} argument;

enum { MOST_ARGUMENTS = 8 };

/* A call, and memory with which it succeeds. The memory is in one block, part after part, except an open segment and a prepared
 * client. */
typedef struct call {
    const char *name;
    uint32_t (*make)(const argument *arguments);
    size_t count;
    argument arguments[MOST_ARGUMENTS];
    bool has_fault; /* its first argument is *fault */
    size_t outside; /* how many arguments, the last ones, are outside the block */
} call;

static uint8_t *block;
static uint8_t *before;
static size_t block_len;

static uint32_t make_check(const argument *a)
{
    return lezgauri_check(a[1].at, a[1].len, (lezgauri_fault *)a[0].at);
}

static uint32_t make_verify(const argument *a)
{
    return lezgauri_verify(a[2].at, a[2].len, a[3].at, a[3].len, (uint64_t *)a[1].at, (lezgauri_fault *)a[0].at);
}

static uint32_t make_run(const argument *a)
{
    return lezgauri_run(a[5].at, a[5].len, (lezgauri_bytes *)a[6].at, 1, a[7].at, a[7].len, a[2].at, a[2].len, (size_t *)a[1].at,
                        a[3].at, (lezgauri_report *)a[4].at, (lezgauri_fault *)a[0].at);
}

static uint32_t make_open(const argument *a)
{
    uint32_t status = lezgauri_open(a[2].at, a[2].len, (lezgauri_handle **)a[1].at, (lezgauri_fault *)a[0].at);
    if (status == LEZGAURI_OK) {
        lezgauri_close(*(lezgauri_handle **)a[1].at);
    }
    return status;
}

static uint32_t make_open_in(const argument *a)
{
    uint32_t status = lezgauri_open_in(a[2].at, a[2].len, a[2].len, (lezgauri_handle **)a[1].at, (lezgauri_fault *)a[0].at);
    if (status == LEZGAURI_OK) {
        lezgauri_close(*(lezgauri_handle **)a[1].at);
    }
    return status;
}

static uint32_t make_grow(const argument *a)
{
    return lezgauri_grow((lezgauri_handle *)a[1].at, 0, (size_t *)a[0].at);
}

static uint32_t make_size(const argument *a)
{
    return lezgauri_size((lezgauri_handle *)a[1].at, (size_t *)a[0].at);
}

static uint32_t make_free_memory(const argument *a)
{
    return lezgauri_free_memory((lezgauri_handle *)a[2].at, (size_t *)a[0].at, (size_t *)a[1].at);
}

static uint32_t make_image(const argument *a)
{
    return lezgauri_image((lezgauri_handle *)a[1].at, (lezgauri_bytes *)a[0].at);
}

static uint32_t make_run_on(const argument *a)
{
    return lezgauri_run_on((lezgauri_handle *)a[6].at, a[4].at, a[4].len, a[5].at, a[5].len, a[3].at, a[3].len,
                           (size_t *)a[1].at, (lezgauri_report *)a[2].at, (lezgauri_fault *)a[0].at);
}

static uint32_t make_run_whole(const argument *a)
{
    return lezgauri_run_whole((lezgauri_handle *)a[6].at, a[4].at, a[4].len, a[5].at, a[5].len, a[3].at, a[3].len,
                              (size_t *)a[1].at, (lezgauri_report *)a[2].at, (lezgauri_fault *)a[0].at);
}

static uint32_t make_prepare(const argument *a)
{
    uint32_t status = lezgauri_prepare((lezgauri_handle *)a[3].at, a[2].at, a[2].len, (lezgauri_client **)a[1].at,
                                       (lezgauri_fault *)a[0].at);
    if (status == LEZGAURI_OK) {
        lezgauri_client_close(*(lezgauri_client **)a[1].at);
    }
    return status;
}

static uint32_t make_run_client(const argument *a)
{
    return lezgauri_run_client((lezgauri_handle *)a[6].at, (lezgauri_client *)a[5].at, a[4].at, a[4].len, a[3].at, a[3].len,
                               (size_t *)a[1].at, (lezgauri_report *)a[2].at, (lezgauri_fault *)a[0].at);
}

static uint32_t make_save(const argument *a)
{
    return lezgauri_save((lezgauri_handle *)a[2].at, a[1].at, a[1].len, (size_t *)a[0].at);
}

static uint32_t make_types(const argument *a)
{
    return lezgauri_types((lezgauri_handle *)a[2].at, (lezgauri_type *)a[1].at, a[1].len / sizeof(lezgauri_type), (size_t *)a[0].at);
}

static uint32_t make_assemble(const argument *a)
{
    return lezgauri_assemble(a[3].at, a[3].len, a[2].at, a[2].len, (size_t *)a[1].at, (lezgauri_fault *)a[0].at);
}

static uint32_t make_print(const argument *a)
{
    return lezgauri_print(a[3].at, a[3].len, a[2].at, a[2].len, (size_t *)a[1].at, (lezgauri_fault *)a[0].at);
}

/* Whether a refused call wrote *fault, which then has the status, or *handle or *prepared, which then is null. */
typedef enum telling { TOLD, UNTOLD, EITHER } telling;

static void told_in(const char *name, uint8_t *at, size_t len, bool is_right, telling how)
{
    uint8_t *old = before + (at - block);
    bool is_as_before = memcmp(at, old, len) == 0;
    expect(name, is_right, how != UNTOLD && !(how == EITHER && is_as_before));
    if (is_right) {
        memcpy(at, old, len);
    }
}

/* Makes a call, and expects a status. The block must be unchanged, except where the call reports the refusal. */
static void refused(const call *of, const char *how, const char *with, const argument *arguments, uint32_t status,
                    telling fault_is, telling handle_is)
{
    char name[120];
    snprintf(name, sizeof name, "%s, %s%s", of->name, how, with);
    memcpy(before, block, block_len);
    expect(name, of->make(arguments), status);
    if (of->has_fault) {
        lezgauri_fault *fault = (lezgauri_fault *)of->arguments[0].at;
        told_in(name, (uint8_t *)fault, sizeof *fault, fault->number == status && fault->client == LEZGAURI_NO_CLIENT, fault_is);
    }
    if (of->make == make_open || of->make == make_open_in || of->make == make_prepare) {
        lezgauri_handle **handle = (lezgauri_handle **)of->arguments[1].at;
        told_in(name, (uint8_t *)handle, sizeof *handle, *handle == NULL, handle_is);
    }
    expect(name, (uint64_t)memcmp(before, block, block_len), 0);
    memcpy(block, before, block_len);
}

/* Makes each argument that a call writes overlap the start, and then the end, of each other memory of the call. */
static void overlaps(const call *of)
{
    for (size_t i = 0; i < of->count - of->outside; i++) {
        for (size_t j = 0; j < of->count; j++) {
            argument changed[MOST_ARGUMENTS];
            memcpy(changed, of->arguments, sizeof changed);
            argument *over = &changed[i];
            const argument *under = &of->arguments[j];
            telling fault_is = i == 0 || j == 0 ? UNTOLD : TOLD;
            telling handle_is = i == 1 || j == 1 ? UNTOLD : over->len > under->len ? EITHER : TOLD;
            if (i == j || !(over->is_written || under->is_written)) {
                continue;
            }
            char with[80];
            snprintf(with, sizeof with, "%s over %s", over->name, under->name);
            over->at = under->at;
            refused(of, "", with, changed, LEZGAURI_BAD_ARGUMENT, fault_is, handle_is);
            over->at = under->at + (under->len - 1) / over->align * over->align;
            /* it may overlap the next argument too */
            bool is_outside = j + of->outside >= of->count;
            refused(of, "the end: ", with, changed, LEZGAURI_BAD_ARGUMENT, is_outside ? EITHER : fault_is,
                    j == 0 ? EITHER : handle_is);
        }
    }
}

static void nulls(const call *of)
{
    for (size_t i = 0; i < of->count; i++) {
        argument changed[MOST_ARGUMENTS];
        memcpy(changed, of->arguments, sizeof changed);
        changed[i].at = NULL;
        if (!of->arguments[i].may_be_null) {
            refused(of, "null: ", changed[i].name, changed, LEZGAURI_BAD_ARGUMENT, TOLD, i == 1 ? UNTOLD : TOLD);
        } else {
            memcpy(before, block, block_len);
            expect(changed[i].name, of->make(changed), LEZGAURI_OK);
            memcpy(block, before, block_len);
        }
    }
}

static void odd_addresses(const call *of)
{
    for (size_t i = 0; i < of->count - of->outside; i++) {
        argument changed[MOST_ARGUMENTS];
        memcpy(changed, of->arguments, sizeof changed);
        if (changed[i].align > 1) {
            changed[i].at++;
            refused(of, "not aligned: ", changed[i].name, changed, LEZGAURI_BAD_ARGUMENT, i == 0 ? UNTOLD : TOLD,
                    i == 1 ? UNTOLD : EITHER);
        }
    }
}

static void lengths(const call *of)
{
    static const size_t none[] = {SIZE_MAX, SIZE_MAX - 16, (size_t)PTRDIFF_MAX + 1};
    static const size_t images[] = {((size_t)1 << 30) + 1, (size_t)3 << 30, (size_t)1 << 62, PTRDIFF_MAX};
    for (size_t i = 0; i < of->count; i++) {
        argument changed[MOST_ARGUMENTS];
        memcpy(changed, of->arguments, sizeof changed);
        for (size_t k = 0; changed[i].is_counted && k < sizeof none / sizeof *none; k++) {
            changed[i].len = none[k];
            refused(of, "no length: ", changed[i].name, changed, LEZGAURI_BAD_ARGUMENT, EITHER, EITHER);
        }
        for (size_t k = 0; changed[i].is_image && k < sizeof images / sizeof *images; k++) {
            changed[i].len = images[k];
            refused(of, "no image's length: ", changed[i].name, changed, LEZGAURI_BAD_HEADER, EITHER, EITHER);
        }
    }
}

/* Puts the memory of a call into the block, with an image and a client if the call has them. */
static void lay_out(call *of)
{
    size_t at = 0;
    memset(block, 0x55, block_len);
    for (size_t i = 0; i < of->count - of->outside; i++) {
        argument *argument = &of->arguments[i];
        argument->at = block + at;
        at += (argument->len + 15) / 16 * 16;
        if (argument->is_image) {
            memcpy(argument->at, image, image_len);
        } else if (strcmp(argument->name, "client") == 0) {
            memcpy(argument->at, client, client_len);
        } else if (strcmp(argument->name, "text") == 0) {
            memcpy(argument->at, text, text_len);
        } else if (strcmp(argument->name, "clients") == 0) {
            memcpy(argument->at, &(lezgauri_bytes){client, client_len}, sizeof(lezgauri_bytes));
        }
    }
}

#define PLACE(type, name) {name, NULL, sizeof(type), alignof(type), true, true, false, false}
#define FAULT PLACE(lezgauri_fault, "fault")
#define IMAGE {"image", NULL, image_len, 1, false, false, true, true}
#define CLIENT {"client", NULL, client_len, 1, false, false, true, false}
#define INPUT {"input", NULL, 16, 1, false, false, true, false}
#define OUTPUT {"output", NULL, 16, 1, true, false, true, false}
#define SEGMENT {"segment", (uint8_t *)handle, 16, 1, true, false, false, false}
/* isn't passed, but belongs to the segment */
#define ITS_IMAGE {"image of the segment", (uint8_t *)image_of(handle), image_len, 1, true, true, false, false}
#define HANDLE {"handle", NULL, sizeof(lezgauri_handle *), alignof(lezgauri_handle *), true, false, false, false}

static void arguments(void)
{
    lezgauri_handle *handle = opened();
    lezgauri_client *prepared = prepared_on(handle);
    call calls[] = {
        {"check", make_check, 2, {FAULT, IMAGE}, true, 0},
        {"verify", make_verify, 4, {FAULT, PLACE(uint64_t, "bound"), IMAGE, CLIENT}, true, 0},
        {"run",
         make_run,
         8,
         {FAULT,
          PLACE(size_t, "written"),
          OUTPUT,
          {"saved", NULL, image_len, 1, true, false, false, false},
          PLACE(lezgauri_report, "reports"),
          IMAGE,
          {"clients", NULL, sizeof(lezgauri_bytes), alignof(lezgauri_bytes), false, false, false, false},
          INPUT},
         true,
         0},
        {"open",
         make_open,
         3,
         {FAULT, HANDLE, IMAGE},
         true,
         0},
        {"open in", make_open_in, 3, {FAULT, HANDLE, {"memory", NULL, image_len, 1, true, false, true, true}}, true, 0},
        {"grow", make_grow, 3, {PLACE(size_t, "size"), SEGMENT, ITS_IMAGE}, false, 2},
        {"size", make_size, 3, {{"size", NULL, sizeof(size_t), alignof(size_t), true, false, false, false}, SEGMENT, ITS_IMAGE}, false, 2},
        {"free memory", make_free_memory, 4, {PLACE(size_t, "all"), PLACE(size_t, "largest"), SEGMENT, ITS_IMAGE}, false, 2},
        {"image",
         make_image,
         3,
         {{"bytes", NULL, sizeof(lezgauri_bytes), alignof(lezgauri_bytes), true, false, false, false}, SEGMENT, ITS_IMAGE},
         false,
         2},
        {"run on",
         make_run_on,
         8,
         {FAULT, PLACE(size_t, "written"), PLACE(lezgauri_report, "report"), OUTPUT, CLIENT, INPUT, SEGMENT, ITS_IMAGE},
         true,
         2},
        {"run whole",
         make_run_whole,
         8,
         {FAULT, PLACE(size_t, "needed"), PLACE(lezgauri_report, "report"), OUTPUT, CLIENT, INPUT, SEGMENT, ITS_IMAGE},
         true,
         2},
        {"prepare",
         make_prepare,
         5,
         {FAULT,
          {"prepared", NULL, sizeof(lezgauri_client *), alignof(lezgauri_client *), true, false, false, false},
          CLIENT,
          SEGMENT,
          ITS_IMAGE},
         true,
         2},
        {"run client",
         make_run_client,
         8,
         {FAULT,
          PLACE(size_t, "written"),
          PLACE(lezgauri_report, "report"),
          OUTPUT,
          INPUT,
          {"prepared", (uint8_t *)prepared, client_len, 1, true, false, false, false},
          SEGMENT,
          ITS_IMAGE},
         true,
         3},
        {"save",
         make_save,
         4,
         {PLACE(size_t, "needed"), {"buffer", NULL, image_len, 1, true, false, true, false}, SEGMENT, ITS_IMAGE},
         false,
         2},
        {"types",
         make_types,
         4,
         {PLACE(size_t, "needed"), {"types", NULL, sizeof(lezgauri_type), 1, true, false, true, false}, SEGMENT, ITS_IMAGE},
         false,
         2},
        {"assemble",
         make_assemble,
         4,
         {FAULT,
          PLACE(size_t, "needed"),
          {"buffer", NULL, client_len, 1, true, false, true, false},
          {"text", NULL, text_len, 1, false, false, true, false}},
         true,
         0},
        {"print",
         make_print,
         4,
         {FAULT, PLACE(size_t, "needed"), {"buffer", NULL, text_len, 1, true, false, true, false}, CLIENT},
         true,
         0},
    };
    block_len = 4 * image_len + 4096;
    block = aligned_alloc(16, (block_len + 15) / 16 * 16);
    before = room(block_len);
    for (size_t i = 0; i < sizeof calls / sizeof *calls; i++) {
        call *of = &calls[i];
        lay_out(of);
        expect(of->name, of->make(of->arguments), LEZGAURI_OK);
        lay_out(of);
        uint8_t x = x_of(handle);
        overlaps(of);
        odd_addresses(of);
        lengths(of);
        expect("refused: the segment is as before", x_of(handle), x);
        nulls(of);
    }
    free(block);
    free(before);
    lezgauri_client_close(prepared);
    lezgauri_close(handle);
}

/* ---- an image that changes while it is opened */

static size_t spoil_at;

static void spoil(size_t request)
{
    if (request == spoil_at) {
        image[708] ^= 1;
    }
}

/* If another process spoils the image at any request for memory, an opened segment is sound. */
static void changing_image(void)
{
    watch(NULL);
    lezgauri_close(opened());
    size_t all = requests;
    int refused_opens = 0;
    for (spoil_at = 1; spoil_at <= all; spoil_at++) {
        lezgauri_handle *handle = NULL;
        watch(spoil);
        uint32_t status = lezgauri_open(image, image_len, &handle, NULL);
        watch(NULL);
        expect("open of a changing image: a segment", handle != NULL, status == LEZGAURI_OK);
        if (handle != NULL) {
            expect("open of a changing image: x", x_of(handle), 41);
            lezgauri_close(handle);
        }
        refused_opens += status != LEZGAURI_OK;
        image[708] ^= 1;
    }
    expect("open of a changing image: the copy comes first", refused_opens, 1);
    expect("open of a changing image: as before", lezgauri_check(image, image_len, NULL), LEZGAURI_OK);
}

/* ---- a segment that two calls use at once */

static lezgauri_handle *shared;
static lezgauri_client *shared_client;

static void use_meanwhile(size_t request)
{
    if (request != 1) {
        return;
    }
    char output[3];
    uint8_t saved[1];
    lezgauri_fault fault = {0};
    size_t count = 7;
    expect("run on a busy segment", lezgauri_run_on(shared, client, client_len, NULL, 0, output, 3, &count, NULL, &fault),
           LEZGAURI_BUSY);
    expect("run on a busy segment: number", fault.number, LEZGAURI_BUSY);
    expect("run on a busy segment: client", fault.client, LEZGAURI_NO_CLIENT);
    expect("run on a busy segment: written", count, 7);
    expect("run whole on a busy segment",
           lezgauri_run_whole(shared, client, client_len, NULL, 0, output, 3, &count, NULL, &fault), LEZGAURI_BUSY);
    expect("run whole on a busy segment: needed", count, 7);
    lezgauri_client *prepared = (lezgauri_client *)image;
    expect("prepare for a busy segment", lezgauri_prepare(shared, client, client_len, &prepared, &fault), LEZGAURI_BUSY);
    expect("prepare for a busy segment: no client", prepared != NULL, 0);
    expect("run client on a busy segment",
           lezgauri_run_client(shared, shared_client, NULL, 0, output, 3, &count, NULL, &fault), LEZGAURI_BUSY);
    expect("run client on a busy segment: written", count, 7);
    expect("save of a busy segment, no room", lezgauri_save(shared, saved, 1, NULL), LEZGAURI_TOO_SMALL);
    lezgauri_type types[LEZGAURI_MOST_TYPES];
    expect("types of a busy segment", lezgauri_types(shared, types, LEZGAURI_MOST_TYPES, &count), LEZGAURI_BUSY);
    expect("types of a busy segment: needed", count, 7);
    uint8_t whole[4096];
    expect("save of a busy segment", lezgauri_save(shared, whole, image_len, NULL), LEZGAURI_BUSY);
    lezgauri_bytes bytes = {NULL, 7};
    expect("image of a busy segment", lezgauri_image(shared, &bytes), LEZGAURI_BUSY);
    expect("image of a busy segment: length", bytes.len, 7);
    count = 7;
    expect("grow of a busy segment", lezgauri_grow(shared, 16, &count), LEZGAURI_BUSY);
    expect("shrink of a busy segment", lezgauri_shrink(shared, &count), LEZGAURI_BUSY);
    expect("free memory of a busy segment", lezgauri_free_memory(shared, &count, NULL), LEZGAURI_BUSY);
    expect("busy segment: count", count, 7);
    expect("size of a busy segment", size_of(shared), image_len);
}

/* While a call that requests memory runs, each other call on its segment returns LEZGAURI_BUSY. */
static void busy_calls(void)
{
    shared = opened();
    shared_client = prepared_on(shared);
    watch(use_meanwhile);
    lezgauri_client *meanwhile = NULL;
    expect("prepare, others meanwhile", lezgauri_prepare(shared, client, client_len, &meanwhile, NULL), LEZGAURI_OK);
    lezgauri_client_close(meanwhile);
    watch(use_meanwhile);
    char output[3];
    expect("run on, others meanwhile", lezgauri_run_on(shared, client, client_len, NULL, 0, output, 3, NULL, NULL, NULL),
           LEZGAURI_OK);
    expect("run on, others meanwhile: it asked for memory", requests > 0, 1);
    watch(NULL);
    expect("busy calls: x", x_of(shared), 42);
    expect("run on, no longer busy", lezgauri_run_on(shared, client, client_len, NULL, 0, output, 3, NULL, NULL, NULL), LEZGAURI_OK);
    expect("run client, no longer busy", lezgauri_run_client(shared, shared_client, NULL, 0, output, 3, NULL, NULL, NULL), LEZGAURI_OK);
    lezgauri_client_close(shared_client);
    lezgauri_close(shared);
}

enum { RUNS = 2000 };

static void *count_runs(void *counted)
{
    for (int i = 0; i < RUNS; i++) {
        char output[24];
        uint32_t status = lezgauri_run_on(shared, client, client_len, NULL, 0, output, sizeof output, NULL, NULL, NULL);
        *(int *)counted += status == LEZGAURI_OK;
        if (status != LEZGAURI_OK && status != LEZGAURI_BUSY) {
            *(int *)counted = -RUNS;
        }
    }
    return NULL;
}

static uint64_t number_of(lezgauri_handle *handle)
{
    uint8_t *saved = room(image_len);
    expect("save", lezgauri_save(handle, saved, image_len, NULL), LEZGAURI_OK);
    uint64_t number = 0;
    for (int i = 7; i >= 0; i--) {
        number = number << 8 | saved[720 + i];
    }
    free(saved);
    return number;
}

/* A thread's own segment, and how often it ran the prepared client there; -1 after a wrong status. */
typedef struct own_runs {
    lezgauri_handle *handle;
    int ran;
} own_runs;

static void *count_client_runs(void *given)
{
    own_runs *own = given;
    for (int i = 0; i < RUNS && own->ran >= 0; i++) {
        char output[24];
        uint32_t status = lezgauri_run_client(own->handle, shared_client, NULL, 0, output, sizeof output, NULL, NULL, NULL);
        if (status == LEZGAURI_OK) {
            own->ran++;
        } else if (status != LEZGAURI_BUSY) {
            own->ran = -1;
        }
    }
    return NULL;
}

/* Two threads run one client, each on its own segment. Each run that returns LEZGAURI_OK has counted. */
static void client_threads(void)
{
    own_runs own[2] = {{opened(), 0}, {opened(), 0}};
    pthread_t thread[2];
    shared_client = prepared_on(own[0].handle);
    for (int i = 0; i < 2; i++) {
        pthread_create(&thread[i], NULL, count_client_runs, &own[i]);
    }
    for (int i = 0; i < 2; i++) {
        pthread_join(thread[i], NULL);
        expect("two threads with a client", own[i].ran >= 0, 1);
        expect("two threads with a client: number", number_of(own[i].handle), 41 + (uint64_t)own[i].ran);
        lezgauri_close(own[i].handle);
    }
    lezgauri_client_close(shared_client);
}

/* Two threads run a client on one segment at once. Each run that returns LEZGAURI_OK has counted. Then one thread runs it. */
static void threads(void)
{
    int counted[2] = {0, 0};
    pthread_t thread[2];
    shared = opened();
    for (int i = 0; i < 2; i++) {
        pthread_create(&thread[i], NULL, count_runs, &counted[i]);
    }
    for (int i = 0; i < 2; i++) {
        pthread_join(thread[i], NULL);
    }
    expect("two threads at once", number_of(shared), 41 + (uint64_t)counted[0] + (uint64_t)counted[1]);
    counted[0] = 0;
    pthread_create(&thread[0], NULL, count_runs, &counted[0]);
    pthread_join(thread[0], NULL);
    expect("another thread", (uint64_t)counted[0], RUNS);
    lezgauri_close(shared);
}

int main(int argc, char **argv)
{
    if (argc != 3) {
        fprintf(stderr, "usage: calls IMAGE CLIENT\n");
        return 2;
    }
    image = read_file(argv[1], &image_len);
    client = read_file(argv[2], &client_len);
    check_calls();
    verify_calls();
    run_calls();
    open_calls();
    run_on_calls();
    run_whole_calls();
    memory_of_runs();
    lent_memory();
    prepare_calls();
    run_client_calls();
    client_types();
    save_calls();
    open_in_calls();
    read_only();
    create_calls();
    grow_calls();
    print_calls();
    assemble_calls();
    types_calls();
    text_calls();
    arguments();
    changing_image();
    busy_calls();
    threads();
    client_threads();
    free(image);
    free(client);
    free(text);
    printf("%d calls and results, %d wrong\n", made, wrong);
    return wrong > 0;
}
