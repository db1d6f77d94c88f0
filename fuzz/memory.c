/*
 * The target `memory`: calls that take memory from malloc, each with every one of its requests refused in turn. A call
 * whose request is refused returns LEZGAURI_MEMORY, leaves the segment, the caller's memory and the output unchanged,
 * and frees what it took, except that the segment may keep its types until it is closed; or it doesn't need the memory,
 * and does what it does otherwise.
 */
#include "fuzz.h"

#include <stdlib.h>
#include <string.h>

/* TYPES: the blocks of memory of a segment's types. */
enum { TYPES = 1, SIZE = 1 << 13, MOST_OUTPUT = 1 << 14, MOST_REQUESTS = 10000 };

enum operation {
    CHECK,
    VERIFY,
    RUN,
    OPEN,
    OPEN_IN,
    READ,
    CREATE,
    CREATE_IN,
    ASSEMBLE,
    PRINT,
    ADD_TYPES,
    PREPARE,
    RUN_ON,
    RUN_WHOLE,
    GROW,
    READER,
    FIRST_CALL,
    OPERATIONS
};

/* What calls work on. */
typedef struct work {
    const uint8_t *client;
    size_t client_len;
    uint8_t image[SIZE], saved[SIZE], lent[2 * SIZE];
    uint8_t output[MOST_OUTPUT];
    uint8_t text[MOST_OUTPUT];
    size_t text_len;
    lezgauri_type types[LEZGAURI_MOST_TYPES];
    uint32_t type_count;
    lezgauri_handle *segment;
} work;

/* Makes a call, and closes what it opened. */
static uint32_t make(work *of, enum operation operation)
{
    lezgauri_bytes clients[] = {{of->client, of->client_len}, {of->client, of->client_len}};
    lezgauri_handle *made = NULL, *other = NULL;
    lezgauri_client *prepared = NULL;
    lezgauri_place place;
    lezgauri_report reports[2];
    uint64_t bound;
    size_t size, written, needed;
    uint32_t status = LEZGAURI_OK;
    switch (operation) {
    case CHECK: return lezgauri_check(of->image, SIZE, NULL);
    case VERIFY: return lezgauri_verify(of->image, SIZE, of->client, of->client_len, &bound, NULL);
    case RUN:
        return lezgauri_run(of->image, SIZE, clients, 2, NULL, 0, of->output, MOST_OUTPUT, &written, of->saved, reports,
                            NULL);
    case OPEN: status = lezgauri_open(of->image, SIZE, &made, NULL); break;
    case OPEN_IN: status = lezgauri_open_in(of->lent, SIZE, sizeof of->lent, &made, NULL); break;
    case READ: status = lezgauri_read(of->image, SIZE, &made, NULL); break;
    case CREATE: status = lezgauri_create(SIZE, 0, 1, &made); break;
    case CREATE_IN: status = lezgauri_create_in(of->lent, sizeof of->lent, SIZE, 1, 0, &made); break;
    case ASSEMBLE: return lezgauri_assemble(of->text, of->text_len, of->output, MOST_OUTPUT, &needed, NULL);
    case PRINT: return lezgauri_print(of->client, of->client_len, of->output, MOST_OUTPUT, &needed, NULL);
    case ADD_TYPES: return lezgauri_add_types(of->segment, of->types, of->type_count, NULL);
    case PREPARE:
        status = lezgauri_prepare(of->segment, of->client, of->client_len, &prepared, NULL);
        NEED((status == LEZGAURI_OK) == (prepared != NULL), "a prepared client after %u", status);
        break;
    case RUN_ON:
        return lezgauri_run_on(of->segment, of->client, of->client_len, NULL, 0, of->output, MOST_OUTPUT, &written,
                               reports, NULL);
    case RUN_WHOLE:
        return lezgauri_run_whole(of->segment, of->client, of->client_len, NULL, 0, of->output, MOST_OUTPUT, &written,
                                  reports, NULL);
    case GROW: return lezgauri_grow(of->segment, 4096, &size);
    case READER:
        status = lezgauri_read(of->image, SIZE, &made, NULL);
        if (status == LEZGAURI_OK) {
            status = lezgauri_reader(made, &other);
            NEED((status == LEZGAURI_OK) == (other != NULL), "a reader after %u", status);
        }
        lezgauri_close(other);
        lezgauri_close(made);
        return status;
    default: return lezgauri_find_unique(of->segment, 0, &place);
    }
    if (operation != PREPARE) {
        NEED((status == LEZGAURI_OK) == (made != NULL), "a segment after %u", status);
    }
    lezgauri_close(made);
    lezgauri_client_close(prepared);
    return status;
}

/* The memory and the segment before a call. */
static void prepare(work *of)
{
    memset(of->saved, 0x5a, sizeof of->saved);
    memset(of->output, 0x5a, sizeof of->output);
    memset(of->lent, 0x5a, sizeof of->lent);
    memcpy(of->lent, of->image, SIZE);
    NEED(lezgauri_open(of->image, SIZE, &of->segment, NULL) == LEZGAURI_OK, "a new image isn't opened");
}

static uint64_t hash_all(const work *of)
{
    lezgauri_bytes image;
    NEED(lezgauri_image(of->segment, &image) == LEZGAURI_OK, "no image");
    uint64_t hash = hash_bytes(image.len, image.bytes, image.len);
    hash = hash_bytes(hash, of->saved, sizeof of->saved);
    hash = hash_bytes(hash, of->output, sizeof of->output);
    return hash_bytes(hash, of->lent, sizeof of->lent);
}

static void refuse_each(work *of, enum operation operation)
{
    prepare(of);
    uint64_t before = hash_all(of);
    uint32_t wanted = make(of, operation);
    uint64_t after = hash_all(of);
    lezgauri_close(of->segment);
    bool is_reached = true;
    for (unsigned request = 1; is_reached; request++) {
        NEED(request < MOST_REQUESTS, "too many requests");
        long closed = live_blocks();
        prepare(of);
        long taken = live_blocks();
        refuse_request(request);
        uint32_t status = make(of, operation);
        is_reached = requests() >= request;
        refuse_request(0);
        counters[CALLS]++;
        if (status == LEZGAURI_MEMORY) {
            counters[REFUSALS]++;
            NEED(is_reached, "call %d: out of host memory, and no request was refused", operation);
            NEED(hash_all(of) == before, "call %d: out of host memory at request %u, and something has changed",
                 operation, request);
            long kept = live_blocks() - taken;
            NEED(kept == 0 || kept == TYPES, "call %d: request %u refused, and memory is lost", operation, request);
        } else {
            NEED(status == wanted, "call %d: status %u with request %u refused, and %u otherwise", operation, status,
                 request, wanted);
            NEED(hash_all(of) == after, "call %d: another result with request %u refused", operation, request);
        }
        lezgauri_close(of->segment);
        NEED(live_blocks() == closed, "call %d: request %u refused, and the closed segment has memory", operation, request);
    }
}

void run_memory(const uint8_t *input, size_t len);
size_t memory_input(choices *from, uint8_t *input);

void run_memory(const uint8_t *input, size_t len)
{
    static work of;
    uint64_t bound;
    lezgauri_handle *segment;
    choices from = choices_of_bytes(input, len);
    of.client = input;
    of.client_len = len;
    of.type_count = generate_types(&from, of.types);
    NEED(lezgauri_create(SIZE, choose(&from, 2), choose(&from, 2), &segment) == LEZGAURI_OK, "not created");
    NEED(lezgauri_save(segment, of.image, SIZE, NULL) == LEZGAURI_OK, "not saved");
    lezgauri_close(segment);
    of.text_len = 0;
    if (lezgauri_print(input, len, of.text, sizeof of.text, &of.text_len, NULL) != LEZGAURI_OK) {
        of.text_len = 0;
    }
    if (lezgauri_verify(of.image, SIZE, input, len, &bound, NULL) == LEZGAURI_OK) {
        counters[ACCEPTED]++;
        if (bound > 20000) {
            return;
        }
    } else {
        counters[REFUSED]++;
    }
    for (int operation = 0; operation < OPERATIONS; operation++) {
        refuse_each(&of, (enum operation)operation);
    }
}

size_t memory_input(choices *from, uint8_t *input)
{
    return find_target("client")->generate(from, input);
}
