/*
 * Compares how much stack each call touches with the limits in lezgauri.h. Each call runs on a thread whose stack is filled with
 * one byte before; afterwards the other bytes show how far the call wrote. Prints a line for each call, and fails if a call
 * touches more than its limit.
 *
 *   stack IMAGE CLIENT [IMAGE CLIENT]..     images and clients for the calls; each client must be accepted on its image
 */
#define _DEFAULT_SOURCE
#include <lezgauri.h>

#include <pthread.h>
#include <stdio.h>
#include <stdlib.h>
#include <string.h>
#include <sys/mman.h>

enum { STACK = 8 << 20, PAINT = 0xC5, MOST_OUTPUT = 1 << 16, SIZE = 1 << 16 };

/* The first types of the segment for calls on values. The others are structs, each of which contains the one before, twice as large each
 * time up to 1024 bytes. */
enum { NUMBER, TEXT, NUMBERS, LIST, FLAT_MAP, MAP, OWN, SHARED, PAIR, PAIRS, NUMBER_MAP, TYPES };

static const lezgauri_type first_types[TYPES] = {
    [NUMBER] = {LEZGAURI_KIND_I64, 0, {0}, {0}},          [TEXT] = {LEZGAURI_KIND_STR, 0, {0}, {0}},
    [NUMBERS] = {LEZGAURI_KIND_VEC, 1, {NUMBER}, {0}},    [LIST] = {LEZGAURI_KIND_LIST, 1, {MAP}, {0}},
    [FLAT_MAP] = {LEZGAURI_KIND_FLAT_MAP, 1, {LIST}, {0}}, [MAP] = {LEZGAURI_KIND_MAP, 1, {OWN}, {0}},
    [OWN] = {LEZGAURI_KIND_OWN, 1, {LIST}, {0}},          [SHARED] = {LEZGAURI_KIND_SHARED, 1, {LIST}, {0}},
    [PAIR] = {LEZGAURI_KIND_STRUCT, 2, {NUMBER, TEXT}, {0}}, [PAIRS] = {LEZGAURI_KIND_FLAT_MAP, 1, {NUMBER}, {0}},
    [NUMBER_MAP] = {LEZGAURI_KIND_MAP, 1, {NUMBER}, {0}},
};

/* The arguments of a call, and its status. */
typedef struct work {
    const uint8_t *image;
    size_t len;
    lezgauri_bytes client;
    uint8_t *saved;
    lezgauri_handle *segment;
    lezgauri_client *prepared;
    lezgauri_handle *values; /* a segment for calls on values */
    lezgauri_handle *reader;
    lezgauri_handle *other;
    lezgauri_place place[TYPES]; /* an object of each of the first types */
    char *output;
    size_t text_len; /* of the client's text, in `output` */
    uint32_t status;
} work;

static void *nothing(void *given)
{
    ((work *)given)->status = LEZGAURI_OK;
    return NULL;
}

static void *check(void *given)
{
    work *of = given;
    lezgauri_fault fault;
    of->status = lezgauri_check(of->image, of->len, &fault);
    return NULL;
}

static void *verify(void *given)
{
    work *of = given;
    lezgauri_fault fault;
    uint64_t bound;
    of->status = lezgauri_verify(of->image, of->len, of->client.bytes, of->client.len, &bound, &fault);
    return NULL;
}

static void *run(void *given)
{
    work *of = given;
    lezgauri_fault fault;
    lezgauri_report report;
    size_t written;
    of->status = lezgauri_run(of->image, of->len, &of->client, 1, "AB", 2, of->output, MOST_OUTPUT, &written, of->saved, &report,
                              &fault);
    return NULL;
}

static void *open_segment(void *given)
{
    work *of = given;
    lezgauri_fault fault;
    of->status = lezgauri_open(of->image, of->len, &of->segment, &fault);
    return NULL;
}

static void *open_in(void *given)
{
    work *of = given;
    lezgauri_fault fault;
    lezgauri_handle *there;
    memcpy(of->saved, of->image, of->len);
    of->status = lezgauri_open_in(of->saved, of->len, of->len, &there, &fault);
    lezgauri_close(there);
    return NULL;
}

static void *create(void *given)
{
    work *of = given;
    lezgauri_handle *made;
    of->status = lezgauri_create(of->len, LEZGAURI_BEST_FIT, LEZGAURI_TREE_INDEX, &made);
    lezgauri_close(made);
    return NULL;
}

static void *grow(void *given)
{
    work *of = given;
    size_t size;
    of->status = lezgauri_grow(of->segment, 4096, &size);
    return NULL;
}

static void *free_memory(void *given)
{
    work *of = given;
    size_t all, largest;
    of->status = lezgauri_free_memory(of->segment, &all, &largest);
    return NULL;
}

static void *shrink(void *given)
{
    work *of = given;
    size_t size;
    of->status = lezgauri_shrink(of->segment, &size);
    return NULL;
}

static void *size_of(void *given)
{
    work *of = given;
    size_t size;
    of->status = lezgauri_size(of->segment, &size);
    return NULL;
}

static void *image_of(void *given)
{
    work *of = given;
    lezgauri_bytes bytes;
    of->status = lezgauri_image(of->segment, &bytes);
    return NULL;
}

static void *run_on(void *given)
{
    work *of = given;
    lezgauri_fault fault;
    lezgauri_report report;
    size_t written;
    of->status = lezgauri_run_on(of->segment, of->client.bytes, of->client.len, "AB", 2, of->output, MOST_OUTPUT, &written, &report,
                                 &fault);
    return NULL;
}

static void *run_whole(void *given)
{
    work *of = given;
    lezgauri_fault fault;
    lezgauri_report report;
    size_t needed;
    of->status = lezgauri_run_whole(of->segment, of->client.bytes, of->client.len, "AB", 2, of->output, MOST_OUTPUT, &needed, &report,
                                    &fault);
    return NULL;
}

static void *prepare(void *given)
{
    work *of = given;
    lezgauri_fault fault;
    of->status = lezgauri_prepare(of->segment, of->client.bytes, of->client.len, &of->prepared, &fault);
    return NULL;
}

static void *run_client(void *given)
{
    work *of = given;
    lezgauri_fault fault;
    lezgauri_report report;
    size_t written;
    of->status = lezgauri_run_client(of->segment, of->prepared, "AB", 2, of->output, MOST_OUTPUT, &written, &report, &fault);
    return NULL;
}

static void *close_client(void *given)
{
    work *of = given;
    lezgauri_client_close(of->prepared);
    of->status = LEZGAURI_OK;
    return NULL;
}

static void *save(void *given)
{
    work *of = given;
    of->status = lezgauri_save(of->segment, of->saved, of->len, NULL);
    return NULL;
}

static void *types(void *given)
{
    work *of = given;
    lezgauri_type found[LEZGAURI_MOST_TYPES];
    of->status = lezgauri_types(of->segment, found, LEZGAURI_MOST_TYPES, NULL);
    return NULL;
}

static void *print(void *given)
{
    work *of = given;
    lezgauri_fault fault;
    of->status = lezgauri_print(of->client.bytes, of->client.len, of->output, MOST_OUTPUT, &of->text_len, &fault);
    return NULL;
}

static void *assemble(void *given)
{
    work *of = given;
    lezgauri_fault fault;
    of->status = lezgauri_assemble(of->output, of->text_len, of->saved, of->len, NULL, &fault);
    return NULL;
}

static void *close_segment(void *given)
{
    work *of = given;
    lezgauri_close(of->segment);
    of->status = LEZGAURI_OK;
    return NULL;
}

/* ---- values */

static void *create_values(void *given)
{
    work *of = given;
    of->status = lezgauri_create(SIZE, LEZGAURI_BEST_FIT, LEZGAURI_TREE_INDEX, &of->values);
    return NULL;
}

static void *add_types(void *given)
{
    work *of = given;
    lezgauri_fault fault;
    lezgauri_type types[LEZGAURI_MOST_TYPES];
    memcpy(types, first_types, sizeof first_types);
    for (uint8_t i = TYPES; i < LEZGAURI_MOST_TYPES; i++) {
        types[i] = (lezgauri_type){LEZGAURI_KIND_STRUCT, i < TYPES + 6 ? 2 : 1, {i - 1, i < TYPES + 6 ? i - 1 : 0}, {0}};
    }
    of->status = lezgauri_add_types(of->values, types, LEZGAURI_MOST_TYPES, &fault);
    return NULL;
}

static void *construct(void *given)
{
    work *of = given;
    of->status = LEZGAURI_OK;
    for (uint32_t i = 0; i < TYPES && of->status == LEZGAURI_OK; i++) {
        of->status = lezgauri_construct(of->values, (const char[]){(char)('a' + i), 0}, i, 1, &of->place[i]);
    }
    return NULL;
}

static void *open_reader(void *given)
{
    work *of = given;
    lezgauri_bytes bytes;
    lezgauri_image(of->values, &bytes);
    of->status = lezgauri_read(bytes.bytes, bytes.len, &of->reader, NULL);
    return NULL;
}

/* Numbers that are added to a vector. */
static const int64_t several[100];

/* Keys that are put into a map, each with its number. */
static const lezgauri_pair several_pairs[100] = {{1, 2}, {-3, 4}, {5, 6}};

/* A call on the segment with values. */
#define CALL(name, call)                                                                                                                \
    static void *name(void *given)                                                                                                      \
    {                                                                                                                                   \
        work *of = given;                                                                                                               \
        lezgauri_place place;                                                                                                           \
        int64_t number;                                                                                                                 \
        uint32_t len;                                                                                                                   \
        lezgauri_bytes bytes;                                                                                                           \
        lezgauri_named named;                                                                                                           \
        lezgauri_entry entries[4];                                                                                                      \
        size_t count;                                                                                                                   \
        (void)place, (void)number, (void)len, (void)bytes, (void)named, (void)entries, (void)count;                                     \
        of->status = call;                                                                                                              \
        return NULL;                                                                                                                    \
    }

CALL(find, lezgauri_find(of->values, "a", NUMBER, &place))
CALL(named_object, lezgauri_named_object(of->values, "a", &named))
CALL(next_name, lezgauri_next_name(of->values, "a", &named))
CALL(construct_unique, lezgauri_construct_unique(of->values, LEZGAURI_MOST_TYPES - 1, &place))
CALL(find_unique, lezgauri_find_unique(of->values, LEZGAURI_MOST_TYPES - 1, &place))
CALL(field, lezgauri_field(of->values, of->place[PAIR], 1, &place))
CALL(store, lezgauri_store(of->values, of->place[NUMBER], 7))
CALL(load, lezgauri_load(of->values, of->place[NUMBER], &number))
CALL(assign, lezgauri_assign(of->values, of->place[TEXT], "text", 4))
CALL(append, lezgauri_append(of->values, of->place[TEXT], "text", 4))
CALL(text_of, lezgauri_text(of->values, of->place[TEXT], &bytes))
CALL(push_number, lezgauri_push_back(of->values, of->place[NUMBERS], &place))
CALL(push_numbers, lezgauri_push_numbers(of->values, of->place[NUMBERS], several, 100, &count))
CALL(numbers_of, lezgauri_numbers(of->values, of->place[NUMBERS], &bytes))
CALL(push_front, lezgauri_push_front(of->values, of->place[LIST], &place))
CALL(push_back, lezgauri_push_back(of->values, of->place[LIST], &of->place[MAP]))
CALL(item, lezgauri_item(of->values, of->place[LIST], 1, &place))
CALL(previous_item, lezgauri_previous_item(of->values, of->place[LIST], of->place[MAP], &place))
CALL(put_flat, lezgauri_put(of->values, of->place[FLAT_MAP], 7, &place))
CALL(put_number, lezgauri_put(of->values, of->place[PAIRS], 7, &place))
CALL(put_numbers_flat, lezgauri_put_numbers(of->values, of->place[PAIRS], several_pairs, 100, &count))
CALL(put_numbers, lezgauri_put_numbers(of->values, of->place[NUMBER_MAP], several_pairs, 100, &count))
CALL(pairs_of, lezgauri_pairs(of->values, of->place[PAIRS], &bytes))
CALL(put, lezgauri_put(of->values, of->place[MAP], 7, &place))
CALL(get, lezgauri_get(of->values, of->place[MAP], 7, &of->place[OWN]))
CALL(next_key, lezgauri_next_key(of->values, of->place[MAP], NULL, &number))
CALL(next_entry, lezgauri_next_entry(of->values, of->place[MAP], NULL, &number, &place))
CALL(next_entries, lezgauri_next_entries(of->values, of->place[MAP], NULL, entries, 4, &count))
CALL(put_content, lezgauri_put_content(of->values, of->place[OWN], &place))
CALL(content, lezgauri_content(of->values, of->place[OWN], &place))
CALL(len, lezgauri_len(of->values, of->place[MAP], &len))
CALL(freeze, lezgauri_freeze(of->values, of->place[OWN], of->place[SHARED]))
CALL(share, lezgauri_share(of->values, of->place[SHARED], of->place[SHARED]))
CALL(remove_key, lezgauri_remove(of->values, of->place[MAP], 7))
CALL(pop_back, lezgauri_pop_back(of->values, of->place[LIST]))
CALL(pop_front, lezgauri_pop_front(of->values, of->place[LIST]))
CALL(shrink_to_fit, lezgauri_shrink_to_fit(of->values, of->place[FLAT_MAP]))
CALL(clear, lezgauri_clear(of->values, of->place[SHARED]))
CALL(destroy, lezgauri_destroy(of->values, "e", FLAT_MAP))
CALL(destroy_unique, lezgauri_destroy_unique(of->values, LEZGAURI_MOST_TYPES - 1))
CALL(upgrade, lezgauri_upgrade(of->values))
CALL(reader, lezgauri_reader(of->reader, &of->other))
CALL(close_reader, (lezgauri_close(of->reader), lezgauri_close(of->other), LEZGAURI_OK))
CALL(close_values, (lezgauri_close(of->values), LEZGAURI_OK))

/* The calls in the order in which they are made, and their limits in bytes. */
static const struct {
    const char *name;
    void *(*call)(void *given);
    size_t most;
} calls[] = {
    {"lezgauri_check", check, LEZGAURI_STACK_CHECK},
    {"lezgauri_verify", verify, LEZGAURI_STACK_CHECK},
    {"lezgauri_run", run, LEZGAURI_STACK_CHECK},
    {"lezgauri_open", open_segment, LEZGAURI_STACK_CHECK},
    {"lezgauri_open_in", open_in, LEZGAURI_STACK_CHECK},
    {"lezgauri_create", create, LEZGAURI_STACK_RUN},
    {"lezgauri_run_on", run_on, LEZGAURI_STACK_RUN},
    {"lezgauri_run_whole", run_whole, LEZGAURI_STACK_RUN},
    {"lezgauri_prepare", prepare, LEZGAURI_STACK_RUN},
    {"lezgauri_run_client", run_client, LEZGAURI_STACK_RUN},
    {"lezgauri_client_close", close_client, LEZGAURI_STACK_SAVE},
    {"lezgauri_save", save, LEZGAURI_STACK_SAVE},
    {"lezgauri_size", size_of, LEZGAURI_STACK_SAVE},
    {"lezgauri_image", image_of, LEZGAURI_STACK_SAVE},
    {"lezgauri_grow", grow, LEZGAURI_STACK_RUN},
    {"lezgauri_free_memory", free_memory, LEZGAURI_STACK_RUN},
    {"lezgauri_shrink", shrink, LEZGAURI_STACK_RUN},
    {"lezgauri_types", types, LEZGAURI_STACK_SAVE},
    {"lezgauri_print", print, LEZGAURI_STACK_TEXT},
    {"lezgauri_assemble", assemble, LEZGAURI_STACK_TEXT},
    {"lezgauri_close", close_segment, LEZGAURI_STACK_SAVE},
    {"lezgauri_create", create_values, LEZGAURI_STACK_RUN},
    {"lezgauri_add_types", add_types, LEZGAURI_STACK_RUN},
    {"lezgauri_upgrade", upgrade, LEZGAURI_STACK_RUN},
    {"lezgauri_construct", construct, LEZGAURI_STACK_RUN},
    {"lezgauri_find", find, LEZGAURI_STACK_READ},
    {"lezgauri_named_object", named_object, LEZGAURI_STACK_READ},
    {"lezgauri_next_name", next_name, LEZGAURI_STACK_READ},
    {"lezgauri_construct_unique", construct_unique, LEZGAURI_STACK_RUN},
    {"lezgauri_find_unique", find_unique, LEZGAURI_STACK_READ},
    {"lezgauri_field", field, LEZGAURI_STACK_READ},
    {"lezgauri_store", store, LEZGAURI_STACK_READ},
    {"lezgauri_load", load, LEZGAURI_STACK_READ},
    {"lezgauri_assign", assign, LEZGAURI_STACK_RUN},
    {"lezgauri_append", append, LEZGAURI_STACK_RUN},
    {"lezgauri_text", text_of, LEZGAURI_STACK_READ},
    {"lezgauri_push_back", push_number, LEZGAURI_STACK_RUN},
    {"lezgauri_push_numbers", push_numbers, LEZGAURI_STACK_RUN},
    {"lezgauri_numbers", numbers_of, LEZGAURI_STACK_READ},
    {"lezgauri_push_front", push_front, LEZGAURI_STACK_RUN},
    {"lezgauri_push_back", push_back, LEZGAURI_STACK_RUN},
    {"lezgauri_item", item, LEZGAURI_STACK_READ},
    {"lezgauri_previous_item", previous_item, LEZGAURI_STACK_READ},
    {"lezgauri_put", put_flat, LEZGAURI_STACK_RUN},
    {"lezgauri_put", put_number, LEZGAURI_STACK_RUN},
    {"lezgauri_put_numbers", put_numbers_flat, LEZGAURI_STACK_RUN},
    {"lezgauri_put_numbers", put_numbers, LEZGAURI_STACK_RUN},
    {"lezgauri_pairs", pairs_of, LEZGAURI_STACK_READ},
    {"lezgauri_put", put, LEZGAURI_STACK_RUN},
    {"lezgauri_get", get, LEZGAURI_STACK_READ},
    {"lezgauri_next_key", next_key, LEZGAURI_STACK_READ},
    {"lezgauri_next_entry", next_entry, LEZGAURI_STACK_READ},
    {"lezgauri_next_entries", next_entries, LEZGAURI_STACK_READ},
    {"lezgauri_put_content", put_content, LEZGAURI_STACK_RUN},
    {"lezgauri_content", content, LEZGAURI_STACK_READ},
    {"lezgauri_len", len, LEZGAURI_STACK_READ},
    {"lezgauri_freeze", freeze, LEZGAURI_STACK_RUN},
    {"lezgauri_share", share, LEZGAURI_STACK_RUN},
    {"lezgauri_read", open_reader, LEZGAURI_STACK_CHECK},
    {"lezgauri_reader", reader, LEZGAURI_STACK_READ},
    {"lezgauri_close", close_reader, LEZGAURI_STACK_SAVE},
    {"lezgauri_remove", remove_key, LEZGAURI_STACK_RUN},
    {"lezgauri_pop_back", pop_back, LEZGAURI_STACK_RUN},
    {"lezgauri_pop_front", pop_front, LEZGAURI_STACK_RUN},
    {"lezgauri_shrink_to_fit", shrink_to_fit, LEZGAURI_STACK_RUN},
    {"lezgauri_clear", clear, LEZGAURI_STACK_RUN},
    {"lezgauri_destroy", destroy, LEZGAURI_STACK_RUN},
    {"lezgauri_destroy_unique", destroy_unique, LEZGAURI_STACK_RUN},
    {"lezgauri_close", close_values, LEZGAURI_STACK_SAVE},
};

enum { CALLS = sizeof calls / sizeof *calls };

static _Noreturn void fail(const char *why)
{
    perror(why);
    exit(2);
}

static uint8_t *read_file(const char *name, size_t *len)
{
    FILE *file = fopen(name, "rb");
    if (file == NULL || fseek(file, 0, SEEK_END) != 0) {
        fail(name);
    }
    *len = (size_t)ftell(file);
    rewind(file);
    uint8_t *bytes = malloc(*len + 1);
    if (bytes == NULL || fread(bytes, 1, *len, file) != *len) {
        fail(name);
    }
    fclose(file);
    return bytes;
}

/* How many bytes of the stack a call touched: from the lowest byte that it wrote to the end. */
static size_t touched(void *(*call)(void *given), work *of)
{
    uint8_t *stack = mmap(NULL, STACK, PROT_READ | PROT_WRITE, MAP_PRIVATE | MAP_ANONYMOUS, -1, 0);
    if (stack == MAP_FAILED) {
        fail("mmap");
    }
    memset(stack, PAINT, STACK);
    pthread_attr_t attributes;
    pthread_t thread;
    pthread_attr_init(&attributes);
    if (pthread_attr_setstack(&attributes, stack, STACK) != 0 || pthread_create(&thread, &attributes, call, of) != 0) {
        fail("thread");
    }
    pthread_join(thread, NULL);
    pthread_attr_destroy(&attributes);
    size_t painted = 0;
    while (painted < STACK && stack[painted] == PAINT) {
        painted++;
    }
    munmap(stack, STACK);
    return STACK - painted;
}

int main(int argc, char **argv)
{
    if (argc < 3 || argc % 2 == 0) {
        fprintf(stderr, "usage: stack IMAGE CLIENT [IMAGE CLIENT]..\n");
        return 2;
    }
    size_t most[CALLS] = {0};
    int wrong = 0;
    for (int i = 1; i < argc; i += 2) {
        work of = {0};
        of.image = read_file(argv[i], &of.len);
        of.client.bytes = read_file(argv[i + 1], &of.client.len);
        of.saved = malloc(of.len);
        of.output = malloc(MOST_OUTPUT);
        if (of.saved == NULL || of.output == NULL) {
            fail("memory");
        }
        size_t thread_alone = touched(nothing, &of);
        for (size_t k = 0; k < CALLS; k++) {
            size_t bytes = touched(calls[k].call, &of) - thread_alone;
            most[k] = bytes > most[k] ? bytes : most[k];
            if (of.status != LEZGAURI_OK) {
                wrong++;
                printf("%s on %s and %s: %u\n", calls[k].name, argv[i], argv[i + 1], of.status);
            }
        }
        free((void *)of.image);
        free((void *)of.client.bytes);
        free(of.saved);
        free(of.output);
    }
    for (size_t k = 0; k < CALLS; k++) {
        const char *verdict = most[k] <= calls[k].most ? "" : ", which is too much";
        wrong += most[k] > calls[k].most;
        printf("%-25s %7zu of %7zu bytes of stack%s\n", calls[k].name, most[k], calls[k].most, verdict);
    }
    return wrong > 0;
}
