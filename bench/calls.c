/* The calls of lezgauri.h on one image, with one client, and its calls on values in a segment of its own.
 *   calls WORK TIMES IMAGE CLIENT      WORK: a name in the list at the end
 * cc -O2 -I../crates/lezgauri_c/include calls.c -o calls liblezgauri.a */
#include "measure.h"

#include <fcntl.h>
#include <lezgauri.h>
#include <sys/mman.h>
#include <unistd.h>

enum { MOST_FILE = 1 << 16, MOST_OUTPUT = 256 };

static uint8_t image[MOST_FILE], client[MOST_FILE], saved[MOST_FILE];
static size_t image_len, client_len;
static lezgauri_handle *segment;
static lezgauri_client *prepared;

/* the segment's memory if the caller lends it, and the text of the client */
static uint8_t lent[MOST_FILE], text[MOST_FILE];
static size_t text_len;

/* what the calls write */
static char output[MOST_OUTPUT];
static size_t written;
static uint64_t bound;
static lezgauri_report report;
static lezgauri_fault fault;

static void succeed(uint32_t status)
{
    need(status == LEZGAURI_OK, "the call");
}

static void check(void)
{
    succeed(lezgauri_check(image, image_len, &fault));
}

static void verify(void)
{
    succeed(lezgauri_verify(image, image_len, client, client_len, &bound, &fault));
}

static void run(void)
{
    lezgauri_bytes clients[] = {{client, client_len}};
    succeed(lezgauri_run(image, image_len, clients, 1, NULL, 0, output, sizeof output, &written, saved, &report, &fault));
}

static void open_close(void)
{
    lezgauri_handle *made;
    succeed(lezgauri_open(image, image_len, &made, &fault));
    lezgauri_close(made);
}

static void open_in_close(void)
{
    lezgauri_handle *made;
    succeed(lezgauri_open_in(lent, image_len, sizeof lent, &made, &fault));
    lezgauri_close(made);
}

static void create_in_close(void)
{
    lezgauri_handle *made;
    succeed(lezgauri_create_in(saved, sizeof saved, image_len, LEZGAURI_BEST_FIT, LEZGAURI_TREE_INDEX, &made));
    lezgauri_close(made);
}

static void grow_shrink(void)
{
    size_t size;
    succeed(lezgauri_grow(segment, 4096, &size));
    succeed(lezgauri_shrink(segment, &size));
}

static void free_memory(void)
{
    size_t all, largest;
    succeed(lezgauri_free_memory(segment, &all, &largest));
}

static void types(void)
{
    lezgauri_type made[LEZGAURI_MOST_TYPES];
    succeed(lezgauri_types(segment, made, LEZGAURI_MOST_TYPES, &written));
}

static void assemble(void)
{
    succeed(lezgauri_assemble(text, text_len, saved, sizeof saved, &written, &fault));
}

static void print(void)
{
    succeed(lezgauri_print(client, client_len, saved, sizeof saved, &written, &fault));
}

static void run_on(void)
{
    succeed(lezgauri_run_on(segment, client, client_len, NULL, 0, output, sizeof output, &written, &report, &fault));
}

static void run_whole(void)
{
    succeed(lezgauri_run_whole(segment, client, client_len, NULL, 0, output, sizeof output, &written, &report, &fault));
}

static void prepare_close(void)
{
    lezgauri_client *made;
    succeed(lezgauri_prepare(segment, client, client_len, &made, &fault));
    lezgauri_client_close(made);
}

static void run_client(void)
{
    succeed(lezgauri_run_client(segment, prepared, NULL, 0, output, sizeof output, &written, &report, &fault));
}

static void save(void)
{
    succeed(lezgauri_save(segment, saved, sizeof saved, &written));
}

/* The segment for the calls on values. Its map has the keys 0 to 99, and its vector has room for 100 numbers. A second vector has no buffer, and
 * a flat map has no keys. */
enum { NUMBER, STRING, VECTOR, MAP, FLAT_MAP, TYPES };
enum { KEYS = 100, KEY = 50, NEW_KEY = 1000, CAPACITY = 100 };
static const char TEXT[] = "sixteen bytes...";
static _Alignas(16) uint8_t memory[MOST_FILE];
static lezgauri_handle *values;
static lezgauri_place number, string, vector, grown, map, flat, place;
static lezgauri_pair pairs[CAPACITY];
static const uint8_t *mapped; /* the image, in a file that is mapped only for reading */
static int64_t loaded;

static void start_values(void)
{
    static const lezgauri_type table[TYPES] = {
        [NUMBER] = {.kind = LEZGAURI_KIND_I64},
        [STRING] = {.kind = LEZGAURI_KIND_STR},
        [VECTOR] = {.kind = LEZGAURI_KIND_VEC, .count = 1, .components = {NUMBER}},
        [MAP] = {.kind = LEZGAURI_KIND_MAP, .count = 1, .components = {NUMBER}},
        [FLAT_MAP] = {.kind = LEZGAURI_KIND_FLAT_MAP, .count = 1, .components = {NUMBER}},
    };
    succeed(lezgauri_create_in(memory, sizeof memory, sizeof memory, LEZGAURI_BEST_FIT, LEZGAURI_TREE_INDEX, &values));
    succeed(lezgauri_add_types(values, table, TYPES, &fault));
    succeed(lezgauri_construct(values, "x", NUMBER, 1, &number));
    succeed(lezgauri_construct(values, "map", MAP, 1, &map));
    succeed(lezgauri_construct(values, "numbers", VECTOR, 1, &vector));
    succeed(lezgauri_construct(values, "grown", VECTOR, 1, &grown));
    succeed(lezgauri_construct(values, "string", STRING, 1, &string));
    succeed(lezgauri_construct(values, "flat", FLAT_MAP, 1, &flat));
    for (int i = 0; i < CAPACITY; i++) {
        pairs[i] = (lezgauri_pair){i, i};
    }
    for (int i = 0; i < KEYS; i++) {
        succeed(lezgauri_put(values, map, i, &place));
    }
    for (int i = 0; i < CAPACITY; i++) {
        succeed(lezgauri_push_back(values, vector, &place));
    }
    for (int i = 0; i < CAPACITY; i++) {
        succeed(lezgauri_pop_back(values, vector));
    }
    succeed(lezgauri_get(values, map, KEY, &place));
}

static void map_image(const char *name)
{
    int file = open(name, O_RDONLY);
    need(file >= 0, name);
    mapped = mmap(NULL, image_len, PROT_READ, MAP_SHARED, file, 0);
    need(mapped != MAP_FAILED, "mmap");
    close(file);
}

static void check_mapped(void)
{
    succeed(lezgauri_check(mapped, image_len, &fault));
}

static void read_close(void)
{
    lezgauri_handle *made;
    succeed(lezgauri_read(mapped, image_len, &made, &fault));
    lezgauri_close(made);
}

static void find(void)
{
    lezgauri_place found;
    succeed(lezgauri_find(values, "x", NUMBER, &found));
}

static void load(void)
{
    succeed(lezgauri_load(values, number, &loaded));
}

static void store(void)
{
    succeed(lezgauri_store(values, number, 7));
}

static void get(void)
{
    succeed(lezgauri_get(values, map, KEY, &place));
}

static void next_key(void)
{
    static const int64_t after = KEY;
    succeed(lezgauri_next_key(values, map, &after, &loaded));
}

static void next_entry(void)
{
    static const int64_t after = KEY;
    succeed(lezgauri_next_entry(values, map, &after, &loaded, &place));
}

static void next_entries(void)
{
    lezgauri_entry entries[KEYS];
    size_t found;
    succeed(lezgauri_next_entries(values, map, NULL, entries, KEYS, &found));
    need(found == KEYS, "all entries");
}

static void put_remove(void)
{
    succeed(lezgauri_put(values, map, NEW_KEY, &place));
    succeed(lezgauri_remove(values, map, NEW_KEY));
}

static void push_pop(void)
{
    succeed(lezgauri_push_back(values, vector, &place));
    succeed(lezgauri_pop_back(values, vector));
}

static void push_clear(void)
{
    static const int64_t numbers[CAPACITY] = {0};
    succeed(lezgauri_push_numbers(values, grown, numbers, CAPACITY, &written));
    succeed(lezgauri_clear(values, grown));
}

static void put_numbers_clear(void)
{
    succeed(lezgauri_put_numbers(values, flat, pairs, CAPACITY, &written));
    succeed(lezgauri_clear(values, flat));
}

static void assign(void)
{
    succeed(lezgauri_assign(values, string, TEXT, sizeof TEXT - 1));
}

static void text_of(void)
{
    lezgauri_bytes bytes;
    succeed(lezgauri_text(values, string, &bytes));
}

static void construct_destroy(void)
{
    succeed(lezgauri_construct(values, "y", NUMBER, 1, &place));
    succeed(lezgauri_destroy(values, "y", NUMBER));
}

static const work WORKS[] = {
    {"check", check},
    {"verify", verify},
    {"run", run},
    {"open, close", open_close},
    {"open_in, close", open_in_close},
    {"create_in, close", create_in_close},
    {"grow, shrink", grow_shrink},
    {"free_memory", free_memory},
    {"types", types},
    {"assemble", assemble},
    {"print", print},
    {"run_on", run_on},
    {"run_whole", run_whole},
    {"prepare, client_close", prepare_close},
    {"run_client", run_client},
    {"save", save},
    {"check, mapped", check_mapped},
    {"read, close", read_close},
    {"find", find},
    {"load", load},
    {"store", store},
    {"get", get},
    {"next_key", next_key},
    {"next_entry", next_entry},
    {"next_entries", next_entries},
    {"put, remove", put_remove},
    {"push_back, pop_back", push_pop},
    {"push_numbers, clear", push_clear},
    {"put_numbers, clear", put_numbers_clear},
    {"assign", assign},
    {"text", text_of},
    {"construct, destroy", construct_destroy},
};

static size_t read_file(const char *name, uint8_t *bytes)
{
    FILE *file = fopen(name, "rb");
    need(file != NULL, name);
    size_t len = fread(bytes, 1, MOST_FILE, file);
    need(feof(file), name);
    fclose(file);
    return len;
}

int main(int count, char **words)
{
    need(count == 5, "calls WORK TIMES IMAGE CLIENT");
    image_len = read_file(words[3], image);
    client_len = read_file(words[4], client);
    succeed(lezgauri_open(image, image_len, &segment, &fault));
    succeed(lezgauri_prepare(segment, client, client_len, &prepared, &fault));
    memcpy(lent, image, image_len);
    succeed(lezgauri_print(client, client_len, text, sizeof text, &text_len, &fault));
    map_image(words[3]);
    start_values();
    MEASURE(WORKS, words[1], atol(words[2]));
    lezgauri_close(values);
    lezgauri_client_close(prepared);
    lezgauri_close(segment);
    return 0;
}
