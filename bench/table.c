/* The works of table.h with the calls of lezgauri.h, in place on a mapped file: a map as a tree, and a flat one.
 * cc -O2 -I../crates/lezgauri_c/include table.c -o table liblezgauri.a */
#include "pass.h"
#include "table.h"

#include <lezgauri.h>

static const char *const NAME = "table";
enum { NUMBER, MAP };
enum { BATCH = 64, KEY = 8, VALUE = 8 };

static uint8_t *memory;
static size_t memory_len;
static lezgauri_handle *segment;
static lezgauri_place map;
static lezgauri_fault fault;

static void succeed(uint32_t status)
{
    need(status == LEZGAURI_OK, lezgauri_status_text(status));
}

static void close_table(void)
{
    lezgauri_close(segment);
    need(munmap(memory, memory_len) == 0, "munmap");
}

static void build(const char *file, const entry *entries, uint8_t kind)
{
    const lezgauri_type types[] = {[NUMBER] = {.kind = LEZGAURI_KIND_I64}, [MAP] = {.kind = kind, .count = 1}};
    int made = open(file, O_RDWR | O_CREAT | O_TRUNC, 0600);
    need(made >= 0 && ftruncate(made, (off_t)FILE_LEN) == 0, file);
    close(made);
    memory = map_file(file, 1, &memory_len);
    succeed(lezgauri_create_in(memory, memory_len, memory_len, LEZGAURI_BEST_FIT, LEZGAURI_TREE_INDEX, &segment));
    succeed(lezgauri_add_types(segment, types, 2, &fault));
    succeed(lezgauri_construct(segment, NAME, MAP, 1, &map));
    for (int from = 0; from < KEYS; from += BATCH) {
        lezgauri_pair pairs[BATCH];
        for (int i = 0; i < BATCH; i++) {
            pairs[i] = (lezgauri_pair){entries[from + i].key, entries[from + i].value};
        }
        succeed(lezgauri_put_numbers(segment, map, pairs, BATCH, NULL));
    }
    close_table();
}

static void build_tree(const char *file, const entry *entries)
{
    build(file, entries, LEZGAURI_KIND_MAP);
}

static void build_flat(const char *file, const entry *entries)
{
    build(file, entries, LEZGAURI_KIND_FLAT_MAP);
}

static void open_table(const char *file, int writing)
{
    memory = map_file(file, writing, &memory_len);
    succeed(writing ? lezgauri_open_in(memory, memory_len, memory_len, &segment, &fault)
                    : lezgauri_read(memory, memory_len, &segment, &fault));
    succeed(lezgauri_find(segment, NAME, MAP, &map));
}

static int64_t look_up(const int64_t *keys, long count)
{
    int64_t sum = 0;
    for (long i = 0; i < count; i++) {
        lezgauri_place value;
        int64_t number;
        succeed(lezgauri_get(segment, map, keys[i], &value));
        succeed(lezgauri_load(segment, value, &number));
        sum += number;
    }
    return sum;
}

static void update(const int64_t *keys, long count, int singly)
{
    (void)singly;
    for (long i = 0; i < count; i++) {
        lezgauri_place value;
        succeed(lezgauri_get(segment, map, keys[i], &value));
        succeed(lezgauri_store(segment, value, i));
    }
}

static int64_t sum_by_entries(long count)
{
    int64_t sum = 0;
    lezgauri_entry entries[BATCH];
    const int64_t *after = NULL;
    for (size_t left = (size_t)count, found; left > 0; left -= found) {
        succeed(lezgauri_next_entries(segment, map, after, entries, left < BATCH ? left : BATCH, &found));
        need(found > 0, "next_entries");
        for (size_t i = 0; i < found; i++) {
            int64_t number;
            succeed(lezgauri_load(segment, entries[i].value, &number));
            sum += number;
        }
        after = &entries[found - 1].key;
    }
    return sum;
}

/* A flat map shows its keys and values in place. */
static int64_t sum_pairs(long count)
{
    int64_t sum = 0;
    lezgauri_bytes pairs;
    succeed(lezgauri_pairs(segment, map, &pairs));
    need((size_t)count <= pairs.len / (KEY + VALUE), "pairs");
    for (long i = 0; i < count; i++) {
        int64_t number;
        memcpy(&number, pairs.bytes + (KEY + VALUE) * i + KEY, sizeof number);
        sum += number;
    }
    return sum;
}

static int64_t sum_singly(long count)
{
    int64_t sum = 0, before = 0;
    for (long i = 0; i < count; i++) {
        lezgauri_place value;
        int64_t key, number;
        succeed(lezgauri_next_entry(segment, map, i == 0 ? NULL : &before, &key, &value));
        succeed(lezgauri_load(segment, value, &number));
        sum += number;
        before = key;
    }
    return sum;
}

static void check(void)
{
    succeed(lezgauri_check(memory, memory_len, &fault));
}

static int64_t pass_tree(void)
{
    read_headers(memory, memory_len);
    read_tree(memory, map.at);
    need(headers_read != 0 && keys_read != 0, "headers and keys");
    return (int64_t)values_read;
}

static int64_t pass_flat(void)
{
    read_headers(memory, memory_len);
    read_buffer(memory, map.at);
    need(headers_read != 0 && keys_read != 0, "headers and keys");
    return (int64_t)values_read;
}

static const table TABLES[] = {
    {"lezgauri-tree", 0, build_tree, open_table, look_up, update, sum_by_entries, NULL, sum_singly, check, pass_tree, close_table},
    {"lezgauri-flat", 1, build_flat, open_table, look_up, update, sum_pairs, sum_by_entries, sum_singly, check, pass_flat, close_table},
};

int main(int count, char **words)
{
    return table_main(TABLES, sizeof TABLES / sizeof *TABLES, count, words);
}
