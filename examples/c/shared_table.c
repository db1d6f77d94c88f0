/*
 * A table in a file that several processes use where it is. The parent process makes the table and is its only writer: twenty times it
 * enters two numbers, in a shared mapping of the file. Three child processes are readers, whose mappings can't be written: each counts and
 * adds the entries, until it has seen them all.
 *
 *   shared_table TABLE     the file to make
 *
 * Guaranteed, if all programs that use the file lock it like this one:
 *
 *   - A reader sees both numbers of an entry or neither: the writer enters them with an exclusive lock, and a reader has a shared one.
 *   - A reader reads only a sound image: it opens the image, and so checks it, whenever it gets the lock.
 *   - Readers don't wait for each other, and write nothing.
 *
 * Not guaranteed: if the writer is killed while it enters an entry, the table is half changed. Then a reader is refused, or reads a sound
 * table with one of the two numbers.
 */
#define _DEFAULT_SOURCE
#include <lezgauri.h>

#include <fcntl.h>
#include <stdbool.h>
#include <stdio.h>
#include <stdlib.h>
#include <sys/file.h>
#include <sys/mman.h>
#include <sys/wait.h>
#include <time.h>
#include <unistd.h>

enum { SIZE = 8192, ENTRIES = 20, READERS = 3, BATCH = 16 };

/* The types of the segment. */
enum { NUMBER, TABLE };

static const lezgauri_type types[] = {
    [NUMBER] = {LEZGAURI_KIND_I64, 0, {0}, {0}},
    [TABLE] = {LEZGAURI_KIND_MAP, 1, {NUMBER}, {0}},
};

static _Noreturn void fail(const char *what)
{
    perror(what);
    exit(EXIT_FAILURE);
}

/* Ends the program if a call wasn't done. */
static void done(const char *call, uint32_t status)
{
    if (status != LEZGAURI_OK) {
        fprintf(stderr, "%s: %s\n", call, lezgauri_status_text(status));
        exit(EXIT_FAILURE);
    }
}

static void *map(int file, int how)
{
    void *memory = mmap(NULL, SIZE, how, MAP_SHARED, file, 0);
    if (memory == MAP_FAILED) {
        fail("mmap");
    }
    return memory;
}

static void lock(int file, int how)
{
    if (flock(file, how) != 0) {
        fail("flock");
    }
}

/* Makes the file with an empty table, and returns its segment. The lock is held until then. */
static lezgauri_handle *make_table(int file)
{
    lezgauri_handle *segment;
    lezgauri_place table;
    lock(file, LOCK_EX);
    if (ftruncate(file, SIZE) != 0) {
        fail("ftruncate");
    }
    void *memory = map(file, PROT_READ | PROT_WRITE);
    done("create_in", lezgauri_create_in(memory, SIZE, SIZE, LEZGAURI_BEST_FIT, LEZGAURI_TREE_INDEX, &segment));
    done("add_types", lezgauri_add_types(segment, types, sizeof types / sizeof *types, NULL));
    done("construct", lezgauri_construct(segment, "table", TABLE, 1, &table));
    lock(file, LOCK_UN);
    return segment;
}

static void put(lezgauri_handle *segment, lezgauri_place table, int64_t key, int64_t number)
{
    lezgauri_place value;
    done("put", lezgauri_put(segment, table, key, &value));
    done("store", lezgauri_store(segment, value, number));
}

/* Enters the squares of the numbers from 65 on, and the negative squares under the negative numbers. So the sum of all values is 0 before
 * and after each entry. */
static void enter(int file, lezgauri_handle *segment)
{
    for (int64_t key = 65; key < 65 + ENTRIES; key++) {
        lezgauri_place table;
        lock(file, LOCK_EX);
        done("find", lezgauri_find(segment, "table", TABLE, &table));
        put(segment, table, key, key * key);
        put(segment, table, -key, -key * key);
        lock(file, LOCK_UN);
    }
}

/* Counts the values of the table. Their sum must be 0. */
static int count(int file, const void *memory)
{
    lezgauri_handle *segment;
    lezgauri_place table;
    lezgauri_entry entries[BATCH];
    int64_t number, sum = 0;
    const int64_t *after = NULL;
    size_t found;
    int values = 0;
    lock(file, LOCK_SH);
    done("read", lezgauri_read(memory, SIZE, &segment, NULL));
    done("find", lezgauri_find(segment, "table", TABLE, &table));
    while (lezgauri_next_entries(segment, table, after, entries, BATCH, &found) == LEZGAURI_OK && found > 0) {
        for (size_t i = 0; i < found; i++) {
            done("load", lezgauri_load(segment, entries[i].value, &number));
            sum += number;
            values++;
        }
        after = &entries[found - 1].key;
    }
    lezgauri_close(segment);
    lock(file, LOCK_UN);
    if (sum != 0) {
        fprintf(stderr, "an entry is half done: the sum is %lld\n", (long long)sum);
        exit(EXIT_FAILURE);
    }
    return values;
}

/* A reader process. It opens the file itself, since processes that share an open file share its lock. */
static _Noreturn void read_table(const char *name)
{
    int file = open(name, O_RDONLY | O_CLOEXEC);
    if (file < 0) {
        fail(name);
    }
    const void *memory = map(file, PROT_READ);
    int before = 0;
    while (before < 2 * ENTRIES) {
        int values = count(file, memory);
        if (values < before) {
            fprintf(stderr, "%d values after %d\n", values, before);
            exit(EXIT_FAILURE);
        }
        before = values;
        nanosleep(&(struct timespec){.tv_nsec = 100000}, NULL);
    }
    exit(EXIT_SUCCESS);
}

int main(int argc, char **argv)
{
    if (argc != 2) {
        fprintf(stderr, "usage: shared_table TABLE\n");
        return 2;
    }
    int file = open(argv[1], O_RDWR | O_CREAT | O_CLOEXEC, 0666);
    if (file < 0) {
        fail(argv[1]);
    }
    lezgauri_handle *segment = make_table(file);
    for (int i = 0; i < READERS; i++) {
        pid_t reader = fork();
        if (reader < 0) {
            fail("fork");
        }
        if (reader == 0) {
            lezgauri_close(segment);
            read_table(argv[1]);
        }
    }
    enter(file, segment);
    lezgauri_close(segment);
    int failed = 0;
    for (int i = 0; i < READERS; i++) {
        int status;
        failed += wait(&status) < 0 || status != 0;
    }
    if (failed > 0) {
        fprintf(stderr, "%d readers failed\n", failed);
        return EXIT_FAILURE;
    }
    printf("%d readers saw %d values\n", READERS, 2 * ENTRIES);
    return EXIT_SUCCESS;
}
