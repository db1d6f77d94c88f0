/* The works of growth.py on an image in a file, which a client fills.
 *   growth build FILE BYTES FIT INDEX CLIENT..   makes an image and runs clients on it. FIT and INDEX are 0 or 1, as in the header
 *   growth run FILE CLIENT                       runs a client, and prints its steps
 *   growth call FILE CALL                        makes a call: `grow`, `shrink`, or `check`
 *   growth time FILE OBJECT ROUNDS               prints the nanoseconds of a check and of one pass, in turn: the least and the middle
 * A CLIENT is the file of a text. It prints something only if it fails. Under callgrind (--instr-atstart=no) only the run of the
 * client, or the call, is counted. `build` alone writes the file. OBJECT is what the image has: `map`, `flat_map`, `list`, or arrays
 * that own numbers.
 * cc -O2 -I../crates/lezgauri_c/include growth.c -o growth liblezgauri.a */
#include "measure.h"
#include "pass.h"

#include <fcntl.h>
#include <lezgauri.h>
#include <sys/mman.h>
#include <unistd.h>

enum { MOST_CLIENT = 1 << 16, MOST_OUTPUT = 256, MOST_ROUNDS = 999 };

/* The room after an image, into which it can grow. */
enum { EXTRA = 4096 };

/* The unit, positions in an image, the length of a cell, and the type of the object. */
enum { UNIT = 16, LENGTH = 12, ALLOCATOR = 16, FREE = 24, CELL = 8, OBJECT = 1 };

static uint8_t *memory;
static size_t len;
static lezgauri_handle *segment;
static lezgauri_fault fault;

static void succeed(uint32_t status)
{
    need(status == LEZGAURI_OK, lezgauri_status_text(status));
}

static void map_file(const char *name, int sharing)
{
    int file = open(name, sharing ? O_RDWR | O_CREAT | O_TRUNC : O_RDONLY, 0600);
    need(file >= 0, name);
    need(!sharing || ftruncate(file, (off_t)(len + EXTRA)) == 0, "ftruncate");
    off_t size = lseek(file, 0, SEEK_END);
    memory = mmap(NULL, (size_t)size, PROT_READ | PROT_WRITE, sharing ? MAP_SHARED : MAP_PRIVATE, file, 0);
    need(size > EXTRA && memory != MAP_FAILED, "mmap");
    close(file);
}

/* Opens the image in a file; what changes in it isn't written to the file. */
static void open_image(const char *name)
{
    map_file(name, 0);
    len = UNIT * (size_t)word_at(memory, LENGTH);
    succeed(lezgauri_open_in(memory, len, len + EXTRA, &segment, &fault));
}

static lezgauri_client *prepare(const char *name)
{
    static char text[MOST_CLIENT];
    static uint8_t bytes[MOST_CLIENT];
    FILE *file = fopen(name, "rb");
    need(file != NULL, name);
    size_t text_len = fread(text, 1, sizeof text, file), client_len;
    need(feof(file), name);
    fclose(file);
    succeed(lezgauri_assemble(text, text_len, bytes, sizeof bytes, &client_len, &fault));
    lezgauri_client *client;
    succeed(lezgauri_prepare(segment, bytes, client_len, &client, &fault));
    return client;
}

static uint64_t perform(lezgauri_client *client)
{
    char output[MOST_OUTPUT];
    size_t written;
    lezgauri_report report;
    CALLGRIND_START_INSTRUMENTATION;
    uint32_t status = lezgauri_run_client(segment, client, NULL, 0, output, sizeof output, &written, &report, &fault);
    CALLGRIND_STOP_INSTRUMENTATION;
    succeed(status);
    need(written == 0, "an operation of the client");
    lezgauri_client_close(client);
    return report.steps;
}

static void build(char **words, int clients)
{
    len = (size_t)atol(words[1]);
    map_file(words[0], 1);
    succeed(lezgauri_create_in(memory, len + EXTRA, len, (uint32_t)atol(words[2]), (uint32_t)atol(words[3]), &segment));
    for (int i = 0; i < clients; i++) {
        perform(prepare(words[4 + i]));
    }
}

static void call(const char *name)
{
    size_t size;
    uint32_t status = LEZGAURI_ABSENT;
    CALLGRIND_START_INSTRUMENTATION;
    if (strcmp(name, "grow") == 0) {
        status = lezgauri_grow(segment, EXTRA, &size);
    } else if (strcmp(name, "shrink") == 0) {
        status = lezgauri_shrink(segment, &size);
    } else if (strcmp(name, "check") == 0) {
        status = lezgauri_check(memory, len, &fault);
    }
    CALLGRIND_STOP_INSTRUMENTATION;
    succeed(status);
}

/* Reads a list: each node has a pointer to the next, one to the previous, and its number. */
static void read_list(size_t cell)
{
    size_t count = word_at(memory, cell + PASS_COUNT), node = target_of(memory, cell);
    for (size_t i = 0; i < count; i++) {
        read_header(memory, node);
        keys_read += word_at(memory, node + PASS_COUNT);
        values_read += number_at(memory, node + CELL);
        node = target_of(memory, node);
    }
}

/* Reads the arrays of cells that own a number each, or nothing. */
static void read_blocks(void)
{
    lezgauri_named array = {.name = ""};
    while (lezgauri_next_name(segment, array.name[0] ? array.name : NULL, &array) == LEZGAURI_OK) {
        lezgauri_place cells;
        succeed(lezgauri_find(segment, array.name, array.type, &cells));
        read_header(memory, cells.at);
        for (size_t i = 0; i < array.count; i++) {
            size_t cell = cells.at + CELL * i;
            keys_read += word_at(memory, cell + PASS_COUNT);
            if (word_at(memory, cell) != PASS_NULL_DISTANCE) {
                size_t number = target_of(memory, cell);
                read_header(memory, number);
                values_read += number_at(memory, number);
            }
        }
    }
}

/* Reads the free blocks of the subtree to which a pointer refers, by size. */
static void read_free(size_t pointer)
{
    if (word_at(memory, pointer) == PASS_NULL_DISTANCE) {
        return;
    }
    size_t block = target_of(memory, pointer);
    read_header(memory, block);
    read_free(block);
    read_free(block + PASS_RIGHT);
}

static void pass(const char *object)
{
    lezgauri_place place;
    read_headers(memory, len);
    if (word_at(memory, ALLOCATOR) == LEZGAURI_BEST_FIT) {
        read_free(FREE);
    }
    if (strcmp(object, "map") == 0) {
        succeed(lezgauri_find(segment, "m", OBJECT, &place));
        read_tree(memory, place.at);
    } else if (strcmp(object, "list") == 0) {
        succeed(lezgauri_find(segment, "l", OBJECT, &place));
        read_list(place.at);
    } else if (strcmp(object, "flat_map") == 0) {
        succeed(lezgauri_find(segment, "m", OBJECT, &place));
        read_buffer(memory, place.at);
    } else {
        read_blocks();
    }
    need(headers_read != 0 && values_read != 0, "headers and values");
}

static int by_size(const void *left, const void *right)
{
    double first = *(const double *)left, second = *(const double *)right;
    return (first > second) - (first < second);
}

static void print_times(double *times, int rounds)
{
    qsort(times, (size_t)rounds, sizeof *times, by_size);
    printf("%.0f %.0f ", times[0], times[rounds / 2]);
}

static void time_checks(const char *object, int rounds)
{
    static double checks[MOST_ROUNDS], passes[MOST_ROUNDS];
    need(0 < rounds && rounds <= MOST_ROUNDS, "the number of rounds");
    for (int i = 0; i < rounds; i++) {
        double begun = now();
        succeed(lezgauri_check(memory, len, &fault));
        double checked = now();
        pass(object);
        checks[i] = checked - begun;
        passes[i] = now() - checked;
    }
    print_times(checks, rounds);
    print_times(passes, rounds);
    printf("\n");
}

int main(int count, char **words)
{
    need(count > 3, "growth build|run|call|time FILE ..");
    const char *work = words[1];
    if (strcmp(work, "build") == 0) {
        need(count > 6, "build FILE BYTES FIT INDEX CLIENT..");
        build(words + 2, count - 6);
    } else {
        open_image(words[2]);
        if (strcmp(work, "run") == 0) {
            printf("%llu\n", (unsigned long long)perform(prepare(words[3])));
        } else if (strcmp(work, "call") == 0) {
            call(words[3]);
        } else {
            need(count == 5, "time FILE OBJECT ROUNDS");
            time_checks(words[3], (int)atol(words[4]));
        }
    }
    lezgauri_close(segment);
    return 0;
}
