/*
 * Stops work on images that are mapped or changed in place, and tests what lezgauri.h promises then:
 *
 * - Opening an image finds out whether it is still sound: lezgauri_open_in, lezgauri_read and lezgauri_check agree,
 * write nothing, and don't read outside. If the image is sound, work on it continues, and leaves it sound.
 * - lezgauri_run_whole changes the image only after the client's end, by one copy. So the image of a run that is
 * stopped before is unchanged, and in one that is stopped later each byte is an old one or a new one.
 *
 *   mapped COUNT [SEED]     COUNT images with old and new pages, COUNT killed workers, and COUNT killed runs by
 * lezgauri_run_whole
 *
 * Prints each wrong result, and then how many images were sound.
 */
#define _GNU_SOURCE
#include <lezgauri.h>

#include <fcntl.h>
#include <signal.h>
#include <stdbool.h>
#include <stdio.h>
#include <stdlib.h>
#include <string.h>
#include <sys/mman.h>
#include <sys/wait.h>
#include <time.h>
#include <unistd.h>

enum { PAGE = 4096, PAGES = 16, SIZE = PAGES * PAGE, CHANGES = 40 };

static int wrong;
static uint64_t chance;

static void expect(const char *what, uint64_t got, uint64_t wanted)
{
    if (got != wanted) {
        wrong++;
        printf("%s: %llu, wanted %llu\n", what, (unsigned long long)got, (unsigned long long)wanted);
    }
}

static _Noreturn void fail(const char *why)
{
    perror(why);
    exit(2);
}

/* A random number below a limit. */
static uint32_t any(uint32_t limit)
{
    chance ^= chance << 13;
    chance ^= chance >> 7;
    chance ^= chance << 17;
    return (uint32_t)((chance >> 20) % limit);
}

/* Memory for an image, directly before a page that can't be used. */
static uint8_t *new_memory(int file)
{
    uint8_t *memory = mmap(NULL, SIZE + PAGE, PROT_NONE, MAP_PRIVATE | MAP_ANONYMOUS, -1, 0);
    int how = file < 0 ? MAP_PRIVATE | MAP_ANONYMOUS : MAP_SHARED;
    if (memory == MAP_FAILED || mmap(memory, SIZE, PROT_READ | PROT_WRITE, how | MAP_FIXED, file, 0) != memory) {
        fail("memory");
    }
    return memory;
}

enum { NUMBER, STRING, NUMBERS, LIST, MAP, FLAT_MAP, OWN, SHARED, TYPES };

static const lezgauri_type types[TYPES] = {
    [NUMBER] = {LEZGAURI_KIND_I64, 0, {0}, {0}},       [STRING] = {LEZGAURI_KIND_STR, 0, {0}, {0}},
    [NUMBERS] = {LEZGAURI_KIND_VEC, 1, {NUMBER}, {0}}, [LIST] = {LEZGAURI_KIND_LIST, 1, {STRING}, {0}},
    [MAP] = {LEZGAURI_KIND_MAP, 1, {STRING}, {0}},     [FLAT_MAP] = {LEZGAURI_KIND_FLAT_MAP, 1, {NUMBER}, {0}},
    [OWN] = {LEZGAURI_KIND_OWN, 1, {STRING}, {0}},     [SHARED] = {LEZGAURI_KIND_SHARED, 1, {STRING}, {0}},
};

static void create(uint8_t *memory, lezgauri_handle **segment)
{
    expect("create", lezgauri_create_in(memory, SIZE, SIZE, any(2), any(2), segment), LEZGAURI_OK);
    expect("types", lezgauri_add_types(*segment, types, TYPES, NULL), LEZGAURI_OK);
}

/* Makes a random change by a call. It may fail for lack of room, or since there is nothing to remove. */
static void change(lezgauri_handle *segment)
{
    static const char text[512] = "text";
    uint32_t type = any(TYPES);
    const char name[] = {(char)('a' + any(4)), (char)('a' + type), 0};
    lezgauri_place place, inner, cell;
    if (any(16) == 0) {
        lezgauri_destroy(segment, name, type);
        return;
    }
    if (lezgauri_find_or_construct(segment, name, type, &place) != LEZGAURI_OK) {
        return;
    }
    switch (type) {
    case NUMBER: lezgauri_store(segment, place, any(1000)); break;
    case STRING: lezgauri_append(segment, place, text, any(sizeof text)); break;
    case NUMBERS:
        if (lezgauri_push_back(segment, place, &inner) == LEZGAURI_OK) {
            lezgauri_store(segment, inner, any(1000));
        }
        break;
    case LIST:
        if (any(4) == 0) {
            lezgauri_pop_front(segment, place);
        } else if (lezgauri_push_back(segment, place, &inner) == LEZGAURI_OK) {
            lezgauri_assign(segment, inner, text, any(64));
        }
        break;
    case MAP:
    case FLAT_MAP:
        if (any(4) == 0) {
            lezgauri_remove(segment, place, any(64));
        } else if (lezgauri_put(segment, place, any(64), &inner) == LEZGAURI_OK && type == MAP) {
            lezgauri_assign(segment, inner, text, any(64));
        }
        break;
    case OWN:
        if (lezgauri_put_content(segment, place, &inner) == LEZGAURI_OK) {
            lezgauri_assign(segment, inner, text, any(64));
        }
        break;
    case SHARED:
        if (lezgauri_find_or_construct(segment, "own", OWN, &cell) == LEZGAURI_OK &&
            lezgauri_put_content(segment, cell, &inner) == LEZGAURI_OK) {
            lezgauri_freeze(segment, cell, place);
        }
        break;
    }
}

/* Opens what is left of an image, and continues to work on it if it is sound. Returns whether it is. */
static bool is_usable(uint8_t *memory)
{
    static uint8_t before[SIZE];
    lezgauri_handle *segment = NULL, *reader = NULL;
    lezgauri_fault one, two, three;
    memcpy(before, memory, SIZE);
    uint32_t status = lezgauri_check(memory, SIZE, &one);
    expect("open_in and check", lezgauri_open_in(memory, SIZE, SIZE, &segment, &two), status);
    expect("read and check", lezgauri_read(memory, SIZE, &reader, &three), status);
    expect("a handle exactly if the image is sound", (segment != NULL) + (reader != NULL),
           status == LEZGAURI_OK ? 2 : 0);
    expect("opening writes nothing", memcmp(before, memory, SIZE), 0);
    if (status != LEZGAURI_OK) {
        expect("a fault of an image",
               status == LEZGAURI_BAD_TYPE || (status >= LEZGAURI_BAD_HEADER && status <= LEZGAURI_BAD_VALUE), 1);
        expect("the same position", one.position == two.position && one.position == three.position, 1);
        return false;
    }
    lezgauri_close(reader);
    for (int i = 0; i < CHANGES; i++) {
        change(segment);
    }
    lezgauri_close(segment);
    expect("sound after further work", lezgauri_check(memory, SIZE, NULL), LEZGAURI_OK);
    return true;
}

/* Images in which some pages are from before some changes, and the others from after them. */
static int mix_pages(int count)
{
    static uint8_t old[SIZE], new[SIZE];
    uint8_t *memory = new_memory(-1);
    lezgauri_handle *segment;
    int sound = 0;
    for (int i = 0; i < count; i++) {
        if (i % 16 == 0) {
            memset(memory, 0, SIZE);
            create(memory, &segment);
            for (int k = any(300); k > 0; k--) {
                change(segment);
            }
            memcpy(old, memory, SIZE);
            for (int k = 1 + any(6); k > 0; k--) {
                change(segment);
            }
            memcpy(new, memory, SIZE);
            lezgauri_close(segment);
            expect("sound before", lezgauri_check(old, SIZE, NULL), LEZGAURI_OK);
            expect("sound after", lezgauri_check(new, SIZE, NULL), LEZGAURI_OK);
        }
        for (int page = 0; page < PAGES; page++) {
            memcpy(memory + page * PAGE, (any(2) ? old : new) + page * PAGE, PAGE);
        }
        sound += is_usable(memory);
    }
    munmap(memory, SIZE + PAGE);
    return sound;
}

static void wait_for(long nanoseconds)
{
    struct timespec time = {nanoseconds / 1000000000, nanoseconds % 1000000000};
    nanosleep(&time, NULL);
}

static int new_file(void)
{
    char name[] = "/tmp/mapped.XXXXXX";
    int file = mkstemp(name);
    if (file < 0 || ftruncate(file, SIZE) != 0 || unlink(name) != 0) {
        fail("file");
    }
    return file;
}

/* Starts a worker, and kills it after a time. Returns true if it ended before. */
static bool is_ended_before_kill(void (*work)(uint8_t *memory), int file, long nanoseconds)
{
    int status;
    pid_t worker = fork();
    if (worker < 0) {
        fail("fork");
    }
    if (worker == 0) {
        work(new_memory(file));
        _exit(0);
    }
    wait_for(nanoseconds);
    kill(worker, SIGKILL);
    waitpid(worker, &status, 0);
    expect("ended or killed", WIFSIGNALED(status) ? WTERMSIG(status) == SIGKILL : WEXITSTATUS(status) == 0, 1);
    return WIFEXITED(status);
}

static void change_forever(uint8_t *memory)
{
    lezgauri_handle *segment;
    if (lezgauri_open_in(memory, SIZE, SIZE, &segment, NULL) != LEZGAURI_OK) {
        _exit(1);
    }
    for (;;) {
        change(segment);
    }
}

/* Workers that change a mapped file until they are killed. */
static int kill_workers(int count)
{
    int sound = 0, file = new_file();
    uint8_t *memory = new_memory(file);
    lezgauri_handle *segment;
    bool is_sound = false;
    for (int i = 0; i < count; i++) {
        if (!is_sound) {
            create(memory, &segment);
            lezgauri_close(segment);
        }
        any(2);
        is_ended_before_kill(change_forever, file, 200000 + any(1500000));
        is_sound = is_usable(memory);
        sound += is_sound;
    }
    munmap(memory, SIZE + PAGE);
    close(file);
    return sound;
}

/* A client that changes a number in each of its turns. */
static const char turns[] =
    "type i64\nname turns\nCONST r1 1\nFINDOR r0 - t0 k0\nWHILE r1 200000\nLOAD r2 r0\nADD r2 r2 r1\n"
    "STORE r0 r2\nEND\nELSE\nEND\n";
static uint8_t client[512];
static size_t client_len;

static void run_whole(uint8_t *memory)
{
    lezgauri_handle *segment;
    if (lezgauri_open_in(memory, SIZE, SIZE, &segment, NULL) != LEZGAURI_OK ||
        lezgauri_run_whole(segment, client, client_len, NULL, 0, NULL, 0, NULL, NULL, NULL) != LEZGAURI_OK) {
        _exit(1);
    }
    lezgauri_close(segment);
}

static long now(void)
{
    struct timespec time;
    clock_gettime(CLOCK_MONOTONIC, &time);
    return time.tv_sec * 1000000000 + time.tv_nsec;
}

/* Runs by lezgauri_run_whole that are killed. */
static void kill_runs(int count)
{
    static uint8_t old[SIZE], new[SIZE];
    int unchanged = 0, whole = 0, file = new_file();
    uint8_t *memory = new_memory(file);
    lezgauri_handle *segment;
    expect("assembled", lezgauri_assemble(turns, sizeof turns - 1, client, sizeof client, &client_len, NULL),
           LEZGAURI_OK);
    expect("created", lezgauri_create_in(memory, SIZE, SIZE, LEZGAURI_BEST_FIT, LEZGAURI_TREE_INDEX, &segment),
           LEZGAURI_OK);
    lezgauri_close(segment);
    memcpy(old, memory, SIZE);
    long begun = now();
    run_whole(memory);
    long time = now() - begun;
    memcpy(new, memory, SIZE);
    for (int i = 0; i < count; i++) {
        memcpy(memory, old, SIZE);
        long nanoseconds = (long)any((uint32_t)(time + time / 2));
        is_ended_before_kill(run_whole, file, nanoseconds);
        bool is_old = memcmp(memory, old, SIZE) == 0, is_new = memcmp(memory, new, SIZE) == 0;
        unchanged += is_old;
        whole += is_new;
        if (!is_old && !is_new) {
            expect("a run was stopped in its copy, so late", nanoseconds > time / 2, 1);
        }
        for (int k = 0; k < SIZE; k++) {
            if (memory[k] != old[k] && memory[k] != new[k]) {
                expect("a byte is neither the old one nor the new one, at", (uint64_t)k, SIZE);
                break;
            }
        }
    }
    printf("%d runs by lezgauri_run_whole were killed: %d images unchanged, %d new, %d with a part of the copy\n",
           count, unchanged, whole, count - unchanged - whole);
    munmap(memory, SIZE + PAGE);
    close(file);
}

int main(int argc, char **argv)
{
    int count = argc > 1 ? atoi(argv[1]) : 1000;
    chance = 88172645463325252u + (argc > 2 ? strtoull(argv[2], NULL, 10) * 2654435761u : 0);
    printf("%d images with old and new pages, of which %d are sound\n", count, mix_pages(count));
    fflush(stdout);
    printf("%d workers were killed, and left %d sound images\n", count, kill_workers(count));
    fflush(stdout);
    kill_runs(count);
    printf("%d wrong results\n", wrong);
    return wrong > 0;
}
