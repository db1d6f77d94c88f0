/* What table.c and table_peers.cpp share: a table of 1,000,000 numbers in a file, the works on it, and what is measured of them.
 *   PROGRAM TABLE WORK FILE COUNT
 * prints the nanoseconds of the work, its result, and in KiB: what the work added to the process's own memory and to its pages of
 * files, the same at the peak, the dirty pages of the file in a writable mapping, and what the work wrote by system calls. After
 * updates a second line is the sum of all values. Under callgrind (--instr-atstart=no) only the work is counted. */
#include "measure.h"

#include <fcntl.h>
#include <stdint.h>
#include <sys/mman.h>
#include <sys/stat.h>
#include <unistd.h>

enum { KEYS = 1000000, MOST_LINE = 512 };

/* The length of a file whose size doesn't follow from what is in it. */
#define FILE_LEN ((size_t)64 << 20)

typedef struct entry {
    int64_t key, value;
} entry;

/* A library's table. Its file maps the key of each entry of `entries` to its value. */
typedef struct table {
    const char *name;
    int sorted;                                                   /* whether it is built from sorted entries */
    void (*build)(const char *file, const entry *entries);        /* from nothing, to a closed file */
    void (*open)(const char *file, int writing);                  /* with the library's check of the file, if it has one */
    int64_t (*look_up)(const int64_t *keys, long count);          /* the sum of their values */
    void (*update)(const int64_t *keys, long count, int singly);  /* keys[i] gets i; singly: a transaction for each, if there are any */
    int64_t (*sum)(long count);                                   /* of the values of the least keys, in the order of keys */
    int64_t (*sum_by_entries)(long count);                        /* the same by calls that return several entries, or null */
    int64_t (*sum_singly)(long count);                            /* the same by a call for each key, or null */
    void (*check)(void);                                          /* null if the library has no check */
    int64_t (*pass)(void);                                        /* reads what the check has to read, once: the sum of the values; or null */
    void (*close)(void);
} table;

/* The keys are distinct, and spread over all numbers of 64 bits: splitmix64 is a permutation. */
static int64_t key_of(uint64_t index)
{
    uint64_t x = (index + 1) * 0x9e3779b97f4a7c15u;
    x = (x ^ (x >> 30)) * 0xbf58476d1ce4e5b9u;
    x = (x ^ (x >> 27)) * 0x94d049bb133111ebu;
    return (int64_t)(x ^ (x >> 31));
}

static int by_key(const void *left, const void *right)
{
    int64_t first = ((const entry *)left)->key, second = ((const entry *)right)->key;
    return (first > second) - (first < second);
}

/* All entries: in random order, or sorted. */
static entry *all_entries(int sorted)
{
    entry *entries = (entry *)malloc(KEYS * sizeof *entries);
    need(entries != NULL, "malloc");
    for (int i = 0; i < KEYS; i++) {
        entries[i].key = key_of((uint64_t)i);
        entries[i].value = i;
    }
    if (sorted) {
        qsort(entries, KEYS, sizeof *entries, by_key);
    }
    return entries;
}

/* Keys of the table at random, the same ones in each run. */
static int64_t *some_keys(long count)
{
    int64_t *keys = (int64_t *)malloc((size_t)count * sizeof *keys);
    need(keys != NULL, "malloc");
    uint64_t state = 12345;
    for (long i = 0; i < count; i++) {
        state = state * 6364136223846793005u + 1442695040888963407u;
        keys[i] = key_of((state >> 33) % KEYS);
    }
    return keys;
}

/* Maps a whole file, shared with other processes. */
static uint8_t *map_file(const char *file, int writing, size_t *len)
{
    struct stat about;
    int opened = open(file, writing ? O_RDWR : O_RDONLY);
    need(opened >= 0 && fstat(opened, &about) == 0, file);
    *len = (size_t)about.st_size;
    void *memory = mmap(NULL, *len, writing ? PROT_READ | PROT_WRITE : PROT_READ, MAP_SHARED, opened, 0);
    need(memory != MAP_FAILED, "mmap");
    close(opened);
    return (uint8_t *)memory;
}

/* The number in the first line of a file of /proc that begins with this word, or 0. */
static long proc_number(const char *file, const char *word)
{
    char line[MOST_LINE];
    long number = 0;
    FILE *opened = fopen(file, "r");
    need(opened != NULL, file);
    while (fgets(line, sizeof line, opened)) {
        if (strncmp(line, word, strlen(word)) == 0) {
            number = atol(line + strlen(word));
            break;
        }
    }
    fclose(opened);
    return number;
}

/* The KiB of dirty pages in the writable mappings of a file. */
static long dirty_of(const char *file)
{
    char line[MOST_LINE], mode[3], name[MOST_LINE];
    long dirty = 0, number;
    int inside = 0;
    FILE *opened = fopen("/proc/self/smaps", "r");
    need(opened != NULL, "smaps");
    while (fgets(line, sizeof line, opened)) {
        if (sscanf(line, "%*x-%*x %2s", mode) == 1) {
            int named = sscanf(line, "%*s %*s %*s %*s %*s %511s", name) == 1 && strcmp(name, file) == 0;
            inside = mode[1] == 'w' && named;
        } else if (inside && (sscanf(line, "Shared_Dirty: %ld", &number) == 1 || sscanf(line, "Private_Dirty: %ld", &number) == 1)) {
            dirty += number;
        }
    }
    fclose(opened);
    return dirty;
}

/* The memory of the process, in KiB, and the bytes that it wrote by system calls. */
typedef struct usage {
    long own, mapped, peak, written;
} usage;

static usage used(void)
{
    usage it;
    it.own = proc_number("/proc/self/smaps_rollup", "Anonymous:");
    it.mapped = proc_number("/proc/self/smaps_rollup", "Rss:") - it.own;
    it.peak = proc_number("/proc/self/status", "VmHWM:");
    it.written = proc_number("/proc/self/io", "wchar:");
    return it;
}

/* The works, beside the building of the file. */
typedef enum work_kind { OPEN, READ, LOOK_UP, UPDATE, UPDATE_SINGLY, SUM, SUM_BY_ENTRIES, SUM_SINGLY, CHECK, PASS } work_kind;
static const char *const WORK_NAMES[] = {"open", "read",           "look-up",    "update", "update-singly",
                                         "sum",  "sum-by-entries", "sum-singly", "check",  "pass"};

/* Does the work, on an open table unless it is to open it. Both ways to open also look up one key. */
static int64_t do_work(const table *t, work_kind kind, const char *file, const int64_t *keys, long count)
{
    switch (kind) {
    case OPEN:
    case READ:
        t->open(file, kind == OPEN);
        return t->look_up(keys, 1);
    case LOOK_UP:
        return t->look_up(keys, count);
    case UPDATE:
    case UPDATE_SINGLY:
        t->update(keys, count, kind == UPDATE_SINGLY);
        return 0;
    case SUM:
        return t->sum(count);
    case SUM_BY_ENTRIES:
        need(t->sum_by_entries != NULL, "a sum by several entries");
        return t->sum_by_entries(count);
    case SUM_SINGLY:
        need(t->sum_singly != NULL, "a sum by a call for each key");
        return t->sum_singly(count);
    case CHECK:
        need(t->check != NULL, "a check");
        t->check();
        return 0;
    case PASS:
        need(t->pass != NULL, "a pass");
        return t->pass();
    }
    return 0;
}

static void print_measures(double spent, int64_t result, const char *file, usage before)
{
    usage after = used();
    long peak = after.peak - before.own - before.mapped;
    printf("%.0f %lld %ld %ld %ld %ld %ld\n", spent, (long long)result, after.own - before.own, after.mapped - before.mapped, peak,
           dirty_of(file), (after.written - before.written) / 1024);
}

static void measure_build(const table *t, const char *file)
{
    entry *entries = all_entries(t->sorted);
    usage before = used();
    double begun = now();
    t->build(file, entries);
    print_measures(now() - begun, 0, file, before);
    free(entries);
}

/* The table is open before the work, unless the work is to open it, and all its pages were read. */
static void measure_work(const table *t, work_kind kind, const char *file, long count)
{
    int opens = kind == OPEN || kind == READ, updates = kind == UPDATE || kind == UPDATE_SINGLY;
    int64_t *keys = some_keys(count);
    if (!opens) {
        t->open(file, updates || kind == CHECK);
        t->sum(KEYS);
    }
    usage before = used();
    CALLGRIND_START_INSTRUMENTATION;
    double begun = now();
    int64_t result = do_work(t, kind, file, keys, count);
    double spent = now() - begun;
    CALLGRIND_STOP_INSTRUMENTATION;
    print_measures(spent, result, file, before);
    if (updates) {
        printf("%lld\n", (long long)t->sum(KEYS));
    }
    t->close();
    free(keys);
}

static int table_main(const table *tables, size_t count, int words_count, char **words)
{
    need(words_count == 5, "PROGRAM TABLE WORK FILE COUNT");
    for (size_t i = 0; i < count; i++) {
        if (strcmp(tables[i].name, words[1]) != 0) {
            continue;
        }
        if (strcmp(words[2], "build") == 0) {
            measure_build(&tables[i], words[3]);
            return 0;
        }
        for (int kind = OPEN; kind <= PASS; kind++) {
            if (strcmp(WORK_NAMES[kind], words[2]) == 0) {
                measure_work(&tables[i], (work_kind)kind, words[3], atol(words[4]));
                return 0;
            }
        }
    }
    need(0, words[1]);
    return 1;
}
