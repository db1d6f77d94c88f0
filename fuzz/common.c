/* Choices, memory, and requests for memory that are refused. */
#define _DEFAULT_SOURCE
#include "fuzz.h"

#include <stdio.h>
#include <stdlib.h>
#include <string.h>
#include <sys/mman.h>

enum { PAGE = 4096 };

choices choices_of_seed(uint64_t seed)
{
    return (choices){(seed + 1) * 0x9e3779b97f4a7c15u, NULL, 0};
}

choices choices_of_bytes(const uint8_t *bytes, size_t len)
{
    return (choices){0, bytes, len};
}

static uint32_t next_number(choices *from)
{
    from->state += 0x9e3779b97f4a7c15u;
    uint64_t mixed = (from->state ^ (from->state >> 30)) * 0xbf58476d1ce4e5b9u;
    mixed = (mixed ^ (mixed >> 27)) * 0x94d049bb133111ebu;
    return (uint32_t)(mixed >> 32);
}

uint32_t choose(choices *from, uint32_t limit)
{
    if (from->bytes == NULL) {
        return limit == 0 ? 0 : (uint32_t)(((uint64_t)next_number(from) * limit) >> 32);
    }
    uint32_t number = 0;
    for (uint32_t most = limit - 1; limit > 1 && most > 0 && from->left > 0; most >>= 8) {
        number = number << 8 | *from->bytes++;
        from->left--;
    }
    return limit == 0 ? 0 : number % limit;
}

bool once_in(choices *from, uint32_t times)
{
    return choose(from, times) == times - 1;
}

bool is_over(const choices *from)
{
    return from->bytes != NULL && from->left == 0;
}

/* Eight bytes at a time, since whole images are hashed. */
uint64_t hash_bytes(uint64_t hash, const void *bytes, size_t len)
{
    const uint8_t *at = bytes;
    for (; len >= 8; at += 8, len -= 8) {
        uint64_t number;
        memcpy(&number, at, sizeof number);
        hash = (hash ^ number) * 0x9e3779b97f4a7c15u;
        hash ^= hash >> 32;
    }
    for (; len > 0; at++, len--) {
        hash = (hash ^ *at) * 0x100000001b3u;
    }
    return hash;
}

static size_t pages(size_t len)
{
    return (len + PAGE - 1) / PAGE * PAGE;
}

/* Memory with a page behind it that can't be used. A few are kept, since the system takes long to make one. */
enum { KEPT_BLOCKS = 16 };
static struct block {
    uint8_t *memory;
    size_t len;
    bool is_used;
} kept[KEPT_BLOCKS];

static uint8_t *new_block(size_t len)
{
    uint8_t *memory = mmap(NULL, len + PAGE, PROT_READ | PROT_WRITE, MAP_PRIVATE | MAP_ANONYMOUS, -1, 0);
    if (memory == MAP_FAILED || mprotect(memory + len, PAGE, PROT_NONE) != 0) {
        perror("memory");
        exit(2);
    }
    return memory;
}

uint8_t *guarded(size_t len)
{
    for (int i = 0; i < KEPT_BLOCKS; i++) {
        struct block *it = &kept[i];
        if (!it->is_used && (it->memory == NULL || it->len == pages(len))) {
            if (it->memory == NULL) {
                it->len = pages(len);
                it->memory = new_block(it->len);
            }
            it->is_used = true;
            return memset(it->memory + it->len - len, 0, len);
        }
    }
    return new_block(pages(len)) + pages(len) - len;
}

void free_guarded(uint8_t *memory, size_t len)
{
    memory -= pages(len) - len;
    static int next;
    for (int i = 0; i < KEPT_BLOCKS; i++) {
        if (kept[i].memory == memory) {
            kept[i].is_used = false;
            return;
        }
    }
    /* takes the place of a kept block, so that the sizes that are used now are kept */
    next = (next + 1) % KEPT_BLOCKS;
    if (!kept[next].is_used) {
        munmap(kept[next].memory, kept[next].len + PAGE);
        kept[next] = (struct block){memory, pages(len), false};
    } else {
        munmap(memory, pages(len) + PAGE);
    }
}

/* ---- the library's requests for memory: link with -Wl,--wrap=malloc,--wrap=realloc,--wrap=free */

void *__real_malloc(size_t size);
void *__real_realloc(void *block, size_t size);
void __real_free(void *block);
void *__wrap_malloc(size_t size);
void *__wrap_realloc(void *block, size_t size);
void __wrap_free(void *block);

static unsigned made, refused;
static long blocks;

void refuse_request(unsigned request)
{
    made = 0;
    refused = request;
}

unsigned requests(void)
{
    return made;
}

static bool is_refused(void)
{
    return ++made == refused && refused != 0;
}

long live_blocks(void)
{
    return blocks;
}

void *__wrap_malloc(size_t size)
{
    void *block = is_refused() ? NULL : __real_malloc(size);
    blocks += block != NULL;
    return block;
}

void *__wrap_realloc(void *block, size_t size)
{
    void *moved = is_refused() ? NULL : __real_realloc(block, size);
    blocks += block == NULL && moved != NULL;
    return moved;
}

void __wrap_free(void *block)
{
    blocks -= block != NULL;
    __real_free(block);
}

uint64_t counters[COUNTERS];

void print_counters(void)
{
    static const char *const names[COUNTERS] = {
        [SOUND_IMAGES] = "sound images",
        [FAULTY_IMAGES] = "images with a fault",
        [ACCEPTED] = "accepted clients",
        [REFUSED] = "refused clients",
        [RUNS] = "runs",
        [TEXTS] = "texts of clients",
        [BAD_TEXTS] = "other texts",
        [PROGRAMS] = "compiled programs",
        [BAD_PROGRAMS] = "programs with errors",
        [COMMANDS] = "commands",
        [CALLS] = "calls",
        [COMPARED] = "calls compared between segments", [SHORT_CALLS] = "calls out of memory",
        [REFUSALS] = "refused requests for host memory",
    };
    const char *comma = "";
    for (int i = 0; i < COUNTERS; i++) {
        if (counters[i] > 0) {
            printf("%s%llu %s", comma, (unsigned long long)counters[i], names[i]);
            comma = ", ";
        }
    }
    printf("\n");
}
