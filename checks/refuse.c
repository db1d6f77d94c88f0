// Loaded before the C library. Refuses the request for memory with the number in REFUSE, and writes how many requests there were
// to the file in REQUESTS.
#define _GNU_SOURCE
#include <dlfcn.h>
#include <stdio.h>
#include <stdlib.h>

static long requests;

static int is_refused(void) {
    static long refused = -1;
    if (refused < 0) {
        const char *number = getenv("REFUSE");
        refused = number ? atol(number) : 0;
    }
    return ++requests == refused;
}

void *malloc(size_t size) {
    static void *(*next)(size_t);
    if (!next)
        next = (void *(*)(size_t))dlsym(RTLD_NEXT, "malloc");
    return is_refused() ? NULL : next(size);
}

void *realloc(void *old, size_t size) {
    static void *(*next)(void *, size_t);
    if (!next)
        next = (void *(*)(void *, size_t))dlsym(RTLD_NEXT, "realloc");
    return is_refused() ? NULL : next(old, size);
}

__attribute__((destructor)) static void tell(void) {
    const char *name = getenv("REQUESTS");
    FILE *file = NULL;
    long all = requests;
    if (name && (file = fopen(name, "w"))) {
        fprintf(file, "%ld\n", all);
        fclose(file);
    }
}
