/* What calls.c and clients.c share: a list of works, and the program that repeats one of them. */
#include <stdio.h>
#include <stdlib.h>
#include <string.h>
#include <time.h>
#include <valgrind/callgrind.h>

typedef struct work {
    const char *name;
    void (*once)(void);
} work;

static void need(int right, const char *what)
{
    if (!right) {
        fprintf(stderr, "%s failed\n", what);
        exit(1);
    }
}

/* The processor time so far, in nanoseconds. Other jobs disturb it less than the elapsed time. */
static double now(void)
{
    struct timespec time;
    clock_gettime(CLOCK_PROCESS_CPUTIME_ID, &time);
    return (double)time.tv_sec * 1e9 + (double)time.tv_nsec;
}

/* Repeats the work of this name, and prints the name and the nanoseconds of one repetition. Under callgrind
 * (--instr-atstart=no) only the repetitions are counted. */
static void measure(const work *works, size_t count, const char *name, long times)
{
    for (size_t i = 0; i < count; i++) {
        if (strcmp(works[i].name, name) == 0) {
            void (*once)(void) = works[i].once;
            once(); /* the first one also binds symbols and touches pages */
            CALLGRIND_START_INSTRUMENTATION;
            double begun = now();
            for (long n = 0; n < times; n++) {
                once();
            }
            double spent = now() - begun;
            CALLGRIND_STOP_INSTRUMENTATION;
            printf("%s %.1f\n", name, spent / (double)times);
            return;
        }
    }
    need(0, name);
}

#define MEASURE(works, name, times) measure((works), sizeof(works) / sizeof *(works), (name), (times))
