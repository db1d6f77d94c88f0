/*
 * The fuzzer, as a program of its own, for libFuzzer (LIBFUZZER) or for AFL++ (AFL, and AFL_MUTATOR for its mutator;
 * fuzz/README.md). As a program of its own:
 *
 *   fuzz TARGET SEED COUNT            runs COUNT random inputs: a generated one, or a generated one with changes
 *   fuzz --for SECONDS TARGET SEED    runs random inputs until this time is over
 *   fuzz TARGET FILE..                runs the inputs in files
 *   fuzz --corpus TARGET SEED COUNT FOLDER   writes generated inputs to a folder
 *   fuzz --has TARGET                 has status 77 if what the target tests isn't there
 *
 * Input number N of a seed doesn't depend on the others. An input for which a result is wrong is written to the file
 * failed.TARGET, in the folder where the program started.
 */
#define _DEFAULT_SOURCE
#include "fuzz.h"

#include <fcntl.h>
#include <signal.h>
#include <stdarg.h>
#include <stdio.h>
#include <stdlib.h>
#include <string.h>
#include <time.h>
#include <unistd.h>

static const target *current;
static const uint8_t *input_now;
static size_t input_len, input_number;
static int start_folder = -1;

/* Writes the input to a file. Makes only calls that a signal handler may make. */
static void keep_input(void)
{
    char name[64] = "failed.";
    if (current == NULL) {
        return;
    }
    strncat(name, current->name, 32);
    int file = openat(start_folder, name, O_WRONLY | O_CREAT | O_TRUNC, 0666);
    if (file >= 0) {
        if (write(file, input_now, input_len) == (ssize_t)input_len) {
            static const char kept[] = "the input is in the file failed.TARGET\n";
            if (write(2, kept, sizeof kept - 1) < 0) {
                _exit(3);
            }
        }
        close(file);
    }
}

_Noreturn void wrong(const char *format, ...)
{
    va_list arguments;
    va_start(arguments, format);
    fputs("wrong: ", stderr);
    vfprintf(stderr, format, arguments);
    fprintf(stderr, " (input %zu)\n", input_number);
    va_end(arguments);
    signal(SIGABRT, SIG_DFL);
    keep_input();
    abort();
}

#ifndef AFL_MUTATOR

static void run(const target *it, const uint8_t *input, size_t len)
{
    if (start_folder < 0) {
        start_folder = open(".", O_RDONLY | O_DIRECTORY);
    }
    current = it;
    input_now = input;
    input_len = len;
    it->run(input, len);
}

#endif

#if defined(LIBFUZZER) || defined(AFL_MUTATOR)

/* Changes an input, or rarely makes another one. */
static size_t change(const target *it, choices *from, uint8_t *input, size_t len, size_t room)
{
    if (once_in(from, 64)) {
        static uint8_t made[MOST_INPUT];
        size_t made_len = it->generate(from, made);
        made_len = made_len > room ? room : made_len;
        memcpy(input, made, made_len);
        return made_len;
    }
    for (uint32_t i = 1 + choose(from, 4); i > 0; i--) {
        len = it->mutate(from, input, len, room);
    }
    return len;
}

#endif

#ifdef LIBFUZZER

int LLVMFuzzerInitialize(int *argc, char ***argv);
int LLVMFuzzerTestOneInput(const uint8_t *input, size_t len);
size_t LLVMFuzzerCustomMutator(uint8_t *input, size_t len, size_t room, unsigned seed);
size_t LLVMFuzzerMutate(uint8_t *input, size_t len, size_t room);

int LLVMFuzzerInitialize(int *argc, char ***argv)
{
    (void)argc, (void)argv;
    current = find_target(getenv("TARGET"));
    if (current == NULL) {
        fprintf(stderr, "set TARGET to image, client, text, calls or memory\n");
        exit(2);
    }
    return 0;
}

int LLVMFuzzerTestOneInput(const uint8_t *input, size_t len)
{
    if (len <= MOST_INPUT) {
        run(current, input, len);
    }
    return 0;
}

size_t LLVMFuzzerCustomMutator(uint8_t *input, size_t len, size_t room, unsigned seed)
{
    choices from = choices_of_seed(seed);
    return once_in(&from, 8) ? LLVMFuzzerMutate(input, len, room) : change(current, &from, input, len, room);
}

#elif defined(AFL)

__AFL_FUZZ_INIT();

int main(int argc, char **argv)
{
    const target *it = argc == 2 ? find_target(argv[1]) : NULL;
    if (it == NULL) {
        fprintf(stderr, "usage: fuzz TARGET, under afl-fuzz\n");
        return 2;
    }
    __AFL_INIT();
    const uint8_t *input = __AFL_FUZZ_TESTCASE_BUF;
    while (__AFL_LOOP(10000)) {
        size_t len = (size_t)__AFL_FUZZ_TESTCASE_LEN;
        if (len <= MOST_INPUT) {
            run(it, input, len);
        }
    }
    return 0;
}

#elif defined(AFL_MUTATOR)

void *afl_custom_init(void *afl, unsigned seed);
size_t afl_custom_fuzz(void *of, uint8_t *input, size_t len, uint8_t **changed, uint8_t *other, size_t other_len,
                       size_t room);
void afl_custom_deinit(void *of);

static choices random_choices;

void *afl_custom_init(void *afl, unsigned seed)
{
    (void)afl;
    random_choices = choices_of_seed(seed);
    current = find_target(getenv("TARGET"));
    if (current == NULL) {
        fprintf(stderr, "set TARGET to image, client, text, calls or memory\n");
        exit(2);
    }
    return &random_choices;
}

size_t afl_custom_fuzz(void *of, uint8_t *input, size_t len, uint8_t **changed, uint8_t *other, size_t other_len,
                       size_t room)
{
    static uint8_t bytes[MOST_INPUT];
    (void)other, (void)other_len;
    room = room > MOST_INPUT ? MOST_INPUT : room;
    len = len > room ? room : len;
    memcpy(bytes, input, len);
    *changed = bytes;
    return change(current, of, bytes, len, room);
}

void afl_custom_deinit(void *of)
{
    (void)of;
}

#else

static void crashed(int number)
{
    signal(number, SIG_DFL);
    keep_input();
    raise(number);
}

/* Input number `number` of a seed. Inputs in a row are changes of one generated input, which is the first of them. */
static size_t make_input(const target *it, uint64_t seed, uint64_t number, uint8_t *input)
{
    static uint8_t made[MOST_INPUT];
    static size_t made_len;
    static uint64_t made_number = UINT64_MAX;
    uint64_t first = number / it->variants;
    if (first != made_number) {
        choices from = choices_of_seed(seed * 0x100000001b3u + (first << 8));
        made_len = it->generate(&from, made);
        made_number = first;
    }
    size_t len = made_len;
    memcpy(input, made, len);
    if (number % it->variants != 0) {
        choices from = choices_of_seed(~(seed * 0x100000001b3u + number));
        for (uint32_t i = 1 + choose(&from, once_in(&from, 4) ? 12 : 3); i > 0; i--) {
            len = it->mutate(&from, input, len, MOST_INPUT);
        }
    }
    return len;
}

/* Opens a file by its name in the folder where the program started, since commands run in another one. */
static FILE *open_file(const char *name, bool writes)
{
    int file = openat(start_folder, name, writes ? O_WRONLY | O_CREAT | O_TRUNC : O_RDONLY, 0666);
    return file < 0 ? NULL : fdopen(file, writes ? "wb" : "rb");
}

static int write_corpus(const target *it, uint64_t seed, uint64_t count, const char *folder)
{
    static uint8_t input[MOST_INPUT];
    for (uint64_t i = 0; i < count; i++) {
        char name[4096];
        size_t len = make_input(it, seed, i * it->variants, input);
        snprintf(name, sizeof name, "%s/%s.%llu", folder, it->name, (unsigned long long)i);
        FILE *file = open_file(name, true);
        if (file == NULL || fwrite(input, 1, len, file) != len || fclose(file) != 0) {
            perror(name);
            return 2;
        }
    }
    return 0;
}

static int run_files(const target *it, int count, char **names)
{
    static uint8_t input[MOST_INPUT];
    for (int i = 0; i < count; i++) {
        FILE *file = open_file(names[i], false);
        if (file == NULL) {
            perror(names[i]);
            return 2;
        }
        size_t len = fread(input, 1, sizeof input, file);
        fclose(file);
        run(it, input, len);
    }
    print_counters();
    return 0;
}

static bool is_number(const char *word)
{
    return *word != 0 && strspn(word, "0123456789") == strlen(word);
}

/* Runs inputs of a seed: a number of them, or until a time is over. */
static int run_random(const target *it, uint64_t seed, uint64_t count, time_t seconds)
{
    static uint8_t input[MOST_INPUT];
    time_t end = time(NULL) + seconds;
    uint64_t done = 0;
    for (; done < count && (seconds == 0 || time(NULL) < end); done++) {
        size_t len = make_input(it, seed, done, input);
        input_number = done;
        alarm(60);
        run(it, input, len);
    }
    alarm(0);
    printf("%s, seed %llu: %llu inputs, ", it->name, (unsigned long long)seed, (unsigned long long)done);
    print_counters();
    return 0;
}

static const char usage[] = "usage: fuzz TARGET SEED COUNT | fuzz --for SECONDS TARGET SEED | fuzz TARGET FILE.. |\n"
                            "       fuzz --corpus TARGET SEED COUNT FOLDER | fuzz --has TARGET\n";

/* Signals are handled on a stack of their own, since a call may have used up the other. */
static void handle_signals(void)
{
    static const int signals[] = {SIGSEGV, SIGBUS, SIGFPE, SIGILL, SIGALRM};
    static uint8_t stack[1 << 16];
    stack_t of = {.ss_sp = stack, .ss_size = sizeof stack};
    struct sigaction action = {.sa_handler = crashed, .sa_flags = SA_ONSTACK};
    sigaltstack(&of, NULL);
    for (size_t i = 0; i < sizeof signals / sizeof *signals; i++) {
        sigaction(signals[i], &action, NULL);
    }
}

static bool is_option(int argc, char **argv, const char *option, int words)
{
    return argc == words + 2 && strcmp(argv[1], option) == 0;
}

int main(int argc, char **argv)
{
    bool writes = is_option(argc, argv, "--corpus", 4), asks = is_option(argc, argv, "--has", 1);
    bool is_timed = is_option(argc, argv, "--for", 3) && is_number(argv[2]) && is_number(argv[4]);
    int first = is_timed ? 3 : writes || asks ? 2 : 1;
    const target *it = argc > first ? find_target(argv[first]) : NULL;
    if (asks && it == NULL) {
        return 77;
    }
    if (it == NULL || (argc < 3)) {
        fputs(usage, stderr);
        return 2;
    }
    handle_signals();
    start_folder = open(".", O_RDONLY | O_DIRECTORY);
    if (it->is_there != NULL && !it->is_there()) {
        return 77;
    }
    char **words = argv + first + 1;
    if (asks) {
        return 0;
    }
    if (writes) {
        return write_corpus(it, strtoull(words[0], NULL, 10), strtoull(words[1], NULL, 10), words[2]);
    }
    if (is_timed) {
        return run_random(it, strtoull(words[0], NULL, 10), UINT64_MAX, strtoll(argv[2], NULL, 10));
    }
    if (argc == 4 && is_number(words[0]) && is_number(words[1])) {
        return run_random(it, strtoull(words[0], NULL, 10), strtoull(words[1], NULL, 10), 0);
    }
    return run_files(it, argc - first - 1, words);
}

#endif
