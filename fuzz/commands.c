#define _GNU_SOURCE
#include "commands.h"
#include "fuzz.h"

#include <errno.h>
#include <fcntl.h>
#include <stdarg.h>
#include <stdio.h>
#include <stdlib.h>
#include <string.h>
#include <sys/stat.h>
#include <sys/types.h>
#include <unistd.h>

enum { MOST_WORDS = 16 };

/* segtool's `main`, which fuzz/build.sh renames. */
int segtool_main(int count, char **words);

/* ---- arguments and outputs */

static const char *words[MOST_WORDS];
static size_t word_count;
static told now;
static bool is_running;

/* These two take the place of the toolchain's functions for the arguments of a program. */
size_t rattle_arg_count(void);
ssize_t rattle_arg(size_t number, uint8_t *bytes, size_t room);

size_t rattle_arg_count(void)
{
    return word_count;
}

/* The length of an argument, -1 if there is none, or -2 if it is longer than the room. */
ssize_t rattle_arg(size_t number, uint8_t *bytes, size_t room)
{
    if (number >= word_count) {
        return -1;
    }
    size_t len = strlen(words[number]);
    if (len > room) {
        return -2;
    }
    memcpy(bytes, words[number], len);
    return (ssize_t)len;
}

ssize_t __real_write(int file, const void *bytes, size_t len);
ssize_t __wrap_write(int file, const void *bytes, size_t len);

/* Link with -Wl,--wrap=write. */
ssize_t __wrap_write(int file, const void *bytes, size_t len)
{
    if (!is_running || (file != 1 && file != 2)) {
        return __real_write(file, bytes, len);
    }
    size_t *at = file == 1 ? &now.out_len : &now.error_len;
    if (len > MOST_TOLD - *at) {
        errno = ENOSPC;
        return -1;
    }
    memcpy((file == 1 ? now.out : now.error) + *at, bytes, len);
    *at += len;
    return (ssize_t)len;
}

/* ---- the folder */

static char folder[64];

static void leave_folder(void)
{
    static const char *const names[] = {"program.lez", "image", "saved", "client", "again", "input", "text", "other"};
    for (size_t i = 0; i < sizeof names / sizeof *names; i++) {
        remove_file(names[i]);
    }
    if (chdir("/") == 0) {
        rmdir(folder);
    }
}

/* Makes the folder of this process, and goes there. */
static void enter_folder(void)
{
    if (folder[0] != 0) {
        return;
    }
    bool has_memory = access("/dev/shm", W_OK) == 0;
    snprintf(folder, sizeof folder, "%s/lezgauri-fuzz-XXXXXX", has_memory ? "/dev/shm" : "/tmp");
    if (mkdtemp(folder) == NULL || chdir(folder) != 0) {
        perror(folder);
        exit(2);
    }
    atexit(leave_folder);
}

void write_file(const char *name, const void *bytes, size_t len)
{
    enter_folder();
    int file = open(name, O_WRONLY | O_CREAT | O_TRUNC, 0600);
    if (file < 0 || __real_write(file, bytes, len) != (ssize_t)len || close(file) != 0) {
        perror(name);
        exit(2);
    }
}

size_t read_file(const char *name, void *bytes, size_t room)
{
    enter_folder();
    struct stat found;
    int file = open(name, O_RDONLY);
    if (file < 0) {
        return SIZE_MAX;
    }
    size_t len = SIZE_MAX;
    if (fstat(file, &found) == 0 && (size_t)found.st_size <= room) {
        ssize_t got = read(file, bytes, (size_t)found.st_size);
        len = got == found.st_size ? (size_t)got : SIZE_MAX;
    }
    close(file);
    return len;
}

void remove_file(const char *name)
{
    unlink(name);
}

/* ---- commands */

const told *run_command(const char *word, ...)
{
    va_list more;
    enter_folder();
    words[0] = "segtool";
    word_count = 1;
    va_start(more, word);
    for (const char *it = word; it != NULL && word_count < MOST_WORDS; it = va_arg(more, const char *)) {
        words[word_count++] = it;
    }
    va_end(more);
    now.out_len = now.error_len = 0;
    long taken = live_blocks();
    is_running = true;
    now.status = segtool_main((int)word_count, (char **)words);
    is_running = false;
    NEED(live_blocks() == taken, "segtool %s doesn't free %ld blocks", word, live_blocks() - taken);
    counters[COMMANDS]++;
    return &now;
}

bool has_command(const char *name)
{
    return run_command(name, "--help", NULL)->status == 0;
}
