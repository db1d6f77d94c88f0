// Loaded before the C library. Makes calls on files fail.
//
// FAIL=NAME     of the calls that finish a file (permissions, sync-file, sync-folder, rename), those with this name
//               fail. The name of each such call is written to the file in CALLS.
// FAIL_AT=N     call N of all calls on files fails, counted from 1, in the way of FAIL_WITH: a number is the error;
//               `short` reads or writes a part only; `kill` ends the process before the call, and `killed` after it.
//               The names of all calls, with the descriptor if they have one, are written to the file in ALL_CALLS.
#define _GNU_SOURCE
#include <dlfcn.h>
#include <errno.h>
#include <fcntl.h>
#include <signal.h>
#include <stdarg.h>
#include <stdio.h>
#include <stdlib.h>
#include <string.h>
#include <sys/stat.h>
#include <sys/syscall.h>
#include <sys/uio.h>
#include <unistd.h>

enum how { WORKS, FAILS, IS_SHORT, IS_KILLED_AFTER };

static void note(const char *variable, const char *line) {
    const char *name = getenv(variable);
    FILE *calls = name ? fopen(name, "a") : NULL;
    if (calls) {
        fprintf(calls, "%s\n", line);
        fclose(calls);
    }
}

static void end(void) {
    syscall(SYS_kill, getpid(), SIGKILL);
}

// Counts a call, and decides what becomes of it. If it fails, errno is set.
static enum how next_call(const char *call, int file) {
    static long count, failing = -1;
    static const char *with;
    int error = errno;
    if (failing < 0) {
        const char *number = getenv("FAIL_AT");
        failing = number ? atol(number) : 0;
        with = getenv("FAIL_WITH");
    }
    if (getenv("ALL_CALLS")) {
        char line[64];
        snprintf(line, sizeof line, "%s %d", call, file);
        note("ALL_CALLS", line);
    }
    errno = error;
    if (++count != failing || !with)
        return WORKS;
    if (strcmp(with, "kill") == 0)
        end();
    if (strcmp(with, "killed") == 0)
        return IS_KILLED_AFTER;
    if (strcmp(with, "short") == 0)
        return IS_SHORT;
    errno = atoi(with);
    return FAILS;
}

// Whether a call that finishes a file fails by its name.
static int fails_by_name(const char *call) {
    const char *failing = getenv("FAIL");
    note("CALLS", call);
    errno = EIO;
    return failing && strcmp(failing, call) == 0;
}

#define NEXT(name) __typeof__(name) *next = (__typeof__(name) *)dlsym(RTLD_NEXT, #name)

// The body of a call: `refused` is returned where it fails, and `made` is the call.
#define BODY(name, type, file, refused, made)                                                                          \
    {                                                                                                                  \
        NEXT(name);                                                                                                    \
        enum how how = next_call(#name, file);                                                                         \
        if (how == FAILS)                                                                                              \
            return refused;                                                                                            \
        type result = made;                                                                                            \
        if (how == IS_KILLED_AFTER)                                                                                    \
            end();                                                                                                     \
        return result;                                                                                                 \
    }

// How many bytes a call gets, of those that it asks for.
#define PART(len) (how == IS_SHORT && (len) > 1 ? (len) / 2 : (len))

ssize_t read(int file, void *bytes, size_t len) BODY(read, ssize_t, file, -1, next(file, bytes, PART(len)))

ssize_t pread(int file, void *bytes, size_t len, off_t at)
    BODY(pread, ssize_t, file, -1, next(file, bytes, PART(len), at))

ssize_t write(int file, const void *bytes, size_t len) BODY(write, ssize_t, file, -1, next(file, bytes, PART(len)))

ssize_t pwrite(int file, const void *bytes, size_t len, off_t at)
    BODY(pwrite, ssize_t, file, -1, next(file, bytes, PART(len), at))

ssize_t writev(int file, const struct iovec *parts, int count)
    BODY(writev, ssize_t, file, -1, how == IS_SHORT ? next(file, parts, 1) : next(file, parts, count))

int close(int file) BODY(close, int, file, (next(file), -1), next(file))

off_t lseek(int file, off_t at, int from) BODY(lseek, off_t, file, -1, next(file, at, from))

int ftruncate(int file, off_t len) BODY(ftruncate, int, file, -1, next(file, len))

int fdatasync(int file) BODY(fdatasync, int, file, -1, next(file))

int fchown(int file, uid_t owner, gid_t group) BODY(fchown, int, file, -1, next(file, owner, group))

int unlink(const char *path) BODY(unlink, int, -1, -1, next(path))

int link(const char *from, const char *to) BODY(link, int, -1, -1, next(from, to))

char *realpath(const char *path, char *whole) BODY(realpath, char *, -1, NULL, next(path, whole))

ssize_t readlink(const char *path, char *bytes, size_t len) BODY(readlink, ssize_t, -1, -1, next(path, bytes, len))

int statx(int folder, const char *path, int flags, unsigned mask, struct statx *there)
    BODY(statx, int, folder, -1, next(folder, path, flags, mask, there))

static mode_t mode_of(int flags, va_list arguments) {
    return flags & (O_CREAT | __O_TMPFILE) ? va_arg(arguments, mode_t) : 0;
}

#define OPEN(name, ...)                                                                                                \
    {                                                                                                                  \
        va_list arguments;                                                                                             \
        va_start(arguments, flags);                                                                                    \
        mode_t mode = mode_of(flags, arguments);                                                                       \
        va_end(arguments);                                                                                             \
        BODY(name, int, -1, -1, next(__VA_ARGS__, flags, mode))                                                        \
    }

int open(const char *path, int flags, ...) OPEN(open, path)
int open64(const char *path, int flags, ...) OPEN(open64, path)
int openat(int folder, const char *path, int flags, ...) OPEN(openat, folder, path)

int fsync(int file) {
    struct stat there;
    int is_folder = fstat(file, &there) == 0 && S_ISDIR(there.st_mode);
    if (fails_by_name(is_folder ? "sync-folder" : "sync-file"))
        return -1;
    if (is_folder)
        BODY(fsync, int, -1, -1, next(file))
    else
        BODY(fsync, int, file, -1, next(file))
}

int fchmod(int file, mode_t mode) {
    if (fails_by_name("permissions"))
        return -1;
    BODY(fchmod, int, file, -1, next(file, mode))
}

int rename(const char *from, const char *to) {
    if (fails_by_name("rename"))
        return -1;
    BODY(rename, int, -1, -1, next(from, to))
}
