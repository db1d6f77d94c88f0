// Loaded before the C library. Writes a line to the file in CALLS_LOG for each call that changes a file or a folder,
// or that waits until a change is on the disk, in the order of the calls. checks/power.py reads the lines. A call that
// fails has none.
//
//   open DESCRIPTOR INODE KIND MADE EMPTIED PATH    KIND is `file`, `folder` or `other`; MADE and EMPTIED are 0 or 1
//   write DESCRIPTOR OFFSET HEX
//   truncate DESCRIPTOR LENGTH
//   sync DESCRIPTOR
//   rename OLD NEW, link OLD NEW, unlink PATH       paths have no spaces
//   close DESCRIPTOR
//   unknown CALL                                    a call that changes files and that power.py doesn't know
#define _GNU_SOURCE
#include <dlfcn.h>
#include <errno.h>
#include <fcntl.h>
#include <limits.h>
#include <stdarg.h>
#include <stdio.h>
#include <stdlib.h>
#include <string.h>
#include <sys/mman.h>
#include <sys/stat.h>
#include <sys/syscall.h>
#include <sys/uio.h>
#include <unistd.h>

#define NEXT(name) __typeof__(name) *next = (__typeof__(name) *)dlsym(RTLD_NEXT, #name)

// Writes to the log by system calls alone, so that it doesn't record itself.
static void log_bytes(const char *bytes, size_t len) {
    static int log = -2;
    if (log == -2) {
        const char *name = getenv("CALLS_LOG");
        log = name ? (int)syscall(SYS_openat, AT_FDCWD, name, O_WRONLY | O_CREAT | O_APPEND | O_CLOEXEC, 0666) : -1;
    }
    while (log >= 0 && len > 0) {
        long written = syscall(SYS_write, log, bytes, len);
        if (written <= 0)
            abort();
        bytes += written;
        len -= (size_t)written;
    }
}

static void log_line(const char *format, ...) {
    char line[3 * PATH_MAX];
    int error = errno;
    va_list arguments;
    va_start(arguments, format);
    int len = vsnprintf(line, sizeof line, format, arguments);
    va_end(arguments);
    log_bytes(line, (size_t)len);
    errno = error;
}

static int exists(int folder, const char *path) {
    struct stat there;
    int error = errno;
    int found = syscall(SYS_newfstatat, folder, path, &there, AT_SYMLINK_NOFOLLOW) == 0;
    errno = error;
    return found;
}

// The path of an open file, as the system knows it.
static void path_of(int file, char *path) {
    char link[64];
    snprintf(link, sizeof link, "/proc/self/fd/%d", file);
    ssize_t len = readlink(link, path, PATH_MAX - 1);
    path[len < 0 ? 0 : len] = 0;
}

// A path from the root, of a name that may be a link itself.
static void from_root(const char *name, char *path) {
    char copy[PATH_MAX], folder[PATH_MAX];
    snprintf(copy, sizeof copy, "%s", name);
    char *slash = strrchr(copy, '/');
    const char *last = slash ? slash + 1 : name;
    if (slash)
        *(slash == copy ? slash + 1 : slash) = 0;
    if (!realpath(slash ? copy : ".", folder))
        folder[0] = 0;
    snprintf(path, 2 * PATH_MAX, "%s/%s", folder, last);
}

static int opened(int file, int flags, int was_there) {
    if (file < 0)
        return file;
    int error = errno;
    struct stat there;
    char path[PATH_MAX];
    fstat(file, &there);
    path_of(file, path);
    const char *kind = S_ISREG(there.st_mode) ? "file" : S_ISDIR(there.st_mode) ? "folder" : "other";
    log_line("open %d %lu %s %d %d %s\n", file, (unsigned long)there.st_ino, kind, !was_there, (flags & O_TRUNC) != 0,
             path);
    errno = error;
    return file;
}

static mode_t mode_of(int flags, va_list arguments) {
    return flags & (O_CREAT | __O_TMPFILE) ? va_arg(arguments, mode_t) : 0;
}

#define OPEN(name, folder, ...)                                                                                        \
    {                                                                                                                  \
        va_list arguments;                                                                                             \
        va_start(arguments, flags);                                                                                    \
        mode_t mode = mode_of(flags, arguments);                                                                       \
        va_end(arguments);                                                                                             \
        NEXT(name);                                                                                                    \
        int was_there = exists(folder, path);                                                                          \
        return opened(next(__VA_ARGS__, flags, mode), flags, was_there);                                               \
    }

int open(const char *path, int flags, ...) OPEN(open, AT_FDCWD, path)
int open64(const char *path, int flags, ...) OPEN(open64, AT_FDCWD, path)
int openat(int folder, const char *path, int flags, ...) OPEN(openat, folder, folder, path)
int openat64(int folder, const char *path, int flags, ...) OPEN(openat64, folder, folder, path)

int creat(const char *path, mode_t mode) {
    return open(path, O_WRONLY | O_CREAT | O_TRUNC, mode);
}

static ssize_t wrote(int file, off_t offset, const char *bytes, ssize_t written) {
    static const char digits[] = "0123456789abcdef";
    int error = errno;
    if (written > 0) {
        log_line("write %d %ld ", file, (long)offset);
        for (ssize_t i = 0; i < written; i++) {
            const char hex[2] = {digits[(bytes[i] >> 4) & 15], digits[bytes[i] & 15]};
            static char line[4096];
            static size_t len;
            memcpy(line + len, hex, 2);
            len += 2;
            if (len == sizeof line || i == written - 1) {
                log_bytes(line, len);
                len = 0;
            }
        }
        log_bytes("\n", 1);
    }
    errno = error;
    return written;
}

// Where a file's next byte is written; -1 for a pipe.
static off_t place_of(int file) {
    int error = errno;
    off_t at = lseek(file, 0, fcntl(file, F_GETFL) & O_APPEND ? SEEK_END : SEEK_CUR);
    errno = error;
    return at;
}

ssize_t write(int file, const void *bytes, size_t len) {
    NEXT(write);
    off_t at = place_of(file);
    return wrote(file, at, bytes, next(file, bytes, len));
}

ssize_t pwrite(int file, const void *bytes, size_t len, off_t offset) {
    NEXT(pwrite);
    return wrote(file, offset, bytes, next(file, bytes, len, offset));
}

ssize_t pwrite64(int file, const void *bytes, size_t len, off_t offset) {
    NEXT(pwrite64);
    return wrote(file, offset, bytes, next(file, bytes, len, offset));
}

ssize_t writev(int file, const struct iovec *parts, int count) {
    NEXT(writev);
    off_t at = place_of(file);
    ssize_t written = next(file, parts, count);
    for (ssize_t left = written; left > 0; parts++) {
        ssize_t part = left < (ssize_t)parts->iov_len ? left : (ssize_t)parts->iov_len;
        wrote(file, at, parts->iov_base, part);
        at += part;
        left -= part;
    }
    return written;
}

#define STATUS(name, parameters, arguments, ...)                                                                       \
    int name parameters {                                                                                              \
        NEXT(name);                                                                                                    \
        int status = next arguments;                                                                                   \
        if (status == 0)                                                                                               \
            log_line(__VA_ARGS__);                                                                                     \
        return status;                                                                                                 \
    }

STATUS(ftruncate, (int file, off_t len), (file, len), "truncate %d %ld\n", file, (long)len)
STATUS(ftruncate64, (int file, off64_t len), (file, len), "truncate %d %ld\n", file, (long)len)
STATUS(fsync, (int file), (file), "sync %d\n", file)
STATUS(fdatasync, (int file), (file), "sync %d\n", file)
STATUS(close, (int file), (file), "close %d\n", file)
STATUS(truncate, (const char *path, off_t len), (path, len), "unknown truncate %s\n", path)
STATUS(mkdir, (const char *path, mode_t mode), (path, mode), "unknown mkdir %s\n", path)
STATUS(symlink, (const char *target, const char *path), (target, path), "unknown symlink %s\n", path)
STATUS(fallocate, (int file, int mode, off_t at, off_t len), (file, mode, at, len), "unknown fallocate\n")
STATUS(posix_fallocate, (int file, off_t at, off_t len), (file, at, len), "unknown posix_fallocate\n")
STATUS(renameat, (int one, const char *from, int two, const char *to), (one, from, two, to), "unknown renameat\n")
STATUS(linkat, (int one, const char *from, int two, const char *to, int how), (one, from, two, to, how),
       "unknown linkat\n")
STATUS(unlinkat, (int folder, const char *path, int how), (folder, path, how), "unknown unlinkat\n")

static int moved(const char *call, const char *from, const char *to, int status) {
    char one[2 * PATH_MAX], two[2 * PATH_MAX];
    if (status == 0) {
        from_root(from, one);
        from_root(to, two);
        log_line("%s %s %s\n", call, one, two);
    }
    return status;
}

int rename(const char *from, const char *to) {
    NEXT(rename);
    return moved("rename", from, to, next(from, to));
}

int link(const char *from, const char *to) {
    NEXT(link);
    return moved("link", from, to, next(from, to));
}

int unlink(const char *path) {
    NEXT(unlink);
    int status = next(path);
    char whole[2 * PATH_MAX];
    if (status == 0) {
        from_root(path, whole);
        log_line("unlink %s\n", whole);
    }
    return status;
}

void *mmap(void *at, size_t len, int rights, int flags, int file, off_t offset) {
    NEXT(mmap);
    if (file >= 0 && (flags & MAP_SHARED) && (rights & PROT_WRITE))
        log_line("unknown mmap\n");
    return next(at, len, rights, flags, file, offset);
}
