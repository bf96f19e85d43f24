/* Calls about files to preload: the Nth one of a kind fails, comes short, or is cut off by a signal, and all are counted.
 *
 *   DISK_UNDER   only files below this folder are meant, and calls about others are the system's own
 *   DISK_CALL    which kind of call: open, write, sync, rename or lock
 *   DISK_AT      which one of this kind, from 1; none if it is 0 or missing
 *   DISK_ON      if it is 1, each later one too
 *   DISK_ERRNO   it fails with this number
 *   DISK_SHORT   a write takes no more than this many bytes
 *   DISK_SIGNAL  a write takes half of the bytes, and then this signal comes
 *   DISK_COUNT   the file that gets the number of calls of each kind at exit
 */
#define _GNU_SOURCE
#include <errno.h>
#include <fcntl.h>
#include <signal.h>
#include <stdarg.h>
#include <stdio.h>
#include <stdlib.h>
#include <string.h>
#include <sys/syscall.h>
#include <sys/uio.h>
#include <unistd.h>

enum { OPEN, WRITE, SYNC, RENAME, LOCK, KINDS };

static const char *const names[KINDS] = {"open", "write", "sync", "rename", "lock"};
static unsigned long calls[KINDS];

static unsigned long number_of(const char *name) { return getenv(name) ? strtoul(getenv(name), NULL, 10) : 0; }

static int is_below(const char *path) {
    const char *folder = getenv("DISK_UNDER");
    return folder && !strncmp(path, folder, strlen(folder));
}

static int is_meant(int file) {
    char link[64], path[4096];
    snprintf(link, sizeof link, "/proc/self/fd/%d", file);
    ssize_t length = syscall(SYS_readlinkat, AT_FDCWD, link, path, sizeof path - 1);
    if (length < 0) return 0;
    path[length] = 0;
    return is_below(path);
}

/* Counts a call that is meant. Returns whether something is to become of it. */
static int is_chosen(int kind) {
    unsigned long number = ++calls[kind], at = number_of("DISK_AT");
    const char *call = getenv("DISK_CALL");
    if (!at || !call || strcmp(call, names[kind])) return 0;
    return number_of("DISK_ON") ? number >= at : number == at;
}

/* Whether a call fails; then errno says why. */
static int fails(int kind, int meant) {
    if (!meant || !is_chosen(kind) || !number_of("DISK_ERRNO")) return 0;
    errno = (int)number_of("DISK_ERRNO");
    return 1;
}

static ssize_t put(int file, const void *bytes, size_t count) { return syscall(SYS_write, file, bytes, count); }

ssize_t write(int file, const void *bytes, size_t count) {
    if (!is_meant(file) || !is_chosen(WRITE)) return put(file, bytes, count);
    if (number_of("DISK_ERRNO")) return errno = (int)number_of("DISK_ERRNO"), -1;
    if (number_of("DISK_SIGNAL")) {
        ssize_t done = put(file, bytes, count / 2);
        syscall(SYS_kill, getpid(), number_of("DISK_SIGNAL"));
        return done;
    }
    return put(file, bytes, count < number_of("DISK_SHORT") ? count : number_of("DISK_SHORT"));
}

ssize_t writev(int file, const struct iovec *pieces, int count) {
    return is_meant(file) && count > 0 ? write(file, pieces[0].iov_base, pieces[0].iov_len) : syscall(SYS_writev, file, pieces, count);
}

int fsync(int file) { return fails(SYNC, is_meant(file)) ? -1 : (int)syscall(SYS_fsync, file); }
int fdatasync(int file) { return fails(SYNC, is_meant(file)) ? -1 : (int)syscall(SYS_fdatasync, file); }
int rename(const char *from, const char *to) { return fails(RENAME, is_below(to)) ? -1 : (int)syscall(SYS_rename, from, to); }
int flock(int file, int how) { return fails(LOCK, is_meant(file)) ? -1 : (int)syscall(SYS_flock, file, how); }

static int open_at(int folder, const char *path, int flags, va_list more) {
    mode_t mode = flags & (O_CREAT | __O_TMPFILE) ? va_arg(more, mode_t) : 0;
    return fails(OPEN, is_below(path)) ? -1 : (int)syscall(SYS_openat, folder, path, flags, mode);
}

#define OPENS(folder, flags) va_list more; va_start(more, flags); int file = open_at(folder, path, flags, more); va_end(more); return file
int open(const char *path, int flags, ...) { OPENS(AT_FDCWD, flags); }
int open64(const char *path, int flags, ...) { OPENS(AT_FDCWD, flags | O_LARGEFILE); }
int openat(int folder, const char *path, int flags, ...) { OPENS(folder, flags); }
int openat64(int folder, const char *path, int flags, ...) { OPENS(folder, flags | O_LARGEFILE); }

__attribute__((destructor)) static void end(void) {
    char text[256];
    int length = 0, file = getenv("DISK_COUNT") ? (int)syscall(SYS_openat, AT_FDCWD, getenv("DISK_COUNT"), O_WRONLY | O_CREAT | O_TRUNC, 0600) : -1;
    for (int kind = 0; kind < KINDS; kind++) length += snprintf(text + length, sizeof text - (size_t)length, "%s %lu\n", names[kind], calls[kind]);
    if (file >= 0 && put(file, text, (size_t)length) < 0) _exit(125);
}
