/* Preloaded into the command by failures.py and streams.py: refuses, fails or shortens calls of the C library, and counts.
 *
 *   REFUSE_ALLOC=N   the Nth growth of memory (malloc, calloc, realloc) is refused
 *   REFUSE_IO=N      the Nth read or write (also open, fsync, rename) fails
 *   FAULT=N          the error with which that read or write fails; 0: a write takes nothing
 *   SHORT_IO=N       the Nth read or write of several bytes moves one
 *   OUT_LEFT=N       standard output takes N bytes more in all: a write takes what it can of them, and then writes fail
 *   ERR_LEFT=N       the same of standard error
 *   NARROW=N         a write to standard output moves at most N bytes
 *   CLOCK_STEP_MS=N  the monotonic clock stands at 0, and goes on by N milliseconds at each look
 *   COUNT_FILE=NAME  at the end a line "ALLOCS AFTER BYTES IO SHORT" is written there: all growths, those between the
 *                    last read and the first write, the bytes these asked for, all reads and writes, those of several bytes
 *
 * Counting begins at main, so what the loader does isn't seen. */
#define _GNU_SOURCE
#include <dlfcn.h>
#include <errno.h>
#include <fcntl.h>
#include <stdarg.h>
#include <stdint.h>
#include <stdio.h>
#include <stdlib.h>
#include <string.h>
#include <sys/syscall.h>
#include <sys/types.h>
#include <time.h>
#include <unistd.h>

extern void *__libc_malloc(size_t);
extern void *__libc_calloc(size_t, size_t);
extern void *__libc_realloc(void *, size_t);

static long allocs, after, bytes, io, several, wrote;
static long fail_alloc, fail_io, fault, short_io, narrow;
/* of standard output and standard error; -1 where there is no limit */
static long left[3] = {-1, -1, -1};
/* -1 where the clock is the system's */
static long clock_step = -1;
static int on;

static long number(const char *name, long otherwise) {
    const char *text = getenv(name);
    return text ? strtol(text, NULL, 10) : otherwise;
}

__attribute__((constructor)) static void begin(void) {
    fail_alloc = number("REFUSE_ALLOC", 0);
    fail_io = number("REFUSE_IO", 0);
    fault = number("FAULT", EIO);
    short_io = number("SHORT_IO", 0);
    narrow = number("NARROW", 0);
    left[STDOUT_FILENO] = number("OUT_LEFT", -1);
    left[STDERR_FILENO] = number("ERR_LEFT", -1);
    clock_step = number("CLOCK_STEP_MS", -1);
    on = 1;
}

__attribute__((destructor)) static void end(void) {
    const char *name = getenv("COUNT_FILE");
    char line[128];
    int file, length;
    on = 0;
    if (!name || (file = open(name, O_WRONLY | O_CREAT | O_TRUNC, 0644)) < 0) return;
    length = snprintf(line, sizeof line, "%ld %ld %ld %ld %ld\n", allocs, after, bytes, io, several);
    if (write(file, line, length) != length) _exit(99);
    close(file);
}

static int refused(size_t n) {
    if (!on) return 0;
    if (!wrote) after++, bytes += (long)n;
    return ++allocs == fail_alloc;
}

void *malloc(size_t n) { return refused(n) ? (errno = ENOMEM, NULL) : __libc_malloc(n); }
void *calloc(size_t n, size_t m) { return refused(n * m) ? (errno = ENOMEM, NULL) : __libc_calloc(n, m); }
void *realloc(void *p, size_t n) { return refused(n) ? (errno = ENOMEM, NULL) : __libc_realloc(p, n); }

static int failed(long error) { return errno = error ? (int)error : EIO, -1; }

/* -1: fail; else how many bytes to ask for. */
static ssize_t asked(size_t n) {
    if (!on) return (ssize_t)n;
    if (++io == fail_io) return -1;
    if (n > 1 && ++several == short_io) return 1;
    return (ssize_t)n;
}

/* How many of n bytes a stream takes, which has so many left; -1 where it takes none. */
static ssize_t taken(int fd, ssize_t n) {
    if (!on || n <= 0) return n;
    if (fd == STDOUT_FILENO && narrow && n > narrow) n = narrow;
    if (fd < STDOUT_FILENO || fd > STDERR_FILENO || left[fd] < 0) return n;
    if (n > left[fd]) n = left[fd];
    left[fd] -= n;
    return n ? n : -1;
}

ssize_t read(int fd, void *to, size_t n) {
    static ssize_t (*real)(int, void *, size_t);
    ssize_t count = asked(n);
    if (!real) *(void **)&real = dlsym(RTLD_NEXT, "read");
    if (on) after = bytes = 0;
    return count < 0 ? failed(fault) : real(fd, to, (size_t)count);
}

ssize_t write(int fd, const void *from, size_t n) {
    static ssize_t (*real)(int, const void *, size_t);
    ssize_t count = taken(fd, asked(n));
    if (!real) *(void **)&real = dlsym(RTLD_NEXT, "write");
    if (on) wrote = 1;
    return count < 0 ? fault ? failed(fault) : 0 : real(fd, from, (size_t)count);
}

int open(const char *name, int flags, ...) {
    static int (*real)(const char *, int, ...);
    va_list more;
    mode_t mode = 0;
    va_start(more, flags);
    if (flags & O_CREAT) mode = va_arg(more, mode_t);
    va_end(more);
    if (!real) *(void **)&real = dlsym(RTLD_NEXT, "open");
    return on && ++io == fail_io ? failed(EIO) : real(name, flags, mode);
}

int fsync(int fd) {
    static int (*real)(int);
    if (!real) *(void **)&real = dlsym(RTLD_NEXT, "fsync");
    return on && ++io == fail_io ? failed(EIO) : real(fd);
}

int rename(const char *from, const char *to) {
    static int (*real)(const char *, const char *);
    if (!real) *(void **)&real = dlsym(RTLD_NEXT, "rename");
    return on && ++io == fail_io ? failed(EIO) : real(from, to);
}

/* (by the system call, since a sanitizer looks at the clock from inside of dlsym) */
int clock_gettime(clockid_t clock, struct timespec *to) {
    static long now;
    if (!on || clock_step < 0 || clock != CLOCK_MONOTONIC) return (int)syscall(SYS_clock_gettime, clock, to);
    to->tv_sec = now / 1000;
    to->tv_nsec = now % 1000 * 1000000;
    now += clock_step;
    return 0;
}
