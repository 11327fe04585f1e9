// For LD_PRELOAD: reads, and writes to standard output, that are short, are interrupted or fail. Until each further call gives -1 with
// the error ERROR, or 0 where that is 0, READ bytes are read in order, PREADS calls read at offsets, and WRITE bytes are written. MOST:
// at most so many bytes in a call, and each second read is interrupted. What isn't set is not bounded. The file CALLS gets a line for each
// read and each question for a length: its name, its offset, and what it gave.
#define _GNU_SOURCE
#include <errno.h>
#include <fcntl.h>
#include <stdio.h>
#include <stdlib.h>
#include <sys/stat.h>
#include <sys/syscall.h>
#include <unistd.h>

static size_t most(const char *name) { return getenv(name) ? strtoul(getenv(name), 0, 10) : -1; }

static ssize_t noted(const char *name, off_t at, ssize_t got) {
    int error = errno, calls = getenv("CALLS") ? open(getenv("CALLS"), O_WRONLY | O_CREAT | O_APPEND, 0600) : -1;
    if (calls >= 0) dprintf(calls, "%s %ld %zd\n", name, (long)at, got), close(calls);
    return errno = error, got;
}

static ssize_t after(size_t left, long call, int fd, const void *bytes, size_t n, off_t at) {
    static int calls;
    if (getenv("MOST") && call != SYS_write && ++calls % 2) return errno = EINTR, -1;
    if (n > left) n = left;
    if (n > most("MOST")) n = most("MOST");
    if (left == 0) return errno = most("ERROR"), errno ? -1 : 0;
    return syscall(call, fd, bytes, n, at);
}

ssize_t read(int fd, void *bytes, size_t n) {
    static size_t done;
    ssize_t got = after(most("READ") - done, SYS_read, fd, bytes, n, 0);
    return done += got > 0 ? got : 0, noted("read", 0, got);
}

ssize_t pread(int fd, void *bytes, size_t n, off_t at) {
    static size_t calls;
    return noted("pread", at, after(calls++ < most("PREADS") ? -1 : 0, SYS_pread64, fd, bytes, n, at));
}

ssize_t pread64(int fd, void *bytes, size_t n, off_t at) { return pread(fd, bytes, n, at); }

int statx(int fd, const char *path, int flags, unsigned mask, struct statx *found) {
    return noted("statx", 0, syscall(SYS_statx, fd, path, flags, mask, found));
}

ssize_t write(int fd, const void *bytes, size_t n) {
    static size_t done;
    if (fd != 1) return syscall(SYS_write, fd, bytes, n);
    ssize_t got = after(most("WRITE") - done, SYS_write, fd, bytes, n, 0);
    return done += got > 0 ? got : 0, got;
}
