// A world that fails when it is told to. Loaded before a program by LD_PRELOAD, it stands between the program and the C library: each
// growth of memory, and each open, read and write.
//
// The environment says what fails, by numbers from 1 on, and how much a read or a write takes:
//   FAIL_MEMORY=N  the N-th growth of memory is refused      PIECE=N         a read or a write takes at most N bytes
//   FAIL_CALL=N    the N-th open, read or write fails        FAIL_FROM=N     it and all later ones fail
//   INTERRUPTED=1  a signal interrupts each second call
// NOTES=FD is a file that gets a line for each call and growth:
//   memory | open NAME FD | read FD COUNT | write FD COUNT | COUNT is -1 where the call fails, and -2 where a signal interrupts it
// With FAIL_MEMORY only the growth that is refused gets one: a large program grows tens of thousands of times.
#define _GNU_SOURCE
#include <errno.h>
#include <fcntl.h>
#include <limits.h>
#include <stdarg.h>
#include <stdio.h>
#include <stdlib.h>
#include <string.h>
#include <sys/syscall.h>
#include <unistd.h>

extern void *__libc_malloc(size_t);
extern void *__libc_realloc(void *, size_t);

static long growths, calls, tries;

static long setting(const char *name, long otherwise) {
    const char *text = getenv(name);
    return text ? atol(text) : otherwise;
}

static void note(const char *line) {
    long notes = setting("NOTES", -1);
    if (notes >= 0)
        syscall(SYS_write, notes, line, strlen(line));
}

static void note_call(const char *call, int fd, long count) {
    char line[80];
    snprintf(line, sizeof line, "%s %d %ld\n", call, fd, count);
    note(line);
}

static int is_refused(void) {
    long to_refuse = setting("FAIL_MEMORY", -1);
    int refused = __atomic_add_fetch(&growths, 1, __ATOMIC_SEQ_CST) == to_refuse;
    if (refused || to_refuse < 0)
        note("memory\n");
    if (refused)
        errno = ENOMEM;
    return refused;
}

void *malloc(size_t size) {
    return is_refused() ? NULL : __libc_malloc(size);
}

void *realloc(void *old, size_t size) {
    return is_refused() ? NULL : __libc_realloc(old, size);
}

// Why the next call doesn't come through: -1 fails it, -2 interrupts it, 0 lets it through.
static int hindrance(void) {
    if (setting("INTERRUPTED", 0) && __atomic_add_fetch(&tries, 1, __ATOMIC_SEQ_CST) % 2) {
        errno = EINTR;
        return -2;
    }
    long number = __atomic_add_fetch(&calls, 1, __ATOMIC_SEQ_CST);
    if (number == setting("FAIL_CALL", -1) || number >= setting("FAIL_FROM", LONG_MAX)) {
        errno = EIO;
        return -1;
    }
    return 0;
}

static size_t piece_of(size_t count) {
    size_t most = (size_t)setting("PIECE", 1L << 30);
    return count < most ? count : most;
}

int open(const char *name, int flags, ...) {
    char line[4200];
    va_list rest;
    va_start(rest, flags);
    int hindered = hindrance();
    int fd = hindered ? -1 : (int)syscall(SYS_openat, AT_FDCWD, name, flags, va_arg(rest, int));
    va_end(rest);
    snprintf(line, sizeof line, "open %s %d\n", name, hindered ? hindered : fd);
    note(line);
    return fd;
}

ssize_t read(int fd, void *bytes, size_t count) {
    int hindered = hindrance();
    ssize_t got = hindered ? -1 : syscall(SYS_read, fd, bytes, piece_of(count));
    note_call("read", fd, hindered ? hindered : got);
    return got;
}

ssize_t write(int fd, const void *bytes, size_t count) {
    int hindered = hindrance();
    ssize_t got = hindered ? -1 : syscall(SYS_write, fd, bytes, piece_of(count));
    note_call("write", fd, hindered ? hindered : got);
    return got;
}
