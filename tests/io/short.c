/* SPDX-License-Identifier: MIT OR Apache-2.0 */
// Preloaded before the C library: makes the program's reads and writes short, and lets single ones fail as a signal does.
// IO_READ, IO_WRITE: the most bytes that one read of standard input, one write takes. IO_READ_FAILS, IO_WRITE_FAILS: the number of the one that fails, from 1;
// with IO_FROM every one from that number on. IO_SPOIL: read, write or descriptor, a fault that the test must find.
#define _GNU_SOURCE
#include <errno.h>
#include <stdlib.h>
#include <string.h>
#include <sys/syscall.h>
#include <unistd.h>

static long number(const char *name) {
    const char *text = getenv(name);
    return text ? atol(text) : 0;
}

static int spoiled(const char *what) {
    const char *text = getenv("IO_SPOIL");
    return text && strcmp(text, what) == 0;
}

// the call with this number fails
static int fails(const char *name, long call) {
    long at = number(name);
    return at && (getenv("IO_FROM") ? call >= at : call == at);
}

static size_t most(const char *name, size_t bytes) {
    long limit = number(name);
    return limit && (size_t)limit < bytes ? (size_t)limit : bytes;
}

ssize_t read(int descriptor, void *bytes, size_t length) {
    static long calls, failed;
    if (descriptor != STDIN_FILENO)
        return syscall(SYS_read, descriptor, bytes, length);
    if (failed && spoiled("read"))
        return 0;
    if (fails("IO_READ_FAILS", ++calls)) {
        failed = 1;
        errno = EINTR;
        return -1;
    }
    return syscall(SYS_read, descriptor, bytes, most("IO_READ", length));
}

ssize_t write(int descriptor, const void *bytes, size_t length) {
    static long calls;
    if (spoiled("descriptor") && (descriptor == STDOUT_FILENO || descriptor == STDERR_FILENO))
        descriptor = STDOUT_FILENO + STDERR_FILENO - descriptor;
    if (descriptor == STDERR_FILENO)
        return syscall(SYS_write, descriptor, bytes, length);
    if (fails("IO_WRITE_FAILS", ++calls)) {
        errno = EINTR;
        return -1;
    }
    if (spoiled("write") && calls == 2)
        return (ssize_t)most("IO_WRITE", length);
    return syscall(SYS_write, descriptor, bytes, most("IO_WRITE", length));
}
