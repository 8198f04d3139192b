/* Stands between the program and the C library: reads and writes move few bytes, and every other call is interrupted before it moves one. */
#define _GNU_SOURCE
#include <errno.h>
#include <sys/syscall.h>
#include <unistd.h>

static unsigned calls;

static size_t piece(size_t size) {
    size_t most = 1 + calls % 7;
    return size < most ? size : most;
}

static int interrupted(void) {
    calls += 1;
    if (calls % 2) {
        errno = EINTR;
        return 1;
    }
    return 0;
}

ssize_t read(int fd, void *bytes, size_t size) {
    return interrupted() ? -1 : syscall(SYS_read, fd, bytes, piece(size));
}

ssize_t write(int fd, const void *bytes, size_t size) {
    return interrupted() ? -1 : syscall(SYS_write, fd, bytes, piece(size));
}
