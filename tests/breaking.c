/* Breaks the devices of a program that loads this first (LD_PRELOAD): no read and no write moves more than BREAK_MOST bytes, and the
   read of number BREAK_READ, or the write to standard output of number BREAK_WRITE, fails with the error BREAK_ERROR, or says that it
   moved nothing where that is 0. A byte on the descriptor BREAK_TELL says that one was broken. */
#define _GNU_SOURCE
#include <errno.h>
#include <stdlib.h>
#include <sys/syscall.h>
#include <unistd.h>

static long made;

static long setting(const char *name) {
    const char *value = getenv(name);
    return value ? atol(value) : 0;
}

static size_t least(size_t count) {
    size_t most = setting("BREAK_MOST");
    return most && most < count ? most : count;
}

static int is_broken(const char *which) {
    if (!setting(which) || ++made != setting(which)) return 0;
    if (syscall(SYS_write, setting("BREAK_TELL"), "b", 1) != 1) abort();
    errno = setting("BREAK_ERROR");
    return 1;
}

ssize_t read(int from, void *room, size_t count) {
    if (is_broken("BREAK_READ")) return errno ? -1 : 0;
    return syscall(SYS_read, from, room, least(count));
}

ssize_t write(int to, const void *bytes, size_t count) {
    if (to == 1 && is_broken("BREAK_WRITE")) return errno ? -1 : 0;
    return syscall(SYS_write, to, bytes, least(count));
}
