// Loaded before the C library: of the file FAILING_FILE, each call before the one that FAILING_CALL names, counted from
// 1, works, and that one fails. A read gives at most 100 bytes and a write takes one, of each file. With
// FAILING_TAKES=nothing a write takes no byte in place of failing.
#define _GNU_SOURCE
#include <errno.h>
#include <stdlib.h>
#include <string.h>
#include <sys/syscall.h>
#include <unistd.h>

static long made;

static long number(const char *name) {
    const char *text = getenv(name);
    return text ? atol(text) : -1;
}

static int is_failing(int file) {
    return file == number("FAILING_FILE") && ++made == number("FAILING_CALL");
}

ssize_t read(int file, void *into, size_t count) {
    if (is_failing(file)) {
        errno = EINTR;
        return -1;
    }
    return syscall(SYS_read, file, into, count < 100 ? count : 100);
}

ssize_t write(int file, const void *from, size_t count) {
    if (!is_failing(file))
        return syscall(SYS_write, file, from, count < 1 ? count : 1);
    const char *takes = getenv("FAILING_TAKES");
    if (takes && strcmp(takes, "nothing") == 0)
        return 0;
    errno = EINTR;
    return -1;
}
