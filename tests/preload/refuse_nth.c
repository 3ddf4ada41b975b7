// Loaded before the C library: refuses the one allocation that REFUSE_NTH names, counted from 1, and writes `refused`
// to the file that REFUSED_FILE names when it does.
#define _GNU_SOURCE
#include <dlfcn.h>
#include <fcntl.h>
#include <stdlib.h>
#include <unistd.h>

static _Atomic long met;

static int is_refused(void) {
    const char *wanted = getenv("REFUSE_NTH");
    long now = ++met;
    if (!wanted || atol(wanted) != now)
        return 0;
    const char *path = getenv("REFUSED_FILE");
    if (path) {
        int file = open(path, O_WRONLY | O_CREAT | O_TRUNC, 0600);
        if (file >= 0) {
            if (write(file, "refused", 7) < 0)
                _exit(99);
            close(file);
        }
    }
    return 1;
}

extern void *__libc_malloc(size_t size);
extern void *__libc_realloc(void *old, size_t size);

void *malloc(size_t size) {
    return is_refused() ? NULL : __libc_malloc(size);
}

void *realloc(void *old, size_t size) {
    return is_refused() ? NULL : __libc_realloc(old, size);
}
