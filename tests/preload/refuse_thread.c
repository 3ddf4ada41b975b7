// Loaded before the C library: refuses the one thread that REFUSE_NTH names, counted from 1.
#define _GNU_SOURCE
#include <dlfcn.h>
#include <errno.h>
#include <pthread.h>
#include <stdlib.h>

typedef int create(pthread_t *, const pthread_attr_t *, void *(*)(void *), void *);

static _Atomic long met;

int pthread_create(pthread_t *thread, const pthread_attr_t *attributes, void *(*start)(void *), void *given) {
    const char *wanted = getenv("REFUSE_NTH");
    if (wanted && atol(wanted) == ++met)
        return EAGAIN;
    create *next = (create *)dlsym(RTLD_NEXT, "pthread_create");
    return next ? next(thread, attributes, start, given) : EAGAIN;
}
