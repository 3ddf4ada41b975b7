// What the tests of live collections share: tallies, texts, and a platform.
#ifndef COMMON_H
#define COMMON_H
#include <mezulobu.h>
#include <stdio.h>
#include <stdlib.h>
#include <string.h>
#include <time.h>

#define NV12 0x3231564eu
#define RGB 0x34325258u

#define NEED(call) need((call), #call, __FILE__, __LINE__)

static inline void need(int status, const char *call, const char *file, int line)
{
    if (status == MEZULOBU_DONE)
        return;
    printf("%s:%d: %s: %s\n", file, line, call, mezulobu_status_name(status));
    fflush(stdout);
    abort();
}

struct tally {
    long passed, failed;
};

static inline void expect(struct tally *t, int good, const char *what)
{
    good ? t->passed++ : t->failed++;
    if (!good)
        printf("another answer: %s\n", what);
}

static inline int end(const struct tally *t)
{
    printf("%ld passed, %ld failed\n", t->passed, t->failed);
    return t->failed != 0;
}

static inline double milliseconds(void)
{
    struct timespec t;
    clock_gettime(CLOCK_MONOTONIC, &t);
    return (double)t.tv_sec * 1e3 + (double)t.tv_nsec / 1e6;
}

// The next of a row of random numbers, from 0 to below most.
static inline unsigned draw(unsigned *seed, unsigned most)
{
    *seed = *seed * 1103515245u + 12345u;
    return (*seed >> 16) % most;
}

struct text {
    char *at;
    size_t size;
};

// The script, and its certificate where one is wanted; null where memory is refused.
static inline int script_of(struct mezulobu_collection *c, struct text *script, struct text *proof)
{
    *script = (struct text){0};
    if (proof)
        *proof = (struct text){0};
    int status = mezulobu_collection_script(c, NULL, &script->size, NULL, proof ? &proof->size : NULL);
    while (status == MEZULOBU_TOO_SMALL) {
        script->at = realloc(script->at, script->size + 1);
        if (proof)
            proof->at = realloc(proof->at, proof->size + 1);
        if (!script->at || (proof && !proof->at))
            abort();
        status = mezulobu_collection_script(c, script->at, &script->size, proof ? proof->at : NULL,
                                            proof ? &proof->size : NULL);
    }
    return status;
}

// A text that a call writes.
static inline int explained(struct mezulobu_collection *c, int (*by)(struct mezulobu_collection *, char *, size_t *),
                            struct text *text)
{
    *text = (struct text){0};
    int status = by(c, NULL, &text->size);
    while (status == MEZULOBU_TOO_SMALL) {
        text->at = realloc(text->at, text->size + 1);
        if (!text->at)
            abort();
        status = by(c, text->at, &text->size);
    }
    if (status == MEZULOBU_DONE)
        text->at[text->size] = 0;
    return status;
}

static inline struct mezulobu_allocator *plain_allocator(void)
{
    static const struct mezulobu_heap heaps[] = {{.cpu = true, .ram = true},
                                                 {.contiguous = true, .cpu = true, .ram = true}};
    static const struct mezulobu_pair pairs[] = {{.format = NV12}, {.format = RGB}};
    static const uint32_t colors[] = {MEZULOBU_SRGB, MEZULOBU_REC709};
    static const struct mezulobu_platform platform = {sizeof platform, heaps, 2, pairs, 2, colors, 2};
    struct mezulobu_allocator *a = NULL;
    NEED(mezulobu_allocator_new(&platform, &a, NULL));
    return a;
}

// The token of a new collection's root.
static inline struct mezulobu_token *new_root(void)
{
    struct mezulobu_allocator *a = plain_allocator();
    struct mezulobu_token *root = NULL;
    NEED(mezulobu_allocate_shared(a, &root));
    mezulobu_allocator_free(a);
    return root;
}

#endif
