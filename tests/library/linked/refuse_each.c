// refuse_each NAME ..: runs each NAME.json with its certificate, checks that, negotiates two lists, tells a record's
// fault, and explains the first scripts, while one allocation after the other is refused: the status is NO_MEMORY, no
// text and no settings are written, and nothing stays allocated. An explanation can do without some room: then its text
// is whole. The last line is 'N passed, M failed'.
#include "mezulobu.h"
#include <stdio.h>
#include <stdlib.h>
#include <string.h>

extern void *__libc_malloc(size_t size);
extern void *__libc_realloc(void *old, size_t size);
extern void __libc_free(void *at);

static long met, refused, held;
static int counts;

static int is_refused(void) { return counts && ++met == refused; }

void *malloc(size_t size)
{
    if (is_refused())
        return NULL;
    void *at = __libc_malloc(size);
    held += counts && at;
    return at;
}

void *realloc(void *old, size_t size)
{
    if (is_refused())
        return NULL;
    void *at = __libc_realloc(old, size);
    held += counts && at && !old;
    return at;
}

void free(void *at)
{
    held -= counts && at;
    __libc_free(at);
}

// How many of the scripts are explained: such a call takes some thousands of allocations.
enum { RUNS, CHECKS, EXPLAINS, KINDS, EXPLAINED = 4 };

static char script[1 << 22], proof[1 << 20], text[1 << 16], other[1 << 20], whole[1 << 16];
static size_t whole_size;

static size_t content(char *at, size_t room, const char *name, const char *ending)
{
    char path[4096];
    snprintf(path, sizeof path, "%s%s", name, ending);
    FILE *file = fopen(path, "rb");
    if (!file)
        exit(2);
    size_t size = fread(at, 1, room, file);
    fclose(file);
    return size;
}

static int is_empty(const char *at, size_t room)
{
    for (size_t i = 0; i < room; i++)
        if (at[i])
            return 0;
    return 1;
}

// One call while an allocation is refused, if the call comes to it; -1 where something is wrong, else whether it came
// to it.
static int call(int kind, size_t n, size_t m)
{
    size_t size = sizeof text, other_size = sizeof other;
    memset(text, 0, 512);
    memset(other, 0, 512);
    met = held = 0;
    counts = 1;
    int status = kind == CHECKS ? mezulobu_check(script, n, proof, m, text, &size)
        : kind == EXPLAINS ? mezulobu_explain(script, n, "a.json", false, text, &size)
        : mezulobu_run(script, n, text, &size, other, &other_size);
    counts = 0;
    if (held)
        return -1;
    if (met < refused)
        return status == MEZULOBU_DONE ? 0 : -1;
    if (kind == EXPLAINS && status == MEZULOBU_DONE)
        return size == whole_size && !memcmp(text, whole, size) ? 1 : -1;
    return status == MEZULOBU_NO_MEMORY && !size && (kind != RUNS || !other_size) && is_empty(text, 512) &&
                   is_empty(other, 512)
               ? 1
               : -1;
}

static const struct mezulobu_heap heaps[] = {{.cpu = true}, {.contiguous = true, .cpu = true, .ram = true}};
static const struct mezulobu_pair pairs[] = {{.format = 0x34324241}, {.format = 0x3231564e}};
static const uint32_t colors[] = {MEZULOBU_SRGB, MEZULOBU_REC709};
static const struct mezulobu_platform platform = {sizeof platform, heaps, 2, pairs, 2, colors, 2};
static const struct mezulobu_entry entry = {
    .struct_size = sizeof entry, .format = 0x3231564e, .colors = MEZULOBU_REC709};
static const struct mezulobu_entry other_entry = {
    .struct_size = sizeof entry, .format = 0x34324241, .colors = MEZULOBU_SRGB};
static const struct mezulobu_participant participants[] = {
    {.struct_size = sizeof participants[0],
     .usage = MEZULOBU_USE_VIDEO,
     .camping = 2,
     .heaps = 2,
     .entries = &entry,
     .n_entries = 1},
    {.struct_size = sizeof participants[0], .usage = MEZULOBU_USE_CPU, .entries = &entry, .n_entries = 1},
    {.struct_size = sizeof participants[0], .usage = MEZULOBU_USE_CPU, .entries = &other_entry, .n_entries = 1},
};

// The same of a negotiation of the first participants, which ends so where no allocation is refused.
static int negotiate(size_t n, int wanted)
{
    struct mezulobu_settings s = {.struct_size = sizeof s}, before = s;
    struct mezulobu_refusal r = {.struct_size = sizeof r};
    met = held = 0;
    counts = 1;
    int status = mezulobu_negotiate(&platform, participants, n, &s, &r);
    counts = 0;
    if (held)
        return -1;
    if (met < refused)
        return status == wanted ? 0 : -1;
    return status == MEZULOBU_NO_MEMORY && !memcmp(&s, &before, sizeof s) && !r.kind && r.who == MEZULOBU_NOBODY ? 1
                                                                                                                 : -1;
}

// The same of what is told of a record's fault.
static int find_fault(void)
{
    static const char record[] = "{\"usage\":[\"cpu\"],\"min_buffer_cont\":2}";
    size_t size = sizeof text;
    memset(text, 0, sizeof text);
    met = held = 0;
    counts = 1;
    int status = mezulobu_record_fault(MEZULOBU_KIND_PARTICIPANT, record, sizeof record - 1, text, &size);
    counts = 0;
    if (held)
        return -1;
    if (met < refused)
        return status == MEZULOBU_DONE ? 0 : -1;
    if (status == MEZULOBU_DONE)
        return size == whole_size && !memcmp(text, whole, size) ? 1 : -1;
    return status == MEZULOBU_NO_MEMORY && !size && is_empty(text, sizeof text) ? 1 : -1;
}

// Whether that ends as it ought to, whichever allocation is refused.
static bool is_fault_found(void)
{
    int came = 1;
    refused = 1L << 40;
    find_fault();
    memcpy(whole, text, whole_size = strlen(text));
    for (refused = 1; came == 1; refused++)
        came = find_fault();
    if (came)
        printf("library: another answer: a record's fault: allocation %ld refused\n", refused - 1);
    return !came && refused > 10;
}

int main(int count, char **names)
{
    long passed = is_fault_found(), failed = !passed;
    for (size_t n = 2; n <= 3; n++) {
        int came = 1;
        for (refused = 1; came == 1; refused++)
            came = negotiate(n, n == 2 ? MEZULOBU_DONE : MEZULOBU_NO);
        came || refused < 10 ? failed++ : passed++;
        if (came)
            printf("library: another answer: a list of %zu: allocation %ld refused\n", n, refused - 1);
    }
    for (int i = 1; i < count; i++) {
        size_t n = content(script, sizeof script, names[i], ".json"),
               m = content(proof, sizeof proof, names[i], ".proof");
        for (int kind = RUNS; kind < (i <= EXPLAINED ? KINDS : EXPLAINS); kind++) {
            int came = 1;
            whole_size = sizeof whole;
            mezulobu_explain(script, n, "a.json", false, whole, &whole_size);
            for (refused = 1; came == 1; refused++)
                came = call(kind, n, m);
            if (came) {
                failed++;
                printf("library: another answer: %s: allocation %ld refused\n", names[i], refused - 1);
            } else
                passed++;
        }
    }
    printf("%ld passed, %ld failed\n", passed, failed);
    return failed != 0;
}
