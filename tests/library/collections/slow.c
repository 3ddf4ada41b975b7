// slow: a decision of 4,096 selections, none of which can be met, on the widest platform, while other threads ask:
// checks, descriptors, names, scripts, explanations and refusals of the same collection and whole other collections are
// answered meanwhile; a release of it waits until it is decided. The last line is 'N passed, M failed'.
#include "common.h"
#include <pthread.h>
#include <stdatomic.h>

enum {
    GROUPS = 12,
    HEAPS = 64,
    LINEAR_FORMATS = 14,
    TILED_FORMATS = 4,
    COLORS = 8,
    PAIRS = LINEAR_FORMATS + 2 * TILED_FORMATS,
    ROUNDS = 50
};

static const char formats[LINEAR_FORMATS][5] = {"AB24", "AR24", "XB24", "XR24", "BG24", "RG24", "RG16",
                                                "GR88", "R8  ", "YUYV", "YU12", "YV12", "NV12", "P010"};
static const uint64_t tiles[2] = {0x0100000000000001, 0x0100000000000002};

static struct mezulobu_collection *asker, *leaver, *last;
static struct mezulobu_allocator *allocator;
static atomic_bool is_deciding, is_over;
static atomic_ulong checks, descriptors, names, texts, others;
static double worst_check, waited;
static int left_as;
static atomic_int spent, misused;

static uint32_t code(const char *letters)
{
    return (uint32_t)letters[0] | (uint32_t)letters[1] << 8 | (uint32_t)letters[2] << 16 | (uint32_t)letters[3] << 24;
}

static struct mezulobu_allocator *widest(void)
{
    static struct mezulobu_heap heaps[HEAPS];
    static struct mezulobu_pair pairs[PAIRS];
    static uint32_t colors[COLORS];
    struct mezulobu_platform platform = {sizeof platform, heaps, HEAPS, pairs, PAIRS, colors, COLORS};
    struct mezulobu_allocator *a = NULL;
    size_t n = 0;
    for (size_t i = 0; i < HEAPS; i++)
        heaps[i] = (struct mezulobu_heap){.cpu = true, .ram = true, .inaccessible = true, .contiguous = i % 2};
    for (size_t i = 0; i < LINEAR_FORMATS; i++)
        pairs[n++].format = code(formats[i]);
    for (size_t i = 0; i < 2 * TILED_FORMATS; i++)
        pairs[n++] = (struct mezulobu_pair){.format = code(formats[i / 2]), .modifier = tiles[i % 2]};
    for (size_t i = 0; i < COLORS; i++)
        colors[i] = 1u << i;
    NEED(mezulobu_allocator_new(&platform, &a, NULL));
    return a;
}

// A participant whose last group of alternatives takes smaller images than all others do.
static void take_part(struct mezulobu_token *token, unsigned group)
{
    struct mezulobu_collection *c = NULL;
    struct mezulobu_entry e = {
        .struct_size = sizeof e, .any_format = true, .any_modifier = true, .colors = MEZULOBU_COLOR_DO_NOT_CARE};
    struct mezulobu_participant p = {.struct_size = sizeof p,
                                     .usage = MEZULOBU_USE_VIDEO,
                                     .cpu = true,
                                     .ram = true,
                                     .camping = 1,
                                     .entries = &e,
                                     .n_entries = 1};
    if (group == GROUPS - 1)
        e.max_size = (struct mezulobu_size){50, 50};
    else
        e.min_size = (struct mezulobu_size){100 + group, 1};
    NEED(mezulobu_token_bind(&token, &c));
    NEED(mezulobu_collection_set_constraints(c, &p, NULL));
    NEED(mezulobu_collection_release(&c));
}

static void seat(struct mezulobu_token *root, struct mezulobu_collection **c)
{
    struct mezulobu_token *token = NULL;
    NEED(mezulobu_token_duplicate(root, &token));
    NEED(mezulobu_token_bind(&token, c));
    NEED(mezulobu_collection_set_constraints(*c, NULL, NULL));
}

static void gather(void)
{
    struct mezulobu_token *root = NULL;
    NEED(mezulobu_allocate_shared(allocator, &root));
    seat(root, &asker);
    seat(root, &leaver);
    for (unsigned g = 0; g < GROUPS; g++) {
        struct mezulobu_group *group = NULL;
        NEED(mezulobu_token_create_group(root, &group));
        for (int child = 0; child < 2; child++) {
            struct mezulobu_token *token = NULL;
            NEED(mezulobu_group_create_child(group, &token));
            take_part(token, g);
        }
        NEED(mezulobu_group_all_children_present(group));
        NEED(mezulobu_group_release(&group));
    }
    NEED(mezulobu_token_bind(&root, &last));
}

static void *check(void *unused)
{
    while (!is_over) {
        bool was = is_deciding;
        double begun = milliseconds();
        int status = mezulobu_collection_check(asker, NULL);
        double took = milliseconds() - begun;
        // PENDING of the second of two checks: the first one was answered before the decision was there.
        if (was && status == MEZULOBU_PENDING) {
            checks++;
            worst_check = took > worst_check ? took : worst_check;
        }
    }
    return unused;
}

// What is asked is answered before the decision where that isn't there behind it either.
static void *ask(void *unused)
{
    while (!is_over) {
        bool was = is_deciding;
        char name[33];
        uint8_t choices[GROUPS];
        size_t length = sizeof name, n = sizeof choices;
        int fd = mezulobu_collection_fd(asker), selection = mezulobu_collection_selection(asker, choices, &n);
        bool is_named = mezulobu_collection_set_name(asker, "asker") == MEZULOBU_DONE &&
                        mezulobu_collection_name_of(asker, 1, name, &length) == MEZULOBU_DONE;
        if (!was || mezulobu_collection_check(asker, NULL) != MEZULOBU_PENDING)
            continue;
        descriptors += fd >= 0;
        names += is_named && length == 5 && selection == MEZULOBU_PENDING;
    }
    return unused;
}

// A whole other collection of the same allocator.
static void *share(void *unused)
{
    while (!is_over) {
        bool was = is_deciding;
        struct mezulobu_token *root = NULL;
        struct mezulobu_collection *c = NULL;
        NEED(mezulobu_allocate_shared(allocator, &root));
        NEED(mezulobu_token_bind(&root, &c));
        NEED(mezulobu_collection_set_constraints(c, NULL, NULL));
        NEED(mezulobu_collection_check(c, NULL));
        NEED(mezulobu_collection_release(&c));
        if (was && mezulobu_collection_check(asker, NULL) == MEZULOBU_PENDING)
            others++;
    }
    return unused;
}

// A call that acts waits: once it is done there is a verdict. Of two releases of one handle that wait so, one spends
// it, and it is the other's no more.
static void *release(void *unused)
{
    struct timespec little = {0, 500000};
    while (!is_deciding)
        nanosleep(&little, NULL);
    nanosleep(&little, NULL);
    double begun = milliseconds();
    struct mezulobu_collection *own = leaver;
    int status = mezulobu_collection_release(&own);
    spent += status == MEZULOBU_DONE;
    misused += status == MEZULOBU_MISUSED;
    if (status != MEZULOBU_DONE)
        return unused;
    waited += milliseconds() - begun;
    left_as = mezulobu_collection_check(asker, NULL);
    return unused;
}

// Texts are of the moment before the call that brings the decision, which is the last one's: its report has its domain
// as pending.
static void *write_texts(void *unused)
{
    while (!is_over) {
        bool was = is_deciding;
        struct text script, certificate;
        struct mezulobu_refusal why = {.struct_size = sizeof why};
        NEED(script_of(asker, &script, &certificate));
        bool is_before = certificate.size == 3 && !memcmp(certificate.at, "[]\n", 3) &&
                         mezulobu_collection_refusal(asker, &why) == MEZULOBU_NO;
        if (was && mezulobu_collection_check(asker, NULL) == MEZULOBU_PENDING)
            texts += is_before;
        free(script.at);
        free(certificate.at);
    }
    return unused;
}

// One decision; how long it took, and what was decided.
static int decide(double *took)
{
    static void *(*const jobs[])(void *) = {check, ask, share, release, release, write_texts};
    enum { JOBS = sizeof jobs / sizeof *jobs };
    pthread_t threads[JOBS];
    is_over = is_deciding = false;
    gather();
    for (int i = 0; i < JOBS; i++)
        if (pthread_create(&threads[i], NULL, jobs[i], NULL))
            exit(2);
    double begun = milliseconds();
    is_deciding = true;
    NEED(mezulobu_collection_set_constraints(last, NULL, NULL));
    *took = milliseconds() - begun;
    is_deciding = false;
    is_over = true;
    // Those that act look whether they are to begin.
    is_deciding = true;
    for (int i = 0; i < JOBS; i++)
        pthread_join(threads[i], NULL);
    int status = mezulobu_collection_check(asker, NULL);
    NEED(mezulobu_collection_release(&asker));
    NEED(mezulobu_collection_release(&last));
    return status;
}

int main(void)
{
    struct tally t = {0, 0};
    double took = 0, longest = 0;
    int rounds = 0, behind = 0, status = MEZULOBU_INTERSECTION_EMPTY;
    bool is_right = true;
    allocator = widest();
    do {
        status = decide(&took);
        longest = took > longest ? took : longest;
        is_right = is_right && status == MEZULOBU_INTERSECTION_EMPTY;
        // On a busy machine they may come before the call that brings the decision.
        behind += left_as == MEZULOBU_INTERSECTION_EMPTY;
    } while (++rounds < ROUNDS && (!behind || !checks || !descriptors || !names || !texts || !others));
    mezulobu_allocator_free(allocator);
    printf("%d decisions of 4096 selections, the longest of %.1f ms; meanwhile %lu checks, the slowest in %.2f ms, %lu "
           "descriptors, %lu names, %lu texts and %lu other collections\n"
           "a release waited %.1f ms\n",
           rounds, longest, checks, worst_check, descriptors, names, texts, others, waited / rounds);
    expect(&t, is_right, "no selection is met");
    expect(&t, behind > 0, "a release is behind that");
    expect(&t, spent == rounds && misused == rounds, "a handle is spent once");
    expect(&t, checks > 0, "checks are answered while it is decided");
    expect(&t, descriptors > 0, "descriptors are given while it is decided");
    expect(&t, names > 0, "names are told while it is decided");
    expect(&t, texts > 0, "scripts, certificates and refusals of before it are given while it is decided");
    expect(&t, others > 0, "other collections are decided meanwhile");
    return end(&t);
}
