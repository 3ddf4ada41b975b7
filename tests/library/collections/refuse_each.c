// refuse_each: plays one collection with a group, a late participant, names and all its texts, while one allocation
// after the other is refused, alone and with all that follow. Each call is done or says NO_MEMORY, or what it says of
// others' want of memory; bind, release, close, check and wait never want any; a script and explanations are there
// where a decision had no memory too; each handle can be given up; and nothing stays allocated. The last line is 'N
// passed, M failed'.
#include "common.h"

extern void *__libc_malloc(size_t size);
extern void *__libc_realloc(void *old, size_t size);
extern void *__libc_calloc(size_t many, size_t size);
extern void __libc_free(void *at);

static long met, refused, held, wants, others;
static bool counts, with_all_after;

static bool is_refused(void) { return counts && (++met == refused || (with_all_after && refused && met > refused)); }

void *malloc(size_t size)
{
    void *at = is_refused() ? NULL : __libc_malloc(size);
    held += counts && at;
    return at;
}

void *calloc(size_t many, size_t size)
{
    void *at = is_refused() ? NULL : __libc_calloc(many, size);
    held += counts && at;
    return at;
}

void *realloc(void *old, size_t size)
{
    void *at = is_refused() ? NULL : __libc_realloc(old, size);
    held += counts && at && !old;
    return at;
}

void free(void *at)
{
    held -= counts && at;
    __libc_free(at);
}

static void stop(const char *what, int status)
{
    counts = false;
    printf("allocation %ld refused%s: %s: %s\n0 passed, 1 failed\n", refused,
           with_all_after ? " with all after it" : "", what, mezulobu_status_name(status));
    exit(1);
}

// Whether a call was done, which may want memory.
static bool may_want(int status, const char *what)
{
    wants += status == MEZULOBU_NO_MEMORY;
    if (status != MEZULOBU_DONE && status != MEZULOBU_NO_MEMORY)
        stop(what, status);
    return status == MEZULOBU_DONE;
}

// One that is refused where others' calls were: because a node isn't there, or a decision had no memory.
static bool may_fail(int status, const char *what)
{
    switch (status) {
    case MEZULOBU_WRONG_STATE:
    case MEZULOBU_NO_CHILDREN:
    case MEZULOBU_NOT_SELECTED:
    case MEZULOBU_DOMAIN_FAILED:
    case MEZULOBU_INTERSECTION_EMPTY:
    case MEZULOBU_PENDING:
    case MEZULOBU_NO:
        if (!refused)
            stop(what, status);
        others++;
        return false;
    default:
        return may_want(status, what);
    }
}

// One that is done without memory, but for that of a decision that it may bring.
static void wants_none(int status, const char *what)
{
    if (status != MEZULOBU_DONE)
        stop(what, status);
}

// How many allocations there were before a call that takes none.
static long before;

static int took_none(int status, const char *what)
{
    if (met != before)
        stop(what, status);
    return status;
}

#define MAY_WANT(call) may_want((call), #call)
#define MAY_FAIL(call) may_fail((call), #call)
#define WANTS_NONE(call) wants_none((call), #call)
#define TAKES_NONE(call) wants_none((before = met, took_none((call), #call)), #call)
#define TOLD(call) may_fail((before = met, took_none((call), #call)), #call)

enum { A, B, C, ROOT, SEATS };

struct scene {
    struct mezulobu_token *tokens[SEATS], *late;
    struct mezulobu_group *group;
    struct mezulobu_collection *seats[SEATS], *attached;
};

static bool begin(struct scene *s)
{
    static const struct mezulobu_heap heaps[] = {{.cpu = true, .ram = true}};
    static const struct mezulobu_pair pairs[] = {{.format = RGB}};
    static const uint32_t colors[] = {MEZULOBU_SRGB};
    static const struct mezulobu_platform platform = {sizeof platform, heaps, 1, pairs, 1, colors, 1};
    struct mezulobu_allocator *a = NULL;
    if (!MAY_WANT(mezulobu_allocator_new(&platform, &a, NULL)))
        return false;
    bool good = MAY_WANT(mezulobu_allocate_shared(a, &s->tokens[ROOT]));
    mezulobu_allocator_free(a);
    return good;
}

static void bind_all(struct scene *s)
{
    struct mezulobu_token *root = s->tokens[ROOT];
    TAKES_NONE(mezulobu_token_duplicate(root, &s->tokens[A]));
    TAKES_NONE(mezulobu_token_create_group(root, &s->group));
    TAKES_NONE(mezulobu_group_create_child(s->group, &s->tokens[B]));
    TAKES_NONE(mezulobu_group_create_child(s->group, &s->tokens[C]));
    TAKES_NONE(mezulobu_group_all_children_present(s->group));
    MAY_WANT(mezulobu_token_set_name(s->tokens[B], "encoder"));
    MAY_WANT(mezulobu_group_set_name(s->group, "either"));
    for (int seat = 0; seat < SEATS; seat++)
        TAKES_NONE(mezulobu_token_bind(&s->tokens[seat], &s->seats[seat]));
    MAY_WANT(mezulobu_collection_set_name(s->seats[A], "camera"));
}

static void ask(struct scene *s)
{
    static const char record[] = "{\"usage\":[\"cpu\"],\"min_buffer_count_for_camping\":2,\"image_format_constraints\":"
                                 "[{\"pixel_format\":\"B8G8R8X8\","
                                 "\"color_spaces\":[\"SRGB\"],\"min_size\":{\"width\":64,\"height\":64}}]}";
    struct mezulobu_entry e = {.struct_size = sizeof e, .format = RGB, .colors = MEZULOBU_SRGB, .max_size = {32, 32}};
    struct mezulobu_participant p = {
        .struct_size = sizeof p, .usage = MEZULOBU_USE_CPU, .cpu = true, .camping = 1, .entries = &e, .n_entries = 1};
    WANTS_NONE(mezulobu_collection_set_constraints(s->seats[ROOT], NULL, NULL));
    MAY_WANT(mezulobu_collection_set_constraints_record(s->seats[A], record, sizeof record - 1, NULL));
    MAY_WANT(mezulobu_collection_set_constraints(s->seats[B], &p, NULL));
    e.max_size = (struct mezulobu_size){0, 0};
    MAY_WANT(mezulobu_collection_set_constraints(s->seats[C], &p, NULL));
}

static void be_late(struct scene *s)
{
    struct mezulobu_participant p = {.struct_size = sizeof p, .usage = MEZULOBU_USE_CPU, .cpu = true};
    if (!MAY_FAIL(mezulobu_collection_attach_token(s->seats[A], &s->late)))
        return;
    TAKES_NONE(mezulobu_token_bind(&s->late, &s->attached));
    MAY_WANT(mezulobu_collection_set_constraints(s->attached, &p, NULL));
    TOLD(mezulobu_collection_check(s->attached, NULL));
    TOLD(mezulobu_collection_wait(s->attached, 0, NULL));
}

static void write_all(struct mezulobu_collection *c)
{
    static char text[1 << 16], proof[1 << 16], other[1 << 16];
    size_t n = sizeof text, m = sizeof proof, k = sizeof other;
    uint8_t choices[2];
    if (!MAY_WANT(mezulobu_collection_script(c, text, &n, proof, &m)) && (n || m))
        stop("a size where there is no text", MEZULOBU_NO_MEMORY);
    if (!MAY_WANT(mezulobu_collection_explain(c, other, &k)) && k)
        stop("a size where there is no explanation", MEZULOBU_NO_MEMORY);
    k = sizeof other;
    MAY_WANT(mezulobu_collection_explain_json(c, other, &k));
    k = sizeof choices;
    MAY_FAIL(mezulobu_collection_selection(c, choices, &k));
    k = sizeof other;
    MAY_WANT(mezulobu_collection_name_of(c, 1, other, &k));
}

static void give_up(struct scene *s)
{
    for (int seat = 0; seat < SEATS; seat++) {
        if (s->tokens[seat])
            WANTS_NONE(mezulobu_token_close(&s->tokens[seat]));
        if (s->seats[seat])
            WANTS_NONE(seat == A ? mezulobu_collection_close(&s->seats[seat])
                                 : mezulobu_collection_release(&s->seats[seat]));
    }
    if (s->group)
        WANTS_NONE(mezulobu_group_close(&s->group));
    if (s->attached)
        WANTS_NONE(mezulobu_collection_release(&s->attached));
}

// One play of all. What it allocates is freed at its end.
static void play(void)
{
    struct scene s = {0};
    met = held = 0;
    counts = true;
    if (begin(&s)) {
        bind_all(&s);
        ask(&s);
        TOLD(mezulobu_collection_check(s.seats[A], NULL));
        be_late(&s);
        write_all(s.seats[A]);
        give_up(&s);
    }
    counts = false;
    if (held)
        stop("something stays allocated", MEZULOBU_DONE);
}

int main(void)
{
    play();
    long all = met, passed = 1;
    for (int after = 0; after < 2; after++)
        for (refused = 1; refused <= all; refused++, passed++) {
            with_all_after = after;
            play();
        }
    printf("%ld allocations, each refused: %ld calls said NO_MEMORY, %ld something that follows of it\n", all, wants,
           others);
    printf("%ld passed, 0 failed\n", passed);
    return 0;
}
