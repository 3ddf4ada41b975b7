// misuse CALLS SEED: so many calls in random sequences, with null pointers, spent handles, handles of another kind,
// allocators in the place of handles, and structs of another size. Each is MISUSED just where what it is given is
// misused; nothing else is told of here but that no sanitizer has anything to say. With -DFUZZER it is what libFuzzer
// calls with its own bytes. The last line is 'N passed, M failed'.
#include "common.h"

enum { MOST = 140, LONGEST = 400 };
enum kind { NOTHING, TOKEN, GROUP, COLLECTION };

// Everything that was ever handed out, with what it is now. The first is null, and the second an allocator. The third,
// a collection, is spent last of all, so that spent handles can be told.
struct known {
    void *at;
    enum kind kind;
};

static struct known all[MOST];
static size_t many;
static unsigned long calls, misused;

// The bytes that say what is called; 0 at their end.
static const uint8_t *bytes;
static size_t left;

static unsigned take(unsigned most)
{
    if (!left)
        return 0;
    left--;
    return *bytes++ % most;
}

static void add(enum kind kind, void *at)
{
    if (at)
        all[many++] = (struct known){at, kind};
}

// The pointer that a call gets, and whether it has to be misused.
struct given {
    struct known *k;
    enum kind kind;
    bool is_misused;
};

static struct given give(enum kind kind)
{
    struct known *k = &all[take((unsigned)many)];
    return (struct given){k, kind, k->kind != kind};
}

// A place for what is handed out, or none.
static bool place(struct given *g)
{
    bool has = take(8) != 0;
    g->is_misused |= !has;
    return has;
}

static void judge(const struct given *g, int status, const char *what)
{
    calls++;
    misused += status == MEZULOBU_MISUSED;
    if (g->is_misused == (status == MEZULOBU_MISUSED))
        return;
    printf("%s: %s\n0 passed, 1 failed\n", what, mezulobu_status_name(status));
    fflush(stdout);
    abort();
}

static void make_token(int (*call)(void *, struct mezulobu_token **), struct given g, const char *what)
{
    struct mezulobu_token *made = NULL;
    bool has = place(&g);
    judge(&g, call(g.k->at, has ? &made : NULL), what);
    add(TOKEN, made);
}

static int duplicate(void *at, struct mezulobu_token **made) { return mezulobu_token_duplicate(at, made); }
static int create_child(void *at, struct mezulobu_token **made) { return mezulobu_group_create_child(at, made); }
static int attach(void *at, struct mezulobu_token **made) { return mezulobu_collection_attach_token(at, made); }

static void create_group(struct given g)
{
    struct mezulobu_group *made = NULL;
    bool has = place(&g);
    judge(&g, mezulobu_token_create_group(g.k->at, has ? &made : NULL), "create_group");
    add(GROUP, made);
}

// What a spending call was given is spent where it is DONE, and else there.
static void spent(struct given *g, int status, const void *left_there, const char *what)
{
    judge(g, status, what);
    if ((status == MEZULOBU_DONE) != !left_there && g->k->at)
        judge(&(struct given){.is_misused = true}, MEZULOBU_DONE, "a spent handle is left, or another isn't");
    if (status == MEZULOBU_DONE)
        g->k->kind = NOTHING;
}

static void bind(struct given g)
{
    struct mezulobu_token *token = g.k->at;
    struct mezulobu_collection *made = NULL;
    bool has = place(&g), is_there = take(8) != 0;
    g.is_misused |= !is_there;
    int status = mezulobu_token_bind(is_there ? &token : NULL, has ? &made : NULL);
    spent(&g, status, token, "bind");
    if (made)
        g.k->kind = COLLECTION;
}

static void spend(struct given g, bool is_close)
{
    void *at = g.k->at;
    int status;
    bool is_there = take(8) != 0;
    g.is_misused |= !is_there;
    if (g.k == &all[2])
        return;
    if (g.kind == TOKEN) {
        struct mezulobu_token *t = at;
        status = (is_close ? mezulobu_token_close : mezulobu_token_release)(is_there ? &t : NULL);
        at = t;
    } else if (g.kind == GROUP) {
        struct mezulobu_group *t = at;
        status = (is_close ? mezulobu_group_close : mezulobu_group_release)(is_there ? &t : NULL);
        at = t;
    } else {
        struct mezulobu_collection *t = at;
        status = (is_close ? mezulobu_collection_close : mezulobu_collection_release)(is_there ? &t : NULL);
        at = t;
    }
    spent(&g, status, at, "spend");
}

static void set(struct given g)
{
    struct mezulobu_entry e = {
        .struct_size = sizeof e - (take(8) == 1), .format = take(2) ? NV12 : take(200), .colors = take(40)};
    struct mezulobu_participant p = {.struct_size = sizeof p + (take(8) == 1),
                                     .usage = (uint8_t)take(33),
                                     .cpu = true,
                                     .entries = take(4) ? &e : NULL,
                                     .n_entries = take(2)};
    struct mezulobu_refusal why = {.struct_size = sizeof why - (take(8) == 1)};
    bool has = take(4) != 0, asks = take(4) != 0;
    bool is_lacking = asks && (p.struct_size != sizeof p || (!p.entries && p.n_entries) ||
                               (p.n_entries && e.struct_size != sizeof e));
    g.is_misused |= (has && why.struct_size != sizeof why) || is_lacking;
    judge(&g, mezulobu_collection_set_constraints(g.k->at, asks ? &p : NULL, has ? &why : NULL), "set_constraints");
}

static void set_record(struct given g)
{
    static const char *const records[] = {"",
                                          "{}",
                                          "{\"usage\":[\"cpu\"]}",
                                          "{\"usage\":[\"none\",\"cpu\"]}",
                                          "[",
                                          "{\"usage\":[\"cpu\"],\"min_buffer_count\":4294967296}"};
    const char *record = records[take(6)];
    size_t size = strlen(record);
    uint32_t code;
    bool has = take(4) != 0;
    g.is_misused |= !has && size;
    judge(&g, mezulobu_collection_set_constraints_record(g.k->at, has ? record : NULL, size, take(2) ? &code : NULL),
          "set_constraints_record");
}

static void check(struct given g, bool waits)
{
    struct mezulobu_settings s = {.struct_size = sizeof s - (take(8) == 1)};
    bool has = take(4) != 0;
    g.is_misused |= has && s.struct_size != sizeof s;
    judge(&g,
          waits ? mezulobu_collection_wait(g.k->at, (int)take(2), has ? &s : NULL)
                : mezulobu_collection_check(g.k->at, has ? &s : NULL),
          "check");
}

static void ask_fd(struct given g)
{
    int fd = mezulobu_collection_fd(g.k->at);
    judge(&g, fd < 0 ? MEZULOBU_MISUSED : MEZULOBU_DONE, "fd");
}

// The first node has no other name than its own: so a name of whatever may be that one is only asked to be answered.
static void name(struct given g)
{
    static const char *const bad[] = {"", "root", "n7", "a b", "0123456789012345678901234567890123456789"};
    const char *word = take(2) ? "camera" : bad[take(5)];
    bool has = take(8) != 0;
    int status = g.kind == TOKEN   ? mezulobu_token_set_name(g.k->at, has ? word : NULL)
                 : g.kind == GROUP ? mezulobu_group_set_name(g.k->at, has ? word : NULL)
                                   : mezulobu_collection_set_name(g.k->at, has ? word : NULL);
    g.is_misused |= !has;
    if (g.is_misused || status != MEZULOBU_MISUSED)
        judge(&g, status, "set_name");
}

static void ask_name(struct given g)
{
    char word[33];
    size_t n = take(2) ? sizeof word : 0;
    bool has = take(8) != 0, has_size = take(8) != 0;
    g.is_misused |= !has_size || (!has && n);
    char *to = has ? word : NULL;
    size_t *size = has_size ? &n : NULL;
    judge(&g,
          g.kind == TOKEN   ? mezulobu_token_name(g.k->at, to, size)
          : g.kind == GROUP ? mezulobu_group_name(g.k->at, to, size)
                            : mezulobu_collection_name(g.k->at, to, size),
          "name");
}

static void write_text(struct given g)
{
    static char text[1 << 15], proof[1 << 15];
    size_t n = take(2) ? sizeof text : 0, m = sizeof proof;
    bool has = take(8) != 0, has_size = take(8) != 0, has_proof = take(2), has_proof_size = take(2);
    g.is_misused |= !has_size || (!has && n) || has_proof != has_proof_size;
    judge(&g,
          mezulobu_collection_script(g.k->at, has ? text : NULL, has_size ? &n : NULL, has_proof ? proof : NULL,
                                     has_proof_size ? &m : NULL),
          "script");
}

static void explain(struct given g)
{
    static char text[1 << 15];
    size_t n = take(2) ? sizeof text : 0;
    bool has = take(8) != 0, has_size = take(8) != 0;
    g.is_misused |= !has_size || (!has && n);
    judge(&g,
          (take(2) ? mezulobu_collection_explain : mezulobu_collection_explain_json)(g.k->at, has ? text : NULL,
                                                                                     has_size ? &n : NULL),
          "explain");
}

static void ask(struct given g)
{
    uint32_t node = 0;
    uint8_t choices[4];
    char word[33];
    size_t n = take(2) ? sizeof choices : 0, length = sizeof word;
    bool has = take(8) != 0;
    struct mezulobu_refusal why = {.struct_size = sizeof why - (take(8) == 1)};
    struct given of_refusal = g, of_name = g;
    g.is_misused |= !has;
    judge(&g, mezulobu_collection_node(g.k->at, has ? &node : NULL), "node");
    judge(&g, mezulobu_collection_selection(g.k->at, choices, has ? &n : NULL), "selection");
    node = take(150);
    of_name.is_misused |= node >= 128;
    int status = mezulobu_collection_name_of(g.k->at, node, word, &length);
    if (of_name.is_misused || node < 2)
        judge(&of_name, status, "name_of");
    of_refusal.is_misused |= why.struct_size != sizeof why;
    judge(&of_refusal, mezulobu_collection_refusal(g.k->at, &why), "refusal");
}

static void call(void)
{
    switch (take(21)) {
    case 0: make_token(duplicate, give(TOKEN), "duplicate"); break;
    case 1: make_token(create_child, give(GROUP), "create_child"); break;
    case 2: make_token(attach, give(COLLECTION), "attach_token"); break;
    case 3: create_group(give(TOKEN)); break;
    case 4: case 5: bind(give(TOKEN)); break;
    case 6: spend(give(TOKEN), take(2)); break;
    case 7: spend(give(GROUP), take(2)); break;
    case 8: spend(give(COLLECTION), take(2)); break;
    case 9: {
        struct given g = give(GROUP);
        judge(&g, mezulobu_group_all_children_present(g.k->at), "all_children_present");
    } break;
    case 10: case 11: set(give(COLLECTION)); break;
    case 12: set_record(give(COLLECTION)); break;
    case 13: check(give(COLLECTION), false); break;
    case 14: check(give(COLLECTION), true); break;
    case 15: ask_fd(give(COLLECTION)); break;
    case 16: name(give((enum kind)(TOKEN + take(3)))); break;
    case 17: write_text(give(COLLECTION)); break;
    case 18: ask(give(COLLECTION)); break;
    case 19: ask_name(give((enum kind)(TOKEN + take(3)))); break;
    default: if (take(8) == 0) explain(give(COLLECTION)); break;
    }
}

static void misuse_allocators(void)
{
    struct mezulobu_allocator *a = NULL;
    struct mezulobu_token *t = NULL;
    struct mezulobu_platform p = {.struct_size = sizeof p - (take(2) == 1)};
    struct mezulobu_refusal why = {.struct_size = sizeof why - (take(4) == 1)};
    bool is_there = take(2), has = take(4) != 0;
    struct given g = {.is_misused = !has || !is_there || p.struct_size != sizeof p || why.struct_size != sizeof why};
    judge(&g, mezulobu_allocator_new(is_there ? &p : NULL, has ? &a : NULL, &why), "allocator_new");
    g.is_misused = !has;
    judge(&g, mezulobu_allocator_new_record("{", 1, has ? &a : NULL, NULL), "allocator_new_record");
    g.is_misused = true;
    judge(&g, mezulobu_allocate_shared(NULL, &t), "allocate_shared");
    judge(&g, mezulobu_allocate_shared(all[1].at, NULL), "allocate_shared");
    judge(&g, mezulobu_allocate_shared(all[2].at, &t), "allocate_shared");
    judge(&g, mezulobu_allocate_shared_limited(NULL, 8, &t), "allocate_shared_limited");
    judge(&g, mezulobu_allocate_shared_limited(all[1].at, 8, NULL), "allocate_shared_limited");
    judge(&g, mezulobu_allocate_shared_limited(all[2].at, 8, &t), "allocate_shared_limited");
    mezulobu_allocator_free(NULL);
}

static void give_up(void)
{
    for (size_t i = many; i-- > 2;) {
        struct mezulobu_token *t = all[i].at;
        struct mezulobu_group *g = all[i].at;
        struct mezulobu_collection *c = all[i].at;
        if (all[i].kind == TOKEN)
            NEED(mezulobu_token_close(&t));
        else if (all[i].kind == GROUP)
            NEED(mezulobu_group_close(&g));
        else if (all[i].kind == COLLECTION)
            NEED(mezulobu_collection_close(&c));
    }
}

static void play(const uint8_t *data, size_t size)
{
    struct mezulobu_allocator *a = plain_allocator();
    struct mezulobu_token *root = NULL, *child = NULL;
    struct mezulobu_collection *first = NULL;
    bytes = data;
    left = size;
    many = 0;
    all[many++] = (struct known){NULL, NOTHING};
    all[many++] = (struct known){a, NOTHING};
    NEED(mezulobu_allocate_shared(a, &root));
    NEED(mezulobu_token_duplicate(root, &child));
    NEED(mezulobu_token_bind(&child, &first));
    add(COLLECTION, first);
    add(TOKEN, root);
    misuse_allocators();
    while (left && many < MOST - 2)
        call();
    give_up();
    mezulobu_allocator_free(a);
}

#ifdef FUZZER
int LLVMFuzzerTestOneInput(const uint8_t *data, size_t size);
int LLVMFuzzerTestOneInput(const uint8_t *data, size_t size)
{
    play(data, size);
    return 0;
}
#else
int main(int words, char **word)
{
    unsigned long wanted = words > 1 ? strtoul(word[1], NULL, 10) : 50000, plays = 0;
    unsigned seed = words > 2 ? (unsigned)atoi(word[2]) : 1;
    uint8_t data[LONGEST];
    for (; calls < wanted; plays++) {
        for (size_t i = 0; i < sizeof data; i++)
            data[i] = (uint8_t)draw(&seed, 256);
        play(data, sizeof data);
    }
    printf("%lu calls in %lu sequences, %lu of them misused\n%lu passed, 0 failed\n", calls, plays, misused, calls);
    return 0;
}
#endif
