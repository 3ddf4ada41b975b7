// random RUNS SEED [shown]: so many random collections. Of each, eight threads make calls on handles of their own:
// groups, attached tokens, names, releases and closes. Then its script is run: each call is accepted; a check of each
// collection that is still open is answered as its handle is; the certificate is right; and it is explained as the
// script is. What is wrong is printed with the seed.
#include "common.h"
#include <pthread.h>

enum { ACTORS = 8, CALLS = 40, MOST = 256, MOST_REPORT = 1 << 22 };
enum kind { TOKEN, GROUP, COLLECTION };

struct own {
    enum kind kind;
    struct mezulobu_token *token;
    struct mezulobu_group *group;
    struct mezulobu_collection *collection;
};

struct actor {
    unsigned seed;
    struct own own[MOST];
    unsigned has;
    unsigned long calls, refused;
};

static struct actor actors[ACTORS];
static bool are_closed; // whether handles are closed in this run, or released at most
static char report[MOST_REPORT];
static unsigned long calls_made, calls_refused, decisions, told[MEZULOBU_STRANGE];

static void add_token(struct actor *a, struct mezulobu_token *made)
{
    if (made)
        a->own[a->has++] = (struct own){.kind = TOKEN, .token = made};
}

static void drop(struct actor *a, struct own *o) { *o = a->own[--a->has]; }

static int name(struct actor *a, const struct own *o)
{
    char word[16];
    snprintf(word, sizeof word, "%s%u", draw(&a->seed, 4) ? "node_" : "n", draw(&a->seed, 200));
    int status = o->kind == TOKEN   ? mezulobu_token_set_name(o->token, word)
                 : o->kind == GROUP ? mezulobu_group_set_name(o->group, word)
                                    : mezulobu_collection_set_name(o->collection, word);
    return status == MEZULOBU_MISUSED || status == MEZULOBU_REFUSED || status == MEZULOBU_NO ? MEZULOBU_DONE : status;
}

static int act_on_token(struct actor *a, struct own *o, unsigned what)
{
    struct mezulobu_token *made = NULL;
    int status;
    if (what < 22) {
        status = mezulobu_token_duplicate(o->token, &made);
        add_token(a, made);
    } else if (what < 34) {
        struct mezulobu_group *group = NULL;
        status = mezulobu_token_create_group(o->token, &group);
        if (group)
            a->own[a->has++] = (struct own){.kind = GROUP, .group = group};
    } else if (what < 86) {
        status = mezulobu_token_bind(&o->token, &o->collection);
        o->kind = o->token ? TOKEN : COLLECTION;
    } else {
        status = what < 99 || !are_closed ? mezulobu_token_release(&o->token) : mezulobu_token_close(&o->token);
        if (!o->token)
            drop(a, o);
    }
    return status;
}

static int act_on_group(struct actor *a, struct own *o, unsigned what)
{
    struct mezulobu_token *made = NULL;
    if (what < 50) {
        int status = mezulobu_group_create_child(o->group, &made);
        add_token(a, made);
        return status;
    }
    if (what < 85)
        return mezulobu_group_all_children_present(o->group);
    int status = mezulobu_group_release(&o->group);
    if (!o->group)
        drop(a, o);
    return status;
}

static struct mezulobu_entry entry(unsigned *seed)
{
    struct mezulobu_entry e = {.struct_size = sizeof e, .format = draw(seed, 24) ? NV12 : RGB};
    e.colors = (uint32_t)(MEZULOBU_REC709 | (draw(seed, 2) ? MEZULOBU_SRGB : 0));
    e.min_size = (struct mezulobu_size){draw(seed, 2000), draw(seed, 1000)};
    if (!draw(seed, 16))
        e.max_size = (struct mezulobu_size){1000 + draw(seed, 3000), 1000 + draw(seed, 3000)};
    e.pitch_divisor = 1u << draw(seed, 8);
    return e;
}

static int set(struct actor *a, struct mezulobu_collection *c)
{
    struct mezulobu_entry entries[2] = {entry(&a->seed), entry(&a->seed)};
    struct mezulobu_participant p = {
        .struct_size = sizeof p, .usage = MEZULOBU_USE_CPU, .cpu = true, .ram = draw(&a->seed, 2)};
    p.camping = draw(&a->seed, 3);
    p.entries = entries;
    p.n_entries = draw(&a->seed, 3);
    return mezulobu_collection_set_constraints(c, draw(&a->seed, 8) ? &p : NULL, NULL);
}

static int act_on_collection(struct actor *a, struct own *o, unsigned what)
{
    struct mezulobu_token *made = NULL;
    int status = MEZULOBU_DONE;
    if (what < 55)
        return set(a, o->collection);
    if (what < 60) {
        status = mezulobu_collection_attach_token(o->collection, &made);
        add_token(a, made);
        return status;
    }
    if (what < 90) {
        struct mezulobu_settings s = {.struct_size = sizeof s};
        if (what == 89)
            mezulobu_collection_fd(o->collection);
        mezulobu_collection_wait(o->collection, what == 88, &s);
        return MEZULOBU_DONE;
    }
    status = what < 98 || !are_closed ? mezulobu_collection_release(&o->collection)
                                      : mezulobu_collection_close(&o->collection);
    if (!o->collection)
        drop(a, o);
    return status;
}

static void act(struct actor *a, struct own *o, unsigned what)
{
    int status = what >= 100        ? name(a, o)
                 : o->kind == TOKEN ? act_on_token(a, o, what)
                 : o->kind == GROUP ? act_on_group(a, o, what)
                                    : act_on_collection(a, o, what);
    a->calls++;
    a->refused += status != MEZULOBU_DONE;
    if (status == MEZULOBU_STRANGE)
        abort();
}

// Calls that leave nobody awaited, as far as they are accepted: tokens are bound, groups complete, and all say what
// they ask for.
static void finish(struct actor *a)
{
    enum { MAKES = 0, BINDS = 50, IS_COMPLETE = 60 };
    for (unsigned i = 0; i < a->has && a->has < MOST - 2; i++) {
        if (a->own[i].kind == GROUP) {
            act(a, &a->own[i], MAKES);
            act(a, &a->own[i], IS_COMPLETE);
        }
        if (a->own[i].kind == TOKEN)
            act(a, &a->own[i], BINDS);
        while (a->own[i].kind == COLLECTION && set(a, a->own[i].collection) == MEZULOBU_REFUSED)
            ;
    }
}

static void *live(void *actor)
{
    struct actor *a = actor;
    unsigned many = draw(&a->seed, draw(&a->seed, 4) ? CALLS : 4 * CALLS);
    for (unsigned i = 0; i < many && a->has && a->has < MOST - 2; i++)
        act(a, &a->own[draw(&a->seed, a->has)], draw(&a->seed, 105));
    finish(a);
    return NULL;
}

static void give_up(struct actor *a)
{
    for (; a->has; a->has--) {
        struct own *o = &a->own[a->has - 1];
        NEED(o->kind == TOKEN   ? mezulobu_token_close(&o->token)
             : o->kind == GROUP ? mezulobu_group_close(&o->group)
                                : mezulobu_collection_close(&o->collection));
    }
}

static void wrong(unsigned seed, const char *what, const struct text *script, size_t report_size)
{
    printf("seed %u: %s\n%.*s\n%.*s\n", seed, what, (int)script->size, script->at, (int)report_size, report);
    exit(1);
}

static int count(const char *text, size_t size, const char *word)
{
    int found = 0;
    for (const char *at = text; (at = memmem(at, (size_t)(text + size - at), word, strlen(word))); at += strlen(word))
        found++;
    return found;
}

// A call check of each collection that is open, behind the others.
static void add_checks(struct text *script)
{
    const size_t more = (size_t)ACTORS * MOST * 80;
    script->at = realloc(script->at, script->size + more);
    script->size -= strlen("]}\n");
    for (int who = 0; who < ACTORS; who++)
        for (unsigned i = 0; i < actors[who].has; i++) {
            struct mezulobu_collection *c = actors[who].own[i].collection;
            uint32_t node = 0;
            char called[32];
            size_t length = sizeof called;
            if (actors[who].own[i].kind != COLLECTION)
                continue;
            NEED(mezulobu_collection_node(c, &node));
            NEED(mezulobu_collection_name_of(c, node, called, &length));
            script->size += (size_t)sprintf(script->at + script->size, ",\n{\"call\":\"check\",\"on\":\"%.*s\"}",
                                            (int)length, called);
        }
    script->size += (size_t)sprintf(script->at + script->size, "]}\n");
}

// Each such check is answered as the handle is, and settings that are told stand in the report.
static bool are_told_the_same(size_t size, int from)
{
    static const char *const words[] = {"E5 NotSelected", "E6 DomainFailed", "E7 ConstraintsIntersectionEmpty",
                                        "E8 TooManyGroupChildCombinations", "E9 Pending"};
    char line[128];
    for (int who = 0; who < ACTORS; who++)
        for (unsigned i = 0; i < actors[who].has; i++) {
            struct mezulobu_settings s = {.struct_size = sizeof s};
            if (actors[who].own[i].kind != COLLECTION)
                continue;
            int status = mezulobu_collection_check(actors[who].own[i].collection, &s);
            snprintf(line, sizeof line, "\n%d check ", ++from);
            const char *at = memmem(report, size, line, strlen(line));
            if (!at)
                return false;
            const char *reply = strchr(at + strlen(line), ' ') + 1,
                       *wanted = status == MEZULOBU_DONE ? "ok" : words[status - MEZULOBU_NOT_SELECTED];
            if (strncmp(reply, wanted, strlen(wanted)) || reply[strlen(wanted)] != '\n')
                return false;
            told[status]++;
            snprintf(line, sizeof line, " size %llu place ", (unsigned long long)s.bytes);
            if (status == MEZULOBU_DONE && !memmem(report, size, line, strlen(line)))
                return false;
        }
    return true;
}

// It is explained as its script is, which takes longer than all else: of some.
static void explain(struct mezulobu_collection *c, unsigned seed, const struct text *script)
{
    struct text told, again;
    if (seed % 8)
        return;
    NEED(explained(c, mezulobu_collection_explain, &told));
    again = (struct text){malloc(told.size), told.size};
    NEED(mezulobu_explain(script->at, script->size, "collection", false, again.at, &again.size));
    if (again.size != told.size || memcmp(again.at, told.at, told.size))
        wrong(seed, "it isn't explained as its script is", script, 0);
    free(told.at);
    free(again.at);
}

// What the script says of the collection.
static void replay(struct mezulobu_collection *c, unsigned seed, bool is_shown)
{
    struct text script, proof;
    size_t size = sizeof report - 1, answer_size = 64;
    char answer[64];
    NEED(script_of(c, &script, &proof));
    int many = count(script.at, script.size, "{\"call\"");
    if (mezulobu_run(script.at, script.size, report, &size, NULL, NULL) != MEZULOBU_DONE ||
        count(report, size, " ok\n") != many)
        wrong(seed, "not each call is accepted", &script, size);
    if (is_shown)
        printf("%.*s---\n%.*s", (int)script.size, script.at, (int)size, report);
    decisions += (unsigned long)count(report, size, "domain ");
    if (mezulobu_check(script.at, script.size, proof.at, proof.size, answer, &answer_size) != MEZULOBU_DONE)
        wrong(seed, "the certificate isn't right", &script, size);
    explain(c, seed, &script);
    add_checks(&script);
    size = sizeof report - 1;
    NEED(mezulobu_run(script.at, script.size, report, &size, NULL, NULL));
    report[size] = 0;
    if (!are_told_the_same(size, many))
        wrong(seed, "a handle is told something else", &script, size);
    free(script.at);
    free(proof.at);
}

static void run(unsigned seed, bool is_shown)
{
    struct mezulobu_token *root = new_root();
    struct mezulobu_collection *c = NULL;
    pthread_t threads[ACTORS];
    memset(actors, 0, sizeof actors);
    are_closed = seed % 4 == 0;
    for (int who = 0; who < ACTORS; who++) {
        struct mezulobu_token *token = NULL;
        actors[who].seed = seed * ACTORS + (unsigned)who;
        NEED(mezulobu_token_duplicate(root, &token));
        add_token(&actors[who], token);
    }
    // Who asks for the texts is a participant that asks for nothing.
    NEED(mezulobu_token_bind(&root, &c));
    NEED(mezulobu_collection_set_constraints(c, NULL, NULL));
    for (int who = 0; who < ACTORS; who++)
        if (pthread_create(&threads[who], NULL, live, &actors[who]))
            exit(2);
    for (int who = 0; who < ACTORS; who++)
        pthread_join(threads[who], NULL);
    replay(c, seed, is_shown);
    for (int who = 0; who < ACTORS; who++) {
        calls_made += actors[who].calls;
        calls_refused += actors[who].refused;
        give_up(&actors[who]);
    }
    NEED(mezulobu_collection_close(&c));
}

int main(int words, char **word)
{
    int runs = words > 1 ? atoi(word[1]) : 1;
    unsigned seed = words > 2 ? (unsigned)atoi(word[2]) : 1;
    for (int i = 0; i < runs; i++)
        run(seed + (unsigned)i, words > 3);
    printf("%lu calls, %lu of them refused; %lu lines of domains; collections were told", calls_made, calls_refused,
           decisions);
    for (int status = 0; status < MEZULOBU_STRANGE; status++)
        if (told[status])
            printf(" %lu %s", told[status], mezulobu_status_name(status));
    printf("\n");
    printf("%d passed, 0 failed\n", runs);
    return 0;
}
