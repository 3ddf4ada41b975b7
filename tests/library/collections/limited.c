// limited: a host bounds how many nodes there may be below each child of the root. What is refused, and what is refused
// first; that a client who has made all that it may stands in nobody's way; and that the script of such a collection is
// accepted by a run, which knows of no limit. The last line is 'N passed, M failed'.
#include "common.h"
#include <pthread.h>

enum { LIMIT = 4, CLIENTS = 8 };

static struct tally t;

static struct mezulobu_token *limited_root(uint32_t most)
{
    struct mezulobu_allocator *a = plain_allocator();
    struct mezulobu_token *root = NULL;
    NEED(mezulobu_allocate_shared_limited(a, most, &root));
    mezulobu_allocator_free(a);
    return root;
}

static struct mezulobu_token *child_of(struct mezulobu_token *token)
{
    struct mezulobu_token *made = NULL;
    NEED(mezulobu_token_duplicate(token, &made));
    return made;
}

static struct mezulobu_collection *bound(struct mezulobu_token *token)
{
    struct mezulobu_collection *c = NULL;
    NEED(mezulobu_token_bind(&token, &c));
    return c;
}

// What a client has below its own token, once it has made the four nodes that it may.
struct client {
    struct mezulobu_token *own, *friend, *alternative, *last;
    struct mezulobu_group *group;
};

static struct client filled(struct mezulobu_token *own)
{
    struct client c = {.own = own, .friend = child_of(own)};
    NEED(mezulobu_token_create_group(c.friend, &c.group));
    NEED(mezulobu_group_create_child(c.group, &c.alternative));
    c.last = child_of(c.alternative);
    return c;
}

// Each node of a client that has made all that it may, and none below it: what would make a further one is refused.
static bool is_full(const struct client *c)
{
    struct mezulobu_token *made = NULL;
    struct mezulobu_group *group = NULL;
    bool good = mezulobu_token_duplicate(c->own, &made) == MEZULOBU_TOO_MANY_NODES &&
                mezulobu_token_duplicate(c->friend, &made) == MEZULOBU_TOO_MANY_NODES &&
                mezulobu_token_create_group(c->alternative, &group) == MEZULOBU_TOO_MANY_NODES &&
                mezulobu_token_duplicate(c->last, &made) == MEZULOBU_TOO_MANY_NODES &&
                mezulobu_group_create_child(c->group, &made) == MEZULOBU_TOO_MANY_NODES;
    return good && !made && !group;
}

static void release_all(struct client *c)
{
    NEED(mezulobu_group_all_children_present(c->group));
    NEED(mezulobu_group_release(&c->group));
    NEED(mezulobu_token_release(&c->friend));
    NEED(mezulobu_token_release(&c->alternative));
    NEED(mezulobu_token_release(&c->last));
}

// A run accepts each call of the script, and a check says yes to its certificate.
static bool replays(struct mezulobu_collection *c)
{
    struct text script, proof;
    NEED(script_of(c, &script, &proof));
    size_t report_size = 0, refused = 0;
    int status = mezulobu_run(script.at, script.size, NULL, &report_size, NULL, NULL);
    char *report = malloc(report_size + 1);
    if (status != MEZULOBU_TOO_SMALL || !report)
        abort();
    NEED(mezulobu_run(script.at, script.size, report, &report_size, NULL, NULL));
    report[report_size] = 0;
    for (char *line = report; (line = strstr(line, " E")); line++)
        refused++;
    bool good = !refused && strstr(report, "chosen") &&
                mezulobu_check(script.at, script.size, proof.at, proof.size, NULL, NULL) == MEZULOBU_DONE;
    free(report);
    free(script.at);
    free(proof.at);
    return good;
}

// Two clients make all that they may, the host makes more, and all is decided and replayed. Tokens that are attached
// afterwards count too, and so do nodes that are gone.
static void try_quota(void)
{
    struct mezulobu_token *root = limited_root(LIMIT), *late = NULL, *made = NULL;
    struct client a = filled(child_of(root)), b = filled(child_of(root));
    expect(&t, is_full(&a) && is_full(&b), "each of two clients is refused a fifth node");
    struct mezulobu_token *host = child_of(root);
    struct mezulobu_collection *display = bound(host), *first = bound(a.own), *second = bound(b.own);
    release_all(&a);
    release_all(&b);
    NEED(mezulobu_token_release(&root));
    NEED(mezulobu_collection_set_constraints(first, NULL, NULL));
    NEED(mezulobu_collection_set_constraints(second, NULL, NULL));
    expect(&t, mezulobu_collection_check(first, NULL) == MEZULOBU_PENDING, "the host's own is awaited");
    NEED(mezulobu_collection_attach_token(display, &late));
    NEED(mezulobu_token_release(&late));
    NEED(mezulobu_collection_set_constraints(display, NULL, NULL));
    expect(&t, mezulobu_collection_check(first, NULL) == MEZULOBU_DONE, "they are decided");
    expect(&t, mezulobu_collection_attach_token(first, &made) == MEZULOBU_TOO_MANY_NODES && !made,
           "an attached token counts, and those that are gone do");
    for (int i = 1; i < LIMIT; i++) {
        NEED(mezulobu_collection_attach_token(display, &late));
        NEED(mezulobu_token_release(&late));
    }
    expect(&t, mezulobu_collection_attach_token(display, &made) == MEZULOBU_TOO_MANY_NODES,
           "the host's own client is one, too");
    expect(&t, replays(display), "a run accepts what was done");
    NEED(mezulobu_collection_release(&display));
    NEED(mezulobu_collection_release(&first));
    NEED(mezulobu_collection_release(&second));
}

// What the tree itself refuses a call for is answered first.
static void try_order(void)
{
    struct mezulobu_token *root = limited_root(1), *own = child_of(root), *made = NULL;
    struct mezulobu_group *group = NULL;
    NEED(mezulobu_token_create_group(own, &group));
    expect(&t, mezulobu_group_all_children_present(group) == MEZULOBU_NO_CHILDREN, "a group without a child");
    expect(&t, mezulobu_group_create_child(group, &made) == MEZULOBU_TOO_MANY_NODES, "a second node below a client");
    expect(&t, mezulobu_token_duplicate(own, &made) == MEZULOBU_TOO_MANY_NODES, "and by the client itself");
    made = child_of(root);
    NEED(mezulobu_token_close(&made));
    expect(&t, mezulobu_token_duplicate(own, &made) == MEZULOBU_DOMAIN_FAILED, "the domain failed, which comes first");
    expect(&t, mezulobu_group_create_child(group, &made) == MEZULOBU_DOMAIN_FAILED, "of the group, too");
    NEED(mezulobu_group_close(&group));
    NEED(mezulobu_token_close(&own));
    NEED(mezulobu_token_close(&root));
}

// The limit 0 lets nobody but the root make anything, and 128 is none: the 128 nodes are used up by one client.
static void try_ends(void)
{
    struct mezulobu_token *root = limited_root(0), *own = child_of(root), *all[128] = {NULL};
    size_t made = 0;
    struct mezulobu_token *none = NULL;
    expect(&t, mezulobu_token_duplicate(own, &none) == MEZULOBU_TOO_MANY_NODES && !none, "none at all");
    NEED(mezulobu_token_close(&own));
    NEED(mezulobu_token_close(&root));
    root = limited_root(128);
    own = child_of(root);
    while (made < 128 && mezulobu_token_duplicate(own, &all[made]) == MEZULOBU_DONE)
        made++;
    expect(&t, made == 126, "as many as a collection has");
    expect(&t, mezulobu_token_duplicate(root, &none) == MEZULOBU_TOO_MANY_NODES, "and then the root makes none either");
    while (made)
        NEED(mezulobu_token_close(&all[--made]));
    NEED(mezulobu_token_close(&own));
    NEED(mezulobu_token_close(&root));
}

// Makes as much as it may, whoever of its friends makes it.
static void *fill(void *token)
{
    struct mezulobu_token *own = token, *all[LIMIT + 1] = {own};
    uintptr_t made = 1;
    for (unsigned seed = (unsigned)(uintptr_t)token; made <= LIMIT; made++)
        if (mezulobu_token_duplicate(all[draw(&seed, (unsigned)made)], &all[made]) != MEZULOBU_DONE)
            break;
    struct mezulobu_token *further = NULL;
    bool good = made == LIMIT + 1;
    for (size_t i = 0; i < made; i++)
        good &= mezulobu_token_duplicate(all[i], &further) == MEZULOBU_TOO_MANY_NODES;
    for (size_t i = 0; i < made; i++)
        NEED(mezulobu_token_release(&all[i]));
    return good ? token : NULL;
}

// Clients on threads of their own: each gets just what it may.
static void try_threads(void)
{
    struct mezulobu_token *root = limited_root(LIMIT), *own[CLIENTS];
    struct mezulobu_collection *host = bound(child_of(root));
    pthread_t threads[CLIENTS];
    int good = 0;
    for (int i = 0; i < CLIENTS; i++)
        own[i] = child_of(root);
    for (int i = 0; i < CLIENTS; i++)
        if (pthread_create(&threads[i], NULL, fill, own[i]))
            abort();
    for (int i = 0; i < CLIENTS; i++) {
        void *found = NULL;
        pthread_join(threads[i], &found);
        good += found != NULL;
    }
    expect(&t, good == CLIENTS, "each client gets as much as it may");
    NEED(mezulobu_token_release(&root));
    NEED(mezulobu_collection_set_constraints(host, NULL, NULL));
    expect(&t, replays(host), "what the threads did is accepted by a run");
    NEED(mezulobu_collection_release(&host));
}

int main(void)
{
    try_quota();
    try_order();
    try_ends();
    try_threads();
    return end(&t);
}
