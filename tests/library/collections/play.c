// play SCRIPT PROOF [free]: plays calls through the handles of one collection, each actor on a thread of its own, in
// the order in which standard input has them, and then says what each open collection is told. What happened is written
// to SCRIPT, and what proves it to PROOF. With free each actor goes its own way, but that a name has to be made before
// it is used; then what collections are told is all that is printed, by the names of the script's order.
//
// Standard input is the platform as JSON, and then a line a call: its actor, the call, the name of its node, the name
// that it makes or -, and constraints as JSON or -.
#include "common.h"
#include <pthread.h>

enum { MOST_CALLS = 4096, MOST_ACTORS = 16 };

struct call {
    char actor[33], act[32], on[33], as[33];
    char *constraints;
    char reply[64];
};

// A name and what it stands for: one of the three, or none.
struct node {
    char name[33];
    bool is_made;
    struct mezulobu_token *token;
    struct mezulobu_group *group;
    struct mezulobu_collection *collection;
};

static struct call calls[MOST_CALLS];
static size_t many, next_call;
static struct node nodes[MOST_CALLS + 1];
static size_t known;
static bool is_free;
static pthread_mutex_t turn = PTHREAD_MUTEX_INITIALIZER, naming = PTHREAD_MUTEX_INITIALIZER;
static pthread_cond_t turned = PTHREAD_COND_INITIALIZER, named = PTHREAD_COND_INITIALIZER;

static struct node *known_node(const char *name)
{
    for (size_t i = known; i-- > 0;)
        if (!strcmp(nodes[i].name, name))
            return &nodes[i];
    return NULL;
}

// The node of a name. Who goes its own way waits until it is made, or it is known that it isn't.
static struct node *node_of(const char *name)
{
    pthread_mutex_lock(&naming);
    struct node *n = known_node(name);
    while (is_free && !n) {
        pthread_cond_wait(&named, &naming);
        n = known_node(name);
    }
    pthread_mutex_unlock(&naming);
    return n;
}

static void add(const char *name, struct node made)
{
    pthread_mutex_lock(&naming);
    struct node *n = &nodes[known++];
    *n = made;
    snprintf(n->name, sizeof n->name, "%s", name);
    pthread_cond_broadcast(&named);
    pthread_mutex_unlock(&naming);
}

// A node that was made is called as it is in the script, where that is no name that another node can have.
static void add_token(const struct call *c, struct mezulobu_token *made)
{
    if (made)
        mezulobu_token_set_name(made, c->as);
    add(c->as, (struct node){.is_made = made, .token = made});
}

static void add_group(const struct call *c, struct mezulobu_group *made)
{
    if (made)
        mezulobu_group_set_name(made, c->as);
    add(c->as, (struct node){.is_made = made, .group = made});
}

static int make(const struct call *c, struct node *n)
{
    struct mezulobu_token *token = NULL;
    struct mezulobu_group *group = NULL;
    int status = MEZULOBU_MISUSED;
    if (!strcmp(c->act, "create_group")) {
        status = mezulobu_token_create_group(n->token, &group);
        add_group(c, group);
        return status;
    }
    if (!strcmp(c->act, "duplicate"))
        status = mezulobu_token_duplicate(n->token, &token);
    else if (!strcmp(c->act, "create_child"))
        status = mezulobu_group_create_child(n->group, &token);
    else
        status = mezulobu_collection_attach_token(n->collection, &token);
    add_token(c, token);
    return status;
}

static int spend(struct node *n, bool is_close)
{
    if (n->token)
        return is_close ? mezulobu_token_close(&n->token) : mezulobu_token_release(&n->token);
    if (n->group)
        return is_close ? mezulobu_group_close(&n->group) : mezulobu_group_release(&n->group);
    return is_close ? mezulobu_collection_close(&n->collection) : mezulobu_collection_release(&n->collection);
}

// Whether a call that is made on a handle of one kind is what the caller has; a call on another kind can't be written,
// and the collection refuses its like.
static bool fits(const struct call *c, const struct node *n)
{
    static const char *const of_token[] = {"duplicate", "create_group", "bind"}, *const of_group[] = {
                                                                                     "create_child",
                                                                                     "all_children_present"};
    for (size_t i = 0; i < 3; i++)
        if (!strcmp(c->act, of_token[i]))
            return n->token;
    for (size_t i = 0; i < 2; i++)
        if (!strcmp(c->act, of_group[i]))
            return n->group;
    if (!strcmp(c->act, "release") || !strcmp(c->act, "close"))
        return n->token || n->group || n->collection;
    return n->collection;
}

// The words of a status, as reports have them.
static const char *words_of(int status)
{
    static const char *const words[] = {
        "E2 WrongState",
        "E3 TooManyNodes",
        "E4 NoChildren",
        "E5 NotSelected",
        "E6 DomainFailed",
        "E7 ConstraintsIntersectionEmpty",
        "E8 TooManyGroupChildCombinations",
        "E9 Pending",
        "E10 Strange",
    };
    if (status >= MEZULOBU_WRONG_STATE && status <= MEZULOBU_STRANGE)
        return words[status - MEZULOBU_WRONG_STATE];
    return status == MEZULOBU_DONE ? "ok" : status == MEZULOBU_NO_MEMORY ? "E1 NoMemory" : mezulobu_status_name(status);
}

static void set_constraints(struct call *c, struct node *n)
{
    uint32_t code = 0;
    int status = c->constraints ? mezulobu_collection_set_constraints_record(n->collection, c->constraints,
                                                                             strlen(c->constraints), &code)
                                : mezulobu_collection_set_constraints(n->collection, NULL, NULL);
    if (status == MEZULOBU_REFUSED)
        snprintf(c->reply, sizeof c->reply, "S%u", code);
    else
        snprintf(c->reply, sizeof c->reply, "%s", words_of(status));
}

static int made_on(struct call *c, struct node *n)
{
    if (strcmp(c->as, "-"))
        return make(c, n);
    if (!strcmp(c->act, "bind"))
        return mezulobu_token_bind(&n->token, &n->collection);
    if (!strcmp(c->act, "all_children_present"))
        return mezulobu_group_all_children_present(n->group);
    if (!strcmp(c->act, "check"))
        return mezulobu_collection_check(n->collection, NULL);
    if (!strcmp(c->act, "wait")) {
        int status = mezulobu_collection_wait(n->collection, 0, NULL);
        return status == MEZULOBU_NO ? MEZULOBU_PENDING : status;
    }
    return spend(n, !strcmp(c->act, "close"));
}

static void play_call(struct call *c)
{
    struct node *n = node_of(c->on);
    if (!n || !fits(c, n)) {
        snprintf(c->reply, sizeof c->reply, "%s", n && n->is_made ? "E2 WrongState" : "skipped");
        if (strcmp(c->as, "-"))
            add(c->as, (struct node){0});
    } else if (!strcmp(c->act, "set_constraints"))
        set_constraints(c, n);
    else
        snprintf(c->reply, sizeof c->reply, "%s", words_of(made_on(c, n)));
}

// What an actor does: each of its calls, once it is that one's turn, or at once.
static void *act(void *actor)
{
    for (size_t i = 0; i < many; i++) {
        if (strcmp(calls[i].actor, actor))
            continue;
        if (is_free) {
            play_call(&calls[i]);
            continue;
        }
        pthread_mutex_lock(&turn);
        while (next_call != i)
            pthread_cond_wait(&turned, &turn);
        play_call(&calls[i]);
        next_call++;
        pthread_cond_broadcast(&turned);
        pthread_mutex_unlock(&turn);
    }
    return NULL;
}

static void play_all(void)
{
    pthread_t threads[MOST_ACTORS];
    char *actors[MOST_ACTORS];
    size_t there = 0;
    for (size_t i = 0; i < many; i++) {
        size_t who = 0;
        while (who < there && strcmp(actors[who], calls[i].actor))
            who++;
        if (who == there && there < MOST_ACTORS)
            actors[there++] = calls[i].actor;
    }
    for (size_t who = 0; who < there; who++)
        if (pthread_create(&threads[who], NULL, act, actors[who]))
            exit(2);
    for (size_t who = 0; who < there; who++)
        pthread_join(threads[who], NULL);
}

static void tell(const struct node *n)
{
    struct mezulobu_settings s = {.struct_size = sizeof s};
    uint8_t choices[128];
    size_t many_choices = sizeof choices;
    int status = mezulobu_collection_check(n->collection, &s);
    printf("%s", n->name);
    if (status != MEZULOBU_DONE) {
        printf(" %s\n", words_of(status));
        return;
    }
    NEED(mezulobu_collection_selection(n->collection, choices, &many_choices));
    printf(" chosen %s", many_choices ? "" : "-");
    for (size_t i = 0; i < many_choices; i++)
        printf(i ? ".%u" : "%u", choices[i]);
    printf(" count %u size %llu place %zu %u", s.count, (unsigned long long)s.bytes, s.heap, s.coherency);
    if (!s.image.format)
        printf(" image none");
    else
        printf(" image %x %llx %u %ux%u row %u", s.image.format, (unsigned long long)s.image.modifier, s.image.color,
               s.image.width, s.image.height, s.image.layout.planes[0].pitch);
    printf("\n");
}

static void put(const char *path, struct text t)
{
    FILE *file = fopen(path, "wb");
    if (!file || fwrite(t.at, 1, t.size, file) != t.size || fclose(file))
        exit(2);
    free(t.at);
}

// Writes what happened: of the collection that is open, or of one that is made of a token that is.
static void write_texts(const char *script, const char *proof)
{
    struct text one, other;
    for (size_t i = 0; i < known; i++)
        if (nodes[i].collection) {
            NEED(script_of(nodes[i].collection, &one, &other));
            put(script, one);
            put(proof, other);
            return;
        }
}

static bool read_line(char **line, size_t *room)
{
    ssize_t length = getline(line, room, stdin);
    if (length > 0 && (*line)[length - 1] == '\n')
        (*line)[length - 1] = 0;
    return length > 0;
}

static void read_calls(void)
{
    char *line = NULL;
    size_t room = 0;
    while (many < MOST_CALLS && read_line(&line, &room)) {
        struct call *c = &calls[many++];
        int at = 0;
        if (sscanf(line, "%32s %31s %32s %32s %n", c->actor, c->act, c->on, c->as, &at) != 4)
            exit(2);
        c->constraints = strcmp(line + at, "-") ? strdup(line + at) : NULL;
    }
    free(line);
}

static struct mezulobu_token *read_root(void)
{
    struct mezulobu_allocator *a = NULL;
    struct mezulobu_token *root = NULL;
    char *line = NULL;
    size_t room = 0;
    if (!read_line(&line, &room))
        exit(2);
    NEED(mezulobu_allocator_new_record(line, strlen(line), &a, NULL));
    NEED(mezulobu_allocate_shared(a, &root));
    mezulobu_allocator_free(a);
    free(line);
    return root;
}

static void print_replies(void)
{
    for (size_t i = 0; i < many; i++) {
        const char *as = strcmp(calls[i].as, "-") ? calls[i].as : "";
        printf("%zu %s %s%s%s %s\n", i + 1, calls[i].act, calls[i].on, *as ? " " : "", as, calls[i].reply);
    }
}

// What each open collection is told, in the order in which the script makes their names.
static void tell_all(void)
{
    if (nodes[0].collection)
        tell(&nodes[0]);
    for (size_t i = 0; i < many; i++) {
        const struct node *n = strcmp(calls[i].as, "-") ? known_node(calls[i].as) : NULL;
        if (n && n->collection)
            tell(n);
    }
}

int main(int words, char **word)
{
    if (words != 3 && words != 4)
        return 2;
    is_free = words == 4;
    add("root", (struct node){.is_made = true, .token = read_root()});
    read_calls();
    play_all();
    if (!is_free)
        print_replies();
    tell_all();
    write_texts(word[1], word[2]);
    for (size_t i = 0; i < known; i++)
        if (nodes[i].token || nodes[i].group || nodes[i].collection)
            NEED(spend(&nodes[i], true));
    for (size_t i = 0; i < many; i++)
        free(calls[i].constraints);
    return 0;
}
