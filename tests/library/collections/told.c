// told: what a collection is told beside its settings: names, numbers, descriptors, waits that end and that don't, who
// is in the way, selections, records, and explanations under its own names. The expected values are worked out by hand.
// The last line is 'N passed, M failed'.
#include "common.h"
#include <poll.h>
#include <pthread.h>

static struct tally t;

static struct mezulobu_collection *bound(struct mezulobu_token *of, const char *name)
{
    struct mezulobu_token *token = NULL;
    struct mezulobu_collection *c = NULL;
    NEED(mezulobu_token_duplicate(of, &token));
    NEED(mezulobu_token_set_name(token, name));
    NEED(mezulobu_token_bind(&token, &c));
    return c;
}

static int asks(struct mezulobu_collection *c, struct mezulobu_size least, struct mezulobu_size most)
{
    struct mezulobu_entry e = {
        .struct_size = sizeof e, .format = NV12, .colors = MEZULOBU_REC709, .min_size = least, .max_size = most};
    struct mezulobu_participant p = {
        .struct_size = sizeof p, .usage = MEZULOBU_USE_VIDEO, .camping = 2, .entries = &e, .n_entries = 1};
    return mezulobu_collection_set_constraints(c, &p, NULL);
}

static bool is_called(struct mezulobu_collection *c, uint32_t node, const char *name)
{
    char text[33];
    size_t size = sizeof text;
    return mezulobu_collection_name_of(c, node, text, &size) == MEZULOBU_DONE && size == strlen(name) &&
           !memcmp(text, name, size);
}

static bool is_named(int status, const char *text, const size_t *size, const char *name)
{
    return status == MEZULOBU_DONE && *size == strlen(name) && !memcmp(text, name, *size);
}

// Each kind of handle tells its own name.
static void try_own_names(void)
{
    struct mezulobu_token *root = new_root();
    struct mezulobu_group *group = NULL;
    struct mezulobu_collection *c = bound(root, "camera");
    char text[8] = "1234567";
    size_t size = 3, root_size = sizeof text, group_size = sizeof text;
    NEED(mezulobu_token_create_group(root, &group));
    expect(&t, mezulobu_collection_name(c, text, &size) == MEZULOBU_TOO_SMALL && size == 6 && !strcmp(text, "1234567"),
           "no room for a collection's name");
    expect(&t, is_named(mezulobu_collection_name(c, text, &size), text, &size, "camera"), "a collection's name");
    expect(&t, is_named(mezulobu_token_name(root, text, &root_size), text, &root_size, "root"), "the root's name");
    expect(&t, is_named(mezulobu_group_name(group, text, &group_size), text, &group_size, "n2"),
           "a group without a name");
    expect(&t, mezulobu_token_name((struct mezulobu_token *)(void *)c, text, &size) == MEZULOBU_MISUSED,
           "a handle of another kind");
    expect(&t,
           mezulobu_token_name(NULL, text, &size) == MEZULOBU_MISUSED &&
               mezulobu_token_name(root, text, NULL) == MEZULOBU_MISUSED,
           "null pointers");
    expect(&t, mezulobu_token_name(root, NULL, &size) == MEZULOBU_MISUSED, "a null buffer with room");
    NEED(mezulobu_token_close(&root));
    NEED(mezulobu_group_close(&group));
    NEED(mezulobu_collection_close(&c));
}

static void try_names(void)
{
    static const char *const bad[] = {"", "root", "n0", "n12", "a b", "\xc3\xa4", "012345678901234567890123456789012"};
    static const char *const good[] = {"nn1", "n1a", "root2", "_", "-", "01234567890123456789012345678901"};
    struct mezulobu_token *root = new_root(), *other = NULL;
    struct mezulobu_collection *c = bound(root, "camera");
    uint32_t node = 99;
    char text[4];
    size_t size = sizeof text;
    NEED(mezulobu_token_duplicate(root, &other));
    expect(&t, mezulobu_collection_node(c, &node) == MEZULOBU_DONE && node == 1,
           "the first node that is made has the number 1");
    expect(&t, is_called(c, 0, "root") && is_called(c, 1, "camera") && is_called(c, 2, "n2"),
           "names, and numbers of those that have none");
    expect(&t, mezulobu_collection_name_of(c, 3, text, &size) == MEZULOBU_MISUSED, "there is no fourth node");
    expect(&t, mezulobu_collection_name_of(c, 1, text, &size) == MEZULOBU_TOO_SMALL && size == 6,
           "the length of a name");
    for (size_t i = 0; i < sizeof bad / sizeof *bad; i++)
        expect(&t, mezulobu_token_set_name(other, bad[i]) == MEZULOBU_REFUSED && is_called(c, 2, "n2"), bad[i]);
    expect(&t, mezulobu_token_set_name(other, "camera") == MEZULOBU_NO && is_called(c, 2, "n2"),
           "another node has the name");
    expect(&t, mezulobu_token_set_name(root, "app") == MEZULOBU_MISUSED && is_called(c, 0, "root"),
           "the first node is always the root");
    for (size_t i = 0; i < sizeof good / sizeof *good; i++)
        expect(&t, mezulobu_token_set_name(other, good[i]) == MEZULOBU_DONE && is_called(c, 2, good[i]), good[i]);
    expect(&t, mezulobu_collection_set_name(c, "camera") == MEZULOBU_DONE, "a node keeps its own name");
    expect(&t,
           mezulobu_collection_set_name(c, "sensor") == MEZULOBU_DONE &&
               mezulobu_token_set_name(other, "camera") == MEZULOBU_DONE,
           "a name that is given up");
    NEED(mezulobu_token_close(&other));
    NEED(mezulobu_token_close(&root));
    NEED(mezulobu_collection_close(&c));
}

static bool is_readable(int fd, int timeout)
{
    struct pollfd one = {.fd = fd, .events = POLLIN};
    return poll(&one, 1, timeout) == 1 && one.revents == POLLIN;
}

static void *release(void *collection)
{
    struct mezulobu_collection *c = collection;
    nanosleep(&(struct timespec){0, 20000000}, NULL);
    NEED(mezulobu_collection_release(&c));
    return NULL;
}

static void try_waits(void)
{
    struct mezulobu_token *root = new_root();
    struct mezulobu_collection *a = bound(root, "a"), *b = bound(root, "b"), *late = bound(root, "late");
    struct mezulobu_settings s = {.struct_size = sizeof s, .count = 77};
    pthread_t thread;
    NEED(mezulobu_token_release(&root));
    int fd = mezulobu_collection_fd(a);
    expect(&t, fd >= 0 && mezulobu_collection_fd(a) == fd && !is_readable(fd, 0),
           "a descriptor, always the same, that isn't readable");
    NEED(mezulobu_collection_set_constraints(a, NULL, NULL));
    NEED(mezulobu_collection_set_constraints(b, NULL, NULL));
    double begun = milliseconds();
    expect(&t, mezulobu_collection_wait(a, 30, &s) == MEZULOBU_NO && milliseconds() - begun >= 29,
           "a wait that is too short");
    expect(&t,
           mezulobu_collection_wait(a, 0, &s) == MEZULOBU_NO && mezulobu_collection_check(a, &s) == MEZULOBU_PENDING &&
               s.count == 77,
           "nothing is decided yet");
    if (pthread_create(&thread, NULL, release, late))
        exit(2);
    expect(&t, mezulobu_collection_wait(a, -1, &s) == MEZULOBU_DONE && s.count == 1 && s.bytes == 1,
           "a wait as long as it takes");
    expect(&t, is_readable(fd, 10000) && is_readable(fd, 0), "a descriptor that is and stays readable");
    expect(&t, is_readable(mezulobu_collection_fd(b), 0), "a descriptor that is asked for afterwards");
    expect(&t, mezulobu_collection_set_constraints(a, NULL, NULL) == MEZULOBU_WRONG_STATE,
           "what is asked for is said once");
    pthread_join(thread, NULL);
    NEED(mezulobu_collection_release(&a));
    expect(&t, !is_readable(fd, 0), "a descriptor is closed with its handle");
    NEED(mezulobu_collection_release(&b));
}

// A failed domain is told by each descriptor, that of an attached collection too.
static void try_failure(void)
{
    struct mezulobu_token *root = new_root(), *token = NULL;
    struct mezulobu_collection *a = bound(root, "a"), *b = bound(root, "b"), *c = NULL;
    NEED(mezulobu_collection_attach_token(a, &token));
    NEED(mezulobu_token_bind(&token, &c));
    int of_a = mezulobu_collection_fd(a), of_c = mezulobu_collection_fd(c);
    expect(&t, !is_readable(of_a, 0) && !is_readable(of_c, 0), "nothing is told yet");
    NEED(mezulobu_collection_close(&b));
    expect(&t,
           is_readable(of_a, 0) && is_readable(of_c, 0) &&
               mezulobu_collection_wait(c, -1, NULL) == MEZULOBU_DOMAIN_FAILED,
           "a closed collection fails all");
    NEED(mezulobu_token_release(&root));
    NEED(mezulobu_collection_release(&a));
    NEED(mezulobu_collection_release(&c));
}

static bool holds(const struct text *text, const char *words)
{
    return memmem(text->at, text->size, words, strlen(words));
}

// The camera's least size is above the display's greatest.
static void try_refusal(void)
{
    struct mezulobu_token *root = new_root();
    struct mezulobu_collection *camera = bound(root, "camera"), *display = bound(root, "display"),
                               *app = bound(root, "app");
    struct mezulobu_refusal why = {.struct_size = sizeof why};
    struct text told, script;
    uint8_t choices[4];
    size_t n = sizeof choices;
    NEED(mezulobu_token_release(&root));
    NEED(mezulobu_collection_set_constraints(app, NULL, NULL));
    NEED(asks(camera, (struct mezulobu_size){1440, 1080}, (struct mezulobu_size){0, 0}));
    expect(&t, mezulobu_collection_refusal(app, &why) == MEZULOBU_NO, "nobody is in the way yet");
    expect(&t, mezulobu_collection_selection(app, choices, &n) == MEZULOBU_PENDING, "no selection yet");
    NEED(asks(display, (struct mezulobu_size){0, 0}, (struct mezulobu_size){1000, 1000}));
    expect(&t, mezulobu_collection_check(app, NULL) == MEZULOBU_INTERSECTION_EMPTY, "no settings meet both");
    expect(&t, mezulobu_collection_selection(app, choices, &n) == MEZULOBU_INTERSECTION_EMPTY, "and so no selection");
    expect(&t,
           mezulobu_collection_refusal(app, &why) == MEZULOBU_DONE && why.kind == MEZULOBU_KIND_OFFERS && !why.alone &&
               why.field == MEZULOBU_FIELD_MAX_SIZE && is_called(app, (uint32_t)why.who, "display") &&
               why.format == NV12,
           "the display is in the way by its max_size");
    NEED(explained(app, mezulobu_collection_explain, &told));
    expect(&t, holds(&told, "in the way: camera and display"), "the explanation has the names");
    expect(&t, holds(&told, "camera min_size") && holds(&told, "display (call "), "and says what to change");
    expect(&t, holds(&told, "(actor camera, ") && holds(&told, "(actor display, ") && !holds(&told, "actor main"),
           "and who is whose actor");
    free(told.at);
    NEED(explained(app, mezulobu_collection_explain_json, &told));
    expect(&t, holds(&told, "\"camera\"") && holds(&told, "max_size"), "so does the explanation as objects");
    free(told.at);
    NEED(script_of(app, &script, NULL));
    expect(&t, holds(&script, "\"on\":\"display\",\"actor\":\"display\""), "and the script");
    free(script.at);
    NEED(mezulobu_collection_release(&app));
    NEED(mezulobu_collection_release(&camera));
    NEED(mezulobu_collection_release(&display));
}

// A list of participants, each of whom may be in the way: of whom the list is told, the collection tells by the node.
static bool is_told_as_a_list(unsigned *seed)
{
    static const struct mezulobu_heap heaps[] = {{.cpu = true, .ram = true},
                                                 {.contiguous = true, .cpu = true, .ram = true}};
    static const struct mezulobu_pair pairs[] = {{.format = NV12}, {.format = RGB}};
    static const uint32_t colors[] = {MEZULOBU_SRGB, MEZULOBU_REC709};
    static const struct mezulobu_platform platform = {sizeof platform, heaps, 2, pairs, 2, colors, 2};
    enum { MOST = 5 };
    struct mezulobu_entry entries[MOST];
    struct mezulobu_participant asked[MOST];
    struct mezulobu_collection *c[MOST];
    struct mezulobu_token *root = new_root();
    struct mezulobu_settings s = {.struct_size = sizeof s}, own = s;
    struct mezulobu_refusal why = {.struct_size = sizeof why}, told = why;
    size_t n = 2 + draw(seed, MOST - 1);
    for (size_t i = 0; i < n; i++)
        c[i] = bound(root, (char[]){'p', (char)('0' + i), 0});
    NEED(mezulobu_token_release(&root));
    for (size_t i = 0; i < n; i++) {
        entries[i] = (struct mezulobu_entry){.struct_size = sizeof entries[i],
                                             .format = draw(seed, 5) ? NV12 : RGB,
                                             .colors = MEZULOBU_REC709,
                                             .min_size = {draw(seed, 800), draw(seed, 800)},
                                             .max_size = {700 + draw(seed, 2000), 0}};
        asked[i] = (struct mezulobu_participant){.struct_size = sizeof asked[i],
                                                 .usage = MEZULOBU_USE_VIDEO,
                                                 .cpu = draw(seed, 5),
                                                 .ram = true,
                                                 .camping = draw(seed, 40),
                                                 .max_count = draw(seed, 3) ? 0 : 30,
                                                 .entries = &entries[i],
                                                 .n_entries = draw(seed, 4) != 0};
        NEED(mezulobu_collection_set_constraints(c[i], &asked[i], NULL));
    }
    int status = mezulobu_negotiate(&platform, asked, n, &s, &why), of_list = mezulobu_collection_check(c[0], &own);
    bool good = status == MEZULOBU_DONE ? of_list == MEZULOBU_DONE && !memcmp(&s, &own, sizeof s)
                                        : of_list == MEZULOBU_INTERSECTION_EMPTY;
    int of_why = mezulobu_collection_refusal(c[n - 1], &told);
    if (status == MEZULOBU_NO) {
        why.who += why.who != MEZULOBU_NOBODY;
        good = good && of_why == MEZULOBU_DONE && !memcmp(&why, &told, sizeof why);
    } else
        good = good && of_why == MEZULOBU_NO;
    for (size_t i = 0; i < n; i++)
        NEED(mezulobu_collection_release(&c[i]));
    return good;
}

static void try_lists(void)
{
    unsigned seed = 1;
    for (int i = 0; i < 300; i++)
        expect(&t, is_told_as_a_list(&seed), "a collection is told what a list of its participants is");
}

// Two groups of which the first's first child can't be met: 1 and 0.
static void try_selection(void)
{
    struct mezulobu_token *root = new_root(), *token = NULL;
    struct mezulobu_group *group = NULL;
    struct mezulobu_collection *c = NULL, *children[4];
    uint8_t choices[2] = {7, 7};
    size_t n = 1;
    for (int i = 0; i < 4; i++) {
        if (i % 2 == 0)
            NEED(mezulobu_token_create_group(root, &group));
        NEED(mezulobu_group_create_child(group, &token));
        NEED(mezulobu_token_bind(&token, &children[i]));
        NEED(asks(children[i], (struct mezulobu_size){i ? 0 : 2000, 0}, (struct mezulobu_size){i == 2 ? 1000 : 0, 0}));
        if (i % 2) {
            NEED(mezulobu_group_all_children_present(group));
            NEED(mezulobu_group_release(&group));
        }
    }
    NEED(mezulobu_token_bind(&root, &c));
    NEED(asks(c, (struct mezulobu_size){0, 0}, (struct mezulobu_size){1500, 0}));
    expect(&t,
           mezulobu_collection_check(children[1], NULL) == MEZULOBU_DONE &&
               mezulobu_collection_check(children[0], NULL) == MEZULOBU_NOT_SELECTED,
           "the second child is selected");
    expect(&t, mezulobu_collection_selection(c, choices, &n) == MEZULOBU_TOO_SMALL && n == 2 && choices[0] == 7,
           "two groups");
    expect(&t, mezulobu_collection_selection(c, choices, &n) == MEZULOBU_DONE && choices[0] == 1 && choices[1] == 0,
           "the second child of the first group, and the first of the second");
    expect(&t, mezulobu_collection_selection(children[0], choices, &n) == MEZULOBU_DONE && choices[0] == 1,
           "whoever asks");
    NEED(mezulobu_collection_release(&c));
    for (int i = 0; i < 4; i++)
        NEED(mezulobu_collection_release(&children[i]));
}

// A text that is longer than what is kept for most is explained all the same.
static void try_long(void)
{
    enum { MANY = 100 };
    struct mezulobu_token *root = new_root();
    struct mezulobu_collection *c[MANY];
    struct text told, script;
    for (int i = 0; i < MANY; i++) {
        char name[16];
        snprintf(name, sizeof name, "participant-%d", i);
        c[i] = bound(root, name);
        NEED(asks(c[i], (struct mezulobu_size){i ? 0 : 640, 480}, (struct mezulobu_size){0, 0}));
    }
    NEED(mezulobu_token_release(&root));
    NEED(script_of(c[0], &script, NULL));
    NEED(explained(c[0], mezulobu_collection_explain, &told));
    // 100 camp on 2 each, which are more than 128
    expect(&t, script.size > 20000 && holds(&told, "domain / (root): empty"), "a long script is explained");
    expect(&t, !holds(&script, "actor"), "with more names than a script may have actors, it has none");
    free(script.at);
    free(told.at);
    for (int i = 0; i < MANY; i++)
        NEED(mezulobu_collection_release(&c[i]));
}

static int by_record(const char *record, uint32_t *code)
{
    struct mezulobu_allocator *a = NULL;
    int status = mezulobu_allocator_new_record(record, strlen(record), &a, code);
    if ((status == MEZULOBU_DONE) != (a != NULL))
        return MEZULOBU_STRANGE;
    mezulobu_allocator_free(a);
    return status;
}

static bool is_told(uint32_t kind, const char *record, const char *words)
{
    char text[512];
    size_t size = sizeof text;
    int status = mezulobu_record_fault(kind, record, strlen(record), text, &size);
    return status == (*words ? MEZULOBU_DONE : MEZULOBU_NO) && size == strlen(words) && !memcmp(text, words, size);
}

// A platform may be stated as in a script, and the number of what is amiss is that of docs/SCRIPT.md.
static void try_records(void)
{
    static const char good[] = "{\"heaps\": [{\"heap_type\": \"SYSTEM_RAM\", \"domains\": [\"cpu\", \"ram\"]}], "
                               "\"color_spaces\": [\"REC709\"],"
                               " \"pairs\": [{\"pixel_format\": \"NV12\", \"pixel_format_modifier\": \"LINEAR\"}]}";
    static const char no_usage[] = "S5 usage\n --> record:2:10: usage\n  |\n2 | \"usage\": []}\n"
                                   "  |          ^^ the list is empty\n"
                                   "  = allowed: a list of none alone, or of one or more of cpu, vulkan, display "
                                   "and video\n";
    uint32_t code = 99;
    expect(&t, by_record(good, &code) == MEZULOBU_DONE && code == 99, "the record of a platform");
    expect(&t, by_record("{\"heap\": []}", &code) == MEZULOBU_REFUSED && code == 2, "S2: there is no such field");
    expect(&t, by_record("{", &code) == MEZULOBU_REFUSED && code == 0, "a record that is no JSON");
    expect(&t, is_told(MEZULOBU_KIND_PLATFORM, good, ""), "no words of a record without a fault");
    expect(&t, is_told(MEZULOBU_KIND_PARTICIPANT, "{\n\"usage\": []}", no_usage), "the words of a record's fault");
}

int main(void)
{
    try_names();
    try_own_names();
    try_records();
    try_waits();
    try_failure();
    try_refusal();
    try_selection();
    try_lists();
    try_long();
    return end(&t);
}
