// use NAME ..: runs, checks and explains each NAME.json through the library: its report and certificate are NAME.out
// and NAME.proof, in buffers of every length. Then four threads with 200 calls each. The last line is 'N passed, M
// failed'.
#include "mezulobu.h"
#include <pthread.h>
#include <stdio.h>
#include <stdlib.h>
#include <string.h>

enum { MARK = 0xA5, MORE = 7, THREADS = 4, CALLS = 200 };

struct bytes {
    char *at;
    size_t size;
};

struct job {
    struct bytes script, report, proof;
    int wrong;
};

static long passed, failed;

static void expect(int holds, const char *name, const char *what)
{
    if (holds)
        passed++;
    else {
        failed++;
        printf("library: another answer: %s: %s\n", name, what);
    }
}

static struct bytes content(const char *name, const char *ending)
{
    char path[4096];
    snprintf(path, sizeof path, "%s%s", name, ending);
    FILE *file = fopen(path, "rb");
    if (!file)
        exit(2);
    fseek(file, 0, SEEK_END);
    struct bytes b = {NULL, (size_t)ftell(file)};
    rewind(file);
    b.at = malloc(b.size + 1);
    if (!b.at || fread(b.at, 1, b.size, file) != b.size)
        exit(2);
    fclose(file);
    return b;
}

// A buffer of marks with more after its room.
static char *marked(size_t room)
{
    char *buffer = malloc(room + MORE);
    if (!buffer)
        exit(2);
    memset(buffer, MARK, room + MORE);
    return buffer;
}

static int is_marked(const char *buffer, size_t from, size_t to)
{
    for (size_t i = from; i < to; i++)
        if ((unsigned char)buffer[i] != MARK)
            return 0;
    return 1;
}

// A run with rooms for both texts is as it should be: done where both have room, else too small, with nothing written.
static int runs(const struct job *j, size_t room, size_t proof_room)
{
    char *text = marked(room), *proof = marked(proof_room);
    size_t size = room, proof_size = proof_room;
    int status = mezulobu_run(j->script.at, j->script.size, text, &size, proof, &proof_size);
    int fits = room >= j->report.size && proof_room >= j->proof.size, good;
    good =
        size == j->report.size && proof_size == j->proof.size && status == (fits ? MEZULOBU_DONE : MEZULOBU_TOO_SMALL);
    if (fits)
        good = good && !memcmp(text, j->report.at, size) && !memcmp(proof, j->proof.at, proof_size);
    good = good && is_marked(text, fits ? size : 0, room + MORE) &&
           is_marked(proof, fits ? proof_size : 0, proof_room + MORE);
    free(text);
    free(proof);
    return good;
}

static int runs_alone(const struct job *j, size_t room)
{
    char *text = marked(room);
    size_t size = room;
    int status = mezulobu_run(j->script.at, j->script.size, text, &size, NULL, NULL);
    int fits = room >= j->report.size;
    int good = size == j->report.size && status == (fits ? MEZULOBU_DONE : MEZULOBU_TOO_SMALL);
    good = good && (!fits || !memcmp(text, j->report.at, size)) && is_marked(text, fits ? size : 0, room + MORE);
    free(text);
    return good;
}

// A check answers so, in a buffer of this room.
static int answers(const struct job *j, const char *proof, size_t proof_size, int wanted, const char *words,
                   size_t room)
{
    char *text = marked(room);
    size_t size = room;
    int status = mezulobu_check(j->script.at, j->script.size, proof, proof_size, text, &size);
    int fits = room >= strlen(words);
    int good = size == strlen(words) && status == (fits ? wanted : MEZULOBU_TOO_SMALL);
    good = good && (!fits || !memcmp(text, words, size)) && is_marked(text, fits ? size : 0, room + MORE);
    free(text);
    return good && mezulobu_check(j->script.at, j->script.size, proof, proof_size, NULL, NULL) == wanted;
}

static int decisions(struct bytes proof)
{
    int many = 0;
    for (size_t i = 0; i + 10 <= proof.size; i++)
        many += !memcmp(proof.at + i, "\"verdict\":", 10);
    return many;
}

// Lengths up to one more than a size: each, or of a long text each of the ends and some between.
static size_t next_length(size_t length, size_t size)
{
    return size <= 600 || length < 20 || length + 20 > size ? length + 1 : length + size / 40;
}

static void try_script(const char *name, struct job *j)
{
    int good = 1;
    for (size_t room = 0; room <= j->report.size + 1; room = next_length(room, j->report.size))
        good = good && runs_alone(j, room);
    expect(good, name, "a report in buffers of every length");
    good = 1;
    for (size_t room = 0; room <= j->report.size + 1; room = next_length(room, j->report.size))
        good = good && runs(j, room, j->proof.size);
    for (size_t room = 0; room <= j->proof.size + 1; room = next_length(room, j->proof.size))
        good = good && runs(j, j->report.size + 3, room);
    expect(good, name, "a certificate in buffers of every length");
    size_t size = 0, proof_size = 0;
    int status = mezulobu_run(j->script.at, j->script.size, NULL, &size, NULL, &proof_size);
    expect(status == MEZULOBU_TOO_SMALL && size == j->report.size && proof_size == j->proof.size, name,
           "sizes without buffers");
    char words[64];
    int many = decisions(j->proof);
    snprintf(words, sizeof words, "yes %d\n", many);
    good = 1;
    for (size_t room = 0; room <= strlen(words) + 1; room++)
        good = good && answers(j, j->proof.at, j->proof.size, MEZULOBU_DONE, words, room);
    expect(good, name, "yes");
    if (many)
        expect(answers(j, "{}", 2, MEZULOBU_REFUSED, "proof refused", 64), name, "a certificate that is no list");
    else
        expect(answers(j, "[]", 2, MEZULOBU_DONE, "yes 0\n", 64), name, "no decision");
}

// An explanation in a buffer of this room is this text, with this status.
static int explains(const struct job *j, struct bytes wanted, int wanted_status, size_t room)
{
    char *text = marked(room);
    size_t size = room;
    int status = mezulobu_explain(j->script.at, j->script.size, "a.json", true, text, &size);
    int fits = room >= wanted.size;
    int good = size == wanted.size && status == (fits ? wanted_status : MEZULOBU_TOO_SMALL);
    good = good && (!fits || !memcmp(text, wanted.at, size)) && is_marked(text, fits ? size : 0, room + MORE);
    free(text);
    return good;
}

// What explain.py compares with the program's text, in buffers of other lengths: each of the ends and some between.
static void try_explanation(const char *name, const struct job *j)
{
    struct bytes wanted = {NULL, 0};
    int good = mezulobu_explain(j->script.at, j->script.size, "a.json", true, NULL, &wanted.size) == MEZULOBU_TOO_SMALL;
    wanted.at = marked(wanted.size);
    int status = mezulobu_explain(j->script.at, j->script.size, "a.json", true, wanted.at, &wanted.size);
    good = good && (status == MEZULOBU_DONE || status == MEZULOBU_NO);
    for (size_t room = 0; room <= wanted.size + 1; room += room < 4 || room + 4 > wanted.size ? 1 : wanted.size / 12)
        good = good && explains(j, wanted, status, room);
    for (size_t less = 1; less <= 3; less++)
        good = good && explains(j, wanted, status, wanted.size - less);
    good = good && explains(j, wanted, status, wanted.size) && explains(j, wanted, status, wanted.size + 1);
    expect(good, name, "an explanation in buffers of many lengths");
    free(wanted.at);
}

static void *call_again(void *at)
{
    struct job *j = at;
    for (int i = 0; i < CALLS; i++)
        if (!runs(j, j->report.size, j->proof.size))
            j->wrong++;
    return NULL;
}

static void try_threads(const char *name, const struct job *j)
{
    pthread_t threads[THREADS];
    struct job own[THREADS];
    int wrong = 0;
    for (int i = 0; i < THREADS; i++) {
        own[i] = *j;
        own[i].wrong = 0;
        if (pthread_create(&threads[i], NULL, call_again, &own[i]))
            exit(2);
    }
    for (int i = 0; i < THREADS; i++) {
        pthread_join(threads[i], NULL);
        wrong += own[i].wrong;
    }
    expect(!wrong, name, "four threads with 200 calls each");
}

// What is explained where a script is refused: it begins so, and has a line of the file of this name.
static int shows(const char *script, const char *file, const char *first, const char *line)
{
    char text[4096];
    size_t size = sizeof text - 1;
    if (mezulobu_explain(script, strlen(script), file, false, text, &size) != MEZULOBU_REFUSED)
        return 0;
    text[size] = 0;
    return !strncmp(text, first, strlen(first)) && strstr(text, line);
}

// What is refused, and what is misused.
static void try_refusals(const struct job *j)
{
    char text[64];
    size_t size = sizeof text, proof_size = 0;
    static const char refused[] = "script refused: Q2";
    int status = mezulobu_run("{", 1, text, &size, NULL, NULL);
    expect(status == MEZULOBU_REFUSED && size == strlen(refused) && !memcmp(text, refused, size), "{",
           "words of a refusal");
    size = 3;
    memset(text, MARK, sizeof text);
    status = mezulobu_run("{", 1, text, &size, text, &proof_size);
    expect(status == MEZULOBU_TOO_SMALL && size == strlen(refused) && !proof_size && is_marked(text, 0, sizeof text),
           "{", "too small for its words");
    size = sizeof text;
    status = mezulobu_run(NULL, 0, text, &size, NULL, &proof_size);
    expect(status == MEZULOBU_REFUSED && size == strlen(refused) && !proof_size, "no bytes", "are no script");
    status = mezulobu_check("{", 1, "[]", 2, text, (size = sizeof text, &size));
    expect(status == MEZULOBU_REFUSED && size == strlen(refused) && !memcmp(text, refused, size), "{",
           "words of a refusal in a check");
    int good = shows("{", NULL, "script refused: Q2", "script:1:") &&
               shows("{", "dir/a b.json", "script refused: Q2", "dir/a b.json:1:");
    expect(good && shows("{", "\xff.json", "script refused: Q2", "\xef\xbf\xbd.json:1:"), "{",
           "an explanation of a refusal");
    good = mezulobu_run(NULL, 1, text, &size, NULL, NULL) == MEZULOBU_MISUSED;
    good = good && mezulobu_explain(NULL, 1, "a", false, text, &size) == MEZULOBU_MISUSED;
    good = good && mezulobu_explain("{", 1, "a", false, text, NULL) == MEZULOBU_MISUSED;
    good = good && mezulobu_explain_json(NULL, 1, "a", false, text, &size) == MEZULOBU_MISUSED;
    good = good && mezulobu_explain("{", 1, "a", false, NULL, (size = 1, &size)) == MEZULOBU_MISUSED;
    good = good && mezulobu_run(j->script.at, j->script.size, text, NULL, NULL, NULL) == MEZULOBU_MISUSED;
    good = good && mezulobu_run(j->script.at, j->script.size, NULL, (size = 1, &size), NULL, NULL) == MEZULOBU_MISUSED;
    good = good && mezulobu_run(j->script.at, j->script.size, text, &size, text, NULL) == MEZULOBU_MISUSED;
    good = good && mezulobu_run(j->script.at, j->script.size, text, &size, NULL, (proof_size = 1, &proof_size)) ==
                       MEZULOBU_MISUSED;
    good = good && mezulobu_check(j->script.at, j->script.size, NULL, 1, text, &size) == MEZULOBU_MISUSED;
    good = good && mezulobu_check(j->script.at, j->script.size, "[]", 2, text, NULL) == MEZULOBU_MISUSED;
    good = good && mezulobu_check(j->script.at, j->script.size, "[]", 2, NULL, &size) == MEZULOBU_MISUSED;
    expect(good, "null pointers", "are misused");
    static const char *const names[] = {"DONE", "?", "MISUSED", "REFUSED", "NO_MEMORY", "TOO_SMALL", "NO", "?"};
    good = mezulobu_version() == MEZULOBU_VERSION;
    for (int i = 0; i < 8; i++)
        good = good && !strcmp(mezulobu_status_name(i), names[i]);
    expect(good, "statuses", "have names");
}

// A script of many objects takes too much to be explained; a run says that it is refused.
static void try_great(void)
{
    enum { OBJECTS = 150000 };
    static char script[8 * OBJECTS];
    char text[64], *at = script;
    for (int i = 0; i < OBJECTS; i++)
        at += sprintf(at, "%c{\"\":0}", i ? ',' : '[');
    *at++ = ']';
    size_t size = sizeof text, script_size = (size_t)(at - script);
    int good = mezulobu_run(script, script_size, text, &size, NULL, NULL) == MEZULOBU_REFUSED;
    size = sizeof text;
    good = good && mezulobu_explain(script, script_size, "a", false, text, &size) == MEZULOBU_NO_MEMORY;
    expect(good, "many objects", "aren't explained");
}

int main(int count, char **names)
{
    struct job first = {{NULL, 0}, {NULL, 0}, {NULL, 0}, 0};
    for (int i = 1; i < count; i++) {
        struct job j = {content(names[i], ".json"), content(names[i], ".out"), content(names[i], ".proof"), 0};
        try_script(names[i], &j);
        try_explanation(names[i], &j);
        if (i == 1)
            first = j;
        else {
            free(j.script.at);
            free(j.report.at);
            free(j.proof.at);
        }
    }
    if (count > 1) {
        try_threads(names[1], &first);
        try_refusals(&first);
        try_great();
        free(first.script.at);
        free(first.report.at);
        free(first.proof.at);
    }
    printf("%ld passed, %ld failed\n", passed, failed);
    return failed != 0;
}
