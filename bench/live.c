// live: times a negotiation of three participants through the handles of a collection beside
// mezulobu_negotiate of the same three, one after the other on one thread; and on 16 threads, each
// with collections of its own, and each with a participant of one collection. Each has the same
// settings, which is tested, but the last, where 16 ask for the same.
//
// With a path it also writes there what the nine calls are, as a script.
//
// It prints in nanoseconds: the processor's time of a negotiation by structs, and by handles; of the
// latter what its nine calls take, without the collection's begin and end; and of 16 threads the
// time on the clock of one of all their negotiations, and of one of a collection of 16.
#define _POSIX_C_SOURCE 200809L
#include "three.h"
#include <pthread.h>
#include <stdio.h>
#include <string.h>

#define ROUNDS 15
#define MANY 2000
#define THREADS 16

static struct mezulobu_allocator *allocator;
static struct mezulobu_settings wanted;

static double now(void)
{
    struct timespec t;
    clock_gettime(CLOCK_MONOTONIC, &t);
    return (double)t.tv_sec * 1e9 + (double)t.tv_nsec;
}

static int by_structs(void)
{
    struct mezulobu_settings s = {.struct_size = sizeof s};
    return mezulobu_negotiate(&platform, participants, PARTICIPANTS, &s, NULL);
}

// The nine calls: two tokens are made, three are bound, all say what they ask for, and one asks.
static int calls(struct mezulobu_token *root, struct mezulobu_collection **seats, struct mezulobu_settings *s)
{
    struct mezulobu_token *tokens[PARTICIPANTS] = {root};
    int bad = 0;
    for (int i = 1; i < PARTICIPANTS; i++)
        bad |= mezulobu_token_duplicate(root, &tokens[i]);
    for (int i = 0; i < PARTICIPANTS; i++)
        bad |= mezulobu_token_bind(&tokens[i], &seats[i]);
    for (int i = 0; i < PARTICIPANTS; i++)
        bad |= mezulobu_collection_set_constraints(seats[i], &participants[i], NULL);
    return bad | mezulobu_collection_check(seats[0], s);
}

static int by_handles(void)
{
    struct mezulobu_collection *seats[PARTICIPANTS];
    struct mezulobu_token *root = NULL;
    struct mezulobu_settings s;
    memset(&s, 0, sizeof s);
    s.struct_size = sizeof s;
    int bad = mezulobu_allocate_shared(allocator, &root);
    bad |= calls(root, seats, &s);
    for (int i = 0; i < PARTICIPANTS; i++)
        bad |= mezulobu_collection_release(&seats[i]);
    return bad | (memcmp(&s, &wanted, sizeof s) ? MEZULOBU_NO : MEZULOBU_DONE);
}

// The script of one more negotiation, without the release of its handles.
static int write_script(const char *path)
{
    static char text[1 << 14];
    size_t size = sizeof text;
    struct mezulobu_collection *made[PARTICIPANTS];
    struct mezulobu_token *root = NULL;
    struct mezulobu_settings s = {.struct_size = sizeof s};
    int bad = mezulobu_allocate_shared(allocator, &root);
    bad |= calls(root, made, &s) | mezulobu_collection_script(made[0], text, &size, NULL, NULL);
    for (int i = 0; i < PARTICIPANTS; i++)
        bad |= mezulobu_collection_release(&made[i]);
    FILE *file = bad ? NULL : fopen(path, "wb");
    if (!file)
        return 1;
    bad = fwrite(text, 1, size, file) != size;
    return fclose(file) || bad;
}

static int begin_and_end(void)
{
    struct mezulobu_token *root = NULL;
    return mezulobu_allocate_shared(allocator, &root) | mezulobu_token_release(&root);
}

static void *many_by_handles(void *bad)
{
    for (int i = 0; i < MANY; i++)
        *(int *)bad |= by_handles();
    return NULL;
}

static double all_at_once(void)
{
    pthread_t threads[THREADS];
    int bad[THREADS] = {0}, failed = 0;
    double from = now();
    for (int i = 0; i < THREADS; i++)
        failed |= pthread_create(&threads[i], NULL, many_by_handles, &bad[i]);
    for (int i = 0; i < THREADS; i++) {
        pthread_join(threads[i], NULL);
        failed |= bad[i];
    }
    if (failed)
        exit(1);
    return (now() - from) / MANY / THREADS;
}

// Participants of one collection after the other, each on a thread that stays.
static struct mezulobu_token *seats[THREADS];
static pthread_barrier_t gate;

static void *take_part(void *seat)
{
    struct mezulobu_token **token = seat;
    int *bad = calloc(1, sizeof *bad);
    for (int i = 0; i < MANY / 10; i++) {
        struct mezulobu_collection *mine = NULL;
        pthread_barrier_wait(&gate);
        *bad |= mezulobu_token_bind(token, &mine);
        *bad |= mezulobu_collection_set_constraints(mine, &participants[0], NULL);
        *bad |= mezulobu_collection_wait(mine, -1, NULL) == MEZULOBU_PENDING;
        pthread_barrier_wait(&gate);
        *bad |= mezulobu_collection_release(&mine);
    }
    return bad;
}

static double together(void)
{
    pthread_t threads[THREADS];
    double took = 0;
    int failed = pthread_barrier_init(&gate, NULL, THREADS + 1);
    for (int i = 0; i < THREADS; i++)
        failed |= pthread_create(&threads[i], NULL, take_part, &seats[i]);
    for (int i = 0; i < MANY / 10; i++) {
        struct mezulobu_token *root = NULL;
        failed |= mezulobu_allocate_shared(allocator, &root);
        for (int who = 0; who < THREADS; who++)
            failed |= mezulobu_token_duplicate(root, &seats[who]);
        failed |= mezulobu_token_release(&root);
        double from = now();
        pthread_barrier_wait(&gate);
        pthread_barrier_wait(&gate);
        took += now() - from;
    }
    for (int i = 0; i < THREADS; i++) {
        void *bad = NULL;
        pthread_join(threads[i], &bad);
        failed |= !bad || *(int *)bad;
        free(bad);
    }
    if (failed)
        exit(1);
    return took / (MANY / 10);
}

int main(int words, char **word)
{
    int (*const jobs[])(void) = {by_structs, by_handles, begin_and_end};
    double least[3] = {0};
    wanted.struct_size = sizeof wanted;
    if (mezulobu_negotiate(&platform, participants, PARTICIPANTS, &wanted, NULL) || mezulobu_allocator_new(&platform, &allocator, NULL))
        return 1;
    for (int round = 0; round < ROUNDS; round++)
        for (int job = 0; job < 3; job++) {
            double took = spent(jobs[job], MANY);
            least[job] = round && least[job] < took ? least[job] : took;
        }
    double side_by_side = all_at_once(), one = together();
    if (words > 1 && write_script(word[1]))
        return 1;
    mezulobu_allocator_free(allocator);
    printf("%.0f %.0f %.0f %.0f %.0f\n", least[0], least[1], least[1] - least[2], side_by_side, one);
    return 0;
}
