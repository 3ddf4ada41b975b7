// cancel ROUNDS: threads that are cancelled at some moment, while they wait or act, leave neither a lock nor a call
// behind: the others go on, are told, and can give up all handles. A wait is left at once; what acts is done or not
// begun. The last line is 'N passed, M failed'.
#include "common.h"
#include <pthread.h>
#include <stdatomic.h>

enum { WAITERS = 3 };

static struct mezulobu_collection *waiting[WAITERS], *shared;
static struct mezulobu_token *acting;
static atomic_int begun;

static void *wait_long(void *at)
{
    begun++;
    mezulobu_collection_wait(*(struct mezulobu_collection **)at, -1, NULL);
    return at;
}

// Makes nodes and texts until it is cancelled, which it is in none of these calls.
static void *act_long(void *unused)
{
    begun++;
    for (;;) {
        struct mezulobu_token *made = NULL;
        struct mezulobu_collection *c = NULL;
        struct text script;
        int old;
        if (mezulobu_token_duplicate(acting, &made) == MEZULOBU_DONE) {
            NEED(mezulobu_token_bind(&made, &c));
            mezulobu_collection_fd(c);
            NEED(mezulobu_collection_release(&c));
        }
        pthread_setcancelstate(PTHREAD_CANCEL_DISABLE, &old);
        NEED(script_of(shared, &script, NULL));
        free(script.at);
        pthread_setcancelstate(old, NULL);
        pthread_testcancel();
    }
    return unused;
}

static struct mezulobu_collection *seat(struct mezulobu_token *root)
{
    struct mezulobu_token *token = NULL;
    struct mezulobu_collection *c = NULL;
    NEED(mezulobu_token_duplicate(root, &token));
    NEED(mezulobu_token_bind(&token, &c));
    return c;
}

static void play(struct tally *t, unsigned *seed)
{
    struct mezulobu_token *root = new_root();
    pthread_t threads[WAITERS + 1];
    begun = 0;
    shared = seat(root);
    NEED(mezulobu_token_duplicate(root, &acting));
    for (int i = 0; i < WAITERS; i++) {
        waiting[i] = seat(root);
        if (pthread_create(&threads[i], NULL, wait_long, &waiting[i]))
            exit(2);
    }
    if (pthread_create(&threads[WAITERS], NULL, act_long, NULL))
        exit(2);
    while (begun < WAITERS + 1)
        nanosleep(&(struct timespec){0, 100000}, NULL);
    nanosleep(&(struct timespec){0, draw(seed, 2000) * 1000L}, NULL);
    void *left = NULL;
    bool good = true;
    for (int i = 1; i <= WAITERS; i++) {
        pthread_cancel(threads[i]);
        pthread_join(threads[i], &left);
        good = good && left == PTHREAD_CANCELED;
    }
    expect(t, good, "threads that are cancelled end so");
    // The first one is got out of its wait by the spending of its handle.
    struct mezulobu_collection *first = waiting[0];
    NEED(mezulobu_collection_release(&first));
    expect(t, !pthread_join(threads[0], &left) && left == &waiting[0], "a wait ends where its handle is spent");
    NEED(mezulobu_token_close(&acting));
    NEED(mezulobu_token_release(&root));
    expect(t, mezulobu_collection_wait(shared, 0, NULL) == MEZULOBU_DOMAIN_FAILED, "a closed token fails its domain");
    for (int i = 1; i < WAITERS; i++)
        NEED(mezulobu_collection_release(&waiting[i]));
    NEED(mezulobu_collection_release(&shared));
}

int main(int words, char **word)
{
    struct tally t = {0, 0};
    unsigned seed = 1;
    for (int rounds = words > 1 ? atoi(word[1]) : 20; rounds > 0; rounds--)
        play(&t, &seed);
    return end(&t);
}
