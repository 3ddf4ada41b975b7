// fakes: the room of a collection over exports that are made up here. Whatever they answer, a call that leaves nobody
// awaited comes to its end, since each round enters a decision or is the last. The last line is 'N passed, M failed'.
#include "../../../c/room.c"
#include <stdio.h>

enum { DECISIONS = 3 };

static uint32_t frozen, decided, entered;
static int waiting, freezes;

uint32_t mezulobu_rt_live_act(struct held *book, uint32_t node, uint32_t action, uint32_t *made, bool *is_ready)
{
    (void)book, (void)node, (void)action, (void)made;
    *is_ready = true;
    return MEZULOBU_DONE;
}

uint32_t mezulobu_rt_live_set(struct held *book, uint32_t node, struct held *asked, bool *is_ready)
{
    (void)asked;
    return mezulobu_rt_live_act(book, node, SET_NONE, NULL, is_ready);
}

uint32_t mezulobu_rt_live_told(struct held *book, uint32_t node, struct mezulobu_settings *settings)
{
    (void)book, (void)node, (void)settings;
    return MEZULOBU_PENDING;
}

// Whether a domain waits doesn't matter to what it answers, as if memory were refused before it looks.
uint32_t mezulobu_rt_live_freeze(struct held *book, struct held *job)
{
    (void)book, (void)job;
    if (++freezes > 1000) {
        printf("fakes: decisions without end: freeze %u, decide %u, enter %u\n0 passed, 1 failed\n", frozen, decided,
               entered);
        exit(1);
    }
    return frozen;
}

uint32_t mezulobu_rt_live_decide(struct held *job)
{
    (void)job;
    return decided;
}

uint32_t mezulobu_rt_live_enter(struct held *book, struct held *job)
{
    (void)book, (void)job;
    if (entered == MEZULOBU_DONE && !waiting--)
        return waiting = 0, MEZULOBU_NO;
    return entered;
}

uint32_t mezulobu_rt_live_give_up(struct held *book)
{
    (void)book;
    return waiting ? waiting--, MEZULOBU_DONE : MEZULOBU_NO;
}

void mezulobu_rt_live_free(struct held *held) { *held = (struct held){0}; }

// Whether a step that brings decisions comes to its end, with each of them entered once.
static bool ends(void)
{
    struct visit v;
    struct room *r = room_new();
    if (!r || !room_enter(&v, &r->handles[0], TOKEN))
        exit(2);
    waiting = DECISIONS;
    freezes = 0;
    int status = room_step(&v, RELEASE, NULL, NULL);
    bool good =
        status == MEZULOBU_DONE && waiting == 0 && freezes == DECISIONS + 1 && !r->is_deciding && !r->is_half_decided;
    room_spend(&v);
    room_leave(&v);
    return good;
}

int main(void)
{
    static const uint32_t statuses[] = {MEZULOBU_DONE, MEZULOBU_NO_MEMORY, MEZULOBU_NO, MEZULOBU_MISUSED};
    enum { STATUSES = sizeof statuses / sizeof *statuses };
    int passed = 0, failed = 0;
    for (int f = 0; f < STATUSES; f++)
        for (int d = 0; d < STATUSES; d++)
            for (int e = 0; e < STATUSES; e++) {
                frozen = statuses[f];
                decided = statuses[d];
                entered = statuses[e];
                bool good = ends();
                passed += good;
                failed += !good;
                if (!good)
                    printf("fakes: freeze %u, decide %u, enter %u: %d left of %d decisions, %d rounds\n", frozen,
                           decided, entered, waiting, DECISIONS, freezes);
            }
    printf("%d passed, %d failed\n", passed, failed);
    return failed != 0;
}
