/* The room of a live collection: its lock, who waits for what, decisions without the lock, and file descriptors. What a step does to
 * the collection, and what is decided, are the proved exports'. */
#include "room.h"
#include <errno.h>
#include <stdlib.h>
#include <sys/eventfd.h>
#include <time.h>
#include <unistd.h>

uint32_t mezulobu_rt_live_act(struct held *, uint32_t, uint32_t, uint32_t *, bool *);
uint32_t mezulobu_rt_live_set(struct held *, uint32_t, struct held *, bool *);
uint32_t mezulobu_rt_live_told(struct held *, uint32_t, struct mezulobu_settings *);
uint32_t mezulobu_rt_live_freeze(struct held *, struct held *);
uint32_t mezulobu_rt_live_decide(struct held *);
uint32_t mezulobu_rt_live_enter(struct held *, struct held *);
uint32_t mezulobu_rt_live_give_up(struct held *);

void room_free(struct room *r)
{
    mezulobu_rt_live_free(&r->book);
    pthread_cond_destroy(&r->changed);
    pthread_mutex_destroy(&r->lock);
    free(r);
}

/* Whether a lock and a condition, which waits by the clock of wait, could be made. */
static bool is_made(pthread_mutex_t *lock, pthread_cond_t *changed)
{
    pthread_condattr_t attributes;
    if (pthread_condattr_init(&attributes))
        return false;
    bool good = !pthread_condattr_setclock(&attributes, CLOCK_MONOTONIC) && !pthread_mutex_init(lock, NULL);
    if (good && pthread_cond_init(changed, &attributes)) {
        pthread_mutex_destroy(lock);
        good = false;
    }
    pthread_condattr_destroy(&attributes);
    return good;
}

struct room *room_new(void)
{
    struct room *r = malloc(sizeof *r);
    if (!r)
        return NULL;
    *r = (struct room){.users = 1};
    if (!is_made(&r->lock, &r->changed)) {
        free(r);
        return NULL;
    }
    for (size_t node = 0; node < MOST_NODES; node++)
        r->handles[node] = (struct handle){.mark = HANDLE, .fd = -1, .room = r};
    r->handles[0].kind = TOKEN;
    return r;
}

void room_leave(struct visit *v)
{
    struct room *r = v->room;
    bool is_last = --r->users == 0;
    pthread_mutex_unlock(&r->lock);
    if (is_last)
        room_free(r);
    pthread_setcancelstate(v->cancelling, NULL);
}

bool room_enter(struct visit *v, void *handle, enum kind kind)
{
    struct handle *h = handle;
    if (!h || h->mark != HANDLE)
        return false;
    *v = (struct visit){.room = h->room, .handle = h};
    pthread_setcancelstate(PTHREAD_CANCEL_DISABLE, &v->cancelling);
    pthread_mutex_lock(&v->room->lock);
    v->room->users++;
    if (h->kind == kind)
        return true;
    room_leave(v);
    return false;
}

/* Waits until a flag of the room is down, and leaves where the handle was spent meanwhile. */
static bool await(struct visit *v, const bool *flag, enum kind kind)
{
    while (*flag)
        pthread_cond_wait(&v->room->changed, &v->room->lock);
    if (v->handle->kind == kind)
        return true;
    room_leave(v);
    return false;
}

bool room_enter_to_act(struct visit *v, void *handle, enum kind kind)
{
    return room_enter(v, handle, kind) && await(v, &v->room->is_deciding, kind);
}

bool room_enter_to_copy(struct visit *v, void *handle, enum kind kind)
{
    return room_enter(v, handle, kind) && await(v, &v->room->is_half_decided, kind);
}

static bool is_told(struct room *r, uint32_t node)
{
    struct mezulobu_settings none = {.struct_size = sizeof none};
    return mezulobu_rt_live_told(&r->book, node, &none) != MEZULOBU_PENDING;
}

/* Makes a descriptor readable, for good. */
static void wake(struct handle *h)
{
    uint64_t one = 1;
    ssize_t done;
    do
        done = write(h->fd, &one, sizeof one);
    while (done < 0 && errno == EINTR);
    h->is_watched = false;
}

/* Tells those that wait that a verdict may have come. */
static void tell(struct room *r)
{
    for (uint32_t node = 0; node < MOST_NODES; node++)
        if (r->handles[node].is_watched && is_told(r, node))
            wake(&r->handles[node]);
    pthread_cond_broadcast(&r->changed);
}

/* Decides the domain that is next, without the lock meanwhile; false where none waits. Where memory is refused, that is the verdict. So
 * each call that is true entered one decision, of which a collection has no more than nodes. */
static bool decide_next(struct room *r)
{
    struct held job = {0};
    uint32_t status = mezulobu_rt_live_freeze(&r->book, &job);
    if (status == MEZULOBU_DONE) {
        pthread_mutex_unlock(&r->lock);
        status = mezulobu_rt_live_decide(&job);
        pthread_mutex_lock(&r->lock);
    }
    /* What was frozen still fits, since nobody acted. */
    bool is_entered = status == MEZULOBU_DONE && mezulobu_rt_live_enter(&r->book, &job) == MEZULOBU_DONE;
    if (!is_entered)
        is_entered = mezulobu_rt_live_give_up(&r->book) == MEZULOBU_DONE;
    mezulobu_rt_live_free(&job);
    return is_entered;
}

static void decide(struct room *r)
{
    r->is_deciding = true;
    while (decide_next(r)) {
        r->is_half_decided = true;
        tell(r);
    }
    r->is_deciding = false;
    r->is_half_decided = false;
    tell(r);
}

int room_step(struct visit *v, enum action action, struct held *asked, uint32_t *made)
{
    struct room *r = v->room;
    bool is_ready = false;
    uint32_t number = 0;
    uint32_t status = asked ? mezulobu_rt_live_set(&r->book, node_of(v), asked, &is_ready)
                            : mezulobu_rt_live_act(&r->book, node_of(v), action, &number, &is_ready);
    /* One above is of a step while a domain waits, which nobody makes here. */
    if (status != MEZULOBU_DONE)
        return status > MEZULOBU_STRANGE ? MEZULOBU_STRANGE : (int)status;
    if (made)
        *made = number;
    if (is_ready)
        decide(r);
    else if (action == CLOSE)
        tell(r);
    return MEZULOBU_DONE;
}

struct handle *room_hand_out(struct visit *v, uint32_t node, enum kind kind)
{
    struct handle *h = &v->room->handles[node];
    h->kind = (uint8_t)kind;
    v->room->users++;
    return h;
}

void room_spend(struct visit *v)
{
    struct handle *h = v->handle;
    if (h->fd >= 0)
        close(h->fd);
    h->kind = NOTHING;
    h->is_watched = false;
    h->fd = -1;
    v->room->users--;
    pthread_cond_broadcast(&v->room->changed);
}

int room_told(const struct visit *v, struct mezulobu_settings *settings)
{
    return (int)mezulobu_rt_live_told(&v->room->book, node_of(v), settings);
}

static void leave_cancelled(void *visit) { room_leave(visit); }

bool room_await_change(struct visit *v, const struct timespec *until)
{
    int status = 0;
    pthread_cleanup_push(leave_cancelled, v);
    pthread_setcancelstate(v->cancelling, NULL);
    status = until ? pthread_cond_timedwait(&v->room->changed, &v->room->lock, until)
                   : pthread_cond_wait(&v->room->changed, &v->room->lock);
    pthread_setcancelstate(PTHREAD_CANCEL_DISABLE, NULL);
    pthread_cleanup_pop(0);
    return status == ETIMEDOUT;
}

int room_fd(struct visit *v)
{
    struct handle *h = v->handle;
    if (h->fd < 0) {
        h->fd = eventfd(0, EFD_CLOEXEC | EFD_NONBLOCK);
        h->is_watched = h->fd >= 0;
        if (h->is_watched && is_told(v->room, node_of(v)))
            wake(h);
    }
    return h->fd;
}
