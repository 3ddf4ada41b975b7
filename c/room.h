/* The room of a live collection: its book, its lock, and the handles of its nodes. */
#ifndef MEZULOBU_ROOM_H
#define MEZULOBU_ROOM_H

#include "face.h"
#include <pthread.h>

/* What a proved export keeps: all 0 is nothing. C reads neither member. */
struct held {
    void *at;
    bool is_full;
};

void mezulobu_rt_live_free(struct held *);

/* Actions, as mezulobu_rt_live_act numbers them. */
enum action { DUPLICATE = 1, CREATE_GROUP, BIND, CREATE_CHILD, ALL_CHILDREN_PRESENT, SET_NONE, ATTACH_TOKEN, RELEASE, CLOSE };

/* What a pointer that a caller has begins with. */
enum mark { ALLOCATOR = 0x4d7a616c, HANDLE = 0x4d7a6861 };

/* What a handle is of; a spent one of nothing any more. */
enum kind { NOTHING, TOKEN, GROUP, COLLECTION };

enum { MOST_NODES = 128 };

/* What a token, a group or a collection is for its caller. All but its mark and its room is read and written in the room's lock. */
struct handle {
    uint32_t mark;
    uint8_t kind;
    bool is_watched; /* it has a descriptor, which isn't readable yet */
    int fd;          /* -1: none */
    struct room *room;
};

/* One collection of buffers, and the handles of its nodes. */
struct room {
    pthread_mutex_t lock;
    pthread_cond_t changed; /* there is a verdict, nobody decides any more, or a handle was spent */
    struct held book;
    size_t users;           /* handles that aren't spent, and calls */
    bool is_deciding;       /* what was frozen is being decided, without the lock */
    bool is_half_decided;   /* and of the decisions that a call brings some are entered */
    struct handle handles[MOST_NODES]; /* by the numbers of nodes, of which no collection has more */
};

/* A call that is in the room of a handle: it has the lock, and isn't cancelled. */
struct visit {
    struct room *room;
    struct handle *handle;
    int cancelling; /* what the thread had before */
};

/* A room without a book, and the handle of its first node, which is the one user; null where memory or a lock is refused. */
struct room *room_new(void);
void room_free(struct room *r);

/* Enters the room of a handle of this kind; false where it is none. */
bool room_enter(struct visit *v, void *handle, enum kind kind);

/* The same for a call that acts: it waits until nobody decides. */
bool room_enter_to_act(struct visit *v, void *handle, enum kind kind);

/* The same for a call that wants a copy, which is of the moment before a call whose decision is being made. It waits only between the
 * decisions that one call brings: the first may be known already, and no script ends before the last. */
bool room_enter_to_copy(struct visit *v, void *handle, enum kind kind);

void room_leave(struct visit *v);

/* ---- In the room ---- */

/* The number of the handle's node. */
static inline uint32_t node_of(const struct visit *v) { return (uint32_t)(v->handle - v->room->handles); }

/* A step of the collection, and the decisions that it brings. asked may be null, and so may made, the number of a node that is made. */
int room_step(struct visit *v, enum action action, struct held *asked, uint32_t *made);

/* The handle of a node that was made, of this kind: one more user. */
struct handle *room_hand_out(struct visit *v, uint32_t node, enum kind kind);

/* The visit's handle is spent. */
void room_spend(struct visit *v);

/* What the handle's node is told. settings aren't null. */
int room_told(const struct visit *v, struct mezulobu_settings *settings);

/* Waits for a change, and says whether the time is over, if there is one. A thread that is cancelled meanwhile leaves the room. */
bool room_await_change(struct visit *v, const struct timespec *until);

/* The handle's descriptor; -1 where there is none. */
int room_fd(struct visit *v);

#endif
