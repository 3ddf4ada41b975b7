/* Live collections: allocators, and the calls that act on a token, a group or a collection. */
#include "room.h"
#include <stdlib.h>

uint32_t mezulobu_rt_live_platform(const struct mezulobu_platform *, struct held *, struct mezulobu_refusal *);
uint32_t mezulobu_rt_live_platform_record(const uint8_t *, size_t, struct held *, uint32_t *);
uint32_t mezulobu_rt_live_open(struct held *, struct held *);
uint32_t mezulobu_rt_live_open_within(struct held *, uint32_t, struct held *);
uint32_t mezulobu_rt_live_asked(const struct mezulobu_participant *, struct held *, struct mezulobu_refusal *);
uint32_t mezulobu_rt_live_asked_record(const uint8_t *, size_t, struct held *, uint32_t *);

struct mezulobu_allocator {
    uint32_t mark;
    pthread_mutex_t lock;
    struct held platform;
};

/* An allocator of a platform, which it takes. */
static int allocator_of(struct held platform, struct mezulobu_allocator **allocator)
{
    struct mezulobu_allocator *a = malloc(sizeof *a);
    if (!a || pthread_mutex_init(&a->lock, NULL)) {
        free(a);
        mezulobu_rt_live_free(&platform);
        return MEZULOBU_NO_MEMORY;
    }
    a->mark = ALLOCATOR;
    a->platform = platform;
    *allocator = a;
    return MEZULOBU_DONE;
}

int mezulobu_allocator_new(const struct mezulobu_platform *platform, struct mezulobu_allocator **allocator,
                           struct mezulobu_refusal *why)
{
    struct mezulobu_refusal own = {.struct_size = sizeof own};
    struct mezulobu_refusal *out = why ? why : &own;
    struct held held = {0};
    if (out->struct_size != sizeof *out || !allocator)
        return MEZULOBU_MISUSED;
    // A smaller struct is not read beyond its first member.
    if (!platform || platform->struct_size != sizeof *platform)
        return mezulobu_misused(out, MEZULOBU_KIND_PLATFORM, MEZULOBU_NOBODY, 0);
    struct mezulobu_platform on = *platform;
    if (!mezulobu_mend_platform(&on))
        return mezulobu_misused(out, MEZULOBU_KIND_PLATFORM, MEZULOBU_NOBODY, 0);
    int status = (int)mezulobu_rt_live_platform(&on, &held, out);
    return status == MEZULOBU_DONE ? allocator_of(held, allocator) : status;
}

int mezulobu_allocator_new_record(const void *record, size_t size, struct mezulobu_allocator **allocator, uint32_t *code)
{
    uint32_t own = 0;
    uint8_t none = 0;
    struct held held = {0};
    if (!allocator || lacks(record, size))
        return MEZULOBU_MISUSED;
    int status = (int)mezulobu_rt_live_platform_record(record ? record : &none, size, &held, code ? code : &own);
    return status == MEZULOBU_DONE ? allocator_of(held, allocator) : status;
}

void mezulobu_allocator_free(struct mezulobu_allocator *allocator)
{
    if (!allocator || allocator->mark != ALLOCATOR)
        return;
    allocator->mark = 0;
    mezulobu_rt_live_free(&allocator->platform);
    pthread_mutex_destroy(&allocator->lock);
    free(allocator);
}

/* most may be null: there is no limit. */
static int allocate(struct mezulobu_allocator *allocator, const uint32_t *most, struct mezulobu_token **token)
{
    if (!allocator || allocator->mark != ALLOCATOR || !token)
        return MEZULOBU_MISUSED;
    struct room *r = room_new();
    if (!r)
        return MEZULOBU_NO_MEMORY;
    pthread_mutex_lock(&allocator->lock);
    int status = most ? (int)mezulobu_rt_live_open_within(&allocator->platform, *most, &r->book)
                      : (int)mezulobu_rt_live_open(&allocator->platform, &r->book);
    pthread_mutex_unlock(&allocator->lock);
    if (status == MEZULOBU_DONE)
        *token = (struct mezulobu_token *)&r->handles[0];
    else
        room_free(r);
    return status;
}

int mezulobu_allocate_shared(struct mezulobu_allocator *allocator, struct mezulobu_token **token)
{
    return allocate(allocator, NULL, token);
}

int mezulobu_allocate_shared_limited(struct mezulobu_allocator *allocator, uint32_t most, struct mezulobu_token **token)
{
    return allocate(allocator, &most, token);
}

static int act(void *handle, enum kind kind, enum action action)
{
    struct visit v;
    if (!room_enter_to_act(&v, handle, kind))
        return MEZULOBU_MISUSED;
    int status = room_step(&v, action, NULL, NULL);
    room_leave(&v);
    return status;
}

/* One that makes a node, of this kind. */
static int make(void *handle, enum kind kind, enum action action, enum kind of, struct handle **made)
{
    struct visit v;
    uint32_t number = 0;
    if (!room_enter_to_act(&v, handle, kind))
        return MEZULOBU_MISUSED;
    int status = room_step(&v, action, NULL, &number);
    if (status == MEZULOBU_DONE)
        *made = room_hand_out(&v, number, of);
    room_leave(&v);
    return status;
}

/* One that spends its handle where it is done. */
static int spend(void *handle, enum kind kind, enum action action)
{
    struct visit v;
    if (!room_enter_to_act(&v, handle, kind))
        return MEZULOBU_MISUSED;
    int status = room_step(&v, action, NULL, NULL);
    if (status == MEZULOBU_DONE)
        room_spend(&v);
    room_leave(&v);
    return status;
}

int mezulobu_token_duplicate(struct mezulobu_token *token, struct mezulobu_token **made)
{
    struct handle *h = NULL;
    int status = made ? make(token, TOKEN, DUPLICATE, TOKEN, &h) : MEZULOBU_MISUSED;
    if (status == MEZULOBU_DONE)
        *made = (struct mezulobu_token *)h;
    return status;
}

int mezulobu_token_create_group(struct mezulobu_token *token, struct mezulobu_group **made)
{
    struct handle *h = NULL;
    int status = made ? make(token, TOKEN, CREATE_GROUP, GROUP, &h) : MEZULOBU_MISUSED;
    if (status == MEZULOBU_DONE)
        *made = (struct mezulobu_group *)h;
    return status;
}

/* The same node, so the same handle, of another kind. */
int mezulobu_token_bind(struct mezulobu_token **token, struct mezulobu_collection **bound)
{
    struct visit v;
    if (!token || !bound || !room_enter_to_act(&v, *token, TOKEN))
        return MEZULOBU_MISUSED;
    int status = room_step(&v, BIND, NULL, NULL);
    if (status == MEZULOBU_DONE) {
        v.handle->kind = COLLECTION;
        *token = NULL;
        *bound = (struct mezulobu_collection *)v.handle;
    }
    room_leave(&v);
    return status;
}

static int spend_token(struct mezulobu_token **token, enum action action)
{
    int status = token ? spend(*token, TOKEN, action) : MEZULOBU_MISUSED;
    if (status == MEZULOBU_DONE)
        *token = NULL;
    return status;
}

int mezulobu_token_release(struct mezulobu_token **token) { return spend_token(token, RELEASE); }
int mezulobu_token_close(struct mezulobu_token **token) { return spend_token(token, CLOSE); }

int mezulobu_group_create_child(struct mezulobu_group *group, struct mezulobu_token **made)
{
    struct handle *h = NULL;
    int status = made ? make(group, GROUP, CREATE_CHILD, TOKEN, &h) : MEZULOBU_MISUSED;
    if (status == MEZULOBU_DONE)
        *made = (struct mezulobu_token *)h;
    return status;
}

int mezulobu_group_all_children_present(struct mezulobu_group *group) { return act(group, GROUP, ALL_CHILDREN_PRESENT); }

static int spend_group(struct mezulobu_group **group, enum action action)
{
    int status = group ? spend(*group, GROUP, action) : MEZULOBU_MISUSED;
    if (status == MEZULOBU_DONE)
        *group = NULL;
    return status;
}

int mezulobu_group_release(struct mezulobu_group **group) { return spend_group(group, RELEASE); }
int mezulobu_group_close(struct mezulobu_group **group) { return spend_group(group, CLOSE); }

/* What is asked was read without the lock. */
static int set(void *handle, struct held *asked)
{
    struct visit v;
    int status = MEZULOBU_MISUSED;
    if (room_enter_to_act(&v, handle, COLLECTION)) {
        status = room_step(&v, SET_NONE, asked, NULL);
        room_leave(&v);
    }
    mezulobu_rt_live_free(asked);
    return status;
}

static bool is_of(void *handle, enum kind kind)
{
    struct visit v;
    bool good = room_enter(&v, handle, kind);
    if (good)
        room_leave(&v);
    return good;
}

int mezulobu_collection_set_constraints(struct mezulobu_collection *collection, const struct mezulobu_participant *asked,
                                        struct mezulobu_refusal *why)
{
    struct mezulobu_refusal own = {.struct_size = sizeof own};
    struct mezulobu_refusal *out = why ? why : &own;
    struct held held = {0};
    if (out->struct_size != sizeof *out || !is_of(collection, COLLECTION))
        return MEZULOBU_MISUSED;
    if (!asked)
        return act(collection, COLLECTION, SET_NONE);
    if (asked->struct_size != sizeof *asked)
        return mezulobu_misused(out, MEZULOBU_KIND_PARTICIPANT, 0, MEZULOBU_NOBODY);
    struct mezulobu_participant participant = *asked;
    size_t entry = mezulobu_mend_participant(&participant);
    if (entry != SOUND)
        return mezulobu_misused(out, MEZULOBU_KIND_PARTICIPANT, 0, entry);
    int status = (int)mezulobu_rt_live_asked(&participant, &held, out);
    return status == MEZULOBU_DONE ? set(collection, &held) : status;
}

int mezulobu_collection_set_constraints_record(struct mezulobu_collection *collection, const void *record, size_t size,
                                               uint32_t *code)
{
    uint32_t own = 0;
    uint8_t none = 0;
    struct held held = {0};
    if (lacks(record, size) || !is_of(collection, COLLECTION))
        return MEZULOBU_MISUSED;
    int status = (int)mezulobu_rt_live_asked_record(record ? record : &none, size, &held, code ? code : &own);
    return status == MEZULOBU_DONE ? set(collection, &held) : status;
}

int mezulobu_collection_attach_token(struct mezulobu_collection *collection, struct mezulobu_token **made)
{
    struct handle *h = NULL;
    int status = made ? make(collection, COLLECTION, ATTACH_TOKEN, TOKEN, &h) : MEZULOBU_MISUSED;
    if (status == MEZULOBU_DONE)
        *made = (struct mezulobu_token *)h;
    return status;
}

static int spend_collection(struct mezulobu_collection **collection, enum action action)
{
    int status = collection ? spend(*collection, COLLECTION, action) : MEZULOBU_MISUSED;
    if (status == MEZULOBU_DONE)
        *collection = NULL;
    return status;
}

int mezulobu_collection_release(struct mezulobu_collection **collection) { return spend_collection(collection, RELEASE); }
int mezulobu_collection_close(struct mezulobu_collection **collection) { return spend_collection(collection, CLOSE); }

