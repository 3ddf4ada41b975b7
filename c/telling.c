/* Live collections: the calls that are told something, which are answered while a decision is made, and texts, which wait for it. */
#include "room.h"
#include <stdlib.h>
#include <string.h>
#include <time.h>

uint32_t mezulobu_rt_live_copy(struct held *, struct held *);
uint32_t mezulobu_rt_live_set_name(struct held *, uint32_t, const uint8_t *, size_t);
uint32_t mezulobu_rt_live_name(struct held *, uint32_t, uint8_t *, size_t, size_t *);
uint32_t mezulobu_rt_live_selection(struct held *, uint32_t, uint8_t *, size_t, size_t *);
uint32_t mezulobu_rt_live_refusal(struct held *, uint32_t, struct mezulobu_refusal *);
uint32_t mezulobu_rt_live_script(struct held *, uint8_t *, size_t, size_t *);
uint32_t mezulobu_rt_live_certificate(struct held *, uint8_t *, size_t, size_t *);

int mezulobu_collection_check(struct mezulobu_collection *collection, struct mezulobu_settings *settings)
{
    struct mezulobu_settings own = {.struct_size = sizeof own};
    struct visit v;
    if ((settings && settings->struct_size != sizeof *settings) || !room_enter(&v, collection, COLLECTION))
        return MEZULOBU_MISUSED;
    int status = room_told(&v, settings ? settings : &own);
    room_leave(&v);
    return status;
}

/* Waits until the collection is told, or the time is over, if there is one; not at all where it is late already. */
static int wait_until(struct visit *v, const struct timespec *until, bool is_late, struct mezulobu_settings *settings)
{
    for (;;) {
        if (v->handle->kind != COLLECTION)
            return MEZULOBU_MISUSED;
        int status = room_told(v, settings);
        if (status != MEZULOBU_PENDING)
            return status;
        if (is_late)
            return MEZULOBU_NO;
        is_late = room_await_change(v, until);
    }
}

static struct timespec after(int milliseconds)
{
    struct timespec until;
    clock_gettime(CLOCK_MONOTONIC, &until);
    until.tv_sec += milliseconds / 1000;
    until.tv_nsec += (long)(milliseconds % 1000) * 1000000;
    if (until.tv_nsec >= 1000000000) {
        until.tv_nsec -= 1000000000;
        until.tv_sec++;
    }
    return until;
}

int mezulobu_collection_wait(struct mezulobu_collection *collection, int milliseconds, struct mezulobu_settings *settings)
{
    struct mezulobu_settings own = {.struct_size = sizeof own};
    struct timespec until = after(milliseconds < 0 ? 0 : milliseconds);
    struct visit v;
    if ((settings && settings->struct_size != sizeof *settings) || !room_enter(&v, collection, COLLECTION))
        return MEZULOBU_MISUSED;
    int status = wait_until(&v, milliseconds < 0 ? NULL : &until, milliseconds == 0, settings ? settings : &own);
    room_leave(&v);
    return status;
}

int mezulobu_collection_fd(struct mezulobu_collection *collection)
{
    struct visit v;
    if (!room_enter(&v, collection, COLLECTION))
        return -1;
    int fd = room_fd(&v);
    room_leave(&v);
    return fd;
}

static int set_name(void *handle, enum kind kind, const char *name)
{
    struct visit v;
    if (!name || !room_enter(&v, handle, kind))
        return MEZULOBU_MISUSED;
    int status = (int)mezulobu_rt_live_set_name(&v.room->book, node_of(&v), (const uint8_t *)name, strlen(name));
    room_leave(&v);
    return status;
}

int mezulobu_token_set_name(struct mezulobu_token *token, const char *name) { return set_name(token, TOKEN, name); }
int mezulobu_group_set_name(struct mezulobu_group *group, const char *name) { return set_name(group, GROUP, name); }
int mezulobu_collection_set_name(struct mezulobu_collection *collection, const char *name)
{
    return set_name(collection, COLLECTION, name);
}

/* The name of a node of the room, by its number. */
static int tell_name(const struct visit *v, uint32_t node, char *name, size_t *name_size)
{
    uint8_t none = 0;
    return (int)mezulobu_rt_live_name(&v->room->book, node, name ? (uint8_t *)name : &none, *name_size, name_size);
}

static int own_name(void *handle, enum kind kind, char *name, size_t *name_size)
{
    struct visit v;
    if (!name_size || lacks(name, *name_size) || !room_enter(&v, handle, kind))
        return MEZULOBU_MISUSED;
    int status = tell_name(&v, node_of(&v), name, name_size);
    room_leave(&v);
    return status;
}

int mezulobu_token_name(struct mezulobu_token *token, char *name, size_t *name_size) { return own_name(token, TOKEN, name, name_size); }
int mezulobu_group_name(struct mezulobu_group *group, char *name, size_t *name_size) { return own_name(group, GROUP, name, name_size); }
int mezulobu_collection_name(struct mezulobu_collection *collection, char *name, size_t *name_size)
{
    return own_name(collection, COLLECTION, name, name_size);
}

int mezulobu_collection_node(struct mezulobu_collection *collection, uint32_t *node)
{
    struct visit v;
    if (!node || !room_enter(&v, collection, COLLECTION))
        return MEZULOBU_MISUSED;
    *node = node_of(&v);
    room_leave(&v);
    return MEZULOBU_DONE;
}

int mezulobu_collection_name_of(struct mezulobu_collection *collection, uint32_t node, char *name, size_t *name_size)
{
    struct visit v;
    if (!name_size || lacks(name, *name_size) || !room_enter(&v, collection, COLLECTION))
        return MEZULOBU_MISUSED;
    int status = tell_name(&v, node, name, name_size);
    room_leave(&v);
    return status;
}

int mezulobu_collection_selection(struct mezulobu_collection *collection, uint8_t *choices, size_t *n)
{
    struct visit v;
    uint8_t none = 0;
    if (!n || lacks(choices, *n) || !room_enter(&v, collection, COLLECTION))
        return MEZULOBU_MISUSED;
    int status = (int)mezulobu_rt_live_selection(&v.room->book, node_of(&v), choices ? choices : &none, *n, n);
    room_leave(&v);
    return status;
}

/* ---- What is written from a copy, without the lock ---- */

/* A copy as of a moment at which no domain waits: in a script a decision stands right behind the call that brings it. */
static int copy_of(void *collection, struct held *copy, uint32_t *node)
{
    struct visit v;
    if (!room_enter_to_copy(&v, collection, COLLECTION))
        return MEZULOBU_MISUSED;
    int status = (int)mezulobu_rt_live_copy(&v.room->book, copy);
    *node = node_of(&v);
    room_leave(&v);
    return status;
}

int mezulobu_collection_refusal(struct mezulobu_collection *collection, struct mezulobu_refusal *why)
{
    struct held copy = {0};
    uint32_t node = 0;
    if (!why || why->struct_size != sizeof *why)
        return MEZULOBU_MISUSED;
    int status = copy_of(collection, &copy, &node);
    if (status == MEZULOBU_DONE)
        status = (int)mezulobu_rt_live_refusal(&copy, node, why);
    mezulobu_rt_live_free(&copy);
    return status;
}

/* Both texts of one copy: no buffer is written to unless both have room. The script is written once: it takes longer, being read again. */
static int write_both(struct held *copy, uint8_t *text, size_t *text_size, uint8_t *certificate, size_t *certificate_size)
{
    uint8_t none = 0;
    size_t room = *certificate_size;
    uint32_t status = mezulobu_rt_live_certificate(copy, &none, 0, certificate_size);
    bool fits = *certificate_size <= room;
    if (status != MEZULOBU_TOO_SMALL)
        return (int)status;
    status = mezulobu_rt_live_script(copy, fits ? text : &none, fits ? *text_size : 0, text_size);
    return (int)(status == MEZULOBU_DONE ? mezulobu_rt_live_certificate(copy, certificate, room, certificate_size) : status);
}

/* Whether there is no text by this status. */
static bool is_without(int status) { return status == MEZULOBU_NO_MEMORY || status == MEZULOBU_REFUSED; }

static int write_script(struct held *copy, char *text, size_t *text_size, void *certificate, size_t *certificate_size)
{
    uint8_t none[2] = {0};
    uint8_t *out = text ? (uint8_t *)text : &none[0];
    uint8_t *proof = certificate ? certificate : &none[1];
    if (!certificate_size)
        return (int)mezulobu_rt_live_script(copy, out, *text_size, text_size);
    return write_both(copy, out, text_size, proof, certificate_size);
}

int mezulobu_collection_script(struct mezulobu_collection *collection, char *text, size_t *text_size,
                               void *certificate, size_t *certificate_size)
{
    struct held copy = {0};
    uint32_t node = 0;
    if (!text_size || lacks_room(text, text_size) || lacks_room(certificate, certificate_size))
        return MEZULOBU_MISUSED;
    int status = copy_of(collection, &copy, &node);
    if (status == MEZULOBU_DONE)
        status = write_script(&copy, text, text_size, certificate, certificate_size);
    mezulobu_rt_live_free(&copy);
    if (is_without(status)) {
        *text_size = 0;
        if (certificate_size)
            *certificate_size = 0;
    }
    return status;
}

/* The script in memory of its own, which is freed by the caller: in room for most scripts, and else in as much as it needs. */
static int script_of(struct held *copy, char **script, size_t *size)
{
    *size = 16384;
    *script = malloc(*size);
    if (!*script)
        return MEZULOBU_NO_MEMORY;
    int status = write_script(copy, *script, size, NULL, NULL);
    if (status != MEZULOBU_TOO_SMALL)
        return status;
    free(*script);
    *script = malloc(*size);
    return *script ? write_script(copy, *script, size, NULL, NULL) : MEZULOBU_NO_MEMORY;
}

typedef int explaining(const void *, size_t, const char *, bool, char *, size_t *);

static int explain(struct mezulobu_collection *collection, explaining *by, char *text, size_t *text_size)
{
    struct held copy = {0};
    uint32_t node = 0;
    char *script = NULL;
    size_t size = 0;
    if (!text_size || lacks(text, *text_size))
        return MEZULOBU_MISUSED;
    int status = copy_of(collection, &copy, &node);
    if (status == MEZULOBU_DONE)
        status = script_of(&copy, &script, &size);
    mezulobu_rt_live_free(&copy);
    if (status == MEZULOBU_DONE)
        status = by(script, size, "collection", false, text, text_size);
    else if (is_without(status))
        *text_size = 0;
    free(script);
    return status;
}

int mezulobu_collection_explain(struct mezulobu_collection *collection, char *text, size_t *text_size)
{
    return explain(collection, mezulobu_explain, text, text_size);
}

int mezulobu_collection_explain_json(struct mezulobu_collection *collection, char *text, size_t *text_size)
{
    return explain(collection, mezulobu_explain_json, text, text_size);
}
