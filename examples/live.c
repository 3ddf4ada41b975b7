// live: a compositor whose event loop lets others share its buffers. A camera and an encoder take
// part on threads of their own, and a recorder comes late, once there are buffers already. Then an
// encoder that takes smaller images than the camera makes is in the way: the collection says who,
// explains it, and its script is run again, as it may be at anybody's desk.
//
// cc live.c $(pkg-config --cflags --libs mezulobu) -pthread -o live && ./live
#define _GNU_SOURCE
#include <mezulobu.h>
#include <pthread.h>
#include <stdio.h>
#include <stdlib.h>
#include <string.h>
#include <sys/epoll.h>
#include <unistd.h>

#define NV12 0x3231564eu /* DRM_FORMAT_NV12 */

// What a participant on a thread is given, and what it is told.
struct client {
    const char *name;
    struct mezulobu_token *token;
    struct mezulobu_participant asked;
    struct mezulobu_entry images;
    int status;
    struct mezulobu_settings settings;
};

static void must(int status, const char *what)
{
    if (status == MEZULOBU_DONE)
        return;
    fprintf(stderr, "live: %s: %s\n", what, mezulobu_status_name(status));
    exit(1);
}

static struct mezulobu_entry nv12(uint32_t width, uint32_t height)
{
    return (struct mezulobu_entry){.struct_size = sizeof(struct mezulobu_entry), .format = NV12,
                                   .colors = MEZULOBU_REC709, .min_size = {width, height}};
}

static struct mezulobu_participant asking(uint8_t usage, uint32_t camping,
                                          const struct mezulobu_entry *images)
{
    return (struct mezulobu_participant){.struct_size = sizeof(struct mezulobu_participant),
                                         .usage = usage, .ram = true, .camping = camping,
                                         .entries = images, .n_entries = 1};
}

// A participant on a thread of its own: binds its token, says what it asks for, and waits.
static void *take_part(void *client)
{
    struct client *me = client;
    struct mezulobu_collection *mine = NULL;
    me->settings.struct_size = sizeof me->settings;
    must(mezulobu_token_bind(&me->token, &mine), me->name);
    must(mezulobu_collection_set_constraints(mine, &me->asked, NULL), me->name);
    me->status = mezulobu_collection_wait(mine, -1, &me->settings);
    // Here it would map its buffers and use them, until the stream ends.
    must(mezulobu_collection_release(&mine), me->name);
    return NULL;
}

// The allocator of the machine: plain memory, and contiguous memory for the display.
static struct mezulobu_allocator *allocator(void)
{
    struct mezulobu_heap heaps[] = {{.cpu = true, .ram = true},
                                    {.contiguous = true, .cpu = true, .ram = true}};
    struct mezulobu_pair pairs[] = {{.format = NV12}};
    uint32_t colors[] = {MEZULOBU_REC709};
    struct mezulobu_platform platform = {sizeof platform, heaps, 2, pairs, 1, colors, 1};
    struct mezulobu_allocator *made = NULL;
    must(mezulobu_allocator_new(&platform, &made, NULL), "allocator");
    return made;
}

// The client's token, under its name, and its thread.
static pthread_t begin(struct mezulobu_token *root, struct client *client)
{
    pthread_t thread;
    must(mezulobu_token_duplicate(root, &client->token), client->name);
    must(mezulobu_token_set_name(client->token, client->name), client->name);
    client->asked.entries = &client->images;
    if (pthread_create(&thread, NULL, take_part, client))
        exit(1);
    return thread;
}

// Watches a collection in the event loop.
static void watch(int loop, struct mezulobu_collection *collection)
{
    struct epoll_event event = {.events = EPOLLIN, .data.ptr = collection};
    if (epoll_ctl(loop, EPOLL_CTL_ADD, mezulobu_collection_fd(collection), &event))
        exit(1);
}

// Tells what was decided, and doesn't watch it any more: its descriptor stays readable.
static int told(int loop, struct mezulobu_collection *collection, const char *name)
{
    struct mezulobu_settings s = {.struct_size = sizeof s};
    int status = mezulobu_collection_check(collection, &s);
    epoll_ctl(loop, EPOLL_CTL_DEL, mezulobu_collection_fd(collection), NULL);
    if (status == MEZULOBU_DONE)
        printf("%s: %u buffers of %llu bytes in heap %zu, %ux%u, pitch %u\n", name, s.count,
               (unsigned long long)s.bytes, s.heap, s.image.width, s.image.height,
               s.image.layout.planes[0].pitch);
    else
        printf("%s: %s\n", name, mezulobu_status_name(status));
    return status;
}

// A participant who comes later: attached to the display's collection.
static struct mezulobu_collection *let_in(struct mezulobu_collection *host, const char *name)
{
    struct mezulobu_token *token = NULL;
    struct mezulobu_collection *late = NULL;
    struct mezulobu_participant asked = {.struct_size = sizeof asked, .usage = MEZULOBU_USE_VIDEO,
                                         .ram = true, .camping = 1};
    must(mezulobu_collection_attach_token(host, &token), name);
    must(mezulobu_token_set_name(token, name), name);
    must(mezulobu_token_bind(&token, &late), name);
    must(mezulobu_collection_set_constraints(late, &asked, NULL), name);
    return late;
}

// What happened, as a script, is run again: it is decided in the same way.
static void replay(struct mezulobu_collection *collection)
{
    char script[16384], report[4096];
    size_t size = sizeof script, report_size = sizeof report - 1;
    must(mezulobu_collection_script(collection, script, &size, NULL, NULL), "script");
    must(mezulobu_run(script, size, report, &report_size, NULL, NULL), "replay");
    report[report_size] = 0;
    char *decision = strstr(report, "domain /");
    printf("replayed: %.*s\n", (int)strcspn(decision, "\n"), decision);
}

// Who is in the way: first in a struct, then in words.
static void explain(struct mezulobu_collection *collection)
{
    struct mezulobu_refusal why = {.struct_size = sizeof why};
    char name[33] = "", text[16384];
    size_t length = sizeof name - 1, size = sizeof text;
    if (mezulobu_collection_refusal(collection, &why) == MEZULOBU_DONE) {
        must(mezulobu_collection_name_of(collection, (uint32_t)why.who, name, &length), "name");
        printf("the %s is in the way by %s\n", name, mezulobu_field_name(why.field));
    }
    must(mezulobu_collection_explain(collection, text, &size), "explanation");
    printf("%.*s", (int)size, text);
}

// The event loop: each collection that is watched is told once. After the display a recorder is
// let in.
static void run_loop(int loop, struct mezulobu_collection *display)
{
    struct mezulobu_collection *recorder = NULL;
    struct epoll_event event;
    for (bool goes_on = true; goes_on && epoll_wait(loop, &event, 1, -1) == 1;) {
        if (event.data.ptr == recorder) {
            told(loop, recorder, "recorder");
            goes_on = false;
        } else if (told(loop, display, "display") == MEZULOBU_DONE) {
            recorder = let_in(display, "recorder");
            watch(loop, recorder);
        } else {
            explain(display);
            replay(display);
            goes_on = false;
        }
    }
    if (recorder)
        must(mezulobu_collection_release(&recorder), "recorder");
}

// One collection of buffers, with an encoder of images that are at most so large; 0 by 0: of any.
static void share(struct mezulobu_allocator *on, struct mezulobu_size most)
{
    struct client camera = {.name = "camera", .images = nv12(1920, 1080),
                            .asked = asking(MEZULOBU_USE_VIDEO, 3, NULL)};
    struct client encoder = {.name = "encoder", .images = nv12(0, 0),
                             .asked = asking(MEZULOBU_USE_VIDEO, 2, NULL)};
    struct mezulobu_entry shown = nv12(0, 0);
    // The display leaves room for one who comes later.
    struct mezulobu_participant asked = asking(MEZULOBU_USE_DISPLAY, 2, &shown);
    struct mezulobu_token *root = NULL, *own = NULL;
    struct mezulobu_collection *display = NULL;
    int loop = epoll_create1(EPOLL_CLOEXEC);
    asked.contiguous = true;
    asked.min_count = 8;
    encoder.images.max_size = most;
    encoder.images.size_alignment = (struct mezulobu_size){16, 16};
    must(mezulobu_allocate_shared(on, &root), "root");
    must(mezulobu_token_duplicate(root, &own), "display");
    must(mezulobu_token_set_name(own, "display"), "display");
    must(mezulobu_token_bind(&own, &display), "display");
    watch(loop, display);
    pthread_t threads[] = {begin(root, &camera), begin(root, &encoder)};
    must(mezulobu_token_release(&root), "root");
    must(mezulobu_collection_set_constraints(display, &asked, NULL), "display");
    run_loop(loop, display);
    for (int i = 0; i < 2; i++)
        pthread_join(threads[i], NULL);
    printf("camera: %s, encoder: %s\n", mezulobu_status_name(camera.status),
           mezulobu_status_name(encoder.status));
    must(mezulobu_collection_release(&display), "display");
    close(loop);
}

int main(void)
{
    struct mezulobu_allocator *on = allocator();
    share(on, (struct mezulobu_size){0, 0});
    share(on, (struct mezulobu_size){1280, 720});
    mezulobu_allocator_free(on);
    return 0;
}
