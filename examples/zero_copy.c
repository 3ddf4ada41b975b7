// zero_copy: cameras fill, by dma-buf, the very buffers that a display scans out. Each driver has a
// thread of its own, and a token of one collection: it binds that, says what its device takes, and
// waits for the settings. The display makes the buffers, as dumb ones, so the platform is what it
// takes; the cameras fill them in turn, and each picture is read back and shown. Where nothing is
// decided the collection explains why. Where a driver takes something else than was settled, its
// record was wrong: that is said, and the status is 1.
//
// cc zero_copy.c $(pkg-config --cflags --libs mezulobu mezulobu-devices) -pthread -o zero_copy
// ./zero_copy CAMERA.. DISPLAY WIDTHxHEIGHT [--format FOURCC] [--pitch-divisor BYTES]
//             [--frames N] [--screens N] [--hold SECONDS]
#define _GNU_SOURCE
#include <errno.h>
#include <fcntl.h>
#include <linux/videodev2.h>
#include <mezulobu_devices.h>
#include <poll.h>
#include <pthread.h>
#include <stdarg.h>
#include <stdio.h>
#include <stdlib.h>
#include <string.h>
#include <sys/ioctl.h>
#include <sys/mman.h>
#include <unistd.h>
#include <xf86drm.h>
#include <xf86drmMode.h>

enum {
    MOST_CAMERAS = 3, MOST_SCREENS = 4, MOST_BUFFERS = 128, MOST_ENTRIES = 64, MOST_OMITTED = 256,
    MOST_FAULTS = 16, // pictures with errors in a row, of one camera
    PATIENCE = 10     // seconds that a device may take for a picture or a flip
};

// What the program is started with.
struct asked {
    const char *cameras[MOST_CAMERAS], *display;
    size_t n_cameras;
    struct mezulobu_size size;
    uint32_t format, pitch_divisor; // 0: any
    unsigned frames, screens; // how many pictures of each camera are shown, and on how many screens
    unsigned hold;            // how many seconds the last one stays
};

struct buffer {
    uint32_t handle, framebuffer;
    int file; // the dma-buf
    uint8_t *bytes;
    uint64_t size;
};

// Numbers of buffers that wait for somebody, in their order.
struct line {
    uint32_t at[MOST_BUFFERS];
    size_t first, n;
};

// A driver's part in the collection. It has its token until that is bound.
struct seat {
    struct sharing *with;
    size_t who; // the display comes after the cameras
    struct mezulobu_token *token;
    struct mezulobu_collection *collection;
    struct mezulobu_settings settings;
};

struct screen {
    uint32_t crtc, connector;
    drmModeModeInfo mode;
};

struct display {
    int fd;
    struct mezulobu_entry entries[MOST_ENTRIES];
    struct mezulobu_participant asked;
    struct screen screens[MOST_SCREENS];
    size_t n_screens;
};

// What the threads share: what stands before the lock is of the display's thread, until it says
// that the buffers are made, and isn't changed after that.
struct sharing {
    struct asked asked;
    struct seat seats[MOST_CAMERAS + 1];
    struct display display;
    struct buffer buffers[MOST_BUFFERS];
    pthread_mutex_t lock;
    pthread_cond_t changed;
    bool are_made, is_over, has_failed;
    struct line empty[MOST_CAMERAS], filled;
};

// Says why all end, once.
static bool fail(struct sharing *s, const char *text, ...)
{
    pthread_mutex_lock(&s->lock);
    if (!s->has_failed) {
        va_list words;
        va_start(words, text);
        vfprintf(stderr, text, words);
        va_end(words);
        fputs("\n", stderr);
    }
    s->has_failed = s->is_over = true;
    pthread_cond_broadcast(&s->changed);
    pthread_mutex_unlock(&s->lock);
    return false;
}

static bool fail_by_errno(struct sharing *s, const char *path, const char *what)
{
    return fail(s, "%s: %s: %s", path, what, strerror(errno));
}

static bool is_over(struct sharing *s)
{
    pthread_mutex_lock(&s->lock);
    bool over = s->is_over;
    pthread_mutex_unlock(&s->lock);
    return over;
}

// Waits until the display has made the buffers; false where all end before that.
static bool are_made(struct sharing *s)
{
    pthread_mutex_lock(&s->lock);
    while (!s->are_made && !s->is_over)
        pthread_cond_wait(&s->changed, &s->lock);
    bool is_so = s->are_made && !s->is_over;
    pthread_mutex_unlock(&s->lock);
    return is_so;
}

static void announce(struct sharing *s, bool *what)
{
    pthread_mutex_lock(&s->lock);
    *what = true;
    pthread_cond_broadcast(&s->changed);
    pthread_mutex_unlock(&s->lock);
}

static void put(struct sharing *s, struct line *line, uint32_t buffer)
{
    pthread_mutex_lock(&s->lock);
    line->at[(line->first + line->n++) % MOST_BUFFERS] = buffer;
    pthread_cond_broadcast(&s->changed);
    pthread_mutex_unlock(&s->lock);
}

// The next buffer of a line; false where there is none, or, where it is waited for, where all end.
static bool take(struct sharing *s, struct line *line, bool waits, uint32_t *buffer)
{
    pthread_mutex_lock(&s->lock);
    while (waits && !line->n && !s->is_over)
        pthread_cond_wait(&s->changed, &s->lock);
    bool is_there = line->n && !s->is_over;
    if (is_there) {
        *buffer = line->at[line->first];
        line->first = (line->first + 1) % MOST_BUFFERS;
        line->n--;
    }
    pthread_mutex_unlock(&s->lock);
    return is_there;
}

// ---- The collection -----------------------------------------------------------------------------

static const char *path_of(const struct seat *seat)
{
    const struct asked *asked = &seat->with->asked;
    return seat->who < asked->n_cameras ? asked->cameras[seat->who] : asked->display;
}

static const char *trouble_of(int status, const struct mezulobu_device *told)
{
    if (told->error)
        return strerror(told->error);
    return told->trouble ? mezulobu_trouble_text(told->trouble) : mezulobu_status_name(status);
}

// Says what the device takes; the status. Where another has called all off, that one has said why.
static int state(struct seat *seat, const struct mezulobu_participant *asked)
{
    struct mezulobu_refusal why = {.struct_size = sizeof why};
    int status = mezulobu_collection_set_constraints(seat->collection, asked, &why);
    if (status == MEZULOBU_REFUSED)
        fail(seat->with, "%s: its record states no %s that could be meant", path_of(seat),
             mezulobu_field_name(why.field));
    else if (status != MEZULOBU_DONE && status != MEZULOBU_DOMAIN_FAILED)
        fail(seat->with, "%s: %s", path_of(seat), mezulobu_status_name(status));
    return status;
}

// Leaves the collection. Before the decision that calls the whole negotiation off.
static void leave(struct seat *seat)
{
    if (seat->token)
        mezulobu_token_close(&seat->token);
    if (seat->collection)
        mezulobu_collection_close(&seat->collection);
}

// What was decided, once the collection's descriptor is readable, as for an event loop.
static int awaited(struct seat *seat)
{
    struct pollfd decided = {.fd = mezulobu_collection_fd(seat->collection), .events = POLLIN};
    if (decided.fd < 0)
        return mezulobu_collection_wait(seat->collection, -1, &seat->settings);
    while (poll(&decided, 1, -1) < 0 && errno == EINTR)
        ;
    return mezulobu_collection_check(seat->collection, &seat->settings);
}

// Who is in the way or has left, in words.
static void explain(struct mezulobu_collection *collection)
{
    char *text = NULL;
    size_t size = 0;
    int status = mezulobu_collection_explain(collection, NULL, &size);
    while (status == MEZULOBU_TOO_SMALL) {
        free(text);
        text = malloc(size);
        status = text ? mezulobu_collection_explain(collection, text, &size) : MEZULOBU_NO_MEMORY;
    }
    if (status == MEZULOBU_DONE && text)
        fprintf(stderr, "%.*s", (int)size, text);
    free(text);
}

// ---- A camera -----------------------------------------------------------------------------------

struct camera {
    struct seat *seat;
    const char *path;
    int fd;
    uint32_t type, n_queued, n_faults;
};

static int ask(int fd, unsigned long request, void *argument)
{
    int status;
    do
        status = ioctl(fd, request, argument);
    while (status < 0 && errno == EINTR);
    return status;
}

// In a queue of several planes a buffer has a list of them, here of one.
static void put_plane(const struct camera *c, struct v4l2_buffer *b, struct v4l2_plane *plane)
{
    if (c->type != V4L2_BUF_TYPE_VIDEO_CAPTURE_MPLANE)
        return;
    b->m.planes = plane;
    b->length = 1;
}

// Asks the camera what it takes, states that, and waits for the settings.
static bool join_camera(struct camera *c)
{
    struct sharing *s = c->seat->with;
    struct mezulobu_entry entries[MOST_ENTRIES];
    struct mezulobu_omitted omitted[MOST_OMITTED];
    struct mezulobu_device told = {
        .struct_size = sizeof told, .entries = entries, .n_entries = MOST_ENTRIES,
        .omitted = omitted, .n_omitted = MOST_OMITTED};
    c->fd = open(c->path, O_RDWR | O_CLOEXEC);
    if (c->fd < 0)
        return fail(s, "%s: %s", c->path, strerror(errno));
    c->type = mezulobu_v4l2_type(c->fd, MEZULOBU_QUEUE_CAPTURE);
    int status = mezulobu_v4l2_participant(c->fd, MEZULOBU_QUEUE_CAPTURE, s->asked.size, &told);
    if (status != MEZULOBU_DONE)
        return fail(s, "%s: %s", c->path, trouble_of(status, &told));
    status = mezulobu_token_bind(&c->seat->token, &c->seat->collection);
    if (status == MEZULOBU_DONE)
        status = state(c->seat, &told.participant);
    if (status == MEZULOBU_DONE)
        status = mezulobu_collection_wait(c->seat->collection, -1, &c->seat->settings);
    return status == MEZULOBU_DONE; // else the display says why
}

// Sets the driver to what was settled, and compares what it makes of that.
static bool set_camera(struct camera *c)
{
    struct sharing *s = c->seat->with;
    const struct mezulobu_settings *settings = &c->seat->settings;
    struct v4l2_requestbuffers r = {
        .count = settings->count, .type = c->type, .memory = V4L2_MEMORY_DMABUF};
    struct v4l2_format f;
    if (mezulobu_v4l2_format(c->type, &settings->image, &f) != MEZULOBU_DONE)
        return fail(s, "%s: V4L2 has no code for what was settled", c->path);
    if (ask(c->fd, VIDIOC_S_FMT, &f))
        return fail_by_errno(s, c->path, "VIDIOC_S_FMT");
    const char *other = mezulobu_v4l2_difference(&f, settings);
    if (other)
        return fail(s, "%s: the driver takes another %s than was settled", c->path, other);
    if (ask(c->fd, VIDIOC_REQBUFS, &r))
        return fail_by_errno(s, c->path, "VIDIOC_REQBUFS");
    if (r.count != settings->count)
        return fail(s, "%s: the driver takes %u buffers, and %u were settled", c->path, r.count,
                    settings->count);
    return true;
}

// Gives the driver a buffer to fill.
static bool queue(struct camera *c, uint32_t buffer)
{
    const struct buffer *given = &c->seat->with->buffers[buffer];
    struct v4l2_plane plane = {.m.fd = given->file, .length = (uint32_t)given->size};
    struct v4l2_buffer b = {.index = buffer, .type = c->type, .memory = V4L2_MEMORY_DMABUF,
                            .m.fd = given->file, .length = (uint32_t)given->size};
    put_plane(c, &b, &plane);
    if (ask(c->fd, VIDIOC_QBUF, &b))
        return fail_by_errno(c->seat->with, c->path, "VIDIOC_QBUF");
    c->n_queued++;
    return true;
}

// Waits until the driver has filled a buffer; false where all end.
static bool is_filled(struct camera *c)
{
    struct pollfd file = {.fd = c->fd, .events = POLLIN};
    for (int tenth = 0; tenth < 10 * PATIENCE; tenth++) {
        if (is_over(c->seat->with))
            return false;
        int n = poll(&file, 1, 100);
        if (n > 0)
            return true;
        if (n < 0 && errno != EINTR)
            return fail_by_errno(c->seat->with, c->path, "poll");
    }
    return fail(c->seat->with, "%s: no buffer is filled in %d seconds", c->path, PATIENCE);
}

// Gets a buffer back, and whether the driver says that it is faulty.
static bool dequeue(struct camera *c, uint32_t *buffer, bool *is_faulty)
{
    struct v4l2_plane plane = {0};
    struct v4l2_buffer b = {.type = c->type, .memory = V4L2_MEMORY_DMABUF};
    put_plane(c, &b, &plane);
    if (!is_filled(c))
        return false;
    if (ask(c->fd, VIDIOC_DQBUF, &b))
        return fail_by_errno(c->seat->with, c->path, "VIDIOC_DQBUF");
    if (plane.data_offset)
        return fail(c->seat->with, "%s: the image begins at byte %u, and 0 was settled", c->path,
                    plane.data_offset);
    *buffer = b.index;
    *is_faulty = b.flags & V4L2_BUF_FLAG_ERROR;
    c->n_queued--;
    return true;
}

// A picture goes to the display; one with errors back to the driver, as long as there are few.
static bool pass_on(struct camera *c, uint32_t buffer, bool is_faulty)
{
    c->n_faults = is_faulty ? c->n_faults + 1 : 0;
    if (c->n_faults > MOST_FAULTS)
        return fail(c->seat->with, "%s: all its pictures have errors", c->path);
    if (is_faulty) {
        fprintf(stderr, "%s: a picture with errors is left out\n", c->path);
        return queue(c, buffer);
    }
    put(c->seat->with, &c->seat->with->filled, buffer);
    return true;
}

// Gives the driver what is empty, and waits for a buffer where it has none.
static bool refill(struct camera *c)
{
    uint32_t buffer;
    while (take(c->seat->with, &c->seat->with->empty[c->seat->who], !c->n_queued, &buffer))
        if (!queue(c, buffer))
            return false;
    return c->n_queued;
}

static bool capture(struct camera *c)
{
    uint32_t buffer = 0;
    bool is_faulty = false;
    if (!refill(c))
        return false;
    if (ask(c->fd, VIDIOC_STREAMON, &c->type))
        return fail_by_errno(c->seat->with, c->path, "VIDIOC_STREAMON");
    while (refill(c) && dequeue(c, &buffer, &is_faulty) && pass_on(c, buffer, is_faulty))
        ;
    return !ask(c->fd, VIDIOC_STREAMOFF, &c->type)
        || fail_by_errno(c->seat->with, c->path, "VIDIOC_STREAMOFF");
}

static void *run_camera(void *seat)
{
    struct camera c = {.seat = seat, .path = path_of(seat), .fd = -1};
    if (join_camera(&c) && are_made(c.seat->with) && set_camera(&c))
        capture(&c);
    if (c.fd >= 0)
        close(c.fd); // the driver gives its buffers back by that
    leave(c.seat);
    return NULL;
}

// ---- The display --------------------------------------------------------------------------------

// Asks the display what it takes, of the formats and with the pitch that were asked for.
static bool ask_display(struct sharing *s)
{
    struct display *d = &s->display;
    struct mezulobu_omitted omitted[MOST_OMITTED];
    struct mezulobu_device told = {
        .struct_size = sizeof told, .entries = d->entries, .n_entries = MOST_ENTRIES,
        .omitted = omitted, .n_omitted = MOST_OMITTED};
    d->fd = open(s->asked.display, O_RDWR | O_CLOEXEC);
    if (d->fd < 0)
        return fail(s, "%s: %s", s->asked.display, strerror(errno));
    int status = mezulobu_drm_participant(d->fd, 0, s->asked.size, &told);
    if (status != MEZULOBU_DONE)
        return fail(s, "%s: %s", s->asked.display, trouble_of(status, &told));
    d->asked = told.participant;
    d->asked.n_entries = 0;
    for (size_t i = 0; i < told.n_entries; i++) {
        struct mezulobu_entry entry = d->entries[i];
        if (s->asked.format && entry.format != s->asked.format)
            continue;
        if (s->asked.pitch_divisor) {
            entry.pitch_divisor = s->asked.pitch_divisor;
            entry.max_pitch = 0;
        }
        d->entries[d->asked.n_entries++] = entry;
    }
    return d->asked.n_entries || fail(s, "%s: it doesn't take this format", s->asked.display);
}

// A dumb buffer whose rows are those that were settled, and its framebuffer.
static bool make_framebuffer(struct sharing *s, const struct mezulobu_settings *settings,
                             struct buffer *b)
{
    const struct mezulobu_image *image = &settings->image;
    const struct mezulobu_layout *layout = &image->layout;
    uint32_t pitch = layout->planes[0].pitch, handles[4] = {0}, pitches[4] = {0}, offsets[4] = {0};
    // A row is as many pixels as fit, or, where they don't fit exactly, bytes.
    uint32_t bytes = mezulobu_pixel_bytes(image->format), unit = (pitch % bytes) ? 1 : bytes;
    struct drm_mode_create_dumb made = {
        .width = pitch / unit, .height = (uint32_t)((settings->bytes + pitch - 1) / pitch),
        .bpp = 8 * unit};
    if (drmIoctl(s->display.fd, DRM_IOCTL_MODE_CREATE_DUMB, &made))
        return fail_by_errno(s, s->asked.display, "a dumb buffer");
    b->handle = made.handle;
    b->size = made.size;
    if (made.pitch != pitch || made.size < settings->bytes)
        return fail(s, "%s: the driver makes a buffer of %llu bytes with pitch %u, and %llu with %u"
                    " were settled", s->asked.display, (unsigned long long)made.size, made.pitch,
                    (unsigned long long)settings->bytes, pitch);
    for (uint32_t i = 0; i < layout->n_planes; i++) {
        handles[i] = made.handle;
        pitches[i] = layout->planes[i].pitch;
        offsets[i] = (uint32_t)layout->planes[i].offset;
    }
    return !drmModeAddFB2(s->display.fd, image->width, image->height, image->format, handles,
                          pitches, offsets, &b->framebuffer, 0)
        || fail_by_errno(s, s->asked.display, "a framebuffer");
}

// The buffer's dma-buf, and where it is read.
static bool export_buffer(struct sharing *s, struct buffer *b)
{
    struct drm_mode_map_dumb map = {.handle = b->handle};
    int fd = s->display.fd;
    if (drmPrimeHandleToFD(fd, b->handle, DRM_CLOEXEC | DRM_RDWR, &b->file)) {
        b->file = -1;
        return fail_by_errno(s, s->asked.display, "a dma-buf");
    }
    if (drmIoctl(fd, DRM_IOCTL_MODE_MAP_DUMB, &map))
        return fail_by_errno(s, s->asked.display, "a dumb buffer's place");
    void *at = mmap(NULL, b->size, PROT_READ, MAP_SHARED, fd, (off_t)map.offset);
    b->bytes = at == MAP_FAILED ? NULL : at;
    return b->bytes || fail_by_errno(s, s->asked.display, "mmap");
}

static bool make_buffers(struct sharing *s, const struct mezulobu_settings *settings)
{
    for (uint32_t i = 0; i < settings->count; i++) {
        s->buffers[i].file = -1;
        if (!make_framebuffer(s, settings, &s->buffers[i]) || !export_buffer(s, &s->buffers[i]))
            return false;
        put(s, &s->empty[i % s->asked.n_cameras], i);
    }
    announce(s, &s->are_made);
    return true;
}

// After all threads have ended, so that no camera fills a buffer any more.
static void drop_buffers(struct sharing *s)
{
    for (uint32_t i = 0; i < MOST_BUFFERS; i++) {
        struct buffer *b = &s->buffers[i];
        struct drm_mode_destroy_dumb gone = {.handle = b->handle};
        if (!b->handle)
            continue;
        if (b->bytes)
            munmap(b->bytes, b->size);
        if (b->file >= 0)
            close(b->file);
        if (b->framebuffer)
            drmModeRmFB(s->display.fd, b->framebuffer);
        drmIoctl(s->display.fd, DRM_IOCTL_MODE_DESTROY_DUMB, &gone);
    }
}

static bool is_shown_on(const struct display *d, uint32_t crtc)
{
    for (size_t i = 0; i < d->n_screens; i++)
        if (d->screens[i].crtc == crtc)
            return true;
    return false;
}

// Adds a connector's screen, with its largest mode that the image covers, where a CRTC is left.
static void add_screen(struct display *d, const drmModeRes *has, const drmModeConnector *c,
                       const struct mezulobu_image *image)
{
    struct screen screen = {.connector = c->connector_id};
    uint32_t crtcs = drmModeConnectorGetPossibleCrtcs(d->fd, c), most = 0;
    for (int i = 0; i < c->count_modes; i++) {
        const drmModeModeInfo *m = &c->modes[i];
        uint32_t pixels = (uint32_t)m->hdisplay * m->vdisplay;
        if (pixels <= most || m->hdisplay > image->width || m->vdisplay > image->height)
            continue;
        screen.mode = *m;
        most = pixels;
    }
    for (int i = 0; i < has->count_crtcs && !screen.crtc; i++)
        if (crtcs & 1U << i && !is_shown_on(d, has->crtcs[i]))
            screen.crtc = has->crtcs[i];
    if (screen.crtc && most)
        d->screens[d->n_screens++] = screen;
}

// The first screens that are connected and can show such images, as many as were asked for.
static bool find_screens(struct sharing *s, const struct mezulobu_image *image)
{
    struct display *d = &s->display;
    drmModeRes *has = drmModeGetResources(d->fd);
    for (int i = 0; has && i < has->count_connectors && d->n_screens < s->asked.screens; i++) {
        drmModeConnector *c = drmModeGetConnector(d->fd, has->connectors[i]);
        if (c && c->connection == DRM_MODE_CONNECTED)
            add_screen(d, has, c, image);
        drmModeFreeConnector(c);
    }
    drmModeFreeResources(has);
    return d->n_screens == s->asked.screens
        || fail(s, "%s: of %u screens %zu show images of this size", s->asked.display,
                s->asked.screens, d->n_screens);
}

static void flipped(int fd, unsigned sequence, unsigned seconds, unsigned microseconds, void *left)
{
    (void)fd, (void)sequence, (void)seconds, (void)microseconds;
    --*(size_t *)left;
}

// Waits until as many screens as are left have flipped.
static bool all_flipped(struct sharing *s, size_t *left)
{
    drmEventContext events = {.version = 2, .page_flip_handler = flipped};
    struct pollfd file = {.fd = s->display.fd, .events = POLLIN};
    while (*left) {
        int n = poll(&file, 1, 1000 * PATIENCE);
        if (n < 0 && errno == EINTR)
            continue;
        if (n != 1 || drmHandleEvent(s->display.fd, &events))
            return fail(s, "%s: it doesn't flip", s->asked.display);
    }
    return true;
}

// Shows a buffer on each screen: the first by a mode, the others by a flip, which is waited for.
static bool show(struct sharing *s, const struct buffer *b, bool is_first)
{
    const struct display *d = &s->display;
    size_t left = 0;
    for (size_t i = 0; i < d->n_screens; i++) {
        struct screen screen = d->screens[i];
        if (is_first) {
            if (drmModeSetCrtc(d->fd, screen.crtc, b->framebuffer, 0, 0, &screen.connector, 1,
                               &screen.mode))
                return fail_by_errno(s, s->asked.display, "drmModeSetCrtc");
            continue;
        }
        if (drmModePageFlip(d->fd, screen.crtc, b->framebuffer, DRM_MODE_PAGE_FLIP_EVENT, &left)) {
            fail_by_errno(s, s->asked.display, "drmModePageFlip");
            break;
        }
        left++;
    }
    return all_flipped(s, &left) && !is_over(s);
}

// A number for some bytes, by which two pictures are compared (FNV-1a).
static uint32_t number_of(const uint8_t *bytes, uint64_t n)
{
    uint32_t number = 2166136261u;
    for (uint64_t i = 0; i < n; i++)
        number = (number ^ bytes[i]) * 16777619u;
    return number;
}

static void tell(const struct mezulobu_layout *layout, const struct buffer *b, size_t camera,
                 uint32_t frame, uint32_t buffer)
{
    printf("frame %u of camera %zu in buffer %u: first row %08x, image %08x\n", frame, camera,
           buffer, number_of(b->bytes, layout->planes[0].pitch),
           number_of(b->bytes, layout->bytes));
}

// Shows the pictures that come. What was on the screen goes back to a camera, to each in turn.
static bool show_frames(struct sharing *s, const struct mezulobu_settings *settings)
{
    const struct asked *asked = &s->asked;
    size_t camera_of[MOST_BUFFERS];
    uint32_t buffer, shown = MOST_BUFFERS, frames = (uint32_t)(asked->frames * asked->n_cameras);
    for (uint32_t i = 0; i < settings->count; i++)
        camera_of[i] = i % asked->n_cameras;
    for (uint32_t frame = 0; frame < frames; frame++) {
        if (!take(s, &s->filled, true, &buffer))
            return false;
        tell(&settings->image.layout, &s->buffers[buffer], camera_of[buffer], frame, buffer);
        if (!show(s, &s->buffers[buffer], !frame))
            return false;
        if (frame) {
            camera_of[shown] = frame % asked->n_cameras;
            put(s, &s->empty[camera_of[shown]], shown);
        }
        shown = buffer;
    }
    sleep(asked->hold);
    printf("%u buffers shared without a copy, %u frames shown", settings->count, frames);
    for (size_t i = 0; i < s->display.n_screens; i++)
        printf("%s in %ux%u", i ? " and" : "", s->display.screens[i].mode.hdisplay,
               s->display.screens[i].mode.vdisplay);
    printf("\n");
    return true;
}

// States what the display takes; tells what was settled, or why nothing was.
static bool join_display(struct seat *seat)
{
    const struct mezulobu_settings *told = &seat->settings;
    const struct mezulobu_image *image = &told->image;
    int status = state(seat, &seat->with->display.asked);
    if (status == MEZULOBU_DONE)
        status = awaited(seat);
    if (status != MEZULOBU_DONE) {
        fail(seat->with, "nothing is settled: %s", mezulobu_status_name(status));
        explain(seat->collection);
        return false;
    }
    printf("settled: %u buffers of %llu bytes, %s %s %ux%u, pitch %u\n", told->count,
           (unsigned long long)told->bytes, mezulobu_pixel_format_name(image->format),
           mezulobu_color_name(image->color), image->width, image->height,
           image->layout.planes[0].pitch);
    return true;
}

static void *run_display(void *at)
{
    struct seat *seat = at;
    struct sharing *s = seat->with;
    const struct mezulobu_settings *settings = &seat->settings;
    if (join_display(seat) && find_screens(s, &settings->image) && make_buffers(s, settings))
        show_frames(s, settings);
    announce(s, &s->is_over);
    leave(seat);
    return NULL;
}

// ---- The app ------------------------------------------------------------------------------------

// The allocator of a platform with one heap, and the images that the display takes.
static bool make_allocator(struct sharing *s, struct mezulobu_allocator **made)
{
    struct mezulobu_pair pairs[MOST_ENTRIES];
    uint32_t colors[8];
    size_t n_pairs = MOST_ENTRIES, n_colors = 8;
    const struct mezulobu_heap heap = {.cpu = true, .ram = true};
    int status =
        mezulobu_devices_platform(&s->display.asked, 1, pairs, &n_pairs, colors, &n_colors);
    struct mezulobu_platform platform = {
        sizeof platform, &heap, 1, pairs, n_pairs, colors, n_colors};
    if (status == MEZULOBU_DONE)
        status = mezulobu_allocator_new(&platform, made, NULL);
    return status == MEZULOBU_DONE || fail(s, "no allocator: %s", mezulobu_status_name(status));
}

// A token for each driver, with a name for explanations. The display's is bound before any thread
// is there, so that it can explain whatever becomes of the collection.
static bool hand_out(struct sharing *s, struct mezulobu_allocator *allocator)
{
    struct mezulobu_token *root = NULL;
    struct seat *display = &s->seats[s->asked.n_cameras];
    int status = mezulobu_allocate_shared(allocator, &root);
    for (size_t i = 0; i <= s->asked.n_cameras && status == MEZULOBU_DONE; i++) {
        char name[33] = "display";
        struct seat *seat = &s->seats[i];
        *seat = (struct seat){.with = s, .who = i, .settings.struct_size = sizeof seat->settings};
        if (i < s->asked.n_cameras)
            snprintf(name, sizeof name, "camera%zu", i);
        status = mezulobu_token_duplicate(root, &seat->token);
        if (status == MEZULOBU_DONE)
            status = mezulobu_token_set_name(seat->token, name);
    }
    if (status == MEZULOBU_DONE)
        status = mezulobu_token_bind(&display->token, &display->collection);
    if (root)
        mezulobu_token_release(&root); // nobody else comes
    return status == MEZULOBU_DONE || fail(s, "no tokens: %s", mezulobu_status_name(status));
}

// A thread for each driver; where one isn't begun the negotiation is off.
static void run_drivers(struct sharing *s)
{
    pthread_t threads[MOST_CAMERAS + 1];
    size_t n = s->asked.n_cameras + 1, begun = 0;
    int error = 0;
    while (begun < n && !error) {
        struct seat *seat = &s->seats[begun];
        void *(*driver)(void *) = begun + 1 < n ? run_camera : run_display;
        error = pthread_create(&threads[begun], NULL, driver, seat);
        begun += !error;
    }
    if (error)
        fail(s, "no thread: %s", strerror(error));
    for (size_t i = begun; i < n; i++)
        leave(&s->seats[i]);
    while (begun)
        pthread_join(threads[--begun], NULL);
}

static int run(struct sharing *s)
{
    struct mezulobu_allocator *allocator = NULL;
    if (ask_display(s) && make_allocator(s, &allocator)) {
        if (hand_out(s, allocator))
            run_drivers(s);
        for (size_t i = 0; i <= s->asked.n_cameras; i++)
            leave(&s->seats[i]);
    }
    drop_buffers(s);
    if (s->display.fd >= 0)
        close(s->display.fd);
    mezulobu_allocator_free(allocator);
    return s->has_failed;
}

static bool read_option(struct asked *asked, const char *name, const char *value)
{
    unsigned number = (unsigned)strtoul(value, NULL, 10);
    if (!strcmp(name, "--format") && strlen(value) == 4)
        memcpy(&asked->format, value, 4);
    else if (!strcmp(name, "--pitch-divisor"))
        asked->pitch_divisor = number;
    else if (!strcmp(name, "--frames"))
        asked->frames = number;
    else if (!strcmp(name, "--screens") && number && number <= MOST_SCREENS)
        asked->screens = number;
    else if (!strcmp(name, "--hold"))
        asked->hold = number;
    else
        return false;
    return true;
}

static bool read_asked(struct asked *asked, int n, char **words)
{
    int size = 3;
    struct mezulobu_size *wanted = &asked->size;
    while (size < n && sscanf(words[size], "%ux%u", &wanted->width, &wanted->height) != 2)
        size++;
    if (size >= n || size - 2 > MOST_CAMERAS || (n - size - 1) % 2)
        return false;
    for (int i = 1; i < size - 1; i++)
        asked->cameras[asked->n_cameras++] = words[i];
    asked->display = words[size - 1];
    for (int i = size + 1; i < n; i += 2)
        if (!read_option(asked, words[i], words[i + 1]))
            return false;
    return true;
}

int main(int n, char **words)
{
    static struct sharing s = {
        .lock = PTHREAD_MUTEX_INITIALIZER, .changed = PTHREAD_COND_INITIALIZER, .display.fd = -1,
        .asked = {.frames = 8, .screens = 1}};
    if (!read_asked(&s.asked, n, words)) {
        fputs("usage: zero_copy CAMERA.. DISPLAY WIDTHxHEIGHT [--format FOURCC]\n"
              "    [--pitch-divisor BYTES] [--frames N] [--screens N] [--hold SECONDS]\n", stderr);
        return 2;
    }
    return run(&s);
}
