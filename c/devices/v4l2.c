/* What a queue of a V4L2 device takes. Formats are tried alone (VIDIOC_TRY_FMT), and never set. */
#include "asking.h"
#include "formats.h"
#include <errno.h>
#include <linux/videodev2.h>
#include <string.h>

/* More than any driver has: asked for so much, it tells the most that it takes. */
#define MANY_BUFFERS 128
#define LONG_PITCH (1U << 30)
/* The greatest alignment and divisor that an entry can state. */
#define MOST_STEP 65536

#define CONVERTS_COLORS                                                                          \
    (V4L2_FMT_FLAG_CSC_COLORSPACE | V4L2_FMT_FLAG_CSC_XFER_FUNC | V4L2_FMT_FLAG_CSC_YCBCR_ENC    \
     | V4L2_FMT_FLAG_CSC_QUANTIZATION)

struct queue {
    int fd;
    uint32_t type;
};

/* A format of either kind of queue, of images in one buffer. */
struct image {
    uint32_t code, field, planes, pitch, bytes;
    struct mezulobu_size size;
    struct colorimetry colors;
};

static bool is_mplane(uint32_t type)
{
    return type == V4L2_BUF_TYPE_VIDEO_CAPTURE_MPLANE || type == V4L2_BUF_TYPE_VIDEO_OUTPUT_MPLANE;
}

static bool is_output(uint32_t type)
{
    return type == V4L2_BUF_TYPE_VIDEO_OUTPUT || type == V4L2_BUF_TYPE_VIDEO_OUTPUT_MPLANE;
}

/* Where colours are named, the flag asks a driver of a capture queue to make them. */
static struct v4l2_format as_format(uint32_t type, const struct image *image)
{
    uint32_t flags = is_output(type) || !image->colors.space ? 0 : V4L2_PIX_FMT_FLAG_SET_CSC;
    struct v4l2_format f = {.type = type};
    if (is_mplane(type))
        f.fmt.pix_mp = (struct v4l2_pix_format_mplane){
            .width = image->size.width, .height = image->size.height, .pixelformat = image->code,
            .field = image->field, .num_planes = 1, .flags = (uint8_t)flags,
            .plane_fmt = {{.bytesperline = image->pitch, .sizeimage = image->bytes}},
            .colorspace = image->colors.space, .ycbcr_enc = (uint8_t)image->colors.encoding,
            .quantization = (uint8_t)image->colors.range,
            .xfer_func = (uint8_t)image->colors.transfer};
    else
        f.fmt.pix = (struct v4l2_pix_format){
            .width = image->size.width, .height = image->size.height, .pixelformat = image->code,
            .field = image->field, .priv = V4L2_PIX_FMT_PRIV_MAGIC, .flags = flags,
            .bytesperline = image->pitch, .sizeimage = image->bytes,
            .colorspace = image->colors.space, .ycbcr_enc = image->colors.encoding,
            .quantization = image->colors.range, .xfer_func = image->colors.transfer};
    return f;
}

static struct image as_image(const struct v4l2_format *f)
{
    const struct v4l2_pix_format_mplane *m = &f->fmt.pix_mp;
    const struct v4l2_pix_format *p = &f->fmt.pix;
    if (is_mplane(f->type))
        return (struct image){
            m->pixelformat, m->field, m->num_planes, m->plane_fmt[0].bytesperline,
            m->plane_fmt[0].sizeimage, {m->width, m->height},
            {m->colorspace, m->ycbcr_enc, m->quantization, m->xfer_func}};
    return (struct image){
        p->pixelformat, p->field, 1, p->bytesperline, p->sizeimage, {p->width, p->height},
        {p->colorspace, p->ycbcr_enc, p->quantization, p->xfer_func}};
}

/* What the driver makes of a format: 0, or -1 and errno. */
static int try_format(const struct queue *queue, const struct image *wish, struct image *made)
{
    struct v4l2_format f = as_format(queue->type, wish);
    int status = ask(queue->fd, VIDIOC_TRY_FMT, &f);
    *made = as_image(&f);
    return status;
}

static bool is_same_size(struct mezulobu_size a, struct mezulobu_size b)
{
    return a.width == b.width && a.height == b.height;
}

/* ---- Sizes ---------------------------------------------------------------------------------- */

static uint32_t up_to(uint32_t step, uint32_t n) { return (n + (step - 1)) / step * step; }

static uint32_t greater(uint32_t a, uint32_t b) { return a > b ? a : b; }

/* Whether the sides from least to most, by steps, are the multiples of the step from one on. */
static bool are_multiples(uint32_t least, uint32_t most, uint32_t step, uint32_t asked)
{
    return step <= MOST_STEP && least % step == 0 && asked <= most - most % step;
}

/* The bounds on sizes of a driver that has them by steps; else, or where they are no multiples, the
 * one size that is asked for. */
static void put_sizes(const struct queue *queue, uint32_t code, struct mezulobu_size asked,
                      struct mezulobu_entry *entry)
{
    struct v4l2_frmsizeenum e = {.pixel_format = code};
    entry->min_size = entry->max_size = asked;
    entry->size_alignment = (struct mezulobu_size){1, 1};
    if (ask(queue->fd, VIDIOC_ENUM_FRAMESIZES, &e) || e.type == V4L2_FRMSIZE_TYPE_DISCRETE)
        return;
    struct v4l2_frmsize_stepwise *s = &e.stepwise;
    uint32_t step_x = s->step_width ? s->step_width : 1;
    uint32_t step_y = s->step_height ? s->step_height : 1;
    if (!are_multiples(s->min_width, s->max_width, step_x, asked.width)
        || !are_multiples(s->min_height, s->max_height, step_y, asked.height))
        return;
    entry->min_size.width = up_to(step_x, greater(asked.width, s->min_width));
    entry->min_size.height = up_to(step_y, greater(asked.height, s->min_height));
    entry->max_size = (struct mezulobu_size){s->max_width, s->max_height};
    entry->size_alignment = (struct mezulobu_size){step_x, step_y};
}

static void pin_width(struct mezulobu_entry *entry)
{
    entry->max_size.width = entry->min_size.width;
    entry->size_alignment.width = 1;
}

static void pin_height(struct mezulobu_entry *entry)
{
    entry->max_size.height = entry->min_size.height;
    entry->size_alignment.height = 1;
}

/* ---- Pitches -------------------------------------------------------------------------------- */

/* What the driver makes of an image with another pitch; a pitch of 0 where it doesn't take it, or
 * wants more bytes than the image has. */
static struct image with_pitch(const struct queue *queue, const struct format *format,
                               const struct image *image, uint32_t pitch)
{
    struct image wish = *image, made;
    wish.pitch = pitch;
    wish.bytes = 0;
    if (try_format(queue, &wish, &made) || !is_same_size(made.size, image->size)
        || made.bytes > image_bytes(format, made.pitch, made.size.height))
        made.pitch = 0;
    return made;
}

/* The step by which pitches grow from the least one on; 0 where the driver takes that one alone, or
 * others that are no multiples of a step. */
static uint32_t pitch_step(const struct queue *queue, const struct format *format,
                           const struct image *least)
{
    uint32_t next = with_pitch(queue, format, least, least->pitch + 1).pitch;
    uint32_t step = next > least->pitch ? next - least->pitch : 0;
    if (!step || step > MOST_STEP || least->pitch % step)
        return 0;
    return with_pitch(queue, format, least, next + 1).pitch == next + step ? step : 0;
}

/* The longest pitch that the driver is known to take, where it takes some. */
static uint32_t most_pitch(const struct queue *queue, const struct format *format,
                           const struct image *least, uint32_t step)
{
    uint32_t most = with_pitch(queue, format, least, LONG_PITCH).pitch;
    if (most > least->pitch && with_pitch(queue, format, least, most).pitch == most)
        return most;
    most = least->pitch + step;
    while (most < LONG_PITCH && with_pitch(queue, format, least, 2 * most).pitch == 2 * most)
        most *= 2;
    return most;
}

static bool is_free(uint32_t least, uint32_t most) { return least < most; }

/* Whether an image that is one step larger, as far as the entry lets it grow, has the pitch and the
 * bytes that entries say. */
static bool grows_plainly(const struct queue *queue, const struct format *format,
                          const struct image *least, const struct mezulobu_entry *entry)
{
    struct image wish = *least, made;
    uint32_t pitch = least->pitch;
    wish.pitch = wish.bytes = 0;
    if (is_free(entry->min_size.width, entry->max_size.width)) {
        wish.size.width += entry->size_alignment.width;
        pitch = up_to(entry->pitch_divisor, wish.size.width * format->pixel_bytes);
    }
    if (is_free(entry->min_size.height, entry->max_size.height))
        wish.size.height += entry->size_alignment.height;
    return !try_format(queue, &wish, &made) && is_same_size(made.size, wish.size)
        && made.pitch == pitch && made.bytes <= image_bytes(format, pitch, made.size.height);
}

/* The bounds on pitches, of the least image that the entry has. A driver that takes one pitch takes
 * one width. One that wants more bytes than the image has takes one size, and so does one whose
 * larger images aren't as entries say. The bytes that it wants beyond the image, else 0. */
static uint64_t put_pitches(const struct queue *queue, const struct format *format,
                            const struct image *least, struct mezulobu_entry *entry)
{
    bool is_plain = least->bytes <= image_bytes(format, least->pitch, least->size.height);
    uint32_t step = is_plain ? pitch_step(queue, format, least) : 0;
    entry->min_pitch = least->pitch;
    entry->max_pitch = step ? most_pitch(queue, format, least, step) : least->pitch;
    entry->pitch_divisor = step ? step : 1;
    if (!step)
        pin_width(entry);
    if (!is_plain || !grows_plainly(queue, format, least, entry)) {
        pin_width(entry);
        pin_height(entry);
    }
    return is_plain ? 0 : least->bytes;
}

/* ---- Colours -------------------------------------------------------------------------------- */

/* Whether the driver takes an image in this colour. */
static bool takes_color(const struct queue *queue, const struct format *format,
                        const struct image *image, const struct color *color)
{
    struct image wish = *image, made;
    wish.colors = color->v4l2;
    if (try_format(queue, &wish, &made) || made.code != image->code)
        return false;
    struct colorimetry c = resolved(made.colors, format->is_rgb);
    bool is_encoded = c.encoding == color->v4l2.encoding && c.transfer == color->v4l2.transfer;
    return c.space == color->v4l2.space && c.range == color->v4l2.range
        && (format->is_rgb || is_encoded);
}

/* The colours of an image: those that the driver tells, and, where it takes others or makes them,
 * those too. */
static uint32_t colors_taken(const struct queue *queue, const struct format *format,
                             const struct image *image, uint32_t flags)
{
    uint32_t set = colors_of(image->colors, format->is_rgb);
    if (!is_output(queue->type) && !(flags & CONVERTS_COLORS))
        return set;
    for (size_t i = 0; i < N_COLORS; i++)
        if (format->is_rgb == (known_colors[i].bit == MEZULOBU_SRGB)
            && takes_color(queue, format, image, &known_colors[i]))
            set |= known_colors[i].bit;
    return set;
}

/* ---- Formats -------------------------------------------------------------------------------- */

/* Why an image that the driver made of a wish isn't what was asked for; 0 where it is. */
static uint32_t fault_of(const struct image *made, const struct image *wish)
{
    if (made->planes > 1)
        return MEZULOBU_OMITTED_PLANES;
    if (made->code != wish->code || !is_same_size(made->size, wish->size))
        return MEZULOBU_OMITTED_SIZE;
    return made->field == V4L2_FIELD_NONE ? 0 : MEZULOBU_OMITTED_FIELDS;
}

/* Whether images of a code have planes in buffers of their own. */
static bool is_apart(const struct queue *queue, uint32_t code, struct mezulobu_size size)
{
    struct image wish = {.code = code, .field = V4L2_FIELD_NONE, .size = size}, made;
    return !try_format(queue, &wish, &made) && made.code == code && made.planes > 1;
}

/* An entry for a format of the driver's list: 0, and the bytes that it wants beyond its image; or
 * why there is none. */
static uint32_t put_entry(const struct queue *queue, const struct v4l2_fmtdesc *d,
                          struct mezulobu_size asked, struct mezulobu_entry *entry,
                          struct mezulobu_omitted *omitted, uint64_t *bytes)
{
    const struct format *format = format_of_v4l2(d->pixelformat);
    if (d->flags & V4L2_FMT_FLAG_COMPRESSED)
        return MEZULOBU_OMITTED_COMPRESSED;
    if (!format)
        return is_apart(queue, d->pixelformat, asked) ? MEZULOBU_OMITTED_PLANES
                                                      : MEZULOBU_OMITTED_FORMAT;
    put_sizes(queue, d->pixelformat, asked, entry);
    struct image wish = {.code = d->pixelformat, .field = V4L2_FIELD_NONE, .size = entry->min_size};
    struct image least;
    bool is_refused = try_format(queue, &wish, &least);
    uint32_t why = is_refused ? MEZULOBU_OMITTED_SIZE : fault_of(&least, &wish);
    omitted->nearest = least.size;
    if (why)
        return why;
    entry->format = format->drm;
    entry->colors = colors_taken(queue, format, &least, d->flags);
    if (!entry->colors)
        return MEZULOBU_OMITTED_COLORS;
    *bytes = put_pitches(queue, format, &least, entry);
    return 0;
}

/* Goes through the driver's list: 0, or -1 and errno where it breaks off. */
static int add_formats(const struct queue *queue, struct mezulobu_size asked,
                       struct answer *answer, struct mezulobu_participant *told)
{
    struct v4l2_fmtdesc d = {.type = queue->type};
    for (; !ask(queue->fd, VIDIOC_ENUM_FMT, &d); d.index++) {
        struct mezulobu_entry entry = {.struct_size = sizeof entry};
        struct mezulobu_omitted omitted = {.format = d.pixelformat};
        uint64_t bytes = 0;
        put_text(omitted.name, sizeof omitted.name, (const char *)d.description,
                 sizeof d.description);
        omitted.why = put_entry(queue, &d, asked, &entry, &omitted, &bytes);
        if (omitted.why)
            add_omitted(answer, &omitted);
        else
            add_entry(answer, &entry);
        if (bytes > told->min_bytes)
            told->min_bytes = bytes;
    }
    return errno == EINVAL ? 0 : -1;
}

/* ---- The queue ------------------------------------------------------------------------------ */

/* The two types of buffers of a device, for capture and for output; 0 where it hasn't one. */
struct types {
    uint32_t capture, output;
};

static struct types types_of(const struct v4l2_capability *told)
{
    bool is_of_device = told->capabilities & V4L2_CAP_DEVICE_CAPS;
    uint32_t has = is_of_device ? told->device_caps : told->capabilities;
    struct types types = {0, 0};
    if (!(has & V4L2_CAP_STREAMING))
        return types;
    if (has & (V4L2_CAP_VIDEO_CAPTURE_MPLANE | V4L2_CAP_VIDEO_M2M_MPLANE))
        types.capture = V4L2_BUF_TYPE_VIDEO_CAPTURE_MPLANE;
    else if (has & (V4L2_CAP_VIDEO_CAPTURE | V4L2_CAP_VIDEO_M2M))
        types.capture = V4L2_BUF_TYPE_VIDEO_CAPTURE;
    if (has & (V4L2_CAP_VIDEO_OUTPUT_MPLANE | V4L2_CAP_VIDEO_M2M_MPLANE))
        types.output = V4L2_BUF_TYPE_VIDEO_OUTPUT_MPLANE;
    else if (has & (V4L2_CAP_VIDEO_OUTPUT | V4L2_CAP_VIDEO_M2M))
        types.output = V4L2_BUF_TYPE_VIDEO_OUTPUT;
    return types;
}

/* The type of the queue that is asked for; else 0, and the trouble. */
static uint32_t chosen(struct types types, enum mezulobu_queue queue, uint32_t *trouble)
{
    uint32_t type = queue == MEZULOBU_QUEUE_CAPTURE ? types.capture
                  : queue == MEZULOBU_QUEUE_OUTPUT  ? types.output
                                                    : types.capture | types.output;
    *trouble = type ? MEZULOBU_TROUBLE_NONE : MEZULOBU_TROUBLE_NO_QUEUE;
    if (queue == MEZULOBU_QUEUE_ONLY && types.capture && types.output) {
        *trouble = MEZULOBU_TROUBLE_TWO_QUEUES;
        return 0;
    }
    return type;
}

/* How many buffers the driver makes of a number, where they come by dma-buf: -1 and errno. */
static int request(const struct queue *queue, uint32_t *count, uint32_t *capabilities)
{
    struct v4l2_requestbuffers r = {
        .count = *count, .type = queue->type, .memory = V4L2_MEMORY_DMABUF};
    int status = ask(queue->fd, VIDIOC_REQBUFS, &r);
    *count = r.count;
    *capabilities = r.capabilities;
    return status;
}

/* The least number of buffers by the driver's control; 0 where it has none. */
static uint32_t told_least(const struct queue *queue)
{
    struct v4l2_control c = {.id = is_output(queue->type) ? V4L2_CID_MIN_BUFFERS_FOR_OUTPUT
                                                          : V4L2_CID_MIN_BUFFERS_FOR_CAPTURE};
    return !ask(queue->fd, VIDIOC_G_CTRL, &c) && c.value > 0 ? (uint32_t)c.value : 0;
}

/* How many buffers the queue needs and takes; else the trouble. */
static uint32_t put_counts(const struct queue *queue, struct mezulobu_participant *told)
{
    uint32_t least = 1, most = MANY_BUFFERS, none = 0, has = 0, other = 0;
    if (request(queue, &least, &has))
        return errno == EINVAL ? MEZULOBU_TROUBLE_NO_DMABUF : MEZULOBU_TROUBLE_ERROR;
    int failed = request(queue, &most, &other) ? errno : 0;
    if (request(queue, &none, &other) || failed) {
        errno = failed ? failed : errno;
        return MEZULOBU_TROUBLE_ERROR;
    }
    if (has && !(has & V4L2_BUF_CAP_SUPPORTS_DMABUF))
        return MEZULOBU_TROUBLE_NO_DMABUF;
    told->camping = greater(LEAST_CAMPING, greater(least, told_least(queue)));
    told->max_count = most;
    return MEZULOBU_TROUBLE_NONE;
}

int mezulobu_v4l2_participant(int fd, enum mezulobu_queue queue, struct mezulobu_size size,
                              struct mezulobu_device *device)
{
    struct v4l2_capability capability = {0};
    struct queue asked = {.fd = fd};
    struct mezulobu_participant told = {.usage = MEZULOBU_USE_VIDEO, .cpu = true, .ram = true};
    struct answer answer;
    uint32_t trouble;
    if (!is_usable(device) || queue > MEZULOBU_QUEUE_OUTPUT || !size.width || !size.height)
        return MEZULOBU_MISUSED;
    begin(&answer, device);
    if (ask(fd, VIDIOC_QUERYCAP, &capability))
        return in_trouble(device, MEZULOBU_TROUBLE_OTHER_KIND);
    put_driver(device, (const char *)capability.driver);
    asked.type = chosen(types_of(&capability), queue, &trouble);
    if (!trouble)
        trouble = put_counts(&asked, &told);
    if (trouble)
        return in_trouble(device, trouble);
    if (add_formats(&asked, size, &answer, &told))
        return in_trouble(device, MEZULOBU_TROUBLE_ERROR);
    return finish(&answer, &told);
}

uint32_t mezulobu_v4l2_type(int fd, enum mezulobu_queue queue)
{
    struct v4l2_capability capability = {0};
    uint32_t trouble;
    if (ask(fd, VIDIOC_QUERYCAP, &capability))
        return 0;
    return chosen(types_of(&capability), queue, &trouble);
}

int mezulobu_v4l2_format(uint32_t type, const struct mezulobu_image *image,
                         struct v4l2_format *format)
{
    if (!image || !format)
        return MEZULOBU_MISUSED;
    const struct format *known = format_of_drm(image->format);
    const struct color *color = color_of(image->color);
    if (!known || !known->v4l2 || !color || image->modifier)
        return MEZULOBU_REFUSED;
    struct image wanted = {
        .code = known->v4l2, .field = V4L2_FIELD_NONE, .pitch = image->layout.planes[0].pitch,
        .size = {image->width, image->height}, .colors = color->v4l2};
    *format = as_format(type, &wanted);
    return MEZULOBU_DONE;
}

const char *mezulobu_v4l2_difference(const struct v4l2_format *format,
                                     const struct mezulobu_settings *settings)
{
    const struct mezulobu_image *wanted = &settings->image;
    const struct format *known = format_of_drm(wanted->format);
    struct image made = as_image(format);
    if (!known || made.code != known->v4l2)
        return "pixelformat";
    if (made.size.width != wanted->width)
        return "width";
    if (made.size.height != wanted->height)
        return "height";
    if (made.field != V4L2_FIELD_NONE)
        return "field";
    if (made.planes != 1)
        return "num_planes";
    if (made.pitch != wanted->layout.planes[0].pitch)
        return "bytesperline";
    if (made.bytes > settings->bytes)
        return "sizeimage";
    return (colors_of(made.colors, known->is_rgb) & wanted->color) ? NULL : "colorspace";
}
