// asked: the library that asks devices, on drivers that are described, beside texts that were worked out by hand. The
// last line is 'N passed, M failed'. With `script` it prints a script of two of them.
#include "fakes.h"
#include "script.h"
#include <drm_fourcc.h>
#include <errno.h>
#include <linux/videodev2.h>
#include <stdio.h>
#include <stdlib.h>
#include <string.h>
#include <xf86drm.h>

enum { ROOM = 32 };

struct asked {
    int fd;
    uint32_t which; // the queue, or the plane
    struct mezulobu_size size;
    const char *told;
};

static struct mezulobu_entry entries[ROOM];
static struct mezulobu_omitted omitted[ROOM];
static int passed, failed;

static void check(bool is_good, const char *name, const char *had, const char *wanted)
{
    is_good ? passed++ : failed++;
    if (!is_good)
        printf("asked: %s:\n%sisn't\n%s", name, had, wanted);
}

static int ask_of(const struct asked *a, struct mezulobu_device *device)
{
    if (a->fd >= FIRST_DRM)
        return mezulobu_drm_participant(a->fd, a->which, a->size, device);
    return mezulobu_v4l2_participant(a->fd, (enum mezulobu_queue)a->which, a->size, device);
}

static void tell_entry(FILE *out, const struct mezulobu_entry *e)
{
    fprintf(out, "%s %s %ux%u..%ux%u by %ux%u, pitch %u..%u by %u,", mezulobu_pixel_format_name(e->format),
            mezulobu_modifier_name(e->modifier), e->min_size.width, e->min_size.height, e->max_size.width,
            e->max_size.height, e->size_alignment.width, e->size_alignment.height, e->min_pitch, e->max_pitch,
            e->pitch_divisor);
    for (uint32_t bit = 1; bit <= MEZULOBU_REC2100; bit *= 2)
        if (e->colors & bit)
            fprintf(out, " %s", mezulobu_color_name(bit));
    fputs("\n", out);
}

static void tell_omitted(FILE *out, const struct mezulobu_omitted *o)
{
    if (o->why == MEZULOBU_OMITTED_MODIFIER)
        fprintf(out, "left out %s", o->name);
    else
        fprintf(out, "left out %.4s", (const char *)&o->format);
    fprintf(out, ": %s", mezulobu_omission_text(o->why));
    if (o->why == MEZULOBU_OMITTED_SIZE)
        fprintf(out, ", but %ux%u", o->nearest.width, o->nearest.height);
    fputs("\n", out);
}

static void tell(FILE *out, int status, const struct mezulobu_device *d)
{
    const struct mezulobu_participant *p = &d->participant;
    if (status == MEZULOBU_DONE)
        fprintf(out, "%s: camping %u, at most %u, bytes %llu\n", d->driver, p->camping, p->max_count,
                (unsigned long long)p->min_bytes);
    else
        fprintf(out, "%s: status %d, %s%s%s\n", d->driver, status, mezulobu_trouble_text(d->trouble),
                d->error ? ": " : "", d->error ? strerror(d->error) : "");
    for (size_t i = 0; i < d->n_entries; i++)
        tell_entry(out, &entries[i]);
    for (size_t i = 0; i < d->n_omitted; i++)
        tell_omitted(out, &omitted[i]);
}

static struct mezulobu_device device(void)
{
    return (struct mezulobu_device){.struct_size = sizeof(struct mezulobu_device),
                                    .entries = entries,
                                    .n_entries = ROOM,
                                    .omitted = omitted,
                                    .n_omitted = ROOM};
}

static const struct asked all[] = {
    {FIRST_V4L2, 0, {1280, 720},
     "uvcvideo: camping 2, at most 32, bytes 0\n"
     "YUY2 LINEAR 1280x720..1280x720 by 1x1, pitch 2560..2560 by 1, REC601_NTSC REC601_PAL\n"
     "left out MJPG: it is compressed\n"},
    {FIRST_V4L2, 0, {1000, 700},
     "uvcvideo: status 6, none of its formats is left\n"
     "left out MJPG: it is compressed\n"
     "left out YUYV: the driver hasn't it in this size, but 640x480\n"},
    {FIRST_V4L2 + 1, 0, {1280, 720}, "hantro-vpu: status 6, it has a queue for capture and one for output\n"},
    {FIRST_V4L2 + 1, 2, {1280, 720},
     "hantro-vpu: camping 5, at most 32, bytes 0\n"
     "NV12 LINEAR 1280x720..1280x8192 by 1x16, pitch 1280..1280 by 1, REC709\n"
     "left out NM12: its planes lie in buffers of their own\n"},
    {FIRST_V4L2 + 1, 2, {1366, 768},
     "hantro-vpu: camping 5, at most 32, bytes 0\n"
     "NV12 LINEAR 1376x768..1376x8192 by 1x16, pitch 1408..1408 by 1, REC709\n"
     "left out NM12: its planes lie in buffers of their own\n"},
    {FIRST_V4L2 + 1, 1, {1280, 720},
     "hantro-vpu: status 6, none of its formats is left\nleft out H264: it is compressed\n"},
    {FIRST_V4L2 + 2, 0, {1000, 700},
     "rkisp1_main: camping 3, at most 16, bytes 0\n"
     "NV12 LINEAR 1000x700..4416x3312 by 2x2, pitch 1024..8192 by 256, REC2020\n"
     "left out RGBP: there is no name for its colours\n"},
    {FIRST_V4L2 + 2, 2, {1000, 700}, "rkisp1_main: status 6, it has no such queue of images\n"},
    {FIRST_V4L2 + 3, 0, {640, 480}, "bttv: status 6, it takes no buffers of other devices (dma-buf)\n"},
    {FIRST_V4L2 + 4, 0, {640, 480}, "saa7134: status 6, it takes no buffers of other devices (dma-buf)\n"},
    {FIRST_V4L2 + 5, 0, {640, 480},
     "padded: camping 2, at most 32, bytes 1232896\n"
     "B8G8R8X8 LINEAR 640x480..640x480 by 1x1, pitch 2560..2560 by 1, SRGB\n"},
    {FIRST_V4L2 + 6, 0, {640, 480},
     "its_own: camping 2, at most 32, bytes 0\n"
     "B8G8R8X8 LINEAR 640x480..640x480 by 1x1, pitch 2560..5152 by 16, SRGB\n"},
    {FIRST_V4L2 + 7, 0, {640, 480},
     "powers: camping 2, at most 32, bytes 0\n"
     "B8G8R8X8 LINEAR 640x480..640x480 by 1x1, pitch 4096..4096 by 1, SRGB\n"},
    {FIRST_V4L2 + 8, 0, {640, 480},
     "by_16_rows: camping 2, at most 32, bytes 0\n"
     "B8G8R8X8 LINEAR 640x480..640x480 by 1x1, pitch 2560..2560 by 1, SRGB\n"},
    {FIRST_V4L2 + 9, 0, {640, 480},
     "fields: status 6, none of its formats is left\nleft out XR24: it comes in fields, and not as whole images\n"},
    {FIRST_V4L2 + 10, 0, {640, 480},
     "full_range: status 6, none of its formats is left\n"
     "left out NV12: there is no name for its colours\n"
     "left out GREY: there is no name for its colours\n"},
    {FIRST_V4L2 + 11, 0, {640, 480},
     "converts: camping 2, at most 32, bytes 0\n"
     "NV12 LINEAR 640x480..640x480 by 1x1, pitch 640..640 by 1, REC601_NTSC REC601_NTSC_FULL_RANGE REC601_PAL "
     "REC601_PAL_FULL_RANGE REC709 REC2020 REC2100\n"},
    {FIRST_V4L2 + 12, 0, {640, 480},
     "any_row: camping 2, at most 32, bytes 0\n"
     "NV12 LINEAR 640x480..640x480 by 1x1, pitch 640..65535 by 1, REC601_PAL\n"
     "R8 LINEAR 640x480..640x480 by 1x1, pitch 640..65535 by 1, REC601_PAL\n"},
    {FIRST_V4L2 + 13, 0, {642, 480},
     "and_16s: camping 2, at most 32, bytes 0\n"
     "B8G8R8X8 LINEAR 642x480..642x480 by 1x1, pitch 2568..2568 by 1, SRGB\n"},
    {FIRST_V4L2 + 14, 0, {640, 480}, "busy: status 1, the device can't be asked: Device or resource busy\n"},
    {FIRST_V4L2 + 15, 0, {640, 480}, "radio: status 6, it has no such queue of images\n"},
    {3, 0, {640, 480}, ": status 1, neither a V4L2 nor a DRM device\n"},
    {FIRST_DRM, 0, {1280, 720},
     "i915: camping 2, at most 0, bytes 0\n"
     "B8G8R8X8 LINEAR 1280x720..16384x8192 by 0x0, pitch 5120..20736 by 64, SRGB\n"
     "B8G8R8X8 INTEL_I915_X_TILED 1280x720..16384x8192 by 0x0, pitch 0..0 by 0, SRGB\n"
     "R5G6B5 LINEAR 1280x720..16384x8192 by 0x0, pitch 2560..20992 by 64, SRGB\n"
     "NV12 LINEAR 1280x720..16384x8192 by 0x0, pitch 1280..1280 by 0, REC601_NTSC REC601_NTSC_FULL_RANGE REC601_PAL "
     "REC601_PAL_FULL_RANGE REC709\n"
     "left out RG16: these tiles go with formats of 4 bytes alone\n"
     "left out XR30: there is no name for this format\n"
     "left out NV12: these tiles go with formats of 4 bytes alone\n"
     "left out AB24: there is no name for any of its modifiers\n"
     "left out XB24: the driver lists no modifier for it\n"
     "left out Y_TILED_CCS: there is no name for this modifier\n"},
    {FIRST_DRM, 32, {1280, 720},
     "i915: camping 2, at most 0, bytes 0\n"
     "B8G8R8A8 LINEAR 256x256..256x256 by 0x0, pitch 1024..17408 by 64, SRGB\n"},
    {FIRST_DRM, 33, {1280, 720},
     "i915: camping 2, at most 0, bytes 0\n"
     "B8G8R8X8 LINEAR 1280x720..16384x8192 by 0x0, pitch 5120..20736 by 64, SRGB\n"
     "left out RG16: there is no name for any of its modifiers\n"
     "left out AR24: the driver lists no modifier for it\n"
     "left out Y_TILED_CCS: there is no name for this modifier\n"},
    {FIRST_DRM, 30, {0, 0},
     "i915: camping 2, at most 0, bytes 0\n"
     "B8G8R8X8 LINEAR 1920x1080..16384x8192 by 0x0, pitch 7680..30976 by 64, SRGB\n"},
    {FIRST_DRM, 99, {1280, 720}, "i915: status 6, it has no such plane, or no screen is connected\n"},
    {FIRST_DRM + 1, 0, {0, 0},
     "tiny: camping 2, at most 0, bytes 0\n"
     "B8G8R8X8 LINEAR 800x600..1024x768 by 0x0, pitch 3200..3200 by 0, SRGB\n"
     "R5G6B5 LINEAR 800x600..1024x768 by 0x0, pitch 1600..1600 by 0, SRGB\n"
     "left out XR30: there is no name for this format\n"
     "left out NV12: there is no name for its colours\n"},
    {FIRST_DRM + 2, 0, {640, 480}, "no_screen: status 6, it has no such plane, or no screen is connected\n"},
    {FIRST_DRM + 2, 35, {2000, 2000},
     "no_screen: camping 2, at most 0, bytes 0\n"
     "B8G8R8X8 LINEAR 1024x768..1024x768 by 0x0, pitch 4096..4096 by 0, SRGB\n"
     "R5G6B5 LINEAR 1024x768..1024x768 by 0x0, pitch 2048..2048 by 0, SRGB\n"
     "left out XR30: there is no name for this format\n"
     "left out NV12: there is no name for its colours\n"},
    {FIRST_DRM + 3, 0, {0, 0},
     "no_dumb: camping 2, at most 0, bytes 0\n"
     "B8G8R8X8 LINEAR 640x480..1024x768 by 0x0, pitch 0..0 by 0, SRGB\n"
     "R5G6B5 LINEAR 640x480..1024x768 by 0x0, pitch 0..0 by 0, SRGB\n"
     "left out XR30: there is no name for this format\n"
     "left out NV12: there is no name for its colours\n"},
    {FIRST_DRM + 4, 0, {640, 480}, "v3d: status 1, the device can't be asked: Operation not supported\n"},
};
enum { N = sizeof all / sizeof all[0] };

static void answers(void)
{
    for (size_t i = 0; i < N; i++) {
        char *text = NULL, name[32];
        size_t length = 0;
        FILE *out = open_memstream(&text, &length);
        struct mezulobu_device d = device();
        tell(out, ask_of(&all[i], &d), &d);
        fclose(out);
        snprintf(name, sizeof name, "case %zu", i);
        check(!strcmp(text, all[i].told), name, text, all[i].told);
        check(!n_given, name, "what was asked for ", "given back\n");
        free(text);
    }
}

// Room for all but one is too small, and each number is what is needed; no room at all tells the same.
static void rooms(void)
{
    for (size_t i = 0; i < N; i++) {
        struct mezulobu_device d = device(), few = device(), none = {.struct_size = sizeof none};
        if (ask_of(&all[i], &d) != MEZULOBU_DONE)
            continue;
        few.n_entries = d.n_entries - 1;
        check(ask_of(&all[i], &few) == MEZULOBU_TOO_SMALL && few.n_entries == d.n_entries &&
                  few.n_omitted == d.n_omitted,
              "room for one less", "", "\n");
        check(ask_of(&all[i], &none) == MEZULOBU_TOO_SMALL && none.n_entries == d.n_entries &&
                  none.n_omitted == d.n_omitted,
              "no room", "", "\n");
    }
}

static bool frees(unsigned long request)
{
    return request == VIDIOC_REQBUFS || request == DRM_IOCTL_MODE_RMFB || request == DRM_IOCTL_MODE_DESTROY_DUMB;
}

// Each ioctl fails in turn: nothing is kept, and an answer that is DONE has entries.
static void faults(void)
{
    for (size_t i = 0; i < N; i++) {
        struct mezulobu_device d = device();
        n_ioctls = failing_ioctl = 0;
        ask_of(&all[i], &d);
        for (unsigned last = n_ioctls, k = 1; k <= last; k++) {
            d = device();
            n_given = 0;
            n_ioctls = 0;
            failing_ioctl = k;
            int status = ask_of(&all[i], &d);
            check(!n_given || frees(failed_request), "an ioctl that fails", "something is kept ", "\n");
            check(status != MEZULOBU_DONE || d.participant.n_entries, "an ioctl that fails", "no entries ", "\n");
            check(failed_request != VIDIOC_ENUM_FMT || (status == MEZULOBU_DEVICE_FAULT && d.error == EIO),
                  "a list that breaks off", "", "\n");
        }
        failing_ioctl = 0;
    }
    n_given = 0;
}

// Those of the display stand first, then what the camera adds.
static void platform(void)
{
    struct mezulobu_entry shown[] = {{.format = DRM_FORMAT_RGB565, .colors = MEZULOBU_SRGB},
                                     {.format = DRM_FORMAT_XRGB8888, .colors = MEZULOBU_SRGB}};
    struct mezulobu_entry taken[] = {{.format = DRM_FORMAT_NV12, .colors = MEZULOBU_REC709},
                                     {.format = DRM_FORMAT_XRGB8888, .colors = MEZULOBU_SRGB}};
    struct mezulobu_participant both[] = {
        {.struct_size = sizeof both[0], .usage = MEZULOBU_USE_VIDEO, .entries = taken, .n_entries = 2},
        {.struct_size = sizeof both[0], .usage = MEZULOBU_USE_DISPLAY, .entries = shown, .n_entries = 2},
    };
    struct mezulobu_pair pairs[4];
    uint32_t colors[8];
    size_t n_pairs = 4, n_colors = 8, none = 0, one = 1;
    int status = mezulobu_devices_platform(both, 2, pairs, &n_pairs, colors, &n_colors);
    check(status == MEZULOBU_DONE && n_pairs == 3 && n_colors == 2, "a platform", "its numbers ", "\n");
    check(pairs[0].format == DRM_FORMAT_RGB565 && pairs[1].format == DRM_FORMAT_XRGB8888 &&
              pairs[2].format == DRM_FORMAT_NV12,
          "a platform", "its pairs ", "\n");
    check(colors[0] == MEZULOBU_SRGB && colors[1] == MEZULOBU_REC709, "a platform", "its colours ", "\n");
    both[1].usage = MEZULOBU_USE_VIDEO;
    mezulobu_devices_platform(both, 2, pairs, &n_pairs, colors, &n_colors);
    check(pairs[0].format == DRM_FORMAT_NV12 && pairs[2].format == DRM_FORMAT_RGB565, "a platform without a display",
          "its pairs ", "\n");
    status = mezulobu_devices_platform(both, 2, NULL, &none, colors, &one);
    check(status == MEZULOBU_TOO_SMALL && none == 3 && one == 2, "a platform without room", "its numbers ", "\n");
    check(mezulobu_devices_platform(both, 2, NULL, &n_pairs, colors, &n_colors) == MEZULOBU_MISUSED, "no pairs", "",
          "\n");
    both[0].struct_size--;
    check(mezulobu_devices_platform(both, 2, pairs, &n_pairs, colors, &n_colors) == MEZULOBU_MISUSED, "another size",
          "", "\n");
}

// What a queue is set to, by V4L2's own names.
static void formats(void)
{
    struct mezulobu_image image = {.format = DRM_FORMAT_NV12,
                                   .color = MEZULOBU_REC709,
                                   .width = 1280,
                                   .height = 720,
                                   .layout = {.planes = {{.pitch = 1344}}}};
    struct v4l2_format f;
    check(mezulobu_v4l2_format(V4L2_BUF_TYPE_VIDEO_CAPTURE, &image, &f) == MEZULOBU_DONE, "a format", "", "\n");
    check(f.fmt.pix.pixelformat == V4L2_PIX_FMT_NV12 && f.fmt.pix.width == 1280 && f.fmt.pix.height == 720 &&
              f.fmt.pix.bytesperline == 1344 && f.fmt.pix.field == V4L2_FIELD_NONE &&
              f.fmt.pix.priv == V4L2_PIX_FMT_PRIV_MAGIC && f.fmt.pix.flags == V4L2_PIX_FMT_FLAG_SET_CSC &&
              f.fmt.pix.colorspace == V4L2_COLORSPACE_REC709 && f.fmt.pix.ycbcr_enc == V4L2_YCBCR_ENC_709 &&
              f.fmt.pix.quantization == V4L2_QUANTIZATION_LIM_RANGE && f.fmt.pix.xfer_func == V4L2_XFER_FUNC_709,
          "a format of one plane", "", "\n");
    check(mezulobu_v4l2_format(V4L2_BUF_TYPE_VIDEO_OUTPUT_MPLANE, &image, &f) == MEZULOBU_DONE, "a format", "", "\n");
    check(f.fmt.pix_mp.pixelformat == V4L2_PIX_FMT_NV12 && f.fmt.pix_mp.num_planes == 1 &&
              f.fmt.pix_mp.plane_fmt[0].bytesperline == 1344 && !f.fmt.pix_mp.flags &&
              f.fmt.pix_mp.quantization == V4L2_QUANTIZATION_LIM_RANGE,
          "a format of several planes", "", "\n");
    image.format = DRM_FORMAT_GR88;
    check(mezulobu_v4l2_format(V4L2_BUF_TYPE_VIDEO_CAPTURE, &image, &f) == MEZULOBU_REFUSED,
          "a format that V4L2 hasn't", "", "\n");
    image.format = DRM_FORMAT_XRGB8888;
    image.modifier = I915_FORMAT_MOD_X_TILED;
    check(mezulobu_v4l2_format(V4L2_BUF_TYPE_VIDEO_CAPTURE, &image, &f) == MEZULOBU_REFUSED, "tiles", "", "\n");
    check(mezulobu_v4l2_type(FIRST_V4L2 + 1, MEZULOBU_QUEUE_OUTPUT) == V4L2_BUF_TYPE_VIDEO_OUTPUT_MPLANE &&
              !mezulobu_v4l2_type(3, MEZULOBU_QUEUE_ONLY),
          "types of buffers", "", "\n");
}

// A format as it was settled, and one with each member of another value: `mezulobu_v4l2_difference` names that.
static void differences(void)
{
    const struct mezulobu_settings s = {.bytes = 1382400,
                                        .image = {.format = DRM_FORMAT_NV12,
                                                  .color = MEZULOBU_REC709,
                                                  .width = 1280,
                                                  .height = 720,
                                                  .layout = {.planes = {{.pitch = 1280}}}}};
    const struct v4l2_pix_format taken = {
        1280, 720, V4L2_PIX_FMT_NV12, V4L2_FIELD_NONE, 1280, 1382400, V4L2_COLORSPACE_REC709, 0, 0, {0}, 0, 0};
    struct v4l2_format f = {.type = V4L2_BUF_TYPE_VIDEO_CAPTURE}, planes = {.type = V4L2_BUF_TYPE_VIDEO_CAPTURE_MPLANE};
    const struct {
        uint32_t *member, value;
        const char *name;
    } all_members[] = {
        {&f.fmt.pix.pixelformat, V4L2_PIX_FMT_NV21, "pixelformat"},
        {&f.fmt.pix.width, 1296, "width"},
        {&f.fmt.pix.height, 736, "height"},
        {&f.fmt.pix.field, V4L2_FIELD_INTERLACED, "field"},
        {&f.fmt.pix.bytesperline, 1344, "bytesperline"},
        {&f.fmt.pix.sizeimage, 1382401, "sizeimage"},
        {&f.fmt.pix.colorspace, V4L2_COLORSPACE_SMPTE170M, "colorspace"},
        {&f.fmt.pix.quantization, V4L2_QUANTIZATION_FULL_RANGE, "colorspace"},
        {&f.fmt.pix.ycbcr_enc, V4L2_YCBCR_ENC_601, "colorspace"},
    };
    f.fmt.pix = taken;
    check(!mezulobu_v4l2_difference(&f, &s), "a format that was taken", "a difference ", "\n");
    for (size_t i = 0; i < sizeof all_members / sizeof all_members[0]; i++) {
        f.fmt.pix = taken;
        *all_members[i].member = all_members[i].value;
        const char *name = mezulobu_v4l2_difference(&f, &s);
        check(name && !strcmp(name, all_members[i].name), "a format that was changed", name ? name : "nothing ",
              all_members[i].name);
    }
    planes.fmt.pix_mp = (struct v4l2_pix_format_mplane){.width = 1280,
                                                        .height = 720,
                                                        .pixelformat = V4L2_PIX_FMT_NV12,
                                                        .field = V4L2_FIELD_NONE,
                                                        .colorspace = V4L2_COLORSPACE_REC709,
                                                        .num_planes = 1,
                                                        .plane_fmt = {{.bytesperline = 1280, .sizeimage = 1382400}}};
    check(!mezulobu_v4l2_difference(&planes, &s), "a format of one plane that was taken", "a difference ", "\n");
    planes.fmt.pix_mp.num_planes = 2;
    const char *name = mezulobu_v4l2_difference(&planes, &s);
    check(name && !strcmp(name, "num_planes"), "a format of two planes", "no difference ", "\n");
}

static void misuse(void)
{
    const struct mezulobu_size size = {640, 480}, half = {640, 0};
    struct mezulobu_device d = device(), other = device(), empty = device();
    other.struct_size--;
    empty.entries = NULL;
    check(mezulobu_v4l2_participant(FIRST_V4L2, MEZULOBU_QUEUE_ONLY, size, NULL) == MEZULOBU_MISUSED, "no device", "",
          "\n");
    check(mezulobu_v4l2_participant(FIRST_V4L2, MEZULOBU_QUEUE_ONLY, half, &d) == MEZULOBU_MISUSED, "half a size", "",
          "\n");
    check(mezulobu_v4l2_participant(FIRST_V4L2, MEZULOBU_QUEUE_ONLY, size, &other) == MEZULOBU_MISUSED,
          "another size of a struct", "", "\n");
    check(mezulobu_drm_participant(FIRST_DRM, 0, size, &empty) == MEZULOBU_MISUSED, "room without a list", "", "\n");
    check(mezulobu_drm_participant(FIRST_DRM, 0, half, &d) == MEZULOBU_MISUSED, "half a size", "", "\n");
}

// A script of a camera and a display that are described.
static int print_pair(void)
{
    static struct mezulobu_entry lists[2][ROOM];
    static struct named both[2] = {{.name = "camera"}, {.name = "screen"}};
    for (size_t i = 0; i < 2; i++) {
        both[i].device = device();
        both[i].device.entries = lists[i];
    }
    int camera = mezulobu_v4l2_participant(FIRST_V4L2 + 12, MEZULOBU_QUEUE_ONLY, (struct mezulobu_size){640, 480},
                                           &both[0].device);
    int screen = mezulobu_drm_participant(FIRST_DRM, 0, (struct mezulobu_size){640, 480}, &both[1].device);
    return camera || screen || print_script(stdout, both, 2);
}

int main(int n, char **words)
{
    if (n == 2 && !strcmp(words[1], "script"))
        return print_pair();
    answers();
    rooms();
    faults();
    platform();
    formats();
    differences();
    misuse();
    printf("%d passed, %d failed\n", passed, failed);
    return failed != 0;
}
