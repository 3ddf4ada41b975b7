#include "fakes.h"
#include <errno.h>
#include <linux/videodev2.h>
#include <stdarg.h>
#include <string.h>
#include <sys/ioctl.h>

unsigned failing_ioctl, n_ioctls;
unsigned long failed_request;
int n_given;

int ioctl(int fd, unsigned long request, ...)
{
    va_list rest;
    va_start(rest, request);
    void *argument = va_arg(rest, void *);
    va_end(rest);
    int fault = ENOTTY;
    if (++n_ioctls == failing_ioctl) {
        failed_request = request;
        fault = EIO;
    } else if (fd >= FIRST_DRM)
        fault = answer_drm(&fake_displays[fd - FIRST_DRM], request, argument);
    else if (fd >= FIRST_V4L2)
        fault = answer_v4l2(&fake_cameras[fd - FIRST_V4L2], request, argument);
    errno = fault;
    return fault ? -1 : 0;
}

static uint32_t clamped(uint32_t n, uint32_t least, uint32_t most) { return n < least ? least : n > most ? most : n; }

static struct fake_size nearest(const struct fake_v4l2 *v, struct fake_size asked)
{
    if (v->sizes) {
        const struct fake_size *best = v->sizes;
        for (const struct fake_size *s = v->sizes; s->width; s++)
            if (s->width <= asked.width && s->height <= asked.height)
                best = s;
        return *best;
    }
    if (!v->step.width)
        return asked;
    asked.width = clamped(asked.width / v->step.width * v->step.width, v->least.width, v->most.width);
    asked.height = clamped(asked.height / v->step.height * v->step.height, v->least.height, v->most.height);
    return asked;
}

static const struct fake_format *list_of(const struct fake_v4l2 *v, uint32_t type)
{
    bool is_output = type == V4L2_BUF_TYPE_VIDEO_OUTPUT || type == V4L2_BUF_TYPE_VIDEO_OUTPUT_MPLANE;
    return is_output ? v->output : v->capture;
}

static const struct fake_format *format_in(const struct fake_format *list, uint32_t code)
{
    for (const struct fake_format *f = list; f->code; f++)
        if (f->code == code)
            return f;
    return list;
}

static int enum_format(const struct fake_v4l2 *v, struct v4l2_fmtdesc *d)
{
    const struct fake_format *list = list_of(v, d->type);
    for (uint32_t i = 0; i <= d->index; i++)
        if (!list || !list[i].code)
            return EINVAL;
    d->pixelformat = list[d->index].code;
    d->flags = list[d->index].flags;
    strcpy((char *)d->description, list[d->index].description);
    return 0;
}

static int enum_size(const struct fake_v4l2 *v, struct v4l2_frmsizeenum *e)
{
    if (!v->sizes && !v->step.width)
        return ENOTTY;
    e->type = v->sizes ? V4L2_FRMSIZE_TYPE_DISCRETE : V4L2_FRMSIZE_TYPE_STEPWISE;
    if (v->sizes)
        e->discrete = (struct v4l2_frmsize_discrete){v->sizes[e->index].width, v->sizes[e->index].height};
    else
        e->stepwise = (struct v4l2_frmsize_stepwise){v->least.width,  v->most.width,  v->step.width,
                                                     v->least.height, v->most.height, v->step.height};
    return 0;
}

static uint32_t field_of(const struct fake_v4l2 *v) { return v->field ? v->field : V4L2_FIELD_NONE; }

static void try_single(const struct fake_v4l2 *v, const struct fake_format *f, struct v4l2_pix_format *p)
{
    struct fake_size size = nearest(v, (struct fake_size){p->width, p->height});
    bool keeps =
        v->converts && p->colorspace && (p->flags & V4L2_PIX_FMT_FLAG_SET_CSC) && p->priv == V4L2_PIX_FMT_PRIV_MAGIC;
    p->width = size.width;
    p->height = size.height;
    p->pixelformat = f->code;
    p->field = field_of(v);
    p->bytesperline = v->pitch(size.width * f->pixel_bytes, p->bytesperline);
    p->sizeimage = v->bytes(p->bytesperline, size.height, f->has_half_planes);
    if (keeps)
        return;
    p->colorspace = v->space;
    p->ycbcr_enc = v->encoding;
    p->quantization = v->range;
    p->xfer_func = v->transfer;
}

static void try_planes(const struct fake_v4l2 *v, const struct fake_format *f, struct v4l2_pix_format_mplane *p)
{
    struct fake_size size = nearest(v, (struct fake_size){p->width, p->height});
    p->width = size.width;
    p->height = size.height;
    p->pixelformat = f->code;
    p->field = field_of(v);
    p->num_planes = (uint8_t)(f->buffers ? f->buffers : 1);
    p->plane_fmt[0].bytesperline = v->pitch(size.width * f->pixel_bytes, p->plane_fmt[0].bytesperline);
    p->plane_fmt[0].sizeimage =
        v->bytes(p->plane_fmt[0].bytesperline, size.height, f->has_half_planes && p->num_planes == 1);
    p->colorspace = v->space;
    p->ycbcr_enc = (uint8_t)v->encoding;
    p->quantization = (uint8_t)v->range;
    p->xfer_func = (uint8_t)v->transfer;
}

static int try_format(const struct fake_v4l2 *v, struct v4l2_format *f)
{
    bool is_mplane = f->type == V4L2_BUF_TYPE_VIDEO_CAPTURE_MPLANE || f->type == V4L2_BUF_TYPE_VIDEO_OUTPUT_MPLANE;
    const struct fake_format *list = list_of(v, f->type);
    if (!list)
        return EINVAL;
    if (is_mplane)
        try_planes(v, format_in(list, f->fmt.pix_mp.pixelformat), &f->fmt.pix_mp);
    else
        try_single(v, format_in(list, f->fmt.pix.pixelformat), &f->fmt.pix);
    return 0;
}

static int request_buffers(const struct fake_v4l2 *v, struct v4l2_requestbuffers *r)
{
    if (v->fault_of_buffers)
        return v->fault_of_buffers;
    if (v->has_no_dmabuf && v->tells_no_capabilities)
        return EINVAL;
    r->capabilities = v->tells_no_capabilities
                          ? 0
                          : V4L2_BUF_CAP_SUPPORTS_MMAP | (v->has_no_dmabuf ? 0 : V4L2_BUF_CAP_SUPPORTS_DMABUF);
    r->count = r->count ? clamped(r->count, v->least_buffers, v->most_buffers) : 0;
    n_given = (int)r->count;
    return 0;
}

static int get_control(const struct fake_v4l2 *v, struct v4l2_control *c)
{
    uint32_t id = v->output ? V4L2_CID_MIN_BUFFERS_FOR_OUTPUT : V4L2_CID_MIN_BUFFERS_FOR_CAPTURE;
    if (!v->control || c->id != id)
        return EINVAL;
    c->value = (int)v->control;
    return 0;
}

static int query(const struct fake_v4l2 *v, struct v4l2_capability *c)
{
    memset(c, 0, sizeof *c);
    strcpy((char *)c->driver, v->driver);
    c->device_caps = v->capabilities;
    c->capabilities = v->capabilities | V4L2_CAP_DEVICE_CAPS;
    return 0;
}

int answer_v4l2(const struct fake_v4l2 *v, unsigned long request, void *argument)
{
    switch (request) {
    case VIDIOC_QUERYCAP: return query(v, argument);
    case VIDIOC_ENUM_FMT: return enum_format(v, argument);
    case VIDIOC_ENUM_FRAMESIZES: return enum_size(v, argument);
    case VIDIOC_TRY_FMT: return try_format(v, argument);
    case VIDIOC_REQBUFS: return request_buffers(v, argument);
    case VIDIOC_G_CTRL: return get_control(v, argument);
    default: return ENOTTY;
    }
}
