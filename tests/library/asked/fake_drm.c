#include "fakes.h"
#include <drm_fourcc.h>
#include <errno.h>
#include <linux/types.h>
#include <stdlib.h>
#include <string.h>
#include <xf86drm.h>
#include <xf86drmMode.h>

enum {
    CRTC = 11,
    CONNECTOR = 21,
    ENCODER = 31,
    TYPE = 41,
    IN_FORMATS = 42,
    ENCODING = 43,
    RANGE = 44,
    FIRST_BLOB = 100,
    FIRST_FB = 200
};

// Fills a list of the caller's where it has room, and says how many there are.
static void fill(uint64_t at, uint32_t *count, const void *list, uint32_t n, size_t size)
{
    if (at && *count >= n && n)
        memcpy((void *)(uintptr_t)at, list, n * size);
    *count = n;
}

static void fill_text(char *at, __kernel_size_t *length, const char *text)
{
    if (at && *length >= strlen(text))
        memcpy(at, text, strlen(text));
    *length = strlen(text);
}

static int version(const struct fake_drm *d, struct drm_version *v)
{
    fill_text(v->name, &v->name_len, d->driver);
    fill_text(v->date, &v->date_len, "20200101");
    fill_text(v->desc, &v->desc_len, "a display");
    return 0;
}

static int get_cap(const struct fake_drm *d, struct drm_get_cap *c)
{
    c->value = c->capability == DRM_CAP_DUMB_BUFFER                                              ? d->has_dumb
               : c->capability == DRM_CAP_CURSOR_WIDTH || c->capability == DRM_CAP_CURSOR_HEIGHT ? d->cursor
                                                                                                 : 0;
    return 0;
}

static int resources(const struct fake_drm *d, struct drm_mode_card_res *r)
{
    const uint32_t crtc = CRTC, connector = CONNECTOR, encoder = ENCODER;
    if (d->has_no_display)
        return EOPNOTSUPP;
    fill(r->crtc_id_ptr, &r->count_crtcs, &crtc, 1, 4);
    fill(r->connector_id_ptr, &r->count_connectors, &connector, 1, 4);
    fill(r->encoder_id_ptr, &r->count_encoders, &encoder, 1, 4);
    r->count_fbs = 0;
    r->max_width = d->max_width;
    r->max_height = d->max_height;
    r->min_height = d->min_height;
    return 0;
}

static int get_crtc(const struct fake_drm *d, struct drm_mode_crtc *c)
{
    c->mode_valid = d->active.width != 0;
    c->fb_id = c->mode_valid ? 7 : 0;
    c->mode.hdisplay = (uint16_t)d->active.width;
    c->mode.vdisplay = (uint16_t)d->active.height;
    return 0;
}

static int get_connector(const struct fake_drm *d, struct drm_mode_get_connector *c)
{
    const uint32_t encoder = ENCODER;
    struct drm_mode_modeinfo mode = {.hdisplay = (uint16_t)d->mode.width, .vdisplay = (uint16_t)d->mode.height};
    fill(c->encoders_ptr, &c->count_encoders, &encoder, 1, 4);
    fill(c->modes_ptr, &c->count_modes, &mode, d->mode.width ? 1 : 0, sizeof mode);
    c->count_props = 0;
    c->connection = d->is_disconnected || !d->mode.width ? DRM_MODE_DISCONNECTED : DRM_MODE_CONNECTED;
    return 0;
}

static int get_encoder(struct drm_mode_get_encoder *e)
{
    e->possible_crtcs = 1;
    return 0;
}

static int plane_resources(const struct fake_drm *d, struct drm_mode_get_plane_res *r)
{
    uint32_t ids[8];
    for (uint32_t i = 0; i < d->n_planes; i++)
        ids[i] = d->planes[i].id;
    fill(r->plane_id_ptr, &r->count_planes, ids, d->n_planes, 4);
    return 0;
}

static const struct fake_plane *plane_of(const struct fake_drm *d, uint32_t id)
{
    for (uint32_t i = 0; i < d->n_planes; i++)
        if (d->planes[i].id == id)
            return &d->planes[i];
    return NULL;
}

static int get_plane(const struct fake_drm *d, struct drm_mode_get_plane *g)
{
    const struct fake_plane *p = plane_of(d, g->plane_id);
    if (!p)
        return ENOENT;
    g->possible_crtcs = p->crtcs;
    fill(g->format_type_ptr, &g->count_format_types, p->formats, p->n_formats, 4);
    return 0;
}

static int object_properties(const struct fake_drm *d, struct drm_mode_obj_get_properties *o)
{
    const struct fake_plane *p = plane_of(d, o->obj_id);
    uint32_t ids[4] = {TYPE}, n = 1, count = o->count_props;
    uint64_t values[4] = {p->type};
    if (p->in_formats) {
        ids[n] = IN_FORMATS;
        values[n++] = FIRST_BLOB + (uint32_t)(p - d->planes);
    }
    if (p->has_color_encoding) {
        ids[n++] = ENCODING;
        ids[n++] = RANGE;
    }
    fill(o->props_ptr, &count, ids, n, 4);
    fill(o->prop_values_ptr, &o->count_props, values, n, 8);
    return 0;
}

static int get_property(struct drm_mode_get_property *g)
{
    static const char *const names[] = {"type", "IN_FORMATS", "COLOR_ENCODING", "COLOR_RANGE"};
    struct drm_mode_property_enum enums[2] = {{.value = 0}, {.value = 1}};
    bool is_encoding = g->prop_id == ENCODING, is_enum = is_encoding || g->prop_id == RANGE;
    strcpy(g->name, names[g->prop_id - TYPE]);
    strcpy(enums[0].name, is_encoding ? "ITU-R BT.601 YCbCr" : "YCbCr limited range");
    strcpy(enums[1].name, is_encoding ? "ITU-R BT.709 YCbCr" : "YCbCr full range");
    g->flags = is_enum ? DRM_MODE_PROP_ENUM : g->prop_id == IN_FORMATS ? DRM_MODE_PROP_BLOB : DRM_MODE_PROP_RANGE;
    g->count_values = 0;
    fill(g->enum_blob_ptr, &g->count_enum_blobs, enums, is_enum ? 2 : 0, sizeof enums[0]);
    return 0;
}

static int get_blob(const struct fake_drm *d, struct drm_mode_get_blob *g)
{
    const struct fake_blob *b = d->planes[g->blob_id - FIRST_BLOB].in_formats;
    struct {
        struct drm_format_modifier_blob head;
        uint32_t formats[72];
        struct drm_format_modifier modifiers[4];
    } blob = {.head = {.version = FORMAT_BLOB_CURRENT, .count_formats = b->n_formats, .count_modifiers = b->n_masks}};
    blob.head.formats_offset = offsetof(__typeof__(blob), formats);
    blob.head.modifiers_offset = offsetof(__typeof__(blob), modifiers);
    memcpy(blob.formats, b->formats, 4 * b->n_formats);
    for (uint32_t i = 0; i < b->n_masks; i++)
        blob.modifiers[i] = (struct drm_format_modifier){
            .formats = b->masks[i].formats, .offset = b->masks[i].offset, .modifier = b->masks[i].modifier};
    fill(g->data, &g->length, &blob, 1, sizeof blob);
    g->length = sizeof blob;
    return 0;
}

// The pitch of the dumb buffer that was made last.
static uint32_t last_pitch;

static int create_dumb(const struct fake_drm *d, struct drm_mode_create_dumb *c)
{
    uint32_t row = (c->width * c->bpp + 7) / 8;
    if (!d->has_dumb)
        return ENOSYS;
    c->pitch = last_pitch = (row + d->pitch_step - 1) / d->pitch_step * d->pitch_step;
    c->size = (uint64_t)c->pitch * c->height;
    c->handle = (uint32_t)++n_given;
    return 0;
}

static int add_fb(const struct fake_drm *d, struct drm_mode_fb_cmd2 *f)
{
    uint32_t row = f->width * (f->pixel_format == DRM_FORMAT_RGB565 ? 2 : 4),
             own = (row + d->pitch_step - 1) / d->pitch_step * d->pitch_step;
    if (f->height < d->min_height || f->pitches[0] != last_pitch ||
        f->pitches[0] > (d->most_pitch ? d->most_pitch : own))
        return EINVAL;
    f->fb_id = FIRST_FB;
    n_given++;
    return 0;
}

int answer_drm(const struct fake_drm *d, unsigned long request, void *argument)
{
    switch (request) {
    case DRM_IOCTL_VERSION: return version(d, argument);
    case DRM_IOCTL_SET_CLIENT_CAP: return 0;
    case DRM_IOCTL_GET_CAP: return get_cap(d, argument);
    case DRM_IOCTL_MODE_GETRESOURCES: return resources(d, argument);
    case DRM_IOCTL_MODE_GETCRTC: return get_crtc(d, argument);
    case DRM_IOCTL_MODE_GETCONNECTOR: return get_connector(d, argument);
    case DRM_IOCTL_MODE_GETENCODER: return get_encoder(argument);
    case DRM_IOCTL_MODE_GETPLANERESOURCES: return plane_resources(d, argument);
    case DRM_IOCTL_MODE_GETPLANE: return get_plane(d, argument);
    case DRM_IOCTL_MODE_OBJ_GETPROPERTIES: return object_properties(d, argument);
    case DRM_IOCTL_MODE_GETPROPERTY: return get_property(argument);
    case DRM_IOCTL_MODE_GETPROPBLOB: return get_blob(d, argument);
    case DRM_IOCTL_MODE_CREATE_DUMB: return create_dumb(d, argument);
    case DRM_IOCTL_MODE_ADDFB2: return add_fb(d, argument);
    case DRM_IOCTL_MODE_DESTROY_DUMB: case DRM_IOCTL_MODE_RMFB: n_given--; return 0;
    default: return ENOTTY;
    }
}
