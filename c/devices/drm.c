/* What a plane of a DRM device takes. Pitches are asked by dumb buffers and framebuffers, which are
 * removed again. */
#include "asking.h"
#include "formats.h"
#include <drm_fourcc.h>
#include <stdlib.h>
#include <string.h>
#include <xf86drm.h>
#include <xf86drmMode.h>

/* Longer ones aren't asked for: their buffers would be large. */
#define LONG_PITCH (1U << 17)
#define MOST_STEP 65536

/* A plane that is to be asked, and what is known before it is. */
struct plane {
    int fd;
    drmModePlanePtr told;
    drmModePropertyBlobPtr in_formats; /* null where the driver has none: then all is linear */
    uint64_t type;                     /* DRM_PLANE_TYPE_PRIMARY and others */
    uint32_t yuv_colors;               /* those of formats that are no RGB */
    struct mezulobu_size least, most;  /* sizes of images */
    uint32_t rows;                     /* the least height of a framebuffer */
    bool has_dumb;
};

/* ---- Properties ----------------------------------------------------------------------------- */

/* The values of a plane that decide which colours it can be set to. */
struct color_values {
    bool is_601, is_709, is_2020, is_limited, is_full;
};

static void add_color_value(struct color_values *values, const char *name)
{
    values->is_601 |= !strcmp(name, "ITU-R BT.601 YCbCr");
    values->is_709 |= !strcmp(name, "ITU-R BT.709 YCbCr");
    values->is_2020 |= !strcmp(name, "ITU-R BT.2020 YCbCr");
    values->is_limited |= !strcmp(name, "YCbCr limited range");
    values->is_full |= !strcmp(name, "YCbCr full range");
}

/* A display doesn't tell primaries apart, nor how light is coded: of names that differ by these
 * alone it takes each. One that doesn't tell its encoding takes no name. */
static uint32_t yuv_colors(const struct color_values *v)
{
    uint32_t set = 0;
    if (v->is_601 && v->is_limited)
        set |= MEZULOBU_REC601_NTSC | MEZULOBU_REC601_PAL;
    if (v->is_601 && v->is_full)
        set |= MEZULOBU_REC601_NTSC_FULL_RANGE | MEZULOBU_REC601_PAL_FULL_RANGE;
    if (v->is_709 && v->is_limited)
        set |= MEZULOBU_REC709;
    if (v->is_2020 && v->is_limited)
        set |= MEZULOBU_REC2020 | MEZULOBU_REC2100;
    return set;
}

static void read_property(struct plane *plane, const drmModePropertyRes *property, uint64_t value,
                          struct color_values *values)
{
    if (!strcmp(property->name, "type"))
        plane->type = value;
    if (!strcmp(property->name, "IN_FORMATS"))
        plane->in_formats = drmModeGetPropertyBlob(plane->fd, (uint32_t)value);
    if (!strcmp(property->name, "COLOR_ENCODING") || !strcmp(property->name, "COLOR_RANGE"))
        for (int i = 0; i < property->count_enums; i++)
            add_color_value(values, property->enums[i].name);
}

static void read_properties(struct plane *plane)
{
    struct color_values values = {0};
    drmModeObjectPropertiesPtr all =
        drmModeObjectGetProperties(plane->fd, plane->told->plane_id, DRM_MODE_OBJECT_PLANE);
    for (uint32_t i = 0; all && i < all->count_props; i++) {
        drmModePropertyPtr property = drmModeGetProperty(plane->fd, all->props[i]);
        if (property)
            read_property(plane, property, all->prop_values[i], &values);
        drmModeFreeProperty(property);
    }
    drmModeFreeObjectProperties(all);
    plane->yuv_colors = yuv_colors(&values);
}

/* ---- Which plane ---------------------------------------------------------------------------- */

/* A CRTC by its number, and the size of its mode. */
struct screen {
    int crtc; /* -1: none */
    struct mezulobu_size size;
};

static struct screen active_screen(int fd, const drmModeRes *has)
{
    struct screen found = {-1, {0, 0}};
    for (int i = 0; i < has->count_crtcs && found.crtc < 0; i++) {
        drmModeCrtcPtr crtc = drmModeGetCrtc(fd, has->crtcs[i]);
        if (crtc && crtc->mode_valid && crtc->buffer_id)
            found = (struct screen){i, {crtc->mode.hdisplay, crtc->mode.vdisplay}};
        drmModeFreeCrtc(crtc);
    }
    return found;
}

/* The first CRTC that can show on a connector. */
static int crtc_of(int fd, const drmModeRes *has, const drmModeConnector *connector)
{
    uint32_t possible = drmModeConnectorGetPossibleCrtcs(fd, connector);
    for (int i = 0; i < has->count_crtcs; i++)
        if (possible & 1U << i)
            return i;
    return -1;
}

static struct screen connected_screen(int fd, const drmModeRes *has)
{
    struct screen found = {-1, {0, 0}};
    for (int i = 0; i < has->count_connectors && found.crtc < 0; i++) {
        drmModeConnectorPtr c = drmModeGetConnector(fd, has->connectors[i]);
        if (c && c->connection == DRM_MODE_CONNECTED && c->count_modes)
            found = (struct screen){
                crtc_of(fd, has, c), {c->modes[0].hdisplay, c->modes[0].vdisplay}};
        drmModeFreeConnector(c);
    }
    return found;
}

static bool is_wanted(const struct plane *plane, uint32_t id, int crtc)
{
    if (id)
        return plane->told->plane_id == id;
    return plane->type == DRM_PLANE_TYPE_PRIMARY && crtc >= 0
        && plane->told->possible_crtcs & 1U << crtc;
}

static void let_go(struct plane *plane)
{
    drmModeFreePropertyBlob(plane->in_formats);
    drmModeFreePlane(plane->told);
    plane->in_formats = NULL;
    plane->told = NULL;
}

/* Whether the plane of an id, or the primary one of a CRTC, is found. */
static bool find_plane(struct plane *plane, uint32_t id, int crtc)
{
    drmModePlaneResPtr all = drmModeGetPlaneResources(plane->fd);
    bool is_found = false;
    for (uint32_t i = 0; all && i < all->count_planes && !is_found; i++) {
        plane->told = drmModeGetPlane(plane->fd, all->planes[i]);
        if (!plane->told)
            continue;
        read_properties(plane);
        is_found = is_wanted(plane, id, crtc);
        if (!is_found)
            let_go(plane);
    }
    drmModeFreePlaneResources(all);
    return is_found;
}

/* ---- Pitches -------------------------------------------------------------------------------- */

/* The pitch of a dumb buffer of the least height, and its handle; 0 where there is none. */
static uint32_t make_dumb(const struct plane *plane, uint32_t width, uint32_t bytes,
                          uint32_t *handle)
{
    struct drm_mode_create_dumb made = {.width = width, .height = plane->rows, .bpp = 8 * bytes};
    if (drmIoctl(plane->fd, DRM_IOCTL_MODE_CREATE_DUMB, &made))
        return 0;
    *handle = made.handle;
    return made.pitch;
}

static void drop_dumb(int fd, uint32_t handle)
{
    struct drm_mode_destroy_dumb gone = {.handle = handle};
    drmIoctl(fd, DRM_IOCTL_MODE_DESTROY_DUMB, &gone);
}

static uint32_t dumb_pitch(const struct plane *plane, uint32_t width, uint32_t bytes)
{
    uint32_t handle, pitch = make_dumb(plane, width, bytes, &handle);
    if (pitch)
        drop_dumb(plane->fd, handle);
    return pitch;
}

/* Whether a framebuffer of the least height, of a dumb buffer of this pitch, is taken. */
static bool is_pitch_taken(const struct plane *plane, const struct format *format, uint32_t width,
                           uint32_t pitch)
{
    uint32_t bytes = format->pixel_bytes, handle, fb = 0;
    uint32_t got = make_dumb(plane, pitch / bytes, bytes, &handle);
    if (!got)
        return false;
    uint32_t handles[4] = {handle}, pitches[4] = {pitch}, offsets[4] = {0};
    bool is_taken = got == pitch
        && !drmModeAddFB2(plane->fd, width, plane->rows, format->drm, handles, pitches, offsets,
                          &fb, 0);
    if (is_taken)
        drmModeRmFB(plane->fd, fb);
    drop_dumb(plane->fd, handle);
    return is_taken;
}

static uint32_t up_to(uint32_t step, uint32_t n) { return (n + (step - 1)) / step * step; }

/* The bounds on pitches of images without tiles: the least is that of a dumb buffer, and the step
 * that of one of one pixel. Of a longer one a framebuffer is made; where that fails there is none.
 * Planes of colours lie beyond its rows, so of these no framebuffer is made. */
static void put_pitches(const struct plane *plane, const struct format *format, uint32_t width,
                        struct mezulobu_entry *entry)
{
    uint32_t least = dumb_pitch(plane, width, format->pixel_bytes);
    uint32_t step = dumb_pitch(plane, 1, format->pixel_bytes);
    if (!least || !step)
        return;
    entry->min_pitch = entry->max_pitch = least;
    if (step > MOST_STEP || least != up_to(step, width * format->pixel_bytes) || format->planes > 1
        || !is_pitch_taken(plane, format, width, least + step))
        return;
    entry->pitch_divisor = step;
    entry->max_pitch = least + step;
    while (entry->max_pitch < LONG_PITCH
           && is_pitch_taken(plane, format, width, up_to(step, 2 * entry->max_pitch)))
        entry->max_pitch = up_to(step, 2 * entry->max_pitch);
}

/* ---- Formats and modifiers ------------------------------------------------------------------ */

static void add_pair(const struct plane *plane, const struct format *format, uint64_t modifier,
                     struct answer *answer)
{
    struct mezulobu_entry entry = {
        .struct_size = sizeof entry, .format = format->drm, .modifier = modifier,
        .colors = format->is_rgb ? MEZULOBU_SRGB : plane->yuv_colors,
        .min_size = plane->least, .max_size = plane->most};
    struct mezulobu_omitted omitted = {.format = format->drm, .modifier = modifier};
    omitted.why = !is_pair(format, modifier) ? MEZULOBU_OMITTED_PAIR
                : !entry.colors              ? MEZULOBU_OMITTED_COLORS
                                             : 0;
    put_text(omitted.name, sizeof omitted.name, format->name, sizeof omitted.name);
    if (omitted.why) {
        add_omitted(answer, &omitted);
        return;
    }
    if (plane->has_dumb && modifier == DRM_FORMAT_MOD_LINEAR)
        put_pitches(plane, format, plane->least.width, &entry);
    add_entry(answer, &entry);
}

/* Of a format that has no name here the kernel's is told. */
static void omit_format(uint32_t code, uint32_t why, struct answer *answer)
{
    struct mezulobu_omitted omitted = {.why = why, .format = code};
    const struct format *known = format_of_drm(code);
    char *name = known ? NULL : drmGetFormatName(code);
    const char *told = known ? known->name : name ? name : "?";
    put_text(omitted.name, sizeof omitted.name, told, sizeof omitted.name);
    free(name);
    add_omitted(answer, &omitted);
}

/* The pairs of a format and those of its modifiers in IN_FORMATS that have names here: 0, or why
 * there are none. */
static uint32_t add_listed(const struct plane *plane, const struct format *format,
                           struct answer *answer)
{
    drmModeFormatModifierIterator each = {0};
    uint32_t why = MEZULOBU_OMITTED_UNLISTED;
    while (drmModeFormatModifierBlobIterNext(plane->in_formats, &each)) {
        if (each.fmt != format->drm)
            continue;
        if (modifier_of(each.mod)) {
            add_pair(plane, format, each.mod, answer);
            why = 0;
        } else if (why)
            why = MEZULOBU_OMITTED_MODIFIERS;
    }
    return why;
}

/* A format's modifiers: those of IN_FORMATS, or linear alone. */
static void add_format(const struct plane *plane, uint32_t code, struct answer *answer)
{
    const struct format *format = format_of_drm(code);
    uint32_t why = 0;
    if (!format)
        why = MEZULOBU_OMITTED_FORMAT;
    else if (plane->in_formats)
        why = add_listed(plane, format, answer);
    else
        add_pair(plane, format, DRM_FORMAT_MOD_LINEAR, answer);
    if (why)
        omit_format(code, why, answer);
}

/* The modifiers of a driver's list that have no name here, each once. */
static void add_unnamed_modifiers(const struct plane *plane, struct answer *answer)
{
    const struct drm_format_modifier_blob *blob =
        plane->in_formats ? plane->in_formats->data : NULL;
    for (uint32_t i = 0; blob && i < blob->count_modifiers; i++) {
        struct drm_format_modifier m;
        memcpy(&m, (const char *)blob + blob->modifiers_offset + i * sizeof m, sizeof m);
        if (modifier_of(m.modifier))
            continue;
        struct mezulobu_omitted omitted = {
            .why = MEZULOBU_OMITTED_MODIFIER, .modifier = m.modifier};
        char *name = drmGetFormatModifierName(m.modifier);
        put_text(omitted.name, sizeof omitted.name, name ? name : "?", sizeof omitted.name);
        free(name);
        add_omitted(answer, &omitted);
    }
}

static uint32_t capability(int fd, uint64_t which, uint32_t otherwise)
{
    uint64_t value = 0;
    return drmGetCap(fd, which, &value) || !value ? otherwise : (uint32_t)value;
}

static uint32_t lesser(uint32_t a, uint32_t b) { return b && b < a ? b : a; }

/* The sizes that the plane takes: from the one asked for, as far as the device has it. A cursor's
 * is the device's own; 64 by 64 is what stands for one that isn't told. */
static void put_sizes(struct plane *plane, const drmModeRes *has, struct mezulobu_size asked)
{
    plane->rows = has->min_height ? has->min_height : 1;
    plane->most = (struct mezulobu_size){has->max_width, has->max_height};
    plane->least.width = lesser(asked.width, has->max_width);
    plane->least.height = lesser(asked.height, has->max_height);
    if (plane->type != DRM_PLANE_TYPE_CURSOR)
        return;
    plane->most.width = capability(plane->fd, DRM_CAP_CURSOR_WIDTH, 64);
    plane->most.height = capability(plane->fd, DRM_CAP_CURSOR_HEIGHT, 64);
    plane->least = plane->most;
}

static int ask_plane(struct plane *plane, uint32_t id, struct mezulobu_size asked,
                     const drmModeRes *has, struct answer *answer)
{
    struct mezulobu_participant told = {
        .usage = MEZULOBU_USE_DISPLAY, .cpu = true, .ram = true, .camping = LEAST_CAMPING};
    struct screen screen = active_screen(plane->fd, has);
    if (screen.crtc < 0)
        screen = connected_screen(plane->fd, has);
    if (!find_plane(plane, id, screen.crtc))
        return in_trouble(answer->device, MEZULOBU_TROUBLE_NO_PLANE);
    put_sizes(plane, has, asked.width && asked.height ? asked : screen.size);
    for (uint32_t i = 0; i < plane->told->count_formats; i++)
        add_format(plane, plane->told->formats[i], answer);
    add_unnamed_modifiers(plane, answer);
    let_go(plane);
    return finish(answer, &told);
}

int mezulobu_drm_participant(int fd, uint32_t plane, struct mezulobu_size size,
                             struct mezulobu_device *device)
{
    struct plane asked = {.fd = fd};
    struct answer answer;
    if (!is_usable(device) || !size.width != !size.height)
        return MEZULOBU_MISUSED;
    begin(&answer, device);
    drmVersionPtr version = drmGetVersion(fd);
    if (!version)
        return in_trouble(device, MEZULOBU_TROUBLE_OTHER_KIND);
    put_driver(device, version->name);
    drmFreeVersion(version);
    if (drmSetClientCap(fd, DRM_CLIENT_CAP_UNIVERSAL_PLANES, 1))
        return in_trouble(device, MEZULOBU_TROUBLE_ERROR);
    asked.has_dumb = capability(fd, DRM_CAP_DUMB_BUFFER, 0);
    drmModeResPtr has = drmModeGetResources(fd);
    if (!has)
        return in_trouble(device, MEZULOBU_TROUBLE_ERROR);
    int status = ask_plane(&asked, plane, size, has, &answer);
    drmModeFreeResources(has);
    return status;
}
