#include "formats.h"
#include <drm_fourcc.h>
#include <linux/videodev2.h>
#include <stddef.h>

/* tests/text/names compares names, codes, bytes and planes with the definitions. */
static const struct format formats[] = {
    {"R8G8B8A8", DRM_FORMAT_ABGR8888, V4L2_PIX_FMT_RGBA32, 4, 1, true},
    {"B8G8R8A8", DRM_FORMAT_ARGB8888, V4L2_PIX_FMT_ABGR32, 4, 1, true},
    {"R8G8B8X8", DRM_FORMAT_XBGR8888, V4L2_PIX_FMT_RGBX32, 4, 1, true},
    {"B8G8R8X8", DRM_FORMAT_XRGB8888, V4L2_PIX_FMT_XBGR32, 4, 1, true},
    {"R8G8B8", DRM_FORMAT_BGR888, V4L2_PIX_FMT_RGB24, 3, 1, true},
    {"B8G8R8", DRM_FORMAT_RGB888, V4L2_PIX_FMT_BGR24, 3, 1, true},
    {"R5G6B5", DRM_FORMAT_RGB565, V4L2_PIX_FMT_RGB565, 2, 1, true},
    {"R8G8", DRM_FORMAT_GR88, 0, 2, 1, true},
    {"YUY2", DRM_FORMAT_YUYV, V4L2_PIX_FMT_YUYV, 2, 1, false},
    {"R8", DRM_FORMAT_R8, V4L2_PIX_FMT_GREY, 1, 1, false},
    {"I420", DRM_FORMAT_YUV420, V4L2_PIX_FMT_YUV420, 1, 3, false},
    {"YV12", DRM_FORMAT_YVU420, V4L2_PIX_FMT_YVU420, 1, 3, false},
    {"NV12", DRM_FORMAT_NV12, V4L2_PIX_FMT_NV12, 1, 2, false},
    {"P010", DRM_FORMAT_P010, V4L2_PIX_FMT_P010, 2, 2, false},
};
#define N_FORMATS (sizeof formats / sizeof formats[0])

static const struct modifier modifiers[] = {
    {"LINEAR", DRM_FORMAT_MOD_LINEAR},
    {"INTEL_I915_X_TILED", I915_FORMAT_MOD_X_TILED},
    {"INTEL_I915_Y_TILED", I915_FORMAT_MOD_Y_TILED},
};
#define N_MODIFIERS (sizeof modifiers / sizeof modifiers[0])

#define FULL V4L2_QUANTIZATION_FULL_RANGE
#define LIMITED V4L2_QUANTIZATION_LIM_RANGE

const struct color known_colors[N_COLORS] = {
    {"SRGB", MEZULOBU_SRGB,
     {V4L2_COLORSPACE_SRGB, V4L2_YCBCR_ENC_601, FULL, V4L2_XFER_FUNC_SRGB}},
    {"REC601_NTSC", MEZULOBU_REC601_NTSC,
     {V4L2_COLORSPACE_SMPTE170M, V4L2_YCBCR_ENC_601, LIMITED, V4L2_XFER_FUNC_709}},
    {"REC601_NTSC_FULL_RANGE", MEZULOBU_REC601_NTSC_FULL_RANGE,
     {V4L2_COLORSPACE_SMPTE170M, V4L2_YCBCR_ENC_601, FULL, V4L2_XFER_FUNC_709}},
    {"REC601_PAL", MEZULOBU_REC601_PAL,
     {V4L2_COLORSPACE_470_SYSTEM_BG, V4L2_YCBCR_ENC_601, LIMITED, V4L2_XFER_FUNC_709}},
    {"REC601_PAL_FULL_RANGE", MEZULOBU_REC601_PAL_FULL_RANGE,
     {V4L2_COLORSPACE_470_SYSTEM_BG, V4L2_YCBCR_ENC_601, FULL, V4L2_XFER_FUNC_709}},
    {"REC709", MEZULOBU_REC709,
     {V4L2_COLORSPACE_REC709, V4L2_YCBCR_ENC_709, LIMITED, V4L2_XFER_FUNC_709}},
    {"REC2020", MEZULOBU_REC2020,
     {V4L2_COLORSPACE_BT2020, V4L2_YCBCR_ENC_BT2020, LIMITED, V4L2_XFER_FUNC_709}},
    {"REC2100", MEZULOBU_REC2100,
     {V4L2_COLORSPACE_BT2020, V4L2_YCBCR_ENC_BT2020, LIMITED, V4L2_XFER_FUNC_SMPTE2084}},
};

const struct format *format_of_drm(uint32_t code)
{
    for (size_t i = 0; i < N_FORMATS; i++)
        if (formats[i].drm == code)
            return &formats[i];
    return NULL;
}

const struct format *format_of_v4l2(uint32_t code)
{
    for (size_t i = 0; code && i < N_FORMATS; i++)
        if (formats[i].v4l2 == code)
            return &formats[i];
    return NULL;
}

uint64_t image_bytes(const struct format *format, uint32_t pitch, uint32_t height)
{
    uint64_t first = (uint64_t)pitch * height;
    return format->planes == 1 ? first : (3 * first + 1) / 2;
}

const struct modifier *modifier_of(uint64_t bits)
{
    for (size_t i = 0; i < N_MODIFIERS; i++)
        if (modifiers[i].bits == bits)
            return &modifiers[i];
    return NULL;
}

bool is_pair(const struct format *format, uint64_t modifier)
{
    return modifier == DRM_FORMAT_MOD_LINEAR || format->pixel_bytes == 4;
}

const struct color *color_of(uint32_t bit)
{
    for (size_t i = 0; i < N_COLORS; i++)
        if (known_colors[i].bit == bit)
            return &known_colors[i];
    return NULL;
}

struct colorimetry resolved(struct colorimetry told, bool is_rgb)
{
    struct colorimetry c = told;
    if (c.space == V4L2_COLORSPACE_DEFAULT)
        c.space = V4L2_MAP_COLORSPACE_DEFAULT(false, false);
    if (c.encoding == V4L2_YCBCR_ENC_DEFAULT)
        c.encoding = V4L2_MAP_YCBCR_ENC_DEFAULT(c.space);
    if (c.range == V4L2_QUANTIZATION_DEFAULT)
        c.range = V4L2_MAP_QUANTIZATION_DEFAULT(is_rgb, c.space, c.encoding);
    if (c.transfer == V4L2_XFER_FUNC_DEFAULT)
        c.transfer = V4L2_MAP_XFER_FUNC_DEFAULT(c.space);
    return c;
}

/* Whether images that are no RGB have this colour by their encoding, range and transfer. */
static bool is_encoded(const struct color *color, const struct colorimetry *c)
{
    bool is_pq = c->transfer == V4L2_XFER_FUNC_SMPTE2084;
    return color->bit != MEZULOBU_SRGB && color->v4l2.encoding == c->encoding
        && color->v4l2.range == c->range && is_pq == (color->bit == MEZULOBU_REC2100);
}

static uint32_t encoded_colors(const struct colorimetry *c)
{
    uint32_t any = 0, exact = 0;
    for (size_t i = 0; i < N_COLORS; i++) {
        if (!is_encoded(&known_colors[i], c))
            continue;
        any |= known_colors[i].bit;
        if (known_colors[i].v4l2.space == c->space)
            exact |= known_colors[i].bit;
    }
    return exact ? exact : any;
}

uint32_t colors_of(struct colorimetry told, bool is_rgb)
{
    struct colorimetry c = resolved(told, is_rgb);
    if (!is_rgb)
        return encoded_colors(&c);
    return c.space == V4L2_COLORSPACE_SRGB && c.range == FULL ? MEZULOBU_SRGB : 0;
}

const char *mezulobu_pixel_format_name(uint32_t format)
{
    const struct format *known = format_of_drm(format);
    return known ? known->name : NULL;
}

uint32_t mezulobu_pixel_bytes(uint32_t format)
{
    const struct format *known = format_of_drm(format);
    return known ? known->pixel_bytes : 0;
}

const char *mezulobu_modifier_name(uint64_t modifier)
{
    const struct modifier *known = modifier_of(modifier);
    return known ? known->name : NULL;
}

const char *mezulobu_color_name(uint32_t color)
{
    const struct color *known = color_of(color);
    return known ? known->name : NULL;
}
