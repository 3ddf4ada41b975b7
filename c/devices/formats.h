/* The formats, modifiers and colours that have names here, with what the kernel calls them. */
#ifndef MEZULOBU_DEVICE_FORMATS_H
#define MEZULOBU_DEVICE_FORMATS_H

#include "mezulobu_devices.h"

struct format {
    const char *name;
    uint32_t drm;
    uint32_t v4l2;       /* 0 where V4L2 has none */
    uint8_t pixel_bytes; /* of one pixel in a row, of the first plane */
    uint8_t planes;      /* with 2 and 3, two by two pixels share their colours */
    bool is_rgb;         /* else luma, with the colours that it has */
};

/* Both are null where there is none. */
const struct format *format_of_drm(uint32_t code);
const struct format *format_of_v4l2(uint32_t code);

/* The bytes of an image without tiles. */
uint64_t image_bytes(const struct format *format, uint32_t pitch, uint32_t height);

/* Whether tiles of this modifier go with the format. */
bool is_pair(const struct format *format, uint64_t modifier);

struct modifier {
    const char *name;
    uint64_t bits;
};

const struct modifier *modifier_of(uint64_t bits);

/* How V4L2 says a colour, with each default resolved. */
struct colorimetry {
    uint32_t space, encoding, range, transfer;
};

struct color {
    const char *name;
    uint32_t bit;
    struct colorimetry v4l2;
};

#define N_COLORS 8
extern const struct color known_colors[N_COLORS];

const struct color *color_of(uint32_t bit);

/* What is told of a format of this kind, with each default resolved as V4L2 says. */
struct colorimetry resolved(struct colorimetry told, bool is_rgb);

/* The set of colours that images of such a format have. RGB is SRGB, or has no name. Else the
 * encoding and the range decide, and of two colours that share both, the primaries where V4L2's
 * colour space is that of one of them. */
uint32_t colors_of(struct colorimetry told, bool is_rgb);

#endif
