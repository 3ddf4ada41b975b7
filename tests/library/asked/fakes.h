// fakes: an `ioctl` that answers as drivers do, from descriptions of drivers. The number of a file is that of a driver.
#ifndef FAKES_H
#define FAKES_H

#include <stdbool.h>
#include <stddef.h>
#include <stdint.h>

enum { FIRST_V4L2 = 1000, FIRST_DRM = 2000 };

// How a driver makes a pitch of the bytes of a row and the pitch that is asked for, and the bytes of an image.
typedef uint32_t pitch_rule(uint32_t row, uint32_t asked);
typedef uint32_t bytes_rule(uint32_t pitch, uint32_t height, bool has_half_planes);

struct fake_format {
    uint32_t code, flags, pixel_bytes;
    bool has_half_planes;
    uint32_t buffers; // in which the planes lie; 0 is 1
    const char *description;
};

struct fake_size {
    uint32_t width, height;
};

struct fake_v4l2 {
    const char *driver;
    uint32_t capabilities;
    const struct fake_format *capture, *output; // each list ends with a code of 0
    const struct fake_size *sizes;              // discrete ones, which end with 0 by 0; else by steps
    struct fake_size least, most, step;         // a step of 0: the driver doesn't list sizes, and takes each
    pitch_rule *pitch;
    bytes_rule *bytes;
    uint32_t field, space, encoding, range, transfer; // what it tells of images; a field of 0 is that of whole images
    bool has_no_dmabuf, tells_no_capabilities, converts;
    uint32_t least_buffers, most_buffers, control; // a control of 0: there is none
    int fault_of_buffers;                          // an errno
};

// A modifier, and the formats of a list that go with it: of 64 from the one of this offset on, one a bit.
struct fake_mask {
    uint64_t formats;
    uint32_t offset;
    uint64_t modifier;
};

// What IN_FORMATS holds.
struct fake_blob {
    const uint32_t *formats, n_formats;
    const struct fake_mask *masks;
    uint32_t n_masks;
};

struct fake_plane {
    uint32_t id, type, crtcs;
    const uint32_t *formats, n_formats;
    const struct fake_blob *in_formats; // null: there is none
    bool has_color_encoding;
};

struct fake_drm {
    const char *driver;
    const struct fake_plane *planes;
    uint32_t n_planes, max_width, max_height, min_height, cursor;
    struct fake_size active, mode; // of the first CRTC, and of the connector; 0 by 0: none
    uint32_t pitch_step,
        most_pitch; // of dumb buffers, and of framebuffers; 0: framebuffers take a dumb buffer's own alone
    bool has_dumb, has_no_display, is_disconnected;
};

extern const struct fake_v4l2 fake_cameras[];
extern const struct fake_drm fake_displays[];

int answer_v4l2(const struct fake_v4l2 *driver, unsigned long request, void *argument);
int answer_drm(const struct fake_drm *driver, unsigned long request, void *argument);

// The ioctl of this number fails, counted from 1; 0: none does. And how many there were.
extern unsigned failing_ioctl, n_ioctls;
extern unsigned long failed_request;

// What drivers have given and not got back: buffers of a queue, dumb buffers, framebuffers.
extern int n_given;

#endif
