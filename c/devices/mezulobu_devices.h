/* mezulobu_devices.h: what V4L2 and DRM devices say of the buffers that they take, as participants
 * of mezulobu_negotiate. Link with: pkg-config --cflags --libs mezulobu-devices
 *
 * A call asks a device that the caller has opened. It keeps nothing, and prints nothing. A call on
 * a V4L2 device asks its queue for buffers and gives them back, so the queue may not have any; a
 * call on a DRM device makes buffers and framebuffers that it removes again, and lets the file
 * list all planes (DRM_CLIENT_CAP_UNIVERSAL_PLANES). Else a device is as it was. Any thread may
 * call, and not two at once on one device. */
#ifndef MEZULOBU_DEVICES_H
#define MEZULOBU_DEVICES_H

#include "mezulobu.h"

#ifdef __cplusplus
extern "C" {
#endif

/* What a call answers besides DONE, MISUSED, TOO_SMALL and NO (the device can't take part). */
#define MEZULOBU_DEVICE_FAULT 1 /* the device can't be asked */

/* Why a device can't take part (status NO) or can't be asked (DEVICE_FAULT). */
enum mezulobu_trouble {
    MEZULOBU_TROUBLE_NONE = 0,
    MEZULOBU_TROUBLE_OTHER_KIND = 1, /* FAULT: it is no V4L2 device, or no DRM device */
    MEZULOBU_TROUBLE_ERROR = 2,      /* FAULT: an ioctl failed; error says by which errno */
    MEZULOBU_TROUBLE_NO_QUEUE = 3,   /* NO: it has no such queue of images */
    MEZULOBU_TROUBLE_TWO_QUEUES = 4, /* NO: it has two, and the caller has to choose */
    MEZULOBU_TROUBLE_NO_DMABUF = 5,  /* NO: it takes no buffers of other devices by dma-buf */
    MEZULOBU_TROUBLE_NO_PLANE = 6,   /* NO: it has no such plane, or no screen is connected */
    MEZULOBU_TROUBLE_NO_ENTRY = 7    /* NO: all its formats were left out; omitted says why */
};

/* Why a format or a modifier of a device isn't among its entries. */
enum mezulobu_omission {
    MEZULOBU_OMITTED_FORMAT = 1,     /* there is no name here for the format */
    MEZULOBU_OMITTED_MODIFIER = 2,   /* there is none for the modifier, of any format */
    MEZULOBU_OMITTED_PAIR = 3,       /* such tiles don't go with the format here */
    MEZULOBU_OMITTED_COMPRESSED = 4, /* the format is of packets of no stated length, no images */
    MEZULOBU_OMITTED_PLANES = 5,     /* its planes lie in buffers of their own */
    MEZULOBU_OMITTED_FIELDS = 6,     /* the driver gives fields in place of whole images */
    MEZULOBU_OMITTED_COLORS = 7,     /* there is no name here for its colours */
    MEZULOBU_OMITTED_SIZE = 8,       /* the driver hasn't the format in the size asked for */
    MEZULOBU_OMITTED_MODIFIERS = 9,  /* there is no name here for any of the format's modifiers */
    MEZULOBU_OMITTED_UNLISTED = 10   /* the driver's IN_FORMATS has no modifier for the format */
};

struct mezulobu_omitted {
    uint32_t why;    /* enum mezulobu_omission */
    uint32_t format; /* the code, V4L2's of a V4L2 device and else DRM's; 0 of MODIFIER */
    uint64_t modifier;
    struct mezulobu_size nearest; /* of SIZE: what the driver offers in its place */
    char name[64]; /* what the kernel's side calls the format, or of MODIFIER the modifier */
};

/* What a device says. The caller sets struct_size to sizeof of the struct, and gives memory for the
 * lists with the room of each; a list of no room may be null. At TOO_SMALL each number says what
 * is needed, and each list has what there is room for. */
struct mezulobu_device {
    size_t struct_size;
    struct mezulobu_entry *entries;
    size_t n_entries; /* goes in as the room, comes out as how many there are */
    struct mezulobu_omitted *omitted;
    size_t n_omitted; /* the same */
    struct mezulobu_participant participant; /* at DONE; its entries are those above */
    char driver[33]; /* the driver's name, of letters, digits, `_` and `-`, as names of scripts */
    uint32_t trouble; /* enum mezulobu_trouble */
    int error;        /* of ERROR: errno */
};

enum mezulobu_queue {
    MEZULOBU_QUEUE_ONLY = 0,    /* the one that there is */
    MEZULOBU_QUEUE_CAPTURE = 1, /* from which images come: a camera's, a decoder's */
    MEZULOBU_QUEUE_OUTPUT = 2   /* into which images go: an encoder's. A codec has both, each a
                                 * participant of a collection of its own */
};

/* What a queue of a V4L2 device takes, as images of a size. */
int mezulobu_v4l2_participant(int fd, enum mezulobu_queue queue, struct mezulobu_size size,
                              struct mezulobu_device *device);

/* What a plane of a DRM device takes: of the plane with this id, or, where it is 0, of the primary
 * plane of the first CRTC that is active, or else of the first screen that is connected. Where the
 * size is 0 by 0 it is that of the mode. A cursor has the device's own size. */
int mezulobu_drm_participant(int fd, uint32_t plane, struct mezulobu_size size,
                             struct mezulobu_device *device);

/* The pairs and the colours that any of them names, which is what a platform may offer: first those
 * of the first display, or without one of the first participant, in their order, and then what the
 * others add; colours in the order of the header. Numbers go in as rooms, and come out as how
 * many there are. DONE, TOO_SMALL, MISUSED. */
int mezulobu_devices_platform(const struct mezulobu_participant *participants, size_t n,
                              struct mezulobu_pair *pairs, size_t *n_pairs,
                              uint32_t *colors, size_t *n_colors);

/* The type of buffers of such a queue, as enum v4l2_buf_type has it; 0 where there is none. */
uint32_t mezulobu_v4l2_type(int fd, enum mezulobu_queue queue);

struct v4l2_format;

/* What a queue with buffers of this type is set to (VIDIOC_S_FMT) for an image that was settled.
 * DONE; REFUSED where V4L2 has no code for it; MISUSED. */
int mezulobu_v4l2_format(uint32_t type, const struct mezulobu_image *image,
                         struct v4l2_format *format);

/* What isn't as it was settled in a format that the driver has made of that one: the name of
 * V4L2's member, as "bytesperline"; null where all is, as it is where the device's record is right. */
const char *mezulobu_v4l2_difference(const struct v4l2_format *format,
                                     const struct mezulobu_settings *settings);

/* The names that scripts have for a format, a modifier and a colour; null where there is none. */
const char *mezulobu_pixel_format_name(uint32_t format);
const char *mezulobu_modifier_name(uint64_t modifier);
const char *mezulobu_color_name(uint32_t color);

/* The bytes of a pixel in a row of the format's first plane; 0 where there is no such format. A
 * dumb buffer for it has 8 times as many bits. */
uint32_t mezulobu_pixel_bytes(uint32_t format);

/* What these numbers mean, in English words: of enum mezulobu_trouble and mezulobu_omission. */
const char *mezulobu_trouble_text(uint32_t trouble);
const char *mezulobu_omission_text(uint32_t why);

#ifdef __cplusplus
}
#endif
#endif
