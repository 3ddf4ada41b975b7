// frames: what a V4L2 test camera draws, as numbers by which pictures are compared.
//
// frames alone CAMERA FOURCC WIDTH HEIGHT PITCH COLOUR: into memory of its own, without the text that the camera else
// draws into the picture. frames red CAMERA FOURCC COLOUR: the bytes of a red pixel. frames through CAMERA OUTPUT CARD
// FOURCC WIDTH HEIGHT: a camera and an output share buffers as they are settled for both, which the card only makes.
// frames press CAMERA CONTROL: presses a button of the camera, as the one after which its next picture has errors.
// frames planes CARD: the numbers of its primary planes, each on a line.
#define _GNU_SOURCE
#include <errno.h>
#include <fcntl.h>
#include <linux/videodev2.h>
#include <mezulobu_devices.h>
#include <stdio.h>
#include <stdlib.h>
#include <string.h>
#include <sys/ioctl.h>
#include <sys/mman.h>
#include <unistd.h>
#include <xf86drm.h>
#include <xf86drmMode.h>

enum { BUFFERS = 4, MOST_ENTRIES = 32 };

static void require(int is_good, const char *what)
{
    if (is_good)
        return;
    printf("%s: %s\n", what, strerror(errno));
    exit(1);
}

static int opened(const char *path)
{
    int fd = open(path, O_RDWR | O_CLOEXEC);
    require(fd >= 0, path);
    return fd;
}

static uint32_t number_of(const uint8_t *bytes, uint64_t n)
{
    uint32_t number = 2166136261u;
    for (uint64_t i = 0; i < n; i++)
        number = (number ^ bytes[i]) * 16777619u;
    return number;
}

static void tell(const char *what, const uint8_t *bytes, const struct mezulobu_image *image)
{
    printf("%s: first row %08x, image %08x\n", what, number_of(bytes, image->layout.planes[0].pitch),
           number_of(bytes, image->layout.bytes));
}

// Sets the control of this name.
static void set_control(int fd, const char *name, int value)
{
    struct v4l2_queryctrl q = {.id = V4L2_CTRL_FLAG_NEXT_CTRL};
    for (; !ioctl(fd, VIDIOC_QUERYCTRL, &q); q.id |= V4L2_CTRL_FLAG_NEXT_CTRL)
        if (!strcmp((const char *)q.name, name)) {
            require(!ioctl(fd, VIDIOC_S_CTRL, &(struct v4l2_control){q.id, value}), name);
            return;
        }
    require(0, "the camera has no such control");
}

static int is_mplane(uint32_t type)
{
    return type == V4L2_BUF_TYPE_VIDEO_CAPTURE_MPLANE || type == V4L2_BUF_TYPE_VIDEO_OUTPUT_MPLANE;
}

static void set_format(int fd, uint32_t type, const struct mezulobu_image *image)
{
    struct v4l2_format f;
    require(mezulobu_v4l2_format(type, image, &f) == MEZULOBU_DONE, "a code of V4L2");
    require(!ioctl(fd, VIDIOC_S_FMT, &f), "S_FMT");
    uint32_t pitch = is_mplane(type) ? f.fmt.pix_mp.plane_fmt[0].bytesperline : f.fmt.pix.bytesperline;
    uint32_t bytes = is_mplane(type) ? f.fmt.pix_mp.plane_fmt[0].sizeimage : f.fmt.pix.sizeimage;
    errno = EINVAL;
    require(pitch == image->layout.planes[0].pitch && bytes <= image->layout.bytes,
            "another pitch or size than was settled");
    require(f.fmt.pix.width == image->width && f.fmt.pix.height == image->height,
            "another width or height than was settled");
}

static void pass(int fd, uint32_t type, uint32_t memory, unsigned long request, uint32_t *buffer, int file,
                 uint32_t bytes)
{
    struct v4l2_plane plane = {.m.fd = file, .length = bytes, .bytesused = bytes};
    struct v4l2_buffer b = {.index = *buffer, .type = type, .memory = memory, .field = V4L2_FIELD_NONE};
    if (is_mplane(type)) {
        b.m.planes = &plane;
        b.length = 1;
    } else {
        b.m.fd = file;
        b.length = b.bytesused = bytes;
    }
    require(!ioctl(fd, request, &b), request == VIDIOC_QBUF ? "QBUF" : "DQBUF");
    *buffer = b.index;
}

static uint32_t requested(int fd, uint32_t type, uint32_t memory, uint32_t count)
{
    struct v4l2_requestbuffers r = {.count = count, .type = type, .memory = memory};
    require(!ioctl(fd, VIDIOC_REQBUFS, &r), "REQBUFS");
    return r.count;
}

// A buffer of the camera's own.
static uint8_t *own_buffer(int fd, uint32_t type, uint32_t buffer, uint64_t bytes)
{
    struct v4l2_plane plane = {0};
    struct v4l2_buffer b = {.index = buffer, .type = type, .memory = V4L2_MEMORY_MMAP};
    if (is_mplane(type)) {
        b.m.planes = &plane;
        b.length = 1;
    }
    require(!ioctl(fd, VIDIOC_QUERYBUF, &b), "QUERYBUF");
    off_t offset = is_mplane(type) ? plane.m.mem_offset : b.m.offset;
    uint8_t *at = mmap(NULL, bytes, PROT_READ, MAP_SHARED, fd, offset);
    require(at != MAP_FAILED, "mmap");
    return at;
}

// A picture that a camera draws into memory of its own.
static void capture(int fd, const struct mezulobu_image *image,
                    void (*tell_of)(const char *, const uint8_t *, const struct mezulobu_image *))
{
    uint32_t type = mezulobu_v4l2_type(fd, MEZULOBU_QUEUE_CAPTURE), buffer = 0;
    uint8_t *at[BUFFERS];
    set_format(fd, type, image);
    require(requested(fd, type, V4L2_MEMORY_MMAP, BUFFERS) == BUFFERS, "buffers");
    for (uint32_t i = 0; i < BUFFERS; i++) {
        buffer = i;
        at[i] = own_buffer(fd, type, i, image->layout.bytes);
        pass(fd, type, V4L2_MEMORY_MMAP, VIDIOC_QBUF, &buffer, 0, 0);
    }
    require(!ioctl(fd, VIDIOC_STREAMON, &type), "STREAMON");
    pass(fd, type, V4L2_MEMORY_MMAP, VIDIOC_DQBUF, &buffer, 0, 0);
    tell_of("alone", at[buffer], image);
    for (uint32_t i = 0; i < BUFFERS; i++)
        munmap(at[i], image->layout.bytes);
}

static uint32_t color_named(const char *name)
{
    uint32_t color = 1;
    while (mezulobu_color_name(color) && strcmp(mezulobu_color_name(color), name))
        color *= 2;
    return color;
}

static struct mezulobu_image image_of(const char *letters, uint32_t width, uint32_t height, uint32_t pitch,
                                      const char *color)
{
    struct mezulobu_image image = {.width = width, .height = height, .color = color_named(color)};
    memcpy(&image.format, letters, 4);
    require(mezulobu_planes(image.format, 0, pitch, height, &image.layout) == MEZULOBU_DONE, "planes");
    return image;
}

static int alone(char **words)
{
    int fd = opened(words[0]);
    struct mezulobu_image image =
        image_of(words[1], (uint32_t)atoi(words[2]), (uint32_t)atoi(words[3]), (uint32_t)atoi(words[4]), words[5]);
    set_control(fd, "OSD Text Mode", 2); // no text
    capture(fd, &image, tell);
    return close(fd);
}

// The bytes of a pixel in the sixth of the eight bars, in each plane: two by two pixels of the first one have one in
// the others. Of YUYV those of two pixels.
static void tell_red(const char *what, const uint8_t *bytes, const struct mezulobu_image *image)
{
    uint32_t x = image->width / 16 * 11 / 2 * 2, y = image->height / 4 * 2, size = mezulobu_pixel_bytes(image->format);
    uint32_t first = memcmp(&image->format, "YUYV", 4) ? size : 4;
    (void)what;
    printf("%s:", mezulobu_pixel_format_name(image->format));
    for (uint32_t i = 0; i < image->layout.n_planes; i++) {
        const struct mezulobu_plane *plane = &image->layout.planes[i];
        uint32_t column = !i                            ? x * size
                          : image->layout.n_planes == 2 ? x
                                                        : x / 2,
                 count = !i ? first : 4 - image->layout.n_planes;
        for (uint32_t k = 0; k < count; k++)
            printf(" %u", bytes[plane->offset + (uint64_t)(i ? y / 2 : y) * plane->pitch + column + k]);
    }
    printf("\n");
}

static int red(char **words)
{
    int fd = opened(words[0]);
    uint32_t format;
    memcpy(&format, words[1], 4);
    struct mezulobu_image image = image_of(words[1], 320, 180, 320 * mezulobu_pixel_bytes(format), words[2]);
    capture(fd, &image, tell_red);
    return close(fd);
}

// What a device says of images of one format.
static struct mezulobu_participant said(int fd, enum mezulobu_queue queue, struct mezulobu_size size, uint32_t format,
                                        struct mezulobu_entry *entry)
{
    struct mezulobu_entry entries[MOST_ENTRIES];
    struct mezulobu_omitted omitted[256];
    struct mezulobu_device device = {.struct_size = sizeof device,
                                     .entries = entries,
                                     .n_entries = MOST_ENTRIES,
                                     .omitted = omitted,
                                     .n_omitted = 256};
    require(mezulobu_v4l2_participant(fd, queue, size, &device) == MEZULOBU_DONE,
            mezulobu_trouble_text(device.trouble));
    for (size_t i = 0; i < device.n_entries; i++)
        if (entries[i].format == format)
            *entry = entries[i];
    require(entry->format == format, "the device hasn't the format");
    device.participant.entries = entry;
    device.participant.n_entries = 1;
    return device.participant;
}

static struct mezulobu_settings settled(const struct mezulobu_participant *both)
{
    struct mezulobu_pair pairs[2];
    uint32_t colors[8];
    size_t n_pairs = 2, n_colors = 8;
    const struct mezulobu_heap heap = {.cpu = true, .ram = true};
    require(mezulobu_devices_platform(both, 2, pairs, &n_pairs, colors, &n_colors) == MEZULOBU_DONE, "a platform");
    struct mezulobu_platform platform = {sizeof platform, &heap, 1, pairs, n_pairs, colors, n_colors};
    struct mezulobu_settings s = {.struct_size = sizeof s};
    require(mezulobu_negotiate(&platform, both, 2, &s, NULL) == MEZULOBU_DONE, "settings");
    printf("settled: %u buffers of %llu bytes, %s %s %ux%u, pitch %u, offset %llu\n", s.count,
           (unsigned long long)s.bytes, mezulobu_pixel_format_name(s.image.format), mezulobu_color_name(s.image.color),
           s.image.width, s.image.height, s.image.layout.planes[0].pitch,
           (unsigned long long)s.image.layout.planes[1].offset);
    return s;
}

// A buffer that a card makes of words of 32 bits: its dma-buf, and where it is mapped.
static int made(int card, uint64_t bytes, uint8_t **at)
{
    struct drm_mode_create_dumb d = {.width = 1024, .height = (uint32_t)((bytes + 4095) / 4096), .bpp = 32};
    struct drm_mode_map_dumb map = {0};
    int file;
    require(!drmIoctl(card, DRM_IOCTL_MODE_CREATE_DUMB, &d) && d.size >= bytes, "a dumb buffer");
    require(!drmPrimeHandleToFD(card, d.handle, DRM_CLOEXEC | DRM_RDWR, &file), "a dma-buf");
    map.handle = d.handle;
    require(!drmIoctl(card, DRM_IOCTL_MODE_MAP_DUMB, &map), "a dumb buffer's place");
    *at = mmap(NULL, bytes, PROT_READ, MAP_SHARED, card, (off_t)map.offset);
    require(*at != MAP_FAILED, "mmap");
    return file;
}

// Lets a device work on the buffers once each, and tells what they hold then.
static void work(int fd, uint32_t type, const struct mezulobu_settings *s, const int *files, uint8_t *const *at,
                 const char *what)
{
    uint32_t buffer;
    set_format(fd, type, &s->image);
    require(requested(fd, type, V4L2_MEMORY_DMABUF, s->count) == s->count, "another number of buffers");
    for (uint32_t i = 0; i < s->count; i++) {
        buffer = i;
        pass(fd, type, V4L2_MEMORY_DMABUF, VIDIOC_QBUF, &buffer, files[i], (uint32_t)s->bytes);
    }
    require(!ioctl(fd, VIDIOC_STREAMON, &type), "STREAMON");
    pass(fd, type, V4L2_MEMORY_DMABUF, VIDIOC_DQBUF, &buffer, 0, 0);
    tell(what, at[buffer], &s->image);
    require(!ioctl(fd, VIDIOC_STREAMOFF, &type), "STREAMOFF");
}

static int through(char **words)
{
    int camera = opened(words[0]), output = opened(words[1]), card = opened(words[2]), files[128];
    struct mezulobu_size size = {(uint32_t)atoi(words[4]), (uint32_t)atoi(words[5])};
    struct mezulobu_entry entries[2] = {{0}, {0}};
    uint8_t *at[128];
    uint32_t format;
    memcpy(&format, words[3], 4);
    struct mezulobu_participant both[2] = {said(camera, MEZULOBU_QUEUE_CAPTURE, size, format, &entries[0]),
                                           said(output, MEZULOBU_QUEUE_OUTPUT, size, format, &entries[1])};
    struct mezulobu_settings s = settled(both);
    for (uint32_t i = 0; i < s.count; i++)
        files[i] = made(card, s.bytes, &at[i]);
    work(camera, mezulobu_v4l2_type(camera, MEZULOBU_QUEUE_CAPTURE), &s, files, at, "captured");
    work(output, mezulobu_v4l2_type(output, MEZULOBU_QUEUE_OUTPUT), &s, files, at, "put out");
    return 0;
}

static int press(char **words)
{
    int fd = opened(words[0]);
    set_control(fd, words[1], 1);
    return close(fd);
}

static int planes(char **words)
{
    int fd = opened(words[0]);
    require(!drmSetClientCap(fd, DRM_CLIENT_CAP_UNIVERSAL_PLANES, 1), "all planes");
    drmModePlaneRes *all = drmModeGetPlaneResources(fd);
    require(all != NULL, "planes");
    for (uint32_t i = 0; i < all->count_planes; i++) {
        drmModeObjectProperties *has = drmModeObjectGetProperties(fd, all->planes[i], DRM_MODE_OBJECT_PLANE);
        for (uint32_t k = 0; has && k < has->count_props; k++) {
            drmModePropertyRes *property = drmModeGetProperty(fd, has->props[k]);
            if (property && !strcmp(property->name, "type") && has->prop_values[k] == DRM_PLANE_TYPE_PRIMARY)
                printf("%u\n", all->planes[i]);
            drmModeFreeProperty(property);
        }
        drmModeFreeObjectProperties(has);
    }
    drmModeFreePlaneResources(all);
    return close(fd);
}

int main(int n, char **words)
{
    if (n == 8 && !strcmp(words[1], "alone"))
        return alone(words + 2);
    if (n == 5 && !strcmp(words[1], "red"))
        return red(words + 2);
    if (n == 8 && !strcmp(words[1], "through"))
        return through(words + 2);
    if (n == 4 && !strcmp(words[1], "press"))
        return press(words + 2);
    if (n == 3 && !strcmp(words[1], "planes"))
        return planes(words + 2);
    fputs("usage: frames alone CAMERA FOURCC WIDTH HEIGHT PITCH COLOUR | red CAMERA FOURCC COLOUR | through CAMERA "
          "OUTPUT CARD FOURCC WIDTH HEIGHT\n"
          "       frames press CAMERA CONTROL | planes CARD\n",
          stderr);
    return 2;
}
