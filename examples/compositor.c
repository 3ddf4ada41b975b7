// compositor: the start-up of a compositor. A renderer, a display and a recorder share the images
// that are shown. Ways to show them are tried from the best on; where one has no settings, the
// refusal says who is in the way and in which field. Then the buffers are made, here by
// memfd_create in place of a driver's allocator, and each is imported as a dma-buf is, by the
// offset and the pitch of its plane.
//
// cc compositor.c $(pkg-config --cflags --libs mezulobu) -o compositor && ./compositor
#define _GNU_SOURCE
#include <mezulobu.h>
#include <stdio.h>
#include <string.h>
#include <sys/mman.h>
#include <unistd.h>

#define XRGB8888 0x34325258u                 /* DRM_FORMAT_XRGB8888 */
#define LINEAR UINT64_C(0)                   /* DRM_FORMAT_MOD_LINEAR */
#define X_TILED UINT64_C(0x0100000000000001) /* I915_FORMAT_MOD_X_TILED */

enum { RENDERER, DISPLAY, RECORDER, EVERYBODY };
static const char *const names[EVERYBODY] = {"renderer", "display", "recorder"};

// A way to show the output: what the buffers are to hold, the greatest pitch that the display
// reads, and how large the images are at least.
struct way {
    const char *name;
    uint64_t modifier;
    uint32_t max_pitch; // 0: any
    struct mezulobu_size output;
};

static const struct way ways[] = {
    {"tiles in full size", X_TILED, 0, {2560, 1440}},
    {"rows in full size", LINEAR, 8192, {2560, 1440}},
    {"rows scaled by the display", LINEAR, 8192, {1920, 1080}},
};

static int negotiate(const struct way *way, struct mezulobu_settings *settings, struct mezulobu_refusal *refusal)
{
    const struct mezulobu_heap heaps[] = {{.cpu = true, .ram = true}, {.contiguous = true, .cpu = true, .ram = true}};
    const struct mezulobu_pair pairs[] = {{.format = XRGB8888, .modifier = way->modifier}};
    const uint32_t colors[] = {MEZULOBU_SRGB};
    const struct mezulobu_platform platform = {
        .struct_size = sizeof platform, .heaps = heaps, .n_heaps = 2, .pairs = pairs, .n_pairs = 1, .colors = colors, .n_colors = 1,
    };
    const struct mezulobu_entry drawn = {
        .struct_size = sizeof drawn, .format = XRGB8888, .any_modifier = true, .colors = MEZULOBU_SRGB, .min_size = way->output, .pitch_divisor = 64,
    };
    const struct mezulobu_entry shown = {
        .struct_size = sizeof shown, .format = XRGB8888, .any_modifier = true, .colors = MEZULOBU_SRGB, .max_pitch = way->max_pitch,
    };
    const struct mezulobu_entry read = {.struct_size = sizeof read, .format = XRGB8888, .modifier = LINEAR, .colors = MEZULOBU_SRGB};
    struct mezulobu_participant asked[EVERYBODY] = {
        [RENDERER] = {.usage = MEZULOBU_USE_VULKAN, .ram = true, .camping = 2, .entries = &drawn},
        [DISPLAY] = {.usage = MEZULOBU_USE_DISPLAY, .ram = true, .contiguous = true, .camping = 2, .entries = &shown},
        [RECORDER] = {.usage = MEZULOBU_USE_VIDEO, .ram = true, .camping = 1, .entries = &read},
    };
    for (int who = 0; who < EVERYBODY; who++) {
        asked[who].struct_size = sizeof asked[who];
        asked[who].n_entries = 1;
    }
    *settings = (struct mezulobu_settings){.struct_size = sizeof *settings};
    *refusal = (struct mezulobu_refusal){.struct_size = sizeof *refusal};
    return mezulobu_negotiate(&platform, asked, EVERYBODY, settings, refusal);
}

// The first way that has settings; MEZULOBU_NO where none has.
static int settle(struct mezulobu_settings *settings)
{
    struct mezulobu_refusal why;
    int status = MEZULOBU_NO;
    for (size_t w = 0; w < sizeof ways / sizeof *ways && status == MEZULOBU_NO; w++) {
        status = negotiate(&ways[w], settings, &why);
        if (status == MEZULOBU_DONE)
            printf("%s: %u buffers of %llu bytes in heap %zu, %ux%u, pitch %u\n", ways[w].name, settings->count, (unsigned long long)settings->bytes, settings->heap,
                   settings->image.width, settings->image.height, settings->image.layout.planes[0].pitch);
        else if (status == MEZULOBU_NO && why.who != MEZULOBU_NOBODY)
            printf("%s: the %s is in the way by %s%s\n", ways[w].name, names[why.who], mezulobu_field_name(why.field), why.alone ? ", even alone" : "");
        else
            printf("%s: %s\n", ways[w].name, mezulobu_status_name(status));
    }
    return status;
}

static uint32_t pixel_at(uint32_t buffer, uint32_t x, uint32_t y) { return buffer << 24 | (x ^ y << 12); }

// Draws each pixel where the plane has it.
static int draw(int file, const struct mezulobu_settings *s, uint32_t buffer)
{
    const struct mezulobu_plane *plane = &s->image.layout.planes[0];
    unsigned char *at = mmap(NULL, s->bytes, PROT_READ | PROT_WRITE, MAP_SHARED, file, 0);
    if (at == MAP_FAILED)
        return -1;
    for (uint32_t y = 0; y < s->image.height; y++)
        for (uint32_t x = 0; x < s->image.width; x++)
            memcpy(at + plane->offset + (uint64_t)y * plane->pitch + 4 * x, &(uint32_t){pixel_at(buffer, x, y)}, 4);
    return munmap(at, s->bytes);
}

// Reads the last pixel back, as the recorder does.
static int is_read_back(int file, const struct mezulobu_settings *s, uint32_t buffer)
{
    const struct mezulobu_plane *plane = &s->image.layout.planes[0];
    uint32_t x = s->image.width - 1, y = s->image.height - 1, pixel = 0;
    return pread(file, &pixel, 4, (off_t)(plane->offset + (uint64_t)y * plane->pitch + 4 * x)) == 4 && pixel == pixel_at(buffer, x, y);
}

static int show(const struct mezulobu_settings *s, uint32_t buffer)
{
    int file = memfd_create("scan-out", MFD_CLOEXEC);
    if (file < 0)
        return 0;
    int good = !ftruncate(file, (off_t)s->bytes) && !draw(file, s, buffer) && is_read_back(file, s, buffer);
    return !close(file) && good;
}

int main(void)
{
    struct mezulobu_settings settings;
    int status = settle(&settings);
    if (status != MEZULOBU_DONE)
        return status;
    uint32_t good = 0;
    for (uint32_t buffer = 0; buffer < settings.count; buffer++)
        good += (uint32_t)show(&settings, buffer);
    printf("%u buffers drawn and read back\n", good);
    return good != settings.count;
}
