// camera: a camera, an encoder and a display share images of NV12. Their buffers are made by memfd_create as the
// settings say, each plane is filled by its offset and pitch, and read back by another mapping. The last line is 'N
// passed, M failed'.
#define _GNU_SOURCE
#include "mezulobu.h"
#include <fcntl.h>
#include <stdio.h>
#include <string.h>
#include <sys/mman.h>
#include <unistd.h>

#define NV12 0x3231564eu
#define ABGR8888 0x34324241u

static const struct mezulobu_heap heaps[] = {{.cpu = true, .ram = true},
                                             {.contiguous = true, .cpu = true, .ram = true}};
static const struct mezulobu_pair pairs[] = {{.format = ABGR8888}, {.format = NV12}};
static const uint32_t colors[] = {MEZULOBU_SRGB, MEZULOBU_REC709};

static const struct mezulobu_platform platform = {
    .struct_size = sizeof platform,
    .heaps = heaps, .n_heaps = 2,
    .pairs = pairs, .n_pairs = 2,
    .colors = colors, .n_colors = 2,
};

static const struct mezulobu_entry captured = {
    .struct_size = sizeof captured,
    .format = NV12,
    .colors = MEZULOBU_REC709,
    .min_size = {1440, 1080},
    .pitch_divisor = 64,
};

static const struct mezulobu_entry encoded = {
    .struct_size = sizeof encoded, .format = NV12, .colors = MEZULOBU_REC709,
    .min_size = {128, 128}, .max_size = {4096, 2304}, .size_alignment = {16, 16},
};

static const struct mezulobu_entry shown[] = {
    {.struct_size = sizeof shown[0], .format = ABGR8888, .colors = MEZULOBU_SRGB},
    {.struct_size = sizeof shown[0], .format = NV12, .colors = MEZULOBU_REC709 | MEZULOBU_REC2020},
};

static const struct mezulobu_participant participants[] = {
    {.struct_size = sizeof participants[0],
     .usage = MEZULOBU_USE_VIDEO,
     .contiguous = true,
     .cpu = true,
     .ram = true,
     .camping = 4,
     .entries = &captured,
     .n_entries = 1},
    {.struct_size = sizeof participants[0],
     .usage = MEZULOBU_USE_VIDEO,
     .ram = true,
     .camping = 3,
     .dedicated_slack = 1,
     .entries = &encoded,
     .n_entries = 1},
    {.struct_size = sizeof participants[0],
     .usage = MEZULOBU_USE_DISPLAY,
     .cpu = true,
     .ram = true,
     .camping = 2,
     .entries = shown,
     .n_entries = 2},
};

// What was worked out by hand: 4 + 3 + 1 + 2 buffers; the contiguous heap; 1440 is a multiple of 16, 1080 rises to
// 1088, and a row of 1440 bytes to 1472.
static int is_as_worked_out(const struct mezulobu_settings *s)
{
    const struct mezulobu_layout *l = &s->image.layout;
    int good = s->count == 10 && s->bytes == 2402304 && s->heap == 1 && s->coherency == MEZULOBU_COHERENT_RAM;
    good = good && s->image.format == NV12 && s->image.modifier == 0 && s->image.color == MEZULOBU_REC709;
    good = good && s->image.width == 1440 && s->image.height == 1088 && l->n_planes == 2 && l->bytes == 2402304;
    good = good && l->planes[0].offset == 0 && l->planes[0].pitch == 1472 && l->planes[0].rows == 1088;
    return good && l->planes[1].offset == 1601536 && l->planes[1].pitch == 1472 && l->planes[1].rows == 544;
}

static unsigned char sample(unsigned buffer, unsigned plane, unsigned row, unsigned column)
{
    return (unsigned char)(buffer * 31 + plane * 17 + row * 7 + column);
}

// Fills the planes, or says how many bytes of them differ from what fills them.
static unsigned long each_byte(unsigned char *at, const struct mezulobu_image *image, unsigned buffer, int fills)
{
    unsigned long differ = 0;
    for (unsigned p = 0; p < image->layout.n_planes; p++)
        for (unsigned y = 0; y < image->layout.planes[p].rows; y++)
            for (unsigned x = 0; x < image->width; x++) {
                unsigned char *byte =
                    at + image->layout.planes[p].offset + (size_t)y * image->layout.planes[p].pitch + x;
                if (fills)
                    *byte = sample(buffer, p, y, x);
                else
                    differ += *byte != sample(buffer, p, y, x);
            }
    return differ;
}

static int try_buffer(const struct mezulobu_settings *s, unsigned buffer)
{
    int file = memfd_create("buffer", MFD_CLOEXEC);
    if (file < 0 || ftruncate(file, (off_t)s->bytes))
        return 0;
    unsigned char *at = mmap(NULL, s->bytes, PROT_READ | PROT_WRITE, MAP_SHARED, file, 0);
    if (at == MAP_FAILED)
        return 0;
    each_byte(at, &s->image, buffer, 1);
    munmap(at, s->bytes);
    at = mmap(NULL, s->bytes, PROT_READ, MAP_SHARED, file, 0);
    if (at == MAP_FAILED)
        return 0;
    int good = !each_byte(at, &s->image, buffer, 0);
    munmap(at, s->bytes);
    close(file);
    return good;
}

int main(void)
{
    struct mezulobu_settings s = {.struct_size = sizeof s};
    struct mezulobu_refusal r = {.struct_size = sizeof r};
    int passed = 0, failed = 0;
    int status = mezulobu_negotiate(&platform, participants, 3, &s, &r);
    status == MEZULOBU_DONE && is_as_worked_out(&s) ? passed++ : failed++;
    for (unsigned buffer = 0; buffer < s.count; buffer++)
        try_buffer(&s, buffer) ? passed++ : failed++;
    printf("%d passed, %d failed\n", passed, failed);
    return failed != 0;
}
