// planes: the planes of an image of each format and modifier, beside values that were worked out by hand, and what is
// refused. Where the machine has drm_fourcc.h, the codes are its own. The last line is 'N passed, M failed'.
#include "mezulobu.h"
#include <stdio.h>
#include <string.h>

#if defined(__has_include)
#if __has_include(<drm/drm_fourcc.h>)
#include <drm/drm_fourcc.h>
#elif __has_include(<libdrm/drm_fourcc.h>)
#include <libdrm/drm_fourcc.h>
#endif
#endif

#define CODE(a, b, c, d) ((uint32_t)(a) | (uint32_t)(b) << 8 | (uint32_t)(c) << 16 | (uint32_t)(d) << 24)
#define X_TILES UINT64_C(0x0100000000000001)
#define Y_TILES UINT64_C(0x0100000000000002)

#ifdef DRM_FORMAT_NV12
_Static_assert(CODE('A', 'B', '2', '4') == DRM_FORMAT_ABGR8888 && CODE('A', 'R', '2', '4') == DRM_FORMAT_ARGB8888,
               "8888");
_Static_assert(CODE('X', 'B', '2', '4') == DRM_FORMAT_XBGR8888 && CODE('X', 'R', '2', '4') == DRM_FORMAT_XRGB8888,
               "8888");
_Static_assert(CODE('B', 'G', '2', '4') == DRM_FORMAT_BGR888 && CODE('R', 'G', '2', '4') == DRM_FORMAT_RGB888, "888");
_Static_assert(CODE('R', 'G', '1', '6') == DRM_FORMAT_RGB565 && CODE('G', 'R', '8', '8') == DRM_FORMAT_GR88, "565, 88");
_Static_assert(CODE('Y', 'U', 'Y', 'V') == DRM_FORMAT_YUYV && CODE('R', '8', ' ', ' ') == DRM_FORMAT_R8, "YUYV, R8");
_Static_assert(CODE('Y', 'U', '1', '2') == DRM_FORMAT_YUV420 && CODE('Y', 'V', '1', '2') == DRM_FORMAT_YVU420, "420");
_Static_assert(CODE('N', 'V', '1', '2') == DRM_FORMAT_NV12 && CODE('P', '0', '1', '0') == DRM_FORMAT_P010,
               "NV12, P010");
_Static_assert(X_TILES == I915_FORMAT_MOD_X_TILED && Y_TILES == I915_FORMAT_MOD_Y_TILED && DRM_FORMAT_MOD_LINEAR == 0,
               "modifiers");
#endif

_Static_assert(sizeof(struct mezulobu_plane) == 24 && offsetof(struct mezulobu_plane, pitch) == 16, "a plane");
_Static_assert(sizeof(struct mezulobu_layout) == 112 && offsetof(struct mezulobu_layout, planes) == 16, "an image");

struct row {
    uint32_t format;
    uint64_t modifier;
    uint32_t pitch, height;
    struct mezulobu_layout wanted;
};

static const struct row rows[] = {
    {CODE('A', 'B', '2', '4'), 0, 400, 30, {12000, 1, 0, {{0, 30, 400, 0}}}},
    {CODE('A', 'R', '2', '4'), X_TILES, 512, 30, {16384, 1, 0, {{0, 32, 512, 0}}}},
    {CODE('X', 'B', '2', '4'), Y_TILES, 128, 33, {8192, 1, 0, {{0, 64, 128, 0}}}},
    {CODE('X', 'R', '2', '4'), Y_TILES, 128, 32, {4096, 1, 0, {{0, 32, 128, 0}}}},
    {CODE('B', 'G', '2', '4'), 0, 300, 1, {300, 1, 0, {{0, 1, 300, 0}}}},
    {CODE('R', 'G', '2', '4'), 0, 300, 0, {0, 1, 0, {{0, 0, 300, 0}}}},
    {CODE('R', 'G', '1', '6'), 0, 200, 7, {1400, 1, 0, {{0, 7, 200, 0}}}},
    {CODE('G', 'R', '8', '8'), 0, 200, 7, {1400, 1, 0, {{0, 7, 200, 0}}}},
    {CODE('Y', 'U', 'Y', 'V'), 0, 1280, 720, {921600, 1, 0, {{0, 720, 1280, 0}}}},
    {CODE('R', '8', ' ', ' '), 0, 64, 64, {4096, 1, 0, {{0, 64, 64, 0}}}},
    {CODE('Y', 'U', '1', '2'),
     0,
     640,
     480,
     {460800, 3, 0, {{0, 480, 640, 0}, {307200, 240, 320, 0}, {384000, 240, 320, 0}}}},
    {CODE('Y', 'V', '1', '2'), 0, 2, 2, {6, 3, 0, {{0, 2, 2, 0}, {4, 1, 1, 0}, {5, 1, 1, 0}}}},
    {CODE('N', 'V', '1', '2'), 0, 1472, 1088, {2402304, 2, 0, {{0, 1088, 1472, 0}, {1601536, 544, 1472, 0}}}},
    {CODE('N', 'V', '1', '2'), 0, 5, 3, {23, 2, 0, {{0, 3, 5, 0}, {15, 1, 5, 0}}}},
    {CODE('P', '0', '1', '0'), 0, 3840, 1080, {6220800, 2, 0, {{0, 1080, 3840, 0}, {4147200, 540, 3840, 0}}}},
    {CODE('A', 'B', '2', '4'),
     0,
     UINT32_MAX,
     UINT32_MAX,
     {UINT64_C(0xfffffffe00000001), 1, 0, {{0, UINT32_MAX, UINT32_MAX, 0}}}},
};

static const struct row refused[] = {
    {CODE('N', 'V', '1', '2'), 0, UINT32_MAX, UINT32_MAX, {0}},
    {CODE('N', 'V', '1', '2'), X_TILES, 512, 32, {0}},
    {CODE('R', '8', ' ', ' '), Y_TILES, 512, 32, {0}},
    {CODE('N', 'V', '2', '1'), 0, 512, 32, {0}},
    {CODE('A', 'B', '2', '4'), 3, 512, 32, {0}},
    {CODE('A', 'B', '2', '4'), UINT64_C(0x00ffffffffffffff), 512, 32, {0}},
    {0, 0, 512, 32, {0}},
};

static int same(const struct mezulobu_layout *a, const struct mezulobu_layout *b)
{
    int good = a->bytes == b->bytes && a->n_planes == b->n_planes && !a->reserved;
    for (int i = 0; i < 4; i++)
        good = good && a->planes[i].offset == b->planes[i].offset && a->planes[i].rows == b->planes[i].rows
            && a->planes[i].pitch == b->planes[i].pitch && !a->planes[i].reserved;
    return good;
}

int main(void)
{
    int passed = 0, failed = 0;
    for (size_t i = 0; i < sizeof rows / sizeof rows[0]; i++) {
        struct mezulobu_layout image;
        memset(&image, 0xA5, sizeof image);
        int status = mezulobu_planes(rows[i].format, rows[i].modifier, rows[i].pitch, rows[i].height, &image);
        int good = status == MEZULOBU_DONE && same(&image, &rows[i].wanted);
        good ? passed++ : failed++;
        if (!good)
            printf("library: other planes: row %zu\n", i);
    }
    for (size_t i = 0; i < sizeof refused / sizeof refused[0]; i++) {
        struct mezulobu_layout image, before;
        memset(&image, 0xA5, sizeof image);
        before = image;
        int status =
            mezulobu_planes(refused[i].format, refused[i].modifier, refused[i].pitch, refused[i].height, &image);
        int good = status == MEZULOBU_REFUSED && !memcmp(&image, &before, sizeof image);
        good ? passed++ : failed++;
        if (!good)
            printf("library: planes where none are: row %zu\n", i);
    }
    int misused = mezulobu_planes(0, 0, 0, 0, NULL) == MEZULOBU_MISUSED;
    misused ? passed++ : failed++;
    printf("%d passed, %d failed\n", passed, failed);
    return failed != 0;
}
