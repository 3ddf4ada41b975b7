// Drivers in the shape of real ones. No answer here was worked out by the library.
#include "fakes.h"
#include <drm_fourcc.h>
#include <errno.h>
#include <linux/videodev2.h>
#include <xf86drmMode.h>

static uint32_t up_to(uint32_t step, uint32_t n) { return (n + step - 1) / step * step; }

// Pitches: the row alone; rows of 64 bytes that can't be chosen; from the row on any; steps of 256 up to 8192; the row
// where what is asked for can't be had; the row and steps of 16 behind it; powers of two.
static uint32_t own_row(uint32_t row, uint32_t asked) { return (void)asked, row; }
static uint32_t row_of_64(uint32_t row, uint32_t asked) { return (void)asked, up_to(64, row); }
static uint32_t any_up_to_65535(uint32_t row, uint32_t asked)
{
    return asked < row ? row : asked > 65535 ? 65535 : asked;
}
static uint32_t steps_of_256(uint32_t row, uint32_t asked)
{
    return asked > 8192 ? 8192 : up_to(256, asked < row ? row : asked);
}
static uint32_t else_its_own(uint32_t row, uint32_t asked)
{
    return asked < row || asked > 10000 ? up_to(16, row) : up_to(16, asked);
}
static uint32_t row_and_16s(uint32_t row, uint32_t asked) { return asked <= row ? row : row + up_to(16, asked - row); }
static uint32_t power_of_two(uint32_t row, uint32_t asked)
{
    uint32_t pitch = 1;
    while (pitch < row || (pitch < asked && pitch < 1u << 16))
        pitch *= 2;
    return pitch;
}

// Bytes: of the image; of the image in blocks of 16 rows; with a page behind it.
static uint32_t of_image(uint32_t pitch, uint32_t height, bool has_half)
{
    return has_half ? pitch * height * 3 / 2 : pitch * height;
}
static uint32_t of_16_rows(uint32_t pitch, uint32_t height, bool has_half)
{
    return of_image(pitch, up_to(16, height), has_half);
}
static uint32_t and_a_page(uint32_t pitch, uint32_t height, bool has_half)
{
    return of_image(pitch, height, has_half) + 4096;
}

static const struct fake_format webcam[] = {
    {V4L2_PIX_FMT_MJPEG, V4L2_FMT_FLAG_COMPRESSED, 1, false, 1, "Motion-JPEG"},
    {V4L2_PIX_FMT_YUYV, 0, 2, false, 1, "YUYV 4:2:2"},
    {0},
};
static const struct fake_size webcam_sizes[] = {{320, 240}, {640, 480}, {1280, 720}, {0, 0}};
static const struct fake_format raw[] = {
    {V4L2_PIX_FMT_NV12, 0, 1, true, 1, "Y/UV 4:2:0"},
    {V4L2_PIX_FMT_NV12M, 0, 1, true, 2, "Y/UV 4:2:0 (N-C)"},
    {0},
};
static const struct fake_format packets[] = {{V4L2_PIX_FMT_H264, V4L2_FMT_FLAG_COMPRESSED, 1, false, 1, "H.264"}, {0}};
static const struct fake_format scaler[] = {
    {V4L2_PIX_FMT_NV12, 0, 1, true, 1, "Y/UV 4:2:0"},
    {V4L2_PIX_FMT_RGB565, 0, 2, false, 1, "16-bit RGB 5-6-5"},
    {0},
};
static const struct fake_format rgb[] = {{V4L2_PIX_FMT_XBGR32, 0, 4, false, 1, "32-bit BGRX 8-8-8-8"}, {0}};
static const struct fake_format luma[] = {
    {V4L2_PIX_FMT_NV12, 0, 1, true, 1, "Y/UV 4:2:0"}, {V4L2_PIX_FMT_GREY, 0, 1, false, 1, "8-bit Greyscale"}, {0}};
static const struct fake_format convertible[] = {
    {V4L2_PIX_FMT_NV12, V4L2_FMT_FLAG_CSC_YCBCR_ENC, 1, true, 1, "Y/UV 4:2:0"}, {0}};

#define CAMERA (V4L2_CAP_VIDEO_CAPTURE | V4L2_CAP_STREAMING)

const struct fake_v4l2 fake_cameras[] = {
    // a webcam: sizes one by one, one pitch each, no control of buffers
    {.driver = "uvcvideo", .capabilities = CAMERA, .capture = webcam, .sizes = webcam_sizes, .pitch = own_row,
     .bytes = of_image, .space = V4L2_COLORSPACE_SRGB, .least_buffers = 1, .most_buffers = 32},
    // an encoder: two queues, sizes by blocks of 16, rows of 64 bytes
    {.driver = "hantro-vpu", .capabilities = V4L2_CAP_VIDEO_M2M_MPLANE | V4L2_CAP_STREAMING, .capture = packets,
     .output = raw, .least = {96, 32}, .most = {8192, 8192}, .step = {16, 16}, .pitch = row_of_64, .bytes = of_16_rows,
     .space = V4L2_COLORSPACE_REC709, .least_buffers = 1, .most_buffers = 32, .control = 5},
    // an image processor: sizes by two, pitches by 256
    {.driver = "rkisp1 main", .capabilities = CAMERA, .capture = scaler, .least = {32, 16}, .most = {4416, 3312},
     .step = {2, 2}, .pitch = steps_of_256, .bytes = of_image, .space = V4L2_COLORSPACE_BT2020, .least_buffers = 3,
     .most_buffers = 16},
    // an old driver: it takes no buffers of others, and says so by its fault
    {.driver = "bttv", .capabilities = CAMERA, .capture = rgb, .pitch = own_row, .bytes = of_image,
     .has_no_dmabuf = true, .tells_no_capabilities = true},
    // a newer one, which says so by its capabilities
    {.driver = "saa7134", .capabilities = CAMERA, .capture = rgb, .pitch = own_row, .bytes = of_image,
     .has_no_dmabuf = true, .least_buffers = 2, .most_buffers = 8},
    // one that wants a page behind the image, and takes any pitch
    {.driver = "padded", .capabilities = CAMERA, .capture = rgb, .least = {16, 16}, .most = {1920, 1088},
     .step = {16, 16}, .pitch = any_up_to_65535, .bytes = and_a_page, .space = V4L2_COLORSPACE_SRGB, .least_buffers = 2,
     .most_buffers = 32},
    // one that makes its own pitch of one that it can't have
    {.driver = "its_own", .capabilities = CAMERA, .capture = rgb, .pitch = else_its_own, .bytes = of_image,
     .space = V4L2_COLORSPACE_SRGB, .least_buffers = 2, .most_buffers = 32},
    {.driver = "powers", .capabilities = CAMERA, .capture = rgb, .pitch = power_of_two, .bytes = of_image,
     .space = V4L2_COLORSPACE_SRGB, .least_buffers = 2, .most_buffers = 32},
    // sizes by two, bytes by 16 rows: what holds for a multiple of 16 doesn't for the next size
    {.driver = "by_16_rows", .capabilities = CAMERA, .capture = rgb, .least = {16, 16}, .most = {1920, 1088},
     .step = {2, 2}, .pitch = row_of_64, .bytes = of_16_rows, .space = V4L2_COLORSPACE_SRGB, .least_buffers = 2,
     .most_buffers = 32},
    {.driver = "fields", .capabilities = CAMERA, .capture = rgb, .pitch = own_row, .bytes = of_image,
     .field = V4L2_FIELD_ALTERNATE, .least_buffers = 2, .most_buffers = 32},
    // Rec. 709 in full range has no name
    {.driver = "full_range", .capabilities = CAMERA, .capture = luma, .pitch = own_row, .bytes = of_image,
     .space = V4L2_COLORSPACE_REC709, .range = V4L2_QUANTIZATION_FULL_RANGE, .least_buffers = 2, .most_buffers = 32},
    // one that makes any colour that is asked for
    {.driver = "converts", .capabilities = CAMERA, .capture = convertible, .pitch = own_row, .bytes = of_image,
     .space = V4L2_COLORSPACE_470_SYSTEM_BG, .converts = true, .least_buffers = 2, .most_buffers = 32},
    // rows of any length, and the primaries of PAL
    {.driver = "any_row", .capabilities = CAMERA, .capture = luma, .pitch = any_up_to_65535, .bytes = of_image,
     .space = V4L2_COLORSPACE_470_SYSTEM_BG, .least_buffers = 2, .most_buffers = 32},
    {.driver = "and_16s", .capabilities = CAMERA, .capture = rgb, .pitch = row_and_16s, .bytes = of_image,
     .space = V4L2_COLORSPACE_SRGB, .least_buffers = 2, .most_buffers = 32},
    {.driver = "busy", .capabilities = CAMERA, .capture = rgb, .pitch = own_row, .bytes = of_image,
     .fault_of_buffers = EBUSY},
    {.driver = "radio", .capabilities = V4L2_CAP_RADIO},
};

static const uint32_t screen_formats[] = {DRM_FORMAT_XRGB8888, DRM_FORMAT_RGB565, DRM_FORMAT_XRGB2101010,
                                          DRM_FORMAT_NV12};
static const uint32_t cursor_formats[] = {DRM_FORMAT_ARGB8888};
static const uint32_t plain_formats[] = {DRM_FORMAT_XRGB8888};
// One more that is compressed alone, and one that no modifier goes with.
static const uint32_t tiled_formats[] = {
    DRM_FORMAT_XRGB8888, DRM_FORMAT_RGB565,   DRM_FORMAT_XRGB2101010,
    DRM_FORMAT_NV12,     DRM_FORMAT_ABGR8888, DRM_FORMAT_XBGR8888,
};
static const struct fake_mask tilings[] = {
    {0x0f, 0, DRM_FORMAT_MOD_LINEAR}, {0x0f, 0, I915_FORMAT_MOD_X_TILED}, {0x15, 0, I915_FORMAT_MOD_Y_TILED_CCS}};
static const struct fake_blob tiled = {tiled_formats, 6, tilings, 3};
// Behind 64 other formats two that a second mask says something of, and a third one that isn't in the list.
static const uint32_t late_formats[] = {DRM_FORMAT_RGB565, DRM_FORMAT_XRGB8888, DRM_FORMAT_ARGB8888};
static const uint32_t long_list[66] = {[64] = DRM_FORMAT_XRGB8888, [65] = DRM_FORMAT_RGB565};
static const struct fake_mask late[] = {
    {~0ull, 0, I915_FORMAT_MOD_X_TILED}, {1, 64, DRM_FORMAT_MOD_LINEAR}, {2, 64, I915_FORMAT_MOD_Y_TILED_CCS}};
static const struct fake_blob listed_late = {long_list, 66, late, 3};
static const struct fake_plane intel[] = {
    {30, DRM_PLANE_TYPE_OVERLAY, 1, plain_formats, 1, NULL, false},
    {31, DRM_PLANE_TYPE_PRIMARY, 1, tiled_formats, 6, &tiled, true},
    {32, DRM_PLANE_TYPE_CURSOR, 1, cursor_formats, 1, NULL, false},
    {33, DRM_PLANE_TYPE_OVERLAY, 1, late_formats, 3, &listed_late, false},
};
static const struct fake_plane plain[] = {{35, DRM_PLANE_TYPE_PRIMARY, 1, screen_formats, 4, NULL, false}};

const struct fake_drm fake_displays[] = {
    {.driver = "i915", .planes = intel, .n_planes = 4, .max_width = 16384, .max_height = 8192, .min_height = 32,
     .cursor = 256, .active = {1920, 1080}, .mode = {1920, 1080}, .pitch_step = 64, .most_pitch = 32768,
     .has_dumb = true},
    // no IN_FORMATS, no mode yet, framebuffers of one pitch
    {.driver = "tiny", .planes = plain, .n_planes = 1, .max_width = 1024, .max_height = 768, .mode = {800, 600},
     .pitch_step = 1, .has_dumb = true},
    {.driver = "no_screen", .planes = plain, .n_planes = 1, .max_width = 1024, .max_height = 768, .mode = {640, 480},
     .is_disconnected = true, .pitch_step = 1, .has_dumb = true},
    {.driver = "no_dumb", .planes = plain, .n_planes = 1, .max_width = 1024, .max_height = 768, .active = {640, 480},
     .pitch_step = 1},
    {.driver = "v3d", .has_no_display = true},
};
