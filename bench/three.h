// What three participants ask for, as those of examples/camera_encoder_preview do, and how long a job
// takes.
#ifndef THREE_H
#define THREE_H
#include <mezulobu.h>
#include <stdlib.h>
#include <time.h>

#define ABGR8888 0x34324241u
#define NV12 0x3231564eu

static const struct mezulobu_heap heaps[] = {{.cpu = true, .ram = true}, {.contiguous = true, .cpu = true, .ram = true}};
static const struct mezulobu_pair pairs[] = {{.format = ABGR8888}, {.format = NV12}};
static const uint32_t colors[] = {MEZULOBU_SRGB, MEZULOBU_REC709};
static const struct mezulobu_platform platform = {sizeof platform, heaps, 2, pairs, 2, colors, 2};

static const struct mezulobu_entry captured = {
    .struct_size = sizeof captured, .format = NV12, .colors = MEZULOBU_REC709, .min_size = {1920, 1080}, .max_size = {3840, 2160}};
static const struct mezulobu_entry encoded = {
    .struct_size = sizeof encoded, .format = NV12, .colors = MEZULOBU_REC709, .max_size = {4096, 2304}, .size_alignment = {16, 16}};
static const struct mezulobu_entry shown = {.struct_size = sizeof shown, .format = NV12, .colors = MEZULOBU_COLOR_DO_NOT_CARE};

static const struct mezulobu_participant participants[] = {
    {.struct_size = sizeof participants[0], .usage = MEZULOBU_USE_CPU, .cpu = true, .ram = true, .camping = 1, .shared_slack = 2, .entries = &shown, .n_entries = 1},
    {.struct_size = sizeof participants[0], .usage = MEZULOBU_USE_VIDEO, .cpu = true, .ram = true, .camping = 2, .entries = &captured, .n_entries = 1},
    {.struct_size = sizeof participants[0], .usage = MEZULOBU_USE_VIDEO, .ram = true, .inaccessible = true, .camping = 3, .dedicated_slack = 1, .shared_slack = 1,
     .entries = &encoded, .n_entries = 1},
};
#define PARTICIPANTS 3

// The processor's time that a job takes, of the whole process, in nanoseconds.
static inline double spent(int (*job)(void), int times)
{
    struct timespec from, to;
    clock_gettime(CLOCK_PROCESS_CPUTIME_ID, &from);
    for (int time = 0; time < times; time++)
        if (job() != MEZULOBU_DONE)
            exit(1);
    clock_gettime(CLOCK_PROCESS_CPUTIME_ID, &to);
    return ((double)(to.tv_sec - from.tv_sec) * 1e9 + (double)(to.tv_nsec - from.tv_nsec)) / times;
}

#endif
