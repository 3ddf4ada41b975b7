#include "script.h"
#include "formats.h"
#include <inttypes.h>
#include <stdlib.h>

/* What stands between the items of a list or the members of an object. */
struct joint {
    FILE *out;
    const char *between;
    bool is_later;
};

static FILE *next(struct joint *joint)
{
    if (joint->is_later)
        fputs(joint->between, joint->out);
    joint->is_later = true;
    return joint->out;
}

/* Numbers that are 0 say nothing, and have no member. */
static void put_number(struct joint *joint, const char *field, uint64_t number)
{
    if (number)
        fprintf(next(joint), "\"%s\":%" PRIu64, field, number);
}

static void put_size(struct joint *joint, const char *field, struct mezulobu_size size)
{
    if (size.width || size.height)
        fprintf(next(joint), "\"%s\":{\"width\":%" PRIu32 ",\"height\":%" PRIu32 "}", field,
                size.width, size.height);
}

static void put_colors(FILE *out, uint32_t set)
{
    struct joint names = {out, ",", false};
    fputs("\"color_spaces\":[", out);
    for (size_t i = 0; i < N_COLORS; i++)
        if (set & known_colors[i].bit)
            fprintf(next(&names), "\"%s\"", known_colors[i].name);
    fputs("]", out);
}

static void put_pair(struct joint *joint, uint32_t format, uint64_t modifier)
{
    fprintf(next(joint), "\"pixel_format\":\"%s\"", mezulobu_pixel_format_name(format));
    if (modifier)
        fprintf(next(joint), "\"pixel_format_modifier\":\"%s\"", mezulobu_modifier_name(modifier));
}

static void put_entry(FILE *out, const struct mezulobu_entry *entry)
{
    struct joint members = {out, ",", false};
    fputs("{", out);
    put_pair(&members, entry->format, entry->modifier);
    put_colors(next(&members), entry->colors);
    put_size(&members, "min_size", entry->min_size);
    put_size(&members, "max_size", entry->max_size);
    if (entry->size_alignment.width > 1 || entry->size_alignment.height > 1)
        put_size(&members, "size_alignment", entry->size_alignment);
    put_number(&members, "min_bytes_per_row", entry->min_pitch);
    put_number(&members, "max_bytes_per_row", entry->max_pitch);
    if (entry->pitch_divisor > 1)
        put_number(&members, "bytes_per_row_divisor", entry->pitch_divisor);
    fputs("}", out);
}

static void put_memory(FILE *out, const struct mezulobu_participant *participant)
{
    struct joint members = {out, ",", false};
    fputs("\"buffer_memory_constraints\":{", out);
    put_number(&members, "min_size_bytes", participant->min_bytes);
    fprintf(next(&members), "\"cpu_domain_supported\":%s", participant->cpu ? "true" : "false");
    fprintf(next(&members), "\"ram_domain_supported\":%s", participant->ram ? "true" : "false");
    fputs("}", out);
}

void print_constraints(FILE *out, const struct mezulobu_participant *participant, bool is_long)
{
    bool is_display = participant->usage & MEZULOBU_USE_DISPLAY;
    struct joint members = {out, is_long ? ",\n      " : ",", false};
    struct joint entries = {out, is_long ? ",\n        " : ",", false};
    fputs("{", out);
    fprintf(next(&members), "\"usage\":[\"%s\"]", is_display ? "display" : "video");
    put_number(&members, "min_buffer_count_for_camping", participant->camping);
    put_number(&members, "max_buffer_count", participant->max_count);
    put_memory(next(&members), participant);
    fprintf(next(&members), "\"image_format_constraints\":[%s", is_long ? "\n        " : "");
    for (size_t i = 0; i < participant->n_entries; i++)
        put_entry(next(&entries), &participant->entries[i]);
    fputs("]}", out);
}

/* Where the buffers come from: a display, as dumb buffers, or else system memory. */
static const char *heap_of(const struct mezulobu_participant *list, size_t n)
{
    for (size_t i = 0; i < n; i++)
        if (list[i].usage & MEZULOBU_USE_DISPLAY)
            return "dumb";
    return "system_ram";
}

static void print_platform(FILE *out, const char *heap, const struct mezulobu_pair *pairs,
                           size_t n_pairs, const uint32_t *list, size_t n_colors)
{
    uint32_t set = 0;
    struct joint objects = {out, ",\n    ", false};
    fprintf(out, "{\"platform\":{\n  \"heaps\":[{\"heap_type\":\"%s\",", heap);
    fputs("\"domains\":[\"cpu\",\"ram\"]}],\n  \"pairs\":[\n    ", out);
    for (size_t i = 0; i < n_pairs; i++) {
        struct joint members = {out, ",", false};
        fputs("{", next(&objects));
        put_pair(&members, pairs[i].format, pairs[i].modifier);
        fputs("}", out);
    }
    for (size_t i = 0; i < n_colors; i++)
        set |= list[i];
    fputs("],\n  ", out);
    put_colors(out, set);
    fputs("},\n", out);
}

static void print_calls(FILE *out, const struct named *devices, size_t n)
{
    struct joint calls = {out, ",\n  ", false};
    fputs("\"calls\":[\n  ", out);
    for (size_t i = 0; i < n; i++)
        fprintf(next(&calls),
                "{\"call\":\"duplicate\",\"on\":\"root\",\"as\":\"%s\",\"actor\":\"app\"}",
                devices[i].name);
    fputs("{\"call\":\"release\",\"on\":\"root\",\"actor\":\"app\"}", next(&calls));
    for (size_t i = 0; i < n; i++) {
        const char *name = devices[i].name;
        fprintf(next(&calls), "{\"call\":\"bind\",\"on\":\"%s\",\"actor\":\"%s\"}", name, name);
        fprintf(next(&calls),
                "{\"call\":\"set_constraints\",\"on\":\"%s\",\"actor\":\"%s\",", name, name);
        fputs("\"constraints\":\n    ", out);
        print_constraints(out, &devices[i].device.participant, true);
        fputs("}", out);
    }
    fputs("]}\n", out);
}

static int print_all(FILE *out, const struct named *devices, size_t n,
                     const struct mezulobu_participant *list)
{
    uint32_t bits[N_COLORS];
    size_t n_colors = N_COLORS, n_pairs = 0;
    mezulobu_devices_platform(list, n, NULL, &n_pairs, bits, &n_colors);
    struct mezulobu_pair *pairs = calloc(n_pairs ? n_pairs : 1, sizeof *pairs);
    if (!pairs)
        return -1;
    n_colors = N_COLORS;
    mezulobu_devices_platform(list, n, pairs, &n_pairs, bits, &n_colors);
    print_platform(out, heap_of(list, n), pairs, n_pairs, bits, n_colors);
    print_calls(out, devices, n);
    free(pairs);
    return 0;
}

int print_script(FILE *out, const struct named *devices, size_t n)
{
    struct mezulobu_participant *list = calloc(n ? n : 1, sizeof *list);
    if (!list)
        return -1;
    for (size_t i = 0; i < n; i++)
        list[i] = devices[i].device.participant;
    int status = print_all(out, devices, n, list);
    free(list);
    return status;
}
