/* The structs and numbers of the header, as the proved exports have them: another layout or number doesn't compile. */
#include "room.h"

#define IS(what, n) _Static_assert((what) == (n), #what " is " #n)
#define SIZE(name, n) IS(sizeof(struct mezulobu_##name), n)
#define AT(name, member, n) IS(offsetof(struct mezulobu_##name, member), n)

IS(sizeof(size_t), 8);
IS(sizeof(void *), 8);
IS(sizeof(bool), 1);
IS(sizeof(enum mezulobu_status), 4);
IS(sizeof(enum mezulobu_kind), 4);
IS(sizeof(enum mezulobu_field), 4);

SIZE(size, 8);
AT(size, width, 0);
AT(size, height, 4);

SIZE(heap, 5);
AT(heap, contiguous, 0);
AT(heap, secure, 1);
AT(heap, cpu, 2);
AT(heap, ram, 3);
AT(heap, inaccessible, 4);

SIZE(pair, 16);
AT(pair, modifier, 0);
AT(pair, format, 8);

SIZE(platform, 56);
AT(platform, struct_size, 0);
AT(platform, heaps, 8);
AT(platform, n_heaps, 16);
AT(platform, pairs, 24);
AT(platform, n_pairs, 32);
AT(platform, colors, 40);
AT(platform, n_colors, 48);

SIZE(entry, 104);
AT(entry, struct_size, 0);
AT(entry, modifier, 8);
AT(entry, format, 16);
AT(entry, colors, 20);
AT(entry, any_format, 24);
AT(entry, any_modifier, 25);
AT(entry, rows_end_at_pixels, 26);
AT(entry, min_size, 28);
AT(entry, max_size, 36);
AT(entry, size_alignment, 44);
AT(entry, min_pitch, 52);
AT(entry, max_pitch, 56);
AT(entry, pitch_divisor, 60);
AT(entry, offset_divisor, 64);
AT(entry, display_rect_alignment, 68);
AT(entry, required_min_size, 76);
AT(entry, required_max_size, 84);
AT(entry, max_pixels, 96);

SIZE(participant, 80);
AT(participant, struct_size, 0);
AT(participant, usage, 8);
AT(participant, contiguous, 9);
AT(participant, secure, 10);
AT(participant, cpu, 11);
AT(participant, ram, 12);
AT(participant, inaccessible, 13);
AT(participant, camping, 16);
AT(participant, dedicated_slack, 20);
AT(participant, shared_slack, 24);
AT(participant, min_count, 28);
AT(participant, max_count, 32);
AT(participant, min_bytes, 40);
AT(participant, max_bytes, 48);
AT(participant, heaps, 56);
AT(participant, entries, 64);
AT(participant, n_entries, 72);

SIZE(plane, 24);
AT(plane, offset, 0);
AT(plane, rows, 8);
AT(plane, pitch, 16);

SIZE(layout, 112);
AT(layout, bytes, 0);
AT(layout, n_planes, 8);
AT(layout, planes, 16);

SIZE(image, 136);
AT(image, modifier, 0);
AT(image, format, 8);
AT(image, color, 12);
AT(image, width, 16);
AT(image, height, 20);
AT(image, layout, 24);

SIZE(settings, 168);
AT(settings, struct_size, 0);
AT(settings, bytes, 8);
AT(settings, heap, 16);
AT(settings, count, 24);
AT(settings, coherency, 28);
AT(settings, image, 32);

SIZE(refusal, 64);
AT(refusal, struct_size, 0);
AT(refusal, who, 8);
AT(refusal, index, 16);
AT(refusal, heap, 24);
AT(refusal, modifier, 32);
AT(refusal, format, 40);
AT(refusal, color, 44);
AT(refusal, coherency, 48);
AT(refusal, kind, 52);
AT(refusal, field, 56);
AT(refusal, alone, 60);

/* A refusal of a live collection is 16 and its number in reports, but E1. */
IS(MEZULOBU_DONE, 0);
IS(MEZULOBU_MISUSED, 2);
IS(MEZULOBU_REFUSED, 3);
IS(MEZULOBU_NO_MEMORY, 4);
IS(MEZULOBU_TOO_SMALL, 5);
IS(MEZULOBU_NO, 6);
IS(MEZULOBU_WRONG_STATE, 16 + 2);
IS(MEZULOBU_TOO_MANY_NODES, 16 + 3);
IS(MEZULOBU_NO_CHILDREN, 16 + 4);
IS(MEZULOBU_NOT_SELECTED, 16 + 5);
IS(MEZULOBU_DOMAIN_FAILED, 16 + 6);
IS(MEZULOBU_INTERSECTION_EMPTY, 16 + 7);
IS(MEZULOBU_TOO_MANY_SELECTIONS, 16 + 8);
IS(MEZULOBU_PENDING, 16 + 9);
IS(MEZULOBU_STRANGE, 16 + 10);

IS(MEZULOBU_KIND_PLATFORM, 1);
IS(MEZULOBU_KIND_PARTICIPANT, 2);
IS(MEZULOBU_KIND_TOO_MANY, 3);
IS(MEZULOBU_KIND_COUNT, 4);
IS(MEZULOBU_KIND_PLACES, 5);
IS(MEZULOBU_KIND_OFFERS, 6);
IS(MEZULOBU_FIELD_DOMAINS, 43);

IS(MEZULOBU_USE_NONE, 1);
IS(MEZULOBU_USE_CPU, 2);
IS(MEZULOBU_USE_VULKAN, 4);
IS(MEZULOBU_USE_DISPLAY, 8);
IS(MEZULOBU_USE_VIDEO, 16);
IS(MEZULOBU_SRGB, 1);
IS(MEZULOBU_REC601_NTSC, 2);
IS(MEZULOBU_REC601_NTSC_FULL_RANGE, 4);
IS(MEZULOBU_REC601_PAL, 8);
IS(MEZULOBU_REC601_PAL_FULL_RANGE, 16);
IS(MEZULOBU_REC709, 32);
IS(MEZULOBU_REC2020, 64);
IS(MEZULOBU_REC2100, 128);
IS(MEZULOBU_COLOR_DO_NOT_CARE, 256);
IS(MEZULOBU_COHERENT_CPU, 1);
IS(MEZULOBU_COHERENT_RAM, 2);
IS(MEZULOBU_COHERENT_INACCESSIBLE, 4);

/* What a proved export keeps behind a pointer of C's, and the actions as they number them. */
IS(sizeof(struct held), 16);
IS(offsetof(struct held, at), 0);
IS(offsetof(struct held, is_full), 8);
IS(DUPLICATE, 1);
IS(CREATE_GROUP, 2);
IS(BIND, 3);
IS(CREATE_CHILD, 4);
IS(ALL_CHILDREN_PRESENT, 5);
IS(SET_NONE, 6);
IS(ATTACH_TOKEN, 7);
IS(RELEASE, 8);
IS(CLOSE, 9);
