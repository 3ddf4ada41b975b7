/* mezulobu.h: the shared-buffer negotiator for C and C++.
 * Link with: pkg-config --cflags --libs mezulobu
 *
 * Two halves. The first keeps nothing: its calls take all that they work on, and have freed all of
 * their memory when they return. The second, "Live collections" at the end, keeps collections
 * between calls, behind handles. Any thread may make any call of both at any time, with memory of
 * its own. No call prints, ends the process, or touches a file by name, a signal or the
 * environment, and none of the first half touches errno. Memory comes from the program's malloc,
 * realloc and free alone. Don't call from a signal handler, nor in the forked child of a process
 * with threads. Memory that a call writes to may not overlap other memory that it is given. */
#ifndef MEZULOBU_H
#define MEZULOBU_H

#include <stddef.h>
#include <stdint.h>
#ifndef __cplusplus
#include <stdbool.h>
#endif

#ifdef __cplusplus
extern "C" {
#endif

#define MEZULOBU_VERSION 0x00010006u /* major 16 bits, minor 16 bits */

/* What a call answers: the exit status that the program has of the same, and 2 and 5 for what only
 * a caller can get wrong. */
enum mezulobu_status {
    MEZULOBU_DONE = 0,      /* done; of a check: yes */
    MEZULOBU_MISUSED = 2,   /* a null pointer where none may be, a handle that is spent or of
                             * another kind, a struct_size that this library doesn't know, or a
                             * number that says no record's kind */
    MEZULOBU_REFUSED = 3,   /* the script, the certificate, a struct, a record or a name is refused;
                             * of a text of a collection: its script would be too long */
    MEZULOBU_NO_MEMORY = 4, /* memory was refused, to all of it or to a decision */
    MEZULOBU_TOO_SMALL = 5, /* a buffer is too small; each size says what is needed */
    MEZULOBU_NO = 6,        /* a check: no; a strict explanation: not all went well; a negotiation:
                             * no settings meet everybody; a record: it has no fault; a name: it is
                             * another node's; a refusal: there is none to tell; a wait: nothing was
                             * decided in that time */

    /* Of live collections alone: why a call is refused, 16 and the number that reports have. E1 is
     * NO_MEMORY. */
    MEZULOBU_WRONG_STATE = 18,         /* E2: the handle isn't in a state that allows the call */
    MEZULOBU_TOO_MANY_NODES = 19,      /* E3: more than 128 in one collection, those that are gone
                                        * included; or more than its host allows */
    MEZULOBU_NO_CHILDREN = 20,         /* E4: of all_children_present, of a group without a child */
    MEZULOBU_NOT_SELECTED = 21,        /* E5: another alternative was chosen */
    MEZULOBU_DOMAIN_FAILED = 22,       /* E6: the domain failed (somebody closed too early, or what
                                        * it was attached to has no settings), or no settings were
                                        * chosen; explain says which */
    MEZULOBU_INTERSECTION_EMPTY = 23,  /* E7: no settings meet everybody:
                                        * mezulobu_collection_explain says who is in the way */
    MEZULOBU_TOO_MANY_SELECTIONS = 24, /* E8: more than 4,096 selections of alternatives */
    MEZULOBU_PENDING = 25,             /* E9: nothing is decided yet */
    MEZULOBU_STRANGE = 26              /* E10: no correct run gives it */
};

/* ---- Bytes in, bytes out ------------------------------------------------------------------------
 *
 * An output has a size, which goes in as the room of its buffer and comes out as the length of its
 * text. Where a text is longer than its room the status is TOO_SMALL, each size says what its text
 * needs, and no buffer is written to. A buffer may be null where its room is 0: so call once with
 * room 0 to learn the sizes, or with 64 KiB and again only where that was too small. The same bytes
 * give the same texts as long as memory isn't refused. Nothing is cut off.
 *
 * At NO_MEMORY each size is 0, and no buffer is written to. After a text a buffer is as it was. A
 * text isn't ended by a 0.
 *
 * A script is one JSON value. SCRIPT, which is installed as share/doc/mezulobu/SCRIPT.md, says what
 * it holds, and beside it REPORT, CERTIFICATE and EXPLAIN say what the texts hold. */

/* Replays a script. At DONE text is its report and, where certificate_size isn't null, certificate
 * proves its decisions. At REFUSED text is the words of the script's first fault, as
 * `script refused: Q4 at call 7`, and the certificate is of length 0. Without a certificate,
 * certificate and certificate_size are null. */
int mezulobu_run(const void *script, size_t script_size,
                 char *text, size_t *text_size,
                 void *certificate, size_t *certificate_size);

/* Tests a certificate against a script. At DONE and at NO text is the answer, "yes N\n" or
 * "no Nk domain PATH\n". At REFUSED it is the words of what is refused: as of a script, or
 * `proof refused`. For the status alone, which is never TOO_SMALL then, text and text_size are
 * null. */
int mezulobu_check(const void *script, size_t script_size,
                   const void *certificate, size_t certificate_size,
                   char *text, size_t *text_size);

/* Explains a script: where it has a fault, why calls were refused, who is awaited, what decided
 * each value of a choice, and who is in the way. At DONE text says what it means, and at REFUSED
 * what its first fault is and where. Where is_strict is true the status is NO, with the same text,
 * where a call was refused or a domain isn't chosen. file is a name that ends with a 0, which
 * stands before lines and columns; where it is null that is "script", and what of it is no UTF-8 is
 * replaced. */
int mezulobu_explain(const void *script, size_t script_size, const char *file, bool is_strict,
                     char *text, size_t *text_size);

/* The same as objects of JSON, one a line: one for each item of the explanation, and one that ends
 * them. EXPLAIN says what each has. */
int mezulobu_explain_json(const void *script, size_t script_size, const char *file, bool is_strict,
                          char *text, size_t *text_size);

/* ---- A list of participants, without a script ---------------------------------------------------
 *
 * Formats are DRM_FORMAT_*, modifiers DRM_FORMAT_MOD_*, as drm_fourcc.h has them. In what the
 * caller states, **a number that is 0 says nothing**: what stands for it is what a record without
 * the field has, no bound. So a struct that begins as zeros, as `= {0}`, states nothing, and a
 * caller fills in what it means. Four are read as they are: modifier, whose 0 is linear, and
 * format, colors and usage, which may not be 0. Each struct_size, also of settings and of a
 * refusal, is set by the caller to sizeof of the struct; another size is MISUSED. A list of no
 * items may be null. Text in brackets is the name of the field in a script's records, by which a
 * refusal names it; LIBRARY, which is installed beside SCRIPT, has a table of them.
 *
 *     struct mezulobu_heap heaps[] = {{.cpu = true, .ram = true}};
 *     struct mezulobu_pair pairs[] = {{.format = DRM_FORMAT_XRGB8888}};
 *     uint32_t colors[] = {MEZULOBU_SRGB};
 *     struct mezulobu_platform platform = {sizeof platform, heaps, 1, pairs, 1, colors, 1};
 *     struct mezulobu_entry screen = {.struct_size = sizeof screen, .format = DRM_FORMAT_XRGB8888,
 *         .colors = MEZULOBU_SRGB, .min_size = {1920, 1080}, .pitch_divisor = 256};
 *     struct mezulobu_entry drawn = {.struct_size = sizeof drawn, .format = DRM_FORMAT_XRGB8888,
 *         .colors = MEZULOBU_SRGB};
 *     struct mezulobu_participant both[] = {
 *         {.struct_size = sizeof both[0], .usage = MEZULOBU_USE_DISPLAY, .ram = true, .camping = 2,
 *          .entries = &screen, .n_entries = 1},
 *         {.struct_size = sizeof both[0], .usage = MEZULOBU_USE_VULKAN, .ram = true, .camping = 1,
 *          .entries = &drawn, .n_entries = 1}};
 *     struct mezulobu_settings settings = {.struct_size = sizeof settings};
 *     struct mezulobu_refusal why = {.struct_size = sizeof why};
 *     int status = mezulobu_negotiate(&platform, both, 2, &settings, &why);
 *     // DONE: 3 buffers. NO: who why.who is, and mezulobu_field_name(why.field)
 *
 * What is chosen is the first image that all can have: none, where nobody has entries, then each
 * pair of the platform in each of its colours, in the platform's order (the order of a
 * participant's entries says which of them holds for a pair, and nothing of preference); in the
 * first place that all take, a heap of the platform's and its coherency domain, cpu before ram
 * before inaccessible; of these the least count, and the smallest image. */

enum { /* usage: a set, not empty */
    MEZULOBU_USE_NONE = 1, /* stands alone */
    MEZULOBU_USE_CPU = 2,
    MEZULOBU_USE_VULKAN = 4,
    MEZULOBU_USE_DISPLAY = 8,
    MEZULOBU_USE_VIDEO = 16
};

enum { /* colour spaces: a set, and of a platform's list one each */
    MEZULOBU_SRGB = 1,
    MEZULOBU_REC601_NTSC = 2,
    MEZULOBU_REC601_NTSC_FULL_RANGE = 4,
    MEZULOBU_REC601_PAL = 8,
    MEZULOBU_REC601_PAL_FULL_RANGE = 16,
    MEZULOBU_REC709 = 32,
    MEZULOBU_REC2020 = 64,
    MEZULOBU_REC2100 = 128,
    MEZULOBU_COLOR_DO_NOT_CARE = 256 /* in an entry's set alone */
};

enum { /* coherency domains, as settings and refusals have them */
    MEZULOBU_COHERENT_CPU = 1,
    MEZULOBU_COHERENT_RAM = 2,
    MEZULOBU_COHERENT_INACCESSIBLE = 4
};

struct mezulobu_size {
    uint32_t width, height;
};

/* A heap, which is named by its index in the platform's list: in a script's records its type is
 * `heap` and its id the index, so that `{"heap_type": "heap", "id": 1}` is the second one. At least
 * one of the three coherency domains is true. */
struct mezulobu_heap {
    bool contiguous, secure;
    bool cpu, ram, inaccessible;
};

struct mezulobu_pair {
    uint64_t modifier;
    uint32_t format;
    uint32_t reserved;
};

/* What the allocator offers, which the caller knows: its heaps, and the images that it is ready to
 * use. Each list is in the order of preference, isn't empty, and has no item twice. */
struct mezulobu_platform {
    size_t struct_size;
    const struct mezulobu_heap *heaps; /* at most 64 */
    size_t n_heaps;
    const struct mezulobu_pair *pairs;
    size_t n_pairs;
    const uint32_t *colors; /* MEZULOBU_SRGB .. */
    size_t n_colors;
};

/* One image format that a participant takes, and its bounds on such images. No two entries of a
 * participant have the same format and modifier, of which "any" counts as one: else it is REFUSED,
 * by the field image_format_constraints. Somebody states the size that is wanted, as a mode, as its
 * min_size: where nobody does, an image of 1 by 1 is enough.
 * Alignments round up, so the image may be larger, and max_size bounds it with all that they add,
 * those of others too: who has one mode alone states it as min_size, and no max_size. */
struct mezulobu_entry {
    size_t struct_size;
    uint64_t modifier;          /* not read where any_modifier is true; DRM_FORMAT_MOD_INVALID isn't
                                 * "any", and is refused */
    uint32_t format;            /* not read where any_format is true */
    uint32_t colors;            /* a set, not empty */
    bool any_format, any_modifier;
    bool rows_end_at_pixels;    /* [require_bytes_per_row_at_pixel_boundary] */
    struct mezulobu_size min_size, max_size, size_alignment; /* in pixels */
    uint32_t min_pitch, max_pitch; /* of a row, in bytes [min_bytes_per_row, max_bytes_per_row] */
    uint32_t pitch_divisor, offset_divisor; /* [bytes_per_row_divisor, start_offset_divisor] */
    struct mezulobu_size display_rect_alignment;
    struct mezulobu_size required_min_size, required_max_size; /* of what it will put into them: all
                                                                * have to take such images */
    uint64_t max_pixels;        /* [max_width_times_height] */
};

/* What a participant asks for. Without entries it takes every offer. */
struct mezulobu_participant {
    size_t struct_size;
    uint8_t usage;
    bool contiguous, secure;     /* what the heap must be [physically_contiguous_required,
                                  * secure_required] */
    bool cpu, ram, inaccessible; /* the coherency domains that it takes, and no other; where none is
                                  * true, cpu. A record takes cpu too, unless it says no
                                  * [cpu_domain_supported, ram_domain_supported,
                                  * inaccessible_domain_supported] */
    uint32_t camping;            /* how many buffers it holds at one time; all are added
                                  * [min_buffer_count_for_camping] */
    uint32_t dedicated_slack;    /* more for itself alone; added too
                                  * [min_buffer_count_for_dedicated_slack] */
    uint32_t shared_slack;       /* spare ones for all; the greatest is added
                                  * [min_buffer_count_for_shared_slack] */
    uint32_t min_count, max_count; /* how many there are in all [min_buffer_count,
                                    * max_buffer_count] */
    uint64_t min_bytes, max_bytes; /* of a buffer [min_size_bytes, max_size_bytes] */
    uint64_t heaps;              /* bit i: heap i is permitted; 0 permits each [permitted_heaps] */
    const struct mezulobu_entry *entries;
    size_t n_entries;
};

struct mezulobu_plane {
    uint64_t offset; /* from the buffer's start to the first row, in bytes */
    uint64_t rows;   /* how many, with what a tile adds */
    uint32_t pitch;  /* the bytes of a row */
    uint32_t reserved;
};

/* Where an image lies in a buffer, as a dma-buf is imported. */
struct mezulobu_layout {
    uint64_t bytes; /* of the whole image: no plane ends after them */
    uint32_t n_planes;
    uint32_t reserved;
    struct mezulobu_plane planes[4]; /* in the order of DRM; all 0 where there is none */
};

/* The smallest image that everybody allows; all of it is 0 where the buffers hold no image. */
struct mezulobu_image {
    uint64_t modifier;
    uint32_t format;
    uint32_t color; /* MEZULOBU_SRGB .. */
    uint32_t width, height;
    struct mezulobu_layout layout;
};

struct mezulobu_settings {
    size_t struct_size;
    uint64_t bytes;     /* the size of each buffer, at least 1 */
    size_t heap;        /* the index on the platform */
    uint32_t count;     /* how many buffers: 1 to 128 */
    uint32_t coherency; /* MEZULOBU_COHERENT_CPU .. */
    struct mezulobu_image image;
};

enum mezulobu_kind {                /* of a refusal */
    MEZULOBU_KIND_PLATFORM = 1,     /* the platform's struct states none */
    MEZULOBU_KIND_PARTICIPANT = 2,  /* that of the participant who states none */
    MEZULOBU_KIND_TOO_MANY = 3,     /* more than 1,024 participants */
    MEZULOBU_KIND_COUNT = 4,        /* no number of buffers suits those up to who */
    MEZULOBU_KIND_PLACES = 5,       /* each place is refused by one of those up to who */
    MEZULOBU_KIND_OFFERS = 6        /* no offer suits those up to who */
};

#define MEZULOBU_NOBODY SIZE_MAX

/* The fields of a refusal: FIELD_ and the name that mezulobu_field_name tells. */
enum mezulobu_field {
    MEZULOBU_FIELD_NONE = 0, MEZULOBU_FIELD_USAGE = 1,
    MEZULOBU_FIELD_MIN_BUFFER_COUNT_FOR_CAMPING = 2,
    MEZULOBU_FIELD_MIN_BUFFER_COUNT_FOR_DEDICATED_SLACK = 3,
    MEZULOBU_FIELD_MIN_BUFFER_COUNT_FOR_SHARED_SLACK = 4, MEZULOBU_FIELD_MIN_BUFFER_COUNT = 5,
    MEZULOBU_FIELD_MAX_BUFFER_COUNT = 6, MEZULOBU_FIELD_BUFFER_MEMORY_CONSTRAINTS = 7,
    MEZULOBU_FIELD_IMAGE_FORMAT_CONSTRAINTS = 8, MEZULOBU_FIELD_MIN_SIZE_BYTES = 9,
    MEZULOBU_FIELD_MAX_SIZE_BYTES = 10, MEZULOBU_FIELD_PHYSICALLY_CONTIGUOUS_REQUIRED = 11,
    MEZULOBU_FIELD_SECURE_REQUIRED = 12, MEZULOBU_FIELD_CPU_DOMAIN_SUPPORTED = 13,
    MEZULOBU_FIELD_RAM_DOMAIN_SUPPORTED = 14, MEZULOBU_FIELD_INACCESSIBLE_DOMAIN_SUPPORTED = 15,
    MEZULOBU_FIELD_PERMITTED_HEAPS = 16, MEZULOBU_FIELD_PIXEL_FORMAT = 17,
    MEZULOBU_FIELD_PIXEL_FORMAT_MODIFIER = 18, MEZULOBU_FIELD_PIXEL_FORMAT_AND_MODIFIERS = 19,
    MEZULOBU_FIELD_COLOR_SPACES = 20, MEZULOBU_FIELD_MIN_SIZE = 21, MEZULOBU_FIELD_MAX_SIZE = 22,
    MEZULOBU_FIELD_SIZE_ALIGNMENT = 23, MEZULOBU_FIELD_MIN_BYTES_PER_ROW = 24,
    MEZULOBU_FIELD_MAX_BYTES_PER_ROW = 25, MEZULOBU_FIELD_BYTES_PER_ROW_DIVISOR = 26,
    MEZULOBU_FIELD_START_OFFSET_DIVISOR = 27, MEZULOBU_FIELD_DISPLAY_RECT_ALIGNMENT = 28,
    MEZULOBU_FIELD_REQUIRED_MIN_SIZE = 29, MEZULOBU_FIELD_REQUIRED_MAX_SIZE = 30,
    MEZULOBU_FIELD_MAX_WIDTH_TIMES_HEIGHT = 31,
    MEZULOBU_FIELD_REQUIRE_BYTES_PER_ROW_AT_PIXEL_BOUNDARY = 32,
    MEZULOBU_FIELD_BUFFER_COUNT_LIMIT = 33, MEZULOBU_FIELD_UNNAMED_PIXEL_FORMAT = 34,
    MEZULOBU_FIELD_UNNAMED_PIXEL_FORMAT_MODIFIER = 35, MEZULOBU_FIELD_UNNAMED_COLOR_SPACE = 36,
    MEZULOBU_FIELD_HEAPS = 37, MEZULOBU_FIELD_PAIRS = 38, MEZULOBU_FIELD_HEAP_TYPE = 39,
    MEZULOBU_FIELD_ID = 40, MEZULOBU_FIELD_CONTIGUOUS = 41, MEZULOBU_FIELD_SECURE = 42,
    MEZULOBU_FIELD_DOMAINS = 43
};

/* Why there are no settings. At REFUSED (the first three kinds) field is what is amiss in a struct.
 * index is the item of its list where that has a format, a modifier or a color that isn't known, or
 * a pitch_divisor above 65536; whatever else is amiss, index is 0, of whichever item it is. At
 * MISUSED (kind PLATFORM or PARTICIPANT, or 0 of settings) it is whose struct is misused, and of an
 * entry index is its own; of the participant's struct itself index is NOBODY; field is 0.
 *
 * At NO the participants before who can share settings, and those up to who can't: who is the first
 * with whom there are none. So the order of the participants is a ranking: those that can be done
 * without stand last.
 *
 * **alone is 1 where who gets nothing even by itself**: the platform doesn't offer what it takes,
 * or it contradicts itself, as by a min_size above its own max_size. Kind and field are of it alone
 * then. Where alone is 0 the others are in the way: what who takes is offered, and those before it
 * don't take it, or the other way round.
 *
 * heap and coherency, and format, modifier and color are what those before would share first (0
 * without an image). At PLACES field is what who refuses that place for. At OFFERS field is of the
 * offer of format, modifier and color, which is the image of the platform that who comes nearest
 * to, where it is alone: the first line of the conflict table that is true of it, for those up to
 * who or for it alone. PIXEL_FORMAT: somebody has no entry for that format, or, without an image,
 * takes images only; PIXEL_FORMAT_MODIFIER: all take the format, and somebody not in that modifier.
 * who is NOBODY where all can share settings but for a name of the image that nobody gives. */
struct mezulobu_refusal {
    size_t struct_size;
    size_t who;
    size_t index;
    size_t heap;
    uint64_t modifier;
    uint32_t format;
    uint32_t color;
    uint32_t coherency;
    uint32_t kind;  /* enum mezulobu_kind */
    uint32_t field; /* enum mezulobu_field; mezulobu_field_name tells its name */
    uint32_t alone;
};

/* The best settings for n participants on a platform. DONE: settings. NO: none meet them all, and
 * refusal says who is in the way. REFUSED: a struct states nothing that could be meant, and refusal
 * says whose and which field. NO_MEMORY: refusal has kind 0. MISUSED: refusal says whose struct it
 * is, unless it is the refusal's. settings is written at DONE alone, refusal at each other status.
 * refusal may be null, settings may not. A list of nobody is DONE, with one buffer of one byte. */
int mezulobu_negotiate(const struct mezulobu_platform *platform,
                       const struct mezulobu_participant *participants, size_t n,
                       struct mezulobu_settings *settings, struct mezulobu_refusal *refusal);

/* The name of a refusal's field, as "max_size"; "?" of a number that is none. */
const char *mezulobu_field_name(uint32_t field);

/* The name of a record's fault by its number: its code, as reports have it, and its kind, as
 * "S4 UnknownName"; of 0 "no JSON", and "?" of a number that is none. REPORT says what each code
 * means. */
const char *mezulobu_fault_name(uint32_t fault);

/* The layout of an image with rows of pitch bytes in the first plane, its height in pixels. DONE;
 * REFUSED where there is no such format or modifier here, where tiles don't go with the format, or
 * where the bytes don't fit 64 bits: layout is as it was then. MISUSED.
 *
 * It demands a pitch and a height as settings have them, and tests neither: a pitch of at least a
 * row's pixels, which is a multiple of 512 of X tiles and of 128 of Y tiles, and of NV12, P010,
 * I420 and YV12 is even, as is their height. With others the call is DONE all the same: halves are
 * rounded down then, and no plane ends after bytes, but DRM wouldn't take it. The height of tiles
 * may be any: rows has what the last tile adds. */
int mezulobu_planes(uint32_t format, uint64_t modifier, uint32_t pitch, uint32_t height,
                    struct mezulobu_layout *layout);

/* The name of a status, as "TOO_SMALL"; "?" of a number that is none. */
const char *mezulobu_status_name(int status);

/* What a status means, in one line for people, as "E9 Pending: nothing is decided yet; explain says
 * who is awaited"; of the call of this name, as "mezulobu_token_set_name" or "set_name", what would
 * be right there. call may be null. "?" of a number that is none. */
const char *mezulobu_status_text(int status, const char *call);

/* The version of the library, as MEZULOBU_VERSION is that of the header. */
uint32_t mezulobu_version(void);

/* ---- Live collections ---------------------------------------------------------------------------
 *
 * The same negotiation while it goes on: a camera, a codec, a GPU and a display driver, each on a
 * thread of its own, hold tokens and collections of one collection of buffers, act on them, and are
 * told once nobody is awaited any more. SCRIPT says what each call does ("What the calls do"), and
 * LIVE, which is installed as share/doc/mezulobu/LIVE.md, how a program is made of them. The least
 * is:
 *
 *     struct mezulobu_allocator *allocator;
 *     struct mezulobu_token *root = NULL, *camera = NULL, *screen = NULL;
 *     mezulobu_allocator_new(&platform, &allocator, NULL);
 *     mezulobu_allocate_shared(allocator, &root);
 *     mezulobu_token_duplicate(root, &camera); // to the camera's thread
 *     mezulobu_token_duplicate(root, &screen); // to the display's
 *     mezulobu_token_release(&root);
 *     // and each on its own thread:
 *     struct mezulobu_collection *mine = NULL;
 *     mezulobu_token_bind(&camera, &mine);
 *     mezulobu_collection_set_constraints(mine, &asked, NULL);
 *     // or mezulobu_collection_fd with poll:
 *     int status = mezulobu_collection_wait(mine, 1000, &settings);
 *     mezulobu_collection_release(&mine); // once it doesn't use its buffers any more
 *
 * **Threads.** Calls on handles of one collection may run at once, on one handle too, but for the
 * call that spends it: no other thread may come with that handle then or later. All calls of a
 * collection are steps in one order, which mezulobu_collection_script writes down. A handle may be
 * passed to another thread.
 *
 * **Decisions.** A decision is made by the thread whose call leaves nobody awaited, within that
 * call, and without a lock: all calls that don't act are answered meanwhile, and so are calls of
 * other collections. A script, an explanation and a refusal are then of the moment before that
 * call; where it brings several decisions, they wait from the first to the last. A call that acts
 * on the same collection waits until all are entered: some microseconds mostly, and at most what
 * 4,096 selections take.
 *
 * **A call that acts**, on a token, a group or a collection, is DONE or changes nothing: then its
 * status is the first reason of its refusal, from WRONG_STATE on, as a report has it of the same
 * call. It takes no memory but where it is said.
 *
 * **A call that spends its handle**, which takes a pointer to it (bind, release, close), spends it
 * where it is DONE, and writes NULL there. At any other status the caller still has it. Each handle
 * is freed by being spent, and in no other way. release and close take no memory: close is refused
 * of nothing that is open, and release of a group alone that isn't complete. So each handle can be
 * given up, without memory too. What a call would hand out is as it was unless the status is DONE.
 * MISUSED is also the status of a handle of another kind and, as long as its collection has other
 * handles, of one that is spent. */

struct mezulobu_allocator;
struct mezulobu_token;
struct mezulobu_group;
struct mezulobu_collection;

/* What makes collections, which are decided for one platform. DONE, MISUSED, NO_MEMORY; REFUSED:
 * the platform states nothing that could be meant, and why, which may be null, has kind PLATFORM
 * and says which field. Or from the JSON of a platform as scripts have it: at REFUSED code, which
 * may be null, is the number of its fault, 1 of S1 and so on, and 0 where it is no JSON;
 * mezulobu_fault_name tells its name, and mezulobu_record_fault where it is. */
int mezulobu_allocator_new(const struct mezulobu_platform *platform,
                           struct mezulobu_allocator **allocator, struct mezulobu_refusal *why);
int mezulobu_allocator_new_record(const void *record, size_t size,
                                  struct mezulobu_allocator **allocator, uint32_t *code);

/* Frees it, once no call uses it; null is nothing to free. The collections that it made live on. */
void mezulobu_allocator_free(struct mezulobu_allocator *allocator);

/* A new collection, by the token of its root. DONE, MISUSED, NO_MEMORY. */
int mezulobu_allocate_shared(struct mezulobu_allocator *allocator, struct mezulobu_token **token);

/* The same for a host that lets strangers in: each child of the root has at most so many nodes
 * below it, whoever makes them, those that are gone included. A call that would make one more is
 * refused by TOO_MANY_NODES, if by nothing else. The root has no limit: a host keeps it, and gives
 * each client a child of it. 128 limits nothing. */
int mezulobu_allocate_shared_limited(struct mezulobu_allocator *allocator, uint32_t most,
                                     struct mezulobu_token **token);

/* Of a token: the right to take part. Each call is DONE or changes nothing, and takes no memory.
 * duplicate, create_group and bind are refused by DOMAIN_FAILED, and the two that make a node by
 * TOO_MANY_NODES; release and close of nothing. MISUSED. */
int mezulobu_token_duplicate(struct mezulobu_token *token, struct mezulobu_token **made);
int mezulobu_token_create_group(struct mezulobu_token *token, struct mezulobu_group **made);
int mezulobu_token_bind(struct mezulobu_token **token, struct mezulobu_collection **bound);
int mezulobu_token_release(struct mezulobu_token **token);
int mezulobu_token_close(struct mezulobu_token **token);

/* Of a group: alternatives, of which one is selected. It is made on a token. It has a child for
 * each alternative, made by create_child, the one that is liked best first; then comes
 * all_children_present, and the group is released. Each child is a token, which is bound and says
 * what it asks for. The token on which the group was made is awaited too: release it, or bind it
 * and ask for nothing. check of the child that was chosen is DONE, of the others NOT_SELECTED.
 *
 * Each call is DONE or changes nothing, and takes no memory. WRONG_STATE: create_child or
 * all_children_present after all_children_present, release before it. NO_CHILDREN:
 * all_children_present of a group without a child. TOO_MANY_NODES: create_child. DOMAIN_FAILED
 * and NOT_SELECTED refuse these two. close is refused of nothing. MISUSED. */
int mezulobu_group_create_child(struct mezulobu_group *group, struct mezulobu_token **made);
int mezulobu_group_all_children_present(struct mezulobu_group *group);
int mezulobu_group_release(struct mezulobu_group **group);
int mezulobu_group_close(struct mezulobu_group **group);

/* Of a collection: a participant. What it asks for it says once; where asked is null, for nothing.
 * At REFUSED the participant states nothing that could be meant, why has kind PARTICIPANT, who 0,
 * and says which field, and nothing was set. A record is the JSON of constraints as scripts have
 * it; at REFUSED code, which may be null, is the number of its fault, as of
 * mezulobu_allocator_new_record. NO_MEMORY: nothing was set; it can be tried again. WRONG_STATE: it
 * has said already what it asks for. attach_token makes a token for somebody who comes later; it
 * may be refused by TOO_MANY_NODES. DOMAIN_FAILED and NOT_SELECTED refuse these three. Each call is
 * DONE or changes nothing; attach_token, release and close take no memory, and release and close
 * are refused of nothing. MISUSED. */
int mezulobu_collection_set_constraints(struct mezulobu_collection *collection,
                                        const struct mezulobu_participant *asked,
                                        struct mezulobu_refusal *why);
int mezulobu_collection_set_constraints_record(struct mezulobu_collection *collection,
                                               const void *record, size_t size, uint32_t *code);
int mezulobu_collection_attach_token(struct mezulobu_collection *collection,
                                     struct mezulobu_token **made);
int mezulobu_collection_release(struct mezulobu_collection **collection);
int mezulobu_collection_close(struct mezulobu_collection **collection);

/* What is wrong with a record, in words: the name of its first fault, as reports have it, or
 * "no JSON"; where it is, and what would be right. A text, with its size, TOO_SMALL and NO_MEMORY
 * as of mezulobu_run's:
 *
 *     S4 pixel_format
 *      --> record:1:62: image_format_constraints[0].pixel_format
 *       |
 *     1 | ...aints":[{"pixel_format":"nv12","color_spaces":["SRGB"]}]}
 *       |                            ^^^^^^ unknown name
 *       = did you mean NV12?
 *
 * kind says whose record it is, MEZULOBU_KIND_PLATFORM or MEZULOBU_KIND_PARTICIPANT; another number
 * is MISUSED, and nothing is written. DONE: text. NO: nothing is wrong with the record, and the
 * size is 0. mezulobu_allocator_new_record and mezulobu_collection_set_constraints_record refuse
 * exactly the records of which this has a text. */
int mezulobu_record_fault(uint32_t kind, const void *record, size_t size,
                          char *text, size_t *text_size);

/* What was decided for a collection. DONE: settings, which may be null. Else why there are none, or
 * PENDING; NO_MEMORY: the decision had no memory. The answer stays once it isn't PENDING. Of
 * settings with a format that has no code, which is L8 alone, the image is all 0. */
int mezulobu_collection_check(struct mezulobu_collection *collection,
                              struct mezulobu_settings *settings);

/* The same, once it isn't PENDING; NO where it still is after so many milliseconds. Below 0 it
 * waits as long as it takes; 0 doesn't wait. It may be cancelled, and a thread that is holds no
 * lock then. MISUSED: the handle was spent meanwhile. */
int mezulobu_collection_wait(struct mezulobu_collection *collection, int milliseconds,
                             struct mezulobu_settings *settings);

/* A file descriptor that polls as readable as soon as check isn't PENDING, and stays so; -1 where
 * the system gives none, or the handle is misused. Don't read, write or close it: it is the
 * collection's, which closes it when it is spent. So take it out of a set of epoll before that. */
int mezulobu_collection_fd(struct mezulobu_collection *collection);

/* Names a node, in scripts and explanations, which else call it `n` and its number: 1 to 32
 * letters, digits, '_' or '-', and a 0. A further name takes the place of the one before. REFUSED:
 * it is no such name, or it is `root` or `n` with digits. NO: another node of the collection has
 * it. MISUSED: of the first node, which is always `root`. NO_MEMORY. */
int mezulobu_token_set_name(struct mezulobu_token *token, const char *name);
int mezulobu_group_set_name(struct mezulobu_group *group, const char *name);
int mezulobu_collection_set_name(struct mezulobu_collection *collection, const char *name);

/* The name of a handle's own node. A text, with its size, TOO_SMALL and NO_MEMORY as of
 * mezulobu_run's; DONE, MISUSED. */
int mezulobu_token_name(struct mezulobu_token *token, char *name, size_t *name_size);
int mezulobu_group_name(struct mezulobu_group *group, char *name, size_t *name_size);
int mezulobu_collection_name(struct mezulobu_collection *collection, char *name,
                             size_t *name_size);

/* The number of the collection's node: 0 is the first token of all, and each call that makes one
 * takes the next. DONE, MISUSED. */
int mezulobu_collection_node(struct mezulobu_collection *collection, uint32_t *node);

/* The name of the node of a number. A text, with its size, TOO_SMALL and NO_MEMORY as of
 * mezulobu_run's; DONE; MISUSED, also where there is no such node. */
int mezulobu_collection_name_of(struct mezulobu_collection *collection, uint32_t node, char *name,
                                size_t *name_size);

/* Which alternatives were chosen: of each group that is selected itself, in the order of the tree,
 * each node before its children, the number of its child, counted from 0. n goes in as the room of
 * choices and comes out as their number: 0 without groups. DONE; TOO_SMALL; else as check of a
 * collection that is selected. */
int mezulobu_collection_selection(struct mezulobu_collection *collection, uint8_t *choices,
                                  size_t *n);

/* Who is in the way, where check says INTERSECTION_EMPTY of a domain without groups that isn't
 * attached. DONE: why, as a negotiation of its participants has it, in the order in which their
 * nodes were made, but that **who is the number of a node**. NO: it isn't so, and
 * mezulobu_collection_explain tells more. NO_MEMORY. */
int mezulobu_collection_refusal(struct mezulobu_collection *collection,
                                struct mezulobu_refusal *why);

/* All calls of the whole collection that were done so far, as a script, and what proves its
 * decisions. Texts, with their sizes, TOO_SMALL and NO_MEMORY as of mezulobu_run's; certificate and
 * certificate_size may be null. Between two calls a text may grow, and TOO_SMALL come again: so
 * make room and call until it doesn't. Both are of one moment. mezulobu_run accepts each of its
 * calls and decides the same, and mezulobu_check says yes to the certificate; but a decision that
 * had no memory is made by mezulobu_run, calls behind it may be refused, and mezulobu_check says
 * no. The actor of a call is the node on which it is made, where that has a name and there are 15
 * names at most. REFUSED: the script would be longer than a script may be; each size is 0. What
 * isn't in it: calls that were refused, check and wait. Of two scripts the later one begins with
 * the calls of the earlier one, under the names of its own moment. */
int mezulobu_collection_script(struct mezulobu_collection *collection, char *text,
                               size_t *text_size, void *certificate, size_t *certificate_size);

/* mezulobu_explain of the script, and mezulobu_explain_json, with "collection" for its file: who is
 * awaited, what decided each value, who is in the way and which changes help. Of a decision that
 * had no memory it says what it would be. A text, with its size, TOO_SMALL, again and again as of
 * mezulobu_collection_script, and NO_MEMORY. REFUSED: there is no such script, which would be too
 * long, and the size is 0. */
int mezulobu_collection_explain(struct mezulobu_collection *collection, char *text,
                                size_t *text_size);
int mezulobu_collection_explain_json(struct mezulobu_collection *collection, char *text,
                                     size_t *text_size);

#ifdef __cplusplus
}
#endif
#endif
