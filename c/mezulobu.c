/* The face of the proved exports: null pointers become what these take, which is no null pointer. */
#include "face.h"
#include <stdlib.h>
#include <string.h>

uint32_t mezulobu_rt_run(const uint8_t *, size_t, uint8_t *, size_t, size_t *);
uint32_t mezulobu_rt_run_with_proof(const uint8_t *, size_t, uint8_t *, size_t, size_t *, uint8_t *, size_t, size_t *);
uint32_t mezulobu_rt_check(const uint8_t *, size_t, const uint8_t *, size_t, uint8_t *, size_t, size_t *);
uint32_t mezulobu_rt_check_status(const uint8_t *, size_t, const uint8_t *, size_t);
uint32_t mezulobu_rt_explain(const uint8_t *, size_t, const uint8_t *, size_t, bool, bool, uint8_t *, size_t, size_t *);
uint32_t mezulobu_rt_record_fault(uint32_t, const uint8_t *, size_t, uint8_t *, size_t, size_t *);
uint32_t mezulobu_rt_planes(uint32_t, uint64_t, uint32_t, uint32_t, struct mezulobu_layout *);
uint32_t mezulobu_rt_negotiate(const struct mezulobu_platform *, const struct mezulobu_participant *, size_t,
                               struct mezulobu_settings *, struct mezulobu_refusal *);

int mezulobu_run(const void *script, size_t script_size, char *text, size_t *text_size,
                 void *certificate, size_t *certificate_size)
{
    uint8_t none[3];
    if (lacks(script, script_size) || !text_size || lacks_room(text, text_size)
        || lacks_room(certificate, certificate_size))
        return MEZULOBU_MISUSED;
    const uint8_t *in = script ? script : &none[0];
    uint8_t *out = text ? (uint8_t *)text : &none[1];
    uint8_t *proof = certificate ? certificate : &none[2];
    if (!certificate_size)
        return (int)mezulobu_rt_run(in, script_size, out, *text_size, text_size);
    return (int)mezulobu_rt_run_with_proof(in, script_size, out, *text_size, text_size,
                                           proof, *certificate_size, certificate_size);
}

int mezulobu_check(const void *script, size_t script_size, const void *certificate, size_t certificate_size,
                   char *text, size_t *text_size)
{
    uint8_t none[3];
    if (lacks(script, script_size) || lacks(certificate, certificate_size) || lacks_room(text, text_size))
        return MEZULOBU_MISUSED;
    const uint8_t *in = script ? script : &none[0];
    const uint8_t *proof = certificate ? certificate : &none[1];
    uint8_t *out = text ? (uint8_t *)text : &none[2];
    if (!text_size)
        return (int)mezulobu_rt_check_status(in, script_size, proof, certificate_size);
    return (int)mezulobu_rt_check(in, script_size, proof, certificate_size, out, *text_size, text_size);
}

static int explain_as(const void *script, size_t script_size, const char *file, bool is_json, bool is_strict,
                      char *text, size_t *text_size)
{
    uint8_t none[2];
    if (lacks(script, script_size) || !text_size || lacks_room(text, text_size))
        return MEZULOBU_MISUSED;
    const uint8_t *in = script ? script : &none[0];
    uint8_t *out = text ? (uint8_t *)text : &none[1];
    const char *name = file ? file : "script";
    return (int)mezulobu_rt_explain(in, script_size, (const uint8_t *)name, strlen(name), is_json, is_strict,
                                    out, *text_size, text_size);
}

int mezulobu_explain(const void *script, size_t script_size, const char *file, bool is_strict, char *text, size_t *text_size)
{
    return explain_as(script, script_size, file, false, is_strict, text, text_size);
}

int mezulobu_explain_json(const void *script, size_t script_size, const char *file, bool is_strict, char *text, size_t *text_size)
{
    return explain_as(script, script_size, file, true, is_strict, text, text_size);
}

int mezulobu_record_fault(uint32_t kind, const void *record, size_t size, char *text, size_t *text_size)
{
    uint8_t none[2];
    if (lacks(record, size) || !text_size || lacks_room(text, text_size))
        return MEZULOBU_MISUSED;
    const uint8_t *in = record ? record : &none[0];
    uint8_t *out = text ? (uint8_t *)text : &none[1];
    return (int)mezulobu_rt_record_fault(kind, in, size, out, *text_size, text_size);
}

int mezulobu_planes(uint32_t format, uint64_t modifier, uint32_t pitch, uint32_t height, struct mezulobu_layout *layout)
{
    return layout ? (int)mezulobu_rt_planes(format, modifier, pitch, height, layout) : MEZULOBU_MISUSED;
}

/* What stands for a list without items. */
static const struct mezulobu_heap no_heap;
static const struct mezulobu_pair no_pair;
static const uint32_t no_color;
static const struct mezulobu_entry no_entry;
static const struct mezulobu_participant no_participant;

bool mezulobu_mend_platform(struct mezulobu_platform *p)
{
    if (p->struct_size != sizeof *p || lacks(p->heaps, p->n_heaps) || lacks(p->pairs, p->n_pairs) || lacks(p->colors, p->n_colors))
        return false;
    p->heaps = p->heaps ? p->heaps : &no_heap;
    p->pairs = p->pairs ? p->pairs : &no_pair;
    p->colors = p->colors ? p->colors : &no_color;
    return true;
}

size_t mezulobu_mend_participant(struct mezulobu_participant *p)
{
    if (p->struct_size != sizeof *p || lacks(p->entries, p->n_entries))
        return MEZULOBU_NOBODY;
    for (size_t i = 0; i < p->n_entries; i++)
        if (p->entries[i].struct_size != sizeof p->entries[i])
            return i;
    p->entries = p->entries ? p->entries : &no_entry;
    return SOUND;
}

int mezulobu_misused(struct mezulobu_refusal *why, uint32_t kind, size_t who, size_t index)
{
    *why = (struct mezulobu_refusal){.struct_size = sizeof *why, .kind = kind, .who = who, .index = index};
    return MEZULOBU_MISUSED;
}

static int negotiate_list(const struct mezulobu_platform *platform, struct mezulobu_participant *list, size_t n,
                          struct mezulobu_settings *settings, struct mezulobu_refusal *refusal)
{
    for (size_t i = 0; i < n; i++) {
        size_t entry = mezulobu_mend_participant(&list[i]);
        if (entry != SOUND)
            return mezulobu_misused(refusal, MEZULOBU_KIND_PARTICIPANT, i, entry);
    }
    return (int)mezulobu_rt_negotiate(platform, n ? list : &no_participant, n, settings, refusal);
}

int mezulobu_negotiate(const struct mezulobu_platform *platform, const struct mezulobu_participant *participants, size_t n,
                       struct mezulobu_settings *settings, struct mezulobu_refusal *refusal)
{
    struct mezulobu_refusal own = {.struct_size = sizeof own};
    struct mezulobu_refusal *why = refusal ? refusal : &own;
    if (why->struct_size != sizeof *why)
        return MEZULOBU_MISUSED;
    if (!settings || settings->struct_size != sizeof *settings)
        return mezulobu_misused(why, 0, MEZULOBU_NOBODY, 0);
    // A smaller struct is not read beyond its first member.
    if (!platform || platform->struct_size != sizeof *platform)
        return mezulobu_misused(why, MEZULOBU_KIND_PLATFORM, MEZULOBU_NOBODY, 0);
    struct mezulobu_platform on = *platform;
    if (!mezulobu_mend_platform(&on))
        return mezulobu_misused(why, MEZULOBU_KIND_PLATFORM, MEZULOBU_NOBODY, 0);
    if (lacks(participants, n) || n > SIZE_MAX / sizeof *participants)
        return mezulobu_misused(why, MEZULOBU_KIND_PARTICIPANT, MEZULOBU_NOBODY, MEZULOBU_NOBODY);
    if (n && participants->struct_size != sizeof *participants)
        return mezulobu_misused(why, MEZULOBU_KIND_PARTICIPANT, 0, MEZULOBU_NOBODY);
    struct mezulobu_participant *list = n ? malloc(n * sizeof *list) : NULL;
    if (n && !list) {
        *why = (struct mezulobu_refusal){.struct_size = sizeof *why, .who = MEZULOBU_NOBODY};
        return MEZULOBU_NO_MEMORY;
    }
    if (n)
        memcpy(list, participants, n * sizeof *list);
    int status = negotiate_list(&on, list, n, settings, why);
    free(list);
    return status;
}

const char *mezulobu_field_name(uint32_t field)
{
    static const char *const names[] = {
        "usage", "min_buffer_count_for_camping", "min_buffer_count_for_dedicated_slack", "min_buffer_count_for_shared_slack",
        "min_buffer_count", "max_buffer_count", "buffer_memory_constraints", "image_format_constraints",
        "min_size_bytes", "max_size_bytes", "physically_contiguous_required", "secure_required",
        "cpu_domain_supported", "ram_domain_supported", "inaccessible_domain_supported", "permitted_heaps",
        "pixel_format", "pixel_format_modifier", "pixel_format_and_modifiers", "color_spaces",
        "min_size", "max_size", "size_alignment", "min_bytes_per_row",
        "max_bytes_per_row", "bytes_per_row_divisor", "start_offset_divisor", "display_rect_alignment",
        "required_min_size", "required_max_size", "max_width_times_height", "require_bytes_per_row_at_pixel_boundary",
        "buffer_count_limit", "unnamed_pixel_format", "unnamed_pixel_format_modifier", "unnamed_color_space",
        "heaps", "pairs", "heap_type", "id",
        "contiguous", "secure", "domains",
    };
    return field && field <= sizeof names / sizeof names[0] ? names[field - 1] : "?";
}

const char *mezulobu_fault_name(uint32_t fault)
{
    static const char *const names[] = {
        "no JSON", "S1 NotAnObject", "S2 UnknownField", "S3 WrongKind", "S4 UnknownName", "S5 BadUsage", "S6 NoColourSpaces",
        "S7 BadMultiple", "S8 RepeatedPair", "S9 TooMany", "S10 RepeatedHeap", "S11 BadPlatformList", "S12 TiledMisfit",
        "S13 WantOfMemory",
    };
    return fault < sizeof names / sizeof names[0] ? names[fault] : "?";
}

const char *mezulobu_status_name(int status)
{
    static const char *const names[] = {
        [MEZULOBU_DONE] = "DONE", [MEZULOBU_MISUSED] = "MISUSED", [MEZULOBU_REFUSED] = "REFUSED", [MEZULOBU_NO_MEMORY] = "NO_MEMORY",
        [MEZULOBU_TOO_SMALL] = "TOO_SMALL", [MEZULOBU_NO] = "NO", [MEZULOBU_WRONG_STATE] = "WRONG_STATE",
        [MEZULOBU_TOO_MANY_NODES] = "TOO_MANY_NODES", [MEZULOBU_NO_CHILDREN] = "NO_CHILDREN", [MEZULOBU_NOT_SELECTED] = "NOT_SELECTED",
        [MEZULOBU_DOMAIN_FAILED] = "DOMAIN_FAILED", [MEZULOBU_INTERSECTION_EMPTY] = "INTERSECTION_EMPTY",
        [MEZULOBU_TOO_MANY_SELECTIONS] = "TOO_MANY_SELECTIONS", [MEZULOBU_PENDING] = "PENDING", [MEZULOBU_STRANGE] = "STRANGE",
    };
    return status >= 0 && (size_t)status < sizeof names / sizeof names[0] && names[status] ? names[status] : "?";
}

/* What a status says of a call, or of any where there is none. */
struct meaning {
    int status;
    const char *call, *text;
};

/* What is of a call stands before what is of any: of a call on a handle under its name without the handle's kind, of another under
 * its whole name. The names of E1 to E10 are those of reports. */
static const struct meaning meanings[] = {
    {MEZULOBU_MISUSED, "set_name", "misused: the first node is always root"},
    {MEZULOBU_MISUSED, "name_of", "misused: there is no node of that number"},
    {MEZULOBU_MISUSED, "mezulobu_record_fault", "misused: a null pointer, or a kind that is neither a platform's nor a participant's"},
    {MEZULOBU_REFUSED, "set_name", "refused: a name is 1 to 32 letters, digits, _ or -, and not root, nor n with digits"},
    {MEZULOBU_REFUSED, "new", "refused: the platform can't be meant; the refusal says which field"},
    {MEZULOBU_REFUSED, "new_record", "refused: the record has a fault; record_fault says what and where"},
    {MEZULOBU_REFUSED, "set_constraints", "refused: the participant can't be meant; the refusal says which field"},
    {MEZULOBU_REFUSED, "set_constraints_record", "refused: the record has a fault; record_fault says what and where"},
    {MEZULOBU_REFUSED, "script", "refused: it would be longer than a script may be"},
    {MEZULOBU_REFUSED, "explain", "refused: the collection's script would be longer than a script may be"},
    {MEZULOBU_REFUSED, "explain_json", "refused: the collection's script would be longer than a script may be"},
    {MEZULOBU_NO_MEMORY, "check", "E1 NoMemory: the decision had no memory, and stays so"},
    {MEZULOBU_NO_MEMORY, "wait", "E1 NoMemory: the decision had no memory, and stays so"},
    {MEZULOBU_NO_MEMORY, "selection", "E1 NoMemory: the decision had no memory, and stays so"},
    {MEZULOBU_NO, "set_name", "no: another node of the collection has this name"},
    {MEZULOBU_NO, "wait", "no: nothing was decided in that time; explain says who is awaited"},
    {MEZULOBU_NO, "refusal", "no: check isn't E7, or the domain has groups or is attached; explain tells more"},
    {MEZULOBU_NO, "mezulobu_record_fault", "no: nothing is wrong with the record"},
    {MEZULOBU_WRONG_STATE, "set_constraints", "E2 WrongState: a collection says once what it asks for"},
    {MEZULOBU_WRONG_STATE, "set_constraints_record", "E2 WrongState: a collection says once what it asks for"},
    {MEZULOBU_WRONG_STATE, "create_child", "E2 WrongState: a child comes before all_children_present"},
    {MEZULOBU_WRONG_STATE, "all_children_present", "E2 WrongState: it is called once"},
    {MEZULOBU_WRONG_STATE, "release", "E2 WrongState: a group is released after all_children_present"},
    {MEZULOBU_DONE, NULL, "done"},
    {MEZULOBU_MISUSED, NULL, "misused: a null pointer, a handle that is spent or of another kind, or a struct of another size"},
    {MEZULOBU_REFUSED, NULL, "refused: what is given can't be meant"},
    {MEZULOBU_NO_MEMORY, NULL, "E1 NoMemory: memory was refused; the call changed nothing"},
    {MEZULOBU_TOO_SMALL, NULL, "too small: a text is longer than the room for it"},
    {MEZULOBU_NO, NULL, "no"},
    {MEZULOBU_WRONG_STATE, NULL, "E2 WrongState: the handle isn't in a state that allows the call"},
    {MEZULOBU_TOO_MANY_NODES, NULL, "E3 TooManyNodes: a collection has at most 128, those that are gone included, and its host may allow a client fewer"},
    {MEZULOBU_NO_CHILDREN, NULL, "E4 NoChildren: a group has a child before all_children_present"},
    {MEZULOBU_NOT_SELECTED, NULL, "E5 NotSelected: another alternative was chosen"},
    {MEZULOBU_DOMAIN_FAILED, NULL, "E6 DomainFailed: the domain failed (somebody closed too early, or what it was attached to has no "
                                   "settings), or no settings were chosen; explain says which"},
    {MEZULOBU_INTERSECTION_EMPTY, NULL, "E7 ConstraintsIntersectionEmpty: no settings meet everybody; explain says who is in the way"},
    {MEZULOBU_TOO_MANY_SELECTIONS, NULL, "E8 TooManyGroupChildCombinations: more than 4,096 selections of alternatives"},
    {MEZULOBU_PENDING, NULL, "E9 Pending: nothing is decided yet; explain says who is awaited"},
    {MEZULOBU_STRANGE, NULL, "E10 Strange: no correct run gives it"},
};

/* Whether what begins a text is this, which is left out of it then. */
static bool strip(const char **text, const char *begins)
{
    size_t n = strlen(begins);
    bool good = strlen(*text) >= n && !memcmp(*text, begins, n);
    *text += good ? n : 0;
    return good;
}

/* Whether a name of the table is that of a call: as the header has it, or without what says whose it is. */
static bool is_name_of(const char *name, const char *call)
{
    static const char *const kinds[] = {"allocator_", "token_", "group_", "collection_"};
    const char *whole = name;
    if (!strcmp(name, call) || (strip(&whole, "mezulobu_") && !strcmp(whole, call)))
        return true;
    (void)strip(&call, "mezulobu_");
    for (size_t i = 0; i < sizeof kinds / sizeof kinds[0]; i++)
        if (strip(&call, kinds[i]))
            return !strcmp(name, call);
    return false;
}

const char *mezulobu_status_text(int status, const char *call)
{
    const char *of = call ? call : "";
    for (size_t i = 0; i < sizeof meanings / sizeof meanings[0]; i++)
        if (meanings[i].status == status && (!meanings[i].call || is_name_of(meanings[i].call, of)))
            return meanings[i].text;
    return "?";
}

uint32_t mezulobu_version(void) { return MEZULOBU_VERSION; }
