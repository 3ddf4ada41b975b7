// negotiation: times mezulobu_negotiate of three participants, mezulobu_run of a script in which
// the same participants ask for the same, and a merge of the same fields that is written by hand.
// Each gives the same settings, which is tested. A time is the processor's, and the least of
// several rounds, in which the three take turns. It prints three times in nanoseconds.
//
// usage: negotiation SCRIPT COUNT SIZE
#define _POSIX_C_SOURCE 200809L
#include "three.h"
#include <stdio.h>
#include <string.h>

#define ROUNDS 15
#define MANY 2000
#define MOST 128u

// ---- The merge by hand: the same fields of the same structs, without tiles, and without what none
// of the three asks for beside sizes, rows and alignments ----

struct merged {
    uint32_t min_w, min_h, max_w, max_h, align_w, align_h, min_pitch, max_pitch, divisor;
    uint64_t max_pixels;
};

static uint32_t most(uint32_t n) { return n ? n : UINT32_MAX; }
static uint32_t some(uint32_t n) { return n ? n : 1; }
static uint32_t greater(uint32_t a, uint32_t b) { return a > b ? a : b; }
static uint32_t less(uint32_t a, uint32_t b) { return a < b ? a : b; }
static uint32_t up_to(uint32_t n, uint32_t step) { return (n + step - 1) / step * step; }

static uint32_t multiple(uint32_t a, uint32_t b)
{
    uint32_t x = a, y = b;
    while (y) {
        uint32_t rest = x % y;
        x = y;
        y = rest;
    }
    return a / x * b;
}

static const struct mezulobu_entry *entry_for(const struct mezulobu_participant *p, const struct mezulobu_pair *pair, uint32_t color)
{
    for (size_t e = 0; e < p->n_entries; e++) {
        const struct mezulobu_entry *entry = &p->entries[e];
        if ((entry->any_format || entry->format == pair->format) && (entry->any_modifier || entry->modifier == pair->modifier))
            return entry->colors & (color | MEZULOBU_COLOR_DO_NOT_CARE) ? entry : NULL;
    }
    return NULL;
}

static void add_entry(struct merged *m, const struct mezulobu_entry *e)
{
    m->min_w = greater(m->min_w, some(e->min_size.width));
    m->min_h = greater(m->min_h, some(e->min_size.height));
    m->max_w = less(m->max_w, most(e->max_size.width));
    m->max_h = less(m->max_h, most(e->max_size.height));
    m->align_w = multiple(m->align_w, some(e->size_alignment.width));
    m->align_h = multiple(m->align_h, some(e->size_alignment.height));
    m->min_pitch = greater(m->min_pitch, some(e->min_pitch));
    m->max_pitch = less(m->max_pitch, most(e->max_pitch));
    m->divisor = multiple(m->divisor, some(e->pitch_divisor));
    if (e->max_pixels && e->max_pixels < m->max_pixels)
        m->max_pixels = e->max_pixels;
}

static int fit(const struct mezulobu_platform *on, const struct mezulobu_participant *ps, size_t n, struct mezulobu_settings *s, const struct mezulobu_pair *pair, uint32_t color)
{
    uint32_t own = pair->format == NV12 ? 2 : 1, bytes = pair->format == NV12 ? 1 : 4;
    struct merged m = {1, 1, UINT32_MAX, UINT32_MAX, own, own, 1, UINT32_MAX, own, UINT64_MAX};
    int is_named = 0;
    uint64_t least = 1, greatest = UINT64_MAX;
    (void)on;
    for (size_t who = 0; who < n; who++) {
        const struct mezulobu_entry *e = entry_for(&ps[who], pair, color);
        if (ps[who].n_entries && !e)
            return 0;
        if (e) {
            is_named |= !(e->colors & MEZULOBU_COLOR_DO_NOT_CARE);
            add_entry(&m, e);
        }
        if (ps[who].min_bytes > least)
            least = ps[who].min_bytes;
        if (ps[who].max_bytes && ps[who].max_bytes < greatest)
            greatest = ps[who].max_bytes;
    }
    uint32_t w = up_to(m.min_w, m.align_w), h = up_to(m.min_h, m.align_h), pitch = up_to(greater(w * bytes, m.min_pitch), m.divisor);
    uint64_t size = (uint64_t)pitch * h;
    if (pair->format == NV12)
        size += size / 2;
    if (!is_named || w > m.max_w || h > m.max_h || pitch > m.max_pitch || (uint64_t)w * h > m.max_pixels || size > greatest)
        return 0;
    s->bytes = size > least ? size : least;
    s->image = (struct mezulobu_image){pair->modifier, pair->format, color, w, h, {size, 1, 0, {{0, h, pitch, 0}}}};
    if (pair->format == NV12) {
        s->image.layout.n_planes = 2;
        s->image.layout.planes[1] = (struct mezulobu_plane){(uint64_t)pitch * h, h / 2, pitch, 0};
    }
    return 1;
}

static int place(const struct mezulobu_platform *on, const struct mezulobu_participant *ps, size_t n, struct mezulobu_settings *s)
{
    for (size_t h = 0; h < on->n_heaps; h++)
        for (uint32_t domain = MEZULOBU_COHERENT_CPU; domain <= MEZULOBU_COHERENT_INACCESSIBLE; domain *= 2) {
            int good = domain == MEZULOBU_COHERENT_CPU ? on->heaps[h].cpu : domain == MEZULOBU_COHERENT_RAM ? on->heaps[h].ram : on->heaps[h].inaccessible;
            for (size_t who = 0; good && who < n; who++) {
                const struct mezulobu_participant *p = &ps[who];
                int none = !p->cpu && !p->ram && !p->inaccessible, hidden = domain == MEZULOBU_COHERENT_INACCESSIBLE || on->heaps[h].secure;
                int takes = domain == MEZULOBU_COHERENT_CPU ? p->cpu || none : domain == MEZULOBU_COHERENT_RAM ? p->ram : p->inaccessible;
                good = takes && (!p->contiguous || on->heaps[h].contiguous) && (!p->secure || on->heaps[h].secure);
                good = good && (!p->heaps || p->heaps >> h & 1) && !(p->usage & MEZULOBU_USE_CPU && hidden);
            }
            if (good) {
                s->heap = h;
                s->coherency = domain;
                return 1;
            }
        }
    return 0;
}

static int merge(const struct mezulobu_platform *on, const struct mezulobu_participant *ps, size_t n, struct mezulobu_settings *s)
{
    uint32_t held = 0, shared = 0, least = 1, greatest = MOST;
    for (size_t who = 0; who < n; who++) {
        held += ps[who].camping + ps[who].dedicated_slack;
        shared = greater(shared, ps[who].shared_slack);
        least = greater(least, ps[who].min_count);
        greatest = less(greatest, most(ps[who].max_count));
    }
    s->count = greater(least, held + shared);
    if (s->count > greatest || !place(on, ps, n, s))
        return MEZULOBU_NO;
    for (size_t p = 0; p < on->n_pairs; p++)
        for (size_t c = 0; c < on->n_colors; c++)
            if (fit(on, ps, n, s, &on->pairs[p], on->colors[c]))
                return MEZULOBU_DONE;
    return MEZULOBU_NO;
}

// ---- What is timed ----

static char script[1 << 16], report[1 << 16];
static size_t script_size;
static struct mezulobu_settings negotiated, by_hand;

static int by_structs(void)
{
    memset(&negotiated, 0, sizeof negotiated);
    negotiated.struct_size = sizeof negotiated;
    return mezulobu_negotiate(&platform, participants, PARTICIPANTS, &negotiated, NULL);
}

static int by_script(void)
{
    size_t size = sizeof report;
    return mezulobu_run(script, script_size, report, &size, NULL, NULL);
}

static int by_merge(void)
{
    memset(&by_hand, 0, sizeof by_hand);
    by_hand.struct_size = sizeof by_hand;
    return merge(&platform, participants, PARTICIPANTS, &by_hand);
}

int main(int words, char **word)
{
    FILE *file = words == 4 ? fopen(word[1], "rb") : NULL;
    if (!file)
        return 2;
    script_size = fread(script, 1, sizeof script, file);
    fclose(file);
    int (*const jobs[])(void) = {by_structs, by_script, by_merge};
    const int times[] = {MANY, MANY / 4, MANY * 20};
    double least[3] = {0};
    for (int round = 0; round < ROUNDS; round++)
        for (int job = 0; job < 3; job++) {
            double took = spent(jobs[job], times[job]);
            if (round == 0 || took < least[job])
                least[job] = took;
        }
    if (memcmp(&negotiated, &by_hand, sizeof by_hand) || negotiated.count != strtoul(word[2], NULL, 10) || negotiated.bytes != strtoull(word[3], NULL, 10))
        return 3;
    printf("%.0f %.0f %.0f\n", least[0], least[1], least[2]);
    return 0;
}
