/* What devices name together, which is what a platform may offer them. */
#include "formats.h"

/* Participants in the order of preference: one first, and then the others as they stand. */
struct order {
    const struct mezulobu_participant *list;
    size_t n, first;
};

static const struct mezulobu_participant *nth(const struct order *order, size_t i)
{
    size_t at = !i ? order->first : i <= order->first ? i - 1 : i;
    return &order->list[at];
}

static struct order ordered(const struct mezulobu_participant *list, size_t n)
{
    struct order order = {list, n, 0};
    for (size_t i = n; i--;)
        if (list[i].usage & MEZULOBU_USE_DISPLAY)
            order.first = i;
    return order;
}

static bool has_pair(const struct mezulobu_participant *p, size_t n_entries,
                     const struct mezulobu_entry *entry)
{
    for (size_t i = 0; i < n_entries; i++)
        if (p->entries[i].format == entry->format && p->entries[i].modifier == entry->modifier)
            return true;
    return false;
}

/* Whether the k-th entry of the i-th participant names a pair that none before it does. */
static bool is_new(const struct order *order, size_t i, size_t k)
{
    const struct mezulobu_entry *entry = &nth(order, i)->entries[k];
    if (entry->any_format || entry->any_modifier || has_pair(nth(order, i), k, entry))
        return false;
    for (size_t before = 0; before < i; before++)
        if (has_pair(nth(order, before), nth(order, before)->n_entries, entry))
            return false;
    return true;
}

static size_t put_pairs(const struct order *order, struct mezulobu_pair *pairs, size_t room)
{
    size_t count = 0;
    for (size_t i = 0; i < order->n; i++)
        for (size_t k = 0; k < nth(order, i)->n_entries; k++) {
            const struct mezulobu_entry *entry = &nth(order, i)->entries[k];
            if (!is_new(order, i, k))
                continue;
            if (count < room)
                pairs[count] = (struct mezulobu_pair){
                    .format = entry->format, .modifier = entry->modifier};
            count++;
        }
    return count;
}

static uint32_t colors_named(const struct mezulobu_participant *list, size_t n)
{
    uint32_t set = 0;
    for (size_t i = 0; i < n; i++)
        for (size_t k = 0; k < list[i].n_entries; k++)
            set |= list[i].entries[k].colors;
    return set;
}

static size_t put_colors(uint32_t set, uint32_t *list, size_t room)
{
    size_t count = 0;
    for (size_t i = 0; i < N_COLORS; i++) {
        if (!(set & known_colors[i].bit))
            continue;
        if (count < room)
            list[count] = known_colors[i].bit;
        count++;
    }
    return count;
}

static bool are_usable(const struct mezulobu_participant *list, size_t n)
{
    for (size_t i = 0; i < n; i++)
        if (list[i].struct_size != sizeof list[i] || (list[i].n_entries && !list[i].entries))
            return false;
    return true;
}

int mezulobu_devices_platform(const struct mezulobu_participant *participants, size_t n,
                              struct mezulobu_pair *pairs, size_t *n_pairs,
                              uint32_t *colors, size_t *n_colors)
{
    if ((n && !participants) || !are_usable(participants, n) || !n_pairs || !n_colors
        || (*n_pairs && !pairs) || (*n_colors && !colors))
        return MEZULOBU_MISUSED;
    struct order order = ordered(participants, n);
    size_t pairs_room = *n_pairs, colors_room = *n_colors;
    *n_pairs = put_pairs(&order, pairs, pairs_room);
    *n_colors = put_colors(colors_named(participants, n), colors, colors_room);
    bool is_short = *n_pairs > pairs_room || *n_colors > colors_room;
    return is_short ? MEZULOBU_TOO_SMALL : MEZULOBU_DONE;
}
