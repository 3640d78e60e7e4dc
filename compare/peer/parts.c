/* What each glyph of a line brings: its part in a stage, and its actions. */
#include "line.h"

enum { SLOTS = 128, EVERY_GLYPH = 65536 };

/* A lookup of an accepted table: of formats 0 and 8 `units` are the values, from glyph `first` on. */
struct lookup {
    const uint8_t *start, *units;
    uint32_t format, count, first;
};

static inline struct lookup open_lookup(const uint8_t *start) {
    uint32_t format = be16(start);
    if (format == 0) return (struct lookup){start, start + FORMAT_0_VALUES, format, EVERY_GLYPH, 0};
    if (format == 8) {
        uint32_t first = be16(start + FORMAT_8_FIRST), count = be16(start + FORMAT_8_COUNT);
        return (struct lookup){start, start + FORMAT_8_VALUES, format, count, first};
    }
    return (struct lookup){start, start + UNITS_AT, format, be16(start + UNIT_COUNT_AT), 0};
}

/* Of one unit or more the first whose last glyph is not before the glyph, or the last unit. */
INLINE const uint8_t *halve(const uint8_t *units, uint32_t count, uint32_t glyph, const uint32_t size) {
    while (count > 1) {
        uint32_t half = count / 2;
        units = be16(units + size * (half - 1)) < glyph ? units + size * half : units;
        count -= half;
    }
    return units;
}

/* A glyph's value, or -1. */
static inline int32_t find_segment(const struct lookup *in, uint32_t glyph) {
    if (!in->count) return -1;
    const uint8_t *unit = halve(in->units, in->count, glyph, SEGMENT);
    uint32_t ends = be32(unit), first = ends & 0xFFFF;
    if (glyph > ends >> 16 || glyph < first) return -1;
    uint32_t value = be16(unit + 4);
    return (int32_t)(in->format == 2 ? value : be16(in->start + value + 2 * (glyph - first)));
}

static inline int32_t find_single(const struct lookup *in, uint32_t glyph) {
    if (!in->count) return -1;
    const uint8_t *unit = halve(in->units, in->count, glyph, SINGLE);
    return be16(unit) == glyph ? (int32_t)be16(unit + 2) : -1;
}

static inline int32_t find(const struct lookup *in, uint32_t glyph) {
    if (in->format == 2 || in->format == 4) return find_segment(in, glyph);
    if (in->format == 6) return find_single(in, glyph);
    return glyph - in->first < in->count ? (int32_t)be16(in->units + 2 * (glyph - in->first)) : -1;
}

/* The pair of a class in a cluster, or null: halved while there are many, then one after another. */
static inline const uint8_t *find_pair(const uint8_t *cluster, uint32_t class) {
    enum { FEW = 8 };
    uint32_t count = be32(cluster);
    const uint8_t *pair = cluster + PAIRS_AT;
    while (count > FEW) {
        uint32_t half = count / 2;
        pair = (uint32_t)(pair[PAIR * half + 3] & CLASS) <= class ? pair + PAIR * half : pair;
        count -= half;
    }
    for (; count; count--, pair += PAIR) {
        if ((uint32_t)(pair[3] & CLASS) == class) return pair;
    }
    return NULL;
}

static inline uint32_t factor(uint32_t limit, uint32_t size) {
    return (uint32_t)((uint64_t)limit * size >> 16);
}

static inline uint32_t size_of(uint32_t limit) {
    return (int32_t)limit < 0 ? 0 - limit : limit;
}

/* Adds the part of the glyph at a place to its stage. */
static inline void take_part(const struct line *line, struct work *work, size_t place, const uint8_t *pair) {
    const uint32_t size = line->sizes[place];
    const bool shrinks = line->shrinks;
    uint32_t flags = be16(pair + (shrinks ? SHRINK_FLAGS : GROW_FLAGS));
    uint32_t before = be32(pair + (shrinks ? BEFORE_SHRINK : BEFORE_GROW));
    uint32_t after = be32(pair + (shrinks ? AFTER_SHRINK : AFTER_GROW));
    if (shrinks) before = size_of(before), after = size_of(after);
    struct stage *stage = &work->stages[flags & PRIORITY];
    struct part *part = &stage->parts[stage->count++];
    *part = (struct part){(uint32_t)place, factor(before, size), factor(after, size)};
    stage->total += (uint64_t)part->before + part->after;
    if (flags & UNLIMITED) stage->unlimited[stage->unlimited_count++] = (uint16_t)place;
}

/* Where a glyph's cluster and list are: -1 without a cluster, 0 without a list. */
struct known {
    uint16_t glyph;
    int16_t full;
    int32_t cluster, list;
};

static inline void look_up(struct known *known, const struct line *line, const struct lookup *widths,
                           const struct lookup *actions, uint32_t glyph) {
    int32_t value = find(widths, glyph);
    known->glyph = (uint16_t)glyph;
    known->full = 1;
    known->cluster = value < 0 ? -1 : (int32_t)line->clusters + value;
    value = line->actions ? find(actions, glyph) : 0;
    known->list = value > 0 ? (int32_t)line->actions + value : 0;
}

static void clear_stages(struct work *work) {
    for (int i = 0; i < STAGES; i++) {
        struct stage *stage = &work->stages[i];
        stage->total = stage->count = stage->unlimited_count = 0;
    }
}

/* A glyph is looked up once as long as no other one takes its slot: text repeats itself. */
void take_parts(const struct line *line, struct work *work) {
    clear_stages(work);
    work->actor_count = 0;
    if (!line->direction) return;
    struct lookup widths = open_lookup(line->table + line->direction + DIRECTION), actions = widths;
    if (line->actions) actions = open_lookup(line->table + line->actions);
    struct actor *actor = work->actors;
    struct known slots[SLOTS];
    for (uint32_t i = 0; i < SLOTS; i++) slots[i].full = 0;
    for (size_t place = 0; place < line->count; place++) {
        uint32_t glyph = line->glyphs[place];
        if (UNLIKELY(glyph == DELETED)) continue;
        struct known *known = &slots[glyph % SLOTS];
        if (known->glyph != glyph || !known->full) look_up(known, line, &widths, &actions, glyph);
        if (known->list) *actor++ = (struct actor){(uint16_t)place, (uint16_t)known->list};
        if (known->cluster < 0) continue;
        const uint8_t *pair = find_pair(line->table + known->cluster, work->classes[place]);
        if (pair) take_part(line, work, place, pair);
    }
    work->actor_count = (uint32_t)(actor - work->actors);
}
