/* Judging a lookup, and what its values lead to. Of which kind that is, is known when a function is compiled: judges of
 * a lookup stand twice in the program, and once here. */
#include "judge.h"

#include <stdbool.h>

enum { NO_VALUE = 0x10000 };

/* Judges what a value leads to, if it has not been met. */
INLINE struct just_checked visit(struct judged *of, const enum kind kind, size_t base, uint32_t value) {
    if (kind == LISTS && value == 0) return accepted();
    size_t at = base + value;
    if (UNLIKELY(at >= of->length)) return fault(JUST_OUTSIDE, at);
    uint64_t *word = &of->seen[kind][at / 64], bit = 1ull << at % 64;
    if (*word & bit) return accepted();
    struct just_checked found = kind == LISTS ? judge_list(of->table, of->length, of->glyph_count, at)
                                              : judge_cluster(of->table, of->length, at);
    if (LIKELY(!found.refusal)) *word |= bit;
    return found;
}

/* Finds the values of an array, one or more. */
static inline struct just_checked find_values(const struct judged *of, size_t at, uint32_t count) {
    if (LIKELY(at + 2 * (size_t)count <= of->length)) return accepted();
    return first_outside(of->length, at, 2);
}

/* Judges what the values of an array lead to; of equal ones in a row only the first is looked at. */
INLINE struct just_checked visit_values(struct judged *of, const enum kind kind, size_t base, size_t at,
                                        uint32_t count) {
    const uint8_t *field = of->table + at;
    uint32_t previous = NO_VALUE;
    for (; count; count--, field += 2) {
        uint32_t value = be16(field);
        if (value == previous) continue;
        previous = value;
        struct just_checked found = visit(of, kind, base, value);
        if (UNLIKELY(found.refusal)) return found;
    }
    return accepted();
}

/* A unit's last glyph above its first. */
INLINE uint32_t ends_of(const uint8_t *unit, const uint32_t size) {
    return size == SEGMENT ? be32(unit) : be16(unit) * 0x10001;
}

/* Whether units rise without overlap, each from its first glyph to its last. Faults are gathered, as in clusters. */
INLINE bool units_rise(const uint8_t *unit, uint32_t count, const uint32_t size) {
    int32_t previous = -1;
    uint32_t bad = 0;
    for (uint32_t i = 0; i < count; i++, unit += size) {
        uint32_t ends = ends_of(unit, size);
        int32_t last = (int32_t)(ends >> 16), first = (int32_t)(ends & 0xFFFF);
        bad |= (uint32_t)(first <= previous) | (uint32_t)(last < first);
        previous = last;
    }
    return !bad;
}

/* The first fault of a unit; both rules of a segment are judged at its first glyph, the later field. */
static struct just_checked unit_fault(const struct judged *of, size_t at, uint32_t size, int32_t previous) {
    size_t first_at = at + size - SINGLE;
    if (at + 2 > of->length) return fault(JUST_OUTSIDE, at);
    if (first_at + 2 > of->length) return fault(JUST_OUTSIDE, first_at);
    uint32_t ends = ends_of(of->table + at, size);
    int32_t last = (int32_t)(ends >> 16), first = (int32_t)(ends & 0xFFFF);
    if (first <= previous || last < first) return fault(JUST_BAD_LOOKUP, first_at);
    return first_at + 4 > of->length ? fault(JUST_OUTSIDE, first_at + 2) : accepted();
}

/* The first fault of a lookup with units, what its values lead to left out. */
RARE struct just_checked units_fault(const struct judged *of, size_t lookup, uint32_t size) {
    if (lookup + UNIT_COUNT_AT > of->length) return fault(JUST_OUTSIDE, lookup + UNIT_SIZE_AT);
    if (be16(of->table + lookup + UNIT_SIZE_AT) != size) return fault(JUST_BAD_LOOKUP, lookup + UNIT_SIZE_AT);
    if (lookup + UNIT_COUNT_AT + 2 > of->length) return fault(JUST_OUTSIDE, lookup + UNIT_COUNT_AT);
    uint32_t count = be16(of->table + lookup + UNIT_COUNT_AT);
    int32_t previous = -1;
    size_t at = lookup + UNITS_AT;
    for (; count; count--, at += size) {
        struct just_checked found = unit_fault(of, at, size, previous);
        if (found.refusal) return found;
        previous = (int32_t)be16(of->table + at);
    }
    return accepted();
}

/* Finds and judges units. The search fields before them are not read: without units they may lie outside. */
INLINE struct just_checked judge_units(const struct judged *of, size_t lookup, const uint32_t size) {
    if (LIKELY(lookup + UNITS_AT <= of->length)) {
        const uint8_t *start = of->table + lookup;
        uint32_t count = be16(start + UNIT_COUNT_AT);
        size_t inside = (of->length - lookup - UNITS_AT) / size;
        bool good = be16(start + UNIT_SIZE_AT) == size && count <= inside;
        if (LIKELY(good && units_rise(start + UNITS_AT, count, size))) return accepted();
    }
    return units_fault(of, lookup, size);
}

/* Formats 2 and 6: each unit has one value. */
INLINE struct just_checked judge_values(struct judged *of, size_t lookup, size_t base, const enum kind kind,
                                        const uint32_t size) {
    struct just_checked found = judge_units(of, lookup, size);
    if (UNLIKELY(found.refusal)) return found;
    const uint8_t *unit = of->table + lookup + UNITS_AT;
    uint32_t count = be16(of->table + lookup + UNIT_COUNT_AT);
    for (uint32_t i = 0; i < count; i++, unit += size) {
        if (be16(unit + size - SINGLE) >= of->glyph_count) break;
        found = visit(of, kind, base, be16(unit + size - 2));
        if (UNLIKELY(found.refusal)) return found;
    }
    return accepted();
}

/* How many glyphs below N a segment covers. */
static inline uint32_t covered(const struct judged *of, const uint8_t *unit) {
    uint32_t first = be16(unit + 2), end = be16(unit) + 1;
    if (end > of->glyph_count) end = of->glyph_count;
    return first < end ? end - first : 0;
}

/* Format 4: each unit has an array. All arrays are found before what any value leads to is judged. */
INLINE struct just_checked judge_arrays(struct judged *of, size_t lookup, size_t base, const enum kind kind) {
    struct just_checked found = judge_units(of, lookup, SEGMENT);
    if (UNLIKELY(found.refusal)) return found;
    const uint8_t *start = of->table + lookup, *units = start + UNITS_AT;
    const uint8_t *end = units + SEGMENT * be16(start + UNIT_COUNT_AT);
    for (const uint8_t *unit = units; unit < end; unit += SEGMENT) {
        uint32_t count = covered(of, unit);
        if (!count) end = unit;
        else found = find_values(of, lookup + be16(unit + 4), count);
        if (UNLIKELY(found.refusal)) return found;
    }
    for (const uint8_t *unit = units; unit < end; unit += SEGMENT) {
        found = visit_values(of, kind, base, lookup + be16(unit + 4), covered(of, unit));
        if (UNLIKELY(found.refusal)) return found;
    }
    return accepted();
}

/* Formats 0 and 8: a value for each of `count` glyphs. */
INLINE struct just_checked judge_row(struct judged *of, size_t at, uint32_t count, size_t base, const enum kind kind) {
    struct just_checked found = find_values(of, at, count);
    return UNLIKELY(found.refusal) ? found : visit_values(of, kind, base, at, count);
}

INLINE struct just_checked judge_trimmed(struct judged *of, size_t lookup, size_t base, const enum kind kind) {
    if (lookup + FORMAT_8_VALUES > of->length) return first_outside(of->length, lookup + FORMAT_8_FIRST, 2);
    const uint8_t *start = of->table + lookup;
    uint32_t first = be16(start + FORMAT_8_FIRST), end = first + be16(start + FORMAT_8_COUNT);
    if (end > of->glyph_count) end = of->glyph_count;
    if (first >= end) return accepted();
    return judge_row(of, lookup + FORMAT_8_VALUES, end - first, base, kind);
}

INLINE struct just_checked judge_lookup(struct judged *of, size_t lookup, size_t base, const enum kind kind) {
    if (lookup + 2 > of->length) return fault(JUST_OUTSIDE, lookup);
    switch (be16(of->table + lookup)) {
    case 0:
        return judge_row(of, lookup + FORMAT_0_VALUES, of->glyph_count, base, kind);
    case 2:
        return judge_values(of, lookup, base, kind, SEGMENT);
    case 4:
        return judge_arrays(of, lookup, base, kind);
    case 6:
        return judge_values(of, lookup, base, kind, SINGLE);
    case 8:
        return judge_trimmed(of, lookup, base, kind);
    default:
        return fault(JUST_BAD_LOOKUP, lookup);
    }
}

struct just_checked judge_widths(struct judged *of, size_t lookup, size_t clusters) {
    return judge_lookup(of, lookup, clusters, CLUSTERS);
}

/* An action value counts from its lookup. */
struct just_checked judge_actions(struct judged *of, size_t lookup) {
    return judge_lookup(of, lookup, lookup, LISTS);
}
