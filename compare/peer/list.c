/* Judging an action list. */
#include "judge.h"

#include <stdbool.h>

/* The least length of an action by its type: class, type, length and data, type 0's without glyphs. */
static const uint8_t LEAST_LENGTH[LAST_TYPE + 1] = {20, 10, 16, 8, 24, 12};

/* Fields of an action's data. Type 0 ends in a count and its glyphs. */
enum { COMPONENT_COUNT = 18, COMPONENTS = 20, MOST_COMPONENTS = 32 };
enum { ADDED = 12, SUBSTITUTE = 14, REPEATED = 10 };

/* An action: its first byte and that byte's offset, the bytes of the table from there on, and the glyph count. */
struct action {
    const uint8_t *bytes;
    size_t at, room;
    uint32_t glyph_count;
};

/* The first fault of class, type and length. */
RARE struct just_checked head_fault(struct action of) {
    if (of.room < ACTION_TYPE) return fault(JUST_OUTSIDE, of.at);
    if (be16(of.bytes) > MOST_CLASS) return fault(JUST_BAD_ACTIONS, of.at);
    if (of.room < ACTION_LENGTH) return fault(JUST_OUTSIDE, of.at + ACTION_TYPE);
    if (be16(of.bytes + ACTION_TYPE) > LAST_TYPE) return fault(JUST_BAD_ACTIONS, of.at + ACTION_TYPE);
    return fault(of.room < ACTION_DATA ? JUST_OUTSIDE : JUST_BAD_ACTIONS, of.at + ACTION_LENGTH);
}

/* A glyph among the data. */
INLINE struct just_checked judge_glyph(struct action of, size_t field) {
    if (UNLIKELY(of.room < field + 2)) return fault(JUST_OUTSIDE, of.at + field);
    if (UNLIKELY(be16(of.bytes + field) >= of.glyph_count)) return fault(JUST_BAD_ACTIONS, of.at + field);
    return accepted();
}

/* The first fault of type 0's glyphs. */
RARE struct just_checked components_fault(struct action of, uint32_t count) {
    for (size_t field = COMPONENTS; field < COMPONENTS + 2 * count; field += 2) {
        struct just_checked found = judge_glyph(of, field);
        if (found.refusal) return found;
    }
    return accepted();
}

INLINE struct just_checked judge_decomposing(struct action of, uint32_t size) {
    if (UNLIKELY(of.room < COMPONENT_COUNT)) return first_outside(of.at + of.room, of.at + ACTION_DATA, 4);
    if (UNLIKELY(of.room < COMPONENTS)) return fault(JUST_OUTSIDE, of.at + COMPONENT_COUNT);
    uint32_t count = be16(of.bytes + COMPONENT_COUNT), bad = 0;
    if (count - 1 >= MOST_COMPONENTS || COMPONENTS + 2 * count > size) {
        return fault(JUST_BAD_ACTIONS, of.at + COMPONENT_COUNT);
    }
    if (UNLIKELY(of.room < COMPONENTS + 2 * count)) return components_fault(of, count);
    for (uint32_t i = 0; i < count; i++) bad |= be16(of.bytes + COMPONENTS + 2 * i) >= of.glyph_count;
    return UNLIKELY(bad) ? components_fault(of, count) : accepted();
}

INLINE struct just_checked judge_substituting(struct action of) {
    if (UNLIKELY(of.room < ADDED)) return fault(JUST_OUTSIDE, of.at + ACTION_DATA);
    if (UNLIKELY(of.room < ADDED + 2)) return fault(JUST_OUTSIDE, of.at + ADDED);
    uint32_t added = be16(of.bytes + ADDED);
    if (UNLIKELY(added >= of.glyph_count && added != DELETED)) return fault(JUST_BAD_ACTIONS, of.at + ADDED);
    return judge_glyph(of, SUBSTITUTE);
}

/* An action's data. */
INLINE struct just_checked judge_data(struct action of, uint32_t type, uint32_t size) {
    switch (type) {
    case DECOMPOSES:
        return judge_decomposing(of, size);
    case ADDS:
        return judge_glyph(of, ACTION_DATA);
    case ADDS_OR_SUBSTITUTES:
        return judge_substituting(of);
    case STRETCHES:
        return accepted();
    case VARIES:
        return of.room < LEAST_LENGTH[VARIES] ? first_outside(of.at + of.room, of.at + ACTION_DATA, 4) : accepted();
    default:
        return of.room < REPEATED ? fault(JUST_OUTSIDE, of.at + ACTION_DATA) : judge_glyph(of, REPEATED);
    }
}

struct just_checked judge_list(const uint8_t *table, size_t length, uint32_t glyph_count, size_t at) {
    if (at + LIST_ACTIONS_AT > length) return fault(JUST_OUTSIDE, at);
    uint32_t count = be32(table + at);
    if (count > MOST_ACTIONS) return fault(JUST_BAD_ACTIONS, at);
    at += LIST_ACTIONS_AT;
    for (; count; count--) {
        if (UNLIKELY(at >= length)) return fault(JUST_OUTSIDE, at);
        struct action of = {table + at, at, length - at, glyph_count};
        if (UNLIKELY(of.room < ACTION_DATA)) return head_fault(of);
        uint32_t class = be16(of.bytes), type = be16(of.bytes + ACTION_TYPE), size = be32(of.bytes + ACTION_LENGTH);
        bool bad = class > MOST_CLASS || type > LAST_TYPE || size % 4 || size < LEAST_LENGTH[type];
        if (UNLIKELY(bad)) return head_fault(of);
        struct just_checked found = judge_data(of, type, size);
        if (UNLIKELY(found.refusal)) return found;
        at += size;
    }
    return accepted();
}
