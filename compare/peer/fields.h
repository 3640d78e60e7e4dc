/* A table's fields, big-endian and at any address. A field's name is its offset from the start of its part; HEADER,
 * DIRECTION, PAIR, MACHINE and ENTRY are the sizes of what they name. */
#ifndef PEER_FIELDS_H
#define PEER_FIELDS_H

#include <stddef.h>
#include <stdint.h>
#include <string.h>

#define LIKELY(x) __builtin_expect(!!(x), 1)
#define UNLIKELY(x) __builtin_expect(!!(x), 0)
#define INLINE static inline __attribute__((always_inline))
#define RARE static __attribute__((noinline, cold)) /* kept out of the loops that call it */

/* The table's header, and a direction's, which ends where the width lookup begins. */
enum { HORIZONTAL_AT = 6, VERTICAL_AT = 8, HEADER = 10 };
enum { MACHINE_AT = 0, CLUSTERS_AT = 2, ACTIONS_AT = 4, DIRECTION = 6 };

/* A lookup: format 0's values; first, count and values of format 8; the units of the others, after search fields. */
enum { FORMAT_0_VALUES = 2, FORMAT_8_FIRST = 2, FORMAT_8_COUNT = 4, FORMAT_8_VALUES = 6 };
enum { UNIT_SIZE_AT = 2, UNIT_COUNT_AT = 4, UNITS_AT = 12 };
/* A unit has the size of its format: last, first and value in SEGMENT bytes, glyph and value in SINGLE bytes. */
enum { SEGMENT = 6, SINGLE = 4 };

/* A cluster is a count and its pairs. */
enum { PAIRS_AT = 4, PAIR = 24, MOST_PAIRS = 128 };
enum { BEFORE_GROW = 4, BEFORE_SHRINK = 8, AFTER_GROW = 12, AFTER_SHRINK = 16, GROW_FLAGS = 20, SHRINK_FLAGS = 22 };
enum { UNLIMITED = 0x1000, PRIORITY = 0x000F, NO_PRIORITY = 0x000C, CLASS = 0x7F };

/* A list is a count and its actions; an action's data follows its class, type and length. */
enum { LIST_ACTIONS_AT = 4, MOST_ACTIONS = 64 };
enum { ACTION_TYPE = 2, ACTION_LENGTH = 4, ACTION_DATA = 8 };
enum { DECOMPOSES = 0, ADDS = 1, ADDS_OR_SUBSTITUTES = 2, STRETCHES = 3, VARIES = 4, REPEATS = 5, LAST_TYPE = 5 };

/* A machine: offsets count from the end of a header that nobody reads. */
enum { UNREAD = 8, CLASS_COUNT = 0, CLASS_TABLE = 2, STATE_ARRAY = 4, ENTRY_TABLE = 6, MACHINE = 8 };
enum { CLASSED_FIRST = 0, CLASSED_COUNT = 2, CLASSED = 4 };
enum { ENTRY = 4, ENTRY_FLAGS = 2, MOST_ROWS = 256, LEAST_ROWS = 2 };
enum { SET_MARK = 0x8000, STAY = 0x4000, MARK_CLASS_SHIFT = 7 };

enum { DELETED = 0xFFFF, MOST_CLASS = 127 };

static inline uint32_t be16(const uint8_t *field) {
    uint16_t stored;
    memcpy(&stored, field, sizeof stored);
    return __builtin_bswap16(stored);
}

static inline uint32_t be32(const uint8_t *field) {
    uint32_t stored;
    memcpy(&stored, field, sizeof stored);
    return __builtin_bswap32(stored);
}

/* An entry: the new row above its flags. */
static inline uint32_t entry_at(const uint8_t *entries, uint32_t number) {
    return be32(entries + ENTRY * number);
}

#endif
