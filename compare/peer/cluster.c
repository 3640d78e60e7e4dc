/* Judging a cluster. */
#include "judge.h"

#include <stdbool.h>

#define LIMIT 1048576u /* 16 em */

static inline bool bad_grow(uint32_t limit) {
    return limit > LIMIT;
}

/* Limits from -LIMIT to LIMIT are good: moved up by LIMIT, those from 0 to twice as much. */
static inline bool bad_shrink(uint32_t limit) {
    return limit + LIMIT > 2 * LIMIT;
}

static inline int32_t class_of(const uint8_t *pair) {
    return pair[3] & CLASS;
}

/* Whether all pairs keep their rules. Faults are gathered and not branched on: ordinary clusters have none. */
static bool pairs_good(const uint8_t *pair, uint32_t count) {
    uint32_t bad = 0;
    int32_t previous = -1;
    for (uint32_t i = 0; i < count; i++, pair += PAIR) {
        int32_t class = class_of(pair);
        bad |= (uint32_t)(class <= previous);
        previous = class;
        bad |= (uint32_t)bad_grow(be32(pair + BEFORE_GROW)) | (uint32_t)bad_shrink(be32(pair + BEFORE_SHRINK));
        bad |= (uint32_t)bad_grow(be32(pair + AFTER_GROW)) | (uint32_t)bad_shrink(be32(pair + AFTER_SHRINK));
        bad |= (pair[GROW_FLAGS + 1] | pair[SHRINK_FLAGS + 1]) & NO_PRIORITY;
    }
    return !bad;
}

/* The first fault of a pair. */
static struct just_checked pair_fault(const uint8_t *table, size_t length, size_t pair, int32_t previous) {
    if (pair + 4 > length) return fault(JUST_OUTSIDE, pair);
    if (class_of(table + pair) <= previous) return fault(JUST_BAD_CLUSTER, pair);
    for (size_t grow = pair + BEFORE_GROW; grow < pair + GROW_FLAGS; grow += AFTER_GROW - BEFORE_GROW) {
        size_t shrink = grow + BEFORE_SHRINK - BEFORE_GROW;
        if (grow + 4 > length) return fault(JUST_OUTSIDE, grow);
        if (bad_grow(be32(table + grow))) return fault(JUST_BAD_CLUSTER, grow);
        if (shrink + 4 > length) return fault(JUST_OUTSIDE, shrink);
        if (bad_shrink(be32(table + shrink))) return fault(JUST_BAD_CLUSTER, shrink);
    }
    for (size_t flags = pair + GROW_FLAGS; flags < pair + PAIR; flags += 2) {
        if (flags + 2 > length) return fault(JUST_OUTSIDE, flags);
        if (be16(table + flags) & NO_PRIORITY) return fault(JUST_BAD_CLUSTER, flags);
    }
    return accepted();
}

/* The first fault of a cluster, field by field. */
RARE struct just_checked cluster_fault(const uint8_t *table, size_t length, size_t at) {
    if (at + 4 > length) return fault(JUST_OUTSIDE, at);
    uint32_t count = be32(table + at);
    if (count - 1 >= MOST_PAIRS) return fault(JUST_BAD_CLUSTER, at);
    int32_t previous = -1;
    size_t pair = at + PAIRS_AT;
    for (uint32_t i = 0; i < count; i++, pair += PAIR) {
        struct just_checked found = pair_fault(table, length, pair, previous);
        if (found.refusal) return found;
        previous = class_of(table + pair);
    }
    return accepted();
}

struct just_checked judge_cluster(const uint8_t *table, size_t length, size_t at) {
    if (at + PAIRS_AT <= length) {
        uint32_t count = be32(table + at);
        size_t inside = (length - at - PAIRS_AT) / PAIR;
        if (LIKELY(count - 1 < MOST_PAIRS && count <= inside && pairs_good(table + at + PAIRS_AT, count))) {
            return accepted();
        }
    }
    return cluster_fault(table, length, at);
}
