/* Judging a table: what its parts' judges share.
 *
 * A part is first judged fast and as a whole. Where that fails it is judged again, field by field in the order of
 * refusals, for the number and the offset: the second judge alone decides, the first one spares it where nothing is
 * wrong. */
#ifndef PEER_JUDGE_H
#define PEER_JUDGE_H

#include "fields.h"
#include "just.h"

enum { MOST_BYTES = 32768 };

/* What the values of a lookup lead to. */
enum kind { CLUSTERS, LISTS, KINDS };

/* A table, and by kind the offsets of what has been judged: many values lead to one place. */
struct judged {
    const uint8_t *table;
    size_t length;
    uint32_t glyph_count;
    uint64_t seen[KINDS][MOST_BYTES / 64];
};

INLINE struct just_checked fault(uint32_t refusal, size_t offset) {
    return (struct just_checked){refusal, offset};
}

INLINE struct just_checked accepted(void) {
    return fault(JUST_NONE, 0);
}

/* Of fields of one size from an offset on, not all of which are inside, the fault of the first that is not wholly. */
static inline struct just_checked first_outside(size_t length, size_t at, size_t size) {
    size_t inside = at < length ? (length - at) / size : 0;
    return fault(JUST_OUTSIDE, at + size * inside);
}

struct just_checked judge_cluster(const uint8_t *table, size_t length, size_t at);
struct just_checked judge_list(const uint8_t *table, size_t length, uint32_t glyph_count, size_t at);
struct just_checked judge_machine(const uint8_t *table, size_t length, uint32_t glyph_count, size_t here);
struct just_checked judge_widths(struct judged *of, size_t at, size_t clusters);
struct just_checked judge_actions(struct judged *of, size_t at);

#endif
