/* Justifying a line. */
#include "line.h"
#include "peer.h"

#define SIZE_BITS 26             /* a size less one has so many */
#define WIDEST 1073741823        /* of advances, and of a target */
#define MOST_TOTAL 8589934592ull /* of a stage's factors */

/* What is summed and gathered over a line's places. */
struct sums {
    int64_t advances;
    int32_t signs;
    uint32_t sizes, unknown;
};

/* A glyph is unknown from N on, unless it is deleted: one more than it, in 16 bits, is above N. */
static inline struct sums sum(const struct line *line, const int32_t *advances, uint32_t glyph_count) {
    struct sums sums = {0, 0, 0, 0};
    for (size_t i = 0; i < line->count; i++) {
        sums.sizes |= line->sizes[i] - 1;
        sums.signs |= advances[i];
        sums.advances += advances[i];
        sums.unknown |= (uint16_t)(line->glyphs[i] + 1) > glyph_count;
    }
    return sums;
}

/* Refusals 11 to 13. */
static inline uint32_t places_refusal(struct sums sums, int32_t target) {
    if (sums.sizes >> SIZE_BITS) return JUST_POINT_SIZE;
    if (sums.signs < 0 || sums.advances > WIDEST || target < 0 || target > WIDEST) return JUST_ADVANCES;
    return sums.unknown ? JUST_UNKNOWN_GLYPH : JUST_NONE;
}

/* Finds the parts of the line's direction. */
static inline void open_direction(struct line *line, uint32_t vertical) {
    uint32_t at = be16(line->table + (vertical ? VERTICAL_AT : HORIZONTAL_AT));
    line->direction = at;
    line->machine = at ? be16(line->table + at + MACHINE_AT) : 0;
    line->clusters = at ? be16(line->table + at + CLUSTERS_AT) : 0;
    line->actions = at ? be16(line->table + at + ACTIONS_AT) : 0;
}

/* Works out classes, stages and actors; gives refusals 14 and 15. */
static inline uint32_t work_out(const struct line *line, struct work *work) {
    if (!walk(line, work)) return JUST_ENDLESS_WALK;
    take_parts(line, work);
    for (int i = 0; i < STAGES; i++) {
        if (work->stages[i].total > MOST_TOTAL) return JUST_STAGE_TOTAL;
    }
    return JUST_NONE;
}

/* Works out the movements and gives what is left, both with the gap's sign. */
static inline int32_t move(const struct line *line, struct work *work, int32_t gap) {
    memset(work->before, 0, line->count * sizeof *work->before);
    memset(work->after, 0, line->count * sizeof *work->after);
    if (gap >= 0) return gap ? (int32_t)share(line, work, (uint32_t)gap) : 0;
    int32_t left = -(int32_t)share(line, work, (uint32_t)-gap);
    for (size_t i = 0; i < line->count; i++) {
        work->before[i] = -work->before[i];
        work->after[i] = -work->after[i];
    }
    return left;
}

static inline struct just_line_answer refuse(uint32_t refusal, uint64_t offset) {
    return (struct just_line_answer){refusal, offset, 0, 0, 0};
}

struct just_line_answer peer_justify(const uint8_t *table, size_t length, uint32_t glyph_count, uint32_t direction,
                                     bool starts, bool ends, uint32_t edition, const uint32_t *sizes,
                                     size_t sizes_length, const uint16_t *glyphs, size_t glyphs_length,
                                     const int32_t *advances, size_t advances_length, int32_t target,
                                     uint8_t *classes, size_t classes_length, int32_t *before, size_t before_length,
                                     int32_t *after, size_t after_length, struct just_verdict *verdicts,
                                     size_t verdicts_length) {
    const struct just_checked checked = peer_check_table(table, length, glyph_count);
    if (checked.refusal) return refuse(checked.refusal, checked.offset);
    const size_t count = glyphs_length;
    const bool equal = sizes_length == count && advances_length == count && classes_length == count &&
                       before_length == count && after_length == count;
    if (!equal) return refuse(JUST_UNEQUAL_LENGTHS, 0);
    if (count > MOST_PLACES) return refuse(JUST_LONG_LINE, 0);
    if (edition != JUST_GX_RULE && edition != JUST_WITHIN_LIMITS) return refuse(JUST_UNKNOWN_EDITION, 0);
    struct line line = {.table = table, .glyphs = glyphs, .sizes = sizes, .count = count};
    line.edition = edition, line.starts = starts, line.ends = ends;
    const struct sums sums = sum(&line, advances, glyph_count);
    uint32_t refusal = places_refusal(sums, target);
    if (refusal) return refuse(refusal, 0);
    const int32_t gap = target - (int32_t)sums.advances;
    line.shrinks = gap < 0;
    open_direction(&line, direction);
    struct work work;
    refusal = work_out(&line, &work);
    if (refusal) return refuse(refusal, 0);
    const int32_t left = move(&line, &work, gap);
    const size_t fired = judge_verdicts(&line, &work, verdicts, verdicts_length);
    if (fired > verdicts_length) return refuse(JUST_SHORT_ROOM, 0);
    memcpy(classes, work.classes, count);
    memcpy(before, work.before, count * sizeof *before);
    memcpy(after, work.after, count * sizeof *after);
    return (struct just_line_answer){JUST_NONE, 0, left, work.entries, (uint32_t)fired};
}
