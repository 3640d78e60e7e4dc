/* Sharing a gap over the stages, on sizes: signs are put on at the end. */
#include "line.h"

/* A divisor, and one over it. */
struct divisor {
    uint64_t value;
    double inverse;
};

/* floor(x / divisor), for x below 2^63 and a quotient below 2^31: the product of doubles is off by less than one. */
static inline uint64_t divided(uint64_t x, struct divisor by) {
    int64_t quotient = (int64_t)((double)(int64_t)x * by.inverse);
    int64_t rest = (int64_t)(x - (uint64_t)quotient * by.value);
    quotient -= rest < 0;
    quotient += rest >= (int64_t)by.value;
    return (uint64_t)quotient;
}

/* Step 1's formula. A gap is below 2^30 and a total at most 2^33, so that no product passes 2^63. */
static void give_by_factors(const struct stage *stage, struct work *work, uint64_t gap) {
    struct divisor total = {stage->total, 1.0 / (double)stage->total};
    uint64_t running = 0, given = 0;
    for (uint32_t i = 0; i < stage->count; i++) {
        const struct part *part = &stage->parts[i];
        running += part->before;
        uint64_t between = divided(gap * running, total);
        work->before[part->place] += (int32_t)(between - given);
        running += part->after;
        given = divided(gap * running, total);
        work->after[part->place] += (int32_t)(given - between);
    }
}

static void give_factors(const struct stage *stage, struct work *work) {
    for (uint32_t i = 0; i < stage->count; i++) {
        const struct part *part = &stage->parts[i];
        work->before[part->place] = (int32_t)part->before;
        work->after[part->place] = (int32_t)part->after;
    }
}

/* floor(gap k / n) steps by the quotient, and by one more where the rests that have come together pass n. */
static void give_evenly(const struct stage *stage, struct work *work, uint32_t gap) {
    uint32_t count = stage->unlimited_count, each = gap / count, over = gap % count, rest = 0;
    for (uint32_t k = 0; k < count; k++) {
        rest += over;
        uint32_t more = rest >= count;
        rest -= more ? count : 0;
        work->after[stage->unlimited[k]] += (int32_t)(each + more);
    }
}

uint32_t share(const struct line *line, struct work *work, uint32_t gap) {
    for (int i = 0; i < STAGES; i++) {
        const struct stage *stage = &work->stages[i];
        if (gap <= stage->total) {
            give_by_factors(stage, work, gap);
            return 0;
        }
        give_factors(stage, work);
        gap -= (uint32_t)stage->total;
        if (stage->unlimited_count) {
            give_evenly(stage, work, gap);
            return 0;
        }
    }
    if (line->edition == JUST_WITHIN_LIMITS) return gap;
    for (int i = 0; i < STAGES; i++) {
        if (work->stages[i].total) {
            give_by_factors(&work->stages[i], work, gap);
            return 0;
        }
    }
    return gap;
}
