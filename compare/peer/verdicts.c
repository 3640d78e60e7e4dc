/* The verdicts on a line's actions. */
#include "line.h"

enum { LOWER = 8, UPPER = 12, THRESHOLD = 8 };
enum { HELD = 256 };

enum verdict { NOTHING, FIRES, SUBSTITUTES };

/* A limit in ems times a size, to be held against a growth times one em. */
static inline int64_t scaled(const uint8_t *limit, int64_t size) {
    return (int32_t)be32(limit) * size;
}

static inline enum verdict judge(const uint8_t *action, int64_t growth, int64_t size) {
    const int64_t grown = growth * 65536;
    switch (action[ACTION_TYPE + 1]) {
    case DECOMPOSES:
        return grown < scaled(action + LOWER, size) || grown > scaled(action + UPPER, size) ? FIRES : NOTHING;
    case ADDS:
    case REPEATS:
        return growth > 0 ? FIRES : NOTHING;
    case ADDS_OR_SUBSTITUTES:
        if (growth <= 0) return NOTHING;
        return grown >= scaled(action + THRESHOLD, size) ? SUBSTITUTES : FIRES;
    default:
        return growth != 0 ? FIRES : NOTHING;
    }
}

/* Judges all actions and gives how many fire; the first ones are stored, as far as there is room. */
static uint32_t judge_all(const struct line *line, const struct work *work, struct just_verdict *room,
                          uint32_t length) {
    uint32_t fired = 0;
    for (uint32_t i = 0; i < work->actor_count; i++) {
        const uint32_t place = work->actors[i].place, class = work->classes[place];
        const int64_t growth = (int64_t)work->before[place] + work->after[place], size = line->sizes[place];
        const uint8_t *list = line->table + work->actors[i].list, *action = list + LIST_ACTIONS_AT;
        const uint32_t count = be32(list);
        for (uint32_t number = 0; number < count; number++, action += be32(action + ACTION_LENGTH)) {
            if (action[1] != class) continue; /* a class is at most 127: its upper byte is 0 */
            enum verdict verdict = judge(action, growth, size);
            if (verdict == NOTHING) continue;
            if (LIKELY(fired < length)) {
                room[fired] = (struct just_verdict){(uint16_t)place, (uint16_t)number, verdict == SUBSTITUTES};
            }
            fired++;
        }
    }
    return fired;
}

/* Whether a room is enough for every action of every list, whichever fire. */
static bool enough(const struct line *line, const struct work *work, size_t length) {
    if (length >= (size_t)MOST_ACTIONS * work->actor_count) return true;
    uint64_t most = 0;
    for (uint32_t i = 0; i < work->actor_count; i++) most += be32(line->table + work->actors[i].list);
    return most <= length;
}

/* Where the room may be too short, verdicts are held back until they are counted; too many to hold are judged again. */
size_t judge_verdicts(const struct line *line, const struct work *work, struct just_verdict *room, size_t length) {
    if (!work->actor_count) return 0;
    if (LIKELY(enough(line, work, length))) return judge_all(line, work, room, UINT32_MAX);
    struct just_verdict held[HELD];
    uint32_t fired = judge_all(line, work, held, HELD);
    if (fired > length) return fired;
    if (fired > HELD) return judge_all(line, work, room, fired);
    memcpy(room, held, fired * sizeof *held);
    return fired;
}
