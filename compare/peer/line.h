/* Justifying a line by an accepted table: what its steps share. */
#ifndef PEER_LINE_H
#define PEER_LINE_H

#include "fields.h"
#include "just.h"

enum { MOST_PLACES = 1024, STAGES = 4 };

/* What is asked. Of the direction's parts, 0 is none: no machine, no actions, and without the direction neither. */
struct line {
    const uint8_t *table;
    const uint16_t *glyphs;
    const uint32_t *sizes;
    size_t count;
    uint32_t direction, machine, clusters, actions;
    uint32_t edition;
    bool starts, ends, shrinks;
};

/* A glyph's part in its stage: the factors of its two sides. */
struct part {
    uint32_t place, before, after;
};

/* The parts of one priority in line order, the total of their factors, and the places of those that are unlimited. */
struct stage {
    uint64_t total;
    uint32_t count, unlimited_count;
    struct part parts[MOST_PLACES];
    uint16_t unlimited[MOST_PLACES];
};

/* A glyph with an action list: its place, and the list's offset. */
struct actor {
    uint16_t place, list;
};

/* All that is worked out before a lent buffer is touched. It is not cleared: each step fills what later ones read. */
struct work {
    uint8_t classes[MOST_PLACES + 1]; /* the last one takes the classes that go to no glyph */
    int32_t before[MOST_PLACES], after[MOST_PLACES];
    struct stage stages[STAGES];
    struct actor actors[MOST_PLACES];
    uint32_t actor_count, entries;
};

/* Fills the classes and counts the entries; false where the walk never ends. */
bool walk(const struct line *line, struct work *work);

/* Fills the stages and the actors. */
void take_parts(const struct line *line, struct work *work);

/* Fills the movements, without their sign, and gives what is left of a gap above 0. */
uint32_t share(const struct line *line, struct work *work, uint32_t gap);

/* Stores the verdicts and gives their count. Where the room is too short for them it is not touched. */
size_t judge_verdicts(const struct line *line, const struct work *work, struct just_verdict *room, size_t length);

#endif
