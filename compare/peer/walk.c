/* The class walk. */
#include "line.h"

enum { END_OF_TEXT = 0, OUT_OF_BOUNDS = 1, DELETED_GLYPH = 2, END_OF_LINE = 3 };
enum { NO_PLACE = MOST_PLACES };

/* Where the walk stands. */
struct walker {
    const uint8_t *here, *entries, *row;
    uint8_t *classes;
    size_t mark;
    uint32_t taken;
};

/* The machine's class table. */
struct classed {
    const uint8_t *classes;
    uint32_t first, count;
};

static inline uint32_t class_of(const struct classed *table, uint32_t glyph) {
    if (glyph == DELETED) return DELETED_GLYPH;
    return glyph - table->first < table->count ? table->classes[glyph - table->first] : OUT_OF_BOUNDS;
}

/* Takes the entries of one position; false where they go on for ever. A position's class is fixed, so that a machine of
 * at most MOST_ROWS rows that has stayed as often has come to a row twice. */
INLINE bool step(struct walker *w, uint32_t class, size_t place) {
    for (uint32_t stays = 0; stays < MOST_ROWS; stays++) {
        uint32_t entry = entry_at(w->entries, w->row[class]);
        w->taken++;
        w->row = w->here + (entry >> 16);
        uint32_t mark_class = entry >> MARK_CLASS_SHIFT & CLASS, current_class = entry & CLASS;
        if (mark_class) w->classes[w->mark] = (uint8_t)mark_class;
        if (current_class) w->classes[place] = (uint8_t)current_class;
        if (entry & SET_MARK && place != NO_PLACE) w->mark = place;
        if (LIKELY(!(entry & STAY))) return true;
    }
    return false;
}

bool walk(const struct line *line, struct work *work) {
    memset(work->classes, 0, line->count);
    work->entries = 0;
    if (!line->machine) return true;
    const uint8_t *here = line->table + line->machine + UNREAD, *table = here + be16(here + CLASS_TABLE);
    struct classed classed = {table + CLASSED, be16(table + CLASSED_FIRST), be16(table + CLASSED_COUNT)};
    const uint8_t *row = here + be16(here + STATE_ARRAY) + (line->starts ? 0 : be16(here + CLASS_COUNT));
    struct walker w = {here, here + be16(here + ENTRY_TABLE), row, work->classes, NO_PLACE, 0};
    for (size_t place = 0; place < line->count; place++) {
        if (!step(&w, class_of(&classed, line->glyphs[place]), place)) return false;
    }
    if (!step(&w, line->ends ? END_OF_TEXT : END_OF_LINE, NO_PLACE)) return false;
    work->entries = w.taken;
    return true;
}
