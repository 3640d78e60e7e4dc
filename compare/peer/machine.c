/* Judging a class machine. Offsets count from `here`, the end of its unread header. */
#include "judge.h"

enum { LEAST_CLASSES = 4, MOST_CLASSES = 255, ENTRY_NUMBERS = 256 };

/* The classes of glyphs below N. */
static struct just_checked judge_classes(const uint8_t *table, size_t length, uint32_t glyph_count, size_t at,
                                         uint32_t classes) {
    if (at + CLASSED > length) return first_outside(length, at, 2);
    uint32_t first = be16(table + at + CLASSED_FIRST), end = first + be16(table + at + CLASSED_COUNT);
    if (end > glyph_count) end = glyph_count;
    if (first >= end) return accepted();
    const uint8_t *stored = table + at + CLASSED;
    size_t count = end - first, room = length - at - CLASSED, inside = room < count ? room : count;
    uint8_t most = 0;
    for (size_t i = 0; i < inside; i++) most = stored[i] > most ? stored[i] : most;
    if (LIKELY(most < classes)) return inside < count ? fault(JUST_OUTSIDE, length) : accepted();
    size_t bad = 0;
    while (stored[bad] < classes) bad++;
    return fault(JUST_BAD_MACHINE, at + CLASSED + bad);
}

/* Where states and entries stand, from the table's start; the states from `here` too, as entries name rows. */
struct machine {
    size_t states, entries;
    uint32_t states_from_here, classes;
};

/* The row that an entry leads to, or MOST_ROWS. Before the states the difference wraps, and is too large. */
INLINE uint32_t row_of(const uint8_t *entry, struct machine of) {
    uint32_t past = be16(entry) - of.states_from_here, row = past / of.classes;
    return row < MOST_ROWS && row * of.classes == past ? row : MOST_ROWS;
}

/* The first fault of an entry. */
RARE struct just_checked entry_fault(const uint8_t *table, size_t length, struct machine of, uint32_t number) {
    size_t at = of.entries + ENTRY * (size_t)number;
    if (at + ENTRY_FLAGS > length) return fault(JUST_OUTSIDE, at);
    if (row_of(table + at, of) == MOST_ROWS) return fault(JUST_BAD_MACHINE, at);
    return at + ENTRY > length ? fault(JUST_OUTSIDE, at + ENTRY_FLAGS) : accepted();
}

/* Rows stand one after another: one loop over their cells, of which there are more whenever an entry leads to a row
 * further on. An entry is judged where it is first met. */
static struct just_checked judge_rows(const uint8_t *table, size_t length, struct machine of) {
    const uint8_t *cells = table + of.states, *entries = table + of.entries;
    const size_t room = of.states < length ? length - of.states : 0;
    const size_t whole = of.entries < length ? (length - of.entries) / ENTRY : 0;
    size_t rows = LEAST_ROWS, count = LEAST_ROWS * (size_t)of.classes, inside = count < room ? count : room;
    uint8_t met[ENTRY_NUMBERS];
    memset(met, 0, sizeof met);
    for (size_t i = 0; i < inside; i++) {
        uint32_t entry = cells[i];
        if (LIKELY(met[entry])) continue;
        uint32_t row = entry < whole ? row_of(entries + ENTRY * entry, of) : MOST_ROWS;
        if (UNLIKELY(row == MOST_ROWS)) return entry_fault(table, length, of, entry);
        met[entry] = 1;
        if (row >= rows) {
            rows = row + 1;
            count = rows * of.classes;
            inside = count < room ? count : room;
        }
    }
    return inside < count ? fault(JUST_OUTSIDE, of.states + inside) : accepted();
}

struct just_checked judge_machine(const uint8_t *table, size_t length, uint32_t glyph_count, size_t here) {
    if (here + CLASS_TABLE > length) return fault(JUST_OUTSIDE, here);
    const uint8_t *header = table + here;
    uint32_t classes = be16(header + CLASS_COUNT);
    if (classes < LEAST_CLASSES || classes > MOST_CLASSES) return fault(JUST_BAD_MACHINE, here);
    if (here + MACHINE > length) return first_outside(length, here + CLASS_TABLE, 2);
    struct just_checked found = judge_classes(table, length, glyph_count, here + be16(header + CLASS_TABLE), classes);
    if (UNLIKELY(found.refusal)) return found;
    uint32_t states = be16(header + STATE_ARRAY);
    struct machine of = {here + states, here + be16(header + ENTRY_TABLE), states, classes};
    return judge_rows(table, length, of);
}
