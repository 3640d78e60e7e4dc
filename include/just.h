/* just: 'just' tables, lines and sheets, proved.
 *
 * What is lent. Bytes and buffers are lent: a pointer, then a length in elements. The caller owns them; nothing is
 * kept after a call, nothing is allocated, nothing is freed. A call reads only what it is lent and writes only into
 * pointers that are not const, never past their length. A pointer may not be NULL, not even with length 0, and is
 * aligned for its type. A buffer that a call writes may not overlap any other buffer of that call; buffers that are
 * only read may.
 *
 * What is answered. Every answer that can be a refusal begins with `refusal`, the number of a just_refusal, 0 where there
 * is none, and `offset`. For refusals 4 to 8 the offset is that of the first byte of the field that was being read or
 * judged, from the table's start; for 4 it may lie past the table's end, and past 32 bits. Beside every other refusal,
 * and where there is none, it is 0. What else stands beside a refusal is zeros, and so is what stands beside `found`
 * false, but for the looks of a just_value_answer. A refusal leaves every lent buffer as it was. What is stored in a lent
 * buffer has no padding, so that every byte of it is told; padding between the members of a struct that a call answers may
 * hold anything.
 *
 * Any bytes and any numbers may be handed in. A bool is false or true. A direction is 0 for horizontal and any other
 * number for vertical, a lookup 0 for the width lookup and any other number for the action lookup. `glyph_count`
 * is the glyph count N that a table is read with. One unit is 1/65,536 point.
 *
 * No call has state, so calls may run at the same time on lent bytes that none of them writes. Calls for sheets, the
 * writer among them, need up to 1 MiB of stack, all others less than 128 KiB.
 *
 * The calls stand in two archives: just_justify in libjust_line.a, all others in libjust_c.a. */
#ifndef JUST_H
#define JUST_H

#include <stdbool.h>
#include <stddef.h>
#include <stdint.h>

/* Rises when a call or a struct changes, or a refusal is added. */
#define JUST_VERSION 7

#ifdef __cplusplus
extern "C" {
#endif

enum just_refusal {
    JUST_NONE = 0,
    JUST_TABLE_LENGTH = 1,    /* the table's length is outside 10 to 32,768 bytes */
    JUST_GLYPH_COUNT = 2,     /* the glyph count is outside 1 to 65,535 */
    JUST_BAD_VERSION = 3,     /* version or format */
    JUST_OUTSIDE = 4,         /* a field to be read is not wholly in the table */
    JUST_BAD_LOOKUP = 5,      /* a lookup breaks its rule */
    JUST_BAD_CLUSTER = 6,     /* a cluster breaks its rule */
    JUST_BAD_MACHINE = 7,     /* a machine breaks its rule */
    JUST_BAD_ACTIONS = 8,     /* an action list breaks its rule */
    JUST_UNEQUAL_LENGTHS = 9, /* sizes, glyphs, advances, classes or movements lent in differing lengths */
    JUST_LONG_LINE = 10,      /* more than 1,024 glyphs */
    JUST_POINT_SIZE = 11,     /* a point size is outside 1 to 67,108,864 units */
    JUST_ADVANCES = 12,       /* an advance, their sum or the target is outside 0 to 1,073,741,823 units */
    JUST_UNKNOWN_GLYPH = 13,  /* a glyph of N or more, not deleted */
    JUST_ENDLESS_WALK = 14,   /* the class walk never ends */
    JUST_STAGE_TOTAL = 15,    /* a stage's total of factors is above 8,589,934,592 units */
    JUST_SHORT_ROOM = 16,     /* verdicts, sheet or differences longer than the lent room */
    JUST_NOT_SHEET = 17,      /* bytes that are not a sheet */
    JUST_UNKNOWN_EDITION = 18, /* an edition other than 1 and 2 */
    JUST_FONT_ENDS = 21,      /* a font's directory, 'just' or 'maxp' is not wholly in it, or 'maxp' is under 6 bytes */
    JUST_MISSING_TABLE = 22,  /* a font has no 'just' or no 'maxp' table */
    JUST_WRONG_SUM = 23       /* the checksum of 'just' or 'maxp' is not the one that the font's directory has */
};

enum just_direction { JUST_HORIZONTAL = 0, JUST_VERTICAL = 1 };

/* The editions of the rule by which a line's gap is shared. What is left after the last stage goes back by the GX rule to
 * the first stage that has limits above 0, whose glyphs then pass them; within the limits, it is the remainder. In both,
 * unlimited glyphs pass theirs. */
enum just_edition { JUST_GX_RULE = 1, JUST_WITHIN_LIMITS = 2 };

/* A direction's two lookups: from glyphs to width records, and from glyphs to actions. */
enum just_lookup { JUST_WIDTH_LOOKUP = 0, JUST_ACTION_LOOKUP = 1 };

/* What two tables differ in. */
enum just_difference_kind {
    JUST_SIZES_DIFFER = 0,   /* the sizes of the class machines, rows and classes as one; or one table has no machine */
    JUST_CLASS_DIFFERS = 1,  /* a glyph's class in the machine */
    JUST_CELL_DIFFERS = 2,   /* a cell of the machine */
    JUST_RECORD_DIFFERS = 3, /* a glyph's width record for a class */
    JUST_ACTIONS_DIFFER = 4  /* a glyph's action list, as a whole */
};

/* Whether both tables have it and it is not the same, or one of them alone has it. Classes and cells only change. */
enum just_difference_mark { JUST_CHANGED = 0, JUST_ONLY_IN_FIRST = 1, JUST_ONLY_IN_SECOND = 2 };

/* What a cell of the class machine holds. */
struct just_entry {
    uint16_t row;
    uint16_t flags;
};

/* A side's limits in ems (Fixed, 65,536 is one em), as sizes. */
struct just_limits {
    uint32_t grow;
    uint32_t shrink;
};

/* 0x1000 for unlimited, and the priority, 0 to 3. */
struct just_flags {
    uint16_t grow;
    uint16_t shrink;
};

/* A width record with its class. */
struct just_pair {
    uint32_t just_class;
    struct just_limits before;
    struct just_limits after;
    struct just_flags flags;
};

/* An action: its data is the first `size` bytes, zeros follow. */
struct just_action {
    uint16_t just_class;
    uint16_t type;
    uint32_t size;
    uint8_t bytes[76];
};

struct just_checked {
    uint32_t refusal;
    uint64_t offset;
};

struct just_count_answer {
    uint32_t refusal;
    uint64_t offset;
    uint32_t count;
};

struct just_sizes_answer {
    uint32_t refusal;
    uint64_t offset;
    bool found;
    uint16_t rows;
    uint16_t classes;
};

struct just_class_answer {
    uint32_t refusal;
    uint64_t offset;
    bool found;
    uint8_t just_class;
};

struct just_cell_answer {
    uint32_t refusal;
    uint64_t offset;
    bool found;
    struct just_entry entry;
};

struct just_record_answer {
    uint32_t refusal;
    uint64_t offset;
    bool found;
    struct just_pair pair;
};

struct just_action_answer {
    uint32_t refusal;
    uint64_t offset;
    bool found;
    struct just_action action;
};

/* A glyph's value in a lookup, and how many of the lookup's units a find of it looks at: these are counted where
 * `found` is false, too. */
struct just_value_answer {
    uint32_t refusal;
    uint64_t offset;
    bool found;
    uint16_t value;
    uint32_t looks;
};

/* How many units a lookup has for a find, a closing one left out, and a bound: no find there looks at more than `most`
 * of them, the least b for which 2 to the power b exceeds the units. */
struct just_units_answer {
    uint32_t refusal;
    uint64_t offset;
    uint32_t units;
    uint32_t most;
};

/* Where the 'just' table of a font begins, its length in bytes, and the font's glyph count. */
struct just_font_answer {
    uint32_t refusal;
    uint64_t offset;
    uint32_t table_offset;
    uint32_t table_length;
    uint32_t glyph_count;
};

/* How many bytes a sheet has. */
struct just_length_answer {
    uint32_t refusal;
    uint64_t offset;
    uint32_t length;
};

/* An action that fires: the glyph's place in the line and the action's number in the glyph's list, both from 0, and
 * whether it substitutes: 1 where it does, else 0. */
struct just_verdict {
    uint16_t place;
    uint16_t action;
    uint16_t substitutes;
};

/* What is said of a line: what is left of the gap, how many entries of the machine were taken (0 without a machine),
 * and how many verdicts were stored. */
struct just_line_answer {
    uint32_t refusal;
    uint64_t offset;
    int32_t remainder;
    uint32_t entries;
    uint32_t verdicts;
};

/* A difference of two tables: a just_direction, a just_difference_kind, a just_difference_mark, and where it is: 0 and 0
 * for sizes, glyph and 0 for classes, row and class for cells, glyph and class for records, glyph and 0 for actions. */
struct just_difference {
    uint16_t direction;
    uint16_t kind;
    uint16_t mark;
    uint16_t numbers[2];
};

/* A stretch of a table: the offset of its first byte, and its length in bytes. */
struct just_stretch {
    size_t offset;
    size_t length;
};

/* Opens a whole font: finds 'just' and 'maxp' in its directory, the first of each tag, and judges the 'just' table with the
 * glyph count that 'maxp' has. Where it answers, `table_length` bytes from `font + table_offset` on are in the font, and
 * every call below accepts them with `glyph_count`. The version of the font and its other tables are not looked at; a
 * collection of fonts is no font. Refuses with 21 for the directory, 22, 21 for the two tables, 23, then the table's 1 to 8,
 * whose offsets count from the start of 'just'. */
struct just_font_answer just_open_font(const uint8_t *font, size_t length);

/* Whether a table is accepted: refusal 0, or the number and the offset of its first fault. */
struct just_checked just_check_table(const uint8_t *table, size_t length, uint32_t glyph_count);

/* The parts of a table's meaning, one at a time; the table is judged first each time. */
struct just_count_answer just_table_count(const uint8_t *table, size_t length, uint32_t glyph_count);
struct just_sizes_answer just_table_sizes(const uint8_t *table, size_t length, uint32_t glyph_count, uint32_t direction);
struct just_class_answer just_table_class(const uint8_t *table, size_t length, uint32_t glyph_count, uint32_t direction,
                                          uint16_t glyph);
struct just_cell_answer just_table_cell(const uint8_t *table, size_t length, uint32_t glyph_count, uint32_t direction,
                                        uint16_t row, uint16_t just_class);
struct just_record_answer just_table_record(const uint8_t *table, size_t length, uint32_t glyph_count, uint32_t direction,
                                            uint16_t glyph, uint8_t just_class);
struct just_action_answer just_table_action(const uint8_t *table, size_t length, uint32_t glyph_count, uint32_t direction,
                                            uint16_t glyph, uint16_t number);

/* The value of a glyph in a lookup, as the table has it: an offset; in the action lookup 0 names no list. A find looks
 * at the middle of the units left, the lower of two, stops if it covers the glyph, and else keeps the half on the
 * glyph's side. It looks at no unit for 0xFFFF and in formats 0 and 8; a glyph of N or more is looked for and has no
 * value. An absent lookup has no values and no units. The table is judged first each time: looks counts the find alone. */
struct just_value_answer just_table_value(const uint8_t *table, size_t length, uint32_t glyph_count, uint32_t direction,
                                          uint32_t lookup, uint16_t glyph);
struct just_units_answer just_table_units(const uint8_t *table, size_t length, uint32_t glyph_count, uint32_t direction,
                                          uint32_t lookup);

/* Where the component list of a type 0 action stands in the table; length 0 where there is none. Never refuses. */
struct just_stretch just_table_components(const uint8_t *table, size_t length, uint32_t glyph_count, uint32_t direction,
                                          uint16_t glyph, uint16_t number);

/* The length of a table's sheet, without writing it. Refuses with 1 to 8. */
struct just_length_answer just_table_sheet_length(const uint8_t *table, size_t length, uint32_t glyph_count);

/* Writes a table's sheet into the first bytes of the room, whatever stood there, and answers their count; the rest
 * of the room stays as it was. Refuses with 1 to 8, or with 16 exactly when the sheet is longer than the room. */
struct just_length_answer just_table_write_sheet(const uint8_t *table, size_t length, uint32_t glyph_count, uint8_t *room,
                                                 size_t room_length);

/* How many differences two tables have that are read with one glyph count. Refuses with the first table's 1 to 8, else with
 * the second's; the answer does not say whose it is, just_check_table does. */
struct just_count_answer just_difference_count(const uint8_t *first, size_t first_length, const uint8_t *second,
                                               size_t second_length, uint32_t glyph_count);

/* The same, and lists the differences in the first numbers of the room, five for each as a just_difference has them; the
 * rest of the room stays as it was. They stand once each, horizontal before vertical and by kind, classes, records and
 * actions by glyph, a glyph's records by class, cells row by row. Where the sizes of the machines differ, or one table has
 * none, the list says so and has no classes and no cells of that direction. It is empty exactly when the tables' sheets are
 * equal. Refuses as just_difference_count does, then with 16 exactly when the list is longer than the room, and nothing is
 * stored before that is judged. `numbers_length` counts numbers: just_list_differences takes a room of differences. */
struct just_count_answer just_differences(const uint8_t *first, size_t first_length, const uint8_t *second,
                                          size_t second_length, uint32_t glyph_count, uint16_t *numbers,
                                          size_t numbers_length);

static inline struct just_count_answer just_list_differences(const uint8_t *first, size_t first_length,
                                                             const uint8_t *second, size_t second_length,
                                                             uint32_t glyph_count, struct just_difference *list,
                                                             size_t room) {
    return just_differences(first, first_length, second, second_length, glyph_count, (uint16_t *)list, 5 * room);
}

/* Justifies one line.
 *
 * `starts` and `ends` say whether the line starts and ends the text, `edition` is a just_edition (else 18). `glyphs`
 * names at most 1,024 glyphs, 0xFFFF being a deleted one; `sizes` are their point sizes, `advances` their widths,
 * `target` is the width wanted, all in units. A glyph's limits and actions are measured at its own size. Each size is 1
 * to 67,108,864, a deleted glyph's too (else 11); an empty line has none that could be wrong. A line in one size lends
 * that size once for each glyph.
 *
 * `sizes`, `glyphs`, `advances`, `classes`, `before` and `after` have one length (else 9). On success `classes` has
 * each glyph's class, `before` and `after` the movements on its two sides in units, signed as the gap is: together
 * with the remainder they sum to `target` less the advances. The first `verdicts` records of the list are filled, by
 * place and then by number, and the rest of the list stays as it was; 16 where it is too short for them. At most 64
 * actions of a glyph fire, so a list of 64 times the glyphs is never too short.
 *
 * Refuses with the table's 1 to 8, then 9, 10, 18, and 11 to 16, in that order. */
struct just_line_answer just_justify(const uint8_t *table, size_t length, uint32_t glyph_count, uint32_t direction,
                                     bool starts, bool ends, uint32_t edition, const uint32_t *sizes,
                                     size_t sizes_length, const uint16_t *glyphs, size_t glyphs_length,
                                     const int32_t *advances, size_t advances_length, int32_t target,
                                     uint8_t *classes, size_t classes_length, int32_t *before, size_t before_length,
                                     int32_t *after, size_t after_length, struct just_verdict *verdicts,
                                     size_t verdicts_length);

/* Whether bytes are a sheet: refusal 0, or 17. */
struct just_checked just_check_sheet(const uint8_t *sheet, size_t length);

/* The parts of a sheet's meaning, one at a time; the bytes are judged first each time. */
struct just_count_answer just_sheet_count(const uint8_t *sheet, size_t length);
struct just_sizes_answer just_sheet_sizes(const uint8_t *sheet, size_t length, uint32_t direction);
struct just_class_answer just_sheet_class(const uint8_t *sheet, size_t length, uint32_t direction, uint16_t glyph);
struct just_cell_answer just_sheet_cell(const uint8_t *sheet, size_t length, uint32_t direction, uint16_t row,
                                        uint16_t just_class);
struct just_record_answer just_sheet_record(const uint8_t *sheet, size_t length, uint32_t direction, uint16_t glyph,
                                            uint8_t just_class);
struct just_action_answer just_sheet_action(const uint8_t *sheet, size_t length, uint32_t direction, uint16_t glyph,
                                            uint16_t number);

#ifdef __cplusplus
}
#endif

#endif
