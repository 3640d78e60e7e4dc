/* Calls everything in just.h on buffers that end right before a page that may not be touched: a read or write past what was
 * lent ends the program. Tables and sheets are cut off at every length. Compile it with -fsanitize=address,undefined. */
#define _DEFAULT_SOURCE
#include "just.h"

#include <stdio.h>
#include <stdlib.h>
#include <string.h>
#include <sys/mman.h>
#include <unistd.h>

#define GLYPHS 280
#define PLACES 40

#define HAS_SIZE(name, size) _Static_assert(sizeof(struct name) == size, "as the library has it")
HAS_SIZE(just_verdict, 6);
HAS_SIZE(just_difference, 10);
HAS_SIZE(just_checked, 16);
HAS_SIZE(just_count_answer, 24);
HAS_SIZE(just_sizes_answer, 24);
HAS_SIZE(just_class_answer, 24);
HAS_SIZE(just_cell_answer, 24);
HAS_SIZE(just_record_answer, 48);
HAS_SIZE(just_action_answer, 104);
HAS_SIZE(just_value_answer, 24);
HAS_SIZE(just_units_answer, 24);
HAS_SIZE(just_font_answer, 32);
HAS_SIZE(just_length_answer, 24);
HAS_SIZE(just_line_answer, 32);

/* Bytes that end where their last page ends; the page after it may not be touched. */
static void *lend(size_t length) {
    size_t page = (size_t)sysconf(_SC_PAGESIZE), whole = (length + page - 1) / page * page;
    uint8_t *start = mmap(NULL, whole + page, PROT_READ | PROT_WRITE, MAP_PRIVATE | MAP_ANONYMOUS, -1, 0);
    if (start == MAP_FAILED || mprotect(start + whole, page, PROT_NONE) != 0) {
        perror("boundary");
        exit(1);
    }
    return start + whole - length;
}

/* Apple's complex example: header, lookup, two clusters, an action list, then a machine. */
static const uint16_t apple[] = {
    1, 0, 0, 10, 0, 168, 48, 128,                                              /* header, offsets */
    2, 6, 2, 12, 1, 0, 2, 2, 0, 226, 3, 28, 0xFFFF, 0xFFFF, 0, 0,              /* width lookup */
    0, 1, 0, 0, 0, 0x8000, 0xFFFF, 0xF500, 0, 0x8000, 0xFFFF, 0xF500, 1, 1,    /* a cluster of one pair */
    0, 2, 0, 0, 0, 0x2500, 0xFFFF, 0xF500, 0, 0x2500, 0xFFFF, 0xF500, 2, 2,    /* a cluster of two */
    0, 1, 0, 0x2500, 0xFFFF, 0xF500, 0, 0x2500, 0xFFFF, 0xF500, 0x1000, 2,     /* its second pair */
    2, 6, 1, 6, 0, 0, 226, 2, 24, 0xFFFF, 0xFFFF, 0, 0, 1, 1, 1, 0, 12, 226, 0, /* action lookup and list */
    276, 0, 0, 0, 5, 8, 236, 256, 3, 223};                                     /* machine; 223 classes follow */
static const uint8_t rows[] = {0, 1, 2, 1, 1, 0, 1, 2, 1, 1, 0, 1, 2, 1, 1, 1, 1, 2, 1, 1, 0,
                               0, 246, 0, 1, 0, 246, 0, 0, 0, 251, 0, 0};

static size_t build(uint8_t *table) {
    size_t at = 0;
    for (size_t i = 0; i < sizeof apple / sizeof *apple; i++) {
        table[at++] = (uint8_t)(apple[i] >> 8);
        table[at++] = (uint8_t)apple[i];
    }
    memset(table + at, 4, 223);
    memcpy(table + at + 223, rows, sizeof rows);
    return at + 223 + sizeof rows;
}

/* A table of a font: its record, and its bytes at an offset. */
static void place(uint8_t *font, size_t record, const char *tag, size_t offset, const uint8_t *bytes, size_t length) {
    uint32_t fields[] = {0, (uint32_t)offset, (uint32_t)length};
    for (size_t i = 0; i < length; i++)
        fields[0] += (uint32_t)bytes[i] << (24 - 8 * (i % 4));
    memcpy(font + record, tag, 4);
    for (size_t i = 0; i < 12; i++)
        font[record + 4 + i] = (uint8_t)(fields[i / 4] >> (24 - 8 * (i % 4)));
    memcpy(font + offset, bytes, length);
}

/* A font of two tables: a directory of 44 bytes, 'just', then 'maxp', which has the glyph count in its last two bytes. */
static size_t build_font(uint8_t *font, const uint8_t *table, size_t length) {
    static const uint8_t maxp[] = {0, 0, 0x50, 0, GLYPHS >> 8, GLYPHS & 0xFF};
    memset(font, 0, 44);
    font[5] = 2;
    place(font, 12, "just", 44, table, length);
    place(font, 28, "maxp", 44 + length, maxp, sizeof maxp);
    return 44 + length + sizeof maxp;
}

static void ask_table(const uint8_t *table, size_t length) {
    just_check_table(table, length, GLYPHS);
    just_table_count(table, length, GLYPHS);
    just_table_sheet_length(table, length, GLYPHS);
    just_difference_count(table, length, table, length, GLYPHS);
    for (uint32_t way = 0; way < 2; way++) {
        just_table_sizes(table, length, GLYPHS, way);
        just_table_class(table, length, GLYPHS, way, 9);
        just_table_cell(table, length, GLYPHS, way, 2, 4);
        just_table_record(table, length, GLYPHS, way, 226, 1);
        just_table_action(table, length, GLYPHS, way, 226, 0);
        just_table_components(table, length, GLYPHS, way, 226, 0);
        for (uint32_t lookup = 0; lookup < 2; lookup++) {
            just_table_value(table, length, GLYPHS, way, lookup, 226);
            just_table_units(table, length, GLYPHS, way, lookup);
        }
    }
}

static void ask_sheet(const uint8_t *sheet, size_t length) {
    just_check_sheet(sheet, length);
    just_sheet_count(sheet, length);
    for (uint32_t way = 0; way < 2; way++) {
        just_sheet_sizes(sheet, length, way);
        just_sheet_class(sheet, length, way, 9);
        just_sheet_cell(sheet, length, way, 2, 4);
        just_sheet_record(sheet, length, way, 226, 1);
        just_sheet_action(sheet, length, way, 226, 0);
    }
}

/* A line of so many glyphs, with room for each number of verdicts; answers how many fired in all. */
static uint32_t justify(const uint8_t *table, size_t length, size_t places) {
    uint32_t *sizes = lend(4 * places);
    uint16_t *glyphs = lend(2 * places);
    int32_t *advances = lend(4 * places), *before = lend(4 * places), *after = lend(4 * places);
    uint8_t *classes = lend(places);
    uint32_t fired = 0, edition = places % 2 == 0 ? JUST_GX_RULE : JUST_WITHIN_LIMITS;
    for (size_t i = 0; i < places; i++) {
        sizes[i] = i % 3 == 0 ? 917504 : 589824;
        glyphs[i] = (uint16_t)(i * 37 % GLYPHS);
        advances[i] = 65536;
    }
    for (size_t room = 0; room <= places; room++) {
        struct just_verdict *verdicts = lend(room * sizeof *verdicts);
        struct just_line_answer answer =
            just_justify(table, length, GLYPHS, 0, true, true, edition, sizes, places, glyphs, places, advances, places,
                         90000 * PLACES, classes, places, before, places, after, places, verdicts, room);
        for (uint32_t i = 0; i < answer.verdicts; i++)
            fired += verdicts[i].substitutes ? 2 : 1;
    }
    return fired;
}

/* A second delivery, with room for each number of differences up to all of them; answers how many there are. */
static uint32_t compare(const uint8_t *whole, size_t length) {
    uint8_t *first = memcpy(lend(length), whole, length), *second = memcpy(lend(length), whole, length);
    memset(second + 285, 1, 3); /* the classes of glyphs 100 to 102 */
    second[110] = 0x40;         /* a limit of glyphs 3 to 226, for class 1 */
    uint32_t count = just_difference_count(first, length, second, length, GLYPHS).count;
    for (uint32_t room = 0; room <= count; room++) {
        struct just_difference *list = lend(room * sizeof *list);
        just_list_differences(first, length, second, length, GLYPHS, list, room);
    }
    return count;
}

int main(void) {
    uint8_t whole[512], font[600];
    size_t length = build(whole), font_length = build_font(font, whole, length);
    uint32_t sheet_length = just_table_sheet_length(whole, length, GLYPHS).length, fired = 0;
    for (size_t cut = 0; cut <= length; cut++) {
        uint8_t *table = memcpy(lend(cut), whole, cut);
        ask_table(table, cut);
        just_table_write_sheet(table, cut, GLYPHS, lend(sheet_length), sheet_length);
    }
    uint32_t opened = 0;
    for (size_t cut = 0; cut <= font_length; cut++)
        opened += just_open_font(memcpy(lend(cut), font, cut), cut).glyph_count;
    uint8_t *sheet = lend(sheet_length);
    for (uint32_t room = 0; room <= sheet_length; room++)
        just_table_write_sheet(whole, length, GLYPHS, sheet + sheet_length - room, room);
    for (uint32_t cut = 0; cut <= sheet_length; cut++)
        ask_sheet(memcpy(lend(cut), sheet, cut), cut);
    for (size_t places = 0; places <= PLACES; places++)
        fired += justify(whole, length, places);
    printf("a table of %zu bytes, a font of %zu, a sheet of %u, %u verdicts, %u differences: nothing else was touched\n", length,
           font_length, sheet_length, fired, compare(whole, length));
    return opened == GLYPHS ? 0 : 1;
}
