/* Reads a small table, says how long its sheet is, and stretches a line of three glyphs: letter and space in one size,
 * then a letter in a smaller one. */
#include "just.h"

#include <stdio.h>

#define POINT 65536
#define GLYPHS 3

/* Two glyphs. The letter (0) grows by up to 0.25 em on each side, in stage 1, and has an action that adds a glyph; the
 * space (1) grows by up to 0.5 em after it, in stage 0. */
static const uint8_t table[] = {
    0, 1, 0, 0, 0, 0, 0, 10, 0, 0,             /* version, format, horizontal at 10, no vertical */
    0, 0, 0, 26, 0, 82,                        /* no machine, clusters at 26, actions at 82 */
    0, 8, 0, 0, 0, 2, 0, 0, 0, 28,             /* lookup of format 8: glyphs 0 and 1 */
    0, 0, 0, 1, 0, 0, 0, 0,                    /* the letter's cluster: one pair, for class 0 */
    0, 0, 0x40, 0, 0, 0, 0, 0,                 /* before: grow, shrink */
    0, 0, 0x40, 0, 0, 0, 0, 0,                 /* after: grow, shrink */
    0, 1, 0, 1,                                /* flags: stage 1 */
    0, 0, 0, 1, 0, 0, 0, 0,                    /* the space's cluster */
    0, 0, 0, 0, 0, 0, 0, 0,                    /* before */
    0, 0, 0x80, 0, 0, 0, 0, 0,                 /* after */
    0, 0, 0, 0,                                /* flags: stage 0 */
    0, 8, 0, 0, 0, 1, 0, 8,                    /* action lookup: glyph 0 */
    0, 0, 0, 1, 0, 0, 0, 1, 0, 0, 0, 12, 0, 0, 0, 0 /* one action: class 0, type 1, 12 bytes, glyph 0 */
};

static const uint16_t glyphs[GLYPHS] = {0, 1, 0};
static const uint32_t sizes[GLYPHS] = {12 * POINT, 12 * POINT, 8 * POINT};
static const int32_t advances[GLYPHS] = {6 * POINT, 3 * POINT, 4 * POINT};

/* What the call fills. */
static uint8_t classes[GLYPHS];
static int32_t before[GLYPHS], after[GLYPHS];
static struct just_verdict verdicts[GLYPHS];

/* The line by an edition of the rule, to be so wide, with room for some verdicts. */
static struct just_line_answer justify(uint32_t edition, int32_t target, size_t room) {
    return just_justify(table, sizeof table, 2, JUST_HORIZONTAL, true, true, edition, sizes, GLYPHS, glyphs, GLYPHS,
                        advances, GLYPHS, target, classes, GLYPHS, before, GLYPHS, after, GLYPHS, verdicts, room);
}

static double points(int32_t units) { return (double)units / POINT; }

static void print_line(struct just_line_answer answer) {
    for (int place = 0; place < GLYPHS; place++)
        printf("glyph %u: %.2f pt before, %.2f pt after\n", glyphs[place], points(before[place]), points(after[place]));
    printf("%.2f pt left, %u entries taken\n", points(answer.remainder), answer.entries);
    for (uint32_t i = 0; i < answer.verdicts; i++)
        printf("place %u: action %u fires\n", verdicts[i].place, verdicts[i].action);
}

/* The line to be 40 pt wide, which is more than its limits give. */
static void print_wide(const char *rule, uint32_t edition) {
    struct just_line_answer answer = justify(edition, 40 * POINT, GLYPHS);
    printf("40 pt wide %s: %.2f pt after the space, %.2f pt left\n", rule, points(after[1]), points(answer.remainder));
}

int main(void) {
    struct just_checked cut = just_check_table(table, 40, 2);
    printf("refusal %u, cut short %u at byte %llu\n", just_check_table(table, sizeof table, 2).refusal, cut.refusal,
           (unsigned long long)cut.offset);
    struct just_length_answer length = just_table_sheet_length(table, sizeof table, 2);
    uint8_t sheet[256];
    struct just_length_answer written = just_table_write_sheet(table, sizeof table, 2, sheet, sizeof sheet);
    printf("a sheet of %u bytes, %u written, refusal %u\n", length.length, written.length,
           just_check_sheet(sheet, written.length).refusal);
    print_line(justify(JUST_GX_RULE, 24 * POINT, GLYPHS));
    print_wide("by the GX rule", JUST_GX_RULE);
    print_wide("within the limits", JUST_WITHIN_LIMITS);
    printf("with room for one verdict: refusal %u\n", justify(JUST_GX_RULE, 24 * POINT, 1).refusal);
    return 0;
}
