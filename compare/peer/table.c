/* Judging a table. */
#include "judge.h"
#include "peer.h"

#define VERSION 0x00010000u
#define MOST_GLYPH_COUNT 65535u

static struct just_checked judge_direction(struct judged *of, size_t at) {
    if (at + DIRECTION > of->length) return first_outside(of->length, at, 2);
    const uint8_t *offsets = of->table + at;
    uint32_t machine = be16(offsets + MACHINE_AT), clusters = be16(offsets + CLUSTERS_AT);
    uint32_t actions = be16(offsets + ACTIONS_AT);
    struct just_checked found = accepted();
    if (machine) found = judge_machine(of->table, of->length, of->glyph_count, (size_t)machine + UNREAD);
    if (!found.refusal) found = judge_widths(of, at + DIRECTION, clusters);
    if (!found.refusal && actions) found = judge_actions(of, actions);
    return found;
}

struct just_checked peer_check_table(const uint8_t *table, size_t length, uint32_t glyph_count) {
    if (length < HEADER || length > MOST_BYTES) return fault(JUST_TABLE_LENGTH, 0);
    if (glyph_count - 1 >= MOST_GLYPH_COUNT) return fault(JUST_GLYPH_COUNT, 0);
    if (be32(table) != VERSION || be16(table + 4)) return fault(JUST_BAD_VERSION, 0);
    uint32_t horizontal = be16(table + HORIZONTAL_AT), vertical = be16(table + VERTICAL_AT);
    if (!(horizontal | vertical)) return accepted();
    struct judged of;
    of.table = table, of.length = length, of.glyph_count = glyph_count;
    size_t words = (length + 63) / 64;
    for (enum kind kind = CLUSTERS; kind < KINDS; kind++) memset(of.seen[kind], 0, words * sizeof of.seen[kind][0]);
    struct just_checked found = accepted();
    if (horizontal) found = judge_direction(&of, horizontal);
    if (!found.refusal && vertical && vertical != horizontal) found = judge_direction(&of, vertical);
    return found;
}
