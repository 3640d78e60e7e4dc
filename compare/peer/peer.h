/* The two calls of the peer: a program in C, tuned by hand for ordinary inputs, that answers as just_check_table and
 * just_justify do, whose arguments they have. Nothing is allocated or kept; a call needs less than 96 KiB of stack. */
#ifndef PEER_H
#define PEER_H

#include "just.h"

struct just_checked peer_check_table(const uint8_t *table, size_t length, uint32_t glyph_count);

struct just_line_answer peer_justify(const uint8_t *table, size_t length, uint32_t glyph_count, uint32_t direction,
                                     bool starts, bool ends, uint32_t edition, const uint32_t *sizes,
                                     size_t sizes_length, const uint16_t *glyphs, size_t glyphs_length,
                                     const int32_t *advances, size_t advances_length, int32_t target,
                                     uint8_t *classes, size_t classes_length, int32_t *before, size_t before_length,
                                     int32_t *after, size_t after_length, struct just_verdict *verdicts,
                                     size_t verdicts_length);

#endif
