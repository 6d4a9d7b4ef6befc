/* Tojalinda for C: a matcher for byte strings whose answers are proved. Link with libexports.a.
 *
 * A slice is a pointer and its number of elements. A pointer is never NULL, not even where its
 * number is 0, and what is lent for writing overlaps nothing else that the same call is given.
 *
 * Every call with an `out` returns a status and writes numbers into `out`:
 *   TOJ_ANSWERED  the numbers are those that the comment over the call names;
 *   1 to 16       refused by that number; out[0] is the place, an offset, and no other memory is touched;
 *   TOJ_SHORT     `out`, or a lent memory of the built variants, is too short; nothing is touched.
 * Numbers of `out` that no comment names stay as they were. Nothing is kept between calls, and
 * every call may run on any thread, at the same time as others. */
#ifndef TOJALINDA_H
#define TOJALINDA_H

#include <stddef.h>
#include <stdint.h>

#ifdef __cplusplus
extern "C" {
#endif

#define TOJ_ANSWERED 0u
#define TOJ_SHORT 255u
/* Both numbers of a row that is absent. */
#define TOJ_ABSENT 65535u

/* The greatest length of a pattern that is not refused by 1. */
size_t toj_pattern_bytes(void);

/* The greatest length of a template that is not refused by 9 for being too long. */
size_t toj_template_bytes(void);

/* The greatest length of a line that is not refused by 11. */
size_t toj_line_bytes(void);

/* How many rows a span table has: row 0 and one for each group that a pattern may have. */
size_t toj_rows(void);

/* The least length of a span table: start and end of each row, row 0 first. */
size_t toj_table_numbers(void);

/* The length of the memory that holds a built machine. */
size_t toj_machine_numbers(void);

/* The length of each of the four memories that a built machine is run in. */
size_t toj_scratch_numbers(void);

/* Checks a pattern. out (3): its places, depth and groups. Refusals: 1 to 8. */
uint32_t toj_check(const uint8_t *pattern, size_t pattern_len, uint64_t *out, size_t out_len);

/* Matches the whole line. out (2): 1 if it matches, else 0; the steps. The rows go into the first
 * numbers of `table`, all absent without a match; numbers after them stay. Refusals: 1 to 8, 11, 12, 14. */
uint32_t toj_match(const uint8_t *pattern, size_t pattern_len, const uint8_t *line, size_t line_len,
                   uint16_t *table, size_t table_len, uint64_t *out, size_t out_len);

/* Searches the line for the first match; row 0 is the part found. All else as toj_match. */
uint32_t toj_search(const uint8_t *pattern, size_t pattern_len, const uint8_t *line, size_t line_len,
                    uint16_t *table, size_t table_len, uint64_t *out, size_t out_len);

/* Writes the line with every match replaced by the template into `buffer`. out (3): the output's
 * length, the replacements, the steps of all searches. Bytes after the output stay.
 * Refusals: 1 to 8, 9, 10, 11, 13. */
uint32_t toj_replace(const uint8_t *pattern, size_t pattern_len, const uint8_t *template_, size_t template_len,
                     const uint8_t *line, size_t line_len, uint8_t *buffer, size_t buffer_len,
                     uint64_t *out, size_t out_len);

/* Says which bytes the template record `number`, counted from 0, puts in. out (3): 0 for a part of
 * the template and 1 for a part of the line; its start; its end. Refusals: 9, 11, 12, 16, 15. */
uint32_t toj_piece(const uint8_t *template_, size_t template_len, const uint8_t *line, size_t line_len,
                   const uint16_t *table, size_t table_len, size_t number, uint64_t *out, size_t out_len);

/* Builds the machine of a pattern into `machine` (toj_machine_numbers() numbers or more), for search
 * if `search` is not 0, else for whole matches. out (3): the machine's places and depth, which for
 * whole matches are the pattern's, and the pattern's groups. Refusals: 1 to 8. The machine takes 3
 * numbers and 4 for each of its places; the numbers of `machine` after those stay. */
uint32_t toj_build(const uint8_t *pattern, size_t pattern_len, uint32_t search,
                   uint16_t *machine, size_t machine_len, uint64_t *out, size_t out_len);

/* Runs a built machine over a line: out, `table` and the answer as toj_match or toj_search, by what
 * the machine was built for. `seen`, `taken`, `lists` and `pending` (toj_scratch_numbers() numbers
 * or more each) may hold anything before, and after an answer; any other status leaves them as they
 * were. Refusals: 11, 12, 14.
 * REQUIRES: `machine` is as toj_build, answering TOJ_ANSWERED, left it for this very pattern. */
uint32_t toj_run(const uint8_t *pattern, size_t pattern_len, const uint16_t *machine, size_t machine_len,
                 const uint8_t *line, size_t line_len, uint16_t *seen, size_t seen_len,
                 uint16_t *taken, size_t taken_len, uint16_t *lists, size_t lists_len,
                 uint16_t *pending, size_t pending_len, uint16_t *table, size_t table_len,
                 uint64_t *out, size_t out_len);

#ifdef __cplusplus
}
#endif

#endif
