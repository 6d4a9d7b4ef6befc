/* The list machine in plain C, unproved: what the library's speed is measured against. */
#ifndef PLAIN_H
#define PLAIN_H

#include <stddef.h>
#include <stdint.h>

enum {
    PLAIN_PATTERN_BYTES = 4096,
    PLAIN_LEVELS = 16,
    PLAIN_GROUPS = 9,
    PLAIN_ROWS = PLAIN_GROUPS + 1,
    PLAIN_NUMBERS = 2 * PLAIN_ROWS,
    PLAIN_PLACES = 500,
    PLAIN_SEARCH_PLACES = PLAIN_PLACES + 10,
    PLAIN_ABSENT = 65535
};

/* One place. `a` and `b` depend on the kind: a fork's other follower; a group; the first group to clear and how
 * many; the least byte of a set of one pair and how many follow it; a set's first pair and how many there are. */
typedef struct {
    uint16_t kind, next, a, b;
} plain_place;

typedef struct {
    uint32_t places, depth, first;
    uint32_t search;
    const uint8_t *pattern;
    plain_place place[PLAIN_SEARCH_PLACES];
} plain_machine;

typedef struct {
    uint16_t place;
    uint16_t rows[PLAIN_NUMBERS];
} plain_thread;

typedef struct {
    uint16_t seen[PLAIN_LEVELS * PLAIN_SEARCH_PLACES];
    uint16_t taken[PLAIN_SEARCH_PLACES];
    plain_thread lists[2][PLAIN_SEARCH_PLACES + 1];
} plain_scratch;

size_t plain_machine_bytes(void);
size_t plain_scratch_bytes(void);

/* Checks a pattern: 0 and its places, depth and groups, or the refusal's number and in numbers[0] its place. */
uint32_t plain_check(const uint8_t *pattern, size_t length, uint32_t numbers[3]);

/* Checks a pattern and builds its machine, which keeps a pointer to the pattern. */
uint32_t plain_build(const uint8_t *pattern, size_t length, int search, plain_machine *machine, uint32_t numbers[3]);

/* Runs a machine over a line of at most 65,534 bytes; the rows into `table`. Says whether there is a match. */
int plain_run(const plain_machine *machine, const uint8_t *line, size_t length, plain_scratch *scratch,
              uint16_t table[PLAIN_NUMBERS], uint64_t *steps);

#endif
