/* Calls every function of the header once, from C, and ends with 1 if an answer is not the expected one. */
#include "tojalinda.h"

#include <stdio.h>
#include <stdlib.h>
#include <string.h>

/* (a*) by itself, and "<$1>" as a template. */
static const uint8_t pattern[] = {16, 0, 3, 0, 12, 0, 6, 0, 0, 0, 255, 255, 0, 0, 2, 0, 2, 0, 'a', 'a'};
static const uint8_t template_[] = {1, 0, 32, 0, '<', 2, 0, 33, 0, 1, 0, 1, 0, 32, 0, '>'};
static const uint8_t broken[] = {0, 0, 9, 0};

static int failures;

static void expect(const char *what, uint64_t told, uint64_t expected)
{
    if (told == expected)
        return;
    fprintf(stderr, "%s is %llu, not %llu\n", what, (unsigned long long)told, (unsigned long long)expected);
    failures++;
}

static const uint8_t *bytes(const char *text)
{
    return (const uint8_t *)text;
}

static void check_and_limits(void)
{
    uint64_t out[3];

    expect("table numbers", toj_table_numbers(), 2 * toj_rows());
    expect("pattern bytes", toj_pattern_bytes(), 4096);
    expect("template bytes", toj_template_bytes(), 1024);
    expect("line bytes", toj_line_bytes(), 65534);
    expect("check", toj_check(pattern, sizeof pattern, out, 3), TOJ_ANSWERED);
    expect("places", out[0], 7);
    expect("depth", out[1], 1);
    expect("groups", out[2], 1);
    expect("check of an unknown kind", toj_check(broken, sizeof broken, out, 3), 3);
    expect("its place", out[0], 0);
    expect("check with too short an out", toj_check(pattern, sizeof pattern, out, 2), TOJ_SHORT);
}

static void match_and_search(uint16_t *table, size_t numbers)
{
    uint64_t out[2];

    expect("match", toj_match(pattern, sizeof pattern, bytes("aa"), 2, table, numbers, out, 2), TOJ_ANSWERED);
    expect("matched", out[0], 1);
    expect("end of row 1", table[3], 2);
    expect("row 2 is absent", table[4], TOJ_ABSENT);
    expect("search", toj_search(pattern, sizeof pattern, bytes("ab"), 2, table, numbers, out, 2), TOJ_ANSWERED);
    expect("found", out[0], 1);
    expect("end of row 0", table[1], 1);
    expect("short table", toj_search(pattern, sizeof pattern, bytes("ab"), 2, table, numbers - 1, out, 2), 12);
}

static void replace_and_piece(uint16_t *table, size_t numbers)
{
    uint8_t buffer[16] = {0};
    uint64_t out[3];

    expect("replace", toj_replace(pattern, sizeof pattern, template_, sizeof template_, bytes("baa"), 3, buffer, 16, out, 3),
           TOJ_ANSWERED);
    expect("length", out[0], 7);
    expect("replacements", out[1], 2);
    expect("output", (uint64_t)memcmp(buffer, "<>b<aa>", 8), 0);
    table[2] = 1;
    table[3] = 3;
    expect("piece", toj_piece(template_, sizeof template_, bytes("baa"), 3, table, numbers, 1, out, 3), TOJ_ANSWERED);
    expect("source", out[0], 1);
    expect("start", out[1], 1);
    expect("end", out[2], 3);
}

static void build_and_run(uint16_t *table, size_t numbers)
{
    size_t machine_numbers = toj_machine_numbers(), scratch_numbers = toj_scratch_numbers();
    uint16_t *machine = calloc(machine_numbers, sizeof *machine);
    uint16_t *scratch = calloc(4 * scratch_numbers, sizeof *scratch);
    uint64_t out[3];

    for (uint32_t search = 0; search < 2; search++) {
        expect("build", toj_build(pattern, sizeof pattern, search, machine, machine_numbers, out, 3), TOJ_ANSWERED);
        expect("groups", out[2], 1);
        expect("run",
               toj_run(pattern, sizeof pattern, machine, machine_numbers, bytes("aab"), 3, scratch, scratch_numbers,
                       scratch + scratch_numbers, scratch_numbers, scratch + 2 * scratch_numbers, scratch_numbers,
                       scratch + 3 * scratch_numbers, scratch_numbers, table, numbers, out, 3),
               TOJ_ANSWERED);
        expect("found", out[0], search);
        expect("end of row 1", table[3], search ? 2 : TOJ_ABSENT);
    }
    free(machine);
    free(scratch);
}

int main(void)
{
    size_t numbers = toj_table_numbers();
    uint16_t *table = calloc(numbers, sizeof *table);

    check_and_limits();
    match_and_search(table, numbers);
    replace_and_piece(table, numbers);
    build_and_run(table, numbers);
    free(table);
    return failures > 0;
}
