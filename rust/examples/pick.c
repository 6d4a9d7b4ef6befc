/* Searches the words of its command line for `grown (\d+) factory (\d+)`, or a line of its own if there are none, and
 * prints what stands in each row. */
#include "tojalinda.h"

#include <stdio.h>
#include <stdlib.h>
#include <string.h>

/* A record's header: the length of its body and its kind, both below 256 here. */
#define RECORD(length, kind) length, 0, kind, 0
#define BYTE(byte) RECORD(2, 2), byte, byte
#define ONE_OR_MORE_DIGITS RECORD(12, 6), 1, 0, 255, 255, 0, 0, RECORD(2, 2), '0', '9'
#define GROUP_OF_DIGITS RECORD(16, 3), ONE_OR_MORE_DIGITS

static const uint8_t pattern[] = {
    RECORD(130, 4), BYTE('g'), BYTE('r'), BYTE('o'), BYTE('w'), BYTE('n'), BYTE(' '), GROUP_OF_DIGITS,
    BYTE(' '),      BYTE('f'), BYTE('a'), BYTE('c'), BYTE('t'), BYTE('o'), BYTE('r'), BYTE('y'),
    BYTE(' '),      GROUP_OF_DIGITS};

static int refused(const char *call, uint32_t status, const uint64_t *out)
{
    fprintf(stderr, "%s: refused by %u at %llu\n", call, (unsigned)status, (unsigned long long)out[0]);
    return 1;
}

static void print_rows(const char *line, const uint16_t *table, size_t rows)
{
    for (size_t row = 0; row < rows; row++) {
        unsigned start = table[2 * row], end = table[2 * row + 1];
        if (start == TOJ_ABSENT && end == TOJ_ABSENT)
            printf("row %zu is absent\n", row);
        else
            printf("row %zu is %u-%u: %.*s\n", row, start, end, (int)(end - start), line + start);
    }
}

/* Builds the pattern once, then searches every line. */
int main(int count, char **words)
{
    static const char *own[] = {"bay 3 grown 128 factory 14 ok", "bay 4 grown - factory 2 ok"};
    const char *const *lines = count > 1 ? (const char *const *)words + 1 : own;
    size_t line_count = count > 1 ? (size_t)count - 1 : sizeof own / sizeof *own;
    uint16_t *machine = calloc(toj_machine_numbers(), sizeof *machine);
    size_t part = toj_scratch_numbers();
    uint16_t *scratch = calloc(4 * part, sizeof *scratch);
    uint16_t *table = calloc(toj_table_numbers(), sizeof *table);
    uint64_t out[3];
    uint32_t status;
    size_t rows;

    if (machine == NULL || scratch == NULL || table == NULL)
        return 1;
    status = toj_build(pattern, sizeof pattern, 1, machine, toj_machine_numbers(), out, 3);
    if (status != TOJ_ANSWERED)
        return refused("build", status, out);
    rows = (size_t)out[2] + 1;
    printf("machine: places %llu depth %llu groups %llu\n", (unsigned long long)out[0], (unsigned long long)out[1],
           (unsigned long long)out[2]);
    for (size_t i = 0; i < line_count; i++) {
        status = toj_run(pattern, sizeof pattern, machine, toj_machine_numbers(), (const uint8_t *)lines[i],
                         strlen(lines[i]), scratch, part, scratch + part, part, scratch + 2 * part, part,
                         scratch + 3 * part, part, table, toj_table_numbers(), out, 3);
        if (status != TOJ_ANSWERED)
            return refused("run", status, out);
        printf("%s: %s, %llu steps\n", lines[i], out[0] ? "found" : "none", (unsigned long long)out[1]);
        if (out[0])
            print_rows(lines[i], table, rows);
    }
    free(machine);
    free(scratch);
    free(table);
    return 0;
}
