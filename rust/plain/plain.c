/* The list machine in plain C, unproved: what the library's speed is measured against. Three parts: checking the
 * records, building the places, running them over a line. */
#include "plain.h"

#include <string.h>

enum { NOTHING, EMPTY, SET, GROUP, SEQUENCE, ALTERNATION, REPEAT, KINDS };
enum { HEADER = 4, REPEAT_NUMBERS = 6, MOST_COUNT = 255, NO_UPPER_END = 65535, MOST_PAIRS = 32 };

static uint32_t number_at(const uint8_t *at)
{
    return at[0] | (uint32_t)at[1] << 8;
}

/* ---- Checking ---- */

typedef struct {
    const uint8_t *bytes;
    uint32_t groups;
    uint32_t refusal, place;
} walk;

/* What the walk learns of one record. Places are counted up to a ceiling, which 0 passes still undo. */
typedef struct {
    uint32_t end, places, depth;
} measure;

enum { CEILING = 1u << 20 };

static int refuse(walk *w, uint32_t refusal, uint32_t place)
{
    w->refusal = refusal;
    w->place = place;
    return 0;
}

static uint32_t at_most(uint32_t number, uint32_t most)
{
    return number < most ? number : most;
}

static int set_is_right(const uint8_t *body, uint32_t length)
{
    if (length == 0 || length % 2 != 0 || length > 2 * MOST_PAIRS)
        return 0;
    for (uint32_t i = 0; i < length; i += 2) {
        if (body[i] > body[i + 1] || (i > 0 && body[i] < body[i - 1] + 2))
            return 0;
    }
    return 1;
}

static int check_record(walk *w, uint32_t at, uint32_t stop, uint32_t level, measure *m);

/* Two or more records that fill the body from `at` to `end`. */
static int check_members(walk *w, uint32_t kind, uint32_t record, uint32_t at, uint32_t end, uint32_t level,
                         measure *m)
{
    uint32_t members = 0;
    while (at < end) {
        measure inner;
        if (!check_record(w, at, end, level + 1, &inner))
            return 0;
        m->places = at_most(m->places + inner.places, CEILING);
        m->depth = inner.depth > m->depth ? inner.depth : m->depth;
        at = inner.end;
        members++;
    }
    if (members < 2)
        return refuse(w, 2, record);
    if (kind == ALTERNATION)
        m->places = at_most(m->places + members - 1, CEILING);
    return 1;
}

/* One record that fills the body from `at` to `end`. */
static int check_only(walk *w, uint32_t record, uint32_t at, uint32_t end, uint32_t level, measure *inner)
{
    if (!check_record(w, at, end, level + 1, inner))
        return 0;
    return inner->end == end || refuse(w, 2, record);
}

static int check_repeat(walk *w, uint32_t record, uint32_t at, uint32_t end, uint32_t level, measure *m)
{
    measure inner;
    uint32_t min, max, mode;

    if (end - at < REPEAT_NUMBERS)
        return refuse(w, 2, record);
    min = number_at(w->bytes + at);
    max = number_at(w->bytes + at + 2);
    mode = number_at(w->bytes + at + 4);
    if (min > MOST_COUNT || (max > MOST_COUNT && max != NO_UPPER_END) || min > max || mode > 1)
        return refuse(w, 5, record);
    if (!check_only(w, record, at + REPEAT_NUMBERS, end, level, &inner))
        return 0;
    m->places = min * (1 + inner.places) + (max == NO_UPPER_END ? 1 : max - min) * (3 + inner.places);
    m->places = at_most(m->places, CEILING);
    m->depth = inner.depth + (min < max);
    return 1;
}

static int check_record(walk *w, uint32_t at, uint32_t stop, uint32_t level, measure *m)
{
    uint32_t length, kind, body = at + HEADER;
    measure inner;

    if (stop - at < HEADER || stop - body < (length = number_at(w->bytes + at)))
        return refuse(w, 2, at);
    kind = number_at(w->bytes + at + 2);
    if (kind >= KINDS)
        return refuse(w, 3, at);
    if (level > PLAIN_LEVELS)
        return refuse(w, 6, at);
    *m = (measure){.end = body + length, .places = 0, .depth = 0};
    switch (kind) {
    case NOTHING:
    case EMPTY:
        m->places = kind == NOTHING;
        return length == 0 || refuse(w, 2, at);
    case SET:
        m->places = 1;
        return set_is_right(w->bytes + body, length) || refuse(w, 4, at);
    case GROUP:
        if (++w->groups > PLAIN_GROUPS)
            return refuse(w, 7, at);
        if (!check_only(w, at, body, m->end, level, &inner))
            return 0;
        m->places = at_most(2 + inner.places, CEILING);
        m->depth = inner.depth;
        return 1;
    case REPEAT:
        return check_repeat(w, at, body, m->end, level, m);
    default:
        return check_members(w, kind, at, body, m->end, level, m);
    }
}

uint32_t plain_check(const uint8_t *pattern, size_t length, uint32_t numbers[3])
{
    walk w = {.bytes = pattern, .groups = 0};
    measure m;

    if (length > PLAIN_PATTERN_BYTES)
        refuse(&w, 1, 0);
    else if (check_record(&w, 0, (uint32_t)length, 1, &m)) {
        if (m.end < length)
            refuse(&w, 2, m.end);
        else if (m.places + 1 > PLAIN_PLACES)
            refuse(&w, 8, 0);
        else {
            numbers[0] = m.places + 1;
            numbers[1] = m.depth;
            numbers[2] = w.groups;
            return 0;
        }
    }
    numbers[0] = w.place;
    return w.refusal;
}

/* ---- Building ---- */

/* The kinds of places; those up to ACCEPT end a thread's way at a position. */
enum { STOP, BYTE, BYTES, ACCEPT, FORK, OPEN, CLOSE, BEGIN, BEGIN_OPTIONAL, END };

/* Places are written from the last to the first, so that a follower is known before the place that leads to it. */
typedef struct {
    plain_machine *machine;
    uint32_t used;
} builder;

static uint32_t put(builder *b, uint32_t kind, uint32_t next, uint32_t a, uint32_t n)
{
    b->machine->place[b->used] =
        (plain_place){.kind = (uint16_t)kind, .next = (uint16_t)next, .a = (uint16_t)a, .b = (uint16_t)n};
    return b->used++;
}

static uint32_t put_fork(builder *b, int lazy, uint32_t pass, uint32_t out)
{
    return lazy ? put(b, FORK, out, pass, 0) : put(b, FORK, pass, out, 0);
}

static uint32_t groups_inside(const uint8_t *pattern, uint32_t at, uint32_t end)
{
    uint32_t groups = 0;
    while (at < end) {
        uint32_t kind = number_at(pattern + at + 2);
        groups += kind == GROUP;
        at += HEADER + (kind == SET ? number_at(pattern + at) : kind == REPEAT ? REPEAT_NUMBERS : 0);
    }
    return groups;
}

static uint32_t put_record(builder *b, uint32_t at, uint32_t group, uint32_t next);

/* The members from `at` to `end`, as a sequence or as an alternation, the last one first. */
static uint32_t put_members(builder *b, uint32_t kind, uint32_t at, uint32_t end, uint32_t group, uint32_t next)
{
    const uint8_t *pattern = b->machine->pattern;
    uint32_t after = at + HEADER + number_at(pattern + at);
    uint32_t rest, first;

    if (after == end)
        return put_record(b, at, group, next);
    rest = put_members(b, kind, after, end, group + groups_inside(pattern, at, after), next);
    if (kind == SEQUENCE)
        return put_record(b, at, group, rest);
    first = put_record(b, at, group, next);
    return put(b, FORK, first, rest, 0);
}

static uint32_t put_repeat(builder *b, uint32_t at, uint32_t end, uint32_t group, uint32_t next)
{
    const uint8_t *pattern = b->machine->pattern;
    uint32_t min = number_at(pattern + at), max = number_at(pattern + at + 2);
    int lazy = number_at(pattern + at + 4) == 1;
    uint32_t inner = at + REPEAT_NUMBERS;
    uint32_t clear = groups_inside(pattern, inner, end);
    uint32_t entry = next;

    if (max == NO_UPPER_END) {
        uint32_t last = put(b, END, 0, 0, 0);
        uint32_t pass = put(b, BEGIN_OPTIONAL, put_record(b, inner, group, last), group, clear);
        entry = put_fork(b, lazy, pass, next);
        b->machine->place[last].next = (uint16_t)entry;
    } else {
        for (uint32_t i = min; i < max; i++) {
            uint32_t last = put(b, END, entry, 0, 0);
            uint32_t pass = put(b, BEGIN_OPTIONAL, put_record(b, inner, group, last), group, clear);
            entry = put_fork(b, lazy, pass, next);
        }
    }
    for (uint32_t i = 0; i < min; i++)
        entry = put(b, BEGIN, put_record(b, inner, group, entry), group, clear);
    return entry;
}

static uint32_t put_set(builder *b, uint32_t at, uint32_t length, uint32_t next)
{
    const uint8_t *pairs = b->machine->pattern + at;
    if (length == 2)
        return put(b, BYTE, next, pairs[0], pairs[1] - pairs[0]);
    return put(b, BYTES, next, at, length);
}

/* The places of the record at `at`, whose first group is `group`; answers where to enter. */
static uint32_t put_record(builder *b, uint32_t at, uint32_t group, uint32_t next)
{
    const uint8_t *pattern = b->machine->pattern;
    uint32_t length = number_at(pattern + at), kind = number_at(pattern + at + 2);
    uint32_t body = at + HEADER;

    switch (kind) {
    case NOTHING:
        return put(b, STOP, 0, 0, 0);
    case EMPTY:
        return next;
    case SET:
        return put_set(b, body, length, next);
    case GROUP:
        next = put(b, CLOSE, next, group, 0);
        return put(b, OPEN, put_record(b, body, group + 1, next), group, 0);
    case REPEAT:
        return put_repeat(b, body, body + length, group, next);
    default:
        return put_members(b, kind, body, body + length, group, next);
    }
}

/* Any number of any bytes. */
static uint32_t put_any(builder *b, int lazy, uint32_t next)
{
    uint32_t last = put(b, END, 0, 0, 0);
    uint32_t pass = put(b, BEGIN_OPTIONAL, put(b, BYTE, last, 0, 255), 0, 0);
    return b->machine->place[last].next = (uint16_t)put_fork(b, lazy, pass, next);
}

uint32_t plain_build(const uint8_t *pattern, size_t length, int search, plain_machine *machine, uint32_t numbers[3])
{
    builder b = {.machine = machine, .used = 0};
    uint32_t refusal = plain_check(pattern, length, numbers);
    uint32_t entry;

    if (refusal != 0)
        return refusal;
    machine->pattern = pattern;
    machine->search = search != 0;
    entry = put(&b, ACCEPT, 0, 0, 0);
    if (search)
        entry = put(&b, CLOSE, put_any(&b, 0, entry), 0, 0);
    entry = put_record(&b, 0, 1, entry);
    if (search)
        entry = put_any(&b, 1, put(&b, OPEN, entry, 0, 0));
    machine->first = entry;
    machine->places = b.used;
    machine->depth = search && numbers[1] == 0 ? 1 : numbers[1];
    return 0;
}

/* ---- Running ---- */

/* What stays the same, or only grows, while the threads at one position are followed. */
typedef struct {
    const plain_place *place;
    const uint8_t *pattern;
    uint16_t *seen, *taken;
    plain_thread *list;
    uint64_t steps;
    uint32_t places, count;
    uint16_t stamp, at;
    int byte; /* the next byte, or -1 at the line's end */
} position;

static int holds(const uint8_t *pairs, uint32_t length, int byte)
{
    for (uint32_t i = 0; i < length; i += 2) {
        if (byte <= pairs[i + 1])
            return byte >= pairs[i];
    }
    return 0;
}

static void keep(plain_thread *thread, uint32_t place, const uint16_t *rows)
{
    thread->place = (uint16_t)place;
    memcpy(thread->rows, rows, sizeof thread->rows);
}

/* Carries a thread to the next position, unless one with this place already is. */
static void carry(position *p, uint32_t place, const uint16_t *rows)
{
    if (p->taken[place] == p->stamp)
        return;
    p->taken[place] = p->stamp;
    keep(&p->list[p->count++], place, rows);
}

/* Follows a thread, whose rows it may change, until its way at this position ends. Answers 1, with the thread behind
 * the list's last one, if it accepts at the line's end. */
static int visit(position *p, uint32_t place, uint32_t level, uint16_t *rows)
{
    for (;;) {
        const plain_place *here = &p->place[place];
        uint16_t *seen = &p->seen[level * p->places + place];

        if (*seen == p->stamp)
            return 0;
        *seen = p->stamp;
        p->steps++;
        switch (here->kind) {
        case BYTE:
            if ((uint32_t)p->byte - here->a <= here->b)
                carry(p, here->next, rows);
            return 0;
        case BYTES:
            if (p->byte >= 0 && holds(p->pattern + here->a, here->b, p->byte))
                carry(p, here->next, rows);
            return 0;
        case ACCEPT:
            if (p->byte >= 0)
                return 0;
            keep(&p->list[p->count], place, rows);
            return 1;
        case FORK: {
            uint16_t copy[PLAIN_NUMBERS];
            memcpy(copy, rows, sizeof copy);
            if (visit(p, here->next, level, copy))
                return 1;
            place = here->a;
            continue;
        }
        case OPEN:
            rows[2 * here->a] = p->at;
            break;
        case CLOSE:
            rows[2 * here->a + 1] = p->at;
            break;
        case BEGIN_OPTIONAL:
            level++;
            /* fall through */
        case BEGIN:
            for (uint32_t i = 0; i < 2u * here->b; i++)
                rows[2 * here->a + i] = PLAIN_ABSENT;
            break;
        case END:
            if (level > 0)
                return 0;
            break;
        default:
            return 0;
        }
        place = here->next;
    }
}

size_t plain_machine_bytes(void)
{
    return sizeof(plain_machine);
}

size_t plain_scratch_bytes(void)
{
    return sizeof(plain_scratch);
}

int plain_run(const plain_machine *machine, const uint8_t *line, size_t length, plain_scratch *scratch,
              uint16_t table[PLAIN_NUMBERS], uint64_t *steps)
{
    plain_thread *now = scratch->lists[0], *then = scratch->lists[1];
    uint32_t carried = 1;
    position p = {.place = machine->place,
                  .pattern = machine->pattern,
                  .seen = scratch->seen,
                  .taken = scratch->taken,
                  .places = machine->places};

    memset(p.seen, 0, (machine->depth + 1) * machine->places * sizeof *p.seen);
    memset(p.taken, 0, machine->places * sizeof *p.taken);
    memset(table, 0xff, PLAIN_NUMBERS * sizeof *table);
    keep(now, machine->first, table);
    for (size_t at = 0; carried > 0 && at <= length; at++) {
        plain_thread *swap = now;

        p.list = then;
        p.count = 0;
        p.at = (uint16_t)at;
        p.stamp = (uint16_t)(at + 1);
        p.byte = at < length ? line[at] : -1;
        for (uint32_t i = 0; i < carried; i++) {
            if (visit(&p, now[i].place, 0, now[i].rows)) {
                memcpy(table, then[p.count].rows, PLAIN_NUMBERS * sizeof *table);
                if (!machine->search) {
                    table[0] = 0;
                    table[1] = (uint16_t)length;
                }
                *steps = p.steps;
                return 1;
            }
        }
        now = then;
        then = swap;
        carried = p.count;
    }
    *steps = p.steps;
    return 0;
}
