/* Checks the edition wherever it is given: numbers that are none, and the same cells in both editions. */
#include "../include/tables.h"
#include "editions.h"

#include <inttypes.h>
#include <limits.h>
#include <stdbool.h>
#include <stdio.h>
#include <string.h>

/* Cells by name. */
#define VAR(name) (UINT32_C(0x10000000) + (name))
#define ATOM(number) (UINT32_C(0x20000000) + (number))
#define INT(value) (UINT32_C(0x30000000) + (value))
#define FUNCTOR(payload) (UINT32_C(0x40000000) + (payload))
#define BLIST UINT32_C(0x60000000)

#define SAID(what, value) ((uint64_t)(what) << 32 | (value))
#define REFUSED(number) SAID(TABLES_CALL_REFUSED + (number), 0)
#define CONVERTER_REFUSED(number) (UINT32_C(0x80000000) + (number))

enum { NODES = 600, SUBGOALS = 4, ANSWERS = 4, SWEEP = 4000, MOST_FAILURES = 10, CELL_BYTES = 4 };
enum { SPACE_CELLS = TABLES_SPACE_CELLS(NODES, SUBGOALS, ANSWERS) + 3, OUT_CELLS = 300 };

static unsigned checks, failures;
static uint32_t checked_number; /* the edition, or what else is counted through */

static void check(bool holds, const char *what)
{
    checks++;
    if (!holds && ++failures <= MOST_FAILURES)
        printf("failed: at %" PRIu32 ": %s\n", checked_number, what);
}

static void check_word(const char *what, uint64_t got, uint64_t expected)
{
    check(got == expected, what);
    if (got != expected && failures <= MOST_FAILURES)
        printf("  %#" PRIx64 " instead of %#" PRIx64 "\n", got, expected);
}

/* Numbers that are no edition: the known ones, an edition with one bit more, then any (splitmix64). */
static uint32_t no_edition(unsigned i)
{
    if (i >= NO_EDITIONS && i < NO_EDITIONS + 60)
        return (UINT32_C(4) << (i - NO_EDITIONS) / 2) + 1 + i % 2;
    uint64_t word = (i + 1) * UINT64_C(0x9e3779b97f4a7c15);
    word = (word ^ word >> 30) * UINT64_C(0xbf58476d1ce4e5b9);
    word = (word ^ word >> 27) * UINT64_C(0x94d049bb133111eb);
    uint32_t number = (uint32_t)(word >> 32);
    return i < NO_EDITIONS || number == 1 || number == 2 ? no_editions[i % NO_EDITIONS] : number;
}

/* Spaces, and what they held before */

struct space {
    uint32_t cell[SPACE_CELLS];
};

static struct space space, before;
static uint32_t out[OUT_CELLS], out_before[OUT_CELLS];

static uint64_t make_fresh(struct space *made, uint32_t edition)
{
    return tables_fresh(made->cell, SPACE_CELLS, NODES, SUBGOALS, ANSWERS, edition);
}

static void keep(void)
{
    memset(out, 0x5a, sizeof out);
    before = space;
    memcpy(out_before, out, sizeof out);
}

static void check_kept(const char *what)
{
    check(memcmp(&space, &before, sizeof space) == 0, what);
    check(memcmp(out, out_before, sizeof out) == 0, what);
}

/* Fresh */

/* The two editions differ in the header's first cell alone. */
static void check_fresh(void)
{
    struct space one, two;
    memset(&one, 0xa5, sizeof one);
    memset(&two, 0xa5, sizeof two);
    check_word("fresh", make_fresh(&one, TABLES_EDITION_1), TABLES_DONE);
    check_word("fresh", make_fresh(&two, TABLES_EDITION_2), TABLES_DONE);
    check(one.cell[0] == 1 && two.cell[0] == 2, "the edition in the header");
    check(memcmp(one.cell + 1, two.cell + 1, sizeof one - sizeof *one.cell) == 0,
          "the other cells");
    check(one.cell[SPACE_CELLS - 3] == 0xa5a5a5a5 && one.cell[SPACE_CELLS - 4] == 0,
          "the cells past the end");
}

/* 2 whatever the capacities and the cells, and nothing is written. */
static void check_no_fresh(uint32_t number)
{
    check_word("fresh of no edition", make_fresh(&space, number), REFUSED(2));
    check_word("and with no node", tables_fresh(space.cell, SPACE_CELLS, 0, 1, 1, number), REFUSED(2));
    check_word("and with too few cells", tables_fresh(space.cell, 12, 1, 0, 0, number), REFUSED(2));
    check_word("and with just enough", tables_fresh(space.cell, 13, 1, 0, 0, number), REFUSED(2));
    check_word("and with no cells", tables_fresh(NULL, 0, 1, 0, 0, number), REFUSED(2));
    check_kept("a refused fresh");
}

/* Headers */

static const uint32_t goal[] = {FUNCTOR(3), VAR(5), ATOM(6), VAR(7)}; /* f/3, name 0, in both editions */
static const uint32_t answer[] = {INT(8), ATOM(9)};

/* One subgoal, one answer. */
static void make_table(uint32_t edition)
{
    check_word("fresh", make_fresh(&space, edition), TABLES_DONE);
    check_word("call", tables_call(space.cell, SPACE_CELLS, goal, 4), SAID(TABLES_NEW, 1));
    check_word("answer", tables_answer(space.cell, SPACE_CELLS, 1, answer, 2), SAID(TABLES_NEW, 1));
}

/* Every call by 1: those that the table would accept, and those that it would refuse otherwise. */
static void check_no_header(uint32_t number)
{
    static const uint32_t bad[] = {BLIST};
    uint32_t *cells = space.cell;
    cells[0] = number;
    keep();
    check_word("call", tables_call(cells, SPACE_CELLS, goal, 4), REFUSED(1));
    check_word("call of no term", tables_call(cells, SPACE_CELLS, bad, 1), REFUSED(1));
    check_word("answer", tables_answer(cells, SPACE_CELLS, 1, answer, 2), REFUSED(1));
    check_word("answer to none", tables_answer(cells, SPACE_CELLS, 0, bad, 1), REFUSED(1));
    check_word("finish", tables_finish(cells, SPACE_CELLS, 1), REFUSED(1));
    check_word("finish of none", tables_finish(cells, SPACE_CELLS, 9), REFUSED(1));
    check_word("next", tables_next(cells, SPACE_CELLS, 1, 0), REFUSED(1));
    check_word("next of none", tables_next(cells, SPACE_CELLS, 9, 9), REFUSED(1));
    check_word("load", tables_load(cells, SPACE_CELLS, 1, out, OUT_CELLS), REFUSED(1));
    check_word("load, out short", tables_load(cells, SPACE_CELLS, 1, out, 0), REFUSED(1));
    check_word("instance", tables_instance(cells, SPACE_CELLS, 1, out, OUT_CELLS), REFUSED(1));
    check_word("instance, out short", tables_instance(cells, SPACE_CELLS, 1, NULL, 0), REFUSED(1));
    check_word("counts", tables_counts(cells, SPACE_CELLS, out, OUT_CELLS), REFUSED(1));
    check_word("counts, out short", tables_counts(cells, SPACE_CELLS, out, 2), REFUSED(1));
    check_kept("a header of no edition");
}

/* The same table once its edition is back. */
static void check_restored(uint32_t edition)
{
    static const uint32_t instance[] = {FUNCTOR(3), INT(8), ATOM(6), ATOM(9)};
    uint32_t *cells = space.cell;
    cells[0] = edition;
    check_word("call", tables_call(cells, SPACE_CELLS, goal, 4), SAID(TABLES_OLD_OPEN, 1));
    check_word("answer", tables_answer(cells, SPACE_CELLS, 1, answer, 2), SAID(TABLES_OLD, 1));
    check_word("next", tables_next(cells, SPACE_CELLS, 1, 0), SAID(TABLES_AT, 1));
    check_word("load", tables_load(cells, SPACE_CELLS, 1, out, 2), SAID(TABLES_CELLS, 2));
    check(memcmp(out, answer, sizeof answer) == 0, "cells loaded");
    check_word("instance", tables_instance(cells, SPACE_CELLS, 1, out, 4), SAID(TABLES_CELLS, 4));
    check(memcmp(out, instance, sizeof instance) == 0, "cells of the instance");
    check_word("counts", tables_counts(cells, SPACE_CELLS, out, 3), SAID(TABLES_COUNTS, 3));
    check(out[0] == 8 && out[1] == 1 && out[2] == 1, "the counts");
}

/* Converters */

static void to_bytes(uint8_t *bytes, const uint32_t *cells, size_t count)
{
    for (size_t i = 0; i < count; i++)
        for (int j = 0; j < CELL_BYTES; j++)
            *bytes++ = (uint8_t)(cells[i] >> 8 * j);
}

typedef uint32_t converter(const uint8_t *, size_t, uint8_t *, size_t, uint32_t);

/* 1 for each byte count and each room, and nothing is written. */
static void check_no_converter(const char *what, converter *convert, uint32_t number)
{
    static const uint32_t numbered[] = {FUNCTOR(3), VAR(0), ATOM(6), VAR(1)}; /* in either form */
    static const size_t lengths[] = {0, 1, 3, 4, 5, 8, 15, 16, 17, 1024, 1028, 1031, 1532, 1600};
    static const size_t rooms[] = {0, 3, 4, 16, 600};
    uint8_t in[1600] = {0}, written[600], kept[600];
    memset(written, 0x5a, sizeof written);
    memset(kept, 0x5a, sizeof kept);
    to_bytes(in, numbered, 4);
    for (size_t i = 0; i < sizeof lengths / sizeof *lengths; i++)
        for (size_t j = 0; j < sizeof rooms / sizeof *rooms; j++)
            check_word(what, convert(in, lengths[i], written, rooms[j], number),
                       CONVERTER_REFUSED(1));
    check_word(what, convert(NULL, 0, NULL, 0, number), CONVERTER_REFUSED(1));
    check(memcmp(written, kept, sizeof kept) == 0, what);
}

/* Every number that is none, everywhere. */
static void check_numbers(void)
{
    for (unsigned i = 0; i < SWEEP; i++) {
        uint32_t number = no_edition(i), edition = 1 + i % LAST_EDITION;
        checked_number = number;
        make_table(edition);
        keep();
        check_no_fresh(number);
        check_no_header(number);
        check_restored(edition);
        check_no_converter("compact of no edition", tables_compact, number);
        check_no_converter("expand of no edition", tables_expand, number);
    }
}

/* The same cells in both editions: a functor by the lowest 8 bits of its payload, and integers behind it */

struct term {
    size_t count;
    uint32_t cell[OUT_CELLS];
};

static struct term of_integers(uint32_t payload, uint32_t integers)
{
    struct term term = {1 + (size_t)integers, {FUNCTOR(payload)}};
    for (uint32_t i = 0; i < integers; i++)
        term.cell[1 + i] = INT(i);
    return term;
}

/* Calls the term in a new space of an edition: taken, with a node for each cell, or refused by this. */
static void check_called(uint32_t edition, const struct term *term, uint32_t refusal)
{
    check_word("fresh", make_fresh(&space, edition), TABLES_DONE);
    keep();
    check_word("call", tables_call(space.cell, SPACE_CELLS, term->cell, term->count),
               refusal == 0 ? SAID(TABLES_NEW, 1) : REFUSED(refusal));
    if (refusal != 0) {
        check_kept("a refused call");
        return;
    }
    check(space.cell[1] == term->count + 2 && space.cell[8 + 5] == term->cell[0], "the nodes");
    check_word("answer", tables_answer(space.cell, SPACE_CELLS, 1, NULL, 0), SAID(TABLES_NEW, 1));
    check_word("instance", tables_instance(space.cell, SPACE_CELLS, 1, out, OUT_CELLS),
               SAID(TABLES_CELLS, term->count));
    check(memcmp(out, term->cell, term->count * sizeof *out) == 0, "cells of the instance");
}

/* The same as an answer of p(X), with the subgoal's functor 1, of arity 1 in both editions. */
static void check_as_answer(uint32_t edition, const struct term *term, uint32_t refusal)
{
    static const uint32_t subgoal[] = {FUNCTOR(1), VAR(0)};
    check_word("fresh", make_fresh(&space, edition), TABLES_DONE);
    check_word("call", tables_call(space.cell, SPACE_CELLS, subgoal, 2), SAID(TABLES_NEW, 1));
    keep();
    check_word("answer", tables_answer(space.cell, SPACE_CELLS, 1, term->cell, term->count),
               refusal == 0 ? SAID(TABLES_NEW, 1) : REFUSED(refusal));
    if (refusal != 0) {
        check_kept("a refused answer");
        return;
    }
    check_word("next", tables_next(space.cell, SPACE_CELLS, 1, 0), SAID(TABLES_AT, 1));
    check_word("load", tables_load(space.cell, SPACE_CELLS, 1, out, OUT_CELLS),
               SAID(TABLES_CELLS, term->count));
    check(memcmp(out, term->cell, term->count * sizeof *out) == 0, "cells loaded");
}

/* A converter gives the cells as they are, since there are neither lists nor variables, or it refuses them. */
static void check_converted(converter *convert, uint32_t edition, const struct term *term,
                            uint32_t refusal)
{
    uint8_t in[OUT_CELLS * CELL_BYTES], written[sizeof in], expected[sizeof in];
    memset(written, 0x5a, sizeof written);
    memset(expected, 0x5a, sizeof expected);
    to_bytes(in, term->cell, term->count);
    if (refusal == 0)
        to_bytes(expected, term->cell, term->count);
    check_word("a converter", convert(in, term->count * CELL_BYTES, written, sizeof written, edition),
               refusal == 0 ? (uint32_t)term->count : CONVERTER_REFUSED(refusal));
    check(memcmp(written, expected, sizeof expected) == 0, "bytes of out");
}

/* Taken if there are as many integers as the edition reads; else 3, or 4 where the cells are over 256. */
static void check_reading(uint32_t edition, uint32_t payload, uint32_t integers)
{
    struct term term = of_integers(payload, integers);
    uint32_t arity = edition == 1 ? payload % 16 : payload % 256;
    uint32_t refusal = integers > 255 ? 4 : arity == 0 || arity != integers ? 3 : 0;
    check_called(edition, &term, refusal);
    check_as_answer(edition, &term, refusal);
    check_converted(tables_compact, edition, &term, refusal);
    check_converted(tables_expand, edition, &term, refusal == 0 ? 0 : 13);
}

/* With as many integers as edition 2 reads, as edition 1 reads, and with one more or less. */
static void check_payload(uint32_t payload)
{
    uint32_t in_2 = payload % 256, in_1 = payload % 16;
    checked_number = payload;
    for (uint32_t edition = 1; edition <= LAST_EDITION; edition++) {
        check_reading(edition, payload, in_2);
        check_reading(edition, payload, in_2 + 1);
        check_reading(edition, payload, in_2 == 0 ? 0 : in_2 - 1);
        check_reading(edition, payload, in_1);
        check_reading(edition, payload, in_1 + 1);
        check_reading(edition, payload, in_1 == 0 ? 0 : in_1 - 1);
    }
}

static void check_readings(void)
{
    static const uint32_t names[] = {0, 256, 0x00ffff00, 0x0fffff00};
    for (uint32_t low = 0; low < 256; low++)
        for (size_t i = 0; i < sizeof names / sizeof *names; i++)
            check_payload(names[i] + low);
}

/* The same by hand: a payload with so many integers, and what each edition says. */
static const struct {
    uint32_t payload, integers, in_edition_1, in_edition_2;
} readings[] = {
    {0x01, 1, 0, 0},   {0x0f, 15, 0, 0},  {0x10, 16, 3, 0},   {0x10, 0, 3, 3},   {0x11, 17, 3, 0},
    {0x11, 1, 0, 3},   {0x28, 40, 3, 0},  {0x28, 8, 0, 3},    {0x28, 39, 3, 3},  {0x28, 41, 3, 3},
    {0xf0, 240, 3, 0}, {0xf0, 0, 3, 3},   {0xff, 255, 3, 0},  {0xff, 15, 0, 3},  {0xff, 254, 3, 3},
    {0xff, 256, 4, 4}, {0x100, 0, 3, 3},  {0x100, 16, 3, 3},  {0x101, 1, 0, 0},  {0x110, 16, 3, 0},
    {0x128, 40, 3, 0}, {0x128, 8, 0, 3},  {0x1000, 0, 3, 3},  {0x100f, 15, 0, 0},
};

static void check_hand_readings(void)
{
    for (size_t i = 0; i < sizeof readings / sizeof *readings; i++) {
        struct term term = of_integers(readings[i].payload, readings[i].integers);
        checked_number = readings[i].payload;
        for (uint32_t edition = 1; edition <= LAST_EDITION; edition++) {
            uint32_t refusal = edition == 1 ? readings[i].in_edition_1 : readings[i].in_edition_2;
            check_called(edition, &term, refusal);
            check_as_answer(edition, &term, refusal);
            check_converted(tables_compact, edition, &term, refusal);
            check_converted(tables_expand, edition, &term, refusal == 0 ? 0 : 13);
        }
    }
}

/* 40 distinct variables: 3 where they are no arguments, before 5 where they are too many. */
static void check_variables(void)
{
    for (uint32_t edition = 1; edition <= LAST_EDITION; edition++) {
        struct term term = of_integers(0x28, 40);
        for (uint32_t i = 1; i <= 40; i++)
            term.cell[i] = VAR(i);
        check_called(edition, &term, edition == 1 ? 3 : 5);
        check_converted(tables_compact, edition, &term, edition == 1 ? 3 : 5);
    }
}

/* The cell of a functor by the header's macro */

_Static_assert(TABLES_FUNCTOR_CELL(TABLES_EDITION_1, 1, 2) == 0x40000012, "f/2 in edition 1");
_Static_assert(TABLES_FUNCTOR_CELL(TABLES_EDITION_2, 1, 2) == 0x40000102, "f/2 in edition 2");
_Static_assert(TABLES_FUNCTOR_CELL(TABLES_EDITION_2, 1, 40) == 0x40000128, "f/40 in edition 2");
_Static_assert(TABLES_FUNCTOR_CELL(TABLES_EDITION_1, 1, 40) == 0, "f/40 in edition 1");

static const uint32_t constants[] = {
    TABLES_FUNCTOR_CELL(TABLES_EDITION_1, 0, 1),
    TABLES_FUNCTOR_CELL(TABLES_EDITION_1, 16777215, 15),
    TABLES_FUNCTOR_CELL(TABLES_EDITION_2, 0, 1),
    TABLES_FUNCTOR_CELL(TABLES_EDITION_2, 0, 255),
    TABLES_FUNCTOR_CELL(TABLES_EDITION_2, 1048575, 255),
    TABLES_FUNCTOR_CELL(TABLES_EDITION_2, 1048575, 1),
};
static const uint32_t constant_cells[] = {0x40000001, 0x4fffffff, 0x40000001,
                                          0x400000ff, 0x4fffffff, 0x4fffff01};

/* All out of range: the next above, far above, a multiple of 2^32 above, and below 0. */
static const uint32_t constants_out[] = {
    TABLES_FUNCTOR_CELL(TABLES_EDITION_1, 1, 0),
    TABLES_FUNCTOR_CELL(TABLES_EDITION_1, 1, 16),
    TABLES_FUNCTOR_CELL(TABLES_EDITION_1, 1, 255),
    TABLES_FUNCTOR_CELL(TABLES_EDITION_1, 16777216, 1),
    TABLES_FUNCTOR_CELL(TABLES_EDITION_1, 268435456, 1),
    TABLES_FUNCTOR_CELL(TABLES_EDITION_1, -1, 1),
    TABLES_FUNCTOR_CELL(TABLES_EDITION_1, 1, -1),
    TABLES_FUNCTOR_CELL(TABLES_EDITION_1, 1, -15),
    TABLES_FUNCTOR_CELL(TABLES_EDITION_1, INT_MIN, 1),
    TABLES_FUNCTOR_CELL(TABLES_EDITION_1, UINT64_C(1) << 32, 1),
    TABLES_FUNCTOR_CELL(TABLES_EDITION_1, 1, (UINT64_C(1) << 32) + 1),
    TABLES_FUNCTOR_CELL(TABLES_EDITION_2, 1, 0),
    TABLES_FUNCTOR_CELL(TABLES_EDITION_2, 1, 256),
    TABLES_FUNCTOR_CELL(TABLES_EDITION_2, 1, 257),
    TABLES_FUNCTOR_CELL(TABLES_EDITION_2, 1048576, 1),
    TABLES_FUNCTOR_CELL(TABLES_EDITION_2, 16777215, 1),
    TABLES_FUNCTOR_CELL(TABLES_EDITION_2, -1, 255),
    TABLES_FUNCTOR_CELL(TABLES_EDITION_2, 1, -1),
    TABLES_FUNCTOR_CELL(TABLES_EDITION_2, 1, -255),
    TABLES_FUNCTOR_CELL(TABLES_EDITION_2, INT_MIN, INT_MIN),
    TABLES_FUNCTOR_CELL(TABLES_EDITION_2, UINT64_C(1) << 32, 1),
    TABLES_FUNCTOR_CELL(TABLES_EDITION_2, 1, (UINT64_C(1) << 32) + 1),
    TABLES_FUNCTOR_CELL(TABLES_EDITION_2, UINT64_MAX, UINT64_MAX),
    TABLES_FUNCTOR_CELL(0, 1, 1),
    TABLES_FUNCTOR_CELL(3, 1, 1),
    TABLES_FUNCTOR_CELL(-1, 1, 1),
    TABLES_FUNCTOR_CELL(256, 1, 1),
    TABLES_FUNCTOR_CELL((UINT64_C(1) << 32) + 1, 1, 1),
};

static void check_constants(void)
{
    check(memcmp(constants, constant_cells, sizeof constants) == 0, "functor cells");
    for (size_t i = 0; i < sizeof constants_out / sizeof *constants_out; i++)
        check(constants_out[i] == 0, "a functor cell out of range");
}

/* What the macro must give, by multiplication. */
static uint32_t functor_cell(uint64_t edition, uint64_t name, uint64_t arity)
{
    uint64_t unit = edition == 1 ? 16 : 256;
    bool in_range = (edition == 1 || edition == 2) && name < (UINT64_C(1) << 28) / unit &&
                    arity >= 1 && arity < unit;
    return in_range ? FUNCTOR((uint32_t)(name * unit + arity)) : 0;
}

/* The macro of variables of several types; what fits the narrower ones goes through them too. */
static void check_functor(uint64_t edition, uint64_t name, uint64_t arity)
{
    uint32_t cell = functor_cell(edition, name, arity);
    check(TABLES_FUNCTOR_CELL(edition, name, arity) == cell, "a functor cell, uint64_t");
    check(TABLES_FUNCTOR_CELL((int64_t)edition, (int64_t)name, (int64_t)arity) == cell,
          "a functor cell, int64_t");
    uint32_t edition_32 = (uint32_t)edition, name_32 = (uint32_t)name, arity_32 = (uint32_t)arity;
    check(TABLES_FUNCTOR_CELL(edition_32, name_32, arity_32) ==
              functor_cell(edition_32, name_32, arity_32),
          "a functor cell, uint32_t");
    int edition_int = (int)edition_32, name_int = (int)name_32, arity_int = (int)arity_32;
    check(TABLES_FUNCTOR_CELL(edition_int, name_int, arity_int) ==
              functor_cell((uint64_t)edition_int, (uint64_t)name_int, (uint64_t)arity_int),
          "a functor cell, int");
    uint8_t name_8 = (uint8_t)name, arity_8 = (uint8_t)arity;
    check(TABLES_FUNCTOR_CELL(edition, name_8, arity_8) == functor_cell(edition, name_8, arity_8),
          "a functor cell, uint8_t");
}

/* Every number at an edge with every other. */
static void check_functors(void)
{
    static const uint64_t edges[] = {0,       1,          2,          15,         16,        17,
                                     40,      255,        256,        257,        1048575,   1048576,
                                     1 << 24, 0x0fffffff, 0x10000000, 0x7fffffff, 0xffffffff};
    enum { EDGES = sizeof edges / sizeof *edges };
    for (uint64_t edition = 0; edition <= 4; edition++)
        for (size_t i = 0; i < 3 * EDGES; i++)
            for (size_t j = 0; j < 3 * EDGES; j++) {
                static const uint64_t signs[] = {1, UINT64_MAX, 1}, far[] = {0, 0, UINT64_C(1) << 32};
                checked_number = (uint32_t)edition;
                check_functor(edition, edges[i % EDGES] * signs[i / EDGES] + far[i / EDGES],
                              edges[j % EDGES] * signs[j / EDGES] + far[j / EDGES]);
            }
    check_functor(UINT64_MAX, 1, 1);
    check_functor((UINT64_C(1) << 32) + 1, 1, 1);
    check_functor((UINT64_C(1) << 32) + 2, 1, 1);
}

int main(void)
{
    setvbuf(stdout, NULL, _IOLBF, BUFSIZ);
    check_fresh();
    check_numbers();
    check_readings();
    check_hand_readings();
    check_variables();
    check_constants();
    check_functors();
    printf("editions_test: %u checks, %u failures\n", checks, failures);
    return failures == 0 ? 0 : 1;
}
