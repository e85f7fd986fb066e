/* Checks the exported converters on hand-written terms, forms, limits, lengths and refusals, in both editions. */
#include "../include/tables.h"
#include "editions.h"

#include <stdio.h>
#include <string.h>

enum { CELL_BYTES = 4, MARGIN = 16, MOST_CELLS = 600, MOST_BYTES = MOST_CELLS * CELL_BYTES };

/* The edition that the converters are given at present. */
static uint32_t edition;

/*
 * Cells by name; functors f/3, g/2, h/1 of the present edition, f with the most
 * arguments, and f and the last name with arity 0, which are none.
 */
#define VAR(name) (UINT32_C(0x10000000) + (name))
#define ATOM(number) (UINT32_C(0x20000000) + (number))
#define INT(value) (UINT32_C(0x30000000) + (value))
#define F3 functor(UINT32_C(0x40000013), UINT32_C(0x40000103))
#define G2 functor(UINT32_C(0x40000022), UINT32_C(0x40000202))
#define H1 functor(UINT32_C(0x40000031), UINT32_C(0x40000301))
#define WIDEST functor(UINT32_C(0x4000001f), UINT32_C(0x400001ff))
#define F0 functor(UINT32_C(0x40000010), UINT32_C(0x40000100))
#define LAST_0 functor(UINT32_C(0x4ffffff0), UINT32_C(0x4fffff00))
#define NIL UINT32_C(0x20000000)
#define PAIR UINT32_C(0x50000000)
#define BLIST UINT32_C(0x60000000)
#define ELIST UINT32_C(0x70000000)
#define EPAIR UINT32_C(0x80000000)

#define REFUSED(number) (UINT32_C(0x80000000) + (number))

static uint32_t functor(uint32_t in_edition_1, uint32_t in_edition_2)
{
    return edition == TABLES_EDITION_1 ? in_edition_1 : in_edition_2;
}

typedef uint32_t converter(const uint8_t *, size_t, uint8_t *, size_t, uint32_t);

/* A row of cells. */
struct cells {
    size_t count;
    uint32_t cell[MOST_CELLS];
};

#define CELLS(...) \
    (struct cells){sizeof((uint32_t[]){__VA_ARGS__}) / sizeof(uint32_t), {__VA_ARGS__}}

static const struct cells no_cells = {0, {0}};

static int checks, failures;

static void check(int holds, const char *name, const char *what)
{
    checks++;
    if (!holds) {
        failures++;
        printf("failed: edition %u: %s: %s\n", (unsigned)edition, name, what);
    }
}

static void append(struct cells *cells, uint32_t cell)
{
    cells->cell[cells->count++] = cell;
}

static void to_bytes(uint8_t *bytes, const struct cells *cells)
{
    for (size_t i = 0; i < cells->count; i++)
        for (int j = 0; j < CELL_BYTES; j++)
            *bytes++ = (uint8_t)(cells->cell[i] >> 8 * j);
}

/*
 * Calls a converter on bytes that begin at the given offsets from an aligned
 * address, and checks the result, every byte of out, the margins around it and
 * that the input stayed.
 */
static void check_given(const char *name, converter *convert, uint32_t given_edition,
                        const uint8_t *in, size_t in_bytes, size_t out_bytes, uint32_t result,
                        const struct cells *written, size_t in_offset, size_t out_offset)
{
    static _Alignas(16) uint8_t lent_in[MOST_BYTES + 2 * MARGIN];
    static _Alignas(16) uint8_t lent_out[MOST_BYTES + 2 * MARGIN];
    static uint8_t expected[sizeof lent_out];
    for (size_t i = 0; i < sizeof lent_out; i++)
        lent_out[i] = (uint8_t)(37 * i + 11);
    memcpy(expected, lent_out, sizeof expected);
    to_bytes(expected + MARGIN + out_offset, written);
    memcpy(lent_in + in_offset, in, in_bytes);
    uint32_t got = convert(lent_in + in_offset, in_bytes, lent_out + MARGIN + out_offset, out_bytes,
                           given_edition);
    if (got != result)
        printf("%s: result %08x instead of %08x\n", name, (unsigned)got, (unsigned)result);
    check(got == result, name, "result");
    check(memcmp(lent_out, expected, sizeof expected) == 0, name, "bytes of out");
    check(memcmp(lent_in + in_offset, in, in_bytes) == 0, name, "input stays");
}

/* The same in the present edition. */
static void check_bytes(const char *name, converter *convert, const uint8_t *in, size_t in_bytes,
                        size_t out_bytes, uint32_t result, const struct cells *written,
                        size_t in_offset, size_t out_offset)
{
    check_given(name, convert, edition, in, in_bytes, out_bytes, result, written, in_offset,
                out_offset);
}

/* No edition comes before all else: any byte count, any room. */
static void check_no_edition(const char *name, converter *convert, const uint8_t *in, size_t length)
{
    for (size_t i = 0; i < NO_EDITIONS; i++)
        for (size_t odd = 0; odd < CELL_BYTES; odd++) {
            check_given(name, convert, no_editions[i], in, length + odd, MOST_BYTES, REFUSED(1),
                        &no_cells, 0, 0);
            check_given(name, convert, no_editions[i], in, length + odd, odd, REFUSED(1), &no_cells,
                        odd, 3 - odd);
        }
}

/* Checks one accepted input: ample room, an exact fit, odd bytes at the end, odd addresses, too short. */
static void check_accepted(const char *name, converter *convert, struct cells in, struct cells out)
{
    uint8_t bytes[MOST_BYTES + CELL_BYTES] = {0};
    size_t length = in.count * CELL_BYTES;
    size_t room = out.count * CELL_BYTES;
    uint32_t result = (uint32_t)out.count;
    to_bytes(bytes, &in);
    check_bytes(name, convert, bytes, length, MOST_BYTES, result, &out, 0, 0);
    for (size_t odd = 0; odd < CELL_BYTES; odd++) {
        check_bytes(name, convert, bytes, length, room + odd, result, &out, 0, 0);
        check_bytes(name, convert, bytes, length, room - CELL_BYTES + odd, REFUSED(12), &no_cells, 0, 0);
        check_bytes(name, convert, bytes, length, room, result, &out, odd, 3 - odd);
        check_bytes(name, convert, bytes, length, odd, REFUSED(12), &no_cells, 0, odd);
    }
    check_no_edition(name, convert, bytes, length);
}

/* Checks one refusal, with ample room and with none, and that an odd byte count comes before it. */
static void check_refused(const char *name, converter *convert, struct cells in, uint32_t refusal)
{
    uint8_t bytes[MOST_BYTES + CELL_BYTES] = {0};
    size_t length = in.count * CELL_BYTES;
    to_bytes(bytes, &in);
    check_bytes(name, convert, bytes, length, MOST_BYTES, REFUSED(refusal), &no_cells, 0, 0);
    check_bytes(name, convert, bytes, length, MOST_BYTES, REFUSED(refusal), &no_cells, 1, 2);
    check_bytes(name, convert, bytes, length, 0, REFUSED(refusal), &no_cells, 0, 0);
    for (size_t odd = 1; odd < CELL_BYTES; odd++)
        check_bytes(name, convert, bytes, length + odd, MOST_BYTES, REFUSED(3), &no_cells, 0, 0);
    check_no_edition(name, convert, bytes, length);
}

/* Checks a term whose variables are numbered already: compacting and expanding. */
static void check_both(const char *name, struct cells term, struct cells form)
{
    check_accepted(name, tables_compact, term, form);
    check_accepted(name, tables_expand, form, term);
}

/* The published terms */

static void test_published_terms(void)
{
    check_accepted("M1 f(X, g(Y, X), Z)", tables_compact,
                   CELLS(F3, VAR(7), G2, VAR(9), VAR(7), VAR(0)),
                   CELLS(F3, VAR(0), G2, VAR(1), VAR(0), VAR(2)));
    check_accepted("M2 f(g(Y, Z), X, Z)", tables_compact,
                   CELLS(F3, G2, VAR(2), VAR(3), VAR(1), VAR(3)),
                   CELLS(F3, G2, VAR(0), VAR(1), VAR(2), VAR(1)));
    check_both("M1, numbered", CELLS(F3, VAR(0), G2, VAR(1), VAR(0), VAR(2)),
               CELLS(F3, VAR(0), G2, VAR(1), VAR(0), VAR(2)));
    check_both("M2, numbered", CELLS(F3, G2, VAR(0), VAR(1), VAR(2), VAR(1)),
               CELLS(F3, G2, VAR(0), VAR(1), VAR(2), VAR(1)));
    check_both("M3 [1, 2, 3]", CELLS(PAIR, INT(1), PAIR, INT(2), PAIR, INT(3), NIL),
               CELLS(BLIST, INT(1), INT(2), ELIST, INT(3)));
    check_both("M4 [1, 2 | 3]", CELLS(PAIR, INT(1), PAIR, INT(2), INT(3)),
               CELLS(BLIST, INT(1), INT(2), EPAIR, INT(3)));
    check_both("M5 [1, [2, 3], []]",
               CELLS(PAIR, INT(1), PAIR, PAIR, INT(2), PAIR, INT(3), NIL, PAIR, NIL, NIL),
               CELLS(BLIST, INT(1), BLIST, INT(2), ELIST, INT(3), ELIST, NIL));
    check_both("M6 [1 | 2]", CELLS(PAIR, INT(1), INT(2)), CELLS(BLIST, INT(1), EPAIR, INT(2)));
    check_refused("M7 BLIST EPAIR 1", tables_expand, CELLS(BLIST, EPAIR, INT(1)), 13);
    check_refused("M8 BLIST 1 EPAIR []", tables_expand, CELLS(BLIST, INT(1), EPAIR, NIL), 13);
}

static void test_other_terms(void)
{
    check_both("[]", CELLS(NIL), CELLS(NIL));
    check_both("X", CELLS(VAR(0)), CELLS(VAR(0)));
    check_both("largest integer", CELLS(INT(0x0fffffff)), CELLS(INT(0x0fffffff)));
    check_both("largest atom", CELLS(ATOM(0x0fffffff)), CELLS(ATOM(0x0fffffff)));
    check_both("functor named 0", CELLS(UINT32_C(0x40000001), INT(0)),
               CELLS(UINT32_C(0x40000001), INT(0)));
    check_both("[1]", CELLS(PAIR, INT(1), NIL), CELLS(BLIST, ELIST, INT(1)));
    check_both("[[]]", CELLS(PAIR, NIL, NIL), CELLS(BLIST, ELIST, NIL));
    check_both("[[], []]", CELLS(PAIR, NIL, PAIR, NIL, NIL), CELLS(BLIST, NIL, ELIST, NIL));
    check_both("[[[1]]]", CELLS(PAIR, PAIR, PAIR, INT(1), NIL, NIL, NIL),
               CELLS(BLIST, ELIST, BLIST, ELIST, BLIST, ELIST, INT(1)));
    check_both("[[1], 2]", CELLS(PAIR, PAIR, INT(1), NIL, PAIR, INT(2), NIL),
               CELLS(BLIST, BLIST, ELIST, INT(1), ELIST, INT(2)));
    check_both("[X | X]", CELLS(PAIR, VAR(0), VAR(0)), CELLS(BLIST, VAR(0), EPAIR, VAR(0)));
    check_both("[1 | g([2], 3)]", CELLS(PAIR, INT(1), G2, PAIR, INT(2), NIL, INT(3)),
               CELLS(BLIST, INT(1), EPAIR, G2, BLIST, ELIST, INT(2), INT(3)));
    check_both("[g(1, []), h([])]", CELLS(PAIR, G2, INT(1), NIL, PAIR, H1, NIL, NIL),
               CELLS(BLIST, G2, INT(1), NIL, ELIST, H1, NIL));
    check_both("g([1 | 2], [])", CELLS(G2, PAIR, INT(1), INT(2), NIL),
               CELLS(G2, BLIST, INT(1), EPAIR, INT(2), NIL));
    check_accepted("names as large as they come", tables_compact,
                   CELLS(G2, VAR(0x0fffffff), VAR(0x0ffffffe)), CELLS(G2, VAR(0), VAR(1)));
    check_accepted("names that differ in their highest bit", tables_compact,
                   CELLS(F3, VAR(1), VAR(0x08000001), VAR(1)), CELLS(F3, VAR(0), VAR(1), VAR(0)));
}

/* A functor of each arity, named as highly as it can be, with one argument too few, all, and one too many. */
static void test_arities(void)
{
    uint32_t most_arity = edition == TABLES_EDITION_1 ? 15 : 255;
    for (uint32_t arity = 1; arity <= most_arity; arity++) {
        struct cells term = CELLS(UINT32_C(0x50000000) - 1 - most_arity + arity);
        for (uint32_t i = 1; i < arity; i++)
            append(&term, INT(i));
        check_refused("an argument too few", tables_compact, term, 3);
        check_refused("an argument too few", tables_expand, term, 13);
        append(&term, NIL);
        check_both("a functor of each arity", term, term);
        append(&term, NIL);
        check_refused("an argument too many", tables_compact, term, arity == 255 ? 4 : 3);
        check_refused("an argument too many", tables_expand, term, 13);
    }
}

/* Refusals of one cell or a few */

static void test_bad_terms(void)
{
    const uint32_t bad_cells[] = {
        0,          0x0fffffff, 0x40000000, F0,         LAST_0,     0x50000001, 0x5fffffff,
        BLIST,      ELIST,      EPAIR,      0x60000001, 0x90000000, 0xa0000000, 0xb0000000,
        0xc0000000, 0xd0000000, 0xe0000000, 0xf0000000, 0xffffffff};
    for (size_t i = 0; i < sizeof bad_cells / sizeof *bad_cells; i++) {
        check_refused("a bad cell", tables_compact, CELLS(bad_cells[i]), 3);
        check_refused("a bad argument", tables_compact, CELLS(G2, INT(1), bad_cells[i]), 3);
        check_refused("a bad element", tables_compact, CELLS(PAIR, bad_cells[i], NIL), 3);
        check_refused("a bad tail", tables_compact, CELLS(PAIR, INT(1), bad_cells[i]), 3);
    }
    check_refused("a pair with a payload", tables_compact, CELLS(PAIR + 1, INT(1), NIL), 3);
    check_refused("a second pair with a payload", tables_compact,
                  CELLS(PAIR, INT(1), PAIR + 1, INT(1), NIL), 3);
    check_refused("a pair alone", tables_compact, CELLS(PAIR), 3);
    check_refused("a pair without tail", tables_compact, CELLS(PAIR, INT(1)), 3);
    check_refused("a functor alone", tables_compact, CELLS(G2), 3);
    check_refused("two functors alone", tables_compact, CELLS(WIDEST, G2), 3);
    check_refused("an argument missing", tables_compact, CELLS(F3, INT(1), INT(2)), 3);
    check_refused("a cell left over", tables_compact, CELLS(INT(1), INT(2)), 3);
    check_refused("a cell left over behind []", tables_compact, CELLS(PAIR, INT(1), NIL, NIL), 3);
    check_refused("compact form compacted", tables_compact, CELLS(BLIST, INT(1), ELIST, INT(2)), 3);
}

static void test_bad_forms(void)
{
    const uint32_t bad_tokens[] = {
        0,          0x0fffffff, 0x40000000, F0,         LAST_0,     PAIR,       0x50000001,
        0x60000001, ELIST,      0x70000001, EPAIR,      0x80000001, 0x90000000, 0xf0000000,
        0xffffffff, VAR(1),     VAR(31),    VAR(32),    VAR(0x0fffffff)};
    for (size_t i = 0; i < sizeof bad_tokens / sizeof *bad_tokens; i++) {
        check_refused("a bad token", tables_expand, CELLS(bad_tokens[i]), 13);
        check_refused("a bad argument", tables_expand, CELLS(G2, INT(1), bad_tokens[i]), 13);
        check_refused("a bad last element", tables_expand, CELLS(BLIST, ELIST, bad_tokens[i]), 13);
        check_refused("a bad tail", tables_expand, CELLS(BLIST, INT(1), EPAIR, bad_tokens[i]), 13);
    }
    check_refused("BLIST with a payload", tables_expand, CELLS(BLIST + 1, INT(1), ELIST, INT(2)), 13);
    check_refused("ELIST with a payload", tables_expand, CELLS(BLIST, INT(1), ELIST + 1, INT(2)), 13);
    check_refused("EPAIR with a payload", tables_expand, CELLS(BLIST, INT(1), EPAIR + 1, INT(2)), 13);
    check_refused("ELIST ELIST", tables_expand, CELLS(BLIST, ELIST, ELIST, INT(1)), 13);
    check_refused("EPAIR EPAIR", tables_expand, CELLS(BLIST, INT(1), EPAIR, EPAIR, INT(1)), 13);
    check_refused("ELIST EPAIR", tables_expand, CELLS(BLIST, INT(1), ELIST, EPAIR, INT(1)), 13);
    check_refused("BLIST alone", tables_expand, CELLS(BLIST), 13);
    check_refused("BLIST without mark", tables_expand, CELLS(BLIST, INT(1), INT(2)), 13);
    check_refused("ELIST at the end", tables_expand, CELLS(BLIST, INT(1), ELIST), 13);
    check_refused("EPAIR at the end", tables_expand, CELLS(BLIST, INT(1), EPAIR), 13);
    check_refused("BLIST BLIST", tables_expand, CELLS(BLIST, BLIST), 13);
    check_refused("EPAIR and a list", tables_expand, CELLS(BLIST, INT(1), EPAIR, BLIST, ELIST, INT(2)), 13);
    check_refused("a closing []", tables_expand, CELLS(BLIST, INT(1), ELIST, INT(2), NIL), 13);
    check_refused("a token left over", tables_expand, CELLS(INT(1), INT(1)), 13);
    check_refused("an argument missing", tables_expand, CELLS(F3, INT(1), INT(2)), 13);
    check_refused("two functors alone", tables_expand, CELLS(WIDEST, G2), 13);
    check_refused("pair form expanded", tables_expand, CELLS(PAIR, INT(1), NIL), 13);
    check_refused("a number skipped", tables_expand, CELLS(F3, VAR(0), VAR(2), VAR(1)), 13);
    check_refused("numbers swapped", tables_expand, CELLS(G2, VAR(1), VAR(0)), 13);
}

/* Limits */

/* A flat list of so many elements, ending in [] or in an integer, in pair form. */
static struct cells list_term(size_t elements, uint32_t tail)
{
    struct cells term = no_cells;
    for (size_t i = 0; i < elements; i++) {
        append(&term, PAIR);
        append(&term, INT((uint32_t)i));
    }
    append(&term, tail);
    return term;
}

/* The same in compact form. */
static struct cells list_form(size_t elements, uint32_t tail)
{
    struct cells form = no_cells;
    append(&form, BLIST);
    for (size_t i = 0; i < elements; i++) {
        if (i + 1 == elements && tail == NIL)
            append(&form, ELIST);
        append(&form, INT((uint32_t)i));
    }
    if (tail != NIL) {
        append(&form, EPAIR);
        append(&form, tail);
    }
    return form;
}

/* The argument of so many functors h/1. */
static struct cells wrapped(size_t functors, struct cells inner)
{
    struct cells outer = no_cells;
    for (size_t i = 0; i < functors; i++)
        append(&outer, H1);
    for (size_t i = 0; i < inner.count; i++)
        append(&outer, inner.cell[i]);
    return outer;
}

/* The same cell again and again. */
static struct cells repeated(size_t count, uint32_t cell)
{
    struct cells row = no_cells;
    while (row.count < count)
        append(&row, cell);
    return row;
}

/* [[[2 | 2] | 2] | 2]: the term that grows most when compacted. */
static struct cells growing_term(size_t depth)
{
    struct cells term = no_cells;
    for (size_t i = 0; i < depth; i++)
        append(&term, PAIR);
    for (size_t i = 0; i <= depth; i++)
        append(&term, INT(2));
    return term;
}

static struct cells growing_form(size_t depth)
{
    struct cells form = no_cells;
    for (size_t i = 0; i < depth; i++)
        append(&form, BLIST);
    append(&form, INT(2));
    for (size_t i = 0; i < depth; i++) {
        append(&form, EPAIR);
        append(&form, INT(2));
    }
    return form;
}

static void test_lengths(void)
{
    check_both("256 cells, ending in []", wrapped(1, list_term(127, NIL)), wrapped(1, list_form(127, NIL)));
    check_both("256 cells, ending in 5", wrapped(1, list_term(127, INT(5))),
               wrapped(1, list_form(127, INT(5))));
    check_both("256 cells, functors", wrapped(255, CELLS(INT(1))), wrapped(255, CELLS(INT(1))));
    check_both("383 tokens", wrapped(1, growing_term(127)), wrapped(1, growing_form(127)));
    check_refused("257 cells", tables_compact, list_term(128, NIL), 4);
    check_refused("257 cells, functors", tables_compact, wrapped(256, CELLS(INT(1))), 4);
    check_refused("600 cells", tables_compact, wrapped(599, CELLS(INT(1))), 4);
    check_refused("expansion of 257 cells", tables_expand, list_form(128, NIL), 13);
    check_refused("expansion of 257 cells, ending in 5", tables_expand, list_form(128, INT(5)), 13);
    check_refused("expansion of 257 cells, functors", tables_expand, wrapped(256, CELLS(INT(1))), 13);
    check_refused("384 tokens", tables_expand, wrapped(2, growing_form(127)), 13);
    check_refused("385 tokens", tables_expand, growing_form(128), 13);
    check_refused("383 times BLIST", tables_expand, repeated(383, BLIST), 13);
    check_refused("600 times BLIST", tables_expand, repeated(600, BLIST), 13);
    check_refused("256 times a pair", tables_compact, repeated(256, PAIR), 3);
    check_refused("no cells", tables_compact, no_cells, 3);
    check_refused("no tokens", tables_expand, no_cells, 13);
}

/* A list of variables named 0, step, 2 * step and so on, ending in one more cell. */
static struct cells variable_list(uint32_t variables, uint32_t step, uint32_t tail)
{
    struct cells term = no_cells;
    for (uint32_t i = 0; i < variables; i++) {
        append(&term, PAIR);
        append(&term, VAR(step * i));
    }
    append(&term, tail);
    return term;
}

static struct cells variable_form(uint32_t variables, uint32_t tail)
{
    struct cells form = no_cells;
    append(&form, BLIST);
    for (uint32_t i = 0; i < variables; i++)
        append(&form, VAR(i));
    append(&form, EPAIR);
    append(&form, tail);
    return form;
}

static void test_variables(void)
{
    check_both("32 variables", variable_list(32, 1, ATOM(1)), variable_form(32, ATOM(1)));
    check_both("32 variables, the last again", variable_list(32, 1, VAR(31)), variable_form(32, VAR(31)));
    check_accepted("32 variables, far names", tables_compact, variable_list(32, 7777, VAR(0)),
                   variable_form(32, VAR(0)));
    check_refused("33 variables", tables_compact, variable_list(33, 1, ATOM(1)), 5);
    check_refused("33 variables, the last as tail", tables_compact, variable_list(32, 1, VAR(32)), 5);
    check_refused("100 variables", tables_compact, variable_list(100, 3, NIL), 5);
    check_refused("33 variables in a form", tables_expand, variable_form(33, ATOM(1)), 13);
    check_refused("33rd variable as tail", tables_expand, variable_form(32, VAR(32)), 13);
}

/* Order of refusals; check_refused has seen to the byte count and to a lack of room. */

static void test_order(void)
{
    struct cells long_and_bad = variable_list(128, 1, BLIST);
    struct cells bad_at_end = variable_list(100, 1, BLIST);
    struct cells bad_at_start = variable_list(100, 1, NIL);
    struct cells left_over = variable_list(100, 1, NIL);
    bad_at_start.cell[0] = BLIST;
    append(&left_over, NIL);
    check_refused("4 before 3 and 5", tables_compact, long_and_bad, 4);
    check_refused("4 before 5", tables_compact, variable_list(128, 1, NIL), 4);
    check_refused("3 at the end before 5", tables_compact, bad_at_end, 3);
    check_refused("3 at the start before 5", tables_compact, bad_at_start, 3);
    check_refused("left over before 5", tables_compact, left_over, 3);
    check_refused("5 before 12", tables_compact, variable_list(33, 1, NIL), 5);
}

static void test_null(void)
{
    uint8_t integer[CELL_BYTES] = {1, 0, 0, 0x30};
    uint8_t out[CELL_BYTES] = {1, 2, 3, 4};
    check(tables_compact(NULL, 0, NULL, 0, edition) == REFUSED(3), "compact", "NULL for both");
    check(tables_expand(NULL, 0, NULL, 0, edition) == REFUSED(13), "expand", "NULL for both");
    check(tables_compact(NULL, 0, NULL, 0, 0) == REFUSED(1), "compact", "NULL and no edition");
    check(tables_expand(NULL, 0, NULL, 0, 3) == REFUSED(1), "expand", "NULL and no edition");
    check(tables_compact(NULL, 0, out, sizeof out, edition) == REFUSED(3), "compact", "NULL for in");
    check(tables_expand(NULL, 0, out, sizeof out, edition) == REFUSED(13), "expand", "NULL for in");
    check(memcmp(out, (uint8_t[]){1, 2, 3, 4}, sizeof out) == 0, "NULL for in", "bytes of out");
    check(tables_compact(integer, sizeof integer, NULL, 0, edition) == REFUSED(12), "compact",
          "NULL for out");
    check(tables_expand(integer, sizeof integer, NULL, 0, edition) == REFUSED(12), "expand",
          "NULL for out");
}

/* The names that the header gives. */
static void test_names(void)
{
    check(TABLES_CELL(TABLES_VARIABLE, 7) == VAR(7), "header", "variable");
    check(TABLES_CELL(TABLES_ATOM, 5) == ATOM(5), "header", "atom");
    check(TABLES_CELL(TABLES_INTEGER, 5) == INT(5), "header", "integer");
    check(TABLES_FUNCTOR_CELL(edition, 1, 3) == F3, "header", "functor");
    check(TABLES_EMPTY_LIST == NIL && TABLES_PAIR_CELL == PAIR, "header", "list cells");
    check(TABLES_CELL(TABLES_BLIST, 0) == BLIST, "header", "BLIST");
    check(TABLES_CELL(TABLES_ELIST, 0) == ELIST, "header", "ELIST");
    check(TABLES_CELL(TABLES_EPAIR, 0) == EPAIR, "header", "EPAIR");
    check(TABLES_KIND(F3) == TABLES_FUNCTOR && TABLES_PAYLOAD(F3) == functor(0x13, 0x103), "header",
          "kind and payload");
    check(tables_converter_refused_by(REFUSED(13)) == TABLES_REFUSED_FORM, "header", "refusal");
}

/* All of it in one edition. */
static void test_edition(uint32_t tested)
{
    edition = tested;
    test_published_terms();
    test_other_terms();
    test_arities();
    test_bad_terms();
    test_bad_forms();
    test_lengths();
    test_variables();
    test_order();
    test_null();
    test_names();
}

int main(void)
{
    for (uint32_t tested = 1; tested <= LAST_EDITION; tested++)
        test_edition(tested);
    printf("converters_test: %d checks, %d failed\n", checks, failures);
    return failures != 0;
}
