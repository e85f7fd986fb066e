/* A table filled beforehand: every call of up to five cells over a layout's symbols, each once. */
#include "../include/tables.h"

#include <stdio.h>
#include <stdlib.h>
#include <string.h>

/*
 * A planner that knows its layout can enter every small call before the first bag
 * comes. The lists of these calls are walked three times: to see how large the table
 * must be, to enter each call, which must be new, and to call it again, when it must be
 * the subgoal that it was.
 *
 * The exit status is 1, with a message on standard error, if anything fails.
 */

enum { EDITION = TABLES_EDITION_2, MOST_CELLS = 5 };

/* The layout's symbols, in the order in which the lists take them, and their names. */
#define FUNCTOR(name, arity) TABLES_FUNCTOR_CELL(EDITION, name, arity)
#define ATOM(number) TABLES_CELL(TABLES_ATOM, number)

enum { SYMBOLS = 7 };

static const uint32_t symbols[SYMBOLS] = {
    FUNCTOR(1, 2), FUNCTOR(2, 3),    FUNCTOR(3, 1),     ATOM(1),
    ATOM(2),       TABLES_PAIR_CELL, TABLES_EMPTY_LIST,
};

static const char *const names[SYMBOLS] = {"belt", "reach", "closed", "sorter",
                                            "pier", "[ | ]", "[]"};

/* The table, how many subgoals it must have so far, and how many nodes it may need. */
static uint32_t *space;
static size_t space_cells;
static uint32_t subgoals, nodes = 1;

static void stop(const char *what, const char *why)
{
    fprintf(stderr, "%s: %s\n", what, why);
    exit(1);
}

/* Every word passes here: nothing is refused, so a refusal ends with a message. */
static uint64_t checked(const char *what, uint64_t word)
{
    if (tables_refused_by(word) != 0)
        stop(what, tables_refusal_text(tables_refused_by(word)));
    return word;
}

/* Walking a list */

typedef void visit(const uint32_t *term, size_t size);

/* Visits every call of so many cells, in order. Answers how many there are. */
static uint32_t walk(size_t size, visit *visit)
{
    uint32_t term[2][TABLES_LISTED_CELLS], count = 0;
    uint64_t word = tables_first_term(symbols, SYMBOLS, size, term[0], size, EDITION);
    for (int i = 0; tables_what(checked("a list", word)) == TABLES_CELLS; i = !i, count++) {
        visit(term[i], size);
        word = tables_term_after(symbols, SYMBOLS, size, term[i], size, term[!i], size, EDITION);
    }
    return count;
}

/* Printing terms: reach(sorter, X0, [pier | X0]) */

static const uint32_t *print_term(const uint32_t *cell);

/* Prints so many arguments. Answers the cell after them. */
static const uint32_t *print_arguments(const uint32_t *cell, uint32_t count, const char *between)
{
    for (uint32_t i = 0; i < count; i++) {
        printf("%s", i == 0 ? "" : between);
        cell = print_term(cell);
    }
    return cell;
}

static const char *name_of(uint32_t cell)
{
    size_t i = 0;
    while (i < SYMBOLS && symbols[i] != cell)
        i++;
    return i < SYMBOLS ? names[i] : "?";
}

/* Prints the term that begins at the cell. Answers the cell after it. */
static const uint32_t *print_term(const uint32_t *cell)
{
    switch (TABLES_KIND(*cell)) {
    case TABLES_VARIABLE:
        printf("X%u", (unsigned)TABLES_PAYLOAD(*cell));
        return cell + 1;
    case TABLES_PAIR:
        printf("[");
        cell = print_arguments(cell + 1, 2, " | ");
        printf("]");
        return cell;
    case TABLES_FUNCTOR:
        printf("%s(", name_of(*cell));
        cell = print_arguments(cell + 1, *cell & TABLES_MOST_ARITY(EDITION), ", ");
        printf(")");
        return cell;
    default:
        printf("%s", name_of(*cell));
        return cell + 1;
    }
}

/* The three walks */

static uint32_t first_call[MOST_CELLS], last_call[MOST_CELLS];

/*
 * Keeps the first and the last call, and adds the nodes that a call may need: those of
 * its longest form, and a root of answers.
 */
static void count_call(const uint32_t *term, size_t size)
{
    if (first_call[0] == 0)
        memcpy(first_call, term, size * sizeof *term);
    memcpy(last_call, term, size * sizeof *term);
    nodes += (uint32_t)((3 * size - 1) / 2 + 1);
}

static void enter_call(const uint32_t *term, size_t size)
{
    uint64_t word = checked("a call", tables_call(space, space_cells, term, size));
    if (tables_what(word) != TABLES_NEW || tables_value(word) != ++subgoals)
        stop("a call", "it was there before");
}

static void repeat_call(const uint32_t *term, size_t size)
{
    uint64_t word = checked("a call", tables_call(space, space_cells, term, size));
    if (tables_what(word) != TABLES_OLD_OPEN || tables_value(word) != ++subgoals)
        stop("a call", "it is another subgoal now");
}

/* Prints what the list of a size holds. Answers how many calls. */
static uint32_t count_size(size_t size)
{
    first_call[0] = 0;
    uint32_t count = walk(size, count_call);
    printf("size %u: %u calls", (unsigned)size, (unsigned)count);
    if (count > 0) {
        printf(", from ");
        print_term(first_call);
        printf(" to ");
        print_term(last_call);
    }
    printf("\n");
    return count;
}

/* Makes an empty table for so many calls. */
static void open_table(uint32_t calls)
{
    if (calls > TABLES_MOST_RECORDS || nodes > TABLES_MOST_RECORDS)
        stop("the table", "there are too many calls for one");
    space_cells = TABLES_SPACE_CELLS(nodes, calls, 0);
    space = malloc(space_cells * sizeof *space);
    if (space == NULL)
        stop("the table", "there is no memory for it");
    checked("the table", tables_fresh(space, space_cells, nodes, calls, 0, EDITION));
}

int main(void)
{
    uint32_t calls = 0, counts[3];
    for (size_t size = 1; size <= MOST_CELLS; size++)
        calls += count_size(size);
    open_table(calls);
    for (size_t size = 1; size <= MOST_CELLS; size++)
        walk(size, enter_call);
    subgoals = 0;
    for (size_t size = 1; size <= MOST_CELLS; size++)
        walk(size, repeat_call);
    checked("the counts", tables_counts(space, space_cells, counts, 3));
    if (subgoals != calls || counts[1] != calls)
        stop("the table", "it has not a subgoal for each call");
    printf("%u subgoals in %u nodes: each call was new once and is old now\n", (unsigned)counts[1],
           (unsigned)counts[0]);
    free(space);
    if (fflush(stdout) != 0 || ferror(stdout) != 0)
        stop("standard output", "it could not be written");
    return 0;
}
