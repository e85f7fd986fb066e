/* A running table carried over from edition 1 to edition 2, while a reader is in the middle of its answers. */
#include "../include/tables.h"

#include <stdio.h>
#include <stdlib.h>

/*
 * The site's engine was built for edition 1: junction predicates of up to 15
 * arguments. A new junction has 40, which edition 2 has room for, and the site
 * cannot stop. So the table is carried over as it stands: the reader of open
 * answers goes on from the last answer that it has read, and nothing is entered
 * or read a second time.
 */

/* The engine's own numbers. Places and belts are atoms, numbered from 1. */
enum { FREE = 1, JUNCTION = 2, JUNCTION_ARGUMENTS = 40 };

enum { NODES = 100, SUBGOALS = 10, ANSWERS = 20 };

static uint32_t narrow[TABLES_SPACE_CELLS(NODES, SUBGOALS, ANSWERS)];
static uint32_t wide[TABLES_SPACE_CELLS(4 * NODES, 2 * SUBGOALS, 2 * ANSWERS)];

enum {
    NARROW_CELLS = sizeof narrow / sizeof *narrow,
    WIDE_CELLS = sizeof wide / sizeof *wide
};

static void stop(const char *what, const char *why)
{
    fprintf(stderr, "%s: %s\n", what, why);
    exit(1);
}

/* Every word passes here: a refusal ends the program with a sentence. */
static uint64_t checked(const char *call, uint64_t word)
{
    if (tables_refused_by(word) != 0)
        stop(call, tables_refusal_text(tables_refused_by(word)));
    return word;
}

/* free(P, B) asks for the belts B that are free at place P. */
static uint32_t call_free(uint32_t *space, size_t cells, uint32_t edition, uint32_t place)
{
    const uint32_t goal[] = {tables_functor_cell(edition, FREE, 2), tables_cell(TABLES_ATOM, place),
                             TABLES_CELL(TABLES_VARIABLE, 0)};
    return tables_value(checked("tables_call", tables_call(space, cells, goal, 3)));
}

static void answer_belt(uint32_t *space, size_t cells, uint32_t subgoal, uint32_t belt)
{
    const uint32_t term[] = {tables_cell(TABLES_ATOM, belt)};
    checked("tables_answer", tables_answer(space, cells, subgoal, term, 1));
}

/* Prints the answers after the one that was read last, and gives the last one. */
static uint32_t read_on(const uint32_t *space, size_t cells, uint32_t subgoal, uint32_t last)
{
    uint32_t out[TABLES_TERM_CELLS];
    for (;;) {
        uint64_t word = checked("tables_next", tables_next(space, cells, subgoal, last));
        if (tables_what(word) != TABLES_AT) {
            printf("  %s\n", tables_what(word) == TABLES_NO_MORE ? "no more" : "none yet");
            return last;
        }
        last = tables_value(word);
        checked("tables_load", tables_load(space, cells, last, out, TABLES_TERM_CELLS));
        printf("  answer %u: belt %u\n", (unsigned)last, (unsigned)TABLES_PAYLOAD(out[0]));
    }
}

/* junction(P1, .., P40), all of them variables: more arguments than edition 1 has. */
static void call_junction(void)
{
    uint32_t goal[1 + JUNCTION_ARGUMENTS];
    goal[0] = tables_functor_cell(TABLES_EDITION_2, JUNCTION, JUNCTION_ARGUMENTS);
    for (uint32_t i = 0; i < JUNCTION_ARGUMENTS; i++)
        goal[1 + i] = tables_cell(TABLES_VARIABLE, i % TABLES_TERM_VARIABLES);
    uint64_t word = tables_call(wide, WIDE_CELLS, goal, 1 + JUNCTION_ARGUMENTS);
    printf("the new junction is subgoal %u\n", (unsigned)tables_value(checked("tables_call", word)));
}

int main(void)
{
    checked("tables_fresh",
            tables_fresh(narrow, NARROW_CELLS, NODES, SUBGOALS, ANSWERS, TABLES_EDITION_1));
    uint32_t first = call_free(narrow, NARROW_CELLS, TABLES_EDITION_1, 1);
    uint32_t second = call_free(narrow, NARROW_CELLS, TABLES_EDITION_1, 2);
    answer_belt(narrow, NARROW_CELLS, first, 11);
    answer_belt(narrow, NARROW_CELLS, second, 21);
    answer_belt(narrow, NARROW_CELLS, first, 12);
    checked("tables_finish", tables_finish(narrow, NARROW_CELLS, second));
    printf("in edition 1, at place 1\n");
    uint32_t last = read_on(narrow, NARROW_CELLS, first, 0);

    /* Carried over: the same numbers and states, with room for more. */
    checked("tables_carry", tables_carry(narrow, NARROW_CELLS, wide, WIDE_CELLS, 4 * NODES,
                                         2 * SUBGOALS, 2 * ANSWERS));

    /* The engine makes its functor cells for edition 2 from here on; the call is known. */
    if (call_free(wide, WIDE_CELLS, TABLES_EDITION_2, 1) != first)
        stop("tables_call", "a subgoal changed its number");
    answer_belt(wide, WIDE_CELLS, first, 13);
    printf("in edition 2, at place 1, after answer %u\n", (unsigned)last);
    read_on(wide, WIDE_CELLS, first, last);
    printf("at place 2, from the start\n");
    read_on(wide, WIDE_CELLS, second, 0);
    call_junction();
    if (fflush(stdout) != 0 || ferror(stdout) != 0) /* what printf has taken may fail only now */
        stop("standard output", "it could not be written");
    return 0;
}
