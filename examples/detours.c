/* Three belts close at once: which diverter serves each, how long the bags take, and what a small budget is worth. */
#include "../include/tables.h"

#include <stdbool.h>
#include <stdio.h>
#include <stdlib.h>

/*
 * For each belt the table has a subgoal detour(Belt, Diverter, Minutes): over which
 * diverters its bags can go while it is closed, and how long that takes. A diverter
 * serves one belt at a time. The planner asks for the quickest way to serve all three
 * at once, first with a small budget, then with one that suffices.
 */

/* The layout. Belts and diverters are atoms, numbered from 1. */
enum { BELTS = 3, DIVERTERS = 4, DETOUR = 1 };

static const char *const belt_names[BELTS + 1] = {NULL, "belt 4", "belt 7", "belt 9"};
static const char *const diverter_names[DIVERTERS + 1] = {NULL, "north diverter", "south diverter",
                                                          "cellar diverter", "pier diverter"};

struct way {
    uint32_t belt, diverter, minutes;
};

static const struct way ways[] = {
    {1, 1, 9}, {1, 2, 4}, {1, 3, 12}, /* belt 4 */
    {2, 2, 3}, {2, 3, 8},             /* belt 7 */
    {3, 2, 5}, {3, 1, 6}, {3, 4, 7},  /* belt 9 */
};

enum { WAYS = sizeof ways / sizeof *ways };

enum { NODES = 100, SUBGOALS = 10, ANSWERS = 20, SMALL_BUDGET = 5 };

static uint32_t space[TABLES_SPACE_CELLS(NODES, SUBGOALS, ANSWERS)];

enum { SPACE_CELLS = sizeof space / sizeof *space };

/* The subgoal of each belt. */
static uint32_t goals[BELTS];

static void stop(const char *what, const char *why)
{
    fprintf(stderr, "%s: %s\n", what, why);
    exit(1);
}

/* Every word passes here: a refusal ends the program with a sentence. */
static uint64_t checked(const char *call, uint64_t word)
{
    if (tables_refused_by(word) != 0)
        stop(call, tables_refusal_text(tables_refused_by(word)));
    return word;
}

static void call_belt(uint32_t belt)
{
    const uint32_t goal[] = {TABLES_FUNCTOR_CELL(TABLES_EDITION_2, DETOUR, 3),
                             tables_cell(TABLES_ATOM, belt), TABLES_CELL(TABLES_VARIABLE, 0),
                             TABLES_CELL(TABLES_VARIABLE, 1)};
    uint64_t word = tables_call(space, SPACE_CELLS, goal, 4);
    goals[belt - 1] = tables_value(checked("tables_call", word));
}

/* Enters the ways of all belts, and finishes their subgoals: only then are the ways all there. */
static void enter_ways(void)
{
    for (uint32_t belt = 1; belt <= BELTS; belt++)
        call_belt(belt);
    for (size_t i = 0; i < WAYS; i++) {
        const uint32_t terms[] = {tables_cell(TABLES_ATOM, ways[i].diverter),
                                  tables_cell(TABLES_INTEGER, ways[i].minutes)};
        checked("tables_answer",
                tables_answer(space, SPACE_CELLS, goals[ways[i].belt - 1], terms, 2));
    }
    for (size_t i = 0; i < BELTS; i++)
        checked("tables_finish", tables_finish(space, SPACE_CELLS, goals[i]));
}

/* The diverter and the minutes of an answer. */
static void load_way(uint32_t answer, struct way *way)
{
    uint32_t terms[TABLES_TERM_CELLS];
    checked("tables_load", tables_load(space, SPACE_CELLS, answer, terms, TABLES_TERM_CELLS));
    way->diverter = TABLES_PAYLOAD(terms[0]);
    way->minutes = TABLES_PAYLOAD(terms[1]);
}

/* The least minutes of each belt by itself, added up: no choice for all of them takes less. */
static uint32_t least_of_each(void)
{
    uint32_t sum = 0;
    for (size_t i = 0; i < BELTS; i++) {
        uint32_t least = UINT32_MAX, answer = 0;
        uint64_t word;
        while (tables_what(word = checked("tables_next", tables_next(space, SPACE_CELLS, goals[i],
                                                                     answer))) == TABLES_AT) {
            struct way way;
            answer = tables_value(word);
            load_way(answer, &way);
            if (way.minutes < least)
                least = way.minutes;
        }
        sum += least;
    }
    return sum;
}

static void print_choice(const uint32_t *answers)
{
    for (size_t i = 0; i < BELTS; i++) {
        struct way way;
        load_way(answers[i], &way);
        printf("  %s over the %s, %u minutes\n", belt_names[i + 1], diverter_names[way.diverter],
               (unsigned)way.minutes);
    }
}

/* What the total is worth: all there is to know, or a bound on what is not known. */
static void print_worth(bool ended, uint32_t total)
{
    if (ended)
        printf("  The search ended: no other choice is quicker.\n");
    else
        printf("  The budget stopped the search: a quicker choice saves %u minutes at most.\n",
               (unsigned)(total - least_of_each()));
}

static void ask(uint32_t budget)
{
    uint32_t out[TABLES_DETOUR_CELLS];
    uint64_t word = checked("tables_detours", tables_detours(space, SPACE_CELLS, goals, BELTS,
                                                             budget, out, TABLES_DETOUR_CELLS));
    bool ended = out[1] == 1;
    printf("with a budget of %u: %u choices tried\n", (unsigned)budget, (unsigned)out[0]);
    if (tables_what(word) == TABLES_DETOUR) {
        printf("  %u minutes in all\n", (unsigned)tables_value(word));
        print_choice(out + 2);
        print_worth(ended, tables_value(word));
    } else {
        printf(ended ? "  The belts cannot all be served at once.\n"
                     : "  None found yet; ask again with a larger budget.\n");
    }
}

int main(void)
{
    checked("tables_fresh",
            tables_fresh(space, SPACE_CELLS, NODES, SUBGOALS, ANSWERS, TABLES_EDITION_2));
    enter_ways();
    ask(2);
    ask(SMALL_BUDGET);
    ask(1000);
    if (fflush(stdout) != 0 || ferror(stdout) != 0) /* what printf has taken may fail only now */
        stop("standard output", "it could not be written");
    return 0;
}
