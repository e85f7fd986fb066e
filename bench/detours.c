/* Times a search for detours against the same in plain C, in one run. */
#define _POSIX_C_SOURCE 200809L

#include "../include/tables.h"
#include "plain_store.h"

#include <float.h>
#include <stdio.h>
#include <stdlib.h>
#include <string.h>
#include <time.h>

enum {
    EDITION = TABLES_EDITION_2,
    GOALS = 6,
    WAYS = 20, /* the answers of a goal */
    NODES = 500,
    LEAST_ROUNDS = 5
};

/* How long a row is timed, both sides together, unless the fewest rounds take longer. */
static const double nanoseconds_per_row = 4e9;

enum side { OURS, PLAIN, SIDES };

static uint32_t space[TABLES_SPACE_CELLS(NODES, GOALS, GOALS * WAYS)];

enum { SPACE_CELLS = sizeof space / sizeof *space };

static uint32_t goals[GOALS];

static void stop(const char *why)
{
    fprintf(stderr, "%s\n", why);
    exit(1);
}

static uint32_t accepted(uint64_t word)
{
    if (tables_refused_by(word) != 0)
        stop(tables_refusal_text(tables_refused_by(word)));
    return tables_value(word);
}

/* Six goals of 20 answers each, no diverter in two of them: every choice is a whole one. */
static void make_goals(void)
{
    for (uint32_t g = 0; g < GOALS; g++) {
        const uint32_t goal[] = {tables_functor_cell(EDITION, 2, 3), tables_cell(TABLES_ATOM, g),
                                 tables_cell(TABLES_VARIABLE, 0),
                                 tables_cell(TABLES_VARIABLE, 1)};
        goals[g] = accepted(tables_call(space, SPACE_CELLS, goal, 4));
        for (uint32_t i = 0; i < WAYS; i++) {
            const uint32_t way[] = {tables_cell(TABLES_ATOM, g * WAYS + i),
                                    tables_cell(TABLES_INTEGER, 1 + (i * 7 + g) % WAYS)};
            accepted(tables_answer(space, SPACE_CELLS, goals[g], way, 2));
        }
        accepted(tables_finish(space, SPACE_CELLS, goals[g]));
    }
}

static double now(void)
{
    struct timespec time;
    clock_gettime(CLOCK_PROCESS_CPUTIME_ID, &time);
    return (double)time.tv_sec * 1e9 + (double)time.tv_nsec;
}

/* One search to its end. Answers how many choices it tried. */
static double search(enum side side)
{
    uint32_t out[TABLES_DETOUR_CELLS];
    uint64_t word = (side == OURS ? tables_detours : plain_detours)(
        space, SPACE_CELLS, goals, GOALS, UINT32_MAX, out, TABLES_DETOUR_CELLS);
    if (tables_what(word) != TABLES_DETOUR || out[1] != 1)
        stop("the search did not end");
    return out[0];
}

/* The best time of a choice on each side, the two in turn. */
static void time_sides(double best[SIDES])
{
    double begun = now();
    best[OURS] = best[PLAIN] = DBL_MAX;
    for (int round = 0; round < LEAST_ROUNDS || now() - begun < nanoseconds_per_row; round++)
        for (enum side side = OURS; side < SIDES; side++) {
            double start = now();
            double tried = search(side);
            double each = (now() - start) / tried;
            if (each < best[side])
                best[side] = each;
        }
}

/* Both sides say and write the same. */
static void compare_sides(void)
{
    uint32_t out[SIDES][TABLES_DETOUR_CELLS];
    for (uint32_t budget = 0; budget < 2000; budget += 7) {
        memset(out, 0, sizeof out);
        if (tables_detours(space, SPACE_CELLS, goals, GOALS, budget, out[OURS],
                           TABLES_DETOUR_CELLS) !=
                plain_detours(space, SPACE_CELLS, goals, GOALS, budget, out[PLAIN],
                              TABLES_DETOUR_CELLS) ||
            memcmp(out[OURS], out[PLAIN], sizeof out[OURS]) != 0)
            stop("the sides differ");
    }
}

/* The file named by the first argument receives the table as tab-separated values. */
int main(int argc, char **argv)
{
    FILE *tsv = argc > 1 ? fopen(argv[1], "w") : NULL;
    if (argc > 1 && tsv == NULL) {
        perror(argv[1]);
        return 1;
    }
    accepted(tables_fresh(space, SPACE_CELLS, NODES, GOALS, GOALS * WAYS, EDITION));
    make_goals();
    compare_sides();
    double best[SIDES];
    time_sides(best);
    printf("a choice, 6 goals of 20: ours %.2f ns, plain %.2f ns, ratio %.2f\n", best[OURS],
           best[PLAIN], best[OURS] / best[PLAIN]);
    if (tsv != NULL) {
        fprintf(tsv, "what\tours ns\tplain ns\tratio\n");
        fprintf(tsv, "a choice, 6 goals of 20\t%.2f\t%.2f\t%.2f\n", best[OURS], best[PLAIN],
                best[OURS] / best[PLAIN]);
        if (fclose(tsv) != 0) {
            perror(argv[1]);
            return 1;
        }
    }
    return 0;
}
