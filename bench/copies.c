/* Times tables_carry and tables_grow against the same in plain C, and a copy against entering its terms, in one run. */
#define _POSIX_C_SOURCE 200809L

#include "plain_store.h"
#include "workloads.h"

#include <float.h>
#include <stdio.h>
#include <stdlib.h>
#include <string.h>
#include <time.h>

_Static_assert(EDITION == TABLES_EDITION_1, "what is carried over is of edition 1");

enum { LEAST_ROUNDS = 9, ROOM = 2 }; /* capacities afterwards: so many times as large */

/* How long a row is timed, all sides together, unless the fewest rounds take longer. */
static const double nanoseconds_per_row = 4e9;

enum side { OURS, PLAIN, ENTERING, SIDES };

/* A table as it stands, and the space into which it is carried, or in which it grows. */
struct table {
    const struct workload *workload;
    uint32_t *space, *other;
    size_t other_cells;
    uint32_t nodes, subgoals, answers; /* the new capacities */
};

static void stop(const struct workload *workload, const char *why)
{
    fprintf(stderr, "%s: %s\n", workload->name, why);
    exit(1);
}

static void must_be(const struct workload *workload, uint32_t what, uint64_t word)
{
    if (tables_what(word) != what)
        stop(workload, "a call did not answer what it must");
}

/* Enters all terms of a workload into a fresh space. */
static void enter(const struct workload *workload, uint32_t *space)
{
    size_t cells = workload->space_cells;
    must_be(workload, TABLES_DONE,
            tables_fresh(space, cells, workload->nodes, subgoal_capacity(workload),
                         answer_capacity(workload), EDITION));
    if (workload->goal_cells > 0)
        must_be(workload, TABLES_NEW,
                tables_call(space, cells, workload->goal, workload->goal_cells));
    for (size_t item = 0; item < ITEMS; item++) {
        const uint32_t *term = term_at(workload, item);
        must_be(workload, TABLES_NEW,
                workload->goal_cells > 0
                    ? tables_answer(space, cells, 1, term, workload->term_cells)
                    : tables_call(space, cells, term, workload->term_cells));
    }
}

static struct table make_table(const struct workload *workload)
{
    struct table table = {
        .workload = workload,
        .nodes = ROOM * workload->nodes,
        .subgoals = ROOM * subgoal_capacity(workload),
        .answers = ROOM * answer_capacity(workload),
    };
    table.other_cells = TABLES_SPACE_CELLS(table.nodes, table.subgoals, table.answers);
    table.space = allocate(workload->space_cells, sizeof *table.space);
    table.other = allocate(table.other_cells, sizeof *table.other);
    enter(workload, table.space);
    return table;
}

static void free_table(struct table *table)
{
    free(table->space);
    free(table->other);
}

static double now(void)
{
    struct timespec time;
    clock_gettime(CLOCK_PROCESS_CPUTIME_ID, &time);
    return (double)time.tv_sec * 1e9 + (double)time.tv_nsec;
}

/* One carrying over by a side, or the entering of the same terms. */
static double time_carry(enum side side, const struct table *table)
{
    size_t cells = table->workload->space_cells;
    double start = now();
    if (side == ENTERING)
        enter(table->workload, table->space);
    else
        must_be(table->workload, TABLES_DONE,
                (side == OURS ? tables_carry : plain_carry)(
                    table->space, cells, table->other, table->other_cells, table->nodes,
                    table->subgoals, table->answers));
    return now() - start;
}

/* One growing by a side, of the table as it was entered. */
static double time_grow(enum side side, const struct table *table)
{
    memcpy(table->other, table->space, table->workload->space_cells * sizeof *table->other);
    double start = now();
    must_be(table->workload, TABLES_DONE,
            (side == OURS ? tables_grow : plain_grow)(table->other, table->other_cells,
                                                      table->nodes, table->subgoals,
                                                      table->answers));
    return now() - start;
}

/* The best time of each of the first `sides` sides, in turn. */
static void time_sides(double (*timed)(enum side, const struct table *), int sides,
                       const struct table *table, double best[SIDES])
{
    double begun = now();
    for (int side = 0; side < SIDES; side++)
        best[side] = DBL_MAX;
    for (int round = 0; round < LEAST_ROUNDS || now() - begun < nanoseconds_per_row; round++)
        for (int side = 0; side < sides; side++) {
            double elapsed = timed(side, table);
            if (elapsed < best[side])
                best[side] = elapsed;
        }
}

/* Both sides leave the same cells. */
static void compare_sides(double (*timed)(enum side, const struct table *),
                          const struct table *table)
{
    uint32_t *ours = allocate(table->other_cells, sizeof *ours);
    timed(OURS, table);
    memcpy(ours, table->other, table->other_cells * sizeof *ours);
    timed(PLAIN, table);
    if (memcmp(ours, table->other, table->other_cells * sizeof *ours) != 0)
        stop(table->workload, "the sides leave different cells");
    free(ours);
}

static void print_row(FILE *tsv, const char *what, const struct table *table,
                      const double best[SIDES])
{
    double ratio = best[OURS] / best[PLAIN];
    double entering = best[ENTERING] == DBL_MAX ? 0 : best[OURS] / best[ENTERING];
    printf("%-6s %-36s  %8u  %9.3f  %9.3f  %5.2f  %5.2f\n", what, table->workload->name,
           (unsigned)table->workload->nodes, best[OURS] / 1e6, best[PLAIN] / 1e6, ratio, entering);
    if (tsv != NULL)
        fprintf(tsv, "%s\t%s\t%u\t%.3f\t%.3f\t%.2f\t%.2f\n", what, table->workload->name,
                (unsigned)table->workload->nodes, best[OURS] / 1e6, best[PLAIN] / 1e6, ratio,
                entering);
}

static void time_table(FILE *tsv, const struct workload *workload)
{
    struct table table = make_table(workload);
    double best[SIDES];
    compare_sides(time_carry, &table);
    compare_sides(time_grow, &table);
    time_sides(time_carry, SIDES, &table, best);
    print_row(tsv, "carry", &table, best);
    time_sides(time_grow, ENTERING, &table, best);
    print_row(tsv, "grow", &table, best);
    free_table(&table);
}

/* The file named by the first argument receives the table as tab-separated values. */
int main(int argc, char **argv)
{
    struct workload workloads[] = {
        subgoal_workload(),
        pair_workload(),
        list_workload("lists of 60, first element different", FIRST_DIFFERENT, EMPTY_ENDING, 60),
        list_workload("lists of 60, last element different", LAST_DIFFERENT, EMPTY_ENDING, 60),
    };
    FILE *tsv = argc > 1 ? fopen(argv[1], "w") : NULL;
    if (argc > 1 && tsv == NULL) {
        perror(argv[1]);
        return 1;
    }
    printf("%-6s %-36s  %8s  %9s  %9s  ratio  to entering\n", "", "", "nodes", "ours, ms",
           "plain, ms");
    if (tsv != NULL)
        fprintf(tsv, "call\ttable\tnodes\tours ms\tplain ms\tratio\tto entering\n");
    for (size_t i = 0; i < sizeof workloads / sizeof *workloads; i++)
        time_table(tsv, &workloads[i]);
    if (tsv != NULL && fclose(tsv) != 0) {
        perror(argv[1]);
        return 1;
    }
    return 0;
}
