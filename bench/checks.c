/* Times the exported check of a whole space against the plain one, on the tables of the calls, in one run. */
#define _POSIX_C_SOURCE 200809L

#include "plain_store.h"
#include "workloads.h"

#include <float.h>
#include <stdio.h>
#include <stdlib.h>
#include <time.h>

enum { LEAST_ROUNDS = 9, DAMAGES = 4000 };

/* How long a row is timed, both sides together, unless the fewest rounds take longer. */
static const double nanoseconds_per_row = 6e9;

enum { OURS, PLAIN, SIDES };

static uint64_t check(int side, const uint32_t *space, size_t space_cells)
{
    return side == OURS ? tables_check(space, space_cells) : plain_check(space, space_cells);
}

static void stop(const struct workload *workload, const char *why)
{
    fprintf(stderr, "%s: %s\n", workload->name, why);
    exit(1);
}

static void must_be_new(const struct workload *workload, uint64_t word)
{
    if (tables_what(word) != TABLES_NEW)
        stop(workload, "a term was not entered");
}

/* The whole table of a workload. */
static uint32_t *make_table(const struct workload *workload)
{
    size_t cells = workload->space_cells;
    uint32_t *space = allocate(cells, sizeof *space);
    if (tables_what(tables_fresh(space, cells, workload->nodes, subgoal_capacity(workload),
                                 answer_capacity(workload), EDITION)) != TABLES_DONE)
        stop(workload, "no space");
    if (workload->goal_cells > 0)
        must_be_new(workload, tables_call(space, cells, workload->goal, workload->goal_cells));
    for (size_t item = 0; item < ITEMS; item++) {
        const uint32_t *term = term_at(workload, item);
        must_be_new(workload, workload->goal_cells > 0
                                  ? tables_answer(space, cells, 1, term, workload->term_cells)
                                  : tables_call(space, cells, term, workload->term_cells));
    }
    return space;
}

static uint32_t draw(uint64_t *state, uint32_t below)
{
    *state = *state * 6364136223846793005u + 1442695040888963407u;
    return (uint32_t)((*state >> 33) % below);
}

/* A number near the one that stands there, or one that stands elsewhere. */
static uint32_t other_number(const uint32_t *space, size_t cells, size_t at, uint64_t *state)
{
    uint32_t choice = draw(state, 4);
    if (choice == 0)
        return space[at] + 1;
    if (choice == 1)
        return space[at] - 1;
    return choice == 2 ? 0 : space[draw(state, (uint32_t)cells)];
}

/* Both sides name the same record, or none, whichever cell is damaged. Answers how many damages passed. */
static unsigned compare_damages(const struct workload *workload, uint32_t *space)
{
    uint64_t state = 1;
    unsigned passed = 0;
    size_t cells = workload->space_cells;
    for (int i = 0; i < DAMAGES; i++) {
        size_t at = draw(&state, (uint32_t)cells);
        uint32_t kept = space[at];
        space[at] = other_number(space, cells, at, &state);
        uint64_t word = tables_check(space, cells);
        if (word != plain_check(space, cells))
            stop(workload, "the sides differ on a damaged space");
        passed += tables_what(word) == TABLES_DONE;
        space[at] = kept;
    }
    return passed;
}

static double now(void)
{
    struct timespec time;
    clock_gettime(CLOCK_PROCESS_CPUTIME_ID, &time);
    return (double)time.tv_sec * 1e9 + (double)time.tv_nsec;
}

/* The best time of each side for a check that passes, the two in turn. */
static void time_sides(const struct workload *workload, const uint32_t *space, double best[SIDES])
{
    best[OURS] = best[PLAIN] = DBL_MAX;
    double begun = now();
    for (int round = 0; round < LEAST_ROUNDS || now() - begun < nanoseconds_per_row; round++)
        for (int side = 0; side < SIDES; side++) {
            double start = now();
            uint64_t word = check(side, space, workload->space_cells);
            double elapsed = now() - start;
            if (tables_what(word) != TABLES_DONE)
                stop(workload, "the table does not pass");
            if (elapsed < best[side])
                best[side] = elapsed;
        }
}

static void report(FILE *tsv, const struct workload *workload, const double best[SIDES])
{
    double ours = best[OURS] / workload->nodes, plain = best[PLAIN] / workload->nodes;
    printf("%-36s  %8u  %8.1f  %9.1f  %9.1f  %5.2f\n", workload->name, (unsigned)workload->nodes,
           best[OURS] / 1e6, ours, plain, ours / plain);
    if (tsv != NULL)
        fprintf(tsv, "%s\t%u\t%.1f\t%.1f\t%.1f\t%.2f\n", workload->name, (unsigned)workload->nodes,
                best[OURS] / 1e6, ours, plain, ours / plain);
}

/* The file named by the first argument receives the table as tab-separated values. */
int main(int argc, char **argv)
{
    struct workload workloads[] = {
        subgoal_workload(),
        pair_workload(),
        list_workload("lists of 60, first element different", FIRST_DIFFERENT, EMPTY_ENDING, 60),
        list_workload("lists of 60, last element different", LAST_DIFFERENT, EMPTY_ENDING, 60),
    };
    FILE *tsv = argc > 1 ? fopen(argv[1], "w") : NULL;
    if (argc > 1 && tsv == NULL) {
        perror(argv[1]);
        return 1;
    }
    printf("%-36s  %8s  %8s  %9s  %9s  ratio\n", "", "nodes", "ours, ms", "ours, ns", "plain, ns");
    if (tsv != NULL)
        fprintf(tsv, "table\tnodes\tours ms\tours ns a node\tplain ns a node\tratio\n");
    for (size_t i = 0; i < sizeof workloads / sizeof *workloads; i++) {
        uint32_t *space = make_table(&workloads[i]);
        double best[SIDES];
        time_sides(&workloads[i], space, best);
        report(tsv, &workloads[i], best);
        if (i == 1) {
            unsigned passed = compare_damages(&workloads[i], space);
            printf("%d damages of one cell: both say the same, %u pass\n", (int)DAMAGES, passed);
        }
        free(space);
        free(workloads[i].terms);
    }
    if (tsv != NULL && fclose(tsv) != 0) {
        perror(argv[1]);
        return 1;
    }
    return 0;
}
