/* Times a search among ever more siblings: answers of one subgoal that all stand below one node. */
#define _POSIX_C_SOURCE 200809L

#include "../include/tables.h"

#include <stdio.h>
#include <stdlib.h>
#include <time.h>

enum { ROUNDS = 5, TURNS = 30, MANY = 1000, MOST = 40000, SLICE = 10, MOST_SLICES = MOST / SLICE };

static const uint32_t sizes[] = {5000, 10000, 20000, 40000};

/* p(X), answered by integers: one node for each of them below the answer root. */
static const uint32_t goal[] = {TABLES_FUNCTOR_CELL(TABLES_EDITION_2, 1, 1),
                                TABLES_CELL(TABLES_VARIABLE, 0)};
enum { NODES = 4, SPACE_CELLS = TABLES_SPACE_CELLS(NODES + MOST, 1, MOST) };
static uint32_t space[SPACE_CELLS];

/* The best times of a table, in nanoseconds: entering by slices, and one call on the full table. */
struct times {
    double slice[MOST_SLICES];
    double first, last, next, load;
};

/* The time that this process had, so that other work on the machine counts little. */
static double now(void)
{
    struct timespec time;
    clock_gettime(CLOCK_PROCESS_CPUTIME_ID, &time);
    return 1e9 * (double)time.tv_sec + (double)time.tv_nsec;
}

/* Every word passes here. */
static uint32_t value(uint64_t word, enum tables_outcome due)
{
    if (tables_what(word) != (uint32_t)due) {
        fprintf(stderr, "not what is due: %s\n", tables_refusal_text(tables_refused_by(word)));
        exit(1);
    }
    return tables_value(word);
}

static void lower(double *best, double time)
{
    if (*best == 0 || time < *best)
        *best = time;
}

static uint32_t answer(uint32_t number, enum tables_outcome due)
{
    uint32_t term = tables_cell(TABLES_INTEGER, number);
    return value(tables_answer(space, SPACE_CELLS, 1, &term, 1), due);
}

static void enter(uint32_t size, struct times *times)
{
    value(tables_fresh(space, SPACE_CELLS, NODES + size, 1, size, TABLES_EDITION_2), TABLES_DONE);
    value(tables_call(space, SPACE_CELLS, goal, 2), TABLES_NEW);
    for (uint32_t from = 0; from < size; from += SLICE) {
        double start = now();
        for (uint32_t number = from; number < from + SLICE; number++)
            answer(number, TABLES_NEW);
        lower(&times->slice[from / SLICE], now() - start);
    }
}

/* Calls on the table with all its answers: an old one that stands first, one that stands last. */
static void ask(uint32_t size, struct times *times)
{
    for (int turn = 0; turn < TURNS; turn++) {
        uint32_t out[TABLES_TERM_CELLS];
        double start = now();
        for (int i = 0; i < MANY; i++)
            answer(0, TABLES_OLD);
        lower(&times->first, (now() - start) / MANY);
        start = now();
        answer(size - 1, TABLES_OLD);
        lower(&times->last, now() - start);
        start = now();
        for (uint32_t i = 0; i < MANY; i++)
            value(tables_next(space, SPACE_CELLS, 1, size - MANY - 1 + i), TABLES_AT);
        lower(&times->next, (now() - start) / MANY);
        start = now();
        for (uint32_t i = 0; i < MANY; i++)
            value(tables_load(space, SPACE_CELLS, size - i, out, TABLES_TERM_CELLS), TABLES_CELLS);
        lower(&times->load, (now() - start) / MANY);
    }
}

int main(void)
{
    static struct times times[sizeof sizes / sizeof *sizes];
    double before = 0;
    printf("answers  all new, ms  ratio  last old, us  first old, ns  next, ns  load, ns\n");
    for (size_t i = 0; i < sizeof sizes / sizeof *sizes; i++) {
        double all = 0;
        for (int round = 0; round < ROUNDS; round++) {
            enter(sizes[i], &times[i]);
            ask(sizes[i], &times[i]);
        }
        for (uint32_t slice = 0; slice < sizes[i] / SLICE; slice++)
            all += times[i].slice[slice];
        printf("%7u  %11.0f  %5.1f  %12.1f  %13.1f  %8.1f  %8.1f\n", (unsigned)sizes[i], all / 1e6,
               before == 0 ? 1 : all / before, times[i].last / 1e3, times[i].first, times[i].next,
               times[i].load);
        before = all;
    }
    return 0;
}
