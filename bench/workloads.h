/* The tables that are timed: those of the calls, and of the check. */
#ifndef WORKLOADS_H
#define WORKLOADS_H

#include "../include/tables.h"

enum { ITEMS = 8000 }; /* the subgoals or answers of a table */

/* The edition of the spaces. */
#ifndef BENCH_EDITION
#define BENCH_EDITION TABLES_EDITION_1
#endif

enum { EDITION = BENCH_EDITION };

/* The terms of one table: subgoals called, or answers to one subgoal. All have the same length. */
struct workload {
    const char *name;
    uint32_t goal[4]; /* the subgoal answered */
    size_t goal_cells; /* 0 where the terms themselves are called */
    size_t term_cells;
    uint32_t *terms;
    uint32_t nodes; /* used when all terms are in */
    size_t space_cells;
};

/* Cleared memory, or the program stops. */
void *allocate(size_t count, size_t size);

const uint32_t *term_at(const struct workload *workload, size_t item);
uint32_t subgoal_capacity(const struct workload *workload);
uint32_t answer_capacity(const struct workload *workload);

struct workload subgoal_workload(void);
struct workload pair_workload(void);

enum difference { FIRST_DIFFERENT, LAST_DIFFERENT };
enum ending { EMPTY_ENDING, TERM_ENDING };

uint32_t published_nodes(enum difference difference, uint32_t lists, uint32_t elements);
struct workload list_workload(const char *name, enum difference difference, enum ending ending,
                              uint32_t elements);

#endif
