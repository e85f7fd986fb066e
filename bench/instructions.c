/* Makes next, load and instance once for every answer of a table, by both sides: for callgrind to count. */
#include "../include/tables.h"
#include "plain_store.h"
#include "workloads.h"

#include <stdio.h>
#include <stdlib.h>
#include <string.h>

enum { OUT_CELLS = 300 };

/* A word that the two sides must share. */
static void same(uint64_t ours, uint64_t plain)
{
    if (ours == plain)
        return;
    fputs("the sides differ\n", stderr);
    exit(1);
}

static uint32_t *full_table(const struct workload *workload)
{
    uint32_t *space = allocate(workload->space_cells, sizeof *space);
    same(plain_fresh(space, workload->space_cells, workload->nodes, subgoal_capacity(workload),
                     answer_capacity(workload), EDITION),
         0);
    same(plain_call(space, workload->space_cells, workload->goal, workload->goal_cells),
         (uint64_t)TABLES_NEW << 32 | 1);
    for (uint32_t item = 0; item < ITEMS; item++)
        same(plain_answer(space, workload->space_cells, 1, term_at(workload, item), workload->term_cells),
             (uint64_t)TABLES_NEW << 32 | (item + 1));
    return space;
}

static void ask(const struct workload *workload, uint32_t *space)
{
    uint32_t out[OUT_CELLS] = {0}, plain_out[OUT_CELLS] = {0};
    size_t cells = workload->space_cells;
    for (uint32_t item = 0; item < ITEMS; item++) {
        same(tables_next(space, cells, 1, item), plain_next(space, cells, 1, item));
        same(tables_load(space, cells, item + 1, out, OUT_CELLS),
             plain_load(space, cells, item + 1, plain_out, OUT_CELLS));
        same(tables_instance(space, cells, item + 1, out, OUT_CELLS),
             plain_instance(space, cells, item + 1, plain_out, OUT_CELLS));
        same(memcmp(out, plain_out, sizeof out) == 0, 1);
    }
}

/* The first argument is the table's number: 0 answers (A, I), 1 and 2 lists of 60, first or last element different. */
int main(int count, char **arguments)
{
    const char *table = count == 2 ? arguments[1] : "";
    struct workload workload;
    if (strcmp(table, "0") == 0)
        workload = pair_workload();
    else if (strcmp(table, "1") == 0)
        workload = list_workload("first", FIRST_DIFFERENT, EMPTY_ENDING, 60);
    else if (strcmp(table, "2") == 0)
        workload = list_workload("last", LAST_DIFFERENT, EMPTY_ENDING, 60);
    else {
        fputs("usage: instructions 0|1|2\n", stderr);
        return 2;
    }
    uint32_t *space = full_table(&workload);
    ask(&workload, space);
    free(space);
    free(workload.terms);
    return 0;
}
