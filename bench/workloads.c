#include "workloads.h"

#include <stdio.h>
#include <stdlib.h>

enum { ATOMS = 97 }; /* the first terms of the pairs */

void *allocate(size_t count, size_t size)
{
    void *memory = calloc(count, size);
    if (memory == NULL) {
        perror("calloc");
        exit(1);
    }
    return memory;
}

const uint32_t *term_at(const struct workload *workload, size_t item)
{
    return workload->terms + item * workload->term_cells;
}

uint32_t subgoal_capacity(const struct workload *workload)
{
    return workload->goal_cells == 0 ? ITEMS : 1;
}

uint32_t answer_capacity(const struct workload *workload)
{
    return workload->goal_cells == 0 ? 0 : ITEMS;
}

/* Gives the workload room for its terms, and its space exactly the nodes it will use. */
static void make_room(struct workload *workload, size_t term_cells, uint32_t nodes)
{
    workload->term_cells = term_cells;
    workload->terms = allocate(ITEMS * term_cells, sizeof *workload->terms);
    workload->nodes = nodes;
    workload->space_cells =
        TABLES_SPACE_CELLS(nodes, subgoal_capacity(workload), answer_capacity(workload));
}

/* The subgoals path(belt(I), X, Y): below path and belt, three nodes and an answer root for each. */
struct workload subgoal_workload(void)
{
    struct workload workload = {.name = "subgoals path(belt(I), X, Y)"};
    make_room(&workload, 5, 3 + 4 * ITEMS);
    for (uint32_t i = 0; i < ITEMS; i++) {
        uint32_t *term = workload.terms + 5 * i;
        term[0] = TABLES_FUNCTOR_CELL(EDITION, 1, 3);
        term[1] = TABLES_FUNCTOR_CELL(EDITION, 2, 1);
        term[2] = TABLES_CELL(TABLES_INTEGER, i);
        term[3] = TABLES_CELL(TABLES_VARIABLE, 7);
        term[4] = TABLES_CELL(TABLES_VARIABLE, 3);
    }
    return workload;
}

/* The answers (A, I) of route(X, Y): five nodes for the roots and the subgoal, then a node for each A and each I. */
struct workload pair_workload(void)
{
    struct workload workload = {
        .name = "answers (A, I)",
        .goal = {TABLES_FUNCTOR_CELL(EDITION, 3, 2), TABLES_CELL(TABLES_VARIABLE, 7),
                 TABLES_CELL(TABLES_VARIABLE, 3)},
        .goal_cells = 3,
    };
    make_room(&workload, 2, 5 + ATOMS + ITEMS);
    for (uint32_t i = 0; i < ITEMS; i++) {
        workload.terms[2 * i] = TABLES_CELL(TABLES_ATOM, 1 + i % ATOMS);
        workload.terms[2 * i + 1] = TABLES_CELL(TABLES_INTEGER, i);
    }
    return workload;
}

/* The nodes of such lists in one trie, its root left out: table 1 of source 001, column Final. */
uint32_t published_nodes(enum difference difference, uint32_t lists, uint32_t elements)
{
    return difference == FIRST_DIFFERENT ? lists * elements + lists + 1 : lists + elements + 1;
}

/* The answers of list_terms(X): lists of so many integers that differ in one element. */
struct workload list_workload(const char *name, enum difference difference, enum ending ending,
                              uint32_t elements)
{
    struct workload workload = {
        .name = name,
        .goal = {TABLES_FUNCTOR_CELL(EDITION, 4, 1), TABLES_CELL(TABLES_VARIABLE, 7)},
        .goal_cells = 2,
    };
    uint32_t different = difference == FIRST_DIFFERENT ? 0 : elements - 1;
    make_room(&workload, ending == EMPTY_ENDING ? 2 * elements + 1 : 2 * elements - 1,
              4 + published_nodes(difference, ITEMS, elements));
    for (uint32_t i = 0; i < ITEMS; i++) {
        uint32_t *cell = workload.terms + i * workload.term_cells;
        for (uint32_t element = 0; element < elements; element++) {
            if (ending == EMPTY_ENDING || element + 1 < elements)
                *cell++ = TABLES_PAIR_CELL;
            *cell++ = TABLES_CELL(TABLES_INTEGER, element == different ? 1000 + i : element);
        }
        if (ending == EMPTY_ENDING)
            *cell = TABLES_EMPTY_LIST;
    }
    return workload;
}
