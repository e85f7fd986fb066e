#include "index_tables.h"

#include <stdlib.h>
#include <string.h>

enum {
    BELTS = 8000,
    ATOMS = 97, /* the first terms of the pairs */
    BITS = 12,
    LARGE_CHILDREN = 16000,
    LARGE_FIRST = 24571, /* the large node is 8,207: its children begin at cell 10 of 32,768 */
    JOINED = 100,
    TARGET_CHILDREN = 8000
};

/* Making requests */

/* A table with room for so many requests of at most so many cells. */
static struct table room_for(uint32_t requests, uint32_t most_cells)
{
    struct table table = {.nodes = 1};
    table.requests = allocate(requests, sizeof *table.requests);
    table.cells = allocate((size_t)requests * most_cells, sizeof *table.cells);
    return table;
}

size_t table_cells(const struct table *table)
{
    return TABLES_SPACE_CELLS(table->nodes, table->subgoals, table->answers);
}

void free_table(struct table *table)
{
    free(table->requests);
    free(table->cells);
}

/* No term is a list, so a cell takes one node at most, and a subgoal one more. */
static void request(struct table *table, uint32_t subgoal, const uint32_t *terms, uint32_t cells)
{
    table->requests[table->count++] = (struct request){subgoal, cells, table->cell_count};
    memcpy(table->cells + table->cell_count, terms, cells * sizeof *terms);
    table->cell_count += cells;
    table->nodes += cells + (subgoal == 0);
    table->subgoals += subgoal == 0;
    table->answers += subgoal != 0;
}

static uint32_t integer(uint32_t value)
{
    return tables_cell(TABLES_INTEGER, value);
}

/* Calls name(X, Y, ..), with so many variables. */
static void call_goal(struct table *table, uint32_t name, uint32_t variables)
{
    uint32_t term[1 + BITS] = {tables_functor_cell(EDITION, name, variables)};
    for (uint32_t i = 0; i < variables; i++)
        term[1 + i] = tables_cell(TABLES_VARIABLE, i);
    request(table, 0, term, 1 + variables);
}

static void ask_all_behind(struct table *table, uint32_t goals)
{
    table->from = goals;
    table->to = table->count;
}

static struct table second_half(struct table table)
{
    table.from += (table.to - table.from) / 2;
    return table;
}

/* The tables */

/* The subgoals path(belt(I), X, Y). */
struct table belts_8000(void)
{
    struct table table = room_for(BELTS, 5);
    for (uint32_t i = 0; i < BELTS; i++) {
        const uint32_t term[] = {tables_functor_cell(EDITION, 1, 3),
                                 tables_functor_cell(EDITION, 2, 1), integer(i),
                                 tables_cell(TABLES_VARIABLE, 7), tables_cell(TABLES_VARIABLE, 3)};
        request(&table, 0, term, 5);
    }
    ask_all_behind(&table, 0);
    return table;
}

struct table belts_8000_halved(void)
{
    return second_half(belts_8000());
}

/* So many goals of one variable, each answered by the integers from 0 on. */
static struct table roots(uint32_t goals, uint32_t children)
{
    struct table table = room_for(goals + goals * children, 2);
    for (uint32_t goal = 1; goal <= goals; goal++)
        call_goal(&table, goal, 1);
    for (uint32_t goal = 1; goal <= goals; goal++)
        for (uint32_t i = 0; i < children; i++)
            request(&table, goal, (const uint32_t[]){integer(i)}, 1);
    ask_all_behind(&table, goals);
    return table;
}

struct table integers_100000(void)
{
    return roots(1, 100000);
}

struct table roots_30_of_100(void)
{
    return roots(30, 100);
}

struct table roots_100_of_50(void)
{
    return roots(100, 50);
}

struct table roots_127_of_128(void)
{
    return roots(127, 128);
}

struct table roots_255_of_256(void)
{
    return roots(255, 256);
}

/* The answers (A, I) of route(X, Y): 97 A, some 82 I below each. */
struct table pairs_8000(void)
{
    struct table table = room_for(1 + ITEMS, 3);
    call_goal(&table, 1, 2);
    for (uint32_t i = 0; i < ITEMS; i++)
        request(&table, 1, (const uint32_t[]){tables_cell(TABLES_ATOM, 1 + i % ATOMS), integer(i)}, 2);
    ask_all_behind(&table, 1);
    return table;
}

struct table pairs_8000_halved(void)
{
    return second_half(pairs_8000());
}

static void answer_bits(struct table *table, uint32_t goal, uint32_t bits)
{
    uint32_t terms[BITS];
    for (uint32_t i = 0; i < BITS; i++)
        terms[i] = integer(bits >> (BITS - 1 - i) & 1);
    request(table, goal, terms, BITS);
}

static struct table twos_with(uint32_t large_children)
{
    struct table table = room_for(2 + (1 << BITS) + large_children, 1 + BITS);
    call_goal(&table, 1, BITS);
    for (uint32_t bits = 0; bits < 1 << BITS; bits++)
        answer_bits(&table, 1, bits);
    ask_all_behind(&table, 1);
    if (large_children > 0)
        call_goal(&table, 2, 1);
    for (uint32_t i = 0; i < large_children; i++)
        request(&table, 2, (const uint32_t[]){integer(LARGE_FIRST + i)}, 1);
    return table;
}

struct table twos(void)
{
    return twos_with(0);
}

struct table twos_beside_large(void)
{
    return twos_with(LARGE_CHILDREN);
}

/* The joined answers are (80 * i, 1 + i): their first terms are among the target's, the second ones are not. */
struct table joinable(void)
{
    struct table table = room_for(3 + 2 * JOINED + TARGET_CHILDREN, 3);
    uint32_t step = TARGET_CHILDREN / JOINED;
    for (uint32_t goal = 1; goal <= 3; goal++)
        call_goal(&table, goal, 2);
    for (uint32_t i = 0; i < JOINED; i++)
        request(&table, 1, (const uint32_t[]){integer(step * i), integer(i)}, 2);
    for (uint32_t i = 0; i < JOINED; i++)
        request(&table, 2, (const uint32_t[]){integer(i), integer(1 + i)}, 2);
    for (uint32_t i = 0; i < TARGET_CHILDREN; i++)
        request(&table, 3, (const uint32_t[]){integer(i), integer(0)}, 2);
    table.nodes += 2 * JOINED;
    table.answers += JOINED;
    return table;
}
