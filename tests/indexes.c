/* Indexes for the tests: cells of many kinds to lend beside a space, and what a build must leave in them. */
#include "indexes.h"

#include "../include/tables.h"
#include "drawing.h"

#include <stdio.h>
#include <stdlib.h>
#include <string.h>

const char *const index_names[INDEX_KINDS] = {
    [ANY_WORDS] = "any words",       [SMALL_NUMBERS] = "small numbers",
    [NODE_NUMBERS] = "node numbers", [EVERY_CHILD] = "every child",
    [SPOILT_CHILDREN] = "spoilt",    [BUILT] = "built",
    [STALE] = "stale",
};

/* Sizes */

bool is_power_of_two(size_t count)
{
    return count != 0 && (count & (count - 1)) == 0;
}

size_t power_from(size_t least)
{
    size_t power = 1;
    while (power < least)
        power *= 2;
    return power;
}

size_t draw_slots(size_t most)
{
    static const size_t others[] = {0, 0, 3, 5, 6, 7, 9, 12, 24, 31, 33, 48, 96, 100, 255};
    size_t other = others[below(15)], power = 1;
    if (chance(12))
        return other <= most ? other : 0;
    while (power < most && !chance(14))
        power *= 2;
    return power <= most ? power : 1;
}

/* Cells */

/* A field of a node: its token 0, its first child 1, its sibling 2, its parent 3, its link 4. */
static uint32_t node_field(const uint32_t *space, size_t node, size_t field)
{
    return space[8 + 5 * node + field];
}

/* The nodes that the header says, as far as their records lie in the space. */
static size_t nodes_in(const uint32_t *space, size_t space_cells)
{
    size_t whole = space_cells < 8 ? 0 : (space_cells - 8) / 5;
    return whole == 0 || space[1] > whole ? whole : space[1];
}

static size_t home_slot(const uint32_t *space, size_t node, size_t slots)
{
    return (uint32_t)(node_field(space, node, 3) + node_field(space, node, 0)) % slots;
}

/* In the first free slot from its own on; there is one. */
static void put_child(struct index *index, const uint32_t *space, size_t node)
{
    size_t slot = home_slot(space, node, index->count);
    while (index->cell[slot] != 0)
        slot = (slot + 1) % index->count;
    index->cell[slot] = (uint32_t)node;
}

/* By number, or the last first, until no slot is free. */
static void put_children(struct index *index, const uint32_t *space, size_t nodes)
{
    bool falling = chance(30);
    memset(index->cell, 0, index->count * sizeof *index->cell);
    for (size_t i = 1; i < nodes && i <= index->count; i++)
        put_child(index, space, falling ? nodes - i : i);
}

static void spoil_cells(struct index *index, size_t nodes)
{
    for (size_t changes = index->count == 0 ? 0 : between(1, 6); changes > 0; changes--) {
        uint32_t *one = &index->cell[below(index->count)];
        uint32_t *other = &index->cell[below(index->count)], moved = *one;
        switch (below(5)) {
        case 0:
            *one = 0;
            break;
        case 1:
            *one = *other;
            *other = moved;
            break;
        case 2:
            *one = (uint32_t)(nodes + below(3));
            break;
        case 3:
            *one += chance(50) ? 1u : UINT32_MAX;
            break;
        default: /* one on, so that it is found a slot too early */
            memmove(one, one + 1, (size_t)(&index->cell[index->count - 1] - one) * sizeof *one);
        }
    }
}

void draw_index(struct index *index, enum index_kind kind, size_t count, const uint32_t *space,
                size_t space_cells)
{
    size_t nodes = nodes_in(space, space_cells);
    index->count = count;
    if (kind == EVERY_CHILD || kind == SPOILT_CHILDREN)
        put_children(index, space, nodes);
    if (kind == SPOILT_CHILDREN)
        spoil_cells(index, nodes);
    for (size_t i = 0; i < count; i++) {
        if (kind == ANY_WORDS)
            index->cell[i] = (uint32_t)random_word();
        else if (kind == SMALL_NUMBERS)
            index->cell[i] = (uint32_t)below(nodes + 3);
        else if (kind == NODE_NUMBERS)
            index->cell[i] = (uint32_t)(nodes > 1 ? between(1, nodes - 1) : 1);
    }
}

void resize_index(struct index *index, size_t count)
{
    for (size_t i = index->count; i < count; i++)
        index->cell[i] = index->count == 0 ? 0 : index->cell[i % index->count];
    index->count = count;
}

uint32_t draw_old_entry(void)
{
    uint64_t word = random_word();
    return word % 3 == 0 ? 0 : word % 3 == 1 ? (uint32_t)(word >> 32) % 40 : (uint32_t)(word >> 32);
}

/* What a build must leave */

/* How often each number stands somewhere, for as many as there are nodes. */
static uint32_t *new_counts(size_t nodes)
{
    uint32_t *counts = calloc(nodes, sizeof *counts);
    if (counts == NULL) {
        fputs("indexes: out of memory\n", stderr);
        exit(2);
    }
    return counts;
}

/* Of a table made by calls, where every node but a root is its parent's child. */
static uint32_t *count_children(const uint32_t *space)
{
    uint32_t *children = new_counts(space[1]);
    for (size_t node = 0; node < space[1]; node++)
        if (node_field(space, node, 3) != node)
            children[node_field(space, node, 3)]++;
    return children;
}

static bool is_entered(const uint32_t *space, const uint32_t *children, size_t node)
{
    uint32_t parent = node_field(space, node, 3);
    return parent != node && children[parent] > 8;
}

static size_t count_entered(const uint32_t *space, const uint32_t *children)
{
    size_t entered = 0;
    for (size_t node = 0; node < space[1]; node++)
        entered += is_entered(space, children, node);
    return entered;
}

size_t children_to_enter(const uint32_t *space)
{
    uint32_t *children = count_children(space);
    size_t entered = count_entered(space, children);
    free(children);
    return entered;
}

/* Of an entry: are all slots from its own up to it taken, and by lower numbers? */
static const char *wrong_place(const uint32_t *space, const uint32_t *index, size_t slots,
                               size_t place)
{
    uint32_t node = index[place];
    for (size_t slot = home_slot(space, node, slots); slot != place; slot = (slot + 1) % slots) {
        if (index[slot] == 0)
            return "a free slot before a child: it is not found";
        if (index[slot] > node)
            return "a child behind one of a higher number";
    }
    return NULL;
}

static const char *wrong_cells(const uint32_t *space, const uint32_t *children,
                               const uint32_t *index, size_t slots)
{
    uint32_t *times = new_counts(space[1]);
    const char *wrong = NULL;
    for (size_t place = 0; place < slots && wrong == NULL; place++) {
        uint32_t node = index[place];
        if (node == 0)
            continue;
        if (node >= space[1])
            wrong = "no node";
        else if (!is_entered(space, children, node))
            wrong = "a root, or a child of a node with 8 children or fewer";
        else if (times[node]++ > 0)
            wrong = "a child twice";
        else
            wrong = wrong_place(space, index, slots, place);
    }
    for (size_t node = 0; node < space[1] && wrong == NULL; node++)
        if (is_entered(space, children, node) && times[node] == 0)
            wrong = "a child of a node with more than 8 is missing";
    free(times);
    return wrong;
}

const char *wrong_index(const uint32_t *space, const uint32_t *index, size_t index_cells,
                        uint64_t word)
{
    uint32_t *children = count_children(space);
    size_t entered = count_entered(space, children);
    const char *wrong = NULL;
    if (word != ((uint64_t)TABLES_BUILT << 32 | entered))
        wrong = "another word than the number of children entered";
    else
        wrong = wrong_cells(space, children, index, index_cells);
    free(children);
    return wrong;
}
