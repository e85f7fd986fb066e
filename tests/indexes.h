/* Indexes for the tests: cells of many kinds to lend beside a space, and what a build must leave in them. */
#ifndef INDEXES_H
#define INDEXES_H

#include <stdbool.h>
#include <stddef.h>
#include <stdint.h>

/* The most cells of an index that is drawn. */
enum { INDEX_CELLS = 1024 };

struct index {
    size_t count;
    uint32_t cell[INDEX_CELLS];
};

/* What an index may hold. The last two are not drawn: the test has them from a build. */
enum index_kind {
    ANY_WORDS,
    SMALL_NUMBERS,   /* from 0 to a little above the nodes used */
    NODE_NUMBERS,    /* of nodes in use; no slot is free */
    EVERY_CHILD,     /* each node from the slot on that a build would begin at, few children or many */
    SPOILT_CHILDREN, /* the same with cells freed, exchanged or changed */
    BUILT,           /* by a build of the table as it is */
    STALE,           /* by a build before the last entries */
    INDEX_KINDS
};

extern const char *const index_names[INDEX_KINDS];

bool is_power_of_two(size_t count);

/* The smallest power of two that is no less. */
size_t power_from(size_t least);

/* A number of cells: mostly a power of two up to `most`, seldom another number, 0 too. */
size_t draw_slots(size_t most);

/*
 * So many cells of a kind that is drawn, for the nodes that a space holds, whatever it holds: a
 * parent or a token is taken as it stands.
 */
void draw_index(struct index *index, enum index_kind kind, size_t count, const uint32_t *space,
                size_t space_cells);

/* The cells of another index, repeated or cut off: one that is lent with another size. */
void resize_index(struct index *index, size_t count);

/* What a cell may hold before a build: nothing, a small number or any. */
uint32_t draw_old_entry(void);

/* In a table made by calls: the children of all nodes that have more than 8, which a build enters. */
size_t children_to_enter(const uint32_t *space);

/*
 * What is wrong with the cells that a build left, of a table made by calls, and with the word that it
 * gave; NULL if nothing is. Written from the request, without building anything: the children of the
 * nodes that have more than 8 stand in it once each, nothing else does, and each stands in the first
 * slot, from its own on, that those of lower numbers leave free. There is one such index only.
 */
const char *wrong_index(const uint32_t *space, const uint32_t *index, size_t index_cells,
                        uint64_t word);

#endif
