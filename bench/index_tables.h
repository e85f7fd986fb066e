/* The tables on which an index is timed: what is entered, and which of it is asked. */
#ifndef INDEX_TABLES_H
#define INDEX_TABLES_H

#include "workloads.h"

/* A call, or an answer to a subgoal. */
struct request {
    uint32_t subgoal; /* 0: the term is called */
    uint32_t cells;   /* of the terms, */
    uint32_t at;      /* from this one of the table's on */
};

/* Requests in order; those from `from` to `to` are timed, the others are there besides. */
struct table {
    struct request *requests;
    uint32_t count, from, to;
    uint32_t *cells;
    uint32_t cell_count;
    uint32_t nodes, subgoals, answers; /* the capacities: no request is refused */
};

size_t table_cells(const struct table *table);
void free_table(struct table *table);

/* Each belt, integer or answer is asked; of the halves, the second. */
struct table belts_8000(void);
struct table belts_8000_halved(void);
struct table integers_100000(void);
struct table pairs_8000(void);
struct table pairs_8000_halved(void);
struct table roots_30_of_100(void);
struct table roots_100_of_50(void);
struct table roots_127_of_128(void);
struct table roots_255_of_256(void);

/* Answers of 12 terms, each 0 or 1: every node on the way has two children. */
struct table twos(void);
/* The same, with a large node beside them, whose children lie in an index of 32,768 cells where the twos are looked for. */
struct table twos_beside_large(void);

/* left(X, K), right(K, Y) and both(X, Y), the subgoals 1 to 3: 100 answers, 100, and 8,000 X. Nothing is asked. */
struct table joinable(void);

#endif
