/* Reads the table off the cells of a space, whoever wrote it, from document 01 alone: the tests' second opinion on tables_check. */
#ifndef READ_TABLE_H
#define READ_TABLE_H

#include <stdbool.h>
#include <stddef.h>
#include <stdint.h>

/* The most records that are read; a space of 6,000 cells has no more. */
enum { READ_NODES = 1200, READ_SUBGOALS = 1000, READ_ANSWERS = 2000, READ_TOKENS = 383, READ_CELLS = 256 };

/* Terms as they are stored, and as they are called. */
struct read_form {
    size_t tokens, cells;
    uint32_t token[READ_TOKENS];
    uint32_t cell[READ_CELLS];
};

struct read_subgoal {
    uint32_t leaf, root, variables;
    bool finished; /* as recorded: an open subgoal without variables may hold its answer */
    struct read_form form;
};

struct read_answer {
    uint32_t leaf, subgoal;
    struct read_form form;
};

/* Subgoal s stands at s - 1, answer a at a - 1. */
struct read_table {
    uint32_t edition;
    uint32_t nodes, subgoals, answers;                /* capacities */
    uint32_t used_nodes, used_subgoals, used_answers; /* counts */
    uint64_t sum;                                     /* the nodes that the forms need */
    uint32_t lost;                                    /* the first answer that is on no chain, or 0 */
    uint32_t oddities;                                /* bit o for oddity o, of a table without faults but for lost answers */
    struct read_subgoal subgoal[READ_SUBGOALS];
    struct read_answer answer[READ_ANSWERS];
};

/* What can be wrong; a space without any of these is that of a table. */
enum read_fault {
    FAULT_HEADER,    /* refusal 1 */
    FAULT_RANGE,     /* a field of a record in use is out of its range */
    FAULT_BEYOND,    /* one names a record of the capacity that is not in use: a count is too low */
    FAULT_PATH,      /* from a leaf the parents do not lead to the root that is due */
    FAULT_FORM,      /* a path is not the compact form of the terms due */
    FAULT_PREDICATE, /* a subgoal begins with neither atom nor functor */
    FAULT_ROOT,      /* an answer root is no root, or serves two */
    FAULT_TWICE,     /* two subgoals are equal, or two answers of one subgoal */
    FAULT_SIBLING,   /* two siblings have the same token */
    FAULT_LIST,      /* a list of children that is searched does not end, or meets another's child */
    FAULT_FIND,      /* the search for a form does not end in its leaf */
    FAULT_LINK,      /* a leaf's link does not lead back to its record */
    FAULT_LOST,      /* an answer is not on the chain of its subgoal */
    FAULT_CHAIN,     /* a chain does not rise, meets another subgoal's answer, or does not end in the last answer */
    FAULT_SUM,       /* the nodes used are not as many as the forms need */
    READ_FAULTS
};

extern const char *const read_fault_names[READ_FAULTS];

/* What no call writes, and no call of today notices: the table is whole all the same, but tables_check refuses it. */
enum read_oddity {
    ODD_LINK,  /* of a node that is no leaf */
    ODD_ROOT,  /* a root's token or sibling */
    ODD_CHILD, /* of a leaf, or of a root that takes no terms */
    ODD_PLACE, /* an answer root that is not the node after its subgoal's leaf */
    ODD_ORDER, /* first children that lead from above a subgoal's leaf, below the root, to a later subgoal */
    READ_ODDITIES
};

extern const char *const read_oddity_names[READ_ODDITIES];

/* Reads the table. The set of what is wrong: bit f for fault f; 0 if the table was read whole. */
uint32_t read_table(const uint32_t *space, size_t cells, struct read_table *table);

#endif
