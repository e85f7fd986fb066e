/*
 * What carry_test and grow_test share: random numbers, arrays lent between guard pages, a
 * reader of a space's header, forms of terms, a plain table written from documents 01 and 02
 * alone, random requests that are played on a space and on the plain table, and a tally.
 *
 * The plain table keeps the records of a table as structures and is told the calls one by
 * one. It knows no damage: it predicts tables made by calls, and every cell of them.
 */
#ifndef SECOND_SPACE_H
#define SECOND_SPACE_H

#include "../include/tables.h"

#include <stdbool.h>
#include <stddef.h>
#include <stdint.h>

/* Random numbers, the same for the same seed. */
struct dice {
    uint64_t state;
};

uint32_t dice_word(struct dice *dice);
uint32_t dice_below(struct dice *dice, uint32_t bound);            /* 0 to bound - 1 */
uint32_t dice_from(struct dice *dice, uint32_t low, uint32_t high); /* both included */
bool dice_one_in(struct dice *dice, uint32_t times);

/* Memory that must be there: the program ends where it is not. */
void *must_have(void *old, size_t bytes);
uint32_t *cells_copy(const uint32_t *cells, size_t count);
void cells_fill_random(struct dice *dice, uint32_t *cells, size_t count);

/*
 * Lent arrays: the cells lie against a page that may not be touched, after them or before
 * them; the rest of their own pages is filled with marks. A touched guard page ends the
 * program with a line that says so.
 */
enum guard {
    GUARD_BEHIND,
    GUARD_BEFORE
};

struct lent {
    uint32_t *cells;
    size_t count;
    unsigned char *map;
    size_t map_bytes;
    uint32_t *marks;
    size_t mark_count;
};

void guards_on(void);
struct lent lend(const uint32_t *cells, size_t count, enum guard guard);
void lent_read_only(struct lent *lent, bool read_only);
bool lent_marks_stand(const struct lent *lent);
void lent_back(struct lent *lent);

/* The header of a space, and where its records lie. */
enum space_cell {
    SPACE_EDITION,
    SPACE_NODES,
    SPACE_SUBGOALS,
    SPACE_ANSWERS,
    SPACE_NODE_OFFSET,
    SPACE_SUBGOAL_OFFSET,
    SPACE_ANSWER_OFFSET,
    SPACE_END,
    SPACE_HEADER_CELLS
};

enum node_cell {
    NODE_TOKEN,
    NODE_CHILD,
    NODE_SIBLING,
    NODE_PARENT,
    NODE_LINK,
    NODE_CELLS
};

enum subgoal_cell {
    SUBGOAL_LEAF,
    SUBGOAL_ROOT,
    SUBGOAL_VARIABLES,
    SUBGOAL_STATE,
    SUBGOAL_FIRST,
    SUBGOAL_LAST,
    SUBGOAL_CELLS
};

enum answer_cell {
    ANSWER_LEAF,
    ANSWER_SUBGOAL,
    ANSWER_NEXT,
    ANSWER_CELLS
};

struct header {
    uint32_t edition;
    uint32_t nodes, subgoals, answers;                /* used */
    uint32_t most_nodes, most_subgoals, most_answers; /* capacities */
    size_t end;
};

/* Whether the header is sound (refusal 1 otherwise), for either edition. */
bool header_read(const uint32_t *cells, size_t count, struct header *header);
/* Whether these capacities are refused by 2 in so many cells. */
bool fresh_refused(size_t count, uint32_t nodes, uint32_t subgoals, uint32_t answers);

uint32_t *node_cells(uint32_t *cells, uint32_t node);
uint32_t *subgoal_cells(uint32_t *cells, uint32_t subgoal);
uint32_t *answer_cells(uint32_t *cells, uint32_t answer);

/*
 * Forms. form_compact writes the compact form of `terms` legal terms, form_expand the pair
 * form of legal forms; both return the cells written. term_refused_by is 4, 3, 5 or 0.
 * form_legal says whether the tokens are exactly the compact form of so many terms that are
 * legal together, and how many distinct variables they have.
 */
#define FORM_ROOM 384

uint32_t term_refused_by(const uint32_t *cells, size_t count, uint32_t terms, uint32_t edition,
                         uint32_t *variables);
size_t term_length(const uint32_t *cells, uint32_t edition);
size_t form_compact(const uint32_t *cells, uint32_t terms, uint32_t edition, uint32_t *form);
size_t form_expand(const uint32_t *form, uint32_t terms, uint32_t edition, uint32_t *cells);
bool form_legal(const uint32_t *form, size_t count, uint32_t terms, uint32_t edition,
                uint32_t *variables);
/* The token or cell of edition 1 as edition 2 has it; a functor's name must fit. */
uint32_t cell_carried(uint32_t cell);
bool cell_name_too_large(uint32_t cell);

/* The plain table. Numbers and places are those of the space. */
struct node {
    uint32_t token, child, sibling, parent, link;
};

struct subgoal {
    uint32_t leaf, root, variables, state, first, last;
};

struct answer {
    uint32_t leaf, subgoal, next;
};

struct table {
    uint32_t edition;
    uint32_t most_nodes, most_subgoals, most_answers;
    uint32_t node_count, subgoal_count, answer_count;
    uint32_t node_room, subgoal_room, answer_room;
    struct node *nodes;
    struct subgoal *subgoals; /* subgoal s at s - 1 */
    struct answer *answers;   /* answer a at a - 1 */
};

void table_fresh(struct table *table, uint32_t nodes, uint32_t subgoals, uint32_t answers,
                 uint32_t edition);
struct table table_copy(const struct table *table);
void table_free(struct table *table);
size_t table_end(const struct table *table);
/* Writes the cells of the space that calls would have made: all of them up to the end. */
void table_write(const struct table *table, uint32_t *cells);
/* Enters a form without looking at capacities; false if it stands there already. */
bool table_put_subgoal(struct table *table, const uint32_t *form, size_t count,
                       uint32_t variables);
bool table_put_answer(struct table *table, uint32_t subgoal, const uint32_t *form, size_t count);
/* The tokens from the root down to the leaf; room for FORM_ROOM. */
size_t table_form(const struct table *table, uint32_t leaf, uint32_t *form);

uint64_t table_call(struct table *table, const uint32_t *term, size_t count);
uint64_t table_answer(struct table *table, uint32_t subgoal, const uint32_t *terms, size_t count);
uint64_t table_finish(struct table *table, uint32_t subgoal);
uint64_t table_next(const struct table *table, uint32_t subgoal, uint32_t after);
uint64_t table_load(const struct table *table, uint32_t answer, uint32_t *out, size_t room);
uint64_t table_instance(const struct table *table, uint32_t answer, uint32_t *out, size_t room);
uint64_t table_counts(const struct table *table, uint32_t *out, size_t room);

/* The word of a refusal. */
uint64_t refusal_word(uint32_t refusal);

/*
 * Requests: one call with its arguments, drawn at random for a table as it stands. A reply is
 * the word and every cell of out.
 */
enum request_kind {
    REQUEST_CALL,
    REQUEST_ANSWER,
    REQUEST_FINISH,
    REQUEST_NEXT,
    REQUEST_LOAD,
    REQUEST_INSTANCE,
    REQUEST_COUNTS
};

#define REQUEST_CELLS 320
#define REPLY_CELLS 2048

struct request {
    enum request_kind kind;
    uint32_t number, after;
    size_t count, room;
    uint32_t cells[REQUEST_CELLS];
};

struct reply {
    uint64_t word;
    uint32_t out[REPLY_CELLS];
};

/* What random terms are made of. */
struct taste {
    uint32_t edition;
    uint32_t atoms;      /* how many different ones */
    uint32_t predicates; /* how many different functors, about */
    uint32_t most_cells; /* of a term */
    bool large_names;    /* functors beyond edition 2's names too (edition 1) */
    bool bad_terms;      /* now and then a term that is refused */
    bool bulk;           /* entries only, most of them answers */
};

struct taste taste_random(struct dice *dice, uint32_t edition);
void request_random(struct dice *dice, const struct taste *taste, const struct table *table,
                    struct request *request);
void request_carried(const struct request *request, struct request *carried);
void request_play(const struct request *request, uint32_t *cells, size_t count,
                  struct reply *reply);
void request_model(const struct request *request, struct table *table, struct reply *reply);
bool reply_equal(const struct reply *left, const struct reply *right);
void reply_carried(const struct reply *reply, struct reply *carried);

/*
 * The tally: checks made, results by refusal (0: done), failures. A failure is printed with
 * its words, the first twenty of them.
 */
struct tally {
    uint64_t checks, failures;
    uint64_t results[32];
};

void tally_check(struct tally *tally, bool holds, const char *format, ...)
    __attribute__((format(printf, 3, 4)));
/* Fails for each of the results that never came; 0 ends the list. */
void tally_must_have(struct tally *tally, const uint32_t *refusals);
/* Prints the line; the exit status of the program. */
int tally_report(const struct tally *tally, const char *name, uint64_t seed);

/* The place of the first difference, or count. */
size_t cells_differ(const uint32_t *left, const uint32_t *right, size_t count);

#endif
