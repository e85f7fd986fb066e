/*
 * What the tests of the second opinion share. All of it is written from documents 01 and
 * 02, the open points and tables.h alone; nothing of the store is used in it:
 *
 *   random numbers and random terms
 *   counting of checks, failures and results, and the report
 *   memory between guard pages, lent to the calls
 *   stored forms: compacting, and judging whether tokens are a stored form
 *   the plain table: subgoals and answers as lists of forms
 *   spaces: a writer of sound spaces, the header, the judging of records, damage
 */
#ifndef OPINION_H
#define OPINION_H

#include <stddef.h>
#include <stdint.h>

#include "../include/tables.h"

/* Random numbers: the same for the same seed, on every machine. */
void op_seed(uint64_t seed);
uint64_t op_random(void);
uint32_t op_below(uint32_t bound); /* 0 to bound - 1; 0 for bound 0 */
int op_chance(uint32_t percent);

/*
 * Checks. op_begin is called once; op_place says where the test is, for messages, and
 * that a call which does not return within a minute is to be reported.
 */
void op_begin(const char *program, uint64_t seed);
void op_place(const char *part, long round);
int op_check(int holds, const char *format, ...) __attribute__((format(printf, 2, 3)));

/* Results. A group is one of the calls counted; a word is counted by what came of it. */
enum { OP_GROUPS = 2 };
struct op_due {
    const char *name;
    unsigned group;
    uint32_t what;
};
void op_came(unsigned group, uint64_t word);
uint32_t op_by(uint32_t refusal); /* what a refusal by this number is */

/* Prints the line; the exit status: 1 if a check failed or a result came too seldom. */
int op_report(const struct op_due *due, size_t count, long least);

/* Words, and whether two say the same: the values that tables.h defines are compared. */
uint64_t op_word(uint32_t what, uint32_t value);
uint64_t op_refused(uint32_t refusal, uint32_t need);
int op_same(uint64_t one, uint64_t other);

/*
 * Memory with a page before and a page after it that nobody may touch. op_lend copies
 * the cells in, so that they end right before the one page or begin right after the
 * other. Beside them, on the free side, stands a margin: op_margin_kept says that no
 * cell of it was changed.
 */
struct op_arena {
    uint32_t *first;
    size_t cells;
};
void op_arena_make(struct op_arena *arena, size_t cells);
uint32_t *op_lend(const struct op_arena *arena, const uint32_t *cells, size_t count, int at_end);
int op_margin_kept(const struct op_arena *arena, size_t count, int at_end);
int op_equal(const uint32_t *one, const uint32_t *other, size_t count);
void op_copy(uint32_t *to, const uint32_t *from, size_t count);

/* Terms in pair form, as lent. There is room for terms that are too long. */
enum { OP_TERM_ROOM = 700 };
struct op_term {
    size_t count;
    uint32_t cells[OP_TERM_ROOM];
};
void op_put(struct op_term *term, uint32_t cell);
void op_put_random(struct op_term *term, uint32_t edition, unsigned depth);
uint32_t op_variable(uint32_t name);
uint32_t op_atom(uint32_t number);
uint32_t op_integer(uint32_t value);
size_t op_term_end(const uint32_t *cells, size_t at, uint32_t edition); /* of a legal term */
void op_rename(struct op_term *term); /* other names for the variables, no two made one */

/*
 * A stored form: the tokens, and the variables as the caller wrote them, by rank.
 * op_compact takes so many terms and gives 0, or the refusal 4, 3 or 5. op_called takes
 * a called term, and gives 6 as well. op_is_form: whether the tokens are exactly the form
 * of so many terms that are legal together.
 */
struct op_form {
    size_t count;
    uint32_t variables;
    uint32_t tokens[TABLES_COMPACT_CELLS];
    uint32_t names[TABLES_TERM_VARIABLES + 1];
};
uint32_t op_arity(uint32_t functor, uint32_t edition);
uint32_t op_compact(const uint32_t *cells, size_t count, uint32_t terms, uint32_t edition,
                    struct op_form *form);
uint32_t op_called(const uint32_t *cells, size_t count, uint32_t edition, struct op_form *form);
int op_is_form(const uint32_t *tokens, size_t count, uint32_t terms, uint32_t edition);
size_t op_shared(const struct op_form *one, const struct op_form *other);

/* The plain table of document 01. Places in the lists count from 1. */
enum { OP_MOST_SUBGOALS = 96, OP_MOST_ANSWERS = 512 };
struct op_entry {
    struct op_form form;
    uint32_t subgoal; /* of an answer */
    uint32_t state;   /* of a subgoal */
};
struct op_plain {
    uint32_t edition, most_nodes, most_subgoals, most_answers;
    uint32_t nodes, subgoals, answers;
    struct op_entry subgoal[OP_MOST_SUBGOALS + 1];
    struct op_entry answer[OP_MOST_ANSWERS + 1];
};
void op_plain_fresh(struct op_plain *table, uint32_t edition, uint32_t nodes, uint32_t subgoals,
                    uint32_t answers);
uint64_t op_plain_call(struct op_plain *table, const uint32_t *term, size_t count);
uint64_t op_plain_answer(struct op_plain *table, uint32_t subgoal, const uint32_t *terms,
                         size_t count);
uint64_t op_plain_finish(struct op_plain *table, uint32_t subgoal);

/* The cells of the header and of the records. */
enum op_header { OP_EDITION, OP_NODES, OP_SUBGOALS, OP_ANSWERS, OP_AT_NODES, OP_AT_SUBGOALS,
                 OP_AT_ANSWERS, OP_END };
enum op_node { OP_TOKEN, OP_CHILD, OP_SIBLING, OP_PARENT, OP_LINK };
enum op_subgoal { OP_LEAF, OP_ROOT, OP_M, OP_STATE, OP_FIRST, OP_LAST };
enum op_answer { OP_ANSWER_LEAF, OP_ANSWER_SUBGOAL, OP_ANSWER_NEXT };

uint32_t *op_node_at(uint32_t *cells, uint32_t node);
uint32_t *op_subgoal_at(uint32_t *cells, uint32_t subgoal);
uint32_t *op_answer_at(uint32_t *cells, uint32_t answer);
const uint32_t *op_node_of(const uint32_t *cells, uint32_t node);
const uint32_t *op_subgoal_of(const uint32_t *cells, uint32_t subgoal);
const uint32_t *op_answer_of(const uint32_t *cells, uint32_t answer);

/* Writes sound spaces, as document 01 says: for spaces that nothing has damaged. */
uint64_t op_cells_fresh(uint32_t *cells, size_t count, uint32_t nodes, uint32_t subgoals,
                        uint32_t answers, uint32_t edition);
uint64_t op_cells_call(uint32_t *cells, const uint32_t *term, size_t count);
uint64_t op_cells_answer(uint32_t *cells, uint32_t subgoal, const uint32_t *terms, size_t count);
uint64_t op_cells_finish(uint32_t *cells, uint32_t subgoal);
uint32_t op_child(const uint32_t *cells, uint32_t node, uint32_t token); /* 0 for none */

/*
 * Judging, for any cells. op_header_sound is the opposite of refusal 1; the others may
 * be asked once it holds. A record is judged by its own fields: the number of a record
 * must itself be within the counts.
 */
int op_header_sound(const uint32_t *cells, size_t count);
int op_node_sound(const uint32_t *cells, uint32_t node, uint32_t links);
int op_subgoal_sound(const uint32_t *cells, uint32_t subgoal);
int op_answer_sound(const uint32_t *cells, uint32_t answer);

/* Changes one cell of a space whose header is sound: mostly one of a record in use. */
void op_damage(uint32_t *cells, size_t count);

#endif
