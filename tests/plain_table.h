/* The plain table: the calls on lists of forms, without a trie, as the tests' second opinion. */
#ifndef PLAIN_TABLE_H
#define PLAIN_TABLE_H

#include <stdbool.h>
#include <stddef.h>
#include <stdint.h>

struct plain_table;

/* An empty table with these capacities, which are in range, and of this edition, 1 or 2, by which
   every call on it reads functors. Ends the program if memory runs out. */
struct plain_table *plain_table_open(uint32_t nodes, uint32_t subgoals, uint32_t answers,
                                     uint32_t edition);
void plain_table_close(struct plain_table *table);

/* The seven calls. Each returns the word that the export must return, and writes out as it must. */
uint64_t plain_table_call(struct plain_table *table, const uint32_t *term, size_t term_cells);
uint64_t plain_table_answer(struct plain_table *table, uint32_t subgoal, const uint32_t *terms,
                            size_t terms_cells);
uint64_t plain_table_finish(struct plain_table *table, uint32_t subgoal);
uint64_t plain_table_next(const struct plain_table *table, uint32_t subgoal, uint32_t after);
uint64_t plain_table_load(const struct plain_table *table, uint32_t answer, uint32_t *out,
                          size_t out_cells);
uint64_t plain_table_instance(const struct plain_table *table, uint32_t answer, uint32_t *out,
                              size_t out_cells);
uint64_t plain_table_counts(const struct plain_table *table, uint32_t *out, size_t out_cells);

/* Why a term is old or new, by Q-10; nothing is entered. The word that the export must return: for
   old the subgoal's number, with the count of the offered variables and these by rank in out; for new
   the lowest-numbered subgoal that shares most leading tokens, with how many in out, or 0 and 0. */
uint64_t plain_table_why(const struct plain_table *table, const uint32_t *term, size_t term_cells,
                         uint32_t *out, size_t out_cells);

/* Joins two finished subgoals into an open one, by the rule of Q-2: two cells to a pair, two to a
   copy. The word that the export must return. */
uint64_t plain_table_join(struct plain_table *table, uint32_t first, uint32_t second,
                          const uint32_t *pairs, size_t pairs_cells, uint32_t target,
                          const uint32_t *copies, size_t copies_cells);

/* The distinct variables of a subgoal, which exists, and whether it is finished. */
uint32_t plain_table_variables(const struct plain_table *table, uint32_t subgoal);
bool plain_table_finished(const struct plain_table *table, uint32_t subgoal);

/* Gives a subgoal, which exists, this state: for a table that was not made by calls alone, such as
   one with an open subgoal of no variables that holds its answer. */
void plain_table_set_state(struct plain_table *table, uint32_t subgoal, bool finished);

#endif
