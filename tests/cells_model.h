/* The calls on the cells of a space, sound or damaged, written from the request alone: the tests' second opinion on damage. */
#ifndef CELLS_MODEL_H
#define CELLS_MODEL_H

#include <stddef.h>
#include <stdint.h>

/*
 * Each takes what the export of the same name takes (include/tables.h), reads and writes the same cells, and returns the word that
 * the export must return.
 */
uint64_t cells_model_fresh(uint32_t *space, size_t space_cells, uint32_t nodes, uint32_t subgoals, uint32_t answers,
                           uint32_t edition);
uint64_t cells_model_call(uint32_t *space, size_t space_cells, const uint32_t *term, size_t term_cells);
uint64_t cells_model_answer(uint32_t *space, size_t space_cells, uint32_t subgoal, const uint32_t *terms, size_t terms_cells);
uint64_t cells_model_finish(uint32_t *space, size_t space_cells, uint32_t subgoal);
uint64_t cells_model_next(const uint32_t *space, size_t space_cells, uint32_t subgoal, uint32_t after);
uint64_t cells_model_load(const uint32_t *space, size_t space_cells, uint32_t answer, uint32_t *out, size_t out_cells);
uint64_t cells_model_instance(const uint32_t *space, size_t space_cells, uint32_t answer, uint32_t *out, size_t out_cells);
uint64_t cells_model_counts(const uint32_t *space, size_t space_cells, uint32_t *out, size_t out_cells);
uint64_t cells_model_join(uint32_t *space, size_t space_cells, uint32_t first, uint32_t second, const uint32_t *pairs,
                          size_t pairs_cells, uint32_t target, const uint32_t *copies, size_t copies_cells);
uint64_t cells_model_call_indexed(uint32_t *space, size_t space_cells, const uint32_t *index_slots, size_t index_cells,
                                  const uint32_t *term, size_t term_cells);
uint64_t cells_model_answer_indexed(uint32_t *space, size_t space_cells, const uint32_t *index_slots, size_t index_cells,
                                    uint32_t subgoal, const uint32_t *terms, size_t terms_cells);
uint64_t cells_model_join_indexed(uint32_t *space, size_t space_cells, const uint32_t *index_slots, size_t index_cells,
                                  uint32_t first, uint32_t second, const uint32_t *pairs, size_t pairs_cells, uint32_t target,
                                  const uint32_t *copies, size_t copies_cells);
uint64_t cells_model_build(const uint32_t *space, size_t space_cells, uint32_t *index, size_t index_cells);

/* What all searches so far met in an index, and joins that did not enter what they were counted to: none is expected. */
struct cells_model_met {
    uint64_t confirmed;       /* entries that are the child, sound or damaged */
    uint64_t passed_over;     /* entries that are not */
    uint64_t free_slots;      /* that ended a lookup */
    uint64_t around;          /* steps from the last slot to the first */
    uint64_t joins_otherwise; /* that entered other nodes or answers than were counted */
    uint64_t joins_left_out;  /* and left an answer out, since it met damage or no room for it */
};

extern struct cells_model_met cells_model_met;

#endif
