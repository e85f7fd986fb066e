/* A table store in plain C with the arguments and result words of the exported calls: their benchmark's baseline. */
#ifndef PLAIN_STORE_H
#define PLAIN_STORE_H

#include <stddef.h>
#include <stdint.h>

/*
 * Each function does what the export of the same name does (tables_fresh and
 * so on): the same layout, every check in the same order, the same word, and
 * the same cells written.
 */
uint64_t plain_fresh(uint32_t *space, size_t space_cells, uint32_t nodes, uint32_t subgoals,
                     uint32_t answers, uint32_t edition);
uint64_t plain_call(uint32_t *space, size_t space_cells, const uint32_t *term, size_t term_cells);
uint64_t plain_answer(uint32_t *space, size_t space_cells, uint32_t subgoal, const uint32_t *terms,
                      size_t terms_cells);
uint64_t plain_finish(uint32_t *space, size_t space_cells, uint32_t subgoal);
uint64_t plain_next(const uint32_t *space, size_t space_cells, uint32_t subgoal, uint32_t after);
uint64_t plain_load(const uint32_t *space, size_t space_cells, uint32_t answer, uint32_t *out,
                    size_t out_cells);
uint64_t plain_instance(const uint32_t *space, size_t space_cells, uint32_t answer, uint32_t *out,
                        size_t out_cells);
uint64_t plain_counts(const uint32_t *space, size_t space_cells, uint32_t *out, size_t out_cells);

uint64_t plain_call_indexed(uint32_t *space, size_t space_cells, const uint32_t *index,
                            size_t index_cells, const uint32_t *term, size_t term_cells);
uint64_t plain_answer_indexed(uint32_t *space, size_t space_cells, const uint32_t *index,
                              size_t index_cells, uint32_t subgoal, const uint32_t *terms,
                              size_t terms_cells);

/* In plain_join.c, which contains the store: a program is linked with one of the two. */
uint64_t plain_join(uint32_t *space, size_t space_cells, uint32_t first, uint32_t second,
                    const uint32_t *pairs, size_t pairs_cells, uint32_t target,
                    const uint32_t *copies, size_t copies_cells);
uint64_t plain_join_indexed(uint32_t *space, size_t space_cells, const uint32_t *index,
                            size_t index_cells, uint32_t first, uint32_t second,
                            const uint32_t *pairs, size_t pairs_cells, uint32_t target,
                            const uint32_t *copies, size_t copies_cells);

/* In plain_index.c, which contains the join and the store. */
uint64_t plain_build(const uint32_t *space, size_t space_cells, uint32_t *index, size_t index_cells);

/* In plain_check.c, which contains the store too. */
uint64_t plain_check(const uint32_t *space, size_t space_cells);

/* In plain_copies.c, which contains the check and the store. */
uint64_t plain_carry(const uint32_t *source, size_t source_cells, uint32_t *target,
                     size_t target_cells, uint32_t nodes, uint32_t subgoals, uint32_t answers);
uint64_t plain_grow(uint32_t *space, size_t space_cells, uint32_t nodes, uint32_t subgoals,
                    uint32_t answers);

/* In plain_why.c, which contains the store. */
uint64_t plain_why(const uint32_t *space, size_t space_cells, const uint32_t *term,
                   size_t term_cells, uint32_t *out, size_t out_cells);

/* In plain_detours.c, which contains the store. */
uint64_t plain_detours(const uint32_t *space, size_t space_cells, const uint32_t *goals,
                       size_t goals_cells, uint32_t budget, uint32_t *out, size_t out_cells);

#endif
