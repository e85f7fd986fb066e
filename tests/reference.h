/* The reference converters: a second implementation for the tests, over trees of terms. */
#ifndef REFERENCE_H
#define REFERENCE_H

#include <stddef.h>
#include <stdint.h>

/* Limits of a legal term and of its compact form. */
enum {
    REFERENCE_TERM_CELLS = 256,
    REFERENCE_VARIABLES = 32,
    REFERENCE_FORM_TOKENS = 383
};

/*
 * The edition, the last parameter of every converter, says how a functor's
 * payload is read: 1, name * 16 + arity; 2, name * 256 + arity. Any other is
 * refusal 1, before all else.
 */

/*
 * What a converter answers on native cells. Accepted: refusal is 0 and cells
 * is the number of cells written. Refused by 12: cells is the number needed.
 * Any other refusal: cells is 0.
 */
struct reference_result {
    uint32_t refusal;
    uint32_t cells;
};

/* One term in pair form to its compact form; out has room for so many cells. */
struct reference_result reference_compact_cells(const uint32_t *in, size_t count,
                                                uint32_t *out, size_t room, uint32_t edition);

/* One compact form to its term in pair form, variables numbered. */
struct reference_result reference_expand_cells(const uint32_t *in, size_t count,
                                               uint32_t *out, size_t room, uint32_t edition);

/* The same two over little-endian bytes, with the results of the exports. */
uint32_t reference_compact(const uint8_t *in, size_t in_bytes, uint8_t *out, size_t out_bytes,
                           uint32_t edition);
uint32_t reference_expand(const uint8_t *in, size_t in_bytes, uint8_t *out, size_t out_bytes,
                          uint32_t edition);

/*
 * Gives every variable its rank by first meeting, in place: the numbered form
 * of a legal term, so of at most 256 cells.
 */
void reference_number(uint32_t *cells, size_t count);

#endif
