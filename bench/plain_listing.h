/* Lists of small terms in plain C, with the arguments and result words of the exported calls: their baseline. */
#ifndef PLAIN_LISTING_H
#define PLAIN_LISTING_H

#include <stddef.h>
#include <stdint.h>

/* As tables_first_term and tables_term_after: every check in the same order, the same word, the same cells written. */
uint64_t plain_first_term(const uint32_t *symbols, size_t symbols_cells, size_t size, uint32_t *out,
                          size_t out_cells, uint32_t edition);
uint64_t plain_term_after(const uint32_t *symbols, size_t symbols_cells, size_t size,
                          const uint32_t *term, size_t term_cells, uint32_t *out, size_t out_cells,
                          uint32_t edition);

#endif
