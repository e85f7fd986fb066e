/* Makes requests of the exported calls. */
#ifndef REQUESTS_H
#define REQUESTS_H

#include "drawing.h"

/* Makes the request, with its argument's cells lent at `cells`, and a join's copies at `copies`. */
uint64_t make_request(const struct request *request, uint32_t *space, size_t space_cells,
                      const uint32_t *cells, const uint32_t *copies, uint32_t *out,
                      size_t out_cells);

/* The same with an index for the kinds that take one (takes_index); the others are made without. */
uint64_t make_indexed_request(const struct request *request, uint32_t *space, size_t space_cells,
                              const uint32_t *index, size_t index_cells, const uint32_t *cells,
                              const uint32_t *copies, uint32_t *out, size_t out_cells);

#endif
