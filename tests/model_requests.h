/* Makes requests of the model of the cells. */
#ifndef MODEL_REQUESTS_H
#define MODEL_REQUESTS_H

#include "drawing.h"
#include "indexes.h"

/* The word that the request must give, and the cells of space and out that it must leave; index NULL: without one. */
uint64_t ask_model(const struct request *request, uint32_t *space, size_t space_cells,
                   const struct index *index, uint32_t *out, size_t out_cells);

#endif
