/* Makes requests of the model of the cells. */
#include "model_requests.h"

#include "cells_model.h"

uint64_t ask_model(const struct request *request, uint32_t *space, size_t space_cells,
                   const struct index *index, uint32_t *out, size_t out_cells)
{
    const uint32_t *cells = request->argument.cell, *slots = index == NULL ? NULL : index->cell;
    size_t count = request->argument.count, slot_count = index == NULL ? 0 : index->count;
    switch (request->kind) {
    case CALL:
        return cells_model_call_indexed(space, space_cells, slots, slot_count, cells, count);
    case ANSWER:
        return cells_model_answer_indexed(space, space_cells, slots, slot_count, request->number,
                                          cells, count);
    case FINISH:
        return cells_model_finish(space, space_cells, request->number);
    case JOIN:
        return cells_model_join_indexed(space, space_cells, slots, slot_count, request->number,
                                        request->second, cells, count, request->target,
                                        request->copies.cell, request->copies.count);
    case NEXT:
        return cells_model_next(space, space_cells, request->number, request->after);
    case LOAD:
        return cells_model_load(space, space_cells, request->number, out, out_cells);
    case INSTANCE:
        return cells_model_instance(space, space_cells, request->number, out, out_cells);
    default:
        return cells_model_counts(space, space_cells, out, out_cells);
    }
}
