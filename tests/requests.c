/* Makes requests of the exported calls. */
#include "requests.h"

#include "../include/tables.h"

uint64_t make_request(const struct request *request, uint32_t *space, size_t space_cells,
                      const uint32_t *cells, const uint32_t *copies, uint32_t *out,
                      size_t out_cells)
{
    switch (request->kind) {
    case CALL:
        return tables_call(space, space_cells, cells, request->argument.count);
    case ANSWER:
        return tables_answer(space, space_cells, request->number, cells, request->argument.count);
    case FINISH:
        return tables_finish(space, space_cells, request->number);
    case JOIN:
        return tables_join(space, space_cells, request->number, request->second, cells,
                           request->argument.count, request->target, copies,
                           request->copies.count);
    case NEXT:
        return tables_next(space, space_cells, request->number, request->after);
    case LOAD:
        return tables_load(space, space_cells, request->number, out, out_cells);
    case INSTANCE:
        return tables_instance(space, space_cells, request->number, out, out_cells);
    default:
        return tables_counts(space, space_cells, out, out_cells);
    }
}

uint64_t make_indexed_request(const struct request *request, uint32_t *space, size_t space_cells,
                              const uint32_t *index, size_t index_cells, const uint32_t *cells,
                              const uint32_t *copies, uint32_t *out, size_t out_cells)
{
    switch (request->kind) {
    case CALL:
        return tables_call_indexed(space, space_cells, index, index_cells, cells,
                                   request->argument.count);
    case ANSWER:
        return tables_answer_indexed(space, space_cells, index, index_cells, request->number, cells,
                                     request->argument.count);
    case JOIN:
        return tables_join_indexed(space, space_cells, index, index_cells, request->number,
                                   request->second, cells, request->argument.count,
                                   request->target, copies, request->copies.count);
    default:
        return make_request(request, space, space_cells, cells, copies, out, out_cells);
    }
}
