/* Makes requests of the plain table. */
#include "plain_requests.h"

uint64_t ask_plain(struct plain_table *plain, const struct request *request, uint32_t *out,
                   size_t room)
{
    const struct argument *argument = &request->argument;
    switch (request->kind) {
    case CALL:
        return plain_table_call(plain, argument->cell, argument->count);
    case ANSWER:
        return plain_table_answer(plain, request->number, argument->cell, argument->count);
    case FINISH:
        return plain_table_finish(plain, request->number);
    case JOIN:
        return plain_table_join(plain, request->number, request->second, argument->cell,
                                argument->count, request->target, request->copies.cell,
                                request->copies.count);
    case NEXT:
        return plain_table_next(plain, request->number, request->after);
    case LOAD:
        return plain_table_load(plain, request->number, out, room);
    case INSTANCE:
        return plain_table_instance(plain, request->number, out, room);
    default:
        return plain_table_counts(plain, out, room);
    }
}
