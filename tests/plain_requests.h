/* Makes requests of the plain table. */
#ifndef PLAIN_REQUESTS_H
#define PLAIN_REQUESTS_H

#include "drawing.h"
#include "plain_table.h"

/* The word that the request must give, and the cells of out that it must leave. */
uint64_t ask_plain(struct plain_table *plain, const struct request *request, uint32_t *out,
                   size_t room);

#endif
