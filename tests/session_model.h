/* A model of the session program over the plain table: what must be printed for each line. */
#ifndef SESSION_MODEL_H
#define SESSION_MODEL_H

#include "plain_table.h"
#include "text.h"

struct session_model;

/* A session over an empty table. Ends the program if memory runs out. */
struct session_model *open_session(void);
void close_session(struct session_model *session);

/* Reads on; adds what must be printed for each line that ends in these bytes. */
void read_input(struct session_model *session, const void *bytes, size_t count,
                struct text *printed);

/* The input has ended; adds what must be printed for a last line without a newline. */
void end_input(struct session_model *session, struct text *printed);

/* The table as the lines so far have left it. */
const struct plain_table *session_table(const struct session_model *session);

#endif
