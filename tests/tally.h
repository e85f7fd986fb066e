/* How often each call had each result in each edition, printed and held to what may and must come. */
#ifndef TALLY_H
#define TALLY_H

#include "../include/tables.h"
#include "drawing.h"

/*
 * A result's place in a set: the whats from TABLES_DONE to TABLES_BUILT, a join with no new answer and
 * a build with no child by themselves, then the refusals 1 to 17.
 */
enum { JOINED_NONE = TABLES_BUILT + 1, BUILT_NONE, RESULT_WHATS, RESULTS = RESULT_WHATS + 17 };

#define RESULT(what) (UINT32_C(1) << (what))
#define REFUSAL(number) (UINT32_C(1) << (RESULT_WHATS + (number) - 1))

/* The refusals of the reader of terms, and those for want of room in the space. */
#define READER_REFUSALS (REFUSAL(3) | REFUSAL(4) | REFUSAL(5))
#define ROOM_REFUSALS (REFUSAL(10) | REFUSAL(11))

/* Rows are the kinds of request; behind them stand fresh, build, and the requests that are lent an index. */
enum { FRESH = REQUEST_KINDS, BUILD, INDEXED_CALL, INDEXED_ANSWER, INDEXED_JOIN, TALLY_ROWS };

/* The row of a kind of request that takes an index and is lent one. */
unsigned indexed_row(enum request_kind kind);

/* Counts one result, of a table of an edition. Is it among the possible ones of its row? */
bool tally_result(const uint32_t possible[TALLY_ROWS], uint32_t edition, unsigned row,
                  uint64_t word);

/* Prints the counts, and gives how many of the possible results came less than so often in an edition. */
unsigned check_tally(const uint32_t possible[TALLY_ROWS], uint64_t least);

#endif
