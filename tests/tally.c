/* How often each call had each result in each edition, printed and held to what may and must come. */
#include "tally.h"

#include <inttypes.h>
#include <stdio.h>

/* By edition, from edition 1. */
enum { EDITIONS = 2 };

static uint64_t came[EDITIONS][TALLY_ROWS][RESULTS];

static const char *row_name(unsigned row)
{
    static const char *const others[TALLY_ROWS - REQUEST_KINDS] = {"fresh", "build", "call+", "answer+", "join+"};
    return row < REQUEST_KINDS ? request_names[row] : others[row - REQUEST_KINDS];
}

unsigned indexed_row(enum request_kind kind)
{
    return kind == CALL ? INDEXED_CALL : kind == ANSWER ? INDEXED_ANSWER : INDEXED_JOIN;
}

bool tally_result(const uint32_t possible[TALLY_ROWS], uint32_t edition, unsigned row,
                  uint64_t word)
{
    uint32_t refusal = tables_refused_by(word);
    uint32_t result = refusal > 0 ? RESULT_WHATS + refusal - 1 : tables_what(word);
    if ((refusal == 0 && result > TABLES_BUILT) || result >= RESULTS)
        return false;
    if (refusal == 0 && result >= TABLES_JOINED && tables_value(word) == 0)
        result = result == TABLES_JOINED ? JOINED_NONE : BUILT_NONE;
    came[edition - 1][row][result]++;
    return (possible[row] >> result & 1) != 0;
}

static void print_row(uint32_t edition, unsigned row)
{
    static const char *const whats[RESULT_WHATS] = {
        "done",   "new",     "old",    "open",  "finished",    "at",         "none yet", "cells",
        "counts", "no more", "joined", "built", "joined none", "built none",
    };
    printf("  %-8s", row_name(row));
    for (unsigned result = 0; result < RESULTS; result++) {
        uint64_t count = came[edition - 1][row][result];
        if (count == 0)
            continue;
        if (result < RESULT_WHATS)
            printf(" %s %" PRIu64, whats[result], count);
        else
            printf(" r%u %" PRIu64, result - RESULT_WHATS + 1, count);
    }
    printf("\n");
}

static unsigned check_row(uint32_t possible, uint32_t edition, unsigned row, uint64_t least)
{
    unsigned too_seldom = 0;
    for (unsigned result = 0; result < RESULTS; result++) {
        if ((possible >> result & 1) == 0 || came[edition - 1][row][result] >= least)
            continue;
        too_seldom++;
        printf("failed: too seldom: result %u of %s\n", result, row_name(row));
    }
    return too_seldom;
}

unsigned check_tally(const uint32_t possible[TALLY_ROWS], uint64_t least)
{
    unsigned too_seldom = 0;
    for (uint32_t edition = 1; edition <= EDITIONS; edition++) {
        printf("  edition %u\n", (unsigned)edition);
        for (unsigned row = 0; row < TALLY_ROWS; row++) {
            if (possible[row] != 0)
                print_row(edition, row);
            too_seldom += check_row(possible[row], edition, row, least);
        }
    }
    return too_seldom;
}
