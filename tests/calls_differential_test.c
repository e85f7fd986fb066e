/* Compares the exported calls with the plain table, call by call, over random lists of calls in both editions. */
#define _DEFAULT_SOURCE

#include "../include/tables.h"
#include "drawing.h"
#include "editions.h"
#include "lending.h"
#include "plain_requests.h"
#include "requests.h"
#include "tally.h"

#include <inttypes.h>
#include <stdio.h>
#include <stdlib.h>
#include <string.h>
#include <unistd.h>

enum { LISTS = 60000, LONGEST_LIST = 50, MOST_FAILURES = 10, SECONDS = 50 };
enum { SPACE_CELLS = 40000, OUT_CELLS = TABLES_INSTANCE_CELLS + 20 };

static uint64_t seed = 1;
static unsigned lists = LISTS;
static unsigned failures;

/* What happened how often */

/* All that may come of each call on a space that only the calls wrote; each must come. */
static const uint32_t possible[TALLY_ROWS] = {
    [CALL] = RESULT(TABLES_NEW) | RESULT(TABLES_OLD_OPEN) | RESULT(TABLES_OLD_FINISHED) |
             READER_REFUSALS | REFUSAL(6) | ROOM_REFUSALS,
    [ANSWER] = RESULT(TABLES_NEW) | RESULT(TABLES_OLD) | REFUSAL(7) | REFUSAL(8) | READER_REFUSALS |
               ROOM_REFUSALS,
    [FINISH] = RESULT(TABLES_DONE) | REFUSAL(7),
    [JOIN] = RESULT(TABLES_JOINED) | RESULT(JOINED_NONE) | REFUSAL(7) | REFUSAL(8) | REFUSAL(14) |
             REFUSAL(15) | REFUSAL(16) | REFUSAL(4) | ROOM_REFUSALS,
    [NEXT] = RESULT(TABLES_AT) | RESULT(TABLES_NONE_YET) | RESULT(TABLES_NO_MORE) | REFUSAL(7),
    [LOAD] = RESULT(TABLES_CELLS) | REFUSAL(7) | REFUSAL(12),
    [INSTANCE] = RESULT(TABLES_CELLS) | REFUSAL(7) | REFUSAL(12),
    [COUNTS] = RESULT(TABLES_COUNTS) | REFUSAL(12),
    [FRESH] = RESULT(TABLES_DONE) | REFUSAL(2),
};

/* Calls that a later check would have refused too, and other things that a list must contain. */
enum met_case {
    NUMBER_AND_LENGTH,
    NUMBER_AND_TERM,
    NUMBER_AND_OUT,
    LENGTH_AND_STATE,
    TERM_AND_STATE,
    VARIABLES_AND_STATE,
    STATE_AND_NODES,
    STATE_AND_RECORDS,
    FINISHED_OLD,
    FINISHED_OLD_FULL,
    FINISHED_LACKED,
    LENGTH_AND_TERM,
    LENGTH_AND_VARIABLES,
    TERM_AND_VARIABLES,
    TERM_AND_PREDICATE,
    VARIABLES_AND_PREDICATE,
    PREDICATE_AND_NODES,
    NODES_AND_RECORDS,
    EMPTY_ANSWER_NEW,
    EMPTY_ANSWER_OLD,
    EMPTY_ANSWER_LACKED,
    CELLS_256,
    FORM_383,
    VARIABLES_32,
    INSTANCE_LONG,
    LAST_NODE,
    ARITY_40,
    ARITY_255,
    OTHER_ARITY,
    ARITY_WRITTEN,
    LOW_BITS,
    TAKEN_IN_1,
    TAKEN_IN_2,
    TAKEN_IN_BOTH,
    JOIN_LAST_NODE,
    JOIN_LAST_RECORD,
    JOIN_NODE_SHORT,
    JOIN_RECORD_SHORT,
    JOIN_BOTH_SHORT,
    JOIN_FULL,
    JOIN_OVER_8,
    JOIN_OVER_32,
    JOIN_TO_ANSWERED,
    JOIN_SELF,
    JOIN_OF_TARGET,
    JOIN_GROUND,
    JOIN_GROUND_AGAIN,
    JOIN_NO_PAIRS,
    JOIN_PAIRS_32,
    JOIN_PAIRS_33,
    JOIN_ODD_PAIRS,
    JOIN_ODD_COPIES,
    JOIN_COPY_COUNT,
    JOIN_SIDE,
    JOIN_PAIR_VARIABLE,
    JOIN_COPY_VARIABLE,
    JOIN_NO_ANSWERS,
    JOIN_AGAIN,
    JOIN_LISTS,
    JOIN_WIDE,
    JOIN_CELLS_256,
    JOIN_CELLS_257,
    JOIN_COPIES_32,
    JOIN_NUMBER_AND_NAMES,
    JOIN_STATE_AND_OPEN,
    JOIN_STATE_AND_VARIABLE,
    JOIN_STATE_AND_NAMES,
    JOIN_OPEN_AND_VARIABLE,
    JOIN_OPEN_AND_NAMES,
    JOIN_VARIABLE_AND_NAMES,
    JOIN_NAMES_AND_LENGTH,
    JOIN_LENGTH_AND_NODES,
    NO_MORE_ANSWER,
    NO_MORE_JOIN,
    NO_MORE_FINISH,
    NO_MORE_CALL,
    MET_CASES
};

static const char *const case_names[MET_CASES] = {
    [NUMBER_AND_LENGTH] = "7, 4 too",        [NUMBER_AND_TERM] = "7, 3 too",
    [NUMBER_AND_OUT] = "7, 12 too",          [LENGTH_AND_STATE] = "4 to a finished subgoal",
    [TERM_AND_STATE] = "3",                  [VARIABLES_AND_STATE] = "5",
    [STATE_AND_NODES] = "8, 10 too",         [STATE_AND_RECORDS] = "8, 11 too",
    [FINISHED_OLD] = "finished, held",       [FINISHED_OLD_FULL] = "held, in a full table",
    [FINISHED_LACKED] = "finished, lacked",  [LENGTH_AND_TERM] = "4, 3 too",
    [LENGTH_AND_VARIABLES] = "4, 5 too",     [TERM_AND_VARIABLES] = "3, 5 too",
    [TERM_AND_PREDICATE] = "3, 6 too",       [VARIABLES_AND_PREDICATE] = "5, 6 too",
    [PREDICATE_AND_NODES] = "6, 10 too",     [NODES_AND_RECORDS] = "10, 11 too",
    [EMPTY_ANSWER_NEW] = "empty answer new", [EMPTY_ANSWER_OLD] = "empty answer old",
    [EMPTY_ANSWER_LACKED] = "empty answer lacked",
    [CELLS_256] = "256 cells taken",         [FORM_383] = "383 tokens entered",
    [VARIABLES_32] = "32 variables taken",   [INSTANCE_LONG] = "instance over 256",
    [LAST_NODE] = "last node taken",         [ARITY_40] = "arity 40 taken",
    [ARITY_255] = "arity 255 taken",         [OTHER_ARITY] = "another from 16 to 254 taken",
    [ARITY_WRITTEN] = "arity from 16 to 255 written",
    [LOW_BITS] = "such a payload taken in edition 1",
    [TAKEN_IN_1] = "cells taken in edition 1 alone",
    [TAKEN_IN_2] = "cells taken in edition 2 alone",
    [TAKEN_IN_BOTH] = "cells with functors taken in both",
    [JOIN_LAST_NODE] = "join takes the last node",
    [JOIN_LAST_RECORD] = "the last record",
    [JOIN_NODE_SHORT] = "one node less",
    [JOIN_RECORD_SHORT] = "one record less",
    [JOIN_BOTH_SHORT] = "10, 11 too",
    [JOIN_FULL] = "joined none in a full table",
    [JOIN_OVER_8] = "over 8 joined",
    [JOIN_OVER_32] = "over 32 joined",
    [JOIN_TO_ANSWERED] = "joined to a target with answers",
    [JOIN_SELF] = "first = second",
    [JOIN_OF_TARGET] = "source = target",
    [JOIN_GROUND] = "joined to m = 0",
    [JOIN_GROUND_AGAIN] = "8 of a join to m = 0 with its answer",
    [JOIN_NO_PAIRS] = "no pairs",
    [JOIN_PAIRS_32] = "32 pairs",
    [JOIN_PAIRS_33] = "over 32 pairs",
    [JOIN_ODD_PAIRS] = "odd cells of pairs",
    [JOIN_ODD_COPIES] = "of copies",
    [JOIN_COPY_COUNT] = "a copy more or less",
    [JOIN_SIDE] = "bad side",
    [JOIN_PAIR_VARIABLE] = "bad variable in a pair",
    [JOIN_COPY_VARIABLE] = "in a copy",
    [JOIN_NO_ANSWERS] = "source without answers",
    [JOIN_AGAIN] = "repeated join",
    [JOIN_LISTS] = "lists joined",
    [JOIN_WIDE] = "arity from 16 to 255 joined",
    [JOIN_CELLS_256] = "256 cells joined",
    [JOIN_CELLS_257] = "257 cells",
    [JOIN_COPIES_32] = "32 copies",
    [JOIN_NUMBER_AND_NAMES] = "7, 16 too",
    [JOIN_STATE_AND_OPEN] = "8, 14 too",
    [JOIN_STATE_AND_VARIABLE] = "8, 15 too",
    [JOIN_STATE_AND_NAMES] = "8, 16 too",
    [JOIN_OPEN_AND_VARIABLE] = "14, 15 too",
    [JOIN_OPEN_AND_NAMES] = "14, 16 too",
    [JOIN_VARIABLE_AND_NAMES] = "15, 16 too",
    [JOIN_NAMES_AND_LENGTH] = "16, 4 too",
    [JOIN_LENGTH_AND_NODES] = "4, 10 too",
    [NO_MORE_ANSWER] = "after no more, an answer to it",
    [NO_MORE_JOIN] = "a join into it",
    [NO_MORE_FINISH] = "a finish",
    [NO_MORE_CALL] = "a call",
};

static uint64_t met[MET_CASES];

/* The lists in which a join was made, by edition, from edition 1. */
static unsigned lists_with_joins[LAST_EDITION];

/* One list of calls: the space and the plain table beside it */

struct run {
    unsigned list, call;
    uint32_t edition;
    uint32_t most_nodes, most_subgoals, most_answers;
    size_t space_cells;
    uint32_t *space;
    struct plain_table *plain;
    struct known known;
    uint32_t counts[3];
    struct drawer drawer;
    bool joins; /* a join was made */
    /* Next has said no more of a subgoal, behind this answer; subgoal s at s - 1. */
    bool ended[KNOWN_SUBGOALS];
    uint32_t ended_after[KNOWN_SUBGOALS];
    /* Of a planned list: its plan, and the join for which the capacities were made, or NULL, with what
       is used after it if there is room. */
    const struct plan *plan;
    const struct request *measured;
    uint32_t measured_counts[3];
    bool measured_joined; /* and it is accepted with new answers */
};

static struct arena space_arena, term_arena, copy_arena, out_arena;
static uint32_t space_before[SPACE_CELLS];
static uint32_t out_expected[OUT_CELLS];

static void fail(const struct run *run, const char *call, const char *what, uint64_t got,
                 uint64_t expected)
{
    if (++failures > MOST_FAILURES)
        return;
    printf("failed: seed %" PRIu64 ", list %u%s, edition %u, call %u, %s: %s: %#" PRIx64
           " instead of %#" PRIx64 "\n",
           seed, run->list, run->plan != NULL ? ", planned" : "", (unsigned)run->edition, run->call,
           call, what, got, expected);
}

static void count_result(const struct run *run, unsigned row, uint64_t word)
{
    if (!tally_result(possible, run->edition, row, word))
        fail(run, row == FRESH ? "fresh" : request_names[row], "no result of this call", word,
             word);
}

static bool same_cells(const uint32_t *one, const uint32_t *other, size_t count)
{
    return count == 0 || memcmp(one, other, count * sizeof *one) == 0;
}

static void fill(uint32_t *cells, size_t count)
{
    for (size_t i = 0; i < count; i++)
        cells[i] = (uint32_t)random_word();
}

/* NULL for no cells, now and then. */
static uint32_t *perhaps_null(uint32_t *cells, size_t count)
{
    return count == 0 && chance(50) ? NULL : cells;
}

/* Fresh */

static void check_fresh_cells(const struct run *run, size_t end)
{
    uint32_t subgoal_offset = 8 + 5 * run->most_nodes;
    uint32_t answer_offset = subgoal_offset + 6 * run->most_subgoals;
    const uint32_t header[8] = {run->edition, 1, 0, 0, 8, subgoal_offset, answer_offset,
                                (uint32_t)end};
    if (!same_cells(run->space, header, 8))
        fail(run, "fresh", "header", 0, 0);
    for (size_t i = 8; i < end; i++)
        if (run->space[i] != 0)
            fail(run, "fresh", "a cell that is not 0", run->space[i], 0);
    if (!same_cells(run->space + end, space_before + end, run->space_cells - end))
        fail(run, "fresh", "cells past the end", 0, 0);
}

/* A fresh that is refused: a capacity out of range, a cell too few, or no edition. */
static void refuse_fresh(struct run *run)
{
    uint32_t capacity[3] = {run->most_nodes, run->most_subgoals, run->most_answers};
    static const uint32_t too_many[] = {TABLES_MOST_RECORDS + 1, UINT32_MAX, UINT32_C(1) << 31,
                                        858993459};
    size_t cells = run->space_cells;
    uint32_t edition = run->edition;
    switch (below(5)) {
    case 0:
        capacity[0] = 0;
        break;
    case 1:
        capacity[below(3)] = too_many[below(4)];
        break;
    case 2:
        capacity[below(3)] = TABLES_MOST_RECORDS;
        break;
    case 3:
        edition = draw_no_edition();
        break;
    default:
        cells = TABLES_SPACE_CELLS(capacity[0], capacity[1], capacity[2]) - between(1, 9);
    }
    uint64_t word = tables_fresh(run->space, cells, capacity[0], capacity[1], capacity[2], edition);
    if (word != (uint64_t)(TABLES_CALL_REFUSED + TABLES_REFUSED_FRESH) << 32)
        fail(run, "fresh", "result", word,
             (uint64_t)(TABLES_CALL_REFUSED + TABLES_REFUSED_FRESH) << 32);
    if (!same_cells(run->space, space_before, run->space_cells))
        fail(run, "fresh", "a refused call changed the space", word, 0);
    count_result(run, FRESH, word);
}

/* The edition and the capacities: tiny, or now and then enough for long terms. */
static void draw_table(struct run *run)
{
    bool large = chance(12);
    run->edition = draw_edition();
    run->most_nodes = (uint32_t)(large ? between(300, 1800) : between(1, chance(50) ? 20 : 60));
    run->most_subgoals = (uint32_t)between(chance(90) ? 1 : 0, large ? 9 : 6);
    run->most_answers = (uint32_t)between(chance(90) ? 1 : 0, large ? 20 : 9);
    open_drawer(&run->drawer, run->edition, large ? 40 : 4, 8, chance(50) ? 4 : 9);
}

/* Fresh, and the empty plain table, with the edition and the capacities set. */
static void open_run(struct run *run)
{
    size_t end = TABLES_SPACE_CELLS(run->most_nodes, run->most_subgoals, run->most_answers);
    run->space_cells = end + below(4);
    run->space = lend(&space_arena, run->space_cells, chance(50));
    run->plain =
        plain_table_open(run->most_nodes, run->most_subgoals, run->most_answers, run->edition);
    memset(&run->known, 0, sizeof run->known);
    memset(run->ended, 0, sizeof run->ended);
    run->counts[0] = 1;
    run->counts[1] = run->counts[2] = 0;
    run->call = 0;
    run->joins = false;
    fill(run->space, run->space_cells);
    memcpy(space_before, run->space, run->space_cells * sizeof *run->space);
    if (chance(20))
        refuse_fresh(run);
    uint64_t word = tables_fresh(run->space, run->space_cells, run->most_nodes, run->most_subgoals,
                                 run->most_answers, run->edition);
    if (word != TABLES_DONE)
        fail(run, "fresh", "result", word, TABLES_DONE);
    count_result(run, FRESH, word);
    check_fresh_cells(run, end);
}

/* Comparing */

/* Cells of out: none, one short, just enough or more than enough. */
static size_t draw_room(const struct run *run, const struct request *request)
{
    size_t need = 3;
    if (request->kind == LOAD || request->kind == INSTANCE)
        need = tables_need(ask_plain(run->plain, request, NULL, 0));
    switch (below(6)) {
    case 0:
        return below(need + 1);
    case 1:
        return need > 0 ? need - 1 : 0;
    case 2:
        return need + between(1, 9);
    default:
        return need;
    }
}

/* Must a call that had this result leave every cell of the space? */
static bool leaves_space(const struct request *request, uint64_t word)
{
    if (request->kind == JOIN)
        return tables_value(word) == 0;
    return only_reads(request->kind) ||
           (tables_what(word) != TABLES_NEW && tables_what(word) != TABLES_DONE);
}

static void compare_cells(const struct run *run, const struct request *request, uint64_t word,
                          size_t room)
{
    const char *name = request_names[request->kind];
    size_t end = TABLES_SPACE_CELLS(run->most_nodes, run->most_subgoals, run->most_answers);
    if (!same_cells(out_arena.lent, out_expected, room))
        fail(run, name, "cells of out", word, word);
    if (leaves_space(request, word) && !same_cells(run->space, space_before, run->space_cells))
        fail(run, name, "the space was changed", word, word);
    if (!same_cells(run->space + end, space_before + end, run->space_cells - end))
        fail(run, name, "cells past the end of the space were changed", word, word);
    if (!same_cells(term_arena.lent, request->argument.cell, request->argument.count))
        fail(run, name, "the terms or pairs were changed", word, word);
    if (!same_cells(copy_arena.lent, request->copies.cell, request->copies.count))
        fail(run, name, "the copies were changed", word, word);
    if (!marks_kept(&space_arena) || !marks_kept(&term_arena) || !marks_kept(&copy_arena) ||
        !marks_kept(&out_arena))
        fail(run, name, "cells beside those lent were changed", word, word);
}

static void compare_counts(struct run *run, const char *name)
{
    uint32_t got[3] = {0, 0, 0};
    uint64_t word = tables_counts(run->space, run->space_cells, got, 3);
    plain_table_counts(run->plain, run->counts, 3);
    if (word != ((uint64_t)TABLES_COUNTS << 32) + 3)
        fail(run, name, "result of counts", word, ((uint64_t)TABLES_COUNTS << 32) + 3);
    for (int i = 0; i < 3; i++)
        if (got[i] != run->counts[i])
            fail(run, name,
                 i == 0   ? "nodes used"
                 : i == 1 ? "subgoals used"
                          : "answers used",
                 got[i], run->counts[i]);
}

/* Makes one request of both and compares all that is seen. */
static uint64_t compare_request(struct run *run, const struct request *request, size_t room)
{
    size_t count = request->argument.count, copy_cells = request->copies.count;
    uint32_t *out = lend(&out_arena, room, chance(50));
    uint32_t *cells = lend(&term_arena, count, chance(50));
    uint32_t *copies = lend(&copy_arena, copy_cells, chance(50));
    fill(out, room);
    if (room > 0)
        memcpy(out_expected, out, room * sizeof *out);
    memcpy(cells, request->argument.cell, count * sizeof *cells);
    memcpy(copies, request->copies.cell, copy_cells * sizeof *copies);
    memcpy(space_before, run->space, run->space_cells * sizeof *run->space);
    uint64_t expected = ask_plain(run->plain, request, out_expected, room);
    uint64_t word = make_request(request, run->space, run->space_cells, perhaps_null(cells, count),
                                 perhaps_null(copies, copy_cells), perhaps_null(out, room), room);
    if (word != expected)
        fail(run, request_names[request->kind], "result", word, expected);
    compare_cells(run, request, expected, room);
    count_result(run, request->kind, word);
    return expected;
}

/* Counting what was met */

static bool has_illegal_cell(const struct argument *argument)
{
    for (size_t i = 0; i < argument->count; i++)
        if (TABLES_KIND(argument->cell[i]) == 0 || TABLES_KIND(argument->cell[i]) > TABLES_PAIR)
            return true;
    return false;
}

static bool is_callable(const struct argument *argument)
{
    uint32_t kind = argument->count == 0 ? 0 : TABLES_KIND(argument->cell[0]);
    return kind == TABLES_ATOM || kind == TABLES_FUNCTOR;
}

static void count_argument_cases(const struct request *request, uint32_t refusal)
{
    const struct argument *argument = &request->argument;
    bool is_long = argument->count > TABLES_TERM_CELLS, illegal = has_illegal_cell(argument);
    bool many = refusal != 0 && distinct_variables(argument) > TABLES_TERM_VARIABLES;
    bool no_predicate = request->kind == CALL && argument->count > 0 && !is_callable(argument);
    met[NUMBER_AND_LENGTH] += refusal == 7 && is_long;
    met[NUMBER_AND_TERM] += refusal == 7 && illegal;
    met[LENGTH_AND_TERM] += refusal == 4 && illegal;
    met[LENGTH_AND_VARIABLES] += refusal == 4 && many;
    met[TERM_AND_VARIABLES] += refusal == 3 && many;
    met[TERM_AND_PREDICATE] += refusal == 3 && no_predicate;
    met[VARIABLES_AND_PREDICATE] += refusal == 5 && no_predicate;
}

/* Of an answer to a subgoal that is finished before the call, with the counts as they were. */
static void count_finished(const struct run *run, const struct request *request, uint64_t word,
                           const uint32_t before[3])
{
    uint32_t what = tables_what(word), refusal = tables_refused_by(word), number = request->number;
    bool no_node = before[0] == run->most_nodes, no_record = before[2] == run->most_answers;
    bool empty = request->argument.count == 0;
    if (request->kind != ANSWER || number == 0 || number > run->known.subgoals ||
        !run->known.finished[number - 1])
        return;
    met[LENGTH_AND_STATE] += refusal == 4;
    met[TERM_AND_STATE] += refusal == 3;
    met[VARIABLES_AND_STATE] += refusal == 5;
    met[STATE_AND_NODES] += refusal == 8 && no_node && !empty;
    met[STATE_AND_RECORDS] += refusal == 8 && no_record;
    met[FINISHED_OLD] += what == TABLES_OLD && !empty;
    met[FINISHED_OLD_FULL] += what == TABLES_OLD && no_node && no_record;
    met[FINISHED_LACKED] += refusal == 8 && !empty;
    met[EMPTY_ANSWER_LACKED] += refusal == 8 && empty;
}

/* Is there a functor among the cells whose arity, as the edition reads it, is one of these? */
static bool has_arity(const uint32_t *cells, size_t count, uint32_t edition, uint32_t least,
                      uint32_t most)
{
    for (size_t i = 0; i < count; i++) {
        uint32_t arity = arity_in(edition, cells[i]);
        if (TABLES_KIND(cells[i]) == TABLES_FUNCTOR && arity >= least && arity <= most)
            return true;
    }
    return false;
}

/* Of an argument that was new, or of what a call wrote to out. */
static void count_arities(uint32_t edition, uint32_t what, const struct argument *argument,
                          size_t written)
{
    const uint32_t *cells = argument->cell;
    size_t count = what == TABLES_NEW ? argument->count : 0;
    bool wide = edition == TABLES_EDITION_2;
    met[ARITY_40] += wide && has_arity(cells, count, edition, 40, 40);
    met[ARITY_255] += wide && has_arity(cells, count, edition, 255, 255);
    met[OTHER_ARITY] += wide && (has_arity(cells, count, edition, 16, 39) ||
                                 has_arity(cells, count, edition, 41, 254));
    met[ARITY_WRITTEN] += wide && what == TABLES_CELLS &&
                          has_arity(out_expected, written, edition, 16, 255);
    met[LOW_BITS] += !wide && has_arity(cells, count, TABLES_EDITION_2, 16, 255);
}

/* With the counts as they were before the call, and after it. */
static void count_cases(const struct run *run, const struct request *request, uint64_t word,
                        size_t room, const uint32_t before[3])
{
    uint32_t what = tables_what(word), refusal = tables_refused_by(word);
    bool enters = request->kind == CALL || request->kind == ANSWER;
    bool full =
        request->kind == CALL ? before[1] == run->most_subgoals : before[2] == run->most_answers;
    size_t cells = request->argument.count;
    if (enters)
        count_argument_cases(request, refusal);
    count_finished(run, request, word, before);
    count_arities(run->edition, what, &request->argument, tables_value(word));
    met[NUMBER_AND_OUT] += refusal == 7 && !enters && request->kind >= LOAD && room == 0;
    met[PREDICATE_AND_NODES] += refusal == 6 && before[0] == run->most_nodes;
    met[NODES_AND_RECORDS] += refusal == 10 && full;
    met[EMPTY_ANSWER_NEW] += request->kind == ANSWER && what == TABLES_NEW && cells == 0;
    met[EMPTY_ANSWER_OLD] += request->kind == ANSWER && what == TABLES_OLD && cells == 0;
    met[CELLS_256] += what == TABLES_NEW && cells == TABLES_TERM_CELLS;
    met[FORM_383] += what == TABLES_NEW && request->kind == CALL &&
                     run->counts[0] - before[0] == TABLES_COMPACT_CELLS + 1;
    met[VARIABLES_32] += what == TABLES_NEW && cells >= TABLES_TERM_VARIABLES &&
                         distinct_variables(&request->argument) == TABLES_TERM_VARIABLES;
    met[INSTANCE_LONG] +=
        request->kind == INSTANCE && what == TABLES_CELLS && tables_value(word) > TABLES_TERM_CELLS;
    met[LAST_NODE] +=
        what == TABLES_NEW && before[0] < run->most_nodes && run->counts[0] == run->most_nodes;
}

/* Is a variable, every second cell from the first, out of range for so many? */
static bool has_no_variable(const struct argument *pairs, size_t first, uint32_t variables)
{
    for (size_t i = first; i < pairs->count; i += 2)
        if (pairs->cell[i] >= variables)
            return true;
    return false;
}

/* Is a side neither 0 nor 1? */
static bool has_no_side(const struct argument *copies)
{
    for (size_t i = 0; i + 1 < copies->count; i += 2)
        if (copies->cell[i] > 1)
            return true;
    return false;
}

/* Is a copy's variable out of range, its side in range? */
static bool has_no_copy(const struct argument *copies, const uint32_t variables[2])
{
    for (size_t i = 0; i + 1 < copies->count; i += 2)
        if (copies->cell[i] <= 1 && copies->cell[i + 1] >= variables[copies->cell[i]])
            return true;
    return false;
}

static void count_names(const struct request *request, const uint32_t variables[2], uint32_t due)
{
    const struct argument *pairs = &request->argument, *copies = &request->copies;
    met[JOIN_PAIRS_33] += pairs->count > 64;
    met[JOIN_ODD_PAIRS] += pairs->count % 2 == 1;
    met[JOIN_ODD_COPIES] += copies->count % 2 == 1;
    met[JOIN_COPY_COUNT] += copies->count % 2 == 0 && copies->count != 2 * (size_t)due;
    met[JOIN_SIDE] += has_no_side(copies);
    met[JOIN_PAIR_VARIABLE] +=
        has_no_variable(pairs, 0, variables[0]) || has_no_variable(pairs, 1, variables[1]);
    met[JOIN_COPY_VARIABLE] += has_no_copy(copies, variables);
}

/* Of a join refused by one number, which others would refuse it too. */
static void count_join_refusal(const struct run *run, const struct request *request,
                               uint32_t refusal, const uint32_t before[3])
{
    const struct known *known = &run->known;
    bool numbered = refusal != 7 && request->number <= KNOWN_SUBGOALS &&
                    request->second <= KNOWN_SUBGOALS && request->target <= KNOWN_SUBGOALS;
    met[JOIN_NUMBER_AND_NAMES] += refusal == 7 && request->argument.count > 64;
    if (!numbered)
        return;
    size_t first = request->number - 1, second = request->second - 1, target = request->target - 1;
    const uint32_t variables[2] = {known->variables[first],
                                   known->variables[second]};
    uint32_t due = known->variables[target];
    bool open = !known->finished[first] || !known->finished[second];
    bool variable =
        known->holds_variables[first] || known->holds_variables[second];
    bool names = has_no_variable(&request->argument, 0, variables[0]) ||
                 has_no_variable(&request->argument, 1, variables[1]) ||
                 request->argument.count > 64 || request->argument.count % 2 == 1 ||
                 request->copies.count != 2 * (size_t)due || has_no_side(&request->copies) ||
                 has_no_copy(&request->copies, variables);
    if (refusal == 16)
        count_names(request, variables, due);
    met[JOIN_GROUND_AGAIN] += refusal == 8 && due == 0 && known->answered[target] > 0;
    met[JOIN_OF_TARGET] += (refusal == 8 || refusal == 14) && (first == target || second == target);
    met[JOIN_STATE_AND_OPEN] += refusal == 8 && open;
    met[JOIN_STATE_AND_VARIABLE] += refusal == 8 && variable;
    met[JOIN_STATE_AND_NAMES] += refusal == 8 && names;
    met[JOIN_OPEN_AND_VARIABLE] += refusal == 14 && variable;
    met[JOIN_OPEN_AND_NAMES] += refusal == 14 && names;
    met[JOIN_VARIABLE_AND_NAMES] += refusal == 15 && names;
    if (run->plan == NULL || request != run->measured)
        return;
    bool node_short = run->measured_joined && run->most_nodes + 1 == run->measured_counts[0];
    bool record_short = run->measured_joined && run->most_answers + 1 == run->measured_counts[2];
    met[JOIN_NODE_SHORT] += refusal == 10 && node_short;
    met[JOIN_RECORD_SHORT] += refusal == 11 && record_short;
    met[JOIN_BOTH_SHORT] += refusal == 10 && record_short;
    met[JOIN_CELLS_257] += refusal == 4 && run->plan->joined_cells == 257;
    met[JOIN_NAMES_AND_LENGTH] += refusal == 16 && run->plan->joined_cells == 257;
    met[JOIN_LENGTH_AND_NODES] += refusal == 4 && before[0] == run->most_nodes;
}

/* Of an accepted join. */
static void count_joined(const struct run *run, const struct request *request, uint32_t joined,
                         const uint32_t before[3])
{
    static const struct request *last;
    static unsigned last_list;
    const struct known *known = &run->known;
    size_t first = request->number - 1, second = request->second - 1, target = request->target - 1;
    bool more = joined > 0;
    met[JOIN_LAST_NODE] +=
        more && before[0] < run->most_nodes && run->counts[0] == run->most_nodes;
    met[JOIN_LAST_RECORD] += more && run->counts[2] == run->most_answers;
    met[JOIN_FULL] += !more && before[0] == run->most_nodes && before[2] == run->most_answers;
    met[JOIN_OVER_8] += joined > 8;
    met[JOIN_OVER_32] += joined > 32;
    met[JOIN_TO_ANSWERED] += more && known->answered[target] > 0;
    met[JOIN_SELF] += more && first == second;
    met[JOIN_GROUND] += more && known->variables[target] == 0;
    met[JOIN_NO_PAIRS] += more && request->argument.count == 0;
    met[JOIN_PAIRS_32] += more && request->argument.count == 64;
    met[JOIN_COPIES_32] += more && request->copies.count == 64;
    met[JOIN_NO_ANSWERS] += !more && request->argument.count == 0 &&
                            (known->answered[first] == 0) !=
                                (known->answered[second] == 0);
    met[JOIN_AGAIN] += !more && last_list == run->list && last != NULL && last != request &&
                       last->target == request->target &&
                       same_cells(last->argument.cell, request->argument.cell,
                                  request->argument.count) &&
                       same_cells(last->copies.cell, request->copies.cell, request->copies.count);
    last = more ? request : NULL;
    last_list = run->list;
}

/* Joins once more */

/*
 * A join is the same as its new answers given one by one: loaded from the space
 * in order of their numbers and given to the space as it was before, they make
 * every cell of it. That space is spoilt by this.
 */
static void check_singly(const struct run *run, const struct request *request,
                         const uint32_t before[3])
{
    static uint32_t cells[TABLES_TERM_CELLS];
    bool lists = false, wide = false;
    for (uint32_t answer = before[2] + 1; answer <= run->counts[2]; answer++) {
        uint64_t word = tables_load(run->space, run->space_cells, answer, cells, TABLES_TERM_CELLS);
        size_t count = tables_value(word);
        if (tables_what(word) != TABLES_CELLS)
            fail(run, "join", "load of a new answer", word, answer);
        word = tables_answer(space_before, run->space_cells, request->target, cells, count);
        if (word != ((uint64_t)TABLES_NEW << 32) + answer)
            fail(run, "join", "a new answer by itself", word, answer);
        for (size_t i = 0; i < count; i++)
            lists = lists || cells[i] == TABLES_PAIR_CELL;
        wide = wide || (run->edition == TABLES_EDITION_2 &&
                        has_arity(cells, count, TABLES_EDITION_2, 16, 255));
        met[JOIN_CELLS_256] += count == TABLES_TERM_CELLS;
    }
    met[JOIN_LISTS] += lists;
    met[JOIN_WIDE] += wide;
    if (!same_cells(run->space, space_before, run->space_cells))
        fail(run, "join", "other cells than by single answers", 0, 0);
}

/* Every answer of every subgoal, in order, is the plain table's. */
static void compare_answers(const struct run *run)
{
    static uint32_t got[TABLES_TERM_CELLS], expected[TABLES_TERM_CELLS];
    for (uint32_t subgoal = 1; subgoal <= run->counts[1]; subgoal++) {
        uint32_t answer = 0;
        do {
            uint64_t word = tables_next(run->space, run->space_cells, subgoal, answer);
            uint64_t expected_word = plain_table_next(run->plain, subgoal, answer);
            if (word != expected_word)
                fail(run, "join", "next behind it", word, expected_word);
            answer = tables_value(expected_word);
            if (answer == 0)
                break;
            word = tables_load(run->space, run->space_cells, answer, got, TABLES_TERM_CELLS);
            expected_word = plain_table_load(run->plain, answer, expected, TABLES_TERM_CELLS);
            if (word != expected_word || !same_cells(got, expected, tables_value(expected_word)))
                fail(run, "join", "load behind it", word, expected_word);
        } while (failures < MOST_FAILURES);
    }
}

static void check_join(struct run *run, const struct request *request, uint64_t word,
                       const uint32_t before[3])
{
    run->joins = true;
    if (tables_refused_by(word) != 0) {
        count_join_refusal(run, request, tables_refused_by(word), before);
        return;
    }
    count_joined(run, request, tables_value(word), before);
    if (tables_value(word) != 0 && failures == 0) {
        check_singly(run, request, before);
        compare_answers(run);
    }
}

/* After no more */

/* Walks to the end of a finished subgoal, where next must say no more, and keeps the place. */
static void find_end(struct run *run, uint32_t subgoal)
{
    uint32_t after = 0;
    uint64_t word = tables_next(run->space, run->space_cells, subgoal, 0);
    while (tables_what(word) == TABLES_AT) {
        after = tables_value(word);
        word = tables_next(run->space, run->space_cells, subgoal, after);
    }
    if (word != (uint64_t)TABLES_NO_MORE << 32)
        fail(run, "next", "the end of a finished subgoal", word, (uint64_t)TABLES_NO_MORE << 32);
    run->ended[subgoal - 1] = true;
    run->ended_after[subgoal - 1] = after;
}

static void count_after_no_more(const struct request *request, uint64_t word, uint32_t subgoal)
{
    bool names = request->number == subgoal;
    met[NO_MORE_ANSWER] += request->kind == ANSWER && names;
    met[NO_MORE_JOIN] += request->kind == JOIN && request->target == subgoal;
    met[NO_MORE_FINISH] += request->kind == FINISH && names;
    met[NO_MORE_CALL] += request->kind == CALL && tables_value(word) == subgoal;
}

/* Once next has said no more it says so from the same place, whatever was called in between. */
static void check_ends(struct run *run, const struct request *request, uint64_t word)
{
    for (uint32_t subgoal = 1; subgoal <= run->known.subgoals; subgoal++) {
        if (!run->ended[subgoal - 1] && run->known.finished[subgoal - 1])
            find_end(run, subgoal);
        if (!run->ended[subgoal - 1])
            continue;
        uint64_t next = tables_next(run->space, run->space_cells, subgoal,
                                    run->ended_after[subgoal - 1]);
        if (next != (uint64_t)TABLES_NO_MORE << 32)
            fail(run, request_names[request->kind], "an answer after no more", next,
                 (uint64_t)TABLES_NO_MORE << 32);
        count_after_no_more(request, word, subgoal);
    }
}

/* The lists */

static enum request_kind draw_kind(const struct known *known)
{
    static const enum request_kind kinds[] = {CALL,   CALL,   CALL,     CALL,   ANSWER, ANSWER,
                                              ANSWER, ANSWER, ANSWER,   ANSWER, FINISH, NEXT,
                                              NEXT,   LOAD,   INSTANCE, COUNTS, FINISH, JOIN};
    if (known->subgoals == 0 && chance(70))
        return CALL;
    return kinds[below(sizeof kinds / sizeof *kinds)];
}

/* One list as it was drawn, and what came of each request. */
static struct {
    size_t count;
    struct request request[LONGEST_LIST];
    uint64_t word[LONGEST_LIST];
} drawn;

static uint64_t run_request(struct run *run, const struct request *request)
{
    uint32_t before[3];
    bool writes_out =
        request->kind == LOAD || request->kind == INSTANCE || request->kind == COUNTS;
    size_t room = writes_out ? draw_room(run, request) : 0;
    memcpy(before, run->counts, sizeof before);
    run->call++;
    uint64_t word = compare_request(run, request, room);
    compare_counts(run, request_names[request->kind]);
    count_cases(run, request, word, room, before);
    if (request->kind == JOIN)
        check_join(run, request, word, before);
    learn_result(&run->known, request, word);
    if (!only_reads(request->kind))
        check_ends(run, request, word);
    return word;
}

static void close_run(struct run *run)
{
    lists_with_joins[run->edition - 1] += run->joins;
    plain_table_close(run->plain);
}

/* Draws a list for a table of an edition, and makes its requests. */
static void run_drawn(struct run *run)
{
    draw_table(run);
    open_run(run);
    drawn.count = between(1, LONGEST_LIST);
    for (size_t i = 0; i < drawn.count; i++) {
        struct request *request = &drawn.request[i];
        draw_request(&run->drawer, draw_kind(&run->known), &run->known, request);
        drawn.word[i] = run_request(run, request);
    }
    close_run(run);
}

/* Was the argument taken, new or old? */
static bool is_taken(uint64_t word)
{
    return tables_what(word) >= TABLES_NEW && tables_what(word) <= TABLES_OLD_FINISHED;
}

/* Counts what the two editions say of the same cells. */
static void count_both(const struct request *request, uint32_t edition, uint64_t word,
                       uint64_t other_word)
{
    uint64_t in_1 = edition == TABLES_EDITION_1 ? word : other_word;
    uint64_t in_2 = edition == TABLES_EDITION_1 ? other_word : word;
    bool enters = request->kind == CALL || request->kind == ANSWER;
    met[TAKEN_IN_1] += enters && is_taken(in_1) && tables_refused_by(in_2) == TABLES_REFUSED_TERM;
    met[TAKEN_IN_2] += enters && is_taken(in_2) && tables_refused_by(in_1) == TABLES_REFUSED_TERM;
    met[TAKEN_IN_BOTH] += enters && is_taken(in_1) && is_taken(in_2) &&
                          has_arity(request->argument.cell, request->argument.count,
                                    TABLES_EDITION_1, 1, 15);
}

/* The same requests for a table of the other edition, with the same capacities. */
static void run_again(struct run *run)
{
    run->edition = other_edition(run->edition);
    open_run(run);
    for (size_t i = 0; i < drawn.count; i++) {
        uint64_t word = run_request(run, &drawn.request[i]);
        count_both(&drawn.request[i], run->edition, word, drawn.word[i]);
    }
    close_run(run);
}

/* Planned lists, with joins, in tables that are made for one of them */

/* What is used after each of the plan's requests if there is room; the first join, or one that has new answers. */
static void measure_plan(struct run *run)
{
    struct plain_table *roomy = plain_table_open(TABLES_MOST_RECORDS, TABLES_MOST_RECORDS,
                                                 TABLES_MOST_RECORDS, run->edition);
    bool later = chance(30);
    run->measured = NULL;
    run->measured_joined = false;
    for (size_t i = 0; i < run->plan->count; i++) {
        const struct request *request = &run->plan->request[i];
        uint64_t word = ask_plain(roomy, request, out_expected, OUT_CELLS);
        bool joined = tables_what(word) == TABLES_JOINED && tables_value(word) > 0;
        if (request->kind != JOIN ||
            (run->measured != NULL && (!joined || (run->measured_joined && !later))))
            continue;
        run->measured = request;
        run->measured_joined = joined;
        plain_table_counts(roomy, run->measured_counts, 3);
    }
    plain_table_close(roomy);
}

/* Just enough for that join, one node less, one record less, both, or more than enough. */
static void draw_measured(struct run *run)
{
    uint32_t nodes = run->measured_counts[0], answers = run->measured_counts[2];
    switch (below(8)) {
    case 0:
        nodes--;
        answers += (uint32_t)below(3);
        break;
    case 1:
        nodes--;
        break;
    case 2:
        nodes -= nodes > 1;
        answers -= answers > 0;
        break;
    case 3:
        answers -= answers > 0;
        nodes += (uint32_t)below(20);
        break;
    case 4:
        answers -= answers > 0;
        break;
    case 5:
        nodes += (uint32_t)between(0, 60);
        answers += (uint32_t)between(0, 20);
        break;
    default:
        break;
    }
    run->most_nodes = nodes;
    run->most_subgoals = run->measured_counts[1] + (uint32_t)below(2);
    run->most_answers = answers;
}

/* A plan of an edition whose table is not too large for the space. */
static void run_planned(struct run *run, uint32_t edition)
{
    static struct plan plan;
    run->edition = edition;
    run->plan = &plan;
    do {
        draw_plan(edition, &plan);
        measure_plan(run);
        draw_measured(run);
    } while (TABLES_SPACE_CELLS(run->most_nodes, run->most_subgoals, run->most_answers) + 4 >
             SPACE_CELLS);
    open_run(run);
    for (size_t i = 0; i < plan.count; i++)
        run_request(run, &plan.request[i]);
    close_run(run);
    run->plan = NULL;
}

/* A list for both editions, and a plan for each. */
static void run_list(unsigned list)
{
    static struct run run;
    run.list = list;
    run_drawn(&run);
    run_again(&run);
    run_planned(&run, TABLES_EDITION_1);
    run_planned(&run, TABLES_EDITION_2);
}

/* The published lists of calls, written for edition 1, which hold the plain table to the request too */

struct published {
    struct request request;
    uint64_t word;
};

#define WORD(what, value) (((uint64_t)(what) << 32) + (value))
#define REFUSED_WORD(number) WORD(TABLES_CALL_REFUSED + (number), 0)
#define F2 TABLES_FUNCTOR_CELL(TABLES_EDITION_1, 1, 2)
#define G1 TABLES_FUNCTOR_CELL(TABLES_EDITION_1, 2, 1)
#define G2 TABLES_FUNCTOR_CELL(TABLES_EDITION_1, 2, 2)
#define H1 TABLES_FUNCTOR_CELL(TABLES_EDITION_1, 3, 1)
#define X TABLES_CELL(TABLES_VARIABLE, 7)
#define Y TABLES_CELL(TABLES_VARIABLE, 9)
#define A TABLES_CELL(TABLES_ATOM, 4)
#define B TABLES_CELL(TABLES_ATOM, 5)
#define ONE TABLES_CELL(TABLES_INTEGER, 1)
#define COUNT(...) (sizeof((uint32_t[]){__VA_ARGS__}) / sizeof(uint32_t))
#define CALL_OF(...) {.kind = CALL, .argument = {COUNT(__VA_ARGS__), {__VA_ARGS__}}}
#define ANSWER_OF(subgoal, ...) \
    {.kind = ANSWER, .number = (subgoal), .argument = {COUNT(__VA_ARGS__), {__VA_ARGS__}}}
#define EMPTY_ANSWER_OF(subgoal) {.kind = ANSWER, .number = (subgoal)}
#define FINISH_OF(subgoal) {.kind = FINISH, .number = (subgoal)}
#define NEXT_OF(subgoal, answer) {.kind = NEXT, .number = (subgoal), .after = (answer)}
#define INSTANCE_OF(answer) {.kind = INSTANCE, .number = (answer)}
/* Of 1 and 2, where the second variable of the one is the first of the other. */
#define JOIN_OF(target_number, ...) \
    {.kind = JOIN, .number = 1, .second = 2, .target = (target_number), .argument = {2, {1, 0}}, \
     .copies = {COUNT(__VA_ARGS__), {__VA_ARGS__}}}

/* The worked session. */
static const struct published session[] = {
    {CALL_OF(F2, G1, X, H1, Y), WORD(TABLES_NEW, 1)},
    {CALL_OF(F2, G1, Y, H1, X), WORD(TABLES_OLD_OPEN, 1)},
    {ANSWER_OF(1, B, B), WORD(TABLES_NEW, 1)},
    {ANSWER_OF(1, A, A), WORD(TABLES_NEW, 2)},
    {ANSWER_OF(1, B, B), WORD(TABLES_OLD, 1)},
    {NEXT_OF(1, 1), WORD(TABLES_AT, 2)},
    {FINISH_OF(1), WORD(TABLES_DONE, 0)},
    {ANSWER_OF(1, A, B), REFUSED_WORD(8)},
    {NEXT_OF(1, 2), WORD(TABLES_NO_MORE, 0)},
    {INSTANCE_OF(2), WORD(TABLES_CELLS, 5)},
};

/* M9, with 11 nodes and with 10; M10. */
static const struct published three_subgoals[] = {
    {CALL_OF(F2, X, A), WORD(TABLES_NEW, 1)},
    {CALL_OF(G2, X, Y), WORD(TABLES_NEW, 2)},
    {CALL_OF(F2, Y, ONE), WORD(TABLES_NEW, 3)},
};
static const struct published node_short[] = {
    {CALL_OF(F2, X, A), WORD(TABLES_NEW, 1)},
    {CALL_OF(G2, X, Y), WORD(TABLES_NEW, 2)},
    {CALL_OF(F2, Y, ONE), REFUSED_WORD(10)},
};
static const struct published ground_subgoal[] = {
    {CALL_OF(G1, A), WORD(TABLES_NEW, 1)},
    {CALL_OF(G1, A), WORD(TABLES_OLD_OPEN, 1)},
    {NEXT_OF(1, 0), WORD(TABLES_NONE_YET, 0)},
    {EMPTY_ANSWER_OF(1), WORD(TABLES_NEW, 1)},
    {EMPTY_ANSWER_OF(1), WORD(TABLES_OLD, 1)},
    {CALL_OF(G1, A), WORD(TABLES_OLD_FINISHED, 1)},
    {NEXT_OF(1, 1), WORD(TABLES_NO_MORE, 0)},
    {FINISH_OF(1), WORD(TABLES_DONE, 0)},
    {EMPTY_ANSWER_OF(1), WORD(TABLES_OLD, 1)},
};

/* What a finished subgoal holds is old, what it lacks is 8: f(X,a), in a table without a node left. */
static const struct published finished_subgoal[] = {
    {CALL_OF(F2, X, A), WORD(TABLES_NEW, 1)},
    {ANSWER_OF(1, B), WORD(TABLES_NEW, 1)},
    {ANSWER_OF(1, G1, X), WORD(TABLES_NEW, 2)},
    {ANSWER_OF(1, A), REFUSED_WORD(10)},
    {FINISH_OF(1), WORD(TABLES_DONE, 0)},
    {ANSWER_OF(1, B), WORD(TABLES_OLD, 1)},
    {ANSWER_OF(1, G1, Y), WORD(TABLES_OLD, 2)},
    {ANSWER_OF(1, A), REFUSED_WORD(8)},
    {ANSWER_OF(1, G1, B), REFUSED_WORD(8)},
    {ANSWER_OF(1, B, B), REFUSED_WORD(3)},
    {EMPTY_ANSWER_OF(1), REFUSED_WORD(3)},
    {ANSWER_OF(2, B), REFUSED_WORD(7)},
    {NEXT_OF(1, 2), WORD(TABLES_NO_MORE, 0)},
};

/*
 * f(X,Y), g(Y,Z) joined to g(g(X),Z): b a and b 1, sharing b, so 3 nodes on top
 * of 18; with a node less, neither.
 */
#define SOURCES \
    {CALL_OF(F2, X, Y), WORD(TABLES_NEW, 1)}, {CALL_OF(G2, X, Y), WORD(TABLES_NEW, 2)}, \
        {CALL_OF(G2, G1, X, Y), WORD(TABLES_NEW, 3)}, {ANSWER_OF(1, B, A), WORD(TABLES_NEW, 1)}, \
        {ANSWER_OF(2, A, A), WORD(TABLES_NEW, 2)}, {ANSWER_OF(2, A, ONE), WORD(TABLES_NEW, 3)}, \
        {JOIN_OF(3, 0, 0, 1, 1), REFUSED_WORD(14)}, {FINISH_OF(1), WORD(TABLES_DONE, 0)}, \
        {FINISH_OF(2), WORD(TABLES_DONE, 0)}, {JOIN_OF(3, 0, 0, 2, 1), REFUSED_WORD(16)}

static const struct published joined[] = {
    SOURCES,
    {JOIN_OF(3, 0, 0, 1, 1), WORD(TABLES_JOINED, 2)},
    {JOIN_OF(3, 0, 0, 1, 1), WORD(TABLES_JOINED, 0)},
    {NEXT_OF(3, 4), WORD(TABLES_AT, 5)},
    {ANSWER_OF(3, B, A), WORD(TABLES_OLD, 4)},
    {ANSWER_OF(3, B, ONE), WORD(TABLES_OLD, 5)},
};
/* Into g(g(a)), which is ground: the join that enters its answer finishes it. */
static const struct published joined_to_ground[] = {
    SOURCES,
    {CALL_OF(G1, G1, A), WORD(TABLES_NEW, 4)},
    {NEXT_OF(4, 0), WORD(TABLES_NONE_YET, 0)},
    {{.kind = JOIN, .number = 1, .second = 2, .target = 4, .argument = {2, {1, 0}}}, WORD(TABLES_JOINED, 1)},
    {NEXT_OF(4, 4), WORD(TABLES_NO_MORE, 0)},
    {{.kind = JOIN, .number = 1, .second = 2, .target = 4, .argument = {2, {1, 0}}}, REFUSED_WORD(8)},
    {EMPTY_ANSWER_OF(4), WORD(TABLES_OLD, 4)},
    {CALL_OF(G1, G1, A), WORD(TABLES_OLD_FINISHED, 4)},
    {JOIN_OF(3, 0, 0, 1, 1), WORD(TABLES_JOINED, 2)},
};

static const struct published join_short_of_nodes[] = {
    SOURCES,
    {JOIN_OF(3, 0, 0, 1, 1), REFUSED_WORD(10)},
    {NEXT_OF(3, 0), WORD(TABLES_NONE_YET, 0)},
};

/*
 * Once next has said no more it says so again from the same place, whatever is
 * called: of 1, which has two answers, behind the second, and of 2, which has none.
 */
#define NO_MORE_OF_BOTH {NEXT_OF(1, 2), WORD(TABLES_NO_MORE, 0)}, {NEXT_OF(2, 0), WORD(TABLES_NO_MORE, 0)}

static const struct published no_more[] = {
    {CALL_OF(F2, X, Y), WORD(TABLES_NEW, 1)},
    {CALL_OF(G2, X, Y), WORD(TABLES_NEW, 2)},
    {NEXT_OF(1, 0), WORD(TABLES_NONE_YET, 0)},
    {ANSWER_OF(1, B, A), WORD(TABLES_NEW, 1)},
    {NEXT_OF(1, 1), WORD(TABLES_NONE_YET, 0)},
    {ANSWER_OF(1, A, A), WORD(TABLES_NEW, 2)},
    {NEXT_OF(1, 1), WORD(TABLES_AT, 2)},
    {NEXT_OF(1, 2), WORD(TABLES_NONE_YET, 0)},
    {FINISH_OF(1), WORD(TABLES_DONE, 0)},
    {NEXT_OF(1, 2), WORD(TABLES_NO_MORE, 0)},
    {NEXT_OF(2, 0), WORD(TABLES_NONE_YET, 0)},
    {FINISH_OF(2), WORD(TABLES_DONE, 0)},
    NO_MORE_OF_BOTH,
    {ANSWER_OF(1, B, A), WORD(TABLES_OLD, 1)},
    {ANSWER_OF(1, A, A), WORD(TABLES_OLD, 2)},
    NO_MORE_OF_BOTH,
    {ANSWER_OF(1, A, B), REFUSED_WORD(8)},
    NO_MORE_OF_BOTH,
    {ANSWER_OF(2, A, B), REFUSED_WORD(8)},
    NO_MORE_OF_BOTH,
    {JOIN_OF(1, 0, 0, 1, 1), REFUSED_WORD(8)},
    {JOIN_OF(2, 0, 0, 1, 1), REFUSED_WORD(8)},
    NO_MORE_OF_BOTH,
    {FINISH_OF(1), WORD(TABLES_DONE, 0)},
    {FINISH_OF(2), WORD(TABLES_DONE, 0)},
    NO_MORE_OF_BOTH,
    {CALL_OF(F2, Y, X), WORD(TABLES_OLD_FINISHED, 1)},
    {CALL_OF(G1, X), WORD(TABLES_NEW, 3)},
    {ANSWER_OF(3, A), WORD(TABLES_NEW, 3)},
    {JOIN_OF(3, 0, 0), WORD(TABLES_JOINED, 0)},
    {FINISH_OF(3), WORD(TABLES_DONE, 0)},
    NO_MORE_OF_BOTH,
    {NEXT_OF(1, 1), WORD(TABLES_AT, 2)},
    {NEXT_OF(3, 3), WORD(TABLES_NO_MORE, 0)},
};

static void recode_argument(struct argument *argument, uint32_t edition)
{
    for (size_t i = 0; i < argument->count; i++)
        argument->cell[i] = recoded(edition, argument->cell[i]);
}

/* Makes the calls in an edition with so many nodes; both tables must use `nodes_used` of them. */
static void run_published(const struct published *rows, size_t count, uint32_t edition,
                          uint32_t nodes, uint32_t nodes_used)
{
    static struct run run;
    run = (struct run){
        .edition = edition, .most_nodes = nodes, .most_subgoals = 50, .most_answers = 100};
    open_run(&run);
    for (size_t i = 0; i < count; i++) {
        struct request request = rows[i].request;
        if (request.kind != JOIN)
            recode_argument(&request.argument, edition);
        uint64_t word = compare_request(&run, &request, request.kind == INSTANCE ? 9 : 0);
        if (word != rows[i].word)
            fail(&run, request_names[request.kind], "published", word, rows[i].word);
        compare_counts(&run, request_names[request.kind]);
        run.call++;
    }
    if (run.counts[0] != nodes_used)
        fail(&run, "counts", "published", run.counts[0], nodes_used);
    plain_table_close(run.plain);
}

static void check_published(uint32_t edition)
{
    struct argument instance = {5, {F2, G1, A, H1, A}};
    recode_argument(&instance, edition);
    run_published(session, sizeof session / sizeof *session, edition, 1000, 11);
    if (!same_cells(out_arena.lent, instance.cell, instance.count))
        fail(&(struct run){.edition = edition}, "instance", "published cells", 0, 0);
    run_published(three_subgoals, 3, edition, 11, 11);
    run_published(node_short, 3, edition, 10, 9);
    run_published(ground_subgoal, sizeof ground_subgoal / sizeof *ground_subgoal, edition, 4, 4);
    run_published(finished_subgoal, sizeof finished_subgoal / sizeof *finished_subgoal, edition, 8, 8);
    run_published(joined_to_ground, sizeof joined_to_ground / sizeof *joined_to_ground, edition, 30, 25);
    run_published(joined, sizeof joined / sizeof *joined, edition, 21, 21);
    run_published(join_short_of_nodes, sizeof join_short_of_nodes / sizeof *join_short_of_nodes,
                  edition, 20, 18);
    run_published(no_more, sizeof no_more / sizeof *no_more, edition, 20, 17);
}

/* The report */

/* How often a case must come at least: one list in 4,000, and what finished subgoals answer, one in 40. */
static uint64_t least_of(enum met_case which)
{
    switch (which) {
    case LENGTH_AND_STATE:
    case TERM_AND_STATE:
    case STATE_AND_NODES:
    case STATE_AND_RECORDS:
    case FINISHED_OLD:
    case FINISHED_OLD_FULL:
    case FINISHED_LACKED:
    case EMPTY_ANSWER_NEW:
    case EMPTY_ANSWER_OLD:
    case EMPTY_ANSWER_LACKED:
    case JOIN_GROUND_AGAIN:
    case NO_MORE_ANSWER:
    case NO_MORE_JOIN:
        return lists / 40;
    default:
        return lists / 4000;
    }
}

static void check_cases(void)
{
    for (unsigned i = 0; i < MET_CASES; i++) {
        printf("%s%s %" PRIu64, i % 6 == 0 ? "  " : ", ", case_names[i], met[i]);
        printf(i % 6 == 5 || i + 1 == MET_CASES ? "\n" : "");
    }
    for (unsigned i = 0; i < MET_CASES; i++) {
        if (met[i] >= least_of((enum met_case)i))
            continue;
        failures++;
        printf("failed: too seldom: %s\n", case_names[i]);
    }
    for (unsigned i = 0; i < LAST_EDITION; i++) {
        printf("  lists with joins in edition %u: %u\n", i + 1, lists_with_joins[i]);
        if (lists_with_joins[i] >= lists / 3) /* 20,000 of 60,000 */
            continue;
        failures++;
        printf("failed: too few lists with joins\n");
    }
}

/* Arguments: the seed, and the number of lists. */
int main(int argc, char **argv)
{
    if (argc > 1)
        seed = strtoull(argv[1], NULL, 10);
    if (argc > 2)
        lists = (unsigned)strtoul(argv[2], NULL, 10);
    setvbuf(stdout, NULL, _IOLBF, BUFSIZ);
    report_crashes();
    open_arena(&space_arena, SPACE_CELLS);
    open_arena(&term_arena, ARGUMENT_CELLS);
    open_arena(&copy_arena, ARGUMENT_CELLS);
    open_arena(&out_arena, OUT_CELLS);
    seed_drawing(seed);
    check_published(TABLES_EDITION_1);
    check_published(TABLES_EDITION_2);
    for (unsigned list = 1; list <= lists && failures < MOST_FAILURES; list++) {
        if (list % 100 == 1)
            alarm(SECONDS);
        note_place("seed %" PRIu64 ", list %u", seed, list);
        run_list(list);
    }
    if (failures == 0) {
        failures += check_tally(possible, lists / 200); /* each, one list in 200 at least */
        check_cases();
    }
    printf("calls_differential_test: seed %" PRIu64 ", %u lists, %u failures\n", seed, lists,
           failures);
    return failures == 0 ? 0 : 1;
}
