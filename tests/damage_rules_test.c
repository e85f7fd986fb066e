/* Checks each rule on damaged spaces by itself, in both editions: a sound space, a cell changed, one call's result. */
#define _DEFAULT_SOURCE

#include "../include/tables.h"
#include "editions.h"
#include "lending.h"

#include <inttypes.h>
#include <stdbool.h>
#include <stdio.h>
#include <stdlib.h>
#include <string.h>
#include <unistd.h>

/* The edition of the spaces at present. */
static uint32_t edition;

/* Cells by name; functors f/2, g/1, q/1, as edition 1 writes them: they are recoded where they are used. */
#define VAR(name) TABLES_CELL(TABLES_VARIABLE, name)
#define A TABLES_CELL(TABLES_ATOM, 1)
#define B TABLES_CELL(TABLES_ATOM, 2)
#define C TABLES_CELL(TABLES_ATOM, 3)
#define D TABLES_CELL(TABLES_ATOM, 4)
#define F2 TABLES_FUNCTOR_CELL(TABLES_EDITION_1, 1, 2)
#define G1 TABLES_FUNCTOR_CELL(TABLES_EDITION_1, 2, 1)
#define Q1 TABLES_FUNCTOR_CELL(TABLES_EDITION_1, 3, 1)
#define NIL TABLES_EMPTY_LIST
#define PAIR TABLES_PAIR_CELL
#define BLIST TABLES_CELL(TABLES_BLIST, 0)
#define ELIST TABLES_CELL(TABLES_ELIST, 0)
#define EPAIR TABLES_CELL(TABLES_EPAIR, 0)

/*
 * The sound space. Subgoals: 1 f(X,a), 2 f(X,Y), 3 q(a), which its answer has
 * finished. Answers: 1 b, 2 c and 4 g(b) of subgoal 1, the empty answer 3 of
 * subgoal 3, 5 b and Z, and 6 [b|c] and d of subgoal 2.
 *
 *      0 root of the subgoals       4 answer root of subgoal 1
 *        1 f/2                        10 b    answer 1
 *          2 VAR0                     11 c    answer 2
 *            3 a     subgoal 1        12 g/1
 *            5 VAR1  subgoal 2          13 b  answer 4
 *        7 q/1                      6 answer root of subgoal 2
 *          8 a       subgoal 3        14 b
 *                                       15 VAR0  answer 5
 *                                     16 BLIST, 17 b, 18 EPAIR, 19 c, 20 d  answer 6
 *                                   9 answer root of subgoal 3: answer 3
 */
enum { NODES = 21, SUBGOALS = 3, ANSWERS = 6 };

/* Capacities: with records to spare, or with none. */
enum { ROOMY_NODES = 36, ROOMY_SUBGOALS = 5, ROOMY_ANSWERS = 10 };

enum { TOKEN, CHILD, SIBLING, PARENT, LINK };
enum { LEAF, ROOT, VARIABLES, STATE, FIRST, LAST };
enum { ANSWER_LEAF, ANSWER_SUBGOAL, NEXT_ANSWER };

static const uint32_t sound_nodes[NODES][5] = {
    {0, 1, 0, 0, 0},      {F2, 2, 7, 0, 0},     {VAR(0), 3, 0, 1, 0},  {A, 0, 5, 2, 1},
    {0, 10, 0, 4, 0},     {VAR(1), 0, 0, 2, 2}, {0, 14, 0, 6, 0},      {Q1, 8, 0, 0, 0},
    {A, 0, 0, 7, 3},      {0, 0, 0, 9, 3},      {B, 0, 11, 4, 1},      {C, 0, 12, 4, 2},
    {G1, 13, 0, 4, 0},    {B, 0, 0, 12, 4},     {B, 15, 16, 6, 0},     {VAR(0), 0, 0, 14, 5},
    {BLIST, 17, 0, 6, 0}, {B, 18, 0, 16, 0},    {EPAIR, 19, 0, 17, 0}, {C, 20, 0, 18, 0},
    {D, 0, 0, 19, 6},
};
static const uint32_t sound_subgoals[SUBGOALS][6] = {
    {3, 4, 1, 0, 1, 4}, {5, 6, 2, 0, 5, 6}, {8, 9, 0, 1, 3, 3}};
static const uint32_t sound_answers[ANSWERS][3] = {{10, 1, 2}, {11, 1, 4}, {9, 3, 0},
                                                   {13, 1, 0}, {15, 2, 6}, {20, 2, 0}};

/* A cell of the space, by sort, number and field. */
enum sort { NO_CHANGE, NODE_CELL, SUBGOAL_CELL, ANSWER_CELL };

struct change {
    enum sort sort;
    uint32_t number, field, value;
};

#define NODE(number, field, value) {NODE_CELL, number, field, value}
#define SUBGOAL(number, field, value) {SUBGOAL_CELL, number, field, value}
#define ANSWER(number, field, value) {ANSWER_CELL, number, field, value}

/* One call. */
enum call { CALL, ANSWERS_TO, FINISH, NEXT, LOAD, INSTANCE, COUNTS };

enum { ROW_CELLS = 6, OUT_CELLS = 12, SECONDS = 20 };

struct request {
    enum call call;
    uint32_t number, after;
    size_t cells;
    uint32_t cell[ROW_CELLS];
    size_t out_short; /* cells of out that are not lent */
};

#define COUNT(...) (sizeof((uint32_t[]){__VA_ARGS__}) / sizeof(uint32_t))
#define CALL_OF(...) {CALL, 0, 0, COUNT(__VA_ARGS__), {__VA_ARGS__}, 0}
#define ANSWER_OF(subgoal, ...) {ANSWERS_TO, subgoal, 0, COUNT(__VA_ARGS__), {__VA_ARGS__}, 0}
#define EMPTY_ANSWER_OF(subgoal) {ANSWERS_TO, subgoal, 0, 0, {0}, 0}
#define FINISH_OF(subgoal) {FINISH, subgoal, 0, 0, {0}, 0}
#define NEXT_OF(subgoal, after) {NEXT, subgoal, after, 0, {0}, 0}
#define LOAD_OF(answer) {LOAD, answer, 0, 0, {0}, 0}
#define INSTANCE_OF(answer) {INSTANCE, answer, 0, 0, {0}, 0}
#define LOAD_SHORT(answer) {LOAD, answer, 0, 0, {0}, OUT_CELLS}
#define INSTANCE_SHORT(answer) {INSTANCE, answer, 0, 0, {0}, OUT_CELLS}
#define COUNTS_OF {COUNTS, 0, 0, 0, {0}, 0}

#define CALL_FXA CALL_OF(F2, VAR(7), A)
#define CALL_FXY CALL_OF(F2, VAR(7), VAR(8))
#define CALL_QA CALL_OF(Q1, A)
#define CALL_NEW CALL_OF(Q1, B)

#define SAID(what, value) ((uint64_t)(what) << 32 | (value))
#define REFUSED(number) SAID(TABLES_CALL_REFUSED + (number), 0)
#define DAMAGED REFUSED(9)

enum room { ROOMY, TIGHT };

struct row {
    const char *rule;
    enum room room;
    struct change change[3];
    struct request request;
    uint64_t result;
};

static const struct row rows[] = {
#include "damage_rows.inc"
};

/* The space */

enum { SPACE_CELLS = TABLES_SPACE_CELLS(ROOMY_NODES, ROOMY_SUBGOALS, ROOMY_ANSWERS) + 2 };

struct space {
    size_t count;
    uint32_t cell[SPACE_CELLS];
};

static unsigned checks, failures;

static void check(int holds, const char *rule, const char *what)
{
    checks++;
    if (!holds) {
        failures++;
        printf("failed: edition %u: %s: %s\n", (unsigned)edition, rule, what);
    }
}

static size_t place(const struct space *space, enum sort sort, uint32_t number, uint32_t field)
{
    switch (sort) {
    case NODE_CELL:
        return 8 + 5 * (size_t)number + field;
    case SUBGOAL_CELL:
        return space->cell[5] + 6 * (size_t)(number - 1) + field;
    default:
        return space->cell[6] + 3 * (size_t)(number - 1) + field;
    }
}

/* The sound space written cell by cell, with two cells past its end. */
static void write_sound(struct space *space, enum room room)
{
    uint32_t nodes = room == ROOMY ? ROOMY_NODES : NODES;
    uint32_t subgoals = room == ROOMY ? ROOMY_SUBGOALS : SUBGOALS;
    uint32_t answers = room == ROOMY ? ROOMY_ANSWERS : ANSWERS;
    uint32_t end = (uint32_t)TABLES_SPACE_CELLS(nodes, subgoals, answers);
    const uint32_t header[8] = {edition, NODES,         SUBGOALS,          ANSWERS,
                                8,       8 + 5 * nodes, end - 3 * answers, end};
    memset(space, 0, sizeof *space);
    space->count = end + 2;
    memcpy(space->cell, header, sizeof header);
    memcpy(&space->cell[place(space, NODE_CELL, 0, 0)], sound_nodes, sizeof sound_nodes);
    for (uint32_t node = 0; node < NODES; node++)
        space->cell[place(space, NODE_CELL, node, TOKEN)] = recoded(edition, sound_nodes[node][TOKEN]);
    memcpy(&space->cell[place(space, SUBGOAL_CELL, 1, 0)], sound_subgoals, sizeof sound_subgoals);
    memcpy(&space->cell[place(space, ANSWER_CELL, 1, 0)], sound_answers, sizeof sound_answers);
    space->cell[end] = space->cell[end + 1] = UINT32_C(0xfeedface);
}

/* Making a call */

static uint64_t make(const struct request *request, struct space *space, uint32_t *out)
{
    uint32_t recoded_cell[ROW_CELLS];
    const uint32_t *cells = request->cells == 0 ? NULL : recoded_cell;
    size_t room = OUT_CELLS - request->out_short;
    for (size_t i = 0; i < request->cells; i++)
        recoded_cell[i] = recoded(edition, request->cell[i]);
    switch (request->call) {
    case CALL:
        return tables_call(space->cell, space->count, cells, request->cells);
    case ANSWERS_TO:
        return tables_answer(space->cell, space->count, request->number, cells, request->cells);
    case FINISH:
        return tables_finish(space->cell, space->count, request->number);
    case NEXT:
        return tables_next(space->cell, space->count, request->number, request->after);
    case LOAD:
        return tables_load(space->cell, space->count, request->number, out, room);
    case INSTANCE:
        return tables_instance(space->cell, space->count, request->number, out, room);
    default:
        return tables_counts(space->cell, space->count, out, room);
    }
}

/* Makes the call and checks its result; a refused or reading call, and an old answer, must leave every cell. */
static void check_call(const char *rule, struct space *space, const struct request *request,
                       uint64_t result)
{
    struct space before = *space;
    uint32_t out[OUT_CELLS], out_before[OUT_CELLS];
    memset(out, 0xa5, sizeof out);
    memcpy(out_before, out, sizeof out);
    uint64_t word = make(request, space, out);
    if (word != result)
        printf("%s: %#" PRIx64 " instead of %#" PRIx64 "\n", rule, word, result);
    check(word == result, rule, "result");
    bool refused = tables_refused_by(word) != 0;
    if (refused || request->call >= NEXT || tables_what(word) == TABLES_OLD)
        check(memcmp(space, &before, sizeof before) == 0, rule, "the space was changed");
    if (refused || request->call < LOAD)
        check(memcmp(out, out_before, sizeof out) == 0, rule, "out was changed");
}

static void check_row(const struct row *row)
{
    struct space space;
    note_place("%s", row->rule);
    write_sound(&space, row->room);
    for (size_t i = 0; i < sizeof row->change / sizeof *row->change; i++) {
        const struct change *change = &row->change[i];
        if (change->sort == NO_CHANGE)
            continue;
        uint32_t *cell = &space.cell[place(&space, change->sort, change->number, change->field)];
        bool is_token = change->sort == NODE_CELL && change->field == TOKEN;
        uint32_t value = is_token ? recoded(edition, change->value) : change->value;
        check(*cell != value, row->rule, "the row changes nothing");
        *cell = value;
    }
    check_call(row->rule, &space, &row->request, row->result);
}

/* What is written cell by cell must be what the calls leave. */
static void check_sound(enum room room)
{
    static const struct request requests[] = {
        CALL_FXA,
        CALL_FXY,
        CALL_QA,
        ANSWER_OF(1, B),
        ANSWER_OF(1, C),
        EMPTY_ANSWER_OF(3),
        ANSWER_OF(1, G1, B),
        ANSWER_OF(2, B, VAR(5)),
        ANSWER_OF(2, PAIR, B, C, D),
    };
    struct space sound, made;
    uint32_t out[OUT_CELLS];
    write_sound(&sound, room);
    memset(&made, 0, sizeof made);
    made.count = sound.count;
    for (size_t i = 0; i < made.count; i++)
        made.cell[i] = UINT32_C(0xfeedface);
    uint64_t word =
        room == ROOMY ? tables_fresh(made.cell, made.count, ROOMY_NODES, ROOMY_SUBGOALS,
                                     ROOMY_ANSWERS, edition)
                      : tables_fresh(made.cell, made.count, NODES, SUBGOALS, ANSWERS, edition);
    check(word == TABLES_DONE, "the sound space", "fresh");
    for (size_t i = 0; i < sizeof requests / sizeof *requests; i++) {
        word = make(&requests[i], &made, out);
        check(tables_what(word) == TABLES_NEW, "the sound space", "new");
    }
    check(memcmp(&made, &sound, sizeof made) == 0, "the sound space", "cells left by the calls");
}

/* Cells beyond the counts may hold anything: new records are written whole over them. */
static void check_beyond(void)
{
    static const struct request requests[] = {CALL_NEW, ANSWER_OF(1, D), ANSWER_OF(2, C, D),
                                              EMPTY_ANSWER_OF(4)};
    struct space clean, dirty;
    uint32_t out[OUT_CELLS];
    write_sound(&clean, ROOMY);
    write_sound(&dirty, ROOMY);
    for (size_t i = place(&dirty, NODE_CELL, NODES, 0); i < dirty.cell[5]; i++)
        dirty.cell[i] = 3;
    for (size_t i = place(&dirty, SUBGOAL_CELL, SUBGOALS + 1, 0); i < dirty.cell[6]; i++)
        dirty.cell[i] = 1;
    for (size_t i = place(&dirty, ANSWER_CELL, ANSWERS + 1, 0); i < dirty.cell[7]; i++)
        dirty.cell[i] = 1;
    for (size_t i = 0; i < sizeof requests / sizeof *requests; i++) {
        uint64_t word = make(&requests[i], &clean, out);
        check(tables_what(word) == TABLES_NEW, "cells beyond the counts", "new");
        check(make(&requests[i], &dirty, out) == word, "cells beyond the counts", "result");
    }
    size_t nodes_end = place(&clean, NODE_CELL, clean.cell[1], 0);
    size_t subgoals = place(&clean, SUBGOAL_CELL, 1, 0), answers = place(&clean, ANSWER_CELL, 1, 0);
    check(memcmp(clean.cell, dirty.cell, nodes_end * sizeof *clean.cell) == 0,
          "cells beyond the counts", "nodes");
    check(memcmp(&clean.cell[subgoals], &dirty.cell[subgoals], 6 * 4 * sizeof *clean.cell) == 0,
          "cells beyond the counts", "subgoals");
    check(memcmp(&clean.cell[answers], &dirty.cell[answers], 3 * 9 * sizeof *clean.cell) == 0,
          "cells beyond the counts", "answers");
}

/* Headers: one cell changed, or the space cut short; every call is refused by 1. */
static void check_header(const char *rule, const struct space *space)
{
    static const struct request requests[] = {CALL_FXA,      ANSWER_OF(9, BLIST), FINISH_OF(0),
                                              NEXT_OF(0, 0), LOAD_OF(0),          INSTANCE_OF(0),
                                              COUNTS_OF,     LOAD_SHORT(0)};
    struct space lent = *space;
    note_place("%s", rule);
    for (size_t i = 0; i < sizeof requests / sizeof *requests; i++)
        check_call(rule, &lent, &requests[i], REFUSED(1));
    uint64_t word = tables_counts(lent.cell, lent.count, NULL, 0);
    check(word == REFUSED(1), rule, "1 before 12");
}

/* The offsets of the space with records to spare. */
enum {
    SUBGOAL_OFFSET = 8 + 5 * ROOMY_NODES,
    ANSWER_OFFSET = SUBGOAL_OFFSET + 6 * ROOMY_SUBGOALS,
    END = ANSWER_OFFSET + 3 * ROOMY_ANSWERS
};

/* Each breaks one rule alone: the other capacities stay whole and above their counts. */
static const struct {
    const char *rule;
    uint32_t field, value;
} headers[] = {
    {"no node used", 1, 0},
    {"nodes above their capacity", 1, ROOMY_NODES + 1},
    {"subgoals above their capacity", 2, ROOMY_SUBGOALS + 1},
    {"answers above their capacity", 3, ROOMY_ANSWERS + 1},
    {"all bits of a count", 3, UINT32_MAX},
    {"node offset 7", 4, 7},
    {"node offset 9", 4, 9},
    {"node offset 13", 4, 13},
    {"nodes not whole", 5, SUBGOAL_OFFSET - 6},
    {"no room for a node", 5, 8},
    {"subgoal offset below 8", 5, 2},
    {"subgoals not whole", 6, ANSWER_OFFSET - 3},
    {"offsets fall", 6, SUBGOAL_OFFSET - 6},
    {"offsets fall far", 6, 4},
    {"answers not whole", 7, END - 1},
    {"end below the answers", 7, ANSWER_OFFSET - 3},
    {"end above the length", 7, END + 3},
    {"more answers than any space has", 7, ANSWER_OFFSET + 3 * (TABLES_MOST_RECORDS + 1)},
};

static void check_headers(void)
{
    struct space sound, space;
    write_sound(&sound, ROOMY);
    for (size_t i = 0; i < sizeof headers / sizeof *headers; i++) {
        space = sound;
        space.cell[headers[i].field] = headers[i].value;
        check_header(headers[i].rule, &space);
    }
    for (size_t i = 0; i < NO_EDITIONS; i++) {
        space = sound;
        space.cell[0] = no_editions[i];
        check_header("no edition", &space);
    }
    for (size_t cut = 0; cut < 12; cut++) {
        space = sound;
        space.count = cut < 8 ? cut : sound.count - 3 - (cut - 8);
        check_header("cut short", &space);
    }
}

/*
 * The sound space with the other edition in its header. What edition 1 wrote as
 * f/2, g/1 and q/1 has 18, 33 and 49 arguments in edition 2; what edition 2
 * wrote keeps its arities in edition 1.
 */
static const struct {
    struct request request; /* with the cells that the space was made with */
    uint64_t as_edition_2;  /* of a space made in edition 1 */
    uint64_t as_edition_1;  /* of a space made in edition 2 */
} other_readings[] = {
    {CALL_FXA, REFUSED(3), SAID(TABLES_OLD_OPEN, 1)},
    {CALL_NEW, REFUSED(3), SAID(TABLES_NEW, SUBGOALS + 1)},
    {CALL_OF(A), SAID(TABLES_NEW, SUBGOALS + 1), SAID(TABLES_NEW, SUBGOALS + 1)},
    {ANSWER_OF(1, B), SAID(TABLES_OLD, 1), SAID(TABLES_OLD, 1)},
    {ANSWER_OF(1, D), SAID(TABLES_NEW, ANSWERS + 1), SAID(TABLES_NEW, ANSWERS + 1)},
    {ANSWER_OF(1, G1, B), REFUSED(3), SAID(TABLES_OLD, 4)},
    {EMPTY_ANSWER_OF(3), SAID(TABLES_OLD, 3), SAID(TABLES_OLD, 3)},
    {FINISH_OF(1), SAID(TABLES_DONE, 0), SAID(TABLES_DONE, 0)},
    {NEXT_OF(1, 2), SAID(TABLES_AT, 4), SAID(TABLES_AT, 4)},
    {NEXT_OF(1, 4), SAID(TABLES_NONE_YET, 0), SAID(TABLES_NONE_YET, 0)},
    {NEXT_OF(3, 3), SAID(TABLES_NO_MORE, 0), SAID(TABLES_NO_MORE, 0)},
    {LOAD_OF(1), SAID(TABLES_CELLS, 1), SAID(TABLES_CELLS, 1)},
    {LOAD_OF(3), SAID(TABLES_CELLS, 0), SAID(TABLES_CELLS, 0)},
    {LOAD_OF(4), DAMAGED, SAID(TABLES_CELLS, 2)},
    {LOAD_SHORT(4), DAMAGED, SAID(TABLES_CALL_REFUSED + 12, 2)},
    {LOAD_OF(6), SAID(TABLES_CELLS, 4), SAID(TABLES_CELLS, 4)},
    {INSTANCE_OF(1), DAMAGED, SAID(TABLES_CELLS, 3)},
    {INSTANCE_OF(3), DAMAGED, SAID(TABLES_CELLS, 2)},
    {INSTANCE_SHORT(1), DAMAGED, SAID(TABLES_CALL_REFUSED + 12, 3)},
    {COUNTS_OF, SAID(TABLES_COUNTS, 3), SAID(TABLES_COUNTS, 3)},
};

static void check_other_readings(void)
{
    for (size_t i = 0; i < sizeof other_readings / sizeof *other_readings; i++) {
        struct space space;
        write_sound(&space, ROOMY);
        space.cell[0] = other_edition(edition);
        check_call("read by the other edition", &space, &other_readings[i].request,
                   edition == TABLES_EDITION_1 ? other_readings[i].as_edition_2
                                               : other_readings[i].as_edition_1);
        check(space.cell[0] == other_edition(edition), "read by the other edition", "the edition");
    }
}

/* Finished subgoals */

struct step {
    struct request request;
    uint64_t result;
};

/* The calls one after another, each in the space that the one before left. */
static void check_steps(const char *rule, struct space *space, const struct step *steps, size_t count)
{
    note_place("%s", rule);
    for (size_t i = 0; i < count; i++)
        check_call(rule, space, &steps[i].request, steps[i].result);
}

/* A ground subgoal is finished by its answer, and nothing else is written than for any answer. */
static void check_ground(void)
{
    static const char rule[] = "a ground subgoal and its answer";
    static const struct step steps[] = {
        {CALL_NEW, SAID(TABLES_NEW, 4)},          {NEXT_OF(4, 0), SAID(TABLES_NONE_YET, 0)},
        {ANSWER_OF(4, B), REFUSED(3)},            {CALL_NEW, SAID(TABLES_OLD_OPEN, 4)},
        {EMPTY_ANSWER_OF(4), SAID(TABLES_NEW, 7)}, {NEXT_OF(4, 0), SAID(TABLES_AT, 7)},
        {NEXT_OF(4, 7), SAID(TABLES_NO_MORE, 0)}, {CALL_NEW, SAID(TABLES_OLD_FINISHED, 4)},
        {EMPTY_ANSWER_OF(4), SAID(TABLES_OLD, 7)}, {ANSWER_OF(4, B), REFUSED(3)},
        {FINISH_OF(4), SAID(TABLES_DONE, 0)},     {EMPTY_ANSWER_OF(4), SAID(TABLES_OLD, 7)},
        {LOAD_OF(7), SAID(TABLES_CELLS, 0)},      {NEXT_OF(4, 7), SAID(TABLES_NO_MORE, 0)},
    };
    static const uint32_t subgoal[6] = {21, 22, 0, 1, 7, 7}, answer[3] = {22, 4, 0};
    static const uint32_t root[5] = {0, 0, 0, 22, 7};
    struct space space;
    write_sound(&space, ROOMY);
    check_steps(rule, &space, steps, sizeof steps / sizeof *steps);
    check(space.cell[1] == 23 && space.cell[2] == 4 && space.cell[3] == 7, rule, "counts");
    check(memcmp(&space.cell[place(&space, SUBGOAL_CELL, 4, 0)], subgoal, sizeof subgoal) == 0, rule,
          "the subgoal's record");
    check(memcmp(&space.cell[place(&space, ANSWER_CELL, 7, 0)], answer, sizeof answer) == 0, rule,
          "the answer's record");
    check(memcmp(&space.cell[place(&space, NODE_CELL, 22, 0)], root, sizeof root) == 0, rule,
          "the answer root");
}

/* An open ground subgoal that holds its answer, as no call leaves it: old changes no state, finish does. */
static void check_open_ground(void)
{
    static const char rule[] = "an open ground subgoal that holds its answer";
    static const struct step steps[] = {
        {EMPTY_ANSWER_OF(3), SAID(TABLES_OLD, 3)}, {CALL_QA, SAID(TABLES_OLD_OPEN, 3)},
        {NEXT_OF(3, 0), SAID(TABLES_AT, 3)},       {NEXT_OF(3, 3), SAID(TABLES_NONE_YET, 0)},
        {EMPTY_ANSWER_OF(3), SAID(TABLES_OLD, 3)}, {NEXT_OF(3, 3), SAID(TABLES_NONE_YET, 0)},
        {FINISH_OF(3), SAID(TABLES_DONE, 0)},      {NEXT_OF(3, 3), SAID(TABLES_NO_MORE, 0)},
        {EMPTY_ANSWER_OF(3), SAID(TABLES_OLD, 3)}, {CALL_QA, SAID(TABLES_OLD_FINISHED, 3)},
    };
    struct space space, sound;
    write_sound(&sound, ROOMY);
    space = sound;
    space.cell[place(&space, SUBGOAL_CELL, 3, STATE)] = 0;
    check_steps(rule, &space, steps, sizeof steps / sizeof *steps);
    check(memcmp(&space, &sound, sizeof sound) == 0, rule, "the space is the sound one in the end");
}

/* Ground is what the record says: m 0 and a root without a link, though the subgoal has a variable. */
static void check_bent_ground(void)
{
    static const char rule[] = "a recorded m of 0";
    static const struct step steps[] = {
        {EMPTY_ANSWER_OF(1), SAID(TABLES_NEW, 7)}, {CALL_FXA, SAID(TABLES_OLD_FINISHED, 1)},
        {EMPTY_ANSWER_OF(1), SAID(TABLES_OLD, 7)}, {NEXT_OF(1, 4), SAID(TABLES_AT, 7)},
        {NEXT_OF(1, 7), SAID(TABLES_NO_MORE, 0)},
    };
    struct space space;
    write_sound(&space, ROOMY);
    space.cell[place(&space, SUBGOAL_CELL, 1, VARIABLES)] = 0;
    check_steps(rule, &space, steps, sizeof steps / sizeof *steps);
}

/* So many cells: a list of atoms or of different variables, or, if they are even, one cell short of it. */
static void write_list(uint32_t *cells, size_t count, bool variables)
{
    for (size_t i = 0; i + 1 < count; i += 2) {
        cells[i] = PAIR;
        cells[i + 1] = variables ? VAR(i / 2) : D;
    }
    cells[count - 1] = NIL;
}

/* 4, 3 and 5 before 8, which comes of terms within the limits, also in a full table. */
static void check_finished_lengths(enum room room)
{
    static const struct {
        const char *rule;
        size_t cells;
        bool variables;
        uint64_t result;
    } offers[] = {
        {"finished: 257 cells", 257, false, REFUSED(4)},
        {"finished: 257 cells and too many variables", 257, true, REFUSED(4)},
        {"finished: 256 cells, not a term", 256, false, REFUSED(3)},
        {"finished: 255 cells", 255, false, REFUSED(8)},
        {"finished: 33 variables", 67, true, REFUSED(5)},
        {"finished: 32 variables", 65, true, REFUSED(8)},
    };
    for (size_t i = 0; i < sizeof offers / sizeof *offers; i++) {
        uint32_t cells[257];
        struct space space, before;
        write_list(cells, offers[i].cells, offers[i].variables);
        write_sound(&space, room);
        space.cell[place(&space, SUBGOAL_CELL, 1, STATE)] = 1;
        before = space;
        uint64_t word = tables_answer(space.cell, space.count, 1, cells, offers[i].cells);
        check(word == offers[i].result, offers[i].rule, "result");
        check(memcmp(&space, &before, sizeof before) == 0, offers[i].rule, "the space was changed");
    }
}

/* NULL for no cells, in every call. */
static void check_nothing_lent(void)
{
    const char *rule = "nothing lent";
    note_place("%s", rule);
    check(tables_fresh(NULL, 0, 1, 0, 0, edition) == REFUSED(2), rule, "fresh");
    check(tables_call(NULL, 0, NULL, 0) == REFUSED(1), rule, "call");
    check(tables_answer(NULL, 0, 1, NULL, 0) == REFUSED(1), rule, "answer");
    check(tables_finish(NULL, 0, 1) == REFUSED(1), rule, "finish");
    check(tables_next(NULL, 0, 1, 0) == REFUSED(1), rule, "next");
    check(tables_load(NULL, 0, 1, NULL, 0) == REFUSED(1), rule, "load");
    check(tables_instance(NULL, 0, 1, NULL, 0) == REFUSED(1), rule, "instance");
    check(tables_counts(NULL, 0, NULL, 0) == REFUSED(1), rule, "counts");
}

/* The largest capacity of each sort, and one more, with cells enough for both. */

static void check_largest(const char *rule, size_t sort)
{
    static const uint32_t record_cells[3] = {5, 6, 3};
    uint32_t capacity[3] = {1, 0, 0};
    capacity[sort] = TABLES_MOST_RECORDS + 1;
    size_t cells = TABLES_SPACE_CELLS(capacity[0], capacity[1], capacity[2]);
    uint32_t *space = calloc(cells, sizeof *space), counts[3];
    if (space == NULL) {
        perror(rule);
        exit(2);
    }
    uint64_t word = tables_fresh(space, cells, capacity[0], capacity[1], capacity[2], edition);
    check(word == REFUSED(2), rule, "fresh with one more");
    capacity[sort]--;
    word = tables_fresh(space, cells, capacity[0], capacity[1], capacity[2], edition);
    check(word == TABLES_DONE, rule, "fresh");
    check(tables_counts(space, cells, counts, 3) == SAID(TABLES_COUNTS, 3), rule, "counts");
    for (size_t offset = 5 + sort; offset < 8; offset++)
        space[offset] += record_cells[sort];
    check(tables_counts(space, cells, counts, 3) == REFUSED(1), rule, "a header with one more");
    free(space);
}

/* Long paths: a space with subgoal g(X) and one answer, whose path is written by hand. */

enum { LONGEST_PATH = 100000 };

static uint32_t chain_space[TABLES_SPACE_CELLS(LONGEST_PATH + 4, 1, 1)];
static uint32_t chain_tokens[LONGEST_PATH];

/* Nodes 1 and 2 are the subgoal's and 3 its answer root; the path's follow. */
static void write_chain(uint32_t tokens)
{
    const uint32_t term[] = {recoded(edition, G1), VAR(0)};
    size_t cells = sizeof chain_space / sizeof *chain_space;
    uint64_t word = tables_fresh(chain_space, cells, LONGEST_PATH + 4, 1, 1, edition);
    check(word == TABLES_DONE, "a long path", "fresh");
    word = tables_call(chain_space, cells, term, 2);
    check(word == SAID(TABLES_NEW, 1), "a long path", "call");
    for (uint32_t i = 0; i < tokens; i++) {
        uint32_t node[5] = {chain_tokens[i], i + 1 < tokens ? i + 5 : 0, 0, i + 3,
                            i + 1 < tokens ? 0 : 1};
        memcpy(&chain_space[8 + 5 * (i + 4)], node, sizeof node);
    }
    uint32_t answer[3] = {tokens + 3, 1, 0}, *subgoal = &chain_space[chain_space[5]];
    memcpy(&chain_space[chain_space[6]], answer, sizeof answer);
    chain_space[8 + 5 * 3 + 1] = 4;
    subgoal[4] = subgoal[5] = 1;
    chain_space[1] = tokens + 4;
    chain_space[3] = 1;
}

static void check_chain(const char *rule, uint32_t tokens, uint64_t load, uint64_t instance)
{
    uint32_t out[300];
    note_place("%s", rule);
    write_chain(tokens);
    size_t cells = sizeof chain_space / sizeof *chain_space;
    check(tables_load(chain_space, cells, 1, out, 300) == load, rule, "load");
    check(tables_instance(chain_space, cells, 1, out, 300) == instance, rule, "instance");
}

/* Functors g/1 down to a constant, as many tokens as cells. */
static void check_deep(const char *rule, uint32_t tokens, uint64_t load, uint64_t instance)
{
    for (uint32_t i = 0; i < tokens; i++)
        chain_tokens[i] = i + 1 < tokens ? recoded(edition, G1) : B;
    check_chain(rule, tokens, load, instance);
}

/* Functors, then lists in the heads of lists: two tokens to a list, and a constant more. */
static void check_lists(const char *rule, uint32_t functors, uint32_t lists, uint64_t load,
                        uint64_t instance)
{
    uint32_t tokens = 0;
    for (uint32_t i = 0; i < functors; i++)
        chain_tokens[tokens++] = recoded(edition, G1);
    for (uint32_t i = 0; i < lists; i++)
        chain_tokens[tokens++] = BLIST;
    chain_tokens[tokens++] = B;
    for (uint32_t i = 0; i < lists; i++) {
        chain_tokens[tokens++] = EPAIR;
        chain_tokens[tokens++] = B;
    }
    check_chain(rule, tokens, load, instance);
}

/* Paths of every length that a term may have: all of their tokens, in order. */
static void check_lengths(void)
{
    static const char rule[] = "a path of some length";
    uint32_t out[300];
    for (uint32_t tokens = 1; tokens <= 256; tokens++) {
        size_t cells = sizeof chain_space / sizeof *chain_space;
        check_deep(rule, tokens, SAID(TABLES_CELLS, tokens), SAID(TABLES_CELLS, tokens + 1));
        for (uint32_t i = 0; i < tokens; i++) /* so that no two are alike */
            chain_tokens[i] = i + 1 < tokens ? TABLES_FUNCTOR_CELL(edition, i + 1, 1) : B;
        write_chain(tokens);
        uint64_t word = tables_load(chain_space, cells, 1, out, 300);
        check(word == SAID(TABLES_CELLS, tokens), rule, "load");
        check(memcmp(out, chain_tokens, tokens * sizeof *out) == 0, rule, "cells loaded");
        word = tables_instance(chain_space, cells, 1, out, 300);
        check(word == SAID(TABLES_CELLS, tokens + 1), rule, "instance");
        check(memcmp(out + 1, chain_tokens, tokens * sizeof *out) == 0, rule, "cells of instance");
    }
}

/* A long path with one cell of one node changed, at each node in turn: damage. */
static void check_broken(const char *rule, size_t field, uint32_t change)
{
    enum { TOKENS = 100 };
    for (uint32_t place = 0; place < TOKENS; place++) {
        uint32_t out[300];
        size_t cells = sizeof chain_space / sizeof *chain_space;
        check_deep(rule, TOKENS, SAID(TABLES_CELLS, TOKENS), SAID(TABLES_CELLS, TOKENS + 1));
        chain_space[8 + 5 * (place + 4) + field] += change;
        check(tables_load(chain_space, cells, 1, out, 300) == DAMAGED, rule, "load");
        check(tables_instance(chain_space, cells, 1, out, 300) == DAMAGED, rule, "instance");
    }
}

/* A list of so many different variables. */
static void check_variables(const char *rule, uint32_t variables, uint64_t load, uint64_t instance)
{
    uint32_t tokens = 0;
    chain_tokens[tokens++] = BLIST;
    for (uint32_t i = 0; i < variables; i++) {
        if (i + 1 == variables)
            chain_tokens[tokens++] = ELIST;
        chain_tokens[tokens++] = VAR(i);
    }
    check_chain(rule, tokens, load, instance);
}

/* A functor by its payload, and so many constants behind it: what each edition loads, 0 for damage. */
static const struct {
    uint32_t payload, constants;
    uint32_t in_edition_1, in_edition_2;
} functor_paths[] = {
    {15, 15, 16, 16},          {15, 14, 0, 0},         {15, 16, 0, 0},
    {16, 16, 0, 17},           {16, 0, 0, 0},          {17, 17, 0, 18},
    {17, 1, 2, 0},             {40, 40, 0, 41},        {40, 39, 0, 0},
    {40, 41, 0, 0},            {40, 8, 9, 0},          {254, 254, 0, 255},
    {254, 14, 15, 0},          {255, 255, 0, 256},     {255, 254, 0, 0},
    {255, 256, 0, 0},          {255, 15, 16, 0},       {240, 240, 0, 241},
    {256, 256, 0, 0},          {256, 0, 0, 0},         {257, 1, 2, 2},
    {0x0fffffff, 255, 0, 256}, {0x0fffffff, 15, 16, 0}, {0x0fffff28, 40, 0, 41},
    {0x0fffff00, 255, 0, 0},   {0x0fffff10, 16, 0, 17},
};

static void check_functor_paths(void)
{
    static const char rule[] = "a functor and constants";
    for (size_t i = 0; i < sizeof functor_paths / sizeof *functor_paths; i++) {
        uint32_t cells = edition == TABLES_EDITION_1 ? functor_paths[i].in_edition_1
                                                     : functor_paths[i].in_edition_2;
        uint64_t load = cells == 0 ? DAMAGED : SAID(TABLES_CELLS, cells);
        uint64_t instance = cells == 0 ? DAMAGED : SAID(TABLES_CELLS, cells + 1);
        uint32_t tokens = 1 + functor_paths[i].constants, out[300];
        chain_tokens[0] = TABLES_CELL(TABLES_FUNCTOR, functor_paths[i].payload);
        for (uint32_t j = 1; j < tokens; j++)
            chain_tokens[j] = B;
        check_chain(rule, tokens, load, instance);
        if (cells == 0)
            continue;
        uint64_t word =
            tables_load(chain_space, sizeof chain_space / sizeof *chain_space, 1, out, 300);
        check(word == load, rule, "load again");
        check(memcmp(out, chain_tokens, cells * sizeof *out) == 0, rule, "cells loaded");
    }
}

/* Functors without end: the cells still due grow with each. */
static void check_functors(void)
{
    chain_tokens[0] = TABLES_CELL(TABLES_FUNCTOR, 255);
    chain_tokens[1] = TABLES_CELL(TABLES_FUNCTOR, 2);
    check_chain("two functors alone", 2, DAMAGED, DAMAGED);
    for (uint32_t i = 0; i < TABLES_COMPACT_CELLS; i++)
        chain_tokens[i] = TABLES_CELL(TABLES_FUNCTOR, 255);
    check_chain("a functor again and again, 256 tokens", TABLES_TERM_CELLS, DAMAGED, DAMAGED);
    check_chain("a functor again and again, 383 tokens", TABLES_COMPACT_CELLS, DAMAGED, DAMAGED);
}

static void check_paths(void)
{
    check_deep("a path of 256 cells", 256, SAID(TABLES_CELLS, 256), SAID(TABLES_CELLS, 257));
    check_deep("a path of 257 cells", 257, DAMAGED, DAMAGED);
    check_deep("a path of 383 tokens, too many cells", 383, DAMAGED, DAMAGED);
    check_deep("a path of 384 tokens", 384, DAMAGED, DAMAGED);
    check_deep("a path as long as the table", LONGEST_PATH, DAMAGED, DAMAGED);
    check_lists("a path of 383 tokens", 1, 127, SAID(TABLES_CELLS, 256), SAID(TABLES_CELLS, 257));
    check_lists("a path of 384 tokens, lists", 2, 127, DAMAGED, DAMAGED);
    check_lengths();
    check_broken("a long path, a node that is its own parent", PARENT, 1);
    check_broken("a long path, a parent above its node", PARENT, 2);
    check_broken("a long path, a sibling out of range", SIBLING, 1000);
    check_broken("a long path, a child out of range", CHILD, 1000);
    check_broken("a long path, a child not above its node", CHILD, UINT32_MAX);
    check_broken("a long path, a link out of range", LINK, 2);
    check_variables("32 variables", 32, SAID(TABLES_CELLS, 65), SAID(TABLES_CELLS, 66));
    check_variables("33 variables", 33, DAMAGED, DAMAGED);
    check_functor_paths();
    check_functors();
}

/* All of it in one edition. */
static void check_edition(uint32_t checked)
{
    edition = checked;
    check_sound(ROOMY);
    check_sound(TIGHT);
    check_nothing_lent();
    check_headers();
    check_other_readings();
    check_ground();
    check_open_ground();
    check_bent_ground();
    check_finished_lengths(ROOMY);
    check_finished_lengths(TIGHT);
    check_beyond();
    check_paths();
    check_largest("the most nodes", 0);
    check_largest("the most subgoals", 1);
    check_largest("the most answers", 2);
    for (size_t i = 0; i < sizeof rows / sizeof *rows; i++)
        check_row(&rows[i]);
}

int main(void)
{
    setvbuf(stdout, NULL, _IOLBF, BUFSIZ);
    report_crashes();
    alarm(SECONDS);
    for (uint32_t checked = 1; checked <= LAST_EDITION; checked++)
        check_edition(checked);
    printf("damage_rules_test: %zu rows in each edition, %u checks, %u failures\n",
           sizeof rows / sizeof *rows, checks, failures);
    return failures == 0 ? 0 : 1;
}
