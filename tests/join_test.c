/* Checks each rule of the join by itself, in both editions: a small table, joins of it, what the other calls then give. */
#include "../include/tables.h"
#include "editions.h"

#include <inttypes.h>
#include <stdbool.h>
#include <stdio.h>
#include <string.h>

/* The edition of the spaces at present. */
static uint32_t edition;

/* Cells by name; functors as edition 1 writes them: they are recoded where they are used. */
#define A TABLES_CELL(TABLES_ATOM, 1)
#define B TABLES_CELL(TABLES_ATOM, 2)
#define C TABLES_CELL(TABLES_ATOM, 3)
#define D TABLES_CELL(TABLES_ATOM, 4)
#define E TABLES_CELL(TABLES_ATOM, 5)
#define S TABLES_CELL(TABLES_ATOM, 6)
#define X TABLES_CELL(TABLES_VARIABLE, 7)
#define Y TABLES_CELL(TABLES_VARIABLE, 9)
#define G1 TABLES_FUNCTOR_CELL(TABLES_EDITION_1, 1, 1)
#define P2 TABLES_FUNCTOR_CELL(TABLES_EDITION_1, 2, 2)
#define Q2 TABLES_FUNCTOR_CELL(TABLES_EDITION_1, 3, 2)
#define R2 TABLES_FUNCTOR_CELL(TABLES_EDITION_1, 4, 2)
#define U1 TABLES_FUNCTOR_CELL(TABLES_EDITION_1, 5, 1)
#define V1 TABLES_FUNCTOR_CELL(TABLES_EDITION_1, 6, 1)
#define V2 TABLES_FUNCTOR_CELL(TABLES_EDITION_1, 6, 2)
#define W1 TABLES_FUNCTOR_CELL(TABLES_EDITION_1, 7, 1)
#define W2 TABLES_FUNCTOR_CELL(TABLES_EDITION_1, 7, 2)
#define PAIR TABLES_PAIR_CELL
#define NIL TABLES_EMPTY_LIST

#define SAID(what, value) ((uint64_t)(what) << 32 | (value))
#define REFUSED(number) SAID(TABLES_CALL_REFUSED + (number), 0)
#define NEW_ONES(count) SAID(TABLES_JOINED, count)

/* One call, and the word that it must give; or a cell of a record that is set, or a record's cells that must be so. */
enum call { CALL, ANSWER, FINISH, JOIN, NEXT, LOAD, COUNTS, SET, HOLD };

/* The header, and the three sorts of records. */
enum sort { HEADER, NODE, SUBGOAL, ANSWER_RECORD };

/* The fields of a record by name, as far as they are set. */
enum { TOKEN, CHILD, SIBLING, PARENT, LINK };
enum { STATE = 3, FIRST, LAST };
enum { LEAF, OF_SUBGOAL, NEXT_ANSWER };

enum { STEP_CELLS = 66, COPY_CELLS = 8, OUT_CELLS = 300, SPARE = 3 };

struct cells {
    size_t count;
    uint32_t cell[STEP_CELLS];
};

struct step {
    enum call call;
    enum sort sort;         /* of set and hold */
    uint32_t number, after; /* of join: the first and the second; of set: the record and the field */
    uint32_t target;        /* of join; of set: the value */
    struct cells cells;     /* given; or what load and counts must write, or a record must hold */
    size_t nested;          /* the cells of a term g(g(..a)) that is given, or written, in their place */
    struct {
        size_t count;
        uint32_t cell[COPY_CELLS];
    } copies;
    uint64_t word;
};

#define COUNT(...) (sizeof((uint32_t[]){__VA_ARGS__}) / sizeof(uint32_t))
#define CELLS(...) {COUNT(__VA_ARGS__), {__VA_ARGS__}}
#define NO_CELLS {0, {0}}
#define PAIRS CELLS
#define COPIES CELLS

#define CALLED(subgoal, ...) \
    {.call = CALL, .cells = CELLS(__VA_ARGS__), .word = SAID(TABLES_NEW, subgoal)}
#define ANSWERED(subgoal, answer, ...) \
    {.call = ANSWER, .number = (subgoal), .cells = CELLS(__VA_ARGS__), .word = SAID(TABLES_NEW, answer)}
#define ANSWERED_NESTED(subgoal, answer, count) \
    {.call = ANSWER, .number = (subgoal), .nested = (count), .word = SAID(TABLES_NEW, answer)}
#define EMPTY_ANSWERED(subgoal, result) {.call = ANSWER, .number = (subgoal), .word = (result)}
#define LACKED(subgoal, ...) \
    {.call = ANSWER, .number = (subgoal), .cells = CELLS(__VA_ARGS__), .word = REFUSED(8)}
#define CALLED_AGAIN(state, subgoal, ...) \
    {.call = CALL, .cells = CELLS(__VA_ARGS__), .word = SAID(state, subgoal)}
#define OLD(subgoal, answer, ...) \
    {.call = ANSWER, .number = (subgoal), .cells = CELLS(__VA_ARGS__), .word = SAID(TABLES_OLD, answer)}
#define FINISHED(subgoal) {.call = FINISH, .number = (subgoal), .word = SAID(TABLES_DONE, 0)}
#define JOINED(first, second, pairs, into, copy, result) \
    {.call = JOIN, .number = (first), .after = (second), .target = (into), .cells = pairs, \
     .copies = copy, .word = (result)}
#define AT(subgoal, answer, found) \
    {.call = NEXT, .number = (subgoal), .after = (answer), .word = SAID(TABLES_AT, found)}
#define NONE_YET_AFTER(subgoal, answer) \
    {.call = NEXT, .number = (subgoal), .after = (answer), .word = SAID(TABLES_NONE_YET, 0)}
#define NO_MORE_AFTER(subgoal, answer) \
    {.call = NEXT, .number = (subgoal), .after = (answer), .word = SAID(TABLES_NO_MORE, 0)}
#define LOADED(answer, ...) \
    {.call = LOAD, .number = (answer), .cells = CELLS(__VA_ARGS__), \
     .word = SAID(TABLES_CELLS, COUNT(__VA_ARGS__))}
#define LOADED_NONE(answer) {.call = LOAD, .number = (answer), .word = SAID(TABLES_CELLS, 0)}
#define LOADED_NESTED(answer, count) \
    {.call = LOAD, .number = (answer), .nested = (count), .word = SAID(TABLES_CELLS, 2 * (count))}
#define COUNTED(nodes, subgoals, answers) \
    {.call = COUNTS, .cells = CELLS(nodes, subgoals, answers), .word = SAID(TABLES_COUNTS, 3)}
#define SET_CELL(of, record, field, value) \
    {.call = SET, .sort = (of), .number = (record), .after = (field), .target = (value)}
#define HOLDS(of, record, ...) {.call = HOLD, .sort = (of), .number = (record), .cells = CELLS(__VA_ARGS__)}

/*
 * The table that every row begins with: 26 nodes, 5 subgoals, 5 answers.
 *
 *     1 p(X,Y)  finished  1 a b   3 a c
 *     2 q(X,Y)  finished  2 b c   4 c d   5 b a
 *     3 r(X,Y)  open
 *     4 s       open
 *     5 u(X)    finished
 *
 * Nodes: 0 root; 1 p, 2, 3, root 4; 5 q, 6, 7, root 8; 9 r, 10, 11, root 12;
 * 13 s, root 14; 15 u, 16, root 17. Under 4: 18 a, and under it 19 b, 22 c.
 * Under 8: 20 b, and under it 21 c, 25 a; 23 c, and under it 24 d.
 */
static const struct step base[] = {
    CALLED(1, P2, X, Y),  CALLED(2, Q2, X, Y),  CALLED(3, R2, X, Y),  CALLED(4, S),
    CALLED(5, U1, X),     ANSWERED(1, 1, A, B), ANSWERED(2, 2, B, C), ANSWERED(1, 3, A, C),
    ANSWERED(2, 4, C, D), ANSWERED(2, 5, B, A), FINISHED(1),          FINISHED(2),
    FINISHED(5),          COUNTED(26, 5, 5),
};

/* r(X,Z) :- p(X,Y), q(Y,Z): a c from 1 and 2, a a from 1 and 5, a d from 3 and 4; 4 nodes. */
#define RULE PAIRS(1, 0)
#define HEAD COPIES(0, 0, 1, 1)
#define RULE_JOINED(result) JOINED(1, 2, RULE, 3, HEAD, result)

#define FOUR_PAIRS 1, 0, 1, 0, 1, 0, 1, 0
#define PAIRS_32 FOUR_PAIRS, FOUR_PAIRS, FOUR_PAIRS, FOUR_PAIRS, FOUR_PAIRS, FOUR_PAIRS, FOUR_PAIRS, FOUR_PAIRS
#define FAR UINT32_MAX
#define NAMES REFUSED(16)

enum { NODES = 600, SUBGOALS = 7, ANSWERS = 20, SPACE_CELLS = TABLES_SPACE_CELLS(NODES, SUBGOALS, ANSWERS) + SPARE };

struct row {
    const char *rule;
    uint32_t nodes, answers; /* room for */
    size_t count;
    const struct step *steps;
};

#define ROW_WITH(rule, nodes, answers, ...) \
    {rule, nodes, answers, sizeof((const struct step[]){__VA_ARGS__}) / sizeof(struct step), \
     (const struct step[]){__VA_ARGS__}}
#define ROW(rule, ...) ROW_WITH(rule, NODES, ANSWERS, __VA_ARGS__)

static const struct row rows[] = {
    /* Pairing, entering, numbering */
    ROW("answers pair in order of the first, then of the second, and are numbered so",
        RULE_JOINED(NEW_ONES(3)), AT(3, 0, 6), LOADED(6, A, C), AT(3, 6, 7), LOADED(7, A, A),
        AT(3, 7, 8), LOADED(8, A, D), NONE_YET_AFTER(3, 8), COUNTED(30, 5, 8)),
    ROW("the other way round, in order of the other",
        JOINED(2, 1, PAIRS(0, 1), 3, COPIES(1, 0, 0, 1), NEW_ONES(3)), AT(3, 0, 6), LOADED(6, A, C),
        AT(3, 6, 7), LOADED(7, A, D), AT(3, 7, 8), LOADED(8, A, A), NONE_YET_AFTER(3, 8)),
    ROW("without pairs every combination gives an answer, each counted once",
        JOINED(1, 2, NO_CELLS, 3, COPIES(0, 1, 1, 0), NEW_ONES(4)), LOADED(6, B, B), LOADED(7, B, C),
        LOADED(8, C, B), LOADED(9, C, C), NONE_YET_AFTER(3, 9), COUNTED(32, 5, 9)),
    ROW("all pairs must hold", JOINED(1, 2, PAIRS(1, 0, 0, 1), 3, HEAD, NEW_ONES(1)),
        LOADED(6, A, A), NONE_YET_AFTER(3, 6)),
    ROW("a term may be copied twice, another not at all",
        JOINED(1, 2, RULE, 3, COPIES(1, 1, 1, 1), NEW_ONES(3)), LOADED(6, C, C), LOADED(7, A, A),
        LOADED(8, D, D)),
    ROW("an answer that came before in the same join is old",
        JOINED(1, 2, RULE, 3, COPIES(0, 0, 0, 0), NEW_ONES(1)), LOADED(6, A, A), NONE_YET_AFTER(3, 6)),
    ROW("an answer that the target holds is old and keeps its number", ANSWERED(3, 6, A, A),
        RULE_JOINED(NEW_ONES(2)), AT(3, 0, 6), LOADED(6, A, A), AT(3, 6, 7), LOADED(7, A, C),
        AT(3, 7, 8), LOADED(8, A, D), NONE_YET_AFTER(3, 8), COUNTED(30, 5, 8)),
    ROW("a second time there is nothing new", RULE_JOINED(NEW_ONES(3)), RULE_JOINED(NEW_ONES(0)),
        COUNTED(30, 5, 8)),
    ROW("nothing that matches is no refusal", JOINED(1, 2, PAIRS(0, 0), 3, HEAD, NEW_ONES(0)),
        NONE_YET_AFTER(3, 0)),
    ROW("a source without answers gives none, on either side",
        JOINED(1, 5, NO_CELLS, 3, COPIES(0, 0, 0, 1), NEW_ONES(0)),
        JOINED(5, 1, PAIRS(0, 0), 3, COPIES(1, 0, 0, 0), NEW_ONES(0)),
        JOINED(5, 5, PAIRS(0, 0), 3, COPIES(1, 0, 0, 0), NEW_ONES(0)), NONE_YET_AFTER(3, 0)),
    ROW("a subgoal may be joined with itself", JOINED(2, 2, PAIRS(1, 0), 3, HEAD, NEW_ONES(1)),
        LOADED(6, B, D), NONE_YET_AFTER(3, 6)),
    ROW("a target without variables takes the empty answer, once, and is finished by it",
        JOINED(1, 2, RULE, 4, NO_CELLS, NEW_ONES(1)), AT(4, 0, 6), LOADED_NONE(6), NO_MORE_AFTER(4, 6),
        CALLED_AGAIN(TABLES_OLD_FINISHED, 4, S), COUNTED(26, 5, 6), JOINED(1, 2, RULE, 4, NO_CELLS, REFUSED(8)),
        JOINED(3, 2, PAIRS(9), 4, COPIES(2, 0), REFUSED(8)), EMPTY_ANSWERED(4, SAID(TABLES_OLD, 6)), FINISHED(4),
        JOINED(1, 2, RULE, 4, NO_CELLS, REFUSED(8)), COUNTED(26, 5, 6)),
    ROW("finished by its single answer, it takes no join either", EMPTY_ANSWERED(4, SAID(TABLES_NEW, 6)),
        NO_MORE_AFTER(4, 6), JOINED(1, 2, RULE, 4, NO_CELLS, REFUSED(8)),
        JOINED(1, 2, PAIRS(0, 0), 4, NO_CELLS, REFUSED(8)), COUNTED(26, 5, 6)),
    ROW("and none where nothing matches, and stays open", JOINED(1, 2, PAIRS(0, 0), 4, NO_CELLS, NEW_ONES(0)),
        JOINED(1, 5, NO_CELLS, 4, NO_CELLS, NEW_ONES(0)), NONE_YET_AFTER(4, 0),
        CALLED_AGAIN(TABLES_OLD_OPEN, 4, S), JOINED(1, 2, RULE, 4, NO_CELLS, NEW_ONES(1)), NO_MORE_AFTER(4, 6)),
    ROW("open with its answer, as no call leaves it, it stays open by a join that gives it again",
        JOINED(1, 2, RULE, 4, NO_CELLS, NEW_ONES(1)), SET_CELL(SUBGOAL, 4, STATE, 0),
        JOINED(1, 2, RULE, 4, NO_CELLS, NEW_ONES(0)), HOLDS(SUBGOAL, 4, 13, 14, 0, 0, 6, 6), NONE_YET_AFTER(4, 6)),
    ROW("the empty answer of a source is an answer, and finishes the source", EMPTY_ANSWERED(4, SAID(TABLES_NEW, 6)),
        JOINED(4, 1, NO_CELLS, 3, COPIES(1, 1, 1, 0), NEW_ONES(2)), LOADED(7, B, A),
        LOADED(8, C, A), JOINED(4, 4, PAIRS(0, 0), 3, HEAD, NAMES)),
    ROW("a variable stands for a whole term, wherever it begins", CALLED(6, V2, X, Y),
        ANSWERED(6, 6, G1, G1, A, B), ANSWERED(6, 7, B, G1, B), FINISHED(6),
        JOINED(6, 2, RULE, 3, HEAD, NEW_ONES(2)), LOADED(8, G1, G1, A, C), LOADED(9, G1, G1, A, A),
        JOINED(6, 2, PAIRS(0, 0), 3, COPIES(0, 1, 1, 1), NEW_ONES(2)), LOADED(10, G1, B, C),
        LOADED(11, G1, B, A)),
    ROW("lists are compared and entered whole, in compact form", CALLED(6, V2, X, Y),
        CALLED(7, W2, X, Y), ANSWERED(6, 6, PAIR, A, PAIR, B, NIL, C), ANSWERED(6, 7, PAIR, A, B, D),
        ANSWERED(6, 8, PAIR, A, NIL, E), ANSWERED(7, 9, PAIR, A, PAIR, B, NIL, E),
        ANSWERED(7, 10, PAIR, A, B, PAIR, E, NIL), FINISHED(6), FINISHED(7), COUNTED(55, 7, 10),
        JOINED(6, 7, PAIRS(0, 0), 3, COPIES(0, 0, 1, 1), NEW_ONES(2)),
        LOADED(11, PAIR, A, PAIR, B, NIL, E), LOADED(12, PAIR, A, B, PAIR, E, NIL),
        COUNTED(65, 7, 12)),
    ROW("single answers go on behind a join, and the target may be a source later",
        RULE_JOINED(NEW_ONES(3)), OLD(3, 7, A, A), ANSWERED(3, 9, D, D), AT(3, 8, 9), FINISHED(3),
        RULE_JOINED(REFUSED(8)), OLD(3, 7, A, A), OLD(3, 9, D, D), LACKED(3, D, A), CALLED(6, V1, X),
        JOINED(3, 1, PAIRS(1, 0), 6, COPIES(1, 1), NEW_ONES(2)), LOADED(10, B), LOADED(11, C),
        NONE_YET_AFTER(6, 11)),
    ROW("a join leaves its target open, and what is finished has no more", NO_MORE_AFTER(1, 3), NO_MORE_AFTER(5, 0),
        NONE_YET_AFTER(3, 0), RULE_JOINED(NEW_ONES(3)), NONE_YET_AFTER(3, 8), FINISHED(3), NO_MORE_AFTER(3, 8),
        RULE_JOINED(REFUSED(8)), NO_MORE_AFTER(3, 8), JOINED(1, 2, NO_CELLS, 5, COPIES(0, 0), REFUSED(8)),
        NO_MORE_AFTER(5, 0), NO_MORE_AFTER(1, 3)),

    /* Refusals, and which comes first */
    ROW("7 for each of the three numbers, before all else", JOINED(0, 2, RULE, 3, HEAD, REFUSED(7)),
        JOINED(6, 2, RULE, 3, HEAD, REFUSED(7)), JOINED(1, 0, RULE, 3, HEAD, REFUSED(7)),
        JOINED(1, FAR, RULE, 3, HEAD, REFUSED(7)), JOINED(1, 2, RULE, 0, HEAD, REFUSED(7)),
        JOINED(1, 2, RULE, 6, HEAD, REFUSED(7)), JOINED(4, 6, PAIRS(9), 1, NO_CELLS, REFUSED(7))),
    ROW("8 before 14 and 16", FINISHED(3), RULE_JOINED(REFUSED(8)),
        JOINED(4, 2, PAIRS(9, 9, 9), 3, COPIES(2, 0), REFUSED(8))),
    ROW("a source as its own target: 8 if it is finished, 14 if it is open",
        JOINED(1, 2, RULE, 1, HEAD, REFUSED(8)), JOINED(1, 2, RULE, 2, HEAD, REFUSED(8)),
        JOINED(3, 2, RULE, 3, HEAD, REFUSED(14)), JOINED(1, 3, RULE, 3, HEAD, REFUSED(14)),
        JOINED(3, 3, RULE, 3, HEAD, REFUSED(14))),
    ROW("14 for either source, before 15 and 16; then 15, before 16", CALLED(6, V1, X), CALLED(7, W1, X),
        ANSWERED(6, 6, A), ANSWERED(6, 7, G1, Y), JOINED(6, 2, NO_CELLS, 3, HEAD, REFUSED(14)),
        JOINED(2, 6, PAIRS(9), 3, NO_CELLS, REFUSED(14)), JOINED(7, 1, RULE, 3, HEAD, REFUSED(14)),
        FINISHED(6), JOINED(6, 7, PAIRS(0, 0), 3, COPIES(0, 0, 0, 0), REFUSED(14)),
        JOINED(6, 2, PAIRS(9), 3, NO_CELLS, REFUSED(15)),
        JOINED(6, 2, PAIRS(0, 0), 3, COPIES(1, 0, 1, 1), REFUSED(15)),
        JOINED(2, 6, NO_CELLS, 3, COPIES(0, 0, 0, 1), REFUSED(15))),
    ROW("15 although the other source has no answers, or nothing would match", CALLED(6, V1, X),
        ANSWERED(6, 6, X), FINISHED(6), JOINED(6, 5, NO_CELLS, 3, COPIES(0, 0, 1, 0), REFUSED(15)),
        JOINED(5, 6, NO_CELLS, 3, COPIES(0, 0, 1, 0), REFUSED(15)),
        JOINED(5, 6, NO_CELLS, 4, NO_CELLS, REFUSED(15)),
        JOINED(1, 6, PAIRS(0, 0), 4, NO_CELLS, REFUSED(15))),
    ROW("16 for a variable of a pair", JOINED(1, 2, PAIRS(2, 0), 3, HEAD, NAMES),
        JOINED(1, 2, PAIRS(1, 2), 3, HEAD, NAMES), JOINED(1, 2, PAIRS(1, 0, FAR, 0), 3, HEAD, NAMES),
        JOINED(1, 5, PAIRS(0, 1), 3, COPIES(0, 0, 0, 1), NAMES),
        JOINED(5, 1, PAIRS(1, 0), 4, NO_CELLS, NAMES)),
    ROW("16 for a side or variable of a copy", JOINED(1, 2, RULE, 3, COPIES(2, 0, 1, 1), NAMES),
        JOINED(1, 2, RULE, 3, COPIES(0, 0, FAR, 1), NAMES), JOINED(1, 2, RULE, 3, COPIES(0, 2, 1, 1), NAMES),
        JOINED(1, 2, RULE, 3, COPIES(0, 0, 1, 2), NAMES), JOINED(1, 2, RULE, 3, COPIES(2, 9, 1, 1), NAMES),
        JOINED(1, 5, NO_CELLS, 3, COPIES(0, 1, 1, 1), NAMES),
        JOINED(5, 1, NO_CELLS, 3, COPIES(0, 1, 1, 1), NAMES)),
    ROW("16 for copies that are not one for each variable", JOINED(1, 2, RULE, 3, NO_CELLS, NAMES),
        JOINED(1, 2, RULE, 3, COPIES(0, 0), NAMES), JOINED(1, 2, RULE, 3, COPIES(0, 0, 1, 1, 0, 0), NAMES),
        JOINED(1, 2, RULE, 4, COPIES(0, 0), NAMES)),
    ROW("16 for an odd number of cells", JOINED(1, 2, PAIRS(1, 0, 1), 3, HEAD, NAMES),
        JOINED(1, 2, PAIRS(1), 3, HEAD, NAMES), JOINED(1, 2, RULE, 3, COPIES(0, 0, 1), NAMES),
        JOINED(1, 2, RULE, 3, COPIES(0, 0, 1, 1, 0), NAMES), JOINED(1, 2, RULE, 4, COPIES(0), NAMES)),
    ROW("32 pairs, repeated ones too, and 16 for 33", JOINED(1, 2, PAIRS(PAIRS_32, 1, 0), 3, HEAD, NAMES),
        JOINED(1, 2, PAIRS(PAIRS_32, 1), 3, HEAD, NAMES),
        JOINED(1, 2, PAIRS(PAIRS_32), 3, HEAD, NEW_ONES(3))),
    ROW("an answer of 256 cells enters", CALLED(6, V1, X), ANSWERED_NESTED(6, 6, 128), FINISHED(6),
        JOINED(6, 6, PAIRS(0, 0), 3, COPIES(0, 0, 1, 0), NEW_ONES(1)), LOADED_NESTED(7, 128),
        COUNTED(413, 6, 7)),
    ROW("4 for one of 257 that matches, after 16", CALLED(6, V1, X), CALLED(7, W1, X),
        ANSWERED_NESTED(6, 6, 128), ANSWERED_NESTED(7, 7, 129), ANSWERED(6, 8, A), ANSWERED(7, 9, A),
        FINISHED(6), FINISHED(7), JOINED(6, 7, NO_CELLS, 3, COPIES(0, 0, 1, 0), REFUSED(4)),
        JOINED(6, 7, NO_CELLS, 3, COPIES(0, 0, 2, 0), NAMES), NONE_YET_AFTER(3, 0),
        JOINED(6, 7, PAIRS(0, 0), 3, COPIES(0, 0, 1, 0), NEW_ONES(1)), LOADED(10, A, A)),

    /* Room: every answer enters, or none */
    ROW_WITH("just enough nodes and records; nodes that two new answers share count once", 30, 8,
             RULE_JOINED(NEW_ONES(3)), COUNTED(30, 5, 8)),
    ROW_WITH("nothing new is no refusal in a full table", 30, 8, RULE_JOINED(NEW_ONES(3)),
             RULE_JOINED(NEW_ONES(0)), JOINED(1, 2, PAIRS(0, 0), 3, HEAD, NEW_ONES(0)),
             JOINED(1, 2, RULE, 3, COPIES(0, 0, 0, 0), NEW_ONES(0)),
             JOINED(1, 2, RULE, 4, NO_CELLS, REFUSED(11)), NONE_YET_AFTER(4, 0),
             CALLED_AGAIN(TABLES_OLD_OPEN, 4, S), HOLDS(SUBGOAL, 4, 13, 14, 0, 0, 0, 0)),
    ROW_WITH("8 before 10 and 11, and old all the same", 30, 8, RULE_JOINED(NEW_ONES(3)), FINISHED(3),
             RULE_JOINED(REFUSED(8)), OLD(3, 8, A, D), LACKED(3, D, D), FINISHED(4),
             JOINED(1, 2, RULE, 4, NO_CELLS, REFUSED(8)), EMPTY_ANSWERED(4, REFUSED(8)), NO_MORE_AFTER(4, 0)),
    ROW_WITH("10 for one node less, and none enters", 29, 20, RULE_JOINED(REFUSED(10)), NONE_YET_AFTER(3, 0),
             COUNTED(26, 5, 5), ANSWERED(3, 6, A, C), RULE_JOINED(REFUSED(10)), NONE_YET_AFTER(3, 6),
             JOINED(1, 2, RULE, 3, COPIES(0, 0, 0, 0), NEW_ONES(1)), COUNTED(29, 5, 7)),
    ROW_WITH("11 for one record less, and none enters", 30, 7, RULE_JOINED(REFUSED(11)), NONE_YET_AFTER(3, 0),
             COUNTED(26, 5, 5), JOINED(1, 2, RULE, 4, NO_CELLS, NEW_ONES(1)), COUNTED(26, 5, 6)),
    ROW_WITH("10 before 11, although the records run out at an earlier answer", 29, 5,
             RULE_JOINED(REFUSED(10)), JOINED(1, 2, RULE, 4, NO_CELLS, REFUSED(11)),
             JOINED(1, 2, RULE, 3, COPIES(0, 0, 0, 0), REFUSED(11))),
    ROW_WITH("4 before 10 and 11", 289, 7, CALLED(6, V1, X), CALLED(7, W1, X), ANSWERED_NESTED(6, 6, 128),
             ANSWERED_NESTED(7, 7, 129), FINISHED(6), FINISHED(7), COUNTED(289, 7, 7),
             JOINED(6, 7, NO_CELLS, 3, COPIES(0, 0, 1, 0), REFUSED(4)),
             JOINED(6, 7, NO_CELLS, 3, COPIES(0, 0, 0, 0), REFUSED(10)),
             JOINED(6, 7, NO_CELLS, 4, NO_CELLS, REFUSED(11))),

    /* Cells, and damaged ones */
    ROW("records and nodes as by single answers, in order", RULE_JOINED(NEW_ONES(3)),
        HOLDS(NODE, 12, 0, 26, 0, 12, 0), HOLDS(NODE, 26, A, 27, 0, 12, 0),
        HOLDS(NODE, 27, C, 0, 28, 26, 6), HOLDS(NODE, 28, A, 0, 29, 26, 7),
        HOLDS(NODE, 29, D, 0, 0, 26, 8), HOLDS(SUBGOAL, 3, 11, 12, 2, 0, 6, 8),
        HOLDS(ANSWER_RECORD, 6, 27, 3, 7), HOLDS(ANSWER_RECORD, 7, 28, 3, 8),
        HOLDS(ANSWER_RECORD, 8, 29, 3, 0)),
    ROW("a target without variables: the root is the leaf", JOINED(1, 2, RULE, 4, NO_CELLS, NEW_ONES(1)),
        HOLDS(NODE, 14, 0, 0, 0, 14, 6), HOLDS(SUBGOAL, 4, 13, 14, 0, 1, 6, 6),
        HOLDS(ANSWER_RECORD, 6, 14, 4, 0)),
    ROW("1 before all else", SET_CELL(HEADER, 0, 0, 0), RULE_JOINED(REFUSED(1)),
        JOINED(0, FAR, PAIRS(9), 3, NO_CELLS, REFUSED(1))),
    ROW("7 before 9", SET_CELL(SUBGOAL, 1, STATE, 2), JOINED(1, 2, RULE, 6, HEAD, REFUSED(7)),
        RULE_JOINED(REFUSED(9))),
    ROW("9 for a source's path before 8, 14 and 16", SET_CELL(NODE, 24, TOKEN, PAIR), RULE_JOINED(REFUSED(9)),
        JOINED(3, 2, PAIRS(9), 3, NO_CELLS, REFUSED(9)), FINISHED(3), RULE_JOINED(REFUSED(9)),
        JOINED(1, 1, RULE, 3, HEAD, REFUSED(8))),
    ROW("9 for an open source's answer before 14", ANSWERED(3, 6, A, A), SET_CELL(ANSWER_RECORD, 6, LEAF, 28),
        JOINED(3, 1, RULE, 4, NO_CELLS, REFUSED(9)), JOINED(1, 3, RULE, 4, NO_CELLS, REFUSED(9))),
    ROW("9 for either source although the other is empty", SET_CELL(ANSWER_RECORD, 3, OF_SUBGOAL, 2),
        JOINED(1, 5, NO_CELLS, 4, NO_CELLS, REFUSED(9)), JOINED(5, 1, NO_CELLS, 4, NO_CELLS, REFUSED(9)),
        JOINED(5, 2, NO_CELLS, 4, NO_CELLS, NEW_ONES(0))),
    ROW("9 where a chain passes into another's", SET_CELL(ANSWER_RECORD, 1, NEXT_ANSWER, 2),
        RULE_JOINED(REFUSED(9)), JOINED(2, 2, PAIRS(1, 0), 3, HEAD, NEW_ONES(1))),
    ROW("9 for the target's record and root before 8", FINISHED(3), SET_CELL(NODE, 12, PARENT, 4),
        RULE_JOINED(REFUSED(9)), SET_CELL(NODE, 12, PARENT, 12), RULE_JOINED(REFUSED(8)),
        SET_CELL(SUBGOAL, 3, FIRST, 1), RULE_JOINED(REFUSED(9))),
    ROW("a chain ends with 0, wherever the last answer is", SET_CELL(SUBGOAL, 1, LAST, 1),
        JOINED(1, 2, RULE, 3, COPIES(0, 1, 0, 1), NEW_ONES(2)), SET_CELL(ANSWER_RECORD, 1, NEXT_ANSWER, 0),
        RULE_JOINED(NEW_ONES(2)), LOADED(8, A, C), LOADED(9, A, A)),
    ROW("9 for what the search meets, after 16, for old ones too", RULE_JOINED(NEW_ONES(3)),
        SET_CELL(NODE, 29, LINK, 0), RULE_JOINED(REFUSED(9)), JOINED(1, 2, PAIRS(1), 3, HEAD, NAMES),
        JOINED(1, 2, RULE, 3, COPIES(1, 1, 1, 1), NEW_ONES(2)), SET_CELL(NODE, 29, LINK, 7),
        RULE_JOINED(REFUSED(9)), SET_CELL(NODE, 29, LINK, 8), RULE_JOINED(NEW_ONES(0)),
        SET_CELL(ANSWER_RECORD, 8, NEXT_ANSWER, 3), RULE_JOINED(REFUSED(9))),
    ROW("9 for the last answer only where anything is new", RULE_JOINED(NEW_ONES(3)),
        SET_CELL(ANSWER_RECORD, 8, OF_SUBGOAL, 1), RULE_JOINED(NEW_ONES(0)),
        JOINED(1, 2, RULE, 3, COPIES(1, 1, 1, 1), REFUSED(9))),
    ROW("and its next must be 0", ANSWERED(3, 6, D, D), JOINED(1, 2, RULE, 4, NO_CELLS, NEW_ONES(1)),
        SET_CELL(ANSWER_RECORD, 6, NEXT_ANSWER, 7), RULE_JOINED(REFUSED(9)),
        SET_CELL(ANSWER_RECORD, 6, NEXT_ANSWER, 0), RULE_JOINED(NEW_ONES(3)), AT(3, 6, 8)),
    ROW_WITH("9 of the search at a later answer before 10 and 11", 28, 6, ANSWERED(3, 6, A, D),
             SET_CELL(NODE, 27, LINK, 0), RULE_JOINED(REFUSED(9)), SET_CELL(NODE, 27, LINK, 6),
             RULE_JOINED(REFUSED(10))),
    ROW("4 for a later answer before 9 of the search", CALLED(6, V1, X), ANSWERED(6, 6, A),
        ANSWERED_NESTED(6, 7, 129), ANSWERED(3, 8, A, A), FINISHED(6), SET_CELL(NODE, 12, CHILD, 18),
        JOINED(6, 6, NO_CELLS, 3, COPIES(0, 0, 1, 0), REFUSED(4)), RULE_JOINED(REFUSED(9))),
};

/* Making the steps */

static uint32_t space[SPACE_CELLS], before[SPACE_CELLS];
static uint32_t out[OUT_CELLS];
static unsigned checks, failures;

static void check(bool holds, const struct row *row, size_t step, const char *what)
{
    checks++;
    if (!holds) {
        failures++;
        printf("failed: edition %u: %s: step %zu: %s\n", (unsigned)edition, row->rule, step + 1, what);
    }
}

/* The cells of a step as the edition writes them; a nested term in their place. */
static size_t write_cells(const struct step *step, uint32_t *cells)
{
    for (size_t i = 0; i < step->cells.count; i++)
        cells[i] = recoded(edition, step->cells.cell[i]);
    for (size_t i = 0; i < step->nested; i++)
        cells[i] = i + 1 < step->nested ? recoded(edition, G1) : A;
    return step->nested > 0 ? step->nested : step->cells.count;
}

/* Where a record begins; nodes are numbered from 0, the others from 1. */
static uint32_t *record_at(enum sort sort, uint32_t number)
{
    switch (sort) {
    case NODE:
        return space + 8 + 5 * (size_t)number;
    case SUBGOAL:
        return space + space[5] + 6 * (size_t)(number - 1);
    case ANSWER_RECORD:
        return space + space[6] + 3 * (size_t)(number - 1);
    default:
        return space;
    }
}

static uint64_t make(const struct step *step, size_t space_cells)
{
    uint32_t cells[OUT_CELLS];
    size_t count = write_cells(step, cells);
    switch (step->call) {
    case CALL:
        return tables_call(space, space_cells, cells, count);
    case ANSWER:
        return tables_answer(space, space_cells, step->number, count == 0 ? NULL : cells, count);
    case FINISH:
        return tables_finish(space, space_cells, step->number);
    case JOIN:
        return tables_join(space, space_cells, step->number, step->after,
                           step->cells.count == 0 ? NULL : step->cells.cell, step->cells.count,
                           step->target, step->copies.count == 0 ? NULL : step->copies.cell,
                           step->copies.count);
    case NEXT:
        return tables_next(space, space_cells, step->number, step->after);
    case LOAD:
        return tables_load(space, space_cells, step->number, out, OUT_CELLS);
    case COUNTS:
        return tables_counts(space, space_cells, out, OUT_CELLS);
    case SET:
        record_at(step->sort, step->number)[step->after] = step->target;
        return SAID(TABLES_DONE, 0);
    default:
        memcpy(out, record_at(step->sort, step->number), count * sizeof *out);
        return SAID(TABLES_DONE, 0);
    }
}

/* What load and counts wrote, or a record holds; a nested term is loaded twice, one behind the other. */
static bool is_written(const struct step *step)
{
    uint32_t cells[OUT_CELLS];
    size_t count = write_cells(step, cells);
    if (step->nested > 0 && memcmp(out + count, cells, count * sizeof *cells) != 0)
        return false;
    return memcmp(out, cells, count * sizeof *cells) == 0;
}

/* Must the step leave every cell? */
static bool leaves_space(const struct step *step)
{
    if (step->call == JOIN)
        return tables_value(step->word) == 0;
    return step->call == NEXT || step->call == LOAD || step->call == COUNTS;
}

static void run_step(const struct row *row, size_t number, const struct step *step)
{
    size_t end = TABLES_SPACE_CELLS(row->nodes, SUBGOALS, row->answers);
    memcpy(before, space, sizeof space);
    memset(out, 0x5a, sizeof out);
    uint64_t word = make(step, end + SPARE);
    check(word == step->word, row, number, "result");
    if (word != step->word)
        printf("  %#" PRIx64 " instead of %#" PRIx64 "\n", word, step->word);
    if (leaves_space(step))
        check(memcmp(space, before, sizeof space) == 0, row, number, "the space was changed");
    check(memcmp(space + end, before + end, sizeof space - end * sizeof *space) == 0, row, number,
          "cells past the end were changed");
    if (step->call == LOAD || step->call == COUNTS || step->call == HOLD)
        check(is_written(step), row, number, "cells");
}

static void run_row(const struct row *row)
{
    static const struct row made = {.rule = "the table that every row begins with"};
    struct row base_row = made;
    size_t end = TABLES_SPACE_CELLS(row->nodes, SUBGOALS, row->answers);
    base_row.nodes = row->nodes;
    base_row.answers = row->answers;
    memset(space, 0xa5, sizeof space);
    uint64_t word = tables_fresh(space, end + SPARE, row->nodes, SUBGOALS, row->answers, edition);
    check(word == SAID(TABLES_DONE, 0), row, 0, "fresh");
    for (size_t i = 0; i < sizeof base / sizeof *base; i++)
        run_step(&base_row, i, &base[i]);
    for (size_t i = 0; i < row->count; i++)
        run_step(row, i, &row->steps[i]);
}

/* The texts of 14 to 16 are their own. */
static void check_texts(void)
{
    static const struct row texts = {.rule = "the texts of the refusals"};
    const char *unknown = tables_refusal_text(UINT32_MAX);
    for (uint32_t number = 14; number <= 16; number++) {
        const char *text = tables_refusal_text(number);
        check(strcmp(text, unknown) != 0, &texts, number, "is known");
        for (uint32_t other = 1; other < number; other++)
            check(strcmp(text, tables_refusal_text(other)) != 0, &texts, number, "is another's");
    }
    check(TABLES_REFUSED_SOURCE_OPEN == 14 && TABLES_REFUSED_SOURCE_VARIABLE == 15 &&
              TABLES_REFUSED_NAMES == 16 && TABLES_JOINED == 10,
          &texts, 0, "the numbers");
}

int main(void)
{
    size_t count = sizeof rows / sizeof *rows;
    setvbuf(stdout, NULL, _IOLBF, BUFSIZ);
    check_texts();
    for (edition = 1; edition <= LAST_EDITION; edition++)
        for (size_t i = 0; i < count; i++)
            run_row(&rows[i]);
    printf("join_test: %zu rows, %u checks, %u failures\n", count, checks, failures);
    return failures == 0 ? 0 : 1;
}
