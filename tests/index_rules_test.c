/*
 * Checks each rule of the index by itself, in both editions: a small table, the cells that a build of it must leave, written
 * out by hand, and calls that are lent this index or another one, on the table as it is and with cells of it changed. A slot is
 * the sum of the parent's number and the token modulo the size; where the size is 64 at most, that is the parent's number plus
 * the token's payload.
 */
#define _DEFAULT_SOURCE

#include "../include/tables.h"
#include "editions.h"
#include "lending.h"

#include <inttypes.h>
#include <stdbool.h>
#include <stdio.h>
#include <string.h>
#include <unistd.h>

/* The edition of the spaces at present. */
static uint32_t edition;

/* Cells by name; functors as edition 1 writes them: they are recoded where they are used. */
#define A(number) TABLES_CELL(TABLES_ATOM, number)
#define I(number) TABLES_CELL(TABLES_INTEGER, number)
#define X TABLES_CELL(TABLES_VARIABLE, 0)
#define Y TABLES_CELL(TABLES_VARIABLE, 1)
#define P1 TABLES_FUNCTOR_CELL(TABLES_EDITION_1, 1, 1)
#define Q1 TABLES_FUNCTOR_CELL(TABLES_EDITION_1, 3, 1)
#define R1 TABLES_FUNCTOR_CELL(TABLES_EDITION_1, 5, 1)
#define G1 TABLES_FUNCTOR_CELL(TABLES_EDITION_1, 2, 1) /* payload 33 or 513, so 1 modulo 32 */
#define H1 TABLES_FUNCTOR_CELL(TABLES_EDITION_1, 7, 1)
#define PAIR TABLES_PAIR_CELL
#define NIL TABLES_EMPTY_LIST
#define MOST TABLES_MOST_PAYLOAD
#define FAR UINT32_MAX

#define SAID(what, value) ((uint64_t)(what) << 32 | (value))
#define REFUSED(number) SAID(TABLES_CALL_REFUSED + (number), 0)
#define DAMAGED REFUSED(9)
#define SLOTS_REFUSED REFUSED(17)
#define NEW(number) SAID(TABLES_NEW, number)
#define OLD(number) SAID(TABLES_OLD, number)
#define OPEN(number) SAID(TABLES_OLD_OPEN, number)
#define JOINED(count) SAID(TABLES_JOINED, count)

/*
 * What a step does. Those up to FINISH enter something without an index. LOOK makes a call, an answer or a join with the index
 * at hand, CHAIN the same without one; the table is put back behind both. ENTER is as LOOK, and the table stays as it is left.
 * SET changes a cell of the space, and HOLD says what a record must hold. INDEX puts an index at hand, BUILD builds one, which
 * is then at hand.
 */
enum act { CALL, ANSWER, CALL_ATOMS, ANSWER_ATOMS, FINISH, LOOK, CHAIN, ENTER, SET, HOLD, INDEX, BUILD };

enum sort { HEADER, NODE, SUBGOAL, ANSWER_RECORD };

enum { TOKEN, CHILD, SIBLING, PARENT, LINK };
enum { GOAL_LEAF, ROOT, M, STATE, FIRST, LAST };

enum { STEP_CELLS = 6, MOST_ENTRIES = 20, MOST_SLOTS = 128, SECONDS = 20 };

struct entry {
    uint32_t slot, node;
};

struct step {
    enum act act, of;       /* of look and chain: call, answer or join (FINISH) */
    enum sort sort;         /* of set and hold */
    uint32_t number, field; /* the subgoal; of set and hold: the record, and the field; of a join: the target */
    uint32_t value;         /* of set; of index: what every other slot holds */
    uint32_t first, count;  /* of atoms: so many, from the first on */
    size_t cell_count;
    uint32_t cell[STEP_CELLS];
    size_t slots;
    size_t entry_count;
    struct entry entry[MOST_ENTRIES]; /* every other slot is free, or holds the value */
    uint64_t word;
};

#define COUNT(...) (sizeof((uint32_t[]){__VA_ARGS__}) / sizeof(uint32_t))
#define CELLS(...) .cell_count = COUNT(__VA_ARGS__), .cell = {__VA_ARGS__}
#define CALLED(subgoal, ...) {.act = CALL, CELLS(__VA_ARGS__), .word = NEW(subgoal)}
#define ANSWERED(subgoal, answer, ...) \
    {.act = ANSWER, .number = (subgoal), CELLS(__VA_ARGS__), .word = NEW(answer)}
/* The functor of atoms in turn, which are new subgoals from the number on; atoms as answers. */
#define CALLED_ATOMS(from, functor, first_atom, atoms) \
    {.act = CALL_ATOMS, CELLS(functor), .first = (first_atom), .count = (atoms), .word = NEW(from)}
#define ANSWERED_ATOMS(subgoal, from, first_atom, atoms) \
    {.act = ANSWER_ATOMS, .number = (subgoal), .first = (first_atom), .count = (atoms), .word = NEW(from)}
#define FINISHED(subgoal) {.act = FINISH, .number = (subgoal), .word = SAID(TABLES_DONE, 0)}
#define LOOK_CALL(result, ...) {.act = LOOK, .of = CALL, CELLS(__VA_ARGS__), .word = (result)}
#define LOOK_ANSWER(subgoal, result, ...) \
    {.act = LOOK, .of = ANSWER, .number = (subgoal), CELLS(__VA_ARGS__), .word = (result)}
#define ENTER_CALL(result, ...) {.act = ENTER, .of = CALL, CELLS(__VA_ARGS__), .word = (result)}
#define ENTER_ANSWER(subgoal, result, ...) \
    {.act = ENTER, .of = ANSWER, .number = (subgoal), CELLS(__VA_ARGS__), .word = (result)}
#define CHAIN_CALL(result, ...) {.act = CHAIN, .of = CALL, CELLS(__VA_ARGS__), .word = (result)}
#define CHAIN_ANSWER(subgoal, result, ...) \
    {.act = CHAIN, .of = ANSWER, .number = (subgoal), CELLS(__VA_ARGS__), .word = (result)}
/* Subgoal 1 with itself where they are equal, into another. */
#define LOOK_JOIN(target, result) {.act = LOOK, .of = FINISH, .number = (target), .word = (result)}
#define ENTER_JOIN(target, result) {.act = ENTER, .of = FINISH, .number = (target), .word = (result)}
#define CHAIN_JOIN(target, result) {.act = CHAIN, .of = FINISH, .number = (target), .word = (result)}
#define SET_CELL(of_sort, record, which, to) \
    {.act = SET, .sort = (of_sort), .number = (record), .field = (which), .value = (to)}
#define HOLDS(of_sort, record, ...) {.act = HOLD, .sort = (of_sort), .number = (record), CELLS(__VA_ARGS__)}
#define COUNTED(nodes_used, subgoals_used, answers_used) \
    {.act = HOLD, .sort = HEADER, .field = 1, CELLS(nodes_used, subgoals_used, answers_used)}
#define ENTRIES(...) \
    .entry_count = sizeof((struct entry[]){__VA_ARGS__}) / sizeof(struct entry), .entry = {__VA_ARGS__}
#define BUILT(size, children, ...) \
    {.act = BUILD, .slots = (size), ENTRIES(__VA_ARGS__), .word = SAID(TABLES_BUILT, children)}
#define BUILT_EMPTY(size) {.act = BUILD, .slots = (size), .word = SAID(TABLES_BUILT, 0)}
#define NOT_BUILT(size, result) {.act = BUILD, .slots = (size), .word = (result)}
#define INDEX_OF(size, ...) {.act = INDEX, .slots = (size), ENTRIES(__VA_ARGS__)}
#define INDEX_FULL_OF(size, filler) {.act = INDEX, .slots = (size), .value = (filler)}
#define NO_INDEX {.act = INDEX, .slots = 0}

struct row {
    const char *rule;
    uint32_t nodes; /* room for */
    size_t count;
    const struct step *steps;
};

enum { NODES = 60, SUBGOALS = 20, ANSWERS = 30 };

#define ROW_WITH(rule, nodes, ...) \
    {rule, nodes, sizeof((const struct step[]){__VA_ARGS__}) / sizeof(struct step), (const struct step[]){__VA_ARGS__}}
#define ROW(rule, ...) ROW_WITH(rule, NODES, __VA_ARGS__)

/* p(a1) to p(a9): node 1 is p, node 2i is ai under it, 2i + 1 the root of its answers; 20 nodes. */
#define NINE_CALLED CALLED_ATOMS(1, P1, 1, 9)
#define NINE_SLOTS {2, 2}, {3, 4}, {4, 6}, {5, 8}, {6, 10}, {7, 12}, {8, 14}, {9, 16}, {10, 18}
#define NINE_BUILT NINE_CALLED, BUILT(32, 9, NINE_SLOTS)

/* p(X) with the answers a5 to a13: 1 p, 2 X, 3 the root, 4 to 12 under it; 13 nodes. */
#define NINE_ANSWERED CALLED(1, P1, X), ANSWERED_ATOMS(1, 1, 5, 9)
#define NINE_ANSWER_SLOTS {8, 4}, {9, 5}, {10, 6}, {11, 7}, {12, 8}, {13, 9}, {14, 10}, {15, 11}, {16, 12}

/* 1 p(X) has g(a1) and g(a2), finished; 2 q(X) has one, hidden: node 10 or 11 is its g, at slot 6 + 1. */
#define LED_ASTRAY(answered, g) \
    CALLED(1, P1, X), CALLED(2, Q1, X), ANSWERED(1, 1, G1, A(1)), ANSWERED(1, 2, G1, A(2)), answered, FINISHED(1), \
        SET_CELL(NODE, 6, CHILD, 0), INDEX_OF(32, {7, g})
/* The same with g(h(a1)), g(h(a2)), and g(a5). */
#define LED_DEEP \
    CALLED(1, P1, X), CALLED(2, Q1, X), ANSWERED(1, 1, G1, H1, A(1)), ANSWERED(1, 2, G1, H1, A(2)), \
        ANSWERED(2, 3, G1, A(5)), FINISHED(1), SET_CELL(NODE, 6, CHILD, 0), INDEX_OF(32, {7, 11})

static const struct row rows[] = {
    /* What a build enters, and where */
    ROW("a table without entries", BUILT_EMPTY(1), BUILT_EMPTY(32), NOT_BUILT(0, SLOTS_REFUSED),
        NOT_BUILT(3, SLOTS_REFUSED)),
    ROW("the children of a node of 8 do not enter", CALLED_ATOMS(1, P1, 1, 8), BUILT_EMPTY(32),
        BUILT_EMPTY(1), LOOK_CALL(OPEN(8), P1, A(8)), LOOK_CALL(NEW(9), P1, A(9))),
    ROW("those of a node of 9 do, all of them", NINE_CALLED, BUILT(32, 9, NINE_SLOTS),
        LOOK_CALL(OPEN(1), P1, A(1)), LOOK_CALL(OPEN(5), P1, A(5)), LOOK_CALL(OPEN(9), P1, A(9)),
        LOOK_CALL(NEW(10), P1, A(10)), LOOK_CALL(NEW(10), A(9)), BUILT(64, 9, NINE_SLOTS),
        LOOK_CALL(OPEN(9), P1, A(9))),
    ROW("the subgoal root's too: node 2i - 1 is ai; a root does not enter", CALLED(1, A(1)), CALLED(2, A(2)),
        CALLED(3, A(3)), CALLED(4, A(4)), CALLED(5, A(5)), CALLED(6, A(6)), CALLED(7, A(7)), CALLED(8, A(8)),
        BUILT_EMPTY(2), CALLED(9, A(9)),
        BUILT(32, 9, {1, 1}, {2, 3}, {3, 5}, {4, 7}, {5, 9}, {6, 11}, {7, 13}, {8, 15}, {9, 17}),
        LOOK_CALL(OPEN(9), A(9)), LOOK_CALL(NEW(10), A(10))),
    ROW("an answer root's too; it does not enter itself", NINE_ANSWERED, BUILT(32, 9, NINE_ANSWER_SLOTS),
        LOOK_ANSWER(1, OLD(1), A(5)), LOOK_ANSWER(1, OLD(9), A(13)), LOOK_ANSWER(1, NEW(10), A(4))),
    ROW("a node of 8 beside one of 9", CALLED(1, P1, X), CALLED(2, Q1, X), ANSWERED_ATOMS(2, 1, 1, 8),
        ANSWERED_ATOMS(1, 9, 1, 9),
        BUILT(32, 9, {4, 15}, {5, 16}, {6, 17}, {7, 18}, {8, 19}, {9, 20}, {10, 21}, {11, 22}, {12, 23}),
        LOOK_ANSWER(2, OLD(8), A(8)), LOOK_ANSWER(1, OLD(17), A(9))),
    ROW("9 under a node that is no root, of which there are 8", CALLED_ATOMS(1, P1, 1, 9), CALLED_ATOMS(10, Q1, 1, 8),
        BUILT(32, 9, NINE_SLOTS), LOOK_CALL(OPEN(17), Q1, A(8)), LOOK_CALL(NEW(18), Q1, A(9))),
    /* Roots 3 and 6: under 3 atom 4 + j, under 6 atom 9 - j, in turn. Both begin at 7 to 15, from either end. */
    ROW("children enter by number over the whole table, in the next free slot", CALLED(1, P1, X), CALLED(2, Q1, X),
        ANSWERED(1, 1, A(4)), ANSWERED(2, 2, A(9)), ANSWERED(1, 3, A(5)), ANSWERED(2, 4, A(8)),
        ANSWERED(1, 5, A(6)), ANSWERED(2, 6, A(7)), ANSWERED(1, 7, A(7)), ANSWERED(2, 8, A(6)),
        ANSWERED(1, 9, A(8)), ANSWERED(2, 10, A(5)), ANSWERED(1, 11, A(9)), ANSWERED(2, 12, A(4)),
        ANSWERED(1, 13, A(10)), ANSWERED(2, 14, A(3)), ANSWERED(1, 15, A(11)), ANSWERED(2, 16, A(2)),
        BUILT_EMPTY(16), ANSWERED(1, 17, A(12)),
        BUILT(32, 9, {7, 7}, {8, 9}, {9, 11}, {10, 13}, {11, 15}, {12, 17}, {13, 19}, {14, 21}, {15, 23}),
        ANSWERED(2, 18, A(1)), NOT_BUILT(32, SLOTS_REFUSED),
        BUILT(64, 18, {7, 7}, {8, 9}, {9, 11}, {10, 13}, {11, 15}, {12, 14}, {13, 12}, {14, 10}, {15, 8},
              {16, 16}, {17, 17}, {18, 18}, {19, 19}, {20, 20}, {21, 21}, {22, 22}, {23, 23}, {24, 24}),
        LOOK_ANSWER(1, OLD(17), A(12)), LOOK_ANSWER(2, OLD(18), A(1)), LOOK_ANSWER(2, OLD(2), A(9)),
        LOOK_ANSWER(1, NEW(19), A(13)), LOOK_ANSWER(2, NEW(19), A(10))),
    /* Slots 31 four times, 30 twice, 0, 4, 0. */
    ROW("around the end", CALLED(1, P1, X), ANSWERED(1, 1, A(28)), ANSWERED(1, 2, A(60)), ANSWERED(1, 3, A(92)),
        ANSWERED(1, 4, A(124)), ANSWERED(1, 5, A(27)), ANSWERED(1, 6, A(59)), ANSWERED(1, 7, A(29)),
        ANSWERED(1, 8, A(1)), ANSWERED(1, 9, A(61)),
        BUILT(32, 9, {30, 8}, {31, 4}, {0, 5}, {1, 6}, {2, 7}, {3, 9}, {4, 10}, {5, 11}, {6, 12}),
        LOOK_ANSWER(1, OLD(4), A(124)), LOOK_ANSWER(1, OLD(6), A(59)), LOOK_ANSWER(1, OLD(9), A(61)),
        LOOK_ANSWER(1, OLD(8), A(1)), LOOK_ANSWER(1, NEW(10), A(156)),
        BUILT(64, 9, {31, 4}, {63, 5}, {32, 6}, {0, 7}, {30, 8}, {62, 9}, {33, 10}, {4, 11}, {1, 12}),
        BUILT(128, 9, {31, 4}, {63, 5}, {95, 6}, {127, 7}, {30, 8}, {62, 9}, {32, 10}, {4, 11}, {64, 12})),
    /* Under 3: 4 at 2, 5 at 1, 6 (g) at 4, 8 (BLIST) at 3, 11 (VAR0), 12, 14 from 3, 13 from 2, 15 at 0. */
    ROW("the sum of any token, modulo the size", CALLED(1, P1, X), ANSWERED(1, 1, A(MOST)), ANSWERED(1, 2, I(MOST - 1)),
        ANSWERED(1, 3, G1, A(1)), ANSWERED(1, 4, PAIR, A(1), NIL), ANSWERED(1, 5, Y), ANSWERED(1, 6, A(0)),
        ANSWERED(1, 7, A(31)), ANSWERED(1, 8, I(0)), ANSWERED(1, 9, I(29)),
        BUILT(32, 9, {0, 15}, {1, 5}, {2, 4}, {3, 8}, {4, 6}, {5, 11}, {6, 12}, {7, 13}, {8, 14}),
        LOOK_ANSWER(1, OLD(1), A(MOST)), LOOK_ANSWER(1, OLD(2), I(MOST - 1)), LOOK_ANSWER(1, OLD(3), G1, A(1)),
        LOOK_ANSWER(1, OLD(4), PAIR, A(1), NIL), LOOK_ANSWER(1, OLD(5), X), LOOK_ANSWER(1, OLD(7), A(31)),
        LOOK_ANSWER(1, OLD(8), I(0)), LOOK_ANSWER(1, NEW(10), I(31))),
    ROW("the sum wraps at 2^32; a token is not judged, a root's neither", NINE_CALLED, SET_CELL(NODE, 18, TOKEN, FAR),
        SET_CELL(NODE, 16, TOKEN, FAR - 2), SET_CELL(NODE, 19, TOKEN, FAR), SET_CELL(NODE, 0, TOKEN, 7),
        BUILT(32, 9, {2, 2}, {3, 4}, {4, 6}, {5, 8}, {6, 10}, {7, 12}, {8, 14}, {30, 16}, {0, 18}),
        SET_CELL(NODE, 16, TOKEN, FAR - 1), SET_CELL(NODE, 2, TOKEN, FAR),
        BUILT(32, 9, {0, 2}, {3, 4}, {4, 6}, {5, 8}, {6, 10}, {7, 12}, {8, 14}, {31, 16}, {1, 18})),
    ROW("a build reads nothing of what the index held, and not the index at hand", NINE_BUILT,
        CALLED(10, P1, A(10)),
        BUILT(32, 10, NINE_SLOTS, {11, 20}), LOOK_CALL(OPEN(10), P1, A(10))),
    ROW("what is entered later is found all the same", NINE_BUILT, CALLED(10, P1, A(10)), CALLED(11, P1, A(33)),
        LOOK_CALL(OPEN(10), P1, A(10)), LOOK_CALL(OPEN(11), P1, A(33)), LOOK_CALL(NEW(12), P1, A(65))),

    /* 17, and what comes before it */
    ROW("17 for fewer slots than twice the children", NINE_CALLED, NOT_BUILT(16, SLOTS_REFUSED),
        NOT_BUILT(8, SLOTS_REFUSED), NOT_BUILT(2, SLOTS_REFUSED), NOT_BUILT(1, SLOTS_REFUSED),
        BUILT(32, 9, NINE_SLOTS)),
    ROW("16 children need exactly 32", CALLED_ATOMS(1, P1, 1, 16), NOT_BUILT(16, SLOTS_REFUSED),
        BUILT(32, 16, NINE_SLOTS, {11, 20}, {12, 22}, {13, 24}, {14, 26}, {15, 28}, {16, 30}, {17, 32}),
        CALLED(17, P1, A(17)), NOT_BUILT(32, SLOTS_REFUSED)),
    ROW("17 for a number that is no power of two, 0 too", NINE_CALLED, NOT_BUILT(0, SLOTS_REFUSED),
        NOT_BUILT(18, SLOTS_REFUSED), NOT_BUILT(31, SLOTS_REFUSED), NOT_BUILT(33, SLOTS_REFUSED),
        NOT_BUILT(48, SLOTS_REFUSED), NOT_BUILT(96, SLOTS_REFUSED), NOT_BUILT(127, SLOTS_REFUSED)),
    ROW("9 before 17", NINE_CALLED, SET_CELL(NODE, 19, LINK, 10), NOT_BUILT(0, DAMAGED), NOT_BUILT(31, DAMAGED),
        NOT_BUILT(16, DAMAGED), NOT_BUILT(32, DAMAGED)),
    ROW("1 before 9", NINE_CALLED, SET_CELL(NODE, 19, LINK, 10), SET_CELL(HEADER, 0, 0, 0), NOT_BUILT(0, REFUSED(1)),
        NOT_BUILT(32, REFUSED(1)), LOOK_CALL(REFUSED(1), P1, A(1))),

    /* Which damage a build meets: every node, its child's and its sibling's parent, and no other record */
    ROW("9 for a child that is not above, not below the nodes used, or another's", NINE_CALLED,
        SET_CELL(NODE, 19, CHILD, 20), NOT_BUILT(32, DAMAGED), SET_CELL(NODE, 19, CHILD, 19), NOT_BUILT(32, DAMAGED),
        SET_CELL(NODE, 19, CHILD, 4), NOT_BUILT(32, DAMAGED), SET_CELL(NODE, 19, CHILD, 0), BUILT(32, 9, NINE_SLOTS),
        SET_CELL(NODE, 17, CHILD, 18), NOT_BUILT(32, DAMAGED), SET_CELL(NODE, 17, CHILD, 19), NOT_BUILT(32, DAMAGED),
        SET_CELL(NODE, 1, CHILD, 3), NOT_BUILT(32, DAMAGED), SET_CELL(NODE, 17, CHILD, 0), NOT_BUILT(32, DAMAGED)),
    ROW("9 for a sibling of these sorts", NINE_CALLED, SET_CELL(NODE, 18, SIBLING, 20), NOT_BUILT(32, DAMAGED),
        SET_CELL(NODE, 18, SIBLING, 18), NOT_BUILT(32, DAMAGED), SET_CELL(NODE, 18, SIBLING, 2), NOT_BUILT(32, DAMAGED),
        SET_CELL(NODE, 18, SIBLING, 19), NOT_BUILT(32, DAMAGED), SET_CELL(NODE, 18, SIBLING, 0), BUILT(32, 9, NINE_SLOTS),
        SET_CELL(NODE, 0, SIBLING, 1), BUILT(32, 9, NINE_SLOTS), SET_CELL(NODE, 0, SIBLING, 2), NOT_BUILT(32, DAMAGED)),
    ROW("9 for a parent above", NINE_CALLED, SET_CELL(NODE, 3, PARENT, 4), NOT_BUILT(32, DAMAGED),
        SET_CELL(NODE, 3, PARENT, FAR), NOT_BUILT(32, DAMAGED), SET_CELL(NODE, 3, PARENT, 2), BUILT(32, 9, NINE_SLOTS)),
    /* 9 answers and 1 subgoal: a link of 2 is one of an answer only. */
    ROW("a link is held to the subgoals or to the answers, by the root", NINE_ANSWERED, SET_CELL(NODE, 2, LINK, 2),
        NOT_BUILT(32, DAMAGED), SET_CELL(NODE, 2, LINK, 1), SET_CELL(NODE, 0, LINK, 2), NOT_BUILT(32, DAMAGED),
        SET_CELL(NODE, 0, LINK, 1), BUILT(32, 9, NINE_ANSWER_SLOTS), SET_CELL(NODE, 3, LINK, 9),
        BUILT(32, 9, NINE_ANSWER_SLOTS), SET_CELL(NODE, 3, LINK, 10), NOT_BUILT(32, DAMAGED),
        SET_CELL(NODE, 3, LINK, 0), SET_CELL(NODE, 12, LINK, 10), NOT_BUILT(32, DAMAGED)),
    /* 9 subgoals and no answer: a root of answers with a link is damaged. */
    ROW("and where there are more subgoals than answers", NINE_CALLED, SET_CELL(NODE, 19, LINK, 1),
        NOT_BUILT(32, DAMAGED), SET_CELL(NODE, 19, LINK, 0), SET_CELL(NODE, 18, LINK, 8), BUILT(32, 9, NINE_SLOTS),
        SET_CELL(NODE, 19, PARENT, 18), SET_CELL(NODE, 19, LINK, 9), BUILT(32, 9, NINE_SLOTS)),
    ROW("no subgoal and no answer is read", NINE_ANSWERED, SET_CELL(SUBGOAL, 1, STATE, 7), SET_CELL(SUBGOAL, 1, ROOT, FAR),
        SET_CELL(ANSWER_RECORD, 3, 0, FAR), BUILT(32, 9, NINE_ANSWER_SLOTS)),
    ROW("what the siblings lead to says how many children there are, and all of the parent's enter", NINE_CALLED,
        SET_CELL(NODE, 16, SIBLING, 0), BUILT_EMPTY(1), CALLED(10, P1, A(10)),
        BUILT(32, 10, NINE_SLOTS, {11, 20}), SET_CELL(NODE, 2, SIBLING, 0), BUILT_EMPTY(32)),

    /* What a search takes from an index; the siblings are damaged at some place, so that it shows */
    ROW("a child is found without its siblings, and judged whole", NINE_BUILT, SET_CELL(NODE, 10, SIBLING, FAR),
        CHAIN_CALL(DAMAGED, P1, A(9)), LOOK_CALL(OPEN(9), P1, A(9)), LOOK_CALL(OPEN(6), P1, A(6)),
        LOOK_CALL(OPEN(4), P1, A(4)), LOOK_CALL(DAMAGED, P1, A(5)), LOOK_CALL(DAMAGED, P1, A(10))),
    ROW("a cell of the index and a sibling in turn, the cell first", NINE_CALLED, INDEX_OF(32, {10, 2}, {11, 2}, {12, 18}),
        LOOK_CALL(OPEN(9), P1, A(9)), SET_CELL(NODE, 6, LINK, FAR), LOOK_CALL(OPEN(9), P1, A(9)),
        CHAIN_CALL(DAMAGED, P1, A(9)), SET_CELL(NODE, 6, LINK, 3), SET_CELL(NODE, 4, LINK, FAR),
        LOOK_CALL(DAMAGED, P1, A(9)), INDEX_OF(32, {10, 2}, {11, 18}), LOOK_CALL(OPEN(9), P1, A(9)),
        SET_CELL(NODE, 2, LINK, FAR), LOOK_CALL(DAMAGED, P1, A(9)), INDEX_OF(32, {10, 18}), LOOK_CALL(OPEN(9), P1, A(9))),
    ROW("the siblings may be first", NINE_CALLED, INDEX_OF(32, {3, 8}, {4, 8}, {5, 8}, {6, 8}), SET_CELL(NODE, 6, LINK, FAR),
        LOOK_CALL(OPEN(2), P1, A(2)), LOOK_CALL(OPEN(1), P1, A(1)), LOOK_CALL(DAMAGED, P1, A(3)),
        LOOK_CALL(OPEN(4), P1, A(4))),
    ROW("a free slot ends it", NINE_CALLED, INDEX_OF(32, {10, 2}, {12, 18}), LOOK_CALL(OPEN(9), P1, A(9)),
        SET_CELL(NODE, 6, LINK, FAR), LOOK_CALL(DAMAGED, P1, A(9)), SET_CELL(NODE, 6, LINK, 3),
        SET_CELL(NODE, 16, SIBLING, 0), LOOK_CALL(NEW(10), P1, A(9))),
    ROW("an entry that is not confirmed is passed over, whatever it is, and not judged", NINE_CALLED,
        SET_CELL(NODE, 3, PARENT, FAR), SET_CELL(NODE, 12, LINK, FAR),
        INDEX_OF(32, {10, 1}, {11, 3}, {12, 20}, {13, FAR}, {14, 12}, {15, 18}), LOOK_CALL(OPEN(9), P1, A(9)),
        SET_CELL(NODE, 10, LINK, FAR), LOOK_CALL(DAMAGED, P1, A(9)), SET_CELL(NODE, 10, LINK, 5),
        INDEX_OF(32, {10, 12}, {11, 18}), LOOK_CALL(OPEN(9), P1, A(9))),
    /* Node 20 is q, 21 is q's a9, the root 22. */
    ROW("it has this token and this parent, both", NINE_CALLED, CALLED(10, Q1, A(9)), INDEX_OF(32, {10, 21}),
        LOOK_CALL(OPEN(9), P1, A(9)), INDEX_OF(32, {29, 18}), LOOK_CALL(OPEN(10), Q1, A(9)), INDEX_OF(32, {10, 16}),
        LOOK_CALL(OPEN(9), P1, A(9)), INDEX_FULL_OF(32, 21), LOOK_CALL(OPEN(9), P1, A(9)), LOOK_CALL(NEW(11), P1, A(10)),
        LOOK_CALL(OPEN(10), Q1, A(9)), LOOK_CALL(NEW(11), Q1, A(8)), LOOK_CALL(NEW(11), R1, A(9))),
    /* Nodes 2 and 3 bent to what a child of 3 would be, and looked for there. */
    ROW("it is above the parent", NINE_ANSWERED, SET_CELL(NODE, 3, TOKEN, A(6)), SET_CELL(NODE, 2, TOKEN, A(7)),
        SET_CELL(NODE, 2, PARENT, 3), INDEX_OF(32, {9, 3}, {10, 2}), LOOK_ANSWER(1, OLD(2), A(6)),
        LOOK_ANSWER(1, OLD(3), A(7)), SET_CELL(NODE, 3, TOKEN, A(20)), INDEX_OF(32, {23, 3}),
        LOOK_ANSWER(1, NEW(10), A(20))),
    /* Node 13 is not in use, and its cells are those of a10 under 3; node 12 is the last in use. */
    ROW("it is below the nodes used", NINE_ANSWERED, SET_CELL(NODE, 13, TOKEN, A(20)), SET_CELL(NODE, 13, PARENT, 3),
        SET_CELL(NODE, 13, LINK, 1), INDEX_OF(32, {23, 13}), LOOK_ANSWER(1, NEW(10), A(20)),
        INDEX_OF(32, {16, 12}), SET_CELL(NODE, 4, LINK, FAR), LOOK_ANSWER(1, OLD(9), A(13)),
        CHAIN_ANSWER(1, DAMAGED, A(13))),
    ROW("a child is reached that no sibling leads to", NINE_BUILT, SET_CELL(NODE, 16, SIBLING, 0),
        CHAIN_CALL(NEW(10), P1, A(9)), LOOK_CALL(OPEN(9), P1, A(9)), SET_CELL(NODE, 2, SIBLING, 0),
        LOOK_CALL(OPEN(9), P1, A(9)), LOOK_CALL(OPEN(2), P1, A(2)), LOOK_CALL(NEW(10), P1, A(10))),
    ROW("not beyond the last sibling", NINE_CALLED, SET_CELL(NODE, 4, SIBLING, 0), INDEX_OF(32, {10, 2}, {11, 18}),
        LOOK_CALL(OPEN(9), P1, A(9)), INDEX_OF(32, {10, 2}, {11, 2}, {12, 18}), LOOK_CALL(NEW(10), P1, A(9)),
        SET_CELL(NODE, 1, CHILD, 0), INDEX_FULL_OF(32, 18), LOOK_CALL(NEW(10), P1, A(9))),
    ROW("an entry that is confirmed and damaged is 9", NINE_CALLED, SET_CELL(NODE, 19, PARENT, 1),
        SET_CELL(NODE, 19, TOKEN, A(3)), SET_CELL(NODE, 19, LINK, 10), INDEX_OF(32, {4, 19}), CHAIN_CALL(OPEN(3), P1, A(3)),
        LOOK_CALL(DAMAGED, P1, A(3)), SET_CELL(NODE, 19, LINK, 0), LOOK_CALL(DAMAGED, P1, A(3)),
        SET_CELL(NODE, 19, LINK, 2), LOOK_CALL(DAMAGED, P1, A(3)), SET_CELL(SUBGOAL, 2, GOAL_LEAF, 19),
        LOOK_CALL(OPEN(2), P1, A(3)), SET_CELL(NODE, 19, SIBLING, 4), LOOK_CALL(DAMAGED, P1, A(3)),
        SET_CELL(NODE, 19, SIBLING, 0), SET_CELL(NODE, 19, CHILD, 20), LOOK_CALL(DAMAGED, P1, A(3))),
    ROW("around the end of the index", NINE_CALLED, SET_CELL(NODE, 8, LINK, FAR),
        INDEX_OF(16, {10, 2}, {11, 18}), LOOK_CALL(OPEN(9), P1, A(9)), INDEX_OF(8, {2, 2}, {3, 2}, {4, 18}),
        LOOK_CALL(OPEN(9), P1, A(9)), INDEX_OF(4, {2, 2}, {3, 2}, {0, 18}), LOOK_CALL(OPEN(9), P1, A(9)),
        INDEX_OF(2, {0, 2}, {1, 18}), LOOK_CALL(OPEN(9), P1, A(9)), INDEX_OF(1, {0, 18}), LOOK_CALL(OPEN(9), P1, A(9)),
        INDEX_FULL_OF(1, 2), LOOK_CALL(DAMAGED, P1, A(9)), LOOK_CALL(OPEN(1), P1, A(1)), LOOK_CALL(OPEN(3), P1, A(3))),
    ROW("an index whose cells are no power of two is as none", NINE_CALLED, SET_CELL(NODE, 2, LINK, FAR), NO_INDEX,
        LOOK_CALL(DAMAGED, P1, A(9)), INDEX_FULL_OF(3, 18), LOOK_CALL(DAMAGED, P1, A(9)), INDEX_FULL_OF(24, 18),
        LOOK_CALL(DAMAGED, P1, A(9)), INDEX_FULL_OF(31, 18), LOOK_CALL(DAMAGED, P1, A(9)), INDEX_FULL_OF(33, 18),
        LOOK_CALL(DAMAGED, P1, A(9)), INDEX_FULL_OF(32, 18), LOOK_CALL(OPEN(9), P1, A(9))),

    /* The calls that take one, what they enter, and a join for its target */
    ROW("what is new goes behind the last sibling, whatever the index holds", NINE_CALLED, INDEX_FULL_OF(32, 4),
        ENTER_CALL(NEW(10), P1, A(10)), HOLDS(NODE, 1, P1, 2, 0, 0, 0), HOLDS(NODE, 2, A(1), 0, 4, 1, 1),
        HOLDS(NODE, 18, A(9), 0, 20, 1, 9), HOLDS(NODE, 20, A(10), 0, 0, 1, 10), HOLDS(NODE, 21, 0, 0, 0, 21, 0),
        HOLDS(SUBGOAL, 10, 20, 21, 0, 0, 0, 0), BUILT(32, 10, NINE_SLOTS, {11, 20}), ENTER_CALL(NEW(11), P1, A(11)),
        HOLDS(NODE, 20, A(10), 0, 22, 1, 10), HOLDS(NODE, 22, A(11), 0, 0, 1, 11), LOOK_CALL(OPEN(11), P1, A(11)),
        ENTER_CALL(NEW(12), Q1, A(11)), HOLDS(NODE, 1, P1, 2, 24, 0, 0), HOLDS(NODE, 24, Q1, 25, 0, 0, 0),
        HOLDS(NODE, 25, A(11), 0, 0, 24, 12)),
    ROW("below a child that the index found", CALLED(1, P1, X), ANSWERED_ATOMS(1, 1, 1, 8), ANSWERED(1, 9, G1, A(1)),
        BUILT(32, 9, {4, 4}, {5, 5}, {6, 6}, {7, 7}, {8, 8}, {9, 9}, {10, 10}, {11, 11}, {12, 12}),
        INDEX_OF(32, {4, 12}), SET_CELL(NODE, 4, SIBLING, FAR), CHAIN_ANSWER(1, DAMAGED, G1, A(2)),
        ENTER_ANSWER(1, NEW(10), G1, A(2)), HOLDS(NODE, 12, G1, 13, 0, 3, 0), HOLDS(NODE, 13, A(1), 0, 14, 12, 9),
        HOLDS(NODE, 14, A(2), 0, 0, 12, 10), HOLDS(ANSWER_RECORD, 10, 14, 1, 0), HOLDS(SUBGOAL, 1, 2, 3, 1, 0, 1, 10)),
    ROW("an answer", NINE_ANSWERED, BUILT(32, 9, NINE_ANSWER_SLOTS), SET_CELL(NODE, 8, SIBLING, 3),
        CHAIN_ANSWER(1, DAMAGED, A(13)), LOOK_ANSWER(1, OLD(9), A(13)), LOOK_ANSWER(1, OLD(4), A(8)),
        LOOK_ANSWER(1, DAMAGED, A(9)), LOOK_ANSWER(1, DAMAGED, A(4)), SET_CELL(NODE, 12, LINK, 0),
        LOOK_ANSWER(1, DAMAGED, A(13))),
    /* 1 p(X) has a13 alone; 2 q(X) has a5 to a13, root 6, nodes 8 to 16. */
    ROW("a join", CALLED(1, P1, X), CALLED(2, Q1, X), ANSWERED(1, 1, A(13)), ANSWERED_ATOMS(2, 2, 5, 9), FINISHED(1),
        BUILT(32, 9, {11, 8}, {12, 9}, {13, 10}, {14, 11}, {15, 12}, {16, 13}, {17, 14}, {18, 15}, {19, 16}),
        LOOK_JOIN(2, JOINED(0)), CHAIN_JOIN(2, JOINED(0)), SET_CELL(NODE, 10, SIBLING, FAR), LOOK_JOIN(2, JOINED(0)),
        CHAIN_JOIN(2, DAMAGED), SET_CELL(NODE, 16, LINK, FAR), LOOK_JOIN(2, DAMAGED), SET_CELL(NODE, 16, LINK, 10),
        INDEX_FULL_OF(8, 7), LOOK_JOIN(2, DAMAGED), SET_CELL(NODE, 10, SIBLING, 0), LOOK_JOIN(2, JOINED(1)),
        INDEX_OF(32, {19, 16}), LOOK_JOIN(2, JOINED(0)), NO_INDEX, LOOK_JOIN(2, JOINED(1)), ENTER_JOIN(2, JOINED(1)),
        HOLDS(NODE, 10, A(7), 0, 17, 6, 4), HOLDS(NODE, 17, A(13), 0, 0, 6, 11), HOLDS(SUBGOAL, 2, 5, 6, 1, 0, 2, 11)),

    /*
     * A join counts on the table as it is lent, and enters one answer after another, as if given by answer. Where children were
     * hidden from the siblings, what it enters first stands before them; but a slot counts only beside a sibling that stood when
     * the join began. So it finds nothing there that it had not found when it counted: every answer enters, as without an index.
     */
    ROW("what a join enters leads it to no old answer", LED_ASTRAY(ANSWERED(2, 3, G1, A(2)), 10), COUNTED(12, 2, 3),
        CHAIN_JOIN(2, JOINED(2)), ENTER_JOIN(2, JOINED(2)), COUNTED(15, 2, 5), HOLDS(NODE, 6, 0, 12, 0, 6, 0),
        HOLDS(NODE, 12, G1, 13, 0, 6, 0), HOLDS(NODE, 13, A(1), 0, 14, 12, 4), HOLDS(NODE, 14, A(2), 0, 0, 12, 5),
        HOLDS(NODE, 11, A(2), 0, 0, 10, 3)),
    ROW("nor below an old node", LED_ASTRAY(ANSWERED(2, 3, G1, A(5)), 10), ENTER_JOIN(2, JOINED(2)), COUNTED(15, 2, 5),
        HOLDS(NODE, 12, G1, 13, 0, 6, 0), HOLDS(NODE, 11, A(5), 0, 0, 10, 3), HOLDS(NODE, 14, A(2), 0, 0, 12, 5)),
    ROW("with as many nodes as counted", LED_DEEP, ENTER_JOIN(2, JOINED(2)), COUNTED(17, 2, 5),
        HOLDS(NODE, 13, G1, 14, 0, 6, 0), HOLDS(NODE, 12, A(5), 0, 0, 11, 3), HOLDS(NODE, 16, A(2), 0, 0, 14, 5)),
    ROW_WITH("none left out where there is just room", 17, LED_DEEP, LOOK_JOIN(2, JOINED(2)), CHAIN_JOIN(2, JOINED(2)),
             ENTER_JOIN(2, JOINED(2)), COUNTED(17, 2, 5), HOLDS(NODE, 12, A(5), 0, 0, 11, 3),
             HOLDS(SUBGOAL, 1, 2, 3, 1, 1, 1, 2), HOLDS(SUBGOAL, 2, 5, 6, 1, 0, 3, 5)),
    ROW_WITH("10 where one fewer is left", 16, LED_DEEP, LOOK_JOIN(2, REFUSED(10)), CHAIN_JOIN(2, REFUSED(10))),
    ROW("none left out where damage is hidden", CALLED(1, P1, X), CALLED(2, Q1, X), ANSWERED(1, 1, G1, A(1)),
        ANSWERED(1, 2, G1, A(2)), ANSWERED(1, 3, A(9)), ANSWERED(2, 4, G1, A(5)), FINISHED(1), SET_CELL(NODE, 6, CHILD, 0),
        SET_CELL(NODE, 12, LINK, FAR), INDEX_OF(32, {7, 11}), CHAIN_JOIN(2, JOINED(3)), ENTER_JOIN(2, JOINED(3)),
        COUNTED(17, 2, 7), HOLDS(NODE, 13, G1, 14, 16, 6, 0), HOLDS(NODE, 14, A(1), 0, 15, 13, 5),
        HOLDS(NODE, 15, A(2), 0, 0, 13, 6), HOLDS(NODE, 16, A(9), 0, 0, 6, 7)),
};

/* The space */

enum { SPARE = 2, SPACE_CELLS = TABLES_SPACE_CELLS(NODES, SUBGOALS, ANSWERS) + SPARE };

static struct arena space_arena, index_arena;
static uint32_t *space, *slots;
static size_t slot_count;
static unsigned checks, failures;

static void check(bool holds, const struct row *row, size_t step, const char *what)
{
    checks++;
    if (!holds) {
        failures++;
        printf("failed: edition %u: %s: step %zu: %s\n", (unsigned)edition, row->rule, step + 1, what);
    }
}

static void check_word(uint64_t word, uint64_t expected, const struct row *row, size_t step)
{
    check(word == expected, row, step, "result");
    if (word != expected)
        printf("  %#" PRIx64 " instead of %#" PRIx64 "\n", word, expected);
}

static uint32_t *record_at(enum sort sort, uint32_t number)
{
    switch (sort) {
    case NODE:
        return space + 8 + 5 * (size_t)number;
    case SUBGOAL:
        return space + space[5] + 6 * (size_t)(number - 1);
    case ANSWER_RECORD:
        return space + space[6] + 3 * (size_t)(number - 1);
    default:
        return space;
    }
}

/* Another index at hand, of so many cells that all hold the same. */
static void take_index(size_t count, uint32_t value)
{
    slots = lend(&index_arena, count, true);
    slot_count = count;
    for (size_t i = 0; i < count; i++)
        slots[i] = value;
}

static void put_entries(const struct step *step, uint32_t *cells)
{
    for (size_t i = 0; i < step->entry_count; i++)
        cells[step->entry[i].slot] = step->entry[i].node;
}

/* Making the steps */

/* A call, an answer or a join, with the index at hand or without. */
static uint64_t make(const struct step *step, enum act act, bool indexed)
{
    static const uint32_t pair[] = {0, 0}, copy[] = {0, 0};
    uint32_t cells[STEP_CELLS];
    size_t count = step->cell_count;
    const uint32_t *lent = slot_count == 0 ? NULL : slots;
    for (size_t i = 0; i < count; i++)
        cells[i] = recoded(edition, step->cell[i]);
    switch (act) {
    case CALL:
        return indexed ? tables_call_indexed(space, SPACE_CELLS, lent, slot_count, cells, count)
                       : tables_call(space, SPACE_CELLS, cells, count);
    case ANSWER:
        return indexed ? tables_answer_indexed(space, SPACE_CELLS, lent, slot_count, step->number, cells, count)
                       : tables_answer(space, SPACE_CELLS, step->number, cells, count);
    default:
        return indexed ? tables_join_indexed(space, SPACE_CELLS, lent, slot_count, 1, 1, pair, 2, step->number, copy, 2)
                       : tables_join(space, SPACE_CELLS, 1, 1, pair, 2, step->number, copy, 2);
    }
}

/* The same of atoms in turn; each has the next number. */
static void make_atoms(const struct row *row, size_t number, const struct step *step)
{
    struct step single = *step;
    for (uint32_t i = 0; i < step->count; i++) {
        single.cell[step->cell_count] = A(step->first + i);
        single.cell_count = step->cell_count + 1;
        check_word(make(&single, step->act == CALL_ATOMS ? CALL : ANSWER, false), step->word + i, row, number);
    }
}

/* With the index at hand, which stays as it is, or without; the table is put back, unless something is to enter. */
static void look(const struct row *row, size_t number, const struct step *step)
{
    static uint32_t before[SPACE_CELLS], slots_before[MOST_SLOTS];
    memcpy(before, space, sizeof before);
    memcpy(slots_before, slots, slot_count * sizeof *slots);
    uint64_t word = make(step, step->of, step->act != CHAIN);
    bool enters = tables_what(word) == TABLES_NEW || (step->of == FINISH && tables_value(word) > 0);
    check_word(word, step->word, row, number);
    check(enters || memcmp(space, before, sizeof before) == 0, row, number, "the space was changed");
    check(memcmp(slots, slots_before, slot_count * sizeof *slots) == 0, row, number, "the index was changed");
    if (step->act != ENTER)
        memcpy(space, before, sizeof before);
}

/* Cells of a record, from a field on; a token is written for edition 1. */
static void hold(const struct row *row, size_t number, const struct step *step)
{
    const uint32_t *record = record_at(step->sort, step->number) + step->field;
    for (size_t i = 0; i < step->cell_count; i++) {
        bool is_token = step->sort == NODE && i == TOKEN;
        uint32_t expected = is_token ? recoded(edition, step->cell[i]) : step->cell[i];
        check(record[i] == expected, row, number, "a cell of a record");
        if (record[i] != expected)
            printf("  field %zu is %#" PRIx32 " instead of %#" PRIx32 "\n", i, record[i], expected);
    }
}

/* Over cells that hold something else, no node's number or one; refused, they stay. */
static void build(const struct row *row, size_t number, const struct step *step)
{
    static uint32_t before[SPACE_CELLS], expected[MOST_SLOTS];
    bool refused = tables_refused_by(step->word) != 0;
    memcpy(before, space, sizeof before);
    take_index(step->slots, UINT32_C(0xa5a5a5a5));
    for (size_t i = 0; i < step->slots; i++) {
        slots[i] = i % 3 == 0 ? slots[i] : (uint32_t)i % 3;
        expected[i] = refused ? slots[i] : 0;
    }
    put_entries(step, expected);
    check_word(tables_build(space, SPACE_CELLS, step->slots == 0 ? NULL : slots, step->slots), step->word, row, number);
    check(memcmp(space, before, sizeof before) == 0, row, number, "the space was changed");
    size_t same = 0;
    while (same < step->slots && slots[same] == expected[same])
        same++;
    check(same == step->slots, row, number, "a slot");
    if (same < step->slots)
        printf("  slot %zu is %#" PRIx32 " instead of %#" PRIx32 "\n", same, slots[same], expected[same]);
}

static void run_step(const struct row *row, size_t number, const struct step *step)
{
    switch (step->act) {
    case CALL_ATOMS:
    case ANSWER_ATOMS:
        make_atoms(row, number, step);
        break;
    case FINISH:
        check_word(tables_finish(space, SPACE_CELLS, step->number), step->word, row, number);
        break;
    case LOOK:
    case CHAIN:
    case ENTER:
        look(row, number, step);
        break;
    case HOLD:
        hold(row, number, step);
        break;
    case SET:
        check(record_at(step->sort, step->number)[step->field] != step->value, row, number, "changes nothing");
        record_at(step->sort, step->number)[step->field] = step->value;
        break;
    case INDEX:
        take_index(step->slots, step->value);
        put_entries(step, slots);
        break;
    case BUILD:
        build(row, number, step);
        break;
    default:
        check_word(make(step, step->act, false), step->word, row, number);
    }
    check(marks_kept(&space_arena) && marks_kept(&index_arena), row, number, "cells beside those lent were changed");
}

static void run_row(const struct row *row)
{
    note_place("edition %u, %s", (unsigned)edition, row->rule);
    space = lend(&space_arena, SPACE_CELLS, true);
    memset(space, 0x5a, SPACE_CELLS * sizeof *space);
    take_index(0, 0);
    check_word(tables_fresh(space, SPACE_CELLS, row->nodes, SUBGOALS, ANSWERS, edition), SAID(TABLES_DONE, 0), row, 0);
    for (size_t i = 0; i < row->count; i++)
        run_step(row, i, &row->steps[i]);
}

/* Nothing lent at all: refused by 1, by every call that takes an index. */
static void check_nothing_lent(void)
{
    static const struct row none = {.rule = "nothing lent"};
    check_word(tables_build(NULL, 0, NULL, 0), REFUSED(1), &none, 0);
    check_word(tables_call_indexed(NULL, 0, NULL, 0, NULL, 0), REFUSED(1), &none, 1);
    check_word(tables_answer_indexed(NULL, 0, NULL, 0, 1, NULL, 0), REFUSED(1), &none, 2);
    check_word(tables_join_indexed(NULL, 0, NULL, 0, 1, 1, NULL, 0, 1, NULL, 0), REFUSED(1), &none, 3);
}

int main(void)
{
    size_t count = sizeof rows / sizeof *rows;
    setvbuf(stdout, NULL, _IOLBF, BUFSIZ);
    report_crashes();
    alarm(SECONDS);
    open_arena(&space_arena, SPACE_CELLS);
    open_arena(&index_arena, MOST_SLOTS);
    for (edition = 1; edition <= LAST_EDITION; edition++) {
        check_nothing_lent();
        for (size_t i = 0; i < count; i++)
            run_row(&rows[i]);
    }
    printf("index_rules_test: %zu rows in each edition, %u checks, %u failures\n", count, checks, failures);
    return failures == 0 ? 0 : 1;
}
