/* The spaces of crates/agreement/specs/WholeExamples.antt given to tables_check and to the calls: what is proved of them there. */
#include "../include/tables.h"

#include <inttypes.h>
#include <stdio.h>
#include <string.h>

#define VAR0 TABLES_CELL(TABLES_VARIABLE, 0)
#define P1 TABLES_FUNCTOR_CELL(TABLES_EDITION_1, 1, 1)
#define ATOM(number) TABLES_CELL(TABLES_ATOM, number)
#define SAID(what, value) ((uint64_t)(what) << 32 | (value))
#define BROKEN(kind, number) SAID(TABLES_CALL_REFUSED + TABLES_REFUSED_DAMAGED, (uint32_t)(kind) << 28 | (number))

enum { CELLS = TABLES_SPACE_CELLS(7, 1, 3) };

/* Subgoal p(X) with the answers 5 and 6, as calls leave it: room for 7 nodes, 1 subgoal and 3 answers. */
static const uint32_t sample[CELLS] = {
    1, 6, 1, 2, 8, 43, 49, 58,
    0, 1, 0, 0, 0,
    P1, 2, 0, 0, 0,
    VAR0, 0, 0, 1, 1,
    0, 4, 0, 3, 0,
    ATOM(5), 0, 5, 3, 1,
    ATOM(6), 0, 0, 3, 2,
    0, 0, 0, 0, 0,
    2, 3, 1, 0, 1, 2,
    4, 1, 2,
    5, 1, 0,
    0, 0, 0};

/* Three answers, the first two followed by the third: as many pointers as answers, and answer 2 on no chain. */
static const uint32_t skipping[CELLS] = {
    1, 7, 1, 3, 8, 43, 49, 58,
    0, 1, 0, 0, 0,
    P1, 2, 0, 0, 0,
    VAR0, 0, 0, 1, 1,
    0, 4, 0, 3, 0,
    ATOM(5), 0, 5, 3, 1,
    ATOM(6), 0, 6, 3, 2,
    ATOM(7), 0, 0, 3, 3,
    2, 3, 1, 0, 1, 3,
    4, 1, 3,
    5, 1, 3,
    6, 1, 0};

/* The same as sample with its answers' nodes numbered otherwise. */
static const uint32_t renumbered[CELLS] = {
    1, 6, 1, 2, 8, 43, 49, 58,
    0, 1, 0, 0, 0,
    P1, 2, 0, 0, 0,
    VAR0, 0, 0, 1, 1,
    0, 4, 0, 3, 0,
    ATOM(6), 0, 5, 3, 2,
    ATOM(5), 0, 0, 3, 1,
    0, 0, 0, 0, 0,
    2, 3, 1, 0, 1, 2,
    5, 1, 2,
    4, 1, 0,
    0, 0, 0};

/*
 * p(a) and p(b), subgoals 1 and 2, the nodes of p(b) before those of p(a): the first child of p leads to subgoal 2. And
 * the same nodes where p(b) is subgoal 1.
 */
enum { CROSSED_CELLS = TABLES_SPACE_CELLS(6, 2, 0) };

#define CROSSED_NODES(first, second) \
    1, 6, 2, 0, 8, 38, 50, 50, \
    0, 1, 0, 0, 0, \
    P1, 2, 0, 0, 0, \
    ATOM(2), 0, 4, 1, (first), \
    0, 0, 0, 3, 0, \
    ATOM(1), 0, 0, 1, (second), \
    0, 0, 0, 5, 0

static const uint32_t crossed[CROSSED_CELLS] = {CROSSED_NODES(2, 1), 4, 5, 0, 0, 0, 0, 2, 3, 0, 0, 0, 0};
static const uint32_t straight[CROSSED_CELLS] = {CROSSED_NODES(1, 2), 2, 3, 0, 0, 0, 0, 4, 5, 0, 0, 0, 0};

/* A space with at most two cells changed, and the word of its check. */
static const struct {
    const char *name;
    const uint32_t *cells;
    struct { uint32_t place, value; } changes[2];
    uint64_t word;
} spaces[] = {
    {"sample", sample, {{0, 1}, {0, 1}}, SAID(TABLES_DONE, 0)},
    {"renumbered", renumbered, {{0, 1}, {0, 1}}, SAID(TABLES_DONE, 0)},
    {"unchained", sample, {{51, 0}, {0, 1}}, BROKEN(TABLES_BROKEN_ANSWER, 2)},
    {"unlisted", sample, {{30, 0}, {0, 1}}, BROKEN(TABLES_BROKEN_NODE, 5)},
    {"endless", sample, {{48, 1}, {0, 1}}, BROKEN(TABLES_BROKEN_SUBGOAL, 1)},
    {"misled", sample, {{17, 1}, {0, 1}}, BROKEN(TABLES_BROKEN_NODE, 1)},
    {"doubled", sample, {{33, ATOM(5)}, {0, 1}}, BROKEN(TABLES_BROKEN_NODE, 5)},
    {"skipping", skipping, {{0, 1}, {0, 1}}, BROKEN(TABLES_BROKEN_ANSWER, 2)},
    {"edition 2", sample, {{0, 2}, {13, TABLES_FUNCTOR_CELL(2, 1, 1)}}, SAID(TABLES_DONE, 0)},
    {"edition 2, 17 arguments", sample, {{0, 2}, {0, 2}}, BROKEN(TABLES_BROKEN_SUBGOAL, 1)},
    {"edition 3", sample, {{0, 3}, {0, 3}}, SAID(TABLES_CALL_REFUSED + TABLES_REFUSED_HEADER, 0)},
};

static int checks, failures;

static void expect(const char *name, const char *what, uint64_t got, uint64_t expected)
{
    checks++;
    if (got == expected)
        return;
    failures++;
    printf("check_examples_test: %s, %s: %" PRIx64 " instead of %" PRIx64 "\n", name, what, got, expected);
}

static void check_space(size_t i)
{
    uint32_t cells[CELLS], kept[CELLS];
    memcpy(cells, spaces[i].cells, sizeof cells);
    for (size_t k = 0; k < 2; k++)
        cells[spaces[i].changes[k].place] = spaces[i].changes[k].value;
    memcpy(kept, cells, sizeof kept);
    uint64_t word = tables_check(cells, CELLS), expected = spaces[i].word;
    expect(spaces[i].name, "check", word, expected);
    expect(spaces[i].name, "the cells", (uint64_t)(memcmp(cells, kept, sizeof kept) != 0), 0);
    int record = tables_refused_by(expected) == TABLES_REFUSED_DAMAGED;
    expect(spaces[i].name, "the kind", tables_broken_kind(word), record ? (uint32_t)expected >> 28 : 0);
    expect(spaces[i].name, "the number", tables_broken_number(word), record ? expected & 0xfffffff : 0);
    expect(spaces[i].name, "the value", tables_value(word), 0);
}

/* A space that loses an answer, and one that takes an answer that it holds for new: no call refuses. */
static void check_silence(void)
{
    const uint32_t six = ATOM(6);
    uint32_t unchained[CELLS], unlisted[CELLS];
    memcpy(unchained, sample, sizeof unchained);
    memcpy(unlisted, sample, sizeof unlisted);
    unchained[51] = 0;
    unlisted[30] = 0;
    expect("unchained", "next after 0", tables_next(unchained, CELLS, 1, 0), SAID(TABLES_AT, 1));
    expect("unchained", "next after 1", tables_next(unchained, CELLS, 1, 1), SAID(TABLES_NONE_YET, 0));
    unchained[46] = 1; /* its state */
    expect("unchained, finished", "next after 1", tables_next(unchained, CELLS, 1, 1), SAID(TABLES_NO_MORE, 0));
    expect("unlisted", "answer", tables_answer(unlisted, CELLS, 1, &six, 1), SAID(TABLES_NEW, 3));
}

int main(void)
{
    for (size_t i = 0; i < sizeof spaces / sizeof *spaces; i++)
        check_space(i);
    check_silence();
    expect("straight", "check", tables_check(straight, CROSSED_CELLS), SAID(TABLES_DONE, 0));
    expect("crossed", "check", tables_check(crossed, CROSSED_CELLS), BROKEN(TABLES_BROKEN_SUBGOAL, 1));
    expect("none", "check", tables_check(NULL, 0), SAID(TABLES_CALL_REFUSED + TABLES_REFUSED_HEADER, 0));
    printf("check_examples_test: %d checks, %d failed\n", checks, failures);
    return failures != 0;
}
