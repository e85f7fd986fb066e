/* Checks the cells, words, texts and version that the header gives. C11 and C++17 alike. */
#include <tables.h>

#include <stdio.h>
#include <string.h>

#if TABLES_VERSION < 40500
#error "the version is 4.5.0 or later"
#endif

enum { MOST_REFUSAL = 24 };

static int checks, failures;

static void check(int right, const char *what)
{
    checks++;
    failures += !right;
    if (!right)
        printf("header_test: %s\n", what);
}

/* Where a constant expression is due. */
enum { PAIR = TABLES_CELL(TABLES_PAIR, 0), SPACE_CELLS = TABLES_SPACE_CELLS(10, 2, 2) };
static const uint32_t constant[] = {
    TABLES_FUNCTOR_CELL(TABLES_EDITION_2, 1, 40), TABLES_CELL(TABLES_ATOM, 7), TABLES_EMPTY_LIST,
    TABLES_CELL(TABLES_ATOM, TABLES_MOST_PAYLOAD + 1), TABLES_CELL(TABLES_INTEGER, -1)};

static void test_constants(void)
{
    check(TABLES_VERSION_MAJOR == 4 && TABLES_VERSION_MINOR == 5 && TABLES_VERSION_PATCH == 0 &&
              TABLES_VERSION == 40500,
          "the version is 4.5.0");
    check(PAIR == 0x50000000, "a pair");
    check(constant[0] == 0x40000128 && constant[1] == 0x20000007, "constants in range");
    check(constant[2] == 0x20000000, "the empty list");
    check(constant[3] == 0 && constant[4] == 0, "constants out of range");
    switch (constant[1]) {
    case TABLES_CELL(TABLES_ATOM, 7):
        break;
    default:
        check(0, "a case label");
    }
}

/* The cell of a kind and a payload by the function and by the macro. */
static void check_cell(uint64_t kind, uint64_t payload, uint64_t expected)
{
    check(tables_cell(kind, payload) == expected, "tables_cell");
    check(TABLES_CELL(kind, payload) == expected, "TABLES_CELL");
}

static void test_cells(void)
{
    static const uint64_t far[] = {1, 15, 16, 255, 256, 0x0fffffff};
    static const uint64_t outside[] = {0x10000000, 0x20000000, 0xffffffff, UINT64_C(1) << 32,
                                       UINT64_MAX};
    for (uint64_t kind = 0; kind < 20; kind++) {
        int known = kind >= 1 && kind <= 8, marks = kind > 4;
        check_cell(kind, 0, known ? kind << 28 : 0);
        for (size_t i = 0; i < sizeof far / sizeof *far; i++)
            check_cell(kind, far[i], known && !marks ? kind << 28 | far[i] : 0);
        for (size_t i = 0; i < sizeof outside / sizeof *outside; i++)
            check_cell(kind, outside[i], 0);
    }
    check_cell(UINT64_C(1) << 32 | 2, 7, 0);
    check_cell(UINT64_MAX, 7, 0);
    check_cell(TABLES_INTEGER, (uint64_t)-1, 0);
}

/* The functions take each argument once; a narrow one makes no warning in the macros. */
static void test_arguments(void)
{
    uint8_t byte = 7;
    uint32_t number = 7;
    check(TABLES_CELL(TABLES_ATOM, byte) == 0x20000007, "a byte for a payload");
    check(TABLES_CELL(byte, 0) == 0x70000000, "a byte for a kind");
    check(TABLES_FUNCTOR_CELL(TABLES_EDITION_2, byte, byte) == 0x40000707, "a byte for a name");
    check(tables_cell(TABLES_ATOM, number++) == 0x20000007 && number == 8, "evaluated once");
    check(tables_functor_cell(TABLES_EDITION_1, number++, 3) == 0x40000083 && number == 9,
          "a functor's evaluated once");
}

static void check_functor(uint64_t edition, uint64_t name, uint64_t arity, uint64_t expected)
{
    check(tables_functor_cell(edition, name, arity) == expected, "tables_functor_cell");
    check(TABLES_FUNCTOR_CELL(edition, name, arity) == expected, "TABLES_FUNCTOR_CELL");
}

static void test_functors(void)
{
    check_functor(1, 1, 2, 0x40000012);
    check_functor(1, 16777215, 15, 0x4fffffff);
    check_functor(1, 16777216, 15, 0);
    check_functor(1, 1, 16, 0);
    check_functor(1, 1, 17, 0);
    check_functor(2, 1, 17, 0x40000111);
    check_functor(2, 1048575, 255, 0x4fffffff);
    check_functor(2, 1048576, 1, 0);
    check_functor(2, 1, 256, 0);
    check_functor(2, 1, 0, 0);
    check_functor(2, UINT64_MAX, 1, 0);
    check_functor(2, UINT64_C(1) << 32, 1, 0);
    check_functor(0, 1, 2, 0);
    check_functor(3, 1, 2, 0);
    check_functor(UINT64_C(1) << 32 | 1, 1, 2, 0);
}

static uint64_t word(uint64_t what, uint32_t value)
{
    return what << 32 | value;
}

/* Next has two words for no answer, of their own numbers and without a value. */
static void test_ends(void)
{
    check(TABLES_NONE_YET == 6 && TABLES_NO_MORE == 9, "the numbers of the two words");
    check(tables_what(word(TABLES_NO_MORE, 0)) == TABLES_NO_MORE, "no more");
    check(tables_refused_by(word(TABLES_NONE_YET, 0)) == 0, "none yet is no refusal");
    check(tables_refused_by(word(TABLES_NO_MORE, 0)) == 0, "no more is no refusal");
    check(tables_broken_kind(word(TABLES_NO_MORE, 0)) == 0, "no more is not refusal 9");
}

/* The index brought a word, a refusal and a bound, behind those that there were. */
static void test_index_numbers(void)
{
    check(TABLES_JOINED == 10 && TABLES_BUILT == 11 && TABLES_CALL_REFUSED == 256, "the numbers of the words");
    check(TABLES_REFUSED_NAMES == 16 && TABLES_REFUSED_SLOTS == 17, "the numbers of the refusals");
    check(tables_value(word(TABLES_BUILT, 9)) == 9, "the children entered");
    check(tables_refused_by(word(TABLES_BUILT, 17)) == 0, "built is no refusal");
    check(TABLES_STACK_BUILD > 0, "a bound for the build");
}

/* The lists brought a word, two refusals, two limits and two bounds. */
static void test_list_numbers(void)
{
    check(TABLES_END == 16, "the number of the end");
    check(tables_refused_by(word(TABLES_END, 0)) == 0, "the end is no refusal");
    check(tables_value(word(TABLES_END, 0)) == 0, "the end has no value");
    check(TABLES_REFUSED_LISTING == 23 && TABLES_REFUSED_LISTED == 24, "the numbers of the refusals");
    check(TABLES_LISTED_CELLS == 8 && TABLES_LISTED_SYMBOLS == 16, "the limits");
    check(TABLES_STACK_FIRST_TERM > 0 && TABLES_STACK_TERM_AFTER > 0, "bounds for the lists");
}

/* Why brought two words, a limit and a bound. */
static void test_why_numbers(void)
{
    check(TABLES_WHY_OLD == 12 && TABLES_WHY_NEW == 13, "the numbers of the words");
    check(tables_value(word(TABLES_WHY_NEW, 5)) == 5 && tables_refused_by(word(TABLES_WHY_OLD, 5)) == 0, "no refusal");
    check(TABLES_WHY_CELLS == 1 + TABLES_TERM_VARIABLES && TABLES_STACK_WHY > 0, "the limit and the bound");
}

/* Detours brought two words, a refusal, a limit and a bound. */
static void test_detour_numbers(void)
{
    check(TABLES_DETOUR == 14 && TABLES_NO_DETOUR == 15, "the numbers of the words");
    check(tables_value(word(TABLES_DETOUR, 1610612730)) == 1610612730, "the largest total");
    check(tables_refused_by(word(TABLES_NO_DETOUR, 0)) == 0, "none found is no refusal");
    check(TABLES_REFUSED_GOALS == 22, "the number of the refusal");
    check(TABLES_DETOUR_CELLS == 8 && TABLES_STACK_DETOURS > 0, "the limit and the bound");
}

/* Carrying over and growing brought two refusals and two bounds. */
static void test_carry_numbers(void)
{
    check(TABLES_REFUSED_NAME == 18 && TABLES_REFUSED_CAPACITY == 19, "the numbers of the refusals");
    check(TABLES_STACK_CARRY > 0 && TABLES_STACK_GROW > 0, "bounds for carrying over and growing");
}

static void test_words(void)
{
    check(tables_value(word(TABLES_CELLS, 5)) == 5, "a value");
    check(tables_refused_by(word(TABLES_CELLS, 5)) == 0, "not refused");
    check(tables_need(word(TABLES_CELLS, 12)) == 0, "no need of an accepted call");
    for (uint32_t refusal = 1; refusal <= MOST_REFUSAL; refusal++) {
        uint64_t refused = word(TABLES_CALL_REFUSED + refusal, 9);
        check(tables_refused_by(refused) == refusal, "refused by its number");
        check(tables_value(refused) == 0, "no value of a refused call");
        check(tables_need(refused) == (refusal == TABLES_REFUSED_OUT ? 9u : 0u), "the need");
        check(tables_converter_refused_by(TABLES_CONVERTER_REFUSED + refusal) == refusal,
              "a converter's refusal");
        check(tables_converter_cells(TABLES_CONVERTER_REFUSED + refusal) == 0, "no cells");
    }
    uint64_t broken = word(TABLES_CALL_REFUSED + TABLES_REFUSED_DAMAGED, 0x20100000);
    check(tables_broken_kind(broken) == TABLES_BROKEN_SUBGOAL, "the kind of a broken record");
    check(tables_broken_number(broken) == 0x100000, "its number");
    check(tables_broken_kind(word(TABLES_CALL_REFUSED + 12, 0x20000001)) == 0, "no broken record");
    check(tables_broken_number(word(TABLES_CELLS, 5)) == 0, "no number");
    check(tables_converter_refused_by(383) == 0, "a converter not refused");
    check(tables_converter_cells(383) == 383, "a converter's cells");
}

/* Is there a refusal of this number? */
static int is_refusal(uint32_t number)
{
    return (number >= 1 && number <= TABLES_REFUSED_CAPACITY) ||
           (number >= TABLES_REFUSED_GOALS && number <= TABLES_REFUSED_LISTED);
}

/* A sentence for each number, none twice, and one for all others. */
static void test_texts(void)
{
    const char *unknown = tables_refusal_text(UINT32_MAX);
    for (uint32_t i = 0; i <= MOST_REFUSAL + 1; i++) {
        const char *text = tables_refusal_text(i);
        size_t length = strlen(text);
        check(length > 10 && text[length - 1] == '.', "a sentence");
        check((strcmp(text, unknown) != 0) == is_refusal(i), "a number known or not");
        for (uint32_t j = 1; j < i && is_refusal(i); j++)
            check(strcmp(text, tables_refusal_text(j)) != 0, "a sentence of its own");
    }
    check(strstr(tables_refusal_text(TABLES_REFUSED_SLOTS), "index") != NULL, "17 tells of the index");
    check(strstr(tables_refusal_text(TABLES_REFUSED_LISTING), "list") != NULL, "23 tells of the list");
    check(strstr(tables_refusal_text(TABLES_REFUSED_LISTED), "list") != NULL, "24 tells of the list");
}

/* Cells out of range are refused by 3, the need is the need, and a space knows its edition. */
static void test_space(void)
{
    static uint32_t space[SPACE_CELLS];
    uint32_t out[4] = {0, 0, 0, 0};
    const uint32_t goal[] = {tables_functor_cell(TABLES_EDITION_2, 1, 1),
                             tables_cell(TABLES_VARIABLE, 0)};
    const uint32_t spilled = tables_cell(TABLES_ATOM, UINT64_C(1) << 28);
    const uint32_t atom = tables_cell(TABLES_ATOM, 3), lacked = tables_cell(TABLES_ATOM, 4);
    check(tables_fresh(space, SPACE_CELLS, 10, 2, 2, TABLES_EDITION_2) == 0, "fresh");
    check(tables_edition(space, SPACE_CELLS) == TABLES_EDITION_2, "the edition");
    check(tables_edition(NULL, 0) == 0, "no edition");
    check(tables_value(tables_call(space, SPACE_CELLS, goal, 2)) == 1, "a subgoal");
    check(tables_refused_by(tables_answer(space, SPACE_CELLS, 1, &spilled, 1)) ==
              TABLES_REFUSED_TERM,
          "a spilled atom is refused");
    check(tables_value(tables_answer(space, SPACE_CELLS, 1, &atom, 1)) == 1, "an answer");
    check(tables_need(tables_instance(space, SPACE_CELLS, 1, out, 1)) == 2, "an instance's need");
    check(tables_value(tables_instance(space, SPACE_CELLS, 1, out, 1)) == 0, "and no value");
    check(tables_value(tables_instance(space, SPACE_CELLS, 1, out, 4)) == 2, "an instance");
    check(out[0] == goal[0] && out[1] == atom && out[2] == 0, "its cells");
    check(tables_next(space, SPACE_CELLS, 1, 1) == word(TABLES_NONE_YET, 0), "none yet");
    check(tables_finish(space, SPACE_CELLS, 1) == word(TABLES_DONE, 0), "finish");
    check(tables_next(space, SPACE_CELLS, 1, 1) == word(TABLES_NO_MORE, 0), "no more");
    check(tables_answer(space, SPACE_CELLS, 1, &atom, 1) == word(TABLES_OLD, 1), "an answer held");
    check(tables_refused_by(tables_answer(space, SPACE_CELLS, 1, &lacked, 1)) ==
              TABLES_REFUSED_STATE,
          "an answer lacked");
    check(tables_call(space, SPACE_CELLS, &atom, 1) == word(TABLES_NEW, 2), "a ground subgoal");
    check(tables_answer(space, SPACE_CELLS, 2, NULL, 0) == word(TABLES_NEW, 2), "its answer");
    check(tables_call(space, SPACE_CELLS, &atom, 1) == word(TABLES_OLD_FINISHED, 2), "finished");
}

/* An index built of a table, too small and large enough, and calls that are lent it or none. */
static void test_index(void)
{
    enum { CHILDREN = 9, SLOTS = 32, CELLS = TABLES_SPACE_CELLS(30, 10, 1) };
    static uint32_t space[CELLS], index[SLOTS];
    uint32_t goal = tables_cell(TABLES_ATOM, 0), taken = 0;
    check(tables_fresh(space, CELLS, 30, 10, 1, TABLES_EDITION_2) == 0, "fresh for an index");
    for (uint32_t i = 1; i <= CHILDREN; i++) {
        goal = tables_cell(TABLES_ATOM, i);
        check(tables_call_indexed(space, CELLS, NULL, 0, &goal, 1) == word(TABLES_NEW, i), "a call without cells of an index");
    }
    check(tables_refused_by(tables_build(space, CELLS, index, SLOTS / 2)) == TABLES_REFUSED_SLOTS, "too few slots");
    check(tables_build(space, CELLS, index, SLOTS) == word(TABLES_BUILT, CHILDREN), "an index");
    for (size_t i = 0; i < SLOTS; i++)
        taken += index[i] != 0;
    check(taken == CHILDREN, "a slot for each child");
    check(tables_call_indexed(space, CELLS, index, SLOTS, &goal, 1) == word(TABLES_OLD_OPEN, CHILDREN), "a call with an index");
    check(tables_answer_indexed(space, CELLS, index, SLOTS, 1, NULL, 0) == word(TABLES_NEW, 1), "an answer with an index");
    check(tables_answer_indexed(space, CELLS, index, SLOTS, 1, NULL, 0) == word(TABLES_OLD, 1), "and again");
    check(tables_refused_by(tables_join_indexed(space, CELLS, index, SLOTS, 1, 1, NULL, 0, 2, NULL, 0)) ==
              TABLES_REFUSED_NO_RECORD,
          "a join with an index");
}

/* With f/2 and a as symbols: f(a, a), f(a, X), f(X, a), f(X, X), f(X, Y); before and after it bad input. */
static void test_list(void)
{
    const uint32_t symbols[] = {tables_functor_cell(TABLES_EDITION_1, 1, 2), tables_cell(TABLES_ATOM, 7)};
    const uint32_t x = tables_cell(TABLES_VARIABLE, 0), y = tables_cell(TABLES_VARIABLE, 1);
    const uint32_t arguments[5][2] = {{symbols[1], symbols[1]}, {symbols[1], x}, {x, symbols[1]}, {x, x}, {x, y}};
    uint32_t term[2][4] = {{9, 9, 9, 9}, {9, 9, 9, 9}};
    check(tables_first_term(symbols, 2, 3, term[0], 2, TABLES_EDITION_1) ==
                  word(TABLES_CALL_REFUSED + TABLES_REFUSED_OUT, 3) && term[0][0] == 9,
          "too few cells for the first term");
    check(tables_refused_by(tables_first_term(symbols, 2, 9, term[0], 4, TABLES_EDITION_1)) == TABLES_REFUSED_LISTING,
          "no list of size 9");
    uint64_t listed = tables_first_term(symbols, 2, 3, term[0], 4, TABLES_EDITION_1);
    for (int i = 0; i < 5; i++) {
        const uint32_t *got = term[i % 2];
        check(listed == word(TABLES_CELLS, 3), "a term of the list");
        check(got[0] == symbols[0] && got[1] == arguments[i][0] && got[2] == arguments[i][1] && got[3] == 9, "its cells");
        listed = tables_term_after(symbols, 2, 3, got, 3, term[(i + 1) % 2], 4, TABLES_EDITION_1);
    }
    check(listed == word(TABLES_END, 0), "the end of the list");
    check(tables_first_term(NULL, 0, 1, NULL, 0, TABLES_EDITION_2) == word(TABLES_END, 0), "an empty list");
    check(tables_refused_by(tables_term_after(symbols, 2, 3, &x, 1, term[0], 4, TABLES_EDITION_1)) == TABLES_REFUSED_LISTED,
          "a term not in the list");
}

/* p(X) with an answer of edition 1, carried over into edition 2; too small a target, and a name that is too large. */
static void test_carry(void)
{
    enum { CELLS = TABLES_SPACE_CELLS(9, 2, 2) };
    static uint32_t narrow[CELLS], wide[CELLS];
    uint32_t goal[] = {tables_functor_cell(TABLES_EDITION_1, 5, 1), tables_cell(TABLES_VARIABLE, 3)};
    const uint32_t large[] = {tables_functor_cell(TABLES_EDITION_1, 1048576, 1), tables_cell(TABLES_ATOM, 1)};
    const uint32_t a = tables_cell(TABLES_ATOM, 7);
    uint32_t out[2];
    check(tables_fresh(narrow, CELLS, 9, 2, 2, TABLES_EDITION_1) == 0, "a table of edition 1");
    check(tables_call(narrow, CELLS, goal, 2) == word(TABLES_NEW, 1), "its subgoal");
    check(tables_answer(narrow, CELLS, 1, &a, 1) == word(TABLES_NEW, 1), "its answer");
    check(tables_refused_by(tables_carry(narrow, CELLS, wide, CELLS, 4, 2, 2)) == TABLES_REFUSED_CAPACITY, "too few nodes");
    check(tables_refused_by(tables_carry(narrow, CELLS, wide, CELLS, 0, 2, 2)) == TABLES_REFUSED_FRESH, "no node");
    check(tables_carry(narrow, CELLS, wide, CELLS, 5, 2, 2) == word(TABLES_DONE, 0), "carried over");
    check(tables_refused_by(tables_carry(wide, CELLS, narrow, CELLS, 5, 2, 2)) == TABLES_REFUSED_HEADER, "not edition 1");
    goal[0] = tables_functor_cell(TABLES_EDITION_2, 5, 1);
    check(tables_call(wide, CELLS, goal, 2) == word(TABLES_OLD_OPEN, 1), "the subgoal keeps its number");
    check(tables_load(wide, CELLS, 1, out, 2) == word(TABLES_CELLS, 1) && out[0] == a, "the answer keeps its number");
    check(tables_call(narrow, CELLS, large, 2) == word(TABLES_NEW, 2), "a name of edition 1 alone");
    check(tables_refused_by(tables_carry(narrow, CELLS, wide, CELLS, 9, 2, 2)) == TABLES_REFUSED_NAME, "it is too large");
}

/* q enters a table that was full, once it has grown; p(X) keeps its number. */
static void test_grow(void)
{
    enum { CELLS = TABLES_SPACE_CELLS(6, 2, 1) };
    static uint32_t space[CELLS];
    const uint32_t p[] = {tables_functor_cell(TABLES_EDITION_1, 5, 1), tables_cell(TABLES_VARIABLE, 3)};
    const uint32_t q = tables_cell(TABLES_ATOM, 7);
    check(tables_fresh(space, CELLS, 4, 2, 1, TABLES_EDITION_1) == 0, "a small table");
    check(tables_call(space, CELLS, p, 2) == word(TABLES_NEW, 1), "a subgoal");
    check(tables_refused_by(tables_call(space, CELLS, &q, 1)) == TABLES_REFUSED_NO_NODE, "it is full");
    check(tables_refused_by(tables_grow(space, CELLS, 3, 2, 1)) == TABLES_REFUSED_CAPACITY, "too few nodes");
    check(tables_refused_by(tables_grow(space, CELLS, 7, 2, 1)) == TABLES_REFUSED_FRESH, "too few cells");
    check(tables_grow(space, CELLS, 6, 2, 1) == word(TABLES_DONE, 0), "grown");
    check(tables_call(space, CELLS, &q, 1) == word(TABLES_NEW, 2), "room");
    check(tables_call(space, CELLS, p, 2) == word(TABLES_OLD_OPEN, 1), "the subgoal keeps its number");
}

/* p(X, Y) is old as p(Y, X), and p(X, X) is new and shares two cells with it. */
static void test_why(void)
{
    enum { CELLS = TABLES_SPACE_CELLS(9, 2, 0) };
    static uint32_t space[CELLS], out[TABLES_WHY_CELLS];
    const uint32_t p = tables_functor_cell(TABLES_EDITION_2, 5, 2), x = tables_cell(TABLES_VARIABLE, 3);
    const uint32_t y = tables_cell(TABLES_VARIABLE, 9);
    const uint32_t old[] = {p, x, y}, again[] = {p, y, x}, other[] = {p, x, x};
    check(tables_fresh(space, CELLS, 9, 2, 0, TABLES_EDITION_2) == 0, "a table to ask");
    check(tables_call(space, CELLS, old, 3) == word(TABLES_NEW, 1), "its subgoal");
    check(tables_why(space, CELLS, again, 3, out, TABLES_WHY_CELLS) == word(TABLES_WHY_OLD, 1), "why old");
    check(out[0] == 2 && out[1] == y && out[2] == x, "the variables by rank");
    check(tables_why_indexed(space, CELLS, NULL, 0, other, 3, out, TABLES_WHY_CELLS) == word(TABLES_WHY_NEW, 1), "why new");
    check(out[0] == 2 && out[1] == y, "the cells shared");
    check(tables_need(tables_why(space, CELLS, other, 3, out, TABLES_WHY_CELLS - 1)) == TABLES_WHY_CELLS, "too few cells");
}

/* One goal with two answers: the quicker one, within a budget of two, one and none. */
static void test_detours(void)
{
    enum { CELLS = TABLES_SPACE_CELLS(20, 1, 2) };
    static uint32_t space[CELLS], out[TABLES_DETOUR_CELLS];
    const uint32_t goal[] = {tables_functor_cell(TABLES_EDITION_2, 5, 2), tables_cell(TABLES_VARIABLE, 0),
                             tables_cell(TABLES_VARIABLE, 1)};
    const uint32_t slow[] = {tables_cell(TABLES_ATOM, 1), tables_cell(TABLES_INTEGER, 9)};
    const uint32_t quick[] = {tables_cell(TABLES_ATOM, 2), tables_cell(TABLES_INTEGER, 4)};
    const uint32_t one = 1;
    check(tables_fresh(space, CELLS, 20, 1, 2, TABLES_EDITION_2) == 0, "a table of detours");
    check(tables_call(space, CELLS, goal, 3) == word(TABLES_NEW, 1), "a goal");
    check(tables_answer(space, CELLS, 1, slow, 2) == word(TABLES_NEW, 1), "a slow way");
    check(tables_answer(space, CELLS, 1, quick, 2) == word(TABLES_NEW, 2), "a quick way");
    check(tables_refused_by(tables_detours(space, CELLS, &one, 1, 9, out, 8)) == TABLES_REFUSED_SOURCE_OPEN, "it is open");
    check(tables_finish(space, CELLS, 1) == 0, "finished");
    check(tables_detours(space, CELLS, &one, 1, 2, out, 8) == word(TABLES_DETOUR, 4), "the least total");
    check(out[0] == 2 && out[1] == 1 && out[2] == 2, "tried, ended, the answer");
    check(tables_detours(space, CELLS, &one, 1, 1, out, 8) == word(TABLES_DETOUR, 9) && out[1] == 0, "stopped");
    check(tables_detours(space, CELLS, &one, 1, 0, out, 8) == word(TABLES_NO_DETOUR, 0) && out[0] == 0, "none found");
    check(tables_refused_by(tables_detours(space, CELLS, NULL, 0, 9, out, 8)) == TABLES_REFUSED_GOALS, "no goal");
    check(tables_need(tables_detours(space, CELLS, &one, 1, 9, out, 7)) == TABLES_DETOUR_CELLS, "too few cells");
}

int main(void)
{
    test_constants();
    test_cells();
    test_arguments();
    test_functors();
    test_ends();
    test_index_numbers();
    test_list_numbers();
    test_why_numbers();
    test_detour_numbers();
    test_carry_numbers();
    test_words();
    test_texts();
    test_space();
    test_index();
    test_list();
    test_why();
    test_detours();
    test_carry();
    test_grow();
    printf("header_test: %d checks, %d failed\n", checks, failures);
    return failures != 0;
}
