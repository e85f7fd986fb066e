/* Checks functors of up to 255 arguments in every call: the words, and every cell of the space and of out. */
#include "../include/tables.h"
#include "editions.h"

#include <inttypes.h>
#include <stdbool.h>
#include <stdio.h>
#include <string.h>

/* Cells by name. */
#define VAR(name) (UINT32_C(0x10000000) + (name))
#define ATOM(number) (UINT32_C(0x20000000) + (number))
#define INT(value) (UINT32_C(0x30000000) + (value))
#define PAIR UINT32_C(0x50000000)

#define SAID(what, value) ((uint64_t)(what) << 32 | (value))
#define REFUSED(number) SAID(TABLES_CALL_REFUSED + (number), 0)

enum { NODES = 2000, SUBGOALS = 8, ANSWERS = 8, MOST_CELLS = 600, MOST_FAILURES = 10 };
enum { SPACE_CELLS = TABLES_SPACE_CELLS(NODES, SUBGOALS, ANSWERS) };
enum { OUT_CELLS = TABLES_INSTANCE_CELLS + 4, MARK = 0x5ca1ab1e };

/* A row of cells. */
struct cells {
    size_t count;
    uint32_t cell[MOST_CELLS];
};

static const struct cells no_cells = {0, {0}};

/* The space of the present edition, and what it should hold. */
static uint32_t edition;
static uint32_t space[SPACE_CELLS], expected_space[SPACE_CELLS];
static uint32_t out[OUT_CELLS];

static unsigned checks, failures;
static uint32_t checked_arity;

static void check(bool holds, const char *what)
{
    checks++;
    if (holds || ++failures > MOST_FAILURES)
        return;
    printf("failed: edition %u, arity %u: %s\n", (unsigned)edition, (unsigned)checked_arity, what);
}

static void check_word(const char *what, uint64_t got, uint64_t expected)
{
    check(got == expected, what);
    if (got != expected && failures <= MOST_FAILURES)
        printf("  %#" PRIx64 " instead of %#" PRIx64 "\n", got, expected);
}

static void append(struct cells *cells, uint32_t cell)
{
    cells->cell[cells->count++] = cell;
}

static uint32_t functor(uint32_t name, uint32_t arity)
{
    return UINT32_C(0x40000000) + name * (edition == 1 ? 16 : 256) + arity;
}

/* A functor and integers behind it. */
static struct cells of_integers(uint32_t name, uint32_t arity, uint32_t integers)
{
    struct cells term = no_cells;
    append(&term, functor(name, arity));
    for (uint32_t i = 0; i < integers; i++)
        append(&term, INT(i));
    return term;
}

/* A functor and variables behind it, so many of them distinct, in turn. */
static struct cells of_variables(uint32_t name, uint32_t arity, uint32_t variables, uint32_t distinct)
{
    struct cells term = no_cells;
    append(&term, functor(name, arity));
    for (uint32_t i = 0; i < variables; i++)
        append(&term, VAR(i % distinct));
    return term;
}

/* The calls; each must answer this word, and leave the space if it is refused. */

static void open_space(void)
{
    memset(space, 0xa5, sizeof space);
    check_word("fresh", tables_fresh(space, SPACE_CELLS, NODES, SUBGOALS, ANSWERS, edition),
               TABLES_DONE);
}

static void check_refused(const char *what, uint64_t word, const uint32_t *before)
{
    if (tables_refused_by(word) != 0)
        check(memcmp(space, before, sizeof space) == 0, what);
}

static void call_is(const char *what, struct cells term, uint64_t word)
{
    static uint32_t before[SPACE_CELLS];
    memcpy(before, space, sizeof before);
    check_word(what, tables_call(space, SPACE_CELLS, term.cell, term.count), word);
    check_refused(what, word, before);
}

static void answer_is(const char *what, uint32_t subgoal, struct cells terms, uint64_t word)
{
    static uint32_t before[SPACE_CELLS];
    memcpy(before, space, sizeof before);
    check_word(what, tables_answer(space, SPACE_CELLS, subgoal, terms.cell, terms.count), word);
    check_refused(what, word, before);
}

static void next_is(uint32_t subgoal, uint32_t after, uint64_t word)
{
    check_word("next", tables_next(space, SPACE_CELLS, subgoal, after), word);
}

static void counts_are(uint32_t nodes, uint32_t subgoals, uint32_t answers)
{
    uint32_t counts[3] = {0, 0, 0};
    check_word("counts", tables_counts(space, SPACE_CELLS, counts, 3), SAID(TABLES_COUNTS, 3));
    check(counts[0] == nodes && counts[1] == subgoals && counts[2] == answers, "the counts");
}

static bool is_marked(size_t from)
{
    for (size_t i = from; i < OUT_CELLS; i++)
        if (out[i] != MARK)
            return false;
    return true;
}

typedef uint64_t writer(const uint32_t *, size_t, uint32_t, uint32_t *, size_t);

/* Load or instance writes these cells and no other; with one less of out it says how many, and writes none. */
static void writes(const char *what, writer *write, uint32_t answer, const uint32_t *cells,
                   size_t count)
{
    for (size_t i = 0; i < OUT_CELLS; i++)
        out[i] = MARK;
    uint64_t word = write(space, SPACE_CELLS, answer, out, count - 1);
    check_word(what, word, SAID(TABLES_CALL_REFUSED + 12, count));
    check(is_marked(0), what);
    word = write(space, SPACE_CELLS, answer, out, OUT_CELLS);
    check_word(what, word, SAID(TABLES_CELLS, count));
    check(memcmp(out, cells, count * sizeof *out) == 0 && is_marked(count), what);
}

static void load_is(uint32_t answer, const struct cells *cells)
{
    writes("load", tables_load, answer, cells->cell, cells->count);
}

static void instance_is(uint32_t answer, const struct cells *cells)
{
    writes("instance", tables_instance, answer, cells->cell, cells->count);
}

/* A predicate of each arity: called, answered, and read back */

/* Argument i: the distinct variables first, then the same again and integers in turn; VAR(r) for rank r. */
static uint32_t argument(uint32_t i)
{
    if (i < TABLES_TERM_VARIABLES)
        return VAR(i);
    return i % 2 == 0 ? VAR(i % TABLES_TERM_VARIABLES) : INT(i);
}

/* The predicate with so many arguments; the variable of rank r is named first + step * r, modulo 2^28. */
static struct cells predicate(uint32_t arity, uint32_t arguments, uint32_t first, uint32_t step)
{
    struct cells term = no_cells;
    append(&term, functor(1, arity));
    for (uint32_t i = 0; i < arguments; i++) {
        uint32_t cell = argument(i);
        uint32_t name = TABLES_PAYLOAD(first + step * TABLES_PAYLOAD(cell));
        append(&term, TABLES_KIND(cell) == TABLES_VARIABLE ? VAR(name) : cell);
    }
    return term;
}

/* What is answered for the variable of a rank: an atom, a variable that they share, or g(rank). */
static void append_answer(struct cells *terms, uint32_t rank, uint32_t shared)
{
    if (rank % 3 == 2)
        append(terms, functor(2, 1));
    append(terms, rank % 3 == 0 ? ATOM(100 + rank) : rank % 3 == 1 ? VAR(shared) : INT(rank));
}

static struct cells answer_terms(uint32_t variables, uint32_t shared)
{
    struct cells terms = no_cells;
    for (uint32_t rank = 0; rank < variables; rank++)
        append_answer(&terms, rank, shared);
    return terms;
}

/* The predicate with its variables replaced. */
static struct cells answered_predicate(uint32_t arity)
{
    struct cells term = no_cells;
    append(&term, functor(1, arity));
    for (uint32_t i = 0; i < arity; i++) {
        if (TABLES_KIND(argument(i)) == TABLES_VARIABLE)
            append_answer(&term, TABLES_PAYLOAD(argument(i)), 0);
        else
            append(&term, argument(i));
    }
    return term;
}

/* What the space should hold: a path of tokens below a root, its nodes numbered from `node`. */
static void expect_path(uint32_t root, uint32_t node, const struct cells *tokens, uint32_t link)
{
    uint32_t parent = root;
    for (size_t i = 0; i < tokens->count; i++, parent = node++) {
        bool leaf = i + 1 == tokens->count;
        const uint32_t record[5] = {tokens->cell[i], leaf ? 0 : node + 1, 0, parent,
                                    leaf ? link : 0};
        memcpy(&expected_space[8 + 5 * node], record, sizeof record);
    }
}

/* One subgoal by its form, with or without one answer. */
static void expect_space(const struct cells *form, uint32_t variables, const struct cells *answer)
{
    uint32_t root = (uint32_t)form->count + 1, subgoals_at = 8 + 5 * NODES;
    uint32_t answers_at = subgoals_at + 6 * SUBGOALS, first = answer == NULL ? 0 : 1;
    uint32_t used = root + 1 + (answer == NULL ? 0 : (uint32_t)answer->count);
    const uint32_t header[8] = {edition, used, 1, first, 8, subgoals_at, answers_at, SPACE_CELLS};
    const uint32_t subgoal[6] = {root - 1, root, variables, 0, first, first};
    const uint32_t record[3] = {used - 1, 1, 0};
    memset(expected_space, 0, sizeof expected_space);
    memcpy(expected_space, header, sizeof header);
    memcpy(&expected_space[subgoals_at], subgoal, sizeof subgoal);
    expected_space[8 + 1] = 1;               /* node 0's child */
    expected_space[8 + 5 * root + 3] = root; /* the answer root is its own parent */
    expect_path(0, 1, form, 1);
    if (answer == NULL)
        return;
    memcpy(&expected_space[answers_at], record, sizeof record);
    expected_space[8 + 5 * root + 1] = root + 1; /* the answer root's child */
    expect_path(root, root + 1, answer, 1);
}

/* The predicate with an argument too few and with one too many. */
static void check_other_lengths(uint32_t arity)
{
    call_is("an argument too few", predicate(arity, arity - 1, 0, 1), REFUSED(3));
    call_is("an argument too many", predicate(arity, arity + 1, 0, 1),
            REFUSED(arity == 255 ? 4 : 3));
    call_is("no argument", predicate(arity, 0, 0, 1), REFUSED(3));
}

static void check_called(uint32_t arity, uint32_t variables)
{
    struct cells form = predicate(arity, arity, 0, 1);
    open_space();
    call_is("a call", predicate(arity, arity, 1000, 7), SAID(TABLES_NEW, 1));
    expect_space(&form, variables, NULL);
    check(memcmp(space, expected_space, sizeof space) == 0, "the space after the call");
    check_other_lengths(arity);
    call_is("a call again", predicate(arity, arity, 0x0fffffff, 0x0fffffff),
            SAID(TABLES_OLD_OPEN, 1));
    counts_are(arity + 3, 1, 0);
    next_is(1, 0, SAID(TABLES_NONE_YET, 0));
}

static void check_answered(uint32_t arity, uint32_t variables)
{
    struct cells form = predicate(arity, arity, 0, 1), terms = answer_terms(variables, 0);
    struct cells short_terms = terms, long_terms = terms;
    short_terms.count--;
    append(&long_terms, ATOM(1));
    answer_is("a term too few", 1, short_terms, REFUSED(3));
    answer_is("a term too many", 1, long_terms, REFUSED(3));
    answer_is("an answer", 1, answer_terms(variables, 77), SAID(TABLES_NEW, 1));
    expect_space(&form, variables, &terms);
    check(memcmp(space, expected_space, sizeof space) == 0, "the space after the answer");
    answer_is("an answer again", 1, answer_terms(variables, 78), SAID(TABLES_OLD, 1));
    counts_are(arity + 3 + (uint32_t)terms.count, 1, 1);
}

/* A second answer: atoms that are all the same. */
static void check_second(uint32_t arity, uint32_t variables, uint32_t nodes)
{
    struct cells terms = no_cells, instance = predicate(arity, arity, 0, 1);
    for (uint32_t i = 0; i < variables; i++)
        append(&terms, ATOM(7));
    for (size_t i = 0; i < instance.count; i++)
        if (TABLES_KIND(instance.cell[i]) == TABLES_VARIABLE)
            instance.cell[i] = ATOM(7);
    answer_is("a second answer", 1, terms, SAID(TABLES_NEW, 2));
    counts_are(nodes + variables, 1, 2);
    load_is(2, &terms);
    instance_is(2, &instance);
}

/* Both answers, and the word behind the second. */
static void check_read(uint32_t arity, uint32_t variables, uint32_t end)
{
    struct cells terms = answer_terms(variables, 0), instance = answered_predicate(arity);
    next_is(1, 0, SAID(TABLES_AT, 1));
    next_is(1, 1, SAID(TABLES_AT, 2));
    next_is(1, 2, SAID(end, 0));
    load_is(1, &terms);
    instance_is(1, &instance);
}

/* Offered to the finished subgoal: what it holds, what it lacks, and what is no answer. */
static void check_offered(uint32_t variables)
{
    struct cells terms = no_cells, short_terms = answer_terms(variables, 77);
    static uint32_t before[SPACE_CELLS];
    memcpy(before, space, sizeof before);
    short_terms.count--;
    for (uint32_t i = 0; i < variables; i++)
        append(&terms, ATOM(7));
    answer_is("an answer that it holds", 1, answer_terms(variables, 79), SAID(TABLES_OLD, 1));
    answer_is("the other", 1, terms, SAID(TABLES_OLD, 2));
    terms.cell[variables - 1] = ATOM(8);
    answer_is("an answer that it lacks", 1, terms, REFUSED(8));
    answer_is("a term too few", 1, short_terms, REFUSED(3));
    check(memcmp(space, before, sizeof space) == 0, "what is offered changes the space");
}

static void check_finished(uint32_t arity, uint32_t variables)
{
    check_word("finish", tables_finish(space, SPACE_CELLS, 1), TABLES_DONE);
    call_is("a finished call", predicate(arity, arity, 5, 3), SAID(TABLES_OLD_FINISHED, 1));
    check_offered(variables);
    check_read(arity, variables, TABLES_NO_MORE);
}

static void check_predicate(uint32_t arity)
{
    uint32_t variables = arity < TABLES_TERM_VARIABLES ? arity : TABLES_TERM_VARIABLES;
    checked_arity = arity;
    check_called(arity, variables);
    check_answered(arity, variables);
    check_second(arity, variables, arity + 3 + (uint32_t)answer_terms(variables, 0).count);
    check_read(arity, variables, TABLES_NONE_YET);
    check_finished(arity, variables);
}

/* 255 arguments: exactly 256 cells */

/* f(X, .., X) with g(0, .., 254) for X: the longest instance there is. */
static void check_longest_instance(void)
{
    static uint32_t instance[TABLES_INSTANCE_CELLS];
    struct cells term = of_integers(2, 255, 255);
    size_t count = 0;
    instance[count++] = functor(1, 255);
    for (uint32_t i = 0; i < 255; i++, count += term.count)
        memcpy(&instance[count], term.cell, term.count * sizeof *instance);
    check(count == TABLES_INSTANCE_CELLS && count == 65281, "the cells of the longest instance");
    open_space();
    call_is("f(X, .., X)", of_variables(1, 255, 255, 1), SAID(TABLES_NEW, 1));
    answer_is("no cell", 1, no_cells, REFUSED(3));
    answer_is("one cell too few", 1, of_integers(2, 255, 254), REFUSED(3));
    answer_is("one cell too many", 1, of_integers(2, 254, 255), REFUSED(3));
    answer_is("257 cells", 1, of_integers(2, 255, 256), REFUSED(4));
    answer_is("256 cells", 1, term, SAID(TABLES_NEW, 1));
    answer_is("256 cells again", 1, term, SAID(TABLES_OLD, 1));
    counts_are(1 + 256 + 1 + 256, 1, 1);
    load_is(1, &term);
    writes("the longest instance", tables_instance, 1, instance, count);
}

/* In a call; then 32 variables and 33, among 255 arguments. */
static void check_limits(void)
{
    struct cells nested = of_integers(1, 255, 255), alone = of_integers(1, 255, 1);
    nested.cell[1] = functor(2, 1); /* takes one of the integers */
    alone.cell[1] = functor(2, 2);  /* so that 256 cells are due */
    open_space();
    call_is("two functors alone", alone, REFUSED(3));
    call_is("one cell too few", of_integers(1, 255, 254), REFUSED(3));
    call_is("one cell too many", of_integers(1, 254, 255), REFUSED(3));
    call_is("257 cells", of_integers(1, 255, 256), REFUSED(4));
    call_is("257 cells, one left over", of_integers(1, 254, 256), REFUSED(4));
    call_is("an argument of two cells, so one too few", nested, REFUSED(3));
    nested.cell[0] = functor(1, 254);
    call_is("254 arguments, one of two cells", nested, SAID(TABLES_NEW, 1));
    call_is("32 variables", of_variables(1, 255, 255, 32), SAID(TABLES_NEW, 2));
    call_is("33 variables", of_variables(1, 255, 255, 33), REFUSED(5));
    call_is("255 variables", of_variables(1, 255, 255, 255), REFUSED(5));
    call_is("33 variables, one cell too few", of_variables(1, 255, 254, 33), REFUSED(3));
    answer_is("33 variables", 1, of_variables(1, 255, 255, 33), REFUSED(3));
    counts_are(1 + 256 + 1 + 256 + 1, 2, 0);
}

/* A subgoal of one variable, answered by terms with lists and with functors in functors */

/* f of so many lists, [i | 7] or [i], in pair form and in compact form. */
static void check_lists(const char *what, uint32_t arity, uint32_t tail, uint32_t answer)
{
    struct cells term = no_cells, instance = no_cells;
    append(&term, functor(3, arity));
    for (uint32_t i = 0; i < arity; i++) {
        append(&term, PAIR);
        append(&term, INT(i));
        append(&term, tail);
    }
    append(&instance, functor(1, 1));
    for (size_t i = 0; i < term.count; i++)
        append(&instance, term.cell[i]);
    answer_is(what, 1, term, SAID(TABLES_NEW, answer));
    load_is(answer, &term);
    instance_is(answer, &instance);
}

/* f(f(.. 0 .., 0), 0, .., 0): each functor is the first argument of the one around it. */
static struct cells nested_term(uint32_t arity, uint32_t depth)
{
    struct cells term = no_cells;
    for (uint32_t i = 0; i < depth; i++)
        append(&term, functor(4, arity));
    for (uint32_t i = 0; i < depth * (arity - 1) + 1; i++)
        append(&term, INT(0));
    return term;
}

/* The nodes are those of the forms: a list of one element has 3 tokens, or 4 where it ends in a term. */
static void check_inner_terms(void)
{
    struct cells deep = nested_term(40, 6), deeper = nested_term(40, 7); /* 241 and 281 cells */
    struct cells short_of_one = deep;
    short_of_one.count--;
    open_space();
    call_is("g(X)", of_variables(1, 1, 1, 1), SAID(TABLES_NEW, 1));
    checked_arity = 85;
    check_lists("85 lists that end in a term", 85, INT(7), 1);
    counts_are(4 + 1 + 85 * 4, 1, 1);
    check_lists("85 lists that end in []", 85, ATOM(0), 2);
    counts_are(4 + 1 + 85 * 4 + 1 + 85 * 3 - 2, 1, 2); /* the functor and BLIST are shared */
    checked_arity = 40;
    answer_is("40 in 40, one cell too few", 1, short_of_one, REFUSED(3));
    answer_is("40 in 40, too deep", 1, deeper, REFUSED(4));
    answer_is("40 in 40", 1, deep, SAID(TABLES_NEW, 3));
    load_is(3, &deep);
    counts_are(4 + 1 + 85 * 4 + 1 + 85 * 3 - 2 + 241, 1, 3);
}

int main(void)
{
    setvbuf(stdout, NULL, _IOLBF, BUFSIZ);
    for (edition = 1; edition <= LAST_EDITION; edition++)
        for (uint32_t arity = 1; arity <= (edition == 1 ? 15u : 255u); arity++)
            check_predicate(arity);
    edition = TABLES_EDITION_2;
    checked_arity = 255;
    check_longest_instance();
    check_limits();
    check_inner_terms();
    printf("arities_test: %u checks, %u failures\n", checks, failures);
    return failures == 0 ? 0 : 1;
}
