/* A small engine over the table store: where an airport's belts bring bags, and where they meet. */
#include "../include/tables.h"

#include <stdbool.h>
#include <stdio.h>
#include <stdlib.h>

/*
 * The rules, where belt(P, Z) says that an open belt leads from P to Z:
 *
 *     reach(P, Z, [Z])     :- belt(P, Z).
 *     reach(P, Y, [Z | S]) :- belt(P, Z), reach(Z, Y, S), P not among S.
 *     meet(Y, S, T)        :- reach(check-in 1, Y, S), reach(check-in 2, Y, T).
 *
 * The store and the sorter feed each other, so a plain depth-first search would
 * not end. A tabled one does: a subgoal is entered once, and an answer that is
 * old leads to nothing new. The goals of the last rule are finished before it is
 * applied, so the store joins them.
 */

/* The layout. Places are atoms, numbered from 1, since atom 0 is the empty list. */
enum place {
    CHECK_IN_1 = 1, CHECK_IN_2, MERGE, SCREENING, INSPECTION, SORTER, STORE, PIER_A, PIER_B, PLACES
};

static const char *const place_names[PLACES] = {
    [CHECK_IN_1] = "check-in 1", [CHECK_IN_2] = "check-in 2", [MERGE] = "merge",
    [SCREENING] = "screening",   [INSPECTION] = "inspection", [SORTER] = "sorter",
    [STORE] = "store",           [PIER_A] = "pier A",         [PIER_B] = "pier B",
};

struct belt {
    enum place from, to;
    bool closed;
};

static const struct belt belts[] = {
    {CHECK_IN_1, MERGE, false},  {CHECK_IN_2, MERGE, true},  {CHECK_IN_2, SCREENING, false},
    {MERGE, SCREENING, false},   {SCREENING, SORTER, false}, {SCREENING, INSPECTION, false},
    {INSPECTION, SORTER, false}, {SORTER, STORE, false},     {STORE, SORTER, false},
    {SORTER, PIER_A, false},     {SORTER, PIER_B, true},     {STORE, PIER_B, false},
};

enum { BELTS = sizeof belts / sizeof *belts };

/* The rule engine's own numbers. */
enum { EDITION = TABLES_EDITION_2, REACH = 1, MEET = 2 };

/* A table and its capacities. The engine owns the cells and lends them to every call. */
struct table {
    uint32_t nodes, subgoals, answers;
    size_t cells;
    uint32_t *space;
};

/* Begun too small, to show what happens when it is full. */
static struct table table = {.nodes = 40, .subgoals = 4, .answers = 10};

/* A term that is called: a functor and three arguments, each an atom or a variable. */
enum { GOAL_CELLS = 4 };

struct goal {
    uint32_t cells[GOAL_CELLS];
};

/* The subgoal reach(P, X, S) of each place P that was called, 0 for the others. */
static uint32_t subgoal_of[PLACES];

static void stop(const char *what, const char *why)
{
    fprintf(stderr, "%s: %s\n", what, why);
    exit(1);
}

/* Every word passes here: a refusal that is not expected is a fault, so it ends with a message. */
static uint64_t checked(const char *call, uint64_t word)
{
    if (tables_refused_by(word) != 0)
        stop(call, tables_refusal_text(tables_refused_by(word)));
    return word;
}

static uint32_t atom(enum place place)
{
    return tables_cell(TABLES_ATOM, place);
}

/* Reading the answers of a subgoal */

/*
 * Goes from an answer of a subgoal, or from 0, to the next one, and gives what was said:
 *
 *     TABLES_AT        *answer is the next one now
 *     TABLES_NONE_YET  the subgoal is open: ask again later, from the same answer
 *     TABLES_NO_MORE   the subgoal is finished: all its answers have been read
 *
 * A refusal ends the program. tables_value alone cannot tell these apart: it is 0 for
 * none yet, for no more and for a refusal, and a reader who takes every 0 for the end
 * loses the answers that come later.
 */
static uint32_t next_answer(const struct table *read, uint32_t subgoal, uint32_t *answer)
{
    uint64_t word =
        checked("tables_next", tables_next(read->space, read->cells, subgoal, *answer));
    if (tables_what(word) == TABLES_AT)
        *answer = tables_value(word);
    return tables_what(word);
}

/* When the table is full: the same table in a longer array */

static void make(struct table *made)
{
    made->cells = TABLES_SPACE_CELLS(made->nodes, made->subgoals, made->answers);
    made->space = malloc(made->cells * sizeof *made->space);
    if (made->space == NULL)
        stop("a table", "there is no memory for it");
    checked("tables_fresh", tables_fresh(made->space, made->cells, made->nodes, made->subgoals,
                                         made->answers, EDITION));
}

/* Makes the array longer and the table larger. Every subgoal and answer keeps its number. */
static void grow(struct table *grown)
{
    grown->nodes *= 2;
    grown->subgoals *= 2;
    grown->answers *= 2;
    grown->cells = TABLES_SPACE_CELLS(grown->nodes, grown->subgoals, grown->answers);
    uint32_t *longer = realloc(grown->space, grown->cells * sizeof *longer);
    if (longer == NULL)
        stop("a table", "there is no memory for a larger one");
    grown->space = longer;
    checked("tables_grow", tables_grow(grown->space, grown->cells, grown->nodes, grown->subgoals,
                                       grown->answers));
}

/*
 * Was the call refused since the table is full? Then the table has twice the
 * capacities now, and the call is made again.
 */
static bool grown(uint64_t word)
{
    uint32_t refusal = tables_refused_by(word);
    if (refusal != TABLES_REFUSED_NO_NODE && refusal != TABLES_REFUSED_NO_RECORD)
        return false;
    if (table.nodes > TABLES_MOST_RECORDS / 2)
        stop("the table", tables_refusal_text(refusal));
    grow(&table);
    printf("%s Now %u nodes, %u subgoals, %u answers.\n", tables_refusal_text(refusal),
           (unsigned)table.nodes, (unsigned)table.subgoals, (unsigned)table.answers);
    return true;
}

/* Calling: the subgoals */

/* Calls a goal and sets the subgoal's number. Was it new? */
static bool call_new(const struct goal *goal, uint32_t *subgoal)
{
    uint64_t word;
    do
        word = tables_call(table.space, table.cells, goal->cells, GOAL_CELLS);
    while (grown(word));
    *subgoal = tables_value(checked("tables_call", word));
    return tables_what(word) == TABLES_NEW;
}

/* Calls reach(P, X, S), and if that is new, the subgoals that its second rule needs. */
static void call_reach(enum place place)
{
    const struct goal goal = {{TABLES_FUNCTOR_CELL(EDITION, REACH, 3), atom(place),
                               TABLES_CELL(TABLES_VARIABLE, 0), TABLES_CELL(TABLES_VARIABLE, 1)}};
    if (!call_new(&goal, &subgoal_of[place]))
        return;
    for (size_t i = 0; i < BELTS; i++)
        if (belts[i].from == place && !belts[i].closed)
            call_reach(belts[i].to);
}

/* Answering: the rules applied until nothing is new */

/* Is the atom among the cells? */
static bool among(uint32_t atom_cell, const uint32_t *cells, size_t count)
{
    for (size_t i = 0; i < count; i++)
        if (cells[i] == atom_cell)
            return true;
    return false;
}

/* Answers a place's subgoal: a term for X and a term for S. Was the answer new? */
static bool answer_reach(enum place place, const uint32_t *terms, size_t cells)
{
    uint64_t word;
    do
        word = tables_answer(table.space, table.cells, subgoal_of[place], terms, cells);
    while (grown(word));
    return tables_what(checked("tables_answer", word)) == TABLES_NEW;
}

/* reach(P, Z, [Z]) by the first rule. */
static bool apply_first_rule(const struct belt *belt)
{
    const uint32_t terms[] = {atom(belt->to), TABLES_PAIR_CELL, atom(belt->to), TABLES_EMPTY_LIST};
    return answer_reach(belt->from, terms, 4);
}

/* reach(P, Y, [Z | S]) by the second rule, from an answer (Y, S) of Z. Was it new? */
static bool apply_second_rule(const struct belt *belt, uint32_t answer)
{
    uint32_t from[TABLES_TERM_CELLS], terms[TABLES_TERM_CELLS + 2];
    uint64_t word = tables_load(table.space, table.cells, answer, from, TABLES_TERM_CELLS);
    size_t cells = tables_value(checked("tables_load", word));
    if (among(atom(belt->from), from, cells))
        return false;
    terms[0] = from[0]; /* Y; then a pair of Z and the list S that was loaded */
    terms[1] = TABLES_PAIR_CELL;
    terms[2] = atom(belt->to);
    for (size_t i = 1; i < cells; i++)
        terms[2 + i] = from[i];
    return answer_reach(belt->from, terms, cells + 2);
}

/* The last answer that the second rule has read for each belt, 0 at first. */
static uint32_t last_read[BELTS];

/*
 * Applies the second rule to the answers that have come since it was last applied to this
 * belt. Subgoals are open meanwhile, so what ends the loop is none yet: the answer read
 * last is kept, and the next turn asks again from there.
 */
static bool read_new_answers(size_t belt)
{
    bool any_new = false;
    while (next_answer(&table, subgoal_of[belts[belt].to], &last_read[belt]) == TABLES_AT)
        any_new |= apply_second_rule(&belts[belt], last_read[belt]);
    return any_new;
}

/* One turn over all open belts whose start was called. Was there anything new? */
static bool turn(void)
{
    bool any_new = false;
    for (size_t i = 0; i < BELTS; i++) {
        if (belts[i].closed || subgoal_of[belts[i].from] == 0)
            continue;
        any_new |= apply_first_rule(&belts[i]);
        any_new |= read_new_answers(i);
    }
    return any_new;
}

/*
 * meet(Y, S, T) by the third rule: the answers (Y, S) and (Y, T) of two finished
 * subgoals, joined where both have the same Y. All of them enter, or none: when
 * the table is full, the same join is made again in a larger one.
 */
static uint32_t join_meet(enum place one, enum place other)
{
    static const uint32_t pairs[] = {0, 0};              /* Y of the first and Y of the second */
    static const uint32_t copies[] = {0, 0, 0, 1, 1, 1}; /* Y and S of the first, T of the second */
    const struct goal goal = {{TABLES_FUNCTOR_CELL(EDITION, MEET, 3),
                               TABLES_CELL(TABLES_VARIABLE, 0), TABLES_CELL(TABLES_VARIABLE, 1),
                               TABLES_CELL(TABLES_VARIABLE, 2)}};
    uint32_t meet;
    uint64_t word;
    call_new(&goal, &meet);
    do
        word = tables_join(table.space, table.cells, subgoal_of[one], subgoal_of[other], pairs, 2,
                           meet, copies, 6);
    while (grown(word));
    printf("%u answers joined\n", (unsigned)tables_value(checked("tables_join", word)));
    checked("tables_finish", tables_finish(table.space, table.cells, meet));
    return meet;
}

/* Subgoals are numbered from 1, so how many there are names them all. */
static void finish_all(void)
{
    uint32_t counts[3];
    checked("tables_counts", tables_counts(table.space, table.cells, counts, 3));
    for (uint32_t subgoal = 1; subgoal <= counts[1]; subgoal++)
        checked("tables_finish", tables_finish(table.space, table.cells, subgoal));
}

/* Reading back */

static const char *place_name(uint32_t cell)
{
    return place_names[TABLES_PAYLOAD(cell)];
}

/* Prints a list of stops, a pair for each, and gives the cell after it. */
static const uint32_t *print_stops(const uint32_t *cells)
{
    for (const char *comma = ""; *cells == TABLES_PAIR_CELL; cells += 2, comma = ",")
        printf("%s %s", comma, place_name(cells[1]));
    return cells + 1;
}

/* An instance of reach(P, Y, S): functor, P, Y, then the list S. */
static void print_reach(const uint32_t *cells)
{
    printf("  to %s by", place_name(cells[2]));
    print_stops(cells + 3);
    printf("\n");
}

/* An instance of meet(Y, S, T): functor, Y, then the lists S and T. */
static void print_meet(const uint32_t *cells)
{
    printf("  at %s by", place_name(cells[1]));
    const uint32_t *second = print_stops(cells + 2);
    printf(" and by");
    print_stops(second);
    printf("\n");
}

/* Prints all answers of a subgoal. That they are all is known only once no more is said. */
static void print_answers(uint32_t subgoal, void (*print)(const uint32_t *cells))
{
    static uint32_t cells[TABLES_INSTANCE_CELLS];
    uint32_t answer = 0, said;
    while ((said = next_answer(&table, subgoal, &answer)) == TABLES_AT) {
        checked("tables_instance", tables_instance(table.space, table.cells, answer, cells,
                                                   TABLES_INSTANCE_CELLS));
        print(cells);
    }
    if (said != TABLES_NO_MORE)
        stop("tables_next", "the subgoal is not finished, so answers may be missing");
}

static void print_routes(enum place place)
{
    printf("from %s\n", place_names[place]);
    print_answers(subgoal_of[place], print_reach);
}

static void print_closed(void)
{
    for (size_t i = 0; i < BELTS; i++)
        if (belts[i].closed)
            printf("closed: %s to %s\n", place_names[belts[i].from], place_names[belts[i].to]);
}

/* Printing may fail late: what printf has taken may still be in a buffer. */
static void end_printing(void)
{
    if (fflush(stdout) != 0 || ferror(stdout) != 0)
        stop("standard output", "it could not be written");
}

int main(void)
{
    uint32_t counts[3];
    make(&table);
    call_reach(CHECK_IN_1);
    call_reach(CHECK_IN_2);
    int turns = 1;
    while (turn())
        turns++;
    finish_all();
    uint32_t meet = join_meet(CHECK_IN_1, CHECK_IN_2);
    print_closed();
    print_routes(CHECK_IN_1);
    print_routes(CHECK_IN_2);
    printf("where bags from both meet\n");
    print_answers(meet, print_meet);
    checked("tables_counts", tables_counts(table.space, table.cells, counts, 3));
    printf("%d turns; %u nodes, %u subgoals, %u answers\n", turns, (unsigned)counts[0],
           (unsigned)counts[1], (unsigned)counts[2]);
    free(table.space);
    end_printing();
    return 0;
}
