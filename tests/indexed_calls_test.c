/*
 * Compares the calls that are lent an index with the plain table, over random lists of calls in both editions, whose tables have
 * nodes of few children and of many: whatever the index holds, each result is that of the plain table, and each cell of the space
 * is what the same call leaves without an index. Indexes are built of these tables, at every size around the least, and every cell
 * is held to the request. Last come tables of thousands of children, where the index must also save the time that it is for.
 */
#define _DEFAULT_SOURCE

#include "../include/tables.h"
#include "cells_model.h"
#include "drawing.h"
#include "editions.h"
#include "indexes.h"
#include "lending.h"
#include "model_requests.h"
#include "plain_requests.h"
#include "requests.h"
#include "tally.h"

#include <inttypes.h>
#include <stdio.h>
#include <stdlib.h>
#include <string.h>
#include <time.h>
#include <unistd.h>

enum { LISTS = 10000, MOST_FAILURES = 10, SECONDS = 50, SPACE_CELLS = 12000 };
enum { ROOMY_NODES = 4000, ROOMY_SUBGOALS = 64, ROOMY_ANSWERS = 2000 };

static uint64_t seed = 1;
static unsigned lists = LISTS;
static unsigned failures;

/* All that may come on a space that only the calls wrote; each must come. */
static const uint32_t possible[TALLY_ROWS] = {
    [BUILD] = RESULT(TABLES_BUILT) | RESULT(BUILT_NONE) | REFUSAL(17),
    [INDEXED_CALL] = RESULT(TABLES_NEW) | RESULT(TABLES_OLD_OPEN) | RESULT(TABLES_OLD_FINISHED) |
                     READER_REFUSALS | REFUSAL(6) | ROOM_REFUSALS,
    [INDEXED_ANSWER] = RESULT(TABLES_NEW) | RESULT(TABLES_OLD) | REFUSAL(7) | REFUSAL(8) |
                       READER_REFUSALS | ROOM_REFUSALS,
    [INDEXED_JOIN] = RESULT(TABLES_JOINED) | RESULT(JOINED_NONE) | REFUSAL(7) | REFUSAL(8) |
                     REFUSAL(14) | REFUSAL(15) | REFUSAL(16) | REFUSAL(4) | ROOM_REFUSALS,
};

/* What was met in the indexes of each kind, and how often a build was just enough or one power short. */
static struct cells_model_met met_in[INDEX_KINDS];
static uint64_t lent[INDEX_KINDS], no_power, no_cells, just_enough, one_power_short, nothing_entered;

/* One list of calls: the space and the plain table beside it */

struct run {
    unsigned list, call;
    uint32_t edition;
    size_t space_cells;
    uint32_t *space;
    struct plain_table *plain;
    struct known known;
    struct drawer drawer;
    struct plan plan;
    struct index built, stale; /* the last build's, and the one's before */
};

static struct arena space_arena, term_arena, copy_arena, index_arena;
static uint32_t space_before[SPACE_CELLS], twin[SPACE_CELLS];

static void fail(const struct run *run, const char *call, const char *what, uint64_t got,
                 uint64_t expected)
{
    if (++failures > MOST_FAILURES)
        return;
    printf("failed: seed %" PRIu64 ", list %u, edition %u, call %u, %s: %s: %#" PRIx64
           " instead of %#" PRIx64 "\n",
           seed, run->list, (unsigned)run->edition, run->call, call, what, got, expected);
}

static void count_result(const struct run *run, unsigned row, const char *name, uint64_t word)
{
    if (!tally_result(possible, run->edition, row, word))
        fail(run, name, "no result of this call", word, word);
}

static bool same_cells(const uint32_t *one, const uint32_t *other, size_t count)
{
    return count == 0 || memcmp(one, other, count * sizeof *one) == 0;
}

static uint64_t word_of(uint32_t what, size_t value)
{
    return (uint64_t)what << 32 | value;
}

/* Opening */

/* How many records it is, or about as many. */
static uint32_t about(uint32_t records)
{
    if (chance(60))
        return records + (uint32_t)between(0, 40);
    return records - (uint32_t)below(records / 2 + 1);
}

/* Capacities by what the plan needs, and a table of them. False: it is too large. */
static bool open_run(struct run *run)
{
    static uint32_t roomy[TABLES_SPACE_CELLS(ROOMY_NODES, ROOMY_SUBGOALS, ROOMY_ANSWERS)];
    static uint32_t out[TABLES_INSTANCE_CELLS];
    size_t roomy_cells = sizeof roomy / sizeof *roomy;
    run->call = 0;
    run->edition = draw_edition();
    (chance(80) ? draw_wide_plan : draw_plan)(run->edition, &run->plan);
    if (tables_fresh(roomy, roomy_cells, ROOMY_NODES, ROOMY_SUBGOALS, ROOMY_ANSWERS, run->edition) != 0)
        fail(run, "fresh", "a roomy table", 1, 0);
    for (size_t i = 0; i < run->plan.count; i++)
        make_request(&run->plan.request[i], roomy, roomy_cells, run->plan.request[i].argument.cell,
                     run->plan.request[i].copies.cell, out, TABLES_INSTANCE_CELLS);
    uint32_t nodes = about(roomy[1]), subgoals = about(roomy[2]), answers = about(roomy[3]);
    run->space_cells = TABLES_SPACE_CELLS(nodes, subgoals, answers) + below(3);
    if (run->space_cells > SPACE_CELLS)
        return false;
    run->space = lend(&space_arena, run->space_cells, chance(50));
    run->plain = plain_table_open(nodes, subgoals, answers, run->edition);
    memset(&run->known, 0, sizeof run->known);
    memset(run->space, 0x5a, run->space_cells * sizeof *run->space);
    open_drawer(&run->drawer, run->edition, 4, 8, 5);
    run->built.count = run->stale.count = 0;
    uint64_t word =
        tables_fresh(run->space, run->space_cells, nodes, subgoals, answers, run->edition);
    if (word != TABLES_DONE)
        fail(run, "fresh", "result", word, TABLES_DONE);
    return true;
}

/* Requests */

/* Another index for each call: any cells, the nodes of the table, or an earlier build's. */
static void draw_lent_index(const struct run *run, struct index *index, enum index_kind *kind)
{
    size_t nodes = run->space[1], slots = draw_slots(INDEX_CELLS);
    const struct index *kept = &run->built;
    *kind = (enum index_kind)below(INDEX_KINDS);
    if (*kind == STALE)
        kept = &run->stale;
    else if (*kind != BUILT) {
        size_t roomy = power_from(nodes) >> below(3);
        draw_index(index, *kind, chance(60) && roomy > 0 && roomy <= INDEX_CELLS ? roomy : slots,
                   run->space, run->space_cells);
        return;
    }
    index->count = kept->count;
    memcpy(index->cell, kept->cell, kept->count * sizeof *kept->cell);
    if (chance(12))
        resize_index(index, slots);
}

/* The same call without an index gives the same word, and leaves the same cells. */
static void compare_twin(const struct run *run, const struct request *request, uint64_t word)
{
    memcpy(twin, space_before, run->space_cells * sizeof *twin);
    uint64_t without = make_request(request, twin, run->space_cells, request->argument.cell,
                                    request->copies.cell, NULL, 0);
    if (word != without)
        fail(run, request_names[request->kind], "with an index and without one", word, without);
    if (!same_cells(run->space, twin, run->space_cells))
        fail(run, request_names[request->kind], "other cells than without an index", word, without);
}

/* So does the model; what it met in the index is counted. */
static void compare_model(const struct run *run, const struct request *request,
                          const struct index *index, enum index_kind kind, uint64_t word)
{
    struct cells_model_met before = cells_model_met, *met = &met_in[kind];
    memcpy(twin, space_before, run->space_cells * sizeof *twin);
    uint64_t expected = ask_model(request, twin, run->space_cells, index, NULL, 0);
    if (word != expected)
        fail(run, request_names[request->kind], "the model of the cells", word, expected);
    if (!same_cells(run->space, twin, run->space_cells))
        fail(run, request_names[request->kind], "other cells than the model's", word, expected);
    met->confirmed += cells_model_met.confirmed - before.confirmed;
    met->passed_over += cells_model_met.passed_over - before.passed_over;
    met->free_slots += cells_model_met.free_slots - before.free_slots;
    met->around += cells_model_met.around - before.around;
    lent[kind]++;
    no_power += index->count > 0 && !is_power_of_two(index->count);
    no_cells += index->count == 0;
}

static void compare_counts(const struct run *run, const char *name)
{
    uint32_t counts[3];
    plain_table_counts(run->plain, counts, 3);
    for (size_t i = 0; i < 3; i++)
        if (run->space[1 + i] != counts[i])
            fail(run, name, "a count", run->space[1 + i], counts[i]);
}

/* Makes the request with an index, and compares all that is seen. */
static uint64_t check_indexed(const struct run *run, const struct request *request)
{
    static struct index index;
    enum index_kind kind;
    size_t count = request->argument.count, copy_cells = request->copies.count;
    const char *name = request_names[request->kind];
    draw_lent_index(run, &index, &kind);
    uint32_t *slots = lend(&index_arena, index.count, chance(50));
    uint32_t *cells = lend(&term_arena, count, chance(50));
    uint32_t *copies = lend(&copy_arena, copy_cells, chance(50));
    memcpy(slots, index.cell, index.count * sizeof *slots);
    memcpy(cells, request->argument.cell, count * sizeof *cells);
    memcpy(copies, request->copies.cell, copy_cells * sizeof *copies);
    memcpy(space_before, run->space, run->space_cells * sizeof *run->space);
    uint64_t expected = ask_plain(run->plain, request, NULL, 0);
    uint64_t word = make_indexed_request(request, run->space, run->space_cells,
                                         index.count == 0 && chance(50) ? NULL : slots, index.count,
                                         cells, copies, NULL, 0);
    if (word != expected)
        fail(run, name, index_names[kind], word, expected);
    if (!same_cells(slots, index.cell, index.count))
        fail(run, name, "the index was changed", word, expected);
    if (!same_cells(cells, request->argument.cell, count) ||
        !same_cells(copies, request->copies.cell, copy_cells))
        fail(run, name, "the terms, pairs or copies were changed", word, expected);
    if (!marks_kept(&space_arena) || !marks_kept(&term_arena) || !marks_kept(&copy_arena) ||
        !marks_kept(&index_arena))
        fail(run, name, "cells beside those lent were changed", word, expected);
    compare_twin(run, request, word);
    compare_model(run, request, &index, kind, word);
    count_result(run, indexed_row(request->kind), name, word);
    return expected;
}

static void run_request(struct run *run, const struct request *request)
{
    static uint32_t out[TABLES_INSTANCE_CELLS];
    uint64_t word;
    run->call++;
    if (takes_index(request->kind)) {
        word = check_indexed(run, request);
    } else {
        word = ask_plain(run->plain, request, out, TABLES_INSTANCE_CELLS);
        uint64_t got = make_request(request, run->space, run->space_cells, request->argument.cell,
                                    request->copies.cell, out, TABLES_INSTANCE_CELLS);
        if (got != word)
            fail(run, request_names[request->kind], "result", got, word);
    }
    compare_counts(run, request_names[request->kind]);
    learn_result(&run->known, request, word);
}

/* Builds */

/*
 * Builds an index of so many cells, which must be refused by 17 or not, over one that holds anything:
 * refused, it leaves every cell, and else what it must (see wrong_index).
 */
static void check_build(const struct run *run, size_t slots, bool refused, struct index *kept)
{
    static uint32_t before[2 * INDEX_CELLS + 2];
    uint32_t *index = lend(&index_arena, slots, chance(50));
    for (size_t i = 0; i < slots; i++)
        index[i] = before[i] = draw_old_entry();
    memcpy(space_before, run->space, run->space_cells * sizeof *run->space);
    uint64_t word =
        tables_build(run->space, run->space_cells, slots == 0 && chance(50) ? NULL : index, slots);
    count_result(run, BUILD, "build", word);
    if (refused != (word == word_of(TABLES_CALL_REFUSED + TABLES_REFUSED_SLOTS, 0)))
        fail(run, "build", "17, or not, with so many slots", word, slots);
    if (!refused) {
        const char *wrong = wrong_index(run->space, index, slots, word);
        if (wrong != NULL)
            fail(run, "build", wrong, word, word_of(TABLES_BUILT, children_to_enter(run->space)));
    } else if (!same_cells(index, before, slots))
        fail(run, "build", "refused, and the index was changed", word, word);
    if (!same_cells(run->space, space_before, run->space_cells))
        fail(run, "build", "the space was changed", word, word);
    if (!marks_kept(&space_arena) || !marks_kept(&index_arena))
        fail(run, "build", "cells beside those lent were changed", word, word);
    if (kept == NULL)
        return;
    kept->count = slots;
    memcpy(kept->cell, index, slots * sizeof *index);
}

/* A build that is lent to the calls behind it. */
static void renew_index(struct run *run)
{
    size_t enough = power_from(2 * children_to_enter(run->space)), slots = enough << below(3);
    run->stale = run->built;
    check_build(run, slots <= INDEX_CELLS ? slots : enough, false, &run->built);
}

/* Every size around the least that is enough: twice the children, and a power of two. */
static void check_sizes(const struct run *run)
{
    size_t children = children_to_enter(run->space), enough = power_from(2 * children);
    just_enough += enough == 2 * children;
    one_power_short += enough > 1;
    nothing_entered += children == 0;
    for (size_t slots = 1; slots <= INDEX_CELLS; slots *= 2)
        check_build(run, slots, slots < 2 * children, NULL);
    check_build(run, 0, true, NULL);
    check_build(run, 3 * enough, true, NULL);
    check_build(run, enough + enough / 2 + 1, !is_power_of_two(enough + enough / 2 + 1), NULL);
    check_build(run, 2 * children, 2 * children != enough, NULL);
    check_build(run, 2 * children + 1, 2 * children + 1 != enough, NULL);
    if (enough > 2)
        check_build(run, enough - 1, true, NULL);
}

/* The lists */

/* One of the plan's requests that takes an index, as it was or with another last cell; or any. */
static void draw_again(struct run *run, struct request *request)
{
    static const enum request_kind kinds[] = {CALL, CALL, ANSWER, ANSWER, ANSWER, JOIN, FINISH};
    const struct request *planned = &run->plan.request[below(run->plan.count)];
    if (!takes_index(planned->kind) || chance(25)) {
        draw_request(&run->drawer, kinds[below(7)], &run->known, request);
        return;
    }
    *request = *planned;
    if (request->kind != JOIN && request->argument.count > 0 && chance(15))
        request->argument.cell[request->argument.count - 1]++;
}

static void run_list(unsigned list)
{
    static struct run run;
    static struct request request;
    run.list = list;
    while (!open_run(&run))
        ;
    for (size_t i = 0; i < run.plan.count; i++) {
        if (chance(8))
            renew_index(&run);
        run_request(&run, &run.plan.request[i]);
    }
    for (unsigned times = (unsigned)between(10, 40); times > 0; times--) {
        if (chance(15))
            renew_index(&run);
        draw_again(&run, &request);
        run_request(&run, &request);
    }
    check_sizes(&run);
    plain_table_close(run.plain);
}

/* Thousands of children */

enum { MANY = 5000, MANY_SLOTS = 32768, LARGE_SUBGOALS = MANY + 1 };
enum { LARGE_CELLS = TABLES_SPACE_CELLS(3 * MANY + 8, LARGE_SUBGOALS, MANY) };

static uint32_t large[LARGE_CELLS], large_before[LARGE_CELLS], large_index[MANY_SLOTS];

/* Constant i: the integers in order, or all over the payloads. */
static uint32_t constant_of(uint32_t i, bool spread)
{
    return TABLES_CELL(TABLES_INTEGER, spread ? TABLES_PAYLOAD(i * UINT32_C(2654435761)) : i);
}

/* Subgoal 1 is p(X), with all constants as answers; the others are q of each. */
static void make_large(const struct run *run, bool spread)
{
    const uint32_t p[] = {tables_functor_cell(run->edition, 1, 1), TABLES_CELL(TABLES_VARIABLE, 0)};
    uint64_t word = tables_fresh(large, LARGE_CELLS, 3 * MANY + 8, LARGE_SUBGOALS, MANY, run->edition);
    if (word != 0 || tables_call(large, LARGE_CELLS, p, 2) != word_of(TABLES_NEW, 1))
        fail(run, "large", "the first subgoal", word, 0);
    for (uint32_t i = 0; i < MANY; i++) {
        uint32_t q[] = {tables_functor_cell(run->edition, 2, 1), constant_of(i, spread)};
        word = tables_answer(large, LARGE_CELLS, 1, q + 1, 1);
        if (word != word_of(TABLES_NEW, i + 1))
            fail(run, "large", "an answer", word, i + 1);
        word = tables_call(large, LARGE_CELLS, q, 2);
        if (word != word_of(TABLES_NEW, i + 2))
            fail(run, "large", "a subgoal", word, i + 2);
    }
}

/* Looks all of them up, with an index of so many cells, or without one (0); the seconds that it took. */
static double look_up_all(const struct run *run, bool spread, const uint32_t *index, size_t slots)
{
    clock_t start = clock();
    for (uint32_t i = 0; i < MANY; i++) {
        uint32_t q[] = {tables_functor_cell(run->edition, 2, 1), constant_of(i, spread)};
        uint64_t answer = slots == 0 ? tables_answer(large, LARGE_CELLS, 1, q + 1, 1)
                                     : tables_answer_indexed(large, LARGE_CELLS, index, slots, 1, q + 1, 1);
        uint64_t call = slots == 0 ? tables_call(large, LARGE_CELLS, q, 2)
                                   : tables_call_indexed(large, LARGE_CELLS, index, slots, q, 2);
        if (answer != word_of(TABLES_OLD, i + 1))
            fail(run, "large", "an answer again", answer, i + 1);
        if (call != word_of(TABLES_OLD_OPEN, i + 2))
            fail(run, "large", "a subgoal again", call, i + 2);
    }
    return (double)(clock() - start) / CLOCKS_PER_SEC;
}

/*
 * The index finds every child, and does so at once where the slots are spread: in a fourth of the time
 * at most. Where they lie close together, or lead nowhere, a search takes few more steps than without.
 */
static void check_large(uint32_t edition, bool spread)
{
    static struct run run;
    run.edition = edition;
    make_large(&run, spread);
    memcpy(large_before, large, sizeof large);
    uint64_t word = tables_build(large, LARGE_CELLS, large_index, MANY_SLOTS / 2);
    if (word != word_of(TABLES_CALL_REFUSED + TABLES_REFUSED_SLOTS, 0))
        fail(&run, "large", "a build with too few slots", word, 17);
    word = tables_build(large, LARGE_CELLS, large_index, MANY_SLOTS);
    const char *wrong = wrong_index(large, large_index, MANY_SLOTS, word);
    if (wrong != NULL)
        fail(&run, "large", wrong, word, word_of(TABLES_BUILT, 2 * MANY));
    double without = look_up_all(&run, spread, NULL, 0);
    double with = look_up_all(&run, spread, large_index, MANY_SLOTS);
    for (size_t i = 0; i < MANY_SLOTS; i++)
        large_index[i] = 1; /* nobody's child with such a token */
    double in_vain = look_up_all(&run, spread, large_index, MANY_SLOTS);
    if (!same_cells(large, large_before, LARGE_CELLS))
        fail(&run, "large", "the space was changed", 0, 0);
    printf("  %u children each under two nodes, edition %u, %s: %.0f ms without an index, %.1f with, %.0f with one in vain\n",
           (unsigned)MANY, (unsigned)edition, spread ? "spread" : "in order", 1e3 * without, 1e3 * with, 1e3 * in_vain);
    double bound = spread ? without / 4 : without * 5;
    if (with > bound)
        fail(&run, "large", "microseconds with an index", (uint64_t)(1e6 * with), (uint64_t)(1e6 * bound));
    if (in_vain > 5 * without)
        fail(&run, "large", "microseconds with an index in vain", (uint64_t)(1e6 * in_vain), (uint64_t)(5e6 * without));
}

/* A large index that leads nowhere costs a search in a small table nothing to speak of. */
static void check_vain_slots(void)
{
    enum { SLOTS = 1 << 20, TIMES = 2000 };
    static uint32_t index[SLOTS], space[TABLES_SPACE_CELLS(9, 3, 3)];
    static const struct run run = {.edition = TABLES_EDITION_1};
    const uint32_t atom = TABLES_CELL(TABLES_ATOM, 1);
    for (size_t i = 0; i < SLOTS; i++)
        index[i] = UINT32_MAX;
    if (tables_fresh(space, sizeof space / sizeof *space, 9, 3, 3, TABLES_EDITION_1) != 0 ||
        tables_call(space, sizeof space / sizeof *space, &atom, 1) != word_of(TABLES_NEW, 1))
        fail(&run, "vain", "a subgoal", 0, 0);
    clock_t start = clock();
    for (unsigned i = 0; i < TIMES; i++)
        if (tables_call_indexed(space, sizeof space / sizeof *space, index, SLOTS, &atom, 1) !=
            word_of(TABLES_OLD_OPEN, 1))
            fail(&run, "vain", "a subgoal again", 0, 0);
    double seconds = (double)(clock() - start) / CLOCKS_PER_SEC;
    if (seconds > 0.2)
        fail(&run, "vain", "milliseconds", (uint64_t)(1e3 * seconds), 200);
}

/* The report */

static void check_often(const char *what, const char *kind, uint64_t times, uint64_t least)
{
    if (times >= least)
        return;
    failures++;
    printf("failed: too seldom: %s, %s\n", kind, what);
}

static void check_met(void)
{
    for (unsigned kind = 0; kind < INDEX_KINDS; kind++) {
        const struct cells_model_met *met = &met_in[kind];
        bool words = kind == ANY_WORDS; /* which never name a node, and are never free */
        printf("  %-13s lent %" PRIu64 ", confirmed %" PRIu64 ", passed over %" PRIu64 ", free %" PRIu64
               ", around %" PRIu64 "\n",
               index_names[kind], lent[kind], met->confirmed, met->passed_over, met->free_slots, met->around);
        check_often("lent", index_names[kind], lent[kind], lists);
        check_often("confirmed", index_names[kind], met->confirmed, words ? 0 : lists / 4);
        check_often("passed over", index_names[kind], met->passed_over, lists);
        check_often("free", index_names[kind], met->free_slots, words || kind == NODE_NUMBERS ? 0 : lists / 4);
        check_often("around", index_names[kind], met->around, lists / 40);
    }
    printf("  no power of two %" PRIu64 ", no cells %" PRIu64 "; tables with exactly enough slots %" PRIu64
           ", refused with half %" PRIu64 ", with nothing to enter %" PRIu64 "\n",
           no_power, no_cells, just_enough, one_power_short, nothing_entered);
    check_often("no power of two", "an index", no_power, lists);
    check_often("no cells", "an index", no_cells, lists / 4);
    check_often("exactly enough", "a build", just_enough, lists / 400);
    check_often("one power short", "a build", one_power_short, lists / 4);
    check_often("nothing to enter", "a build", nothing_entered, lists / 40);
    if (cells_model_met.joins_otherwise > 0) {
        failures++;
        printf("failed: a join on a sound table entered otherwise than it was counted\n");
    }
}

/* Arguments: the seed, and the number of lists. */
int main(int argc, char **argv)
{
    if (argc > 1)
        seed = strtoull(argv[1], NULL, 10);
    if (argc > 2)
        lists = (unsigned)strtoul(argv[2], NULL, 10);
    setvbuf(stdout, NULL, _IOLBF, BUFSIZ);
    report_crashes();
    open_arena(&space_arena, SPACE_CELLS);
    open_arena(&term_arena, ARGUMENT_CELLS);
    open_arena(&copy_arena, ARGUMENT_CELLS);
    open_arena(&index_arena, 4 * INDEX_CELLS);
    seed_drawing(seed);
    for (unsigned list = 1; list <= lists && failures < MOST_FAILURES; list++) {
        if (list % 100 == 1)
            alarm(SECONDS);
        note_place("seed %" PRIu64 ", list %u", seed, list);
        run_list(list);
    }
    note_place("thousands of children");
    for (uint32_t edition = 1; edition <= LAST_EDITION && failures == 0; edition++) {
        check_large(edition, true);
        check_large(edition, false);
    }
    if (failures == 0)
        check_vain_slots();
    if (failures == 0) {
        failures += check_tally(possible, lists / 5000); /* each, one list in 5,000 at least */
        check_met();
    }
    printf("indexed_calls_test: seed %" PRIu64 ", %u lists, %u failures\n", seed, lists, failures);
    return failures == 0 ? 0 : 1;
}
