/*
 * tables_grow against a model of it, as the header's text has it.
 *
 * The model works on cells: the header of the old space gives its blocks; header, nodes,
 * subgoals and answers used are laid out anew, everything else up to the new end is 0, and
 * cells past the new end stay. Refusals: 1, 2, 19, in this order, and no cell changes. Spaces
 * are made by calls in both editions, at every fullness, and some are then damaged. After
 * growing, lists of calls go on as on a table that had the new capacities from the start.
 *
 *     grow_test [seed [rounds]]
 */
#include "second_space.h"

#include <stdio.h>
#include <stdlib.h>
#include <string.h>
#include <time.h>

#define DEFAULT_ROUNDS 1200
#define DEFAULT_SECONDS 9

struct test {
    struct dice dice;
    struct tally tally;
    uint64_t round;
    uint64_t full_nodes, full_records; /* refusals 10 and 11 met while calls went on */
};

struct capacities {
    uint32_t nodes, subgoals, answers;
};

static size_t end_of(struct capacities of)
{
    return TABLES_SPACE_CELLS(of.nodes, of.subgoals, of.answers);
}

/* The model. */

static void lay_out(const uint32_t *old, const struct header *header, struct capacities to,
                    uint32_t *cells)
{
    memset(cells, 0, end_of(to) * sizeof *cells);
    cells[SPACE_EDITION] = header->edition;
    cells[SPACE_NODES] = header->nodes;
    cells[SPACE_SUBGOALS] = header->subgoals;
    cells[SPACE_ANSWERS] = header->answers;
    cells[SPACE_NODE_OFFSET] = SPACE_HEADER_CELLS;
    cells[SPACE_SUBGOAL_OFFSET] = SPACE_HEADER_CELLS + NODE_CELLS * to.nodes;
    cells[SPACE_ANSWER_OFFSET] = cells[SPACE_SUBGOAL_OFFSET] + SUBGOAL_CELLS * to.subgoals;
    cells[SPACE_END] = cells[SPACE_ANSWER_OFFSET] + ANSWER_CELLS * to.answers;
    for (size_t i = 0; i < (size_t)NODE_CELLS * header->nodes; i++)
        cells[SPACE_HEADER_CELLS + i] = old[SPACE_HEADER_CELLS + i];
    for (size_t i = 0; i < (size_t)SUBGOAL_CELLS * header->subgoals; i++)
        cells[cells[SPACE_SUBGOAL_OFFSET] + i] = old[old[SPACE_SUBGOAL_OFFSET] + i];
    for (size_t i = 0; i < (size_t)ANSWER_CELLS * header->answers; i++)
        cells[cells[SPACE_ANSWER_OFFSET] + i] = old[old[SPACE_ANSWER_OFFSET] + i];
}

/* The refusal, or 0 with the cells as they must be afterwards. */
static uint32_t grow_model(uint32_t *cells, size_t count, struct capacities to)
{
    struct header header;
    if (!header_read(cells, count, &header))
        return TABLES_REFUSED_HEADER;
    if (fresh_refused(count, to.nodes, to.subgoals, to.answers))
        return TABLES_REFUSED_FRESH;
    if (to.nodes < header.nodes || to.subgoals < header.subgoals || to.answers < header.answers)
        return TABLES_REFUSED_CAPACITY;
    uint32_t *old = cells_copy(cells, header.end);
    lay_out(old, &header, to, cells);
    free(old);
    return 0;
}

/* One growing, compared whole. */

static void compare_cells(struct test *test, const char *what, const uint32_t *cells,
                          const uint32_t *due, size_t count)
{
    size_t place = cells_differ(cells, due, count);
    bool same = place == count;
    tally_check(&test->tally, same, "round %llu, %s: cell %zu of %zu is %08x, due is %08x",
                (unsigned long long)test->round, what, place, count,
                same ? 0 : (unsigned)cells[place], same ? 0 : (unsigned)due[place]);
}

static void compare_word(struct test *test, const char *what, uint64_t word, uint64_t due)
{
    tally_check(&test->tally, word == due, "round %llu, %s: the word is %llx, due is %llx",
                (unsigned long long)test->round, what, (unsigned long long)word,
                (unsigned long long)due);
}

static void grow_once(struct test *test, const char *what, const uint32_t *cells, size_t count,
                      struct capacities to, uint32_t refusal, const uint32_t *due,
                      enum guard guard)
{
    struct lent space = lend(cells, count, guard);
    uint64_t word = tables_grow(space.cells, space.count, to.nodes, to.subgoals, to.answers);
    compare_word(test, what, word, refusal == 0 ? 0 : refusal_word(refusal));
    compare_cells(test, what, space.cells, due, count);
    tally_check(&test->tally, lent_marks_stand(&space),
                "round %llu, %s: marks beside the cells were changed",
                (unsigned long long)test->round, what);
    lent_back(&space);
}

/*
 * Grows a copy of the cells with guards on either side. `expected` is what the case was made
 * for, or -1. Returns the refusal by the model; `cells` become what they must be.
 */
static uint32_t grow_checked(struct test *test, const char *what, uint32_t *cells, size_t count,
                             struct capacities to, int expected)
{
    uint32_t *due = cells_copy(cells, count);
    uint32_t refusal = grow_model(due, count, to);
    test->tally.results[refusal]++;
    tally_check(&test->tally, expected < 0 || refusal == (uint32_t)expected,
                "round %llu, %s: the model says %u, the case was made for %d",
                (unsigned long long)test->round, what, (unsigned)refusal, expected);
    grow_once(test, what, cells, count, to, refusal, due, GUARD_BEHIND);
    grow_once(test, what, cells, count, to, refusal, due, GUARD_BEFORE);
    if (count != 0)
        memcpy(cells, due, count * sizeof *cells);
    free(due);
    return refusal;
}

static void grow_and_forget(struct test *test, const char *what, const uint32_t *cells,
                            size_t count, struct capacities to, int expected)
{
    uint32_t *copy = cells_copy(cells, count);
    grow_checked(test, what, copy, count, to, expected);
    free(copy);
}

/* Tables made by calls. */

#define MOST_STEPS 80

struct made {
    struct taste taste;
    struct table table;
    uint32_t *cells; /* up to the end, no cell more */
    size_t count;
    struct request *entries; /* the requests that changed it, in order */
    uint32_t entry_count;
};

static void count_full(struct test *test, uint64_t word)
{
    if (tables_refused_by(word) == TABLES_REFUSED_NO_NODE)
        test->full_nodes++;
    if (tables_refused_by(word) == TABLES_REFUSED_NO_RECORD)
        test->full_records++;
}

static void compare_reply(struct test *test, const char *what, const struct request *request,
                          const struct reply *reply, const struct reply *due)
{
    tally_check(&test->tally, reply_equal(reply, due),
                "round %llu, %s: a request of kind %d gives %llx, due is %llx",
                (unsigned long long)test->round, what, (int)request->kind,
                (unsigned long long)reply->word, (unsigned long long)due->word);
}

/* Plays a random request on the space and on the plain table, and compares the replies. */
static void play_one(struct test *test, const char *what, const struct taste *taste,
                     uint32_t *cells, size_t count, struct table *table, struct request *request,
                     struct reply *reply)
{
    static struct reply due;
    request_random(&test->dice, taste, table, request);
    request_play(request, cells, count, reply);
    request_model(request, table, &due);
    count_full(test, reply->word);
    compare_reply(test, what, request, reply, &due);
}

static void compare_table(struct test *test, const char *what, const uint32_t *cells,
                          const struct table *table)
{
    uint32_t *due = must_have(NULL, table_end(table) * sizeof *due);
    table_write(table, due);
    compare_cells(test, what, cells, due, table_end(table));
    free(due);
}

static struct capacities random_capacities(struct dice *dice, uint32_t steps)
{
    struct capacities of;
    of.nodes = dice_one_in(dice, 3) ? dice_from(dice, 1, 6 * steps + 1) : 12 * steps + 1;
    of.subgoals = dice_below(dice, steps / 2 + 2);
    of.answers = dice_below(dice, steps + 2);
    return of;
}

static void make(struct test *test, struct capacities of, uint32_t edition, uint32_t steps,
                 struct made *made)
{
    static struct request request;
    static struct reply reply;
    made->taste = taste_random(&test->dice, edition);
    made->taste.bulk = dice_one_in(&test->dice, 2);
    made->count = end_of(of);
    made->cells = must_have(NULL, made->count * sizeof *made->cells);
    made->entries = must_have(NULL, steps * sizeof *made->entries);
    made->entry_count = 0;
    cells_fill_random(&test->dice, made->cells, made->count);
    table_fresh(&made->table, of.nodes, of.subgoals, of.answers, edition);
    uint64_t word = tables_fresh(made->cells, made->count, of.nodes, of.subgoals, of.answers,
                                 edition);
    compare_word(test, "making a table", word, 0);
    for (uint32_t i = 0; i < steps; i++) {
        play_one(test, "making a table", &made->taste, made->cells, made->count, &made->table,
                 &request, &reply);
        if (tables_what(reply.word) == TABLES_NEW || tables_what(reply.word) == TABLES_DONE)
            made->entries[made->entry_count++] = request;
    }
    compare_table(test, "making a table", made->cells, &made->table);
}

static void made_free(struct made *made)
{
    table_free(&made->table);
    free(made->cells);
    free(made->entries);
}

/* The cells of a table in an array of another length, what is past its end at random. */
static uint32_t *lengthened(struct test *test, const struct made *made, size_t count)
{
    size_t held = count < made->count ? count : made->count;
    uint32_t *cells = must_have(NULL, count * sizeof *cells);
    cells_fill_random(&test->dice, cells, count);
    memcpy(cells, made->cells, held * sizeof *cells);
    return cells;
}

static size_t larger(size_t left, size_t right)
{
    return left > right ? left : right;
}

/* New capacities. */

static struct capacities used_of(const struct table *table)
{
    return (struct capacities){table->node_count, table->subgoal_count, table->answer_count};
}

static struct capacities most_of(const struct table *table)
{
    return (struct capacities){table->most_nodes, table->most_subgoals, table->most_answers};
}

/* From what is used up to what was there, the same, or more. */
static uint32_t other_capacity(struct dice *dice, uint32_t used, uint32_t most)
{
    switch (dice_below(dice, 5)) {
    case 0:
        return used;
    case 1:
        return most;
    case 2:
        return dice_from(dice, used, most);
    case 3:
        return most + dice_below(dice, 8);
    default:
        return most + dice_below(dice, 2 * most + 30);
    }
}

static struct capacities other_capacities(struct dice *dice, const struct table *table)
{
    struct capacities to;
    to.nodes = other_capacity(dice, table->node_count, table->most_nodes);
    to.subgoals = other_capacity(dice, table->subgoal_count, table->most_subgoals);
    to.answers = other_capacity(dice, table->answer_count, table->most_answers);
    return to;
}

/* An array that is just long enough for both, or a little longer. */
static size_t length_for(struct dice *dice, const struct made *made, struct capacities to)
{
    return larger(made->count, end_of(to)) + (dice_one_in(dice, 2) ? 0 : dice_below(dice, 9));
}

/* Going on after growing. */

/* The same entered by calls into a fresh table with these capacities, in so many cells. */
static uint32_t *entered_again(struct test *test, const struct made *made, struct capacities of,
                               size_t count)
{
    static struct reply reply;
    uint32_t *cells = must_have(NULL, count * sizeof *cells);
    uint64_t word = tables_fresh(cells, count, of.nodes, of.subgoals, of.answers,
                                 made->table.edition);
    compare_word(test, "entering again", word, 0);
    for (uint32_t i = 0; i < made->entry_count; i++) {
        request_play(&made->entries[i], cells, count, &reply);
        tally_check(&test->tally, tables_refused_by(reply.word) == 0,
                    "round %llu, entering again: %llx", (unsigned long long)test->round,
                    (unsigned long long)reply.word);
    }
    return cells;
}

static void set_most(struct table *table, struct capacities to)
{
    table->most_nodes = to.nodes;
    table->most_subgoals = to.subgoals;
    table->most_answers = to.answers;
}

/* Requests on a grown space, on a fresh one into which the same was entered, on a table. */
static void go_on(struct test *test, const struct made *made, struct lent *grown, uint32_t *fresh,
                  struct table *table)
{
    static struct request request;
    static struct reply reply, due;
    for (int i = 0; i < 40; i++) {
        play_one(test, "going on", &made->taste, grown->cells, grown->count, table, &request,
                 &reply);
        request_play(&request, fresh, grown->count, &due);
        compare_reply(test, "going on beside a fresh one", &request, &reply, &due);
        request.kind = REQUEST_COUNTS;
        request.room = REPLY_CELLS;
        request_play(&request, grown->cells, grown->count, &reply);
        request_play(&request, fresh, grown->count, &due);
        compare_reply(test, "counts while going on", &request, &reply, &due);
    }
}

/* After growing every request is due as on a table that had these capacities before. */
static void grow_and_go_on(struct test *test, struct made *made, struct capacities to)
{
    size_t count = length_for(&test->dice, made, to), end = end_of(to);
    uint32_t *cells = lengthened(test, made, count);
    uint32_t *fresh = entered_again(test, made, to, count);
    struct table table = table_copy(&made->table);
    struct lent space = lend(cells, count, GUARD_BEHIND);
    uint64_t word = tables_grow(space.cells, count, to.nodes, to.subgoals, to.answers);
    compare_word(test, "growing to go on", word, 0);
    set_most(&table, to);
    compare_table(test, "a grown table", space.cells, &table);
    compare_cells(test, "a grown table beside a fresh one", space.cells, fresh, end);
    compare_word(test, "checking a grown table", tables_check(space.cells, count), 0);
    go_on(test, made, &space, fresh, &table);
    compare_table(test, "a grown table gone on", space.cells, &table);
    compare_cells(test, "gone on beside a fresh one", space.cells, fresh, end);
    compare_cells(test, "past the end after going on", space.cells + end, cells + end,
                  count - end);
    tally_check(&test->tally, lent_marks_stand(&space),
                "round %llu, going on: marks beside the cells were changed",
                (unsigned long long)test->round);
    lent_back(&space);
    table_free(&table);
    free(fresh);
    free(cells);
}

static bool is_full(uint64_t word)
{
    return tables_refused_by(word) == TABLES_REFUSED_NO_NODE ||
           tables_refused_by(word) == TABLES_REFUSED_NO_RECORD;
}

static bool is_below(struct capacities now, struct capacities most)
{
    return now.nodes < most.nodes || now.subgoals < most.subgoals || now.answers < most.answers;
}

static uint32_t at_most(uint32_t value, uint32_t most)
{
    return value < most ? value : most;
}

/* Plays a request on a space; while that is full, and not yet as large as it may be, it grows. */
static void play_growing(struct test *test, const struct request *request, uint32_t *cells,
                         size_t count, struct capacities *now, struct capacities most,
                         struct reply *reply)
{
    request_play(request, cells, count, reply);
    while (is_full(reply->word) && is_below(*now, most)) {
        count_full(test, reply->word);
        now->nodes = at_most(now->nodes + dice_from(&test->dice, 1, 12), most.nodes);
        now->subgoals = at_most(now->subgoals + dice_below(&test->dice, 2), most.subgoals);
        now->answers = at_most(now->answers + dice_below(&test->dice, 2), most.answers);
        compare_word(test, "growing step by step",
                     tables_grow(cells, count, now->nodes, now->subgoals, now->answers), 0);
        request_play(request, cells, count, reply);
    }
}

/*
 * One history on a table that is large from the start, and on one that grows whenever it is
 * full: the same replies, and in the end the same cells.
 */
static void run_grown_beside_large(struct test *test, uint32_t edition)
{
    static struct request request;
    static struct reply reply, due;
    struct taste taste = taste_random(&test->dice, edition);
    struct capacities most = {1200, 30, 40}, now = {1, 0, 0};
    size_t count = end_of(most);
    uint32_t *small = must_have(NULL, count * sizeof *small);
    uint32_t *large = must_have(NULL, count * sizeof *large);
    taste.most_cells = at_most(taste.most_cells, 20);
    cells_fill_random(&test->dice, small, count);
    compare_word(test, "a small table", tables_fresh(small, count, 1, 0, 0, edition), 0);
    compare_word(test, "a large table",
                 tables_fresh(large, count, most.nodes, most.subgoals, most.answers, edition), 0);
    struct table table;
    table_fresh(&table, most.nodes, most.subgoals, most.answers, edition);
    for (uint32_t i = 0; i < 90; i++) {
        request_random(&test->dice, &taste, &table, &request);
        request_model(&request, &table, &due);
        request_play(&request, large, count, &reply);
        compare_reply(test, "the large table", &request, &reply, &due);
        play_growing(test, &request, small, count, &now, most, &reply);
        compare_reply(test, "the growing table", &request, &reply, &due);
    }
    compare_word(test, "growing to the large one's capacities",
                 tables_grow(small, count, most.nodes, most.subgoals, most.answers), 0);
    compare_cells(test, "the grown table beside the large one", small, large, count);
    table_free(&table);
    free(small);
    free(large);
}

/* Several steps are one step, but for cells past the end. */
static void run_steps(struct test *test, struct made *made)
{
    struct capacities last = other_capacities(&test->dice, &made->table);
    struct capacities between[4];
    uint32_t steps = dice_from(&test->dice, 1, 4);
    size_t count = larger(made->count, end_of(last));
    for (uint32_t i = 0; i < steps; i++) {
        between[i] = other_capacities(&test->dice, &made->table);
        count = larger(count, end_of(between[i]));
    }
    uint32_t *many = lengthened(test, made, count);
    uint32_t *once = cells_copy(many, count);
    for (uint32_t i = 0; i < steps; i++)
        grow_checked(test, "a step of several", many, count, between[i], 0);
    grow_checked(test, "the last of several steps", many, count, last, 0);
    grow_checked(test, "one step", once, count, last, 0);
    compare_cells(test, "several steps beside one", many, once, end_of(last));
    free(many);
    free(once);
}

/* Refusals. */

static struct capacities one_below(struct dice *dice, const struct table *table, bool *possible)
{
    struct capacities to = other_capacities(dice, table), used = used_of(table);
    uint32_t pick = dice_below(dice, 3);
    uint32_t *changed[3] = {&to.nodes, &to.subgoals, &to.answers};
    uint32_t has[3] = {used.nodes, used.subgoals, used.answers};
    *possible = has[pick] > (pick == 0 ? 1u : 0u);
    if (*possible)
        *changed[pick] = has[pick] - 1;
    return to;
}

static void run_too_small(struct test *test, struct made *made)
{
    bool possible;
    struct capacities to = one_below(&test->dice, &made->table, &possible);
    size_t count = length_for(&test->dice, made, to);
    uint32_t *cells = lengthened(test, made, count);
    if (possible)
        grow_and_forget(test, "one below what is used", cells, count, to, 19);
    free(cells);
}

/* The new end is one cell past the array, which holds the old end. */
static void run_too_short(struct test *test, struct made *made)
{
    bool possible = false;
    struct capacities to = other_capacities(&test->dice, &made->table);
    if (dice_one_in(&test->dice, 3))
        to = one_below(&test->dice, &made->table, &possible);
    to.nodes += (uint32_t)(made->count / NODE_CELLS) + 1;
    size_t count = end_of(to) - 1;
    uint32_t *cells = lengthened(test, made, count);
    grow_and_forget(test, "an array one cell too short", cells, count, to, 2);
    free(cells);
}

static void run_out_of_range(struct test *test, struct made *made)
{
    static const uint32_t large[] = {1048577, 1048578, 0x7fffffff, 0x80000000, 0xcccccccd,
                                     0xffffffff};
    struct capacities to = other_capacities(&test->dice, &made->table);
    uint32_t value = large[dice_below(&test->dice, sizeof large / sizeof *large)];
    size_t count = length_for(&test->dice, made, to);
    uint32_t *cells = lengthened(test, made, count);
    switch (dice_below(&test->dice, 4)) {
    case 0:
        to.nodes = 0;
        break;
    case 1:
        to.nodes = value;
        break;
    case 2:
        to.subgoals = value;
        break;
    default:
        to.answers = value;
        break;
    }
    grow_and_forget(test, "a capacity out of range", cells, count, to, 2);
    free(cells);
}

/* The header is damaged; sometimes the capacities are out of range as well. */
static void run_bad_header(struct test *test, struct made *made)
{
    struct dice *dice = &test->dice;
    struct capacities to = other_capacities(dice, &made->table), most = most_of(&made->table);
    size_t count = length_for(dice, made, to);
    uint32_t *cells = lengthened(test, made, count);
    switch (dice_below(dice, 10)) {
    case 0:
        cells[SPACE_EDITION] = dice_one_in(dice, 2) ? 0 : dice_from(dice, 3, 6);
        break;
    case 1:
        cells[SPACE_NODES] = dice_one_in(dice, 2) ? 0 : most.nodes + 1;
        break;
    case 2:
        cells[SPACE_SUBGOALS] = most.subgoals + 1;
        break;
    case 3:
        cells[SPACE_ANSWERS] = most.answers + 1;
        break;
    case 4:
        cells[SPACE_NODE_OFFSET] = dice_one_in(dice, 2) ? 7 : 13;
        break;
    case 5:
        cells[SPACE_SUBGOAL_OFFSET] += dice_from(dice, 1, 4);
        break;
    case 6:
        cells[SPACE_ANSWER_OFFSET] = cells[SPACE_SUBGOAL_OFFSET] - 6;
        break;
    case 7:
        cells[SPACE_END] += 3 * (uint32_t)(count / 3 + 1);
        break;
    case 8:
        count = cells[SPACE_END] - 1;
        break;
    default:
        count = dice_below(dice, 8);
        break;
    }
    if (dice_one_in(dice, 3))
        to.nodes = 0;
    grow_and_forget(test, "a damaged header", cells, count, to, 1);
    free(cells);
}

/* Any cell of the header becomes another; the model alone says what is due. */
static void run_random_header(struct test *test, struct made *made)
{
    struct dice *dice = &test->dice;
    struct capacities to = other_capacities(dice, &made->table);
    size_t count = length_for(dice, made, to);
    uint32_t *cells = lengthened(test, made, count);
    uint32_t *cell = cells + dice_below(dice, SPACE_HEADER_CELLS);
    static const uint32_t steps[] = {1, 2, 3, 5, 6, 15, 30};
    uint32_t step = steps[dice_below(dice, sizeof steps / sizeof *steps)];
    *cell = dice_one_in(dice, 2) ? *cell + step : *cell - step;
    grow_and_forget(test, "a header changed at random", cells, count, to, -1);
    free(cells);
}

/* Damaged records, and cells beyond the counts that are not 0. */
static void run_damaged(struct test *test, struct made *made)
{
    struct dice *dice = &test->dice;
    struct capacities to = other_capacities(dice, &made->table);
    size_t count = length_for(dice, made, to);
    uint32_t *cells = lengthened(test, made, count);
    uint32_t changes = dice_one_in(dice, 3) ? 2000 : dice_from(dice, 1, 20);
    size_t room = made->count - SPACE_HEADER_CELLS;
    for (uint32_t i = 0; i < changes; i++)
        cells[SPACE_HEADER_CELLS + dice_below(dice, (uint32_t)room)] = dice_word(dice);
    grow_and_forget(test, "damaged records", cells, count, to, 0);
    free(cells);
}

/* Blocks that go up while others go down, by much and by little. */
static void run_mixed(struct test *test, struct made *made)
{
    struct capacities used = used_of(&made->table), most = most_of(&made->table);
    static const uint32_t up[] = {1, 2, 7, 40};
    for (uint32_t signs = 0; signs < 27; signs++) {
        uint32_t step = up[dice_below(&test->dice, 4)];
        uint32_t n = signs % 3, f = signs / 3 % 3, a = signs / 9;
        struct capacities to;
        to.nodes = n == 0 ? used.nodes : n == 1 ? most.nodes : most.nodes + step;
        to.subgoals = f == 0 ? used.subgoals : f == 1 ? most.subgoals : most.subgoals + step;
        to.answers = a == 0 ? used.answers : a == 1 ? most.answers : most.answers + step;
        size_t count = length_for(&test->dice, made, to);
        uint32_t *cells = lengthened(test, made, count);
        grow_and_forget(test, "blocks up and down", cells, count, to, 0);
        free(cells);
    }
}

/* An index that was built before growing serves on. */
static void run_index(struct test *test, struct made *made)
{
    static struct request request;
    struct capacities to = other_capacities(&test->dice, &made->table);
    size_t count = length_for(&test->dice, made, to), slots = 1;
    uint32_t *cells = lengthened(test, made, count);
    struct table table = table_copy(&made->table);
    while (slots < 2 * (size_t)table.node_count)
        slots *= 2;
    uint32_t *index = must_have(NULL, slots * sizeof *index);
    uint64_t word = tables_build(cells, count, index, slots);
    compare_word(test, "building", tables_what(word), TABLES_BUILT);
    word = tables_grow(cells, count, to.nodes, to.subgoals, to.answers);
    compare_word(test, "growing with an index", word, 0);
    set_most(&table, to);
    for (uint32_t i = 0; i < 40; i++) {
        request_random(&test->dice, &made->taste, &table, &request);
        if (request.kind == REQUEST_CALL) {
            word = tables_call_indexed(cells, count, index, slots, request.cells, request.count);
            compare_word(test, "a call with an index", word,
                         table_call(&table, request.cells, request.count));
        } else if (request.kind == REQUEST_ANSWER) {
            word = tables_answer_indexed(cells, count, index, slots, request.number,
                                         request.cells, request.count);
            compare_word(test, "an answer with an index", word,
                         table_answer(&table, request.number, request.cells, request.count));
        }
    }
    compare_table(test, "a grown table with an index", cells, &table);
    table_free(&table);
    free(index);
    free(cells);
}

/* Rounds. */

static void run_round(struct test *test)
{
    struct dice *dice = &test->dice;
    uint32_t edition = dice_from(dice, 1, 2), steps = dice_below(dice, MOST_STEPS);
    struct made made;
    make(test, random_capacities(dice, steps), edition, steps, &made);
    run_mixed(test, &made);
    grow_and_go_on(test, &made, used_of(&made.table));
    grow_and_go_on(test, &made, most_of(&made.table));
    for (int i = 0; i < 3; i++)
        grow_and_go_on(test, &made, other_capacities(dice, &made.table));
    for (int i = 0; i < 3; i++) {
        run_steps(test, &made);
        run_too_small(test, &made);
        run_too_short(test, &made);
        run_out_of_range(test, &made);
        run_bad_header(test, &made);
    }
    for (int i = 0; i < 8; i++) {
        run_random_header(test, &made);
        run_damaged(test, &made);
    }
    run_index(test, &made);
    run_grown_beside_large(test, edition);
    made_free(&made);
}

/* Every fullness of one small table: each request that enters something, then growing. */
static void run_every_fullness(struct test *test, uint32_t edition)
{
    struct capacities of = {40, 5, 9};
    for (uint32_t steps = 0; steps < 60; steps++) {
        struct made made;
        make(test, of, edition, steps, &made);
        run_mixed(test, &made);
        made_free(&made);
    }
}

/*
 * A growing written out by hand: p(X) with the answers 5 and integer 3, and between them the
 * ground subgoal q with its answer; one record more of each sort.
 */
static void run_worked(struct test *test)
{
    static const uint32_t due[85] = {
        1, 8, 2, 3, 8, 53, 71, 83,
        0, 1, 0, 0, 0,
        0x40000011, 2, 5, 0, 0,
        0x10000000, 0, 0, 1, 1,
        0, 4, 0, 3, 0,
        0x20000005, 0, 7, 3, 1,
        0x20000007, 0, 0, 0, 2,
        0, 0, 0, 6, 2,
        0x30000003, 0, 0, 3, 3,
        0, 0, 0, 0, 0,
        2, 3, 1, 1, 1, 3,
        5, 6, 0, 1, 2, 2,
        0, 0, 0, 0, 0, 0,
        4, 1, 3,
        6, 2, 0,
        7, 1, 0,
        0, 0, 0,
        0xffffffff, 0xffffffff,
    };
    uint32_t space[85];
    const uint32_t p[] = {0x40000011, 0x10000009}, q = 0x20000007, five = 0x20000005,
                   three = 0x30000003;
    memset(space, 0xff, sizeof space);
    compare_word(test, "worked", tables_fresh(space, 69, 8, 2, 3, 1), 0);
    compare_word(test, "worked", tables_call(space, 69, p, 2), 0x100000001);
    compare_word(test, "worked", tables_answer(space, 69, 1, &five, 1), 0x100000001);
    compare_word(test, "worked", tables_call(space, 69, &q, 1), 0x100000002);
    compare_word(test, "worked", tables_answer(space, 69, 2, NULL, 0), 0x100000002);
    compare_word(test, "worked", tables_answer(space, 69, 1, &three, 1), 0x100000003);
    compare_word(test, "worked", tables_finish(space, 69, 1), 0);
    compare_word(test, "worked", tables_grow(space, 85, 9, 3, 4), 0);
    compare_cells(test, "worked", space, due, 85);
    compare_word(test, "worked", tables_grow(space, 85, 7, 3, 4), refusal_word(19));
    compare_word(test, "worked", tables_grow(space, 82, 9, 3, 4), refusal_word(1));
    compare_word(test, "worked", tables_grow(space, 85, 9, 3, 5), refusal_word(2));
    compare_cells(test, "worked, refused", space, due, 85);
}

/* Nothing lent, the largest capacities, and back to the smallest. */
static void run_extremes(struct test *test)
{
    struct capacities most = {1048576, 1048576, 1048576}, beyond = {1048577, 5, 5};
    struct made made;
    uint64_t word = tables_grow(NULL, 0, 1, 0, 0);
    compare_word(test, "nothing lent", word, refusal_word(1));
    make(test, (struct capacities){300, 20, 30}, 2, 60, &made);
    uint32_t *cells = lengthened(test, &made, end_of(most));
    grow_and_forget(test, "the largest, a cell short", cells, end_of(most) - 1, most, 2);
    grow_and_forget(test, "a node too many", cells, end_of(most), beyond, 2);
    grow_checked(test, "the largest capacities", cells, end_of(most), most, 0);
    grow_checked(test, "what is used", cells, end_of(most), used_of(&made.table), 0);
    free(cells);
    made_free(&made);
}

int main(int argc, char **argv)
{
    static const uint32_t refusals[] = {1, 2, 19, 0};
    struct test test = {.round = 0};
    uint64_t seed = argc > 1 ? strtoull(argv[1], NULL, 10) : 1;
    uint64_t rounds = argc > 2 ? strtoull(argv[2], NULL, 10) : DEFAULT_ROUNDS;
    time_t start = time(NULL);
    test.dice.state = seed;
    guards_on();
    run_worked(&test);
    run_extremes(&test);
    run_every_fullness(&test, 1);
    run_every_fullness(&test, 2);
    while (test.round < rounds) {
        if (argc <= 2 && time(NULL) - start >= DEFAULT_SECONDS)
            break;
        test.round++;
        run_round(&test);
    }
    tally_must_have(&test.tally, refusals);
    tally_check(&test.tally, test.full_nodes != 0 && test.full_records != 0,
                "10 came %llu times and 11 %llu times while calls went on",
                (unsigned long long)test.full_nodes, (unsigned long long)test.full_records);
    return tally_report(&test.tally, "grow_test", seed);
}
