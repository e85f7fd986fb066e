/*
 * tables_carry (document 02, Q-8) against a model of it.
 *
 * The model reads a source by document 01's layout and damage rules, as open points 53 to 60
 * say, decides the answer (1, 2, 9, 18, 19 in this order, or done) and gives every cell of the
 * target. Sources are made by calls and then left alone, twisted so that they must still be
 * carried, damaged so that they must be refused, or changed at random. After a copy lists of
 * calls go on on both sides.
 *
 * Readings taken: a subgoal's answer root is read only as the end of its answers' paths, so not
 * where it has none; the links on an answer's path, its root included, are held to the answers,
 * those on a subgoal's path to the subgoals; a refusal's word has no value.
 *
 *     carry_test [seed [rounds]]
 */
#include "second_space.h"

#include <stdio.h>
#include <stdlib.h>
#include <string.h>
#include <time.h>

#define DEFAULT_ROUNDS 400
#define DEFAULT_SECONDS 9

struct test {
    struct dice dice;
    struct tally tally;
    uint64_t round;
    uint64_t twisted_done; /* sources carried that no calls had made */
};

/* One copy to be made: the source, and what is asked of the target. */
struct copy {
    uint32_t *source;
    size_t source_count;
    uint32_t nodes, subgoals, answers;
    size_t target_count;
};

/* The model. */

struct reading {
    uint32_t *cells;
    struct header header;
};

static bool node_number_sound(const struct reading *reading, uint32_t from, uint32_t number)
{
    return number == 0 || (number > from && number < reading->header.nodes);
}

static bool node_sound(const struct reading *reading, uint32_t node, uint32_t links)
{
    const uint32_t *at = node_cells(reading->cells, node);
    return node_number_sound(reading, node, at[NODE_CHILD]) &&
           node_number_sound(reading, node, at[NODE_SIBLING]) && at[NODE_PARENT] <= node &&
           at[NODE_LINK] <= links;
}

/* The tokens on the way from the root to the leaf; false where the path is damaged. */
static bool path_read(const struct reading *reading, uint32_t leaf, uint32_t root, uint32_t links,
                      uint32_t *form, size_t *count)
{
    uint32_t node = leaf;
    size_t place = FORM_ROOM;
    for (;;) {
        const uint32_t *at = node_cells(reading->cells, node);
        if (!node_sound(reading, node, links))
            return false;
        if (at[NODE_PARENT] == node)
            break;
        if (FORM_ROOM - place == TABLES_COMPACT_CELLS)
            return false;
        form[--place] = at[NODE_TOKEN];
        node = at[NODE_PARENT];
    }
    *count = FORM_ROOM - place;
    memmove(form, form + place, *count * sizeof *form);
    return node == root;
}

static bool subgoal_sound(const struct reading *reading, const uint32_t *at)
{
    const struct header *header = &reading->header;
    return at[SUBGOAL_LEAF] < header->nodes && at[SUBGOAL_ROOT] < header->nodes &&
           at[SUBGOAL_VARIABLES] <= TABLES_TERM_VARIABLES && at[SUBGOAL_STATE] <= 1 &&
           at[SUBGOAL_FIRST] <= header->answers && at[SUBGOAL_LAST] <= header->answers &&
           (at[SUBGOAL_FIRST] == 0) == (at[SUBGOAL_LAST] == 0);
}

static bool answer_sound(const struct reading *reading, uint32_t answer, const uint32_t *at)
{
    const struct header *header = &reading->header;
    return at[ANSWER_LEAF] < header->nodes && at[ANSWER_SUBGOAL] >= 1 &&
           at[ANSWER_SUBGOAL] <= header->subgoals &&
           (at[ANSWER_NEXT] == 0 ||
            (at[ANSWER_NEXT] > answer && at[ANSWER_NEXT] <= header->answers));
}

/* Loads a subgoal and enters it; false where it does not load, or stands there already. */
static bool subgoal_read(const struct reading *reading, uint32_t subgoal, struct table *table)
{
    const uint32_t *at = subgoal_cells(reading->cells, subgoal);
    uint32_t form[FORM_ROOM], variables;
    size_t count;
    if (!subgoal_sound(reading, at) ||
        !path_read(reading, at[SUBGOAL_LEAF], 0, reading->header.subgoals, form, &count) ||
        !form_legal(form, count, 1, 1, &variables) || variables != at[SUBGOAL_VARIABLES] ||
        !table_put_subgoal(table, form, count, variables))
        return false;
    table->subgoals[subgoal - 1].state = at[SUBGOAL_STATE];
    return true;
}

static bool answer_read(const struct reading *reading, uint32_t answer, struct table *table)
{
    const uint32_t *at = answer_cells(reading->cells, answer);
    uint32_t form[FORM_ROOM], variables;
    size_t count;
    if (!answer_sound(reading, answer, at))
        return false;
    const uint32_t *owner = subgoal_cells(reading->cells, at[ANSWER_SUBGOAL]);
    return path_read(reading, at[ANSWER_LEAF], owner[SUBGOAL_ROOT], reading->header.answers,
                     form, &count) &&
           form_legal(form, count, owner[SUBGOAL_VARIABLES], 1, &variables) &&
           table_put_answer(table, at[ANSWER_SUBGOAL], form, count);
}

static bool source_read(const struct reading *reading, struct table *table)
{
    for (uint32_t s = 1; s <= reading->header.subgoals; s++)
        if (!subgoal_read(reading, s, table))
            return false;
    for (uint32_t a = 1; a <= reading->header.answers; a++)
        if (!answer_read(reading, a, table))
            return false;
    return true;
}

static bool any_name_too_large(const struct table *table)
{
    for (uint32_t i = 0; i < table->node_count; i++)
        if (cell_name_too_large(table->nodes[i].token))
            return true;
    return false;
}

static void table_to_edition_2(struct table *table, const struct copy *copy)
{
    table->edition = 2;
    table->most_nodes = copy->nodes;
    table->most_subgoals = copy->subgoals;
    table->most_answers = copy->answers;
    for (uint32_t i = 0; i < table->node_count; i++)
        table->nodes[i].token = cell_carried(table->nodes[i].token);
}

/* The refusal, or 0 with the table of the target. The table is to be freed either way. */
static uint32_t carry_model(const struct copy *copy, struct table *table)
{
    struct reading reading = {.cells = copy->source};
    table_fresh(table, UINT32_MAX, UINT32_MAX, UINT32_MAX, 1);
    if (!header_read(copy->source, copy->source_count, &reading.header) ||
        reading.header.edition != 1)
        return TABLES_REFUSED_HEADER;
    if (fresh_refused(copy->target_count, copy->nodes, copy->subgoals, copy->answers))
        return TABLES_REFUSED_FRESH;
    if (!source_read(&reading, table))
        return TABLES_REFUSED_DAMAGED;
    if (any_name_too_large(table))
        return TABLES_REFUSED_NAME;
    if (table->node_count > copy->nodes || table->subgoal_count > copy->subgoals ||
        table->answer_count > copy->answers)
        return TABLES_REFUSED_CAPACITY;
    table_to_edition_2(table, copy);
    return 0;
}

/* Making one copy and comparing all of it. */

static void compare_cells(struct test *test, const char *what, const char *which,
                          const uint32_t *cells, const uint32_t *due, size_t count)
{
    size_t place = cells_differ(cells, due, count);
    bool same = place == count;
    tally_check(&test->tally, same,
                "round %llu, %s: cell %zu of %zu of the %s is %08x, due is %08x",
                (unsigned long long)test->round, what, place, count, which,
                same ? 0 : (unsigned)cells[place], same ? 0 : (unsigned)due[place]);
}

static void compare_word(struct test *test, const char *what, uint64_t word, uint64_t due)
{
    tally_check(&test->tally, word == due, "round %llu, %s: the word is %llx, due is %llx",
                (unsigned long long)test->round, what, (unsigned long long)word,
                (unsigned long long)due);
}

static void carry_once(struct test *test, const struct copy *copy, const char *what,
                       uint32_t refusal, const uint32_t *before, const uint32_t *due,
                       enum guard source_guard, enum guard target_guard)
{
    struct lent source = lend(copy->source, copy->source_count, source_guard);
    struct lent target = lend(before, copy->target_count, target_guard);
    lent_read_only(&source, true);
    uint64_t word = tables_carry(source.cells, source.count, target.cells, target.count,
                                 copy->nodes, copy->subgoals, copy->answers);
    lent_read_only(&source, false);
    compare_word(test, what, word, refusal == 0 ? 0 : refusal_word(refusal));
    compare_cells(test, what, "target", target.cells, due, target.count);
    compare_cells(test, what, "source", source.cells, copy->source, source.count);
    tally_check(&test->tally, lent_marks_stand(&source) && lent_marks_stand(&target),
                "round %llu, %s: marks beside the cells were changed",
                (unsigned long long)test->round, what);
    lent_back(&source);
    lent_back(&target);
}

/*
 * Makes the copy with guards on either side. `due` is what the case was made for, or -1. The
 * refusal by the model comes back, and its table, which is to be freed.
 */
static uint32_t carry_checked(struct test *test, const struct copy *copy, const char *what,
                              int due, struct table *table)
{
    uint32_t refusal = carry_model(copy, table);
    uint32_t *before = must_have(NULL, copy->target_count * sizeof *before);
    cells_fill_random(&test->dice, before, copy->target_count);
    uint32_t *after = cells_copy(before, copy->target_count);
    if (refusal == 0)
        table_write(table, after);
    test->tally.results[refusal]++;
    tally_check(&test->tally, due < 0 || refusal == (uint32_t)due,
                "round %llu, %s: the model says %u, the case was made for %d",
                (unsigned long long)test->round, what, (unsigned)refusal, due);
    enum guard guard = dice_one_in(&test->dice, 2) ? GUARD_BEHIND : GUARD_BEFORE;
    carry_once(test, copy, what, refusal, before, after, guard, GUARD_BEHIND);
    guard = guard == GUARD_BEHIND ? GUARD_BEFORE : GUARD_BEHIND;
    carry_once(test, copy, what, refusal, before, after, guard, GUARD_BEFORE);
    free(before);
    free(after);
    return refusal;
}

static void carry_and_forget(struct test *test, const struct copy *copy, const char *what,
                             int due)
{
    struct table table;
    carry_checked(test, copy, what, due, &table);
    table_free(&table);
}

/* A copy with room to spare for a source as it stands, also if one path more is copied. */
static struct copy copy_ample(struct test *test, uint32_t *source, size_t count)
{
    struct copy copy = {.source = source, .source_count = count};
    copy.nodes = source[SPACE_NODES] + 400 + dice_below(&test->dice, 100);
    copy.subgoals = source[SPACE_SUBGOALS] + dice_below(&test->dice, 20);
    copy.answers = source[SPACE_ANSWERS] + dice_below(&test->dice, 20);
    copy.target_count = TABLES_SPACE_CELLS(copy.nodes, copy.subgoals, copy.answers) +
                        dice_below(&test->dice, 6);
    return copy;
}

/* Sources made by calls. */

struct source {
    struct taste taste;
    struct table table;
    uint32_t *cells;
    size_t count;
};

/* Room for what is entered and for records added by hand; if tight, mostly not. */
static struct copy source_capacities(struct dice *dice, uint32_t steps, bool tight)
{
    struct copy of = {.nodes = 24 * steps + 800, .subgoals = steps + 8, .answers = steps + 8};
    if (tight && dice_one_in(dice, 2))
        of.nodes = dice_from(dice, 1, 8 * steps + 1);
    if (tight && dice_one_in(dice, 2))
        of.subgoals = dice_below(dice, steps);
    if (tight && dice_one_in(dice, 2))
        of.answers = dice_below(dice, steps);
    return of;
}

/* Plays requests on the space and on the plain table, and compares each reply. */
static void play_steps(struct test *test, const struct taste *taste, struct lent *space,
                       struct table *table, uint32_t steps, const char *what)
{
    static struct request request;
    static struct reply reply, due;
    for (uint32_t i = 0; i < steps; i++) {
        request_random(&test->dice, taste, table, &request);
        request_play(&request, space->cells, space->count, &reply);
        request_model(&request, table, &due);
        tally_check(&test->tally, reply_equal(&reply, &due),
                    "round %llu, %s: request %u of kind %d gives %llx, due is %llx",
                    (unsigned long long)test->round, what, (unsigned)i, (int)request.kind,
                    (unsigned long long)reply.word, (unsigned long long)due.word);
    }
}

static void compare_space(struct test *test, const char *what, const char *which,
                          const struct lent *space, const struct table *table)
{
    uint32_t *due = cells_copy(space->cells, space->count);
    table_write(table, due);
    compare_cells(test, what, which, space->cells, due, space->count);
    free(due);
}

/* The cells are those of the plain table, which the store's are compared with. */
static void source_make(struct test *test, const struct taste *taste, uint32_t steps, bool tight,
                        struct source *source)
{
    struct copy of = source_capacities(&test->dice, steps, tight);
    size_t end = TABLES_SPACE_CELLS(of.nodes, of.subgoals, of.answers);
    source->taste = *taste;
    source->count = end + dice_below(&test->dice, 4);
    source->cells = must_have(NULL, source->count * sizeof *source->cells);
    cells_fill_random(&test->dice, source->cells, source->count);
    table_fresh(&source->table, of.nodes, of.subgoals, of.answers, taste->edition);
    struct lent space = lend(source->cells, source->count, GUARD_BEHIND);
    uint64_t word = tables_fresh(space.cells, space.count, of.nodes, of.subgoals, of.answers,
                                 taste->edition);
    compare_word(test, "making a source", word, 0);
    play_steps(test, taste, &space, &source->table, steps, "making a source");
    table_write(&source->table, source->cells);
    compare_cells(test, "making a source", "source", space.cells, source->cells, space.count);
    lent_back(&space);
}

static void source_free(struct source *source)
{
    table_free(&source->table);
    free(source->cells);
}

/* Going on after a copy. */

/* The first token of every subgoal is an atom or a functor. */
static bool all_callable(const struct table *table)
{
    uint32_t form[FORM_ROOM];
    for (uint32_t s = 0; s < table->subgoal_count; s++) {
        table_form(table, table->subgoals[s].leaf, form);
        if (TABLES_KIND(form[0]) != TABLES_ATOM && TABLES_KIND(form[0]) != TABLES_FUNCTOR)
            return false;
    }
    return true;
}

static void check_whole(struct test *test, const struct lent *target, const struct table *table,
                        const char *what)
{
    uint64_t word = tables_check(target->cells, target->count);
    if (all_callable(table))
        compare_word(test, what, word, 0);
    else
        tally_check(&test->tally, tables_refused_by(word) == TABLES_REFUSED_DAMAGED,
                    "round %llu, %s: the check says %llx of a subgoal that cannot be called",
                    (unsigned long long)test->round, what, (unsigned long long)word);
}

/* One question on both sides: equal words, and equal cells but for functors. */
static void ask_both(struct test *test, const struct request *request, struct lent *source,
                     struct lent *target)
{
    static struct reply here, there, carried;
    request_play(request, source->cells, source->count, &here);
    request_play(request, target->cells, target->count, &there);
    reply_carried(&here, &carried);
    tally_check(&test->tally, reply_equal(&carried, &there),
                "round %llu: kind %d, %u, %u: source says %llx, target %llx or other cells",
                (unsigned long long)test->round, (int)request->kind, (unsigned)request->number,
                (unsigned)request->after, (unsigned long long)here.word,
                (unsigned long long)there.word);
}

/* Every answer loads alike on both sides, and tables_next goes on alike from each. */
static void sweep(struct test *test, struct lent *source, struct lent *target)
{
    struct request request = {.room = REPLY_CELLS};
    uint32_t subgoals = source->cells[SPACE_SUBGOALS];
    uint32_t answers = source->cells[SPACE_ANSWERS];
    for (uint32_t s = 1; s <= subgoals; s++) {
        request.kind = REQUEST_NEXT;
        request.number = s;
        request.after = 0;
        ask_both(test, &request, source, target);
    }
    for (uint32_t a = 1; a <= answers; a++) {
        request.kind = REQUEST_NEXT;
        request.number = answer_cells(source->cells, a)[ANSWER_SUBGOAL];
        request.after = a;
        ask_both(test, &request, source, target);
        request.kind = REQUEST_LOAD;
        request.number = a;
        ask_both(test, &request, source, target);
        request.kind = REQUEST_INSTANCE;
        ask_both(test, &request, source, target);
    }
}

static bool same_room(const struct table *left, const struct table *right)
{
    return left->most_nodes == right->most_nodes && left->most_subgoals == right->most_subgoals &&
           left->most_answers == right->most_answers;
}

/*
 * The same requests on both sides, each compared with its plain table. The source takes part
 * where its capacities are the target's, so that all words are equal.
 */
static void go_on_both(struct test *test, const struct taste *taste, struct lent *source,
                       struct table *here, struct lent *target, struct table *there,
                       uint32_t steps)
{
    static struct request request, carried;
    static struct reply reply, due, other, back;
    for (uint32_t i = 0; i < steps; i++) {
        request_random(&test->dice, taste, here, &request);
        request_carried(&request, &carried);
        request_play(&carried, target->cells, target->count, &reply);
        request_model(&carried, there, &due);
        tally_check(&test->tally, reply_equal(&reply, &due),
                    "round %llu: going on, target gives %llx, due is %llx",
                    (unsigned long long)test->round, (unsigned long long)reply.word,
                    (unsigned long long)due.word);
        if (!same_room(here, there))
            continue;
        request_play(&request, source->cells, source->count, &other);
        request_model(&request, here, &due);
        tally_check(&test->tally, reply_equal(&other, &due),
                    "round %llu: going on, source gives %llx, due is %llx",
                    (unsigned long long)test->round, (unsigned long long)other.word,
                    (unsigned long long)due.word);
        reply_carried(&other, &back);
        tally_check(&test->tally, reply_equal(&back, &reply),
                    "round %llu: going on, source gives %llx, target %llx",
                    (unsigned long long)test->round, (unsigned long long)other.word,
                    (unsigned long long)reply.word);
    }
}

/* A join of random subgoals with random pairs and copies, on both sides. */
static void join_both(struct test *test, struct lent *source, struct lent *target)
{
    struct dice *dice = &test->dice;
    uint32_t subgoals = source->cells[SPACE_SUBGOALS];
    uint32_t first = dice_from(dice, 1, subgoals), second = dice_from(dice, 1, subgoals);
    uint32_t goal = dice_from(dice, 1, subgoals);
    uint32_t variables = subgoal_cells(source->cells, goal)[SUBGOAL_VARIABLES] % 33;
    uint32_t pairs[2] = {dice_below(dice, 2), dice_below(dice, 2)};
    uint32_t copies[2 * TABLES_TERM_VARIABLES];
    size_t pairs_cells = dice_one_in(dice, 2) ? 2 : 0;
    size_t copies_cells = 2 * (size_t)variables;
    for (size_t i = 0; i < copies_cells; i += 2) {
        copies[i] = dice_below(dice, 2);
        copies[i + 1] = dice_below(dice, 2);
    }
    uint64_t here = tables_finish(source->cells, source->count, first);
    uint64_t there = tables_finish(target->cells, target->count, first);
    compare_word(test, "finishing for a join", there, here);
    here = tables_finish(source->cells, source->count, second);
    there = tables_finish(target->cells, target->count, second);
    compare_word(test, "finishing for a join", there, here);
    here = tables_join(source->cells, source->count, first, second, pairs, pairs_cells, goal,
                       copies, copies_cells);
    there = tables_join(target->cells, target->count, first, second, pairs, pairs_cells, goal,
                        copies, copies_cells);
    compare_word(test, "joining", there, here);
}

/* A copy of a source made by calls; then the lists of calls go on on both sides. */
static void carry_and_go_on(struct test *test, struct source *source, const struct copy *copy)
{
    struct table there, here = table_copy(&source->table);
    if (carry_checked(test, copy, "a source made by calls", 0, &there) == 0) {
        struct lent from = lend(source->cells, source->count, GUARD_BEHIND);
        uint32_t *garbage = must_have(NULL, copy->target_count * sizeof *garbage);
        cells_fill_random(&test->dice, garbage, copy->target_count);
        struct lent to = lend(garbage, copy->target_count, GUARD_BEHIND);
        uint64_t word = tables_carry(from.cells, from.count, to.cells, to.count, copy->nodes,
                                     copy->subgoals, copy->answers);
        compare_word(test, "carrying to go on", word, 0);
        check_whole(test, &to, &there, "checking a copy");
        sweep(test, &from, &to);
        go_on_both(test, &source->taste, &from, &here, &to, &there, 60);
        compare_space(test, "after going on", "source", &from, &here);
        compare_space(test, "after going on", "target", &to, &there);
        check_whole(test, &to, &there, "checking a copy after going on");
        if (same_room(&here, &there) && here.subgoal_count != 0) {
            for (int i = 0; i < 6; i++)
                join_both(test, &from, &to);
            sweep(test, &from, &to);
        }
        lent_back(&from);
        lent_back(&to);
        free(garbage);
    }
    table_free(&here);
    table_free(&there);
}

/* The same source with capacities that are just enough, and one node too few. */
static void carry_exactly(struct test *test, const struct copy *copy, const struct table *table,
                          const char *what)
{
    struct copy exact = *copy;
    exact.nodes = table->node_count;
    exact.subgoals = table->subgoal_count;
    exact.answers = table->answer_count;
    carry_and_forget(test, &exact, what, 0);
    exact.nodes--;
    carry_and_forget(test, &exact, what, exact.nodes == 0 ? 2 : 19);
}

/* A source that no calls made, carried all the same: the target goes on as its table does. */
static void carry_twisted(struct test *test, struct source *source, uint32_t *cells,
                          const char *what, int due)
{
    struct copy copy = copy_ample(test, cells, source->count);
    struct table table;
    struct taste taste = source->taste;
    if (carry_checked(test, &copy, what, due, &table) == 0) {
        test->twisted_done++;
        carry_exactly(test, &copy, &table, what);
        uint32_t *garbage = must_have(NULL, copy.target_count * sizeof *garbage);
        cells_fill_random(&test->dice, garbage, copy.target_count);
        struct lent target = lend(garbage, copy.target_count, GUARD_BEFORE);
        uint64_t word = tables_carry(cells, source->count, target.cells, target.count,
                                     copy.nodes, copy.subgoals, copy.answers);
        compare_word(test, what, word, 0);
        check_whole(test, &target, &table, what);
        taste.edition = 2;
        play_steps(test, &taste, &target, &table, 30, what);
        compare_space(test, what, "target", &target, &table);
        lent_back(&target);
        free(garbage);
    }
    table_free(&table);
}

/* Twists: each changes a sound source, or says that there is nothing to change. */

typedef bool (*twist)(struct dice *dice, uint32_t *cells);

/* A subgoal, or 0 where there is none. */
static uint32_t some_subgoal(struct dice *dice, const uint32_t *cells)
{
    return cells[SPACE_SUBGOALS] == 0 ? 0 : dice_from(dice, 1, cells[SPACE_SUBGOALS]);
}

static uint32_t some_answer(struct dice *dice, const uint32_t *cells)
{
    return cells[SPACE_ANSWERS] == 0 ? 0 : dice_from(dice, 1, cells[SPACE_ANSWERS]);
}

static uint32_t node_room(const uint32_t *cells)
{
    return (cells[SPACE_SUBGOAL_OFFSET] - 8) / NODE_CELLS - cells[SPACE_NODES];
}

/* Appends the nodes of a path that no child field leads to; its leaf, or 0 without room. */
static uint32_t append_path(uint32_t *cells, uint32_t root, const uint32_t *form, size_t count)
{
    uint32_t node = root;
    if (count > node_room(cells))
        return 0;
    for (size_t i = 0; i < count; i++) {
        uint32_t *at = node_cells(cells, cells[SPACE_NODES]);
        memset(at, 0, NODE_CELLS * sizeof *at);
        at[NODE_TOKEN] = form[i];
        at[NODE_PARENT] = node;
        node = cells[SPACE_NODES]++;
    }
    return node;
}

static uint32_t append_root(uint32_t *cells)
{
    uint32_t root = cells[SPACE_NODES];
    if (append_path(cells, root, &(uint32_t){0}, 1) == 0)
        return 0;
    return root;
}

static uint32_t append_subgoal(uint32_t *cells, uint32_t leaf, uint32_t root, uint32_t variables)
{
    uint32_t room = (cells[SPACE_ANSWER_OFFSET] - cells[SPACE_SUBGOAL_OFFSET]) / SUBGOAL_CELLS;
    if (cells[SPACE_SUBGOALS] == room)
        return 0;
    uint32_t subgoal = ++cells[SPACE_SUBGOALS];
    uint32_t *at = subgoal_cells(cells, subgoal);
    memset(at, 0, SUBGOAL_CELLS * sizeof *at);
    at[SUBGOAL_LEAF] = leaf;
    at[SUBGOAL_ROOT] = root;
    at[SUBGOAL_VARIABLES] = variables;
    return subgoal;
}

static uint32_t append_answer(uint32_t *cells, uint32_t leaf, uint32_t subgoal)
{
    uint32_t room = (cells[SPACE_END] - cells[SPACE_ANSWER_OFFSET]) / ANSWER_CELLS;
    if (cells[SPACE_ANSWERS] == room)
        return 0;
    uint32_t answer = ++cells[SPACE_ANSWERS];
    uint32_t *at = answer_cells(cells, answer);
    at[ANSWER_LEAF] = leaf;
    at[ANSWER_SUBGOAL] = subgoal;
    at[ANSWER_NEXT] = 0;
    return answer;
}

/* The tokens down to a leaf of a sound space. */
static size_t spelled(uint32_t *cells, uint32_t leaf, uint32_t *form)
{
    size_t count = 0, place;
    for (uint32_t n = leaf; node_cells(cells, n)[NODE_PARENT] != n;
         n = node_cells(cells, n)[NODE_PARENT])
        count++;
    place = count;
    for (uint32_t n = leaf; place != 0; n = node_cells(cells, n)[NODE_PARENT])
        form[--place] = node_cells(cells, n)[NODE_TOKEN];
    return count;
}

/* Twists after which the source must still be carried. */

static bool twist_open_ground(struct dice *dice, uint32_t *cells)
{
    bool changed = false;
    (void)dice;
    for (uint32_t s = 1; s <= cells[SPACE_SUBGOALS]; s++) {
        uint32_t *at = subgoal_cells(cells, s);
        if (at[SUBGOAL_VARIABLES] == 0 && at[SUBGOAL_FIRST] != 0) {
            at[SUBGOAL_STATE] = 0;
            changed = true;
        }
    }
    return changed;
}

static bool twist_orphans(struct dice *dice, uint32_t *cells)
{
    uint32_t count = 1 + dice_below(dice, 5);
    if (node_room(cells) < count)
        return false;
    cells_fill_random(dice, node_cells(cells, cells[SPACE_NODES]), (size_t)NODE_CELLS * count);
    cells[SPACE_NODES] += count;
    return true;
}

/* 0, or a number above low and up to high. */
static uint32_t zero_or_above(struct dice *dice, uint32_t low, uint32_t high)
{
    return low >= high || dice_one_in(dice, 3) ? 0 : dice_from(dice, low + 1, high);
}

static bool twist_chains(struct dice *dice, uint32_t *cells)
{
    uint32_t answers = cells[SPACE_ANSWERS];
    if (answers == 0)
        return false;
    for (uint32_t a = 1; a <= answers; a++)
        if (dice_one_in(dice, 3))
            answer_cells(cells, a)[ANSWER_NEXT] = zero_or_above(dice, a, answers);
    for (uint32_t s = 1; s <= cells[SPACE_SUBGOALS]; s++) {
        uint32_t *at = subgoal_cells(cells, s);
        bool none = dice_one_in(dice, 4);
        if (!dice_one_in(dice, 3))
            continue;
        at[SUBGOAL_FIRST] = none ? 0 : dice_from(dice, 1, answers);
        at[SUBGOAL_LAST] = none ? 0 : dice_from(dice, 1, answers);
    }
    return true;
}

static bool twist_siblings(struct dice *dice, uint32_t *cells)
{
    uint32_t nodes = cells[SPACE_NODES];
    for (uint32_t n = 0; n < nodes; n++) {
        if (dice_one_in(dice, 4))
            node_cells(cells, n)[NODE_CHILD] = zero_or_above(dice, n, nodes - 1);
        if (dice_one_in(dice, 4))
            node_cells(cells, n)[NODE_SIBLING] = zero_or_above(dice, n, nodes - 1);
    }
    return true;
}

/* Links within both counts. */
static bool twist_links(struct dice *dice, uint32_t *cells)
{
    uint32_t most = cells[SPACE_SUBGOALS];
    most = most < cells[SPACE_ANSWERS] ? most : cells[SPACE_ANSWERS];
    for (uint32_t n = 0; n < cells[SPACE_NODES]; n++)
        if (dice_one_in(dice, 3))
            node_cells(cells, n)[NODE_LINK] = dice_from(dice, 0, most);
    return true;
}

static bool twist_root_tokens(struct dice *dice, uint32_t *cells)
{
    node_cells(cells, 0)[NODE_TOKEN] = dice_word(dice);
    for (uint32_t s = 1; s <= cells[SPACE_SUBGOALS]; s++)
        node_cells(cells, subgoal_cells(cells, s)[SUBGOAL_ROOT])[NODE_TOKEN] = dice_word(dice);
    return true;
}

static bool twist_states(struct dice *dice, uint32_t *cells)
{
    for (uint32_t s = 1; s <= cells[SPACE_SUBGOALS]; s++)
        if (dice_one_in(dice, 2))
            subgoal_cells(cells, s)[SUBGOAL_STATE] ^= 1;
    return cells[SPACE_SUBGOALS] != 0;
}

static bool twist_beyond_counts(struct dice *dice, uint32_t *cells)
{
    uint32_t *free_nodes = node_cells(cells, cells[SPACE_NODES]);
    cells_fill_random(dice, free_nodes, (size_t)NODE_CELLS * node_room(cells));
    return true;
}

/* The answer root of a subgoal without answers is not read. */
static bool twist_unread_root(struct dice *dice, uint32_t *cells)
{
    uint32_t s = some_subgoal(dice, cells);
    if (s == 0 || subgoal_cells(cells, s)[SUBGOAL_FIRST] != 0)
        return false;
    for (uint32_t a = 1; a <= cells[SPACE_ANSWERS]; a++)
        if (answer_cells(cells, a)[ANSWER_SUBGOAL] == s)
            return false;
    cells_fill_random(dice, node_cells(cells, subgoal_cells(cells, s)[SUBGOAL_ROOT]), NODE_CELLS);
    if (dice_one_in(dice, 2))
        subgoal_cells(cells, s)[SUBGOAL_ROOT] = dice_below(dice, cells[SPACE_NODES]);
    return true;
}

static void shuffle(struct dice *dice, uint32_t *numbers, uint32_t count)
{
    for (uint32_t i = 0; i < count; i++)
        numbers[i] = i + 1;
    for (uint32_t i = count; i > 1; i--) {
        uint32_t other = dice_below(dice, i), held = numbers[i - 1];
        numbers[i - 1] = numbers[other];
        numbers[other] = held;
    }
}

/* Chains by number, as calls make them. */
static void chain_again(uint32_t *cells)
{
    for (uint32_t s = 1; s <= cells[SPACE_SUBGOALS]; s++)
        subgoal_cells(cells, s)[SUBGOAL_FIRST] = subgoal_cells(cells, s)[SUBGOAL_LAST] = 0;
    for (uint32_t a = 1; a <= cells[SPACE_ANSWERS]; a++) {
        uint32_t *at = answer_cells(cells, a);
        uint32_t *owner = subgoal_cells(cells, at[ANSWER_SUBGOAL]);
        at[ANSWER_NEXT] = 0;
        if (owner[SUBGOAL_LAST] == 0)
            owner[SUBGOAL_FIRST] = a;
        else
            answer_cells(cells, owner[SUBGOAL_LAST])[ANSWER_NEXT] = a;
        owner[SUBGOAL_LAST] = a;
    }
}

/* Answers numbered anew: the order of siblings is no longer that of numbers. */
static bool twist_answer_numbers(struct dice *dice, uint32_t *cells)
{
    uint32_t count = cells[SPACE_ANSWERS];
    if (count < 2)
        return false;
    uint32_t *numbers = must_have(NULL, count * sizeof *numbers);
    uint32_t *old = cells_copy(answer_cells(cells, 1), (size_t)ANSWER_CELLS * count);
    shuffle(dice, numbers, count);
    for (uint32_t i = 0; i < count; i++) {
        uint32_t *at = answer_cells(cells, numbers[i]);
        memcpy(at, old + (size_t)ANSWER_CELLS * i, ANSWER_CELLS * sizeof *at);
        node_cells(cells, at[ANSWER_LEAF])[NODE_LINK] = numbers[i];
    }
    chain_again(cells);
    free(numbers);
    free(old);
    return true;
}

static bool twist_subgoal_numbers(struct dice *dice, uint32_t *cells)
{
    uint32_t count = cells[SPACE_SUBGOALS];
    if (count < 2)
        return false;
    uint32_t *numbers = must_have(NULL, count * sizeof *numbers);
    uint32_t *old = cells_copy(subgoal_cells(cells, 1), (size_t)SUBGOAL_CELLS * count);
    shuffle(dice, numbers, count);
    for (uint32_t i = 0; i < count; i++) {
        uint32_t *at = subgoal_cells(cells, numbers[i]);
        memcpy(at, old + (size_t)SUBGOAL_CELLS * i, SUBGOAL_CELLS * sizeof *at);
        node_cells(cells, at[SUBGOAL_LEAF])[NODE_LINK] = numbers[i];
    }
    for (uint32_t a = 1; a <= cells[SPACE_ANSWERS]; a++) {
        uint32_t *at = answer_cells(cells, a);
        at[ANSWER_SUBGOAL] = numbers[at[ANSWER_SUBGOAL] - 1];
    }
    free(numbers);
    free(old);
    return true;
}

/* New numbers for nodes: parents and earlier siblings first, answer roots after leaves. */
struct renumbering {
    uint32_t *number; /* of each node */
    uint32_t *root;   /* the answer root of each leaf of a subgoal, else 0 */
    uint32_t *ready;
    uint32_t ready_count, given;
};

static void renumber_ready(struct renumbering *plan, uint32_t node)
{
    if (node != 0)
        plan->ready[plan->ready_count++] = node;
}

static void renumber_node(struct renumbering *plan, uint32_t *cells, uint32_t node)
{
    plan->number[node] = plan->given++;
    renumber_ready(plan, node_cells(cells, node)[NODE_CHILD]);
    renumber_ready(plan, node_cells(cells, node)[NODE_SIBLING]);
    if (plan->root[node] != 0)
        renumber_node(plan, cells, plan->root[node]);
}

static void renumber_plan(struct dice *dice, uint32_t *cells, struct renumbering *plan)
{
    renumber_node(plan, cells, 0);
    while (plan->ready_count != 0) {
        uint32_t pick = dice_below(dice, plan->ready_count);
        uint32_t node = plan->ready[pick];
        plan->ready[pick] = plan->ready[--plan->ready_count];
        renumber_node(plan, cells, node);
    }
}

static void renumber_fields(uint32_t *cells, const uint32_t *number)
{
    for (uint32_t s = 1; s <= cells[SPACE_SUBGOALS]; s++) {
        uint32_t *at = subgoal_cells(cells, s);
        at[SUBGOAL_LEAF] = number[at[SUBGOAL_LEAF]];
        at[SUBGOAL_ROOT] = number[at[SUBGOAL_ROOT]];
    }
    for (uint32_t a = 1; a <= cells[SPACE_ANSWERS]; a++) {
        uint32_t *at = answer_cells(cells, a);
        at[ANSWER_LEAF] = number[at[ANSWER_LEAF]];
    }
}

static bool twist_node_numbers(struct dice *dice, uint32_t *cells)
{
    uint32_t count = cells[SPACE_NODES];
    uint32_t *room = must_have(NULL, 3 * (size_t)count * sizeof *room);
    uint32_t *old = cells_copy(node_cells(cells, 0), (size_t)NODE_CELLS * count);
    struct renumbering plan = {room, room + count, room + 2 * (size_t)count, 0, 0};
    memset(room, 0, 3 * (size_t)count * sizeof *room);
    for (uint32_t s = 1; s <= cells[SPACE_SUBGOALS]; s++)
        plan.root[subgoal_cells(cells, s)[SUBGOAL_LEAF]] = subgoal_cells(cells, s)[SUBGOAL_ROOT];
    renumber_plan(dice, cells, &plan);
    for (uint32_t n = 0; n < count; n++) {
        const uint32_t *from = old + (size_t)NODE_CELLS * n;
        uint32_t *at = node_cells(cells, plan.number[n]);
        at[NODE_TOKEN] = from[NODE_TOKEN];
        at[NODE_CHILD] = plan.number[from[NODE_CHILD]];
        at[NODE_SIBLING] = plan.number[from[NODE_SIBLING]];
        at[NODE_PARENT] = plan.number[from[NODE_PARENT]];
        at[NODE_LINK] = from[NODE_LINK];
    }
    renumber_fields(cells, plan.number);
    free(room);
    free(old);
    return true;
}

/* Two subgoals share an answer root and a leaf of an answer: two answers, not alike. */
static bool twist_shared_root(struct dice *dice, uint32_t *cells)
{
    uint32_t a = some_answer(dice, cells), form[2] = {0x40fff0e1 - 16 * dice_below(dice, 9)};
    if (a == 0)
        return false;
    uint32_t owner = answer_cells(cells, a)[ANSWER_SUBGOAL];
    uint32_t variables = subgoal_cells(cells, owner)[SUBGOAL_VARIABLES], leaf = 0;
    for (uint32_t i = 0; i + 1 < variables; i++)
        leaf = append_path(cells, leaf, (uint32_t[]){0x40ffff72, 0x10000000 + i}, 2);
    form[1] = variables == 0 ? 0x20000000 : 0x10000000 + variables - 1;
    leaf = append_path(cells, leaf, form, 2);
    uint32_t root = subgoal_cells(cells, owner)[SUBGOAL_ROOT];
    uint32_t s = leaf == 0 ? 0 : append_subgoal(cells, leaf, root, variables);
    return s != 0 && append_answer(cells, answer_cells(cells, a)[ANSWER_LEAF], s) != 0;
}

/* Answers dropped from the count, their nodes left over; the chains are put right. */
static bool twist_drop_answers(struct dice *dice, uint32_t *cells)
{
    if (cells[SPACE_ANSWERS] == 0)
        return false;
    cells[SPACE_ANSWERS] -= dice_from(dice, 1, cells[SPACE_ANSWERS]);
    chain_again(cells);
    return true;
}

/* The last subgoal dropped, where it has no answers. */
static bool twist_drop_subgoal(struct dice *dice, uint32_t *cells)
{
    uint32_t last = cells[SPACE_SUBGOALS];
    (void)dice;
    if (last == 0 || subgoal_cells(cells, last)[SUBGOAL_FIRST] != 0)
        return false;
    cells[SPACE_SUBGOALS]--;
    return true;
}

/* A subgoal that could not be called: nothing is asked of its first token. */
static bool twist_first_token(struct dice *dice, uint32_t *cells)
{
    static const struct {
        uint32_t variables, count, form[6];
    } cases[] = {
        {0, 1, {0x3ffffffe}},
        {1, 1, {0x10000000}},
        {0, 3, {0x60000000, 0x70000000, 0x20000000}},
        {1, 4, {0x60000000, 0x10000000, 0x80000000, 0x3ffffff0}},
        {2, 4, {0x60000000, 0x10000000, 0x80000000, 0x10000001}},
    };
    uint32_t pick = dice_below(dice, sizeof cases / sizeof *cases);
    uint32_t leaf = append_path(cells, 0, cases[pick].form, cases[pick].count);
    uint32_t root = leaf == 0 ? 0 : append_root(cells);
    return root != 0 && append_subgoal(cells, leaf, root, cases[pick].variables) != 0;
}

/* Forms at the edge of what is legal, as paths of records of their own. */

struct crafted {
    uint32_t variables; /* as recorded, of a subgoal; terms, of an answer */
    bool legal;
    uint32_t count, form[8];
};

static bool craft_subgoal(uint32_t *cells, const uint32_t *form, size_t count, uint32_t variables)
{
    uint32_t leaf = append_path(cells, 0, form, count);
    uint32_t root = leaf == 0 && count != 0 ? 0 : append_root(cells);
    return root != 0 && append_subgoal(cells, leaf, root, variables) != 0;
}

/* A new subgoal of so many variables, at most 32, that calls did not enter; 0 without room. */
static uint32_t craft_owner(uint32_t *cells, uint32_t variables)
{
    uint32_t form[2 * TABLES_TERM_VARIABLES + 2], count = 0;
    for (uint32_t i = 0; i < variables; i++) {
        form[count++] = 0x40ffff52;
        form[count++] = 0x10000000 + i;
    }
    form[count++] = 0x2ffffff1;
    return craft_subgoal(cells, form, count, variables) ? cells[SPACE_SUBGOALS] : 0;
}

static bool craft_answer(uint32_t *cells, const uint32_t *form, size_t count, uint32_t terms)
{
    uint32_t owner = craft_owner(cells, terms);
    if (owner == 0)
        return false;
    uint32_t leaf = append_path(cells, subgoal_cells(cells, owner)[SUBGOAL_ROOT], form, count);
    return leaf != 0 && append_answer(cells, leaf, owner) != 0;
}

/* Node 0 as an answer root is in range, and no damage by itself. */
static bool twist_root_zero(struct dice *dice, uint32_t *cells)
{
    uint32_t terms = dice_below(dice, 2), form = 0x2ffffff2;
    uint32_t owner = craft_owner(cells, terms);
    uint32_t leaf = owner == 0 ? 0 : append_path(cells, 0, &form, terms);
    if (owner == 0 || (leaf == 0 && terms != 0))
        return false;
    subgoal_cells(cells, owner)[SUBGOAL_ROOT] = 0;
    return append_answer(cells, leaf, owner) != 0;
}

static const struct crafted crafted_subgoals[] = {
    {0, false, 0, {0}},
    {0, false, 3, {0x60000000, 0x80000000, 0x30000001}},
    {0, false, 4, {0x60000000, 0x30000001, 0x80000000, 0x20000000}},
    {0, false, 5, {0x60000000, 0x30000001, 0x80000000, 0x60000000, 0x70000000}},
    {0, false, 6, {0x60000000, 0x30000001, 0x80000000, 0x60000000, 0x70000000, 0x30000002}},
    {0, false, 2, {0x60000000, 0x70000000}},
    {0, false, 1, {0x60000000}},
    {0, false, 2, {0x60000000, 0x3ffffff1}},
    {0, false, 3, {0x60000000, 0x70000001, 0x3ffffff1}},
    {0, false, 3, {0x60000001, 0x70000000, 0x3ffffff1}},
    {0, false, 3, {0x50000000, 0x3ffffff1, 0x3ffffff1}},
    {0, false, 2, {0x70000000, 0x3ffffff1}},
    {0, false, 1, {0x00000000}},
    {0, false, 1, {0x90000000}},
    {0, false, 1, {0xf0000001}},
    {0, false, 1, {0x80000000}},
    {0, false, 1, {0x40ffff10}},
    {0, false, 2, {0x40ffff10, 0x2ffffff0}},
    {0, false, 2, {0x2ffffff0, 0x2ffffff0}},
    {0, false, 2, {0x40ffff12, 0x2ffffff0}},
    {1, false, 2, {0x40ffff11, 0x10000001}},
    {0, false, 2, {0x40ffff11, 0x10000000}},
    {2, false, 2, {0x40ffff11, 0x10000000}},
    {1, false, 1, {0x2ffffff0}},
    {2, false, 3, {0x40ffff12, 0x10000001, 0x10000000}},
    {2, false, 3, {0x40ffff12, 0x10000000, 0x10000002}},
    {1, true, 3, {0x40ffff12, 0x10000000, 0x10000000}},
    {2, true, 3, {0x40ffff12, 0x10000000, 0x10000001}},
    {0, true, 3, {0x60000000, 0x70000000, 0x3ffffff1}},
    {0, true, 5, {0x60000000, 0x70000000, 0x60000000, 0x70000000, 0x3ffffff1}},
    {0, true, 4, {0x60000000, 0x20000000, 0x80000000, 0x3ffffff1}},
    {0, true, 2, {0x40ffff11, 0x2fffffff}},
};

static const struct crafted crafted_answers[] = {
    {2, true, 2, {0x10000000, 0x10000000}},
    {2, true, 2, {0x10000000, 0x10000001}},
    {2, true, 4, {0x60000000, 0x70000000, 0x10000000, 0x10000001}},
    {1, true, 2, {0x40ffff11, 0x10000000}},
    {2, false, 2, {0x10000001, 0x10000000}},
    {2, false, 2, {0x10000000, 0x10000002}},
    {2, false, 1, {0x10000000}},
    {2, false, 3, {0x10000000, 0x10000000, 0x10000000}},
    {1, false, 2, {0x10000000, 0x10000001}},
    {0, false, 1, {0x10000000}},
    {0, false, 1, {0x20000000}},
    {1, false, 1, {0x00000000}},
    {1, false, 1, {0x60000000}},
    {2, false, 3, {0x60000000, 0x10000000, 0x10000001}},
    {3, true, 5, {0x60000000, 0x70000000, 0x10000000, 0x10000001, 0x10000000}},
};

static bool twist_crafted(struct dice *dice, uint32_t *cells, bool legal)
{
    bool of_answer = dice_one_in(dice, 2);
    const struct crafted *list = of_answer ? crafted_answers : crafted_subgoals;
    size_t count = of_answer ? sizeof crafted_answers / sizeof *list
                             : sizeof crafted_subgoals / sizeof *list;
    const struct crafted *pick;
    do
        pick = &list[dice_below(dice, (uint32_t)count)];
    while (pick->legal != legal);
    return of_answer ? craft_answer(cells, pick->form, pick->count, pick->variables)
                     : craft_subgoal(cells, pick->form, pick->count, pick->variables);
}

static bool twist_crafted_legal(struct dice *dice, uint32_t *cells)
{
    return twist_crafted(dice, cells, true);
}

static bool twist_crafted_illegal(struct dice *dice, uint32_t *cells)
{
    return twist_crafted(dice, cells, false);
}

/* So many atoms, one after another, as terms; or as one list that ends in []. */
static size_t atoms_form(uint32_t *form, uint32_t count, bool as_list)
{
    size_t at = 0;
    if (as_list)
        form[at++] = 0x60000000;
    for (uint32_t i = 0; i < count; i++) {
        if (as_list && i + 1 == count)
            form[at++] = 0x70000000;
        form[at++] = 0x2ffffe00 + i % 3;
    }
    return at;
}

/* A list of n atoms is 2n + 1 cells: 255 with 127; f/1 of it 256; f/2 of it and an atom 257. */
static bool craft_long_subgoal(struct dice *dice, uint32_t *cells, bool legal)
{
    uint32_t form[FORM_ROOM];
    (void)dice;
    form[0] = legal ? 0x40ffff31 : 0x40ffff32;
    size_t count = 1 + atoms_form(form + 1, 127, true);
    if (!legal)
        form[count++] = 0x20000001;
    return craft_subgoal(cells, form, count, 0);
}

/* An answer of two terms, 255 cells and 1 or 2. */
static bool craft_long_answer(struct dice *dice, uint32_t *cells, bool legal)
{
    uint32_t form[FORM_ROOM];
    size_t count = 0;
    bool before = dice_one_in(dice, 2);
    if (before)
        form[count++] = 0x20000001;
    count += atoms_form(form + count, 127, true);
    if (!before)
        form[count++] = 0x20000001;
    if (!legal) {
        memmove(form + 1, form, count * sizeof *form);
        form[0] = 0x40000011;
        count++;
    }
    return craft_answer(cells, form, count, 2);
}

/* f/1 over a list of a list of a list ..: 383 tokens are legal, and no form of 384 is. */
static bool craft_deep_subgoal(struct dice *dice, uint32_t *cells, bool legal)
{
    uint32_t form[FORM_ROOM + 8], count = 0;
    (void)dice;
    form[count++] = 0x40ffff41;
    if (!legal)
        form[count++] = 0x40ffff41;
    for (uint32_t i = 0; i < 127; i++)
        form[count++] = 0x60000000;
    form[count++] = 0x30000001;
    for (uint32_t i = 0; i < 127; i++) {
        form[count++] = 0x80000000;
        form[count++] = 0x30000001;
    }
    return craft_subgoal(cells, form, count, 0);
}

/* 32 or 33 variables, in a subgoal (33 cannot be recorded truly) or in an answer. */
static bool craft_variables(struct dice *dice, uint32_t *cells, bool legal)
{
    uint32_t form[80], count = 0, most = legal ? 32 : 33;
    bool of_answer = dice_one_in(dice, 2);
    for (uint32_t i = 0; i < most; i++) {
        form[count++] = 0x40ffff62;
        form[count++] = 0x10000000 + i;
    }
    form[count++] = 0x20000002;
    return of_answer ? craft_answer(cells, form, count, 1)
                     : craft_subgoal(cells, form, count, dice_one_in(dice, 2) ? most : 32);
}

static bool twist_edge(struct dice *dice, uint32_t *cells, bool legal)
{
    switch (dice_below(dice, 4)) {
    case 0:
        return craft_long_subgoal(dice, cells, legal);
    case 1:
        return craft_long_answer(dice, cells, legal);
    case 2:
        return craft_deep_subgoal(dice, cells, legal);
    default:
        return craft_variables(dice, cells, legal);
    }
}

static bool twist_edge_legal(struct dice *dice, uint32_t *cells)
{
    return twist_edge(dice, cells, true);
}

static bool twist_edge_illegal(struct dice *dice, uint32_t *cells)
{
    return twist_edge(dice, cells, false);
}

/* A name too large for edition 2 that loses its upper bits would be another subgoal's: 18. */
static bool twist_folded_name(struct dice *dice, uint32_t *cells)
{
    uint32_t form[FORM_ROOM], s = some_subgoal(dice, cells);
    if (s == 0)
        return false;
    size_t count = spelled(cells, subgoal_cells(cells, s)[SUBGOAL_LEAF], form);
    if (TABLES_KIND(form[0]) != TABLES_FUNCTOR)
        return false;
    form[0] += 1048576 * 16;
    return craft_subgoal(cells, form, count, subgoal_cells(cells, s)[SUBGOAL_VARIABLES]);
}

/* Twists after which the source must be refused by 9. */

static bool twist_one_leaf(struct dice *dice, uint32_t *cells)
{
    uint32_t s = some_subgoal(dice, cells);
    if (s == 0)
        return false;
    const uint32_t *at = subgoal_cells(cells, s);
    uint32_t root = dice_one_in(dice, 2) ? at[SUBGOAL_ROOT] : append_root(cells);
    return root != 0 &&
           append_subgoal(cells, at[SUBGOAL_LEAF], root, at[SUBGOAL_VARIABLES]) != 0;
}

static bool twist_subgoal_spelled_twice(struct dice *dice, uint32_t *cells)
{
    uint32_t form[FORM_ROOM], s = some_subgoal(dice, cells);
    if (s == 0)
        return false;
    size_t count = spelled(cells, subgoal_cells(cells, s)[SUBGOAL_LEAF], form);
    return craft_subgoal(cells, form, count, subgoal_cells(cells, s)[SUBGOAL_VARIABLES]);
}

static bool twist_answer_spelled_twice(struct dice *dice, uint32_t *cells)
{
    uint32_t form[FORM_ROOM], a = some_answer(dice, cells);
    if (a == 0)
        return false;
    uint32_t owner = answer_cells(cells, a)[ANSWER_SUBGOAL];
    size_t count = spelled(cells, answer_cells(cells, a)[ANSWER_LEAF], form);
    uint32_t leaf = append_path(cells, subgoal_cells(cells, owner)[SUBGOAL_ROOT], form, count);
    return leaf != 0 && append_answer(cells, leaf, owner) != 0;
}

static bool twist_answer_leaf_twice(struct dice *dice, uint32_t *cells)
{
    uint32_t a = some_answer(dice, cells);
    return a != 0 && append_answer(cells, answer_cells(cells, a)[ANSWER_LEAF],
                                   answer_cells(cells, a)[ANSWER_SUBGOAL]) != 0;
}

/* A number out of range: just above the most, or any. */
static uint32_t beyond(struct dice *dice, uint32_t most)
{
    return dice_one_in(dice, 2) ? most + 1 : most + 1 + dice_below(dice, UINT32_MAX - most);
}

static bool twist_bad_subgoal(struct dice *dice, uint32_t *cells)
{
    uint32_t s = some_subgoal(dice, cells);
    if (s == 0)
        return false;
    uint32_t *at = subgoal_cells(cells, s);
    switch (dice_below(dice, 8)) {
    case 0:
        at[SUBGOAL_LEAF] = beyond(dice, cells[SPACE_NODES] - 1);
        break;
    case 1:
        at[SUBGOAL_ROOT] = beyond(dice, cells[SPACE_NODES] - 1);
        break;
    case 2:
        at[SUBGOAL_VARIABLES] = beyond(dice, at[SUBGOAL_VARIABLES]);
        break;
    case 3:
        at[SUBGOAL_STATE] = beyond(dice, 1);
        break;
    case 4:
        at[SUBGOAL_FIRST] = beyond(dice, cells[SPACE_ANSWERS]);
        break;
    case 5:
        at[SUBGOAL_LAST] = beyond(dice, cells[SPACE_ANSWERS]);
        break;
    case 6:
        at[SUBGOAL_FIRST] = at[SUBGOAL_LAST] == 0 ? cells[SPACE_ANSWERS] : 0;
        return at[SUBGOAL_FIRST] != at[SUBGOAL_LAST];
    default:
        at[SUBGOAL_LEAF] = at[SUBGOAL_ROOT];
        break;
    }
    return true;
}

static bool twist_bad_answer(struct dice *dice, uint32_t *cells)
{
    uint32_t a = some_answer(dice, cells);
    if (a == 0)
        return false;
    uint32_t *at = answer_cells(cells, a);
    switch (dice_below(dice, 6)) {
    case 0:
        at[ANSWER_LEAF] = beyond(dice, cells[SPACE_NODES] - 1);
        break;
    case 1:
        at[ANSWER_SUBGOAL] = 0;
        break;
    case 2:
        at[ANSWER_SUBGOAL] = beyond(dice, cells[SPACE_SUBGOALS]);
        break;
    case 3:
        at[ANSWER_NEXT] = dice_from(dice, 1, a);
        break;
    case 4:
        at[ANSWER_NEXT] = beyond(dice, cells[SPACE_ANSWERS]);
        break;
    default:
        at[ANSWER_LEAF] = subgoal_cells(cells, at[ANSWER_SUBGOAL])[SUBGOAL_LEAF];
        break;
    }
    return true;
}

/* A node on the way from a leaf to its root, both included. */
static uint32_t node_on_path(struct dice *dice, uint32_t *cells, uint32_t leaf)
{
    uint32_t node = leaf;
    while (node_cells(cells, node)[NODE_PARENT] != node && !dice_one_in(dice, 4))
        node = node_cells(cells, node)[NODE_PARENT];
    return node;
}

static bool twist_bad_node(struct dice *dice, uint32_t *cells)
{
    uint32_t a = some_answer(dice, cells), s = some_subgoal(dice, cells), leaf, links;
    if (s == 0)
        return false;
    bool of_answer = a != 0 && dice_one_in(dice, 2);
    leaf = of_answer ? answer_cells(cells, a)[ANSWER_LEAF] : subgoal_cells(cells, s)[SUBGOAL_LEAF];
    links = of_answer ? cells[SPACE_ANSWERS] : cells[SPACE_SUBGOALS];
    uint32_t node = node_on_path(dice, cells, leaf);
    uint32_t *at = node_cells(cells, node);
    switch (dice_below(dice, 7)) {
    case 0:
        at[NODE_CHILD] = beyond(dice, cells[SPACE_NODES] - 1);
        break;
    case 1:
        at[NODE_SIBLING] = beyond(dice, cells[SPACE_NODES] - 1);
        break;
    case 2:
        at[NODE_CHILD] = node;
        return node != 0;
    case 3:
        at[NODE_SIBLING] = node == 0 ? 0 : dice_from(dice, 1, node);
        return node != 0;
    case 4:
        at[NODE_PARENT] = beyond(dice, node);
        break;
    case 5:
        at[NODE_LINK] = beyond(dice, links);
        break;
    default:
        if (at[NODE_PARENT] == node)
            return false;
        at[NODE_PARENT] = node;
        break;
    }
    return true;
}

/* Running the twists. */

struct named_twist {
    const char *name;
    twist apply;
    int due;
};

/* These need a sound source. */
static const struct named_twist first_twists[] = {
    {"answers numbered anew", twist_answer_numbers, 0},
    {"subgoals numbered anew", twist_subgoal_numbers, 0},
    {"nodes numbered anew", twist_node_numbers, 0},
    {"answers dropped", twist_drop_answers, 0},
    {"a subgoal dropped", twist_drop_subgoal, 0},
};

/* These may follow each other. */
static const struct named_twist carried_twists[] = {
    {"an open ground subgoal with its answer", twist_open_ground, 0},
    {"orphan nodes", twist_orphans, 0},
    {"broken chains of answers", twist_chains, 0},
    {"broken chains of siblings", twist_siblings, 0},
    {"links to other records", twist_links, 0},
    {"tokens at roots", twist_root_tokens, 0},
    {"other states", twist_states, 0},
    {"cells beyond the counts", twist_beyond_counts, 0},
    {"a root that is not read", twist_unread_root, 0},
};

/* These enter a record by hand, and stand alone. */
static const struct named_twist lone_twists[] = {
    {"a shared answer root", twist_shared_root, 0},
    {"node 0 as an answer root", twist_root_zero, 0},
    {"a subgoal that could not be called", twist_first_token, 0},
    {"a legal form by hand", twist_crafted_legal, 0},
    {"a longest form by hand", twist_edge_legal, 0},
    {"a name that folds onto another", twist_folded_name, 18},
};

static const struct named_twist refused_twists[] = {
    {"two subgoals with one leaf", twist_one_leaf, 9},
    {"a subgoal spelled twice", twist_subgoal_spelled_twice, 9},
    {"an answer spelled twice", twist_answer_spelled_twice, 9},
    {"two answers with one leaf", twist_answer_leaf_twice, 9},
    {"a damaged subgoal", twist_bad_subgoal, 9},
    {"a damaged answer", twist_bad_answer, 9},
    {"a damaged node", twist_bad_node, 9},
    {"an illegal form by hand", twist_crafted_illegal, 9},
    {"a form too long by hand", twist_edge_illegal, 9},
};

#define COUNT(list) ((uint32_t)(sizeof(list) / sizeof *(list)))

static void run_alone(struct test *test, struct source *source, const struct named_twist *list,
                      uint32_t count)
{
    for (uint32_t i = 0; i < count; i++) {
        uint32_t *cells = cells_copy(source->cells, source->count);
        if (list[i].apply(&test->dice, cells))
            carry_twisted(test, source, cells, list[i].name, list[i].due);
        free(cells);
    }
}

/* Several twists on one source; with a refused one after them, the refusal comes. */
static void run_together(struct test *test, struct source *source)
{
    struct dice *dice = &test->dice;
    uint32_t *cells = cells_copy(source->cells, source->count);
    if (dice_one_in(dice, 2))
        first_twists[dice_below(dice, COUNT(first_twists))].apply(dice, cells);
    for (uint32_t i = dice_below(dice, 4); i != 0; i--) {
        uint32_t pick = dice_below(dice, COUNT(carried_twists));
        if (carried_twists[pick].apply != twist_unread_root)
            carried_twists[pick].apply(dice, cells);
    }
    carry_twisted(test, source, cells, "several twists", 0);
    free(cells);
}

/* Any cell of the records used, or of the header, becomes something else. */
static uint32_t *some_cell(struct dice *dice, uint32_t *cells)
{
    uint32_t s = some_subgoal(dice, cells), a = some_answer(dice, cells);
    switch (dice_below(dice, 10)) {
    case 0:
        return cells + dice_below(dice, SPACE_HEADER_CELLS);
    case 1:
    case 2:
    case 3:
        if (s != 0)
            return subgoal_cells(cells, s) + dice_below(dice, SUBGOAL_CELLS);
        break;
    case 4:
    case 5:
    case 6:
        if (a != 0)
            return answer_cells(cells, a) + dice_below(dice, ANSWER_CELLS);
        break;
    default:
        break;
    }
    return node_cells(cells, dice_below(dice, cells[SPACE_NODES])) + dice_below(dice, NODE_CELLS);
}

static uint32_t other_value(struct dice *dice, uint32_t *cells, uint32_t value)
{
    switch (dice_below(dice, 8)) {
    case 0:
        return dice_word(dice);
    case 1:
        return value + 1;
    case 2:
        return value - 1;
    case 3:
        return 0;
    case 4:
        return dice_below(dice, cells[SPACE_NODES] + 2);
    case 5:
        return dice_below(dice, cells[SPACE_ANSWERS] + 2);
    case 6:
        return dice_below(dice, cells[SPACE_SUBGOALS] + 2);
    default:
        return *some_cell(dice, cells);
    }
}

/* Records and header changed at random; the model alone says what is due. */
static void run_random(struct test *test, struct source *source)
{
    struct dice *dice = &test->dice;
    uint32_t *cells = cells_copy(source->cells, source->count);
    uint32_t changes = dice_from(dice, 1, 3), values[3], *places[3];
    for (uint32_t i = 0; i < changes; i++) {
        places[i] = some_cell(dice, cells);
        values[i] = other_value(dice, cells, *places[i]);
    }
    for (uint32_t i = 0; i < changes; i++)
        *places[i] = values[i];
    struct copy copy = copy_ample(test, source->cells, source->count);
    copy.source = cells;
    if (dice_one_in(dice, 10))
        copy.source_count = dice_below(dice, (uint32_t)source->count + 1);
    carry_and_forget(test, &copy, "cells changed at random", -1);
    free(cells);
}

/* The same token on other nodes: other forms, two of them perhaps alike. */
static void run_tokens(struct test *test, struct source *source)
{
    struct dice *dice = &test->dice;
    uint32_t *cells = cells_copy(source->cells, source->count);
    for (uint32_t i = dice_from(dice, 1, 2); i != 0; i--) {
        uint32_t *from = node_cells(cells, dice_below(dice, cells[SPACE_NODES]));
        uint32_t *to = node_cells(cells, dice_below(dice, cells[SPACE_NODES]));
        to[NODE_TOKEN] = from[NODE_TOKEN];
    }
    carry_twisted(test, source, cells, "tokens of other nodes", -1);
    free(cells);
}

/* The order of refusals. */

static void spoil_header(struct dice *dice, struct copy *copy)
{
    uint32_t *cells = copy->source;
    switch (dice_below(dice, 9)) {
    case 0:
        copy->source_count = cells[SPACE_END] - 1;
        break;
    case 1:
        copy->source_count = dice_below(dice, 8);
        break;
    case 2:
        cells[SPACE_NODES] = dice_one_in(dice, 2) ? 0 : (cells[SPACE_SUBGOAL_OFFSET] - 8) / 5 + 1;
        break;
    case 3:
        cells[SPACE_ANSWERS] = (cells[SPACE_END] - cells[SPACE_ANSWER_OFFSET]) / 3 + 1;
        break;
    case 4:
        cells[SPACE_NODE_OFFSET] = dice_one_in(dice, 2) ? 13 : 0;
        break;
    case 5:
        cells[SPACE_SUBGOAL_OFFSET] += dice_from(dice, 1, 4);
        break;
    case 6:
        cells[SPACE_END] += dice_one_in(dice, 2) ? 1 : 30;
        break;
    default:
        cells[SPACE_EDITION] = dice_one_in(dice, 3) ? dice_from(dice, 3, 5) % 5 : 2;
        break;
    }
}

static void spoil_capacity(struct dice *dice, struct copy *copy)
{
    uint32_t large = dice_one_in(dice, 2) ? 1048577 : beyond(dice, 1048576);
    switch (dice_below(dice, 5)) {
    case 0:
        copy->nodes = 0;
        break;
    case 1:
        copy->nodes = large;
        break;
    case 2:
        copy->subgoals = large;
        break;
    case 3:
        copy->answers = large;
        break;
    default:
        copy->target_count =
            TABLES_SPACE_CELLS(copy->nodes, copy->subgoals, copy->answers) - 1;
        if (dice_one_in(dice, 4))
            copy->target_count = dice_below(dice, (uint32_t)copy->target_count);
        break;
    }
}

/* One capacity becomes one less than is needed; false where none can. */
static bool shrink_capacity(struct dice *dice, struct copy *copy, const struct table *needed)
{
    uint32_t *capacity[3] = {&copy->nodes, &copy->subgoals, &copy->answers};
    uint32_t used[3] = {needed->node_count, needed->subgoal_count, needed->answer_count};
    uint32_t pick = dice_below(dice, 3);
    if (used[pick] < (pick == 0 ? 2u : 1u))
        return false;
    *capacity[pick] = dice_one_in(dice, 4) ? dice_below(dice, used[pick] - 1) + (pick == 0)
                                           : used[pick] - 1;
    return *capacity[pick] < used[pick];
}

static bool add_large_name(struct dice *dice, uint32_t *cells)
{
    static const uint32_t names[] = {1048576, 1048577, 16777215};
    uint32_t functor = tables_functor_cell(1, names[dice_below(dice, 3)], 1);
    if (dice_one_in(dice, 2))
        return craft_answer(cells, (uint32_t[]){functor, 0x10000000}, 2, 1);
    return craft_subgoal(cells, (uint32_t[]){functor, 0x10000000}, 2, 1);
}

/* The refusals in their order, each with its condition in run_order. */
enum condition {
    BAD_HEADER = 1,
    BAD_CAPACITY = 2,
    DAMAGED = 4,
    LARGE_NAME = 8,
    TOO_SMALL = 16
};

static int first_refusal(uint32_t conditions)
{
    static const int refusals[] = {1, 2, 9, 18, 19};
    for (uint32_t i = 0; i < COUNT(refusals); i++)
        if (conditions >> i & 1)
            return refusals[i];
    return 0;
}

/* What the copy of a source that loads needs. */
static void read_needed(struct test *test, struct copy *copy, struct table *needed)
{
    struct reading reading = {.cells = copy->source};
    table_fresh(needed, UINT32_MAX, UINT32_MAX, UINT32_MAX, 1);
    bool read = header_read(copy->source, copy->source_count, &reading.header) &&
                source_read(&reading, needed);
    tally_check(&test->tally, read, "round %llu: the model does not read a source made by calls",
                (unsigned long long)test->round);
    copy->nodes = needed->node_count;
    copy->subgoals = needed->subgoal_count;
    copy->answers = needed->answer_count;
}

/* Makes the conditions hold; false where this source cannot. */
static bool set_conditions(struct test *test, struct copy *copy, uint32_t conditions)
{
    struct dice *dice = &test->dice;
    struct table needed;
    bool possible = true;
    if (conditions & LARGE_NAME && !add_large_name(dice, copy->source))
        return false;
    read_needed(test, copy, &needed);
    if (conditions & TOO_SMALL)
        possible = shrink_capacity(dice, copy, &needed);
    table_free(&needed);
    copy->target_count = TABLES_SPACE_CELLS(copy->nodes, copy->subgoals, copy->answers);
    if (conditions & DAMAGED)
        possible &= refused_twists[dice_below(dice, COUNT(refused_twists))].apply(dice,
                                                                                 copy->source);
    if (conditions & BAD_CAPACITY)
        spoil_capacity(dice, copy);
    if (conditions & BAD_HEADER)
        spoil_header(dice, copy);
    return possible;
}

/* Each of the five conditions or not: the first that holds is the refusal. */
static void run_order(struct test *test, struct source *source, uint32_t conditions)
{
    uint32_t *cells = cells_copy(source->cells, source->count);
    struct copy copy = {.source = cells, .source_count = source->count};
    if (set_conditions(test, &copy, conditions))
        carry_and_forget(test, &copy, "the order of refusals", first_refusal(conditions));
    free(cells);
}

/* Rounds. */

/* Capacities that are exact, larger, or those of the source. */
static struct copy copy_of_whole(struct test *test, struct source *source, uint32_t sort)
{
    struct copy copy = {.source = source->cells, .source_count = source->count};
    const struct table *table = &source->table;
    copy.nodes = sort == 0 ? table->node_count : table->most_nodes;
    copy.subgoals = sort == 0 ? table->subgoal_count : table->most_subgoals;
    copy.answers = sort == 0 ? table->answer_count : table->most_answers;
    if (sort == 2) {
        copy.nodes += dice_below(&test->dice, 50);
        copy.answers += dice_below(&test->dice, 5);
    }
    copy.target_count = TABLES_SPACE_CELLS(copy.nodes, copy.subgoals, copy.answers) +
                        (sort == 0 ? 0 : dice_below(&test->dice, 9));
    return copy;
}

/* A source with names that edition 2 has not, and one of edition 2. */
static void run_other_sources(struct test *test)
{
    struct taste taste = taste_random(&test->dice, 1);
    struct source source;
    taste.large_names = true;
    source_make(test, &taste, dice_from(&test->dice, 5, 60), false, &source);
    struct copy copy = copy_ample(test, source.cells, source.count);
    carry_and_forget(test, &copy, "a source with large names", -1);
    copy.nodes = dice_from(&test->dice, 1, source.table.node_count);
    carry_and_forget(test, &copy, "a source with large names, few nodes", -1);
    source_free(&source);

    taste = taste_random(&test->dice, 2);
    source_make(test, &taste, dice_from(&test->dice, 0, 30), false, &source);
    copy = copy_ample(test, source.cells, source.count);
    carry_and_forget(test, &copy, "a source of edition 2", 1);
    source_free(&source);
}

static void run_round(struct test *test)
{
    struct taste taste = taste_random(&test->dice, 1);
    struct source source;
    taste.bulk = dice_one_in(&test->dice, 3);
    source_make(test, &taste, dice_below(&test->dice, 90), dice_one_in(&test->dice, 3), &source);
    for (uint32_t sort = 0; sort < 3; sort++) {
        struct copy copy = copy_of_whole(test, &source, sort);
        carry_and_go_on(test, &source, &copy);
    }
    run_alone(test, &source, first_twists, COUNT(first_twists));
    run_alone(test, &source, carried_twists, COUNT(carried_twists));
    run_alone(test, &source, lone_twists, COUNT(lone_twists));
    run_alone(test, &source, refused_twists, COUNT(refused_twists));
    for (int i = 0; i < 3; i++)
        run_together(test, &source);
    for (int i = 0; i < 30; i++)
        run_random(test, &source);
    for (int i = 0; i < 6; i++)
        run_tokens(test, &source);
    for (uint32_t conditions = 0; conditions < 32; conditions++)
        run_order(test, &source, conditions);
    source_free(&source);
    run_other_sources(test);
}

/* Many records, so that chains are long and nodes have many children. */
static void run_big(struct test *test)
{
    struct taste taste = {.edition = 1, .atoms = 900, .predicates = 6, .most_cells = 8};
    struct source source;
    taste.bulk = true;
    source_make(test, &taste, 3000, false, &source);
    struct copy copy = copy_of_whole(test, &source, 1);
    carry_and_go_on(test, &source, &copy);
    run_alone(test, &source, first_twists, COUNT(first_twists));
    run_alone(test, &source, carried_twists, 5);
    run_alone(test, &source, refused_twists, COUNT(refused_twists));
    source_free(&source);
}

static void run_forms(struct test *test, struct source *source, const struct crafted *list,
                      size_t count, bool of_answer)
{
    for (size_t i = 0; i < count; i++) {
        const struct crafted *form = &list[i];
        uint32_t *cells = cells_copy(source->cells, source->count);
        bool room = of_answer ? craft_answer(cells, form->form, form->count, form->variables)
                              : craft_subgoal(cells, form->form, form->count, form->variables);
        tally_check(&test->tally, room, "no room for form %zu by hand", i);
        carry_twisted(test, source, cells, of_answer ? "an answer by hand" : "a subgoal by hand",
                      form->legal ? 0 : 9);
        free(cells);
    }
}

/* Every form by hand, once. */
static void run_every_form(struct test *test)
{
    struct taste taste = {.edition = 1, .atoms = 4, .predicates = 4, .most_cells = 8};
    struct source source;
    source_make(test, &taste, 20, false, &source);
    run_forms(test, &source, crafted_subgoals, COUNT(crafted_subgoals), false);
    run_forms(test, &source, crafted_answers, COUNT(crafted_answers), true);
    source_free(&source);
}

/*
 * A copy written out by hand: p(X) with the answers 5 and, later, integer 3, and between them
 * the ground subgoal q with its answer. In the target q's nodes come before the answers'.
 */
static void run_worked(struct test *test)
{
    static const uint32_t due[70] = {
        2, 8, 2, 3, 8, 48, 60, 69,
        0, 1, 0, 0, 0,
        0x40000101, 2, 4, 0, 0,
        0x10000000, 0, 0, 1, 1,
        0, 6, 0, 3, 0,
        0x20000007, 0, 0, 0, 2,
        0, 0, 0, 5, 2,
        0x20000005, 0, 7, 3, 1,
        0x30000003, 0, 0, 3, 3,
        2, 3, 1, 1, 1, 3,
        4, 5, 0, 1, 2, 2,
        6, 1, 3,
        5, 2, 0,
        7, 1, 0,
        77,
    };
    uint32_t source[69], target[70];
    const uint32_t p[] = {0x40000011, 0x10000009}, q = 0x20000007, five = 0x20000005,
                   three = 0x30000003;
    memset(target, 0xff, sizeof target);
    target[69] = 77;
    compare_word(test, "worked", tables_fresh(source, 69, 8, 2, 3, 1), 0);
    compare_word(test, "worked", tables_call(source, 69, p, 2), 0x100000001);
    compare_word(test, "worked", tables_answer(source, 69, 1, &five, 1), 0x100000001);
    compare_word(test, "worked", tables_call(source, 69, &q, 1), 0x100000002);
    compare_word(test, "worked", tables_answer(source, 69, 2, NULL, 0), 0x100000002);
    compare_word(test, "worked", tables_answer(source, 69, 1, &three, 1), 0x100000003);
    compare_word(test, "worked", tables_finish(source, 69, 1), 0);
    compare_word(test, "worked", tables_carry(source, 69, target, 70, 8, 2, 3), 0);
    compare_cells(test, "worked", "target", target, due, 70);
    compare_word(test, "worked", tables_carry(source, 69, target, 70, 7, 2, 3), refusal_word(19));
    compare_cells(test, "worked, refused", "target", target, due, 70);
}

/* Nothing lent, hardly anything lent, and the largest capacities. */
static void run_extremes(struct test *test)
{
    struct taste taste = taste_random(&test->dice, 1);
    struct source source;
    uint32_t cells[8] = {0};
    uint64_t word = tables_carry(NULL, 0, NULL, 0, 1, 0, 0);
    compare_word(test, "nothing lent", word, refusal_word(1));
    source_make(test, &taste, 20, true, &source);
    word = tables_carry(source.cells, source.count, NULL, 0, 1, 0, 0);
    compare_word(test, "no target", word, refusal_word(2));
    word = tables_carry(NULL, 0, cells, 8, 1, 0, 0);
    compare_word(test, "no source", word, refusal_word(1));
    struct copy copy = {source.cells, source.count, 1048576, 1048576, 1048576, 14680072};
    carry_and_forget(test, &copy, "the largest capacities", 0);
    copy.target_count--;
    carry_and_forget(test, &copy, "the largest capacities, a cell short", 2);
    copy.target_count = TABLES_SPACE_CELLS(1048577, 1, 1);
    copy.subgoals = copy.answers = 1;
    copy.nodes = 1048577;
    carry_and_forget(test, &copy, "a node too many", 2);
    source_free(&source);
}

int main(int argc, char **argv)
{
    static const uint32_t refusals[] = {1, 2, 9, 18, 19, 0};
    struct test test = {.round = 0};
    uint64_t seed = argc > 1 ? strtoull(argv[1], NULL, 10) : 1;
    uint64_t rounds = argc > 2 ? strtoull(argv[2], NULL, 10) : DEFAULT_ROUNDS;
    time_t start = time(NULL);
    test.dice.state = seed;
    guards_on();
    run_worked(&test);
    run_extremes(&test);
    run_every_form(&test);
    run_big(&test);
    while (test.round < rounds) {
        if (argc <= 2 && time(NULL) - start >= DEFAULT_SECONDS)
            break;
        test.round++;
        run_round(&test);
    }
    tally_must_have(&test.tally, refusals);
    tally_check(&test.tally, test.twisted_done != 0, "no twisted source was carried");
    return tally_report(&test.tally, "carry_test", seed);
}
