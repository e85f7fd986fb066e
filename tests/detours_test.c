/*
 * Tests tables_detours (request Q-11) against models written from the documents. The plain
 * model writes out all choices of a search in the order of the document and reads the answer
 * for a budget off the part that the budget covers. The model on cells reads and judges
 * exactly the records that the documents name, and searches with the budget in hand. A
 * third counts all combinations, for what is said of a search that ended or was stopped.
 *
 *     detours_test [seed [rounds]]    (detours_test.c, opinion.c and the archive)
 *
 * The parts:
 *
 *   directed   answers that were worked out by hand
 *   searches   tables made by calls, goals that are searched: every budget for small
 *              searches, some for larger ones
 *   refusals   tables made by calls, goals that are any numbers, an out of any length
 *   damaged    cells of records changed: the model on cells
 *   wild       small tries with answers on any leaves: the same
 *
 * Each question is asked twice, with what is lent right before a guard page and right after
 * one, and every cell of space, goals and out is compared afterwards.
 */
#include "opinion.h"

#include <stdio.h>
#include <stdlib.h>

enum {
    DEFAULT_ROUNDS = 2500,
    MOST_GOALS = 6,
    OUT_ROOM = 14,
    GOALS_ROOM = 40,
    SPACE_ROOM = 1 << 13,
    MOST_CHOICES = 1 << 14,
    MOST_COMBINATIONS = 3000,
    LARGE_BUDGET = 60000,
    EVERY_BUDGET = 60, /* up to so many choices every budget is tried */
    DETOURS = 0,       /* groups of results */
    SEARCHES = 1
};

/* The second group: how searches went. */
enum searched { STOPPED_NONE, STOPPED_TOTAL, ENDED_NONE, ENDED_TOTAL };

static struct {
    struct op_arena space, goals, out;
} lent;

/* The table under test, as the models have it. */
static struct op_plain plain;
static uint32_t space[SPACE_ROOM];
static size_t space_cells;

/* The answers of the goals, as a search looks at them. */
struct option {
    uint32_t diverter, minutes, number;
};
struct options {
    size_t count;
    struct option one[OP_MOST_ANSWERS];
};

/* Takes an answer's tokens in; 0 where they are no diverter and minutes. */
static int take_option(struct options *options, const uint32_t *tokens, size_t count,
                       uint32_t number)
{
    if (count != 2 || TABLES_KIND(tokens[0]) != TABLES_ATOM ||
        TABLES_KIND(tokens[1]) != TABLES_INTEGER)
        return 0;
    options->one[options->count++] =
        (struct option){ tokens[0], TABLES_PAYLOAD(tokens[1]), number };
    return 1;
}

/* The plain model: all choices written out. */

struct choice {
    int complete;
    uint32_t total;
    uint32_t numbers[MOST_GOALS];
};
static struct {
    size_t goals;
    struct options options[MOST_GOALS];
    size_t chosen[MOST_GOALS];
    size_t count;
    int whole; /* 0 where there are more choices than there is room for */
    struct choice choice[MOST_CHOICES];
} written;

/* The answers of a goal by number; 0 where it is none for 22's sake. */
static int plain_options(uint32_t goal, struct options *options)
{
    int sound = plain.subgoal[goal].form.variables == 2;
    options->count = 0;
    for (uint32_t i = 1; i <= plain.answers; i++)
        if (plain.answer[i].subgoal == goal)
            sound &= take_option(options, plain.answer[i].form.tokens, plain.answer[i].form.count,
                                 i);
    return sound;
}

static const struct option *chosen(size_t goal)
{
    return &written.options[goal].one[written.chosen[goal]];
}

static int is_taken(size_t depth)
{
    for (size_t i = 0; i < depth; i++)
        if (chosen(i)->diverter == chosen(depth)->diverter)
            return 1;
    return 0;
}

static void complete(struct choice *choice)
{
    choice->complete = 1;
    for (size_t i = 0; i < written.goals; i++) {
        choice->total += chosen(i)->minutes;
        choice->numbers[i] = chosen(i)->number;
    }
}

static void write_choices(size_t depth)
{
    for (size_t i = 0; i < written.options[depth].count && written.whole; i++) {
        if (written.count == MOST_CHOICES) {
            written.whole = 0;
            return;
        }
        struct choice *choice = &written.choice[written.count++];
        *choice = (struct choice){ 0, 0, { 0 } };
        written.chosen[depth] = i;
        if (is_taken(depth))
            continue;
        if (depth + 1 == written.goals)
            complete(choice);
        else
            write_choices(depth + 1);
    }
}

static void write_order(const uint32_t *goals, size_t count)
{
    written.goals = count;
    written.count = 0;
    written.whole = 1;
    for (size_t i = 0; i < count; i++)
        plain_options(goals[i], &written.options[i]);
    write_choices(0);
}

/* The answer for a budget; where not all is written it must not be above what is. */
static uint64_t read_order(uint32_t budget, uint32_t *out)
{
    const struct choice *best = NULL;
    size_t tried = budget < written.count ? budget : written.count;
    for (size_t i = 0; i < tried; i++) {
        const struct choice *choice = &written.choice[i];
        if (choice->complete && (best == NULL || choice->total < best->total))
            best = choice;
    }
    out[0] = (uint32_t)tried;
    out[1] = written.whole && tried == written.count;
    if (best == NULL)
        return op_word(TABLES_NO_DETOUR, 0);
    op_copy(out + 2, best->numbers, written.goals);
    return op_word(TABLES_DETOUR, best->total);
}

/* 7, 14 or 22, or 0; each is asked of all goals before the next. */
static uint32_t plain_refusal(const uint32_t *goals, size_t count)
{
    static struct options options;
    for (size_t i = 0; i < count; i++)
        if (goals[i] == 0 || goals[i] > plain.subgoals)
            return TABLES_REFUSED_NUMBER;
    for (size_t i = 0; i < count; i++)
        if (plain.subgoal[goals[i]].state == 0)
            return TABLES_REFUSED_SOURCE_OPEN;
    if (count < 1 || count > MOST_GOALS)
        return TABLES_REFUSED_GOALS;
    for (size_t i = 0; i < count; i++)
        if (!plain_options(goals[i], &options))
            return TABLES_REFUSED_GOALS;
    return 0;
}

static uint64_t plain_detours(const uint32_t *goals, size_t count, uint32_t budget, uint32_t *out,
                              size_t out_cells)
{
    uint32_t refusal = plain_refusal(goals, count);
    if (refusal != 0)
        return op_refused(refusal, 0);
    if (out_cells < TABLES_DETOUR_CELLS)
        return op_refused(TABLES_REFUSED_OUT, TABLES_DETOUR_CELLS);
    write_order(goals, count);
    return read_order(budget, out);
}

/* The model on cells. */

/*
 * An answer's path, gathered from the leaf up to the root, into the end of the tokens; how
 * many there are, or -1 where damage is met. The links are held to so many.
 */
static int gather(const uint32_t *cells, uint32_t node, uint32_t root, uint32_t links,
                  uint32_t *tokens)
{
    int count = 0;
    for (;;) {
        const uint32_t *record = op_node_of(cells, node);
        if (!op_node_sound(cells, node, links))
            return -1;
        if (record[OP_PARENT] == node)
            return node == root ? count : -1;
        if (count == TABLES_COMPACT_CELLS)
            return -1;
        tokens[TABLES_COMPACT_CELLS - ++count] = record[OP_TOKEN];
        node = record[OP_PARENT];
    }
}

/*
 * The documents hold links to the answers in an answer trie, and point 11 lets the root
 * decide. Where damage makes node 0 an answer root the two may differ: nothing is asked
 * then.
 */
static int in_doubt;

struct hunt {
    size_t goals;
    struct options *options;
    size_t chosen[MOST_GOALS];
    uint32_t budget, tried, total;
    int stopped, found;
    uint32_t numbers[MOST_GOALS];
};

/* Judges one answer's path as load does, and takes it in; 0 for damage. */
static int judge_path(const uint32_t *cells, uint32_t goal, uint32_t answer,
                      struct options *options, int *other_form)
{
    uint32_t tokens[TABLES_COMPACT_CELLS];
    const uint32_t *record = op_subgoal_of(cells, goal);
    uint32_t leaf = op_answer_of(cells, answer)[OP_ANSWER_LEAF];
    int count = gather(cells, leaf, record[OP_ROOT], cells[OP_ANSWERS], tokens);
    if (record[OP_ROOT] == 0 &&
        gather(cells, leaf, 0, cells[OP_SUBGOALS], tokens) != count)
        in_doubt = 1;
    if (count < 0)
        return 0;
    const uint32_t *first = tokens + TABLES_COMPACT_CELLS - count;
    if (!op_is_form(first, (size_t)count, record[OP_M], cells[OP_EDITION]))
        return 0;
    if (!take_option(options, first, (size_t)count, answer))
        *other_form = 1;
    return 1;
}

/* Judges a goal as a join's source is: its record, the chain of its answers, their paths. */
static int judge_goal(const uint32_t *cells, uint32_t goal, struct options *options,
                      int *other_form)
{
    options->count = 0;
    if (!op_subgoal_sound(cells, goal))
        return 0;
    uint32_t answer = op_subgoal_of(cells, goal)[OP_FIRST];
    while (answer != 0) {
        if (!op_answer_sound(cells, answer) ||
            op_answer_of(cells, answer)[OP_ANSWER_SUBGOAL] != goal ||
            !judge_path(cells, goal, answer, options, other_form))
            return 0;
        answer = op_answer_of(cells, answer)[OP_ANSWER_NEXT];
    }
    *other_form |= op_subgoal_of(cells, goal)[OP_M] != 2;
    return 1;
}

/* 7, 9, 14 or 22, or 0; the options of up to six goals. */
static uint32_t cells_refusal(const uint32_t *cells, const uint32_t *goals, size_t count,
                              struct options *options)
{
    static struct options more;
    int other_form = count < 1 || count > MOST_GOALS;
    for (size_t i = 0; i < count; i++)
        if (goals[i] == 0 || goals[i] > cells[OP_SUBGOALS])
            return TABLES_REFUSED_NUMBER;
    for (size_t i = 0; i < count; i++)
        if (!judge_goal(cells, goals[i], i < MOST_GOALS ? &options[i] : &more, &other_form))
            return TABLES_REFUSED_DAMAGED;
    for (size_t i = 0; i < count; i++)
        if (op_subgoal_of(cells, goals[i])[OP_STATE] == 0)
            return TABLES_REFUSED_SOURCE_OPEN;
    return other_form ? TABLES_REFUSED_GOALS : 0;
}

static int taken_before(const struct hunt *h, size_t depth, uint32_t diverter)
{
    for (size_t i = 0; i < depth; i++)
        if (h->options[i].one[h->chosen[i]].diverter == diverter)
            return 1;
    return 0;
}

static void met(struct hunt *h, uint32_t total)
{
    if (h->found && total >= h->total)
        return;
    h->found = 1;
    h->total = total;
    for (size_t i = 0; i < h->goals; i++)
        h->numbers[i] = h->options[i].one[h->chosen[i]].number;
}

/* The budget is tested when a choice is about to be tried. */
static void hunt(struct hunt *h, size_t depth, uint32_t sum)
{
    for (size_t i = 0; i < h->options[depth].count; i++) {
        const struct option *option = &h->options[depth].one[i];
        if (h->stopped || h->tried == h->budget) {
            h->stopped = 1;
            return;
        }
        h->tried++;
        h->chosen[depth] = i;
        if (taken_before(h, depth, option->diverter))
            continue;
        if (depth + 1 == h->goals)
            met(h, sum + option->minutes);
        else
            hunt(h, depth + 1, sum + option->minutes);
    }
}

static uint64_t cells_detours(const uint32_t *cells, size_t count, const uint32_t *goals,
                              size_t goals_cells, uint32_t budget, uint32_t *out,
                              size_t out_cells)
{
    static struct options options[MOST_GOALS];
    struct hunt h = { .goals = goals_cells, .options = options, .budget = budget };
    in_doubt = 0;
    if (!op_header_sound(cells, count))
        return op_refused(TABLES_REFUSED_HEADER, 0);
    uint32_t refusal = cells_refusal(cells, goals, goals_cells, options);
    if (refusal != 0)
        return op_refused(refusal, 0);
    if (out_cells < TABLES_DETOUR_CELLS)
        return op_refused(TABLES_REFUSED_OUT, TABLES_DETOUR_CELLS);
    hunt(&h, 0, 0);
    out[0] = h.tried;
    out[1] = !h.stopped;
    if (!h.found)
        return op_word(TABLES_NO_DETOUR, 0);
    op_copy(out + 2, h.numbers, h.goals);
    return op_word(TABLES_DETOUR, h.total);
}

/* The third model: every combination, for what a reply is worth. */

struct truth {
    int known;         /* 0 where there are too many combinations */
    int any;           /* whether a choice has no diverter twice */
    uint32_t least;    /* the least total of those */
    uint64_t tried;    /* the choices of a whole search */
    uint64_t minima;   /* each goal's own minimum, summed; of goals that have answers */
    uint64_t bound;    /* tables.h: a budget that always suffices */
};

/* Combination number k of the first goals: its total, or -1 where a diverter is twice. */
static int64_t combination(size_t goals, uint64_t k)
{
    int64_t total = 0;
    for (size_t i = goals; i > 0; i--) {
        written.chosen[i - 1] = k % written.options[i - 1].count;
        k /= written.options[i - 1].count;
    }
    for (size_t i = 0; i < goals; i++) {
        if (is_taken(i))
            return -1;
        total += chosen(i)->minutes;
    }
    return total;
}

static uint64_t least_minutes(const struct options *options)
{
    uint64_t least = 0;
    for (size_t i = 0; i < options->count; i++)
        if (i == 0 || options->one[i].minutes < least)
            least = options->one[i].minutes;
    return least;
}

/* Counts the combinations of the first goals that have no diverter twice. */
static uint64_t count_level(struct truth *truth, size_t goals, uint64_t all)
{
    uint64_t distinct = 0;
    for (uint64_t k = 0; k < all; k++) {
        int64_t total = combination(goals, k);
        distinct += total >= 0;
        if (goals == written.goals && total >= 0 && (!truth->any || total < truth->least)) {
            truth->any = 1;
            truth->least = (uint32_t)total;
        }
    }
    return distinct;
}

/* The truth of the goals whose order was written last. */
static struct truth find_truth(void)
{
    struct truth truth = { 1, 0, 0, 0, 0, 0 };
    uint64_t all = 1;
    for (size_t i = 0; i <= written.goals; i++) {
        if (all > MOST_COMBINATIONS)
            truth.known = 0;
        uint64_t distinct = truth.known ? count_level(&truth, i, all) : 0;
        if (i == written.goals)
            break;
        truth.tried += distinct * written.options[i].count;
        truth.minima += least_minutes(&written.options[i]);
        all *= written.options[i].count;
        truth.bound += all;
    }
    return truth;
}

/* Asking the store. */

struct question {
    const uint32_t *space;
    size_t space_cells;
    const uint32_t *goals;
    size_t goals_cells;
    uint32_t budget;
    size_t out_cells;
};

/* Lends the cells; no cells at all are lent as NULL, or as the address of a guard page. */
static uint32_t *lend(const struct op_arena *arena, const uint32_t *cells, size_t count,
                      int at_end)
{
    uint32_t *place = op_lend(arena, cells, count, at_end);
    return count == 0 && !at_end ? NULL : place;
}

static uint64_t ask_once(const struct question *q, uint32_t *out, int at_end)
{
    const uint32_t *s = lend(&lent.space, q->space, q->space_cells, at_end);
    const uint32_t *g = lend(&lent.goals, q->goals, q->goals_cells, at_end);
    uint32_t *o = lend(&lent.out, out, q->out_cells, at_end);
    uint64_t word = tables_detours(s, q->space_cells, g, q->goals_cells, q->budget, o,
                                   q->out_cells);
    op_check(op_equal(s, q->space, q->space_cells) &&
                 op_margin_kept(&lent.space, q->space_cells, at_end),
             "detours changed a cell of the space or beside it");
    op_check(op_equal(g, q->goals, q->goals_cells) &&
                 op_margin_kept(&lent.goals, q->goals_cells, at_end),
             "detours changed a cell of the goals or beside them");
    op_check(op_margin_kept(&lent.out, q->out_cells, at_end), "detours wrote beside out");
    op_copy(out, o, q->out_cells);
    op_came(DETOURS, word);
    return word;
}

static void random_out(uint32_t *out)
{
    for (size_t i = 0; i < OUT_ROOM; i++)
        out[i] = (uint32_t)op_random();
}

/* Asks in both places, and compares with the word and the out that are due. */
static uint64_t expect(const struct question *q, const uint32_t *before, uint64_t want,
                       const uint32_t *want_out, uint32_t *out)
{
    uint64_t word = 0;
    for (int at_end = 0; at_end < 2; at_end++) {
        op_copy(out, before, OUT_ROOM);
        word = ask_once(q, out, at_end);
        op_check(op_same(word, want), "detours (budget %u) says %llx, not %llx",
                 (unsigned)q->budget, (unsigned long long)word, (unsigned long long)want);
        op_check(op_equal(out, want_out, OUT_ROOM),
                 "detours (budget %u) leaves another out (%llx: %u %u, not %u %u)",
                 (unsigned)q->budget, (unsigned long long)word, (unsigned)out[0],
                 (unsigned)out[1], (unsigned)want_out[0], (unsigned)want_out[1]);
    }
    return word;
}

/* Tables. */

static void check_space(const uint32_t *lent_cells, uint64_t word, uint64_t want,
                        const char *what)
{
    op_check(op_same(word, want), "%s says %llx, not %llx", what, (unsigned long long)word,
             (unsigned long long)want);
    op_check(op_equal(lent_cells, space, space_cells), "%s leaves another space", what);
}

/* The models enter what the store enters, where the store takes part. */
static void enter_call(const struct op_term *term, int store)
{
    uint32_t *s = op_lend(&lent.space, space, space_cells, 1);
    uint64_t word = store ? tables_call(s, space_cells, term->cells, term->count) : 0;
    uint64_t want = op_plain_call(&plain, term->cells, term->count);
    op_check(op_same(want, op_cells_call(space, term->cells, term->count)),
             "the models differ on call");
    if (store)
        check_space(s, word, want, "call");
}

static void enter_answer(uint32_t subgoal, const struct op_term *terms, int store)
{
    uint32_t *s = op_lend(&lent.space, space, space_cells, 1);
    uint64_t word = store ? tables_answer(s, space_cells, subgoal, terms->cells, terms->count)
                          : 0;
    uint64_t want = op_plain_answer(&plain, subgoal, terms->cells, terms->count);
    op_check(op_same(want, op_cells_answer(space, subgoal, terms->cells, terms->count)),
             "the models differ on answer");
    if (store)
        check_space(s, word, want, "answer");
}

static void enter_finish(uint32_t subgoal, int store)
{
    uint32_t *s = op_lend(&lent.space, space, space_cells, 1);
    uint64_t word = store ? tables_finish(s, space_cells, subgoal) : 0;
    uint64_t want = op_plain_finish(&plain, subgoal);
    op_check(op_same(want, op_cells_finish(space, subgoal)), "the models differ on finish");
    if (store)
        check_space(s, word, want, "finish");
}

/* How the answers of a table are made. */
static struct {
    uint32_t diverters, minutes; /* how many of each there are */
    uint32_t wrong;              /* percent of answers of another form */
} style;

static void pick_style(int wrong)
{
    static const uint32_t minutes[] = { 1, 2, 4, 60, TABLES_MOST_PAYLOAD };
    style.diverters = 1 + op_below(9);
    style.minutes = minutes[op_below(5)];
    style.wrong = wrong && op_chance(60) ? 1 + op_below(15) : 0;
}

/* A goal: mostly with two variables, in which they stand in different places. */
static void put_goal(struct op_term *term, uint32_t name)
{
    uint32_t how = op_below(20);
    uint32_t variables = how < 16 ? 2 : how == 16 ? 0 : how == 17 ? 1 : how == 18 ? 3 : 4;
    term->count = 0;
    op_put(term, tables_functor_cell(plain.edition, name, 2 + variables));
    op_put(term, op_atom(op_below(3)));
    for (uint32_t i = 0; i < variables; i++)
        op_put(term, op_variable(100 * name + i));
    switch (op_below(3)) {
    case 0:
        op_put(term, TABLES_PAIR_CELL);
        op_put(term, variables == 0 ? op_atom(5) : op_variable(100 * name));
        op_put(term, TABLES_EMPTY_LIST);
        break;
    case 1:
        op_put(term, op_integer(name));
        break;
    default:
        op_put(term, variables == 0 ? op_atom(0) : op_variable(100 * name + variables - 1));
        break;
    }
}

static void put_diverter(struct op_term *terms)
{
    op_put(terms, op_atom(op_below(style.diverters)));
}

static void put_minutes(struct op_term *terms)
{
    op_put(terms, op_integer(op_below(style.minutes) + (style.minutes > 60 && op_chance(50))));
}

/* Two terms that are no diverter and minutes. */
static void put_wrong(struct op_term *terms)
{
    switch (op_below(8)) {
    case 0:
        put_minutes(terms);
        put_diverter(terms);
        break;
    case 1:
        put_diverter(terms);
        put_diverter(terms);
        break;
    case 2:
        put_diverter(terms);
        op_put(terms, op_variable(3));
        break;
    case 3:
        op_put(terms, op_variable(3));
        put_minutes(terms);
        break;
    case 4:
        op_put(terms, tables_functor_cell(plain.edition, 1, 1));
        put_diverter(terms);
        put_minutes(terms);
        break;
    case 5:
        put_diverter(terms);
        op_put(terms, TABLES_PAIR_CELL);
        put_minutes(terms);
        op_put(terms, TABLES_EMPTY_LIST);
        break;
    case 6: /* a long list of pairs */
        put_diverter(terms);
        for (uint32_t i = op_below(60); i > 0; i--) {
            op_put(terms, TABLES_PAIR_CELL);
            op_put(terms, TABLES_PAIR_CELL);
            put_diverter(terms);
            put_minutes(terms);
        }
        op_put(terms, op_atom(op_below(2)));
        break;
    default:
        put_minutes(terms);
        put_minutes(terms);
        break;
    }
}

static void random_answer(int store)
{
    struct op_term terms = { 0, { 0 } };
    uint32_t subgoal = 1 + op_below(plain.subgoals);
    uint32_t m = plain.subgoal[subgoal].form.variables;
    if (m == 2 && op_chance(style.wrong)) {
        put_wrong(&terms);
    } else if (m == 2) {
        put_diverter(&terms);
        put_minutes(&terms);
    } else {
        for (uint32_t i = 0; i < m; i++)
            op_put_random(&terms, plain.edition, 1);
    }
    enter_answer(subgoal, &terms, store);
}

static void fresh_models(uint32_t edition, uint32_t nodes, uint32_t subgoals, uint32_t answers)
{
    space_cells = TABLES_SPACE_CELLS(nodes, subgoals, answers) + op_below(4);
    for (size_t i = 0; i < space_cells; i++)
        space[i] = (uint32_t)op_random();
    op_plain_fresh(&plain, edition, nodes, subgoals, answers);
    op_cells_fresh(space, space_cells, nodes, subgoals, answers, edition);
}

/* A table of some goals, with so many answers at most, most of the goals finished. */
static void make_table(uint32_t answers, int wrong, int store)
{
    struct op_term term;
    uint32_t goals = 1 + op_below(8);
    fresh_models(1 + op_below(2), 700, 8 + op_below(3), 100);
    pick_style(wrong);
    for (uint32_t i = 0; i < goals; i++) {
        put_goal(&term, i + 1);
        enter_call(&term, store);
        for (uint32_t k = op_below(answers / goals + 1); k > 0; k--)
            random_answer(store);
    }
    for (uint32_t k = op_below(answers / 2 + 1); k > 0; k--)
        random_answer(store);
    for (uint32_t i = 1; i <= goals; i++)
        if (op_chance(90))
            enter_finish(i, store);
}

/* The part on searches. */

/* Goals that are not refused; how many: 0 where the table has none. */
static size_t pick_goals(uint32_t *goals)
{
    uint32_t able[OP_MOST_SUBGOALS];
    uint32_t count = 0, wanted = 1 + op_below(MOST_GOALS);
    for (uint32_t i = 1; i <= plain.subgoals; i++)
        if (plain_refusal(&i, 1) == 0)
            able[count++] = i;
    for (uint32_t i = 0; count != 0 && i < wanted; i++)
        goals[i] = able[op_below(count)];
    return count == 0 ? 0 : wanted;
}

static void count_search(uint64_t word, const uint32_t *out)
{
    int total = tables_what(word) == TABLES_DETOUR;
    op_came(SEARCHES, op_word(out[1] ? (total ? ENDED_TOTAL : ENDED_NONE)
                                     : (total ? STOPPED_TOTAL : STOPPED_NONE), 0));
}

/* What document 02 says that a reply is worth, of the store's own reply. */
static void check_worth(const struct truth *truth, uint64_t word, const uint32_t *out)
{
    uint32_t total = tables_value(word);
    int found = tables_what(word) == TABLES_DETOUR;
    if (!truth->known)
        return;
    if (out[1])
        op_check(found == truth->any && (!found || total == truth->least) &&
                     out[0] == truth->tried,
                 "a search that ended found %u (%d), and %u (%d) is least", (unsigned)total,
                 found, (unsigned)truth->least, truth->any);
    else if (found)
        op_check(truth->any && total >= truth->least && total >= truth->minima &&
                     total - truth->least <= total - truth->minima,
                 "a search that was stopped found %u; %u is least", (unsigned)total,
                 (unsigned)truth->least);
}

/* Asks for one budget; the word is the store's. */
static uint64_t search(const uint32_t *goals, size_t count, uint32_t budget,
                       const struct truth *truth)
{
    uint32_t before[OUT_ROOM], want_out[OUT_ROOM], cells_out[OUT_ROOM], out[OUT_ROOM];
    struct question q = { space, space_cells, goals, count, budget,
                          TABLES_DETOUR_CELLS + op_below(OUT_ROOM - TABLES_DETOUR_CELLS + 1) };
    random_out(before);
    op_copy(want_out, before, OUT_ROOM);
    op_copy(cells_out, before, OUT_ROOM);
    uint64_t want = read_order(budget, want_out);
    uint64_t by_cells = cells_detours(space, space_cells, goals, count, budget, cells_out,
                                      q.out_cells);
    op_check(op_same(want, by_cells) && op_equal(want_out, cells_out, OUT_ROOM),
             "the models differ: %llx and %llx", (unsigned long long)want,
             (unsigned long long)by_cells);
    uint64_t word = expect(&q, before, want, want_out, out);
    check_worth(truth, word, out);
    count_search(word, out);
    return word;
}

/* A larger budget never gives a higher total, nor none after one. */
static void check_larger(uint64_t smaller, uint64_t larger)
{
    if (tables_what(smaller) == TABLES_DETOUR)
        op_check(tables_what(larger) == TABLES_DETOUR &&
                     tables_value(larger) <= tables_value(smaller),
                 "a larger budget gives %llx after %llx", (unsigned long long)larger,
                 (unsigned long long)smaller);
}

static void search_every(const uint32_t *goals, size_t count, const struct truth *truth)
{
    uint64_t last = search(goals, count, 0, truth);
    for (uint32_t budget = 1; budget <= written.count + 2; budget++) {
        uint64_t word = search(goals, count, budget, truth);
        check_larger(last, word);
        last = word;
    }
    check_larger(last, search(goals, count, UINT32_MAX, truth));
}

static void search_some(const uint32_t *goals, size_t count, const struct truth *truth)
{
    uint32_t all = (uint32_t)written.count;
    for (int i = 0; i < 4; i++) {
        uint32_t small = op_below(all), large = small + op_below(all - small);
        check_larger(search(goals, count, small, truth), search(goals, count, large, truth));
    }
    if (!written.whole)
        return;
    check_larger(search(goals, count, all - 1, truth), search(goals, count, all, truth));
    search(goals, count, all + 1, truth);
    search(goals, count, UINT32_MAX, truth);
    if (truth->bound <= UINT32_MAX)
        search(goals, count, (uint32_t)truth->bound, truth);
}

/* More choices than are written out: against the model on cells alone. */
static void search_large(const uint32_t *goals, size_t count, const struct truth *truth)
{
    uint32_t before[OUT_ROOM], want_out[OUT_ROOM], out[OUT_ROOM];
    struct question q = { space, space_cells, goals, count, op_below(LARGE_BUDGET), OUT_ROOM };
    random_out(before);
    op_copy(want_out, before, OUT_ROOM);
    uint64_t want = cells_detours(space, space_cells, goals, count, q.budget, want_out, OUT_ROOM);
    uint64_t word = expect(&q, before, want, want_out, out);
    check_worth(truth, word, out);
    count_search(word, out);
}

/* The models against each other, before the store is asked. */
static void check_truth(const struct truth *truth)
{
    uint32_t out[OUT_ROOM];
    op_check(!written.whole || written.count <= truth->bound, "the bound of a whole search");
    if (!truth->known || !written.whole)
        return;
    uint64_t word = read_order(UINT32_MAX, out);
    op_check(written.count == truth->tried && out[1] == 1 &&
                 (tables_what(word) == TABLES_DETOUR) == truth->any &&
                 tables_value(word) == truth->least &&
                 (!truth->any || truth->least >= truth->minima),
             "the written order and the combinations differ");
}

static void round_searches(void)
{
    uint32_t goals[MOST_GOALS];
    make_table(op_chance(70) ? 14 : 60, 0, 1);
    for (int i = 0; i < 3; i++) {
        size_t count = pick_goals(goals);
        if (count == 0)
            return;
        write_order(goals, count);
        struct truth truth = find_truth();
        check_truth(&truth);
        if (written.whole && written.count <= EVERY_BUDGET)
            search_every(goals, count, &truth);
        else
            search_some(goals, count, &truth);
        if (!written.whole)
            search_large(goals, count, &truth);
    }
}

/* The part on refusals. */

static size_t any_goals(uint32_t *goals)
{
    size_t count = op_chance(85) ? op_below(9) : op_below(GOALS_ROOM + 1);
    uint32_t odd = op_chance(15) ? 20 : 0;
    for (size_t i = 0; i < count; i++) {
        goals[i] = 1 + op_below(plain.subgoals);
        if (op_chance(odd))
            goals[i] = op_chance(50) ? op_below(plain.subgoals + 3) : (uint32_t)op_random();
    }
    return count;
}

static size_t some_out(void)
{
    if (op_chance(85))
        return TABLES_DETOUR_CELLS + op_below(OUT_ROOM - TABLES_DETOUR_CELLS + 1);
    return op_chance(50) ? TABLES_DETOUR_CELLS - 1 : op_below(TABLES_DETOUR_CELLS);
}

static void round_refusals(void)
{
    uint32_t goals[GOALS_ROOM], before[OUT_ROOM], want_out[OUT_ROOM], cells_out[OUT_ROOM];
    uint32_t out[OUT_ROOM];
    make_table(12, 1, 1);
    for (int i = 0; i < 6; i++) {
        size_t count = op_chance(50) ? any_goals(goals) : pick_goals(goals);
        struct question q = { space, space_cells, goals, count, op_below(60), some_out() };
        random_out(before);
        op_copy(want_out, before, OUT_ROOM);
        op_copy(cells_out, before, OUT_ROOM);
        uint64_t want = plain_detours(goals, count, q.budget, want_out, q.out_cells);
        uint64_t by_cells = cells_detours(space, space_cells, goals, count, q.budget, cells_out,
                                          q.out_cells);
        op_check(op_same(want, by_cells) && op_equal(want_out, cells_out, OUT_ROOM),
                 "the models differ: %llx and %llx", (unsigned long long)want,
                 (unsigned long long)by_cells);
        expect(&q, before, want, want_out, out);
    }
}

/* The part on damaged spaces. */

static void damage_space(void)
{
    int times = op_chance(8) ? 25 : 1 + (int)op_below(4);
    for (int i = 0; i < times && op_header_sound(space, space_cells); i++)
        op_damage(space, space_cells);
    if (op_chance(2))
        space_cells = op_below((uint32_t)space_cells + 1);
}

static void round_damaged(void)
{
    uint32_t goals[GOALS_ROOM], before[OUT_ROOM], want_out[OUT_ROOM], out[OUT_ROOM];
    make_table(10, op_chance(30), 0);
    damage_space();
    for (int i = 0; i < 6; i++) {
        size_t count = op_chance(30) ? any_goals(goals) : pick_goals(goals);
        struct question q = { space, space_cells, goals, count, op_below(200), some_out() };
        random_out(before);
        op_copy(want_out, before, OUT_ROOM);
        uint64_t want = cells_detours(space, space_cells, goals, count, q.budget, want_out,
                                      q.out_cells);
        if (in_doubt)
            continue;
        expect(&q, before, want, want_out, out);
    }
}

/* The part on wild spaces: several small answer tries, answers on any leaves. */

/* Roots, diverters below them and minutes below these, mostly. */
static void wild_node(uint32_t node, uint32_t answers)
{
    uint32_t parent = node < 3 || op_chance(12) ? node : 1 + op_below(node - 1);
    const uint32_t *above = op_node_of(space, parent);
    int root = parent == node, second = !root && above[OP_PARENT] != parent;
    uint32_t token = second ? op_integer(op_below(4)) : op_atom(op_below(3));
    if (op_chance(5))
        token = op_chance(50) ? op_variable(0) : TABLES_CELL(TABLES_BLIST, 0);
    const uint32_t record[] = { root ? 0 : token, 0, 0, parent,
                                op_below(answers + 1 + op_chance(2)) };
    op_copy(op_node_at(space, node), record, 5);
}

/* The root that the node's parents lead to. */
static uint32_t wild_root(uint32_t node)
{
    while (op_node_of(space, node)[OP_PARENT] != node)
        node = op_node_of(space, node)[OP_PARENT];
    return node;
}

/* An answer to a goal, on a leaf that is mostly of its trie, after the goal's last answer. */
static void wild_answer(uint32_t answer, uint32_t goal, uint32_t nodes)
{
    uint32_t *record = op_subgoal_at(space, goal);
    uint32_t leaf = op_below(nodes);
    for (int k = 0; k < 60; k++) {
        const uint32_t *node = op_node_of(space, leaf);
        if (TABLES_KIND(node[OP_TOKEN]) == TABLES_INTEGER && wild_root(leaf) == record[OP_ROOT])
            break;
        leaf = op_below(nodes);
    }
    const uint32_t cells[] = { leaf, goal, 0 };
    op_copy(op_answer_at(space, answer), cells, 3);
    if (record[OP_LAST] != 0)
        op_answer_at(space, record[OP_LAST])[OP_ANSWER_NEXT] = answer;
    else
        record[OP_FIRST] = answer;
    record[OP_LAST] = answer;
}

static void wild_space(void)
{
    uint32_t nodes = 6 + op_below(20), goals = 1 + op_below(4), answers = op_below(10);
    fresh_models(1 + op_below(2), nodes + op_below(3), goals, answers + op_below(2));
    plain.nodes = space[OP_NODES] = nodes;
    plain.subgoals = space[OP_SUBGOALS] = goals;
    plain.answers = space[OP_ANSWERS] = answers;
    for (uint32_t i = 1; i < nodes; i++)
        wild_node(i, answers);
    for (uint32_t i = 1; i <= goals; i++) {
        uint32_t root = op_chance(97) ? wild_root(1 + op_below(nodes - 1)) : op_below(nodes);
        const uint32_t record[] = { op_below(nodes), root, op_chance(95) ? 2 : op_below(4),
                                    op_chance(95), 0, 0 };
        op_copy(op_subgoal_at(space, i), record, 6);
    }
    for (uint32_t i = 1; i <= answers; i++)
        wild_answer(i, 1 + op_below(goals), nodes);
}

static void round_wild(void)
{
    uint32_t goals[GOALS_ROOM], before[OUT_ROOM], want_out[OUT_ROOM], out[OUT_ROOM];
    wild_space();
    if (op_chance(40))
        damage_space();
    for (int i = 0; i < 6; i++) {
        size_t count = 1 + op_below(3);
        for (size_t k = 0; k < count; k++)
            goals[k] = 1 + op_below(plain.subgoals);
        struct question q = { space, space_cells, goals, count, op_below(40), some_out() };
        random_out(before);
        op_copy(want_out, before, OUT_ROOM);
        uint64_t want = cells_detours(space, space_cells, goals, count, q.budget, want_out,
                                      q.out_cells);
        if (!in_doubt)
            expect(&q, before, want, want_out, out);
    }
}

/* The directed part. */

#define GOALS(...) (const uint32_t[]){ __VA_ARGS__ }, sizeof(uint32_t[]){ __VA_ARGS__ } / 4

static void hand_goal(uint32_t name, uint32_t variables)
{
    struct op_term term = { 0, { 0 } };
    op_put(&term, tables_functor_cell(TABLES_EDITION_1, name, variables + 1));
    for (uint32_t i = 0; i < variables; i++)
        op_put(&term, op_variable(i));
    op_put(&term, op_atom(1));
    enter_call(&term, 1);
}

static void hand_answer(uint32_t subgoal, uint32_t first, uint32_t second)
{
    struct op_term terms = { 2, { first, second } };
    enter_answer(subgoal, &terms, 1);
}

/* Expects a word, and so many cells of out written; no model is asked. */
static void by_hand(const uint32_t *goals, size_t count, uint32_t budget, uint64_t want,
                    const uint32_t *cells, size_t cells_count)
{
    uint32_t before[OUT_ROOM], want_out[OUT_ROOM], out[OUT_ROOM];
    struct question q = { space, space_cells, goals, count, budget, TABLES_DETOUR_CELLS };
    random_out(before);
    op_copy(want_out, before, OUT_ROOM);
    op_copy(want_out, cells, cells_count);
    uint64_t word = expect(&q, before, want, want_out, out);
    if (tables_refused_by(word) == 0)
        count_search(word, out);
}

static void by_hand_none(const uint32_t *goals, size_t count, uint32_t budget, uint32_t tried,
                         uint32_t ended)
{
    by_hand(goals, count, budget, op_word(TABLES_NO_DETOUR, 0), GOALS(tried, ended));
}

static void by_hand_refused(const uint32_t *goals, size_t count, uint32_t refusal)
{
    by_hand(goals, count, 9, op_refused(refusal, 0), NULL, 0);
}

/* Goals 1 and 2 with two answers each, goal 3 without; the answers' numbers are 1 to 4. */
static void hand_table(void)
{
    fresh_models(TABLES_EDITION_1, 100, 12, 20);
    hand_goal(1, 2);
    hand_goal(2, 2);
    hand_goal(3, 2);
    hand_answer(1, op_atom(0), op_integer(5));
    hand_answer(1, op_atom(7), op_integer(3));
    hand_answer(2, op_atom(0), op_integer(1));
    hand_answer(2, op_atom(7), op_integer(4));
    for (uint32_t i = 1; i <= 3; i++)
        enter_finish(i, 1);
}

static void directed_searches(void)
{
    hand_table();
    by_hand_none(GOALS(1, 2), 0, 0, 0);
    by_hand_none(GOALS(1, 2), 1, 1, 0);
    by_hand_none(GOALS(1, 2), 2, 2, 0); /* the diverter is taken, and counts */
    by_hand(GOALS(1, 2), 3, op_word(TABLES_DETOUR, 9), GOALS(3, 0, 1, 4));
    by_hand(GOALS(1, 2), 4, op_word(TABLES_DETOUR, 9), GOALS(4, 0, 1, 4));
    by_hand(GOALS(1, 2), 5, op_word(TABLES_DETOUR, 4), GOALS(5, 0, 2, 3));
    by_hand(GOALS(1, 2), 6, op_word(TABLES_DETOUR, 4), GOALS(6, 1, 2, 3));
    by_hand(GOALS(1, 2), 7, op_word(TABLES_DETOUR, 4), GOALS(6, 1, 2, 3));
    by_hand(GOALS(2, 1), 9, op_word(TABLES_DETOUR, 4), GOALS(6, 1, 3, 2));
    by_hand(GOALS(1), 9, op_word(TABLES_DETOUR, 3), GOALS(2, 1, 2));
    by_hand(GOALS(1), 1, op_word(TABLES_DETOUR, 5), GOALS(1, 0, 1));
    by_hand(GOALS(1, 1), 9, op_word(TABLES_DETOUR, 8), GOALS(6, 1, 1, 2)); /* the first met */
    by_hand_none(GOALS(1, 2, 1), UINT32_MAX, 10, 1); /* two diverters for three goals */
    by_hand_none(GOALS(1, 3), 9, 2, 1); /* nothing is passed over */
    by_hand_none(GOALS(1, 3), 2, 2, 1);
    by_hand_none(GOALS(1, 3), 1, 1, 0);
    by_hand_none(GOALS(3, 1), 0, 0, 1);
    by_hand_none(GOALS(3), 9, 0, 1);
}

/* Subgoals 4 to 6 have one variable, three and none, 7 is open, 8 to 10 other answers. */
static void directed_refusals(void)
{
    uint32_t before[OUT_ROOM], out[OUT_ROOM];
    hand_table();
    hand_goal(4, 1);
    hand_goal(5, 3);
    hand_goal(6, 0);
    for (uint32_t i = 7; i <= 10; i++)
        hand_goal(i, 2);
    hand_answer(8, op_integer(1), op_atom(1));
    hand_answer(9, op_atom(1), op_atom(1));
    hand_answer(10, op_atom(1), op_integer(1));
    hand_answer(10, op_atom(1), op_variable(1));
    for (uint32_t i = 4; i <= 10; i++)
        if (i != 7)
            enter_finish(i, 1);
    by_hand_refused(NULL, 0, TABLES_REFUSED_GOALS);
    by_hand_refused(GOALS(1, 0), TABLES_REFUSED_NUMBER);
    by_hand_refused(GOALS(11, 7), TABLES_REFUSED_NUMBER);
    by_hand_refused(GOALS(7), TABLES_REFUSED_SOURCE_OPEN);
    by_hand_refused(GOALS(4, 8, 7), TABLES_REFUSED_SOURCE_OPEN);
    for (uint32_t i = 4; i <= 10; i++)
        if (i != 7)
            by_hand_refused(GOALS(3, i), TABLES_REFUSED_GOALS);
    by_hand_refused(GOALS(1, 1, 1, 1, 1, 1, 1), TABLES_REFUSED_GOALS);
    by_hand_refused(GOALS(1, 1, 1, 1, 1, 1, 7), TABLES_REFUSED_SOURCE_OPEN);
    by_hand_refused(GOALS(1, 1, 1, 1, 1, 7, 11), TABLES_REFUSED_NUMBER);
    struct question q = { space, space_cells, GOALS(8), 9, 7 };
    random_out(before);
    expect(&q, before, op_refused(TABLES_REFUSED_GOALS, 0), before, out);
    q.goals = (const uint32_t[]){ 1 };
    expect(&q, before, op_refused(TABLES_REFUSED_OUT, 8), before, out);
    q.out_cells = 0;
    expect(&q, before, op_refused(TABLES_REFUSED_OUT, 8), before, out);
    q.space_cells = 7;
    expect(&q, before, op_refused(TABLES_REFUSED_HEADER, 0), before, out);
    q.space_cells = 0;
    q.goals_cells = 0;
    expect(&q, before, op_refused(TABLES_REFUSED_HEADER, 0), before, out);
}

/* Damage: what is judged comes before 14 and 22, of a seventh goal too. */
static void directed_damage(void)
{
    hand_table();
    hand_goal(4, 1);
    op_answer_at(space, 4)[OP_ANSWER_SUBGOAL] = 1;
    by_hand_refused(GOALS(2), TABLES_REFUSED_DAMAGED);
    by_hand_refused(GOALS(4, 2), TABLES_REFUSED_DAMAGED);
    by_hand_refused(GOALS(4, 1, 1, 1, 1, 1, 1, 2), TABLES_REFUSED_DAMAGED);
    by_hand_refused(GOALS(2, 5), TABLES_REFUSED_NUMBER);
    by_hand_refused(GOALS(1, 4), TABLES_REFUSED_SOURCE_OPEN);
    by_hand(GOALS(1), 9, op_word(TABLES_DETOUR, 3), GOALS(2, 1, 2));
    hand_table();
    op_subgoal_at(space, 1)[OP_LAST] = 1; /* the chain's end is not compared with it */
    by_hand(GOALS(1), 9, op_word(TABLES_DETOUR, 3), GOALS(2, 1, 2));
    op_subgoal_at(space, 1)[OP_LAST] = 0;
    by_hand_refused(GOALS(1), TABLES_REFUSED_DAMAGED);
    hand_table();
    op_answer_at(space, 1)[OP_ANSWER_NEXT] = 0; /* taken as it stands: one answer */
    by_hand(GOALS(1), 9, op_word(TABLES_DETOUR, 5), GOALS(1, 1, 1));
    op_answer_at(space, 1)[OP_ANSWER_NEXT] = 1;
    by_hand_refused(GOALS(1), TABLES_REFUSED_DAMAGED);
    hand_table();
    op_node_at(space, op_answer_of(space, 2)[OP_ANSWER_LEAF])[OP_LINK] = 1; /* in range */
    by_hand(GOALS(1), 9, op_word(TABLES_DETOUR, 3), GOALS(2, 1, 2));
    op_node_at(space, op_answer_of(space, 2)[OP_ANSWER_LEAF])[OP_LINK] = 5;
    by_hand_refused(GOALS(1), TABLES_REFUSED_DAMAGED);
}

/* A path of 500 tokens, which no call enters and none loads. */
static void directed_long(void)
{
    enum { LONG = 500 };
    fresh_models(TABLES_EDITION_1, LONG + 50, 3, 3);
    hand_goal(1, 2);
    hand_answer(1, op_atom(1), op_integer(1));
    enter_finish(1, 1);
    by_hand(GOALS(1), 9, op_word(TABLES_DETOUR, 1), GOALS(1, 1, 1));
    uint32_t node = op_answer_of(space, 1)[OP_ANSWER_LEAF];
    for (uint32_t i = 0; i < LONG; i++, node++) {
        const uint32_t record[] = { tables_functor_cell(1, 1, 1), 0, 0, node, 0 };
        op_copy(op_node_at(space, node + 1), record, 5);
    }
    space[OP_NODES] = node + 1;
    op_answer_at(space, 1)[OP_ANSWER_LEAF] = node;
    by_hand_refused(GOALS(1), TABLES_REFUSED_DAMAGED);
}

/* The largest total: six goals of 2^28 - 1 minutes. */
static void directed_largest(void)
{
    fresh_models(TABLES_EDITION_2, 100, 6, 6);
    for (uint32_t i = 1; i <= 6; i++) {
        struct op_term term = { 3, { tables_functor_cell(2, i, 2), op_variable(1),
                                     op_variable(2) } };
        enter_call(&term, 1);
        hand_answer(i, op_atom(i), op_integer(TABLES_MOST_PAYLOAD));
        enter_finish(i, 1);
    }
    by_hand(GOALS(6, 5, 4, 3, 2, 1), UINT32_MAX, op_word(TABLES_DETOUR, 1610612730u),
            GOALS(6, 1, 6, 5, 4, 3, 2, 1));
}

static void directed(void)
{
    op_place("directed", 0);
    directed_searches();
    directed_refusals();
    directed_damage();
    directed_long();
    directed_largest();
}

static const struct op_due due[] = {
    { "detour", DETOURS, TABLES_DETOUR },
    { "no detour", DETOURS, TABLES_NO_DETOUR },
    { "refused by 1", DETOURS, TABLES_CALL_REFUSED + TABLES_REFUSED_HEADER },
    { "7", DETOURS, TABLES_CALL_REFUSED + TABLES_REFUSED_NUMBER },
    { "9", DETOURS, TABLES_CALL_REFUSED + TABLES_REFUSED_DAMAGED },
    { "14", DETOURS, TABLES_CALL_REFUSED + TABLES_REFUSED_SOURCE_OPEN },
    { "22", DETOURS, TABLES_CALL_REFUSED + TABLES_REFUSED_GOALS },
    { "12", DETOURS, TABLES_CALL_REFUSED + TABLES_REFUSED_OUT },
    { "ended with a total", SEARCHES, ENDED_TOTAL },
    { "with none", SEARCHES, ENDED_NONE },
    { "stopped with a total", SEARCHES, STOPPED_TOTAL },
    { "with none", SEARCHES, STOPPED_NONE }
};

int main(int argc, char **argv)
{
    uint64_t seed = argc > 1 ? strtoull(argv[1], NULL, 10) : 1;
    long rounds = argc > 2 ? strtol(argv[2], NULL, 10) : DEFAULT_ROUNDS;
    op_begin("detours_test", seed);
    op_arena_make(&lent.space, SPACE_ROOM);
    op_arena_make(&lent.goals, GOALS_ROOM);
    op_arena_make(&lent.out, OUT_ROOM);
    directed();
    for (long round = 1; round <= rounds; round++) {
        op_place("searches", round);
        round_searches();
        op_place("refusals", round);
        round_refusals();
        op_place("damaged", round);
        round_damaged();
        op_place("wild", round);
        round_wild();
    }
    return op_report(due, sizeof due / sizeof due[0], rounds >= DEFAULT_ROUNDS ? 20 : 1);
}
