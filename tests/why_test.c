/*
 * Tests tables_why and tables_why_indexed (request Q-10) against two models written from
 * the documents: the plain table, whose answer is read off the list of stored forms, and a
 * model on cells, which reads and judges exactly the records that the documents name.
 *
 *     why_test [seed [rounds]]        (why_test.c, opinion.c and the archive)
 *
 * The parts:
 *
 *   directed     answers that were worked out by hand
 *   calls        lists of calls on tables of both editions with why between them: both
 *                models, the store without an index and with one, and what tables_call
 *                says afterwards
 *   damaged      cells of records changed: the model on cells; with an index that it may
 *                use the store may answer otherwise, and only what it touches is looked at
 *   wild         random trees with links and leaves at random: the same
 *   renumbered   subgoals numbered otherwise than the nodes: tables_check refuses them
 *                where first children lead past a subgoal to a later one; where it
 *                does not, why answers as the plain table
 *
 * Each question is asked twice, with what is lent right before a guard page and right after
 * one, and every cell of space, index, term and out is compared afterwards.
 */
#include "opinion.h"

#include <stdio.h>
#include <stdlib.h>
#include <string.h>

enum {
    DEFAULT_ROUNDS = 4000,
    OUT_ROOM = 40,
    INDEX_ROOM = 4096,
    SPACE_ROOM = 1 << 14,
    POOL = 48,
    WHY = 0, /* groups of results */
    CALL = 1
};

static struct {
    struct op_arena space, index, term, out;
} lent;

/* The table under test, as the models have it. */
static struct op_plain plain;
static uint32_t space[SPACE_ROOM];
static size_t space_cells;

/* Terms used before, of which others are made, and an index built some time ago. */
static struct op_term pool[POOL];
static size_t pooled;
static uint32_t kept_index[INDEX_ROOM];
static size_t kept_cells;
static uint32_t wide_share; /* percent of terms that give one node many children */

/* The plain model. */

/* Writes the variables by rank, as why does for an old term. */
static void write_names(const struct op_form *form, uint32_t *out)
{
    out[0] = form->variables;
    op_copy(out + 1, form->names, form->variables);
}

static uint64_t plain_why(const uint32_t *term, size_t count, uint32_t *out, size_t out_cells)
{
    struct op_form form;
    uint32_t refusal = op_called(term, count, plain.edition, &form);
    uint32_t lowest = 0;
    size_t most = 0;
    if (refusal != 0)
        return op_refused(refusal, 0);
    if (out_cells < TABLES_WHY_CELLS)
        return op_refused(TABLES_REFUSED_OUT, TABLES_WHY_CELLS);
    for (uint32_t i = 1; i <= plain.subgoals; i++) {
        size_t shared = op_shared(&plain.subgoal[i].form, &form);
        if (shared == form.count && shared == plain.subgoal[i].form.count) {
            write_names(&form, out);
            return op_word(TABLES_WHY_OLD, i);
        }
        if (shared > most) {
            most = shared;
            lowest = i;
        }
    }
    out[0] = (uint32_t)most;
    return op_word(TABLES_WHY_NEW, lowest);
}

/* The model on cells. */

enum found { DAMAGED, NO_CHILD, CHILD };

/* A node reached from its parent: judged whole, and the parent is the expected one. */
static int child_sound(const uint32_t *cells, uint32_t node, uint32_t parent)
{
    return op_node_sound(cells, node, cells[OP_SUBGOALS]) &&
           op_node_of(cells, node)[OP_PARENT] == parent;
}

static enum found search(const uint32_t *cells, uint32_t *node, uint32_t token)
{
    uint32_t child = op_node_of(cells, *node)[OP_CHILD];
    while (child != 0) {
        if (!child_sound(cells, child, *node))
            return DAMAGED;
        if (op_node_of(cells, child)[OP_TOKEN] == token) {
            *node = child;
            return CHILD;
        }
        child = op_node_of(cells, child)[OP_SIBLING];
    }
    return NO_CHILD;
}

/* The subgoal of a leaf: its link, if the record is sound and names that leaf; else 0. */
static uint32_t subgoal_of_leaf(const uint32_t *cells, uint32_t leaf)
{
    uint32_t subgoal = op_node_of(cells, leaf)[OP_LINK];
    if (subgoal == 0 || !op_subgoal_sound(cells, subgoal) ||
        op_subgoal_of(cells, subgoal)[OP_LEAF] != leaf)
        return 0;
    return subgoal;
}

/* By first children down to a node that has none; 0 where damage is met. */
static uint32_t subgoal_below(const uint32_t *cells, uint32_t node)
{
    uint32_t child;
    while ((child = op_node_of(cells, node)[OP_CHILD]) != 0) {
        if (!child_sound(cells, child, node))
            return 0;
        node = child;
    }
    return subgoal_of_leaf(cells, node);
}

/* Follows the form from node 0: 0 where damage is met; else the tokens shared are told. */
static int follow(const uint32_t *cells, const struct op_form *form, uint32_t *node,
                  size_t *shared)
{
    *node = 0;
    *shared = 0;
    if (!op_node_sound(cells, 0, cells[OP_SUBGOALS])) /* so its parent is 0 */
        return 0;
    while (*shared < form->count) {
        enum found found = search(cells, node, form->tokens[*shared]);
        if (found != CHILD)
            return found == NO_CHILD;
        ++*shared;
    }
    return 1;
}

static uint64_t cells_why(const uint32_t *cells, size_t count, const uint32_t *term,
                          size_t term_cells, uint32_t *out, size_t out_cells)
{
    struct op_form form;
    uint32_t node, subgoal = 0;
    size_t shared;
    if (!op_header_sound(cells, count))
        return op_refused(TABLES_REFUSED_HEADER, 0);
    uint32_t refusal = op_called(term, term_cells, cells[OP_EDITION], &form);
    if (refusal != 0)
        return op_refused(refusal, 0);
    if (!follow(cells, &form, &node, &shared))
        return op_refused(TABLES_REFUSED_DAMAGED, 0);
    int old = shared == form.count;
    if (shared != 0)
        subgoal = old ? subgoal_of_leaf(cells, node) : subgoal_below(cells, node);
    if (shared != 0 && subgoal == 0)
        return op_refused(TABLES_REFUSED_DAMAGED, 0);
    if (out_cells < TABLES_WHY_CELLS)
        return op_refused(TABLES_REFUSED_OUT, TABLES_WHY_CELLS);
    if (old)
        write_names(&form, out);
    else
        out[0] = (uint32_t)shared;
    return op_word(old ? TABLES_WHY_OLD : TABLES_WHY_NEW, subgoal);
}

/* Asking the store. */

struct question {
    const uint32_t *space;
    size_t space_cells;
    const uint32_t *index; /* used where indexed is not 0 */
    size_t index_cells;
    int indexed;
    const uint32_t *term;
    size_t term_cells;
    size_t out_cells;
};

/* Lends the cells; no cells at all are lent as NULL, or as the address of a guard page. */
static uint32_t *lend(const struct op_arena *arena, const uint32_t *cells, size_t count,
                      int at_end)
{
    uint32_t *place = op_lend(arena, cells, count, at_end);
    return count == 0 && !at_end ? NULL : place;
}

static void check_kept(const struct op_arena *arena, const uint32_t *lent_cells,
                       const uint32_t *cells, size_t count, int at_end, const char *what)
{
    op_check(op_equal(lent_cells, cells, count) && op_margin_kept(arena, count, at_end),
             "why changed a cell of the %s or beside it", what);
}

static uint64_t ask_once(const struct question *q, uint32_t *out, int at_end)
{
    const uint32_t *s = lend(&lent.space, q->space, q->space_cells, at_end);
    const uint32_t *t = lend(&lent.term, q->term, q->term_cells, at_end);
    const uint32_t *x = lend(&lent.index, q->index, q->index_cells, at_end);
    uint32_t *o = lend(&lent.out, out, q->out_cells, at_end);
    uint64_t word = q->indexed
                        ? tables_why_indexed(s, q->space_cells, x, q->index_cells, t,
                                             q->term_cells, o, q->out_cells)
                        : tables_why(s, q->space_cells, t, q->term_cells, o, q->out_cells);
    check_kept(&lent.space, s, q->space, q->space_cells, at_end, "space");
    check_kept(&lent.term, t, q->term, q->term_cells, at_end, "term");
    check_kept(&lent.index, x, q->index, q->index_cells, at_end, "index");
    op_check(op_margin_kept(&lent.out, q->out_cells, at_end), "why wrote beside out");
    op_copy(out, o, q->out_cells);
    op_came(WHY, word);
    return word;
}

static void random_out(uint32_t *out)
{
    for (size_t i = 0; i < OUT_ROOM; i++)
        out[i] = (uint32_t)op_random();
}

/* Asks in both places, and compares with the word and the out that are due. */
static void expect(const struct question *q, const uint32_t *before, uint64_t want,
                   const uint32_t *want_out)
{
    for (int at_end = 0; at_end < 2; at_end++) {
        uint32_t out[OUT_ROOM];
        op_copy(out, before, OUT_ROOM);
        uint64_t word = ask_once(q, out, at_end);
        op_check(op_same(word, want), "why%s says %llx, not %llx", q->indexed ? " (index)" : "",
                 (unsigned long long)word, (unsigned long long)want);
        op_check(op_equal(out, want_out, OUT_ROOM), "why%s leaves another out (%llx)",
                 q->indexed ? " (index)" : "", (unsigned long long)word);
    }
}

/*
 * On a damaged space with an index that may be used: what is refused before a record is
 * read is refused so; the rest returns and writes what it may.
 */
static void expect_within(const struct question *q, const uint32_t *before, uint64_t chain,
                          const struct op_form *form)
{
    uint32_t by = tables_refused_by(chain);
    int early = by != 0 && by != TABLES_REFUSED_DAMAGED && by != TABLES_REFUSED_OUT;
    for (int at_end = 0; at_end < 2; at_end++) {
        uint32_t out[OUT_ROOM], due[OUT_ROOM];
        op_copy(out, before, OUT_ROOM);
        op_copy(due, before, OUT_ROOM);
        uint64_t word = ask_once(q, out, at_end);
        if (early)
            op_check(op_same(word, chain), "damaged, index: %llx, not %llx",
                     (unsigned long long)word, (unsigned long long)chain);
        if (tables_what(word) == TABLES_WHY_OLD)
            write_names(form, due);
        else if (tables_what(word) == TABLES_WHY_NEW)
            due[0] = out[0];
        else
            op_check(early || tables_refused_by(word) == TABLES_REFUSED_DAMAGED ||
                         (q->out_cells < TABLES_WHY_CELLS &&
                          tables_need(word) == TABLES_WHY_CELLS),
                     "damaged, index: %llx", (unsigned long long)word);
        op_check(q->out_cells >= TABLES_WHY_CELLS || tables_refused_by(word) != 0,
                 "damaged, index: %llx with a short out", (unsigned long long)word);
        op_check(op_equal(out, due, OUT_ROOM), "damaged, index: another out (%llx)",
                 (unsigned long long)word);
    }
}

/* Indexes. */

static size_t random_index(uint32_t *index, uint32_t nodes)
{
    size_t count = op_chance(70) ? (size_t)1 << op_below(8) : op_below(70);
    for (size_t i = 0; i < count; i++) {
        index[i] = op_chance(85) ? op_below(nodes + 3) : (uint32_t)op_random();
        if (op_chance(15))
            index[i] = 0;
    }
    return count;
}

/* Lets the store build an index over a space of any cells; its size may be too small. */
static size_t built_index(const uint32_t *cells, size_t count, uint32_t nodes, uint32_t *index)
{
    size_t size = 1;
    while (size < 2 * (size_t)nodes)
        size *= 2;
    size = op_chance(80) ? size : size / (1 + op_below(6)) + 1;
    if (op_chance(10) || size > INDEX_ROOM)
        size = 8;
    for (size_t i = 0; i < size; i++)
        index[i] = (uint32_t)op_random();
    const uint32_t *s = lend(&lent.space, cells, count, 1);
    uint32_t *x = lend(&lent.index, index, size, 1);
    uint64_t word = tables_build(s, count, x, size);
    check_kept(&lent.space, s, cells, count, 1, "space (by build)");
    op_check(op_margin_kept(&lent.index, size, 1), "build wrote beside the index");
    op_check(tables_what(word) == TABLES_BUILT || tables_refused_by(word) != 0, "build: %llx",
             (unsigned long long)word);
    if (tables_value(word) != 0)
        op_came(CALL, word); /* counted: indexes with children in them */
    op_copy(index, x, size);
    return size;
}

static size_t some_index(const uint32_t *cells, size_t count, uint32_t nodes, uint32_t *index)
{
    switch (op_below(5)) {
    case 0:
        return 0;
    case 1:
        return random_index(index, nodes);
    case 2:
        op_copy(index, kept_index, kept_cells);
        return kept_cells;
    default:
        kept_cells = built_index(cells, count, nodes, index);
        op_copy(kept_index, index, kept_cells);
        return kept_cells;
    }
}

/* Whether any entry of an index may count: its size is a power of two, and not all is 0. */
static int may_count(const uint32_t *index, size_t count)
{
    size_t free_cells = 0;
    for (size_t i = 0; i < count; i++)
        free_cells += index[i] == 0;
    return (count & (count - 1)) == 0 && free_cells < count;
}

/* Terms to ask for. */

static uint32_t functor(uint32_t name, uint32_t arity)
{
    return tables_functor_cell(plain.edition, name, arity);
}

static void keep_term(const struct op_term *term)
{
    pool[pooled < POOL ? pooled++ : op_below(POOL)] = *term;
}

static void random_called(struct op_term *term)
{
    term->count = 0;
    if (op_chance(8)) {
        op_put(term, op_atom(op_below(4)));
        return;
    }
    uint32_t arity = 1 + op_below(3);
    op_put(term, functor(op_below(2), arity));
    for (uint32_t i = 0; i < arity; i++)
        op_put_random(term, plain.edition, op_below(4));
}

/* Many children of one node: p(k), or p(q(k)), k an atom or an integer. */
static void wide_term(struct op_term *term)
{
    term->count = 0;
    op_put(term, functor(3, 1));
    if (op_chance(40))
        op_put(term, functor(op_below(2), 1));
    op_put(term, op_chance(50) ? op_atom(op_below(30)) : op_integer(op_below(30)));
}

/* p of a list with so many elements, each made by the kind; kind 3 has variables only. */
static void list_term(struct op_term *term, uint32_t elements, uint32_t kind)
{
    term->count = 0;
    op_put(term, functor(4, 1));
    for (uint32_t i = 0; i < elements; i++) {
        op_put(term, TABLES_PAIR_CELL);
        if (kind == 1)
            op_put(term, TABLES_PAIR_CELL);
        if (kind == 1)
            op_put(term, op_integer(1));
        op_put(term, kind == 3 ? op_variable(i * 3) : op_integer(op_chance(97) ? 2 : 3));
    }
    op_put(term, op_chance(80) ? TABLES_EMPTY_LIST : op_integer(5));
}

/* Lists nested in their heads: p([[[..]]]). */
static void deep_term(struct op_term *term, uint32_t depth)
{
    term->count = 0;
    op_put(term, functor(4, 1));
    for (uint32_t i = 0; i < depth; i++)
        op_put(term, TABLES_PAIR_CELL);
    op_put(term, op_integer(op_below(2)));
    for (uint32_t i = 0; i < depth; i++)
        op_put(term, op_chance(95) ? TABLES_EMPTY_LIST : op_atom(1));
}

/* A functor with as many arguments as the edition takes, or fewer. */
static void flat_term(struct op_term *term)
{
    uint32_t most = (uint32_t)TABLES_MOST_ARITY(plain.edition);
    uint32_t arity = op_chance(50) ? most : 1 + op_below(most);
    term->count = 0;
    op_put(term, functor(5, arity));
    for (uint32_t i = 0; i < arity; i++)
        op_put(term, op_chance(98) ? op_atom(1) : op_variable(op_below(40)));
}

static void long_term(struct op_term *term)
{
    switch (op_below(5)) {
    case 0:
        list_term(term, op_chance(30) ? 127 : 100 + op_below(28), 0);
        break;
    case 1:
        list_term(term, op_chance(30) ? 63 : 50 + op_below(14), 1);
        break;
    case 2:
        list_term(term, 30 + op_below(3), 3);
        break;
    case 3:
        deep_term(term, op_chance(30) ? 127 : 60 + op_below(68));
        break;
    default:
        flat_term(term);
        break;
    }
}

/* Puts another term for the term that begins at some cell. */
static void replace_part(struct op_term *term)
{
    struct op_term made = { 0, { 0 } };
    size_t at = op_below((uint32_t)term->count);
    size_t end = op_term_end(term->cells, at, plain.edition);
    for (size_t i = 0; i < at; i++)
        op_put(&made, term->cells[i]);
    op_put_random(&made, plain.edition, op_below(3));
    for (size_t i = end; i < term->count; i++)
        op_put(&made, term->cells[i]);
    *term = made;
}

/* Gives one variable of the term the name of another cell that is a variable. */
static void mix_names(struct op_term *term)
{
    size_t to = op_below((uint32_t)term->count), from = op_below((uint32_t)term->count);
    if (TABLES_KIND(term->cells[to]) == TABLES_VARIABLE &&
        TABLES_KIND(term->cells[from]) == TABLES_VARIABLE)
        term->cells[to] = term->cells[from];
}

static void pooled_term(struct op_term *term)
{
    if (pooled == 0) {
        random_called(term);
        return;
    }
    *term = pool[op_below((uint32_t)pooled)];
    uint32_t how = op_below(100);
    if (how < 50)
        op_rename(term);
    else if (how < 85)
        replace_part(term);
    else if (how < 95)
        mix_names(term);
}

/* Breaks one cell, so that the term is mostly refused by 3. */
static void break_cell(struct op_term *term)
{
    static const uint32_t wrong[] = { 0, 6, 7, 8, 9, 15 };
    uint32_t *cell = &term->cells[op_below((uint32_t)term->count)];
    switch (op_below(4)) {
    case 0:
        *cell = wrong[op_below(6)] << 28 | (op_chance(50) ? 0 : op_below(100));
        break;
    case 1:
        *cell = TABLES_CELL(TABLES_FUNCTOR, 0) | op_below(3) << 8;
        break;
    case 2:
        *cell = TABLES_PAIR_CELL | (1 + op_below(9));
        break;
    default:
        *cell = (uint32_t)op_random();
        break;
    }
}

/* Terms of which several things are wrong, or which are wrong in their length. */
static void wrong_term(struct op_term *term)
{
    pooled_term(term);
    switch (op_below(9)) {
    case 0:
        term->count = 0;
        break;
    case 1:
        term->count -= 1 + op_below((uint32_t)term->count);
        break;
    case 2:
        op_put(term, op_atom(1));
        break;
    case 3:
        list_term(term, 33 + op_below(3), 3);
        break;
    case 4: /* 33 variables and no predicate, or a broken cell too */
        list_term(term, 33, 3);
        memmove(term->cells, term->cells + 1, --term->count * sizeof(uint32_t));
        if (op_chance(50))
            break_cell(term);
        break;
    case 5: /* too long, and often broken as well */
        list_term(term, 128 + op_below(60), op_below(4));
        if (op_chance(50))
            break_cell(term);
        break;
    case 6:
        term->count = 0;
        op_put_random(term, plain.edition, 3);
        break;
    default:
        break_cell(term);
        break;
    }
}

static void pick_term(struct op_term *term)
{
    uint32_t how = op_below(100);
    if (op_chance(wide_share))
        wide_term(term);
    else if (how < 45)
        pooled_term(term);
    else if (how < 70)
        random_called(term);
    else if (how < 80)
        long_term(term);
    else
        wrong_term(term);
}

static size_t some_out(void)
{
    if (op_chance(90))
        return TABLES_WHY_CELLS + op_below(OUT_ROOM - TABLES_WHY_CELLS + 1);
    return op_chance(50) ? TABLES_WHY_CELLS - 1 : op_below(TABLES_WHY_CELLS);
}

/* The part on calls. */

static void check_models(uint64_t by_plain, uint64_t by_cells, const char *what)
{
    op_check(op_same(by_plain, by_cells), "the models differ on %s: %llx and %llx", what,
             (unsigned long long)by_plain, (unsigned long long)by_cells);
}

/* The promise for old: with variable i put for the i-th of them the stored term is there. */
static void check_renaming(const struct op_term *term, uint64_t word, const uint32_t *out)
{
    struct op_term renamed = *term;
    struct op_form form;
    if (tables_what(word) != TABLES_WHY_OLD)
        return;
    const struct op_form *stored = &plain.subgoal[tables_value(word)].form;
    for (size_t i = 0; i < renamed.count; i++)
        for (uint32_t k = 0; k < out[0]; k++)
            if (term->cells[i] == out[1 + k])
                renamed.cells[i] = op_variable(k);
    op_check(op_called(renamed.cells, renamed.count, plain.edition, &form) == 0 &&
                 form.count == stored->count && op_shared(&form, stored) == form.count &&
                 form.variables == out[0],
             "the renaming does not give the stored term");
    for (uint32_t k = 0; k < form.variables; k++)
        op_check(form.names[k] == op_variable(k), "variable %u of the renamed term", (unsigned)k);
}

/* Asks the table, without an index and with one; the word is what why says. */
static uint64_t ask_table(const struct op_term *term)
{
    uint32_t before[OUT_ROOM], want_out[OUT_ROOM], cells_out[OUT_ROOM], index[INDEX_ROOM];
    struct question q = { space, space_cells, NULL, 0, 0, term->cells, term->count, some_out() };
    random_out(before);
    op_copy(want_out, before, OUT_ROOM);
    op_copy(cells_out, before, OUT_ROOM);
    uint64_t want = plain_why(term->cells, term->count, want_out, q.out_cells);
    uint64_t by_cells = cells_why(space, space_cells, term->cells, term->count, cells_out,
                                  q.out_cells);
    check_models(want, by_cells, "why");
    op_check(op_equal(want_out, cells_out, OUT_ROOM), "the models differ on out");
    check_renaming(term, want, want_out);
    expect(&q, before, want, want_out);
    q.indexed = 1;
    q.index = index;
    q.index_cells = some_index(space, space_cells, plain.nodes, index);
    expect(&q, before, want, want_out);
    return want;
}

/* Carries out a call on a lent copy of the space as it was; afterwards it is the model's. */
static void check_space(const uint32_t *lent_cells, uint64_t word, uint64_t want,
                        const char *what)
{
    op_check(op_same(word, want), "%s says %llx, not %llx", what, (unsigned long long)word,
             (unsigned long long)want);
    op_check(op_equal(lent_cells, space, space_cells), "%s leaves another space", what);
}

/* What tables_call must say after why: of a full table why says new all the same. */
static void check_after(uint64_t why, uint64_t word)
{
    uint32_t what = tables_what(word), by = tables_refused_by(word);
    if (tables_what(why) == TABLES_WHY_OLD)
        op_check((what == TABLES_OLD_OPEN || what == TABLES_OLD_FINISHED) &&
                     tables_value(word) == tables_value(why),
                 "call after old: %llx", (unsigned long long)word);
    else if (tables_what(why) == TABLES_WHY_NEW)
        op_check(what == TABLES_NEW || by == TABLES_REFUSED_NO_NODE ||
                     by == TABLES_REFUSED_NO_RECORD,
                 "call after new: %llx", (unsigned long long)word);
    else if (tables_refused_by(why) != TABLES_REFUSED_OUT)
        op_check(by == tables_refused_by(why), "call after a refusal: %llx",
                 (unsigned long long)word);
}

static void call_table(const struct op_term *term, uint64_t why)
{
    uint32_t *s = op_lend(&lent.space, space, space_cells, op_chance(50));
    const uint32_t *t = op_lend(&lent.term, term->cells, term->count, 1);
    uint64_t word = tables_call(s, space_cells, t, term->count);
    uint64_t want = op_plain_call(&plain, term->cells, term->count);
    check_models(want, op_cells_call(space, term->cells, term->count), "call");
    check_space(s, word, want, "call");
    check_after(why, word);
    op_came(CALL, word);
    if (tables_what(want) == TABLES_NEW)
        keep_term(term);
}

/* A random answer to a random subgoal, or the finish of one. */
static void answer_or_finish(void)
{
    struct op_term terms = { 0, { 0 } };
    uint32_t subgoal = 1 + op_below(plain.subgoals);
    uint32_t *s = op_lend(&lent.space, space, space_cells, 1);
    if (plain.subgoals == 0)
        return;
    if (op_chance(40)) {
        uint64_t word = tables_finish(s, space_cells, subgoal);
        check_models(op_plain_finish(&plain, subgoal), op_cells_finish(space, subgoal), "finish");
        check_space(s, word, op_word(TABLES_DONE, 0), "finish");
        return;
    }
    for (uint32_t i = 0; i < plain.subgoal[subgoal].form.variables; i++)
        op_put_random(&terms, plain.edition, op_below(3));
    const uint32_t *t = op_lend(&lent.term, terms.cells, terms.count, 1);
    uint64_t word = tables_answer(s, space_cells, subgoal, t, terms.count);
    uint64_t want = op_plain_answer(&plain, subgoal, terms.cells, terms.count);
    check_models(want, op_cells_answer(space, subgoal, terms.cells, terms.count), "answer");
    check_space(s, word, want, "answer");
}

/* A fresh table, for the models; the cells past its end are as they happen to be. */
static void fresh_models(uint32_t nodes, uint32_t subgoals, uint32_t answers)
{
    uint32_t edition = 1 + op_below(2);
    space_cells = TABLES_SPACE_CELLS(nodes, subgoals, answers) + op_below(4);
    for (size_t i = 0; i < space_cells; i++)
        space[i] = (uint32_t)op_random();
    op_plain_fresh(&plain, edition, nodes, subgoals, answers);
    op_cells_fresh(space, space_cells, nodes, subgoals, answers, edition);
    pooled = 0;
}

static void fresh_table(void)
{
    uint32_t nodes = op_chance(40) ? 1 + op_below(40) : 100 + op_below(1500);
    uint32_t subgoals = op_chance(70) ? 60 : op_below(12);
    fresh_models(nodes, subgoals, op_below(30));
    uint32_t *s = op_lend(&lent.space, space, space_cells, 1);
    uint64_t word = tables_fresh(s, space_cells, nodes, subgoals, plain.most_answers,
                                 plain.edition);
    check_space(s, word, op_word(TABLES_DONE, 0), "fresh");
}

static void round_calls(void)
{
    struct op_term term;
    fresh_table();
    wide_share = op_chance(30) ? 70 : 5;
    for (int step = wide_share > 50 ? 50 : 30; step > 0; step--) {
        if (op_chance(15)) {
            answer_or_finish();
            continue;
        }
        pick_term(&term);
        uint64_t why = ask_table(&term);
        if (op_chance(60))
            call_table(&term, why);
    }
}

/* The part on damaged spaces. */

static void model_call(void)
{
    struct op_term term;
    pick_term(&term);
    if (tables_what(op_plain_call(&plain, term.cells, term.count)) == TABLES_NEW) {
        op_cells_call(space, term.cells, term.count);
        keep_term(&term);
    }
}

static void model_answer(void)
{
    struct op_term terms = { 0, { 0 } };
    uint32_t subgoal = 1 + op_below(plain.subgoals);
    if (plain.subgoals == 0)
        return;
    for (uint32_t i = 0; i < plain.subgoal[subgoal].form.variables; i++)
        op_put_random(&terms, plain.edition, 1);
    op_plain_answer(&plain, subgoal, terms.cells, terms.count);
    op_cells_answer(space, subgoal, terms.cells, terms.count);
}

static void damage_space(void)
{
    int times = op_chance(8) ? 25 : 1 + (int)op_below(4);
    for (int i = 0; i < times && op_header_sound(space, space_cells); i++)
        op_damage(space, space_cells);
    if (op_chance(2))
        space_cells = op_below((uint32_t)space_cells + 1);
}

/* Asks a space of any cells: the edition by which terms are made may be another one. */
static void ask_damaged(const struct op_term *term)
{
    uint32_t before[OUT_ROOM], want_out[OUT_ROOM], index[INDEX_ROOM];
    struct question q = { space, space_cells, NULL, 0, 0, term->cells, term->count, some_out() };
    struct op_form form;
    random_out(before);
    op_copy(want_out, before, OUT_ROOM);
    uint64_t want = cells_why(space, space_cells, term->cells, term->count, want_out,
                              q.out_cells);
    expect(&q, before, want, want_out);
    q.indexed = 1;
    q.index = index;
    q.index_cells = some_index(space, space_cells, plain.nodes, index);
    uint32_t edition = space_cells == 0 ? 1 : space[OP_EDITION];
    op_called(term->cells, term->count, edition, &form);
    if (may_count(index, q.index_cells))
        expect_within(&q, before, want, &form);
    else
        expect(&q, before, want, want_out);
}

static void round_damaged(void)
{
    struct op_term term;
    fresh_models(100 + op_below(900), 20, 20);
    wide_share = op_chance(15) ? 90 : 5;
    uint32_t calls = wide_share > 50 ? 19 : 1 + op_below(7);
    for (uint32_t i = 0; i < calls; i++) {
        model_call();
        if (op_chance(40))
            model_answer();
    }
    damage_space();
    for (int i = 0; i < 8; i++) {
        pick_term(&term);
        ask_damaged(&term);
    }
}

/* The part on wild spaces: nodes in random trees, links and leaves at random. */

static uint32_t wild_token(void)
{
    switch (op_below(8)) {
    case 0:
    case 1:
        return op_atom(op_below(2));
    case 2:
        return op_variable(op_below(2));
    case 3:
        return op_integer(op_below(2));
    case 4:
        return op_chance(60) ? TABLES_CELL(TABLES_BLIST, 0) : TABLES_CELL(TABLES_ELIST, 0);
    default:
        return functor(op_below(2), 1 + op_below(2));
    }
}

/* Hangs the node below a random one before it, after the last sibling. */
static void hang_node(uint32_t node)
{
    uint32_t parent = op_chance(40) ? node - 1 : op_below(node);
    const uint32_t record[] = { wild_token(), 0, 0, parent, 0 };
    uint32_t *place = &op_node_at(space, parent)[OP_CHILD];
    while (*place != 0)
        place = &op_node_at(space, *place)[OP_SIBLING];
    *place = node;
    op_copy(op_node_at(space, node), record, 5);
}

static void wild_space(void)
{
    uint32_t nodes = 2 + op_below(10), subgoals = 1 + op_below(5);
    fresh_models(nodes + op_below(3), subgoals + op_below(2), op_below(3));
    plain.nodes = space[OP_NODES] = nodes;
    space[OP_SUBGOALS] = subgoals;
    for (uint32_t i = 1; i < nodes; i++)
        hang_node(i);
    for (uint32_t i = 1; i <= subgoals; i++) {
        uint32_t leaf = op_below(nodes);
        const uint32_t record[] = { leaf, op_below(nodes), op_below(3), op_below(2), 0, 0 };
        for (int k = 0; k < 4 && op_node_of(space, leaf)[OP_CHILD] != 0; k++)
            leaf = op_node_of(space, leaf)[OP_CHILD];
        op_copy(op_subgoal_at(space, i), record, 6);
        op_subgoal_at(space, i)[OP_LEAF] = leaf;
        op_node_at(space, leaf)[OP_LINK] = op_chance(95) ? i : op_below(subgoals + 1);
    }
}

static void round_wild(void)
{
    struct op_term term;
    wild_space();
    wide_share = 0;
    if (op_chance(40))
        damage_space();
    for (int i = 0; i < 6; i++) {
        do
            random_called(&term);
        while (term.count > 8);
        ask_damaged(&term);
    }
}

/* The part on other numbers. */

/* Gives the subgoals other numbers, in the records, on the leaves and in the plain table. */
static void renumber(void)
{
    static struct op_entry entries[OP_MOST_SUBGOALS + 1];
    uint32_t number[OP_MOST_SUBGOALS + 1], records[6 * OP_MOST_SUBGOALS];
    uint32_t count = plain.subgoals;
    for (uint32_t i = 1; i <= count; i++) {
        uint32_t j = 1 + op_below(i);
        number[i] = j == i ? i : number[j];
        number[j] = i;
    }
    op_copy(records, op_subgoal_at(space, 1), (size_t)6 * count);
    memcpy(entries, plain.subgoal, sizeof entries);
    for (uint32_t i = 1; i <= count; i++) {
        const uint32_t *record = records + (size_t)6 * (i - 1);
        op_copy(op_subgoal_at(space, number[i]), record, 6);
        op_node_at(space, record[OP_LEAF])[OP_LINK] = number[i];
        plain.subgoal[number[i]] = entries[i];
    }
}

/* The lowest subgoal below each node of the subgoal trie. */
static void find_lowest(uint32_t *lowest)
{
    for (uint32_t i = 0; i < space[OP_NODES]; i++)
        lowest[i] = UINT32_MAX;
    for (uint32_t i = space[OP_NODES] - 1; i > 0; i--) {
        const uint32_t *node = op_node_of(space, i);
        if (node[OP_LINK] != 0)
            lowest[i] = node[OP_LINK];
        if (lowest[i] < lowest[node[OP_PARENT]])
            lowest[node[OP_PARENT]] = lowest[i];
    }
}

/* The first node, node 0 left out, from which first children lead past a lower subgoal. */
static uint32_t leading_past(const uint32_t *lowest)
{
    for (uint32_t i = 1; i < space[OP_NODES]; i++)
        if (lowest[i] != UINT32_MAX && subgoal_below(space, i) != lowest[i])
            return i;
    return 0;
}

/*
 * The check refuses such a node. Of node 0 the documents leave it open: no call to why
 * begins there. 1 where the space was found whole.
 */
static int check_numbers(void)
{
    static uint32_t lowest[SPACE_ROOM];
    find_lowest(lowest);
    uint32_t past = leading_past(lowest);
    const uint32_t *s = op_lend(&lent.space, space, space_cells, op_chance(50));
    uint64_t word = tables_check(s, space_cells);
    op_came(CALL, word);
    op_check(op_equal(s, space, space_cells), "check changed the space");
    if (past != 0)
        op_check(tables_refused_by(word) == TABLES_REFUSED_DAMAGED,
                 "check says %llx of first children that lead past from node %u",
                 (unsigned long long)word, (unsigned)past);
    else if (plain.subgoals == 0 || subgoal_below(space, 0) == lowest[0])
        op_check(op_same(word, op_word(TABLES_DONE, 0)), "check says %llx of whole numbers",
                 (unsigned long long)word);
    return tables_what(word) == TABLES_DONE;
}

static void round_renumbered(void)
{
    struct op_term term;
    fresh_models(1000, 20, 5);
    wide_share = op_chance(20) ? 70 : 5;
    uint32_t calls = wide_share > 50 ? 18 : 2 + op_below(6);
    for (uint32_t i = 0; i < calls; i++)
        model_call();
    if (op_chance(90))
        renumber();
    int whole = check_numbers();
    for (int i = 0; i < 5; i++) {
        pick_term(&term);
        if (whole)
            ask_table(&term);
        else
            ask_damaged(&term);
    }
    damage_space();
    for (int i = 0; i < 3; i++) {
        pick_term(&term);
        ask_damaged(&term);
    }
}

/* The directed part: edition 1, answers by hand. */

#define F2 0x40000012u /* f/2 */
#define G2 0x40000022u /* g/2 */
#define P1 0x40000031u /* p/1 */
#define VAR(name) (0x10000000u | (name))
#define ATOM(number) (0x20000000u | (number))
#define INT(value) (0x30000000u | (value))
#define PAIR 0x50000000u
#define TERM(...) (const uint32_t[]){ __VA_ARGS__ }, sizeof(uint32_t[]){ __VA_ARGS__ } / 4

/* Expects a word, and so many cells of out written; the model is not asked. */
static void by_hand(const uint32_t *term, size_t count, uint64_t want, const uint32_t *written,
                    size_t cells)
{
    uint32_t before[OUT_ROOM], want_out[OUT_ROOM];
    struct question q = { space, space_cells, NULL, 0, 0, term, count, TABLES_WHY_CELLS };
    random_out(before);
    op_copy(want_out, before, OUT_ROOM);
    op_copy(want_out, written, cells);
    expect(&q, before, want, want_out);
    q.indexed = 1;
    expect(&q, before, want, want_out);
}

static void by_hand_new(const uint32_t *term, size_t count, uint32_t shared, uint32_t subgoal)
{
    by_hand(term, count, op_word(TABLES_WHY_NEW, subgoal), &shared, 1);
}

static void by_hand_refused(const uint32_t *term, size_t count, uint32_t refusal)
{
    by_hand(term, count, op_refused(refusal, 0), NULL, 0);
}

static void enter_by_hand(const uint32_t *term, size_t count, uint32_t number)
{
    uint32_t *s = op_lend(&lent.space, space, space_cells, 1);
    uint64_t word = tables_call(s, space_cells, term, count);
    op_check(op_same(word, op_word(TABLES_NEW, number)), "call by hand: %llx",
             (unsigned long long)word);
    op_check(op_same(op_cells_call(space, term, count), word), "the model's call by hand");
    op_check(op_equal(s, space, space_cells), "another space by hand");
}

static void fresh_by_hand(uint32_t nodes, uint32_t subgoals)
{
    space_cells = TABLES_SPACE_CELLS(nodes, subgoals, 3);
    op_cells_fresh(space, space_cells, nodes, subgoals, 3, TABLES_EDITION_1);
}

static void directed_terms(void)
{
    fresh_by_hand(60, 4);
    by_hand_new(TERM(F2, VAR(1), ATOM(1)), 0, 0);
    enter_by_hand(TERM(F2, VAR(7), ATOM(1)), 1);
    enter_by_hand(TERM(G2, VAR(7), VAR(9)), 2);
    enter_by_hand(TERM(F2, VAR(9), INT(1)), 3);
    by_hand(TERM(F2, VAR(5), ATOM(1)), op_word(TABLES_WHY_OLD, 1), TERM(1, VAR(5)));
    by_hand(TERM(G2, VAR(2), VAR(0)), op_word(TABLES_WHY_OLD, 2), TERM(2, VAR(2), VAR(0)));
    by_hand(TERM(F2, VAR(0xfffffff), INT(1)), op_word(TABLES_WHY_OLD, 3),
            TERM(1, VAR(0xfffffff)));
    by_hand_new(TERM(F2, VAR(5), ATOM(2)), 2, 1);
    by_hand_new(TERM(F2, VAR(5), INT(2)), 2, 1);
    by_hand_new(TERM(F2, VAR(5), VAR(5)), 2, 1);
    by_hand_new(TERM(F2, ATOM(1), ATOM(1)), 1, 1);
    by_hand_new(TERM(G2, VAR(5), VAR(5)), 2, 2);
    by_hand_new(TERM(ATOM(1)), 0, 0);
    by_hand_new(TERM(P1, ATOM(1)), 0, 0);
}

/* p([1,2,3]) is subgoal 4: p/1 BLIST 1 2 ELIST 3. The table is full then. */
static void directed_lists(void)
{
    enter_by_hand(TERM(P1, PAIR, INT(1), PAIR, INT(2), PAIR, INT(3), ATOM(0)), 4);
    by_hand(TERM(P1, PAIR, INT(1), PAIR, INT(2), PAIR, INT(3), ATOM(0)),
            op_word(TABLES_WHY_OLD, 4), TERM(0));
    by_hand_new(TERM(P1, PAIR, INT(1), PAIR, INT(2), ATOM(0)), 3, 4);
    by_hand_new(TERM(P1, PAIR, INT(1), PAIR, INT(2), INT(3)), 4, 4);
    by_hand_new(TERM(P1, PAIR, INT(1), PAIR, INT(2), PAIR, INT(3), PAIR, INT(4), ATOM(0)), 4, 4);
    by_hand_new(TERM(P1, PAIR, INT(1), PAIR, INT(2), PAIR, INT(4), ATOM(0)), 5, 4);
    by_hand_new(TERM(P1, PAIR, PAIR, INT(1), ATOM(0), ATOM(0)), 2, 4);
    by_hand_new(TERM(P1, ATOM(0)), 1, 4);
    by_hand_refused(TERM(P1), TABLES_REFUSED_TERM);
    by_hand_refused(TERM(P1, INT(1), INT(1)), TABLES_REFUSED_TERM);
    by_hand_refused(TERM(0x40000010u), TABLES_REFUSED_TERM);
    by_hand_refused(TERM(VAR(1)), TABLES_REFUSED_PREDICATE);
    by_hand_refused(TERM(INT(1)), TABLES_REFUSED_PREDICATE);
    by_hand_refused(TERM(PAIR, INT(1), ATOM(0)), TABLES_REFUSED_PREDICATE);
    by_hand_refused(NULL, 0, TABLES_REFUSED_TERM);
}

/* The order of the refusals: each time the first is taken away the next comes. */
static void directed_order(void)
{
    struct op_term term;
    uint32_t before[OUT_ROOM];
    plain.edition = TABLES_EDITION_1;
    list_term(&term, 128, 3);
    term.cells[0] = PAIR; /* no predicate: wrong in five ways */
    term.cells[1] = 0;
    struct question q = { space, 7, NULL, 0, 0, term.cells, term.count, 32 };
    random_out(before);
    expect(&q, before, op_refused(TABLES_REFUSED_HEADER, 0), before);
    q.space = NULL;
    q.space_cells = 0;
    expect(&q, before, op_refused(TABLES_REFUSED_HEADER, 0), before);
    uint32_t link = op_subgoal_of(space, 1)[OP_LEAF];
    op_node_at(space, link)[OP_LINK] = 0;
    q.space = space;
    q.space_cells = space_cells;
    expect(&q, before, op_refused(TABLES_REFUSED_LENGTH, 0), before);
    q.term_cells = 100;
    expect(&q, before, op_refused(TABLES_REFUSED_TERM, 0), before);
    list_term(&term, 33, 3);
    q.term = term.cells + 1;
    q.term_cells = term.count - 1;
    expect(&q, before, op_refused(TABLES_REFUSED_VARIABLES, 0), before);
    term.cells[2] = op_atom(1);
    expect(&q, before, op_refused(TABLES_REFUSED_PREDICATE, 0), before);
    q.term = (const uint32_t[]){ F2, VAR(3), ATOM(2) };
    q.term_cells = 3;
    expect(&q, before, op_refused(TABLES_REFUSED_DAMAGED, 0), before);
    op_node_at(space, link)[OP_LINK] = 1;
    expect(&q, before, op_refused(TABLES_REFUSED_OUT, 33), before);
    q.out_cells = 0;
    expect(&q, before, op_refused(TABLES_REFUSED_OUT, 33), before);
}

/* f(f(.. 500 times: no call enters it, but why judges only what it reads (point 79). */
static void directed_chain(void)
{
    enum { DEEP = 500 };
    uint32_t f1 = 0x40000011u;
    fresh_by_hand(DEEP + 2, 1);
    for (uint32_t i = 1; i <= DEEP; i++) {
        op_node_at(space, i - 1)[OP_CHILD] = i;
        op_node_at(space, i)[OP_TOKEN] = f1;
        op_node_at(space, i)[OP_PARENT] = i - 1;
    }
    op_node_at(space, DEEP)[OP_LINK] = 1;
    op_node_at(space, DEEP + 1)[OP_PARENT] = DEEP + 1;
    space[OP_NODES] = DEEP + 2;
    space[OP_SUBGOALS] = 1;
    op_subgoal_at(space, 1)[OP_LEAF] = DEEP;
    op_subgoal_at(space, 1)[OP_ROOT] = DEEP + 1;
    by_hand_new(TERM(f1, ATOM(1)), 1, 1);
    by_hand_new(TERM(f1, f1, ATOM(1)), 2, 1);
    op_node_at(space, 400)[OP_PARENT] = 398;
    by_hand_refused(TERM(f1, ATOM(1)), TABLES_REFUSED_DAMAGED);
}

/*
 * p(b) as subgoal 2 and p(a) as subgoal 1, the nodes of p(b) first: from p/1 first children
 * lead past subgoal 1. With the two numbers exchanged the same nodes are whole.
 */
static void directed_numbers(void)
{
    fresh_by_hand(10, 2);
    op_cells_call(space, TERM(P1, ATOM(2)));
    op_cells_call(space, TERM(P1, ATOM(1)));
    uint64_t word = tables_check(space, space_cells);
    op_came(CALL, word);
    op_check(op_same(word, op_word(TABLES_DONE, 0)), "check of the right numbers");
    by_hand_new(TERM(P1, ATOM(3)), 1, 1);
    uint32_t record[6];
    op_copy(record, op_subgoal_at(space, 1), 6);
    op_copy(op_subgoal_at(space, 1), op_subgoal_at(space, 2), 6);
    op_copy(op_subgoal_at(space, 2), record, 6);
    op_node_at(space, op_subgoal_at(space, 1)[OP_LEAF])[OP_LINK] = 1;
    op_node_at(space, op_subgoal_at(space, 2)[OP_LEAF])[OP_LINK] = 2;
    word = tables_check(space, space_cells);
    op_came(CALL, word);
    op_check(tables_refused_by(word) == TABLES_REFUSED_DAMAGED,
             "check of first children that lead past a subgoal");
    by_hand_new(TERM(P1, ATOM(3)), 1, 2); /* point 79: by first children */
}

static void call_by_hand(const uint32_t *term, size_t count, uint64_t want)
{
    uint32_t *s = op_lend(&lent.space, space, space_cells, 1);
    uint64_t word = tables_call(s, space_cells, term, count);
    op_check(op_same(word, want), "call by hand: %llx, not %llx", (unsigned long long)word,
             (unsigned long long)want);
    op_came(CALL, word);
}

/* Full tables: why says new, call is refused by 10 or 11; old is old. */
static void directed_full(void)
{
    fresh_by_hand(3, 5);
    call_by_hand(TERM(ATOM(1)), op_word(TABLES_NEW, 1));
    enter_by_hand(TERM(ATOM(1)), 1);
    by_hand_new(TERM(ATOM(2)), 0, 0);
    call_by_hand(TERM(ATOM(2)), op_refused(TABLES_REFUSED_NO_NODE, 0));
    fresh_by_hand(60, 1);
    enter_by_hand(TERM(P1, ATOM(1)), 1);
    by_hand_new(TERM(P1, ATOM(2)), 1, 1);
    call_by_hand(TERM(P1, ATOM(2)), op_refused(TABLES_REFUSED_NO_RECORD, 0));
    call_by_hand(TERM(P1, ATOM(1)), op_word(TABLES_OLD_OPEN, 1));
    op_cells_finish(space, 1);
    by_hand(TERM(P1, ATOM(1)), op_word(TABLES_WHY_OLD, 1), TERM(0));
    call_by_hand(TERM(P1, ATOM(1)), op_word(TABLES_OLD_FINISHED, 1));
}

/* Twenty children of one node, found through an index that was built. */
static void directed_index(void)
{
    uint32_t index[64] = { 0 }, before[OUT_ROOM], want_out[OUT_ROOM];
    fresh_by_hand(60, 20);
    for (uint32_t i = 1; i <= 20; i++)
        enter_by_hand(TERM(P1, ATOM(i * 17)), i);
    uint64_t word = tables_build(space, space_cells, index, 64);
    op_check(op_same(word, op_word(TABLES_BUILT, 20)), "build: %llx", (unsigned long long)word);
    op_came(CALL, word);
    random_out(before);
    for (uint32_t i = 0; i <= 21; i++) {
        const uint32_t term[] = { P1, ATOM(i * 17) };
        int old = i >= 1 && i <= 20;
        struct question q = { space, space_cells, index, 64, 1, term, 2, OUT_ROOM };
        op_copy(want_out, before, OUT_ROOM);
        want_out[0] = !old;
        expect(&q, before, op_word(old ? TABLES_WHY_OLD : TABLES_WHY_NEW, old ? i : 1), want_out);
    }
}

static void directed(void)
{
    op_place("directed", 0);
    directed_full();
    directed_index();
    directed_terms();
    directed_lists();
    directed_order();
    directed_chain();
    directed_numbers();
}

static const struct op_due due[] = {
    { "old", WHY, TABLES_WHY_OLD },
    { "new", WHY, TABLES_WHY_NEW },
    { "refused by 1", WHY, TABLES_CALL_REFUSED + TABLES_REFUSED_HEADER },
    { "4", WHY, TABLES_CALL_REFUSED + TABLES_REFUSED_LENGTH },
    { "3", WHY, TABLES_CALL_REFUSED + TABLES_REFUSED_TERM },
    { "5", WHY, TABLES_CALL_REFUSED + TABLES_REFUSED_VARIABLES },
    { "6", WHY, TABLES_CALL_REFUSED + TABLES_REFUSED_PREDICATE },
    { "9", WHY, TABLES_CALL_REFUSED + TABLES_REFUSED_DAMAGED },
    { "12", WHY, TABLES_CALL_REFUSED + TABLES_REFUSED_OUT },
    { "call new", CALL, TABLES_NEW },
    { "old open", CALL, TABLES_OLD_OPEN },
    { "old finished", CALL, TABLES_OLD_FINISHED },
    { "call refused by 10", CALL, TABLES_CALL_REFUSED + TABLES_REFUSED_NO_NODE },
    { "11", CALL, TABLES_CALL_REFUSED + TABLES_REFUSED_NO_RECORD },
    { "indexes built", CALL, TABLES_BUILT },
    { "numbers whole", CALL, TABLES_DONE },
    { "leading past", CALL, TABLES_CALL_REFUSED + TABLES_REFUSED_DAMAGED }
};

int main(int argc, char **argv)
{
    uint64_t seed = argc > 1 ? strtoull(argv[1], NULL, 10) : 1;
    long rounds = argc > 2 ? strtol(argv[2], NULL, 10) : DEFAULT_ROUNDS;
    op_begin("why_test", seed);
    op_arena_make(&lent.space, SPACE_ROOM);
    op_arena_make(&lent.index, INDEX_ROOM);
    op_arena_make(&lent.term, OP_TERM_ROOM);
    op_arena_make(&lent.out, OUT_ROOM);
    directed();
    for (long round = 1; round <= rounds; round++) {
        op_place("calls", round);
        round_calls();
        op_place("damaged", round);
        round_damaged();
        op_place("wild", round);
        round_wild();
        op_place("renumbered", round);
        round_renumbered();
    }
    return op_report(due, sizeof due / sizeof due[0], rounds >= DEFAULT_ROUNDS ? 20 : 1);
}
