/* What the tests of the second opinion share; opinion.h says what that is. */
#define _DEFAULT_SOURCE
#include "opinion.h"

#include <signal.h>
#include <stdarg.h>
#include <stdio.h>
#include <stdlib.h>
#include <string.h>
#include <sys/mman.h>
#include <unistd.h>

/* Random numbers (splitmix64). */

static uint64_t random_state;

void op_seed(uint64_t seed)
{
    random_state = seed;
}

uint64_t op_random(void)
{
    uint64_t z = random_state += UINT64_C(0x9e3779b97f4a7c15);
    z = (z ^ (z >> 30)) * UINT64_C(0xbf58476d1ce4e5b9);
    z = (z ^ (z >> 27)) * UINT64_C(0x94d049bb133111eb);
    return z ^ (z >> 31);
}

uint32_t op_below(uint32_t bound)
{
    return bound == 0 ? 0 : (uint32_t)((op_random() >> 32) * bound >> 32);
}

int op_chance(uint32_t percent)
{
    return op_below(100) < percent;
}

/* Checks and results. */

enum { MOST_WHAT = 512, MOST_PRINTED = 12, PATIENCE = 60 };

static const char *the_program = "";
static const char *the_part = "";
static long the_round;
static uint64_t the_seed;
static long long checks, failures;
static long long came[OP_GROUPS][MOST_WHAT];

static void on_signal(int number)
{
    const char *what = number == SIGALRM ? "a call does not return"
                                         : "a call touched cells that were not lent";
    char line[256];
    int length = snprintf(line, sizeof line, "%s: %s: %s, round %ld, seed %llu\n", the_program,
                          what, the_part, the_round, (unsigned long long)the_seed);
    if (length > 0 && write(STDOUT_FILENO, line, (size_t)length) < 0)
        _exit(2);
    _exit(1);
}

void op_begin(const char *program, uint64_t seed)
{
    the_program = program;
    the_seed = seed;
    signal(SIGSEGV, on_signal);
    signal(SIGBUS, on_signal);
    signal(SIGALRM, on_signal);
    op_seed(seed);
}

void op_place(const char *part, long round)
{
    the_part = part;
    the_round = round;
    alarm(PATIENCE);
}

int op_check(int holds, const char *format, ...)
{
    checks++;
    if (holds)
        return 1;
    if (failures++ < MOST_PRINTED) {
        va_list list;
        va_start(list, format);
        printf("%s: %s, round %ld, seed %llu: ", the_program, the_part, the_round,
               (unsigned long long)the_seed);
        vprintf(format, list);
        printf("\n");
        va_end(list);
    }
    return 0;
}

void op_came(unsigned group, uint64_t word)
{
    uint32_t what = tables_what(word);
    if (group < OP_GROUPS)
        came[group][what < MOST_WHAT ? what : MOST_WHAT - 1]++;
}

uint32_t op_by(uint32_t refusal)
{
    return TABLES_CALL_REFUSED + refusal;
}

int op_report(const struct op_due *due, size_t count, long least)
{
    int seldom = 0;
    printf("%s: %lld checks;", the_program, checks);
    for (size_t i = 0; i < count; i++) {
        long long times = came[due[i].group][due[i].what];
        printf(" %s %lld%s", due[i].name, times, i + 1 < count ? "," : ";");
        seldom += times < least;
    }
    printf(" %lld failures", failures);
    if (seldom != 0)
        printf("; %d results came fewer than %ld times", seldom, least);
    printf("\n");
    return failures != 0 || seldom != 0;
}

uint64_t op_word(uint32_t what, uint32_t value)
{
    return (uint64_t)what << 32 | value;
}

uint64_t op_refused(uint32_t refusal, uint32_t need)
{
    return op_word(op_by(refusal), need);
}

int op_same(uint64_t one, uint64_t other)
{
    return tables_what(one) == tables_what(other) && tables_value(one) == tables_value(other) &&
           tables_need(one) == tables_need(other) &&
           tables_broken_kind(one) == tables_broken_kind(other) &&
           tables_broken_number(one) == tables_broken_number(other);
}

/* Memory between guard pages. */

enum { MARGIN = 64 };
static const uint32_t margin_cell = UINT32_C(0xa5c3960f);

void op_arena_make(struct op_arena *arena, size_t cells)
{
    size_t page = (size_t)sysconf(_SC_PAGESIZE);
    size_t bytes = ((cells + MARGIN) * sizeof(uint32_t) + page - 1) / page * page;
    char *all = mmap(NULL, bytes + 2 * page, PROT_READ | PROT_WRITE, MAP_PRIVATE | MAP_ANONYMOUS,
                     -1, 0);
    if (all == MAP_FAILED || mprotect(all, page, PROT_NONE) != 0 ||
        mprotect(all + page + bytes, page, PROT_NONE) != 0) {
        perror("mmap");
        exit(2);
    }
    arena->first = (uint32_t *)(void *)(all + page);
    arena->cells = bytes / sizeof(uint32_t);
}

static uint32_t *margin_of(const struct op_arena *arena, size_t count, int at_end)
{
    return at_end ? arena->first + arena->cells - count - MARGIN : arena->first + count;
}

uint32_t *op_lend(const struct op_arena *arena, const uint32_t *cells, size_t count, int at_end)
{
    if (count + MARGIN > arena->cells) {
        printf("%s: an arena is too small\n", the_program);
        exit(2);
    }
    uint32_t *margin = margin_of(arena, count, at_end);
    uint32_t *place = at_end ? margin + MARGIN : arena->first;
    for (size_t i = 0; i < MARGIN; i++)
        margin[i] = margin_cell;
    op_copy(place, cells, count);
    return place;
}

int op_margin_kept(const struct op_arena *arena, size_t count, int at_end)
{
    const uint32_t *margin = margin_of(arena, count, at_end);
    for (size_t i = 0; i < MARGIN; i++)
        if (margin[i] != margin_cell)
            return 0;
    return 1;
}

int op_equal(const uint32_t *one, const uint32_t *other, size_t count)
{
    return count == 0 || memcmp(one, other, count * sizeof *one) == 0;
}

void op_copy(uint32_t *to, const uint32_t *from, size_t count)
{
    if (count != 0)
        memcpy(to, from, count * sizeof *to);
}

/* Terms. */

uint32_t op_variable(uint32_t name)
{
    return tables_cell(TABLES_VARIABLE, name);
}

uint32_t op_atom(uint32_t number)
{
    return tables_cell(TABLES_ATOM, number);
}

uint32_t op_integer(uint32_t value)
{
    return tables_cell(TABLES_INTEGER, value);
}

void op_put(struct op_term *term, uint32_t cell)
{
    if (term->count < OP_TERM_ROOM)
        term->cells[term->count++] = cell;
}

static void put_constant(struct op_term *term)
{
    static const uint32_t names[] = { 0, 1, 7, 1000, TABLES_MOST_PAYLOAD };
    switch (op_below(8)) {
    case 0:
    case 1:
    case 2:
        op_put(term, op_variable(names[op_below(5)]));
        break;
    case 3:
    case 4:
        op_put(term, op_integer(op_chance(90) ? op_below(3) : TABLES_MOST_PAYLOAD));
        break;
    default:
        op_put(term, op_atom(op_chance(95) ? op_below(4) : TABLES_MOST_PAYLOAD));
        break;
    }
}

static void put_list(struct op_term *term, uint32_t edition, unsigned depth)
{
    uint32_t elements = 1 + op_below(3);
    for (uint32_t i = 0; i < elements; i++) {
        op_put(term, TABLES_PAIR_CELL);
        op_put_random(term, edition, depth - 1);
    }
    if (op_chance(60))
        op_put(term, TABLES_EMPTY_LIST);
    else
        op_put_random(term, edition, depth - 1);
}

void op_put_random(struct op_term *term, uint32_t edition, unsigned depth)
{
    if (depth == 0 || op_chance(45)) {
        put_constant(term);
    } else if (op_chance(45)) {
        put_list(term, edition, depth);
    } else {
        uint32_t arity = 1 + op_below(3);
        uint32_t name = op_chance(95) ? op_below(2) : (uint32_t)TABLES_MOST_NAME(edition);
        op_put(term, tables_functor_cell(edition, name, arity));
        for (uint32_t i = 0; i < arity; i++)
            op_put_random(term, edition, depth - 1);
    }
}

static size_t place_of(uint32_t cell, const uint32_t *cells, size_t count)
{
    size_t i = 0;
    while (i < count && cells[i] != cell)
        i++;
    return i;
}

void op_rename(struct op_term *term)
{
    uint32_t was[OP_TERM_ROOM], is[OP_TERM_ROOM];
    size_t known = 0;
    for (size_t i = 0; i < term->count; i++) {
        if (TABLES_KIND(term->cells[i]) != TABLES_VARIABLE)
            continue;
        size_t k = place_of(term->cells[i], was, known);
        if (k == known) {
            uint32_t name;
            do
                name = op_variable(op_chance(70) ? op_below(80) : (uint32_t)op_random() >> 4);
            while (place_of(name, is, known) < known);
            was[known] = term->cells[i];
            is[known++] = name;
        }
        term->cells[i] = is[k];
    }
}

/* Stored forms. */

uint32_t op_arity(uint32_t functor, uint32_t edition)
{
    return TABLES_PAYLOAD(functor) % (edition == TABLES_EDITION_1 ? 16 : 256);
}

/* How many terms follow a cell of pair form as its own; -1 for an illegal cell. */
static int follow(uint32_t cell, uint32_t edition)
{
    switch (TABLES_KIND(cell)) {
    case TABLES_VARIABLE:
    case TABLES_ATOM:
    case TABLES_INTEGER:
        return 0;
    case TABLES_FUNCTOR:
        return op_arity(cell, edition) == 0 ? -1 : (int)op_arity(cell, edition);
    case TABLES_PAIR:
        return TABLES_PAYLOAD(cell) == 0 ? 2 : -1;
    default:
        return -1;
    }
}

static int are_terms(const uint32_t *cells, size_t count, uint32_t terms, uint32_t edition)
{
    uint64_t due = terms;
    for (size_t i = 0; i < count; i++) {
        int more = follow(cells[i], edition);
        if (due == 0 || more < 0)
            return 0;
        due = due - 1 + (uint64_t)more;
    }
    return due == 0;
}

size_t op_term_end(const uint32_t *cells, size_t at, uint32_t edition)
{
    uint64_t due = 1;
    while (due != 0)
        due = due - 1 + (uint64_t)follow(cells[at++], edition);
    return at;
}

/* Finds the distinct variables; more than 32 are found as 33. */
static void find_names(const uint32_t *cells, size_t count, struct op_form *form)
{
    form->variables = 0;
    for (size_t i = 0; i < count && form->variables <= TABLES_TERM_VARIABLES; i++)
        if (TABLES_KIND(cells[i]) == TABLES_VARIABLE &&
            place_of(cells[i], form->names, form->variables) == form->variables)
            form->names[form->variables++] = cells[i];
}

struct rewriting {
    const uint32_t *cells;
    size_t at;
    uint32_t edition;
    struct op_form *form;
};

static void put_token(struct rewriting *r, uint32_t token)
{
    if (r->form->count == TABLES_COMPACT_CELLS)
        abort(); /* document 01: a form has at most 383 tokens */
    r->form->tokens[r->form->count++] = token;
}

static void rewrite_term(struct rewriting *r);

/* A list, whose first pair stands at r->at. */
static void rewrite_list(struct rewriting *r)
{
    put_token(r, TABLES_CELL(TABLES_BLIST, 0));
    while (TABLES_KIND(r->cells[r->at]) == TABLES_PAIR) {
        size_t tail = op_term_end(r->cells, ++r->at, r->edition);
        if (r->cells[tail] == TABLES_EMPTY_LIST) {
            put_token(r, TABLES_CELL(TABLES_ELIST, 0));
            rewrite_term(r);
            r->at++; /* the closing [] */
            return;
        }
        rewrite_term(r);
    }
    put_token(r, TABLES_CELL(TABLES_EPAIR, 0));
    rewrite_term(r);
}

static void rewrite_term(struct rewriting *r)
{
    uint32_t cell = r->cells[r->at];
    if (TABLES_KIND(cell) == TABLES_PAIR) {
        rewrite_list(r);
        return;
    }
    r->at++;
    if (TABLES_KIND(cell) == TABLES_VARIABLE)
        cell = op_variable((uint32_t)place_of(cell, r->form->names, r->form->variables));
    put_token(r, cell);
    if (TABLES_KIND(cell) == TABLES_FUNCTOR)
        for (uint32_t i = op_arity(cell, r->edition); i > 0; i--)
            rewrite_term(r);
}

uint32_t op_compact(const uint32_t *cells, size_t count, uint32_t terms, uint32_t edition,
                    struct op_form *form)
{
    form->count = 0;
    if (count > TABLES_TERM_CELLS)
        return TABLES_REFUSED_LENGTH;
    if (!are_terms(cells, count, terms, edition))
        return TABLES_REFUSED_TERM;
    find_names(cells, count, form);
    if (form->variables > TABLES_TERM_VARIABLES)
        return TABLES_REFUSED_VARIABLES;
    struct rewriting r = { cells, 0, edition, form };
    while (r.at < count)
        rewrite_term(&r);
    return 0;
}

uint32_t op_called(const uint32_t *cells, size_t count, uint32_t edition, struct op_form *form)
{
    uint32_t refusal = op_compact(cells, count, 1, edition, form);
    if (refusal != 0)
        return refusal;
    uint32_t kind = TABLES_KIND(cells[0]);
    return kind == TABLES_ATOM || kind == TABLES_FUNCTOR ? 0 : TABLES_REFUSED_PREDICATE;
}

struct expanding {
    const uint32_t *tokens;
    size_t count, at;
    uint32_t edition;
    struct op_term term;
};

static int expand_cell(struct expanding *e, uint32_t cell)
{
    if (e->term.count == TABLES_TERM_CELLS)
        return 0;
    op_put(&e->term, cell);
    return 1;
}

static int expand_term(struct expanding *e);

/* What follows BLIST. Whatever compacting would write otherwise is found by op_is_form. */
static int expand_list(struct expanding *e)
{
    for (;;) {
        if (e->at == e->count)
            return 0;
        if (e->tokens[e->at] == TABLES_CELL(TABLES_EPAIR, 0)) {
            e->at++;
            return expand_term(e);
        }
        int last = e->tokens[e->at] == TABLES_CELL(TABLES_ELIST, 0);
        e->at += (size_t)last;
        if (!expand_cell(e, TABLES_PAIR_CELL) || !expand_term(e))
            return 0;
        if (last)
            return expand_cell(e, TABLES_EMPTY_LIST);
    }
}

static int expand_term(struct expanding *e)
{
    if (e->at == e->count)
        return 0;
    uint32_t token = e->tokens[e->at++];
    if (token == TABLES_CELL(TABLES_BLIST, 0))
        return expand_list(e);
    if (TABLES_KIND(token) == TABLES_PAIR || follow(token, e->edition) < 0)
        return 0;
    int whole = expand_cell(e, token);
    for (int i = follow(token, e->edition); whole && i > 0; i--)
        whole = expand_term(e);
    return whole;
}

int op_is_form(const uint32_t *tokens, size_t count, uint32_t terms, uint32_t edition)
{
    struct expanding e = { tokens, count, 0, edition, { 0, { 0 } } };
    struct op_form form;
    for (uint32_t i = 0; i < terms; i++)
        if (!expand_term(&e))
            return 0;
    return e.at == count && op_compact(e.term.cells, e.term.count, terms, edition, &form) == 0 &&
           form.count == count && op_equal(form.tokens, tokens, count);
}

size_t op_shared(const struct op_form *one, const struct op_form *other)
{
    size_t k = 0;
    while (k < one->count && k < other->count && one->tokens[k] == other->tokens[k])
        k++;
    return k;
}

/* The plain table. */

void op_plain_fresh(struct op_plain *table, uint32_t edition, uint32_t nodes, uint32_t subgoals,
                    uint32_t answers)
{
    table->edition = edition;
    table->most_nodes = nodes;
    table->most_subgoals = subgoals;
    table->most_answers = answers;
    table->nodes = 1;
    table->subgoals = table->answers = 0;
}

static int same_form(const struct op_form *one, const struct op_form *other)
{
    return one->count == other->count && op_shared(one, other) == one->count;
}

/* 10 or 11 for so many new nodes and one new record, or 0. */
static uint32_t no_room(uint32_t nodes, uint32_t most_nodes, uint32_t records,
                        uint32_t most_records)
{
    if (nodes > most_nodes)
        return TABLES_REFUSED_NO_NODE;
    return records == most_records ? TABLES_REFUSED_NO_RECORD : 0;
}

uint64_t op_plain_call(struct op_plain *table, const uint32_t *term, size_t count)
{
    struct op_form form;
    uint32_t refusal = op_called(term, count, table->edition, &form);
    size_t shared = 0;
    if (refusal != 0)
        return op_refused(refusal, 0);
    for (uint32_t i = 1; i <= table->subgoals; i++) {
        const struct op_entry *entry = &table->subgoal[i];
        if (same_form(&entry->form, &form))
            return op_word(entry->state ? TABLES_OLD_FINISHED : TABLES_OLD_OPEN, i);
        if (op_shared(&entry->form, &form) > shared)
            shared = op_shared(&entry->form, &form);
    }
    uint32_t nodes = table->nodes + (uint32_t)(form.count - shared) + 1;
    refusal = no_room(nodes, table->most_nodes, table->subgoals, table->most_subgoals);
    if (refusal != 0)
        return op_refused(refusal, 0);
    table->nodes = nodes;
    table->subgoal[++table->subgoals] = (struct op_entry){ form, 0, 0 };
    return op_word(TABLES_NEW, table->subgoals);
}

static uint64_t plain_enter(struct op_plain *table, uint32_t subgoal, const struct op_form *form,
                            size_t shared)
{
    uint32_t nodes = table->nodes + (uint32_t)(form->count - shared);
    uint32_t refusal = no_room(nodes, table->most_nodes, table->answers, table->most_answers);
    if (table->subgoal[subgoal].state != 0)
        refusal = TABLES_REFUSED_STATE;
    if (refusal != 0)
        return op_refused(refusal, 0);
    table->nodes = nodes;
    table->answer[++table->answers] = (struct op_entry){ *form, subgoal, 0 };
    if (table->subgoal[subgoal].form.variables == 0)
        table->subgoal[subgoal].state = 1;
    return op_word(TABLES_NEW, table->answers);
}

uint64_t op_plain_answer(struct op_plain *table, uint32_t subgoal, const uint32_t *terms,
                         size_t count)
{
    struct op_form form;
    if (subgoal == 0 || subgoal > table->subgoals)
        return op_refused(TABLES_REFUSED_NUMBER, 0);
    uint32_t m = table->subgoal[subgoal].form.variables;
    uint32_t refusal = op_compact(terms, count, m, table->edition, &form);
    size_t shared = 0;
    if (refusal != 0)
        return op_refused(refusal, 0);
    for (uint32_t i = 1; i <= table->answers; i++) {
        if (table->answer[i].subgoal != subgoal)
            continue;
        if (same_form(&table->answer[i].form, &form))
            return op_word(TABLES_OLD, i);
        if (op_shared(&table->answer[i].form, &form) > shared)
            shared = op_shared(&table->answer[i].form, &form);
    }
    return plain_enter(table, subgoal, &form, shared);
}

uint64_t op_plain_finish(struct op_plain *table, uint32_t subgoal)
{
    if (subgoal == 0 || subgoal > table->subgoals)
        return op_refused(TABLES_REFUSED_NUMBER, 0);
    table->subgoal[subgoal].state = 1;
    return op_word(TABLES_DONE, 0);
}

/* Spaces. */

enum { HEADER_CELLS = 8, NODE_CELLS = 5, SUBGOAL_CELLS = 6, ANSWER_CELLS = 3 };

const uint32_t *op_node_of(const uint32_t *cells, uint32_t node)
{
    return cells + HEADER_CELLS + (size_t)NODE_CELLS * node;
}

const uint32_t *op_subgoal_of(const uint32_t *cells, uint32_t subgoal)
{
    return cells + cells[OP_AT_SUBGOALS] + (size_t)SUBGOAL_CELLS * (subgoal - 1);
}

const uint32_t *op_answer_of(const uint32_t *cells, uint32_t answer)
{
    return cells + cells[OP_AT_ANSWERS] + (size_t)ANSWER_CELLS * (answer - 1);
}

uint32_t *op_node_at(uint32_t *cells, uint32_t node)
{
    return cells + (op_node_of(cells, node) - cells);
}

uint32_t *op_subgoal_at(uint32_t *cells, uint32_t subgoal)
{
    return cells + (op_subgoal_of(cells, subgoal) - cells);
}

uint32_t *op_answer_at(uint32_t *cells, uint32_t answer)
{
    return cells + (op_answer_of(cells, answer) - cells);
}

static int in_range(uint32_t least, uint32_t capacity)
{
    return capacity >= least && capacity <= TABLES_MOST_RECORDS;
}

uint64_t op_cells_fresh(uint32_t *cells, size_t count, uint32_t nodes, uint32_t subgoals,
                        uint32_t answers, uint32_t edition)
{
    if (!in_range(1, nodes) || !in_range(0, subgoals) || !in_range(0, answers) || edition < 1 ||
        edition > 2 || TABLES_SPACE_CELLS(nodes, subgoals, answers) > count)
        return op_refused(TABLES_REFUSED_FRESH, 0);
    for (size_t i = 0; i < TABLES_SPACE_CELLS(nodes, subgoals, answers); i++)
        cells[i] = 0;
    cells[OP_EDITION] = edition;
    cells[OP_NODES] = 1;
    cells[OP_AT_NODES] = HEADER_CELLS;
    cells[OP_AT_SUBGOALS] = HEADER_CELLS + NODE_CELLS * nodes;
    cells[OP_AT_ANSWERS] = cells[OP_AT_SUBGOALS] + SUBGOAL_CELLS * subgoals;
    cells[OP_END] = cells[OP_AT_ANSWERS] + ANSWER_CELLS * answers;
    return op_word(TABLES_DONE, 0);
}

static uint32_t node_room(const uint32_t *cells)
{
    return (cells[OP_AT_SUBGOALS] - HEADER_CELLS) / NODE_CELLS;
}

static uint32_t subgoal_room(const uint32_t *cells)
{
    return (cells[OP_AT_ANSWERS] - cells[OP_AT_SUBGOALS]) / SUBGOAL_CELLS;
}

static uint32_t answer_room(const uint32_t *cells)
{
    return (cells[OP_END] - cells[OP_AT_ANSWERS]) / ANSWER_CELLS;
}

uint32_t op_child(const uint32_t *cells, uint32_t node, uint32_t token)
{
    uint32_t child = op_node_of(cells, node)[OP_CHILD];
    while (child != 0 && op_node_of(cells, child)[OP_TOKEN] != token)
        child = op_node_of(cells, child)[OP_SIBLING];
    return child;
}

static uint32_t new_node(uint32_t *cells, uint32_t token, uint32_t parent)
{
    uint32_t node = cells[OP_NODES]++;
    const uint32_t record[NODE_CELLS] = { token, 0, 0, parent, 0 };
    op_copy(op_node_at(cells, node), record, NODE_CELLS);
    return node;
}

/* A new child goes after the last sibling. */
static uint32_t append_child(uint32_t *cells, uint32_t parent, uint32_t token)
{
    uint32_t *place = &op_node_at(cells, parent)[OP_CHILD];
    while (*place != 0)
        place = &op_node_at(cells, *place)[OP_SIBLING];
    return *place = new_node(cells, token, parent);
}

/* The last node of the path that stands already, and how many tokens lead to it. */
static uint32_t follow_form(const uint32_t *cells, uint32_t root, const struct op_form *form,
                            size_t *shared)
{
    uint32_t node = root, child;
    for (*shared = 0; *shared < form->count; ++*shared) {
        child = op_child(cells, node, form->tokens[*shared]);
        if (child == 0)
            break;
        node = child;
    }
    return node;
}

static uint32_t enter_form(uint32_t *cells, uint32_t node, const struct op_form *form,
                           size_t shared)
{
    for (size_t i = shared; i < form->count; i++)
        node = append_child(cells, node, form->tokens[i]);
    return node;
}

static uint64_t enter_subgoal(uint32_t *cells, uint32_t node, const struct op_form *form,
                              size_t shared)
{
    uint32_t leaf = enter_form(cells, node, form, shared);
    uint32_t subgoal = ++cells[OP_SUBGOALS];
    uint32_t root = new_node(cells, 0, cells[OP_NODES]);
    const uint32_t record[SUBGOAL_CELLS] = { leaf, root, form->variables, 0, 0, 0 };
    op_copy(op_subgoal_at(cells, subgoal), record, SUBGOAL_CELLS);
    op_node_at(cells, leaf)[OP_LINK] = subgoal;
    return op_word(TABLES_NEW, subgoal);
}

uint64_t op_cells_call(uint32_t *cells, const uint32_t *term, size_t count)
{
    struct op_form form;
    uint32_t refusal = op_called(term, count, cells[OP_EDITION], &form);
    size_t shared;
    if (refusal != 0)
        return op_refused(refusal, 0);
    uint32_t node = follow_form(cells, 0, &form, &shared);
    if (shared == form.count) {
        uint32_t subgoal = op_node_of(cells, node)[OP_LINK];
        uint32_t state = op_subgoal_of(cells, subgoal)[OP_STATE];
        return op_word(state ? TABLES_OLD_FINISHED : TABLES_OLD_OPEN, subgoal);
    }
    refusal = no_room(cells[OP_NODES] + (uint32_t)(form.count - shared) + 1, node_room(cells),
                      cells[OP_SUBGOALS], subgoal_room(cells));
    return refusal != 0 ? op_refused(refusal, 0) : enter_subgoal(cells, node, &form, shared);
}

static uint64_t enter_answer(uint32_t *cells, uint32_t subgoal, uint32_t leaf)
{
    uint32_t *goal = op_subgoal_at(cells, subgoal);
    uint32_t answer = ++cells[OP_ANSWERS];
    const uint32_t record[ANSWER_CELLS] = { leaf, subgoal, 0 };
    op_copy(op_answer_at(cells, answer), record, ANSWER_CELLS);
    op_node_at(cells, leaf)[OP_LINK] = answer;
    if (goal[OP_LAST] != 0)
        op_answer_at(cells, goal[OP_LAST])[OP_ANSWER_NEXT] = answer;
    else
        goal[OP_FIRST] = answer;
    goal[OP_LAST] = answer;
    if (goal[OP_M] == 0)
        goal[OP_STATE] = 1;
    return op_word(TABLES_NEW, answer);
}

uint64_t op_cells_answer(uint32_t *cells, uint32_t subgoal, const uint32_t *terms, size_t count)
{
    struct op_form form;
    size_t shared;
    if (subgoal == 0 || subgoal > cells[OP_SUBGOALS])
        return op_refused(TABLES_REFUSED_NUMBER, 0);
    const uint32_t *goal = op_subgoal_of(cells, subgoal);
    uint32_t refusal = op_compact(terms, count, goal[OP_M], cells[OP_EDITION], &form);
    if (refusal != 0)
        return op_refused(refusal, 0);
    uint32_t node = follow_form(cells, goal[OP_ROOT], &form, &shared);
    if (shared == form.count && op_node_of(cells, node)[OP_LINK] != 0)
        return op_word(TABLES_OLD, op_node_of(cells, node)[OP_LINK]);
    refusal = no_room(cells[OP_NODES] + (uint32_t)(form.count - shared), node_room(cells),
                      cells[OP_ANSWERS], answer_room(cells));
    if (goal[OP_STATE] != 0)
        refusal = TABLES_REFUSED_STATE;
    if (refusal != 0)
        return op_refused(refusal, 0);
    return enter_answer(cells, subgoal, enter_form(cells, node, &form, shared));
}

uint64_t op_cells_finish(uint32_t *cells, uint32_t subgoal)
{
    if (subgoal == 0 || subgoal > cells[OP_SUBGOALS])
        return op_refused(TABLES_REFUSED_NUMBER, 0);
    op_subgoal_at(cells, subgoal)[OP_STATE] = 1;
    return op_word(TABLES_DONE, 0);
}

/* Judging. */

/* Whether a capacity lies between two offsets, and the count used is not above it. */
static int capacity_sound(uint32_t from, uint32_t to, uint32_t record, uint32_t used)
{
    return to >= from && (to - from) % record == 0 &&
           (to - from) / record <= TABLES_MOST_RECORDS && used <= (to - from) / record;
}

int op_header_sound(const uint32_t *cells, size_t count)
{
    if (count < HEADER_CELLS || cells[OP_EDITION] < 1 || cells[OP_EDITION] > 2 ||
        cells[OP_AT_NODES] != HEADER_CELLS || cells[OP_NODES] == 0 || cells[OP_END] > count)
        return 0;
    return capacity_sound(HEADER_CELLS, cells[OP_AT_SUBGOALS], NODE_CELLS, cells[OP_NODES]) &&
           capacity_sound(cells[OP_AT_SUBGOALS], cells[OP_AT_ANSWERS], SUBGOAL_CELLS,
                          cells[OP_SUBGOALS]) &&
           capacity_sound(cells[OP_AT_ANSWERS], cells[OP_END], ANSWER_CELLS, cells[OP_ANSWERS]);
}

static int none_or_above(uint32_t number, uint32_t above, uint32_t below)
{
    return number == 0 || (number > above && number < below);
}

int op_node_sound(const uint32_t *cells, uint32_t node, uint32_t links)
{
    const uint32_t *record = op_node_of(cells, node);
    return none_or_above(record[OP_CHILD], node, cells[OP_NODES]) &&
           none_or_above(record[OP_SIBLING], node, cells[OP_NODES]) &&
           record[OP_PARENT] <= node && record[OP_LINK] <= links;
}

int op_subgoal_sound(const uint32_t *cells, uint32_t subgoal)
{
    const uint32_t *record = op_subgoal_of(cells, subgoal);
    return record[OP_LEAF] < cells[OP_NODES] && record[OP_ROOT] < cells[OP_NODES] &&
           record[OP_M] <= TABLES_TERM_VARIABLES && record[OP_STATE] <= 1 &&
           record[OP_FIRST] <= cells[OP_ANSWERS] && record[OP_LAST] <= cells[OP_ANSWERS] &&
           (record[OP_FIRST] == 0) == (record[OP_LAST] == 0);
}

int op_answer_sound(const uint32_t *cells, uint32_t answer)
{
    const uint32_t *record = op_answer_of(cells, answer);
    return record[OP_ANSWER_LEAF] < cells[OP_NODES] && record[OP_ANSWER_SUBGOAL] != 0 &&
           record[OP_ANSWER_SUBGOAL] <= cells[OP_SUBGOALS] &&
           (record[OP_ANSWER_NEXT] == 0 || (record[OP_ANSWER_NEXT] > answer &&
                                            record[OP_ANSWER_NEXT] <= cells[OP_ANSWERS]));
}

/* Damage. */

static uint32_t *some_cell(uint32_t *cells, size_t count)
{
    uint32_t kind = op_below(100);
    if (kind < 4)
        return &cells[op_below(HEADER_CELLS)];
    if (kind < 6)
        return &cells[op_below((uint32_t)count)];
    if (kind < 40 && cells[OP_SUBGOALS] != 0)
        return &op_subgoal_at(cells, 1 + op_below(cells[OP_SUBGOALS]))[op_below(SUBGOAL_CELLS)];
    if (kind < 60 && cells[OP_ANSWERS] != 0)
        return &op_answer_at(cells, 1 + op_below(cells[OP_ANSWERS]))[op_below(ANSWER_CELLS)];
    return &op_node_at(cells, op_below(cells[OP_NODES]))[op_below(NODE_CELLS)];
}

static uint32_t wrong_value(const uint32_t *cells, size_t count, uint32_t was)
{
    switch (op_below(9)) {
    case 0:
        return 0;
    case 1:
        return was + 1;
    case 2:
        return was - 1;
    case 3:
        return op_below(4);
    case 4:
    case 5:
        return op_below(cells[OP_NODES] + 2);
    case 6:
        return op_below(cells[OP_SUBGOALS] + 3);
    case 7:
        return cells[op_below((uint32_t)count)];
    default:
        return (uint32_t)op_random();
    }
}

/* In the header often by as much as a record has, so that it may stay sound. */
static uint32_t wrong_header(uint32_t was)
{
    static const uint32_t steps[] = { 1, 3, 5, 6, 15, 30 };
    uint32_t step = steps[op_below(6)];
    return op_chance(50) ? was + step : was - step;
}

void op_damage(uint32_t *cells, size_t count)
{
    uint32_t *cell = some_cell(cells, count);
    if (cell < cells + HEADER_CELLS && op_chance(60))
        *cell = wrong_header(*cell);
    else
        *cell = wrong_value(cells, count, *cell);
}
