/* The plain table of document 01, with the editions of Q-7, the joins of Q-2, the two words of Q-1,
   the finished subgoals of Q-4 and the reasons of Q-10: subgoals and answers as lists of compact
   forms, no trie. */
#include "plain_table.h"

#include <stdio.h>
#include <stdlib.h>

/* Kind = cell divided by 2^28, payload = the remainder. */
#define KIND_UNIT (UINT32_C(1) << 28)

enum kind {
    KIND_VARIABLE = 1,
    KIND_ATOM = 2,
    KIND_INTEGER = 3,
    KIND_FUNCTOR = 4,
    KIND_PAIR = 5,
    KIND_BLIST = 6,
    KIND_ELIST = 7,
    KIND_EPAIR = 8
};

static const uint32_t EMPTY_LIST = KIND_ATOM * KIND_UNIT;
static const uint32_t PAIR = KIND_PAIR * KIND_UNIT;
static const uint32_t BLIST = KIND_BLIST * KIND_UNIT;
static const uint32_t ELIST = KIND_ELIST * KIND_UNIT;
static const uint32_t EPAIR = KIND_EPAIR * KIND_UNIT;

enum limit {
    MOST_CELLS = 256,
    MOST_VARIABLES = 32,
    MOST_TOKENS = (3 * MOST_CELLS - 1) / 2,
    MOST_PAIRS = 32,
    WHY_CELLS = 1 + MOST_VARIABLES /* of out: a count and the variables */
};

/* What came of a call: the upper 32 bits of the result word. */
enum outcome {
    OUTCOME_DONE = 0,
    OUTCOME_NEW = 1,
    OUTCOME_OLD = 2,
    OUTCOME_OLD_OPEN = 3,
    OUTCOME_OLD_FINISHED = 4,
    OUTCOME_AT = 5,
    OUTCOME_NONE_YET = 6,
    OUTCOME_CELLS = 7,
    OUTCOME_COUNTS = 8,
    OUTCOME_NO_MORE = 9,
    OUTCOME_JOINED = 10,
    OUTCOME_WHY_OLD = 12,
    OUTCOME_WHY_NEW = 13,
    OUTCOME_REFUSED = 256
};

/* The numbers of the refusals, in the order in which they are checked; an answer's 8 comes behind
   6, before 10. */
enum refusal {
    REFUSAL_NONE = 0,
    REFUSAL_NUMBER = 7,
    REFUSAL_STATE = 8,
    REFUSAL_SOURCE_OPEN = 14,
    REFUSAL_SOURCE_VARIABLE = 15,
    REFUSAL_NAMES = 16,
    REFUSAL_LENGTH = 4,
    REFUSAL_TERM = 3,
    REFUSAL_VARIABLES = 5,
    REFUSAL_PREDICATE = 6,
    REFUSAL_NODES = 10,
    REFUSAL_RECORDS_LEFT = 11,
    REFUSAL_OUT = 12
};

/* Numbered terms one after another, in pair form. */
struct pair_form {
    size_t length;
    uint32_t cells[MOST_CELLS];
};

/* The compact form of terms one after another, none for an answer with m = 0, and how many
   distinct variables they have together: m, where the form is a subgoal's. */
struct form {
    uint32_t variables;
    size_t length;
    uint32_t tokens[MOST_TOKENS];
};

struct subgoal {
    struct form form;
    bool finished;
};

struct answer {
    uint32_t subgoal;
    struct form form;
};

/* Subgoal and answer numbers are places in the two lists, from 1. */
struct plain_table {
    uint32_t node_capacity;
    uint32_t subgoal_capacity;
    uint32_t answer_capacity;
    uint32_t edition;
    uint32_t subgoal_count;
    uint32_t answer_count;
    struct subgoal *subgoals;
    struct answer *answers;
};

/* Result words */

static uint64_t result(enum outcome outcome, size_t value)
{
    return ((uint64_t)outcome << 32) | (uint32_t)value;
}

static uint64_t refused(enum refusal refusal)
{
    return ((uint64_t)OUTCOME_REFUSED + (uint64_t)refusal) << 32;
}

static uint64_t refused_out(size_t need)
{
    return refused(REFUSAL_OUT) | (uint32_t)need;
}

/* Cells and terms */

static uint32_t kind_of(uint32_t cell)
{
    return cell / KIND_UNIT;
}

static uint32_t payload_of(uint32_t cell)
{
    return cell % KIND_UNIT;
}

/* A functor's payload is name * 16 + arity in edition 1, name * 256 + arity in edition 2. An arity
   of 0 is not legal; the payload's range bounds the name by itself. */
static uint32_t arity_of(uint32_t payload, uint32_t edition)
{
    return edition == 1 ? payload % 16 : payload % 256;
}

/* How many terms follow a cell in pair form as its parts. */
static uint32_t part_count(uint32_t cell, uint32_t edition)
{
    switch (kind_of(cell)) {
    case KIND_FUNCTOR:
        return arity_of(payload_of(cell), edition);
    case KIND_PAIR:
        return 2;
    default:
        return 0;
    }
}

/* The part of refusal 3 that one cell shows by itself. */
static bool is_legal_cell(uint32_t cell, uint32_t edition)
{
    switch (kind_of(cell)) {
    case KIND_VARIABLE:
    case KIND_ATOM:
    case KIND_INTEGER:
        return true;
    case KIND_FUNCTOR:
        return arity_of(payload_of(cell), edition) != 0;
    case KIND_PAIR:
        return payload_of(cell) == 0;
    default:
        return false;
    }
}

/* Refusal 3: whether the cells are exactly so many terms, with no cell missing or left over. */
static bool are_terms(const uint32_t *cells, size_t cell_count, size_t term_count,
                      uint32_t edition)
{
    size_t due = term_count;
    for (size_t i = 0; i < cell_count; i++) {
        if (due == 0 || !is_legal_cell(cells[i], edition)) {
            return false;
        }
        due = due - 1 + part_count(cells[i], edition);
    }
    return due == 0;
}

/* The place behind the legal term that starts at the given place. */
static size_t term_end(const struct pair_form *terms, size_t start, uint32_t edition)
{
    size_t place = start;
    for (size_t due = 1; due > 0; place++) {
        due = due - 1 + part_count(terms->cells[place], edition);
    }
    return place;
}

/* The rank of a variable among those met, or their count if it is not among them. */
static uint32_t rank_of(uint32_t variable, const uint32_t *met, uint32_t met_count)
{
    uint32_t rank = 0;
    while (rank < met_count && met[rank] != variable) {
        rank++;
    }
    return rank;
}

/* The distinct variables as they are written, in order of rank: by first meeting, through all the
   terms. Returns how many there are. */
static uint32_t list_variables(const uint32_t *cells, size_t cell_count, uint32_t *met)
{
    uint32_t met_count = 0;
    for (size_t i = 0; i < cell_count; i++) {
        if (kind_of(cells[i]) == KIND_VARIABLE && rank_of(cells[i], met, met_count) == met_count) {
            met[met_count++] = cells[i];
        }
    }
    return met_count;
}

/* Numbered form: each variable's payload becomes its rank, from 0. Returns how many distinct
   variables there are. */
static uint32_t number_variables(const uint32_t *cells, size_t cell_count,
                                 struct pair_form *numbered)
{
    uint32_t met[MOST_CELLS];
    uint32_t met_count = list_variables(cells, cell_count, met);
    numbered->length = cell_count;
    for (size_t i = 0; i < cell_count; i++) {
        numbered->cells[i] = cells[i];
        if (kind_of(cells[i]) == KIND_VARIABLE) {
            numbered->cells[i] = KIND_VARIABLE * KIND_UNIT + rank_of(cells[i], met, met_count);
        }
    }
    return met_count;
}

/* Compacting: from pair form to compact form */

static void append_token(struct form *form, uint32_t token)
{
    form->tokens[form->length++] = token;
}

static void compact_list(const struct pair_form *terms, size_t *place, struct form *form,
                         uint32_t edition);

static void compact_term(const struct pair_form *terms, size_t *place, struct form *form,
                         uint32_t edition)
{
    uint32_t cell = terms->cells[(*place)++];
    if (cell == PAIR) {
        compact_list(terms, place, form, edition);
        return;
    }
    append_token(form, cell);
    for (uint32_t i = 0; i < part_count(cell, edition); i++) {
        compact_term(terms, place, form, edition);
    }
}

/* The first cell of the tail that follows the list element at the given place. */
static uint32_t tail_after(const struct pair_form *terms, size_t element, uint32_t edition)
{
    return terms->cells[term_end(terms, element, edition)];
}

/* Ending in []: BLIST, e1 to e(n-1), ELIST, en. Ending in t: BLIST, e1 to en, EPAIR, t.
   The list's first pair has been passed: the place is that of e1. */
static void compact_list(const struct pair_form *terms, size_t *place, struct form *form,
                         uint32_t edition)
{
    append_token(form, BLIST);
    while (tail_after(terms, *place, edition) == PAIR) {
        compact_term(terms, place, form, edition);
        (*place)++; /* the pair of the next element */
    }
    if (tail_after(terms, *place, edition) == EMPTY_LIST) {
        append_token(form, ELIST);
        compact_term(terms, place, form, edition);
        (*place)++; /* the closing [], which is not stored */
    } else {
        compact_term(terms, place, form, edition);
        append_token(form, EPAIR);
        compact_term(terms, place, form, edition);
    }
}

static void compact_terms(const struct pair_form *terms, struct form *form, uint32_t edition)
{
    size_t place = 0;
    form->length = 0;
    while (place < terms->length) {
        compact_term(terms, &place, form, edition);
    }
}

/* The compact form of exactly so many terms one after another, or refusal 4, 3 or 5. */
static enum refusal read_terms(const uint32_t *cells, size_t cell_count, size_t term_count,
                               struct form *form, uint32_t edition)
{
    struct pair_form numbered;
    if (cell_count > MOST_CELLS) {
        return REFUSAL_LENGTH;
    }
    if (!are_terms(cells, cell_count, term_count, edition)) {
        return REFUSAL_TERM;
    }
    form->variables = number_variables(cells, cell_count, &numbered);
    if (form->variables > MOST_VARIABLES) {
        return REFUSAL_VARIABLES;
    }
    compact_terms(&numbered, form, edition);
    return REFUSAL_NONE;
}

/* The compact form of a called term, or refusal 4, 3, 5 or 6. */
static enum refusal read_called(const uint32_t *term, size_t term_cells, struct form *form,
                                uint32_t edition)
{
    enum refusal refusal = read_terms(term, term_cells, 1, form, edition);
    if (refusal != REFUSAL_NONE) {
        return refusal;
    }
    if (kind_of(term[0]) != KIND_ATOM && kind_of(term[0]) != KIND_FUNCTOR) {
        return REFUSAL_PREDICATE;
    }
    return REFUSAL_NONE;
}

/* Expanding: from compact form to pair form */

static void append_cell(struct pair_form *terms, uint32_t cell)
{
    terms->cells[terms->length++] = cell;
}

static void expand_list(const struct form *form, size_t *place, struct pair_form *terms,
                        uint32_t edition);

static void expand_term(const struct form *form, size_t *place, struct pair_form *terms,
                        uint32_t edition)
{
    uint32_t token = form->tokens[(*place)++];
    if (token == BLIST) {
        expand_list(form, place, terms, edition);
        return;
    }
    append_cell(terms, token);
    for (uint32_t i = 0; i < part_count(token, edition); i++) {
        expand_term(form, place, terms, edition);
    }
}

static bool ends_list(uint32_t token)
{
    return token == ELIST || token == EPAIR;
}

/* BLIST has been passed. ELIST stands before the last element, EPAIR behind it. */
static void expand_list(const struct form *form, size_t *place, struct pair_form *terms,
                        uint32_t edition)
{
    while (!ends_list(form->tokens[*place])) {
        append_cell(terms, PAIR);
        expand_term(form, place, terms, edition);
    }
    if (form->tokens[(*place)++] == ELIST) {
        append_cell(terms, PAIR);
        expand_term(form, place, terms, edition);
        append_cell(terms, EMPTY_LIST);
    } else {
        expand_term(form, place, terms, edition);
    }
}

static void expand_terms(const struct form *form, struct pair_form *terms, uint32_t edition)
{
    size_t place = 0;
    terms->length = 0;
    while (place < form->length) {
        expand_term(form, &place, terms, edition);
    }
}

/* Forms and their prefixes */

static size_t common_prefix(const struct form *one, const struct form *other)
{
    size_t length = 0;
    while (length < one->length && length < other->length &&
           one->tokens[length] == other->tokens[length]) {
        length++;
    }
    return length;
}

static bool are_equal(const struct form *one, const struct form *other)
{
    return one->length == other->length && common_prefix(one, other) == one->length;
}

/* The non-empty prefixes of a form that none of the first so many subgoals has. */
static size_t prefixes_new_to_subgoals(const struct plain_table *table, const struct form *form,
                                       uint32_t subgoal_count)
{
    size_t longest = 0;
    for (uint32_t i = 0; i < subgoal_count; i++) {
        size_t common = common_prefix(form, &table->subgoals[i].form);
        longest = common > longest ? common : longest;
    }
    return form->length - longest;
}

/* The non-empty prefixes of a form that none of the first so many answers, as far as they are
   answers of the given subgoal, has. */
static size_t prefixes_new_to_answers(const struct plain_table *table, uint32_t subgoal,
                                      const struct form *form, uint32_t answer_count)
{
    size_t longest = 0;
    for (uint32_t i = 0; i < answer_count; i++) {
        if (table->answers[i].subgoal == subgoal) {
            size_t common = common_prefix(form, &table->answers[i].form);
            longest = common > longest ? common : longest;
        }
    }
    return form->length - longest;
}

/* The distinct non-empty prefixes of the subgoal forms, each counted at the first form that has
   it. */
static size_t subgoal_prefixes(const struct plain_table *table)
{
    size_t prefixes = 0;
    for (uint32_t i = 0; i < table->subgoal_count; i++) {
        prefixes += prefixes_new_to_subgoals(table, &table->subgoals[i].form, i);
    }
    return prefixes;
}

/* The distinct non-empty prefixes of each subgoal's answer forms, summed over the subgoals. */
static size_t answer_prefixes(const struct plain_table *table)
{
    size_t prefixes = 0;
    for (uint32_t i = 0; i < table->answer_count; i++) {
        const struct answer *answer = &table->answers[i];
        prefixes += prefixes_new_to_answers(table, answer->subgoal, &answer->form, i);
    }
    return prefixes;
}

/* The subgoal root, the subgoals' prefixes, an answer root for each subgoal, and the answers'
   prefixes. */
static size_t nodes_used(const struct plain_table *table)
{
    return 1 + subgoal_prefixes(table) + table->subgoal_count + answer_prefixes(table);
}

/* The two lists */

/* Ends the program if memory runs out. */
static void *resized(void *block, size_t bytes)
{
    void *moved = realloc(block, bytes);
    if (moved == NULL) {
        fputs("plain table: out of memory\n", stderr);
        exit(EXIT_FAILURE);
    }
    return moved;
}

static bool is_number_within(uint32_t number, uint32_t count)
{
    return number != 0 && number <= count;
}

static const struct subgoal *subgoal_at(const struct plain_table *table, uint32_t number)
{
    return &table->subgoals[number - 1];
}

static const struct answer *answer_at(const struct plain_table *table, uint32_t number)
{
    return &table->answers[number - 1];
}

static bool is_answer_of(const struct plain_table *table, uint32_t answer, uint32_t subgoal)
{
    return is_number_within(answer, table->answer_count) &&
           answer_at(table, answer)->subgoal == subgoal;
}

/* The number of the subgoal with an equal form, or 0. */
static uint32_t find_subgoal(const struct plain_table *table, const struct form *form)
{
    for (uint32_t number = 1; number <= table->subgoal_count; number++) {
        if (are_equal(&subgoal_at(table, number)->form, form)) {
            return number;
        }
    }
    return 0;
}

/* The lowest-numbered subgoal of those that share most leading tokens with a form, and how many they
   share; 0 and 0 if none shares any. */
static uint32_t find_nearest(const struct plain_table *table, const struct form *form,
                             uint32_t *shared)
{
    uint32_t nearest = 0;
    *shared = 0;
    for (uint32_t number = 1; number <= table->subgoal_count; number++) {
        uint32_t common = (uint32_t)common_prefix(&subgoal_at(table, number)->form, form);
        if (common > *shared) {
            *shared = common;
            nearest = number;
        }
    }
    return nearest;
}

/* The number of the answer with an equal form under that subgoal, or 0. */
static uint32_t find_answer(const struct plain_table *table, uint32_t subgoal,
                            const struct form *form)
{
    for (uint32_t number = 1; number <= table->answer_count; number++) {
        const struct answer *answer = answer_at(table, number);
        if (answer->subgoal == subgoal && are_equal(&answer->form, form)) {
            return number;
        }
    }
    return 0;
}

static void append_subgoal(struct plain_table *table, const struct form *form)
{
    size_t place = table->subgoal_count;
    table->subgoals = resized(table->subgoals, (place + 1) * sizeof *table->subgoals);
    table->subgoals[place].form = *form;
    table->subgoals[place].finished = false;
    table->subgoal_count++;
}

static void append_answer(struct plain_table *table, uint32_t subgoal, const struct form *form)
{
    size_t place = table->answer_count;
    table->answers = resized(table->answers, (place + 1) * sizeof *table->answers);
    table->answers[place].subgoal = subgoal;
    table->answers[place].form = *form;
    table->answer_count++;
}

/* A subgoal without variables becomes finished as its one answer enters, by answer or by join. */
static void finish_if_ground(struct plain_table *table, uint32_t subgoal)
{
    if (plain_table_variables(table, subgoal) == 0) {
        plain_table_set_state(table, subgoal, true);
    }
}

/* Refusals 10 and 11 of a new subgoal, whose answer root is one more node. */
static enum refusal judge_new_subgoal(const struct plain_table *table, const struct form *form)
{
    size_t new_nodes = prefixes_new_to_subgoals(table, form, table->subgoal_count) + 1;
    if (nodes_used(table) + new_nodes > table->node_capacity) {
        return REFUSAL_NODES;
    }
    if (table->subgoal_count == table->subgoal_capacity) {
        return REFUSAL_RECORDS_LEFT;
    }
    return REFUSAL_NONE;
}

/* Refusals 8, 10 and 11 of an answer that the subgoal lacks. */
static enum refusal judge_new_answer(const struct plain_table *table, uint32_t subgoal,
                                     const struct form *form)
{
    if (plain_table_finished(table, subgoal)) {
        return REFUSAL_STATE;
    }
    size_t new_nodes = prefixes_new_to_answers(table, subgoal, form, table->answer_count);
    if (nodes_used(table) + new_nodes > table->node_capacity) {
        return REFUSAL_NODES;
    }
    if (table->answer_count == table->answer_capacity) {
        return REFUSAL_RECORDS_LEFT;
    }
    return REFUSAL_NONE;
}

/* Writing to out, and instances */

/* A loop because the standard copying functions forbid a null pointer even for no cells. */
static void copy_cells(uint32_t *out, const uint32_t *cells, size_t count)
{
    for (size_t i = 0; i < count; i++) {
        out[i] = cells[i];
    }
}

/* A run of cells inside a pair form. */
struct run {
    const uint32_t *cells;
    size_t length;
};

/* Term i of terms one after another, i from 0. */
static struct run term_at(const struct pair_form *terms, uint32_t i, uint32_t edition)
{
    size_t start = 0;
    for (uint32_t passed = 0; passed < i; passed++) {
        start = term_end(terms, start, edition);
    }
    return (struct run){&terms->cells[start], term_end(terms, start, edition) - start};
}

/* What a cell of the subgoal is in the instance: term i for variable i, else the cell itself. */
static struct run replacement(const uint32_t *cell, const struct pair_form *terms,
                              uint32_t edition)
{
    if (kind_of(*cell) == KIND_VARIABLE) {
        return term_at(terms, payload_of(*cell), edition);
    }
    return (struct run){cell, 1};
}

/* Far above a term's 256 cells: up to 65,281, for f/255 of one variable answered by 256 cells. So
   the instance is written straight to out and has no buffer here. */
static size_t instance_length(const struct pair_form *subgoal, const struct pair_form *terms,
                              uint32_t edition)
{
    size_t length = 0;
    for (size_t i = 0; i < subgoal->length; i++) {
        length += replacement(&subgoal->cells[i], terms, edition).length;
    }
    return length;
}

static void write_instance(const struct pair_form *subgoal, const struct pair_form *terms,
                           uint32_t *out, uint32_t edition)
{
    size_t written = 0;
    for (size_t i = 0; i < subgoal->length; i++) {
        struct run run = replacement(&subgoal->cells[i], terms, edition);
        copy_cells(out + written, run.cells, run.length);
        written += run.length;
    }
}

/* Joins */

/* What a join is given; two cells to a pair, two to a copy. */
struct join {
    uint32_t first, second, target;
    const uint32_t *pairs;
    size_t pairs_cells;
    const uint32_t *copies;
    size_t copies_cells;
};

/* A copy's side: 0 the first, 1 the second. */
enum side {
    SIDE_FIRST = 0,
    SIDE_SECOND = 1
};

/* Terms one after another before it is known that they are not over 256 cells: up to as many terms
   as a target has variables, each as long as an answer may be. */
struct joined {
    size_t length;
    uint32_t cells[MOST_VARIABLES * MOST_CELLS];
};

/* Whether one of a subgoal's answers holds a variable. */
static bool has_variable_answer(const struct plain_table *table, uint32_t subgoal)
{
    for (uint32_t number = 1; number <= table->answer_count; number++) {
        if (is_answer_of(table, number, subgoal) && answer_at(table, number)->form.variables > 0) {
            return true;
        }
    }
    return false;
}

/* At most 32 whole pairs, each of a variable of the first and one of the second. */
static bool are_pairs(const struct plain_table *table, const struct join *join)
{
    if (join->pairs_cells % 2 != 0 || join->pairs_cells / 2 > MOST_PAIRS) {
        return false;
    }
    for (size_t i = 0; i < join->pairs_cells; i += 2) {
        if (join->pairs[i] >= plain_table_variables(table, join->first) ||
            join->pairs[i + 1] >= plain_table_variables(table, join->second)) {
            return false;
        }
    }
    return true;
}

/* One whole copy for each variable of the target, each of a side and a variable of that side. */
static bool are_copies(const struct plain_table *table, const struct join *join)
{
    if (join->copies_cells % 2 != 0 ||
        join->copies_cells / 2 != plain_table_variables(table, join->target)) {
        return false;
    }
    for (size_t i = 0; i < join->copies_cells; i += 2) {
        uint32_t side = join->copies[i];
        if (side != SIDE_FIRST && side != SIDE_SECOND) {
            return false;
        }
        uint32_t source = side == SIDE_FIRST ? join->first : join->second;
        if (join->copies[i + 1] >= plain_table_variables(table, source)) {
            return false;
        }
    }
    return true;
}

/* Refusals 7, 8 and 14 to 16. */
static enum refusal judge_join(const struct plain_table *table, const struct join *join)
{
    if (!is_number_within(join->first, table->subgoal_count) ||
        !is_number_within(join->second, table->subgoal_count) ||
        !is_number_within(join->target, table->subgoal_count)) {
        return REFUSAL_NUMBER;
    }
    if (plain_table_finished(table, join->target)) {
        return REFUSAL_STATE;
    }
    if (!plain_table_finished(table, join->first) || !plain_table_finished(table, join->second)) {
        return REFUSAL_SOURCE_OPEN;
    }
    if (has_variable_answer(table, join->first) || has_variable_answer(table, join->second)) {
        return REFUSAL_SOURCE_VARIABLE;
    }
    if (!are_pairs(table, join) || !are_copies(table, join)) {
        return REFUSAL_NAMES;
    }
    return REFUSAL_NONE;
}

static bool are_equal_runs(struct run one, struct run other)
{
    if (one.length != other.length) {
        return false;
    }
    for (size_t i = 0; i < one.length; i++) {
        if (one.cells[i] != other.cells[i]) {
            return false;
        }
    }
    return true;
}

/* The answer that two answers, one of the first and one of the second, give to the target; false
   if the terms that some pair names are not equal. */
static bool join_answers(const struct plain_table *table, const struct join *join, uint32_t one,
                         uint32_t other, struct joined *joined)
{
    struct pair_form terms[2];
    expand_terms(&answer_at(table, one)->form, &terms[SIDE_FIRST], table->edition);
    expand_terms(&answer_at(table, other)->form, &terms[SIDE_SECOND], table->edition);
    for (size_t i = 0; i < join->pairs_cells; i += 2) {
        if (!are_equal_runs(term_at(&terms[SIDE_FIRST], join->pairs[i], table->edition),
                            term_at(&terms[SIDE_SECOND], join->pairs[i + 1], table->edition))) {
            return false;
        }
    }
    joined->length = 0;
    for (size_t i = 0; i < join->copies_cells; i += 2) {
        struct run run = term_at(&terms[join->copies[i]], join->copies[i + 1], table->edition);
        copy_cells(joined->cells + joined->length, run.cells, run.length);
        joined->length += run.length;
    }
    return true;
}

/* Whether an answer of the join is over 256 cells. */
static bool is_too_long(const struct plain_table *table, const struct join *join)
{
    struct joined joined;
    for (uint32_t one = 1; one <= table->answer_count; one++) {
        for (uint32_t other = 1; other <= table->answer_count; other++) {
            if (is_answer_of(table, one, join->first) &&
                is_answer_of(table, other, join->second) &&
                join_answers(table, join, one, other, &joined) && joined.length > MOST_CELLS) {
                return true;
            }
        }
    }
    return false;
}

/* Appends what the join gives, in order of the first, then of the second, each as by answer,
   without a thought for room. */
static void append_joined(struct plain_table *table, const struct join *join)
{
    uint32_t given = table->answer_count;
    struct joined joined;
    struct form form;
    for (uint32_t one = 1; one <= given; one++) {
        for (uint32_t other = 1; other <= given; other++) {
            if (!is_answer_of(table, one, join->first) ||
                !is_answer_of(table, other, join->second) ||
                !join_answers(table, join, one, other, &joined)) {
                continue;
            }
            (void)read_terms(joined.cells, joined.length, join->copies_cells / 2, &form,
                             table->edition);
            if (find_answer(table, join->target, &form) == 0) {
                append_answer(table, join->target, &form);
            }
        }
    }
}

/* The interface */

struct plain_table *plain_table_open(uint32_t nodes, uint32_t subgoals, uint32_t answers,
                                     uint32_t edition)
{
    struct plain_table *table = resized(NULL, sizeof *table);
    *table = (struct plain_table){
        .node_capacity = nodes,
        .subgoal_capacity = subgoals,
        .answer_capacity = answers,
        .edition = edition,
    };
    return table;
}

void plain_table_close(struct plain_table *table)
{
    free(table->subgoals);
    free(table->answers);
    free(table);
}

/* An equal form is old, else it is appended, open. */
uint64_t plain_table_call(struct plain_table *table, const uint32_t *term, size_t term_cells)
{
    struct form form;
    enum refusal refusal = read_called(term, term_cells, &form, table->edition);
    if (refusal != REFUSAL_NONE) {
        return refused(refusal);
    }
    uint32_t old = find_subgoal(table, &form);
    if (old != 0) {
        bool finished = plain_table_finished(table, old);
        return result(finished ? OUTCOME_OLD_FINISHED : OUTCOME_OLD_OPEN, old);
    }
    refusal = judge_new_subgoal(table, &form);
    if (refusal != REFUSAL_NONE) {
        return refused(refusal);
    }
    append_subgoal(table, &form);
    return result(OUTCOME_NEW, table->subgoal_count);
}

/* An equal form under that subgoal is old, be it open or finished, else it is appended if the subgoal
   is open. */
uint64_t plain_table_answer(struct plain_table *table, uint32_t subgoal, const uint32_t *terms,
                            size_t terms_cells)
{
    if (!is_number_within(subgoal, table->subgoal_count)) {
        return refused(REFUSAL_NUMBER);
    }
    struct form form;
    uint32_t term_count = plain_table_variables(table, subgoal);
    enum refusal refusal = read_terms(terms, terms_cells, term_count, &form, table->edition);
    if (refusal != REFUSAL_NONE) {
        return refused(refusal);
    }
    uint32_t old = find_answer(table, subgoal, &form);
    if (old != 0) {
        return result(OUTCOME_OLD, old);
    }
    refusal = judge_new_answer(table, subgoal, &form);
    if (refusal != REFUSAL_NONE) {
        return refused(refusal);
    }
    append_answer(table, subgoal, &form);
    finish_if_ground(table, subgoal);
    return result(OUTCOME_NEW, table->answer_count);
}

uint64_t plain_table_finish(struct plain_table *table, uint32_t subgoal)
{
    if (!is_number_within(subgoal, table->subgoal_count)) {
        return refused(REFUSAL_NUMBER);
    }
    plain_table_set_state(table, subgoal, true);
    return result(OUTCOME_DONE, 0);
}

/* The lowest answer number above the given one under that subgoal; 0 is from the start. Where there
   is none the subgoal's state decides: none yet while it is open, no more once it is finished. */
uint64_t plain_table_next(const struct plain_table *table, uint32_t subgoal, uint32_t after)
{
    if (!is_number_within(subgoal, table->subgoal_count)) {
        return refused(REFUSAL_NUMBER);
    }
    if (after != 0 && !is_answer_of(table, after, subgoal)) {
        return refused(REFUSAL_NUMBER);
    }
    for (uint32_t number = after + 1; number <= table->answer_count; number++) {
        if (answer_at(table, number)->subgoal == subgoal) {
            return result(OUTCOME_AT, number);
        }
    }
    return result(plain_table_finished(table, subgoal) ? OUTCOME_NO_MORE : OUTCOME_NONE_YET, 0);
}

/* The m terms in pair form, numbered. */
uint64_t plain_table_load(const struct plain_table *table, uint32_t answer, uint32_t *out,
                          size_t out_cells)
{
    if (!is_number_within(answer, table->answer_count)) {
        return refused(REFUSAL_NUMBER);
    }
    struct pair_form terms;
    expand_terms(&answer_at(table, answer)->form, &terms, table->edition);
    if (terms.length > out_cells) {
        return refused_out(terms.length);
    }
    copy_cells(out, terms.cells, terms.length);
    return result(OUTCOME_CELLS, terms.length);
}

/* The subgoal with variable i replaced by term i. */
uint64_t plain_table_instance(const struct plain_table *table, uint32_t answer, uint32_t *out,
                              size_t out_cells)
{
    if (!is_number_within(answer, table->answer_count)) {
        return refused(REFUSAL_NUMBER);
    }
    const struct answer *entry = answer_at(table, answer);
    struct pair_form terms;
    struct pair_form subgoal;
    expand_terms(&entry->form, &terms, table->edition);
    expand_terms(&subgoal_at(table, entry->subgoal)->form, &subgoal, table->edition);
    size_t length = instance_length(&subgoal, &terms, table->edition);
    if (length > out_cells) {
        return refused_out(length);
    }
    write_instance(&subgoal, &terms, out, table->edition);
    return result(OUTCOME_CELLS, length);
}

uint64_t plain_table_counts(const struct plain_table *table, uint32_t *out, size_t out_cells)
{
    if (out_cells < 3) {
        return refused_out(3);
    }
    out[0] = (uint32_t)nodes_used(table);
    out[1] = table->subgoal_count;
    out[2] = table->answer_count;
    return result(OUTCOME_COUNTS, 3);
}

/* Refused as call is down to 6, then for out alone: a full table says new all the same. An equal form
   is old, whatever its state. */
uint64_t plain_table_why(const struct plain_table *table, const uint32_t *term, size_t term_cells,
                         uint32_t *out, size_t out_cells)
{
    struct form form;
    enum refusal refusal = read_called(term, term_cells, &form, table->edition);
    if (refusal != REFUSAL_NONE) {
        return refused(refusal);
    }
    if (out_cells < WHY_CELLS) {
        return refused_out(WHY_CELLS);
    }
    uint32_t old = find_subgoal(table, &form);
    if (old != 0) {
        out[0] = list_variables(term, term_cells, out + 1);
        return result(OUTCOME_WHY_OLD, old);
    }
    uint32_t nearest = find_nearest(table, &form, &out[0]);
    return result(OUTCOME_WHY_NEW, nearest);
}

/* Every answer enters, or none: where the table with all of them is too full, they are taken off its
   list again. */
uint64_t plain_table_join(struct plain_table *table, uint32_t first, uint32_t second,
                          const uint32_t *pairs, size_t pairs_cells, uint32_t target,
                          const uint32_t *copies, size_t copies_cells)
{
    const struct join join = {
        .first = first,
        .second = second,
        .target = target,
        .pairs = pairs,
        .pairs_cells = pairs_cells,
        .copies = copies,
        .copies_cells = copies_cells,
    };
    enum refusal refusal = judge_join(table, &join);
    if (refusal != REFUSAL_NONE) {
        return refused(refusal);
    }
    if (is_too_long(table, &join)) {
        return refused(REFUSAL_LENGTH);
    }
    uint32_t before = table->answer_count;
    append_joined(table, &join);
    uint32_t after = table->answer_count;
    if (nodes_used(table) > table->node_capacity) {
        table->answer_count = before;
        return refused(REFUSAL_NODES);
    }
    if (after > table->answer_capacity) {
        table->answer_count = before;
        return refused(REFUSAL_RECORDS_LEFT);
    }
    if (after > before) {
        finish_if_ground(table, target);
    }
    return result(OUTCOME_JOINED, after - before);
}

uint32_t plain_table_variables(const struct plain_table *table, uint32_t subgoal)
{
    return subgoal_at(table, subgoal)->form.variables;
}

bool plain_table_finished(const struct plain_table *table, uint32_t subgoal)
{
    return subgoal_at(table, subgoal)->finished;
}

void plain_table_set_state(struct plain_table *table, uint32_t subgoal, bool finished)
{
    table->subgoals[subgoal - 1].finished = finished;
}
