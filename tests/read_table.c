/* Reads the table off the cells of a space, whoever wrote it, from document 01 alone: the tests' second opinion on tables_check. */
#include "read_table.h"

#include <string.h>

enum { HEADER_CELLS = 8, NODE_CELLS = 5, SUBGOAL_CELLS = 6, ANSWER_CELLS = 3, MOST = 1048576, MOST_VARIABLES = 32 };
enum { TOKEN, CHILD, SIBLING, PARENT, LINK };
enum { LEAF, ROOT, M, STATE, FIRST, LAST };
enum { OF_SUBGOAL = 1, NEXT = 2 };
enum { NO_NODE = UINT32_MAX };

#define UNIT (UINT32_C(1) << 28)
#define KIND(cell) ((cell) / UNIT)
#define NIL (2 * UNIT)
#define PAIR (5 * UNIT)
#define BLIST (6 * UNIT)
#define ELIST (7 * UNIT)
#define EPAIR (8 * UNIT)
#define FAULT(fault) (UINT32_C(1) << (fault))

const char *const read_fault_names[READ_FAULTS] = {
    [FAULT_HEADER] = "no sound header",
    [FAULT_RANGE] = "a field out of range",
    [FAULT_BEYOND] = "a count too low",
    [FAULT_PATH] = "a path that does not lead to its root",
    [FAULT_FORM] = "a path that is no legal form",
    [FAULT_PREDICATE] = "a subgoal without a predicate",
    [FAULT_ROOT] = "an answer root that is none, or serves two",
    [FAULT_TWICE] = "a form entered twice",
    [FAULT_SIBLING] = "a sibling twice",
    [FAULT_LIST] = "a list of children led astray",
    [FAULT_FIND] = "a leaf that the search does not find",
    [FAULT_LINK] = "a leaf's link not led back",
    [FAULT_LOST] = "an answer lost from its chain",
    [FAULT_CHAIN] = "a chain that is led astray",
    [FAULT_SUM] = "other nodes used than the sum",
};

const char *const read_oddity_names[READ_ODDITIES] = {
    [ODD_LINK] = "a link of no leaf",
    [ODD_ROOT] = "a root's token or sibling",
    [ODD_CHILD] = "a child where none is searched",
    [ODD_PLACE] = "an answer root not after its leaf",
    [ODD_ORDER] = "first children to a later subgoal",
};

/* The header */

/* How many records of so many cells lie between two offsets; above MOST if that is not whole or falls. */
static uint32_t capacity(uint32_t from, uint32_t to, uint32_t size)
{
    return to < from || (to - from) % size != 0 ? MOST + 1 : (to - from) / size;
}

static bool read_header(const uint32_t *space, size_t cells, struct read_table *table)
{
    if (cells < HEADER_CELLS || (space[0] != 1 && space[0] != 2) || space[4] != HEADER_CELLS || space[7] > cells)
        return false;
    table->edition = space[0];
    table->nodes = capacity(space[4], space[5], NODE_CELLS);
    table->subgoals = capacity(space[5], space[6], SUBGOAL_CELLS);
    table->answers = capacity(space[6], space[7], ANSWER_CELLS);
    table->used_nodes = space[1];
    table->used_subgoals = space[2];
    table->used_answers = space[3];
    return table->nodes >= 1 && table->nodes <= MOST && table->subgoals <= MOST && table->answers <= MOST &&
           space[1] >= 1 && space[1] <= table->nodes && space[2] <= table->subgoals && space[3] <= table->answers;
}

/* Records, which are in use */

static const uint32_t *node_at(const uint32_t *space, uint32_t node)
{
    return space + HEADER_CELLS + (size_t)NODE_CELLS * node;
}

static const uint32_t *subgoal_at(const uint32_t *space, uint32_t subgoal)
{
    return space + space[5] + (size_t)SUBGOAL_CELLS * (subgoal - 1);
}

static const uint32_t *answer_at(const uint32_t *space, uint32_t answer)
{
    return space + space[6] + (size_t)ANSWER_CELLS * (answer - 1);
}

/* A number that must be at most `most`, where there is room for `room`: nothing wrong, a count too low, or out of range. */
static uint32_t judge_number(uint32_t number, uint32_t most, uint32_t room)
{
    return number <= most ? 0 : FAULT(FAULT_RANGE) | (number <= room ? FAULT(FAULT_BEYOND) : 0);
}

/* The root to which the parents lead from a node in use; NO_NODE if they do not fall. */
static uint32_t root_above(const uint32_t *space, uint32_t node)
{
    for (uint32_t parent; (parent = node_at(space, node)[PARENT]) != node; node = parent)
        if (parent > node)
            return NO_NODE;
    return node;
}

static uint32_t judge_node(const uint32_t *space, uint32_t node, const struct read_table *table)
{
    const uint32_t *record = node_at(space, node);
    uint32_t faults = 0;
    for (size_t field = CHILD; field <= SIBLING; field++) {
        if (record[field] != 0 && record[field] <= node)
            faults |= FAULT(FAULT_RANGE);
        faults |= judge_number(record[field], table->used_nodes - 1, table->nodes - 1);
    }
    uint32_t root = root_above(space, node);
    if (root == NO_NODE)
        return faults | FAULT(FAULT_RANGE);
    return faults | (root == 0 ? judge_number(record[LINK], table->used_subgoals, table->subgoals)
                               : judge_number(record[LINK], table->used_answers, table->answers));
}

/* Forms */

/* A form while its terms are written in pair form. */
struct reading {
    uint32_t edition;
    struct read_form *form;
    size_t place;
    uint32_t variables;
};

static bool write_cell(struct reading *reading, uint32_t cell)
{
    if (reading->form->cells == READ_CELLS)
        return false;
    reading->form->cell[reading->form->cells++] = cell;
    return true;
}

static bool expand_term(struct reading *reading);

/* The token that is read next, or 0, which is no token, at the end. */
static uint32_t next_token(const struct reading *reading)
{
    return reading->place < reading->form->tokens ? reading->form->token[reading->place] : 0;
}

/* What follows BLIST. */
static bool expand_list(struct reading *reading)
{
    for (size_t elements = 0;; elements++) {
        uint32_t token = next_token(reading);
        if (token == ELIST) {
            reading->place++;
            return write_cell(reading, PAIR) && expand_term(reading) && write_cell(reading, NIL);
        }
        if (token == EPAIR) {
            reading->place++;
            token = next_token(reading);
            return elements > 0 && token != NIL && token != BLIST && expand_term(reading);
        }
        if (!write_cell(reading, PAIR) || !expand_term(reading))
            return false;
    }
}

static bool expand_arguments(struct reading *reading, uint32_t count)
{
    while (count > 0 && expand_term(reading))
        count--;
    return count == 0;
}

static bool expand_term(struct reading *reading)
{
    uint32_t token = next_token(reading), payload = token % UNIT;
    reading->place++;
    switch (KIND(token)) {
    case 1:
        if (payload > reading->variables || payload >= MOST_VARIABLES)
            return false;
        reading->variables += payload == reading->variables;
        return write_cell(reading, token);
    case 2:
    case 3:
        return write_cell(reading, token);
    case 4:
        payload %= reading->edition == 1 ? 16 : 256;
        return payload > 0 && write_cell(reading, token) && expand_arguments(reading, payload);
    case 6:
        return payload == 0 && expand_list(reading);
    default:
        return false;
    }
}

/* Is the form that of so many terms? Writes their cells and gives their variables. */
static bool expand_form(uint32_t edition, struct read_form *form, uint32_t terms, uint32_t *variables)
{
    struct reading reading = {edition, form, 0, 0};
    form->cells = 0;
    bool legal = expand_arguments(&reading, terms) && reading.place == form->tokens;
    *variables = reading.variables;
    return legal;
}

/* The tokens from a leaf in use up to a root, first to last. */
static bool climb(const uint32_t *space, uint32_t leaf, uint32_t root, struct read_form *form)
{
    uint32_t node = leaf;
    form->tokens = 0;
    for (uint32_t parent; (parent = node_at(space, node)[PARENT]) != node; node = parent) {
        if (parent > node || form->tokens == READ_TOKENS)
            return false;
        form->token[form->tokens++] = node_at(space, node)[TOKEN];
    }
    for (size_t i = 0; i < form->tokens / 2; i++) {
        uint32_t moved = form->token[i];
        form->token[i] = form->token[form->tokens - 1 - i];
        form->token[form->tokens - 1 - i] = moved;
    }
    return node == root;
}

/* The node that the search from a root ends in with the whole form, or NO_NODE. */
static uint32_t find(const uint32_t *space, uint32_t root, const struct read_form *form)
{
    uint32_t node = root, used = space[1];
    for (size_t i = 0; i < form->tokens; i++) {
        uint32_t before = node, child = node_at(space, node)[CHILD];
        while (child > before && child < used && node_at(space, child)[PARENT] == node &&
               node_at(space, child)[TOKEN] != form->token[i]) {
            before = child;
            child = node_at(space, child)[SIBLING];
        }
        if (child <= before || child >= used || node_at(space, child)[PARENT] != node)
            return NO_NODE;
        node = child;
    }
    return node;
}

/* A leaf in use: its path, whether the search finds it, and where its link leads. */
static uint32_t judge_leaf(const uint32_t *space, uint32_t leaf, uint32_t root, uint32_t number, struct read_form *form)
{
    if (!climb(space, leaf, root, form))
        return FAULT(FAULT_PATH);
    return (find(space, root, form) != leaf ? FAULT(FAULT_FIND) : 0) |
           (node_at(space, leaf)[LINK] != number ? FAULT(FAULT_LINK) : 0);
}

/* Subgoals and answers */

static uint32_t read_subgoal(const uint32_t *space, uint32_t number, struct read_table *table)
{
    const uint32_t *record = subgoal_at(space, number);
    struct read_subgoal *subgoal = &table->subgoal[number - 1];
    uint32_t variables, kind;
    uint32_t faults = judge_number(record[LEAF], table->used_nodes - 1, table->nodes - 1) |
                      judge_number(record[ROOT], table->used_nodes - 1, table->nodes - 1) |
                      judge_number(record[FIRST], table->used_answers, table->answers) |
                      judge_number(record[LAST], table->used_answers, table->answers);
    if (record[M] > MOST_VARIABLES || record[STATE] > 1 || (record[FIRST] == 0) != (record[LAST] == 0))
        faults |= FAULT(FAULT_RANGE);
    subgoal->leaf = record[LEAF];
    subgoal->root = record[ROOT];
    subgoal->variables = record[M];
    subgoal->finished = record[STATE] == 1;
    if (record[LEAF] >= table->used_nodes || record[ROOT] >= table->used_nodes)
        return faults;
    if (record[ROOT] == 0 || node_at(space, record[ROOT])[PARENT] != record[ROOT])
        faults |= FAULT(FAULT_ROOT);
    for (uint32_t other = 1; other < number; other++)
        if (subgoal_at(space, other)[ROOT] == record[ROOT])
            faults |= FAULT(FAULT_ROOT);
    faults |= judge_leaf(space, record[LEAF], 0, number, &subgoal->form);
    if ((faults & FAULT(FAULT_PATH)) != 0)
        return faults;
    if (!expand_form(table->edition, &subgoal->form, 1, &variables) || variables != record[M])
        return faults | FAULT(FAULT_FORM);
    kind = KIND(subgoal->form.token[0]);
    return faults | (kind != 2 && kind != 4 ? FAULT(FAULT_PREDICATE) : 0);
}

static uint32_t read_answer(const uint32_t *space, uint32_t number, struct read_table *table)
{
    const uint32_t *record = answer_at(space, number);
    struct read_answer *answer = &table->answer[number - 1];
    uint32_t variables;
    uint32_t faults = judge_number(record[LEAF], table->used_nodes - 1, table->nodes - 1) |
                      judge_number(record[OF_SUBGOAL], table->used_subgoals, table->subgoals) |
                      judge_number(record[NEXT], table->used_answers, table->answers);
    answer->leaf = record[LEAF];
    answer->subgoal = record[OF_SUBGOAL];
    if (record[LEAF] >= table->used_nodes || record[OF_SUBGOAL] == 0 || record[OF_SUBGOAL] > table->used_subgoals)
        return faults | FAULT(FAULT_RANGE);
    const struct read_subgoal *subgoal = &table->subgoal[answer->subgoal - 1];
    if (subgoal->root >= table->used_nodes)
        return faults;
    faults |= judge_leaf(space, record[LEAF], subgoal->root, number, &answer->form);
    if ((faults & FAULT(FAULT_PATH)) != 0)
        return faults;
    bool legal = expand_form(table->edition, &answer->form, subgoal->variables, &variables);
    return faults | (legal ? 0 : FAULT(FAULT_FORM));
}

/* Every subgoal's chain, and every answer's next, be it on a chain or not. */
static uint32_t judge_chains(const uint32_t *space, struct read_table *table)
{
    static bool met[READ_ANSWERS];
    uint32_t faults = 0;
    memset(met, 0, table->used_answers * sizeof *met);
    for (uint32_t subgoal = 1; subgoal <= table->used_subgoals; subgoal++) {
        uint32_t before = 0, answer = subgoal_at(space, subgoal)[FIRST];
        while (answer > before && answer <= table->used_answers && answer_at(space, answer)[OF_SUBGOAL] == subgoal) {
            met[answer - 1] = true;
            before = answer;
            answer = answer_at(space, answer)[NEXT];
        }
        if (answer != 0 || subgoal_at(space, subgoal)[LAST] != before)
            faults |= FAULT(FAULT_CHAIN);
    }
    table->lost = 0;
    for (uint32_t answer = table->used_answers; answer > 0; answer--) {
        uint32_t next = answer_at(space, answer)[NEXT];
        if (next != 0 && (next <= answer || next > table->used_answers ||
                          answer_at(space, next)[OF_SUBGOAL] != answer_at(space, answer)[OF_SUBGOAL]))
            faults |= FAULT(FAULT_CHAIN);
        if (!met[answer - 1])
            table->lost = answer;
    }
    return faults | (table->lost != 0 ? FAULT(FAULT_LOST) : 0);
}

/* The nodes that are leaves, and those under which no search goes on: the leaves, and the roots of answers of no terms. */
static bool is_leaf[READ_NODES], is_end[READ_NODES];

static void mark_leaves(const struct read_table *table)
{
    memset(is_leaf, 0, sizeof is_leaf);
    memset(is_end, 0, sizeof is_end);
    for (uint32_t i = 0; i < table->used_subgoals; i++) {
        const struct read_subgoal *subgoal = &table->subgoal[i];
        if (subgoal->leaf < table->used_nodes)
            is_leaf[subgoal->leaf] = is_end[subgoal->leaf] = true;
        if (subgoal->root < table->used_nodes && subgoal->variables == 0)
            is_end[subgoal->root] = true;
    }
    for (uint32_t i = 0; i < table->used_answers; i++)
        if (table->answer[i].leaf < table->used_nodes)
            is_leaf[table->answer[i].leaf] = is_end[table->answer[i].leaf] = true;
}

/* Where first children lead from a node: they rise. A child that does not is a fault of its own. */
static uint32_t first_leaf(const uint32_t *space, uint32_t node, const struct read_table *table)
{
    uint32_t child = node_at(space, node)[CHILD];
    while (child > node && child < table->used_nodes) {
        node = child;
        child = node_at(space, node)[CHILD];
    }
    return node;
}

/* Do they lead from a node above the leaf of subgoal i + 1, the root apart, to a later subgoal? */
static bool leads_later(const uint32_t *space, const struct read_table *table, uint32_t i)
{
    uint32_t node = table->subgoal[i].leaf;
    for (size_t level = 0; level < READ_TOKENS && node < table->used_nodes; level++) {
        node = node_at(space, node)[PARENT];
        if (node >= table->used_nodes || node_at(space, node)[PARENT] == node)
            return false;
        if (node_at(space, first_leaf(space, node, table))[LINK] > i + 1)
            return true;
    }
    return false;
}

/* What no call writes or notices. */
static uint32_t find_oddities(const uint32_t *space, const struct read_table *table)
{
    uint32_t oddities = 0;
    for (uint32_t node = 0; node < table->used_nodes; node++) {
        const uint32_t *record = node_at(space, node);
        if (record[LINK] != 0 && !is_leaf[node])
            oddities |= FAULT(ODD_LINK);
        if (record[PARENT] == node && (record[TOKEN] != 0 || record[SIBLING] != 0))
            oddities |= FAULT(ODD_ROOT);
        if (record[CHILD] != 0 && is_end[node])
            oddities |= FAULT(ODD_CHILD);
    }
    for (uint32_t i = 0; i < table->used_subgoals; i++) {
        if (table->subgoal[i].root != table->subgoal[i].leaf + 1)
            oddities |= FAULT(ODD_PLACE);
        if (leads_later(space, table, i))
            oddities |= FAULT(ODD_ORDER);
    }
    return oddities;
}

/* The children of every node: no two with one token, and where the search may go on, an end. */
static uint32_t judge_siblings(const uint32_t *space, const struct read_table *table)
{
    uint32_t faults = 0;
    for (uint32_t node = 0; node < table->used_nodes; node++) {
        uint32_t child = node_at(space, node)[CHILD], before = node;
        while (child > before && child < table->used_nodes && node_at(space, child)[PARENT] == node) {
            for (uint32_t other = node_at(space, node)[CHILD]; other < child; other = node_at(space, other)[SIBLING])
                if (node_at(space, other)[TOKEN] == node_at(space, child)[TOKEN])
                    faults |= FAULT(FAULT_SIBLING);
            before = child;
            child = node_at(space, child)[SIBLING];
        }
        if (child != 0 && !is_end[node])
            faults |= FAULT(FAULT_LIST);
    }
    return faults;
}

/* The sum */

static size_t shared_tokens(const struct read_form *one, const struct read_form *other)
{
    size_t shared = 0;
    while (shared < one->tokens && shared < other->tokens && one->token[shared] == other->token[shared])
        shared++;
    return shared;
}

/* The tokens of a form that no earlier one of the same trie has; notices an equal one. */
static size_t own_tokens(const struct read_form *form, const struct read_form *other, size_t shared, uint32_t *faults)
{
    size_t more = shared_tokens(form, other);
    if (more == form->tokens && more == other->tokens)
        *faults |= FAULT(FAULT_TWICE);
    return more > shared ? more : shared;
}

static uint32_t add_up(struct read_table *table)
{
    uint32_t faults = 0;
    table->sum = 1 + (uint64_t)table->used_subgoals;
    for (uint32_t i = 0; i < table->used_subgoals; i++) {
        size_t shared = 0;
        for (uint32_t j = 0; j < i; j++)
            shared = own_tokens(&table->subgoal[i].form, &table->subgoal[j].form, shared, &faults);
        table->sum += table->subgoal[i].form.tokens - shared;
    }
    for (uint32_t i = 0; i < table->used_answers; i++) {
        size_t shared = 0;
        for (uint32_t j = 0; j < i; j++)
            if (table->answer[j].subgoal == table->answer[i].subgoal)
                shared = own_tokens(&table->answer[i].form, &table->answer[j].form, shared, &faults);
        table->sum += table->answer[i].form.tokens - shared;
    }
    return faults | (table->sum != table->used_nodes ? FAULT(FAULT_SUM) : 0);
}

uint32_t read_table(const uint32_t *space, size_t cells, struct read_table *table)
{
    uint32_t faults = 0;
    if (!read_header(space, cells, table))
        return FAULT(FAULT_HEADER);
    for (uint32_t node = 0; node < table->used_nodes; node++)
        faults |= judge_node(space, node, table);
    if (node_at(space, 0)[PARENT] != 0)
        faults |= FAULT(FAULT_RANGE);
    for (uint32_t subgoal = 1; subgoal <= table->used_subgoals; subgoal++)
        faults |= read_subgoal(space, subgoal, table);
    for (uint32_t answer = 1; answer <= table->used_answers; answer++)
        faults |= read_answer(space, answer, table);
    mark_leaves(table);
    faults |= judge_chains(space, table) | judge_siblings(space, table);
    if ((faults & (FAULT(FAULT_RANGE) | FAULT(FAULT_PATH))) == 0)
        faults |= add_up(table);
    table->oddities = (faults & ~FAULT(FAULT_LOST)) == 0 ? find_oddities(space, table) : 0;
    return faults;
}
