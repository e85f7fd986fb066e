/*
 * The calls on arbitrary cells, written from the request and its readings alone.
 *
 * Each call is done here as documents 01 and 02 and the readings say it, on whatever cells a space, an index and the arguments
 * hold: the word that it returns and every cell that it leaves. It is plain and slow. Of document 02 it has.
 *
 * In the comments '01' and '02' are the two documents and 'readings' is the page of readings, with a section's or a paragraph's
 * first words and the number in that section. Numbers alone above a call are its refusals, in the order of their checks.
 */
#include "cells_model.h"

#include <stdbool.h>

#include "../include/tables.h"

enum {
    HEADER_CELLS = 8,
    NODE_CELLS = 5,
    SUBGOAL_CELLS = 6,
    ANSWER_CELLS = 3,
    MOST_RECORDS = 1048576, /* of each sort (01, The space) */
    MOST_CELLS = 256,       /* of a term, or of an answer's terms together */
    MOST_VARIABLES = 32,
    MOST_TOKENS = 383, /* of a stored form */
    MOST_PAIRS = 32,   /* of a join (02, Q-2) */
    CROWDED = 8,       /* a node of more children than this has them in an index (02, Q-5) */
    KEPT = 2048        /* the answers of a join's second source that are kept as loaded; others are loaded again */
};

#define EMPTY_LIST UINT32_C(0x20000000)
#define PAIR_CELL UINT32_C(0x50000000)
#define BLIST_CELL UINT32_C(0x60000000)
#define ELIST_CELL UINT32_C(0x70000000)
#define EPAIR_CELL UINT32_C(0x80000000)

struct cells_model_met cells_model_met;

/* Words (the interface: what came of a call above, its value below). */

static uint64_t word_of(uint32_t what, uint32_t value)
{
    return (uint64_t)what << 32 | value;
}

static uint64_t refused(uint32_t number)
{
    return word_of(TABLES_CALL_REFUSED + number, 0);
}

/* 12 alone carries a value: the cells needed. */
static uint64_t refused_out(uint32_t need)
{
    return word_of(TABLES_CALL_REFUSED + TABLES_REFUSED_OUT, need);
}

/* The header (01, The space; refusal 1). */

struct table {
    const uint32_t *cells;
    uint32_t edition;
    uint32_t most_nodes;
    uint32_t most_subgoals;
    uint32_t most_answers;
    uint32_t subgoals_at;
    uint32_t answers_at;
};

/* The three counts are read in the header each time, since a join raises them while it writes. */
static uint32_t nodes_used(const struct table *table)
{
    return table->cells[1];
}

static uint32_t subgoals_used(const struct table *table)
{
    return table->cells[2];
}

static uint32_t answers_used(const struct table *table)
{
    return table->cells[3];
}

/* editions 1 and 2. Those of have not landed. */
static bool known_edition(uint32_t edition)
{
    return edition == 1 || edition == 2;
}

/* A capacity by two offsets: whole, and in range. Offsets that fall are out of range (readings, Damaged spaces 16). */
static bool read_capacity(uint32_t from, uint32_t to, uint32_t width, uint32_t least, uint32_t *records)
{
    if (to < from || (to - from) % width != 0)
        return false;
    *records = (to - from) / width;
    return *records >= least && *records <= MOST_RECORDS;
}

static bool read_header(struct table *table, const uint32_t *space, size_t length)
{
    if (length < HEADER_CELLS)
        return false;
    table->cells = space;
    table->edition = space[0];
    table->subgoals_at = space[5];
    table->answers_at = space[6];
    if (!known_edition(space[0]) || space[4] != HEADER_CELLS)
        return false;
    if (!read_capacity(space[4], space[5], NODE_CELLS, 1, &table->most_nodes) ||
        !read_capacity(space[5], space[6], SUBGOAL_CELLS, 0, &table->most_subgoals) ||
        !read_capacity(space[6], space[7], ANSWER_CELLS, 0, &table->most_answers))
        return false;
    return space[7] <= length && space[1] != 0 && space[1] <= table->most_nodes && space[2] <= table->most_subgoals &&
           space[3] <= table->most_answers;
}

/* The records (01, The space). */

struct node {
    uint32_t token;
    uint32_t child;
    uint32_t sibling;
    uint32_t parent;
    uint32_t link;
};

struct subgoal {
    uint32_t leaf;
    uint32_t root;
    uint32_t variables; /* m */
    uint32_t state;
    uint32_t first;
    uint32_t last;
};

struct answer {
    uint32_t leaf;
    uint32_t subgoal;
    uint32_t next;
};

static size_t node_place(uint32_t node)
{
    return HEADER_CELLS + (size_t)NODE_CELLS * node;
}

static size_t subgoal_place(const struct table *table, uint32_t subgoal)
{
    return table->subgoals_at + (size_t)SUBGOAL_CELLS * (subgoal - 1);
}

static size_t answer_place(const struct table *table, uint32_t answer)
{
    return table->answers_at + (size_t)ANSWER_CELLS * (answer - 1);
}

/* Each of the three is asked only for a number that lies within the counts. */
static struct node node_of(const struct table *table, uint32_t number)
{
    const uint32_t *at = table->cells + node_place(number);
    return (struct node){at[0], at[1], at[2], at[3], at[4]};
}

static struct subgoal subgoal_of(const struct table *table, uint32_t number)
{
    const uint32_t *at = table->cells + subgoal_place(table, number);
    return (struct subgoal){at[0], at[1], at[2], at[3], at[4], at[5]};
}

static struct answer answer_of(const struct table *table, uint32_t number)
{
    const uint32_t *at = table->cells + answer_place(table, number);
    return (struct answer){at[0], at[1], at[2]};
}

/* Refusal 7: 0, or above its count. */
static bool is_subgoal(const struct table *table, uint32_t number)
{
    return number != 0 && number <= subgoals_used(table);
}

static bool is_answer(const struct table *table, uint32_t number)
{
    return number != 0 && number <= answers_used(table);
}

/* Judging a record that is read (01, A damaged record is never followed). */

/* Which count a link is held to is told by the root that a walk starts from or ends at (readings, Damaged spaces 11). */
enum trie { SUBGOAL_TRIE, ANSWER_TRIE };

static uint32_t most_link(const struct table *table, enum trie trie)
{
    return trie == SUBGOAL_TRIE ? subgoals_used(table) : answers_used(table);
}

/* A child or a sibling: none, or above the node that it comes from and below the nodes used. */
static bool later_node(const struct table *table, uint32_t from, uint32_t to)
{
    return to == 0 || (to > from && to < nodes_used(table));
}

/*
 * A node's own numbers, the link apart. A parent above the node is damage by itself; whether it is the expected one is judged
 * where the node is met (readings, Damaged spaces 18). Tokens are not judged here: a token names no record.
 */
static bool places_sound(const struct table *table, uint32_t number, const struct node *node)
{
    return later_node(table, number, node->child) && later_node(table, number, node->sibling) && node->parent <= number;
}

static bool node_sound(const struct table *table, enum trie trie, uint32_t number, const struct node *node)
{
    return places_sound(table, number, node) && node->link <= most_link(table, trie);
}

/* A node read as a root is its own parent (readings, Damaged spaces 2). */
static bool root_sound(const struct table *table, enum trie trie, uint32_t number)
{
    struct node node = node_of(table, number);
    return node.parent == number && node_sound(table, trie, number, &node);
}

/* Leaf and answer root may be 0, which is in range (readings, Damaged spaces 4). */
static bool subgoal_sound(const struct table *table, const struct subgoal *subgoal)
{
    return subgoal->leaf < nodes_used(table) && subgoal->root < nodes_used(table) && subgoal->variables <= MOST_VARIABLES &&
           subgoal->state <= 1 && subgoal->first <= answers_used(table) && subgoal->last <= answers_used(table) &&
           (subgoal->first == 0) == (subgoal->last == 0);
}

/* A next answer is above its predecessor; the subgoal may not be 0, which means none only where 01 says so. */
static bool answer_sound(const struct table *table, uint32_t number, const struct answer *answer)
{
    return answer->leaf < nodes_used(table) && is_subgoal(table, answer->subgoal) &&
           (answer->next == 0 || (answer->next > number && answer->next <= answers_used(table)));
}

/* Terms in pair form, read (01, Cells and terms; 02, Q-3 and Q-7). */

struct form {
    size_t count;
    uint32_t tokens[MOST_TOKENS];
};

static uint32_t functor_arity(uint32_t edition, uint32_t cell)
{
    return cell & (edition == 1 ? 15 : 255);
}

/* The arity of a legal cell of pair form: a pair has 2, a constant or variable 0. */
static uint32_t cell_arity(uint32_t edition, uint32_t cell)
{
    switch (TABLES_KIND(cell)) {
    case TABLES_FUNCTOR:
        return functor_arity(edition, cell);
    case TABLES_PAIR:
        return 2;
    default:
        return 0;
    }
}

static bool legal_cell(uint32_t edition, uint32_t cell)
{
    switch (TABLES_KIND(cell)) {
    case TABLES_VARIABLE:
    case TABLES_ATOM:
    case TABLES_INTEGER:
        return true;
    case TABLES_FUNCTOR:
        return functor_arity(edition, cell) != 0;
    case TABLES_PAIR:
        return cell == PAIR_CELL;
    default:
        return false;
    }
}

/* Whether the cells are exactly so many terms: the sum of Q-3 is 0 after the last cell and never before one. */
static bool exactly_terms(uint32_t edition, const uint32_t *cells, size_t count, uint32_t terms)
{
    uint32_t due = terms;

    for (size_t i = 0; i < count; i++) {
        if (due == 0 || !legal_cell(edition, cells[i]))
            return false;
        due = due + cell_arity(edition, cells[i]) - 1;
    }
    return due == 0;
}

/* The distinct variables in order of first meeting. */
struct names {
    uint32_t count;
    uint32_t cells[MOST_VARIABLES];
};

static uint32_t rank_of(const struct names *names, uint32_t cell)
{
    uint32_t rank = 0;

    while (rank < names->count && names->cells[rank] != cell)
        rank++;
    return rank;
}

/* False where they are over 32 (refusal 5). */
static bool meet_variables(struct names *names, const uint32_t *cells, size_t count)
{
    names->count = 0;
    for (size_t i = 0; i < count; i++) {
        if (TABLES_KIND(cells[i]) != TABLES_VARIABLE || rank_of(names, cells[i]) < names->count)
            continue;
        if (names->count == MOST_VARIABLES)
            return false;
        names->cells[names->count++] = cells[i];
    }
    return true;
}

/* Writing the compact form of legal terms. Of at most 256 cells it is at most 383 tokens, so that a form has room. */
struct compacting {
    uint32_t edition;
    const uint32_t *cells;
    size_t at;
    const struct names *names;
    struct form *form;
};

static void put_token(struct compacting *to, uint32_t token)
{
    to->form->tokens[to->form->count++] = token;
}

static size_t term_end(const struct compacting *from, size_t at)
{
    uint32_t due = 1;

    while (due != 0)
        due = due + cell_arity(from->edition, from->cells[at++]) - 1;
    return at;
}

static void compact_list(struct compacting *c);

static void compact_term(struct compacting *c)
{
    uint32_t cell = c->cells[c->at];
    uint32_t arity = cell_arity(c->edition, cell);

    if (cell == PAIR_CELL) {
        compact_list(c);
        return;
    }
    c->at++;
    put_token(c, TABLES_KIND(cell) == TABLES_VARIABLE ? (uint32_t)TABLES_VARIABLE << 28 | rank_of(c->names, cell) : cell);
    for (uint32_t i = 0; i < arity; i++)
        compact_term(c);
}

/* BLIST e1 .. ELIST en, where the list ends in []; BLIST e1 .. en EPAIR t, where it ends in t. */
static void compact_list(struct compacting *c)
{
    put_token(c, BLIST_CELL);
    for (;;) {
        size_t tail = term_end(c, c->at + 1);

        c->at++;
        if (c->cells[tail] == EMPTY_LIST) {
            put_token(c, ELIST_CELL);
            compact_term(c);
            c->at = tail + 1;
            return;
        }
        compact_term(c);
        if (c->cells[tail] != PAIR_CELL) {
            put_token(c, EPAIR_CELL);
            compact_term(c);
            return;
        }
    }
}

/*
 * Reads the cells of an argument as so many terms: 4 over the whole argument, then 3 over all cells, then 5 (readings, Terms 1).
 * The refusal's number, or 0 with the form of the terms and their distinct variables.
 */
static uint32_t read_terms(uint32_t edition, const uint32_t *cells, size_t count, uint32_t terms, struct form *form,
                           struct names *names)
{
    struct compacting c = {edition, cells, 0, names, form};

    if (count > MOST_CELLS)
        return TABLES_REFUSED_LENGTH;
    if (!exactly_terms(edition, cells, count, terms))
        return TABLES_REFUSED_TERM;
    if (!meet_variables(names, cells, count))
        return TABLES_REFUSED_VARIABLES;
    form->count = 0;
    for (uint32_t i = 0; i < terms; i++)
        compact_term(&c);
    return 0;
}

/* Stored forms, loaded (01, Cells and terms: exactly the compact forms of legal terms; readings, Terms 3 and 4). */

struct terms {
    uint32_t count;
    uint32_t variables;
    uint32_t starts[MOST_VARIABLES + 1]; /* where each term begins, and after the last its end */
    uint32_t cells[MOST_CELLS];
};

struct expanding {
    uint32_t edition;
    const struct form *form;
    size_t at;
    struct terms *terms;
};

static bool put_cell(struct expanding *e, uint32_t cell)
{
    if (e->terms->count == MOST_CELLS)
        return false;
    e->terms->cells[e->terms->count++] = cell;
    return true;
}

/* A variable is one met before, or the next rank. */
static bool expand_variable(struct expanding *e, uint32_t token)
{
    uint32_t rank = TABLES_PAYLOAD(token);

    if (rank > e->terms->variables || rank >= MOST_VARIABLES)
        return false;
    if (rank == e->terms->variables)
        e->terms->variables++;
    return put_cell(e, token);
}

static bool expand_list(struct expanding *e);

static bool expand_term(struct expanding *e)
{
    uint32_t token;

    if (e->at == e->form->count)
        return false;
    token = e->form->tokens[e->at++];
    switch (TABLES_KIND(token)) {
    case TABLES_VARIABLE:
        return expand_variable(e, token);
    case TABLES_ATOM:
    case TABLES_INTEGER:
        return put_cell(e, token);
    case TABLES_FUNCTOR:
        if (functor_arity(e->edition, token) == 0 || !put_cell(e, token))
            return false;
        for (uint32_t i = 0; i < functor_arity(e->edition, token); i++) {
            if (!expand_term(e))
                return false;
        }
        return true;
    case TABLES_BLIST:
        return token == BLIST_CELL && expand_list(e);
    default:
        return false;
    }
}

/* Behind a BLIST. EPAIR stands behind at least one element (M7), and before neither [] (M8) nor a list. */
static bool expand_list(struct expanding *e)
{
    for (bool element = false;; element = true) {
        if (e->at == e->form->count)
            return false;
        if (e->form->tokens[e->at] == ELIST_CELL) {
            e->at++;
            return put_cell(e, PAIR_CELL) && expand_term(e) && put_cell(e, EMPTY_LIST);
        }
        if (e->form->tokens[e->at] == EPAIR_CELL) {
            e->at++;
            return element && e->at < e->form->count && e->form->tokens[e->at] != EMPTY_LIST &&
                   e->form->tokens[e->at] != BLIST_CELL && expand_term(e);
        }
        if (!put_cell(e, PAIR_CELL) || !expand_term(e))
            return false;
    }
}

/* The form as exactly so many terms, at most 32, that are legal together. */
static bool expand(uint32_t edition, const struct form *form, uint32_t count, struct terms *terms)
{
    struct expanding e = {edition, form, 0, terms};

    terms->count = 0;
    terms->variables = 0;
    for (uint32_t i = 0; i < count; i++) {
        terms->starts[i] = terms->count;
        if (!expand_term(&e))
            return false;
    }
    terms->starts[count] = terms->count;
    return e.at == form->count;
}

/*
 * The tokens from a root to a leaf, gathered from the leaf up (01, load). Every node is judged, the root that ends the path too,
 * which must be the one expected; over 383 tokens are damage (readings, Damaged spaces 2, 7, 10 and 17).
 */
static bool gather(const struct table *table, enum trie trie, uint32_t leaf, uint32_t root, struct form *form)
{
    uint32_t upward[MOST_TOKENS];
    size_t count = 0;
    uint32_t number = leaf;

    for (;;) {
        struct node node = node_of(table, number);

        if (!node_sound(table, trie, number, &node))
            return false;
        if (node.parent == number)
            break;
        if (count == MOST_TOKENS)
            return false;
        upward[count++] = node.token;
        number = node.parent;
    }
    form->count = count;
    for (size_t i = 0; i < count; i++)
        form->tokens[i] = upward[count - 1 - i];
    return number == root;
}

/* The terms of an answer, whose record and whose subgoal's record are judged: exactly m (readings, Damaged spaces 8). */
static bool load_answer(const struct table *table, const struct answer *answer, const struct subgoal *subgoal,
                        struct terms *terms)
{
    struct form form;

    return gather(table, ANSWER_TRIE, answer->leaf, subgoal->root, &form) &&
           expand(table->edition, &form, subgoal->variables, terms);
}

/* A subgoal's own term: one, with exactly m distinct variables. */
static bool load_subgoal(const struct table *table, const struct subgoal *subgoal, struct terms *terms)
{
    struct form form;

    return gather(table, SUBGOAL_TRIE, subgoal->leaf, 0, &form) && expand(table->edition, &form, 1, terms) &&
           terms->variables == subgoal->variables;
}

/* The search for a child (01, The search among siblings; 02, Q-5; readings, A slot and a sibling in turn). */

struct search {
    const struct table *table;
    enum trie trie;
    const uint32_t *slots;
    size_t slot_count;
    uint32_t stood; /* the nodes used when the call began */
};

static bool power_of_two(size_t number)
{
    return number != 0 && (number & (number - 1)) == 0;
}

static struct search search_of(const struct table *table, enum trie trie, const uint32_t *slots, size_t slot_count)
{
    return (struct search){table, trie, slots, slot_count, nodes_used(table)};
}

enum met { CHILD, OTHER, LAST, DAMAGED };

/* The child found, or the last sibling, 0 where there is none; a number that is of no account where damage was met. */
struct met_child {
    enum met met;
    uint32_t node;
};

/* A node compared is judged whole before its token is looked at, the child too (readings, Damaged spaces 9). */
static enum met compare(const struct search *search, uint32_t number, uint32_t parent, uint32_t token)
{
    struct node node = node_of(search->table, number);

    if (!node_sound(search->table, search->trie, number, &node) || node.parent != parent)
        return DAMAGED;
    if (node.token == token)
        return CHILD;
    return node.sibling == 0 ? LAST : OTHER;
}

/* An entry counts only if its node confirms it: above the parent, below the nodes used, with this parent and this token. */
static bool confirmed(const struct search *search, uint32_t entry, uint32_t parent, uint32_t token)
{
    struct node node;

    if (entry <= parent || entry >= nodes_used(search->table))
        return false;
    node = node_of(search->table, entry);
    return node.parent == parent && node.token == token;
}

/* The slots of one search: where it looks, and whether it still does. */
struct lookup {
    bool going;
    size_t slot;
};

static struct lookup lookup_of(const struct search *search, uint32_t parent, uint32_t token)
{
    struct lookup lookup = {power_of_two(search->slot_count), 0};

    if (lookup.going)
        lookup.slot = (uint32_t)(parent + token) % search->slot_count;
    return lookup;
}

/*
 * One turn's slot beside a sibling: the entry that is the child, or 0. Beside a sibling that did not stand when the call began
 * the slot is not looked in and counts as free; a free slot ends the lookup.
 */
static uint32_t look_in(const struct search *search, struct lookup *lookup, uint32_t sibling, uint32_t parent, uint32_t token)
{
    uint32_t entry;

    if (!lookup->going)
        return 0;
    if (sibling >= search->stood) {
        lookup->going = false;
        return 0;
    }
    entry = search->slots[lookup->slot];
    if (entry == 0) {
        cells_model_met.free_slots++;
        lookup->going = false;
        return 0;
    }
    if (confirmed(search, entry, parent, token)) {
        cells_model_met.confirmed++;
        return entry;
    }
    cells_model_met.passed_over++;
    return 0;
}

static void next_slot(const struct search *search, struct lookup *lookup)
{
    if (!lookup->going)
        return;
    lookup->slot++;
    if (lookup->slot == search->slot_count) {
        lookup->slot = 0;
        cells_model_met.around++;
    }
}

/* Below a parent that was read and found sound. Siblings rise, so that the turns come to an end. */
static struct met_child find_child(const struct search *search, uint32_t parent, uint32_t token)
{
    uint32_t sibling = node_of(search->table, parent).child;
    struct lookup lookup = lookup_of(search, parent, token);

    if (sibling == 0)
        return (struct met_child){LAST, 0};
    for (;;) {
        uint32_t entry = look_in(search, &lookup, sibling, parent, token);
        enum met met;

        if (entry != 0)
            return (struct met_child){compare(search, entry, parent, token), entry};
        met = compare(search, sibling, parent, token);
        if (met != OTHER)
            return (struct met_child){met, sibling};
        sibling = node_of(search->table, sibling).sibling;
        next_slot(search, &lookup);
    }
}

/* How far a form is found: the last node found, the tokens down to it, and where some are missing the last child of that node. */
struct walked {
    bool sound;
    uint32_t node;
    size_t depth;
    uint32_t last;
};

static struct walked walk(const struct search *search, uint32_t root, const struct form *form)
{
    struct walked walked = {root_sound(search->table, search->trie, root), root, 0, 0};

    while (walked.sound && walked.depth < form->count) {
        struct met_child child = find_child(search, walked.node, form->tokens[walked.depth]);

        if (child.met == DAMAGED) {
            walked.sound = false;
        } else if (child.met == LAST) {
            walked.last = child.node;
            break;
        } else {
            walked.node = child.node;
            walked.depth++;
        }
    }
    return walked;
}

/* What a search comes to: damage, the number of an old record, or where a new one goes. */
enum held { HELD_DAMAGED, HELD_OLD, HELD_NEW };

struct looked {
    enum held held;
    uint32_t number;
    struct walked walked;
};

static struct looked looked_damaged(void)
{
    return (struct looked){HELD_DAMAGED, 0, {false, 0, 0, 0}};
}

/*
 * A form that is found whole ends in a link, and the record found by it names that leaf (readings, Damaged spaces 5). Only the
 * empty form may end in none: with m = 0 and the root's link 0 the answer is new (readings, Damaged spaces 12).
 */
static struct looked look_up(const struct search *search, uint32_t root, const struct form *form)
{
    const struct table *table = search->table;
    struct walked walked = walk(search, root, form);
    uint32_t link;
    bool sound;

    if (!walked.sound)
        return looked_damaged();
    if (walked.depth < form->count)
        return (struct looked){HELD_NEW, 0, walked};
    link = node_of(table, walked.node).link;
    if (link == 0)
        return form->count == 0 ? (struct looked){HELD_NEW, 0, walked} : looked_damaged();
    if (search->trie == SUBGOAL_TRIE) {
        struct subgoal subgoal = subgoal_of(table, link);
        sound = subgoal_sound(table, &subgoal) && subgoal.leaf == walked.node;
    } else {
        struct answer answer = answer_of(table, link);
        sound = answer_sound(table, link, &answer) && answer.leaf == walked.node;
    }
    return sound ? (struct looked){HELD_OLD, link, walked} : looked_damaged();
}

/* Writing. Every record is written whole, whatever its cells held (readings, Damaged spaces 15). */

static void write_node(uint32_t *space, uint32_t number, uint32_t token, uint32_t parent)
{
    uint32_t *at = space + node_place(number);

    at[0] = token;
    at[1] = 0;
    at[2] = 0;
    at[3] = parent;
    at[4] = 0;
}

/* The nodes that a form lacks, in path order; the first goes after the last sibling. The leaf, which gets the link. */
static uint32_t write_path(uint32_t *space, const struct form *form, const struct walked *walked, uint32_t link)
{
    uint32_t node = walked->node;
    uint32_t last = walked->last;

    for (size_t i = walked->depth; i < form->count; i++) {
        uint32_t number = space[1]++;

        write_node(space, number, form->tokens[i], node);
        if (last != 0)
            space[node_place(last) + 2] = number;
        else
            space[node_place(node) + 1] = number;
        node = number;
        last = 0;
    }
    space[node_place(node) + 4] = link;
    return node;
}

static uint64_t write_subgoal(uint32_t *space, const struct table *table, const struct form *form, const struct walked *walked,
                              uint32_t variables)
{
    uint32_t number = ++space[2];
    uint32_t *at = space + subgoal_place(table, number);
    uint32_t leaf = write_path(space, form, walked, number);
    uint32_t root = space[1]++;

    write_node(space, root, 0, root);
    at[0] = leaf;
    at[1] = root;
    at[2] = variables;
    at[3] = 0;
    at[4] = 0;
    at[5] = 0;
    return word_of(TABLES_NEW, number);
}

/* The empty answer finishes its subgoal as it enters (02, Q-4; readings: the decision that enters it is the ground case). */
static uint64_t write_answer(uint32_t *space, const struct table *table, uint32_t subgoal, const struct form *form,
                             const struct walked *walked)
{
    uint32_t number = ++space[3];
    uint32_t *at = space + answer_place(table, number);
    uint32_t *of = space + subgoal_place(table, subgoal);

    at[0] = write_path(space, form, walked, number);
    at[1] = subgoal;
    at[2] = 0;
    if (of[5] != 0)
        space[answer_place(table, of[5]) + 2] = number;
    else
        of[4] = number;
    of[5] = number;
    if (form->count == 0)
        of[3] = 1;
    return word_of(TABLES_NEW, number);
}

/* The calls. */

uint64_t cells_model_fresh(uint32_t *space, size_t space_cells, uint32_t nodes, uint32_t subgoals, uint32_t answers,
                           uint32_t edition)
{
    uint64_t subgoals_at = HEADER_CELLS + (uint64_t)NODE_CELLS * nodes;
    uint64_t answers_at = subgoals_at + (uint64_t)SUBGOAL_CELLS * subgoals;
    uint64_t end = answers_at + (uint64_t)ANSWER_CELLS * answers;

    if (!known_edition(edition) || nodes == 0 || nodes > MOST_RECORDS || subgoals > MOST_RECORDS || answers > MOST_RECORDS ||
        end > space_cells)
        return refused(TABLES_REFUSED_FRESH);
    for (size_t i = 0; i < end; i++)
        space[i] = 0;
    space[0] = edition;
    space[1] = 1;
    space[4] = HEADER_CELLS;
    space[5] = (uint32_t)subgoals_at;
    space[6] = (uint32_t)answers_at;
    space[7] = (uint32_t)end;
    return word_of(TABLES_DONE, 0);
}

/* 1, 4, 3, 5, 6, 9, 10, 11. */
uint64_t cells_model_call_indexed(uint32_t *space, size_t space_cells, const uint32_t *index_slots, size_t index_cells,
                                  const uint32_t *term, size_t term_cells)
{
    struct table table;
    struct search search;
    struct form form;
    struct names names;
    struct looked looked;
    uint32_t refusal;

    if (!read_header(&table, space, space_cells))
        return refused(TABLES_REFUSED_HEADER);
    refusal = read_terms(table.edition, term, term_cells, 1, &form, &names);
    if (refusal != 0)
        return refused(refusal);
    if (TABLES_KIND(term[0]) != TABLES_ATOM && TABLES_KIND(term[0]) != TABLES_FUNCTOR)
        return refused(TABLES_REFUSED_PREDICATE);
    search = search_of(&table, SUBGOAL_TRIE, index_slots, index_cells);
    looked = look_up(&search, 0, &form);
    if (looked.held == HELD_DAMAGED)
        return refused(TABLES_REFUSED_DAMAGED);
    if (looked.held == HELD_OLD)
        return word_of(subgoal_of(&table, looked.number).state == 0 ? TABLES_OLD_OPEN : TABLES_OLD_FINISHED, looked.number);
    if (form.count - looked.walked.depth + 1 > table.most_nodes - nodes_used(&table))
        return refused(TABLES_REFUSED_NO_NODE);
    if (subgoals_used(&table) == table.most_subgoals)
        return refused(TABLES_REFUSED_NO_RECORD);
    return write_subgoal(space, &table, &form, &looked.walked, names.count);
}

/* A subgoal's last answer, which a new one follows: same subgoal, next 0, leaf in range (readings, Damaged spaces 14). */
static bool last_sound(const struct table *table, uint32_t number, const struct subgoal *subgoal)
{
    struct answer last;

    if (subgoal->last == 0)
        return true;
    last = answer_of(table, subgoal->last);
    return answer_sound(table, subgoal->last, &last) && last.subgoal == number && last.next == 0;
}

/* An answer's form, given to a subgoal whose record is judged: 9, 8, 10, 11 (02, Q-4: 8 is behind all of 9). */
static uint64_t give(uint32_t *space, const struct search *search, uint32_t number, const struct form *form)
{
    const struct table *table = search->table;
    struct subgoal subgoal = subgoal_of(table, number);
    struct looked looked = look_up(search, subgoal.root, form);

    if (looked.held == HELD_DAMAGED)
        return refused(TABLES_REFUSED_DAMAGED);
    if (looked.held == HELD_OLD)
        return word_of(TABLES_OLD, looked.number);
    if (!last_sound(table, number, &subgoal))
        return refused(TABLES_REFUSED_DAMAGED);
    if (subgoal.state != 0)
        return refused(TABLES_REFUSED_STATE);
    if (form->count - looked.walked.depth > table->most_nodes - nodes_used(table))
        return refused(TABLES_REFUSED_NO_NODE);
    if (answers_used(table) == table->most_answers)
        return refused(TABLES_REFUSED_NO_RECORD);
    return write_answer(space, table, number, form, &looked.walked);
}

/* What answer judges straight after 7, and a join of its target: the record and its answer root. */
static bool entrance_sound(const struct table *table, const struct subgoal *subgoal)
{
    return subgoal_sound(table, subgoal) && root_sound(table, ANSWER_TRIE, subgoal->root);
}

/* 1, 7, 9, 4, 3, 5, 9, 8, 10, 11. */
uint64_t cells_model_answer_indexed(uint32_t *space, size_t space_cells, const uint32_t *index_slots, size_t index_cells,
                                    uint32_t subgoal, const uint32_t *terms, size_t terms_cells)
{
    struct table table;
    struct subgoal record;
    struct search search;
    struct form form;
    struct names names;
    uint32_t refusal;

    if (!read_header(&table, space, space_cells))
        return refused(TABLES_REFUSED_HEADER);
    if (!is_subgoal(&table, subgoal))
        return refused(TABLES_REFUSED_NUMBER);
    record = subgoal_of(&table, subgoal);
    if (!entrance_sound(&table, &record))
        return refused(TABLES_REFUSED_DAMAGED);
    refusal = read_terms(table.edition, terms, terms_cells, record.variables, &form, &names);
    if (refusal != 0)
        return refused(refusal);
    search = search_of(&table, ANSWER_TRIE, index_slots, index_cells);
    return give(space, &search, subgoal, &form);
}

/* A call without an index is one with an index of no cells (readings, An index beside the nodes). */
uint64_t cells_model_call(uint32_t *space, size_t space_cells, const uint32_t *term, size_t term_cells)
{
    return cells_model_call_indexed(space, space_cells, NULL, 0, term, term_cells);
}

uint64_t cells_model_answer(uint32_t *space, size_t space_cells, uint32_t subgoal, const uint32_t *terms, size_t terms_cells)
{
    return cells_model_answer_indexed(space, space_cells, NULL, 0, subgoal, terms, terms_cells);
}

/* 1, 7, 9. */
uint64_t cells_model_finish(uint32_t *space, size_t space_cells, uint32_t subgoal)
{
    struct table table;
    struct subgoal record;

    if (!read_header(&table, space, space_cells))
        return refused(TABLES_REFUSED_HEADER);
    if (!is_subgoal(&table, subgoal))
        return refused(TABLES_REFUSED_NUMBER);
    record = subgoal_of(&table, subgoal);
    if (!subgoal_sound(&table, &record))
        return refused(TABLES_REFUSED_DAMAGED);
    space[subgoal_place(&table, subgoal) + 3] = 1;
    return word_of(TABLES_DONE, 0);
}

/* 1, 7, 9. The subgoal field of answer `after` is read as it stands for 7 (readings, Damaged spaces 13). Q-1: the two words. */
uint64_t cells_model_next(const uint32_t *space, size_t space_cells, uint32_t subgoal, uint32_t after)
{
    struct table table;
    struct subgoal record;
    struct answer from = {0, 0, 0};
    struct answer to;
    uint32_t number;

    if (!read_header(&table, space, space_cells))
        return refused(TABLES_REFUSED_HEADER);
    if (!is_subgoal(&table, subgoal) || after > answers_used(&table))
        return refused(TABLES_REFUSED_NUMBER);
    if (after != 0)
        from = answer_of(&table, after);
    if (after != 0 && from.subgoal != subgoal)
        return refused(TABLES_REFUSED_NUMBER);
    record = subgoal_of(&table, subgoal);
    if (!subgoal_sound(&table, &record) || (after != 0 && !answer_sound(&table, after, &from)))
        return refused(TABLES_REFUSED_DAMAGED);
    number = after != 0 ? from.next : record.first;
    if (number == 0)
        return word_of(record.state == 0 ? TABLES_NONE_YET : TABLES_NO_MORE, 0);
    to = answer_of(&table, number);
    if (!answer_sound(&table, number, &to) || to.subgoal != subgoal)
        return refused(TABLES_REFUSED_DAMAGED);
    return word_of(TABLES_AT, number);
}

/* What load and instance read of an answer: its record, its subgoal's record and its path. The refusal's number, or 0. */
static uint32_t read_answer(const struct table *table, uint32_t number, struct subgoal *subgoal, struct terms *terms)
{
    struct answer answer;

    if (!is_answer(table, number))
        return TABLES_REFUSED_NUMBER;
    answer = answer_of(table, number);
    if (!answer_sound(table, number, &answer))
        return TABLES_REFUSED_DAMAGED;
    *subgoal = subgoal_of(table, answer.subgoal);
    if (!subgoal_sound(table, subgoal) || !load_answer(table, &answer, subgoal, terms))
        return TABLES_REFUSED_DAMAGED;
    return 0;
}

/* 1, 7, 9, 12. */
uint64_t cells_model_load(const uint32_t *space, size_t space_cells, uint32_t answer, uint32_t *out, size_t out_cells)
{
    struct table table;
    struct subgoal subgoal;
    struct terms terms;
    uint32_t refusal;

    if (!read_header(&table, space, space_cells))
        return refused(TABLES_REFUSED_HEADER);
    refusal = read_answer(&table, answer, &subgoal, &terms);
    if (refusal != 0)
        return refused(refusal);
    if (out_cells < terms.count)
        return refused_out(terms.count);
    for (uint32_t i = 0; i < terms.count; i++)
        out[i] = terms.cells[i];
    return word_of(TABLES_CELLS, terms.count);
}

/* The subgoal's cells with term i for variable i: how many they are, and where there is an out, the cells themselves. */
static uint32_t put_instance(const struct terms *subgoal, const struct terms *answer, uint32_t *out)
{
    uint32_t count = 0;

    for (uint32_t i = 0; i < subgoal->count; i++) {
        uint32_t cell = subgoal->cells[i];
        bool variable = TABLES_KIND(cell) == TABLES_VARIABLE;
        uint32_t from = variable ? answer->starts[TABLES_PAYLOAD(cell)] : i;
        uint32_t to = variable ? answer->starts[TABLES_PAYLOAD(cell) + 1] : i + 1;

        for (uint32_t k = from; k < to; k++) {
            if (out != NULL)
                out[count] = variable ? answer->cells[k] : cell;
            count++;
        }
    }
    return count;
}

/*
 * 1, 7, 9, 12. The subgoal's path must be one term with exactly m distinct variables, and nothing else is judged of it: the term
 * may begin with any token, also where a call of it would be refused by 6.
 */
uint64_t cells_model_instance(const uint32_t *space, size_t space_cells, uint32_t answer, uint32_t *out, size_t out_cells)
{
    struct table table;
    struct subgoal subgoal;
    struct terms terms;
    struct terms called;
    uint32_t refusal;
    uint32_t need;

    if (!read_header(&table, space, space_cells))
        return refused(TABLES_REFUSED_HEADER);
    refusal = read_answer(&table, answer, &subgoal, &terms);
    if (refusal != 0)
        return refused(refusal);
    if (!load_subgoal(&table, &subgoal, &called))
        return refused(TABLES_REFUSED_DAMAGED);
    need = put_instance(&called, &terms, NULL);
    if (out_cells < need)
        return refused_out(need);
    return word_of(TABLES_CELLS, put_instance(&called, &terms, out));
}

/* 1, 12. The header alone is read. */
uint64_t cells_model_counts(const uint32_t *space, size_t space_cells, uint32_t *out, size_t out_cells)
{
    struct table table;

    if (!read_header(&table, space, space_cells))
        return refused(TABLES_REFUSED_HEADER);
    if (out_cells < 3)
        return refused_out(3);
    out[0] = nodes_used(&table);
    out[1] = subgoals_used(&table);
    out[2] = answers_used(&table);
    return word_of(TABLES_COUNTS, 3);
}

/* The join (02, Q-2; readings, Joins). */

struct join {
    uint32_t *space;
    struct table table;
    struct search search; /* in the target */
    uint32_t numbers[2];  /* the sources, and their records */
    struct subgoal sources[2];
    uint32_t target_number;
    struct subgoal target; /* as lent */
    const uint32_t *pairs;
    size_t pairs_cells;
    const uint32_t *copies;
    size_t copies_cells;
    bool variable;               /* an answer of a source holds one */
    const struct terms *hand[2]; /* the two answers that are taken together */
    struct form form;            /* what they give to the target */
    uint32_t new_nodes;          /* counted before anything is written */
    uint32_t new_answers;
    bool left_out;
};

/*
 * The second source's answers as loaded, by their place in its chain. They stay what they are while the target is written
 * (readings, Joins: a form given to one subgoal leaves the records, paths and chains of all others).
 */
static struct terms kept[KEPT];

/*
 * Judges a source as next and load do: its record, then by next from its first answer each answer's record and path. A next
 * answer is above the one before, so that the chain ends. That it ends at the recorded last answer is not judged.
 */
static bool source_sound(struct join *join, int side)
{
    const struct table *table = &join->table;
    const struct subgoal *source = &join->sources[side];
    struct terms terms;
    size_t place = 0;

    if (!subgoal_sound(table, source))
        return false;
    for (uint32_t number = source->first; number != 0; place++) {
        struct answer answer = answer_of(table, number);
        struct terms *to = side == 1 && place < KEPT ? &kept[place] : &terms;

        if (!answer_sound(table, number, &answer) || answer.subgoal != join->numbers[side] ||
            !load_answer(table, &answer, source, to))
            return false;
        join->variable = join->variable || to->variables != 0;
        number = answer.next;
    }
    return true;
}

/*
 * Refusal 16: one number, so that the order of its conditions has no part in it. An odd number of cells is 16, since the last
 * pair or copy is not whole; where a side is neither 0 nor 1 the variable with it is not looked at.
 */
static bool names_sound(const struct join *join)
{
    if (join->pairs_cells % 2 != 0 || join->pairs_cells > 2 * MOST_PAIRS)
        return false;
    if (join->copies_cells % 2 != 0 || join->copies_cells / 2 != join->target.variables)
        return false;
    for (size_t i = 0; i < join->pairs_cells; i++) {
        if (join->pairs[i] >= join->sources[i % 2].variables)
            return false;
    }
    for (size_t i = 0; i < join->copies_cells; i += 2) {
        if (join->copies[i] > 1 || join->copies[i + 1] >= join->sources[join->copies[i]].variables)
            return false;
    }
    return true;
}

static uint32_t term_length(const struct terms *terms, uint32_t rank)
{
    return terms->starts[rank + 1] - terms->starts[rank];
}

/* Equal as load gives the two ground terms; nothing is unified. */
static bool terms_equal(const struct terms *one, uint32_t one_rank, const struct terms *other, uint32_t other_rank)
{
    uint32_t length = term_length(one, one_rank);

    if (length != term_length(other, other_rank))
        return false;
    for (uint32_t i = 0; i < length; i++) {
        if (one->cells[one->starts[one_rank] + i] != other->cells[other->starts[other_rank] + i])
            return false;
    }
    return true;
}

static bool matching(const struct join *join)
{
    for (size_t i = 0; i < join->pairs_cells; i += 2) {
        if (!terms_equal(join->hand[0], join->pairs[i], join->hand[1], join->pairs[i + 1]))
            return false;
    }
    return true;
}

/* Loads an answer of a source that was judged before. */
static bool load_again(const struct join *join, int side, uint32_t number, struct terms *terms)
{
    struct answer answer = answer_of(&join->table, number);
    return load_answer(&join->table, &answer, &join->sources[side], terms);
}

/* Takes every answer of the second with the one of the first that is in hand; see each_match. */
static bool each_second(struct join *join, bool (*visit)(struct join *join))
{
    struct terms loaded;
    size_t place = 0;

    for (uint32_t b = join->sources[1].first; b != 0; b = answer_of(&join->table, b).next, place++) {
        join->hand[1] = place < KEPT ? &kept[place] : &loaded;
        if (place >= KEPT && !load_again(join, 1, b, &loaded))
            return false;
        if (matching(join) && !visit(join))
            return false;
    }
    return true;
}

/* Visits every pair of answers that match, in order of the first, then of the second, until a visit says no. */
static bool each_match(struct join *join, bool (*visit)(struct join *join))
{
    struct terms loaded;

    for (uint32_t a = join->sources[0].first; a != 0; a = answer_of(&join->table, a).next) {
        join->hand[0] = &loaded;
        if (!load_again(join, 0, a, &loaded) || !each_second(join, visit))
            return false;
    }
    return true;
}

/* Refusal 4: the copied terms of a match are over 256 cells of pair form, whether the answer is old or not. */
static bool short_enough(struct join *join)
{
    uint32_t length = 0;

    for (size_t i = 0; i < join->copies_cells; i += 2)
        length += term_length(join->hand[join->copies[i]], join->copies[i + 1]);
    return length <= MOST_CELLS;
}

/* The form of the copied terms, which are ground and at most 256 cells. */
static void make_form(struct join *join)
{
    uint32_t cells[MOST_CELLS];
    uint32_t count = 0;
    struct names none = {0, {0}};
    struct compacting c = {join->table.edition, cells, 0, &none, &join->form};

    for (size_t i = 0; i < join->copies_cells; i += 2) {
        const struct terms *from = join->hand[join->copies[i]];
        uint32_t rank = join->copies[i + 1];

        for (uint32_t k = from->starts[rank]; k < from->starts[rank + 1]; k++)
            cells[count++] = from->cells[k];
    }
    join->form.count = 0;
    for (uint32_t i = 0; i < join->target.variables; i++)
        compact_term(&c);
}

/*
 * The forms that the target lacks, as a trie of their own, so that a form that came up before and a node that two forms share
 * count once. Place 0 is its root. A place is a node of the table that was found, or one that is counted as new, and
 * counting stops where these no longer fit, so there are never more than the table's nodes and one form.
 */
static struct {
    uint32_t used;
    uint32_t token[MOST_RECORDS + MOST_TOKENS + 1];
    uint32_t child[MOST_RECORDS + MOST_TOKENS + 1];
    uint32_t sibling[MOST_RECORDS + MOST_TOKENS + 1];
} lacking;

static void lack_nothing(void)
{
    lacking.used = 1;
    lacking.child[0] = 0;
}

/* The place of a token below another, made if there is none. */
static uint32_t lacking_below(uint32_t place, uint32_t token)
{
    uint32_t *at = &lacking.child[place];

    while (*at != 0 && lacking.token[*at] != token)
        at = &lacking.sibling[*at];
    if (*at == 0) {
        *at = lacking.used++;
        lacking.token[*at] = token;
        lacking.child[*at] = 0;
        lacking.sibling[*at] = 0;
    }
    return *at;
}

static uint32_t free_nodes(const struct join *join)
{
    return join->table.most_nodes - nodes_used(&join->table);
}

/* Counts a form of which so many tokens were found. No form begins another, so one that makes no place came up before. */
static void count_lacking(struct join *join, size_t found)
{
    bool first = join->form.count == 0 && join->new_answers == 0;
    uint32_t place = 0;

    if (join->new_nodes > free_nodes(join))
        return;
    for (size_t i = 0; i < join->form.count; i++) {
        uint32_t before = lacking.used;

        place = lacking_below(place, join->form.tokens[i]);
        if (lacking.used == before)
            continue;
        first = true;
        if (i >= found)
            join->new_nodes++;
    }
    if (first)
        join->new_answers++;
}

/* Searches the target, on the space as lent, for what a match gives; false where damage is met. */
static bool search_target(struct join *join)
{
    struct looked looked;

    make_form(join);
    looked = look_up(&join->search, join->target.root, &join->form);
    if (looked.held == HELD_NEW)
        count_lacking(join, looked.walked.depth);
    return looked.held != HELD_DAMAGED;
}

/* Gives what a match gives as a single answer is given, on the cells that the one before left. */
static bool enter(struct join *join)
{
    uint64_t word;

    make_form(join);
    word = give(join->space, &join->search, join->target_number, &join->form);
    if (tables_refused_by(word) != 0)
        join->left_out = true;
    return true;
}

/* What a join answers is by how much the answers used rise (readings, Joins: What a join answers). */
static uint64_t write_joined(struct join *join)
{
    uint32_t nodes = nodes_used(&join->table);
    uint32_t answers = answers_used(&join->table);

    each_match(join, enter);
    nodes = nodes_used(&join->table) - nodes;
    answers = answers_used(&join->table) - answers;
    if (nodes != join->new_nodes || answers != join->new_answers || join->left_out)
        cells_model_met.joins_otherwise++;
    if (join->left_out)
        cells_model_met.joins_left_out++;
    return word_of(TABLES_JOINED, answers);
}

/* Reads the three records and judges what is judged straight after 7: the sources with their answers, the target and its root. */
static bool join_records_sound(struct join *join)
{
    for (int side = 0; side < 2; side++)
        join->sources[side] = subgoal_of(&join->table, join->numbers[side]);
    join->target = subgoal_of(&join->table, join->target_number);
    return source_sound(join, 0) && source_sound(join, 1) && entrance_sound(&join->table, &join->target);
}

/* Behind 16: 4, 9, 10, 11. All is judged on the space as lent, before the first write. */
static uint64_t join_matches(struct join *join)
{
    if (!each_match(join, short_enough))
        return refused(TABLES_REFUSED_LENGTH);
    lack_nothing();
    if (!each_match(join, search_target))
        return refused(TABLES_REFUSED_DAMAGED);
    if (join->new_answers != 0 && !last_sound(&join->table, join->target_number, &join->target))
        return refused(TABLES_REFUSED_DAMAGED);
    if (join->new_nodes > free_nodes(join))
        return refused(TABLES_REFUSED_NO_NODE);
    if (join->new_answers > join->table.most_answers - answers_used(&join->table))
        return refused(TABLES_REFUSED_NO_RECORD);
    return write_joined(join);
}

/* 1, 7, 9, 8, 14, 15, 16, 4, 9, 10, 11. */
uint64_t cells_model_join_indexed(uint32_t *space, size_t space_cells, const uint32_t *index_slots, size_t index_cells,
                                  uint32_t first, uint32_t second, const uint32_t *pairs, size_t pairs_cells, uint32_t target,
                                  const uint32_t *copies, size_t copies_cells)
{
    struct join join;

    if (!read_header(&join.table, space, space_cells))
        return refused(TABLES_REFUSED_HEADER);
    if (!is_subgoal(&join.table, first) || !is_subgoal(&join.table, second) || !is_subgoal(&join.table, target))
        return refused(TABLES_REFUSED_NUMBER);
    join.space = space;
    join.search = search_of(&join.table, ANSWER_TRIE, index_slots, index_cells);
    join.numbers[0] = first;
    join.numbers[1] = second;
    join.target_number = target;
    join.pairs = pairs;
    join.pairs_cells = pairs_cells;
    join.copies = copies;
    join.copies_cells = copies_cells;
    join.variable = false;
    join.new_nodes = 0;
    join.new_answers = 0;
    join.left_out = false;
    if (!join_records_sound(&join))
        return refused(TABLES_REFUSED_DAMAGED);
    if (join.target.state != 0)
        return refused(TABLES_REFUSED_STATE);
    if (join.sources[0].state == 0 || join.sources[1].state == 0)
        return refused(TABLES_REFUSED_SOURCE_OPEN);
    if (join.variable)
        return refused(TABLES_REFUSED_SOURCE_VARIABLE);
    if (!names_sound(&join))
        return refused(TABLES_REFUSED_NAMES);
    return join_matches(&join);
}

uint64_t cells_model_join(uint32_t *space, size_t space_cells, uint32_t first, uint32_t second, const uint32_t *pairs,
                          size_t pairs_cells, uint32_t target, const uint32_t *copies, size_t copies_cells)
{
    return cells_model_join_indexed(space, space_cells, NULL, 0, first, second, pairs, pairs_cells, target, copies,
                                    copies_cells);
}

/* The build (02, Q-5; readings, A build). */

/*
 * A link is held to the subgoals below node 0, else to the answers. The way up to the root is gone only where the link is within
 * one count and not the other; every node on it has a lower number, so that it was judged before and the way ends.
 */
static bool built_link_sound(const struct table *table, uint32_t number, uint32_t link)
{
    bool of_subgoals = link <= most_link(table, SUBGOAL_TRIE);
    bool of_answers = link <= most_link(table, ANSWER_TRIE);

    if (of_subgoals == of_answers)
        return of_subgoals;
    while (node_of(table, number).parent != number)
        number = node_of(table, number).parent;
    return number == 0 ? of_subgoals : of_answers;
}

/*
 * A build reads every node, the one that a child or sibling names too. So it is judged here that these have the expected parent
 * (01): a first child this node, and a sibling this node's parent.
 */
static bool built_node_sound(const struct table *table, uint32_t number)
{
    struct node node = node_of(table, number);

    if (!places_sound(table, number, &node))
        return false;
    if (node.child != 0 && node_of(table, node.child).parent != number)
        return false;
    if (node.sibling != 0 && node_of(table, node.sibling).parent != node.parent)
        return false;
    return built_link_sound(table, number, node.link);
}

/*
 * Whether a node has more than 8 children: its sibling chain has, from its first child on, sibling by sibling. All nodes are
 * judged by then, so that the chain rises and every node on it names this one as its parent.
 */
static bool crowded(const struct table *table, uint32_t number)
{
    uint32_t child = node_of(table, number).child;
    uint32_t count = 0;

    while (child != 0 && count <= CROWDED) {
        count++;
        child = node_of(table, child).sibling;
    }
    return count > CROWDED;
}

/*
 * Below a crowded node every node enters whose own record names it as parent, whether or not a sibling leads to it. A root is
 * its own parent and nobody's child, so it never enters.
 */
static bool enters(const struct table *table, uint32_t number)
{
    uint32_t parent = node_of(table, number).parent;
    return parent != number && crowded(table, parent);
}

/* All nodes that enter, by number over the whole space, each in its slot or the next free one, around. */
static void fill_index(const struct table *table, uint32_t *index, size_t slots)
{
    uint32_t used = nodes_used(table);

    for (size_t slot = 0; slot < slots; slot++)
        index[slot] = 0;
    for (uint32_t number = 0; number < used; number++) {
        struct node node = node_of(table, number);
        size_t slot = (uint32_t)(node.parent + node.token) % slots;

        if (!enters(table, number))
            continue;
        while (index[slot] != 0)
            slot = slot + 1 == slots ? 0 : slot + 1;
        index[slot] = number;
    }
}

/* 1, 9, 17. */
uint64_t cells_model_build(const uint32_t *space, size_t space_cells, uint32_t *index, size_t index_cells)
{
    struct table table;
    uint32_t entering = 0;

    if (!read_header(&table, space, space_cells))
        return refused(TABLES_REFUSED_HEADER);
    for (uint32_t number = 0; number < nodes_used(&table); number++) {
        if (!built_node_sound(&table, number))
            return refused(TABLES_REFUSED_DAMAGED);
    }
    for (uint32_t number = 0; number < nodes_used(&table); number++)
        entering += enters(&table, number);
    if (!power_of_two(index_cells) || index_cells / 2 < entering)
        return refused(TABLES_REFUSED_SLOTS);
    fill_index(&table, index, index_cells);
    return word_of(TABLES_BUILT, entering);
}
