/* The table store in plain C: the same layout, checks and words as the exported calls, written for speed. */
#include "plain_store.h"

#include <stdbool.h>
#include <string.h>

enum {
    TERM_CELLS = 256,
    TERM_VARIABLES = 32,
    FORM_TOKENS = 383,
    MOST_RECORDS = 1048576,
    LAST_EDITION = 2
};

/* Kinds of cells, and the cells that mark lists. */
enum { VARIABLE = 1, ATOM = 2, INTEGER = 3, FUNCTOR = 4 };

static const uint32_t variable_zero = 0x10000000u;
static const uint32_t empty_list = 0x20000000u;
static const uint32_t pair_cell = 0x50000000u;
static const uint32_t blist_token = 0x60000000u;
static const uint32_t elist_token = 0x70000000u;
static const uint32_t epair_token = 0x80000000u;

/* The cells of the header and of each record, in order. */
enum {
    EDITION,
    NODES_USED,
    SUBGOALS_USED,
    ANSWERS_USED,
    NODE_OFFSET,
    SUBGOAL_OFFSET,
    ANSWER_OFFSET,
    END,
    HEADER_CELLS
};
enum { TOKEN, CHILD, SIBLING, PARENT, LINK, NODE_CELLS };
enum { LEAF, ROOT, VARIABLES, STATE, FIRST, LAST, SUBGOAL_CELLS };
enum { ANSWER_LEAF, ANSWER_SUBGOAL, ANSWER_NEXT, ANSWER_CELLS };

enum refusal {
    ACCEPTED = 0,
    BAD_HEADER = 1,
    BAD_FRESH = 2,
    BAD_TERM = 3,
    TOO_LONG = 4,
    TOO_MANY_VARIABLES = 5,
    NOT_CALLABLE = 6,
    BAD_NUMBER = 7,
    FINISHED = 8,
    DAMAGED = 9,
    NO_NODES = 10,
    NO_RECORDS = 11,
    OUT_TOO_SHORT = 12,
    SOURCE_OPEN = 14,
    SOURCE_VARIABLE = 15,
    BAD_NAMES = 16,
    BAD_SLOTS = 17
};

enum said {
    SAID_DONE,
    SAID_NEW,
    SAID_OLD,
    SAID_OLD_OPEN,
    SAID_OLD_FINISHED,
    SAID_AT,
    SAID_NONE_YET,
    SAID_CELLS,
    SAID_COUNTS,
    SAID_NO_MORE,
    SAID_JOINED,
    SAID_BUILT,
    SAID_REFUSED = 256
};

/* What is compiled twice, with an index and without, so that neither pays for the other. */
#define TWICE static inline __attribute__((always_inline))

static inline uint64_t say(uint32_t said, size_t value)
{
    return (uint64_t)said << 32 | value;
}

static inline uint64_t refuse(enum refusal refusal)
{
    return say((uint32_t)SAID_REFUSED + (uint32_t)refusal, 0);
}

static inline uint64_t refuse_out(size_t need)
{
    return say((uint32_t)SAID_REFUSED + OUT_TOO_SHORT, need);
}

static inline uint32_t kind(uint32_t cell)
{
    return cell >> 28;
}

static inline uint32_t payload(uint32_t cell)
{
    return cell & 0x0fffffffu;
}

/* The bits of a functor that are its arity, by edition. */
static inline uint32_t arity_bits(uint32_t edition)
{
    return edition == 1 ? 15 : 255;
}

static inline bool is_constant(uint32_t cell)
{
    return kind(cell) == ATOM || kind(cell) == INTEGER;
}

/* The header */

/* What a sound header says. */
struct head {
    size_t nodes, subgoals, answers; /* used */
    size_t node_capacity, subgoal_capacity, answer_capacity;
    size_t subgoal_offset, answer_offset;
    uint32_t arity_bits;
};

/* Sets the number of records of so many cells between two offsets, if it is whole and in range. */
static inline bool read_capacity(uint32_t low, uint32_t high, uint32_t cells, size_t *capacity)
{
    uint32_t span = high - low;
    *capacity = span / cells;
    return high >= low && span % cells == 0 && *capacity <= MOST_RECORDS;
}

static inline bool is_edition(uint32_t edition)
{
    return edition != 0 && edition <= LAST_EDITION;
}

static inline bool read_head(const uint32_t *space, size_t space_cells, struct head *head)
{
    if (space_cells < HEADER_CELLS || !is_edition(space[EDITION]) ||
        space[NODE_OFFSET] != HEADER_CELLS)
        return false;
    uint32_t subgoals_at = space[SUBGOAL_OFFSET], answers_at = space[ANSWER_OFFSET];
    if (!read_capacity(HEADER_CELLS, subgoals_at, NODE_CELLS, &head->node_capacity) ||
        !read_capacity(subgoals_at, answers_at, SUBGOAL_CELLS, &head->subgoal_capacity) ||
        !read_capacity(answers_at, space[END], ANSWER_CELLS, &head->answer_capacity))
        return false;
    head->nodes = space[NODES_USED];
    head->subgoals = space[SUBGOALS_USED];
    head->answers = space[ANSWERS_USED];
    head->subgoal_offset = subgoals_at;
    head->answer_offset = answers_at;
    head->arity_bits = arity_bits(space[EDITION]);
    return space[END] <= space_cells && head->nodes != 0 && head->nodes <= head->node_capacity &&
           head->subgoals <= head->subgoal_capacity && head->answers <= head->answer_capacity;
}

/* Records */

static inline const uint32_t *node_at(const uint32_t *space, size_t node)
{
    return space + HEADER_CELLS + NODE_CELLS * node;
}

static inline const uint32_t *subgoal_at(const uint32_t *space, const struct head *head, size_t subgoal)
{
    return space + head->subgoal_offset + SUBGOAL_CELLS * (subgoal - 1);
}

static inline const uint32_t *answer_at(const uint32_t *space, const struct head *head, size_t answer)
{
    return space + head->answer_offset + ANSWER_CELLS * (answer - 1);
}

/* Whether a number that a record holds of its own kind is 0, or above the record and below the bound. */
static inline bool follows(size_t number, size_t record, size_t bound)
{
    return number == 0 || (number > record && number < bound);
}

/* The parent is judged where the node is met. */
static inline bool node_is_sound(const uint32_t *record, size_t node, size_t nodes, size_t links)
{
    return follows(record[CHILD], node, nodes) && follows(record[SIBLING], node, nodes) &&
           record[LINK] <= links;
}

static inline bool subgoal_is_sound(const uint32_t *record, const struct head *head)
{
    return record[LEAF] < head->nodes && record[ROOT] < head->nodes &&
           record[VARIABLES] <= TERM_VARIABLES && record[STATE] <= 1 &&
           record[FIRST] <= head->answers && record[LAST] <= head->answers &&
           (record[FIRST] == 0) == (record[LAST] == 0);
}

static inline bool answer_is_sound(const uint32_t *record, size_t answer, const struct head *head)
{
    return record[ANSWER_LEAF] < head->nodes && record[ANSWER_SUBGOAL] != 0 &&
           record[ANSWER_SUBGOAL] <= head->subgoals &&
           follows(record[ANSWER_NEXT], answer, head->answers + 1);
}

static inline bool is_numbered(uint32_t number, size_t used)
{
    return number != 0 && number <= used;
}

/* Compacting */

/* Where a reader reads and writes next; in is NULL once the input has been found wrong. */
struct cursor {
    const uint32_t *in;
    uint32_t *out;
};

static const struct cursor wrong = {NULL, NULL};

/*
 * Terms while they are compacted. The tokens are at most the cells read and
 * one for each EPAIR. An EPAIR belongs to a pair and to the cell that begins
 * the tail, and the first EPAIR comes after an element, so 256 cells, legal
 * or not, give at most 127 of them.
 */
struct compaction {
    const uint32_t *end;                /* of the input */
    uint32_t arity_bits;                /* of the edition */
    size_t variables;                   /* distinct variables met, at most 33 */
    uint32_t names[TERM_VARIABLES + 1]; /* one more for the name sought */
    uint32_t tokens[FORM_TOKENS];
    size_t count; /* of the tokens */
};

/* The numbered token of a variable. A 33rd name is counted once and then written over. */
static inline uint32_t number_variable(struct compaction *c, uint32_t name)
{
    size_t known = c->variables <= TERM_VARIABLES ? c->variables : TERM_VARIABLES;
    size_t rank = 0;
    c->names[known] = name;
    while (c->names[rank] != name)
        rank++;
    if (rank == known)
        c->variables = known + 1;
    return variable_zero + (uint32_t)rank;
}

static struct cursor compact_list(struct compaction *c, struct cursor at);

/* Reads so many terms. */
static struct cursor compact_terms(struct compaction *c, struct cursor at, size_t due)
{
    uint32_t arity_bits = c->arity_bits;
    while (due > 0) {
        if (at.in == c->end)
            return wrong;
        uint32_t cell = *at.in++;
        if (is_constant(cell)) {
            *at.out++ = cell;
        } else if (kind(cell) == VARIABLE) {
            *at.out++ = number_variable(c, cell);
        } else if (kind(cell) == FUNCTOR && (cell & arity_bits) > 0) {
            *at.out++ = cell;
            due += cell & arity_bits;
        } else {
            if (cell != pair_cell)
                return wrong;
            at = compact_list(c, at);
            if (at.in == NULL)
                return wrong;
        }
        due--;
    }
    return at;
}

/* Reads one element of a list: a constant at once, anything else as a term. */
static inline struct cursor compact_element(struct compaction *c, struct cursor at)
{
    if (at.in == c->end || !is_constant(*at.in))
        return compact_terms(c, at, 1);
    *at.out++ = *at.in++;
    return at;
}

/* Reads a list whose first pair has been read. */
static struct cursor compact_list(struct compaction *c, struct cursor at)
{
    uint32_t *element;
    *at.out++ = blist_token;
    for (;;) {
        element = at.out;
        at = compact_element(c, at);
        if (at.in == NULL || at.in == c->end)
            return wrong;
        if (*at.in != pair_cell)
            break;
        at.in++;
    }
    if (*at.in != empty_list) {
        *at.out++ = epair_token;
        return compact_terms(c, at, 1);
    }
    memmove(element + 1, element, (size_t)(at.out - element) * sizeof *element);
    *element = elist_token;
    at.in++;
    at.out++;
    return at;
}

/* Reads exactly m terms. */
static enum refusal compact(struct compaction *c, const struct head *head, const uint32_t *terms,
                            size_t cells, size_t m)
{
    c->arity_bits = head->arity_bits;
    c->variables = 0;
    c->count = 0;
    if (cells > TERM_CELLS)
        return TOO_LONG;
    if (cells == 0)
        return m == 0 ? ACCEPTED : BAD_TERM;
    c->end = terms + cells;
    struct cursor at = compact_terms(c, (struct cursor){terms, c->tokens}, m);
    if (at.in != c->end)
        return BAD_TERM;
    if (c->variables > TERM_VARIABLES)
        return TOO_MANY_VARIABLES;
    c->count = (size_t)(at.out - c->tokens);
    return ACCEPTED;
}

/* Walking */

/* Where a walk ended: at a node, behind its last child (0: none), with so many tokens left. */
struct place {
    size_t node;
    size_t last;
    size_t left;
};

static inline bool root_is_sound(const uint32_t *space, size_t nodes, size_t links, size_t root)
{
    const uint32_t *record = node_at(space, root);
    return node_is_sound(record, root, nodes, links) && record[PARENT] == root;
}

/* Slots lent beside the nodes, by which a child may be found from its parent and its token. */
struct index {
    const uint32_t *slots; /* NULL: none */
    size_t mask;           /* one less than there are; a power of two */
};

static const struct index no_index = {NULL, 0};

static inline bool is_power_of_two(size_t size)
{
    return size != 0 && (size & (size - 1)) == 0;
}

/* Slots whose number is no power of two are as none. */
static inline struct index index_of(const uint32_t *slots, size_t size)
{
    return is_power_of_two(size) ? (struct index){slots, size - 1} : no_index;
}

static inline size_t slot_of(size_t mask, size_t parent, uint32_t token)
{
    return ((uint32_t)parent + token) & mask;
}

static inline size_t slot_after(size_t mask, size_t slot)
{
    return (slot + 1) & mask;
}

/* Whether the node that a slot names is the child sought, by its own record. */
static inline bool is_confirmed(const uint32_t *space, size_t nodes, size_t parent, uint32_t token,
                                size_t node)
{
    return node > parent && node < nodes && node_at(space, node)[PARENT] == parent &&
           node_at(space, node)[TOKEN] == token;
}

static inline bool child_is_sound(const uint32_t *record, size_t child, size_t nodes, size_t links,
                                  size_t parent)
{
    return node_is_sound(record, child, nodes, links) && record[PARENT] == parent;
}

enum search { SEARCH_DAMAGED, SEARCH_FOUND, SEARCH_ON };

/*
 * Looks for a token in a slot and at a child in turn, until it is found at a
 * child, or the children are over, or a slot is free: then the search goes on
 * from a child, which is behind the last.
 */
static inline enum search search_in_turn(const uint32_t *space, size_t nodes, size_t links,
                                         size_t parent, uint32_t token, struct index index,
                                         size_t *child, size_t *last)
{
    size_t slot = slot_of(index.mask, parent, token);
    for (; *child != 0 && index.slots[slot] != 0; slot = slot_after(index.mask, slot)) {
        size_t entry = index.slots[slot];
        if (is_confirmed(space, nodes, parent, token, entry)) {
            *child = entry;
            return node_is_sound(node_at(space, entry), entry, nodes, links) ? SEARCH_FOUND
                                                                             : SEARCH_DAMAGED;
        }
        const uint32_t *record = node_at(space, *child);
        if (!child_is_sound(record, *child, nodes, links, parent))
            return SEARCH_DAMAGED;
        if (record[TOKEN] == token)
            return SEARCH_FOUND;
        *last = *child;
        *child = record[SIBLING];
    }
    return SEARCH_ON;
}

/*
 * Walks from a sound root down as many tokens as there are nodes for. Answers
 * whether no damage was met.
 */
TWICE bool walk(const uint32_t *space, size_t nodes, size_t links, size_t root, struct index index,
                const uint32_t *tokens, size_t count, struct place *place)
{
    const uint32_t *end = tokens + count;
    const uint32_t *record = node_at(space, root);
    size_t parent = root;
    while (tokens != end) {
        size_t child = record[CHILD], last = 0;
        enum search search = SEARCH_ON;
        if (index.slots != NULL)
            search = search_in_turn(space, nodes, links, parent, *tokens, index, &child, &last);
        if (search == SEARCH_DAMAGED)
            return false;
        if (search == SEARCH_FOUND)
            record = node_at(space, child);
        else
            for (; child != 0; child = record[SIBLING]) {
                record = node_at(space, child);
                if (!child_is_sound(record, child, nodes, links, parent))
                    return false;
                if (record[TOKEN] == *tokens)
                    break;
                last = child;
            }
        if (child == 0) {
            *place = (struct place){parent, last, (size_t)(end - tokens)};
            return true;
        }
        parent = child;
        tokens++;
    }
    *place = (struct place){parent, 0, 0};
    return true;
}

/* Entering */

static inline void write_node(uint32_t *space, size_t node, uint32_t token, size_t child,
                              size_t parent, size_t link)
{
    uint32_t *record = space + HEADER_CELLS + NODE_CELLS * node;
    record[TOKEN] = token;
    record[CHILD] = (uint32_t)child;
    record[SIBLING] = 0;
    record[PARENT] = (uint32_t)parent;
    record[LINK] = (uint32_t)link;
}

/* Enters a node for each of one or more tokens, the first of them numbered `node`; the last gets the link. */
static void enter_path(uint32_t *space, const struct place *place, size_t node,
                       const uint32_t *tokens, size_t link)
{
    size_t leaf = node + place->left - 1;
    size_t parent = place->node;
    size_t lead = place->last == 0 ? NODE_CELLS * place->node + CHILD
                                   : NODE_CELLS * place->last + SIBLING;
    space[HEADER_CELLS + lead] = (uint32_t)node;
    for (; node < leaf; node++) {
        write_node(space, node, *tokens++, node + 1, parent, 0);
        parent = node;
    }
    write_node(space, leaf, *tokens, 0, parent, link);
}

static uint64_t enter_subgoal(uint32_t *space, const struct head *head, const struct place *place,
                              const struct compaction *form)
{
    if (head->node_capacity - head->nodes <= place->left)
        return refuse(NO_NODES);
    if (head->subgoals == head->subgoal_capacity)
        return refuse(NO_RECORDS);
    size_t subgoal = head->subgoals + 1, root = head->nodes + place->left;
    enter_path(space, place, head->nodes, form->tokens + form->count - place->left, subgoal);
    write_node(space, root, 0, 0, root, 0);
    uint32_t *record = space + head->subgoal_offset + SUBGOAL_CELLS * (subgoal - 1);
    record[LEAF] = (uint32_t)(root - 1);
    record[ROOT] = (uint32_t)root;
    record[VARIABLES] = (uint32_t)form->variables;
    record[STATE] = 0;
    record[FIRST] = 0;
    record[LAST] = 0;
    space[NODES_USED] = (uint32_t)(root + 1);
    space[SUBGOALS_USED] = (uint32_t)subgoal;
    return say(SAID_NEW, subgoal);
}

/* Whether the subgoal's last answer, where there is one, is its own and has none behind it. */
static bool last_is_sound(const uint32_t *space, const struct head *head, size_t subgoal, size_t last)
{
    if (last == 0)
        return true;
    const uint32_t *record = answer_at(space, head, last);
    return answer_is_sound(record, last, head) && record[ANSWER_SUBGOAL] == subgoal &&
           record[ANSWER_NEXT] == 0;
}

/* Enters the answer's record and puts it behind the subgoal's last answer. */
static void chain_answer(uint32_t *space, const struct head *head, size_t subgoal, size_t leaf,
                         size_t answer)
{
    uint32_t *owner = space + head->subgoal_offset + SUBGOAL_CELLS * (subgoal - 1);
    uint32_t *answers = space + head->answer_offset;
    uint32_t *record = answers + ANSWER_CELLS * (answer - 1);
    if (owner[LAST] == 0)
        owner[FIRST] = (uint32_t)answer;
    else
        answers[ANSWER_CELLS * (owner[LAST] - (size_t)1) + ANSWER_NEXT] = (uint32_t)answer;
    owner[LAST] = (uint32_t)answer;
    record[ANSWER_LEAF] = (uint32_t)leaf;
    record[ANSWER_SUBGOAL] = (uint32_t)subgoal;
    record[ANSWER_NEXT] = 0;
}

/* An answer with tokens left gets new nodes; the empty one has the answer root as its leaf, and finishes the subgoal. */
static uint64_t enter_answer(uint32_t *space, const struct head *head, size_t subgoal,
                             const struct place *place, const struct compaction *form)
{
    uint32_t *owner = space + head->subgoal_offset + SUBGOAL_CELLS * (subgoal - 1);
    if (!last_is_sound(space, head, subgoal, owner[LAST]))
        return refuse(DAMAGED);
    if (owner[STATE] != 0)
        return refuse(FINISHED);
    if (head->node_capacity - head->nodes < place->left)
        return refuse(NO_NODES);
    if (head->answers == head->answer_capacity)
        return refuse(NO_RECORDS);
    size_t answer = head->answers + 1, leaf = place->node;
    if (place->left > 0) {
        leaf = head->nodes + place->left - 1;
        enter_path(space, place, head->nodes, form->tokens + form->count - place->left, answer);
        space[NODES_USED] = (uint32_t)(leaf + 1);
    } else {
        space[HEADER_CELLS + NODE_CELLS * leaf + LINK] = (uint32_t)answer;
        owner[STATE] = 1;
    }
    chain_answer(space, head, subgoal, leaf, answer);
    space[ANSWERS_USED] = (uint32_t)answer;
    return say(SAID_NEW, answer);
}

/* Gathering */

/* The tokens of a path; they fill the buffer from its end, since they are met from the leaf up. */
struct path {
    const uint32_t *first;
    uint32_t tokens[FORM_TOKENS];
};

static inline const uint32_t *path_end(const struct path *path)
{
    return path->tokens + FORM_TOKENS;
}

/* Gathers the tokens from a leaf up to the root it must end at; answers whether no damage was met. */
static bool gather(const uint32_t *space, size_t nodes, size_t links, size_t root, size_t leaf,
                   struct path *path)
{
    uint32_t *first = path->tokens + FORM_TOKENS;
    size_t node = leaf;
    for (;;) {
        const uint32_t *record = node_at(space, node);
        size_t parent = record[PARENT];
        if (!node_is_sound(record, node, nodes, links) || parent > node)
            return false;
        if (parent == node)
            break;
        if (first == path->tokens)
            return false;
        *--first = record[TOKEN];
        node = parent;
    }
    path->first = first;
    return node == root;
}

/* Expanding */

/*
 * Terms while they are expanded. No token gives more than two cells, so the
 * cells have room for all that 383 tokens give; whether they are too many is
 * judged at the end.
 */
struct expansion {
    const uint32_t *end;                 /* of the input */
    uint32_t arity_bits;                 /* of the edition */
    uint32_t variables;                  /* distinct variables met, at most 32 */
    uint32_t count;                      /* of the cells */
    uint32_t starts[TERM_VARIABLES + 1]; /* where each term starts, and where the last ends */
    uint32_t cells[2 * FORM_TOKENS];
};

static struct cursor expand_list(struct expansion *e, struct cursor at);

/* Reads one term in compact form. */
static struct cursor expand_term(struct expansion *e, struct cursor at)
{
    uint32_t arity_bits = e->arity_bits;
    size_t due = 1;
    do {
        if (at.in == e->end)
            return wrong;
        uint32_t token = *at.in++;
        if (is_constant(token)) {
            *at.out++ = token;
        } else if (kind(token) == VARIABLE) {
            if (payload(token) > e->variables || payload(token) >= TERM_VARIABLES)
                return wrong;
            e->variables += payload(token) == e->variables;
            *at.out++ = token;
        } else if (kind(token) == FUNCTOR && (token & arity_bits) > 0) {
            *at.out++ = token;
            due += token & arity_bits;
        } else {
            if (token != blist_token)
                return wrong;
            at = expand_list(e, at);
            if (at.in == NULL)
                return wrong;
        }
    } while (--due > 0);
    return at;
}

/* Reads what follows ELIST: the last element. */
static struct cursor expand_last(struct expansion *e, struct cursor at)
{
    *at.out++ = pair_cell;
    at = expand_term(e, at);
    if (at.in != NULL)
        *at.out++ = empty_list;
    return at;
}

/* Reads what follows EPAIR: a term that is neither [] nor a list. */
static struct cursor expand_tail(struct expansion *e, struct cursor at)
{
    if (at.in == e->end || *at.in == empty_list || *at.in == blist_token)
        return wrong;
    return expand_term(e, at);
}

/* Reads a list whose BLIST has been read; constants among its elements at once. */
static struct cursor expand_list(struct expansion *e, struct cursor at)
{
    const uint32_t *first = at.in;
    while (at.in != NULL && at.in != e->end) {
        uint32_t token = *at.in;
        if (is_constant(token)) {
            *at.out++ = pair_cell;
            *at.out++ = token;
            at.in++;
        } else if (token == elist_token) {
            at.in++;
            return expand_last(e, at);
        } else if (token == epair_token && at.in != first) {
            at.in++;
            return expand_tail(e, at);
        } else {
            *at.out++ = pair_cell;
            at = expand_term(e, at);
        }
    }
    return wrong;
}

/* Reads a path as exactly m legal terms; answers whether it is that. */
static bool expand(struct expansion *e, const struct head *head, const struct path *path,
                   uint32_t m)
{
    struct cursor at = {path->first, e->cells};
    e->end = path_end(path);
    e->arity_bits = head->arity_bits;
    e->variables = 0;
    for (uint32_t i = 0; i < m; i++) {
        e->starts[i] = (uint32_t)(at.out - e->cells);
        at = expand_term(e, at);
        if (at.in == NULL)
            return false;
    }
    e->count = (uint32_t)(at.out - e->cells);
    e->starts[m] = e->count;
    return at.in == e->end && e->count <= TERM_CELLS;
}

/* The instance */

static inline uint32_t width(const struct expansion *terms, uint32_t variable)
{
    return terms->starts[payload(variable) + 1] - terms->starts[payload(variable)];
}

/* How many cells the subgoal has with the answer's terms for its variables. */
static size_t instance_cells(const struct expansion *subgoal, const struct expansion *terms)
{
    size_t need = subgoal->count;
    for (uint32_t i = 0; i < subgoal->count; i++)
        if (kind(subgoal->cells[i]) == VARIABLE)
            need += width(terms, subgoal->cells[i]) - (size_t)1;
    return need;
}

static void write_instance(const struct expansion *subgoal, const struct expansion *terms,
                           uint32_t *out)
{
    for (uint32_t i = 0; i < subgoal->count; i++) {
        uint32_t cell = subgoal->cells[i];
        if (kind(cell) == VARIABLE) {
            const uint32_t *term = terms->cells + terms->starts[payload(cell)];
            memcpy(out, term, width(terms, cell) * sizeof *out);
            out += width(terms, cell);
        } else {
            *out++ = cell;
        }
    }
}

/* The calls */

uint64_t plain_fresh(uint32_t *space, size_t space_cells, uint32_t nodes, uint32_t subgoals,
                     uint32_t answers, uint32_t edition)
{
    if (!is_edition(edition) || nodes == 0 || nodes > MOST_RECORDS || subgoals > MOST_RECORDS ||
        answers > MOST_RECORDS)
        return refuse(BAD_FRESH);
    uint32_t subgoals_at = HEADER_CELLS + NODE_CELLS * nodes;
    uint32_t answers_at = subgoals_at + SUBGOAL_CELLS * subgoals;
    uint32_t end = answers_at + ANSWER_CELLS * answers;
    if (end > space_cells)
        return refuse(BAD_FRESH);
    memset(space, 0, end * sizeof *space);
    space[EDITION] = edition;
    space[NODES_USED] = 1;
    space[NODE_OFFSET] = HEADER_CELLS;
    space[SUBGOAL_OFFSET] = subgoals_at;
    space[ANSWER_OFFSET] = answers_at;
    space[END] = end;
    return say(SAID_DONE, 0);
}

/* The subgoal whose leaf was found. */
static uint64_t find_subgoal(const uint32_t *space, const struct head *head, size_t leaf)
{
    size_t subgoal = node_at(space, leaf)[LINK];
    if (subgoal == 0)
        return refuse(DAMAGED);
    const uint32_t *record = subgoal_at(space, head, subgoal);
    if (!subgoal_is_sound(record, head) || record[LEAF] != leaf)
        return refuse(DAMAGED);
    return say(record[STATE] == 0 ? SAID_OLD_OPEN : SAID_OLD_FINISHED, subgoal);
}

TWICE uint64_t call_with(uint32_t *space, size_t space_cells, struct index index,
                         const uint32_t *term, size_t term_cells)
{
    struct head head;
    struct compaction form;
    struct place place;
    if (!read_head(space, space_cells, &head))
        return refuse(BAD_HEADER);
    enum refusal refusal = compact(&form, &head, term, term_cells, 1);
    if (refusal != ACCEPTED)
        return refuse(refusal);
    if (kind(term[0]) != ATOM && kind(term[0]) != FUNCTOR)
        return refuse(NOT_CALLABLE);
    if (!root_is_sound(space, head.nodes, head.subgoals, 0) ||
        !walk(space, head.nodes, head.subgoals, 0, index, form.tokens, form.count, &place))
        return refuse(DAMAGED);
    if (place.left > 0)
        return enter_subgoal(space, &head, &place, &form);
    return find_subgoal(space, &head, place.node);
}

uint64_t plain_call(uint32_t *space, size_t space_cells, const uint32_t *term, size_t term_cells)
{
    return call_with(space, space_cells, no_index, term, term_cells);
}

uint64_t plain_call_indexed(uint32_t *space, size_t space_cells, const uint32_t *index,
                            size_t index_cells, const uint32_t *term, size_t term_cells)
{
    return call_with(space, space_cells, index_of(index, index_cells), term, term_cells);
}

/* The answer whose leaf was found; the empty one is new where the answer root has no link. */
static uint64_t find_answer(uint32_t *space, const struct head *head, size_t subgoal,
                            const struct place *place, const struct compaction *form)
{
    size_t answer = node_at(space, place->node)[LINK];
    if (answer == 0)
        return form->count == 0 ? enter_answer(space, head, subgoal, place, form) : refuse(DAMAGED);
    const uint32_t *record = answer_at(space, head, answer);
    if (!answer_is_sound(record, answer, head) || record[ANSWER_LEAF] != place->node)
        return refuse(DAMAGED);
    return say(SAID_OLD, answer);
}

TWICE uint64_t answer_with(uint32_t *space, size_t space_cells, struct index index, uint32_t subgoal,
                           const uint32_t *terms, size_t terms_cells)
{
    struct head head;
    struct compaction form;
    struct place place;
    if (!read_head(space, space_cells, &head))
        return refuse(BAD_HEADER);
    if (!is_numbered(subgoal, head.subgoals))
        return refuse(BAD_NUMBER);
    const uint32_t *record = subgoal_at(space, &head, subgoal);
    if (!subgoal_is_sound(record, &head))
        return refuse(DAMAGED);
    if (!root_is_sound(space, head.nodes, head.answers, record[ROOT]))
        return refuse(DAMAGED);
    enum refusal refusal = compact(&form, &head, terms, terms_cells, record[VARIABLES]);
    if (refusal != ACCEPTED)
        return refuse(refusal);
    if (!walk(space, head.nodes, head.answers, record[ROOT], index, form.tokens, form.count, &place))
        return refuse(DAMAGED);
    if (place.left > 0)
        return enter_answer(space, &head, subgoal, &place, &form);
    return find_answer(space, &head, subgoal, &place, &form);
}

uint64_t plain_answer(uint32_t *space, size_t space_cells, uint32_t subgoal, const uint32_t *terms,
                      size_t terms_cells)
{
    return answer_with(space, space_cells, no_index, subgoal, terms, terms_cells);
}

uint64_t plain_answer_indexed(uint32_t *space, size_t space_cells, const uint32_t *index,
                              size_t index_cells, uint32_t subgoal, const uint32_t *terms,
                              size_t terms_cells)
{
    return answer_with(space, space_cells, index_of(index, index_cells), subgoal, terms, terms_cells);
}

uint64_t plain_finish(uint32_t *space, size_t space_cells, uint32_t subgoal)
{
    struct head head;
    if (!read_head(space, space_cells, &head))
        return refuse(BAD_HEADER);
    if (!is_numbered(subgoal, head.subgoals))
        return refuse(BAD_NUMBER);
    if (!subgoal_is_sound(subgoal_at(space, &head, subgoal), &head))
        return refuse(DAMAGED);
    space[head.subgoal_offset + SUBGOAL_CELLS * (subgoal - (size_t)1) + STATE] = 1;
    return say(SAID_DONE, 0);
}

uint64_t plain_next(const uint32_t *space, size_t space_cells, uint32_t subgoal, uint32_t after)
{
    struct head head;
    if (!read_head(space, space_cells, &head))
        return refuse(BAD_HEADER);
    if (!is_numbered(subgoal, head.subgoals) || after > head.answers)
        return refuse(BAD_NUMBER);
    const uint32_t *from = after == 0 ? NULL : answer_at(space, &head, after);
    if (from != NULL && from[ANSWER_SUBGOAL] != subgoal)
        return refuse(BAD_NUMBER);
    const uint32_t *owner = subgoal_at(space, &head, subgoal);
    if (!subgoal_is_sound(owner, &head) || (from != NULL && !answer_is_sound(from, after, &head)))
        return refuse(DAMAGED);
    uint32_t next = from == NULL ? owner[FIRST] : from[ANSWER_NEXT];
    if (next == 0)
        return say(owner[STATE] == 0 ? SAID_NONE_YET : SAID_NO_MORE, 0);
    const uint32_t *record = answer_at(space, &head, next);
    if (!answer_is_sound(record, next, &head) || record[ANSWER_SUBGOAL] != subgoal)
        return refuse(DAMAGED);
    return say(SAID_AT, next);
}

/* Reads the records of an answer and its subgoal, and expands the answer's terms. */
static enum refusal expand_answer(const uint32_t *space, const struct head *head, uint32_t answer,
                                  const uint32_t **subgoal, struct expansion *terms)
{
    struct path path;
    if (!is_numbered(answer, head->answers))
        return BAD_NUMBER;
    const uint32_t *record = answer_at(space, head, answer);
    if (!answer_is_sound(record, answer, head))
        return DAMAGED;
    *subgoal = subgoal_at(space, head, record[ANSWER_SUBGOAL]);
    if (!subgoal_is_sound(*subgoal, head))
        return DAMAGED;
    if (!gather(space, head->nodes, head->answers, (*subgoal)[ROOT], record[ANSWER_LEAF], &path) ||
        !expand(terms, head, &path, (*subgoal)[VARIABLES]))
        return DAMAGED;
    return ACCEPTED;
}

uint64_t plain_load(const uint32_t *space, size_t space_cells, uint32_t answer, uint32_t *out,
                    size_t out_cells)
{
    struct head head;
    struct expansion terms;
    const uint32_t *subgoal;
    if (!read_head(space, space_cells, &head))
        return refuse(BAD_HEADER);
    enum refusal refusal = expand_answer(space, &head, answer, &subgoal, &terms);
    if (refusal != ACCEPTED)
        return refuse(refusal);
    if (terms.count > out_cells)
        return refuse_out(terms.count);
    if (terms.count > 0)
        memcpy(out, terms.cells, terms.count * sizeof *out);
    return say(SAID_CELLS, terms.count);
}

uint64_t plain_instance(const uint32_t *space, size_t space_cells, uint32_t answer, uint32_t *out,
                        size_t out_cells)
{
    struct head head;
    struct expansion terms, goal;
    struct path path;
    const uint32_t *subgoal;
    if (!read_head(space, space_cells, &head))
        return refuse(BAD_HEADER);
    enum refusal refusal = expand_answer(space, &head, answer, &subgoal, &terms);
    if (refusal != ACCEPTED)
        return refuse(refusal);
    if (!gather(space, head.nodes, head.subgoals, 0, subgoal[LEAF], &path) ||
        !expand(&goal, &head, &path, 1) || goal.variables != subgoal[VARIABLES])
        return refuse(DAMAGED);
    size_t need = instance_cells(&goal, &terms);
    if (need > out_cells)
        return refuse_out(need);
    write_instance(&goal, &terms, out);
    return say(SAID_CELLS, need);
}

uint64_t plain_counts(const uint32_t *space, size_t space_cells, uint32_t *out, size_t out_cells)
{
    struct head head;
    if (!read_head(space, space_cells, &head))
        return refuse(BAD_HEADER);
    if (out_cells < 3)
        return refuse_out(3);
    out[0] = (uint32_t)head.nodes;
    out[1] = (uint32_t)head.subgoals;
    out[2] = (uint32_t)head.answers;
    return say(SAID_COUNTS, 3);
}
