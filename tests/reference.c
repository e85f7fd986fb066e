/*
 * The reference converters. Cells are read into a tree, and forms are written from it by their definitions. A form is
 * legal if the tree that it is read into, whatever it is, has that very form.
 */
#include "reference.h"

#include <stdbool.h>
#include <string.h>

enum { VARIABLE = 1, ATOM, INTEGER, FUNCTOR, PAIR, BLIST, ELIST, EPAIR };

enum { WRONG_EDITION = 1, NO_TERM = 3, LONG = 4, MANY_VARIABLES = 5, NO_ROOM = 12, NO_FORM = 13 };

/* Enough nodes for what is read: no token gives more than two, and a term that is read has a cell for each. */
enum { NODES = 2 * REFERENCE_FORM_TOKENS, NOTHING = -1 };

#define MARK(kind) ((uint32_t)(kind) << 28)

/* Trees */

struct node {
    uint32_t cell;
    int argument; /* the first of its terms, or NOTHING; a pair has two */
    int next;     /* the term behind it among those of the same cell, or NOTHING */
};

struct reading {
    const uint32_t *cells;
    size_t count, at;
    uint32_t edition;
    int nodes;
    struct node node[NODES];
};

static void begin_reading(struct reading *r, const uint32_t *cells, size_t count, uint32_t edition)
{
    r->cells = cells;
    r->count = count;
    r->at = 0;
    r->edition = edition;
    r->nodes = 0;
}

static int make_node(struct reading *r, uint32_t cell)
{
    r->node[r->nodes] = (struct node){cell, NOTHING, NOTHING};
    return r->nodes++;
}

/* How many terms follow a cell of pair form in its term; NOTHING if it is none of pair form. */
static int arguments(uint32_t cell, uint32_t edition)
{
    uint32_t payload = cell % MARK(1);
    switch (cell / MARK(1)) {
    case VARIABLE:
    case ATOM:
    case INTEGER:
        return 0;
    case FUNCTOR: {
        int arity = (int)(payload % (edition == 1 ? 16 : 256));
        return arity > 0 ? arity : NOTHING;
    }
    case PAIR:
        return payload == 0 ? 2 : NOTHING;
    default:
        return NOTHING;
    }
}

/* A term that begins with this cell, each argument read by `read`. */
static int read_arguments(struct reading *r, uint32_t cell, int (*read)(struct reading *))
{
    int left = arguments(cell, r->edition), term, last = NOTHING;
    if (left == NOTHING)
        return NOTHING;
    term = make_node(r, cell);
    while (left-- > 0) {
        int argument = read(r);
        if (argument == NOTHING)
            return NOTHING;
        if (last == NOTHING)
            r->node[term].argument = argument;
        else
            r->node[last].next = argument;
        last = argument;
    }
    return term;
}

static int read_pair_form(struct reading *r)
{
    return r->at < r->count ? read_arguments(r, r->cells[r->at++], read_pair_form) : NOTHING;
}

static int read_compact_form(struct reading *r);

/* The list behind BLIST. What ends it is taken as it comes: whether it may is told by the form that the tree has. */
static int read_elements(struct reading *r)
{
    int first = NOTHING, open = NOTHING; /* the pair whose tail is still to come */
    for (;;) {
        if (r->at == r->count)
            return NOTHING;
        uint32_t mark = r->cells[r->at];
        bool is_tail = mark == MARK(EPAIR), is_last = mark == MARK(ELIST);
        r->at += is_tail || is_last;
        int term = read_compact_form(r);
        if (term == NOTHING)
            return NOTHING;
        if (!is_tail) {
            int pair = make_node(r, MARK(PAIR));
            r->node[pair].argument = term;
            if (open != NOTHING)
                r->node[r->node[open].argument].next = pair;
            first = first == NOTHING ? pair : first;
            open = pair;
            if (!is_last)
                continue;
            term = make_node(r, MARK(ATOM));
        }
        if (open == NOTHING)
            return term;
        r->node[r->node[open].argument].next = term;
        return first;
    }
}

static int read_compact_form(struct reading *r)
{
    if (r->at == r->count)
        return NOTHING;
    uint32_t token = r->cells[r->at++];
    if (token == MARK(BLIST))
        return read_elements(r);
    return token == MARK(PAIR) ? NOTHING : read_arguments(r, token, read_compact_form);
}

/* Forms */

/* Cells as they are written; those beyond the limit are counted, and not kept. */
struct writing {
    uint32_t *cells;
    size_t count, limit;
};

static void put(struct writing *w, uint32_t cell)
{
    if (w->count < w->limit)
        w->cells[w->count] = cell;
    w->count++;
}

static void write_pair_form(const struct reading *r, int term, struct writing *w)
{
    put(w, r->node[term].cell);
    for (int i = r->node[term].argument; i != NOTHING; i = r->node[i].next)
        write_pair_form(r, i, w);
}

/* e1 to en ending in []: BLIST, e1 to e(n-1), ELIST, en; ending in t: BLIST, e1 to en, EPAIR, t. */
static void write_compact_form(const struct reading *r, int term, struct writing *w)
{
    const struct node *node = r->node;
    if (node[term].cell != MARK(PAIR)) {
        put(w, node[term].cell);
        for (int i = node[term].argument; i != NOTHING; i = node[i].next)
            write_compact_form(r, i, w);
        return;
    }
    put(w, MARK(BLIST));
    while (node[term].cell == MARK(PAIR)) {
        int element = node[term].argument;
        term = node[element].next;
        if (node[term].cell == MARK(ATOM))
            put(w, MARK(ELIST));
        write_compact_form(r, element, w);
    }
    if (node[term].cell != MARK(ATOM)) {
        put(w, MARK(EPAIR));
        write_compact_form(r, term, w);
    }
}

/* Numbers */

/* Numbers variables by first meeting and gives how many there are. */
static size_t number_variables(uint32_t *cells, size_t count)
{
    uint32_t met[REFERENCE_FORM_TOKENS];
    size_t variables = 0;
    for (size_t i = 0; i < count; i++) {
        size_t rank = 0;
        if (cells[i] / MARK(1) != VARIABLE)
            continue;
        while (rank < variables && met[rank] != cells[i])
            rank++;
        met[rank] = cells[i];
        variables += rank == variables;
        cells[i] = MARK(VARIABLE) + (uint32_t)rank;
    }
    return variables;
}

void reference_number(uint32_t *cells, size_t count)
{
    (void)number_variables(cells, count);
}

/* The converters */

static struct reference_result refuse(uint32_t refusal)
{
    return (struct reference_result){refusal, 0};
}

static struct reference_result hand_over(const struct writing *w, uint32_t *out, size_t room)
{
    if (w->count > room)
        return (struct reference_result){NO_ROOM, (uint32_t)w->count};
    memcpy(out, w->cells, w->count * sizeof *out);
    return (struct reference_result){0, (uint32_t)w->count};
}

struct reference_result reference_compact_cells(const uint32_t *in, size_t count, uint32_t *out,
                                                size_t room, uint32_t edition)
{
    uint32_t numbered[REFERENCE_TERM_CELLS], tokens[REFERENCE_FORM_TOKENS];
    struct reading r;
    struct writing w = {tokens, 0, REFERENCE_FORM_TOKENS};
    if (edition != 1 && edition != 2)
        return refuse(WRONG_EDITION);
    if (count > REFERENCE_TERM_CELLS)
        return refuse(LONG);
    for (size_t i = 0; i < count; i++)
        numbered[i] = in[i];
    size_t variables = number_variables(numbered, count);
    begin_reading(&r, numbered, count, edition);
    int term = read_pair_form(&r);
    if (term == NOTHING || r.at != count)
        return refuse(NO_TERM);
    if (variables > REFERENCE_VARIABLES)
        return refuse(MANY_VARIABLES);
    write_compact_form(&r, term, &w);
    return hand_over(&w, out, room);
}

/* Is this the form of the term, with variables numbered by first meeting, and no more than there may be? */
static bool has_form(const struct reading *r, int term)
{
    uint32_t tokens[REFERENCE_FORM_TOKENS];
    struct writing w = {tokens, 0, REFERENCE_FORM_TOKENS};
    write_compact_form(r, term, &w);
    if (w.count != r->count || memcmp(tokens, r->cells, w.count * sizeof *tokens) != 0)
        return false;
    size_t variables = number_variables(tokens, w.count);
    return variables <= REFERENCE_VARIABLES &&
           memcmp(tokens, r->cells, w.count * sizeof *tokens) == 0;
}

struct reference_result reference_expand_cells(const uint32_t *in, size_t count, uint32_t *out,
                                               size_t room, uint32_t edition)
{
    uint32_t cells[REFERENCE_TERM_CELLS];
    struct reading r;
    struct writing w = {cells, 0, REFERENCE_TERM_CELLS};
    if (edition != 1 && edition != 2)
        return refuse(WRONG_EDITION);
    if (count > REFERENCE_FORM_TOKENS)
        return refuse(NO_FORM);
    begin_reading(&r, in, count, edition);
    int term = read_compact_form(&r);
    if (term == NOTHING || r.at != count || !has_form(&r, term))
        return refuse(NO_FORM);
    write_pair_form(&r, term, &w);
    return w.count > REFERENCE_TERM_CELLS ? refuse(NO_FORM) : hand_over(&w, out, room);
}

/* Over bytes */

typedef struct reference_result converter(const uint32_t *, size_t, uint32_t *, size_t, uint32_t);

/* Converts bytes; what has more cells than any form is refused as `too_long`. */
static uint32_t convert_bytes(converter *convert, uint32_t too_long, const uint8_t *in,
                              size_t in_bytes, uint8_t *out, size_t out_bytes, uint32_t edition)
{
    uint32_t cells[REFERENCE_FORM_TOKENS], result[REFERENCE_FORM_TOKENS];
    struct reference_result answer;
    if (edition != 1 && edition != 2)
        answer = refuse(WRONG_EDITION);
    else if (in_bytes % 4 != 0)
        answer = refuse(NO_TERM);
    else if (in_bytes / 4 > REFERENCE_FORM_TOKENS)
        answer = refuse(too_long);
    else {
        for (size_t i = 0; i < in_bytes / 4; i++)
            cells[i] = in[4 * i] + in[4 * i + 1] * UINT32_C(0x100) +
                       in[4 * i + 2] * UINT32_C(0x10000) + in[4 * i + 3] * UINT32_C(0x1000000);
        size_t room = out_bytes / 4;
        answer = convert(cells, in_bytes / 4, result,
                         room < REFERENCE_FORM_TOKENS ? room : REFERENCE_FORM_TOKENS, edition);
    }
    if (answer.refusal != 0)
        return UINT32_C(0x80000000) + answer.refusal;
    for (size_t i = 0; i < 4 * (size_t)answer.cells; i++)
        out[i] = (uint8_t)(result[i / 4] >> 8 * (i % 4));
    return answer.cells;
}

uint32_t reference_compact(const uint8_t *in, size_t in_bytes, uint8_t *out, size_t out_bytes,
                           uint32_t edition)
{
    return convert_bytes(reference_compact_cells, LONG, in, in_bytes, out, out_bytes, edition);
}

uint32_t reference_expand(const uint8_t *in, size_t in_bytes, uint8_t *out, size_t out_bytes,
                          uint32_t edition)
{
    return convert_bytes(reference_expand_cells, NO_FORM, in, in_bytes, out, out_bytes, edition);
}
