/* The two converters in plain C, tuned on the inputs of their benchmark: a term reader and a list reader that call each other. */
#include "plain_converters.h"

#include <stdbool.h>
#include <string.h>

/* Kinds of cells. */
enum { VARIABLE = 1, ATOM = 2, INTEGER = 3, FUNCTOR = 4 };

static const uint32_t empty_list = 0x20000000u;
static const uint32_t pair_cell = 0x50000000u;
static const uint32_t blist_token = 0x60000000u;
static const uint32_t elist_token = 0x70000000u;
static const uint32_t epair_token = 0x80000000u;

/* Refusals of the two converters. */
enum {
    BAD_EDITION = 1,
    BAD_TERM = 3,
    TOO_LONG = 4,
    TOO_MANY_VARIABLES = 5,
    OUT_TOO_SHORT = 12,
    BAD_FORM = 13
};

enum { CELL_BYTES = 4, TERM_CELLS = 256, TERM_VARIABLES = 32, FORM_TOKENS = 383 };

/* What a converter answers: 0 and the cells written, or the refusal. */
struct answer {
    uint32_t refusal;
    uint32_t cells;
};

static inline uint32_t kind(uint32_t cell)
{
    return cell >> 28;
}

static inline uint32_t payload(uint32_t cell)
{
    return cell & 0x0fffffffu;
}

static inline bool is_edition(uint32_t edition)
{
    return edition == 1 || edition == 2;
}

/* The arity is the low 4 bits of a functor in edition 1, the low 8 in edition 2. */
static inline uint32_t arity(uint32_t functor, uint32_t edition)
{
    return functor & (edition == 1 ? 15 : 255);
}

static inline bool is_constant(uint32_t cell)
{
    return kind(cell) == ATOM || kind(cell) == INTEGER;
}

/* Cells as bytes */

static inline uint32_t load_cell(const uint8_t *bytes)
{
    return (uint32_t)bytes[0] | (uint32_t)bytes[1] << 8 | (uint32_t)bytes[2] << 16 |
           (uint32_t)bytes[3] << 24;
}

static void store_cells(uint8_t *bytes, const uint32_t *cells, size_t count)
{
#if defined(__BYTE_ORDER__) && __BYTE_ORDER__ == __ORDER_LITTLE_ENDIAN__
    memcpy(bytes, cells, count * CELL_BYTES);
#else
    for (size_t i = 0; i < count; i++)
        for (int j = 0; j < CELL_BYTES; j++)
            *bytes++ = (uint8_t)(cells[i] >> 8 * j);
#endif
}

/* Where a reader reads and writes next; in is NULL once the input has been found wrong. */
struct cursor {
    const uint8_t *in;
    uint32_t *out;
};

static const struct cursor wrong = {NULL, NULL};

static struct answer refuse(uint32_t refusal)
{
    return (struct answer){refusal, 0};
}

/* Hands over the cells if they fit. */
static struct answer deliver(const uint32_t *cells, size_t count, uint8_t *out,
                                       size_t room)
{
    if (count > room)
        return (struct answer){OUT_TOO_SHORT, (uint32_t)count};
    store_cells(out, cells, count);
    return (struct answer){0, (uint32_t)count};
}

/* Compacting */

/*
 * A term while it is compacted. The tokens are at most the cells read and one
 * for each EPAIR. An EPAIR belongs to a pair and to the cell that begins the
 * tail, and the first EPAIR comes after an element, so 256 cells, legal or
 * not, give at most 127 of them.
 */
struct compaction {
    const uint8_t *end; /* of the input */
    uint32_t edition;   /* 1 or 2 */
    bool too_many;      /* a 33rd variable was met */
    size_t variables;   /* distinct variables met, at most 32 */
    uint32_t names[TERM_VARIABLES];
    uint32_t tokens[FORM_TOKENS];
};

/* The numbered token of a variable. */
static uint32_t number_variable(struct compaction *c, uint32_t variable)
{
    size_t rank = 0;
    while (rank < c->variables && c->names[rank] != variable)
        rank++;
    if (rank == TERM_VARIABLES)
        c->too_many = true;
    else if (rank == c->variables)
        c->names[c->variables++] = variable;
    return (uint32_t)VARIABLE << 28 | (uint32_t)rank;
}

static struct cursor compact_list(struct compaction *c, struct cursor at);

/* Reads one term. */
static struct cursor compact_term(struct compaction *c, struct cursor at)
{
    size_t due = 1;
    do {
        if (at.in == c->end)
            return wrong;
        uint32_t cell = load_cell(at.in);
        at.in += CELL_BYTES;
        if (is_constant(cell)) {
            *at.out++ = cell;
        } else if (kind(cell) == VARIABLE) {
            *at.out++ = number_variable(c, cell);
        } else if (kind(cell) == FUNCTOR && arity(cell, c->edition) > 0) {
            *at.out++ = cell;
            due += arity(cell, c->edition);
        } else {
            if (cell != pair_cell)
                return wrong;
            at = compact_list(c, at);
            if (at.in == NULL)
                return wrong;
        }
    } while (--due > 0);
    return at;
}

/* Reads one element of a list: a constant at once, anything else as a term. */
static inline struct cursor compact_element(struct compaction *c, struct cursor at)
{
    if (at.in == c->end || !is_constant(load_cell(at.in)))
        return compact_term(c, at);
    *at.out++ = load_cell(at.in);
    at.in += CELL_BYTES;
    return at;
}

/* Reads a list whose first pair has been read. */
static struct cursor compact_list(struct compaction *c, struct cursor at)
{
    uint32_t *element;
    uint32_t tail;
    *at.out++ = blist_token;
    for (;;) {
        element = at.out;
        at = compact_element(c, at);
        if (at.in == NULL || at.in == c->end)
            return wrong;
        tail = load_cell(at.in);
        if (tail != pair_cell)
            break;
        at.in += CELL_BYTES;
    }
    if (tail != empty_list) {
        *at.out++ = epair_token;
        return compact_term(c, at);
    }
    memmove(element + 1, element, (size_t)(at.out - element) * sizeof *element);
    *element = elist_token;
    at.in += CELL_BYTES;
    at.out++;
    return at;
}

static struct answer compact(const uint8_t *in, size_t count, uint8_t *out, size_t room,
                                       uint32_t edition)
{
    struct compaction c;
    if (count > TERM_CELLS)
        return refuse(TOO_LONG);
    if (count == 0)
        return refuse(BAD_TERM);
    c.end = in + count * CELL_BYTES;
    c.edition = edition;
    c.too_many = false;
    c.variables = 0;
    struct cursor at = compact_term(&c, (struct cursor){in, c.tokens});
    if (at.in != c.end)
        return refuse(BAD_TERM);
    if (c.too_many)
        return refuse(TOO_MANY_VARIABLES);
    return deliver(c.tokens, (size_t)(at.out - c.tokens), out, room);
}

/* Expanding */

/*
 * A compact form while it is expanded. No token gives more than two cells, so
 * the cells have room for all that 383 tokens give; whether they are too many
 * for a term is judged at the end.
 */
struct expansion {
    const uint8_t *end;    /* of the input */
    uint32_t edition;      /* 1 or 2 */
    const uint32_t *limit; /* where the 257th cell stands */
    uint32_t variables;    /* distinct variables met, at most 32 */
    uint32_t cells[2 * FORM_TOKENS];
};

static struct cursor expand_list(struct expansion *e, struct cursor at);

/* Reads one term in compact form. */
static struct cursor expand_term(struct expansion *e, struct cursor at)
{
    size_t due = 1;
    do {
        if (at.in == e->end)
            return wrong;
        uint32_t token = load_cell(at.in);
        at.in += CELL_BYTES;
        if (is_constant(token)) {
            *at.out++ = token;
        } else if (kind(token) == VARIABLE) {
            if (payload(token) > e->variables || payload(token) >= TERM_VARIABLES)
                return wrong;
            e->variables += payload(token) == e->variables;
            *at.out++ = token;
        } else if (kind(token) == FUNCTOR && arity(token, e->edition) > 0) {
            *at.out++ = token;
            due += arity(token, e->edition);
        } else {
            if (token != blist_token)
                return wrong;
            at = expand_list(e, at);
            if (at.in == NULL)
                return wrong;
        }
    } while (--due > 0);
    return at;
}

/* Reads what follows ELIST: the last element. */
static struct cursor expand_last(struct expansion *e, struct cursor at)
{
    *at.out++ = pair_cell;
    at = expand_term(e, at);
    if (at.in != NULL)
        *at.out++ = empty_list;
    return at;
}

/* Reads what follows EPAIR: a term that is neither [] nor a list. */
static struct cursor expand_tail(struct expansion *e, struct cursor at)
{
    if (at.in == e->end || load_cell(at.in) == empty_list || load_cell(at.in) == blist_token)
        return wrong;
    return expand_term(e, at);
}

/* Reads a list whose BLIST has been read; constants among its elements at once. */
static struct cursor expand_list(struct expansion *e, struct cursor at)
{
    const uint8_t *first = at.in;
    while (at.in != NULL && at.in != e->end) {
        uint32_t token = load_cell(at.in);
        if (is_constant(token)) {
            *at.out++ = pair_cell;
            *at.out++ = token;
            at.in += CELL_BYTES;
        } else if (token == elist_token) {
            at.in += CELL_BYTES;
            return expand_last(e, at);
        } else if (token == epair_token && at.in != first) {
            at.in += CELL_BYTES;
            return expand_tail(e, at);
        } else {
            *at.out++ = pair_cell;
            at = expand_term(e, at);
        }
    }
    return wrong;
}

static struct answer expand(const uint8_t *in, size_t count, uint8_t *out, size_t room,
                                      uint32_t edition)
{
    struct expansion e;
    if (count == 0 || count > FORM_TOKENS)
        return refuse(BAD_FORM);
    e.end = in + count * CELL_BYTES;
    e.edition = edition;
    e.limit = e.cells + TERM_CELLS;
    e.variables = 0;
    struct cursor at = expand_term(&e, (struct cursor){in, e.cells});
    if (at.in != e.end || at.out > e.limit)
        return refuse(BAD_FORM);
    return deliver(e.cells, (size_t)(at.out - e.cells), out, room);
}

/* Over bytes */

/* The result as the exports give it. */
static uint32_t result_word(struct answer result)
{
    return result.refusal == 0 ? result.cells : 0x80000000u + result.refusal;
}

uint32_t plain_compact(const uint8_t *in, size_t in_bytes, uint8_t *out, size_t out_bytes,
                           uint32_t edition)
{
    if (!is_edition(edition))
        return result_word(refuse(BAD_EDITION));
    if (in_bytes % CELL_BYTES != 0)
        return result_word(refuse(BAD_TERM));
    return result_word(compact(in, in_bytes / CELL_BYTES, out, out_bytes / CELL_BYTES, edition));
}

uint32_t plain_expand(const uint8_t *in, size_t in_bytes, uint8_t *out, size_t out_bytes,
                          uint32_t edition)
{
    if (!is_edition(edition))
        return result_word(refuse(BAD_EDITION));
    if (in_bytes % CELL_BYTES != 0)
        return result_word(refuse(BAD_TERM));
    return result_word(expand(in, in_bytes / CELL_BYTES, out, out_bytes / CELL_BYTES, edition));
}
