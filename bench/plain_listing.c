/* Lists of small terms in plain C, by the algorithm of the exported calls. */
#include "plain_listing.h"

#include "../include/tables.h"

#include <stdbool.h>
#include <string.h>

/* What a list is of, and which of the numbers below 8 are sums of the symbols' arities, a bit for each. */
struct list {
    const uint32_t *symbols;
    size_t count, size;
    uint32_t edition;
    unsigned sums;
};

/* A place of a term: how many variables are known there, and how many terms are due. */
struct place {
    uint32_t known, due;
};

/* A term, and the place before each of its cells and after the last. */
struct draft {
    uint32_t cell[TABLES_LISTED_CELLS];
    struct place place[TABLES_LISTED_CELLS + 1];
};

static uint64_t result(uint32_t what, uint32_t value)
{
    return (uint64_t)what << 32 | value;
}

/* What is given */

static inline uint32_t arity(const struct list *list, uint32_t cell)
{
    if (TABLES_KIND(cell) == TABLES_PAIR)
        return 2;
    return TABLES_KIND(cell) == TABLES_FUNCTOR ? cell & (list->edition == TABLES_EDITION_1 ? 15 : 255) : 0;
}

/* Where a symbol stands, from a place on; their number if it does not. */
static inline size_t find(const struct list *list, size_t from, uint32_t cell)
{
    while (from < list->count && list->symbols[from] != cell)
        from++;
    return from;
}

static inline bool is_symbol(const struct list *list, uint32_t cell)
{
    switch (TABLES_KIND(cell)) {
    case TABLES_ATOM:
    case TABLES_INTEGER:
        return true;
    case TABLES_FUNCTOR:
        return arity(list, cell) != 0;
    default:
        return cell == TABLES_PAIR_CELL;
    }
}

static bool is_listable(const struct list *list)
{
    if (list->edition != TABLES_EDITION_1 && list->edition != TABLES_EDITION_2)
        return false;
    if (list->size < 1 || list->size > TABLES_LISTED_CELLS || list->count > TABLES_LISTED_SYMBOLS)
        return false;
    for (size_t i = 0; i < list->count; i++)
        if (!is_symbol(list, list->symbols[i]) || find(list, i + 1, list->symbols[i]) < list->count)
            return false;
    return true;
}

/* Each number below 8 by the lower ones. */
static unsigned sums_of(const struct list *list)
{
    unsigned sums = 1;
    for (uint32_t t = 1; t < TABLES_LISTED_CELLS; t++)
        for (size_t i = 0; i < list->count; i++) {
            uint32_t step = arity(list, list->symbols[i]);
            if (step != 0 && step <= t && (sums >> (t - step) & 1) != 0) {
                sums |= 1u << t;
                break;
            }
        }
    return sums;
}

/* Places */

static inline bool is_variable(uint32_t cell)
{
    return TABLES_KIND(cell) == TABLES_VARIABLE;
}

/* A term is due, it begins with an atom or a functor, and a variable is a known one or the next. */
static inline bool is_allowed(const struct place *place, size_t at, uint32_t cell)
{
    if (place->due == 0)
        return false;
    if (at == 0 && TABLES_KIND(cell) != TABLES_ATOM && TABLES_KIND(cell) != TABLES_FUNCTOR)
        return false;
    return !is_variable(cell) || TABLES_PAYLOAD(cell) <= place->known;
}

static inline struct place place_after(const struct list *list, struct place place, uint32_t cell)
{
    if (is_variable(cell) && TABLES_PAYLOAD(cell) >= place.known)
        place.known = TABLES_PAYLOAD(cell) + 1;
    place.due = place.due - 1 + arity(list, cell);
    return place;
}

/* Can so many terms stand in exactly `left` cells? */
static inline bool can_fit(const struct list *list, uint32_t due, size_t left)
{
    if (due == 0)
        return left == 0;
    return due <= left && (list->sums >> (left - due) & 1) != 0;
}

/* Terms */

/* The j-th cell: the symbols as given, then the variables by number. */
static inline uint32_t letter(const struct list *list, size_t j)
{
    return j < list->count ? list->symbols[j]
                           : (uint32_t)TABLES_VARIABLE << 28 | (uint32_t)(j - list->count);
}

/* Puts the first cell, from the j-th on, with which the term can go on at a place. False if there is none. */
static inline bool choose(const struct list *list, struct draft *draft, size_t at, size_t j)
{
    size_t left = list->size - at - 1;
    for (; j < list->count + list->size; j++) {
        uint32_t cell = letter(list, j);
        if (!is_allowed(&draft->place[at], at, cell))
            continue;
        struct place after = place_after(list, draft->place[at], cell);
        if (can_fit(list, after.due, left)) {
            draft->cell[at] = cell;
            draft->place[at + 1] = after;
            return true;
        }
    }
    return false;
}

/* Fills the term from a place on with the first cells that end it. False if there are none. */
static bool fill(const struct list *list, struct draft *draft, size_t at)
{
    for (; at < list->size; at++)
        if (!choose(list, draft, at, 0))
            return false;
    return true;
}

/* Is a term in the list? Notes its places. */
static bool is_listed(const struct list *list, const uint32_t *term, size_t cells, struct draft *draft)
{
    if (cells != list->size)
        return false;
    draft->place[0] = (struct place){0, 1};
    for (size_t at = 0; at < cells; at++) {
        uint32_t cell = term[at];
        if (!is_variable(cell) && find(list, 0, cell) == list->count)
            return false;
        if (!is_allowed(&draft->place[at], at, cell))
            return false;
        draft->cell[at] = cell;
        draft->place[at + 1] = place_after(list, draft->place[at], cell);
    }
    return draft->place[cells].due == 0;
}

/* The next term: from the right, the first place with a later cell; what follows it is filled anew. */
static bool advance(const struct list *list, struct draft *draft)
{
    for (size_t at = list->size; at-- > 0;) {
        uint32_t cell = draft->cell[at];
        size_t j = is_variable(cell) ? list->count + TABLES_PAYLOAD(cell) : find(list, 0, cell);
        if (choose(list, draft, at, j + 1))
            return fill(list, draft, at + 1);
    }
    return false;
}

static uint64_t offer(const struct list *list, bool found, const struct draft *draft, uint32_t *out,
                      size_t out_cells)
{
    if (!found)
        return result(TABLES_END, 0);
    if (out_cells < list->size)
        return result(TABLES_CALL_REFUSED + TABLES_REFUSED_OUT, (uint32_t)list->size);
    memcpy(out, draft->cell, list->size * sizeof *out);
    return result(TABLES_CELLS, (uint32_t)list->size);
}

uint64_t plain_first_term(const uint32_t *symbols, size_t symbols_cells, size_t size, uint32_t *out,
                          size_t out_cells, uint32_t edition)
{
    struct list list = {symbols, symbols_cells, size, edition, 0};
    struct draft draft;
    if (!is_listable(&list))
        return result(TABLES_CALL_REFUSED + TABLES_REFUSED_LISTING, 0);
    list.sums = sums_of(&list);
    draft.place[0] = (struct place){0, 1};
    return offer(&list, fill(&list, &draft, 0), &draft, out, out_cells);
}

uint64_t plain_term_after(const uint32_t *symbols, size_t symbols_cells, size_t size,
                          const uint32_t *term, size_t term_cells, uint32_t *out, size_t out_cells,
                          uint32_t edition)
{
    struct list list = {symbols, symbols_cells, size, edition, 0};
    struct draft draft;
    if (!is_listable(&list))
        return result(TABLES_CALL_REFUSED + TABLES_REFUSED_LISTING, 0);
    if (!is_listed(&list, term, term_cells, &draft))
        return result(TABLES_CALL_REFUSED + TABLES_REFUSED_LISTED, 0);
    list.sums = sums_of(&list);
    return offer(&list, advance(&list, &draft), &draft, out, out_cells);
}
