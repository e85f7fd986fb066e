/*
 * A test of the lists of small terms, tables_first_term and tables_term_after, against a second
 * opinion: the list itself, made by trying all strings of cells in order and keeping those that
 * are terms of the list. For sizes at which all strings are too many, the terms are counted by
 * cells left, terms due and variables met, and found by their place in the count; where both
 * ways are open, they are held against each other.
 *
 * Everything lent lies against pages that cannot be touched: each question is asked with such a
 * page right behind symbols, term and out, again with one right before each of them, and, where
 * something of no cells is lent, once more with NULL for it.
 *
 *     listing_test [seed]
 *
 * Prints one line with the number of checks and failures; exits with 1 where any check failed.
 */
#ifndef _DEFAULT_SOURCE
#define _DEFAULT_SOURCE
#endif
#include <inttypes.h>
#include <signal.h>
#include <stdbool.h>
#include <stdint.h>
#include <stdio.h>
#include <stdlib.h>
#include <string.h>
#include <sys/mman.h>
#include <unistd.h>

#include "../include/tables.h"

_Static_assert(TABLES_REFUSED_OUT == 12 && TABLES_REFUSED_LISTING == 23 && TABLES_REFUSED_LISTED == 24, "refusals");
_Static_assert(TABLES_LISTED_CELLS == 8 && TABLES_LISTED_SYMBOLS == 16, "limits of a list");

enum {
    MOST_SIZE = 8,
    MOST_SYMBOLS = 16,
    WINDOW = 64,         /* cells of out's page that are watched, out among them */
    MOST_PRINTED = 20,   /* failures that are printed */
    WHOLE_TERMS = 24000, /* the most terms of size 5 of a random set */
    ENTERED_TERMS = 20000
};

/* The kinds, each in its place of a cell. */
#define VAR(n) (UINT32_C(0x10000000) + (n))
#define ATOM(n) (UINT32_C(0x20000000) + (n))
#define INT(n) (UINT32_C(0x30000000) + (n))
#define FUN(payload) (UINT32_C(0x40000000) + (payload))
#define PAIR UINT32_C(0x50000000)
#define LAST_PAYLOAD UINT32_C(0x0fffffff)

#define COUNT_OF(array) (sizeof(array) / sizeof((array)[0]))

/* What a list is of, its size apart. */
struct listing {
    uint32_t edition;
    size_t count;
    uint32_t symbols[MOST_SYMBOLS];
};

/* ---- Random numbers ---- */

static uint64_t random_state;

static uint64_t random_number(void)
{
    uint64_t z = (random_state += UINT64_C(0x9e3779b97f4a7c15));
    z = (z ^ z >> 30) * UINT64_C(0xbf58476d1ce4e5b9);
    z = (z ^ z >> 27) * UINT64_C(0x94d049bb133111eb);
    return z ^ z >> 31;
}

static uint64_t below(uint64_t limit)
{
    return random_number() % limit;
}

/* ---- Second opinion: what a term of the list is ---- */

static uint32_t kind_of(uint32_t cell)
{
    return cell / UINT32_C(268435456);
}

static uint32_t payload_of(uint32_t cell)
{
    return cell % UINT32_C(268435456);
}

static uint32_t functor_base(uint32_t edition)
{
    return edition == 1 ? 16 : 256;
}

static uint32_t functor(uint32_t edition, uint32_t name, uint32_t arity)
{
    return FUN(name * functor_base(edition) + arity);
}

static uint32_t arity_of(uint32_t cell, uint32_t edition)
{
    if (kind_of(cell) == 4)
        return payload_of(cell) % functor_base(edition);
    return kind_of(cell) == 5 ? 2 : 0;
}

static bool legal_cell(uint32_t cell, uint32_t edition)
{
    uint32_t kind = kind_of(cell);
    if (kind == 4)
        return arity_of(cell, edition) != 0;
    if (kind == 5)
        return payload_of(cell) == 0;
    return kind >= 1 && kind <= 3;
}

/* The place after the term that begins at a place, or 0 where cells are missing or illegal. */
static size_t end_of_term(const uint32_t *cells, size_t n, size_t at, uint32_t edition)
{
    if (at >= n || !legal_cell(cells[at], edition))
        return 0;
    size_t next = at + 1;
    for (uint32_t i = arity_of(cells[at], edition); i != 0 && next != 0; i--)
        next = end_of_term(cells, n, next, edition);
    return next;
}

static bool is_numbered(const uint32_t *cells, size_t n)
{
    uint32_t known = 0;
    for (size_t i = 0; i < n; i++) {
        if (kind_of(cells[i]) != 1)
            continue;
        if (payload_of(cells[i]) > known)
            return false;
        if (payload_of(cells[i]) == known)
            known++;
    }
    return true;
}

static bool may_begin(uint32_t cell)
{
    return kind_of(cell) == 2 || kind_of(cell) == 4;
}

/* Whether cells over the symbols and variables are a numbered term that may be called. */
static bool is_listed(const uint32_t *cells, size_t n, uint32_t edition)
{
    return n != 0 && may_begin(cells[0]) && is_numbered(cells, n) && end_of_term(cells, n, 0, edition) == n;
}

/* A cell's place in the order: the symbols as given, then variables by number; -1 if it is none. */
static int64_t place_of(const struct listing *l, uint32_t cell)
{
    for (size_t i = 0; i < l->count; i++)
        if (l->symbols[i] == cell)
            return (int64_t)i;
    return kind_of(cell) == 1 ? (int64_t)l->count + payload_of(cell) : -1;
}

static bool is_member(const struct listing *l, size_t size, const uint32_t *cells, size_t n)
{
    for (size_t i = 0; i < n; i++)
        if (place_of(l, cells[i]) < 0)
            return false;
    return n == size && is_listed(cells, n, l->edition);
}

/* Whether one term of the list stands before another. */
static bool is_before(const struct listing *l, size_t size, const uint32_t *a, const uint32_t *b)
{
    for (size_t i = 0; i < size; i++)
        if (a[i] != b[i])
            return place_of(l, a[i]) < place_of(l, b[i]);
    return false;
}

/* ---- Second opinion: the whole list, from all strings ---- */

struct list {
    size_t count, room;
    uint32_t (*terms)[MOST_SIZE];
};

static void *must_have(void *memory)
{
    if (memory == NULL) {
        fprintf(stderr, "listing_test: no memory\n");
        exit(2);
    }
    return memory;
}

static void append(struct list *list, const uint32_t *cells, size_t size)
{
    if (list->count == list->room) {
        list->room = list->room == 0 ? 64 : 2 * list->room;
        list->terms = must_have(realloc(list->terms, list->room * sizeof list->terms[0]));
    }
    memcpy(list->terms[list->count++], cells, size * sizeof cells[0]);
}

/* A string of `size` cells over the symbols and as many variables. */
struct string {
    size_t size, letters_count, digits[MOST_SIZE];
    uint32_t letters[MOST_SYMBOLS + MOST_SIZE], cells[MOST_SIZE];
};

static struct string first_string(const struct listing *l, size_t size)
{
    struct string s = {size, l->count + size, {0}, {0}, {0}};
    for (size_t i = 0; i < s.letters_count; i++)
        s.letters[i] = i < l->count ? l->symbols[i] : VAR((uint32_t)(i - l->count));
    for (size_t i = 0; i < size; i++)
        s.cells[i] = s.letters[0];
    return s;
}

/* Makes it the next string in order; false after the last. */
static bool next_string(struct string *s)
{
    for (size_t at = s->size; at-- != 0;) {
        bool over = ++s->digits[at] == s->letters_count;
        if (over)
            s->digits[at] = 0;
        s->cells[at] = s->letters[s->digits[at]];
        if (!over)
            return true;
    }
    return false;
}

/* All strings in order; those listed stay. */
static struct list list_from_strings(const struct listing *l, size_t size)
{
    struct list list = {0, 0, NULL};
    struct string s = first_string(l, size);
    do {
        if (is_listed(s.cells, size, l->edition))
            append(&list, s.cells, size);
    } while (next_string(&s));
    return list;
}

/* ---- Second opinion: the terms counted ---- */

/* In how many ways so many cells can be the terms due, with so many variables met before. */
struct ways {
    uint64_t of[MOST_SIZE + 1][MOST_SIZE + 1][MOST_SIZE + 1]; /* cells left, terms due, variables */
};

static uint64_t ways_of(const struct ways *w, size_t left, size_t due, size_t known)
{
    return due > left ? 0 : w->of[left][due][known];
}

static void count_ways(const struct listing *l, struct ways *w)
{
    memset(w, 0, sizeof *w);
    for (size_t known = 0; known <= MOST_SIZE; known++)
        w->of[0][0][known] = 1;
    for (size_t left = 1; left <= MOST_SIZE; left++)
        for (size_t due = 1; due <= left; due++)
            for (size_t known = 0; known + left <= MOST_SIZE; known++) {
                uint64_t sum = known * ways_of(w, left - 1, due - 1, known);
                sum += ways_of(w, left - 1, due - 1, known + 1);
                for (size_t i = 0; i < l->count; i++)
                    sum += ways_of(w, left - 1, due - 1 + arity_of(l->symbols[i], l->edition), known);
                w->of[left][due][known] = sum;
            }
}

/* A term written cell by cell. */
struct pen {
    const struct listing *l;
    const struct ways *w;
    size_t left, due, known;
    bool first;
};

static uint32_t letter(const struct pen *p, size_t place)
{
    return place < p->l->count ? p->l->symbols[place] : VAR((uint32_t)(place - p->l->count));
}

static void put(struct pen *p, size_t place)
{
    p->due += arity_of(letter(p, place), p->l->edition);
    p->due -= 1;
    p->known += place == p->l->count + p->known;
    p->left -= 1;
    p->first = false;
}

/* How many terms of the list go on with this letter from here. */
static uint64_t ways_with(const struct pen *p, size_t place)
{
    if (p->first && !may_begin(letter(p, place)))
        return 0;
    struct pen next = *p;
    put(&next, place);
    return ways_of(p->w, next.left, next.due, next.known);
}

static struct pen pen_for(const struct listing *l, const struct ways *w, size_t size)
{
    return (struct pen){l, w, size, 1, 0, true};
}

static uint64_t terms_of(const struct listing *l, const struct ways *w, size_t size)
{
    struct pen p = pen_for(l, w, size);
    uint64_t sum = 0;
    for (size_t i = 0; i < l->count; i++)
        sum += ways_with(&p, i);
    return sum;
}

/* The term of the list that has so many before it; there must be one. */
static void term_at(const struct listing *l, const struct ways *w, size_t size, uint64_t index, uint32_t *cells)
{
    struct pen p = pen_for(l, w, size);
    for (size_t at = 0; at < size; at++) {
        size_t place = 0;
        for (; index >= ways_with(&p, place); place++)
            index -= ways_with(&p, place);
        cells[at] = letter(&p, place);
        put(&p, place);
    }
}

/* How many terms of the list stand before this one of it. */
static uint64_t index_of(const struct listing *l, const struct ways *w, size_t size, const uint32_t *cells)
{
    struct pen p = pen_for(l, w, size);
    uint64_t index = 0;
    for (size_t at = 0; at < size; at++) {
        size_t place = (size_t)place_of(l, cells[at]);
        for (size_t i = 0; i < place; i++)
            index += ways_with(&p, i);
        put(&p, place);
    }
    return index;
}

/* ---- Lending ---- */

enum layout { BEHIND, BEFORE, NOTHING };

static const char *const layout_names[] = {"guard behind", "guard before", "NULL for no cells"};

static size_t page_cells;
static uint32_t *symbols_page, *term_page, *out_page;

/* A page with one before it and one after it that cannot be touched. */
static uint32_t *guarded_page(void)
{
    size_t bytes = page_cells * sizeof(uint32_t);
    char *three = mmap(NULL, 3 * bytes, PROT_NONE, MAP_PRIVATE | MAP_ANONYMOUS, -1, 0);
    if (three == MAP_FAILED || mprotect(three + bytes, bytes, PROT_READ | PROT_WRITE) != 0) {
        fprintf(stderr, "listing_test: no guarded page\n");
        exit(2);
    }
    return (uint32_t *)(void *)(three + bytes);
}

static void open_pages(void)
{
    page_cells = (size_t)sysconf(_SC_PAGESIZE) / sizeof(uint32_t);
    symbols_page = guarded_page();
    term_page = guarded_page();
    out_page = guarded_page();
}

static uint32_t *lend(uint32_t *page, const uint32_t *cells, size_t n, enum layout layout)
{
    if (n == 0 && layout == NOTHING)
        return NULL;
    uint32_t *place = layout == BEFORE ? page : page + page_cells - n;
    if (n != 0 && cells != NULL)
        memcpy(place, cells, n * sizeof cells[0]);
    return place;
}

/* ---- Questions and replies ---- */

struct question {
    const char *about;
    uint32_t edition;
    const uint32_t *symbols;
    size_t symbols_cells, size;
    bool after;
    const uint32_t *term;
    size_t term_cells, out_cells;
};

struct reply {
    uint64_t word;
    uint32_t out[WINDOW];
    bool lent_kept; /* symbols and term are as they were */
    bool kept;      /* every cell of out and around it is as it was */
    bool rest_kept; /* the same, the first `size` cells of out apart */
};

static const struct question *asked; /* what is being asked, for when the call dies */
static enum layout asked_in;
static uint64_t checks, failures;

static bool same(const uint32_t *a, const uint32_t *b, size_t n)
{
    return n == 0 || memcmp(a, b, n * sizeof a[0]) == 0;
}

static struct reply ask(const struct question *q, enum layout layout)
{
    uint32_t *symbols = lend(symbols_page, q->symbols, q->symbols_cells, layout);
    uint32_t *term = lend(term_page, q->term, q->term_cells, layout);
    uint32_t *out = lend(out_page, NULL, q->out_cells, layout);
    uint32_t *window = layout == BEFORE ? out_page : out_page + page_cells - WINDOW;
    uint32_t old[WINDOW], base = (uint32_t)random_number();
    struct reply r = {0, {0}, true, true, true};
    for (uint32_t i = 0; i < WINDOW; i++)
        window[i] = old[i] = base + i * UINT32_C(0x9e3779b9);
    asked = q;
    asked_in = layout;
    r.word = q->after ? tables_term_after(symbols, q->symbols_cells, q->size, term, q->term_cells, out,
                                          q->out_cells, q->edition)
                      : tables_first_term(symbols, q->symbols_cells, q->size, out, q->out_cells, q->edition);
    asked = NULL;
    size_t written = q->size < q->out_cells ? q->size : q->out_cells;
    size_t start = layout == BEFORE ? 0 : WINDOW - q->out_cells;
    r.lent_kept = same(symbols, q->symbols, q->symbols_cells) && same(term, q->term, q->term_cells);
    r.kept = same(window, old, WINDOW);
    memcpy(r.out, window + start, q->out_cells * sizeof r.out[0]);
    memcpy(window + start, old + start, written * sizeof old[0]);
    r.rest_kept = same(window, old, WINDOW);
    return r;
}

static void print_cells(const char *name, const uint32_t *cells, size_t n)
{
    fprintf(stderr, "    %s (%zu):", name, n);
    for (size_t i = 0; i < n && cells != NULL; i++)
        fprintf(stderr, " %08" PRIx32, cells[i]);
    fprintf(stderr, "\n");
}

static void print_question(const struct question *q, enum layout layout)
{
    fprintf(stderr, "    %s, edition %" PRIu32 ", size %zu, out of %zu cells, %s\n",
            q->after ? "tables_term_after" : "tables_first_term", q->edition, q->size, q->out_cells,
            layout_names[layout]);
    print_cells("symbols", q->symbols, q->symbols_cells);
    if (q->after)
        print_cells("term", q->term, q->term_cells);
}

/* Counts a check; true where its failure is to be printed, after a line that says so. */
static bool failed(bool good, const char *about)
{
    checks++;
    if (good || failures++ >= MOST_PRINTED)
        return false;
    fprintf(stderr, "failed: %s\n", about);
    return true;
}

static void died(int number)
{
    fprintf(stderr, "died by signal %d: %s\n", number, asked == NULL ? "no question asked" : asked->about);
    if (asked != NULL)
        print_question(asked, asked_in);
    printf("listing_test: died after %" PRIu64 " checks, %" PRIu64 " failures\n", checks, failures + 1);
    fflush(stdout);
    _Exit(1);
}

static uint64_t word_of(uint32_t what, uint32_t value)
{
    return (uint64_t)what << 32 | value;
}

static uint64_t refusal(uint32_t number)
{
    return word_of(TABLES_CALL_REFUSED + number, 0);
}

static uint64_t need(size_t size)
{
    return word_of(TABLES_CALL_REFUSED + TABLES_REFUSED_OUT, (uint32_t)size);
}

static void check_in(const struct question *q, uint64_t word, const uint32_t *cells, enum layout layout)
{
    struct reply r = ask(q, layout);
    bool written = tables_what(word) == TABLES_CELLS;
    bool kept = written ? r.rest_kept : r.kept;
    bool good = r.word == word && r.lent_kept && kept && (!written || same(r.out, cells, q->size));
    if (!failed(good, q->about))
        return;
    print_question(q, layout);
    fprintf(stderr, "    word %016" PRIx64 ", should be %016" PRIx64 "%s%s\n", r.word, word,
            r.lent_kept ? "" : "; symbols or term changed", kept ? "" : "; a cell changed that should stay");
    print_cells("out", r.out, q->out_cells);
    if (written)
        print_cells("should be", cells, q->size);
}

/* Asks in every layout: the word, and these cells where it says that cells were written. */
static void check(const struct question *q, uint64_t word, const uint32_t *cells)
{
    check_in(q, word, cells, BEHIND);
    check_in(q, word, cells, BEFORE);
    if (q->symbols_cells == 0 || q->out_cells == 0 || (q->after && q->term_cells == 0))
        check_in(q, word, cells, NOTHING);
}

static struct question first_of(const char *about, const struct listing *l, size_t size, size_t out_cells)
{
    return (struct question){about, l->edition, l->symbols, l->count, size, false, NULL, 0, out_cells};
}

static struct question after_of(const char *about, const struct listing *l, size_t size, const uint32_t *term,
                                size_t term_cells, size_t out_cells)
{
    return (struct question){about, l->edition, l->symbols, l->count, size, true, term, term_cells, out_cells};
}

/* ---- Whole lists ---- */

/* Asks for the term that is due, or the end where it is NULL, with every out too short for it. */
static void check_short(struct question q, const uint32_t *due)
{
    q.about = due == NULL ? "the end needs no out" : "out too short";
    for (q.out_cells = 0; q.out_cells < q.size; q.out_cells++)
        check(&q, due == NULL ? word_of(TABLES_END, 0) : need(q.size), NULL);
}

static void check_due(struct question q, const uint32_t *due, bool short_too)
{
    check(&q, due == NULL ? word_of(TABLES_END, 0) : word_of(TABLES_CELLS, (uint32_t)q.size), due);
    if (short_too)
        check_short(q, due);
}

/* From the first term to the end; the counted list must be the same. */
static void check_list(const struct listing *l, size_t size, const struct list *list)
{
    struct ways w;
    uint32_t cells[MOST_SIZE];
    count_ways(l, &w);
    struct question q = first_of("the list's first", l, size, size + 2);
    if (failed(terms_of(l, &w, size) == list->count, "the two second opinions count alike"))
        print_question(&q, BEHIND);
    check_due(q, list->count == 0 ? NULL : list->terms[0], true);
    for (size_t i = 0; i < list->count; i++) {
        bool last = i + 1 == list->count;
        q = after_of("the term after", l, size, list->terms[i], size, size + i % 3);
        check_due(q, last ? NULL : list->terms[i + 1], last || i % 61 == 0);
        term_at(l, &w, size, i, cells);
        if (failed(same(cells, list->terms[i], size) && index_of(l, &w, size, cells) == i, "counted term"))
            print_question(&q, BEHIND);
    }
    for (size_t i = 0; i < 16 && list->count != 0; i++) {
        size_t j = below(list->count);
        q = after_of("the term after a random one", l, size, list->terms[j], size, size + below(9));
        check_due(q, j + 1 == list->count ? NULL : list->terms[j + 1], i == 0);
    }
}

static void check_whole(const struct listing *l, size_t least, size_t most)
{
    for (size_t size = least; size <= most; size++) {
        struct list list = list_from_strings(l, size);
        check_list(l, size, &list);
        free(list.terms);
    }
}

/* ---- Any term given, in the list or not ---- */

/* What must come after a term given, whatever it is, by the filter and the count. */
static void check_given(const struct listing *l, const struct ways *w, size_t size, const uint32_t *term,
                        size_t term_cells)
{
    struct question q = after_of("a term that is not in the list", l, size, term, term_cells, size);
    uint32_t due[MOST_SIZE];
    if (!is_member(l, size, term, term_cells)) {
        check(&q, refusal(TABLES_REFUSED_LISTED), NULL);
        q.about = "24 before 12";
        q.out_cells = below(size);
        check(&q, refusal(TABLES_REFUSED_LISTED), NULL);
        return;
    }
    uint64_t next = index_of(l, w, size, term) + 1;
    bool last = next == terms_of(l, w, size);
    if (!last)
        term_at(l, w, size, next, due);
    q.about = "the term after one of the list";
    check_due(q, last ? NULL : due, below(8) == 0);
}

static uint32_t random_letter(const struct listing *l)
{
    size_t place = below(l->count + 4);
    return place < l->count ? l->symbols[place] : VAR((uint32_t)(place - l->count));
}

/* Bends a term of at most 10 cells in one way; returns its cells. */
static size_t bend(const struct listing *l, uint32_t *cells, size_t n)
{
    size_t at = below(n), other = below(n);
    uint32_t cell = cells[at];
    switch (below(9)) {
    case 0:
        cells[at] = random_letter(l);
        return n;
    case 1:
        cells[at] = (uint32_t)random_number();
        return n;
    case 2:
        cells[at] = cell + 1;
        return n;
    case 3:
        cells[at] = cell - 1;
        return n;
    case 4:
        cells[at] = cells[other];
        cells[other] = cell;
        return n;
    case 5:
        cells[at] = cell % (LAST_PAYLOAD + 1) + (uint32_t)below(16) * (LAST_PAYLOAD + 1);
        return n;
    case 6:
        cells[at] = cell + functor_base(l->edition);
        return n;
    case 7:
        memmove(cells + at, cells + at + 1, (n - at - 1) * sizeof cells[0]);
        return n - 1;
    default:
        memmove(cells + at + 1, cells + at, (n - at) * sizeof cells[0]);
        cells[at] = random_letter(l);
        return n + 1;
    }
}

/* Terms of the list, terms of its neighbours in size, and both bent. */
static void check_any(const struct listing *l, size_t size, size_t rounds)
{
    struct ways w;
    count_ways(l, &w);
    for (size_t i = 0; i < rounds; i++) {
        uint32_t cells[MOST_SIZE + 4];
        size_t n = i % 8 != 0 ? size : size == MOST_SIZE || (size > 1 && below(2)) ? size - 1 : size + 1;
        uint64_t total = terms_of(l, &w, n);
        if (total != 0)
            term_at(l, &w, n, below(8) == 0 ? total - 1 : below(total), cells);
        for (size_t j = 0; j < n && total == 0; j++)
            cells[j] = random_letter(l);
        for (size_t bends = below(4); bends > 1 && n > 0; bends--)
            n = bend(l, cells, n);
        check_given(l, &w, size, cells, n);
    }
}

/* Every string over the symbols and variables as the term given. */
static void check_strings(const struct listing *l, size_t size)
{
    struct ways w;
    struct string s = first_string(l, size);
    count_ways(l, &w);
    do
        check_given(l, &w, size, s.cells, size);
    while (next_string(&s));
}

/* ---- Walks ---- */

/* Goes on from a term at most so many steps; each reply is judged by itself. Returns the steps. */
static uint64_t walk_on(const struct listing *l, size_t size, uint32_t *term, uint64_t most, bool *ended)
{
    for (uint64_t step = 0; step < most; step++) {
        struct question q = after_of("a walk", l, size, term, size, size + step % 2);
        struct reply r = ask(&q, step % 3 == 0 ? BEFORE : BEHIND);
        *ended = r.word == word_of(TABLES_END, 0);
        bool good = r.lent_kept && (*ended ? r.kept : r.rest_kept);
        if (!*ended)
            good = good && r.word == word_of(TABLES_CELLS, (uint32_t)size) && is_member(l, size, r.out, size) &&
                   is_before(l, size, term, r.out);
        if (failed(good, "a walk: later in order, and a term of the list")) {
            print_question(&q, step % 3 == 0 ? BEFORE : BEHIND);
            print_cells("out", r.out, q.out_cells);
        }
        if (*ended || !good)
            return step;
        memcpy(term, r.out, size * sizeof term[0]);
    }
    return most;
}

/* Walks the list from its first term, whole where it is short enough, else a part; then parts of it. */
static void check_walk(const struct listing *l, size_t size, uint64_t most)
{
    struct ways w;
    uint32_t term[MOST_SIZE];
    bool ended = false;
    count_ways(l, &w);
    uint64_t total = terms_of(l, &w, size);
    if (total != 0)
        term_at(l, &w, size, 0, term);
    struct question q = first_of("a walk's first", l, size, size);
    check_due(q, total == 0 ? NULL : term, true);
    if (total == 0)
        return;
    uint64_t steps = walk_on(l, size, term, most, &ended);
    bool good = ended ? steps + 1 == total : steps == most && steps < total;
    if (failed(good, "a walk: as many terms as counted")) {
        print_question(&q, BEHIND);
        fprintf(stderr, "    %" PRIu64 " walked, %" PRIu64 " counted, %s\n", steps + 1, total, ended ? "ended" : "cut");
    }
    for (int i = 0; i < 4; i++) {
        uint64_t from = below(total), part = 50;
        term_at(l, &w, size, from, term);
        steps = walk_on(l, size, term, part, &ended);
        good = index_of(l, &w, size, term) == from + steps && (steps == part || from + steps + 1 == total);
        if (failed(good, "a part of a walk: as many terms as counted"))
            print_question(&q, BEHIND);
    }
}

/* ---- Symbol sets ---- */

static uint32_t random_payload(void)
{
    static const uint32_t some[] = {0, 1, 2, 3, 4, 5, 15, 16, 17, 255, 256, 65535, LAST_PAYLOAD - 1, LAST_PAYLOAD};
    return below(8) == 0 ? (uint32_t)below(LAST_PAYLOAD) : some[below(COUNT_OF(some))];
}

static uint32_t random_functor(uint32_t edition)
{
    uint32_t base = functor_base(edition), arity = 1 + (uint32_t)below(3);
    if (below(3) == 0)
        arity = 1 + (uint32_t)below(below(3) == 0 ? base - 1 : 7);
    return functor(edition, random_payload() % ((LAST_PAYLOAD + 1) / base), arity);
}

static uint32_t random_symbol(uint32_t edition)
{
    switch (below(8)) {
    case 0:
    case 1:
        return ATOM(random_payload());
    case 2:
        return INT(random_payload());
    case 3:
        return PAIR;
    default:
        return random_functor(edition);
    }
}

static struct listing random_listing(size_t count)
{
    struct listing l = {1 + (uint32_t)below(2), 0, {0}};
    while (l.count < count) {
        uint32_t cell = random_symbol(l.edition);
        if (place_of(&l, cell) < 0)
            l.symbols[l.count++] = cell;
    }
    return l;
}

/* Whole lists, and any terms given, of random sets; a set whose list is too long loses symbols. */
static void check_random_sets(size_t sets)
{
    for (size_t i = 0; i < sets; i++) {
        struct listing l = random_listing(i % 4 == 0 ? below(MOST_SYMBOLS + 1) : below(8));
        struct ways w;
        for (count_ways(&l, &w); terms_of(&l, &w, 5) > WHOLE_TERMS; count_ways(&l, &w))
            l.count--;
        check_whole(&l, 1, 5);
        for (size_t size = 1; size <= MOST_SIZE; size++)
            check_any(&l, size, 40);
    }
}

static void check_random_walks(size_t sets)
{
    for (size_t i = 0; i < sets; i++) {
        struct listing l = random_listing(i % 4 == 3 ? 4 + below(MOST_SYMBOLS - 3) : 1 + below(3));
        for (size_t size = 6; size <= MOST_SIZE; size++)
            check_walk(&l, size, i % 4 == 3 ? 500 : 40000);
    }
}

/* Adds a cell to a set. */
static void add(struct listing *l, uint32_t cell)
{
    l->symbols[l->count++] = cell;
}

/* Sixteen symbols of all kinds: 5 atoms, 4 integers, arities 1 to 6, the pair. */
static struct listing sixteen(uint32_t edition)
{
    struct listing l = {edition, 0, {0}};
    for (uint32_t i = 0; i < 6; i++) {
        add(&l, functor(edition, i * i, 6 - i));
        if (i < 5)
            add(&l, ATOM(4 - i));
        if (i < 4)
            add(&l, INT(i));
    }
    add(&l, PAIR);
    return l;
}

static struct listing only_atoms(uint32_t edition, size_t count)
{
    struct listing l = {edition, 0, {0}};
    for (uint32_t i = 0; i < count; i++)
        add(&l, ATOM(100 - i));
    return l;
}

/* Functors of one name and the arities from one to another. */
static struct listing arities(uint32_t edition, uint32_t least, uint32_t most)
{
    struct listing l = {edition, 0, {0}};
    for (uint32_t arity = least; arity <= most; arity++)
        add(&l, functor(edition, 3, arity));
    return l;
}

/* The chosen sets of an edition, by number; false where there are no more. */
static bool chosen(uint32_t e, int number, struct listing *l)
{
    const uint32_t most = functor_base(e) - 1;
    const struct listing some[] = {
        {e, 0, {0}},                                                              /* no symbols */
        {e, 3, {INT(0), PAIR, INT(LAST_PAYLOAD)}},                                /* nothing to begin with */
        {e, 4, {functor(e, 0, 8), functor(e, 1, 9), functor(e, 1, most), PAIR}},  /* arities too large */
        {e, 2, {functor(e, 7, 15), functor(e, 7, 8)}},
        {e, 4, {functor(e, 0, most), functor(e, 0, 2), functor(e, 0, 3), functor(e, 0, most - 1)}},
        {e, 3, {functor(e, 6, 1), functor(e, 6, 2), functor(e, 6, most)}},
        {e, 4, {PAIR, functor(e, 1, 1), INT(7), INT(0)}},                         /* the pair and integers */
        {e, 4, {INT(5), ATOM(0), PAIR, functor(e, 2, 2)}},                        /* [] */
        {e, 1, {ATOM(0)}},
        {e, 2, {ATOM(LAST_PAYLOAD), ATOM(0)}},
        {e, 1, {functor(e, 0, 1)}},
        {e, 1, {functor(e, 5, 2)}},
        {e, 2, {ATOM(1), functor(e, 1, 4)}},
        {e, 2, {functor(e, 1, 4), ATOM(1)}},
        {e, 3, {PAIR, ATOM(0), functor(e, 9, 3)}},
        {e, 3, {FUN(0x101), FUN(0x102), FUN(0x111)}},                             /* 0x111: arity 1 or 17 */
        {e, 4, {FUN(LAST_PAYLOAD), FUN(0x11), FUN(0x21), FUN(0x1)}},              /* arity 1 or above 16 */
    };
    int n = (int)COUNT_OF(some);
    if (number < n)
        *l = some[number];
    else if (number == n)
        *l = sixteen(e);
    else if (number == n + 1)
        *l = only_atoms(e, MOST_SYMBOLS);
    else if (number <= n + 8)
        *l = arities(e, (uint32_t)(number - n - 1), (uint32_t)(number - n - 1));
    else
        *l = arities(e, number == n + 9 ? 1 : 8, number == n + 9 ? 7 : 15);
    return number <= n + 10;
}

/* The list that the header gives in full. */
static void check_example(uint32_t e)
{
    const struct listing l = {e, 2, {functor(e, 1, 2), ATOM(1)}};
    const uint32_t f = l.symbols[0], a = l.symbols[1], x = VAR(0), y = VAR(1);
    uint32_t terms[5][MOST_SIZE] = {{f, a, a}, {f, a, x}, {f, x, a}, {f, x, x}, {f, x, y}};
    const struct list list = {5, 5, terms};
    check_list(&l, 3, &list);
}

static void check_chosen_sets(uint32_t edition)
{
    struct listing l;
    for (int i = 0; chosen(edition, i, &l); i++) {
        check_whole(&l, 1, 5);
        if (l.count <= 2)
            check_whole(&l, 6, 7);
        for (size_t size = 1; size <= (l.count <= 3 ? 4 : l.count <= 5 ? 3 : 2); size++)
            check_strings(&l, size);
        for (size_t size = 6; size <= MOST_SIZE; size++)
            check_walk(&l, size, l.count <= 3 ? 50000 : 1000);
        for (size_t size = 1; size <= MOST_SIZE; size++)
            check_any(&l, size, 200);
    }
    l = (struct listing){edition, 1, {functor(edition, 1, 3)}};
    check_whole(&l, 8, 8);
    check_example(edition);
}

/* ---- Terms that are not in the list, one by one ---- */

/* f/2, a, g/1, 7 and the pair, at size 3. */
static void check_strangers(uint32_t e)
{
    const uint32_t f = functor(e, 1, 2), g = functor(e, 2, 1), a = ATOM(1), x = VAR(0), y = VAR(1), z = VAR(2);
    const struct listing l = {e, 5, {f, a, g, INT(7), PAIR}};
    const struct {
        size_t n;
        uint32_t cells[5];
    } strangers[] = {
        {0, {0}}, {1, {a}}, {1, {f}}, {2, {f, a}}, {2, {g, a}}, {2, {g, x}}, {4, {f, a, a, a}},   /* another length */
        {4, {f, g, a, a}}, {4, {g, f, a, x}}, {5, {f, f, a, a, x}},
        {3, {f, y, a}}, {3, {f, a, y}}, {3, {f, y, x}}, {3, {f, y, y}}, {3, {f, x, z}}, {3, {g, g, y}}, /* variables */
        {3, {f, x, VAR(LAST_PAYLOAD)}}, {3, {f, VAR(7), VAR(9)}},
        {3, {f, ATOM(2), a}}, {3, {f, a, ATOM(0)}}, {3, {functor(e, 2, 2), a, a}}, {3, {g, functor(e, 1, 1), a}}, /* symbols */
        {3, {f, INT(8), a}}, {3, {f, a, INT(1)}}, {3, {functor(e, 1 + (e == 1 ? 16 : 1), 2), a, a}},
        {3, {INT(7), a, a}}, {3, {PAIR, a, a}}, {3, {PAIR, x, y}}, {3, {x, a, a}}, {3, {x, y, z}}, /* the beginning */
        {3, {f, a, g}}, {3, {f, g, a}}, {3, {f, f, a}}, {3, {g, f, a}}, {3, {g, PAIR, x}}, {3, {f, PAIR, a}}, /* missing */
        {3, {g, a, a}}, {3, {a, a, a}}, {3, {a, x, y}}, {3, {g, a, g}}, {3, {g, x, x}}, {3, {a, g, a}}, /* left over */
        {3, {f, PAIR + 1, a}}, {3, {f, a, PAIR + 1}}, {3, {FUN(0), a, a}}, {3, {f, FUN(0x200), a}}, {3, {f, a, FUN(0)}},
    };
    for (size_t out_cells = 0; out_cells <= 4; out_cells++) {
        for (size_t i = 0; i < COUNT_OF(strangers); i++) {
            struct question q = after_of("a stranger to the list", &l, 3, strangers[i].cells, strangers[i].n, out_cells);
            check(&q, refusal(TABLES_REFUSED_LISTED), NULL);
        }
        for (uint32_t kind = 0; kind < 16; kind = kind == 0 ? 6 : kind + 1)
            for (size_t at = 0; at < 3; at++) {
                uint32_t cells[3] = {f, a, x};
                cells[at] = kind * (LAST_PAYLOAD + 1);
                struct question q = after_of("a cell of no kind", &l, 3, cells, 3, out_cells);
                check(&q, refusal(TABLES_REFUSED_LISTED), NULL);
            }
    }
}

/* A term of the list with cells after it, as many as a count of 8 bits would lose among others. */
static void check_lengths(uint32_t e)
{
    static const size_t more[] = {1, 2, 3, 8, 128, 255, 256, 257, 512, 768};
    const struct listing l = {e, 2, {functor(e, 1, 1), ATOM(1)}};
    for (size_t size = 1; size <= MOST_SIZE; size++)
        for (size_t i = 0; i < COUNT_OF(more); i++) {
            uint32_t cells[MOST_SIZE + 768] = {0};
            for (size_t j = 0; j < size; j++)
                cells[j] = l.symbols[j + 1 == size];
            struct question q = after_of("cells after a term of the list", &l, size, cells, size + more[i], size);
            check(&q, refusal(TABLES_REFUSED_LISTED), NULL);
            q.out_cells = 0;
            check(&q, refusal(TABLES_REFUSED_LISTED), NULL);
        }
}

/* Nothing is in a list that is empty; and at size 1 only the atoms given are. */
static void check_lone_cells(uint32_t e)
{
    const struct listing none = {e, 0, {0}}, some = {e, 4, {ATOM(3), INT(4), PAIR, functor(e, 1, 1)}};
    const uint32_t cells[] = {ATOM(0), ATOM(4), INT(4), PAIR, VAR(0), VAR(1), functor(e, 1, 1), 0, UINT32_MAX};
    for (size_t i = 0; i < COUNT_OF(cells); i++)
        for (size_t n = 0; n <= 1; n++)
            for (size_t out_cells = 0; out_cells <= 1; out_cells++) {
                struct question q = after_of("one cell", &some, 1, &cells[i], n, out_cells);
                check(&q, refusal(TABLES_REFUSED_LISTED), NULL);
                q = after_of("a term given without symbols", &none, 1, &cells[i], n, out_cells);
                check(&q, refusal(TABLES_REFUSED_LISTED), NULL);
                q.size = 8;
                check(&q, refusal(TABLES_REFUSED_LISTED), NULL);
            }
}

/* ---- Refusal 23 ---- */

/* There is no such list: asked for its first term and after several terms, with and without out. */
static void check_no_list(const char *about, uint32_t edition, const uint32_t *symbols, size_t n, size_t size)
{
    const uint32_t atom = ATOM(4), junk[9] = {0, UINT32_MAX, PAIR, VAR(5), INT(1), 0, 1, 2, 3};
    struct question q = {about, edition, symbols, n, size, false, NULL, 0, 0};
    for (int i = 0; i < 3; i++) {
        q.out_cells = i == 0 ? 0 : i == 1 ? 8 : 9;
        q.after = false;
        q.term_cells = 0;
        check(&q, refusal(TABLES_REFUSED_LISTING), NULL);
        q.after = true;
        check(&q, refusal(TABLES_REFUSED_LISTING), NULL);
        q.term = &atom;
        q.term_cells = 1;
        check(&q, refusal(TABLES_REFUSED_LISTING), NULL);
        q.term = junk;
        q.term_cells = size <= 9 ? size : 9;
        check(&q, refusal(TABLES_REFUSED_LISTING), NULL);
    }
}

static void check_editions(void)
{
    static const uint32_t editions[] = {0, 3, 4, 5, 255, 256, 257, 258, 65537, 65538, UINT32_C(0x80000001),
                                        UINT32_C(0x80000002), UINT32_MAX - 1, UINT32_MAX};
    struct listing l = sixteen(2);
    for (size_t i = 0; i < COUNT_OF(editions); i++)
        for (size_t size = 0; size <= 9; size++) {
            check_no_list("an unknown edition", editions[i], l.symbols, l.count, size);
            check_no_list("an unknown edition", editions[i], l.symbols + 1, 1, size);
            check_no_list("an unknown edition, no symbols", editions[i], NULL, 0, size);
        }
}

static void check_sizes(uint32_t edition)
{
    static const size_t sizes[] = {0, 9, 10, 15, 16, 17, 255, 256, 257, 264, 65536, 65537, 65544, SIZE_MAX / 2,
                                   SIZE_MAX / 2 + 1, SIZE_MAX / 2 + 2, SIZE_MAX - 1, SIZE_MAX,
#if SIZE_MAX > UINT32_MAX
                                   (size_t)1 << 32, ((size_t)1 << 32) + 1, ((size_t)1 << 32) + 8,
#endif
                                   (size_t)UINT32_MAX, (size_t)UINT32_MAX - 7};
    struct listing l = sixteen(edition);
    for (size_t i = 0; i < COUNT_OF(sizes); i++) {
        check_no_list("a size out of range", edition, l.symbols, l.count, sizes[i]);
        check_no_list("a size out of range", edition, l.symbols + 1, 1, sizes[i]);
        check_no_list("a size out of range, no symbols", edition, NULL, 0, sizes[i]);
    }
}

static void check_too_many(uint32_t edition)
{
    static const size_t counts[] = {17, 18, 19, 31, 32, 33, 48, 64, 255, 256, 257, 272, 512};
    uint32_t symbols[512];
    for (uint32_t i = 0; i < COUNT_OF(symbols); i++)
        symbols[i] = i % 3 == 0 ? ATOM(i) : i % 3 == 1 ? INT(i) : functor(edition, i, 1 + i % 7);
    for (size_t i = 0; i < COUNT_OF(counts); i++)
        for (size_t size = 1; size <= MOST_SIZE; size++)
            check_no_list("too many symbols", edition, symbols, counts[i], size);
}

/* Every symbol given again in every later place, among 2 to 16 symbols. */
static void check_repeated(uint32_t edition)
{
    const struct listing l = sixteen(edition);
    for (size_t n = 2; n <= MOST_SYMBOLS; n++)
        for (size_t i = 0; i < n; i++)
            for (size_t j = i + 1; j < n; j++) {
                struct listing bad = l;
                bad.symbols[j] = bad.symbols[i];
                check_no_list("a symbol repeated", edition, bad.symbols, n, 1 + (i + j) % MOST_SIZE);
            }
}

/* A cell that may be no symbol, in every place of 1, 2, 7 and 16 symbols. */
static void check_bad_symbol(const char *about, uint32_t edition, uint32_t cell)
{
    static const size_t counts[] = {1, 2, 7, 16};
    for (size_t c = 0; c < COUNT_OF(counts); c++)
        for (size_t at = 0; at < counts[c]; at++) {
            struct listing bad = sixteen(edition);
            bad.symbols[at] = cell;
            check_no_list(about, edition, bad.symbols, counts[c], 1 + (at + cell) % MOST_SIZE);
        }
}

static void check_bad_symbols(uint32_t edition)
{
    static const uint32_t payloads[] = {0, 1, 18, LAST_PAYLOAD};
    uint32_t base = functor_base(edition), most = (LAST_PAYLOAD + 1) / base - 1;
    for (uint32_t kind = 0; kind < 16; kind = kind == 1 ? 6 : kind + 1)
        for (size_t i = 0; i < COUNT_OF(payloads); i++)
            check_bad_symbol("a symbol of another kind", edition, kind * (LAST_PAYLOAD + 1) + payloads[i]);
    for (uint32_t name = 0; name <= 4; name++)
        check_bad_symbol("a functor of arity 0", edition, FUN((name == 4 ? most : name) * base));
    check_bad_symbol("a functor of arity 0", edition, FUN(16 * base));
    check_bad_symbol("a pair with a payload", edition, PAIR + 1);
    check_bad_symbol("a pair with a payload", edition, PAIR + 2);
    check_bad_symbol("a pair with a payload", edition, PAIR + 256);
    check_bad_symbol("a pair with a payload", edition, PAIR + LAST_PAYLOAD);
}

/* What is of arity 0 in one edition and of arity 16 or more in the other. */
static void check_between_editions(void)
{
    const struct listing l = {2, 3, {FUN(0x10), FUN(0x110), ATOM(4)}};
    for (size_t size = 1; size <= MOST_SIZE; size++) {
        const uint32_t atom = ATOM(4);
        check_no_list("a functor of arity 0 in edition 1", 1, l.symbols, l.count, size);
        check_due(first_of("legal in edition 2", &l, size, size), size == 1 ? &atom : NULL, true);
    }
}

static void check_refusals(void)
{
    check_editions();
    check_between_editions();
    for (uint32_t edition = 1; edition <= 2; edition++) {
        check_sizes(edition);
        check_too_many(edition);
        check_repeated(edition);
        check_bad_symbols(edition);
        check_strangers(edition);
        check_lengths(edition);
        check_lone_cells(edition);
    }
}

/* ---- Terms entered into a table ---- */

struct table {
    uint32_t *space;
    size_t cells;
    uint32_t entered;
};

/* Walks a list as the header shows it; each term is entered, as new or as old with its number. */
static void enter_list(struct table *t, const struct listing *l, size_t size, bool again)
{
    uint32_t term[2][TABLES_LISTED_CELLS];
    struct question q = first_of("each term entered is new, and old again", l, size, size);
    asked = &q;
    asked_in = BEHIND;
    uint64_t word = tables_first_term(l->symbols, l->count, size, term[0], size, l->edition);
    for (int i = 0; tables_what(word) == TABLES_CELLS; i = !i) {
        uint64_t due = word_of(again ? TABLES_OLD_OPEN : TABLES_NEW, ++t->entered);
        uint64_t got = tables_call(t->space, t->cells, term[i], size);
        q = after_of(q.about, l, size, term[i], size, size);
        if (failed(got == due, q.about)) {
            print_question(&q, BEHIND);
            fprintf(stderr, "    tables_call %016" PRIx64 ", should be %016" PRIx64 "\n", got, due);
        }
        if (got != due)
            break;
        word = tables_term_after(l->symbols, l->count, size, term[i], size, term[!i], size, l->edition);
    }
    asked = NULL;
}

/* The lists of sizes 1 to 8 in one table, as far as they have room. */
static void check_entered(const struct listing *l)
{
    struct ways w;
    uint64_t total = 0;
    size_t most = 0;
    count_ways(l, &w);
    while (most < MOST_SIZE && total + terms_of(l, &w, most + 1) <= ENTERED_TERMS)
        total += terms_of(l, &w, ++most);
    uint32_t nodes = 1 + (uint32_t)total * (1 + (3 * MOST_SIZE - 1) / 2), subgoals = (uint32_t)total;
    struct table t = {NULL, TABLES_SPACE_CELLS(nodes, subgoals, 0), 0};
    t.space = must_have(malloc(t.cells * sizeof t.space[0]));
    bool fresh = tables_fresh(t.space, t.cells, nodes, subgoals, 0, l->edition) == word_of(TABLES_DONE, 0);
    failed(fresh, "a fresh table");
    for (int again = 0; again <= 1 && fresh; again++) {
        t.entered = 0;
        for (size_t size = 1; size <= most; size++)
            enter_list(&t, l, size, again == 1);
        if (failed(t.entered == total, "as many subgoals as terms counted"))
            print_cells("symbols", l->symbols, l->count);
    }
    free(t.space);
}

static void check_tables(void)
{
    struct listing l;
    for (uint32_t edition = 1; edition <= 2; edition++)
        for (int i = 0; chosen(edition, i, &l); i++)
            check_entered(&l);
    for (int i = 0; i < 12; i++) {
        l = random_listing(1 + below(10));
        check_entered(&l);
    }
}

int main(int argc, char **argv)
{
    uint64_t seed = argc > 1 ? strtoull(argv[1], NULL, 10) : 1;
    random_state = seed;
    signal(SIGSEGV, died);
    signal(SIGBUS, died);
    open_pages();
    check_refusals();
    for (uint32_t edition = 1; edition <= 2; edition++)
        check_chosen_sets(edition);
    check_random_sets(120);
    check_random_walks(60);
    check_tables();
    printf("listing_test: seed %" PRIu64 ", %" PRIu64 " checks, %" PRIu64 " failures\n", seed, checks, failures);
    return failures == 0 ? 0 : 1;
}
