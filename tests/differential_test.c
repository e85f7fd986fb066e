/* Compares the exported converters with the reference on random, damaged and all short inputs in both editions. */
#define _DEFAULT_SOURCE

#include "../include/tables.h"
#include "editions.h"
#include "reference.h"

#include <inttypes.h>
#include <signal.h>
#include <stdbool.h>
#include <stdio.h>
#include <stdlib.h>
#include <string.h>
#include <sys/mman.h>
#include <unistd.h>

enum { CELL_BYTES = 4, MOST_CELLS = 1200, LONGEST_TERM = 600, ARENA_PAGES = 2, MOST_FAILURES = 10 };

#define NIL TABLES_EMPTY_LIST
#define PAIR TABLES_PAIR_CELL
#define BLIST TABLES_CELL(TABLES_BLIST, 0)
#define ELIST TABLES_CELL(TABLES_ELIST, 0)
#define EPAIR TABLES_CELL(TABLES_EPAIR, 0)
#define VARIABLE(name) tables_cell(TABLES_VARIABLE, name)

typedef uint32_t converter(const uint8_t *, size_t, uint8_t *, size_t, uint32_t);

struct cells {
    size_t count;
    uint32_t cell[MOST_CELLS];
};

static void append(struct cells *cells, uint32_t cell)
{
    if (cells->count < MOST_CELLS)
        cells->cell[cells->count++] = cell;
}

static void to_bytes(uint8_t *bytes, const struct cells *cells)
{
    for (size_t i = 0; i < cells->count; i++)
        for (int j = 0; j < CELL_BYTES; j++)
            *bytes++ = (uint8_t)(cells->cell[i] >> 8 * j);
}

/* Random numbers (splitmix64) */

static uint64_t random_state;

static uint64_t random_word(void)
{
    uint64_t word = random_state += UINT64_C(0x9e3779b97f4a7c15);
    word = (word ^ word >> 30) * UINT64_C(0xbf58476d1ce4e5b9);
    word = (word ^ word >> 27) * UINT64_C(0x94d049bb133111eb);
    return word ^ word >> 31;
}

static size_t below(size_t bound)
{
    return (size_t)(random_word() % bound);
}

static bool chance(unsigned percent)
{
    return below(100) < percent;
}

/* What happened how often */

enum outcome {
    COMPACT_EDITION, EXPAND_EDITION, EDITION_AND_BYTE_COUNT,
    COMPACT_ACCEPTED, COMPACT_BYTE_COUNT, COMPACT_TERM, COMPACT_LENGTH, COMPACT_VARIABLES, COMPACT_OUT,
    EXPAND_ACCEPTED, EXPAND_BYTE_COUNT, EXPAND_FORM, EXPAND_OUT,
    TERM_256, TERM_257, VARIABLES_32, VARIABLES_33, FORM_383, FORM_384, EXPANSION_256, EXPANSION_257,
    ACCEPTED_IN_1, ACCEPTED_IN_2, ARITY_40, ARITY_255, OTHER_ARITY, LOW_BITS, IN_1_ALONE, IN_2_ALONE, IN_BOTH,
    EXPANDED_BACK, COMPACTED_BACK, IN_BEFORE_GUARD, IN_BEHIND_GUARD, OUT_BEFORE_GUARD, OUT_BEHIND_GUARD,
    OUTCOMES
};

/* Each outcome, and how many of 100,000 inputs must have it at least. */
static const struct {
    const char *name;
    unsigned least;
} outcomes[OUTCOMES] = {
    [COMPACT_EDITION] = {"compact refused by 1", 500},
    [EXPAND_EDITION] = {"expand refused by 1", 500},
    [EDITION_AND_BYTE_COUNT] = {"refused by 1 with an odd byte count", 50},
    [COMPACT_ACCEPTED] = {"compact accepted", 5000},
    [COMPACT_BYTE_COUNT] = {"compact refused by 3, byte count", 1000},
    [COMPACT_TERM] = {"compact refused by 3, term", 5000},
    [COMPACT_LENGTH] = {"compact refused by 4", 1000},
    [COMPACT_VARIABLES] = {"compact refused by 5", 500},
    [COMPACT_OUT] = {"compact refused by 12", 2000},
    [EXPAND_ACCEPTED] = {"expand accepted", 5000},
    [EXPAND_BYTE_COUNT] = {"expand refused by 3, byte count", 1000},
    [EXPAND_FORM] = {"expand refused by 13", 5000},
    [EXPAND_OUT] = {"expand refused by 12", 2000},
    [TERM_256] = {"term of 256 cells accepted", 50},
    [TERM_257] = {"term of 257 cells refused", 50},
    [VARIABLES_32] = {"term of 32 variables accepted", 50},
    [VARIABLES_33] = {"term of 33 variables refused", 50},
    [FORM_383] = {"form of 383 tokens accepted", 10},
    [FORM_384] = {"form of 384 tokens refused", 20},
    [EXPANSION_256] = {"expansion of 256 cells accepted", 50},
    [EXPANSION_257] = {"expansion of 257 cells refused", 50},
    [ACCEPTED_IN_1] = {"accepted in edition 1", 5000},
    [ACCEPTED_IN_2] = {"accepted in edition 2", 5000},
    [ARITY_40] = {"arity 40 accepted", 100},
    [ARITY_255] = {"arity 255 accepted", 50},
    [OTHER_ARITY] = {"another arity from 16 to 254 accepted", 500},
    [LOW_BITS] = {"such a payload accepted in edition 1", 1000},
    [IN_1_ALONE] = {"the same cells, accepted in edition 1 alone", 1000},
    [IN_2_ALONE] = {"the same cells, accepted in edition 2 alone", 1000},
    [IN_BOTH] = {"the same cells, accepted in both", 1000},
    [EXPANDED_BACK] = {"compacted, then expanded", 5000},
    [COMPACTED_BACK] = {"expanded, then compacted", 5000},
    [IN_BEFORE_GUARD] = {"in directly before a guard page", 10000},
    [IN_BEHIND_GUARD] = {"in directly behind a guard page", 10000},
    [OUT_BEFORE_GUARD] = {"out directly before a guard page", 10000},
    [OUT_BEHIND_GUARD] = {"out directly behind a guard page", 10000},
};

static uint64_t met[OUTCOMES];
static unsigned failures;

static void fail(const char *what, const struct cells *in, size_t in_bytes, size_t out_bytes)
{
    if (++failures > MOST_FAILURES)
        return;
    printf("failed: %s; %zu bytes in, %zu bytes out;", what, in_bytes, out_bytes);
    for (size_t i = 0; i < in->count && i < 40; i++)
        printf(" %08" PRIx32, in->cell[i]);
    printf(in->count > 40 ? " ..\n" : "\n");
}

/* Random terms, each with its compact form by construction */

enum shape { FLAT, SPREAD, LAST, FIRST, ANY_SHAPE, SHAPES };

/* How a term is drawn. */
struct style {
    uint32_t edition;         /* of the functors */
    unsigned wide_chance;     /* a functor has 16 to 255 arguments, where there is room */
    unsigned list_chance;     /* a compound term is a list */
    unsigned tail_chance;     /* a list ends in a term */
    unsigned variable_chance; /* a leaf is a variable */
    enum shape shape;         /* how a list shares its cells among its elements */
    size_t distinct;          /* distinct variables at most */
    bool near_names;          /* variables are named by small numbers */
};

/* A term in pair form and the form that compacting must give, were there no limits. */
struct sample {
    struct style style;
    size_t variables;
    uint32_t names[LONGEST_TERM];
    struct cells term;
    struct cells form;
};

static void write_cell(struct sample *sample, uint32_t cell)
{
    append(&sample->term, cell);
    append(&sample->form, cell);
}

/* A name that no variable has yet. */
static uint32_t fresh_name(const struct sample *sample)
{
    for (;;) {
        uint64_t bound = sample->style.near_names ? 2 * sample->style.distinct : UINT64_C(1) << 28;
        uint32_t name = (uint32_t)(random_word() % bound);
        size_t i = 0;
        while (i < sample->variables && sample->names[i] != name)
            i++;
        if (i == sample->variables)
            return name;
    }
}

static void write_variable(struct sample *sample)
{
    size_t rank = sample->variables;
    if (rank > 0 && (rank == sample->style.distinct || chance(30)))
        rank = below(rank);
    if (rank == sample->variables) {
        sample->names[rank] = fresh_name(sample);
        sample->variables++;
    }
    append(&sample->term, VARIABLE(sample->names[rank]));
    append(&sample->form, VARIABLE(rank));
}

/* A payload, often small or the largest. */
static uint32_t random_payload(void)
{
    switch (below(4)) {
    case 0:
        return (uint32_t)below(4);
    case 1:
        return 0x0fffffffu - (uint32_t)below(2);
    default:
        return (uint32_t)below((size_t)1 << 28);
    }
}

/* A term of one cell; never [] if it is a list's tail. */
static void write_leaf(struct sample *sample, bool tail)
{
    if (chance(sample->style.variable_chance)) {
        write_variable(sample);
        return;
    }
    uint32_t kind = chance(50) ? TABLES_ATOM : TABLES_INTEGER;
    uint32_t payload = !tail && chance(20) ? 0 : random_payload();
    if (tail && kind == TABLES_ATOM && payload == 0)
        payload = 1;
    write_cell(sample, tables_cell(kind, payload));
}

static void write_term(struct sample *sample, size_t size);

/* From 1 to `most`. */
static size_t random_arity(const struct style *style, size_t most)
{
    static const size_t arities[] = {16, 17, 40, 40, 254, 255};
    size_t wide = chance(60) ? arities[below(6)] : 16 + below(240);
    if (wide <= most && chance(style->wide_chance))
        return wide;
    return 1 + below(most < 15 ? most : 15);
}

/* A functor and its arguments, so many cells in all. */
static void write_structure(struct sample *sample, size_t size)
{
    size_t left = size - 1;
    size_t arity = random_arity(&sample->style, left);
    uint32_t name = random_payload() >> TABLES_ARITY_BITS(sample->style.edition);
    write_cell(sample, TABLES_FUNCTOR_CELL(sample->style.edition, name, arity));
    for (size_t due = arity; due > 0; due--) {
        size_t part = due == 1 ? left : 1 + below(left - due + 1);
        write_term(sample, part);
        left -= part;
    }
}

/* The cells of one element, if so many are left for it and the tail. */
static size_t element_size(const struct sample *sample, size_t left)
{
    enum shape shape = sample->style.shape;
    if (shape == ANY_SHAPE)
        shape = (enum shape)below(ANY_SHAPE);
    size_t size = 1;
    if (shape == SPREAD)
        size = 1 + below(1 + left / 4);
    else if (shape == FIRST || (shape == LAST && chance(50)))
        size = left - 1;
    if (size + 2 == left && chance(70))
        size++; /* a tail of one cell rather than two */
    return size;
}

/* A list of so many cells, at least three. */
static void write_list(struct sample *sample, size_t size)
{
    append(&sample->form, BLIST);
    for (size_t left = size;;) {
        size_t head = element_size(sample, left - 1);
        left -= 1 + head;
        bool tail = left == 2 || ((left < 20 || chance(5)) && chance(sample->style.tail_chance));
        append(&sample->term, PAIR);
        if (left == 1 && !tail)
            append(&sample->form, ELIST);
        write_term(sample, head);
        if (left == 1 && !tail) {
            append(&sample->term, NIL);
            return;
        }
        if (tail) {
            append(&sample->form, EPAIR);
            if (left == 1)
                write_leaf(sample, true);
            else
                write_structure(sample, left);
            return;
        }
    }
}

static void write_term(struct sample *sample, size_t size)
{
    if (size == 1)
        write_leaf(sample, false);
    else if (size >= 3 && chance(sample->style.list_chance))
        write_list(sample, size);
    else
        write_structure(sample, size);
}

static struct style random_style(uint32_t edition)
{
    static const unsigned chances[] = {0, 10, 50, 90, 100};
    static const size_t distinct[] = {1, 3, 31, 32, 33, 34, 64, LONGEST_TERM};
    return (struct style){
        .edition = edition,
        .wide_chance = edition == TABLES_EDITION_2 ? chances[below(5)] : 0,
        .list_chance = chances[below(5)],
        .tail_chance = chances[below(5)],
        .variable_chance = chances[below(5)],
        .shape = (enum shape)below(SHAPES),
        .distinct = distinct[below(8)],
        .near_names = chance(50),
    };
}

static size_t random_size(void)
{
    unsigned draw = (unsigned)below(100);
    if (draw < 40)
        return 1 + below(12);
    if (draw < 65)
        return 1 + below(120);
    if (draw < 80)
        return 100 + below(157);
    if (draw < 95)
        return 250 + below(12);
    return 1 + below(LONGEST_TERM);
}

/* The terms that grow most, around 383 tokens. */
static void write_growing(struct sample *sample)
{
    size_t functors = below(4);
    sample->style.list_chance = 100;
    sample->style.tail_chance = 100;
    sample->style.shape = FIRST;
    for (size_t i = 0; i < functors; i++)
        write_cell(sample, TABLES_FUNCTOR_CELL(sample->style.edition, i, 1));
    write_term(sample, 253 + below(6) - functors);
}

/* A functor whose arguments have one cell each; edition 2 alone. */
static void write_wide(struct sample *sample)
{
    size_t arity = chance(40) ? 255 : chance(40) ? 40 : 16 + below(240);
    write_cell(sample, TABLES_FUNCTOR_CELL(TABLES_EDITION_2, 1, arity));
    while (arity-- > 0)
        write_leaf(sample, false);
}

static void draw_sample(struct sample *sample, uint32_t edition)
{
    sample->style = random_style(edition);
    sample->variables = 0;
    sample->term.count = 0;
    sample->form.count = 0;
    if (chance(5))
        write_growing(sample);
    else if (edition == TABLES_EDITION_2 && chance(5))
        write_wide(sample);
    else
        write_term(sample, random_size());
}

/* Damage */

/* A cell that may or may not belong where it is put. */
static uint32_t odd_cell(void)
{
    static const uint32_t marks[] = {PAIR, BLIST, ELIST, EPAIR, NIL};
    switch (below(8)) {
    case 0:
    case 1:
        return marks[below(5)];
    case 2:
        return VARIABLE(below(35));
    case 3: /* of either edition, and of arity 0 in one or in both */
        return tables_cell(TABLES_FUNCTOR, below(chance(50) ? 48 : 600));
    case 4:
        return tables_cell(TABLES_INTEGER, random_payload());
    case 5:
        return raw_cell(below(16), below(3));
    case 6:
        return tables_cell(TABLES_ATOM, below(3));
    default:
        return (uint32_t)random_word();
    }
}

static void insert(struct cells *cells, size_t place, uint32_t cell)
{
    if (cells->count == MOST_CELLS)
        return;
    memmove(&cells->cell[place + 1], &cells->cell[place], (cells->count - place) * sizeof cell);
    cells->cell[place] = cell;
    cells->count++;
}

static void drop(struct cells *cells, size_t place)
{
    cells->count--;
    memmove(&cells->cell[place], &cells->cell[place + 1],
            (cells->count - place) * sizeof cells->cell[0]);
}

static void swap(struct cells *cells, size_t one, size_t other)
{
    uint32_t cell = cells->cell[one];
    cells->cell[one] = cells->cell[other];
    cells->cell[other] = cell;
}

/* The place of a cell at which the test holds, the first from a random place on; count if there is none. */
static size_t find(const struct cells *cells, bool (*test)(uint32_t))
{
    size_t start = below(cells->count);
    for (size_t i = 0; i < cells->count; i++)
        if (test(cells->cell[(start + i) % cells->count]))
            return (start + i) % cells->count;
    return cells->count;
}

static bool is_mark(uint32_t cell)
{
    return cell == BLIST || cell == ELIST || cell == EPAIR || cell == PAIR;
}

static bool is_variable(uint32_t cell)
{
    return TABLES_KIND(cell) == TABLES_VARIABLE;
}

/* Damage at a pair or a mark of a list. */
static void damage_list(struct cells *cells)
{
    static const uint32_t follower[] = {NIL, BLIST, ELIST, EPAIR, PAIR};
    size_t place = find(cells, is_mark);
    if (place == cells->count)
        return;
    switch (below(4)) {
    case 0: /* another mark, or [] */
        cells->cell[place] = follower[below(5)];
        break;
    case 1: /* EPAIR [], EPAIR BLIST, BLIST EPAIR and their like, for what followed */
        if (place + 1 < cells->count)
            cells->cell[place + 1] = follower[below(5)];
        break;
    case 2: /* the same, added */
        insert(cells, place + 1, follower[below(5)]);
        break;
    default: /* a payload */
        cells->cell[place] += 1 + (uint32_t)below(3);
    }
}

/* Damage to the numbers of variables: one changed, two exchanged everywhere, or all moved up. */
static void damage_variables(struct cells *cells)
{
    size_t place = find(cells, is_variable);
    if (place == cells->count)
        return;
    uint32_t one = cells->cell[place];
    uint32_t other = cells->cell[find(cells, is_variable)];
    unsigned way = (unsigned)below(3);
    if (way == 0)
        cells->cell[place] = VARIABLE(TABLES_PAYLOAD(one + (chance(50) ? 1 : 0x0fffffffu)));
    for (size_t i = 0; i < cells->count && way > 0; i++) {
        uint32_t cell = cells->cell[i];
        if (way == 1 && (cell == one || cell == other))
            cells->cell[i] = cell == one ? other : one;
        else if (way == 2 && is_variable(cell))
            cells->cell[i] = VARIABLE(TABLES_PAYLOAD(cell + 1));
    }
}

/* One change. */
static void damage(struct cells *cells)
{
    if (cells->count == 0)
        return;
    size_t place = below(cells->count);
    switch (below(10)) {
    case 0:
        cells->cell[place] = odd_cell();
        break;
    case 1:
        cells->cell[place] ^= UINT32_C(1) << below(32);
        break;
    case 2:
        drop(cells, place);
        break;
    case 3:
        insert(cells, below(cells->count + 1), odd_cell());
        break;
    case 4:
        swap(cells, place, below(cells->count));
        break;
    case 5:
        cells->count = place;
        break;
    case 6:
        append(cells, odd_cell());
        break;
    case 7:
        damage_variables(cells);
        break;
    default:
        damage_list(cells);
    }
}

/* Lent bytes between guard pages */

/* Two pages between two that may not be touched, and a copy of what they should hold. */
struct arena {
    size_t size;
    uint8_t *bytes;
    uint8_t *expected;
};

static struct arena in_arena, out_arena;

static void open_arena(struct arena *arena)
{
    size_t page = (size_t)sysconf(_SC_PAGESIZE);
    arena->size = ARENA_PAGES * page;
    uint8_t *all = mmap(NULL, arena->size + 2 * page, PROT_READ | PROT_WRITE,
                        MAP_PRIVATE | MAP_ANONYMOUS, -1, 0);
    arena->expected = malloc(arena->size);
    if (all == MAP_FAILED || arena->expected == NULL || mprotect(all, page, PROT_NONE) != 0 ||
        mprotect(all + page + arena->size, page, PROT_NONE) != 0) {
        perror("guard pages");
        exit(2);
    }
    arena->bytes = all + page;
}

/* Random bytes throughout, the same in the copy. */
static void fill_arena(struct arena *arena)
{
    for (size_t i = 0; i < arena->size; i += sizeof(uint64_t)) {
        uint64_t word = random_word();
        memcpy(arena->bytes + i, &word, sizeof word);
    }
    memcpy(arena->expected, arena->bytes, arena->size);
}

static bool arena_as_expected(const struct arena *arena)
{
    return memcmp(arena->bytes, arena->expected, arena->size) == 0;
}

/* Where so many bytes begin: directly before the guard page, directly behind the other, or between. */
static size_t lend(const struct arena *arena, size_t bytes, enum outcome before, enum outcome behind)
{
    switch (below(4)) {
    case 0:
        return below(arena->size - bytes + 1);
    case 1:
        met[behind]++;
        return 0;
    default:
        met[before]++;
        return arena->size - bytes;
    }
}

static void report_crash(int signal_number)
{
    static const char message[] = "failed: a byte outside in and out was touched\n";
    ssize_t written = write(STDOUT_FILENO, message, sizeof message - 1);
    (void)written;
    _exit(signal_number == SIGSEGV ? 1 : 2);
}

/* Comparing */

/* One of the two converters, with the one that leads back. */
struct direction {
    const char *name;
    converter *exported;
    converter *reference;
    converter *exported_back;
    enum outcome accepted, byte_count, wrong, out, back;
};

static const struct direction compacting = {
    "compact",        tables_compact,     reference_compact, tables_expand,
    COMPACT_ACCEPTED, COMPACT_BYTE_COUNT, COMPACT_TERM,      COMPACT_OUT,   EXPANDED_BACK};

static const struct direction expanding = {
    "expand",        tables_expand,     reference_expand, tables_compact,
    EXPAND_ACCEPTED, EXPAND_BYTE_COUNT, EXPAND_FORM,      EXPAND_OUT,     COMPACTED_BACK};

/* The input as bytes, and three more. */
static uint8_t raw[(MOST_CELLS + 1) * CELL_BYTES];

/* Calls both sides on the same bytes and compares the results and every byte of the arenas. */
static uint32_t compare_call(const struct direction *d, const struct cells *in, size_t in_bytes,
                             size_t out_bytes, uint32_t edition)
{
    size_t in_place = lend(&in_arena, in_bytes, IN_BEFORE_GUARD, IN_BEHIND_GUARD);
    size_t out_place = lend(&out_arena, out_bytes, OUT_BEFORE_GUARD, OUT_BEHIND_GUARD);
    fill_arena(&out_arena);
    memcpy(in_arena.bytes + in_place, raw, in_bytes);
    memcpy(in_arena.expected + in_place, raw, in_bytes);
    uint32_t expected =
        d->reference(raw, in_bytes, out_arena.expected + out_place, out_bytes, edition);
    uint32_t result = d->exported(in_arena.bytes + in_place, in_bytes, out_arena.bytes + out_place,
                                  out_bytes, edition);
    if (result != expected) {
        printf("%s: edition %" PRIu32 ", result %08" PRIx32 ", reference %08" PRIx32 "\n", d->name,
               edition, result, expected);
        fail("result", in, in_bytes, out_bytes);
    } else if (!arena_as_expected(&out_arena)) {
        printf("%s: edition %" PRIu32 ", result %08" PRIx32 "\n", d->name, edition, result);
        fail("bytes of out or around it", in, in_bytes, out_bytes);
    }
    if (!arena_as_expected(&in_arena)) {
        fail("bytes of in or around it", in, in_bytes, out_bytes);
        memcpy(in_arena.bytes, in_arena.expected, in_arena.size);
    }
    return expected;
}

static void count_outcome(const struct direction *d, uint32_t result, size_t in_bytes)
{
    if (tables_converter_refused_by(result) == 0)
        met[d->accepted]++;
    else if (in_bytes % CELL_BYTES != 0)
        met[d->byte_count]++;
    else if (tables_converter_refused_by(result) == TABLES_REFUSED_OUT)
        met[d->out]++;
    else if (tables_converter_refused_by(result) == TABLES_REFUSED_LENGTH)
        met[COMPACT_LENGTH]++;
    else if (tables_converter_refused_by(result) == TABLES_REFUSED_VARIABLES)
        met[COMPACT_VARIABLES]++;
    else
        met[d->wrong]++;
}

/* Converts an accepted input there and back by the exports: a term comes back numbered, a form as it was. */
static void round_trip(const struct direction *d, const struct cells *in, uint32_t edition)
{
    struct cells numbered = *in;
    uint8_t there[TABLES_COMPACT_CELLS * CELL_BYTES], back[sizeof there], same[sizeof there];
    if (d == &compacting)
        reference_number(numbered.cell, numbered.count);
    to_bytes(same, &numbered);
    size_t bytes = in->count * CELL_BYTES;
    uint32_t cells = d->exported(raw, bytes, there, sizeof there, edition);
    if (cells > TABLES_COMPACT_CELLS ||
        d->exported_back(there, cells * CELL_BYTES, back, sizeof back, edition) != in->count ||
        memcmp(back, same, bytes) != 0)
        fail(d == &compacting ? "compacted, then expanded" : "expanded, then compacted", in, bytes,
             sizeof back);
    met[d->back]++;
}

/* Bytes of out: too few, one cell short, just enough, or plenty, and odd ones. */
static size_t random_room(uint32_t need)
{
    size_t bytes = (size_t)need * CELL_BYTES;
    switch (below(8)) {
    case 0:
        return below(CELL_BYTES);
    case 1:
        return bytes - CELL_BYTES + below(CELL_BYTES);
    case 2:
        return below(bytes);
    case 3:
    case 4:
        return bytes + below(CELL_BYTES);
    case 5:
        return bytes + CELL_BYTES + below(2 * CELL_BYTES);
    default:
        return (TABLES_COMPACT_CELLS + below(20)) * CELL_BYTES + below(CELL_BYTES);
    }
}

/* A byte count, odd by this chance. */
static size_t random_bytes(const struct cells *in, unsigned odd_chance)
{
    size_t bytes = in->count * CELL_BYTES;
    if (!chance(odd_chance))
        return bytes;
    return bytes > 0 && chance(50) ? bytes - (1 + below(3)) : bytes + 1 + below(3);
}

/* What the reference says of the input with ample room. */
static uint32_t ample_result(const struct direction *d, const struct cells *in, uint32_t edition)
{
    uint8_t ample[TABLES_COMPACT_CELLS * CELL_BYTES];
    return d->reference(raw, in->count * CELL_BYTES, ample, sizeof ample, edition);
}

/* Compares one input with a random room, seldom with an odd byte count. */
static uint32_t compare_input(const struct direction *d, const struct cells *in, uint32_t edition)
{
    to_bytes(raw, in);
    uint32_t need = ample_result(d, in, edition);
    bool legal = tables_converter_refused_by(need) == 0;
    if (!legal)
        need = 1 + (uint32_t)below(TABLES_COMPACT_CELLS);
    size_t in_bytes = random_bytes(in, 5);
    uint32_t result = compare_call(d, in, in_bytes, random_room(need), edition);
    count_outcome(d, result, in_bytes);
    if (legal)
        round_trip(d, in, edition);
    return result;
}

/* Compares one input with a number that is no edition, which is 1 before all else. */
static void compare_no_edition(const struct direction *d, const struct cells *in)
{
    uint32_t none = chance(50) ? no_editions[below(NO_EDITIONS)] : (uint32_t)random_word() | 4;
    size_t in_bytes = random_bytes(in, 30), room = random_room(1 + (uint32_t)below(300));
    if (tables_converter_refused_by(compare_call(d, in, in_bytes, room, none)) !=
        TABLES_REFUSED_HEADER)
        fail("no edition", in, in_bytes, room);
    met[d == &compacting ? COMPACT_EDITION : EXPAND_EDITION]++;
    met[EDITION_AND_BYTE_COUNT] += in_bytes % CELL_BYTES != 0;
}

/* Is there a functor among the cells whose arity, as the edition reads it, is one of these? */
static bool has_arity(const struct cells *in, uint32_t edition, uint32_t least, uint32_t most)
{
    for (size_t i = 0; i < in->count; i++) {
        uint32_t arity = arity_in(edition, in->cell[i]);
        if (TABLES_KIND(in->cell[i]) == TABLES_FUNCTOR && arity >= least && arity <= most)
            return true;
    }
    return false;
}

/* Counts what the editions say of the same cells, with ample room. */
static void count_editions(const struct direction *d, const struct cells *in)
{
    bool in_1 = tables_converter_refused_by(ample_result(d, in, TABLES_EDITION_1)) == 0;
    bool in_2 = tables_converter_refused_by(ample_result(d, in, TABLES_EDITION_2)) == 0;
    met[ACCEPTED_IN_1] += in_1;
    met[ACCEPTED_IN_2] += in_2;
    met[ARITY_40] += in_2 && has_arity(in, TABLES_EDITION_2, 40, 40);
    met[ARITY_255] += in_2 && has_arity(in, TABLES_EDITION_2, 255, 255);
    met[OTHER_ARITY] += in_2 && (has_arity(in, TABLES_EDITION_2, 16, 39) ||
                                 has_arity(in, TABLES_EDITION_2, 41, 254));
    met[LOW_BITS] += in_1 && has_arity(in, TABLES_EDITION_2, 16, 255);
    met[IN_1_ALONE] += in_1 && !in_2;
    met[IN_2_ALONE] += in_2 && !in_1;
    met[IN_BOTH] += in_1 && in_2 && has_arity(in, TABLES_EDITION_1, 1, 15);
}

/* Compares one input in its edition, in the other one, and now and then in none. */
static uint32_t compare_editions(const struct direction *d, const struct cells *in,
                                 uint32_t edition)
{
    uint32_t result = compare_input(d, in, edition);
    compare_input(d, in, other_edition(edition));
    if (chance(5))
        compare_no_edition(d, in);
    count_editions(d, in);
    return result;
}

/* Whether a result is this refusal, or these cells if the refusal is 0. */
static bool result_is(struct reference_result result, const uint32_t *out, uint32_t refusal,
                      const struct cells *cells)
{
    if (refusal != 0)
        return result.refusal == refusal;
    return result.refusal == 0 && result.cells == cells->count &&
           memcmp(out, cells->cell, cells->count * sizeof *out) == 0;
}

/* Checks the reference against what a sample is by construction. */
static void check_reference(const struct sample *sample)
{
    uint32_t out[TABLES_COMPACT_CELLS];
    uint32_t refusal = 0;
    if (sample->term.count > TABLES_TERM_CELLS)
        refusal = TABLES_REFUSED_LENGTH;
    else if (sample->variables > TABLES_TERM_VARIABLES)
        refusal = TABLES_REFUSED_VARIABLES;
    struct reference_result result =
        reference_compact_cells(sample->term.cell, sample->term.count, out, TABLES_COMPACT_CELLS,
                                sample->style.edition);
    if (!result_is(result, out, refusal, &sample->form))
        fail("the reference compacts otherwise", &sample->term, 0, 0);
    struct cells numbered = sample->term;
    if (refusal == 0)
        reference_number(numbered.cell, numbered.count);
    result = reference_expand_cells(sample->form.cell, sample->form.count, out,
                                    TABLES_COMPACT_CELLS, sample->style.edition);
    if (!result_is(result, out, refusal == 0 ? 0 : TABLES_REFUSED_FORM, &numbered))
        fail("the reference expands otherwise", &sample->form, 0, 0);
}

/* Counts the samples that lie at a limit. */
static void count_limits(const struct direction *d, const struct sample *sample, uint32_t result)
{
    bool accepted = tables_converter_refused_by(result) == 0;
    uint32_t refusal = tables_converter_refused_by(result);
    size_t cells = sample->term.count;
    if (d == &compacting) {
        met[TERM_256] += accepted && cells == 256;
        met[TERM_257] += refusal == TABLES_REFUSED_LENGTH && cells == 257;
        met[VARIABLES_32] += accepted && sample->variables == 32;
        met[VARIABLES_33] += refusal == TABLES_REFUSED_VARIABLES && sample->variables == 33;
    } else {
        met[FORM_383] += accepted && sample->form.count == 383;
        met[FORM_384] += refusal == TABLES_REFUSED_FORM && sample->form.count == 384;
        met[EXPANSION_256] += accepted && cells == 256;
        met[EXPANSION_257] += refusal == TABLES_REFUSED_FORM && cells == 257 && sample->variables <= 32;
    }
}

/* The inputs */

static void random_cells(struct cells *cells)
{
    size_t count = chance(80) ? below(10) : below(500);
    bool any = chance(20);
    cells->count = 0;
    for (size_t i = 0; i < count; i++)
        append(cells, any ? (uint32_t)random_word() : odd_cell());
}

/* One random input: a legal one, a damaged one, the other converter's, or any cells. */
static void compare_random(const struct direction *d)
{
    static struct sample sample;
    static struct cells in;
    unsigned draw = (unsigned)below(100);
    uint32_t edition = chance(50) ? TABLES_EDITION_1 : TABLES_EDITION_2;
    draw_sample(&sample, edition);
    in = d == &compacting ? sample.term : sample.form;
    if (draw < 45) {
        check_reference(&sample);
        count_limits(d, &sample, compare_editions(d, &in, edition));
        return;
    }
    if (draw < 80) {
        for (size_t changes = 1 + below(3) * below(2); changes > 0; changes--)
            damage(&in);
    } else if (draw < 85) {
        in = d == &compacting ? sample.form : sample.term;
    } else {
        random_cells(&in);
    }
    compare_editions(d, &in, edition);
}

/* All rows of so many cells from a small stock, for both converters; the functors are f/1 and f/2 of the edition. */
static void compare_all_rows(struct cells *in, size_t length, uint32_t edition)
{
    const uint32_t stock[] = {VARIABLE(0),
                              VARIABLE(1),
                              NIL,
                              TABLES_CELL(TABLES_INTEGER, 1),
                              TABLES_FUNCTOR_CELL(edition, 1, 1),
                              TABLES_FUNCTOR_CELL(edition, 1, 2),
                              PAIR,
                              BLIST,
                              ELIST,
                              EPAIR};
    if (in->count == length) {
        to_bytes(raw, in);
        compare_call(&compacting, in, length * CELL_BYTES, 8 * CELL_BYTES, edition);
        compare_call(&expanding, in, length * CELL_BYTES, 16 * CELL_BYTES, edition);
        return;
    }
    for (size_t i = 0; i < sizeof stock / sizeof *stock && failures < MOST_FAILURES; i++) {
        append(in, stock[i]);
        compare_all_rows(in, length, edition);
        in->count--;
    }
}

/* The reference on the published terms */

/* A term and its form as edition 1 writes them; a term of no cells means that the form is refused by 13. */
static const struct {
    size_t term_cells, form_cells;
    uint32_t term[11], form[8];
} published[] = {
    {6, 6, {0x40000013, 0x10000007, 0x40000022, 0x10000009, 0x10000007, 0x10000000},
           {0x40000013, 0x10000000, 0x40000022, 0x10000001, 0x10000000, 0x10000002}},
    {6, 6, {0x40000013, 0x40000022, 0x10000002, 0x10000003, 0x10000001, 0x10000003},
           {0x40000013, 0x40000022, 0x10000000, 0x10000001, 0x10000002, 0x10000001}},
    {7, 5, {0x50000000, 0x30000001, 0x50000000, 0x30000002, 0x50000000, 0x30000003, 0x20000000},
           {0x60000000, 0x30000001, 0x30000002, 0x70000000, 0x30000003}},
    {5, 5, {0x50000000, 0x30000001, 0x50000000, 0x30000002, 0x30000003},
           {0x60000000, 0x30000001, 0x30000002, 0x80000000, 0x30000003}},
    {11, 8, {0x50000000, 0x30000001, 0x50000000, 0x50000000, 0x30000002, 0x50000000, 0x30000003,
             0x20000000, 0x50000000, 0x20000000, 0x20000000},
            {0x60000000, 0x30000001, 0x60000000, 0x30000002, 0x70000000, 0x30000003, 0x70000000,
             0x20000000}},
    {3, 4, {0x50000000, 0x30000001, 0x30000002}, {0x60000000, 0x30000001, 0x80000000, 0x30000002}},
    {0, 3, {0}, {0x60000000, 0x80000000, 0x30000001}},
    {0, 4, {0}, {0x60000000, 0x30000001, 0x80000000, 0x20000000}},
};

static struct cells recoded_cells(const uint32_t *cells, size_t count, uint32_t edition)
{
    struct cells row = {0, {0}};
    for (size_t i = 0; i < count; i++)
        append(&row, recoded(edition, cells[i]));
    return row;
}

/* Is a published term compacted and expanded as it should be? */
static bool is_right(const struct cells *term, const struct cells *form, uint32_t edition)
{
    uint32_t out[16];
    struct cells numbered = *term;
    struct reference_result result = reference_expand_cells(form->cell, form->count, out, 16, edition);
    if (term->count == 0)
        return result.refusal == TABLES_REFUSED_FORM;
    reference_number(numbered.cell, numbered.count);
    bool right = result_is(result, out, 0, &numbered);
    result = reference_compact_cells(term->cell, term->count, out, 16, edition);
    right = right && result_is(result, out, 0, form);
    result = reference_compact_cells(term->cell, term->count, out, form->count - 1, edition);
    return right && result.refusal == TABLES_REFUSED_OUT && result.cells == form->count;
}

static void check_published(uint32_t edition)
{
    for (size_t i = 0; i < sizeof published / sizeof *published; i++) {
        struct cells term = recoded_cells(published[i].term, published[i].term_cells, edition);
        struct cells form = recoded_cells(published[i].form, published[i].form_cells, edition);
        if (is_right(&term, &form, edition))
            continue;
        printf("failed: the reference on M%zu in edition %" PRIu32 "\n", i + 1, edition);
        failures++;
    }
}

/* Prints how often each outcome was met; a rare one is a failure. */
static void report_outcomes(uint64_t inputs)
{
    for (int i = 0; i < OUTCOMES; i++) {
        uint64_t least = inputs * outcomes[i].least / 100000;
        bool rare = met[i] < least;
        printf("%10" PRIu64 "  %s%s\n", met[i], outcomes[i].name, rare ? ": too rare" : "");
        failures += rare;
    }
}

/* Arguments: how many random inputs, and the seed. */
int main(int argc, char **argv)
{
    uint64_t inputs = argc > 1 ? strtoull(argv[1], NULL, 0) : 1000000;
    random_state = argc > 2 ? strtoull(argv[2], NULL, 0) : 1;
    setvbuf(stdout, NULL, _IOLBF, 0);
    printf("differential_test: %" PRIu64 " random inputs, seed %" PRIu64 "\n", inputs, random_state);
    signal(SIGSEGV, report_crash);
    signal(SIGBUS, report_crash);
    open_arena(&in_arena);
    open_arena(&out_arena);
    fill_arena(&in_arena);
    static struct cells row;
    for (uint32_t edition = 1; edition <= LAST_EDITION; edition++) {
        check_published(edition);
        for (size_t length = 0; length <= 5; length++)
            compare_all_rows(&row, length, edition);
    }
    memset(met, 0, sizeof met);
    for (uint64_t i = 0; i < inputs && failures < MOST_FAILURES; i++)
        compare_random(i % 2 == 0 ? &compacting : &expanding);
    if (failures == 0)
        report_outcomes(inputs);
    printf("differential_test: %u failed\n", failures);
    return failures != 0;
}
