/*
 * Measures the stack that every export uses and holds it to the bound that the header states for it.
 *
 * Each call is made on a stack of its own that was painted before; the paint that is gone afterwards is what was used.
 * Each is made as the first call of a program, in which memset and memcpy are not bound yet ('Binding', below).
 *
 * The worst input is searched for: every sequence of up to UNIT_CELLS cells of an alphabet, repeated, as a term, a form
 * or a path, at the lengths at which the readers change their buffers; and lists nested as deep as legal terms allow.
 * What takes an index is measured with one that leads to the children and with one that leads nowhere.
 */
#define _DEFAULT_SOURCE

#include "../include/tables.h"

#include <inttypes.h>
#include <link.h>
#include <stdbool.h>
#include <stdio.h>
#include <stdlib.h>
#include <string.h>
#include <sys/mman.h>
#include <ucontext.h>

enum { STACK_BYTES = 1 << 20, STEP_BYTES = 16, STEPS = 4 };
enum { UNIT_CELLS = 3, FORM_CELLS = 383, LONGEST_LISTS = 127, MOST_LEN = 400 };

/* Cells by name; functors in edition 1. */
#define VAR(name) TABLES_CELL(TABLES_VARIABLE, name)
#define A TABLES_CELL(TABLES_ATOM, 1)
#define F1 TABLES_FUNCTOR_CELL(TABLES_EDITION_1, 1, 1)
#define F2 TABLES_FUNCTOR_CELL(TABLES_EDITION_1, 1, 2)
#define NIL TABLES_EMPTY_LIST
#define PAIR TABLES_PAIR_CELL
#define BLIST TABLES_CELL(TABLES_BLIST, 0)
#define ELIST TABLES_CELL(TABLES_ELIST, 0)
#define EPAIR TABLES_CELL(TABLES_EPAIR, 0)

/* Exports */

enum export {
    FRESH,
    CALL,
    ANSWER,
    FINISH,
    NEXT,
    LOAD,
    INSTANCE,
    COUNTS,
    JOIN,
    BUILD,
    CALL_INDEXED,
    ANSWER_INDEXED,
    JOIN_INDEXED,
    WHY,
    WHY_INDEXED,
    DETOURS,
    CHECK,
    CARRY,
    GROW,
    FIRST_TERM,
    TERM_AFTER,
    COMPACT,
    EXPAND,
    EXPORTS
};

static const struct {
    const char *name;
    size_t bound;
} exports[EXPORTS] = {
    {"tables_fresh", TABLES_STACK_FRESH},       {"tables_call", TABLES_STACK_CALL},
    {"tables_answer", TABLES_STACK_ANSWER},     {"tables_finish", TABLES_STACK_FINISH},
    {"tables_next", TABLES_STACK_NEXT},         {"tables_load", TABLES_STACK_LOAD},
    {"tables_instance", TABLES_STACK_INSTANCE}, {"tables_counts", TABLES_STACK_COUNTS},
    {"tables_join", TABLES_STACK_JOIN},         {"tables_build", TABLES_STACK_BUILD},
    {"tables_call_indexed", TABLES_STACK_CALL}, {"tables_answer_indexed", TABLES_STACK_ANSWER},
    {"tables_join_indexed", TABLES_STACK_JOIN}, {"tables_why", TABLES_STACK_WHY},
    {"tables_why_indexed", TABLES_STACK_WHY},   {"tables_detours", TABLES_STACK_DETOURS},
    {"tables_check", TABLES_STACK_CHECK},
    {"tables_carry", TABLES_STACK_CARRY},       {"tables_grow", TABLES_STACK_GROW},
    {"tables_first_term", TABLES_STACK_FIRST_TERM}, {"tables_term_after", TABLES_STACK_TERM_AFTER},
    {"tables_compact", TABLES_STACK_COMPACT},   {"tables_expand", TABLES_STACK_EXPAND},
};

/* What the next call gets. */
static uint32_t cells[MOST_LEN];
static size_t cell_count;
static uint32_t space[8 + 5 * 2000 + 6 * 4 + 3 * 4];
static size_t space_cells = sizeof space / sizeof space[0];
static uint32_t nodes = 2000;
static uint32_t target[sizeof space / sizeof space[0]];
static const uint32_t pairs[2] = {0, 0}, copies[2] = {0, 0};
static size_t pair_cells;
static const uint32_t goals[6] = {1, 1, 1, 1, 1, 1};
static size_t goal_count = 1;
static uint32_t slots[4096];
static size_t slot_count = 64;
static const uint32_t symbols[] = {F1, TABLES_FUNCTOR_CELL(TABLES_EDITION_1, 2, 7), A};
static size_t symbol_count, size;
static uint32_t out[TABLES_INSTANCE_CELLS];
static uint64_t word;

/* The lists of small terms. */
static void make_listed(enum export export)
{
    size_t room = TABLES_LISTED_CELLS;
    word = export == FIRST_TERM
               ? tables_first_term(symbols, symbol_count, size, out, room, TABLES_EDITION_1)
               : tables_term_after(symbols, symbol_count, size, cells, cell_count, out, room, TABLES_EDITION_1);
}

/* The calls that take an index, and the build of one. */
static void make_indexed(enum export export)
{
    switch (export) {
    case BUILD:
        word = tables_build(space, space_cells, slots, slot_count);
        break;
    case CALL_INDEXED:
        word = tables_call_indexed(space, space_cells, slots, slot_count, cells, cell_count);
        break;
    case WHY_INDEXED:
        word = tables_why_indexed(space, space_cells, slots, slot_count, cells, cell_count, out, TABLES_WHY_CELLS);
        break;
    case ANSWER_INDEXED:
        word = tables_answer_indexed(space, space_cells, slots, slot_count, 1, cells, cell_count);
        break;
    default:
        word = tables_join_indexed(space, space_cells, slots, slot_count, 1, 2, pairs, pair_cells, 3, copies, 2);
    }
}

static void make(enum export export)
{
    uint8_t *out_bytes = (uint8_t *)out;
    const uint8_t *in = (const uint8_t *)cells;
    size_t room = sizeof out / sizeof out[0];
    switch (export) {
    case FRESH:
        word = tables_fresh(space, space_cells, nodes, 4, 4, TABLES_EDITION_1);
        break;
    case CALL:
        word = tables_call(space, space_cells, cells, cell_count);
        break;
    case ANSWER:
        word = tables_answer(space, space_cells, 1, cells, cell_count);
        break;
    case WHY:
        word = tables_why(space, space_cells, cells, cell_count, out, TABLES_WHY_CELLS);
        break;
    case DETOURS:
        word = tables_detours(space, space_cells, goals, goal_count, 1000, out, TABLES_DETOUR_CELLS);
        break;
    case FINISH:
        word = tables_finish(space, space_cells, 1);
        break;
    case NEXT:
        word = tables_next(space, space_cells, 1, 0);
        break;
    case LOAD:
        word = tables_load(space, space_cells, 1, out, room);
        break;
    case INSTANCE:
        word = tables_instance(space, space_cells, 1, out, room);
        break;
    case COUNTS:
        word = tables_counts(space, space_cells, out, room);
        break;
    case JOIN:
        word = tables_join(space, space_cells, 1, 2, pairs, pair_cells, 3, copies, 2);
        break;
    case CHECK:
        word = tables_check(space, space_cells);
        break;
    case CARRY:
        word = tables_carry(space, space_cells, target, space_cells, nodes, 4, 4);
        break;
    case GROW:
        word = tables_grow(space, space_cells, nodes, 4, 4);
        break;
    case FIRST_TERM:
    case TERM_AFTER:
        make_listed(export);
        break;
    case COMPACT:
        word = tables_compact(in, 4 * cell_count, out_bytes, sizeof out, TABLES_EDITION_1);
        break;
    case EXPAND:
        word = tables_expand(in, 4 * cell_count, out_bytes, sizeof out, TABLES_EDITION_1);
        break;
    default:
        make_indexed(export);
    }
}

/* Binding */

/*
 * A program that is linked to a shared C library looks a function of it up when it first calls it, unless it is told
 * to do so at the start. The dynamic linker then works on the stack of that call, and keeps the vector registers there.
 * The archive calls memset and memcpy. So that each call measured is a first one, the addresses by which the program
 * calls functions of the library are put back before it to what they were when the program began.
 */
extern uintptr_t _GLOBAL_OFFSET_TABLE_[] __attribute__((visibility("hidden")));

enum { LINKERS_OWN = 3, MOST_JUMPS = 100 };

static volatile uintptr_t *const jumps = _GLOBAL_OFFSET_TABLE_ + LINKERS_OWN;
static uintptr_t unbound[MOST_JUMPS];
static size_t jump_count;
static uint64_t calls_that_bound;

/* To be called first. `jumps` is volatile, so that no loop over it becomes a memcpy, which would be bound then. */
static void keep_unbound(void)
{
    bool at_start = false;
    for (const ElfW(Dyn) *entry = _DYNAMIC; entry->d_tag != DT_NULL; entry++) {
        if (entry->d_tag == DT_PLTRELSZ)
            jump_count = entry->d_un.d_val / sizeof(ElfW(Rela));
        at_start |= entry->d_tag == DT_BIND_NOW;
        at_start |= entry->d_tag == DT_FLAGS && (entry->d_un.d_val & DF_BIND_NOW) != 0;
        at_start |= entry->d_tag == DT_FLAGS_1 && (entry->d_un.d_val & DF_1_NOW) != 0;
    }
    if (at_start || jump_count > MOST_JUMPS) {
        printf("stack: the test must be linked with -z lazy, and have at most %d functions to bind\n", MOST_JUMPS);
        exit(2);
    }
    for (size_t i = 0; i < jump_count; i++)
        unbound[i] = jumps[i];
}

static void unbind(void)
{
    for (size_t i = 0; i < jump_count; i++)
        jumps[i] = unbound[i];
}

/* How many functions have been bound since. */
static size_t functions_bound(void)
{
    size_t count = 0;
    for (size_t i = 0; i < jump_count; i++)
        count += jumps[i] != unbound[i];
    return count;
}

/* The painted stack */

static const uint64_t paint = UINT64_C(0x5ca1ab1e0ddba11);
static uint64_t *stack;
static size_t stack_words = STACK_BYTES / sizeof(uint64_t);
static const uint64_t *called_from;
static ucontext_t here, there;
static enum export due;

static void on_stack(void)
{
    called_from = __builtin_frame_address(0);
    make(due);
}

static void open_stack(void)
{
    stack = mmap(NULL, STACK_BYTES, PROT_READ | PROT_WRITE, MAP_PRIVATE | MAP_ANONYMOUS, -1, 0);
    if (stack == MAP_FAILED) {
        perror("a stack");
        exit(2);
    }
    for (size_t i = 0; i < stack_words; i++)
        stack[i] = paint;
}

/*
 * Makes a call on the painted stack, paints it anew and gives the bytes that the call used. The linker keeps the vector
 * registers at a multiple of 64, so the stack begins at each multiple of 16 below in turn.
 */
static size_t used_by(enum export export)
{
    static size_t step;
    step = (step + 1) % STEPS;
    due = export;
    if (getcontext(&there) != 0) {
        perror("a context");
        exit(2);
    }
    there.uc_stack.ss_sp = stack;
    there.uc_stack.ss_size = STACK_BYTES - STEP_BYTES * step;
    there.uc_link = &here;
    makecontext(&there, on_stack, 0);
    unbind();
    swapcontext(&here, &there);
    calls_that_bound += functions_bound() > 1; /* swapcontext is one, bound on the other stack */
    uint64_t *first = stack, *end = stack + stack_words;
    while (first < end && *first == paint)
        first++;
    for (uint64_t *used = first; used < end; used++)
        *used = paint;
    return (size_t)(called_from - first) * sizeof(uint64_t);
}

/* The worst so far of each export, and its input */

static struct {
    size_t used;
    uint64_t calls, word;
    char input[160];
} worst[EXPORTS];

static void measure(enum export export, const char *input)
{
    size_t used = used_by(export);
    worst[export].calls++;
    if (used > worst[export].used) {
        worst[export].used = used;
        worst[export].word = word;
        snprintf(worst[export].input, sizeof worst[export].input, "%s", input);
    }
}

/* Inputs */

static const struct {
    uint32_t cell;
    const char *name;
} pair_alphabet[] = {{PAIR, "PAIR"}, {A, "a"}, {NIL, "[]"}, {VAR(0), "X"}, {F1, "f/1"}, {F2, "f/2"}},
  form_alphabet[] = {{BLIST, "BLIST"}, {ELIST, "ELIST"}, {EPAIR, "EPAIR"}, {A, "a"},
                     {NIL, "[]"},      {VAR(0), "X"},    {F1, "f/1"},      {F2, "f/2"}};

enum { PAIR_LETTERS = 6, FORM_LETTERS = 8 };

static char input_name[160];

/* The unit of this number, repeated to so many cells. False if there is no unit of this number. */
static bool repeat_unit(unsigned number, size_t length, bool form)
{
    unsigned letters = form ? FORM_LETTERS : PAIR_LETTERS, unit[UNIT_CELLS], size = 1, count = letters;
    while (number >= count) {
        number -= count;
        count *= letters;
        if (++size > UNIT_CELLS)
            return false;
    }
    int at = snprintf(input_name, sizeof input_name, "%zu cells of", length);
    for (unsigned i = 0; i < size; i++) {
        unit[i] = number % letters;
        number /= letters;
        at += snprintf(input_name + at, sizeof input_name - (size_t)at, " %s",
                       form ? form_alphabet[unit[i]].name : pair_alphabet[unit[i]].name);
    }
    for (size_t i = 0; i < length; i++)
        cells[i] = form ? form_alphabet[unit[i % size]].cell : pair_alphabet[unit[i % size]].cell;
    cell_count = length;
    return true;
}

/* [[..[a]..]] of so many lists, in pair or compact form. */
static void nest(size_t lists, bool form)
{
    cell_count = 0;
    for (size_t i = 0; i < lists; i++) {
        cells[cell_count++] = form ? BLIST : PAIR;
        if (form)
            cells[cell_count++] = ELIST;
    }
    cells[cell_count++] = A;
    for (size_t i = 0; i < lists && !form; i++)
        cells[cell_count++] = NIL;
    snprintf(input_name, sizeof input_name, "%zu lists, one in another", lists);
}

/* f([[..[a|a]..|a]|a]) of the most lists: 256 cells, the most tokens. */
static void longest_form(void)
{
    cell_count = 0;
    cells[cell_count++] = F1;
    for (size_t i = 0; i < LONGEST_LISTS; i++)
        cells[cell_count++] = BLIST;
    cells[cell_count++] = A;
    for (size_t i = 0; i < LONGEST_LISTS; i++) {
        cells[cell_count++] = EPAIR;
        cells[cell_count++] = A;
    }
    snprintf(input_name, sizeof input_name, "the longest form");
}

/* Lengths around which the readers take other buffers, and the longest. */
static const size_t term_lengths[] = {15, 16, 17, 127, 128, 129, 254, 255, 256, 257};
static const size_t form_lengths[] = {15, 16, 17, 63, 64, 65, 127, 128, 129, 255, 256, 382, 383, 384};

enum { TERM_LENGTHS = sizeof term_lengths / sizeof *term_lengths };
enum { FORM_LENGTHS = sizeof form_lengths / sizeof *form_lengths };

/* Spaces with paths of any tokens */

static uint32_t *node(uint32_t number)
{
    return space + 8 + 5 * number;
}

/* A chain of nodes with the tokens of cells below a root, from the next free node on; the leaf has the link. */
static uint32_t chain(uint32_t root, uint32_t link)
{
    uint32_t above = root;
    for (size_t i = 0; i < cell_count; i++) {
        uint32_t below = space[1]++;
        uint32_t record[5] = {cells[i], 0, 0, above, 0};
        memcpy(node(below), record, sizeof record);
        node(above)[1] = below;
        above = below;
    }
    node(above)[4] = link;
    return above;
}

/* An empty table with the root of one subgoal's answers, node 1. */
static void begin_space(uint32_t variables)
{
    make(FRESH);
    space[1] = 2;
    space[2] = space[3] = 1;
    node(1)[3] = 1;
    uint32_t subgoal[6] = {0, 1, variables, 0, 1, 1};
    memcpy(space + space[5], subgoal, sizeof subgoal);
    uint32_t answer[3] = {0, 1, 0};
    memcpy(space + space[6], answer, sizeof answer);
}

static void subgoal_path(void)
{
    space[space[5]] = chain(0, 1);
}

static void answer_path(void)
{
    space[space[6]] = chain(1, 1);
}

/* The subgoal p(X). */
static void called_p(void)
{
    cells[0] = F1;
    cells[1] = VAR(0);
    cell_count = 2;
    subgoal_path();
}

/* Spaces with two finished subgoals of one variable, 1 and 2, and an open one, 3 */

static uint32_t *subgoal_record(uint32_t number)
{
    return space + space[5] + 6 * (number - 1);
}

static void begin_join(uint32_t room)
{
    nodes = room;
    make(FRESH);
    nodes = 2000;
    for (uint32_t name = 1; name <= 3; name++) {
        uint32_t term[2] = {TABLES_FUNCTOR_CELL(TABLES_EDITION_1, name, 1), VAR(0)};
        word = tables_call(space, space_cells, term, 2);
        subgoal_record(name)[3] = name != 3;
    }
}

/* An answer of a subgoal with the tokens of a form, behind those that it has. */
static void source_answer(uint32_t subgoal, const uint32_t *form, size_t form_cells)
{
    uint32_t kept[MOST_LEN], number = ++space[3], *record = subgoal_record(subgoal);
    size_t kept_count = cell_count;
    memcpy(kept, cells, sizeof kept);
    memcpy(cells, form, form_cells * sizeof *form);
    cell_count = form_cells;
    uint32_t answer[3] = {chain(record[1], number), subgoal, 0};
    memcpy(space + space[6] + 3 * (number - 1), answer, sizeof answer);
    if (record[4] == 0)
        record[4] = number;
    else
        space[space[6] + 3 * (record[5] - 1) + 2] = number;
    record[5] = number;
    memcpy(cells, kept, sizeof kept);
    cell_count = kept_count;
}

/* A space with any path as that of a subgoal with a variable, and the root of its answers behind the leaf. */
static void any_subgoal(void)
{
    make(FRESH);
    uint32_t leaf = chain(0, 1), root = space[1]++;
    uint32_t record[5] = {0, 0, 0, root, 0}, subgoal[6] = {leaf, root, 1, 0, 0, 0};
    memcpy(node(root), record, sizeof record);
    space[2] = 1;
    memcpy(space + space[5], subgoal, sizeof subgoal);
}

/* What is measured */

/* The answer is a term, so that the subgoal's path is read too: a long list in compact form. */
static void long_answer(void)
{
    cells[0] = BLIST;
    for (size_t i = 1; i < 120; i++)
        cells[i] = A;
    cells[120] = ELIST;
    cells[121] = A;
    cell_count = 122;
    answer_path();
}

/* An index in which no entry is one of the space's children, or in which every slot names the same node. */
static void fill_slots(uint32_t entry)
{
    for (size_t i = 0; i < slot_count; i++)
        slots[i] = entry;
}

/* The cells as an answer and as a subgoal, new and old. */
static void measure_entered(enum export answer, enum export call)
{
    begin_space(1);
    uint32_t kept[MOST_LEN];
    size_t kept_count = cell_count;
    memcpy(kept, cells, sizeof kept);
    called_p();
    memcpy(cells, kept, sizeof kept);
    cell_count = kept_count;
    measure(answer, input_name);
    fill_slots(space[1] - 1);
    measure(answer, input_name);
    if (cell_count < TABLES_TERM_CELLS) {
        memmove(cells + 1, cells, cell_count * sizeof *cells);
        cells[0] = F1;
        cell_count++;
    }
    measure(call, input_name);
    fill_slots(space[1] - 2);
    measure(call, input_name);
    memcpy(cells, kept, sizeof kept);
    cell_count = kept_count;
}

/* Why a term is new or old: the cells as they are, after a functor, and once that is entered. */
static void measure_why(void)
{
    make(FRESH);
    fill_slots(UINT32_MAX);
    measure(WHY, input_name);
    measure(WHY_INDEXED, input_name);
    uint32_t kept[MOST_LEN];
    size_t kept_count = cell_count;
    memcpy(kept, cells, sizeof kept);
    if (cell_count < TABLES_TERM_CELLS) {
        memmove(cells + 1, cells, cell_count * sizeof *cells);
        cells[0] = F1;
        cell_count++;
    }
    measure(WHY, input_name);
    make(CALL);
    measure(WHY, input_name);
    measure(WHY_INDEXED, input_name);
    memcpy(cells, kept, sizeof kept);
    cell_count = kept_count;
}

static void measure_term(void)
{
    measure(COMPACT, input_name);
    measure_why();
    measure_entered(ANSWER, CALL);
    fill_slots(UINT32_MAX);
    measure_entered(ANSWER_INDEXED, CALL_INDEXED);
}

/* Any path as an answer of either source; the pair names it. */
static void measure_sources(void)
{
    static const uint32_t a = A;
    pair_cells = 2;
    for (uint32_t longer = 1; longer <= 2; longer++) {
        begin_join(2000);
        source_answer(3 - longer, &a, 1);
        source_answer(longer, cells, cell_count);
        measure(JOIN, input_name);
    }
    begin_join(2000);
    source_answer(1, cells, cell_count);
    source_answer(2, cells, cell_count);
    measure(JOIN, input_name);
    fill_slots(space[1] - 1);
    measure(JOIN, input_name);
    measure(JOIN_INDEXED, input_name);
}

/* A check that gets as far as the paths: the nodes are whole. */
static void measure_check(void)
{
    measure(CHECK, input_name);
    if (tables_broken_kind(word) == TABLES_BROKEN_NODE) {
        printf("stack: the check of %s found node %" PRIu32 " broken\n", input_name, tables_broken_number(word));
        exit(1);
    }
}

/* Any path as that of a subgoal, and of an answer; such a space carried over, and one that the check refuses. */
static void measure_checks(void)
{
    any_subgoal();
    measure_check();
    measure(CARRY, input_name);
    begin_join(2000);
    source_answer(1, cells, cell_count);
    measure(DETOURS, input_name);
    measure_check();
    measure(CARRY, input_name);
    node(0)[4] = 1; /* a link at the root of the subgoals: no call minds, and the slow way is taken */
    measure(CARRY, input_name);
}

static void measure_form(void)
{
    measure(EXPAND, input_name);
    if (cell_count > FORM_CELLS)
        return;
    begin_space(1);
    answer_path();
    measure(LOAD, input_name);
    measure(INSTANCE, input_name);
    uint32_t kept[MOST_LEN];
    size_t kept_count = cell_count;
    memcpy(kept, cells, sizeof kept);
    begin_space(1);
    long_answer();
    memcpy(cells, kept, sizeof kept);
    cell_count = kept_count;
    subgoal_path();
    measure(INSTANCE, input_name);
    measure_sources();
    measure_checks();
}

/* The cells are an answer of the first, and the second has two: the join gives the same form twice. */
static void begin_twice(uint32_t room)
{
    static const uint32_t seconds[2] = {A, NIL};
    begin_join(room);
    source_answer(1, cells, cell_count);
    source_answer(2, &seconds[0], 1);
    source_answer(2, &seconds[1], 1);
}

/* A join, with an index or without, that must give this word. */
static void measure_join(enum export join, uint32_t what, uint32_t value)
{
    fill_slots(space[1] - 1);
    measure(join, input_name);
    if (word != ((uint64_t)what << 32 | value)) {
        printf("stack: the join of %s gave %" PRIx64 "\n", input_name, word);
        exit(1);
    }
}

/*
 * A legal form that a join gives twice, so that the sum over both is above what they need: with room for the sum; with
 * just enough, which is found by comparing the forms with each other; with a node less; and old forms.
 */
static void measure_room(enum export join)
{
    pair_cells = 0;
    begin_twice(2000);
    uint32_t enough = space[1] + (uint32_t)cell_count;
    measure_join(join, TABLES_JOINED, 1);
    measure_join(join, TABLES_JOINED, 0);
    begin_twice(enough);
    measure_join(join, TABLES_JOINED, 1);
    begin_twice(enough - 1);
    measure_join(join, TABLES_CALL_REFUSED + TABLES_REFUSED_NO_NODE, 0);
    measure(BUILD, input_name);
}

/* A build that must give this word. */
static void measure_build(const char *input, uint32_t what, uint32_t value)
{
    measure(BUILD, input);
    if (word != ((uint64_t)what << 32 | value)) {
        printf("stack: the build of %s gave %" PRIx64 "\n", input, word);
        exit(1);
    }
}

/* Six goals, each of them the same one with six answers, so that the search goes as deep as it can. */
static void measure_detours(void)
{
    make(FRESH);
    space[1] = 3 + 12;
    space[2] = 1;
    space[3] = 4;
    for (uint32_t i = 1; i < 15; i++) {
        uint32_t record[5] = {i % 2 == 0 ? TABLES_CELL(TABLES_ATOM, i) : TABLES_CELL(TABLES_INTEGER, i), 0, 0, i - 1, 0};
        memcpy(node(i), record, sizeof record);
    }
    uint32_t root[5] = {0, 0, 0, 1, 0};
    memcpy(node(1), root, sizeof root);
    for (uint32_t a = 1; a <= 4; a++) {
        uint32_t record[3] = {1 + 2 * a, 1, a == 4 ? 0 : a + 1};
        node(2 * a)[3] = 1;
        node(2 * a)[0] = TABLES_CELL(TABLES_ATOM, a);
        node(2 * a + 1)[0] = TABLES_CELL(TABLES_INTEGER, a);
        memcpy(space + space[6] + 3 * (a - 1), record, sizeof record);
    }
    uint32_t subgoal[6] = {0, 1, 2, 1, 1, 4};
    memcpy(space + space[5], subgoal, sizeof subgoal);
    for (goal_count = 0; goal_count <= 6; goal_count++)
        measure(DETOURS, "goals with four answers");
    goal_count = 1;
}

/* Blocks that move down, and back up. */
static void measure_growing(void)
{
    make(FRESH);
    for (uint32_t round = 0; round < 2; round++) {
        nodes = round == 0 ? 20 : 2000;
        measure(GROW, "capacities that change");
        if (word != 0) {
            printf("stack: growing gave %" PRIx64 "\n", word);
            exit(1);
        }
    }
}

/* A parent as long a way off as there are nodes; and all nodes under one, with slots enough and with too few. */
static void measure_builds(void)
{
    make(FRESH);
    space[1] = 2000;
    for (uint32_t i = 1; i < 2000; i++) {
        uint32_t record[5] = {A, i == 1999 ? 0 : i + 1, 0, i - 1, 0};
        memcpy(node(i), record, sizeof record);
    }
    node(0)[1] = 1;
    measure_build("a path of all nodes", TABLES_BUILT, 0);
    node(1999)[4] = 1;
    measure_build("a path of all nodes, the last damaged", TABLES_CALL_REFUSED + TABLES_REFUSED_DAMAGED, 0);
    make(FRESH);
    space[1] = 2000;
    for (uint32_t i = 1; i < 2000; i++) {
        uint32_t record[5] = {TABLES_CELL(TABLES_ATOM, i / 2), 0, i == 1999 ? 0 : i + 1, 0, 0};
        memcpy(node(i), record, sizeof record);
    }
    node(0)[1] = 1;
    measure_build("1999 children and too few slots", TABLES_CALL_REFUSED + TABLES_REFUSED_SLOTS, 0);
    slot_count = 4096;
    measure_build("1999 children", TABLES_BUILT, 1999);
    slot_count = 64;
}

/* Whole lists over up to three symbols: after the last term the search goes all the way back. */
static void measure_lists(void)
{
    for (symbol_count = 0; symbol_count <= 3; symbol_count++)
        for (size = 0; size <= TABLES_LISTED_CELLS + 1; size++) {
            snprintf(input_name, sizeof input_name, "the list of %zu cells over %zu symbols", size, symbol_count);
            measure(FIRST_TERM, input_name);
            cell_count = size;
            while (tables_what(word) == TABLES_CELLS) {
                memcpy(cells, out, cell_count * sizeof *cells);
                measure(TERM_AFTER, input_name);
            }
            measure(TERM_AFTER, input_name); /* the last once more, or what is refused */
        }
}

static void measure_all(void)
{
    measure_growing();
    measure_detours();
    measure_builds();
    measure_lists();
    for (unsigned unit = 0; repeat_unit(unit, 1, false); unit++)
        for (size_t i = 0; i < TERM_LENGTHS; i++) {
            repeat_unit(unit, term_lengths[i], false);
            measure_term();
        }
    for (unsigned unit = 0; repeat_unit(unit, 1, true); unit++)
        for (size_t i = 0; i < FORM_LENGTHS; i++) {
            repeat_unit(unit, form_lengths[i], true);
            measure_form();
        }
    for (size_t lists = 1; lists <= 127; lists++) {
        nest(lists, false);
        measure_term();
        nest(lists, true);
        measure_form();
        measure_room(JOIN);
        measure_room(JOIN_INDEXED);
    }
    longest_form();
    measure_form();
    measure_room(JOIN);
    measure_room(JOIN_INDEXED);
    begin_space(1);
    called_p();
    long_answer();
    static const enum export simple[] = {NEXT, LOAD, INSTANCE, COUNTS, FINISH, FRESH};
    for (size_t i = 0; i < STEPS * sizeof simple / sizeof *simple; i++)
        measure(simple[i / STEPS], "a sound space");
}

int main(void)
{
    keep_unbound();
    open_stack();
    measure_all();
    unsigned failures = calls_that_bound == 0;
    if (calls_that_bound == 0)
        printf("stack: no call has bound a function; is LD_BIND_NOW set?\n");
    printf("export                 bytes   bound  worst input\n");
    for (unsigned i = 0; i < EXPORTS; i++) {
        bool fits = worst[i].used <= exports[i].bound;
        failures += !fits;
        printf("%-21s %6zu  %6zu  %s%s\n", exports[i].name, worst[i].used, exports[i].bound,
               worst[i].input, fits ? "" : ": FAILED");
    }
    printf("stack: %s\n", failures == 0 ? "within the bounds" : "FAILED");
    return failures != 0;
}
