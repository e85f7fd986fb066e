/*
 * Checks whole spaces of both editions by tables_check: those that random lists of calls leave, those laid out by another writer,
 * and damaged ones. Whatever passes is held to the table that is read off its cells (read_table.c), call for call with a plain
 * table of the same lists (plain_table.c); whatever the reader finds to be no table must be refused.
 */
#define _DEFAULT_SOURCE

#include "../include/tables.h"
#include "drawing.h"
#include "editions.h"
#include "lending.h"
#include "plain_table.h"
#include "read_table.h"
#include "requests.h"
#include "tally.h"

#include <inttypes.h>
#include <stdio.h>
#include <stdlib.h>
#include <string.h>
#include <unistd.h>

enum { LISTS = 8000, ROUNDS = 120000, MOST_FAILURES = 10, SPACE_CELLS = 6000, OUT_CELLS = 2000, SECONDS = 20 };
enum { EDITIONS = LAST_EDITION, DEEP_NODES = 200000 };

static uint64_t seed = 1;
static unsigned lists = LISTS, rounds = ROUNDS;
static unsigned failures;

#define SAID(what, value) ((uint64_t)(what) << 32 | (value))
#define REFUSED(number) SAID(TABLES_CALL_REFUSED + (number), 0)
#define FAULT(fault) (UINT32_C(1) << (fault))

/* All that may come of each call on a space that passes, so neither 1 nor 9; each must come. */
static const uint32_t possible[TALLY_ROWS] = {
    [CALL] = RESULT(TABLES_NEW) | RESULT(TABLES_OLD_OPEN) | RESULT(TABLES_OLD_FINISHED) | READER_REFUSALS | REFUSAL(6) |
             ROOM_REFUSALS,
    [ANSWER] = RESULT(TABLES_NEW) | RESULT(TABLES_OLD) | REFUSAL(7) | REFUSAL(8) | READER_REFUSALS | ROOM_REFUSALS,
    [FINISH] = RESULT(TABLES_DONE) | REFUSAL(7),
    [NEXT] = RESULT(TABLES_AT) | RESULT(TABLES_NONE_YET) | RESULT(TABLES_NO_MORE) | REFUSAL(7),
    [LOAD] = RESULT(TABLES_CELLS) | REFUSAL(7) | REFUSAL(12),
    [INSTANCE] = RESULT(TABLES_CELLS) | REFUSAL(7) | REFUSAL(12),
    [COUNTS] = RESULT(TABLES_COUNTS) | REFUSAL(12),
};

static unsigned round_now;
static const char *damage_now = "none";

static void fail(const char *call, const char *what, uint64_t word)
{
    if (++failures > MOST_FAILURES)
        return;
    printf("failed: seed %" PRIu64 ", round %u, damage %s, %s: %s; result %#" PRIx64 "\n", seed, round_now, damage_now, call, what,
           word);
}

static bool same_cells(const uint32_t *one, const uint32_t *other, size_t count)
{
    return count == 0 || memcmp(one, other, count * sizeof *one) == 0;
}

/* Spaces */

struct image {
    size_t count;
    uint32_t cell[SPACE_CELLS];
};

enum { NODE, SUBGOAL, ANSWER_RECORD, SORTS };
enum { TOKEN, CHILD, SIBLING, PARENT, LINK };
enum { LEAF, ROOT, M, STATE, FIRST, LAST };
enum { OF_SUBGOAL = 1, NEXT_ANSWER = 2 };

static const size_t sizes[SORTS] = {5, 6, 3};

static struct arena space_arena, term_arena, out_arena;
static struct drawer drawer;
static struct known known;
static struct read_table table;

/* The first cell of a sort's records, and how many are in use, of a space with a sound header. */
static size_t start_of(const uint32_t *cells, size_t sort)
{
    return sort == NODE ? 8 : cells[4 + sort];
}

static uint32_t used(const struct image *image, size_t sort)
{
    return image->cell[1 + sort];
}

/* A record in use, by its place from 0. */
static uint32_t *record_at(struct image *image, size_t sort, size_t place)
{
    return &image->cell[start_of(image->cell, sort) + sizes[sort] * place];
}

static uint32_t *draw_record(struct image *image, size_t sort)
{
    return record_at(image, sort, below(used(image, sort)));
}

/* Checks a space that is lent at one end of the cells between the guard pages; it may not be written. */
static uint64_t check_lent(const struct image *image, bool at_end)
{
    uint32_t *space = lend(&space_arena, image->count, at_end);
    memcpy(space, image->cell, image->count * sizeof *space);
    uint64_t word = tables_check(space, image->count);
    if (!same_cells(space, image->cell, image->count))
        fail("check", "the space was changed", word);
    if (!marks_kept(&space_arena))
        fail("check", "cells beside those lent were changed", word);
    return word;
}

static uint64_t check_image(const struct image *image)
{
    bool at_end = chance(50);
    uint64_t word = check_lent(image, at_end);
    if (chance(20) && check_lent(image, !at_end) != word)
        fail("check", "another word at another place", word);
    return word;
}

/* A fresh space: small or roomy, now and then without room for subgoals or answers. */
static void draw_fresh(struct image *image)
{
    uint32_t nodes = (uint32_t)(chance(15) ? between(300, 600) : chance(10) ? between(1, 8) : between(8, 80));
    uint32_t subgoals = (uint32_t)(chance(4) ? 0 : between(1, 7)), answers = (uint32_t)(chance(4) ? 0 : between(1, 14));
    uint32_t edition = draw_edition();
    image->count = TABLES_SPACE_CELLS(nodes, subgoals, answers) + below(3);
    for (size_t i = 0; i < image->count; i++)
        image->cell[i] = (uint32_t)random_word();
    memset(&known, 0, sizeof known);
    open_drawer(&drawer, edition, nodes > 100 ? 20 : 2, 5, chance(50) ? 4 : 8);
    uint64_t made = tables_fresh(image->cell, image->count, nodes, subgoals, answers, edition);
    if (made != TABLES_DONE)
        fail("fresh", "no space to check", made);
}

static void draw_entry(struct request *request)
{
    static const enum request_kind kinds[] = {CALL, CALL, CALL, ANSWER, ANSWER, ANSWER, ANSWER, ANSWER};
    draw_request(&drawer, chance(4) ? FINISH : kinds[below(8)], &known, request);
}

static uint64_t enter(struct image *image, const struct request *request)
{
    static uint32_t out[TABLES_INSTANCE_CELLS];
    uint64_t word = make_request(request, image->cell, image->count, request->argument.cell, NULL, out, TABLES_INSTANCE_CELLS);
    learn_result(&known, request, word);
    return word;
}

static void draw_sound(struct image *image)
{
    static struct request request;
    draw_fresh(image);
    for (size_t calls = between(3, 40); calls > 0; calls--) {
        draw_entry(&request);
        enter(image, &request);
    }
}

/* Another writer: the forms of a table that was read, laid out in another order */

/* Adds the node of a token under a parent, behind its last child, or gives the one there is. */
static uint32_t lay_token(uint32_t *cells, uint32_t parent, uint32_t token)
{
    uint32_t *place = &cells[8 + 5 * (size_t)parent + CHILD];
    while (*place != 0) {
        uint32_t *record = &cells[8 + 5 * (size_t)*place];
        if (record[TOKEN] == token)
            return *place;
        place = &record[SIBLING];
    }
    uint32_t node = *place = cells[1]++;
    memcpy(&cells[8 + 5 * (size_t)node], (const uint32_t[]){token, 0, 0, parent, 0}, 5 * sizeof *cells);
    return node;
}

static uint32_t lay_form(uint32_t *cells, uint32_t root, const struct read_form *form, uint32_t link)
{
    uint32_t node = root;
    for (size_t i = 0; i < form->tokens; i++)
        node = lay_token(cells, node, form->token[i]);
    cells[8 + 5 * (size_t)node + LINK] = link;
    return node;
}

static void lay_subgoal(uint32_t *cells, uint32_t subgoal, bool root_first)
{
    const struct read_subgoal *read = &table.subgoal[subgoal - 1];
    uint32_t *record = &cells[cells[5] + 6 * (size_t)(subgoal - 1)];
    uint32_t root = 0;
    for (int time = 0; time < 2; time++) {
        if ((time == 0) == root_first) {
            root = cells[1]++;
            memcpy(&cells[8 + 5 * (size_t)root], (const uint32_t[]){0, 0, 0, root, 0}, 5 * sizeof *cells);
        } else {
            record[LEAF] = lay_form(cells, 0, &read->form, subgoal);
        }
    }
    record[ROOT] = root;
}

static void lay_answer(uint32_t *cells, uint32_t answer)
{
    const struct read_answer *read = &table.answer[answer - 1];
    uint32_t root = cells[cells[5] + 6 * (size_t)(read->subgoal - 1) + ROOT];
    cells[cells[6] + 3 * (size_t)(answer - 1)] = lay_form(cells, root, &read->form, answer);
}

static void draw_order(uint32_t *order, uint32_t count)
{
    for (uint32_t i = 0; i < count; i++) {
        uint32_t other = (uint32_t)below(i + 1);
        order[i] = order[other];
        order[other] = i + 1;
    }
}

/* The space of a table that was read whole, its nodes numbered in another order; everything else stays. */
static void lay_out(struct image *image)
{
    static uint32_t order[READ_ANSWERS];
    uint32_t *cells = image->cell;
    bool root_first = chance(5);
    memset(cells + 8, 0, 5 * sizeof *cells);
    cells[1] = 1;
    draw_order(order, table.used_subgoals);
    for (uint32_t i = 0; i < table.used_subgoals; i++)
        lay_subgoal(cells, order[i], root_first);
    draw_order(order, table.used_answers);
    for (uint32_t i = 0; i < table.used_answers; i++)
        lay_answer(cells, order[i]);
}

/* Forms that are legal for one term, or nearly: 0 ends them. */
#define A TABLES_CELL(TABLES_ATOM, 7)
#define V(rank) TABLES_CELL(TABLES_VARIABLE, rank)
#define OPENED TABLES_CELL(TABLES_BLIST, 0)
#define ENDED TABLES_CELL(TABLES_ELIST, 0)
#define TAILED TABLES_CELL(TABLES_EPAIR, 0)

static const uint32_t near_forms[][8] = {
    {OPENED, A, TAILED, A},         {OPENED, A, TAILED, TABLES_EMPTY_LIST}, {OPENED, TAILED, A},
    {OPENED, ENDED, A},             {OPENED, A, ENDED, TABLES_EMPTY_LIST},  {OPENED, A, TAILED, OPENED, A, ENDED, A},
    {OPENED, A, TAILED, V(0)},      {OPENED, A, ENDED, A, TABLES_EMPTY_LIST}, {OPENED, A, A},
    {OPENED, ENDED, OPENED, ENDED, A}, {OPENED, OPENED, ENDED, A, TAILED, A}, {TABLES_PAIR_CELL, A, A},
    {V(0)},                         {V(1)},                                 {OPENED, V(1), ENDED, V(0)},
    {OPENED, V(0), ENDED, V(1)},    {OPENED + 1, ENDED, A},                 {OPENED, ENDED + 1, A},
    {OPENED, A, TAILED + 1, A},     {TABLES_CELL(TABLES_FUNCTOR, 0x100), A}, {ENDED, A},
};

static void add_token(struct read_form *form, uint32_t token)
{
    if (form->tokens < READ_TOKENS)
        form->token[form->tokens++] = token;
}

/* About as many variables, cells or tokens as a term may have. */
static void add_long_form(struct read_form *form, uint32_t edition)
{
    size_t way = below(3), count = way == 0 ? between(31, 33) : way == 1 ? between(254, 256) : between(125, 127);
    if (way == 0)
        add_token(form, OPENED);
    for (size_t i = 0; i < count; i++) {
        if (way == 0 && i + 1 == count)
            add_token(form, ENDED);
        add_token(form, way == 0 ? V((uint32_t)i) : way == 1 ? tables_functor_cell(edition, 1, 1) : OPENED);
    }
    if (way > 0)
        add_token(form, A);
    for (size_t i = 0; way == 2 && i < count; i++) {
        add_token(form, TAILED);
        add_token(form, A);
    }
}

/* The same table laid out with another form for one answer that has terms, legal or nearly, where there is room. */
static void bend_form(struct image *image)
{
    uint32_t answer = table.used_answers == 0 ? 0 : (uint32_t)below(table.used_answers);
    uint32_t terms = table.used_answers == 0 ? 0 : table.subgoal[table.answer[answer].subgoal - 1].variables;
    struct read_form *form = &table.answer[answer].form;
    static struct read_form kept;
    if (terms == 0)
        return;
    kept = *form;
    form->tokens = 0;
    if (chance(30))
        add_long_form(form, table.edition);
    else
        for (const uint32_t *token = near_forms[below(sizeof near_forms / sizeof *near_forms)]; *token != 0; token++)
            add_token(form, *token);
    for (; terms > 1; terms--)
        add_token(form, A);
    if (table.used_nodes + form->tokens <= table.nodes)
        lay_out(image);
    else
        *form = kept;
}

/* Damage */

enum damage {
    NO_DAMAGE,
    FILLED_BEYOND,
    STATE_FLIPPED,
    ATOM_CHANGED,
    CELL_CHANGED,
    CELLS_CHANGED,
    CELLS_EXCHANGED,
    RECORDS_EXCHANGED,
    NODES_RENUMBERED,
    CHAIN_CUT,
    CHAIN_BENT,
    SIBLING_CUT,
    SIBLING_DOUBLED,
    COUNT_BENT,
    HEADER_BENT,
    CUT_SHORT,
    OTHER_EDITION,
    LINK_BENT,
    PARENT_BENT,
    TOKEN_CHANGED,
    SUBGOAL_BENT,
    RANDOM_RECORDS,
    FORM_BENT,
    DAMAGES
};

static const char *const damage_names[DAMAGES] = {
    "none", "beyond the counts filled", "state flipped", "atom changed", "cell changed", "cells changed", "cells exchanged",
    "records exchanged", "nodes renumbered", "chain cut", "chain bent", "sibling cut", "sibling doubled", "count bent",
    "header bent", "cut short", "other edition", "link bent", "parent or child bent", "token changed", "subgoal bent",
    "random records", "form bent",
};

/* These leave a table, whoever judges. */
static bool leaves_table(enum damage kind)
{
    return kind <= STATE_FLIPPED;
}

/* A cell of a record in use, and the records' number of each sort as likely. */
static size_t draw_place(const struct image *image)
{
    size_t sort = below(SORTS);
    while (used(image, sort) == 0)
        sort = below(SORTS);
    return start_of(image->cell, sort) + below(sizes[sort] * used(image, sort));
}

/* A value that a field may hold, or one at an edge of that. */
static uint32_t draw_value(const struct image *image, size_t place)
{
    switch (below(7)) {
    case 0:
        return (uint32_t)below(3);
    case 1:
        return image->cell[1 + below(SORTS)] + (uint32_t)below(3) - 1;
    case 2:
        return (uint32_t)below(image->cell[1 + below(SORTS)] + 1u);
    case 3:
        return image->cell[draw_place(image)];
    case 4:
        return image->cell[place] + (chance(50) ? 1u : UINT32_MAX);
    case 5:
        return raw_cell(below(10), below(3));
    default:
        return chance(50) ? UINT32_MAX : (uint32_t)random_word();
    }
}

static void change_cell(struct image *image)
{
    size_t place = draw_place(image);
    image->cell[place] = draw_value(image, place);
}

static void exchange(uint32_t *one, uint32_t *other, size_t count)
{
    for (size_t i = 0; i < count; i++) {
        uint32_t moved = one[i];
        one[i] = other[i];
        other[i] = moved;
    }
}

static void exchange_records(struct image *image)
{
    size_t sort = below(SORTS);
    if (used(image, sort) > 0)
        exchange(draw_record(image, sort), draw_record(image, sort), sizes[sort]);
}

static void renumber(uint32_t *number, uint32_t one, uint32_t other)
{
    *number = *number == one ? other : *number == other ? one : *number;
}

/* Two nodes exchange their numbers in every record: the same tries, and legal if every number still rises. */
static void renumber_nodes(struct image *image)
{
    uint32_t one = (uint32_t)below(used(image, NODE)), other = (uint32_t)below(used(image, NODE));
    if (one == 0 || other == 0)
        return;
    exchange(record_at(image, NODE, one), record_at(image, NODE, other), sizes[NODE]);
    for (uint32_t i = 0; i < used(image, NODE); i++)
        for (size_t field = CHILD; field <= PARENT; field++)
            renumber(&record_at(image, NODE, i)[field], one, other);
    for (uint32_t i = 0; i < used(image, SUBGOAL); i++)
        for (size_t field = LEAF; field <= ROOT; field++)
            renumber(&record_at(image, SUBGOAL, i)[field], one, other);
    for (uint32_t i = 0; i < used(image, ANSWER_RECORD); i++)
        renumber(&record_at(image, ANSWER_RECORD, i)[LEAF], one, other);
}

/* The first, last or next answer somewhere: 0, or one that there is. */
static void bend_chain(struct image *image, bool cut)
{
    uint32_t answer = cut ? 0 : (uint32_t)below(used(image, ANSWER_RECORD) + 1u);
    if (used(image, SUBGOAL) == 0)
        return;
    uint32_t *subgoal = draw_record(image, SUBGOAL);
    if (used(image, ANSWER_RECORD) > 0 && chance(60)) {
        draw_record(image, ANSWER_RECORD)[NEXT_ANSWER] = answer;
        return;
    }
    subgoal[chance(50) ? FIRST : LAST] = answer;
    if (cut && chance(50))
        subgoal[FIRST] = subgoal[LAST] = 0;
    else if (!cut && chance(30))
        subgoal[FIRST] = subgoal[LAST];
}

/* A node with a next sibling, or any. */
static uint32_t *draw_elder(struct image *image)
{
    uint32_t *record = draw_record(image, NODE);
    for (int tries = 20; tries > 0 && (record[SIBLING] == 0 || record[SIBLING] >= used(image, NODE)); tries--)
        record = draw_record(image, NODE);
    return record;
}

static void cut_siblings(struct image *image)
{
    uint32_t *record = draw_elder(image);
    if (chance(25))
        draw_record(image, NODE)[CHILD] = 0;
    else if (chance(50) || record[SIBLING] == 0)
        record[SIBLING] = 0;
    else
        record[SIBLING] = record_at(image, NODE, record[SIBLING])[SIBLING];
}

/* The next sibling takes the node's token, or the whole node but for its sibling. */
static void double_sibling(struct image *image)
{
    uint32_t *record = draw_elder(image);
    if (record[SIBLING] == 0)
        return;
    uint32_t *next = record_at(image, NODE, record[SIBLING]);
    next[TOKEN] = record[TOKEN];
    if (chance(20)) {
        next[CHILD] = record[CHILD];
        next[LINK] = record[LINK];
    }
}

static void bend_count(struct image *image)
{
    image->cell[1 + below(SORTS)] += chance(65) ? UINT32_MAX : 1u;
}

static void bend_header(struct image *image)
{
    size_t place = below(8);
    image->cell[place] =
        chance(50) ? image->cell[place] + (uint32_t)between(1, 6) - 3 : draw_value(image, place);
}

static void bend_link(struct image *image)
{
    uint32_t *record = draw_record(image, NODE);
    for (int tries = chance(70) ? 20 : 0; tries > 0 && record[LINK] == 0; tries--)
        record = draw_record(image, NODE);
    record[LINK] = chance(30) ? 0 : (uint32_t)below(used(image, chance(50) ? SUBGOAL : ANSWER_RECORD) + 1u);
}

static void bend_parent(struct image *image)
{
    draw_record(image, NODE)[between(CHILD, PARENT)] = (uint32_t)below(used(image, NODE) + 1u);
}

static void change_token(struct image *image)
{
    static const size_t payloads[] = {2, 2, 40, 300};
    draw_record(image, NODE)[TOKEN] = raw_cell(below(10), below(payloads[below(4)]));
}

/* An atom becomes another one that no term has. False: there was none. */
static bool change_atom(struct image *image)
{
    uint32_t *record = draw_record(image, NODE);
    for (int tries = 20; tries > 0 && (TABLES_KIND(record[TOKEN]) != TABLES_ATOM || record[TOKEN] == TABLES_EMPTY_LIST); tries--)
        record = draw_record(image, NODE);
    if (TABLES_KIND(record[TOKEN]) != TABLES_ATOM || record[TOKEN] == TABLES_EMPTY_LIST)
        return false;
    record[TOKEN] = tables_cell(TABLES_ATOM, 5000000 + below(5000000));
    return true;
}

/* A field of a subgoal or answer takes what another holds, or another number. */
static void bend_subgoal(struct image *image)
{
    size_t sort = chance(50) && used(image, ANSWER_RECORD) > 0 ? ANSWER_RECORD : SUBGOAL;
    if (used(image, sort) == 0)
        return;
    uint32_t *record = draw_record(image, sort), *other = draw_record(image, sort);
    size_t field = below(sizes[sort]);
    switch (below(3)) {
    case 0:
        record[field] = other[field];
        break;
    case 1:
        exchange(&record[field], &other[field], 1);
        break;
    default:
        record[field] += chance(50) ? 1u : UINT32_MAX;
    }
}

static void flip_state(struct image *image)
{
    if (used(image, SUBGOAL) == 0)
        return;
    uint32_t *subgoal = draw_record(image, SUBGOAL);
    subgoal[STATE] = 1 - subgoal[STATE];
}

/* The records beyond the counts, and the cells past the end, hold anything. */
static void fill_beyond(struct image *image)
{
    const size_t ends[SORTS] = {image->cell[5], image->cell[6], image->count};
    for (size_t sort = 0; sort < SORTS; sort++)
        for (size_t i = start_of(image->cell, sort) + sizes[sort] * used(image, sort); i < ends[sort]; i++)
            image->cell[i] = chance(50) ? (uint32_t)below(9) : (uint32_t)random_word();
}

static void randomise(struct image *image)
{
    uint32_t bound = image->cell[chance(50) ? 1 : 3] + 2;
    for (size_t i = 8; i < image->count; i++)
        image->cell[i] = (uint32_t)below(bound);
}

static void damage(struct image *image, enum damage kind)
{
    switch (kind) {
    case FILLED_BEYOND: fill_beyond(image); break;
    case STATE_FLIPPED: flip_state(image); break;
    case ATOM_CHANGED: change_atom(image); break;
    case CELL_CHANGED: change_cell(image); break;
    case CELLS_CHANGED:
        for (size_t times = between(2, 4); times > 0; times--)
            change_cell(image);
        break;
    case CELLS_EXCHANGED: exchange(&image->cell[draw_place(image)], &image->cell[draw_place(image)], 1); break;
    case RECORDS_EXCHANGED: exchange_records(image); break;
    case NODES_RENUMBERED: renumber_nodes(image); break;
    case CHAIN_CUT: bend_chain(image, true); break;
    case CHAIN_BENT: bend_chain(image, false); break;
    case SIBLING_CUT: cut_siblings(image); break;
    case SIBLING_DOUBLED: double_sibling(image); break;
    case COUNT_BENT: bend_count(image); break;
    case HEADER_BENT: bend_header(image); break;
    case CUT_SHORT: image->count = chance(30) ? below(12) : image->count - between(1, 12); break;
    case OTHER_EDITION: image->cell[0] = chance(70) ? other_edition(image->cell[0]) : draw_no_edition(); break;
    case LINK_BENT: bend_link(image); break;
    case PARENT_BENT: bend_parent(image); break;
    case TOKEN_CHANGED: change_token(image); break;
    case SUBGOAL_BENT: bend_subgoal(image); break;
    case RANDOM_RECORDS: randomise(image); break;
    case FORM_BENT: bend_form(image); break;
    default: break;
    }
}

/* What came of it */

enum outcome { PASSED_SAME, PASSED_OTHER, REFUSED_HEADER, BROKEN_NODE, BROKEN_SUBGOAL, BROKEN_ANSWER, OUTCOMES };

static const char *const outcome_names[OUTCOMES] = {
    "passed unchanged", "passed otherwise", "refused by 1", "9 node", "9 subgoal", "9 answer",
};

static uint64_t came[EDITIONS][OUTCOMES];
static uint64_t by_damage[DAMAGES][OUTCOMES];
static uint64_t found[READ_FAULTS], refused_of[READ_FAULTS]; /* by single cells changed */
static uint64_t found_alone[READ_FAULTS];                    /* the only fault that was found */
static uint64_t odd[READ_ODDITIES], odd_refused[READ_ODDITIES]; /* of spaces without a fault */
static uint64_t laid_out, damaged, single_cells, lost_named;
static uint64_t empty_spaces, full_spaces, passed_lists, checks_of_lists;

/* Holding a space that passes to its table */

static uint32_t *space;
static size_t space_cells;
static uint32_t before[SPACE_CELLS];
static uint64_t compared;

static uint64_t ask_plain(struct plain_table *plain, const struct request *request, uint32_t *out, size_t room)
{
    const uint32_t *cells = request->argument.cell;
    size_t count = request->argument.count;
    switch (request->kind) {
    case CALL:
        return plain_table_call(plain, cells, count);
    case ANSWER:
        return plain_table_answer(plain, request->number, cells, count);
    case FINISH:
        return plain_table_finish(plain, request->number);
    case NEXT:
        return plain_table_next(plain, request->number, request->after);
    case LOAD:
        return plain_table_load(plain, request->number, out, room);
    case INSTANCE:
        return plain_table_instance(plain, request->number, out, room);
    default:
        return plain_table_counts(plain, out, room);
    }
}

/*
 * The plain table of the lists that were read, entered in the order of their numbers, with the states that were read, whatever
 * the answers left. NULL: they are no table's.
 */
static struct plain_table *rebuild(void)
{
    struct plain_table *plain = plain_table_open(table.nodes, table.subgoals, table.answers, table.edition);
    bool entered = true;
    for (uint32_t i = 0; entered && i < table.used_subgoals; i++)
        entered = plain_table_call(plain, table.subgoal[i].form.cell, table.subgoal[i].form.cells) == SAID(TABLES_NEW, i + 1);
    for (uint32_t i = 0; entered && i < table.used_answers; i++)
        entered = plain_table_answer(plain, table.answer[i].subgoal, table.answer[i].form.cell, table.answer[i].form.cells) ==
                  SAID(TABLES_NEW, i + 1);
    for (uint32_t i = 0; entered && i < table.used_subgoals; i++)
        plain_table_set_state(plain, i + 1, table.subgoal[i].finished);
    if (entered)
        return plain;
    plain_table_close(plain);
    return NULL;
}

/* What the drawer knows of the table that was read. */
static void know_table(void)
{
    memset(&known, 0, sizeof known);
    known.subgoals = table.used_subgoals < KNOWN_SUBGOALS ? table.used_subgoals : KNOWN_SUBGOALS;
    known.answers = table.used_answers;
    for (uint32_t i = 0; i < known.subgoals; i++) {
        known.variables[i] = table.subgoal[i].variables;
        known.finished[i] = table.subgoal[i].finished;
    }
    if (drawer.edition != table.edition)
        open_drawer(&drawer, table.edition, 4, 5, 6);
}

/* Makes a request of the space and of the plain table: word, out, counts and whether the space may have changed. */
static uint64_t compare(struct plain_table *plain, const struct request *request, size_t room)
{
    static uint32_t plain_out[OUT_CELLS];
    const char *name = request_names[request->kind];
    uint32_t counts[3], plain_counts[3];
    size_t count = request->argument.count;
    uint32_t *terms = lend(&term_arena, count, chance(50)), *out = lend(&out_arena, room, chance(50));
    memcpy(terms, request->argument.cell, count * sizeof *terms);
    for (size_t i = 0; i < room; i++)
        out[i] = plain_out[i] = (uint32_t)random_word();
    memcpy(before, space, space_cells * sizeof *space);
    uint64_t word = make_request(request, space, space_cells, terms, NULL, out, room);
    uint64_t expected = ask_plain(plain, request, plain_out, room);
    compared++;
    if (!tally_result(possible, table.edition, request->kind, word))
        fail(name, "such a result cannot be of a space that passed", word);
    if (word != expected)
        fail(name, "another word than the table's", word);
    if (!same_cells(out, plain_out, room))
        fail(name, "other cells than the table's", word);
    if ((tables_refused_by(word) != 0 || only_reads(request->kind)) && !same_cells(space, before, space_cells))
        fail(name, "the space was changed", word);
    if (!marks_kept(&space_arena) || !marks_kept(&term_arena) || !marks_kept(&out_arena))
        fail(name, "cells beside those lent were changed", word);
    if (tables_counts(space, space_cells, counts, 3) != plain_table_counts(plain, plain_counts, 3) ||
        !same_cells(counts, plain_counts, 3))
        fail(name, "other counts than the table's", word);
    learn_result(&known, request, word);
    return word;
}

static void expect(struct plain_table *plain, const struct request *request, uint64_t expected)
{
    uint64_t word = compare(plain, request, OUT_CELLS);
    if (word != expected)
        fail(request_names[request->kind], "another word than by the cells that were read", word);
}

/* Every subgoal's answers in order, by next and load, against those that were read; at the end, the word of its state. */
static void list_answers(struct plain_table *plain)
{
    static struct request request;
    request.argument.count = 0;
    for (uint32_t subgoal = 1; subgoal <= table.used_subgoals; subgoal++) {
        request.number = subgoal;
        request.after = 0;
        for (uint32_t answer = 1; answer <= table.used_answers; answer++) {
            const struct read_answer *read = &table.answer[answer - 1];
            if (read->subgoal != subgoal)
                continue;
            request.kind = NEXT;
            request.number = subgoal;
            expect(plain, &request, SAID(TABLES_AT, answer));
            request.after = answer;
            request.kind = LOAD;
            request.number = answer;
            expect(plain, &request, SAID(TABLES_CELLS, read->form.cells));
            if (!same_cells(out_arena.lent, read->form.cell, read->form.cells))
                fail("load", "other cells than were read", answer);
            request.kind = INSTANCE;
            compare(plain, &request, OUT_CELLS);
        }
        request.kind = NEXT;
        request.number = subgoal;
        expect(plain, &request, SAID(table.subgoal[subgoal - 1].finished ? TABLES_NO_MORE : TABLES_NONE_YET, 0));
    }
}

/* Answers given again, by the state of their subgoal; open without variables is what no call leaves. */
static uint64_t given_open, given_finished, given_open_ground;

static void count_given(const struct read_subgoal *subgoal)
{
    given_finished += subgoal->finished;
    given_open += !subgoal->finished;
    given_open_ground += !subgoal->finished && subgoal->variables == 0;
}

static void give_form(struct request *request, const struct read_form *form)
{
    request->argument.count = form->cells;
    memcpy(request->argument.cell, form->cell, form->cells * sizeof *form->cell);
}

/* Every subgoal called again: old, in the state that was read. */
static void call_again(struct plain_table *plain)
{
    static struct request request;
    request.kind = CALL;
    for (uint32_t i = 0; i < table.used_subgoals; i++) {
        give_form(&request, &table.subgoal[i].form);
        expect(plain, &request, SAID(table.subgoal[i].finished ? TABLES_OLD_FINISHED : TABLES_OLD_OPEN, i + 1));
    }
}

/* Every answer given again: old, be the subgoal open or finished, and every state stays. */
static void enter_again(struct plain_table *plain)
{
    static struct request request;
    call_again(plain);
    request.kind = ANSWER;
    for (uint32_t i = 0; i < table.used_answers; i++) {
        request.number = table.answer[i].subgoal;
        give_form(&request, &table.answer[i].form);
        expect(plain, &request, SAID(TABLES_OLD, i + 1));
        count_given(&table.subgoal[request.number - 1]);
    }
    call_again(plain);
}

/* Is the space, as the calls left it, still that of a table, with the nodes of the sum? */
static void read_again(void)
{
    static struct read_table later;
    uint64_t word = tables_check(space, space_cells);
    if (word != SAID(TABLES_DONE, 0))
        fail("check", "a space that passed does not after calls", word);
    if (read_table(space, space_cells, &later) != 0)
        fail("check", "after calls no table can be read", word);
}

/* The promise: the space, as lent, answers as the table that was read. */
static void hold(const struct image *image, size_t calls)
{
    static const enum request_kind kinds[] = {CALL, CALL, CALL, ANSWER, ANSWER, ANSWER, FINISH, NEXT, LOAD, INSTANCE, COUNTS};
    static struct request request;
    struct plain_table *plain = rebuild();
    if (plain == NULL) {
        fail("check", "what passed holds no table", 0);
        return;
    }
    space_cells = image->count;
    space = lend(&space_arena, space_cells, chance(50));
    memcpy(space, image->cell, space_cells * sizeof *space);
    know_table();
    list_answers(plain);
    enter_again(plain);
    read_again();
    for (; calls > 0; calls--) {
        static const size_t rooms[] = {0, 1, 2, 3, 10, OUT_CELLS, OUT_CELLS};
        enum request_kind kind = kinds[below(sizeof kinds / sizeof *kinds)];
        if (kind == FINISH && chance(50))
            kind = ANSWER;
        draw_request(&drawer, kind, &known, &request);
        uint64_t word = compare(plain, &request, rooms[below(7)]);
        if (tables_refused_by(word) == 0 && !only_reads(kind) && tables_check(space, space_cells) != SAID(TABLES_DONE, 0))
            fail("check", "a space that passed does not after a call", word);
    }
    read_again();
    plain_table_close(plain);
}

/* Refusals */

/* Every call but fresh on the cells, which are kept: do all of them refuse by 1, or none? */
static bool is_header_refused(const struct image *image)
{
    static struct image copy;
    static const uint32_t atom = TABLES_CELL(TABLES_ATOM, 1);
    uint32_t out[3];
    unsigned refused = 0, calls = 0;
    copy = *image;
#define COUNT(word) (calls++, refused += (word) == REFUSED(TABLES_REFUSED_HEADER))
    COUNT(tables_counts(copy.cell, copy.count, out, 3));
    COUNT(tables_next(copy.cell, copy.count, 1, 0));
    COUNT(tables_load(copy.cell, copy.count, 1, out, 3));
    COUNT(tables_instance(copy.cell, copy.count, 1, out, 3));
    COUNT(tables_finish(copy.cell, copy.count, 0));
    COUNT(tables_answer(copy.cell, copy.count, 0, &atom, 1));
    COUNT(tables_call(copy.cell, copy.count, &atom, 1));
#undef COUNT
    if (refused != 0 && refused != calls)
        fail("check", "some calls refuse by 1, and some do not", refused);
    return refused == calls;
}

static void check_refusal(const struct image *image, uint64_t word)
{
    uint32_t refusal = tables_refused_by(word), kind = tables_broken_kind(word), number = tables_broken_number(word);
    if (refusal == TABLES_REFUSED_HEADER) {
        if (word != REFUSED(TABLES_REFUSED_HEADER) || kind != 0 || number != 0)
            fail("check", "refused by 1 with a value", word);
        return;
    }
    if (refusal != TABLES_REFUSED_DAMAGED)
        fail("check", "neither done nor refused by 1 or 9", word);
    else if (kind == TABLES_BROKEN_NODE ? number >= used(image, NODE)
             : kind == TABLES_BROKEN_SUBGOAL || kind == TABLES_BROKEN_ANSWER ? number == 0 || number > used(image, kind - 1)
                                                                             : true)
        fail("check", "a record that is not in use", word);
}

static enum outcome outcome_of(uint64_t word, bool same)
{
    if (tables_refused_by(word) == 0)
        return same ? PASSED_SAME : PASSED_OTHER;
    if (tables_refused_by(word) == TABLES_REFUSED_HEADER)
        return REFUSED_HEADER;
    return (enum outcome)(BROKEN_NODE + tables_broken_kind(word) - 1);
}

/* Is it exactly one cell, of the header's counts or of a record in use, that was changed? */
static bool is_single(const struct image *image, const struct image *sound)
{
    size_t changed = 0, place = 0;
    if (image->count != sound->count)
        return false;
    for (size_t i = 0; i < image->count; i++)
        if (image->cell[i] != sound->cell[i]) {
            changed++;
            place = i;
        }
    return changed == 1 && ((place >= 1 && place <= 3) || place >= 8);
}

static void count_faults(uint32_t faults, uint64_t word)
{
    single_cells++;
    for (unsigned fault = 0; fault < READ_FAULTS; fault++)
        if ((faults >> fault & 1) != 0) {
            found[fault]++;
            found_alone[fault] += faults == FAULT(fault);
            refused_of[fault] += tables_refused_by(word) != 0;
        }
}

static void count_oddities(uint32_t oddities, uint64_t word)
{
    for (unsigned oddity = 0; oddity < READ_ODDITIES; oddity++)
        if ((oddities >> oddity & 1) != 0) {
            odd[oddity]++;
            odd_refused[oddity] += tables_refused_by(word) != 0;
        }
}

static void check_damaged(void)
{
    static struct image sound, image;
    draw_sound(&sound);
    if (read_table(sound.cell, sound.count, &table) != 0)
        fail("read", "no table in a space made by calls", 0);
    if (chance(40)) {
        lay_out(&sound);
        laid_out++;
    }
    image = sound;
    enum damage kind = chance(30) ? CELL_CHANGED : chance(15) ? FORM_BENT : (enum damage)below(DAMAGES);
    damage_now = damage_names[kind];
    damage(&image, kind);
    bool same = image.count == sound.count && same_cells(image.cell, sound.cell, image.count);
    damaged += !same;
    uint32_t faults = read_table(image.cell, image.count, &table);
    uint64_t word = check_image(&image);
    bool header_refused = is_header_refused(&image);
    if (header_refused != (tables_refused_by(word) == TABLES_REFUSED_HEADER))
        fail("check", "1 where no call refuses so, or the other way", word);
    if (header_refused != ((faults & FAULT(FAULT_HEADER)) != 0))
        fail("check", "1 where the header is sound, or the other way", word);
    if (tables_refused_by(word) != 0)
        check_refusal(&image, word);
    uint32_t edition = sound.cell[0];
    enum outcome outcome = outcome_of(word, same);
    came[edition - 1][outcome]++;
    by_damage[kind][outcome]++;
    if (is_single(&image, &sound))
        count_faults(faults, word);
    if (faults != 0 && leaves_table(kind))
        fail("read", "no table where one was left", faults);
    if (faults == 0)
        count_oddities(table.oddities, word);
    if (faults == FAULT(FAULT_LOST) && table.oddities == 0) {
        lost_named++;
        if (word != REFUSED(TABLES_REFUSED_DAMAGED) + ((uint32_t)TABLES_BROKEN_ANSWER << 28 | table.lost))
            fail("check", "the first answer lost is not named", word);
    }
    if (tables_refused_by(word) != 0) {
        if (faults == 0 && table.oddities == 0)
            fail("check", "refused, though it is a table's", word);
        return;
    }
    if (faults != 0) {
        for (unsigned fault = 0; fault < READ_FAULTS; fault++)
            if ((faults >> fault & 1) != 0)
                fail("check passed", read_fault_names[fault], faults);
        return;
    }
    if ((table.oddities & FAULT(ODD_ORDER)) != 0)
        fail("check passed", read_oddity_names[ODD_ORDER], table.oddities);
    hold(&image, between(4, 16));
}

/* Lists of calls */

static void check_list(void)
{
    static struct image image;
    static struct request request;
    draw_fresh(&image);
    size_t calls = chance(5) ? 0 : between(1, chance(50) ? 60 : 15);
    for (size_t call = 0; call <= calls; call++) {
        uint64_t word = 0;
        bool full = false;
        if (call > 0) {
            draw_entry(&request);
            word = enter(&image, &request);
            full = tables_refused_by(word) == TABLES_REFUSED_NO_NODE || tables_refused_by(word) == TABLES_REFUSED_NO_RECORD;
        }
        full_spaces += full;
        if (call > 0 && call < calls && tables_refused_by(word) != 0 && !full)
            continue;
        checks_of_lists++;
        uint64_t checked = check_image(&image);
        if (checked != SAID(TABLES_DONE, 0))
            fail("check", "a space made by calls does not pass", checked);
    }
    empty_spaces += image.cell[2] == 0;
    passed_lists++;
    if (read_table(image.cell, image.count, &table) != 0)
        fail("read", "no table in a space made by calls", 0);
    else
        hold(&image, below(8));
}

/* Reports */

static unsigned too_seldom(const char *what, const char *name, uint64_t count)
{
    if (count > 0)
        return 0;
    printf("failed: never: %s: %s\n", what, name);
    return 1;
}

static unsigned report_outcomes(void)
{
    unsigned missing = 0;
    for (unsigned edition = 0; edition < EDITIONS; edition++)
        for (unsigned i = 0; i < OUTCOMES; i++) {
            printf("  %s%s %" PRIu64, i == 0 ? (edition == 0 ? "edition 1: " : "edition 2: ") : "", outcome_names[i], came[edition][i]);
            missing += too_seldom("outcome", outcome_names[i], came[edition][i]);
            if (i + 1 == OUTCOMES)
                printf("\n");
        }
    for (unsigned kind = 0; kind < DAMAGES; kind++) {
        uint64_t all = 0;
        printf("  %-26s", damage_names[kind]);
        for (unsigned i = 0; i < OUTCOMES; i++) {
            all += by_damage[kind][i];
            if (by_damage[kind][i] > 0)
                printf(" %s %" PRIu64, outcome_names[i], by_damage[kind][i]);
        }
        printf("\n");
        missing += too_seldom("damage", damage_names[kind], all);
    }
    return missing;
}

/* Single cells changed that make no table: each sort must come and be refused, whether alone or with others. */
static unsigned report_faults(void)
{
    static const enum read_fault shapes[] = {FAULT_BEYOND, FAULT_ROOT, FAULT_TWICE, FAULT_SIBLING, FAULT_FIND, FAULT_LINK,
                                             FAULT_LOST,   FAULT_CHAIN, FAULT_SUM, FAULT_FORM, FAULT_PATH, FAULT_PREDICATE, FAULT_LIST};
    unsigned wrong = 0;
    printf("  single cells changed: %" PRIu64 "; found by the reader, of these alone, refused:\n", single_cells);
    for (unsigned fault = 0; fault < READ_FAULTS; fault++) {
        printf("    %-42s %7" PRIu64 " %7" PRIu64 " %7" PRIu64 "\n", read_fault_names[fault], found[fault], found_alone[fault],
               refused_of[fault]);
        if (refused_of[fault] != found[fault]) {
            wrong++;
            printf("failed: passed with %s\n", read_fault_names[fault]);
        }
    }
    for (size_t i = 0; i < sizeof shapes / sizeof *shapes; i++)
        wrong += too_seldom("single cell", read_fault_names[shapes[i]], found[shapes[i]]);
    return wrong;
}

/* What no call writes or notices: the check may pass or refuse it; what passes was held to its table. */
static unsigned report_oddities(void)
{
    unsigned missing = too_seldom("lost", "alone, so that it is named", lost_named);
    printf("  tables with what no call writes or notices; refused:\n");
    for (unsigned oddity = 0; oddity < READ_ODDITIES; oddity++) {
        printf("    %-42s %7" PRIu64 " %7" PRIu64 "\n", read_oddity_names[oddity], odd[oddity], odd_refused[oddity]);
        missing += too_seldom("oddity", read_oddity_names[oddity], odd[oddity]);
    }
    printf("  answers lost and nothing else wrong, so named: %" PRIu64 "\n", lost_named);
    return missing;
}

static unsigned report_given(void)
{
    printf("  answers given again, old: to open subgoals %" PRIu64 ", of these without variables %" PRIu64 ", to finished ones %" PRIu64
           "\n", given_open, given_open_ground, given_finished);
    return too_seldom("given again", "open", given_open) + too_seldom("given again", "open without variables", given_open_ground) +
           too_seldom("given again", "finished", given_finished);
}

static unsigned report_counts(void)
{
    printf("  lists of calls: %" PRIu64 ", checks of them %" PRIu64 ", of a full table %" PRIu64 ", of one without subgoals %" PRIu64
           "\n  damaged spaces: %" PRIu64 ", of these rounds laid out by another writer: %" PRIu64 "\n",
           passed_lists, checks_of_lists, full_spaces, empty_spaces, damaged, laid_out);
    return too_seldom("lists", "full", full_spaces) + too_seldom("lists", "empty", empty_spaces) +
           too_seldom("spaces", "laid out", laid_out) + (rounds >= ROUNDS ? too_seldom("spaces", "20,000 damaged", damaged / 20000) : 0);
}

/* A space that is none: no cells, and no whole header. */
static void check_short(void)
{
    const uint32_t cells[7] = {1, 1, 0, 0, 8, 13, 13};
    for (size_t count = 0; count <= 7; count++) {
        uint64_t word = tables_check(count == 0 ? NULL : cells, count);
        if (word != REFUSED(TABLES_REFUSED_HEADER))
            fail("check", "a space without a whole header", word);
    }
}

/*
 * A subgoal whose path has so many nodes, all of one token but for the first and the last, which is legal for f/1 and not for
 * marks. The check must return on a small stack however long the path is.
 */
static void check_deep(uint32_t length, uint32_t token)
{
    static uint32_t cells[TABLES_SPACE_CELLS(DEEP_NODES, 1, 0)];
    const uint32_t atom = TABLES_CELL(TABLES_ATOM, 1), functor = TABLES_FUNCTOR_CELL(TABLES_EDITION_1, 1, 1);
    size_t count = TABLES_SPACE_CELLS(length + 2, 1, 0);
    uint64_t made = tables_fresh(cells, count, length + 2, 1, 0, TABLES_EDITION_1);
    if (made != TABLES_DONE)
        fail("fresh", "no space to check", made);
    for (uint32_t node = 0; node <= length; node++) {
        uint32_t *record = &cells[8 + 5 * (size_t)node];
        record[TOKEN] = node == 0 ? 0 : node == length ? atom : node == 1 ? functor : token;
        record[CHILD] = node == length ? 0 : node + 1;
        record[PARENT] = node == 0 ? 0 : node - 1;
        record[LINK] = node == length;
    }
    cells[8 + 5 * (size_t)(length + 1) + PARENT] = length + 1;
    memcpy(&cells[cells[5]], (const uint32_t[]){length, length + 1, 0, 0, 0, 0}, 6 * sizeof *cells);
    cells[1] = length + 2;
    cells[2] = 1;
    bool legal = length <= TABLES_TERM_CELLS && (token == functor || length <= 2);
    uint64_t word = tables_check(cells, count);
    uint64_t broken = REFUSED(TABLES_REFUSED_DAMAGED) + ((uint32_t)TABLES_BROKEN_SUBGOAL << 28 | 1);
    if (word != (legal ? SAID(TABLES_DONE, 0) : broken))
        fail("check", "a long path", word);
}

static void check_deep_ones(void)
{
    static const uint32_t lengths[] = {2, 3, 255, 256, 257, 382, 383, 384, 1000, DEEP_NODES - 2};
    for (size_t i = 0; i < sizeof lengths / sizeof *lengths; i++) {
        check_deep(lengths[i], TABLES_FUNCTOR_CELL(TABLES_EDITION_1, 1, 1));
        check_deep(lengths[i], TABLES_CELL(TABLES_BLIST, 0));
    }
}

/* Arguments: the seed, the number of lists of calls, and the number of rounds with damage. */
int main(int argc, char **argv)
{
    if (argc > 1)
        seed = strtoull(argv[1], NULL, 10);
    if (argc > 2)
        lists = (unsigned)strtoul(argv[2], NULL, 10);
    if (argc > 3)
        rounds = (unsigned)strtoul(argv[3], NULL, 10);
    setvbuf(stdout, NULL, _IOLBF, BUFSIZ);
    report_crashes();
    open_arena(&space_arena, SPACE_CELLS);
    open_arena(&term_arena, ARGUMENT_CELLS);
    open_arena(&out_arena, OUT_CELLS);
    seed_drawing(seed);
    check_short();
    check_deep_ones();
    for (round_now = 1; round_now <= lists && failures < MOST_FAILURES; round_now++) {
        alarm(SECONDS);
        note_place("seed %" PRIu64 ", list %u", seed, round_now);
        check_list();
    }
    for (round_now = 1; round_now <= rounds && failures < MOST_FAILURES; round_now++) {
        alarm(SECONDS);
        note_place("seed %" PRIu64 ", round %u", seed, round_now);
        check_damaged();
    }
    if (failures == 0)
        failures += check_tally(possible, 1) + report_outcomes() + report_faults() + report_oddities() + report_given() + report_counts();
    printf("check_test: seed %" PRIu64 ", %u lists, %u spaces, %" PRIu64 " calls compared, %u failures\n", seed, lists, rounds,
           compared, failures);
    return failures == 0 ? 0 : 1;
}
