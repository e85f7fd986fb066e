/*
 * Makes every call over random damaged spaces of both editions, against guard pages, and compares the word, every cell of the
 * space and every cell of out with another implementation of the calls (cells_model.c). The calls that search are made without
 * an index and with one, of any cells or of a build that was made before the damage; and indexes are built of such spaces, where
 * every cell of the index is compared too.
 */
#define _DEFAULT_SOURCE

#include "../include/tables.h"
#include "cells_model.h"
#include "drawing.h"
#include "editions.h"
#include "indexes.h"
#include "lending.h"
#include "model_requests.h"
#include "requests.h"
#include "tally.h"

#include <inttypes.h>
#include <stdio.h>
#include <stdlib.h>
#include <string.h>
#include <unistd.h>

enum { ROUNDS = 150000, MOST_FAILURES = 10, SPACE_CELLS = 6000, OUT_CELLS = 2000, SECONDS = 20 };
enum { ROOMY_NODES = 3000, ROOMY_SUBGOALS = 20, ROOMY_ANSWERS = 1000 };

static uint64_t seed = 1;
static unsigned rounds = ROUNDS;
static unsigned failures;

/* All that may come of each call on any space; each must come. With an index it is the same. */
#define CALL_RESULTS \
    (RESULT(TABLES_NEW) | RESULT(TABLES_OLD_OPEN) | RESULT(TABLES_OLD_FINISHED) | READER_REFUSALS | \
     REFUSAL(6) | ROOM_REFUSALS | REFUSAL(1) | REFUSAL(9))
#define ANSWER_RESULTS \
    (RESULT(TABLES_NEW) | RESULT(TABLES_OLD) | REFUSAL(7) | REFUSAL(8) | READER_REFUSALS | \
     ROOM_REFUSALS | REFUSAL(1) | REFUSAL(9))
#define JOIN_RESULTS \
    (RESULT(TABLES_JOINED) | RESULT(JOINED_NONE) | REFUSAL(7) | REFUSAL(8) | REFUSAL(14) | \
     REFUSAL(15) | REFUSAL(16) | REFUSAL(4) | ROOM_REFUSALS | REFUSAL(1) | REFUSAL(9))

static const uint32_t possible[TALLY_ROWS] = {
    [CALL] = CALL_RESULTS,
    [ANSWER] = ANSWER_RESULTS,
    [FINISH] = RESULT(TABLES_DONE) | REFUSAL(7) | REFUSAL(1) | REFUSAL(9),
    [JOIN] = JOIN_RESULTS,
    [NEXT] = RESULT(TABLES_AT) | RESULT(TABLES_NONE_YET) | RESULT(TABLES_NO_MORE) | REFUSAL(7) |
             REFUSAL(1) | REFUSAL(9),
    [LOAD] = RESULT(TABLES_CELLS) | REFUSAL(7) | REFUSAL(12) | REFUSAL(1) | REFUSAL(9),
    [INSTANCE] = RESULT(TABLES_CELLS) | REFUSAL(7) | REFUSAL(12) | REFUSAL(1) | REFUSAL(9),
    [COUNTS] = RESULT(TABLES_COUNTS) | REFUSAL(12) | REFUSAL(1),
    [FRESH] = RESULT(TABLES_DONE) | REFUSAL(2),
    [BUILD] = RESULT(TABLES_BUILT) | RESULT(BUILT_NONE) | REFUSAL(1) | REFUSAL(9) | REFUSAL(17),
    [INDEXED_CALL] = CALL_RESULTS,
    [INDEXED_ANSWER] = ANSWER_RESULTS,
    [INDEXED_JOIN] = JOIN_RESULTS,
};

/* The calls so far that were compared with the other implementation. */
static unsigned long compared;

static void fail(unsigned round, const char *call, const char *what, uint64_t word)
{
    if (++failures > MOST_FAILURES)
        return;
    printf("failed: seed %" PRIu64 ", round %u, %s (call %lu): %s; result %#" PRIx64 "\n", seed, round,
           call, compared, what, word);
}

/* Compares a word with the other implementation's. */
static void compare_word(unsigned round, const char *call, uint64_t word, uint64_t expected)
{
    compared++;
    if (word == expected)
        return;
    fail(round, call, "another result than the model's", word);
    printf("  instead of %#" PRIx64 "\n", expected);
}

/* Spaces */

struct image {
    uint32_t edition; /* before any damage */
    size_t count;
    uint32_t cell[SPACE_CELLS];
};

static struct arena space_arena, term_arena, copy_arena, out_arena, index_arena;
static struct drawer drawer;
static struct known known;

/* The plan that the space was made by, and the join that it was made for; none for another space. */
static struct plan plan;
static const struct request *planned;

/* Calls and answers that are in the space before it is damaged, so that they are offered again. */
enum { MOST_GIVEN = 96 };

static struct given {
    size_t count;
    struct request request[MOST_GIVEN];
} given_calls, given_answers;

/* Indexes of the space before it is damaged: of all that is in it, and of what was in it some calls before. */
static struct index built, stale;

/* For a new space. */
static void forget(void)
{
    memset(&known, 0, sizeof known);
    given_calls.count = given_answers.count = 0;
    built.count = stale.count = 0;
}

/* Makes a request of cells that are lent as they are, and learns from what comes of it. */
static void enter(const struct request *request, uint32_t *space, size_t space_cells)
{
    static uint32_t out[TABLES_INSTANCE_CELLS];
    uint64_t word = make_request(request, space, space_cells, request->argument.cell,
                                 request->copies.cell, out, TABLES_INSTANCE_CELLS);
    struct given *given = request->kind == CALL ? &given_calls : &given_answers;
    learn_result(&known, request, word);
    if (tables_what(word) == TABLES_NEW && given->count < MOST_GIVEN)
        given->request[given->count++] = *request;
}

/* An index of a sound space with just enough slots, or with some more; none if that is too many. */
static void build_index(struct index *index, const struct image *image)
{
    size_t enough = power_from(2 * children_to_enter(image->cell)), slots = enough << below(4);
    index->count = slots <= INDEX_CELLS ? slots : enough <= INDEX_CELLS ? enough : 0;
    (void)cells_model_build(image->cell, image->count, index->cell, index->count);
}

static void make_fresh(uint32_t *space, size_t space_cells, uint32_t nodes, uint32_t subgoals,
                       uint32_t answers, uint32_t edition)
{
    uint64_t made = tables_fresh(space, space_cells, nodes, subgoals, answers, edition);
    if (made != TABLES_DONE)
        fail(0, "fresh", "no space to damage", made);
}

/* One of the plan's joins, most likely its first. */
static size_t draw_planned(void)
{
    size_t first = 0, found;
    while (plan.request[first].kind != JOIN)
        first++;
    found = first;
    for (size_t i = first + 1; i < plan.count; i++)
        if (plan.request[i].kind == JOIN && chance(20))
            found = i;
    return found;
}

/* How many records it is, or about as many. */
static uint32_t about(uint32_t records)
{
    uint32_t near = records - (records > 1 && chance(15));
    return chance(30) ? near + (uint32_t)below(30) : near;
}

/*
 * A sound space made by a plan, mostly one with many children under some nodes, up to one of its
 * joins, which is still to be made or was made once, with room for it, or with little less or more.
 * False: it would be too large.
 */
static bool draw_for_join(struct image *image)
{
    static uint32_t roomy[TABLES_SPACE_CELLS(ROOMY_NODES, ROOMY_SUBGOALS, ROOMY_ANSWERS)];
    size_t roomy_cells = sizeof roomy / sizeof *roomy;
    image->edition = draw_edition();
    (chance(60) ? draw_wide_plan : draw_plan)(image->edition, &plan);
    size_t join = draw_planned(), made = join + chance(35), half = below(made + 1);
    forget();
    make_fresh(roomy, roomy_cells, ROOMY_NODES, ROOMY_SUBGOALS, ROOMY_ANSWERS, image->edition);
    for (size_t i = 0; i <= join; i++)
        enter(&plan.request[i], roomy, roomy_cells);
    uint32_t nodes = about(roomy[1]), subgoals = roomy[2] + (uint32_t)below(2);
    uint32_t answers = about(roomy[3]);
    image->count = TABLES_SPACE_CELLS(nodes, subgoals, answers) + below(3);
    if (image->count > SPACE_CELLS || known.subgoals == 0)
        return false;
    forget();
    open_drawer(&drawer, image->edition, 2, 5, 4);
    make_fresh(image->cell, image->count, nodes, subgoals, answers, image->edition);
    for (size_t i = 0; i < made; i++) {
        if (i == half)
            build_index(&stale, image);
        enter(&plan.request[i], image->cell, image->count);
    }
    build_index(&built, image);
    planned = &plan.request[join];
    return true;
}

/* A sound space: random calls on a fresh one. */
static void draw_sound(struct image *image)
{
    static struct request request;
    uint32_t nodes = (uint32_t)(chance(15) ? between(300, 600) : between(5, 70));
    uint32_t subgoals = (uint32_t)between(1, 7), answers = (uint32_t)between(1, 12);
    image->edition = draw_edition();
    image->count = TABLES_SPACE_CELLS(nodes, subgoals, answers) + below(3);
    planned = NULL;
    forget();
    open_drawer(&drawer, image->edition, nodes > 100 ? 20 : 2, 5, chance(50) ? 4 : 8);
    make_fresh(image->cell, image->count, nodes, subgoals, answers, image->edition);
    for (size_t calls = between(3, 40); calls > 0; calls--) {
        static const enum request_kind kinds[] = {CALL,   CALL,   CALL,   ANSWER,
                                                  ANSWER, ANSWER, ANSWER, ANSWER};
        enum request_kind kind = chance(4) ? FINISH : kinds[below(8)];
        draw_request(&drawer, kind, &known, &request);
        enter(&request, image->cell, image->count);
    }
}

/* A value at some edge of what a cell may hold in this space. */
static uint32_t edge_value(const struct image *image)
{
    const uint32_t *header = image->cell;
    uint32_t near = (uint32_t)below(3) - 1; /* one below, at, or one above */
    switch (below(8)) {
    case 0:
        return (uint32_t)below(3);
    case 1:
        return header[1] + near;
    case 2:
        return header[2] + near;
    case 3:
        return header[3] + near;
    case 4:
        return UINT32_MAX - (uint32_t)below(2);
    case 5:
        return (uint32_t)below(header[1] + 1u);
    case 6:
        return image->cell[below(image->count)];
    default:
        return (uint32_t)random_word();
    }
}

/* A cell of a record in use, or seldom any cell. */
static size_t draw_place(const struct image *image)
{
    const uint32_t *header = image->cell;
    switch (below(10)) {
    case 0:
        return below(image->count);
    case 1:
    case 2:
    case 3:
    case 4:
        return 8 + below(5 * (size_t)header[1]);
    case 5:
    case 6:
        return header[2] == 0 ? 8 : header[5] + below(6 * (size_t)header[2]);
    default:
        return header[3] == 0 ? 9 : header[6] + below(3 * (size_t)header[3]);
    }
}

/* Some cells changed, the header's seldom. */
static void damage_cells(struct image *image)
{
    struct image sound = *image;
    for (size_t changes = between(1, chance(60) ? 2 : 12); changes > 0; changes--) {
        size_t place = draw_place(&sound);
        uint32_t value = edge_value(&sound);
        if (chance(30))
            value = sound.cell[place] + (chance(50) ? 1u : UINT32_MAX);
        image->cell[place] = value;
    }
}

static void damage_header(struct image *image)
{
    size_t place = below(8);
    image->cell[place] =
        chance(50) ? image->cell[place] + (uint32_t)between(1, 6) - 3 : edge_value(image);
}

/* The other edition, which may read the same tokens otherwise, or a number that is none. */
static void damage_edition(struct image *image)
{
    image->cell[0] = chance(60) ? other_edition(image->edition) : draw_no_edition();
}

/* All cells behind the header anew: any, or small ones that may name records. */
static void randomise(struct image *image)
{
    bool small = chance(80);
    uint32_t bound = image->cell[chance(50) ? 1 : 3] + 2;
    for (size_t i = 8; i < image->count; i++)
        image->cell[i] = small ? (uint32_t)below(bound) : (uint32_t)random_word();
}

/* Some pairs of cells exchanged. */
static void exchange_cells(struct image *image)
{
    struct image sound = *image;
    for (size_t changes = between(1, 3); changes > 0; changes--) {
        size_t one = draw_place(&sound), other = draw_place(&sound);
        uint32_t moved = image->cell[one];
        image->cell[one] = image->cell[other];
        image->cell[other] = moved;
    }
}

/* A node, subgoal or answer in use, whole: small numbers that may name records, or any. */
static void damage_record(struct image *image)
{
    const uint32_t *header = image->cell;
    static const size_t sizes[] = {5, 6, 3};
    const size_t from[] = {8, header[5], header[6]};
    size_t sort = below(3), used = header[1 + sort];
    bool small = chance(70);
    if (used == 0)
        return;
    size_t record = from[sort] + sizes[sort] * below(used);
    for (size_t i = 0; i < sizes[sort]; i++)
        image->cell[record + i] = small ? edge_value(image) : (uint32_t)random_word();
}

/* Records beyond the counts hold anything, and are in order all the same. */
static void fill_beyond(struct image *image)
{
    const uint32_t *header = image->cell;
    const size_t starts[] = {8 + 5 * (size_t)header[1], header[5] + 6 * (size_t)header[2],
                             header[6] + 3 * (size_t)header[3]};
    const size_t ends[] = {header[5], header[6], image->count};
    for (size_t sort = 0; sort < 3; sort++)
        for (size_t i = starts[sort]; i < ends[sort]; i++)
            image->cell[i] = (uint32_t)random_word();
}

/* Sound records, and tokens that may or may not make terms. */
static void damage_tokens(struct image *image)
{
    static const size_t payloads[] = {2, 2, 40, 300};
    for (size_t changes = between(1, 6); changes > 0; changes--)
        image->cell[8 + 5 * below(image->cell[1])] =
            raw_cell(below(10), below(payloads[below(4)]));
}

/* A record in use, of nodes (0), subgoals (1) or answers (2), which has one. */
static uint32_t *draw_record(struct image *image, size_t sort)
{
    static const size_t sizes[] = {5, 6, 3};
    const size_t from[] = {8, image->cell[5], image->cell[6]};
    return &image->cell[from[sort] + sizes[sort] * below(image->cell[1 + sort])];
}

/* A number from 0 to those used of a sort, as a field may hold it. */
static uint32_t draw_used(const struct image *image, size_t sort)
{
    return (uint32_t)below(image->cell[1 + sort] + (sort > 0));
}

/* Records of the planned join's target: the subgoal, its last answer, and a node on that one's path. */
static void aim(struct image *image, uint32_t **subgoal, uint32_t **answer, uint32_t **node)
{
    uint32_t *cells = image->cell;
    uint32_t target = planned->target;
    if (target == 0 || target > cells[2])
        return;
    *subgoal = &cells[cells[5] + 6 * (target - 1)];
    uint32_t last = (*subgoal)[5];
    if (last == 0 || last > cells[3])
        return;
    *answer = &cells[cells[6] + 3 * (last - 1)];
    uint32_t on_path = (*answer)[0];
    for (size_t up = below(4); up > 0 && on_path < cells[1]; up--)
        on_path = cells[8 + 5 * (size_t)on_path + 3];
    if (on_path < cells[1])
        *node = &cells[8 + 5 * (size_t)on_path];
}

/*
 * A field that names a record, or a state, or an m, bent to what another such
 * field may hold, so that it is in range: tries that share a root, chains that
 * pass into others, leaves of other answers, links that lead elsewhere.
 */
static void bend(struct image *image)
{
    enum { LEAF, ROOT, M, STATE, FIRST, LAST, SUBGOAL_FIELDS };
    if (image->cell[2] == 0 || image->cell[3] == 0)
        return;
    uint32_t *subgoal = draw_record(image, 1), *other = draw_record(image, 1);
    uint32_t *answer = draw_record(image, 2), *node = draw_record(image, 0);
    if (planned != NULL && chance(50))
        aim(image, &subgoal, &answer, &node);
    size_t field = below(SUBGOAL_FIELDS);
    uint32_t moved = subgoal[field];
    switch (below(10)) {
    case 0:
        subgoal[STATE] = 1 - subgoal[STATE];
        break;
    case 1:
        subgoal[M] += chance(50) ? 1u : UINT32_MAX;
        break;
    case 2: /* exchanged */
        subgoal[field] = other[field];
        other[field] = moved;
        break;
    case 3:
        subgoal[field] = other[field];
        break;
    case 4:
        subgoal[FIRST] = draw_used(image, 2);
        if (chance(50))
            subgoal[LAST] = draw_used(image, 2);
        break;
    case 5:
        answer[0] = chance(50) ? draw_record(image, 2)[0] : draw_used(image, 0);
        break;
    case 6:
        answer[1] = draw_used(image, 1);
        break;
    case 7:
        answer[2] = draw_used(image, 2);
        break;
    case 8:
        node[4] = chance(30) ? 0 : draw_used(image, 2);
        break;
    default: /* the child, the sibling or the parent of a node */
        node[between(1, 3)] = chance(30) ? 0 : draw_used(image, 0);
    }
}

static void bend_fields(struct image *image)
{
    for (size_t times = chance(60) ? 1 : between(2, 4); times > 0; times--)
        bend(image);
}

/* A node in use that is no root, or the root of the planned join's target; node 0 if there is neither. */
static uint32_t *draw_bent(struct image *image)
{
    uint32_t *cells = image->cell;
    if (planned != NULL && chance(40) && planned->target - 1 < cells[2])
        return &cells[8 + 5 * (size_t)cells[cells[5] + 6 * (planned->target - 1) + 1]];
    for (unsigned tries = 0; tries < 8; tries++) {
        uint32_t *node = draw_record(image, 0);
        if (node[3] != (uint32_t)(node - cells - 8) / 5)
            return node;
    }
    return &cells[8];
}

/* A node in use, most likely one with the same parent. */
static const uint32_t *draw_relative(const struct image *image, const uint32_t *node)
{
    const uint32_t *other = &image->cell[8];
    for (unsigned tries = chance(70) ? 20 : 1; tries > 0; tries--) {
        other = &image->cell[8 + 5 * below(image->cell[1])];
        if (other[3] == node[3] && other[0] != node[0])
            break;
    }
    return other;
}

/* The planned join's target without its answers, which an index still leads to, some of them damaged or with other tokens. */
static void hide_target(struct image *image)
{
    uint32_t *cells = image->cell, target = planned->target;
    if (target - 1 >= cells[2])
        return;
    uint32_t root = cells[cells[5] + 6 * (target - 1) + 1];
    cells[8 + 5 * (size_t)root + 1] = 0;
    for (uint32_t node = root + 1; node < cells[1]; node++) {
        uint32_t *record = &cells[8 + 5 * (size_t)node], parent = record[3];
        bool below_target = parent < node && cells[8 + 5 * (size_t)parent + 3] == root && parent != root;
        if (below_target && chance(20))
            record[chance(50) ? 4 : 0] = UINT32_MAX;
    }
}

/*
 * Nodes bent so that an index leads elsewhere than the siblings do: children that no sibling leads
 * to, two with one token, a node that has become a child of another's parent, a damaged one before
 * others that are sound, and children that are not in use any more.
 */
static void bend_tries(struct image *image)
{
    enum { TOKEN, CHILD, SIBLING, PARENT, LINK };
    struct image sound = *image;
    if (planned != NULL && chance(40))
        hide_target(image);
    for (size_t times = between(1, 4); times > 0; times--) {
        uint32_t *node = draw_bent(image), sibling = node[SIBLING];
        const uint32_t *other = draw_relative(&sound, node);
        switch (below(8)) {
        case 0: /* hidden */
            node[CHILD] = 0;
            break;
        case 1:
            node[SIBLING] = 0;
            break;
        case 2: /* one left out */
            if (sibling < sound.cell[1])
                node[SIBLING] = sound.cell[8 + 5 * (size_t)sibling + SIBLING];
            break;
        case 3: /* a twin, on the siblings or off them */
            node[TOKEN] = other[TOKEN];
            if (chance(70))
                node[PARENT] = other[PARENT];
            break;
        case 4:
            node[PARENT] = other[PARENT];
            break;
        case 5:
            node[LINK] = chance(50) ? UINT32_MAX : draw_used(image, 2);
            break;
        case 6:
            if (image->cell[1] > 8)
                image->cell[1] -= (uint32_t)between(1, 4);
            break;
        default:
            node[between(CHILD, SIBLING)] = chance(50) ? UINT32_MAX : draw_used(image, 0);
        }
    }
}

/* The kinds of damage; how often a join was made of a space with each. */
enum damage {
    RANDOM_RECORDS,
    BENT_HEADER,
    CUT_SHORT,
    OTHER_TOKENS,
    OTHER_EDITION,
    SOUND,
    EXCHANGED_CELLS,
    RANDOM_RECORD,
    FILLED_BEYOND,
    BENT_FIELDS,
    BENT_TRIES,
    CHANGED_CELLS,
    DAMAGES
};

static const char *const damage_names[DAMAGES] = {
    [RANDOM_RECORDS] = "all records random", [BENT_HEADER] = "bent header",
    [CUT_SHORT] = "cut short",               [OTHER_TOKENS] = "other tokens",
    [OTHER_EDITION] = "other edition",       [SOUND] = "sound",
    [EXCHANGED_CELLS] = "exchanged cells",   [RANDOM_RECORD] = "random record",
    [FILLED_BEYOND] = "records beyond the counts filled, half of them with changed cells too",
    [BENT_FIELDS] = "bent fields",           [BENT_TRIES] = "bent tries",
    [CHANGED_CELLS] = "changed cells",
};

static uint64_t joins_by_damage[DAMAGES];

static enum damage draw_damage(void)
{
    static const enum damage often[] = {EXCHANGED_CELLS, BENT_FIELDS,   BENT_FIELDS,
                                        BENT_FIELDS,     CHANGED_CELLS, CHANGED_CELLS,
                                        CHANGED_CELLS,   BENT_TRIES,    BENT_TRIES,
                                        BENT_TRIES,      BENT_TRIES,    BENT_TRIES};
    enum { OFTEN = sizeof often / sizeof *often };
    size_t drawn = below(DAMAGES + OFTEN);
    return drawn < DAMAGES ? (enum damage)drawn : often[drawn - DAMAGES];
}

static void damage(struct image *image, enum damage kind)
{
    switch (kind) {
    case RANDOM_RECORDS:
        randomise(image);
        break;
    case BENT_HEADER:
        damage_header(image);
        break;
    case CUT_SHORT:
        image->count = chance(30) ? below(12) : image->count - between(1, 12);
        break;
    case OTHER_TOKENS:
        damage_tokens(image);
        break;
    case OTHER_EDITION:
        damage_edition(image);
        break;
    case EXCHANGED_CELLS:
        exchange_cells(image);
        break;
    case RANDOM_RECORD:
        damage_record(image);
        break;
    case FILLED_BEYOND:
        fill_beyond(image);
        if (chance(50))
            damage_cells(image);
        break;
    case BENT_FIELDS:
        bend_fields(image);
        break;
    case BENT_TRIES:
        bend_tries(image);
        break;
    case CHANGED_CELLS:
        damage_cells(image);
        break;
    default:
        break;
    }
}

static enum damage draw_damaged(struct image *image)
{
    if (!chance(60) || !draw_for_join(image))
        draw_sound(image);
    enum damage kind = draw_damage();
    damage(image, kind);
    return kind;
}

/* Checking */

static bool same_cells(const uint32_t *one, const uint32_t *other, size_t count)
{
    return count == 0 || memcmp(one, other, count * sizeof *one) == 0;
}

/* The cells lent to one call, and what they held. */
struct loan {
    const char *name; /* of the call */
    const struct image *image;
    const struct index *index; /* NULL for the call that takes none */
    size_t room;
    uint32_t *space, *terms, *copies, *out, *slots;
};

static const char *const indexed_names[REQUEST_KINDS] = {
    [CALL] = "call with an index", [ANSWER] = "answer with an index", [JOIN] = "join with an index"};

static uint32_t out_before[OUT_CELLS];

static void check_cells(unsigned round, const struct request *request, const struct loan *loan,
                        uint64_t word)
{
    const struct image *image = loan->image;
    const char *name = loan->name;
    bool refused = tables_refused_by(word) != 0;
    size_t written = 0;
    if (tables_what(word) == TABLES_CELLS || tables_what(word) == TABLES_COUNTS)
        written = tables_value(word);
    if ((refused || only_reads(request->kind)) &&
        !same_cells(loan->space, image->cell, image->count))
        fail(round, name, "the space was changed", word);
    if (written > loan->room)
        fail(round, name, "more cells written than out has", word);
    else if (!same_cells(loan->out + written, out_before + written, loan->room - written))
        fail(round, name, "out was changed beyond the cells written", word);
    if (!same_cells(loan->terms, request->argument.cell, request->argument.count))
        fail(round, name, "the terms or pairs were changed", word);
    if (!same_cells(loan->copies, request->copies.cell, request->copies.count))
        fail(round, name, "the copies were changed", word);
    if (loan->index != NULL && !same_cells(loan->slots, loan->index->cell, loan->index->count))
        fail(round, name, "the index was changed", word);
    if (!marks_kept(&space_arena) || !marks_kept(&term_arena) || !marks_kept(&copy_arena) ||
        !marks_kept(&out_arena) || !marks_kept(&index_arena))
        fail(round, name, "cells beside those lent were changed", word);
}

/* A space without a whole header or without an edition: every call is refused by 1. */
static void check_edition(unsigned round, const char *name, const struct image *image,
                          uint64_t word)
{
    bool has_edition = image->count >= 8 && (image->cell[0] == TABLES_EDITION_1 ||
                                             image->cell[0] == TABLES_EDITION_2);
    if (!has_edition && word != (uint64_t)(TABLES_CALL_REFUSED + TABLES_REFUSED_HEADER) << 32)
        fail(round, name, "not refused by 1", word);
}

/*
 * What an accepted call may have changed: the subgoals or the answers grow by one, the answers by as
 * many as a join says, and nothing past the end.
 */
static void check_written(unsigned round, const struct request *request, const struct loan *loan,
                          uint64_t word)
{
    const uint32_t *before = loan->image->cell, *after = loan->space;
    const char *name = loan->name;
    if (tables_refused_by(word) != 0 || only_reads(request->kind))
        return;
    size_t end = before[7];
    bool joins = request->kind == JOIN && tables_value(word) > 0;
    bool enters = tables_what(word) == TABLES_NEW || joins;
    uint32_t subgoals = before[2] + (enters && request->kind == CALL);
    uint32_t answers = before[3] + (joins ? tables_value(word) : enters && request->kind == ANSWER);
    if (!same_cells(after + end, before + end, loan->image->count - end))
        fail(round, name, "cells past the end were changed", word);
    if (after[0] != before[0] || !same_cells(after + 4, before + 4, 4))
        fail(round, name, "the header's edition or offsets were changed", word);
    if (after[1] < before[1] || after[2] != subgoals || after[3] != answers)
        fail(round, name, "counts", word);
    if (!enters && request->kind != FINISH && !same_cells(after, before, loan->image->count))
        fail(round, name, "old changed the space", word);
}

static uint32_t model_space[SPACE_CELLS], model_out[OUT_CELLS];

/* The other implementation answers the same, and leaves the same cells. */
static void check_model(unsigned round, const struct loan *loan, uint64_t word, uint64_t expected)
{
    compare_word(round, loan->name, word, expected);
    if (!same_cells(loan->space, model_space, loan->image->count))
        fail(round, loan->name, "another space than the model's", word);
    if (!same_cells(loan->out, model_out, loan->room))
        fail(round, loan->name, "another out than the model's", word);
}

/* The other implementation's word; model_space and model_out are what it leaves. */
static uint64_t make_model(const struct request *request, const struct loan *loan)
{
    size_t count = loan->image->count;
    memcpy(model_space, loan->image->cell, count * sizeof *model_space);
    memcpy(model_out, out_before, loan->room * sizeof *model_out);
    return ask_model(request, model_space, count, loan->index, model_out, loan->room);
}

/* Answers to finished subgoals, and the empty answer to an open one, by what came of them */

enum finished_case {
    HELD,
    LACKED,
    LACKED_FULL,
    LAST_DAMAGED, /* 9, and 8 if the last answer were not read */
    OTHER_DAMAGED,
    NO_TERMS,
    GROUND_FINISHED,
    OPEN_GROUND_OLD,
    FINISHED_CASES
};

static const char *const finished_names[FINISHED_CASES] = {
    [HELD] = "old", [LACKED] = "8", [LACKED_FULL] = "8 in a full table",
    [LAST_DAMAGED] = "9 for the last answer before 8", [OTHER_DAMAGED] = "another 9",
    [NO_TERMS] = "3, 4 or 5", [GROUND_FINISHED] = "finished by the empty answer",
    [OPEN_GROUND_OLD] = "the empty answer old and the subgoal open",
};

static uint64_t finished_met[FINISHED_CASES];

/* Would the answer be refused by 8 if its subgoal had no last answer to read? */
static bool is_lacked(const struct request *request, const struct image *image)
{
    static uint32_t cells[SPACE_CELLS];
    memcpy(cells, image->cell, image->count * sizeof *cells);
    uint32_t *record = &cells[cells[5] + 6 * (size_t)(request->number - 1)];
    record[4] = record[5] = 0;
    return tables_refused_by(cells_model_answer(cells, image->count, request->number,
                                                request->argument.cell,
                                                request->argument.count)) == TABLES_REFUSED_STATE;
}

static void count_finished(const struct request *request, const struct image *image, uint64_t word)
{
    const uint32_t *cells = image->cell;
    uint32_t refusal = tables_refused_by(word);
    bool full = cells[1] == (cells[5] - 8) / 5 || cells[3] == (cells[7] - cells[6]) / 3;
    finished_met[HELD] += tables_what(word) == TABLES_OLD;
    finished_met[LACKED] += refusal == TABLES_REFUSED_STATE;
    finished_met[LACKED_FULL] += refusal == TABLES_REFUSED_STATE && full;
    finished_met[NO_TERMS] += refusal >= TABLES_REFUSED_TERM && refusal <= TABLES_REFUSED_VARIABLES;
    if (refusal == TABLES_REFUSED_DAMAGED)
        finished_met[is_lacked(request, image) ? LAST_DAMAGED : OTHER_DAMAGED]++;
}

/* Of an answer to a subgoal that there is, by the state and the m that its record holds. */
static void check_state(unsigned round, const struct request *request, const struct loan *loan,
                        uint64_t word)
{
    enum { M = 2, STATE = 3 };
    const uint32_t *before = loan->image->cell;
    uint32_t refusal = tables_refused_by(word);
    if (request->kind != ANSWER || refusal == TABLES_REFUSED_HEADER || refusal == TABLES_REFUSED_NUMBER)
        return;
    size_t place = before[5] + 6 * (size_t)(request->number - 1);
    bool open = before[place + STATE] == 0, is_new = tables_what(word) == TABLES_NEW;
    bool finishes = is_new && before[place + M] == 0;
    if (before[place + STATE] == 1 && loan->index == NULL)
        count_finished(request, loan->image, word);
    finished_met[GROUND_FINISHED] += finishes;
    finished_met[OPEN_GROUND_OLD] +=
        open && tables_what(word) == TABLES_OLD && before[place + M] == 0;
    if (is_new && !open)
        fail(round, loan->name, "new, and its subgoal was finished", word);
    if (loan->space[place + STATE] != (finishes ? 1 : before[place + STATE]))
        fail(round, loan->name, "another state of its subgoal", word);
}

/* Indexes, by what came of them */

enum index_case {
    OTHERWISE,       /* another result or space than without an index */
    REACHED,         /* old with an index, and new, refused or another record without */
    PASSED_DAMAGE,   /* 9 without an index, and not with it */
    MET_DAMAGE,      /* 9 with an index, and not without it */
    OF_NO_POWER,     /* a number of cells that is no power of two */
    OF_NO_CELLS,
    INDEX_CASES
};

static const char *const index_cases[INDEX_CASES] = {
    [OTHERWISE] = "otherwise than without", [REACHED] = "another record reached",
    [PASSED_DAMAGE] = "damage passed by", [MET_DAMAGE] = "damage met",
    [OF_NO_POWER] = "no power of two", [OF_NO_CELLS] = "no cells",
};

static uint64_t index_met[INDEX_CASES], indexes_lent[INDEX_KINDS];

static bool is_old(uint64_t word)
{
    return tables_what(word) >= TABLES_OLD && tables_what(word) <= TABLES_OLD_FINISHED;
}

/* Compares with the same request without an index, and a table that no damage has touched must answer the same. */
static void compare_chain(unsigned round, const struct request *request, const struct loan *loan,
                          uint64_t word, bool sound)
{
    static uint32_t chain_space[SPACE_CELLS];
    size_t count = loan->image->count, slots = loan->index->count;
    memcpy(chain_space, loan->image->cell, count * sizeof *chain_space);
    uint64_t without = ask_model(request, chain_space, count, NULL, NULL, 0);
    bool same = word == without && same_cells(loan->space, chain_space, count);
    bool damaged = tables_refused_by(word) == TABLES_REFUSED_DAMAGED;
    bool damaged_without = tables_refused_by(without) == TABLES_REFUSED_DAMAGED;
    index_met[OTHERWISE] += !same;
    index_met[REACHED] += word != without && is_old(word) && !damaged_without;
    index_met[PASSED_DAMAGE] += damaged_without && !damaged;
    index_met[MET_DAMAGE] += damaged && !damaged_without;
    index_met[OF_NO_POWER] += slots > 0 && !is_power_of_two(slots);
    index_met[OF_NO_CELLS] += slots == 0;
    if (!same && (sound || !is_power_of_two(slots)))
        fail(round, loan->name, "otherwise than without the index", word);
}

/* One request */

/* Lends what the request takes, each against its upper or its lower guard page, and makes it. */
static uint64_t make_lent(const struct request *request, struct loan *loan)
{
    size_t count = request->argument.count, copy_cells = request->copies.count;
    const struct image *image = loan->image;
    loan->space = lend(&space_arena, image->count, chance(50));
    loan->terms = lend(&term_arena, count, chance(50));
    loan->out = lend(&out_arena, loan->room, chance(50));
    loan->copies = lend(&copy_arena, copy_cells, chance(50));
    memcpy(loan->space, image->cell, image->count * sizeof *loan->space);
    memcpy(loan->terms, request->argument.cell, count * sizeof *loan->terms);
    memcpy(loan->copies, request->copies.cell, copy_cells * sizeof *loan->copies);
    for (size_t i = 0; i < loan->room; i++)
        loan->out[i] = out_before[i] = (uint32_t)(0x9e3779b9u * (i + 1));
    if (loan->index == NULL)
        return make_request(request, loan->space, image->count, loan->terms, loan->copies, loan->out,
                            loan->room);
    size_t slots = loan->index->count;
    loan->slots = lend(&index_arena, slots, chance(50));
    memcpy(loan->slots, loan->index->cell, slots * sizeof *loan->slots);
    return make_indexed_request(request, loan->space, image->count,
                                slots == 0 && chance(50) ? NULL : loan->slots, slots, loan->terms,
                                loan->copies, loan->out, loan->room);
}

static void check_request(unsigned round, const struct image *image, const struct request *request,
                          const struct index *index, bool sound)
{
    bool indexed = index != NULL;
    struct loan loan = {.name = (indexed ? indexed_names : request_names)[request->kind],
                        .image = image,
                        .index = index,
                        .room = chance(50) ? below(12) : between(100, OUT_CELLS)};
    uint64_t word = make_lent(request, &loan);
    uint64_t expected = make_model(request, &loan);
    if (!tally_result(possible, image->edition, indexed ? indexed_row(request->kind) : request->kind, word))
        fail(round, loan.name, "no result of this call", word);
    check_edition(round, loan.name, image, word);
    check_cells(round, request, &loan, word);
    check_written(round, request, &loan, word);
    check_state(round, request, &loan, word);
    check_model(round, &loan, word, expected);
    if (indexed)
        compare_chain(round, request, &loan, word, sound);
}

/* An index for a call on the space: of the nodes as they stand, or of a build before the damage; or of any cells. */
static void draw_lent_index(const struct image *image, struct index *index, bool any)
{
    enum index_kind kind = (enum index_kind)(any ? below(INDEX_KINDS) : between(EVERY_CHILD, STALE));
    if ((kind == BUILT || kind == STALE) && planned == NULL)
        kind = EVERY_CHILD;
    bool of_nodes = (kind == EVERY_CHILD || kind == SPOILT_CHILDREN) && image->count > 8;
    size_t slots = of_nodes && chance(75) ? power_from(image->count / 5) >> below(4)
                                          : draw_slots(INDEX_CELLS);
    if (slots > INDEX_CELLS)
        slots = INDEX_CELLS;
    indexes_lent[kind]++;
    if (kind != BUILT && kind != STALE) {
        draw_index(index, kind, slots, image->cell, image->count);
        return;
    }
    const struct index *kept = kind == BUILT ? &built : &stale;
    index->count = kept->count;
    memcpy(index->cell, kept->cell, kept->count * sizeof *kept->cell);
    if (chance(12))
        resize_index(index, slots);
}

/* Builds */

static uint64_t builds_of_both; /* refused by 9, where 17 would refuse too */

/* A number of slots: around what the space needs, if it can be built at all, or any. */
static size_t draw_build_slots(const struct image *image)
{
    static uint32_t scratch[2 * INDEX_CELLS];
    uint64_t word = cells_model_build(image->cell, image->count, scratch, 2 * INDEX_CELLS);
    size_t enough = power_from(2 * (size_t)tables_value(word));
    size_t around[] = {enough, enough, enough, enough / 2, enough / 2, 2 * enough, enough - 1, enough + 1};
    size_t drawn = around[below(8)];
    return tables_what(word) != TABLES_BUILT || drawn > INDEX_CELLS || chance(20) ? draw_slots(INDEX_CELLS)
                                                                                   : drawn;
}

/* Builds an index, over one that holds anything, and so does the other implementation. */
static void check_build(unsigned round, const struct image *image)
{
    static uint32_t before[INDEX_CELLS], model_index[INDEX_CELLS];
    size_t slots = draw_build_slots(image);
    uint32_t *space = lend(&space_arena, image->count, chance(50));
    uint32_t *index = lend(&index_arena, slots, chance(50));
    memcpy(space, image->cell, image->count * sizeof *space);
    for (size_t i = 0; i < slots; i++)
        index[i] = before[i] = model_index[i] = draw_old_entry();
    uint64_t word = tables_build(space, image->count, slots == 0 && chance(50) ? NULL : index, slots);
    uint64_t expected = cells_model_build(image->cell, image->count, model_index, slots);
    builds_of_both += tables_refused_by(expected) == TABLES_REFUSED_DAMAGED && !is_power_of_two(slots);
    if (!tally_result(possible, image->edition, BUILD, word))
        fail(round, "build", "no result of this call", word);
    check_edition(round, "build", image, word);
    compare_word(round, "build", word, expected);
    if (!same_cells(index, model_index, slots))
        fail(round, "build", "another index than the model's", word);
    if (tables_refused_by(word) != 0 && !same_cells(index, before, slots))
        fail(round, "build", "refused, and the index was changed", word);
    if (!same_cells(space, image->cell, image->count))
        fail(round, "build", "the space was changed", word);
    if (!marks_kept(&space_arena) || !marks_kept(&index_arena))
        fail(round, "build", "cells beside those lent were changed", word);
}

/* Fresh asks nothing of what the cells hold; it fits them or it does not, and the edition is one or none. */
static void check_fresh(unsigned round, const struct image *image, bool at_end)
{
    uint32_t nodes = (uint32_t)between(0, 9), subgoals = (uint32_t)below(9),
             answers = (uint32_t)below(9);
    uint32_t edition = chance(90) ? draw_edition() : draw_no_edition();
    bool is_edition = edition == TABLES_EDITION_1 || edition == TABLES_EDITION_2;
    size_t end = TABLES_SPACE_CELLS(nodes, subgoals, answers);
    bool fits = is_edition && nodes > 0 && end <= image->count;
    uint32_t *space = lend(&space_arena, image->count, at_end);
    memcpy(space, image->cell, image->count * sizeof *space);
    uint64_t word = tables_fresh(space, image->count, nodes, subgoals, answers, edition);
    if (!tally_result(possible, image->edition, FRESH, word) || fits != (word == TABLES_DONE))
        fail(round, "fresh", "result", word);
    memcpy(model_space, image->cell, image->count * sizeof *model_space);
    if (word != cells_model_fresh(model_space, image->count, nodes, subgoals, answers, edition) ||
        !same_cells(space, model_space, image->count))
        fail(round, "fresh", "another result or space than the model's", word);
    compared++;
    size_t kept = fits ? end : 0;
    if (!same_cells(space + kept, image->cell + kept, image->count - kept))
        fail(round, "fresh", "cells past the end were changed", word);
    if (!marks_kept(&space_arena))
        fail(round, "fresh", "cells beside those lent were changed", word);
}

/* A join of the damaged space: the one that it was made for, or another. */
static void draw_join_of(struct request *request)
{
    if (planned != NULL && chance(75))
        *request = *planned;
    else
        draw_request(&drawer, JOIN, &known, request);
    if (planned != NULL && chance(5)) { /* sources and target exchanged */
        uint32_t number = request->number;
        request->number = chance(50) ? request->second : request->target;
        request->second = number;
    }
}

/* A call or an answer: one that the space held before it was damaged, as it was or with another last cell, or another. */
static void draw_given(enum request_kind kind, struct request *request, unsigned given_chance)
{
    const struct given *given = kind == CALL ? &given_calls : &given_answers;
    if (given->count == 0 || !chance(given_chance)) {
        draw_request(&drawer, kind, &known, request);
        return;
    }
    *request = given->request[below(given->count)];
    if (request->argument.count > 1 && chance(15))
        request->argument.cell[request->argument.count - 1] += 1;
}

static void draw_for_space(enum request_kind kind, struct request *request, unsigned given_chance)
{
    if (kind == JOIN)
        draw_join_of(request);
    else if (kind == ANSWER || kind == CALL)
        draw_given(kind, request, given_chance);
    else
        draw_request(&drawer, kind, &known, request);
}

static unsigned times_of(unsigned kind)
{
    if (kind == COUNTS || kind == FINISH)
        return 1;
    return kind == JOIN && planned != NULL ? 4 : kind == ANSWER ? 3 : 2;
}

/* Requests with an index: more of a space whose tries are bent, and of what stood there. */
static void check_indexed(unsigned round, const struct image *image, enum damage kind_of_damage)
{
    static struct request request;
    static struct index index;
    bool bent = kind_of_damage == BENT_TRIES;
    for (unsigned kind = 0; kind < REQUEST_KINDS; kind++) {
        if (!takes_index((enum request_kind)kind))
            continue;
        for (unsigned times = !bent ? 3 : kind == JOIN ? 6 : 10; times > 0; times--) {
            draw_for_space((enum request_kind)kind, &request, bent ? 90 : 50);
            draw_lent_index(image, &index, !bent || chance(20));
            check_request(round, image, &request, &index, kind_of_damage == SOUND);
        }
    }
}

static void check_round(unsigned round)
{
    static struct image image;
    static struct request request;
    enum damage kind_of_damage = draw_damaged(&image);
    check_fresh(round, &image, round % 2 == 0);
    for (unsigned times = kind_of_damage == BENT_TRIES ? 3 : 1; times > 0; times--)
        check_build(round, &image);
    for (unsigned kind = 0; kind < REQUEST_KINDS; kind++) {
        for (unsigned times = times_of(kind); times > 0; times--) {
            draw_for_space((enum request_kind)kind, &request, 40);
            joins_by_damage[kind_of_damage] += kind == JOIN;
            check_request(round, &image, &request, NULL, false);
        }
    }
    check_indexed(round, &image, kind_of_damage);
}

/* Joins of spaces with every kind of damage, and 200,000 of damaged ones in 150,000 rounds. */
static void check_joins(void)
{
    uint64_t damaged = 0;
    printf("  joins:");
    for (unsigned i = 0; i < DAMAGES; i++) {
        printf("%s %s %" PRIu64, i == 0 ? "" : ",", damage_names[i], joins_by_damage[i]);
        damaged += i == SOUND || i == FILLED_BEYOND ? 0 : joins_by_damage[i];
    }
    printf("\n  joins of damaged spaces, those two apart: %" PRIu64 "\n", damaged);
    if (damaged * 3 >= rounds * UINT64_C(4))
        return;
    failures++;
    printf("failed: too few joins of damaged spaces\n");
}

/* Each one round in 400 at least. */
static void check_finished(void)
{
    printf("  answers to finished subgoals:");
    for (unsigned i = 0; i < FINISHED_CASES; i++)
        printf("%s %s %" PRIu64, i == 0 ? "" : ",", finished_names[i], finished_met[i]);
    printf("\n");
    for (unsigned i = 0; i < FINISHED_CASES; i++) {
        if (finished_met[i] >= rounds / 400)
            continue;
        failures++;
        printf("failed: too seldom: %s\n", finished_names[i]);
    }
}

static void check_often(const char *what, uint64_t times, uint64_t least)
{
    if (times >= least)
        return;
    failures++;
    printf("failed: too seldom: %s\n", what);
}

/* What the searches met in an index, about once a round at least; and what came of it, one round in 400. */
static void check_indexes(void)
{
    const struct cells_model_met *met = &cells_model_met;
    printf("  indexes lent:");
    for (unsigned i = 0; i < INDEX_KINDS; i++)
        printf("%s %s %" PRIu64, i == 0 ? "" : ",", index_names[i], indexes_lent[i]);
    printf("\n  in them: confirmed %" PRIu64 ", passed over %" PRIu64 ", free %" PRIu64 ", around %" PRIu64
           "\n  indexed:", met->confirmed, met->passed_over, met->free_slots, met->around);
    for (unsigned i = 0; i < INDEX_CASES; i++)
        printf("%s %s %" PRIu64, i == 0 ? "" : ",", index_cases[i], index_met[i]);
    printf("; builds refused by 9 with 17 due too %" PRIu64 "\n", builds_of_both);
    for (unsigned i = 0; i < INDEX_KINDS; i++)
        check_often(index_names[i], indexes_lent[i], rounds / 4);
    for (unsigned i = 0; i < INDEX_CASES; i++)
        check_often(index_cases[i], index_met[i], rounds / 400);
    if (met->joins_otherwise > 0) {
        failures++;
        printf("failed: joins that entered otherwise than they were counted %" PRIu64 ", with answers left out %" PRIu64 "\n",
               met->joins_otherwise, met->joins_left_out);
    }
    check_often("a confirmed entry", met->confirmed, rounds);
    check_often("an entry passed over", met->passed_over, rounds);
    check_often("a free slot", met->free_slots, rounds);
    check_often("a step around", met->around, rounds / 4);
    check_often("9 before 17", builds_of_both, rounds / 100);
}

/* Arguments: the seed, and the number of rounds. */
int main(int argc, char **argv)
{
    if (argc > 1)
        seed = strtoull(argv[1], NULL, 10);
    if (argc > 2)
        rounds = (unsigned)strtoul(argv[2], NULL, 10);
    setvbuf(stdout, NULL, _IOLBF, BUFSIZ);
    report_crashes();
    open_arena(&space_arena, SPACE_CELLS);
    open_arena(&term_arena, ARGUMENT_CELLS);
    open_arena(&copy_arena, ARGUMENT_CELLS);
    open_arena(&out_arena, OUT_CELLS);
    open_arena(&index_arena, INDEX_CELLS);
    seed_drawing(seed);
    for (unsigned round = 1; round <= rounds && failures < MOST_FAILURES; round++) {
        alarm(SECONDS);
        note_place("seed %" PRIu64 ", round %u", seed, round);
        check_round(round);
    }
    if (failures == 0) { /* each in each edition, one round in 4,000 at least */
        failures += check_tally(possible, rounds / 4000);
        check_joins();
        check_finished();
        check_indexes();
    }
    printf("damaged_spaces_test: seed %" PRIu64 ", %u spaces, %lu calls compared, %u failures\n", seed,
           rounds, compared, failures);
    return failures == 0 ? 0 : 1;
}
