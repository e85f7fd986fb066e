/*
 * Arrival order across subgoals: lists of calls in which two answers to different
 * open subgoals, one straight after the other and both accepted, change places. An
 * old answer to a finished subgoal is accepted too and takes no part. Each list is
 * run from fresh in both orders, and what came of it is compared: every reply but
 * for answer numbers, the counts, and what next, load and instance give of each
 * subgoal, to the word at its end. Exchanges that are not allowed must show a
 * difference, by the same comparison.
 */
#define _DEFAULT_SOURCE

#include "../include/tables.h"
#include "drawing.h"

#include <inttypes.h>
#include <stdio.h>
#include <stdlib.h>
#include <string.h>
#include <unistd.h>

enum { LISTS = 60000, LONGEST_LIST = 48, MOST_EXCHANGES = 8, MOST_FAILURES = 10, SECONDS = 50 };
enum { MOST_NODES = 500, MOST_SUBGOALS = 8, MOST_ANSWERS = 40, MOST_PAIRS = 2 };
enum { SPACE_CELLS = TABLES_SPACE_CELLS(MOST_NODES, MOST_SUBGOALS, MOST_ANSWERS) };
enum { REFUSALS = 17 };

static uint64_t seed = 1;
static unsigned lists = LISTS;
static unsigned failures;
static unsigned list_number;

/* What was drawn and met how often */

enum met_case {
    NEW_NEW, /* the words of two exchanged answers */
    NEW_OLD,
    OLD_NEW,
    OLD_OLD,
    SEVERAL, /* exchanges in one list */
    JOIN_BEHIND,
    REFUSED_BEHIND,
    GROUND,   /* one of the two is new and finishes its subgoal */
    LEFT_OUT, /* an old answer to a finished subgoal beside an accepted one to another subgoal */
    NONE_YET_AT_END, /* of a subgoal compared */
    NO_MORE_AT_END,
    SAME_SUBGOAL, /* from here on exchanges that are not allowed */
    FINISH_BETWEEN,
    NO_RECORD,
    NO_NODE,
    MET_CASES
};

static const char *const case_names[MET_CASES] = {
    [NEW_NEW] = "new and new",
    [NEW_OLD] = "new and old",
    [OLD_NEW] = "old and new",
    [OLD_OLD] = "old and old",
    [SEVERAL] = "lists of several exchanges",
    [JOIN_BEHIND] = "a join with new answers behind them",
    [REFUSED_BEHIND] = "a refused call behind them",
    [GROUND] = "one finishes its subgoal",
    [LEFT_OUT] = "left out, as one subgoal is finished",
    [NONE_YET_AT_END] = "subgoals compared to none yet",
    [NO_MORE_AT_END] = "to no more",
    [SAME_SUBGOAL] = "one subgoal",
    [FINISH_BETWEEN] = "a finish between",
    [NO_RECORD] = "one refused for want of a record",
    [NO_NODE] = "for want of nodes",
};

static uint64_t met[MET_CASES];
static uint64_t differed[MET_CASES]; /* of the exchanges that are not allowed */
static uint64_t refusals[REFUSALS];

static void fail(const char *what)
{
    if (++failures <= MOST_FAILURES)
        printf("failed: seed %" PRIu64 ", list %u: %s\n", seed, list_number, what);
}

/* Lists of calls */

struct joining {
    uint32_t first, second, target;
    size_t pairs, copies; /* cells */
    uint32_t pair[2 * MOST_PAIRS];
    uint32_t copy[2 * ARGUMENT_CELLS];
};

/* One call of a list: a join, or a request of another kind. */
struct made {
    bool joins;
    struct request request;
    struct joining joining;
};

struct list {
    uint32_t edition, nodes, subgoals, answers;
    size_t count;
    struct made made[LONGEST_LIST]; /* in the order in which they were drawn */
};

/* An order of a list's calls, and what came of each, by its place in the list as drawn. */
struct run {
    size_t place[LONGEST_LIST];
    uint64_t word[LONGEST_LIST];
    bool to_open[LONGEST_LIST];   /* of an answer: its subgoal was open when it was given */
    bool to_ground[LONGEST_LIST]; /* and without variables */
    uint32_t counted[LONGEST_LIST][3];
    size_t space_cells;
    uint32_t space[SPACE_CELLS];
};

static uint64_t make_join(struct run *run, const struct joining *joining)
{
    return tables_join(run->space, run->space_cells, joining->first, joining->second, joining->pair,
                       joining->pairs, joining->target, joining->copy, joining->copies);
}

static uint64_t make_plain(struct run *run, const struct request *request, uint32_t counted[3])
{
    const struct argument *argument = &request->argument;
    switch (request->kind) {
    case CALL:
        return tables_call(run->space, run->space_cells, argument->cell, argument->count);
    case ANSWER:
        return tables_answer(run->space, run->space_cells, request->number, argument->cell,
                             argument->count);
    case FINISH:
        return tables_finish(run->space, run->space_cells, request->number);
    default:
        return tables_counts(run->space, run->space_cells, counted, 3);
    }
}

/* Notes what the subgoal of an answer is at present, by its record. */
static void note_subgoal(struct run *run, const struct made *made, size_t call)
{
    enum { VARIABLES = 2, STATE = 3 };
    uint32_t number = made->request.number;
    bool exists = !made->joins && made->request.kind == ANSWER && number >= 1 &&
                  number <= run->space[2];
    const uint32_t *record = &run->space[run->space[5] + (exists ? 6 * (number - 1) : 0)];
    run->to_open[call] = exists && record[STATE] == 0;
    run->to_ground[call] = run->to_open[call] && record[VARIABLES] == 0;
}

static void make_call(struct run *run, const struct list *list, size_t call)
{
    const struct made *made = &list->made[call];
    note_subgoal(run, made, call);
    memset(run->counted[call], 0, sizeof run->counted[call]);
    run->word[call] = made->joins ? make_join(run, &made->joining)
                                  : make_plain(run, &made->request, run->counted[call]);
}

static void start(struct run *run, const struct list *list)
{
    run->space_cells = TABLES_SPACE_CELLS(list->nodes, list->subgoals, list->answers);
    if (tables_fresh(run->space, run->space_cells, list->nodes, list->subgoals, list->answers,
                     list->edition) != TABLES_DONE)
        fail("fresh");
}

/* The whole list from fresh, in the run's order. */
static void run_list(struct run *run, const struct list *list)
{
    start(run, list);
    for (size_t i = 0; i < list->count; i++)
        make_call(run, list, run->place[i]);
}

/* Drawing a list, call by call as they are made, so that most calls fit the table */

struct drawing {
    struct drawer drawer;
    struct known known;
    bool finished[KNOWN_SUBGOALS]; /* subgoal s at s - 1 */
};

/* So many terms without variables, over few names, so that old ones are met and joins match. */
static void draw_ground(struct argument *argument, size_t terms)
{
    argument->count = terms;
    for (size_t i = 0; i < terms; i++)
        argument->cell[i] = TABLES_CELL(TABLES_ATOM, below(3));
}

static bool is_subgoal(const struct drawing *drawing, uint32_t number)
{
    return number >= 1 && number <= drawing->known.subgoals;
}

/* An answer, mostly to a subgoal that is open. */
static void draw_answer(struct drawing *drawing, struct request *request)
{
    for (int tries = 0; tries < 3; tries++) {
        draw_request(&drawing->drawer, ANSWER, &drawing->known, request);
        if (!is_subgoal(drawing, request->number) || !drawing->finished[request->number - 1])
            break;
    }
    if (is_subgoal(drawing, request->number) && chance(60))
        draw_ground(&request->argument, drawing->known.variables[request->number - 1]);
}

/* A subgoal, mostly one that is finished, or is open, as asked. */
static uint32_t draw_subgoal(const struct drawing *drawing, bool finished)
{
    uint32_t subgoal = 0;
    for (int tries = 0; tries < 6; tries++) {
        subgoal = (uint32_t)between(1, drawing->known.subgoals);
        if (drawing->finished[subgoal - 1] == finished)
            break;
    }
    return subgoal;
}

static size_t variables_of(const struct drawing *drawing, uint32_t subgoal)
{
    return drawing->known.variables[subgoal - 1];
}

/* A variable of a subgoal, or 0 where it has none, which is then out of range. */
static uint32_t draw_variable(const struct drawing *drawing, uint32_t subgoal)
{
    size_t variables = variables_of(drawing, subgoal);
    return variables == 0 ? 0 : (uint32_t)below(variables + chance(2));
}

static void draw_joining(const struct drawing *drawing, struct joining *joining)
{
    joining->first = draw_subgoal(drawing, true);
    joining->second = draw_subgoal(drawing, true);
    joining->target = draw_subgoal(drawing, false);
    joining->pairs = 2 * below(MOST_PAIRS + 1);
    for (size_t i = 0; i < joining->pairs; i += 2) {
        joining->pair[i] = draw_variable(drawing, joining->first);
        joining->pair[i + 1] = draw_variable(drawing, joining->second);
    }
    joining->copies = 2 * variables_of(drawing, joining->target);
    for (size_t i = 0; i < joining->copies; i += 2) {
        uint32_t side = (uint32_t)below(2);
        joining->copy[i] = side;
        joining->copy[i + 1] = draw_variable(drawing, side == 0 ? joining->first : joining->second);
    }
}

/* A new answer, single or joined, finishes a subgoal without variables. */
static void learn_entry(struct drawing *drawing, uint32_t subgoal)
{
    if (variables_of(drawing, subgoal) == 0)
        drawing->finished[subgoal - 1] = true;
}

/* Makes the call at the end of the list, and learns what came of it. */
static void append(struct drawing *drawing, struct list *list, struct run *run)
{
    size_t call = list->count++;
    const struct made *made = &list->made[call];
    run->place[call] = call;
    make_call(run, list, call);
    uint32_t what = tables_what(run->word[call]), value = tables_value(run->word[call]);
    if (made->joins && what == TABLES_JOINED && value > 0)
        learn_entry(drawing, made->joining.target);
    if (made->joins)
        return;
    if (made->request.kind == CALL && what == TABLES_NEW) {
        drawing->known.subgoals = value;
        drawing->known.variables[value - 1] = (uint32_t)distinct_variables(&made->request.argument);
    }
    if (made->request.kind == ANSWER && what == TABLES_NEW) {
        drawing->known.answers = value;
        learn_entry(drawing, made->request.number);
    }
    if (made->request.kind == FINISH && what == TABLES_DONE)
        drawing->finished[made->request.number - 1] = true;
}

/* An answer that was accepted before, of an open subgoal or of one finished since. False: there is none. */
static bool repeat_answer(const struct list *list, const struct run *run, struct request *request)
{
    size_t found = 0;
    for (size_t call = 0; call < list->count; call++) {
        const struct made *made = &list->made[call];
        bool taken = !made->joins && made->request.kind == ANSWER &&
                     tables_refused_by(run->word[call]) == 0;
        if (taken && below(++found) == 0)
            *request = made->request;
    }
    return found > 0;
}

static void append_request(struct drawing *drawing, struct list *list, struct run *run,
                           enum request_kind kind)
{
    struct made *made = &list->made[list->count];
    made->joins = false;
    if (kind != ANSWER)
        draw_request(&drawing->drawer, kind, &drawing->known, &made->request);
    else if (!chance(30) || !repeat_answer(list, run, &made->request))
        draw_answer(drawing, &made->request);
    append(drawing, list, run);
}

/* An answer, the finish of its subgoal, and an answer to another, which may not jump over it. */
static void append_finish_between(struct drawing *drawing, struct list *list, struct run *run)
{
    append_request(drawing, list, run, ANSWER);
    uint32_t subgoal = list->made[list->count - 1].request.number;
    struct made *made = &list->made[list->count];
    made->joins = false;
    draw_request(&drawing->drawer, FINISH, &drawing->known, &made->request);
    made->request.number = subgoal;
    append(drawing, list, run);
    append_request(drawing, list, run, ANSWER);
}

static void append_join(struct drawing *drawing, struct list *list, struct run *run)
{
    struct made *made = &list->made[list->count];
    made->joins = true;
    draw_joining(drawing, &made->joining);
    append(drawing, list, run);
}

static void append_drawn(struct drawing *drawing, struct list *list, struct run *run)
{
    size_t way = below(100);
    if (drawing->known.subgoals < 2 || way < 10)
        append_request(drawing, list, run, CALL);
    else if (way < 14)
        append_request(drawing, list, run, COUNTS);
    else if (way < 18)
        append_request(drawing, list, run, FINISH);
    else if (way < 22 && list->count + 3 <= LONGEST_LIST)
        append_finish_between(drawing, list, run);
    else if (way < 34)
        append_join(drawing, list, run);
    else
        append_request(drawing, list, run, ANSWER);
}

static void draw_list(struct list *list, struct run *run)
{
    static struct drawing drawing;
    size_t length = between(8, LONGEST_LIST);
    memset(&drawing, 0, sizeof drawing);
    list->edition = draw_edition();
    list->nodes = (uint32_t)(chance(40) ? between(4, 40) : between(100, MOST_NODES));
    list->subgoals = (uint32_t)between(2, MOST_SUBGOALS);
    list->answers = (uint32_t)(chance(40) ? between(2, 10) : MOST_ANSWERS);
    list->count = 0;
    open_drawer(&drawing.drawer, list->edition, 2, 6, chance(50) ? 4 : 9);
    start(run, list);
    while (list->count < length)
        append_drawn(&drawing, list, run);
}

/* Comparing two runs of one list */

static bool is_answer(const struct list *list, size_t call)
{
    return !list->made[call].joins && list->made[call].request.kind == ANSWER;
}

static bool is_finish(const struct list *list, size_t call)
{
    return !list->made[call].joins && list->made[call].request.kind == FINISH;
}

static bool same_replies(const struct list *list, const struct run *one, const struct run *other)
{
    for (size_t call = 0; call < list->count; call++) {
        uint64_t word = one->word[call], other_word = other->word[call];
        if (is_answer(list, call) ? tables_what(word) != tables_what(other_word)
                                  : word != other_word)
            return false;
        if (memcmp(one->counted[call], other->counted[call], sizeof one->counted[call]) != 0)
            return false;
    }
    return true;
}

static uint32_t out_one[TABLES_INSTANCE_CELLS], out_other[TABLES_INSTANCE_CELLS];

static bool same_written(uint64_t word, uint64_t other_word)
{
    if (tables_what(word) != TABLES_CELLS)
        fail("no cells were written");
    return word == other_word &&
           memcmp(out_one, out_other, tables_value(word) * sizeof *out_one) == 0;
}

static bool same_answer(const struct run *one, uint32_t answer, const struct run *other,
                        uint32_t other_answer)
{
    uint64_t loaded =
        tables_load(one->space, one->space_cells, answer, out_one, TABLES_INSTANCE_CELLS);
    uint64_t other_loaded = tables_load(other->space, other->space_cells, other_answer, out_other,
                                        TABLES_INSTANCE_CELLS);
    if (!same_written(loaded, other_loaded))
        return false;
    uint64_t instance =
        tables_instance(one->space, one->space_cells, answer, out_one, TABLES_INSTANCE_CELLS);
    uint64_t other_instance = tables_instance(other->space, other->space_cells, other_answer,
                                              out_other, TABLES_INSTANCE_CELLS);
    return same_written(instance, other_instance);
}

/* The word at the end of a subgoal, by what a call of it says of its state. */
static uint64_t end_of(uint64_t called)
{
    bool finished = tables_what(called) == TABLES_OLD_FINISHED;
    met[finished ? NO_MORE_AT_END : NONE_YET_AT_END]++;
    return (uint64_t)(finished ? TABLES_NO_MORE : TABLES_NONE_YET) << 32;
}

/* The answers to a subgoal, which was called with this result, in the order of next. */
static bool same_answers(const struct run *one, const struct run *other, uint64_t called)
{
    uint32_t subgoal = tables_value(called), answer = 0, other_answer = 0;
    for (;;) {
        uint64_t next = tables_next(one->space, one->space_cells, subgoal, answer);
        uint64_t other_next = tables_next(other->space, other->space_cells, subgoal, other_answer);
        if (tables_refused_by(next) != 0)
            fail("next is refused");
        if (tables_what(next) != TABLES_AT && next != end_of(called))
            fail("next ends with another word than that of the state");
        if (tables_what(next) != TABLES_AT || tables_what(other_next) != TABLES_AT)
            return next == other_next;
        answer = tables_value(next);
        other_answer = tables_value(other_next);
        if (!same_answer(one, answer, other, other_answer))
            return false;
    }
}

/* Number and state of each subgoal, by calling its term once more: that changes nothing. */
static bool same_subgoals(const struct list *list, struct run *one, struct run *other)
{
    for (size_t call = 0; call < list->count; call++) {
        const struct made *made = &list->made[call];
        if (made->joins || made->request.kind != CALL || tables_what(one->word[call]) != TABLES_NEW)
            continue;
        uint64_t word = make_plain(one, &made->request, NULL);
        if (tables_what(word) == TABLES_NEW)
            fail("a term that was called is new");
        if (word != make_plain(other, &made->request, NULL))
            return false;
        if (!same_answers(one, other, word))
            return false;
    }
    return true;
}

static bool same_counts(const struct run *one, const struct run *other)
{
    uint32_t counts[3], other_counts[3];
    uint64_t word = tables_counts(one->space, one->space_cells, counts, 3);
    uint64_t other_word = tables_counts(other->space, other->space_cells, other_counts, 3);
    return word == other_word && memcmp(counts, other_counts, sizeof counts) == 0;
}

static bool same_runs(const struct list *list, struct run *one, struct run *other)
{
    return same_replies(list, one, other) && same_counts(one, other) &&
           same_subgoals(list, one, other);
}

/* Exchanges */

static bool accepted(uint64_t word)
{
    return tables_what(word) == TABLES_NEW || tables_what(word) == TABLES_OLD;
}

static uint32_t subgoal_of(const struct list *list, size_t call)
{
    return list->made[call].request.number;
}

/* Are the calls at this place and the next two answers, and is the first accepted, in whatever state? */
static bool are_answers(const struct list *list, const struct run *run, size_t place)
{
    return place + 1 < list->count && is_answer(list, run->place[place]) &&
           is_answer(list, run->place[place + 1]) && accepted(run->word[run->place[place]]);
}

/* Two accepted answers to different subgoals, one straight after the other. */
static bool are_accepted(const struct list *list, const struct run *run, size_t place)
{
    size_t first = run->place[place], second = place + 1 < list->count ? run->place[place + 1] : 0;
    return are_answers(list, run, place) && accepted(run->word[second]) &&
           subgoal_of(list, first) != subgoal_of(list, second);
}

/* Each of the two subgoals is open when its answer is given. */
static bool may_exchange(const struct list *list, const struct run *run, size_t place)
{
    return are_accepted(list, run, place) && run->to_open[run->place[place]] &&
           run->to_open[run->place[place + 1]];
}

/* Not allowed: two new answers to one subgoal. */
static bool of_one_subgoal(const struct list *list, const struct run *run, size_t place)
{
    if (!are_answers(list, run, place))
        return false;
    size_t first = run->place[place], second = run->place[place + 1];
    return subgoal_of(list, first) == subgoal_of(list, second) &&
           tables_what(run->word[first]) == TABLES_NEW &&
           tables_what(run->word[second]) == TABLES_NEW;
}

/* Not allowed: the first of two answers to different subgoals is new, and the second found no room. */
static bool without_room(const struct list *list, const struct run *run, size_t place,
                         uint32_t refusal)
{
    if (!are_answers(list, run, place))
        return false;
    size_t first = run->place[place], second = run->place[place + 1];
    return subgoal_of(list, first) != subgoal_of(list, second) &&
           tables_what(run->word[first]) == TABLES_NEW &&
           tables_refused_by(run->word[second]) == refusal;
}

static bool without_record(const struct list *list, const struct run *run, size_t place)
{
    return without_room(list, run, place, TABLES_REFUSED_NO_RECORD);
}

static bool without_node(const struct list *list, const struct run *run, size_t place)
{
    return without_room(list, run, place, TABLES_REFUSED_NO_NODE);
}

/* Not allowed: between a new answer and an accepted one to another subgoal the first's is finished. */
static bool with_finish_between(const struct list *list, const struct run *run, size_t place)
{
    if (place + 2 >= list->count)
        return false;
    size_t first = run->place[place], finish = run->place[place + 1],
           second = run->place[place + 2];
    return is_answer(list, first) && is_finish(list, finish) && is_answer(list, second) &&
           tables_what(run->word[first]) == TABLES_NEW && accepted(run->word[second]) &&
           subgoal_of(list, first) == subgoal_of(list, finish) &&
           subgoal_of(list, first) != subgoal_of(list, second);
}

typedef bool test_place(const struct list *list, const struct run *run, size_t place);

/* One of the places for which the test holds, or the list's count. */
static size_t draw_place(const struct list *list, const struct run *run, test_place *test)
{
    size_t found = list->count, places = 0;
    for (size_t place = 0; place < list->count; place++)
        if (test(list, run, place) && below(++places) == 0)
            found = place;
    return found;
}

static void swap_places(struct run *run, size_t one, size_t other)
{
    size_t call = run->place[one];
    run->place[one] = run->place[other];
    run->place[other] = call;
}

/* What stands behind an exchanged pair, and what the two words were. */
static void count_exchange(const struct list *list, const struct run *run, size_t place)
{
    bool old = tables_what(run->word[run->place[place]]) == TABLES_OLD;
    bool second_old = tables_what(run->word[run->place[place + 1]]) == TABLES_OLD;
    bool join = false, refused = false;
    for (size_t i = place + 2; i < list->count; i++) {
        uint64_t word = run->word[run->place[i]];
        join |= list->made[run->place[i]].joins && tables_value(word) > 0;
        refused |= tables_refused_by(word) != 0;
    }
    met[old ? second_old ? OLD_OLD : OLD_NEW : second_old ? NEW_OLD : NEW_NEW]++;
    met[GROUND] += (!old && run->to_ground[run->place[place]]) ||
                   (!second_old && run->to_ground[run->place[place + 1]]);
    met[JOIN_BEHIND] += join;
    met[REFUSED_BEHIND] += refused;
}

static void count_left_out(const struct list *list, const struct run *run)
{
    for (size_t place = 0; place < list->count; place++)
        met[LEFT_OUT] += are_accepted(list, run, place) && !may_exchange(list, run, place);
}

/* Exchanges one after another, each of the list that the one before made. */
static void check_allowed(const struct list *list, struct run *drawn)
{
    static struct run run;
    size_t wanted = between(1, MOST_EXCHANGES), done = 0;
    run = *drawn;
    for (; done < wanted; done++) {
        size_t place = draw_place(list, &run, may_exchange);
        if (place == list->count)
            break;
        count_exchange(list, &run, place);
        swap_places(&run, place, place + 1);
        run_list(&run, list);
        if (!same_runs(list, drawn, &run))
            fail("an exchange made a difference");
    }
    met[SEVERAL] += done > 1;
}

/* An exchange that is not allowed, of calls so far apart: does it make a difference? */
static void try_other(const struct list *list, struct run *drawn, enum met_case which,
                      test_place *test, size_t apart)
{
    static struct run run;
    size_t place = draw_place(list, drawn, test);
    if (place == list->count)
        return;
    run = *drawn;
    swap_places(&run, place, place + apart);
    run_list(&run, list);
    met[which]++;
    differed[which] += !same_runs(list, drawn, &run);
}

static void check_list(void)
{
    static struct list list;
    static struct run drawn;
    draw_list(&list, &drawn);
    for (size_t call = 0; call < list.count; call++)
        if (tables_refused_by(drawn.word[call]) < REFUSALS)
            refusals[tables_refused_by(drawn.word[call])]++;
    count_left_out(&list, &drawn);
    check_allowed(&list, &drawn);
    try_other(&list, &drawn, SAME_SUBGOAL, of_one_subgoal, 1);
    try_other(&list, &drawn, FINISH_BETWEEN, with_finish_between, 2);
    try_other(&list, &drawn, NO_RECORD, without_record, 1);
    try_other(&list, &drawn, NO_NODE, without_node, 1);
}

/* The report */

static void print_cases(void)
{
    printf("  calls accepted %" PRIu64 ", refused", refusals[0]);
    for (unsigned i = 1; i < REFUSALS; i++)
        if (refusals[i] > 0)
            printf(" r%u %" PRIu64, i, refusals[i]);
    printf("\n  exchanged");
    for (unsigned i = 0; i < SAME_SUBGOAL; i++)
        printf("%s %s %" PRIu64, i == 0 ? "" : ",", case_names[i], met[i]);
    printf("\n  not allowed, and how many made a difference:");
    for (unsigned i = SAME_SUBGOAL; i < MET_CASES; i++)
        printf("%s %s %" PRIu64 " %" PRIu64, i == SAME_SUBGOAL ? "" : ",", case_names[i], met[i],
               differed[i]);
    printf("\n");
}

/*
 * What is not allowed makes a difference: always, but where nodes are wanting only if there are
 * enough without the first answer.
 */
static void check_cases(void)
{
    for (unsigned i = 0; i < MET_CASES; i++)
        if (met[i] < lists / (i < NO_RECORD ? 40 : 200))
            fail(case_names[i]);
    for (unsigned i = SAME_SUBGOAL; i < MET_CASES; i++)
        if (differed[i] < met[i] / (i == NO_NODE ? 10 : 1))
            fail("an exchange that is not allowed made no difference");
}

/* Arguments: the seed, and the number of lists. */
int main(int argc, char **argv)
{
    if (argc > 1)
        seed = strtoull(argv[1], NULL, 10);
    if (argc > 2)
        lists = (unsigned)strtoul(argv[2], NULL, 10);
    seed_drawing(seed);
    for (list_number = 1; list_number <= lists && failures < MOST_FAILURES; list_number++) {
        if (list_number % 100 == 1)
            alarm(SECONDS);
        check_list();
    }
    if (failures == 0) {
        print_cases();
        check_cases();
    }
    printf("order_test: seed %" PRIu64 ", %u lists, %u failures\n", seed, lists, failures);
    return failures == 0 ? 0 : 1;
}
