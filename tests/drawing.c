/* Random numbers, terms and requests for the tests of the calls. */
#include "drawing.h"

#include "../include/tables.h"
#include "editions.h"

#include <string.h>

/* Random numbers (splitmix64) */

static uint64_t random_state;

void seed_drawing(uint64_t seed)
{
    random_state = seed;
}

uint64_t random_word(void)
{
    uint64_t word = random_state += UINT64_C(0x9e3779b97f4a7c15);
    word = (word ^ word >> 30) * UINT64_C(0xbf58476d1ce4e5b9);
    word = (word ^ word >> 27) * UINT64_C(0x94d049bb133111eb);
    return word ^ word >> 31;
}

size_t below(size_t bound)
{
    return (size_t)(random_word() % bound);
}

size_t between(size_t least, size_t most)
{
    return least + below(most - least + 1);
}

bool chance(unsigned percent)
{
    return below(100) < percent;
}

/* Editions */

uint32_t draw_edition(void)
{
    return chance(50) ? TABLES_EDITION_1 : TABLES_EDITION_2;
}

uint32_t draw_no_edition(void)
{
    uint32_t number = (uint32_t)random_word();
    bool is_edition = number == TABLES_EDITION_1 || number == TABLES_EDITION_2;
    return is_edition || chance(60) ? no_editions[below(NO_EDITIONS)] : number;
}

/* Terms */

/* How terms are drawn. */
struct style {
    uint32_t edition;
    unsigned pair_chance;     /* a cell that takes arguments is a pair */
    unsigned leaf_chance;     /* a cell takes no argument, where both can be */
    bool flat;                /* the cell behind a pair is a leaf, so that lists are long */
    unsigned variable_chance; /* a leaf is a variable */
    size_t distinct;          /* distinct variables at most */
    size_t most_arity;
    bool wide; /* arities are also 16 to 255, where there is room */
    size_t least_name, names; /* so many atoms, integers and functor names, from the least */
};

static uint32_t draw_name(const struct style *style)
{
    return (uint32_t)(style->least_name + below(style->names));
}

static struct style small_style(uint32_t edition)
{
    return (struct style){
        .edition = edition,
        .pair_chance = chance(50) ? 50 : 10,
        .leaf_chance = 40,
        .flat = chance(30),
        .variable_chance = 35,
        .distinct = 3,
        .most_arity = 3,
        .least_name = chance(15) ? 14 : 0,
        .names = 3,
    };
}

/* The terms whose forms grow most: lists in the heads of lists, none ending in []. */
static struct style growing_style(uint32_t edition)
{
    return (struct style){.edition = edition,
                          .pair_chance = 100,
                          .variable_chance = 20,
                          .distinct = 32,
                          .most_arity = 1,
                          .least_name = 1,
                          .names = 9};
}

/* Functors of many arguments, which are mostly leaves. */
static struct style wide_style(void)
{
    static const unsigned chances[] = {0, 10, 50, 100};
    static const size_t distinct[] = {1, 3, 31, 32, 33};
    return (struct style){
        .edition = TABLES_EDITION_2,
        .pair_chance = chances[below(3)],
        .leaf_chance = 90,
        .variable_chance = chances[below(4)],
        .distinct = distinct[below(5)],
        .most_arity = 3,
        .wide = true,
        .names = 3,
    };
}

static struct style long_style(uint32_t edition)
{
    static const unsigned chances[] = {0, 10, 50, 90, 100};
    static const size_t distinct[] = {1, 31, 32, 33, 34, 60};
    if (chance(15))
        return growing_style(edition);
    if (edition == TABLES_EDITION_2 && chance(40))
        return wide_style();
    return (struct style){
        .edition = edition,
        .pair_chance = chances[below(5)],
        .leaf_chance = chances[below(3)],
        .flat = chance(50),
        .variable_chance = chances[1 + below(4)],
        .distinct = distinct[below(6)],
        .most_arity = chance(50) ? 15 : 2,
        .names = chance(50) ? 3 : (size_t)TABLES_MOST_NAME(edition) + 1,
    };
}

/* A cell without arguments; variables come by their first names until all are met. */
static uint32_t draw_leaf(const struct style *style, size_t *met)
{
    if (chance(style->variable_chance)) {
        bool fresh = *met < style->distinct && (*met == 0 || chance(60));
        return tables_cell(TABLES_VARIABLE, fresh ? (*met)++ : below(*met));
    }
    return tables_cell(chance(60) ? TABLES_ATOM : TABLES_INTEGER, draw_name(style));
}

/* From 1 to `most`. */
static size_t draw_arity(const struct style *style, size_t most)
{
    static const size_t arities[] = {16, 17, 32, 40, 40, 254, 255, 255};
    size_t wide = chance(70) ? arities[below(8)] : between(16, 255);
    if (style->wide && wide <= most)
        return wide;
    return between(1, most < style->most_arity ? most : style->most_arity);
}

/* A functor that takes from 1 to `most` arguments. */
static uint32_t draw_functor(const struct style *style, size_t most)
{
    size_t arity = draw_arity(style, most);
    uint32_t name = draw_name(style);
    return TABLES_FUNCTOR_CELL(style->edition, name, arity);
}

/* A cell that takes from 1 to `most` arguments. */
static uint32_t draw_branch(const struct style *style, size_t most)
{
    if (most >= 2 && chance(style->pair_chance))
        return TABLES_PAIR_CELL;
    return draw_functor(style, most);
}

static size_t arguments_of(uint32_t edition, uint32_t cell)
{
    if (TABLES_KIND(cell) == TABLES_FUNCTOR)
        return arity_in(edition, cell);
    return TABLES_KIND(cell) == TABLES_PAIR ? 2 : 0;
}

/* The cell that a called term begins with, with room for so many arguments. */
static uint32_t draw_predicate(const struct style *style, size_t most)
{
    if (most == 0)
        return tables_cell(TABLES_ATOM, draw_name(style));
    return draw_functor(style, most);
}

/* Exactly so many terms in exactly so many cells, at least one for each. */
static void draw_terms(const struct style *style, size_t terms, size_t cells, bool callable,
                       struct argument *argument)
{
    size_t due = terms, met = 0;
    uint32_t cell = 0;
    argument->count = 0;
    for (size_t left = cells; left > 0; left--) {
        size_t most = left - due;         /* arguments that still find room */
        bool must = due == 1 && left > 1; /* else the terms would end too early */
        bool leaf = (style->flat && cell == TABLES_PAIR_CELL) || chance(style->leaf_chance);
        if (callable && argument->count == 0)
            cell = draw_predicate(style, most);
        else if (most > 0 && (must || !leaf))
            cell = draw_branch(style, most);
        else
            cell = draw_leaf(style, &met);
        argument->cell[argument->count++] = cell;
        due += arguments_of(style->edition, cell) - 1;
    }
}

/* Other names for the same variables. */
static void rename_variables(struct argument *argument)
{
    uint32_t factor = (uint32_t)random_word() | 1, shift = (uint32_t)random_word();
    for (size_t i = 0; i < argument->count; i++)
        if (TABLES_KIND(argument->cell[i]) == TABLES_VARIABLE)
            argument->cell[i] =
                TABLES_CELL(TABLES_VARIABLE, TABLES_PAYLOAD(argument->cell[i] * factor + shift));
}

/* A functor of arity 0, or one made for the other edition. */
static uint32_t odd_functor(uint32_t edition)
{
    uint32_t name = (uint32_t)below(3), other = other_edition(edition);
    size_t arity = between(1, TABLES_MOST_ARITY(other));
    if (chance(50))
        return TABLES_CELL(TABLES_FUNCTOR, name << TABLES_ARITY_BITS(edition));
    return TABLES_FUNCTOR_CELL(other, name, arity);
}

/* Makes an argument illegal, most likely. */
static void spoil(uint32_t edition, struct argument *argument)
{
    static const uint32_t kinds[] = {0, 6, 7, 8, 9, 15};
    uint32_t illegal = raw_cell(kinds[below(6)], below(2));
    size_t place = argument->count == 0 ? 0 : below(argument->count);
    unsigned way = (unsigned)below(7);
    if (argument->count == 0 || way == 0)
        argument->cell[argument->count < ARGUMENT_CELLS ? argument->count++ : place] =
            TABLES_CELL(TABLES_ATOM, 1);
    else if (way == 1)
        argument->cell[place] = illegal;
    else if (way == 2)
        argument->cell[argument->count - 1] = illegal;
    else if (way == 3)
        argument->cell[place] = odd_functor(edition);
    else if (way == 4)
        argument->cell[place] = TABLES_PAIR_CELL + 1 + (uint32_t)below(3);
    else if (way == 5)
        argument->count--;
    else
        argument->count = chance(50) ? 0 : place;
}

size_t distinct_variables(const struct argument *argument)
{
    size_t distinct = 0;
    for (size_t i = 0; i < argument->count; i++) {
        size_t j = 0;
        while (j < i && argument->cell[j] != argument->cell[i])
            j++;
        distinct += j == i && TABLES_KIND(argument->cell[i]) == TABLES_VARIABLE;
    }
    return distinct;
}

/* Arguments */

void open_drawer(struct drawer *drawer, uint32_t edition, unsigned long_chance,
                 unsigned spoil_chance, size_t small_cells)
{
    memset(drawer, 0, sizeof *drawer);
    drawer->edition = edition;
    drawer->long_chance = long_chance;
    drawer->spoil_chance = spoil_chance;
    drawer->small_cells = small_cells;
}

/* The cells of a long argument; of a wide one often just those of a functor of 40 or 255. */
static size_t draw_long_cells(const struct style *style)
{
    static const size_t wide[] = {41, 42, 256, 256, 257};
    if (style->wide && chance(60))
        return wide[below(5)];
    return chance(50) ? between(253, 259) : between(30, 200);
}

/* So many terms, legal or a little over the limits. */
static void draw_argument(const struct drawer *drawer, size_t terms, bool callable,
                          struct argument *argument)
{
    bool is_long = chance(drawer->long_chance);
    struct style style = is_long ? long_style(drawer->edition) : small_style(drawer->edition);
    size_t cells = is_long ? draw_long_cells(&style) : between(1, drawer->small_cells);
    if (cells < terms)
        cells = terms;
    argument->count = 0;
    if (terms > 0)
        draw_terms(&style, terms, cells, callable, argument);
}

/* An argument from the stock, or a new one that takes a place in it. */
static void draw_stocked(const struct drawer *drawer, struct argument *stock, size_t terms,
                         bool callable, struct argument *argument)
{
    struct argument *place = &stock[below(STOCKED)];
    if (place->count == 0 || chance(45))
        draw_argument(drawer, terms, callable, place);
    *argument = *place;
    if (chance(50))
        rename_variables(argument);
}

static void draw_called(struct drawer *drawer, struct argument *argument)
{
    if (chance(5)) /* any term, so seldom one that may be called */
        draw_argument(drawer, 1, false, argument);
    else
        draw_stocked(drawer, drawer->called, 1, true, argument);
    if (chance(drawer->spoil_chance))
        spoil(drawer->edition, argument);
}

static void draw_answered(struct drawer *drawer, size_t terms, struct argument *argument)
{
    if (terms < STOCKED_TERMS)
        draw_stocked(drawer, drawer->answered[terms], terms, false, argument);
    else
        draw_argument(drawer, terms, false, argument);
    if (terms == 0 && chance(5)) /* cells where none are due */
        draw_argument(drawer, 1, false, argument);
    if (chance(drawer->spoil_chance))
        spoil(drawer->edition, argument);
}

/* Requests */

const char *const request_names[REQUEST_KINDS] = {
    [CALL] = "call", [ANSWER] = "answer", [FINISH] = "finish",     [JOIN] = "join",
    [NEXT] = "next", [LOAD] = "load",     [INSTANCE] = "instance", [COUNTS] = "counts",
};

/* A number that is far from any. */
static uint32_t draw_far(void)
{
    static const uint32_t far[] = {0, UINT32_MAX, UINT32_C(1) << 31, 1000};
    return far[below(4)];
}

/* A number from 1 to the count, or seldom one that is none. */
static uint32_t draw_number(uint32_t count)
{
    if (count == 0 || chance(6))
        return chance(50) ? count + 1 : draw_far();
    return (uint32_t)between(1, count);
}

static bool is_known(const struct known *known, uint32_t subgoal)
{
    return subgoal >= 1 && subgoal <= known->subgoals && subgoal <= KNOWN_SUBGOALS;
}

/* The variables of a subgoal; any small number if there is no such. */
static uint32_t variables_of(const struct known *known, uint32_t subgoal)
{
    return is_known(known, subgoal) ? known->variables[subgoal - 1] : 1;
}

/* A subgoal without variables is finished as its answer enters. */
static void learn_entry(struct known *known, size_t place)
{
    if (known->variables[place] == 0)
        known->finished[place] = true;
}

void learn_result(struct known *known, const struct request *request, uint64_t word)
{
    uint32_t what = tables_what(word), value = tables_value(word);
    size_t place = (request->kind == JOIN ? request->target : request->number) - (size_t)1;
    if (request->kind == CALL && what == TABLES_NEW && value <= KNOWN_SUBGOALS) {
        known->subgoals = value;
        known->variables[value - 1] = (uint32_t)distinct_variables(&request->argument);
    }
    if (request->kind == ANSWER && what == TABLES_NEW && place < KNOWN_SUBGOALS) {
        known->answers = value;
        known->answered[place]++;
        if (distinct_variables(&request->argument) > 0)
            known->holds_variables[place] = true;
        learn_entry(known, place);
    }
    if (request->kind == FINISH && what == TABLES_DONE && place < KNOWN_SUBGOALS)
        known->finished[place] = true;
    if (request->kind == JOIN && what == TABLES_JOINED && place < KNOWN_SUBGOALS) {
        known->answers += value;
        known->answered[place] += value;
        if (value > 0)
            learn_entry(known, place);
    }
}

/* Joins */

/* A subgoal's number: most likely a finished one whose answers are ground, or an open one. */
static uint32_t draw_joined(const struct known *known, bool source)
{
    uint32_t number = 0;
    bool any_answers = chance(12);
    if (known->subgoals == 0 || chance(2))
        return chance(50) ? known->subgoals + 1 : draw_far();
    for (int tries = chance(6) ? 1 : 8; tries > 0; tries--) {
        number = (uint32_t)between(1, known->subgoals);
        bool finished = is_known(known, number) && known->finished[number - 1];
        bool ground = is_known(known, number) && !known->holds_variables[number - 1];
        if (source ? finished && (ground || any_answers) : !finished)
            break;
    }
    return number;
}

/* A number that is out of range for a variable, of which there are so many, by little or by far. */
static uint32_t draw_no_variable(uint32_t variables)
{
    static const uint32_t far[] = {32, 256, UINT32_C(1) << 31, UINT32_MAX};
    return chance(70) ? variables + (uint32_t)below(2) : far[below(4)];
}

/* How many pairs: mostly one or none, now and then exactly 32, or more. */
static size_t draw_pair_count(void)
{
    static const size_t counts[] = {33, 33, 34, 64, 140};
    size_t drawn = below(100);
    if (drawn < 20)
        return 0;
    if (drawn < 74)
        return 1;
    if (drawn < 86)
        return 2;
    if (drawn < 89)
        return between(3, 31);
    return drawn < 97 ? 32 : counts[below(5)];
}

/* Pairs of variables of two subgoals, few distinct ones; legal but for a few. */
static void draw_pairs(uint32_t of_first, uint32_t of_second, struct argument *pairs)
{
    size_t count = draw_pair_count(), distinct = chance(85) ? 1 : 2;
    if ((of_first == 0 || of_second == 0) && chance(90))
        count = 0;
    for (size_t i = 0; i < count; i++) {
        uint32_t *pair = &pairs->cell[2 * i];
        pair[0] = (uint32_t)below(of_first + (of_first == 0));
        pair[1] = (uint32_t)below(of_second + (of_second == 0));
        if (i >= distinct)
            memcpy(pair, &pairs->cell[2 * below(distinct)], 2 * sizeof *pair);
    }
    pairs->count = 2 * count;
    if (count > 0 && chance(3)) {
        size_t place = below(pairs->count);
        pairs->cell[place] = draw_no_variable(place % 2 == 0 ? of_first : of_second);
    }
    if (chance(2)) {
        pairs->cell[pairs->count] = 0;
        pairs->count += count == 0 || chance(50) ? 1 : SIZE_MAX;
    }
}

/* Makes copies illegal: their number, a side or a variable. */
static void spoil_copies(const uint32_t variables[2], struct argument *copies)
{
    static const uint32_t no_sides[] = {2, 2, 3, 256, UINT32_C(1) << 31, UINT32_MAX};
    size_t place = copies->count < 2 ? 0 : 2 * below(copies->count / 2);
    unsigned way = copies->count < 2 ? 0 : (unsigned)below(4);
    if (way == 0) { /* one cell or one copy more, or cells where none are due */
        size_t more = between(1, 2);
        memset(&copies->cell[copies->count], 0, more * sizeof *copies->cell);
        copies->count += more;
    } else if (way == 1) {
        copies->count -= chance(20) ? copies->count : between(1, 2);
    } else if (way == 2) {
        copies->cell[place] = no_sides[below(6)];
        if (chance(30))
            copies->cell[place + 1] = draw_no_variable(variables[0]);
    } else {
        copies->cell[place + 1] = draw_no_variable(variables[copies->cell[place] & 1]);
    }
}

/* One copy for each of so many variables; legal but for a few, if either side has a variable. */
static void draw_copies(const uint32_t variables[2], uint32_t due, struct argument *copies)
{
    copies->count = 0;
    for (uint32_t i = 0; i < due; i++) {
        uint32_t side = (uint32_t)below(2);
        if (variables[side] == 0)
            side = 1 - side;
        copies->cell[copies->count++] = side;
        copies->cell[copies->count++] = (uint32_t)below(variables[side] + (variables[side] == 0));
    }
    if (chance(6))
        spoil_copies(variables, copies);
}

/* Pairs and copies for the subgoals that the request names. */
static void draw_names(const struct known *known, struct request *request)
{
    const uint32_t variables[2] = {variables_of(known, request->number),
                                   variables_of(known, request->second)};
    draw_pairs(variables[0], variables[1], &request->argument);
    draw_copies(variables, variables_of(known, request->target), &request->copies);
}

/* Would a join without pairs have so many combinations that it takes long? */
static bool has_many_combinations(const struct known *known, const struct request *request)
{
    enum { MANY = 200 };
    return is_known(known, request->number) && is_known(known, request->second) &&
           known->answered[request->number - 1] * known->answered[request->second - 1] > MANY;
}

static void draw_join(const struct known *known, struct request *request)
{
    request->number = draw_joined(known, true);
    request->second = chance(15) ? request->number : draw_joined(known, true);
    request->target = chance(4) ? request->number : draw_joined(known, false);
    draw_names(known, request);
    if (request->argument.count == 0 && has_many_combinations(known, request)) {
        request->argument.count = 2;
        request->argument.cell[0] = request->argument.cell[1] = 0;
    }
}

void draw_request(struct drawer *drawer, enum request_kind kind, const struct known *known,
                  struct request *request)
{
    bool of_answer = kind == LOAD || kind == INSTANCE;
    request->kind = kind;
    request->number = draw_number(of_answer ? known->answers : known->subgoals);
    request->after = chance(30) ? 0 : draw_number(known->answers);
    request->second = request->target = 0;
    request->argument.count = request->copies.count = 0;
    if (kind == CALL)
        draw_called(drawer, &request->argument);
    if (kind == ANSWER) {
        size_t terms = variables_of(known, request->number);
        if (chance(3))
            terms += 1 - 2 * (terms > 0);
        draw_answered(drawer, terms, &request->argument);
    }
    if (kind == JOIN)
        draw_join(known, request);
}

/* Lists of requests with joins */

/* What a plan is drawn from: its table, and the few ground terms that its answers are made of, which
   are the first so many. */
enum { PLAN_SUBGOALS = 5, PLAN_TERMS = 4 };

struct planning {
    uint32_t edition;
    struct plan *plan;
    struct drawer drawer;
    size_t terms;
    struct argument term[PLAN_TERMS];
};

static struct style ground_style(uint32_t edition)
{
    struct style style = small_style(edition);
    style.variable_chance = 0;
    return style;
}

static void draw_ground_term(uint32_t edition, size_t cells, struct argument *term)
{
    static const unsigned chances[] = {0, 50, 100};
    struct style style = ground_style(edition);
    if (cells > 40) {
        style.pair_chance = chances[below(3)];
        style.wide = edition == TABLES_EDITION_2 && chance(50);
        style.leaf_chance = chances[below(2)];
    }
    draw_terms(&style, 1, cells, false, term);
}

/* The few terms: of one to some cells, in edition 2 seldom with a functor of 40 arguments. */
static void draw_stock(struct planning *planning)
{
    size_t most = chance(50) ? 2 : 7;
    planning->terms = between(1, PLAN_TERMS);
    for (size_t i = 0; i < PLAN_TERMS; i++) {
        bool wide = planning->edition == TABLES_EDITION_2 && chance(2);
        draw_ground_term(planning->edition, wide ? between(41, 48) : between(1, most),
                         &planning->term[i]);
    }
}

static void add_cells(struct argument *argument, const uint32_t *cells, size_t count)
{
    memcpy(&argument->cell[argument->count], cells, count * sizeof *cells);
    argument->count += count;
}

static void add_cell(struct argument *argument, uint32_t cell)
{
    add_cells(argument, &cell, 1);
}

/* The next request of a plan, with nothing in it yet. */
static struct request *plan_request(struct planning *planning, enum request_kind kind,
                                    uint32_t number)
{
    struct request *request = &planning->plan->request[planning->plan->count++];
    request->kind = kind;
    request->number = number;
    request->after = request->second = request->target = 0;
    request->argument.count = request->copies.count = 0;
    return request;
}

/* Takes notice of the last request of a plan, which has this result if there is room. */
static void plan_result(struct planning *planning, uint32_t what, uint32_t value)
{
    struct plan *plan = planning->plan;
    learn_result(&plan->known, &plan->request[plan->count - 1], (uint64_t)what << 32 | value);
}

/* Calls a subgoal that no other of the plan equals, of so many variables, up to 32. */
static void plan_call(struct planning *planning, uint32_t variables)
{
    enum { GROUP = 15 };
    uint32_t edition = planning->edition, name = planning->plan->known.subgoals + 1;
    uint32_t groups = (variables + GROUP - 1) / GROUP, met = 0;
    bool repeats = variables > 0 && variables < 10 && chance(15);
    struct argument *goal = &plan_request(planning, CALL, 0)->argument;
    if (variables == 0 && chance(50))
        add_cell(goal, tables_functor_cell(edition, name, 1));
    if (variables == 0)
        add_cell(goal, tables_cell(TABLES_ATOM, name));
    if (groups > 1)
        add_cell(goal, tables_functor_cell(edition, name, groups));
    for (uint32_t group = 0; group < groups; group++) {
        uint32_t size = variables - met < GROUP ? variables - met : GROUP;
        add_cell(goal, tables_functor_cell(edition, name, size + repeats));
        for (uint32_t i = 0; i < size; i++)
            add_cell(goal, tables_cell(TABLES_VARIABLE, met++));
    }
    if (repeats)
        add_cell(goal, tables_cell(TABLES_VARIABLE, below(variables)));
    plan_result(planning, TABLES_NEW, name);
}

/* Answers a subgoal with so many of the few terms; its answers are learnt as if new. */
static struct argument *plan_answer(struct planning *planning, uint32_t subgoal)
{
    struct argument *answer = &plan_request(planning, ANSWER, subgoal)->argument;
    for (uint32_t i = variables_of(&planning->plan->known, subgoal); i > 0; i--) {
        const struct argument *term = &planning->term[below(planning->terms)];
        if (answer->count + term->count + i <= TABLES_TERM_CELLS)
            add_cells(answer, term->cell, term->count);
        else
            add_cell(answer, TABLES_EMPTY_LIST);
    }
    return answer;
}

static void learn_answer(struct planning *planning)
{
    plan_result(planning, TABLES_NEW, planning->plan->known.answers + 1);
}

/* Puts a variable for the first cell without arguments. */
static void add_variable(uint32_t edition, struct argument *answer)
{
    for (size_t i = 0; i < answer->count; i++)
        if (arguments_of(edition, answer->cell[i]) == 0) {
            answer->cell[i] = tables_cell(TABLES_VARIABLE, below(9));
            return;
        }
}

/* How many variables a subgoal of a plan has. */
static uint32_t draw_variables(void)
{
    static const uint32_t many[] = {5, 15, 16, 31, 32, 32};
    return chance(5) ? many[below(6)] : chance(8) ? 0 : (uint32_t)between(1, 3);
}

/* So many answers in turn to the subgoals, to some of them none; one source's may hold a variable. */
static void plan_answers(struct planning *planning, size_t count,
                         const bool answered[PLAN_SUBGOALS], uint32_t with_variable)
{
    uint32_t subgoals = planning->plan->known.subgoals;
    for (; count > 0; count--) {
        uint32_t subgoal = (uint32_t)between(1, subgoals);
        if (!answered[subgoal - 1])
            continue;
        struct argument *answer = plan_answer(planning, subgoal);
        if (subgoal == with_variable && chance(40))
            add_variable(planning->edition, answer);
        learn_answer(planning);
    }
}

static void plan_finish(struct planning *planning, uint32_t subgoal)
{
    plan_request(planning, FINISH, subgoal);
    plan_result(planning, TABLES_DONE, 0);
}

/* A join of two subgoals to a third, with names drawn for them. */
static void plan_join(struct planning *planning, uint32_t first, uint32_t second, uint32_t target)
{
    struct request *request = plan_request(planning, JOIN, first);
    request->second = second;
    request->target = target;
    draw_names(&planning->plan->known, request);
    plan_result(planning, TABLES_JOINED, 1);
}

/* What follows the first join of a plan: the same again, others, the target as a source. */
static void plan_more(struct planning *planning)
{
    struct plan *plan = planning->plan;
    size_t joined = plan->count - 1;
    uint32_t target = plan->request[joined].target;
    if (chance(35))
        plan->request[plan->count++] = plan->request[joined];
    for (size_t more = below(3); more > 0; more--) {
        draw_join(&plan->known, plan_request(planning, JOIN, 0));
        plan_result(planning, TABLES_JOINED, 1);
    }
    if (chance(30)) {
        plan_finish(planning, target);
        if (chance(30))
            plan->request[plan->count++] = plan->request[joined];
        else
            plan_join(planning, target, draw_joined(&plan->known, true),
                      draw_joined(&plan->known, false));
    }
    for (size_t more = below(4); more > 0; more--) {
        static const enum request_kind kinds[] = {NEXT, LOAD, INSTANCE, COUNTS, ANSWER, CALL};
        draw_request(&planning->drawer, kinds[below(6)], &plan->known,
                     plan_request(planning, COUNTS, 0));
    }
    if (chance(20))
        plan->request[plan->count++] = plan->request[joined];
}

/*
 * Two to five subgoals, answers, the sources finished but for a few, and joins.
 * Many: few subgoals of several variables with many answers, so that a join has
 * dozens of them.
 */
static void plan_small(struct planning *planning, bool many)
{
    struct plan *plan = planning->plan;
    uint32_t subgoals = (uint32_t)between(2, many ? 3 : PLAN_SUBGOALS);
    uint32_t target = (uint32_t)between(1, subgoals);
    uint32_t with_variable = chance(8) ? (uint32_t)between(1, subgoals) : 0;
    bool answered[PLAN_SUBGOALS];
    if (many)
        planning->terms = PLAN_TERMS;
    for (uint32_t i = 0; i < subgoals; i++) {
        plan_call(planning, many ? (uint32_t)between(2, 4) : draw_variables());
        answered[i] = chance(i + 1 == target ? 50 : 95);
    }
    plan_answers(planning, many ? between(12, 30) : between(0, chance(50) ? 6 : 16), answered,
                 with_variable);
    for (uint32_t subgoal = 1; subgoal <= subgoals; subgoal++)
        if (chance(subgoal == target ? 4 : 93))
            plan_finish(planning, subgoal);
    if (chance(90)) {
        uint32_t first = draw_joined(&plan->known, true);
        uint32_t second = chance(20) ? first : draw_joined(&plan->known, true);
        if (with_variable != 0 && chance(50))
            first = with_variable;
        plan_join(planning, first, second, target);
        if (many && chance(50)) /* every combination */
            plan->request[plan->count - 1].argument.count = 0;
    } else {
        draw_join(&plan->known, plan_request(planning, JOIN, 0));
        plan_result(planning, TABLES_JOINED, 1);
    }
    plan_more(planning);
}

/* An answer of a key, which is an atom, and a term. */
static void plan_keyed(struct planning *planning, uint32_t subgoal, uint32_t key,
                       const struct argument *term)
{
    struct argument *answer = &plan_request(planning, ANSWER, subgoal)->argument;
    add_cell(answer, tables_cell(TABLES_ATOM, key));
    add_cells(answer, term->cell, term->count);
    learn_answer(planning);
}

/*
 * Two sources of a key and a term each. A term of the first, copied so many
 * times, and one of the second make an answer of 255 to 257 cells together, if
 * their keys are paired, which they mostly are.
 */
static void plan_long(struct planning *planning)
{
    enum { FIRST = 1, SECOND = 2, TARGET = 3, KEY = 7 };
    struct plan *plan = planning->plan;
    size_t joined_cells = chance(45) ? 256 : chance(90) ? 257 : 255;
    size_t copies = between(1, 4), last = below(copies + 1);
    size_t cells = between(2, chance(50) ? 12 : 200 / copies);
    struct argument long_term, short_term;
    bool meet = chance(90);
    draw_ground_term(planning->edition, cells, &short_term);
    draw_ground_term(planning->edition, joined_cells - copies * cells, &long_term);
    plan_call(planning, 2);
    plan_call(planning, 2);
    plan_call(planning, (uint32_t)copies + 1);
    for (size_t others = below(3); others > 0; others--)
        plan_keyed(planning, chance(50) ? FIRST : SECOND, (uint32_t)between(KEY - 1, KEY + 1),
                   &planning->term[0]);
    plan_keyed(planning, FIRST, KEY, &short_term);
    plan_keyed(planning, SECOND, meet ? KEY : KEY + 2, &long_term);
    for (size_t others = below(3); others > 0; others--)
        plan_keyed(planning, chance(50) ? FIRST : SECOND, (uint32_t)between(KEY - 1, KEY + 1),
                   &planning->term[0]);
    plan_finish(planning, FIRST);
    plan_finish(planning, SECOND);
    struct request *request = plan_request(planning, JOIN, FIRST);
    request->second = SECOND;
    request->target = TARGET;
    for (size_t pairs = chance(85) ? 1 : chance(50) ? 32 : 33; pairs > 0; pairs--)
        add_cells(&request->argument, (const uint32_t[]){0, 0}, 2);
    for (size_t i = 0; i <= copies; i++)
        add_cells(&request->copies, (const uint32_t[]){i == last, 1}, 2);
    plan_result(planning, TABLES_JOINED, 1);
    plan->joined_cells = meet ? joined_cells : 0;
    plan_more(planning);
}

static void open_planning(struct planning *planning, uint32_t edition, struct plan *plan)
{
    planning->edition = edition;
    planning->plan = plan;
    plan->joined_cells = plan->count = 0;
    memset(&plan->known, 0, sizeof plan->known);
    open_drawer(&planning->drawer, edition, 2, 5, 5);
    draw_stock(planning);
}

void draw_plan(uint32_t edition, struct plan *plan)
{
    static struct planning planning;
    open_planning(&planning, edition, plan);
    if (chance(10))
        plan_long(&planning);
    else
        plan_small(&planning, chance(8));
}

/* Lists of requests that give a node many children */

/* Constants that are all different: from a first payload on, in steps, of one kind or of two. */
enum { WIDE_CONSTANTS = 30 };

static void draw_constants(uint32_t constant[WIDE_CONSTANTS])
{
    static const uint32_t steps[] = {1, 1, 1, 1, 2, 16, 64, 1024};
    uint32_t step = chance(80) ? steps[below(8)] : (uint32_t)random_word() | 1;
    uint32_t first = chance(70) ? (uint32_t)below(40) : (uint32_t)random_word();
    uint32_t kind = chance(50) ? TABLES_ATOM : TABLES_INTEGER;
    bool both = chance(25); /* each payload as an atom and as an integer */
    for (uint32_t i = 0; i < WIDE_CONSTANTS; i++) {
        uint32_t payload = TABLES_PAYLOAD(first + step * (both ? i / 2 : i));
        uint32_t of_kind = both ? (i % 2 == 0 ? TABLES_ATOM : TABLES_INTEGER) : kind;
        constant[i] = tables_cell(of_kind, payload);
    }
}

/* The families of a wide plan: what is entered once with each of its first so many constants. */
enum family { PREDICATES, GOALS, FIRST_ANSWERS, SECOND_ANSWERS, TARGET_ANSWERS, FAMILIES };

/*
 * How many: mostly around the 8 above which children enter an index, and few or none of some families.
 * A join reads every answer of the second once for each of the first, so there are fewer of these.
 */
static size_t draw_width(enum family family, bool sparse)
{
    static const unsigned few[FAMILIES] = {20, 20, 20, 70, 60};
    static const size_t widths[] = {8, 8, 9, 9, 9, 10, 7}, most[FAMILIES] = {16, 16, 24, 12, 28};
    if (chance(sparse && few[family] < 65 ? 65 : few[family]))
        return below(3);
    return chance(60) ? widths[below(7)] : between(9, most[family]);
}

/* Subgoals 1 and 2 are the sources of the join, 3 is its target. */
enum { WIDE_FIRST = 1, WIDE_SECOND = 2, WIDE_TARGET = 3, WIDE_NAME = 9 };

/* An answer of a constant, or of g(c) or g(h(c)), for the first variable; a few for the others. */
static void plan_wide_answer(struct planning *planning, uint32_t subgoal, uint32_t constant,
                             uint32_t depth)
{
    struct argument *answer = &plan_request(planning, ANSWER, subgoal)->argument;
    for (uint32_t i = 0; i < depth; i++)
        add_cell(answer, tables_functor_cell(planning->edition, WIDE_NAME + i, 1));
    add_cell(answer, constant);
    for (uint32_t i = variables_of(&planning->plan->known, subgoal); i > 1; i--)
        add_cell(answer, tables_cell(TABLES_ATOM, below(2)));
    learn_answer(planning);
}

/* A subgoal without variables: the constant as predicate if it is an atom, else below one; or below one. */
static void plan_wide_call(struct planning *planning, uint32_t constant, bool predicate)
{
    struct argument *goal = &plan_request(planning, CALL, 0)->argument;
    if (!predicate || TABLES_KIND(constant) != TABLES_ATOM)
        add_cell(goal, tables_functor_cell(planning->edition, predicate ? WIDE_NAME + 1 : WIDE_NAME, 1));
    add_cell(goal, constant);
    plan_result(planning, TABLES_NEW, planning->plan->known.subgoals + 1);
}

static void plan_member(struct planning *planning, enum family family, uint32_t constant,
                        uint32_t depth)
{
    if (family == PREDICATES || family == GOALS)
        plan_wide_call(planning, constant, family == PREDICATES);
    else
        plan_wide_answer(planning, WIDE_FIRST + (uint32_t)(family - FIRST_ANSWERS), constant, depth);
}

/* The sources finished and joined: where the terms are equal, or where they are few, every one with every one. */
static void plan_wide_join(struct planning *planning, bool all)
{
    struct request *request;
    plan_finish(planning, WIDE_FIRST);
    plan_finish(planning, WIDE_SECOND);
    request = plan_request(planning, JOIN, WIDE_FIRST);
    request->second = WIDE_SECOND;
    request->target = WIDE_TARGET;
    if (!all)
        add_cells(&request->argument, (const uint32_t[]){0, 0}, 2);
    for (uint32_t i = variables_of(&planning->plan->known, WIDE_TARGET); i > 0; i--)
        add_cells(&request->copies, (const uint32_t[]){i % 2, 0}, 2);
    plan_result(planning, TABLES_JOINED, 1);
}

/* What follows the join: the same again, another of the sources, the target finished, and others. */
static void plan_wide_more(struct planning *planning)
{
    struct plan *plan = planning->plan;
    const struct request *join = &plan->request[plan->count - 1];
    if (chance(35))
        plan->request[plan->count++] = *join;
    if (chance(30))
        draw_join(&plan->known, plan_request(planning, JOIN, 0));
    if (chance(20)) {
        plan_finish(planning, WIDE_TARGET);
        plan->request[plan->count++] = *join;
    }
    for (size_t more = below(4); more > 0; more--) {
        static const enum request_kind kinds[] = {NEXT, LOAD, INSTANCE, COUNTS, ANSWER, CALL};
        draw_request(&planning->drawer, kinds[below(6)], &plan->known,
                     plan_request(planning, COUNTS, 0));
    }
}

void draw_wide_plan(uint32_t edition, struct plan *plan)
{
    static struct planning planning;
    uint32_t constant[WIDE_CONSTANTS];
    size_t entered[FAMILIES] = {0}, due[FAMILIES], left = 0;
    uint32_t depth = chance(35) ? (uint32_t)between(1, 2) : 0;
    bool sparse = chance(60);
    open_planning(&planning, edition, plan);
    draw_constants(constant);
    plan_call(&planning, (uint32_t)between(1, 2));
    plan_call(&planning, (uint32_t)between(1, 2));
    plan_call(&planning, (uint32_t)between(1, 2));
    for (unsigned family = 0; family < FAMILIES; family++)
        left += due[family] = draw_width((enum family)family, sparse);
    while (left > 0) {
        unsigned family = (unsigned)below(FAMILIES);
        if (entered[family] == due[family])
            continue;
        plan_member(&planning, (enum family)family, constant[entered[family]++], depth);
        left--;
    }
    plan_wide_join(&planning, due[FIRST_ANSWERS] * due[SECOND_ANSWERS] < 60 && chance(80));
    plan_wide_more(&planning);
}

bool only_reads(enum request_kind kind)
{
    return kind == NEXT || kind == LOAD || kind == INSTANCE || kind == COUNTS;
}

bool takes_index(enum request_kind kind)
{
    return kind == CALL || kind == ANSWER || kind == JOIN;
}
