/* Carrying a space over and growing one in plain C: as the exports do it, on top of the plain check and store. */

/* One unit with the check and the store, so that the compiler sees all that a copy is made of. */
#include "plain_check.c"

enum { NAME_TOO_LARGE = 18, CAPACITY_TOO_SMALL = 19, NARROW_BITS = 4, WIDE_BITS = 8 };

static uint64_t refuse_copy(uint32_t number)
{
    return say((uint32_t)SAID_REFUSED + number, 0);
}

static bool can_be_fresh(size_t space_cells, uint32_t nodes, uint32_t subgoals, uint32_t answers)
{
    return nodes != 0 && nodes <= MOST_RECORDS && subgoals <= MOST_RECORDS &&
           answers <= MOST_RECORDS &&
           HEADER_CELLS + (size_t)NODE_CELLS * nodes + (size_t)SUBGOAL_CELLS * subgoals +
                   (size_t)ANSWER_CELLS * answers <= space_cells;
}

/* Tokens */

static bool name_fits(uint32_t token)
{
    return kind(token) != FUNCTOR || payload(token) >> NARROW_BITS < 1u << (28 - WIDE_BITS);
}

static uint32_t widened(uint32_t token)
{
    if (kind(token) != FUNCTOR)
        return token;
    uint32_t name = payload(token) >> NARROW_BITS, arity = payload(token) & 15;
    return (uint32_t)FUNCTOR << 28 | name << WIDE_BITS | arity;
}

static bool names_fit(const uint32_t *space, const struct head *head)
{
    for (size_t node = 0; node < head->nodes; node++)
        if (!name_fits(node_at(space, node)[TOKEN]))
            return false;
    return true;
}

/* Gathers a path of the source as the form that enters the target. */
static bool take_form(const uint32_t *source, const struct head *head, size_t links, size_t root,
                      size_t leaf, struct compaction *form)
{
    struct path path;
    if (!gather(source, head->nodes, links, root, leaf, &path))
        return false;
    form->count = (size_t)(path_end(&path) - path.first);
    for (size_t i = 0; i < form->count; i++)
        form->tokens[i] = widened(path.first[i]);
    return true;
}

/* Entering */

static bool carry_subgoal(const uint32_t *source, const struct head *head, size_t subgoal,
                          uint32_t *target, size_t target_cells)
{
    struct head entered;
    struct compaction form;
    struct place place;
    const uint32_t *record = subgoal_at(source, head, subgoal);
    form.variables = record[VARIABLES];
    return take_form(source, head, head->subgoals, 0, record[LEAF], &form) &&
           read_head(target, target_cells, &entered) &&
           walk(target, entered.nodes, entered.subgoals, 0, no_index, form.tokens, form.count,
                &place) &&
           enter_subgoal(target, &entered, &place, &form) == say(SAID_NEW, subgoal);
}

static bool carry_answer(const uint32_t *source, const struct head *head, size_t answer,
                         uint32_t *target, size_t target_cells)
{
    struct head entered;
    struct compaction form;
    struct place place;
    const uint32_t *record = answer_at(source, head, answer);
    size_t subgoal = record[ANSWER_SUBGOAL];
    if (!take_form(source, head, head->answers, subgoal_at(source, head, subgoal)[ROOT],
                   record[ANSWER_LEAF], &form) ||
        !read_head(target, target_cells, &entered))
        return false;
    size_t root = subgoal_at(target, &entered, subgoal)[ROOT];
    return walk(target, entered.nodes, entered.answers, root, no_index, form.tokens, form.count,
                &place) &&
           enter_answer(target, &entered, subgoal, &place, &form) == say(SAID_NEW, answer);
}

/* Of a source that passes the check; any other is refused by 9, where the export looks closer. */
uint64_t plain_carry(const uint32_t *source, size_t source_cells, uint32_t *target,
                     size_t target_cells, uint32_t nodes, uint32_t subgoals, uint32_t answers)
{
    struct head head, copied = {0};
    if (!read_head(source, source_cells, &head) || source[EDITION] != 1)
        return refuse(BAD_HEADER);
    if (!can_be_fresh(target_cells, nodes, subgoals, answers))
        return refuse(BAD_FRESH);
    if (plain_check(source, source_cells) != say(SAID_DONE, 0))
        return refuse(DAMAGED);
    if (!names_fit(source, &head))
        return refuse_copy(NAME_TOO_LARGE);
    if (nodes < head.nodes || subgoals < head.subgoals || answers < head.answers)
        return refuse_copy(CAPACITY_TOO_SMALL);
    plain_fresh(target, target_cells, nodes, subgoals, answers, 2);
    for (size_t subgoal = 1; subgoal <= head.subgoals; subgoal++)
        if (!carry_subgoal(source, &head, subgoal, target, target_cells))
            return refuse(DAMAGED);
    for (size_t answer = 1; answer <= head.answers; answer++)
        if (!carry_answer(source, &head, answer, target, target_cells))
            return refuse(DAMAGED);
    read_head(target, target_cells, &copied);
    for (size_t subgoal = 1; subgoal <= head.subgoals; subgoal++)
        target[copied.subgoal_offset + SUBGOAL_CELLS * (subgoal - 1) + STATE] =
            subgoal_at(source, &head, subgoal)[STATE];
    return say(SAID_DONE, 0);
}

/* Growing */

static void move_cells(uint32_t *space, size_t to, size_t from, size_t count)
{
    memmove(space + to, space + from, count * sizeof *space);
}

static void clear_cells(uint32_t *space, size_t from, size_t to)
{
    memset(space + from, 0, (to - from) * sizeof *space);
}

uint64_t plain_grow(uint32_t *space, size_t space_cells, uint32_t nodes, uint32_t subgoals,
                    uint32_t answers)
{
    struct head head;
    if (!read_head(space, space_cells, &head))
        return refuse(BAD_HEADER);
    if (!can_be_fresh(space_cells, nodes, subgoals, answers))
        return refuse(BAD_FRESH);
    if (nodes < head.nodes || subgoals < head.subgoals || answers < head.answers)
        return refuse_copy(CAPACITY_TOO_SMALL);
    size_t subgoals_at = HEADER_CELLS + (size_t)NODE_CELLS * nodes;
    size_t answers_at = subgoals_at + (size_t)SUBGOAL_CELLS * subgoals;
    size_t end = answers_at + (size_t)ANSWER_CELLS * answers;
    size_t subgoal_cells = SUBGOAL_CELLS * head.subgoals, answer_cells = ANSWER_CELLS * head.answers;
    if (subgoals_at > head.subgoal_offset)
        move_cells(space, answers_at, head.answer_offset, answer_cells);
    move_cells(space, subgoals_at, head.subgoal_offset, subgoal_cells);
    if (subgoals_at <= head.subgoal_offset)
        move_cells(space, answers_at, head.answer_offset, answer_cells);
    clear_cells(space, HEADER_CELLS + NODE_CELLS * head.nodes, subgoals_at);
    clear_cells(space, subgoals_at + subgoal_cells, answers_at);
    clear_cells(space, answers_at + answer_cells, end);
    space[SUBGOAL_OFFSET] = (uint32_t)subgoals_at;
    space[ANSWER_OFFSET] = (uint32_t)answers_at;
    space[END] = (uint32_t)end;
    return say(SAID_DONE, 0);
}
