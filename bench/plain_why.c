/* Why in plain C: as the export does it, on top of the plain store. */

/* One unit with the store, so that the compiler sees all that it is made of. */
#include "plain_store.c"

enum { SAID_WHY_OLD = 12, SAID_WHY_NEW = 13, WHY_CELLS = 33 };

/* The lowest subgoal below a node, by first children; 0 where a record on the way is damaged. */
static size_t lowest_below(const uint32_t *space, const struct head *head, size_t node)
{
    for (size_t child; (child = node_at(space, node)[CHILD]) != 0; node = child)
        if (!child_is_sound(node_at(space, child), child, head->nodes, head->subgoals, node))
            return 0;
    size_t subgoal = node_at(space, node)[LINK];
    if (subgoal == 0)
        return 0;
    const uint32_t *record = subgoal_at(space, head, subgoal);
    return subgoal_is_sound(record, head) && record[LEAF] == node ? subgoal : 0;
}

static uint64_t why_new(const uint32_t *space, const struct head *head, const struct place *place,
                        size_t shared, uint32_t *out, size_t out_cells)
{
    size_t subgoal = shared == 0 ? 0 : lowest_below(space, head, place->node);
    if (shared != 0 && subgoal == 0)
        return refuse(DAMAGED);
    if (out_cells < WHY_CELLS)
        return refuse_out(WHY_CELLS);
    out[0] = (uint32_t)shared;
    return say(SAID_WHY_NEW, subgoal);
}

static uint64_t why_old(const uint32_t *space, const struct head *head, size_t leaf,
                        const struct compaction *form, uint32_t *out, size_t out_cells)
{
    uint64_t word = find_subgoal(space, head, leaf);
    if (word >> 32 >= SAID_REFUSED)
        return word;
    if (out_cells < WHY_CELLS)
        return refuse_out(WHY_CELLS);
    out[0] = (uint32_t)form->variables;
    for (size_t i = 0; i < form->variables; i++)
        out[1 + i] = form->names[i];
    return say(SAID_WHY_OLD, (size_t)(uint32_t)word);
}

uint64_t plain_why(const uint32_t *space, size_t space_cells, const uint32_t *term,
                   size_t term_cells, uint32_t *out, size_t out_cells)
{
    struct head head;
    struct compaction form;
    struct place place;
    if (!read_head(space, space_cells, &head))
        return refuse(BAD_HEADER);
    enum refusal refusal = compact(&form, &head, term, term_cells, 1);
    if (refusal != ACCEPTED)
        return refuse(refusal);
    if (kind(term[0]) != ATOM && kind(term[0]) != FUNCTOR)
        return refuse(NOT_CALLABLE);
    if (!root_is_sound(space, head.nodes, head.subgoals, 0) ||
        !walk(space, head.nodes, head.subgoals, 0, no_index, form.tokens, form.count, &place))
        return refuse(DAMAGED);
    if (place.left > 0)
        return why_new(space, &head, &place, form.count - place.left, out, out_cells);
    return why_old(space, &head, place.node, &form, out, out_cells);
}
