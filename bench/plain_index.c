/* The build of an index in plain C, in the three passes of the exported one, on top of the plain store. */

/* One unit with the join and the store, so that one program has all of them. */
#include "plain_join.c"

/* Where a node has no more children than these, they do not enter. */
enum { FEW_CHILDREN = 8 };

/* Judging the nodes */

static inline bool parent_is(const uint32_t *space, size_t node, size_t parent)
{
    return node == 0 || node_at(space, node)[PARENT] == parent;
}

/* The nodes before it are judged, so the way up falls. */
static size_t root_above(const uint32_t *space, size_t node)
{
    while (node_at(space, node)[PARENT] != node)
        node = node_at(space, node)[PARENT];
    return node;
}

/* Below node 0 a link is within the subgoals, below every other root within the answers. */
static inline bool link_fits(const uint32_t *space, const struct head *head, size_t node, size_t link)
{
    if (link <= head->subgoals && link <= head->answers)
        return true;
    if (link > head->subgoals && link > head->answers)
        return false;
    return (root_above(space, node) == 0) == (link <= head->subgoals);
}

static inline bool node_fits(const uint32_t *space, const struct head *head, size_t node)
{
    const uint32_t *record = node_at(space, node);
    return node_is_sound(record, node, head->nodes, head->subgoals + head->answers) &&
           record[PARENT] <= node && link_fits(space, head, node, record[LINK]) &&
           parent_is(space, record[CHILD], node) && parent_is(space, record[SIBLING], record[PARENT]);
}

static bool nodes_fit(const uint32_t *space, const struct head *head)
{
    for (size_t node = 0; node < head->nodes; node++)
        if (!node_fits(space, head, node))
            return false;
    return true;
}

/* Which children enter */

static inline bool is_crowded(const uint32_t *space, size_t node)
{
    size_t count = 0;
    for (size_t child = node_at(space, node)[CHILD]; child != 0;
         child = node_at(space, child)[SIBLING])
        if (++count > FEW_CHILDREN)
            return true;
    return false;
}

static inline bool enters(const uint32_t *space, size_t node)
{
    size_t parent = node_at(space, node)[PARENT];
    return parent != node && is_crowded(space, parent);
}

static size_t count_entering(const uint32_t *space, size_t nodes)
{
    size_t count = 0;
    for (size_t node = 0; node < nodes; node++)
        count += enters(space, node);
    return count;
}

/* Filling */

/* Half of the slots stay free, so one is found. */
static inline void insert(const uint32_t *space, uint32_t *slots, size_t mask, size_t node)
{
    const uint32_t *record = node_at(space, node);
    size_t slot = slot_of(mask, record[PARENT], record[TOKEN]);
    while (slots[slot] != 0)
        slot = slot_after(mask, slot);
    slots[slot] = (uint32_t)node;
}

static void fill(const uint32_t *space, size_t nodes, uint32_t *slots, size_t size)
{
    memset(slots, 0, size * sizeof *slots);
    for (size_t node = 0; node < nodes; node++)
        if (enters(space, node))
            insert(space, slots, size - 1, node);
}

/* The call */

uint64_t plain_build(const uint32_t *space, size_t space_cells, uint32_t *index, size_t index_cells)
{
    struct head head;
    if (!read_head(space, space_cells, &head))
        return refuse(BAD_HEADER);
    if (!nodes_fit(space, &head))
        return refuse(DAMAGED);
    if (!is_power_of_two(index_cells))
        return refuse(BAD_SLOTS);
    size_t count = count_entering(space, head.nodes);
    if (count > index_cells / 2)
        return refuse(BAD_SLOTS);
    fill(space, head.nodes, index, index_cells);
    return say(SAID_BUILT, count);
}
