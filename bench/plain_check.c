/* The check of a whole space in plain C: the test of the exported one, in its order, on top of the plain store. */

/* One unit with the store, so that the compiler sees all that a check is made of. */
#include "plain_store.c"

enum broken { BROKEN_NODE = 1, BROKEN_SUBGOAL = 2, BROKEN_ANSWER = 3 };

static uint64_t name_broken(enum broken broken, size_t number)
{
    return say((uint32_t)SAID_REFUSED + DAMAGED, (size_t)broken << 28 | number);
}

/* Nodes */

static inline bool parent_is(const uint32_t *space, size_t node, size_t parent)
{
    return node == 0 || node_at(space, node)[PARENT] == parent;
}

static inline bool leads_back(const uint32_t *space, const struct head *head, size_t link,
                              size_t node)
{
    return link == 0 || (link <= head->subgoals && subgoal_at(space, head, link)[LEAF] == node) ||
           (link <= head->answers && answer_at(space, head, link)[ANSWER_LEAF] == node);
}

/* That of the subgoals, or it follows the leaf of the subgoal that names it. */
static bool root_is_whole(const uint32_t *space, const struct head *head, const uint32_t *record,
                          size_t node)
{
    if (record[TOKEN] != 0 || record[SIBLING] != 0)
        return false;
    if (node == 0)
        return true;
    size_t subgoal = node_at(space, node - 1)[LINK];
    return subgoal != 0 && subgoal <= head->subgoals &&
           subgoal_at(space, head, subgoal)[ROOT] == node;
}

/* The search for its token among its parent's children finds it. */
static bool is_found(const uint32_t *space, const struct head *head, size_t node, size_t parent,
                     uint32_t token)
{
    size_t child = node_at(space, parent)[CHILD];
    while (child != 0) {
        const uint32_t *record = node_at(space, child);
        if (!node_is_sound(record, child, head->nodes, head->subgoals + head->answers) ||
            record[PARENT] != parent)
            return false;
        if (record[TOKEN] == token)
            return child == node;
        child = record[SIBLING];
    }
    return false;
}

static bool node_is_whole(const uint32_t *space, const struct head *head, size_t node)
{
    const uint32_t *record = node_at(space, node);
    size_t parent = record[PARENT];
    if (!node_is_sound(record, node, head->nodes, head->subgoals + head->answers) ||
        parent > node ||
        !parent_is(space, record[CHILD], node) || !leads_back(space, head, record[LINK], node))
        return false;
    if (parent == node)
        return root_is_whole(space, head, record, node);
    return parent_is(space, record[SIBLING], parent) &&
           is_found(space, head, node, parent, record[TOKEN]) &&
           (record[LINK] != 0 || record[CHILD] != 0);
}

/* Subgoals */

static inline bool answers_to(const uint32_t *space, const struct head *head, size_t answer,
                              size_t subgoal)
{
    return answer != 0 && answer <= head->answers &&
           answer_at(space, head, answer)[ANSWER_SUBGOAL] == subgoal;
}

static bool ends_are_whole(const uint32_t *space, const struct head *head, const uint32_t *record,
                           size_t subgoal)
{
    if (record[LAST] == 0)
        return record[FIRST] == 0;
    return answers_to(space, head, record[FIRST], subgoal) &&
           answers_to(space, head, record[LAST], subgoal) &&
           answer_at(space, head, record[LAST])[ANSWER_NEXT] == 0;
}

static bool subgoal_is_whole(const uint32_t *space, const struct head *head, size_t subgoal)
{
    struct path path;
    struct expansion terms;
    const uint32_t *record = subgoal_at(space, head, subgoal);
    size_t leaf = record[LEAF], root = record[ROOT];
    return root < head->nodes && root > leaf && root - leaf == 1 &&
           node_at(space, root)[PARENT] == root && node_at(space, leaf)[LINK] == subgoal &&
           record[STATE] <= 1 && gather(space, head->nodes, head->subgoals, 0, leaf, &path) &&
           expand(&terms, head, &path, 1) &&
           (kind(*path.first) == ATOM || kind(*path.first) == FUNCTOR) &&
           terms.variables == record[VARIABLES] && ends_are_whole(space, head, record, subgoal);
}

/* Answers */

static bool answer_is_whole(const uint32_t *space, const struct head *head, size_t answer)
{
    struct path path;
    struct expansion terms;
    const uint32_t *record = answer_at(space, head, answer);
    size_t subgoal = record[ANSWER_SUBGOAL], leaf = record[ANSWER_LEAF], next = record[ANSWER_NEXT];
    if (subgoal == 0 || subgoal > head->subgoals || leaf >= head->nodes ||
        node_at(space, leaf)[LINK] != answer)
        return false;
    const uint32_t *owner = subgoal_at(space, head, subgoal);
    return gather(space, head->nodes, head->answers, owner[ROOT], leaf, &path) &&
           expand(&terms, head, &path, owner[VARIABLES]) &&
           (next == 0 || (next > answer && answers_to(space, head, next, subgoal)));
}

/* Chains, where every record is whole: so each rises and ends. */

static size_t chained_answers(const uint32_t *space, const struct head *head)
{
    size_t count = 0;
    for (size_t subgoal = 1; subgoal <= head->subgoals; subgoal++)
        for (size_t answer = subgoal_at(space, head, subgoal)[FIRST]; answer != 0;
             answer = answer_at(space, head, answer)[ANSWER_NEXT])
            count++;
    return count;
}

static bool is_chained(const uint32_t *space, const struct head *head, size_t answer)
{
    size_t subgoal = answer_at(space, head, answer)[ANSWER_SUBGOAL];
    size_t met = subgoal_at(space, head, subgoal)[FIRST];
    while (met != 0 && met != answer)
        met = answer_at(space, head, met)[ANSWER_NEXT];
    return met == answer;
}

uint64_t plain_check(const uint32_t *space, size_t space_cells)
{
    struct head head;
    if (!read_head(space, space_cells, &head))
        return refuse(BAD_HEADER);
    for (size_t node = 0; node < head.nodes; node++)
        if (!node_is_whole(space, &head, node))
            return name_broken(BROKEN_NODE, node);
    for (size_t subgoal = 1; subgoal <= head.subgoals; subgoal++)
        if (!subgoal_is_whole(space, &head, subgoal))
            return name_broken(BROKEN_SUBGOAL, subgoal);
    for (size_t answer = 1; answer <= head.answers; answer++)
        if (!answer_is_whole(space, &head, answer))
            return name_broken(BROKEN_ANSWER, answer);
    if (chained_answers(space, &head) == head.answers)
        return say(SAID_DONE, 0);
    size_t lost = 1;
    while (is_chained(space, &head, lost))
        lost++;
    return name_broken(BROKEN_ANSWER, lost);
}
