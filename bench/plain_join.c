/* The join of the plain store, by the algorithm of the exported one: the same reads, checks, passes and words. */

/* One unit with the store, so that the compiler sees all that a join is made of. */
#include "plain_store.c"

enum { PAIR_CELLS = 64 };

/* What a join reads. The head's counts rise while answers are entered. */
struct source {
    size_t number, root, first;
    uint32_t variables;
};

struct join {
    const uint32_t *space;
    struct head head;
    struct source first, second;
    struct index index;
    const uint32_t *pairs, *copies;
    size_t pairs_cells, copies_cells;
};

/* Judging the sources and the names */

enum judged { JUDGED_DAMAGED, JUDGED_GROUND, JUDGED_VARIABLE };

/* One answer of a source: its record as next judges it, its path as load does; and whether it holds a variable. */
static enum judged judge_answer(const uint32_t *space, const struct head *head,
                                const struct source *source, size_t answer)
{
    struct path path;
    struct expansion terms;
    const uint32_t *record = answer_at(space, head, answer);
    if (!answer_is_sound(record, answer, head) || record[ANSWER_SUBGOAL] != source->number ||
        !gather(space, head->nodes, head->answers, source->root, record[ANSWER_LEAF], &path) ||
        !expand(&terms, head, &path, source->variables))
        return JUDGED_DAMAGED;
    return terms.variables == 0 ? JUDGED_GROUND : JUDGED_VARIABLE;
}

static enum judged judge(const uint32_t *space, const struct head *head, const struct source *source)
{
    enum judged all = JUDGED_GROUND;
    for (size_t answer = source->first; answer != 0;
         answer = answer_at(space, head, answer)[ANSWER_NEXT]) {
        enum judged one = judge_answer(space, head, source, answer);
        if (one == JUDGED_DAMAGED)
            return JUDGED_DAMAGED;
        if (one == JUDGED_VARIABLE)
            all = JUDGED_VARIABLE;
    }
    return all;
}

static bool names_are_sound(const struct join *join, size_t target_variables)
{
    uint32_t m = join->first.variables, n = join->second.variables;
    if (join->pairs_cells > PAIR_CELLS || join->pairs_cells % 2 != 0 ||
        join->copies_cells != 2 * target_variables)
        return false;
    for (size_t i = 0; i < join->pairs_cells; i += 2)
        if (join->pairs[i] >= m || join->pairs[i + 1] >= n)
            return false;
    for (size_t i = 0; i < join->copies_cells; i += 2)
        if (join->copies[i] > 1 || join->copies[i + 1] >= (join->copies[i] == 0 ? m : n))
            return false;
    return true;
}

/* Answers in hand */

/* An answer's path, and where each of its terms begins and the last ends. */
struct hand {
    const uint32_t *starts[TERM_VARIABLES + 1];
    struct path path;
};

/* The end of a term of a legal form. What stands behind ELIST or EPAIR counts for its list. */
static inline const uint32_t *behind_term(const uint32_t *at, uint32_t arity_bits)
{
    size_t due = 1, depth = 0;
    do {
        uint32_t token = *at++;
        if (is_constant(token))
            due -= depth == 0;
        else if (token == blist_token)
            depth++;
        else if (token == elist_token || token == epair_token)
            depth--;
        else if (depth == 0)
            due += (token & arity_bits) - (size_t)1;
    } while (due > 0);
    return at;
}

static inline void take(const struct join *join, const struct source *source, size_t leaf,
                        struct hand *hand)
{
    if (!gather(join->space, join->head.nodes, join->head.answers, source->root, leaf, &hand->path))
        return;
    const uint32_t *at = hand->path.first;
    hand->starts[0] = at;
    for (uint32_t i = 0; i < source->variables; i++) {
        at = behind_term(at, join->head.arity_bits);
        hand->starts[i + 1] = at;
    }
}

static inline bool terms_are_equal(const uint32_t *at, const uint32_t *end, const uint32_t *other,
                                   const uint32_t *other_end)
{
    if (end - at != other_end - other)
        return false;
    while (at != end)
        if (*at++ != *other++)
            return false;
    return true;
}

static inline bool hands_match(const struct join *join, const struct hand *outer,
                               const struct hand *inner)
{
    for (size_t i = 0; i < join->pairs_cells; i += 2) {
        uint32_t x = join->pairs[i], y = join->pairs[i + 1];
        if (!terms_are_equal(outer->starts[x], outer->starts[x + 1], inner->starts[y],
                             inner->starts[y + 1]))
            return false;
    }
    return true;
}

/* The cells of so many terms: a symbol and an ELIST stand for two, less one for each term due. */
static size_t cells_of(const struct compaction *form, size_t terms, uint32_t arity_bits)
{
    size_t cells = 0, due = terms;
    for (size_t i = 0; i < form->count; i++) {
        uint32_t token = form->tokens[i];
        cells += token == blist_token || token == epair_token ? 0 : 2;
        due += kind(token) == FUNCTOR ? token & arity_bits : 0;
    }
    return cells - due;
}

/* Puts the terms that the copies name one after another; answers whether they are at most 256 cells. */
static inline bool put_together(const struct join *join, const struct hand *outer,
                                const struct hand *inner, struct compaction *form)
{
    form->count = 0;
    for (size_t i = 0; i < join->copies_cells; i += 2) {
        const struct hand *from = join->copies[i] == 0 ? outer : inner;
        const uint32_t *at = from->starts[join->copies[i + 1]];
        const uint32_t *end = from->starts[join->copies[i + 1] + 1];
        if ((size_t)(end - at) > FORM_TOKENS - form->count)
            return false;
        while (at != end)
            form->tokens[form->count++] = *at++;
    }
    return 2 * form->count <= TERM_CELLS ||
           cells_of(form, join->copies_cells / 2, join->head.arity_bits) <= TERM_CELLS;
}

/* The pairs one after another */

/* The answers to be taken next, 0 for none; those in hand; and the form of the last pair that matched. */
struct stand {
    size_t outer, inner;
    struct hand outer_hand, inner_hand;
    struct compaction form;
};

enum found { FOUND, FOUND_TOO_LONG, FOUND_NONE };

static inline void begin(const struct join *join, struct stand *stand)
{
    stand->outer = join->first.first;
    stand->inner = 0;
}

/* Goes on to the next pair that matches and leaves its form. */
static enum found advance(const struct join *join, struct stand *stand)
{
    for (;;) {
        while (stand->inner != 0) {
            const uint32_t *record = answer_at(join->space, &join->head, stand->inner);
            stand->inner = record[ANSWER_NEXT];
            take(join, &join->second, record[ANSWER_LEAF], &stand->inner_hand);
            if (hands_match(join, &stand->outer_hand, &stand->inner_hand))
                return put_together(join, &stand->outer_hand, &stand->inner_hand, &stand->form)
                           ? FOUND
                           : FOUND_TOO_LONG;
        }
        if (stand->outer == 0)
            return FOUND_NONE;
        const uint32_t *record = answer_at(join->space, &join->head, stand->outer);
        stand->outer = record[ANSWER_NEXT];
        take(join, &join->first, record[ANSWER_LEAF], &stand->outer_hand);
        stand->inner = join->second.first;
    }
}

/* Counting */

/* What searches of the forms say: no damage met, the tokens not found, the forms not found. */
struct sums {
    bool sound;
    uint64_t missing, lacking;
};

static inline struct sums search(const struct join *join, size_t root, const struct compaction *form)
{
    struct place place;
    if (!walk(join->space, join->head.nodes, join->head.answers, root, join->index, form->tokens,
              form->count, &place))
        return (struct sums){false, 0, 1};
    if (place.left > 0)
        return (struct sums){true, place.left, 1};
    size_t answer = node_at(join->space, place.node)[LINK];
    if (answer == 0)
        return (struct sums){form->count == 0, 0, 1};
    const uint32_t *record = answer_at(join->space, &join->head, answer);
    return (struct sums){answer_is_sound(record, answer, &join->head) &&
                             record[ANSWER_LEAF] == place.node,
                         0, 0};
}

/* The sums over all forms; answers whether none is too long. */
static bool count(const struct join *join, size_t root, struct sums *sums)
{
    struct stand stand;
    enum found found;
    *sums = (struct sums){true, 0, 0};
    begin(join, &stand);
    while ((found = advance(join, &stand)) == FOUND) {
        struct sums one = search(join, root, &stand.form);
        sums->sound = sums->sound && one.sound;
        sums->missing += one.missing;
        sums->lacking += one.lacking;
    }
    return found == FOUND_NONE;
}

static inline size_t common(const struct compaction *a, const struct compaction *b)
{
    size_t least = a->count < b->count ? a->count : b->count, i = 0;
    while (i < least && a->tokens[i] == b->tokens[i])
        i++;
    return i;
}

/* The most tokens that a form shares with one of the first so many, and whether it is one of them. */
static size_t shared_before(const struct join *join, const struct compaction *own, size_t count,
                            bool *held)
{
    struct stand stand;
    size_t shared = 0;
    *held = false;
    begin(join, &stand);
    for (size_t i = 0; i < count && advance(join, &stand) == FOUND; i++) {
        size_t k = common(&stand.form, own);
        if (k > shared)
            shared = k;
        if (k == own->count && k == stand.form.count) {
            *held = true;
            return k;
        }
    }
    return shared;
}

/*
 * The nodes and answers that all forms need, each compared with those before it; it ends early where that is more nodes
 * than are free.
 */
static void need(const struct join *join, size_t root, uint64_t free_nodes, uint64_t *nodes, uint64_t *answers)
{
    struct stand stand;
    *nodes = 0;
    *answers = 0;
    begin(join, &stand);
    for (size_t i = 0; *nodes <= free_nodes && advance(join, &stand) == FOUND; i++) {
        bool held;
        struct sums one = search(join, root, &stand.form);
        size_t own = stand.form.count - shared_before(join, &stand.form, i, &held);
        *nodes += one.missing < own ? one.missing : own;
        *answers += one.lacking != 0 && !held;
    }
}

/* The needs on trial: a draft of the new nodes in free ones, found by parent and token through a hash table */

/* The free nodes that a draft may use: the first of them, and how many. */
struct room {
    size_t base, most;
};

static inline size_t slot_in(const struct room *room, size_t parent, uint32_t token)
{
    return room->base + (parent * 40503 + token) % room->most;
}

/* Are the free nodes zeros? */
static bool is_blank(const uint32_t *space, const struct room *room)
{
    const uint32_t *end = node_at(space, room->base + room->most);
    for (const uint32_t *at = node_at(space, room->base); at != end; at++)
        if (*at != 0)
            return false;
    return true;
}

/* The entry with this parent and this token, made where there is none; 0 where no node is left. */
static inline size_t reach(uint32_t *space, const struct room *room, size_t *used, size_t parent,
                           uint32_t token)
{
    if (room->most == 0)
        return 0;
    size_t slot = slot_in(room, parent, token);
    for (size_t n = node_at(space, slot)[CHILD]; n != 0; n = node_at(space, n)[SIBLING])
        if (node_at(space, n)[PARENT] == parent && node_at(space, n)[TOKEN] == token)
            return n;
    if (*used == room->base + room->most)
        return 0;
    uint32_t *own = (uint32_t *)node_at(space, *used);
    own[TOKEN] = token;
    own[SIBLING] = node_at(space, slot)[CHILD];
    own[PARENT] = (uint32_t)parent;
    own[LINK] = 0;
    ((uint32_t *)node_at(space, slot))[CHILD] = (uint32_t)*used;
    return (*used)++;
}

enum tried { TRIED, TRIED_OVER, TRIED_UNKNOWN };

/* All forms on trial; the draft stays. */
static enum tried try_forms(uint32_t *space, const struct join *join, size_t root,
                            const struct room *room, uint64_t *nodes, uint64_t *answers)
{
    struct stand stand;
    size_t used = room->base;
    *answers = 0;
    begin(join, &stand);
    while (advance(join, &stand) == FOUND) {
        struct place place;
        const struct compaction *form = &stand.form;
        if (!walk(join->space, join->head.nodes, join->head.answers, root, join->index, form->tokens,
                  form->count, &place))
            return TRIED_UNKNOWN;
        if (place.left == 0) {
            if (node_at(space, place.node)[LINK] == 0)
                return TRIED_UNKNOWN;
            continue;
        }
        size_t n = place.node;
        for (size_t i = form->count - place.left; i < form->count; i++) {
            n = reach(space, room, &used, n, form->tokens[i]);
            if (n == 0)
                return TRIED_OVER;
        }
        uint32_t *end = (uint32_t *)node_at(space, n);
        *answers += end[LINK] == 0;
        end[LINK] = 1;
    }
    *nodes = used - room->base;
    return TRIED;
}

/* Is there room: by the sums, or else by the exact needs? */
static enum refusal room_for(uint32_t *space, const struct join *join, size_t root,
                             const struct sums *sums)
{
    uint64_t nodes = join->head.node_capacity - join->head.nodes;
    uint64_t answers = join->head.answer_capacity - join->head.answers;
    uint64_t nodes_needed, answers_needed;
    if (sums->missing <= nodes && sums->lacking <= answers)
        return ACCEPTED;
    /* Without variables all forms are empty: one answer and no node. */
    if (join->copies_cells == 0)
        return answers == 0 ? NO_RECORDS : ACCEPTED;
    struct room room = {join->head.nodes, sums->missing < nodes ? sums->missing : nodes};
    enum tried tried = TRIED_UNKNOWN;
    if (is_blank(space, &room)) {
        tried = try_forms(space, join, root, &room, &nodes_needed, &answers_needed);
        memset((uint32_t *)node_at(space, room.base), 0, room.most * NODE_CELLS * sizeof *space);
        if (tried == TRIED_OVER && room.most == nodes)
            return NO_NODES;
    }
    if (tried != TRIED)
        need(join, root, nodes, &nodes_needed, &answers_needed);
    if (nodes_needed > nodes)
        return NO_NODES;
    return answers_needed > answers ? NO_RECORDS : ACCEPTED;
}

/* Entering */

/* Gives each form to the target as a single answer is; answers how many were new. */
static size_t enter(uint32_t *space, struct join *join, size_t target, size_t root)
{
    struct stand stand;
    size_t before = join->head.answers;
    begin(join, &stand);
    while (advance(join, &stand) == FOUND) {
        struct place place;
        if (!walk(space, join->head.nodes, join->head.answers, root, join->index, stand.form.tokens,
                  stand.form.count, &place))
            continue;
        if (place.left > 0)
            enter_answer(space, &join->head, target, &place, &stand.form);
        else
            find_answer(space, &join->head, target, &place, &stand.form);
        join->head.nodes = space[NODES_USED];
        join->head.answers = space[ANSWERS_USED];
    }
    return join->head.answers - before;
}

/* The call */

/* The records, the sources' answers, the states and the names, in this order. */
static enum refusal judge_parties(const struct join *join, size_t target, const uint32_t *records[3])
{
    const struct head *head = &join->head;
    for (int i = 0; i < 3; i++)
        if (!subgoal_is_sound(records[i], head))
            return DAMAGED;
    if (!root_is_sound(join->space, head->nodes, head->answers, records[2][ROOT]))
        return DAMAGED;
    enum judged first = judge(join->space, head, &join->first);
    if (first == JUDGED_DAMAGED)
        return DAMAGED;
    enum judged second = judge(join->space, head, &join->second);
    if (second == JUDGED_DAMAGED)
        return DAMAGED;
    if (records[2][STATE] != 0)
        return FINISHED;
    if (records[0][STATE] == 0 || records[1][STATE] == 0)
        return SOURCE_OPEN;
    if (first != JUDGED_GROUND || second != JUDGED_GROUND)
        return SOURCE_VARIABLE;
    return names_are_sound(join, subgoal_at(join->space, head, target)[VARIABLES]) ? ACCEPTED
                                                                                   : BAD_NAMES;
}

static uint64_t join_ground(uint32_t *space, struct join *join, size_t target)
{
    struct sums sums;
    const uint32_t *record = subgoal_at(space, &join->head, target);
    size_t root = record[ROOT];
    if (!count(join, root, &sums))
        return refuse(TOO_LONG);
    if (!sums.sound)
        return refuse(DAMAGED);
    if (sums.lacking == 0)
        return say(SAID_JOINED, 0);
    if (!last_is_sound(space, &join->head, target, record[LAST]))
        return refuse(DAMAGED);
    enum refusal refusal = room_for(space, join, root, &sums);
    if (refusal != ACCEPTED)
        return refuse(refusal);
    return say(SAID_JOINED, enter(space, join, target, root));
}

static struct source source_of(size_t number, const uint32_t *record)
{
    return (struct source){number, record[ROOT], record[FIRST], record[VARIABLES]};
}

uint64_t plain_join_indexed(uint32_t *space, size_t space_cells, const uint32_t *index,
                            size_t index_cells, uint32_t first, uint32_t second,
                            const uint32_t *pairs, size_t pairs_cells, uint32_t target,
                            const uint32_t *copies, size_t copies_cells)
{
    struct join join = {.space = space, .pairs = pairs, .copies = copies,
                        .pairs_cells = pairs_cells, .copies_cells = copies_cells,
                        .index = index_of(index, index_cells)};
    if (!read_head(space, space_cells, &join.head))
        return refuse(BAD_HEADER);
    size_t subgoals = join.head.subgoals;
    if (!is_numbered(first, subgoals) || !is_numbered(second, subgoals) ||
        !is_numbered(target, subgoals))
        return refuse(BAD_NUMBER);
    const uint32_t *records[] = {subgoal_at(space, &join.head, first),
                                 subgoal_at(space, &join.head, second),
                                 subgoal_at(space, &join.head, target)};
    join.first = source_of(first, records[0]);
    join.second = source_of(second, records[1]);
    enum refusal refusal = judge_parties(&join, target, records);
    if (refusal != ACCEPTED)
        return refuse(refusal);
    return join_ground(space, &join, target);
}

uint64_t plain_join(uint32_t *space, size_t space_cells, uint32_t first, uint32_t second,
                    const uint32_t *pairs, size_t pairs_cells, uint32_t target,
                    const uint32_t *copies, size_t copies_cells)
{
    return plain_join_indexed(space, space_cells, NULL, 0, first, second, pairs, pairs_cells, target,
                              copies, copies_cells);
}
