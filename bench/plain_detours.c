/* Detours in plain C: as the export does them, on top of the plain store. */

/* One unit with the store, so that the compiler sees all that they are made of. */
#include "plain_store.c"

enum { SAID_DETOUR = 14, SAID_NO_DETOUR = 15, DETOUR_CELLS = 8, MOST_GOALS = 6 };
enum { GOAL_OPEN = 14, BAD_GOALS = 22 };

static const uint32_t *goal_record(const uint32_t *space, const struct head *head, uint32_t goal)
{
    return subgoal_at(space, head, goal);
}

/* Judges the answers of a goal as a join does those of a source. Sets whether all are (atom, integer). */
static bool judge_goal(const uint32_t *space, const struct head *head, uint32_t goal, bool *fits)
{
    const uint32_t *owner = goal_record(space, head, goal);
    size_t last = 0;
    if (!subgoal_is_sound(owner, head))
        return false;
    *fits = *fits && owner[VARIABLES] == 2;
    for (size_t answer = owner[FIRST]; answer != 0;) {
        struct path path;
        struct expansion terms;
        const uint32_t *record = answer_at(space, head, answer);
        if (answer <= last || !answer_is_sound(record, answer, head) ||
            record[ANSWER_SUBGOAL] != goal ||
            !gather(space, head->nodes, head->answers, owner[ROOT], record[ANSWER_LEAF], &path) ||
            !expand(&terms, head, &path, owner[VARIABLES]))
            return false;
        *fits = *fits && path_end(&path) - path.first == 2 && kind(path.first[0]) == ATOM &&
                kind(path.first[1]) == INTEGER;
        last = answer;
        answer = record[ANSWER_NEXT];
    }
    return true;
}

/* A search as it goes: the goals, what is chosen so far, and the best choice. */
struct search_state {
    const uint32_t *space;
    const struct head *head;
    const uint32_t *goals;
    size_t count;
    uint32_t budget, tried, best;
    bool found, stopped;
    uint32_t diverters[MOST_GOALS], answers[MOST_GOALS], best_answers[MOST_GOALS];
};

static bool is_taken(const struct search_state *s, size_t level, uint32_t diverter)
{
    for (size_t i = 0; i < level; i++)
        if (s->diverters[i] == diverter)
            return true;
    return false;
}

static void keep(struct search_state *s, uint32_t total)
{
    if (s->found && total >= s->best)
        return;
    s->found = true;
    s->best = total;
    memcpy(s->best_answers, s->answers, s->count * sizeof *s->answers);
}

static void choose(struct search_state *s, size_t level, uint32_t total)
{
    size_t answer = goal_record(s->space, s->head, s->goals[level])[FIRST];
    while (answer != 0) {
        const uint32_t *record = answer_at(s->space, s->head, answer);
        const uint32_t *leaf = node_at(s->space, record[ANSWER_LEAF]);
        uint32_t diverter = node_at(s->space, leaf[PARENT])[TOKEN];
        if (s->tried == s->budget) {
            s->stopped = true;
            return;
        }
        s->tried++;
        if (!is_taken(s, level, diverter)) {
            s->diverters[level] = diverter;
            s->answers[level] = (uint32_t)answer;
            if (level + 1 == s->count)
                keep(s, total + payload(leaf[TOKEN]));
            else
                choose(s, level + 1, total + payload(leaf[TOKEN]));
            if (s->stopped)
                return;
        }
        answer = record[ANSWER_NEXT];
    }
}

static uint64_t say_detour(const struct search_state *s, uint32_t *out, size_t out_cells)
{
    if (out_cells < DETOUR_CELLS)
        return refuse_out(DETOUR_CELLS);
    out[0] = s->tried;
    out[1] = !s->stopped;
    if (!s->found)
        return say(SAID_NO_DETOUR, 0);
    memcpy(out + 2, s->best_answers, s->count * sizeof *out);
    return say(SAID_DETOUR, s->best);
}

uint64_t plain_detours(const uint32_t *space, size_t space_cells, const uint32_t *goals,
                       size_t goals_cells, uint32_t budget, uint32_t *out, size_t out_cells)
{
    struct head head;
    bool fits = goals_cells >= 1 && goals_cells <= MOST_GOALS, open = false;
    if (!read_head(space, space_cells, &head))
        return refuse(BAD_HEADER);
    for (size_t i = 0; i < goals_cells; i++)
        if (!is_numbered(goals[i], head.subgoals))
            return refuse(BAD_NUMBER);
    for (size_t i = 0; i < goals_cells; i++) {
        if (!judge_goal(space, &head, goals[i], &fits))
            return refuse(DAMAGED);
        open = open || goal_record(space, &head, goals[i])[STATE] == 0;
    }
    if (open)
        return say((uint32_t)SAID_REFUSED + GOAL_OPEN, 0);
    if (!fits)
        return say((uint32_t)SAID_REFUSED + BAD_GOALS, 0);
    struct search_state s = {.space = space, .head = &head, .goals = goals, .count = goals_cells,
                             .budget = budget};
    choose(&s, 0, 0);
    return say_detour(&s, out, out_cells);
}
