/* Times the exported calls against the plain store, or what is linked in its place, on the same tables in one run. */
#define _POSIX_C_SOURCE 200809L

#include "../include/tables.h"
#include "plain_store.h"
#include "workloads.h"

#include <float.h>
#include <stdio.h>
#include <stdlib.h>
#include <string.h>
#include <time.h>

enum {
    FEW = 20,   /* the items timed together where a call searches: long calls, so few of them */
    MANY = 200, /* and where it does not */
    MOST_SLICES = ITEMS / FEW,
    LEAST_ROUNDS = 16,
    OUT_CELLS = 300
};

/* How long a row is timed, both sides together, unless the fewest rounds take longer. */
static const double nanoseconds_per_row = 4e9;

/* The upper halves of the words expected here; the lower half is a number or a count of cells. */
enum said { DONE = 0, NEW = 1, OLD = 2, OLD_OPEN = 3, AT = 5, NONE_YET = 6, CELLS = 7, COUNTS = 8 };

static uint64_t word(enum said said, uint32_t value)
{
    return (uint64_t)said << 32 | value;
}

/* The two sides */

struct side {
    uint64_t (*fresh)(uint32_t *, size_t, uint32_t, uint32_t, uint32_t, uint32_t);
    uint64_t (*call)(uint32_t *, size_t, const uint32_t *, size_t);
    uint64_t (*answer)(uint32_t *, size_t, uint32_t, const uint32_t *, size_t);
    uint64_t (*finish)(uint32_t *, size_t, uint32_t);
    uint64_t (*next)(const uint32_t *, size_t, uint32_t, uint32_t);
    uint64_t (*load)(const uint32_t *, size_t, uint32_t, uint32_t *, size_t);
    uint64_t (*instance)(const uint32_t *, size_t, uint32_t, uint32_t *, size_t);
    uint64_t (*counts)(const uint32_t *, size_t, uint32_t *, size_t);
};

enum { OURS, PLAIN, SIDES };

static const struct side sides[SIDES] = {
    [OURS] = {tables_fresh, tables_call, tables_answer, tables_finish, tables_next, tables_load,
              tables_instance, tables_counts},
    [PLAIN] = {plain_fresh, plain_call, plain_answer, plain_finish, plain_next, plain_load,
               plain_instance, plain_counts},
};

/* What they are called in the report. */
static const char *side_names[SIDES] = {[OURS] = "ours", [PLAIN] = "plain"};

/* Comparing the sides */

/* What the sides are asked and what they answer, outside the timed part. */
struct comparison {
    const struct workload *workload;
    uint32_t *space[SIDES];
    uint32_t out[SIDES][OUT_CELLS];
};

static void stop(const struct comparison *comparison, const char *call, uint32_t item)
{
    fprintf(stderr, "%s: %s %u is not what it should be\n", comparison->workload->name, call,
            (unsigned)item);
    exit(1);
}

static void clear_outs(struct comparison *comparison)
{
    memset(comparison->out, 0xa5, sizeof comparison->out);
}

/* Stops unless both sides said the word expected and left out alike. */
static void check(const struct comparison *comparison, const char *call, uint32_t item,
                  uint64_t expected, const uint64_t said[SIDES])
{
    if (said[OURS] != expected || said[PLAIN] != expected ||
        memcmp(comparison->out[OURS], comparison->out[PLAIN], sizeof comparison->out[OURS]) != 0)
        stop(comparison, call, item);
}

/* The counts of both sides, and the nodes they agree on. */
static uint32_t compare_counts(struct comparison *comparison, uint32_t subgoals, uint32_t answers)
{
    uint64_t said[SIDES];
    clear_outs(comparison);
    for (int i = 0; i < SIDES; i++)
        said[i] = sides[i].counts(comparison->space[i], comparison->workload->space_cells,
                                  comparison->out[i], OUT_CELLS);
    check(comparison, "counts", 0, word(COUNTS, 3), said);
    if (comparison->out[OURS][1] != subgoals || comparison->out[OURS][2] != answers)
        stop(comparison, "counts", 0);
    return comparison->out[OURS][0];
}

static void compare_fresh(struct comparison *comparison)
{
    const struct workload *workload = comparison->workload;
    uint64_t said[SIDES];
    clear_outs(comparison);
    for (int i = 0; i < SIDES; i++) {
        memset(comparison->space[i], 0xa5, workload->space_cells * sizeof *comparison->space[i]);
        said[i] = sides[i].fresh(comparison->space[i], workload->space_cells, workload->nodes,
                                 subgoal_capacity(workload), answer_capacity(workload), EDITION);
    }
    check(comparison, "fresh", 0, word(DONE, 0), said);
    compare_counts(comparison, 0, 0);
}

static void compare_call(struct comparison *comparison, const uint32_t *term, size_t cells,
                         uint32_t item, enum said expected)
{
    uint64_t said[SIDES];
    for (int i = 0; i < SIDES; i++)
        said[i] = sides[i].call(comparison->space[i], comparison->workload->space_cells, term, cells);
    check(comparison, "call", item, word(expected, item), said);
}

static void compare_answer(struct comparison *comparison, uint32_t item, enum said expected)
{
    const struct workload *workload = comparison->workload;
    uint64_t said[SIDES];
    for (int i = 0; i < SIDES; i++)
        said[i] = sides[i].answer(comparison->space[i], workload->space_cells, 1,
                                  term_at(workload, item - 1), workload->term_cells);
    check(comparison, "answer", item, word(expected, item), said);
}

/* Enters every term, and enters it again. Answers the nodes that the terms took. */
static uint32_t compare_entering(struct comparison *comparison)
{
    const struct workload *workload = comparison->workload;
    int calls = workload->goal_cells == 0;
    if (!calls)
        compare_call(comparison, workload->goal, workload->goal_cells, 1, NEW);
    uint32_t before = compare_counts(comparison, calls ? 0 : 1, 0);
    for (uint32_t again = 0; again < 2; again++)
        for (uint32_t item = 1; item <= ITEMS; item++) {
            uint32_t entered = again ? ITEMS : item;
            if (calls)
                compare_call(comparison, term_at(workload, item - 1), workload->term_cells, item,
                             again ? OLD_OPEN : NEW);
            else
                compare_answer(comparison, item, again ? OLD : NEW);
            compare_counts(comparison, calls ? entered : 1, calls ? 0 : entered);
        }
    uint32_t after = compare_counts(comparison, calls ? ITEMS : 1, calls ? 0 : ITEMS);
    if (after != workload->nodes)
        stop(comparison, "counts", after);
    return after - before;
}

static void compare_next(struct comparison *comparison)
{
    uint64_t said[SIDES];
    for (uint32_t after = 0; after <= ITEMS; after++) {
        for (int i = 0; i < SIDES; i++)
            said[i] = sides[i].next(comparison->space[i], comparison->workload->space_cells, 1, after);
        check(comparison, "next", after, after < ITEMS ? word(AT, after + 1) : word(NONE_YET, 0), said);
    }
}

/* The terms loaded must be those answered: none of them has a variable. */
static void compare_load(struct comparison *comparison)
{
    const struct workload *workload = comparison->workload;
    uint64_t said[SIDES];
    for (uint32_t item = 1; item <= ITEMS; item++) {
        clear_outs(comparison);
        for (int i = 0; i < SIDES; i++)
            said[i] = sides[i].load(comparison->space[i], workload->space_cells, item,
                                    comparison->out[i], OUT_CELLS);
        check(comparison, "load", item, word(CELLS, (uint32_t)workload->term_cells), said);
        if (memcmp(comparison->out[OURS], term_at(workload, item - 1),
                   workload->term_cells * sizeof(uint32_t)) != 0)
            stop(comparison, "load", item);
    }
}

/* The goals are functors whose arguments are variables: the instance is the functor and the answer's terms. */
static void compare_instance(struct comparison *comparison)
{
    const struct workload *workload = comparison->workload;
    uint64_t said[SIDES];
    for (uint32_t item = 1; item <= ITEMS; item++) {
        clear_outs(comparison);
        for (int i = 0; i < SIDES; i++)
            said[i] = sides[i].instance(comparison->space[i], workload->space_cells, item,
                                        comparison->out[i], OUT_CELLS);
        check(comparison, "instance", item, word(CELLS, (uint32_t)workload->term_cells + 1), said);
        if (comparison->out[OURS][0] != workload->goal[0] ||
            memcmp(comparison->out[OURS] + 1, term_at(workload, item - 1),
                   workload->term_cells * sizeof(uint32_t)) != 0)
            stop(comparison, "instance", item);
    }
}

static void compare_finish(struct comparison *comparison)
{
    uint64_t said[SIDES];
    for (uint32_t subgoal = 1; subgoal <= subgoal_capacity(comparison->workload); subgoal++) {
        for (int i = 0; i < SIDES; i++)
            said[i] = sides[i].finish(comparison->space[i], comparison->workload->space_cells, subgoal);
        check(comparison, "finish", subgoal, word(DONE, 0), said);
    }
}

/* Makes every call on both sides, and stops if a word, a count, an out or a cell differs. Answers the terms' nodes. */
static uint32_t compare_sides(const struct workload *workload)
{
    struct comparison comparison = {.workload = workload};
    size_t space_bytes = workload->space_cells * sizeof(uint32_t);
    for (int i = 0; i < SIDES; i++)
        comparison.space[i] = allocate(workload->space_cells, sizeof(uint32_t));
    compare_fresh(&comparison);
    uint32_t nodes = compare_entering(&comparison);
    if (workload->goal_cells > 0) {
        compare_next(&comparison);
        compare_load(&comparison);
        compare_instance(&comparison);
    }
    compare_finish(&comparison);
    if (memcmp(comparison.space[OURS], comparison.space[PLAIN], space_bytes) != 0)
        stop(&comparison, "the space after", ITEMS);
    for (int i = 0; i < SIDES; i++)
        free(comparison.space[i]);
    return nodes;
}

/* The published node counts */

/* Enters lists of each published size on both sides, and stops unless they take the published number of nodes. */
static void compare_published_nodes(enum difference difference, enum ending ending)
{
    static const uint32_t published_sizes[] = {60, 80, 100};
    const char *different = difference == FIRST_DIFFERENT ? "first" : "last";
    const char *ends = ending == EMPTY_ENDING ? "[]" : "a term";
    for (size_t i = 0; i < sizeof published_sizes / sizeof *published_sizes; i++) {
        uint32_t elements = published_sizes[i];
        struct workload workload = list_workload("published lists", difference, ending, elements);
        uint32_t nodes = compare_sides(&workload);
        uint32_t published = published_nodes(difference, ITEMS, elements);
        printf("%u lists of %3u ending in %-6s  %-5s element different  %7u nodes, published %7u\n",
               (unsigned)ITEMS, (unsigned)elements, ends, different, (unsigned)nodes,
               (unsigned)published);
        if (nodes != published)
            exit(1);
        free(workload.terms);
    }
}

/* Timing */

/* Makes the calls of some items; adds up every word and a cell of every out, so that none is optimised away. */
typedef uint64_t batch(const struct side *side, const struct workload *workload, uint32_t *space,
                       uint32_t from, uint32_t to);

static uint64_t make_calls(const struct side *side, const struct workload *workload, uint32_t *space,
                           uint32_t from, uint32_t to)
{
    uint64_t sum = 0;
    for (uint32_t item = from; item < to; item++)
        sum += side->call(space, workload->space_cells, term_at(workload, item), workload->term_cells);
    return sum;
}

static uint64_t make_answers(const struct side *side, const struct workload *workload,
                             uint32_t *space, uint32_t from, uint32_t to)
{
    uint64_t sum = 0;
    for (uint32_t item = from; item < to; item++)
        sum += side->answer(space, workload->space_cells, 1, term_at(workload, item),
                            workload->term_cells);
    return sum;
}

/* Goes from each answer to the one that is handed out. */
static uint64_t make_nexts(const struct side *side, const struct workload *workload, uint32_t *space,
                           uint32_t from, uint32_t to)
{
    uint64_t sum = 0;
    uint32_t after = from;
    for (uint32_t item = from; item < to; item++) {
        uint64_t said = side->next(space, workload->space_cells, 1, after);
        after = (uint32_t)said;
        sum += said;
    }
    return sum;
}

static uint64_t make_loads(const struct side *side, const struct workload *workload, uint32_t *space,
                           uint32_t from, uint32_t to)
{
    uint64_t sum = 0;
    uint32_t out[OUT_CELLS];
    for (uint32_t item = from; item < to; item++) {
        sum += side->load(space, workload->space_cells, item + 1, out, OUT_CELLS);
        sum += out[1];
    }
    return sum;
}

static uint64_t make_instances(const struct side *side, const struct workload *workload,
                               uint32_t *space, uint32_t from, uint32_t to)
{
    uint64_t sum = 0;
    uint32_t out[OUT_CELLS];
    for (uint32_t item = from; item < to; item++) {
        sum += side->instance(space, workload->space_cells, item + 1, out, OUT_CELLS);
        sum += out[1];
    }
    return sum;
}

/* What is timed over all items, so many together; one that enters them starts from a table without them. */
struct operation {
    const char *name;
    batch *make;
    uint32_t together;
    int enters;
};

static const struct operation calling[] = {
    {"call new", make_calls, FEW, 1},
    {"call old", make_calls, FEW, 0},
};

static const struct operation answering[] = {
    {"answer new", make_answers, FEW, 1}, {"answer old", make_answers, FEW, 0},
    {"next", make_nexts, MANY, 0},        {"load", make_loads, MANY, 0},
    {"instance", make_instances, MANY, 0},
};

/* One side's best time for each slice of the items over all rounds, and the sum of what it said. */
struct timing {
    double best[MOST_SLICES];
    uint64_t sum;
};

static double now(void)
{
    struct timespec time;
    clock_gettime(CLOCK_MONOTONIC, &time);
    return (double)time.tv_sec * 1e9 + (double)time.tv_nsec;
}

/* A table without the items, made by the plain side for both, so that both find the same in the caches. */
static void empty_table(const struct workload *workload, uint32_t *space)
{
    plain_fresh(space, workload->space_cells, workload->nodes, subgoal_capacity(workload),
                answer_capacity(workload), EDITION);
    if (workload->goal_cells > 0)
        plain_call(space, workload->space_cells, workload->goal, workload->goal_cells);
}

/* One round of one side over all items. */
static void time_round(const struct side *side, const struct operation *operation,
                       const struct workload *workload, uint32_t *space, struct timing *timing)
{
    if (operation->enters)
        empty_table(workload, space);
    for (uint32_t from = 0; from < ITEMS; from += operation->together) {
        double start = now();
        timing->sum += operation->make(side, workload, space, from, from + operation->together);
        double elapsed = now() - start, *best = &timing->best[from / operation->together];
        if (elapsed < *best)
            *best = elapsed;
    }
}

/* Nanoseconds per item. */
static double best_time(const struct timing *timing, uint32_t slices)
{
    double sum = 0;
    for (uint32_t slice = 0; slice < slices; slice++)
        sum += timing->best[slice];
    return sum / ITEMS;
}

/* Times the two sides in turn on one space, until the time is up. The first rounds warm up: they are never the best. */
static void time_sides(const struct operation *operation, const struct workload *workload,
                       uint32_t *space, double best[SIDES])
{
    struct timing timings[SIDES];
    for (int i = 0; i < SIDES; i++) {
        timings[i].sum = 0;
        for (int slice = 0; slice < MOST_SLICES; slice++)
            timings[i].best[slice] = DBL_MAX;
    }
    double begun = now();
    for (int round = 0; round < LEAST_ROUNDS || now() - begun < nanoseconds_per_row; round++)
        for (int i = 0; i < SIDES; i++)
            time_round(&sides[i], operation, workload, space, &timings[i]);
    if (timings[OURS].sum != timings[PLAIN].sum) {
        fprintf(stderr, "%s, %s: the sums differ\n", operation->name, workload->name);
        exit(1);
    }
    for (int i = 0; i < SIDES; i++)
        best[i] = best_time(&timings[i], ITEMS / operation->together);
}

static void print_heading(FILE *tsv)
{
    const char *ours = side_names[OURS], *plain = side_names[PLAIN];
    printf("\n%-10s  %-36s  %5s, ns  %5s, ns  %6s, 1/s  %6s, 1/s  ratio\n", "", "", ours, plain, ours,
           plain);
    if (tsv != NULL)
        fprintf(tsv, "call\ttable\t%s ns\t%s ns\t%s a second\t%s a second\tratio\n", ours, plain, ours,
                plain);
}

static void report(FILE *tsv, const char *call, const char *table, const double best[SIDES])
{
    double ours = best[OURS], plain = best[PLAIN];
    printf("%-10s  %-36s  %9.1f  %9.1f  %11.0f  %11.0f  %5.2f\n", call, table, ours, plain,
           1e9 / ours, 1e9 / plain, ours / plain);
    if (tsv != NULL)
        fprintf(tsv, "%s\t%s\t%.1f\t%.1f\t%.0f\t%.0f\t%.2f\n", call, table, ours, plain, 1e9 / ours,
                1e9 / plain, ours / plain);
}

/* Times each of some operations on the same space, in which the last entering batch leaves the whole table. */
static void time_workload(FILE *tsv, const struct workload *workload,
                          const struct operation *operations, size_t count)
{
    uint32_t *space = allocate(workload->space_cells, sizeof *space);
    for (size_t i = 0; i < count; i++) {
        double best[SIDES];
        time_sides(&operations[i], workload, space, best);
        report(tsv, operations[i].name, workload->name, best);
    }
    free(space);
}

static void time_all(FILE *tsv)
{
    struct workload subgoals = subgoal_workload();
    struct workload answers[] = {
        pair_workload(),
        list_workload("lists of 60, first element different", FIRST_DIFFERENT, EMPTY_ENDING, 60),
        list_workload("lists of 60, last element different", LAST_DIFFERENT, EMPTY_ENDING, 60),
    };
    print_heading(tsv);
    compare_sides(&subgoals);
    time_workload(tsv, &subgoals, calling, sizeof calling / sizeof *calling);
    free(subgoals.terms);
    for (size_t i = 0; i < sizeof answers / sizeof *answers; i++) {
        compare_sides(&answers[i]);
        time_workload(tsv, &answers[i], answering, sizeof answering / sizeof *answering);
        free(answers[i].terms);
    }
}

/*
 * The file named by the first argument receives the table as tab-separated
 * values; two more name the sides.
 */
int main(int argc, char **argv)
{
    FILE *tsv = argc > 1 ? fopen(argv[1], "w") : NULL;
    if (argc > 1 && tsv == NULL) {
        perror(argv[1]);
        return 1;
    }
    for (int i = 0; i < SIDES && argc > 3; i++)
        side_names[i] = argv[2 + i];
    for (int difference = FIRST_DIFFERENT; difference <= LAST_DIFFERENT; difference++)
        for (int ending = EMPTY_ENDING; ending <= TERM_ENDING; ending++)
            compare_published_nodes((enum difference)difference, (enum ending)ending);
    time_all(tsv);
    if (tsv != NULL && fclose(tsv) != 0) {
        perror(argv[1]);
        return 1;
    }
    return 0;
}
