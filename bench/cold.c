/*
 * Times old requests, load and instance on a table of which nothing is in the caches, against the plain store or what is
 * linked in its place. Before each slice of calls more memory is written than the caches hold.
 */
#define _POSIX_C_SOURCE 200809L

#include "../include/tables.h"
#include "plain_store.h"
#include "workloads.h"

#include <stdio.h>
#include <stdlib.h>
#include <time.h>

enum {
    FEW = 20,   /* the items timed together where a call searches */
    MANY = 200, /* and where it does not */
    OUT_CELLS = 300,
    MOST_SLICES = 20000,
    LINE_BYTES = 64
};

/* Written before each slice: half as much again as the largest cache seen. */
static const size_t swept_bytes = (size_t)48 << 20;

/* How long a row is timed, both sides and the writing together. */
static const double nanoseconds_per_row = 10e9;

struct side {
    uint64_t (*call)(uint32_t *, size_t, const uint32_t *, size_t);
    uint64_t (*answer)(uint32_t *, size_t, uint32_t, const uint32_t *, size_t);
    uint64_t (*load)(const uint32_t *, size_t, uint32_t, uint32_t *, size_t);
    uint64_t (*instance)(const uint32_t *, size_t, uint32_t, uint32_t *, size_t);
};

enum { OURS, PLAIN, SIDES };

static const struct side sides[SIDES] = {
    [OURS] = {tables_call, tables_answer, tables_load, tables_instance},
    [PLAIN] = {plain_call, plain_answer, plain_load, plain_instance},
};

/* What they are called in the report. */
static const char *side_names[SIDES] = {[OURS] = "ours", [PLAIN] = "plain"};

/* A table with all its items. */
struct table {
    struct workload workload;
    uint32_t *space;
};

static void must(int right, const char *what)
{
    if (right)
        return;
    fprintf(stderr, "cold: %s\n", what);
    exit(1);
}

static struct table full_table(struct workload workload)
{
    struct table table = {workload, allocate(workload.space_cells, sizeof(uint32_t))};
    size_t cells = workload.space_cells;
    uint32_t subgoals = subgoal_capacity(&workload), answers = answer_capacity(&workload);
    must(plain_fresh(table.space, cells, workload.nodes, subgoals, answers, EDITION) == 0, "no table");
    if (workload.goal_cells > 0)
        must(tables_value(plain_call(table.space, cells, workload.goal, workload.goal_cells)) == 1,
             "no subgoal");
    for (uint32_t item = 0; item < ITEMS; item++) {
        const uint32_t *term = term_at(&workload, item);
        uint64_t said = workload.goal_cells > 0
                            ? plain_answer(table.space, cells, 1, term, workload.term_cells)
                            : plain_call(table.space, cells, term, workload.term_cells);
        must(tables_value(said) == item + 1, "an item did not enter");
    }
    return table;
}

/* What is timed: one call of an item. */
typedef uint64_t request(const struct side *side, const struct table *table, uint32_t item);

static uint64_t call_old(const struct side *side, const struct table *table, uint32_t item)
{
    const struct workload *workload = &table->workload;
    return side->call(table->space, workload->space_cells, term_at(workload, item), workload->term_cells);
}

static uint64_t answer_old(const struct side *side, const struct table *table, uint32_t item)
{
    const struct workload *workload = &table->workload;
    return side->answer(table->space, workload->space_cells, 1, term_at(workload, item),
                        workload->term_cells);
}

static uint64_t load(const struct side *side, const struct table *table, uint32_t item)
{
    uint32_t out[OUT_CELLS];
    uint64_t said = side->load(table->space, table->workload.space_cells, item + 1, out, OUT_CELLS);
    return said + out[1];
}

static uint64_t instance(const struct side *side, const struct table *table, uint32_t item)
{
    uint32_t out[OUT_CELLS];
    uint64_t said = side->instance(table->space, table->workload.space_cells, item + 1, out, OUT_CELLS);
    return said + out[1];
}

static double now(void)
{
    struct timespec time;
    clock_gettime(CLOCK_MONOTONIC, &time);
    return (double)time.tv_sec * 1e9 + (double)time.tv_nsec;
}

/* Fills the caches with something else. */
static void sweep(void)
{
    static volatile char *swept;
    if (swept == NULL)
        swept = allocate(swept_bytes, 1);
    for (size_t i = 0; i < swept_bytes; i += LINE_BYTES)
        swept[i]++;
}

/* The times of a side's slices, and the sum of what it said. */
struct timing {
    double times[MOST_SLICES];
    uint64_t sum;
};

static void time_slice(request *make, const struct side *side, const struct table *table, uint32_t from,
                       uint32_t together, int slice, struct timing *timing)
{
    sweep();
    double start = now();
    for (uint32_t item = from; item < from + together; item++)
        timing->sum += make(side, table, item);
    timing->times[slice] = (now() - start) / together;
}

static int by_size(const void *one, const void *other)
{
    double a = *(const double *)one, b = *(const double *)other;
    return (a > b) - (a < b);
}

static double median(struct timing *timing, int slices)
{
    qsort(timing->times, (size_t)slices, sizeof *timing->times, by_size);
    return timing->times[slices / 2];
}

/* The two sides in turn, slice after slice, now this side first and now that, until the time is up. */
static void time_sides(const char *name, request *make, const struct table *table, uint32_t together)
{
    static struct timing timings[SIDES];
    int slices = 0;
    double begun = now();
    timings[OURS].sum = timings[PLAIN].sum = 0;
    for (uint32_t from = 0; slices < MOST_SLICES && now() - begun < nanoseconds_per_row; slices++) {
        for (int i = 0; i < SIDES; i++) {
            int side = (i + slices) % SIDES;
            time_slice(make, &sides[side], table, from, together, slices, &timings[side]);
        }
        from = (from + together) % ITEMS;
    }
    must(timings[OURS].sum == timings[PLAIN].sum, "the sums differ");
    double ours = median(&timings[OURS], slices), plain = median(&timings[PLAIN], slices);
    printf("%-10s  %-36s  %9.1f  %9.1f  %5.2f  %6d\n", name, table->workload.name, ours, plain,
           ours / plain, slices);
    fflush(stdout);
}

/* The arguments, where there are any: what the two sides are called. */
int main(int count, char **arguments)
{
    struct table subgoals = full_table(subgoal_workload()), pairs = full_table(pair_workload());
    struct table lists = full_table(list_workload("lists of 60, first element different",
                                                  FIRST_DIFFERENT, EMPTY_ENDING, 60));
    for (int i = 0; i < SIDES && i + 1 < count; i++)
        side_names[i] = arguments[i + 1];
    printf("%-10s  %-36s  %5s, ns  %5s, ns  ratio  slices\n", "", "", side_names[OURS], side_names[PLAIN]);
    time_sides("call old", call_old, &subgoals, FEW);
    time_sides("answer old", answer_old, &pairs, FEW);
    time_sides("load", load, &pairs, MANY);
    time_sides("instance", instance, &pairs, MANY);
    time_sides("answer old", answer_old, &lists, FEW);
    time_sides("load", load, &lists, MANY);
    time_sides("instance", instance, &lists, MANY);
    return 0;
}
