/* Times the calls with an index against those without one, and against the plain store, on the same tables in one run. */
#define _POSIX_C_SOURCE 200809L

#include "../include/tables.h"
#include "index_tables.h"
#include "plain_store.h"

#include <float.h>
#include <stdbool.h>
#include <stdio.h>
#include <stdlib.h>
#include <string.h>
#include <time.h>

enum {
    FEW = 20,   /* the requests timed together where they are long */
    MANY = 200, /* and where they are short */
    MOST_SLICES = 512,
    LEAST_ROUNDS = 16,
    LEAST_BUILDS = 5,
    LEAST_JOINS = 50
};

/* How long a row is timed, all ways together, unless the fewest rounds take longer. */
static const double nanoseconds_per_row = 5e9;

static void stop(const char *row, const char *what)
{
    fprintf(stderr, "%s: %s\n", row, what);
    exit(1);
}

static double read_clock(clockid_t clock)
{
    struct timespec time;
    clock_gettime(clock, &time);
    return (double)time.tv_sec * 1e9 + (double)time.tv_nsec;
}

static double now(void)
{
    return read_clock(CLOCK_MONOTONIC);
}

/* The time that this process had: for what is so long that others get the processor meanwhile. */
static double worked(void)
{
    return read_clock(CLOCK_PROCESS_CPUTIME_ID);
}

/* The two sides */

struct side {
    uint64_t (*fresh)(uint32_t *, size_t, uint32_t, uint32_t, uint32_t, uint32_t);
    uint64_t (*call)(uint32_t *, size_t, const uint32_t *, size_t);
    uint64_t (*answer)(uint32_t *, size_t, uint32_t, const uint32_t *, size_t);
    uint64_t (*finish)(uint32_t *, size_t, uint32_t);
    uint64_t (*join)(uint32_t *, size_t, uint32_t, uint32_t, const uint32_t *, size_t, uint32_t,
                     const uint32_t *, size_t);
    uint64_t (*build)(const uint32_t *, size_t, uint32_t *, size_t);
    uint64_t (*call_indexed)(uint32_t *, size_t, const uint32_t *, size_t, const uint32_t *, size_t);
    uint64_t (*answer_indexed)(uint32_t *, size_t, const uint32_t *, size_t, uint32_t,
                               const uint32_t *, size_t);
    uint64_t (*join_indexed)(uint32_t *, size_t, const uint32_t *, size_t, uint32_t, uint32_t,
                             const uint32_t *, size_t, uint32_t, const uint32_t *, size_t);
};

enum { OURS, PLAIN, SIDES };

static const struct side sides[SIDES] = {
    [OURS] = {tables_fresh, tables_call, tables_answer, tables_finish, tables_join, tables_build,
              tables_call_indexed, tables_answer_indexed, tables_join_indexed},
    [PLAIN] = {plain_fresh, plain_call, plain_answer, plain_finish, plain_join, plain_build,
               plain_call_indexed, plain_answer_indexed, plain_join_indexed},
};

/* What is timed: each side with the index, and by the chain of siblings. */
enum way { OURS_INDEXED, PLAIN_INDEXED, OURS_CHAIN, PLAIN_CHAIN, WAYS };

static int side_of(enum way way)
{
    return way == OURS_INDEXED || way == OURS_CHAIN ? OURS : PLAIN;
}

static bool is_indexed(enum way way)
{
    return way == OURS_INDEXED || way == PLAIN_INDEXED;
}

/* The rows */

enum work { LOOKUPS, ENTRIES, BUILDS, JOINS };
enum filling { BUILT, RANDOM_WORDS, RANDOM_NODES };

struct row {
    const char *name;
    enum work work;
    struct table (*make)(void);
    size_t index_cells;
    enum filling filling;
    uint32_t indexed_together; /* the requests timed together with the index, */
    uint32_t chain_together;   /* and by the chain, */
    uint32_t chain_step;       /* where one request in so many is made */
};

static const struct row rows[] = {
    {"old, 8,000 belts, 16,384 cells", LOOKUPS, belts_8000, 16384, BUILT, MANY, FEW, 1},
    {"old, 8,000 belts, 65,536 cells", LOOKUPS, belts_8000, 65536, BUILT, MANY, FEW, 1},
    {"old, 100,000 integers, 262,144 cells", LOOKUPS, integers_100000, 262144, BUILT, MANY, FEW, 250},
    {"build, 100,000 integers", BUILDS, integers_100000, 262144, BUILT, 0, 0, 0},
    {"old, answers (A, I), 97 by 82", LOOKUPS, pairs_8000, 16384, BUILT, MANY, FEW, 1},
    {"old, 30 roots with 0 to 99", LOOKUPS, roots_30_of_100, 8192, BUILT, MANY, MANY, 1},
    {"old, 100 roots with 0 to 49", LOOKUPS, roots_100_of_50, 16384, BUILT, MANY, MANY, 1},
    {"old, 12 levels of 2, slots taken", LOOKUPS, twos_beside_large, 32768, BUILT, FEW, FEW, 1},
    {"old, 12 levels of 2, all slots free", LOOKUPS, twos, 32768, BUILT, FEW, FEW, 1},
    {"old, 8,000 belts, random words", LOOKUPS, belts_8000, 16384, RANDOM_WORDS, FEW, FEW, 1},
    {"old, 8,000 belts, random nodes", LOOKUPS, belts_8000, 16384, RANDOM_NODES, FEW, FEW, 1},
    {"old, answers (A, I), random nodes", LOOKUPS, pairs_8000, 16384, RANDOM_NODES, FEW, FEW, 1},
    {"new, answers (A, I), second half", ENTRIES, pairs_8000_halved, 16384, BUILT, FEW, FEW, 1},
    {"new, 8,000 belts, second half", ENTRIES, belts_8000_halved, 16384, BUILT, FEW, FEW, 1},
    {"join, 8,000 children in the target", JOINS, joinable, 32768, BUILT, 0, 0, 0},
    {"build, 8,000 belts", BUILDS, belts_8000, 16384, BUILT, 0, 0, 0},
    {"build, answers (A, I)", BUILDS, pairs_8000, 16384, BUILT, 0, 0, 0},
    {"build, 127 roots with 0 to 127", BUILDS, roots_127_of_128, 32768, BUILT, 0, 0, 0},
    {"build, 255 roots with 0 to 255", BUILDS, roots_255_of_256, 131072, BUILT, 0, 0, 0},
};

enum { ROWS = sizeof rows / sizeof *rows };

/* A row's table; for each side a space and an index of its own; and the space as it is before what is timed. */
struct bench {
    const struct row *row;
    struct table table;
    size_t cells;
    uint32_t *space[SIDES], *index[SIDES], *before;
};

static size_t bytes(size_t cells)
{
    return cells * sizeof(uint32_t);
}

/* Requests */

static uint64_t make_request(const struct bench *bench, int side, const uint32_t *index, size_t slots,
                             uint32_t item)
{
    const struct request *request = &bench->table.requests[item];
    const uint32_t *terms = bench->table.cells + request->at;
    uint32_t *space = bench->space[side];
    if (index != NULL)
        return request->subgoal == 0
                   ? sides[side].call_indexed(space, bench->cells, index, slots, terms, request->cells)
                   : sides[side].answer_indexed(space, bench->cells, index, slots, request->subgoal,
                                                terms, request->cells);
    return request->subgoal == 0
               ? sides[side].call(space, bench->cells, terms, request->cells)
               : sides[side].answer(space, bench->cells, request->subgoal, terms, request->cells);
}

/* What is joined: left(X, K) and right(K, Y) on K, for both(X, Y). */
static uint64_t make_join(const struct bench *bench, int side, const uint32_t *index, size_t slots)
{
    static const uint32_t pairs[] = {1, 0}, copies[] = {0, 0, 1, 1};
    uint32_t *space = bench->space[side];
    if (index != NULL)
        return sides[side].join_indexed(space, bench->cells, index, slots, 1, 2, pairs, 2, 3, copies, 4);
    return sides[side].join(space, bench->cells, 1, 2, pairs, 2, 3, copies, 4);
}

/* Comparing the sides */

static void check_words(const struct bench *bench, const char *what, const uint64_t said[SIDES],
                        uint32_t due)
{
    if (said[OURS] != said[PLAIN] || tables_what(said[OURS]) != due)
        stop(bench->row->name, what);
}

static void check_cells(const struct bench *bench, const char *what)
{
    if (memcmp(bench->space[OURS], bench->space[PLAIN], bytes(bench->cells)) != 0)
        stop(bench->row->name, what);
}

/* Each side makes some requests, with its index or without; each must be new, or each old. */
static void compare_requests(const struct bench *bench, uint32_t from, uint32_t to, uint32_t step,
                             bool indexed, bool are_new)
{
    for (uint32_t item = from; item < to; item += step) {
        uint64_t said[SIDES];
        uint32_t old = bench->table.requests[item].subgoal == 0 ? TABLES_OLD_OPEN : TABLES_OLD;
        for (int i = 0; i < SIDES; i++)
            said[i] = make_request(bench, i, indexed ? bench->index[i] : NULL,
                                   bench->row->index_cells, item);
        check_words(bench, "a request is not answered as it should be", said, are_new ? TABLES_NEW : old);
    }
    check_cells(bench, "the sides leave different spaces");
}

/* The table as it is before what is timed. */
static void compare_filling(struct bench *bench)
{
    const struct table *table = &bench->table;
    uint64_t said[SIDES];
    for (int i = 0; i < SIDES; i++) {
        memset(bench->space[i], 0xa5, bytes(bench->cells));
        said[i] = sides[i].fresh(bench->space[i], bench->cells, table->nodes, table->subgoals,
                                 table->answers, EDITION);
    }
    check_words(bench, "fresh", said, TABLES_DONE);
    compare_requests(bench, 0, bench->row->work == ENTRIES ? table->from : table->count, 1, false, true);
    for (uint32_t subgoal = 1; bench->row->work == JOINS && subgoal <= 2; subgoal++) {
        for (int i = 0; i < SIDES; i++)
            said[i] = sides[i].finish(bench->space[i], bench->cells, subgoal);
        check_words(bench, "finish", said, TABLES_DONE);
    }
    memcpy(bench->before, bench->space[OURS], bytes(bench->cells));
}

static void check_indexes(const struct bench *bench)
{
    if (memcmp(bench->index[OURS], bench->index[PLAIN], bytes(bench->row->index_cells)) != 0)
        stop(bench->row->name, "the sides build different indexes");
}

/* An index of fewer cells, too few or no power of two, must be refused, or built, by both, and be the same then. */
static void compare_build(const struct bench *bench)
{
    size_t slots = bench->row->index_cells;
    const size_t fewer[] = {0, 1, 8, 1024, slots / 4, slots / 2, slots - 1, slots};
    uint64_t said[SIDES] = {0};
    for (int i = 0; i < SIDES; i++)
        memset(bench->index[i], 0xa5, bytes(slots));
    for (size_t k = 0; k < sizeof fewer / sizeof *fewer; k++) {
        for (int i = 0; i < SIDES; i++)
            said[i] = sides[i].build(bench->space[i], bench->cells, bench->index[i], fewer[k]);
        if (said[OURS] != said[PLAIN])
            stop(bench->row->name, "the sides do not build the same");
        check_indexes(bench);
    }
    check_words(bench, "the index is not built", said, TABLES_BUILT);
    check_cells(bench, "a build changes the space");
    printf("%-38s  %u children of %u nodes entered into %zu cells\n", bench->row->name,
           (unsigned)tables_value(said[OURS]), (unsigned)bench->space[OURS][1], slots);
}

/* Cells that no build made: any words, or the numbers of any nodes. */
static void draw_index(const struct bench *bench)
{
    uint64_t state = 1;
    for (size_t i = 0; i < bench->row->index_cells; i++) {
        state = state * 6364136223846793005u + 1442695040888963407u;
        uint32_t drawn = (uint32_t)(state >> 32);
        if (bench->row->filling == RANDOM_NODES)
            drawn = 1 + drawn % (bench->space[OURS][1] - 1);
        bench->index[OURS][i] = bench->index[PLAIN][i] = drawn;
    }
}

/* Both sides as before what is timed. */
static void restore(const struct bench *bench)
{
    for (int i = 0; i < SIDES; i++)
        memcpy(bench->space[i], bench->before, bytes(bench->cells));
}

/* With the index and by the chain, the words and the cells must be the same. */
static void compare_joins(const struct bench *bench)
{
    uint32_t *after = allocate(bench->cells, sizeof *after);
    for (int indexed = 1; indexed >= 0; indexed--) {
        uint64_t said[SIDES];
        restore(bench);
        for (int i = 0; i < SIDES; i++)
            said[i] = make_join(bench, i, indexed ? bench->index[i] : NULL, bench->row->index_cells);
        check_words(bench, "join", said, TABLES_JOINED);
        check_cells(bench, "the joins leave different spaces");
        if (indexed)
            memcpy(after, bench->space[OURS], bytes(bench->cells));
    }
    if (memcmp(after, bench->space[OURS], bytes(bench->cells)) != 0)
        stop(bench->row->name, "the index changes the join");
    free(after);
}

static void compare_entries(const struct bench *bench)
{
    const struct table *table = &bench->table;
    uint32_t *after = allocate(bench->cells, sizeof *after);
    compare_requests(bench, table->from, table->to, 1, true, true);
    memcpy(after, bench->space[OURS], bytes(bench->cells));
    restore(bench);
    compare_requests(bench, table->from, table->to, 1, false, true);
    if (memcmp(after, bench->space[OURS], bytes(bench->cells)) != 0)
        stop(bench->row->name, "the index changes what is entered");
    restore(bench);
    free(after);
}

/* Makes every call of the row on both sides, and stops if a word, a cell of the space or one of the index differs. */
static void compare_sides(const struct bench *bench)
{
    const struct row *row = bench->row;
    compare_build(bench);
    if (row->filling != BUILT)
        draw_index(bench);
    if (row->work == JOINS)
        compare_joins(bench);
    if (row->work == ENTRIES)
        compare_entries(bench);
    if (row->work == LOOKUPS) {
        compare_requests(bench, 0, bench->table.count, 1, true, false);
        compare_requests(bench, 0, bench->table.count, row->chain_step, false, false);
    }
    if (row->work == LOOKUPS && memcmp(bench->before, bench->space[OURS], bytes(bench->cells)) != 0)
        stop(row->name, "what is old changes the space");
    check_indexes(bench);
}

/* Timing: both sides on the first one's space and index, so that both find the same in the caches. */

/* One way's best time for each slice over all rounds, and the sum of what it said. */
struct timing {
    double best[MOST_SLICES];
    uint64_t sum;
};

static void lower(double *best, double time)
{
    if (time < *best)
        *best = time;
}

static uint64_t make_requests(const struct bench *bench, enum way way, uint32_t from, uint32_t to,
                              uint32_t step)
{
    const uint32_t *index = is_indexed(way) ? bench->index[OURS] : NULL;
    uint64_t sum = 0;
    for (uint32_t item = from; item < to; item += step)
        sum += make_request(bench, side_of(way), index, bench->row->index_cells, item);
    return sum;
}

/* One round of one way over all requests that are timed. */
static void time_round(const struct bench *bench, enum way way, struct timing *timing)
{
    const struct row *row = bench->row;
    uint32_t step = is_indexed(way) ? 1 : row->chain_step;
    uint32_t stride = step * (is_indexed(way) ? row->indexed_together : row->chain_together);
    double *best = timing->best;
    if (row->work == ENTRIES)
        memcpy(bench->space[OURS], bench->before, bytes(bench->cells));
    for (uint32_t from = bench->table.from; from < bench->table.to; from += stride) {
        uint32_t to = bench->table.to - from < stride ? bench->table.to : from + stride;
        double start = now();
        timing->sum += make_requests(bench, way, from, to, step);
        lower(best++, now() - start);
    }
}

/* The sum of the best times, for one request. */
static double best_time(const struct bench *bench, enum way way, const struct timing *timing)
{
    uint32_t step = is_indexed(way) ? 1 : bench->row->chain_step;
    double sum = 0;
    for (int slice = 0; slice < MOST_SLICES && timing->best[slice] < DBL_MAX; slice++)
        sum += timing->best[slice];
    return sum / ((bench->table.to - bench->table.from + step - 1) / step);
}

/* Times the ways in turn, there and back, until the time is up. The first rounds warm up: they are never the best. */
static void time_requests(const struct bench *bench, double best[WAYS])
{
    static struct timing timings[WAYS];
    for (int way = 0; way < WAYS; way++) {
        timings[way].sum = 0;
        for (int slice = 0; slice < MOST_SLICES; slice++)
            timings[way].best[slice] = DBL_MAX;
    }
    double begun = now();
    for (int round = 0; round < LEAST_ROUNDS || now() - begun < nanoseconds_per_row; round++)
        for (int i = 0; i < WAYS; i++) {
            enum way way = (enum way)(round % 2 == 0 ? i : WAYS - 1 - i);
            time_round(bench, way, &timings[way]);
        }
    if (timings[OURS_INDEXED].sum != timings[PLAIN_INDEXED].sum ||
        timings[OURS_CHAIN].sum != timings[PLAIN_CHAIN].sum)
        stop(bench->row->name, "the sums differ");
    for (int way = 0; way < WAYS; way++)
        best[way] = best_time(bench, (enum way)way, &timings[way]);
}

static void time_joins(const struct bench *bench, double best[WAYS])
{
    double begun = now();
    for (int round = 0; round < LEAST_JOINS || now() - begun < nanoseconds_per_row; round++)
        for (int way = 0; way < WAYS; way++) {
            const uint32_t *index = is_indexed((enum way)way) ? bench->index[OURS] : NULL;
            memcpy(bench->space[OURS], bench->before, bytes(bench->cells));
            double start = worked();
            uint64_t word = make_join(bench, side_of((enum way)way), index, bench->row->index_cells);
            lower(&best[way], worked() - start);
            if (tables_what(word) != TABLES_JOINED)
                stop(bench->row->name, "a join is refused");
        }
}

/* For each node used. */
static void time_builds(const struct bench *bench, double best[WAYS])
{
    double begun = now();
    for (int round = 0; round < LEAST_BUILDS || now() - begun < nanoseconds_per_row; round++)
        for (int side = 0; side < SIDES; side++) {
            double start = worked();
            uint64_t word = sides[side].build(bench->space[OURS], bench->cells, bench->index[OURS],
                                              bench->row->index_cells);
            lower(&best[side == OURS ? OURS_INDEXED : PLAIN_INDEXED],
                  (worked() - start) / bench->space[OURS][1]);
            if (tables_what(word) != TABLES_BUILT)
                stop(bench->row->name, "a build is refused");
        }
}

/* Reporting */

static const char *unit_of(enum work work)
{
    return work == BUILDS ? "node" : work == JOINS ? "join" : "call";
}

static void print_heading(FILE *tsv)
{
    printf("\n%-38s  per   ours, ns  plain, ns  ratio", "");
    printf("  ours chain  plain chain  ratio  to chain  faster\n");
    if (tsv != NULL)
        fprintf(tsv, "row\tper\tours with index ns\tplain with index ns\tratio\tours by chain ns\t"
                     "plain by chain ns\tratio by chain\tindex to chain\tchain to index\n");
}

/* A build has no chain to be compared with. */
static void report(FILE *tsv, const struct row *row, const double best[WAYS])
{
    const char *unit = unit_of(row->work);
    double ours = best[OURS_INDEXED], plain = best[PLAIN_INDEXED];
    double chain = best[OURS_CHAIN], plain_chain = best[PLAIN_CHAIN];
    printf("%-38s  %s  %8.1f  %9.1f  %5.2f", row->name, unit, ours, plain, ours / plain);
    if (row->work != BUILDS)
        printf("  %10.1f  %11.1f  %5.2f  %8.3f  %6.1f", chain, plain_chain, chain / plain_chain,
               ours / chain, chain / ours);
    printf("\n");
    if (tsv == NULL)
        return;
    fprintf(tsv, "%s\t%s\t%.1f\t%.1f\t%.2f", row->name, unit, ours, plain, ours / plain);
    if (row->work != BUILDS)
        fprintf(tsv, "\t%.1f\t%.1f\t%.2f\t%.3f\t%.1f", chain, plain_chain, chain / plain_chain,
                ours / chain, chain / ours);
    fprintf(tsv, "\n");
}

/* Rows one after another */

static void make_bench(struct bench *bench, const struct row *row)
{
    *bench = (struct bench){.row = row, .table = row->make()};
    bench->cells = table_cells(&bench->table);
    for (int i = 0; i < SIDES; i++)
        bench->space[i] = allocate(bench->cells, sizeof(uint32_t));
    bench->before = allocate(bench->cells, sizeof(uint32_t));
    compare_filling(bench);
}

static void free_bench(struct bench *bench)
{
    for (int i = 0; i < SIDES; i++)
        free(bench->space[i]);
    free(bench->before);
    free_table(&bench->table);
}

/* A row on the table that is made; its indexes are its own. */
static void run_row(struct bench *bench, const struct row *row, double best[WAYS])
{
    bench->row = row;
    for (int i = 0; i < SIDES; i++)
        bench->index[i] = allocate(row->index_cells, sizeof(uint32_t));
    compare_sides(bench);
    for (int way = 0; way < WAYS; way++)
        best[way] = DBL_MAX;
    /* Both sides are timed on one space. */
    uint32_t *other = bench->space[PLAIN];
    bench->space[PLAIN] = bench->space[OURS];
    if (row->work == BUILDS)
        time_builds(bench, best);
    else if (row->work == JOINS)
        time_joins(bench, best);
    else
        time_requests(bench, best);
    bench->space[PLAIN] = other;
    for (int i = 0; i < SIDES; i++)
        free(bench->index[i]);
}

/* Rows on one table follow each other, and share it. */
static void run_rows(FILE *tsv)
{
    static double best[ROWS][WAYS];
    struct bench bench = {0};
    for (int i = 0; i < ROWS; i++) {
        if (i == 0 || rows[i].make != rows[i - 1].make) {
            if (i > 0)
                free_bench(&bench);
            make_bench(&bench, &rows[i]);
        }
        run_row(&bench, &rows[i], best[i]);
    }
    free_bench(&bench);
    print_heading(tsv);
    for (int i = 0; i < ROWS; i++)
        report(tsv, &rows[i], best[i]);
}

/* Only one way of one row, a few times over, to be counted by callgrind: indexes ROW WAY TIMES. */
static void run_one(const char *row, const char *way, const char *times)
{
    struct bench bench;
    int number = atoi(row), chosen = atoi(way);
    if (number < 0 || number >= ROWS || chosen < 0 || chosen >= WAYS || rows[number].work != LOOKUPS)
        stop(row, "there is no such row of old requests, or no such way");
    make_bench(&bench, &rows[number]);
    for (int i = 0; i < SIDES; i++)
        bench.index[i] = allocate(rows[number].index_cells, sizeof(uint32_t));
    compare_build(&bench);
    if (rows[number].filling != BUILT)
        draw_index(&bench);
    for (int i = 0; i < atoi(times); i++)
        make_requests(&bench, (enum way)chosen, bench.table.from, bench.table.to,
                      is_indexed((enum way)chosen) ? 1 : rows[number].chain_step);
    printf("%u requests\n", (unsigned)(bench.table.to - bench.table.from));
    for (int i = 0; i < SIDES; i++)
        free(bench.index[i]);
    free_bench(&bench);
}

/* The file named by the only argument receives the table as tab-separated values. */
int main(int argc, char **argv)
{
    if (argc == 4) {
        run_one(argv[1], argv[2], argv[3]);
        return 0;
    }
    FILE *tsv = argc > 1 ? fopen(argv[1], "w") : NULL;
    if (argc > 1 && tsv == NULL) {
        perror(argv[1]);
        return 1;
    }
    run_rows(tsv);
    if (tsv != NULL && fclose(tsv) != 0) {
        perror(argv[1]);
        return 1;
    }
    return 0;
}
