/* Times the exported join against the plain store's and against an engine's own loops, in one run. */
#define _POSIX_C_SOURCE 200809L

#include "../include/tables.h"
#include "plain_store.h"

#include <stdio.h>
#include <stdlib.h>
#include <string.h>
#include <time.h>

enum {
    LEAST_ROUNDS = 9,
    MOST_ROUNDS = 1000,
    LIST_ELEMENTS = 20,
    MOST_TERMS = 2, /* of an answer of a source */
    OUT_CELLS = TABLES_TERM_CELLS,
    NO_MATCH = 1000000 /* more than any answer's number */
};

/* The edition of the spaces. */
#ifndef BENCH_EDITION
#define BENCH_EDITION TABLES_EDITION_1
#endif

enum { EDITION = BENCH_EDITION };

/* The subgoals left(X, K), right(K, Y) and both(X, Y), as they are numbered. */
enum { LEFT = 1, RIGHT, BOTH, SUBGOALS = BOTH };

/* How long a row is timed, all sides together, unless the fewest rounds take longer. */
static const double nanoseconds_per_row = 6e9;

static void stop(const char *row, const char *what)
{
    fprintf(stderr, "%s: %s\n", row, what);
    exit(1);
}

static void *allocate(size_t count, size_t size)
{
    void *memory = calloc(count, size);
    if (memory == NULL) {
        perror("calloc");
        exit(1);
    }
    return memory;
}

static double now(void)
{
    struct timespec time;
    clock_gettime(CLOCK_PROCESS_CPUTIME_ID, &time);
    return (double)time.tv_sec * 1e9 + (double)time.tv_nsec;
}

/* Workloads */

/*
 * Answers i of left: (i modulo groups, key step * i), and j of right:
 * (key shift + j, j). The key is an integer, or a list that ends in it.
 */
struct row {
    const char *name;
    uint32_t left, right; /* the answers */
    uint32_t groups, step, shift;
    int lists, pairs;  /* lists as keys; 1 if the keys are to be equal, 0 for every combination */
    int exact;         /* exactly the nodes that the join needs */
    uint32_t expected; /* new answers */
    int soiled;        /* the free nodes are no zeros */
    int ground;        /* the target has no variable */
};

static const struct row rows[] = {
    {"1,000 by 1,000, 1,000 pairs", 1000, 1000, NO_MATCH, 1, 0, 0, 1, 0, 1000, 0, 0},
    {"100 by 10,000, 100 pairs", 100, 10000, NO_MATCH, 100, 0, 0, 1, 0, 100, 0, 0},
    {"1,000 by 1,000, no match", 1000, 1000, NO_MATCH, 1, NO_MATCH, 0, 1, 0, 0, 0, 0},
    {"200 by 200, 200 pairs, near full", 200, 200, 10, 1, 0, 0, 1, 1, 200, 0, 0},
    {"100 by 100, every combination", 100, 100, NO_MATCH, 1, 0, 0, 0, 0, 10000, 0, 0},
    {"500 by 500, 500 pairs, lists of 20", 500, 500, NO_MATCH, 1, 0, 1, 1, 0, 500, 0, 0},
};

enum { ROWS = sizeof rows / sizeof *rows };

/* The same joins refused, with none, half and all but one of the nodes that they need. */
static const struct row refused_rows[] = {
    {"2,000 by 2,000, 2,000 pairs", 2000, 2000, NO_MATCH, 1, 0, 0, 1, 0, 2000, 0, 0},
    {"2,000 by 2,000, shared nodes", 2000, 2000, 10, 1, 0, 0, 1, 0, 2000, 0, 0},
    {"100 by 100, every combination", 100, 100, NO_MATCH, 1, 0, 0, 0, 0, 10000, 0, 0},
    {"500 by 500, lists of 20", 500, 500, NO_MATCH, 1, 0, 1, 1, 0, 500, 0, 0},
    {"500 by 500, free cells not zeros", 500, 500, NO_MATCH, 1, 0, 0, 1, 0, 500, 1, 0},
};

/* Refused for want of a record: no variable in the target, so that all pairs give the one empty answer. */
static const struct row ground_rows[] = {
    {"500 by 500, target without variables", 500, 500, NO_MATCH, 1, 0, 0, 1, 0, 1, 0, 1},
    {"2,000 by 2,000, the same", 2000, 2000, NO_MATCH, 1, 0, 0, 1, 0, 1, 0, 1},
};

enum { REFUSED_ROWS = sizeof refused_rows / sizeof *refused_rows, FULLNESSES = 3 };
enum { GROUND_ROWS = sizeof ground_rows / sizeof *ground_rows };

/* A table with both sources, as it is before each join; a copy, which is joined; and the request. */
struct table {
    const struct row *row;
    uint32_t nodes, answers;
    size_t cells;
    uint32_t *before, *space;
    uint32_t pairs[2], copies[4];
    size_t pairs_cells, copies_cells;
};

static size_t write_key(const struct row *row, uint32_t key, uint32_t *cells)
{
    size_t count = 0;
    for (uint32_t i = 1; row->lists && i <= LIST_ELEMENTS; i++) {
        cells[count++] = TABLES_PAIR_CELL;
        cells[count++] = TABLES_CELL(TABLES_INTEGER, i < LIST_ELEMENTS ? i : key);
    }
    cells[count++] = row->lists ? TABLES_EMPTY_LIST : TABLES_CELL(TABLES_INTEGER, key);
    return count;
}

static void must_be(const struct table *table, uint64_t word, uint32_t what)
{
    if (tables_what(word) != what)
        stop(table->row->name, "a call was answered otherwise than it should be");
}

/* The three subgoals, whose answers have two terms each, but for a target that is an atom. */
static void call_goals(struct table *table)
{
    for (uint32_t goal = LEFT; goal <= BOTH; goal++) {
        const uint32_t term[] = {TABLES_FUNCTOR_CELL(EDITION, goal, 2), TABLES_CELL(TABLES_VARIABLE, 0),
                                 TABLES_CELL(TABLES_VARIABLE, 1)};
        const uint32_t atom[] = {TABLES_CELL(TABLES_ATOM, goal)};
        int ground = goal == BOTH && table->row->ground;
        must_be(table, plain_call(table->before, table->cells, ground ? atom : term, ground ? 1 : 3),
                TABLES_NEW);
    }
}

static void answer_sources(struct table *table)
{
    const struct row *row = table->row;
    uint32_t terms[OUT_CELLS];
    for (uint32_t i = 0; i < row->left; i++) {
        terms[0] = TABLES_CELL(TABLES_INTEGER, i % row->groups);
        size_t cells = 1 + write_key(row, row->step * i, terms + 1);
        must_be(table, plain_answer(table->before, table->cells, LEFT, terms, cells), TABLES_NEW);
    }
    for (uint32_t i = 0; i < row->right; i++) {
        size_t cells = write_key(row, row->shift + i, terms);
        terms[cells] = TABLES_CELL(TABLES_INTEGER, i);
        must_be(table, plain_answer(table->before, table->cells, RIGHT, terms, cells + 1), TABLES_NEW);
    }
}

/* Makes the table with so many nodes and so many free records; both sources are finished. */
static void make_table_with(struct table *table, const struct row *row, uint32_t nodes, uint32_t free_records)
{
    *table = (struct table){.row = row, .nodes = nodes,
                            .answers = row->left + row->right + free_records,
                            .pairs = {1, 0}, .pairs_cells = row->pairs ? 2 : 0,
                            .copies = {0, 0, 1, 1}, .copies_cells = row->ground ? 0 : 4};
    table->cells = TABLES_SPACE_CELLS(table->nodes, SUBGOALS, table->answers);
    table->before = allocate(table->cells, sizeof *table->before);
    table->space = allocate(table->cells, sizeof *table->space);
    must_be(table,
            plain_fresh(table->before, table->cells, table->nodes, SUBGOALS, table->answers, EDITION),
            TABLES_DONE);
    call_goals(table);
    answer_sources(table);
    must_be(table, plain_finish(table->before, table->cells, LEFT), TABLES_DONE);
    must_be(table, plain_finish(table->before, table->cells, RIGHT), TABLES_DONE);
}

/* With room for every new answer. */
static void make_table(struct table *table, const struct row *row, uint32_t nodes)
{
    make_table_with(table, row, nodes, row->expected);
}

/* Writes to the nodes that are free, of which nothing is read. */
static void soil(struct table *table, uint32_t used)
{
    for (size_t i = TABLES_SPACE_CELLS(used, 0, 0); i < TABLES_SPACE_CELLS(table->nodes, 0, 0); i++)
        table->before[i] = 1;
}

static void free_table(struct table *table)
{
    free(table->before);
    free(table->space);
}

static void restore(struct table *table)
{
    memcpy(table->space, table->before, table->cells * sizeof *table->space);
}

/* The sides */

static uint64_t join_ours(struct table *table)
{
    return tables_join(table->space, table->cells, LEFT, RIGHT, table->pairs, table->pairs_cells, BOTH,
                       table->copies, table->copies_cells);
}

static uint64_t join_plain(struct table *table)
{
    return plain_join(table->space, table->cells, LEFT, RIGHT, table->pairs, table->pairs_cells, BOTH,
                      table->copies, table->copies_cells);
}

/* An answer that an engine has loaded, and where its terms begin and the last ends. */
struct loaded {
    size_t starts[MOST_TERMS + 1];
    uint32_t cells[OUT_CELLS];
};

static uint32_t next_answer(const struct table *table, uint32_t subgoal, uint32_t after)
{
    return tables_value(tables_next(table->space, table->cells, subgoal, after));
}

/* One sum for the cells still due: due + arity - 1. The answers hold no functors. */
static inline size_t behind_term(const uint32_t *cells, size_t at)
{
    for (size_t due = 1; due > 0; at++)
        due += cells[at] == TABLES_PAIR_CELL ? 1 : (size_t)-1;
    return at;
}

static inline void load_answer(const struct table *table, uint32_t answer, struct loaded *loaded)
{
    uint64_t word = tables_load(table->space, table->cells, answer, loaded->cells, OUT_CELLS);
    if (tables_refused_by(word) != 0)
        stop(table->row->name, tables_refusal_text(tables_refused_by(word)));
    loaded->starts[0] = 0;
    for (size_t i = 0; i < MOST_TERMS; i++)
        loaded->starts[i + 1] = behind_term(loaded->cells, loaded->starts[i]);
}

static inline size_t width(const struct loaded *loaded, uint32_t term)
{
    return loaded->starts[term + 1] - loaded->starts[term];
}

/* Do the terms that the pair names, if there is one, have the same cells? */
static inline int loaded_match(const struct table *table, const struct loaded *left,
                               const struct loaded *right)
{
    if (table->pairs_cells == 0)
        return 1;
    uint32_t x = table->pairs[0], y = table->pairs[1];
    const uint32_t *a = left->cells + left->starts[x], *b = right->cells + right->starts[y];
    size_t cells = width(left, x), i = 0;
    if (cells != width(right, y))
        return 0;
    while (i < cells && a[i] == b[i])
        i++;
    return i == cells;
}

/* Answers both(X, Y) with the terms that the copies name; 1 if that was new. */
static uint32_t give(struct table *table, const struct loaded *left, const struct loaded *right)
{
    uint32_t terms[2 * OUT_CELLS];
    size_t count = 0;
    for (size_t i = 0; i < 4; i += 2) {
        const struct loaded *from = table->copies[i] == 0 ? left : right;
        uint32_t term = table->copies[i + 1];
        for (size_t at = from->starts[term]; at < from->starts[term + 1]; at++)
            terms[count++] = from->cells[at];
    }
    uint64_t word = tables_answer(table->space, table->cells, BOTH, terms, count);
    if (tables_refused_by(word) != 0)
        stop(table->row->name, tables_refusal_text(tables_refused_by(word)));
    return tables_what(word) == TABLES_NEW;
}

static uint64_t joined(uint32_t new_answers)
{
    return (uint64_t)TABLES_JOINED << 32 | new_answers;
}

/* What an engine does without the join and without memory of its own: two loops over next and load. */
static uint64_t join_by_loading(struct table *table)
{
    struct loaded left, right;
    uint32_t new_answers = 0;
    for (uint32_t a = next_answer(table, LEFT, 0); a != 0; a = next_answer(table, LEFT, a)) {
        load_answer(table, a, &left);
        for (uint32_t b = next_answer(table, RIGHT, 0); b != 0; b = next_answer(table, RIGHT, b)) {
            load_answer(table, b, &right);
            if (loaded_match(table, &left, &right))
                new_answers += give(table, &left, &right);
        }
    }
    return joined(new_answers);
}

/* The answers of a source, loaded into memory lent for all of them. */
static size_t keep(const struct table *table, uint32_t subgoal, struct loaded *kept)
{
    size_t count = 0;
    for (uint32_t a = next_answer(table, subgoal, 0); a != 0; a = next_answer(table, subgoal, a))
        load_answer(table, a, &kept[count++]);
    return count;
}

/* What it does with memory of its own for all answers: each is loaded once. */
static uint64_t join_by_keeping(struct table *table)
{
    struct loaded *left = malloc(table->row->left * sizeof *left);
    struct loaded *right = malloc(table->row->right * sizeof *right);
    if (left == NULL || right == NULL)
        stop(table->row->name, "there is no memory for the answers");
    size_t lefts = keep(table, LEFT, left), rights = keep(table, RIGHT, right);
    uint32_t new_answers = 0;
    for (size_t i = 0; i < lefts; i++)
        for (size_t j = 0; j < rights; j++)
            if (loaded_match(table, &left[i], &right[j]))
                new_answers += give(table, &left[i], &right[j]);
    free(left);
    free(right);
    return joined(new_answers);
}

enum { OURS, PLAIN, LOADING, KEEPING, SIDES };

static uint64_t (*const sides[SIDES])(struct table *) = {
    [OURS] = join_ours,
    [PLAIN] = join_plain,
    [LOADING] = join_by_loading,
    [KEEPING] = join_by_keeping,
};

/* Comparing */

/* Stops unless every side says what it should and leaves the same cells. */
static void compare_sides(struct table *table)
{
    uint32_t *after = allocate(table->cells, sizeof *after);
    for (int side = 0; side < SIDES; side++) {
        restore(table);
        if (sides[side](table) != joined(table->row->expected))
            stop(table->row->name, "a side's word is not what it should be");
        if (side == OURS)
            memcpy(after, table->space, table->cells * sizeof *after);
        else if (memcmp(after, table->space, table->cells * sizeof *after) != 0)
            stop(table->row->name, "the sides leave different cells");
    }
    free(after);
}

/* With one node less than needed, both joins must be refused and leave the space as it was. */
static void compare_refusals(const struct row *row, uint32_t nodes)
{
    struct table table;
    make_table(&table, row, nodes - 1);
    for (int side = OURS; side <= PLAIN; side++) {
        restore(&table);
        if (tables_refused_by(sides[side](&table)) != TABLES_REFUSED_NO_NODE ||
            memcmp(table.before, table.space, table.cells * sizeof *table.space) != 0)
            stop(row->name, "a side enters more than there is room for");
    }
    free_table(&table);
}

/* The nodes of a table in which everything fits by the bound; and of one with none to spare. */
static uint32_t roomy_nodes(const struct row *row)
{
    uint32_t terms = row->lists ? LIST_ELEMENTS + 3 : 2;
    return 16 + terms * (row->left + row->right) + 2 * row->expected;
}

static uint32_t exact_nodes(const struct row *row)
{
    struct table table;
    uint32_t counts[3];
    make_table(&table, row, roomy_nodes(row));
    restore(&table);
    must_be(&table, join_plain(&table), TABLES_JOINED);
    must_be(&table, plain_counts(table.space, table.cells, counts, 3), TABLES_COUNTS);
    free_table(&table);
    return counts[0];
}

/* Timing */

struct timing {
    double times[SIDES][MOST_ROUNDS];
    double best[SIDES], middle[SIDES];
    int rounds;
};

static int order(const void *a, const void *b)
{
    double x = *(const double *)a, y = *(const double *)b;
    return (x > y) - (x < y);
}

/* Times the sides in turn, each on the table as it was, until the time is up. */
static void time_sides(struct table *table, struct timing *timing)
{
    double begun = now();
    int round = 0;
    while (round < MOST_ROUNDS && (round < LEAST_ROUNDS || now() - begun < nanoseconds_per_row)) {
        for (int side = 0; side < SIDES; side++) {
            restore(table);
            double start = now();
            uint64_t word = sides[side](table);
            timing->times[side][round] = now() - start;
            if (word != joined(table->row->expected))
                stop(table->row->name, "a side's word is not what it should be");
        }
        round++;
    }
    timing->rounds = round;
    for (int side = 0; side < SIDES; side++) {
        qsort(timing->times[side], (size_t)round, sizeof(double), order);
        timing->best[side] = timing->times[side][0];
        timing->middle[side] = timing->times[side][round / 2];
    }
}

static void report(FILE *tsv, const struct row *row, const struct timing *timing)
{
    const double *best = timing->best, *middle = timing->middle;
    printf("%-34s  %8.3f  %8.3f  %8.3f  %8.3f  %5.2f  %5.2f  %6.2f  %6.2f\n", row->name,
           middle[OURS] / 1e6, middle[PLAIN] / 1e6, middle[LOADING] / 1e6, middle[KEEPING] / 1e6,
           middle[OURS] / middle[PLAIN], best[OURS] / best[PLAIN], middle[LOADING] / middle[OURS],
           middle[KEEPING] / middle[OURS]);
    if (tsv != NULL)
        fprintf(tsv, "%s\t%.3f\t%.3f\t%.3f\t%.3f\t%.2f\t%.2f\t%.2f\t%.2f\t%d\n", row->name,
                middle[OURS] / 1e6, middle[PLAIN] / 1e6, middle[LOADING] / 1e6,
                middle[KEEPING] / 1e6, middle[OURS] / middle[PLAIN], best[OURS] / best[PLAIN],
                middle[LOADING] / middle[OURS], middle[KEEPING] / middle[OURS], timing->rounds);
}

static void time_row(FILE *tsv, const struct row *row)
{
    static struct timing timing;
    struct table table;
    uint32_t nodes = row->exact ? exact_nodes(row) : roomy_nodes(row);
    if (row->exact)
        compare_refusals(row, nodes);
    make_table(&table, row, nodes);
    compare_sides(&table);
    time_sides(&table, &timing);
    report(tsv, row, &timing);
    free_table(&table);
}

/* The best time of a side on the table as it is, in nanoseconds, and its word. */
static double time_once(struct table *table, int side, uint64_t *word)
{
    double best = 0;
    for (int round = 0; round < LEAST_ROUNDS; round++) {
        restore(table);
        double start = now();
        *word = sides[side](table);
        double time = now() - start;
        if (round == 0 || time < best)
            best = time;
    }
    return best;
}

/* Times ours and plain, which must be accepted. */
static void time_accepted(struct table *table, double accepted[PLAIN + 1])
{
    uint64_t word;
    for (int side = OURS; side <= PLAIN; side++) {
        accepted[side] = time_once(table, side, &word);
        must_be(table, word, TABLES_JOINED);
    }
}

/* The same, which must be refused so and change nothing; and how many times as long that takes. */
static void time_refusal(FILE *tsv, struct table *table, uint32_t refusal, uint32_t spare,
                         uint32_t needed, const double accepted[PLAIN + 1])
{
    const char *name = table->row->name;
    double refused[PLAIN + 1];
    uint64_t word;
    for (int side = OURS; side <= PLAIN; side++) {
        refused[side] = time_once(table, side, &word);
        if (tables_refused_by(word) != refusal ||
            memcmp(table->before, table->space, table->cells * sizeof *table->space) != 0)
            stop(name, "a side enters more than there is room for");
    }
    printf("%-36s  %6u of %6u free: refused in %8.3f ms, %6.2f times; plain %8.3f, %6.2f\n", name,
           spare, needed, refused[OURS] / 1e6, refused[OURS] / accepted[OURS],
           refused[PLAIN] / 1e6, refused[PLAIN] / accepted[PLAIN]);
    if (tsv != NULL)
        fprintf(tsv, "%s\t%u\t%u\t%.3f\t%.3f\t%.2f\t%.3f\t%.3f\t%.2f\n", name, spare,
                needed, accepted[OURS] / 1e6, refused[OURS] / 1e6, refused[OURS] / accepted[OURS],
                accepted[PLAIN] / 1e6, refused[PLAIN] / 1e6, refused[PLAIN] / accepted[PLAIN]);
}

/* A join accepted with room to spare, and refused at several fullnesses. */
static void time_refused(FILE *tsv, const struct row *row)
{
    struct table table;
    uint32_t counts[3];
    double accepted[PLAIN + 1];
    make_table(&table, row, roomy_nodes(row));
    must_be(&table, plain_counts(table.before, table.cells, counts, 3), TABLES_COUNTS);
    time_accepted(&table, accepted);
    free_table(&table);
    uint32_t used = counts[0], needed = exact_nodes(row) - used;
    /* Where no node is free there is none to soil. */
    const uint32_t free_nodes[FULLNESSES] = {row->soiled ? 1 : 0, needed / 2, needed - 1};
    for (int i = 0; i < FULLNESSES; i++) {
        make_table(&table, row, used + free_nodes[i]);
        if (row->soiled)
            soil(&table, used);
        time_refusal(tsv, &table, TABLES_REFUSED_NO_NODE, free_nodes[i], needed, accepted);
        free_table(&table);
    }
}

/* A join into a target without variables, accepted with one record free and refused with none. */
static void time_ground(FILE *tsv, const struct row *row)
{
    struct table table;
    double accepted[PLAIN + 1];
    make_table(&table, row, roomy_nodes(row));
    time_accepted(&table, accepted);
    free_table(&table);
    make_table_with(&table, row, roomy_nodes(row), 0);
    time_refusal(tsv, &table, TABLES_REFUSED_NO_RECORD, 0, 1, accepted);
    free_table(&table);
}

/* Only one side of one row, a few times over, to be counted by callgrind: joins ROW SIDE TIMES. */
static void run_one(const char *row, const char *side, const char *times)
{
    struct table table;
    int number = atoi(row), chosen = atoi(side);
    if (number < 0 || number >= ROWS || chosen < 0 || chosen >= SIDES)
        stop(row, "there is no such row, or no such side");
    make_table(&table, &rows[number],
               rows[number].exact ? exact_nodes(&rows[number]) : roomy_nodes(&rows[number]));
    for (int i = 0; i < atoi(times); i++) {
        restore(&table);
        must_be(&table, sides[chosen](&table), TABLES_JOINED);
    }
    free_table(&table);
}

/* The file named by the only argument receives the table as tab-separated values. */
int main(int argc, char **argv)
{
    if (argc == 4) {
        run_one(argv[1], argv[2], argv[3]);
        return 0;
    }
    FILE *tsv = argc > 1 ? fopen(argv[1], "w") : NULL;
    if (argc > 1 && tsv == NULL) {
        perror(argv[1]);
        return 1;
    }
    printf("%-34s  %8s  %8s  %8s  %8s  %5s  %5s  %6s  %6s\n", "", "ours, ms", "plain", "loading",
           "keeping", "ratio", "best", "faster", "faster");
    if (tsv != NULL)
        fprintf(tsv, "join\tours ms\tplain ms\tloading ms\tkeeping ms\tours to plain\tof the best\t"
                     "loading to ours\tkeeping to ours\trounds\n");
    for (int i = 0; i < ROWS; i++)
        time_row(tsv, &rows[i]);
    if (tsv != NULL)
        fprintf(tsv, "refused\tfree\tneeded\tours accepted ms\tours refused ms\ttimes\tplain accepted ms\t"
                     "plain refused ms\ttimes\n");
    for (int i = 0; i < REFUSED_ROWS; i++)
        time_refused(tsv, &refused_rows[i]);
    for (int i = 0; i < GROUND_ROWS; i++)
        time_ground(tsv, &ground_rows[i]);
    if (tsv != NULL && fclose(tsv) != 0) {
        perror(argv[1]);
        return 1;
    }
    return 0;
}
