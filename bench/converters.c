/* Times the exported converters against the plain ones, or what is linked in its place, on the same bytes in one run. */
#define _POSIX_C_SOURCE 200809L

#include "../include/tables.h"
#include "../tests/editions.h"
#include "plain_converters.h"

#include <float.h>
#include <stdio.h>
#include <stdlib.h>
#include <time.h>

enum { REPETITIONS = 21, MOST_TERMS = 16, CELL_BYTES = 4 };
enum { SHORT_BATCHES = 4000, SHORTER = 250 }; /* so many, and by how much they are shorter */

/* The edition of the terms. */
#ifndef BENCH_EDITION
#define BENCH_EDITION TABLES_EDITION_1
#endif

enum { EDITION = BENCH_EDITION };

static const double nanoseconds_per_batch = 5e6;

typedef uint32_t converter(const uint8_t *, size_t, uint8_t *, size_t, uint32_t);

/* A term in pair form or in compact form, as bytes. */
struct bytes {
    size_t length;
    uint8_t byte[TABLES_COMPACT_CELLS * CELL_BYTES];
};

/* What is timed together: one call on each of its terms in turn. */
struct workload {
    const char *name;
    size_t count;
    struct bytes term[MOST_TERMS];
    struct bytes form[MOST_TERMS];
};

/*
 * Medians for one workload and one converter, and the ratio of the best times
 * of short batches, in which other work on the machine counts little.
 */
struct timing {
    double exported;
    double reference;
    double ratio;
    double best_ratio;
};

/* Adding up every result and a byte of every output keeps the calls from being optimised away. */
static volatile uint32_t consumed;

/* Building terms */

static void put(struct bytes *bytes, uint32_t cell)
{
    for (int i = 0; i < CELL_BYTES; i++)
        bytes->byte[bytes->length++] = (uint8_t)(cell >> 8 * i);
}

static void put_functor(struct bytes *bytes, uint32_t name, uint32_t arity)
{
    put(bytes, TABLES_FUNCTOR_CELL(EDITION, name, arity));
}

/* [c1, c2, ..]: constants, atoms and integers in turn. */
static void flat_list(struct bytes *bytes, uint32_t elements)
{
    for (uint32_t i = 0; i < elements; i++) {
        put(bytes, TABLES_PAIR_CELL);
        put(bytes, TABLES_CELL(i % 2 == 0 ? TABLES_ATOM : TABLES_INTEGER, i + 1));
    }
    put(bytes, TABLES_EMPTY_LIST);
}

/* [[..], [..], ..]: eight lists of two to five elements, some of them lists of two. */
static void nested_list(struct bytes *bytes)
{
    for (uint32_t i = 0; i < 8; i++) {
        put(bytes, TABLES_PAIR_CELL);
        for (uint32_t j = 0; j < 2 + i % 4; j++) {
            put(bytes, TABLES_PAIR_CELL);
            if (j % 2 == 1)
                flat_list(bytes, 2);
            else
                put(bytes, TABLES_CELL(TABLES_INTEGER, i * j));
        }
        put(bytes, TABLES_EMPTY_LIST);
    }
    put(bytes, TABLES_EMPTY_LIST);
}

/* [1, [2, [3, ..]]]: every list is the last element of the one around it. */
static void deep_list(struct bytes *bytes, uint32_t depth)
{
    for (uint32_t i = 1; i < depth; i++) {
        put(bytes, TABLES_PAIR_CELL);
        put(bytes, TABLES_CELL(TABLES_INTEGER, i));
        put(bytes, TABLES_PAIR_CELL);
    }
    put(bytes, TABLES_CELL(TABLES_INTEGER, depth));
    for (uint32_t i = 1; i < depth; i++)
        put(bytes, TABLES_EMPTY_LIST);
}

/* p(q(..), q(..), q(..), q(..)): 40 variables, 32 of them distinct. */
static void variables_term(struct bytes *bytes)
{
    put_functor(bytes, 1, 4);
    for (uint32_t i = 0; i < 40; i++) {
        if (i % 10 == 0)
            put_functor(bytes, 2, 10);
        uint32_t name = i % 5 == 4 ? i / 2 : i - i / 5;
        put(bytes, TABLES_CELL(TABLES_VARIABLE, 1000 + 7 * name));
    }
}

/* Terms of three to eight cells, as edition 1 writes them; no cell is 0, so a 0 ends a row. */
static const uint32_t small_terms[MOST_TERMS][9] = {
    /* f(X, a), [1], f(X, X), [1 | 2] */
    {0x40000012, 0x10000001, 0x20000005},
    {0x50000000, 0x30000001, 0x20000000},
    {0x40000012, 0x10000007, 0x10000007},
    {0x50000000, 0x30000001, 0x30000002},
    /* g(a, X, 3), f(h(X), b), [1, 2], f(g(X), h(Y)) */
    {0x40000023, 0x20000001, 0x10000002, 0x30000003},
    {0x40000012, 0x40000031, 0x10000001, 0x20000004},
    {0x50000000, 0x30000001, 0x50000000, 0x30000002, 0x20000000},
    {0x40000012, 0x40000021, 0x10000007, 0x40000031, 0x10000009},
    /* g(X, Y, X, Y), f(X, g(Y, X), Z), f(c, [X | g(a)]), [1, 2, 3] */
    {0x40000024, 0x10000001, 0x10000002, 0x10000001, 0x10000002},
    {0x40000013, 0x10000001, 0x40000022, 0x10000002, 0x10000001, 0x10000003},
    {0x40000012, 0x20000009, 0x50000000, 0x10000001, 0x40000021, 0x20000001},
    {0x50000000, 0x30000001, 0x50000000, 0x30000002, 0x50000000, 0x30000003, 0x20000000},
    /* f(c, [X, Y]), h(a, b, 3, X, Y, []), f(X, [Y | Z], g(Z)), h(X, b, 3, Y, e, 6, X) */
    {0x40000012, 0x20000009, 0x50000000, 0x10000001, 0x50000000, 0x10000002, 0x20000000},
    {0x40000036, 0x20000001, 0x20000002, 0x30000003, 0x10000001, 0x10000002, 0x20000000},
    {0x40000013, 0x10000001, 0x50000000, 0x10000002, 0x10000003, 0x40000021, 0x10000003},
    {0x40000037, 0x10000001, 0x20000002, 0x30000003, 0x10000004, 0x20000005, 0x30000006, 0x10000001},
};

/* Workloads */

enum { FLAT_60, FLAT_120, NESTED, DEEP, VARIABLES, SMALL, WORKLOADS };

static struct workload workloads[WORKLOADS] = {
    [FLAT_60] = {.name = "flat list of 60", .count = 1},
    [FLAT_120] = {.name = "flat list of 120", .count = 1},
    [NESTED] = {.name = "nested list", .count = 1},
    [DEEP] = {.name = "list nested 60 deep", .count = 1},
    [VARIABLES] = {.name = "32 variables", .count = 1},
    [SMALL] = {.name = "small terms", .count = MOST_TERMS},
};

/* Compacts every term once, and stops if the two sides disagree on it. */
static void prepare_forms(struct workload *workload)
{
    for (size_t i = 0; i < workload->count; i++) {
        struct bytes *term = &workload->term[i];
        struct bytes *form = &workload->form[i];
        uint8_t back[TABLES_TERM_CELLS * CELL_BYTES];
        size_t room = sizeof form->byte;
        uint32_t tokens = tables_compact(term->byte, term->length, form->byte, room, EDITION);
        uint32_t same = plain_compact(term->byte, term->length, form->byte, room, EDITION);
        form->length = (size_t)tokens * CELL_BYTES;
        uint32_t cells = tables_expand(form->byte, form->length, back, sizeof back, EDITION);
        uint32_t same_cells = plain_expand(form->byte, form->length, back, sizeof back, EDITION);
        if (tokens != same || tables_converter_refused_by(tokens) != 0 || cells != same_cells ||
            cells * CELL_BYTES != term->length) {
            fprintf(stderr, "%s: the two sides disagree\n", workload->name);
            exit(1);
        }
    }
}

static void prepare_workloads(void)
{
    flat_list(&workloads[FLAT_60].term[0], 60);
    flat_list(&workloads[FLAT_120].term[0], 120);
    nested_list(&workloads[NESTED].term[0]);
    deep_list(&workloads[DEEP].term[0], 60);
    variables_term(&workloads[VARIABLES].term[0]);
    for (int i = 0; i < MOST_TERMS; i++)
        for (int j = 0; small_terms[i][j] != 0; j++)
            put(&workloads[SMALL].term[i], recoded(EDITION, small_terms[i][j]));
    for (int i = 0; i < WORKLOADS; i++)
        prepare_forms(&workloads[i]);
}

/* Timing */

static double now(void)
{
    struct timespec time;
    clock_gettime(CLOCK_MONOTONIC, &time);
    return (double)time.tv_sec * 1e9 + (double)time.tv_nsec;
}

/* Nanoseconds per call over so many rounds through the inputs. */
static double time_rounds(converter *convert, const struct bytes *input, size_t count, size_t rounds)
{
    uint8_t out[TABLES_COMPACT_CELLS * CELL_BYTES];
    uint32_t sum = 0;
    double start = now();
    for (size_t round = 0; round < rounds; round++)
        for (size_t i = 0; i < count; i++) {
            sum += convert(input[i].byte, input[i].length, out, sizeof out, EDITION);
            sum += out[round & 3];
        }
    double elapsed = now() - start;
    consumed += sum;
    return elapsed / (double)(rounds * count);
}

static int compare_doubles(const void *left, const void *right)
{
    double a = *(const double *)left, b = *(const double *)right;
    return (a > b) - (a < b);
}

static double median(double *values)
{
    qsort(values, REPETITIONS, sizeof *values, compare_doubles);
    return values[REPETITIONS / 2];
}

/* The ratio of the best times of many short batches in turn. */
static double time_best(converter *exported, converter *reference, const struct bytes *input,
                        size_t count, size_t rounds)
{
    double best_exported = DBL_MAX, best_reference = DBL_MAX;
    for (int i = 0; i < SHORT_BATCHES; i++) {
        double time = time_rounds(exported, input, count, rounds);
        if (time < best_exported)
            best_exported = time;
        time = time_rounds(reference, input, count, rounds);
        if (time < best_reference)
            best_reference = time;
    }
    return best_exported / best_reference;
}

/* Times both sides in turn; the first batches warm up and find the number of rounds. */
static struct timing time_both(converter *exported, converter *reference, const struct bytes *input,
                               size_t count)
{
    double exported_time[REPETITIONS], reference_time[REPETITIONS], ratio[REPETITIONS];
    double slower = time_rounds(exported, input, count, 1000);
    double other = time_rounds(reference, input, count, 1000);
    if (other > slower)
        slower = other;
    size_t rounds = 1 + (size_t)(nanoseconds_per_batch / (slower * (double)count));
    time_rounds(exported, input, count, rounds);
    time_rounds(reference, input, count, rounds);
    for (int i = 0; i < REPETITIONS; i++) {
        exported_time[i] = time_rounds(exported, input, count, rounds);
        reference_time[i] = time_rounds(reference, input, count, rounds);
        ratio[i] = exported_time[i] / reference_time[i];
    }
    return (struct timing){median(exported_time), median(reference_time), median(ratio),
                           time_best(exported, reference, input, count, 1 + rounds / SHORTER)};
}

static void report(FILE *tsv, const char *converter_name, const char *workload_name,
                   struct timing timing)
{
    printf("%-8s  %-20s  %9.1f  %9.1f  %6.2f  %6.2f\n", converter_name, workload_name, timing.exported,
           timing.reference, timing.ratio, timing.best_ratio);
    if (tsv != NULL)
        fprintf(tsv, "%s\t%s\t%.1f\t%.1f\t%.2f\t%.2f\n", converter_name, workload_name,
                timing.exported, timing.reference, timing.ratio, timing.best_ratio);
}

/*
 * The file named by the first argument receives the table as tab-separated
 * values; two more name the sides.
 */
int main(int argc, char **argv)
{
    FILE *tsv = argc > 1 ? fopen(argv[1], "w") : NULL;
    if (argc > 1 && tsv == NULL) {
        perror(argv[1]);
        return 1;
    }
    const char *exported = argc > 3 ? argv[2] : "exported", *other = argc > 3 ? argv[3] : "plain";
    prepare_workloads();
    printf("%-8s  %-20s  %9s  %9s  %6s  of best\n", "", "ns per call", exported, other, "ratio");
    if (tsv != NULL)
        fprintf(tsv, "converter\tinput\t%s ns\t%s ns\tratio\tratio of best\n", exported, other);
    for (int i = 0; i < WORKLOADS; i++)
        report(tsv, "compact", workloads[i].name,
               time_both(tables_compact, plain_compact, workloads[i].term, workloads[i].count));
    for (int i = 0; i < WORKLOADS; i++)
        report(tsv, "expand", workloads[i].name,
               time_both(tables_expand, plain_expand, workloads[i].form, workloads[i].count));
    if (tsv != NULL && fclose(tsv) != 0) {
        perror(argv[1]);
        return 1;
    }
    return 0;
}
