/* Times the exported lists of small terms against the plain ones, on whole walks, in one run. */
#define _POSIX_C_SOURCE 200809L

#include "../include/tables.h"
#include "plain_listing.h"

#include <float.h>
#include <stdio.h>
#include <stdlib.h>
#include <string.h>
#include <time.h>

enum { LEAST_ROUNDS = 9 };

/* The edition of the lists. */
#ifndef BENCH_EDITION
#define BENCH_EDITION TABLES_EDITION_1
#endif

enum { EDITION = BENCH_EDITION };

/* How long a row is timed, both sides together, unless the fewest rounds take longer. */
static const double nanoseconds_per_row = 4e9;

/* A walk is timed in slices of so many terms. */
enum { SLICE_TERMS = 200, MOST_SLICES = 5000 };

enum { OURS, PLAIN, SIDES };

/* Symbols */

#define ATOM(number) TABLES_CELL(TABLES_ATOM, number)
#define INTEGER(value) TABLES_CELL(TABLES_INTEGER, value)
#define FUNCTOR(name, arity) TABLES_FUNCTOR_CELL(EDITION, name, arity)

struct row {
    const char *name;
    size_t size, count;
    uint32_t symbols[TABLES_LISTED_SYMBOLS];
};

static const struct row rows[] = {
    {"8 cells, g/2 h/1 a b 7", 8, 5, {FUNCTOR(1, 2), FUNCTOR(2, 1), ATOM(1), ATOM(2), INTEGER(7)}},
    {"8 cells, f/3 pair [] a", 8, 4, {FUNCTOR(1, 3), TABLES_PAIR_CELL, TABLES_EMPTY_LIST, ATOM(1)}},
    {"8 cells, f/7 and 15 atoms, the first million", 8, 16,
     {FUNCTOR(1, 7), ATOM(1), ATOM(2), ATOM(3), ATOM(4), ATOM(5), ATOM(6), ATOM(7), ATOM(8), ATOM(9), ATOM(10),
      ATOM(11), ATOM(12), ATOM(13), ATOM(14), ATOM(15)}},
    {"5 cells, f/2 g/2 h/1 pair [] a b 7", 5, 8,
     {FUNCTOR(1, 2), FUNCTOR(2, 2), FUNCTOR(3, 1), TABLES_PAIR_CELL, TABLES_EMPTY_LIST, ATOM(1), ATOM(2), INTEGER(7)}},
};

enum { ROWS = sizeof rows / sizeof *rows, MOST_TERMS = 1000000 };

static uint64_t first(int side, const struct row *row, uint32_t *out)
{
    return side == OURS ? tables_first_term(row->symbols, row->count, row->size, out, row->size, EDITION)
                        : plain_first_term(row->symbols, row->count, row->size, out, row->size, EDITION);
}

static uint64_t after(int side, const struct row *row, const uint32_t *term, uint32_t *out)
{
    return side == OURS
               ? tables_term_after(row->symbols, row->count, row->size, term, row->size, out, row->size, EDITION)
               : plain_term_after(row->symbols, row->count, row->size, term, row->size, out, row->size, EDITION);
}

static void stop(const struct row *row, const char *why)
{
    fprintf(stderr, "%s: %s\n", row->name, why);
    exit(1);
}

/* Both sides give the same terms and end alike. Answers how many there are, the first million of a longer list. */
static size_t compare(const struct row *row)
{
    uint32_t term[SIDES][2][TABLES_LISTED_CELLS] = {{{0}}};
    uint64_t word = first(OURS, row, term[OURS][0]);
    size_t terms = 0;
    int i = 0;
    if (word != first(PLAIN, row, term[PLAIN][0]))
        stop(row, "the sides begin otherwise");
    for (; tables_what(word) == TABLES_CELLS && terms < MOST_TERMS; i = !i, terms++) {
        if (memcmp(term[OURS][i], term[PLAIN][i], sizeof term[OURS][i]) != 0)
            stop(row, "the sides differ in a term");
        word = after(OURS, row, term[OURS][i], term[OURS][!i]);
        if (word != after(PLAIN, row, term[PLAIN][i], term[PLAIN][!i]))
            stop(row, "the sides differ in a word");
    }
    if (terms < MOST_TERMS && tables_what(word) != TABLES_END)
        stop(row, "the list does not end");
    return terms;
}

static double now(void)
{
    struct timespec time;
    clock_gettime(CLOCK_PROCESS_CPUTIME_ID, &time);
    return (double)time.tv_sec * 1e9 + (double)time.tv_nsec;
}

/* Walks so many terms, from the first on; `best` gets the best time of each slice so far. */
static void time_walk(int side, const struct row *row, size_t terms, double *best)
{
    uint32_t term[2][TABLES_LISTED_CELLS];
    size_t walked = 0;
    int i = 0;
    uint64_t word = first(side, row, term[0]);
    for (size_t slice = 0; walked < terms; slice++) {
        size_t end = walked + SLICE_TERMS < terms ? walked + SLICE_TERMS : terms;
        double start = now();
        for (; walked < end; walked++, i = !i)
            word = after(side, row, term[i], term[!i]);
        double elapsed = now() - start;
        if (elapsed < best[slice])
            best[slice] = elapsed;
    }
    if (tables_refused_by(word) != 0)
        stop(row, "a term was refused");
}

/* Nanoseconds a term of each side: the sum of the best of each slice over all rounds, the two sides in turn. */
static void time_row(const struct row *row, size_t terms, double time[SIDES])
{
    static double best[SIDES][MOST_SLICES];
    size_t slices = (terms + SLICE_TERMS - 1) / SLICE_TERMS;
    for (int side = 0; side < SIDES; side++)
        for (size_t slice = 0; slice < slices; slice++)
            best[side][slice] = DBL_MAX;
    double begun = now();
    for (int round = 0; round < LEAST_ROUNDS || now() - begun < nanoseconds_per_row; round++)
        for (int side = 0; side < SIDES; side++)
            time_walk(side, row, terms, best[side]);
    for (int side = 0; side < SIDES; side++) {
        time[side] = 0;
        for (size_t slice = 0; slice < slices; slice++)
            time[side] += best[side][slice];
        time[side] /= (double)terms;
    }
}

/* The file named by the first argument receives the table as tab-separated values. */
int main(int argc, char **argv)
{
    FILE *tsv = argc > 1 ? fopen(argv[1], "w") : NULL;
    if (argc > 1 && tsv == NULL) {
        perror(argv[1]);
        return 1;
    }
    printf("%-46s  %9s  %8s  %9s  ratio\n", "", "terms", "ours, ns", "plain, ns");
    if (tsv != NULL)
        fprintf(tsv, "list\tterms\tours ns a term\tplain ns a term\tratio\n");
    for (size_t i = 0; i < ROWS; i++) {
        double time[SIDES];
        size_t terms = compare(&rows[i]);
        time_row(&rows[i], terms, time);
        printf("%-46s  %9zu  %8.1f  %9.1f  %5.2f\n", rows[i].name, terms, time[OURS], time[PLAIN],
               time[OURS] / time[PLAIN]);
        if (tsv != NULL)
            fprintf(tsv, "%s\t%zu\t%.1f\t%.1f\t%.2f\n", rows[i].name, terms, time[OURS], time[PLAIN],
                    time[OURS] / time[PLAIN]);
    }
    if (tsv != NULL && fclose(tsv) != 0) {
        perror(argv[1]);
        return 1;
    }
    return 0;
}
