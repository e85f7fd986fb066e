/* Times tables_why against the same in plain C, with tables_call beside it, in one run. */
#define _POSIX_C_SOURCE 200809L

#include "../include/tables.h"
#include "plain_store.h"

#include <float.h>
#include <stdio.h>
#include <stdlib.h>
#include <string.h>
#include <time.h>

enum {
    EDITION = TABLES_EDITION_2,
    TERM_CELLS = 5,
    MOST_TERMS = 8000,
    NODES = 40000,
    LEAST_ROUNDS = 5
};

/* How long a row is timed, both sides together, unless the fewest rounds take longer. */
static const double nanoseconds_per_row = 2e9;

enum side { OURS, PLAIN, SIDES };

static uint32_t space[TABLES_SPACE_CELLS(NODES, MOST_TERMS, 0)];

enum { SPACE_CELLS = sizeof space / sizeof *space };

/* The terms path(A, B, X, Y) of a table: so many atoms in A's place, and in B's for each of them. */
struct table {
    const char *name;
    uint32_t first, second;
};

static const struct table tables[] = {{"20 by 20", 20, 20}, {"8,000 below one node", 1, MOST_TERMS}};

static size_t terms;
static uint32_t old_terms[MOST_TERMS][TERM_CELLS], new_terms[MOST_TERMS][TERM_CELLS];

static void stop(const char *why)
{
    fprintf(stderr, "%s\n", why);
    exit(1);
}

static uint32_t accepted(uint64_t word)
{
    if (tables_refused_by(word) != 0)
        stop(tables_refusal_text(tables_refused_by(word)));
    return tables_value(word);
}

/* path(A, B, X, Y) is entered, and path(A, B, X, X) is not. */
static void make_terms(const struct table *table)
{
    accepted(tables_fresh(space, SPACE_CELLS, NODES, MOST_TERMS, 0, EDITION));
    terms = (size_t)table->first * table->second;
    for (uint32_t i = 0; i < terms; i++) {
        const uint32_t term[TERM_CELLS] = {
            tables_functor_cell(EDITION, 1, 4), tables_cell(TABLES_ATOM, i / table->second),
            tables_cell(TABLES_ATOM, i % table->second), tables_cell(TABLES_VARIABLE, 7),
            tables_cell(TABLES_VARIABLE, 3)};
        memcpy(old_terms[i], term, sizeof term);
        memcpy(new_terms[i], term, sizeof term);
        new_terms[i][TERM_CELLS - 1] = tables_cell(TABLES_VARIABLE, 7);
        accepted(tables_call(space, SPACE_CELLS, term, TERM_CELLS));
    }
}

static uint64_t call(enum side side, const uint32_t *term, uint32_t *out)
{
    (void)out;
    return (side == OURS ? tables_call : plain_call)(space, SPACE_CELLS, term, TERM_CELLS);
}

static uint64_t why(enum side side, const uint32_t *term, uint32_t *out)
{
    return (side == OURS ? tables_why : plain_why)(space, SPACE_CELLS, term, TERM_CELLS, out,
                                                   TABLES_WHY_CELLS);
}

struct row {
    const char *name;
    uint64_t (*ask)(enum side side, const uint32_t *term, uint32_t *out);
    uint32_t (*terms)[TERM_CELLS];
    uint32_t what;
};

static double now(void)
{
    struct timespec time;
    clock_gettime(CLOCK_PROCESS_CPUTIME_ID, &time);
    return (double)time.tv_sec * 1e9 + (double)time.tv_nsec;
}

/* All terms asked once. */
static void ask_all(enum side side, const struct row *row)
{
    uint32_t out[TABLES_WHY_CELLS];
    for (size_t i = 0; i < terms; i++)
        if (tables_what(row->ask(side, row->terms[i], out)) != row->what)
            stop("a call did not answer what it must");
}

/* The best time of a call on each side, the two in turn. */
static void time_row(const struct row *row, double best[SIDES])
{
    double begun = now();
    best[OURS] = best[PLAIN] = DBL_MAX;
    for (int round = 0; round < LEAST_ROUNDS || now() - begun < nanoseconds_per_row; round++)
        for (enum side side = OURS; side < SIDES; side++) {
            double start = now();
            ask_all(side, row);
            double each = (now() - start) / (double)terms;
            if (each < best[side])
                best[side] = each;
        }
}

/* Both sides say and write the same. */
static void compare_sides(void)
{
    uint32_t out[SIDES][TABLES_WHY_CELLS];
    for (size_t i = 0; i < 2 * terms; i++) {
        const uint32_t *term = i < terms ? old_terms[i] : new_terms[i - terms];
        memset(out, 0, sizeof out);
        if (why(OURS, term, out[OURS]) != why(PLAIN, term, out[PLAIN]) ||
            memcmp(out[OURS], out[PLAIN], sizeof out[OURS]) != 0)
            stop("the sides differ");
    }
}

static const struct row rows[] = {
    {"call, old", call, old_terms, TABLES_OLD_OPEN},
    {"why, old", why, old_terms, TABLES_WHY_OLD},
    {"why, new", why, new_terms, TABLES_WHY_NEW},
};

static void time_table(FILE *tsv, const struct table *table)
{
    make_terms(table);
    compare_sides();
    for (size_t i = 0; i < sizeof rows / sizeof *rows; i++) {
        double best[SIDES];
        time_row(&rows[i], best);
        printf("%-22s %-10s  %9.1f  %9.1f  %5.2f\n", table->name, rows[i].name, best[OURS],
               best[PLAIN], best[OURS] / best[PLAIN]);
        if (tsv != NULL)
            fprintf(tsv, "%s\t%s\t%.1f\t%.1f\t%.2f\n", table->name, rows[i].name, best[OURS],
                    best[PLAIN], best[OURS] / best[PLAIN]);
    }
}

/* The file named by the first argument receives the table as tab-separated values. */
int main(int argc, char **argv)
{
    FILE *tsv = argc > 1 ? fopen(argv[1], "w") : NULL;
    if (argc > 1 && tsv == NULL) {
        perror(argv[1]);
        return 1;
    }
    printf("%-33s  %9s  %9s  ratio\n", "", "ours, ns", "plain, ns");
    if (tsv != NULL)
        fprintf(tsv, "table\twhat\tours ns\tplain ns\tratio\n");
    for (size_t i = 0; i < sizeof tables / sizeof *tables; i++)
        time_table(tsv, &tables[i]);
    if (tsv != NULL && fclose(tsv) != 0) {
        perror(argv[1]);
        return 1;
    }
    return 0;
}
