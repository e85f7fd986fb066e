/* A table in a file: writes one, or checks and lists what a file holds and says in words what is wrong. */
#include "../include/tables.h"

#include <stdbool.h>
#include <stdio.h>
#include <stdlib.h>
#include <string.h>

/*
 *     stored write FILE    writes a sample of three subgoals and five answers
 *     stored read FILE     checks a stored table and lists it
 *
 * The exit status is 1 if the table is broken, or if anything could not be read or
 * written. What cannot be read or written is said on standard error.
 *
 * The file holds the cells as they lie in memory. A space from elsewhere is
 * checked once, whole, before anything else: what passes holds a table, and no
 * call on it is refused for damage from then on. What does not pass is not
 * listed. An atom that has become another one makes another table, which passes:
 * who must notice that keeps a checksum beside the cells.
 */

/* A space, and the edition by which its functors are read. */
struct stored {
    uint32_t *space;
    size_t cells;
    uint32_t edition;
};

/* Says what failed. */
static bool failed(const char *what)
{
    fprintf(stderr, "%s\n", what);
    return false;
}

/* Writing a sample */

enum { NODES = 30, SUBGOALS = 3, ANSWERS = 5, EDITION = TABLES_EDITION_2 };
enum { SAMPLE_CELLS = TABLES_SPACE_CELLS(NODES, SUBGOALS, ANSWERS) };

#define X TABLES_CELL(TABLES_VARIABLE, 0)
#define Y TABLES_CELL(TABLES_VARIABLE, 1)
#define ATOM(number) TABLES_CELL(TABLES_ATOM, number)

/* A term called, if no subgoal is named, or the terms of an answer. */
static const struct entry {
    uint32_t subgoal, count, cell[6];
} sample[] = {
    {0, 3, {TABLES_FUNCTOR_CELL(EDITION, 1, 2), ATOM(1), X}},
    {0, 3, {TABLES_FUNCTOR_CELL(EDITION, 2, 2), X, Y}},
    {0, 2, {TABLES_FUNCTOR_CELL(EDITION, 3, 1), TABLES_CELL(TABLES_INTEGER, 7)}},
    {1, 1, {ATOM(2)}},
    {1, 1, {ATOM(3)}},
    {2, 6, {ATOM(2), TABLES_PAIR_CELL, ATOM(3), TABLES_PAIR_CELL, ATOM(4), TABLES_EMPTY_LIST}},
    {1, 1, {ATOM(4)}},
    {3, 0, {0}},
};

enum { ENTRIES = sizeof sample / sizeof *sample };

/* Prints a refusal in words. Was it one? */
static bool is_refused(const char *what, uint32_t number, uint64_t word)
{
    uint32_t refusal = tables_refused_by(word);
    if (refusal != 0)
        printf("%s %u: %s (refusal %u)\n", what, (unsigned)number, tables_refusal_text(refusal),
               (unsigned)refusal);
    return refusal != 0;
}

static bool fill(uint32_t *space)
{
    if (is_refused("edition", EDITION,
                   tables_fresh(space, SAMPLE_CELLS, NODES, SUBGOALS, ANSWERS, EDITION)))
        return false;
    for (uint32_t i = 0; i < ENTRIES; i++) {
        const struct entry *entry = &sample[i];
        uint64_t word = entry->subgoal == 0
                            ? tables_call(space, SAMPLE_CELLS, entry->cell, entry->count)
                            : tables_answer(space, SAMPLE_CELLS, entry->subgoal, entry->cell,
                                            entry->count);
        if (is_refused("entry", i, word))
            return false;
    }
    return !is_refused("subgoal", 1, tables_finish(space, SAMPLE_CELLS, 1));
}

/* Is the file whole? What fwrite has taken may still be in a buffer, so fclose may fail too. */
static bool write_sample(const char *name)
{
    static uint32_t space[SAMPLE_CELLS];
    if (!fill(space))
        return false;
    FILE *file = fopen(name, "wb");
    if (file == NULL)
        return failed("The file cannot be written.");
    bool taken = fwrite(space, sizeof *space, SAMPLE_CELLS, file) == SAMPLE_CELLS;
    bool closed = fclose(file) == 0;
    return (taken && closed) || failed("The file could not be written to its end.");
}

/* Reading the file */

/* Reads all bytes of a file. Answers how many, and gives the memory that holds them. */
static size_t read_bytes(FILE *file, uint32_t **cells)
{
    size_t room = 0, length = 0, got;
    *cells = NULL;
    do {
        room = 2 * room + 4096;
        uint32_t *more = realloc(*cells, room);
        if (more == NULL) {
            failed("There is no memory for the file.");
            exit(1);
        }
        *cells = more;
        got = fread((char *)*cells + length, 1, room - length, file);
        length += got;
    } while (got != 0);
    return length;
}

static bool read_space(const char *name, struct stored *stored)
{
    FILE *file = fopen(name, "rb");
    if (file == NULL)
        return failed("The file cannot be read.");
    size_t bytes = read_bytes(file, &stored->space);
    bool whole = ferror(file) == 0;
    fclose(file);
    stored->cells = bytes / sizeof *stored->space;
    stored->edition = tables_edition(stored->space, stored->cells);
    if (!whole)
        return failed("The file could not be read to its end.");
    if (bytes % sizeof *stored->space != 0)
        printf("The file ends within a cell.\n");
    return bytes % sizeof *stored->space == 0;
}

/* Printing terms: f1(a2, X0), [a2, 7 | X1] */

static const uint32_t *print_term(uint32_t edition, const uint32_t *cell);

static const uint32_t *print_list(uint32_t edition, const uint32_t *cell)
{
    const char *before = "[";
    while (*cell == TABLES_PAIR_CELL) {
        printf("%s", before);
        cell = print_term(edition, cell + 1);
        before = ", ";
    }
    if (*cell == TABLES_EMPTY_LIST) {
        printf("]");
        return cell + 1;
    }
    printf(" | ");
    cell = print_term(edition, cell);
    printf("]");
    return cell;
}

/* Prints the term that begins at the cell. Answers the cell behind it. */
static const uint32_t *print_term(uint32_t edition, const uint32_t *cell)
{
    unsigned payload = TABLES_PAYLOAD(*cell);
    unsigned arity = payload & ((1u << TABLES_ARITY_BITS(edition)) - 1);
    if (*cell == TABLES_EMPTY_LIST) {
        printf("[]");
        return cell + 1;
    }
    switch (TABLES_KIND(*cell)) {
    case TABLES_PAIR:
        return print_list(edition, cell);
    case TABLES_FUNCTOR:
        printf("f%u(", payload >> TABLES_ARITY_BITS(edition));
        cell++;
        for (unsigned i = 0; i < arity; i++) {
            printf("%s", i == 0 ? "" : ", ");
            cell = print_term(edition, cell);
        }
        printf(")");
        return cell;
    default:
        printf("%s%u", TABLES_KIND(*cell) == TABLES_VARIABLE ? "X"
                       : TABLES_KIND(*cell) == TABLES_ATOM   ? "a" : "", payload);
        return cell + 1;
    }
}

/* Checking */

/* Is the space that of a table? Says in words what is wrong. */
static bool is_whole(const struct stored *stored)
{
    static const char *const kinds[] = {
        [TABLES_BROKEN_NODE] = "node",
        [TABLES_BROKEN_SUBGOAL] = "subgoal",
        [TABLES_BROKEN_ANSWER] = "answer",
    };
    uint64_t word = tables_check(stored->space, stored->cells);
    uint32_t kind = tables_broken_kind(word);
    if (kind == 0)
        return !is_refused("a space of edition", stored->edition, word);
    return !is_refused(kinds[kind], tables_broken_number(word), word);
}

/* Listing */

/* Prints an answer as an instance of its subgoal. Could it be read? */
static bool list_answer(const struct stored *stored, uint32_t answer)
{
    static uint32_t out[TABLES_INSTANCE_CELLS];
    uint64_t word =
        tables_instance(stored->space, stored->cells, answer, out, TABLES_INSTANCE_CELLS);
    if (is_refused("  answer", answer, word))
        return false;
    printf("  answer %u: ", (unsigned)answer);
    print_term(stored->edition, out);
    printf("\n");
    return true;
}

/* Lists the answers of a subgoal. Could they be read? */
static bool list_subgoal(const struct stored *stored, uint32_t subgoal)
{
    uint32_t answer = 0;
    printf("subgoal %u\n", (unsigned)subgoal);
    for (;;) {
        uint64_t word = tables_next(stored->space, stored->cells, subgoal, answer);
        if (is_refused("  what follows answer", answer, word))
            return false;
        if (tables_what(word) != TABLES_AT) {
            puts(tables_what(word) == TABLES_NO_MORE ? "  no more" : "  none yet");
            return true;
        }
        answer = tables_value(word);
        if (!list_answer(stored, answer))
            return false;
    }
}

static bool list(const struct stored *stored)
{
    uint32_t counts[3];
    uint64_t word = tables_counts(stored->space, stored->cells, counts, 3);
    if (is_refused("a space of edition", stored->edition, word))
        return false;
    printf("edition %u: %u nodes, %u subgoals, %u answers\n", (unsigned)stored->edition,
           (unsigned)counts[0], (unsigned)counts[1], (unsigned)counts[2]);
    for (uint32_t subgoal = 1; subgoal <= counts[1]; subgoal++)
        if (!list_subgoal(stored, subgoal))
            return false;
    return true;
}

/* Has all that was printed been written? */
static bool is_printed(void)
{
    return (fflush(stdout) == 0 && ferror(stdout) == 0) ||
           failed("Standard output could not be written.");
}

int main(int count, char **words)
{
    struct stored stored = {NULL, 0, 0};
    if (count == 3 && strcmp(words[1], "write") == 0)
        return !write_sample(words[2]);
    if (count != 3 || strcmp(words[1], "read") != 0) {
        fprintf(stderr, "usage: stored write FILE, or stored read FILE\n");
        return 2;
    }
    bool sound = read_space(words[2], &stored) && is_whole(&stored) && list(&stored);
    printf("%s\n", sound ? "Nothing wrong was met." : "Something is wrong.");
    free(stored.space);
    return !is_printed() || !sound;
}
