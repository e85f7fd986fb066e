/* The session model: reads lines, makes the plain table's call for each, prints what came of it. */
#include "session_model.h"

#include <inttypes.h>
#include <stdbool.h>
#include <stdio.h>
#include <stdlib.h>
#include <string.h>

enum {
    NODES = 1000,
    SUBGOALS = 50,
    ANSWERS = 100,
    EDITION = 1,
    OUT_CELLS = 8192,
    LONGEST_LINE = 4096,
    MOST_NUMBERS = 2,
    NUMBER_DIGITS = 7,
    CELL_DIGITS = 8,
    /* Each cell takes a space and its digits, so no line of lawful length holds more. */
    MOST_CELLS = LONGEST_LINE / (1 + CELL_DIGITS)
};

/* What came of a call: the upper half of the word that the plain table returns. */
enum outcome {
    DONE = 0,
    NEW = 1,
    OLD = 2,
    OLD_OPEN = 3,
    OLD_FINISHED = 4,
    AT = 5,
    NONE_YET = 6,
    CELLS = 7,
    COUNTS = 8,
    NO_MORE = 9,
    WHY_OLD = 12,
    WHY_NEW = 13,
    REFUSED = 256 /* plus the refusal's number */
};

struct session_model {
    struct plain_table *table;
    uint32_t out[OUT_CELLS];
    uint8_t line[LONGEST_LINE]; /* the line that has not ended yet, its newline never among it */
    size_t line_bytes;
    bool line_too_long; /* bytes came that found no room in the line; they are forgotten */
};

/* A stretch of a line. A byte 0 in it is a byte like any other. */
struct bytes {
    const uint8_t *first;
    size_t count;
};

/* What the fields of a line say; the numbers always come before the cells. */
struct fields {
    uint32_t number[MOST_NUMBERS];
    uint32_t cell[MOST_CELLS];
    size_t cells;
};

/* One of the eight words, the fields that must follow it, and the call that it stands for. */
struct command {
    const char *word;
    size_t numbers;
    bool takes_cells;
    uint64_t (*make)(struct session_model *session, const struct fields *fields);
};

/* The eight calls. Each is made only once its whole line has proved well formed. */

static uint64_t make_call(struct session_model *session, const struct fields *fields)
{
    return plain_table_call(session->table, fields->cell, fields->cells);
}

static uint64_t make_answer(struct session_model *session, const struct fields *fields)
{
    return plain_table_answer(session->table, fields->number[0], fields->cell, fields->cells);
}

static uint64_t make_finish(struct session_model *session, const struct fields *fields)
{
    return plain_table_finish(session->table, fields->number[0]);
}

static uint64_t make_next(struct session_model *session, const struct fields *fields)
{
    return plain_table_next(session->table, fields->number[0], fields->number[1]);
}

static uint64_t make_load(struct session_model *session, const struct fields *fields)
{
    return plain_table_load(session->table, fields->number[0], session->out, OUT_CELLS);
}

static uint64_t make_instance(struct session_model *session, const struct fields *fields)
{
    return plain_table_instance(session->table, fields->number[0], session->out, OUT_CELLS);
}

static uint64_t make_counts(struct session_model *session, const struct fields *fields)
{
    (void)fields;
    return plain_table_counts(session->table, session->out, OUT_CELLS);
}

static uint64_t make_why(struct session_model *session, const struct fields *fields)
{
    return plain_table_why(session->table, fields->cell, fields->cells, session->out, OUT_CELLS);
}

static const struct command commands[] = {
    {"call", 0, true, make_call},
    {"answer", 1, true, make_answer},
    {"finish", 1, false, make_finish},
    {"next", 2, false, make_next},
    {"load", 1, false, make_load},
    {"instance", 1, false, make_instance},
    {"counts", 0, false, make_counts},
    {"why", 0, true, make_why},
};

/* Taking a line apart. */

/* Takes what stands before the first space, or all if there is none; the space is left. */
static struct bytes take_up_to_space(struct bytes *rest)
{
    struct bytes taken = {rest->first, 0};

    while (taken.count < rest->count && taken.first[taken.count] != ' ')
        taken.count++;
    rest->first += taken.count;
    rest->count -= taken.count;
    return taken;
}

/*
 * Takes a space and the field after it; false if the line has ended. What is left of a line always
 * begins with a space, for the word or field before it ran up to one. After a double or a trailing
 * space the field is empty, and so neither a number nor a cell.
 */
static bool take_field(struct bytes *rest, struct bytes *field)
{
    if (rest->count == 0)
        return false;
    rest->first++;
    rest->count--;
    *field = take_up_to_space(rest);
    return true;
}

/* The digit's value; 16, too large for any base here, if the byte is no digit. */
static uint32_t digit_value(uint8_t byte)
{
    if (byte >= '0' && byte <= '9')
        return (uint32_t)(byte - '0');
    if (byte >= 'a' && byte <= 'f')
        return (uint32_t)(byte - 'a') + 10;
    return 16;
}

/* False unless all are digits. They are few enough for 32 bits: the callers look at the count. */
static bool read_digits(struct bytes field, uint32_t base, uint32_t *value)
{
    *value = 0;
    for (size_t i = 0; i < field.count; i++) {
        uint32_t digit = digit_value(field.first[i]);

        if (digit >= base)
            return false;
        *value = *value * base + digit;
    }
    return true;
}

static bool read_number(struct bytes *rest, uint32_t *number)
{
    struct bytes field;

    return take_field(rest, &field) && field.count >= 1 && field.count <= NUMBER_DIGITS &&
           read_digits(field, 10, number);
}

static bool read_cell(struct bytes *rest, uint32_t *cell)
{
    struct bytes field;

    return take_field(rest, &field) && field.count == CELL_DIGITS && read_digits(field, 16, cell);
}

static bool read_numbers(struct bytes *rest, size_t count, uint32_t *number)
{
    for (size_t i = 0; i < count; i++)
        if (!read_number(rest, &number[i]))
            return false;
    return true;
}

/* Reads cells up to the end of the line; there may be none. */
static bool read_cells(struct bytes *rest, struct fields *fields)
{
    while (rest->count > 0) {
        if (!read_cell(rest, &fields->cell[fields->cells]))
            return false;
        fields->cells++;
    }
    return true;
}

/* Reads the fields that must follow the command's word, and sees that nothing follows them. */
static bool read_fields(const struct command *command, struct bytes rest, struct fields *fields)
{
    fields->cells = 0;
    if (!read_numbers(&rest, command->numbers, fields->number))
        return false;
    if (command->takes_cells && !read_cells(&rest, fields))
        return false;
    return rest.count == 0;
}

/* The command with exactly this word, or NULL. */
static const struct command *find_command(struct bytes word)
{
    for (size_t i = 0; i < sizeof commands / sizeof commands[0]; i++)
        if (word.count == strlen(commands[i].word) &&
            memcmp(word.first, commands[i].word, word.count) == 0)
            return &commands[i];
    return NULL;
}

/* Printing. */

static void print(struct text *printed, const char *words)
{
    add_bytes(printed, words, strlen(words));
}

/* Prints what is left of a line after its words: cells, and the newline. */
static void end_with_cells(struct text *printed, const uint32_t *cell, uint32_t count)
{
    for (uint32_t i = 0; i < count; i++)
        add_format(printed, " %08" PRIx32, cell[i]);
    print(printed, "\n");
}

static void print_cells(struct text *printed, const uint32_t *cell, uint32_t count)
{
    print(printed, "cells");
    end_with_cells(printed, cell, count);
}

static void print_counts(struct text *printed, const uint32_t *out)
{
    add_format(printed, "counts %" PRIu32 " %" PRIu32 " %" PRIu32 "\n", out[0], out[1], out[2]);
}

/* The number and the offered variables, which stand in out after their count; no state. */
static void print_why_old(struct text *printed, uint32_t subgoal, const uint32_t *out)
{
    add_format(printed, "old %" PRIu32, subgoal);
    end_with_cells(printed, out + 1, out[0]);
}

/* The tokens shared, then the subgoal that shares them. */
static void print_why_new(struct text *printed, uint32_t subgoal, const uint32_t *out)
{
    add_format(printed, "new %" PRIu32 " %" PRIu32 "\n", out[0], subgoal);
}

/* Prints an outcome that carries a subgoal's or an answer's number. */
static void print_numbered(struct text *printed, uint32_t outcome, uint32_t number)
{
    switch (outcome) {
    case NEW:
        add_format(printed, "new %" PRIu32 "\n", number);
        break;
    case OLD:
        add_format(printed, "old %" PRIu32 "\n", number);
        break;
    case OLD_OPEN:
        add_format(printed, "old %" PRIu32 " open\n", number);
        break;
    case OLD_FINISHED:
        add_format(printed, "old %" PRIu32 " finished\n", number);
        break;
    case AT:
        add_format(printed, "at %" PRIu32 "\n", number);
        break;
    default:
        fprintf(stderr, "session model: no call has the outcome %" PRIu32 "\n", outcome);
        abort();
    }
}

/* Prints the word that a call returned, with the cells that it wrote to out. */
static void print_result(struct text *printed, uint64_t result, const uint32_t *out)
{
    uint32_t outcome = (uint32_t)(result >> 32);
    uint32_t value = (uint32_t)result;

    if (outcome >= REFUSED) /* the value, 12's need, is not printed */
        add_format(printed, "refused %" PRIu32 "\n", outcome - REFUSED);
    else if (outcome == DONE)
        print(printed, "done\n");
    else if (outcome == NONE_YET)
        print(printed, "none yet\n");
    else if (outcome == NO_MORE)
        print(printed, "no more\n");
    else if (outcome == CELLS)
        print_cells(printed, out, value);
    else if (outcome == COUNTS)
        print_counts(printed, out);
    else if (outcome == WHY_OLD)
        print_why_old(printed, value, out);
    else if (outcome == WHY_NEW)
        print_why_new(printed, value, out);
    else
        print_numbered(printed, outcome, value);
}

/* Lines. */

/* A line of lawful length: makes its call if it is well formed. */
static void answer_line(struct session_model *session, struct bytes line, struct text *printed)
{
    struct bytes word = take_up_to_space(&line);
    const struct command *command = find_command(word);
    struct fields fields;

    if (command == NULL || !read_fields(command, line, &fields))
        print(printed, "bad\n");
    else
        print_result(printed, command->make(session, &fields), session->out);
}

static void keep_byte(struct session_model *session, uint8_t byte)
{
    if (session->line_bytes == LONGEST_LINE)
        session->line_too_long = true;
    else
        session->line[session->line_bytes++] = byte;
}

static void end_line(struct session_model *session, struct text *printed)
{
    struct bytes line = {session->line, session->line_bytes};

    if (session->line_too_long)
        print(printed, "bad\n");
    else
        answer_line(session, line, printed);
    session->line_bytes = 0;
    session->line_too_long = false;
}

struct session_model *open_session(void)
{
    struct session_model *session = calloc(1, sizeof *session);

    if (session == NULL) {
        fputs("session model: out of memory\n", stderr);
        exit(EXIT_FAILURE);
    }
    session->table = plain_table_open(NODES, SUBGOALS, ANSWERS, EDITION);
    return session;
}

void close_session(struct session_model *session)
{
    plain_table_close(session->table);
    free(session);
}

void read_input(struct session_model *session, const void *bytes, size_t count,
                struct text *printed)
{
    const uint8_t *byte = bytes;

    for (size_t i = 0; i < count; i++)
        if (byte[i] == '\n')
            end_line(session, printed);
        else
            keep_byte(session, byte[i]);
}

void end_input(struct session_model *session, struct text *printed)
{
    if (session->line_bytes > 0)
        end_line(session, printed);
}

const struct plain_table *session_table(const struct session_model *session)
{
    return session->table;
}
