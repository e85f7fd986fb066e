/* Compares the session program with its model over random sessions; its argument names it. */
#include "program.h"
#include "session_lines.h"
#include "session_model.h"

#include <inttypes.h>
#include <stdio.h>
#include <stdlib.h>
#include <string.h>

enum {
    SESSIONS = 2000,
    LINES = 240,
    LONG_LINES = 800,
    SECONDS = 10,
    MOST_FAILURES = 3,
    LEAST = 10,
    SHOWN = 120
};

static const char *path = "crates/tables/out/tables";
static const char *const kept = "target/tests/failed_session.in";
static uint64_t seed = 1;
static unsigned failures;

/* What happened how often */

/* Every reply that a line of a kind may have; each must come. */
static const struct {
    const char *word;
    enum request_kind kind;
    bool why;
    const char *replies[11];
} possible[] = {
    {"call", CALL, false,
     {"new ", " open\n", " finished\n", "refused 3\n", "refused 4\n", "refused 5\n", "refused 6\n",
      "refused 10\n", "refused 11\n"}},
    {"answer", ANSWER, false,
     {"new ", "old ", "refused 3\n", "refused 4\n", "refused 5\n", "refused 7\n", "refused 8\n",
      "refused 10\n", "refused 11\n", "bad\n"}},
    {"finish", FINISH, false, {"done\n", "refused 7\n", "bad\n"}},
    {"next", NEXT, false, {"at ", "none yet\n", "no more\n", "refused 7\n", "bad\n"}},
    {"load", LOAD, false, {"cells ", "cells\n", "refused 7\n", "bad\n"}},
    {"instance", INSTANCE, false, {"cells ", "refused 7\n", "refused 12\n", "bad\n"}},
    {"counts", COUNTS, false, {"counts "}},
    {"why", CALL, true,
     {"new ", "old ", "refused 3\n", "refused 4\n", "refused 5\n", "refused 6\n"}},
};

enum { POSSIBLE = sizeof possible / sizeof *possible, REPLIES = 11 };

/* What comes of an answer to a finished subgoal; each must come often. */
static const char *const of_finished[] = {"old ", "refused 8\n", "refused 3\n", "refused 4\n",
                                          "refused 5\n"};

enum { OF_FINISHED = sizeof of_finished / sizeof *of_finished, LEAST_OF_FINISHED = 100 };

static const char *const sort_names[LINE_SORTS] = {
    [AS_REQUESTED] = "as requested", [EDITED] = "edited",  [OF_WORDS] = "of words",
    [OF_BYTES] = "of bytes",         [LONG_LINE] = "long",
};

static uint64_t came[POSSIBLE][REPLIES];
static uint64_t came_of_finished[OF_FINISHED];
static uint64_t sorts[LINE_SORTS][2]; /* bad, and not */

/* Does the reply, which ends in a newline, hold the text? */
static bool holds(const char *reply, size_t count, const char *text)
{
    size_t length = strlen(text);
    for (size_t i = 0; i + length <= count; i++)
        if (memcmp(reply + i, text, length) == 0)
            return true;
    return false;
}

/* Is the line an answer to a subgoal that is finished, as requested? Asked before it is read. */
static bool is_to_finished(const struct line *line, const struct session_model *model,
                           const struct known *known)
{
    return line->sort == AS_REQUESTED && line->kind == ANSWER && line->number > 0 &&
           line->number <= known->subgoals &&
           plain_table_finished(session_table(model), line->number);
}

/* What may come of a line that asks why; each must come often. */
enum reason { NEW_APART, NEW_SHARING, NEW_IN_FULL_TABLE, OLD_GROUND, OLD_RENAMED, REASONS };

enum { SUBGOALS = 50, LEAST_OF_REASONS = 300 };

static const char *const reason_names[REASONS] = {
    [NEW_APART] = "new 0 0",
    [NEW_SHARING] = "new with tokens shared",
    [NEW_IN_FULL_TABLE] = "new with no subgoal left",
    [OLD_GROUND] = "old without variables",
    [OLD_RENAMED] = "old with variables",
};

static uint64_t came_of_why[REASONS];

/* Counts the reply, which ends in a newline, to a line that asks why. */
static void count_reason(const char *reply, size_t count, const struct known *known)
{
    bool is_new = strncmp(reply, "new ", 4) == 0, is_old = strncmp(reply, "old ", 4) == 0;
    bool apart = strncmp(reply, "new 0 0\n", 8) == 0;
    bool ground = memchr(reply + 4, ' ', count - 4) == NULL;
    came_of_why[NEW_APART] += apart;
    came_of_why[NEW_SHARING] += is_new && !apart;
    came_of_why[NEW_IN_FULL_TABLE] += is_new && known->subgoals == SUBGOALS;
    came_of_why[OLD_GROUND] += is_old && ground;
    came_of_why[OLD_RENAMED] += is_old && !ground;
}

static void count_of_finished(const char *reply, size_t count)
{
    for (size_t i = 0; i < OF_FINISHED; i++)
        came_of_finished[i] += holds(reply, count, of_finished[i]);
}

/* Is a line as requested of the kind whose replies stand in row i? */
static bool is_possible(size_t i, const struct line *line)
{
    return possible[i].kind == line->kind && possible[i].why == line->why;
}

static void count_line(const struct line *line, const char *reply, size_t count)
{
    sorts[line->sort][!holds(reply, count, "bad")]++;
    if (line->sort != AS_REQUESTED)
        return;
    for (size_t i = 0; i < POSSIBLE; i++)
        for (size_t j = 0; is_possible(i, line) && possible[i].replies[j] != NULL; j++)
            if (holds(reply, count < 20 ? count : 20, possible[i].replies[j]))
                came[i][j]++;
}

static void print_count(const char *reply, uint64_t count)
{
    const char *from = reply + strspn(reply, " ");
    printf(", %.*s %" PRIu64, (int)strcspn(from, "\n"), from, count);
}

static void check_of_finished(void)
{
    printf("  answers to finished subgoals");
    for (size_t i = 0; i < OF_FINISHED; i++) {
        print_count(of_finished[i], came_of_finished[i]);
        failures += came_of_finished[i] < LEAST_OF_FINISHED;
        if (came_of_finished[i] < LEAST_OF_FINISHED)
            printf(" (failed: too seldom)");
    }
    printf("\n");
}

static void check_reasons(void)
{
    printf("  lines that ask why");
    for (size_t i = 0; i < REASONS; i++) {
        print_count(reason_names[i], came_of_why[i]);
        failures += came_of_why[i] < LEAST_OF_REASONS;
        if (came_of_why[i] < LEAST_OF_REASONS)
            printf(" (failed: too seldom)");
    }
    printf("\n");
}

static void check_counts(void)
{
    for (size_t sort = 0; sort < LINE_SORTS; sort++)
        printf("  lines %s: %" PRIu64 ", bad %" PRIu64 "\n", sort_names[sort],
               sorts[sort][0] + sorts[sort][1], sorts[sort][0]);
    for (size_t i = 0; i < POSSIBLE; i++) {
        printf("  %s", possible[i].word);
        for (size_t j = 0; possible[i].replies[j] != NULL; j++) {
            print_count(possible[i].replies[j], came[i][j]);
            failures += came[i][j] < LEAST;
            if (came[i][j] < LEAST)
                printf(" (failed: too seldom)");
        }
        printf("\n");
    }
}

/* Drawing a session while the model reads it */

struct session {
    struct session_model *model;
    struct known known;
    struct text input, expected;
};

static void learn(struct session *session, const struct line *line, const char *reply)
{
    struct known *known = &session->known;
    if (strncmp(reply, "new ", 4) != 0 || line->text.byte[0] == 'w')
        return;
    if (line->text.byte[0] == 'a') {
        known->answers++;
        return;
    }
    known->subgoals++;
    known->variables[known->subgoals - 1] =
        plain_table_variables(session_table(session->model), known->subgoals);
}

/* Adds a line, which ends in a newline or with the input. */
static void add_line(struct session *session, const struct line *line, bool newline)
{
    struct text *input = &session->input, *expected = &session->expected;
    size_t from = input->count, replied = expected->count;
    bool to_finished = is_to_finished(line, session->model, &session->known);
    add_bytes(input, line->text.byte, line->text.count);
    if (newline)
        add_bytes(input, "\n", 1);
    read_input(session->model, input->byte + from, input->count - from, expected);
    if (!newline)
        end_input(session->model, expected);
    if (expected->count == replied)
        return;
    const char *reply = (const char *)expected->byte + replied;
    count_line(line, reply, expected->count - replied);
    if (to_finished)
        count_of_finished(reply, expected->count - replied);
    if (line->sort == AS_REQUESTED && line->why)
        count_reason(reply, expected->count - replied, &session->known);
    learn(session, line, reply);
}

static void draw_session(struct session *session)
{
    static struct line_drawer drawer;
    static struct line line;
    memset(session, 0, sizeof *session);
    session->model = open_session();
    add_bytes(&session->input, "", 1); /* so that there are bytes, and a place to begin */
    session->input.count = 0;
    open_line_drawer(&drawer);
    size_t lines = chance(90) ? LINES : chance(50) ? LONG_LINES : below(5);
    for (size_t i = 1; i <= lines; i++) {
        draw_line(&drawer, &session->known, &line);
        add_line(session, &line, i < lines || chance(60));
    }
}

static void forget_session(struct session *session)
{
    close_session(session->model);
    free_text(&session->input);
    free_text(&session->expected);
}

/* Comparing */

/* Prints line n, from 0, of the bytes, or the beginning of it. */
static void show_line(const char *what, const struct text *text, size_t n)
{
    size_t from = 0;
    for (; n > 0 && from < text->count; from++)
        n -= text->byte[from] == '\n';
    printf("  %s: ", what);
    for (size_t i = from; i < text->count && i < from + SHOWN && text->byte[i] != '\n'; i++)
        if (text->byte[i] < ' ' || text->byte[i] > '~')
            printf("\\x%02x", text->byte[i]);
        else
            putchar(text->byte[i]);
    printf("\n");
}

static void keep_input(const struct text *input)
{
    FILE *file = fopen(kept, "wb");
    if (file == NULL || fwrite(input->byte, 1, input->count, file) != input->count)
        perror(kept);
    else
        printf("  the session is kept in %s\n", kept);
    if (file != NULL)
        fclose(file);
}

static void compare(const struct session *session, const struct program *program, unsigned number)
{
    const struct text *printed = &program->printed, *expected = &session->expected;
    size_t at = 0;
    while (at < printed->count && at < expected->count && printed->byte[at] == expected->byte[at])
        at++;
    if (program->complaint == NULL && at == printed->count && at == expected->count)
        return;
    size_t line = count_lines(expected->byte, at);
    printf("failed: seed %" PRIu64 ", session %u, line %zu: %s\n", seed, number, line + 1,
           program->complaint == NULL ? "another reply" : program->complaint);
    show_line("line", &session->input, line);
    show_line("expected", expected, line);
    show_line("printed", printed, line);
    if (failures++ == 0)
        keep_input(&session->input);
}

/* Whole, or in pieces of any size. */
static void give_session(struct program *program, const struct text *input)
{
    bool whole = chance(50);
    for (size_t at = 0; at < input->count;) {
        size_t left = input->count - at;
        size_t piece = whole ? left : between(1, chance(80) ? 5000 : 50);
        piece = piece < left ? piece : left;
        if (!give_input(program, input->byte + at, piece))
            return;
        at += piece;
    }
}

static void run_session(unsigned number)
{
    struct session session;
    struct program program;
    seed_drawing(seed * 1000003 + number);
    draw_session(&session);
    start_program(&program, path, SECONDS);
    give_session(&program, &session.input);
    end_program(&program);
    compare(&session, &program, number);
    discard_program(&program);
    forget_session(&session);
}

int main(int count, char **arguments)
{
    unsigned sessions = SESSIONS;
    if (count > 1)
        path = arguments[1];
    if (count > 2)
        seed = strtoull(arguments[2], NULL, 10);
    if (count > 3)
        sessions = (unsigned)strtoul(arguments[3], NULL, 10);
    double start = now();
    for (unsigned number = 1; number <= sessions && failures < MOST_FAILURES; number++)
        run_session(number);
    if (failures == 0 && sessions >= SESSIONS) {
        check_counts();
        check_of_finished();
        check_reasons();
    }
    printf("session random test: seed %" PRIu64 ", %u sessions in %.1f s: %s\n", seed, sessions,
           now() - start, failures == 0 ? "passed" : "FAILED");
    return failures == 0 ? 0 : 1;
}
