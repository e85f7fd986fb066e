/* Tests over pipes that the session program replies line by line; its argument names it. */
#include "program.h"
#include "session_model.h"

#include <stdio.h>
#include <string.h>

enum { SECONDS = 10, MOST_SECONDS_OF_LONG = 2, LONG_LINES = 2000, MOST_FAILURES = 2 };

static const char *path;
static unsigned failures;

/* The program and the model side by side */

struct talk {
    const char *name;
    struct program program;
    struct session_model *model;
    struct text expected;
    size_t lines; /* given in all */
};

static void open_talk(struct talk *talk, const char *name)
{
    memset(talk, 0, sizeof *talk);
    talk->name = name;
    talk->model = open_session();
    start_program(&talk->program, path, SECONDS);
}

/* Gives both the same bytes; nothing is awaited. */
static void give(struct talk *talk, const void *bytes, size_t count)
{
    read_input(talk->model, bytes, count, &talk->expected);
    talk->lines += count_lines(bytes, count);
    give_input(&talk->program, bytes, count);
}

static void say(struct talk *talk, const char *text)
{
    give(talk, text, strlen(text));
}

/* Says a line and awaits its reply. */
static void ask(struct talk *talk, const char *line)
{
    say(talk, line);
    say(talk, "\n");
    await_lines(&talk->program, talk->lines);
}

static bool same_text(const struct text *one, const struct text *other)
{
    return one->count == other->count &&
           (one->count == 0 || memcmp(one->byte, other->byte, one->count) == 0);
}

static size_t first_difference(const struct text *one, const struct text *other)
{
    size_t at = 0;
    while (at < one->count && at < other->count && one->byte[at] == other->byte[at])
        at++;
    return at;
}

/* Ends the input and compares all that was printed. */
static void close_talk(struct talk *talk)
{
    const struct text *printed = &talk->program.printed;
    end_input(talk->model, &talk->expected);
    end_program(&talk->program);
    if (talk->program.complaint != NULL) {
        failures++;
        printf("failed: %s: %s (%zu lines given, %zu replies)\n", talk->name,
               talk->program.complaint, talk->lines, count_lines(printed->byte, printed->count));
    } else if (!same_text(printed, &talk->expected)) {
        size_t at = first_difference(printed, &talk->expected);
        failures++;
        printf("failed: %s: other output than expected in reply %zu\n", talk->name,
               1 + count_lines(printed->byte, at));
    }
    discard_program(&talk->program);
    close_session(talk->model);
    free_text(&talk->expected);
}

/* The tests */

static void test_line_by_line(void)
{
    static const char *const lines[] = {
        "counts", "call 20000001", "answer 1", "next 1 0", "load 1", "instance 1",   "finish 1",
        "",       "no call",       "load 2",   "answer 1", "call",   "next 1 1",     "counts",
        "call ",  "call 60000000", "counts",   "why",      "why ",   "why 20000001", "why 20000002",
        "counts",
    };
    struct talk talk;
    open_talk(&talk, "line by line");
    for (size_t i = 0; i < sizeof lines / sizeof *lines; i++)
        ask(&talk, lines[i]);
    close_talk(&talk);
}

/* Says a functor and its 15 arguments: variables from a first name on, upwards or downwards. */
static void say_variables(struct talk *talk, unsigned functor, unsigned first, int step)
{
    char cell[10];
    snprintf(cell, sizeof cell, " 4%06xf", functor & 0xffffff);
    say(talk, cell);
    for (int i = 0; i < 15; i++) {
        snprintf(cell, sizeof cell, " 1%07x", (first + (unsigned)(i * step)) & 0xfffffff);
        say(talk, cell);
    }
}

/* A term called, then asked about under other names, and one that shares its first 18 tokens. */
static void test_long_why(void)
{
    struct talk talk;
    open_talk(&talk, "why, with 32 variables");
    say(&talk, "call 40000014");
    say_variables(&talk, 2, 0, 1);
    say_variables(&talk, 3, 15, 1);
    ask(&talk, " 1000001e 1000001f");
    say(&talk, "why 40000014");
    say_variables(&talk, 2, 99, -1);
    say_variables(&talk, 3, 84, -1);
    ask(&talk, " 10000000 1fffffff");
    say(&talk, "why 40000014");
    say_variables(&talk, 2, 0, 1);
    say_variables(&talk, 3, 0, 1);
    ask(&talk, " 10000000 1fffffff");
    ask(&talk, "counts");
    close_talk(&talk);
}

/* Lines and replies that a pipe does not hold at once. */
static void test_long_lines(void)
{
    static char line[100001];
    struct talk talk;
    open_talk(&talk, "long lines, line by line");
    memset(line, 'x', sizeof line - 1);
    ask(&talk, line);
    say(&talk, "call 40000011");
    for (int i = 0; i < 31; i++)
        say(&talk, " 50000000 10000000");
    ask(&talk, " 10000000");
    say(&talk, "answer 1");
    for (int i = 0; i < 127; i++)
        say(&talk, " 50000000 30000001");
    ask(&talk, " 30000001");
    ask(&talk, "instance 1"); /* 8,192 cells */
    ask(&talk, line);
    ask(&talk, "counts");
    close_talk(&talk);
}

/* A reply comes when its line has ended, and not before. */
static void test_pieces(void)
{
    static const char *const pieces[] = {
        "coun", "ts", "\n",   "call 2000",    "0001\nanswer 1\ncoun", "ts\n", "counts", "\n",
        "w",    "hy", " 200", "00001\nwhy 2", "0000002\nwhy\nwhy",    "\n",   "why",    "s\n"};
    struct talk talk;
    open_talk(&talk, "lines in pieces");
    for (size_t i = 0; i < sizeof pieces / sizeof *pieces; i++) {
        say(&talk, pieces[i]);
        await_lines(&talk.program, talk.lines);
        await_silence(&talk.program, 0.1);
    }
    close_talk(&talk);
}

static void test_single_bytes(void)
{
    static const char lines[] = "call 40000011 10000000\nanswer 1 20000005\n\ninstance 1\n"
                                "why 40000011 10000007\nwhy 40000011 20000005\ncounts\n";
    struct talk talk;
    open_talk(&talk, "single bytes");
    for (const char *byte = lines; *byte != '\0'; byte++) {
        give(&talk, byte, 1);
        await_lines(&talk.program, talk.lines);
    }
    close_talk(&talk);
}

static void add_session(struct text *input, unsigned lines)
{
    add_format(input, "call 40000012 10000000 10000001\n");
    for (unsigned i = 1; i < lines; i++)
        switch (i % 6) {
        case 0:
            add_format(input, "call 4%06x1 10000000\n", i / 6);
            break;
        case 1:
            add_format(input, "answer 1 2000%04x 10000005\n", i);
            break;
        case 2:
            add_format(input, "next 1 %u\n", i / 12);
            break;
        case 3:
            add_format(input, "instance %u\n", i % 120);
            break;
        case 4: /* what was just called, where it found room, or what has not been */
            add_format(input, "why 4%06x1 1%07x\n", i / 6 + i / 6 % 2, i);
            break;
        default:
            add_format(input, "counts\n");
        }
}

static void test_many_lines_at_once(void)
{
    struct text input = {0, 0, NULL};
    struct talk talk;
    add_session(&input, 100);
    open_talk(&talk, "many lines at once");
    give(&talk, input.byte, input.count);
    await_lines(&talk.program, talk.lines);
    ask(&talk, "counts");
    give(&talk, input.byte, input.count);
    await_lines(&talk.program, talk.lines);
    close_talk(&talk);
    free_text(&input);
}

/* Pieces of sizes at which a buffer may be full, each behind the replies to the one before. */
static void test_even_pieces(void)
{
    static const size_t sizes[] = {1024, 4095, 4096, 4097, 8192, 16384, 65536};
    struct text input = {0, 0, NULL};
    add_session(&input, LONG_LINES);
    for (size_t i = 0; i < sizeof sizes / sizeof *sizes && failures < MOST_FAILURES; i++) {
        struct talk talk;
        char name[40];
        snprintf(name, sizeof name, "pieces of %zu bytes", sizes[i]);
        open_talk(&talk, name);
        for (size_t at = 0; at + sizes[i] <= input.count; at += sizes[i]) {
            give(&talk, input.byte + at, sizes[i]);
            await_lines(&talk.program, talk.lines);
        }
        close_talk(&talk);
    }
    free_text(&input);
}

/* The input ends behind what is said last, after a reply to each whole line. */
static void test_end(const char *name, const char *first, const char *last)
{
    struct talk talk;
    open_talk(&talk, name);
    say(&talk, first);
    await_lines(&talk.program, talk.lines);
    say(&talk, last);
    await_silence(&talk.program, 0.05);
    close_talk(&talk);
}

/* A line that but for its length is well formed, without newline. */
static void test_long_end(const char *name, const char *number)
{
    struct text line = {0, 0, NULL};
    add_format(&line, "answer %s", number);
    for (int i = 0; i < 454; i++)
        add_format(&line, " 20000001");
    add_bytes(&line, "", 1);
    test_end(name, "", (const char *)line.byte);
    free_text(&line);
}

static void test_time(void)
{
    struct text input = {0, 0, NULL};
    struct talk talk;
    add_session(&input, LONG_LINES);
    open_talk(&talk, "a session of 2,000 lines");
    double start = now();
    give_input(&talk.program, input.byte, input.count);
    await_lines(&talk.program, LONG_LINES);
    double seconds = now() - start;
    talk.lines = LONG_LINES;
    read_input(talk.model, input.byte, input.count, &talk.expected);
    close_talk(&talk);
    free_text(&input);
    printf("  %d lines in %.0f ms\n", LONG_LINES, seconds * 1000);
    if (seconds > MOST_SECONDS_OF_LONG) {
        failures++;
        printf("failed: a session of 2,000 lines took over %d s\n", MOST_SECONDS_OF_LONG);
    }
}

static void test_ends(void)
{
    test_end("no input", "", "");
    test_end("a last line without newline", "call 20000001\n", "counts");
    test_end("a last line that asks why, without newline", "call 20000001\n", "why 20000001");
    test_end("a bad last line without newline", "call 20000001\n", "counts ");
    test_end("only a line without newline", "", "counts");
    test_end("a last newline", "call 20000001\n", "");
    test_long_end("a last line of 4,096 bytes", "001");
    test_long_end("a last line of 4,097 bytes", "0001");
}

int main(int count, char **arguments)
{
    static void (*const tests[])(void) = {
        test_line_by_line,       test_long_why,    test_long_lines, test_pieces, test_single_bytes,
        test_many_lines_at_once, test_even_pieces, test_ends,       test_time,
    };
    path = count > 1 ? arguments[1] : "crates/tables/out/tables";
    for (size_t i = 0; i < sizeof tests / sizeof *tests && failures < MOST_FAILURES; i++)
        tests[i]();
    printf("session pipe test: %s\n", failures == 0 ? "passed" : "FAILED");
    return failures == 0 ? 0 : 1;
}
