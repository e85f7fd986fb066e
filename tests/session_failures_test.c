/*
 * Tests what the session program does with arguments, and where reading or writing fails; its
 * argument names it.
 */
#define _DEFAULT_SOURCE

#include "program.h"

#include <errno.h>
#include <fcntl.h>
#include <poll.h>
#include <signal.h>
#include <stdio.h>
#include <stdlib.h>
#include <string.h>
#include <sys/resource.h>
#include <sys/socket.h>
#include <sys/wait.h>
#include <time.h>
#include <unistd.h>

enum { SECONDS = 10, CLOSED = -1, MOST_BYTES = 200000, MOST_FAILURES = 2 };

static const char usage[] = "usage: tables < CALLS (no arguments)\n"
                            "reads calls, a line each, and prints a line for each\n"
                            "table: 1000 nodes, 50 subgoals, 100 answers, edition 1\n"
                            "out: 8192 cells\n"
                            "line: at most 4096 bytes, one of\n"
                            "  call CELLS\n"
                            "  answer SUBGOAL CELLS\n"
                            "  finish SUBGOAL\n"
                            "  next SUBGOAL AFTER\n"
                            "  load ANSWER\n"
                            "  instance ANSWER\n"
                            "  counts\n"
                            "  why CELLS\n"
                            "fields: each after one space\n"
                            "  a number: 1 to 7 decimal digits\n"
                            "  a cell: 8 lower-case hexadecimal digits\n";

static const char *path;
static unsigned runs, failures;

static void hold(bool condition, const char *what)
{
    if (condition)
        return;
    printf("failed: %s: %s\n", what, strerror(errno));
    exit(2);
}

/* Descriptors, none of which the program gets but as its first three */

/* Nothing opened later stands in the way of these three. */
static void take_first_three(void)
{
    int file = open("/dev/null", O_RDWR);
    while (file >= 0 && file <= STDERR_FILENO)
        file = open("/dev/null", O_RDWR);
    hold(file >= 0, "/dev/null");
    close(file);
}

static int opened(const char *name, int flags)
{
    int file = open(name, flags | O_CLOEXEC);
    hold(file >= 0, name);
    return file;
}

static void open_ends(int ends[2], bool is_socket)
{
    if (is_socket)
        hold(socketpair(AF_UNIX, SOCK_STREAM, 0, ends) == 0, "a socket");
    else
        hold(pipe(ends) == 0, "a pipe");
    for (int i = 0; i < 2; i++)
        hold(fcntl(ends[i], F_SETFD, FD_CLOEXEC) == 0, "a descriptor");
}

static void close_end(int *end)
{
    if (*end != CLOSED)
        close(*end);
    *end = CLOSED;
}

static void put(int end, const char *text)
{
    hold(write(end, text, strlen(text)) == (ssize_t)strlen(text), "what the program is to read");
}

/* One run of the program */

/* What is written to an end, read from the other. */
struct kept {
    int written, read;
    struct text text;
};

struct run {
    const char *name;
    const char *const *arguments; /* behind the program's name, and NULL behind the last */
    int input, feed;              /* what it reads, and the end here that feeds it */
    struct kept printed, said;    /* on standard output and on standard error */
    bool outlives_broken_pipes;   /* SIGPIPE is ignored, and not as by default */
    rlim_t most_bytes;            /* of a file that it writes */
    pid_t id;
    double deadline;
    const char *complaint;
};

static const char *const none[] = {NULL};

static struct run new_run(const char *name)
{
    int input[2], printed[2], said[2];
    open_ends(input, false);
    open_ends(printed, false);
    open_ends(said, false);
    return (struct run){
        .name = name,
        .arguments = none,
        .input = input[0],
        .feed = input[1],
        .printed = {printed[1], printed[0], {0, 0, NULL}},
        .said = {said[1], said[0], {0, 0, NULL}},
        .most_bytes = RLIM_INFINITY,
    };
}

/* The program writes there instead, and nothing is read from it. */
static void write_to(struct kept *kept, int end)
{
    close_end(&kept->written);
    close_end(&kept->read);
    kept->written = end;
}

static void read_from(struct run *run, int end)
{
    close_end(&run->input);
    close_end(&run->feed);
    run->input = end;
}

/* In the process that is to be the program. */
static void place(int from, int to)
{
    if (from == CLOSED)
        close(to);
    else if (dup2(from, to) < 0)
        _exit(126);
}

static void become(const struct run *run)
{
    const struct rlimit limit = {run->most_bytes, run->most_bytes};
    const char *words[8] = {path};
    for (size_t i = 0; run->arguments[i] != NULL && i + 2 < sizeof words / sizeof *words; i++)
        words[i + 1] = run->arguments[i];
    signal(SIGPIPE, run->outlives_broken_pipes ? SIG_IGN : SIG_DFL);
    signal(SIGXFSZ, SIG_IGN);
    setrlimit(RLIMIT_FSIZE, &limit);
    place(run->input, STDIN_FILENO);
    place(run->printed.written, STDOUT_FILENO);
    place(run->said.written, STDERR_FILENO);
    execv(path, (char *const *)words);
    _exit(127);
}

static void start(struct run *run)
{
    fflush(stdout);
    runs++;
    run->deadline = now() + SECONDS;
    run->id = fork();
    hold(run->id >= 0, "a process");
    if (run->id == 0)
        become(run);
    close_end(&run->printed.written);
    close_end(&run->said.written);
}

/* Reads what has come, so many bytes at most. */
static void take(struct kept *kept, size_t most)
{
    static uint8_t piece[4096];
    ssize_t count = read(kept->read, piece, most < sizeof piece ? most : sizeof piece);
    if (count > 0)
        add_bytes(&kept->text, piece, (size_t)count);
    else
        close_end(&kept->read);
}

/* Reads until so many bytes have been printed in all, or until nothing more can come. */
static void await_printed(struct run *run, size_t count)
{
    while (run->complaint == NULL && run->printed.text.count < count &&
           (run->printed.read != CLOSED || run->said.read != CLOSED)) {
        struct pollfd ends[] = {{run->printed.read, POLLIN, 0}, {run->said.read, POLLIN, 0}};
        double left = run->deadline - now();
        if (left < 0 || poll(ends, 2, (int)(left * 1000) + 1) <= 0)
            run->complaint = "it did not end, or not reply, in time";
        else if (ends[0].revents != 0)
            take(&run->printed, count - run->printed.text.count);
        else
            take(&run->said, MOST_BYTES);
        if (run->said.text.count >= MOST_BYTES)
            run->complaint = "it writes to standard error without end";
    }
}

/* The number of the signal that ended it, or 0. */
static int await_end(struct run *run)
{
    const struct timespec pause = {0, 50000};
    int status = 0;
    await_printed(run, MOST_BYTES);
    while (run->complaint == NULL && waitpid(run->id, &status, WNOHANG) == 0) {
        if (now() > run->deadline)
            run->complaint = "it did not end in time";
        nanosleep(&pause, NULL);
    }
    if (run->complaint != NULL) {
        kill(run->id, SIGKILL);
        waitpid(run->id, NULL, 0);
    } else if (WIFEXITED(status) && WEXITSTATUS(status) != 0) {
        run->complaint = "its exit status is not 0";
    }
    return WIFSIGNALED(status) ? WTERMSIG(status) : 0;
}

static bool is_text(const struct text *text, const char *expected)
{
    return text->count == strlen(expected) &&
           (text->count == 0 || memcmp(text->byte, expected, text->count) == 0);
}

static void show(const char *what, const struct text *text)
{
    int count = text->count < 300 ? (int)text->count : 300;
    printf("  %s, %zu bytes: %.*s\n", what, text->count, count,
           count == 0 ? "" : (const char *)text->byte);
}

/* Awaits its end, by that signal or by itself (0), and compares all that came. */
static void expect(struct run *run, int signal, const char *printed, const char *said)
{
    int ended = await_end(run);
    if (run->complaint == NULL && ended != signal)
        run->complaint = "it was ended by another signal, or by none";
    if (run->complaint == NULL && !is_text(&run->printed.text, printed))
        run->complaint = "other output than expected";
    if (run->complaint == NULL && !is_text(&run->said.text, said))
        run->complaint = "another message than expected";
    if (run->complaint == NULL)
        return;
    failures++;
    printf("failed: %s: %s\n", run->name, run->complaint);
    show("printed", &run->printed.text);
    show("said", &run->said.text);
}

static void discard(struct run *run)
{
    close_end(&run->input);
    close_end(&run->feed);
    close_end(&run->printed.read);
    close_end(&run->said.read);
    free_text(&run->printed.text);
    free_text(&run->said.text);
}

/* Starts it, awaits that it ends by itself, and is done with it. */
static void expect_said(struct run *run, const char *printed, const char *said)
{
    start(run);
    expect(run, 0, printed, said);
    discard(run);
}

/* Arguments: the usage, and the input, which stays open, is not read */

static void test_arguments(const char *name, const char *const *arguments)
{
    struct run run = new_run(name);
    run.arguments = arguments;
    expect_said(&run, "", usage);
}

static void test_input_left(void)
{
    static const char *const arguments[] = {"--help", NULL};
    struct run run = new_run("an argument, and input that waits");
    char left[20] = "";
    run.arguments = arguments;
    put(run.feed, "counts\n");
    start(&run);
    expect(&run, 0, "", usage);
    close_end(&run.feed);
    if (read(run.input, left, sizeof left - 1) < 0 || strcmp(left, "counts\n") != 0) {
        failures++;
        printf("failed: %s: it was read\n", run.name);
    }
    discard(&run);
}

static void test_usage(void)
{
    static const char *const one[] = {"x", NULL}, *const three[] = {"call", "20000001", "-", NULL};
    static const char *const help[] = {"--help", NULL}, *const empty[] = {"", NULL};
    test_arguments("an argument", one);
    test_arguments("three arguments", three);
    test_arguments("--help", help);
    test_arguments("an empty argument", empty);
    test_input_left();

    struct run run = new_run("an argument, and standard output closed");
    run.arguments = help;
    write_to(&run.printed, CLOSED);
    expect_said(&run, "", usage);

    run = new_run("an argument, and standard error closed");
    run.arguments = help;
    write_to(&run.said, CLOSED);
    expect_said(&run, "", "");
}

/* Output that cannot be written: said once, and the input, which stays open, is read no further */

static void test_output(const char *name, int output, const char *said)
{
    struct run run = new_run(name);
    write_to(&run.printed, output);
    put(run.feed, "counts\ncall 20000001\ncounts\n");
    expect_said(&run, "", said);
}

/* The reply to a last line without newline. */
static void test_last_output(void)
{
    struct run run = new_run("standard output full at the last line");
    write_to(&run.printed, opened("/dev/full", O_WRONLY));
    put(run.feed, "counts");
    close_end(&run.feed);
    expect_said(&run, "", "standard output: No space left on device\n");
}

static void test_no_output(void)
{
    struct run run = new_run("standard output full, and no line");
    write_to(&run.printed, opened("/dev/full", O_WRONLY));
    close_end(&run.feed);
    expect_said(&run, "", "");
}

static void test_no_messages(void)
{
    struct run run = new_run("standard output full and standard error closed");
    write_to(&run.printed, opened("/dev/full", O_WRONLY));
    write_to(&run.said, CLOSED);
    put(run.feed, "counts\ncounts\n");
    expect_said(&run, "", "");
}

/* A file that may hold a reply and a part of the next. */
static void test_limited_file(void)
{
    struct run run = new_run("standard output full in the second reply");
    char held[80] = "";
    FILE *file = tmpfile();
    hold(file != NULL, "a file");
    write_to(&run.printed, fcntl(fileno(file), F_DUPFD_CLOEXEC, 0));
    run.most_bytes = 20;
    put(run.feed, "counts\ncounts\ncounts\n");
    expect_said(&run, "", "standard output: File too large\n");
    if (pread(fileno(file), held, sizeof held - 1, 0) < 0 ||
        strcmp(held, "counts 1 0 0\ncounts ") != 0) {
        failures++;
        printf("failed: the replies in a file of 20 bytes: %s\n", held);
    }
    fclose(file);
}

static void test_outputs(void)
{
    test_output("standard output full", opened("/dev/full", O_WRONLY),
                "standard output: No space left on device\n");
    test_output("standard output closed", CLOSED, "standard output: Bad file descriptor\n");
    test_output("standard output only to read", opened("/dev/null", O_RDONLY),
                "standard output: Bad file descriptor\n");
    test_last_output();
    test_no_output();
    test_no_messages();
    test_limited_file();
}

/* A reader that goes away: a failed write like any other, for what Rattle starts a program with ignores SIGPIPE */

static void expect_broken_pipe(struct run *run, const char *printed)
{
    expect(run, 0, printed, "standard output: Broken pipe\n");
    discard(run);
}

static void test_no_reader(const char *name, bool outlives)
{
    struct run run = new_run(name);
    run.outlives_broken_pipes = outlives;
    close_end(&run.printed.read);
    put(run.feed, "counts\ncounts\n");
    start(&run);
    expect_broken_pipe(&run, "");
}

static void test_reader_between_replies(const char *name, bool outlives)
{
    static const char replies[] = "counts 1 0 0\nnew 1\n";
    struct run run = new_run(name);
    run.outlives_broken_pipes = outlives;
    start(&run);
    put(run.feed, "counts\ncall 20000001\n");
    await_printed(&run, strlen(replies));
    close_end(&run.printed.read);
    put(run.feed, "counts\ncounts\n");
    expect_broken_pipe(&run, replies);
}

/* Within a reply of 8,192 cells, more than a pipe holds. */
static void test_reader_within_reply(const char *name, bool outlives)
{
    static const char begun[] = "new 1\nnew 1\ncells 40000011 50000000";
    struct run run = new_run(name);
    run.outlives_broken_pipes = outlives;
    put(run.feed, "call 40000011");
    for (int i = 0; i < 31; i++)
        put(run.feed, " 50000000 10000000");
    put(run.feed, " 10000000\nanswer 1");
    for (int i = 0; i < 127; i++)
        put(run.feed, " 50000000 30000001");
    put(run.feed, " 30000001\ninstance 1\ncounts\n");
    start(&run);
    await_printed(&run, strlen(begun));
    close_end(&run.printed.read);
    expect_broken_pipe(&run, begun);
}

static void test_readers(void)
{
    test_no_reader("no reader", false);
    test_no_reader("no reader, SIGPIPE ignored", true);
    test_reader_between_replies("a reader gone between replies", false);
    test_reader_between_replies("a reader gone between replies, SIGPIPE ignored", true);
    test_reader_within_reply("a reader gone within a reply", false);
    test_reader_within_reply("a reader gone within a reply, SIGPIPE ignored", true);
}

/* Input that cannot be read: said once. Lines before are answered, and the part of one is not. */

static void test_input(const char *name, int input, const char *said)
{
    struct run run = new_run(name);
    read_from(&run, input);
    expect_said(&run, "", said);
}

/*
 * The input is a socket with a byte on its way back. If its feeding end is closed before that is
 * read, the program meets an error behind all that it was fed.
 */
static void feed_by_socket(struct run *run)
{
    int ends[2];
    open_ends(ends, true);
    read_from(run, ends[0]);
    run->feed = ends[1];
    put(run->input, "x");
}

static void test_reset(const char *name, const char *lines, const char *replies)
{
    struct run run = new_run(name);
    feed_by_socket(&run);
    put(run.feed, lines);
    close_end(&run.feed);
    expect_said(&run, replies, "standard input: Connection reset by peer\n");
}

/* The program waits for more when the reset comes. */
static void test_late_reset(void)
{
    static const char reply[] = "counts 1 0 0\n";
    struct run run = new_run("standard input fails while it is awaited");
    feed_by_socket(&run);
    start(&run);
    put(run.feed, "counts\ncounts");
    await_printed(&run, strlen(reply));
    close_end(&run.feed);
    expect(&run, 0, reply, "standard input: Connection reset by peer\n");
    discard(&run);
}

static void test_inputs(void)
{
    test_input("standard input a folder", opened("/", O_RDONLY),
               "standard input: Is a directory\n");
    test_input("standard input closed", CLOSED, "standard input: Bad file descriptor\n");
    test_input("standard input only to write", opened("/dev/null", O_WRONLY),
               "standard input: Bad file descriptor\n");
    test_reset("standard input fails behind a line", "counts\ncall 20000001\n",
               "counts 1 0 0\nnew 1\n");
    test_reset("standard input fails within a line", "call 20000001\ncounts\ncounts",
               "new 1\ncounts 3 1 0\n");
    test_reset("standard input fails within the first line", "counts", "");
    test_late_reset();
}

int main(int count, char **arguments)
{
    static void (*const tests[])(void) = {test_usage, test_outputs, test_readers, test_inputs};
    path = count > 1 ? arguments[1] : "crates/tables/out/tables";
    signal(SIGPIPE, SIG_IGN);
    take_first_three();
    hold(access(path, X_OK) == 0, path);
    for (size_t i = 0; i < sizeof tests / sizeof *tests && failures < MOST_FAILURES; i++)
        tests[i]();
    printf("session failures test: %u runs, %s\n", runs, failures == 0 ? "passed" : "FAILED");
    return failures == 0 ? 0 : 1;
}
