/* A program run over pipes, with a time limit on every wait. */
#define _POSIX_C_SOURCE 200809L

#include "program.h"

#include <errno.h>
#include <fcntl.h>
#include <poll.h>
#include <signal.h>
#include <spawn.h>
#include <stdio.h>
#include <stdlib.h>
#include <string.h>
#include <sys/wait.h>
#include <time.h>
#include <unistd.h>

extern char **environ;

double now(void)
{
    struct timespec time;
    clock_gettime(CLOCK_MONOTONIC, &time);
    return (double)time.tv_sec + (double)time.tv_nsec / 1e9;
}

static bool complain(struct program *program, const char *complaint)
{
    program->complaint = complaint;
    return false;
}

/* Starting */

static void hold(bool condition, const char *what)
{
    if (condition)
        return;
    printf("failed: %s: %s\n", what, strerror(errno));
    exit(2);
}

/* A pipe whose ends are not handed to the programs started. */
static void open_pipe(int ends[2])
{
    hold(pipe(ends) == 0, "a pipe");
    for (int i = 0; i < 2; i++)
        hold(fcntl(ends[i], F_SETFD, FD_CLOEXEC) == 0, "a pipe");
}

/* A closed pipe is met here as an error of write, but by the program as by default. */
static void spawn(struct program *program, const char *path, int input, int output)
{
    posix_spawn_file_actions_t actions;
    posix_spawnattr_t attributes;
    sigset_t defaults;
    char *const arguments[] = {(char *)path, NULL};
    signal(SIGPIPE, SIG_IGN);
    sigemptyset(&defaults);
    sigaddset(&defaults, SIGPIPE);
    posix_spawnattr_init(&attributes);
    posix_spawnattr_setflags(&attributes, POSIX_SPAWN_SETSIGDEF);
    posix_spawnattr_setsigdefault(&attributes, &defaults);
    posix_spawn_file_actions_init(&actions);
    posix_spawn_file_actions_adddup2(&actions, input, STDIN_FILENO);
    posix_spawn_file_actions_adddup2(&actions, output, STDOUT_FILENO);
    errno = posix_spawn(&program->id, path, &actions, &attributes, arguments, environ);
    hold(errno == 0, path);
    posix_spawn_file_actions_destroy(&actions);
    posix_spawnattr_destroy(&attributes);
}

void start_program(struct program *program, const char *path, double seconds)
{
    int input[2], output[2];
    memset(program, 0, sizeof *program);
    open_pipe(input);
    open_pipe(output);
    spawn(program, path, input[0], output[1]);
    close(input[0]);
    close(output[1]);
    program->input = input[1];
    program->output = output[0];
    hold(fcntl(program->input, F_SETFL, O_NONBLOCK) == 0, "a pipe");
    program->deadline = now() + seconds;
}

/* Waiting */

/* What one wait came to. */
enum event { TIME_OUT, PRINTED, OUTPUT_ENDED, INPUT_READY };

static enum event read_output(struct program *program)
{
    static uint8_t piece[65536];
    ssize_t count = read(program->output, piece, sizeof piece);
    if (count <= 0)
        return OUTPUT_ENDED;
    add_bytes(&program->printed, piece, (size_t)count);
    return PRINTED;
}

/* Waits until there is output, which is read, or until there is room for input if that is wanted.
 */
static enum event await_event(struct program *program, bool writing, double until)
{
    struct pollfd ends[] = {{program->output, POLLIN, 0}, {program->input, POLLOUT, 0}};
    double left = until - now();
    int ready = poll(ends, writing ? 2 : 1, left < 0 ? 0 : (int)(left * 1000) + 1);
    if (ready <= 0)
        return TIME_OUT;
    return ends[0].revents != 0 ? read_output(program) : INPUT_READY;
}

bool give_input(struct program *program, const void *bytes, size_t count)
{
    const uint8_t *from = bytes;
    if (program->complaint != NULL)
        return false;
    while (count > 0) {
        enum event event = await_event(program, true, program->deadline);
        if (event == TIME_OUT)
            return complain(program, "it did not read its input in time");
        if (event == OUTPUT_ENDED)
            return complain(program, "it ended before its input did");
        if (event != INPUT_READY)
            continue;
        ssize_t written = write(program->input, from, count);
        if (written < 0 && errno != EAGAIN)
            return complain(program, "it ended before its input did");
        from += written < 0 ? 0 : written;
        count -= written < 0 ? 0 : (size_t)written;
    }
    return true;
}

bool await_lines(struct program *program, size_t lines)
{
    if (program->complaint != NULL)
        return false;
    while (count_lines(program->printed.byte, program->printed.count) < lines) {
        enum event event = await_event(program, false, program->deadline);
        if (event == TIME_OUT)
            return complain(program, "it did not reply in time while its input was open");
        if (event == OUTPUT_ENDED)
            return complain(program, "it ended before its input did");
    }
    return true;
}

bool await_silence(struct program *program, double seconds)
{
    if (program->complaint != NULL)
        return false;
    enum event event = await_event(program, false, now() + seconds);
    if (event == PRINTED)
        return complain(program, "it replied before the line had ended");
    if (event == OUTPUT_ENDED)
        return complain(program, "it ended before its input did");
    return true;
}

/* Ending */

static void close_end(int *end)
{
    if (*end >= 0)
        close(*end);
    *end = -1;
}

/* Waits for the program's end; false if it does not come in time. */
static bool await_end(struct program *program, int *status)
{
    const struct timespec pause = {0, 50000};
    while (waitpid(program->id, status, WNOHANG) == 0) {
        if (now() > program->deadline)
            return false;
        nanosleep(&pause, NULL);
    }
    program->id = 0;
    return true;
}

bool end_program(struct program *program)
{
    int status = 0;
    close_end(&program->input);
    if (program->complaint != NULL)
        return false;
    enum event event;
    do
        event = await_event(program, false, program->deadline);
    while (event == PRINTED);
    if (event == TIME_OUT || !await_end(program, &status))
        return complain(program, "it did not end in time after its input had");
    if (WIFSIGNALED(status))
        return complain(program, "it was ended by a signal");
    if (WEXITSTATUS(status) != 0)
        return complain(program, "its exit status was not 0");
    return true;
}

void discard_program(struct program *program)
{
    close_end(&program->input);
    close_end(&program->output);
    if (program->id > 0) {
        kill(program->id, SIGKILL);
        waitpid(program->id, NULL, 0);
    }
    program->id = 0;
    free_text(&program->printed);
}
