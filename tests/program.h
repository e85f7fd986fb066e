/* A program run over pipes, with a time limit on every wait. */
#ifndef PROGRAM_H
#define PROGRAM_H

#include "text.h"

#include <stdbool.h>
#include <sys/types.h>

struct program {
    pid_t id;
    int input, output;     /* the pipes' ends here; -1 once closed */
    struct text printed;   /* all that it has printed */
    double deadline;       /* on the clock of now() */
    const char *complaint; /* what went wrong first, or NULL */
};

/* Seconds on a clock that only runs forward. */
double now(void);

/* Starts the program with so many seconds to go. Ends this one if it cannot be started. */
void start_program(struct program *program, const char *path, double seconds);

/*
 * Each of these gives false, with a complaint, if time runs out or the program
 * ends too early; and false without doing anything after a complaint.
 *
 * give_input writes all the bytes, and reads meanwhile what is printed.
 * await_lines reads until so many lines in all have been printed.
 * await_silence reads for so many seconds, and holds if nothing is printed.
 * end_program closes the input, reads all that is still printed, and holds if
 * the program then ends with status 0.
 */
bool give_input(struct program *program, const void *bytes, size_t count);
bool await_lines(struct program *program, size_t lines);
bool await_silence(struct program *program, double seconds);
bool end_program(struct program *program);

/* Ends what is left of it, by force if need be, and forgets what was printed. */
void discard_program(struct program *program);

#endif
