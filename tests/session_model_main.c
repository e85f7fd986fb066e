/* The model of the session program, as a program over standard input and output. */
#include "session_model.h"

#include <stdio.h>
#include <stdlib.h>
#include <unistd.h>

static void write_all(struct text *printed)
{
    for (size_t at = 0; at < printed->count;) {
        ssize_t written = write(STDOUT_FILENO, printed->byte + at, printed->count - at);
        if (written < 0) {
            perror("session model");
            exit(2);
        }
        at += (size_t)written;
    }
    printed->count = 0;
}

int main(void)
{
    static char piece[65536];
    struct session_model *session = open_session();
    struct text printed = {0, 0, NULL};
    ssize_t count;
    while ((count = read(STDIN_FILENO, piece, sizeof piece)) > 0) {
        read_input(session, piece, (size_t)count, &printed);
        write_all(&printed);
    }
    end_input(session, &printed);
    write_all(&printed);
    free_text(&printed);
    close_session(session);
    return count == 0 ? 0 : 2;
}
