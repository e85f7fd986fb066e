/* Random lines of sessions: most are well formed, the others nearly so or not at all. */
#ifndef SESSION_LINES_H
#define SESSION_LINES_H

#include "drawing.h"
#include "text.h"

/* How a line was drawn. */
enum line_sort { AS_REQUESTED, EDITED, OF_WORDS, OF_BYTES, LONG_LINE, LINE_SORTS };

struct line {
    enum line_sort sort;
    enum request_kind kind; /* of a line as requested */
    bool why;               /* of such a line of the kind call: it asks why instead of calling */
    uint32_t number;        /* of such a line, 0 where it has none */
    struct text text;       /* without a newline */
};

/* How the lines of one session are drawn. The terms of call lines are kept, the last so many of them,
   whatever came of them: most lines that ask why have one of these, or one like it. */
enum { CALLED_TERMS = 40 };

struct line_drawer {
    struct drawer requests;
    unsigned why_chance;                 /* of a line as requested */
    unsigned call_chance, answer_chance; /* of any other of them; each other call is as likely */
    unsigned other_chance;               /* of a line of another sort */
    size_t calls;                        /* drawn so far */
    struct argument called[CALLED_TERMS];
};

void open_line_drawer(struct line_drawer *drawer);
void draw_line(struct line_drawer *drawer, const struct known *known, struct line *line);

#endif
