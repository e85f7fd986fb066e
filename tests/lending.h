/* Cells lent against guard pages, and reports of a crash or of a call that does not return. */
#ifndef LENDING_H
#define LENDING_H

#include <stdbool.h>
#include <stddef.h>
#include <stdint.h>

/* Cells between two pages that may not be touched. */
struct arena {
    size_t size;
    uint32_t *cells;
    uint32_t *lent;
    size_t lent_cells;
};

/* Room for at least so many cells. Ends the program if there is none. */
void open_arena(struct arena *arena, size_t cells);

/*
 * Lends so many cells that end directly before the upper guard page, or begin
 * directly behind the lower one; the few cells on their other side are marked.
 */
uint32_t *lend(struct arena *arena, size_t cells, bool at_end);

/* Are the marked cells beside those lent as they were? */
bool marks_kept(const struct arena *arena);

/*
 * Ends the program with a message if a page is touched that may not be, the
 * stack overflows, or alarm() goes off.
 */
void report_crashes(void);

/* What such a message says of the place, as by printf. */
void note_place(const char *format, ...);

#endif
