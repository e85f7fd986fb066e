/* Cells lent against guard pages, and reports of a crash or of a call that does not return. */
#define _DEFAULT_SOURCE

#include "lending.h"

#include <signal.h>
#include <stdarg.h>
#include <stdio.h>
#include <stdlib.h>
#include <string.h>
#include <sys/mman.h>
#include <unistd.h>

enum { MARKED_CELLS = 16, HANDLER_STACK = 1 << 16 };

static const uint32_t mark = UINT32_C(0x5ca1ab1e);

void open_arena(struct arena *arena, size_t cells)
{
    size_t page = (size_t)sysconf(_SC_PAGESIZE);
    size_t bytes = ((cells + MARKED_CELLS) * sizeof(uint32_t) + page - 1) / page * page;
    uint8_t *all =
        mmap(NULL, bytes + 2 * page, PROT_READ | PROT_WRITE, MAP_PRIVATE | MAP_ANONYMOUS, -1, 0);
    if (all == MAP_FAILED || mprotect(all, page, PROT_NONE) != 0 ||
        mprotect(all + page + bytes, page, PROT_NONE) != 0) {
        perror("guard pages");
        exit(2);
    }
    arena->size = bytes / sizeof(uint32_t);
    arena->cells = (uint32_t *)(void *)(all + page);
    lend(arena, 0, false);
}

/* The first of the marked cells: those before the cells lent, or those behind. */
static uint32_t *marked(const struct arena *arena)
{
    bool at_end = arena->lent != arena->cells;
    return at_end ? arena->lent - MARKED_CELLS : arena->lent + arena->lent_cells;
}

uint32_t *lend(struct arena *arena, size_t cells, bool at_end)
{
    if (cells + MARKED_CELLS > arena->size) {
        printf("failed: the test lends more cells than it has\n");
        exit(2);
    }
    arena->lent = arena->cells + (at_end ? arena->size - cells : 0);
    arena->lent_cells = cells;
    for (size_t i = 0; i < MARKED_CELLS; i++)
        marked(arena)[i] = mark;
    return arena->lent;
}

bool marks_kept(const struct arena *arena)
{
    for (size_t i = 0; i < MARKED_CELLS; i++)
        if (marked(arena)[i] != mark)
            return false;
    return true;
}

/* Crashes */

static char place[160] = "at the start";

void note_place(const char *format, ...)
{
    va_list arguments;
    va_start(arguments, format);
    vsnprintf(place, sizeof place, format, arguments);
    va_end(arguments);
}

static void say(const char *text)
{
    ssize_t written = write(STDOUT_FILENO, text, strlen(text));
    (void)written;
}

static void report(int signal_number)
{
    say(signal_number == SIGALRM
            ? "failed: a call did not return: "
            : "failed: a cell outside those lent was touched, or the stack ran out: ");
    say(place);
    say("\n");
    _exit(1);
}

/* The handler has a stack of its own, since the other may have run out. */
void report_crashes(void)
{
    static char handler_stack[HANDLER_STACK];
    stack_t stack = {.ss_sp = handler_stack, .ss_size = sizeof handler_stack};
    struct sigaction action = {.sa_handler = report, .sa_flags = SA_ONSTACK};
    sigemptyset(&action.sa_mask);
    sigaltstack(&stack, NULL);
    sigaction(SIGSEGV, &action, NULL);
    sigaction(SIGBUS, &action, NULL);
    sigaction(SIGALRM, &action, NULL);
}
