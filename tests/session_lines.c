/* Random lines of sessions: most are well formed, the others nearly so or not at all. */
#include "session_lines.h"

#include "../include/tables.h"

#include <stdio.h>
#include <string.h>

/* Lines as requested */

static void add_number(struct text *line, uint32_t number)
{
    int width = chance(90) ? 1 : (int)between(1, chance(80) ? 7 : 8);
    add_format(line, " %0*lu", width, (unsigned long)number);
}

static void add_cells(struct text *line, const struct argument *argument)
{
    for (size_t i = 0; i < argument->count; i++)
        add_format(line, " %08lx", (unsigned long)argument->cell[i]);
}

static void add_request(struct text *line, const struct request *request, bool why)
{
    add_format(line, "%s", why ? "why" : request_names[request->kind]);
    if (request->kind != CALL && request->kind != COUNTS)
        add_number(line, request->number);
    if (request->kind == NEXT)
        add_number(line, request->after);
    add_cells(line, &request->argument);
}

static enum request_kind draw_kind(const struct line_drawer *drawer)
{
    static const enum request_kind others[] = {NEXT, LOAD, INSTANCE, COUNTS};
    if (chance(drawer->call_chance))
        return CALL;
    if (chance(drawer->answer_chance))
        return ANSWER;
    return chance(8) ? FINISH : others[below(4)];
}

static void keep_called(struct line_drawer *drawer, const struct argument *term)
{
    drawer->called[drawer->calls++ % CALLED_TERMS] = *term;
}

/* Other names for the same variables; with few bits changed they are often the same names in another
   order. */
static void rename_term(struct argument *term)
{
    uint32_t change = chance(40) ? (uint32_t)between(1, 3) : TABLES_PAYLOAD(random_word());
    for (size_t i = 0; i < term->count; i++)
        if (TABLES_KIND(term->cell[i]) == TABLES_VARIABLE)
            term->cell[i] ^= change;
}

/* A constant of few, or a variable of few or of the term, which is not empty. */
static uint32_t draw_leaf(const struct argument *term)
{
    uint32_t cell = term->cell[below(term->count)];
    if (chance(40) && TABLES_KIND(cell) == TABLES_VARIABLE)
        return cell;
    return tables_cell(between(TABLES_VARIABLE, TABLES_INTEGER), below(4));
}

/* Puts another leaf for one of a term, often the last, so that both share what stands before it. */
static void vary_term(struct argument *term)
{
    size_t place = term->count - 1;
    if (chance(50))
        place = below(term->count);
    for (; place > 0; place--)
        if (TABLES_KIND(term->cell[place]) < TABLES_FUNCTOR) {
            term->cell[place] = draw_leaf(term);
            return;
        }
}

/* Makes of a called term one to ask about: mostly under other names, or with another leaf. */
static void recall_term(const struct line_drawer *drawer, struct argument *term)
{
    size_t known = drawer->calls < CALLED_TERMS ? drawer->calls : CALLED_TERMS;
    *term = drawer->called[below(known)];
    if (term->count > 0 && chance(45))
        vary_term(term);
    if (chance(70))
        rename_term(term);
}

/* What to ask about: in most cases a term that a call has had or one like it, else a request to call. */
static void draw_why(struct line_drawer *drawer, const struct known *known, struct request *request)
{
    request->kind = CALL;
    if (drawer->calls > 0 && chance(75))
        recall_term(drawer, &request->argument);
    else
        draw_request(&drawer->requests, CALL, known, request);
}

static void draw_requested(struct line_drawer *drawer, const struct known *known, struct line *line)
{
    static struct request request;
    line->why = chance(drawer->why_chance);
    line->kind = line->why ? CALL : draw_kind(drawer);
    if (line->why)
        draw_why(drawer, known, &request);
    else
        draw_request(&drawer->requests, line->kind, known, &request);
    if (line->kind == CALL && !line->why)
        keep_called(drawer, &request.argument);
    line->number = line->kind == CALL || line->kind == COUNTS ? 0 : request.number;
    add_request(&line->text, &request, line->why);
}

/* Other lines */

/* Any byte but a newline, or one that stands beside those that a line may hold. */
static uint8_t draw_byte(void)
{
    static const uint8_t beside[] = {0,   ' ', '\t', '\r', '\v', '/', '0', '9',  ':',  '@',
                                     'A', 'F', '`',  'a',  'f',  'g', 'z', 0x7f, 0x80, 0xff};
    uint8_t byte = chance(50) ? beside[below(sizeof beside)] : (uint8_t)below(256);
    return byte == '\n' ? ' ' : byte;
}

/* Replaces, doubles, inserts or takes out one byte, or cuts the line off. */
static void edit(struct text *line)
{
    size_t place = below(line->count + 1);
    uint8_t byte = place < line->count && chance(30) ? line->byte[place] : draw_byte();
    size_t way = below(10);
    add_bytes(line, &byte, 1);
    if (way < 4) {
        memmove(line->byte + place + 1, line->byte + place, line->count - 1 - place);
        line->byte[place] = byte;
        return;
    }
    line->count--;
    if (place == line->count)
        return;
    if (way < 7)
        line->byte[place] = byte;
    else if (way < 9)
        memmove(line->byte + place, line->byte + place + 1, --line->count - place);
    else
        line->count = place;
}

static void draw_words(struct text *line)
{
    static const char *const words[] = {
        "call",     "answer",   "finish", "next", "load",    "instance", "counts", "why", "fresh",
        "20000001", "40000011", "0",      "1",    "0000001", "12345678", "-1",     "",    "why",
    };
    for (size_t count = between(1, 6); count > 0; count--) {
        add_format(line, "%s", words[below(sizeof words / sizeof *words)]);
        if (count > 1)
            add_format(line, "%s", chance(90) ? " " : chance(50) ? "  " : "\t");
    }
}

static void draw_bytes(struct text *line, size_t count)
{
    for (; count > 0; count--) {
        uint8_t byte = draw_byte();
        add_bytes(line, &byte, 1);
    }
}

/* A line of about 4,096 bytes or of far more; most of the former would be well formed. */
static void draw_long(struct text *line)
{
    size_t cells = between(452, 455);
    if (chance(20)) {
        draw_bytes(line, chance(50) ? between(4094, 4099) : between(8000, 20000));
        return;
    }
    if (chance(70))
        add_format(line, "answer %0*d", (int)between(1, 7), (int)below(3));
    else
        add_format(line, chance(50) ? "call" : "why");
    for (; cells > 0; cells--)
        add_format(line, " %08lx", (unsigned long)(UINT32_C(0x20000000) + below(9)));
}

/* Sessions, whose table is of edition 1 */

void open_line_drawer(struct line_drawer *drawer)
{
    static const unsigned long_chances[] = {0, 0, 3, 40}, chances[] = {5, 20, 30, 60};
    open_drawer(&drawer->requests, 1, long_chances[below(4)], chance(50) ? 3 : 12,
                chance(50) ? 4 : 9);
    drawer->calls = 0;
    drawer->why_chance = chance(80) ? 12 : 30;
    drawer->call_chance = chances[below(4)];
    drawer->answer_chance = chance(40) ? 95 : 50;
    drawer->other_chance = chance(80) ? 10 : 70;
}

static enum line_sort draw_sort(const struct line_drawer *drawer)
{
    if (!chance(drawer->other_chance))
        return AS_REQUESTED;
    size_t sort = below(100);
    return sort < 60 ? EDITED : sort < 80 ? OF_WORDS : sort < 97 ? OF_BYTES : LONG_LINE;
}

void draw_line(struct line_drawer *drawer, const struct known *known, struct line *line)
{
    line->sort = draw_sort(drawer);
    line->text.count = 0;
    if (line->sort == AS_REQUESTED || line->sort == EDITED)
        draw_requested(drawer, known, line);
    if (line->sort == EDITED)
        for (size_t edits = chance(70) ? 1 : between(2, 4); edits > 0; edits--)
            edit(&line->text);
    if (line->sort == OF_WORDS)
        draw_words(&line->text);
    if (line->sort == OF_BYTES)
        draw_bytes(&line->text, below(30));
    if (line->sort == LONG_LINE)
        draw_long(&line->text);
}
