/* Bytes that are added at their end. */
#include "text.h"

#include <stdarg.h>
#include <stdio.h>
#include <stdlib.h>
#include <string.h>

static void make_room(struct text *text, size_t count)
{
    if (text->room - text->count >= count)
        return;
    text->room = 2 * (text->count + count);
    text->byte = realloc(text->byte, text->room);
    if (text->byte == NULL) {
        perror("text");
        exit(2);
    }
}

void add_bytes(struct text *text, const void *bytes, size_t count)
{
    if (count == 0)
        return;
    make_room(text, count);
    memcpy(text->byte + text->count, bytes, count);
    text->count += count;
}

void add_format(struct text *text, const char *format, ...)
{
    char piece[64];
    va_list arguments;
    va_start(arguments, format);
    int count = vsnprintf(piece, sizeof piece, format, arguments);
    va_end(arguments);
    if (count < 0 || (size_t)count >= sizeof piece) {
        printf("failed: the test formats more than it has room for\n");
        exit(2);
    }
    add_bytes(text, piece, (size_t)count);
}

void free_text(struct text *text)
{
    free(text->byte);
    *text = (struct text){0, 0, NULL};
}

size_t count_lines(const uint8_t *bytes, size_t count)
{
    size_t lines = 0;
    for (size_t i = 0; i < count; i++)
        lines += bytes[i] == '\n';
    return lines;
}
