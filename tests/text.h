/* Bytes that are added at their end. */
#ifndef TEXT_H
#define TEXT_H

#include <stddef.h>
#include <stdint.h>

/* Starts as zeros. */
struct text {
    size_t count, room;
    uint8_t *byte;
};

/* Both end the program if memory runs out. */
void add_bytes(struct text *text, const void *bytes, size_t count);
void add_format(struct text *text, const char *format, ...);

void free_text(struct text *text);

/* How many newlines stand in the bytes. */
size_t count_lines(const uint8_t *bytes, size_t count);

#endif
