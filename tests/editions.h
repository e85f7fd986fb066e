/* The editions as the tests know them: how each reads a functor, and numbers that are none. */
#ifndef EDITIONS_H
#define EDITIONS_H

#include <stddef.h>
#include <stdint.h>

/* The editions are 1 to this. */
enum { LAST_EDITION = 2 };

uint32_t other_edition(uint32_t edition);

/* A cell of any kind, 0 to 15, and any payload, legal or not. */
uint32_t raw_cell(size_t kind, size_t payload);

/* The arity of a functor cell as an edition reads it; 0 is none. */
uint32_t arity_in(uint32_t edition, uint32_t functor);

/* A cell written for edition 1, as an edition writes it: a functor keeps its name and its arity. */
uint32_t recoded(uint32_t edition, uint32_t cell);

/* Numbers that are no edition; some have an edition in their lowest bits. */
enum { NO_EDITIONS = 20 };

extern const uint32_t no_editions[NO_EDITIONS];

#endif
