/* Random numbers, terms and requests for the tests of the calls. */
#ifndef DRAWING_H
#define DRAWING_H

#include <stdbool.h>
#include <stddef.h>
#include <stdint.h>

/* Random numbers; equal seeds draw alike. */
void seed_drawing(uint64_t seed);
uint64_t random_word(void);
size_t below(size_t bound);
size_t between(size_t least, size_t most);
bool chance(unsigned percent);

/* An edition, and a number that is none. */
uint32_t draw_edition(void);
uint32_t draw_no_edition(void);

/* The cells of one argument; a few more than any legal one has. */
enum { ARGUMENT_CELLS = 300 };

struct argument {
    size_t count;
    uint32_t cell[ARGUMENT_CELLS];
};

/* The calls, fresh apart. */
enum request_kind { CALL, ANSWER, FINISH, JOIN, NEXT, LOAD, INSTANCE, COUNTS, REQUEST_KINDS };

extern const char *const request_names[REQUEST_KINDS];

struct request {
    enum request_kind kind;
    uint32_t number; /* the subgoal of answer, finish and next, the answer of load and instance, the
                        first of join */
    uint32_t after;  /* of next */
    uint32_t second, target;  /* of join */
    struct argument argument; /* the terms of call and answer, the pairs of join */
    struct argument copies;   /* of join */
};

/* What a drawer knows of a table, so that most requests fit it; subgoal s at s - 1. */
enum { KNOWN_SUBGOALS = 64 };

struct known {
    uint32_t subgoals, answers;
    uint32_t variables[KNOWN_SUBGOALS];
    uint32_t answered[KNOWN_SUBGOALS]; /* how many answers it has */
    bool finished[KNOWN_SUBGOALS];
    bool holds_variables[KNOWN_SUBGOALS]; /* some answer has a variable */
};

/* Takes notice of a request that had this result. */
void learn_result(struct known *known, const struct request *request, uint64_t word);

/*
 * A source of requests for spaces of one edition. Its terms are small or long,
 * over few names, and often come back under other names of their variables, so
 * that old ones are met. Arities are small, and in edition 2, where a term is
 * long, also 16 to 255.
 */
enum { STOCKED = 6, STOCKED_TERMS = 4 };

struct drawer {
    uint32_t edition;
    unsigned long_chance;  /* an argument has about 256 cells or about 32 variables */
    unsigned spoil_chance; /* an argument is made illegal */
    size_t small_cells;    /* the most cells of a small argument */
    struct argument called[STOCKED];
    struct argument answered[STOCKED_TERMS][STOCKED]; /* by the number of terms */
};

void open_drawer(struct drawer *drawer, uint32_t edition, unsigned long_chance,
                 unsigned spoil_chance, size_t small_cells);
void draw_request(struct drawer *drawer, enum request_kind kind, const struct known *known,
                  struct request *request);

/*
 * A list of requests for a fresh table of an edition, which are all accepted but
 * for a few, given room: some subgoals, ground answers over few terms, so that
 * many of them match, and joins. In some lists the first join gives an answer of
 * `joined_cells` cells, 255 to 257; in the others that is 0.
 */
enum { PLAN_REQUESTS = 144 };

struct plan {
    size_t joined_cells;
    size_t count;
    struct request request[PLAN_REQUESTS];
    struct known known; /* after the last request, given room */
};

void draw_plan(uint32_t edition, struct plan *plan);

/*
 * The same for a table with many children under some nodes, up to 30, often exactly 8 or 9: calls
 * and answers of constants in a random order, so that the children of one node are numbered among
 * those of others, and a join of two such subgoals. Their tokens are close together or far apart, or
 * differ in the kind alone, so that in an index they begin at the same slots or at neighbours.
 */
void draw_wide_plan(uint32_t edition, struct plan *plan);

/* Does the kind of request only read the space? */
bool only_reads(enum request_kind kind);

/* Does it search, so that it may be lent an index? */
bool takes_index(enum request_kind kind);

size_t distinct_variables(const struct argument *argument);

#endif
