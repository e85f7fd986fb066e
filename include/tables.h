/* The C interface of the table store: calls on a space of cells, lists of terms, two converters. */
#ifndef TABLES_H
#define TABLES_H

#include <stddef.h>
#include <stdint.h>

#ifdef __cplusplus
extern "C" {
#endif

/*
 * The version of this interface: the first number grows where a program that
 * compiled or worked may no longer, the second where something was added, the
 * third where neither is so. TABLES_VERSION is one number, for #if: 10203 is
 * 1.2.3.
 */
#define TABLES_VERSION_MAJOR 4
#define TABLES_VERSION_MINOR 5
#define TABLES_VERSION_PATCH 0
#define TABLES_VERSION \
    (TABLES_VERSION_MAJOR * 10000 + TABLES_VERSION_MINOR * 100 + TABLES_VERSION_PATCH)

/* Stands before what returns a result that must be looked at: dropping it is a warning. */
#if defined(__GNUC__) || defined(__clang__)
#define TABLES_MUST_CHECK __attribute__((warn_unused_result))
#else
#define TABLES_MUST_CHECK
#endif

/*
 * Cells
 *
 * A cell is a 32-bit number. Its kind is the number divided by 2^28, its
 * payload is the remainder. The calls take cells as uint32_t, in the machine's
 * own byte order and aligned as uint32_t. Only the two converters at the end
 * take them as bytes: four to a cell, the lowest first (little-endian), on
 * every machine.
 */
enum tables_kind {
    TABLES_VARIABLE = 1, /* the caller's name for it, 0 to 2^28 - 1 */
    TABLES_ATOM = 2,     /* its number; atom 0 is the empty list [] */
    TABLES_INTEGER = 3,  /* its value, 0 to 2^28 - 1 */
    TABLES_FUNCTOR = 4,  /* name and arity, as the edition says */
    TABLES_PAIR = 5,     /* 0; pair form only */
    TABLES_BLIST = 6,    /* 0; compact form only: a list begins */
    TABLES_ELIST = 7,    /* 0; compact form only: the last element follows, then [] */
    TABLES_EPAIR = 8     /* 0; compact form only: the elements are over, the tail follows */
};

#define TABLES_MOST_PAYLOAD UINT32_C(0x0fffffff) /* 2^28 - 1 */
#define TABLES_KIND(cell) ((uint32_t)(cell) >> 28)
#define TABLES_PAYLOAD(cell) ((uint32_t)(cell) & TABLES_MOST_PAYLOAD)

/*
 * Making cells
 *
 * tables_cell makes the cell of a kind and a payload, tables_functor_cell
 * (below, under editions) that of a functor. What is out of range gives 0, which
 * is no cell of a term, so that the call to which it is given is refused by 3: a
 * kind other than 1 to 8, a payload above 2^28 - 1, a payload other than 0 for
 * the kinds 5 to 8. A negative number is out of range. So nothing spills into
 * another kind or payload: atom 2^28 is 0 and not integer 0.
 *
 * TABLES_CELL and TABLES_FUNCTOR_CELL give the same. They are constant
 * expressions where their arguments are, for initialisers and case labels. They
 * may evaluate an argument more than once; elsewhere use the functions.
 */
#define TABLES_CELL(kind, payload) \
    ((uint64_t)(kind) - TABLES_VARIABLE <= TABLES_EPAIR - TABLES_VARIABLE && \
             (uint64_t)(payload) >> ((uint64_t)(kind) <= TABLES_FUNCTOR ? 28 : 0) == 0 \
         ? (uint32_t)(kind) << 28 | (uint32_t)(payload) \
         : UINT32_C(0))
#define TABLES_EMPTY_LIST TABLES_CELL(TABLES_ATOM, 0)
#define TABLES_PAIR_CELL TABLES_CELL(TABLES_PAIR, 0)

static inline uint32_t tables_cell(uint64_t kind, uint64_t payload)
{
    return TABLES_CELL(kind, payload);
}

/*
 * Editions
 *
 * A space has an edition, which tables_fresh is given and every later call
 * reads in the space itself. It says how a functor's payload is read:
 *
 *     edition 1   name * 16 + arity, arity 1 to 15, name 0 to 16,777,215
 *     edition 2   name * 256 + arity, arity 1 to 255, name 0 to 1,048,575
 *
 * Nothing else differs. Cells made for one edition are mostly legal in the
 * other, with another name and arity: an engine makes its functor cells for the
 * edition of the space that it calls. The converters take the edition too.
 */
#define TABLES_EDITION_1 1
#define TABLES_EDITION_2 2

#define TABLES_ARITY_BITS(edition) ((edition) == TABLES_EDITION_1 ? 4 : 8)
#define TABLES_MOST_ARITY(edition) ((edition) == TABLES_EDITION_1 ? 15 : 255)
#define TABLES_MOST_NAME(edition) ((edition) == TABLES_EDITION_1 ? 16777215 : 1048575)

/*
 * The cell of a functor. A name or an arity that is out of range, and an edition
 * that there is not, give 0 (see 'Making cells').
 */
#define TABLES_FUNCTOR_CELL(edition, name, arity) \
    (((edition) == TABLES_EDITION_1 || (edition) == TABLES_EDITION_2) && \
             (uint64_t)(name) >> (28 - TABLES_ARITY_BITS(edition)) == 0 && (arity) != 0 && \
             (uint64_t)(arity) >> TABLES_ARITY_BITS(edition) == 0 \
         ? (uint32_t)TABLES_FUNCTOR << 28 | \
               (uint32_t)(name) << TABLES_ARITY_BITS(edition) | (uint32_t)(arity) \
         : UINT32_C(0))

static inline uint32_t tables_functor_cell(uint64_t edition, uint64_t name, uint64_t arity)
{
    return TABLES_FUNCTOR_CELL(edition, name, arity);
}

/*
 * Pair form is the form in which a caller writes and reads a term: preorder, a
 * functor followed by its arguments, a pair followed by its head and its tail.
 * A term has 1 to 256 cells and at most 32 distinct variables. Variables are
 * named as the caller likes; equal names are the same variable.
 *
 *     f(X, g(Y, X))   f/2 X g/2 Y X
 *     [1, 2]          PAIR 1 PAIR 2 []
 *     [1 | 2]         PAIR 1 2
 *
 * Compact form is the form in which the store keeps a term. Each variable's
 * payload is its rank, from 0, by first meeting, so two terms that differ only
 * in the names of their variables have the same compact form. Lists are
 * rewritten: e1 to en ending in [] become BLIST e1 .. ELIST en, without the
 * closing []; e1 to en ending in a term t that is neither [] nor a pair become
 * BLIST e1 .. en EPAIR t. An element may itself be a list.
 *
 *     f(X, g(Y, X))   f/2 VAR0 g/2 VAR1 VAR0
 *     [1, 2]          BLIST 1 ELIST 2
 *     [1 | 2]         BLIST 1 EPAIR 2
 *
 * A term of s cells has a compact form of at most (3 * s - 1) / 2 cells.
 */
#define TABLES_TERM_CELLS 256    /* the most cells of a term in pair form */
#define TABLES_TERM_VARIABLES 32 /* the most distinct variables of a term */
#define TABLES_COMPACT_CELLS 383 /* the most cells of a term in compact form */

/*
 * Refusals
 *
 * A call that cannot be carried out is refused by one of these numbers and
 * changes nothing: neither a cell of the space nor one of out. Where several
 * apply, the checks are made in this order: header (1) or fresh (2), number
 * (7), the records that the number names (9), a join's target (8), its sources
 * (14, 15) and names (16), length (4), term (3), variables (5), predicate (6), the
 * other records (9), an answer that a finished subgoal lacks (8), nodes (10),
 * records left (11), slots (17), what a list is of (23), a term of it (24), form
 * (13), a goal of detours (22), out (12). tables_carry checks 1, 2, 9, 18, 19, and
 * tables_grow 1, 2, 19.
 */
enum tables_refusal {
    TABLES_REFUSED_HEADER = 1,     /* the space has no sound header, or is cut short; from a
                                      converter: an unknown edition */
    TABLES_REFUSED_FRESH = 2,      /* a capacity out of range, too few cells for it, or an
                                      unknown edition */
    TABLES_REFUSED_TERM = 3,       /* not exactly the terms due; for a converter also a byte
                                      count not divisible by 4 */
    TABLES_REFUSED_LENGTH = 4,     /* over 256 cells */
    TABLES_REFUSED_VARIABLES = 5,  /* over 32 distinct variables */
    TABLES_REFUSED_PREDICATE = 6,  /* a called term begins with neither atom nor functor */
    TABLES_REFUSED_NUMBER = 7,     /* no such subgoal or answer, or another subgoal's answer */
    TABLES_REFUSED_STATE = 8,      /* an answer that a finished subgoal lacks, or a join into a
                                      finished one */
    TABLES_REFUSED_DAMAGED = 9,    /* a damaged record was met */
    TABLES_REFUSED_NO_NODE = 10,   /* full: too few nodes left */
    TABLES_REFUSED_NO_RECORD = 11, /* full: no record left for a new subgoal or answer */
    TABLES_REFUSED_OUT = 12,       /* out is too short */
    TABLES_REFUSED_FORM = 13,      /* no compact form of a legal term; tables_expand alone */
    TABLES_REFUSED_SOURCE_OPEN = 14,     /* a source of a join, or a goal of detours, is open */
    TABLES_REFUSED_SOURCE_VARIABLE = 15, /* an answer of a join's source holds a variable */
    TABLES_REFUSED_NAMES = 16,           /* a variable or side that a join names is out of
                                            range, its pairs are over 32, its copies are not
                                            one for each variable of the target, or the cells
                                            of either are odd in number */
    TABLES_REFUSED_SLOTS = 17,           /* an index is to be built whose cells are no power of
                                            two, or fewer than twice the children to enter */
    TABLES_REFUSED_NAME = 18,    /* a functor's name is too large for edition 2 */
    TABLES_REFUSED_CAPACITY = 19, /* a new capacity is too small for what the table holds */
    TABLES_REFUSED_GOALS = 22,   /* the goals of detours are not 1 to 6, or one has other than
                                    two variables, or an answer that is not a diverter (an
                                    atom) and minutes (an integer) */
    TABLES_REFUSED_LISTING = 23, /* there is no list of this edition, size and symbols */
    TABLES_REFUSED_LISTED = 24   /* the term given is not in the list */
};

/* A refusal's number in words, for people: a sentence, also for an unknown number. */
static inline const char *tables_refusal_text(uint32_t refusal)
{
    switch (refusal) {
    case TABLES_REFUSED_HEADER:
        return "The space has no sound header, or is cut short, or no such edition is known.";
    case TABLES_REFUSED_FRESH:
        return "The capacities are out of range or need more cells, or no such edition is known.";
    case TABLES_REFUSED_TERM:
        return "The cells are not exactly the terms that are due.";
    case TABLES_REFUSED_LENGTH:
        return "The terms have more than 256 cells.";
    case TABLES_REFUSED_VARIABLES:
        return "The terms have more than 32 distinct variables.";
    case TABLES_REFUSED_PREDICATE:
        return "The term called begins with neither an atom nor a functor.";
    case TABLES_REFUSED_NUMBER:
        return "There is no such subgoal or answer, or it is another subgoal's answer.";
    case TABLES_REFUSED_STATE:
        return "The subgoal is finished and takes no more answers.";
    case TABLES_REFUSED_DAMAGED:
        return "A record of the space is damaged.";
    case TABLES_REFUSED_NO_NODE:
        return "The table is full: too few nodes are left.";
    case TABLES_REFUSED_NO_RECORD:
        return "The table is full: no record is left for a new subgoal or answer.";
    case TABLES_REFUSED_OUT:
        return "The cells lent for the result are too few.";
    case TABLES_REFUSED_FORM:
        return "The cells are not the compact form of a legal term.";
    case TABLES_REFUSED_SOURCE_OPEN:
        return "A source of the join, or a goal of the detours, is not finished.";
    case TABLES_REFUSED_SOURCE_VARIABLE:
        return "An answer of a source of the join holds a variable.";
    case TABLES_REFUSED_NAMES:
        return "The pairs or copies of the join do not fit its subgoals.";
    case TABLES_REFUSED_SLOTS:
        return "The cells of the index are no power of two, or too few for the table.";
    case TABLES_REFUSED_NAME:
        return "The name of a functor is too large for edition 2.";
    case TABLES_REFUSED_CAPACITY:
        return "A new capacity is too small for what the table holds.";
    case TABLES_REFUSED_GOALS:
        return "The goals of the detours are not 1 to 6, or an answer is not a diverter and minutes.";
    case TABLES_REFUSED_LISTING:
        return "There is no list of terms for this edition, size and symbols.";
    case TABLES_REFUSED_LISTED:
        return "The term is not in the list.";
    default:
        return "There is no refusal of this number.";
    }
}

/*
 * The space
 *
 * A table lives in one array of cells that the caller owns, of any storage:
 * static, on the heap, or mapped from a file. The caller says at the start how
 * many records of each sort it may hold; tables_grow makes room for more later.
 *
 *     static uint32_t space[TABLES_SPACE_CELLS(1000, 50, 100)];
 *     uint64_t word = tables_fresh(space, TABLES_SPACE_CELLS(1000, 50, 100), 1000, 50, 100,
 *                                  TABLES_EDITION_2);
 *
 * A node is needed for each cell of compact form that no other entry of the
 * same trie shares, and one more for each subgoal, and one for the whole table.
 * The space may be longer than needed; the cells past its end are left alone.
 *
 * A table that is full refuses new entries (10, 11) and goes on answering all
 * else. To go on entering, make the array longer and call tables_grow;
 * examples/engine.c does so.
 */
#define TABLES_MOST_RECORDS 1048576 /* of each sort; at least 1 node, and 0 of the others */
#define TABLES_SPACE_CELLS(nodes, subgoals, answers) \
    ((size_t)8 + (size_t)5 * (nodes) + (size_t)6 * (subgoals) + (size_t)3 * (answers))

/*
 * The edition of a space that was made earlier, such as one read from a file: its
 * first cell, or 0 if it has none. Whether the space is sound is not judged.
 */
static inline uint32_t tables_edition(const uint32_t *space, size_t space_cells)
{
    return space_cells == 0 ? 0 : space[0];
}

/*
 * Lending
 *
 * A call is lent the space, its terms and its out as pointer and number of
 * cells, for the time of the call. It keeps no pointer, allocates nothing and
 * touches nothing beside the cells lent. A pointer may be NULL if its number of
 * cells is 0. Space, terms and out must be aligned as uint32_t and must not
 * overlap each other; nothing checks that.
 *
 * Threads: there is no state beside the space. Calls on different spaces may
 * run at once. Calls that only read (the space is const: tables_next,
 * tables_load, tables_instance, tables_counts, tables_why with an index or without,
 * tables_detours, tables_check, tables_build, and tables_carry on its source) may run
 * at once on one space. While a call that writes (tables_fresh, tables_call and
 * tables_answer and tables_join with an index or without, tables_finish, tables_grow,
 * and tables_carry on its target) runs, no other call on the same space may run: the
 * caller serialises them. The lists and the converters have no space: any number of
 * them may run at once, beside any other call.
 *
 * The use of the stack is bounded, whatever is lent: see below.
 */

/*
 * The stack
 *
 * No call uses more bytes of the stack than this, whatever it is lent. Beside each
 * bound stands the most that was measured with the archive's code on x86-64, by
 * tests/stack_test.c, which searches for the worst input and fails above the bound;
 * the bounds leave about a fifth to spare, or more. The worst inputs are lists that
 * begin in lists and do not end: 256 pairs for what reads terms, and marks BLIST for
 * what reads forms and paths.
 *
 * What is measured is all that lies below the caller's frame, in a program that is
 * linked to a shared C library and has called nothing of it before. There tables_fresh
 * and tables_build call memset for the first time, tables_grow memmove, and the two calls
 * that list terms memcpy: the dynamic linker looks it up (lazy binding) and keeps the
 * vector registers on the same stack, which takes some 3,100 bytes with glibc 2.36 on a
 * processor with AVX-512. Once it has been called, or where all is bound at the start,
 * tables_fresh and tables_build use 56 and 104 bytes, and the two that list terms 264 and
 * 2,128. Where the exports stand in a shared object, the first call of each is looked up
 * so too, which takes as much.
 */
enum tables_stack {
    TABLES_STACK_FRESH = 4096,     /* 3,240 */
    TABLES_STACK_CALL = 92160,     /* 56,672; the same bound with an index */
    TABLES_STACK_ANSWER = 92160,   /* 56,608; so too */
    TABLES_STACK_FINISH = 4096,    /* 16 */
    TABLES_STACK_NEXT = 4096,      /* 48 */
    TABLES_STACK_LOAD = 58368,     /* 46,880 */
    TABLES_STACK_INSTANCE = 62464, /* 50,432 */
    TABLES_STACK_COUNTS = 4096,    /* 16 */
    TABLES_STACK_JOIN = 72704,     /* 57,808; so too */
    TABLES_STACK_BUILD = 4096,     /* 3,288 */
    TABLES_STACK_WHY = 92160,      /* 57,248; the same bound with an index */
    TABLES_STACK_DETOURS = 58368,  /* 47,296 */
    TABLES_STACK_CHECK = 58368,    /* 47,088 */
    TABLES_STACK_CARRY = 72704,    /* 49,216 */
    TABLES_STACK_GROW = 4096,      /* 3,384 */
    TABLES_STACK_FIRST_TERM = 4096, /* 3,400 */
    TABLES_STACK_TERM_AFTER = 4096, /* 3,368 */
    TABLES_STACK_COMPACT = 92160,  /* 57,120 */
    TABLES_STACK_EXPAND = 57344    /* 45,824 */
};

/*
 * Damage
 *
 * A space may be copied, stored and read back as cells; numbers in it are places
 * and not addresses. Whatever it holds when it comes back, every call returns,
 * and touches nothing beside the cells lent.
 *
 * Noticed: every call on a space but tables_fresh judges the header (refusal 1), and
 * each record that it reads (9): whether the numbers in it lie within the counts and
 * are above or below it as they must, whether it agrees with the record that led
 * to it, and whether a path that is loaded is the compact form of legal terms.
 *
 * Not noticed: damage in cells that the call does not read; and in a cell that
 * it reads, a wrong number that is in range and breaks no rule. Such a cell is
 * taken as it stands and may change an answer without a refusal. A next answer
 * that has become 0 ends the chain, and tables_next says TABLES_NONE_YET or
 * TABLES_NO_MORE as at the true end; a sibling that has become 0 hides the entries
 * behind it, which then enter as new a second time; another atom in a token is
 * another answer; a state that has become 1 is a finished subgoal; a lower count
 * in the header gives the last records to the next entries.
 *
 * tables_check reads every record: a space that it finds whole holds a table, and
 * from then on every call answers as that table does and is never refused by 1 or
 * 9. So a space that was stored is checked once when it comes back. Another atom
 * in a token, or a state that has become 1, makes another table, which is whole
 * too: a caller who must know that a space is the one that was stored keeps a
 * checksum of its cells beside it.
 *
 * tables_check also refuses what no call writes, even where no call would notice:
 * a link on a node that is no leaf, a root with a token or a sibling, a child below
 * a leaf, a root of answers that is not the node after the leaf of its subgoal, and
 * nodes numbered so that first children lead past a subgoal to a later one. Cells
 * beyond the counts may hold anything.
 */

/*
 * The result word
 *
 * Every call returns one word: what came of it in the upper 32 bits, a value in
 * the lower. A refusal is 256 plus its number.
 *
 *     uint64_t word = tables_call(space, space_cells, term, term_cells);
 *     if (tables_refused_by(word) != 0)
 *         complain(tables_refusal_text(tables_refused_by(word)));
 *     else
 *         subgoal = tables_value(word);
 */
enum tables_outcome {
    TABLES_DONE = 0,          /* value 0 */
    TABLES_NEW = 1,           /* the new subgoal's or answer's number */
    TABLES_OLD = 2,           /* the answer's number */
    TABLES_OLD_OPEN = 3,      /* the subgoal's number */
    TABLES_OLD_FINISHED = 4,  /* the subgoal's number */
    TABLES_AT = 5,            /* the next answer's number */
    TABLES_NONE_YET = 6,      /* value 0; the subgoal is open */
    TABLES_CELLS = 7,         /* the number of cells written to out */
    TABLES_COUNTS = 8,        /* 3, the number of cells written to out */
    TABLES_NO_MORE = 9,       /* value 0; the subgoal is finished */
    TABLES_JOINED = 10,       /* how many answers are new */
    TABLES_BUILT = 11,        /* how many children were entered into the index */
    TABLES_WHY_OLD = 12,      /* the subgoal's number */
    TABLES_WHY_NEW = 13,      /* the lowest subgoal that shares most, 0 for none */
    TABLES_DETOUR = 14,       /* the total of minutes */
    TABLES_NO_DETOUR = 15,    /* value 0 */
    TABLES_END = 16,          /* value 0; the list of terms ends here */
    TABLES_CALL_REFUSED = 256 /* plus the refusal's number; no value, but see tables_need
                                 and tables_broken_kind */
};

static inline uint32_t tables_what(uint64_t word)
{
    return (uint32_t)(word >> 32);
}

/* The refusal's number, or 0 if the call was not refused. */
static inline uint32_t tables_refused_by(uint64_t word)
{
    return tables_what(word) > TABLES_CALL_REFUSED ? tables_what(word) - TABLES_CALL_REFUSED : 0;
}

/*
 * The value of a call that was not refused; 0 for one that was, so that the need which
 * refusal 12 carries is not taken for a value.
 *
 * Beware: 0 is also the value of TABLES_NONE_YET, TABLES_NO_MORE and TABLES_END. A loop that asks
 * tables_next until the value is 0 takes an open subgoal, a finished one and a refusal
 * for the same, and may lose answers. Ask tables_refused_by and tables_what first:
 *
 *     uint64_t word = tables_next(space, space_cells, subgoal, answer);
 *     if (tables_refused_by(word) != 0)
 *         complain(tables_refusal_text(tables_refused_by(word)));
 *     else if (tables_what(word) == TABLES_AT)
 *         answer = tables_value(word);
 *     else if (tables_what(word) == TABLES_NONE_YET)
 *         ask_again_later(subgoal, answer);
 *     else
 *         all_were_read(subgoal);
 */
static inline uint32_t tables_value(uint64_t word)
{
    return tables_what(word) < TABLES_CALL_REFUSED ? (uint32_t)word : 0;
}

/* The cells of out that a call refused by 12 needs; 0 for any other. */
static inline uint32_t tables_need(uint64_t word)
{
    return tables_refused_by(word) == TABLES_REFUSED_OUT ? (uint32_t)word : 0;
}

/*
 * Which record tables_check found broken: its kind, and its number. Both are 0
 * of a word that names none: of every other call's.
 */
enum tables_broken {
    TABLES_BROKEN_NODE = 1, /* numbered from 0 */
    TABLES_BROKEN_SUBGOAL = 2,
    TABLES_BROKEN_ANSWER = 3
};

static inline uint32_t tables_broken_kind(uint64_t word)
{
    return tables_refused_by(word) == TABLES_REFUSED_DAMAGED ? TABLES_KIND(word) : 0;
}

static inline uint32_t tables_broken_number(uint64_t word)
{
    return tables_refused_by(word) == TABLES_REFUSED_DAMAGED ? TABLES_PAYLOAD(word) : 0;
}

/*
 * Makes the cells an empty table of an edition (TABLES_EDITION_1 or
 * TABLES_EDITION_2) with room for so many nodes, subgoals and answers, whatever
 * they held. TABLES_DONE. Refused by 2.
 */
TABLES_MUST_CHECK
uint64_t tables_fresh(uint32_t *space, size_t space_cells, uint32_t nodes, uint32_t subgoals,
                      uint32_t answers, uint32_t edition);

/*
 * Enters a subgoal: one term, which begins with an atom or a functor. Terms that
 * differ only in the names of their variables are the same subgoal. TABLES_NEW,
 * TABLES_OLD_OPEN or TABLES_OLD_FINISHED, each with the subgoal's number;
 * numbers go from 1 in order of entry. Refused by 1, 4, 3, 5, 6, 9, 10, 11.
 */
TABLES_MUST_CHECK
uint64_t tables_call(uint32_t *space, size_t space_cells, const uint32_t *term, size_t term_cells);

/*
 * Enters an answer of a subgoal: a term for each of the subgoal's distinct
 * variables, in order of first meeting, one behind the other, at most 256 cells
 * and 32 distinct variables in all. A variable of one term is the same in the
 * others. TABLES_NEW or TABLES_OLD, with the answer's number; numbers go from 1 in
 * order of entry, through all subgoals. Refused by 1, 7, 9, 4, 3, 5, 9, 8, 10, 11.
 *
 * A finished subgoal says TABLES_OLD of an answer that it holds, as an open one
 * does; one that it lacks is refused by 8, in a full table too.
 *
 * A subgoal without variables is answered by no terms, and has one answer at most:
 * the call in which it is new finishes the subgoal. A second time it is old, which
 * changes nothing: where an earlier version of the store left such a subgoal open
 * with its answer, it stays open.
 */
TABLES_MUST_CHECK
uint64_t tables_answer(uint32_t *space, size_t space_cells, uint32_t subgoal, const uint32_t *terms,
                       size_t terms_cells);

/*
 * Finishes a subgoal: it takes no new answers, and still knows those that it
 * holds. TABLES_DONE, also the second time, and for a subgoal that its answer has
 * finished. Refused by 1, 7, 9.
 */
TABLES_MUST_CHECK
uint64_t tables_finish(uint32_t *space, size_t space_cells, uint32_t subgoal);

/*
 * The first answer of a subgoal after the answer `after`, which must be one of
 * its own; with 0, its first. TABLES_AT with the answer's number. Where there is
 * none: TABLES_NONE_YET while the subgoal is open, since an answer may follow
 * later, and TABLES_NO_MORE once it is finished, after which none follows: the
 * same question has the same answer from then on. How to tell these apart is said at
 * tables_value. Refused by 1, 7, 9.
 */
TABLES_MUST_CHECK
uint64_t tables_next(const uint32_t *space, size_t space_cells, uint32_t subgoal, uint32_t after);

/*
 * Writes the terms of an answer in pair form, one behind the other; a variable's
 * payload is its rank, from 0, by first meeting through all of them.
 * TABLES_CELLS with the number of cells written, 0 for an answer of no terms;
 * out beyond them stays. TABLES_TERM_CELLS cells always suffice. Refused by 1,
 * 7, 9, 12.
 */
TABLES_MUST_CHECK
uint64_t tables_load(const uint32_t *space, size_t space_cells, uint32_t answer, uint32_t *out,
                     size_t out_cells);

/*
 * Writes the subgoal of an answer with each of its variables replaced by the
 * answer's term for it, in pair form; variables are numbered as by tables_load.
 * TABLES_CELLS with the number of cells written; out beyond them stays. Refused
 * by 1, 7, 9, 12. An instance may be longer than a term that is called:
 * TABLES_INSTANCE_CELLS cells always suffice, or ask first with none, and
 * tables_need says how many.
 */
#define TABLES_INSTANCE_CELLS 65281 /* f/255 of one variable, for which 256 cells are put */
TABLES_MUST_CHECK
uint64_t tables_instance(const uint32_t *space, size_t space_cells, uint32_t answer, uint32_t *out,
                         size_t out_cells);

/*
 * Writes the nodes, subgoals and answers used to out[0], out[1] and out[2].
 * TABLES_COUNTS. Refused by 1, 12.
 */
TABLES_MUST_CHECK
uint64_t tables_counts(const uint32_t *space, size_t space_cells, uint32_t *out, size_t out_cells);

/*
 * Why a term is new, or old: what tables_call would find, with the reason, and nothing
 * is entered. The term is one term that begins with an atom or a functor, as for
 * tables_call.
 *
 * TABLES_WHY_OLD with the subgoal's number: the term differs from the one stored in the
 * names of its variables alone. out[0] is the number of its distinct variables, and the
 * cells after it are these variables as the caller wrote them, in order of first meeting:
 * put variable 0 for the first of them, variable 1 for the second, and so on, and the
 * stored term is there.
 *
 * TABLES_WHY_NEW: no subgoal is like it. out[0] is how many leading cells of its stored
 * form (compact form, with its marks) some subgoal shares, and no subgoal shares more; the
 * value is the lowest-numbered subgoal that shares so many. Both are 0 where no subgoal
 * shares any.
 *
 * The other cells of out stay. TABLES_WHY_CELLS cells of out are asked for, whatever is
 * written. A full table says new all the same: there is no 10 or 11. Refused by 1, 4, 3, 5,
 * 6, 9, 12; refused, no cell of out changes, and by 12 tables_need says TABLES_WHY_CELLS.
 *
 * The cost is that of tables_call; for a new term also as many steps as the named
 * subgoal's stored form has cells.
 */
#define TABLES_WHY_CELLS 33 /* a count and 32 variables */
TABLES_MUST_CHECK
uint64_t tables_why(const uint32_t *space, size_t space_cells, const uint32_t *term,
                    size_t term_cells, uint32_t *out, size_t out_cells);

/*
 * Detours: from 1 to 6 belts close together. Each goal is a finished subgoal with two
 * variables, whose answers are a diverter (an atom) and the minutes over it (an integer).
 * One answer is chosen for each goal, no diverter twice, with the least total of minutes.
 *
 * The search goes through the goals in the order given and through the answers of each in
 * the order of the table, the later goal varying first. An answer looked at for a goal is
 * one choice tried; a diverter that an earlier goal has taken counts too, and goes no
 * deeper. At most `budget` choices are tried. A goal may be given twice: it then gets two
 * answers with different diverters.
 *
 * TABLES_DETOUR with the total; of several choices with the least total, the first met.
 * TABLES_NO_DETOUR where none was met. out[0] is the number of choices tried, out[1] is 1
 * if the search ended, that is, no choice was left to try, and 0 if the budget stopped it.
 * After a total, out[2] and on are the answers' numbers in the order of the goals. The
 * other cells of out stay. TABLES_DETOUR_CELLS cells of out are asked for, whatever is
 * written.
 *
 * What a total is worth. If the search ended (out[1] is 1), no other choice is quicker,
 * and TABLES_NO_DETOUR means that there is no way to serve all goals at once. If the
 * budget stopped it (0), there may be a quicker choice: take the least minutes of each
 * goal by itself and add them up; the true least total is not below this sum, so the total
 * found is too high by at most the difference. TABLES_NO_DETOUR then says nothing: ask again
 * with a larger budget. A larger budget never gives a higher total. To search to the end
 * takes at most as many choices as the answers of the first goal, plus these times the
 * answers of the second, and so on: give that number as the budget if you can wait.
 *
 * Refused by 1; by 7 if a goal is no subgoal; by 9; by 14 if a goal is open; by 22 if the
 * goals are not 1 to 6 (goals_cells), a goal has other than two variables, or an answer of
 * another form; by 12, and tables_need says TABLES_DETOUR_CELLS. Each is asked of all
 * goals before the next. Refused, no cell of out changes.
 */
#define TABLES_DETOUR_CELLS 8 /* tried, ended, and six answers */
TABLES_MUST_CHECK
uint64_t tables_detours(const uint32_t *space, size_t space_cells, const uint32_t *goals,
                        size_t goals_cells, uint32_t budget, uint32_t *out, size_t out_cells);

/*
 * Joins two finished subgoals, as a rule body of two goals does: every answer of
 * the first is taken with every answer of the second, in order of the first,
 * then of the second. Where the terms that each pair names are equal, the terms
 * that the copies name are an answer of the target, which must be open. Every
 * such answer enters, or none where the table is too full for all of them. An
 * answer that the target holds already, or that came up before, is old and not
 * counted. A target without variables is finished by the join in which its answer
 * is new, as by tables_answer; the next join into it is refused by 8.
 *
 * pairs   two cells to a pair, at most 32 pairs: a variable of the first and one
 *         of the second, by rank from 0. None at all: every combination matches.
 * copies  two cells to a copy: a side, 0 for the first and 1 for the second, and
 *         a variable of it by rank; one copy for each variable of the target, in
 *         order.
 *
 * pairs_cells and copies_cells are numbers of cells. An odd one is refused by 16, as
 * are a variable or a side out of range, over 32 pairs, and more or fewer copies.
 *
 * A join costs as many comparisons as the first has answers times the second;
 * where the table may be too full for every match as a new answer with nodes of
 * its own, it counts exactly, in one pass more, with a draft in free cells of the
 * space that it sets back. Where those cells are not 0, as after damage, the exact
 * count multiplies the cost by half the matches.
 * First and second may be the same subgoal. TABLES_JOINED with the number of new
 * answers. Refused by 1, 7, 9, 8, 14, 15, 16, 4, 9, 10, 11.
 */
TABLES_MUST_CHECK
uint64_t tables_join(uint32_t *space, size_t space_cells, uint32_t first, uint32_t second,
                     const uint32_t *pairs, size_t pairs_cells, uint32_t target,
                     const uint32_t *copies, size_t copies_cells);

/*
 * The index
 *
 * A search looks through the children of a node one after another, so where one
 * node has thousands, a call or an answer takes time that grows with them. An
 * index is a second array of cells, lent by the caller beside the space, through
 * which a child is found at once.
 *
 * tables_build fills it from a space: the children of every node that has more
 * than 8 of them enter. The calls below that end in _indexed are lent it to read.
 * Nothing but tables_build writes it, so it finds what stood in the table at the
 * build; what was entered later is found as without an index, and is there after
 * the next build. What is new is not made faster: that a term stands nowhere is
 * known only once all children were looked at.
 *
 * When: once a table has grown and is mostly asked, and again when it has doubled.
 * How large: a power of two, at least twice the children that enter. For n nodes
 * used, the power of two from 2 * n on always suffices, and fewer cells often do:
 * tables_build refuses too few by 17 and changes nothing.
 *
 *     uint64_t word = tables_build(space, space_cells, index, 65536);
 *     ...
 *     word = tables_call_indexed(space, space_cells, index, 65536, term, term_cells);
 *
 * An index cannot change what is answered on a table made by calls, or on a space
 * that tables_check finds whole. An entry counts only if the record of the node that
 * it names confirms it, so with an index of another time, of another table, of
 * another length, or of any cells whatever, every call there answers and leaves what
 * it does without one. An index whose cells are no power of two, or that has none, is
 * as none. On a damaged space a call with an index may answer otherwise than without:
 * it may reach a child that the siblings do not lead to, or pass by one that is
 * damaged. It returns, and stays within what is lent, all the same; and a join that
 * is accepted leaves no answer out, there too.
 *
 * What it buys: a child is found in one or two steps where one node has thousands
 * of children, or several have and their tokens are scattered, as atoms mostly are.
 * Where several nodes with near numbers each have a run of integers, their entries
 * lie in one long run of cells, and little is gained. A search takes a cell of the
 * index and a sibling in turn, and ends with whichever is the child first, so that
 * it never takes many more steps than without an index.
 *
 * Index, space and terms must not overlap. An index is read by the calls that are
 * lent it: tables_build may not run on it meanwhile.
 */

/*
 * Fills the index from the space: every cell of it is written. The children enter
 * by number, each in the cell that the 32-bit sum of its parent's number and its
 * token, modulo the cells, names, or in the next free one, around; a free cell is
 * 0. TABLES_BUILT with the number of children entered. Refused by 1, 9, 17; then no
 * cell of the index is changed.
 *
 * Every node is read, and no subgoal or answer. The space is not written. The time
 * grows with the nodes, but where many nodes with near numbers have many children
 * each with small integers, their sums crowd, and it grows with the square of these
 * children: 255 such nodes of 256 children take over a second. On a damaged space it may
 * grow with the square of the nodes.
 */
TABLES_MUST_CHECK
uint64_t tables_build(const uint32_t *space, size_t space_cells, uint32_t *index,
                      size_t index_cells);

/* As tables_call, with an index. */
TABLES_MUST_CHECK
uint64_t tables_call_indexed(uint32_t *space, size_t space_cells, const uint32_t *index,
                             size_t index_cells, const uint32_t *term, size_t term_cells);

/* As tables_answer, with an index. */
TABLES_MUST_CHECK
uint64_t tables_answer_indexed(uint32_t *space, size_t space_cells, const uint32_t *index,
                               size_t index_cells, uint32_t subgoal, const uint32_t *terms,
                               size_t terms_cells);

/* As tables_why, with an index. */
TABLES_MUST_CHECK
uint64_t tables_why_indexed(const uint32_t *space, size_t space_cells, const uint32_t *index,
                            size_t index_cells, const uint32_t *term, size_t term_cells,
                            uint32_t *out, size_t out_cells);

/* As tables_join, with an index, through which the target is searched. */
TABLES_MUST_CHECK
uint64_t tables_join_indexed(uint32_t *space, size_t space_cells, const uint32_t *index,
                             size_t index_cells, uint32_t first, uint32_t second,
                             const uint32_t *pairs, size_t pairs_cells, uint32_t target,
                             const uint32_t *copies, size_t copies_cells);

/*
 * Checks the whole space, whoever wrote it: whether its records are those of some
 * table. TABLES_DONE: they are, and every call on the space answers as that table
 * does. Refused by 1, or by 9 with the record that is broken, which
 * tables_broken_kind and tables_broken_number tell: the first of the nodes, then
 * of the subgoals, then of the answers that is wrong by itself; where none is,
 * the first answer that is missing on its subgoal's chain.
 *
 * Each record is read once, and for each node its siblings before it: the time
 * grows with the square of the children of one node. From each node above a
 * subgoal's leaf the first children are followed down. Where an answer is missing,
 * each answer before it is looked for on its chain too.
 */
TABLES_MUST_CHECK
uint64_t tables_check(const uint32_t *space, size_t space_cells);

/*
 * Other capacities, another edition
 *
 * A table need not be entered again to get more room, or to leave edition 1: each
 * subgoal and each answer keeps its number, its state and its place in the order, so
 * whoever reads answers goes on from the last one that was read.
 *
 *     tables_grow    other capacities, in the same array
 *     tables_carry   from edition 1 into a space of edition 2, with its own capacities
 *
 * An index of the old space is of no use for a carried one; after growing it serves on,
 * since every node keeps its number.
 */

/*
 * Gives the table other capacities, in the same array, which the caller has made long
 * enough before (with realloc, say); space_cells is its length now. Each capacity may be
 * larger or smaller than it was, but not below what is used. Every record keeps its
 * number, in every edition; what was not used is 0 afterwards; cells past the new end
 * stay. TABLES_DONE. Refused by 1; by 2 as tables_fresh is, for the new capacities and the
 * length; by 19 where a capacity is below what is used. Refused, no cell changes.
 *
 * Afterwards a table made by calls, or one that tables_check finds whole, answers every
 * call as before, with the new capacities: only 10 and 11 come later (or earlier, with
 * smaller ones). A damaged space keeps its damage. The time is that of moving the
 * subgoals and answers that are used, and of writing zeros.
 *
 *     uint32_t *longer = realloc(space, TABLES_SPACE_CELLS(2 * n, f, a) * sizeof *space);
 *     if (longer != NULL)
 *         word = tables_grow(space = longer, TABLES_SPACE_CELLS(2 * n, f, a), 2 * n, f, a);
 */
TABLES_MUST_CHECK
uint64_t tables_grow(uint32_t *space, size_t space_cells, uint32_t nodes, uint32_t subgoals,
                     uint32_t answers);

/*
 * Carries a running table over: copies a space of edition 1 into the target, which
 * becomes one of edition 2 with these capacities, whatever it held; cells past its end
 * stay. The source is only read. TABLES_DONE.
 *
 * What a reader keeps: subgoal numbers, answer numbers, states, and the order of
 * answers. What an engine changes: its functor cells, which it makes for edition 2 from
 * then on; a functor keeps its name and its arity. Afterwards every call on the target
 * answers as a table of edition 2 does that holds the same subgoals and answers.
 *
 * Refused, the first that applies, with every cell of the target as it was: by 1 if the
 * source has no sound header, or is of another edition than 1; by 2 as tables_fresh is,
 * for the capacities and the target; by 9 if a subgoal or an answer of the source does
 * not load, or two are alike (two subgoals of one form, or two answers of one subgoal);
 * by 18 if the name of a functor in a subgoal or an answer is 1,048,576 or more; by 19 if
 * a capacity is too small for what is copied.
 *
 * What is asked of the source is that its subgoals and answers load: their records and
 * the paths of their leaves. Chains of answers are not followed, since the numbers give
 * the order; so a source that tables_check refuses may be carried over all the same, and
 * the target is a table that answers as it should. For a source made by calls, or one
 * that tables_check finds whole, the time is about that of the check and of entering the
 * terms again. For any other each subgoal is compared with those before it, and each
 * answer with the subgoal's answers before it: the time grows with their square.
 *
 * Source and target must not overlap.
 */
TABLES_MUST_CHECK
uint64_t tables_carry(const uint32_t *source, size_t source_cells, uint32_t *target,
                      size_t target_cells, uint32_t nodes, uint32_t subgoals, uint32_t answers);

/*
 * Lists of small terms
 *
 * To fill a table beforehand, two calls list every term of exactly `size` cells, 1 to
 * 8, that may be called: those that begin with an atom or a functor, over the symbols
 * given and over variables. One gives the first, the other the one after a given one.
 * Nothing is kept between them, and neither has a space.
 *
 *     uint32_t term[2][TABLES_LISTED_CELLS];
 *     uint64_t word = tables_first_term(symbols, count, size, term[0], size, edition);
 *     for (int i = 0; tables_what(word) == TABLES_CELLS; i = !i) {
 *         enter(term[i], size);
 *         word = tables_term_after(symbols, count, size, term[i], size, term[!i], size, edition);
 *     }
 *     if (tables_what(word) != TABLES_END)
 *         complain(tables_refusal_text(tables_refused_by(word)));
 *
 * Symbols are atoms, integers, functors and the pair, at most 16, none of them twice;
 * [] is an atom. Each must be legal in the edition: a functor's arity is at least 1, the
 * pair's payload is 0. Integers, the pair and variables may stand in any cell but the
 * first. A functor with more arguments than the size leaves room for is legal, and
 * stands in no term. Variables are always at hand and are not given: a variable among
 * the symbols is refused.
 *
 * A size counts cells of pair form. The list of size 1 is of the atoms given. For calls
 * of up to n cells, walk the sizes 1 to n one after another.
 *
 * Order: terms are compared by the first cell in which they differ; symbols come in the
 * order in which they are given, then variables by number. With f/2 and a as symbols the
 * list of size 3 is f(a, a), f(a, X), f(X, a), f(X, X), f(X, Y).
 *
 * No term is missed, each comes once, and no two differ in the names of their variables
 * alone: a variable is either one that the term has already or the next, from 0. So each
 * is a subgoal of its own. Entered by tables_call in a space of the same edition, none is
 * refused by 3, 4, 5 or 6, and in a table that held none of them each is new. Lists grow
 * fast: count a list by walking it before a space is made for it.
 *
 * A call takes a few hundred steps at most, however long the list and wherever in it the
 * term stands; the symbols are judged anew each time. The term given may be any of the
 * list, so that a walk can stop and go on later, or be shared out.
 */
#define TABLES_LISTED_CELLS 8    /* the most cells of a listed term */
#define TABLES_LISTED_SYMBOLS 16 /* the most symbols of a list */

/*
 * Writes the first term of the list. TABLES_CELLS with the number of cells written,
 * which is size; out beyond them stays. TABLES_END with the value 0 where the list is
 * empty, as without symbols: no cell of out is written, and out may have none.
 *
 * Refused, the first that applies, with every cell of out as it was:
 * TABLES_REFUSED_LISTING (23) if the edition is neither 1 nor 2, the size is not 1 to 8,
 * symbols_cells is above 16, or a symbol is of another kind, illegal in the edition or
 * there twice; TABLES_REFUSED_OUT (12) if there is a term and out has fewer cells than
 * size, which is what tables_need then says.
 */
TABLES_MUST_CHECK
uint64_t tables_first_term(const uint32_t *symbols, size_t symbols_cells, size_t size,
                           uint32_t *out, size_t out_cells, uint32_t edition);

/*
 * Writes the term of the list that stands after the term given, which must be one of
 * it. TABLES_CELLS, or TABLES_END after the last, as by tables_first_term.
 *
 * Refused, the first that applies, with every cell of out as it was:
 * TABLES_REFUSED_LISTING (23) as by tables_first_term; TABLES_REFUSED_LISTED (24) if the
 * term is not in the list: its cells are not `size` in number or not exactly one term,
 * it begins with neither an atom nor a functor, its variables are not numbered by first
 * meeting from 0, or it has a symbol that was not given; TABLES_REFUSED_OUT (12) as by
 * tables_first_term, so not after the last. Symbols, term and out must not overlap.
 */
TABLES_MUST_CHECK
uint64_t tables_term_after(const uint32_t *symbols, size_t symbols_cells, size_t size,
                           const uint32_t *term, size_t term_cells, uint32_t *out,
                           size_t out_cells, uint32_t edition);

/*
 * The two converters
 *
 * They stand alone, without a space, so they are told the edition by which a
 * functor is read: TABLES_EDITION_1 or TABLES_EDITION_2. A converter returns the
 * number of cells written, at least 1, or TABLES_CONVERTER_REFUSED plus the
 * refusal's number.
 *
 *     uint32_t result = tables_compact(in, in_bytes, out, out_bytes, TABLES_EDITION_2);
 *     if (tables_converter_refused_by(result) != 0)
 *         complain(tables_refusal_text(tables_converter_refused_by(result)));
 *     else
 *         cells = tables_converter_cells(result);
 */
#define TABLES_CONVERTER_REFUSED UINT32_C(0x80000000)

/* The refusal's number, or 0 if the converter was not refused. */
static inline uint32_t tables_converter_refused_by(uint32_t result)
{
    return result > TABLES_CONVERTER_REFUSED ? result - TABLES_CONVERTER_REFUSED : 0;
}

/* The cells that a converter wrote; 0 if it was refused. */
static inline uint32_t tables_converter_cells(uint32_t result)
{
    return result < TABLES_CONVERTER_REFUSED ? result : 0;
}

/*
 * in      in_bytes bytes, one term; read, never written.
 * out     out_bytes bytes lent for the result. Its last one to three bytes, if
 *         out_bytes is not divisible by 4, do not count as room and stay as
 *         they are. So do all bytes behind the cells written. A refused call
 *         writes nothing at all.
 *
 * Neither pointer needs any alignment. Either may be NULL if its length is 0;
 * with a NULL in the call is refused, since no term is empty. in and out must
 * not overlap.
 *
 * A refusal for room (12) does not say how much is needed: TABLES_COMPACT_CELLS
 * cells always suffice for tables_compact, TABLES_TERM_CELLS cells always
 * suffice for tables_expand.
 *
 * Both keep no state and call nothing outside, so any number of threads may
 * call them at once. They allocate nothing; what they use of the stack is bounded
 * by TABLES_STACK_COMPACT and TABLES_STACK_EXPAND, whatever the input.
 */

/*
 * Writes the compact form of a term given in pair form.
 *
 * Refused, the first that applies: TABLES_REFUSED_HEADER if the edition is
 * neither 1 nor 2; TABLES_REFUSED_TERM if in_bytes is not divisible by 4;
 * TABLES_REFUSED_LENGTH; TABLES_REFUSED_TERM if the cells are not exactly one
 * term (a kind other than 1 to 5, a functor of arity 0, a pair with a payload,
 * cells missing or left over); TABLES_REFUSED_VARIABLES; TABLES_REFUSED_OUT.
 */
TABLES_MUST_CHECK
uint32_t tables_compact(const uint8_t *in, size_t in_bytes, uint8_t *out, size_t out_bytes,
                        uint32_t edition);

/*
 * Writes the pair form of a term given in compact form. Its variables keep
 * their ranks as names. For every term that tables_compact accepts, expanding
 * the result gives the term with its variables so numbered; for every form
 * that tables_expand accepts, compacting the result gives the form again.
 *
 * Refused, the first that applies: TABLES_REFUSED_HEADER if the edition is
 * neither 1 nor 2; TABLES_REFUSED_TERM if in_bytes is not divisible by 4;
 * TABLES_REFUSED_FORM if the cells are not exactly the compact form of one
 * legal term, so also if the term would have more than 256 cells or 32
 * variables, or if its variables are not numbered by first meeting;
 * TABLES_REFUSED_OUT.
 */
TABLES_MUST_CHECK
uint32_t tables_expand(const uint8_t *in, size_t in_bytes, uint8_t *out, size_t out_bytes,
                       uint32_t edition);

#ifdef __cplusplus
}
#endif

#endif
