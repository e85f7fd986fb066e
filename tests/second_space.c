/* What carry_test and grow_test share: see second_space.h. */
#define _DEFAULT_SOURCE

#include "second_space.h"

#include <signal.h>
#include <stdarg.h>
#include <stdio.h>
#include <stdlib.h>
#include <string.h>
#include <sys/mman.h>
#include <unistd.h>

/* Random numbers: splitmix64. */

uint32_t dice_word(struct dice *dice)
{
    uint64_t z = dice->state += UINT64_C(0x9e3779b97f4a7c15);
    z = (z ^ z >> 30) * UINT64_C(0xbf58476d1ce4e5b9);
    z = (z ^ z >> 27) * UINT64_C(0x94d049bb133111eb);
    return (uint32_t)((z ^ z >> 31) >> 16);
}

uint32_t dice_below(struct dice *dice, uint32_t bound)
{
    return bound == 0 ? 0 : dice_word(dice) % bound;
}

uint32_t dice_from(struct dice *dice, uint32_t low, uint32_t high)
{
    return low + dice_below(dice, high - low + 1);
}

bool dice_one_in(struct dice *dice, uint32_t times)
{
    return dice_below(dice, times) == 0;
}

/* Memory. */

void *must_have(void *old, size_t bytes)
{
    void *memory = realloc(old, bytes == 0 ? 1 : bytes);
    if (memory == NULL) {
        fputs("no memory\n", stderr);
        exit(2);
    }
    return memory;
}

uint32_t *cells_copy(const uint32_t *cells, size_t count)
{
    uint32_t *copy = must_have(NULL, count * sizeof *copy);
    if (count != 0)
        memcpy(copy, cells, count * sizeof *copy);
    return copy;
}

void cells_fill_random(struct dice *dice, uint32_t *cells, size_t count)
{
    for (size_t i = 0; i < count; i++)
        cells[i] = dice_word(dice);
}

size_t cells_differ(const uint32_t *left, const uint32_t *right, size_t count)
{
    size_t i = 0;
    if (count != 0 && memcmp(left, right, count * sizeof *left) == 0)
        return count;
    while (i < count && left[i] == right[i])
        i++;
    return i;
}

/* Lent arrays. */

static void guard_touched(int signal_number)
{
    static const char text[] = "FAILED: memory was touched beside the cells lent\n";
    (void)signal_number;
    if (write(STDERR_FILENO, text, sizeof text - 1) < 0)
        _exit(2);
    _exit(1);
}

void guards_on(void)
{
    struct sigaction action;
    memset(&action, 0, sizeof action);
    action.sa_handler = guard_touched;
    if (sigaction(SIGSEGV, &action, NULL) != 0 || sigaction(SIGBUS, &action, NULL) != 0) {
        perror("sigaction");
        exit(2);
    }
}

static uint32_t mark(size_t place)
{
    return UINT32_C(0xc3a5965a) + (uint32_t)place;
}

static void protect(unsigned char *start, size_t bytes, int rights)
{
    if (mprotect(start, bytes, rights) != 0) {
        perror("mprotect");
        exit(2);
    }
}

/* Maps that came back and are lent again, since mapping anew takes most of the time. */
#define SPARE_MAPS 24
#define SPARE_BYTES ((size_t)1 << 20)

static struct {
    unsigned char *map;
    size_t bytes;
} spare[SPARE_MAPS];

/* So many bytes between two pages that may not be touched, which are counted too. */
static unsigned char *map_guarded(size_t bytes, size_t page)
{
    for (size_t i = 0; i < SPARE_MAPS; i++)
        if (spare[i].map != NULL && spare[i].bytes == bytes) {
            unsigned char *map = spare[i].map;
            spare[i].map = NULL;
            return map;
        }
    void *map = mmap(NULL, bytes, PROT_NONE, MAP_PRIVATE | MAP_ANONYMOUS, -1, 0);
    if (map == MAP_FAILED) {
        perror("mmap");
        exit(2);
    }
    protect((unsigned char *)map + page, bytes - 2 * page, PROT_READ | PROT_WRITE);
    return map;
}

static void map_drop(unsigned char *map, size_t bytes)
{
    if (munmap(map, bytes) != 0) {
        perror("munmap");
        exit(2);
    }
}

struct lent lend(const uint32_t *cells, size_t count, enum guard guard)
{
    struct lent lent;
    size_t page = (size_t)sysconf(_SC_PAGESIZE);
    size_t bytes = (count * sizeof *cells + page) / page * page;
    lent.map_bytes = bytes + 2 * page;
    lent.map = map_guarded(lent.map_bytes, page);

    uint32_t *start = (uint32_t *)(void *)(lent.map + page);
    lent.count = count;
    lent.mark_count = bytes / sizeof *start - count;
    lent.cells = guard == GUARD_BEHIND ? start + lent.mark_count : start;
    lent.marks = guard == GUARD_BEHIND ? start : start + count;
    for (size_t i = 0; i < lent.mark_count; i++)
        lent.marks[i] = mark(i);
    if (count != 0)
        memcpy(lent.cells, cells, count * sizeof *cells);
    return lent;
}

void lent_read_only(struct lent *lent, bool read_only)
{
    size_t page = (size_t)sysconf(_SC_PAGESIZE);
    protect(lent->map + page, lent->map_bytes - 2 * page,
            read_only ? PROT_READ : PROT_READ | PROT_WRITE);
}

bool lent_marks_stand(const struct lent *lent)
{
    for (size_t i = 0; i < lent->mark_count; i++)
        if (lent->marks[i] != mark(i))
            return false;
    return true;
}

void lent_back(struct lent *lent)
{
    static size_t turn;
    lent->cells = NULL;
    if (lent->map_bytes > SPARE_BYTES) {
        map_drop(lent->map, lent->map_bytes);
        return;
    }
    turn = (turn + 1) % SPARE_MAPS;
    if (spare[turn].map != NULL)
        map_drop(spare[turn].map, spare[turn].bytes);
    spare[turn].map = lent->map;
    spare[turn].bytes = lent->map_bytes;
}

/* The header and the places of records. */

/* Whether the block from start to stop holds whole records, from low to the most. */
static bool capacity_read(uint32_t start, uint32_t stop, uint32_t record, uint32_t low,
                          uint32_t *capacity)
{
    if (stop < start || (stop - start) % record != 0)
        return false;
    *capacity = (stop - start) / record;
    return *capacity >= low && *capacity <= TABLES_MOST_RECORDS;
}

bool header_read(const uint32_t *cells, size_t count, struct header *header)
{
    if (count < SPACE_HEADER_CELLS)
        return false;
    header->edition = cells[SPACE_EDITION];
    header->nodes = cells[SPACE_NODES];
    header->subgoals = cells[SPACE_SUBGOALS];
    header->answers = cells[SPACE_ANSWERS];
    header->end = cells[SPACE_END];
    return (header->edition == 1 || header->edition == 2) && cells[SPACE_NODE_OFFSET] == 8 &&
           capacity_read(cells[SPACE_NODE_OFFSET], cells[SPACE_SUBGOAL_OFFSET], NODE_CELLS, 1,
                         &header->most_nodes) &&
           capacity_read(cells[SPACE_SUBGOAL_OFFSET], cells[SPACE_ANSWER_OFFSET], SUBGOAL_CELLS,
                         0, &header->most_subgoals) &&
           capacity_read(cells[SPACE_ANSWER_OFFSET], cells[SPACE_END], ANSWER_CELLS, 0,
                         &header->most_answers) &&
           header->end <= count && header->nodes >= 1 && header->nodes <= header->most_nodes &&
           header->subgoals <= header->most_subgoals && header->answers <= header->most_answers;
}

bool fresh_refused(size_t count, uint32_t nodes, uint32_t subgoals, uint32_t answers)
{
    if (nodes < 1 || nodes > TABLES_MOST_RECORDS || subgoals > TABLES_MOST_RECORDS ||
        answers > TABLES_MOST_RECORDS)
        return true;
    return (uint64_t)8 + (uint64_t)5 * nodes + (uint64_t)6 * subgoals + (uint64_t)3 * answers >
           count;
}

uint32_t *node_cells(uint32_t *cells, uint32_t node)
{
    return cells + SPACE_HEADER_CELLS + (size_t)NODE_CELLS * node;
}

uint32_t *subgoal_cells(uint32_t *cells, uint32_t subgoal)
{
    return cells + cells[SPACE_SUBGOAL_OFFSET] + (size_t)SUBGOAL_CELLS * (subgoal - 1);
}

uint32_t *answer_cells(uint32_t *cells, uint32_t answer)
{
    return cells + cells[SPACE_ANSWER_OFFSET] + (size_t)ANSWER_CELLS * (answer - 1);
}

/* Terms and forms. */

static uint32_t cell_arity(uint32_t cell, uint32_t edition)
{
    if (TABLES_KIND(cell) == TABLES_PAIR)
        return 2;
    if (TABLES_KIND(cell) != TABLES_FUNCTOR)
        return 0;
    return TABLES_PAYLOAD(cell) % (edition == 1 ? 16 : 256);
}

/* Whether the cell may stand in a term in pair form. */
static bool cell_legal(uint32_t cell, uint32_t edition)
{
    switch (TABLES_KIND(cell)) {
    case TABLES_VARIABLE:
    case TABLES_ATOM:
    case TABLES_INTEGER:
        return true;
    case TABLES_FUNCTOR:
        return cell_arity(cell, edition) != 0;
    case TABLES_PAIR:
        return TABLES_PAYLOAD(cell) == 0;
    default:
        return false;
    }
}

/* The rank of a variable among those met, which it joins; counts beyond 256 never come. */
static uint32_t rank_of(uint32_t cell, uint32_t *met, uint32_t *met_count)
{
    for (uint32_t i = 0; i < *met_count; i++)
        if (met[i] == cell)
            return i;
    met[*met_count] = cell;
    return (*met_count)++;
}

uint32_t term_refused_by(const uint32_t *cells, size_t count, uint32_t terms, uint32_t edition,
                         uint32_t *variables)
{
    uint32_t met[TABLES_TERM_CELLS];
    uint64_t due = terms;
    *variables = 0;
    if (count > TABLES_TERM_CELLS)
        return TABLES_REFUSED_LENGTH;
    for (size_t i = 0; i < count; i++) {
        if (due == 0 || !cell_legal(cells[i], edition))
            return TABLES_REFUSED_TERM;
        due += cell_arity(cells[i], edition);
        due--;
        if (TABLES_KIND(cells[i]) == TABLES_VARIABLE)
            rank_of(cells[i], met, variables);
    }
    if (due != 0)
        return TABLES_REFUSED_TERM;
    return *variables > TABLES_TERM_VARIABLES ? TABLES_REFUSED_VARIABLES : 0;
}

size_t term_length(const uint32_t *cells, uint32_t edition)
{
    size_t length = 0;
    for (uint64_t due = 1; due != 0; length++)
        due = due + cell_arity(cells[length], edition) - 1;
    return length;
}

struct writer {
    uint32_t edition;
    uint32_t *out;
    size_t count;
    uint32_t met[TABLES_TERM_CELLS];
    uint32_t met_count;
};

static void emit(struct writer *writer, uint32_t cell)
{
    writer->out[writer->count++] = cell;
}

static const uint32_t *compact_term(struct writer *writer, const uint32_t *cells);

/* Writes the list that begins with this pair; returns what stands after it. */
static const uint32_t *compact_list(struct writer *writer, const uint32_t *pair)
{
    emit(writer, TABLES_CELL(TABLES_BLIST, 0));
    for (;;) {
        const uint32_t *element = pair + 1;
        const uint32_t *tail = element + term_length(element, writer->edition);
        if (*tail == TABLES_EMPTY_LIST) {
            emit(writer, TABLES_CELL(TABLES_ELIST, 0));
            compact_term(writer, element);
            return tail + 1;
        }
        compact_term(writer, element);
        if (TABLES_KIND(*tail) != TABLES_PAIR) {
            emit(writer, TABLES_CELL(TABLES_EPAIR, 0));
            return compact_term(writer, tail);
        }
        pair = tail;
    }
}

static const uint32_t *compact_term(struct writer *writer, const uint32_t *cells)
{
    uint32_t cell = *cells;
    if (TABLES_KIND(cell) == TABLES_PAIR)
        return compact_list(writer, cells);
    if (TABLES_KIND(cell) == TABLES_VARIABLE)
        cell = tables_cell(TABLES_VARIABLE, rank_of(cell, writer->met, &writer->met_count));
    emit(writer, cell);
    cells++;
    for (uint32_t due = cell_arity(cell, writer->edition); due != 0; due--)
        cells = compact_term(writer, cells);
    return cells;
}

size_t form_compact(const uint32_t *cells, uint32_t terms, uint32_t edition, uint32_t *form)
{
    struct writer writer = {.edition = edition, .out = form};
    while (terms-- != 0)
        cells = compact_term(&writer, cells);
    return writer.count;
}

static const uint32_t *expand_term(struct writer *writer, const uint32_t *form)
{
    uint32_t token = *form++;
    if (TABLES_KIND(token) != TABLES_BLIST) {
        emit(writer, token);
        for (uint32_t due = cell_arity(token, writer->edition); due != 0; due--)
            form = expand_term(writer, form);
        return form;
    }
    for (;;) {
        if (TABLES_KIND(*form) == TABLES_EPAIR)
            return expand_term(writer, form + 1);
        emit(writer, TABLES_PAIR_CELL);
        if (TABLES_KIND(*form) == TABLES_ELIST) {
            form = expand_term(writer, form + 1);
            emit(writer, TABLES_EMPTY_LIST);
            return form;
        }
        form = expand_term(writer, form);
    }
}

size_t form_expand(const uint32_t *form, uint32_t terms, uint32_t edition, uint32_t *cells)
{
    struct writer writer = {.edition = edition, .out = cells};
    while (terms-- != 0)
        form = expand_term(&writer, form);
    return writer.count;
}

struct judge {
    uint32_t edition;
    const uint32_t *form;
    size_t count, place;
    size_t cells; /* of pair form, so far */
    uint32_t variables;
};

static bool judge_term(struct judge *judge);

static bool judge_next_is(const struct judge *judge, uint32_t token)
{
    return judge->place < judge->count && judge->form[judge->place] == token;
}

/* The tail after EPAIR: a term that is neither [] nor a list. */
static bool judge_tail(struct judge *judge)
{
    if (judge_next_is(judge, TABLES_EMPTY_LIST) ||
        judge_next_is(judge, TABLES_CELL(TABLES_BLIST, 0)))
        return false;
    return judge_term(judge);
}

/* A list whose BLIST has been read. */
static bool judge_list(struct judge *judge)
{
    for (size_t elements = 0;; elements++) {
        if (elements != 0 && judge_next_is(judge, TABLES_CELL(TABLES_EPAIR, 0))) {
            judge->place++;
            return judge_tail(judge);
        }
        judge->cells++;
        if (judge_next_is(judge, TABLES_CELL(TABLES_ELIST, 0))) {
            judge->place++;
            judge->cells++;
            return judge_term(judge);
        }
        if (!judge_term(judge))
            return false;
    }
}

static bool judge_variable(struct judge *judge, uint32_t rank)
{
    if (rank > judge->variables || rank >= TABLES_TERM_VARIABLES)
        return false;
    if (rank == judge->variables)
        judge->variables++;
    return true;
}

static bool judge_term(struct judge *judge)
{
    if (judge->place >= judge->count)
        return false;
    uint32_t token = judge->form[judge->place++];
    if (token == TABLES_CELL(TABLES_BLIST, 0))
        return judge_list(judge);
    if (TABLES_KIND(token) == TABLES_PAIR || !cell_legal(token, judge->edition))
        return false;
    judge->cells++;
    if (TABLES_KIND(token) == TABLES_VARIABLE)
        return judge_variable(judge, TABLES_PAYLOAD(token));
    for (uint32_t due = cell_arity(token, judge->edition); due != 0; due--)
        if (!judge_term(judge))
            return false;
    return true;
}

bool form_legal(const uint32_t *form, size_t count, uint32_t terms, uint32_t edition,
                uint32_t *variables)
{
    struct judge judge = {.edition = edition, .form = form, .count = count};
    while (terms-- != 0)
        if (!judge_term(&judge))
            return false;
    *variables = judge.variables;
    return judge.place == count && judge.cells <= TABLES_TERM_CELLS;
}

bool cell_name_too_large(uint32_t cell)
{
    return TABLES_KIND(cell) == TABLES_FUNCTOR && TABLES_PAYLOAD(cell) / 16 >= 1048576;
}

uint32_t cell_carried(uint32_t cell)
{
    if (TABLES_KIND(cell) != TABLES_FUNCTOR)
        return cell;
    return UINT32_C(0x40000000) + TABLES_PAYLOAD(cell) / 16 * 256 + TABLES_PAYLOAD(cell) % 16;
}

/* The plain table: entering. */

static uint32_t add_node(struct table *table, uint32_t token, uint32_t parent)
{
    if (table->node_count == table->node_room) {
        table->node_room = 2 * table->node_room + 16;
        table->nodes = must_have(table->nodes, table->node_room * sizeof *table->nodes);
    }
    table->nodes[table->node_count] = (struct node){.token = token, .parent = parent};
    return table->node_count++;
}

static uint32_t add_subgoal(struct table *table, struct subgoal subgoal)
{
    if (table->subgoal_count == table->subgoal_room) {
        table->subgoal_room = 2 * table->subgoal_room + 16;
        table->subgoals =
            must_have(table->subgoals, table->subgoal_room * sizeof *table->subgoals);
    }
    table->subgoals[table->subgoal_count++] = subgoal;
    return table->subgoal_count;
}

static uint32_t add_answer(struct table *table, struct answer answer)
{
    if (table->answer_count == table->answer_room) {
        table->answer_room = 2 * table->answer_room + 16;
        table->answers = must_have(table->answers, table->answer_room * sizeof *table->answers);
    }
    table->answers[table->answer_count++] = answer;
    return table->answer_count;
}

void table_fresh(struct table *table, uint32_t nodes, uint32_t subgoals, uint32_t answers,
                 uint32_t edition)
{
    *table = (struct table){.edition = edition,
                            .most_nodes = nodes,
                            .most_subgoals = subgoals,
                            .most_answers = answers};
    add_node(table, 0, 0);
}

void table_free(struct table *table)
{
    free(table->nodes);
    free(table->subgoals);
    free(table->answers);
    *table = (struct table){0};
}

static void *copied(const void *from, size_t bytes)
{
    void *copy = must_have(NULL, bytes);
    if (bytes != 0)
        memcpy(copy, from, bytes);
    return copy;
}

struct table table_copy(const struct table *table)
{
    struct table copy = *table;
    copy.nodes = copied(table->nodes, table->node_count * sizeof *table->nodes);
    copy.subgoals = copied(table->subgoals, table->subgoal_count * sizeof *table->subgoals);
    copy.answers = copied(table->answers, table->answer_count * sizeof *table->answers);
    copy.node_room = copy.node_count;
    copy.subgoal_room = copy.subgoal_count;
    copy.answer_room = copy.answer_count;
    return copy;
}

/* Follows the form down from a node as far as it goes; returns how many tokens were found. */
static size_t follow(const struct table *table, uint32_t *node, const uint32_t *form, size_t count)
{
    size_t found = 0;
    for (; found < count; found++) {
        uint32_t child = table->nodes[*node].child;
        while (child != 0 && table->nodes[child].token != form[found])
            child = table->nodes[child].sibling;
        if (child == 0)
            break;
        *node = child;
    }
    return found;
}

/* A new child goes after the last sibling. */
static uint32_t add_child(struct table *table, uint32_t parent, uint32_t token)
{
    uint32_t child = add_node(table, token, parent);
    uint32_t *place = &table->nodes[parent].child;
    while (*place != 0)
        place = &table->nodes[*place].sibling;
    *place = child;
    return child;
}

static uint32_t add_path(struct table *table, uint32_t node, const uint32_t *form, size_t count)
{
    for (size_t i = 0; i < count; i++)
        node = add_child(table, node, form[i]);
    return node;
}

bool table_put_subgoal(struct table *table, const uint32_t *form, size_t count,
                       uint32_t variables)
{
    uint32_t leaf = 0;
    size_t found = follow(table, &leaf, form, count);
    if (found == count)
        return false;
    leaf = add_path(table, leaf, form + found, count - found);
    uint32_t root = add_node(table, 0, leaf + 1);
    struct subgoal subgoal = {.leaf = leaf, .root = root, .variables = variables};
    table->nodes[leaf].link = add_subgoal(table, subgoal);
    return true;
}

bool table_put_answer(struct table *table, uint32_t subgoal, const uint32_t *form, size_t count)
{
    struct subgoal *owner = &table->subgoals[subgoal - 1];
    uint32_t leaf = owner->root;
    size_t found = follow(table, &leaf, form, count);
    if (found == count && table->nodes[leaf].link != 0)
        return false;
    leaf = add_path(table, leaf, form + found, count - found);
    uint32_t number = add_answer(table, (struct answer){.leaf = leaf, .subgoal = subgoal});
    table->nodes[leaf].link = number;
    if (owner->last == 0)
        owner->first = number;
    else
        table->answers[owner->last - 1].next = number;
    owner->last = number;
    return true;
}

size_t table_form(const struct table *table, uint32_t leaf, uint32_t *form)
{
    size_t count = 0, place;
    for (uint32_t node = leaf; table->nodes[node].parent != node; node = table->nodes[node].parent)
        count++;
    place = count;
    for (uint32_t node = leaf; place != 0; node = table->nodes[node].parent)
        form[--place] = table->nodes[node].token;
    return count;
}

/* The plain table: its cells. */

size_t table_end(const struct table *table)
{
    return TABLES_SPACE_CELLS(table->most_nodes, table->most_subgoals, table->most_answers);
}

static void write_header(const struct table *table, uint32_t *cells)
{
    cells[SPACE_EDITION] = table->edition;
    cells[SPACE_NODES] = table->node_count;
    cells[SPACE_SUBGOALS] = table->subgoal_count;
    cells[SPACE_ANSWERS] = table->answer_count;
    cells[SPACE_NODE_OFFSET] = SPACE_HEADER_CELLS;
    cells[SPACE_SUBGOAL_OFFSET] = 8 + 5 * table->most_nodes;
    cells[SPACE_ANSWER_OFFSET] = 8 + 5 * table->most_nodes + 6 * table->most_subgoals;
    cells[SPACE_END] = (uint32_t)table_end(table);
}

void table_write(const struct table *table, uint32_t *cells)
{
    memset(cells, 0, table_end(table) * sizeof *cells);
    write_header(table, cells);
    for (uint32_t i = 0; i < table->node_count; i++) {
        const struct node *node = &table->nodes[i];
        uint32_t *at = node_cells(cells, i);
        at[NODE_TOKEN] = node->token;
        at[NODE_CHILD] = node->child;
        at[NODE_SIBLING] = node->sibling;
        at[NODE_PARENT] = node->parent;
        at[NODE_LINK] = node->link;
    }
    for (uint32_t i = 0; i < table->subgoal_count; i++) {
        const struct subgoal *subgoal = &table->subgoals[i];
        uint32_t *at = subgoal_cells(cells, i + 1);
        at[SUBGOAL_LEAF] = subgoal->leaf;
        at[SUBGOAL_ROOT] = subgoal->root;
        at[SUBGOAL_VARIABLES] = subgoal->variables;
        at[SUBGOAL_STATE] = subgoal->state;
        at[SUBGOAL_FIRST] = subgoal->first;
        at[SUBGOAL_LAST] = subgoal->last;
    }
    for (uint32_t i = 0; i < table->answer_count; i++) {
        uint32_t *at = answer_cells(cells, i + 1);
        at[ANSWER_LEAF] = table->answers[i].leaf;
        at[ANSWER_SUBGOAL] = table->answers[i].subgoal;
        at[ANSWER_NEXT] = table->answers[i].next;
    }
}

/* The plain table: the calls. */

static uint64_t result_word(uint32_t what, uint32_t value)
{
    return (uint64_t)what << 32 | value;
}

uint64_t refusal_word(uint32_t refusal)
{
    return result_word(TABLES_CALL_REFUSED + refusal, 0);
}

static bool nodes_lack(const struct table *table, size_t due)
{
    return table->node_count + due > table->most_nodes;
}

uint64_t table_call(struct table *table, const uint32_t *term, size_t count)
{
    uint32_t form[FORM_ROOM], variables, leaf = 0;
    uint32_t refusal = term_refused_by(term, count, 1, table->edition, &variables);
    if (refusal != 0)
        return refusal_word(refusal);
    if (TABLES_KIND(term[0]) != TABLES_ATOM && TABLES_KIND(term[0]) != TABLES_FUNCTOR)
        return refusal_word(TABLES_REFUSED_PREDICATE);
    size_t length = form_compact(term, 1, table->edition, form);
    size_t found = follow(table, &leaf, form, length);
    if (found == length) {
        uint32_t number = table->nodes[leaf].link;
        bool finished = table->subgoals[number - 1].state == 1;
        return result_word(finished ? TABLES_OLD_FINISHED : TABLES_OLD_OPEN, number);
    }
    if (nodes_lack(table, length - found + 1))
        return refusal_word(TABLES_REFUSED_NO_NODE);
    if (table->subgoal_count >= table->most_subgoals)
        return refusal_word(TABLES_REFUSED_NO_RECORD);
    table_put_subgoal(table, form, length, variables);
    return result_word(TABLES_NEW, table->subgoal_count);
}

uint64_t table_answer(struct table *table, uint32_t subgoal, const uint32_t *terms, size_t count)
{
    if (subgoal == 0 || subgoal > table->subgoal_count)
        return refusal_word(TABLES_REFUSED_NUMBER);
    struct subgoal *owner = &table->subgoals[subgoal - 1];
    uint32_t form[FORM_ROOM], variables, leaf = owner->root;
    uint32_t refusal =
        term_refused_by(terms, count, owner->variables, table->edition, &variables);
    if (refusal != 0)
        return refusal_word(refusal);
    size_t length = form_compact(terms, owner->variables, table->edition, form);
    size_t found = follow(table, &leaf, form, length);
    if (found == length && table->nodes[leaf].link != 0)
        return result_word(TABLES_OLD, table->nodes[leaf].link);
    if (owner->state == 1)
        return refusal_word(TABLES_REFUSED_STATE);
    if (nodes_lack(table, length - found))
        return refusal_word(TABLES_REFUSED_NO_NODE);
    if (table->answer_count >= table->most_answers)
        return refusal_word(TABLES_REFUSED_NO_RECORD);
    table_put_answer(table, subgoal, form, length);
    if (owner->variables == 0)
        owner->state = 1;
    return result_word(TABLES_NEW, table->answer_count);
}

uint64_t table_finish(struct table *table, uint32_t subgoal)
{
    if (subgoal == 0 || subgoal > table->subgoal_count)
        return refusal_word(TABLES_REFUSED_NUMBER);
    table->subgoals[subgoal - 1].state = 1;
    return result_word(TABLES_DONE, 0);
}

uint64_t table_next(const struct table *table, uint32_t subgoal, uint32_t after)
{
    if (subgoal == 0 || subgoal > table->subgoal_count || after > table->answer_count)
        return refusal_word(TABLES_REFUSED_NUMBER);
    if (after != 0 && table->answers[after - 1].subgoal != subgoal)
        return refusal_word(TABLES_REFUSED_NUMBER);
    for (uint32_t a = after + 1; a <= table->answer_count; a++)
        if (table->answers[a - 1].subgoal == subgoal)
            return result_word(TABLES_AT, a);
    bool finished = table->subgoals[subgoal - 1].state == 1;
    return result_word(finished ? TABLES_NO_MORE : TABLES_NONE_YET, 0);
}

static uint64_t hand_out(const uint32_t *cells, size_t count, uint32_t *out, size_t room)
{
    if (count > room)
        return result_word(TABLES_CALL_REFUSED + TABLES_REFUSED_OUT, (uint32_t)count);
    if (count != 0)
        memcpy(out, cells, count * sizeof *out);
    return result_word(TABLES_CELLS, (uint32_t)count);
}

/* The terms of an answer in pair form. */
static size_t answer_terms(const struct table *table, uint32_t answer, uint32_t *terms)
{
    const struct answer *record = &table->answers[answer - 1];
    uint32_t form[FORM_ROOM];
    table_form(table, record->leaf, form);
    return form_expand(form, table->subgoals[record->subgoal - 1].variables, table->edition,
                       terms);
}

uint64_t table_load(const struct table *table, uint32_t answer, uint32_t *out, size_t room)
{
    uint32_t terms[TABLES_TERM_CELLS];
    if (answer == 0 || answer > table->answer_count)
        return refusal_word(TABLES_REFUSED_NUMBER);
    return hand_out(terms, answer_terms(table, answer, terms), out, room);
}

/* The subgoal's cells with each variable replaced by its term. */
static size_t put_instance(const uint32_t *goal, size_t goal_count, const uint32_t *terms,
                           uint32_t edition, uint32_t *out)
{
    size_t count = 0;
    for (size_t i = 0; i < goal_count; i++) {
        const uint32_t *from = &goal[i];
        size_t length = 1;
        if (TABLES_KIND(goal[i]) == TABLES_VARIABLE) {
            from = terms;
            for (uint32_t skip = TABLES_PAYLOAD(goal[i]); skip != 0; skip--)
                from += term_length(from, edition);
            length = term_length(from, edition);
        }
        memcpy(out + count, from, length * sizeof *out);
        count += length;
    }
    return count;
}

uint64_t table_instance(const struct table *table, uint32_t answer, uint32_t *out, size_t room)
{
    static uint32_t instance[TABLES_TERM_CELLS * TABLES_TERM_CELLS];
    uint32_t form[FORM_ROOM], goal[TABLES_TERM_CELLS], terms[TABLES_TERM_CELLS];
    if (answer == 0 || answer > table->answer_count)
        return refusal_word(TABLES_REFUSED_NUMBER);
    uint32_t subgoal = table->answers[answer - 1].subgoal;
    answer_terms(table, answer, terms);
    table_form(table, table->subgoals[subgoal - 1].leaf, form);
    size_t goal_count = form_expand(form, 1, table->edition, goal);
    size_t count = put_instance(goal, goal_count, terms, table->edition, instance);
    return hand_out(instance, count, out, room);
}

uint64_t table_counts(const struct table *table, uint32_t *out, size_t room)
{
    if (room < 3)
        return result_word(TABLES_CALL_REFUSED + TABLES_REFUSED_OUT, 3);
    out[0] = table->node_count;
    out[1] = table->subgoal_count;
    out[2] = table->answer_count;
    return result_word(TABLES_COUNTS, 3);
}

/* Random terms. */

struct taste taste_random(struct dice *dice, uint32_t edition)
{
    struct taste taste = {.edition = edition};
    taste.atoms = dice_from(dice, 2, dice_one_in(dice, 3) ? 40 : 5);
    taste.predicates = dice_from(dice, 2, 9);
    taste.most_cells = dice_one_in(dice, 8) ? 256 : dice_from(dice, 3, 20);
    taste.bad_terms = true;
    return taste;
}

static uint32_t random_name(struct dice *dice, const struct taste *taste, uint32_t index)
{
    static const uint32_t large[] = {1048576, 1048577, 2097151, 16777215};
    if (taste->large_names && dice_one_in(dice, 6))
        return large[dice_below(dice, 4)];
    return index % 2 == 0 ? index : 1048575 - index / 2;
}

/* A functor with at most `most` arguments, one at least. */
static uint32_t random_functor(struct dice *dice, const struct taste *taste, uint32_t most)
{
    uint32_t index = dice_below(dice, taste->predicates);
    uint32_t arity = 1 + index % 3;
    if (dice_one_in(dice, 12))
        arity = dice_from(dice, 1, taste->edition == 1 ? 15 : 40);
    arity = arity > most ? most : arity;
    return tables_functor_cell(taste->edition, random_name(dice, taste, index), arity);
}

static uint32_t random_leaf(struct dice *dice, const struct taste *taste)
{
    uint32_t pick = dice_below(dice, 8);
    uint32_t payload = dice_below(dice, taste->atoms);
    if (dice_one_in(dice, 40))
        payload = TABLES_MOST_PAYLOAD - payload;
    if (pick < 3)
        return tables_cell(TABLES_VARIABLE, dice_one_in(dice, 10) ? payload : payload % 4);
    return tables_cell(pick < 6 ? TABLES_ATOM : TABLES_INTEGER, payload);
}

static size_t random_term(struct dice *dice, const struct taste *taste, uint32_t *out,
                          size_t room);

/* Elements and, mostly, [] after them; room for three cells at least. */
static size_t random_list(struct dice *dice, const struct taste *taste, uint32_t *out, size_t room)
{
    size_t count = 0;
    do {
        out[count++] = TABLES_PAIR_CELL;
        count += random_term(dice, taste, out + count, dice_one_in(dice, 3) ? room - count - 1 : 1);
    } while (room - count >= 3 && !dice_one_in(dice, 3));
    if (dice_one_in(dice, 3))
        return count + random_term(dice, taste, out + count, room - count);
    out[count] = TABLES_EMPTY_LIST;
    return count + 1;
}

static size_t random_arguments(struct dice *dice, const struct taste *taste, uint32_t functor,
                               uint32_t *out, size_t room)
{
    size_t count = 0;
    for (uint32_t due = cell_arity(functor, taste->edition); due != 0; due--) {
        size_t most = room - count - (due - 1);
        most = most > 1 && !dice_one_in(dice, 4) ? 1 + dice_below(dice, 3) % most : most;
        count += random_term(dice, taste, out + count, most);
    }
    return count;
}

static size_t random_compound(struct dice *dice, const struct taste *taste, uint32_t *out,
                              size_t room)
{
    out[0] = random_functor(dice, taste, (uint32_t)(room - 1));
    return 1 + random_arguments(dice, taste, out[0], out + 1, room - 1);
}

static size_t random_term(struct dice *dice, const struct taste *taste, uint32_t *out, size_t room)
{
    uint32_t pick = dice_below(dice, 6);
    if (pick == 0 && room >= 3)
        return random_list(dice, taste, out, room);
    if (pick <= 2 && room >= 2)
        return random_compound(dice, taste, out, room);
    out[0] = random_leaf(dice, taste);
    return 1;
}

/* A term of exactly 256 cells whose form is as long as a form may be. */
static size_t longest_term(uint32_t edition, uint32_t *out)
{
    size_t count = 0;
    out[count++] = TABLES_FUNCTOR_CELL(edition, 3, 1);
    for (uint32_t i = 0; i < 127; i++)
        out[count++] = TABLES_PAIR_CELL;
    for (uint32_t i = 0; i < 128; i++)
        out[count++] = TABLES_CELL(TABLES_INTEGER, i % 3);
    return count;
}

/* A term with so many different variables. */
static size_t wide_term(uint32_t edition, uint32_t variables, uint32_t *out)
{
    size_t count = 0;
    for (uint32_t i = 0; i < variables; i++) {
        out[count++] = TABLES_FUNCTOR_CELL(edition, 5, i + 1 < variables ? 2 : 1);
        out[count++] = TABLES_CELL(TABLES_VARIABLE, 1000 + i);
    }
    return count;
}

/* Any cell, but no functor that only large names explain where none is wanted. */
static uint32_t random_cell(struct dice *dice, const struct taste *taste)
{
    uint32_t cell = dice_word(dice);
    return taste->edition == 1 && !taste->large_names && cell_name_too_large(cell) ? 0 : cell;
}

/* Makes a request of good cells one of cells that are mostly refused. */
static void spoil(struct dice *dice, const struct taste *taste, struct request *request)
{
    switch (dice_below(dice, 6)) {
    case 0:
        request->count = request->count == 0 ? 0 : dice_below(dice, (uint32_t)request->count);
        break;
    case 1:
        request->cells[request->count++] = TABLES_CELL(TABLES_ATOM, 1);
        break;
    case 2:
        request->cells[dice_below(dice, (uint32_t)request->count)] = random_cell(dice, taste);
        break;
    case 3:
        request->count = wide_term(taste->edition, dice_from(dice, 31, 34), request->cells);
        break;
    case 4:
        request->count = longest_term(taste->edition, request->cells);
        if (dice_one_in(dice, 3))
            request->cells[request->count++] = TABLES_CELL(TABLES_ATOM, 1);
        break;
    default:
        request->cells[0] = tables_cell(dice_below(dice, 9), 0);
        break;
    }
}

static void random_called(struct dice *dice, const struct taste *taste, struct request *request)
{
    if (dice_one_in(dice, 9)) {
        request->cells[0] = tables_cell(TABLES_ATOM, dice_below(dice, taste->atoms));
        request->count = 1;
    } else {
        size_t room = taste->most_cells < 2 ? 2 : taste->most_cells;
        request->count = random_compound(dice, taste, request->cells, room);
    }
}

static void random_answered(struct dice *dice, const struct taste *taste,
                            const struct table *table, struct request *request)
{
    uint32_t terms = 1;
    if (request->number >= 1 && request->number <= table->subgoal_count)
        terms = table->subgoals[request->number - 1].variables;
    request->count = 0;
    for (; terms != 0; terms--) {
        size_t room = TABLES_TERM_CELLS - request->count - (terms - 1);
        room = room > taste->most_cells ? taste->most_cells : room;
        if (!dice_one_in(dice, 4))
            room = 1;
        request->count += random_term(dice, taste, request->cells + request->count, room);
    }
}

/* A record's number, now and then an unknown one. */
static uint32_t random_number(struct dice *dice, uint32_t count)
{
    if (dice_one_in(dice, 30))
        return dice_one_in(dice, 2) ? 0 : count + 1 + dice_below(dice, 2);
    if (dice_one_in(dice, 100))
        return dice_word(dice);
    return count == 0 ? 1 : dice_from(dice, 1, count);
}

static enum request_kind random_kind(struct dice *dice, const struct taste *taste)
{
    uint32_t pick = dice_below(dice, taste->bulk ? 60 : 100);
    if (pick < (taste->bulk ? 12 : 22))
        return REQUEST_CALL;
    if (pick < 60)
        return REQUEST_ANSWER;
    if (pick < 66)
        return REQUEST_FINISH;
    if (pick < 76)
        return REQUEST_NEXT;
    if (pick < 86)
        return REQUEST_LOAD;
    return pick < 95 ? REQUEST_INSTANCE : REQUEST_COUNTS;
}

void request_random(struct dice *dice, const struct taste *taste, const struct table *table,
                    struct request *request)
{
    bool of_answer;
    memset(request, 0, sizeof *request);
    request->kind = random_kind(dice, taste);
    of_answer = request->kind == REQUEST_LOAD || request->kind == REQUEST_INSTANCE;
    request->number = random_number(dice, of_answer ? table->answer_count : table->subgoal_count);
    request->after = dice_one_in(dice, 4) ? 0 : random_number(dice, table->answer_count);
    request->room = dice_one_in(dice, 6) ? dice_below(dice, 8) : REPLY_CELLS;
    if (request->kind == REQUEST_CALL)
        random_called(dice, taste, request);
    if (request->kind == REQUEST_ANSWER)
        random_answered(dice, taste, table, request);
    if (request->kind <= REQUEST_ANSWER && taste->bad_terms && dice_one_in(dice, 15))
        spoil(dice, taste, request);
}

void request_carried(const struct request *request, struct request *carried)
{
    *carried = *request;
    for (size_t i = 0; i < request->count; i++)
        carried->cells[i] = cell_carried(request->cells[i]);
}

static void reply_blank(struct reply *reply)
{
    for (size_t i = 0; i < REPLY_CELLS; i++)
        reply->out[i] = UINT32_C(0xe0000000) + (uint32_t)i;
}

void request_play(const struct request *request, uint32_t *cells, size_t count,
                  struct reply *reply)
{
    reply_blank(reply);
    switch (request->kind) {
    case REQUEST_CALL:
        reply->word = tables_call(cells, count, request->cells, request->count);
        break;
    case REQUEST_ANSWER:
        reply->word =
            tables_answer(cells, count, request->number, request->cells, request->count);
        break;
    case REQUEST_FINISH:
        reply->word = tables_finish(cells, count, request->number);
        break;
    case REQUEST_NEXT:
        reply->word = tables_next(cells, count, request->number, request->after);
        break;
    case REQUEST_LOAD:
        reply->word = tables_load(cells, count, request->number, reply->out, request->room);
        break;
    case REQUEST_INSTANCE:
        reply->word = tables_instance(cells, count, request->number, reply->out, request->room);
        break;
    case REQUEST_COUNTS:
        reply->word = tables_counts(cells, count, reply->out, request->room);
        break;
    }
}

void request_model(const struct request *request, struct table *table, struct reply *reply)
{
    reply_blank(reply);
    switch (request->kind) {
    case REQUEST_CALL:
        reply->word = table_call(table, request->cells, request->count);
        break;
    case REQUEST_ANSWER:
        reply->word = table_answer(table, request->number, request->cells, request->count);
        break;
    case REQUEST_FINISH:
        reply->word = table_finish(table, request->number);
        break;
    case REQUEST_NEXT:
        reply->word = table_next(table, request->number, request->after);
        break;
    case REQUEST_LOAD:
        reply->word = table_load(table, request->number, reply->out, request->room);
        break;
    case REQUEST_INSTANCE:
        reply->word = table_instance(table, request->number, reply->out, request->room);
        break;
    case REQUEST_COUNTS:
        reply->word = table_counts(table, reply->out, request->room);
        break;
    }
}

bool reply_equal(const struct reply *left, const struct reply *right)
{
    return left->word == right->word &&
           cells_differ(left->out, right->out, REPLY_CELLS) == REPLY_CELLS;
}

/* Only cells of terms change; those of counts are small numbers and stay as they are. */
void reply_carried(const struct reply *reply, struct reply *carried)
{
    *carried = *reply;
    for (size_t i = 0; i < REPLY_CELLS; i++)
        carried->out[i] = cell_carried(reply->out[i]);
}

/* The tally. */

void tally_check(struct tally *tally, bool holds, const char *format, ...)
{
    va_list arguments;
    tally->checks++;
    if (holds || tally->failures++ >= 20)
        return;
    fputs("FAILED: ", stderr);
    va_start(arguments, format);
    vfprintf(stderr, format, arguments);
    va_end(arguments);
    fputc('\n', stderr);
}

void tally_must_have(struct tally *tally, const uint32_t *refusals)
{
    tally_check(tally, tally->results[0] != 0, "done never came");
    for (; *refusals != 0; refusals++)
        tally_check(tally, tally->results[*refusals] != 0, "refusal %u never came",
                    (unsigned)*refusals);
}

int tally_report(const struct tally *tally, const char *name, uint64_t seed)
{
    printf("%s: seed %llu, %llu checks; done %llu", name, (unsigned long long)seed,
           (unsigned long long)tally->checks, (unsigned long long)tally->results[0]);
    for (uint32_t i = 1; i < 32; i++)
        if (tally->results[i] != 0)
            printf(", refused by %u %llu", (unsigned)i, (unsigned long long)tally->results[i]);
    printf("; failures %llu\n", (unsigned long long)tally->failures);
    return tally->failures == 0 ? 0 : 1;
}
