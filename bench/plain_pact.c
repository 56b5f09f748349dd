/* A Pact contract into a text: refusals 2 to 4, 24 and 21. */
#include "plain_parts.h"

/* An opcode: its kind, NOT, for a comparator what an input is compared with, the operation, and two bits that are reserved. */
enum { CONJUNCTION = 1 << 7, INVERTED = 1 << 6, INPUT_VS_INPUT = 1 << 5, RESERVED = 3 };
enum { OPERATION_AT = 2, COMPARATOR_OPERATION = 7, CONJUNCTION_OPERATION = 15 };

/* The operation numbers that a text can say, from 0: those of comparators, without IN, and of conjunctions. */
enum { EQ, GT, GTE, COMPARATORS };
enum { AND_THEN, OR_ELSE, XOR, CONJUNCTIONS };

enum { NONE = -1 };

struct drafter {
    const uint8_t *names;
    size_t name_count;
    const uint64_t *table;
    size_t table_count;
    struct tree *tree;
    bool full;      /* there is a node too many for any text */
    int before;     /* the clauses before this one, joined, or NONE */
    int clause;     /* this one so far, or NONE */
    int joining;    /* the conjunction's opcode directly before, or NONE */
    size_t levels;  /* that this clause opens so far */
    size_t deepest; /* of all clauses before it */
    size_t pairs;   /* of parentheses */
};

/* An index byte has one index in each half. */
static inline unsigned left_index(uint8_t byte)
{
    return byte >> 4;
}

static inline unsigned right_index(uint8_t byte)
{
    return byte & 15;
}

/* ---- The tree. Each node is a token of the text, so one over the limit of tokens need not be made: any node stands for the rest. */

static int add(struct drafter *drafter, struct node node)
{
    struct tree *tree = drafter->tree;
    if (tree->count == POLLUX_MAX_TOKENS) {
        drafter->full = true;
        return 0;
    }
    tree->at[tree->count] = node;
    return (int)tree->count++;
}

static int add_join(struct drafter *drafter, enum what what, int left, int right)
{
    return add(drafter, (struct node){ .what = what, .left = (uint16_t)left, .right = (uint16_t)right });
}

static int add_comparison(struct drafter *drafter, unsigned comparison, int left, int right)
{
    int node = add_join(drafter, COMPARISON, left, right);
    drafter->tree->at[node].comparison = (uint8_t)comparison;
    return node;
}

/* The word of a key is the name's number. */
static int add_name(struct drafter *drafter, unsigned index)
{
    return add(drafter, (struct node){ .what = KEY, .word = (uint16_t)index });
}

static int add_number(struct drafter *drafter, uint64_t value)
{
    return add(drafter, (struct node){ .what = WHOLE, .value = value, .base = 10 });
}

/* Counts the parentheses that the print has round an operand, if it needs them; they open a level. */
static size_t enclosed(struct drafter *drafter, bool needed)
{
    drafter->pairs += needed;
    return needed;
}

/* NOT stands over a comparison or a join, never over another NOT. */
static int add_not(struct drafter *drafter, int operand, size_t *levels)
{
    *levels += enclosed(drafter, true) + 1;
    return add_join(drafter, OPPOSITE, operand, 0);
}

static int add_assertion(struct drafter *drafter, uint8_t opcode, uint8_t index, size_t *levels)
{
    static const uint8_t comparisons[COMPARATORS] = { [EQ] = EQUAL - EQUAL, [GT] = GREATER - EQUAL, [GTE] = GREATER_EQUAL - EQUAL };
    unsigned operation = opcode >> OPERATION_AT & COMPARATOR_OPERATION, other = right_index(index);
    int left = add_name(drafter, left_index(index));
    int right = opcode & INPUT_VS_INPUT ? add_name(drafter, other) : add_number(drafter, drafter->table[other]);
    int assertion = add_comparison(drafter, comparisons[operation], left, right);
    *levels = 0;
    return opcode & INVERTED ? add_not(drafter, assertion, levels) : assertion;
}

static size_t larger(size_t one, size_t other)
{
    return one > other ? one : other;
}

/* Joins the clause so far with an assertion. "&&" encloses an "||" at its left, and "!=" whatever stands under no NOT. */
static int add_conjunction(struct drafter *drafter, uint8_t opcode, int assertion, size_t levels)
{
    unsigned operation = opcode >> OPERATION_AT & CONJUNCTION_OPERATION;
    unsigned left = drafter->tree->at[drafter->clause].what, right = drafter->tree->at[assertion].what;
    bool xor = operation == XOR;
    drafter->levels += enclosed(drafter, xor ? left != OPPOSITE : operation == AND_THEN && left == EITHER);
    levels += enclosed(drafter, xor && right != OPPOSITE);
    drafter->levels = larger(drafter->levels, levels);
    int joined = xor ? add_comparison(drafter, NOT_EQUAL - EQUAL, drafter->clause, assertion)
                     : add_join(drafter, operation == AND_THEN ? BOTH : EITHER, drafter->clause, assertion);
    return opcode & INVERTED ? add_not(drafter, joined, &drafter->levels) : joined;
}

static void end_clause(struct drafter *drafter)
{
    if (drafter->clause == NONE)
        return;
    drafter->deepest = larger(drafter->deepest, drafter->levels);
    drafter->before = drafter->before == NONE ? drafter->clause : add_join(drafter, SEQUENCE, drafter->before, drafter->clause);
    drafter->clause = NONE;
}

/* An assertion behind a conjunction continues the clause, any other begins one. */
static void take_assertion(struct drafter *drafter, uint8_t opcode, uint8_t index)
{
    size_t levels;
    if (drafter->joining == NONE)
        end_clause(drafter);
    int assertion = add_assertion(drafter, opcode, index, &levels);
    if (drafter->joining != NONE) {
        drafter->clause = add_conjunction(drafter, (uint8_t)drafter->joining, assertion, levels);
        drafter->joining = NONE;
    } else {
        drafter->clause = assertion;
        drafter->levels = levels;
    }
}

/* ---- The contract, which has no limit of its own: all of it is looked at, however long its text is. */

static bool good_opcode(uint8_t opcode)
{
    if ((opcode & RESERVED) != 0)
        return false;
    if (opcode & CONJUNCTION)
        return (opcode >> OPERATION_AT & CONJUNCTION_OPERATION) < CONJUNCTIONS;
    return (opcode >> OPERATION_AT & COMPARATOR_OPERATION) < COMPARATORS;
}

static bool good_index(const struct drafter *drafter, uint8_t opcode, uint8_t index)
{
    size_t rights = opcode & INPUT_VS_INPUT ? drafter->name_count : drafter->table_count;
    return left_index(index) < drafter->name_count && right_index(index) < rights;
}

static bool fault(struct pollux_answer *answer, size_t place)
{
    return refuse(answer, POLLUX_CONTRACT, POLLUX_PACT, place);
}

static bool read_contract(struct drafter *drafter, const uint8_t *contract, size_t length, struct pollux_answer *answer)
{
    for (size_t at = 0; at < length; at++) {
        uint8_t opcode = contract[at];
        if (!good_opcode(opcode))
            return fault(answer, at);
        if (opcode & CONJUNCTION) {
            if (drafter->clause == NONE || drafter->joining != NONE)
                return fault(answer, at);
            drafter->joining = opcode;
            continue;
        }
        if (++at == length)
            return fault(answer, length);
        if (!good_index(drafter, opcode, contract[at]))
            return fault(answer, at);
        take_assertion(drafter, opcode, contract[at]);
    }
    if (drafter->joining != NONE)
        return fault(answer, length);
    end_clause(drafter);
    if (drafter->before == NONE)
        add(drafter, (struct node){ .what = TRUTH, .value = 1 });
    return true;
}

/* ---- The call. */

static bool names_input(const uint8_t *names, size_t at)
{
    struct type type = key_type(names + at, 0);
    return at < POLLUX_MAX_INPUTS * POLLUX_KEY_SIZE && type.kind == EXACT && type.width == POLLUX_INPUT_WIDTH;
}

/* Refusal 3 has more reasons here, of which one at the record of another refusal, or before it, comes first. */
static bool check_names(const uint8_t *names, size_t length, struct pollux_answer *answer)
{
    bool good = check_list(names, length, answer);
    if (!good && answer->number == POLLUX_LIST_LENGTH)
        return false;
    size_t end = good ? length : answer->value + POLLUX_KEY_SIZE;
    for (size_t at = 0; at < end; at += POLLUX_KEY_SIZE)
        if (!names_input(names, at))
            return refuse(answer, POLLUX_KEY_LAYOUT, POLLUX_LIST, at);
    return good;
}

/* The print of the tree takes its words from the names, as if the key list were its text. */
static size_t print_draft(const struct drafter *drafter, uint8_t print[POLLUX_MAX_PRINT])
{
    struct tokens words;
    for (size_t i = 0; i < drafter->name_count; i++) {
        size_t record = i * POLLUX_KEY_SIZE;
        words.at[i].place = (uint16_t)(record + POLLUX_KEY_SIZE - POLLUX_MAX_NAME);
        words.at[i].length = drafter->names[record];
    }
    return print_tree(drafter->names, &words, drafter->tree, print);
}

static bool over_limits(const struct drafter *drafter)
{
    size_t tokens = drafter->tree->count + 2 * drafter->pairs;
    return drafter->full || tokens > POLLUX_MAX_TOKENS || drafter->deepest > POLLUX_MAX_LEVELS;
}

static bool check_table(size_t count, struct pollux_answer *answer)
{
    return count <= POLLUX_MAX_USER_NUMBERS || refuse(answer, POLLUX_CONTRACT, POLLUX_TABLE, POLLUX_MAX_USER_NUMBERS);
}

struct pollux_answer plain_pact(const uint8_t *contract, size_t contract_length, const uint64_t *table, size_t table_count,
                                const uint8_t *names, size_t names_length, uint8_t *buffer, size_t buffer_length)
{
    struct tree tree;
    struct drafter drafter = { .names = names, .name_count = names_length / POLLUX_KEY_SIZE, .table = table, .table_count = table_count,
                               .tree = &tree, .before = NONE, .clause = NONE, .joining = NONE };
    struct pollux_answer answer;
    uint8_t print[POLLUX_MAX_PRINT];
    tree.count = 0;
    if (!check_names(names, names_length, &answer) || !check_table(table_count, &answer) ||
        !read_contract(&drafter, contract, contract_length, &answer))
        return answer;
    size_t length = over_limits(&drafter) ? POLLUX_MAX_PRINT + 1 : print_draft(&drafter, print);
    if (length > POLLUX_MAX_PRINT || length > buffer_length) {
        refuse(&answer, POLLUX_PRINT_LONG, POLLUX_BUFFER, buffer_length);
        return answer;
    }
    memcpy(buffer, print, length);
    return done(length);
}
