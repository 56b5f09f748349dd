/* What the files of the plain C version share. */
#ifndef PLAIN_PARTS_H
#define PLAIN_PARTS_H

#include <string.h>

#include "plain.h"

typedef unsigned __int128 number;

/* ---- Refusals: a stage that refuses fills in the answer and returns false. */

static inline bool refuse(struct pollux_answer *answer, unsigned why, enum pollux_input input, size_t offset)
{
    *answer = (struct pollux_answer){ POLLUX_REFUSED, why, input, offset };
    return false;
}

static inline struct pollux_answer done(size_t count)
{
    return (struct pollux_answer){ POLLUX_DONE, 0, 0, count };
}

/* A judgement from the text takes no steps. */
static inline struct pollux_answer verdict(bool accepted, size_t steps)
{
    return (struct pollux_answer){ accepted ? POLLUX_ACCEPTED : POLLUX_VIOLATED, 0, 0, steps };
}

/* ---- Bytes, big-endian. */

static inline unsigned short_at(const uint8_t *at)
{
    return (unsigned)at[0] << 8 | at[1];
}

static inline void set_short(uint8_t *at, unsigned value)
{
    at[0] = (uint8_t)(value >> 8);
    at[1] = (uint8_t)value;
}

static inline number number_at(const uint8_t *at)
{
    uint64_t high, low;
    memcpy(&high, at, 8);
    memcpy(&low, at + 8, 8);
    return (number)__builtin_bswap64(high) << 64 | __builtin_bswap64(low);
}

static inline void set_number(uint8_t *at, number value)
{
    uint64_t high = __builtin_bswap64((uint64_t)(value >> 64));
    uint64_t low = __builtin_bswap64((uint64_t)value);
    memcpy(at, &high, 8);
    memcpy(at + 8, &low, 8);
}

static inline bool all_zero(const uint8_t *at, size_t length)
{
    for (size_t i = 0; i < length; i++)
        if (at[i] != 0)
            return false;
    return true;
}

/* 2^width - 1, for widths from 1 to 128. */
static inline number all_ones(unsigned width)
{
    return ~(number)0 >> (128 - width);
}

/* ---- Keys and entries (plain_keys.c). */

enum kind { EXACT, TERNARY, LPM, RANGE, OPTIONAL };
enum field { VALUE, MASK, PREFIX_LENGTH, LOW, HIGH };

/* Types: bit<W> is what an exact key of width W has; int and bool have width 0. */
enum { INT = 5, BOOL = 6 };
struct type {
    uint8_t kind;
    uint8_t width;
};

static inline bool same_type(struct type left, struct type right)
{
    return left.kind == right.kind && left.width == right.width;
}

bool check_list(const uint8_t *list, size_t length, struct pollux_answer *answer);

/* The index of a key, or -1. */
int find_key(const uint8_t *list, size_t length, const uint8_t *name, size_t name_length);

static inline struct type key_type(const uint8_t *list, size_t key)
{
    const uint8_t *record = list + key * POLLUX_KEY_SIZE;
    return (struct type){ record[1], record[2] };
}

bool has_field(unsigned kind, unsigned field);
struct type field_type(struct type key, unsigned field);

bool check_entry(const uint8_t *list, size_t list_length, const uint8_t *entry, size_t length, struct pollux_answer *answer);

bool starts_word(uint8_t byte);
bool continues_word(uint8_t byte);
size_t word_length(const uint8_t *at, size_t length);

/* ---- Tokens (plain_tokens.c). */

enum sign {
    WORD, NUMERAL, STRING, SEMICOLON, ARROW, OR, AND, EQUAL, NOT_EQUAL, GREATER, GREATER_EQUAL, LESS, LESS_EQUAL, COLONS, NOT,
    MINUS, OPEN, CLOSE, END
};

struct token {
    number value; /* of a numeral */
    uint16_t place;
    uint16_t length;
    uint8_t sign;
    uint8_t base; /* of a numeral's digits; 0 of any other token */
};

enum { OCTAL = 8 };

/* The last one is END, at the text's length. */
struct tokens {
    struct token at[POLLUX_MAX_TOKENS + 1];
};

bool read_tokens(const uint8_t *text, size_t length, struct tokens *tokens, struct pollux_answer *answer);

/* By the old rules, where a numeral may be octal. */
bool read_old_tokens(const uint8_t *text, size_t length, struct tokens *tokens, struct pollux_answer *answer);

/* ---- Trees in postfix order (plain_tree.c), and their types (plain_types.c). */

/* SEQUENCE is ";", which means what BOTH, "&&", means. */
enum what { TRUTH, WHOLE, KEY, FIELD, ATTRIBUTE, OPPOSITE, NEGATIVE, COMPARISON, SEQUENCE, BOTH, EITHER, IMPLIES };

struct node {
    number value;           /* of a numeral or an address; 0 or 1 of a truth */
    uint16_t place;
    uint16_t left, right;   /* the operands' nodes; a prefix operator has the left one alone */
    uint16_t word, name;    /* the tokens of a key, and of its field or of an attribute */
    uint8_t what;
    uint8_t comparison;     /* 0 ==, 1 !=, 2 >, 3 >=, 4 <, 5 <= */
    uint8_t base;           /* in which a numeral or an address is printed */
    uint8_t above;          /* the operator that it is the left or only operand of, or 0 */
    uint8_t key, field;     /* found by the type check */
    struct type type;
    struct type converted;  /* what it becomes before its comparison; width 0 if it stays */
};

struct tree {
    size_t count;
    struct node at[POLLUX_MAX_TOKENS];
};

bool read_tree(const uint8_t *text, const struct tokens *tokens, struct tree *tree, struct pollux_answer *answer);
bool read_address(const uint8_t *word, size_t word_length, const uint8_t *contents, size_t length, number *value);

bool can_negate(struct type type);
bool can_convert(struct type from, struct type to);
bool can_compare(unsigned comparison, struct type type);
bool check_types(const uint8_t *text, const struct tokens *tokens, struct tree *tree, const uint8_t *list, size_t list_length,
                 struct pollux_answer *answer);

/* Stage 1; the stages that need no key list, 1 and 5 to 10; and stages 1 to 14 (plain_judge.c). */
bool check_length(size_t text_length, struct pollux_answer *answer);
bool text_tree(const uint8_t *text, size_t text_length, struct tokens *tokens, struct tree *tree, struct pollux_answer *answer);
bool checked_tree(const uint8_t *text, size_t text_length, const uint8_t *list, size_t list_length, struct tokens *tokens,
                  struct tree *tree, struct pollux_answer *answer);

/* Prints a tree, whose words are tokens of the text (plain_print.c). Gives the print's length; over the room, it is only counted. */
size_t print_tree(const uint8_t *text, const struct tokens *tokens, const struct tree *tree, uint8_t print[POLLUX_MAX_PRINT]);

/* ---- Parts (plain_explain.c). */

/* A part: its first and its last token, and the node of its root. */
struct part {
    const struct token *first, *last;
    size_t root;
};

/* How many there are. */
size_t find_parts(const struct tokens *tokens, const struct tree *tree, struct part parts[POLLUX_MAX_PARTS]);

/* Is the tree at a node, which is a bool, true of an entry that conforms? (plain_judge.c) */
bool holds_at(const struct tree *tree, const uint8_t *list, const uint8_t *entry, size_t node);

/* ---- Counts (plain_count.c). */

/* A text that passed with its key list: its tree, and the roots of its parts, by which entries are counted. */
struct rule {
    struct tree tree;
    uint16_t roots[POLLUX_MAX_PARTS];
    size_t count;
};

bool read_rule(const uint8_t *text, size_t text_length, const uint8_t *list, size_t list_length, struct rule *rule,
               struct pollux_answer *answer);

/* Adds one whole entry to the totals, and to the number of each part that is false for it. */
void count_entry(const struct rule *rule, const uint8_t *list, size_t list_length, const uint8_t *entry, size_t size,
                 struct pollux_counts *counts, uint64_t parts[POLLUX_MAX_PARTS]);

#endif
