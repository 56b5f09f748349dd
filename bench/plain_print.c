/* A text's tree in house style: refusal 21. */
#include "plain_parts.h"

struct printer {
    const uint8_t *text;
    const struct tokens *tokens;
    const struct tree *tree;
    uint8_t *print; /* has room for the longest print that is not refused */
    size_t length;  /* of the whole print so far, room or not */
};

/* The rungs of the grammar's ladder, loosest first. Prefix operators and atoms share the last: neither ever needs parentheses. */
enum rung { SEQUENCES, IMPLICATIONS, DISJUNCTIONS, CONJUNCTIONS, COMPARISONS, PREFIXES };

enum { MOST_DIGITS = 128 /* of 2^128 - 1, in binary */ };

static void print_node(struct printer *printer, const struct node *node);

/* A piece that finds no room is only counted, and so are all after it. */
static void print_bytes(struct printer *printer, const void *bytes, size_t length)
{
    if (printer->length + length <= POLLUX_MAX_PRINT)
        memcpy(printer->print + printer->length, bytes, length);
    printer->length += length;
}

static inline void print_spelled(struct printer *printer, const char *spelling)
{
    print_bytes(printer, spelling, strlen(spelling));
}

static void print_word(struct printer *printer, size_t index)
{
    const struct token *word = &printer->tokens->at[index];
    print_bytes(printer, printer->text + word->place, word->length);
}

static inline uint8_t digit(unsigned value)
{
    return (uint8_t)"0123456789abcdef"[value];
}

/* Most numerals are decimal and fit 64 bits, where division is cheap. */
static void print_decimal(struct printer *printer, number value)
{
    uint8_t digits[MOST_DIGITS];
    size_t first = MOST_DIGITS;
    for (; value >> 64 != 0; value /= 10)
        digits[--first] = digit((unsigned)(value % 10));
    uint64_t rest = (uint64_t)value;
    do {
        digits[--first] = digit((unsigned)(rest % 10));
        rest /= 10;
    } while (rest != 0);
    print_bytes(printer, digits + first, MOST_DIGITS - first);
}

/* In a base that is a power of two. */
static void print_bits(struct printer *printer, const char *prefix, unsigned bits, number value)
{
    uint8_t digits[MOST_DIGITS];
    size_t first = MOST_DIGITS;
    do {
        digits[--first] = digit((unsigned)value & ((1u << bits) - 1));
        value >>= bits;
    } while (value != 0);
    print_spelled(printer, prefix);
    print_bytes(printer, digits + first, MOST_DIGITS - first);
}

static void print_numeral(struct printer *printer, unsigned base, number value)
{
    switch (base) {
    case 2: print_bits(printer, "0b", 1, value); break;
    case 16: print_bits(printer, "0x", 4, value); break;
    default: print_decimal(printer, value);
    }
}

static enum rung rung_of(const struct node *node)
{
    switch (node->what) {
    case SEQUENCE: return SEQUENCES;
    case IMPLIES: return IMPLICATIONS;
    case EITHER: return DISJUNCTIONS;
    case BOTH: return CONJUNCTIONS;
    case COMPARISON: return COMPARISONS;
    default: return PREFIXES;
    }
}

/* A node that is looser than its position allows needs parentheses. */
static void print_operand(struct printer *printer, size_t index, enum rung loosest)
{
    const struct node *node = &printer->tree->at[index];
    bool enclosed = rung_of(node) < loosest;
    if (enclosed)
        print_spelled(printer, "(");
    print_node(printer, node);
    if (enclosed)
        print_spelled(printer, ")");
}

static inline void print_prefix(struct printer *printer, const struct node *node, const char *sign)
{
    print_spelled(printer, sign);
    print_operand(printer, node->left, PREFIXES);
}

static inline void print_binary(struct printer *printer, const struct node *node, enum rung left, const char *sign, enum rung right)
{
    print_operand(printer, node->left, left);
    print_spelled(printer, sign);
    print_operand(printer, node->right, right);
}

static inline void print_name(struct printer *printer, const struct node *node)
{
    print_spelled(printer, "::");
    print_word(printer, node->name);
}

static void print_node(struct printer *printer, const struct node *node)
{
    static const char *const comparisons[] = { " == ", " != ", " > ", " >= ", " < ", " <= " };
    switch (node->what) {
    case TRUTH: print_spelled(printer, node->value != 0 ? "true" : "false"); break;
    case WHOLE: print_numeral(printer, node->base, node->value); break;
    case KEY: print_word(printer, node->word); break;
    case FIELD:
        print_word(printer, node->word);
        print_name(printer, node);
        break;
    case ATTRIBUTE: print_name(printer, node); break;
    case OPPOSITE: print_prefix(printer, node, "!"); break;
    case NEGATIVE: print_prefix(printer, node, "-"); break;
    case COMPARISON: print_binary(printer, node, PREFIXES, comparisons[node->comparison], PREFIXES); break;
    case BOTH: print_binary(printer, node, CONJUNCTIONS, " && ", COMPARISONS); break;
    case EITHER: print_binary(printer, node, DISJUNCTIONS, " || ", CONJUNCTIONS); break;
    case IMPLIES: print_binary(printer, node, DISJUNCTIONS, " -> ", DISJUNCTIONS); break;
    default: print_binary(printer, node, SEQUENCES, " ; ", IMPLICATIONS);
    }
}

size_t print_tree(const uint8_t *text, const struct tokens *tokens, const struct tree *tree, uint8_t print[POLLUX_MAX_PRINT])
{
    struct printer printer = { text, tokens, tree, print, 0 };
    print_operand(&printer, tree->count - 1, SEQUENCES);
    return printer.length;
}

struct pollux_answer plain_print(const uint8_t *text, size_t text_length, uint8_t *buffer, size_t buffer_length)
{
    struct tokens tokens;
    struct tree tree;
    struct pollux_answer answer;
    uint8_t print[POLLUX_MAX_PRINT];
    if (!text_tree(text, text_length, &tokens, &tree, &answer))
        return answer;
    size_t length = print_tree(text, &tokens, &tree, print);
    if (length > POLLUX_MAX_PRINT || length > buffer_length) {
        refuse(&answer, POLLUX_PRINT_LONG, POLLUX_BUFFER, buffer_length);
        return answer;
    }
    memcpy(buffer, print, length);
    return done(length);
}
