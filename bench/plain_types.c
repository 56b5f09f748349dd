/* The types of a tree: refusals 11 to 14, and 23. */
#include "plain_parts.h"

struct checker {
    const uint8_t *text;
    const struct tokens *tokens;
    struct tree *tree;
    const uint8_t *list;
    size_t list_length;
    struct pollux_answer *answer;
};

static const struct type whole = { INT, 0 }, truth = { BOOL, 0 };

bool can_negate(struct type type)
{
    return type.kind == INT || type.kind == EXACT;
}

bool can_convert(struct type from, struct type to)
{
    if (to.kind > OPTIONAL)
        return false;
    return from.kind == INT || (from.kind == EXACT && to.kind != EXACT && from.width == to.width);
}

bool can_compare(unsigned comparison, struct type type)
{
    return comparison <= 1 || type.kind == INT || type.kind == EXACT;
}

static bool refused(struct checker *checker, unsigned why, size_t place)
{
    return refuse(checker->answer, why, POLLUX_TEXT, place);
}

static bool spells(const struct checker *checker, const struct token *token, const char *word)
{
    return token->length == strlen(word) && memcmp(checker->text + token->place, word, token->length) == 0;
}

static int field_named(const struct checker *checker, const struct token *name)
{
    static const char *const names[] = { "value", "mask", "prefix_length", "low", "high" };
    for (int field = VALUE; field <= HIGH; field++)
        if (spells(checker, name, names[field]))
            return field;
    return -1;
}

static bool type_key(struct checker *checker, struct node *node)
{
    const struct token *word = &checker->tokens->at[node->word];
    int key = find_key(checker->list, checker->list_length, checker->text + word->place, word->length);
    if (key < 0)
        return refused(checker, POLLUX_KEY_UNKNOWN, word->place);
    node->key = (uint8_t)key;
    node->type = key_type(checker->list, node->key);
    return true;
}

static bool type_field(struct checker *checker, struct node *node)
{
    const struct token *name = &checker->tokens->at[node->name];
    if (!type_key(checker, node))
        return false;
    int field = field_named(checker, name);
    if (field < 0 || !has_field(node->type.kind, (unsigned)field))
        return refused(checker, POLLUX_FIELD_UNKNOWN, name->place);
    node->field = (uint8_t)field;
    node->type = field_type(node->type, node->field);
    return true;
}

static bool type_attribute(struct checker *checker, struct node *node)
{
    const struct token *name = &checker->tokens->at[node->name];
    if (!spells(checker, name, "priority"))
        return refused(checker, POLLUX_FIELD_UNKNOWN, name->place);
    node->type = whole;
    return true;
}

/* Is the operand a numeral or address under minus signs whose number is out of range at the other's width? */
static bool loses_bits(const struct checker *checker, const struct node *operand, struct type other)
{
    bool negative = false;
    if (other.width == 0)
        return false;
    for (; operand->what == NEGATIVE; operand = &checker->tree->at[operand->left])
        negative = !negative;
    if (operand->what != WHOLE)
        return false;
    return operand->value > (negative ? (number)1 << (other.width - 1) : all_ones(other.width));
}

static bool type_comparison(struct checker *checker, struct node *node)
{
    struct node *left = &checker->tree->at[node->left], *right = &checker->tree->at[node->right];
    struct type common = left->type;
    if (!same_type(left->type, right->type)) {
        if (can_convert(right->type, left->type)) {
            right->converted = left->type;
        } else if (can_convert(left->type, right->type)) {
            common = left->converted = right->type;
        } else {
            return refused(checker, POLLUX_OPERAND_TYPES, node->place);
        }
    }
    node->type = truth;
    if (!can_compare(node->comparison, common))
        return refused(checker, POLLUX_OPERAND_TYPES, node->place);
    if (loses_bits(checker, left, right->type))
        return refused(checker, POLLUX_BITS_LOST, left->place);
    return !loses_bits(checker, right, left->type) || refused(checker, POLLUX_BITS_LOST, right->place);
}

static bool type_operator(struct checker *checker, struct node *node)
{
    struct type left = checker->tree->at[node->left].type, right = checker->tree->at[node->right].type;
    bool good;
    switch (node->what) {
    case OPPOSITE: good = left.kind == BOOL; break;
    case NEGATIVE: good = can_negate(left); break;
    default: good = left.kind == BOOL && right.kind == BOOL;
    }
    node->type = left;
    return good || refused(checker, POLLUX_OPERAND_TYPES, node->place);
}

static bool type_node(struct checker *checker, struct node *node)
{
    switch (node->what) {
    case TRUTH: node->type = truth; return true;
    case WHOLE: node->type = whole; return true;
    case KEY: return type_key(checker, node);
    case FIELD: return type_field(checker, node);
    case ATTRIBUTE: return type_attribute(checker, node);
    case COMPARISON: return type_comparison(checker, node);
    default: return type_operator(checker, node);
    }
}

/* Postfix order is the order in which operands and operators are typed. */
bool check_types(const uint8_t *text, const struct tokens *tokens, struct tree *tree, const uint8_t *list, size_t list_length,
                 struct pollux_answer *answer)
{
    struct checker checker = { text, tokens, tree, list, list_length, answer };
    for (size_t i = 0; i < tree->count; i++)
        if (!type_node(&checker, &tree->at[i]))
            return false;
    const struct node *root = &tree->at[tree->count - 1];
    return root->type.kind == BOOL || refused(&checker, POLLUX_NOT_BOOL, root->place);
}
