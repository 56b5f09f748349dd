/* Tokens to a tree in postfix order: refusals 8, 9 and 10. */
#include "plain_parts.h"

struct parser {
    const uint8_t *text;
    const struct token *first;
    const struct token *next;
    struct tree *tree;
    unsigned levels;
    struct pollux_answer *answer;
};

/* Each rung of the ladder gives the index of its node, or this. */
enum { REFUSED = -1 };

static int sequence(struct parser *parser, bool top);

static int refused(struct parser *parser, unsigned why, size_t place)
{
    refuse(parser->answer, why, POLLUX_TEXT, place);
    return REFUSED;
}

static int no_continuation(struct parser *parser)
{
    return refused(parser, POLLUX_GRAMMAR, parser->next->place);
}

static int add(struct parser *parser, struct node node)
{
    parser->tree->at[parser->tree->count] = node;
    return (int)parser->tree->count++;
}

static int add_join(struct parser *parser, enum what what, size_t place, int left, int right)
{
    parser->tree->at[left].above = (uint8_t)what;
    return add(parser, (struct node){ .what = what, .place = (uint16_t)place, .left = (uint16_t)left, .right = (uint16_t)right });
}

static uint16_t token_index(const struct parser *parser, const struct token *token)
{
    return (uint16_t)(token - parser->first);
}

static bool spells(const struct parser *parser, const struct token *token, const char *word)
{
    return token->length == strlen(word) && memcmp(parser->text + token->place, word, token->length) == 0;
}

static bool opens_level(struct parser *parser)
{
    if (parser->levels == POLLUX_MAX_LEVELS)
        return refuse(parser->answer, POLLUX_LEVELS_MANY, POLLUX_TEXT, parser->next->place);
    parser->levels++;
    return true;
}

static int address(struct parser *parser)
{
    const struct token *word = parser->next;
    const struct token *string = word + 2;
    number value;
    parser->next = string;
    if (string->sign != STRING)
        return no_continuation(parser);
    if (!read_address(parser->text + word->place, word->length, parser->text + string->place + 1, string->length - 2u, &value))
        return refused(parser, POLLUX_ADDRESS, string->place);
    parser->next++;
    if (parser->next->sign != CLOSE)
        return no_continuation(parser);
    parser->next++;
    return add(parser, (struct node){ .what = WHOLE, .place = word->place, .value = value, .base = 10 });
}

/* The name after "::", which is an undotted word. */
static bool name(struct parser *parser, uint16_t *index)
{
    const struct token *token = parser->next;
    if (token->sign != WORD || memchr(parser->text + token->place, '.', token->length) != NULL)
        return refuse(parser->answer, POLLUX_GRAMMAR, POLLUX_TEXT, token->place);
    *index = token_index(parser, token);
    parser->next++;
    return true;
}

static int key(struct parser *parser)
{
    const struct token *word = parser->next++;
    struct node node = { .what = KEY, .place = word->place, .word = token_index(parser, word) };
    if (parser->next->sign == COLONS) {
        parser->next++;
        node.what = FIELD;
        if (!name(parser, &node.name))
            return REFUSED;
    }
    return add(parser, node);
}

static int word(struct parser *parser)
{
    const struct token *token = parser->next;
    bool truth = spells(parser, token, "true");
    if (truth || spells(parser, token, "false")) {
        parser->next++;
        return add(parser, (struct node){ .what = TRUTH, .place = token->place, .value = truth });
    }
    if (token[1].sign == OPEN && (spells(parser, token, "ipv4") || spells(parser, token, "ipv6") || spells(parser, token, "mac")))
        return address(parser);
    return key(parser);
}

static int attribute(struct parser *parser)
{
    struct node node = { .what = ATTRIBUTE, .place = parser->next->place };
    parser->next++;
    return name(parser, &node.name) ? add(parser, node) : REFUSED;
}

static int parenthesis(struct parser *parser)
{
    if (!opens_level(parser))
        return REFUSED;
    parser->next++;
    int inside = sequence(parser, false);
    if (inside == REFUSED)
        return REFUSED;
    if (parser->next->sign != CLOSE)
        return no_continuation(parser);
    parser->next++;
    parser->levels--;
    return inside;
}

static int atom(struct parser *parser)
{
    const struct token *token = parser->next;
    switch (token->sign) {
    case NUMERAL:
        parser->next++;
        return add(parser, (struct node){ .what = WHOLE, .place = token->place, .value = token->value, .base = token->base });
    case WORD: return word(parser);
    case COLONS: return attribute(parser);
    case OPEN: return parenthesis(parser);
    default: return no_continuation(parser);
    }
}

static int prefix(struct parser *parser)
{
    const struct token *operator = parser->next;
    if (operator->sign != NOT && operator->sign != MINUS)
        return atom(parser);
    if (!opens_level(parser))
        return REFUSED;
    parser->next++;
    int operand = prefix(parser);
    if (operand == REFUSED)
        return REFUSED;
    parser->levels--;
    return add_join(parser, operator->sign == NOT ? OPPOSITE : NEGATIVE, operator->place, operand, 0);
}

static int comparison(struct parser *parser)
{
    int left = prefix(parser);
    const struct token *operator = parser->next;
    if (left == REFUSED || operator->sign < EQUAL || operator->sign > LESS_EQUAL)
        return left;
    parser->next++;
    int right = prefix(parser);
    if (right == REFUSED)
        return REFUSED;
    int node = add_join(parser, COMPARISON, operator->place, left, right);
    parser->tree->at[node].comparison = operator->sign - EQUAL;
    return node;
}

static int conjunction(struct parser *parser)
{
    int left = comparison(parser);
    while (left != REFUSED && parser->next->sign == AND) {
        size_t place = parser->next++->place;
        int right = comparison(parser);
        left = right == REFUSED ? REFUSED : add_join(parser, BOTH, place, left, right);
    }
    return left;
}

static int disjunction(struct parser *parser)
{
    int left = conjunction(parser);
    while (left != REFUSED && parser->next->sign == OR) {
        size_t place = parser->next++->place;
        int right = conjunction(parser);
        left = right == REFUSED ? REFUSED : add_join(parser, EITHER, place, left, right);
    }
    return left;
}

static int implication(struct parser *parser)
{
    int left = disjunction(parser);
    if (left == REFUSED || parser->next->sign != ARROW)
        return left;
    size_t place = parser->next++->place;
    int right = disjunction(parser);
    return right == REFUSED ? REFUSED : add_join(parser, IMPLIES, place, left, right);
}

/* A ";" may stand at the very end of the text. */
static int sequence(struct parser *parser, bool top)
{
    int left = implication(parser);
    while (left != REFUSED && parser->next->sign == SEMICOLON) {
        size_t place = parser->next++->place;
        if (top && parser->next->sign == END)
            break;
        int right = implication(parser);
        left = right == REFUSED ? REFUSED : add_join(parser, SEQUENCE, place, left, right);
    }
    return left;
}

bool read_tree(const uint8_t *text, const struct tokens *tokens, struct tree *tree, struct pollux_answer *answer)
{
    struct parser parser = { .text = text, .first = tokens->at, .next = tokens->at, .tree = tree, .answer = answer };
    tree->count = 0;
    if (sequence(&parser, true) == REFUSED)
        return false;
    if (parser.next->sign != END)
        return no_continuation(&parser) != REFUSED;
    return true;
}
