/* The calls that start from the text: read, check, judge. */
#include "plain_values.h"

struct judged {
    const struct tree *tree;
    const uint8_t *list;
    const uint8_t *entry;
};

static bool truth_of(const struct judged *judged, size_t index);

/* The value of a node that is not a bool. */
static struct value value_of(const struct judged *judged, size_t index)
{
    const struct node *node = &judged->tree->at[index];
    struct value value;
    switch (node->what) {
    case WHOLE: value = whole_value(node->value); break;
    case KEY: value = key_value(judged->list, judged->entry, node->key); break;
    case FIELD: value = field_value(judged->list, judged->entry, node->key, node->field); break;
    case ATTRIBUTE: value = priority_value(judged->entry); break;
    case NEGATIVE: value = minus(value_of(judged, node->left)); break;
    default: value = whole_value(truth_of(judged, index));
    }
    return node->converted.width == 0 ? value : convert(value, node->converted);
}

static bool truth_of(const struct judged *judged, size_t index)
{
    const struct node *node = &judged->tree->at[index];
    switch (node->what) {
    case TRUTH: return node->value != 0;
    case OPPOSITE: return !truth_of(judged, node->left);
    case SEQUENCE:
    case BOTH: return truth_of(judged, node->left) && truth_of(judged, node->right);
    case EITHER: return truth_of(judged, node->left) || truth_of(judged, node->right);
    case IMPLIES: return !truth_of(judged, node->left) || truth_of(judged, node->right);
    default: return compare(node->comparison, value_of(judged, node->left), value_of(judged, node->right));
    }
}

bool check_length(size_t text_length, struct pollux_answer *answer)
{
    return text_length <= POLLUX_MAX_TEXT || refuse(answer, POLLUX_TEXT_TOO_LONG, POLLUX_TEXT, POLLUX_MAX_TEXT);
}

bool text_tree(const uint8_t *text, size_t text_length, struct tokens *tokens, struct tree *tree, struct pollux_answer *answer)
{
    return check_length(text_length, answer) && read_tokens(text, text_length, tokens, answer) &&
           read_tree(text, tokens, tree, answer);
}

bool checked_tree(const uint8_t *text, size_t text_length, const uint8_t *list, size_t list_length, struct tokens *tokens,
                  struct tree *tree, struct pollux_answer *answer)
{
    return check_length(text_length, answer) && check_list(list, list_length, answer) &&
           read_tokens(text, text_length, tokens, answer) && read_tree(text, tokens, tree, answer) &&
           check_types(text, tokens, tree, list, list_length, answer);
}

bool holds_at(const struct tree *tree, const uint8_t *list, const uint8_t *entry, size_t node)
{
    struct judged judged = { tree, list, entry };
    return truth_of(&judged, node);
}

struct pollux_answer plain_read(const uint8_t *text, size_t text_length)
{
    struct tokens tokens;
    struct tree tree;
    struct pollux_answer answer;
    return text_tree(text, text_length, &tokens, &tree, &answer) ? done(tree.count) : answer;
}

struct pollux_answer plain_check(const uint8_t *text, size_t text_length, const uint8_t *list, size_t list_length)
{
    struct tokens tokens;
    struct tree tree;
    struct pollux_answer answer;
    return checked_tree(text, text_length, list, list_length, &tokens, &tree, &answer) ? done(0) : answer;
}

struct pollux_answer plain_judge(const uint8_t *text, size_t text_length, const uint8_t *list, size_t list_length,
                                 const uint8_t *entry, size_t entry_length)
{
    struct tokens tokens;
    struct tree tree;
    struct pollux_answer answer;
    if (!checked_tree(text, text_length, list, list_length, &tokens, &tree, &answer) ||
        !check_entry(list, list_length, entry, entry_length, &answer))
        return answer;
    return verdict(holds_at(&tree, list, entry, tree.count - 1), 0);
}
