/* What broke for an entry: the first part of the text that is false, or the key of a record that breaks its rule. */
#include "plain_parts.h"

/* Cut at each ";" outside parentheses; nothing stands behind a trailing one. */
static size_t cut(const struct tokens *tokens, struct part parts[POLLUX_MAX_PARTS])
{
    size_t count = 0;
    unsigned open = 0;
    const struct token *first = tokens->at;
    for (const struct token *token = first;; token++) {
        open += token->sign == OPEN;
        open -= token->sign == CLOSE;
        if (token->sign != END && (token->sign != SEMICOLON || open > 0))
            continue;
        if (token > first)
            parts[count++] = (struct part){ first, token - 1, 0 };
        if (token->sign == END)
            return count;
        first = token + 1;
    }
}

/* From the right: each ";" joins what stands before it with one part. */
static void find_roots(const struct tree *tree, struct part parts[POLLUX_MAX_PARTS], size_t count)
{
    size_t node = tree->count - 1;
    for (size_t i = count - 1; i > 0; i--) {
        parts[i].root = tree->at[node].right;
        node = tree->at[node].left;
    }
    parts[0].root = node;
}

size_t find_parts(const struct tokens *tokens, const struct tree *tree, struct part parts[POLLUX_MAX_PARTS])
{
    size_t count = cut(tokens, parts);
    find_roots(tree, parts, count);
    return count;
}

/* Where all parts are true, nothing is to show. */
static struct pollux_reason first_false(const struct tree *tree, const struct part parts[POLLUX_MAX_PARTS], size_t count,
                                        const uint8_t *list, const uint8_t *entry)
{
    for (size_t i = 0; i < count; i++) {
        if (!holds_at(tree, list, entry, parts[i].root)) {
            size_t start = parts[i].first->place, end = parts[i].last->place + (size_t)parts[i].last->length;
            size_t place = tree->at[parts[i].root].place;
            return (struct pollux_reason){ .says = POLLUX_VIOLATED, .part = i + 1, .place = place, .start = start, .length = end - start };
        }
    }
    return (struct pollux_reason){ .says = POLLUX_ACCEPTED };
}

/* A refusal, with the key's name where it is 20 at a record. */
static struct pollux_reason refusal(struct pollux_answer answer, const uint8_t *list)
{
    struct pollux_reason reason = { answer.says, answer.number, answer.input, answer.value, 0, 0, 0, 0 };
    if (answer.number == POLLUX_ENTRY_RULE && answer.value >= POLLUX_PRIORITY_SIZE) {
        size_t record = (answer.value - POLLUX_PRIORITY_SIZE) / POLLUX_RECORD_SIZE * POLLUX_KEY_SIZE;
        reason.place = answer.value;
        reason.start = record + POLLUX_KEY_SIZE - POLLUX_MAX_NAME;
        reason.length = list[record];
    }
    return reason;
}

struct pollux_reason plain_explain(const uint8_t *text, size_t text_length, const uint8_t *list, size_t list_length,
                                   const uint8_t *entry, size_t entry_length)
{
    struct tokens tokens;
    struct tree tree;
    struct part parts[POLLUX_MAX_PARTS];
    struct pollux_answer answer;
    if (!checked_tree(text, text_length, list, list_length, &tokens, &tree, &answer) ||
        !check_entry(list, list_length, entry, entry_length, &answer))
        return refusal(answer, list);
    size_t count = find_parts(&tokens, &tree, parts);
    return first_false(&tree, parts, count, list, entry);
}
