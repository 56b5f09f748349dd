/* What a text names, and an entry rechecked by it. */
#include "plain_parts.h"

/* The keys that a text names, a bit for each, and whether it names ::priority. */
struct named {
    uint32_t keys;
    bool priority;
};

static struct named named_in(const struct tree *tree)
{
    struct named named = { 0, false };
    for (size_t i = 0; i < tree->count; i++) {
        const struct node *node = &tree->at[i];
        if (node->what == KEY || node->what == FIELD)
            named.keys |= (uint32_t)1 << node->key;
        named.priority |= node->what == ATTRIBUTE;
    }
    return named;
}

/* Have two entries that conform the same bytes wherever the text names something? */
static bool same_in(struct named named, const uint8_t *old, const uint8_t *new)
{
    if (named.priority && memcmp(old, new, POLLUX_PRIORITY_SIZE) != 0)
        return false;
    for (uint32_t rest = named.keys; rest != 0; rest &= rest - 1) {
        size_t record = POLLUX_ENTRY_SIZE(__builtin_ctz(rest));
        if (memcmp(old + record, new + record, POLLUX_RECORD_SIZE) != 0)
            return false;
    }
    return true;
}

struct pollux_summary plain_summarize(const uint8_t *text, size_t text_length, const uint8_t *list, size_t list_length)
{
    struct tokens tokens;
    struct tree tree;
    struct pollux_answer answer;
    if (!checked_tree(text, text_length, list, list_length, &tokens, &tree, &answer))
        return (struct pollux_summary){ answer.says, answer.number, answer.input, answer.value, 0, 0, 0 };
    struct named named = named_in(&tree);
    return (struct pollux_summary){ POLLUX_DONE, 0, 0, 0, named.keys, named.priority, (uint64_t)__builtin_popcount(named.keys) };
}

static struct pollux_rechecked tell(struct pollux_answer answer, bool reused)
{
    return (struct pollux_rechecked){ answer.says, answer.number, answer.input, answer.value, reused };
}

/* The numbers of an earlier answer, or a refusal where they are none. */
static struct pollux_answer heard(struct pollux_answer earlier)
{
    enum { LARGEST_NUMBER = 255 };
    bool refused = earlier.says == POLLUX_REFUSED;
    bool verdict = earlier.says == POLLUX_ACCEPTED || earlier.says == POLLUX_VIOLATED;
    if (refused && earlier.number <= LARGEST_NUMBER && earlier.input >= POLLUX_TEXT && earlier.input <= POLLUX_TABLE)
        return earlier;
    if (verdict && earlier.number == 0 && earlier.input == 0 && earlier.value == 0)
        return earlier;
    return (struct pollux_answer){ POLLUX_REFUSED, POLLUX_ENTRY_RULE, POLLUX_ENTRY, 0 };
}

struct pollux_rechecked plain_recheck(const uint8_t *text, size_t text_length, const uint8_t *list, size_t list_length,
                                      const uint8_t *old, size_t old_length, struct pollux_answer earlier, const uint8_t *new,
                                      size_t new_length)
{
    struct tokens tokens;
    struct tree tree;
    struct pollux_answer answer, unused;
    if (!checked_tree(text, text_length, list, list_length, &tokens, &tree, &answer) ||
        !check_entry(list, list_length, new, new_length, &answer))
        return tell(answer, false);
    if (check_entry(list, list_length, old, old_length, &unused) && same_in(named_in(&tree), old, new))
        return tell(heard(earlier), true);
    return tell(verdict(holds_at(&tree, list, new, tree.count - 1), 0), false);
}
