/* Entries that lie end to end, counted by the parts of a text: refusal 25. */
#include "plain_parts.h"

bool read_rule(const uint8_t *text, size_t text_length, const uint8_t *list, size_t list_length, struct rule *rule,
               struct pollux_answer *answer)
{
    struct tokens tokens;
    struct part parts[POLLUX_MAX_PARTS];
    if (!checked_tree(text, text_length, list, list_length, &tokens, &rule->tree, answer))
        return false;
    rule->count = find_parts(&tokens, &rule->tree, parts);
    for (size_t k = 0; k < rule->count; k++)
        rule->roots[k] = (uint16_t)parts[k].root;
    return true;
}

void count_entry(const struct rule *rule, const uint8_t *list, size_t list_length, const uint8_t *entry, size_t size,
                 struct pollux_counts *counts, uint64_t parts[POLLUX_MAX_PARTS])
{
    struct pollux_answer answer;
    if (!check_entry(list, list_length, entry, size, &answer)) {
        counts->refused++;
        return;
    }
    bool all = true;
    for (size_t k = 0; k < rule->count; k++)
        if (!holds_at(&rule->tree, list, entry, rule->roots[k])) {
            parts[k]++;
            all = false;
        }
    *(all ? &counts->accepted : &counts->violated) += 1;
}

static bool check_many(size_t whole, size_t size, struct pollux_answer *answer)
{
    return whole <= POLLUX_MAX_ENTRIES || refuse(answer, POLLUX_ENTRIES_MANY, POLLUX_ENTRY, POLLUX_MAX_ENTRIES * size);
}

struct pollux_counts plain_count(const uint8_t *text, size_t text_length, const uint8_t *list, size_t list_length,
                                 const uint8_t *entries, size_t entries_length, uint64_t parts[POLLUX_MAX_PARTS])
{
    struct rule rule;
    struct pollux_answer answer;
    size_t size = POLLUX_ENTRY_SIZE(list_length / POLLUX_KEY_SIZE), whole = entries_length / size;
    if (!read_rule(text, text_length, list, list_length, &rule, &answer) || !check_many(whole, size, &answer))
        return (struct pollux_counts){ answer.says, answer.number, answer.input, answer.value, 0, 0, 0, 0 };
    struct pollux_counts counts = { .says = POLLUX_DONE, .value = rule.count, .cut = entries_length % size };
    memset(parts, 0, rule.count * sizeof parts[0]);
    for (size_t i = 0; i < whole; i++)
        count_entry(&rule, list, list_length, entries + i * size, size, &counts, parts);
    return counts;
}
