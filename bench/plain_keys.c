/* Key lists and entries: refusals 2, 3, 4, 19 and 20. */
#include "plain_parts.h"

bool starts_word(uint8_t byte)
{
    return (byte >= 'a' && byte <= 'z') || (byte >= 'A' && byte <= 'Z') || byte == '_';
}

bool continues_word(uint8_t byte)
{
    return starts_word(byte) || (byte >= '0' && byte <= '9');
}

/* The longest word at the front, dots included; 0 if there is none. */
size_t word_length(const uint8_t *at, size_t length)
{
    size_t end = 0;
    while (end < length && starts_word(at[end])) {
        while (end < length && continues_word(at[end]))
            end++;
        if (end + 1 >= length || at[end] != '.' || !starts_word(at[end + 1]))
            break;
        end++;
    }
    return end;
}

static bool is(const uint8_t *name, size_t length, const char *word)
{
    return length == strlen(word) && memcmp(name, word, length) == 0;
}

static bool good_record(const uint8_t *record)
{
    const uint8_t *name = record + 16;
    size_t length = record[0];
    return length >= 1 && length <= POLLUX_MAX_NAME && record[1] <= OPTIONAL && record[2] >= 1 &&
           record[2] <= POLLUX_MAX_WIDTH && record[POLLUX_KEY_FLAG] <= POLLUX_REQUIRED && all_zero(record + 4, 12) &&
           word_length(name, length) == length &&
           all_zero(name + length, POLLUX_MAX_NAME - length) && !is(name, length, "true") && !is(name, length, "false");
}

int find_key(const uint8_t *list, size_t length, const uint8_t *name, size_t name_length)
{
    for (size_t at = 0; at < length; at += POLLUX_KEY_SIZE)
        if (list[at] == name_length && memcmp(list + at + 16, name, name_length) == 0)
            return (int)(at / POLLUX_KEY_SIZE);
    return -1;
}

bool check_list(const uint8_t *list, size_t length, struct pollux_answer *answer)
{
    if (length % POLLUX_KEY_SIZE != 0 || length > POLLUX_MAX_LIST)
        return refuse(answer, POLLUX_LIST_LENGTH, POLLUX_LIST, length);
    for (size_t at = 0; at < length; at += POLLUX_KEY_SIZE) {
        if (!good_record(list + at))
            return refuse(answer, POLLUX_KEY_LAYOUT, POLLUX_LIST, at);
        if (find_key(list, at, list + at + 16, list[at]) >= 0)
            return refuse(answer, POLLUX_KEY_REPEATED, POLLUX_LIST, at);
    }
    return true;
}

bool has_field(unsigned kind, unsigned field)
{
    switch (kind) {
    case EXACT: return field == VALUE;
    case LPM: return field == VALUE || field == PREFIX_LENGTH;
    case RANGE: return field == LOW || field == HIGH;
    default: return field == VALUE || field == MASK;
    }
}

struct type field_type(struct type key, unsigned field)
{
    return field == PREFIX_LENGTH ? (struct type){ INT, 0 } : (struct type){ EXACT, key.width };
}

static bool keeps_kind_rule(struct type key, unsigned prefix_length, number first, number second)
{
    switch (key.kind) {
    case EXACT: return prefix_length == 0 && second == 0;
    case TERNARY: return prefix_length == 0 && (first & ~second) == 0;
    case OPTIONAL: return prefix_length == 0 && (first & ~second) == 0 && (second == 0 || second == all_ones(key.width));
    case RANGE: return prefix_length == 0 && first <= second;
    default: /* LPM */
        if (second != 0 || prefix_length > key.width)
            return false;
        return prefix_length == key.width || (first & all_ones(key.width - prefix_length)) == 0;
    }
}

static bool may_be_absent(const uint8_t *list, size_t key)
{
    const uint8_t *record = list + key * POLLUX_KEY_SIZE;
    return record[1] != EXACT && record[POLLUX_KEY_FLAG] != POLLUX_REQUIRED;
}

static bool conforms(const uint8_t *list, size_t index, const uint8_t *record)
{
    if (record[0] == 0)
        return may_be_absent(list, index) && all_zero(record, POLLUX_RECORD_SIZE);
    struct type key = key_type(list, index);
    number first = number_at(record + 4), second = number_at(record + 20);
    number largest = all_ones(key.width);
    return record[0] == 1 && record[2] == 0 && record[3] == 0 && first <= largest && second <= largest &&
           keeps_kind_rule(key, record[1], first, second);
}

bool check_entry(const uint8_t *list, size_t list_length, const uint8_t *entry, size_t length, struct pollux_answer *answer)
{
    size_t keys = list_length / POLLUX_KEY_SIZE;
    if (length != POLLUX_ENTRY_SIZE(keys))
        return refuse(answer, POLLUX_ENTRY_LENGTH, POLLUX_ENTRY, length);
    if (entry[0] >= 128)
        return refuse(answer, POLLUX_ENTRY_RULE, POLLUX_ENTRY, 0);
    for (size_t key = 0; key < keys; key++) {
        size_t at = POLLUX_ENTRY_SIZE(key);
        if (!conforms(list, key, entry + at))
            return refuse(answer, POLLUX_ENTRY_RULE, POLLUX_ENTRY, at);
    }
    return true;
}
