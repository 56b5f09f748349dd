/* Values, and what each operator makes of them. The types were checked, so a value does not know its own. */
#ifndef PLAIN_VALUES_H
#define PLAIN_VALUES_H

#include "plain_parts.h"

struct value {
    number first;  /* a bool's 0 or 1, an int's magnitude, a number of W bits, a match's value or low */
    number second; /* a match's mask, prefix length or high */
    uint8_t width; /* 0 for bool and int */
    bool negative; /* of an int, and never of zero */
};

static inline struct value whole_value(number magnitude)
{
    return (struct value){ .first = magnitude };
}

static inline struct value priority_value(const uint8_t *entry)
{
    return whole_value((number)short_at(entry) << 16 | short_at(entry + 2));
}

static inline struct value key_value(const uint8_t *list, const uint8_t *entry, size_t key)
{
    struct type type = key_type(list, key);
    const uint8_t *record = entry + POLLUX_ENTRY_SIZE(key);
    struct value value = { .first = number_at(record + 4), .second = number_at(record + 20), .width = type.width };
    if (type.kind == LPM)
        value.second = record[1];
    if (type.kind == RANGE && record[0] == 0)
        value.second = all_ones(type.width);
    return value;
}

static inline struct value field_value(const uint8_t *list, const uint8_t *entry, size_t key, unsigned field)
{
    struct value value = key_value(list, entry, key);
    if (field == PREFIX_LENGTH)
        return whole_value(value.second);
    return (struct value){ .first = field == VALUE || field == LOW ? value.first : value.second, .width = value.width };
}

static inline struct value minus(struct value value)
{
    if (value.width == 0)
        value.negative = !value.negative && value.first != 0;
    else
        value.first = -value.first & all_ones(value.width);
    return value;
}

static inline struct value convert(struct value value, struct type to)
{
    number reduced = (value.negative ? -value.first : value.first) & all_ones(to.width);
    struct value converted = { .first = reduced, .width = to.width };
    switch (to.kind) {
    case EXACT: break;
    case LPM: converted.second = to.width; break;
    case RANGE: converted.second = reduced; break;
    default: converted.second = all_ones(to.width);
    }
    return converted;
}

static inline bool less(struct value left, struct value right)
{
    if (left.negative != right.negative)
        return left.negative;
    return left.negative ? right.first < left.first : left.first < right.first;
}

static inline bool compare(unsigned comparison, struct value left, struct value right)
{
    bool equal = left.first == right.first && left.second == right.second && left.negative == right.negative;
    switch (comparison) {
    case 0: return equal;
    case 1: return !equal;
    case 2: return less(right, left);
    case 3: return !less(left, right);
    case 4: return less(left, right);
    default: return !less(right, left);
    }
}

#endif
