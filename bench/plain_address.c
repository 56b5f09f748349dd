/* Address strings to numbers. */
#include "plain_parts.h"

static int hex_digit(uint8_t byte)
{
    if (byte >= '0' && byte <= '9')
        return byte - '0';
    if (byte >= 'a' && byte <= 'f')
        return byte - 'a' + 10;
    if (byte >= 'A' && byte <= 'F')
        return byte - 'A' + 10;
    return -1;
}

/* Four decimals from 0 to 255, without leading zeros. */
static bool read_ipv4(const uint8_t *at, size_t length, number *value)
{
    size_t i = 0;
    *value = 0;
    for (int part = 0; part < 4; part++) {
        unsigned decimal = 0;
        size_t start = i;
        while (i < length && i - start < 3 && at[i] >= '0' && at[i] <= '9')
            decimal = decimal * 10 + (at[i++] - '0');
        if (i == start || decimal > 255 || (i - start > 1 && at[start] == '0'))
            return false;
        if (part < 3 && (i >= length || at[i++] != '.'))
            return false;
        *value = *value << 8 | decimal;
    }
    return i == length;
}

/* Six pairs of hex digits. */
static bool read_mac(const uint8_t *at, size_t length, number *value)
{
    *value = 0;
    if (length != 17)
        return false;
    for (size_t i = 0; i < length; i++) {
        int digit = hex_digit(at[i]);
        if (i % 3 == 2 ? at[i] != ':' : digit < 0)
            return false;
        if (i % 3 != 2)
            *value = *value << 4 | (unsigned)digit;
    }
    return true;
}

/* Groups of 1 to 4 hex digits with colons between them, up to the end or to "::". Returns their count, or -1. */
static int read_groups(const uint8_t *at, size_t length, size_t *i, number *value)
{
    int groups = 0;
    *value = 0;
    for (;;) {
        unsigned group = 0;
        size_t start = *i;
        while (*i < length && hex_digit(at[*i]) >= 0)
            group = group << 4 | (unsigned)hex_digit(at[(*i)++]);
        if (*i == start || *i - start > 4 || groups == 8)
            return -1;
        *value = *value << 16 | group;
        groups++;
        if (*i == length || (*i + 1 < length && at[*i] == ':' && at[*i + 1] == ':'))
            return groups;
        if (at[(*i)++] != ':')
            return -1;
    }
}

/* Eight groups, or fewer with one "::" for the missing ones. */
static bool read_ipv6(const uint8_t *at, size_t length, number *value)
{
    size_t i = 0;
    int before = 0, after = 0;
    number high = 0, low = 0;
    bool gap_first = length >= 2 && at[0] == ':' && at[1] == ':';
    if (!gap_first) {
        before = read_groups(at, length, &i, &high);
        if (before < 0)
            return false;
        if (i == length) {
            *value = high;
            return before == 8;
        }
    }
    i += 2;
    if (i < length) {
        after = read_groups(at, length, &i, &low);
        if (after < 0 || i < length)
            return false;
    }
    if (before + after > 7)
        return false;
    *value = before == 0 ? low : high << (16 * (8 - before)) | low;
    return true;
}

bool read_address(const uint8_t *word, size_t word_length, const uint8_t *contents, size_t length, number *value)
{
    if (word_length == 3)
        return read_mac(contents, length, value);
    return word[3] == '4' ? read_ipv4(contents, length, value) : read_ipv6(contents, length, value);
}
