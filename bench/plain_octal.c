/* A text on file with its octal numerals in hex: refusals 1, 5, 6 and 7 by the old rules, and 21. */
#include "plain_parts.h"

enum { HEX_BITS = 4 };

/* The result so far. It is never longer than the text: "0x" is as long as "0o", and no number has more digits in hex than in octal. */
struct fixed {
    uint8_t at[POLLUX_MAX_TEXT];
    size_t length;
};

static void copy(struct fixed *fixed, const uint8_t *bytes, size_t length)
{
    memcpy(fixed->at + fixed->length, bytes, length);
    fixed->length += length;
}

static size_t hex_digits(number value)
{
    size_t digits = 1;
    while (value >>= HEX_BITS)
        digits++;
    return digits;
}

static void write_hex(struct fixed *fixed, number value)
{
    copy(fixed, (const uint8_t *)"0x", 2);
    for (size_t left = hex_digits(value); left-- > 0;)
        fixed->at[fixed->length++] = (uint8_t)"0123456789abcdef"[value >> left * HEX_BITS & 0xf];
}

/* What stands between two octal numerals is copied at once, strings and comments included. */
static void fix(const uint8_t *text, size_t length, const struct tokens *tokens, struct fixed *fixed)
{
    size_t copied = 0;
    fixed->length = 0;
    for (const struct token *token = tokens->at; token->sign != END; token++) {
        if (token->base != OCTAL)
            continue;
        copy(fixed, text + copied, token->place - copied);
        write_hex(fixed, token->value);
        copied = (size_t)token->place + token->length;
    }
    copy(fixed, text + copied, length - copied);
}

struct pollux_answer plain_fix_octal(const uint8_t *text, size_t text_length, uint8_t *buffer, size_t buffer_length)
{
    struct tokens tokens;
    struct fixed fixed;
    struct pollux_answer answer;
    if (!check_length(text_length, &answer) || !read_old_tokens(text, text_length, &tokens, &answer))
        return answer;
    fix(text, text_length, &tokens, &fixed);
    if (fixed.length > buffer_length) {
        refuse(&answer, POLLUX_PRINT_LONG, POLLUX_BUFFER, buffer_length);
        return answer;
    }
    memcpy(buffer, fixed.at, fixed.length);
    return done(fixed.length);
}
