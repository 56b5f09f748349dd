/* Bytes to tokens: refusals 5, 6, 7 and 22. */
#include "plain_parts.h"

static size_t skip_blanks(const uint8_t *text, size_t length, size_t at)
{
    while (at < length) {
        uint8_t byte = text[at];
        if (byte == ' ' || byte == '\t' || byte == '\r' || byte == '\n') {
            at++;
        } else if (byte == '/' && at + 1 < length && text[at + 1] == '/') {
            while (at < length && text[at] != '\n')
                at++;
        } else {
            break;
        }
    }
    return at;
}

static unsigned digit_of(uint8_t byte)
{
    if (byte >= '0' && byte <= '9')
        return byte - '0';
    if (byte >= 'a' && byte <= 'f')
        return byte - 'a' + 10;
    if (byte >= 'A' && byte <= 'F')
        return byte - 'A' + 10;
    return 16;
}

/* Returns 0, or the refusal's number. All digits are looked at: a late one may show that there is no numeral at all. */
static unsigned read_digits(const uint8_t *digits, size_t length, uint8_t base, struct token *token)
{
    const number largest = ~(number)0 / base;
    number value = 0;
    bool too_large = false;
    if (length == 0)
        return POLLUX_NO_TOKEN;
    for (size_t i = 0; i < length; i++) {
        unsigned digit = digit_of(digits[i]);
        if (digit >= base)
            return POLLUX_NO_TOKEN;
        too_large |= value > largest;
        value = value * base + digit;
        too_large |= value < digit;
    }
    token->value = value;
    token->base = base;
    return too_large ? POLLUX_NUMERAL_LARGE : 0;
}

static unsigned read_numeral(const uint8_t *run, size_t length, struct token *token)
{
    switch (length >= 2 && run[0] == '0' ? run[1] : 0) {
    case 'b': case 'B': return read_digits(run + 2, length - 2, 2, token);
    case 'o': case 'O': return read_digits(run + 2, length - 2, OCTAL, token);
    case 'd': case 'D': return read_digits(run + 2, length - 2, 10, token);
    case 'x': case 'X': return read_digits(run + 2, length - 2, 16, token);
    default: return read_digits(run, length, 10, token);
    }
}

static size_t run_length(const uint8_t *at, size_t length)
{
    size_t end = 0;
    while (end < length && continues_word(at[end]))
        end++;
    return end;
}

/* The length of a string with its quotes, or 0. */
static size_t string_length(const uint8_t *at, size_t length)
{
    for (size_t end = 1; end < length && at[end] != '\n'; end++)
        if (at[end] == '\'')
            return end + 1;
    return 0;
}

static size_t read_sign(const uint8_t *at, size_t length, uint8_t *sign)
{
    uint8_t second = length > 1 ? at[1] : 0;
    switch (at[0]) {
    case ';': *sign = SEMICOLON; return 1;
    case '(': *sign = OPEN; return 1;
    case ')': *sign = CLOSE; return 1;
    case '-': *sign = second == '>' ? ARROW : MINUS; return second == '>' ? 2 : 1;
    case '!': *sign = second == '=' ? NOT_EQUAL : NOT; return second == '=' ? 2 : 1;
    case '>': *sign = second == '=' ? GREATER_EQUAL : GREATER; return second == '=' ? 2 : 1;
    case '<': *sign = second == '=' ? LESS_EQUAL : LESS; return second == '=' ? 2 : 1;
    case '=': *sign = EQUAL; return second == '=' ? 2 : 0;
    case '|': *sign = OR; return second == '|' ? 2 : 0;
    case '&': *sign = AND; return second == '&' ? 2 : 0;
    case ':': *sign = COLONS; return second == ':' ? 2 : 0;
    default: return 0;
    }
}

/* Reads the token at the front of these bytes. Returns 0, or the refusal's number. */
static unsigned read_token(const uint8_t *at, size_t length, struct token *token)
{
    size_t end;
    if (starts_word(at[0])) {
        token->sign = WORD;
        end = word_length(at, length);
    } else if (at[0] >= '0' && at[0] <= '9') {
        token->sign = NUMERAL;
        end = run_length(at, length);
        unsigned why = read_numeral(at, end, token);
        if (why != 0)
            return why;
    } else if (at[0] == '\'') {
        token->sign = STRING;
        end = string_length(at, length);
    } else {
        end = read_sign(at, length, &token->sign);
    }
    token->length = (uint16_t)end;
    return end == 0 ? POLLUX_NO_TOKEN : 0;
}

/* A numeral that has a base is well-formed: where octal goes, it is refused for that whatever its size. */
static inline bool cut(const uint8_t *text, size_t length, bool octal_goes, struct tokens *tokens, struct pollux_answer *answer)
{
    size_t count = 0, at = skip_blanks(text, length, 0);
    while (at < length) {
        struct token token = { .place = (uint16_t)at };
        unsigned why = read_token(text + at, length - at, &token);
        if (octal_goes && token.base == OCTAL)
            why = POLLUX_OCTAL;
        if ((why == 0 || why == POLLUX_OCTAL) && count == POLLUX_MAX_TOKENS)
            why = POLLUX_TOKENS_MANY;
        if (why != 0)
            return refuse(answer, why, POLLUX_TEXT, at);
        tokens->at[count++] = token;
        at = skip_blanks(text, length, at + token.length);
    }
    tokens->at[count] = (struct token){ .sign = END, .place = (uint16_t)length };
    return true;
}

bool read_tokens(const uint8_t *text, size_t length, struct tokens *tokens, struct pollux_answer *answer)
{
    return cut(text, length, true, tokens, answer);
}

bool read_old_tokens(const uint8_t *text, size_t length, struct tokens *tokens, struct pollux_answer *answer)
{
    return cut(text, length, false, tokens, answer);
}
