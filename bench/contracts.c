#include "contracts.h"

#include <stdlib.h>
#include <string.h>

#include "../examples/switch/files.h"
#include "plain.h"
#include "sheet.h"
#include "timing.h"

static struct input file_of(const char *folder, const char *name)
{
    char path[4096];
    snprintf(path, sizeof path, "%s/%s", folder, name);
    struct bytes file = read_file(path);
    return (struct input){ file.at, file.length };
}

/* ---- The example, with six inputs and five user numbers. */

static struct input numbers_of(struct input lines)
{
    enum { LONGEST = POLLUX_MAX_USER_NUMBERS * 32 };
    static uint64_t numbers[POLLUX_MAX_USER_NUMBERS];
    char text[LONGEST + 1], *at = text, *end;
    size_t count = 0;
    if (lines.length > LONGEST) {
        fprintf(stderr, "the user numbers take more than %d bytes\n", LONGEST);
        exit(3);
    }
    memcpy(text, lines.at, lines.length);
    text[lines.length] = '\0';
    for (; count < POLLUX_MAX_USER_NUMBERS; count++, at = end) {
        numbers[count] = strtoul(at, &end, 10);
        if (end == at)
            break;
    }
    return (struct input){ (uint8_t *)numbers, count * sizeof numbers[0] };
}

static struct contract terms(const char *folder)
{
    return (struct contract){ "terms", file_of(folder, "terms.contract"), file_of(folder, "terms.list"),
                              numbers_of(file_of(folder, "terms.numbers")) };
}

/* ---- At the limit of tokens: assertions that an input is at least the first user number, a clause each. */

static struct contract limit(void)
{
    enum { AT_LEAST_A_USER_NUMBER = 0x08, ASSERTION_SIZE = 2, ASSERTIONS = POLLUX_MAX_TOKENS / 4 };
    static uint8_t bytes[ASSERTIONS * ASSERTION_SIZE];
    static uint8_t names[POLLUX_KEY_SIZE] = { [0] = 3, [2] = POLLUX_INPUT_WIDTH, [16] = 'k', '0', '0' };
    static uint64_t numbers[] = { 1 };
    for (size_t at = 0; at < sizeof bytes; at += ASSERTION_SIZE)
        bytes[at] = AT_LEAST_A_USER_NUMBER;
    return (struct contract){ "limit", { bytes, sizeof bytes }, { names, sizeof names }, { (uint8_t *)numbers, sizeof numbers } };
}

void make_contracts(struct contract contracts[CONTRACTS], const char *folder)
{
    contracts[0] = terms(folder);
    contracts[1] = limit();
}

/* ---- Times. */

#define DRAFT(name, pact)                                                                                                        \
    static uint64_t name(const void *with)                                                                                       \
    {                                                                                                                            \
        static uint8_t buffer[POLLUX_MAX_TEXT];                                                                                  \
        const struct contract *it = with;                                                                                        \
        return pact(it->bytes.at, it->bytes.length, (const uint64_t *)it->numbers.at, it->numbers.length / sizeof(uint64_t),     \
                    it->names.at, it->names.length, buffer, sizeof buffer)                                                       \
            .value;                                                                                                              \
    }

DRAFT(draft_pollux, pollux_pact)
DRAFT(draft_plain, plain_pact)

static void measure_contract(const struct contract *contract, const struct column columns[])
{
    double pollux = 0, plain = 0;
    for (int round = 0; round < ROUNDS; round++) {
        double ours = rate(draft_pollux, contract), others = rate(draft_plain, contract);
        pollux = ours > pollux ? ours : pollux;
        plain = others > plain ? others : plain;
    }
    sheet_word(&columns[0], contract->name);
    sheet_number(&columns[1], (double)contract->bytes.length, 0);
    sheet_number(&columns[2], (double)draft_plain(contract), 0);
    sheet_time(&columns[3], 1e9 / pollux);
    sheet_time(&columns[4], 1e9 / plain);
    sheet_number(&columns[5], plain / pollux, 2);
    sheet_end();
}

void measure_contracts(const struct contract contracts[CONTRACTS])
{
    static const struct column columns[] = { { "contract", -13 }, { "bytes", 6 },    { "bytes of its text", 18 },
                                             { "pact", 10 },      { "plain C", 10 }, { "ratio", 6 } };
    printf("\nA Pact contract into a text: nanoseconds a call, and how many times longer Polluxvalve takes.\n");
    sheet_head(columns, sizeof columns / sizeof columns[0]);
    for (int i = 0; i < CONTRACTS; i++)
        measure_contract(&contracts[i], columns);
}
