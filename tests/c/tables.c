/*
 * Runs blocks on more entries in one call than a request has room for, a byte for each: as many as that and more bytes for answers, and one too few,
 * and entries of which the last is cut. Of the answers those of entries may change, and none on a refusal.
 *
 *   tables
 *
 * The last line is 'N passed, M failed'; the status is 0 if M is 0.
 */
#include <inttypes.h>
#include <stdio.h>
#include <string.h>

#include "pollux.h"

enum { PRIORITIES = 16, BAD_EVERY = 1000, MANY = 1100000, SPARE = 5, ONE_KEY = POLLUX_ENTRY_SIZE(1), ONE_KEY_MANY = 100000, FILL = 0xa5 };

/* Entries of 4 bytes, for a list without keys, and of 40, for a list of one key; all of these lack it, though an exact key must be there. */
static uint8_t priorities[(MANY + 1) * POLLUX_PRIORITY_SIZE];
static uint8_t absent[ONE_KEY_MANY * ONE_KEY];
static uint8_t one_key[POLLUX_KEY_SIZE] = { 1, 0, 1, [POLLUX_KEY_SIZE - POLLUX_MAX_NAME] = 'v' };

struct blocks {
    uint8_t at[POLLUX_BLOCK_SIZE];
    size_t length;
};

static struct blocks by_priority, by_key;

/* Priorities below 16 in turn, and now and then one that no entry may have. */
static void make_priorities(void)
{
    for (size_t k = 0; k < MANY + 1; k++) {
        priorities[k * POLLUX_PRIORITY_SIZE] = k % BAD_EVERY == BAD_EVERY - 1 ? 0x80 : 0;
        priorities[k * POLLUX_PRIORITY_SIZE + 3] = (uint8_t)(k % PRIORITIES);
    }
}

static void translate(struct blocks *into, const char *text, size_t list_length)
{
    struct pollux_answer made = pollux_translate((const uint8_t *)text, strlen(text), one_key, list_length, into->at, sizeof into->at);
    into->length = made.says == POLLUX_DONE ? POLLUX_BLOCKS_SIZE(made.value) : 0;
}

struct result {
    struct pollux_table answer;
    uint8_t answers[MANY + SPARE];
};

static struct result expected, got;

/* What the entries of a length get one by one. */
static void expect_each(size_t list_length, const struct blocks *blocks, const uint8_t *entries, size_t length)
{
    size_t size = POLLUX_ENTRY_SIZE(list_length / POLLUX_KEY_SIZE);
    memset(expected.answers, FILL, sizeof expected.answers);
    expected.answer = (struct pollux_table){ .says = POLLUX_DONE, .value = length / size };
    for (size_t k = 0; k < length / size; k++) {
        struct pollux_answer one = pollux_run(one_key, list_length, blocks->at, blocks->length, entries + k * size, size);
        expected.answers[k] = (uint8_t)one.says;
        expected.answer.steps += one.says == POLLUX_REFUSED ? 0 : one.value;
    }
}

static void expect_refusal(uint64_t number, uint64_t input, uint64_t at)
{
    memset(expected.answers, FILL, sizeof expected.answers);
    expected.answer = (struct pollux_table){ .says = POLLUX_REFUSED, .number = number, .input = input, .value = at };
}

static unsigned passed, failed;

static void tell(const char *who, const struct result *it)
{
    const struct pollux_table *a = &it->answer;
    printf("  %s: says %" PRIu64 ", number %" PRIu64 ", input %" PRIu64 ", value %" PRIu64 ", steps %" PRIu64 "; answers %u %u %u %u ..\n", who,
           a->says, a->number, a->input, a->value, a->steps, it->answers[0], it->answers[1], it->answers[2], it->answers[3]);
}

/* A call on a list of a length, blocks, entries of a length, and so many bytes for answers. */
static void try_call(const char *what, size_t list_length, const struct blocks *blocks, const uint8_t *entries, size_t length, size_t answers)
{
    memset(got.answers, FILL, sizeof got.answers);
    got.answer = pollux_run_all(one_key, list_length, blocks->at, blocks->length, entries, length, got.answers, answers);
    if (memcmp(&got.answer, &expected.answer, sizeof got.answer) == 0 && memcmp(got.answers, expected.answers, sizeof got.answers) == 0) {
        passed++;
        return;
    }
    failed++;
    printf("FAILED: %s\n", what);
    tell("got", &got);
    tell("expected", &expected);
}

static void try_priorities(const char *what, size_t entries, size_t answers)
{
    size_t length = entries * POLLUX_PRIORITY_SIZE;
    if (answers < entries)
        expect_refusal(POLLUX_BUFFER_SHORT, POLLUX_BUFFER, answers);
    else
        expect_each(0, &by_priority, priorities, length);
    try_call(what, 0, &by_priority, priorities, length, answers);
}

static void try_cut(const char *what, size_t length, size_t answers)
{
    expect_refusal(POLLUX_ENTRY_LENGTH, POLLUX_ENTRY, length);
    try_call(what, 0, &by_priority, priorities, length, answers);
}

int main(void)
{
    const size_t all = (size_t)MANY * POLLUX_PRIORITY_SIZE;
    make_priorities();
    translate(&by_priority, "::priority < 10 || ::priority == 12", 0);
    translate(&by_key, "v == 0", sizeof one_key);
    try_priorities("no entry, no byte for answers", 0, 0);
    try_priorities("no entry", 0, SPARE);
    try_priorities("an entry, no byte for answers", 1, 0);
    try_priorities("an entry", 1, 1);
    try_priorities("1,100,000 entries, bytes for answers to spare", MANY, MANY + SPARE);
    try_priorities("1,100,000 entries, a byte for each", MANY, MANY);
    try_priorities("1,100,000 entries, a byte too few", MANY, MANY - 1);
    try_priorities("1,100,001 entries, a byte too few", MANY + 1, MANY);
    try_cut("a byte less than 1,100,000 entries", all - 1, MANY);
    try_cut("a byte more", all + 1, MANY);
    try_cut("three bytes more, and too few bytes for answers", all + 3, MANY - 1);
    expect_each(sizeof one_key, &by_key, absent, sizeof absent);
    try_call("100,000 entries that are refused", sizeof one_key, &by_key, absent, sizeof absent, ONE_KEY_MANY + SPARE);
    expect_refusal(POLLUX_BLOCK_LAYOUT, POLLUX_BLOCKS, 0);
    try_call("blocks of a key, a list without, a cut entry", 0, &by_key, priorities, all + 1, 0);
    expect_refusal(POLLUX_BLOCKS_LENGTH, POLLUX_BLOCKS, 0);
    try_call("no blocks, a cut entry", 0, &(struct blocks){ { 0 }, 0 }, priorities, all + 1, 0);
    expect_refusal(POLLUX_LIST_LENGTH, POLLUX_LIST, sizeof one_key - 1);
    try_call("a cut list, no blocks", sizeof one_key - 1, &(struct blocks){ { 0 }, 0 }, priorities, all + 1, 0);
    printf("%u passed, %u failed\n", passed, failed);
    return failed == 0 ? 0 : 1;
}
