/*
 * Counts more entries than a request has room for: as many as are counted at one time, with a cut one after them and without, and one more.
 * Of the numbers for the parts those of the text's parts may change, and none on a refusal.
 *
 *   counts
 *
 * The last line is 'N passed, M failed'; the status is 0 if M is 0.
 */
#include <inttypes.h>
#include <stdbool.h>
#include <stdio.h>
#include <string.h>

#include "pollux.h"

enum { PRIORITIES = 16, PARTS = 4, BAD_EVERY = 1000, ONE_KEY = POLLUX_ENTRY_SIZE(1) };

/* Entries of 4 bytes, for a list without keys, and of 40, for a list of one key; of either one more than are counted, and a cut one. */
static uint8_t priorities[(POLLUX_MAX_ENTRIES + 2) * POLLUX_PRIORITY_SIZE];
static uint8_t absent[(size_t)(POLLUX_MAX_ENTRIES + 2) * ONE_KEY];
static uint8_t one_key[POLLUX_KEY_SIZE] = { 1, 0, 1, [POLLUX_KEY_SIZE - POLLUX_MAX_NAME] = 'v' };

/* Priorities below 16 in turn, and now and then one that no entry may have. */
static bool is_bad(size_t k)
{
    return k % BAD_EVERY == BAD_EVERY - 1;
}

static void make_priorities(void)
{
    for (size_t k = 0; k < POLLUX_MAX_ENTRIES + 2; k++) {
        priorities[k * POLLUX_PRIORITY_SIZE] = is_bad(k) ? 0x80 : 0;
        priorities[k * POLLUX_PRIORITY_SIZE + 3] = (uint8_t)(k % PRIORITIES);
    }
}

/* A text of four parts, and the same parts in C. */
static const char text[] = "::priority < 10; ::priority != 3; true; ::priority < 12 && ::priority > 1";

static bool part_is_true(int part, size_t priority)
{
    switch (part) {
    case 0: return priority < 10;
    case 1: return priority != 3;
    case 2: return true;
    default: return priority < 12 && priority > 1;
    }
}

struct result {
    struct pollux_counts answer;
    uint64_t parts[POLLUX_MAX_PARTS];
};

/* What stands in the numbers for the parts before a call. */
static void fill(uint64_t parts[POLLUX_MAX_PARTS])
{
    for (size_t k = 0; k < POLLUX_MAX_PARTS; k++)
        parts[k] = ~(uint64_t)k;
}

static struct result expected_count(size_t length)
{
    struct result it = { .answer = { .says = POLLUX_DONE, .value = PARTS, .cut = length % POLLUX_PRIORITY_SIZE } };
    fill(it.parts);
    memset(it.parts, 0, PARTS * sizeof it.parts[0]);
    for (size_t k = 0; k < length / POLLUX_PRIORITY_SIZE; k++) {
        bool all = true;
        for (int part = 0; part < PARTS && !is_bad(k); part++) {
            bool good = part_is_true(part, k % PRIORITIES);
            it.parts[part] += !good;
            all = all && good;
        }
        uint64_t *total = is_bad(k) ? &it.answer.refused : all ? &it.answer.accepted : &it.answer.violated;
        ++*total;
    }
    return it;
}

static struct result refusal(uint64_t number, uint64_t input, uint64_t at)
{
    struct result it = { .answer = { .says = POLLUX_REFUSED, .number = number, .input = input, .value = at } };
    fill(it.parts);
    return it;
}

static unsigned passed, failed;

static void tell(const char *who, const struct result *it)
{
    const struct pollux_counts *a = &it->answer;
    printf("  %s: says %" PRIu64 ", number %" PRIu64 ", input %" PRIu64 ", value %" PRIu64 ", accepted %" PRIu64 ", violated %" PRIu64
           ", refused %" PRIu64 ", cut %" PRIu64 "; parts %" PRIu64 " %" PRIu64 " %" PRIu64 " %" PRIu64 " ..\n",
           who, a->says, a->number, a->input, a->value, a->accepted, a->violated, a->refused, a->cut, it->parts[0], it->parts[1], it->parts[2],
           it->parts[3]);
}

static void hold(const char *what, const struct result *got, const struct result *expected)
{
    if (memcmp(got, expected, sizeof *got) == 0) {
        passed++;
        return;
    }
    failed++;
    printf("FAILED: %s\n", what);
    tell("got", got);
    tell("expected", expected);
}

/* A call on a text, a list of a length, and entries of a length. */
static void try_call(const char *what, const char *text, size_t list_length, const uint8_t *entries, size_t length, struct result expected)
{
    static struct result got;
    fill(got.parts);
    got.answer = pollux_count((const uint8_t *)text, strlen(text), one_key, list_length, entries, length, got.parts);
    hold(what, &got, &expected);
}

static void try_priorities(const char *what, size_t length)
{
    try_call(what, text, 0, priorities, length, expected_count(length));
}

int main(void)
{
    const size_t most = (size_t)POLLUX_MAX_ENTRIES * POLLUX_PRIORITY_SIZE, most_absent = (size_t)POLLUX_MAX_ENTRIES * ONE_KEY;
    const struct result many = refusal(POLLUX_ENTRIES_MANY, POLLUX_ENTRY, most);
    make_priorities();
    try_priorities("no entry", 0);
    try_priorities("a cut entry", 3);
    try_priorities("a byte less than 1,000,000 entries", most - 1);
    try_priorities("1,000,000 entries", most);
    try_priorities("1,000,000 entries and a cut one", most + 3);
    try_call("1,000,001 entries", text, 0, priorities, most + POLLUX_PRIORITY_SIZE, many);
    try_call("1,000,001 entries and a cut one", text, 0, priorities, most + POLLUX_PRIORITY_SIZE + 3, many);
    try_call("1,000,002 entries", text, 0, priorities, sizeof priorities, many);
    try_call("1,000,001 entries of one key", "v == 0", sizeof one_key, absent, most_absent + ONE_KEY,
             refusal(POLLUX_ENTRIES_MANY, POLLUX_ENTRY, most_absent));
    try_call("a refused text before 1,000,001 entries", "true;;", 0, priorities, sizeof priorities, refusal(POLLUX_GRAMMAR, POLLUX_TEXT, 5));
    try_call("a refused list before them", "true;;", sizeof one_key - 1, priorities, sizeof priorities,
             refusal(POLLUX_LIST_LENGTH, POLLUX_LIST, sizeof one_key - 1));
    printf("%u passed, %u failed\n", passed, failed);
    return failed == 0 ? 0 : 1;
}
