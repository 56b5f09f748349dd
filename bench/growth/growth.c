/*
 * How the time of each call grows with the work: one line for each point, of the plot, its size, the call and nanoseconds.
 *
 *   growth > POINTS
 *
 * The restrictions are comparisons of keys with numbers, 16 bytes of text and 4 tokens each; every key is exact and has 32 bits, and every
 * entry is accepted, so that no comparison is passed over.
 */
#include <stdio.h>
#include <stdlib.h>
#include <string.h>

#include "../timing.h"
#include "pollux.h"

struct bytes {
    uint8_t *at;
    size_t length;
};

/* A restriction, its keys, its blocks, and entries that it is to be held against. */
struct subject {
    struct bytes text, list, blocks, entries;
    size_t entry_size, instructions;
    struct bytes contract;
};

enum { COMPARISON_BYTES = 16, KEY_WIDTH = 32, FIRST_NUMERAL = 10000, MOST_MEASURED = 10000 };

static uint8_t buffer[POLLUX_MAX_BLOCKS_SIZE];
static uint8_t answers[MOST_MEASURED];
static uint64_t parts[POLLUX_MAX_PARTS];

static struct bytes room(size_t length)
{
    uint8_t *at = malloc(length + 1);
    if (at == NULL) {
        perror("memory");
        exit(3);
    }
    memset(at, 0, length + 1);
    return (struct bytes){ at, length };
}

/* ---- What is measured on. */

static void add(struct bytes *text, const char *piece)
{
    memcpy(text->at + text->length, piece, strlen(piece));
    text->length += strlen(piece);
}

/* kNN != NNNNN, with && between them, a ";" and blanks at the end. */
static struct bytes text_of(size_t comparisons, size_t keys)
{
    struct bytes text = { room(comparisons * COMPARISON_BYTES).at, 0 };
    for (size_t i = 0; i < comparisons; i++) {
        char piece[32];
        snprintf(piece, sizeof piece, "k%02zu != %zu%s", i % keys, FIRST_NUMERAL + i, i + 1 < comparisons ? " && " : ";   ");
        add(&text, piece);
    }
    return text;
}

static struct bytes list_of(size_t keys)
{
    struct bytes list = room(keys * POLLUX_KEY_SIZE);
    for (size_t key = 0; key < keys; key++) {
        char name[8];
        uint8_t *record = list.at + key * POLLUX_KEY_SIZE;
        snprintf(name, sizeof name, "k%02zu", key);
        record[0] = (uint8_t)strlen(name);
        record[2] = KEY_WIDTH;
        memcpy(record + POLLUX_KEY_SIZE - POLLUX_MAX_NAME, name, strlen(name));
    }
    return list;
}

/* Every key is present, and 1. */
static struct bytes entries_of(size_t count, size_t keys)
{
    struct bytes entries = room(count * POLLUX_ENTRY_SIZE(keys));
    for (size_t i = 0; i < count; i++)
        for (size_t key = 0; key < keys; key++) {
            uint8_t *record = entries.at + i * POLLUX_ENTRY_SIZE(keys) + POLLUX_ENTRY_SIZE(key);
            record[0] = 1;
            record[POLLUX_RECORD_SIZE - 17] = 1;
        }
    return entries;
}

static void add_blocks(struct subject *it)
{
    struct pollux_answer made = pollux_translate(it->text.at, it->text.length, it->list.at, it->list.length, buffer, sizeof buffer);
    if (made.says != POLLUX_DONE) {
        fprintf(stderr, "a text of %zu bytes is refused with %d at %d\n", it->text.length, (int)made.number, (int)made.value);
        exit(1);
    }
    it->instructions = made.value;
    it->blocks = room(POLLUX_BLOCKS_SIZE(made.value));
    memcpy(it->blocks.at, buffer, it->blocks.length);
}

static struct subject subject_of(size_t comparisons, size_t keys, size_t entries)
{
    struct subject it = { .text = text_of(comparisons, keys), .list = list_of(keys), .entries = entries_of(entries, keys) };
    it.entry_size = POLLUX_ENTRY_SIZE(keys);
    add_blocks(&it);
    return it;
}

/* Half of the parts are true and half are false: of all texts that compare one with its own blocks, this takes longest. */
static struct subject parts_of(size_t count)
{
    struct subject it = { .text = { room(count * strlen("false;")).at, 0 }, .list = list_of(1) };
    for (size_t i = 0; i < count; i++)
        add(&it.text, i < count / 2 ? "true;" : "false;");
    add_blocks(&it);
    return it;
}

/* Assertions that an input is at least the first user number, a clause each. */
static struct subject contract_of(size_t length)
{
    enum { AT_LEAST_A_USER_NUMBER = 0x08 };
    struct subject it = { .contract = room(length), .list = list_of(1) };
    it.list.at[2] = POLLUX_INPUT_WIDTH;
    for (size_t i = 0; i < length; i += 2)
        it.contract.at[i] = AT_LEAST_A_USER_NUMBER;
    return it;
}

static void forget(struct subject *it)
{
    free(it->text.at);
    free(it->list.at);
    free(it->blocks.at);
    free(it->entries.at);
    free(it->contract.at);
}

/* ---- The calls. */

static const uint64_t table[] = { 1 };

static uint64_t must(enum pollux_says wanted, struct pollux_answer answer)
{
    if (answer.says != wanted) {
        fprintf(stderr, "a call says %d, %d\n", (int)answer.says, (int)answer.number);
        exit(1);
    }
    return answer.value;
}

#define CALL(name, value)                       \
    static uint64_t name(const void *with)      \
    {                                           \
        const struct subject *it = with;        \
        return value;                           \
    }
#define TEXT it->text.at, it->text.length
#define LIST it->list.at, it->list.length
#define BLOCKS it->blocks.at, it->blocks.length
#define ENTRY it->entries.at, it->entry_size
#define ENTRIES it->entries.at, it->entries.length
#define BUFFER buffer, sizeof buffer

CALL(read_it, must(POLLUX_DONE, pollux_read(TEXT)))
CALL(print_it, must(POLLUX_DONE, pollux_print(TEXT, BUFFER)))
CALL(fix_it, must(POLLUX_DONE, pollux_fix_octal(TEXT, BUFFER)))
CALL(check_it, must(POLLUX_DONE, pollux_check(TEXT, LIST)))
CALL(summarize_it, pollux_summarize(TEXT, LIST).count)
CALL(judge_it, must(POLLUX_ACCEPTED, pollux_judge(TEXT, LIST, ENTRY)))
CALL(explain_it, pollux_explain(TEXT, LIST, ENTRY).says)
CALL(translate_it, must(POLLUX_DONE, pollux_translate(TEXT, LIST, BUFFER)))
CALL(compare_it, must(POLLUX_AGREES, pollux_compare(TEXT, LIST, BLOCKS)))
CALL(load_it, must(POLLUX_DONE, pollux_load(LIST, BLOCKS)))
CALL(run_it, must(POLLUX_ACCEPTED, pollux_run(LIST, BLOCKS, ENTRY)))
CALL(run_all_it, pollux_run_all(LIST, BLOCKS, ENTRIES, answers, sizeof answers).steps)
CALL(count_it, pollux_count(TEXT, LIST, ENTRIES, parts).accepted)
CALL(pact_it, must(POLLUX_DONE, pollux_pact(it->contract.at, it->contract.length, table, 1, LIST, BUFFER)))

/* An entry of the text's edit: a key that it names has another number, so that the new entry is judged. */
static uint64_t recheck_it(const void *with)
{
    const struct subject *it = with;
    const struct pollux_answer earlier = { .says = POLLUX_ACCEPTED };
    uint8_t old[POLLUX_ENTRY_SIZE(POLLUX_MAX_KEYS)];
    memcpy(old, it->entries.at, it->entry_size);
    old[POLLUX_ENTRY_SIZE(1) - 17]++;
    return pollux_recheck(TEXT, LIST, old, it->entry_size, earlier, ENTRY).says;
}

static uint64_t run_each(const void *with)
{
    const struct subject *it = with;
    uint64_t steps = 0;
    for (size_t at = 0; at < it->entries.length; at += it->entry_size)
        steps += pollux_run(LIST, BLOCKS, it->entries.at + at, it->entry_size).value;
    return steps;
}

/* ---- Points. */

struct call {
    const char *name;
    job *job;
};

/* The best of some rounds, in which the calls take turns. */
static void measure(const char *plot, size_t size, struct subject it, const struct call *calls, size_t count)
{
    enum { MOST_CALLS = 8, TURNS = 50 };
    double best[MOST_CALLS] = { 0 };
    for (int turn = 0; turn < TURNS; turn++)
        for (size_t i = 0; i < count; i++) {
            double now = rate(calls[i].job, &it);
            best[i] = now > best[i] ? now : best[i];
        }
    for (size_t i = 0; i < count; i++)
        printf("%s\t%zu\t%s\t%.1f\n", plot, size, calls[i].name, 1e9 / best[i]);
    fflush(stdout);
    forget(&it);
}

#define MEASURE(plot, size, it, ...)                                                              \
    do {                                                                                          \
        const struct call calls[] = { __VA_ARGS__ };                                              \
        measure(plot, size, it, calls, sizeof calls / sizeof calls[0]);                           \
    } while (0)

/* Four keys, and text of 64 bytes up to as much as there may be. */
static void grow_text(void)
{
    enum { KEYS = 4 };
    for (size_t bytes = 64; bytes <= POLLUX_MAX_TEXT; bytes *= 2) {
        size_t comparisons = bytes / COMPARISON_BYTES;
        MEASURE("text", bytes, subject_of(comparisons, KEYS, 1), { "read", read_it }, { "print", print_it }, { "fix_octal", fix_it });
        MEASURE("restriction", bytes, subject_of(comparisons, KEYS, 1), { "check", check_it }, { "summarize", summarize_it },
                { "judge", judge_it }, { "explain", explain_it }, { "recheck", recheck_it }, { "translate", translate_it });
        struct subject it = subject_of(comparisons, KEYS, 1);
        MEASURE("instructions", it.instructions, it, { "load", load_it }, { "run", run_it });
    }
}

/* One comparison, and as many keys in the list and in the entry as there may be. */
static void grow_keys(void)
{
    static const size_t keys[] = { 1, 2, 4, 8, 16, 24, POLLUX_MAX_KEYS };
    for (size_t i = 0; i < sizeof keys / sizeof keys[0]; i++)
        MEASURE("keys", keys[i], subject_of(1, keys[i], 1), { "check", check_it }, { "judge", judge_it }, { "load", load_it },
                { "run", run_it });
}

/* Sixteen comparisons of four keys. */
static void grow_entries(void)
{
    for (size_t entries = 1; entries <= MOST_MEASURED; entries *= 10)
        MEASURE("entries", entries, subject_of(16, 4, entries), { "run each", run_each }, { "run_all", run_all_it }, { "count", count_it });
}

static void grow_parts(void)
{
    for (size_t count = 8; count <= POLLUX_MAX_PARTS; count *= 2)
        MEASURE("parts", count, parts_of(count), { "compare", compare_it }, { "translate", translate_it });
}

static void grow_contract(void)
{
    for (size_t length = 8; length <= POLLUX_MAX_TOKENS / 2; length *= 2)
        MEASURE("contract", length, contract_of(length), { "pact", pact_it });
}

int main(void)
{
    grow_text();
    grow_keys();
    grow_entries();
    grow_parts();
    grow_contract();
    return 0;
}
