/*
 * The switch's side: loads a table's blocks once, then judges the entries that the controller sends, a table of them at a time.
 *
 *   switch KEYS BLOCKS ENTRIES     the key list, the blocks, and entries end to end, each a file of bytes
 *   switch                         a small table that is built in
 *
 * For each entry a line: accepted, violated, or refused with the number, the input and the byte offset in it; then how many there are, and the
 * steps of all. Status: 0 the entries were judged, 2 the table does not load or the last entry is cut, 3 wrong usage or a file that cannot be read.
 */
#include <inttypes.h>
#include <stdio.h>

#include "files.h"
#include "pollux.h"

/* A table as the firmware keeps it: what it was given, and how long its entries are. */
struct table {
    const uint8_t *list;
    size_t list_length;
    const uint8_t *blocks;
    size_t blocks_length;
    size_t entry_size;
};

static void print_refusal(uint64_t number, uint64_t input, uint64_t value)
{
    static const char *const inputs[] = { "nowhere", "text", "list", "entry", "blocks", "buffer" };
    printf("refused %" PRIu64 " %s %" PRIu64 "\n", number, inputs[input], value);
}

/* Once, when the table is set up. A table that does not load must not be used. */
static struct pollux_answer open_table(struct table *table, struct bytes list, struct bytes blocks)
{
    *table = (struct table){ list.at, list.length, blocks.at, blocks.length, 0 };
    struct pollux_answer answer = pollux_load(list.at, list.length, blocks.at, blocks.length);
    if (answer.says == POLLUX_DONE)
        table->entry_size = POLLUX_ENTRY_SIZE(list.length / POLLUX_KEY_SIZE);
    return answer;
}

/* For all entries that came, before they go to the hardware: a byte for each. Only those with POLLUX_ACCEPTED may. */
static struct pollux_table judge_all(const struct table *table, struct bytes entries, struct bytes answers)
{
    return pollux_run_all(table->list, table->list_length, table->blocks, table->blocks_length, entries.at, entries.length, answers.at,
                          answers.length);
}

/* A byte says that an entry is refused. Where it is wrong says a run of it alone. */
static void print_verdict(const struct table *table, uint8_t verdict, const uint8_t *entry)
{
    if (verdict == POLLUX_REFUSED) {
        struct pollux_answer answer = pollux_run(table->list, table->list_length, table->blocks, table->blocks_length, entry, table->entry_size);
        print_refusal(answer.number, answer.input, answer.value);
    } else {
        printf("%s\n", verdict == POLLUX_ACCEPTED ? "accepted" : "violated");
    }
}

static int run_table(struct bytes list, struct bytes blocks, struct bytes entries)
{
    struct table table;
    struct pollux_answer loaded = open_table(&table, list, blocks);
    if (loaded.says == POLLUX_REFUSED) {
        printf("the table does not load: ");
        print_refusal(loaded.number, loaded.input, loaded.value);
        return 2;
    }
    struct bytes answers = make_bytes(entries.length / table.entry_size);
    struct pollux_table ran = judge_all(&table, entries, answers);
    if (ran.says == POLLUX_REFUSED) {
        print_refusal(ran.number, ran.input, ran.value);
        return 2;
    }
    for (size_t k = 0; k < ran.value; k++)
        print_verdict(&table, answers.at[k], entries.at + k * table.entry_size);
    printf("entries %" PRIu64 ", steps %" PRIu64 "\n", ran.value, ran.steps);
    return 0;
}

/* The table that is built in: one exact key of one bit, `v`, and the restriction `v == 1`. */
static uint8_t built_in_list[] = { [0] = 1, [2] = 1, [16] = 'v', [79] = 0 };

static uint8_t built_in_blocks[] = {
    [3] = 4,              /* 4 instructions in this block */
    [4] = 3,              /* push key 0 */
    [24] = 2, [43] = 1,   /* push the number 1 */
    [44] = 8, [47] = 1,   /* make it a number of 1 bit */
    [64] = 9,             /* equal? */
    [505] = 4, [507] = 1, /* 4 in all, for 1 key */
    [508] = 0xeb, 0xe0, 0x16, 0x0b,
};

static uint8_t built_in_entries[] = {
    [4] = 1, [23] = 1, /* v is 1 */
    [44] = 1,          /* v is 0 */
    [80 + 4] = 0,      /* v is left out, which an exact key must not be */
    [119] = 0,
};

#define BYTES(array) ((struct bytes){ array, sizeof array })

int main(int count, char **words)
{
    if (count == 1)
        return run_table(BYTES(built_in_list), BYTES(built_in_blocks), BYTES(built_in_entries));
    if (count != 4) {
        fprintf(stderr, "usage: switch [KEYS BLOCKS ENTRIES]\n");
        return 3;
    }
    return run_table(read_file(words[1]), read_file(words[2]), read_file(words[3]));
}
