#include "tables.h"

#include <stdlib.h>
#include <string.h>

#include "../examples/switch/files.h"
#include "by_hand.h"
#include "plain_blocks.h"

static struct input room(size_t length)
{
    uint8_t *at = malloc(length);
    if (at == NULL) {
        perror("memory");
        exit(3);
    }
    memset(at, 0, length);
    return (struct input){ at, length };
}

static struct input from_words(const char *words)
{
    struct input text = room(strlen(words));
    memcpy(text.at, words, text.length);
    return text;
}

static void set_key(struct input *list, size_t key, const char *name, unsigned kind, unsigned width)
{
    uint8_t *record = list->at + key * POLLUX_KEY_SIZE;
    record[0] = (uint8_t)strlen(name);
    record[1] = (uint8_t)kind;
    record[2] = (uint8_t)width;
    memcpy(record + 16, name, record[0]);
}

static void set_low_word(uint8_t *number, uint32_t value)
{
    for (int i = 0; i < 4; i++)
        number[12 + i] = (uint8_t)(value >> (24 - 8 * i));
}

/* ---- Small: one key, one comparison. */

static void make_small(struct table *table)
{
    *table = (struct table){ .name = "small", .text = from_words("ipv6.dst::prefix_length <= 64"), .entry_size = POLLUX_ENTRY_SIZE(1) };
    table->list = room(POLLUX_KEY_SIZE);
    set_key(&table->list, 0, "ipv6.dst", LPM, 128);
    table->entries = room(2 * table->entry_size);
    for (int i = 0; i < 2; i++) {
        uint8_t *record = table->entries.at + (size_t)i * table->entry_size + POLLUX_PRIORITY_SIZE;
        record[0] = 1;
        record[1] = i == 0 ? 48 : 128;
        record[4] = 0x20;
    }
}

/* ---- Prefixes: 32 lpm keys of 128 bits, and a text that is just true. */

static void set_wide_key(struct input *list, size_t key, unsigned kind)
{
    char name[8];
    snprintf(name, sizeof name, "k%02zu", key);
    set_key(list, key, name, kind, 128);
}

/* A prefix of bits that are all set. */
static void set_prefix(uint8_t *record, unsigned length)
{
    record[0] = 1;
    record[1] = (uint8_t)length;
    for (unsigned bit = 0; bit < length; bit++)
        record[4 + bit / 8] |= (uint8_t)(0x80 >> bit % 8);
}

/* The prefixes have 0, 4, 8 and up to 124 bits. In the second entry the last key has a bit below its prefix, so that it is refused. */
static void make_prefixes(struct table *table)
{
    *table = (struct table){ .name = "prefixes", .text = from_words("true"), .entry_size = POLLUX_ENTRY_SIZE(POLLUX_MAX_KEYS) };
    table->list = room(POLLUX_MAX_LIST);
    table->entries = room(2 * table->entry_size);
    for (size_t key = 0; key < POLLUX_MAX_KEYS; key++) {
        uint8_t *record = table->entries.at + POLLUX_ENTRY_SIZE(key);
        set_wide_key(&table->list, key, LPM);
        set_prefix(record, 4 * (unsigned)key);
        set_prefix(record + table->entry_size, 4 * (unsigned)key);
    }
    table->entries.at[table->entries.length - POLLUX_RECORD_SIZE + 19] = 1;
}

/* ---- At the limits: 4,096 bytes of text, 1,024 tokens, 32 keys of 128 bits, and a print that is just not too long. */

enum { COMPARISONS = POLLUX_MAX_TOKENS / 4, FIRST_NUMERAL = 10000 };

/* kNN != NNNNN, 256 times, with && between them, a ";" and blanks at the end: in house style but for these. */
static void make_limit_text(struct table *table)
{
    table->text = room(POLLUX_MAX_TEXT);
    char piece[32];
    size_t at = 0;
    for (unsigned i = 0; i < COMPARISONS; i++) {
        const char *joined = i + 1 < COMPARISONS ? " && " : ";   ";
        snprintf(piece, sizeof piece, "k%02u != %u%s", i % POLLUX_MAX_KEYS, FIRST_NUMERAL + i, joined);
        memcpy(table->text.at + at, piece, strlen(piece));
        at += strlen(piece);
    }
}

static void set_limit_record(uint8_t *record, size_t key, uint32_t value)
{
    record[0] = 1;
    set_low_word(record + 4, value);
    switch (key % 5) {
    case TERNARY:
    case OPTIONAL: memset(record + 20, 0xff, 16); break;
    case LPM: record[1] = 128; break;
    case RANGE: set_low_word(record + 20, value + 1); break;
    default: break;
    }
}

/* The first entry is accepted; the second is violated by the last comparison, the third by the first one. */
static void make_limit(struct table *table)
{
    *table = (struct table){ .name = "limit", .entry_size = POLLUX_ENTRY_SIZE(POLLUX_MAX_KEYS) };
    make_limit_text(table);
    table->list = room(POLLUX_MAX_LIST);
    table->entries = room(3 * table->entry_size);
    for (size_t key = 0; key < POLLUX_MAX_KEYS; key++) {
        uint8_t *record = table->entries.at + POLLUX_ENTRY_SIZE(key);
        set_wide_key(&table->list, key, key % 5);
        set_limit_record(record, key, (uint32_t)key + 1);
        bool last = key + 1 == POLLUX_MAX_KEYS;
        set_limit_record(record + table->entry_size, key, last ? FIRST_NUMERAL + COMPARISONS - 1 : (uint32_t)key + 1);
        set_limit_record(record + 2 * table->entry_size, key, key == 0 ? FIRST_NUMERAL : (uint32_t)key + 1);
    }
}

/* ---- The examples. */

static struct input part_of(const char *folder, const char *name, const char *part)
{
    char path[4096];
    snprintf(path, sizeof path, "%s/%s.%s", folder, name, part);
    struct bytes file = read_file(path);
    return (struct input){ file.at, file.length };
}

static void make_example(struct table *table, const char *folder, const char *name, bool (*by_hand)(const uint8_t *))
{
    *table = (struct table){ .name = name, .by_hand = by_hand };
    table->text = part_of(folder, name, "text");
    table->list = part_of(folder, name, "list");
    table->entries = part_of(folder, name, "entries");
    table->entry_size = POLLUX_ENTRY_SIZE(table->list.length / POLLUX_KEY_SIZE);
}

/* ---- What is made from text, list and entries. */

static void add_code(struct table *table)
{
    struct input blocks = room(POLLUX_MAX_BLOCKS_SIZE);
    struct pollux_answer answer =
        plain_translate(table->text.at, table->text.length, table->list.at, table->list.length, blocks.at, blocks.length);
    if (answer.says != POLLUX_DONE) {
        fprintf(stderr, "%s: its restriction does not pass\n", table->name);
        exit(3);
    }
    blocks.length = POLLUX_BLOCKS_SIZE(answer.value);
    table->code = (struct code){ blocks, answer.value };
}

static void add_unskipped(struct table *table)
{
    struct code all = table->code, *kept = &table->unskipped;
    *kept = (struct code){ room(all.blocks.length), 0 };
    for (size_t i = 0; i < all.instructions; i++) {
        const uint8_t *instruction = all.blocks.at + instruction_place(i);
        if (instruction[0] != SKIP)
            memcpy(kept->blocks.at + instruction_place(kept->instructions++), instruction, POLLUX_INSTRUCTION_SIZE);
    }
    kept->blocks.length = POLLUX_BLOCKS_SIZE(kept->instructions);
    for (size_t index = 0; index < kept->blocks.length / POLLUX_BLOCK_SIZE; index++)
        seal_block(kept->blocks.at + index * POLLUX_BLOCK_SIZE, index, kept->instructions, table->list.length / POLLUX_KEY_SIZE);
}

static void add_entry(struct input *entries, struct input entry)
{
    memcpy(entries->at + entries->length, entry.at, entry.length);
    entries->length += entry.length;
}

static void add_conforming(struct table *table)
{
    table->conforming = (struct input){ room(table->entries.length).at, 0 };
    table->accepted = (struct input){ room(table->entries.length).at, 0 };
    table->violated = (struct input){ room(table->entries.length).at, 0 };
    for (size_t i = 0; i < entry_count(table); i++) {
        struct input entry = entry_of(table, i);
        struct pollux_answer answer = plain_judge(table->text.at, table->text.length, table->list.at, table->list.length,
                                                  entry.at, entry.length);
        if (answer.says == POLLUX_REFUSED)
            continue;
        add_entry(&table->conforming, entry);
        add_entry(answer.says == POLLUX_ACCEPTED ? &table->accepted : &table->violated, entry);
    }
}

static struct input many_of(struct input entries, size_t entry_size)
{
    struct input many = { entries.at, 0 };
    if (entries.length == 0)
        return many;
    many.at = room(MANY * entry_size).at;
    for (size_t i = 0; i < MANY; i++)
        add_entry(&many, (struct input){ entries.at + i * entry_size % entries.length, entry_size });
    return many;
}

static void add_many(struct table *table)
{
    table->many_conforming = many_of(table->conforming, table->entry_size);
    table->many_accepted = many_of(table->accepted, table->entry_size);
    table->many_violated = many_of(table->violated, table->entry_size);
}

void make_tables(struct table tables[TABLES], const char *folder)
{
    make_small(&tables[0]);
    make_example(&tables[1], folder, "ipv6-routing", by_hand_ipv6_routing);
    make_example(&tables[2], folder, "uplink", by_hand_uplink);
    make_example(&tables[3], folder, "acl", by_hand_acl);
    make_prefixes(&tables[4]);
    make_limit(&tables[5]);
    for (int i = 0; i < TABLES; i++) {
        add_code(&tables[i]);
        add_unskipped(&tables[i]);
        add_conforming(&tables[i]);
        add_many(&tables[i]);
    }
}
