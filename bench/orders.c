#include "orders.h"

#include <stdlib.h>
#include <string.h>

#include "plain.h"
#include "sheet.h"
#include "timing.h"

enum { HALF = POLLUX_MAX_PARTS / 2, COMPARISONS = POLLUX_MAX_TOKENS / 4, FIRST_NUMERAL = 10000 };

static uint8_t list[POLLUX_KEY_SIZE] = { 1, 0, POLLUX_MAX_WIDTH, [16] = 'k' };

static void add(struct input *text, const char *piece)
{
    memcpy(text->at + text->length, piece, strlen(piece));
    text->length += strlen(piece);
}

static void add_times(struct input *text, const char *piece, int times)
{
    for (int i = 0; i < times; i++)
        add(text, piece);
}

/* So many parts of one kind, then all others of another, after a first part. */
static struct input constants(uint8_t memory[POLLUX_MAX_TEXT], const char *first, const char *before, const char *after)
{
    struct input text = { memory, 0 };
    add(&text, first);
    add_times(&text, before, HALF - 1);
    add_times(&text, after, HALF);
    return text;
}

/* Comparisons of one key, each with another number, upwards or downwards. */
static struct input comparisons(uint8_t memory[POLLUX_MAX_TEXT], bool upwards)
{
    struct input text = { memory, 0 };
    for (unsigned i = 0; i < COMPARISONS; i++) {
        char piece[16];
        snprintf(piece, sizeof piece, "k==%u;", FIRST_NUMERAL + (upwards ? i : COMPARISONS - 1 - i));
        add(&text, piece);
    }
    return text;
}

static struct input translation(struct input text, uint8_t memory[POLLUX_MAX_BLOCKS_SIZE])
{
    struct pollux_answer made = pollux_translate(text.at, text.length, list, sizeof list, memory, POLLUX_MAX_BLOCKS_SIZE);
    if (made.says != POLLUX_DONE) {
        fprintf(stderr, "a text of many parts is refused with %d at %d\n", (int)made.number, (int)made.value);
        exit(1);
    }
    return (struct input){ memory, POLLUX_BLOCKS_SIZE(made.value) };
}

/* An order of parts is the text that it is compared with, and the blocks of another text, which has these parts in that order. */
static void set_order(struct order orders[ORDERS], size_t index, struct order order, struct input other)
{
    static uint8_t blocks[ORDERS][POLLUX_MAX_BLOCKS_SIZE];
    order.list = (struct input){ list, sizeof list };
    order.blocks = translation(other, blocks[index]);
    orders[index] = order;
}

/*
 * Polluxvalve tries parts in the text's order, from the end of the blocks, so blocks in that very order take longest: each part is tried
 * after all that stand before it. Where the first instruction alone is another, the last comparison of all finds it. Plain C tries the last
 * part first, so that blocks in the opposite order take it longest.
 */
void make_orders(struct order orders[ORDERS])
{
    enum { TEXTS = 5 };
    static uint8_t texts[TEXTS][POLLUX_MAX_TEXT];
    struct input halves = constants(texts[0], "true;", "true;", "false;"), turned = constants(texts[1], "false;", "false;", "true;");
    struct input slip = constants(texts[2], "false;", "true;", "false;");
    struct input up = comparisons(texts[3], true), down = comparisons(texts[4], false);
    set_order(orders, 0, (struct order){ "constants", POLLUX_MAX_PARTS, halves, .says = POLLUX_AGREES }, halves);
    set_order(orders, 1, (struct order){ "constants, reversed", POLLUX_MAX_PARTS, halves, .says = POLLUX_AGREES }, turned);
    set_order(orders, 2, (struct order){ "the first is another", POLLUX_MAX_PARTS, halves, .says = POLLUX_DIFFERS }, slip);
    set_order(orders, 3, (struct order){ "comparisons", COMPARISONS, up, .says = POLLUX_AGREES }, up);
    set_order(orders, 4, (struct order){ "comparisons, reversed", COMPARISONS, up, .says = POLLUX_AGREES }, down);
}

/* ---- Times. */

static void must_say(const struct order *order, const char *call, uint64_t said, enum pollux_says says)
{
    if (said == says)
        return;
    fprintf(stderr, "%s: %s says %d\n", order->name, call, (int)said);
    exit(1);
}

typedef struct pollux_answer compare(const uint8_t *, size_t, const uint8_t *, size_t, const uint8_t *, size_t);

static uint64_t compare_one(const struct order *order, compare *compare)
{
    struct pollux_answer answer =
        compare(order->text.at, order->text.length, order->list.at, order->list.length, order->blocks.at, order->blocks.length);
    must_say(order, "compare", answer.says, order->says);
    return answer.value;
}

static uint64_t compare_pollux(const void *with)
{
    return compare_one(with, pollux_compare);
}

static uint64_t compare_plain(const void *with)
{
    return compare_one(with, plain_compare);
}

static uint64_t translate_one(const void *with)
{
    static uint8_t buffer[POLLUX_MAX_BLOCKS_SIZE];
    const struct order *order = with;
    struct pollux_answer answer =
        pollux_translate(order->text.at, order->text.length, order->list.at, order->list.length, buffer, sizeof buffer);
    must_say(order, "translate", answer.says, POLLUX_DONE);
    return answer.value;
}

static void measure_order(const struct order *order, const struct column columns[])
{
    enum { POLLUX, PLAIN, TRANSLATE, JOBS };
    static job *const jobs[JOBS] = { compare_pollux, compare_plain, translate_one };
    double best[JOBS] = { 0 };
    for (int round = 0; round < ROUNDS; round++)
        for (int i = 0; i < JOBS; i++) {
            double now = rate(jobs[i], order);
            best[i] = now > best[i] ? now : best[i];
        }
    sheet_word(&columns[0], order->name);
    sheet_number(&columns[1], (double)order->parts, 0);
    sheet_word(&columns[2], order->says == POLLUX_AGREES ? "agrees" : "differs");
    sheet_number(&columns[3], 1e3 / best[POLLUX], 3);
    sheet_number(&columns[4], 1e3 / best[PLAIN], 3);
    sheet_number(&columns[5], best[PLAIN] / best[POLLUX], 2);
    sheet_number(&columns[6], 1e3 / best[TRANSLATE], 3);
    sheet_end();
}

void measure_orders(const struct order orders[ORDERS])
{
    static const struct column columns[] = { { "parts", -21 },  { "number", 7 }, { "it says", -8 },   { "compare", 8 },
                                             { "plain C", 8 }, { "ratio", 6 },  { "translate", 10 } };
    printf("\nBlocks are compared with a text of many parts: in the text's own order, which takes Polluxvalve longest, and reversed,\n"
           "which takes plain C longest. Milliseconds a call, how many times longer Polluxvalve takes, and those of a translation.\n");
    sheet_head(columns, sizeof columns / sizeof columns[0]);
    for (int i = 0; i < ORDERS; i++)
        measure_order(&orders[i], columns);
}
