/* The run: an interpreter that checks nothing, and the calls that check everything before it. */
#include "plain_blocks.h"
#include "plain_values.h"

/* Carries out one instruction; gives the place above the values held. */
static struct value *step(struct value *top, const uint8_t *code, const uint8_t *list, const uint8_t *entry)
{
    switch (code[0]) {
    case PUSH_BOOL: *top = whole_value(code[3]); return top + 1;
    case PUSH_INT: *top = whole_value(number_at(code + 4)); return top + 1;
    case PUSH_KEY: *top = key_value(list, entry, code[3]); return top + 1;
    case PUSH_FIELD: *top = field_value(list, entry, code[3], code[1]); return top + 1;
    case PUSH_PRIORITY: *top = priority_value(entry); return top + 1;
    case TURN: top[-1].first ^= 1; return top;
    case NEGATE: top[-1] = minus(top[-1]); return top;
    case CONVERT: top[-1] = convert(top[-1], (struct type){ code[1], code[3] }); return top;
    case COMPARE_TWO: top[-2] = whole_value(compare(code[1], top[-2], top[-1])); return top - 1;
    case JOIN_AND: top[-2].first &= top[-1].first; return top - 1;
    case JOIN_OR: top[-2].first |= top[-1].first; return top - 1;
    default: top[-2].first = !top[-2].first | top[-1].first; return top - 1;
    }
}

/* Carries out a skip; gives how many instructions are passed over. */
static size_t skip(struct value *top, const uint8_t *code)
{
    if (top[-1].first != code[1])
        return 0;
    top[-1].first = code[4];
    return short_at(code + 2);
}

struct plain_ran plain_unchecked(const uint8_t *list, const uint8_t *blocks, size_t instructions, const uint8_t *entry)
{
    struct value held[POLLUX_MAX_VALUES];
    struct value *top = held;
    size_t steps = 0, in_block = 0;
    for (size_t left = instructions, passed; left > 0; left -= passed, in_block += passed, steps++) {
        if (in_block >= POLLUX_BLOCK_INSTRUCTIONS) {
            blocks += in_block / POLLUX_BLOCK_INSTRUCTIONS * POLLUX_BLOCK_SIZE;
            in_block %= POLLUX_BLOCK_INSTRUCTIONS;
        }
        const uint8_t *code = blocks + CODE_AT + in_block * POLLUX_INSTRUCTION_SIZE;
        passed = 1;
        if (code[0] == SKIP)
            passed += skip(top, code);
        else
            top = step(top, code, list, entry);
    }
    return (struct plain_ran){ held[0].first != 0, steps };
}

struct pollux_answer plain_run(const uint8_t *list, size_t list_length, const uint8_t *blocks, size_t blocks_length,
                               const uint8_t *entry, size_t entry_length)
{
    size_t total;
    struct pollux_answer answer;
    if (!check_blocks(list, list_length, blocks, blocks_length, &total, &answer) ||
        !check_entry(list, list_length, entry, entry_length, &answer))
        return answer;
    struct plain_ran ran = plain_unchecked(list, blocks, total, entry);
    return verdict(ran.accepted, ran.steps);
}

/* What is told of an entry that conforms, in a byte. */
static uint8_t byte_of(struct plain_ran ran)
{
    return ran.accepted ? POLLUX_ACCEPTED : POLLUX_VIOLATED;
}

uint64_t plain_unchecked_all(const uint8_t *list, const uint8_t *blocks, size_t instructions, const uint8_t *entries, size_t count,
                             size_t entry_size, uint8_t *answers)
{
    uint64_t steps = 0;
    for (size_t i = 0; i < count; i++) {
        struct plain_ran ran = plain_unchecked(list, blocks, instructions, entries + i * entry_size);
        answers[i] = byte_of(ran);
        steps += ran.steps;
    }
    return steps;
}

/* 19 and 15: the length of the entries, and room for their answers. */
static bool check_room(size_t entry_size, size_t entries_length, size_t answers_length, struct pollux_answer *answer)
{
    if (entries_length % entry_size != 0)
        return refuse(answer, POLLUX_ENTRY_LENGTH, POLLUX_ENTRY, entries_length);
    return entries_length / entry_size <= answers_length || refuse(answer, POLLUX_BUFFER_SHORT, POLLUX_BUFFER, answers_length);
}

struct pollux_table plain_run_all(const uint8_t *list, size_t list_length, const uint8_t *blocks, size_t blocks_length,
                                  const uint8_t *entries, size_t entries_length, uint8_t *answers, size_t answers_length)
{
    size_t total, size = POLLUX_ENTRY_SIZE(list_length / POLLUX_KEY_SIZE);
    struct pollux_answer answer;
    if (!check_blocks(list, list_length, blocks, blocks_length, &total, &answer) ||
        !check_room(size, entries_length, answers_length, &answer))
        return (struct pollux_table){ answer.says, answer.number, answer.input, answer.value, 0 };
    uint64_t steps = 0;
    size_t count = entries_length / size;
    for (size_t i = 0; i < count; i++) {
        const uint8_t *entry = entries + i * size;
        answers[i] = POLLUX_REFUSED;
        if (!check_entry(list, list_length, entry, size, &answer))
            continue;
        struct plain_ran ran = plain_unchecked(list, blocks, total, entry);
        answers[i] = byte_of(ran);
        steps += ran.steps;
    }
    return (struct pollux_table){ POLLUX_DONE, 0, 0, count, steps };
}
