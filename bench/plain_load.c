/* The check of blocks: refusals 16, 17 and 18. */
#include "plain_blocks.h"

/* 254 words keep both sums below 2^32, so it is enough to reduce them at the end. */
struct sums block_sums(const uint8_t *block)
{
    struct sums sums = { 0, 0 };
    for (size_t at = 0; at < CHECK_AT; at += 2) {
        sums.first += short_at(block + at);
        sums.second += sums.first;
    }
    return (struct sums){ sums.first % 65535, sums.second % 65535 };
}

static bool good_layout(const uint8_t *block, size_t index, bool last, size_t total, size_t keys)
{
    size_t count = short_at(block + 2);
    if (last ? count < 1 || count > POLLUX_BLOCK_INSTRUCTIONS : count != POLLUX_BLOCK_INSTRUCTIONS)
        return false;
    size_t end = CODE_AT + count * POLLUX_INSTRUCTION_SIZE;
    struct sums sums = block_sums(block);
    return short_at(block) == index && all_zero(block + end, TOTAL_AT - end) && short_at(block + TOTAL_AT) == total &&
           short_at(block + KEYS_AT) == keys && short_at(block + CHECK_AT) == sums.second &&
           short_at(block + CHECK_AT + 2) == sums.first;
}

static bool check_layout(const uint8_t *blocks, size_t length, size_t keys, size_t *total, struct pollux_answer *answer)
{
    if (length == 0 || length % POLLUX_BLOCK_SIZE != 0 || length > POLLUX_MAX_BLOCKS_SIZE)
        return refuse(answer, POLLUX_BLOCKS_LENGTH, POLLUX_BLOCKS, length);
    *total = 0;
    for (size_t at = 0; at < length; at += POLLUX_BLOCK_SIZE)
        *total += short_at(blocks + at + 2);
    for (size_t at = 0; at < length; at += POLLUX_BLOCK_SIZE)
        if (!good_layout(blocks + at, at / POLLUX_BLOCK_SIZE, at + POLLUX_BLOCK_SIZE == length, *total, keys))
            return refuse(answer, POLLUX_BLOCK_LAYOUT, POLLUX_BLOCKS, at);
    return true;
}

/* The types held while the code is followed, the last one uppermost, and the floor of each: how many lie below the bools that end in it. */
struct held {
    size_t count;
    struct type at[POLLUX_MAX_VALUES];
    uint16_t floor[POLLUX_MAX_VALUES];
};

static bool push(struct held *held, unsigned kind, unsigned width)
{
    if (held->count == POLLUX_MAX_VALUES)
        return false;
    held->at[held->count++] = (struct type){ (uint8_t)kind, (uint8_t)width };
    return true;
}

static bool push_key(struct held *held, const uint8_t *list, size_t keys, const uint8_t *code)
{
    unsigned key = short_at(code + 2), field = code[1];
    if (key >= keys)
        return false;
    struct type type = key_type(list, key);
    if (code[0] == PUSH_FIELD) {
        if (!has_field(type.kind, field))
            return false;
        type = field_type(type, field);
    }
    return push(held, type.kind, type.width);
}

static bool convert_top(struct held *held, unsigned kind, unsigned width)
{
    if (kind > OPTIONAL || width < 1 || width > POLLUX_MAX_WIDTH || held->count < 1)
        return false;
    struct type to = { (uint8_t)kind, (uint8_t)width };
    struct type *top = &held->at[held->count - 1];
    if (!can_convert(*top, to))
        return false;
    *top = to;
    return true;
}

/* Two operands become a bool. */
static bool join_top(struct held *held, bool comparing, unsigned comparison)
{
    if (held->count < 2)
        return false;
    struct type left = held->at[held->count - 2], right = held->at[held->count - 1];
    if (!same_type(left, right) || (comparing ? !can_compare(comparison, left) : left.kind != BOOL))
        return false;
    held->count -= 2;
    return push(held, BOOL, 0);
}

static bool bool_on_top(const struct held *held)
{
    return held->count >= 1 && held->at[held->count - 1].kind == BOOL;
}

/* Lands inside the code or exactly at its end: so many instructions are left after it. */
static bool good_skip(const struct held *held, const uint8_t *code, size_t left)
{
    unsigned over = short_at(code + 2);
    return code[1] <= 1 && over >= 1 && over <= left && code[4] <= 1 && all_zero(code + 5, 15) && bool_on_top(held);
}

/* Parts that an operation does not use are zero. */
static bool unused_zero(const uint8_t *code)
{
    static const struct { bool detail, operand, constant; } used[] = {
        [PUSH_BOOL] = { false, true, false }, [PUSH_INT] = { false, false, true }, [PUSH_KEY] = { false, true, false },
        [PUSH_FIELD] = { true, true, false }, [CONVERT] = { true, true, false }, [COMPARE_TWO] = { true, false, false },
        [SKIP] = { true, true, true },
    };
    unsigned operation = code[0];
    if (operation < PUSH_BOOL || operation > SKIP)
        return false;
    return (used[operation].detail || code[1] == 0) && (used[operation].operand || short_at(code + 2) == 0) &&
           (used[operation].constant || number_at(code + 4) == 0);
}

static bool step(struct held *held, const uint8_t *list, size_t keys, const uint8_t *code, size_t left)
{
    if (!unused_zero(code))
        return false;
    switch (code[0]) {
    case PUSH_BOOL: return short_at(code + 2) <= 1 && push(held, BOOL, 0);
    case PUSH_INT:
    case PUSH_PRIORITY: return push(held, INT, 0);
    case PUSH_KEY:
    case PUSH_FIELD: return push_key(held, list, keys, code);
    case TURN: return bool_on_top(held);
    case NEGATE: return held->count >= 1 && can_negate(held->at[held->count - 1]);
    case CONVERT: return convert_top(held, code[1], short_at(code + 2));
    case COMPARE_TWO: return code[1] <= 5 && join_top(held, true, code[1]);
    case SKIP: return good_skip(held, code, left);
    default: return join_top(held, false, 0);
    }
}

/*
 * The mark of what is held: how many values, and the floor of the uppermost. The types at a skip and at its landing are the same where
 * their marks are: a bool lies uppermost at the skip, and whatever takes a bool away leaves one. So below the skip's height only bools
 * can have come and gone, and of these the floor tells how many there are.
 */
static uint32_t take_mark(struct held *held)
{
    size_t top = held->count - 1;
    size_t under = top == 0 ? 0 : held->floor[top - 1];
    held->floor[top] = (uint16_t)(held->at[top].kind == BOOL ? under : held->count);
    return (uint32_t)held->count << 16 | held->floor[top];
}

/* What is known of code that was followed up to an index: the types there, the mark after each number of instructions, and the skips. */
struct followed {
    size_t upto;
    struct held held;
    uint32_t marks[MOST_INSTRUCTIONS + 1];
    size_t skips;
    struct { uint16_t at, landing; } skip[MOST_INSTRUCTIONS];
};

/* Follows the types up to an instruction that fails by itself, or to the end. */
static void follow(struct followed *it, const uint8_t *list, size_t keys, const uint8_t *blocks, size_t total)
{
    it->held.count = 0;
    it->skips = 0;
    for (it->upto = 0; it->upto < total; it->upto++) {
        size_t i = it->upto;
        const uint8_t *code = blocks + instruction_place(i);
        if (!step(&it->held, list, keys, code, total - i - 1))
            return;
        it->marks[i + 1] = take_mark(&it->held);
        if (code[0] == SKIP) {
            it->skip[it->skips].at = (uint16_t)i;
            it->skip[it->skips++].landing = (uint16_t)(i + 1 + short_at(code + 2));
        }
    }
}

/* The first skip whose landing does not fit, or else the end of what was followed. A landing past that is not compared. */
static size_t first_misfit(const struct followed *it)
{
    for (size_t i = 0; i < it->skips; i++) {
        size_t at = it->skip[i].at, landing = it->skip[i].landing;
        if (landing <= it->upto && it->marks[landing] != it->marks[at + 1])
            return at;
    }
    return it->upto;
}

bool check_code(const uint8_t *list, size_t list_length, const uint8_t *blocks, size_t length, size_t *total,
                struct pollux_answer *answer)
{
    size_t keys = list_length / POLLUX_KEY_SIZE;
    struct followed followed;
    if (!check_layout(blocks, length, keys, total, answer))
        return false;
    follow(&followed, list, keys, blocks, *total);
    size_t failing = first_misfit(&followed);
    if (failing < *total)
        return refuse(answer, POLLUX_INSTRUCTION, POLLUX_BLOCKS, instruction_place(failing));
    if (followed.held.count != 1 || !bool_on_top(&followed.held))
        return refuse(answer, POLLUX_INSTRUCTION, POLLUX_BLOCKS, length);
    return true;
}

bool check_blocks(const uint8_t *list, size_t list_length, const uint8_t *blocks, size_t length, size_t *total,
                  struct pollux_answer *answer)
{
    return check_list(list, list_length, answer) && check_code(list, list_length, blocks, length, total, answer);
}

struct pollux_answer plain_load(const uint8_t *list, size_t list_length, const uint8_t *blocks, size_t blocks_length)
{
    size_t total;
    struct pollux_answer answer;
    return check_blocks(list, list_length, blocks, blocks_length, &total, &answer) ? done(total) : answer;
}
