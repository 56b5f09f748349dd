/* Blocks against a text: are they its translation, its parts in some order? */
#include "plain_blocks.h"

/* Instructions end to end, without what blocks have around them. */
struct code {
    size_t count;
    uint8_t at[MOST_INSTRUCTIONS * POLLUX_INSTRUCTION_SIZE];
};

static inline const uint8_t *instruction(const struct code *code, size_t index)
{
    return code->at + index * POLLUX_INSTRUCTION_SIZE;
}

static void take_out(const uint8_t *blocks, size_t count, struct code *code)
{
    enum { OF_BLOCK = POLLUX_BLOCK_INSTRUCTIONS * POLLUX_INSTRUCTION_SIZE };
    uint8_t *to = code->at;
    code->count = count;
    for (size_t i = 0; i < count; i += POLLUX_BLOCK_INSTRUCTIONS, to += OF_BLOCK)
        memcpy(to, blocks + instruction_place(i), OF_BLOCK);
}

/* The text's own code, and the stretch of it that each part has which is not found in the blocks yet. */
struct parts {
    struct code code;
    size_t count;
    struct { uint16_t start, size; } at[POLLUX_MAX_PARTS]; /* in instructions */
};

/* In the tree a part stands directly behind the one before it, but for the ";" that joins that one; in the code also behind a skip. */
static void find_stretches(const struct tokens *tokens, const struct tree *tree, struct parts *parts)
{
    struct part found[POLLUX_MAX_PARTS];
    size_t node = 0, start = 0;
    parts->count = find_parts(tokens, tree, found);
    for (size_t i = 0; i < parts->count; i++) {
        size_t size = instructions_of(tree, node, found[i].root), joins = i > 0;
        parts->at[i].start = (uint16_t)start;
        parts->at[i].size = (uint16_t)size;
        node = found[i].root + 1 + joins;
        start += size + joins + 1;
    }
}

static void translate_parts(const struct tokens *tokens, const struct tree *tree, struct parts *parts)
{
    uint8_t blocks[POLLUX_MAX_BLOCKS_SIZE];
    write_code(tree, blocks);
    take_out(blocks, instructions_of(tree, 0, tree->count - 1), &parts->code);
    find_stretches(tokens, tree, parts);
}

/*
 * Uses up a part that has this very code, if there is one. The last is tried first: the blocks are read from their end, so that those
 * in the text's own order take one try for each. There are 512 parts at most, so even the worst order takes a fraction of a millisecond.
 */
static bool use_up(struct parts *parts, const struct code *code, size_t start, size_t size)
{
    for (size_t i = parts->count; i-- > 0;) {
        if (parts->at[i].size != size ||
            memcmp(instruction(&parts->code, parts->at[i].start), instruction(code, start), size * POLLUX_INSTRUCTION_SIZE) != 0)
            continue;
        for (parts->count--; i < parts->count; i++)
            parts->at[i] = parts->at[i + 1];
        return true;
    }
    return false;
}

/* Which skip lands at each place, or 0: none is the first instruction. Where the blocks fit, just one lands behind each join. */
static void find_skips(const struct code *code, uint16_t skips[MOST_INSTRUCTIONS + 1])
{
    memset(skips, 0, (code->count + 1) * sizeof skips[0]);
    for (size_t i = 0; i < code->count; i++)
        if (instruction(code, i)[0] == SKIP)
            skips[i + 1 + short_at(instruction(code, i) + 2)] = (uint16_t)i;
}

/* Is it a skip as ";" has it, and the instruction before its landing such a join? */
static bool joins_parts(const struct code *code, size_t skip, size_t landing)
{
    const uint8_t *at = instruction(code, skip);
    return skip > 0 && at[1] == 0 && at[4] == 0 && instruction(code, landing - 1)[0] == JOIN_AND;
}

/*
 * From the end, where each join shows the part before it, down to the first part, which nothing joins. From the front it would not be
 * clear where that one ends: the code of "a" begins that of "a && b" too.
 */
static bool in_some_order(const struct code *code, struct parts *parts)
{
    uint16_t skips[MOST_INSTRUCTIONS + 1];
    size_t end = code->count;
    if (end != parts->code.count)
        return false;
    find_skips(code, skips);
    while (parts->count > 1) {
        size_t skip = skips[end];
        if (!joins_parts(code, skip, end) || !use_up(parts, code, skip + 1, end - 1 - (skip + 1)))
            return false;
        end = skip;
    }
    return use_up(parts, code, 0, end);
}

struct pollux_answer plain_compare(const uint8_t *text, size_t text_length, const uint8_t *list, size_t list_length,
                                   const uint8_t *blocks, size_t blocks_length)
{
    struct tokens tokens;
    struct tree tree;
    struct parts parts;
    struct code code;
    struct pollux_answer answer;
    size_t total;
    if (!checked_tree(text, text_length, list, list_length, &tokens, &tree, &answer) ||
        !check_code(list, list_length, blocks, blocks_length, &total, &answer))
        return answer;
    translate_parts(&tokens, &tree, &parts);
    take_out(blocks, total, &code);
    return (struct pollux_answer){ in_some_order(&code, &parts) ? POLLUX_AGREES : POLLUX_DIFFERS, 0, 0, 0 };
}
