/* A text's tree into blocks: refusal 15. */
#include "plain_blocks.h"

struct writer {
    uint8_t *blocks;
    size_t count;                     /* instructions written */
    uint16_t skip[POLLUX_MAX_TOKENS]; /* the skip after each node that is the left operand of a join */
};

static void write_instruction(struct writer *writer, unsigned operation, unsigned detail, unsigned operand, number constant)
{
    uint8_t *at = writer->blocks + instruction_place(writer->count++);
    at[0] = (uint8_t)operation;
    at[1] = (uint8_t)detail;
    set_short(at + 2, operand);
    set_number(at + 4, constant);
}

/* The instruction of a node, and a conversion if it has one. */
static void write_node(struct writer *writer, const struct node *node)
{
    switch (node->what) {
    case TRUTH: write_instruction(writer, PUSH_BOOL, 0, (unsigned)node->value, 0); break;
    case WHOLE: write_instruction(writer, PUSH_INT, 0, 0, node->value); break;
    case KEY: write_instruction(writer, PUSH_KEY, 0, node->key, 0); break;
    case FIELD: write_instruction(writer, PUSH_FIELD, node->field, node->key, 0); break;
    case ATTRIBUTE: write_instruction(writer, PUSH_PRIORITY, 0, 0, 0); break;
    case OPPOSITE: write_instruction(writer, TURN, 0, 0, 0); break;
    case NEGATIVE: write_instruction(writer, NEGATE, 0, 0, 0); break;
    case COMPARISON: write_instruction(writer, COMPARE_TWO, node->comparison, 0, 0); break;
    case SEQUENCE: write_instruction(writer, JOIN_AND, 0, 0, 0); break;
    default: write_instruction(writer, JOIN_AND + (node->what - BOTH), 0, 0, 0);
    }
    if (node->converted.width != 0)
        write_instruction(writer, CONVERT, node->converted.kind, node->converted.width, 0);
}

static bool joins(unsigned what)
{
    return what >= SEQUENCE;
}

/* Where the left operand settles a join, a skip leaves what the join would. How many instructions it passes over, up to the join and with
 * it, is known when the right operand is written. */
static void write_skip(struct writer *writer, size_t left, unsigned join)
{
    unsigned on = join == EITHER, to = join == EITHER || join == IMPLIES;
    writer->skip[left] = (uint16_t)writer->count;
    write_instruction(writer, SKIP, on, 0, (number)to << 120);
}

static void set_landing(struct writer *writer, size_t left)
{
    size_t skip = writer->skip[left];
    set_short(writer->blocks + instruction_place(skip) + 2, (unsigned)(writer->count - skip));
}

void write_code(const struct tree *tree, uint8_t *blocks)
{
    struct writer writer;
    writer.blocks = blocks;
    writer.count = 0;
    for (size_t i = 0; i < tree->count; i++) {
        const struct node *node = &tree->at[i];
        if (joins(node->what))
            set_landing(&writer, node->left);
        write_node(&writer, node);
        if (joins(node->above))
            write_skip(&writer, i, node->above);
    }
}

size_t instructions_of(const struct tree *tree, size_t first, size_t last)
{
    size_t count = last + 1 - first;
    for (size_t i = first; i <= last; i++)
        count += (tree->at[i].converted.width != 0) + joins(tree->at[i].what);
    return count;
}

void seal_block(uint8_t *block, size_t index, size_t total, size_t keys)
{
    size_t left = total - index * POLLUX_BLOCK_INSTRUCTIONS;
    set_short(block, (unsigned)index);
    set_short(block + 2, (unsigned)(left < POLLUX_BLOCK_INSTRUCTIONS ? left : POLLUX_BLOCK_INSTRUCTIONS));
    set_short(block + TOTAL_AT, (unsigned)total);
    set_short(block + KEYS_AT, (unsigned)keys);
    struct sums sums = block_sums(block);
    set_short(block + CHECK_AT, sums.second);
    set_short(block + CHECK_AT + 2, sums.first);
}

struct pollux_answer plain_translate(const uint8_t *text, size_t text_length, const uint8_t *list, size_t list_length,
                                     uint8_t *buffer, size_t buffer_length)
{
    struct tokens tokens;
    struct tree tree;
    struct pollux_answer answer;
    if (!checked_tree(text, text_length, list, list_length, &tokens, &tree, &answer))
        return answer;
    size_t total = instructions_of(&tree, 0, tree.count - 1);
    size_t needed = POLLUX_BLOCKS_SIZE(total);
    if (buffer_length < needed) {
        refuse(&answer, POLLUX_BUFFER_SHORT, POLLUX_BUFFER, buffer_length);
        return answer;
    }
    memset(buffer, 0, needed);
    write_code(&tree, buffer);
    for (size_t index = 0; index < needed / POLLUX_BLOCK_SIZE; index++)
        seal_block(buffer + index * POLLUX_BLOCK_SIZE, index, total, list_length / POLLUX_KEY_SIZE);
    return done(total);
}
