/* The layout of blocks and instructions. */
#ifndef PLAIN_BLOCKS_H
#define PLAIN_BLOCKS_H

#include "plain_parts.h"

enum operation {
    PUSH_BOOL = 1, PUSH_INT, PUSH_KEY, PUSH_FIELD, PUSH_PRIORITY, TURN, NEGATE, CONVERT, COMPARE_TWO, JOIN_AND, JOIN_OR, JOIN_IMPLIES, SKIP
};

enum { MOST_INSTRUCTIONS = POLLUX_MAX_BLOCKS * POLLUX_BLOCK_INSTRUCTIONS };

enum { CODE_AT = 4, TOTAL_AT = 504, KEYS_AT = 506, CHECK_AT = 508 };

static inline size_t instruction_place(size_t index)
{
    return index / POLLUX_BLOCK_INSTRUCTIONS * POLLUX_BLOCK_SIZE + CODE_AT +
           index % POLLUX_BLOCK_INSTRUCTIONS * POLLUX_INSTRUCTION_SIZE;
}

struct sums {
    uint32_t first, second;
};

struct sums block_sums(const uint8_t *block);

/* How many instructions the nodes of a tree that passed have, from the first to the last; a skip counts with its join. And writes all of
   the tree's where blocks have them (plain_translate.c). */
size_t instructions_of(const struct tree *tree, size_t first, size_t last);
void write_code(const struct tree *tree, uint8_t *blocks);

/* Writes what stands around the instructions of a block. */
void seal_block(uint8_t *block, size_t index, size_t total, size_t keys);

/* Stages 16 to 18, for a list that passed, and with 2 to 4 before them; gives the number of instructions. (plain_load.c) */
bool check_code(const uint8_t *list, size_t list_length, const uint8_t *blocks, size_t length, size_t *total,
                struct pollux_answer *answer);
bool check_blocks(const uint8_t *list, size_t list_length, const uint8_t *blocks, size_t length, size_t *total,
                  struct pollux_answer *answer);

#endif
