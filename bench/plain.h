/*
 * The calls in plain C, as a careful engineer would write them without proofs: what the speed of Polluxvalve is held against.
 * They give the same answers, refusals and places included.
 */
#ifndef PLAIN_H
#define PLAIN_H

#include <stdbool.h>

#include "pollux.h"

struct pollux_answer plain_read(const uint8_t *text, size_t text_length);

struct pollux_answer plain_check(const uint8_t *text, size_t text_length,
                                 const uint8_t *list, size_t list_length);

struct pollux_answer plain_judge(const uint8_t *text, size_t text_length,
                                 const uint8_t *list, size_t list_length,
                                 const uint8_t *entry, size_t entry_length);

struct pollux_answer plain_translate(const uint8_t *text, size_t text_length,
                                     const uint8_t *list, size_t list_length,
                                     uint8_t *buffer, size_t buffer_length);

struct pollux_answer plain_load(const uint8_t *list, size_t list_length,
                                const uint8_t *blocks, size_t blocks_length);

struct pollux_answer plain_run(const uint8_t *list, size_t list_length,
                               const uint8_t *blocks, size_t blocks_length,
                               const uint8_t *entry, size_t entry_length);

struct pollux_table plain_run_all(const uint8_t *list, size_t list_length,
                                  const uint8_t *blocks, size_t blocks_length,
                                  const uint8_t *entries, size_t entries_length,
                                  uint8_t *answers, size_t answers_length);

struct pollux_answer plain_print(const uint8_t *text, size_t text_length,
                                 uint8_t *buffer, size_t buffer_length);

struct pollux_answer plain_fix_octal(const uint8_t *text, size_t text_length,
                                     uint8_t *buffer, size_t buffer_length);

struct pollux_answer plain_pact(const uint8_t *contract, size_t contract_length,
                                const uint64_t *table, size_t table_count,
                                const uint8_t *names, size_t names_length,
                                uint8_t *buffer, size_t buffer_length);

struct pollux_answer plain_compare(const uint8_t *text, size_t text_length,
                                   const uint8_t *list, size_t list_length,
                                   const uint8_t *blocks, size_t blocks_length);

struct pollux_reason plain_explain(const uint8_t *text, size_t text_length,
                                   const uint8_t *list, size_t list_length,
                                   const uint8_t *entry, size_t entry_length);

struct pollux_summary plain_summarize(const uint8_t *text, size_t text_length,
                                      const uint8_t *list, size_t list_length);

struct pollux_rechecked plain_recheck(const uint8_t *text, size_t text_length,
                                      const uint8_t *list, size_t list_length,
                                      const uint8_t *old_entry, size_t old_length,
                                      struct pollux_answer earlier,
                                      const uint8_t *new_entry, size_t new_length);

struct pollux_counts plain_count(const uint8_t *text, size_t text_length,
                                 const uint8_t *list, size_t list_length,
                                 const uint8_t *entries, size_t entries_length,
                                 uint64_t parts[POLLUX_MAX_PARTS]);

struct plain_ran {
    bool accepted;
    size_t steps;
};

/* Runs blocks that load on an entry that conforms, and checks nothing. */
struct plain_ran plain_unchecked(const uint8_t *list, const uint8_t *blocks, size_t instructions, const uint8_t *entry);

/* The same on entries that lie end to end, with a byte for each of them; gives the steps of all. */
uint64_t plain_unchecked_all(const uint8_t *list, const uint8_t *blocks, size_t instructions,
                             const uint8_t *entries, size_t count, size_t entry_size, uint8_t *answers);

#endif
