/*
 * The calls of pollux.h over the archive's code when that is compiled for Arm. The code takes the place of its answer as a first
 * argument, as x86-64's convention has it; C on Arm passes it in a register of its own, x8. And it takes the earlier answer of a recheck
 * on the stack, before what has no register there, where C on Arm passes its address: so its four numbers are arguments after the eight that
 * have one. `tools/here` gives the code's functions the names raw_..., so that these can have theirs.
 */
#include "pollux.h"

typedef struct pollux_answer answer;
typedef const uint8_t *bytes;

uint64_t raw_pollux_version(void);
void raw_pollux_read(answer *, bytes, size_t);
void raw_pollux_check(answer *, bytes, size_t, bytes, size_t);
void raw_pollux_judge(answer *, bytes, size_t, bytes, size_t, bytes, size_t);
void raw_pollux_translate(answer *, bytes, size_t, bytes, size_t, uint8_t *, size_t);
void raw_pollux_load(answer *, bytes, size_t, bytes, size_t);
void raw_pollux_run(answer *, bytes, size_t, bytes, size_t, bytes, size_t);
void raw_pollux_run_all(struct pollux_table *, bytes, size_t, bytes, size_t, bytes, size_t, uint8_t *, size_t);
void raw_pollux_print(answer *, bytes, size_t, uint8_t *, size_t);
void raw_pollux_fix_octal(answer *, bytes, size_t, uint8_t *, size_t);
void raw_pollux_pact(answer *, bytes, size_t, const uint64_t *, size_t, bytes, size_t, uint8_t *, size_t);
void raw_pollux_compare(answer *, bytes, size_t, bytes, size_t, bytes, size_t);
void raw_pollux_count(struct pollux_counts *, bytes, size_t, bytes, size_t, bytes, size_t, uint64_t *);
void raw_pollux_explain(struct pollux_reason *, bytes, size_t, bytes, size_t, bytes, size_t);
void raw_pollux_summarize(struct pollux_summary *, bytes, size_t, bytes, size_t);
void raw_pollux_recheck(struct pollux_rechecked *, bytes, size_t, bytes, size_t, bytes, size_t, bytes, uint64_t, uint64_t, uint64_t,
                        uint64_t, size_t);

uint64_t pollux_version(void)
{
    return raw_pollux_version();
}

answer pollux_read(bytes text, size_t text_length)
{
    answer given;
    raw_pollux_read(&given, text, text_length);
    return given;
}

answer pollux_check(bytes text, size_t text_length, bytes list, size_t list_length)
{
    answer given;
    raw_pollux_check(&given, text, text_length, list, list_length);
    return given;
}

answer pollux_judge(bytes text, size_t text_length, bytes list, size_t list_length, bytes entry, size_t entry_length)
{
    answer given;
    raw_pollux_judge(&given, text, text_length, list, list_length, entry, entry_length);
    return given;
}

answer pollux_translate(bytes text, size_t text_length, bytes list, size_t list_length, uint8_t *buffer, size_t buffer_length)
{
    answer given;
    raw_pollux_translate(&given, text, text_length, list, list_length, buffer, buffer_length);
    return given;
}

answer pollux_load(bytes list, size_t list_length, bytes blocks, size_t blocks_length)
{
    answer given;
    raw_pollux_load(&given, list, list_length, blocks, blocks_length);
    return given;
}

answer pollux_run(bytes list, size_t list_length, bytes blocks, size_t blocks_length, bytes entry, size_t entry_length)
{
    answer given;
    raw_pollux_run(&given, list, list_length, blocks, blocks_length, entry, entry_length);
    return given;
}

struct pollux_table pollux_run_all(bytes list, size_t list_length, bytes blocks, size_t blocks_length, bytes entries, size_t entries_length,
                                   uint8_t *answers, size_t answers_length)
{
    struct pollux_table given;
    raw_pollux_run_all(&given, list, list_length, blocks, blocks_length, entries, entries_length, answers, answers_length);
    return given;
}

answer pollux_print(bytes text, size_t text_length, uint8_t *buffer, size_t buffer_length)
{
    answer given;
    raw_pollux_print(&given, text, text_length, buffer, buffer_length);
    return given;
}

answer pollux_fix_octal(bytes text, size_t text_length, uint8_t *buffer, size_t buffer_length)
{
    answer given;
    raw_pollux_fix_octal(&given, text, text_length, buffer, buffer_length);
    return given;
}

answer pollux_pact(bytes contract, size_t contract_length, const uint64_t *table, size_t table_count, bytes names, size_t names_length,
                   uint8_t *buffer, size_t buffer_length)
{
    answer given;
    raw_pollux_pact(&given, contract, contract_length, table, table_count, names, names_length, buffer, buffer_length);
    return given;
}

answer pollux_compare(bytes text, size_t text_length, bytes list, size_t list_length, bytes blocks, size_t blocks_length)
{
    answer given;
    raw_pollux_compare(&given, text, text_length, list, list_length, blocks, blocks_length);
    return given;
}

struct pollux_counts pollux_count(bytes text, size_t text_length, bytes list, size_t list_length, bytes entries, size_t entries_length,
                                  uint64_t *parts)
{
    struct pollux_counts given;
    raw_pollux_count(&given, text, text_length, list, list_length, entries, entries_length, parts);
    return given;
}

struct pollux_reason pollux_explain(bytes text, size_t text_length, bytes list, size_t list_length, bytes entry, size_t entry_length)
{
    struct pollux_reason given;
    raw_pollux_explain(&given, text, text_length, list, list_length, entry, entry_length);
    return given;
}

struct pollux_summary pollux_summarize(bytes text, size_t text_length, bytes list, size_t list_length)
{
    struct pollux_summary given;
    raw_pollux_summarize(&given, text, text_length, list, list_length);
    return given;
}

struct pollux_rechecked pollux_recheck(bytes text, size_t text_length, bytes list, size_t list_length, bytes old_entry, size_t old_length,
                                       answer earlier, bytes new_entry, size_t new_length)
{
    struct pollux_rechecked given;
    raw_pollux_recheck(&given, text, text_length, list, list_length, old_entry, old_length, new_entry, earlier.says, earlier.number,
                       earlier.input, earlier.value, new_length);
    return given;
}
