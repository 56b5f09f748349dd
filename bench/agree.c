#include "agree.h"

#include <stdlib.h>
#include <string.h>

#include "plain.h"

static const struct calls plain_calls = {
    .read = plain_read,
    .check = plain_check,
    .judge = plain_judge,
    .translate = plain_translate,
    .load = plain_load,
    .run = plain_run,
    .print = plain_print,
    .explain = plain_explain,
    .summarize = plain_summarize,
    .recheck = plain_recheck,
    .fix_octal = plain_fix_octal,
    .pact = plain_pact,
    .compare = plain_compare,
    .count = plain_count,
    .run_all = plain_run_all,
};

/* ---- The requests that show what every version answers, in one order. */

typedef void with_request(struct request *request, const struct table *table);

static void each_entry(const struct table *table, struct input parts, with_request *use)
{
    for (size_t i = 0; i < entry_count(table); i++) {
        struct input entry = entry_of(table, i);
        use(&(struct request){ .call = JUDGE, .inputs = { table->text, table->list, entry } }, table);
        use(&(struct request){ .call = EXPLAIN, .inputs = { table->text, table->list, entry } }, table);
        use(&(struct request){ .call = COUNT, .inputs = { table->text, table->list, entry, parts } }, table);
        use(&(struct request){ .call = RUN, .inputs = { table->list, table->code.blocks, entry } }, table);
        use(&(struct request){ .call = RUN, .inputs = { table->list, table->unskipped.blocks, entry } }, table);
    }
}

static void each_request(const struct table *table, with_request *use)
{
    static uint8_t buffer[POLLUX_MAX_BLOCKS_SIZE];
    static uint8_t bytes[MANY];
    static uint64_t numbers[POLLUX_MAX_PARTS];
    const struct input nothing = { buffer, 0 }, whole = { buffer, sizeof buffer };
    const struct input parts = { (uint8_t *)numbers, sizeof numbers }, answers = { bytes, sizeof bytes };
    use(&(struct request){ .call = READ, .inputs = { table->text, nothing, nothing } }, table);
    use(&(struct request){ .call = PRINT, .inputs = { table->text, nothing, whole } }, table);
    use(&(struct request){ .call = FIX_OCTAL, .inputs = { table->text, nothing, whole } }, table);
    use(&(struct request){ .call = CHECK, .inputs = { table->text, table->list, nothing } }, table);
    use(&(struct request){ .call = SUMMARIZE, .inputs = { table->text, table->list, nothing } }, table);
    use(&(struct request){ .call = TRANSLATE, .inputs = { table->text, table->list, whole } }, table);
    use(&(struct request){ .call = COMPARE, .inputs = { table->text, table->list, table->code.blocks } }, table);
    use(&(struct request){ .call = COMPARE, .inputs = { table->text, table->list, table->unskipped.blocks } }, table);
    use(&(struct request){ .call = COUNT, .inputs = { table->text, table->list, table->entries, parts } }, table);
    use(&(struct request){ .call = LOAD, .inputs = { table->list, table->code.blocks, nothing } }, table);
    use(&(struct request){ .call = LOAD, .inputs = { table->list, table->unskipped.blocks, nothing } }, table);
    use(&(struct request){ .call = RUN_ALL, .inputs = { table->list, table->code.blocks, table->entries, answers } }, table);
    each_entry(table, parts, use);
}

static void each_recheck(const struct edit *edit, with_request *use)
{
    const struct table *table = &edit->table;
    use(&(struct request){ .call = SUMMARIZE, .inputs = { table->text, table->list, { table->text.at, 0 } } }, table);
    for (size_t i = 0; i < different(edit); i++) {
        struct input old = entry_at(edit->old, table, i), new = entry_at(edit->new, table, i);
        use(&(struct request){ RECHECK, { table->text, table->list, new, old }, edit->earlier[i] }, table);
        use(&(struct request){ .call = JUDGE, .inputs = { table->text, table->list, new } }, table);
    }
}

/* No table has an octal numeral, so a text of its own shows how one is turned: in a string and in a comment it stays. */
static void octal_request(with_request *use)
{
    static char octal[] = "a == 0o7640 // 0o7640\n"
                          "&& b != 0O0017 || c::mask == 0o3777777777777777777777777777777777777777777 -> ipv4('0o7')";
    static uint8_t buffer[POLLUX_MAX_TEXT];
    const struct input text = { (uint8_t *)octal, sizeof octal - 1 };
    use(&(struct request){ .call = FIX_OCTAL, .inputs = { text, { buffer, 0 }, { buffer, sizeof buffer } } },
        &(struct table){ .name = "octal numerals" });
}

/* No entry of a table breaks two parts, and none is cut. Here 7 breaks one and 12 two, one is refused, and three bytes are left. */
static void count_request(with_request *use)
{
    static char text[] = "::priority < 10; true; ::priority < 5";
    static uint8_t entries[] = { 0, 0, 0, 3, 0, 0, 0, 7, 0, 0, 0, 12, 128, 0, 0, 0, 0, 0, 0 };
    static uint64_t numbers[POLLUX_MAX_PARTS];
    use(&(struct request){ .call = COUNT,
                           .inputs = { { (uint8_t *)text, sizeof text - 1 }, { entries, 0 }, { entries, sizeof entries },
                                       [PARTS] = { (uint8_t *)numbers, sizeof numbers } } },
        &(struct table){ .name = "priorities" });
}

static void order_request(const struct order *order, with_request *use)
{
    use(&(struct request){ .call = COMPARE, .inputs = { order->text, order->list, order->blocks } },
        &(struct table){ .name = order->name });
}

static void contract_request(const struct contract *contract, with_request *use)
{
    static uint8_t buffer[POLLUX_MAX_TEXT];
    const struct input whole = { buffer, sizeof buffer };
    use(&(struct request){ .call = PACT, .inputs = { contract->bytes, contract->names, whole, [TABLE] = contract->numbers } },
        &(struct table){ .name = contract->name });
}

/* What stands in no table. */
static void each_other(const struct measured_work *work, with_request *use)
{
    octal_request(use);
    count_request(use);
    for (int i = 0; i < ORDERS; i++)
        order_request(&work->orders[i], use);
    for (int i = 0; i < CONTRACTS; i++)
        contract_request(&work->contracts[i], use);
}

static void write_one(struct request *request, const struct table *table)
{
    (void)table;
    write_request(stdout, request);
}

void write_requests(const struct measured_work *work)
{
    for (int i = 0; i < TABLES; i++)
        each_request(&work->tables[i], write_one);
    for (size_t i = 0; i < work->edit_count; i++)
        each_recheck(&work->edits[i], write_one);
    each_other(work, write_one);
}

/* ---- Agreement with the reference. */

static FILE *lines;

static _Noreturn void differs(const struct request *request, const struct table *table, const char *who, const char *got, const char *line)
{
    fprintf(stderr, "%s, %s: %s says '%s', the reference '%s'\n", table->name, call_name(request->call), who, got, line);
    exit(1);
}

/* What a call writes to holds zeros before it, as it did when the request was written. */
static void clear(const struct request *request)
{
    for (unsigned i = 0; i < INPUTS; i++)
        if (writes_to(request->call, i))
            memset(request->inputs[i].at, 0, request->inputs[i].length);
}

static void hold(struct request *request, const struct table *table, const char *who, const struct calls *calls, const char *line)
{
    char got[LINE_SIZE];
    clear(request);
    answer_line(got, request, make_call(calls, request));
    if (strcmp(got, line) != 0)
        differs(request, table, who, got, line);
    clear(request);
}

static void hold_unchecked(struct request *request, const struct table *table, const char line[LINE_SIZE])
{
    const uint8_t *entry = request->inputs[2].at;
    const struct code *code = request->inputs[1].at == table->code.blocks.at ? &table->code : &table->unskipped;
    const char *const verdicts[] = { "violated", "accepted" };
    if (memcmp(line, "refused", strlen("refused")) == 0)
        return;
    struct plain_ran ran = plain_unchecked(table->list.at, code->blocks.at, code->instructions, entry);
    char got[LINE_SIZE];
    snprintf(got, sizeof got, "%s %zu", verdicts[ran.accepted], ran.steps);
    if (strcmp(got, line) != 0)
        differs(request, table, "the unchecked interpreter", got, line);
    if (table->by_hand != NULL && table->by_hand(entry) != ran.accepted)
        differs(request, table, "the restriction by hand", verdicts[!ran.accepted], line);
}

static void hold_all(struct request *request, const struct table *table)
{
    char line[LINE_SIZE];
    if (fgets(line, sizeof line, lines) == NULL) {
        fprintf(stderr, "there are fewer lines than requests\n");
        exit(3);
    }
    line[strcspn(line, "\n")] = '\0';
    hold(request, table, "Polluxvalve", &pollux_calls, line);
    hold(request, table, "plain C", &plain_calls, line);
    if (request->call == RUN)
        hold_unchecked(request, table, line);
}

/* ---- The long tables that are measured: what the unchecked interpreter and a count say of each entry, which was held to the reference. */

static void hold_long(const struct table *table, struct input entries, const char *who, const struct calls *calls)
{
    uint8_t answers[MANY], wanted[MANY];
    if (entries.length == 0)
        return;
    uint64_t steps = plain_unchecked_all(table->list.at, table->code.blocks.at, table->code.instructions, entries.at, MANY,
                                         table->entry_size, wanted);
    struct pollux_table told = calls->run_all(table->list.at, table->list.length, table->code.blocks.at, table->code.blocks.length,
                                              entries.at, entries.length, answers, sizeof answers);
    if (told.says == POLLUX_DONE && told.value == MANY && told.steps == steps && memcmp(answers, wanted, MANY) == 0)
        return;
    fprintf(stderr, "%s, run_all: %s does not say of a long table what a run of each entry says\n", table->name, who);
    exit(1);
}

/* The counts of each entry by itself, added up. */
static struct pollux_counts count_each(const struct table *table, struct input entries, uint64_t parts[POLLUX_MAX_PARTS])
{
    struct pollux_counts all = { .says = POLLUX_DONE };
    memset(parts, 0, POLLUX_MAX_PARTS * sizeof parts[0]);
    for (size_t at = 0; at < entries.length; at += table->entry_size) {
        uint64_t one[POLLUX_MAX_PARTS];
        struct pollux_counts counts = plain_count(table->text.at, table->text.length, table->list.at, table->list.length, entries.at + at,
                                                  table->entry_size, one);
        all.value = counts.value;
        all.accepted += counts.accepted;
        all.violated += counts.violated;
        for (size_t k = 0; k < counts.value; k++)
            parts[k] += one[k];
    }
    return all;
}

static void hold_count(const struct table *table, const char *who, const struct calls *calls)
{
    uint64_t parts[POLLUX_MAX_PARTS], wanted[POLLUX_MAX_PARTS];
    struct input entries = table->many_conforming;
    struct pollux_counts all = count_each(table, entries, wanted);
    struct pollux_counts told = calls->count(table->text.at, table->text.length, table->list.at, table->list.length, entries.at,
                                             entries.length, parts);
    if (memcmp(&told, &all, sizeof told) == 0 && memcmp(parts, wanted, all.value * sizeof parts[0]) == 0)
        return;
    fprintf(stderr, "%s, count: %s does not count in a long table what it counts entry by entry\n", table->name, who);
    exit(1);
}

static void hold_both(const struct table *table, struct input entries)
{
    hold_long(table, entries, "Polluxvalve", &pollux_calls);
    hold_long(table, entries, "plain C", &plain_calls);
}

void hold_to_lines(const struct measured_work *work, const char *path)
{
    lines = fopen(path, "rb");
    if (lines == NULL) {
        perror(path);
        exit(3);
    }
    for (int i = 0; i < TABLES; i++) {
        each_request(&work->tables[i], hold_all);
        hold_both(&work->tables[i], work->tables[i].many_accepted);
        hold_both(&work->tables[i], work->tables[i].many_violated);
        hold_count(&work->tables[i], "Polluxvalve", &pollux_calls);
        hold_count(&work->tables[i], "plain C", &plain_calls);
    }
    for (size_t i = 0; i < work->edit_count; i++)
        each_recheck(&work->edits[i], hold_all);
    each_other(work, hold_all);
    fclose(lines);
}
