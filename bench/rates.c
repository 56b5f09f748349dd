#include "rates.h"

#include <string.h>

#include "plain.h"
#include "sheet.h"
#include "timing.h"

/* ---- What is measured: one piece of work, on one entry or on many that lie end to end. */

static uint8_t buffer[POLLUX_MAX_BLOCKS_SIZE];
static uint8_t answers[MANY];
static uint64_t parts[POLLUX_MAX_PARTS];

typedef uint64_t work(const struct table *table, struct input entries);

#define TEXT table->text.at, table->text.length
#define LIST table->list.at, table->list.length
#define BLOCKS table->code.blocks.at, table->code.blocks.length
#define UNSKIPPED table->unskipped.blocks.at, table->unskipped.blocks.length
#define ENTRIES entries.at, entries.length
#define BUFFER buffer, sizeof buffer
#define TOLD answers, sizeof answers
#define WORK(name, value)                                                  \
    static uint64_t name(const struct table *table, struct input entries)  \
    {                                                                      \
        (void)entries;                                                     \
        return value;                                                      \
    }

static uint64_t unchecked(const struct table *table, const struct code *code, const uint8_t *entry)
{
    return plain_unchecked(table->list.at, code->blocks.at, code->instructions, entry).accepted;
}

static uint64_t each_by_hand(const struct table *table, struct input entries)
{
    for (size_t i = 0; i < entries.length / table->entry_size; i++)
        answers[i] = table->by_hand(entries.at + i * table->entry_size) ? POLLUX_ACCEPTED : POLLUX_VIOLATED;
    return answers[0];
}

WORK(run_pollux, pollux_run(LIST, BLOCKS, ENTRIES).says)
WORK(run_plain, plain_run(LIST, BLOCKS, ENTRIES).says)
WORK(run_unchecked, unchecked(table, &table->code, entries.at))
WORK(run_by_hand, table->by_hand(entries.at))
WORK(run_unskipped_pollux, pollux_run(LIST, UNSKIPPED, ENTRIES).says)
WORK(run_unskipped_plain, plain_run(LIST, UNSKIPPED, ENTRIES).says)
WORK(run_unskipped_unchecked, unchecked(table, &table->unskipped, entries.at))
WORK(run_all_pollux, pollux_run_all(LIST, BLOCKS, ENTRIES, TOLD).steps)
WORK(run_all_plain, plain_run_all(LIST, BLOCKS, ENTRIES, TOLD).steps)
WORK(run_all_unchecked, plain_unchecked_all(table->list.at, table->code.blocks.at, table->code.instructions, entries.at,
                                            entries.length / table->entry_size, table->entry_size, answers))
WORK(run_all_by_hand, each_by_hand(table, entries))
WORK(count_pollux, pollux_count(TEXT, LIST, ENTRIES, parts).accepted)
WORK(count_plain, plain_count(TEXT, LIST, ENTRIES, parts).accepted)
WORK(judge_pollux, pollux_judge(TEXT, LIST, ENTRIES).says)
WORK(judge_plain, plain_judge(TEXT, LIST, ENTRIES).says)
WORK(explain_pollux, pollux_explain(TEXT, LIST, ENTRIES).start)
WORK(explain_plain, plain_explain(TEXT, LIST, ENTRIES).start)
WORK(load_pollux, pollux_load(LIST, BLOCKS).value)
WORK(load_plain, plain_load(LIST, BLOCKS).value)
WORK(load_unskipped_pollux, pollux_load(LIST, UNSKIPPED).value)
WORK(load_unskipped_plain, plain_load(LIST, UNSKIPPED).value)
WORK(translate_pollux, pollux_translate(TEXT, LIST, BUFFER).value)
WORK(translate_plain, plain_translate(TEXT, LIST, BUFFER).value)
WORK(compare_pollux, pollux_compare(TEXT, LIST, BLOCKS).says)
WORK(compare_plain, plain_compare(TEXT, LIST, BLOCKS).says)
WORK(check_pollux, pollux_check(TEXT, LIST).says)
WORK(check_plain, plain_check(TEXT, LIST).says)
WORK(summarize_pollux, pollux_summarize(TEXT, LIST).keys)
WORK(summarize_plain, plain_summarize(TEXT, LIST).keys)
WORK(read_pollux, pollux_read(TEXT).value)
WORK(read_plain, plain_read(TEXT).value)
WORK(print_pollux, pollux_print(TEXT, BUFFER).value)
WORK(print_plain, plain_print(TEXT, BUFFER).value)
WORK(fix_octal_pollux, pollux_fix_octal(TEXT, BUFFER).value)
WORK(fix_octal_plain, plain_fix_octal(TEXT, BUFFER).value)

enum { POLLUX, PLAIN, UNCHECKED, BY_HAND, VERSIONS };
enum entries { CONFORMING, ACCEPTED, VIOLATED, MANY_CONFORMING, MANY_ACCEPTED, MANY_VIOLATED };
enum blocks { TRANSLATED, WITHOUT_SKIPS };

static const struct measured {
    const char *name;
    enum entries entries;
    enum blocks blocks;
    work *versions[VERSIONS];
} all_measured[] = {
    { "run-accepted", ACCEPTED, TRANSLATED, { run_pollux, run_plain, run_unchecked, run_by_hand } },
    { "run-violated", VIOLATED, TRANSLATED, { run_pollux, run_plain, run_unchecked, run_by_hand } },
    { "run-unskipped", CONFORMING, WITHOUT_SKIPS, { run_unskipped_pollux, run_unskipped_plain, run_unskipped_unchecked, run_by_hand } },
    { "run-all-accepted", MANY_ACCEPTED, TRANSLATED, { run_all_pollux, run_all_plain, run_all_unchecked, run_all_by_hand } },
    { "run-all-violated", MANY_VIOLATED, TRANSLATED, { run_all_pollux, run_all_plain, run_all_unchecked, run_all_by_hand } },
    { "load", CONFORMING, TRANSLATED, { load_pollux, load_plain, NULL, NULL } },
    { "load-unskipped", CONFORMING, WITHOUT_SKIPS, { load_unskipped_pollux, load_unskipped_plain, NULL, NULL } },
    { "judge", CONFORMING, TRANSLATED, { judge_pollux, judge_plain, NULL, NULL } },
    { "explain", CONFORMING, TRANSLATED, { explain_pollux, explain_plain, NULL, NULL } },
    { "count", MANY_CONFORMING, TRANSLATED, { count_pollux, count_plain, NULL, NULL } },
    { "check", CONFORMING, TRANSLATED, { check_pollux, check_plain, NULL, NULL } },
    { "summarize", CONFORMING, TRANSLATED, { summarize_pollux, summarize_plain, NULL, NULL } },
    { "translate", CONFORMING, TRANSLATED, { translate_pollux, translate_plain, NULL, NULL } },
    { "compare", CONFORMING, TRANSLATED, { compare_pollux, compare_plain, NULL, NULL } },
    { "read", CONFORMING, TRANSLATED, { read_pollux, read_plain, NULL, NULL } },
    { "print", CONFORMING, TRANSLATED, { print_pollux, print_plain, NULL, NULL } },
    { "fix-octal", CONFORMING, TRANSLATED, { fix_octal_pollux, fix_octal_plain, NULL, NULL } },
};

static struct input measured_entries(const struct measured *measured, const struct table *table)
{
    switch (measured->entries) {
    case ACCEPTED: return table->accepted;
    case VIOLATED: return table->violated;
    case MANY_CONFORMING: return table->many_conforming;
    case MANY_ACCEPTED: return table->many_accepted;
    case MANY_VIOLATED: return table->many_violated;
    default: return table->conforming;
    }
}

/* No row where there is no such entry, or no skip to leave out. */
static bool has_row(const struct measured *measured, const struct table *table)
{
    bool skips = table->unskipped.instructions < table->code.instructions;
    return measured_entries(measured, table).length > 0 && (measured->blocks == TRANSLATED || skips);
}

/* Two calls of Polluxvalve that take turns as two versions do: one that has more to do, and what it has to do at least. */
enum { MORE, LESS };
static const struct beside {
    const char *more, *less;
    struct measured calls;
} all_beside[] = {
    { "print", "read", { "print", CONFORMING, TRANSLATED, { [MORE] = print_pollux, [LESS] = read_pollux } } },
    { "explain", "judge", { "explain", CONFORMING, TRANSLATED, { [MORE] = explain_pollux, [LESS] = judge_pollux } } },
};

/* ---- Time. */

/* Some entries, by the piece of work: all of them in one piece, or each in one. */
struct pass {
    work *work;
    const struct table *table;
    struct input entries;
    size_t piece; /* bytes */
};

static uint64_t go_over(const void *with)
{
    const struct pass *pass = with;
    uint64_t sum = 0;
    for (size_t at = 0; at < pass->entries.length; at += pass->piece)
        sum += pass->work(pass->table, (struct input){ pass->entries.at + at, pass->piece });
    return sum;
}

/* Nanoseconds for an entry, over one turn. */
static double time_of(work *work, const struct measured *measured, const struct table *table)
{
    struct input entries = measured_entries(measured, table);
    bool at_once = measured->entries >= MANY_CONFORMING;
    struct pass pass = { work, table, entries, at_once ? entries.length : table->entry_size };
    return 1e9 / rate(go_over, &pass) * (double)table->entry_size / (double)entries.length;
}

/* The best of some rounds, in which the versions take turns; 0 for one that there is not. */
static void measure(const struct measured *measured, const struct table *table, double best[VERSIONS])
{
    for (int version = 0; version < VERSIONS; version++)
        best[version] = 0;
    for (int round = 0; round < ROUNDS; round++)
        for (int version = 0; version < VERSIONS; version++) {
            work *work = measured->versions[version];
            if (work == NULL || (version == BY_HAND && table->by_hand == NULL))
                continue;
            double now = time_of(work, measured, table);
            if (round == 0 || now < best[version])
                best[version] = now;
        }
}

/* ---- Tables. */

/* The mean of the steps of some entries, or 0. */
static double mean_steps(const struct table *table, struct input entries)
{
    size_t steps = 0;
    for (size_t at = 0; at < entries.length; at += table->entry_size)
        steps += plain_unchecked(table->list.at, table->code.blocks.at, table->code.instructions, entries.at + at).steps;
    return entries.length == 0 ? 0 : (double)steps * (double)table->entry_size / (double)entries.length;
}

static void print_sizes(const struct table tables[TABLES])
{
    enum { NAME, BYTES, KEYS, INSTRUCTIONS, SKIPS, IN_BLOCKS, STEPS_ACCEPTED, STEPS_VIOLATED, COLUMNS };
    static const struct column columns[COLUMNS] = {
        { "restriction", -13 }, { "bytes", 6 },  { "keys", 5 },            { "instructions", 13 },
        { "skips", 6 },         { "blocks", 7 }, { "steps, accepted", 16 }, { "steps, violated", 16 },
    };
    printf("\nThe tables; their steps are the mean over the entries that are accepted, and over those that are violated.\n");
    sheet_head(columns, COLUMNS);
    for (int i = 0; i < TABLES; i++) {
        const struct table *table = &tables[i];
        sheet_word(&columns[NAME], table->name);
        sheet_number(&columns[BYTES], (double)table->text.length, 0);
        sheet_number(&columns[KEYS], (double)(table->list.length / POLLUX_KEY_SIZE), 0);
        sheet_number(&columns[INSTRUCTIONS], (double)table->code.instructions, 0);
        sheet_number(&columns[SKIPS], (double)(table->code.instructions - table->unskipped.instructions), 0);
        sheet_number(&columns[IN_BLOCKS], (double)(table->code.blocks.length / POLLUX_BLOCK_SIZE), 0);
        sheet_number(&columns[STEPS_ACCEPTED], mean_steps(table, table->accepted), 1);
        sheet_number(&columns[STEPS_VIOLATED], mean_steps(table, table->violated), 1);
        sheet_end();
    }
}

static void print_times(const struct table tables[TABLES])
{
    enum { NAME, CALL, OURS, OTHERS, COLUMNS = OTHERS + 2 * (VERSIONS - PLAIN) };
    static const struct column columns[COLUMNS] = {
        { "restriction", -13 }, { "call", -16 },      { "Polluxvalve", 12 }, { "plain C", 9 }, { "ratio", 6 },
        { "unchecked C", 12 },  { "ratio", 6 }, { "by hand", 8 },      { "ratio", 6 },
    };
    printf("\nNanoseconds a call, and for an entry where a call has %d of them (run-all and count). Each ratio is how many times longer\n"
           "Polluxvalve takes.\n", MANY);
    sheet_head(columns, COLUMNS);
    for (int i = 0; i < TABLES; i++)
        for (size_t j = 0; j < sizeof all_measured / sizeof all_measured[0]; j++) {
            double best[VERSIONS];
            if (!has_row(&all_measured[j], &tables[i]))
                continue;
            measure(&all_measured[j], &tables[i], best);
            sheet_word(&columns[NAME], tables[i].name);
            sheet_word(&columns[CALL], all_measured[j].name);
            sheet_time(&columns[OURS], best[POLLUX]);
            for (int version = PLAIN; version < VERSIONS; version++) {
                const struct column *other = &columns[OTHERS + 2 * (version - PLAIN)];
                sheet_time(other, best[version]);
                sheet_number(other + 1, best[version] > 0 ? best[POLLUX] / best[version] : 0, 2);
            }
            sheet_end();
        }
}

static void print_beside(const struct table tables[TABLES], const struct beside *beside)
{
    enum { NAME, TIME_MORE, TIME_LESS, RATIO, COLUMNS };
    const struct column columns[COLUMNS] = { { "restriction", -13 }, { beside->more, 10 }, { beside->less, 10 }, { "ratio", 6 } };
    printf("\nNanoseconds a call, Polluxvalve alone: how many times longer it takes to %s than to %s.\n", beside->more, beside->less);
    sheet_head(columns, COLUMNS);
    for (int i = 0; i < TABLES; i++) {
        double best[VERSIONS];
        measure(&beside->calls, &tables[i], best);
        sheet_word(&columns[NAME], tables[i].name);
        sheet_time(&columns[TIME_MORE], best[MORE]);
        sheet_time(&columns[TIME_LESS], best[LESS]);
        sheet_number(&columns[RATIO], best[MORE] / best[LESS], 2);
        sheet_end();
    }
}

void measure_rates(const struct table tables[TABLES])
{
    print_sizes(tables);
    print_times(tables);
    for (size_t i = 0; i < sizeof all_beside / sizeof all_beside[0]; i++)
        print_beside(tables, &all_beside[i]);
}

/* ---- One call, again and again. */

static const struct measured *find_measured(const char *call)
{
    for (size_t i = 0; i < sizeof all_measured / sizeof all_measured[0]; i++)
        if (strcmp(all_measured[i].name, call) == 0)
            return &all_measured[i];
    return NULL;
}

static const struct table *find_table(const struct table tables[TABLES], const char *name)
{
    for (int i = 0; i < TABLES; i++)
        if (strcmp(tables[i].name, name) == 0)
            return &tables[i];
    return NULL;
}

bool repeat(const struct table tables[TABLES], const char *name, const char *call, unsigned long for_seconds)
{
    const struct table *table = find_table(tables, name);
    const struct measured *measured = find_measured(call);
    if (table == NULL || measured == NULL || !has_row(measured, table))
        return false;
    double start = seconds(), best = 0;
    while (seconds() - start < (double)for_seconds) {
        double now = time_of(measured->versions[POLLUX], measured, table);
        if (best == 0 || now < best)
            best = now;
    }
    printf("%s, %s: %.1f ns\n", name, call, best);
    return true;
}
