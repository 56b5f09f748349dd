#include "edits.h"

#include <stdlib.h>
#include <string.h>

#include "plain.h"
#include "sheet.h"
#include "timing.h"

/* Zeros. */
static uint8_t *room(size_t length)
{
    uint8_t *at = malloc(length);
    if (at == NULL) {
        perror("malloc");
        exit(3);
    }
    memset(at, 0, length);
    return at;
}

static size_t key_count(const struct table *table)
{
    return table->list.length / POLLUX_KEY_SIZE;
}

/* The conforming entries with a record more at the end of each: the key is exact, and 0. */
static struct input with_record(const struct table *table)
{
    size_t size = table->entry_size, wider = size + POLLUX_RECORD_SIZE, count = table->conforming.length / size;
    uint8_t *at = room(count * wider);
    for (size_t i = 0; i < count; i++) {
        memcpy(at + i * wider, table->conforming.at + i * size, size);
        at[i * wider + size] = 1;
    }
    return (struct input){ at, count * wider };
}

/* The table with one key more, exact and of 8 bits, if there may be one. */
static struct table widened(const struct table *table)
{
    static const char name[] = "not.named";
    struct table wider = *table;
    if (key_count(table) == POLLUX_MAX_KEYS)
        return wider;
    wider.list = (struct input){ room(table->list.length + POLLUX_KEY_SIZE), table->list.length + POLLUX_KEY_SIZE };
    memcpy(wider.list.at, table->list.at, table->list.length);
    uint8_t *record = wider.list.at + table->list.length;
    record[0] = sizeof name - 1;
    record[2] = 8;
    memcpy(record + POLLUX_KEY_SIZE - POLLUX_MAX_NAME, name, sizeof name - 1);
    wider.conforming = with_record(table);
    wider.entry_size = table->entry_size + POLLUX_RECORD_SIZE;
    return wider;
}

/* The first key that is named, or is not; the number of keys where there is none. */
static size_t first_key(const struct table *table, bool named)
{
    size_t keys = key_count(table), key = 0;
    struct pollux_summary summary = plain_summarize(table->text.at, table->text.length, table->list.at, table->list.length);
    while (key < keys && (summary.keys >> key & 1) != named)
        key++;
    return key;
}

/* Another record that conforms: an exact key's other lowest bit, or present for absent, or absent for present. The keys that are
   changed here may be absent. */
static void change(uint8_t record[POLLUX_RECORD_SIZE], bool exact)
{
    enum { LAST_OF_FIRST_NUMBER = 19 };
    if (exact)
        record[LAST_OF_FIRST_NUMBER] ^= 1;
    else if (record[0] == 0)
        record[0] = 1;
    else
        memset(record, 0, POLLUX_RECORD_SIZE);
}

static void add_entry(struct edit *edit, size_t index)
{
    const struct table *table = &edit->table;
    size_t size = table->entry_size, key = edit->key;
    uint8_t *old = edit->old.at + index * size, *new = edit->new.at + index * size;
    memcpy(old, table->conforming.at + index % different(edit) * size, size);
    memcpy(new, old, size);
    change(new + POLLUX_ENTRY_SIZE(key), table->list.at[key * POLLUX_KEY_SIZE + 1] == 0);
    struct pollux_answer answer = plain_judge(table->text.at, table->text.length, table->list.at, table->list.length, old, size);
    edit->earlier[index] = (uint8_t)answer.says;
}

bool make_edit(struct edit *edit, const struct table *table, bool named)
{
    *edit = (struct edit){ .table = widened(table), .named = named };
    edit->key = first_key(&edit->table, named);
    if (edit->key == key_count(&edit->table))
        return false;
    size_t length = EDITED * edit->table.entry_size;
    edit->old = (struct input){ room(length), length };
    edit->new = (struct input){ room(length), length };
    edit->earlier = room(EDITED);
    for (size_t i = 0; i < EDITED; i++)
        add_entry(edit, i);
    return true;
}

/* ---- Each new entry rechecked, and judged. */

typedef struct pollux_rechecked recheck(const uint8_t *, size_t, const uint8_t *, size_t, const uint8_t *, size_t, struct pollux_answer,
                                        const uint8_t *, size_t);

static uint64_t recheck_all(const struct edit *edit, recheck *recheck)
{
    const struct table *table = &edit->table;
    uint64_t sum = 0;
    for (size_t i = 0; i < EDITED; i++) {
        struct input old = entry_at(edit->old, table, i), new = entry_at(edit->new, table, i);
        struct pollux_answer earlier = { .says = edit->earlier[i] };
        sum += recheck(table->text.at, table->text.length, table->list.at, table->list.length, old.at, old.length, earlier, new.at,
                       new.length)
                   .says;
    }
    return sum;
}

static uint64_t recheck_pollux(const void *with)
{
    return recheck_all(with, pollux_recheck);
}

static uint64_t recheck_plain(const void *with)
{
    return recheck_all(with, plain_recheck);
}

static uint64_t judge_all(const void *with)
{
    const struct edit *edit = with;
    const struct table *table = &edit->table;
    uint64_t sum = 0;
    for (size_t i = 0; i < EDITED; i++) {
        struct input new = entry_at(edit->new, table, i);
        sum += pollux_judge(table->text.at, table->text.length, table->list.at, table->list.length, new.at, new.length).says;
    }
    return sum;
}

/* Nanoseconds for an entry. */
static double time_of(job *all, const struct edit *edit)
{
    return 1e9 / rate(all, edit) / EDITED;
}

static void measure_edit(const struct edit *edit, const struct column columns[])
{
    enum { RECHECK, PLAIN, JUDGE, JOBS, TIMES = 5 };
    static job *const jobs[JOBS] = { recheck_pollux, recheck_plain, judge_all };
    double best[JOBS];
    for (int i = 0; i < TIMES; i++)
        for (int j = 0; j < JOBS; j++) {
            double now = time_of(jobs[j], edit);
            best[j] = i == 0 || now < best[j] ? now : best[j];
        }
    sheet_word(&columns[0], edit->table.name);
    sheet_word(&columns[1], edit->named ? "named" : "not named");
    sheet_time(&columns[2], best[RECHECK]);
    sheet_time(&columns[3], best[PLAIN]);
    sheet_number(&columns[4], best[RECHECK] / best[PLAIN], 2);
    sheet_time(&columns[5], best[JUDGE]);
    sheet_number(&columns[6], best[RECHECK] / best[JUDGE], 2);
    sheet_end();
}

void measure_edits(const struct edit *edits, size_t count)
{
    static const struct column columns[] = { { "restriction", -13 }, { "the key is", -10 }, { "recheck", 10 }, { "plain C", 10 },
                                             { "ratio", 6 },         { "judge", 10 },       { "ratio", 6 } };
    printf("\nOne key of %d entries changes: nanoseconds an entry to recheck the new entries, and how many times longer Polluxvalve takes\n"
           "than plain C; and to judge them by Polluxvalve, and how many times longer it takes to recheck them.\n", EDITED);
    sheet_head(columns, sizeof columns / sizeof columns[0]);
    for (size_t i = 0; i < count; i++)
        measure_edit(&edits[i], columns);
}
