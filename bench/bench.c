/*
 * How fast Polluxvalve is, beside plain C that does the same work, in one process.
 *
 *   bench requests FOLDER > REQUESTS          what is measured, for `desk answer`
 *   bench FOLDER LINES                        holds every version to the reference's lines, then measures and prints tables
 *   bench repeat FOLDER TABLE CALL SECONDS    makes one call of Polluxvalve again and again, for a profiler to look at
 *
 * FOLDER has NAME.text, NAME.list and NAME.entries for each table of examples/, and terms.contract, terms.list and terms.numbers.
 */
#include <stdlib.h>
#include <string.h>

#include "agree.h"
#include "rates.h"

static struct measured_work work;

static int usage(void)
{
    fprintf(stderr, "usage: bench requests FOLDER > REQUESTS\n"
                    "       bench FOLDER LINES\n"
                    "       bench repeat FOLDER TABLE CALL SECONDS\n");
    return 3;
}

static void make_edits(void)
{
    for (int i = 0; i < TABLES; i++)
        for (int named = 0; named < 2; named++)
            work.edit_count += make_edit(&work.edits[work.edit_count], &work.tables[i], named);
}

static int repeat_one(char **words)
{
    make_tables(work.tables, words[0]);
    if (repeat(work.tables, words[1], words[2], strtoul(words[3], NULL, 10)))
        return 0;
    fprintf(stderr, "there is no table %s, or no call %s on it\n", words[1], words[2]);
    return 3;
}

int main(int count, char **words)
{
    if (count == 6 && strcmp(words[1], "repeat") == 0)
        return repeat_one(words + 2);
    if (count != 3)
        return usage();
    bool requests = strcmp(words[1], "requests") == 0;
    const char *folder = words[requests ? 2 : 1];
    make_tables(work.tables, folder);
    make_edits();
    make_orders(work.orders);
    make_contracts(work.contracts, folder);
    if (requests) {
        write_requests(&work);
        return 0;
    }
    hold_to_lines(&work, words[2]);
    measure_rates(work.tables);
    measure_edits(work.edits, work.edit_count);
    measure_orders(work.orders);
    measure_contracts(work.contracts);
    return 0;
}
