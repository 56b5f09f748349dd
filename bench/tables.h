/* The tables that are measured: a small one, one of prefixes, one at the limits, and those of examples/. */
#ifndef TABLES_H
#define TABLES_H

#include "../tests/c/requests.h"

struct code {
    struct input blocks;
    size_t instructions;
};

struct table {
    const char *name;
    struct input text, list, entries;
    size_t entry_size;
    bool (*by_hand)(const uint8_t *entry); /* or NULL */
    /* Made from the above: */
    struct code code;                            /* its translation */
    struct code unskipped;                       /* the same without its skips: what was made before there were any */
    struct input conforming, accepted, violated; /* the entries that are not refused, end to end, and these by what is said of them */
    struct input many_conforming, many_accepted, many_violated; /* these again and again, MANY of them, or none where there are none */
};

enum { MANY = 1000 };

enum { TABLES = 6 };

/* FOLDER has NAME.text, NAME.list and NAME.entries for each example. */
void make_tables(struct table tables[TABLES], const char *folder);

static inline size_t entry_count(const struct table *table)
{
    return table->entries.length / table->entry_size;
}

static inline struct input entry_of(const struct table *table, size_t index)
{
    return (struct input){ table->entries.at + index * table->entry_size, table->entry_size };
}

#endif
