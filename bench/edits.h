/* Edits: 10,000 entries of a table before and after one key of each is changed, a key that the text names, or one that it does not. */
#ifndef EDITS_H
#define EDITS_H

#include "tables.h"

enum { EDITED = 10000 };

/* Both edits of each table that has them. */
enum { MOST_EDITS = 2 * TABLES };

struct edit {
    struct table table;    /* with one key more than it has, which the text does not name, where there is room for one */
    bool named;            /* the key that is changed */
    size_t key;
    struct input old, new; /* the entries, end to end: those of the table again and again */
    uint8_t *earlier;      /* what is said of each old entry: POLLUX_ACCEPTED or POLLUX_VIOLATED */
};

/* False where the text names no key, or every key that there may be. */
bool make_edit(struct edit *edit, const struct table *table, bool named);

/* One of some entries that lie end to end. */
static inline struct input entry_at(struct input entries, const struct table *table, size_t index)
{
    return (struct input){ entries.at + index * table->entry_size, table->entry_size };
}

/* How many entries differ among them. */
static inline size_t different(const struct edit *edit)
{
    return edit->table.conforming.length / edit->table.entry_size;
}

/* Prints how long it takes to recheck the new entries of each edit, and to judge them. */
void measure_edits(const struct edit *edits, size_t count);

#endif
