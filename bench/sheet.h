/* Tables in Markdown, padded so that they can be read as they are. */
#ifndef SHEET_H
#define SHEET_H

#include <stddef.h>

struct column {
    const char *name;
    int width; /* below 0 for words, which stand at the left; numbers stand at the right */
};

/* An empty line, the names of the columns, and the line below them. */
void sheet_head(const struct column *columns, size_t count);

/* The cells of a row, one after the other, and its end. */
void sheet_word(const struct column *column, const char *word);
void sheet_number(const struct column *column, double number, int decimals); /* a dash for 0 */
void sheet_time(const struct column *column, double nanoseconds);            /* the same, with a decimal where it is short */
void sheet_end(void);

#endif
