/* What every version must answer before it is measured: the reference's lines to the same requests. */
#ifndef AGREE_H
#define AGREE_H

#include "contracts.h"
#include "edits.h"
#include "orders.h"
#include "tables.h"

/* All tables and the edits of them, the texts of many parts, and the contracts. */
struct measured_work {
    struct table tables[TABLES];
    struct edit edits[MOST_EDITS];
    size_t edit_count;
    struct order orders[ORDERS];
    struct contract contracts[CONTRACTS];
};

/* Writes the requests for the reference, which answers each by a line. */
void write_requests(const struct measured_work *work);

/* Holds every version to the lines of a file, and ends the program where one differs. */
void hold_to_lines(const struct measured_work *work, const char *path);

#endif
