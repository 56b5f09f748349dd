/* How long each call takes, beside other versions of it. */
#ifndef RATES_H
#define RATES_H

#include "tables.h"

/* Prints what the tables are made of, and the times of every call on each of them. */
void measure_rates(const struct table tables[TABLES]);

/* Makes one call of Polluxvalve again and again; false where there is no such table, or no such call on it. */
bool repeat(const struct table tables[TABLES], const char *name, const char *call, unsigned long for_seconds);

#endif
