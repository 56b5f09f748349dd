/* Pact contracts that are made into texts: the example's, and one of as many assertions as a text has tokens for. */
#ifndef CONTRACTS_H
#define CONTRACTS_H

#include "../tests/c/requests.h"

struct contract {
    const char *name;
    struct input bytes, names;
    struct input numbers; /* 8 bytes each, in the machine's own order */
};

enum { CONTRACTS = 2 };

/* FOLDER has terms.contract, terms.list and terms.numbers, a line for each number. */
void make_contracts(struct contract contracts[CONTRACTS], const char *folder);

/* Prints how long it takes to make a text of each. */
void measure_contracts(const struct contract contracts[CONTRACTS]);

#endif
