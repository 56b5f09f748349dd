/* Texts of many parts with blocks of these parts, in the orders that take longest to compare. */
#ifndef ORDERS_H
#define ORDERS_H

#include "../tests/c/requests.h"

struct order {
    const char *name;
    size_t parts;
    struct input text, list, blocks;
    enum pollux_says says; /* what a comparison says of them */
};

enum { ORDERS = 5 };

void make_orders(struct order orders[ORDERS]);

/* Prints how long it takes to compare them, and to translate their texts. */
void measure_orders(const struct order orders[ORDERS]);

#endif
