/* The restrictions of the three example tables, written by hand in C for entries that conform: as fast as it gets. */
#ifndef BY_HAND_H
#define BY_HAND_H

#include <stdbool.h>
#include <stdint.h>

bool by_hand_ipv6_routing(const uint8_t *entry);
bool by_hand_acl(const uint8_t *entry);
bool by_hand_uplink(const uint8_t *entry);

#endif
