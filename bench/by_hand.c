#include "by_hand.h"

#include "plain_parts.h"

static const uint8_t *record(const uint8_t *entry, size_t key)
{
    return entry + POLLUX_ENTRY_SIZE(key);
}

static uint32_t word_at(const uint8_t *at)
{
    return (uint32_t)short_at(at) << 16 | short_at(at + 2);
}

/* The first and the second number of a key of at most 32 bits. */
static uint32_t first(const uint8_t *record)
{
    return word_at(record + 16);
}

static uint32_t second(const uint8_t *record)
{
    return word_at(record + 32);
}

/* The end of a range; one that is left out has them all. */
static uint32_t high(const uint8_t *record, uint32_t most)
{
    return record[0] == 0 ? most : second(record);
}

bool by_hand_ipv6_routing(const uint8_t *entry)
{
    uint32_t vrf_id = first(record(entry, 0));
    const uint8_t *dst = record(entry, 1);
    unsigned prefix_length = dst[1];
    number value = number_at(dst + 4);
    unsigned top = (unsigned)(value >> 112);

    if (vrf_id == 0)
        return false;
    if (prefix_length > 64 && !(prefix_length == 128 && (uint32_t)(value >> 96) == 0xfd00000f))
        return false;
    if (top >= 0xfe80 && top < 0xfec0)
        return false;
    if (top >= 0xff00)
        return false;
    if (prefix_length == 0 && vrf_id != 4000)
        return false;
    return word_at(entry) == 0;
}

enum { ETHER_TYPE, IS_IPV4, IS_IPV6, IPV4_SRC, IPV4_DST, IPV6_DST, IP_PROTOCOL, IP_DSCP, L4_SRC_PORT, L4_DST_PORT, IN_PORT };

/* Is this ternary or optional key matched with this value, whole? */
static bool matches(const uint8_t *record, uint32_t value, uint32_t mask)
{
    return first(record) == value && second(record) == mask;
}

static bool every_port(const uint8_t *record)
{
    return first(record) == 0 && high(record, 65535) == 65535;
}

static bool good_ip_fields(const uint8_t *entry)
{
    bool ipv4 = matches(record(entry, IS_IPV4), 1, 1);
    bool ipv6 = matches(record(entry, IS_IPV6), 1, 1);
    uint32_t protocol_mask = second(record(entry, IP_PROTOCOL));
    if ((second(record(entry, IS_IPV4)) != 0 && !ipv4) || (second(record(entry, IS_IPV6)) != 0 && !ipv6) || (ipv4 && ipv6))
        return false;
    if ((second(record(entry, IPV4_SRC)) != 0 || second(record(entry, IPV4_DST)) != 0) && !ipv4)
        return false;
    if (number_at(record(entry, IPV6_DST) + 20) != 0 && !ipv6)
        return false;
    if ((protocol_mask != 0 || second(record(entry, IP_DSCP)) != 0) && !ipv4 && !ipv6)
        return false;
    return protocol_mask == 0 || protocol_mask == 0xff;
}

bool by_hand_acl(const uint8_t *entry)
{
    const uint8_t *ether_type = record(entry, ETHER_TYPE), *protocol = record(entry, IP_PROTOCOL);
    uint32_t dst = first(record(entry, IPV4_DST)), priority = word_at(entry);
    if (matches(ether_type, 0x0800, 0xffff) || matches(ether_type, 0x86dd, 0xffff) || !good_ip_fields(entry))
        return false;
    if (!(every_port(record(entry, L4_SRC_PORT)) && every_port(record(entry, L4_DST_PORT))) && !matches(protocol, 6, 0xff) &&
        !matches(protocol, 17, 0xff))
        return false;
    if (second(record(entry, IPV4_DST)) != 0 && dst >= 0x0a000000 && dst <= 0x0a0000ff)
        return false;
    return second(record(entry, IN_PORT)) == 0 ? priority < 1000 : priority >= 1000;
}

bool by_hand_uplink(const uint8_t *entry)
{
    uint32_t priority = word_at(entry);
    uint32_t antenna = first(record(entry, 0));
    uint32_t spacecraft = first(record(entry, 1));
    uint32_t channel = first(record(entry, 2));
    const uint8_t *frame_length = record(entry, 3), *apid = record(entry, 4);

    if (spacecraft < 0x1a0 || spacecraft > 0x1af)
        return false;
    if (channel != 0 && channel != 1 && channel != 7)
        return false;
    if ((channel == 7) != (priority >= 1000000))
        return false;
    if (high(apid, 0x7ff) >= 0x7f0 && !(antenna == 1 && channel == 7 && first(apid) >= 0x7f0))
        return false;
    if (first(frame_length) < 7 || (channel == 0 && high(frame_length, 0x3ff) > 256))
        return false;
    return (antenna == 15) == (spacecraft == 0x1af);
}
