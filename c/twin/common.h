/* What the parts of the twin share: numbers and identifiers in bytes, widths, flags and rates. */
#ifndef TWIN_COMMON_H
#define TWIN_COMMON_H

#include <stddef.h>
#include <stdint.h>
#include <string.h>

#include "twin.h"

static inline uint32_t get32(const uint8_t b[4]) {
    return (uint32_t)b[0] | (uint32_t)b[1] << 8 | (uint32_t)b[2] << 16 | (uint32_t)b[3] << 24;
}

static inline void put32(uint8_t b[4], uint32_t v) {
    b[0] = (uint8_t)v, b[1] = (uint8_t)(v >> 8), b[2] = (uint8_t)(v >> 16), b[3] = (uint8_t)(v >> 24);
}

static inline uint32_t identifier(const uint8_t b[4]) {
    return (uint32_t)b[0] << 24 | (uint32_t)b[1] << 16 | (uint32_t)b[2] << 8 | (uint32_t)b[3];
}

static inline void put_identifier(uint8_t b[4], uint32_t id) {
    b[0] = (uint8_t)(id >> 24), b[1] = (uint8_t)(id >> 16), b[2] = (uint8_t)(id >> 8), b[3] = (uint8_t)id;
}

/* eight bytes at a time: most of a memory is zeros */
static inline int zeros(const void *p, size_t n) {
    const uint8_t *b = p;
    uint64_t any = 0, eight;
    for (; n >= sizeof eight; n -= sizeof eight, b += sizeof eight) {
        memcpy(&eight, b, sizeof eight);
        any |= eight;
    }
    for (; n > 0; n--) any |= *b++;
    return any == 0;
}

/* ---- widths ---- */

static inline int takes(uint32_t flags, int wide) {
    if (flags & 0x800) return 1;
    return ((flags & 0x100) != 0) == (wide != 0);
}

static inline int in_range(uint32_t id, int wide) { return id <= (wide ? 0x1FFFFFFFu : 0x7FFu); }

/* ---- flags of connections: on raw CAN also the listeners' ---- */

#define LISTENER 0x10000000u

static inline int is_flags(uint32_t f) { return (f & ~(uint32_t)0x900) == 0; }
static inline int is_raw_flags(uint32_t f) { return is_flags(f & ~LISTENER); }
static inline int listens(uint32_t f) { return (f & LISTENER) != 0; }

/* ---- rates: what a memory may hold, and what connect and set take: 125,000 is retired ---- */

static inline int is_rate(uint32_t r) { return r == 125000 || r == 250000 || r == 500000; }
static inline int takes_rate(uint32_t r) { return is_rate(r) && (r != 125000 || twin_old_rates); }

#endif
