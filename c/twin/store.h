/* The twin's saved set-ups: the bytes of a store, and what it says of a raw channel. */
#ifndef STORE_H
#define STORE_H

#include <stddef.h>
#include <stdint.h>

enum { STORE_TEN = 10, STORE_ROW = 12, STORE_RECORD = 36, STORE_MOST = 1149 };

/* filters and periodics by their numbers less one; a filter of type 0 and a periodic with interval 0 are none */
typedef struct {
    uint32_t flags, rate, loopback;
    struct {
        uint32_t type, wide, size;
        uint8_t mask[STORE_ROW], pattern[STORE_ROW]; /* zeros behind the size */
    } filter[STORE_TEN];
    struct {
        uint32_t interval;
        uint8_t record[STORE_RECORD];
    } periodic[STORE_TEN];
} store_setup;

/* The store of version 2 at the start of STORE_MOST bytes; how many it has. */
size_t store_write(uint8_t *to, const store_setup *from);

/* 1 where these bytes are a store of version 1 or 2 of which no call would refuse a part, else 0; one of version 1 has the flags 0. What was read
 * counts only where it is 1. */
int store_read(store_setup *to, const uint8_t *bytes, size_t n);

#endif
