/* Ten filters for every identifier, all of size 6, that look at the first two data bytes: a pass filter, and nine block filters that keep out all of
 * it only together. The core splits the data for them as often as it ever does: 511 looks, nine deep. */
#ifndef HARDEST_H
#define HARDEST_H

#include <stdint.h>

enum { HARDEST = 10, HARDEST_DATA = 2, HARDEST_SIZE = 4 + HARDEST_DATA };

static const struct {
    uint8_t type, mask[HARDEST_DATA], pattern[HARDEST_DATA];
} hardest[HARDEST] = {{1, {0x10, 0x00}, {0x10, 0x00}}, {2, {0x6C, 0x01}, {0x44, 0x00}}, {2, {0x80, 0x01}, {0x00, 0x01}},
                      {2, {0x43, 0x01}, {0x01, 0x00}}, {2, {0x42, 0x01}, {0x02, 0x00}}, {2, {0x90, 0x01}, {0x90, 0x01}},
                      {2, {0x6C, 0x01}, {0x40, 0x00}}, {2, {0x43, 0x01}, {0x00, 0x00}}, {2, {0x60, 0x01}, {0x60, 0x00}},
                      {2, {0x68, 0x01}, {0x48, 0x00}}};

#endif
