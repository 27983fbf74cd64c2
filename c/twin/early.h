/* The twin's answer on the identifier alone: what filters say of every frame with an identifier, whatever its data. */
#ifndef EARLY_H
#define EARLY_H

#include <stdint.h>

enum { EARLY_DROPPED, EARLY_PASSES, EARLY_MUST_SEE, EARLY_MOST = 10 };

/* a filter of the frame's width; mask and pattern have `size` bytes, 1 to 12 */
typedef struct {
    int block;
    unsigned size;
    const uint8_t *mask, *pattern;
} early_filter;

/* of at most EARLY_MOST filters, and the four bytes of an identifier */
uint32_t early_answer(const early_filter *filters, unsigned n, const uint8_t id[4]);

#endif
