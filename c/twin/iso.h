/* The twin's ISO 15765 channels: everything of one channel in one lent region, which is a part of the device memory. The calls trust their region;
 * iso_valid looks at it. A region is closed when it is all zeros, and calls on it answer 0x02. */
#ifndef ISO_H
#define ISO_H

#include <stddef.h>
#include <stdint.h>

#include "twin.h"

int iso_valid(const uint8_t *region);

/* the region is that of the line, and not looked at where there is no such line */
uint32_t iso_connect(uint8_t *region, uint32_t line, uint32_t protocol, uint32_t flags, uint32_t rate);
uint32_t iso_disconnect(uint8_t *region);

/* a frame of the channel's line, at this clock, and a step of time */
uint32_t iso_frame(uint8_t *region, uint32_t now, uint32_t wide, uint32_t id, const uint8_t *data, size_t n);
uint32_t iso_advance(uint8_t *region, uint32_t us);

uint32_t iso_start_filter(uint8_t *region, uint32_t type, const uint8_t *mask, size_t mask_len, const uint8_t *pattern, size_t pattern_len,
                          const uint8_t *flow, size_t flow_len, uint32_t *number);
uint32_t iso_stop_filter(uint8_t *region, uint32_t number);
uint32_t iso_start_periodic(uint8_t *region, const uint8_t *message, size_t message_len, uint32_t interval, uint32_t *number);
uint32_t iso_stop_periodic(uint8_t *region, uint32_t number);
uint32_t iso_write(uint8_t *region, uint32_t n, const uint8_t *b, size_t b_len, uint32_t *count);
uint32_t iso_read(uint8_t *region, uint32_t n, uint8_t *b, size_t b_len, uint32_t *count);
uint32_t iso_take(uint8_t *region, uint8_t *b, size_t b_len);
uint32_t iso_sent(uint8_t *region, uint32_t now);
uint32_t iso_clear(uint8_t *region, uint32_t kind);
uint32_t iso_get(uint8_t *region, uint32_t parameter, uint32_t *value);
uint32_t iso_set(uint8_t *region, uint32_t parameter, uint32_t value);
uint32_t iso_get_list(uint8_t *region, struct twin_pair *pairs, size_t count);
uint32_t iso_set_list(uint8_t *region, const struct twin_pair *pairs, size_t count);
uint32_t iso_last_error(const uint8_t *region, uint32_t *code);

#endif
