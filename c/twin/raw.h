/* The twin's raw channels, lines 0 to 3, with the clock and a TP2.0 connection each: the first RAW_PART bytes of the device memory. The calls trust
 * these bytes, raw_valid looks at them. Channels are 1 to 4; a call on any other number, or on a closed one, answers 0x02. */
#ifndef RAW_H
#define RAW_H

#include <stddef.h>
#include <stdint.h>

#include "twin.h"

int raw_valid(const uint8_t *m);
void raw_remake_maps(uint8_t *m, uint32_t channel);
uint32_t raw_connect(uint8_t *m, uint32_t line, uint32_t protocol, uint32_t flags, uint32_t rate, uint32_t *channel);
uint32_t raw_disconnect(uint8_t *m, uint32_t channel);
uint32_t raw_close(uint8_t *m);
uint32_t raw_advance(uint8_t *m, uint32_t us);
uint32_t raw_frame(uint8_t *m, uint32_t line, uint32_t wide, uint32_t id, const uint8_t *data, size_t n);
uint32_t raw_start_filter(uint8_t *m, uint32_t channel, uint32_t type, const uint8_t *mask, size_t mask_len, const uint8_t *pattern,
                          size_t pattern_len, uint32_t *number);
uint32_t raw_stop_filter(uint8_t *m, uint32_t channel, uint32_t number);
uint32_t raw_start_periodic(uint8_t *m, uint32_t channel, const uint8_t *message, size_t message_len, uint32_t interval, uint32_t *number);
uint32_t raw_stop_periodic(uint8_t *m, uint32_t channel, uint32_t number);
uint32_t raw_write(uint8_t *m, uint32_t channel, uint32_t n, const uint8_t *b, size_t b_len, uint32_t *count);
uint32_t raw_read(uint8_t *m, uint32_t channel, uint32_t n, uint8_t *b, size_t b_len, uint32_t *count);
uint32_t raw_take(uint8_t *m, uint32_t channel, uint8_t *b, size_t b_len);
uint32_t raw_sent(uint8_t *m, uint32_t channel);
uint32_t raw_clear(uint8_t *m, uint32_t channel, uint32_t kind);
uint32_t raw_get(uint8_t *m, uint32_t channel, uint32_t parameter, uint32_t *value);
uint32_t raw_set(uint8_t *m, uint32_t channel, uint32_t parameter, uint32_t value);
uint32_t raw_set_list(uint8_t *m, uint32_t channel, const struct twin_pair *pairs, size_t count);
uint32_t raw_get_list(uint8_t *m, uint32_t channel, struct twin_pair *pairs, size_t count);
uint32_t raw_decide(uint8_t *m, uint32_t channel, uint32_t wide, uint32_t id, uint32_t *answer);
uint32_t raw_save(uint8_t *m, uint32_t channel, uint8_t *b, size_t b_len, uint32_t *length);
uint32_t raw_load(uint8_t *m, uint32_t channel, const uint8_t *store, size_t n);
uint32_t raw_link_open(uint8_t *m, uint32_t channel, uint32_t own, uint32_t destination, uint32_t rx_id, uint32_t application, uint32_t block_size,
                       uint32_t t1, uint32_t t3);
uint32_t raw_link_send(uint8_t *m, uint32_t channel, const uint8_t *message, size_t message_len);
uint32_t raw_link_receive(uint8_t *m, uint32_t channel, uint8_t *b, size_t b_len, uint32_t *length);
uint32_t raw_link_end(uint8_t *m, uint32_t channel);
uint32_t raw_last_error(const uint8_t *m, uint32_t channel, uint32_t *code);

/* What the shift report looks at, of the channel of a line: whether it is open, how many records it holds for reading, loopback; whether its connection
 * takes a width; whether a filter of a type matches a frame. */
typedef struct {
    int open, loopback;
    uint32_t held;
} raw_look_t;
raw_look_t raw_look(const uint8_t *m, uint32_t line);
int raw_takes(const uint8_t *m, uint32_t line, uint32_t wide);
int raw_matched(const uint8_t *m, uint32_t line, int type, uint32_t wide, uint32_t id, const uint8_t *data, size_t n);

#endif
