/* The twin: a second implementation of the box in plain C99, written from the scope, its requests and docs/LAYOUT.md and from nothing else, but for
 * TP2.0 connections and the decision on the identifier alone (link.c and early.c say how). It works on the same device memory: the raw channels 1 to
 * 4 with the clock (raw.h), each with its connection (link.h), and behind them the ISO 15765 channels 5 to 8 (iso.h), each seen as a struct of
 * bytes. The tests hold the proved core against it. */
#ifndef TWIN_H
#define TWIN_H

#include <stddef.h>
#include <stdint.h>

#include "sizes.h"

int twin_valid(const uint8_t *m, size_t len);
void twin_remake_maps(uint8_t *m, uint32_t channel); /* of channel 1 to 4, for tests that write filters themselves */
uint32_t twin_power_on(uint8_t *m, size_t len);
uint32_t twin_connect(uint8_t *m, size_t len, uint32_t line, uint32_t protocol, uint32_t flags, uint32_t rate, uint32_t *channel);
uint32_t twin_disconnect(uint8_t *m, size_t len, uint32_t channel);
uint32_t twin_close(uint8_t *m, size_t len);
uint32_t twin_advance(uint8_t *m, size_t len, uint32_t us);
uint32_t twin_frame(uint8_t *m, size_t len, uint32_t line, uint32_t wide, uint32_t id, const uint8_t *data, size_t n);
uint32_t twin_start_filter(uint8_t *m, size_t len, uint32_t channel, uint32_t type, const uint8_t *mask, size_t mask_len,
                           const uint8_t *pattern, size_t pattern_len, uint32_t *number);
uint32_t twin_start_flow_filter(uint8_t *m, size_t len, uint32_t channel, uint32_t type, const uint8_t *mask, size_t mask_len,
                                const uint8_t *pattern, size_t pattern_len, const uint8_t *flow, size_t flow_len, uint32_t *number);
uint32_t twin_stop_filter(uint8_t *m, size_t len, uint32_t channel, uint32_t number);
uint32_t twin_start_periodic(uint8_t *m, size_t len, uint32_t channel, const uint8_t *message, size_t message_len, uint32_t interval,
                             uint32_t *number);
uint32_t twin_stop_periodic(uint8_t *m, size_t len, uint32_t channel, uint32_t number);
uint32_t twin_write(uint8_t *m, size_t len, uint32_t channel, uint32_t n, const uint8_t *b, size_t b_len, uint32_t *count);
uint32_t twin_read(uint8_t *m, size_t len, uint32_t channel, uint32_t n, uint8_t *b, size_t b_len, uint32_t *count);
uint32_t twin_take(uint8_t *m, size_t len, uint32_t channel, uint8_t *b, size_t b_len);
uint32_t twin_sent(uint8_t *m, size_t len, uint32_t channel);
uint32_t twin_clear(uint8_t *m, size_t len, uint32_t channel, uint32_t kind);
uint32_t twin_get(uint8_t *m, size_t len, uint32_t channel, uint32_t parameter, uint32_t *value);
uint32_t twin_set(uint8_t *m, size_t len, uint32_t channel, uint32_t parameter, uint32_t value);

/* Lists of parameters and values. */
struct twin_pair {
    uint32_t parameter, value;
};
uint32_t twin_set_list(uint8_t *m, size_t len, uint32_t channel, const struct twin_pair *pairs, size_t count);
uint32_t twin_get_list(uint8_t *m, size_t len, uint32_t channel, struct twin_pair *pairs, size_t count);

/* Of channels 1 to 4, on the identifier alone: 0 dropped, 1 passes, 2 must see the data (early.h). */
uint32_t twin_decide(uint8_t *m, size_t len, uint32_t channel, uint32_t wide, uint32_t id, uint32_t *answer);

/* The set-up of channels 1 to 4 as a store, and back (store.h). */
uint32_t twin_save(uint8_t *m, size_t len, uint32_t channel, uint8_t *b, size_t b_len, uint32_t *length);
uint32_t twin_load(uint8_t *m, size_t len, uint32_t channel, const uint8_t *store, size_t store_len);

/* TP2.0 connections of channels 1 to 4. */
uint32_t twin_link_open(uint8_t *m, size_t len, uint32_t channel, uint32_t own, uint32_t destination, uint32_t rx_id, uint32_t application,
                        uint32_t block_size, uint32_t t1, uint32_t t3);
uint32_t twin_link_send(uint8_t *m, size_t len, uint32_t channel, const uint8_t *message, size_t message_len);
uint32_t twin_link_receive(uint8_t *m, size_t len, uint32_t channel, uint8_t *b, size_t b_len, uint32_t *length);
uint32_t twin_link_end(uint8_t *m, size_t len, uint32_t channel);

uint32_t twin_last_error(const uint8_t *m, size_t len, uint32_t channel, uint32_t *code);

/* While this is not 0 the calls above trust the memory and do not look whether it is valid: for comparing the inner calls. */
extern int twin_trusts;

/* While this is not 0 connect and set take 125,000 too: for recordings without an edition. */
extern int twin_old_rates;

#endif
