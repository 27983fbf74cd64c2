/* The twin: see twin.h. A call goes to the channel that it names, frames and time to all that they concern. */
#include "twin.h"

#include <string.h>

#include "common.h"
#include "iso.h"
#include "raw.h"

enum { LINES = TWIN_LINES, ISO = 6 };

typedef char twin_size_is_right[TWIN_MEMORY == 48668 ? 1 : -1];

int twin_trusts = 0, twin_old_rates = 0;

static uint8_t *region(uint8_t *m, uint32_t line) { return m + RAW_PART + line * ISO_REGION; }

int twin_valid(const uint8_t *m, size_t len) {
    if (len != TWIN_MEMORY || !raw_valid(m)) return 0;
    for (uint32_t line = 0; line < LINES; line++)
        if (!iso_valid(m + RAW_PART + line * ISO_REGION)) return 0;
    return 1;
}

void twin_remake_maps(uint8_t *m, uint32_t channel) { raw_remake_maps(m, channel); }

static int bad(const uint8_t *m, size_t len) { return !twin_trusts && !twin_valid(m, len); }

/* is it the number of an ISO 15765 channel? and its region */
static int is_iso(uint32_t channel) { return channel > LINES && channel <= 2 * LINES; }
static uint8_t *of(uint8_t *m, uint32_t channel) { return region(m, channel - LINES - 1); }

uint32_t twin_power_on(uint8_t *m, size_t len) {
    if (len != TWIN_MEMORY) return 0x1A;
    memset(m, 0, len);
    return 0;
}

uint32_t twin_connect(uint8_t *m, size_t len, uint32_t line, uint32_t protocol, uint32_t flags, uint32_t rate, uint32_t *channel) {
    uint32_t code;
    *channel = 0;
    if (bad(m, len)) return 0x1A;
    if (protocol != ISO) return raw_connect(m, line, protocol, flags, rate, channel);
    code = iso_connect(line < LINES ? region(m, line) : NULL, line, protocol, flags, rate);
    if (!code) *channel = line + LINES + 1;
    return code;
}

uint32_t twin_disconnect(uint8_t *m, size_t len, uint32_t channel) {
    if (bad(m, len)) return 0x1A;
    return is_iso(channel) ? iso_disconnect(of(m, channel)) : raw_disconnect(m, channel);
}

uint32_t twin_close(uint8_t *m, size_t len) {
    if (bad(m, len)) return 0x1A;
    memset(m + RAW_PART, 0, LINES * ISO_REGION);
    return raw_close(m);
}

uint32_t twin_advance(uint8_t *m, size_t len, uint32_t us) {
    uint32_t code = bad(m, len) ? 0x1A : raw_advance(m, us);
    for (uint32_t line = 0; line < LINES && !code; line++) iso_advance(region(m, line), us);
    return code;
}

/* both channels of the line hear it, each by its own rule */
uint32_t twin_frame(uint8_t *m, size_t len, uint32_t line, uint32_t wide, uint32_t id, const uint8_t *data, size_t n) {
    uint32_t code = bad(m, len) ? 0x1A : raw_frame(m, line, wide, id, data, n);
    return code ? code : iso_frame(region(m, line), get32(m), wide, id, data, n);
}

/* without a flow record: one of no bytes, which is too short for an ISO 15765 channel */
uint32_t twin_start_filter(uint8_t *m, size_t len, uint32_t channel, uint32_t type, const uint8_t *mask, size_t mask_len,
                           const uint8_t *pattern, size_t pattern_len, uint32_t *number) {
    return twin_start_flow_filter(m, len, channel, type, mask, mask_len, pattern, pattern_len, NULL, 0, number);
}

uint32_t twin_start_flow_filter(uint8_t *m, size_t len, uint32_t channel, uint32_t type, const uint8_t *mask, size_t mask_len,
                                const uint8_t *pattern, size_t pattern_len, const uint8_t *flow, size_t flow_len, uint32_t *number) {
    *number = 0;
    if (bad(m, len)) return 0x1A;
    if (!is_iso(channel)) return raw_start_filter(m, channel, type, mask, mask_len, pattern, pattern_len, number);
    return iso_start_filter(of(m, channel), type, mask, mask_len, pattern, pattern_len, flow, flow_len, number);
}

uint32_t twin_stop_filter(uint8_t *m, size_t len, uint32_t channel, uint32_t number) {
    if (bad(m, len)) return 0x1A;
    return is_iso(channel) ? iso_stop_filter(of(m, channel), number) : raw_stop_filter(m, channel, number);
}

uint32_t twin_start_periodic(uint8_t *m, size_t len, uint32_t channel, const uint8_t *message, size_t message_len, uint32_t interval,
                             uint32_t *number) {
    *number = 0;
    if (bad(m, len)) return 0x1A;
    return is_iso(channel) ? iso_start_periodic(of(m, channel), message, message_len, interval, number)
                           : raw_start_periodic(m, channel, message, message_len, interval, number);
}

uint32_t twin_stop_periodic(uint8_t *m, size_t len, uint32_t channel, uint32_t number) {
    if (bad(m, len)) return 0x1A;
    return is_iso(channel) ? iso_stop_periodic(of(m, channel), number) : raw_stop_periodic(m, channel, number);
}

uint32_t twin_write(uint8_t *m, size_t len, uint32_t channel, uint32_t n, const uint8_t *b, size_t b_len, uint32_t *count) {
    *count = 0;
    if (bad(m, len)) return 0x1A;
    return is_iso(channel) ? iso_write(of(m, channel), n, b, b_len, count) : raw_write(m, channel, n, b, b_len, count);
}

uint32_t twin_read(uint8_t *m, size_t len, uint32_t channel, uint32_t n, uint8_t *b, size_t b_len, uint32_t *count) {
    *count = 0;
    if (bad(m, len)) return 0x1A;
    return is_iso(channel) ? iso_read(of(m, channel), n, b, b_len, count) : raw_read(m, channel, n, b, b_len, count);
}

uint32_t twin_take(uint8_t *m, size_t len, uint32_t channel, uint8_t *b, size_t b_len) {
    if (bad(m, len)) return 0x1A;
    return is_iso(channel) ? iso_take(of(m, channel), b, b_len) : raw_take(m, channel, b, b_len);
}

uint32_t twin_sent(uint8_t *m, size_t len, uint32_t channel) {
    if (bad(m, len)) return 0x1A;
    return is_iso(channel) ? iso_sent(of(m, channel), get32(m)) : raw_sent(m, channel);
}

uint32_t twin_clear(uint8_t *m, size_t len, uint32_t channel, uint32_t kind) {
    if (bad(m, len)) return 0x1A;
    return is_iso(channel) ? iso_clear(of(m, channel), kind) : raw_clear(m, channel, kind);
}

uint32_t twin_get(uint8_t *m, size_t len, uint32_t channel, uint32_t parameter, uint32_t *value) {
    *value = 0;
    if (bad(m, len)) return 0x1A;
    return is_iso(channel) ? iso_get(of(m, channel), parameter, value) : raw_get(m, channel, parameter, value);
}

uint32_t twin_set(uint8_t *m, size_t len, uint32_t channel, uint32_t parameter, uint32_t value) {
    if (bad(m, len)) return 0x1A;
    return is_iso(channel) ? iso_set(of(m, channel), parameter, value) : raw_set(m, channel, parameter, value);
}

uint32_t twin_set_list(uint8_t *m, size_t len, uint32_t channel, const struct twin_pair *pairs, size_t count) {
    if (bad(m, len)) return 0x1A;
    return is_iso(channel) ? iso_set_list(of(m, channel), pairs, count) : raw_set_list(m, channel, pairs, count);
}

uint32_t twin_get_list(uint8_t *m, size_t len, uint32_t channel, struct twin_pair *pairs, size_t count) {
    if (bad(m, len)) return 0x1A;
    return is_iso(channel) ? iso_get_list(of(m, channel), pairs, count) : raw_get_list(m, channel, pairs, count);
}

uint32_t twin_decide(uint8_t *m, size_t len, uint32_t channel, uint32_t wide, uint32_t id, uint32_t *answer) {
    *answer = 0;
    return bad(m, len) ? 0x1A : raw_decide(m, channel, wide, id, answer);
}

uint32_t twin_save(uint8_t *m, size_t len, uint32_t channel, uint8_t *b, size_t b_len, uint32_t *length) {
    *length = 0;
    return bad(m, len) ? 0x1A : raw_save(m, channel, b, b_len, length);
}

uint32_t twin_load(uint8_t *m, size_t len, uint32_t channel, const uint8_t *store, size_t store_len) {
    return bad(m, len) ? 0x1A : raw_load(m, channel, store, store_len);
}

uint32_t twin_link_open(uint8_t *m, size_t len, uint32_t channel, uint32_t own, uint32_t destination, uint32_t rx_id, uint32_t application,
                        uint32_t block_size, uint32_t t1, uint32_t t3) {
    if (bad(m, len)) return 0x1A;
    return raw_link_open(m, channel, own, destination, rx_id, application, block_size, t1, t3);
}

uint32_t twin_link_send(uint8_t *m, size_t len, uint32_t channel, const uint8_t *message, size_t message_len) {
    return bad(m, len) ? 0x1A : raw_link_send(m, channel, message, message_len);
}

uint32_t twin_link_receive(uint8_t *m, size_t len, uint32_t channel, uint8_t *b, size_t b_len, uint32_t *length) {
    *length = 0;
    return bad(m, len) ? 0x1A : raw_link_receive(m, channel, b, b_len, length);
}

uint32_t twin_link_end(uint8_t *m, size_t len, uint32_t channel) { return bad(m, len) ? 0x1A : raw_link_end(m, channel); }

uint32_t twin_last_error(const uint8_t *m, size_t len, uint32_t channel, uint32_t *code) {
    *code = 0;
    if (bad(m, len)) return 0x1A;
    return is_iso(channel) ? iso_last_error(m + RAW_PART + (channel - LINES - 1) * ISO_REGION, code) : raw_last_error(m, channel, code);
}
