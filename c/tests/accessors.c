/* The header's functions on records, against the twin's and the core's reading of them: `accessors [SEED [ROUNDS]]`. */
#include <stdio.h>
#include <stdlib.h>
#include <string.h>

#define TRAWL_NO_J2534_NAMES
#include "../../include/trawlpepper.h"
#include "../twin/twin.h"
#include "support.h"

static uint8_t core[TRAWL_MEMORY], twin[TRAWL_MEMORY];
static unsigned long held;

static void must(int true_, const char *what) {
    if (!true_) fail(what, NULL, held);
    held++;
}

static void same_memory(const char *what) { must(memcmp(core, twin, TRAWL_MEMORY) == 0, what); }

/* the numbers of a record, one by one */
static void says(const uint8_t *r, uint32_t rx, uint32_t tx, uint32_t time, uint32_t size, uint32_t identifier) {
    must(trawl_record_protocol(r) == 5, "protocol");
    must(trawl_record_rx_status(r) == rx, "RxStatus");
    must(trawl_record_tx_flags(r) == tx, "TxFlags");
    must(trawl_record_time(r) == time, "time");
    must(trawl_record_size(r) == size && trawl_record_extra(r) == size, "size");
    must(trawl_record_identifier(r) == identifier, "identifier");
    must(trawl_record_data(r) == r + 28 && trawl_record_data_size(r) == size - 4, "data");
    must(trawl_record_wide(r) == ((rx | tx) >> 8 & 1), "wide");
    must(trawl_record_echo(r) == (rx & 1), "echo");
}

/* worked out by hand from the scope's table */
static void by_hand(void) {
    static const uint8_t data[3] = {0x02, 0x10, 0x03}, wide[36] = {5, 0, 0, 0, 0, 0, 0, 0, 0, 1, 0, 0, 0, 0, 0, 0, 7, 0, 0, 0, 7, 0, 0, 0,
                                                                     0x18, 0xDA, 0xF1, 0x10, 0x02, 0x10, 0x03},
                         read[36] = {5, 0, 0, 0, 1, 1, 0, 0, 0, 0, 0, 0, 0x78, 0x56, 0x34, 0x12, 6, 0, 0, 0, 6, 0, 0, 0,
                                     0x1F, 0xFF, 0xFF, 0xFF, 0xAB, 0xCD};
    uint8_t r[TRAWL_RECORD];
    uint32_t k;
    memset(r, 0xEE, sizeof r);
    trawl_record_make(r, 1, 0x18DAF110, data, sizeof data);
    must(memcmp(r, wide, sizeof r) == 0, "a record made");
    says(read, 0x101, 0, 0x12345678, 6, 0x1FFFFFFF);
    must(trawl_record_data(read)[0] == 0xAB && trawl_record_data(read)[1] == 0xCD, "data bytes");
    must(sizeof(struct trawl_pair) == 8 && offsetof(struct trawl_pair, parameter) == 0 && offsetof(struct trawl_pair, value) == 4, "a pair");
    must(trawl_clear_kind(0x07) == TRAWL_CLEAR_WRITTEN && trawl_clear_kind(0x08) == TRAWL_CLEAR_RECEIVED, "kinds 1 and 2");
    must(trawl_clear_kind(0x09) == TRAWL_CLEAR_PERIODICS && trawl_clear_kind(0x0A) == TRAWL_CLEAR_FILTERS, "kinds 3 and 4");
    for (k = 0; k < 300; k++)
        if (k < 7 || k > 10) must(trawl_clear_kind(k) == 0, "no kind");
    must(trawl_clear_kind(0xFFFFFFFFu) == 0 && trawl_clear_kind(0x107) == 0, "no kind");
}

/* sizes that no record has: nothing is read or written beyond, and the box refuses them */
static void odd_sizes(uint32_t channel) {
    static const size_t sizes[] = {9, 10, 12, 13, 64, 0xFFFFFFFCu, (size_t)-4, (size_t)-1};
    static lent record, data;
    uint32_t a, b;
    size_t i;
    for (i = 0; i < sizeof sizes / sizeof *sizes; i++) {
        lend(&record, 36), lend(&data, 12);
        trawl_record_make(bytes(&record), 0, 0x7E0, bytes(&data), sizes[i]);
        must(guarded(&record), "36 bytes and no more");
        must(trawl_record_data_size(bytes(&record)) == 8, "data size of a bad record");
        must(trawl_write(core, sizeof core, channel, 1, bytes(&record), 36, &a) == 0x0A && a == 0, "too long to write");
        must(twin_write(twin, sizeof twin, channel, 1, bytes(&record), 36, &b) == 0x0A && b == 0, "too long to write");
        must(trawl_start_filter(core, sizeof core, channel, 1, bytes(&record), 36, bytes(&record), 36, &a) == 0x0A, "too long a filter");
        if (sizes[i] > 12) {
            trawl_record_bytes(bytes(&record), 0, bytes(&data), sizes[i]);
            must(guarded(&record), "36 bytes and no more");
            must(trawl_start_filter(core, sizeof core, channel, 1, bytes(&record), 36, bytes(&record), 36, &a) == 0x0A, "too long a filter");
        }
        same_memory("memory after a refusal");
    }
    for (a = 0; a < 4; a++) {
        trawl_record_bytes(bytes(&record), 0, bytes(&data), a);
        must(trawl_record_size(bytes(&record)) == a && trawl_record_data_size(bytes(&record)) == 0, "short record");
    }
}

/* made, written and taken: both give the same 36 bytes back; sent with loopback and read: its fields are what was said */
static void there_and_back(uint32_t channel) {
    uint8_t data[8], made[36], a[36], b[36], noisy[36];
    uint32_t wide = below(2), identifier = any() & (wide ? 0x1FFFFFFFu : 0x7FFu), n = below(9), va, vb, us = below(1000001);
    uint32_t clock;
    for (size_t i = 0; i < 8; i++) data[i] = (uint8_t)any();
    memset(made, 0xEE, sizeof made);
    trawl_record_make(made, wide, identifier, n ? data : NULL, n);
    says(made, 0, wide << 8, 0, 4 + n, identifier);
    must(memcmp(trawl_record_data(made), data, n) == 0, "data");

    record_at(noisy, channel, any() << 9 | wide << 8, identifier, n); /* the tests' own record, with noise in what is ignored */
    must(trawl_record_identifier(noisy) == identifier && trawl_record_data_size(noisy) == n && trawl_record_size(noisy) == 4 + n, "noisy record");
    memcpy(noisy + 28, data, n);

    must(trawl_write(core, sizeof core, channel, 1, made, 36, &va) == 0 && va == 1, "written, core");
    must(twin_write(twin, sizeof twin, channel, 1, noisy, 36, &vb) == 0 && vb == 1, "written, twin");
    same_memory("made against noisy");
    must(trawl_take(core, sizeof core, channel, a, 36) == 0 && twin_take(twin, sizeof twin, channel, b, 36) == 0, "taken");
    must(memcmp(a, made, 36) == 0 && memcmp(b, made, 36) == 0, "what is taken is what was made");

    must(trawl_advance(core, sizeof core, us) == 0 && twin_advance(twin, sizeof twin, us) == 0, "advanced");
    clock = trawl_load32(core);
    must(trawl_sent(core, sizeof core, channel) == 0 && twin_sent(twin, sizeof twin, channel) == 0, "sent");
    must(trawl_read(core, sizeof core, channel, 1, a, 36, &va) == 0 && va == 1, "echo, core");
    must(twin_read(twin, sizeof twin, channel, 1, b, 36, &vb) == 0 && vb == 1, "echo, twin");
    must(memcmp(a, b, 36) == 0, "echoes");
    says(a, wide << 8 | 1, 0, clock, 4 + n, identifier);
    must(memcmp(trawl_record_data(a), data, n) == 0, "the echo's data");

    must(trawl_frame(core, sizeof core, channel - 1, wide, identifier, n ? data : NULL, n) == 0, "frame, core");
    must(twin_frame(twin, sizeof twin, channel - 1, wide, identifier, n ? data : NULL, n) == 0, "frame, twin");
    must(trawl_read(core, sizeof core, channel, 1, a, 36, &va) == 0 && va == 1, "read, core");
    must(twin_read(twin, sizeof twin, channel, 1, b, 36, &vb) == 0 && vb == 1, "read, twin");
    must(memcmp(a, b, 36) == 0, "records read");
    says(a, wide << 8, 0, clock, 4 + n, identifier);
    must(memcmp(trawl_record_data(a), data, n) == 0, "the frame's data");
    same_memory("memory");
}

/* ---- records of 536 bytes ---- */

/* the numbers of such a record, one by one; of RxStart and TxDone the extra index is 0 */
static void says_iso(const uint8_t *r, uint32_t rx, uint32_t tx, uint32_t time, uint32_t size, uint32_t identifier) {
    must(trawl_record_protocol(r) == 6 && trawl_record_rx_status(r) == rx && trawl_record_tx_flags(r) == tx, "protocol, RxStatus, TxFlags");
    must(trawl_record_time(r) == time && trawl_record_size(r) == size && trawl_record_extra(r) == (rx & 10 ? 0 : size), "time, size");
    must(trawl_record_identifier(r) == identifier && trawl_record_data(r) == r + 28, "identifier");
    must(trawl_iso_record_data_size(r) == size - 4 && trawl_record_data_size(r) == (size > 12 ? 8 : size - 4), "data size");
    must(trawl_record_wide(r) == ((rx | tx) >> 8 & 1) && trawl_record_echo(r) == ((rx & 15) == 1), "wide, echo");
    must(trawl_record_rx_start(r) == (rx >> 1 & 1) && trawl_record_tx_done(r) == (rx >> 3 & 1), "RxStart, TxDone");
}

/* sizes that no message has */
static void odd_iso_sizes(uint32_t channel) {
    static const size_t sizes[] = {509, 510, 512, 513, 600, 0xFFFFFFFCu, (size_t)-4, (size_t)-1};
    static lent record, data;
    uint32_t a, b;
    for (size_t i = 0; i < sizeof sizes / sizeof *sizes; i++) {
        lend(&record, 536), lend(&data, 512);
        trawl_iso_record_make(bytes(&record), 0, 0x7E0, bytes(&data), sizes[i]);
        must(guarded(&record) && trawl_iso_record_data_size(bytes(&record)) == 508, "536 bytes and no more");
        must(trawl_write(core, sizeof core, channel, 1, bytes(&record), 536, &a) == 0x0A && a == 0, "too long to write");
        must(twin_write(twin, sizeof twin, channel, 1, bytes(&record), 536, &b) == 0x0A && b == 0, "too long to write");
        if (sizes[i] <= 512) continue;
        trawl_iso_record_bytes(bytes(&record), 0, bytes(&data), sizes[i]);
        must(guarded(&record), "536 bytes and no more");
        must(trawl_write(core, sizeof core, channel, 1, bytes(&record), 536, &a) == 0x0A && a == 0, "too long to write");
        must(twin_write(twin, sizeof twin, channel, 1, bytes(&record), 536, &b) == 0x0A && b == 0, "too long to write");
    }
    same_memory("memory after a refusal");
}

/* the next frame is taken and sent on both, and says what the header's functions say */
static const uint8_t *goes_out(uint32_t channel, uint32_t wide, uint32_t identifier) {
    static uint8_t a[536], b[536];
    must(trawl_take(core, sizeof core, channel, a, 536) == 0 && twin_take(twin, sizeof twin, channel, b, 536) == 0, "taken");
    must(memcmp(a, b, 536) == 0, "what is taken");
    says_iso(a, 0, wide << 8, 0, trawl_record_size(a), identifier);
    must(trawl_record_data_size(a) >= 2, "a frame");
    must(trawl_sent(core, sizeof core, channel) == 0 && twin_sent(twin, sizeof twin, channel) == 0, "sent");
    return trawl_record_data(a);
}

static void comes_in(uint32_t channel, uint32_t wide, uint32_t identifier, const uint8_t *data, size_t n) {
    must(trawl_frame(core, sizeof core, channel - 5, wide, identifier, data, n) == 0, "frame, core");
    must(twin_frame(twin, sizeof twin, channel - 5, wide, identifier, data, n) == 0, "frame, twin");
}

/* the next record read */
static const uint8_t *told(uint32_t channel) {
    static uint8_t a[536], b[536];
    uint32_t va, vb;
    must(trawl_read(core, sizeof core, channel, 1, a, 536, &va) == 0 && va == 1, "read, core");
    must(twin_read(twin, sizeof twin, channel, 1, b, 536, &vb) == 0 && vb == 1, "read, twin");
    must(memcmp(a, b, 536) == 0, "records read");
    return a;
}

/* the partner says a message in frames of its own; the box asks it to go on */
static void comes_back(uint32_t channel, uint32_t wide, uint32_t they, uint32_t us, const uint8_t *payload, uint32_t n) {
    uint8_t b[8];
    if (n <= 7) {
        b[0] = (uint8_t)n;
        memcpy(b + 1, payload, n);
        comes_in(channel, wide, they, b, 1 + n);
        return;
    }
    b[0] = (uint8_t)(0x10 | n >> 8), b[1] = (uint8_t)n;
    memcpy(b + 2, payload, 6);
    comes_in(channel, wide, they, b, 8);
    must(goes_out(channel, wide, us)[0] == 0x30, "go on");
    for (uint32_t at = 6, k = 1; at < n; at += 7, k++) {
        uint32_t part = n - at < 7 ? n - at : 7;
        b[0] = (uint8_t)(0x20 | k % 16);
        memcpy(b + 1, payload + at, part);
        comes_in(channel, wide, they, b, 1 + part);
    }
}

/* a message made, written, sent frame by frame to a partner that sends it back: TxDone, its echo, RxStart, and the same message */
static void message_and_back(uint32_t channel) {
    uint8_t payload[508], made[536], noisy[536];
    uint32_t wide = below(2), us = wide ? 0x18DA10F1 : 0x7E0, they = wide ? 0x18DAF110 : 0x7E8, va, vb, clock;
    uint32_t n = ONE_OF(1, 7, 8, 20, 508, 1 + below(508));
    for (size_t i = 0; i < n; i++) payload[i] = (uint8_t)any();
    memset(made, 0xEE, sizeof made);
    trawl_iso_record_make(made, wide, us, payload, n);
    says_iso(made, 0, wide << 8, 0, 4 + n, us);
    record_at(noisy, channel, any() << 9 | wide << 8, us, n);
    memcpy(noisy + 28, payload, n);
    must(trawl_write(core, sizeof core, channel, 1, made, 536, &va) == 0 && va == 1, "written, core");
    must(twin_write(twin, sizeof twin, channel, 1, noisy, 536, &vb) == 0 && vb == 1, "written, twin");
    same_memory("made against noisy");
    must(trawl_advance(core, sizeof core, 1000) == 0 && twin_advance(twin, sizeof twin, 1000) == 0, "advanced");
    clock = trawl_load32(core);
    if (n <= 7) must(goes_out(channel, wide, us)[0] == n, "single frame");
    else must(goes_out(channel, wide, us)[0] >> 4 == 1, "first frame"), comes_in(channel, wide, they, (const uint8_t *)"\x30\0\0", 3);
    for (uint32_t at = 6; n > 7 && at < n; at += 7)
        must(memcmp(goes_out(channel, wide, us) + 1, payload + at, n - at < 7 ? n - at : 7) == 0, "next frame");
    says_iso(told(channel), wide << 8 | 9, 0, clock, 4, us);
    says_iso(told(channel), wide << 8 | 1, 0, clock, 4 + n, us);
    comes_back(channel, wide, they, us, payload, n);
    if (n > 7) says_iso(told(channel), wide << 8 | 2, 0, clock, 4, they);
    must(memcmp(trawl_record_data(told(channel)), payload, n) == 0, "the message that came");
    same_memory("memory");
}

/* an ISO 15765 channel with loopback and a conversation of each width, on both */
static void open_iso(uint32_t line) {
    uint8_t mask[536], pattern[536], flow[536];
    uint32_t a, b, wide;
    must(trawl_connect(core, sizeof core, line, 6, 0x800, 500000, &a) == 0, "connect, core");
    must(twin_connect(twin, sizeof twin, line, 6, 0x800, 500000, &b) == 0, "connect, twin");
    must(trawl_set(core, sizeof core, a, 3, 1) == 0 && twin_set(twin, sizeof twin, b, 3, 1) == 0, "loopback");
    for (wide = 0; wide < 2; wide++) {
        trawl_iso_record_make(mask, wide, 0xFFFFFFFF, NULL, 0);
        trawl_iso_record_make(pattern, wide, wide ? 0x18DAF110 : 0x7E8, NULL, 0);
        trawl_iso_record_bytes(flow, wide << 8, (const uint8_t *)(wide ? "\x18\xDA\x10\xF1" : "\0\0\x07\xE0"), 4);
        must(trawl_start_flow_filter(core, sizeof core, a, 3, mask, 536, pattern, 536, flow, 536, &b) == 0 && b == wide + 1, "filter, core");
        must(twin_start_flow_filter(twin, sizeof twin, a, 3, mask, 536, pattern, 536, flow, 536, &b) == 0 && b == wide + 1, "filter, twin");
    }
    odd_iso_sizes(a);
}

/* a filter of any size by trawl_record_bytes: stored alike */
static void filter_there(uint32_t channel) {
    uint8_t row[12], mask[36], pattern[36];
    uint32_t n = 1 + below(12), va, vb, flags = any();
    for (size_t i = 0; i < 12; i++) row[i] = (uint8_t)any();
    trawl_record_bytes(mask, flags, row, n);
    for (size_t i = 0; i < 12; i++) row[i] = (uint8_t)any();
    trawl_record_bytes(pattern, flags, row, n);
    must(trawl_record_tx_flags(pattern) == flags && trawl_record_size(pattern) == n && memcmp(pattern + 24, row, n) == 0, "a filter's record");
    must(trawl_start_filter(core, sizeof core, channel, 2, mask, 36, pattern, 36, &va) == 0, "filter, core");
    must(twin_start_filter(twin, sizeof twin, channel, 2, mask, 36, pattern, 36, &vb) == 0 && va == vb, "filter, twin");
    same_memory("filters");
    must(trawl_stop_filter(core, sizeof core, channel, va) == 0 && twin_stop_filter(twin, sizeof twin, channel, vb) == 0, "stopped");
}

int main(int argc, char **argv) {
    unsigned long rounds = argc > 2 ? strtoul(argv[2], NULL, 10) : 5;
    seed = argc > 1 ? strtoull(argv[1], NULL, 10) : 1;
    if (seed == 0) seed = 1;
    by_hand();
    trawl_power_on(core, sizeof core), twin_power_on(twin, sizeof twin);
    for (uint32_t line = 0; line < 4; line++) {
        uint32_t a, b, width;
        uint8_t every[36];
        must(trawl_connect(core, sizeof core, line, 5, 0x800, 500000, &a) == 0, "connect, core");
        must(twin_connect(twin, sizeof twin, line, 5, 0x800, 500000, &b) == 0, "connect, twin");
        must(trawl_set(core, sizeof core, a, 3, 1) == 0 && twin_set(twin, sizeof twin, a, 3, 1) == 0, "loopback");
        for (width = 0; width < 2; width++) {
            trawl_record_make(every, width, 0, NULL, 0);
            must(trawl_start_filter(core, sizeof core, a, 1, every, 36, every, 36, &b) == 0, "filter");
            must(twin_start_filter(twin, sizeof twin, a, 1, every, 36, every, 36, &b) == 0, "filter");
        }
        odd_sizes(a);
    }
    for (unsigned long i = 0; i < 2000 * rounds; i++) {
        uint8_t word[4];
        uint32_t v = any();
        trawl_store32(word, v);
        must(trawl_load32(word) == v && word[0] == (v & 255) && word[3] == v >> 24, "a number's bytes");
        there_and_back(1 + below(4));
        filter_there(1 + below(4));
    }
    trawl_close(core, sizeof core), twin_close(twin, sizeof twin);
    for (uint32_t line = 0; line < 4; line++) open_iso(line);
    for (unsigned long i = 0; i < 100 * rounds; i++) message_and_back(5 + below(4));
    printf("the header's records agree with twin and core: %lu looks\n", held);
    return 0;
}
