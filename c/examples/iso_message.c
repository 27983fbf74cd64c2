/* ISO 15765: a message of 100 bytes comes, and one of 100 bytes goes, frame by frame. The box has channel 5 open, the ISO 15765 channel of line 0, and
 * on it one conversation: its partner, an engine computer, sends with 0x7E8 and listens to 0x7E0. The partner is simulated here, so that every run
 * is the same; the output is kept in iso_message.out.
 *
 *   cc -std=c99 -I include c/examples/iso_message.c target/staticlib/PROCESSOR/libpassthru.a -o iso_message && ./iso_message
 */
#define TRAWL_NO_J2534_NAMES
#include <stdio.h>
#include <stdlib.h>
#include <string.h>

#include "trawlpepper.h"

enum { LINE = 0, LENGTH = 100 };

static const uint32_t theirs = 0x7E8, ours = 0x7E0; /* the identifiers that each side sends with */
static uint8_t box[TRAWL_MEMORY];
static uint32_t now; /* microseconds that the box was told of */

static void good(uint32_t code, const char *what) {
    if (code == TRAWL_STATUS_NOERROR) return;
    printf("%s: code 0x%02X\n", what, (unsigned)code);
    exit(1);
}

static void pass(uint32_t us) {
    good(trawl_advance(box, sizeof box, us), "advance");
    now += us;
}

static void show(const char *who, uint32_t identifier, const uint8_t *data, size_t n) {
    size_t i;
    printf("%7.3f ms  %-7s 0x%03X", now / 1000.0, who, (unsigned)identifier);
    for (i = 0; i < n; i++) printf(" %02X", data[i]);
    printf("\n");
}

/* ---- the partner: it says frames, and puts together what it hears ---- */

static uint8_t heard[LENGTH];
static size_t heard_n, in_block;

static void partner_says(const uint8_t *data, size_t n) {
    show("partner", theirs, data, n);
    good(trawl_frame(box, sizeof box, LINE, 0, theirs, data, n), "frame");
}

/* Go on: eight frames more, a millisecond apart. */
static void partner_lets_go(void) {
    static const uint8_t go_on[3] = {0x30, 8, 1};
    in_block = 0;
    partner_says(go_on, sizeof go_on);
}

static void partner_hears(const uint8_t *data, size_t n) {
    size_t head = data[0] >> 4 == 1 ? 2 : 1; /* a first frame, or a consecutive one */
    if (data[0] >> 4 == 3) return;           /* the box's own flow frame */
    memcpy(heard + heard_n, data + head, n - head);
    heard_n += n - head;
    if (head == 2 || (++in_block == 8 && heard_n < LENGTH)) partner_lets_go();
}

/* ---- the box: what its driver and its application do ---- */

/* The driver: the next frame, if there is one, goes out, and the box is told so. */
static int box_sends(void) {
    uint8_t record[TRAWL_ISO_RECORD];
    if (trawl_take(box, sizeof box, LINE + 5, record, sizeof record) == TRAWL_ERR_BUFFER_EMPTY) return 0;
    show("box", trawl_record_identifier(record), trawl_record_data(record), trawl_record_data_size(record));
    good(trawl_sent(box, sizeof box, LINE + 5), "sent");
    partner_hears(trawl_record_data(record), trawl_record_data_size(record));
    return 1;
}

/* The application: all that waits for it. */
static void box_reads(void) {
    uint8_t record[TRAWL_ISO_RECORD];
    uint32_t count;
    while (trawl_read(box, sizeof box, LINE + 5, 1, record, sizeof record, &count) == TRAWL_STATUS_NOERROR) {
        const uint8_t *data = trawl_record_data(record);
        size_t n = trawl_iso_record_data_size(record);
        printf("            read:   0x%03X ", (unsigned)trawl_record_identifier(record));
        if (trawl_record_rx_start(record)) printf("a message begins");
        else if (trawl_record_tx_done(record)) printf("the message is sent");
        else printf("a message of %u bytes, %02X to %02X", (unsigned)n, data[0], data[n - 1]);
        printf(", at %.3f ms\n", trawl_record_time(record) / 1000.0);
    }
}

static void connects(void) {
    uint8_t mask[TRAWL_ISO_RECORD], pattern[TRAWL_ISO_RECORD], flow[TRAWL_ISO_RECORD];
    uint32_t channel, filter;
    good(trawl_power_on(box, sizeof box), "power-on");
    good(trawl_connect(box, sizeof box, LINE, TRAWL_ISO15765, 0, 500000, &channel), "connect");
    trawl_iso_record_make(mask, 0, 0xFFFFFFFF, NULL, 0);
    trawl_iso_record_make(pattern, 0, theirs, NULL, 0);
    trawl_iso_record_make(flow, 0, ours, NULL, 0);
    good(trawl_start_flow_filter(box, sizeof box, channel, TRAWL_FLOW_CONTROL_FILTER, mask, sizeof mask, pattern, sizeof pattern, flow,
                                 sizeof flow, &filter), "filter");
    printf("channel %u, filter %u\n", (unsigned)channel, (unsigned)filter);
}

/* The partner's message comes: a first frame with its length, the box's go-on, and 14 frames more. */
static void receives(const uint8_t *message) {
    uint8_t data[8] = {0x10, LENGTH};
    size_t at, part, k = 1;
    memcpy(data + 2, message, 6);
    partner_says(data, sizeof data);
    box_reads();
    box_sends();
    for (at = 6; at < LENGTH; at += part) {
        part = LENGTH - at < 7 ? LENGTH - at : 7;
        data[0] = (uint8_t)(0x20 | k++ % 16);
        memcpy(data + 1, message + at, part);
        pass(1000);
        partner_says(data, 1 + part);
    }
    box_reads();
}

/* Ours goes: the box cuts it, and waits where the partner wants it to. */
static void sends(const uint8_t *message) {
    uint8_t record[TRAWL_ISO_RECORD];
    uint32_t count;
    trawl_iso_record_make(record, 0, ours, message, LENGTH);
    good(trawl_write(box, sizeof box, LINE + 5, 1, record, sizeof record, &count), "write");
    while (heard_n < LENGTH)
        if (!box_sends()) pass(500);
    box_reads();
}

int main(void) {
    uint8_t message[LENGTH];
    size_t i;
    for (i = 0; i < LENGTH; i++) message[i] = (uint8_t)(i + 1);
    connects();
    receives(message);
    pass(10000);
    sends(message);
    if (memcmp(heard, message, LENGTH) != 0 || !trawl_valid(box, sizeof box)) return 1;
    printf("the partner has heard all %d bytes\n", LENGTH);
    return 0;
}
