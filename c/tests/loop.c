/* The driver's loop of the header, word for word (the script takes it out of there and puts it into loop.inc), with a controller that fails, and
 * what the header says of frames in flight. */
#include <stdio.h>
#include <string.h>

#define TRAWL_NO_J2534_NAMES
#include "../../include/trawlpepper.h"
#include "support.h"

static uint8_t box[TRAWL_MEMORY], record[TRAWL_ISO_RECORD], data[8];
static uint32_t turn[4];
static size_t n;
static unsigned long held;

static void must(int true_, const char *what) {
    if (!true_) fail(what, NULL, held);
    held++;
}

/* ---- the controller of each line ---- */

static uint32_t elapsed, arriving[4], handed[4], last[4]; /* frames still to come; how often it was handed one, and the last one's identifier */
static int busy[4], sent[4], fails;
static const char *partner; /* what a partner on line 1 says next: with which identifier, and how many bytes */
static uint32_t partner_id;
static size_t partner_n;

static void partner_says(uint32_t id, const char *bytes, size_t n_) { partner = bytes, partner_id = id, partner_n = n_; }

static uint32_t microseconds_since_last_time(void) {
    uint32_t us = elapsed;
    elapsed = 0;
    return us;
}

static int controller_received(uint32_t line, uint32_t *wide, uint32_t *id, uint8_t *bytes, size_t *length) {
    if (partner && line == 1) {
        *wide = 0, *id = partner_id, *length = partner_n;
        memcpy(bytes, partner, partner_n);
        partner = NULL;
        return 1;
    }
    if (arriving[line] == 0) return 0;
    arriving[line]--;
    *wide = 0, *id = 0x7E8, *length = 2, bytes[0] = 0x01, bytes[1] = 0x02;
    return 1;
}

static int controller_has_sent(uint32_t line) {
    int was = sent[line];
    sent[line] = 0;
    return was;
}

static int controller_idle(uint32_t line) { return !busy[line]; }

static void controller_send(uint32_t line, uint32_t wide, uint32_t id, const uint8_t *bytes, size_t length) {
    must(wide == 0 && (id < 0x700 || (length == 1 && bytes[0] == (id & 0xFF))), "what is handed over");
    busy[line] = 1, handed[line]++, last[line] = id;
}

static void wire(void) {
    for (int line = 0; line < 4; line++) {
        if (!busy[line]) continue;
        busy[line] = 0;
        if (fails > 0) fails--;
        else sent[line] = 1;
    }
}

static void step(void) {
#include "loop.inc"
}

/* ---- stories ---- */

static void queue_one(uint32_t channel, uint32_t id) {
    uint8_t r[TRAWL_RECORD], byte = (uint8_t)id;
    uint32_t count;
    trawl_record_make(r, 0, id, &byte, 1);
    must(trawl_write(box, sizeof box, channel, 1, r, sizeof r, &count) == 0 && count == 1, "write");
}

static uint32_t read_one(uint32_t channel) {
    uint32_t count;
    trawl_read(box, sizeof box, channel, 1, record, sizeof record, &count);
    return count;
}

/* a message of ten bytes for the conversation of channel 6 */
static void message(void) {
    uint8_t r[TRAWL_ISO_RECORD];
    uint32_t v;
    trawl_iso_record_make(r, 0, 0x241, (const uint8_t *)"ten bytes.", 10);
    must(trawl_write(box, sizeof box, 6, 1, r, sizeof r, &v) == 0 && v == 1, "message");
}

/* a conversation on channel 6, and a message for it */
static void converse(void) {
    uint8_t mask[TRAWL_ISO_RECORD], pattern[TRAWL_ISO_RECORD], flow[TRAWL_ISO_RECORD];
    uint32_t v;
    trawl_iso_record_make(mask, 0, 0xFFFFFFFF, NULL, 0);
    trawl_iso_record_make(pattern, 0, 0x641, NULL, 0);
    trawl_iso_record_make(flow, 0, 0x241, NULL, 0);
    must(trawl_connect(box, sizeof box, 1, TRAWL_ISO15765, 0, 500000, &v) == 0 && v == 6, "connect");
    must(trawl_start_flow_filter(box, sizeof box, 6, 3, mask, sizeof mask, pattern, sizeof pattern, flow, sizeof flow, &v) == 0, "filter");
    message();
}

/* one turn of wire and loop hands this frame over */
static void hands(uint32_t id) {
    uint32_t was = handed[1];
    wire(), step();
    must(handed[1] == was + 1 && last[1] == id, "the channels take turns");
}

/* a listener in the place of a raw channel: the loop asks it too, and hands over what the other channel of the line has; frames that come are read */
static void listens(uint32_t channel) {
    uint8_t every[TRAWL_RECORD];
    uint32_t number;
    trawl_record_make(every, 0, 0, NULL, 0);
    wire(), step(), wire();
    trawl_disconnect(box, sizeof box, channel), step();
    trawl_connect(box, sizeof box, 1, TRAWL_CAN, TRAWL_LISTEN_ONLY, 500000, &channel);
    trawl_start_filter(box, sizeof box, channel, TRAWL_PASS_FILTER, every, sizeof every, every, sizeof every, &number);
    message(), hands(0x241);
    partner_says(0x641, "\x30\0\0", 3), arriving[1] = 1, hands(0x241);
    wire(), step();
    must(trawl_read(box, sizeof box, 6, 1, record, sizeof record, &number) == 0 && trawl_record_tx_done(record) == 1, "the message is sent");
    must(read_one(channel) == 1 && trawl_record_identifier(record) == 0x641, "the partner's frame");
    must(read_one(channel) == 1 && trawl_record_identifier(record) == 0x7E8, "another frame");
    step();
    must(trawl_last_error(box, sizeof box, channel, &number) == 0 && number == TRAWL_ERR_NOT_SUPPORTED, "a listener's take");
}

int main(void) {
    uint8_t every[TRAWL_RECORD];
    uint32_t channel, number;
    trawl_power_on(box, sizeof box);
    trawl_connect(box, sizeof box, 1, TRAWL_CAN, 0, 500000, &channel);
    trawl_set(box, sizeof box, channel, TRAWL_LOOPBACK, 1);
    trawl_record_make(every, 0, 0, NULL, 0);

    /* no filter lets nothing in; with one the frame has the time of the loop's advances, more than a second of them */
    arriving[1] = 1, elapsed = 1, step();
    must(arriving[1] == 0 && read_one(channel) == 0, "no filter");
    trawl_start_filter(box, sizeof box, channel, TRAWL_PASS_FILTER, every, sizeof every, every, sizeof every, &number);
    arriving[1] = 2, elapsed = 3499999, step();
    must(read_one(channel) == 1 && trawl_record_time(record) == 3500000 && trawl_record_identifier(record) == 0x7E8, "a frame's time");
    must(read_one(channel) == 1 && read_one(channel) == 0, "two frames");

    /* two sendings fail: the same frame is handed over three times, echoed once, and the next one waits */
    queue_one(channel, 0x701), queue_one(channel, 0x702);
    fails = 2;
    step(), must(handed[1] == 1 && last[1] == 0x701, "first try");
    wire(), step(), must(handed[1] == 2 && last[1] == 0x701 && read_one(channel) == 0, "second try");
    wire(), step(), must(handed[1] == 3 && last[1] == 0x701 && read_one(channel) == 0, "third try");
    wire(), step(), must(handed[1] == 4 && last[1] == 0x702, "the next frame");
    must(read_one(channel) == 1 && trawl_record_echo(record) == 1 && trawl_record_identifier(record) == 0x701 && read_one(channel) == 0, "one echo");
    wire(), step(), must(handed[1] == 4, "nothing more");
    must(read_one(channel) == 1 && trawl_record_identifier(record) == 0x702, "the second echo");

    /* given up: loopback off, sent, on again. Clear leaves the flight */
    queue_one(channel, 0x703), queue_one(channel, 0x704);
    fails = 1, step(), wire(), busy[1] = 1;
    must(trawl_clear(box, sizeof box, channel, trawl_clear_kind(TRAWL_CLEAR_TX_BUFFER)) == 0, "clear");
    must(trawl_take(box, sizeof box, channel, record, sizeof record) == 0 && trawl_record_identifier(record) == 0x703, "the flight stays");
    must(trawl_set(box, sizeof box, channel, TRAWL_LOOPBACK, 0) == 0 && trawl_sent(box, sizeof box, channel) == 0, "given up");
    must(trawl_set(box, sizeof box, channel, TRAWL_LOOPBACK, 1) == 0 && read_one(channel) == 0, "without an echo");
    must(trawl_take(box, sizeof box, channel, record, sizeof record) == TRAWL_ERR_BUFFER_EMPTY, "nothing left");
    must(trawl_sent(box, sizeof box, channel) == TRAWL_ERR_FAILED, "nothing in flight");
    busy[1] = 0;

    /* disconnect empties the flight; a late 'sent' of the controller is refused and does no harm */
    queue_one(channel, 0x705), step();
    trawl_disconnect(box, sizeof box, channel);
    trawl_connect(box, sizeof box, 1, TRAWL_CAN, 0, 500000, &channel);
    must(trawl_sent(box, sizeof box, channel) == TRAWL_ERR_FAILED, "a late sent");
    wire(), step(), must(handed[1] == 6 && trawl_valid(box, sizeof box), "and the loop goes on");

    /* both channels of the line have something to send; the partner's go-on comes with the sent that it answers, and counts */
    wire(), step();
    queue_one(channel, 0x706), queue_one(channel, 0x707), converse();
    hands(0x241);
    partner_says(0x641, "\x30\0\0", 3), hands(0x706);
    hands(0x241), hands(0x707);
    must(trawl_read(box, sizeof box, 6, 1, record, sizeof record, &number) == 0 && trawl_record_tx_done(record) == 1, "the message is sent");

    /* a TP2.0 connection on the same line: each answer comes with the sent of what it answers, and counts */
    must(trawl_link_open(box, sizeof box, channel, 0x200, 0x01, 0x300, 0x01, 15, 0x8A, 0x00) == 0, "opening");
    hands(0x200);
    partner_says(0x201, "\0\xD0\0\3\x40\6\1", 7), hands(0x640);
    partner_says(0x300, "\xA1\x0F\x8A\xFF\0\xFF", 6), wire(), step();
    must(trawl_link_send(box, sizeof box, channel, (const uint8_t *)"ten bytes.", 10) == 0, "it stands");
    hands(0x640), hands(0x640);
    partner_says(0x300, "\xB2", 1), wire(), step();
    must(trawl_link_send(box, sizeof box, channel, (const uint8_t *)"more", 4) == 0, "the message is acknowledged");
    listens(channel);
    printf("the header's loop: %lu looks\n", held);
    return 0;
}
