/* Stories of ISO 15765 channels, worked out by hand from the request, told to every side there is. 641 is the partner's identifier, 241 the box's
 * own. The first eight are the examples of its readings. */
#include <stdio.h>
#include <stdlib.h>
#include <string.h>

#include "iso_side.h"
#include "random.h"

static const side *on;
static uint8_t box[BOX_MOST], lent[64 * RECORD], up[LONGEST];
static uint32_t v; /* the number of the last call that gives one */
static unsigned long looks;

static void must(int true_, const char *what, int line) {
    looks++;
    if (true_) return;
    fprintf(stderr, "iso_stories: %s, line %d: %s\n", on->name, line, what);
    exit(1);
}

#define BOX box, on->memory
#define MUST(what) must(what, #what, __LINE__)
#define CODE(code, call) must((call) == (code) && on->valid(BOX), #code " of " #call, __LINE__)
#define GIVES(code, number, call) must((call) == (code) && v == (number) && on->valid(BOX), #code " and " #number " of " #call, __LINE__)

/* ---- the calls, on line 0 unless told ---- */

static uint32_t connect(uint32_t line, uint32_t protocol, uint32_t flags, uint32_t rate) { return on->connect(BOX, line, protocol, flags, rate, &v); }
static uint32_t take(uint32_t channel) { return on->take(BOX, channel, lent, sizeof lent); }
static uint32_t sent(uint32_t channel) { return on->sent(BOX, channel); }
static uint32_t advance(uint32_t us) { return on->advance(BOX, us); }
static uint32_t read(uint32_t channel, uint32_t n) { return on->read(BOX, channel, n, lent, sizeof lent, &v); }
static uint32_t get(uint32_t channel, uint32_t parameter) { return on->get(BOX, channel, parameter, &v); }
static uint32_t set(uint32_t channel, uint32_t parameter, uint32_t value) { return on->set(BOX, channel, parameter, value); }
static uint32_t last(uint32_t channel) { return on->last_error(BOX, channel, &v); }
static uint32_t clear(uint32_t channel, uint32_t kind) { return on->clear(BOX, channel, kind); }
static uint32_t stop_filter(uint32_t channel, uint32_t number) { return on->stop_filter(BOX, channel, number); }

/* a filter of type 3: its flags, pattern and flow */
static uint32_t filter(uint32_t channel, uint32_t tx, uint32_t pattern, uint32_t flow) {
    static uint8_t a[RECORD], b[RECORD], c[RECORD];
    message_at(a, tx, 0xFFFFFFFF, NULL, 0), message_at(b, tx, pattern, NULL, 0), message_at(c, tx, flow, NULL, 0);
    return on->start_filter(BOX, channel, 3, a, RECORD, b, RECORD, c, RECORD, &v);
}

/* a message of n bytes 01 02 03 .. */
static uint32_t write(uint32_t channel, uint32_t tx, uint32_t id, uint32_t n) {
    static uint8_t a[RECORD];
    message_at(a, tx, id, up, n);
    return on->write(BOX, channel, 1, a, RECORD, &v);
}

#define LIST(...) (const uint8_t[]){__VA_ARGS__}, sizeof((const uint8_t[]){__VA_ARGS__})
#define FRAME(...) CODE(0x00, on->frame(BOX, 0, 0, 0x641, LIST(__VA_ARGS__)))
#define OTHER(...) CODE(0x00, on->frame(BOX, 0, 0, 0x642, LIST(__VA_ARGS__)))

/* a take on channel 5 gives this frame of 241, or of an identifier; a sent */
#define TAKES_OF(id, ...) (CODE(0x00, take(5)), MUST(is_record(lent, 0, 0, 0, id, LIST(__VA_ARGS__))))
#define TAKES(...) TAKES_OF(0x241, __VA_ARGS__)
#define NO_TAKE CODE(0x10, take(5))
#define SENT CODE(0x00, sent(5))
#define ADVANCE(us) CODE(0x00, advance(us))

/* a read of one on channel 5 gives this record; of a message the first n bytes 01 02 03 .. */
#define READS(rx, time, id, ...) (GIVES(0x00, 1, read(5, 1)), MUST(is_record(lent, rx, 0, time, id, LIST(__VA_ARGS__))))
#define READS_UP(rx, time, id, n) (GIVES(0x00, 1, read(5, 1)), MUST(is_record(lent, rx, 0, time, id, up, n)))
#define TOLD(rx, time, id) READS_UP(rx, time, id, 0)
#define NO_READ GIVES(0x10, 0, read(5, 1))

/* power-on, channel 5 with flags, its filter 1 */
static void begin(void) {
    CODE(0x00, on->power_on(BOX));
    GIVES(0x00, 5, connect(0, 6, 0, 500000));
    GIVES(0x00, 1, filter(5, 0, 0x641, 0x241));
}

/* a first frame of a written message of n bytes 01 02 .. goes out */
static void sends_first(uint32_t n) {
    GIVES(0x00, 1, write(5, 0, 0x241, n));
    TAKES((uint8_t)(0x10 | n >> 8), (uint8_t)n, 1, 2, 3, 4, 5, 6);
    SENT;
}

/* ---- the examples of the readings ---- */

static void example_1(void) {
    CODE(0x00, on->power_on(BOX));
    GIVES(0x00, 5, connect(0, 6, 0, 500000));
    GIVES(0x00, 1, connect(0, 5, 0x100, 250000));
    GIVES(0x14, 0, connect(0, 6, 0, 500000));
    GIVES(0x00, 500000, get(5, 1));
    GIVES(0x00, 250000, get(1, 1));
    GIVES(0x01, 0, get(5, 0x1E));
}

static void example_2(void) {
    begin();
    CODE(0x00, set(5, 3, 1));
    GIVES(0x00, 1, write(5, 0, 0x241, 10));
    TAKES(0x10, 0x0A, 1, 2, 3, 4, 5, 6);
    SENT;
    NO_TAKE;
    FRAME(0x30, 0, 0);
    TAKES(0x21, 7, 8, 9, 10);
    ADVANCE(9);
    SENT;
    GIVES(0x09, 2, read(5, 3));
    MUST(is_record(lent, 9, 0, 9, 0x241, NULL, 0));
    MUST(is_record(lent + RECORD, 1, 0, 9, 0x241, up, 10));
}

static void example_3(void) {
    begin();
    ADVANCE(5);
    FRAME(0x10, 0x0E, 1, 2, 3, 4, 5, 6);
    TOLD(2, 5, 0x641);
    TAKES(0x30, 0, 0);
    FRAME(0x21, 7, 8, 9, 10, 11, 12, 13);
    ADVANCE(1);
    FRAME(0x22, 14, 0xAA, 0xAA);
    READS_UP(0, 6, 0x641, 14);
}

static void example_4(void) {
    begin();
    sends_first(LONGEST);
    FRAME(0x30, 0, 0);
    for (uint32_t k = 1, n = 6; k <= 72; k++, n += 7) {
        uint32_t part = LONGEST - n < 7 ? LONGEST - n : 7;
        uint8_t b[8] = {(uint8_t)(0x20 | k % 16)};
        memcpy(b + 1, up + n, part);
        CODE(0x00, take(5));
        MUST(is_record(lent, 0, 0, 0, 0x241, b, 1 + part));
        MUST(k < 72 || (part == 5 && b[0] == 0x28));
        SENT;
    }
    NO_TAKE;
    TOLD(9, 0, 0x241);
    FRAME(0x11, 0xFD, 1, 2, 3, 4, 5, 6);
    TAKES(0x32, 0, 0);
    NO_READ;
}

static void example_5(void) {
    begin();
    FRAME(0x10, 0x0E, 1, 2, 3, 4, 5, 6);
    ADVANCE(999999);
    TAKES(0x30, 0, 0);
    SENT;
    ADVANCE(999999);
    FRAME(0x21, 7, 8, 9, 10, 11, 12, 13);
    ADVANCE(1000000);
    FRAME(0x22, 14);
    TOLD(2, 0, 0x641);
    NO_READ;
}

static void example_6(void) {
    begin();
    sends_first(41);
    FRAME(0x30, 2, 5);
    TAKES(0x21, 7, 8, 9, 10, 11, 12, 13);
    SENT;
    NO_TAKE;
    ADVANCE(4999);
    NO_TAKE;
    ADVANCE(1);
    TAKES(0x22, 14, 15, 16, 17, 18, 19, 20);
    SENT;
    NO_TAKE;
    ADVANCE(900000); /* no time makes it ready */
    NO_TAKE;
    FRAME(0x30, 0, 0);
    TAKES(0x23, 21, 22, 23, 24, 25, 26, 27);
    SENT;
    TAKES(0x24, 28, 29, 30, 31, 32, 33, 34);
    SENT;
    TAKES(0x25, 0x23, 0x24, 0x25, 0x26, 0x27, 0x28, 0x29);
    SENT;
    TOLD(9, 905000, 0x241);
}

static void example_7(void) {
    static uint8_t a[RECORD], b[RECORD], c[RECORD];
    begin();
    GIVES(0x18, 0, filter(5, 0, 0x641, 0x242));
    GIVES(0x0A, 0, filter(5, 0, 0x642, 0x800));
    GIVES(0x0A, 0, filter(5, 0x100, 0x642, 0x242));
    message_at(a, 0, 0xE3FFFFFF, NULL, 0), message_at(b, 0, 0x642, NULL, 0), message_at(c, 0, 0x242, NULL, 0);
    GIVES(0x0A, 0, on->start_filter(BOX, 5, 3, a, RECORD, b, RECORD, c, RECORD, &v));
    message_at(a, 0, 0xFFFFFFFF, NULL, 0);
    GIVES(0x16, 0, on->start_filter(BOX, 5, 1, a, RECORD, b, RECORD, c, RECORD, &v));
    GIVES(0x16, 0, on->start_filter(BOX, 5, 259, a, RECORD, b, RECORD, c, RECORD, &v));
    GIVES(0x00, 2, filter(5, 0, 0x642, 0x242));
    GIVES(0x0C, 0, filter(5, 0, 0x643, 0x243));
    GIVES(0x18, 0, filter(5, 0, 0x643, 0x242));
}

static void example_8(void) {
    static uint8_t four[4 * RECORD];
    begin();
    GIVES(0x00, 1, write(5, 0, 0x242, 7));
    GIVES(0x17, 0, write(5, 0, 0x242, 8));
    GIVES(0x0A, 0, write(5, 0, 0x242, 0));
    message_at(four, 0, 0x242, up, 7);
    put_word(four + 16, 513);
    GIVES(0x0A, 0, on->write(BOX, 5, 1, four, RECORD, &v));
    message_at(four, 0, 0x242, up, 7);
    put_word(four, 5);
    GIVES(0x15, 0, on->write(BOX, 5, 1, four, RECORD, &v));
    for (int i = 0; i < 4; i++) message_at(four + i * RECORD, 0, 0x241, up, 8);
    GIVES(0x11, 3, on->write(BOX, 5, 4, four, sizeof four, &v));
    GIVES(0x17, 0, write(5, 0, 0x242, 8));
    GIVES(0x11, 0, write(5, 0, 0x242, 7));
}

/* ---- more of it ---- */

/* lent buffers: 536 bytes a record, before what is the call's own and behind 0x02 */
static void lent_buffers(void) {
    static uint8_t a[RECORD], b[RECORD], c[RECORD];
    message_at(a, 0, 0xFFFFFFFF, NULL, 0), message_at(b, 0, 0x642, NULL, 0), message_at(c, 0, 0x242, NULL, 0);
    begin();
    for (uint32_t type = 1; type <= 3; type++) {
        GIVES(0x04, 0, on->start_filter(BOX, 5, type, a, 535, b, RECORD, c, RECORD, &v));
        GIVES(0x04, 0, on->start_filter(BOX, 5, type, a, RECORD, b, 535, c, RECORD, &v));
        GIVES(0x04, 0, on->start_filter(BOX, 5, type, a, RECORD, b, RECORD, c, 535, &v));
        GIVES(0x02, 0, on->start_filter(BOX, 6, type, a, 0, b, 0, c, 0, &v));
    }
    GIVES(0x04, 0, on->write(BOX, 5, 2, lent, 2 * RECORD - 1, &v));
    GIVES(0x04, 0, on->read(BOX, 5, 3, lent, 3 * RECORD - 1, &v));
    GIVES(0x00, 0, on->read(BOX, 5, 0, lent, 0, &v));
    GIVES(0x10, 0, on->read(BOX, 5, 9, lent, 9 * RECORD, &v));
    CODE(0x04, on->take(BOX, 5, lent, RECORD - 1));
    CODE(0x10, on->take(BOX, 5, lent, RECORD));
    GIVES(0x04, 0, on->start_periodic(BOX, 5, a, 535, 1, &v));
    GIVES(0x01, 0, on->start_periodic(BOX, 5, a, RECORD, 1, &v)); /* whatever else is wrong */
    GIVES(0x02, 0, on->start_periodic(BOX, 8, a, RECORD, 5, &v));
    CODE(0x0D, on->stop_periodic(BOX, 5, 1));
    CODE(0x00, clear(5, 3));
    CODE(0x0F, clear(5, 5));
    CODE(0x0F, clear(5, 0));
    CODE(0x02, take(261));
    CODE(0x02, take(9));
    CODE(0x02, take(0));
    CODE(0x02, take(1));
    message_at(a, 0, 0, NULL, 0), put_word(a, 5);
    GIVES(0x00, 1, connect(0, 5, 0, 500000)); /* a raw channel doesn't look at the third record */
    GIVES(0x00, 1, on->start_filter(BOX, 1, 1, a, RAW_RECORD, a, RAW_RECORD, NULL, 0, &v));
    GIVES(0x16, 0, on->start_filter(BOX, 1, 3, a, RAW_RECORD, a, RAW_RECORD, c, RECORD, &v));
}

/* what a filter may be: whole TxFlags equal, widths that are taken, identifiers in the range of their width */
static void filters(void) {
    static uint8_t a[RECORD], b[RECORD], c[RECORD];
    CODE(0x00, on->power_on(BOX));
    GIVES(0x00, 6, connect(1, 6, 0x900, 250000));
    GIVES(0x00, 1, filter(6, 0xC0, 0x641, 0x241)); /* other bits are ignored if they are equal */
    GIVES(0x0A, 0, filter(6, 0, 0x7FF, 0x800));
    GIVES(0x0A, 0, filter(6, 0, 0x80000642, 0x242));
    GIVES(0x0A, 0, filter(6, 0x100, 0x20000000, 0x242));
    GIVES(0x00, 2, filter(6, 0x100, 0x641, 0x241)); /* wide ones are others */
    CODE(0x00, stop_filter(6, 1));
    GIVES(0x00, 1, filter(6, 0x100, 0x1FFFFFFF, 0x1FFFFFFF)); /* pattern and flow may be equal */
    GIVES(0x18, 0, filter(6, 0x100, 5, 0x1FFFFFFF));
    GIVES(0x0C, 0, filter(6, 0, 0x1, 0x2));
    CODE(0x16, stop_filter(6, 3));
    CODE(0x16, stop_filter(6, 257));
    CODE(0x00, stop_filter(6, 2));
    CODE(0x16, stop_filter(6, 2));
    for (int k = 0; k < 3; k++) {
        uint8_t *all[3] = {a, b, c};
        message_at(a, 0, 0xFFFFFFFF, NULL, 0), message_at(b, 0, 0x642, NULL, 0), message_at(c, 0, 0x242, NULL, 0);
        put_word(all[k] + 16, 5);
        GIVES(0x0A, 0, on->start_filter(BOX, 6, 3, a, RECORD, b, RECORD, c, RECORD, &v));
        put_word(all[k] + 16, 4), put_word(all[k] + 8, 0x40);
        GIVES(0x0A, 0, on->start_filter(BOX, 6, 3, a, RECORD, b, RECORD, c, RECORD, &v));
        put_word(all[k], 5); /* 0x15 before it */
        GIVES(0x15, 0, on->start_filter(BOX, 6, 3, a, RECORD, b, RECORD, c, RECORD, &v));
    }
    CODE(0x00, on->disconnect(BOX, 6));
    GIVES(0x00, 6, connect(1, 6, 0x100, 250000));
    GIVES(0x0A, 0, filter(6, 0, 0x641, 0x241));
    GIVES(0x00, 1, filter(6, 0x100, 0x641, 0x241));
}

/* a functional filter: single frames both ways, messages of many frames only to the partner */
static void functional(void) {
    CODE(0x00, on->power_on(BOX));
    GIVES(0x00, 5, connect(0, 6, 0, 500000));
    GIVES(0x00, 1, filter(5, 0, 0x641, 0x641));
    FRAME(0x10, 0x0E, 1, 2, 3, 4, 5, 6);
    FRAME(0x11, 0xFD, 1, 2, 3, 4, 5, 6);
    NO_TAKE;
    NO_READ;
    FRAME(0x01, 1);
    READS(0, 0, 0x641, 1);
    GIVES(0x00, 1, write(5, 0, 0x641, 8));
    TAKES_OF(0x641, 0x10, 8, 1, 2, 3, 4, 5, 6);
    SENT;
    FRAME(0x30, 0, 0);
    FRAME(0x01, 1); /* not while it sends */
    TAKES_OF(0x641, 0x21, 7, 8);
    SENT;
    TOLD(9, 0, 0x641);
    NO_READ;
}

/* every class of STmin: how long the next frame is held back after a sent */
static void separation(void) {
    static const struct {
        uint8_t stmin;
        uint32_t us;
    } of[] = {{0x00, 0},      {0x01, 1000},   {0x7E, 126000}, {0x7F, 127000}, {0x80, 127000}, {0xF0, 127000}, {0xF1, 100},
              {0xF2, 200},    {0xF5, 500},    {0xF9, 900},    {0xFA, 127000}, {0xFF, 127000}};
    for (size_t i = 0; i < sizeof of / sizeof *of; i++) {
        begin();
        sends_first(27);
        ADVANCE(999999);
        FRAME(0x30, 0, of[i].stmin, 0x55);
        ADVANCE(1000000); /* a frame that may be taken waits for ever */
        TAKES(0x21, 7, 8, 9, 10, 11, 12, 13);
        ADVANCE(1000000); /* in flight too, and STmin begins with the sent */
        SENT;
        if (of[i].us > 0) {
            NO_TAKE;
            ADVANCE(of[i].us - 1);
            NO_TAKE;
            CODE(0x0B, advance(1000001)); /* adds nothing */
            NO_TAKE;
            ADVANCE(1);
        }
        TAKES(0x22, 14, 15, 16, 17, 18, 19, 20);
        SENT;
        if (of[i].us > 0) NO_TAKE;
        ADVANCE(1000000);
        TAKES(0x23, 21, 22, 23, 24, 25, 26, 27);
        SENT;
        GIVES(0x00, 1, read(5, 1));
        NO_READ;
    }
}

/* block sizes: the latest go-on counts; after so many frames the next is awaited, for a second */
static void blocks(void) {
    begin();
    sends_first(LONGEST);
    for (uint8_t k = 1; k <= 3; k++) {
        FRAME(0x30, 1, 0);
        CODE(0x00, take(5));
        MUST(lent[28] == (0x20 | k));
        SENT;
        NO_TAKE;
        ADVANCE(999999);
    }
    FRAME(0x30, 255, 0); /* the rest is 69 frames */
    for (uint8_t k = 4; k <= 72; k++) {
        CODE(0x00, take(5));
        MUST(lent[28] == (0x20 | (k & 15)));
        SENT;
    }
    TOLD(9, 2999997, 0x241);
    sends_first(20); /* two more: the block ends with the message */
    FRAME(0x30, 2, 0);
    TAKES(0x21, 7, 8, 9, 10, 11, 12, 13);
    SENT;
    TAKES(0x22, 14, 15, 16, 17, 18, 19, 20);
    SENT;
    TOLD(9, 2999997, 0x241);
    sends_first(20);
    FRAME(0x30, 1, 0);
    TAKES(0x21, 7, 8, 9, 10, 11, 12, 13);
    SENT;
    ADVANCE(1000000); /* too late */
    FRAME(0x30, 0, 0);
    NO_TAKE;
    NO_READ;
}

/* flow frames: early ones, short ones, waits, and all that end the transmission */
static void flow_status(void) {
    begin();
    GIVES(0x00, 1, write(5, 0, 0x241, 8));
    GIVES(0x00, 1, write(5, 0, 0x123, 1));
    TAKES(0x10, 8, 1, 2, 3, 4, 5, 6);
    FRAME(0x30, 0, 0); /* while the frame is still in flight */
    FRAME(0x32, 0, 0);
    SENT;
    NO_TAKE;
    FRAME(0x30, 0);
    FRAME(0x30);
    FRAME(0x32, 0);
    NO_TAKE;
    for (int i = 0; i < 300; i++) {
        ADVANCE(999999);
        FRAME(0x31, 0, 0);
    }
    ADVANCE(999999);
    FRAME(0x30, 0, 0);
    TAKES(0x21, 7, 8);
    SENT;
    TAKES_OF(0x123, 1, 1); /* written behind it */
    SENT;
    GIVES(0x00, 2, read(5, 2));
    for (uint8_t status = 2; status <= 15; status++) {
        sends_first(8);
        FRAME((uint8_t)(0x30 | status), 0, 0);
        FRAME(0x30, 0, 0);
        NO_TAKE;
        NO_READ;
    }
    sends_first(8);
    ADVANCE(999999);
    ADVANCE(1);
    FRAME(0x30, 0, 0);
    NO_TAKE;
    NO_READ;
}

/* single frames that are none, and consecutive and first ones that are ignored */
static void ignored(void) {
    begin();
    CODE(0x00, on->frame(BOX, 0, 0, 0x641, NULL, 0));
    FRAME(0x00, 1);
    FRAME(0x01);
    FRAME(0x08, 1, 2, 3, 4, 5, 6, 7);
    FRAME(0x0F, 1, 2, 3, 4, 5, 6, 7);
    FRAME(0x07, 1, 2, 3, 4, 5, 6);
    FRAME(0x10, 0x0E, 1, 2, 3, 4, 5);
    FRAME(0x10, 0x07, 1, 2, 3, 4, 5, 6);
    FRAME(0x10, 0x00, 1, 2, 3, 4, 5, 6);
    FRAME(0x21, 1, 2, 3, 4, 5, 6, 7);
    FRAME(0x30, 0, 0);
    for (uint8_t pci = 0x40; pci != 0; pci = (uint8_t)(pci + 0x10)) FRAME(pci, 0, 0);
    CODE(0x00, on->frame(BOX, 0, 1, 0x641, LIST(1, 1)));
    CODE(0x00, on->frame(BOX, 1, 0, 0x641, LIST(1, 1)));
    CODE(0x00, on->frame(BOX, 0, 0, 0x241, LIST(1, 1)));
    CODE(0x0A, on->frame(BOX, 0, 2, 0x641, LIST(1, 1)));
    CODE(0x0A, on->frame(BOX, 0, 0, 0x800, LIST(1, 1)));
    CODE(0x0A, on->frame(BOX, 0, 0, 0x641, up, 9));
    CODE(0x13, on->frame(BOX, 4, 0, 0x641, up, 9));
    NO_TAKE;
    NO_READ;
    FRAME(0x01, 1, 0xAA, 0xAA, 0xAA, 0xAA, 0xAA, 0xAA);
    READS(0, 0, 0x641, 1);
    FRAME(0x07, 1, 2, 3, 4, 5, 6, 7);
    READS_UP(0, 0, 0x641, 7);
}

/* what an unfinished reception bears, and what ends it */
static void receptions(void) {
    begin();
    FRAME(0x10, 14, 1, 2, 3, 4, 5, 6);
    ADVANCE(999999);
    FRAME(0x22, 7, 8, 9, 10, 11, 12);        /* too few bytes, before the number; the second runs on */
    FRAME(0x10, 7, 0, 0, 0, 0, 0, 0);        /* no first frame */
    FRAME(0x08, 0, 0, 0, 0, 0, 0, 0);        /* no single one */
    FRAME(0x30, 0, 0);
    FRAME(0x21, 7, 8, 9, 10, 11, 12, 13);    /* in time, before the go-on was taken */
    ADVANCE(999999);
    FRAME(0x22);                             /* one is missing */
    FRAME(0x22, 14);
    NO_TAKE;                                 /* the go-on is withdrawn */
    TOLD(2, 0, 0x641);
    READS_UP(0, 1999998, 0x641, 14);

    FRAME(0x10, 14, 1, 2, 3, 4, 5, 6);
    FRAME(0x22, 7, 8, 9, 10, 11, 12, 13);    /* a wrong number */
    FRAME(0x21, 7, 8, 9, 10, 11, 12, 13);
    NO_TAKE;
    TOLD(2, 1999998, 0x641);
    NO_READ;

    FRAME(0x10, 14, 9, 9, 9, 9, 9, 9);
    FRAME(0x10, 8, 1, 2, 3, 4, 5, 6);        /* replaced */
    TAKES(0x30, 0, 0);
    FRAME(0x10, 9, 1, 2, 3, 4, 5, 6);        /* with the go-on in flight: another follows */
    ADVANCE(600000);
    SENT;                                    /* starts nothing */
    ADVANCE(399999);
    TAKES(0x30, 0, 0);
    SENT;
    NO_TAKE;
    ADVANCE(999999);
    FRAME(0x21, 7, 8, 9);
    for (int i = 0; i < 3; i++) TOLD(2, 1999998, 0x641);
    READS_UP(0, 3999996, 0x641, 9);

    FRAME(0x10, 8, 1, 2, 3, 4, 5, 6);
    TAKES(0x30, 0, 0);
    FRAME(0x02, 1, 2);                       /* a single one ends it; the go-on stays in flight */
    TAKES(0x30, 0, 0);
    FRAME(0x21, 7, 8);
    SENT;
    TOLD(2, 3999996, 0x641);
    READS_UP(0, 3999996, 0x641, 2);
    NO_READ;

    FRAME(0x10, 8, 1, 2, 3, 4, 5, 6);
    ADVANCE(1000000);
    NO_TAKE;                                 /* gone with its go-on */
    FRAME(0x10, 8, 1, 2, 3, 4, 5, 6);
    TAKES(0x30, 0, 0);
    ADVANCE(1000000);
    TAKES(0x30, 0, 0);                       /* in flight it stays */
    FRAME(0x10, 8, 1, 2, 3, 4, 5, 6);
    ADVANCE(999999);
    SENT;
    ADVANCE(1);                              /* its sent started nothing anew */
    NO_TAKE;
    FRAME(0x21, 7, 8);
    for (int i = 0; i < 3; i++) GIVES(0x00, 1, read(5, 1));
    NO_READ;
}

/* overflow: stays until taken or until a new first frame, and needs no reception */
static void overflow(void) {
    begin();
    FRAME(0x10, 14, 1, 2, 3, 4, 5, 6);
    FRAME(0x1F, 0xFF, 1, 2, 3, 4, 5, 6);
    FRAME(0x21, 7, 8, 9, 10, 11, 12, 13);
    FRAME(0x01, 1);
    ADVANCE(1000000);
    TAKES(0x32, 0, 0);
    SENT;
    NO_TAKE;
    TOLD(2, 0, 0x641);
    READS(0, 0, 0x641, 1);
    NO_READ;
    FRAME(0x11, 0xFD, 1, 2, 3, 4, 5, 6);
    FRAME(0x11, 0xFC, 1, 2, 3, 4, 5, 6);     /* 508 is not too long, and its answer is the one */
    TAKES(0x30, 0, 0);
    SENT;
    NO_TAKE;
    FRAME(0x11, 0xFD, 1, 2, 3, 4, 5, 6);
    GIVES(0x00, 1, write(5, 0, 0x241, 8));
    TAKES(0x32, 0, 0);                       /* before the message for the same partner */
    FRAME(0x11, 0xFD, 1, 2, 3, 4, 5, 6);     /* and another */
    SENT;
    TAKES(0x32, 0, 0);
    SENT;
    TAKES(0x10, 8, 1, 2, 3, 4, 5, 6);
}

/* a message for a conversation that receives waits, and those behind it; single ones don't */
static void waiting(void) {
    begin();
    GIVES(0x00, 2, filter(5, 0, 0x642, 0x242));
    FRAME(0x10, 8, 1, 2, 3, 4, 5, 6);
    GIVES(0x00, 1, write(5, 0, 0x241, 1));
    GIVES(0x00, 1, write(5, 0, 0x241, 8));
    GIVES(0x00, 1, write(5, 0, 0x242, 8));
    TAKES(0x30, 0, 0);
    SENT;
    TAKES(1, 1);
    SENT;
    NO_TAKE;
    FRAME(0x21, 7, 8);
    TAKES(0x10, 8, 1, 2, 3, 4, 5, 6);
    OTHER(0x10, 8, 1, 2, 3, 4, 5, 6);        /* the other conversation isn't touched */
    FRAME(0x10, 8, 1, 2, 3, 4, 5, 6);        /* this one ignores it */
    SENT;
    TAKES_OF(0x242, 0x30, 0, 0);
    SENT;
    NO_TAKE;
    FRAME(0x30, 0, 0);
    TAKES(0x21, 7, 8);
    SENT;
    NO_TAKE;                                 /* the third waits for the other reception */
    OTHER(0x02, 1, 2);
    TAKES_OF(0x242, 0x10, 8, 1, 2, 3, 4, 5, 6);
    SENT;
    ADVANCE(1000000);
    NO_TAKE;
    TOLD(2, 0, 0x641), TOLD(9, 0, 0x241), READS_UP(0, 0, 0x641, 8), TOLD(2, 0, 0x642), TOLD(9, 0, 0x241), READS_UP(0, 0, 0x642, 2);
    NO_READ;
}

/* flow frames first, by the number of the filter and not by age */
static void answers_first(void) {
    begin();
    GIVES(0x00, 2, filter(5, 0, 0x642, 0x242));
    GIVES(0x00, 1, write(5, 0, 0x123, 1));
    OTHER(0x11, 0xFD, 1, 2, 3, 4, 5, 6);
    FRAME(0x10, 8, 1, 2, 3, 4, 5, 6);
    TAKES(0x30, 0, 0);
    SENT;
    TAKES_OF(0x242, 0x32, 0, 0);
    SENT;
    TAKES_OF(0x123, 1, 1);
    CODE(0x00, clear(5, 1));
    TAKES_OF(0x123, 1, 1); /* the flight stays */
    SENT;
    CODE(0x07, sent(5));
    TOLD(2, 0, 0x641);
    TOLD(9, 0, 0x123);
}

/* the filter goes: in each state of a transmission, of a reception, and with a single frame in flight */
static void filter_goes(void) {
    for (uint32_t how = 1; how <= 2; how++) {
#define GO CODE(0x00, how == 1 ? stop_filter(5, 1) : clear(5, 4))
#define BACK GIVES(0x00, 1, filter(5, 0, 0x641, 0x241))
        begin();
        GIVES(0x00, 1, write(5, 0, 0x241, 8));
        TAKES(0x10, 8, 1, 2, 3, 4, 5, 6);
        GO;
        TAKES(0x10, 8, 1, 2, 3, 4, 5, 6); /* the flight stays */
        BACK;
        SENT; /* of nothing any more */
        FRAME(0x30, 0, 0);
        NO_TAKE;
        sends_first(8);
        GO;
        BACK;
        FRAME(0x30, 0, 0);
        NO_TAKE;
        sends_first(8);
        FRAME(0x30, 0, 0);
        GO;
        NO_TAKE;
        BACK;
        sends_first(8);
        FRAME(0x30, 0, 0);
        TAKES(0x21, 7, 8);
        GO;
        SENT; /* the last frame, and no TxDone */
        NO_READ;
        BACK;
        GIVES(0x00, 1, write(5, 0, 0x241, 1));
        TAKES(1, 1);
        GO;
        SENT; /* a single one is its message's */
        TOLD(9, 0, 0x241);
        BACK;
        FRAME(0x10, 8, 1, 2, 3, 4, 5, 6);
        GO;
        NO_TAKE;
        BACK;
        FRAME(0x21, 7, 8);
        FRAME(0x11, 0xFD, 1, 2, 3, 4, 5, 6);
        GO;
        BACK;
        NO_TAKE;
        FRAME(0x10, 8, 1, 2, 3, 4, 5, 6);
        TAKES(0x30, 0, 0);
        GO;
        BACK;
        FRAME(0x10, 8, 1, 2, 3, 4, 5, 6);
        ADVANCE(999999);
        SENT; /* of the reception before */
        ADVANCE(1);
        FRAME(0x21, 7, 8);
        TOLD(2, 0, 0x641), TOLD(2, 0, 0x641), TOLD(2, 0, 0x641);
        NO_READ;
        GIVES(0x00, 1, write(5, 0, 0x241, 8)); /* written with a filter that is gone when its turn comes */
        GIVES(0x00, 1, write(5, 0, 0x123, 1));
        GO;
        NO_TAKE;
        GIVES(0x17, 0, write(5, 0, 0x241, 8));
        GIVES(0x00, 1, filter(5, 0, 0x644, 0x241)); /* another that matches */
        TAKES(0x10, 8, 1, 2, 3, 4, 5, 6);
        GO;
        SENT;
        TAKES_OF(0x123, 1, 1);
#undef GO
#undef BACK
    }
}

/* eight records for reading, each for itself; four written ones beside the one under way */
static void full(void) {
    begin();
    CODE(0x00, set(5, 3, 1));
    for (int i = 0; i < 7; i++) FRAME(0x01, 1);
    GIVES(0x00, 1, write(5, 0, 0x241, 8));
    TAKES(0x10, 8, 1, 2, 3, 4, 5, 6);
    for (int i = 0; i < 4; i++) GIVES(0x00, 1, write(5, 0, 0x241, 1));
    GIVES(0x11, 0, write(5, 0, 0x241, 1));
    SENT;
    FRAME(0x30, 0, 0);
    TAKES(0x21, 7, 8);
    SENT; /* TxDone finds the last place, the loopback none */
    GIVES(0x12, 8, read(5, 8));
    MUST(is_record(lent + 7 * RECORD, 9, 0, 0, 0x241, NULL, 0));
    NO_READ;
    for (int i = 0; i < 8; i++) FRAME(0x01, 1);
    FRAME(0x10, 8, 1, 2, 3, 4, 5, 6); /* its RxStart is lost, its message isn't */
    TAKES(0x30, 0, 0);
    GIVES(0x12, 1, read(5, 1));
    FRAME(0x21, 7, 8);
    GIVES(0x09, 8, read(5, 9));
    MUST(is_record(lent + 7 * RECORD, 0, 0, 0, 0x641, up, 8));
    for (int i = 0; i < 9; i++) FRAME(0x01, 1);
    CODE(0x00, clear(5, 2)); /* the mark goes too */
    NO_READ;
}

/* loopback is looked at when the last frame is sent */
static void loopback(void) {
    begin();
    sends_first(8);
    FRAME(0x30, 0, 0);
    TAKES(0x21, 7, 8);
    CODE(0x00, set(5, 3, 1));
    SENT;
    TOLD(9, 0, 0x241);
    READS_UP(1, 0, 0x241, 8);
    GIVES(0x00, 1, write(5, 0, 0x641, 7)); /* a single one may have any identifier */
    TAKES_OF(0x641, 7, 1, 2, 3, 4, 5, 6, 7);
    CODE(0x00, set(5, 3, 0));
    SENT;
    TOLD(9, 0, 0x641);
    NO_READ;
}

/* wide conversations beside narrow ones of the same number */
static void widths(void) {
    CODE(0x00, on->power_on(BOX));
    GIVES(0x00, 5, connect(0, 6, 0x800, 500000));
    GIVES(0x00, 1, filter(5, 0, 0x641, 0x241));
    GIVES(0x17, 0, write(5, 0x100, 0x241, 8));
    GIVES(0x00, 2, filter(5, 0x100, 0x641, 0x241));
    GIVES(0x00, 1, write(5, 0x1C0, 0x241, 8));
    CODE(0x00, set(5, 3, 1));
    CODE(0x00, take(5));
    MUST(is_record(lent, 0, 256, 0, 0x241, LIST(0x10, 8, 1, 2, 3, 4, 5, 6)));
    SENT;
    FRAME(0x30, 0, 0); /* the narrow partner's */
    NO_TAKE;
    CODE(0x00, on->frame(BOX, 0, 1, 0x641, LIST(0x30, 0, 0)));
    CODE(0x00, take(5));
    MUST(is_record(lent, 0, 256, 0, 0x241, LIST(0x21, 7, 8)));
    SENT;
    CODE(0x00, on->frame(BOX, 0, 1, 0x641, LIST(0x10, 8, 1, 2, 3, 4, 5, 6)));
    CODE(0x00, take(5));
    MUST(is_record(lent, 0, 256, 0, 0x241, LIST(0x30, 0, 0)));
    FRAME(0x01, 1);
    CODE(0x00, on->frame(BOX, 0, 1, 0x641, LIST(0x21, 7, 8)));
    GIVES(0x09, 5, read(5, 6));
    MUST(is_record(lent, 265, 0, 0, 0x241, NULL, 0) && is_record(lent + RECORD, 257, 0, 0, 0x241, up, 8));
    MUST(is_record(lent + 2 * RECORD, 258, 0, 0, 0x641, NULL, 0) && is_record(lent + 3 * RECORD, 0, 0, 0, 0x641, up, 1));
    MUST(is_record(lent + 4 * RECORD, 256, 0, 0, 0x641, up, 8));
}

/* beside raw channels: each line has both, each its own; 125,000; the last codes; lists */
static void beside(void) {
    static uint8_t every[RAW_RECORD];
    struct twin_pair list[3] = {{3, 1}, {1, 250000}, {0x1E, 0}}, asked[2] = {{1, 7}, {3, 8}}, many[17];
    memset(many, 0, sizeof many);
    record_at(every, RAW_RECORD, 5, 0, 0, 0, 0, 0, NULL, 0);
    put_word(every + 16, 1);
    CODE(0x00, on->power_on(BOX));
    for (uint32_t line = 0; line < 4; line++) {
        GIVES(0x00, line + 5, connect(line, 6, 0, 250000));
        GIVES(0x00, line + 1, connect(line, 5, 0, 500000));
        GIVES(0x00, 1, on->start_filter(BOX, line + 1, 1, every, sizeof every, every, sizeof every, NULL, 0, &v));
        GIVES(0x00, 1, filter(line + 5, 0, 0x641, 0x241));
    }
    GIVES(0x03, 0, connect(0, 0x106, 0, 1));
    GIVES(0x06, 0, connect(9, 6, 1, 1));
    GIVES(0x06, 0, connect(9, 6, 0x10000000, 1)); /* raw CAN's alone */
    GIVES(0x06, 0, connect(0, 6, 0x10000800, 500000));
    GIVES(0x19, 0, connect(9, 6, 0, 125000)); /* retired here too */
    GIVES(0x13, 0, connect(4, 6, 0, 250000));
    GIVES(0x14, 0, connect(3, 6, 0, 250000));
    GIVES(0x00, 0x14, last(8));
    GIVES(0x00, 0, last(4));
    GIVES(0x00, 0, last(5)); /* none of the others is kept */
    CODE(0x00, on->frame(BOX, 2, 0, 0x641, LIST(0x02, 1, 2)));
    for (uint32_t channel = 1; channel <= 8; channel++) GIVES(channel % 4 == 3 ? 0x00 : 0x10, channel % 4 == 3, read(channel, 1));
    MUST(is_record(lent, 0, 0, 0, 0x641, up, 2)); /* of channel 7; channel 8 has left the buffer */
    GIVES(0x00, 0x10, last(5));
    CODE(0x01, on->set_list(BOX, 5, list, 3));
    GIVES(0x00, 0x01, last(5));
    CODE(0x00, on->get_list(BOX, 5, asked, 2));
    MUST(asked[0].value == 250000 && asked[1].value == 1);
    CODE(0x04, on->get_list(BOX, 5, many, 17));
    GIVES(0x00, 0x04, last(5));
    CODE(0x02, on->get_list(BOX, 9, many, 17));
    CODE(0x05, set(5, 1, 125000));
    CODE(0x05, set(5, 3, 2));
    CODE(0x01, set(5, 0x22, 0));
    GIVES(0x00, 0, get(1, 3)); /* the raw channel has its own */
    CODE(0x00, on->disconnect(BOX, 5));
    CODE(0x02, on->disconnect(BOX, 5));
    GIVES(0x02, 0, last(5));
    GIVES(0x00, 500000, get(1, 1));
    GIVES(0x00, 5, connect(0, 6, 0x100, 500000));
    GIVES(0x00, 0, last(5));
    CODE(0x00, on->close(BOX));
    for (uint32_t channel = 1; channel <= 8; channel++) CODE(0x02, take(channel));
    CODE(0x1A, on->take(box, on->memory - 1, 5, lent, sizeof lent));
}

/* a second that runs over the end of the clock */
static void wrap(void) {
    begin();
    for (int i = 0; i < 4294; i++) ADVANCE(1000000);
    FRAME(0x10, 14, 1, 2, 3, 4, 5, 6);
    ADVANCE(999999);
    FRAME(0x21, 7, 8, 9, 10, 11, 12, 13);
    ADVANCE(32704); /* 4,295,032,703 in all */
    FRAME(0x22, 14);
    TOLD(2, 4294000000u, 0x641);
    READS_UP(0, 65407, 0x641, 14);
    sends_first(8);
    ADVANCE(1000000);
    FRAME(0x30, 0, 0);
    NO_TAKE;
}

/* ---- which regions are valid: one byte or number other than it may be, in states that were reached ---- */

static uint8_t *at(size_t place) { return box + on->regions + place; } /* of channel 5 */

static void no_byte(size_t place, uint8_t value, int line) {
    uint8_t was = *at(place);
    *at(place) = value;
    must(!on->valid(BOX), "a byte that may not be", line);
    *at(place) = was;
    must(on->valid(BOX), "as it was", line);
}

static void number(size_t place, uint32_t value, int good, int line) {
    uint32_t was = word(at(place));
    put_word(at(place), value);
    must(on->valid(BOX) == good, good ? "a number that may be" : "a number that may not be", line);
    put_word(at(place), was);
}

#define NO_BYTE(place, value) no_byte(place, value, __LINE__)
#define NO_NUMBER(place, value) number(place, value, 0, __LINE__)
#define A_NUMBER(place, value) number(place, value, 1, __LINE__)

enum { T = 10, KIND = T + 10, N = KIND + 1, TIME = N + 4, LEFT = TIME + 4, GAP = LEFT + 4, ASKED = GAP + 4, COUNT = ASKED + 1, PAYLOAD = COUNT + 4,
       T2 = T + 540, OUT = 1090, FLY = 3235, OWNER = FLY + 1, FLIGHT = OWNER + 1, IN = 3773, LOST = 8062, LAST = 8063 };

static void valid_records(void) {
    begin();
    CODE(0x00, set(5, 3, 1));
    GIVES(0x00, 1, write(5, 0, 0x241, 1));
    FRAME(0x01, 1);
    FRAME(0x10, 8, 1, 2, 3, 4, 5, 6);
    TAKES(0x30, 0, 0);
    for (size_t place = 0; place < on->region; place += 7) { /* a closed region is zeros */
        box[on->regions + on->region + place] = 1;
        MUST(!on->valid(BOX));
        box[on->regions + on->region + place] = 0;
    }
    NO_BYTE(0, 0), NO_BYTE(0, 2), NO_BYTE(1, 1), NO_NUMBER(1, 0x200), NO_NUMBER(1, 0x100), A_NUMBER(1, 0x800), A_NUMBER(1, 0x900);
    NO_NUMBER(5, 0), A_NUMBER(5, 125000), NO_NUMBER(5, 125001), NO_BYTE(9, 2), NO_BYTE(LOST, 2);
    for (unsigned code = 0; code < 256; code++) {
        static const uint8_t good[] = {0, 1, 4, 5, 7, 9, 0x0A, 0x0C, 0x0D, 0x0F, 0x10, 0x11, 0x12, 0x14, 0x15, 0x16, 0x17, 0x18};
        if (!memchr(good, (int)code, sizeof good)) NO_BYTE(LAST, (uint8_t)code);
    }
    NO_BYTE(OUT, 0), NO_BYTE(OUT, 2), NO_BYTE(OUT, 5);
    NO_NUMBER(OUT + 1, 5), NO_NUMBER(OUT + 5, 1), NO_NUMBER(OUT + 9, 1), NO_NUMBER(OUT + 9, 256), NO_NUMBER(OUT + 13, 1);
    NO_NUMBER(OUT + 17, 4), NO_NUMBER(OUT + 17, 6), NO_NUMBER(OUT + 21, 0), NO_BYTE(OUT + 25, 1), NO_BYTE(OUT + 27, 8), NO_BYTE(OUT + 30, 1);
    NO_BYTE(OUT + 1 + 535, 1), NO_BYTE(OUT + 1 + 536, 1), NO_BYTE(OUT + 4 * 536, 1);
    NO_BYTE(IN, 1), NO_BYTE(IN, 3), NO_BYTE(IN, 9); /* a single message, then RxStart */
    NO_NUMBER(IN + 5, 2), A_NUMBER(IN + 5, 1), NO_NUMBER(IN + 5, 9), NO_NUMBER(IN + 5, 256), NO_NUMBER(IN + 5, 3), NO_NUMBER(IN + 9, 256);
    A_NUMBER(IN + 13, 0xFFFFFFFF), NO_NUMBER(IN + 17, 4), NO_NUMBER(IN + 21, 0);
    A_NUMBER(IN + 536 + 5, 9), NO_NUMBER(IN + 536 + 5, 0), NO_NUMBER(IN + 536 + 5, 8), NO_NUMBER(IN + 536 + 21, 4), NO_NUMBER(IN + 536 + 17, 5);
    NO_BYTE(IN + 8 * 536, 1), NO_BYTE(IN + 536 + 29, 1);
    NO_BYTE(FLY, 0), NO_BYTE(FLY, 2), NO_BYTE(OWNER, 1), NO_BYTE(OWNER, 3), NO_BYTE(OWNER, 4), NO_NUMBER(FLIGHT, 5), NO_NUMBER(FLIGHT + 12, 1);
    NO_NUMBER(FLIGHT + 16, 4), NO_NUMBER(FLIGHT + 16, 13), NO_NUMBER(FLIGHT + 8, 256);
    MUST(*at(OWNER) == 2 && *at(ASKED) == 0);
    *at(OWNER) = 0; /* validity isn't reachability: the go-on may be of nothing any more */
    MUST(on->valid(BOX));
    SENT;
    TAKES(1, 1);
    MUST(*at(OWNER) == 1);
    NO_BYTE(OWNER, 3), NO_BYTE(FLIGHT + 28, 2), NO_NUMBER(FLIGHT + 16, 5);
}

static void valid_talks(void) {
    begin();
    GIVES(0x00, 2, filter(5, 0, 0x642, 0x242));
    NO_BYTE(T, 0), NO_BYTE(T, 2), NO_BYTE(T + 1, 1), NO_BYTE(T + 1, 2), NO_NUMBER(T + 2, 0x800), NO_NUMBER(T + 6, 0x800);
    NO_NUMBER(T + 2, 0x642), NO_NUMBER(T + 2, 0x242), NO_NUMBER(T + 6, 0x642), NO_NUMBER(T + 6, 0x242), A_NUMBER(T + 6, 0x641);
    NO_NUMBER(N, 6), NO_NUMBER(TIME, 1), NO_NUMBER(LEFT, 1), NO_NUMBER(GAP, 100), NO_BYTE(ASKED, 1), NO_NUMBER(COUNT, 6), NO_BYTE(PAYLOAD, 1);
    NO_BYTE(KIND, 2), NO_BYTE(KIND, 3), NO_BYTE(KIND, 4), NO_BYTE(KIND, 5), NO_BYTE(KIND, 6), NO_BYTE(KIND, 7);

    FRAME(0x11, 0xFD, 1, 2, 3, 4, 5, 6);
    MUST(*at(KIND) == 1);
    NO_NUMBER(T + 6, 0x641), NO_NUMBER(TIME, 1);

    FRAME(0x10, 15, 1, 2, 3, 4, 5, 6);
    FRAME(0x21, 7, 8, 9, 10, 11, 12, 13);
    MUST(*at(KIND) == 2 && *at(ASKED) == 1 && word(at(N)) == 15 && word(at(COUNT)) == 13);
    NO_NUMBER(N, 13), A_NUMBER(N, 14), A_NUMBER(N, 508), NO_NUMBER(N, 509), A_NUMBER(TIME, 999999), NO_NUMBER(TIME, 1000000), NO_NUMBER(LEFT, 1);
    NO_NUMBER(GAP, 100), NO_BYTE(ASKED, 2), NO_NUMBER(COUNT, 14), NO_NUMBER(COUNT, 6), NO_BYTE(PAYLOAD + 13, 1), NO_NUMBER(T + 6, 0x641);
    TAKES(0x30, 0, 0);
    NO_BYTE(ASKED, 1); /* not while it is in flight */
    SENT;
    FRAME(0x21, 0, 0, 0, 0, 0, 0, 0);
    MUST(*at(KIND) == 0);

    GIVES(0x00, 1, write(5, 0, 0x241, 14));
    TAKES(0x10, 14, 1, 2, 3, 4, 5, 6);
    MUST(*at(KIND) == 3 && word(at(N)) == 6 && word(at(COUNT)) == 14 && *at(OWNER) == 2);
    NO_NUMBER(N, 13), NO_NUMBER(TIME, 1), NO_NUMBER(LEFT, 1), NO_NUMBER(GAP, 100), NO_NUMBER(COUNT, 13), NO_NUMBER(COUNT, 7), NO_BYTE(OWNER, 0);
    NO_BYTE(ASKED, 1), A_NUMBER(T + 6, 0x641);
    SENT;
    MUST(*at(KIND) == 4);
    A_NUMBER(N, 13), NO_NUMBER(N, 20), NO_NUMBER(N, 7), A_NUMBER(TIME, 999999), NO_NUMBER(TIME, 1000000), NO_NUMBER(LEFT, 1), NO_NUMBER(GAP, 100);
    NO_NUMBER(COUNT, 509);
    memcpy(at(T2 + 10), at(KIND), 530); /* two transmit */
    MUST(!on->valid(BOX));
    memset(at(T2 + 10), 0, 530);
    memset(at(PAYLOAD), 0, 14);
    A_NUMBER(COUNT, 8), NO_NUMBER(COUNT, 7);
    for (uint8_t i = 0; i < 14; i++) *at(PAYLOAD + i) = (uint8_t)(i + 1);
    FRAME(0x30, 5, 0xF3);
    MUST(*at(KIND) == 6 && word(at(LEFT)) == 5 && word(at(GAP)) == 300);
    A_NUMBER(LEFT, 255), NO_NUMBER(LEFT, 256), A_NUMBER(LEFT, 0), A_NUMBER(TIME, 300), NO_NUMBER(TIME, 301);
    A_NUMBER(GAP, 0), A_NUMBER(GAP, 900), NO_NUMBER(GAP, 950), A_NUMBER(GAP, 127000), NO_NUMBER(GAP, 128000), NO_NUMBER(GAP, 1100);
    A_NUMBER(N, 13), NO_NUMBER(N, 20);
    TAKES(0x21, 7, 8, 9, 10, 11, 12, 13);
    SENT;
    ADVANCE(300);
    TAKES(0x22, 14);
    MUST(*at(KIND) == 5 && word(at(N)) == 20 && word(at(LEFT)) == 4);
    NO_NUMBER(N, 6), A_NUMBER(N, 13), NO_NUMBER(N, 27), NO_NUMBER(N, 19), NO_NUMBER(TIME, 1), A_NUMBER(GAP, 127000), NO_NUMBER(GAP, 950);
    NO_BYTE(OWNER, 0), NO_BYTE(OWNER, 1), NO_BYTE(OWNER, 3), NO_NUMBER(LEFT, 256);
}

int main(void) {
    void (*const stories[])(void) = {example_1, example_2, example_3, example_4, example_5,     example_6, example_7, example_8, lent_buffers,
                                     filters,   functional, separation, blocks, flow_status, ignored,   receptions, overflow,  waiting,
                                     answers_first, filter_goes, full,  loopback, widths,     beside,    wrap,      valid_records, valid_talks};
    for (size_t i = 0; i < LONGEST; i++) up[i] = (uint8_t)(i + 1);
    for (const side *const *s = sides; *s; s++)
        for (size_t i = 0; i < sizeof stories / sizeof *stories; i++) on = *s, stories[i]();
    printf("stories of ISO 15765 channels worked out by hand: %lu looks\n", looks);
    return 0;
}
