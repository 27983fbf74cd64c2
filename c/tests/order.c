/* The codes of each call in the order of the header: a call with everything wrong, then with one thing after another put right. Each refusal must
 * leave the memory but for the last code of its channel, and the number must be 0. */
#include <stdio.h>
#include <string.h>

#define TRAWL_NO_J2534_NAMES
#include "../../include/trawlpepper.h"
#include "support.h"

enum { NARROW = 1, WIDE = 2, BOTH = 3, CLOSED = 4, TALKS = 5, WIDE_TALKS = 6, SHUT = 8, NONE = 9 }; /* channels, and a number that is none */

static uint8_t box[TRAWL_MEMORY], broken[TRAWL_MEMORY], before[TRAWL_MEMORY];
static uint32_t number;
static unsigned long held;

static void must(int true_, const char *what) {
    if (!true_) fail(what, NULL, held);
    held++;
}

/* the call has this code; where that is a refusal the memory stays and the number is 0 */
#define GIVES(code, call)                                                                                                                 \
    do {                                                                                                                                  \
        uint32_t given;                                                                                                                   \
        memcpy(before, box, sizeof box);                                                                                                  \
        number = 0;                                                                                                                       \
        given = (call);                                                                                                                   \
        must(given == (code), #code " of " #call);                                                                                        \
        if (given != 0x00 && given != 0x09 && given != 0x12 && number == 0) must(memcmp(before, box, sizeof box) == 0, "stays: " #call);  \
        if (given != 0x00 && given != 0x09 && given != 0x12 && given != 0x11) must(number == 0, "no number: " #call);                     \
    } while (0)

/* the last code of an open channel */
static uint32_t last(uint32_t channel) {
    uint32_t code = 77;
    must(trawl_last_error(box, sizeof box, channel, &code) == 0x00, "asked for the last code");
    return code;
}

/* the same of a call on an open channel: its code, unless it is 0x00, is then the last one there, and that is all that a refusal changes */
#define NOTES(channel, code, call)                                                                                                        \
    do {                                                                                                                                  \
        uint32_t given, was = last(channel);                                                                                              \
        memcpy(before, box, sizeof box);                                                                                                  \
        number = 0;                                                                                                                       \
        given = (call);                                                                                                                   \
        must(given == (code), #code " of " #call);                                                                                        \
        must(last(channel) == ((code) != 0x00 ? (code) : was), "last code: " #call);                                                      \
        before[last_of(channel)] = box[last_of(channel)];                                                                                 \
        if (given != 0x00 && given != 0x09 && given != 0x12 && number == 0) must(memcmp(before, box, sizeof box) == 0, "stays: " #call);  \
        if (given != 0x00 && given != 0x09 && given != 0x12 && given != 0x11) must(number == 0, "no number: " #call);                     \
    } while (0)

#define BOX box, sizeof box
#define BROKEN broken, sizeof broken
#define SHORT box, sizeof box - 1
#define R(r) r, sizeof r

static void open_all(void) {
    GIVES(0x00, trawl_power_on(BOX));
    GIVES(0x00, trawl_connect(BOX, 0, 5, 0, 500000, &number));
    GIVES(0x00, trawl_connect(BOX, 1, 5, 0x100, 250000, &number));
    GIVES(0x00, trawl_connect(BOX, 2, 5, 0x900, 250000, &number));
    GIVES(0x00, trawl_connect(BOX, 0, 6, 0, 250000, &number));
    must(number == TALKS, "the number of an ISO 15765 channel");
    GIVES(0x00, trawl_connect(BOX, 1, 6, 0x100, 500000, &number));
    memcpy(broken, box, sizeof box);
    broken[4] = 2; /* a mark that is neither 0 nor 1 */
    must(!trawl_valid(BROKEN) && !trawl_valid(SHORT) && trawl_valid(BOX), "valid");
}

static void lines(void) {
    static const uint8_t data[9] = {0};
    GIVES(0x1A, trawl_power_on(SHORT));
    GIVES(0x1A, trawl_close(BROKEN));
    GIVES(0x1A, trawl_close(SHORT));
    GIVES(0x1A, trawl_connect(BROKEN, 9, 7, 1, 1, &number));
    GIVES(0x1A, trawl_connect(SHORT, 9, 7, 1, 1, &number));
    GIVES(0x03, trawl_connect(BOX, 9, 7, 1, 1, &number));
    GIVES(0x03, trawl_connect(BOX, 9, 0x106, 1, 1, &number));
    GIVES(0x06, trawl_connect(BOX, 9, 5, 0x901, 1, &number));
    GIVES(0x19, trawl_connect(BOX, 9, 5, 0x900, 500001, &number));
    GIVES(0x19, trawl_connect(BOX, 0, 5, 0x900, 500001, &number)); /* before 0x14 */
    GIVES(0x06, trawl_connect(BOX, 9, 5, 0x901, 125000, &number));
    GIVES(0x19, trawl_connect(BOX, 9, 5, 0x900, 125000, &number));
    GIVES(0x19, trawl_connect(BOX, 3, 5, 0x900, 125000, &number));
    GIVES(0x13, trawl_connect(BOX, 4, 5, 0x900, 500000, &number));
    NOTES(NARROW, 0x14, trawl_connect(BOX, 0, 5, 0x900, 500000, &number));
    GIVES(0x06, trawl_connect(BOX, 9, 6, 0x901, 1, &number));
    GIVES(0x19, trawl_connect(BOX, 9, 6, 0x900, 125000, &number));
    GIVES(0x13, trawl_connect(BOX, 4, 6, 0x900, 500000, &number));
    NOTES(TALKS, 0x14, trawl_connect(BOX, 0, 6, 0x900, 500000, &number)); /* each channel of a line for itself */
    GIVES(0x1A, trawl_advance(BROKEN, 1000001));
    GIVES(0x0B, trawl_advance(BOX, 1000001));
    GIVES(0x00, trawl_advance(BOX, 1000000));
    GIVES(0x1A, trawl_frame(BROKEN, 4, 2, 0x800, data, 9));
    GIVES(0x13, trawl_frame(BOX, 4, 2, 0x800, data, 9));
    GIVES(0x0A, trawl_frame(BOX, 3, 2, 0, data, 8)); /* also where the line is closed */
    GIVES(0x0A, trawl_frame(BOX, 0, 0, 0x800, data, 8));
    GIVES(0x0A, trawl_frame(BOX, 1, 1, 0x20000000, data, 8));
    GIVES(0x0A, trawl_frame(BOX, 0, 0, 0x7FF, data, 9));
    GIVES(0x00, trawl_frame(BOX, 3, 0, 0x7FF, data, 8));
    GIVES(0x00, trawl_frame(BOX, 1, 0, 0x7FF, data, 8)); /* a width that isn't taken is dropped */
}

static void filters(void) {
    uint8_t good[36], wide[36], other[36], longer[36], bits[36], thirteen[36], none[36];
    trawl_record_make(good, 0, 0, NULL, 0), trawl_record_make(wide, 1, 0, NULL, 0), trawl_record_make(longer, 0, 0, good, 1);
    memcpy(other, good, 36), other[0] = 6;
    memcpy(bits, good, 36), bits[8] = 1;
    memcpy(thirteen, good, 36), thirteen[16] = 13;
    memcpy(none, good, 36), none[16] = 0;
    GIVES(0x1A, trawl_start_filter(BROKEN, NONE, 3, other, 35, other, 35, &number));
    GIVES(0x02, trawl_start_filter(BOX, NONE, 3, other, 35, other, 35, &number));
    GIVES(0x02, trawl_start_filter(BOX, 0, 3, other, 35, other, 35, &number));
    GIVES(0x02, trawl_start_filter(BOX, CLOSED, 3, other, 35, other, 35, &number));
    NOTES(NARROW, 0x04, trawl_start_filter(BOX, NARROW, 3, other, 35, R(other), &number));
    NOTES(NARROW, 0x04, trawl_start_filter(BOX, NARROW, 3, R(other), other, 35, &number));
    NOTES(NARROW, 0x16, trawl_start_filter(BOX, NARROW, 3, R(other), R(other), &number));
    NOTES(NARROW, 0x16, trawl_start_filter(BOX, NARROW, 257, R(other), R(other), &number));
    NOTES(NARROW, 0x15, trawl_start_filter(BOX, NARROW, 1, R(other), R(thirteen), &number));
    NOTES(NARROW, 0x15, trawl_start_filter(BOX, NARROW, 1, R(thirteen), R(other), &number));
    NOTES(NARROW, 0x0A, trawl_start_filter(BOX, NARROW, 1, R(good), R(longer), &number));
    NOTES(NARROW, 0x0A, trawl_start_filter(BOX, NARROW, 1, R(thirteen), R(thirteen), &number));
    NOTES(NARROW, 0x0A, trawl_start_filter(BOX, NARROW, 1, R(none), R(none), &number));
    NOTES(NARROW, 0x0A, trawl_start_filter(BOX, NARROW, 1, R(good), R(bits), &number));
    NOTES(NARROW, 0x0A, trawl_start_filter(BOX, NARROW, 1, R(wide), R(wide), &number));
    NOTES(WIDE, 0x0A, trawl_start_filter(BOX, WIDE, 1, R(good), R(good), &number));
    for (uint32_t i = 1; i <= 10; i++) {
        NOTES(NARROW, 0x00, trawl_start_filter(BOX, NARROW, 1 + i % 2, R(good), R(good), &number));
        must(number == i, "a filter's number");
    }
    NOTES(NARROW, 0x0A, trawl_start_filter(BOX, NARROW, 1, R(good), R(bits), &number)); /* before 0x0C */
    NOTES(NARROW, 0x0C, trawl_start_filter(BOX, NARROW, 1, R(good), R(good), &number));
    NOTES(BOTH, 0x00, trawl_start_filter(BOX, BOTH, 1, R(wide), R(wide), &number)); /* each channel has ten of its own */
    GIVES(0x1A, trawl_stop_filter(BROKEN, NONE, 11));
    GIVES(0x02, trawl_stop_filter(BOX, NONE, 11));
    NOTES(NARROW, 0x16, trawl_stop_filter(BOX, NARROW, 11));
    NOTES(NARROW, 0x16, trawl_stop_filter(BOX, NARROW, 0));
    NOTES(WIDE, 0x16, trawl_stop_filter(BOX, WIDE, 1));
    NOTES(NARROW, 0x00, trawl_stop_filter(BOX, NARROW, 3));
    NOTES(NARROW, 0x16, trawl_stop_filter(BOX, NARROW, 3));
    NOTES(NARROW, 0x00, trawl_start_filter(BOX, NARROW, 1, R(good), R(good), &number));
    must(number == 3, "the smallest free number");
}

static void sending(void) {
    static uint8_t many[17 * 36];
    uint8_t good[36], wide[36], other[36], three[36], large[36], out[36];
    trawl_record_make(good, 0, 0x7FF, NULL, 0), trawl_record_make(wide, 1, 0x1FFFFFFF, NULL, 0), trawl_record_make(large, 0, 0x800, NULL, 0);
    memcpy(other, good, 36), other[0] = 6;
    memcpy(three, good, 36), three[16] = 3;
    for (size_t i = 0; i < 17; i++) memcpy(many + 36 * i, good, 36);

    GIVES(0x1A, trawl_start_periodic(BROKEN, NONE, other, 35, 4, &number));
    GIVES(0x02, trawl_start_periodic(BOX, CLOSED, other, 35, 4, &number));
    NOTES(NARROW, 0x04, trawl_start_periodic(BOX, NARROW, other, 35, 4, &number));
    NOTES(NARROW, 0x0B, trawl_start_periodic(BOX, NARROW, R(other), 4, &number));
    NOTES(NARROW, 0x0B, trawl_start_periodic(BOX, NARROW, R(other), 65536, &number));
    NOTES(NARROW, 0x15, trawl_start_periodic(BOX, NARROW, R(other), 5, &number));
    NOTES(NARROW, 0x0A, trawl_start_periodic(BOX, NARROW, R(three), 5, &number));
    NOTES(NARROW, 0x0A, trawl_start_periodic(BOX, NARROW, R(wide), 5, &number));
    NOTES(NARROW, 0x0A, trawl_start_periodic(BOX, NARROW, R(large), 5, &number));
    for (uint32_t i = 1; i <= 10; i++) {
        NOTES(NARROW, 0x00, trawl_start_periodic(BOX, NARROW, R(good), 65535, &number));
        must(number == i, "a periodic's number");
    }
    NOTES(NARROW, 0x0A, trawl_start_periodic(BOX, NARROW, R(large), 5, &number)); /* before 0x0C */
    NOTES(NARROW, 0x0C, trawl_start_periodic(BOX, NARROW, R(good), 5, &number));
    GIVES(0x1A, trawl_stop_periodic(BROKEN, NONE, 11));
    GIVES(0x02, trawl_stop_periodic(BOX, CLOSED, 11));
    NOTES(NARROW, 0x0D, trawl_stop_periodic(BOX, NARROW, 11));
    NOTES(BOTH, 0x0D, trawl_stop_periodic(BOX, BOTH, 1));
    NOTES(NARROW, 0x00, trawl_stop_periodic(BOX, NARROW, 1));

    GIVES(0x1A, trawl_write(BROKEN, NONE, 2, other, 36, &number));
    GIVES(0x02, trawl_write(BOX, CLOSED, 2, other, 36, &number));
    NOTES(WIDE, 0x04, trawl_write(BOX, WIDE, 2, other, 36, &number));
    NOTES(WIDE, 0x04, trawl_write(BOX, WIDE, 0xFFFFFFFF, other, 36, &number));
    NOTES(WIDE, 0x15, trawl_write(BOX, WIDE, 1, other, 36, &number));
    NOTES(WIDE, 0x0A, trawl_write(BOX, WIDE, 1, good, 36, &number));
    NOTES(NARROW, 0x00, trawl_write(BOX, NARROW, 0, good, 0, &number));
    NOTES(NARROW, 0x11, trawl_write(BOX, NARROW, 17, many, sizeof many, &number));
    must(number == 16, "sixteen queued");
    NOTES(NARROW, 0x11, trawl_write(BOX, NARROW, 1, good, 36, &number));
    must(number == 0, "none queued");
    NOTES(NARROW, 0x15, trawl_write(BOX, NARROW, 1, other, 36, &number)); /* a record's own code before 0x11 */
    NOTES(NARROW, 0x0A, trawl_write(BOX, NARROW, 1, large, 36, &number));

    GIVES(0x1A, trawl_sent(BROKEN, NONE));
    GIVES(0x02, trawl_sent(BOX, CLOSED));
    NOTES(NARROW, 0x07, trawl_sent(BOX, NARROW));
    GIVES(0x1A, trawl_take(BROKEN, NONE, out, 35));
    GIVES(0x02, trawl_take(BOX, CLOSED, out, 35));
    NOTES(BOTH, 0x04, trawl_take(BOX, BOTH, out, 35)); /* also where there is no frame */
    NOTES(BOTH, 0x10, trawl_take(BOX, BOTH, R(out)));
    NOTES(NARROW, 0x00, trawl_take(BOX, NARROW, R(out)));
    NOTES(NARROW, 0x00, trawl_sent(BOX, NARROW));
    NOTES(NARROW, 0x07, trawl_sent(BOX, NARROW));
}

static void reading(void) {
    static uint8_t out[40 * 36];
    GIVES(0x1A, trawl_read(BROKEN, NONE, 2, out, 71, &number));
    GIVES(0x02, trawl_read(BOX, CLOSED, 2, out, 71, &number));
    NOTES(BOTH, 0x04, trawl_read(BOX, BOTH, 2, out, 71, &number));
    NOTES(BOTH, 0x00, trawl_read(BOX, BOTH, 0, out, 0, &number));
    NOTES(BOTH, 0x10, trawl_read(BOX, BOTH, 40, R(out), &number));
    for (int i = 0; i < 3; i++) GIVES(0x00, trawl_frame(BOX, 2, 1, 0x18DAF110, NULL, 0));
    NOTES(BOTH, 0x00, trawl_read(BOX, BOTH, 1, R(out), &number));
    must(number == 1, "one read");
    NOTES(BOTH, 0x09, trawl_read(BOX, BOTH, 3, R(out), &number));
    must(number == 2, "two read");
    for (int i = 0; i < 33; i++) GIVES(0x00, trawl_frame(BOX, 2, 1, 0x18DAF110, NULL, 0));
    NOTES(BOTH, 0x04, trawl_read(BOX, BOTH, 40, out, 1439, &number));
    NOTES(BOTH, 0x00, trawl_read(BOX, BOTH, 0, R(out), &number)); /* the mark stays */
    NOTES(BOTH, 0x12, trawl_read(BOX, BOTH, 32, R(out), &number));
    must(number == 32, "all read, and the loss told");
    NOTES(BOTH, 0x10, trawl_read(BOX, BOTH, 32, R(out), &number));
}

/* ---- ISO 15765 channels ---- */

/* the three records of a filter, a good one but for what is told */
static uint8_t mask[536], pattern[536], flow[536], spare[536];

static uint32_t talk(uint8_t *m, size_t length, uint32_t channel, uint32_t type, size_t a, size_t b, size_t c) {
    return trawl_start_flow_filter(m, length, channel, type, mask, a, pattern, b, flow, c, &number);
}

static void three(uint32_t wide, uint32_t p, uint32_t f) {
    trawl_iso_record_make(mask, wide, 0xFFFFFFFF, NULL, 0);
    trawl_iso_record_make(pattern, wide, p, NULL, 0);
    trawl_iso_record_make(flow, wide, f, NULL, 0);
}

/* a filter of type 3 with the three records as they are */
#define TRY(code) NOTES(TALKS, code, talk(BOX, TALKS, 3, 536, 536, 536))

static void tries(uint32_t code, uint32_t p, uint32_t f) {
    three(0, p, f);
    TRY(code);
}

/* a good one with one byte changed */
static void spoilt(uint8_t *at, uint8_t byte) {
    three(0, 0x641, 0x241);
    *at = byte;
    TRY(0x0A);
}

/* a write of one message, with a thing or two wrong */
#define WRITES(code, wide, identifier, n)                                                                                                 \
    do {                                                                                                                                  \
        trawl_iso_record_make(spare, wide, identifier, payload, n);                                                                       \
        NOTES(TALKS, code, trawl_write(BOX, TALKS, 1, R(spare), &number));                                                                \
    } while (0)

/* all but its length is wrong, then less and less */
static void talks(void) {
    three(1, 0x641, 0x241);
    mask[0] = pattern[0] = flow[0] = 5;
    GIVES(0x1A, talk(BROKEN, NONE, 1, 535, 535, 535));
    GIVES(0x02, talk(BOX, NONE, 1, 535, 535, 535));
    GIVES(0x02, talk(BOX, SHUT, 1, 535, 535, 535));
    NOTES(TALKS, 0x04, talk(BOX, TALKS, 1, 535, 536, 536));
    NOTES(TALKS, 0x04, talk(BOX, TALKS, 1, 536, 535, 536));
    NOTES(TALKS, 0x04, talk(BOX, TALKS, 1, 536, 536, 535));
    NOTES(TALKS, 0x04, trawl_start_filter(BOX, TALKS, 3, R(mask), R(pattern), &number)); /* no flow record */
    for (uint32_t type = 0; type < 3; type++) NOTES(TALKS, 0x16, talk(BOX, TALKS, type, 536, 536, 536));
    NOTES(TALKS, 0x16, talk(BOX, TALKS, 259, 536, 536, 536));
    mask[16] = 5; /* a size */
    TRY(0x15);
    mask[0] = 6;
    TRY(0x15);
    pattern[0] = 6;
    TRY(0x15);
    flow[0] = 6;
    TRY(0x0A);
    mask[16] = 4;
    TRY(0x0A); /* wide */
    spoilt(&flow[16], 3);
    spoilt(&mask[24], 0xE3);
    spoilt(&flow[8], 1);
    tries(0x0A, 0x800, 0x241);
    tries(0x0A, 0x641, 0x800);
    tries(0x00, 0x641, 0x241);
    must(number == 1, "the first conversation");
    tries(0x18, 0x641, 0x242);
    tries(0x18, 0x642, 0x641);
    tries(0x00, 0x642, 0x242);
    must(number == 2, "the second conversation");
    tries(0x18, 0x643, 0x242); /* before 0x0C */
    tries(0x0C, 0x643, 0x243);
    NOTES(TALKS, 0x16, trawl_stop_filter(BOX, TALKS, 3));
    NOTES(TALKS, 0x00, trawl_stop_filter(BOX, TALKS, 1));
    NOTES(TALKS, 0x16, trawl_stop_filter(BOX, TALKS, 1));
    three(1, 0x1FFFFFFF, 0x18DA10F1);
    NOTES(WIDE_TALKS, 0x00, talk(BOX, WIDE_TALKS, 3, 536, 536, 536));
    trawl_record_make(spare, 0, 0, NULL, 0);
    NOTES(BOTH, 0x16, trawl_start_flow_filter(BOX, BOTH, 3, spare, 36, spare, 36, NULL, 0, &number)); /* on a raw channel the flow plays no part */
    NOTES(BOTH, 0x00, trawl_start_flow_filter(BOX, BOTH, 1, spare, 36, spare, 36, NULL, 0, &number));
    NOTES(BOTH, 0x00, trawl_stop_filter(BOX, BOTH, 2));
}

static void messages(void) {
    static uint8_t many[5 * 536], payload[508];
    uint8_t *last_one = many + 4 * 536;
    for (size_t i = 0; i < 5; i++) trawl_iso_record_make(many + 536 * i, 0, 0x242, payload, 508 - 100 * i);
    GIVES(0x02, trawl_start_periodic(BOX, SHUT, many, 535, 4, &number));
    NOTES(TALKS, 0x04, trawl_start_periodic(BOX, TALKS, many, 535, 4, &number));
    NOTES(TALKS, 0x01, trawl_start_periodic(BOX, TALKS, many, 536, 4, &number)); /* whatever the interval */
    NOTES(TALKS, 0x0D, trawl_stop_periodic(BOX, TALKS, 1));
    NOTES(TALKS, 0x00, trawl_clear(BOX, TALKS, 3));

    GIVES(0x1A, trawl_write(BROKEN, NONE, 2, many, 1071, &number));
    GIVES(0x02, trawl_write(BOX, SHUT, 2, many, 1071, &number));
    NOTES(TALKS, 0x04, trawl_write(BOX, TALKS, 2, many, 1071, &number));
    trawl_iso_record_make(spare, 0, 0x800, payload, 509), spare[0] = 5;
    NOTES(TALKS, 0x15, trawl_write(BOX, TALKS, 1, R(spare), &number));
    spare[0] = 6;
    NOTES(TALKS, 0x0A, trawl_write(BOX, TALKS, 1, R(spare), &number)); /* its size */
    WRITES(0x0A, 0, 0x242, 0);
    WRITES(0x0A, 0, 0x800, 1);
    WRITES(0x0A, 1, 0x242, 1);
    WRITES(0x17, 0, 0x241, 8);
    NOTES(TALKS, 0x11, trawl_write(BOX, TALKS, 5, R(many), &number));
    must(number == 4, "four queued");
    NOTES(TALKS, 0x17, trawl_write(BOX, TALKS, 1, R(spare), &number)); /* before 0x11 */
    NOTES(TALKS, 0x11, trawl_write(BOX, TALKS, 1, last_one, 536, &number));

    NOTES(TALKS, 0x07, trawl_sent(BOX, TALKS));
    GIVES(0x02, trawl_take(BOX, SHUT, spare, 535));
    NOTES(WIDE_TALKS, 0x04, trawl_take(BOX, WIDE_TALKS, spare, 535));
    NOTES(WIDE_TALKS, 0x10, trawl_take(BOX, WIDE_TALKS, R(spare)));
    NOTES(TALKS, 0x00, trawl_take(BOX, TALKS, R(spare)));
    NOTES(TALKS, 0x00, trawl_sent(BOX, TALKS));
    NOTES(TALKS, 0x10, trawl_take(BOX, TALKS, R(spare))); /* the flow frame is awaited */
    NOTES(TALKS, 0x07, trawl_sent(BOX, TALKS));
}

static void told(void) {
    static uint8_t out[10 * 536];
    GIVES(0x02, trawl_read(BOX, SHUT, 2, out, 1071, &number));
    NOTES(TALKS, 0x04, trawl_read(BOX, TALKS, 2, out, 1071, &number));
    NOTES(TALKS, 0x00, trawl_read(BOX, TALKS, 0, out, 0, &number));
    NOTES(TALKS, 0x10, trawl_read(BOX, TALKS, 2, out, 1072, &number));
    for (int i = 0; i < 3; i++) GIVES(0x00, trawl_frame(BOX, 1, 1, 0x1FFFFFFF, (const uint8_t *)"\x01\x55", 2));
    NOTES(WIDE_TALKS, 0x00, trawl_read(BOX, WIDE_TALKS, 1, out, 536, &number));
    NOTES(WIDE_TALKS, 0x09, trawl_read(BOX, WIDE_TALKS, 3, R(out), &number));
    must(number == 2, "two read");
    for (int i = 0; i < 9; i++) GIVES(0x00, trawl_frame(BOX, 1, 1, 0x1FFFFFFF, (const uint8_t *)"\x01\x55", 2));
    NOTES(WIDE_TALKS, 0x12, trawl_read(BOX, WIDE_TALKS, 8, R(out), &number));
    must(number == 8, "all read, and the loss told");
    NOTES(WIDE_TALKS, 0x10, trawl_read(BOX, WIDE_TALKS, 1, R(out), &number));
    NOTES(TALKS, 0x01, trawl_get(BOX, TALKS, 0x1E, &number)); /* J2534-1's block size: not built */
    NOTES(TALKS, 0x05, trawl_set(BOX, TALKS, 1, 125000));
    NOTES(TALKS, 0x0F, trawl_clear(BOX, TALKS, 5));
    GIVES(0x00, trawl_disconnect(BOX, WIDE_TALKS));
    GIVES(0x02, trawl_disconnect(BOX, WIDE_TALKS));
}

/* ---- TP2.0 connections ---- */

/* a frame of the module on line 0 */
static void module(uint32_t identifier, const char *data, size_t n) {
    GIVES(0x00, trawl_frame(BOX, 0, 0, identifier, (const uint8_t *)data, n));
}

static void opening(void) {
    static const uint32_t good[7] = {0x200, 0x01, 0x300, 0x01, 15, 0x8A, 0x00};
    static const uint32_t bad[][2] = {{0, 0x1FF}, {0, 0x2F0}, {1, 0xF0}, {1, 0x101}, {2, 0x800}, {3, 0x00}, {3, 0x101}, {4, 0}, {4, 16}, {5, 256},
                                      {6, 256}}; /* which field, and what */
    GIVES(0x1A, trawl_link_open(BROKEN, NONE, 0, 0xF0, 0x800, 0, 0, 256, 256));
    GIVES(0x1A, trawl_link_open(SHORT, NONE, 0, 0xF0, 0x800, 0, 0, 256, 256));
    GIVES(0x02, trawl_link_open(BOX, NONE, 0, 0xF0, 0x800, 0, 0, 256, 256));
    GIVES(0x02, trawl_link_open(BOX, CLOSED, 0, 0xF0, 0x800, 0, 0, 256, 256));
    GIVES(0x02, trawl_link_open(BOX, TALKS, 0, 0xF0, 0x800, 0, 0, 256, 256)); /* open, and none of 1 to 4: nothing is kept */
    NOTES(WIDE, 0x0A, trawl_link_open(BOX, WIDE, 0x200, 0x01, 0x300, 0x01, 15, 0x8A, 0x00));
    for (size_t i = 0; i < sizeof bad / sizeof *bad; i++) {
        uint32_t f[7];
        memcpy(f, good, sizeof f);
        f[bad[i][0]] = bad[i][1];
        NOTES(BOTH, 0x0A, trawl_link_open(BOX, BOTH, f[0], f[1], f[2], f[3], f[4], f[5], f[6]));
    }
    NOTES(BOTH, 0x00, trawl_link_open(BOX, BOTH, 0x2EF, 0xEF, 0x7FF, 0x21, 1, 255, 255));
    NOTES(BOTH, 0x0A, trawl_link_open(BOX, BOTH, 0x2EF, 0xEF, 0x7FF, 0x21, 16, 255, 255)); /* before 0x14 */
    NOTES(BOTH, 0x14, trawl_link_open(BOX, BOTH, 0x200, 0x00, 0x000, 0x10, 15, 0, 0));
    NOTES(BOTH, 0x00, trawl_link_end(BOX, BOTH));
}

/* the others, with no connection, with one that opens, stands, leaves */
static void connection(void) {
    static uint8_t message[513], out[513];
    GIVES(0x1A, trawl_link_send(BROKEN, NONE, message, 0));
    GIVES(0x02, trawl_link_send(BOX, NONE, message, 0));
    GIVES(0x02, trawl_link_send(BOX, TALKS, message, 0));
    NOTES(WIDE, 0x0A, trawl_link_send(BOX, WIDE, message, 1));
    NOTES(NARROW, 0x07, trawl_link_send(BOX, NARROW, message, 0)); /* before the length */
    GIVES(0x1A, trawl_link_receive(BROKEN, NONE, out, 511, &number));
    GIVES(0x02, trawl_link_receive(BOX, CLOSED, out, 511, &number));
    GIVES(0x02, trawl_link_receive(BOX, TALKS, out, 511, &number));
    NOTES(WIDE, 0x04, trawl_link_receive(BOX, WIDE, out, 511, &number)); /* before the width */
    NOTES(WIDE, 0x0A, trawl_link_receive(BOX, WIDE, out, 512, &number));
    NOTES(NARROW, 0x04, trawl_link_receive(BOX, NARROW, out, 511, &number));
    NOTES(NARROW, 0x07, trawl_link_receive(BOX, NARROW, out, 512, &number));
    GIVES(0x1A, trawl_link_end(BROKEN, NONE));
    GIVES(0x02, trawl_link_end(BOX, CLOSED));
    GIVES(0x02, trawl_link_end(BOX, TALKS));
    NOTES(WIDE, 0x0A, trawl_link_end(BOX, WIDE));
    NOTES(NARROW, 0x07, trawl_link_end(BOX, NARROW));

    NOTES(NARROW, 0x00, trawl_link_open(BOX, NARROW, 0x200, 0x01, 0x300, 0x01, 15, 0x8A, 0x00));
    NOTES(NARROW, 0x07, trawl_link_send(BOX, NARROW, message, 1));
    NOTES(NARROW, 0x07, trawl_link_receive(BOX, NARROW, R(out), &number));
    module(0x201, "\0\xD0\0\3\x40\7\1", 7);
    NOTES(NARROW, 0x07, trawl_link_send(BOX, NARROW, message, 1));
    NOTES(NARROW, 0x14, trawl_link_open(BOX, NARROW, 0x200, 0x01, 0x300, 0x01, 15, 0x8A, 0x00));
    module(0x300, "\xA1\x0F\x8A\xFF\0\xFF", 6);
    NOTES(NARROW, 0x10, trawl_link_receive(BOX, NARROW, R(out), &number));
    NOTES(NARROW, 0x04, trawl_link_receive(BOX, NARROW, out, 511, &number));
    NOTES(NARROW, 0x0A, trawl_link_send(BOX, NARROW, message, 0));
    NOTES(NARROW, 0x0A, trawl_link_send(BOX, NARROW, message, 513));
    NOTES(NARROW, 0x00, trawl_link_send(BOX, NARROW, message, 512));
    NOTES(NARROW, 0x0A, trawl_link_send(BOX, NARROW, message, 513)); /* before 0x11 */
    NOTES(NARROW, 0x11, trawl_link_send(BOX, NARROW, message, 1));
    module(0x300, "\x10\x50", 2);
    NOTES(NARROW, 0x04, trawl_link_receive(BOX, NARROW, out, 511, &number));
    NOTES(NARROW, 0x00, trawl_link_receive(BOX, NARROW, out, 512, &number));
    must(number == 1 && out[0] == 0x50, "a message received");
    NOTES(NARROW, 0x10, trawl_link_receive(BOX, NARROW, R(out), &number));
    NOTES(NARROW, 0x14, trawl_link_open(BOX, NARROW, 0x200, 0x01, 0x300, 0x01, 15, 0x8A, 0x00));
    NOTES(NARROW, 0x00, trawl_link_end(BOX, NARROW));
    NOTES(NARROW, 0x07, trawl_link_end(BOX, NARROW));
    NOTES(NARROW, 0x07, trawl_link_send(BOX, NARROW, message, 513));
    NOTES(NARROW, 0x07, trawl_link_receive(BOX, NARROW, R(out), &number));
    NOTES(NARROW, 0x14, trawl_link_open(BOX, NARROW, 0x200, 0x01, 0x300, 0x01, 15, 0x8A, 0x00)); /* its disconnect telegram waits */
}

/* channel, then width mark and identifier; a width that isn't taken is no fault */
static void deciding(void) {
    GIVES(0x1A, trawl_decide(BROKEN, NONE, 2, 0x800, &number));
    GIVES(0x1A, trawl_decide(SHORT, NONE, 2, 0x800, &number));
    GIVES(0x02, trawl_decide(BOX, NONE, 2, 0x800, &number));
    GIVES(0x02, trawl_decide(BOX, 0, 2, 0x800, &number));
    GIVES(0x02, trawl_decide(BOX, CLOSED, 2, 0x800, &number));
    GIVES(0x02, trawl_decide(BOX, TALKS, 2, 0x800, &number)); /* open, but no raw channel */
    NOTES(NARROW, 0x0A, trawl_decide(BOX, NARROW, 2, 0x7FF, &number));
    NOTES(NARROW, 0x0A, trawl_decide(BOX, NARROW, 256, 0x7FF, &number));
    NOTES(NARROW, 0x0A, trawl_decide(BOX, NARROW, 0, 0x800, &number));
    NOTES(WIDE, 0x0A, trawl_decide(BOX, WIDE, 0, 0x800, &number)); /* also in a width that isn't taken */
    NOTES(WIDE, 0x0A, trawl_decide(BOX, WIDE, 1, 0x20000000, &number));
    NOTES(WIDE, 0x00, trawl_decide(BOX, WIDE, 0, 0x7FF, &number));
    must(number == TRAWL_DROPPED, "a width that isn't taken");
    NOTES(BOTH, 0x00, trawl_decide(BOX, BOTH, 0, 0x7FF, &number));
    must(number == TRAWL_DROPPED, "no narrow filter");
    NOTES(BOTH, 0x00, trawl_decide(BOX, BOTH, 1, 0x1FFFFFFF, &number));
    must(number == TRAWL_PASSES, "a filter for all wide frames");
}

/* channel, then the buffer's length, or the store as a whole */
static void saving(void) {
    static uint8_t out[TRAWL_STORE];
    size_t n;
    GIVES(0x1A, trawl_save(BROKEN, NONE, out, 0, &number));
    GIVES(0x1A, trawl_save(SHORT, NONE, out, 0, &number));
    GIVES(0x02, trawl_save(BOX, NONE, out, 0, &number));
    GIVES(0x02, trawl_save(BOX, 0, out, 0, &number));
    GIVES(0x02, trawl_save(BOX, CLOSED, out, 0, &number));
    GIVES(0x02, trawl_save(BOX, TALKS, out, 0, &number)); /* open, but no raw channel */
    NOTES(NARROW, 0x04, trawl_save(BOX, NARROW, out, 0, &number));
    NOTES(NARROW, 0x00, trawl_save(BOX, NARROW, R(out), &number));
    n = number;
    NOTES(NARROW, 0x04, trawl_save(BOX, NARROW, out, n - 1, &number));
    NOTES(NARROW, 0x00, trawl_save(BOX, NARROW, out, n, &number));
    must(number == n && n <= TRAWL_STORE, "the length of a store");
    GIVES(0x1A, trawl_load(BROKEN, NONE, out, n - 1));
    GIVES(0x1A, trawl_load(SHORT, NONE, out, n - 1));
    GIVES(0x02, trawl_load(BOX, NONE, out, n - 1));
    GIVES(0x02, trawl_load(BOX, 0, out, n - 1));
    GIVES(0x02, trawl_load(BOX, CLOSED, out, n - 1));
    GIVES(0x02, trawl_load(BOX, TALKS, out, n));
    NOTES(NARROW, 0x0A, trawl_load(BOX, NARROW, out, n - 1));
    NOTES(WIDE, 0x0A, trawl_load(BOX, WIDE, out, n)); /* other flags */
    NOTES(BOTH, 0x0A, trawl_load(BOX, BOTH, out, n));
    NOTES(NARROW, 0x00, trawl_load(BOX, NARROW, out, n));
}

/* refused before any pair is done, or at the first: nothing but the last code changes, and the lists stay */
static void lists(void) {
    static const struct trawl_pair seventeen[17] = {{2, 9}, {1, 9}, {3, 1}}, value[3] = {{1, 9}, {2, 9}, {3, 1}}, old[1] = {{1, 125000}};
    static struct trawl_pair out[17];
    memcpy(out, seventeen, sizeof out);
    GIVES(0x1A, trawl_set_list(BROKEN, NONE, seventeen, 17));
    GIVES(0x1A, trawl_set_list(SHORT, NONE, seventeen, 17));
    GIVES(0x02, trawl_set_list(BOX, NONE, seventeen, 17));
    GIVES(0x02, trawl_set_list(BOX, CLOSED, seventeen, 17));
    NOTES(BOTH, 0x04, trawl_set_list(BOX, BOTH, seventeen, 17));
    NOTES(BOTH, 0x01, trawl_set_list(BOX, BOTH, seventeen, 16));
    NOTES(BOTH, 0x05, trawl_set_list(BOX, BOTH, value, 3));
    NOTES(BOTH, 0x05, trawl_set_list(BOX, BOTH, old, 1));
    NOTES(BOTH, 0x00, trawl_set_list(BOX, BOTH, value, 0));
    GIVES(0x1A, trawl_get_list(BROKEN, NONE, out, 17));
    GIVES(0x1A, trawl_get_list(SHORT, NONE, out, 17));
    GIVES(0x02, trawl_get_list(BOX, NONE, out, 17));
    GIVES(0x02, trawl_get_list(BOX, CLOSED, out, 17));
    NOTES(BOTH, 0x04, trawl_get_list(BOX, BOTH, out, 17));
    NOTES(BOTH, 0x01, trawl_get_list(BOX, BOTH, out, 16));
    NOTES(BOTH, 0x00, trawl_get_list(BOX, BOTH, out, 0));
    must(memcmp(out, seventeen, sizeof out) == 0, "a refused list stays");
}

static void settings(void) {
    GIVES(0x1A, trawl_get(BROKEN, NONE, 2, &number));
    GIVES(0x02, trawl_get(BOX, NONE, 2, &number));
    NOTES(BOTH, 0x01, trawl_get(BOX, BOTH, 2, &number));
    NOTES(BOTH, 0x00, trawl_get(BOX, BOTH, 1, &number));
    must(number == 250000, "rate");
    GIVES(0x1A, trawl_set(BROKEN, NONE, 2, 9));
    GIVES(0x02, trawl_set(BOX, NONE, 2, 9));
    NOTES(BOTH, 0x01, trawl_set(BOX, BOTH, 2, 9));
    NOTES(BOTH, 0x05, trawl_set(BOX, BOTH, 1, 9));
    NOTES(BOTH, 0x05, trawl_set(BOX, BOTH, 1, 125000));
    NOTES(BOTH, 0x05, trawl_set(BOX, BOTH, 3, 2));
    NOTES(BOTH, 0x00, trawl_set(BOX, BOTH, 3, 1));
    lists();
    GIVES(0x1A, trawl_clear(BROKEN, NONE, 5));
    GIVES(0x02, trawl_clear(BOX, NONE, 5));
    NOTES(BOTH, 0x0F, trawl_clear(BOX, BOTH, 0));
    for (uint32_t kind = 5; kind < 40; kind++) NOTES(BOTH, 0x0F, trawl_clear(BOX, BOTH, kind)); /* J2534-1's own numbers too */
    for (uint32_t kind = 1; kind < 5; kind++) NOTES(BOTH, 0x00, trawl_clear(BOX, BOTH, kind));
    for (uint32_t ioctl = 7; ioctl < 11; ioctl++) NOTES(BOTH, 0x00, trawl_clear(BOX, BOTH, trawl_clear_kind(ioctl)));
    GIVES(0x1A, trawl_last_error(BROKEN, NONE, &number));
    GIVES(0x1A, trawl_last_error(SHORT, NONE, &number));
    GIVES(0x02, trawl_last_error(BOX, NONE, &number));
    GIVES(0x02, trawl_last_error(BOX, CLOSED, &number));
    GIVES(0x02, trawl_last_error(BOX, 257, &number));
    NOTES(BOTH, 0x0F, trawl_clear(BOX, BOTH, 9));
    NOTES(BOTH, 0x00, trawl_last_error(BOX, BOTH, &number));
    must(number == 0x0F, "the last code");
    GIVES(0x1A, trawl_disconnect(BROKEN, NONE));
    GIVES(0x02, trawl_disconnect(BOX, CLOSED));
    GIVES(0x00, trawl_disconnect(BOX, BOTH));
    GIVES(0x02, trawl_disconnect(BOX, BOTH));
    GIVES(0x00, trawl_close(BOX));
    GIVES(0x02, trawl_disconnect(BOX, NARROW));
}

/* ---- listeners, on a box just closed ---- */

/* the flag's place among connect's codes; with protocol 6 it is a flag as any other */
static void listening(void) {
    GIVES(0x1A, trawl_connect(BROKEN, 9, 7, TRAWL_LISTEN_ONLY, 1, &number));
    GIVES(0x03, trawl_connect(BOX, 9, 7, TRAWL_LISTEN_ONLY, 1, &number));
    GIVES(0x06, trawl_connect(BOX, 9, 6, TRAWL_LISTEN_ONLY, 1, &number));
    GIVES(0x06, trawl_connect(BOX, 0, 6, TRAWL_LISTEN_ONLY | 0x900, 500000, &number));
    GIVES(0x06, trawl_connect(BOX, 9, 5, TRAWL_LISTEN_ONLY | 1, 1, &number));
    GIVES(0x06, trawl_connect(BOX, 9, 5, TRAWL_LISTEN_ONLY << 1, 1, &number));
    GIVES(0x06, trawl_connect(BOX, 9, 5, TRAWL_LISTEN_ONLY >> 1, 1, &number));
    GIVES(0x19, trawl_connect(BOX, 9, 5, TRAWL_LISTEN_ONLY, 125000, &number));
    GIVES(0x13, trawl_connect(BOX, 4, 5, TRAWL_LISTEN_ONLY | 0x900, 500000, &number));
    GIVES(0x00, trawl_connect(BOX, 0, 5, TRAWL_LISTEN_ONLY, 500000, &number));
    must(number == NARROW, "the number of a listener");
    GIVES(0x00, trawl_connect(BOX, 1, 5, TRAWL_LISTEN_ONLY | 0x100, 500000, &number));
    GIVES(0x00, trawl_connect(BOX, 2, 5, 0x800, 500000, &number));
    NOTES(NARROW, 0x14, trawl_connect(BOX, 0, 5, TRAWL_LISTEN_ONLY, 500000, &number));
    NOTES(NARROW, 0x14, trawl_connect(BOX, 0, 5, 0, 500000, &number)); /* it stays a listener */
    GIVES(0x06, trawl_connect(BOX, 0, 6, TRAWL_LISTEN_ONLY, 500000, &number));
    must(last(NARROW) == 0x14, "another channel of the line was refused");
}

/* after 0x02, and before 0x04 and all else, where nothing is wrong too; another channel has its 0x04 where it was */
static void muted(void) {
    uint8_t good[36], out[36] = {0xC3};
    trawl_record_make(good, 0, 0x7FF, NULL, 0);
    GIVES(0x1A, trawl_write(BROKEN, NARROW, 2, R(good), &number));
    GIVES(0x02, trawl_write(BOX, CLOSED, 2, R(good), &number));
    NOTES(BOTH, 0x04, trawl_write(BOX, BOTH, 2, R(good), &number));
    NOTES(NARROW, 0x01, trawl_write(BOX, NARROW, 2, R(good), &number));
    NOTES(NARROW, 0x01, trawl_write(BOX, NARROW, 1, R(good), &number));
    NOTES(NARROW, 0x01, trawl_write(BOX, NARROW, 0, NULL, 0, &number));
    NOTES(WIDE, 0x01, trawl_write(BOX, WIDE, 1, R(good), &number)); /* before its width */
    GIVES(0x1A, trawl_take(BROKEN, NARROW, out, 0));
    GIVES(0x02, trawl_take(BOX, CLOSED, out, 0));
    NOTES(BOTH, 0x04, trawl_take(BOX, BOTH, out, 0));
    NOTES(NARROW, 0x01, trawl_take(BOX, NARROW, out, 0));
    NOTES(NARROW, 0x01, trawl_take(BOX, NARROW, R(out)));
    GIVES(0x1A, trawl_sent(BROKEN, NARROW));
    GIVES(0x02, trawl_sent(BOX, CLOSED));
    NOTES(BOTH, 0x07, trawl_sent(BOX, BOTH));
    NOTES(NARROW, 0x01, trawl_sent(BOX, NARROW));
    GIVES(0x1A, trawl_start_periodic(BROKEN, NARROW, good, 35, 4, &number));
    GIVES(0x02, trawl_start_periodic(BOX, CLOSED, good, 35, 4, &number));
    NOTES(BOTH, 0x04, trawl_start_periodic(BOX, BOTH, good, 35, 4, &number));
    NOTES(NARROW, 0x01, trawl_start_periodic(BOX, NARROW, good, 35, 4, &number));
    NOTES(NARROW, 0x01, trawl_start_periodic(BOX, NARROW, R(good), 4, &number));
    NOTES(NARROW, 0x01, trawl_start_periodic(BOX, NARROW, R(good), 5, &number));
    must(out[0] == 0xC3, "a lent buffer stays");
}

/* the same of the calls of a TP2.0 connection */
static void muted_links(void) {
    static uint8_t message[513], out[512] = {0xC3};
    GIVES(0x1A, trawl_link_open(BROKEN, NARROW, 0, 0xF0, 0x800, 0, 0, 256, 256));
    GIVES(0x02, trawl_link_open(BOX, CLOSED, 0, 0xF0, 0x800, 0, 0, 256, 256));
    NOTES(BOTH, 0x0A, trawl_link_open(BOX, BOTH, 0, 0xF0, 0x800, 0, 0, 256, 256));
    NOTES(NARROW, 0x01, trawl_link_open(BOX, NARROW, 0, 0xF0, 0x800, 0, 0, 256, 256));
    NOTES(NARROW, 0x01, trawl_link_open(BOX, NARROW, 0x200, 0x01, 0x300, 0x01, 15, 0x8A, 0x00));
    NOTES(WIDE, 0x01, trawl_link_open(BOX, WIDE, 0x200, 0x01, 0x300, 0x01, 15, 0x8A, 0x00)); /* before its width */
    GIVES(0x1A, trawl_link_send(BROKEN, NARROW, message, 513));
    GIVES(0x02, trawl_link_send(BOX, CLOSED, message, 513));
    NOTES(BOTH, 0x07, trawl_link_send(BOX, BOTH, message, 513));
    NOTES(NARROW, 0x01, trawl_link_send(BOX, NARROW, message, 513));
    NOTES(NARROW, 0x01, trawl_link_send(BOX, NARROW, message, 1));
    NOTES(WIDE, 0x01, trawl_link_send(BOX, WIDE, message, 1));
    GIVES(0x1A, trawl_link_receive(BROKEN, NARROW, out, 511, &number));
    GIVES(0x02, trawl_link_receive(BOX, CLOSED, out, 511, &number));
    NOTES(BOTH, 0x04, trawl_link_receive(BOX, BOTH, out, 511, &number));
    NOTES(NARROW, 0x01, trawl_link_receive(BOX, NARROW, out, 511, &number));
    NOTES(NARROW, 0x01, trawl_link_receive(BOX, NARROW, out, 512, &number));
    NOTES(WIDE, 0x01, trawl_link_receive(BOX, WIDE, out, 511, &number));
    GIVES(0x1A, trawl_link_end(BROKEN, NARROW));
    GIVES(0x02, trawl_link_end(BOX, CLOSED));
    NOTES(BOTH, 0x07, trawl_link_end(BOX, BOTH));
    NOTES(NARROW, 0x01, trawl_link_end(BOX, NARROW));
    NOTES(WIDE, 0x01, trawl_link_end(BOX, WIDE));
    must(out[0] == 0xC3, "a lent buffer stays");
}

/* the codes of the other calls are as on any raw channel */
static void listens(void) {
    static uint8_t out[TRAWL_STORE];
    uint8_t every[36], wide[36];
    trawl_record_make(every, 0, 0, NULL, 0), trawl_record_make(wide, 1, 0, NULL, 0);
    NOTES(NARROW, 0x04, trawl_start_filter(BOX, NARROW, 3, every, 35, R(every), &number));
    NOTES(NARROW, 0x16, trawl_start_filter(BOX, NARROW, 3, R(every), R(every), &number));
    NOTES(NARROW, 0x0A, trawl_start_filter(BOX, NARROW, 1, R(wide), R(wide), &number));
    NOTES(NARROW, 0x00, trawl_start_filter(BOX, NARROW, 1, R(every), R(every), &number));
    NOTES(NARROW, 0x16, trawl_stop_filter(BOX, NARROW, 2));
    NOTES(NARROW, 0x0D, trawl_stop_periodic(BOX, NARROW, 1));
    NOTES(NARROW, 0x04, trawl_read(BOX, NARROW, 2, out, 71, &number));
    NOTES(NARROW, 0x10, trawl_read(BOX, NARROW, 2, R(out), &number));
    NOTES(NARROW, 0x01, trawl_get(BOX, NARROW, 2, &number));
    NOTES(NARROW, 0x05, trawl_set(BOX, NARROW, 1, 125000));
    NOTES(NARROW, 0x0F, trawl_clear(BOX, NARROW, 5));
    for (uint32_t kind = 1; kind < 5; kind++) NOTES(NARROW, 0x00, trawl_clear(BOX, NARROW, kind));
    NOTES(NARROW, 0x0A, trawl_decide(BOX, NARROW, 0, 0x800, &number));
    NOTES(NARROW, 0x04, trawl_save(BOX, NARROW, out, 11, &number));
    NOTES(NARROW, 0x00, trawl_save(BOX, NARROW, out, 12, &number));
    NOTES(WIDE, 0x0A, trawl_load(BOX, WIDE, out, 12)); /* other flags */
    NOTES(NARROW, 0x00, trawl_load(BOX, NARROW, out, 12));
    GIVES(0x00, trawl_disconnect(BOX, NARROW));
    GIVES(0x02, trawl_take(BOX, NARROW, R(out)));
    GIVES(0x00, trawl_connect(BOX, 0, 5, 0, 500000, &number));
    NOTES(NARROW, 0x10, trawl_take(BOX, NARROW, R(out)));
}

int main(void) {
    open_all();
    lines();
    filters();
    sending();
    reading();
    talks();
    messages();
    told();
    opening();
    connection();
    deciding();
    saving();
    settings();
    listening();
    muted();
    muted_links();
    listens();
    printf("codes in the header's order: %lu looks\n", held);
    return 0;
}
