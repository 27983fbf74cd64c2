/* Stories of TP2.0 connections, worked out by hand from the request and SAE J2819, told to every side there is. The first nine are the examples of its
 * readings. Where not told otherwise the connection is on channel 1: own identifier 200, destination 01, RX-ID 300, TX-ID 740, application 01. */
#include <stdio.h>
#include <stdlib.h>
#include <string.h>

#include "iso_side.h"
#include "random.h"

static const side *on;
static uint8_t box[BOX_MOST], lent[40 * RAW_RECORD], got[MESSAGE + 8], up[MESSAGE + 1];
static uint32_t v; /* the number of the last call that gives one */
static unsigned long looks;

static void must(int true_, const char *what, int line) {
    looks++;
    if (true_) return;
    fprintf(stderr, "link_stories: %s, line %d: %s\n", on->name, line, what);
    exit(1);
}

#define BOX box, on->memory
#define MUST(what) must(what, #what, __LINE__)
#define CODE(code, call) must((call) == (code) && on->valid(BOX), #code " of " #call, __LINE__)
#define GIVES(code, number, call) must((call) == (code) && v == (number) && on->valid(BOX), #code " and " #number " of " #call, __LINE__)

/* ---- the calls ---- */

static uint32_t connect(uint32_t line, uint32_t protocol, uint32_t flags) { return on->connect(BOX, line, protocol, flags, 500000, &v); }
static uint32_t take(uint32_t channel) { return on->take(BOX, channel, lent, sizeof lent); }
static uint32_t sent(uint32_t channel) { return on->sent(BOX, channel); }
static uint32_t advance(uint32_t us) { return on->advance(BOX, us); }
static uint32_t read(uint32_t n) { return on->read(BOX, 1, n, lent, sizeof lent, &v); }
static uint32_t last(uint32_t channel) { return on->last_error(BOX, channel, &v); }
static uint32_t begin_link(uint32_t channel, uint32_t size, uint32_t t1, uint32_t t3) {
    return on->link_open(BOX, channel, 0x200, 0x01, 0x300, 0x01, size, t1, t3);
}
static uint32_t end(uint32_t channel) { return on->link_end(BOX, channel); }

/* the first n bytes of 01 02 03 .. */
static uint32_t send(uint32_t n) { return on->link_send(BOX, 1, up, n); }

static uint32_t receive(void) {
    memset(got, 0xEE, sizeof got);
    return on->link_receive(BOX, 1, got, sizeof got, &v);
}

static uint32_t write(uint32_t id) {
    uint8_t r[RAW_RECORD];
    record_at(r, RAW_RECORD, 5, 0, 0, 0, 0, id, NULL, 0);
    return on->write(BOX, 1, 1, r, RAW_RECORD, &v);
}

#define LIST(...) (const uint8_t[]){__VA_ARGS__}, sizeof((const uint8_t[]){__VA_ARGS__})

/* a narrow frame on line 0: of an identifier, of the module before and after the channel stands */
#define FRAME_OF(id, ...) CODE(0x00, on->frame(BOX, 0, 0, id, LIST(__VA_ARGS__)))
#define REPLY(...) FRAME_OF(0x201, __VA_ARGS__)
#define FRAME(...) FRAME_OF(0x300, __VA_ARGS__)

/* a take on channel 1 gives this telegram; and it is sent */
#define TAKES_OF(id, ...) (CODE(0x00, take(1)), MUST(is_raw_record(lent, 0, 0, 0, id, LIST(__VA_ARGS__))))
#define TAKES(...) TAKES_OF(0x740, __VA_ARGS__)
#define TAKES_PLAIN(id) (CODE(0x00, take(1)), MUST(is_raw_record(lent, 0, 0, 0, id, NULL, 0)))
#define SENT CODE(0x00, sent(1))
#define GOES_OF(id, ...) (TAKES_OF(id, __VA_ARGS__), SENT)
#define GOES(...) (TAKES(__VA_ARGS__), SENT)
#define NO_TAKE CODE(0x10, take(1))
#define ADVANCE(us) CODE(0x00, advance(us))
#define SET_UP 0x01, 0xC0, 0x00, 0x10, 0x00, 0x03, 0x01
#define POSITIVE 0x00, 0xD0, 0x00, 0x03, 0x40, 0x07, 0x01
#define OURS(first) first, 0x0F, 0x8A, 0xFF, 0x00, 0xFF

/* whether it stands: none does, one does */
#define NO_LINK GIVES(0x07, 0, receive())
#define LINK GIVES(0x10, 0, receive())

/* the first n of 01 02 03 .. are received */
#define RECEIVES(n) (GIVES(0x00, n, receive()), MUST(memcmp(got, up, n) == 0 && got[n] == 0xEE))

/* power-on, channel 1 narrow */
static void begin(void) {
    CODE(0x00, on->power_on(BOX));
    GIVES(0x00, 1, connect(0, 5, 0));
}

/* .. and the set-up goes out and is answered: the connection set-up waits */
static void connects(uint8_t size, uint8_t t1, uint8_t t3) {
    begin();
    CODE(0x00, begin_link(1, size, t1, t3));
    GOES_OF(0x200, SET_UP);
    REPLY(POSITIVE);
}

/* .. and so does that: it stands, with the module's block size and T3 */
static void stands_with(uint8_t size, uint8_t t1, uint8_t their_size, uint8_t their_t3) {
    connects(size, t1, 0);
    GOES(0xA0, size, t1, 0xFF, 0x00, 0xFF);
    FRAME(0xA1, their_size, 0x8A, 0xFF, their_t3, 0xFF);
    LINK;
}

static void stands(void) { stands_with(15, 0x8A, 15, 0); }

/* ---- the bytes of the connection ---- */

static uint8_t *at(size_t place) { return box + 4 + on->link + place; } /* of channel 1 */

static uint8_t part[1091]; /* as it should be */

static void put_at(size_t place, const uint8_t *b, size_t n) { memcpy(part + place, b, n); }

static void as_opened(uint8_t state) {
    memset(part, 0, sizeof part);
    part[0] = state;
    put_at(1, LIST(0x00, 0x02, 0, 0, 0x00, 0x03, 0, 0, 0x01, 0x01, 0x0F, 0x8A, 0x00));
}

#define HOLDS MUST(memcmp(at(0), part, sizeof part) == 0)
#define HOLDS_NOTHING (memset(part, 0, sizeof part), HOLDS)

/* ---- the examples of the readings ---- */

static void example_1(void) {
    begin();
    HOLDS_NOTHING;
    CODE(0x00, begin_link(1, 15, 0x8A, 0x00));
    as_opened(1), HOLDS;
    NO_LINK;
    TAKES_OF(0x200, SET_UP);
    put_at(19, LIST(1)), HOLDS;
    SENT;
    put_at(19, LIST(2, 0xA0, 0x86, 0x01, 0)), HOLDS;
    ADVANCE(1);
    put_at(20, LIST(0x9F)), HOLDS;
    REPLY(POSITIVE);
    as_opened(2), put_at(14, LIST(0x40, 0x07)), HOLDS;
    TAKES(OURS(0xA0));
    put_at(19, LIST(1)), HOLDS;
    SENT;
    put_at(19, LIST(2, 0xA0, 0x86, 0x01, 0)), HOLDS;
    FRAME(OURS(0xA1));
    as_opened(3), put_at(14, LIST(0x40, 0x07)), put_at(29, LIST(0x0F, 0x00)), put_at(39, LIST(0x40, 0x42, 0x0F, 0)), HOLDS;
    LINK;
}

static void example_2(void) {
    static const uint8_t to_another[] = {0x01, 0xD0, 0x00, 0x03, 0x40, 0x07, 0x01}, other_rx[] = {0x00, 0xD0, 0x01, 0x03, 0x40, 0x07, 0x01};
    begin();
    CODE(0x00, begin_link(1, 15, 0x8A, 0));
    for (int k = 0; k < 11; k++) {
        GOES_OF(0x200, SET_UP);
        NO_TAKE;
        ADVANCE(99999);
        NO_TAKE;
        ADVANCE(1);
    }
    NO_TAKE;
    CODE(0x07, end(1));
    HOLDS_NOTHING;
    CODE(0x00, begin_link(1, 15, 0x8A, 0));
    GOES_OF(0x200, SET_UP);
    FRAME_OF(0x202, POSITIVE);
    CODE(0x00, on->frame(BOX, 0, 0, 0x201, to_another, sizeof to_another));
    CODE(0x00, on->frame(BOX, 0, 0, 0x201, other_rx, sizeof other_rx));
    NO_TAKE;
    GIVES(0x14, 0, (v = 0, begin_link(1, 15, 0x8A, 0)));
    REPLY(0x00, 0xD6, 0, 0, 0, 0, 0);
    HOLDS_NOTHING;
    CODE(0x07, end(1));
}

/* two telegrams of a message of 29 bytes, of which the second asks */
static void first_block(void) {
    GOES(0x20, 1, 2, 3, 4, 5, 6, 7);
    GOES(0x01, 8, 9, 10, 11, 12, 13, 14);
}

static void example_3(void) {
    stands_with(3, 0x8A, 2, 0);
    CODE(0x00, send(29));
    GOES(0x20, 1, 2, 3, 4, 5, 6, 7);
    GOES(0x01, 8, 9, 10, 11, 12, 13, 14);
    NO_TAKE;
    FRAME(0xB2);
    GOES(0x22, 15, 16, 17, 18, 19, 20, 21);
    GOES(0x03, 22, 23, 24, 25, 26, 27, 28);
    FRAME(0xB4);
    CODE(0x11, send(1));
    GOES(0x14, 29);
    CODE(0x11, send(1));
    FRAME(0xB5);
    CODE(0x00, on->link_send(BOX, 1, LIST(0x31)));
    GOES(0x15, 0x31);
    stands_with(2, 0x8A, 3, 0); /* and where ours is the smaller */
    MUST(*at(29) == 2);
    CODE(0x00, send(29));
    first_block();
    NO_TAKE;
}

static void example_4(void) {
    stands();
    CODE(0x00, on->link_send(BOX, 1, LIST(0x3E)));
    for (int k = 0; k < 3; k++) {
        GOES(0x10, 0x3E);
        ADVANCE(99999);
        NO_TAKE;
        CODE(0x11, send(1));
        ADVANCE(1);
    }
    CODE(0x07, send(1));
    GOES(0xA8);
    HOLDS_NOTHING;
    CODE(0x07, send(1));
    stands_with(15, 0xFF, 15, 0);
    CODE(0x00, on->link_send(BOX, 1, LIST(0x3E)));
    GOES(0x10, 0x3E);
    for (int k = 0; k < 6; k++) { /* but for the tests nothing goes */
        ADVANCE(999999);
        NO_TAKE;
        ADVANCE(1);
        GOES(0xA3);
        FRAME(OURS(0xA1));
    }
    FRAME(0xB1);
    CODE(0x00, send(1));
}

static void example_5(void) {
    stands_with(15, 0x8A, 2, 0);
    CODE(0x00, send(29));
    first_block();
    FRAME(0x91);
    ADVANCE(99999);
    NO_TAKE;
    ADVANCE(1);
    GOES(0x01, 8, 9, 10, 11, 12, 13, 14);
    FRAME(0x92);
    ADVANCE(99999);
    NO_TAKE;
    ADVANCE(1);
    GOES(0x22, 15, 16, 17, 18, 19, 20, 21);

    stands_with(15, 0x8A, 2, 0);
    CODE(0x00, send(29));
    for (int k = 0; k < 5; k++) first_block(), FRAME(0xB0);
    first_block();
    FRAME(0xB0);
    CODE(0x07, send(1));
    GOES(0xA8);
    NO_TAKE;
    HOLDS_NOTHING;

    stands_with(15, 0x8A, 1, 0);
    CODE(0x00, send(70));
    for (uint8_t k = 0; k < 10; k++) {
        uint8_t b[8] = {(uint8_t)(k < 9 ? k : 0x19)};
        memcpy(b + 1, up + 7 * k, 7);
        CODE(0x00, take(1));
        MUST(is_raw_record(lent, 0, 0, 0, 0x740, b, 8));
        SENT;
        FRAME((uint8_t)(0x91 + k));
        NO_TAKE;
        ADVANCE(99999);
        NO_TAKE;
        if (k < 9) ADVANCE(1);
    }
    CODE(0x00, send(1)); /* over, and no disconnect */
    NO_TAKE;
}

static void example_6(void) {
    stands_with(15, 0x8A, 15, 0x32);
    CODE(0x00, send(8));
    GIVES(0x00, 1, write(0x123));
    GOES(0x20, 1, 2, 3, 4, 5, 6, 7);
    TAKES_PLAIN(0x123);
    SENT;
    NO_TAKE;
    ADVANCE(4999);
    NO_TAKE;
    ADVANCE(1);
    GOES(0x11, 8);
}

static void example_7(void) {
    stands();
    for (int k = 0; k < 6; k++) {
        ADVANCE(999999);
        NO_TAKE;
        ADVANCE(1);
        GOES(0xA3);
        LINK;
    }
    ADVANCE(1000000);
    NO_LINK;
    GOES(0xA8);
    HOLDS_NOTHING;
    stands();
    FRAME(0xA3);
    GOES(OURS(0xA1));
    NO_TAKE;
}

static void example_8(void) {
    stands();
    FRAME(0x20, 1, 2, 3, 4, 5, 6, 7);
    LINK;
    FRAME(0x11, 8);
    GOES(0xB2);
    FRAME(0x12, 0x99);
    GOES(0x92);
    RECEIVES(8);
    FRAME(0x12, 0x99);
    GOES(0xB3);
    GIVES(0x00, 1, receive());
    MUST(got[0] == 0x99);
    stands();
    FRAME(0x25, 1);
    GOES(0xB0);
    for (int more = 0; more < 2; more++) { /* 512 bytes, 513 bytes */
        stands();
        for (uint32_t k = 0; k < 73; k++) {
            uint8_t b[8] = {(uint8_t)(0x20 | k % 16)};
            memcpy(b + 1, up + 7 * k, 7);
            CODE(0x00, on->frame(BOX, 0, 0, 0x300, b, 8));
        }
        NO_TAKE;
        CODE(0x00, on->frame(BOX, 0, 0, 0x300, (const uint8_t[]){0x19, up[511], 0x55}, 2 + (size_t)more));
        if (!more) {
            GOES(0xBA);
            RECEIVES(512);
        } else {
            NO_LINK;
            GOES(0xA8);
            HOLDS_NOTHING;
        }
    }
    stands();
    CODE(0x00, send(35));
    GOES(0x20, 1, 2, 3, 4, 5, 6, 7);
    FRAME(0xA4);
    GOES(0x11);
    CODE(0x11, send(1));
    FRAME(0xB2);
    CODE(0x00, send(1));
}

/* T2 and T4 of a module's acknowledge are any bytes; ours are FF, also in the answer to a test */
static void example_t2(void) {
    connects(15, 0x8A, 0);
    GOES(OURS(0xA0));
    FRAME(0xA1, 0x0F, 0x8A, 0x12, 0x00, 0x34);
    LINK;
    FRAME(0xA3);
    GOES(OURS(0xA1));
}

/* ---- calls ---- */

/* the codes in their order, and what is kept of them */
static void codes(void) {
    uint32_t twins[4] = {0x1FF, 0x2F0, 0x100, 0};
    begin();
    GIVES(0x00, 2, connect(1, 5, 0x100)); /* wide alone */
    GIVES(0x00, 3, connect(2, 5, 0x900)); /* both */
    GIVES(0x00, 5, connect(0, 6, 0));
    GIVES(0x00, 6, connect(1, 6, 0));
    for (uint32_t channel = 4; channel < 10; channel++) { /* closed ones, and others that are open or none */
        CODE(0x02, begin_link(channel, 0, 0, 0));
        CODE(0x02, on->link_send(BOX, channel, up, 0));
        GIVES(0x02, 0, on->link_receive(BOX, channel, got, 0, &v));
        CODE(0x02, end(channel));
    }
    CODE(0x02, end(0)), CODE(0x02, end(257)), CODE(0x02, end(0xFFFFFFFF));
    GIVES(0x00, 0, last(5)), GIVES(0x00, 0, last(1)), GIVES(0x02, 0, last(4));
    CODE(0x0A, begin_link(2, 15, 0, 0));
    CODE(0x0A, on->link_send(BOX, 2, up, 1));
    GIVES(0x04, 0, on->link_receive(BOX, 2, got, 511, &v));
    GIVES(0x00, 4, last(2));
    GIVES(0x0A, 0, on->link_receive(BOX, 2, got, 512, &v));
    CODE(0x0A, end(2));
    GIVES(0x00, 0x0A, last(2));
    for (int i = 0; i < 4; i++) CODE(0x0A, on->link_open(BOX, 1, twins[i], 0x01, 0x300, 0x01, 15, 0, 0));
    CODE(0x0A, on->link_open(BOX, 1, 0x10200, 0x01, 0x300, 0x01, 15, 0, 0)); /* whole numbers */
    CODE(0x0A, on->link_open(BOX, 1, 0x200, 0xF0, 0x300, 0x01, 15, 0, 0));
    CODE(0x0A, on->link_open(BOX, 1, 0x200, 0x101, 0x300, 0x01, 15, 0, 0));
    CODE(0x0A, on->link_open(BOX, 1, 0x200, 0x01, 0x800, 0x01, 15, 0, 0));
    CODE(0x0A, on->link_open(BOX, 1, 0x200, 0x01, 0x300, 0x02, 15, 0, 0));
    CODE(0x0A, on->link_open(BOX, 1, 0x200, 0x01, 0x300, 0x101, 15, 0, 0));
    CODE(0x0A, on->link_open(BOX, 1, 0x200, 0x01, 0x300, 0x01, 0, 0, 0));
    CODE(0x0A, on->link_open(BOX, 1, 0x200, 0x01, 0x300, 0x01, 16, 0, 0));
    CODE(0x0A, on->link_open(BOX, 1, 0x200, 0x01, 0x300, 0x01, 15, 256, 0));
    CODE(0x0A, on->link_open(BOX, 1, 0x200, 0x01, 0x300, 0x01, 15, 0, 256));
    CODE(0x07, on->link_send(BOX, 1, up, 0)); /* before its length */
    CODE(0x07, on->link_send(BOX, 1, up, 513));
    GIVES(0x04, 0, on->link_receive(BOX, 1, got, 511, &v));
    GIVES(0x07, 0, on->link_receive(BOX, 1, got, 512, &v));
    CODE(0x07, end(1));
    CODE(0x00, on->link_open(BOX, 1, 0x2EF, 0xEF, 0x7FF, 0x21, 1, 255, 255));
    GIVES(0x00, 0x07, last(1)); /* a good one leaves it */
    TAKES_OF(0x2EF, 0xEF, 0xC0, 0x00, 0x10, 0xFF, 0x07, 0x21);
    CODE(0x0A, begin_link(1, 16, 0, 0)); /* before 0x14 */
    CODE(0x14, begin_link(1, 15, 0, 0));
    GIVES(0x00, 0x14, last(1));
    CODE(0x07, send(1)), CODE(0x07, send(513));
    NO_LINK;
    CODE(0x00, on->link_open(BOX, 3, 0x200, 0x00, 0x000, 0x10, 15, 0, 0)); /* with 0x800 narrow ones are taken */
    CODE(0x1A, on->link_open(box, on->memory - 1, 9, 0, 0, 0, 0, 0, 0, 0));
    CODE(0x1A, on->link_send(box, on->memory - 1, 9, up, 0));
    v = 77, GIVES(0x1A, 0, on->link_receive(box, on->memory - 1, 9, got, 0, &v));
    CODE(0x1A, on->link_end(box, on->memory - 1, 9));
    stands();
    CODE(0x0A, send(0)), CODE(0x0A, send(513));
    CODE(0x00, send(512));
    CODE(0x0A, send(513)), CODE(0x11, send(512)); /* the length before it */
    CODE(0x14, begin_link(1, 15, 0, 0));
    GIVES(0x04, 0, on->link_receive(BOX, 1, got, 511, &v));
    LINK;
    CODE(0x00, end(1));
    CODE(0x07, end(1)), CODE(0x07, send(513)), CODE(0x14, begin_link(1, 15, 0, 0));
    NO_LINK;
}

/* a message is moved to the start of a buffer of at least 512 bytes, and is no longer held */
static void fetching(void) {
    stands();
    FRAME(0x10, 1, 2, 3);
    GOES(0xB1);
    GIVES(0x04, 0, on->link_receive(BOX, 1, got, 511, &v));
    RECEIVES(3);
    LINK;
    FRAME(0x11, 4);
    ADVANCE(500000);
    CODE(0x00, end(1));
    NO_LINK; /* it is gone with its connection */
    GOES(0xA8); /* and so is the acknowledge that waited */
}

/* ---- opening ---- */

static void replies(void) {
    begin();
    CODE(0x00, begin_link(1, 15, 0x8A, 0));
    REPLY(POSITIVE); /* before the set-up was even taken */
    TAKES(OURS(0xA0));
    begin();
    CODE(0x00, begin_link(1, 15, 0x8A, 0));
    TAKES_OF(0x200, SET_UP);
    REPLY(POSITIVE); /* while it is in flight */
    TAKES_OF(0x200, SET_UP);
    SENT; /* means nothing to what waits now */
    TAKES(OURS(0xA0));
    begin();
    CODE(0x00, begin_link(1, 15, 0x8A, 0));
    GOES_OF(0x200, SET_UP);
    ADVANCE(100000);
    REPLY(POSITIVE); /* while a repeat waits */
    TAKES(OURS(0xA0));
    for (uint8_t kind = 0xD5; kind <= 0xD9; kind++) {
        begin();
        CODE(0x00, begin_link(1, 15, 0x8A, 0));
        TAKES_OF(0x200, SET_UP);
        FRAME_OF(0x300, 0x00, kind, 1, 2, 3, 4, 5);
        REPLY(0x01, kind, 1, 2, 3, 4, 5);
        REPLY(0x00, kind, 1, 2, 3, 4);
        REPLY(0x00, kind, 1, 2, 3, 4, 5, 6);
        CODE(0x14, begin_link(1, 15, 0x8A, 0));
        REPLY(0x00, kind, 1, 2, 3, 4, 5);
        CODE(kind == 0xD5 || kind == 0xD9 ? 0x14 : 0x00, begin_link(1, 15, 0x8A, 0));
        TAKES_OF(0x200, SET_UP); /* the flight stays */
    }
}

static void replies_that_are_none(void) {
    static const uint8_t other[][8] = {
        {0x00, 0xD0, 0x00, 0x03, 0x40, 0x08, 0x01}, {0x00, 0xD0, 0x00, 0x13, 0x40, 0x07, 0x01}, {0x00, 0xD0, 0x00, 0x03, 0x40, 0x07, 0x10},
        {0x00, 0xD0, 0x00, 0x03, 0x40, 0x07, 0x00}, {0x00, 0xD1, 0x00, 0x03, 0x40, 0x07, 0x01}, {0x00, 0xC0, 0x00, 0x10, 0x00, 0x03, 0x01},
        {0xF0, 0xD0, 0x00, 0x03, 0x40, 0x07, 0x01}, {0xA1, 0x0F, 0x8A, 0xFF, 0x00, 0xFF, 0x00}};
    begin();
    CODE(0x00, begin_link(1, 15, 0x8A, 0));
    GOES_OF(0x200, SET_UP);
    for (size_t i = 0; i < sizeof other / sizeof *other; i++) CODE(0x00, on->frame(BOX, 0, 0, 0x201, other[i], 7));
    REPLY(POSITIVE, 0x00);
    REPLY(0x00, 0xD0, 0x00, 0x03, 0x40, 0x07);
    CODE(0x00, on->frame(BOX, 0, 0, 0x201, NULL, 0));
    CODE(0x00, on->frame(BOX, 1, 0, 0x201, LIST(POSITIVE))); /* another line */
    FRAME(OURS(0xA1));
    FRAME(0xA8);
    ADVANCE(99999);
    NO_TAKE;
    ADVANCE(1); /* the time ran on */
    GOES_OF(0x200, SET_UP);
    REPLY(0x00, 0xD0, 0x00, 0x03, 0x00, 0x03, 0x01); /* its TX-ID may be our RX-ID */
    TAKES_OF(0x300, OURS(0xA0));
    GIVES(0x00, 3, connect(2, 5, 0x800));
    CODE(0x00, begin_link(3, 15, 0x8A, 0));
    CODE(0x00, on->frame(BOX, 2, 1, 0x201, LIST(POSITIVE))); /* a wide one is never its */
    CODE(0x00, take(3));
    MUST(is_raw_record(lent, 0, 0, 0, 0x200, LIST(SET_UP)));
    CODE(0x00, on->frame(BOX, 2, 0, 0x201, LIST(POSITIVE)));
    CODE(0x00, sent(3)), CODE(0x00, take(3));
    MUST(is_raw_record(lent, 0, 0, 0, 0x740, LIST(OURS(0xA0))));
    CODE(0x00, on->frame(BOX, 2, 1, 0x300, LIST(OURS(0xA1))));
    GIVES(0x07, 0, on->link_receive(BOX, 3, got, 512, &v));
}

static void connecting(void) {
    connects(15, 0x8A, 0);
    for (int k = 0; k < 11; k++) {
        TAKES(OURS(0xA0));
        ADVANCE(1000000); /* no time runs while it waits or flies */
        SENT;
        ADVANCE(99999);
        NO_TAKE;
        NO_LINK;
        ADVANCE(1);
    }
    CODE(0x14, begin_link(1, 15, 0x8A, 0));
    CODE(0x07, end(1));
    GOES(0xA8);
    HOLDS_NOTHING;

    connects(15, 0x8A, 0); /* what isn't an acknowledge of connection or a disconnect is ignored */
    FRAME(OURS(0xA0)), FRAME(0x10, 1), FRAME(0xB0), FRAME(0xA3), FRAME(0xA4), FRAME(0xA8, 0), FRAME(0xA1, 0x10, 0, 0, 0, 0), FRAME(0xA1, 0, 0, 0, 0, 0);
    FRAME(0xA1, 15, 0, 0, 0), FRAME(OURS(0xA1), 0), REPLY(POSITIVE), FRAME_OF(0x301, OURS(0xA1)), FRAME_OF(0x740, OURS(0xA1));
    NO_LINK;
    TAKES(OURS(0xA0));
    FRAME(0xA8);
    HOLDS_NOTHING;
    TAKES(OURS(0xA0)); /* the flight stays */
    CODE(0x00, begin_link(1, 15, 0x8A, 0));
    SENT; /* of the connection before */
    GOES_OF(0x200, SET_UP);

    connects(15, 0x8A, 0); /* answered before it is taken */
    FRAME(OURS(0xA1));
    LINK;
    NO_TAKE;
    connects(15, 0x8A, 0); /* and while its repeat is in flight: its sent starts no T3 */
    GOES(OURS(0xA0));
    ADVANCE(100000);
    TAKES(OURS(0xA0));
    FRAME(0xA1, 15, 0x8A, 0xFF, 0x32, 0xFF);
    CODE(0x00, send(1));
    TAKES(OURS(0xA0));
    SENT;
    GOES(0x10, 1);

    connects(15, 0x8A, 0); /* ended: by a disconnect telegram, behind the one in flight */
    TAKES(OURS(0xA0));
    CODE(0x00, end(1));
    FRAME(OURS(0xA1));
    NO_LINK;
    TAKES(OURS(0xA0));
    SENT;
    GOES(0xA8);
    HOLDS_NOTHING;
    begin(); /* while it opens no telegram goes */
    CODE(0x00, begin_link(1, 15, 0x8A, 0));
    CODE(0x00, end(1));
    NO_TAKE;
    HOLDS_NOTHING;
}

/* ---- times ---- */

/* T3 spaces all its telegrams, from sent to take; what is written goes meanwhile */
static void spacing(void) {
    static const struct {
        uint8_t t3;
        uint32_t us;
    } of[] = {{0x01, 100}, {0x3F, 6300}, {0x41, 1000}, {0x81, 10000}, {0xAF, 470000}, {0xC1, 100000}, {0x40, 0}, {0x80, 0}, {0xC0, 0}};
    for (size_t i = 0; i < sizeof of / sizeof *of; i++) {
        stands_with(15, 0xFF, 15, of[i].t3);
        FRAME(0x10, 1), FRAME(0xA3);
        CODE(0x00, send(1));
        GOES(0xA1, 0x0F, 0xFF, 0xFF, 0x00, 0xFF); /* the first at once */
        for (int k = 0; k < 2; k++) {
            if (of[i].us) {
                NO_TAKE;
                ADVANCE(of[i].us - 1);
                NO_TAKE;
                CODE(0x0B, advance(1000001)); /* adds nothing */
                NO_TAKE;
                GIVES(0x00, 1, write(0x123));
                TAKES_PLAIN(0x123);
                SENT;
                ADVANCE(1);
            }
            if (k == 0) TAKES(0xB1);
            if (k == 0) ADVANCE(0); /* from the sent, not from the take */
            if (k == 0) SENT;
        }
        GOES(0x10, 1);
    }
    stands_with(15, 0xFF, 15, 0xFF); /* 6.3 s, no special case */
    FRAME(0x10, 1);
    GOES(0xB1);
    FRAME(0x11, 1);
    for (int k = 0; k < 6; k++) {
        ADVANCE(1000000);
        NO_TAKE;
        FRAME(OURS(0xA1));
    }
    ADVANCE(299999);
    NO_TAKE;
    ADVANCE(1);
    GOES(0xA3); /* the test that waited goes first */
    stands_with(15, 0x8A, 15, 0x8A); /* the disconnect telegram waits for T3 too, and for the one in flight before */
    CODE(0x00, send(1));
    GOES(0x10, 1);
    ADVANCE(50000);
    CODE(0x00, end(1));
    ADVANCE(49999);
    NO_TAKE;
    ADVANCE(1);
    GOES(0xA8);
    stands_with(15, 0x8A, 15, 0x8A);
    CODE(0x00, send(1));
    TAKES(0x10, 1);
    CODE(0x00, end(1));
    ADVANCE(500000);
    TAKES(0x10, 1);
    SENT;
    CODE(0x14, begin_link(1, 15, 0x8A, 0));
    ADVANCE(99999);
    NO_TAKE;
    ADVANCE(1);
    TAKES(0xA8);
    CODE(0x14, begin_link(1, 15, 0x8A, 0));
    SENT;
    CODE(0x00, begin_link(1, 15, 0x8A, 0));
}

/* T_Wait delays data alone, also those of the next message */
static void not_ready(void) {
    stands();
    CODE(0x00, send(1));
    GOES(0x10, 1);
    FRAME(0x91);
    CODE(0x00, send(2)); /* the message is over */
    FRAME(0x20, 1), FRAME(0x01, 2), FRAME(0xA3);
    GOES(OURS(0xA1));
    GOES(0xB2);
    ADVANCE(60000);
    NO_TAKE;
    ADVANCE(40000);
    GOES(0x11, 1, 2);
    FRAME(0x92);
    ADVANCE(60000);
    CODE(0x00, send(1));
    ADVANCE(39999);
    NO_TAKE;
    ADVANCE(1);
    GOES(0x12, 1);
    stands_with(15, 0x00, 3, 0); /* T1 of no length ends at the next advance, also one of 0 */
    CODE(0x00, send(21));
    GOES(0x20, 1, 2, 3, 4, 5, 6, 7);
    GOES(0x21, 8, 9, 10, 11, 12, 13, 14);
    GOES(0x12, 15, 16, 17, 18, 19, 20, 21);
    NO_TAKE;
    ADVANCE(0);
    GOES(0x12, 15, 16, 17, 18, 19, 20, 21);
    FRAME(0x91); /* from the second on, after T_Wait */
    ADVANCE(99999);
    NO_TAKE;
    ADVANCE(1);
    GOES(0x21, 8, 9, 10, 11, 12, 13, 14);
    GOES(0x12, 15, 16, 17, 18, 19, 20, 21);
    for (int k = 0; k < 2; k++) { /* its repeats count anew */
        ADVANCE(0);
        GOES(0x12, 15, 16, 17, 18, 19, 20, 21);
    }
    ADVANCE(0);
    GOES(0xA8);
}

/* acknowledges: awaited from the sent of what asks; another SN lets T1 run on */
static void acknowledges(void) {
    stands_with(15, 0x8A, 2, 0);
    CODE(0x00, send(29));
    GOES(0x20, 1, 2, 3, 4, 5, 6, 7);
    FRAME(0xB1), FRAME(0xB0), FRAME(0x90);
    TAKES(0x01, 8, 9, 10, 11, 12, 13, 14);
    FRAME(0xB2); /* still in flight: not awaited */
    SENT;
    ADVANCE(40000);
    for (uint8_t sn = 3; sn < 16; sn++) FRAME((uint8_t)(0xB0 | sn)), FRAME((uint8_t)(0x90 | sn));
    FRAME(0xB2, 0x00); /* no telegram */
    ADVANCE(59999);
    NO_TAKE;
    ADVANCE(1);
    FRAME(0xB2); /* the repeat waits: not awaited */
    GOES(0x01, 8, 9, 10, 11, 12, 13, 14);
    FRAME(0xB2);
    GOES(0x22, 15, 16, 17, 18, 19, 20, 21);
    GOES(0x03, 22, 23, 24, 25, 26, 27, 28);
    for (int k = 0; k < 2; k++) { /* the repeats of each block for itself */
        ADVANCE(100000);
        GOES(0x03, 22, 23, 24, 25, 26, 27, 28);
    }
    for (int k = 0; k < 5; k++) { /* asked for again five times, and the repeats on T1 count anew each time */
        FRAME((uint8_t)(k % 2 ? 0xB3 : 0x93));
        ADVANCE(100000);
        GOES(0x03, 22, 23, 24, 25, 26, 27, 28);
        ADVANCE(100000);
        FRAME(0xA3);
        GOES(OURS(0xA1)); /* T_CTa anew */
        GOES(0x03, 22, 23, 24, 25, 26, 27, 28);
    }
    FRAME(0xB4); /* the next block counts from 0 */
    for (int k = 0; k < 5; k++) GOES(0x14, 29), FRAME(0xB4);
    GOES(0x14, 29);
    FRAME(0x94);
    NO_LINK;
    GOES(0xA8);
}

/* 74 telegrams with a block size of 15: every fifteenth asks, SN modulo 16 */
static void longest(void) {
    stands();
    for (uint32_t n = 512, sn = 0; n >= 505; n -= 7) {
        CODE(0x00, send(n));
        for (uint32_t k = 0, all = (n + 6) / 7; k < all; k++, sn++) {
            uint32_t part_n = n - 7 * k < 7 ? n - 7 * k : 7;
            int asks = k % 15 == 14 || k + 1 == all;
            uint8_t b[8] = {(uint8_t)((asks ? 0 : 0x20) | (k + 1 == all ? 0x10 : 0) | sn % 16)};
            memcpy(b + 1, up + 7 * k, part_n);
            CODE(0x00, take(1));
            MUST(is_raw_record(lent, 0, 0, 0, 0x740, b, 1 + part_n));
            SENT;
            if (!asks) continue;
            NO_TAKE;
            FRAME((uint8_t)(0xB0 | (sn + 1) % 16));
        }
        MUST(word(at(56)) == 0 && *at(48) == 0);
    }
}

/* ---- tests ---- */

static void tests(void) {
    stands();
    ADVANCE(600000);
    CODE(0x00, send(1)); /* data doesn't start T_CTa anew */
    GOES(0x10, 1);
    FRAME(0xB1);
    FRAME(0x00, 1);
    GOES(0xB1);
    ADVANCE(399999);
    NO_TAKE;
    ADVANCE(1);
    ADVANCE(1000000); /* no time runs while it waits or flies */
    TAKES(0xA3);
    ADVANCE(1000000);
    SENT;
    ADVANCE(999999);
    NO_TAKE;
    FRAME(0xA1, 0x01, 0x00, 0x00, 0x3F, 0x00); /* answered; its values change nothing */
    ADVANCE(1);
    for (int k = 0; k < 6; k++) {
        GOES(0xA3);
        ADVANCE(1000000);
        LINK;
        if (k == 4) FRAME(OURS(0xA1)); /* answered late, while the next waits */
    }
    for (int k = 0; k < 4; k++) {
        GOES(0xA3);
        ADVANCE(1000000);
        LINK;
    }
    GOES(0xA3);
    ADVANCE(1000000);
    NO_LINK;
    GOES(0xA8);

    stands();
    for (int k = 0; k < 3; k++) {
        ADVANCE(1000000);
        GOES(0xA3);
    }
    FRAME(OURS(0xA1)); /* answered while T_CTa runs: six more go unanswered */
    for (int k = 0; k < 6; k++) {
        ADVANCE(1000000);
        GOES(0xA3);
        LINK;
    }
    ADVANCE(1000000);
    GOES(0xA8);

    stands();
    ADVANCE(1000000);
    FRAME(0xA3); /* the partner's: ours that waits is withdrawn, T_CTa anew */
    GOES(OURS(0xA1));
    NO_TAKE;
    ADVANCE(999999);
    NO_TAKE;
    ADVANCE(1);
    GOES(0xA3);
    ADVANCE(500000);
    FRAME(0xA3);
    ADVANCE(500000);
    GOES(OURS(0xA1));
    NO_TAKE;
    ADVANCE(500000);
    GOES(0xA3);
    FRAME(0xA3, 0), FRAME(0xA1), FRAME(0xA0), FRAME(0xA5), FRAME(0x40), FRAME(0x80), FRAME(0xC0), FRAME(0xFF); /* none of them is a telegram */
    NO_TAKE;
}

/* Table 6: connection acknowledge, test, acknowledge, data */
static void priorities(void) {
    stands();
    CODE(0x00, send(1));
    FRAME(0x00, 1);
    ADVANCE(999999);
    FRAME(0xA3);
    TAKES(OURS(0xA1));
    ADVANCE(1000000);
    SENT;
    TAKES(0xA3);
    FRAME(0xA3);
    SENT;
    GOES(OURS(0xA1));
    GOES(0xB1);
    GOES(0x10, 1);
    stands();
    CODE(0x00, send(1));
    FRAME(0x00, 1), FRAME(0xA3);
    ADVANCE(1000000); /* all four wait */
    GOES(OURS(0xA1));
    GOES(0xA3);
    GOES(0xB1);
    GOES(0x10, 1);
}

/* ---- received data ---- */

static void receptions(void) {
    stands();
    FRAME(0x10); /* a message of no bytes is acknowledged, and is none */
    GOES(0xB1);
    LINK;
    FRAME(0x31, 1, 2); /* an end that doesn't ask */
    NO_TAKE;
    FRAME(0x22, 9); /* while it isn't fetched nothing is taken, with a right number or a wrong one */
    FRAME(0x25, 9);
    NO_TAKE;
    FRAME(0x15, 9);
    GOES(0x92);
    FRAME(0x02, 9);
    RECEIVES(2);
    GOES(0x92); /* fetching is no cause: the acknowledge is as it was */
    FRAME(0x22, 1, 2, 3), FRAME(0x03), FRAME(0x24, 4); /* one acknowledge waits, with the SN expected when it is taken */
    GOES(0xB5);
    FRAME(0x04, 5); /* known already: dropped */
    FRAME(0x2F, 5);
    GOES(0xB5);
    NO_TAKE;
    FRAME(0x15, 5);
    TAKES(0xB6);
    FRAME(0x16, 7);
    SENT;
    GOES(0x96);
    RECEIVES(5);
    FRAME(0x16, 1, 2, 3, 4, 5, 6, 7);
    FRAME(0x17, 9);
    GOES(0x97); /* a later cause decides */
    RECEIVES(7);
    for (uint32_t k = 7; k < 40; k++) { /* the number runs on modulo 16 */
        FRAME((uint8_t)(0x10 | k % 16), 1);
        GOES((uint8_t)(0xB0 | (k + 1) % 16));
        RECEIVES(1);
    }
    ADVANCE(1000000); /* half of a message waits for ever */
    FRAME(0x28, 1, 2);
    for (int k = 0; k < 20; k++) {
        GOES(0xA3);
        FRAME(OURS(0xA1));
        ADVANCE(1000000);
    }
    FRAME(0x19, 3);
    GOES(0xA3);
    GOES(0xBA);
    RECEIVES(3);
}

/* both ways at once: each has its own numbers */
static void both_ways(void) {
    stands_with(15, 0xFF, 1, 0);
    CODE(0x00, send(9));
    FRAME(0x00, 1, 2, 3);
    GOES(0xB1);
    GOES(0x00, 1, 2, 3, 4, 5, 6, 7);
    FRAME(0x01, 4, 5);
    FRAME(0xB1);
    GOES(0xB2);
    TAKES(0x11, 8, 9);
    FRAME(0x12, 6);
    SENT;
    GOES(0xB3);
    RECEIVES(6);
    CODE(0x11, send(1));
    FRAME(0xB2);
    CODE(0x00, send(1));
}

/* ---- breaks ---- */

static void breaks(void) {
    stands_with(15, 0x8A, 2, 0);
    FRAME(0xA4); /* nothing under way */
    CODE(0x00, send(35));
    FRAME(0xA4); /* nothing taken yet */
    FRAME(0xA4); /* once more changes nothing */
    GOES(0x10);
    FRAME(0xA4); /* all taken */
    CODE(0x11, send(1));
    FRAME(0xB1);
    CODE(0x00, send(35));
    GOES(0x21, 1, 2, 3, 4, 5, 6, 7);
    TAKES(0x02, 8, 9, 10, 11, 12, 13, 14);
    FRAME(0xA4); /* a telegram that asks is in flight: its acknowledge is no longer awaited */
    SENT;
    FRAME(0xB3);
    GOES(0x13);
    ADVANCE(100000); /* a block of its own: T1, and asked for again */
    GOES(0x13);
    FRAME(0xB3);
    GOES(0x13);
    FRAME(0xB4);
    CODE(0x00, send(15));
    GOES(0x24, 1, 2, 3, 4, 5, 6, 7);
    GOES(0x05, 8, 9, 10, 11, 12, 13, 14);
    ADVANCE(90000);
    FRAME(0xA4); /* T1 stops */
    ADVANCE(100000);
    GOES(0x16);
    FRAME(0x97); /* not ready: the message is over, the next one waits */
    CODE(0x00, send(8));
    FRAME(0xA4);
    ADVANCE(99999);
    NO_TAKE; /* T_Wait still holds it back */
    ADVANCE(1);
    GOES(0x17);
    FRAME(0xB8);
    CODE(0x00, send(8));
    GOES(0x28, 1, 2, 3, 4, 5, 6, 7);
    GOES(0x19, 8);
    FRAME(0xA4); /* the last telegram is out */
    ADVANCE(99999);
    NO_TAKE;
    ADVANCE(1);
    GOES(0x19, 8);
    FRAME(0xA4, 0x00); /* no telegram */
    FRAME(0xBA);
    CODE(0x00, send(8));
    GOES(0x2A, 1, 2, 3, 4, 5, 6, 7);
    stands_with(15, 0x8A, 15, 0x32);
    CODE(0x00, send(35));
    GOES(0x20, 1, 2, 3, 4, 5, 6, 7);
    FRAME(0xA4);
    ADVANCE(4999);
    NO_TAKE; /* T3 too */
    ADVANCE(1);
    GOES(0x11);
}

/* ---- the end ---- */

static void ends(void) {
    stands();
    CODE(0x00, send(29));
    FRAME(0x00, 1), FRAME(0xA3);
    CODE(0x00, end(1)); /* everything that waits is dropped */
    FRAME(0xA3), FRAME(0x01, 2), FRAME(0xA8), FRAME(OURS(0xA1)), REPLY(POSITIVE);
    NO_LINK;
    ADVANCE(1000000);
    GOES(0xA8);
    NO_TAKE;
    HOLDS_NOTHING;
    CODE(0x07, end(1));

    stands(); /* a disconnect of the partner: over at once, the flight stays */
    CODE(0x00, send(29));
    TAKES(0x20, 1, 2, 3, 4, 5, 6, 7);
    FRAME(0x10, 1);
    FRAME(0xA8);
    HOLDS_NOTHING;
    CODE(0x07, send(1)), CODE(0x07, end(1));
    NO_LINK;
    CODE(0x00, begin_link(1, 15, 0x8A, 0));
    TAKES(0x20, 1, 2, 3, 4, 5, 6, 7);
    SENT; /* means nothing to the next connection */
    MUST(*at(19) == 0);
    TAKES_OF(0x200, SET_UP);

    for (int how = 0; how < 2; how++) { /* of the channel: no telegram, the flight gone too */
        stands();
        CODE(0x00, send(29));
        TAKES(0x20, 1, 2, 3, 4, 5, 6, 7);
        CODE(0x00, how ? on->close(BOX) : on->disconnect(BOX, 1));
        HOLDS_NOTHING;
        CODE(0x02, end(1));
        GIVES(0x00, 1, connect(0, 5, 0));
        NO_TAKE;
        NO_LINK;
    }
}

/* ---- among everything else ---- */

static void choice(void) {
    uint8_t r[RAW_RECORD], every[RAW_RECORD];
    stands();
    CODE(0x00, send(8));
    record_at(r, RAW_RECORD, 5, 0, 0, 0, 0, 0x111, NULL, 0);
    record_at(every, RAW_RECORD, 5, 0, 0, 0, 0, 0, NULL, 0);
    GIVES(0x00, 1, on->start_periodic(BOX, 1, r, RAW_RECORD, 5, &v));
    GIVES(0x00, 1, write(0x123));
    TAKES_PLAIN(0x111);
    SENT;
    TAKES(0x20, 1, 2, 3, 4, 5, 6, 7);
    ADVANCE(5000);
    TAKES(0x20, 1, 2, 3, 4, 5, 6, 7); /* the flight before all */
    SENT;
    TAKES_PLAIN(0x111);
    SENT;
    GOES(0x11, 8);
    TAKES_PLAIN(0x123);
    SENT;
    NO_TAKE;
    CODE(0x00, on->stop_periodic(BOX, 1, 1));
    FRAME(0xB2);
    GIVES(0x10, 0, read(1)); /* no filter: nothing is queued, and the connection heard it */
    GIVES(0x00, 1, on->start_filter(BOX, 1, 1, every, RAW_RECORD, every, RAW_RECORD, NULL, 0, &v));
    CODE(0x00, send(1));
    CODE(0x00, on->set(BOX, 1, 3, 1));
    GOES(0x12, 1);
    FRAME(0xB3);
    GIVES(0x09, 2, read(3));
    MUST(is_raw_record(lent, 1, 0, 5000, 0x740, LIST(0x12, 1)) && is_raw_record(lent + RAW_RECORD, 0, 0, 5000, 0x300, LIST(0xB3)));
    CODE(0x00, on->set(BOX, 1, 3, 0));
    CODE(0x00, send(8));
    FRAME(0x00, 1), FRAME(0x31, 2);
    GIVES(0x00, 1, write(0x123));
    for (uint32_t kind = 1; kind <= 4; kind++) CODE(0x00, on->clear(BOX, 1, kind));
    CODE(0x05, on->set(BOX, 1, 1, 125000)), CODE(0x00, on->set(BOX, 1, 1, 250000));
    GOES(0xB2); /* none of them touched it */
    GOES(0x23, 1, 2, 3, 4, 5, 6, 7);
    GOES(0x14, 8);
    RECEIVES(2);
    NO_TAKE;
}

/* one on each line; none knows of another, nor an ISO 15765 channel of what they send */
static void four(void) {
    static const uint32_t tx[4] = {0x740, 0x741, 0x742, 0x743};
    CODE(0x00, on->power_on(BOX));
    for (uint32_t line = 0; line < 4; line++) {
        uint8_t reply[7] = {POSITIVE};
        reply[4] = (uint8_t)(0x40 + line);
        GIVES(0x00, line + 1, connect(line, 5, line % 2 ? 0x800 : 0));
        GIVES(0x00, line + 5, connect(line, 6, 0));
        CODE(0x00, begin_link(line + 1, 15, 0x8A, 0));
        CODE(0x00, take(line + 1)), CODE(0x00, sent(line + 1));
        CODE(0x00, on->frame(BOX, line, 0, 0x201, reply, 7));
        CODE(0x00, take(line + 1)), CODE(0x00, sent(line + 1));
        MUST(is_raw_record(lent, 0, 0, 0, tx[line], LIST(OURS(0xA0))));
    }
    for (uint32_t line = 0; line < 4; line++) {
        CODE(0x00, on->frame(BOX, line, 0, 0x300, LIST(OURS(0xA1))));
        for (uint32_t other = 0; other < 4; other++)
            GIVES(other <= line ? 0x10 : 0x07, 0, on->link_receive(BOX, other + 1, got, 512, &v));
    }
    for (uint32_t line = 0; line < 4; line++) CODE(0x00, on->link_send(BOX, line + 1, up, 10 + line));
    for (uint32_t k = 0; k < 2; k++)
        for (uint32_t line = 0; line < 4; line++) {
            uint8_t b[8] = {(uint8_t)(k ? 0x11 : 0x20)};
            memcpy(b + 1, up + 7 * k, 7);
            CODE(0x00, take(line + 1));
            MUST(is_raw_record(lent, 0, 0, 0, tx[line], b, k ? 4 + line : 8));
            CODE(0x00, sent(line + 1));
        }
    CODE(0x00, end(3));
    CODE(0x00, on->frame(BOX, 1, 0, 0x300, LIST(0xB2)));
    CODE(0x00, on->disconnect(BOX, 4));
    CODE(0x11, on->link_send(BOX, 1, up, 1)), CODE(0x00, on->link_send(BOX, 2, up, 1)), CODE(0x07, on->link_send(BOX, 3, up, 1));
    CODE(0x02, on->link_send(BOX, 4, up, 1));
    for (uint32_t channel = 5; channel <= 8; channel++) CODE(0x10, on->take(BOX, channel, lent, sizeof lent));
}

/* a listener has none: 0x01 whatever is asked, and frames of a module and time leave it without one. A connection of another line goes on */
static void listener(void) {
    static const uint32_t flags[4] = {0x10000000, 0x10000100, 0x10000800, 0x10000900};
    stands();
    for (uint32_t i = 0; i < 4; i++) {
        GIVES(0x00, 2, connect(1, 5, flags[i]));
        memcpy(part, box + 4 + on->raw_region + on->link, sizeof part);
        for (int turn = 0; turn < 2; turn++) { /* before and after the frames that would open one */
            CODE(0x01, begin_link(2, 15, 0x8A, 0));
            CODE(0x01, begin_link(2, 0, 256, 256));
            CODE(0x01, on->link_send(BOX, 2, up, 1));
            CODE(0x01, on->link_send(BOX, 2, up, 0));
            GIVES(0x01, 0, on->link_receive(BOX, 2, got, 512, &v));
            GIVES(0x01, 0, on->link_receive(BOX, 2, got, 0, &v));
            CODE(0x01, end(2));
            CODE(0x01, take(2)), CODE(0x01, sent(2));
            GIVES(0x00, 0x01, last(2));
            CODE(0x00, on->frame(BOX, 1, 0, 0x201, LIST(POSITIVE))), CODE(0x00, on->frame(BOX, 1, 0, 0x300, LIST(OURS(0xA1))));
            ADVANCE(1000);
        }
        MUST(memcmp(part, box + 4 + on->raw_region + on->link, sizeof part) == 0);
        CODE(0x00, on->disconnect(BOX, 2));
    }
    LINK;
    CODE(0x00, send(3));
    GOES(0x10, 1, 2, 3);
}

/* times run over the end of the clock */
static void wrap(void) {
    begin();
    for (int i = 0; i < 4294; i++) ADVANCE(1000000);
    ADVANCE(900000);
    CODE(0x00, begin_link(1, 15, 0x8A, 0));
    GOES_OF(0x200, SET_UP);
    ADVANCE(99999); /* 4,294,999,999 in all */
    NO_TAKE;
    ADVANCE(1);
    GOES_OF(0x200, SET_UP);
}

/* ---- which bytes are valid: one byte or number other than it may be, in states that were reached ---- */

static void byte(size_t place, uint8_t value, int good, int line) {
    uint8_t was = *at(place);
    *at(place) = value;
    must(on->valid(BOX) == good, good ? "a byte that may be" : "a byte that may not be", line);
    *at(place) = was;
    must(on->valid(BOX), "as it was", line);
}

static void number(size_t place, uint32_t value, int good, int line) {
    uint32_t was = word(at(place));
    put_word(at(place), value);
    must(on->valid(BOX) == good, good ? "a number that may be" : "a number that may not be", line);
    put_word(at(place), was);
}

#define NO_BYTE(place, value) byte(place, value, 0, __LINE__)
#define A_BYTE(place, value) byte(place, value, 1, __LINE__)
#define NO_NUMBER(place, value) number(place, value, 0, __LINE__)
#define A_NUMBER(place, value) number(place, value, 1, __LINE__)

/* these places play no part */
static void zeros(size_t from, size_t to, int line) {
    for (size_t place = from; place < to; place++) byte(place, 1, 0, line), byte(place, 0x80, 0, line);
}
#define ZEROS(from, to) zeros(from, to, __LINE__)

enum { OWN = 1, RX = 5, DESTINATION = 9, APPLICATION, SIZE, T1, T3, TX = 14, TRIES = 18, TRIAL, TRIAL_LEFT, LEAVING = 24, LEAVING_LEFT, BLOCK = 29,
       PACE, WIRE, WIRE_LEFT, ANSWERS = 36, TESTS, UNANSWERED, TEST_LEFT, HOLD = 43, SN = 47, OUT, OUT_LEFT, TAKEN = 53, REPEATS, AGAIN, REST_N,
       REST = 60, EXPECTED = 572, ACKNOWLEDGES, COMPLETE, IN_N, IN = 579, PART = 1091 };

static void valid_asked(void) {
    NO_NUMBER(OWN, 0x1FF), A_NUMBER(OWN, 0x2EF), NO_NUMBER(OWN, 0x2F0), NO_NUMBER(OWN, 0x10200), A_NUMBER(RX, 0x7FF), NO_NUMBER(RX, 0x800);
    A_BYTE(DESTINATION, 0xEF), NO_BYTE(DESTINATION, 0xF0), NO_BYTE(APPLICATION, 0), A_BYTE(APPLICATION, 0x21), NO_BYTE(APPLICATION, 0x11);
    NO_BYTE(SIZE, 0), NO_BYTE(SIZE, 16), A_BYTE(T3, 0xFF);
}

static void valid_opening(void) {
    begin();
    ZEROS(0, PART); /* none is there */
    CODE(0x00, begin_link(1, 15, 0x8A, 0));
    valid_asked();
    NO_BYTE(0, 0), NO_BYTE(0, 2 + 2), NO_BYTE(0, 3), NO_BYTE(0, 5), A_BYTE(0, 2), A_BYTE(SIZE, 1), A_BYTE(T1, 0);
    ZEROS(TX, TRIES), ZEROS(TRIAL_LEFT, PART), A_BYTE(TRIES, 10), NO_BYTE(TRIES, 11), A_BYTE(TRIAL, 1), NO_BYTE(TRIAL, 2), NO_BYTE(TRIAL, 3);
    box[4 + 2] = 1; /* the channel's flags: a connection needs one that takes narrow frames */
    MUST(!on->valid(BOX));
    box[4 + 2] = 9;
    MUST(on->valid(BOX));
    box[4 + 2] = 0;
    TAKES_OF(0x200, SET_UP);
    NO_NUMBER(TRIAL_LEFT, 1), A_BYTE(TRIAL, 0); /* the flight isn't compared with it */
    SENT;
    A_NUMBER(TRIAL_LEFT, 100000);
    NO_NUMBER(TRIAL_LEFT, 0), A_NUMBER(TRIAL_LEFT, 1), NO_NUMBER(TRIAL_LEFT, 100001), NO_BYTE(TRIAL, 1), NO_BYTE(TRIAL, 0), NO_BYTE(TRIAL, 3);
    REPLY(POSITIVE);
    valid_asked();
    A_NUMBER(TX, 0), A_NUMBER(TX, 0x7FF), NO_NUMBER(TX, 0x800), ZEROS(TRIAL_LEFT, PART), NO_BYTE(0, 0), NO_BYTE(0, 1), NO_BYTE(0, 3), NO_BYTE(0, 4);
}

static void valid_standing(void) {
    stands_with(15, 0x8A, 3, 0x32);
    valid_asked();
    NO_BYTE(0, 0), NO_BYTE(0, 1), NO_BYTE(0, 2), NO_BYTE(0, 4), NO_NUMBER(TX, 0x800), ZEROS(TRIES, BLOCK);
    NO_BYTE(BLOCK, 0), A_BYTE(BLOCK, 15), NO_BYTE(BLOCK, 16), NO_BYTE(SIZE, 2), A_BYTE(SIZE, 3), A_BYTE(PACE, 0xFF);
    A_NUMBER(WIRE_LEFT, 5000), NO_NUMBER(WIRE_LEFT, 5001), NO_BYTE(WIRE, 1), A_BYTE(WIRE, 2), A_BYTE(WIRE, 3), NO_BYTE(WIRE, 4);
    A_BYTE(ANSWERS, 1), NO_BYTE(ANSWERS, 2), A_BYTE(TESTS, 1), NO_BYTE(TESTS, 2), A_BYTE(UNANSWERED, 6), NO_BYTE(UNANSWERED, 7);
    A_NUMBER(TEST_LEFT, 1), A_NUMBER(TEST_LEFT, 1000000), NO_NUMBER(TEST_LEFT, 1000001), NO_NUMBER(TEST_LEFT, 0);
    A_NUMBER(HOLD, 100000), NO_NUMBER(HOLD, 100001), A_BYTE(SN, 15), NO_BYTE(SN, 16), A_BYTE(OUT, 1), NO_BYTE(OUT, 2), NO_BYTE(OUT, 3);
    ZEROS(OUT_LEFT, EXPECTED);
    A_BYTE(EXPECTED, 15), NO_BYTE(EXPECTED, 16), A_BYTE(ACKNOWLEDGES, 2), NO_BYTE(ACKNOWLEDGES, 3), NO_BYTE(COMPLETE, 1), NO_BYTE(COMPLETE, 2);
    A_NUMBER(IN_N, 512), NO_NUMBER(IN_N, 513), ZEROS(IN, PART);
    ADVANCE(1000000);
    A_NUMBER(TEST_LEFT, 1), NO_BYTE(TESTS, 0); /* not all 0 of T_CTa, a test that waits, a test in flight */
    TAKES(0xA3);
    NO_NUMBER(WIRE_LEFT, 1), NO_BYTE(WIRE, 0), NO_BYTE(WIRE, 3);
    SENT;
    FRAME(0x30, 1);
    MUST(*at(COMPLETE) == 1 && word(at(IN_N)) == 1);
    A_BYTE(COMPLETE, 0), A_BYTE(IN, 0), NO_NUMBER(IN_N, 0), ZEROS(IN + 1, PART);
}

/* with a message under way: three telegrams a block */
static void valid_message(void) {
    stands_with(15, 0x8A, 3, 0);
    CODE(0x00, send(29));
    MUST(*at(OUT) == 1 && word(at(REST_N)) == 29 && *at(TAKEN) == 0);
    NO_BYTE(OUT, 0), NO_BYTE(OUT, 2), NO_NUMBER(OUT_LEFT, 1), A_BYTE(TAKEN, 2), NO_BYTE(TAKEN, 3), A_BYTE(REPEATS, 2), NO_BYTE(REPEATS, 3);
    A_BYTE(AGAIN, 5), NO_BYTE(AGAIN, 6), NO_NUMBER(REST_N, 28), A_NUMBER(REST_N, 512), NO_NUMBER(REST_N, 513), ZEROS(REST + 29, EXPECTED);
    A_BYTE(WIRE, 1), A_BYTE(BLOCK, 1);
    for (int k = 0; k < 2; k++) CODE(0x00, take(1)), SENT;
    A_BYTE(TAKEN, 0), NO_BYTE(BLOCK, 2), A_BYTE(BLOCK, 4);
    CODE(0x00, take(1));
    MUST(*at(WIRE) == 1 && *at(TAKEN) == 3);
    A_BYTE(TAKEN, 0), NO_BYTE(TAKEN, 4), NO_BYTE(WIRE, 0), NO_BYTE(WIRE, 3), NO_BYTE(OUT, 2), NO_BYTE(OUT, 0), NO_BYTE(BLOCK, 2), A_BYTE(BLOCK, 5);
    SENT;
    MUST(*at(OUT) == 2 && word(at(OUT_LEFT)) == 100000);
    NO_BYTE(OUT, 1), NO_BYTE(OUT, 3), NO_BYTE(TAKEN, 2), NO_BYTE(TAKEN, 4), NO_BYTE(WIRE, 1), A_BYTE(WIRE, 2), NO_BYTE(BLOCK, 4);
    A_NUMBER(OUT_LEFT, 1), NO_NUMBER(OUT_LEFT, 0), NO_NUMBER(OUT_LEFT, 100001), NO_BYTE(REPEATS, 3), NO_BYTE(AGAIN, 6);
    NO_BYTE(T1, 0xFF), NO_BYTE(T1, 0x89), A_BYTE(T1, 0x8B), NO_BYTE(T1, 0);
    put_word(at(OUT_LEFT), 0);
    *at(T1) = 0xFF;
    MUST(on->valid(BOX)); /* T1 that never ends, or ends at once, has nothing left */
    NO_NUMBER(OUT_LEFT, 1), A_BYTE(T1, 0x00), A_BYTE(T1, 0x40), NO_BYTE(T1, 0x01);
    *at(T1) = 0x8A, put_word(at(OUT_LEFT), 100000);
    FRAME(0xA4); /* the empty telegram has no bytes */
    MUST(*at(OUT) == 1 && word(at(REST_N)) == 0 && *at(TAKEN) == 0 && *at(SN) == 3);
    NO_BYTE(TAKEN, 1), ZEROS(REST, EXPECTED);
    A_BYTE(OUT, 0); /* nothing tells it from none */
}

static void valid_leaving(void) {
    stands_with(15, 0x8A, 3, 0x8A);
    CODE(0x00, send(1));
    TAKES(0x10, 1);
    CODE(0x00, end(1));
    MUST(*at(0) == 4 && *at(LEAVING) == 1 && word(at(LEAVING_LEFT)) == 0x8A);
    ZEROS(OWN, TX), ZEROS(TRIES, LEAVING), ZEROS(BLOCK, PART), A_NUMBER(TX, 0x7FF), NO_NUMBER(TX, 0x800), NO_BYTE(0, 0), NO_BYTE(0, 2), NO_BYTE(0, 3);
    A_NUMBER(LEAVING_LEFT, 255), NO_NUMBER(LEAVING_LEFT, 256), A_BYTE(LEAVING, 0), NO_BYTE(LEAVING, 2), NO_BYTE(LEAVING, 3);
    SENT;
    MUST(*at(LEAVING) == 0 && word(at(LEAVING_LEFT)) == 100000);
    A_NUMBER(LEAVING_LEFT, 6300000), NO_NUMBER(LEAVING_LEFT, 6300001), NO_BYTE(LEAVING, 1), NO_BYTE(LEAVING, 2);
    ADVANCE(100000);
    TAKES(0xA8);
    MUST(*at(LEAVING) == 2);
    NO_NUMBER(LEAVING_LEFT, 1), A_BYTE(LEAVING, 1), NO_BYTE(LEAVING, 3);
    SENT;
    ZEROS(0, PART);
}

int main(void) {
    void (*const stories[])(void) = {
        example_1, example_2,    example_3, example_4,  example_5,  example_6,     example_7,      example_8,     example_t2, codes, fetching,
        replies,   replies_that_are_none,   connecting, spacing,    not_ready,     acknowledges,   longest,       tests,      priorities,
        receptions, both_ways,   breaks,    ends,       choice,     four,          listener,       wrap,          valid_opening, valid_standing,
        valid_message, valid_leaving};
    for (size_t i = 0; i < sizeof up; i++) up[i] = (uint8_t)(i + 1);
    for (const side *const *s = sides; *s; s++)
        for (size_t i = 0; i < sizeof stories / sizeof *stories; i++) on = *s, stories[i]();
    printf("stories of TP2.0 connections worked out by hand: %lu looks\n", looks);
    return 0;
}
