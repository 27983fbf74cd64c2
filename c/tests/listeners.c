/* Listeners: `listeners [SEED [ROUNDS]]`. Stories worked out by hand, told to all sides (iso_side.h): what a listener doesn't do, what it does, an
 * ISO 15765 channel beside it, which memories of one are valid. Then random calls on two boxes that differ in the listeners' flag alone: what doesn't
 * send must be answered alike and change the same, and what sends must be refused. */
#include <stdio.h>
#include <stdlib.h>
#include <string.h>

#include "iso_side.h"
#include "random.h"

enum { WIDE = 0x100, BOTH = 0x800, LISTENER = 0x10000000, FLAGS = 1, STORE = 1149, MANY = 40 };
enum { WRITTEN = RAW_PERIODICS + 450, FLYING = WRITTEN + 577 }; /* where they are counted in a raw region */

static uint8_t memories[2][TWIN_MEMORY], before[TWIN_MEMORY], every[RAW_RECORD], records[MANY * RAW_RECORD];
static const uint32_t all_flags[4] = {0, WIDE, BOTH, BOTH | WIDE};
static unsigned long looks, refusals, alike;

static void must(int true_, const char *what) {
    looks++;
    if (true_) return;
    fprintf(stderr, "listeners: %s, look %lu, random call %lu\n", what, looks, alike);
    exit(1);
}

/* a call on every side, k being the side */
#define EACH(call) \
    for (int k = 0; sides[k]; k++) must(sides[k]->call, #call)
#define MEMORY memories[k], TWIN_MEMORY

static size_t region(uint32_t channel) { return TWIN_CLOCK + (channel - 1) * RAW_REGION; }

static void last_is(uint32_t channel, uint32_t code) {
    uint32_t v;
    EACH(last_error(MEMORY, channel, (v = 77, &v)) == 0x00 && v == code);
}

static void connect(uint32_t line, uint32_t protocol, uint32_t flags) {
    uint32_t v;
    EACH(connect(MEMORY, line, protocol, flags, 500000, &v) == 0x00 && v == line + (protocol == 5 ? 1 : 5));
}

static void begin(uint32_t flags) {
    EACH(power_on(MEMORY) == 0x00);
    connect(0, 5, flags);
}

static void start(uint32_t channel, uint32_t type, uint32_t wide, uint32_t id) {
    uint8_t mask[RAW_RECORD], pattern[RAW_RECORD];
    uint32_t v;
    record_at(mask, RAW_RECORD, 5, 0, wide ? WIDE : 0, 0, 0, id ? 0xFFFFFFFF : 0, NULL, 0);
    record_at(pattern, RAW_RECORD, 5, 0, wide ? WIDE : 0, 0, 0, id, NULL, 0);
    EACH(start_filter(MEMORY, channel, type, mask, RAW_RECORD, pattern, RAW_RECORD, NULL, 0, &v) == 0x00);
}

static void frame(uint32_t line, uint32_t wide, uint32_t id, uint8_t byte) { EACH(frame(MEMORY, line, wide, id, &byte, 1) == 0x00); }

/* a read of n gives this code and so many records; the first is this frame, come at this time */
static void reads(uint32_t channel, uint32_t n, uint32_t code, uint32_t count, uint32_t wide, uint32_t id, uint32_t time, uint8_t byte) {
    uint32_t v;
    for (int k = 0; sides[k]; k++) {
        must(sides[k]->read(MEMORY, channel, n, records, sizeof records, &v) == code && v == count, "a read");
        if (count) must(is_raw_record(records, wide ? WIDE : 0, 0, time, id, &byte, 1), "a record read");
    }
}

/* ---- what it doesn't do ---- */

enum { REFUSED = 15 };
static uint8_t lent[MESSAGE];

/* call number n: each of the eight as it could be good, then with what would be refused otherwise */
static uint32_t sends(const side *s, uint8_t *m, uint32_t channel, int n, uint32_t *v) {
    switch (n) {
    case 0: return s->write(m, TWIN_MEMORY, channel, 1, lent, RAW_RECORD, v);
    case 1: return s->take(m, TWIN_MEMORY, channel, lent, RAW_RECORD);
    case 2: return s->sent(m, TWIN_MEMORY, channel);
    case 3: return s->start_periodic(m, TWIN_MEMORY, channel, lent, RAW_RECORD, 5, v);
    case 4: return s->link_open(m, TWIN_MEMORY, channel, 0x200, 0x01, 0x300, 0x01, 15, 0x8A, 0x00);
    case 5: return s->link_send(m, TWIN_MEMORY, channel, lent, 1);
    case 6: return s->link_receive(m, TWIN_MEMORY, channel, lent, MESSAGE, v);
    case 7: return s->link_end(m, TWIN_MEMORY, channel);
    case 8: return s->write(m, TWIN_MEMORY, channel, 0, lent, 0, v);
    case 9: return s->write(m, TWIN_MEMORY, channel, 0xFFFFFFFF, lent, RAW_RECORD - 1, v);
    case 10: return s->take(m, TWIN_MEMORY, channel, lent, 0);
    case 11: return s->start_periodic(m, TWIN_MEMORY, channel, lent, RAW_RECORD - 1, 4, v);
    case 12: return s->link_open(m, TWIN_MEMORY, channel, 0, 0xF0, 0x800, 0, 0, 256, 256);
    case 13: return s->link_send(m, TWIN_MEMORY, channel, lent, 0);
    default: return s->link_receive(m, TWIN_MEMORY, channel, lent, 0, v);
    }
}

/* does it give a number? */
static int gives_number(int n) { return n != 1 && n != 2 && n != 4 && n != 5 && n != 7 && n != 10 && n != 12 && n != 13; }

/* 0x01 with the number 0; nothing changes but the last code, and nothing of what is lent */
static void refuses(const side *s, uint8_t *m, uint32_t channel, int n) {
    uint8_t was[MESSAGE];
    uint32_t v = 0xBADC0DE;
    memcpy(before, m, TWIN_MEMORY), memcpy(was, lent, sizeof was);
    before[region(channel) + RAW_LAST] = 0x01;
    must(sends(s, m, channel, n, &v) == 0x01, "0x01");
    must(v == (gives_number(n) ? 0 : 0xBADC0DE), "the number of a refusal");
    must(memcmp(m, before, TWIN_MEMORY) == 0 && memcmp(lent, was, sizeof was) == 0, "a refusal changed something");
    must(s->valid(m, TWIN_MEMORY), "valid");
    refusals++;
}

static void refuses_all(uint32_t channel) {
    for (int n = 0; n < REFUSED; n++) {
        record_at(lent, RAW_RECORD, 5, 0, chance(50) ? WIDE : 0, 0, 0, 0x7E8, NULL, 0);
        for (int k = 0; sides[k]; k++) refuses(sides[k], memories[k], channel, n);
    }
}

/* listeners of all flags, on all lines; empty, with everything that they may hold, after time went by */
static void muted(void) {
    for (uint32_t first = 0; first < 4; first++) {
        EACH(power_on(MEMORY) == 0x00);
        for (uint32_t line = 0; line < 4; line++) {
            uint32_t wide = all_flags[(first + line) % 4] == WIDE;
            connect(line, 5, LISTENER | all_flags[(first + line) % 4]);
            last_is(line + 1, 0x00);
            refuses_all(line + 1);
            last_is(line + 1, 0x01);
            start(line + 1, 1, wide, 0);
            EACH(set(MEMORY, line + 1, 3, 1) == 0x00);
            for (int i = 0; i < 33; i++) frame(line, wide, 0x7E8, (uint8_t)i);
            refuses_all(line + 1);
            EACH(advance(MEMORY, 1000000) == 0x00);
            refuses_all(line + 1);
        }
    }
}

/* the third example of the readings: into a buffer of 0 bytes, on a listener, on a closed channel, on another */
static void example(void) {
    begin(LISTENER);
    connect(1, 5, 0);
    EACH(take(MEMORY, 1, NULL, 0) == 0x01);
    EACH(take(MEMORY, 3, NULL, 0) == 0x02);
    EACH(take(MEMORY, 2, NULL, 0) == 0x04);
    last_is(1, 0x01), last_is(2, 0x04);
}

/* which flags connect takes: eight with protocol 5, four with protocol 6, and no other bit beside */
static void flags(void) {
    uint32_t v;
    EACH(power_on(MEMORY) == 0x00);
    for (uint32_t i = 0; i < 8; i++) {
        uint32_t some = all_flags[i % 4] | (i < 4 ? 0 : LISTENER);
        EACH(connect(MEMORY, 0, 5, some, 500000, &v) == 0x00 && v == 1);
        for (int k = 0; sides[k]; k++) must(word(memories[k] + region(1) + FLAGS) == some, "the flags that are kept");
        EACH(connect(MEMORY, 0, 6, some, 500000, &v) == (i < 4 ? 0x00 : 0x06) && v == (i < 4 ? 5 : 0));
        EACH(close(MEMORY) == 0x00);
        for (int bit = 0; bit < 32; bit++) {
            if (bit == 8 || bit == 11 || bit == 28) continue;
            EACH(connect(MEMORY, 0, 5, some | (uint32_t)1 << bit, 500000, &v) == 0x06 && v == 0);
            EACH(connect(MEMORY, 0, 6, some | (uint32_t)1 << bit, 500000, &v) == 0x06 && v == 0);
        }
    }
}

/* ---- what it does ---- */

/* frames through its filters, in their time and width; full queues; the four clears; stop periodic */
static void hears(void) {
    begin(LISTENER);
    EACH(advance(MEMORY, 1234) == 0x00);
    frame(0, 0, 0x7E8, 1), reads(1, 1, 0x10, 0, 0, 0, 0, 0); /* no filter */
    start(1, 1, 0, 0), start(1, 2, 0, 0x7E9);
    frame(0, 0, 0x7E8, 2), frame(0, 0, 0x7E9, 3), frame(0, 1, 0x7E8, 4), frame(1, 0, 0x7E8, 5);
    reads(1, 2, 0x09, 1, 0, 0x7E8, 1234, 2);
    last_is(1, 0x09);
    EACH(set(MEMORY, 1, 3, 1) == 0x00);
    for (uint8_t i = 0; i < 33; i++) frame(0, 0, 0x123, i);
    refuses_all(1);
    last_is(1, 0x01);
    reads(1, 0, 0x00, 0, 0, 0, 0, 0), last_is(1, 0x01); /* 0x00 leaves it */
    reads(1, MANY, 0x12, 32, 0, 0x123, 1234, 0);
    last_is(1, 0x12);
    frame(0, 0, 0x123, 7);
    EACH(clear(MEMORY, 1, 1) == 0x00);
    EACH(clear(MEMORY, 1, 3) == 0x00);
    EACH(stop_periodic(MEMORY, 1, 1) == 0x0D);
    reads(1, 1, 0x00, 1, 0, 0x123, 1234, 7);
    frame(0, 0, 0x123, 8);
    EACH(clear(MEMORY, 1, 2) == 0x00);
    reads(1, 1, 0x10, 0, 0, 0, 0, 0);
    EACH(clear(MEMORY, 1, 4) == 0x00);
    frame(0, 0, 0x123, 9), reads(1, 1, 0x10, 0, 0, 0, 0, 0);
    EACH(stop_filter(MEMORY, 1, 1) == 0x16);
    EACH(clear(MEMORY, 1, 5) == 0x0F);
}

/* rate, loopback, lists, the decision */
static void is_asked(void) {
    struct twin_pair set[2] = {{3, 1}, {1, 250000}}, got[3] = {{1, 77}, {3, 78}, {9, 79}};
    uint32_t v;
    begin(LISTENER | BOTH);
    EACH(get(MEMORY, 1, 1, &v) == 0x00 && v == 500000);
    EACH(set_list(MEMORY, 1, set, 2) == 0x00);
    EACH(get_list(MEMORY, 1, got, 3) == 0x01);
    must(got[0].value == 250000 && got[1].value == 1 && got[2].value == 79, "a list got");
    EACH(get(MEMORY, 1, 9, &v) == 0x01 && v == 0);
    EACH(set(MEMORY, 1, 3, 2) == 0x05);
    start(1, 1, 0, 0), start(1, 2, 0, 0x7E9);
    EACH(decide(MEMORY, 1, 0, 0x7E8, &v) == 0x00 && v == 1);
    EACH(decide(MEMORY, 1, 0, 0x7E9, &v) == 0x00 && v == 0);
    EACH(decide(MEMORY, 1, 1, 0x7E8, &v) == 0x00 && v == 0);
    last_is(1, 0x05);
}

/* disconnected and connected anew it sends, and the other way round; its last code is gone */
static void goes_on(void) {
    uint32_t v;
    begin(LISTENER);
    EACH(write(MEMORY, 1, 1, every, RAW_RECORD, &v) == 0x01 && v == 0);
    EACH(connect(MEMORY, 0, 5, 0, 500000, &v) == 0x14);
    EACH(write(MEMORY, 1, 1, every, RAW_RECORD, &v) == 0x01 && v == 0);
    EACH(disconnect(MEMORY, 1) == 0x00);
    EACH(write(MEMORY, 1, 1, every, RAW_RECORD, &v) == 0x02 && v == 0);
    connect(0, 5, 0), last_is(1, 0x00);
    EACH(write(MEMORY, 1, 1, every, RAW_RECORD, &v) == 0x00 && v == 1);
    EACH(take(MEMORY, 1, records, RAW_RECORD) == 0x00);
    EACH(write(MEMORY, 1, 1, every, RAW_RECORD, &v) == 0x00 && v == 1);
    EACH(close(MEMORY) == 0x00);
    connect(0, 5, LISTENER);
    EACH(take(MEMORY, 1, records, RAW_RECORD) == 0x01);
    EACH(sent(MEMORY, 1) == 0x01);
}

/* the ISO 15765 channel of its line sends and receives as ever; frames that come are for both, what the one sends the other doesn't hear */
static void beside(void) {
    uint8_t mask[RECORD], pattern[RECORD], flow[RECORD], out[2 * RECORD];
    uint32_t v;
    record_at(mask, RECORD, 6, 0, 0, 0, 0, 0xFFFFFFFF, NULL, 0), record_at(pattern, RECORD, 6, 0, 0, 0, 0, 0x641, NULL, 0);
    record_at(flow, RECORD, 6, 0, 0, 0, 0, 0x241, NULL, 0);
    begin(LISTENER);
    EACH(connect(MEMORY, 0, 6, LISTENER, 500000, &v) == 0x06 && v == 0);
    last_is(1, 0x00);
    connect(0, 6, 0), start(1, 1, 0, 0);
    EACH(set(MEMORY, 1, 3, 1) == 0x00);
    EACH(start_filter(MEMORY, 5, 3, mask, RECORD, pattern, RECORD, flow, RECORD, &v) == 0x00);
    record_at(out, RECORD, 6, 0, 0, 0, 0, 0x241, (const uint8_t *)"\1\2\3", 3);
    EACH(write(MEMORY, 5, 1, out, RECORD, &v) == 0x00 && v == 1);
    EACH(take(MEMORY, 1, out, sizeof out) == 0x01);
    EACH(take(MEMORY, 5, out, sizeof out) == 0x00 && word(out + 16) == 8 && out[28] == 3);
    EACH(sent(MEMORY, 1) == 0x01);
    EACH(sent(MEMORY, 5) == 0x00);
    EACH(read(MEMORY, 5, 2, out, sizeof out, &v) == 0x09 && v == 1); /* TxDone */
    reads(1, 1, 0x10, 0, 0, 0, 0, 0);
    EACH(frame(MEMORY, 0, 0, 0x641, (const uint8_t *)"\1", 1) == 0x00); /* a single frame that lacks its byte: nothing for channel 5 */
    reads(1, 2, 0x09, 1, 0, 0x641, 0, 1);
    EACH(frame(MEMORY, 0, 0, 0x641, (const uint8_t *)"\1\2", 2) == 0x00);
    EACH(read(MEMORY, 5, 1, out, sizeof out, &v) == 0x00 && v == 1);
    EACH(read(MEMORY, 1, 1, out, sizeof out, &v) == 0x00 && v == 1);
    EACH(disconnect(MEMORY, 1) == 0x00);
    EACH(write(MEMORY, 5, 0, NULL, 0, &v) == 0x00);
}

/* ---- which memories are valid ---- */

static void put_flags(size_t at, uint32_t flags) {
    for (int k = 0; sides[k]; k++) put_word(memories[k] + at + FLAGS, flags);
}

/* not valid: 0x1A for every call, and nothing changes */
static void is_not_valid(void) {
    uint32_t v;
    for (int k = 0; sides[k]; k++) {
        memcpy(before, memories[k], TWIN_MEMORY);
        must(!sides[k]->valid(MEMORY), "a memory that no listener has");
        for (int n = 0; n < REFUSED; n++) must(sends(sides[k], memories[k], 1, n, (v = 77, &v)) == 0x1A, "0x1A");
        must(sides[k]->read(MEMORY, 1, 1, records, sizeof records, &v) == 0x1A && sides[k]->clear(MEMORY, 1, 1) == 0x1A, "0x1A");
        must(sides[k]->disconnect(MEMORY, 1) == 0x1A && sides[k]->close(MEMORY) == 0x1A && sides[k]->advance(MEMORY, 0) == 0x1A, "0x1A");
        must(memcmp(memories[k], before, TWIN_MEMORY) == 0, "0x1A changed something");
    }
}

/* channel 1 holds something that sends: with the listeners' flag the memory is not valid, without it it is */
static void never_held(uint32_t flags) {
    EACH(valid(MEMORY));
    put_flags(region(1), flags | LISTENER), is_not_valid();
    put_flags(region(1), flags);
    EACH(valid(MEMORY));
}

/* and where it is gone the memory is that of a listener too */
static void may_listen(uint32_t flags) {
    put_flags(region(1), flags | LISTENER);
    EACH(valid(MEMORY));
    refuses_all(1);
    put_flags(region(1), flags);
    EACH(valid(MEMORY));
}

/* each of the four things by itself, beside what a listener may hold */
static void valid_ones(uint32_t flags) {
    uint8_t r[RAW_RECORD];
    uint32_t v, wide = flags == WIDE;
    begin(flags);
    start(1, 1, wide, 0);
    EACH(set(MEMORY, 1, 3, 1) == 0x00);
    for (int i = 0; i < 33; i++) frame(0, wide, 0x7E8, 1);
    EACH(clear(MEMORY, 1, 7) == 0x0F);
    may_listen(flags);
    record_at(r, RAW_RECORD, 5, 0, wide ? WIDE : 0, 0, 0, 0x7E0, NULL, 0);
    EACH(write(MEMORY, 1, 1, r, RAW_RECORD, &v) == 0x00);
    must(memories[0][region(1) + WRITTEN] == 1, "written");
    never_held(flags);
    EACH(clear(MEMORY, 1, 1) == 0x00);
    may_listen(flags);
    EACH(write(MEMORY, 1, 1, r, RAW_RECORD, &v) == 0x00);
    EACH(take(MEMORY, 1, records, RAW_RECORD) == 0x00);
    must(memories[0][region(1) + WRITTEN] == 0 && memories[0][region(1) + FLYING] == 1, "in flight");
    never_held(flags);
    EACH(sent(MEMORY, 1) == 0x00);
    may_listen(flags);
    for (uint32_t i = 1; i <= 10; i++) EACH(start_periodic(MEMORY, 1, r, RAW_RECORD, 100, &v) == 0x00 && v == i);
    for (uint32_t i = 1; i <= 10; i++) {
        never_held(flags);
        EACH(stop_periodic(MEMORY, 1, i) == 0x00);
    }
    may_listen(flags);
    EACH(start_periodic(MEMORY, 1, r, RAW_RECORD, 65535, &v) == 0x00);
    EACH(take(MEMORY, 1, records, RAW_RECORD) == 0x00);
    EACH(sent(MEMORY, 1) == 0x00);
    never_held(flags); /* not pending */
    EACH(clear(MEMORY, 1, 3) == 0x00);
    may_listen(flags);
    if (wide) return;
    EACH(link_open(MEMORY, 1, 0x200, 0x01, 0x300, 0x01, 15, 0x8A, 0x00) == 0x00);
    never_held(flags);
    EACH(link_end(MEMORY, 1) == 0x00);
    may_listen(flags);
}

/* a connection in each of its states */
static void valid_links(void) {
    static const uint8_t reply[7] = {0x00, 0xD0, 0x00, 0x03, 0x40, 0x07, 0x01}, joined[6] = {0xA1, 0x0F, 0x8A, 0xFF, 0x00, 0xFF};
    begin(BOTH);
    EACH(link_open(MEMORY, 1, 0x200, 0x01, 0x300, 0x01, 15, 0x8A, 0x00) == 0x00);
    never_held(BOTH);
    EACH(frame(MEMORY, 0, 0, 0x201, reply, sizeof reply) == 0x00);
    never_held(BOTH);
    EACH(frame(MEMORY, 0, 0, 0x300, joined, sizeof joined) == 0x00);
    never_held(BOTH);
    EACH(link_end(MEMORY, 1) == 0x00);
    never_held(BOTH); /* its disconnect telegram waits */
    EACH(take(MEMORY, 1, records, RAW_RECORD) == 0x00);
    never_held(BOTH);
    EACH(sent(MEMORY, 1) == 0x00);
    may_listen(BOTH);
}

/* the flag on a closed channel, on an ISO 15765 channel, beside other bits */
static void valid_flags(void) {
    static const uint32_t bad[] = {LISTENER | 1, LISTENER | 0x200, LISTENER << 1, (uint32_t)LISTENER << 3, LISTENER >> 1, 0x10};
    begin(0), connect(0, 6, 0);
    for (size_t i = 0; i < 4; i++) put_flags(region(1), LISTENER | all_flags[i]), may_listen(all_flags[i]);
    for (size_t i = 0; i < sizeof bad / sizeof *bad; i++) put_flags(region(1), bad[i]), is_not_valid();
    put_flags(region(1), 0);
    for (size_t i = 0; i < 4; i++) put_flags(RAW_PART, LISTENER | all_flags[i]), is_not_valid();
    put_flags(RAW_PART, 0);
    EACH(valid(MEMORY));
    put_flags(region(2), LISTENER), is_not_valid(), put_flags(region(2), 0);
    put_flags(RAW_PART + ISO_REGION, LISTENER), is_not_valid(), put_flags(RAW_PART + ISO_REGION, 0);
    EACH(valid(MEMORY));
}

/* ---- two boxes that differ in the flag alone ---- */

typedef struct {
    uint32_t kind, channel, type, wide, id, n, number, parameter, value, us;
    uint8_t data[9], mask[RAW_RECORD], pattern[RAW_RECORD];
} call;

static uint8_t plain[TWIN_MEMORY], quiet[TWIN_MEMORY], stores[2][STORE];
static uint32_t stored[2], widths[4]; /* the flags of each line, without the listeners' */

static void some_call(call *c) {
    uint32_t flags;
    memset(c, 0, sizeof *c);
    c->kind = below(16), c->channel = 1 + below(4), flags = widths[c->channel - 1];
    c->type = 1 + chance(25), c->wide = flags & BOTH ? chance(50) : chance(95) ? flags == WIDE : flags != WIDE;
    c->id = ONE_OF(0x7E8, 0x7E9, 0x123, c->wide ? 0x18DAF110 : 0x7FF, chance(5) ? any() : 0);
    c->n = chance(3) ? below(20) : below(9), c->number = 1 + below(chance(5) ? 12 : 3), c->parameter = ONE_OF(1, 3, 3, 9);
    c->value = c->parameter == 1 ? ONE_OF(250000, 500000, 125000) : below(3), c->us = below(chance(5) ? 1000010 : 5000);
    for (size_t i = 0; i < sizeof c->data; i++) c->data[i] = (uint8_t)below(3);
    record_at(c->mask, RAW_RECORD, 5, 0, c->wide ? WIDE : 0, 0, 0, ONE_OF(0, 0, 0x7F0, 0xFFFFFFFF), c->data, below(3));
    record_at(c->pattern, RAW_RECORD, 5, 0, c->wide ? WIDE : 0, 0, 0, c->id & word(c->mask + 24), c->data, word(c->mask + 16) - 4);
}

/* what doesn't send */
static uint32_t plays(const side *s, uint8_t *m, int which, const call *c, uint8_t *out, uint32_t *v) {
    struct twin_pair pairs[3] = {{3, c->value}, {1, 250000}, {c->parameter, c->value}};
    const size_t len = TWIN_MEMORY;
    uint32_t code;
    switch (c->kind) {
    case 0: case 1: case 2: case 3: return s->frame(m, len, c->channel - 1, c->wide, c->id, c->data, c->n < 9 ? c->n : 9);
    case 4: case 5: return s->start_filter(m, len, c->channel, c->type, c->mask, RAW_RECORD, c->pattern, RAW_RECORD, NULL, 0, v);
    case 6: return s->stop_filter(m, len, c->channel, c->number);
    case 7: return s->read(m, len, c->channel, c->n, out, c->n > 8 && c->us % 2 ? 0 : 20 * RAW_RECORD, v);
    case 8: return c->us % 4 ? s->advance(m, len, c->us) : s->clear(m, len, c->channel, c->number);
    case 9: return s->stop_periodic(m, len, c->channel, c->number);
    case 10: return s->get(m, len, c->channel, c->parameter, v);
    case 11: return s->set(m, len, c->channel, c->parameter, c->value);
    case 12: return s->set_list(m, len, c->channel, pairs, c->n % 4);
    case 13:
        code = s->get_list(m, len, c->channel, pairs, c->n % 4);
        memcpy(out, pairs, sizeof pairs);
        return code;
    case 14: return s->decide(m, len, c->channel, c->wide, c->id, v);
    default: return s->load(m, len, c->channel, stores[which], stored[which]);
    }
}

/* the memory of the listeners is the other but for their flag */
static void but_for_the_flag(void) {
    memcpy(before, quiet, TWIN_MEMORY);
    for (uint32_t channel = 1; channel <= 4; channel++) put_word(before + region(channel) + FLAGS, widths[channel - 1]);
    must(memcmp(before, plain, TWIN_MEMORY) == 0, "the memories differ in more than the flag");
    alike++;
}

/* both are saved: the same store but for the flags */
static void saves(const side *s, uint32_t channel) {
    uint32_t less = widths[channel - 1] ? 3 : 4;
    must(s->save(plain, TWIN_MEMORY, channel, stores[0], STORE, &stored[0]) == 0x00, "a save");
    must(s->save(quiet, TWIN_MEMORY, channel, stores[1], STORE, &stored[1]) == 0x00, "a listener's save");
    must(stored[1] == stored[0] + less && stores[1][5] == 1, "the flags of a listener's store");
    must(memcmp(stores[1] + 6, stores[0] + 6 - less, stored[1] - 6) == 0, "a listener's store behind its flags");
}

/* a call that sends on the listeners, and one with the same code on the others */
static void both_refuse(const side *s, uint32_t channel) {
    uint32_t v;
    refuses(s, quiet, channel, (int)below(REFUSED));
    must(s->get(plain, TWIN_MEMORY, channel, 9, &v) == 0x01, "an unknown parameter");
}

static void as_before(const side *s) {
    static uint8_t outs[2][20 * RAW_RECORD];
    uint32_t v;
    call c;
    must(s->power_on(plain, TWIN_MEMORY) == 0x00 && s->power_on(quiet, TWIN_MEMORY) == 0x00, "power-on");
    for (uint32_t line = 0; line < 4; line++) {
        widths[line] = all_flags[below(4)];
        must(s->connect(plain, TWIN_MEMORY, line, 5, widths[line], 500000, &v) == 0x00, "connect");
        must(s->connect(quiet, TWIN_MEMORY, line, 5, widths[line] | LISTENER, 500000, &v) == 0x00, "connect a listener");
    }
    saves(s, 1);
    for (int i = 0; i < 400; i++) {
        uint32_t codes[2], given[2] = {77, 77};
        some_call(&c);
        memset(outs, 0xC3, sizeof outs);
        codes[0] = plays(s, plain, 0, &c, outs[0], &given[0]), codes[1] = plays(s, quiet, 1, &c, outs[1], &given[1]);
        must(codes[0] == codes[1] && given[0] == given[1] && memcmp(outs[0], outs[1], sizeof *outs) == 0, "the answers differ");
        but_for_the_flag();
        if (chance(20)) both_refuse(s, c.channel), but_for_the_flag();
        if (chance(10)) saves(s, c.channel), but_for_the_flag();
    }
}

int main(int argc, char **argv) {
    uint32_t rounds = argc > 2 ? (uint32_t)strtoul(argv[2], NULL, 10) : 1;
    seed = argc > 1 ? strtoull(argv[1], NULL, 10) : 1;
    if (seed == 0) seed = 1;
    record_at(every, RAW_RECORD, 5, 0, 0, 0, 0, 0, NULL, 0);
    flags();
    example();
    muted();
    hears();
    is_asked();
    goes_on();
    beside();
    for (int i = 0; i < 4; i++) valid_ones(all_flags[i]);
    valid_links();
    valid_flags();
    for (uint32_t r = 0; r < 10 * (rounds ? rounds : 1); r++)
        for (int k = 0; sides[k]; k++) as_before(sides[k]);
    printf("listeners: %lu looks, %lu refusals; beside channels that differ in the flag alone %lu calls\n", looks, refusals, alike);
    return 0;
}
