/* Random calls, frames and advances on a box with TP2.0 connections: `link_random [SEED [ROUNDS]]`. Every side there is plays the same, and what must
 * hold of any event (sides_play.h) is looked at: also where the connection was made at random and not reached. Everything is repeatable. */
#include <stdio.h>
#include <stdlib.h>
#include <string.h>

#include "iso_side.h"
#include "random.h"
#include "sides_play.h"

static uint32_t busy;             /* the line where most of it happens */
static unsigned long reached[5]; /* how often an event met each state there */

/* ---- where things lie in a raw region, and in its connection ---- */

enum { STORE = 1149, LISTENER = 0x10000000, FLAGS = 1, FLYING = RAW_PERIODICS + 1027, FLIGHT = FLYING + 1 };
enum { STATE, OWN, RX = 5, DESTINATION = 9, APPLICATION, SIZE, T1, T3, TX = 14, TRIES = 18, TRIAL, TRIAL_LEFT, LEAVING = 24, LEAVING_LEFT, BLOCK = 29,
       PACE, WIRE, WIRE_LEFT, ANSWERS = 36, TESTS, UNANSWERED, TEST_LEFT, HOLD = 43, SN = 47, OUT, OUT_LEFT, TAKEN = 53, REPEATS, AGAIN, REST_N,
       REST = 60, EXPECTED = 572, ACKNOWLEDGES, COMPLETE, IN_N, IN = 579, PART = 1091 };
enum { NONE, OPENS, CONNECTS, STANDS, LEAVES };

static uint8_t *part_of(uint32_t channel) { return mine + region(channel) + on->link; }

/* ---- frames ---- */

/* a reply to its set-up, most often a good one */
static size_t some_reply(event *e, const uint8_t *p, uint8_t b[9]) {
    uint32_t tx = ONE_OF(0x740, 0x741, 0, 0x7FF, word(p + RX));
    e->c = 0x200 + (uint32_t)p[DESTINATION];
    b[0] = p[OWN], b[1] = (uint8_t)(chance(90) ? 0xD0 : 0xD5 + below(5));
    b[2] = p[RX], b[3] = p[RX + 1], b[4] = (uint8_t)tx, b[5] = (uint8_t)(tx >> 8), b[6] = p[APPLICATION];
    return 7;
}

static size_t some_acknowledge(const uint8_t *p, uint8_t b[9]) {
    uint32_t at = chance(65) ? p[TAKEN] : chance(70) ? below(p[TAKEN] + 1u) : below(16);
    b[0] = (uint8_t)((chance(75) ? 0xB0 : 0x90) | (p[SN] + at) % 16);
    return 1;
}

static size_t some_joining(uint8_t b[9]) {
    b[0] = (uint8_t)(chance(95) ? 0xA1 : 0xA0), b[1] = (uint8_t)(chance(95) ? 1 + below(15) : below(20));
    b[4] = (uint8_t)ONE_OF(0, 0, 0, 1, 0x32, 0x8A, 0xFF, any());
    return 6;
}

/* data, with the number that is expected most often; messages end seldom, so that long ones come too */
static size_t some_data(const uint8_t *p, uint8_t b[9]) {
    uint32_t sn = chance(92) ? p[EXPECTED] : below(16);
    b[0] = (uint8_t)(ONE_OF(0, 0x20, 0x20, 0x20) | (chance(8) ? 0x10 : 0) | sn);
    return chance(80) ? 8 : 1 + below(8);
}

static void some_frame(event *e, uint32_t damage) {
    const uint8_t *p;
    uint8_t b[9];
    size_t n;
    e->a = chance(80) ? busy : below(4);
    p = part_of(1 + e->a);
    for (size_t k = 0; k < sizeof b; k++) b[k] = (uint8_t)any();
    e->b = 0, e->c = word(p + RX);
    if (p[STATE] == OPENS) n = some_reply(e, p, b);
    else if (p[STATE] != STANDS && chance(80)) n = some_joining(b);
    else if (p[OUT] == 2 && chance(50)) n = some_acknowledge(p, b);
    else switch (below(12)) {
        case 0: n = some_acknowledge(p, b); break;
        case 1: n = some_joining(b); break;
        case 2: b[0] = 0xA3, n = 1; break;
        case 3: b[0] = (uint8_t)ONE_OF(0xA3, 0xA4, 0xA4, 0xA4, 0xA4), n = 1; break;
        case 4: b[0] = (uint8_t)(chance(10) ? 0xA8 : any()), n = chance(50) ? 1 : below(9); break;
        default: n = some_data(p, b); break;
        }
    if (chance(4)) b[below(7)] = (uint8_t)any();
    if (chance(2)) n = below(9);
    if (chance(damage)) e->a = off(e->a, 20), e->b = off(e->b, 50), e->c = off(ONE_OF(0x201, 0x300, 0x740, e->c ^ 1u), 20), n = below(10);
    lend(&e->first, n);
    memcpy(bytes(&e->first), b, e->first.n);
}

/* ---- time: often just what is left of something, or one less ---- */

static uint32_t some_time(void) {
    static const size_t lefts[] = {TRIAL_LEFT, LEAVING_LEFT, WIRE_LEFT, TEST_LEFT, HOLD, OUT_LEFT};
    uint32_t left = word(part_of(1 + busy) + lefts[below(6)]);
    if (left && left <= 1000000 && chance(60)) return left - below(2);
    return chance(85) ? ONE_OF(0, 0, 1, 99, 100, 999, 1000, 5000, 20000) : ONE_OF(99999, 100000, 500000, 999999, 1000000, below(1000001));
}

/* ---- calls ---- */

static void some_opening(event *e, uint32_t damage) {
    e->b = 0x200 + ONE_OF(0, 1, 0xEF), e->c = ONE_OF(0, 1, 0xEF), e->d = ONE_OF(0x300, 0x201, 0, 0x7FF), e->more[0] = ONE_OF(1, 0x10, 0x20, 0x21);
    e->more[1] = ONE_OF(1, 2, 3, 15, 1 + below(15)), e->more[2] = ONE_OF(0x8A, 0x8A, 0xFF, 0, 0x40, 0xFE, any() & 255);
    e->more[3] = ONE_OF(0, 0x32, 0xFF, any() & 255);
    if (!chance(damage)) return;
    switch (below(7)) {
    case 0: e->b = ONE_OF(0x1FF, 0x2F0, 0, 0x10200, any()); break;
    case 1: e->c = ONE_OF(0xF0, 0xFF, 0x100, any()); break;
    case 2: e->d = ONE_OF(0x800, 0x10300, any()); break;
    default: e->more[below(4)] = ONE_OF(0, 2, 16, 256, 0x101, any()); break;
    }
}

static void some_record(uint8_t *p) {
    uint8_t data[8];
    for (int i = 0; i < 8; i++) data[i] = (uint8_t)any();
    record_at(p, RAW_RECORD, 5, any(), 0, any(), any(), ONE_OF(0x123, 0x300, 0x740, 0x7FF), data, below(9));
}

static void some_filter(event *e) {
    lend(&e->first, RAW_RECORD), lend(&e->second, RAW_RECORD);
    record_at(bytes(&e->first), RAW_RECORD, 5, 0, 0, 0, 0, chance(50) ? 0 : 0x7FF, NULL, 0);
    record_at(bytes(&e->second), RAW_RECORD, 5, 0, 0, 0, 0, chance(50) ? 0 : ONE_OF(0x300, 0x201), NULL, 0);
    e->b = 1 + chance(20);
}

/* the set-up of that channel as it is, or of another one; a byte of it may be off */
static void some_set_up(event *e, uint32_t damage) {
    uint8_t store[STORE];
    uint32_t n = 0;
    on->save(mine, on->memory, chance(60) ? e->a : 1 + below(4), store, sizeof store, &n);
    lend(&e->first, n);
    memcpy(bytes(&e->first), store, n);
    if (n && chance(damage)) bytes(&e->first)[below(n)] = (uint8_t)any();
}

/* so often, in percent, those of a listener */
static uint32_t some_flags(uint32_t often) { return ONE_OF(0, 0, 0x800, 0x900, 0x100) | (chance(often) ? LISTENER : 0); }

static void some_event(event *e, uint32_t damage) {
    static const uint32_t often[] = {ADVANCE, ADVANCE, ADVANCE, FRAME, FRAME, FRAME, FRAME, FRAME, FRAME, FRAME, FRAME, TAKE, TAKE, TAKE, TAKE, SENT,
                                     SENT, SENT, SENT, LINK_OPEN, LINK_OPEN, LINK_OPEN, LINK_SEND, LINK_SEND, LINK_RECEIVE, LINK_RECEIVE, LINK_END,
                                     WRITE, READ, START_PERIODIC, STOP_PERIODIC, START_FILTER, STOP_FILTER, CLEAR, SET, LAST_ERROR, CONNECT,
                                     DISCONNECT, SAVE, LOAD};
    static const uint32_t seldom[] = {LINK_END, START_PERIODIC, START_FILTER, CLEAR, SET, CONNECT, DISCONNECT, WRITE, SAVE};
    uint32_t kind = one_of(often, sizeof often / sizeof *often);
    for (size_t i = 0; i < sizeof seldom / sizeof *seldom; i++)
        if (kind == seldom[i] && chance(kind == LINK_END || kind == DISCONNECT ? 95 : 75)) kind = FRAME;
    blank(e, (int)kind, off(chance(75) ? 1 + busy : 1 + below(4), damage / 3));
    if ((e->kind == TAKE || e->kind == SENT) && e->a >= 1 && e->a <= 4 && chance(70)) e->kind = mine[region(e->a) + FLYING] ? SENT : TAKE;
    switch (e->kind) {
    case CONNECT: e->a = below(4), e->b = chance(80) ? 5 : 6, e->c = some_flags(15), e->d = 500000; break;
    case DISCONNECT: e->kind = chance(5) ? CLOSE : DISCONNECT; break;
    case ADVANCE: e->a = off(some_time(), damage / 2); break;
    case FRAME: some_frame(e, damage); break;
    case START_FILTER: some_filter(e); break;
    case STOP_FILTER: case STOP_PERIODIC: e->b = 1 + below(2); break;
    case START_PERIODIC: e->b = ONE_OF(5, 50, 1000), lend(&e->first, RAW_RECORD), some_record(bytes(&e->first)); break;
    case WRITE: e->b = 1, lend(&e->first, RAW_RECORD), some_record(bytes(&e->first)); break;
    case READ: e->b = below(9), lend(&e->first, 9 * RAW_RECORD); break;
    case TAKE: lend(&e->first, some_length(RAW_RECORD, damage / 2)); break;
    case CLEAR: e->b = off(1 + below(4), damage); break;
    case SET: e->b = 3, e->c = below(2); break;
    case LINK_OPEN: some_opening(e, damage); break;
    case LINK_SEND: lend(&e->first, chance(damage) ? ONE_OF(0, 513, 514, 5000) : ONE_OF(1, 6, 7, 8, 14, 15, 100, 511, 512, 1 + below(512))); break;
    case LINK_RECEIVE: lend(&e->first, some_length(MESSAGE, damage / 2)); break;
    case SAVE: lend(&e->first, chance(80) ? STORE : below(200)); break;
    case LOAD: some_set_up(e, damage); break;
    default: break;
    }
}

/* ---- connections that were not reached: within the limits, or now and then just beyond one ---- */

static uint32_t beyond(uint32_t good, uint32_t bad) { return chance(2) ? bad : good; }

static uint32_t micros(uint8_t t) { return 100u * (t & 63u) * (uint32_t[]){1, 10, 100, 1000}[t >> 6]; }

static void some_store(uint8_t *count, uint32_t n) {
    put_word(count, n);
    for (uint32_t i = 0; i < n; i++) count[4 + i] = (uint8_t)any();
    if (chance(1) && n < MESSAGE) count[4 + n] = 1;
}

static void some_asked(uint8_t *p) {
    put_word(p + OWN, beyond(0x200 + below(0xF0), ONE_OF(0x1FF, 0x2F0)));
    put_word(p + RX, beyond(ONE_OF(0x300, 0, 0x7FF), 0x800));
    p[DESTINATION] = (uint8_t)beyond(below(0xF0), 0xF0), p[APPLICATION] = (uint8_t)beyond(ONE_OF(1, 0x10, 0x20, 0x21), 2);
    p[SIZE] = (uint8_t)beyond(1 + below(15), ONE_OF(0, 16)), p[T1] = (uint8_t)ONE_OF(0, 0x40, 0x8A, 0xFF, any()), p[T3] = (uint8_t)any();
}

static void some_trial(uint8_t *p) {
    p[TRIES] = (uint8_t)beyond(ONE_OF(0, 5, 9, 10), 11), p[TRIAL] = (uint8_t)beyond(below(3), 3);
    if (p[TRIAL] == 2) put_word(p + TRIAL_LEFT, beyond(ONE_OF(1, 100, 99999, 100000), ONE_OF(0, 100001)));
    else put_word(p + TRIAL_LEFT, beyond(0, 1));
}

static void some_leaving(uint8_t *p) {
    p[LEAVING] = (uint8_t)beyond(below(3), 3);
    if (p[LEAVING] == 0) put_word(p + LEAVING_LEFT, beyond(ONE_OF(0, 1, 5000, 6300000), 6300001));
    else put_word(p + LEAVING_LEFT, p[LEAVING] == 1 ? beyond(below(256), 256) : beyond(0, 1));
}

/* a message under way, or none */
static void some_out(uint8_t *p) {
    uint32_t n = ONE_OF(0, 1, 7, 8, 15, 100, 505, 511, 512, below(513)), all = n ? (n + 6) / 7 : 1, t1 = micros(p[T1]);
    uint32_t block = all < p[BLOCK] ? all : p[BLOCK];
    p[OUT] = (uint8_t)beyond(p[WIRE] == 1 ? 1 : below(3), ONE_OF(0, 1, 2, 3));
    if (p[OUT] == 0) return;
    some_store(p + REST_N, n);
    p[REPEATS] = (uint8_t)beyond(below(3), 3), p[AGAIN] = (uint8_t)beyond(below(6), 6);
    p[TAKEN] = (uint8_t)(p[OUT] == 2 ? block : p[WIRE] == 1 ? below(block + 1) : block ? below(block) : 0);
    p[TAKEN] = (uint8_t)beyond(p[TAKEN], p[TAKEN] + 1u);
    if (p[OUT] == 2 && p[T1] != 0xFF) put_word(p + OUT_LEFT, beyond(t1 ? 1 + below(t1) : 0, ONE_OF(0, 1, t1 + 1)));
}

static void some_standing(uint8_t *p) {
    uint32_t n = ONE_OF(0, 1, 7, 504, 505, 506, 511, 512, below(513));
    p[BLOCK] = (uint8_t)beyond(p[SIZE] ? 1 + below(p[SIZE]) : 1, ONE_OF(0, p[SIZE] + 1u)), p[PACE] = (uint8_t)ONE_OF(0, 0, 0x32, 0xFF, any());
    p[WIRE] = (uint8_t)beyond(chance(50) ? 0 : below(4), 4);
    put_word(p + WIRE_LEFT, p[WIRE] ? beyond(0, 1) : beyond(chance(50) ? 0 : below(micros(p[PACE]) + 1), micros(p[PACE]) + 1));
    p[ANSWERS] = (uint8_t)beyond(chance(30), 2), p[TESTS] = (uint8_t)beyond(chance(30), 2), p[UNANSWERED] = (uint8_t)beyond(below(7), 7);
    put_word(p + TEST_LEFT, beyond(p[TESTS] || p[WIRE] == 2 ? ONE_OF(0, 0, 1, 1000000) : ONE_OF(1, 500000, 1000000), ONE_OF(0, 1000001)));
    put_word(p + HOLD, beyond(chance(60) ? 0 : below(100001), 100001)), p[SN] = (uint8_t)beyond(below(16), 16);
    some_out(p);
    p[EXPECTED] = (uint8_t)beyond(below(16), 16), p[ACKNOWLEDGES] = (uint8_t)beyond(below(3), 3);
    some_store(p + IN_N, n);
    p[COMPLETE] = (uint8_t)beyond(n && chance(30), ONE_OF(1, 2));
}

static void some_part(uint8_t *p) {
    uint8_t state = (uint8_t)ONE_OF(NONE, OPENS, CONNECTS, STANDS, STANDS, STANDS, STANDS, LEAVES);
    memset(p, 0, PART);
    p[STATE] = (uint8_t)beyond(state, 5);
    if (state >= OPENS && state <= STANDS) some_asked(p);
    if (state >= CONNECTS) put_word(p + TX, beyond(ONE_OF(0x740, 0, 0x7FF), 0x800));
    if (state == OPENS || state == CONNECTS) some_trial(p);
    if (state == LEAVES) some_leaving(p);
    if (state == STANDS) some_standing(p);
}

/* the connection of an open channel is made anew, or a byte or a number of it */
static void make(event *e) {
    static uint8_t before[BOX_MOST];
    uint32_t channel = chance(70) ? 1 + busy : 1 + below(4);
    uint8_t *r = mine + region(channel), *p = part_of(channel);
    if (!r[0]) return;
    memcpy(before, mine, on->memory);
    switch (below(8)) {
    case 0: p[below(PART)] = (uint8_t)(chance(50) ? below(8) : any()); break;
    case 1: p[below(chance(50) ? REST : EXPECTED + 7)] ^= (uint8_t)(1u << below(8)); break;
    case 2: put_word(p + ONE_OF(OWN, RX, TX, TRIAL_LEFT, LEAVING_LEFT, WIRE_LEFT, TEST_LEFT, HOLD, OUT_LEFT, REST_N, IN_N),
                     ONE_OF(0, 1, 2, 255, 512, 513, 0x7FF, 0x800, 100000, 100001, 1000000, 1000001, 6300000, any())); break;
    case 3: put_word(r + FLAGS, some_flags(40)); break;
    default: some_part(p); break;
    }
    if (chance(40) && !r[FLYING]) r[FLYING] = 1, record_at(r + FLIGHT, RAW_RECORD, 5, 0, 0, 0, 4, 0x740, NULL, 0);
    all_made(before, e);
}

static void sequence(uint32_t events, uint32_t damage, uint32_t making) {
    static event e;
    busy = below(4);
    all_begin();
    for (uint32_t line = 0; line < 4; line++) {
        blank(&e, CONNECT, line);
        e.b = 5, e.c = ONE_OF(0, 0, 0x800) | (chance(line == busy ? 5 : 20) ? LISTENER : 0), e.d = 500000;
        all_play(&e);
    }
    for (uint32_t i = 0; i < events; i++, turn++) {
        some_event(&e, damage);
        if (chance(making)) make(&e);
        reached[part_of(1 + busy)[STATE]]++;
        all_play(&e);
    }
}

int main(int argc, char **argv) {
    uint32_t rounds = argc > 2 ? (uint32_t)strtoul(argv[2], NULL, 10) : 1;
    unsigned long events, answers;
    seed = argc > 1 ? strtoull(argv[1], NULL, 10) : 1;
    if (seed == 0) seed = 1;
    on = sides[0], program = "link_random";
    for (uint32_t r = 0; r < 40 * (rounds ? rounds : 1); r++) sequence(800, r % 3 * 5, r % 5 < 3 ? 0 : 10);
    all_counted(&events, &answers);
    printf("random calls on TP2.0 connections: %lu, %lu pairs of a call and a code; in each state %lu, %lu, %lu, %lu, %lu; messages sent %lu, "
           "received %lu; memories made: %lu valid, %lu not\n",
           events, answers, reached[0], reached[1], reached[2], reached[3], reached[4], answered(LINK_SEND, 0x00),
           answered(LINK_RECEIVE, 0x00), made, spoilt);
    return 0;
}
