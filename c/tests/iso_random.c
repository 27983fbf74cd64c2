/* Random calls, frames and advances on a box with ISO 15765 channels: `iso_random [SEED [ROUNDS]]`. Every side there is plays the same, and what must
 * hold of any event (sides_play.h) is looked at: also where the memory was made at random and not reached. Everything is repeatable. */
#include <stdio.h>
#include <stdlib.h>
#include <string.h>

#include "iso_side.h"
#include "random.h"
#include "sides_play.h"

enum { LISTENER = 0x10000000 }; /* a flag of raw CAN alone */

static uint32_t busy; /* the line where most of it happens */

/* ---- where things lie in the region of a channel ---- */

enum { TALK = 10, TALK_SIZE = 540, TAKEN = 0, PATTERN = 2, FLOW = 6, KIND = 10, N = 11, TIME = 15, LEFT = 19, GAP = 23, ASKED = 27, COUNT = 28,
       PAYLOAD = 32, OUT = 1090, FLYING = 3235, OWNER = 3236, FLIGHT = 3237, IN = 3773, LOST = 8062, LAST = 8063 };

static uint8_t *talk(uint32_t channel, uint32_t i) { return mine + region(channel) + TALK + i * TALK_SIZE; }

/* ---- events ---- */

static const uint32_t narrow[] = {0x241, 0x242, 0x243, 0x641, 0x642, 0x643, 0, 0x7FF};
static const uint32_t wide_ids[] = {0x241, 0x641, 0x18DAF110, 0x18DA10F1, 0, 0x1FFFFFFF};

static uint32_t some_id(uint32_t tx) { return tx & 0x100 ? one_of(wide_ids, 6) : one_of(narrow, 8); }

/* a record for sending, of these channels or of a raw one */
static void some_message(uint8_t *p, uint32_t channel, uint32_t damage) {
    uint32_t tx = ONE_OF(0, 0, 0, 0x100, 0x100, 0x40, 0x1C0);
    uint32_t n = is_iso(channel) ? ONE_OF(1, 6, 7, 8, 9, 13, 14, 20, 21, 30, 100, 508, below(509)) : below(9);
    const uint8_t *t = talk(is_iso(channel) ? channel : 5, below(2));
    uint32_t id = some_id(tx);
    if (t[TAKEN] && chance(80)) tx = (tx & ~0x100u) | (uint32_t)t[1] << 8, id = word(t + FLOW);
    message_at(p, tx, id, p, 0);
    put_word(p + 16, 4 + n), put_word(p, is_iso(channel) ? 6 : 5);
    if (chance(damage)) put_word(p + ONE_OF(0, 8, 16, 24), ONE_OF(0, 3, 4, 5, 6, 12, 512, 513, 0x100, 0x800, 0xFF, 0xFFFFFFFF, any()));
}

static void some_filter(event *e, uint32_t damage) {
    size_t size = is_iso(e->a) ? RECORD : RAW_RECORD;
    uint32_t tx = ONE_OF(0, 0, 0, 0x100, 0x100, 0x40);
    lent *all[3] = {&e->first, &e->second, &e->third};
    e->b = off(is_iso(e->a) ? 3 : 1 + below(2), damage);
    for (int i = 0; i < 3; i++) {
        static uint8_t r[RECORD];
        message_at(r, tx, i ? some_id(tx) : 0xFFFFFFFF, NULL, 0);
        if (!is_iso(e->a)) put_word(r, 5), put_word(r + 24, i && chance(50) ? some_id(0) : 0), put_word(r + 16, 1);
        if (chance(damage)) put_word(r + ONE_OF(0, 8, 16, 24), ONE_OF(0, 1, 3, 5, 6, 0x40, 0x100, 0xFF, any()));
        lend(all[i], some_length(size, damage / 2));
        memcpy(bytes(all[i]), r, all[i]->n < size ? all[i]->n : size);
    }
    if (chance(20)) memcpy(e->third.room, e->second.room, sizeof e->third.room), e->third.n = e->second.n;
}

/* a frame, most often one that a conversation of the line waits for */
static void some_frame(event *e, uint32_t damage) {
    uint32_t i = below(2), status = ONE_OF(0, 0, 0, 0, 1, 2, below(16)), length = ONE_OF(7, 8, 13, 14, 21, 100, 508, 509, 4095, below(4096));
    const uint8_t *t;
    uint8_t b[9];
    size_t n = chance(70) ? 8 : below(9);
    e->a = off(chance(80) ? busy : below(4), damage / 4);
    t = talk(5 + e->a % 4, i);
    for (size_t k = 0; k < sizeof b; k++) b[k] = (uint8_t)any();
    e->b = t[1], e->c = word(t + PATTERN);
    switch (below(10)) {
    case 0: case 1: b[0] = (uint8_t)below(chance(90) ? 8 : 16); break;
    case 2: case 3: b[0] = (uint8_t)(0x10 | length >> 8), b[1] = (uint8_t)length; break;
    case 4: case 5: b[0] = (uint8_t)(0x30 | status), b[1] = (uint8_t)ONE_OF(0, 1, 2, 255), b[2] = (uint8_t)ONE_OF(0, 1, 0x7F, 0x80, 0xF0, 0xF1, 0xF9, 0xFA, any()); break;
    default: b[0] = (uint8_t)(0x20 | ((word(t + COUNT) + 1) / 7 + chance(8)) % 16); break;
    }
    if (t[KIND] == 4 && chance(70)) b[0] = (uint8_t)(0x30 | status), n = 3;
    if (chance(5)) b[0] = (uint8_t)any();
    if (chance(damage)) e->b = off(e->b, 50), e->c = off(some_id(e->b << 8), 30), n = below(10);
    lend(&e->first, n);
    memcpy(bytes(&e->first), b, e->first.n);
}

static void some_list(event *e, uint32_t damage) {
    e->count = chance(5) ? 16 + below(4) : below(5);
    for (size_t i = 0; i < e->count; i++) {
        e->pairs[i].parameter = off(ONE_OF(1, 3), damage);
        e->pairs[i].value = off(e->pairs[i].parameter == 1 ? ONE_OF(250000, 500000) : below(2), damage);
    }
}

static void some_event(event *e, uint32_t damage) {
    static const uint32_t often[] = {CONNECT, ADVANCE, ADVANCE, FRAME, FRAME, FRAME, FRAME, FRAME, FRAME, FRAME, START_FILTER, START_FILTER,
                                     STOP_FILTER, WRITE, WRITE, READ, READ, TAKE, TAKE, TAKE, TAKE, SENT, SENT, SENT, SENT, CLEAR, GET, SET,
                                     SET_LIST, GET_LIST, LAST_ERROR, START_PERIODIC, STOP_PERIODIC, DISCONNECT};
    uint32_t n = below(4);
    size_t size;
    blank(e, (int)one_of(often, sizeof often / sizeof *often), 0);
    if (e->kind == DISCONNECT && chance(92)) e->kind = chance(3) ? CLOSE : FRAME;
    if ((e->kind == STOP_FILTER || e->kind == CLEAR) && chance(85)) e->kind = TAKE;
    e->a = off(chance(70) ? 5 + busy : 1 + below(8), damage / 4);
    size = is_iso(e->a) ? RECORD : RAW_RECORD;
    if (is_iso(e->a) && (e->kind == TAKE || e->kind == SENT) && chance(60)) e->kind = mine[region(e->a) + FLYING] ? SENT : TAKE;
    switch (e->kind) {
    case CONNECT:
        e->a = off(below(4), damage), e->b = off(chance(80) ? 6 : 5, damage), e->c = off(ONE_OF(0, 0, 0x100, 0x800, 0x900), damage);
        if (chance(e->b == 5 ? 20 : damage)) e->c |= LISTENER; /* with another protocol it is damage */
        e->d = off(ONE_OF(125000, 250000, 250000, 500000, 500000), damage);
        break;
    case ADVANCE:
        e->a = chance(90) ? ONE_OF(0, 1, 99, 100, 900, 1000, 1000, 5000, 5000, 127000) : ONE_OF(499999, 999999, 1000000, below(1000001));
        e->a = off(e->a, damage);
        break;
    case FRAME: some_frame(e, damage); break;
    case START_FILTER: some_filter(e, damage); break;
    case STOP_FILTER: case STOP_PERIODIC: e->b = off(1 + below(2), damage); break;
    case START_PERIODIC:
        e->b = off(5, damage);
        lend(&e->first, some_length(size, damage / 2));
        if (e->first.n >= RECORD) some_message(bytes(&e->first), e->a, damage);
        break;
    case WRITE:
        if (chance(10)) n = 4 + below(5);
        lend(&e->first, some_length(n * size, damage / 2));
        for (uint32_t i = 0; (i + 1) * size <= e->first.n; i++) {
            static uint8_t r[RECORD];
            some_message(r, e->a, damage / 2);
            memcpy(bytes(&e->first) + i * size, r, size);
        }
        e->b = off(n, damage / 4);
        break;
    case READ:
        if (chance(20)) n = below(10);
        lend(&e->first, some_length(n * size, damage / 2));
        e->b = off(n, damage / 4);
        break;
    case TAKE: lend(&e->first, some_length(size, damage / 2)); break;
    case CLEAR: e->b = off(1 + below(4), damage); break;
    case GET: e->b = off(ONE_OF(1, 3), damage); break;
    case SET: e->b = off(ONE_OF(1, 3, 3), damage), e->c = off(e->b == 1 ? ONE_OF(125000, 250000, 500000) : below(2), damage); break;
    case SET_LIST: case GET_LIST: some_list(e, damage); break;
    default: break;
    }
}

/* ---- memories that were not reached ---- */

/* a transfer within its limits or just beyond one, whatever went before */
static void some_transfer(uint8_t *t) {
    uint32_t kind = below(7), size = ONE_OF(8, 9, 13, 14, 100, 507, 508, 8 + below(501)), steps = (size - 7) / 7 + 1, n = 6 + 7 * below(steps);
    uint32_t gap = ONE_OF(0, 100, 900, 1000, 127000), count = kind < 2 ? 0 : kind == 2 ? n : size;
    if (chance(5)) n += 7;
    if (chance(5)) gap = ONE_OF(50, 1100, 128000);
    if (chance(5) && kind > 2) count = size = 7, n = 6;
    memset(t + KIND, 0, TALK_SIZE - KIND);
    t[KIND] = (uint8_t)kind;
    for (uint32_t i = 0; i < count; i++) t[PAYLOAD + i] = (uint8_t)any();
    put_word(t + COUNT, count);
    if (kind == 2) put_word(t + N, chance(5) ? ONE_OF(count, 509) : size), t[ASKED] = (uint8_t)below(2);
    if (kind > 2) put_word(t + N, kind == 3 ? 6 : kind == 5 ? n + 7 : n);
    if (kind == 2 || kind == 4) put_word(t + TIME, chance(5) ? 1000000 : ONE_OF(0, 1, 999998, 999999));
    if (kind >= 5) put_word(t + LEFT, chance(5) ? 256 : ONE_OF(0, 1, 2, 255)), put_word(t + GAP, gap);
    if (kind == 6) put_word(t + TIME, chance(5) ? gap + 1 : ONE_OF(0, gap, below(gap + 1)));
}

static void some_flight(uint8_t *r, uint32_t talks_wide) {
    uint32_t wide = chance(80) ? talks_wide : below(2), n = 1 + below(8);
    uint8_t b[8];
    for (int i = 0; i < 8; i++) b[i] = (uint8_t)any();
    r[OWNER] = (uint8_t)below(4), r[FLYING] = 1;
    if (r[OWNER] == 1) n = 2 + below(7), b[0] = (uint8_t)(n - 1);
    record_at(r + FLIGHT, RECORD, 6, 0, wide << 8, 0, 4 + n, some_id(wide << 8), b, n);
}

/* something of an open channel is made anew; where that is no valid memory, every call says so and nothing changes */
static void make(event *e) {
    static uint8_t before[BOX_MOST];
    uint32_t channel = 5 + below(4), at;
    uint8_t *r = mine + region(channel);
    if (!r[0]) return;
    memcpy(before, mine, on->memory);
    switch (below(5)) {
    case 0: r[below(on->region)] = (uint8_t)(chance(50) ? below(8) : any()); break;
    case 1:
        at = ONE_OF(1, 5, TALK + N, TALK + TIME, TALK + LEFT, TALK + GAP, TALK + COUNT, TALK + PATTERN, TALK + FLOW);
        if (chance(50)) at = ONE_OF(OUT + 1, IN + 1, IN + 1 + RECORD, FLIGHT) + 4 * below(6); /* a number of a record */
        put_word(r + at, ONE_OF(0, 1, 2, 3, 4, 5, 6, 8, 9, 13, 255, 256, 257, 512, 513, LISTENER, any()));
        break;
    case 2:
        at = ONE_OF(0, 9, TALK, TALK + 1, TALK + KIND, TALK + ASKED, OUT, FLYING, OWNER, IN, LOST, LAST);
        r[at] = (uint8_t)below(at == LAST ? 0x1C : chance(80) ? 4 : 256);
        break;
    default:
        for (int i = 0; i < 2; i++)
            if (r[TALK + TALK_SIZE * i] && chance(70)) some_transfer(r + TALK + TALK_SIZE * i);
        if (chance(60)) some_flight(r, r[TALK + 1]);
        else if (chance(50)) memset(r + FLYING, 0, 2 + RECORD);
        break;
    }
    all_made(before, e);
}

static void sequence(uint32_t events, uint32_t damage, uint32_t making) {
    static event e;
    busy = below(4);
    all_begin();
    for (uint32_t l = 0; l < 4; l++) { /* every line has a channel and two filters, most often */
        blank(&e, CONNECT, l);
        e.b = 6, e.c = l % 2 * 0x800, e.d = 500000;
        all_play(&e);
        e.kind = START_FILTER, e.a = 5 + l;
        for (int i = 0; i < 3; i++) some_filter(&e, 0), all_play(&e);
    }
    for (uint32_t i = 0; i < events; i++, turn++) {
        some_event(&e, damage);
        if (chance(making)) make(&e);
        all_play(&e);
    }
}

int main(int argc, char **argv) {
    uint32_t rounds = argc > 2 ? (uint32_t)strtoul(argv[2], NULL, 10) : 1;
    unsigned long events, answers;
    seed = argc > 1 ? strtoull(argv[1], NULL, 10) : 1;
    if (seed == 0) seed = 1;
    on = sides[0], program = "iso_random";
    for (uint32_t r = 0; r < 20 * (rounds ? rounds : 1); r++) sequence(600, r % 3 * 5, r % 5 < 2 ? 0 : 10);
    all_counted(&events, &answers);
    printf("random calls on ISO 15765 channels: %lu, %lu pairs of a call and a code; memories made: %lu valid, %lu not\n", events, answers, made,
           spoilt);
    return 0;
}
