/* See support.h. */
#include "support.h"

#include <stdio.h>
#include <stdlib.h>
#include <string.h>

#include "../../include/trawlpepper.h"
#include "../twin/twin.h"

uint64_t seed = 1;

/* ---- lent buffers ---- */

static uint8_t guard_byte(size_t i) { return (uint8_t)(0xA5 ^ i); }

uint8_t *bytes(lent *b) { return b->room + GUARD; }

void lend(lent *b, size_t n) {
    if (n > ROOM) n = ROOM;
    b->n = n;
    for (size_t i = 0; i < GUARD; i++) b->room[i] = guard_byte(i), b->room[GUARD + n + i] = guard_byte(GUARD + i);
    for (size_t i = 0; i < n; i++) bytes(b)[i] = (uint8_t)any();
}

int guarded(const lent *b) {
    for (size_t i = 0; i < GUARD; i++)
        if (b->room[i] != guard_byte(i) || b->room[GUARD + b->n + i] != guard_byte(GUARD + i)) return 0;
    return 1;
}

/* ---- lists ---- */

size_t pairs_of(const lent *b) { return b->n / PAIR; }

void pair_at(const lent *b, size_t i, uint32_t *parameter, uint32_t *value) {
    memcpy(parameter, b->room + GUARD + PAIR * i, sizeof *parameter);
    memcpy(value, b->room + GUARD + PAIR * i + sizeof *parameter, sizeof *value);
}

void put_pair(lent *b, size_t i, uint32_t parameter, uint32_t value) {
    memcpy(bytes(b) + PAIR * i, &parameter, sizeof parameter);
    memcpy(bytes(b) + PAIR * i + sizeof parameter, &value, sizeof value);
}

/* ---- the memory ---- */

enum { CLOCK = TWIN_CLOCK, LINES = TWIN_LINES, ISO_REGIONS = RAW_PART };

typedef char memories_are_alike[TRAWL_MEMORY == TWIN_MEMORY && TRAWL_LINK_MESSAGE == LINK_MESSAGE ? 1 : -1];

int is_iso(uint32_t channel) { return channel > LINES && channel <= CHANNELS; }

int is_channel(uint32_t channel) { return channel >= 1 && channel <= CHANNELS; }

size_t record_of(uint32_t channel) { return is_iso(channel) ? TRAWL_ISO_RECORD : TRAWL_RECORD; }

size_t region_size(uint32_t channel) { return is_iso(channel) ? ISO_REGION : RAW_REGION; }

size_t region_of(uint32_t channel) {
    return is_iso(channel) ? ISO_REGIONS + (channel - LINES - 1) * ISO_REGION : CLOCK + (channel - 1) * RAW_REGION;
}

size_t last_of(uint32_t channel) { return region_of(channel) + (is_iso(channel) ? ISO_REGION - 1 : RAW_LAST); }

/* ---- records ---- */

static void word(uint8_t *p, uint32_t v) {
    for (int i = 0; i < 4; i++) p[i] = (uint8_t)(v >> 8 * i);
}

void record_at(uint8_t *p, uint32_t channel, uint32_t flags, uint32_t identifier, uint32_t n) {
    word(p, is_iso(channel) ? 6 : 5), word(p + 4, any()), word(p + 8, flags), word(p + 12, any()), word(p + 16, 4 + n), word(p + 20, any());
    for (int i = 0; i < 4; i++) p[24 + i] = (uint8_t)(identifier >> (24 - 8 * i));
    for (size_t i = 28; i < record_of(channel); i++) p[i] = (uint8_t)below(3);
}

static uint32_t some_flags(void) { return ONE_OF(0, 0, 0, 0x100, 0x100, 0x1FF, 0x40, 0x80000100u); }

static uint32_t some_id(uint32_t flags) {
    if (flags & 0x100) return ONE_OF(0, 0x7E8, 0x18DAF110, 0x1FFFFFFF);
    return ONE_OF(0, 0x7E8, 0x7E9, 0x7DF, 0x7FF);
}

static uint32_t some_size(uint32_t channel) { return is_iso(channel) ? ONE_OF(1, 2, 7, 8, 13, 14, 20, 100, 508) : below(9); }

static void some_message(uint8_t *p, uint32_t channel, int damage) {
    uint32_t flags = some_flags();
    record_at(p, channel, flags, some_id(flags), some_size(channel));
    if (chance((uint32_t)damage))
        word(p + ONE_OF(0, 8, 16, 24), ONE_OF(0, 1, 3, 4, 5, 6, 12, 13, 512, 513, 0x100, 0x800, 0xFF, 0xFFFFFFFF, any()));
}

/* a filter's mask and pattern: like a message, but of any size 1 to 12 and with few different bytes, so that frames match */
static void some_pair(uint8_t *mask, uint8_t *pattern, int damage) {
    uint32_t flags = ONE_OF(0, 0, 0, 0x100, 0x100, 0x140), size = 1 + below(12), id = some_id(flags);
    record_at(mask, 1, flags, ONE_OF(0, 0, 0x700, 0x7FF, 0xFFFFFFFF, 0x1FFFFFFF), 0);
    record_at(pattern, 1, flags, id, 0);
    word(mask + 16, size), word(pattern + 16, size);
    for (int i = 24; i < 36; i++) {
        if (i >= 28) mask[i] = (uint8_t)ONE_OF(0, 0, 0xFF, 1), pattern[i] = (uint8_t)below(3);
        if (chance(90)) pattern[i] &= mask[i];
    }
    if (chance((uint32_t)damage)) some_message(chance(50) ? mask : pattern, 1, 100);
    if (chance((uint32_t)damage)) word((chance(50) ? mask : pattern) + 16, below(15));
}

/* a conversation's three records */
static void some_three(uint8_t *mask, uint8_t *pattern, uint8_t *flow, int damage) {
    uint32_t flags = ONE_OF(0, 0, 0, 0x100, 0x100, 0x140);
    record_at(mask, 5, flags, 0xFFFFFFFF, 0);
    record_at(pattern, 5, flags, some_id(flags), 0);
    record_at(flow, 5, flags, some_id(flags), 0);
    if (chance((uint32_t)damage)) some_message(chance(50) ? mask : chance(50) ? pattern : flow, 5, 100);
}

/* ---- events ---- */

const char *name_of(int kind) {
    static const char *const names[] = {"-", "connect", "disconnect", "close", "advance", "frame", "start filter", "stop filter",
                                        "start periodic", "stop periodic", "write", "read", "take", "sent", "clear", "get", "set",
                                        "set list", "get list", "last error", "start flow filter", "link open", "link send", "link receive", "link end",
                                        "decide", "save", "load"};
    return names[kind];
}

static uint32_t off(uint32_t good, int damage) {
    if (!chance((uint32_t)damage)) return good;
    return ONE_OF(0, 1, 4, 5, 6, 10, 11, 255, 256, 257, 65535, 65536, 1000000, 1000001, 0x7FFFFFFF, 0xFFFFFFFF, any());
}

static uint32_t some_length(uint32_t good, int damage) {
    if (!chance((uint32_t)damage)) return good + (chance(20) ? below(40) : 0);
    return below(good + 2);
}

/* data that may mean something to a conversation, or just few different bytes */
static void some_data(uint8_t *p, size_t n) {
    for (size_t i = 0; i < n; i++) p[i] = (uint8_t)below(3);
    if (n == 0 || chance(50)) return;
    p[0] = (uint8_t)ONE_OF(0x02, 0x07, 0x10, 0x10, 0x10, 0x12, 0x21, 0x21, 0x22, 0x23, 0x30, 0x30, 0x31, 0x32, 0x40);
    if (p[0] == 0x10 && n > 1) p[1] = (uint8_t)ONE_OF(7, 8, 13, 14, 20, 100, 255);
}

static void some_filter(event *e, int damage) {
    size_t size = record_of(e->a);
    uint8_t *p = bytes(&e->first), *q = bytes(&e->second), *f = bytes(&e->third);
    e->b = off(is_iso(e->a) ? 3 : 1 + below(2), damage);
    lend(&e->first, some_length((uint32_t)size, damage / 2)), lend(&e->second, some_length((uint32_t)size, damage / 2));
    if (e->kind == START_FLOW) lend(&e->third, some_length((uint32_t)size, damage / 2));
    if (e->first.n < size || e->second.n < size) return;
    if (!is_iso(e->a)) some_pair(p, q, damage);
    else if (e->third.n >= size) some_three(p, q, f, damage);
}

void connect_event(event *e, uint32_t line, uint32_t protocol, uint32_t flags, uint32_t rate) {
    memset(e, 0, sizeof *e);
    lend(&e->first, 0), lend(&e->second, 0), lend(&e->third, 0);
    e->kind = CONNECT, e->a = line, e->b = protocol, e->c = flags, e->d = rate;
}

int raw_only(int kind) { return kind >= LINK_OPEN; }

void link_event(event *e, uint32_t channel, uint32_t block_size, uint32_t t1, uint32_t t3) {
    connect_event(e, channel, 0x200, 0x01, 0x300);
    e->kind = LINK_OPEN, e->more[0] = 0x01, e->more[1] = block_size, e->more[2] = t1, e->more[3] = t3;
}

/* an opening, most often the one that the frames below are for */
static void some_opening(event *e, int damage) {
    uint32_t channel = e->a;
    link_event(e, channel, 1 + below(15), ONE_OF(0, 1, 0x8A, 0xC1, 0xFE, 0xFF), ONE_OF(0, 0, 0x32, 0xFF));
    e->b = off(e->b, damage / 2), e->c = off(e->c, damage / 2), e->d = off(e->d, damage / 2);
    e->more[0] = chance(80) ? e->more[0] : ONE_OF(0x10, 0x20, 0x21, 0x11);
    for (int i = 0; i < 4; i++) e->more[i] = off(e->more[i], damage / 2);
}

/* what a module may say to such a connection: a reply to the set-up, or a telegram */
static void some_telegram(event *e) {
    static const uint8_t reply[7] = {0x00, 0xD0, 0x00, 0x03, 0x40, 0x07, 0x01};
    uint8_t b[8] = {0xA1, (uint8_t)(1 + below(15)), 0x8A, (uint8_t)any(), (uint8_t)ONE_OF(0, 0, 0x01, 0x32), (uint8_t)any()};
    size_t n = 6;
    e->b = 0, e->c = 0x300;
    switch (below(8)) {
    case 0: case 1: memcpy(b, reply, 7), n = 7, e->c = 0x201, b[1] = (uint8_t)(chance(90) ? 0xD0 : 0xD5 + below(5)); break;
    case 2: case 3: break;
    case 4: b[0] = (uint8_t)(0x90 | below(64)), n = 1; break;
    case 5: b[0] = (uint8_t)ONE_OF(0xA3, 0xA3, 0xA4, 0xA4, 0xA8, 0xA0), n = 1; break;
    default: b[0] = (uint8_t)(ONE_OF(0, 0x10, 0x10, 0x20, 0x20) | below(chance(50) ? 3 : 16)), n = 1 + below(8); break;
    }
    if (chance(5)) n = below(9);
    lend(&e->first, n);
    memcpy(bytes(&e->first), b, n);
}

static uint8_t *put_seven(uint8_t *p, uint32_t v) {
    for (; v >= 0x80; v >>= 7) *p++ = (uint8_t)(v | 0x80);
    *p++ = (uint8_t)v;
    return p;
}

/* a clean record of some size from the least on, in a width that these flags take */
static uint8_t *put_clean(uint8_t *p, int wide, uint32_t least) {
    uint32_t size = least + below(13 - least), id = some_id(wide ? 0x100 : 0);
    memset(p, 0, TRAWL_RECORD);
    word(p, 5), word(p + 8, wide ? 0x100 : 0), word(p + 16, size), word(p + 20, size);
    for (uint32_t i = 0; i < size; i++) p[24 + i] = (uint8_t)(i < 4 ? id >> (24 - 8 * i) : below(3));
    return p + TRAWL_RECORD;
}

/* a set-up for channels of some flags: few filters and periodics, with gaps; a byte of it may be off, or it is longer or shorter. Of listeners' ones
 * most have no periodics, as it must be */
static void some_store(event *e, int damage) {
    uint8_t room[TRAWL_STORE], *p = room;
    uint32_t listens = chance(25) ? TRAWL_LISTEN_ONLY : 0, flags = ONE_OF(0, 0, 0x100, 0x800, 0x900) | listens;
    uint32_t version = flags == 0 && chance(30) ? 1 : 2, n, k, i;
    p = put_seven(p, version);
    if (version == 2) p = put_seven(p, flags);
    p = put_seven(p, n = below(4));
    for (i = 0, k = 0; i < n; i++) {
        int wide = flags & 0x800 ? chance(50) : (flags & 0x100) != 0;
        p = put_seven(put_seven(p, k += 1 + below(3)), 1 + below(2));
        put_clean(p, wide, 1), memcpy(p + TRAWL_RECORD, p, TRAWL_RECORD);
        for (uint32_t b = 24; b < 24 + 4 && p[16] > 4; b++) p[b] = (uint8_t)ONE_OF(0, 7, 0xFF), p[TRAWL_RECORD + b] &= p[b];
        p += 2 * TRAWL_RECORD;
    }
    p = put_seven(p, n = listens && chance(70) ? 0 : below(4));
    for (i = 0, k = 0; i < n; i++) {
        p = put_seven(p, k += 1 + below(3));
        p = put_seven(put_clean(p, flags & 0x800 ? chance(50) : (flags & 0x100) != 0, 4), ONE_OF(5, 5, 6, 10, 100, 1000, 65535));
    }
    p = put_seven(put_seven(p, ONE_OF(250000, 500000)), below(2));
    n = (uint32_t)(p - room);
    if (chance((uint32_t)damage)) room[below(n)] = (uint8_t)(chance(50) ? below(14) : any());
    lend(&e->first, chance((uint32_t)damage / 2) ? below(n + 2) : n);
    memcpy(bytes(&e->first), room, e->first.n < n ? e->first.n : n);
}

/* the flags of a connect: every fifth on raw CAN is a listener's; with another protocol that is damage */
static uint32_t some_connection(uint32_t protocol, int damage) {
    uint32_t flags = ONE_OF(0, 0x100, 0x800, 0x900);
    if (chance(protocol == 5 ? 20 : (uint32_t)damage)) flags |= TRAWL_LISTEN_ONLY;
    return off(flags, damage);
}

void random_event(event *e, int damage) {
    static const int often[] = {CONNECT,    DISCONNECT,     ADVANCE, ADVANCE, FRAME, FRAME, FRAME, FRAME, FRAME, FRAME, FRAME, FRAME, START_FILTER,
                                STOP_FILTER, START_PERIODIC, STOP_PERIODIC, WRITE, WRITE, READ,  READ,  TAKE,  TAKE,  SENT,  SENT,  CLEAR,
                                GET,        SET,            SET,     START_FILTER, START_PERIODIC, CONNECT, LAST_ERROR, SET_LIST,
                                GET_LIST,   LINK_OPEN,      LINK_OPEN, LINK_SEND, LINK_SEND, LINK_RECEIVE, LINK_RECEIVE, LINK_END, DECIDE, DECIDE,
                                SAVE,       LOAD,           LOAD};
    uint32_t channel = off(chance(60) ? 1 + below(4) : 5 + below(4), damage / 4), flags, n, size = (uint32_t)record_of(channel);
    connect_event(e, 0, 0, 0, 0);
    e->kind = chance(1) ? (chance(10) ? CLOSE : DISCONNECT) : often[below(sizeof often / sizeof *often)];
    if (e->kind == DISCONNECT && chance(80)) e->kind = FRAME;
    if (e->kind == START_FILTER && chance(is_iso(channel) ? 90 : 20)) e->kind = START_FLOW;
    if (e->kind == LINK_END && chance(80)) e->kind = TAKE;
    if (raw_only(e->kind) && is_iso(channel) && chance(80)) channel -= 4;
    e->a = channel;
    switch (e->kind) {
    case CONNECT:
        e->a = off(below(4), damage), e->b = off(chance(60) ? 5 : 6, damage), e->c = some_connection(e->b, damage);
        e->d = off(ONE_OF(125000, 250000, 250000, 500000, 500000), damage);
        break;
    case ADVANCE:
        e->a = off(ONE_OF(0, 1, 999, 1000, 4999, 5000, 10000, 250000, 999999, 1000000), damage);
        break;
    case FRAME:
        flags = some_flags();
        e->a = off(below(4), damage / 4), e->b = off((flags & 0x100) != 0, damage / 4), e->c = off(some_id(flags), damage / 4);
        lend(&e->first, chance((uint32_t)damage / 4) ? below(65) : chance(40) ? 8 : below(9));
        some_data(bytes(&e->first), e->first.n);
        if (chance(35)) some_telegram(e);
        break;
    case START_FILTER:
    case START_FLOW:
        some_filter(e, damage);
        break;
    case STOP_FILTER:
    case STOP_PERIODIC:
        e->b = off(1 + below(10), damage);
        break;
    case START_PERIODIC:
        e->b = off(ONE_OF(5, 5, 6, 10, 100, 1000, 65535), damage);
        lend(&e->first, some_length(size, damage / 2));
        if (e->first.n >= size) some_message(bytes(&e->first), channel, damage);
        break;
    case WRITE:
        n = chance(5) ? (is_iso(channel) ? 4 + below(5) : 16 + below(20)) : below(6);
        lend(&e->first, some_length(size * n, damage / 2));
        for (uint32_t i = 0; size * (i + 1) <= e->first.n; i++) some_message(bytes(&e->first) + size * i, channel, damage / 2);
        e->b = off(n, damage / 4);
        break;
    case READ:
        n = chance(20) ? below(is_iso(channel) ? 10 : 70) : below(6);
        lend(&e->first, some_length(size * n, damage / 2));
        e->b = off(n, damage / 4);
        break;
    case TAKE:
        lend(&e->first, some_length(size, damage / 2));
        break;
    case CLEAR:
        e->b = off(1 + below(4), damage);
        break;
    case GET:
        e->b = off(ONE_OF(1, 3), damage);
        break;
    case SET:
        e->b = off(ONE_OF(1, 3, 3), damage), e->c = off(e->b == 1 ? ONE_OF(125000, 250000, 500000) : below(2), damage);
        break;
    case SET_LIST:
    case GET_LIST:
        n = chance(5) ? 16 + below(4) : below(6);
        lend(&e->first, PAIR * n);
        for (uint32_t i = 0; i < n; i++) {
            uint32_t parameter = off(ONE_OF(1, 3), damage / 3);
            put_pair(&e->first, i, parameter, off(parameter == 1 ? ONE_OF(125000, 250000, 250000, 500000, 500000) : below(2), damage / 3));
        }
        break;
    case DECIDE:
        flags = some_flags();
        e->b = off((flags & 0x100) != 0, damage / 2), e->c = off(some_id(flags), damage / 2);
        break;
    case SAVE:
        lend(&e->first, chance(80) ? some_length(TRAWL_STORE, damage / 2) : below(300));
        break;
    case LOAD:
        some_store(e, damage);
        break;
    case LINK_OPEN:
        some_opening(e, damage);
        break;
    case LINK_SEND:
        lend(&e->first, chance((uint32_t)damage) ? ONE_OF(0, 513, 600) : ONE_OF(1, 7, 8, 14, 30, 100, 512, 1 + below(512)));
        break;
    case LINK_RECEIVE:
        lend(&e->first, some_length(TRAWL_LINK_MESSAGE, damage / 2));
        break;
    default:
        break;
    }
}

/* ---- what an event is about ---- */

uint32_t connects(const event *e) { return e->a > 3 ? 0 : e->b == 5 ? e->a + 1 : e->b == 6 ? e->a + 5 : 0; }

uint32_t concerned(const event *e) {
    if (e->kind == ADVANCE || e->kind == CLOSE) return 0x1FE;
    if (e->kind == FRAME) return e->a > 3 ? 0 : 0x22u << e->a;
    if (e->kind == CONNECT) return connects(e) ? 1u << connects(e) : 0;
    if (raw_only(e->kind) && is_iso(e->a)) return 0;
    return is_channel(e->a) ? 1u << e->a : 0;
}

void opening_event(event *e, uint32_t i) {
    static const char *const replies[2] = {"\0\xD0\0\3\x40\7\1", "\xA1\3\x8A\xFF\x32\xFF"};
    uint32_t line = i % 4, step = i / 4;
    if (step == 0) connect_event(e, line, 5, 0x800, 500000);
    if (step == 1) link_event(e, line + 1, 5, 0x8A, 0x32);
    if (step < 2) return;
    connect_event(e, line, 0, step == 2 ? 0x201 : 0x300, 0);
    e->kind = FRAME;
    lend(&e->first, step == 2 ? 7 : 6);
    memcpy(bytes(&e->first), replies[step - 2], e->first.n);
}

/* a call that gives a number writes it whatever its code: it begins as one that no call gives */
static uint32_t stale(int kind) {
    switch (kind) {
    case CONNECT: case START_FILTER: case START_FLOW: case START_PERIODIC: case WRITE: case READ: case GET: case LAST_ERROR:
    case LINK_RECEIVE: case DECIDE: case SAVE: return 0xBADC0DEu;
    default: return 0;
    }
}

#define PLAY(side)                                                                                                                        \
    /* a list, and the guards around it, as an array of pairs; back in the event afterwards, whatever was written */                      \
    static uint32_t list_on_##side(uint8_t *m, size_t length, event *e) {                                                                 \
        struct CALL(pair) room[sizeof e->first.room / PAIR], *list = room + GUARD / PAIR;                                                 \
        size_t n = pairs_of(&e->first);                                                                                                   \
        uint32_t code;                                                                                                                    \
        memcpy(room, e->first.room, sizeof room);                                                                                         \
        code = e->kind == SET_LIST ? CALL(set_list)(m, length, e->a, list, n) : CALL(get_list)(m, length, e->a, list, n);                 \
        memcpy(e->first.room, room, sizeof room);                                                                                         \
        return code;                                                                                                                      \
    }                                                                                                                                     \
                                                                                                                                          \
    reply on_##side(uint8_t *m, size_t length, event *e) {                                                                                \
        reply r = {0, stale(e->kind)};                                                                                                    \
        uint8_t *p = bytes(&e->first), *q = bytes(&e->second), *f = bytes(&e->third);                                                     \
        size_t pn = e->first.n, qn = e->second.n, fn = e->third.n;                                                                        \
        switch (e->kind) {                                                                                                                \
        case CONNECT: r.code = CALL(connect)(m, length, e->a, e->b, e->c, e->d, &r.value); break;                                         \
        case DISCONNECT: r.code = CALL(disconnect)(m, length, e->a); break;                                                               \
        case CLOSE: r.code = CALL(close)(m, length); break;                                                                               \
        case ADVANCE: r.code = CALL(advance)(m, length, e->a); break;                                                                     \
        case FRAME: r.code = CALL(frame)(m, length, e->a, e->b, e->c, p, pn); break;                                                      \
        case START_FILTER: r.code = CALL(start_filter)(m, length, e->a, e->b, p, pn, q, qn, &r.value); break;                             \
        case START_FLOW: r.code = CALL(start_flow_filter)(m, length, e->a, e->b, p, pn, q, qn, f, fn, &r.value); break;                   \
        case STOP_FILTER: r.code = CALL(stop_filter)(m, length, e->a, e->b); break;                                                       \
        case START_PERIODIC: r.code = CALL(start_periodic)(m, length, e->a, p, pn, e->b, &r.value); break;                                \
        case STOP_PERIODIC: r.code = CALL(stop_periodic)(m, length, e->a, e->b); break;                                                   \
        case WRITE: r.code = CALL(write)(m, length, e->a, e->b, p, pn, &r.value); break;                                                  \
        case READ: r.code = CALL(read)(m, length, e->a, e->b, p, pn, &r.value); break;                                                    \
        case TAKE: r.code = CALL(take)(m, length, e->a, p, pn); break;                                                                    \
        case SENT: r.code = CALL(sent)(m, length, e->a); break;                                                                           \
        case CLEAR: r.code = CALL(clear)(m, length, e->a, e->b); break;                                                                   \
        case GET: r.code = CALL(get)(m, length, e->a, e->b, &r.value); break;                                                             \
        case SET: r.code = CALL(set)(m, length, e->a, e->b, e->c); break;                                                                 \
        case SET_LIST: case GET_LIST: r.code = list_on_##side(m, length, e); break;                                                       \
        case LAST_ERROR: r.code = CALL(last_error)(m, length, e->a, &r.value); break;                                                     \
        case LINK_OPEN:                                                                                                                   \
            r.code = CALL(link_open)(m, length, e->a, e->b, e->c, e->d, e->more[0], e->more[1], e->more[2], e->more[3]);                  \
            break;                                                                                                                        \
        case LINK_SEND: r.code = CALL(link_send)(m, length, e->a, p, pn); break;                                                          \
        case LINK_RECEIVE: r.code = CALL(link_receive)(m, length, e->a, p, pn, &r.value); break;                                          \
        case LINK_END: r.code = CALL(link_end)(m, length, e->a); break;                                                                   \
        case DECIDE: r.code = CALL(decide)(m, length, e->a, e->b, e->c, &r.value); break;                                                 \
        case SAVE: r.code = CALL(save)(m, length, e->a, p, pn, &r.value); break;                                                          \
        case LOAD: r.code = CALL(load)(m, length, e->a, p, pn); break;                                                                    \
        default: break;                                                                                                                   \
        }                                                                                                                                 \
        return r;                                                                                                                         \
    }

#define CALL(f) trawl_##f
PLAY(core)
#undef CALL
#define CALL(f) twin_##f
PLAY(twin)
#undef CALL

void fail(const char *what, const event *e, uint64_t turn) {
    fprintf(stderr, "differs: %s, turn %llu", what, (unsigned long long)turn);
    if (e)
        fprintf(stderr, ", %s(%u, %u, %u, %u), lent %u, %u and %u bytes", name_of(e->kind), (unsigned)e->a, (unsigned)e->b, (unsigned)e->c,
                (unsigned)e->d, (unsigned)e->first.n, (unsigned)e->second.n, (unsigned)e->third.n);
    fprintf(stderr, "\n");
    exit(1);
}
