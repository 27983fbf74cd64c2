/* The twin's TP2.0 connections: see link.h. Written from the readings of the request and SAE J2819, but not from them alone: the bytes and their limits
 * are those of the layout's definitions, and the definitions of the connection had been read before. So it is less of a second opinion than the rest of
 * the twin. Which readings decide what:
 *   what a connection keeps, one memory a state   C4, C5, "The machine"
 *   calls and their codes                         P5.1 to P5.9
 *   timers and repeats                            P5.10 to P5.19, tables 1, 7 and 8
 *   opening                                       P5.11, P5.12, P5.20 to P5.23
 *   data, acknowledges, break                     P5.24 to P5.31
 *   ending                                        P5.28, P5.33, P5.34
 *   what goes first                               P5.14, P5.36, table 6
 * Where it stands among what else a channel sends (P5.35), and that filters see its frames (P5.38), is in raw.c. */
#include "link.h"

#include <stddef.h>
#include <string.h>

#include "common.h"

enum { NONE, OPENS, CONNECTS, STANDS, LEAVES };         /* the connection */
enum { WAITS, FLIES, RUNS };                            /* an opening telegram */
enum { SPACED, BEHIND, GOES };                          /* the disconnect telegram */
enum { FREE, DATA, TEST, OTHER };                       /* what flies */
enum { IDLE, SENDS, ASKS };                             /* the message under way */
enum { QUIET, NOT_READY, READY };                       /* the acknowledge that waits */
enum { T_E = 100000, T_WAIT = 100000, T_CTA = 1000000 }; /* microseconds */
enum { MNTC = 10, MNT = 2, MNTB = 5, MNCT = 5 };        /* repeats: opening; a telegram that asks; asked for again; a test */
enum { EACH = 7, LONGEST = LINK_MESSAGE, UNUSED = 0xFF, NEVER = 0xFF };
enum { SET_UP = 0xC0, POSITIVE = 0xD0, NEGATIVE = 0xD6, NEGATIVE_LAST = 0xD8, CONNECTION = 0xA0, JOINED = 0xA1, TESTING = 0xA3, BREAK = 0xA4,
       DISCONNECT = 0xA8 };

typedef char link_size_is_right[sizeof(link_t) == LINK_PART ? 1 : -1];

/* a time byte: two bits of unit, six of count, 100 microseconds the smallest unit */
static uint32_t micros(uint32_t byte) {
    static const uint32_t unit[4] = {100, 1000, 10000, 100000};
    return unit[byte >> 6] * (byte & 0x3F);
}

static uint32_t less(uint32_t left, uint32_t us) { return left > us ? left - us : 0; }

static int is_application(uint32_t a) { return a == 0x01 || a == 0x10 || a == 0x20 || a == 0x21; }

static int is_id(uint32_t id) { return id <= 0x7FF; }

/* ---- the message under way ---- */

/* telegrams of n bytes; the empty telegram behind a break is one too */
static uint32_t telegrams(uint32_t n) { return n ? (n + EACH - 1) / EACH : 1; }

static uint32_t in_block(const link_t *l) {
    uint32_t all = telegrams(get32(l->rest_n));
    return all < l->block ? all : l->block;
}

/* the first n bytes are done with; the next block begins */
static void next_block(link_t *l, uint32_t n) {
    uint32_t had = get32(l->rest_n), left = had > n ? had - n : 0;
    memmove(l->rest, l->rest + (had - left), left);
    memset(l->rest + left, 0, had - left);
    put32(l->rest_n, left);
    l->taken = l->repeats = l->again = 0;
}

/* ---- validity: every stored number within its limit ---- */

static int is_asked(uint32_t own, uint32_t destination, uint32_t rx, uint32_t application, uint32_t size, uint32_t t1, uint32_t t3) {
    if (own < 0x200 || own > 0x2EF || destination > 0xEF || !is_id(rx) || !is_application(application)) return 0;
    return size >= 1 && size <= 15 && t1 <= 255 && t3 <= 255;
}

static int good_asked(const link_t *l) {
    return is_asked(get32(l->own), l->destination, get32(l->rx), l->application, l->size, l->t1, l->t3);
}

static int good_trial(const link_t *l) {
    uint32_t left = get32(l->trial_left);
    if (l->tries > MNTC || l->trial > RUNS) return 0;
    return l->trial == RUNS ? left >= 1 && left <= T_E : left == 0;
}

static int good_leaving(const link_t *l) {
    uint32_t left = get32(l->leaving_left);
    switch (l->leaving) {
    case SPACED: return left <= micros(0xFF);
    case BEHIND: return left <= 0xFF;
    case GOES: return left == 0;
    default: return 0;
    }
}

/* a store of so many bytes, zeros behind them */
static int good_store(const uint8_t count[4], const uint8_t *b) {
    uint32_t n = get32(count);
    return n <= LONGEST && zeros(b + n, LONGEST - n);
}

static int good_out(const link_t *l) {
    uint32_t left = get32(l->out_left), t1 = micros(l->t1);
    int flies = l->wire == DATA;
    if (l->out == IDLE) return !flies && left == 0 && !l->taken && !l->repeats && !l->again && get32(l->rest_n) == 0;
    if (l->out > ASKS || l->repeats > MNT || l->again > MNTB) return 0;
    if (l->out == SENDS) return left == 0 && (flies ? l->taken <= in_block(l) : l->taken < in_block(l));
    if (flies || l->taken != in_block(l)) return 0;
    return l->t1 == NEVER ? left == 0 : left <= t1 && (left > 0 || t1 == 0);
}

static int good_standing(const link_t *l) {
    uint32_t spaced = get32(l->wire_left), test = get32(l->test_left);
    if (l->block < 1 || l->block > l->size || l->wire > OTHER || spaced > (l->wire == FREE ? micros(l->pace) : 0)) return 0;
    if (l->answers > 1 || l->tests > 1 || l->unanswered > MNCT + 1 || test > T_CTA) return 0;
    if (test == 0 && !l->tests && l->wire != TEST) return 0;
    if (get32(l->hold) > T_WAIT || l->sn > 15 || l->expected > 15 || l->acknowledges > READY || l->complete > 1) return 0;
    if (!good_store(l->rest_n, l->rest) || !good_store(l->in_n, l->in) || (l->complete && get32(l->in_n) == 0)) return 0;
    return good_out(l);
}

/* what plays no part in a state is zeros */
static int none(const link_t *l, size_t from, size_t to) { return zeros((const uint8_t *)l + from, to - from); }

int link_valid(const link_t *l) {
    enum { ASKED = offsetof(link_t, own), TX = offsetof(link_t, tx), TRIAL = offsetof(link_t, tries), EXIT = offsetof(link_t, leaving),
           STANDING = offsetof(link_t, block) };
    int trying = l->state == OPENS || l->state == CONNECTS;
    if (l->state == NONE) return none(l, 0, sizeof *l);
    if (l->state > LEAVES || (l->state == LEAVES ? !none(l, ASKED, TX) : !good_asked(l))) return 0;
    if (l->state == OPENS ? get32(l->tx) != 0 : !is_id(get32(l->tx))) return 0;
    if (trying ? !good_trial(l) : !none(l, TRIAL, EXIT)) return 0;
    if (l->state == LEAVES ? !good_leaving(l) : !none(l, EXIT, STANDING)) return 0;
    return l->state == STANDS ? good_standing(l) : none(l, STANDING, sizeof *l);
}

int link_there(const link_t *l) { return l->state != NONE; }

/* ---- from one state to the next ---- */

static void gone(link_t *l) { memset(l, 0, sizeof *l); }

/* the channel stands: the connection set-up waits */
static void connects(link_t *l, uint32_t tx) {
    l->state = CONNECTS, l->tries = 0, l->trial = WAITS;
    put32(l->trial_left, 0);
    put32(l->tx, tx);
}

/* everything anew, with the smaller block size and the partner's T3 */
static void stands(link_t *l, uint8_t size, uint8_t t3) {
    l->state = STANDS, l->tries = 0, l->trial = 0;
    put32(l->trial_left, 0);
    l->block = size < l->size ? size : l->size, l->pace = t3;
    put32(l->test_left, T_CTA);
}

/* what was to be sent is dropped, and the disconnect telegram waits: for T3, or for the telegram in flight and then T3 */
static void leaves(link_t *l) {
    uint32_t tx = get32(l->tx), left = l->wire == FREE ? get32(l->wire_left) : l->pace;
    uint8_t how = l->wire == FREE ? SPACED : BEHIND;
    gone(l);
    l->state = LEAVES, l->leaving = how;
    put32(l->tx, tx);
    put32(l->leaving_left, left);
}

/* ---- the telegram that may go ---- */

static uint32_t ours(const link_t *l, uint8_t first, uint8_t b[8]) {
    b[0] = first, b[1] = l->size, b[2] = l->t1, b[3] = UNUSED, b[4] = l->t3, b[5] = UNUSED;
    return 6;
}

static uint32_t set_up(const link_t *l, uint8_t b[8]) {
    b[0] = l->destination, b[1] = SET_UP, b[2] = 0x00, b[3] = 0x10, b[4] = l->rx[0], b[5] = l->rx[1], b[6] = l->application;
    return 7;
}

static uint32_t fly(link_t *l, uint8_t what, uint32_t n) {
    l->wire = what;
    return n;
}

/* the next of the block; its last one asks */
static uint32_t data(link_t *l, uint8_t b[8]) {
    uint32_t at = (uint32_t)EACH * l->taken, n = get32(l->rest_n) - at, sn = (l->sn + (uint32_t)l->taken) % 16;
    int last;
    if (l->out != SENDS || get32(l->hold)) return 0;
    if (n > EACH) n = EACH;
    last = l->taken + 1u == telegrams(get32(l->rest_n));
    b[0] = (uint8_t)((l->taken + 1u == in_block(l) ? 0 : 0x20) | (last ? 0x10 : 0) | sn);
    memcpy(b + 1, l->rest + at, n);
    l->taken++;
    return fly(l, DATA, 1 + n);
}

/* table 6, and none while one flies or T3 runs */
static uint32_t on_channel(link_t *l, uint8_t b[8]) {
    if (l->wire != FREE || get32(l->wire_left)) return 0;
    if (l->answers) {
        l->answers = 0;
        return fly(l, OTHER, ours(l, JOINED, b));
    }
    if (l->tests) {
        l->tests = 0, b[0] = TESTING;
        return fly(l, TEST, 1);
    }
    if (l->acknowledges) {
        b[0] = (uint8_t)((l->acknowledges == READY ? 0xB0 : 0x90) | l->expected), l->acknowledges = QUIET;
        return fly(l, OTHER, 1);
    }
    return data(l, b);
}

uint32_t link_take(link_t *l, uint32_t *id, uint8_t b[8]) {
    *id = get32(l->state == OPENS ? l->own : l->tx);
    switch (l->state) {
    case OPENS: case CONNECTS:
        if (l->trial != WAITS) return 0;
        l->trial = FLIES;
        return l->state == OPENS ? set_up(l, b) : ours(l, CONNECTION, b);
    case STANDS:
        return on_channel(l, b);
    case LEAVES:
        if (l->leaving != SPACED || get32(l->leaving_left)) return 0;
        l->leaving = GOES, b[0] = DISCONNECT;
        return 1;
    default:
        return 0;
    }
}

/* ---- the channel's flight was sent: timers count from here ---- */

static void landed(link_t *l) {
    uint8_t what = l->wire;
    if (what == FREE) return;
    l->wire = FREE;
    put32(l->wire_left, micros(l->pace));
    if (what == TEST) {
        put32(l->test_left, T_CTA);
        if (!l->unanswered) l->unanswered = 1;
    }
    if (what == DATA && l->out == SENDS && l->taken == in_block(l)) {
        l->out = ASKS;
        put32(l->out_left, l->t1 == NEVER ? 0 : micros(l->t1));
    }
}

void link_sent(link_t *l) {
    switch (l->state) {
    case OPENS: case CONNECTS:
        if (l->trial != FLIES) return;
        l->trial = RUNS;
        put32(l->trial_left, T_E);
        return;
    case STANDS: landed(l); return;
    case LEAVES:
        if (l->leaving == GOES) gone(l);
        else if (l->leaving == BEHIND) l->leaving = SPACED, put32(l->leaving_left, micros(get32(l->leaving_left)));
        return;
    default: return;
    }
}

/* ---- time ---- */

/* an opening telegram had no answer: once more, or given up; by a disconnect telegram where the channel stands */
static void again_or_not(link_t *l) {
    l->trial = WAITS;
    put32(l->trial_left, 0);
    if (l->tries++ < MNTC) return;
    if (l->state == OPENS) gone(l);
    else leaves(l);
}

/* 0 where T1 ended once too often */
static int wait_on(link_t *l, uint32_t us) {
    uint32_t left = get32(l->out_left);
    if (l->out != ASKS || l->t1 == NEVER) return 1;
    put32(l->out_left, less(left, us));
    if (us < left) return 1;
    l->out = SENDS, l->taken--;
    return l->repeats++ < MNT;
}

/* 0 where T_CTa ended once too often */
static int watch(link_t *l, uint32_t us) {
    uint32_t left = get32(l->test_left);
    put32(l->test_left, less(left, us));
    if (left == 0 || us < left) return 1;
    l->tests = 1;
    return l->unanswered == 0 || l->unanswered++ <= MNCT;
}

static void stand(link_t *l, uint32_t us) {
    int goes_on = wait_on(l, us);
    put32(l->hold, less(get32(l->hold), us));
    put32(l->wire_left, less(get32(l->wire_left), us));
    if (!watch(l, us) || !goes_on) leaves(l);
}

void link_advance(link_t *l, uint32_t us) {
    uint32_t left;
    switch (l->state) {
    case OPENS: case CONNECTS:
        left = get32(l->trial_left);
        if (l->trial != RUNS) return;
        if (us < left) put32(l->trial_left, left - us);
        else again_or_not(l);
        return;
    case STANDS: stand(l, us); return;
    case LEAVES:
        if (l->leaving == SPACED) put32(l->leaving_left, less(get32(l->leaving_left), us));
        return;
    default: return;
    }
}

/* ---- a narrow frame of the line ---- */

/* a reply to the set-up: to us, and a positive one with what we asked for */
static void reply(link_t *l, const uint8_t *b, size_t n) {
    uint32_t first, second;
    if (n != 7 || b[0] != l->own[0]) return;
    if (b[1] >= NEGATIVE && b[1] <= NEGATIVE_LAST) {
        gone(l);
        return;
    }
    first = b[2] | (uint32_t)b[3] << 8, second = b[4] | (uint32_t)b[5] << 8;
    if (b[1] == POSITIVE && first == get32(l->rx) && is_id(second) && b[6] == l->application) connects(l, second);
}

/* an acknowledge: of the whole block, or from which telegram on it is wanted again */
static void acknowledged(link_t *l, int ready, uint8_t sn) {
    uint32_t at = (sn + 16u - l->sn) % 16;
    if (l->out != ASKS || at > l->taken) return;
    if (at < l->taken && l->again == MNTB) {
        leaves(l);
        return;
    }
    if (!ready) put32(l->hold, T_WAIT);
    put32(l->out_left, 0);
    l->out = SENDS;
    if (at < l->taken) {
        l->taken = (uint8_t)at, l->repeats = 0, l->again++;
        return;
    }
    l->sn = sn;
    next_block(l, EACH * at);
    if (get32(l->rest_n) == 0) l->out = IDLE;
}

/* the rest of the message is dropped, and one empty telegram ends it */
static void broken(link_t *l) {
    if (l->out == IDLE || l->taken == telegrams(get32(l->rest_n))) return;
    l->sn = (uint8_t)((l->sn + l->taken) % 16);
    next_block(l, LONGEST);
    l->out = SENDS;
    put32(l->out_left, 0);
}

static void received(link_t *l, uint8_t head, const uint8_t *b, uint32_t n) {
    uint32_t had = get32(l->in_n);
    int asks = !(head & 0x20);
    if (l->complete) {
        if (asks) l->acknowledges = NOT_READY;
        return;
    }
    if ((head & 15) != l->expected) {
        l->acknowledges = READY;
        return;
    }
    if (had + n > LONGEST) {
        leaves(l);
        return;
    }
    if (n) memcpy(l->in + had, b, n);
    put32(l->in_n, had + n);
    l->expected = (l->expected + 1) % 16;
    l->complete = (head & 0x10) != 0 && had + n > 0;
    if (asks) l->acknowledges = READY;
}

/* the partner is still there; it tests whether we are */
static void tested(link_t *l) {
    l->answers = 1, l->tests = 0;
    put32(l->test_left, T_CTA);
}

static void told(link_t *l, const uint8_t *b, size_t n) {
    int joined = n == 6 && b[0] == JOINED && b[1] >= 1 && b[1] <= 15, alone = n == 1;
    if (alone && b[0] == DISCONNECT) gone(l);
    else if (l->state == CONNECTS && joined) stands(l, b[1], b[4]);
    else if (l->state == CONNECTS) return;
    else if (joined) l->unanswered = 0;
    else if (b[0] < 0x40) received(l, b[0], b + 1, (uint32_t)n - 1);
    else if (alone && (b[0] & 0xD0) == 0x90) acknowledged(l, (b[0] & 0x20) != 0, b[0] & 15);
    else if (alone && b[0] == TESTING) tested(l);
    else if (alone && b[0] == BREAK) broken(l);
}

void link_frame(link_t *l, uint32_t id, const uint8_t *b, size_t n) {
    if (l->state == OPENS) {
        if (id == 0x200u + l->destination) reply(l, b, n);
    } else if (l->state == CONNECTS || l->state == STANDS) {
        if (id == get32(l->rx) && n > 0) told(l, b, n);
    }
}

/* ---- the calls ---- */

uint32_t link_open(link_t *l, uint32_t own, uint32_t destination, uint32_t rx, uint32_t application, uint32_t size, uint32_t t1, uint32_t t3) {
    if (!is_asked(own, destination, rx, application, size, t1, t3)) return 0x0A;
    if (l->state != NONE) return 0x14;
    l->state = OPENS;
    put32(l->own, own);
    put32(l->rx, rx);
    l->destination = (uint8_t)destination, l->application = (uint8_t)application;
    l->size = (uint8_t)size, l->t1 = (uint8_t)t1, l->t3 = (uint8_t)t3;
    return 0;
}

uint32_t link_send(link_t *l, const uint8_t *message, size_t n) {
    if (l->state != STANDS) return 0x07;
    if (n < 1 || n > LONGEST) return 0x0A;
    if (l->out != IDLE) return 0x11;
    l->out = SENDS;
    put32(l->rest_n, (uint32_t)n);
    memcpy(l->rest, message, n);
    return 0;
}

uint32_t link_receive(link_t *l, uint8_t *buffer, uint32_t *length) {
    uint32_t n = get32(l->in_n);
    if (l->state != STANDS) return 0x07;
    if (!l->complete) return 0x10;
    memcpy(buffer, l->in, n);
    memset(l->in, 0, n);
    put32(l->in_n, 0);
    l->complete = 0;
    *length = n;
    return 0;
}

/* while it opens no channel stands, so no telegram goes out */
uint32_t link_end(link_t *l) {
    if (l->state == NONE || l->state == LEAVES) return 0x07;
    if (l->state == OPENS) gone(l);
    else leaves(l);
    return 0;
}
