/* The twin's ISO 15765 channels: see iso.h. Which readings of the request decide what:
 *   the region, one memory a state             C4, C5, C8, "The machine"; last codes P7.1 to P7.7
 *   connect, codes in order, lent buffers      P3.1 to P3.4, P3.10, P3.11, C1, C7; lists P2
 *   records                                    P3.5, P3.25, P3.46
 *   filters, and what ends with one            P3.12 to P3.18
 *   messages written, and when one may start   P3.19 to P3.24, P3.27, P3.28
 *   frames to send, block size, STmin          P3.25, P3.26, P3.29 to P3.33, P3.43
 *   what a sent reports                        P3.35, P3.36
 *   frames received                            P3.37 to P3.44, the table of frames
 *   the two seconds                            P3.34, P3.45
 *   the queue                                  P3.46 to P3.49
 * How frames reach a channel beside a raw one of its line (P3.50) is in twin.c. */
#include "iso.h"

#include <string.h>

#include "common.h"

enum { TALKS = 2, WRITTEN = 4, QUEUE = 8, PAIRS = 16, ROW = 512, LONGEST = 508, PROTOCOL = 6, FLOW_FILTER = 3 };
enum { SECOND = 1000000, MOST_US = 1000000 };               /* of a transfer; of an advance */
enum { ID = 4, SHORT = 7, OF_FIRST = 6, OF_NEXT = 7 };      /* bytes: of an identifier; payload of a single, a first, a consecutive frame at most */
enum { WIDE = 256, ECHO = 1, RX_START = 2, TX_DONE = 9 };   /* RxStatus, and WIDE in TxFlags */
enum { GO_ON = 0x30, OVERFLOW = 0x32 };                     /* our flow frames */
enum { NOTHING, SINGLE, TALK };                             /* what a flight belongs to; TALK + i is the transfer of conversation i */
enum { IDLE, REFUSES, RECEIVES, FIRST_FLIES, AWAITS, NEXT_FLIES, SENDS }; /* what a conversation does; from FIRST_FLIES on it transmits */

/* ---- the region as a struct of bytes ---- */

typedef struct {
    uint8_t protocol[4], rx[4], tx[4], time[4], size[4], extra[4], data[ROW];
} record;

typedef struct {
    uint8_t kind;
    uint8_t n[4];    /* RECEIVES: the length told; a transmission: bytes taken */
    uint8_t time[4]; /* RECEIVES, AWAITS: run of its second; SENDS: left of STmin */
    uint8_t left[4]; /* frames left in the block, 0 no limit */
    uint8_t gap[4];  /* STmin */
    uint8_t go_on;   /* RECEIVES: its flow frame waits to be taken */
    uint8_t count[4], payload[LONGEST];
} transfer_t;

typedef struct {
    uint8_t taken, wide, pattern[4], flow[4];
    transfer_t now;
} talk_t;

typedef struct {
    uint8_t open, flags[4], rate[4], loopback;
    talk_t talk[TALKS];
    uint8_t written;
    record out[WRITTEN];
    uint8_t flying, owner;
    record flight;
    uint8_t held;
    record in[QUEUE];
    uint8_t lost, last;
} channel_t;

typedef char iso_sizes_are_right[sizeof(record) == ISO_RECORD && sizeof(talk_t) == 540 && sizeof(channel_t) == ISO_REGION ? 1 : -1];

static channel_t *channel(uint8_t *region) { return (channel_t *)region; }

/* ---- validity: every stored number within its limit ---- */

/* what all records have in common */
static int good_record(const record *r, uint32_t flags, int wide, uint32_t least, uint32_t most) {
    uint32_t size = get32(r->size);
    if (get32(r->protocol) != PROTOCOL || size < least || size > most) return 0;
    return takes(flags, wide) && in_range(identifier(r->data), wide) && zeros(r->data + size, ROW - size);
}

static int good_to_read(const record *r, uint32_t flags) {
    uint32_t rx = get32(r->rx), what = rx & ~(uint32_t)WIDE;
    int told = what == RX_START || what == TX_DONE;
    if (!told && what > ECHO) return 0;
    if (get32(r->tx) != 0 || get32(r->extra) != (told ? 0 : get32(r->size))) return 0;
    return good_record(r, flags, (rx & WIDE) != 0, told ? ID : ID + 1, told ? ID : ROW);
}

static int good_to_send(const record *r, uint32_t flags, uint32_t most) {
    uint32_t tx = get32(r->tx);
    if (get32(r->rx) != 0 || (tx & ~(uint32_t)WIDE) != 0 || get32(r->time) != 0 || get32(r->extra) != get32(r->size)) return 0;
    return good_record(r, flags, (tx & WIDE) != 0, ID + 1, most);
}

/* after a first frame and k consecutive ones */
static int in_step(uint32_t n) { return n >= OF_FIRST && (n - OF_FIRST) % OF_NEXT == 0; }

/* one that some STmin gives */
static int is_gap(uint32_t us) { return us % 1000 == 0 ? us <= 127000 : us % 100 == 0 && us < 1000; }

static int good_transfer(const transfer_t *t) {
    uint32_t n = get32(t->n), time = get32(t->time), left = get32(t->left), gap = get32(t->gap), count = get32(t->count);
    int paced = t->kind == NEXT_FLIES || t->kind == SENDS;
    if (count > LONGEST || !zeros(t->payload + count, LONGEST - count) || t->go_on > (t->kind == RECEIVES)) return 0;
    if (paced ? left > 255 || !is_gap(gap) : left != 0 || gap != 0) return 0;
    if (t->kind >= FIRST_FLIES && count <= SHORT) return 0;
    switch (t->kind) {
    case IDLE: case REFUSES: return n == 0 && time == 0 && count == 0;
    case RECEIVES: return n > SHORT && n <= LONGEST && in_step(count) && count < n && time < SECOND;
    case FIRST_FLIES: return n == OF_FIRST && time == 0;
    case AWAITS: return in_step(n) && n < count && time < SECOND;
    case NEXT_FLIES: return in_step(n) && n > OF_FIRST && n < count + OF_NEXT && time == 0;
    case SENDS: return in_step(n) && n < count && time <= gap;
    default: return 0;
    }
}

static int transmits(const talk_t *t) { return t->now.kind >= FIRST_FLIES; }

static int flies(const talk_t *t) { return t->now.kind == FIRST_FLIES || t->now.kind == NEXT_FLIES; }

static int good_talk(const talk_t *t, uint32_t flags) {
    uint32_t pattern = get32(t->pattern), flow = get32(t->flow);
    if (t->taken == 0) return zeros(t, sizeof *t);
    if (t->taken > 1 || t->wide > 1 || !takes(flags, t->wide) || !in_range(pattern, t->wide) || !in_range(flow, t->wide)) return 0;
    if (pattern == flow && (t->now.kind == REFUSES || t->now.kind == RECEIVES)) return 0;
    return good_transfer(&t->now);
}

/* is this identifier the pattern or the flow of a conversation? */
static int names(const talk_t *t, int wide, uint32_t id) {
    return t->taken && t->wide == wide && (get32(t->pattern) == id || get32(t->flow) == id);
}

static int good_talks(const channel_t *c, uint32_t flags) {
    const talk_t *a = &c->talk[0], *b = &c->talk[1];
    if (!good_talk(a, flags) || !good_talk(b, flags)) return 0;
    if (b->taken && (names(a, b->wide, get32(b->pattern)) || names(a, b->wide, get32(b->flow)))) return 0;
    return !(transmits(a) && transmits(b));
}

static int good_flight(const channel_t *c, uint32_t flags) {
    const talk_t *t = c->owner < TALK ? NULL : &c->talk[c->owner - TALK];
    uint32_t size = get32(c->flight.size);
    if (c->flying == 0) return c->owner == NOTHING && zeros(&c->flight, sizeof c->flight);
    if (c->flying > 1 || !good_to_send(&c->flight, flags, ID + 8)) return 0;
    if (c->owner == SINGLE && (size < ID + 2 || c->flight.data[ID] != size - ID - 1)) return 0;
    return !t || flies(t) || (t->now.kind == RECEIVES && !t->now.go_on);
}

/* no code yet, or one that a call on an open channel gives */
static int is_last(uint8_t code) {
    switch (code) {
    case 0x00: case 0x01: case 0x04: case 0x05: case 0x07: case 0x09: case 0x0A: case 0x0C: case 0x0D: case 0x0F: case 0x10: case 0x11:
    case 0x12: case 0x14: case 0x15: case 0x16: case 0x17: case 0x18: return 1;
    default: return 0;
    }
}

static int good_channel(const channel_t *c) {
    uint32_t flags = get32(c->flags);
    if (c->open > 1 || !is_flags(flags) || !is_rate(get32(c->rate)) || c->loopback > 1 || c->lost > 1 || !is_last(c->last)) return 0;
    if (c->written > WRITTEN || c->held > QUEUE || c->owner >= TALK + TALKS) return 0;
    if (!good_talks(c, flags) || !good_flight(c, flags)) return 0;
    for (int i = 0; i < TALKS; i++)
        if (flies(&c->talk[i]) && c->owner != TALK + i) return 0;
    for (int i = 0; i < c->written; i++)
        if (!good_to_send(&c->out[i], flags, ROW)) return 0;
    for (int i = 0; i < c->held; i++)
        if (!good_to_read(&c->in[i], flags)) return 0;
    return zeros(&c->out[c->written], (size_t)(WRITTEN - c->written) * sizeof *c->out) &&
           zeros(&c->in[c->held], (size_t)(QUEUE - c->held) * sizeof *c->in);
}

int iso_valid(const uint8_t *region) {
    const channel_t *c = (const channel_t *)region;
    return c->open ? good_channel(c) : zeros(c, sizeof *c);
}

/* ---- records ---- */

/* a record with an identifier and n bytes after it; with none of them it tells of a start or an end, and its extra index is 0 */
static void fill(record *to, uint32_t rx, uint32_t tx, uint32_t time, uint32_t id, const uint8_t *payload, uint32_t n) {
    memset(to, 0, sizeof *to);
    put32(to->protocol, PROTOCOL), put32(to->rx, rx), put32(to->tx, tx), put32(to->time, time);
    put32(to->size, ID + n), put32(to->extra, n ? ID + n : 0);
    put_identifier(to->data, id);
    if (n) memcpy(to->data + ID, payload, n);
}

static void arrive(channel_t *c, uint32_t rx, uint32_t now, uint32_t id, const uint8_t *payload, uint32_t n) {
    if (c->held == QUEUE) {
        c->lost = 1;
        return;
    }
    fill(&c->in[c->held++], rx, 0, now, id, payload, n);
}

/* the first n records leave a store: the others move to its front, zeros behind them */
static void drop(uint8_t *count, record *r, unsigned n) {
    memmove(r, r + n, (*count - n) * sizeof *r);
    memset(r + (*count - n), 0, n * sizeof *r);
    *count = (uint8_t)(*count - n);
}

/* the answer of a call on an open channel, which keeps it unless it is 0x00 */
static uint32_t noted(channel_t *c, uint32_t code) {
    if (code) c->last = (uint8_t)code;
    return code;
}

static int shorter(size_t len, uint32_t n) { return (uint64_t)len < (uint64_t)ISO_RECORD * n; }

static uint32_t width_of(const talk_t *t) { return t->wide ? WIDE : 0; }

/* ---- transfers end ---- */

/* idle again; a frame of its transfer that is in flight belongs to nothing any more */
static void end(channel_t *c, int i) {
    memset(&c->talk[i].now, 0, sizeof c->talk[i].now);
    if (c->owner == TALK + i) c->owner = NOTHING;
}

static void land(channel_t *c) {
    c->flying = 0, c->owner = NOTHING;
    memset(&c->flight, 0, sizeof c->flight);
}

/* a message was sent whole */
static void done(channel_t *c, uint32_t width, uint32_t now, uint32_t id, const uint8_t *payload, uint32_t n) {
    arrive(c, width | TX_DONE, now, id, NULL, 0);
    if (c->loopback) arrive(c, width | ECHO, now, id, payload, n);
}

/* ---- connect, disconnect, time ---- */

uint32_t iso_connect(uint8_t *region, uint32_t line, uint32_t protocol, uint32_t flags, uint32_t rate) {
    channel_t *c = channel(region);
    if (protocol != PROTOCOL) return 0x03;
    if (!is_flags(flags)) return 0x06;
    if (!takes_rate(rate)) return 0x19;
    if (line > 3) return 0x13;
    if (c->open) return noted(c, 0x14);
    c->open = 1;
    put32(c->flags, flags);
    put32(c->rate, rate);
    return 0;
}

uint32_t iso_disconnect(uint8_t *region) {
    if (!channel(region)->open) return 0x02;
    memset(region, 0, ISO_REGION);
    return 0;
}

uint32_t iso_advance(uint8_t *region, uint32_t us) {
    channel_t *c = channel(region);
    if (us > MOST_US) return 0x0B;
    for (int i = 0; i < TALKS; i++) {
        transfer_t *t = &c->talk[i].now;
        uint32_t time = get32(t->time);
        if (t->kind == SENDS) {
            put32(t->time, time > us ? time - us : 0);
        } else if (t->kind == RECEIVES || t->kind == AWAITS) {
            put32(t->time, time + us);
            if (time + us >= SECOND) end(c, i);
        }
    }
    return 0;
}

/* ---- frames from the bus; b is the data, n its length, of which the first byte is there ---- */

static void single_frame(channel_t *c, int i, const uint8_t *b, size_t n, uint32_t now) {
    const talk_t *t = &c->talk[i];
    uint32_t length = b[0] & 15;
    if (length < 1 || length > SHORT || n < 1 + length) return;
    if (t->now.kind == RECEIVES) end(c, i);
    arrive(c, width_of(t), now, get32(t->pattern), b + 1, length);
}

static void first_frame(channel_t *c, int i, const uint8_t *b, size_t n, uint32_t now) {
    talk_t *t = &c->talk[i];
    uint32_t length;
    if (n < 8 || get32(t->pattern) == get32(t->flow)) return;
    length = (uint32_t)(b[0] & 15) << 8 | b[1];
    if (length <= SHORT) return;
    end(c, i);
    if (length > LONGEST) {
        t->now.kind = REFUSES;
        return;
    }
    arrive(c, width_of(t) | RX_START, now, get32(t->pattern), NULL, 0);
    t->now.kind = RECEIVES, t->now.go_on = 1;
    put32(t->now.n, length);
    put32(t->now.count, OF_FIRST);
    memcpy(t->now.payload, b + 2, OF_FIRST);
}

/* the number of the consecutive frame that follows n bytes */
static uint8_t number_after(uint32_t n) { return (uint8_t)(((n - OF_FIRST) / OF_NEXT + 1) % 16); }

static void consecutive_frame(channel_t *c, int i, const uint8_t *b, size_t n, uint32_t now) {
    talk_t *t = &c->talk[i];
    uint32_t length = get32(t->now.n), count = get32(t->now.count), missing = length - count;
    uint32_t part = missing < OF_NEXT ? missing : OF_NEXT;
    uint8_t whole[LONGEST];
    if (n < 1 + part) return;
    if ((b[0] & 15) != number_after(count)) {
        end(c, i);
        return;
    }
    memcpy(t->now.payload + count, b + 1, part);
    put32(t->now.count, count + part);
    put32(t->now.time, 0);
    if (part < missing) return;
    memcpy(whole, t->now.payload, length);
    end(c, i);
    arrive(c, width_of(t), now, get32(t->pattern), whole, length);
}

static uint32_t gap_of(uint8_t stmin) {
    if (stmin <= 0x7F) return 1000u * stmin;
    if (stmin >= 0xF1 && stmin <= 0xF9) return 100u * (stmin - 0xF0u);
    return 127000;
}

static void flow_frame(channel_t *c, int i, const uint8_t *b) {
    transfer_t *t = &c->talk[i].now;
    switch (b[0] & 15) {
    case 0:
        t->kind = SENDS;
        put32(t->time, 0);
        put32(t->left, b[1]);
        put32(t->gap, gap_of(b[2]));
        break;
    case 1: put32(t->time, 0); break;
    default: end(c, i); break;
    }
}

static void heard(channel_t *c, int i, const uint8_t *b, size_t n, uint32_t now) {
    const talk_t *t = &c->talk[i];
    switch (b[0] >> 4) {
    case 0:
        if (!transmits(t)) single_frame(c, i, b, n, now);
        break;
    case 1:
        if (!transmits(t)) first_frame(c, i, b, n, now);
        break;
    case 2:
        if (t->now.kind == RECEIVES) consecutive_frame(c, i, b, n, now);
        break;
    case 3:
        if (t->now.kind == AWAITS && n >= 3) flow_frame(c, i, b);
        break;
    default: break;
    }
}

uint32_t iso_frame(uint8_t *region, uint32_t now, uint32_t wide, uint32_t id, const uint8_t *data, size_t n) {
    channel_t *c = channel(region);
    if (wide > 1 || !in_range(id, (int)wide) || n > 8) return 0x0A;
    for (int i = 0; i < TALKS && n > 0; i++)
        if (c->talk[i].taken && c->talk[i].wide == wide && get32(c->talk[i].pattern) == id) heard(c, i, data, n, now);
    return 0;
}

/* ---- filters ---- */

static int all_ones(const uint8_t b[4]) { return identifier(b) == 0xFFFFFFFFu; }

/* the code of the three records: 0x15, 0x0A */
static uint32_t filter_code(const record *mask, const record *pattern, const record *flow, uint32_t flags) {
    const record *all[3] = {mask, pattern, flow};
    uint32_t tx = get32(mask->tx);
    int wide = (tx & WIDE) != 0;
    for (int i = 0; i < 3; i++)
        if (get32(all[i]->protocol) != PROTOCOL) return 0x15;
    for (int i = 0; i < 3; i++)
        if (get32(all[i]->size) != ID || get32(all[i]->tx) != tx) return 0x0A;
    if (!all_ones(mask->data) || !takes(flags, wide)) return 0x0A;
    if (!in_range(identifier(pattern->data), wide) || !in_range(identifier(flow->data), wide)) return 0x0A;
    return 0;
}

static uint32_t start_filter(channel_t *c, uint32_t type, const record *mask, const record *pattern, const record *flow, uint32_t *number) {
    uint32_t code, p, f;
    int wide, i;
    if (type != FLOW_FILTER) return 0x16;
    code = filter_code(mask, pattern, flow, get32(c->flags));
    if (code) return code;
    wide = (get32(mask->tx) & WIDE) != 0, p = identifier(pattern->data), f = identifier(flow->data);
    for (i = 0; i < TALKS; i++)
        if (names(&c->talk[i], wide, p) || names(&c->talk[i], wide, f)) return 0x18;
    for (i = 0; i < TALKS && c->talk[i].taken; i++) {
    }
    if (i == TALKS) return 0x0C;
    c->talk[i].taken = 1, c->talk[i].wide = (uint8_t)wide;
    put32(c->talk[i].pattern, p);
    put32(c->talk[i].flow, f);
    *number = (uint32_t)i + 1;
    return 0;
}

/* the conversation ends with its filter */
static void forget(channel_t *c, int i) {
    end(c, i);
    memset(&c->talk[i], 0, sizeof c->talk[i]);
}

static uint32_t stop_filter(channel_t *c, uint32_t number) {
    if (number < 1 || number > TALKS || !c->talk[number - 1].taken) return 0x16;
    forget(c, (int)number - 1);
    return 0;
}

/* ---- messages written ---- */

/* the conversation that sends with this identifier, or -1 */
static int talk_with(const channel_t *c, int wide, uint32_t id) {
    for (int i = 0; i < TALKS; i++)
        if (c->talk[i].taken && c->talk[i].wide == wide && get32(c->talk[i].flow) == id) return i;
    return -1;
}

static uint32_t message_code(const channel_t *c, const record *r) {
    uint32_t size = get32(r->size), id = identifier(r->data);
    int wide = (get32(r->tx) & WIDE) != 0;
    if (get32(r->protocol) != PROTOCOL) return 0x15;
    if (size < ID + 1 || size > ROW || !takes(get32(c->flags), wide) || !in_range(id, wide)) return 0x0A;
    if (size > ID + SHORT && talk_with(c, wide, id) < 0) return 0x17;
    return 0;
}

static uint32_t put_records(channel_t *c, uint32_t n, const uint8_t *b, size_t b_len, uint32_t *count) {
    if (shorter(b_len, n)) return 0x04;
    for (uint32_t i = 0; i < n; i++) {
        const record *r = (const record *)b + i;
        uint32_t code = message_code(c, r);
        if (code) return code;
        if (c->written == WRITTEN) return 0x11;
        fill(&c->out[c->written++], 0, get32(r->tx) & WIDE, 0, identifier(r->data), r->data + ID, get32(r->size) - ID);
        ++*count;
    }
    return 0;
}

static uint32_t get_records(channel_t *c, uint32_t n, uint8_t *b, size_t b_len, uint32_t *count) {
    uint32_t moved;
    int lost;
    if (shorter(b_len, n)) return 0x04;
    if (n == 0) return 0;
    moved = n < c->held ? n : c->held;
    if (moved) memcpy(b, c->in, moved * sizeof *c->in);
    drop(&c->held, c->in, moved);
    lost = c->lost;
    c->lost = 0;
    *count = moved;
    return lost ? 0x12 : moved == n ? 0x00 : moved == 0 ? 0x10 : 0x09;
}

/* ---- frames to send ---- */

/* a frame goes in flight: its first bytes, and n payload bytes behind them */
static void fly(channel_t *c, int owner, uint32_t width, uint32_t id, const uint8_t *head, uint32_t head_n, const uint8_t *payload, uint32_t n) {
    uint8_t b[8];
    memcpy(b, head, head_n);
    if (n) memcpy(b + head_n, payload, n);
    c->flying = 1, c->owner = (uint8_t)owner;
    fill(&c->flight, 0, width, 0, id, b, head_n + n);
}

/* the flow frame that waits, if one does */
static int answer(channel_t *c, int i) {
    talk_t *t = &c->talk[i];
    uint8_t head[3] = {GO_ON, 0, 0};
    int go_on = t->now.go_on;
    if (!go_on && t->now.kind != REFUSES) return 0;
    if (!go_on) head[0] = OVERFLOW, t->now.kind = IDLE;
    t->now.go_on = 0;
    fly(c, go_on ? TALK + i : NOTHING, width_of(t), get32(t->flow), head, 3, NULL, 0);
    return 1;
}

/* the next consecutive frame, if the pause is over */
static int next(channel_t *c, int i) {
    talk_t *t = &c->talk[i];
    uint32_t n = get32(t->now.n), rest = get32(t->now.count) - n;
    uint8_t head = (uint8_t)(0x20 | number_after(n));
    if (t->now.kind != SENDS || get32(t->now.time) > 0) return 0;
    t->now.kind = NEXT_FLIES;
    put32(t->now.n, n + OF_NEXT);
    fly(c, TALK + i, width_of(t), get32(t->flow), &head, 1, t->now.payload + n, rest < OF_NEXT ? rest : OF_NEXT);
    return 1;
}

/* the first frame of a message of n payload bytes, if its conversation is there and idle */
static int open_transfer(channel_t *c, int i, const uint8_t *payload, uint32_t n) {
    uint8_t head[2] = {(uint8_t)(0x10 | n >> 8), (uint8_t)n};
    transfer_t *t;
    if (i < 0 || c->talk[i].now.kind != IDLE) return 0;
    t = &c->talk[i].now;
    t->kind = FIRST_FLIES;
    put32(t->n, OF_FIRST);
    put32(t->count, n);
    memcpy(t->payload, payload, n);
    fly(c, TALK + i, width_of(&c->talk[i]), get32(c->talk[i].flow), head, 2, payload, OF_FIRST);
    return 1;
}

/* the oldest written message, if it may start */
static int begin(channel_t *c) {
    const record *r = &c->out[0];
    uint32_t width = get32(r->tx), id = identifier(r->data), n = get32(r->size) - ID;
    uint8_t head = (uint8_t)n;
    if (c->written == 0) return 0;
    if (n <= SHORT) fly(c, SINGLE, width, id, &head, 1, r->data + ID, n);
    else if (!open_transfer(c, talk_with(c, width != 0, id), r->data + ID, n)) return 0;
    drop(&c->written, c->out, 1);
    return 1;
}

/* puts a frame in flight, if there is one */
static int fetch(channel_t *c) {
    for (int i = 0; i < TALKS; i++)
        if (answer(c, i)) return 1;
    for (int i = 0; i < TALKS; i++)
        if (transmits(&c->talk[i])) return next(c, i);
    return begin(c);
}

static uint32_t take(channel_t *c, uint8_t *b, size_t b_len) {
    if (shorter(b_len, 1)) return 0x04;
    if (!c->flying && !fetch(c)) return 0x10;
    memcpy(b, &c->flight, ISO_RECORD);
    return 0;
}

/* a frame of the transmission of conversation i went out */
static void went(channel_t *c, int i, uint32_t now) {
    talk_t *t = &c->talk[i];
    uint32_t n = get32(t->now.n), count = get32(t->now.count), left = get32(t->now.left);
    uint8_t whole[LONGEST];
    if (n >= count) {
        memcpy(whole, t->now.payload, count);
        end(c, i);
        done(c, width_of(t), now, get32(t->flow), whole, count);
    } else if (t->now.kind == FIRST_FLIES || left == 1) {
        t->now.kind = AWAITS;
        put32(t->now.left, 0);
        put32(t->now.gap, 0);
    } else {
        t->now.kind = SENDS;
        put32(t->now.left, left ? left - 1 : 0);
        memcpy(t->now.time, t->now.gap, sizeof t->now.time);
    }
}

static uint32_t sent(channel_t *c, uint32_t now) {
    record was = c->flight;
    int owner = c->owner;
    if (!c->flying) return 0x07;
    land(c);
    if (owner == SINGLE) done(c, get32(was.tx), now, identifier(was.data), was.data + ID + 1, get32(was.size) - ID - 1);
    if (owner < TALK) return 0;
    if (transmits(&c->talk[owner - TALK])) went(c, owner - TALK, now);
    else put32(c->talk[owner - TALK].now.time, 0);
    return 0;
}

/* ---- clear, get, set ---- */

static uint32_t clear(channel_t *c, uint32_t kind) {
    switch (kind) {
    case 1: drop(&c->written, c->out, c->written); return 0;
    case 2: drop(&c->held, c->in, c->held), c->lost = 0; return 0;
    case 3: return 0;
    case 4:
        for (int i = 0; i < TALKS; i++) forget(c, i);
        return 0;
    default: return 0x0F;
    }
}

/* a refused one leaves the value */
static uint32_t get(const channel_t *c, uint32_t parameter, uint32_t *value) {
    if (parameter != 1 && parameter != 3) return 0x01;
    *value = parameter == 1 ? get32(c->rate) : c->loopback;
    return 0;
}

static uint32_t set(channel_t *c, uint32_t parameter, uint32_t value) {
    if (parameter != 1 && parameter != 3) return 0x01;
    if (parameter == 1 ? !takes_rate(value) : value > 1) return 0x05;
    if (parameter == 1) put32(c->rate, value);
    else c->loopback = (uint8_t)value;
    return 0;
}

static uint32_t set_list(channel_t *c, const struct twin_pair *pairs, size_t count) {
    uint32_t code = 0;
    if (count > PAIRS) return 0x04;
    for (size_t i = 0; i < count && !code; i++) code = set(c, pairs[i].parameter, pairs[i].value);
    return code;
}

static uint32_t get_list(const channel_t *c, struct twin_pair *pairs, size_t count) {
    uint32_t code = 0;
    if (count > PAIRS) return 0x04;
    for (size_t i = 0; i < count && !code; i++) code = get(c, pairs[i].parameter, &pairs[i].value);
    return code;
}

/* ---- the same as calls on a channel: 0x02 first, and the code is kept ---- */

uint32_t iso_start_filter(uint8_t *region, uint32_t type, const uint8_t *mask, size_t mask_len, const uint8_t *pattern, size_t pattern_len,
                          const uint8_t *flow, size_t flow_len, uint32_t *number) {
    channel_t *c = channel(region);
    *number = 0;
    if (!c->open) return 0x02;
    if (shorter(mask_len, 1) || shorter(pattern_len, 1) || shorter(flow_len, 1)) return noted(c, 0x04);
    return noted(c, start_filter(c, type, (const record *)mask, (const record *)pattern, (const record *)flow, number));
}

uint32_t iso_stop_filter(uint8_t *region, uint32_t number) {
    channel_t *c = channel(region);
    return c->open ? noted(c, stop_filter(c, number)) : 0x02;
}

/* there are none here, whatever the message and the interval */
uint32_t iso_start_periodic(uint8_t *region, const uint8_t *message, size_t message_len, uint32_t interval, uint32_t *number) {
    channel_t *c = channel(region);
    *number = 0;
    (void)message, (void)interval;
    return c->open ? noted(c, shorter(message_len, 1) ? 0x04 : 0x01) : 0x02;
}

uint32_t iso_stop_periodic(uint8_t *region, uint32_t number) {
    channel_t *c = channel(region);
    (void)number;
    return c->open ? noted(c, 0x0D) : 0x02;
}

uint32_t iso_write(uint8_t *region, uint32_t n, const uint8_t *b, size_t b_len, uint32_t *count) {
    channel_t *c = channel(region);
    *count = 0;
    return c->open ? noted(c, put_records(c, n, b, b_len, count)) : 0x02;
}

uint32_t iso_read(uint8_t *region, uint32_t n, uint8_t *b, size_t b_len, uint32_t *count) {
    channel_t *c = channel(region);
    *count = 0;
    return c->open ? noted(c, get_records(c, n, b, b_len, count)) : 0x02;
}

uint32_t iso_take(uint8_t *region, uint8_t *b, size_t b_len) {
    channel_t *c = channel(region);
    return c->open ? noted(c, take(c, b, b_len)) : 0x02;
}

uint32_t iso_sent(uint8_t *region, uint32_t now) {
    channel_t *c = channel(region);
    return c->open ? noted(c, sent(c, now)) : 0x02;
}

uint32_t iso_clear(uint8_t *region, uint32_t kind) {
    channel_t *c = channel(region);
    return c->open ? noted(c, clear(c, kind)) : 0x02;
}

uint32_t iso_get(uint8_t *region, uint32_t parameter, uint32_t *value) {
    channel_t *c = channel(region);
    *value = 0;
    return c->open ? noted(c, get(c, parameter, value)) : 0x02;
}

uint32_t iso_set(uint8_t *region, uint32_t parameter, uint32_t value) {
    channel_t *c = channel(region);
    return c->open ? noted(c, set(c, parameter, value)) : 0x02;
}

uint32_t iso_get_list(uint8_t *region, struct twin_pair *pairs, size_t count) {
    channel_t *c = channel(region);
    return c->open ? noted(c, get_list(c, pairs, count)) : 0x02;
}

uint32_t iso_set_list(uint8_t *region, const struct twin_pair *pairs, size_t count) {
    channel_t *c = channel(region);
    return c->open ? noted(c, set_list(c, pairs, count)) : 0x02;
}

/* asking is not kept */
uint32_t iso_last_error(const uint8_t *region, uint32_t *code) {
    const channel_t *c = (const channel_t *)region;
    *code = c->last;
    return c->open ? 0 : 0x02;
}
