/* The twin's raw channels: see raw.h. */
#include "raw.h"

#include <string.h>

#include "common.h"
#include "early.h"
#include "link.h"
#include "store.h"

enum { FILTERS = 10, PERIODICS = 10, WRITTEN = 16, QUEUE = 32, PAIRS = 16, RECORD = 36, ROW = 12 };
enum { PASS = 1, BLOCK = 2, MAPPED = 4, HIGHS = 8, BAND = RAW_MAP / HIGHS }; /* types of filters; the longest filter of a map; a map's bands */

/* ---- the part of the memory as a struct of bytes, by docs/LAYOUT.md ---- */

typedef struct {
    uint8_t protocol[4], rx[4], tx[4], time[4], size[4], extra[4], data[ROW];
} record;

typedef struct {
    uint8_t open, flags[4], rate[4], loopback;
    uint8_t type[FILTERS], wide[FILTERS], size[FILTERS], mask[FILTERS][ROW], pattern[FILTERS][ROW];
    uint8_t passed[RAW_MAP], blocked[RAW_MAP]; /* what follows from the filters: see maps */
    uint8_t interval[PERIODICS][4], phase[PERIODICS][4], pending[PERIODICS];
    record periodic[PERIODICS];
    uint8_t written;
    record out[WRITTEN];
    uint8_t flying;
    record flight;
    uint8_t held;
    record in[QUEUE];
    uint8_t lost;
    uint8_t last; /* the last code other than 0x00 */
    link_t link;
} channel_t;

typedef struct {
    uint8_t clock[4];
    channel_t line[4];
} device_t;

typedef char raw_sizes_are_right[sizeof(device_t) == RAW_PART && offsetof(channel_t, link) == LINK_AT && offsetof(channel_t, passed) == RAW_MAPS &&
                                         offsetof(channel_t, interval) == RAW_PERIODICS && offsetof(channel_t, last) == RAW_LAST
                                     ? 1
                                     : -1];

static device_t *device(uint8_t *m) { return (device_t *)m; }

/* ---- the maps: bit i modulo 8 of byte i div 8 stands for the narrow identifier i ---- */

/* Sets the bits of the identifiers that a filter of at most four bytes matches. An identifier's bytes are 0, 0, its high three bits and its low
 * eight; a row is zeros behind its size. A band of the map is the 256 identifiers with the same high bits. */
static void mark(uint8_t map[RAW_MAP], const uint8_t mask[ROW], const uint8_t pattern[ROW]) {
    uint8_t band[BAND], eight = 0, tops = mask[3] & 0xF8, top = pattern[3] & 0xF8;
    if (pattern[0] || pattern[1]) return;
    for (unsigned low = 0; low < 8; low++) eight = (uint8_t)(eight | ((low & mask[3]) == (pattern[3] & 7u)) << low);
    for (unsigned k = 0; k < BAND; k++) band[k] = (uint8_t)(8 * k & tops) == top ? eight : 0;
    for (unsigned high = 0; high < HIGHS; high++) {
        if ((high & mask[2]) != pattern[2]) continue;
        for (unsigned k = 0; k < BAND; k++) map[BAND * high + k] |= band[k];
    }
}

/* the map of a type: narrow filters of one to four bytes have their bits there */
static void map_of(const channel_t *c, int type, uint8_t map[RAW_MAP]) {
    memset(map, 0, RAW_MAP);
    for (int i = 0; i < FILTERS; i++)
        if (c->type[i] == type && !c->wide[i] && c->size[i] <= MAPPED) mark(map, c->mask[i], c->pattern[i]);
}

/* made anew whenever the filters change */
static void maps(channel_t *c) { map_of(c, PASS, c->passed), map_of(c, BLOCK, c->blocked); }

static int maps_fit(const channel_t *c) {
    uint8_t passed[RAW_MAP], blocked[RAW_MAP];
    if (zeros(c->type, FILTERS)) return zeros(c->passed, RAW_MAP) && zeros(c->blocked, RAW_MAP);
    map_of(c, PASS, passed), map_of(c, BLOCK, blocked);
    return !memcmp(passed, c->passed, RAW_MAP) && !memcmp(blocked, c->blocked, RAW_MAP);
}

/* ---- validity: every stored number within its limit ---- */

static int good_record(const record *r, uint32_t flags, int to_read) {
    uint32_t rx = get32(r->rx), tx = get32(r->tx), size = get32(r->size);
    int wide = ((to_read ? rx : tx) & 0x100) != 0;
    if (get32(r->protocol) != 5 || size < 4 || size > 12 || get32(r->extra) != size) return 0;
    if (to_read ? (rx & ~(uint32_t)0x101) != 0 || tx != 0 : rx != 0 || (tx & ~(uint32_t)0x100) != 0 || get32(r->time) != 0) return 0;
    if (!in_range(identifier(r->data), wide) || !takes(flags, wide)) return 0;
    return zeros(r->data + size, ROW - size);
}

static int good_store(const uint8_t *count, const record *r, unsigned most, uint32_t flags, int to_read) {
    unsigned n = *count;
    if (n > most) return 0;
    for (unsigned i = 0; i < n; i++)
        if (!good_record(&r[i], flags, to_read)) return 0;
    return zeros(&r[n], (most - n) * sizeof *r);
}

static int good_filter(const channel_t *c, int i, uint32_t flags) {
    unsigned n = c->size[i];
    if (c->type[i] == 0) return c->wide[i] == 0 && n == 0 && zeros(c->mask[i], ROW) && zeros(c->pattern[i], ROW);
    if (c->type[i] > 2 || c->wide[i] > 1 || n < 1 || n > ROW || !takes(flags, c->wide[i])) return 0;
    return zeros(c->mask[i] + n, ROW - n) && zeros(c->pattern[i] + n, ROW - n);
}

static int good_periodic(const channel_t *c, int i, uint32_t flags) {
    uint32_t interval = get32(c->interval[i]), phase = get32(c->phase[i]);
    if (interval == 0) return phase == 0 && c->pending[i] == 0 && zeros(&c->periodic[i], RECORD);
    if (interval < 5 || interval > 65535 || phase >= 1000 * interval || c->pending[i] > 1) return 0;
    return good_record(&c->periodic[i], flags, 0);
}

/* no code yet, or one that a call on an open channel gives */
static int is_last(uint8_t code) {
    switch (code) {
    case 0x00: case 0x01: case 0x04: case 0x05: case 0x07: case 0x09: case 0x0A: case 0x0B: case 0x0C: case 0x0D: case 0x0F: case 0x10:
    case 0x11: case 0x12: case 0x14: case 0x15: case 0x16: return 1;
    default: return 0;
    }
}

/* what a listener never has */
static int sends(const channel_t *c) { return c->written || c->flying || !zeros(c->interval, sizeof c->interval) || link_there(&c->link); }

static int good_channel(const channel_t *c) {
    uint32_t flags = get32(c->flags);
    if (c->open == 0) return zeros(c, sizeof *c);
    if (listens(flags) && sends(c)) return 0;
    if (c->open > 1 || !is_raw_flags(flags) || !is_rate(get32(c->rate)) || c->loopback > 1 || c->lost > 1 || !is_last(c->last)) return 0;
    for (int i = 0; i < FILTERS; i++)
        if (!good_filter(c, i, flags)) return 0;
    if (!maps_fit(c)) return 0;
    for (int i = 0; i < PERIODICS; i++)
        if (!good_periodic(c, i, flags)) return 0;
    if (!link_valid(&c->link) || (link_there(&c->link) && !takes(flags, 0))) return 0; /* its frames are narrow */
    return good_store(&c->written, c->out, WRITTEN, flags, 0) && good_store(&c->flying, &c->flight, 1, flags, 0) &&
           good_store(&c->held, c->in, QUEUE, flags, 1);
}

int raw_valid(const uint8_t *m) {
    const device_t *d = (const device_t *)m;
    for (int i = 0; i < 4; i++)
        if (!good_channel(&d->line[i])) return 0;
    return 1;
}

void raw_remake_maps(uint8_t *m, uint32_t channel) { maps(&device(m)->line[channel - 1]); }

/* ---- finding the channel: 0x02; then, for what a listener doesn't do, 0x01 ---- */

static int is_open(const device_t *d, uint32_t number) { return number >= 1 && number <= 4 && d->line[number - 1].open; }

static uint32_t find(uint8_t *m, uint32_t number, channel_t **c) {
    if (!is_open(device(m), number)) return 0x02;
    *c = &device(m)->line[number - 1];
    return 0;
}

/* the answer of a call on an open channel, which keeps it unless it is 0x00 */
static uint32_t noted(channel_t *c, uint32_t code) {
    if (code) c->last = (uint8_t)code;
    return code;
}

static uint32_t find_sender(uint8_t *m, uint32_t number, channel_t **c) {
    uint32_t code = find(m, number, c);
    return code || !listens(get32((*c)->flags)) ? code : noted(*c, 0x01);
}

static int shorter(size_t len, uint32_t n) { return (uint64_t)len < (uint64_t)RECORD * n; }

/* ---- messages to send ---- */

static uint32_t message_code(const record *r, uint32_t flags) {
    uint32_t size = get32(r->size);
    int wide = (get32(r->tx) & 0x100) != 0;
    if (get32(r->protocol) != 5) return 0x15;
    if (size < 4 || size > 12 || !takes(flags, wide) || !in_range(identifier(r->data), wide)) return 0x0A;
    return 0;
}

static void fill(record *to, uint32_t rx, uint32_t tx, uint32_t time, const uint8_t *data, uint32_t size) {
    memset(to, 0, sizeof *to);
    put32(to->protocol, 5), put32(to->rx, rx), put32(to->tx, tx), put32(to->time, time);
    put32(to->size, size), put32(to->extra, size);
    memcpy(to->data, data, size);
}

static void clean(record *to, const record *from) {
    fill(to, 0, get32(from->tx) & 0x100, 0, from->data, get32(from->size));
}

/* ---- the receive queue ---- */

static void arrive(channel_t *c, uint32_t rx, uint32_t now, const uint8_t *data, uint32_t size) {
    if (c->held == QUEUE) {
        c->lost = 1;
        return;
    }
    fill(&c->in[c->held++], rx, 0, now, data, size);
}

/* the first n records leave a store: the others move to its front, zeros behind them */
static void drop(uint8_t *count, record *r, unsigned n) {
    memmove(r, r + n, (*count - n) * sizeof *r);
    memset(r + (*count - n), 0, n * sizeof *r);
    *count = (uint8_t)(*count - n);
}

/* ---- connect, disconnect, close, advance ---- */

uint32_t raw_connect(uint8_t *m, uint32_t line, uint32_t protocol, uint32_t flags, uint32_t rate, uint32_t *channel) {
    device_t *d = device(m);
    *channel = 0;
    if (protocol != 5) return 0x03;
    if (!is_raw_flags(flags)) return 0x06;
    if (!takes_rate(rate)) return 0x19;
    if (line > 3) return 0x13;
    if (d->line[line].open) return noted(&d->line[line], 0x14);
    d->line[line].open = 1;
    put32(d->line[line].flags, flags);
    put32(d->line[line].rate, rate);
    *channel = line + 1;
    return 0;
}

uint32_t raw_disconnect(uint8_t *m, uint32_t channel) {
    channel_t *c;
    uint32_t code = find(m, channel, &c);
    if (code) return code;
    memset(c, 0, sizeof *c);
    return 0;
}

uint32_t raw_close(uint8_t *m) {
    device_t *d = device(m);
    memset(d->line, 0, sizeof d->line);
    return 0;
}

uint32_t raw_advance(uint8_t *m, uint32_t us) {
    device_t *d = device(m);
    if (us > 1000000) return 0x0B;
    put32(d->clock, get32(d->clock) + us);
    for (int l = 0; l < 4; l++) {
        channel_t *c = &d->line[l];
        if (!c->open) continue;
        for (int i = 0; i < PERIODICS; i++) {
            uint32_t period = 1000 * get32(c->interval[i]);
            uint32_t phase = get32(c->phase[i]) + us;
            if (period == 0) continue;
            if (phase >= period) {
                c->pending[i] = 1;
                phase %= period;
            }
            put32(c->phase[i], phase);
        }
        link_advance(&c->link, us);
    }
    return 0;
}

/* ---- filters and frames ---- */

/* the frame is the first n bytes of a row; a longer filter doesn't match it */
static int matches(const channel_t *c, int i, int wide, const uint8_t frame[ROW], size_t n) {
    if (c->wide[i] != wide || c->size[i] > n) return 0;
    for (unsigned k = 0; k < c->size[i]; k++)
        if ((frame[k] & c->mask[i][k]) != c->pattern[i][k]) return 0;
    return 1;
}

/* does a filter of this type match? */
static int hits(const channel_t *c, int type, int wide, const uint8_t frame[ROW], size_t n) {
    for (int i = 0; i < FILTERS; i++)
        if (c->type[i] == type && matches(c, i, wide, frame, n)) return 1;
    return 0;
}

/* by the filters themselves: the maps play no part here */
static int let_in(const channel_t *c, int wide, const uint8_t frame[ROW], size_t n) {
    return !hits(c, BLOCK, wide, frame, n) && hits(c, PASS, wide, frame, n);
}

uint32_t raw_frame(uint8_t *m, uint32_t line, uint32_t wide, uint32_t id, const uint8_t *data, size_t n) {
    device_t *d = device(m);
    uint8_t frame[ROW] = {0};
    channel_t *c;
    if (line > 3) return 0x13;
    if (wide > 1 || !in_range(id, (int)wide) || n > 8) return 0x0A;
    c = &d->line[line];
    if (!c->open || !takes(get32(c->flags), (int)wide)) return 0;
    put_identifier(frame, id);
    if (n) memcpy(frame + 4, data, n);
    if (!wide) link_frame(&c->link, id, data, n); /* and the filters, whatever it was to the connection */
    if (let_in(c, (int)wide, frame, 4 + n)) arrive(c, wide ? 256 : 0, get32(d->clock), frame, 4 + (uint32_t)n);
    return 0;
}

/* the same for every data at once */
static uint32_t decide(const channel_t *c, uint32_t wide, uint32_t id, uint32_t *answer) {
    early_filter of_width[FILTERS];
    uint8_t bytes[4];
    unsigned n = 0;
    if (wide > 1 || !in_range(id, (int)wide)) return 0x0A;
    for (int i = 0; i < FILTERS; i++)
        if (c->type[i] && c->wide[i] == wide) of_width[n++] = (early_filter){c->type[i] == BLOCK, c->size[i], c->mask[i], c->pattern[i]};
    put_identifier(bytes, id);
    *answer = takes(get32(c->flags), (int)wide) ? early_answer(of_width, n, bytes) : EARLY_DROPPED;
    return 0;
}

static uint32_t start_filter(channel_t *c, uint32_t type, const uint8_t *mask, size_t mask_len, const uint8_t *pattern, size_t pattern_len,
                             uint32_t *number) {
    const record *a = (const record *)mask, *b = (const record *)pattern;
    uint32_t size;
    int i;
    if (shorter(mask_len, 1) || shorter(pattern_len, 1)) return 0x04;
    if (type != PASS && type != BLOCK) return 0x16;
    if (get32(a->protocol) != 5 || get32(b->protocol) != 5) return 0x15;
    size = get32(a->size);
    if (size != get32(b->size) || size < 1 || size > 12 || get32(a->tx) != get32(b->tx)) return 0x0A;
    if (!takes(get32(c->flags), (get32(a->tx) & 0x100) != 0)) return 0x0A;
    for (i = 0; i < FILTERS && c->type[i]; i++) {
    }
    if (i == FILTERS) return 0x0C;
    c->type[i] = (uint8_t)type;
    c->wide[i] = (get32(a->tx) & 0x100) != 0;
    c->size[i] = (uint8_t)size;
    memcpy(c->mask[i], a->data, size);
    memcpy(c->pattern[i], b->data, size);
    maps(c);
    *number = (uint32_t)i + 1;
    return 0;
}

static uint32_t stop_filter(channel_t *c, uint32_t number) {
    if (number < 1 || number > FILTERS || !c->type[number - 1]) return 0x16;
    c->type[number - 1] = c->wide[number - 1] = c->size[number - 1] = 0;
    memset(c->mask[number - 1], 0, ROW);
    memset(c->pattern[number - 1], 0, ROW);
    maps(c);
    return 0;
}

/* ---- periodics ---- */

static uint32_t start_periodic(channel_t *c, const uint8_t *message, size_t message_len, uint32_t interval, uint32_t *number) {
    uint32_t code;
    int i;
    if (shorter(message_len, 1)) return 0x04;
    if (interval < 5 || interval > 65535) return 0x0B;
    code = message_code((const record *)message, get32(c->flags));
    if (code) return code;
    for (i = 0; i < PERIODICS && get32(c->interval[i]); i++) {
    }
    if (i == PERIODICS) return 0x0C;
    put32(c->interval[i], interval);
    put32(c->phase[i], 0);
    c->pending[i] = 1;
    clean(&c->periodic[i], (const record *)message);
    *number = (uint32_t)i + 1;
    return 0;
}

static uint32_t stop_periodic(channel_t *c, uint32_t number) {
    if (number < 1 || number > PERIODICS || !get32(c->interval[number - 1])) return 0x0D;
    put32(c->interval[number - 1], 0);
    put32(c->phase[number - 1], 0);
    c->pending[number - 1] = 0;
    memset(&c->periodic[number - 1], 0, RECORD);
    return 0;
}

/* ---- write, read, take, sent ---- */

static uint32_t put_records(channel_t *c, uint32_t n, const uint8_t *b, size_t b_len, uint32_t *count) {
    if (shorter(b_len, n)) return 0x04;
    for (uint32_t i = 0; i < n; i++) {
        const record *r = (const record *)b + i;
        uint32_t code = message_code(r, get32(c->flags));
        if (code) return code;
        if (c->written == WRITTEN) return 0x11;
        clean(&c->out[c->written++], r);
        ++*count;
    }
    return 0;
}

static uint32_t get_records(channel_t *c, uint32_t n, uint8_t *b, size_t b_len, uint32_t *count) {
    uint32_t moved;
    int lost;
    if (shorter(b_len, n)) return 0x04;
    if (n == 0) return 0;
    moved = n < c->held ? n : c->held;
    if (moved) memcpy(b, c->in, moved * sizeof *c->in);
    drop(&c->held, c->in, moved);
    lost = c->lost;
    c->lost = 0;
    *count = moved;
    return lost ? 0x12 : moved == n ? 0x00 : moved == 0 ? 0x10 : 0x09;
}

/* puts a record in flight, if there is one: the lowest pending periodic, the connection's telegram, the oldest written one */
static int fetch(channel_t *c) {
    uint8_t telegram[ROW];
    uint32_t n, id;
    int i;
    for (i = 0; i < PERIODICS && !c->pending[i]; i++) {
    }
    if (i < PERIODICS) {
        c->pending[i] = 0;
        c->flight = c->periodic[i];
    } else if ((n = link_take(&c->link, &id, telegram + 4)) > 0) {
        put_identifier(telegram, id);
        fill(&c->flight, 0, 0, 0, telegram, 4 + n);
    } else if (c->written) {
        c->flight = c->out[0];
        drop(&c->written, c->out, 1);
    } else {
        return 0;
    }
    c->flying = 1;
    return 1;
}

static uint32_t take(channel_t *c, uint8_t *b, size_t b_len) {
    if (shorter(b_len, 1)) return 0x04;
    if (!c->flying && !fetch(c)) return 0x10;
    memcpy(b, &c->flight, RECORD);
    return 0;
}

static uint32_t sent(channel_t *c, uint32_t now) {
    if (!c->flying) return 0x07;
    if (c->loopback) arrive(c, get32(c->flight.tx) + 1, now, c->flight.data, get32(c->flight.size));
    c->flying = 0;
    memset(&c->flight, 0, RECORD);
    link_sent(&c->link);
    return 0;
}

/* ---- clear, get, set ---- */

static uint32_t clear(channel_t *c, uint32_t kind) {
    switch (kind) {
    case 1:
        c->written = 0;
        memset(c->out, 0, sizeof c->out);
        return 0;
    case 2:
        c->held = c->lost = 0;
        memset(c->in, 0, sizeof c->in);
        return 0;
    case 3:
        memset(c->interval, 0, sizeof c->interval);
        memset(c->phase, 0, sizeof c->phase);
        memset(c->pending, 0, sizeof c->pending);
        memset(c->periodic, 0, sizeof c->periodic);
        return 0;
    case 4:
        memset(c->type, 0, sizeof c->type);
        memset(c->wide, 0, sizeof c->wide);
        memset(c->size, 0, sizeof c->size);
        memset(c->mask, 0, sizeof c->mask);
        memset(c->pattern, 0, sizeof c->pattern);
        maps(c);
        return 0;
    default:
        return 0x0F;
    }
}

/* a refused one leaves the value */
static uint32_t get(const channel_t *c, uint32_t parameter, uint32_t *value) {
    if (parameter == 1) {
        *value = get32(c->rate);
        return 0;
    }
    if (parameter == 3) {
        *value = c->loopback;
        return 0;
    }
    return 0x01;
}

static uint32_t set(channel_t *c, uint32_t parameter, uint32_t value) {
    if (parameter == 1) {
        if (!takes_rate(value)) return 0x05;
        put32(c->rate, value);
        return 0;
    }
    if (parameter == 3) {
        if (value > 1) return 0x05;
        c->loopback = (uint8_t)value;
        return 0;
    }
    return 0x01;
}

/* ---- lists: pair by pair until one is refused ---- */

static uint32_t set_list(channel_t *c, const struct twin_pair *pairs, size_t count) {
    uint32_t code = 0;
    if (count > PAIRS) return 0x04;
    for (size_t i = 0; i < count && !code; i++) code = set(c, pairs[i].parameter, pairs[i].value);
    return code;
}

static uint32_t get_list(const channel_t *c, struct twin_pair *pairs, size_t count) {
    uint32_t code = 0;
    if (count > PAIRS) return 0x04;
    for (size_t i = 0; i < count && !code; i++) code = get(c, pairs[i].parameter, &pairs[i].value);
    return code;
}

/* ---- set-ups: what a store says of a channel ---- */

static uint32_t save(const channel_t *c, uint8_t *b, size_t b_len, uint32_t *length) {
    store_setup s;
    uint8_t whole[STORE_MOST];
    size_t n;
    memset(&s, 0, sizeof s);
    s.flags = get32(c->flags), s.rate = get32(c->rate), s.loopback = c->loopback;
    for (int i = 0; i < FILTERS; i++) {
        s.filter[i].type = c->type[i], s.filter[i].wide = c->wide[i], s.filter[i].size = c->size[i];
        memcpy(s.filter[i].mask, c->mask[i], ROW);
        memcpy(s.filter[i].pattern, c->pattern[i], ROW);
    }
    for (int i = 0; i < PERIODICS; i++) {
        s.periodic[i].interval = get32(c->interval[i]);
        memcpy(s.periodic[i].record, &c->periodic[i], RECORD);
    }
    n = store_write(whole, &s);
    if (b_len < n) return 0x04;
    memcpy(b, whole, n);
    *length = (uint32_t)n;
    return 0;
}

/* all of it or nothing; what is queued, written, in flight and the connection stay. Periodics start anew: pending, their time at 0 */
static uint32_t load(channel_t *c, const uint8_t *store, size_t n) {
    store_setup s;
    if (!store_read(&s, store, n) || s.flags != get32(c->flags)) return 0x0A;
    clear(c, 3);
    put32(c->rate, s.rate), c->loopback = (uint8_t)s.loopback;
    for (int i = 0; i < FILTERS; i++) {
        c->type[i] = (uint8_t)s.filter[i].type, c->wide[i] = (uint8_t)s.filter[i].wide, c->size[i] = (uint8_t)s.filter[i].size;
        memcpy(c->mask[i], s.filter[i].mask, ROW);
        memcpy(c->pattern[i], s.filter[i].pattern, ROW);
    }
    for (int i = 0; i < PERIODICS; i++) {
        if (!s.periodic[i].interval) continue;
        put32(c->interval[i], s.periodic[i].interval), c->pending[i] = 1;
        memcpy(&c->periodic[i], s.periodic[i].record, RECORD);
    }
    maps(c);
    return 0;
}

/* ---- the same as calls on a channel: 0x02 first, and the code is kept ---- */

uint32_t raw_start_filter(uint8_t *m, uint32_t channel, uint32_t type, const uint8_t *mask, size_t mask_len, const uint8_t *pattern,
                          size_t pattern_len, uint32_t *number) {
    channel_t *c;
    uint32_t code = find(m, channel, &c);
    *number = 0;
    return code ? code : noted(c, start_filter(c, type, mask, mask_len, pattern, pattern_len, number));
}

uint32_t raw_stop_filter(uint8_t *m, uint32_t channel, uint32_t number) {
    channel_t *c;
    uint32_t code = find(m, channel, &c);
    return code ? code : noted(c, stop_filter(c, number));
}

uint32_t raw_start_periodic(uint8_t *m, uint32_t channel, const uint8_t *message, size_t message_len, uint32_t interval, uint32_t *number) {
    channel_t *c;
    uint32_t code = find_sender(m, channel, &c);
    *number = 0;
    return code ? code : noted(c, start_periodic(c, message, message_len, interval, number));
}

uint32_t raw_stop_periodic(uint8_t *m, uint32_t channel, uint32_t number) {
    channel_t *c;
    uint32_t code = find(m, channel, &c);
    return code ? code : noted(c, stop_periodic(c, number));
}

uint32_t raw_write(uint8_t *m, uint32_t channel, uint32_t n, const uint8_t *b, size_t b_len, uint32_t *count) {
    channel_t *c;
    uint32_t code = find_sender(m, channel, &c);
    *count = 0;
    return code ? code : noted(c, put_records(c, n, b, b_len, count));
}

uint32_t raw_read(uint8_t *m, uint32_t channel, uint32_t n, uint8_t *b, size_t b_len, uint32_t *count) {
    channel_t *c;
    uint32_t code = find(m, channel, &c);
    *count = 0;
    return code ? code : noted(c, get_records(c, n, b, b_len, count));
}

uint32_t raw_take(uint8_t *m, uint32_t channel, uint8_t *b, size_t b_len) {
    channel_t *c;
    uint32_t code = find_sender(m, channel, &c);
    return code ? code : noted(c, take(c, b, b_len));
}

uint32_t raw_sent(uint8_t *m, uint32_t channel) {
    channel_t *c;
    uint32_t code = find_sender(m, channel, &c);
    return code ? code : noted(c, sent(c, get32(((device_t *)m)->clock)));
}

uint32_t raw_clear(uint8_t *m, uint32_t channel, uint32_t kind) {
    channel_t *c;
    uint32_t code = find(m, channel, &c);
    return code ? code : noted(c, clear(c, kind));
}

uint32_t raw_get(uint8_t *m, uint32_t channel, uint32_t parameter, uint32_t *value) {
    channel_t *c;
    uint32_t code = find(m, channel, &c);
    *value = 0;
    return code ? code : noted(c, get(c, parameter, value));
}

uint32_t raw_set(uint8_t *m, uint32_t channel, uint32_t parameter, uint32_t value) {
    channel_t *c;
    uint32_t code = find(m, channel, &c);
    return code ? code : noted(c, set(c, parameter, value));
}

uint32_t raw_set_list(uint8_t *m, uint32_t channel, const struct twin_pair *pairs, size_t count) {
    channel_t *c;
    uint32_t code = find(m, channel, &c);
    return code ? code : noted(c, set_list(c, pairs, count));
}

uint32_t raw_get_list(uint8_t *m, uint32_t channel, struct twin_pair *pairs, size_t count) {
    channel_t *c;
    uint32_t code = find(m, channel, &c);
    return code ? code : noted(c, get_list(c, pairs, count));
}

uint32_t raw_decide(uint8_t *m, uint32_t channel, uint32_t wide, uint32_t id, uint32_t *answer) {
    channel_t *c;
    uint32_t code = find(m, channel, &c);
    *answer = 0;
    return code ? code : noted(c, decide(c, wide, id, answer));
}

uint32_t raw_save(uint8_t *m, uint32_t channel, uint8_t *b, size_t b_len, uint32_t *length) {
    channel_t *c;
    uint32_t code = find(m, channel, &c);
    *length = 0;
    return code ? code : noted(c, save(c, b, b_len, length));
}

uint32_t raw_load(uint8_t *m, uint32_t channel, const uint8_t *store, size_t n) {
    channel_t *c;
    uint32_t code = find(m, channel, &c);
    return code ? code : noted(c, load(c, store, n));
}

/* ---- TP2.0 connections: the channel must take narrow frames, before anything else of the call ---- */

/* 0x02, 0x01 of a listener, 0x0A of the width, or 0 */
static uint32_t find_narrow(uint8_t *m, uint32_t channel, channel_t **c) {
    uint32_t code = find_sender(m, channel, c);
    return code ? code : takes(get32((*c)->flags), 0) ? 0 : noted(*c, 0x0A);
}

uint32_t raw_link_open(uint8_t *m, uint32_t channel, uint32_t own, uint32_t destination, uint32_t rx_id, uint32_t application, uint32_t block_size,
                       uint32_t t1, uint32_t t3) {
    channel_t *c;
    uint32_t code = find_narrow(m, channel, &c);
    return code ? code : noted(c, link_open(&c->link, own, destination, rx_id, application, block_size, t1, t3));
}

uint32_t raw_link_send(uint8_t *m, uint32_t channel, const uint8_t *message, size_t message_len) {
    channel_t *c;
    uint32_t code = find_narrow(m, channel, &c);
    return code ? code : noted(c, link_send(&c->link, message, message_len));
}

/* a short buffer before the width */
uint32_t raw_link_receive(uint8_t *m, uint32_t channel, uint8_t *b, size_t b_len, uint32_t *length) {
    channel_t *c;
    uint32_t code = find_sender(m, channel, &c);
    *length = 0;
    if (code) return code;
    if (b_len < LINK_MESSAGE) return noted(c, 0x04);
    code = find_narrow(m, channel, &c);
    return code ? code : noted(c, link_receive(&c->link, b, length));
}

uint32_t raw_link_end(uint8_t *m, uint32_t channel) {
    channel_t *c;
    uint32_t code = find_narrow(m, channel, &c);
    return code ? code : noted(c, link_end(&c->link));
}

/* asking is not kept */
uint32_t raw_last_error(const uint8_t *m, uint32_t channel, uint32_t *code) {
    const device_t *d = (const device_t *)m;
    *code = 0;
    if (!is_open(d, channel)) return 0x02;
    *code = d->line[channel - 1].last;
    return 0;
}

/* ---- what the shift report looks at ---- */

static const channel_t *on_line(const uint8_t *m, uint32_t line) { return &((const device_t *)m)->line[line]; }

raw_look_t raw_look(const uint8_t *m, uint32_t line) {
    const channel_t *c = on_line(m, line);
    return (raw_look_t){c->open, c->loopback, c->held};
}

int raw_takes(const uint8_t *m, uint32_t line, uint32_t wide) { return takes(get32(on_line(m, line)->flags), (int)wide); }

int raw_matched(const uint8_t *m, uint32_t line, int type, uint32_t wide, uint32_t id, const uint8_t *data, size_t n) {
    uint8_t frame[ROW] = {0};
    put_identifier(frame, id);
    if (n) memcpy(frame + 4, data, n);
    return hits(on_line(m, line), type, (int)wide, frame, 4 + n);
}
