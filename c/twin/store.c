/* See store.h. Written from the readings of the request alone. */
#include "store.h"

#include <string.h>

#include "common.h"
#include "recording.h"

enum { FIRST = 1, SECOND = 2, NUMBERS = 24 }; /* versions; the bytes of a record before its data */

/* ---- a clean record: 5, 0, TxFlags 0 or 256, 0, size, size, data, zeros ---- */

static uint8_t *put_clean(uint8_t *out, uint32_t wide, uint32_t size, const uint8_t row[STORE_ROW]) {
    put32(out, 5), put32(out + 4, 0), put32(out + 8, wide ? 256 : 0), put32(out + 12, 0), put32(out + 16, size), put32(out + 20, size);
    memcpy(out + NUMBERS, row, STORE_ROW);
    return out + STORE_RECORD;
}

/* is it the clean record that its own width, size and data make? */
static int is_clean(const uint8_t *r, uint32_t least) {
    uint8_t same[STORE_RECORD];
    uint32_t tx = get32(r + 8), size = get32(r + 16);
    if (tx != 0 && tx != 256) return 0;
    if (size < least || size > STORE_ROW || !zeros(r + NUMBERS + size, STORE_ROW - size)) return 0;
    put_clean(same, tx, size, r + NUMBERS);
    return memcmp(r, same, STORE_RECORD) == 0;
}

static int is_wide(const uint8_t *r) { return get32(r + 8) == 256; }

/* ---- writing ---- */

static uint8_t *put_filters(uint8_t *out, const store_setup *s) {
    uint32_t n = 0;
    for (int i = 0; i < STORE_TEN; i++) n += s->filter[i].type != 0;
    out = put(out, n);
    for (uint32_t i = 0; i < STORE_TEN; i++) {
        if (!s->filter[i].type) continue;
        out = put(put(out, i + 1), s->filter[i].type);
        out = put_clean(out, s->filter[i].wide, s->filter[i].size, s->filter[i].mask);
        out = put_clean(out, s->filter[i].wide, s->filter[i].size, s->filter[i].pattern);
    }
    return out;
}

static uint8_t *put_periodics(uint8_t *out, const store_setup *s) {
    uint32_t n = 0;
    for (int i = 0; i < STORE_TEN; i++) n += s->periodic[i].interval != 0;
    out = put(out, n);
    for (uint32_t i = 0; i < STORE_TEN; i++) {
        if (!s->periodic[i].interval) continue;
        out = put(out, i + 1);
        memcpy(out, s->periodic[i].record, STORE_RECORD);
        out = put(out + STORE_RECORD, s->periodic[i].interval);
    }
    return out;
}

size_t store_write(uint8_t *to, const store_setup *from) {
    uint8_t *out = put(put(to, SECOND), from->flags);
    out = put_periodics(put_filters(out, from), from);
    out = put(put(out, from->rate), from->loopback);
    return (size_t)(out - to);
}

/* ---- reading: in->bad as soon as something is ---- */

/* how many there are: at most ten */
static uint32_t count(input *in) {
    uint32_t n = number(in);
    if (n > STORE_TEN) in->bad = 1;
    return in->bad ? 0 : n;
}

/* the number of the next one: 1 to 10, and more than the one before. Where it is bad it is 1, and plays no part */
static uint32_t next(input *in, uint32_t before) {
    uint32_t n = number(in);
    if (n <= before || n > STORE_TEN) in->bad = 1;
    return in->bad ? 1 : n;
}

static void read_filters(input *in, store_setup *to) {
    uint32_t n = count(in), at = 0;
    for (; n > 0 && !in->bad; n--) {
        uint32_t type;
        const uint8_t *mask, *pattern;
        at = next(in, at), type = number(in), mask = raw(in, STORE_RECORD), pattern = raw(in, STORE_RECORD);
        if (in->bad) return;
        /* the same sizes and widths: the two differ in their data alone */
        if ((type != 1 && type != 2) || !is_clean(mask, 1) || !is_clean(pattern, 1) || memcmp(mask, pattern, NUMBERS)) in->bad = 1;
        if (!takes(to->flags, is_wide(mask))) in->bad = 1;
        to->filter[at - 1].type = type, to->filter[at - 1].wide = (uint32_t)is_wide(mask), to->filter[at - 1].size = get32(mask + 16);
        memcpy(to->filter[at - 1].mask, mask + NUMBERS, STORE_ROW);
        memcpy(to->filter[at - 1].pattern, pattern + NUMBERS, STORE_ROW);
    }
}

static void read_periodics(input *in, store_setup *to) {
    uint32_t n = count(in), at = 0;
    for (; n > 0 && !in->bad; n--) {
        uint32_t interval;
        const uint8_t *r;
        at = next(in, at), r = raw(in, STORE_RECORD), interval = number(in);
        if (in->bad) return;
        if (!is_clean(r, 4) || interval < 5 || interval > 65535 || listens(to->flags)) in->bad = 1;
        if (!takes(to->flags, is_wide(r)) || !in_range(identifier(r + NUMBERS), is_wide(r))) in->bad = 1;
        to->periodic[at - 1].interval = interval;
        memcpy(to->periodic[at - 1].record, r, STORE_RECORD);
    }
}

int store_read(store_setup *to, const uint8_t *bytes, size_t n) {
    input in = {bytes, n ? bytes + n : bytes, 0}; /* no bytes may be NULL */
    uint32_t version = number(&in);
    memset(to, 0, sizeof *to);
    if (in.bad || (version != FIRST && version != SECOND)) return 0;
    if (version == SECOND) to->flags = number(&in);
    read_filters(&in, to);
    if (!in.bad) read_periodics(&in, to);
    if (!in.bad) to->rate = number(&in);
    if (!in.bad) to->loopback = number(&in);
    return !in.bad && in.at == in.end && takes_rate(to->rate) && to->loopback <= 1;
}
