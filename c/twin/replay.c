/* See replay.h. */
#include "replay.h"

#include <string.h>

#include "iso.h"
#include "recording.h"
#include "twin.h"

enum { RECORD = 36 };

#define BOX m, TWIN_MEMORY

/* the size of a channel's records, open or not */
static uint32_t record_of(uint32_t channel) { return channel >= 5 && channel <= 8 ? ISO_RECORD : RECORD; }

static uint8_t *put_raw(uint8_t *out, const uint8_t *b, size_t n) {
    memcpy(out, b, n);
    return out + n;
}

/* one event; in->bad where it is a bad one, and then nothing was done */
static uint8_t *play(uint8_t *m, input *in, uint8_t *out) {
    static uint8_t records[ISO_RECORD * MOST];
    uint32_t kind = number(in), a[4] = {0}, n = 0, value = 0, code, size;
    const uint8_t *p = NULL, *q = NULL, *f = NULL;
    if (kind < 1 || kind > 16) in->bad = 1;
    for (int i = 0; !in->bad && i < numbers_of[kind]; i++) a[i] = number(in);
    if (in->bad) return out;
    size = record_of(a[0]);
    if (kind == 5 || kind == 10 || kind == 11) n = most(in);
    if (kind == 5) p = raw(in, n);
    if (kind == 10) p = raw(in, size * n);
    if (kind == 6) p = raw(in, size), q = raw(in, size);
    if (kind == 6 && size == ISO_RECORD) f = raw(in, size);
    if (kind == 8) p = raw(in, size), a[1] = number(in);
    if (in->bad) return out;
    switch (kind) {
    case 1: code = twin_connect(BOX, a[0], a[1], a[2], a[3], &value); return put_if_done(out, code, value);
    case 2: return put(out, twin_disconnect(BOX, a[0]));
    case 3: return put(out, twin_close(BOX));
    case 4: return put(out, twin_advance(BOX, a[0]));
    case 5: return put(out, twin_frame(BOX, a[0], a[1], a[2], p, n));
    case 6: code = twin_start_flow_filter(BOX, a[0], a[1], p, size, q, size, f, f ? size : 0, &value); return put_if_done(out, code, value);
    case 7: return put(out, twin_stop_filter(BOX, a[0], a[1]));
    case 8: code = twin_start_periodic(BOX, a[0], p, size, a[1], &value); return put_if_done(out, code, value);
    case 9: return put(out, twin_stop_periodic(BOX, a[0], a[1]));
    case 10: code = twin_write(BOX, a[0], n, p, size * n, &value); return put_both(out, code, value);
    case 11: code = twin_read(BOX, a[0], n, records, sizeof records, &value); return put_raw(put_both(out, code, value), records, size * value);
    case 12: code = twin_take(BOX, a[0], records, sizeof records); return put_raw(put(out, code), records, code ? 0 : size);
    case 13: return put(out, twin_sent(BOX, a[0]));
    case 14: return put(out, twin_clear(BOX, a[0], a[1]));
    case 15: code = twin_get(BOX, a[0], a[1], &value); return put_if_done(out, code, value);
    default: return put(out, twin_set(BOX, a[0], a[1], a[2]));
    }
}

uint32_t twin_replay(const uint8_t *recording, size_t n, uint8_t *out, size_t room, size_t *length, void (*after)(const uint8_t *m)) {
    static uint8_t m[TWIN_MEMORY];
    uint8_t *at = out;
    int marked = is_marked(recording, n);
    input in = {recording, recording + n, n > LONGEST};
    *length = 0;
    if (room < TWIN_REPLAY_ROOM(n)) return 0x04;
    if (marked) in.at += MARK;
    twin_power_on(BOX);
    twin_trusts = 1, twin_old_rates = !marked;
    while (!in.bad && in.at < in.end) {
        at = play(m, &in, at);
        if (after) after(m);
    }
    twin_trusts = 0, twin_old_rates = 0;
    if (in.bad) at = put(at, BAD);
    *length = (size_t)(at - out);
    return 0;
}
