/* What the twin's replay is made of: the reader of a recording, the numbers of its answers. */
#ifndef TWIN_RECORDING_H
#define TWIN_RECORDING_H

#include <stddef.h>
#include <stdint.h>

enum { LONGEST = 32768, MOST = 64, BAD = 255, MARK = 2, EDITION = 2 };

typedef struct {
    const uint8_t *at, *end;
    int bad;
} input;

static inline uint32_t number(input *in) {
    uint64_t value = 0;
    for (int shift = 0; shift < 35; shift += 7) {
        uint8_t group;
        if (in->at == in->end) break;
        group = *in->at++;
        value |= (uint64_t)(group & 0x7F) << shift;
        if (group & 0x80) continue;
        if ((group == 0 && shift > 0) || value > 0xFFFFFFFFu) break;
        return (uint32_t)value;
    }
    in->bad = 1;
    return 0;
}

static inline const uint8_t *raw(input *in, uint32_t n) {
    const uint8_t *p = in->at;
    if (in->bad || (size_t)(in->end - in->at) < n) {
        in->bad = 1;
        return p;
    }
    in->at += n;
    return p;
}

static inline uint32_t most(input *in) {
    uint32_t n = number(in);
    if (n > MOST) in->bad = 1;
    return in->bad ? 0 : n;
}

/* does it begin with the mark of edition 2? */
static inline int is_marked(const uint8_t *recording, size_t n) { return n >= MARK && recording[0] == 0 && recording[1] == EDITION; }

/* how many numbers each event begins with */
static const int numbers_of[17] = {0, 4, 1, 0, 1, 3, 2, 2, 1, 2, 1, 1, 1, 1, 2, 2, 3};

static inline uint8_t *put(uint8_t *out, uint32_t v) {
    for (; v >= 0x80; v >>= 7) *out++ = (uint8_t)(v | 0x80);
    *out++ = (uint8_t)v;
    return out;
}

static inline uint8_t *put_if_done(uint8_t *out, uint32_t code, uint32_t v) {
    out = put(out, code);
    return code ? out : put(out, v);
}

static inline uint8_t *put_both(uint8_t *out, uint32_t code, uint32_t v) { return put(put(out, code), v); }

#endif
