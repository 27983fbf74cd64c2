/* See logs.h. A line is read from left to right; times are kept as seconds and microseconds, and seconds past 10^12 as that number. */
#include "logs.h"

#include <stdio.h>
#include <string.h>

#include "iso.h"
#include "recording.h"

enum { RECORD = 36, BUSES = 4, DATA = 8, FULL_ADVANCE = 1000000 };

static const uint64_t second = 1000000, far_seconds = 1000000000000;

/* ---- import ---- */

typedef struct {
    const char *at, *end;
    int good;
} text;

typedef struct {
    uint64_t seconds, micros;
    int bus, wide; /* bus: -1 where the name is unknown */
    uint32_t id, n;
    uint8_t data[DATA];
} logged;

/* one byte that must be this one */
static void expect(text *t, char c) {
    if (t->at == t->end || *t->at != c) t->good = 0;
    else t->at++;
}

static int digit_value(char c) {
    const char *digits = "0123456789abcdef", *found;
    if (c >= 'A' && c <= 'F') c = (char)(c - 'A' + 'a');
    found = c ? strchr(digits, c) : NULL;
    return found ? (int)(found - digits) : 16;
}

/* the digits that stand here; how many they are. Numbers past the far one stay there */
static size_t digits(text *t, int base, uint64_t *value) {
    size_t n = 0;
    for (*value = 0; t->at < t->end && digit_value(*t->at) < base; t->at++, n++) {
        *value = *value * (uint64_t)base + (uint64_t)digit_value(*t->at);
        if (*value > far_seconds) *value = far_seconds;
    }
    return n;
}

/* a word up to the next blank */
static int bus_named(text *t) {
    const char *from = t->at;
    size_t n;
    while (t->at < t->end && *t->at != ' ') t->at++;
    n = (size_t)(t->at - from);
    if (n == 0) t->good = 0;
    return n == 4 && !memcmp(from, "can", 3) && from[3] >= '0' && from[3] < '0' + BUSES ? from[3] - '0' : -1;
}

static logged read_line(text *t) {
    logged l = {0};
    uint64_t id;
    size_t n;
    expect(t, '(');
    if (digits(t, 10, &l.seconds) == 0) t->good = 0;
    expect(t, '.');
    if (digits(t, 10, &l.micros) != 6) t->good = 0;
    expect(t, ')');
    expect(t, ' ');
    l.bus = bus_named(t);
    expect(t, ' ');
    n = digits(t, 16, &id);
    l.wide = n == 8, l.id = (uint32_t)id;
    if (n != 3 && n != 8) t->good = 0;
    if (id > (l.wide ? 0x1FFFFFFFu : 0x7FFu)) t->good = 0;
    expect(t, '#');
    while (t->good && t->at < t->end) {
        int high = digit_value(*t->at), low = t->end - t->at > 1 ? digit_value(t->at[1]) : 16;
        if (high > 15 || low > 15 || l.n == DATA) t->good = 0;
        else l.data[l.n++] = (uint8_t)(high * 16 + low), t->at += 2;
    }
    return l;
}

/* how many bytes a number has */
static size_t number_size(uint32_t v) {
    uint8_t five[5];
    return (size_t)(put(five, v) - five);
}

twin_imported twin_import(uint64_t start, const char *log, size_t n, uint8_t *recording) {
    twin_imported done = {0, 0, LOG_GOES_ON};
    uint64_t seconds = start / second, micros = start % second;
    const char *at = log, *end = log + n;
    for (size_t line = 1; at < end; line++) {
        const char *stop = memchr(at, '\n', (size_t)(end - at));
        text t = {at, stop ? stop : end, 1};
        logged l = read_line(&t);
        uint64_t whole, rest;
        uint8_t *out = recording + done.bytes;
        int back = l.seconds < seconds || (l.seconds == seconds && l.micros < micros);
        at = stop ? stop + 1 : end;
        done.line = line;
        if (!t.good) return done.why = LOG_MALFORMED, done;
        if (l.bus < 0) return done.why = LOG_UNKNOWN, done;
        if (back) return done.why = LOG_BACK, done;
        whole = l.seconds - seconds, rest = l.micros + second - micros;
        if (rest >= second) rest -= second;
        else whole--;
        if (whole > LONGEST || done.bytes + 4 * whole + (rest ? 1 + number_size((uint32_t)rest) : 0) + 4 + number_size(l.id) + l.n > LONGEST)
            return done.why = LOG_FULL, done;
        for (; whole; whole--) out = put(put(out, 4), FULL_ADVANCE);
        if (rest) out = put(put(out, 4), (uint32_t)rest);
        out = put(put(put(put(put(out, 5), (uint32_t)l.bus), (uint32_t)l.wide), l.id), l.n);
        memcpy(out, l.data, l.n);
        done.bytes = (size_t)(out + l.n - recording);
        seconds = l.seconds, micros = l.micros;
    }
    done.line = 0;
    return done;
}

/* ---- export ---- */

static uint32_t record_size(uint32_t channel) { return channel >= 5 && channel <= 8 ? ISO_RECORD : RECORD; }

/* a line, where the box answers the frame 0x00 */
static size_t put_line(char *to, uint64_t time, const uint32_t *a, const uint8_t *data, uint32_t n) {
    int size;
    if (a[0] >= BUSES || a[1] > 1 || a[2] > (a[1] ? 0x1FFFFFFFu : 0x7FFu) || n > DATA) return 0;
    size = sprintf(to, "(%llu.%06llu) can%u %0*lX#", (unsigned long long)(time / second), (unsigned long long)(time % second), (unsigned)a[0],
                   a[1] ? 8 : 3, (unsigned long)a[2]);
    for (uint32_t i = 0; i < n; i++) size += sprintf(to + size, "%02X", data[i]);
    to[size++] = '\n';
    return (size_t)size;
}

size_t twin_export(uint64_t start, const uint8_t *recording, size_t n, char *out) {
    input in = {recording, recording + n, n > LONGEST};
    size_t size = 0;
    if (is_marked(recording, n)) in.at += MARK;
    while (!in.bad && in.at < in.end) {
        uint32_t kind = number(&in), a[4] = {0}, count = 0;
        const uint8_t *p = NULL;
        if (kind < 1 || kind > 16) in.bad = 1;
        for (int i = 0; !in.bad && i < numbers_of[kind]; i++) a[i] = number(&in);
        if (kind == 5 || kind == 10 || kind == 11) count = most(&in);
        if (kind == 5) p = raw(&in, count);
        if (kind == 10) raw(&in, record_size(a[0]) * count);
        if (kind == 6) raw(&in, record_size(a[0]) * (record_size(a[0]) == ISO_RECORD ? 3 : 2));
        if (kind == 8) raw(&in, record_size(a[0])), number(&in);
        if (in.bad) break;
        if (kind == 4 && a[0] <= FULL_ADVANCE) start += a[0];
        if (kind == 5) size += put_line(out + size, start, a, p, count);
    }
    return size;
}
