/* See telegrams.h. */
#include "telegrams.h"

#include <string.h>

/* a telegram: kind, the fields it has, what it carries */
typedef struct {
    uint32_t kind, field[5], carried;
    uint8_t payload[7];
} telegram_t;

static int is_application(uint32_t a) { return a == 0x01 || a == 0x10 || a == 0x20 || a == 0x21; }

static int is_opening_id(uint32_t id) { return id >= 0x200 && id <= 0x2EF; }

/* ---- telegrams and their bytes ---- */

static int carry(telegram_t *t, const uint8_t *from, size_t n) {
    t->carried = (uint32_t)n;
    if (n) memcpy(t->payload, from, n);
    return 1;
}

static int read_opening(telegram_t *t, uint32_t id, const uint8_t *b, size_t n) {
    uint32_t first, second;
    if (!is_opening_id(id) || n != 7 || b[0] > 0xEF) return 0;
    t->kind = b[1], t->field[0] = id, t->field[1] = b[0];
    if (b[1] >= 0xD6 && b[1] <= 0xD8) return carry(t, b + 2, 5);
    first = b[2] + 256u * b[3], second = b[4] + 256u * b[5];
    if (second > 0x7FF || !is_application(b[6])) return 0;
    if (b[1] == 0xC0) {
        t->field[2] = second, t->field[3] = b[6];
        return first == 0x1000;
    }
    t->field[2] = first, t->field[3] = second, t->field[4] = b[6];
    return b[1] == 0xD0 && first <= 0x7FF;
}

static int read_channel(telegram_t *t, const uint8_t *b, size_t n) {
    if (n < 1 || n > 8) return 0;
    if ((b[0] & 0xC0) == 0) {
        t->field[0] = (b[0] & 0x20) == 0, t->field[1] = (b[0] & 0x10) != 0, t->field[2] = b[0] & 0x0F;
        return carry(t, b + 1, n - 1);
    }
    if ((b[0] & 0xD0) == 0x90) {
        t->kind = 0x90, t->field[0] = (b[0] & 0x20) != 0, t->field[1] = b[0] & 0x0F;
        return n == 1;
    }
    t->kind = b[0];
    if (b[0] == 0xA0 || b[0] == 0xA1) {
        if (n != 6 || b[1] < 1 || b[1] > 15) return 0;
        for (int i = 0; i < 5; i++) t->field[i] = b[1 + i];
        return 1;
    }
    return n == 1 && (b[0] == 0xA3 || b[0] == 0xA4 || b[0] == 0xA8);
}

/* gives how many bytes were written, 0 where a field is one that the tables don't allow */
static size_t write_opening(const telegram_t *t, uint8_t b[8]) {
    const uint32_t *f = t->field;
    uint32_t first = t->kind == 0xC0 ? 0x1000 : f[2], second = t->kind == 0xC0 ? f[2] : f[3], application = t->kind == 0xC0 ? f[3] : f[4];
    if (!is_opening_id(f[0]) || f[1] > 0xEF) return 0;
    b[0] = (uint8_t)f[1], b[1] = (uint8_t)t->kind;
    if (t->kind >= 0xD6) {
        if (t->carried != 5) return 0;
        memcpy(b + 2, t->payload, 5);
        return 7;
    }
    if ((t->kind == 0xD0 && first > 0x7FF) || second > 0x7FF || !is_application(application)) return 0;
    b[2] = (uint8_t)first, b[3] = (uint8_t)(first >> 8), b[4] = (uint8_t)second, b[5] = (uint8_t)(second >> 8), b[6] = (uint8_t)application;
    return 7;
}

static size_t write_one(const telegram_t *t, uint8_t b[8]) {
    const uint32_t *f = t->field;
    switch (t->kind) {
    case 0xC0: case 0xD0: case 0xD6: case 0xD7: case 0xD8:
        return write_opening(t, b);
    case 0x00:
        if (f[0] > 1 || f[1] > 1 || f[2] > 15 || t->carried > 7) return 0;
        b[0] = (uint8_t)((f[0] ? 0 : 0x20) | f[1] << 4 | f[2]);
        memcpy(b + 1, t->payload, t->carried);
        return 1 + t->carried;
    case 0x90:
        if (f[0] > 1 || f[1] > 15) return 0;
        b[0] = (uint8_t)(0x90 | f[0] << 5 | f[1]);
        return 1;
    case 0xA0: case 0xA1:
        if (f[0] < 1 || f[0] > 15 || f[1] > 255 || f[2] > 255 || f[3] > 255 || f[4] > 255) return 0;
        b[0] = (uint8_t)t->kind;
        for (int i = 0; i < 5; i++) b[1 + i] = (uint8_t)f[i];
        return 6;
    case 0xA3: case 0xA4: case 0xA8:
        b[0] = (uint8_t)t->kind;
        return 1;
    default:
        return 0;
    }
}

/* ---- the record of 32 bytes ---- */

enum { RECORD = 32 };

static uint32_t get32(const uint8_t *b) { return (uint32_t)b[0] | (uint32_t)b[1] << 8 | (uint32_t)b[2] << 16 | (uint32_t)b[3] << 24; }

static void put32(uint8_t *b, uint32_t v) {
    for (int i = 0; i < 4; i++) b[i] = (uint8_t)(v >> 8 * i);
}

uint32_t twin_read_telegram(uint32_t opening, uint32_t identifier, const uint8_t *bytes, size_t n, uint8_t *telegram, size_t telegram_length) {
    telegram_t t;
    memset(&t, 0, sizeof t);
    if (telegram_length < RECORD) return 0x04;
    if (!(opening ? read_opening(&t, identifier, bytes, n) : read_channel(&t, bytes, n))) return 0x0A;
    put32(telegram, t.kind);
    for (int i = 0; i < 5; i++) put32(telegram + 4 + 4 * i, t.field[i]);
    telegram[24] = (uint8_t)t.carried;
    memcpy(telegram + 25, t.payload, 7);
    return 0;
}

uint32_t twin_write_telegram(const uint8_t *telegram, size_t telegram_length, uint8_t *buffer, size_t buffer_length, uint32_t *length) {
    telegram_t t;
    uint8_t out[8];
    size_t n;
    *length = 0;
    if (telegram_length < RECORD || buffer_length < 8) return 0x04;
    t.kind = get32(telegram);
    for (int i = 0; i < 5; i++) t.field[i] = get32(telegram + 4 + 4 * i);
    t.carried = telegram[24];
    memcpy(t.payload, telegram + 25, 7);
    n = write_one(&t, out);
    if (n == 0) return 0x0A;
    memcpy(buffer, out, n);
    *length = (uint32_t)n;
    return 0;
}

uint32_t twin_time(uint32_t byte) {
    static const uint32_t unit[4] = {1, 10, 100, 1000};
    return unit[byte >> 6 & 3] * (byte & 0x3F);
}
