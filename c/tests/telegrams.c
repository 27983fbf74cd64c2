/* Telegrams, the core against the twin, both ways: `telegrams [SEED [ROUNDS]]`. Every string of up to two bytes and many longer ones are read,
 * and what is read is written again; many records are written, and what is written is read again; connection telegrams with every pair of T2 and
 * T4 go both ways. */
#include <stdio.h>
#include <stdlib.h>
#include <string.h>

#include "../../include/trawlpepper.h"
#include "../twin/telegrams.h"
#include "support.h"

static unsigned long reads, taken, writes, written, pairs;

static void differs(const char *what, const uint8_t *p, size_t n) {
    fprintf(stderr, "differs: telegrams, %s:", what);
    for (size_t i = 0; i < n; i++) fprintf(stderr, " %02X", p[i]);
    fprintf(stderr, "\n");
    exit(1);
}

static int same(const lent *a, const lent *b) { return a->n == b->n && memcmp(a->room, b->room, GUARD + a->n + GUARD) == 0; }

/* one record written by both into buffers of a size */
static uint32_t write_both(const uint8_t *record, size_t record_length, size_t size, lent *out, uint32_t *length) {
    static lent mine, before;
    uint32_t a, b, n;
    lend(out, size);
    mine = *out, before = *out;
    a = trawl_write_telegram(record, record_length, bytes(&mine), size, length);
    b = twin_write_telegram(record, record_length, bytes(out), size, &n);
    if (a != b) differs("the writer's code", record, record_length);
    if (*length != n) differs("the length written", record, record_length);
    if (!same(&mine, out)) differs("the bytes written", record, record_length);
    if (!guarded(&mine)) differs("guard bytes of the writer's buffer", record, record_length);
    if (a && (n || !same(&mine, &before))) differs("a refused write changed something", record, record_length);
    writes++, written += a == 0;
    return a;
}

/* one string read by both, and written again where it is a telegram */
static uint32_t read_both(uint32_t opening, uint32_t identifier, const uint8_t *b, size_t n, size_t size, lent *record) {
    static lent mine, before, again;
    uint32_t x, y, length;
    lend(record, size);
    mine = *record, before = *record;
    x = trawl_read_telegram(opening, identifier, b, n, bytes(&mine), size);
    y = twin_read_telegram(opening, identifier, b, n, bytes(record), size);
    if (x != y) differs("the reader's code", b, n);
    if (!same(&mine, record)) differs("the record read", b, n);
    if (!guarded(&mine)) differs("guard bytes of the reader's buffer", b, n);
    if (x && !same(&mine, &before)) differs("a refused read changed something", b, n);
    reads++, taken += x == 0;
    if (x) return x;
    if (write_both(bytes(record), size, 8, &again, &length) || length != n || memcmp(bytes(&again), b, n)) differs("read and written again", b, n);
    return 0;
}

static uint32_t some_identifier(void) {
    switch (below(4)) {
    case 0: return 0x1FE + below(4);
    case 1: return 0x2EE + below(4);
    case 2: return 0x200 + below(0xF0);
    default: return any();
    }
}

static void short_strings(void) {
    static lent record;
    for (uint32_t n = 0; n <= 2; n++)
        for (uint32_t v = 0; v < 1u << 8 * n; v++) {
            uint8_t b[2] = {(uint8_t)v, (uint8_t)(v >> 8)};
            read_both(0, any(), b, n, TRAWL_TELEGRAM, &record);
            read_both(1, 0x200, b, n, TRAWL_TELEGRAM, &record);
        }
}

/* strings that are telegrams or nearly so */
static void some_string(uint8_t b[12], size_t *n, uint32_t opening) {
    static const uint8_t first[] = {0x00, 0x1F, 0x2A, 0x3F, 0x90, 0xB1, 0xA0, 0xA1, 0xA3, 0xA4, 0xA8}, second[] = {0xC0, 0xD0, 0xD6, 0xD7, 0xD8};
    for (int i = 0; i < 12; i++) b[i] = (uint8_t)(chance(50) ? any() : below(9));
    *n = below(12);
    if (opening) {
        static const uint8_t application[] = {0x01, 0x10, 0x20, 0x21};
        *n = chance(95) ? 7 : *n;
        if (chance(90)) b[1] = second[below(sizeof second)];
        if (b[1] == 0xC0 && chance(90)) b[2] = 0x00, b[3] = 0x10;
        if (chance(90)) b[6] = application[below(4)];
    } else if (chance(90)) {
        b[0] = first[below(sizeof first)];
        if ((b[0] & 0xFE) == 0xA0 && chance(90)) *n = 6, b[1] = (uint8_t)below(17);
        else if (b[0] >= 0x40 && chance(90)) *n = 1;
    }
    if (chance(5)) b[below(7)] = (uint8_t)any();
}

static void long_strings(uint32_t rounds) {
    static lent record;
    uint8_t b[12];
    size_t n;
    for (uint32_t r = 0; r < rounds; r++) {
        uint32_t opening = chance(50) ? 0 : chance(90) ? 1 : any();
        some_string(b, &n, opening);
        read_both(opening, some_identifier(), b, n, chance(95) ? TRAWL_TELEGRAM + below(9) : below(TRAWL_TELEGRAM), &record);
    }
}

static void word(uint8_t *p, uint32_t v) {
    for (int i = 0; i < 4; i++) p[i] = (uint8_t)(v >> 8 * i);
}

static uint32_t some_field(void) {
    static const uint32_t edges[] = {0, 1, 2, 15, 16, 0x01, 0x10, 0x20, 0x21, 0xEF, 0xF0, 0xFF, 0x100, 0x101, 0x7FF, 0x800, 0xFFFF, 0x10000, 0x10001, 0xFFFFFFFF};
    return chance(50) ? below(16) : one_of(edges, sizeof edges / sizeof *edges);
}

static void records(uint32_t rounds) {
    static const uint32_t kinds[] = {0x00, 0x90, 0xA0, 0xA1, 0xA3, 0xA4, 0xA8, 0xC0, 0xD0, 0xD6, 0xD7, 0xD8, 0xD9, 0xA2, 0x1000, 0x100};
    static lent record, out, again, other;
    uint32_t length;
    for (uint32_t r = 0; r < rounds; r++) {
        uint8_t *p = bytes(&record);
        uint32_t kind = chance(98) ? one_of(kinds, sizeof kinds / sizeof *kinds) : any();
        size_t size = chance(95) ? TRAWL_TELEGRAM : below(TRAWL_TELEGRAM);
        lend(&record, TRAWL_TELEGRAM);
        word(p, kind);
        for (int i = 0; i < 5; i++) word(p + 4 + 4 * i, some_field());
        if ((kind == 0xA0 || kind == 0xA1) && chance(80))
            for (int i = 1; i < 5; i++) word(p + 4 + 4 * i, below(256));
        if (kind >= 0xC0) word(p + 4, some_identifier()), p[24] = (uint8_t)(chance(90) ? 5 : below(9));
        else p[24] = (uint8_t)(chance(95) ? below(8) : any());
        if (write_both(p, size, chance(95) ? 8 + below(4) : below(8), &out, &length)) continue;
        if (read_both(kind >= 0xC0, p[4] + 256u * p[5], bytes(&out), length, TRAWL_TELEGRAM, &again)) differs("written and not read again", p, size);
        if (memcmp(bytes(&again), p, 4)) differs("written and read as another kind", p, size);
        write_both(bytes(&again), TRAWL_TELEGRAM, 8, &other, &length);
        if (memcmp(bytes(&other), bytes(&out), length)) differs("written, read, written again", p, size);
    }
}

/* every pair of T2 and T4 in a set-up and in an acknowledge, the other fields any; out of bytes into the record's five fields, and back */
static void connections(void) {
    static lent record, out, again;
    for (uint32_t v = 0; v < 0x20000; v++) {
        uint8_t b[6] = {(uint8_t)(0xA0 + (v >> 16)), (uint8_t)(1 + below(15)), (uint8_t)any(), (uint8_t)v, (uint8_t)any(), (uint8_t)(v >> 8)};
        uint8_t made[TRAWL_TELEGRAM] = {0};
        uint32_t length;
        for (int i = 0; i < 6; i++) word(made + 4 * i, b[i]);
        if (read_both(0, any(), b, 6, TRAWL_TELEGRAM, &record) || memcmp(bytes(&record), made, TRAWL_TELEGRAM)) differs("a connection telegram read", b, 6);
        for (int i = 24; i < 32; i++) made[i] = (uint8_t)any();
        if (write_both(made, TRAWL_TELEGRAM, 8, &out, &length) || length != 6 || memcmp(bytes(&out), b, 6)) differs("a connection telegram written", b, 6);
        if (read_both(0, any(), bytes(&out), 6, TRAWL_TELEGRAM, &again) || !same(&again, &record)) differs("a connection telegram written and read", b, 6);
        pairs += v < 0x10000;
    }
}

static void times(void) {
    for (uint32_t b = 0; b < 256; b++)
        if (trawl_time((uint8_t)b) != twin_time(b)) differs("a time byte", (const uint8_t *)&b, 1);
}

int main(int argc, char **argv) {
    uint32_t rounds = argc > 2 ? (uint32_t)strtoul(argv[2], NULL, 10) : 1;
    seed = argc > 1 ? strtoull(argv[1], NULL, 10) : 1;
    if (seed == 0) seed = 1;
    if (rounds == 0) rounds = 1;
    short_strings();
    long_strings(200000 * rounds);
    records(200000 * rounds);
    connections();
    times();
    printf("telegrams agree: %lu reads, %lu of them taken and written again, %lu writes, %lu of them done, %lu pairs of T2 and T4, 256 time bytes\n", reads, taken, writes, written, pairs);
    return 0;
}
