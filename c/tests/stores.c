/* Saved set-ups: `stores [SEED [ROUNDS]]`. The readings' examples byte by byte; stores with every byte changed, cut everywhere, with every count and
 * each number beside its limits; then random set-ups, saved and loaded on every channel. Each save is held against what the memory says, read here by
 * docs/LAYOUT.md. Each load is held against the calls that do the same, made one by one on a copy: clear, set, start. A store that says what one of
 * them refuses is bad. All sides (iso_side.h) must answer so and have the same memory afterwards, byte for byte. */
#include <stdio.h>
#include <stdlib.h>
#include <string.h>

#include "iso_side.h"
#include "random.h"

enum { NARROW = 0, WIDE = 0x100, BOTH = 0x800, BOTH_TOO = 0x900, LISTENER = 0x10000000 }; /* flags of channels 1 to 4 */
enum { TEN = 10, ROW = 12, STORE = 1149, ROOM = 8192, GUARD = 16 };
/* where things lie in a raw region */
enum { FLAGS = 1, RATE = 5, LOOPBACK = 9, TYPES = 10, WIDES = 20, SIZES = 30, MASKS = 40, PATTERNS = 160, INTERVALS = RAW_PERIODICS,
       PHASES = INTERVALS + 40, PENDING = PHASES + 40, PERIODICS = PENDING + 10, WRITTEN = PERIODICS + 360 };

static uint8_t memories[2][TWIN_MEMORY], kept[TWIN_MEMORY];
static unsigned long loaded, refused, saved, sets;

static void must(int true_, const char *what) {
    if (true_) return;
    fprintf(stderr, "stores: %s, load %lu, save %lu, set %lu\n", what, loaded + refused, saved, sets);
    exit(1);
}

/* a call on every side, k being the side */
#define EACH(call) \
    for (int k = 0; sides[k]; k++) must(sides[k]->call, #call)
#define MEMORY memories[k], TWIN_MEMORY

static size_t region(uint32_t channel) { return TWIN_CLOCK + (channel - 1) * RAW_REGION; }
static int is_raw(uint32_t channel) { return channel >= 1 && channel <= 4; }
static uint32_t flags_of(uint32_t channel) { return word(memories[0] + region(channel) + FLAGS); }

/* the same on all sides, and valid */
static void alike(void) {
    for (int k = 0; sides[k]; k++) {
        must(memcmp(memories[k], memories[0], TWIN_MEMORY) == 0, "the sides' memories");
        must(sides[k]->valid(MEMORY), "a memory that was reached is valid");
    }
}

/* the memories are kept, and put back */
static void keep(void) { memcpy(kept, memories[0], TWIN_MEMORY); }
static void put_back(void) {
    for (int k = 0; sides[k]; k++) memcpy(memories[k], kept, TWIN_MEMORY);
}

static uint32_t last_code(uint32_t channel) {
    uint32_t code = 77;
    EACH(last_error(MEMORY, channel, &code) == 0x00);
    return code;
}

/* ---- a set-up, and its bytes: entries as they stand there, so that bad ones can be said too ---- */

typedef struct {
    uint32_t number, type;
    uint8_t mask[RAW_RECORD], pattern[RAW_RECORD];
} filter;

typedef struct {
    uint32_t number, interval;
    uint8_t record[RAW_RECORD];
} periodic;

typedef struct {
    uint32_t version, flags, filters, periodics, rate, loopback;
    filter filter[TEN + 1];
    periodic periodic[TEN + 1];
} setup;

static uint8_t *put_number(uint8_t *p, uint32_t v) {
    while (v > 127) *p++ = (uint8_t)(128 + v % 128), v /= 128;
    *p++ = (uint8_t)v;
    return p;
}

static uint8_t *put_bytes(uint8_t *p, const uint8_t *b) {
    memcpy(p, b, RAW_RECORD);
    return p + RAW_RECORD;
}

static size_t bytes_of(uint8_t *to, const setup *s) {
    uint8_t *p = put_number(to, s->version);
    if (s->version != 1) p = put_number(p, s->flags);
    p = put_number(p, s->filters);
    for (uint32_t i = 0; i < s->filters; i++) {
        const filter *f = &s->filter[i];
        p = put_bytes(put_bytes(put_number(put_number(p, f->number), f->type), f->mask), f->pattern);
    }
    p = put_number(p, s->periodics);
    for (uint32_t i = 0; i < s->periodics; i++) {
        const periodic *q = &s->periodic[i];
        p = put_number(put_bytes(put_number(p, q->number), q->record), q->interval);
    }
    return (size_t)(put_number(put_number(p, s->rate), s->loopback) - to);
}

/* a clean record of this size, with as much of a row */
static void clean(uint8_t *p, int wide, uint32_t size, const uint8_t *row) {
    memset(p, 0, RAW_RECORD);
    put_word(p, 5), put_word(p + 8, wide ? 256 : 0), put_word(p + 16, size), put_word(p + 20, size);
    memcpy(p + 24, row, size < ROW ? size : ROW);
}

static int is_clean(const uint8_t *p) {
    uint32_t tx = word(p + 8), size = word(p + 16);
    if (word(p) != 5 || word(p + 4) != 0 || (tx != 0 && tx != 256) || word(p + 12) != 0 || word(p + 20) != size || size > ROW) return 0;
    while (size < ROW)
        if (p[24 + size++]) return 0;
    return 1;
}

/* ---- what a save must write: the set-up of a channel as it lies in the memory ---- */

static void of_memory(setup *s, const uint8_t *m, uint32_t channel) {
    const uint8_t *r = m + region(channel);
    memset(s, 0, sizeof *s);
    s->version = 2, s->flags = word(r + FLAGS), s->rate = word(r + RATE), s->loopback = r[LOOPBACK];
    for (uint32_t i = 0; i < TEN; i++) {
        filter *f = &s->filter[s->filters];
        periodic *p = &s->periodic[s->periodics];
        if (r[TYPES + i]) {
            f->number = i + 1, f->type = r[TYPES + i], s->filters++;
            clean(f->mask, r[WIDES + i], r[SIZES + i], r + MASKS + ROW * i), clean(f->pattern, r[WIDES + i], r[SIZES + i], r + PATTERNS + ROW * i);
        }
        if (word(r + INTERVALS + 4 * i)) {
            p->number = i + 1, p->interval = word(r + INTERVALS + 4 * i), s->periodics++;
            memcpy(p->record, r + PERIODICS + RAW_RECORD * i, RAW_RECORD);
        }
    }
}

/* a save into so many bytes, on every side; what it gives is at `out` */
static uint32_t saves(uint32_t channel, size_t room, uint8_t *out, size_t *n) {
    static uint8_t want[TWIN_MEMORY], whole[ROOM], noise[GUARD + ROOM + GUARD], lent[GUARD + ROOM + GUARD];
    uint32_t code, length;
    setup s;
    memcpy(want, memories[0], TWIN_MEMORY);
    *n = 0;
    if (!is_raw(channel) || !want[region(channel)]) {
        code = 0x02;
    } else {
        of_memory(&s, want, channel);
        *n = bytes_of(whole, &s);
        must(*n <= STORE, "1,149 bytes suffice");
        code = room < *n ? 0x04 : 0x00;
        if (code) want[region(channel) + RAW_LAST] = 0x04, *n = 0;
    }
    for (size_t i = 0; i < sizeof noise; i++) noise[i] = (uint8_t)any();
    for (int k = 0; sides[k]; k++) {
        memcpy(lent, noise, sizeof lent);
        length = 0xBADC0DE;
        must(sides[k]->save(MEMORY, channel, lent + GUARD, room, &length) == code, "a save's code");
        must(length == *n, "a save's length");
        must(memcmp(lent + GUARD, whole, *n) == 0, "what a save writes");
        must(memcmp(lent, noise, GUARD) == 0 && memcmp(lent + GUARD + *n, noise + GUARD + *n, sizeof lent - GUARD - *n) == 0, "bytes beyond stay");
        must(memcmp(memories[k], want, TWIN_MEMORY) == 0, "a save changes nothing but the last code of a refusal");
    }
    memcpy(out, whole, *n);
    saved++;
    return code;
}

/* a save that must give these bytes */
static void is_saved(uint32_t channel, const uint8_t *store, size_t n) {
    static uint8_t out[ROOM];
    size_t length;
    must(saves(channel, n, out, &length) == 0x00, "a save");
    must(length == n && memcmp(out, store, n) == 0, "the store expected");
}

/* ---- what a load must do ---- */

/* a number, long forms too */
static int number_at(const uint8_t **p, const uint8_t *end, uint32_t *v) {
    uint64_t value = 0, weight = 1;
    for (int i = 0; i < 8 && *p < end; i++, weight *= 128) {
        value += weight * (**p % 128);
        if (*(*p)++ >= 128) continue;
        *v = (uint32_t)value;
        return value <= 0xFFFFFFFF;
    }
    return 0;
}

static int bytes_at(const uint8_t **p, const uint8_t *end, uint8_t *to) {
    if (end - *p < RAW_RECORD) return 0;
    memcpy(to, *p, RAW_RECORD), *p += RAW_RECORD;
    return 1;
}

/* The set-up that bytes say, by a reader of versions up to this one: numbers are read in any form, and then the set-up must have just these bytes, so
 * that none was longer than it need be and nothing follows. */
static int reads(setup *s, const uint8_t *store, size_t n, uint32_t newest) {
    static uint8_t again[ROOM];
    const uint8_t *p = store, *end = store + n;
    memset(s, 0, sizeof *s);
    if (!number_at(&p, end, &s->version) || s->version < 1 || s->version > newest) return 0;
    if (s->version == 2 && !number_at(&p, end, &s->flags)) return 0;
    if (!number_at(&p, end, &s->filters) || s->filters > TEN) return 0;
    for (uint32_t i = 0; i < s->filters; i++) {
        filter *f = &s->filter[i];
        if (!number_at(&p, end, &f->number) || !number_at(&p, end, &f->type)) return 0;
        if (!bytes_at(&p, end, f->mask) || !bytes_at(&p, end, f->pattern) || !is_clean(f->mask) || !is_clean(f->pattern)) return 0;
        if (f->number < 1 || f->number > TEN || (i > 0 && f->number <= f[-1].number)) return 0;
    }
    if (!number_at(&p, end, &s->periodics) || s->periodics > TEN) return 0;
    for (uint32_t i = 0; i < s->periodics; i++) {
        periodic *q = &s->periodic[i];
        if (!number_at(&p, end, &q->number) || !bytes_at(&p, end, q->record) || !number_at(&p, end, &q->interval)) return 0;
        if (q->number < 1 || q->number > TEN || (i > 0 && q->number <= q[-1].number) || !is_clean(q->record)) return 0;
    }
    if (!number_at(&p, end, &s->rate) || !number_at(&p, end, &s->loopback)) return 0;
    return p == end && bytes_of(again, s) == n && memcmp(again, store, n) == 0;
}

/* the calls that do the same, one by one on a memory; 0 where one of them refuses. Gaps are kept by others that are stopped afterwards */
static int done_by_calls(uint8_t *m, uint32_t channel, const setup *s) {
    const side *by = sides[0];
    uint8_t filler[RAW_RECORD];
    uint32_t number, f = 0, p = 0;
    record_at(filler, RAW_RECORD, 5, 0, s->flags & WIDE ? 256 : 0, 0, 4, 0, NULL, 0);
    if (word(m + region(channel) + FLAGS) != s->flags) return 0;
    must(by->clear(m, TWIN_MEMORY, channel, 3) == 0x00 && by->clear(m, TWIN_MEMORY, channel, 4) == 0x00, "clear");
    if (by->set(m, TWIN_MEMORY, channel, 1, s->rate) || by->set(m, TWIN_MEMORY, channel, 3, s->loopback)) return 0;
    for (uint32_t i = 1; f < s->filters; i++) {
        const filter *at = &s->filter[f];
        int wanted = at->number == i;
        const uint8_t *mask = wanted ? at->mask : filler, *pattern = wanted ? at->pattern : filler;
        if (by->start_filter(m, TWIN_MEMORY, channel, wanted ? at->type : 1, mask, RAW_RECORD, pattern, RAW_RECORD, NULL, 0, &number)) return 0;
        must(number == i, "a filter's number");
        f += (uint32_t)wanted;
    }
    for (uint32_t i = 1; p < s->periodics; i++) {
        const periodic *at = &s->periodic[p];
        int wanted = at->number == i;
        if (by->start_periodic(m, TWIN_MEMORY, channel, wanted ? at->record : filler, RAW_RECORD, wanted ? at->interval : 5, &number)) return 0;
        must(number == i, "a periodic's number");
        p += (uint32_t)wanted;
    }
    for (uint32_t i = s->filters ? s->filter[s->filters - 1].number : 0; i > 0; i--) {
        if (f > 0 && s->filter[f - 1].number == i) f--;
        else must(by->stop_filter(m, TWIN_MEMORY, channel, i) == 0x00, "a gap");
    }
    for (uint32_t i = s->periodics ? s->periodic[s->periodics - 1].number : 0; i > 0; i--) {
        if (p > 0 && s->periodic[p - 1].number == i) p--;
        else must(by->stop_periodic(m, TWIN_MEMORY, channel, i) == 0x00, "a gap");
    }
    return 1;
}

/* a load on every side */
static uint32_t loads(uint32_t channel, const uint8_t *store, size_t n) {
    static uint8_t want[TWIN_MEMORY], was[TWIN_MEMORY], lent[GUARD + ROOM + GUARD], noise[GUARD + ROOM + GUARD];
    static setup s;
    uint32_t code = 0x02;
    memcpy(was, memories[0], TWIN_MEMORY);
    memcpy(want, was, TWIN_MEMORY);
    if (is_raw(channel) && was[region(channel)]) {
        code = reads(&s, store, n, 2) && done_by_calls(want, channel, &s) ? 0x00 : 0x0A;
        if (code) memcpy(want, was, TWIN_MEMORY), want[region(channel) + RAW_LAST] = 0x0A;
    }
    memset(noise, 0x80, GUARD), memset(noise + GUARD + n, 0x01, GUARD); /* what a reader that goes too far would go on with */
    if (n) memcpy(noise + GUARD, store, n);
    for (int k = 0; sides[k]; k++) {
        memcpy(lent, noise, n + 2 * GUARD);
        must(sides[k]->load(MEMORY, channel, lent + GUARD, n) == code, "a load's code");
        must(memcmp(memories[k], want, TWIN_MEMORY) == 0, code ? "a refused load changes nothing but the last code" : "what a load does");
        must(memcmp(lent, noise, n + 2 * GUARD) == 0, "what is loaded is only read");
        if (!code) must(sides[k]->valid(MEMORY), "valid after a load");
    }
    if (code) refused++;
    else loaded++;
    return code;
}

/* a good one is also saved as it was: the same bytes, of version 1 as version 2 with flags 0. The memories are put back */
static uint32_t tries(uint32_t channel, const uint8_t *store, size_t n) {
    static uint8_t second[ROOM];
    uint32_t code = loads(channel, store, n);
    if (code == 0x00 && store[0] == 2) is_saved(channel, store, n);
    if (code == 0x00 && store[0] == 1) {
        second[0] = 2, second[1] = 0, memcpy(second + 2, store + 1, n - 1);
        is_saved(channel, second, n + 1);
    }
    put_back();
    return code;
}

static void gives(uint32_t code, uint32_t channel, const uint8_t *store, size_t n) {
    must(tries(channel, store, n) == code, "the code of a store worked out by hand");
}

/* ---- channels ---- */

static void begin(uint32_t first, uint32_t second, uint32_t third, uint32_t fourth) {
    const uint32_t flags[4] = {first, second, third, fourth};
    uint32_t channel;
    EACH(power_on(MEMORY) == 0x00);
    for (uint32_t line = 0; line < 4; line++) EACH(connect(MEMORY, line, 5, flags[line], line % 2 ? 250000 : 500000, &channel) == 0x00);
    keep();
}

static void start(uint32_t channel, uint32_t type, uint32_t tx, uint32_t size, const char *mask, const char *pattern) {
    uint8_t a[RAW_RECORD] = {0}, b[RAW_RECORD] = {0};
    uint32_t v;
    put_word(a, 5), put_word(a + 8, tx), put_word(a + 16, size), memcpy(a + 24, mask, size);
    put_word(b, 5), put_word(b + 8, tx), put_word(b + 16, size), memcpy(b + 24, pattern, size);
    EACH(start_filter(MEMORY, channel, type, a, RAW_RECORD, b, RAW_RECORD, NULL, 0, &v) == 0x00);
}

static void repeat(uint32_t channel, uint32_t tx, uint32_t id, const char *data, uint32_t n, uint32_t interval) {
    uint8_t r[RAW_RECORD];
    uint32_t v;
    record_at(r, RAW_RECORD, 5, any(), tx, any(), any(), id, (const uint8_t *)data, n);
    EACH(start_periodic(MEMORY, channel, r, RAW_RECORD, interval, &v) == 0x00);
}

/* the next frame to send is this one, and goes */
static void goes(uint32_t channel, uint32_t id, const char *data, uint32_t n) {
    uint8_t r[RAW_RECORD];
    for (int k = 0; sides[k]; k++) {
        must(sides[k]->take(MEMORY, channel, r, RAW_RECORD) == 0x00, "a frame to send");
        must(is_raw_record(r, 0, 0, 0, id, (const uint8_t *)data, n), "the frame to send");
    }
    EACH(sent(MEMORY, channel) == 0x00);
}

static void nothing_goes(uint32_t channel) {
    uint8_t r[RAW_RECORD];
    EACH(take(MEMORY, channel, r, RAW_RECORD) == 0x10);
}

/* the types of all ten filters of a channel */
static void types_are(uint32_t channel, const char *types) {
    for (int k = 0; sides[k]; k++) must(memcmp(memories[k] + region(channel) + TYPES, types, TEN) == 0, "which filters there are");
}

/* ---- the readings' examples ---- */

static const uint8_t nothing_set[] = {0x02, 0x00, 0x00, 0x00, 0xA0, 0xC2, 0x1E, 0x00};
static const uint8_t nothing_set_1[] = {0x01, 0x00, 0x00, 0xA0, 0xC2, 0x1E, 0x00};
static const uint8_t flags_900[] = {0x02, 0x80, 0x12, 0x00, 0x00, 0x90, 0xA1, 0x0F, 0x00};
static const uint8_t listener[] = {0x02, 0x80, 0x80, 0x80, 0x80, 0x01, 0x00, 0x00, 0x90, 0xA1, 0x0F, 0x00};
static const uint8_t third[120] = {
    0x02, 0x00, 0x01, 0x02, 0x02, /* version, flags, a filter: number 2, block */
    5, 0, 0, 0, 0, 0, 0, 0, 0, 0, 0, 0, 0, 0, 0, 0, 4, 0, 0, 0, 4, 0, 0, 0, 0xFF, 0xFF, 0xFF, 0xFF, 0, 0, 0, 0, 0, 0, 0, 0,
    5, 0, 0, 0, 0, 0, 0, 0, 0, 0, 0, 0, 0, 0, 0, 0, 4, 0, 0, 0, 4, 0, 0, 0, 0x00, 0x00, 0x07, 0xE8, 0, 0, 0, 0, 0, 0, 0, 0,
    0x01, 0x01, /* a periodic: number 1 */
    5, 0, 0, 0, 0, 0, 0, 0, 0, 0, 0, 0, 0, 0, 0, 0, 7, 0, 0, 0, 7, 0, 0, 0, 0x00, 0x00, 0x07, 0xDF, 0x02, 0x01, 0x0D, 0, 0, 0, 0, 0,
    0x64, 0xA0, 0xC2, 0x1E, 0x01}; /* every 100 ms; 500,000; loopback 1 */
/* where its numbers lie */
enum { FILTER_COUNT = 2, FILTER_NUMBER, FILTER_TYPE, PERIODIC_COUNT = 77, PERIODIC_NUMBER, INTERVAL = 115, RATE_AT, LOOPBACK_AT = 119 };

/* channel 1 as in the third example */
static void third_set_up(void) {
    start(1, 1, 0, 1, "\0", "\0"), start(1, 2, 0, 4, "\xFF\xFF\xFF\xFF", "\0\0\7\xE8");
    EACH(stop_filter(MEMORY, 1, 1) == 0x00);
    repeat(1, 0, 0x7DF, "\2\1\x0D", 3, 100);
    EACH(set(MEMORY, 1, 3, 1) == 0x00);
}

static void examples(void) {
    static uint8_t changed[64], out[ROOM];
    size_t n;
    setup s;
    begin(NARROW, NARROW, BOTH, BOTH_TOO);
    EACH(set(MEMORY, 2, 1, 500000) == 0x00);
    keep();
    is_saved(1, nothing_set, sizeof nothing_set); /* 1 */
    gives(0x00, 1, nothing_set, sizeof nothing_set), gives(0x00, 1, nothing_set_1, sizeof nothing_set_1);
    is_saved(4, flags_900, sizeof flags_900); /* 2 */
    gives(0x00, 4, flags_900, sizeof flags_900);
    for (uint32_t channel = 1; channel <= 4; channel++) gives(0x0A, channel, listener, sizeof listener);
    third_set_up(); /* 3 */
    is_saved(1, third, sizeof third);
    must(saves(1, 119, out, &n) == 0x04 && last_code(1) == 0x04, "119 bytes are 0x04");
    for (uint32_t channel = 2; channel <= 3; channel++) { /* 4 */
        start(channel, 1, 0, 1, "\0", "\0"), start(channel, 2, 0, 2, "\0\0", "\1\1"), start(channel, 1, 0, 3, "\0\0\0", "\0\0\0");
        EACH(stop_filter(MEMORY, channel, 2) == 0x00);
        types_are(channel, "\1\0\1\0\0\0\0\0\0\0");
    }
    must(loads(2, third, sizeof third) == 0x00, "loaded on another channel");
    types_are(2, "\0\2\0\0\0\0\0\0\0\0");
    goes(2, 0x7DF, "\2\1\x0D", 3);
    must(loads(3, third, sizeof third) == 0x0A && last_code(3) == 0x0A, "on flags 0x800");
    types_are(3, "\1\0\1\0\0\0\0\0\0\0");
    keep();
    memcpy(changed, nothing_set, sizeof nothing_set); /* 5 */
    changed[8] = 0x00, gives(0x0A, 1, changed, 9), gives(0x00, 1, changed, 8), gives(0x0A, 1, changed, 7);
    changed[0] = 0x03, gives(0x0A, 1, changed, 8), changed[0] = 0x02;
    changed[1] = 0x01, gives(0x0A, 1, changed, 8), changed[1] = 0x00;
    changed[7] = 0x02, gives(0x0A, 1, changed, 8), changed[7] = 0x00;
    changed[4] = 0xC8, changed[5] = 0xD0, changed[6] = 0x07, gives(0x0A, 1, changed, 8);
    must(reads(&s, nothing_set_1, sizeof nothing_set_1, 1), "version 1 by its own reader, here that of this test");
    must(!reads(&s, nothing_set, sizeof nothing_set, 1), "version 2 by the reader of version 1"); /* 6 */
}

/* ---- stores changed: every byte, every cut, every count, every long form ---- */

/* the most there is: ten filters, ten periodics whose intervals have three bytes, flags of two; a listener has no periodics, and flags of five */
static size_t most(uint8_t *to, uint32_t flags) {
    setup s;
    memset(&s, 0, sizeof s);
    s.version = 2, s.flags = flags, s.filters = s.periodics = TEN, s.rate = 250000, s.loopback = 1;
    if (flags & LISTENER) s.periodics = 0;
    for (uint32_t i = 0; i < TEN; i++) {
        int wide = flags & BOTH ? i % 2 : (flags & WIDE) != 0;
        uint8_t row[ROW] = {(uint8_t)(wide ? 0x18 : 0), 0, 7, (uint8_t)(0xE0 + i), 1, 2, 3, 4, 5, 6, 7, 8};
        s.filter[i].number = s.periodic[i].number = i + 1, s.filter[i].type = 1 + i % 2, s.periodic[i].interval = 65535 - i;
        clean(s.filter[i].mask, wide, 3 + i, row), clean(s.filter[i].pattern, wide, 3 + i, row);
        clean(s.periodic[i].record, wide, 4 + i % 9, row);
    }
    return bytes_of(to, &s);
}

static void each_byte(uint32_t channel, const uint8_t *store, size_t n, int all) {
    static uint8_t changed[ROOM];
    memcpy(changed, store, n);
    for (size_t i = 0; i < n; i++) {
        const uint8_t is = store[i];
        const uint8_t some[8] = {0, 1, 2, (uint8_t)(is + 1), (uint8_t)(is - 1), is ^ 0x80, is ^ (uint8_t)(1u << below(8)), (uint8_t)any()};
        for (int k = 0; k < (all ? 256 : 8); k++) {
            changed[i] = all ? (uint8_t)k : some[k];
            if (changed[i] != store[i]) tries(channel, changed, n);
        }
        changed[i] = store[i];
    }
    gives(0x00, channel, store, n);
}

/* the bytes from..to of the third store are others: what it would be */
static void spliced(uint32_t code, size_t from, size_t to, const char *b, size_t n) {
    static uint8_t changed[ROOM];
    memcpy(changed, third, from), memcpy(changed + from, b, n), memcpy(changed + from + n, third + to, sizeof third - to);
    gives(code, 1, changed, sizeof third - (to - from) + n);
}

static void each_cut(uint32_t channel, const uint8_t *store, size_t n) {
    static uint8_t longer[ROOM];
    for (size_t cut = 0; cut < n; cut++) gives(0x0A, channel, store, cut);
    gives(0x00, channel, store, n);
    memcpy(longer, store, n), memset(longer + n, 0, sizeof longer - n);
    for (int v = 0; v < 256; v++) longer[n] = (uint8_t)v, gives(0x0A, channel, longer, n + 1);
    longer[n] = 0;
    gives(0x0A, channel, longer, n + 2), gives(0x0A, channel, longer, n + 36), gives(0x0A, channel, longer, ROOM);
    memcpy(longer + n, store, n), gives(0x0A, channel, longer, 2 * n);
}

static void each_count(void) {
    uint8_t changed[sizeof third];
    for (int v = 0; v < 256; v++) {
        memcpy(changed, third, sizeof third);
        changed[FILTER_COUNT] = (uint8_t)v, gives(v == 1 ? 0x00 : 0x0A, 1, changed, sizeof third), changed[FILTER_COUNT] = 1;
        changed[PERIODIC_COUNT] = (uint8_t)v, gives(v == 1 ? 0x00 : 0x0A, 1, changed, sizeof third);
    }
    spliced(0x00, FILTER_COUNT, PERIODIC_COUNT, "\0", 1), spliced(0x00, PERIODIC_COUNT, INTERVAL + 1, "\0", 1); /* none, and their bytes gone */
    spliced(0x0A, FILTER_COUNT, PERIODIC_COUNT, "\1", 1), spliced(0x0A, PERIODIC_COUNT, INTERVAL + 1, "\1", 1);
}

/* each number of one byte in forms that are longer than need be, with 2 to the 32nd on top, and without an end */
static void each_form(void) {
    static const size_t ones[] = {0, 1, FILTER_COUNT, FILTER_NUMBER, FILTER_TYPE, PERIODIC_COUNT, PERIODIC_NUMBER, INTERVAL, LOOPBACK_AT};
    for (size_t i = 0; i < sizeof ones / sizeof *ones; i++) {
        char b[12];
        memset(b, (char)0x80, sizeof b), b[0] = (char)(third[ones[i]] | 0x80);
        for (size_t end = 1; end < 10; end++) {
            b[end] = 0, spliced(0x0A, ones[i], ones[i] + 1, b, end + 1);
            if (end >= 4) b[end] = 0x10, spliced(0x0A, ones[i], ones[i] + 1, b, end + 1); /* at 4: 2 to the 32nd more */
            b[end] = (char)0x80;
        }
        spliced(0x0A, ones[i], ones[i] + 1, b, sizeof b);
    }
    spliced(0x0A, RATE_AT, LOOPBACK_AT, "\xA0\xC2\x9E\0", 4), spliced(0x0A, RATE_AT, LOOPBACK_AT, "\xA0\xC2\x9E\x80\x10", 5);
    spliced(0x0A, RATE_AT, LOOPBACK_AT, "\xA0\xC2\x9E\x80\0", 5), spliced(0x00, RATE_AT, LOOPBACK_AT, "\x90\xA1\x0F", 3);
    spliced(0x00, INTERVAL, INTERVAL + 1, "\5", 1), spliced(0x00, INTERVAL, INTERVAL + 1, "\xFF\xFF\3", 3);
    spliced(0x0A, INTERVAL, INTERVAL + 1, "\4", 1), spliced(0x0A, INTERVAL, INTERVAL + 1, "\x80\x80\4", 3);
}

static void changed_ones(void) {
    static uint8_t full[ROOM];
    size_t n;
    begin(NARROW, WIDE, BOTH, BOTH_TOO);
    third_set_up(), repeat(1, 0, 0x123, "", 0, 7), start(1, 1, 0, 4, "\0\0\7\xF0", "\0\0\7\xE0");
    keep();
    each_byte(1, nothing_set, sizeof nothing_set, 1), each_byte(1, nothing_set_1, sizeof nothing_set_1, 1);
    each_byte(4, flags_900, sizeof flags_900, 1), each_byte(1, third, sizeof third, 1);
    each_cut(1, nothing_set, sizeof nothing_set), each_cut(1, nothing_set_1, sizeof nothing_set_1);
    each_cut(4, flags_900, sizeof flags_900), each_cut(1, third, sizeof third);
    each_count();
    each_form();
    for (uint32_t channel = 1; channel <= 4; channel++) {
        n = most(full, flags_of(channel));
        must(n == (channel == 1 ? STORE - 1 : STORE), "the longest store");
        gives(0x00, channel, full, n);
        if (channel % 2 == 0) each_byte(channel, full, n, 0), each_cut(channel, full, n);
    }
    gives(0x0A, 1, NULL, 0);
}

/* ---- limits, each with its code ---- */

/* do these flags, a listener's too, take wide frames alone? */
static int is_wide(uint32_t flags) { return (flags & BOTH_TOO) == WIDE; }

/* a filter and a periodic, by the channel's flags */
static void one_of_each(setup *s, uint32_t flags) {
    static const uint8_t row[ROW] = {0, 0, 7, 0xDF, 1, 2, 3, 4, 5, 6, 7, 8};
    memset(s, 0, sizeof *s);
    s->version = 2, s->flags = flags, s->filters = s->periodics = 1, s->rate = 500000;
    s->filter[0].number = s->filter[0].type = s->periodic[0].number = 1, s->periodic[0].interval = 100;
    clean(s->filter[0].mask, is_wide(flags), 4, row), clean(s->filter[0].pattern, is_wide(flags), 4, row);
    clean(s->periodic[0].record, is_wide(flags), 12, row);
}

static void says(uint32_t code, uint32_t channel, const setup *s) {
    static uint8_t store[ROOM];
    gives(code, channel, store, bytes_of(store, s));
}

#define LIMIT(code, change)                       \
    do {                                          \
        setup s;                                  \
        one_of_each(&s, flags_of(channel));       \
        change;                                   \
        says(code, channel, &s);                  \
    } while (0)

/* a record of the set-up with this size, width or identifier */
static void resize(uint8_t *p, uint32_t size) {
    uint8_t row[ROW];
    memcpy(row, p + 24, ROW);
    if (size < ROW) memset(row + size, 0, ROW - size);
    clean(p, word(p + 8) == 256, size, row);
}
static void widen(uint8_t *p, int wide) { put_word(p + 8, wide ? 256 : 0); }
static void name(uint8_t *p, uint32_t id) {
    for (int i = 0; i < 4; i++) p[24 + i] = (uint8_t)(id >> (24 - 8 * i));
}

static void limits_on(uint32_t channel) {
    static const uint32_t good_intervals[] = {5, 6, 127, 128, 16383, 16384, 65535}, bad_intervals[] = {0, 1, 4, 65536, 65541, 0x10000005, 0xFFFFFFFF};
    static const uint32_t bad_types[] = {0, 3, 4, 127, 128, 257, 258, 0xFFFFFFFF}, bad_loopbacks[] = {2, 3, 127, 128, 256, 257, 0xFFFFFFFF};
    static const uint32_t bad_rates[] = {0, 1, 124999, 125000, 125001, 249999, 250001, 499999, 500001, 1000000, 0xFFFFFFFF};
    static const uint32_t bad_flags[] = {1, 0x10, 0x200, 0x901, 0x1000, LISTENER, LISTENER + WIDE, LISTENER + BOTH, 0x80000000, 0xFFFFFFFF};
    static const uint32_t bad_versions[] = {0, 3, 4, 127, 128, 129, 130, 257, 258, 0xFFFFFFFF};
    static const uint32_t words[] = {0, 1, 4, 5, 6, 8, 255, 256, 257, 512, 65536 + 5, 0x80000100};
    uint32_t flags = flags_of(channel), both = flags & BOTH, wide = flags == WIDE;
#define EVERY(of, code, change) \
    for (size_t i = 0; i < sizeof of / sizeof *of; i++) LIMIT(code, change = of[i])
    LIMIT(0x00, (void)0);
    EVERY(good_intervals, 0x00, s.periodic[0].interval);
    EVERY(bad_intervals, 0x0A, s.periodic[0].interval);
    LIMIT(0x00, s.filter[0].type = 2);
    EVERY(bad_types, 0x0A, s.filter[0].type);
    LIMIT(0x00, s.loopback = 1);
    EVERY(bad_loopbacks, 0x0A, s.loopback);
    LIMIT(0x00, s.rate = 250000);
    EVERY(bad_rates, 0x0A, s.rate);
    EVERY(bad_flags, 0x0A, s.flags);
    LIMIT(flags == NARROW ? 0x00 : 0x0A, s.flags = NARROW);
    LIMIT(flags == WIDE ? 0x00 : 0x0A, s.flags = WIDE);
    LIMIT(flags == BOTH ? 0x00 : 0x0A, s.flags = BOTH);
    LIMIT(flags == BOTH_TOO ? 0x00 : 0x0A, s.flags = BOTH_TOO);
    EVERY(bad_versions, 0x0A, s.version);
    LIMIT(flags == NARROW ? 0x00 : 0x0A, s.version = 1);
    for (uint32_t size = 0; size <= 20; size++) {
        LIMIT(size >= 1 && size <= 12 ? 0x00 : 0x0A, (resize(s.filter[0].mask, size), resize(s.filter[0].pattern, size)));
        LIMIT(size == 4 ? 0x00 : 0x0A, resize(s.filter[0].mask, size));
        LIMIT(size == 4 ? 0x00 : 0x0A, resize(s.filter[0].pattern, size));
        LIMIT(size >= 4 && size <= 12 ? 0x00 : 0x0A, resize(s.periodic[0].record, size));
    }
    for (int w = 0; w < 2; w++) {
        LIMIT(both || wide == (uint32_t)w ? 0x00 : 0x0A, (widen(s.filter[0].mask, w), widen(s.filter[0].pattern, w)));
        LIMIT(both || wide == (uint32_t)w ? 0x00 : 0x0A, widen(s.periodic[0].record, w));
        LIMIT((uint32_t)w == wide ? 0x00 : 0x0A, widen(s.filter[0].mask, w)); /* of the two records one */
        LIMIT((uint32_t)w == wide ? 0x00 : 0x0A, widen(s.filter[0].pattern, w));
        LIMIT(both || wide == (uint32_t)w ? 0x00 : 0x0A, (widen(s.periodic[0].record, w), name(s.periodic[0].record, w ? 0x1FFFFFFF : 0x7FF)));
        LIMIT(0x0A, (widen(s.periodic[0].record, w), name(s.periodic[0].record, w ? 0x20000000 : 0x800)));
        LIMIT(0x0A, (widen(s.periodic[0].record, w), name(s.periodic[0].record, 0xFFFFFFFF)));
    }
    LIMIT(wide ? 0x00 : 0x0A, name(s.periodic[0].record, 0x800)); /* too large for a narrow one */
    LIMIT(0x00, (name(s.filter[0].mask, 0xFFFFFFFF), name(s.filter[0].pattern, 0xFFFFFFFF))); /* a filter's may be any */
    /* each number of a record, and the bytes behind its size */
    for (size_t at = 0; at < 24; at += 4)
        for (size_t i = 0; i < sizeof words / sizeof *words; i++) {
            setup whole;
            uint32_t v = words[i];
            one_of_each(&whole, flags);
            LIMIT(v == word(whole.filter[0].mask + at) ? 0x00 : 0x0A, put_word(s.filter[0].mask + at, v));
            LIMIT(v == word(whole.filter[0].pattern + at) ? 0x00 : 0x0A, put_word(s.filter[0].pattern + at, v));
            if (at == 8 && (v == 0 || v == 256)) continue; /* widths, above */
            LIMIT(v == word(whole.periodic[0].record + at) ? 0x00 : 0x0A, put_word(s.periodic[0].record + at, v));
        }
    for (size_t at = 28; at < RAW_RECORD; at++) {
        LIMIT(0x0A, s.filter[0].mask[at] = 1);
        LIMIT(0x0A, s.filter[0].pattern[at] = 0x80);
        LIMIT(0x0A, (resize(s.periodic[0].record, 4), s.periodic[0].record[at] = 1));
    }
}

/* the numbers of two or three filters, or periodics, as they stand there */
static void numbered(uint32_t code, uint32_t channel, uint32_t n, uint32_t a, uint32_t b, uint32_t c) {
    const uint32_t numbers[3] = {a, b, c};
    setup s;
    for (int which = 0; which < 3; which++) { /* filters, periodics, both */
        one_of_each(&s, flags_of(channel));
        if (which != 1) s.filters = n;
        if (which != 0) s.periodics = n;
        for (uint32_t i = 0; i < n; i++) {
            if (which != 1) s.filter[i] = s.filter[0], s.filter[i].type = 1 + i % 2;
            if (which != 0) s.periodic[i] = s.periodic[0], s.periodic[i].interval = 5 + i;
        }
        for (uint32_t i = 0; i < n && which != 1; i++) s.filter[i].number = numbers[i];
        for (uint32_t i = 0; i < n && which != 0; i++) s.periodic[i].number = numbers[i];
        says(code, channel, &s);
    }
}

static void orders(void) {
    setup s;
    for (uint32_t a = 0; a <= 12; a++) {
        numbered(a >= 1 && a <= 10 ? 0x00 : 0x0A, 1, 1, a, 0, 0);
        for (uint32_t b = 0; b <= 12; b++) numbered(a >= 1 && a < b && b <= 10 ? 0x00 : 0x0A, 1, 2, a, b, 0);
    }
    numbered(0x00, 3, 3, 1, 2, 3), numbered(0x00, 3, 3, 2, 7, 10), numbered(0x00, 3, 3, 8, 9, 10);
    numbered(0x0A, 3, 3, 1, 3, 2), numbered(0x0A, 3, 3, 3, 2, 1), numbered(0x0A, 3, 3, 2, 1, 3), numbered(0x0A, 3, 3, 1, 2, 2);
    numbered(0x0A, 3, 3, 9, 10, 11);
    numbered(0x0A, 3, 1, 129, 0, 0), numbered(0x0A, 3, 1, 257, 0, 0), numbered(0x0A, 3, 2, 1, 130, 0), numbered(0x0A, 3, 1, 0xFFFFFFFF, 0, 0);
    for (uint32_t n = 0; n <= TEN + 1; n++) { /* so many, numbered from 1 on; eleven are too many */
        one_of_each(&s, NARROW);
        s.filters = s.periodics = n;
        for (uint32_t i = 0; i < n; i++) s.filter[i] = s.filter[0], s.periodic[i] = s.periodic[0], s.filter[i].number = s.periodic[i].number = i + 1;
        says(n <= TEN ? 0x00 : 0x0A, 1, &s);
        s.filters = n < TEN ? n : TEN, says(n <= TEN ? 0x00 : 0x0A, 1, &s);
        s.filters = n, s.periodics = n < TEN ? n : TEN, says(n <= TEN ? 0x00 : 0x0A, 1, &s);
    }
}

static void limits(void) {
    begin(NARROW, WIDE, BOTH, BOTH_TOO);
    for (uint32_t channel = 1; channel <= 4; channel++) limits_on(channel);
    orders();
}

/* ---- listeners: their flag is saved, and with it a store has no periodic ---- */

/* its own store of one filter, with its flags and no others; with a periodic, a bad one too, it is bad, whatever the channel */
static void listener_loads(uint32_t channel) {
    uint32_t flags = flags_of(channel);
    setup s;
    one_of_each(&s, flags), says(0x0A, channel, &s);
    s.periodics = 0, says(0x00, channel, &s);
    for (uint32_t other = 1; other <= 4; other++) says(other == channel ? 0x00 : 0x0A, other, &s);
    s.loopback = 1, s.rate = 250000, s.filter[0].type = 2, says(0x00, channel, &s);
    s.flags = flags - LISTENER, says(0x0A, channel, &s);
    for (int bit = 0; bit < 32; bit++) s.flags = flags ^ (uint32_t)1 << bit, says(0x0A, channel, &s);
    s.flags = 0, s.version = 1, says(0x0A, channel, &s);
    s.flags = flags, s.version = 2, s.periodics = 1, says(0x0A, channel, &s);
    s.periodic[0].interval = 4, says(0x0A, channel, &s);
    s.periodics = TEN;
    for (uint32_t i = 0; i < TEN; i++) s.periodic[i] = s.periodic[0], s.periodic[i].number = i + 1, s.periodic[i].interval = 5 + i;
    says(0x0A, channel, &s);
}

/* its longest store: ten filters */
static void listener_is_full(uint32_t channel) {
    static uint8_t full[ROOM], out[ROOM];
    size_t n = most(full, flags_of(channel)), length;
    must(n == 752, "a listener's longest store");
    gives(0x00, channel, full, n), each_byte(channel, full, n, 0), each_cut(channel, full, n);
    must(loads(channel, full, n) == 0x00, "loaded");
    for (size_t room = n - 3; room <= STORE; room += room < n + 3 ? 1 : 37)
        must(saves(channel, room, out, &length) == (room < n ? 0x04 : 0x00), "a buffer's length");
    put_back();
}

/* the third example with other flags: with its periodic bad, on the listener as elsewhere; without it the listener's */
static void listener_third(void) {
    static uint8_t changed[ROOM];
    size_t n = 1 + 5, tail = PERIODIC_COUNT - FILTER_COUNT;
    memcpy(changed, listener, n), memcpy(changed + n, third + FILTER_COUNT, sizeof third - FILTER_COUNT);
    for (uint32_t channel = 1; channel <= 4; channel++) gives(0x0A, channel, changed, n + sizeof third - FILTER_COUNT);
    changed[n + tail] = 0, memcpy(changed + n + tail + 1, third + RATE_AT, sizeof third - RATE_AT);
    n += tail + 1 + sizeof third - RATE_AT;
    for (uint32_t channel = 1; channel <= 4; channel++) gives(channel == 2 ? 0x00 : 0x0A, channel, changed, n);
    each_byte(2, changed, n, 1), each_cut(2, changed, n);
}

static void listeners(void) {
    static uint8_t out[ROOM];
    size_t n;
    begin(NARROW, LISTENER, LISTENER + WIDE, LISTENER + BOTH);
    is_saved(2, listener, sizeof listener);
    for (uint32_t channel = 1; channel <= 4; channel++) gives(channel == 2 ? 0x00 : 0x0A, channel, listener, sizeof listener);
    for (uint32_t channel = 1; channel <= 4; channel++) gives(channel == 1 ? 0x00 : 0x0A, channel, nothing_set, sizeof nothing_set);
    for (uint32_t channel = 1; channel <= 4; channel++) gives(channel == 1 ? 0x00 : 0x0A, channel, nothing_set_1, sizeof nothing_set_1);
    for (size_t room = 0; room < 20; room++) must(saves(2, room, out, &n) == (room < sizeof listener ? 0x04 : 0x00), "a buffer's length");
    put_back();
    each_byte(2, listener, sizeof listener, 1), each_cut(2, listener, sizeof listener);
    listener_third();
    for (uint32_t channel = 2; channel <= 4; channel++) listener_loads(channel), listener_is_full(channel);
    begin(LISTENER + BOTH_TOO, BOTH_TOO, LISTENER + BOTH, BOTH);
    listener_loads(1), listener_is_full(1), listener_loads(3);
    must(loads(1, flags_900, sizeof flags_900) == 0x0A && last_code(1) == 0x0A && last_code(2) == 0x00, "0x0A is kept");
}

/* ---- which channel, which buffer, which code is kept ---- */

static void channels(void) {
    static const uint32_t none[] = {0, 5, 6, 7, 8, 9, 255, 257, 0x80000001, 0xFFFFFFFF};
    static uint8_t out[ROOM];
    uint32_t v;
    size_t n;
    begin(NARROW, NARROW, NARROW, NARROW);
    for (uint32_t line = 0; line < 4; line++) EACH(connect(MEMORY, line, 6, NARROW, 500000, &v) == 0x00); /* open, and still none of 1 to 4 */
    EACH(disconnect(MEMORY, 3) == 0x00);
    for (size_t i = 0; i <= sizeof none / sizeof *none; i++) {
        uint32_t channel = i < sizeof none / sizeof *none ? none[i] : 3;
        must(saves(channel, STORE, out, &n) == 0x02 && saves(channel, 0, out, &n) == 0x02, "save: 0x02 before 0x04");
        must(loads(channel, nothing_set, sizeof nothing_set) == 0x02 && loads(channel, third, 5) == 0x02, "load: 0x02 before 0x0A");
    }
    for (int k = 0; sides[k]; k++) memories[k][region(3)] = 2; /* not valid */
    memcpy(kept, memories[0], TWIN_MEMORY), memset(out, 0xC3, sizeof out);
    for (int k = 0; sides[k]; k++) {
        v = 77, must(sides[k]->save(MEMORY, 1, out, STORE, &v) == 0x1A && v == 0, "save: 0x1A");
        v = 77, must(sides[k]->save(MEMORY, 9, out, 0, &v) == 0x1A && v == 0, "save: 0x1A before 0x02");
        must(sides[k]->load(MEMORY, 1, nothing_set, sizeof nothing_set) == 0x1A && sides[k]->load(MEMORY, 9, third, 5) == 0x1A, "load: 0x1A");
        v = 77, must(sides[k]->save(memories[k], TWIN_MEMORY - 1, 1, out, STORE, &v) == 0x1A && v == 0, "save: another length");
        must(sides[k]->load(memories[k], TWIN_MEMORY - 1, 1, nothing_set, sizeof nothing_set) == 0x1A, "load: another length");
        must(memcmp(memories[k], kept, TWIN_MEMORY) == 0 && out[0] == 0xC3, "0x1A changes nothing");
    }
}

/* 0x04 and 0x0A become the last code, each of its own channel; 0x00 leaves it */
static void noted(void) {
    static uint8_t out[ROOM];
    size_t n;
    begin(NARROW, NARROW, BOTH, BOTH_TOO);
    must(loads(1, third, sizeof third) == 0x00 && last_code(1) == 0x00, "a good load has no code");
    must(saves(1, 119, out, &n) == 0x04 && last_code(1) == 0x04 && last_code(2) == 0x00, "0x04 is kept");
    must(saves(1, 120, out, &n) == 0x00 && last_code(1) == 0x04, "a good save leaves it");
    must(loads(1, nothing_set, sizeof nothing_set) == 0x00 && last_code(1) == 0x04, "so does a good load");
    must(loads(1, nothing_set, 7) == 0x0A && last_code(1) == 0x0A && last_code(2) == 0x00, "0x0A is kept");
    must(saves(1, 7, out, &n) == 0x04 && saves(1, 8, out, &n) == 0x00 && last_code(1) == 0x04, "0x04 again");
    must(loads(3, nothing_set, sizeof nothing_set) == 0x0A && last_code(3) == 0x0A && last_code(1) == 0x04, "other flags");
    EACH(disconnect(MEMORY, 3) == 0x00);
    must(loads(3, nothing_set, sizeof nothing_set) == 0x02, "closed");
}

/* a save into buffers of every length about what it needs */
static void rooms(void) {
    static uint8_t full[ROOM], out[ROOM];
    size_t n, length;
    begin(NARROW, NARROW, NARROW, BOTH_TOO);
    third_set_up();
    for (size_t room = 0; room <= sizeof third + 40; room++)
        must(saves(1, room, out, &length) == (room < sizeof third ? 0x04 : 0x00), "a buffer's length");
    n = most(full, BOTH_TOO);
    must(n == STORE && loads(4, full, n) == 0x00, "the longest store");
    for (size_t room = 0; room <= STORE + 600; room += room < 40 || (room > STORE - 40 && room < STORE + 40) ? 1 : 37)
        must(saves(4, room, out, &length) == (room < STORE ? 0x04 : 0x00), "a buffer's length, of the longest");
    must(saves(4, ROOM, out, &length) == 0x00 && length == STORE, "a large buffer");
    is_saved(2, (const uint8_t *)"\2\0\0\0\x90\xA1\x0F\0", 8);
}

/* a channel that holds 125,000 from before is saved with it; that store is bad, and another may be loaded on the channel */
static void old_rate(void) {
    static const uint8_t old[] = {0x02, 0x00, 0x00, 0x00, 0xC8, 0xD0, 0x07, 0x00}, old_1[] = {0x01, 0x00, 0x00, 0xC8, 0xD0, 0x07, 0x00};
    uint32_t v;
    begin(NARROW, NARROW, NARROW, NARROW);
    for (int k = 0; sides[k]; k++) put_word(memories[k] + region(1) + RATE, 125000);
    alike(), keep();
    is_saved(1, old, sizeof old);
    gives(0x0A, 1, old, sizeof old), gives(0x0A, 1, old_1, sizeof old_1), gives(0x0A, 2, old, sizeof old);
    EACH(get(MEMORY, 1, 1, &v) == 0x00 && v == 125000);
    must(loads(1, third, sizeof third) == 0x00, "another rate on it");
    EACH(get(MEMORY, 1, 1, &v) == 0x00 && v == 500000);
}

/* ---- what a load leaves, and what it begins anew ---- */

static void frame(uint32_t id) { EACH(frame(MEMORY, 0, 0, id, (const uint8_t *)"\1\2\3", 3) == 0x00); }

static void module(uint32_t id, const char *data, size_t n) { EACH(frame(MEMORY, 0, 0, id, (const uint8_t *)data, n) == 0x00); }

/* a channel in the middle of things: 32 records and the lost mark, two written, a periodic's frame in flight, a connection that sends */
static void in_the_middle(void) {
    uint8_t r[RAW_RECORD], message[100] = {0};
    uint32_t v;
    begin(BOTH, BOTH, NARROW, NARROW);
    start(1, 1, 0, 1, "\0", "\0");
    EACH(link_open(MEMORY, 1, 0x200, 0x01, 0x300, 0x01, 15, 0x8A, 0x00) == 0x00);
    module(0x201, "\0\xD0\0\3\x40\7\1", 7), module(0x300, "\xA1\x0F\x8A\xFF\0\xFF", 6);
    EACH(link_send(MEMORY, 1, message, sizeof message) == 0x00);
    for (uint32_t i = 0; i < 40; i++) frame(0x100 + i);
    record_at(r, RAW_RECORD, 5, 0, 0, 0, 0, 0x456, (const uint8_t *)"\7", 1);
    for (int i = 0; i < 2; i++) EACH(write(MEMORY, 1, 1, r, RAW_RECORD, &v) == 0x00);
    repeat(1, 0, 0x321, "\x55", 1, 50);
    EACH(take(MEMORY, 1, r, RAW_RECORD) == 0x00);
    EACH(advance(MEMORY, 12345) == 0x00);
    EACH(set(MEMORY, 1, 9, 9) == 0x01);
    alike();
}

static void stays(void) {
    static uint8_t was[TWIN_MEMORY], full[ROOM], records[40 * RAW_RECORD];
    uint8_t message[MESSAGE];
    uint32_t v;
    size_t n = most(full, BOTH);
    in_the_middle();
    memcpy(was, memories[0], TWIN_MEMORY);
    must(loads(1, full, n) == 0x00, "a load in the middle of things");
    for (int k = 0; sides[k]; k++) {
        const uint8_t *a = was + region(1), *b = memories[k] + region(1);
        must(memcmp(a, b, RATE) == 0, "open, flags");
        must(memcmp(a + WRITTEN, b + WRITTEN, RAW_REGION - WRITTEN) == 0, "written records, flight, queue, lost mark, last code, connection");
        must(memcmp(was, memories[k], region(1)) == 0 && memcmp(was + region(2), memories[k] + region(2), TWIN_MEMORY - region(2)) == 0, "all else");
        must(b[RAW_LAST] == 0x01, "the last code");
        for (uint32_t i = 0; i < TEN; i++) must(b[PENDING + i] == 1 && word(b + PHASES + 4 * i) == 0, "pending at once, phase 0");
    }
    EACH(link_receive(MEMORY, 1, message, sizeof message, &v) == 0x10); /* it stands */
    EACH(link_send(MEMORY, 1, message, 1) == 0x11);                      /* and sends */
    goes(1, 0x321, "\x55", 1);
    goes(1, 0x7E0, "", 0); /* the first of the loaded ones, of size 4 */
    EACH(read(MEMORY, 1, 40, records, sizeof records, &v) == 0x12 && v == 32);
    EACH(decide(MEMORY, 1, 0, 0x123, &v) == 0x00 && v == 0); /* by the new filters alone: dropped */
    EACH(decide(MEMORY, 1, 0, 0x7E5, &v) == 0x00 && v == 1); /* passes */
    frame(0x123), frame(0x7E5);
    EACH(read(MEMORY, 1, 40, records, sizeof records, &v) == 0x09 && v == 1);
    EACH(get(MEMORY, 1, 3, &v) == 0x00 && v == 1);
    EACH(get(MEMORY, 1, 1, &v) == 0x00 && v == 250000);
    in_the_middle();
    must(loads(1, full, n - 1) == 0x0A && loads(1, third, sizeof third) == 0x0A, "refused in the middle of things");
    goes(1, 0x321, "\x55", 1);
    frame(0x123);
    EACH(read(MEMORY, 1, 40, records, sizeof records, &v) == 0x12 && v == 32);
    frame(0x123);
    EACH(read(MEMORY, 1, 1, records, sizeof records, &v) == 0x00 && v == 1); /* by the filter that was there */
}

static void advances(uint32_t us) { EACH(advance(MEMORY, us) == 0x00); }

/* due times count from the load, whatever the clock and the place in an interval were */
static void anew(void) {
    begin(NARROW, NARROW, NARROW, NARROW);
    third_set_up();
    goes(1, 0x7DF, "\2\1\x0D", 3), nothing_goes(1);
    advances(99999), nothing_goes(1);
    must(loads(1, third, sizeof third) == 0x00, "the same again");
    goes(1, 0x7DF, "\2\1\x0D", 3), nothing_goes(1);
    advances(1), nothing_goes(1); /* due without the load */
    advances(99998), nothing_goes(1);
    advances(1), goes(1, 0x7DF, "\2\1\x0D", 3), nothing_goes(1);
    advances(250000), goes(1, 0x7DF, "\2\1\x0D", 3), nothing_goes(1);
    advances(49999), nothing_goes(1), advances(1), goes(1, 0x7DF, "\2\1\x0D", 3);
    advances(30000);
    must(loads(1, nothing_set, sizeof nothing_set) == 0x00, "none");
    advances(1000000), nothing_goes(1);
    must(loads(1, third, sizeof third) == 0x00 && loads(1, third, 119) == 0x0A, "a refused load starts nothing anew");
    goes(1, 0x7DF, "\2\1\x0D", 3), advances(60000);
    must(loads(1, third, 119) == 0x0A, "nor here");
    advances(39999), nothing_goes(1), advances(1), goes(1, 0x7DF, "\2\1\x0D", 3);
    is_saved(1, third, sizeof third); /* the place in an interval is no part of a store */
}

/* a filter's other bits are gone since its start */
static void bits_gone(void) {
    static uint8_t out[ROOM];
    size_t n;
    begin(BOTH, BOTH, BOTH, BOTH);
    start(1, 1, 0xFFFFFFFF, 4, "\1\2\3\4", "\1\2\3\4"), start(1, 2, 0xFFFFFEFF, 2, "\1\2", "\1\2"), repeat(1, 0xFFFFFFFF, 0x1FFFFFFF, "", 0, 5);
    must(saves(1, STORE, out, &n) == 0x00 && loads(2, out, n) == 0x00, "other bits of TxFlags");
    must(word(out + 3 + 1 + 2 + 8) == 256 && word(out + 3 + 1 + 2 + 2 * RAW_RECORD + 2 + 8) == 0, "their TxFlags");
    is_saved(2, out, n);
}

/* ---- random set-ups ---- */

static uint32_t some_id(int wide) {
    return wide ? ONE_OF(0, 0x7E8, 0x18DAF110, 0x1FFFFFFF, any() & 0x1FFFFFFF) : ONE_OF(0, 0x7E8, 0x7DF, 0x7FF, any() & 0x7FF);
}

static void some_record(uint8_t *p, uint32_t flags, int of_filter) {
    uint8_t row[ROW];
    int wide = flags & BOTH ? chance(50) : is_wide(flags);
    uint32_t size = of_filter ? 1 + below(12) : 4 + below(9);
    for (int i = 0; i < ROW; i++) row[i] = (uint8_t)(chance(50) ? any() : 0);
    clean(p, wide, size, row);
    if (!of_filter || chance(70)) name(p, some_id(wide)), memset(p + 24 + size, 0, ROW - size);
    put_word(p + 4, any()), put_word(p + 12, any()), put_word(p + 20, any()); /* what is ignored */
}

/* one call on a channel, the same on every side */
static void some_call(uint32_t channel) {
    uint8_t a[RAW_RECORD], b[RAW_RECORD], out[4 * RAW_RECORD];
    uint32_t codes[2] = {0}, v, flags = flags_of(channel), kind = below(14), type = 1 + below(2), number = 1 + below(10), us = below(200000);
    uint32_t of = 1 + 2 * below(2), value = of == 1 ? ONE_OF(250000, 500000) : below(2), id = some_id(0);
    uint32_t interval = ONE_OF(5, 6, 100, 127, 128, 16383, 16384, 65535, 5 + below(65531));
    some_record(a, flags, kind < 4), memcpy(b, a, RAW_RECORD);
    for (int i = 24; i < RAW_RECORD; i++) b[i] = (uint8_t)(b[i] & any());
    for (int k = 0; sides[k]; k++) {
        const side *s = sides[k];
        switch (kind) {
        case 0: case 1: case 2: case 3: codes[k] = s->start_filter(MEMORY, channel, type, a, RAW_RECORD, b, RAW_RECORD, NULL, 0, &v); break;
        case 4: case 5: case 6: codes[k] = s->start_periodic(MEMORY, channel, a, RAW_RECORD, interval, &v); break;
        case 7: codes[k] = s->stop_filter(MEMORY, channel, number); break;
        case 8: codes[k] = s->stop_periodic(MEMORY, channel, number); break;
        case 9: codes[k] = s->set(MEMORY, channel, of, value); break;
        case 10: codes[k] = s->write(MEMORY, channel, 1, a, RAW_RECORD, &v); break;
        case 11: codes[k] = number < 6 ? s->take(MEMORY, channel, out, sizeof out) : s->sent(MEMORY, channel); break;
        case 12: codes[k] = s->frame(MEMORY, channel - 1, 0, id, a + 28, 8); break;
        default: codes[k] = number < 8 ? s->advance(MEMORY, us) : s->read(MEMORY, channel, 2, out, sizeof out, &v); break;
        }
    }
    must(codes[0] == codes[1], "the sides' answers");
}

/* a store with some of its bytes changed, cut out or put in; the memories are put back */
static void spoilt(uint32_t channel, const uint8_t *store, size_t n) {
    uint8_t b[STORE + 8];
    memcpy(b, store, n);
    for (uint32_t k = 1 + below(3); k > 0; k--) {
        size_t at = below((uint32_t)n);
        switch (below(4)) {
        case 0: memmove(b + at, b + at + 1, --n - at); break;
        case 1: memmove(b + at + 1, b + at, n++ - at), b[at] = (uint8_t)below(3); break;
        default: b[at] = (uint8_t)(chance(50) ? below(14) : any()); break;
        }
    }
    tries(channel, b, n);
}

static void random_sets(uint32_t rounds) {
    static uint8_t store[ROOM], other[ROOM];
    size_t n, m;
    for (uint32_t r = 0; r < rounds; r++, sets++) {
        uint32_t listens = chance(40) ? LISTENER : 0;
        if (r % 2) begin(NARROW + listens, WIDE, BOTH + listens, BOTH_TOO);
        else begin(ONE_OF(NARROW, BOTH), ONE_OF(NARROW, WIDE) + listens, ONE_OF(BOTH, BOTH_TOO), ONE_OF(NARROW, WIDE, BOTH, BOTH_TOO) + listens);
        for (uint32_t i = 10 + below(160); i > 0; i--) some_call(1 + below(4));
        alike(), keep();
        for (uint32_t from = 1; from <= 4; from++) {
            must(saves(from, STORE, store, &n) == 0x00, "1,149 bytes suffice");
            saves(from, n - 1, other, &m), put_back();
            for (uint32_t to = 1; to <= 4; to++) gives(flags_of(to) == flags_of(from) ? 0x00 : 0x0A, to, store, n);
            for (uint32_t i = 0; i < 12; i++) spoilt(from, store, n);
            if (store[1] == 0) { /* flags 0: as version 1 too */
                memcpy(other + 1, store + 2, n - 2), other[0] = 1;
                for (uint32_t to = 1; to <= 4; to++) gives(flags_of(to) == NARROW ? 0x00 : 0x0A, to, other, n - 1);
            }
        }
        for (uint32_t i = 0; i < 20; i++) { /* and on with what was loaded */
            uint32_t from = 1 + below(4), to = 1 + below(4);
            must(saves(from, STORE, store, &n) == 0x00, "a save in between");
            must(loads(to, store, n) == (flags_of(from) == flags_of(to) ? 0x00 : 0x0A), "a load in between");
            some_call(to), some_call(from);
        }
        alike();
    }
}

int main(int argc, char **argv) {
    uint32_t rounds = argc > 2 ? (uint32_t)strtoul(argv[2], NULL, 10) : 1;
    seed = argc > 1 ? strtoull(argv[1], NULL, 10) : 1;
    if (seed == 0) seed = 1;
    examples();
    changed_ones();
    limits();
    listeners();
    channels();
    noted();
    rooms();
    old_rate();
    stays();
    anew();
    bits_gone();
    random_sets(40 * (rounds ? rounds : 1));
    printf("saved set-ups: %lu stores loaded, %lu refused, %lu saves, %lu random boxes\n", loaded, refused, saved, sets);
    return 0;
}
