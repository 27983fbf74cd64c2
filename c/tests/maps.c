/* The maps of narrow filters: `maps [SEED [ROUNDS]]`. Stories worked out by hand, every bit of the maps turned over, then random filters that start,
 * stop and are cleared. The filters are kept here too: after each change the maps of all sides (iso_side.h) must be what each of the 2,048
 * identifiers by itself says, and every frame must have the verdict of the list of filters, walked here a third time. */
#include <stdio.h>
#include <stdlib.h>
#include <string.h>

#include "iso_side.h"
#include "random.h"

enum { PASS = 1, BLOCK = 2, FILTERS = 10, ROW = 12, ID = 4, DATA = 8, IDENTIFIERS = 0x800, MAP = 256, MAPS = 2 * MAP };
enum { NARROW = 0, WIDE = 0x100, BOTH = 0x800, LISTENER = 0x10000000 };

static uint8_t memories[2][TWIN_MEMORY], before[TWIN_MEMORY];
static unsigned long sets, changes, frames, turned, refusals;

static void must(int true_, const char *what) {
    if (true_) return;
    fprintf(stderr, "maps: %s, set %lu, change %lu\n", what, sets, changes);
    exit(1);
}

/* a call on every side, k being the side */
#define EACH(call) \
    for (int k = 0; sides[k]; k++) must(sides[k]->call, #call)
#define MEMORY memories[k], TWIN_MEMORY

static const uint8_t *maps_of(int k, uint32_t line) { return memories[k] + TWIN_CLOCK + line * RAW_REGION + RAW_MAPS; }

static int all_zeros(const uint8_t *p, size_t n) {
    for (size_t i = 0; i < n; i++)
        if (p[i]) return 0;
    return 1;
}

/* ---- the filters of channel 1, kept here ---- */

typedef struct {
    uint32_t type, wide, size; /* type 0: none */
    uint8_t mask[ROW], pattern[ROW];
} filter;

static filter held[FILTERS];

static int matches(const filter *f, uint32_t wide, const uint8_t *frame, uint32_t n) {
    if (f->wide != wide || f->size > n) return 0;
    for (uint32_t i = 0; i < f->size; i++)
        if ((frame[i] & f->mask[i]) != f->pattern[i]) return 0;
    return 1;
}

static int some(uint32_t type, uint32_t wide, const uint8_t *frame, uint32_t n) {
    for (int i = 0; i < FILTERS; i++)
        if (held[i].type == type && matches(&held[i], wide, frame, n)) return 1;
    return 0;
}

/* does some narrow filter of this type and of one to four bytes match the identifier? */
static int in_map(uint32_t type, uint32_t id) {
    const uint8_t b[ID] = {0, 0, (uint8_t)(id >> 8), (uint8_t)id};
    for (int i = 0; i < FILTERS; i++)
        if (held[i].type == type && held[i].size <= ID && matches(&held[i], 0, b, ID)) return 1;
    return 0;
}

/* the maps of all sides are those of the filters, the sides' memories are alike, and valid */
static void maps_are_right(void) {
    uint8_t right[MAPS] = {0};
    for (uint32_t id = 0; id < IDENTIFIERS; id++) {
        if (in_map(PASS, id)) right[id / 8] |= (uint8_t)(1u << id % 8);
        if (in_map(BLOCK, id)) right[MAP + id / 8] |= (uint8_t)(1u << id % 8);
    }
    for (int k = 0; sides[k]; k++) {
        must(memcmp(maps_of(k, 0), right, MAPS) == 0, "the maps");
        must(memcmp(memories[k], memories[0], TWIN_MEMORY) == 0, "the sides' memories");
        must(sides[k]->valid(MEMORY), "a memory that was reached is valid");
    }
    changes++;
}

static void begin(uint32_t flags) {
    uint32_t channel;
    EACH(power_on(MEMORY) == 0x00);
    EACH(connect(MEMORY, 0, 5, flags, 500000, &channel) == 0x00);
    memset(held, 0, sizeof held);
    maps_are_right();
}

static uint32_t asks(const filter *f, int k, uint32_t *number) {
    uint8_t mask[RAW_RECORD] = {0}, pattern[RAW_RECORD] = {0};
    put_word(mask, 5), put_word(mask + 8, f->wide ? 256 : 0), put_word(mask + 16, f->size), memcpy(mask + 24, f->mask, ROW);
    put_word(pattern, 5), put_word(pattern + 8, f->wide ? 256 : 0), put_word(pattern + 16, f->size), memcpy(pattern + 24, f->pattern, ROW);
    return sides[k]->start_filter(MEMORY, 1, f->type, mask, RAW_RECORD, pattern, RAW_RECORD, NULL, 0, number);
}

static uint32_t start(const filter *f) {
    uint32_t number = 0, first = 1;
    while (held[first - 1].type) first++;
    for (int k = 0; sides[k]; k++) must(asks(f, k, &number) == 0x00 && number == first, "start a filter");
    held[first - 1] = *f;
    memset(held[first - 1].mask + f->size, 0, ROW - f->size), memset(held[first - 1].pattern + f->size, 0, ROW - f->size);
    maps_are_right();
    return first;
}

static void stop(uint32_t number) {
    EACH(stop_filter(MEMORY, 1, number) == 0x00);
    memset(&held[number - 1], 0, sizeof *held);
    maps_are_right();
}

static void no_filters(void) {
    EACH(clear(MEMORY, 1, 4) == 0x00);
    memset(held, 0, sizeof held);
    maps_are_right();
}

/* ---- frames on line 0: is one let in? The queue is empty before and after ---- */

static int let_in(uint32_t wide, uint32_t id, const uint8_t *data, uint32_t n) {
    uint8_t record[RAW_RECORD];
    uint32_t count = 0, first = 0;
    for (int k = 0; sides[k]; k++) {
        must(sides[k]->frame(MEMORY, 0, wide, id, data, n) == 0x00, "a frame");
        sides[k]->read(MEMORY, 1, 1, record, sizeof record, &count);
        must(k == 0 || count == first, "the sides' frames differ");
        if (count) must(is_raw_record(record, wide ? 256 : 0, 0, 0, id, data, n), "the frame that was let in");
        first = count;
    }
    frames++;
    return first == 1;
}

/* by the list: a pass filter matches, and no block filter does */
static void frame_is_right(uint32_t wide, uint32_t id) {
    uint8_t frame[ROW];
    uint32_t n = ID + below(DATA + 1);
    for (int i = 0; i < ID; i++) frame[i] = (uint8_t)(id >> (24 - 8 * i));
    for (uint32_t i = ID; i < ROW; i++) frame[i] = (uint8_t)(chance(70) ? below(2) : any());
    must(let_in(wide, id, frame + ID, n - ID) == (some(PASS, wide, frame, n) && !some(BLOCK, wide, frame, n)), "a frame's verdict");
}

/* ---- stories by hand: those of the request's readings ---- */

static uint32_t story(uint32_t type, uint32_t wide, uint32_t size, const char *mask, const char *pattern) {
    filter f = {type, wide, size, {0}, {0}};
    memcpy(f.mask, mask, size), memcpy(f.pattern, pattern, size);
    return start(&f);
}

/* the bytes from..to of a type's map are this byte, and all others of it are zeros */
static void map_is(uint32_t type, uint32_t from, uint32_t to, uint8_t byte) {
    for (int k = 0; sides[k]; k++)
        for (uint32_t i = 0; i < MAP; i++)
            must(maps_of(k, 0)[(type - 1) * MAP + i] == (i >= from && i <= to ? byte : 0), "a map worked out by hand");
}

static void none_is(uint32_t type) { map_is(type, 0, MAP - 1, 0x00); }

static void stories(void) {
    uint32_t number;
    begin(NARROW);
    none_is(PASS), none_is(BLOCK);
    story(PASS, 0, 4, "\0\0\7\xF0", "\0\0\7\xE0");
    map_is(PASS, 252, 253, 0xFF), none_is(BLOCK);
    must(let_in(0, 0x7E8, NULL, 0), "0x7E8");
    number = story(BLOCK, 0, 4, "\xFF\xFF\xFF\xFF", "\0\0\7\xE8");
    map_is(PASS, 252, 253, 0xFF), map_is(BLOCK, 253, 253, 0x01);
    must(!let_in(0, 0x7E8, NULL, 0) && let_in(0, 0x7E9, NULL, 0), "0x7E8 is dropped, 0x7E9 is queued");
    stop(number);
    map_is(PASS, 252, 253, 0xFF), none_is(BLOCK);
    must(let_in(0, 0x7E8, NULL, 0), "0x7E8 again");
    no_filters(), story(PASS, 0, 1, "\xFF", "\0"), map_is(PASS, 0, 255, 0xFF);
    no_filters(), story(PASS, 0, 1, "\xFF", "\1"), none_is(PASS);
    no_filters(), story(PASS, 0, 1, "\0", "\0"), map_is(PASS, 0, 255, 0xFF);
    no_filters(), story(PASS, 0, 3, "\0\0\6", "\0\0\6"), map_is(PASS, 192, 255, 0xFF);
    no_filters(), story(PASS, 0, 4, "\0\0\7\0", "\0\0\7\xE8"), none_is(PASS); /* a bit of the pattern outside the mask */
    no_filters(), story(PASS, 0, 3, "\0\0\1", "\0\0\3"), none_is(PASS);
    no_filters(), story(PASS, 0, 4, "\0\0\7\xF8", "\0\0\1\1"), none_is(PASS);
    no_filters(), story(PASS, 0, 2, "\xFF\0", "\0\1"), none_is(PASS);
    no_filters(), story(PASS, 0, 3, "\0\0\x0F", "\0\0\x08"), none_is(PASS); /* no narrow identifier has that bit */
    no_filters(), story(PASS, 0, 5, "\0\0\0\0\0", "\0\0\0\0\0"), none_is(PASS);
    must(let_in(0, 0x123, (const uint8_t *)"\1", 1) && !let_in(0, 0x123, NULL, 0), "through the list");
    no_filters(), none_is(PASS), none_is(BLOCK);
}

/* wide filters have no bits, of any size; a channel that takes both widths has the bits of its narrow ones */
static void widths(void) {
    begin(BOTH);
    story(PASS, 1, 4, "\0\0\0\0", "\0\0\0\0"), none_is(PASS);
    must(let_in(1, 0x123, NULL, 0) && !let_in(0, 0x123, NULL, 0), "the wide one alone");
    story(PASS, 0, 4, "\0\0\7\xFF", "\0\0\1\x23"), map_is(PASS, 36, 36, 0x08);
    story(BLOCK, 1, 2, "\0\0", "\0\0"), none_is(BLOCK);
    must(!let_in(1, 0x123, NULL, 0) && let_in(0, 0x123, NULL, 0), "the narrow one alone");
}

/* the maps of each channel by itself; they are gone with it */
static void whose(void) {
    uint8_t every[RAW_RECORD];
    uint32_t v;
    record_at(every, RAW_RECORD, 5, 0, 0, 0, 0, 0, NULL, 0);
    EACH(power_on(MEMORY) == 0x00);
    for (uint32_t line = 0; line < 4; line++) {
        EACH(connect(MEMORY, line, 5, NARROW, 500000, &v) == 0x00);
        EACH(start_filter(MEMORY, line + 1, 1 + line % 2, every, RAW_RECORD, every, RAW_RECORD, NULL, 0, &v) == 0x00);
    }
    for (int k = 0; sides[k]; k++)
        for (uint32_t line = 0; line < 4; line++)
            for (uint32_t i = 0; i < MAPS; i++) must(maps_of(k, line)[i] == (i / MAP == line % 2 ? 0xFF : 0), "each channel's own maps");
    EACH(disconnect(MEMORY, 2) == 0x00);
    for (int k = 0; sides[k]; k++) must(all_zeros(maps_of(k, 1), MAPS) && !all_zeros(maps_of(k, 3), MAPS), "gone with the channel");
    EACH(connect(MEMORY, 1, 5, NARROW, 500000, &v) == 0x00);
    for (int k = 0; sides[k]; k++) must(all_zeros(maps_of(k, 1), MAPS), "and not there when it is connected again");
    EACH(close(MEMORY) == 0x00);
    for (int k = 0; sides[k]; k++) must(all_zeros(memories[k], TWIN_MEMORY), "gone with all");
}

/* a refused start or stop leaves the maps */
static void refused_ones(void) {
    filter f = {PASS, 0, 4, {0, 0, 7, 0xFF}, {0, 0, 1, 0}}, bad;
    uint32_t v;
    begin(NARROW);
    for (uint32_t i = 0; i < FILTERS; i++) f.pattern[3] = (uint8_t)(16 * i), start(&f);
    for (int k = 0; sides[k]; k++) must(asks(&f, k, &v) == 0x0C, "an eleventh filter");
    maps_are_right();
    stop(4);
    bad = f, bad.type = 3;
    for (int k = 0; sides[k]; k++) must(asks(&bad, k, &v) == 0x16, "another type");
    bad = f, bad.size = 13;
    for (int k = 0; sides[k]; k++) must(asks(&bad, k, &v) == 0x0A, "another size");
    bad = f, bad.wide = 1;
    for (int k = 0; sides[k]; k++) must(asks(&bad, k, &v) == 0x0A, "another width");
    EACH(stop_filter(MEMORY, 1, 4) == 0x16);
    EACH(clear(MEMORY, 1, 5) == 0x0F);
    maps_are_right();
    EACH(clear(MEMORY, 1, 3) == 0x00);
    EACH(clear(MEMORY, 1, 2) == 0x00);
    EACH(clear(MEMORY, 1, 1) == 0x00);
    maps_are_right();
}

/* ---- a bit that is turned over ---- */

enum { CALLS = 27 };
static uint8_t lent[2 * RECORD], lent_before[2 * RECORD];

/* call number n of a side on a memory, in good order but for the memory: its code; a number that comes back is v */
static uint32_t call(int k, int n, uint32_t *v) {
    const side *s = sides[k];
    struct twin_pair pair = {3, 1};
    uint8_t *b = lent, *c = lent + RECORD;
    switch (n) {
    case 0: return s->connect(MEMORY, 3, 5, NARROW, 500000, v);
    case 1: return s->disconnect(MEMORY, 1);
    case 2: return s->close(MEMORY);
    case 3: return s->advance(MEMORY, 1000);
    case 4: return s->frame(MEMORY, 0, 0, 0x7E8, b, 8);
    case 5: return s->start_filter(MEMORY, 1, PASS, b, RECORD, c, RECORD, NULL, 0, v);
    case 6: return s->start_filter(MEMORY, 5, 3, b, RECORD, c, RECORD, b, RECORD, v);
    case 7: return s->stop_filter(MEMORY, 1, 1);
    case 8: return s->start_periodic(MEMORY, 1, b, RECORD, 5, v);
    case 9: return s->stop_periodic(MEMORY, 1, 1);
    case 10: return s->write(MEMORY, 1, 1, b, RECORD, v);
    case 11: return s->read(MEMORY, 1, 1, b, RECORD, v);
    case 12: return s->take(MEMORY, 1, b, RECORD);
    case 13: return s->sent(MEMORY, 1);
    case 14: return s->clear(MEMORY, 1, 4);
    case 15: return s->get(MEMORY, 1, 1, v);
    case 16: return s->set(MEMORY, 1, 3, 1);
    case 17: return s->set_list(MEMORY, 1, &pair, 1);
    case 18: return s->get_list(MEMORY, 1, &pair, 1);
    case 19: return s->last_error(MEMORY, 1, v);
    case 20: return s->link_open(MEMORY, 1, 0x200, 0x01, 0x300, 0x01, 15, 0xFF, 0x00);
    case 21: return s->link_send(MEMORY, 1, b, 8);
    case 22: return s->link_receive(MEMORY, 1, b, RECORD, v);
    case 23: return s->link_end(MEMORY, 1);
    case 24: return s->decide(MEMORY, 1, 0, 0x7E8, v);
    case 25: return s->save(MEMORY, 1, b, RECORD, v);
    default: return s->load(MEMORY, 1, b, RECORD);
    }
}

static void is_refused(int k, int n) {
    uint32_t v = 0;
    must(call(k, n, &v) == 0x1A && v == 0, "0x1A");
    refusals++;
}

/* bit by bit over both maps of a line: not valid, 0x1A, and nothing changes; a bit of each byte is shown to every call, the others to a few */
static void each_bit(uint32_t line) {
    for (size_t i = 0; i < sizeof lent; i++) lent[i] = (uint8_t)any();
    memcpy(lent_before, lent, sizeof lent), memcpy(before, memories[0], TWIN_MEMORY);
    for (uint32_t bit = 0; bit < 8 * MAPS; bit++, turned++) {
        size_t at = TWIN_CLOCK + line * RAW_REGION + RAW_MAPS + bit / 8;
        before[at] ^= (uint8_t)(1u << bit % 8);
        for (int k = 0; sides[k]; k++) {
            memories[k][at] = before[at];
            must(!sides[k]->valid(MEMORY), "a bit that was turned over");
            for (int n = 0; n < CALLS; n++)
                if (bit % 8 == bit / 8 % 8 || n % 8 == (int)(bit % 8)) is_refused(k, n);
            must(memcmp(memories[k], before, TWIN_MEMORY) == 0 && memcmp(lent, lent_before, sizeof lent) == 0, "0x1A changed something");
        }
        before[at] ^= (uint8_t)(1u << bit % 8);
        for (int k = 0; sides[k]; k++) memories[k][at] = before[at];
    }
    EACH(valid(MEMORY));
}

/* on a channel with filters of both types; with those of the list alone; with none; that takes wide frames only; that is closed; on a listener */
static void bits(void) {
    begin(NARROW);
    story(PASS, 0, 4, "\0\0\7\xF0", "\0\0\7\xE0"), story(BLOCK, 0, 4, "\xFF\xFF\xFF\xFF", "\0\0\7\xE8"), story(PASS, 0, 2, "\0\0", "\0\0");
    each_bit(0);
    no_filters(), story(PASS, 0, 5, "\0\0\0\0\0", "\0\0\0\0\0"), each_bit(0);
    no_filters(), each_bit(0);
    begin(WIDE), story(PASS, 1, 4, "\0\0\0\0", "\0\0\0\0"), each_bit(0);
    each_bit(3);
    begin(LISTENER), story(PASS, 0, 4, "\0\0\7\xF0", "\0\0\7\xE0"), each_bit(0);
}

/* ---- random filters ---- */

static void some_filter(filter *f, uint32_t wide) {
    memset(f, 0, sizeof *f);
    f->type = chance(60) ? PASS : BLOCK, f->wide = wide, f->size = chance(70) ? 1 + below(ID) : ID + 1 + below(DATA);
    for (uint32_t i = 0; i < f->size; i++) {
        uint8_t limit = i < 2 && !wide ? 0 : i == 2 && !wide ? 7 : 0xFF; /* what a narrow identifier may have there */
        f->mask[i] = (uint8_t)(chance(30) ? 0xFF : chance(50) ? 0 : any() & any());
        f->pattern[i] = (uint8_t)(any() & f->mask[i] & (chance(97) ? limit : 0xFF));
        if (i >= ID) f->mask[i] &= 1, f->pattern[i] &= 1;
    }
    if (chance(12)) f->pattern[below(f->size)] ^= (uint8_t)(1u << below(8)); /* perhaps outside the mask */
}

/* one of the filters starts or stops, or all are cleared */
static void some_change(uint32_t flags) {
    filter f;
    uint32_t holds = 0, number = 1 + below(FILTERS);
    for (int i = 0; i < FILTERS; i++) holds += held[i].type != 0;
    if (chance(4)) {
        no_filters();
    } else if (held[number - 1].type && (holds == FILTERS || chance(40))) {
        stop(number);
    } else if (holds < FILTERS) {
        some_filter(&f, flags == BOTH ? chance(30) : flags == WIDE);
        start(&f);
    }
}

static void random_sets(uint32_t rounds) {
    uint32_t flags = NARROW;
    for (uint32_t r = 0; r < rounds; r++, sets++) {
        if (r % 2 == 0) flags = ONE_OF(NARROW, NARROW, BOTH, BOTH, BOTH, WIDE), begin(flags | ONE_OF(0, 0, 0, LISTENER));
        for (uint32_t k = 1 + below(12); k > 0; k--) some_change(flags);
        for (uint32_t id = 0; id < IDENTIFIERS; id++) frame_is_right(0, id);
        for (uint32_t k = 0; k < 64; k++) frame_is_right(1, any() & (chance(50) ? 0x1FFFFFFF : 0x7FF));
        for (int k = 0; sides[k]; k++) must(memcmp(memories[k], memories[0], TWIN_MEMORY) == 0, "the sides' memories, after frames");
    }
}

int main(int argc, char **argv) {
    uint32_t rounds = argc > 2 ? (uint32_t)strtoul(argv[2], NULL, 10) : 1;
    seed = argc > 1 ? strtoull(argv[1], NULL, 10) : 1;
    if (seed == 0) seed = 1;
    stories();
    widths();
    whose();
    refused_ones();
    bits();
    random_sets(40 * (rounds ? rounds : 1));
    printf("maps of narrow filters: %lu bits turned over, %lu refusals; %lu sets of filters, the maps right after each of %lu changes; %lu frames\n",
           turned, refusals, sets, changes, frames);
    return 0;
}
