/* The decision on the identifier alone: `decide [SEED [ROUNDS]]`. Stories worked out by hand, then random filters. Every answer is asked of all sides
 * (iso_side.h), which must agree, change nothing, and say what frames say: where the answer is passes or dropped, frames of every length have that
 * verdict; where the data must be seen, two frames that differ are found. Where the filters look at few bits all data are tried. */
#include <stdio.h>
#include <stdlib.h>
#include <string.h>

#include "hardest.h"
#include "iso_side.h"
#include "random.h"

enum { DROPPED, PASSES, MUST_SEE, ANSWERS };
enum { PASS = 1, BLOCK = 2, FILTERS = 10, ROW = 12, ID = 4, DATA = 8, FEW = 10, LISTENER = 0x10000000 };

static uint8_t memories[2][TWIN_MEMORY], before[2][TWIN_MEMORY];
static unsigned long asked, offered, counted[ANSWERS], exact[ANSWERS], together, found, sets;

static void must(int true_, const char *what) {
    if (true_) return;
    fprintf(stderr, "decide: %s, set %lu, answer %lu\n", what, sets, asked);
    exit(1);
}

/* ---- all sides ---- */

static void keep(void) {
    for (int k = 0; sides[k]; k++) memcpy(before[k], memories[k], TWIN_MEMORY);
}

static int stays(void) {
    for (int k = 0; sides[k]; k++)
        if (memcmp(before[k], memories[k], TWIN_MEMORY)) return 0;
    return 1;
}

/* the code and the answer of all sides */
static uint32_t decides(uint32_t channel, uint32_t wide, uint32_t id, uint32_t *answer) {
    uint32_t code = 0, other;
    for (int k = 0; sides[k]; k++) {
        uint32_t given = sides[k]->decide(memories[k], TWIN_MEMORY, channel, wide, id, (other = 77, &other));
        if (k == 0) code = given, *answer = other;
        must(given == code && other == *answer, "the sides differ");
    }
    asked++;
    return code;
}

/* the answer on channel 1: nothing changes */
static uint32_t answer_for(uint32_t wide, uint32_t id) {
    uint32_t answer;
    keep();
    must(decides(1, wide, id, &answer) == 0x00 && answer < ANSWERS, "an answer");
    must(stays(), "an answer changed something");
    return answer;
}

/* a frame on line 0: is it let in? The queue is empty before and after */
static int let_in(uint32_t wide, uint32_t id, const uint8_t *data, uint32_t n) {
    uint8_t record[RAW_RECORD];
    uint32_t count = 0, first = 0;
    for (int k = 0; sides[k]; k++) {
        must(sides[k]->frame(memories[k], TWIN_MEMORY, 0, wide, id, data, n) == 0x00, "a frame");
        sides[k]->read(memories[k], TWIN_MEMORY, 1, 1, record, sizeof record, &count);
        must(k == 0 || count == first, "the sides' frames differ");
        if (count) must(is_raw_record(record, wide ? 256 : 0, 0, 0, id, data, n), "the frame that was let in");
        first = count;
    }
    offered++;
    return first == 1;
}

static void begin(uint32_t flags) {
    uint32_t channel;
    for (int k = 0; sides[k]; k++) {
        must(sides[k]->power_on(memories[k], TWIN_MEMORY) == 0x00, "power-on");
        must(sides[k]->connect(memories[k], TWIN_MEMORY, 0, 5, flags, 500000, &channel) == 0x00 && channel == 1, "connect");
    }
}

/* ---- filters: kept here too, so that frames can be judged a third time ---- */

typedef struct {
    uint32_t type, wide, size;
    uint8_t mask[ROW], pattern[ROW];
} filter;

static filter held[FILTERS];
static uint32_t holds;

static void start(const filter *f) {
    uint8_t mask[RAW_RECORD] = {0}, pattern[RAW_RECORD] = {0};
    uint32_t number;
    put_word(mask, 5), put_word(mask + 8, f->wide ? 256 : 0), put_word(mask + 16, f->size), memcpy(mask + 24, f->mask, ROW);
    put_word(pattern, 5), put_word(pattern + 8, f->wide ? 256 : 0), put_word(pattern + 16, f->size), memcpy(pattern + 24, f->pattern, ROW);
    for (int k = 0; sides[k]; k++) {
        uint32_t code = sides[k]->start_filter(memories[k], TWIN_MEMORY, 1, f->type, mask, RAW_RECORD, pattern, RAW_RECORD, NULL, 0, &number);
        must(code == 0x00 && number == holds + 1, "a filter");
    }
    held[holds++] = *f;
}

static void no_filters(void) {
    for (int k = 0; sides[k]; k++) must(sides[k]->clear(memories[k], TWIN_MEMORY, 1, 4) == 0x00, "clear");
    holds = 0;
}

static int matches(const filter *f, uint32_t wide, const uint8_t *frame, uint32_t n) {
    if (f->wide != wide || f->size > n) return 0;
    for (uint32_t i = 0; i < f->size; i++)
        if ((frame[i] & f->mask[i]) != f->pattern[i]) return 0;
    return 1;
}

/* the verdict on n bytes, by the rule as it stands in the header; of the block filters only those whose bit is set count */
static int verdict(uint32_t wide, const uint8_t *frame, uint32_t n, uint32_t blocks) {
    int in = 0;
    for (uint32_t i = 0; i < holds; i++) {
        if (!matches(&held[i], wide, frame, n)) continue;
        if (held[i].type == PASS) in = 1;
        else if (blocks >> i & 1) return 0;
    }
    return in;
}

/* ---- stories by hand: those of the request's readings ---- */

static void story_filter(uint32_t type, uint32_t wide, uint32_t size, const char *mask, const char *pattern) {
    filter f = {type, wide, size, {0}, {0}};
    memcpy(f.mask, mask, size), memcpy(f.pattern, pattern, size);
    start(&f);
}

#define ZEROS "\0\0\0\0\0\0\0\0\0\0\0\0"
#define SAYS(answer, wide, id) must(answer_for(wide, id) == (answer), #answer " for " #wide ", " #id)
#define ANEW (no_filters())

static void first_story(void) {
    SAYS(DROPPED, 0, 0x001), SAYS(DROPPED, 1, 0x001); /* no filter */
    story_filter(PASS, 0, 1, ZEROS, ZEROS);
    SAYS(PASSES, 0, 0x001), SAYS(PASSES, 0, 0x7FF), SAYS(DROPPED, 1, 0x001), SAYS(DROPPED, 1, 0x1FFFFFFF);
    ANEW, story_filter(PASS, 0, 4, "\0\0\7\0", "\0\0\7\xE8"); /* a bit of the pattern outside the mask */
    SAYS(DROPPED, 0, 0x001), SAYS(DROPPED, 0, 0x7E8), SAYS(DROPPED, 0, 0x700);
    ANEW, story_filter(BLOCK, 0, 1, ZEROS, ZEROS);
    SAYS(DROPPED, 0, 0x001);
}

static void long_and_short(void) {
    ANEW, story_filter(PASS, 0, 5, ZEROS, ZEROS);
    SAYS(MUST_SEE, 0, 0x001); /* the frame without data doesn't match */
    story_filter(BLOCK, 0, 5, ZEROS, ZEROS);
    SAYS(DROPPED, 0, 0x001);
    ANEW, story_filter(PASS, 0, 1, ZEROS, ZEROS), story_filter(BLOCK, 0, 5, ZEROS, ZEROS);
    SAYS(MUST_SEE, 0, 0x001);
    ANEW, story_filter(PASS, 0, 1, ZEROS, ZEROS), story_filter(BLOCK, 0, 2, ZEROS, ZEROS);
    SAYS(DROPPED, 0, 0x001);
    ANEW, story_filter(PASS, 0, 12, ZEROS, ZEROS), story_filter(BLOCK, 0, 12, ZEROS, ZEROS);
    SAYS(DROPPED, 0, 0x001);
    ANEW, story_filter(PASS, 0, 11, ZEROS, ZEROS), story_filter(BLOCK, 0, 12, ZEROS, ZEROS);
    SAYS(MUST_SEE, 0, 0x001);
    ANEW, story_filter(PASS, 0, 4, ZEROS, ZEROS), story_filter(BLOCK, 0, 5, ZEROS, "\0\0\0\0\1"); /* a block filter that matches nothing */
    SAYS(PASSES, 0, 0x001);
}

static void by_both_together(void) {
    ANEW, story_filter(PASS, 0, 5, "\0\0\0\0\x0F", "\0\0\0\0\5");
    SAYS(MUST_SEE, 0, 0x001);
    story_filter(BLOCK, 0, 5, "\0\0\0\0\x80", "\0\0\0\0\x80");
    SAYS(MUST_SEE, 0, 0x001);
    story_filter(BLOCK, 0, 5, "\0\0\0\0\x80", ZEROS);
    SAYS(DROPPED, 0, 0x001);
    ANEW, story_filter(PASS, 0, 6, "\0\0\0\0\xFF\xFF", "\0\0\0\0\1\2"), story_filter(BLOCK, 0, 7, "\0\0\0\0\0\xFF\0", "\0\0\0\0\0\2\0");
    SAYS(MUST_SEE, 0, 0x001); /* the block filter needs a third byte */
    ANEW, story_filter(PASS, 0, 6, "\0\0\0\0\xFF\xFF", "\0\0\0\0\1\2"), story_filter(BLOCK, 0, 6, "\0\0\0\0\0\xFF", "\0\0\0\0\0\2");
    SAYS(DROPPED, 0, 0x001);
}

/* nine block filters that keep a pass filter out; with any of them missing there are data that are let in */
static void hard(void) {
    for (int without = 0; without <= HARDEST; without++) {
        ANEW;
        for (int i = 0; i < HARDEST; i++) {
            filter f = {hardest[i].type, 0, HARDEST_SIZE, {0}, {0}};
            memcpy(f.mask + ID, hardest[i].mask, HARDEST_DATA), memcpy(f.pattern + ID, hardest[i].pattern, HARDEST_DATA);
            if (i != without) start(&f);
        }
        must(answer_for(0, 0x001) == (without < HARDEST && hardest[without].type == BLOCK ? MUST_SEE : DROPPED), "the hardest filters");
    }
}

/* each width and each identifier by itself */
static void whose(void) {
    ANEW, story_filter(PASS, 0, 4, "\0\0\7\xFF", "\0\0\7\xE8"), story_filter(PASS, 1, 4, "\xFF\xFF\xFF\xFF", "\0\0\7\xE9");
    story_filter(BLOCK, 1, 6, "\0\0\0\0\0\1", "\0\0\0\0\0\1");
    SAYS(PASSES, 0, 0x7E8), SAYS(DROPPED, 0, 0x7E9), SAYS(DROPPED, 1, 0x7E8), SAYS(MUST_SEE, 1, 0x7E9), SAYS(DROPPED, 1, 0x100007E9);
}

static void stories(void) {
    begin(0x800), holds = 0;
    first_story();
    long_and_short();
    by_both_together();
    hard();
    whose();
}

/* ---- codes ---- */

static uint32_t last_code(void) {
    uint32_t code = 77;
    must(sides[0]->last_error(memories[0], TWIN_MEMORY, 1, &code) == 0x00, "asked for the last code");
    return code;
}

/* a refusal: no answer, and nothing changes but the last code of channel 1, where it is noted */
static void refused(uint32_t code, uint32_t channel, uint32_t wide, uint32_t id) {
    uint32_t answer;
    keep();
    must(decides(channel, wide, id, &answer) == code && answer == 0, "a refusal");
    for (int k = 0; sides[k]; k++)
        if (code == 0x0A) before[k][4 + sides[k]->last] = 0x0A;
    must(stays(), "a refusal changed something");
}

static void codes(void) {
    static const uint32_t none[] = {0, 2, 4, 5, 6, 8, 9, 257, 0x10001, 0xFFFFFFFF}; /* 5 is open */
    uint32_t v;
    begin(0x800), holds = 0;
    for (int k = 0; sides[k]; k++) must(sides[k]->connect(memories[k], TWIN_MEMORY, 0, 6, 0, 500000, &v) == 0x00 && v == 5, "channel 5");
    for (size_t i = 0; i < sizeof none / sizeof *none; i++)
        refused(0x02, none[i], 0, 0x001), refused(0x02, none[i], 2, 0x001);
    must(last_code() == 0x00, "0x02 is not noted");
    refused(0x0A, 1, 2, 0x001), refused(0x0A, 1, 256, 0x001), refused(0x0A, 1, 0xFFFFFFFF, 0);
    refused(0x0A, 1, 0, 0x800), refused(0x0A, 1, 0, 0xFFFFFFFF), refused(0x0A, 1, 1, 0x20000000), refused(0x0A, 1, 1, 0xFFFFFFFF);
    must(last_code() == 0x0A, "0x0A is noted");
    SAYS(DROPPED, 0, 0x7FF), SAYS(DROPPED, 1, 0x1FFFFFFF);
    must(last_code() == 0x0A, "0x00 leaves it");
    for (int k = 0; sides[k]; k++) memories[k][4] = 2; /* a mark that is neither 0 nor 1 */
    refused(0x1A, 1, 0, 0x001), refused(0x1A, 9, 2, 0x001);
    for (int k = 0; sides[k]; k++) {
        must(sides[k]->decide(memories[k], TWIN_MEMORY - 1, 1, 0, 0, (v = 77, &v)) == 0x1A && v == 0, "another length");
        must(sides[k]->decide(NULL, 0, 1, 0, 0, (v = 77, &v)) == 0x1A && v == 0, "no memory");
    }
}

/* ---- what plays no part, and what dropped doesn't say ---- */

static void no_part(uint32_t flags) {
    uint32_t wide_only = (flags & 0x100) != 0;
    begin(flags), holds = 0;
    story_filter(PASS, wide_only, 1, ZEROS, ZEROS);
    SAYS(wide_only ? DROPPED : PASSES, 0, 0x123), SAYS(wide_only ? PASSES : DROPPED, 1, 0x123); /* a width that isn't taken is dropped */
    for (int k = 0; sides[k]; k++) {
        for (int i = 0; i < 33; i++) sides[k]->frame(memories[k], TWIN_MEMORY, 0, wide_only, 0x123, NULL, 0);
        sides[k]->set(memories[k], TWIN_MEMORY, 1, 3, 1);
    }
    SAYS(wide_only ? DROPPED : PASSES, 0, 0x123), SAYS(wide_only ? PASSES : DROPPED, 1, 0x123); /* nor does a full queue count */
}

/* the raw filters drop what a TP2.0 connection and an ISO 15765 channel need */
static void still_needed(void) {
    uint8_t mask[RECORD], pattern[RECORD], flow[RECORD], out[RECORD];
    uint32_t v;
    begin(0), holds = 0;
    record_at(mask, RECORD, 6, 0, 0, 0, 0, 0xFFFFFFFF, NULL, 0), record_at(pattern, RECORD, 6, 0, 0, 0, 0, 0x641, NULL, 0);
    record_at(flow, RECORD, 6, 0, 0, 0, 0, 0x241, NULL, 0);
    for (int k = 0; sides[k]; k++) {
        must(sides[k]->link_open(memories[k], TWIN_MEMORY, 1, 0x200, 0x01, 0x300, 0x01, 15, 0xFF, 0x00) == 0x00, "link open");
        must(sides[k]->connect(memories[k], TWIN_MEMORY, 0, 6, 0, 500000, &v) == 0x00, "channel 5");
        must(sides[k]->start_filter(memories[k], TWIN_MEMORY, 5, 3, mask, RECORD, pattern, RECORD, flow, RECORD, &v) == 0x00, "a conversation");
    }
    SAYS(DROPPED, 0, 0x201), SAYS(DROPPED, 0, 0x300), SAYS(DROPPED, 0, 0x641);
    for (int k = 0; sides[k]; k++) {
        sides[k]->frame(memories[k], TWIN_MEMORY, 0, 0, 0x201, (const uint8_t *)"\0\xD0\0\3\x40\7\1", 7);
        sides[k]->frame(memories[k], TWIN_MEMORY, 0, 0, 0x300, (const uint8_t *)"\xA1\x0F\x8A\xFF\0\xFF", 6);
        must(sides[k]->link_receive(memories[k], TWIN_MEMORY, 1, out, sizeof out, &v) == 0x10, "the connection stands by frames that are dropped");
        sides[k]->frame(memories[k], TWIN_MEMORY, 0, 0, 0x641, (const uint8_t *)"\1\2", 2);
        must(sides[k]->read(memories[k], TWIN_MEMORY, 5, 1, out, sizeof out, &v) == 0x00 && v == 1, "a message by a frame that is dropped");
    }
}

/* ---- random filters ---- */

static uint32_t its_wide, its_id; /* of the frames asked about */
static uint8_t pool[64];          /* data bits that masks look at, by place */
static uint32_t pool_size;

static void put_bit(uint8_t *row, uint32_t place, int value) {
    uint8_t bit = (uint8_t)(1u << place % 8);
    row[ID + place / 8] = (uint8_t)(value ? row[ID + place / 8] | bit : row[ID + place / 8] & ~bit);
}

static void some_pool(uint32_t most) {
    uint32_t bytes = most > FEW ? DATA : 1 + below(DATA);
    pool_size = 1 + below(most);
    for (uint32_t i = 0; i < pool_size; i++) pool[i] = (uint8_t)below(8 * bytes);
}

/* the identifier's four bytes: most filters agree with it */
static void some_identifier(filter *f) {
    uint32_t mask = ONE_OF(0, 0, 0x7FF, 0x700, 0xFFFFFFFF), pattern = its_id & mask;
    if (chance(8)) pattern ^= 1u << below(11);
    for (int i = 0; i < ID; i++) f->mask[i] = (uint8_t)(mask >> (24 - 8 * i)), f->pattern[i] = (uint8_t)(pattern >> (24 - 8 * i));
}

static void cut(filter *f) {
    memset(f->mask + f->size, 0, ROW - f->size), memset(f->pattern + f->size, 0, ROW - f->size);
}

static void some_filter(filter *f, uint32_t blocks) {
    memset(f, 0, sizeof *f);
    f->type = chance(blocks) ? BLOCK : PASS, f->wide = chance(92) ? its_wide : !its_wide;
    f->size = chance(15) ? 1 + below(4) : pool_size > FEW ? ROW : chance(50) ? ID + DATA : ID + 1 + below(DATA);
    some_identifier(f);
    for (uint32_t k = below(pool_size > FEW ? 12 : 5); k > 0; k--) {
        uint32_t place = pool[below(pool_size)];
        put_bit(f->mask, place, 1), put_bit(f->pattern, place, chance(50));
    }
    if (chance(3)) put_bit(f->pattern, pool[below(pool_size)], 1); /* perhaps outside the mask */
    cut(f);
}

static void some_filters(void) {
    uint32_t n = 1 + below(FILTERS), blocks = ONE_OF(0, 0, 20, 50, 80);
    filter f;
    for (uint32_t i = 0; i < n; i++) some_filter(&f, blocks), start(&f);
}

/* block filters that keep a cube of data out only together: it is cut in two at a bit, and a part again, until it is cut enough */
static void cut_up(filter *cube, uint32_t parts) {
    uint32_t place = pool[below(pool_size)], one;
    if (parts <= 1 || (cube->mask[ID + place / 8] >> place % 8 & 1)) {
        filter f = *cube;
        f.type = BLOCK, f.size = chance(90) ? cube->size : ID + 1 + below(DATA);
        cut(&f);
        if (chance(96)) start(&f);
        return;
    }
    one = 1 + below(parts - 1);
    put_bit(cube->mask, place, 1);
    put_bit(cube->pattern, place, 1), cut_up(cube, one);
    put_bit(cube->pattern, place, 0), cut_up(cube, parts - one);
    put_bit(cube->mask, place, 0);
}

static void covered_filters(void) {
    filter pass;
    some_filter(&pass, 0);
    pass.wide = its_wide, start(&pass);
    if (chance(20)) some_filter(&pass, 0), start(&pass);
    cut_up(&pass, 1 + below(FILTERS - holds));
}

/* ---- what the answer must be ---- */

/* the places of data bits that a filter of the width looks at, at most `most`; more are counted */
static uint32_t looked_at(uint8_t *places, uint32_t most) {
    uint32_t n = 0;
    for (uint32_t place = 0; place < 8 * DATA; place++) {
        uint32_t mask = 0;
        for (uint32_t i = 0; i < holds; i++)
            if (held[i].wide == its_wide) mask |= held[i].mask[ID + place / 8] >> place % 8 & 1u;
        if (mask && n < most) places[n] = (uint8_t)place;
        n += mask;
    }
    return n;
}

static uint8_t examples[2][ROW];       /* a frame that is kept out, one that is let in */
static uint32_t example_n[2], example; /* their lengths; which there are, by bits */

static void note_example(const uint8_t *frame, uint32_t n, uint32_t blocks) {
    int in = verdict(its_wide, frame, n, blocks);
    if (!(example >> in & 1)) memcpy(examples[in], frame, ROW), example_n[in] = n;
    example |= 1u << in;
}

/* Every data of the bits that some filter looks at, in every length: the others play no part in any match. */
static void try_all(const uint8_t *places, uint32_t few, uint32_t blocks) {
    uint8_t frame[ROW] = {0};
    for (int i = 0; i < ID; i++) frame[i] = (uint8_t)(its_id >> (24 - 8 * i));
    example = 0;
    for (uint32_t data = 0; data < 1u << few; data++) {
        for (uint32_t i = 0; i < few; i++) put_bit(frame, places[i], data >> i & 1);
        for (uint32_t n = ID; n <= ROW; n++) note_example(frame, n, blocks);
    }
}

static uint32_t by_examples(void) { return example == 3 ? MUST_SEE : example == 2 ? PASSES : DROPPED; }

/* is it dropped by no block filter alone? */
static int by_none_alone(const uint8_t *places, uint32_t few) {
    for (uint32_t i = 0; i < holds; i++) {
        if (held[i].type != BLOCK) continue;
        try_all(places, few, 1u << i);
        if (by_examples() == DROPPED) return 0;
    }
    return 1;
}

/* data near what a filter wants */
static void some_frame(uint8_t *frame) {
    const filter *f = &held[below(holds)];
    for (int i = 0; i < ID; i++) frame[i] = (uint8_t)(its_id >> (24 - 8 * i));
    for (uint32_t i = ID; i < ROW; i++) frame[i] = (uint8_t)((f->pattern[i] & f->mask[i]) | (any() & ~(uint32_t)f->mask[i]));
    for (uint32_t k = below(3); k > 0; k--) frame[ID + below(DATA)] ^= (uint8_t)(1u << below(8));
}

/* frames of every length agree with the answer; where it is must see, both verdicts are looked for, and offered where they were found */
static void frames_agree(uint32_t answer) {
    uint8_t frame[ROW];
    for (uint32_t n = ID; n <= ROW; n++)
        for (int k = 0; k < 4; k++) {
            int in;
            some_frame(frame);
            in = let_in(its_wide, its_id, frame + ID, n - ID);
            must(in == verdict(its_wide, frame, n, ~0u), "a frame's verdict");
            must(answer == MUST_SEE || in == (answer == PASSES), "a frame against the answer");
            note_example(frame, n, ~0u);
        }
    if (answer != MUST_SEE) return;
    for (uint32_t k = 0; k < 20000 && example != 3; k++) some_frame(frame), note_example(frame, ID + below(DATA + 1), ~0u);
    if (example != 3) return;
    found++;
    for (int in = 0; in < 2; in++)
        must(let_in(its_wide, its_id, examples[in] + ID, example_n[in] - ID) == in, "two frames that differ");
}

static void look(void) {
    uint8_t places[FEW];
    uint32_t answer = answer_for(its_wide, its_id), few = looked_at(places, FEW);
    counted[answer]++;
    example = 0;
    if (few <= FEW) {
        try_all(places, few, ~0u);
        must(answer == by_examples(), "the answer, against all data");
        exact[answer]++;
        if (answer == DROPPED) {
            try_all(places, few, 0);
            if (example != 1) together += (unsigned long)by_none_alone(places, few);
            example = 0;
        }
    }
    if (holds) frames_agree(answer);
}

static void random_sets(uint32_t rounds) {
    for (uint32_t r = 0; r < rounds; r++, sets++) {
        if (r % 50 == 0) begin(ONE_OF(0x800, 0x900) | ONE_OF(0, 0, 0, LISTENER)), holds = 0;
        no_filters();
        its_wide = below(2), its_id = its_wide ? ONE_OF(0x18DAF110, 0x1FFFFFFF, 0x7E8, 0) : ONE_OF(0x7E8, 0x001, 0x7FF, 0);
        some_pool(chance(85) ? FEW : 64);
        if (chance(40)) covered_filters();
        else some_filters();
        look();
        if (chance(20)) its_id ^= 1, look(), its_id ^= 1;
        its_wide = !its_wide;
        if (chance(20) && (its_wide || its_id <= 0x7FF)) look();
    }
}

int main(int argc, char **argv) {
    uint32_t rounds = argc > 2 ? (uint32_t)strtoul(argv[2], NULL, 10) : 1;
    seed = argc > 1 ? strtoull(argv[1], NULL, 10) : 1;
    if (seed == 0) seed = 1;
    stories();
    codes();
    no_part(0), no_part(0x100), no_part(LISTENER), no_part(LISTENER | 0x100);
    still_needed();
    random_sets(400 * (rounds ? rounds : 1));
    must(found == counted[MUST_SEE], "two frames that differ were not found");
    printf("decided on the identifier alone: %lu answers; of %lu sets of filters dropped %lu, passes %lu, must see %lu, against all data %lu, %lu, "
           "%lu; dropped by no block filter alone %lu; %lu frames offered\n",
           asked, sets, counted[DROPPED], counted[PASSES], counted[MUST_SEE], exact[DROPPED], exact[PASSES], exact[MUST_SEE], together, offered);
    return 0;
}
