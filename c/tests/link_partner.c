/* Modules at the other end of TP2.0 connections: `link_partner [SEED [ROUNDS]]`. Each story has four lines, a connection on each and a module, the
 * passive side by SAE J2819: it answers, puts together what it hears and says messages of its own; in rough stories it is also late or silent, misses
 * telegrams, asks for them again, is not ready, breaks off, tests, refuses and disconnects. Beside it stands what the box must do, reckoned in times of
 * the clock and places in whole messages: each take must give just what is due, each call its code. What is sent must be what the module puts
 * together, what it says must be what is received. Everything is repeatable; a story is told to every side there is. */
#include <stdio.h>
#include <stdlib.h>
#include <string.h>

#include "iso_side.h"
#include "random.h"

enum { LINES = 4, LATER = 8, OPEN_TIME = 100000, WAIT_TIME = 100000, TEST_TIME = 1000000 };

/* ---- what the box must do ---- */

typedef struct {
    uint32_t own, to, rx, application, size, t1, t3; /* as it was opened */
    enum { GONE, SETS_UP, JOINS, OPEN, PARTS } state;
    uint32_t tx;
    enum { WAITS, AIRBORNE, RUNS } trial; /* of its opening telegram */
    unsigned tries;
    uint64_t trial_end;
    uint32_t block;
    uint64_t gap, free_at, wait_end; /* T3; no telegram before; no data before */
    int behind;                      /* it parts, and a telegram of it is still in flight */
    int answers, tests, clocked;     /* what waits; whether T_CTa runs */
    unsigned missed;
    uint64_t test_end;
    enum { IDLE, SENDS, ASKS } out;
    uint8_t text[MESSAGE];
    uint32_t n, total, first, next, sn; /* the message: bytes, telegrams, where the block begins, what is next; the SN of its first telegram */
    int cut;
    unsigned repeats, again;
    uint64_t t1_end;
    uint32_t in_n, expected;
    uint8_t in[MESSAGE];
    int whole;
    enum { QUIET, NOT_READY, READY } acknowledges;
} link;

/* ---- the module ---- */

typedef struct {
    uint64_t at;
    uint32_t id, n;
    uint8_t b[8];
} saying;

typedef struct {
    enum { DEAF, CHANNEL, LINKED } state;
    int shy;           /* it doesn't acknowledge the connection */
    uint32_t rx, size; /* it says with this identifier; its block size */
    uint8_t t3;
    saying later[LATER]; /* what it will say, and when */
    unsigned waiting;
    uint32_t expected, heard_n, run; /* of what it hears; telegrams since one asked */
    uint8_t heard[MESSAGE];
    int broke;    /* it broke the message off */
    int says;     /* of what it says: bytes, telegrams, block, what is next, whether it waits for an acknowledge, since when */
    uint8_t text[MESSAGE + 1];
    uint32_t n, total, first, next, most, sn;
    int awaits;
    uint64_t since, hold;
} module;

typedef struct {
    link box;
    module module;
    uint32_t channel, last, plain; /* the last code; plain records written */
    int there, mine, kind;         /* the flight: whether it is the connection's, and what of it */
    uint8_t record[RAW_RECORD];
    int listens; /* the raw channel has a filter that lets everything in */
    int mute, stubborn; /* the module neither hears nor says anything; it wants each telegram that asks again */
} line;

enum { TRIAL, DATA, TEST, OTHER, BYE };

static const side *on;
static uint8_t box[BOX_MOST], lent[8 * RAW_RECORD], got[MESSAGE];
static line lines[LINES];
static uint64_t now;
static uint32_t v;
static int rough;
static unsigned long turn, stories, calls, frames, went[MESSAGE + 2], came[MESSAGE + 2];
static struct {
    unsigned long opened, refused[3], no_reply, no_join, t1_again, t1_end, asked_again, asked_end, waits, broken, tests, test_end, answers, too_long,
        parted, cut_off, four, missed, noise;
} did;

static void fail(const char *what, int at) {
    fprintf(stderr, "link_partner: %s: %s, line %d, story %lu, turn %lu\n", on->name, what, at, stories, turn);
    exit(1);
}

#define MUST(what) ((what) ? (void)0 : fail(#what, __LINE__))
#define BOX box, on->memory

/* a call on the line's channel is answered so, and that is its last code */
static void answered(line *l, uint32_t code, uint32_t expected, int at) {
    calls++;
    if (code != expected) fprintf(stderr, "link_partner: 0x%02X and not 0x%02X\n", (unsigned)code, (unsigned)expected), fail("a code", at);
    if (code) l->last = code;
}

#define ANSWER(l, code, call) answered(l, call, code, __LINE__)
#define DONE(call) ((call) == 0 ? (void)calls++ : fail(#call, __LINE__))

static uint64_t micros(uint32_t byte) {
    static const uint32_t unit[4] = {100, 1000, 10000, 100000};
    return (uint64_t)unit[byte / 64] * (byte % 64);
}

static void fill_with(uint8_t *b, uint32_t n) {
    for (uint32_t i = 0; i < n; i++) b[i] = (uint8_t)any();
}

static uint32_t less(uint32_t a, uint32_t b) { return a < b ? a : b; }

/* ---- the connection: ends ---- */

static void gone(line *l) {
    memset(&l->box, 0, sizeof l->box);
    l->mine = 0;
}

static void parts(line *l) {
    uint32_t tx = l->box.tx;
    uint64_t gap = l->box.gap, free_at = l->box.state == OPEN ? l->box.free_at : 0;
    int behind = l->box.state == OPEN && l->there && l->mine;
    gone(l);
    l->mine = behind;
    l->box.state = PARTS, l->box.tx = tx, l->box.gap = gap, l->box.free_at = free_at, l->box.behind = behind;
    did.parted++;
}

/* ---- the connection: time ---- */

static void trial_passes(line *l) {
    link *c = &l->box;
    if (c->trial != RUNS || now < c->trial_end) return;
    if (c->tries == 10) {
        if (c->state == SETS_UP) did.no_reply++, gone(l);
        else did.no_join++, parts(l);
        return;
    }
    c->tries++, c->trial = WAITS;
}

static void standing_passes(line *l) {
    link *c = &l->box;
    int over = 0;
    if (c->out == ASKS && c->t1 != 0xFF && now >= c->t1_end) {
        if (c->repeats == 2) over = 1, did.t1_end++;
        else c->repeats++, c->next--, c->out = SENDS, did.t1_again++;
    }
    if (c->clocked && now >= c->test_end) {
        if (c->missed == 6) over = 1, did.test_end++;
        c->clocked = 0, c->tests = 1, c->missed += c->missed > 0;
    }
    if (over) parts(l);
}

static void pass(uint32_t us) {
    DONE(on->advance(BOX, us));
    now += us;
    for (int i = 0; i < LINES; i++) {
        if (lines[i].box.state == SETS_UP || lines[i].box.state == JOINS) trial_passes(&lines[i]);
        else if (lines[i].box.state == OPEN) standing_passes(&lines[i]);
    }
}

/* ---- the connection: what may go ---- */

static uint32_t ours(const link *c, uint8_t first, uint8_t *b) {
    b[0] = first, b[1] = (uint8_t)c->size, b[2] = (uint8_t)c->t1, b[3] = 0xFF, b[4] = (uint8_t)c->t3, b[5] = 0xFF;
    return 6;
}

static uint32_t data_due(link *c, uint8_t *b) {
    uint32_t n = c->cut ? 0 : less(7, c->n - 7 * c->next);
    if (c->out != SENDS || now < c->wait_end) return 0;
    b[0] = (uint8_t)((c->sn + c->next) % 16);
    if (c->next + 1 == c->total) b[0] |= 0x10;
    else if (c->next + 1 - c->first < c->block) b[0] |= 0x20;
    memcpy(b + 1, c->text + 7 * c->next, n);
    c->next++;
    return 1 + n;
}

/* its kind in *kind; 0 bytes where none may go */
static uint32_t due(link *c, uint8_t *b, int *kind) {
    *kind = OTHER;
    if (c->state == SETS_UP || c->state == JOINS) {
        *kind = TRIAL;
        if (c->trial != WAITS) return 0;
        c->trial = AIRBORNE;
        if (c->state == JOINS) return ours(c, 0xA0, b);
        b[0] = (uint8_t)c->to, b[1] = 0xC0, b[2] = 0, b[3] = 0x10, b[4] = (uint8_t)c->rx, b[5] = (uint8_t)(c->rx >> 8), b[6] = (uint8_t)c->application;
        return 7;
    }
    if (c->state == GONE || now < c->free_at || c->behind) return 0;
    if (c->state == PARTS) return *kind = BYE, b[0] = 0xA8, 1;
    if (c->answers) return c->answers = 0, did.answers++, ours(c, 0xA1, b);
    if (c->tests) return c->tests = 0, *kind = TEST, b[0] = 0xA3, 1;
    if (c->acknowledges) {
        b[0] = (uint8_t)((c->acknowledges == READY ? 0xB0 : 0x90) + c->expected), c->acknowledges = QUIET;
        return 1;
    }
    *kind = DATA;
    return data_due(c, b);
}

/* ---- the connection: what it hears ---- */

static void hears_acknowledge(line *l, int ready, uint32_t sn) {
    link *c = &l->box;
    uint32_t k = c->first;
    while (k <= c->next && (c->sn + k) % 16 != sn) k++;
    if (c->out != ASKS || k > c->next) return;
    if (k < c->next && c->again == 5) {
        did.asked_end++, parts(l);
        return;
    }
    if (!ready) c->wait_end = now + WAIT_TIME, did.waits++;
    c->out = SENDS, c->repeats = 0;
    if (k < c->next) {
        c->again++, c->next = k, did.asked_again++;
        return;
    }
    c->first = k, c->again = 0;
    if (k == c->total) c->out = IDLE, c->sn = (c->sn + k) % 16, c->cut = 0;
}

static void hears_data(line *l, const uint8_t *b, uint32_t n) {
    link *c = &l->box;
    int asks = b[0] < 0x20;
    if (c->whole) {
        if (asks) c->acknowledges = NOT_READY;
    } else if (b[0] % 16 != c->expected) {
        c->acknowledges = READY;
    } else if (c->in_n + n - 1 > MESSAGE) {
        did.too_long++, parts(l);
    } else {
        memcpy(c->in + c->in_n, b + 1, n - 1);
        c->in_n += n - 1, c->expected = (c->expected + 1) % 16;
        c->whole = b[0] / 16 % 2 && c->in_n;
        if (asks) c->acknowledges = READY;
        if (c->whole) MUST(c->in_n == l->module.n && memcmp(c->in, l->module.text, c->in_n) == 0); /* what the module said */
    }
}

static void joins(line *l, const uint8_t *b) {
    link *c = &l->box;
    c->state = OPEN, l->mine = 0;
    c->block = less(c->size, b[1]), c->gap = micros(b[4]), c->free_at = c->wait_end = 0;
    c->clocked = 1, c->test_end = now + TEST_TIME;
    did.opened++;
}

static void hears_on_channel(line *l, const uint8_t *b, uint32_t n) {
    link *c = &l->box;
    int joined = n == 6 && b[0] == 0xA1 && b[1] >= 1 && b[1] <= 15;
    if (n == 1 && b[0] == 0xA8) did.cut_off++, gone(l);
    else if (c->state == JOINS && joined) joins(l, b);
    else if (c->state == JOINS || n == 0) return;
    else if (joined) c->missed = 0;
    else if (b[0] < 0x40) hears_data(l, b, n);
    else if (n != 1) return;
    else if (b[0] / 16 == 9 || b[0] / 16 == 11) hears_acknowledge(l, b[0] / 16 == 11, b[0] % 16);
    else if (b[0] == 0xA3) c->answers = 1, c->tests = 0, c->clocked = 1, c->test_end = now + TEST_TIME;
    else if (b[0] == 0xA4 && c->out != IDLE && c->next < c->total)
        c->cut = 1, c->total = c->next + 1, c->first = c->next, c->repeats = c->again = 0, c->out = SENDS, did.broken++;
}

static void hears_reply(line *l, const uint8_t *b, uint32_t n) {
    link *c = &l->box;
    uint32_t second;
    if (n != 7 || b[0] != c->own % 256) return;
    second = b[4] + 256u * b[5];
    if (b[1] >= 0xD6 && b[1] <= 0xD8) did.refused[b[1] - 0xD6]++, gone(l);
    else if (b[1] == 0xD0 && b[2] + 256u * b[3] == c->rx && second <= 0x7FF && b[6] == c->application)
        c->state = JOINS, c->tx = second, c->tries = 0, c->trial = WAITS, l->mine = 0;
}

/* a frame is on the bus: the connection hears it, and the raw filters let it in */
static void say(line *l, uint32_t wide, uint32_t id, const uint8_t *b, uint32_t n) {
    link *c = &l->box;
    frames++;
    DONE(on->frame(BOX, l->channel - 1, wide, id, b, n));
    if (!wide && c->state == SETS_UP && id == 0x200 + c->to) hears_reply(l, b, n);
    else if (!wide && (c->state == JOINS || c->state == OPEN) && id == c->rx) hears_on_channel(l, b, n);
    if (!l->listens || wide) return;
    ANSWER(l, 0x09, on->read(BOX, l->channel, 2, lent, sizeof lent, &v));
    MUST(v == 1 && is_raw_record(lent, 0, 0, (uint32_t)now, id, b, n));
}

/* ---- the module: what it will say ---- */

static void later(module *m, uint64_t delay, uint32_t id, const uint8_t *b, uint32_t n) {
    saying *s = &m->later[m->waiting];
    if (m->waiting == LATER) return;
    m->waiting++;
    s->at = now + delay, s->id = id, s->n = n;
    memcpy(s->b, b, n);
}

/* how long until it does: soon; in a rough story also about T1 or T_E, or never */
static int is_silent(void) { return rough && chance(6); }
static uint64_t delay_of(const line *l) {
    uint64_t t1 = micros(l->box.t1);
    if (rough && chance(10)) return ONE_OF(99999, 100000, 100001, 0) + 0u;
    if (rough && chance(10) && l->box.t1 != 0xFF) return t1 ? t1 - 1 + below(3) : 0;
    return below(chance(50) ? 1 : 3000);
}

static void one(line *l, uint32_t byte) {
    uint8_t b = (uint8_t)byte;
    if (!is_silent()) later(&l->module, delay_of(l), l->module.rx, &b, 1);
}

static void acknowledge(line *l, int ready) { one(l, (ready ? 0xB0u : 0x90u) | l->module.expected); }

/* its connection acknowledge: T2 and T4 are any bytes */
static void module_joins(line *l) {
    module *m = &l->module;
    uint8_t b[6] = {0xA1, (uint8_t)m->size, 0x8A, (uint8_t)ONE_OF(0xFF, any() & 255), m->t3, (uint8_t)ONE_OF(0xFF, any() & 255)};
    if (!is_silent()) later(m, delay_of(l), m->rx, b, 6);
}

/* ---- the module: what it hears ---- */

static void module_set_up(line *l, const uint8_t *b) {
    module *m = &l->module;
    uint32_t tx = l->box.state == SETS_UP && chance(50) ? 0x740 + l->channel : ONE_OF(0x740, 0x7FF, 0x000);
    uint8_t reply[7] = {(uint8_t)l->box.own, 0xD0, b[4], b[5], (uint8_t)tx, (uint8_t)(tx >> 8), b[6]};
    m->waiting = 0, m->state = CHANNEL, m->rx = b[4] + 256u * b[5], m->size = 1 + below(15), m->says = 0;
    m->shy = rough && chance(8);
    m->t3 = (uint8_t)(chance(60) ? 0 : ONE_OF(0x01, 0x0A, 0x32, 0x41));
    if (rough && chance(12)) reply[1] = (uint8_t)(0xD6 + below(3));
    else if (rough && chance(10)) reply[below(7)] ^= (uint8_t)(1u << below(8)); /* not to us, or bad */
    if (!is_silent() && !(rough && chance(20))) later(m, delay_of(l), 0x200 + l->box.to, reply, 7);
}

/* a message is put together: whole, or as far as it was broken off */
static void module_has(line *l) {
    module *m = &l->module;
    const link *c = &l->box;
    MUST(m->heard_n <= c->n && memcmp(m->heard, c->text, m->heard_n) == 0 && (m->heard_n == c->n || m->broke));
    if (!m->broke) went[m->heard_n]++;
    m->heard_n = 0, m->broke = 0;
}

static void module_data(line *l, const uint8_t *b, uint32_t n) {
    module *m = &l->module;
    MUST((b[0] & 0x30) != 0x30 && n <= 8 && (n == 8 || b[0] & 0x10));
    m->run = b[0] & 0x20 ? m->run + 1 : 0;
    MUST(m->run < less(m->size, l->box.size)); /* the last of a block asks */
    if (rough && chance(4)) { /* it misses the telegram */
        did.missed++;
        return;
    }
    if (b[0] % 16 != m->expected) {
        if (n == 1) m->heard_n = 0, m->broke = 0; /* broken off where a telegram that it has was to go once more: no other end of it comes */
        acknowledge(l, 1);
        return;
    }
    if (l->stubborn && !(b[0] & 0x20)) {
        acknowledge(l, chance(80));
        return;
    }
    memcpy(m->heard + m->heard_n, b + 1, n - 1);
    m->heard_n += n - 1, m->expected = (m->expected + 1) % 16;
    if (b[0] & 0x10) module_has(l);
    if (!(b[0] & 0x20)) acknowledge(l, !chance(rough ? 15 : 5));
    else if (rough && chance(3)) one(l, 0xA4);
}

/* an acknowledge of what it says: the telegram that is expected */
static void module_acknowledged(line *l, int ready, uint32_t sn) {
    module *m = &l->module;
    uint32_t k = m->first;
    if (!m->says) return;
    while (k <= m->most && (m->sn + k) % 16 != sn) k++;
    MUST(k <= m->most);
    m->awaits = 0, m->next = k;
    if (!ready) m->hold = now + WAIT_TIME;
    m->first = k;
    if (k < m->total) return;
    m->says = 0, m->sn = (m->sn + k) % 16;
}

/* a telegram that was sent; of a connection that is over only what opens counts */
static void module_hears(line *l, const uint8_t *b, uint32_t n, int kind) {
    module *m = &l->module;
    if (kind == TRIAL && n == 7) module_set_up(l, b);
    else if (m->state == DEAF || (kind == TRIAL && m->shy)) return;
    else if (kind == TRIAL) {
        if (l->box.state != OPEN) m->state = LINKED, m->expected = m->heard_n = m->run = m->sn = 0, m->broke = m->says = m->awaits = 0;
        module_joins(l);
    } else if (kind == DATA && l->box.state != OPEN) return;
    else if (m->state != LINKED) return;
    else if (kind == DATA) module_data(l, b, n);
    else if (kind == TEST) did.tests++, module_joins(l);
    else if (kind == BYE) m->state = DEAF, m->waiting = 0, m->says = 0;
    else if (n == 1) module_acknowledged(l, b[0] / 16 == 11, b[0] % 16);
}

/* ---- the module: what it does by itself ---- */

static void module_begins(module *m) {
    static const uint32_t lengths[] = {1, 6, 7, 8, 14, 100, 511, 512};
    m->n = chance(80) ? one_of(lengths, 8) : 1 + below(512);
    if (rough && chance(4)) m->n = 513;
    fill_with(m->text, m->n);
    m->says = 1, m->awaits = 0, m->first = m->next = m->most = 0, m->total = (m->n + 6) / 7, m->hold = 0;
}

static void module_says(line *l) {
    module *m = &l->module;
    uint32_t n = less(7, m->n - 7 * m->next), block = less(m->size, l->box.size);
    uint8_t b[8];
    if (now < m->hold) return;
    b[0] = (uint8_t)((m->sn + m->next) % 16);
    m->awaits = m->next + 1 == m->total || m->next + 1 - m->first == block, m->since = now;
    if (m->next + 1 == m->total) b[0] |= 0x10;
    else if (!m->awaits) b[0] |= 0x20;
    memcpy(b + 1, m->text + 7 * m->next, n);
    if (++m->next > m->most) m->most = m->next;
    say(l, 0, m->rx, b, 1 + n);
}

/* what means nothing, from the bus */
static void noise(line *l) {
    uint8_t b[8];
    uint32_t n = below(9), id = l->module.rx;
    fill_with(b, 8);
    did.noise++;
    switch (below(6)) {
    case 0: say(l, 1, id, b, n); return;
    case 1: id ^= 0x400, b[0] = 0xA8, n = 1; break;
    case 2: b[0] = (uint8_t)(0x40 + below(0x40)); break;
    case 3: b[0] = (uint8_t)ONE_OF(0xA1, 0xA3, 0xA4, 0xA8, 0xB0, 0x90), n = b[0] == 0xA1 ? 5 : 2; break;
    case 4: b[0] = 0xA0, b[1] = 5, n = 6; break;
    default: b[0] = (uint8_t)(0xC0 + below(0x40)); break;
    }
    say(l, 0, id, b, n);
}

/* in a rough story its mood changes */
static void moods(line *l) {
    if (!rough) return;
    l->mute = below(l->mute ? 150 : 250) == 0 ? !l->mute : l->mute;
    l->stubborn = below(l->stubborn ? 80 : 200) == 0 ? !l->stubborn : l->stubborn;
}

static void module_acts(line *l) {
    module *m = &l->module;
    moods(l);
    if (l->mute) {
        m->waiting = 0;
        return;
    }
    for (unsigned i = 0; i < m->waiting;) {
        saying s = m->later[i];
        if (s.at > now) {
            i++;
            continue;
        }
        memmove(m->later + i, m->later + i + 1, (--m->waiting - i) * sizeof s);
        say(l, 0, s.id, s.b, s.n);
        m->broke = l->box.cut;
    }
    if (m->state == DEAF || l->box.state != OPEN) return;
    if (rough && chance(2)) noise(l);
    if (rough && chance(2)) one(l, 0xA3);
    if (rough && below(700) == 0) say(l, 0, m->rx, (const uint8_t *)"\xA8", 1), m->state = DEAF, m->waiting = 0;
    if (m->state != LINKED || l->box.state != OPEN) return;
    if (!m->says && chance(10)) module_begins(m);
    else if (m->says && m->awaits && now - m->since > 300000) m->awaits = 0, m->next--; /* no acknowledge: once more */
    else if (m->says && !m->awaits) module_says(l);
}

/* ---- the driver ---- */

static int driver_takes(line *l) {
    uint8_t b[8];
    uint32_t n;
    int kind;
    if (!l->there && (n = due(&l->box, b, &kind)) > 0) {
        l->there = l->mine = 1, l->kind = kind;
        record_at(l->record, RAW_RECORD, 5, 0, 0, 0, 4 + n, l->box.state == SETS_UP ? l->box.own : l->box.tx, b, n);
    } else if (!l->there && l->plain) {
        l->there = 1, l->mine = 0, l->plain--;
        record_at(l->record, RAW_RECORD, 5, 0, 0, 0, 4, 0x123, NULL, 0);
    }
    ANSWER(l, l->there ? 0x00 : 0x10, on->take(BOX, l->channel, lent, sizeof lent));
    if (l->there) MUST(memcmp(lent, l->record, RAW_RECORD) == 0);
    return l->there;
}

/* a telegram of the connection went out */
static void landed(line *l) {
    link *c = &l->box;
    if (l->kind == TRIAL) {
        c->trial = RUNS, c->trial_end = now + OPEN_TIME;
        return;
    }
    if (l->kind == BYE) {
        gone(l);
        return;
    }
    c->free_at = now + c->gap, c->behind = 0;
    if (c->state != OPEN) return;
    if (l->kind == TEST) c->clocked = 1, c->test_end = now + TEST_TIME, c->missed += c->missed == 0;
    if (l->kind == DATA && c->out == SENDS && (c->next == c->total || c->next - c->first == c->block)) c->out = ASKS, c->t1_end = now + micros(c->t1);
}

static void driver_sends(line *l) {
    int mine = l->there && l->mine, plain = l->there && word(l->record + 24) == 0x23010000u;
    ANSWER(l, l->there ? 0x00 : 0x07, on->sent(BOX, l->channel));
    if (!l->there) return;
    frames++;
    l->there = 0;
    if (mine) landed(l);
    l->mine = 0;
    if (!plain && !l->mute) module_hears(l, l->record + 28, word(l->record + 16) - 4, l->kind);
}

/* ---- the host ---- */

static void host_opens(line *l) {
    link *c = &l->box, a;
    memset(&a, 0, sizeof a);
    a.own = 0x200 + ONE_OF(0, 1, 0xEF, below(0xF0)), a.to = ONE_OF(0, 1, 0xEF), a.rx = ONE_OF(0x300, 0x301, 0x201, 0x7FF, 0);
    a.application = ONE_OF(1, 0x10, 0x20, 0x21), a.size = ONE_OF(15, 15, 1, 2, 1 + below(15));
    a.t1 = ONE_OF(0x8A, 0x8A, 0x4A, 0xC1, 0xFF), a.t3 = any() & 255;
    ANSWER(l, c->state == GONE ? 0x00 : 0x14, on->link_open(BOX, l->channel, a.own, a.to, a.rx, a.application, a.size, a.t1, a.t3));
    if (c->state != GONE) return;
    *c = a, c->state = SETS_UP;
}

static void host_sends(line *l) {
    static const uint32_t lengths[] = {1, 7, 8, 14, 100, 511, 512, 512};
    static uint8_t text[MESSAGE + 1];
    link *c = &l->box;
    uint32_t n = chance(80) ? one_of(lengths, 8) : 1 + below(512);
    if (chance(5)) n = ONE_OF(0, 513);
    fill_with(text, n);
    ANSWER(l, c->state != OPEN ? 0x07 : n < 1 || n > MESSAGE ? 0x0A : c->out != IDLE ? 0x11 : 0x00, on->link_send(BOX, l->channel, text, n));
    if (c->state != OPEN || n < 1 || n > MESSAGE || c->out != IDLE) return;
    memcpy(c->text, text, n);
    c->out = SENDS, c->n = n, c->total = (n + 6) / 7, c->first = c->next = 0, c->repeats = c->again = 0;
}

static void host_receives(line *l) {
    link *c = &l->box;
    int whole = c->state == OPEN && c->whole;
    ANSWER(l, c->state != OPEN ? 0x07 : whole ? 0x00 : 0x10, on->link_receive(BOX, l->channel, got, sizeof got, &v));
    MUST(v == (whole ? c->in_n : 0));
    if (!whole) return;
    MUST(memcmp(got, c->in, c->in_n) == 0);
    came[c->in_n]++;
    c->in_n = 0, c->whole = 0;
}

static void host_ends(line *l) {
    link *c = &l->box;
    int there = c->state != GONE && c->state != PARTS;
    ANSWER(l, there ? 0x00 : 0x07, on->link_end(BOX, l->channel));
    if (!there) return;
    if (c->state == SETS_UP) gone(l);
    else parts(l);
}

static void host_acts(line *l) {
    static uint8_t plain[RAW_RECORD];
    switch (below(12)) {
    case 0: case 1: case 2: host_sends(l); break;
    case 3: case 4: case 5: case 6: case 7: host_receives(l); break;
    case 8:
        MUST(on->last_error(BOX, l->channel, &v) == 0x00 && v == l->last);
        break;
    case 9:
        if (l->plain >= 10) break;
        record_at(plain, RAW_RECORD, 5, 0, 0, 0, 0, 0x123, NULL, 0);
        ANSWER(l, 0x00, on->write(BOX, l->channel, 1, plain, RAW_RECORD, &v));
        l->plain++;
        break;
    case 10:
        if (below(rough ? 40 : 100) == 0) host_ends(l);
        break;
    default:
        if (l->box.state == GONE || chance(10)) host_opens(l);
        break;
    }
}

/* ---- time: often up to something, or one less ---- */

static void sooner(uint64_t *us, uint64_t then) {
    if (then > now && then - now < *us) *us = then - now;
}

static void some_time(void) {
    uint64_t us = ONE_OF(1, 100, 1000, 5000, 20000, 100000, 1000000), most = 1000000;
    for (int i = 0; i < LINES; i++) {
        const link *c = &lines[i].box;
        const module *m = &lines[i].module;
        for (unsigned k = 0; k < m->waiting; k++) sooner(&us, m->later[k].at), sooner(&most, m->later[k].at);
        if (m->hold > now) sooner(&us, m->hold);
        if (chance(70)) continue;
        if (c->trial == RUNS) sooner(&us, c->trial_end);
        if (c->state == OPEN && c->clocked) sooner(&us, c->test_end);
        if (c->out == ASKS) sooner(&us, c->t1_end);
        sooner(&us, c->free_at), sooner(&us, c->wait_end);
    }
    if (!rough && us > most) us = most; /* nobody is late in a calm story */
    for (int i = 0; i < LINES; i++)
        if (lines[i].mute && chance(15)) us = 1000000;
    if (us && chance(20)) us--;
    pass((uint32_t)us);
}

/* ---- a story ---- */

static void begin(void) {
    static const uint8_t nothing[1];
    DONE(on->power_on(BOX));
    memset(lines, 0, sizeof lines);
    now = 0, rough = chance(65);
    for (uint32_t k = 0; k < LINES; k++) {
        line *l = &lines[k];
        uint8_t every[RAW_RECORD];
        DONE(on->connect(BOX, k, 5, chance(50) ? 0 : 0x800, 500000, &l->channel));
        l->listens = chance(30);
        record_at(every, RAW_RECORD, 5, 0, 0, 0, 0, 0, nothing, 0);
        if (l->listens) DONE(on->start_filter(BOX, l->channel, 1, every, RAW_RECORD, every, RAW_RECORD, NULL, 0, &v));
        host_opens(l);
    }
}

/* everybody does what is left to do, and leaves: nothing more goes */
static void finish(void) {
    rough = 0;
    for (int i = 0; i < LINES; i++)
        if (lines[i].box.state != GONE && lines[i].box.state != PARTS) host_ends(&lines[i]);
    for (int k = 0; k < 400; k++)
        for (int i = 0; i < LINES; i++) {
            if (driver_takes(&lines[i])) driver_sends(&lines[i]);
            else if (i == 0) pass(50000);
        }
    for (int i = 0; i < LINES; i++) {
        MUST(lines[i].box.state == GONE && !lines[i].there);
        host_receives(&lines[i]), host_ends(&lines[i]);
        for (size_t k = 0; k < 1091; k++) MUST(box[4 + (size_t)i * on->raw_region + on->link + k] == 0);
    }
}

/* what a module that does as it should never makes happen */
static unsigned long ends_of_others(void) {
    return did.no_reply + did.no_join + did.t1_again + did.t1_end + did.asked_again + did.asked_end + did.test_end + did.too_long + did.cut_off +
           did.missed;
}

static void story(void) {
    unsigned long before = ends_of_others();
    begin();
    for (turn = 0; turn < 600; turn++) {
        int standing = 0;
        for (int i = 0; i < LINES; i++) {
            line *l = &lines[i];
            if (chance(rough ? 60 : 80) && driver_takes(l) && chance(rough ? 80 : 100)) {
                if (chance(5) && rough) some_time();
                driver_sends(l);
            }
            module_acts(l);
            if (chance(25)) host_acts(l);
            standing += l->box.state == OPEN;
        }
        did.four += standing == LINES;
        if (chance(30)) some_time();
        if (turn % 16 == 0) MUST(on->valid(BOX)); /* and every call looks first */
    }
    if (!rough) MUST(before == ends_of_others());
    finish();
    stories++;
}

int main(int argc, char **argv) {
    static const uint32_t lengths[] = {1, 7, 8, 511, 512};
    uint32_t rounds = argc > 2 ? (uint32_t)strtoul(argv[2], NULL, 10) : 1;
    uint64_t first = argc > 1 ? strtoull(argv[1], NULL, 10) : 1;
    unsigned long sent_all = 0, received = 0;
    for (const side *const *s = sides; *s; s++) {
        on = *s, seed = first ? first : 1;
        for (uint32_t r = 0; r < 12 * (rounds ? rounds : 1); r++) story();
    }
    for (size_t i = 0; i <= MESSAGE; i++) sent_all += went[i], received += came[i];
    printf("stories with TP2.0 modules: %lu, %lu calls, %lu frames; opened %lu, four at once in %lu turns; messages put together %lu, received %lu; "
           "no reply %lu, refused %lu, %lu, %lu, no acknowledge of connection %lu; T1 over %lu, given up %lu; asked again %lu, given up %lu; "
           "not ready %lu; missed %lu; broken off %lu; tests %lu, given up %lu, answered %lu; too long %lu; disconnects %lu and %lu; noise %lu\n",
           stories, calls, frames, did.opened, did.four, sent_all, received, did.no_reply, did.refused[0], did.refused[1], did.refused[2], did.no_join,
           did.t1_again, did.t1_end, did.asked_again, did.asked_end, did.waits, did.missed, did.broken, did.tests, did.test_end, did.answers,
           did.too_long, did.parted, did.cut_off, did.noise);
    if (rounds < 5) return 0; /* in fewer stories not everything happens */
    for (size_t i = 0; i < sizeof lengths / sizeof *lengths; i++) MUST(went[lengths[i]] && came[lengths[i]]);
    MUST(did.opened && did.four && did.no_reply && did.refused[0] && did.refused[1] && did.refused[2] && did.t1_again && did.t1_end && did.asked_again);
    MUST(did.no_join && did.asked_end && did.test_end);
    MUST(did.waits && did.missed && did.broken && did.tests && did.answers && did.too_long && did.parted && did.cut_off && did.noise);
    return 0;
}
