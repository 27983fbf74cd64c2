/* Modules that talk to an ISO 15765 channel: `iso_partner [SEED [ROUNDS]]`. Each story has one channel, two conversations and a module at the
 * other end of each, which assembles what it hears and says messages of its own; in rough stories they also say what they shouldn't and are late.
 * What is written must be what a module assembles, what a module says must be what is read, and everything in its order and its time.
 * Everything is repeatable; a story is told to every side there is. */
#include <stdio.h>
#include <stdlib.h>
#include <string.h>

#include "iso_side.h"
#include "random.h"

enum { SECOND = 1000000, MODULES = 2, WRITTEN = 4, QUEUE = 8 };

typedef struct {
    uint32_t wide, id, n;
    uint8_t b[LONGEST];
} message;

/* a module, and what the box and it have to do with each other */
typedef struct {
    int on;                 /* the box has its filter */
    uint32_t wide, own, to; /* it says with its own identifier and listens to another */
    int says;               /* the box assembles what it says: this much of it is said, and since then its second runs */
    message text;
    uint32_t said;
    uint64_t since;
    uint8_t owed; /* the first byte of the flow frame that the box owes it, or 0 */
    enum { NOT, FLIES, AWAITS, SENDS } box; /* what the box does with a message to it */
    uint64_t then;                          /* when it last sent a frame of it, or was told to wait */
    uint32_t block, gap;                    /* as the module told it */
    int hears;                              /* it assembles itself: the length it was told, and what it has */
    uint32_t length;
    message heard;
} module;

/* ---- the story so far ---- */

static const side *on;
static uint8_t box[BOX_MOST], lent[64 * RECORD];
static uint32_t line, channel, flags, last, v;
static int loopback, rough, marked, raw;
static uint64_t now;
static module modules[MODULES];
static message written[WRITTEN], going; /* what waits, and the message under way, of which so much was taken */
static unsigned waits;
static uint32_t taken;
static struct {
    int there, of; /* the module whose transfer it belongs to, SINGLE or NOTHING */
    uint8_t record[RECORD];
} flight;
enum { NOTHING = -1, SINGLE = -2 };

static struct {
    uint32_t rx, time;
    message text;
} queue[QUEUE];
static unsigned held;
static unsigned long went[LONGEST + 1], came[LONGEST + 1]; /* messages that were assembled and that were read, by length */
static unsigned long turn, calls, assembled, received, singles, dropped, refused, late, frames, stories, lost_records, withdrawn;

static void fail(const char *what, int at) {
    fprintf(stderr, "iso_partner: %s: %s, line %d, story %lu, turn %lu\n", on->name, what, at, stories, turn);
    exit(1);
}

#define MUST(what) ((what) ? (void)0 : fail(#what, __LINE__))
#define BOX box, on->memory

/* a call on the channel is answered so, and that is its last code */
static void answered(uint32_t code, uint32_t expected, int at) {
    calls++;
    if (code != expected) fprintf(stderr, "iso_partner: 0x%02X and not 0x%02X\n", (unsigned)code, (unsigned)expected), fail("a code", at);
    if (code) last = code;
}

#define ANSWER(code, call) answered(call, code, __LINE__)
#define DONE(call) ((call) == 0 ? (void)calls++ : fail(#call, __LINE__))

/* ---- what is to be read ---- */

static void tell(uint32_t rx, uint32_t wide, uint32_t id, const uint8_t *b, uint32_t n) {
    if (held == QUEUE) {
        marked = 1, lost_records++;
        return;
    }
    queue[held].rx = rx | wide << 8, queue[held].time = (uint32_t)now;
    queue[held].text.id = id, queue[held].text.n = n;
    if (n) memcpy(queue[held].text.b, b, n);
    held++;
}

static void host_reads(uint32_t n) {
    uint32_t m = n < held ? n : held;
    int was = marked && n > 0;
    ANSWER(n == 0 ? 0x00 : was ? 0x12 : m == n ? 0x00 : m == 0 ? 0x10 : 0x09, on->read(BOX, channel, n, lent, sizeof lent, &v));
    MUST(v == m);
    for (uint32_t i = 0; i < m; i++) {
        MUST(is_record(lent + i * RECORD, queue[i].rx, 0, queue[i].time, queue[i].text.id, queue[i].text.b, queue[i].text.n));
        if ((queue[i].rx & 255) == 0) received++, came[queue[i].text.n]++;
    }
    memmove(queue, queue + m, (held - m) * sizeof *queue);
    held -= m;
    if (was) marked = 0;
}

/* ---- ends of transfers ---- */

static void disown(int i) {
    if (flight.there && flight.of == i) flight.of = NOTHING;
}

/* the box gives up what the module was saying */
static void unsaid(int i) {
    module *m = &modules[i];
    if (!m->says) return;
    m->says = 0;
    if (m->owed) withdrawn++;
    m->owed = 0;
    disown(i);
}

/* the box gives up what it was sending to the module */
static void unsent(int i) {
    if (modules[i].box == NOT) return;
    modules[i].box = NOT;
    dropped++;
    disown(i);
}

static int sending(void) { return modules[0].box != NOT ? 0 : modules[1].box != NOT ? 1 : -1; }

/* ---- time ---- */

static void pass(uint32_t us) {
    DONE(on->advance(BOX, us));
    now += us;
    for (int i = 0; i < MODULES; i++) {
        module *m = &modules[i];
        if (m->says && now - m->since >= SECOND) unsaid(i), late++;
        if (m->box == AWAITS && now - m->then >= SECOND) unsent(i), late++;
    }
}

/* how long until a module's second is over, or 0 */
static uint32_t left_of(const module *m) {
    if (m->says) return (uint32_t)(SECOND - (now - m->since));
    if (m->box == AWAITS) return (uint32_t)(SECOND - (now - m->then));
    return 0;
}

/* how long until the pause is over */
static uint32_t pause_of(const module *m) {
    uint64_t run = now - m->then;
    return m->box == SENDS && run < m->gap ? (uint32_t)(m->gap - run) : 0;
}

static void some_time(void) {
    const module *m = &modules[below(MODULES)];
    uint32_t us = ONE_OF(0, 1, below(100), below(3000), 999999, 1000000), most = 1000000;
    if (chance(50) && pause_of(m)) us = pause_of(m) - below(2);
    else if (chance(50) && left_of(m)) us = left_of(m) - below(3) % 2;
    for (int i = 0; i < MODULES && !rough; i++) /* nobody is late in a calm story */
        if (left_of(&modules[i]) && left_of(&modules[i]) - 1 < most) most = left_of(&modules[i]) - 1;
    pass(us < most ? us : most);
}

/* ---- a module says something ---- */

/* the frame is on the bus: the raw channel of the line hears it too */
static void say(const module *m, const uint8_t *b, uint32_t n) {
    uint8_t expected[RAW_RECORD];
    frames++;
    DONE(on->frame(BOX, line, m->wide, m->own, b, n));
    if (!raw) return;
    record_at(expected, RAW_RECORD, 5, m->wide << 8, 0, (uint32_t)now, 4 + n, m->own, b, n);
    MUST(on->read(BOX, line + 1, 2, lent, sizeof lent, &v) == 0x09 && v == 1 && memcmp(lent, expected, RAW_RECORD) == 0);
}

static void fill_with(uint8_t *b, uint32_t n) {
    for (uint32_t i = 0; i < n; i++) b[i] = (uint8_t)any();
}

/* does the box listen to what it says? */
static int listens(const module *m) { return m->on && m->box == NOT; }

static void say_single(int i) {
    module *m = &modules[i];
    uint32_t n = ONE_OF(1, 7, 1 + below(7));
    uint8_t b[8];
    fill_with(b, 8);
    b[0] = (uint8_t)n;
    say(m, b, chance(50) ? 1 + n : 1 + n + below(8 - n));
    if (!listens(m)) return;
    unsaid(i);
    tell(0, m->wide, m->own, b + 1, n);
}

static void say_first(int i) {
    module *m = &modules[i];
    uint32_t n = ONE_OF(8, 9, 13, 14, 100, 507, 508, 8 + below(501));
    uint8_t b[8];
    m->text.n = n;
    if (m->says) unsaid(i);
    fill_with(m->text.b, n);
    b[0] = (uint8_t)(0x10 | n >> 8), b[1] = (uint8_t)n;
    memcpy(b + 2, m->text.b, 6);
    say(m, b, 8);
    if (!listens(m) || m->own == m->to) return;
    tell(2, m->wide, m->own, NULL, 0);
    m->says = 1, m->said = 6, m->since = now, m->owed = 0x30;
}

static void say_too_long(int i) {
    module *m = &modules[i];
    uint32_t n = ONE_OF(509, 510, 512, 1024, 4095, 509 + below(4095 - 508));
    uint8_t b[8];
    fill_with(b, 8);
    b[0] = (uint8_t)(0x10 | n >> 8), b[1] = (uint8_t)n;
    say(m, b, 8);
    if (!listens(m) || m->own == m->to) return;
    unsaid(i);
    m->owed = 0x32;
    refused++;
}

/* the next part of what it says: as it should be, with too few bytes, or with another number */
enum { RIGHT, TOO_FEW, WRONG };

static void say_next(int i, int how) {
    module *m = &modules[i];
    uint32_t rest = m->text.n - m->said, part = rest < 7 ? rest : 7, number = (m->said - 6) / 7 + 1;
    uint8_t b[8];
    fill_with(b, 8);
    if (!m->says) { /* nothing that the box knows of */
        b[0] = (uint8_t)(0x20 | below(16));
        say(m, b, 1 + below(8));
        return;
    }
    b[0] = (uint8_t)(0x20 | (number + (how == WRONG ? 1 + below(15) : 0)) % 16);
    memcpy(b + 1, m->text.b + m->said, part);
    if (how == TOO_FEW) {
        if (chance(30)) b[0] = (uint8_t)(0x20 | below(16)); /* the number is not looked at */
        say(m, b, 1 + below(part));
        return;
    }
    say(m, b, chance(70) ? 1 + part : 1 + part + below(8 - part));
    if (how == WRONG) {
        unsaid(i);
        return;
    }
    m->said += part, m->since = now;
    if (m->said < m->text.n) return;
    unsaid(i);
    tell(0, m->wide, m->own, m->text.b, m->text.n);
}

/* frames that are nothing to the box, whatever it does */
static void say_nothing(int i) {
    module *m = &modules[i], other = *m;
    uint8_t b[8];
    uint32_t n = below(9);
    fill_with(b, 8);
    switch (below(9)) {
    case 0: n = 0; break;
    case 1: b[0] = (uint8_t)((4 + below(12)) << 4 | below(16)); break;
    case 2: b[0] = (uint8_t)ONE_OF(0, 8, 9, 15), n = 8; break;
    case 3: b[0] = (uint8_t)(2 + below(6)), n = 1 + below(b[0]); break;
    case 4: b[0] = 0x10, b[1] = (uint8_t)below(8), n = 8; break;
    case 5: b[0] = (uint8_t)(0x10 | below(16)), n = 1 + below(7); break;
    case 6: b[0] = (uint8_t)(0x30 | below(16)), n = 1 + below(2); break;
    case 7: other.own = m->wide ? 0x18DA00FF : 0x7FE; break;
    default: other.wide = !m->wide, other.own = m->own & 0x7FF; break;
    }
    say(&other, b, n);
}

static uint32_t microseconds(uint8_t stmin) { return stmin < 0x80 ? stmin * 1000u : stmin > 0xF0 && stmin < 0xFA ? (stmin & 15u) * 100 : 127000; }

static void say_flow(int i, uint8_t status) {
    module *m = &modules[i];
    uint8_t b[8];
    fill_with(b, 8);
    b[0] = 0x30 | status;
    b[1] = (uint8_t)ONE_OF(0, 0, 0, 1, 2, 3, 8, 15, 72, 255, below(256));
    b[2] = (uint8_t)ONE_OF(0, 0, 0, 1, 5, 20, 0x7F, 0x80, 0xF0, 0xF1, 0xF5, 0xF9, 0xFA, 0xFF, below(256));
    say(m, b, chance(70) ? 3 : 3 + below(6));
    if (m->box != AWAITS) return;
    if (status == 0) m->box = SENDS, m->block = b[1], m->gap = microseconds(b[2]), m->then = now - m->gap;
    else if (status == 1) m->then = now;
    else unsent(i);
}

static void module_acts(int i) {
    module *m = &modules[i];
    if (rough && chance(12)) {
        switch (below(8)) {
        case 0: say_too_long(i); return;
        case 1: say_next(i, WRONG); return;
        case 2: case 3: say_next(i, TOO_FEW); return;
        case 4: say_flow(i, (uint8_t)below(16)); return;
        case 5: say_first(i); return;
        case 6: say_single(i); return;
        default: say_nothing(i); return;
        }
    }
    if (chance(3)) say_nothing(i);
    else if (m->box == AWAITS && chance(40)) return; /* not yet */
    else if (m->box == AWAITS) say_flow(i, rough && chance(10) ? (uint8_t)below(16) : (uint8_t)chance(25));
    else if (m->box != NOT) return;
    else if (m->says && (m->owed == 0 || chance(20))) say_next(i, RIGHT); /* seldom before it was asked to */
    else if (!m->says && chance(15)) chance(40) || m->own == m->to ? say_single(i) : say_first(i);
}

/* ---- a module hears a frame that the box has sent, and puts the parts together ---- */

static void hear(module *m, const uint8_t *r) {
    const uint8_t *b = r + 28;
    uint32_t n = word(r + 16) - 4, id = (uint32_t)r[24] << 24 | (uint32_t)r[25] << 16 | (uint32_t)r[26] << 8 | r[27];
    if (id != m->to || (word(r + 8) != 0) != (m->wide != 0)) return;
    switch (b[0] >> 4) {
    case 0:
        MUST(b[0] >= 1 && b[0] <= 7 && n == 1u + b[0]);
        m->hears = 0, m->heard.n = b[0];
        memcpy(m->heard.b, b + 1, b[0]);
        break;
    case 1:
        MUST(n == 8);
        m->hears = 1, m->length = (b[0] & 15u) << 8 | b[1], m->heard.n = 6;
        MUST(m->length > 7 && m->length <= LONGEST);
        memcpy(m->heard.b, b + 2, 6);
        break;
    case 2:
        MUST(m->hears && (b[0] & 15u) == ((m->heard.n - 6) / 7 + 1) % 16);
        MUST(n > 1 && m->heard.n + n - 1 <= m->length && (n == 8 || m->heard.n + n - 1 == m->length)); /* unpadded */
        memcpy(m->heard.b + m->heard.n, b + 1, n - 1);
        m->heard.n += n - 1;
        if (m->heard.n == m->length) m->hears = 0;
        break;
    case 3: MUST(n == 3 && (b[0] == 0x30 || b[0] == 0x32) && b[1] == 0 && b[2] == 0); break;
    default: MUST(!"a frame of no kind");
    }
}

/* ---- the driver takes frames and sends them ---- */

/* the module that a message of many frames goes to: it has a filter */
static int module_for(const message *t) {
    for (int i = 0; i < MODULES; i++)
        if (modules[i].on && modules[i].to == t->id && modules[i].wide == t->wide) return i;
    return -1;
}

static void put_in_flight(int of, uint32_t wide, uint32_t id, const uint8_t *b, uint32_t n) {
    flight.there = 1, flight.of = of;
    record_at(flight.record, RECORD, 6, 0, wide << 8, 0, 4 + n, id, b, n);
}

/* what a take must give now, if anything: the flight; a flow frame; the next frame of a message; the next message */
static int is_due(void) {
    uint8_t b[8];
    int i = sending();
    uint32_t part;
    if (flight.there) return 1;
    for (int k = 0; k < MODULES; k++)
        if (modules[k].owed) {
            memcpy(b, "\x30\0\0", 3);
            b[0] = modules[k].owed, modules[k].owed = 0;
            put_in_flight(b[0] == 0x30 ? k : NOTHING, modules[k].wide, modules[k].to, b, 3);
            return 1;
        }
    if (i >= 0) {
        if (modules[i].box != SENDS || pause_of(&modules[i])) return 0;
        part = going.n - taken < 7 ? going.n - taken : 7;
        b[0] = (uint8_t)(0x20 | ((taken - 6) / 7 + 1) % 16);
        memcpy(b + 1, going.b + taken, part);
        taken += part, modules[i].box = FLIES;
        put_in_flight(i, going.wide, going.id, b, 1 + part);
        return 1;
    }
    if (waits == 0) return 0;
    i = module_for(&written[0]);
    if (written[0].n > 7 && (i < 0 || modules[i].says)) return 0;
    going = written[0];
    memmove(written, written + 1, --waits * sizeof *written);
    if (going.n <= 7) {
        b[0] = (uint8_t)going.n;
        memcpy(b + 1, going.b, going.n);
        put_in_flight(SINGLE, going.wide, going.id, b, 1 + going.n);
    } else {
        b[0] = (uint8_t)(0x10 | going.n >> 8), b[1] = (uint8_t)going.n;
        memcpy(b + 2, going.b, 6);
        taken = 6, modules[i].box = FLIES;
        put_in_flight(i, going.wide, going.id, b, 8);
    }
    return 1;
}

static int driver_takes(void) {
    int due = is_due();
    ANSWER(due ? 0x00 : 0x10, on->take(BOX, channel, lent, sizeof lent));
    if (due) MUST(memcmp(lent, flight.record, RECORD) == 0);
    return due;
}

/* a message went out whole */
static void reported(void) {
    for (int i = 0; i < MODULES; i++)
        if (modules[i].to == going.id && modules[i].wide == going.wide) {
            MUST(modules[i].heard.n == going.n && memcmp(modules[i].heard.b, going.b, going.n) == 0);
            assembled++, went[going.n]++;
        }
    if (going.n <= 7) singles++;
    tell(9, going.wide, going.id, NULL, 0);
    if (loopback) tell(1, going.wide, going.id, going.b, going.n);
}

static void driver_sends(void) {
    module *m;
    ANSWER(flight.there ? 0x00 : 0x07, on->sent(BOX, channel));
    if (!flight.there) return;
    frames++;
    for (int i = 0; i < MODULES; i++) hear(&modules[i], flight.record);
    flight.there = 0;
    if (flight.of == SINGLE) reported();
    if (flight.of < 0) return;
    m = &modules[flight.of];
    if (m->box == NOT) {
        m->since = now; /* a go-on */
        return;
    }
    m->then = now;
    if (taken == going.n) m->box = NOT, reported();
    else if (taken == 6 || m->block == 1) m->box = AWAITS;
    else m->box = SENDS, m->block -= m->block > 0;
}

/* ---- the host ---- */

static int fits(uint32_t wide) { return flags & 0x800 || (flags != 0) == (wide != 0); }

static void some_message(message *t) {
    const module *m = &modules[below(MODULES)];
    t->n = ONE_OF(1, 7, 8, 14, 100, 507, 508, 1 + below(7), 1 + below(508));
    t->wide = m->wide, t->id = m->to;
    if (chance(10)) t->n = 1 + below(7), t->id = m->wide ? 0x18DB33F1 : 0x7DF;
    if (rough && chance(4)) t->id = 0x700; /* nobody's */
    fill_with(t->b, t->n);
}

static void host_writes(uint32_t n) {
    static uint8_t records[6 * RECORD];
    message some[6];
    uint32_t code = 0, count = 0;
    for (uint32_t i = 0; i < n; i++) {
        uint8_t *r = records + i * RECORD;
        uint32_t bad;
        some_message(&some[i]);
        message_at(r, some[i].wide << 8 | ONE_OF(0, 0x40, 0x80, 0x80000000u), some[i].id, some[i].b, some[i].n);
        bad = !fits(some[i].wide) ? 0x0A : some[i].n > 7 && module_for(&some[i]) < 0 ? 0x17 : 0;
        if (rough && chance(3)) put_word(r, 5), bad = 0x15;
        else if (rough && chance(3)) put_word(r + 16, ONE_OF(0, 4, 513, 4095, 0xFFFFFFFF)), bad = 0x0A;
        if (!code && !bad && waits < WRITTEN) written[waits++] = some[i], count++;
        else if (!code) code = bad ? bad : 0x11;
    }
    ANSWER(code, on->write(BOX, channel, n, records, sizeof records, &v));
    MUST(v == count);
}

static void start(int i) {
    static uint8_t a[RECORD], b[RECORD], c[RECORD];
    uint32_t tx = modules[i].wide << 8;
    message_at(a, tx, 0xFFFFFFFF, NULL, 0), message_at(b, tx, modules[i].own, NULL, 0), message_at(c, tx, modules[i].to, NULL, 0);
    ANSWER(modules[i].on ? 0x18 : 0x00, on->start_filter(BOX, channel, 3, a, RECORD, b, RECORD, c, RECORD, &v));
    MUST(v == (modules[i].on ? 0u : (uint32_t)i + 1));
    modules[i].on = 1;
}

static void forget(int i) {
    unsaid(i), unsent(i);
    modules[i].owed = 0, modules[i].on = 0;
}

static void host_meddles(void) {
    int i = (int)below(MODULES);
    uint32_t kind = below(6);
    switch (below(5)) {
    case 0:
        ANSWER(modules[i].on ? 0x00 : 0x16, on->stop_filter(BOX, channel, (uint32_t)i + 1));
        forget(i);
        break;
    case 1:
        ANSWER(kind >= 1 && kind <= 4 ? 0x00 : 0x0F, on->clear(BOX, channel, kind));
        if (kind == 1) waits = 0;
        if (kind == 2) held = 0, marked = 0;
        for (int k = 0; k < MODULES && kind == 4; k++) forget(k);
        break;
    case 2: ANSWER(0x01, on->start_periodic(BOX, channel, lent, RECORD, 5, &v)); break;
    case 3: ANSWER(0x0D, on->stop_periodic(BOX, channel, kind)); break;
    default:
        ANSWER(0x14, on->connect(BOX, line, 6, 0, 500000, &v));
        break;
    }
}

static void host_acts(void) {
    if (rough && chance(4)) {
        host_meddles();
        return;
    }
    switch (below(8)) {
    case 0: case 1: host_writes(below(4)); break;
    case 2: case 3: case 4: host_reads(below(5)); break;
    case 5: host_reads(9); break;
    case 6:
        loopback = chance(50);
        ANSWER(0x00, on->set(BOX, channel, 3, (uint32_t)loopback));
        break;
    default:
        MUST(on->last_error(BOX, channel, &v) == 0x00 && v == last);
        for (int i = 0; i < MODULES; i++) /* the lowest number first, so that module i has number i + 1 */
            if (!modules[i].on) {
                start(i);
                break;
            }
        break;
    }
}

/* ---- a story ---- */

/* the raw channel of the line hears everything, now and then as a listener */
static void listen(void) {
    uint8_t every[RAW_RECORD];
    MUST(on->connect(BOX, line, 5, chance(40) ? 0x10000800 : 0x800, 500000, &v) == 0);
    for (uint32_t wide = 0; wide < 2; wide++) {
        record_at(every, RAW_RECORD, 5, 0, wide << 8, 0, 0, 0, NULL, 0);
        put_word(every + 16, 1);
        MUST(on->start_filter(BOX, line + 1, 1, every, RAW_RECORD, every, RAW_RECORD, NULL, 0, &v) == 0);
    }
}

static void begin(void) {
    MUST(on->power_on(BOX) == 0);
    memset(modules, 0, sizeof modules), memset(&flight, 0, sizeof flight);
    now = waits = held = last = 0, loopback = marked = 0;
    line = below(4), channel = line + 5, flags = ONE_OF(0, 0x100, 0x800, 0x900), rough = chance(60), raw = chance(30);
    for (uint32_t i = 0; i < MODULES; i++) {
        module *m = &modules[i];
        m->wide = flags & 0x800 ? below(2) : flags != 0;
        m->own = m->wide ? 0x18DAF110 + i : 0x641 + i, m->to = m->wide ? 0x18DA10F1 + (i << 8) : 0x241 + i;
        if (i && chance(15)) m->own = m->to; /* a functional one */
    }
    if (raw) listen();
    for (uint32_t k = 0; k < 3; k++) { /* the clock is somewhere */
        uint32_t us = below(1000001);
        DONE(on->advance(BOX, us));
        now += us;
    }
    ANSWER(0x00, on->connect(BOX, line, 6, flags, ONE_OF(250000, 500000), &v));
    MUST(v == channel);
    MUST(on->connect(BOX, (line + 1) % 4, 6, flags, 500000, &v) == 0); /* another line's, which must hear nothing of it */
    for (int i = 0; i < MODULES; i++) start(i);
}

/* everybody does what is left to do */
static void finish(void) {
    for (int k = 0; k < 3000; k++) {
        int i = sending(), idle = 1;
        turn++;
        if (held == QUEUE || chance(10)) host_reads(9);
        if (driver_takes()) driver_sends(), idle = 0;
        else if (i >= 0 && modules[i].box == AWAITS) say_flow(i, 0), idle = 0;
        else if (i >= 0) pass(pause_of(&modules[i])), idle = 0;
        for (int m = 0; m < MODULES; m++)
            if (modules[m].says) say_next(m, RIGHT), idle = 0;
        if (idle) break;
    }
    MUST(sending() < 0 && !modules[0].says && !modules[1].says && !flight.there);
    MUST(waits == 0 || (written[0].n > 7 && module_for(&written[0]) < 0));
    host_reads(9);
    MUST(held == 0 && !marked && on->valid(BOX));
    MUST(on->read(BOX, (line + 1) % 4 + 5, 1, lent, sizeof lent, &v) == 0x10 && on->take(BOX, (line + 1) % 4 + 5, lent, sizeof lent) == 0x10);
}

static void story(void) {
    unsigned long before;
    begin();
    before = dropped + late + refused;
    for (turn = 0; turn < 150; turn++) {
        if (chance(40) && driver_takes() && chance(70)) {
            if (chance(10)) some_time();
            driver_sends();
        }
        for (int i = 0; i < MODULES; i++)
            if (chance(50)) module_acts(i);
        if (chance(20)) host_acts();
        if (chance(25)) some_time();
        if (chance(3)) driver_sends();
        MUST(on->valid(BOX)); /* and every call looks first */
    }
    if (!rough) MUST(before == dropped + late + refused);
    finish();
    stories++;
}

int main(int argc, char **argv) {
    static const uint32_t lengths[] = {1, 7, 8, 14, 100, 507, 508};
    uint32_t rounds = argc > 2 ? (uint32_t)strtoul(argv[2], NULL, 10) : 1;
    uint64_t first = argc > 1 ? strtoull(argv[1], NULL, 10) : 1;
    for (const side *const *s = sides; *s; s++) {
        on = *s, seed = first ? first : 1;
        for (uint32_t r = 0; r < 60 * (rounds ? rounds : 1); r++) story();
    }
    printf("stories with modules: %lu, %lu calls, %lu frames; messages assembled %lu (single ones %lu), read %lu; given up %lu, late %lu, "
           "too long %lu, answers withdrawn %lu, records lost %lu\n",
           stories, calls, frames, assembled, singles, received, dropped, late, refused, withdrawn, lost_records);
    MUST(assembled && singles && received && dropped && late && refused && withdrawn && lost_records);
    for (size_t i = 0; i < sizeof lengths / sizeof *lengths; i++) MUST(went[lengths[i]] && came[lengths[i]]);
    return 0;
}
