/* See sides_play.h. */
#include "sides_play.h"

#include <stdio.h>
#include <stdlib.h>
#include <string.h>

#include "random.h"

typedef struct {
    uint32_t code, value;
} reply;

static uint8_t memories[SIDES][GUARD + BOX_MOST + GUARD];
static unsigned long counted[KINDS + 1][0x20];
static const event *playing;

const char *program = "sides_play";
const side *on;
uint8_t *const mine = memories[0] + GUARD;
unsigned long turn, made, spoilt;

static void fail(const char *what, const side *s) {
    fprintf(stderr, "%s: %s: %s, turn %lu", program, s->name, what, turn);
    if (playing)
        fprintf(stderr, ", event %d (%u, %u, %u, %u), lent %u, %u, %u", playing->kind, (unsigned)playing->a, (unsigned)playing->b,
                (unsigned)playing->c, (unsigned)playing->d, (unsigned)playing->first.n, (unsigned)playing->second.n, (unsigned)playing->third.n);
    fprintf(stderr, "\n");
    exit(1);
}

/* ---- lent buffers ---- */

uint8_t *bytes(lent *b) { return b->room + GUARD; }

void lend(lent *b, size_t n) {
    memset(b, 0xC3, sizeof *b);
    b->n = n < ROOM ? n : ROOM;
    for (size_t i = 0; i < b->n; i++) bytes(b)[i] = (uint8_t)any();
}

static int guarded(const uint8_t *room, size_t n) {
    for (size_t i = 0; i < GUARD; i++)
        if (room[i] != 0xC3 || room[GUARD + n + i] != 0xC3) return 0;
    return 1;
}

void blank(event *e, int kind, uint32_t a) {
    memset(e, 0, sizeof *e);
    lend(&e->first, 0), lend(&e->second, 0), lend(&e->third, 0);
    e->kind = kind, e->a = a;
}

/* ---- channels ---- */

int is_iso(uint32_t channel) { return channel >= 5 && channel <= 8; }

size_t region(uint32_t channel) {
    return channel <= 4 ? 4 + (channel - 1) * on->raw_region : on->regions + (channel - 5) * on->region;
}

size_t size_of(uint32_t channel) { return channel <= 4 ? on->raw_region : on->region; }

size_t last_of(uint32_t channel) { return region(channel) + (channel <= 4 ? on->last : on->region - 1); }

/* ---- numbers ---- */

uint32_t off(uint32_t good, uint32_t damage) {
    if (!chance(damage)) return good;
    return ONE_OF(0, 1, 2, 3, 4, 5, 6, 8, 9, 255, 256, 257, 261, 65536, 1000000, 1000001, 0x7FFFFFFF, 0xFFFFFFFF, any());
}

size_t some_length(size_t good, uint32_t damage) { return chance(damage) ? below((uint32_t)good + 2) : good + (chance(20) ? below(40) : 0); }

/* ---- an event on a side ---- */

static reply play(const side *s, uint8_t *m, event *e) {
    reply r = {0, 0xBADC0DEu};
    size_t len = s->memory;
    uint8_t *p = bytes(&e->first), *q = bytes(&e->second), *f = bytes(&e->third);
    switch (e->kind) {
    case CONNECT: r.code = s->connect(m, len, e->a, e->b, e->c, e->d, &r.value); break;
    case DISCONNECT: r.code = s->disconnect(m, len, e->a); break;
    case CLOSE: r.code = s->close(m, len); break;
    case ADVANCE: r.code = s->advance(m, len, e->a); break;
    case FRAME: r.code = s->frame(m, len, e->a, e->b, e->c, p, e->first.n); break;
    case START_FILTER: r.code = s->start_filter(m, len, e->a, e->b, p, e->first.n, q, e->second.n, f, e->third.n, &r.value); break;
    case STOP_FILTER: r.code = s->stop_filter(m, len, e->a, e->b); break;
    case START_PERIODIC: r.code = s->start_periodic(m, len, e->a, p, e->first.n, e->b, &r.value); break;
    case STOP_PERIODIC: r.code = s->stop_periodic(m, len, e->a, e->b); break;
    case WRITE: r.code = s->write(m, len, e->a, e->b, p, e->first.n, &r.value); break;
    case READ: r.code = s->read(m, len, e->a, e->b, p, e->first.n, &r.value); break;
    case TAKE: r.code = s->take(m, len, e->a, p, e->first.n); break;
    case SENT: r.code = s->sent(m, len, e->a); break;
    case CLEAR: r.code = s->clear(m, len, e->a, e->b); break;
    case GET: r.code = s->get(m, len, e->a, e->b, &r.value); break;
    case SET: r.code = s->set(m, len, e->a, e->b, e->c); break;
    case SET_LIST: r.code = s->set_list(m, len, e->a, e->pairs, e->count); break;
    case GET_LIST: r.code = s->get_list(m, len, e->a, e->pairs, e->count); break;
    case LINK_OPEN: r.code = s->link_open(m, len, e->a, e->b, e->c, e->d, e->more[0], e->more[1], e->more[2], e->more[3]); break;
    case LINK_SEND: r.code = s->link_send(m, len, e->a, p, e->first.n); break;
    case LINK_RECEIVE: r.code = s->link_receive(m, len, e->a, p, e->first.n, &r.value); break;
    case LINK_END: r.code = s->link_end(m, len, e->a); break;
    case SAVE: r.code = s->save(m, len, e->a, p, e->first.n, &r.value); break;
    case LOAD: r.code = s->load(m, len, e->a, p, e->first.n); break;
    default: r.code = s->last_error(m, len, e->a, &r.value); break;
    }
    return r;
}

/* ---- what must hold of any call ---- */

static int refused(const event *e, reply r) {
    if (r.code == 0x00 || r.code == 0x09 || r.code == 0x12 || e->kind == SET_LIST || e->kind == GET_LIST) return 0;
    return !(e->kind == WRITE && r.value > 0);
}

/* the channel that a call is on, or 0 */
static uint32_t channel_of(const event *e) {
    if (e->kind == CLOSE || e->kind == ADVANCE || e->kind == FRAME) return 0;
    if (e->kind >= LINK_OPEN && e->a > 4) return 0; /* they name channels 1 to 4 */
    if (e->kind != CONNECT) return e->a >= 1 && e->a <= 8 ? e->a : 0;
    return e->a > 3 ? 0 : e->b == 5 ? e->a + 1 : e->b == 6 ? e->a + 5 : 0;
}

/* may the event change this channel's region? */
static int concerns(const event *e, uint32_t channel) {
    if (e->kind == CLOSE || e->kind == ADVANCE) return 1;
    if (e->kind == FRAME) return e->a == (channel - 1) % 4;
    return channel_of(e) == channel;
}

/* the memory before it: nothing changed but what may */
static void only_its_own(uint8_t *before, const event *e, reply r) {
    uint32_t its = channel_of(e);
    if (memcmp(before, mine, 4) && e->kind != ADVANCE) fail("the clock changed", on);
    for (uint32_t channel = 1; channel <= 8; channel++)
        if (!concerns(e, channel) && memcmp(before + region(channel), mine + region(channel), size_of(channel))) fail("another channel changed", on);
    if (e->kind == LAST_ERROR && memcmp(before, mine, on->memory)) fail("asking changed something", on);
    if (!refused(e, r)) return;
    if (r.value != 0 && r.value != 0xBADC0DEu) fail("a refusal gave a number", on);
    if (its && mine[region(its)] && r.code != 0x02 && (e->kind != CONNECT || r.code == 0x14))
        before[last_of(its)] = (uint8_t)r.code;
    if (memcmp(before, mine, on->memory)) fail("a refusal changed the memory", on);
}

void all_play(event *e) {
    static uint8_t before[BOX_MOST];
    static event first, other;
    reply a;
    playing = e;
    memcpy(&first, e, sizeof first);
    memcpy(before, mine, on->memory);
    a = play(on, mine, &first);
    only_its_own(before, e, a);
    if (refused(e, a) && memcmp(first.first.room, e->first.room, sizeof e->first.room)) fail("a refusal changed a buffer", on);
    if (!on->valid(mine, on->memory)) fail("the memory is not valid", on);
    for (int k = 1; sides[k]; k++) {
        reply b;
        memcpy(&other, e, sizeof other);
        b = play(sides[k], memories[k] + GUARD, &other);
        if (a.code != b.code || a.value != b.value) fail("another answer", sides[k]);
        if (memcmp(&first, &other, sizeof first)) fail("other buffers", sides[k]);
        if (memcmp(mine, memories[k] + GUARD, on->memory)) fail("another memory", sides[k]);
    }
    for (int k = 0; sides[k]; k++)
        if (!guarded(memories[k], on->memory)) fail("guard bytes of the memory", sides[k]);
    if (!guarded(first.first.room, first.first.n) || !guarded(first.second.room, first.second.n) || !guarded(first.third.room, first.third.n))
        fail("guard bytes of a buffer", on);
    counted[e->kind][a.code & 0x1F]++;
}

/* ---- all sides ---- */

void all_begin(void) {
    for (int k = 0; sides[k]; k++) {
        memset(memories[k], 0xC3, GUARD + on->memory + GUARD);
        if (sides[k]->power_on(memories[k] + GUARD, on->memory) != 0) fail("power-on", sides[k]);
    }
}

static void all_have(void) {
    for (int k = 1; sides[k]; k++) memcpy(memories[k] + GUARD, mine, on->memory);
}

/* every side says that it is not valid, and changes nothing */
static void all_refuse(const event *e) {
    static event other;
    static uint8_t spoiled[BOX_MOST];
    for (int k = 0; sides[k]; k++) {
        memcpy(spoiled, memories[k] + GUARD, on->memory);
        memcpy(&other, e, sizeof other);
        if (play(sides[k], memories[k] + GUARD, &other).code != 0x1A) fail("not valid, and no 0x1A", sides[k]);
        if (memcmp(spoiled, memories[k] + GUARD, on->memory) || memcmp(&other, e, sizeof other)) fail("0x1A changed something", sides[k]);
    }
}

void all_made(const uint8_t *before, event *e) {
    int valid = on->valid(mine, on->memory);
    playing = NULL;
    all_have();
    for (int k = 1; sides[k]; k++)
        if (sides[k]->valid(memories[k] + GUARD, on->memory) != valid) fail("valid on one side", sides[k]);
    if (valid) {
        made++;
        return;
    }
    all_refuse(e);
    spoilt++;
    memcpy(mine, before, on->memory);
    all_have();
}

void all_counted(unsigned long *events, unsigned long *answers) {
    *events = *answers = 0;
    for (int k = 1; k <= KINDS; k++)
        for (int c = 0; c < 0x20; c++) *events += counted[k][c], *answers += counted[k][c] > 0;
}

unsigned long answered(int kind, uint32_t code) { return counted[kind][code & 0x1F]; }
