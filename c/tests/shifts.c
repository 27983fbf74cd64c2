/* Whole shifts on the core: `shifts [SEED [ROUNDS]]`. A sequence is cut at its bus frames, advances and closes. It is made as it is; with the calls of
 * each stretch in another order that keeps each channel's own; and with channel 1 served wholly, then 2, and so on to 8, calls naming none last. Each
 * time the memory must be the same at every cut and at the end, byte for byte, and each call must give the same code and number and leave its lent
 * buffers the same. With a channel's own order turned around something must differ now and then, or this would show nothing. Everything is repeatable. */
#include <stdio.h>
#include <stdlib.h>
#include <string.h>

#include "../../include/trawlpepper.h"
#include "support.h"

enum { EVENTS = 80, NAMES_NONE = CHANNELS + 1 };

static event made[EVENTS], left[EVENTS]; /* the sequence, and its events once they were made: what they lent is as the core left it */
static reply given[EVENTS];
static uint8_t start[TRAWL_MEMORY], box[TRAWL_MEMORY], at[EVENTS + 1][TRAWL_MEMORY]; /* before each cut, and at the end */
static unsigned long stretches, calls, none, moved, turned, differ;

/* ---- a sequence ---- */

static int is_cut(const event *e) { return e->kind == FRAME || e->kind == ADVANCE || e->kind == CLOSE; }

/* the channel that a call or a connect names */
static uint32_t named(const event *e) {
    uint32_t channel = 1;
    while (channel <= CHANNELS && !(concerned(e) >> channel & 1)) channel++;
    return channel; /* NAMES_NONE where there is none */
}

/* most cuts are left out, so that stretches are long */
static void some_sequence(int damage) {
    for (uint32_t i = 0; i < EVENTS; i++) {
        do random_event(&made[i], damage);
        while (is_cut(&made[i]) && chance(85));
        if (!is_cut(&made[i]) && made[i].kind != CONNECT && chance(4)) made[i].a = ONE_OF(0, 9, 255, 257, 261, any());
    }
}

/* a box that has lived: some listeners, on other lines connections that stand, then anything; every fourth is fresh */
static void some_start(uint32_t turn, int damage) {
    static event e;
    uint32_t n = turn % 4 ? 40 + below(120) : 0;
    if (trawl_power_on(start, sizeof start) != 0) fail("power-on", NULL, turn);
    for (uint32_t line = 0; n > 0 && line < 4; line++) {
        connect_event(&e, line, 5, TRAWL_LISTEN_ONLY | ONE_OF(0, 0x100, 0x800, 0x900), 500000);
        if (chance(20)) on_core(start, sizeof start, &e);
    }
    for (uint32_t i = 0; i < n; i++) {
        if (i < OPENINGS) opening_event(&e, i);
        else random_event(&e, damage);
        on_core(start, sizeof start, &e);
    }
}

/* ---- orders: the numbers of the events as they are made ---- */

/* where the stretch from `from` on ends */
static uint32_t end_of(uint32_t from) {
    while (from < EVENTS && !is_cut(&made[from])) from++;
    return from;
}

/* each channel wholly, one after the other, calls naming none last */
static void serve(uint32_t *order, uint32_t from, uint32_t to) {
    uint32_t k = from;
    for (uint32_t channel = 1; channel <= NAMES_NONE; channel++)
        for (uint32_t i = from; i < to; i++)
            if (named(&made[i]) == channel) order[k++] = i;
}

/* anyhow, but for each channel's own order: where it has a place, its next call stands */
static void arrange(uint32_t *order, uint32_t from, uint32_t to) {
    uint32_t next[NAMES_NONE];
    for (uint32_t k = from; k < to; k++) order[k] = k;
    for (uint32_t k = to; k > from + 1; k--) {
        uint32_t j = from + below(k - from), was = order[k - 1];
        order[k - 1] = order[j], order[j] = was;
    }
    for (uint32_t channel = 1; channel <= CHANNELS; channel++) next[channel] = from;
    for (uint32_t k = from; k < to; k++) {
        uint32_t channel = named(&made[order[k]]);
        if (channel == NAMES_NONE) continue;
        while (named(&made[next[channel]]) != channel) next[channel]++;
        order[k] = next[channel]++;
    }
}

/* served, and the calls of one channel from the last to the first */
static void turn_around(uint32_t *order, uint32_t from, uint32_t to) {
    uint32_t channel = 1 + below(CHANNELS), a = from, b;
    serve(order, from, to);
    while (a < to && named(&made[order[a]]) != channel) a++;
    for (b = a; b < to && named(&made[order[b]]) == channel;) b++;
    for (; a + 1 < b; a++, b--) {
        uint32_t was = order[a];
        order[a] = order[b - 1], order[b - 1] = was;
    }
}

static void order_by(void (*stretch)(uint32_t *, uint32_t, uint32_t), uint32_t *order) {
    for (uint32_t from = 0; from < EVENTS; from++) {
        uint32_t to = end_of(from);
        stretch(order, from, to);
        if (to < EVENTS) order[to] = to;
        from = to;
    }
}

/* ---- made in an order ---- */

static void make(void) {
    memcpy(box, start, sizeof box);
    for (uint32_t i = 0; i < EVENTS; i++) {
        if (is_cut(&made[i])) memcpy(at[i], box, sizeof box), stretches++;
        else calls++, none += named(&made[i]) == NAMES_NONE;
        left[i] = made[i];
        given[i] = on_core(box, sizeof box, &left[i]);
    }
    memcpy(at[EVENTS], box, sizeof box);
    stretches++;
}

/* what differs from how it was made, or NULL; `i` becomes the event */
static const char *difference(const uint32_t *order, uint32_t *i) {
    static event e;
    memcpy(box, start, sizeof box);
    for (uint32_t k = 0; k < EVENTS; k++) {
        reply r;
        *i = order[k];
        if (is_cut(&made[*i]) && memcmp(box, at[*i], sizeof box)) return "the memory at a cut";
        e = made[*i];
        r = on_core(box, sizeof box, &e);
        if (r.code != given[*i].code || r.value != given[*i].value) return "an answer";
        if (memcmp(&e, &left[*i], sizeof e)) return "a lent buffer";
    }
    return memcmp(box, at[EVENTS], sizeof box) ? "the memory at the end" : NULL;
}

static void must_be_same(const uint32_t *order, uint32_t turn) {
    uint32_t i;
    const char *what = difference(order, &i);
    if (what) fail(what, &made[i], turn);
    for (i = 0; i < EVENTS; i++) moved += order[i] != i;
}

static void shift(uint32_t turn) {
    static uint32_t order[EVENTS];
    uint32_t i;
    int damage = (int)(turn % 3 * 5);
    some_start(turn, damage);
    some_sequence(damage);
    make();
    order_by(serve, order), must_be_same(order, turn);
    for (int k = 0; k < 3; k++) order_by(arrange, order), must_be_same(order, turn);
    order_by(turn_around, order), turned++;
    if (difference(order, &i)) differ++;
}

int main(int argc, char **argv) {
    uint32_t rounds = argc > 2 ? (uint32_t)strtoul(argv[2], NULL, 10) : 1;
    seed = argc > 1 ? strtoull(argv[1], NULL, 10) : 1;
    if (seed == 0) seed = 1;
    for (uint32_t turn = 0; turn < 100 * (rounds ? rounds : 1); turn++) shift(turn);
    if (differ == 0) fail("nothing where a channel's own order was turned around", NULL, turned);
    printf("whole shifts: %lu stretches, %lu calls, %lu of them naming none; served and in three arrangements each the same, %lu times at another "
           "place; a channel's own order turned around: %lu of %lu differ\n",
           stretches, calls, none, moved, differ, turned);
    return 0;
}
