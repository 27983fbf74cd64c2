/* The core against the twin: `differential [SEED [ROUNDS]]`. Everything is repeatable; the same seed makes the same run.
 * Any difference is told on standard error and ends the program with status 1. */
#include <stdio.h>
#include <stdlib.h>
#include <string.h>

#include "../../include/trawlpepper.h"
#include "../twin/twin.h"
#include "support.h"

enum { FLAGS = 1, RATE = 5, PHASES = RAW_PERIODICS + 40, PENDING = PHASES + 40 }; /* where things lie in a channel's region */
enum { WRITTEN = PENDING + 10 + 10 * TRAWL_RECORD, FLYING = WRITTEN + 1 + 16 * TRAWL_RECORD, QUEUE = FLYING + 1 + TRAWL_RECORD, EVENTS = 400 };

static unsigned long counted[KINDS + 1][0x20], olds, listeners[2]; /* listeners that were not valid, and that were */

/* the memory needs more room than a lent buffer has */
static uint8_t core_room[GUARD + TRAWL_MEMORY + GUARD], twin_room[GUARD + TRAWL_MEMORY + GUARD];
static uint8_t *const core = core_room + GUARD, *const twin = twin_room + GUARD;

static void guard_memories(void) {
    for (int i = 0; i < GUARD; i++)
        core_room[i] = twin_room[i] = core_room[GUARD + TRAWL_MEMORY + i] = twin_room[GUARD + TRAWL_MEMORY + i] = (uint8_t)(0x5A + i);
}

static int memory_guarded(const uint8_t *room) {
    for (int i = 0; i < GUARD; i++)
        if (room[i] != (uint8_t)(0x5A + i) || room[GUARD + TRAWL_MEMORY + i] != (uint8_t)(0x5A + i)) return 0;
    return 1;
}

static int is_list(const event *e) { return e->kind == SET_LIST || e->kind == GET_LIST; }

/* 01's own distinction of refusals and results; lists are looked at pair by pair */
static int refused(const event *e, reply r) {
    if (r.code == 0x00 || r.code == 0x09 || r.code == 0x12 || is_list(e)) return 0;
    return !(e->kind == WRITE && r.value > 0);
}

/* ---- the last code of each channel, kept here once more from the answers ---- */

static uint8_t last[CHANNELS + 1]; /* by channel */

static int is_open(const uint8_t *memory, uint32_t channel) { return is_channel(channel) && memory[region_of(channel)]; }

static void note(const event *e, reply r) {
    switch (e->kind) {
    case CONNECT:
        if (r.code == 0x00) last[connects(e)] = 0;
        if (r.code == 0x14) last[connects(e)] = 0x14;
        break;
    case DISCONNECT:
        if (r.code == 0x00) last[e->a] = 0;
        break;
    case CLOSE: memset(last, 0, sizeof last); break;
    case ADVANCE: case FRAME: case LAST_ERROR: break;
    default:
        if (r.code != 0x00 && r.code != 0x02) last[e->a] = (uint8_t)r.code;
        break;
    }
}

/* asked of the channel that was named, and each eighth time of every channel and of two that are none, both give what was kept here; asking changes
 * nothing */
static void ask(const event *e, uint64_t turn) {
    static uint8_t before[TRAWL_MEMORY];
    memcpy(before, core, TRAWL_MEMORY);
    for (uint32_t channel = 0; channel <= CHANNELS + 1; channel++) {
        int open = is_open(core, channel);
        if (turn % 8 && channel != e->a) continue;
        uint32_t code = open ? 0x00 : 0x02, number = open ? last[channel] : 0, a = 77, b = 77;
        if (trawl_last_error(core, TRAWL_MEMORY, channel, &a) != code || a != number) fail("the last code, core", e, turn);
        if (twin_last_error(twin, TRAWL_MEMORY, channel, &b) != code || b != number) fail("the last code, twin", e, turn);
    }
    if (memcmp(before, core, TRAWL_MEMORY)) fail("asking changed the memory", e, turn);
}

/* a list did what its pairs do one by one, up to the first that is refused: the memory and the list as they were before, and the answer */
static void one_by_one(uint8_t *memory, const event *e, lent *after, reply r, uint64_t turn) {
    static lent list;
    uint32_t code = 0x00, parameter, value, given;
    list = e->first;
    if (!is_open(memory, e->a)) code = 0x02;
    else if (pairs_of(&list) > TRAWL_PAIRS) code = memory[last_of(e->a)] = 0x04;
    for (size_t i = 0; code == 0x00 && i < pairs_of(&list); i++) {
        pair_at(&list, i, &parameter, &value);
        if (e->kind == SET_LIST) code = trawl_set(memory, TRAWL_MEMORY, e->a, parameter, value);
        else code = trawl_get(memory, TRAWL_MEMORY, e->a, parameter, &given);
        if (code == 0x00 && e->kind == GET_LIST) put_pair(&list, i, parameter, given);
    }
    if (r.code != code) fail("a list's code, against its pairs one by one", e, turn);
    if (memcmp(memory, core, TRAWL_MEMORY)) fail("a list's memory, against its pairs one by one", e, turn);
    if (memcmp(list.room, after->room, sizeof list.room)) fail("a list's pairs, against its pairs one by one", e, turn);
}

/* one event on both: same code, value, buffers and memory; a refusal changes nothing but the last code of its channel; guards stay */
static reply both(event *e, uint64_t turn) {
    static uint8_t before[TRAWL_MEMORY];
    static event mine;
    reply a, b;
    mine = *e;
    memcpy(before, core, TRAWL_MEMORY);
    a = on_core(core, TRAWL_MEMORY, &mine);
    note(e, a);
    if (refused(e, a)) {
        for (uint32_t channel = 1; channel <= CHANNELS; channel++) before[last_of(channel)] = last[channel];
        if (memcmp(before, core, TRAWL_MEMORY)) fail("a refusal changed the memory", e, turn);
        if (memcmp(mine.first.room, e->first.room, sizeof mine.first.room)) fail("a refusal changed a buffer", e, turn);
        if (a.value != 0) fail("a refusal gave a number", e, turn);
    }
    if ((e->kind == DECIDE || e->kind == SAVE) && a.code == 0x00 && memcmp(before, core, TRAWL_MEMORY))
        fail("deciding or saving changed the memory", e, turn);
    if (is_list(e)) one_by_one(before, e, &mine.first, a, turn);
    b = on_twin(twin, TRAWL_MEMORY, e);
    if (a.code != b.code) fail("code", e, turn);
    if (a.value != b.value) fail("value", e, turn);
    if (!guarded(&mine.first) || !guarded(&mine.second) || !guarded(&mine.third)) fail("guard bytes of a buffer", e, turn);
    if (!memory_guarded(core_room)) fail("guard bytes of the memory", e, turn);
    if (memcmp(&mine, e, sizeof mine)) fail("buffer", e, turn);
    if (memcmp(core, twin, TRAWL_MEMORY)) fail("memory", e, turn);
    ask(e, turn);
    counted[e->kind][a.code & 0x1F]++;
    return a;
}

static void power_on(void) {
    for (size_t i = 0; i < TRAWL_MEMORY; i++) core[i] = twin[i] = (uint8_t)any();
    if (trawl_power_on(core, TRAWL_MEMORY) != 0 || twin_power_on(twin, TRAWL_MEMORY) != 0) fail("power-on", NULL, 0);
    if (memcmp(core, twin, TRAWL_MEMORY)) fail("power-on's memory", NULL, 0);
    memset(last, 0, sizeof last);
}

/* ---- conversations under way ---- */

static void act(int kind, uint32_t channel, uint32_t number, size_t lends) {
    static event e;
    connect_event(&e, 0, 0, 0, 0);
    e.kind = kind, e.a = channel, e.b = number;
    lend(&e.first, lends);
    if (kind == WRITE) record_at(bytes(&e.first), channel, 0, 0x242, 100);
    both(&e, channel);
}

static void says(uint32_t channel, uint32_t identifier, const char *data, size_t n) {
    static event e;
    connect_event(&e, 0, 0, 0, 0);
    e.kind = FRAME, e.a = channel - 5, e.b = 0, e.c = identifier;
    lend(&e.first, n);
    memcpy(bytes(&e.first), data, n);
    both(&e, channel);
}

static void conversation(uint32_t channel, uint32_t k) {
    static event e;
    connect_event(&e, 0, 0, 0, 0);
    e.kind = START_FLOW, e.a = channel, e.b = 3;
    lend(&e.first, TRAWL_ISO_RECORD), lend(&e.second, TRAWL_ISO_RECORD), lend(&e.third, TRAWL_ISO_RECORD);
    record_at(bytes(&e.first), channel, 0, 0xFFFFFFFF, 0);
    record_at(bytes(&e.second), channel, 0, 0x641 + k, 0);
    record_at(bytes(&e.third), channel, 0, 0x241 + k, 0);
    if (both(&e, channel).code != 0) fail("a conversation", &e, channel);
}

/* channels 5 to 8 anew: one conversation receives; the other sends, in blocks and with a pause, and on every other channel has a frame in flight */
static void converse(void) {
    static event e;
    for (uint32_t channel = 5; channel <= CHANNELS; channel++) {
        act(DISCONNECT, channel, 0, 0);
        connect_event(&e, channel - 5, 6, 0x800, 500000), both(&e, channel);
        conversation(channel, 0), conversation(channel, 1);
        says(channel, 0x641, "\x10\x64\1\2\3\4\5\6", 8);
        act(WRITE, channel, 1, TRAWL_ISO_RECORD);
        for (int k = 0; k < 2; k++) act(TAKE, channel, 0, TRAWL_ISO_RECORD), act(SENT, channel, 0, 0); /* go on; a first frame */
        says(channel, 0x641, "\x21\7\1\2\3\4\5\6", 8);
        says(channel, 0x642, "\x30\x09\x05", 3);
        act(TAKE, channel, 0, TRAWL_ISO_RECORD), act(SENT, channel, 0, 0);
        act(WRITE, channel, 1, TRAWL_ISO_RECORD);
        if (channel % 2 == 0) continue;
        act(ADVANCE, 5000, 0, 0), act(TAKE, channel, 0, TRAWL_ISO_RECORD);
        if (!core[region_of(channel)]) fail("a channel in the middle of things", NULL, channel);
    }
}

/* ---- connections in each of their states ---- */

static void links(uint32_t channel, int kind, size_t n) {
    static event e;
    connect_event(&e, 0, 0, 0, 0);
    e.kind = kind, e.a = channel;
    lend(&e.first, n);
    if (both(&e, channel).code != 0) fail("a connection's call", &e, channel);
}

static void module_says(uint32_t channel, uint32_t identifier, const char *data, size_t n) { says(channel + 4, identifier, data, n); }

/* the frame that waits goes out */
static void goes(uint32_t channel) { act(TAKE, channel, 0, TRAWL_RECORD), act(SENT, channel, 0, 0); }

/* channels 1 to 4 anew: the first `how` of five steps of a connection are made, each on another channel */
static void connections(uint32_t from) {
    static event e;
    for (uint32_t channel = 1; channel <= 4; channel++) {
        uint32_t how = (channel + from) % 6;
        act(DISCONNECT, channel, 0, 0);
        connect_event(&e, channel - 1, 5, channel % 2 * 0x800, 500000), both(&e, channel);
        link_event(&e, channel, 3 + channel, 0x8A, 0x32);
        if (both(&e, channel).code != 0) fail("an opening", &e, channel);
        if (how == 0) continue; /* opens */
        goes(channel), module_says(channel, 0x201, "\0\xD0\0\3\x40\7\1", 7);
        if (how == 1) continue; /* connects */
        goes(channel), module_says(channel, 0x300, "\xA1\3\x8A\xFF\x32\xFF", 6);
        if (how == 2) continue; /* stands, and nothing else */
        links(channel, LINK_SEND, 400);
        for (int k = 0; k < 3; k++) goes(channel), act(ADVANCE, 5000, 0, 0);
        module_says(channel, 0x300, "\x20\1\2\3\4\5\6\7", 8), module_says(channel, 0x300, "\xA3", 1), module_says(channel, 0x300, "\1\1\2", 3);
        if (how == 3) continue; /* T1 runs, and an answer and an acknowledge wait */
        module_says(channel, 0x300, "\x93", 1), module_says(channel, 0x300, "\x32\1", 2);
        act(TAKE, channel, 0, TRAWL_RECORD); /* a complete message, T_Wait, a telegram in flight */
        if (how == 5) links(channel, LINK_END, 0);
    }
}

/* ---- random sequences on eight channels ---- */

/* a memory kept from before: this channel, if it is open, has the rate that no call takes any more */
static void old_rate(uint32_t channel) {
    if (!is_open(core, channel)) return;
    trawl_store32(core + region_of(channel) + RATE, 125000);
    memcpy(twin, core, TRAWL_MEMORY);
    if (!trawl_valid(core, TRAWL_MEMORY)) fail("a memory that holds 125,000 is not valid", NULL, channel);
    olds++;
}

static void sequences(uint32_t rounds) {
    static event e;
    for (uint32_t r = 0; r < rounds; r++) {
        int damage = (int)(r % 4) * 8;
        power_on();
        for (uint32_t k = 0; k < CHANNELS; k++) {
            connect_event(&e, k % 4, k < 4 ? 5 : 6, (uint32_t[]){0, 0x100, 0x800, 0x900}[(k + r) % 4], 500000);
            if (k < 4 && chance(20)) e.c |= TRAWL_LISTEN_ONLY;
            if (chance(80)) both(&e, r);
        }
        if (r % 3 == 0) connections(r);
        for (uint32_t i = 0; i < EVENTS; i++) {
            if (r % 2 && i % 100 == 0) old_rate(1 + below(CHANNELS));
            random_event(&e, damage);
            both(&e, (uint64_t)r * EVENTS + i);
        }
        if (!trawl_valid(core, TRAWL_MEMORY)) fail("a reached memory is not valid", NULL, r);
    }
}

/* a box in which everything is held somewhere */
static void busy(void) {
    static event e;
    power_on();
    for (uint32_t i = 0; i < 6000; i++) {
        random_event(&e, 2);
        if (e.kind == CLOSE || e.kind == DISCONNECT || ((e.kind == CLEAR || e.kind == LOAD) && chance(80))) continue;
        if ((e.kind == READ || e.kind == SENT || e.kind == STOP_FILTER || e.kind == STOP_PERIODIC) && chance(70)) continue;
        both(&e, i);
    }
}

/* ---- damaged memories ---- */

static void same_verdict(size_t length, const char *what, uint64_t turn) {
    static uint8_t before[TRAWL_MEMORY + 64];
    static event e, mine;
    int good = twin_valid(core, length);
    if ((trawl_valid(core, length) != 0) != good) fail(what, NULL, turn);
    if (good) return;
    random_event(&e, 5);
    mine = e;
    memcpy(before, core, TRAWL_MEMORY);
    if (on_core(core, length, &mine).code != 0x1A) fail("0x1A was not given", &e, turn);
    if (memcmp(before, core, TRAWL_MEMORY)) fail("0x1A changed the memory", &e, turn);
    if (memcmp(&mine, &e, sizeof e)) fail("0x1A changed a buffer", &e, turn);
}

/* every single byte, changed in four ways; in the long regions of channels 5 to 8 in one */
static void each_byte(void) {
    for (size_t i = 0; i < TRAWL_MEMORY; i++) {
        uint8_t was = core[i];
        uint8_t to[4] = {0, 1, (uint8_t)(was ^ (1u << below(8))), (uint8_t)any()};
        for (uint32_t k = i < region_of(5) ? 0 : below(4), n = i < region_of(5) ? 4 : k + 1; k < n; k++) {
            if (to[k] == was) continue;
            core[i] = to[k];
            same_verdict(TRAWL_MEMORY, "verdict on one changed byte", i);
        }
        core[i] = was;
    }
}

/* a filter that was changed, with the maps that would fit it: it is not the maps that are refused */
static void with_its_maps(uint32_t channel, size_t at) {
    uint8_t *maps = core + region_of(channel) + RAW_MAPS, was[2 * RAW_MAP];
    memcpy(was, maps, sizeof was);
    twin_remake_maps(core, channel);
    same_verdict(TRAWL_MEMORY, "verdict on a filter at its limit", at);
    memcpy(maps, was, sizeof was);
}

/* numbers of four bytes at and beside their limits: a periodic's interval and time, a rate, a record's size; of the maps some */
static void each_limit(void) {
    static const uint32_t limits[] = {0,     1,     3,     4,      5,      12,     13,   0x100, 0x101,    0x7FF,   0x800,
                                      0x900, 65535, 65536, 125000, 250000, 500000, 5000, 5001,  65535000, 65535001};
    size_t end = region_size(1) - 4;
    for (uint32_t channel = 1; channel <= 4; channel++)
        for (size_t at = 1; at <= end && at < LINK_AT; at += at >= PHASES && at < PENDING ? 4 : at >= RAW_MAPS && at + 16 < RAW_PERIODICS ? 16 : 1) {
            uint8_t *p = core + region_of(channel) + at, was[4];
            memcpy(was, p, 4);
            for (size_t k = 0; k < sizeof limits / sizeof *limits; k++) {
                uint32_t v = limits[k];
                if (at >= PHASES && at < PENDING) v = 1000 * ((uint32_t)p[-40] | (uint32_t)p[-39] << 8) + (uint32_t)k - 2; /* about its interval */
                p[0] = (uint8_t)v, p[1] = (uint8_t)(v >> 8), p[2] = (uint8_t)(v >> 16), p[3] = (uint8_t)(v >> 24);
                same_verdict(TRAWL_MEMORY, "verdict on a number at its limit", at);
                if (at < RAW_MAPS && core[region_of(channel)]) with_its_maps(channel, at);
            }
            memcpy(p, was, 4);
        }
}

/* the same in their connections: identifiers, times, counts, sizes; of its two messages the first bytes and the last */
static void each_link_limit(void) {
    static const uint32_t limits[] = {0, 1, 2, 3, 5, 6, 7, 10, 11, 15, 16, 255, 256, 512, 513, 0x1FF, 0x200, 0x2EF, 0x2F0, 0x7FF, 0x800,
                                      5000, 5001, 100000, 100001, 1000000, 1000001, 6300000, 6300001};
    for (uint32_t channel = 1; channel <= 4; channel++)
        for (size_t at = 0; at + 4 <= LINK_PART; at += (at > 64 && at < 560) || (at > 583 && at < 1080) ? 31 : 1) {
            uint8_t *p = core + region_of(channel) + LINK_AT + at, was[4];
            memcpy(was, p, 4);
            for (size_t k = 0; k < sizeof limits / sizeof *limits; k++) {
                trawl_store32(p, limits[k]);
                same_verdict(TRAWL_MEMORY, "verdict on a number at its limit, connections", at);
                p[0] = (uint8_t)limits[k], memcpy(p + 1, was + 1, 3);
                same_verdict(TRAWL_MEMORY, "verdict on a byte at its limit, connections", at);
            }
            memcpy(p, was, 4);
        }
}

/* a channel with these flags: both say whether the memory is valid */
static void with_flags(uint32_t channel, uint32_t flags) {
    uint8_t *p = core + region_of(channel);
    trawl_store32(p + FLAGS, flags);
    same_verdict(TRAWL_MEMORY, "verdict on other flags", channel);
    if (p[0] && flags & TRAWL_LISTEN_ONLY) listeners[twin_valid(core, TRAWL_MEMORY)]++;
}

/* every channel with the listeners' flag put in or taken out, with each choice of what a listener never has: periodics, written records, a flight, a
 * connection */
static void each_listener(void) {
    static const size_t from[4] = {RAW_PERIODICS, WRITTEN, FLYING, LINK_AT}, to[4] = {WRITTEN, FLYING, QUEUE, RAW_REGION};
    static uint8_t was[ISO_REGION];
    for (uint32_t channel = 1; channel <= CHANNELS; channel++) {
        uint8_t *p = core + region_of(channel);
        memcpy(was, p, region_size(channel));
        for (uint32_t without = 0; without < (is_iso(channel) ? 1 : 16); without++) {
            uint32_t flags = trawl_load32(was + FLAGS);
            for (uint32_t i = 0; i < 4; i++)
                if (without >> i & 1) memset(p + from[i], 0, to[i] - from[i]);
            with_flags(channel, flags), with_flags(channel, flags ^ TRAWL_LISTEN_ONLY);
            with_flags(channel, (flags | TRAWL_LISTEN_ONLY) ^ 1u << below(32));
            memcpy(p, was, region_size(channel));
        }
    }
}

/* does a number of a conversation or of a record lie about here in the region of channels 5 to 8? Their payloads don't count */
static int in_numbers(size_t at) { return at < 42 || (at >= 550 && at < 582) || (at >= 1090 && (at - 1090) % TRAWL_ISO_RECORD < 32); }

/* the same on channels 5 to 8: sizes, counts, times, waits, pauses */
static void each_iso_limit(void) {
    static const uint32_t limits[] = {0, 1, 2, 4, 5, 6, 7, 8, 9, 13, 255, 256, 257, 508, 509, 512, 513, 900, 1100, 127000, 128000, 999999, 1000000};
    for (uint32_t channel = 5; channel <= CHANNELS; channel++)
        for (size_t at = 1; at + 4 <= region_size(channel); at++) {
            uint8_t *p = core + region_of(channel) + at, was[4];
            if (!in_numbers(at) && at % 97) continue;
            memcpy(was, p, 4);
            for (size_t k = 0; k < sizeof limits / sizeof *limits; k++) {
                trawl_store32(p, limits[k]);
                same_verdict(TRAWL_MEMORY, "verdict on a number at its limit, channels 5 to 8", at);
            }
            memcpy(p, was, 4);
        }
}

/* may an open channel keep this code? 0x0B is given for periodics, 0x17 and 0x18 for conversations */
static int is_kept(uint32_t channel, int code) {
    static const uint8_t good[] = {0x01, 0x04, 0x05, 0x07, 0x09, 0x0A, 0x0C, 0x0D, 0x0F, 0x10, 0x11, 0x12, 0x14, 0x15, 0x16};
    if (memchr(good, code, sizeof good)) return 1;
    return is_iso(channel) ? code == 0x17 || code == 0x18 : code == 0x0B;
}

/* every byte as a last code: a closed channel has 0, an open one may have those that calls on it give */
static void each_last(void) {
    for (uint32_t channel = 1; channel <= CHANNELS; channel++) {
        uint8_t was = core[last_of(channel)];
        for (int v = 0; v < 256; v++) {
            int fits = v == 0 || (core[region_of(channel)] && is_kept(channel, v));
            core[last_of(channel)] = (uint8_t)v;
            if (twin_valid(core, TRAWL_MEMORY) != fits) fail("a last code, twin", NULL, (uint64_t)v);
            same_verdict(TRAWL_MEMORY, "a last code, core", (uint64_t)v);
        }
        core[last_of(channel)] = was;
    }
}

static void several_bytes(void) {
    for (uint32_t i = 0; i < 2000; i++) {
        memcpy(twin, core, TRAWL_MEMORY);
        for (uint32_t k = 2 + below(4); k > 0; k--) core[below(TRAWL_MEMORY)] = (uint8_t)(chance(50) ? below(3) : any());
        same_verdict(TRAWL_MEMORY, "verdict on several changed bytes", i);
        memcpy(core, twin, TRAWL_MEMORY);
    }
}

static void each_length(void) {
    for (size_t n = 0; n <= TRAWL_MEMORY + GUARD; n++) {
        if (n == TRAWL_MEMORY || (n > 40 && n < TRAWL_MEMORY - 40 && n % 97)) continue;
        same_verdict(n, "verdict on another length", n);
        if (trawl_power_on(core, n) != 0x1A || !memory_guarded(core_room)) fail("power-on of another length", NULL, n);
    }
}

static void random_bytes(void) {
    for (uint32_t i = 0; i < 500; i++) {
        for (size_t k = 0; k < TRAWL_MEMORY; k++) core[k] = (uint8_t)any();
        same_verdict(TRAWL_MEMORY, "verdict on random bytes", i);
    }
}

static void damaged(uint32_t rounds) {
    for (uint32_t r = 0; r < rounds; r++) {
        busy();
        each_listener();
        converse();
        connections(r);
        each_listener();
        each_byte();
        each_limit();
        each_link_limit();
        connections(r + 3);
        each_link_limit();
        each_iso_limit();
        each_last();
        several_bytes();
        each_length();
        for (uint32_t channel = 2; channel <= CHANNELS; channel += 2) memset(core + region_of(channel), 0, region_size(channel)); /* four are closed */
        each_byte();
        each_last();
        random_bytes();
    }
}

/* ---- short buffers at every call, on open and closed channels ---- */

static void short_buffers(void) {
    static event e;
    busy();
    connections(1);
    act(DISCONNECT, 3, 0, 0);
    connect_event(&e, 2, 5, TRAWL_LISTEN_ONLY | 0x800, 500000), both(&e, 3);
    for (int kind = START_FILTER; kind <= KINDS; kind++)
        for (uint32_t n = 0; n <= 2 * TRAWL_ISO_RECORD + 1; n += n < 80 || n % TRAWL_ISO_RECORD > TRAWL_ISO_RECORD - 30 ? 1 : 23) {
            if (kind > TAKE && kind != START_FLOW && kind != LINK_SEND && kind != LINK_RECEIVE && kind < SAVE) continue;
            for (uint32_t channel = 0; channel <= CHANNELS + 1; channel++) {
                connect_event(&e, 0, 0, 0, 0);
                e.kind = kind, e.a = channel, e.b = kind == START_FILTER ? 1 : kind == START_FLOW ? 3 : kind == START_PERIODIC ? 5 : n % 4;
                lend(&e.first, n), lend(&e.second, n % 3 ? record_of(channel) : n), lend(&e.third, n % 2 ? record_of(channel) : n);
                both(&e, n);
            }
        }
}

/* ---- lists of every length, refused at every place, in every way, by both calls ---- */

static void list_of(uint32_t n, uint32_t place, uint32_t parameter, uint32_t value) {
    static event e;
    for (int kind = SET_LIST; kind <= GET_LIST; kind++)
        for (uint32_t channel = 0; channel <= CHANNELS + 1; channel++) {
            connect_event(&e, 0, 0, 0, 0);
            e.kind = kind, e.a = channel;
            lend(&e.first, PAIR * n);
            for (uint32_t i = 0; i < n; i++) {
                uint32_t which = chance(50) ? 1 : 3; /* most stand there more than once */
                put_pair(&e.first, i, which, which == 3 ? below(2) : chance(50) ? 250000 : 500000);
            }
            if (place < n) put_pair(&e.first, place, parameter, value);
            both(&e, n);
        }
}

static void lists(void) {
    static const uint32_t bad[][2] = {{0, 0}, {2, 1}, {9, 500000}, {257, 0}, {0xFFFFFFFF, 1}, {1, 125000}, {1, 0}, {1, 500001}, {3, 2}, {3, 0x100}};
    static const uint32_t many[] = {17, 18, 32, 33, 256, 257, 272, 512};
    busy();
    old_rate(2), old_rate(6);
    for (uint32_t n = 0; n <= 17; n++) {
        list_of(n, n, 0, 0);
        for (uint32_t place = 0; place < n; place++)
            for (size_t k = 0; k < sizeof bad / sizeof *bad; k++) list_of(n, place, bad[k][0], bad[k][1]);
        if (n % 6 == 0) old_rate(1 + n % CHANNELS);
    }
    for (size_t k = 0; k < sizeof many / sizeof *many; k++) list_of(many[k], 0, 9, 9), list_of(many[k], many[k], 0, 0);
}

/* ---- demand 3 as an experiment ---- */

static void isolation(uint32_t rounds) {
    static event es[EVENTS], e;
    static reply rs[EVENTS];
    static uint8_t whole[TRAWL_MEMORY];
    static lent buffers[EVENTS];
    for (uint32_t r = 0; r < rounds; r++) {
        memset(core, 0, TRAWL_MEMORY);
        for (int i = 0; i < EVENTS; i++) {
            random_event(&es[i], 5);
            if (r % 2 && i < OPENINGS) opening_event(&es[i], (uint32_t)i);
            e = es[i];
            rs[i] = on_core(core, TRAWL_MEMORY, &e);
            buffers[i] = e.first;
        }
        memcpy(whole, core, TRAWL_MEMORY);
        for (uint32_t channel = 1; channel <= CHANNELS; channel++) {
            memset(core, 0, TRAWL_MEMORY);
            for (int i = 0; i < EVENTS; i++) {
                reply x;
                if (!(concerned(&es[i]) >> channel & 1)) continue;
                e = es[i];
                x = on_core(core, TRAWL_MEMORY, &e);
                if (x.code != rs[i].code || x.value != rs[i].value) fail("struck out: an answer", &es[i], r);
                if (memcmp(&e.first, &buffers[i], sizeof e.first)) fail("struck out: a buffer", &es[i], r);
            }
            if (memcmp(core, whole, 4) || memcmp(core + region_of(channel), whole + region_of(channel), region_size(channel)))
                fail("struck out: what it holds", NULL, r);
        }
        for (int k = 0; k < 20; k++) {
            int at = (int)below(EVENTS - 1);
            if (concerned(&es[at]) & concerned(&es[at + 1])) continue;
            memset(core, 0, TRAWL_MEMORY);
            for (int i = 0; i < EVENTS; i++) {
                int j = i == at ? at + 1 : i == at + 1 ? at : i;
                reply x;
                e = es[j];
                x = on_core(core, TRAWL_MEMORY, &e);
                if (x.code != rs[j].code || x.value != rs[j].value) fail("exchanged: an answer", &es[j], r);
                if (memcmp(&e.first, &buffers[j], sizeof e.first)) fail("exchanged: a buffer", &es[j], r);
            }
            if (memcmp(core, whole, TRAWL_MEMORY)) fail("exchanged: the memory", NULL, r);
        }
    }
}

/* each call that a listener doesn't do was asked of one, and both verdicts on listeners were met */
static void met_listeners(void) {
    static const int calls[] = {WRITE, TAKE, SENT, START_PERIODIC, LINK_OPEN, LINK_SEND, LINK_RECEIVE, LINK_END};
    for (size_t i = 0; i < sizeof calls / sizeof *calls; i++)
        if (counted[calls[i]][0x01] == 0) fail("no listener was asked", NULL, (uint64_t)calls[i]);
    if (listeners[0] == 0 || listeners[1] == 0) fail("no verdict on listeners", NULL, 0);
}

int main(int argc, char **argv) {
    uint32_t rounds = argc > 2 ? (uint32_t)strtoul(argv[2], NULL, 10) : 1;
    unsigned long total = 0, codes = 0;
    seed = argc > 1 ? strtoull(argv[1], NULL, 10) : 1;
    if (seed == 0) seed = 1;
    if (rounds == 0) rounds = 1;
    guard_memories();
    sequences(100 * rounds);
    damaged(rounds);
    short_buffers();
    lists();
    isolation(20 * rounds);
    met_listeners();
    for (int k = 1; k <= KINDS; k++)
        for (int c = 0; c < 0x20; c++) total += counted[k][c], codes += counted[k][c] != 0;
    printf("core and twin agree: %lu calls, %lu pairs of call and code, last codes, %lu channels made to hold 125,000, %lu made listeners, "
           "verdicts on damaged memories, short buffers, lists, isolation\n",
           total, codes, olds, listeners[0] + listeners[1]);
    return 0;
}
