/* How much stack each call takes: `stack [MOST DECIDE]`. Each call runs on a painted stack of its own, on a box that is idle, idle with connections, full,
 * full without a frame in flight, with the filters that are hardest to decide on, and broken; the deepest byte that was written counts, less what an
 * empty function takes. With numbers it fails where a call takes more than the first, or decide, which has a function that calls itself, more than the
 * second. */
#define _XOPEN_SOURCE 700
#include <stdio.h>
#include <stdlib.h>
#include <string.h>
#include <ucontext.h>

#define TRAWL_NO_J2534_NAMES
#include "../../include/trawlpepper.h"
#include "hardest.h"

enum { STACK = 131072 };

static uint8_t idle[TRAWL_MEMORY], linked[TRAWL_MEMORY], full[TRAWL_MEMORY], ready[TRAWL_MEMORY], hard[TRAWL_MEMORY], broken[TRAWL_MEMORY],
    box[TRAWL_MEMORY];
static uint8_t message[TRAWL_RECORD], many[40 * TRAWL_RECORD], mask[TRAWL_ISO_RECORD], partner[TRAWL_ISO_RECORD], own[TRAWL_ISO_RECORD];
static uint8_t messages[9 * TRAWL_ISO_RECORD], telegram[TRAWL_TELEGRAM], eight[8], out[2 * TRAWL_EVENT_ROOM];
static const uint8_t recording[] = {1, 0, 5, 0, 0xA0, 0xC2, 0x1E, 4, 1, 5, 0, 0, 1, 2, 1, 2, 11, 1, 1, 12, 1, 13, 1, 14, 1, 1, 15, 1, 1,
                                    1, 0, 6, 0, 0xA0, 0xC2, 0x1E, 11, 5, 9, 12, 5, 13, 5, 14, 5, 4, 16, 1, 3}; /* the last event is cut short */
static struct trawl_pair pairs[TRAWL_PAIRS];
static uint8_t store[TRAWL_STORE];
static uint32_t number, stored;
static size_t length, at;

#define BOX box, sizeof box

static void nothing(void) { number = 0; }
static void do_valid(void) { number = trawl_valid(BOX); }
static void do_power_on(void) { trawl_power_on(BOX); }
static void do_connect(void) { trawl_connect(BOX, 3, 5, 0, 500000, &number); }
static void do_close(void) { trawl_close(BOX); }
static void do_advance(void) { trawl_advance(BOX, 1000000); }
static void do_frame(void) { trawl_frame(BOX, 0, 0, 0x7E8, eight, 8); }
static void do_disconnect(void) { trawl_disconnect(BOX, 1); }
static void do_start_filter(void) { trawl_start_filter(BOX, 1, 1, message, 36, message, 36, &number); }
static void do_stop_filter(void) { trawl_stop_filter(BOX, 1, 1); }
static void do_start_periodic(void) { trawl_start_periodic(BOX, 1, message, 36, 5, &number); }
static void do_stop_periodic(void) { trawl_stop_periodic(BOX, 1, 1); }
static void do_write(void) { trawl_write(BOX, 1, 17, many, 17 * 36, &number); }
static void do_read(void) { trawl_read(BOX, 1, 40, many, sizeof many, &number); }
static void do_take(void) { trawl_take(BOX, 1, many, 36); }
static void do_sent(void) { trawl_sent(BOX, 1); }
static void do_clear(void) { trawl_clear(BOX, 1, 3); }
static void do_get(void) { trawl_get(BOX, 1, 1, &number); }
static void do_set(void) { trawl_set(BOX, 1, 3, 1); }
static void do_set_list(void) { trawl_set_list(BOX, 1, pairs, TRAWL_PAIRS); }
static void do_get_list(void) { trawl_get_list(BOX, 1, pairs, TRAWL_PAIRS); }
static void do_last_error(void) { trawl_last_error(BOX, 1, &number); }
static void do_iso_connect(void) { trawl_connect(BOX, 3, 6, 0, 500000, &number); }
static void do_iso_frame(void) { trawl_frame(BOX, 0, 0, 0x641, (const uint8_t *)"\x22\x0E", 2); } /* the last of a message */
static void do_iso_first(void) { trawl_frame(BOX, 0, 0, 0x641, (const uint8_t *)"\x10\x0E\1\2\3\4\5\6", 8); }
static void do_iso_single(void) { trawl_frame(BOX, 0, 0, 0x641, (const uint8_t *)"\x01\x0E", 2); }
static void do_iso_flow(void) { trawl_frame(BOX, 0, 0, 0x642, (const uint8_t *)"\x30\0\0", 3); }
static void do_iso_start_filter(void) { trawl_start_flow_filter(BOX, 5, 3, mask, 536, partner, 536, own, 536, &number); }
static void do_iso_stop_filter(void) { trawl_stop_filter(BOX, 5, 2); }
static void do_iso_write(void) { trawl_write(BOX, 5, 5, messages, sizeof messages, &number); }
static void do_iso_read(void) { trawl_read(BOX, 5, 9, messages, sizeof messages, &number); }
static void do_iso_take(void) { trawl_take(BOX, 5, out, sizeof out); }
static void do_iso_sent(void) { trawl_sent(BOX, 5); }
static void do_iso_clear(void) { trawl_clear(BOX, 5, 4); }
static void do_iso_disconnect(void) { trawl_disconnect(BOX, 5); }
static void do_iso_set_list(void) { trawl_set_list(BOX, 5, pairs, TRAWL_PAIRS); }
static void do_link_open(void) { trawl_link_open(BOX, 2, 0x200, 0x01, 0x300, 0x01, 15, 0x8A, 0x00); }
static void do_link_send(void) { trawl_link_send(BOX, 3, messages, 512); }
static void do_link_receive(void) { trawl_link_receive(BOX, 1, out, sizeof out, &number); }
static void do_link_end(void) { trawl_link_end(BOX, 1); }
static void do_link_take(void) { do_link_send(), trawl_take(BOX, 3, many, 36); }
static void do_link_sent(void) { do_link_take(), trawl_sent(BOX, 3); }
static void do_link_acknowledge(void) { trawl_frame(BOX, 0, 0, 0x300, (const uint8_t *)"\xBF", 1); } /* of a block: the rest moves up */
static void do_link_data(void) { trawl_frame(BOX, 2, 0, 0x300, (const uint8_t *)"\x10\1\2\3\4\5\6\7", 8); }
static void do_link_break(void) { trawl_frame(BOX, 0, 0, 0x300, (const uint8_t *)"\xA4", 1); }
static void do_link_reply(void) { trawl_frame(BOX, 1, 0, 0x201, (const uint8_t *)"\0\xD0\0\3\x40\7\1", 7); }
static void do_decide(void) { trawl_decide(BOX, 1, 0, 0x7E8, &number); }
static void do_save(void) { trawl_save(BOX, 1, out, sizeof out, &number); }
static void do_load(void) { trawl_load(BOX, 1, store, stored); } /* of ten filters and ten periodics */
static void do_read_telegram(void) { trawl_read_telegram(0, 0, (const uint8_t *)"\xA0\x0F\x8A\xFF\x32\xFF", 6, telegram, sizeof telegram); }
static void do_write_telegram(void) { trawl_write_telegram(telegram, sizeof telegram, eight, 8, &number); }
static void do_time(void) { number = trawl_time(0x8A); }
static void do_replay(void) { at = 0, trawl_replay(BOX, recording, sizeof recording, &at, out, sizeof out, &length); }

static const struct {
    const char *name;
    void (*call)(void);
} calls[] = {{"valid", do_valid}, {"power_on", do_power_on}, {"connect", do_connect}, {"close", do_close}, {"advance", do_advance},
             {"frame", do_frame}, {"disconnect", do_disconnect}, {"start_filter", do_start_filter}, {"stop_filter", do_stop_filter},
             {"start_periodic", do_start_periodic}, {"stop_periodic", do_stop_periodic}, {"write", do_write}, {"read", do_read},
             {"take", do_take}, {"sent", do_sent}, {"clear", do_clear}, {"get", do_get}, {"set", do_set}, {"set_list", do_set_list},
             {"get_list", do_get_list}, {"last_error", do_last_error},
             {"connect, ISO", do_iso_connect}, {"frame, ISO", do_iso_frame}, {"frame, first", do_iso_first}, {"frame, single", do_iso_single},
             {"frame, flow", do_iso_flow}, {"start_flow_filter", do_iso_start_filter}, {"stop_filter, ISO", do_iso_stop_filter},
             {"write, ISO", do_iso_write}, {"read, ISO", do_iso_read}, {"take, ISO", do_iso_take}, {"sent, ISO", do_iso_sent},
             {"clear, ISO", do_iso_clear}, {"disconnect, ISO", do_iso_disconnect}, {"set_list, ISO", do_iso_set_list},
             {"link_open", do_link_open}, {"link_send", do_link_send}, {"link_receive", do_link_receive}, {"link_end", do_link_end},
             {"take, TP2.0", do_link_take}, {"sent, TP2.0", do_link_sent}, {"frame, acknowledge", do_link_acknowledge},
             {"frame, data", do_link_data}, {"frame, break", do_link_break}, {"frame, reply", do_link_reply}, {"decide", do_decide},
             {"save", do_save}, {"load", do_load},
             {"read_telegram", do_read_telegram}, {"write_telegram", do_write_telegram}, {"time", do_time}, {"replay", do_replay}};

/* ---- a painted stack ---- */

static uint8_t stack[STACK];
static ucontext_t here, there;

static size_t depth(void (*call)(void)) {
    size_t i = 0;
    memset(stack, 0xA7, sizeof stack);
    getcontext(&there);
    there.uc_stack.ss_sp = stack, there.uc_stack.ss_size = sizeof stack, there.uc_link = &here;
    makecontext(&there, call, 0);
    swapcontext(&here, &there);
    while (i < sizeof stack && stack[i] == 0xA7) i++;
    return sizeof stack - i;
}

/* a conversation with pattern 0x641 or 0x642 */
static void converse(uint8_t *m, uint32_t channel, uint32_t k) {
    uint32_t v;
    trawl_iso_record_make(partner, 0, 0x641 + k, NULL, 0);
    trawl_iso_record_make(own, 0, 0x241 + k, NULL, 0);
    trawl_start_flow_filter(m, TRAWL_MEMORY, channel, 3, mask, 536, partner, 536, own, 536, &v);
}

/* both conversations of a line are under way: one lacks the last byte of what it receives, the other has the last frame of what it sends in flight */
static void talks(uint8_t *m, uint32_t line) {
    uint32_t v;
    trawl_set(m, TRAWL_MEMORY, line + 5, 3, 1);
    converse(m, line + 5, 0), converse(m, line + 5, 1);
    trawl_frame(m, TRAWL_MEMORY, line, 0, 0x641, (const uint8_t *)"\x10\x0E\1\2\3\4\5\6", 8);
    trawl_take(m, TRAWL_MEMORY, line + 5, out, sizeof out), trawl_sent(m, TRAWL_MEMORY, line + 5);
    trawl_frame(m, TRAWL_MEMORY, line, 0, 0x641, (const uint8_t *)"\x21\7\1\2\3\4\5\6", 8);
    trawl_write(m, TRAWL_MEMORY, line + 5, 1, messages, 536, &v);
    trawl_take(m, TRAWL_MEMORY, line + 5, out, sizeof out), trawl_sent(m, TRAWL_MEMORY, line + 5);
    trawl_frame(m, TRAWL_MEMORY, line, 0, 0x642, (const uint8_t *)"\x30\0\0", 3);
    trawl_take(m, TRAWL_MEMORY, line + 5, out, sizeof out);
    trawl_write(m, TRAWL_MEMORY, line + 5, 4, messages, sizeof messages, &v);
}

/* a connection on each of the lines 0 to 2: the first awaits an acknowledge and holds a complete message, the second opens, the third is idle */
static void links(uint8_t *m) {
    static const uint8_t reply[7] = {0x00, 0xD0, 0x00, 0x03, 0x40, 0x07, 0x01}, joined[6] = {0xA1, 0x0F, 0x8A, 0xFF, 0x00, 0xFF};
    uint32_t i;
    for (i = 0; i < 3; i++) {
        trawl_link_open(m, TRAWL_MEMORY, i + 1, 0x200, 0x01, 0x300, 0x01, 15, 0xFF, 0x00);
        if (i == 1) continue;
        trawl_frame(m, TRAWL_MEMORY, i, 0, 0x201, reply, sizeof reply);
        trawl_frame(m, TRAWL_MEMORY, i, 0, 0x300, joined, sizeof joined);
    }
    trawl_link_send(m, TRAWL_MEMORY, 1, messages, 512);
    for (i = 0; i < 15; i++) trawl_take(m, TRAWL_MEMORY, 1, out, sizeof out), trawl_sent(m, TRAWL_MEMORY, 1);
    trawl_frame(m, TRAWL_MEMORY, 0, 0, 0x300, (const uint8_t *)"\x30\1\2\3\4\5\6\7", 8);
}

/* channel 1 with the filters that are hardest to decide on */
static void hardest_filters(uint8_t *m) {
    uint8_t pattern[TRAWL_RECORD], looks[TRAWL_RECORD];
    uint32_t v, i;
    for (i = 0; i < HARDEST; i++) {
        trawl_record_make(looks, 0, 0, hardest[i].mask, HARDEST_DATA);
        trawl_record_make(pattern, 0, 0, hardest[i].pattern, HARDEST_DATA);
        trawl_start_filter(m, TRAWL_MEMORY, 1, hardest[i].type, looks, sizeof looks, pattern, sizeof pattern, &v);
    }
}

static void boxes(void) {
    static const uint8_t data[8] = {1, 2, 3, 4, 5, 6, 7, 8};
    uint8_t narrow[TRAWL_RECORD];
    uint32_t v, i;
    trawl_record_make(message, 0, 0x7E8, data, 8);
    for (i = 0; i < 40; i++) memcpy(many + 36 * i, message, 36);
    for (i = 0; i < TRAWL_PAIRS; i++) pairs[i].parameter = i & 1 ? TRAWL_DATA_RATE : TRAWL_LOOPBACK, pairs[i].value = i & 1 ? 500000 : 1;
    trawl_iso_record_make(mask, 0, 0xFFFFFFFF, NULL, 0);
    for (i = 0; i < 9; i++) trawl_iso_record_make(messages + 536 * i, 0, 0x242, many, 13);
    trawl_power_on(idle, sizeof idle);
    for (i = 0; i < 3; i++) trawl_connect(idle, sizeof idle, i, 5, 0, 500000, &v), trawl_connect(idle, sizeof idle, i, 6, 0, 500000, &v);
    memcpy(linked, idle, sizeof linked);
    links(linked);
    trawl_record_make(narrow, 0, 0x123, NULL, 0);
    for (i = 0; i < 3; i++) trawl_start_filter(linked, sizeof linked, i + 1, 1, narrow, 36, narrow, 36, &v); /* of the maps; all others are longer */
    memcpy(hard, idle, sizeof hard);
    hardest_filters(hard);
    memcpy(full, linked, sizeof full);
    for (i = 0; i < 3; i++) {
        trawl_set(full, sizeof full, i + 1, 3, 1);
        for (v = 0; v < 10; v++) {
            uint32_t number_;
            trawl_start_filter(full, sizeof full, i + 1, 1, message, 36, message, 36, &number_);
            trawl_start_periodic(full, sizeof full, i + 1, message, 36, 5, &number_);
        }
        trawl_write(full, sizeof full, i + 1, 16, many, sizeof many, &v);
        trawl_take(full, sizeof full, i + 1, out, sizeof out);
        for (v = 0; v < 31; v++) trawl_frame(full, sizeof full, i, 0, 0x7E8, data, 8);
        talks(full, i);
    }
    trawl_save(full, sizeof full, 1, store, sizeof store, &stored);
    memcpy(ready, full, sizeof ready);
    for (i = 0; i < 3; i++) trawl_sent(ready, sizeof ready, i + 1), trawl_sent(ready, sizeof ready, i + 5);
    memcpy(broken, full, sizeof broken);
    broken[TRAWL_MEMORY - 1] = 9;
}

int main(int argc, char **argv) {
    static uint8_t *const states[6] = {idle, linked, full, ready, hard, broken};
    size_t most = 0, decide = 0, base, k;
    boxes();
    base = depth(nothing);
    for (k = 0; k < sizeof calls / sizeof *calls; k++) {
        size_t deepest = 0, s;
        for (s = 0; s < 6; s++) {
            size_t d;
            memcpy(box, states[s], sizeof box);
            d = depth(calls[k].call);
            d = d > base ? d - base : 0;
            if (d > deepest) deepest = d;
        }
        if (argc == 1) printf("%-18s %5lu\n", calls[k].name, (unsigned long)deepest);
        if (calls[k].call == do_decide) decide = deepest;
        else if (deepest > most) most = deepest;
    }
    printf("stack: %lu bytes at most, decide %lu\n", (unsigned long)most, (unsigned long)decide);
    if (argc > 2 && (most > strtoul(argv[1], NULL, 10) || decide > strtoul(argv[2], NULL, 10))) return 1;
    return 0;
}
