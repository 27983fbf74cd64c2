/* The core against the twin in one run: nanoseconds a call, best of many, and the ratio. `bench [RUNS]`. Devices: idle (four raw channels, nothing
 * else), typical (three filters, three records, two periodics and two written records a raw channel), full, both (typical, and the four ISO 15765
 * channels with two conversations each under way), linked (idle, and on each raw channel a TP2.0 connection that stands), hard (idle, and on each raw
 * channel the ten filters that are hardest to decide on by the identifier alone), and listeners (idle, with three filters a channel). */
#define _POSIX_C_SOURCE 199309L
#include <stdio.h>
#include <stdlib.h>
#include <string.h>
#include <time.h>

#include "../../include/trawlpepper.h"
#include "../tests/hardest.h"
#include "../twin/replay.h"
#include "../twin/twin.h"

enum { MEMORY = TRAWL_MEMORY, LONGEST = 32768, WHOLE = TWIN_REPLAY_ROOM(LONGEST) + TRAWL_EVENT_ROOM, FOUR_LINES = 42600 };
enum { PAYLOAD = 508, FRAMES = 73, THEIRS = 0x641, OURS = 0x241 }; /* of a message of 508 bytes; the identifiers of a conversation */
enum { TELEGRAMS = 74, MODULE = 0x300 };                            /* of a message of 512 bytes; the identifier that a TP2.0 module sends with */

static uint8_t buffer[64 * 36], message[36], text[ISO_RECORD], data8[8] = {3, 0x7F, 0x10, 0x78, 0, 0, 0, 0};
static const uint8_t go_on[3] = {0x30, 0, 0};
static uint8_t store[TRAWL_STORE]; /* the set-up that is loaded */
static uint32_t stored;
static volatile uint32_t sink;

static void keep(uint32_t v) { sink = v; }

#define CALL(f) trawl_##f
#define SIDE(f) core_##f
#include "calls.h"
#undef CALL
#undef SIDE
#define CALL(f) twin_##f
#define SIDE(f) twin_run_##f
#include "calls.h"
#undef CALL
#undef SIDE

/* ---- devices ---- */

static void word(uint8_t *p, uint32_t v) {
    for (int i = 0; i < 4; i++) p[i] = (uint8_t)(v >> 8 * i);
}

static void record(uint8_t *p, uint32_t size, uint32_t identifier) {
    memset(p, 0, 36);
    word(p, 5), word(p + 16, size);
    for (int i = 0; i < 4; i++) p[24 + i] = (uint8_t)(identifier >> (24 - 8 * i));
}

/* What filters are made with. Of size 4 they are in the maps; of size 5 the same filters are in the list: they ask for a data byte, though for no
 * bit of it. With a mask of zeros each is for every identifier. */
static uint32_t filter_size = 4, filter_mask = 0xFFFFFFFF;

/* mask and pattern of filter i of n: the last one is for 0x7E8, the others are for other identifiers */
static void one_filter(uint8_t *mask, uint8_t *pattern, uint32_t i, uint32_t n) {
    record(mask, filter_size, filter_mask);
    record(pattern, filter_size, (i + 1 == n ? 0x7E8 : 0x700 + i) & filter_mask);
}

static uint32_t device_flags = 0; /* of its raw channels */

/* a channel's filters let 0x7E8 in by the last one */
static void device(uint8_t *m, uint32_t filters, uint32_t records, uint32_t periodics, uint32_t written) {
    uint8_t mask[36], pattern[36];
    uint32_t v;
    twin_power_on(m, MEMORY);
    for (uint32_t line = 0; line < 4; line++) {
        twin_connect(m, MEMORY, line, 5, device_flags, 500000, &v);
        for (uint32_t i = 0; i < filters; i++) {
            one_filter(mask, pattern, i, filters);
            twin_start_filter(m, MEMORY, line + 1, 1, mask, 36, pattern, 36, &v);
        }
        for (uint32_t i = 0; i < records; i++) twin_frame(m, MEMORY, line, 0, 0x7E8, data8, 8);
        for (uint32_t i = 0; i < periodics; i++) twin_start_periodic(m, MEMORY, line + 1, message, 36, 5 + i, &v);
        for (uint32_t i = 0; i < written; i++) twin_write(m, MEMORY, line + 1, 1, message, 36, &v);
    }
}

/* ten filters a channel that the decision on the identifier alone takes the most looks for */
static void hardest_filters(uint8_t *m) {
    uint8_t mask[36], pattern[36];
    uint32_t v;
    record(mask, HARDEST_SIZE, 0), record(pattern, HARDEST_SIZE, 0);
    for (uint32_t i = 0; i < 4 * HARDEST; i++) {
        memcpy(mask + 28, hardest[i / 4].mask, HARDEST_DATA), memcpy(pattern + 28, hardest[i / 4].pattern, HARDEST_DATA);
        twin_start_filter(m, MEMORY, 1 + i % 4, hardest[i / 4].type, mask, 36, pattern, 36, &v);
    }
}

/* a record of an ISO 15765 channel with n payload bytes */
static void iso_record(uint8_t *p, uint32_t identifier, uint32_t n) {
    memset(p, 0, ISO_RECORD);
    word(p, 6), word(p + 16, 4 + n);
    for (int i = 0; i < 4; i++) p[24 + i] = (uint8_t)(identifier >> (24 - 8 * i));
    for (uint32_t i = 0; i < n; i++) p[28 + i] = (uint8_t)i;
}

/* the ISO 15765 channels beside: two conversations each, idle */
static void converse(uint8_t *m) {
    static uint8_t mask[ISO_RECORD], pattern[ISO_RECORD], flow[ISO_RECORD];
    uint32_t v;
    iso_record(mask, 0xFFFFFFFF, 0);
    for (uint32_t line = 0; line < 4; line++) {
        twin_connect(m, MEMORY, line, 6, 0, 500000, &v);
        for (uint32_t k = 0; k < 2; k++) {
            iso_record(pattern, THEIRS + k, 0), iso_record(flow, OURS + k, 0);
            twin_start_flow_filter(m, MEMORY, line + 5, 3, mask, ISO_RECORD, pattern, ISO_RECORD, flow, ISO_RECORD, &v);
        }
    }
}

/* they are under way: the first receives 508 bytes, the second sends as many */
static void go_ahead(uint8_t *m) {
    static const uint8_t first[8] = {0x11, 0xFC};
    static uint8_t other[ISO_RECORD];
    uint32_t v;
    iso_record(other, OURS + 1, PAYLOAD);
    for (uint32_t line = 0; line < 4; line++) {
        twin_frame(m, MEMORY, line, 0, THEIRS, first, 8);
        twin_write(m, MEMORY, line + 5, 1, other, ISO_RECORD, &v);
        for (int k = 0; k < 2; k++) twin_take(m, MEMORY, line + 5, buffer, sizeof buffer), twin_sent(m, MEMORY, line + 5);
        twin_frame(m, MEMORY, line, 0, THEIRS + 1, go_on, sizeof go_on);
    }
}

/* a TP2.0 connection that stands on each raw channel: block size 15, no T1, no T3 */
static void connections(uint8_t *m) {
    static const uint8_t reply[7] = {0x00, 0xD0, 0x00, 0x03, 0x40, 0x07, 0x01}, joined[6] = {0xA1, 0x0F, 0x8A, 0xFF, 0x00, 0xFF};
    for (uint32_t line = 0; line < 4; line++) {
        twin_link_open(m, MEMORY, line + 1, 0x200, 0x01, MODULE, 0x01, 15, 0xFF, 0x00);
        twin_frame(m, MEMORY, line, 0, 0x201, reply, sizeof reply);
        twin_frame(m, MEMORY, line, 0, MODULE, joined, sizeof joined);
    }
}

/* ---- time ---- */

static double seconds(void) {
    struct timespec t;
    clock_gettime(CLOCK_MONOTONIC, &t);
    return (double)t.tv_sec + 1e-9 * (double)t.tv_nsec;
}

typedef unsigned (*loop)(uint8_t *);
static int runs = 60;

static unsigned nothing(uint8_t *m) {
    keep(m[0]);
    return 1;
}

/* seconds for so many turns of a loop, the device put back before each */
static double turns(loop f, uint8_t *m, const uint8_t *base, unsigned n, unsigned *calls) {
    double from = seconds();
    for (unsigned i = 0; i < n; i++) {
        memcpy(m, base, MEMORY);
        *calls = f(m);
    }
    return seconds() - from;
}

/* nanoseconds a call on each side, best of the runs, which take turns; what the putting back costs is taken off */
static void measure(loop a, loop b, const uint8_t *base, double *ns_a, double *ns_b) {
    static uint8_t m[MEMORY];
    unsigned calls = 1, one = 1, n = 1;
    double x = 1e9, y = 1e9, z = 1e9, t;
    while (turns(b, m, base, n, &calls) < 2e-4) n *= 2;
    for (int r = 0; r < runs; r++) {
        if ((t = turns(a, m, base, n, &calls)) < x) x = t;
        if ((t = turns(b, m, base, n, &calls)) < y) y = t;
        if ((t = turns(nothing, m, base, n, &one)) < z) z = t;
    }
    *ns_a = 1e9 * (x - z) / n / calls, *ns_b = 1e9 * (y - z) / n / calls;
}

/* ---- the tables ---- */

static const struct {
    const char *name;
    loop core, twin;
} items[] = {
    {"valid", core_valid, (loop)twin_run_valid},
    {"frame, let in", core_frame_in, twin_run_frame_in},
    {"frame, kept out", core_frame_out, twin_run_frame_out},
    {"read of 1", core_read_one, twin_run_read_one},
    {"read of 32", core_read_32, twin_run_read_32},
    {"write of 1", core_write_one, twin_run_write_one},
    {"take and sent", core_take_sent, twin_run_take_sent},
    {"advance", core_advance, twin_run_advance},
    {"start and stop a filter", core_filters, twin_run_filters},
    {"start and stop a periodic", core_periodics, twin_run_periodics},
    {"get and set", core_settings, twin_run_settings},
    {"set a list of 2", core_set_list, twin_run_set_list},
    {"get a list of 2", core_get_list, twin_run_get_list},
    {"last error", core_last_error, twin_run_last_error},
    {"clear", core_clear, twin_run_clear},
    {"connect and disconnect", core_connect, twin_run_connect},
    {"close", core_close, twin_run_close},
    {"mix of frames, reads, takes", core_mix, twin_run_mix},
};

static void calls(const char *name, const uint8_t *base) {
    printf("\n%s device: ns a call       core     twin    ratio   (validating)\n", name);
    for (size_t i = 0; i < sizeof items / sizeof *items; i++) {
        double a, b;
        measure(items[i].core, items[i].twin, base, &a, &b);
        printf("  %-28s %8.1f %8.1f %8.2f", items[i].name, a, b, a / b);
        if (i == 1) printf("   %.0f frames a second, %.0f times four lines", 1e9 / a, 1e9 / a / FOUR_LINES);
        printf("\n");
    }
}

/* a row: a loop on each side from a device */
static void row(const char *name, loop core, loop twin, const uint8_t *base, unsigned frames) {
    double a, b;
    measure(core, twin, base, &a, &b);
    printf("  %-28s %8.1f %8.1f %8.2f", name, a, b, a / b);
    if (frames) printf("   %.1f a frame", a / frames);
    printf("\n");
}

static void eight(const uint8_t *idle) {
    static uint8_t zeros[MEMORY], quiet[MEMORY], both[MEMORY];
    device(both, 3, 3, 2, 2), converse(both), go_ahead(both);
    memcpy(quiet, idle, MEMORY), converse(quiet);
    printf("\nbox of eight: ns a call        core     twin    ratio   (validating)\n");
    row("valid, nothing open", core_valid, (loop)twin_run_valid, zeros, 0);
    row("frame, nothing open", core_frame_out, twin_run_frame_out, zeros, 0);
    row("valid, both, under way", core_valid, (loop)twin_run_valid, both, 0);
    row("frame, a raw channel's", core_frame_in, twin_run_frame_in, both, 0);
    row("frame, a conversation's", core_frame_talk, twin_run_frame_talk, both, 0);
    row("frame, nobody's", core_frame_out, twin_run_frame_out, both, 0);
    row("advance", core_advance, twin_run_advance, both, 0);
    row("message of 508, received", core_message_in, twin_run_message_in, quiet, FRAMES);
    row("message of 508, sent", core_message_out, twin_run_message_out, quiet, FRAMES);
}

static void tp20(const uint8_t *idle) {
    static uint8_t linked[MEMORY];
    memcpy(linked, idle, MEMORY), connections(linked);
    printf("\nTP2.0 connections: ns a call   core     twin    ratio   (validating)\n");
    row("valid, four stand", core_valid, (loop)twin_run_valid, linked, 0);
    row("frame, nobody's", core_frame_out, twin_run_frame_out, linked, 0);
    row("advance, four stand", core_advance, twin_run_advance, linked, 0);
    row("take, idle", core_take_none, twin_run_take_none, linked, 0);
    row("take, no connection", core_take_none, twin_run_take_none, idle, 0);
    row("open and end", core_link_open_end, twin_run_link_open_end, idle, 0);
    row("message of 512, received", core_link_in, twin_run_link_in, linked, TELEGRAMS);
    row("message of 512, sent", core_link_out, twin_run_link_out, linked, TELEGRAMS);
}

/* and what is left of the hardest without the look at the memory, which is measured by itself on the same device */
static void deciding(const uint8_t *idle, const uint8_t *typical) {
    static uint8_t hard[MEMORY];
    double a, b, look_a, look_b;
    memcpy(hard, idle, MEMORY), hardest_filters(hard);
    printf("\non the identifier alone: ns a call core   twin    ratio   (validating)\n");
    row("decide, no filters", core_decide, twin_run_decide, idle, 0);
    row("decide, typical", core_decide, twin_run_decide, typical, 0);
    row("decide, worst (511 looks)", core_decide, twin_run_decide, hard, 0);
    measure(core_decide, twin_run_decide, hard, &a, &b);
    measure(core_valid, (loop)twin_run_valid, hard, &look_a, &look_b);
    printf("  %-28s %8.1f %8.1f %8.2f   worst less valid\n", "decide, worst, by itself", a - look_a, b - look_b, (a - look_a) / (b - look_b));
}

/* the set-up of a raw channel as a store, and the same loaded on each of the four */
static void set_ups(const char *save, const char *load, const uint8_t *base) {
    static uint8_t m[MEMORY];
    memcpy(m, base, MEMORY);
    if (twin_save(m, MEMORY, 1, store, sizeof store, &stored) != 0) exit(1);
    row(save, core_save, twin_run_save, base, 0);
    row(load, core_load, twin_run_load, base, 0);
}

static void saving(const uint8_t *typical, const uint8_t *full) {
    printf("\nsaved set-ups: ns a call       core     twin    ratio   (validating)\n");
    set_ups("save, typical", "load, typical", typical);
    set_ups("save, full", "load, full", full);
}

/* four listeners, and beside them four channels that are none and have the same filters */
static void listeners(void) {
    static uint8_t quiet[MEMORY], others[MEMORY];
    device(others, 3, 0, 0, 0);
    device_flags = TRAWL_LISTEN_ONLY, device(quiet, 3, 0, 0, 0), device_flags = 0;
    printf("\nlisteners: ns a call           core     twin    ratio   (validating)\n");
    row("valid, four listen", core_valid, (loop)twin_run_valid, quiet, 0);
    row("frame and read of 1", core_frame_read, twin_run_frame_read, quiet, 0);
    row("  of others", core_frame_read, twin_run_frame_read, others, 0);
    row("write, refused (0x01)", core_write_one, twin_run_write_one, quiet, 0);
    row("take, refused (0x01)", core_take_none, twin_run_take_none, quiet, 0);
}

/* ten filters on each channel: what the look at their maps costs, and a start or stop, which makes them anew */
static void ten_filters(const char *name, const char *frame, const char *start) {
    static uint8_t base[MEMORY];
    device(base, 10, 0, 0, 0);
    row(name, core_valid, (loop)twin_run_valid, base, 0);
    row(frame, core_frame_out, twin_run_frame_out, base, 0);
    row(start, core_filters, twin_run_filters, base, 0);
}

static void mapped(void) {
    printf("\nmaps, ten filters: ns a call   core     twin    ratio   (validating)\n");
    ten_filters("valid, an identifier each", "frame, kept out", "start and stop a filter");
    filter_mask = 0;
    ten_filters("valid, every identifier each", "frame, let in", "start and stop a filter");
    filter_mask = 0xFFFFFFFF, filter_size = 5;
    ten_filters("valid, none in the maps", "frame, kept out", "start and stop a filter");
    filter_size = 4;
}

static void growth(void) {
    static uint8_t base[MEMORY];
    double a, b;
    printf("\nhow a frame's cost grows      core     twin    ratio\n");
    for (uint32_t k = 0; k <= 31; k += k < 3 ? 3 : 7) {
        device(base, 3, k, 0, 0);
        measure(core_frame_out, twin_run_frame_out, base, &a, &b);
        printf("  3 filters, %2u records       %8.1f %8.1f %8.2f\n", (unsigned)k, a, b, a / b);
    }
    for (uint32_t k = 1; k <= 10; k += 3) {
        device(base, k, 3, 0, 0);
        measure(core_frame_out, twin_run_frame_out, base, &a, &b);
        printf("  %2u filters, 3 records       %8.1f %8.1f %8.2f\n", (unsigned)k, a, b, a / b);
    }
}

/* ---- the inner calls, which trust a memory owned since power-on: recordings of one kind of event, replayed ---- */

static uint8_t recording[LONGEST], core_out[WHOLE], twin_out[WHOLE];

static uint8_t *put(uint8_t *p, uint32_t v) {
    for (; v >= 0x80; v >>= 7) *p++ = (uint8_t)(v | 0x80);
    *p++ = (uint8_t)v;
    return p;
}

static uint8_t *some(uint8_t *p, const uint8_t *from, size_t n) {
    memcpy(p, from, n);
    return p + n;
}

/* what the recordings are made with: the identifier of the frames, and how many of the filters, the last ones, are block filters */
static uint32_t offered = 0x7E8, blocks = 0;

static uint8_t *one_event(uint8_t *p, int kind, uint32_t i) {
    uint32_t line = i & 3;
    switch (kind) {
    case 4: return put(put(p, 4), 1000);
    case 5: return some(put(put(put(put(put(p, 5), line), 0), offered), 8), data8, 8);
    case 10: return some(put(put(put(p, 10), line + 1), 1), message, 36);
    case 11: return put(put(put(p, 11), line + 1), 1);
    case 12: return put(put(p, 12), line + 1);
    case 13: return put(put(p, 13), line + 1);
    case 15: return put(put(put(p, 15), line + 1), 1);
    case 16: return put(put(put(put(p, 16), line + 1), 3), i / 4 & 1);
    default: return p;
    }
}

static size_t make(const int *kinds, unsigned n, uint32_t filters, unsigned *events) {
    uint8_t *p = recording, mask[36], pattern[36];
    for (uint32_t line = 0; line < 4; line++) {
        p = put(put(put(put(put(p, 1), line), 5), 0), 500000);
        for (uint32_t i = 0; i < filters; i++) {
            one_filter(mask, pattern, i, filters);
            p = some(some(put(put(put(p, 6), line + 1), i + blocks < filters ? 1 : 2), mask, 36), pattern, 36);
        }
    }
    *events = 4 + 4 * filters;
    for (uint32_t i = 0; p + 64 < recording + LONGEST; i++, ++*events) p = one_event(p, kinds[i / 4 % n], i);
    return (size_t)(p - recording);
}

/* the recording's first bytes on a box just switched on, in one piece: the buffer has room for it. How many bytes it writes */
static size_t core_replay(size_t size) {
    static uint8_t m[MEMORY];
    size_t at = 0, length;
    trawl_power_on(m, sizeof m);
    trawl_replay(m, sizeof m, recording, size, &at, core_out, sizeof core_out, &length);
    return at == size ? length : 0;
}

/* a recording is played by both */
static void play(const char *name, size_t size, unsigned events) {
    double x = 1e9, y = 1e9, t;
    size_t a = 0, b = 0;
    for (int r = 0; r < runs; r++) {
        t = seconds();
        a = core_replay(size);
        if ((t = seconds() - t) < x) x = t;
        t = seconds();
        twin_replay(recording, size, twin_out, sizeof twin_out, &b, NULL);
        if ((t = seconds() - t) < y) y = t;
    }
    if (a != b || memcmp(core_out, twin_out, a)) {
        fprintf(stderr, "bench: the two replays of '%s' differ\n", name);
        exit(1);
    }
    printf("  %-28s %8.1f %8.1f %8.2f   %.1f million events a second\n", name, 1e9 * x / events, 1e9 * y / events, x / y, 1e-6 * events / x);
}

static void inner(const char *name, const int *kinds, unsigned n, uint32_t filters) {
    unsigned events;
    size_t size = make(kinds, n, filters, &events);
    play(name, size, events);
}

/* a frame of the partner on line 0, as an event */
static uint8_t *says(uint8_t *p, const uint8_t *b, size_t n) {
    return some(put(put(put(put(put(p, 5), 0), 0), THEIRS), (uint32_t)n), b, n);
}

/* channel 5 with a conversation, as events */
static uint8_t *opens(uint8_t *p) {
    static uint8_t r[ISO_RECORD];
    p = put(put(put(put(put(put(put(put(p, 1), 0), 6), 0), 500000), 6), 5), 3);
    iso_record(r, 0xFFFFFFFF, 0), p = some(p, r, ISO_RECORD);
    iso_record(r, THEIRS, 0), p = some(p, r, ISO_RECORD);
    iso_record(r, OURS, 0);
    return some(p, r, ISO_RECORD);
}

/* messages of 508 bytes that come, frame by frame, with what the driver does */
static void messages_in(void) {
    uint8_t *p = opens(recording), b[8] = {0x11, 0xFC};
    unsigned events = 2;
    while (p + 1200 < recording + LONGEST) {
        b[0] = 0x11, p = put(put(put(put(says(p, b, 8), 12), 5), 13), 5);
        for (uint32_t k = 1; k < FRAMES; k++) b[0] = (uint8_t)(0x20 | k % 16), p = says(p, b, 8);
        p = put(put(put(p, 11), 5), 2), events += FRAMES + 3;
    }
    play("messages of 508, received", (size_t)(p - recording), events);
}

static void messages_out(void) {
    uint8_t *p = opens(recording);
    unsigned events = 2;
    while (p + 1200 < recording + LONGEST) {
        p = some(put(put(put(p, 10), 5), 1), text, ISO_RECORD);
        for (uint32_t k = 0; k < FRAMES; k++) {
            p = put(put(put(put(p, 12), 5), 13), 5);
            if (k == 0) p = says(p, go_on, sizeof go_on);
        }
        p = put(put(put(p, 11), 5), 1), events += 2 * FRAMES + 3;
    }
    play("messages of 508, sent", (size_t)(p - recording), events);
}

int main(int argc, char **argv) {
    static uint8_t idle[MEMORY], typical[MEMORY], full[MEMORY];
    static const int only_frames[] = {5};
    static const int frames[] = {5, 5, 5, 11, 11, 11}, advances[] = {4}, sends[] = {10, 12, 13}, gets[] = {15, 16};
    static const int mixed[] = {5, 5, 11, 12, 4, 5, 11, 13};
    if (argc > 1) runs = atoi(argv[1]) > 0 ? atoi(argv[1]) : runs;
    record(message, 8, 0x7E0), iso_record(text, OURS, PAYLOAD);
    device(idle, 0, 0, 0, 0), device(typical, 3, 3, 2, 2), device(full, 10, 32, 10, 16);
    calls("idle", idle), calls("typical", typical), calls("full", full);
    eight(idle);
    tp20(idle);
    deciding(idle, typical);
    saving(typical, full);
    listeners();
    mapped();
    growth();
    printf("\nreplayed, inner calls: ns an event  core   twin    ratio\n");
    inner("frames and reads, 3 filters", frames, 6, 3);
    inner("frames and reads, 10 filters", frames, 6, 10);
    blocks = 3;
    inner("frames blocked, 10 filters", only_frames, 1, 10);
    offered = 0x123;
    inner("frames unmatched, 10 filters", only_frames, 1, 10);
    filter_size = 5;
    inner("  unmatched, by the list", only_frames, 1, 10);
    offered = 0x7E8;
    inner("  blocked, by the list", only_frames, 1, 10);
    blocks = 0;
    inner("  and reads, by the list", frames, 6, 10);
    filter_size = 4;
    inner("advance", advances, 1, 0);
    inner("write, take, sent", sends, 3, 0);
    inner("get and set", gets, 2, 0);
    inner("mix", mixed, 8, 3);
    messages_in();
    messages_out();
    return 0;
}
