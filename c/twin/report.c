/* See report.h. Each number is counted where its event happens, from what the channel held just before it and from the answer. */
#include "report.h"

#include <stdio.h>
#include <string.h>

#include "iso.h"
#include "raw.h"
#include "recording.h"
#include "twin.h"

enum { RECORD = 36, FULL = 32 };

#define BOX m, TWIN_MEMORY

static uint32_t record_size(uint32_t channel) { return channel >= 5 && channel <= 8 ? ISO_RECORD : RECORD; }

/* a record that comes: lost where 32 are held */
static void comes(uint32_t *of, const raw_look_t *before, int as) {
    of[as]++;
    if (before->held == FULL) of[LOST]++;
}

/* a frame that was answered 0x00 on an open channel */
static void offered(uint32_t *of, const raw_look_t *before, const uint8_t *m, uint32_t line, uint32_t wide, uint32_t id, const uint8_t *data, size_t n) {
    of[OFFERED]++;
    if (!raw_takes(m, line, wide)) of[OF_WIDTH]++;
    else if (!raw_matched(m, line, 1, wide, id, data, n)) of[UNMATCHED]++;
    else if (raw_matched(m, line, 2, wide, id, data, n)) of[BLOCKED]++;
    else comes(of, before, PASSED);
}

/* one event, counted; in->bad where it is a bad one, and then nothing was done */
static void count(uint8_t *m, input *in, uint32_t numbers[4][NUMBERS]) {
    static uint8_t records[ISO_RECORD * MOST], was[TWIN_MEMORY];
    uint32_t kind = number(in), a[4] = {0}, n = 0, value = 0, code, size, *of = NULL;
    const uint8_t *p = NULL, *q = NULL, *f = NULL;
    raw_look_t before[4];
    if (kind < 1 || kind > 16) in->bad = 1;
    for (int i = 0; !in->bad && i < numbers_of[kind]; i++) a[i] = number(in);
    if (in->bad) return;
    size = record_size(a[0]);
    if (kind == 5 || kind == 10 || kind == 11) n = most(in);
    if (kind == 5) p = raw(in, n);
    if (kind == 10) p = raw(in, size * n);
    if (kind == 6) p = raw(in, size), q = raw(in, size);
    if (kind == 6 && size == ISO_RECORD) f = raw(in, size);
    if (kind == 8) p = raw(in, size), a[1] = number(in);
    if (in->bad) return;
    for (uint32_t l = 0; l < 4; l++) before[l] = raw_look(m, l);
    if (kind != 5 && a[0] >= 1 && a[0] <= 4) of = numbers[a[0] - 1]; /* a call on a raw channel; connect and advance count nothing */
    switch (kind) {
    case 1: twin_connect(BOX, a[0], a[1], a[2], a[3], &value); return;
    case 2:
        if (twin_disconnect(BOX, a[0]) == 0 && of) of[DROPPED] += before[a[0] - 1].held;
        return;
    case 3:
        twin_close(BOX);
        for (int l = 0; l < 4; l++) numbers[l][DROPPED] += before[l].held;
        return;
    case 4: twin_advance(BOX, a[0]); return;
    case 5:
        memcpy(was, m, sizeof was);
        if (twin_frame(BOX, a[0], a[1], a[2], p, n) == 0 && before[a[0]].open) offered(numbers[a[0]], &before[a[0]], was, a[0], a[1], a[2], p, n);
        return;
    case 6: twin_start_flow_filter(BOX, a[0], a[1], p, size, q, size, f, f ? size : 0, &value); return;
    case 7: twin_stop_filter(BOX, a[0], a[1]); return;
    case 8: twin_start_periodic(BOX, a[0], p, size, a[1], &value); return;
    case 9: twin_stop_periodic(BOX, a[0], a[1]); return;
    case 10: twin_write(BOX, a[0], n, p, size * n, &value); return;
    case 11:
        twin_read(BOX, a[0], n, records, sizeof records, &value);
        if (of) of[READ_OUT] += value;
        return;
    case 12: twin_take(BOX, a[0], records, sizeof records); return;
    case 13:
        if (twin_sent(BOX, a[0]) == 0 && of && before[a[0] - 1].loopback) comes(of, &before[a[0] - 1], ECHOED);
        return;
    case 14:
        code = twin_clear(BOX, a[0], a[1]);
        if (code == 0 && of && a[1] == 2) of[CLEARED] += before[a[0] - 1].held;
        return;
    case 15: twin_get(BOX, a[0], a[1], &value); return;
    default: twin_set(BOX, a[0], a[1], a[2]);
    }
}

int twin_report(const uint8_t *recording, size_t n, uint32_t numbers[4][NUMBERS]) {
    static uint8_t m[TWIN_MEMORY];
    int marked = is_marked(recording, n);
    input in = {recording, recording + n, n > LONGEST};
    if (marked) in.at += MARK;
    memset(numbers, 0, 4 * sizeof *numbers);
    twin_power_on(BOX);
    twin_trusts = 1, twin_old_rates = !marked;
    while (!in.bad && in.at < in.end) count(m, &in, numbers);
    twin_trusts = 0, twin_old_rates = 0;
    for (uint32_t l = 0; l < 4; l++) numbers[l][HELD] = raw_look(m, l).held;
    return in.bad;
}

size_t twin_report_text(uint32_t numbers[4][NUMBERS], char *text) {
    size_t n = 0;
    for (int l = 0; l < 4; l++) {
        n += (size_t)sprintf(text + n, "%d", l + 1);
        for (int i = 0; i < NUMBERS; i++) n += (size_t)sprintf(text + n, " %lu", (unsigned long)numbers[l][i]);
        n += (size_t)sprintf(text + n, "\n");
    }
    return n;
}
