/* Replays, the core against the twin: `recordings [SEED [ROUNDS]]`. Recordings of random events, with and without an edition, whole and damaged:
 * the core's in pieces of several sizes, the smallest too, each into a buffer between guard bytes; joined they are the twin's whole replay. */
#include <stdio.h>
#include <stdlib.h>
#include <string.h>

#include "../../include/trawlpepper.h"
#include "../twin/replay.h"
#include "maker.h"
#include "support.h"

enum { LONGEST = 32768, LEAST = TRAWL_EVENT_ROOM, WHOLE = TWIN_REPLAY_ROOM(LONGEST) };

static uint8_t recording[LONGEST + 8], core_room[GUARD + WHOLE + LEAST + GUARD], twin[WHOLE], box[TRAWL_MEMORY], before[TRAWL_MEMORY];
static uint8_t *const core = core_room + GUARD;
static unsigned long replays, pieces, output;

static void differs(const char *what, size_t n) {
    FILE *f = fopen("differs.rec", "wb");
    if (f) {
        fwrite(recording, 1, n, f);
        fclose(f);
    }
    fprintf(stderr, "differs: a recording of %lu bytes (differs.rec), %s\n", (unsigned long)n, what);
    exit(1);
}

/* ---- both ---- */

static void guard(uint8_t *room, size_t n) {
    for (size_t i = 0; i < GUARD; i++) room[i] = room[GUARD + n + i] = (uint8_t)(0xC3 + i);
}

static int is_guarded(const uint8_t *room, size_t n) {
    for (size_t i = 0; i < GUARD; i++)
        if (room[i] != (uint8_t)(0xC3 + i) || room[GUARD + n + i] != (uint8_t)(0xC3 + i)) return 0;
    return 1;
}

/* one piece from a place on, into a buffer of this size: the bytes behind what it wrote stay, and so do the guards */
static uint32_t one_piece(size_t n, size_t *at, size_t room, size_t *length) {
    uint32_t code;
    memset(core, 0x55, room);
    guard(core_room, room);
    *length = 77;
    code = trawl_replay(box, sizeof box, recording, n, at, core, room, length);
    if (*length > room) differs("the length", n);
    for (size_t i = *length; i < room; i++)
        if (core[i] != 0x55) differs("bytes behind the output", n);
    if (!is_guarded(core_room, room)) differs("guard bytes", n);
    return code;
}

/* a piece that is refused: nothing changes, and the place neither */
static void refused(uint32_t code, size_t n, size_t at, size_t room) {
    size_t place = at, length;
    memcpy(before, box, sizeof box);
    if (one_piece(n, &place, room, &length) != code) differs("the code of a piece that is refused", n);
    if (place != at || length != 0 || memcmp(before, box, sizeof box)) differs("a piece that is refused", n);
}

/* the pieces of this size, joined, are the whole, m bytes; each moves the place */
static void in_pieces(size_t n, size_t m, size_t room) {
    size_t at = 0, total = 0, length, from;
    memset(box, 0, sizeof box);
    while (at < n) {
        from = at;
        if (one_piece(n, &at, room, &length) != 0) differs("the code", n);
        if (at <= from || at > n) differs("the place", n);
        if (length > m - total || memcmp(core, twin + total, length)) differs("the output", n);
        if (at < n && room - length >= LEAST) differs("a piece that left off with room", n);
        total += length, pieces++;
    }
    if (total != m) differs("the length", n);
    if (one_piece(n, &at, room, &length) != 0 || at != n || length != 0) differs("a piece at the end", n);
    at = n + 5;
    if (one_piece(n, &at, room, &length) != 0 || at != n + 5 || length != 0) differs("a piece past the end", n);
}

/* both replay the first n bytes: the core in pieces of the least size, of some other and of one that takes all */
static size_t both(size_t n) {
    size_t m = 77, at = 0, length;
    if (twin_replay(recording, n, twin, sizeof twin, &m, NULL)) differs("no room for the twin's whole replay", n);
    in_pieces(n, m, LEAST);
    in_pieces(n, m, LEAST + below(3 * LEAST));
    in_pieces(n, m, m + LEAST);
    memset(box, 0, sizeof box);
    if (one_piece(n, &at, LEAST + below(LEAST), &length) != 0) differs("the code", n);
    refused(0x04, n, at, below(LEAST));
    box[4] = 9; /* the open mark of channel 1: neither 0 nor 1 */
    refused(0x1A, n, at, chance(50) ? LEAST : below(LEAST));
    replays++, output += m;
    return m;
}

/* ---- editions ---- */

/* both replay the first n bytes, and write these */
static void writes(size_t n, const char *expected, size_t m) {
    if (both(n) != m || memcmp(twin, expected, m)) differs("not what was worked out", n);
}

/* a connect with 125,000, a connect with 500,000 and a set of 125,000, behind the first n bytes */
static size_t old_rates(size_t n) {
    uint8_t *p = put_number(put_number(put_number(put_number(put_number(recording + n, CONNECT), 0), 5), 0), 125000);
    p = put_number(put_number(put_number(put_number(put_number(p, CONNECT), 1), 5), 0), 500000);
    return (size_t)(put_number(put_number(put_number(put_number(p, SET), 2), 1), 125000) - recording);
}

static void editions(void) {
    static const uint32_t others[] = {0, 1, 3, 4, 127, 128, 130, 255, 256, 258, 300, 65538, 0xFFFFFFFF};
    size_t n;
    writes(old_rates(0), "\x00\x01\x00\x02\x00", 5);
    writes(old_rates(mark(recording, 2)), "\x19\x00\x02\x05", 4);
    for (size_t i = 0; i < sizeof others / sizeof *others; i++) writes(old_rates(mark(recording, others[i])), "\xFF\x01", 2);
    recording[0] = 0, writes(1, "\xFF\x01", 2);
    writes(mark(recording, 2), "", 0);
    memcpy(recording, "\x00\x82\x00", 3), writes(old_rates(3), "\xFF\x01", 2);
    memcpy(recording, "\x80\x00\x02", 3), writes(old_rates(3), "\xFF\x01", 2);
    memcpy(recording, "\x00\x02\x00\x02", 4), writes(old_rates(4), "\xFF\x01", 2);
    memcpy(recording, "\x00\x02\x03\x00\x02", 5), writes(old_rates(5), "\x00\xFF\x01", 3);
    memcpy(recording, "\x03\x00\x02", 3), writes(old_rates(3), "\x00\xFF\x01", 3);
    for (int with = 0; with < 2; with++) {
        memset(recording, CLOSE, sizeof recording);
        if (with) mark(recording, 2);
        for (n = LONGEST - 2; n <= LONGEST + 3; n++)
            if (both(n) != (n > LONGEST ? 2u : n - (with ? 2u : 0u))) differs("the mark's bytes count and write nothing", n);
    }
}

/* the readings' first two examples of listeners */
static void listeners(void) {
    static const char first[] = "\x01\x00\x05\x80\x80\x80\x80\x01\xA0\xC2\x1E\x0A\x01\x00\x0C\x01\x0D\x01\x0B\x01\x01\x0E\x01\x01\x09\x01\x01"
                                "\x10\x01\x03\x01\x01\x00\x05\x00\xA0\xC2\x1E";
    static const char second[] = "\x01\x00\x06\x80\x80\x80\x80\x01\xA0\xC2\x1E\x01\x00\x05\x80\x92\x80\x80\x01\xA0\xC2\x1E";
    memcpy(recording, first, sizeof first - 1), writes(sizeof first - 1, "\x00\x01\x01\x00\x01\x01\x10\x00\x00\x0D\x00\x14", 12);
    memcpy(recording, second, sizeof second - 1), writes(sizeof second - 1, "\x06\x00\x01", 3);
}

int main(int argc, char **argv) {
    uint32_t rounds = argc > 2 ? (uint32_t)strtoul(argv[2], NULL, 10) : 1;
    size_t n;
    seed = argc > 1 ? strtoull(argv[1], NULL, 10) : 1;
    if (seed == 0) seed = 1;
    if (rounds == 0) rounds = 1;
    for (uint32_t r = 0; r < 400 * rounds; r++) {
        n = some_recording(recording, chance(10) ? LONGEST : 80 + below(12000), (int)(r % 4) * 5);
        both(n);
        both(below((uint32_t)n + 1)); /* cut short */
        for (uint32_t k = 1 + below(3); k > 0; k--) recording[below((uint32_t)n)] = (uint8_t)any();
        both(n);
    }
    editions();
    listeners();
    both(0);
    printf("replays agree: %lu recordings, %lu made with the mark of edition 2, of about %lu events, %lu bytes of output, in %lu pieces\n", replays,
           made.marked, made.events, output, pieces);
    return 0;
}
