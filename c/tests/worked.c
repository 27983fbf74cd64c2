/* The hand-worked recordings, through the archive and through the twin: `worked FOLDER/NAME.rec ..`. Each NAME.out beside it is what both replays
 * must write: the core's in pieces, joined, and the twin's whole, whose memory must be valid after every event. Both memories end alike. */
#include <stdio.h>
#include <stdlib.h>
#include <string.h>

#include "../../include/trawlpepper.h"
#include "../twin/replay.h"
#include "../twin/twin.h"

enum { LONGEST = 32768, PIECE = 2 * TRAWL_EVENT_ROOM, WHOLE = TWIN_REPLAY_ROOM(LONGEST) + PIECE };

static uint8_t recording[LONGEST + 1], expected[WHOLE], output[WHOLE], core[TRAWL_MEMORY], twin[TWIN_MEMORY];
static const char *playing;
static unsigned long events, written;

static void fail(const char *what) {
    fprintf(stderr, "worked: %s: %s\n", playing, what);
    exit(1);
}

static size_t all_of(const char *name, uint8_t *to, size_t room) {
    FILE *f = fopen(name, "rb");
    size_t n;
    if (!f) fail("cannot be opened");
    n = fread(to, 1, room, f);
    fclose(f);
    return n;
}

/* the core's, in pieces, each behind the one before it; how many bytes they are */
static size_t core_replay(size_t n) {
    size_t at = 0, length = 0, m;
    trawl_power_on(core, sizeof core);
    for (; at < n; length += m)
        if (trawl_replay(core, sizeof core, recording, n, &at, output + length, PIECE, &m) != STATUS_NOERROR) fail("the core does not replay it");
    return length;
}

static void after(const uint8_t *m) {
    events++;
    if (!twin_valid(m, TWIN_MEMORY)) fail("the twin's memory is not valid after an event");
    memcpy(twin, m, sizeof twin);
}

static size_t twin_whole(size_t n) {
    size_t length;
    memset(twin, 0, sizeof twin);
    if (twin_replay(recording, n, output, sizeof output, &length, after) != STATUS_NOERROR) fail("the twin does not replay it");
    return length;
}

/* a replay wrote `length` bytes: they are the m expected */
static void as_expected(size_t length, size_t m, const char *what) {
    size_t at = 0;
    while (at < m && at < length && output[at] == expected[at]) at++;
    if (at == m && at == length) return;
    fprintf(stderr, "worked: byte %lu of %lu and %lu\n", (unsigned long)at, (unsigned long)m, (unsigned long)length);
    fail(what);
}

int main(int argc, char **argv) {
    for (int i = 1; i < argc; i++) {
        size_t n, m, length = strlen(argv[i]);
        char name[1024];
        playing = argv[i];
        if (length < 4 || length >= sizeof name) fail("what a name");
        memcpy(name, argv[i], length - 4);
        memcpy(name + length - 4, ".out", 5);
        n = all_of(argv[i], recording, sizeof recording);
        m = all_of(name, expected, sizeof expected);
        as_expected(core_replay(n), m, "the core writes something else");
        as_expected(twin_whole(n), m, "the twin writes something else");
        if (memcmp(core, twin, sizeof core)) fail("core and twin end with different memories");
        written += m;
    }
    printf("hand-worked recordings agree: %d, %lu events, %lu bytes\n", argc - 1, events, written);
    return argc > 1 ? 0 : 1;
}
