/* Shift reports to hold the program against: `reports FOLDER [SEED [ROUNDS]]`. Recordings of random events, with and without an edition, whole, cut
 * short, damaged, empty and too long, each as FOLDER/N.rec with the twin's report of it as FOLDER/N.txt. The twin's numbers balance. */
#include <stdio.h>
#include <stdlib.h>
#include <string.h>

#include "../twin/report.h"
#include "maker.h"
#include "support.h"

enum { LONGEST = 32768, LISTENER = 0x10000000 };

static uint8_t recording[LONGEST + 8];
static const char *folder;
static unsigned files, bad;
static unsigned long total[NUMBERS];

static void write_file(const char *kind, const void *from, size_t n) {
    char name[512];
    FILE *f;
    snprintf(name, sizeof name, "%s/%u.%s", folder, files, kind);
    f = fopen(name, "wb");
    if (!f || fwrite(from, 1, n, f) != n || fclose(f)) {
        fprintf(stderr, "reports: %s cannot be written\n", name);
        exit(1);
    }
}

/* the first n bytes, with the twin's report of them */
static void reported(size_t n) {
    static uint32_t numbers[4][NUMBERS];
    static char text[TWIN_REPORT_TEXT];
    bad += (unsigned)twin_report(recording, n, numbers);
    for (int l = 0; l < 4; l++) {
        const uint32_t *of = numbers[l];
        if (of[PASSED] + of[ECHOED] != of[LOST] + of[READ_OUT] + of[CLEARED] + of[DROPPED] + of[HELD] ||
            of[OFFERED] != of[OF_WIDTH] + of[UNMATCHED] + of[BLOCKED] + of[PASSED]) {
            fprintf(stderr, "reports: the twin's numbers of channel %d do not balance, recording %u\n", l + 1, files);
            exit(1);
        }
        for (int i = 0; i < NUMBERS; i++) total[i] += of[i];
    }
    write_file("rec", recording, n);
    write_file("txt", text, twin_report_text(numbers, text));
    files++;
}

/* ---- a busy shift: filters of both types over some bits of the identifier, many frames, echoes, and now and then what empties a queue ---- */

static uint8_t *put_all(uint8_t *p, const uint32_t *v, size_t n) {
    for (size_t i = 0; i < n; i++) p = put_number(p, v[i]);
    return p;
}

#define PUT(p, ...) put_all(p, (const uint32_t[]){__VA_ARGS__}, sizeof((const uint32_t[]){__VA_ARGS__}) / sizeof(uint32_t))

/* a record of 36 bytes: TxFlags, and bytes of data of which the fourth is given */
static uint8_t *put_record(uint8_t *p, uint32_t flags, uint32_t size, uint8_t fourth) {
    memset(p, 0, 36);
    p[0] = 5, p[9] = (uint8_t)(flags >> 8), p[16] = (uint8_t)size, p[20] = (uint8_t)size, p[27] = fourth;
    return p + 36;
}

static uint8_t *busy_event(uint8_t *p) {
    uint32_t line = below(4), channel = line + 1, wide = chance(20);
    switch (below(80)) {
    case 0: return PUT(p, CLEAR, channel, 1 + below(4));
    case 1: return PUT(p, READ, channel, below(8) * below(8));
    case 2: return chance(20) ? PUT(p, CLOSE) : PUT(p, DISCONNECT, channel);
    case 3: case 4: case 5: return PUT(p, CONNECT, line, 5, ONE_OF(0, 0x100, 0x800, 0x800) | (chance(20) ? LISTENER : 0), 500000);
    case 6: case 7: {
        uint8_t bits = (uint8_t)(1u << below(4)), type = chance(75) ? 1 : 2;
        p = put_record(PUT(p, START_FILTER, channel, type), wide << 8, 4, chance(40) ? 0 : bits);
        return put_record(p, wide << 8, 4, 0);
    }
    case 8: return PUT(p, SET, channel, 3, 1);
    case 9: case 10: case 11: return put_record(PUT(p, WRITE, channel, 1), wide << 8, 4 + below(9), (uint8_t)any());
    case 12: case 13: case 14: return PUT(PUT(p, TAKE, channel), SENT, channel);
    default: return PUT(p, FRAME, line, wide, below(16), 0);
    }
}

static size_t busy_recording(size_t most) {
    size_t n = 0;
    for (;;) {
        uint8_t one[128], *end = busy_event(one);
        if (n + (size_t)(end - one) > most) return n;
        memcpy(recording + n, one, (size_t)(end - one));
        n += (size_t)(end - one), made.events++;
    }
}

int main(int argc, char **argv) {
    uint32_t rounds = argc > 3 ? (uint32_t)strtoul(argv[3], NULL, 10) : 1;
    size_t n;
    if (argc < 2) return 2;
    folder = argv[1];
    seed = argc > 2 ? strtoull(argv[2], NULL, 10) : 1;
    if (seed == 0) seed = 1;
    if (rounds == 0) rounds = 1;
    for (uint32_t r = 0; r < 15 * rounds; r++) {
        n = some_recording(recording, chance(30) ? LONGEST : 80 + below(12000), (int)(r % 4) * 5);
        reported(n);
        reported(below((uint32_t)n + 1)); /* cut short */
        recording[below((uint32_t)n)] = (uint8_t)any();
        reported(n);
        reported(busy_recording(400 + below(LONGEST - 400)));
    }
    reported(0);
    memset(recording, CLOSE, sizeof recording);
    reported(LONGEST);
    reported(LONGEST + 1);
    mark(recording, 2);
    reported(2);
    reported(LONGEST + 1);
    printf("%u recordings, %lu made with the mark of edition 2, of about %lu events, %u with a bad one, whose numbers balance:", files, made.marked, made.events, bad);
    for (int i = 0; i < NUMBERS; i++) printf(" %lu", total[i]);
    printf("\n");
    return 0;
}
