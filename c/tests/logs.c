/* candump logs to hold the programs against: `logs FOLDER [SEED [ROUNDS]]`. Random logs, good and damaged in every way that the scope lists, each as
 * FOLDER/N.log with its start as N.start, the twin's recording as N.out and what is said of the line that stopped it as N.err; random recordings, each
 * as FOLDER/N.rec with its start and the twin's export as N.txt. In the twin an export comes back. */
#include <stdio.h>
#include <stdlib.h>
#include <string.h>

#include "../twin/logs.h"
#include "maker.h"
#include "support.h"

enum { LONGEST = 32768, LOG_ROOM = 262144 };

static uint8_t recording[LONGEST + 8], imported[LONGEST];
static char log_text[2 * LOG_ROOM], exported[LONGEST * 11], again[LONGEST * 11];
static size_t size;
static const char *folder;
static unsigned logs, recordings, stopped[5], unread;

static void write_file(const char *kind, const void *from, size_t n) {
    char name[512];
    FILE *f;
    snprintf(name, sizeof name, "%s/%u.%s", folder, logs + recordings, kind);
    f = fopen(name, "wb");
    if (!f || fwrite(from, 1, n, f) != n || fclose(f)) {
        fprintf(stderr, "logs: %s cannot be written\n", name);
        exit(1);
    }
}

/* a start in microseconds as an argument: without needless decimals, or with all six */
static void write_start(uint64_t start) {
    char text[40];
    int n = sprintf(text, "%llu.%06llu", (unsigned long long)(start / 1000000), (unsigned long long)(start % 1000000));
    if (chance(70)) {
        while (text[n - 1] == '0') n--;
        if (text[n - 1] == '.') n--;
    }
    write_file("start", text, (size_t)n);
}

/* what the program says of a line */
static const char *const words[] = {
    NULL,
    "malformed, it is not written as (1436509052.249713) can0 044#2A366C2B",
    "unknown name, only can0 to can3 are lines",
    "its time goes back, or lies before the start",
    "it would take the recording past 32768 bytes",
    "not read, the log has more than 262144 bytes",
};

static void write_error(size_t line, int why) {
    char text[160];
    int n = why ? sprintf(text, "import: line %zu: %s\n", line, words[why]) : 0;
    write_file("err", text, (size_t)n);
}

/* where the lines that are whole in the room end; the number of the next line */
static size_t whole_lines(size_t *line) {
    size_t end = 0;
    *line = 1;
    for (size_t i = 0; i < LOG_ROOM; i++)
        if (log_text[i] == '\n') end = i + 1, ++*line;
    return end;
}

/* the log, with the twin's recording of it */
static void log_case(uint64_t start) {
    size_t line = 0, part = size > LOG_ROOM ? whole_lines(&line) : size;
    twin_imported done = twin_import(start, log_text, part, imported);
    if (done.why == LOG_GOES_ON && size > LOG_ROOM) done.why = 5, done.line = line, unread++;
    else stopped[done.why]++;
    write_file("log", log_text, size);
    write_file("out", imported, done.bytes);
    write_start(start);
    write_error(done.line, done.why);
    logs++;
}

/* the recording, with the twin's export of it, which comes back */
static void recording_case(uint64_t start, size_t n) {
    size_t text = twin_export(start, recording, n, exported);
    twin_imported back = twin_import(start, exported, text, imported);
    if (back.line || back.bytes > n || twin_export(start, imported, back.bytes, again) != text || memcmp(exported, again, text)) {
        fprintf(stderr, "logs: the twin's export of recording %u does not come back\n", logs + recordings);
        exit(1);
    }
    write_file("rec", recording, n);
    write_file("txt", exported, text);
    write_start(start);
    recordings++;
}

/* ---- random logs ---- */

static uint64_t some_start(void) {
    uint64_t micros = chance(30) ? 0 : below(1000000);
    switch (below(4)) {
    case 0: return micros;
    case 1: return 4000000000000000u;
    case 2: return below(4000000000u) * 1000000ull + micros;
    default: return 1436509052000000u + micros;
    }
}

/* a line that is good, behind others of a time; lower case here and there */
static int good_line(char *to, uint64_t *time) {
    int wide = chance(40), n;
    uint32_t id = chance(30) ? below(200) : any() & (wide ? 0x1FFFFFFF : 0x7FF), bytes = below(9);
    *time += chance(40) ? 0 : chance(60) ? below(300) : chance(80) ? below(20000) : below(3000000);
    n = sprintf(to, chance(95) ? "(%llu.%06llu) can%u %0*lX#" : "(000%llu.%06llu) can%u %0*lx#", (unsigned long long)(*time / 1000000),
                (unsigned long long)(*time % 1000000), (unsigned)below(4), wide ? 8 : 3, (unsigned long)id);
    for (uint32_t i = 0; i < bytes; i++) n += sprintf(to + n, chance(80) ? "%02X" : "%02x", (unsigned)(any() & 255));
    return n;
}

#define SECONDS "(%llu.%06llu)"
#define OF(t) (unsigned long long)((t) / 1000000), (unsigned long long)((t) % 1000000)

/* one that stops an import, or nearly does */
static int bad_line(char *to, uint64_t time) {
    static const char *const forms[] = {
        SECONDS " can0 123#R", SECONDS " can0 123#R8", SECONDS " can0 123##1001122", SECONDS " can1 1#00", SECONDS " can1 12#00",
        SECONDS " can1 1234#00", SECONDS " can1 1234567#00", SECONDS " can1 123456789#00", SECONDS " can1 800#00", SECONDS " can1 20000000#00",
        SECONDS " can1 FFFFFFFF#", SECONDS " can2 123#0", SECONDS " can2 123#001122334455667788", SECONDS " can2 123#00112233445566778",
        SECONDS " can2 123#00.11.22", SECONDS " can2 123#00 11", SECONDS " can2 123#0G", SECONDS " can2 12G#00", SECONDS " can2 123#00 T",
        SECONDS " can2 123#00 ", SECONDS "  can2 123#00", SECONDS " can2  123#00", " " SECONDS " can2 123#00", SECONDS "can2 123#00",
        SECONDS " can2 123#00\t", SECONDS "\tcan2 123#00", SECONDS " can2 123", SECONDS " can2 #00", SECONDS " can2", SECONDS, SECONDS " ",
        SECONDS " vcan0 044#2A366C2B", SECONDS " can4 123#", SECONDS " can 123#", SECONDS " can10 123#", SECONDS " CAN0 123#", SECONDS " slcan0 123#00",
        SECONDS " can4 123#R", SECONDS " can2 123#00\r", SECONDS " can2 00000123#00\r", "\r", "%.0llu%.0llu", "# " SECONDS " can0 123#", "(%llu.%05llu1) can0 123#",
        "(%llu,%06llu) can0 123#", "(%llu %06llu) can0 123#", "%llu.%06llu can0 123#", "(-%llu.%06llu) can0 123#", "( %llu.%06llu) can0 123#", "(%llu.%06llu can0 123#",
        "(%llu%06llu) can0 123#", "(%llu.%06llu0) can0 123#", "(0x%llu.%06llu) can0 123#", "(a%llu.%06llu) can0 123#", "(.%llu%06llu) can0 123#",
        "(99999999999999999999999999%llu.%06llu) can0 123#", "(18446744073709551616%llu.%06llu) can1 7FF#", "(9%llu.%06llu) can0 123#",
    };
    if (chance(12) && time > 0) { /* back by a little or a lot */
        uint64_t back = 1 + (chance(50) ? 0 : below(2000000)), then = time > back ? time - back : 0;
        return sprintf(to, SECONDS " can3 00000001#", OF(then));
    }
    if (chance(8)) return sprintf(to, SECONDS " can3 7ff#", OF(time + 1000000ull * below(20000)));
    return sprintf(to, forms[below(sizeof forms / sizeof *forms)], OF(time));
}

static void some_log(void) {
    uint64_t start = some_start(), time = start;
    uint32_t lines = chance(20) ? 1 + below(4000) : 1 + below(40), bad = chance(60) ? below(lines) : lines;
    size = 0;
    for (uint32_t i = 0; i < lines; i++) {
        size += (size_t)(i == bad ? bad_line(log_text + size, time) : good_line(log_text + size, &time));
        if (i + 1 < lines || chance(70)) log_text[size++] = '\n';
    }
    if (size && chance(15)) log_text[below((uint32_t)size)] = (char)any();
    log_case(start);
}

/* so many lines of no data, with so many zeros before their seconds */
static void long_log(uint32_t lines, int zeros) {
    size = 0;
    for (uint32_t i = 0; i < lines; i++) size += (size_t)sprintf(log_text + size, "(%0*d.000000) can0 00000001#\n", zeros, 0);
    log_case(0);
}

/* ---- 32,768 bytes: 8,190 seconds and a frame of three bytes; with a fourth byte nothing ---- */

static void whole_recording(void) {
    static const uint8_t full[] = {4, 0xC0, 0x84, 0x3D}, frame[] = {5, 0, 0, 0x44, 3, 1, 2, 3};
    for (int i = 0; i < 8190; i++) memcpy(imported + 4 * i, full, 4);
    memcpy(imported + 4 * 8190, frame, 8);
    size = (size_t)sprintf(log_text, "(8190.000000) can0 044#010203\n");
    write_file("log", log_text, size);
    write_file("out", imported, LONGEST);
    write_file("start", "0", 1);
    write_error(0, 0);
    logs++;
    size = (size_t)sprintf(log_text, "(8190.000000) can0 044#01020304\n");
    write_file("log", log_text, size);
    write_file("out", imported, 0);
    write_file("start", "0", 1);
    write_error(1, LOG_FULL);
    logs++;
}

/* ---- recordings with many frames and advances ---- */

static size_t busy_recording(size_t most) {
    size_t n = chance(30) ? mark(recording, 2) : 0;
    for (;;) {
        uint8_t one[32], *p = one;
        if (chance(50)) {
            p = put_number(put_number(p, ADVANCE), ONE_OF(0, 1, 127, 128, 16383, 16384, 1000000, 1000000, 1000001, below(1100000)));
        } else {
            uint32_t wide = chance(45) ? 1 : chance(95) ? 0 : 2, bytes = chance(95) ? below(9) : below(12);
            p = put_number(put_number(put_number(put_number(p, FRAME), chance(95) ? below(4) : below(6)), wide), any() >> ONE_OF(3, 3, 4, 21, 21, 25));
            p = put_number(p, bytes);
            for (uint32_t i = 0; i < bytes; i++) *p++ = (uint8_t)any();
        }
        if (n + (size_t)(p - one) > most) return n;
        memcpy(recording + n, one, (size_t)(p - one));
        n += (size_t)(p - one);
    }
}

int main(int argc, char **argv) {
    uint32_t rounds = argc > 3 ? (uint32_t)strtoul(argv[3], NULL, 10) : 1;
    if (argc < 2) return 2;
    folder = argv[1];
    seed = argc > 2 ? strtoull(argv[2], NULL, 10) : 1;
    if (seed == 0) seed = 1;
    if (rounds == 0) rounds = 1;
    for (uint32_t r = 0; r < 8 * rounds; r++) {
        size_t n;
        for (int i = 0; i < 6; i++) some_log();
        n = some_recording(recording, chance(30) ? LONGEST : 80 + below(12000), (int)(r % 4) * 5);
        recording_case(some_start(), n);
        n = busy_recording(100 + below(LONGEST - 100));
        recording_case(some_start(), chance(70) ? n : below((uint32_t)n + 1));
        if (n) recording[below((uint32_t)n)] = (uint8_t)any();
        recording_case(some_start(), n);
    }
    size = 0;
    log_case(0);
    long_log(6553, 10); /* the longest that is imported whole, but for six data digits */
    long_log(6554, 10);
    long_log(6000, 30); /* longer than its room */
    long_log(1, LOG_ROOM);
    whole_recording();
    recording_case(0, 0);
    memset(recording, CLOSE, sizeof recording);
    recording_case(0, LONGEST);
    recording_case(0, LONGEST + 1);
    printf("%u logs, stopped by a malformed line %u, an unknown name %u, a time %u, the room %u, not read whole %u; %u recordings that come back\n", logs,
           stopped[LOG_MALFORMED], stopped[LOG_UNKNOWN], stopped[LOG_BACK], stopped[LOG_FULL], unread, recordings);
    return 0;
}
