/* A whole program over the box, with everything outside it simulated: a car on line 0 that answers a tester's requests, and a body bus on line 1
 * that a logger writes down. It prints both in words, and its output is kept in car.out.
 *
 *   cc -std=c99 -I include c/examples/car.c target/staticlib/PROCESSOR/libpassthru.a -o car && ./car
 *
 * Four parts: the controllers (what your hardware does), the world (the car and the bus), the driver's loop (the header's; two sendings
 * fail), and the two applications, which only call the box. Time is simulated too, so that every run is the same. */
#define TRAWL_NO_J2534_NAMES
#include <stdio.h>
#include <string.h>

#include "trawlpepper.h"

enum { CAR = 0, BODY = 1, LINES = 4, WAITING = 64, STEP = 1000, END = 400000 };

static uint8_t box[TRAWL_MEMORY]; /* all that the box remembers */
static uint32_t now;              /* simulated microseconds */

/* ---- the controllers ---- */

typedef struct {
    uint32_t wide, identifier;
    uint8_t data[8];
    size_t n;
} frame;

typedef struct {
    frame received[WAITING]; /* from the wire, oldest first */
    uint32_t due[WAITING];   /* when each of them is there */
    unsigned waiting;
    frame sending;           /* handed over by the driver */
    int busy, has_sent;
    unsigned fails;          /* so many of the next sendings fail */
    unsigned tries;          /* how often the frame in flight was handed over */
} controller;

static controller controllers[LINES];
static unsigned retries;

static void put_on_wire(unsigned line, uint32_t due, uint32_t wide, uint32_t identifier, const uint8_t *data, size_t n) {
    controller *c = &controllers[line];
    frame *f = &c->received[c->waiting];
    if (c->waiting == WAITING) return;
    c->due[c->waiting++] = due;
    f->wide = wide, f->identifier = identifier, f->n = n;
    memset(f->data, 0, sizeof f->data);
    if (n) memcpy(f->data, data, n);
}

static int controller_received(unsigned line, frame *f) {
    controller *c = &controllers[line];
    if (c->waiting == 0 || c->due[0] > now) return 0;
    *f = c->received[0];
    c->waiting--;
    memmove(c->received, c->received + 1, c->waiting * sizeof *c->received);
    memmove(c->due, c->due + 1, c->waiting * sizeof *c->due);
    return 1;
}

static int controller_has_sent(unsigned line) {
    int sent = controllers[line].has_sent;
    controllers[line].has_sent = 0;
    return sent;
}

static void controller_send(unsigned line, const uint8_t *record) {
    controller *c = &controllers[line];
    c->sending.wide = trawl_record_wide(record);
    c->sending.identifier = trawl_record_identifier(record);
    c->sending.n = trawl_record_data_size(record);
    memcpy(c->sending.data, trawl_record_data(record), sizeof c->sending.data);
    c->busy = 1;
    if (c->tries++ > 0) retries++;
}

/* ---- the world: a car that answers on line 0, a body bus that talks on line 1 ---- */

static void car_hears(const frame *f) {
    uint8_t answer[8] = {0x04, 0x41, 0x00, 0x00, 0x00, 0x00, 0x00, 0x00};
    if (f->wide || f->identifier != 0x7E0 || f->n < 3 || f->data[0] != 0x02 || f->data[1] != 0x01) return;
    answer[2] = f->data[2];
    switch (f->data[2]) {
    case 0x05: answer[0] = 0x03, answer[3] = 130; break;
    case 0x0C: answer[3] = 0x1A, answer[4] = 0xF8; break;
    case 0x0D: answer[0] = 0x03, answer[3] = 87; break;
    default: answer[0] = 0x03, answer[1] = 0x7F, answer[2] = 0x01, answer[3] = 0x12; break;
    }
    put_on_wire(CAR, now + 3000, 0, 0x7E8, answer, sizeof answer);
}

static void body_bus(void) {
    static const uint8_t noise[2] = {0xAA, 0x55};
    uint8_t door = now >= 200000, speed[2] = {0, 87};
    unsigned i;
    if (now % 20000 == 0) put_on_wire(BODY, now, 0, 0x7FF, noise, sizeof noise);
    if (now % 100000 == 0) put_on_wire(BODY, now, 0, 0x3B0, &door, 1);
    if (now % 150000 == 0) put_on_wire(BODY, now, 1, 0x18FEF121, speed, sizeof speed);
    if (now == 320000)
        for (i = 0; i < 40; i++) put_on_wire(BODY, now, 0, 0x500, NULL, 0);
}

static void world(void) {
    unsigned line;
    for (line = 0; line < LINES; line++) {
        controller *c = &controllers[line];
        if (!c->busy) continue;
        c->busy = 0;
        if (c->fails > 0) {
            c->fails--;
            printf("%7.3f ms  controller of line %u: not sent, nobody acknowledged\n", now / 1000.0, line);
            continue;
        }
        c->has_sent = 1;
        c->tries = 0;
        if (line == CAR) car_hears(&c->sending);
    }
    body_bus();
}

/* ---- the driver's loop ---- */

static void driver(uint32_t elapsed) {
    uint8_t record[TRAWL_RECORD];
    uint32_t line;
    frame f;
    for (; elapsed > 1000000u; elapsed -= 1000000u) trawl_advance(box, sizeof box, 1000000u);
    trawl_advance(box, sizeof box, elapsed);
    for (line = 0; line < LINES; line++) {
        if (controller_has_sent(line)) trawl_sent(box, sizeof box, line + 1);
        while (controller_received(line, &f)) trawl_frame(box, sizeof box, line, f.wide, f.identifier, f.data, f.n);
        if (!controllers[line].busy && trawl_take(box, sizeof box, line + 1, record, sizeof record) == TRAWL_STATUS_NOERROR)
            controller_send(line, record);
    }
}

/* ---- the tester: asks the car on line 0 ---- */

static uint32_t tester;
static unsigned asked, answered;

static int good(uint32_t code, const char *what) {
    if (code != TRAWL_STATUS_NOERROR) printf("%s: code 0x%02X\n", what, (unsigned)code);
    return code == TRAWL_STATUS_NOERROR;
}

static void tester_starts(void) {
    static const uint8_t here[3] = {0x02, 0x3E, 0x80};
    uint8_t mask[TRAWL_RECORD], pattern[TRAWL_RECORD], message[TRAWL_RECORD];
    uint32_t number;
    good(trawl_connect(box, sizeof box, CAR, TRAWL_CAN, 0, 500000, &tester), "connect");
    trawl_record_make(mask, 0, 0x7FF, NULL, 0);
    trawl_record_make(pattern, 0, 0x7E8, NULL, 0);
    good(trawl_start_filter(box, sizeof box, tester, TRAWL_PASS_FILTER, mask, sizeof mask, pattern, sizeof pattern, &number), "filter");
    good(trawl_set(box, sizeof box, tester, TRAWL_LOOPBACK, 1), "loopback");
    trawl_record_make(message, 0, 0x7E0, here, sizeof here);
    good(trawl_start_periodic(box, sizeof box, tester, message, sizeof message, 150, &number), "periodic");
}

static void tester_asks(uint8_t what) {
    uint8_t message[TRAWL_RECORD], data[3];
    uint32_t count;
    data[0] = 0x02, data[1] = 0x01, data[2] = what;
    trawl_record_make(message, 0, 0x7E0, data, sizeof data);
    if (good(trawl_write(box, sizeof box, tester, 1, message, sizeof message, &count), "write")) asked += count;
}

static void in_words(const uint8_t *record) {
    const uint8_t *d = trawl_record_data(record);
    size_t i, n = trawl_record_data_size(record);
    printf("%7.3f ms  tester %s 0x%03X", trawl_record_time(record) / 1000.0, trawl_record_echo(record) ? "sent " : "hears",
           (unsigned)trawl_record_identifier(record));
    for (i = 0; i < n && i <= d[0]; i++) printf(" %02X", d[i]);
    if (trawl_record_echo(record)) {
        if (d[1] == 0x3E) printf(": I am still here\n");
        else printf(": %s?\n", d[2] == 0x0C ? "engine speed" : d[2] == 0x0D ? "speed" : d[2] == 0x05 ? "coolant" : "something else");
        return;
    }
    answered++;
    if (d[1] == 0x7F) printf(": the car doesn't know that\n");
    else if (d[2] == 0x0C) printf(": engine speed %u a minute\n", (256u * d[3] + d[4]) / 4u);
    else if (d[2] == 0x0D) printf(": %u km/h\n", (unsigned)d[3]);
    else printf(": coolant at %u degrees\n", d[3] - 40u);
}

/* reads until nothing is left; gives 1 where the box told of a loss */
static int read_all(uint32_t channel, void (*show)(const uint8_t *record)) {
    uint8_t records[8 * TRAWL_RECORD];
    uint32_t code, count, i;
    int lost = 0;
    do {
        code = trawl_read(box, sizeof box, channel, 8, records, sizeof records, &count);
        if (code == TRAWL_ERR_BUFFER_OVERFLOW) lost = 1;
        for (i = 0; i < count; i++) show(records + i * TRAWL_RECORD);
    } while (count == 8);
    return lost;
}

/* ---- the logger: writes down the body bus on line 1 ---- */

static uint32_t logger;
static unsigned logged, losses, burst;

static void logger_starts(void) {
    uint8_t any[TRAWL_RECORD], mask[TRAWL_RECORD], noise[TRAWL_RECORD];
    uint32_t number, wide;
    good(trawl_connect(box, sizeof box, BODY, TRAWL_CAN, TRAWL_CAN_ID_BOTH, 250000, &logger), "connect");
    for (wide = 0; wide < 2; wide++) {
        trawl_record_make(any, wide, 0, NULL, 0);
        good(trawl_start_filter(box, sizeof box, logger, TRAWL_PASS_FILTER, any, sizeof any, any, sizeof any, &number), "filter");
    }
    trawl_record_make(mask, 0, 0x7FF, NULL, 0);
    trawl_record_make(noise, 0, 0x7FF, NULL, 0);
    good(trawl_start_filter(box, sizeof box, logger, TRAWL_BLOCK_FILTER, mask, sizeof mask, noise, sizeof noise, &number), "filter");
}

static void log_record(const uint8_t *record) {
    const uint8_t *d = trawl_record_data(record);
    uint32_t identifier = trawl_record_identifier(record);
    logged++;
    if (identifier == 0x500) {
        burst++;
        return;
    }
    printf("%7.3f ms  logger: ", trawl_record_time(record) / 1000.0);
    if (trawl_record_wide(record)) printf("wheels at %u km/h (0x%08X)\n", 256u * d[0] + d[1], (unsigned)identifier);
    else printf("driver's door %s (0x%03X)\n", d[0] ? "open" : "shut", (unsigned)identifier);
}

static void logger_reads(void) {
    int lost;
    burst = 0;
    lost = read_all(logger, log_record);
    if (burst) printf("%7.3f ms  logger: %u frames of a burst\n", now / 1000.0, burst);
    if (lost) printf("%7.3f ms  logger: the box tells that frames were lost\n", now / 1000.0);
    losses += (unsigned)lost;
}

/* ---- all of it ---- */

int main(void) {
    if (!good(trawl_power_on(box, sizeof box), "power-on")) return 1;
    tester_starts();
    logger_starts();
    for (now = 0; now < END; now += STEP) {
        if (now == 10000) tester_asks(0x0C);
        if (now == 60000) controllers[CAR].fails = 2, tester_asks(0x0D);
        if (now == 110000) tester_asks(0x05);
        if (now == 160000) tester_asks(0x5C);
        world();
        driver(now == 0 ? 0 : STEP);
        read_all(tester, in_words);
        logger_reads();
    }
    printf("tester: %u requests, %u answers, %u sendings repeated\n", asked, answered, retries);
    printf("logger: %u records, told %u time of a loss\n", logged, losses);
    return asked == answered && trawl_valid(box, sizeof box) ? 0 : 1;
}
