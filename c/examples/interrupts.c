/* The box with interrupts: the interrupts put what happened into a ring, with the time, and the main program makes all calls. So no call is ever
 * interrupted by another, and every frame has the time at which it came and not the one at which the main program got to it. The interrupts are
 * simulated here, so that every run is the same; the output is kept in interrupts.out.
 *
 *   cc -std=c99 -I include c/examples/interrupts.c target/staticlib/PROCESSOR/libpassthru.a -o interrupts && ./interrupts
 */
#define TRAWL_NO_J2534_NAMES
#include <stdio.h>

#include "trawlpepper.h"

static uint8_t box[TRAWL_MEMORY];
static const uint32_t start = 0xFFFFF000u; /* of the timer; it wraps 4,096 us later */

/* ---- the ring: one writer (the interrupt), one reader (the main program) ---- */

enum { RING = 8 }; /* a power of two */

typedef struct {
    uint32_t time; /* of the timer, in microseconds */
    uint32_t line, sent, wide, identifier;
    uint8_t data[8], n;
} event;

static volatile event ring[RING];
static volatile uint32_t written, taken; /* only the interrupt writes the one, only the main program the other */
static volatile uint32_t overruns;       /* what found no place in the ring: a loss that only you can count */

/* Called by the interrupt. One place for each line in use, here one, is kept for its 'sent', of which there is never more than one: a sent that
 * got lost would have its frame sent again. On a processor that reorders stores, put a barrier before `written` moves. */
static void put(uint32_t time, uint32_t line, uint32_t sent, uint32_t identifier, uint8_t byte) {
    volatile event *e = &ring[written % RING];
    if (written - taken >= (sent ? RING : RING - 1)) {
        overruns++;
        return;
    }
    e->time = time, e->line = line, e->sent = sent, e->wide = 0, e->identifier = identifier;
    e->data[0] = byte, e->n = 1;
    written++;
}

/* ---- time: what the box has been told so far ---- */

static uint32_t told;

/* The box's time moves up to a time of the timer. Differences of 32-bit numbers are right across the timer's wrap. */
static void until(uint32_t time) {
    uint32_t us = time - told;
    if (us > 0x7FFFFFFFu) return; /* an event from before what was told: it gets the box's time */
    for (; us > 1000000u; us -= 1000000u) trawl_advance(box, sizeof box, 1000000u);
    trawl_advance(box, sizeof box, us);
    told = time;
}

/* ---- a simulated controller on line 2: it takes 250 us to send a frame, and interrupts for that and for each frame that comes ---- */

enum { LINE = 2 };

static const uint32_t comes[] = {1300, 1800, 6001, 9100, 9101, 9102, 9103, 9104, 9105, 9106, 9107, 9108, 9109}; /* us after the start */
static uint32_t came, done_at;
static int busy;

static void controller_send(uint32_t timer, const uint8_t *record) {
    printf("%7u us  0x%03X is handed to the controller\n", (unsigned)(timer - start), (unsigned)trawl_record_identifier(record));
    busy = 1;
    done_at = timer + 250;
}

static void sent_interrupt(uint32_t timer) {
    if (busy && timer - done_at < 0x80000000u) {
        put(done_at, LINE, 1, 0, 0);
        busy = 0;
    }
}

static void interrupts(uint32_t timer) { /* all that come up to a time, in their order */
    for (; came < sizeof comes / sizeof *comes && start + comes[came] - timer > 0x80000000u; came++) {
        sent_interrupt(start + comes[came]);
        put(start + comes[came], LINE, 0, 0x7E0 + came, (uint8_t)came);
    }
    sent_interrupt(timer);
}

/* ---- the main program's part: everything that waits in the ring, then what is to be sent ---- */

static void serve(uint32_t timer) {
    uint8_t record[TRAWL_RECORD], data[8];
    while (taken != written) {
        volatile event *e = &ring[taken % RING];
        size_t i;
        for (i = 0; i < e->n; i++) data[i] = e->data[i];
        until(e->time);
        if (e->sent) trawl_sent(box, sizeof box, e->line + 1);
        else trawl_frame(box, sizeof box, e->line, e->wide, e->identifier, data, e->n);
        taken++;
    }
    until(timer);
    if (!busy && trawl_take(box, sizeof box, LINE + 1, record, sizeof record) == TRAWL_STATUS_NOERROR) controller_send(timer, record);
}

static void show(uint32_t channel) {
    uint8_t records[32 * TRAWL_RECORD];
    uint32_t count, i, code = trawl_read(box, sizeof box, channel, 32, records, sizeof records, &count);
    for (i = 0; i < count; i++) {
        const uint8_t *r = records + i * TRAWL_RECORD;
        printf("            read: 0x%03X %s at %u us\n", (unsigned)trawl_record_identifier(r), trawl_record_echo(r) ? "was sent" : "came",
               (unsigned)trawl_record_time(r));
    }
    if (code == TRAWL_ERR_BUFFER_OVERFLOW) printf("            the box tells of a loss\n");
}

int main(void) {
    uint8_t every[TRAWL_RECORD], message[TRAWL_RECORD], byte = 1;
    uint32_t channel, number, i;
    trawl_power_on(box, sizeof box);
    told = start;
    trawl_connect(box, sizeof box, LINE, TRAWL_CAN, 0, 500000, &channel);
    trawl_set(box, sizeof box, channel, TRAWL_LOOPBACK, 1);
    trawl_record_make(every, 0, 0, NULL, 0);
    trawl_start_filter(box, sizeof box, channel, TRAWL_PASS_FILTER, every, sizeof every, every, sizeof every, &number);
    trawl_record_make(message, 0, 0x100, &byte, 1);
    trawl_start_periodic(box, sizeof box, channel, message, sizeof message, 5, &number);
    for (i = 0; i < 5; i++) { /* the main program gets there every 3 ms */
        uint32_t timer = start + 3000 * i;
        interrupts(timer);
        serve(timer);
        show(channel);
    }
    printf("%u found no place in the ring\n", (unsigned)overruns);
    return 0;
}
