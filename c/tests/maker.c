/* See maker.h. */
#include "maker.h"

#include <string.h>

#include "../../include/trawlpepper.h"
#include "support.h"

struct made made;

uint8_t *put_number(uint8_t *p, uint32_t v) {
    for (; v >= 0x80; v >>= 7) *p++ = (uint8_t)(v | 0x80);
    *p++ = (uint8_t)v;
    return p;
}

static uint8_t *raw(uint8_t *p, lent *from, size_t n) {
    memcpy(p, bytes(from), n);
    return p + n;
}

/* several numbers at p */
static uint8_t *put_numbers(uint8_t *p, const uint32_t *v, size_t n) {
    for (size_t i = 0; i < n; i++) p = put_number(p, v[i]);
    return p;
}

#define PUT(p, ...) put_numbers(p, (const uint32_t[]){__VA_ARGS__}, sizeof((const uint32_t[]){__VA_ARGS__}) / sizeof(uint32_t))

/* a start filter: of channels 5 to 8 with its flow record, of the others without */
static uint8_t *put_filter(uint8_t *p, event *e, size_t size) {
    int flow = size == TRAWL_ISO_RECORD;
    if (flow != (e->kind == START_FLOW) || e->first.n < size || e->second.n < size || (flow && e->third.n < size)) return NULL;
    p = raw(raw(PUT(p, START_FILTER, e->a, e->b), &e->first, size), &e->second, size);
    return flow ? raw(p, &e->third, size) : p;
}

/* an event in bytes; 0 where it lends other lengths than a recording can say, or is a call that recordings don't hold */
static uint8_t *put_event(uint8_t *p, event *e) {
    size_t size = record_of(e->a);
    if (e->kind == START_FLOW || e->kind == START_FILTER) return put_filter(p, e, size);
    if (e->kind > SET) return NULL;
    p = put_number(p, (uint32_t)e->kind);
    if (e->kind == CLOSE) return p;
    p = put_number(p, e->a);
    switch (e->kind) {
    case CONNECT: return PUT(p, e->b, e->c, e->d);
    case FRAME: return raw(PUT(p, e->b, e->c, (uint32_t)e->first.n), &e->first, e->first.n);
    case START_PERIODIC: return e->first.n < size ? NULL : put_number(raw(p, &e->first, size), e->b);
    case WRITE: return e->b > 64 || e->first.n < size * e->b ? NULL : raw(put_number(p, e->b), &e->first, size * e->b);
    case READ: return e->b > 64 ? NULL : put_number(p, e->b);
    case STOP_FILTER: case STOP_PERIODIC: case CLEAR: case GET: return put_number(p, e->b);
    case SET: return PUT(p, e->b, e->c);
    default: return p;
    }
}

size_t mark(uint8_t *recording, uint32_t edition) { return (size_t)(PUT(recording, 0, edition) - recording); }

size_t some_recording(uint8_t *recording, size_t most, int damage) {
    static event e;
    size_t n = 0;
    uint8_t one[2 * ROOM], *end;
    if (chance(50)) n = mark(recording, 2), made.marked++;
    for (uint32_t k = 0; k < CHANNELS && chance(90); k++) {
        uint32_t listens = k < 4 && chance(20) ? TRAWL_LISTEN_ONLY : 0;
        end = PUT(recording + n, CONNECT, k % 4, k < 4 ? 5 : 6, (k * 0x100 & 0x900) | listens, 500000);
        n = (size_t)(end - recording), made.events++;
    }
    for (;;) {
        random_event(&e, damage);
        end = put_event(one, &e);
        if (!end) continue;
        if (n + (size_t)(end - one) > most) return n;
        memcpy(recording + n, one, (size_t)(end - one));
        n += (size_t)(end - one), made.events++;
    }
}
