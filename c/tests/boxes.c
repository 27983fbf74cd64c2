/* Boxes have nothing in common: `boxes [SEED [ROUNDS]]`. Two sequences of calls, each on a memory of its own, give the same answers and leave the
 * same memory alone, turn about, and at the same time in two threads; and a memory that is copied elsewhere between two calls goes on there. */
#define _POSIX_C_SOURCE 200809L
#include <pthread.h>
#include <stdio.h>
#include <stdlib.h>
#include <string.h>

#define TRAWL_NO_J2534_NAMES
#include "../../include/trawlpepper.h"
#include "support.h"

enum { EVENTS = 600 };

typedef struct {
    event events[EVENTS];
    reply replies[EVENTS];
    uint8_t memory[TRAWL_MEMORY]; /* at the end */
} story;

static story stories[2];
static unsigned long rounds = 5;

static void start(uint8_t *memory) {
    if (trawl_power_on(memory, TRAWL_MEMORY) != 0) fail("power-on", NULL, 0);
}

/* one event of a story on a memory; nothing of the story changes */
static reply play(const story *s, unsigned i, uint8_t *memory, event *room) {
    *room = s->events[i];
    return on_core(memory, TRAWL_MEMORY, room);
}

static void look(const story *s, unsigned i, reply r, const char *what) {
    if (r.code != s->replies[i].code || r.value != s->replies[i].value) fail(what, &s->events[i], i);
}

static void make(story *s) {
    static event room;
    unsigned i;
    start(s->memory);
    for (i = 0; i < EVENTS; i++) {
        event *e = &s->events[i];
        random_event(e, 8);
        if (i < CHANNELS) connect_event(e, i % 4, i < 4 ? 5 : 6, 0x800, 500000);
        s->replies[i] = play(s, i, s->memory, &room);
    }
}

static void turn_about(void) {
    static uint8_t memory[2][TRAWL_MEMORY];
    static event room;
    unsigned i, k;
    for (k = 0; k < 2; k++) start(memory[k]);
    for (i = 0; i < EVENTS; i++)
        for (k = 0; k < 2; k++) look(&stories[k], i, play(&stories[k], i, memory[k], &room), "turn about");
    for (k = 0; k < 2; k++)
        if (memcmp(memory[k], stories[k].memory, TRAWL_MEMORY)) fail("memory, turn about", NULL, k);
}

static void moved(unsigned half) {
    static uint8_t before[TRAWL_MEMORY], after[TRAWL_MEMORY + 1];
    static event room;
    unsigned i;
    start(before);
    for (i = 0; i < half; i++) look(&stories[0], i, play(&stories[0], i, before, &room), "before the move");
    memcpy(after + 1, before, TRAWL_MEMORY); /* any address does */
    memset(before, 0xFF, TRAWL_MEMORY);
    if (!trawl_valid(after + 1, TRAWL_MEMORY)) fail("valid after the move", NULL, half);
    for (; i < EVENTS; i++) look(&stories[0], i, play(&stories[0], i, after + 1, &room), "after the move");
    if (memcmp(after + 1, stories[0].memory, TRAWL_MEMORY)) fail("memory after the move", NULL, half);
}

static void *thread(void *which) {
    const story *s = which;
    uint8_t *memory = malloc(TRAWL_MEMORY);
    event *room = malloc(sizeof *room);
    if (!memory || !room) fail("no room", NULL, 0);
    for (unsigned long r = 0; r < 20 * rounds; r++) {
        start(memory);
        for (unsigned i = 0; i < EVENTS; i++) look(s, i, play(s, i, memory, room), "in a thread");
        if (memcmp(memory, s->memory, TRAWL_MEMORY)) fail("memory, in a thread", NULL, r);
    }
    free(memory), free(room);
    return NULL;
}

int main(int argc, char **argv) {
    pthread_t threads[2];
    unsigned k;
    seed = argc > 1 ? strtoull(argv[1], NULL, 10) : 1;
    if (seed == 0) seed = 1;
    if (argc > 2) rounds = strtoul(argv[2], NULL, 10);
    for (k = 0; k < 2; k++) make(&stories[k]);
    turn_about();
    for (k = 0; k < EVENTS; k += 50) moved(k);
    for (k = 0; k < 2; k++)
        if (pthread_create(&threads[k], NULL, thread, &stories[k])) fail("no thread", NULL, k);
    for (k = 0; k < 2; k++) pthread_join(threads[k], NULL);
    printf("two boxes, turn about, moved, and in two threads: %lu calls as alone\n", (unsigned long)EVENTS * (14 + 40 * rounds));
    return 0;
}
