/* What the random tests of sides share: a call, a frame or an advance as one event that every side there is plays, and what must hold of any: the
 * same codes, numbers, buffers and memory on all sides; a refusal changes nothing but the last code of its channel, an event nothing of another
 * channel, and the memory stays valid. */
#ifndef SIDES_PLAY_H
#define SIDES_PLAY_H

#include <stddef.h>
#include <stdint.h>

#include "iso_side.h"

enum { GUARD = 16, ROOM = 10 * RECORD, SIDES = 2 };
enum { CONNECT = 1, DISCONNECT, CLOSE, ADVANCE, FRAME, START_FILTER, STOP_FILTER, START_PERIODIC, STOP_PERIODIC, WRITE, READ, TAKE, SENT, CLEAR,
       GET, SET, SET_LIST, GET_LIST, LAST_ERROR, LINK_OPEN, LINK_SEND, LINK_RECEIVE, LINK_END, SAVE, LOAD, KINDS = LOAD };

/* a lent buffer between guards */
typedef struct {
    uint8_t room[GUARD + ROOM + GUARD];
    size_t n;
} lent;

typedef struct {
    int kind;
    uint32_t a, b, c, d, more[4]; /* its numbers; a is the line or the channel */
    lent first, second, third;
    struct twin_pair pairs[PAIRS_MOST];
    size_t count;
} event;

extern const char *program;   /* its name, for what is told of a failure */
extern const side *on;        /* the first side */
extern uint8_t *const mine;   /* and its memory */
extern unsigned long turn, made, spoilt; /* events; memories made that were valid, and that were not */

uint8_t *bytes(lent *b);
void lend(lent *b, size_t n);      /* n bytes of noise */
void blank(event *e, int kind, uint32_t a); /* an event with nothing lent */

int is_iso(uint32_t channel);
size_t region(uint32_t channel);   /* the region of channel 1 to 8, its size, and where its last code lies */
size_t size_of(uint32_t channel);
size_t last_of(uint32_t channel);

uint32_t off(uint32_t good, uint32_t damage); /* a number, so often another one */
size_t some_length(size_t good, uint32_t damage);

void all_begin(void);        /* power-on */
void all_play(event *e);     /* one event on all sides */

/* The first side's memory was made anew, and was `before`: all sides have it. Where it is not valid, every side refuses the event with 0x1A, and the
 * memory is put back. */
void all_made(const uint8_t *before, event *e);

void all_counted(unsigned long *events, unsigned long *answers); /* how many, and pairs of a call and a code */
unsigned long answered(int kind, uint32_t code);

#endif
