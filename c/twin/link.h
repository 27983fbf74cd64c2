/* The twin's TP2.0 connections, as active side: one is the last part of a raw channel's region, and all zeros where there is none. What happens to it
 * trusts these bytes, link_valid looks at them. Codes 0x1A, 0x02, 0x04 and the channel's width are looked at before the calls of here. */
#ifndef LINK_H
#define LINK_H

#include <stddef.h>
#include <stdint.h>

#include "sizes.h"

/* its bytes, by docs/LAYOUT.md; what plays no part in a state is zeros */
typedef struct {
    uint8_t state;                                                      /* 0 none, 1 opens, 2 connects, 3 stands, 4 leaves */
    uint8_t own[4], rx[4], destination, application, size, t1, t3;      /* as it was opened */
    uint8_t tx[4];                                                      /* from the positive reply on */
    uint8_t tries, trial, trial_left[4];                                /* an opening telegram: repeats; waits, flies, T_E runs */
    uint8_t leaving, leaving_left[4];                                   /* the disconnect telegram: waits for T3, behind another, flies */
    uint8_t block, pace;                                                /* the block size agreed on, the partner's T3 */
    uint8_t wire, wire_left[4];                                         /* which telegram flies; of none what is left of T3 */
    uint8_t answers, tests, unanswered, test_left[4];                   /* an answer waits, a test waits; tests without an answer; T_CTa */
    uint8_t hold[4], sn;                                                /* what is left of T_Wait; the SN of the block's first telegram */
    uint8_t out, out_left[4], taken, repeats, again;                    /* the message under way; what is left of T1; telegrams taken of the block */
    uint8_t rest_n[4], rest[LINK_MESSAGE];                              /* its bytes from the block's first telegram on */
    uint8_t expected, acknowledges, complete, in_n[4], in[LINK_MESSAGE]; /* what is received */
} link_t;

int link_valid(const link_t *l);

/* is there one? */
int link_there(const link_t *l);

/* The telegram that may go, if one may: it flies then. Gives how many bytes it has, 0 where none may, and its identifier. */
uint32_t link_take(link_t *l, uint32_t *id, uint8_t b[8]);

/* the flight of the channel was sent, time goes on, a narrow frame came on the line */
void link_sent(link_t *l);
void link_advance(link_t *l, uint32_t us);
void link_frame(link_t *l, uint32_t id, const uint8_t *b, size_t n);

uint32_t link_open(link_t *l, uint32_t own, uint32_t destination, uint32_t rx, uint32_t application, uint32_t size, uint32_t t1, uint32_t t3);
uint32_t link_send(link_t *l, const uint8_t *message, size_t n);
uint32_t link_receive(link_t *l, uint8_t *buffer, uint32_t *length);
uint32_t link_end(link_t *l);

#endif
