/* What the tests share: repeatable random numbers, lent buffers between guard bytes, records, and every call as one event that can be
 * made on the core or on the twin. */
#ifndef SUPPORT_H
#define SUPPORT_H

#include <stddef.h>
#include <stdint.h>

#include "random.h"

/* ---- a lent buffer: exactly n bytes between guards ---- */

enum { GUARD = 16, ROOM = 5400 };
typedef struct {
    uint8_t room[GUARD + ROOM + GUARD];
    size_t n;
} lent;
uint8_t *bytes(lent *b);
void lend(lent *b, size_t n); /* n bytes of noise */
int guarded(const lent *b);   /* the guards are as they were */

/* ---- events ---- */

enum { CONNECT = 1, DISCONNECT, CLOSE, ADVANCE, FRAME, START_FILTER, STOP_FILTER, START_PERIODIC, STOP_PERIODIC, WRITE, READ, TAKE, SENT,
       CLEAR, GET, SET, SET_LIST, GET_LIST, LAST_ERROR, START_FLOW, LINK_OPEN, LINK_SEND, LINK_RECEIVE, LINK_END, DECIDE, SAVE, LOAD,
       KINDS = LOAD };
/* up to SET by their numbers in recordings, which hold no others, but START_FLOW as START_FILTER of channels 5 to 8 */

typedef struct {
    int kind;
    uint32_t a, b, c, d;       /* the event's numbers, in the scope's order; a is the line or the channel */
    uint32_t more[4];          /* those of LINK_OPEN behind them */
    lent first, second, third; /* what it lends: mask, message, records, data, buffer, a list or a store; pattern; flow */
} event;

typedef struct {
    uint32_t code, value;
} reply;

/* a list in a lent buffer: how many pairs it has, and one of them */
enum { PAIR = 8 };
size_t pairs_of(const lent *b);
void pair_at(const lent *b, size_t i, uint32_t *parameter, uint32_t *value);
void put_pair(lent *b, size_t i, uint32_t parameter, uint32_t value);

const char *name_of(int kind);
void random_event(event *e, int damage); /* damage: percent of numbers, records and lengths that are off */
void connect_event(event *e, uint32_t line, uint32_t protocol, uint32_t flags, uint32_t rate);
int raw_only(int kind);        /* a call of a TP2.0 connection, the decision, a save or a load: it names channels 1 to 4 */
void link_event(event *e, uint32_t channel, uint32_t block_size, uint32_t t1, uint32_t t3); /* an opening: own 0x200, destination 1, RX-ID 0x300 */

/* events 0 to 15 of a sequence: channels 1 to 4 with a connection that stands */
enum { OPENINGS = 16 };
void opening_event(event *e, uint32_t i);

uint32_t connects(const event *e);  /* the channel that a connect is about; 0 where there is none */
uint32_t concerned(const event *e); /* the channels that an event concerns, a bit each: those of a frame's line, the one that is named, or all */

reply on_core(uint8_t *memory, size_t length, event *e);
reply on_twin(uint8_t *memory, size_t length, event *e);

/* ---- channels ---- */

enum { CHANNELS = 8 };
int is_iso(uint32_t channel);      /* 5 to 8 */
int is_channel(uint32_t channel);  /* 1 to 8 */
size_t record_of(uint32_t channel); /* the size of its records; of a channel that is none too */

/* where the bytes of a channel's region begin, how many they are, and where its last code lies; the channel is 1 to 8 */
size_t region_of(uint32_t channel);
size_t region_size(uint32_t channel);
size_t last_of(uint32_t channel);

/* a message record of a channel at p: these flags, an identifier and n data bytes; what is ignored is noise */
void record_at(uint8_t *p, uint32_t channel, uint32_t flags, uint32_t identifier, uint32_t n);

/* tells what differs and ends the program with status 1 */
void fail(const char *what, const event *e, uint64_t turn);

#endif
