/* What the tests of ISO 15765 channels and of TP2.0 connections share. The calls of a box are a table, so that the same story is told to every implementation there is. */
#ifndef ISO_SIDE_H
#define ISO_SIDE_H

#include <stddef.h>
#include <stdint.h>

#include "../twin/twin.h"

enum { BOX_MOST = 65536, RAW_RECORD = 36, RECORD = 536, LONGEST = 508 }; /* a memory at most; a raw record; one of these channels, its payload */
enum { PAIRS_MOST = 20, MESSAGE = 512 };                                 /* of a list; the longest message of a connection */

typedef struct {
    const char *name;
    size_t memory, regions, region; /* the memory's size; where the regions of channels 5 to 8 begin, and how long each is */
    size_t raw_region, last, link;  /* how long the region of channels 1 to 4 is; where in it the last code and the connection lie */
    int (*valid)(const uint8_t *m, size_t len);
    uint32_t (*power_on)(uint8_t *m, size_t len);
    uint32_t (*connect)(uint8_t *m, size_t len, uint32_t line, uint32_t protocol, uint32_t flags, uint32_t rate, uint32_t *channel);
    uint32_t (*disconnect)(uint8_t *m, size_t len, uint32_t channel);
    uint32_t (*close)(uint8_t *m, size_t len);
    uint32_t (*advance)(uint8_t *m, size_t len, uint32_t us);
    uint32_t (*frame)(uint8_t *m, size_t len, uint32_t line, uint32_t wide, uint32_t id, const uint8_t *data, size_t n);
    uint32_t (*start_filter)(uint8_t *m, size_t len, uint32_t channel, uint32_t type, const uint8_t *mask, size_t mask_len,
                             const uint8_t *pattern, size_t pattern_len, const uint8_t *flow, size_t flow_len, uint32_t *number);
    uint32_t (*stop_filter)(uint8_t *m, size_t len, uint32_t channel, uint32_t number);
    uint32_t (*start_periodic)(uint8_t *m, size_t len, uint32_t channel, const uint8_t *message, size_t message_len, uint32_t interval,
                               uint32_t *number);
    uint32_t (*stop_periodic)(uint8_t *m, size_t len, uint32_t channel, uint32_t number);
    uint32_t (*write)(uint8_t *m, size_t len, uint32_t channel, uint32_t n, const uint8_t *b, size_t b_len, uint32_t *count);
    uint32_t (*read)(uint8_t *m, size_t len, uint32_t channel, uint32_t n, uint8_t *b, size_t b_len, uint32_t *count);
    uint32_t (*take)(uint8_t *m, size_t len, uint32_t channel, uint8_t *b, size_t b_len);
    uint32_t (*sent)(uint8_t *m, size_t len, uint32_t channel);
    uint32_t (*clear)(uint8_t *m, size_t len, uint32_t channel, uint32_t kind);
    uint32_t (*get)(uint8_t *m, size_t len, uint32_t channel, uint32_t parameter, uint32_t *value);
    uint32_t (*set)(uint8_t *m, size_t len, uint32_t channel, uint32_t parameter, uint32_t value);
    uint32_t (*set_list)(uint8_t *m, size_t len, uint32_t channel, const struct twin_pair *pairs, size_t count);
    uint32_t (*get_list)(uint8_t *m, size_t len, uint32_t channel, struct twin_pair *pairs, size_t count);
    uint32_t (*last_error)(const uint8_t *m, size_t len, uint32_t channel, uint32_t *code);
    uint32_t (*link_open)(uint8_t *m, size_t len, uint32_t channel, uint32_t own, uint32_t destination, uint32_t rx_id, uint32_t application,
                          uint32_t block_size, uint32_t t1, uint32_t t3);
    uint32_t (*link_send)(uint8_t *m, size_t len, uint32_t channel, const uint8_t *message, size_t message_len);
    uint32_t (*link_receive)(uint8_t *m, size_t len, uint32_t channel, uint8_t *b, size_t b_len, uint32_t *length);
    uint32_t (*link_end)(uint8_t *m, size_t len, uint32_t channel);
    uint32_t (*decide)(uint8_t *m, size_t len, uint32_t channel, uint32_t wide, uint32_t id, uint32_t *answer);
    uint32_t (*save)(uint8_t *m, size_t len, uint32_t channel, uint8_t *b, size_t b_len, uint32_t *length);
    uint32_t (*load)(uint8_t *m, size_t len, uint32_t channel, const uint8_t *store, size_t store_len);
} side;

/* The core, the twin, then NULL; their memories lie alike. With TWIN_ALONE the twin is in the core's place: so a test can be tried out before the
 * core has its calls. */
extern const side *const sides[];

/* ---- numbers and records in bytes ---- */

uint32_t word(const uint8_t *p);
void put_word(uint8_t *p, uint32_t v);

/* a record of this size (RAW_RECORD or RECORD): its numbers, an identifier, n bytes behind it, zeros */
void record_at(uint8_t *p, size_t size, uint32_t protocol, uint32_t rx, uint32_t tx, uint32_t time, uint32_t extra, uint32_t id,
               const uint8_t *payload, uint32_t n);

/* is p a clean raw record, byte for byte? Its extra index is its size */
int is_raw_record(const uint8_t *p, uint32_t rx, uint32_t tx, uint32_t time, uint32_t id, const uint8_t *data, uint32_t n);

/* a message of ISO 15765 channels to send: what is ignored is noise */
void message_at(uint8_t *p, uint32_t tx, uint32_t id, const uint8_t *payload, uint32_t n);

/* is p such a record of ISO 15765 channels, byte for byte? Its extra index is its size, or 0 without payload */
int is_record(const uint8_t *p, uint32_t rx, uint32_t tx, uint32_t time, uint32_t id, const uint8_t *payload, uint32_t n);

#endif
