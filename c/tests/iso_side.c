/* See iso_side.h. */
#include "iso_side.h"

#include <string.h>

#define TRAWL_NO_J2534_NAMES
#include "../../include/trawlpepper.h"
#include "random.h"

uint64_t seed = 1;

typedef char memories_are_alike[TRAWL_MEMORY == TWIN_MEMORY && sizeof(struct trawl_pair) == sizeof(struct twin_pair) ? 1 : -1];

static const side twin = {
    "the twin", TWIN_MEMORY, RAW_PART, ISO_REGION, RAW_REGION, RAW_LAST, LINK_AT,
    twin_valid, twin_power_on, twin_connect, twin_disconnect, twin_close, twin_advance, twin_frame, twin_start_flow_filter, twin_stop_filter,
    twin_start_periodic, twin_stop_periodic, twin_write, twin_read, twin_take, twin_sent, twin_clear, twin_get, twin_set, twin_set_list,
    twin_get_list, twin_last_error, twin_link_open, twin_link_send, twin_link_receive, twin_link_end, twin_decide,
    twin_save, twin_load};

#ifdef TWIN_ALONE
const side *const sides[] = {&twin, &twin, NULL};
#else
/* the core's calls whose types are not the twin's: a verdict, lists */
static int core_valid(const uint8_t *m, size_t len) { return trawl_valid(m, len) != 0; }

static uint32_t core_set_list(uint8_t *m, size_t len, uint32_t channel, const struct twin_pair *pairs, size_t count) {
    struct trawl_pair list[PAIRS_MOST];
    memcpy(list, pairs, count * sizeof *list);
    return trawl_set_list(m, len, channel, list, count);
}

static uint32_t core_get_list(uint8_t *m, size_t len, uint32_t channel, struct twin_pair *pairs, size_t count) {
    struct trawl_pair list[PAIRS_MOST];
    uint32_t code;
    memcpy(list, pairs, count * sizeof *list);
    code = trawl_get_list(m, len, channel, list, count);
    memcpy(pairs, list, count * sizeof *list);
    return code;
}

static const side core = {
    "the core", TRAWL_MEMORY, RAW_PART, ISO_REGION, RAW_REGION, RAW_LAST, LINK_AT,
    core_valid, trawl_power_on, trawl_connect, trawl_disconnect, trawl_close, trawl_advance, trawl_frame, trawl_start_flow_filter,
    trawl_stop_filter, trawl_start_periodic, trawl_stop_periodic, trawl_write, trawl_read, trawl_take, trawl_sent, trawl_clear, trawl_get,
    trawl_set, core_set_list, core_get_list, trawl_last_error, trawl_link_open, trawl_link_send, trawl_link_receive, trawl_link_end,
    trawl_decide, trawl_save, trawl_load};

const side *const sides[] = {&core, &twin, NULL};
#endif

uint32_t word(const uint8_t *p) { return (uint32_t)p[0] | (uint32_t)p[1] << 8 | (uint32_t)p[2] << 16 | (uint32_t)p[3] << 24; }

void put_word(uint8_t *p, uint32_t v) {
    for (int i = 0; i < 4; i++) p[i] = (uint8_t)(v >> 8 * i);
}

void record_at(uint8_t *p, size_t size, uint32_t protocol, uint32_t rx, uint32_t tx, uint32_t time, uint32_t extra, uint32_t id,
               const uint8_t *payload, uint32_t n) {
    memset(p, 0, size);
    put_word(p, protocol), put_word(p + 4, rx), put_word(p + 8, tx), put_word(p + 12, time), put_word(p + 16, 4 + n), put_word(p + 20, extra);
    for (int i = 0; i < 4; i++) p[24 + i] = (uint8_t)(id >> (24 - 8 * i));
    if (n) memcpy(p + 28, payload, n);
}

int is_raw_record(const uint8_t *p, uint32_t rx, uint32_t tx, uint32_t time, uint32_t id, const uint8_t *data, uint32_t n) {
    uint8_t clean[RAW_RECORD];
    record_at(clean, RAW_RECORD, 5, rx, tx, time, 4 + n, id, data, n);
    return memcmp(p, clean, RAW_RECORD) == 0;
}

void message_at(uint8_t *p, uint32_t tx, uint32_t id, const uint8_t *payload, uint32_t n) {
    record_at(p, RECORD, 6, any(), tx, any(), any(), id, payload, n);
    for (size_t i = 28 + n; i < RECORD; i++) p[i] = (uint8_t)any();
}

int is_record(const uint8_t *p, uint32_t rx, uint32_t tx, uint32_t time, uint32_t id, const uint8_t *payload, uint32_t n) {
    uint8_t clean[RECORD];
    record_at(clean, RECORD, 6, rx, tx, time, n ? 4 + n : 0, id, payload, n);
    return memcmp(p, clean, RECORD) == 0;
}
