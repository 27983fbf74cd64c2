/* NULL with length 0, for every slice of every call: answered like an empty buffer, nothing written. The codes expected are the header's. */
#include <stdio.h>
#include <string.h>

#define TRAWL_NO_J2534_NAMES
#include "../../include/trawlpepper.h"
#include "support.h"

static uint8_t box[TRAWL_MEMORY], before[TRAWL_MEMORY];
static unsigned long held;

static void must(int true_, const char *what) {
    if (!true_) fail(what, NULL, held);
    held++;
}

/* a call without a memory: 0x1A, and the number 0 */
#define NONE(call, number) (number = 77, must((call) == 0x1A && number == 0, #call))
#define NONE_ALONE(call) must((call) == 0x1A, #call)
/* a call on the box: its code and number, and the memory as it was */
#define STAYS(code, want, call, number)                                                                                                   \
    (number = 77, memcpy(before, box, sizeof box), must((call) == (code) && number == (want) && memcmp(before, box, sizeof box) == 0, #call))

/* the same of a refused call on a channel, 1 unless told: the memory as it was but for the channel's last code */
#define NOTED_ON(channel, code, want, call, number)                                                                                       \
    (number = 77, memcpy(before, box, sizeof box), before[last_of(channel)] = (code),                                                     \
     must((call) == (code) && number == (want) && memcmp(before, box, sizeof box) == 0, #call))
#define NOTED(code, want, call, number) NOTED_ON(1, code, want, call, number)

/* the same calls on an ISO 15765 channel */
static void conversations(void) {
    static uint8_t mask[TRAWL_ISO_RECORD], record[TRAWL_ISO_RECORD];
    uint32_t v;
    must(trawl_connect(box, sizeof box, 0, 6, 0, 500000, &v) == 0 && v == 5, "connect");
    trawl_iso_record_make(mask, 0, 0xFFFFFFFF, NULL, 0);
    trawl_iso_record_make(record, 0, 0x7E8, NULL, 0);
    NOTED_ON(5, 0x04, 0, trawl_start_flow_filter(box, sizeof box, 5, 3, NULL, 0, record, sizeof record, record, sizeof record, &v), v);
    NOTED_ON(5, 0x04, 0, trawl_start_flow_filter(box, sizeof box, 5, 3, mask, sizeof mask, NULL, 0, record, sizeof record, &v), v);
    NOTED_ON(5, 0x04, 0, trawl_start_flow_filter(box, sizeof box, 5, 3, mask, sizeof mask, record, sizeof record, NULL, 0, &v), v);
    NOTED_ON(5, 0x04, 0, trawl_start_filter(box, sizeof box, 5, 3, NULL, 0, NULL, 0, &v), v);
    NOTED_ON(5, 0x04, 0, trawl_start_periodic(box, sizeof box, 5, NULL, 0, 5, &v), v);
    NOTED_ON(5, 0x04, 0, trawl_write(box, sizeof box, 5, 1, NULL, 0, &v), v);
    STAYS(0x00, 0, trawl_write(box, sizeof box, 5, 0, NULL, 0, &v), v);
    NOTED_ON(5, 0x04, 0, trawl_read(box, sizeof box, 5, 1, NULL, 0, &v), v);
    STAYS(0x00, 0, trawl_read(box, sizeof box, 5, 0, NULL, 0, &v), v);
    NOTED_ON(5, 0x04, 77, trawl_take(box, sizeof box, 5, NULL, 0), v);
    STAYS(0x00, 77, trawl_set_list(box, sizeof box, 5, NULL, 0), v);
    STAYS(0x00, 77, trawl_get_list(box, sizeof box, 5, NULL, 0), v);
    must(trawl_start_flow_filter(box, sizeof box, 5, 3, mask, sizeof mask, record, sizeof record, record, sizeof record, &v) == 0 && v == 1, "filter");
    STAYS(0x00, 77, trawl_frame(box, sizeof box, 0, 0, 0x7E8, NULL, 0), v); /* a frame without data says nothing */
    must(trawl_disconnect(box, sizeof box, 5) == 0, "disconnect");
}

/* and those of a TP2.0 connection: a message of no bytes is none, a buffer of none is too short */
static void connections(void) {
    uint32_t v;
    NOTED(0x07, 77, trawl_link_send(box, sizeof box, 1, NULL, 0), v);
    NOTED(0x04, 0, trawl_link_receive(box, sizeof box, 1, NULL, 0, &v), v);
    STAYS(0x02, 77, trawl_link_send(box, sizeof box, 2, NULL, 0), v);
    STAYS(0x02, 0, trawl_link_receive(box, sizeof box, 2, NULL, 0, &v), v);
    must(trawl_link_open(box, sizeof box, 1, 0x200, 0x01, 0x300, 0x01, 15, 0x8A, 0x00) == 0, "opening");
    STAYS(0x00, 77, trawl_frame(box, sizeof box, 0, 0, 0x201, NULL, 0), v); /* a frame without data is no reply */
    must(trawl_frame(box, sizeof box, 0, 0, 0x201, (const uint8_t *)"\0\xD0\0\3\x40\7\1", 7) == 0, "reply");
    STAYS(0x00, 77, trawl_frame(box, sizeof box, 0, 0, 0x300, NULL, 0), v); /* and no telegram */
    must(trawl_frame(box, sizeof box, 0, 0, 0x300, (const uint8_t *)"\xA1\x0F\x8A\xFF\0\xFF", 6) == 0, "acknowledge of connection");
    STAYS(0x00, 77, trawl_frame(box, sizeof box, 0, 0, 0x300, NULL, 0), v);
    NOTED(0x0A, 77, trawl_link_send(box, sizeof box, 1, NULL, 0), v);
    NOTED(0x04, 0, trawl_link_receive(box, sizeof box, 1, NULL, 0, &v), v);
    must(trawl_frame(box, sizeof box, 0, 0, 0x300, (const uint8_t *)"\xA8", 1) == 0, "disconnect");
}

/* a listener doesn't look at what it is lent */
static void listens(void) {
    uint32_t v;
    must(trawl_connect(box, sizeof box, 3, 5, TRAWL_LISTEN_ONLY, 500000, &v) == 0 && v == 4, "connect");
    NOTED_ON(4, 0x01, 0, trawl_start_periodic(box, sizeof box, 4, NULL, 0, 5, &v), v);
    NOTED_ON(4, 0x01, 0, trawl_write(box, sizeof box, 4, 1, NULL, 0, &v), v);
    NOTED_ON(4, 0x01, 0, trawl_write(box, sizeof box, 4, 0, NULL, 0, &v), v);
    NOTED_ON(4, 0x01, 77, trawl_take(box, sizeof box, 4, NULL, 0), v);
    NOTED_ON(4, 0x01, 77, trawl_link_send(box, sizeof box, 4, NULL, 0), v);
    NOTED_ON(4, 0x01, 0, trawl_link_receive(box, sizeof box, 4, NULL, 0, &v), v);
    NOTED_ON(4, 0x04, 0, trawl_read(box, sizeof box, 4, 1, NULL, 0, &v), v);
    NOTED_ON(4, 0x0A, 77, trawl_load(box, sizeof box, 4, NULL, 0), v);
    must(trawl_disconnect(box, sizeof box, 4) == 0, "disconnect");
}

int main(void) {
    static uint8_t record[TRAWL_RECORD], mask[TRAWL_RECORD], telegram[TRAWL_TELEGRAM], room[TRAWL_EVENT_ROOM];
    uint32_t v;
    size_t length = 77, at = 0;

    must(trawl_valid(NULL, 0) == 0, "valid");
    NONE_ALONE(trawl_power_on(NULL, 0));
    NONE(trawl_connect(NULL, 0, 0, 5, 0, 500000, &v), v);
    NONE_ALONE(trawl_close(NULL, 0));
    NONE_ALONE(trawl_advance(NULL, 0, 1));
    NONE_ALONE(trawl_frame(NULL, 0, 0, 0, 0, NULL, 0));
    NONE_ALONE(trawl_disconnect(NULL, 0, 1));
    NONE(trawl_start_filter(NULL, 0, 1, 1, NULL, 0, NULL, 0, &v), v);
    NONE(trawl_start_flow_filter(NULL, 0, 5, 3, NULL, 0, NULL, 0, NULL, 0, &v), v);
    NONE_ALONE(trawl_stop_filter(NULL, 0, 1, 1));
    NONE(trawl_start_periodic(NULL, 0, 1, NULL, 0, 5, &v), v);
    NONE_ALONE(trawl_stop_periodic(NULL, 0, 1, 1));
    NONE(trawl_write(NULL, 0, 1, 0, NULL, 0, &v), v);
    NONE(trawl_read(NULL, 0, 1, 0, NULL, 0, &v), v);
    NONE_ALONE(trawl_take(NULL, 0, 1, NULL, 0));
    NONE_ALONE(trawl_sent(NULL, 0, 1));
    NONE_ALONE(trawl_clear(NULL, 0, 1, 1));
    NONE(trawl_get(NULL, 0, 1, 1, &v), v);
    NONE_ALONE(trawl_set(NULL, 0, 1, 3, 1));
    NONE_ALONE(trawl_set_list(NULL, 0, 1, NULL, 0));
    NONE_ALONE(trawl_get_list(NULL, 0, 1, NULL, 0));
    NONE(trawl_last_error(NULL, 0, 1, &v), v);
    NONE_ALONE(trawl_link_open(NULL, 0, 1, 0x200, 0x01, 0x300, 0x01, 15, 0x8A, 0x00));
    NONE_ALONE(trawl_link_send(NULL, 0, 1, NULL, 0));
    NONE(trawl_link_receive(NULL, 0, 1, NULL, 0, &v), v);
    NONE_ALONE(trawl_link_end(NULL, 0, 1));
    NONE(trawl_decide(NULL, 0, 1, 0, 0, &v), v);
    NONE(trawl_save(NULL, 0, 1, NULL, 0, &v), v);
    NONE_ALONE(trawl_load(NULL, 0, 1, NULL, 0));

    must(trawl_power_on(box, sizeof box) == 0 && trawl_connect(box, sizeof box, 0, 5, 0, 500000, &v) == 0, "connect");
    trawl_record_make(record, 0, 0, NULL, 0);
    NOTED(0x04, 0, trawl_start_filter(box, sizeof box, 1, 1, NULL, 0, record, sizeof record, &v), v);
    NOTED(0x04, 0, trawl_start_filter(box, sizeof box, 1, 1, record, sizeof record, NULL, 0, &v), v);
    NOTED(0x04, 0, trawl_start_filter(box, sizeof box, 1, 1, NULL, 0, NULL, 0, &v), v);
    NOTED(0x04, 0, trawl_start_periodic(box, sizeof box, 1, NULL, 0, 5, &v), v);
    NOTED(0x04, 0, trawl_write(box, sizeof box, 1, 1, NULL, 0, &v), v);
    STAYS(0x00, 0, trawl_write(box, sizeof box, 1, 0, NULL, 0, &v), v);
    NOTED(0x04, 0, trawl_read(box, sizeof box, 1, 1, NULL, 0, &v), v);
    STAYS(0x00, 0, trawl_read(box, sizeof box, 1, 0, NULL, 0, &v), v);
    NOTED(0x04, 77, trawl_take(box, sizeof box, 1, NULL, 0), v);
    STAYS(0x00, 77, trawl_set_list(box, sizeof box, 1, NULL, 0), v);
    STAYS(0x00, 77, trawl_get_list(box, sizeof box, 1, NULL, 0), v);
    STAYS(0x02, 77, trawl_set_list(box, sizeof box, 2, NULL, 0), v);
    STAYS(0x02, 77, trawl_get_list(box, sizeof box, 2, NULL, 0), v);
    NOTED(0x04, 0, trawl_save(box, sizeof box, 1, NULL, 0, &v), v);
    NOTED(0x0A, 77, trawl_load(box, sizeof box, 1, NULL, 0), v); /* no bytes are no store */
    STAYS(0x02, 0, trawl_save(box, sizeof box, 2, NULL, 0, &v), v);
    STAYS(0x02, 77, trawl_load(box, sizeof box, 2, NULL, 0), v);
    STAYS(0x13, 77, trawl_frame(box, sizeof box, 4, 0, 0, NULL, 0), v);
    STAYS(0x00, 77, trawl_frame(box, sizeof box, 0, 0, 0x7E8, NULL, 0), v); /* no filter lets nothing in */
    conversations();
    connections();
    listens();

    /* a frame without data: a filter of twelve bytes doesn't match it, one of four does */
    trawl_record_make(mask, 0, 0x7FF, (const uint8_t *)"\xFF\xFF\xFF\xFF\xFF\xFF\xFF\xFF", 8);
    trawl_record_make(record, 0, 0x7E8, (const uint8_t *)"\0\0\0\0\0\0\0", 8);
    must(trawl_start_filter(box, sizeof box, 1, 1, mask, sizeof mask, record, sizeof record, &v) == 0 && v == 1, "filter of twelve bytes");
    STAYS(0x00, 77, trawl_frame(box, sizeof box, 0, 0, 0x7E8, NULL, 0), v);
    trawl_record_make(mask, 0, 0x7FF, NULL, 0);
    trawl_record_make(record, 0, 0x7E8, NULL, 0);
    must(trawl_start_filter(box, sizeof box, 1, 1, mask, sizeof mask, record, sizeof record, &v) == 0 && v == 2, "filter of four bytes");
    must(trawl_frame(box, sizeof box, 0, 0, 0x7E8, NULL, 0) == 0, "frame without data");
    STAYS(0x00, 0, trawl_read(box, sizeof box, 1, 0, NULL, 0, &v), v);
    NOTED(0x04, 0, trawl_read(box, sizeof box, 1, 1, NULL, 0, &v), v);
    must(trawl_read(box, sizeof box, 1, 1, record, sizeof record, &v) == 0 && v == 1, "read");
    must(trawl_record_identifier(record) == 0x7E8 && trawl_record_size(record) == 4 && trawl_record_data_size(record) == 0, "its record");

    /* telegrams and recordings */
    must(trawl_read_telegram(0, 0, NULL, 0, telegram, sizeof telegram) == 0x0A, "no bytes on a channel");
    must(trawl_read_telegram(1, 0x200, NULL, 0, telegram, sizeof telegram) == 0x0A, "no bytes to open with");
    must(trawl_read_telegram(0, 0, NULL, 0, NULL, 0) == 0x04, "no buffer for a telegram");
    must(trawl_read_telegram(0, 0, (const uint8_t *)"\xA3", 1, NULL, 0) == 0x04, "no buffer for a telegram");
    v = 77, must(trawl_write_telegram(NULL, 0, NULL, 0, &v) == 0x04 && v == 0, "no telegram, no buffer");
    v = 77, must(trawl_write_telegram(telegram, sizeof telegram, NULL, 0, &v) == 0x04 && v == 0, "no buffer");
    v = 77, must(trawl_write_telegram(NULL, 0, room, sizeof room, &v) == 0x04 && v == 0, "no telegram");
    must(trawl_replay(box, sizeof box, NULL, 0, &at, room, sizeof room, &length) == 0 && length == 0 && at == 0, "an empty recording");
    length = 77, must(trawl_replay(box, sizeof box, NULL, 0, &at, NULL, 0, &length) == 0x04 && length == 0, "an empty recording into nothing");
    length = 77;
    must(trawl_replay(box, sizeof box, (const uint8_t *)"\x03", 1, &at, NULL, 0, &length) == 0x04 && length == 0, "a recording into nothing");
    length = 77, must(trawl_replay(NULL, 0, NULL, 0, &at, NULL, 0, &length) == 0x1A && length == 0 && at == 0, "no memory");
    printf("NULL with length 0: %lu calls answered as the header says\n", held);
    return 0;
}
