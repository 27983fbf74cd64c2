/* TP2.0: a connection is opened, a message of 20 bytes goes, one of 30 bytes comes, the connection is tested and ended. The box has channel 1 open, the
 * raw channel of line 0; its partner is a module with the address 0x01. The module is simulated here, so that every run is the same; the output is
 * kept in link_message.out.
 *
 *   cc -std=c99 -I include c/examples/link_message.c target/staticlib/PROCESSOR/libpassthru.a -o link_message && ./link_message
 */
#define TRAWL_NO_J2534_NAMES
#include <stdio.h>
#include <stdlib.h>
#include <string.h>

#include "trawlpepper.h"

enum { LINE = 0, CHANNEL = 1, REQUEST = 20, ANSWER = 30 };

static const uint32_t own = 0x200, address = 0x01, theirs = 0x300; /* our identifier, the module's address, the identifier that it is to send with */
static uint8_t box[TRAWL_MEMORY];
static uint32_t now; /* microseconds that the box was told of */

static void good(uint32_t code, const char *what) {
    if (code == TRAWL_STATUS_NOERROR) return;
    printf("%s: code 0x%02X\n", what, (unsigned)code);
    exit(1);
}

static void pass(uint32_t us) {
    good(trawl_advance(box, sizeof box, us), "advance");
    now += us;
}

static void show(const char *who, uint32_t identifier, const uint8_t *data, size_t n) {
    size_t i;
    printf("%8.3f ms  %-6s 0x%03X", now / 1000.0, who, (unsigned)identifier);
    for (i = 0; i < n; i++) printf(" %02X", data[i]);
    printf("\n");
}

/* ---- the module: it says telegrams, and puts together what it hears ---- */

static uint8_t heard[REQUEST + 7];
static size_t heard_n;
static int parted;

static void module_says(uint32_t identifier, const uint8_t *data, size_t n) {
    show("module", identifier, data, n);
    good(trawl_frame(box, sizeof box, LINE, 0, identifier, data, n), "frame");
}

/* Block size 2; telegrams to it are to be a millisecond apart (T3 0x0A). */
static void module_joins(void) {
    static const uint8_t joined[6] = {0xA1, 0x02, 0x8A, 0xFF, 0x0A, 0xFF};
    module_says(theirs, joined, sizeof joined);
}

/* A set-up is answered with the identifier that we are to send with, 0x740; data that ask are acknowledged with the next number. */
static void module_hears(uint32_t identifier, const uint8_t *data, size_t n) {
    static const uint8_t reply[7] = {0x00, 0xD0, 0x00, 0x03, 0x40, 0x07, 0x01};
    uint8_t acknowledge = (uint8_t)(0xB0 | ((data[0] + 1) & 0x0F));
    if (identifier == own) module_says(0x200 + address, reply, sizeof reply);
    else if (data[0] == 0xA0 || data[0] == 0xA3) module_joins();
    else if (data[0] == 0xA8) parted = 1;
    if (identifier == own || data[0] >= 0x40) return;
    memcpy(heard + heard_n, data + 1, n - 1);
    heard_n += n - 1;
    if ((data[0] & 0x20) == 0) module_says(theirs, &acknowledge, 1);
}

/* ---- the box: what its driver and its application do ---- */

/* The driver: the next telegram, if there is one, goes out, and the box is told so. */
static int box_sends(void) {
    uint8_t record[TRAWL_RECORD];
    if (trawl_take(box, sizeof box, CHANNEL, record, sizeof record) == TRAWL_ERR_BUFFER_EMPTY) return 0;
    show("box", trawl_record_identifier(record), trawl_record_data(record), trawl_record_data_size(record));
    good(trawl_sent(box, sizeof box, CHANNEL), "sent");
    module_hears(trawl_record_identifier(record), trawl_record_data(record), trawl_record_data_size(record));
    return 1;
}

/* The application: the message that came; the code tells how things are. */
static uint32_t box_receives(void) {
    uint8_t message[TRAWL_LINK_MESSAGE];
    uint32_t length, code = trawl_link_receive(box, sizeof box, CHANNEL, message, sizeof message, &length);
    if (code == TRAWL_STATUS_NOERROR)
        printf("             received: %u bytes, %02X to %02X\n", (unsigned)length, message[0], message[length - 1]);
    return code;
}

static void opens(void) {
    uint32_t channel;
    good(trawl_power_on(box, sizeof box), "power-on");
    good(trawl_connect(box, sizeof box, LINE, TRAWL_CAN, 0, 500000, &channel), "connect");
    good(trawl_link_open(box, sizeof box, channel, own, address, theirs, 0x01, 15, 0x8A, 0x05), "open");
    while (box_receives() == TRAWL_ERR_FAILED) /* until it stands; a module that doesn't answer would need an end to this */
        if (!box_sends()) pass(500);
    printf("             it stands\n");
}

/* Ours goes: in blocks of two, and no faster than the module wants. While it is under way another send is 0x11. */
static void sends(void) {
    uint8_t message[REQUEST];
    size_t i;
    for (i = 0; i < REQUEST; i++) message[i] = (uint8_t)(i + 1);
    good(trawl_link_send(box, sizeof box, CHANNEL, message, sizeof message), "send");
    while (heard_n < REQUEST)
        if (!box_sends()) pass(500);
    printf("             the module has heard %s\n", memcmp(heard, message, REQUEST) == 0 ? "all of it" : "something else");
}

/* The module's comes: a telegram a millisecond; the last of a block and of the message asks, and the box acknowledges it. */
static void receives(void) {
    uint8_t data[8];
    size_t at, part, k = 0;
    for (at = 0; at < ANSWER; at += part, k++) {
        part = ANSWER - at < 7 ? ANSWER - at : 7;
        data[0] = (uint8_t)(k | (at + part == ANSWER ? 0x10 : k % 2 == 0 ? 0x20 : 0x00));
        for (size_t i = 0; i < part; i++) data[1 + i] = (uint8_t)(0x80 + at + i);
        pass(1000);
        module_says(theirs, data, 1 + part);
        while (box_sends()) {
        }
    }
    good(box_receives(), "receive");
}

/* After a second the box tests the connection; then it is ended, by a disconnect telegram. */
static void ends(void) {
    while (now < 1000000) pass(500);
    while (box_sends()) {
    }
    good(trawl_link_end(box, sizeof box, CHANNEL), "end");
    while (!parted)
        if (!box_sends()) pass(500);
}

int main(void) {
    opens();
    sends();
    receives();
    ends();
    return box_receives() == TRAWL_ERR_FAILED && trawl_valid(box, sizeof box) ? 0 : 1;
}
