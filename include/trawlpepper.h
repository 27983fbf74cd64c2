/* Trawlpepper: the core of a four-line pass-thru box (SAE J2534-1, raw CAN, ISO 15765 and TP2.0), proved.
 *
 * All state is one memory of TRAWL_MEMORY bytes that you lend to every call; docs/LAYOUT.md names each byte of it. Calls keep nothing else,
 * allocate nothing and never block. A call's answer is a code (below) and, for some, a number: a channel, a count, a value. The number comes
 * back through a pointer. It is a part of the answer and no lent buffer: it is written by every call, refused ones too, and is 0 where the
 * code gives none, so that no caller reads a count of an earlier call.
 *
 * Slices pass as a pointer and then a length in bytes; lists of pairs pass as a pointer and then the number of pairs. What C cannot check, you
 * guarantee:
 *   - each pointer points to at least as many bytes, or pairs, as the length says; where the length is 0 it may be NULL (no byte is read or
 *   written through it). A list of pairs is aligned as C aligns a struct trawl_pair, to 4 bytes; no other slice needs alignment;
 *   - the pointer that a number comes back through is not NULL;
 *   - what a call may write (the memory, a buffer that is not const, a number's pointer) overlaps nothing else that is lent to that call;
 *   - one thread at a time uses a memory. Two memories have nothing in common: calls on different ones may run at the same time.
 * Everything else is checked: any bytes, any lengths, any numbers are answered with a code. A refused call changes no byte of any lent buffer,
 * and of the memory nothing but the last code of the channel that it is a call on (see trawl_last_error). A refusal is every code but
 * STATUS_NOERROR and the two results ERR_TIMEOUT and ERR_BUFFER_OVERFLOW; of a write whose count is above 0 any code is a result, and the records
 * counted are queued. A list may be refused at a later pair, and then what the pairs before that one did stays. What is lent is used during the
 * call and never after it; what is const is never written.
 *
 *     static uint8_t box[TRAWL_MEMORY], every[TRAWL_RECORD], record[TRAWL_RECORD];
 *     static const uint8_t data[3] = {0x02, 0x10, 0x03};
 *     uint32_t channel, filter, count;
 *     trawl_power_on(box, sizeof box);
 *     trawl_connect(box, sizeof box, 0, TRAWL_CAN, 0, 500000, &channel);
 *     trawl_record_make(every, 0, 0, NULL, 0);
 *     trawl_start_filter(box, sizeof box, channel, TRAWL_PASS_FILTER, every, sizeof every, every, sizeof every, &filter);
 *     trawl_frame(box, sizeof box, 0, 0, 0x7E8, data, sizeof data);
 *     if (trawl_read(box, sizeof box, channel, 1, record, sizeof record, &count) == TRAWL_STATUS_NOERROR)
 *         printf("%u bytes from 0x%04X\n", (unsigned)trawl_record_size(record), (unsigned)trawl_record_identifier(record));
 *
 * Each line has a raw CAN channel, 1 to 4, and an ISO 15765 channel, 5 to 8, which may be open beside it; records of the latter have
 * TRAWL_ISO_RECORD bytes. A raw channel may hold a TP2.0 connection. Whole programs are c/examples/car.c, c/examples/iso_message.c and
 * c/examples/link_message.c; docs/INTEGRATING.md is the guide for those who build a box.
 */
#ifndef TRAWLPEPPER_H
#define TRAWLPEPPER_H

#include <stddef.h>
#include <stdint.h>

#ifdef __cplusplus
extern "C" {
#endif

/* The version of this header and of the archive built from the same sources. The first number changes when a program or a kept memory that was
 * good may be so no more, the second when something is added, the third with everything else. TRAWL_VERSION is for comparing. */
#define TRAWL_VERSION_MAJOR 7
#define TRAWL_VERSION_MINOR 2
#define TRAWL_VERSION_PATCH 0
#define TRAWL_VERSION (TRAWL_VERSION_MAJOR * 10000 + TRAWL_VERSION_MINOR * 100 + TRAWL_VERSION_PATCH)

/* The size of the device memory; of a message record of channels 1 to 4 and of one of channels 5 to 8, and the most payload bytes of the latter; of
 * a telegram record, and the room for the bytes of a telegram; the longest message of a TP2.0 connection; the most pairs of a list; the longest
 * store. */
#define TRAWL_MEMORY 48668u
#define TRAWL_RECORD 36u
#define TRAWL_ISO_RECORD 536u
#define TRAWL_ISO_PAYLOAD 508u
#define TRAWL_TELEGRAM 32u
#define TRAWL_TELEGRAM_ROOM 8u
#define TRAWL_LINK_MESSAGE 512u
#define TRAWL_PAIRS 16u
#define TRAWL_STORE 1149u

/* Every name of J2534-1 stands here with the prefix TRAWL_. Without it the same names are defined at the end of this file, unless you define
 * TRAWL_NO_J2534_NAMES before you include it: so the header lives beside a j2534.h of yours, whichever comes first. The numbers are J2534-1's
 * either way. */

/* Codes, by J2534-1's names. */
#define TRAWL_STATUS_NOERROR 0x00u
#define TRAWL_ERR_NOT_SUPPORTED 0x01u         /* unknown configuration parameter; a periodic on channels 5 to 8; a listener doesn't send */
#define TRAWL_ERR_INVALID_CHANNEL_ID 0x02u    /* channel number not 1 to 8 (TP2.0, decide, save, load: 1 to 4), or not open */
#define TRAWL_ERR_INVALID_PROTOCOL_ID 0x03u   /* connect: protocol is not 5 or 6 */
#define TRAWL_ERR_NULL_PARAMETER 0x04u        /* lent buffer too short (TP2.0: under 512; save: for the store); over 16 pairs */
#define TRAWL_ERR_INVALID_IOCTL_VALUE 0x05u   /* bad value for a known parameter */
#define TRAWL_ERR_INVALID_FLAGS 0x06u         /* connect: a flag other than 0x100, 0x800 and, on raw CAN, 0x10000000 */
#define TRAWL_ERR_FAILED 0x07u                /* sent with nothing in flight; no TP2.0 connection stands */
#define TRAWL_ERR_TIMEOUT 0x09u               /* read: some records, fewer than asked (a result) */
#define TRAWL_ERR_INVALID_MSG 0x0Au           /* bad message, frame, telegram or store; TP2.0: bad fields, no narrow frames */
#define TRAWL_ERR_INVALID_TIME_INTERVAL 0x0Bu /* interval not 5 to 65,535 ms; advance over 1,000,000 us */
#define TRAWL_ERR_EXCEEDED_LIMIT 0x0Cu        /* ten filters or ten periodics exist; on channels 5 to 8 two filters */
#define TRAWL_ERR_INVALID_MSG_ID 0x0Du        /* no periodic of that number on this channel */
#define TRAWL_ERR_INVALID_IOCTL_ID 0x0Fu      /* clear of an unknown kind */
#define TRAWL_ERR_BUFFER_EMPTY 0x10u          /* read: no record; take: no frame; no complete TP2.0 message */
#define TRAWL_ERR_BUFFER_FULL 0x11u           /* write: no room; a TP2.0 message is under way */
#define TRAWL_ERR_BUFFER_OVERFLOW 0x12u       /* records were lost since the last report (a result) */
#define TRAWL_ERR_PIN_INVALID 0x13u           /* line over 3 */
#define TRAWL_ERR_CHANNEL_IN_USE 0x14u        /* that channel of the line is already open; it has a TP2.0 connection */
#define TRAWL_ERR_MSG_PROTOCOL_ID 0x15u       /* protocol field of a record is not 5, on channels 5 to 8 not 6 */
#define TRAWL_ERR_INVALID_FILTER_ID 0x16u     /* filter type not 1 or 2, on channels 5 to 8 not 3; no filter of that number */
#define TRAWL_ERR_NO_FLOW_CONTROL 0x17u       /* write on channels 5 to 8: more than 7 payload bytes, and no filter for them */
#define TRAWL_ERR_NOT_UNIQUE 0x18u            /* filter on channels 5 to 8: an identifier of the other filter */
#define TRAWL_ERR_INVALID_BAUDRATE 0x19u      /* connect: rate not 250,000 or 500,000 */
#define TRAWL_ERR_INVALID_DEVICE_ID 0x1Au     /* device memory of the wrong size, or not valid */

/* Protocols, connection flags, filter types, parameters; RxStatus bits of a record (TX_MSG_TYPE of an echo, START_OF_MESSAGE of RxStart, both
 * TX_INDICATION and TX_MSG_TYPE of TxDone). CAN_29BIT_ID is a bit of RxStatus and TxFlags too. LISTEN_ONLY is the box's own, and not J2534-1's. */
#define TRAWL_CAN 5u
#define TRAWL_ISO15765 6u
#define TRAWL_CAN_29BIT_ID 0x100u
#define TRAWL_CAN_ID_BOTH 0x800u
#define TRAWL_LISTEN_ONLY 0x10000000u
#define TRAWL_PASS_FILTER 1u
#define TRAWL_BLOCK_FILTER 2u
#define TRAWL_FLOW_CONTROL_FILTER 3u
#define TRAWL_DATA_RATE 1u
#define TRAWL_LOOPBACK 3u
#define TRAWL_TX_MSG_TYPE 0x1u
#define TRAWL_START_OF_MESSAGE 0x2u
#define TRAWL_TX_INDICATION 0x8u

/* The answers of trawl_decide. */
#define TRAWL_DROPPED 0u
#define TRAWL_PASSES 1u
#define TRAWL_MUST_SEE 2u

/* What a clear empties: the kinds that trawl_clear takes. J2534-1's own numbers for the same are those of four IOCTLs, and trawl_clear takes
 * them for unknown kinds (0x0F):
 *   CLEAR_TX_BUFFER 0x07 is kind 1, CLEAR_RX_BUFFER 0x08 is kind 2, CLEAR_PERIODIC_MSGS 0x09 is kind 3, CLEAR_MSG_FILTERS 0x0A is kind 4.
 * trawl_clear_kind makes the one of the other. */
#define TRAWL_CLEAR_WRITTEN 1u   /* written records that are not in flight */
#define TRAWL_CLEAR_RECEIVED 2u  /* the receive queue and the lost mark */
#define TRAWL_CLEAR_PERIODICS 3u /* all periodics; their numbers are free */
#define TRAWL_CLEAR_FILTERS 4u   /* all filters; nothing more is let in, and on channels 5 to 8 all transfers end */

/* J2534-1's IOCTL numbers: for trawl_clear_kind, not for trawl_clear. */
#define TRAWL_CLEAR_TX_BUFFER 0x07u
#define TRAWL_CLEAR_RX_BUFFER 0x08u
#define TRAWL_CLEAR_PERIODIC_MSGS 0x09u
#define TRAWL_CLEAR_MSG_FILTERS 0x0Au

/* ---- a message record ----
 *
 * 36 bytes on channels 1 to 4, each number lowest byte first, but the identifier highest byte first:
 *
 *   bytes      field         in a record that you lend        as take gives it     as read gives it
 *   0 to 3     protocol      5, else 0x15                     5                    5
 *   4 to 7     RxStatus      ignored                          0                    0x100 if wide, plus 1 if an echo
 *   8 to 11    TxFlags       0x100 says wide; see below       0x100 if wide        0
 *   12 to 15   timestamp     ignored                          0                    the clock when it came, in microseconds
 *   16 to 19   data size     4 to 12; 1 to 12 in a filter     4 to 12              4 to 12
 *   20 to 23   extra index   ignored                          the data size        the data size
 *   24 to 27   identifier    at most 0x7FF, or 0x1FFFFFFF     the same             the same
 *   28 to 35   data          ignored from the size on         zeros after it       zeros after it
 *
 * The data size counts the identifier's four bytes, so a frame with n data bytes has n + 4. Wide means a 29-bit identifier, narrow one of 11
 * bits. Other bits of TxFlags are ignored in a message; in mask and pattern of a filter both TxFlags must be the same number, and the identifier
 * may be any. A connection with CAN_ID_BOTH takes both widths; otherwise it takes only wide ones with CAN_29BIT_ID, and only narrow ones without.
 *
 * On channels 5 to 8 a record has 536 bytes, with the same fields, and 508 bytes for the data. What differs:
 *
 *   bytes      field         in a record that you lend        as take gives it     as read gives it
 *   0 to 3     protocol      6, else 0x15                     6                    6
 *   4 to 7     RxStatus      ignored                          0                    0x100 if wide, plus 1 echo, 2 RxStart, 9 TxDone
 *   16 to 19   data size     5 to 512; 4 in a filter          5 to 12              5 to 512; 4 of RxStart and TxDone
 *   20 to 23   extra index   ignored                          the data size        the data size; 0 of RxStart and TxDone
 *
 * What you write and read there are whole messages, without the bytes by which ISO 15765-2 cuts them into frames; what take gives is one frame,
 * with those bytes, so its data are what goes on the line as it is.
 *
 * The functions below read and write records byte by byte, on any processor, with no struct laid over them. Those that read want 36 bytes, but
 * trawl_iso_record_data_size a record of 536, and read records of either size. */

static inline uint32_t trawl_load32(const uint8_t *at) {
    return (uint32_t)at[0] | (uint32_t)at[1] << 8 | (uint32_t)at[2] << 16 | (uint32_t)at[3] << 24;
}

static inline void trawl_store32(uint8_t *at, uint32_t number) {
    at[0] = (uint8_t)(number & 0xFFu);
    at[1] = (uint8_t)(number >> 8 & 0xFFu);
    at[2] = (uint8_t)(number >> 16 & 0xFFu);
    at[3] = (uint8_t)(number >> 24 & 0xFFu);
}

/* The first 24 bytes of a record with this protocol, these TxFlags and n bytes of at most `most`: for the functions below. */
static inline void trawl_record_numbers(uint8_t *record, uint32_t protocol, uint32_t tx_flags, size_t n, size_t most) {
    uint32_t size = n > most ? 0xFFFFFFFFu : (uint32_t)n;
    trawl_store32(record, protocol);
    trawl_store32(record + 4, 0u);
    trawl_store32(record + 8, tx_flags);
    trawl_store32(record + 12, 0u);
    trawl_store32(record + 16, size);
    trawl_store32(record + 20, size);
}

/* Bytes into a place of `most`, zeros behind them: for the functions below. */
static inline void trawl_record_put(uint8_t *place, const uint8_t *bytes, size_t n, size_t most) {
    size_t i;
    for (i = 0u; i < most; i++) place[i] = i < n ? bytes[i] : (uint8_t)0u;
}

static inline void trawl_record_put_identifier(uint8_t *place, uint32_t identifier) {
    place[0] = (uint8_t)(identifier >> 24 & 0xFFu);
    place[1] = (uint8_t)(identifier >> 16 & 0xFFu);
    place[2] = (uint8_t)(identifier >> 8 & 0xFFu);
    place[3] = (uint8_t)(identifier & 0xFFu);
}

/* A record with these TxFlags and n bytes, the identifier's four among them, over all 36 bytes: the mask or pattern of a filter of any size. Of
 * more than 12 bytes none beyond the twelfth is read, and the record is one that every call refuses with 0x0A. */
static inline void trawl_record_bytes(uint8_t *record, uint32_t tx_flags, const uint8_t *bytes, size_t n) {
    trawl_record_numbers(record, TRAWL_CAN, tx_flags, n, 12u);
    trawl_record_put(record + 24, bytes, n, 12u);
}

/* A record of a frame with n data bytes (0 to 8), over all 36 bytes: a message to send, or mask or pattern of a filter on the identifier and the
 * first n data bytes. wide is 0 or not. Of more than 8 data bytes none beyond the eighth is read, and every call refuses the record with 0x0A. */
static inline void trawl_record_make(uint8_t *record, uint32_t wide, uint32_t identifier, const uint8_t *data, size_t n) {
    trawl_record_numbers(record, TRAWL_CAN, wide ? TRAWL_CAN_29BIT_ID : 0u, n > 8u ? (size_t)13u : n + 4u, 12u);
    trawl_record_put_identifier(record + 24, identifier);
    trawl_record_put(record + 28, data, n, 8u);
}

/* The same for channels 5 to 8, over all 536 bytes: of n bytes, the identifier's four among them, at most 512; and of n payload bytes, 1 to 508, for
 * a message, or 0 for mask, pattern or flow of a filter (the mask has the identifier 0xFFFFFFFF). Of more the rest isn't read, and every call
 * refuses the record with 0x0A. */
static inline void trawl_iso_record_bytes(uint8_t *record, uint32_t tx_flags, const uint8_t *bytes, size_t n) {
    trawl_record_numbers(record, TRAWL_ISO15765, tx_flags, n, 512u);
    trawl_record_put(record + 24, bytes, n, 512u);
}

static inline void trawl_iso_record_make(uint8_t *record, uint32_t wide, uint32_t identifier, const uint8_t *payload, size_t n) {
    trawl_record_numbers(record, TRAWL_ISO15765, wide ? TRAWL_CAN_29BIT_ID : 0u, n > 508u ? (size_t)513u : n + 4u, 512u);
    trawl_record_put_identifier(record + 24, identifier);
    trawl_record_put(record + 28, payload, n, 508u);
}

static inline uint32_t trawl_record_protocol(const uint8_t *record) { return trawl_load32(record); }
static inline uint32_t trawl_record_rx_status(const uint8_t *record) { return trawl_load32(record + 4); }
static inline uint32_t trawl_record_tx_flags(const uint8_t *record) { return trawl_load32(record + 8); }
static inline uint32_t trawl_record_time(const uint8_t *record) { return trawl_load32(record + 12); }
static inline uint32_t trawl_record_size(const uint8_t *record) { return trawl_load32(record + 16); }
static inline uint32_t trawl_record_extra(const uint8_t *record) { return trawl_load32(record + 20); }

static inline uint32_t trawl_record_identifier(const uint8_t *record) {
    return (uint32_t)record[24] << 24 | (uint32_t)record[25] << 16 | (uint32_t)record[26] << 8 | (uint32_t)record[27];
}

/* The data bytes behind the identifier, and how many there are: 0 to 8, whatever the record's size says; in a record that channels 5 to 8 read,
 * 0 to 508. */
static inline const uint8_t *trawl_record_data(const uint8_t *record) { return record + 28; }
static inline size_t trawl_record_data_size(const uint8_t *record) {
    uint32_t size = trawl_record_size(record);
    return size < 4u ? 0u : size > 12u ? 8u : (size_t)(size - 4u);
}
static inline size_t trawl_iso_record_data_size(const uint8_t *record) {
    uint32_t size = trawl_record_size(record);
    return size < 4u ? 0u : size > 512u ? 508u : (size_t)(size - 4u);
}

/* 1 if a record that read or take gave is wide, else 0. Of one that read gave: 1 if it is the echo of what the box sent, else 0; the same of RxStart
 * (a message begins to come) and TxDone (a message is sent), which channels 5 to 8 give. */
static inline uint32_t trawl_record_wide(const uint8_t *record) {
    return ((trawl_record_rx_status(record) | trawl_record_tx_flags(record)) & TRAWL_CAN_29BIT_ID) != 0u ? 1u : 0u;
}
static inline uint32_t trawl_record_rx_start(const uint8_t *record) {
    return (trawl_record_rx_status(record) & TRAWL_START_OF_MESSAGE) != 0u ? 1u : 0u;
}
static inline uint32_t trawl_record_tx_done(const uint8_t *record) {
    return (trawl_record_rx_status(record) & TRAWL_TX_INDICATION) != 0u ? 1u : 0u;
}
static inline uint32_t trawl_record_echo(const uint8_t *record) {
    return (trawl_record_rx_status(record) & (TRAWL_TX_MSG_TYPE | TRAWL_TX_INDICATION)) == TRAWL_TX_MSG_TYPE ? 1u : 0u;
}

/* The kind for trawl_clear of one of J2534-1's four IOCTL numbers for clear; 0, which trawl_clear refuses with 0x0F, of any other number. */
static inline uint32_t trawl_clear_kind(uint32_t ioctl) {
    return ioctl < TRAWL_CLEAR_TX_BUFFER || ioctl > TRAWL_CLEAR_MSG_FILTERS ? 0u : ioctl - 6u;
}

/* ---- filters of channels 1 to 4 ----
 *
 *   - A channel just connected has no filter, and no filter lets nothing in. A frame is queued if a pass filter matches and no block filter
 *   does, in whatever order they were started. Block filters alone let nothing in either. Echoes go past all filters.
 *   - A filter matches a frame of its own width if, for each byte below its size, frame byte AND mask byte equals the pattern byte. THE PATTERN
 *   ISN'T MASKED: a bit (below the size) that is 1 in the pattern and 0 in the mask makes a filter that matches nothing, and no code tells.
 *   - The bytes are the four of the identifier, highest first, then the data. A filter matches no frame that has fewer bytes than its size.
 *   - The TxFlags of mask and pattern decide the width: with 0x100 the filter is for wide frames alone, without for narrow ones alone. On a
 *   connection that takes both widths it takes two filters to let all in.
 *   - A channel has at most ten, pass and block together. Starting and stopping filters leaves what is queued. */

/* ---- listeners ----
 *
 *   - A raw channel connected with TRAWL_LISTEN_ONLY, alone or beside CAN_29BIT_ID and CAN_ID_BOTH, sends nothing until it is disconnected. Write,
 *   take, sent, start periodic and the four calls of a TP2.0 connection answer 0x01 there, straight after 0x02 and whatever else is wrong, a write of
 *   no records too. Such a refusal changes nothing but the last code.
 *   - Everything else is as on any raw channel: filters, frames, read, clear, stop periodic (0x0D, there are none), get, set and their lists,
 *   decide, save, load. Loopback can be set, and has nothing to echo. Periodics can't be loaded (0x0A).
 *   - The ISO 15765 channel of the line may be open beside it, and sends as ever. What the controller itself puts on the line, as an acknowledgement
 *   of the frames that it hears, is the driver's matter. */

/* ---- ISO 15765 channels, 5 to 8 ----
 *
 *   - A filter is a conversation with one partner: its pattern is the identifier that the partner sends with, its flow the one that the box sends
 *   with. A channel has at most two. Both identifiers of both filters differ, but a filter's own two may be the same: then it is for single frames.
 *   - Messages of up to 7 payload bytes travel in one frame. Longer ones, up to 508, are cut: a first frame with the length, then the partner's
 *   flow frame, then consecutive frames numbered 1 to 15, 0, 1 and so on. The box makes and understands these frames, with normal addressing; what
 *   it sends is unpadded, what it receives may be padded. The first frame of a still longer message is answered by flow status overflow and gives
 *   no record.
 *   - Received: RxStart when the first frame of a long message comes, the message when its last frame comes, with the clock of these frames. A new
 *   first frame or a single frame ends an unfinished reception; so does a wrong number, and so does a second without the next frame. Then there is
 *   RxStart and no message.
 *   - Sent: messages in the order written, one at a time on a channel, through take and sent frame by frame, at the pace of the partner's flow
 *   frames (block size, STmin). TxDone when the last frame is sent, then with loopback on the message as its echo. A second without the flow frame
 *   that is waited for, or flow status overflow, drops the message: then there is no TxDone.
 *   - A conversation does one thing at a time: while the box sends on it, only flow frames of the partner count; while it receives, a long message
 *   for it waits, and those behind it. Flow frames of the box go before everything else.
 *   - A long message needs a filter whose flow is its identifier, when it is written (0x17) and when it is its turn; a short one needs none.
 *   - A channel holds 8 records for reading and 4 written messages, beside the one under way. It has no periodics. Its rate, loopback, records and
 *   last code are its own. It doesn't hear what the raw channel of its line sends, nor the other way round; frames that come are for both. */

/* ---- TP2.0 connections of channels 1 to 4 ----
 *
 *   - A raw channel that takes narrow frames and is no listener may hold one connection to a module (SAE J2819), which the box opens: four at once,
 *   one on each line. trawl_link_open begins it, and the box makes and understands all telegrams, through take, sent, frame and advance like
 *   everything else. Whether it stands trawl_link_receive tells: 0x10 and not 0x07.
 *   - Opening: a set-up on your identifier, sent again each 100 ms without a reply, eleven in all; then the connection set-up on the TX-ID of the
 *   reply, as often. A negative reply, or none to the last, ends it, and no code tells but 0x07 at the next call. Replies are those of 0x200 plus
 *   the destination, to the low byte of your identifier, with your RX-ID and application.
 *   - Messages of 1 to 512 bytes go in telegrams of seven, in blocks of the smaller block size of both sides; the last telegram of a block and of a
 *   message asks for an acknowledgement. Where none comes within T1 (yours) it goes again, three in all, and then the connection ends. The partner
 *   may ask for telegrams of a block again five times, let the box wait for 100 ms, or break the message off: then one empty telegram ends it, and
 *   no code tells that the rest is missing. Telegrams are as far apart as the partner's T3 says.
 *   - One message is received at a time: until it is fetched the partner is told not ready. One of more than 512 bytes ends the connection.
 *   - Each second the box tests the connection, and answers tests of the partner. The seventh second without an answer ends it.
 *   - An end, the caller's or one of the above, is told to the partner by a disconnect telegram where the channel stands, after the frame in flight
 *   and T3; until it is sent another opening is 0x14. A disconnect telegram of the partner ends it at once. A message that was complete and not
 *   fetched is gone with it.
 *   - Its telegrams go behind pending periodics and before written records. Frames that it hears are still for the raw filters, and what it sends
 *   echoes with loopback on. All its times count accepted advances alone. */

/* ---- the driver's loop ----
 *
 * You write the functions of the controller: whether it received a frame (and which), whether it has sent the frame it was handed since you
 * last asked, whether it is idle, and the handing over. turn has a number for each line, zeros at first: the channel whose frame the controller
 * has; the line's two channels take turns. record has TRAWL_ISO_RECORD bytes. This may run in a main loop as often as you like:

    uint32_t line, k, wide, id, us = microseconds_since_last_time();
    for (; us > 1000000u; us -= 1000000u) trawl_advance(box, sizeof box, 1000000u);
    trawl_advance(box, sizeof box, us);
    for (line = 0u; line < 4u; line++) {
        if (controller_has_sent(line)) trawl_sent(box, sizeof box, turn[line]);
        while (controller_received(line, &wide, &id, data, &n)) trawl_frame(box, sizeof box, line, wide, id, data, n);
        for (k = 0u; k < 2u && controller_idle(line); k++) {
            turn[line] = turn[line] == line + 1u ? line + 5u : line + 1u;
            if (trawl_take(box, sizeof box, turn[line], record, sizeof record) == TRAWL_STATUS_NOERROR)
                controller_send(line, trawl_record_wide(record), trawl_record_identifier(record), trawl_record_data(record),
                                trawl_record_data_size(record));
        }
    }

 * Sent comes before the frames: a partner's flow frame or acknowledgement counts only after the sent of the frame that it answers. A frame that was
 * taken is in flight: one a channel, and it stays so until it is sent, or the channel is disconnected. While it is, take gives the same bytes
 * again, and nothing behind it moves. So:
 *   - Where the controller FAILS TO SEND (arbitration lost, no acknowledgement, bus off), call nothing. The next take gives the frame again, and
 *   handing it over again is the retry. J2534-1 wants that retries go on until they succeed or the application stops them.
 *   - To GIVE IT UP, empty the flight: with loopback off call trawl_sent. With loopback on that would queue an echo of a frame that was never on
 *   the line: set LOOPBACK to 0, call trawl_sent, set it to 1 again. Clear and stopping a periodic leave the flight, so where J2534-1's
 *   CLEAR_TX_BUFFER is to stop retries, do this after trawl_clear, and take the frame back from the controller first. On channels 5 to 8 a sent
 *   goes on with the message, or tells that it is done: stop the filter first, or, of a message in a single frame, disconnect.
 *   - On channels 1 to 4 a sent of a TP2.0 telegram starts the times of its connection, as if the partner could have heard it: end the connection
 *   first where that is not wanted.
 *   - On disconnect and close take back what the controller still holds: the flight is gone, and a trawl_sent for it would answer 0x07, or, where
 *   a frame was taken since, speak of that one.
 *   - With loopback on the box makes the echo, at the sent. Don't hand your own frames to trawl_frame as well. */

/* ---- the calls ----
 *
 * Each has its codes listed in the order of its checks: the first that holds is the answer, and 0x00 where none does. Power-on aside, every call
 * that is lent a memory looks at it first: 0x1A where memory_length is not TRAWL_MEMORY or its bytes are not a device memory. Numbers are compared
 * whole: 257 is not 1. */

/* ---- the box as a whole ---- */

/* 1 where these bytes are a device memory, else 0. Writes nothing. */
uint32_t trawl_valid(const uint8_t *memory, size_t memory_length);

/* Any bytes of the right size become the memory of a box just switched on: nothing open, clock 0.
 * Codes: 0x1A for another size. */
uint32_t trawl_power_on(uint8_t *memory, size_t memory_length);

/* Opens a channel of a line (0 to 3) and gives its number: with protocol 5 the raw CAN channel, the line plus 1; with protocol 6 the ISO 15765
 * channel, the line plus 5. Each may be open without the other, and has its own flags and rate. The new channel is empty: no filters, no periodics,
 * nothing queued, loopback 0, no last code. Refused with 0x14 it leaves that code with the channel, which is open; refused with another it leaves
 * nothing.
 * Flags are CAN_29BIT_ID and CAN_ID_BOTH, each or both or none, and with protocol 5 also TRAWL_LISTEN_ONLY, which makes a listener.
 * Codes: 0x1A; 0x03 protocol is not 5 or 6; 0x06 a flag bit other than 0x100, 0x800 and, with protocol 5, 0x10000000; 0x19 rate is not 250000 or
 * 500000 (125000 is retired); 0x13 line over 3; 0x14 that channel is open. */
uint32_t trawl_connect(uint8_t *memory, size_t memory_length, uint32_t line, uint32_t protocol, uint32_t flags, uint32_t rate,
                       uint32_t *channel);

/* Disconnects every channel, frames in flight and TP2.0 connections too, which say nothing more. The clock runs on.
 * Codes: 0x1A. */
uint32_t trawl_close(uint8_t *memory, size_t memory_length);

/* Time goes on by 0 to 1,000,000 microseconds, for the clock (modulo 2^32), every periodic, every ISO 15765 transfer and every TP2.0 connection: a
 * periodic that reaches one or more of its due times is pending, once; a transfer that has waited a second for its partner's frame is dropped, and a
 * pause between consecutive frames gets shorter; a connection repeats what had no answer, tests, or gives up. No other call moves time.
 * Codes: 0x1A; 0x0B over 1,000,000, and no time passes. */
uint32_t trawl_advance(uint8_t *memory, size_t memory_length, uint32_t microseconds);

/* A frame came in on a line: wide is 0 (11 bits) or 1 (29 bits), data has 0 to 8 bytes. Both channels of the line hear it, each if it is open. The
 * raw one queues it as a record with the clock as its timestamp if it takes the width and its filters let it in, and a narrow one is also for its
 * TP2.0 connection, whatever the filters say; the ISO 15765 one does what the frame says if it has the pattern and the width of a filter, which may
 * queue a record. Else it is dropped, and 0x00 is the answer all the same. Where 32 records (ISO 15765: 8) wait already a record is dropped and the
 * lost mark is set, again with 0x00: the next read tells.
 * Codes: 0x1A; 0x13 line over 3; 0x0A wide over 1, identifier over 0x7FF or (wide) 0x1FFFFFFF, or data_length over 8. */
uint32_t trawl_frame(uint8_t *memory, size_t memory_length, uint32_t line, uint32_t wide, uint32_t identifier, const uint8_t *data,
                     size_t data_length);

/* ---- calls on a channel ----
 *
 * A record has 36 bytes on channels 1 to 4 and 536 on channels 5 to 8; R stands for that size. */

/* Closes the channel: everything in it is gone, the frame in flight too, and its TP2.0 connection without a disconnect telegram.
 * Codes: 0x1A; 0x02 channel not 1 to 8, or not open. */
uint32_t trawl_disconnect(uint8_t *memory, size_t memory_length, uint32_t channel);

/* Starts a filter of channels 1 to 4, type 1 (pass) or 2 (block); mask and pattern are records of 36 bytes, and what counts of them is copied. Gives
 * the filter's number, the smallest free one of 1 to 10. On channels 5 to 8 the answer is 0x04, since the flow record is missing.
 * Codes: 0x1A; 0x02; 0x04 mask or pattern under 36 bytes; 0x16 type not 1 or 2; 0x15 protocol of mask or pattern is not 5; 0x0A sizes not equal
 * or not 1 to 12, TxFlags not equal, or a width that the connection doesn't take; 0x0C ten filters exist on the channel. */
uint32_t trawl_start_filter(uint8_t *memory, size_t memory_length, uint32_t channel, uint32_t type, const uint8_t *mask,
                            size_t mask_length, const uint8_t *pattern, size_t pattern_length, uint32_t *number);

/* Starts a filter of any channel. On channels 1 to 4 it is trawl_start_filter, and flow isn't looked at. On channels 5 to 8 it is of type 3 and opens
 * a conversation: mask, pattern and flow are records of 536 bytes with size 4, the mask FF FF FF FF, the pattern the identifier that the partner
 * sends with and the flow the box's own; they are copied. Gives the filter's number, 1 or 2, the smallest free one.
 * Codes there: 0x1A; 0x02; 0x04 mask, pattern or flow under 536 bytes; 0x16 type is not 3; 0x15 protocol of one of them is not 6; 0x0A a size is not
 * 4, the mask is another, TxFlags not all equal, a width that the connection doesn't take, or pattern or flow too large for it; 0x18 pattern or flow
 * is the pattern or flow of the channel's other filter, in the same width; 0x0C two filters exist on the channel. */
uint32_t trawl_start_flow_filter(uint8_t *memory, size_t memory_length, uint32_t channel, uint32_t type, const uint8_t *mask,
                                 size_t mask_length, const uint8_t *pattern, size_t pattern_length, const uint8_t *flow,
                                 size_t flow_length, uint32_t *number);

/* Stops the filter of a number; the others keep theirs. On channels 5 to 8 its conversation ends: what was being received or sent on it is dropped
 * without a record, though a frame of it in flight stays there.
 * Codes: 0x1A; 0x02; 0x16 no filter of that number on this channel. */
uint32_t trawl_stop_filter(uint8_t *memory, size_t memory_length, uint32_t channel, uint32_t number);

/* Starts a periodic; message is a record, which is copied, interval 5 to 65,535 milliseconds. It is pending at once and then at each whole multiple
 * of the interval after its start, however late it is taken or sent. Gives its number, the smallest free one of 1 to 10. Listeners and channels 5 to
 * 8 have none.
 * Codes: 0x1A; 0x02; 0x01 a listener; 0x04 message under R bytes; 0x01 channels 5 to 8; 0x0B interval not 5 to 65,535; 0x15 protocol is not 5; 0x0A
 * size not 4 to 12, a width that the connection doesn't take, or an identifier too large for its width; 0x0C ten periodics exist on the channel. */
uint32_t trawl_start_periodic(uint8_t *memory, size_t memory_length, uint32_t channel, const uint8_t *message, size_t message_length,
                              uint32_t interval, uint32_t *number);

/* Stops the periodic of a number; the others keep theirs. What it has in flight stays there.
 * Codes: 0x1A; 0x02; 0x0D no periodic of that number on this channel. */
uint32_t trawl_stop_periodic(uint8_t *memory, size_t memory_length, uint32_t channel, uint32_t number);

/* Queues the first n records of a buffer of at least R * n bytes for sending, in order, until one is refused or 16 (channels 5 to 8: 4) are held;
 * they are copied. Gives how many were queued, and the code of the record that stopped it. With n = 0 the answer is 0x00, but on a listener 0x01.
 * Codes: 0x1A; 0x02; 0x01 a listener; 0x04 under R * n bytes; then for each record 0x15 protocol is not the channel's; 0x0A size not 4 to 12
 * (channels 5 to 8: 5 to 512), a width that the connection doesn't take, or an identifier too large for its width; 0x17 channels 5 to 8: size over
 * 11, and no filter has this identifier and width as its flow; 0x11 as many are held. A code with a count above 0 is no refusal: lend the rest again
 * later, from the record that stopped it. */
uint32_t trawl_write(uint8_t *memory, size_t memory_length, uint32_t channel, uint32_t n, const uint8_t *records, size_t records_length,
                     uint32_t *count);

/* Moves up to n of the oldest received records to the start of a buffer of at least R * n bytes; the bytes behind them stay. Gives how many.
 * Codes: 0x1A; 0x02; 0x04 under R * n bytes, whatever waits; with n = 0 then 0x00, and nothing changes. Else 0x12 records were lost since the
 * last report (told once, with the records, be they n, fewer or none: look at the count); 0x00 n records; 0x10 none; 0x09 fewer than n. */
uint32_t trawl_read(uint8_t *memory, size_t memory_length, uint32_t channel, uint32_t n, uint8_t *buffer, size_t buffer_length,
                    uint32_t *count);

/* The frame to send next, as a record, to the start of a buffer of at least R bytes; the bytes behind it stay. It is in flight until it is sent,
 * and as long take gives it again. Else, on channels 1 to 4, the lowest-numbered pending periodic is taken, else the next telegram of the TP2.0
 * connection, if one may go, else the oldest written record. On
 * channels 5 to 8: else the flow frame that a partner waits for, that of filter 1 first; else the next frame of the message under way, if the
 * partner lets it go and the pause that it asked for is over; else, where none is under way, the first frame of the oldest written message, if its
 * conversation is free.
 * Codes: 0x1A; 0x02; 0x01 a listener; 0x04 under R bytes, whatever waits; 0x10 no frame. */
uint32_t trawl_take(uint8_t *memory, size_t memory_length, uint32_t channel, uint8_t *buffer, size_t buffer_length);

/* The frame in flight is on the line: the flight is empty. On channels 1 to 4, with loopback on, its echo is queued for reading, with the clock as
 * its timestamp, past all filters; of a TP2.0 telegram its connection's times run from now. On channels 5 to 8 the message goes on; with its last
 * frame TxDone is queued, and with loopback on the message as its echo behind it. Where 32 records (8) wait a record is lost, the lost mark is set,
 * and 0x00 is the answer all the same.
 * Codes: 0x1A; 0x02; 0x01 a listener; 0x07 nothing in flight. */
uint32_t trawl_sent(uint8_t *memory, size_t memory_length, uint32_t channel);

/* Empties one of four things, TRAWL_CLEAR_WRITTEN and so on; none of them touches the flight or a TP2.0 connection. On channels 5 to 8 the filters
 * go with what is being received and sent on them; the other three leave that.
 * Codes: 0x1A; 0x02; 0x0F kind not 1 to 4. */
uint32_t trawl_clear(uint8_t *memory, size_t memory_length, uint32_t channel, uint32_t kind);

/* The value of DATA_RATE (1) or LOOPBACK (3). A refusal becomes the channel's last code; else nothing but the value is written. A kept memory may
 * hold a channel at 125000 from before that rate was retired: it is valid, the channel runs on until it is disconnected or has another rate set,
 * and so long this gives 125000.
 * Codes: 0x1A; 0x02; 0x01 another parameter. */
uint32_t trawl_get(uint8_t *memory, size_t memory_length, uint32_t channel, uint32_t parameter, uint32_t *value);

/* A new value: DATA_RATE 250000 or 500000, LOOPBACK 0 or 1. Nothing else of the channel changes.
 * Codes: 0x1A; 0x02; 0x01 another parameter, whatever the value; 0x05 another value, 125000 too. */
uint32_t trawl_set(uint8_t *memory, size_t memory_length, uint32_t channel, uint32_t parameter, uint32_t value);

/* A parameter and its value, as in J2534-1's SCONFIG: Parameter, then Value. Here both have 32 bits; where SCONFIG's are wider, copy them pair by
 * pair. The lists of trawl_set_list and trawl_get_list have 0 to TRAWL_PAIRS of them, one behind the other, as SCONFIG_LIST's ConfigPtr has. */
struct trawl_pair {
    uint32_t parameter;
    uint32_t value;
};

/* SET_CONFIG: sets the parameters of a list, pair by pair in order, each as trawl_set does. The first pair refused gives its code and ends the
 * list: what earlier pairs set stays in force, later pairs are not looked at. A parameter may stand there twice, and the later one wins. The list
 * itself is only read. With no pairs the answer is 0x00.
 * Codes: 0x1A; 0x02; 0x04 more than 16 pairs, and none is set; then for each pair 0x01 another parameter, whatever the value; 0x05 another
 * value. */
uint32_t trawl_set_list(uint8_t *memory, size_t memory_length, uint32_t channel, const struct trawl_pair *pairs, size_t count);

/* GET_CONFIG: writes the value of each parameter of a list into its own pair, in order, each as trawl_get gives it. The first pair refused gives
 * its code and ends the list: values written before it stay there, its own value and all later ones are left as they were. Parameters are never
 * written. With no pairs the answer is 0x00.
 * Codes: 0x1A; 0x02; 0x04 more than 16 pairs, and none is written; then for each pair 0x01 another parameter. */
uint32_t trawl_get_list(uint8_t *memory, size_t memory_length, uint32_t channel, struct trawl_pair *pairs, size_t count);

/* Decides on the identifier alone, for a controller that shows it before the data: what the filters of a raw channel, 1 to 4, say of every frame
 * of a width (wide is 0 or 1) with an identifier, whatever its data of 0 to 8 bytes. Gives TRAWL_PASSES where all of them are let in,
 * TRAWL_DROPPED where none is, and TRAWL_MUST_SEE where it takes the data: then there are data that are let in and data that are not. Block filters
 * that only together keep all out count, and so does the frame without data. A width that the connection doesn't take is TRAWL_DROPPED.
 *   - The answer is about the filters as they are now, and nothing else: full queues, loopback and the lost mark play no part. It holds until a
 *   filter is started, stopped or cleared, a set-up is loaded, or the channel is disconnected.
 *   - DROPPED SPEAKS OF THE RAW FILTERS ALONE. While the ISO 15765 channel of the line is open, or the raw channel has a TP2.0 connection (which
 *   hears narrow frames), they may need a frame that the filters drop: call trawl_frame all the same. Else a dropped frame need not be brought.
 *   One that passes is brought as ever: this call queues nothing.
 *   - A refusal becomes the channel's last code; else nothing but the answer is written.
 * Codes: 0x1A; 0x02 channel not 1 to 4, or not open; 0x0A wide over 1, identifier over 0x7FF or (wide) 0x1FFFFFFF. */
uint32_t trawl_decide(uint8_t *memory, size_t memory_length, uint32_t channel, uint32_t wide, uint32_t identifier, uint32_t *answer);

/* A store is the set-up of a raw channel as bytes, to be kept outside the box: its flags, filters, periodics, rate and loopback. Numbers stand there
 * in groups of seven bits, lowest first, each byte but the last with 0x80 added, in as few bytes as they need; records have their 36 bytes:
 *
 *   2; the connection flags; how many filters, and of each its number, its type, its mask and its pattern as records; how many periodics, and of each
 *   its number, its record, its interval in milliseconds; the rate; loopback
 *
 * Filters and periodics stand in the order of their numbers, 1 to 10, and gaps are kept. Records are clean: protocol 5, RxStatus 0, TxFlags 0 or
 * 0x100, timestamp 0, the size, the size again, the bytes, zeros. Nothing follows. That is version 2, the one that is written. Version 1, from
 * before, begins with 1 and has no flags: they were 0. What was queued or written, the frame in flight, the last code, a TP2.0 connection and where
 * the periodics were in their intervals are not in it. */

/* Saves the set-up of a raw channel, 1 to 4: writes its store to the start of a buffer; the bytes behind it stay. Gives its length. A buffer of
 * TRAWL_STORE bytes always suffices; it is the length of this store that counts. The channel doesn't change. Two channels with the same set-up have
 * the same store, byte for byte. A channel that still runs at 125000 is saved with that rate, and the store can't be loaded.
 *   if (trawl_save(box, sizeof box, channel, store, sizeof store, &length) == TRAWL_STATUS_NOERROR) fwrite(store, 1, length, file);
 * Codes: 0x1A; 0x02 channel not 1 to 4, or not open; 0x04 the store is longer than the buffer, which stays as it was. */
uint32_t trawl_save(uint8_t *memory, size_t memory_length, uint32_t channel, uint8_t *buffer, size_t buffer_length, uint32_t *length);

/* Loads a store, all of what is lent, on a raw channel, 1 to 4, whose flags are those of the store, as whole numbers: 0x800 and 0x900 take the same
 * frames, and still differ. Its filters, periodics, rate and loopback are then those of the store and no others; or, refused, all of them stay.
 *   - Filters and periodics have the numbers that they had when they were saved. Periodics start anew: each is pending at once, and then at each
 *   whole multiple of its interval from now.
 *   - What is queued for reading, the lost mark, written records, the frame in flight, the last code and a TP2.0 connection stay.
 *   - A store of version 2, loaded and saved again, is the same byte for byte. One of version 1 loads on flags 0 alone.
 *   - A store is bad where its form is another: filters or periodics not in order, a number of theirs over 10, a number in more bytes than it needs,
 *   a record that isn't clean, a byte more or less, a first number other than 1 and 2. So it is where it holds what trawl_start_filter,
 *   trawl_start_periodic or trawl_set would refuse on the channel: a type, size, width, identifier, interval, rate (125000 too) or loopback; with the
 *   flag of a listener any periodic.
 *   code = trawl_load(box, sizeof box, channel, store, length);
 * Codes: 0x1A; 0x02 channel not 1 to 4, or not open; 0x0A a bad store, or other flags. */
uint32_t trawl_load(uint8_t *memory, size_t memory_length, uint32_t channel, const uint8_t *store, size_t store_length);

/* Opens a TP2.0 connection on channels 1 to 4: the set-up telegram waits at take. own is the box's identifier, 0x200 to 0x2EF; destination the
 * module's address, 0x00 to 0xEF; rx_id the identifier that the module is to send with, 0 to 0x7FF; application 0x01, 0x10, 0x20 or 0x21; block_size
 * 1 to 15; t1 and t3 time bytes (trawl_time), 0 to 255: how long the box waits for an acknowledgement, 0xFF for ever, and how far apart the module is
 * to send. J2819 wants t1 above four times t3; the box doesn't look at that.
 * Codes: 0x1A; 0x02 channel not 1 to 4, or not open; 0x01 a listener; 0x0A the channel doesn't take narrow frames, or another field; 0x14 a
 * connection is there: it opens, stands, or its disconnect telegram is not yet sent. */
uint32_t trawl_link_open(uint8_t *memory, size_t memory_length, uint32_t channel, uint32_t own, uint32_t destination, uint32_t rx_id,
                         uint32_t application, uint32_t block_size, uint32_t t1, uint32_t t3);

/* Sends a message over the connection that stands; all of what is lent, 1 to 512 bytes, which are copied. It is under way until its last telegram is
 * acknowledged, and then another may be sent.
 * Codes: 0x1A; 0x02; 0x01 a listener; 0x0A the channel doesn't take narrow frames; 0x07 no connection stands; 0x0A 0 bytes, or more than 512; 0x11
 * a message is under way. */
uint32_t trawl_link_send(uint8_t *memory, size_t memory_length, uint32_t channel, const uint8_t *message, size_t message_length);

/* Moves the complete message that was received to the start of a buffer of at least 512 bytes; the bytes behind it stay. Gives its length, 1 to 512.
 * Codes: 0x1A; 0x02; 0x01 a listener; 0x04 under 512 bytes, whatever waits; 0x0A the channel doesn't take narrow frames; 0x07 no connection stands;
 * 0x10 it stands, and no message is complete. */
uint32_t trawl_link_receive(uint8_t *memory, size_t memory_length, uint32_t channel, uint8_t *buffer, size_t buffer_length,
                            uint32_t *length);

/* Ends the connection. While the set-up has no reply it is gone at once; later what was to be sent is dropped, and the disconnect telegram waits at
 * take.
 * Codes: 0x1A; 0x02; 0x01 a listener; 0x0A the channel doesn't take narrow frames; 0x07 no connection, or its disconnect telegram waits already. */
uint32_t trawl_link_end(uint8_t *memory, size_t memory_length, uint32_t channel);

/* The last code of a channel: of the last call on it that was not answered 0x00, or 0 where all were since it was connected. It is what
 * PassThruGetLastError asks for, of one channel and as a number.
 *   - Every code but 0x00 counts, results too: a read's 0x09, 0x10 and 0x12, a write's code with a count above 0, a take's 0x10, so that a loop
 *   which polls take leaves 0x10 here, of a listener 0x01. A list is one call with one code. 0x00 leaves it as it was.
 *   - The calls are those of this section, and a connect that is answered 0x14. Frames and advances leave it, whatever their code; so do a connect
 *   with another refusal, and 0x1A and 0x02, since they concern no open channel. Disconnect and close end it with the channel.
 *   - Asking writes nothing but the number, and is itself no such call.
 * Codes: 0x1A; 0x02. */
uint32_t trawl_last_error(const uint8_t *memory, size_t memory_length, uint32_t channel, uint32_t *code);

/* ---- TP2.0 telegrams (SAE J2819) ---- */

/* A telegram is a record of 32 bytes, numbers lowest byte first: bytes 0 to 3 the kind, 4 to 23 five fields of four bytes each, 24 how many
 * bytes the telegram carries, 25 to 31 those bytes. The fields of each kind, in order:
 *   TRAWL_SET_UP              identifier, destination, RX-ID, application
 *   TRAWL_POSITIVE            identifier, destination, TX-ID, RX-ID, application
 *   TRAWL_NEGATIVE_D6 to D8   identifier, destination; carries 5 bytes
 *   TRAWL_DATA                asks for an acknowledgement (0 or 1), last (0 or 1), SN; carries 0 to 7 bytes
 *   TRAWL_ACKNOWLEDGE         ready (0 or 1), SN
 *   TRAWL_CONNECTION_SET_UP, TRAWL_CONNECTION_ACKNOWLEDGE   block size, T1, T2, T3, T4
 *   TRAWL_TEST, TRAWL_BREAK, TRAWL_DISCONNECT               none
 * The reader writes zeros for what a kind doesn't have and behind the carried bytes; the writer doesn't look at either. T2 and T4 are any
 * bytes and are carried as they are, nothing looks into them; a connection telegram of your own has 0xFF (TRAWL_UNUSED_TIME) in both. */
#define TRAWL_SET_UP 0xC0u
#define TRAWL_POSITIVE 0xD0u
#define TRAWL_NEGATIVE_D6 0xD6u
#define TRAWL_NEGATIVE_D7 0xD7u
#define TRAWL_NEGATIVE_D8 0xD8u
#define TRAWL_DATA 0x00u
#define TRAWL_ACKNOWLEDGE 0x90u
#define TRAWL_CONNECTION_SET_UP 0xA0u
#define TRAWL_CONNECTION_ACKNOWLEDGE 0xA1u
#define TRAWL_TEST 0xA3u
#define TRAWL_BREAK 0xA4u
#define TRAWL_DISCONNECT 0xA8u
#define TRAWL_UNUSED_TIME 0xFFu

/* The telegram that bytes are, as a record over the first 32 bytes of a buffer. opening is 0 for one on a channel, where the identifier
 * plays no part, and anything else for an opening one. 0x04 for a buffer under 32 bytes, 0x0A for bytes that are no telegram. */
uint32_t trawl_read_telegram(uint32_t opening, uint32_t identifier, const uint8_t *bytes, size_t bytes_length, uint8_t *telegram,
                             size_t telegram_length);

/* The bytes of the telegram that a record says, to the start of a buffer of at least 8 bytes. Gives how many. 0x04 for a record under 32
 * bytes or a buffer under 8, 0x0A for an unknown kind or a field that the tables don't allow. */
uint32_t trawl_write_telegram(const uint8_t *telegram, size_t telegram_length, uint8_t *buffer, size_t buffer_length, uint32_t *length);

/* A time byte (T1, T3) in units of 0.1 ms. T1 = 0xFF means no time-out: its entry, 63,000, is for whoever uses T1 to pass over. */
uint32_t trawl_time(uint8_t byte);

/* ---- recordings ---- */

/* The most bytes that the answer to one event takes: what a buffer for a piece of a replay has to have at least. */
#define TRAWL_EVENT_ROOM 34306u

/* Plays a piece of a recording on a memory, from the place that *at says, and writes the answers to the start of a buffer: event by event, until
 * the recording ends or fewer than TRAWL_EVENT_ROOM bytes of the buffer are free. Gives how many bytes it wrote, and *at becomes the place at
 * which it left off. A replay begins with a memory just switched on and *at 0, and calls until *at is recording_length:
 *
 *   trawl_power_on(box, sizeof box), at = 0;
 *   while (at < n && trawl_replay(box, sizeof box, recording, n, &at, out, sizeof out, &length) == 0) fwrite(out, 1, length, stdout);
 *
 * The pieces joined are the same bytes whatever room is lent to each, and each moves *at. A bad event ends the recording with the number 255, and
 * *at is at its end; a recording of more than 32,768 bytes counts as one bad event. At the end or past it nothing is played. 0x1A for a broken
 * memory, then 0x04 for a buffer under TRAWL_EVENT_ROOM bytes: nothing changes, *at neither, and the length is 0.
 *
 * Records of events that name channels 5 to 8 have 536 bytes, and a start filter there has three: mask, pattern, flow.
 *
 * A recording that begins with the bytes 00 02 (event 0 and its edition, 2) is replayed with the rates that the calls take; one that doesn't is
 * from before, and connect and set take 125000 in it as well. The two bytes have no answer and count in the 32,768. Event 0 anywhere else, or
 * another edition, is a bad event. */
uint32_t trawl_replay(uint8_t *memory, size_t memory_length, const uint8_t *recording, size_t recording_length, size_t *at, uint8_t *out,
                      size_t out_length, size_t *length);

/* ---- J2534-1's names without the prefix ---- */

#ifndef TRAWL_NO_J2534_NAMES
#define STATUS_NOERROR TRAWL_STATUS_NOERROR
#define ERR_NOT_SUPPORTED TRAWL_ERR_NOT_SUPPORTED
#define ERR_INVALID_CHANNEL_ID TRAWL_ERR_INVALID_CHANNEL_ID
#define ERR_INVALID_PROTOCOL_ID TRAWL_ERR_INVALID_PROTOCOL_ID
#define ERR_NULL_PARAMETER TRAWL_ERR_NULL_PARAMETER
#define ERR_INVALID_IOCTL_VALUE TRAWL_ERR_INVALID_IOCTL_VALUE
#define ERR_INVALID_FLAGS TRAWL_ERR_INVALID_FLAGS
#define ERR_FAILED TRAWL_ERR_FAILED
#define ERR_TIMEOUT TRAWL_ERR_TIMEOUT
#define ERR_INVALID_MSG TRAWL_ERR_INVALID_MSG
#define ERR_INVALID_TIME_INTERVAL TRAWL_ERR_INVALID_TIME_INTERVAL
#define ERR_EXCEEDED_LIMIT TRAWL_ERR_EXCEEDED_LIMIT
#define ERR_INVALID_MSG_ID TRAWL_ERR_INVALID_MSG_ID
#define ERR_INVALID_IOCTL_ID TRAWL_ERR_INVALID_IOCTL_ID
#define ERR_BUFFER_EMPTY TRAWL_ERR_BUFFER_EMPTY
#define ERR_BUFFER_FULL TRAWL_ERR_BUFFER_FULL
#define ERR_BUFFER_OVERFLOW TRAWL_ERR_BUFFER_OVERFLOW
#define ERR_PIN_INVALID TRAWL_ERR_PIN_INVALID
#define ERR_CHANNEL_IN_USE TRAWL_ERR_CHANNEL_IN_USE
#define ERR_MSG_PROTOCOL_ID TRAWL_ERR_MSG_PROTOCOL_ID
#define ERR_INVALID_FILTER_ID TRAWL_ERR_INVALID_FILTER_ID
#define ERR_NO_FLOW_CONTROL TRAWL_ERR_NO_FLOW_CONTROL
#define ERR_NOT_UNIQUE TRAWL_ERR_NOT_UNIQUE
#define ERR_INVALID_BAUDRATE TRAWL_ERR_INVALID_BAUDRATE
#define ERR_INVALID_DEVICE_ID TRAWL_ERR_INVALID_DEVICE_ID
#define CAN TRAWL_CAN
#define ISO15765 TRAWL_ISO15765
#define CAN_29BIT_ID TRAWL_CAN_29BIT_ID
#define CAN_ID_BOTH TRAWL_CAN_ID_BOTH
#define PASS_FILTER TRAWL_PASS_FILTER
#define BLOCK_FILTER TRAWL_BLOCK_FILTER
#define FLOW_CONTROL_FILTER TRAWL_FLOW_CONTROL_FILTER
#define DATA_RATE TRAWL_DATA_RATE
#define LOOPBACK TRAWL_LOOPBACK
#define TX_MSG_TYPE TRAWL_TX_MSG_TYPE
#define START_OF_MESSAGE TRAWL_START_OF_MESSAGE
#define TX_INDICATION TRAWL_TX_INDICATION
#define CLEAR_TX_BUFFER TRAWL_CLEAR_TX_BUFFER
#define CLEAR_RX_BUFFER TRAWL_CLEAR_RX_BUFFER
#define CLEAR_PERIODIC_MSGS TRAWL_CLEAR_PERIODIC_MSGS
#define CLEAR_MSG_FILTERS TRAWL_CLEAR_MSG_FILTERS
#endif

#ifdef __cplusplus
}
#endif

#endif
