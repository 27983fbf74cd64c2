/* Our header beside a usual j2534.h, ours last unless OURS_FIRST is defined: it compiles as C99 and as C++, and every name has the same number
 * in both. With NAMES_ON ours defines J2534-1's names too; then the two together must not compile, or this test would show nothing. */
#ifndef NAMES_ON
#define TRAWL_NO_J2534_NAMES
#endif
#ifdef OURS_FIRST
#include "../../include/trawlpepper.h"
#include "j2534_usual.h"
#else
#include "j2534_usual.h"
#include "../../include/trawlpepper.h"
#endif

#define SAME(name) typedef char same_##name[TRAWL_##name == (name) ? 1 : -1]
SAME(CAN); SAME(ISO15765); SAME(CAN_29BIT_ID); SAME(CAN_ID_BOTH); SAME(PASS_FILTER); SAME(BLOCK_FILTER); SAME(FLOW_CONTROL_FILTER);
SAME(DATA_RATE); SAME(LOOPBACK); SAME(TX_MSG_TYPE); SAME(START_OF_MESSAGE); SAME(TX_INDICATION);
SAME(STATUS_NOERROR); SAME(ERR_NOT_SUPPORTED); SAME(ERR_INVALID_CHANNEL_ID); SAME(ERR_INVALID_PROTOCOL_ID); SAME(ERR_NULL_PARAMETER);
SAME(ERR_INVALID_IOCTL_VALUE); SAME(ERR_INVALID_FLAGS); SAME(ERR_FAILED); SAME(ERR_TIMEOUT); SAME(ERR_INVALID_MSG);
SAME(ERR_INVALID_TIME_INTERVAL); SAME(ERR_EXCEEDED_LIMIT); SAME(ERR_INVALID_MSG_ID); SAME(ERR_INVALID_IOCTL_ID); SAME(ERR_BUFFER_EMPTY);
SAME(ERR_BUFFER_FULL); SAME(ERR_BUFFER_OVERFLOW); SAME(ERR_PIN_INVALID); SAME(ERR_CHANNEL_IN_USE); SAME(ERR_MSG_PROTOCOL_ID);
SAME(ERR_INVALID_FILTER_ID); SAME(ERR_NO_FLOW_CONTROL); SAME(ERR_NOT_UNIQUE); SAME(ERR_INVALID_BAUDRATE); SAME(ERR_INVALID_DEVICE_ID);
SAME(CLEAR_TX_BUFFER); SAME(CLEAR_RX_BUFFER); SAME(CLEAR_PERIODIC_MSGS); SAME(CLEAR_MSG_FILTERS);
typedef char version_is_there[TRAWL_VERSION >= 70200 ? 1 : -1];

/* what a box's DLL does between the two: a record that was read becomes J2534-1's message, a message becomes a record to write; of 36 bytes, or of
 * 536 where the protocol is ISO 15765 */
void to_message(PASSTHRU_MSG *to, const uint8_t *record);
void to_message(PASSTHRU_MSG *to, const uint8_t *record) {
    size_t i, n = trawl_record_protocol(record) == ISO15765 ? 512 : 12;
    to->ProtocolID = trawl_record_protocol(record);
    to->RxStatus = trawl_record_rx_status(record);
    to->TxFlags = trawl_record_tx_flags(record);
    to->Timestamp = trawl_record_time(record);
    to->DataSize = trawl_record_size(record);
    to->ExtraDataIndex = trawl_record_extra(record);
    for (i = 0; i < n; i++) to->Data[i] = record[24 + i];
}

void to_record(uint8_t *record, const PASSTHRU_MSG *from);
void to_record(uint8_t *record, const PASSTHRU_MSG *from) {
    if (from->ProtocolID == ISO15765) trawl_iso_record_bytes(record, (uint32_t)from->TxFlags, from->Data, from->DataSize);
    else trawl_record_bytes(record, (uint32_t)from->TxFlags, from->Data, from->DataSize);
    trawl_store32(record, (uint32_t)from->ProtocolID);
}

/* GET_CONFIG and SET_CONFIG: the list becomes pairs, and what was written becomes the list again */
uint32_t config(uint8_t *memory, size_t length, uint32_t channel, unsigned long ioctl, SCONFIG_LIST *list);
uint32_t config(uint8_t *memory, size_t length, uint32_t channel, unsigned long ioctl, SCONFIG_LIST *list) {
    struct trawl_pair pairs[TRAWL_PAIRS + 1]; /* with one more the core gives the code for too many */
    size_t i, n = list->NumOfParams > TRAWL_PAIRS ? TRAWL_PAIRS + 1 : (size_t)list->NumOfParams;
    uint32_t code;
    for (i = 0; i < n; i++) {
        pairs[i].parameter = (uint32_t)list->ConfigPtr[i].Parameter;
        pairs[i].value = (uint32_t)list->ConfigPtr[i].Value;
    }
    if (ioctl == SET_CONFIG) return trawl_set_list(memory, length, channel, pairs, n);
    code = trawl_get_list(memory, length, channel, pairs, n);
    for (i = 0; i < n; i++) list->ConfigPtr[i].Value = pairs[i].value;
    return code;
}

/* three bytes to 0x7DF on an ISO 15765 channel: one frame, TxDone, the echo; 0, or where it went wrong */
int iso_message(uint8_t *memory, size_t length);
int iso_message(uint8_t *memory, size_t length) {
    static uint8_t records[2 * TRAWL_ISO_RECORD];
    static PASSTHRU_MSG message;
    uint32_t channel, count;
    message.ProtocolID = ISO15765, message.TxFlags = 0, message.DataSize = 7;
    message.Data[2] = 0x07, message.Data[3] = 0xDF, message.Data[4] = 0x01, message.Data[5] = 0x0C, message.Data[6] = 0x0D;
    to_record(records, &message);
    if (trawl_connect(memory, length, 3, ISO15765, 0, 500000, &channel) != STATUS_NOERROR || channel != 8) return 20;
    if (trawl_set(memory, length, channel, LOOPBACK, 1) != STATUS_NOERROR) return 21;
    if (trawl_write(memory, length, channel, 1, records, TRAWL_ISO_RECORD, &count) != STATUS_NOERROR || count != 1) return 22;
    if (trawl_take(memory, length, channel, records, sizeof records) != STATUS_NOERROR || records[28] != 3) return 23;
    if (trawl_sent(memory, length, channel) != STATUS_NOERROR) return 24;
    if (trawl_read(memory, length, channel, 2, records, sizeof records, &count) != STATUS_NOERROR || count != 2) return 25;
    to_message(&message, records);
    if (message.RxStatus != (TX_INDICATION | TX_MSG_TYPE) || message.DataSize != 4 || message.ExtraDataIndex != 0) return 26;
    to_message(&message, records + TRAWL_ISO_RECORD);
    return message.RxStatus == TX_MSG_TYPE && message.DataSize == 7 && message.Data[6] == 0x0D ? 0 : 27;
}

/* a TP2.0 connection begins to open: its set-up telegram; 0, or where it went wrong */
int link_begins(uint8_t *memory, size_t length, uint32_t channel);
int link_begins(uint8_t *memory, size_t length, uint32_t channel) {
    static uint8_t record[TRAWL_RECORD], message[TRAWL_LINK_MESSAGE];
    uint32_t count;
    if (trawl_link_open(memory, length, channel, 0x200, 0x01, 0x300, 0x01, 15, 0x8A, 0x00) != STATUS_NOERROR) return 30;
    if (trawl_link_open(memory, length, channel, 0x200, 0x01, 0x300, 0x01, 15, 0x8A, 0x00) != ERR_CHANNEL_IN_USE) return 31;
    if (trawl_link_send(memory, length, channel, message, 1) != ERR_FAILED) return 32;
    if (trawl_link_receive(memory, length, channel, message, sizeof message, &count) != ERR_FAILED || count != 0) return 33;
    if (trawl_take(memory, length, channel, record, sizeof record) != STATUS_NOERROR || trawl_record_identifier(record) != 0x200) return 34;
    if (trawl_record_data_size(record) != 7 || trawl_record_data(record)[1] != TRAWL_SET_UP) return 35;
    return trawl_link_end(memory, length, channel) == STATUS_NOERROR ? 0 : 36;
}

/* the file is a program, so that C++ links the calls too */
int main(void) {
    static uint8_t box[TRAWL_MEMORY], record[TRAWL_RECORD];
    static PASSTHRU_MSG message;
    static SCONFIG two[2], many[TRAWL_PAIRS + 1];
    SCONFIG_LIST list;
    uint32_t channel, count, last;
    message.ProtocolID = CAN, message.TxFlags = CAN_29BIT_ID, message.DataSize = 5;
    message.Data[0] = 0x18, message.Data[1] = 0xDA, message.Data[2] = 0xF1, message.Data[3] = 0x10, message.Data[4] = 0x3E;
    to_record(record, &message);
    if (trawl_power_on(box, sizeof box) != STATUS_NOERROR) return 1;
    if (trawl_connect(box, sizeof box, 3, CAN, CAN_29BIT_ID, 250000, &channel) != STATUS_NOERROR) return 2;
    two[0].Parameter = LOOPBACK, two[0].Value = 1, two[1].Parameter = DATA_RATE, two[1].Value = 500000;
    list.NumOfParams = 2, list.ConfigPtr = two;
    if (config(box, sizeof box, channel, SET_CONFIG, &list) != STATUS_NOERROR) return 3;
    two[0].Value = two[1].Value = 77;
    if (config(box, sizeof box, channel, GET_CONFIG, &list) != STATUS_NOERROR || two[0].Value != 1 || two[1].Value != 500000) return 12;
    list.NumOfParams = TRAWL_PAIRS + 1, list.ConfigPtr = many;
    if (config(box, sizeof box, channel, SET_CONFIG, &list) != ERR_NULL_PARAMETER) return 13;
    if (trawl_write(box, sizeof box, channel, 1, record, sizeof record, &count) != STATUS_NOERROR || count != 1) return 4;
    if (trawl_take(box, sizeof box, channel, record, sizeof record) != STATUS_NOERROR) return 5;
    if (trawl_sent(box, sizeof box, channel) != STATUS_NOERROR) return 6;
    if (trawl_read(box, sizeof box, channel, 1, record, sizeof record, &count) != STATUS_NOERROR || count != 1) return 7;
    to_message(&message, record);
    if (message.RxStatus != (CAN_29BIT_ID | TX_MSG_TYPE) || message.DataSize != 5 || message.Data[3] != 0x10) return 8;
    if (trawl_clear(box, sizeof box, channel, trawl_clear_kind(CLEAR_RX_BUFFER)) != STATUS_NOERROR) return 9;
    if (trawl_clear(box, sizeof box, channel, CLEAR_RX_BUFFER) != ERR_INVALID_IOCTL_ID) return 10;
    if (trawl_last_error(box, sizeof box, channel, &last) != STATUS_NOERROR || last != ERR_INVALID_IOCTL_ID) return 11;
    /* it takes wide frames alone */
    if (trawl_link_open(box, sizeof box, channel, 0x200, 0x01, 0x300, 0x01, 15, 0x8A, 0x00) != ERR_INVALID_MSG) return 14;
    if (trawl_connect(box, sizeof box, 0, CAN, CAN_ID_BOTH, 500000, &channel) != STATUS_NOERROR) return 15;
    count = (uint32_t)link_begins(box, sizeof box, channel);
    if (trawl_connect(box, sizeof box, 1, CAN, TRAWL_LISTEN_ONLY | CAN_ID_BOTH, 500000, &channel) != STATUS_NOERROR) return 16;
    if (trawl_take(box, sizeof box, channel, record, sizeof record) != ERR_NOT_SUPPORTED) return 17;
    if (trawl_connect(box, sizeof box, 1, ISO15765, TRAWL_LISTEN_ONLY, 500000, &channel) != ERR_INVALID_FLAGS) return 18;
    return count ? (int)count : iso_message(box, sizeof box);
}
