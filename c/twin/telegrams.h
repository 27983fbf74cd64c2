/* TP2.0 telegrams once more, in plain C99: written from the scope, its requests and tables 3 to 5 of
 * SAE J2819 and from nothing else. */
#ifndef TWIN_TELEGRAMS_H
#define TWIN_TELEGRAMS_H

#include <stddef.h>
#include <stdint.h>

/* The telegram that n bytes are, as the header's record of 32 bytes. */
uint32_t twin_read_telegram(uint32_t opening, uint32_t identifier, const uint8_t *bytes, size_t n, uint8_t *telegram, size_t telegram_length);

/* The bytes of such a record. */
uint32_t twin_write_telegram(const uint8_t *telegram, size_t telegram_length, uint8_t *buffer, size_t buffer_length, uint32_t *length);

/* A time byte in units of 0.1 ms. */
uint32_t twin_time(uint32_t byte);

#endif
