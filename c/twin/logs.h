/* candump logs once more, written from the request's words and the scope: a log to a recording and back. */
#ifndef TWIN_LOGS_H
#define TWIN_LOGS_H

#include <stddef.h>
#include <stdint.h>

/* why a line stopped an import */
enum { LOG_GOES_ON, LOG_MALFORMED, LOG_UNKNOWN, LOG_BACK, LOG_FULL };

typedef struct {
    size_t bytes, line; /* of the recording; the line that stopped the import, 0 where none did */
    int why;
} twin_imported;

/* a log, from a start in microseconds on; the recording has room for 32,768 bytes */
twin_imported twin_import(uint64_t start, const char *log, size_t n, uint8_t *recording);

/* the lines of a recording's bus frames; how many bytes they have. A line has at most 51 */
size_t twin_export(uint64_t start, const uint8_t *recording, size_t n, char *text);

#endif
