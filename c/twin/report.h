/* The shift report once more: the eleven numbers of channels 1 to 4 over a recording, written from the request's words and the scope, over the
 * twin's own box. */
#ifndef TWIN_REPORT_H
#define TWIN_REPORT_H

#include <stddef.h>
#include <stdint.h>

enum { OFFERED, OF_WIDTH, UNMATCHED, BLOCKED, PASSED, ECHOED, LOST, READ_OUT, CLEARED, DROPPED, HELD, NUMBERS };

/* the numbers of each channel; 0 where every event was good, 1 where one was bad or the recording is too long */
int twin_report(const uint8_t *recording, size_t n, uint32_t numbers[4][NUMBERS]);

/* the four lines, with their ends; how many bytes they have. Room for 4 lines of 12 numbers is enough */
enum { TWIN_REPORT_TEXT = 4 * 12 * 11 };
size_t twin_report_text(uint32_t numbers[4][NUMBERS], char *text);

#endif
