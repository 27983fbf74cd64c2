/* Recordings of random events, with and without an edition. */
#ifndef MAKER_H
#define MAKER_H

#include <stddef.h>
#include <stdint.h>

/* a number at p; where it ends */
uint8_t *put_number(uint8_t *p, uint32_t v);

/* a recording begins with event 0 and an edition; how many bytes they are */
size_t mark(uint8_t *recording, uint32_t edition);

/* random events in at most so many bytes; how many they are. damage: percent of numbers, records and lengths that are off */
size_t some_recording(uint8_t *recording, size_t most, int damage);

/* how many events were made, and how many recordings with the mark of edition 2 */
extern struct made {
    unsigned long marked, events;
} made;

#endif
