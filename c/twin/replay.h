/* The replay of a recording once more, over the twin's calls: records of channels 5 to 8 have 536 bytes, and their start filter has three. */
#ifndef TWIN_REPLAY_H
#define TWIN_REPLAY_H

#include <stddef.h>
#include <stdint.h>

/* a take has two bytes and gives a code and a record; nothing gives more for its bytes */
#define TWIN_REPLAY_ROOM(n) ((size_t)(n) > 32768u ? (size_t)2u : 269u * (size_t)(n) + 2u)

/* Plays a recording from power-on; its output is put at the start of a buffer, whose size is looked at first. Event 0 and the number 2
 * at its very start say edition 2, in which 125,000 is no rate; without them it is one. Where `after` is not NULL it is called with the memory
 * after each event. */
uint32_t twin_replay(const uint8_t *recording, size_t n, uint8_t *out, size_t room, size_t *length, void (*after)(const uint8_t *m));

#endif
