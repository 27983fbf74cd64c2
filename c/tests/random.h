/* Repeatable random numbers. */
#ifndef RANDOM_H
#define RANDOM_H

#include <stddef.h>
#include <stdint.h>

extern uint64_t seed;

/* 32 bits */
static inline uint32_t any(void) {
    seed ^= seed >> 12;
    seed ^= seed << 25;
    seed ^= seed >> 27;
    return (uint32_t)((seed * 0x2545F4914F6CDD1Dull) >> 32);
}

/* 0 to n - 1 */
static inline uint32_t below(uint32_t n) { return (uint32_t)(((uint64_t)any() * n) >> 32); }

static inline int chance(uint32_t percent) { return below(100) < percent; }

static inline uint32_t one_of(const uint32_t *from, size_t n) { return from[below((uint32_t)n)]; }

#define ONE_OF(...) one_of((const uint32_t[]){__VA_ARGS__}, sizeof((const uint32_t[]){__VA_ARGS__}) / sizeof(uint32_t))

#endif
