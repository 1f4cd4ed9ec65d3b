// What each measuring program needs: random numbers and the clock.
#ifndef MEASURING_H
#define MEASURING_H

#include <stdint.h>
#include <time.h>

// The best of so many repetitions counts, since what disturbs a call only makes it slower.
enum { REPETITIONS = 50 };

// xorshift64 with a fixed seed, so that every run has the same inputs.
static inline uint64_t next_random(void) {
    static uint64_t state = 88172645463325252u;
    state ^= state << 13;
    state ^= state >> 7;
    state ^= state << 17;
    return state;
}

static inline uint32_t random_below(uint32_t limit) {
    return (uint32_t)((next_random() >> 32) % limit);
}

// The numbers below `count` in random order.
static inline void shuffle(uint16_t *places, uint32_t count) {
    for (uint32_t i = 0; i < count; i++) {
        uint32_t j = random_below(i + 1);
        places[i] = places[j];
        places[j] = (uint16_t)i;
    }
}

static inline double microseconds(void) {
    struct timespec now;
    clock_gettime(CLOCK_MONOTONIC, &now);
    return (double)now.tv_sec * 1e6 + (double)now.tv_nsec / 1e3;
}

#endif
