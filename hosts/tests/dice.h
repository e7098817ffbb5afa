/* What the random callers draw from: `state` is set at the start, and never 0. */
#ifndef DICE_H
#define DICE_H

#include <stdbool.h>
#include <stdint.h>

static uint64_t state;

static uint64_t any(void) {
    state ^= state << 13;
    state ^= state >> 7;
    state ^= state << 17;
    return state;
}

static uint32_t below(uint32_t limit) { return (uint32_t)((any() >> 32) % limit); }

static bool rarely(uint32_t times) { return below(times) == 0; }

#endif
