/* SPDX-License-Identifier: Apache-2.0 OR MIT */
/*
 * Numbers that are drawn one after the other from a state, which is not 0 and is changed by each.
 */
#include <stddef.h>
#include <stdint.h>

static inline uint64_t drawn(uint64_t *state)
{
    *state ^= *state << 13;
    *state ^= *state >> 7;
    *state ^= *state << 17;
    return *state;
}

/* Returns a size from 1 to `most`, which is 1 or more. Each number of binary digits is as frequent as another; what is
   above `most` counts as it. */
static inline size_t drawn_size(uint64_t *state, size_t most)
{
    unsigned digits = 0;
    while (most >> digits > 1)
        digits++;
    size_t least = (size_t)1 << drawn(state) % (digits + 1);
    size_t size = least + (size_t)drawn(state) % least;
    return size < most ? size : most;
}
