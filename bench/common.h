/* What the benchmarks share: random numbers, the same in every run, a smoke made of them, and the clock. */
#ifndef COMMON_H
#define COMMON_H

#include <stddef.h>
#include <stdint.h>
#include <time.h>

static uint64_t state = 88172645463325252u;

static uint64_t draw(uint64_t bound)
{
    state ^= state << 13;
    state ^= state >> 7;
    state ^= state << 17;
    return state % bound;
}

/* The numbers of a smoke on n elements: ten each, and the stored total. */
static inline size_t part_length(size_t n)
{
    return 10 * n + 1;
}

/* A smoke of any values and remainders, below the limit. */
static inline void draw_smoke(uint32_t *part, size_t n)
{
    static const uint32_t weights[10] = {1, 4, 1, 4, 16, 4, 1, 4, 1, 1};
    uint32_t total = 0;
    for (size_t i = 0; i < 10 * n; i++) {
        part[i] = (uint32_t)(i % 10 == 9 ? draw(36) : draw(100000000 / (40 * n)));
        total += weights[i % 10] * part[i];
    }
    part[10 * n] = total;
}

/* In nanoseconds. */
static inline double now(void)
{
    struct timespec t;
    clock_gettime(CLOCK_MONOTONIC, &t);
    return t.tv_sec * 1e9 + t.tv_nsec;
}

#endif
