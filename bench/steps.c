/* Twenty steps on 16 by 16 elements under winds at random, for bench/costs to count. */
#define _POSIX_C_SOURCE 199309L
#include <stdlib.h>
#include "../include/plume.h"
#include "common.h"

enum { SIDE = 16, ELEMENTS = SIDE * SIDE, STEPS = 20 };

int main(void)
{
    static uint32_t field[10 * ELEMENTS + 1];
    static int16_t wind[2 * ELEMENTS];
    static int32_t report[2 * ELEMENTS];
    static int64_t work[64 * ELEMENTS];
    draw_smoke(field, ELEMENTS);
    for (size_t f = 0; f < 2 * ELEMENTS; f++)
        wind[f] = (int16_t)((int)draw(2049) - 1024);
    for (int step = 0; step < STEPS; step++)
        if (plume_step(field, part_length(ELEMENTS), wind, 2 * ELEMENTS, report, 2 * ELEMENTS, work, 64 * ELEMENTS, SIDE, SIDE, 1, 0) < 0)
            return EXIT_FAILURE;
    return EXIT_SUCCESS;
}
