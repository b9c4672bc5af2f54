/* Times the proved step and the plain one in turns on the same fields, under winds that turn at random from face to face and under winds that change
 * slowly: a branch on a wind's sign is guessed wrong at every second face of the first, and at hardly a face of the others. Each of nine rounds takes
 * the best time of each; printed are the medians of the nine. */
#define _POSIX_C_SOURCE 199309L
#include <stdio.h>
#include <stdlib.h>
#include <string.h>
#include "../include/plume.h"
#include "common.h"
#include "plain.h"

/* A round has as many steps as make that many elements, and no fewer than LEAST: the best of few steps is dearer than the best of many. */
enum { ROUNDS = 9, ELEMENTS = 450000, LEAST = 500 };

typedef int64_t step_fn(uint32_t *, size_t, const int16_t *, size_t, int32_t *, size_t, int64_t *, size_t, size_t, size_t, size_t, size_t);

struct run {
    uint32_t *field;
    int32_t *report;
    int64_t *work;
    int64_t clipped; /* by all steps */
    double best;
};

static void once(step_fn *step, struct run *r, const int16_t *wind, size_t nx, size_t ny)
{
    size_t n = nx * ny;
    double t = now();
    int64_t answer = step(r->field, part_length(n), wind, 2 * n, r->report, 2 * n, r->work, 64 * n, nx, ny, 1, 0);
    t = now() - t;
    if (answer < 0)
        exit(1);
    r->clipped += answer;
    if (t < r->best)
        r->best = t;
}

static struct run made(size_t n)
{
    struct run r = {calloc(part_length(n), 4), calloc(2 * n, 4), calloc(64 * n, 8), 0, 0};
    return r;
}

/* From -1024 up to 1024 and down again while x goes from 0 to n. */
static int16_t wave(size_t x, size_t n)
{
    int at = (int)(4096 * (x % n) / n);
    return (int16_t)(at < 2048 ? at - 1024 : 3072 - at);
}

static void draw_winds(int16_t *wind, size_t nx, size_t ny, int slow)
{
    size_t n = nx * ny;
    for (size_t e = 0; e < n; e++) {
        size_t i = e % nx, j = e / nx;
        wind[e] = slow ? wave(i + j, nx + ny) : (int16_t)((int)draw(2049) - 1024);
        wind[n + e] = slow ? wave(i + 2 * j, nx + 2 * ny) : (int16_t)((int)draw(2049) - 1024);
    }
}

static int order(const void *a, const void *b)
{
    double x = *(const double *)a, y = *(const double *)b;
    return (x > y) - (x < y);
}

static double median(double *of)
{
    qsort(of, ROUNDS, sizeof *of, order);
    return of[ROUNDS / 2];
}

static int compare(size_t nx, size_t ny, int slow)
{
    size_t n = nx * ny;
    struct run proved = made(n), plain = made(n);
    double of_proved[ROUNDS], of_plain[ROUNDS], ratios[ROUNDS];
    /* one work for both: its pages are then the same for the two */
    free(plain.work);
    plain.work = proved.work;
    int16_t *wind = calloc(2 * n, 2);
    draw_smoke(proved.field, n);
    draw_winds(wind, nx, ny, slow);
    memcpy(plain.field, proved.field, 4 * part_length(n));
    for (int round = 0; round < ROUNDS; round++) {
        proved.best = plain.best = 1e18;
        for (size_t i = 0; i < ELEMENTS / n || i < LEAST; i++) {
            once(plume_step, &proved, wind, nx, ny);
            once(plain_step, &plain, wind, nx, ny);
        }
        of_proved[round] = proved.best / n;
        of_plain[round] = plain.best / n;
        ratios[round] = proved.best / plain.best;
    }
    int same = memcmp(proved.field, plain.field, 4 * part_length(n)) == 0 && memcmp(proved.report, plain.report, 8 * n) == 0 &&
               proved.clipped == plain.clipped;
    printf("%zux%zu, winds %s: proved %.1f ns, plain %.1f ns an element, ratio %.2f%s\n", nx, ny, slow ? "that change slowly" : "at random",
           median(of_proved), median(of_plain), median(ratios), same ? "" : ", DIFFERENT RESULTS");
    return same;
}

int main(void)
{
    int same = 1;
    for (int slow = 0; slow < 2; slow++)
        same = compare(8, 8, slow) && compare(16, 8, slow) && compare(64, 64, slow) && same;
    return same ? 0 : 1;
}
