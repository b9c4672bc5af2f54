/* Times the calls that look at one element and the stored total alone, emission, withdrawal and the two readings, on 64 by 64 elements and
 * on one in turns, and prints the best of each and their ratio. The named element holds the same on both.
 * With one smoke the total is surplus to a library of before 2026-06, so that one can be linked, too. */
#define _POSIX_C_SOURCE 199309L
#include <stdio.h>
#include <stdlib.h>
#include <string.h>
#include "../include/plume.h"
#include "common.h"

/* Emissions and withdrawals are each Q: a level more at all nodes and 4 in the remainder, and off again by scaling. */
enum { SIDE = 64, ELEMENTS = SIDE * SIDE, TURNS = 1000, CALLS = 50, Q = 40 };

/* One smoke; its last element is the named one. */
struct smoke {
    uint32_t *field;
    size_t side, length;
};

typedef int64_t call_fn(const struct smoke *);

static int64_t emission(const struct smoke *s)
{
    return plume_emission(s->field, s->length, s->side, s->side, 1, 0, s->side - 1, s->side - 1, Q);
}

static int64_t withdrawal(const struct smoke *s)
{
    return plume_withdrawal(s->field, s->length, s->side, s->side, 1, 0, s->side - 1, s->side - 1, Q);
}

static int64_t mass(const struct smoke *s)
{
    return plume_mass(s->field, s->length, s->side, s->side, 1, 0, s->side - 1, s->side - 1);
}

static int64_t total(const struct smoke *s)
{
    return plume_total(s->field, s->length, s->side, s->side, 1, 0);
}

static const struct {
    call_fn *call;
    const char *name;
} CALL[] = {{emission, "emission"}, {withdrawal, "withdrawal"}, {mass, "an element's M"}, {total, "a total"}};

enum { KINDS = sizeof CALL / sizeof *CALL };

/* The best time of one call of each kind. */
struct best {
    double of[KINDS];
};

static struct smoke made(size_t side)
{
    struct smoke s = {0, side, part_length(side * side)};
    s.field = calloc(s.length, sizeof *s.field);
    return s;
}

static const uint32_t *last(const struct smoke *s)
{
    return s->field + s->length - 11;
}

/* Each kind some times: what the emissions add, the withdrawals take off. */
static void once(const struct smoke *s, struct best *best)
{
    for (int kind = 0; kind < KINDS; kind++) {
        int64_t answer = 0;
        double t = now();
        for (int n = 0; n < CALLS; n++)
            answer |= CALL[kind].call(s);
        t = (now() - t) / CALLS;
        if (answer < 0)
            exit(1);
        if (t < best->of[kind])
            best->of[kind] = t;
    }
}

int main(void)
{
    struct smoke large = made(SIDE), small = made(1);
    struct best on_large = {{1e18, 1e18, 1e18, 1e18}}, on_small = on_large;
    draw_smoke(large.field, ELEMENTS);
    memcpy(small.field, last(&large), 10 * sizeof *small.field);
    int64_t sum = total(&large);
    small.field[10] = (uint32_t)mass(&large);
    for (int turn = 0; turn < TURNS; turn++) {
        once(&large, &on_large);
        once(&small, &on_small);
    }
    int same = memcmp(last(&large), small.field, 10 * sizeof *small.field) == 0 && total(&large) == sum && total(&small) == mass(&large);
    for (int kind = 0; kind < KINDS; kind++)
        printf("%s: %dx%d %.1f ns, 1x1 %.1f ns, ratio %.2f%s\n", CALL[kind].name, SIDE, SIDE, on_large.of[kind], on_small.of[kind],
               on_large.of[kind] / on_small.of[kind], same ? "" : ", DIFFERENT RESULTS");
    return same ? 0 : 1;
}
