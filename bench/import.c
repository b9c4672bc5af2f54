/* Times an import of the whole wind and a wind call for every face in turns on the same winds, and prints how many numbers a second the
 * best of each took in, and their ratio. The import is given f64 numbers and rounds them; the wind calls are given whole numbers. */
#define _POSIX_C_SOURCE 199309L
#include <stdio.h>
#include <stdlib.h>
#include <string.h>
#include "../include/plume.h"
#include "common.h"

enum { SIDE = 64, ELEMENTS = SIDE * SIDE, FACES = 2 * ELEMENTS, RECORD = 17, TURNS = 4000 };

static int16_t winds[FACES], imported[FACES], called[FACES];
static uint8_t records[RECORD * ELEMENTS];

/* The number as eight bytes, the lowest first on any machine. */
static void put(uint8_t *bytes, double number)
{
    uint64_t bits;
    memcpy(&bits, &number, sizeof bits);
    for (int i = 0; i < 8; i++)
        bytes[i] = (uint8_t)(bits >> 8 * i);
}

/* A number that is less than half a unit beside the wind, so that there is something to round. */
static double beside(int16_t c)
{
    return (c + 0.99 * ((double)draw(1u << 30) / (1u << 30) - 0.5)) / 4096;
}

/* Records of kind 1, and the winds that must come of them. */
static void make_records(void)
{
    for (size_t e = 0; e < ELEMENTS; e++) {
        uint8_t *record = records + RECORD * e;
        winds[e] = (int16_t)((int)draw(2049) - 1024);
        winds[ELEMENTS + e] = (int16_t)((int)draw(2049) - 1024);
        record[0] = 1;
        put(record + 1, beside(winds[e]));
        put(record + 9, beside(winds[ELEMENTS + e]));
    }
}

static uint8_t import(void)
{
    return plume_import(imported, FACES, records, sizeof records, SIDE, SIDE, 1);
}

static uint8_t call_for_each_face(void)
{
    uint8_t refused = 0;
    for (uint8_t way = PLUME_EAST; way <= PLUME_NORTH; way++)
        for (size_t j = 0; j < SIDE; j++)
            for (size_t i = 0; i < SIDE; i++)
                refused |= plume_wind(called, FACES, SIDE, SIDE, 1, way, i, j, winds[ELEMENTS * way + SIDE * j + i]);
    return refused;
}

static void once(uint8_t (*take_in)(void), double *best)
{
    double t = now();
    if (take_in() != 0)
        exit(1);
    t = now() - t;
    if (t < *best)
        *best = t;
}

int main(void)
{
    double import_best = 1e18, calls_best = 1e18;
    make_records();
    for (int turn = 0; turn < TURNS; turn++) {
        once(import, &import_best);
        once(call_for_each_face, &calls_best);
    }
    int same = memcmp(imported, winds, sizeof winds) == 0 && memcmp(called, winds, sizeof winds) == 0;
    printf("%dx%d: import %.1f, wind calls %.1f million numbers a second, ratio %.2f%s\n", SIDE, SIDE, 1e3 * FACES / import_best,
           1e3 * FACES / calls_best, calls_best / import_best, same ? "" : ", DIFFERENT RESULTS");
    return same ? 0 : 1;
}
