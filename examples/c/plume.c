/* Uses the library from C: a fresh field, a wind, an emission, steps, totals, a map for the printer, a field file written and read back, one
 * with the old mark, and a wind imported from records. Each answer is checked; the program ends with 1 at the first that is not as it should be. */
#include <inttypes.h>
#include <stdio.h>
#include <stdlib.h>
#include <string.h>

#include "plume.h"

enum {
    NX = 6,
    NY = 4,
    SMOKES = 2,
    ELEMENTS = NX * NY,
    FIELD = (10 * ELEMENTS + 1) * SMOKES,
    FACES = 2 * ELEMENTS,
    WORK = 64 * ELEMENTS,
    RECORD = 17, /* bytes of the longest kind of record */
    PAGE = 74 * ((NX + 6) / 7 * (NY + 1) + 1),
    FILE_LENGTH = 2 * FACES + 4 * FIELD + 4 * (SMOKES + 1) + 12,
    EMITTED = 100000
};

static uint32_t field[FIELD], field_again[FIELD];
static int16_t wind[FACES], wind_again[FACES];
static int32_t report[FACES];
static int64_t work[WORK];
static uint8_t file[FILE_LENGTH];
static uint8_t records[RECORD * ELEMENTS];
static uint8_t page[PAGE];

/* Ends the program where a call answers something else than it should. */
static void expect(const char *call, int64_t answer, int64_t right)
{
    if (answer != right) {
        printf("%s answered %" PRId64 ", not %" PRId64 "\n", call, answer, right);
        exit(1);
    }
}

/* An east wind that is stronger in the north. */
static void set_wind(void)
{
    for (size_t j = 0; j < NY; j++)
        for (size_t i = 0; i < NX; i++)
            expect("wind", plume_wind(wind, FACES, NX, NY, SMOKES, PLUME_EAST, i, j, (int16_t)(256 * (j + 1))), 0);
    expect("wind of 1025", plume_wind(wind, FACES, NX, NY, SMOKES, PLUME_NORTH, 0, 0, 1025), 5);
}

static int64_t mass(size_t i, size_t j)
{
    return plume_mass(field, FIELD, NX, NY, SMOKES, 0, i, j);
}

/* Steps smoke 0 and prints what its row j = 2 holds. The smoke must stay all there. */
static void step(int number)
{
    int64_t clipped = plume_step(field, FIELD, wind, FACES, report, FACES, work, WORK, NX, NY, SMOKES, 0);
    expect("step", clipped < 0 ? clipped : 0, 0);
    printf("step %d:", number);
    for (size_t i = 0; i < NX; i++)
        printf(" %6" PRId64, mass(i, 2));
    printf("   over the east face of (1, 2): %" PRId32 ", clipped: %" PRId64 "\n", report[2 * NX + 1], clipped);
    expect("total", plume_total(field, FIELD, NX, NY, SMOKES, 0), EMITTED);
}

/* Prints the map of smoke 0. A page has lines of 73 characters and a newline each. */
static void mapped(void)
{
    expect("map on a page that is too short", plume_map(page, PAGE - 1, field, FIELD, NX, NY, SMOKES, 0), -4);
    expect("map", plume_map(page, PAGE, field, FIELD, NX, NY, SMOKES, 0), PAGE);
    expect("end of the first line", page[73], '\n');
    fwrite(page, 1, PAGE, stdout);
}

/* A field that is written to a file is the field that is read from it. */
static void written_and_read(void)
{
    int64_t length = plume_write(file, FILE_LENGTH, field, FIELD, wind, FACES, NX, NY, SMOKES);
    expect("write", length, FILE_LENGTH);
    int64_t shape = plume_read(field_again, FIELD, wind_again, FACES, file, (size_t)length);
    expect("read", shape, NX + 256 * NY + 65536 * SMOKES);
    expect("field read back", memcmp(field, field_again, sizeof field), 0);
    expect("wind read back", memcmp(wind, wind_again, sizeof wind), 0);
    printf("file: %" PRId64 " bytes, read back the same\n", length);
    expect("read of a file cut short", plume_read(field, FIELD, wind, FACES, file, (size_t)length - 1), -1);
}

static uint8_t *put_u32(uint8_t *to, uint32_t number)
{
    for (int i = 0; i < 4; i++)
        to[i] = (uint8_t)(number >> 8 * i);
    return to + 4;
}

/* Makes the file that was written one with the old mark, "PLUM", whose sections have no totals. Gives its length in bytes. */
static size_t without_totals(void)
{
    enum { SECTION = 40 * ELEMENTS };
    uint8_t *end = file + 2 * FACES;
    for (size_t s = 0; s < SMOKES; s++, end += SECTION)
        memmove(end, file + 2 * FACES + s * (SECTION + 4), SECTION);
    uint32_t table = (uint32_t)(end - file);
    end = put_u32(end, 0);
    for (uint32_t s = 0; s < SMOKES; s++)
        end = put_u32(end, 2 * FACES + s * SECTION);
    end = put_u32(end, NX + 256 * NY + 65536 * SMOKES);
    end = put_u32(end, table);
    memcpy(end, "PLUM", 4);
    return (size_t)(end + 4 - file);
}

/* Its totals are worked out when it is read. */
static void read_with_old_mark(void)
{
    size_t length = without_totals();
    memset(field_again, 255, sizeof field_again);
    int64_t shape = plume_read(field_again, FIELD, wind_again, FACES, file, length);
    expect("read of the old mark", shape, NX + 256 * NY + 65536 * SMOKES);
    expect("field read from it", memcmp(field, field_again, sizeof field), 0);
    printf("file with the old mark: %zu bytes, read as the same field\n", length);
}

/* Puts a number of a record: eight bytes, the lowest first on any machine. Gives how many. */
static size_t put_number(uint8_t *to, double number)
{
    uint64_t bits;
    memcpy(&bits, &number, sizeof bits);
    for (int i = 0; i < 8; i++)
        to[i] = (uint8_t)(bits >> 8 * i);
    return 8;
}

/* Calm in the south, then a row with an east wind alone, then winds to the north-west. Gives the length of all records in bytes. */
static size_t make_records(void)
{
    size_t length = 0;
    for (size_t e = 0; e < ELEMENTS; e++) {
        uint8_t kind = e < NX ? 0 : e < 2 * NX ? 2 : 1;
        records[length++] = kind;
        if (kind != 0)
            length += put_number(records + length, kind == 2 ? 0.1 : -0.25);
        if (kind == 1)
            length += put_number(records + length, 0.0625);
    }
    return length;
}

/* 0.1 of an element per step is 409.6 of 4096, so 410. A refused import leaves the wind as it was, which the file still had. */
static void imported(void)
{
    size_t length = make_records();
    expect("import of records cut short", plume_import(wind, FACES, records, length - 1, NX, NY, SMOKES), 11);
    expect("wind after a refused import", memcmp(wind, wind_again, sizeof wind), 0);
    expect("import", plume_import(wind, FACES, records, length, NX, NY, SMOKES), 0);
    printf("import: %zu bytes; east and north wind by rows:", length);
    for (size_t j = 0; j < NY; j++)
        printf(" %d %d%s", wind[j * NX], wind[ELEMENTS + j * NX], j + 1 < NY ? "," : "\n");
    expect("east wind of row 1", wind[NX], 410);
    expect("north wind of the last element", wind[FACES - 1], 256);
}

int main(void)
{
    expect("fresh", plume_fresh(field, FIELD, wind, FACES, NX, NY, SMOKES), 0);
    set_wind();
    expect("emission", plume_emission(field, FIELD, NX, NY, SMOKES, 0, 1, 2, EMITTED), 0);
    for (int number = 1; number <= 4; number++)
        step(number);
    mapped();
    written_and_read();
    read_with_old_mark();
    imported();
    expect("withdrawal of too much", plume_withdrawal(field, FIELD, NX, NY, SMOKES, 0, 1, 2, EMITTED + 1), -10);
    expect("withdrawal", plume_withdrawal(field, FIELD, NX, NY, SMOKES, 0, 1, 2, (uint64_t)mass(1, 2)), 0);
    expect("mass of an emptied element", mass(1, 2), 0);
    printf("totals: %" PRId64 " and %" PRId64 "\n", plume_total(field, FIELD, NX, NY, SMOKES, 0),
           plume_total(field, FIELD, NX, NY, SMOKES, 1));
    printf("all calls answered as they should\n");
    return 0;
}
