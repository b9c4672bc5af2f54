/* Nadstawiec's calls for C: smoke moved over a grid that wraps at its edges, in whole numbers.
 *
 * Shape. nx and ny are 1 to 64 elements, smokes is 1 to 8. Element (i, j) has i counted east from 0 and j north from 0.
 *
 * Buffers. Each is a pointer and then the count of its numbers. Pointers are aligned for their type and not null, also where the
 * count is 0; buffers of one call do not overlap. A buffer may be longer than needed, and what is beyond stays as
 * it was; the file of plume_read and the records of plume_import have just their bytes.
 *   field    (10 * nx * ny + 1) * smokes. Smoke by smoke, then j, then i: nine values (b outer, a inner, from south-west to
 *            north-east) and a remainder, 0 to 35. An element holds the sum of its values times their weights
 *            1 4 1, 4 16 4, 1 4 1, plus the remainder; a smoke's total is the sum of that, at most 100,000,000, and is stored
 *            after its last element. Who writes elements himself must write the total, too; a field that is read from a file
 *            with the mark "PLUM" has it.
 *   wind     2 * nx * ny. All east faces (j outer, i inner), then all north faces, in 1/4096 element per step, -1024 to 1024,
 *            positive to the east or north. An element owns its east and its north face.
 *   report   2 * nx * ny, in the wind's order: how much smoke went over each face, positive to the east or north.
 *   work     64 * nx * ny, of any content.
 *   records  the bytes of nx * ny wind records, one per element, j outer, i inner. A record is a kind byte and then numbers, each an
 *            IEEE 754 binary64 (f64) in 8 bytes, little-endian, in elements per step: kind 0 has none (both winds become 0), kind 1
 *            an east and a north component, kind 2 an east component (the north wind becomes 0).
 *   page     the bytes of a printed page, 74 * (((nx + 6) / 7) * (ny + 1) + 1) of them, no terminating 0: lines of 73 characters
 *            and a newline.
 *   file     the bytes of a field file with the mark "PLU2"; 4 * nx * ny + (40 * nx * ny + 4) * smokes + 4 * (smokes + 1) + 12
 *            of them. plume_read also takes files with the mark "PLUM", in which no totals are stored: 4 bytes less for each smoke.
 *
 * Answers. A uint8_t is 0 where the call was accepted, else the refusal's number. An int64_t is the number that the call
 * answers, or the refusal's number negated. A call that is refused has written nothing.
 *    1 no field file: fewer than 12 bytes, a mark that is neither "PLU2" nor "PLUM", or fourth byte of the tail not 0
 *    2 shape outside its ranges
 *    3 the file's offsets or length differ from what its shape and mark give
 *    4 a buffer is shorter than needed (a short file of plume_read is 1 or 3, short records are 11)
 *    5 a wind number outside -1024 to 1024
 *    6 in plume_step and plume_map, of the named smoke, and in plume_read and plume_write, of any: a remainder above 35, a sum
 *      above 100,000,000, or a stored total that is not the sum; in plume_emission, plume_withdrawal and plume_mass: a stored
 *      total above 100,000,000, or, of the named element, a remainder above 35 or a mass above the stored total; in
 *      plume_total: a stored total above 100,000,000
 *    7 no such smoke
 *    8 no such element or face
 *    9 the total would pass 100,000,000: in plume_emission the stored one
 *   10 withdrawal of more than the element holds
 *   11 a wind record of an unknown kind, a missing byte, or bytes after the last record
 *   12 a number of a wind record that is not finite
 * The lowest number that applies is the answer, but for plume_import, which goes record by record. Beside each call stand those that
 * it may give. */
#ifndef PLUME_H
#define PLUME_H

#include <stddef.h>
#include <stdint.h>

#ifdef __cplusplus
extern "C" {
#endif

/* Which way a face looks. */
enum { PLUME_EAST = 0, PLUME_NORTH = 1 };

/* Writes zeros to field and wind. Refusals 2 4. */
uint8_t plume_fresh(uint32_t *field, size_t field_count, int16_t *wind, size_t wind_count,
                    size_t nx, size_t ny, size_t smokes);

/* Gives the face of element (i, j) that looks `way` the wind c. The numbers stored before are not looked at. Any way but
 * PLUME_EAST and PLUME_NORTH is no such face. Refusals 2 4 5 8. */
uint8_t plume_wind(int16_t *wind, size_t wind_count, size_t nx, size_t ny, size_t smokes,
                   uint8_t way, size_t i, size_t j, int16_t c);

/* Gives the east and the north face of every element the winds of its record: the whole number nearest to 4096 times the component, the
 * even one at a half (1024.5 becomes 1024, which passes). The numbers stored before are not looked at. Refusals 2 4, then of each record
 * in turn 11 12 5, then 11 for bytes that are left over: so a 5 in the first record comes before an 11 in the second. */
uint8_t plume_import(int16_t *wind, size_t wind_count, const uint8_t *records, size_t records_count,
                     size_t nx, size_t ny, size_t smokes);

/* Replaces a smoke by nodal values: `numbers` has nine for each element, 9 * nx * ny, elements and nodes in the field's order. Its
 * remainders become 0, and its stored total the sum of what its elements hold then; what it held before is not looked at.
 * Refusals 2 4 7 9. */
uint8_t plume_load(uint32_t *field, size_t field_count, const uint32_t *numbers, size_t numbers_count,
                   size_t nx, size_t ny, size_t smokes, size_t smoke);

/* Adds q to what element (i, j) of a smoke holds, and to the stored total: its values rise evenly, its remainder takes the rest. Looks at
 * that element and the stored total only, and its time does not grow with the grid; so it is with withdrawal, mass and total. Answers
 * the clipped mass, as plume_step does; here it is always 0. Refusals 2 4 6 7 8 9, negated. */
int64_t plume_emission(uint32_t *field, size_t field_count, size_t nx, size_t ny, size_t smokes,
                       size_t smoke, size_t i, size_t j, uint64_t q);

/* Takes q off what element (i, j) of a smoke holds, and off the stored total: off its remainder, or where that is too little by scaling
 * its values down. Answers the clipped mass, which is always 0 here. Refusals 2 4 6 7 8 10, negated. */
int64_t plume_withdrawal(uint32_t *field, size_t field_count, size_t nx, size_t ny, size_t smokes,
                         size_t smoke, size_t i, size_t j, uint64_t q);

/* One step of one smoke with the wind: writes that smoke's elements and the whole report; the stored total stays. Afterwards work has any
 * content. Answers the clipped mass, 0 or more and below 2^53: how much negative smoke the truncation removed, over all elements. It may be
 * above the total. Refusals 2 4 5 6 7, negated. */
int64_t plume_step(uint32_t *field, size_t field_count, const int16_t *wind, size_t wind_count,
                   int32_t *report, size_t report_count, int64_t *work, size_t work_count,
                   size_t nx, size_t ny, size_t smokes, size_t smoke);

/* What element (i, j) of a smoke holds. Refusals 2 4 6 7 8, negated. */
int64_t plume_mass(const uint32_t *field, size_t field_count, size_t nx, size_t ny, size_t smokes,
                   size_t smoke, size_t i, size_t j);

/* A smoke's total, as it is stored. Refusals 2 4 6 7, negated. */
int64_t plume_total(const uint32_t *field, size_t field_count, size_t nx, size_t ny, size_t smokes,
                    size_t smoke);

/* Prints a smoke's map into page, and answers how many bytes. Seven columns of elements make a block, the westmost first; the last may
 * have fewer. A block's first line has three blanks, then its columns' numbers i, each right-aligned in ten. Then each row j from the
 * north on has j right-aligned in three and what its elements hold, each in ten. In every line blanks stand where the grid has no
 * column. The page's last line has "sum" and the total right-aligned in 70. Refusals 2 4 6 7, negated. */
int64_t plume_map(uint8_t *page, size_t page_count, const uint32_t *field, size_t field_count,
                  size_t nx, size_t ny, size_t smokes, size_t smoke);

/* Reads a field file, file_count bytes and no more, into field and wind; where its mark is "PLUM", the totals are worked out. Answers the
 * shape as nx + 256 * ny + 65536 * smokes. Refusals 1 2 3 4 5 6, negated. */
int64_t plume_read(uint32_t *field, size_t field_count, int16_t *wind, size_t wind_count,
                   const uint8_t *file, size_t file_count);

/* Writes a field file with the mark "PLU2": where the field was read from one with the mark "PLUM", 4 bytes more for each smoke than that
 * file had. Answers its length in bytes. Refusals 2 4 5 6, negated. */
int64_t plume_write(uint8_t *file, size_t file_count, const uint32_t *field, size_t field_count,
                    const int16_t *wind, size_t wind_count, size_t nx, size_t ny, size_t smokes);

#ifdef __cplusplus
}
#endif

#endif
