/* The same step written plainly in C: the same arguments, buffers and answers as plume_step. */
#ifndef PLAIN_H
#define PLAIN_H

#include <stddef.h>
#include <stdint.h>

int64_t plain_step(uint32_t *field, size_t field_count, const int16_t *wind, size_t wind_count,
                   int32_t *report, size_t report_count, int64_t *work, size_t work_count,
                   size_t nx, size_t ny, size_t smokes, size_t smoke);

#endif
