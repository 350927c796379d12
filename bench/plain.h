/* A mapper in plain C, written from document 01 and TS 36.211 for speed: what the library's times are held against.
   It answers as the library does: a count >= 0, or minus the number of the refusal, with every buffer as it was. */
#ifndef PLAIN_H
#define PLAIN_H

#include <stddef.h>
#include <stdint.h>

int64_t plain_check(const uint8_t *plan, size_t plan_len);
int64_t plain_grid_len(const uint8_t *plan, size_t plan_len);
int64_t plain_payload_len(const uint8_t *plan, size_t plan_len);

int64_t plain_build(const uint8_t *plan, size_t plan_len, const uint8_t *payload, size_t payload_len,
                    uint8_t *grid, size_t grid_len);
int64_t plain_read(const uint8_t *plan, size_t plan_len, const uint8_t *grid, size_t grid_len,
                   uint8_t *payload, size_t payload_len);

#endif
