/*
 * mapper.h - the LTE downlink mapper's functions for C (link libmapper.a).
 *
 * A plan describes one subframe of one cell: CELL or CELLX, FRAME, any HIs, any USERs, END. From a plan and a payload the mapper builds
 * the grid of resource elements of every antenna port; from a plan and a grid it reads the payload back.
 *
 * Answers
 *   Every function answers an int64_t. An answer of 0 or more is a count, a length, a kind or a value, as said at each function. An
 *   answer below 0 is a refusal: minus its number. No refusal has the number 0.
 *
 *     -1   the plan has an unknown command, or ends before a command's operands or before END
 *     -2   a command is out of order, or any byte stands after END
 *     -3   a field of CELL or CELLX is out of range
 *     -4   a field of FRAME is out of range
 *     -5   an HI's group is not below ceil(g N / 48), extended prefix twice that (g is N_g in sixths), its sequence not below 8,
 *          extended prefix 4, or the pair was used before
 *     -6   a field of USER is out of range, or first + count is above the number of blocks
 *     -7   a USER's RNTI or one of its blocks was used before
 *     -8   mapper_owner: s, k or port lies outside the grid
 *     -9   mapper_sample_*: the three bytes are no element
 *    -10   the grid has not the plan's length
 *    -11   the payload has not the plan's length
 *    -12   mapper_build: a spare bit of the payload is set
 *    -13   mapper_read: no accepted payload (of the right length, spare bits 0) makes this grid
 *    -18   at FRAME: the PHICH duration is extended and the control region is shorter than its three symbols
 *
 *   1 to 7 and 18 are the plan's refusals: the first fault from left to right, in one command the least number. Every function that takes
 *   a plan checks the whole plan first and can answer with them. Then come the buffers, 10 before 11 before 12 or 13. No refusal has a
 *   number from 14 to 17.
 *
 * Plan
 *   Commands of one byte, in hexadecimal here, with operands of fixed widths, big-endian, in this order:
 *
 *     10   CELL, once: identity (2 bytes, 0 to 503), blocks N (6, 15, 25, 50, 75, 100), prefix (0 normal, 1 extended), ports P (1, 2, 4),
 *          N_g in sixths (1, 3, 6, 12)
 *     12   CELLX, in the place of CELL: the same operands, then the PHICH duration (0 normal, as with CELL; 1 extended: a PHICH unit's
 *          twelve elements lie four each in symbols 0, 1 and 2, not all in symbol 0)
 *     11   FRAME, once: frame number (2 bytes, 0 to 1023), subframe (0 to 9), CFI (1 to 3): the control region, where no user has
 *          elements, is the first CFI symbols, the first CFI + 1 where N is 6; with the extended PHICH duration it has three at least:
 *          CFI 3, or 2 or 3 where N is 6
 *     20   HI, any number: PHICH group, sequence
 *     30   USER, any number: RNTI (2 bytes, 1 to 65535), bits of a symbol (2, 4, 6, 8), first block, number of blocks (1 or more)
 *     00   END
 *
 * Buffers
 *   A buffer is a pointer and its length in bytes. Any length and any contents are taken: wrong ones are refused. A pointer
 *   points to that many bytes; where the length is 0 it may be NULL. A buffer that is written (mapper_build's grid, mapper_read's
 *   payload) overlaps no other argument. On a refusal nothing is written. mapper_grid_len and mapper_payload_len give the
 *   lengths that a plan asks for; a plan's payload may be 0 bytes long. What is read comes first and what is written last:
 *   mapper_build takes payload, grid; mapper_read takes grid, payload.
 *
 * Threads
 *   The functions keep no state, allocate nothing and always return. Calls may run at the same time, as long as no buffer that
 *   one of them writes is used by another. mapper_build and mapper_read, the deepest calls, take at most 4 KiB of stack
 *   (measured by tests/stack.c, which fails above that).
 *
 * Example
 *
 *     static uint8_t grid[36 * 100 * 14 * 4];        // the longest grid of any plan
 *     static uint8_t payload[17000];                 // no plan's payload is longer
 *     // C = 0, 15 blocks, normal prefix, one port, N_g = 1/6; frame 0, subframe 1, CFI 1; one HI; one user, QPSK, on all blocks
 *     static const uint8_t plan[] = {
 *         0x10, 0, 0, 15, 0, 1, 1,   0x11, 0, 0, 1, 1,   0x20, 0, 0,   0x30, 0, 1, 2, 0, 15,   0x00
 *     };
 *     int64_t grid_len = mapper_grid_len(plan, sizeof plan);            // 36 * 15 * 14 * 1 = 7560
 *     int64_t payload_len = mapper_payload_len(plan, sizeof plan);      // 564: one byte for the HI, 563 for the user
 *     if (grid_len < 0 || payload_len < 0)
 *         return -1;                                                    // the plan is refused
 *     int64_t n = mapper_build(plan, sizeof plan, payload, payload_len, grid, grid_len);   // 2250, the user's elements
 *     if (n < 0)
 *         fprintf(stderr, "refused: %d\n", (int)-n);
 */
#ifndef MAPPER_H
#define MAPPER_H

#include <stddef.h>
#include <stdint.h>

#ifdef __cplusplus
extern "C" {
#endif

/*
 * Checks a plan.
 *
 *   plan, plan_len   the plan's bytes
 *
 * Answers 0 for an accepted plan, or -1 to -7 or -18.
 */
int64_t mapper_check(const uint8_t *plan, size_t plan_len);

/*
 * The length of a plan's grid in bytes: 36 * N * S * P, with N blocks, S symbols (14, with the extended prefix 12) and P ports; 2592 at
 * least (6 blocks, extended prefix, one port), 201600 at most (100 blocks, normal prefix, four ports). An element on port p, symbol s,
 * subcarrier k is the three bytes at ((p * S + s) * 12 * N + k) * 3: the byte of a unit u, then I and J as signed bytes, for
 * (I + jJ) / sqrt(u). The byte is u itself, but 255 for unit 340 (256QAM on two or four ports). Unit 63 is a phase instead,
 * exp(-2j * pi * I / 63) with I from 0 to 62 and J 0; unit 0 is silence, 0 0 0. mapper_sample_* take such three bytes.
 *
 * Answers the length, or -1 to -7 or -18.
 */
int64_t mapper_grid_len(const uint8_t *plan, size_t plan_len);

/*
 * The length of a plan's payload in bytes: the sections of PBCH (in subframe 0), of the HIs, and of each user, one after the other, each from
 * a byte on and filled from the most significant bit: 480 bits of PBCH (432 with the extended prefix), a bit for each HI, and for each user
 * the bits of its modulation's symbol times the number of its elements. The spare bits at a section's end are 0. No plan asks for more than
 * 17000 bytes (proved); the longest payload has 15025: 15000 elements of 8 bits (100 blocks, normal prefix, one port, CFI 1) and 200 HIs.
 * A user has at least 24 elements for each of its blocks (proved), so that its section is never empty; with no HI, no user and a subframe
 * other than 0 the payload has no byte.
 *
 * Answers the length, or -1 to -7 or -18.
 */
int64_t mapper_payload_len(const uint8_t *plan, size_t plan_len);

/*
 * Builds the grid of a plan and a payload. Every byte of the grid is written: an element without a value is silent, 0 0 0.
 *
 *   plan, plan_len         the plan's bytes
 *   payload, payload_len   the payload: mapper_payload_len bytes, spare bits 0
 *   grid, grid_len         written: mapper_grid_len bytes
 *
 * Answers the number of the users' elements (ports not multiplied), or -1 to -7, -18, -10, -11, -12; the grid then stays as it was.
 */
int64_t mapper_build(const uint8_t *plan, size_t plan_len, const uint8_t *payload, size_t payload_len, uint8_t *grid, size_t grid_len);

/*
 * Reads the payload of a grid back: the one from which mapper_build makes this very grid. Every byte counts: one that differs from
 * what mapper_build would write, in a reference signal or a silent element too, gives -13. This is no receiver.
 *
 *   plan, plan_len         the plan's bytes
 *   grid, grid_len         the grid: mapper_grid_len bytes
 *   payload, payload_len   written: mapper_payload_len bytes, spare bits 0
 *
 * Answers the number of the users' elements (ports not multiplied), or -1 to -7, -18, -10, -11, and -13 exactly where no accepted payload
 * makes the grid; the payload then stays as it was.
 */
int64_t mapper_read(const uint8_t *plan, size_t plan_len, const uint8_t *grid, size_t grid_len, uint8_t *payload, size_t payload_len);

/*
 * The owner of an element. A place (s, k) has the same owner on every port.
 *
 *   plan, plan_len   the plan's bytes
 *   s                the symbol in the subframe, from 0
 *   k                the subcarrier, from 0
 *   port             the antenna port, from 0
 *
 * Answers the owner's number, or -1 to -7 or -18, or -8 where s, k or port lies outside the grid:
 *
 *     0 to 3    CRS of that port        64 + m    PHICH unit m
 *     16        PSS                     256 + i   user i, in the plan's order from 0
 *     17        SSS                     512       held: left silent beside the synchronisation marks and in PBCH
 *     32        PBCH                    513       idle
 *     33        PCFICH
 */
int64_t mapper_owner(const uint8_t *plan, size_t plan_len, size_t s, size_t k, size_t port);

/*
 * The number of elements (ports not multiplied) of a kind of owners. Over the kinds 0 to 8 the counts add up to 12 * N * S.
 *
 *   plan, plan_len   the plan's bytes
 *   kind             0 CRS, 1 PSS, 2 SSS, 3 PBCH, 4 PCFICH, 5 PHICH, 6 PDSCH (all users), 7 held, 8 idle
 *
 * Answers the count (0 for a kind above 8), or -1 to -7 or -18.
 */
int64_t mapper_count(const uint8_t *plan, size_t plan_len, size_t kind);

/*
 * What an element's three bytes mean as a modem sample: silence, a phase, or a pair of f32. The three functions take the same bytes:
 *
 *   unit_byte, i, j   the element's bytes as they stand in a grid; I and J are i and j as signed bytes
 *
 * The unit u is unit_byte itself, but 340 where unit_byte is 255: a unit above 255 has no byte of its own number.
 *
 * mapper_sample_kind answers 0 for silence, 1 for a phase, 2 for a pair.
 * mapper_sample_i answers n of the phase -2 * pi * n / 63; of a pair the bits of an f32 for I / sqrt(u); 0 for silence.
 * mapper_sample_j answers of a pair the bits of an f32 for J / sqrt(u); 0 for a phase and for silence. That f32 is the level times
 * the f32 nearest 1 / sqrt(u), rounded once.
 *
 * Each answers -9 where the bytes are no element: another unit_byte than 0, 1, 2, 4, 10, 20, 42, 63, 84, 170, 255; unit 0 with a value;
 * unit 63 with I not 0 to 62 or J not 0; a level beyond 8 either way, beyond 15 in units 170 and 340. A pair's bits are an unsigned 32-bit
 * number, never a NaN's or an infinity's; where mapper_sample_kind answers 2:
 *
 *     uint32_t bits = (uint32_t)mapper_sample_i(unit_byte, i, j);
 *     float x;
 *     memcpy(&x, &bits, sizeof x);
 */
int64_t mapper_sample_kind(uint8_t unit_byte, uint8_t i, uint8_t j);
int64_t mapper_sample_i(uint8_t unit_byte, uint8_t i, uint8_t j);
int64_t mapper_sample_j(uint8_t unit_byte, uint8_t i, uint8_t j);

#ifdef __cplusplus
}
#endif

#endif
