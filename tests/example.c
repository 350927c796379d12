/* A first program with the mapper: document 01's example plan is checked, built and read back.

       gcc -Iinclude tests/example.c target/staticlib/libmapper.a -o target/example */
#include <stdio.h>
#include <string.h>

#include "mapper.h"

/* Cell 0 with 15 blocks, normal prefix, one port, N_g 1/6; frame 0, subframe 1, CFI 1; an HI; RNTI 1 with QPSK on all blocks. */
static const uint8_t PLAN[] = {
    0x10, 0x00, 0x00, 15, 0, 1, 1,
    0x11, 0x00, 0x00, 1, 1,
    0x20, 0, 0,
    0x30, 0x00, 0x01, 2, 0, 15,
    0x00,
};

/* Room for the longest grid and the longest payload of any plan; this plan takes a part of it. */
static uint8_t grid[36 * 100 * 14 * 4], payload[17000], again[17000];

static int refused(const char *call, int64_t answer)
{
    fprintf(stderr, "%s: refused %d\n", call, (int)-answer);
    return 1;
}

static float value_of(int64_t bits)
{
    uint32_t word = (uint32_t)bits;
    float value;
    memcpy(&value, &word, sizeof value);
    return value;
}

static void print_counts(void)
{
    static const char *const KINDS[] = {"CRS", "PSS", "SSS", "PBCH", "PCFICH", "PHICH", "PDSCH", "held", "idle"};
    for (size_t kind = 0; kind < 9; kind++)
        printf("%s %lld\n", KINDS[kind], (long long)mapper_count(PLAN, sizeof PLAN, kind));
}

/* The element on port 0 at symbol s, subcarrier k. */
static void print_sample(size_t s, size_t k)
{
    const uint8_t *e = grid + (s * 12 * 15 + k) * 3;
    printf("s %zu k %zu: owner %lld, bytes %d %d %d", s, k, (long long)mapper_owner(PLAN, sizeof PLAN, s, k, 0), e[0],
           (int8_t)e[1], (int8_t)e[2]);
    if (mapper_sample_kind(e[0], e[1], e[2]) == 2)
        printf(", sample %.9g %.9g", value_of(mapper_sample_i(e[0], e[1], e[2])), value_of(mapper_sample_j(e[0], e[1], e[2])));
    printf("\n");
}

int main(void)
{
    int64_t answer = mapper_check(PLAN, sizeof PLAN);
    if (answer < 0)
        return refused("check", answer);

    int64_t grid_len = mapper_grid_len(PLAN, sizeof PLAN);
    int64_t payload_len = mapper_payload_len(PLAN, sizeof PLAN);
    printf("grid %lld bytes, payload %lld bytes\n", (long long)grid_len, (long long)payload_len);

    /* The HI's section is one byte with one bit. The user's 4500 bits follow, and the last half byte is spare: zero. */
    payload[0] = 0x80;
    for (int64_t i = 1; i < payload_len; i++)
        payload[i] = (uint8_t)i;
    payload[payload_len - 1] &= 0xF0;

    answer = mapper_build(PLAN, sizeof PLAN, payload, payload_len, grid, grid_len);
    if (answer < 0)
        return refused("build", answer);
    printf("built: %lld user elements\n", (long long)answer);

    answer = mapper_read(PLAN, sizeof PLAN, grid, grid_len, again, payload_len);
    if (answer < 0)
        return refused("read", answer);
    printf("read back: %lld user elements, %s payload\n", (long long)answer,
           memcmp(payload, again, payload_len) ? "another" : "the same");

    print_counts();
    print_sample(1, 0);
    return 0;
}
