/* Holds the plain mapper to the vectors of the test programs build_vectors and read_vectors: reads their standard input and prints
   what they print. The first argument says which: build or read. With LIBRARY defined the same calls go to the library, through C.
   `expect DIRECTORY CASES` answers the inputs that `judge expect` wrote there, in the form of its expected.txt; the plain mapper has
   no owner query, so its lines lack that digest.

   A record of `build`: a byte for the grid's length (0 what the plan wants, 1 one less, 2 one more), the plan's length in two
   bytes, the plan, the payload's length in four, the payload. A record of `read`: a byte for the kind (1 a sweep), one for the
   grid's length, one for the payload's; plan and payload as before; the length of the lists of changes in two bytes, the lists. A
   list is a byte for the number of changes, and for each a byte's number in four bytes and its new value. */
#include <stdbool.h>
#include <stdio.h>
#include <stdlib.h>
#include <string.h>

#ifdef LIBRARY
#include "mapper.h"
#define CALL(name) mapper_##name
#else
#include "plain.h"
#define CALL(name) plain_##name
#endif

enum { MAX_INPUT = 1 << 20, MAX_GRID = 201601, MAX_PAYLOAD = 20000, BEFORE = 165 };

static uint8_t input[MAX_INPUT], grid[MAX_GRID], again[MAX_GRID], payload_out[MAX_PAYLOAD];

struct digest {
    uint64_t a, b;
};

static const struct digest BEGUN = {1, 7};

struct bytes {
    const uint8_t *at;
    size_t len;
};

static struct digest added(struct digest d, const uint8_t *bytes, size_t n)
{
    for (size_t i = 0; i < n; i++) {
        d.a = (d.a * 31 + bytes[i] + 1) % 4294967291u;
        d.b = (d.b * 131 + bytes[i] + 7) % 4294967279u;
    }
    return d;
}

static void fail(const char *why)
{
    fprintf(stderr, "check: %s\n", why);
    exit(2);
}

/* The next n bytes of the input. */
static struct bytes take(struct bytes *in, size_t n)
{
    if (in->len < n)
        fail("a record is cut off");
    struct bytes part = {in->at, n};
    in->at += n;
    in->len -= n;
    return part;
}

static size_t number(struct bytes *in, size_t n)
{
    struct bytes digits = take(in, n);
    size_t v = 0;
    for (size_t i = 0; i < n; i++)
        v = v << 8 | digits.at[i];
    return v;
}

static size_t lent(size_t n, size_t difference)
{
    return n == 0 ? 0 : difference == 1 ? n - 1 : difference == 2 ? n + 1 : n;
}

/* A refused plan wants no grid; 36 bytes stand for it. */
static size_t wanted(struct bytes plan)
{
    int64_t n = CALL(grid_len)(plan.at, plan.len);
    return n < 0 ? 36 : (size_t)n;
}

static void answer(size_t record, int64_t r, const uint8_t *bytes, size_t n)
{
    struct digest d = added(BEGUN, bytes, n);
    if (r < 0)
        printf("%zu refused %lld %llu %llu\n", record, (long long)-r, (unsigned long long)d.a, (unsigned long long)d.b);
    else
        printf("%zu %lld %llu %llu\n", record, (long long)r, (unsigned long long)d.a, (unsigned long long)d.b);
}

static void build_record(size_t record, struct bytes *in)
{
    size_t difference = number(in, 1);
    struct bytes plan = take(in, number(in, 2));
    struct bytes payload = take(in, number(in, 4));
    size_t n = lent(wanted(plan), difference);
    memset(grid, BEFORE, n);
    answer(record, CALL(build)(plan.at, plan.len, payload.at, payload.len, grid, n), grid, n);
}

static uint8_t next_unit_byte(uint8_t unit)
{
    static const uint8_t UNIT_BYTES[] = {0, 1, 2, 4, 10, 20, 42, 63, 84, 170, 255, 0};
    for (int i = 0; i < 11; i++)
        if (UNIT_BYTES[i] == unit)
            return UNIT_BYTES[i + 1];
    return 0;
}

/* What a sweep changes byte i to: 0, one more, one less, and another unit or the opposite level. */
static uint8_t other(size_t i, uint8_t b, int k)
{
    switch (k) {
    case 0: return 0;
    case 1: return b + 1;
    case 2: return b - 1;
    default: return i % 3 == 0 ? next_unit_byte(b) : -b;
    }
}

struct tally {
    size_t refused, read, built;
    struct digest digest;
};

static void read_changed(struct tally *t, struct bytes plan, size_t grid_len, size_t size)
{
    memset(payload_out, BEFORE, size);
    int64_t r = CALL(read)(plan.at, plan.len, grid, grid_len, payload_out, size);
    if (r < 0) {
        t->refused++;
    } else {
        t->read++;
        r = CALL(build)(plan.at, plan.len, payload_out, size, again, grid_len);
        t->built += r >= 0 && memcmp(grid, again, grid_len) == 0;
    }
    t->digest = added(t->digest, payload_out, size);
}

/* Every byte of the grid in turn with its four changes. */
static void sweep(size_t record, struct bytes plan, size_t grid_len, size_t size)
{
    struct tally t = {0, 0, 0, BEGUN};
    for (size_t i = 0; i < grid_len; i++) {
        uint8_t old = grid[i];
        for (int k = 0; k < 4; k++) {
            grid[i] = other(i, old, k);
            if (grid[i] != old)
                read_changed(&t, plan, grid_len, size);
        }
        grid[i] = old;
    }
    printf("%zu refused %zu read %zu built %zu %llu %llu\n", record, t.refused, t.read, t.built,
           (unsigned long long)t.digest.a, (unsigned long long)t.digest.b);
}

/* A call for each list of changes, on a grid built anew. */
static void calls(size_t record, struct bytes plan, struct bytes payload, struct bytes lists, size_t grid_len, size_t n, size_t size)
{
    while (lists.len > 0) {
        memset(grid, BEFORE, sizeof grid);
        CALL(build)(plan.at, plan.len, payload.at, payload.len, grid, grid_len);
        for (size_t changes = number(&lists, 1); changes > 0; changes--) {
            size_t i = number(&lists, 4);
            uint8_t b = (uint8_t)number(&lists, 1);
            if (i < sizeof grid)
                grid[i] = b;
        }
        memset(payload_out, BEFORE, size);
        answer(record, CALL(read)(plan.at, plan.len, grid, n, payload_out, size), payload_out, size);
    }
}

static void read_record(size_t record, struct bytes *in)
{
    bool sweeps = number(in, 1) == 1;
    size_t of_grid = number(in, 1), of_payload = number(in, 1);
    struct bytes plan = take(in, number(in, 2));
    struct bytes payload = take(in, number(in, 4));
    struct bytes lists = take(in, number(in, 2));
    size_t grid_len = wanted(plan), size = lent(payload.len, of_payload);
    if (size > MAX_PAYLOAD)
        fail("a payload is too long");
    if (sweeps) {
        CALL(build)(plan.at, plan.len, payload.at, payload.len, grid, grid_len);
        sweep(record, plan, grid_len, size);
    } else {
        calls(record, plan, payload, lists, grid_len, lent(grid_len, of_grid), size);
    }
}

/* FNV-1a with 64 bits. */
static uint64_t fnv(uint64_t d, uint8_t byte)
{
    return (d ^ byte) * UINT64_C(0x100000001B3);
}

static const uint64_t FNV_START = UINT64_C(0xCBF29CE484222325);

static void tell(const char *call, int64_t r, const char *what, const uint8_t *bytes, size_t n)
{
    uint64_t d = FNV_START;
    printf(" %s %lld", call, (long long)r);
    if (r < 0)
        return;
    for (size_t i = 0; i < n; i++)
        d = fnv(d, bytes[i]);
    printf(" %s %016llx", what, (unsigned long long)d);
}

#ifdef LIBRARY
/* The owners' numbers in 16 bits, s by s and k by k; a port's number does not matter. */
static void tell_owners(struct bytes plan)
{
    uint64_t d = FNV_START;
    for (size_t s = 0; mapper_owner(plan.at, plan.len, s, 0, 0) >= 0; s++) {
        int64_t owner;
        for (size_t k = 0; (owner = mapper_owner(plan.at, plan.len, s, k, 0)) >= 0; k++)
            d = fnv(fnv(d, (uint8_t)(owner >> 8)), (uint8_t)owner);
    }
    printf(" owners %016llx", (unsigned long long)d);
}
#else
static void tell_owners(struct bytes plan)
{
    (void)plan;
}
#endif

/* All answers to a plan and a payload. The damaged grid is the built one with one byte negated or, where that changes nothing, its
   lowest bit turned over. */
static void answers(size_t number_of_case, struct bytes plan, struct bytes payload)
{
    int64_t n = CALL(grid_len)(plan.at, plan.len), checked = CALL(check)(plan.at, plan.len);
    size_t grid_len = n < 0 ? 0 : (size_t)n;
    printf("%zu check %lld gridlen %lld payloadlen %lld", number_of_case, (long long)checked, (long long)n,
           (long long)CALL(payload_len)(plan.at, plan.len));
    if (checked == 0)
        tell_owners(plan);
    memset(grid, BEFORE, grid_len);
    int64_t built = CALL(build)(plan.at, plan.len, payload.at, payload.len, grid, grid_len);
    tell("build", built, "grid", grid, grid_len);
    if (built >= 0) {
        int64_t r = CALL(read)(plan.at, plan.len, grid, grid_len, payload_out, payload.len);
        tell("read", r, "payload", payload_out, payload.len);
        uint8_t *byte = &grid[7919 * number_of_case % grid_len];
        *byte = (uint8_t)-*byte == *byte ? *byte ^ 1 : -*byte;
        r = CALL(read)(plan.at, plan.len, grid, grid_len, payload_out, payload.len);
        tell("damaged", r, "payload", payload_out, payload.len);
    }
    printf("\n");
}

/* A case's file: the plan's length in two bytes, the plan, the payload. */
static void expect(const char *directory, size_t cases)
{
    for (size_t i = 0; i < cases; i++) {
        char name[4096];
        snprintf(name, sizeof name, "%s/%zu.in", directory, i);
        FILE *file = fopen(name, "rb");
        if (!file)
            fail("a case's file is missing");
        struct bytes in = {input, fread(input, 1, sizeof input, file)};
        fclose(file);
        struct bytes plan = take(&in, number(&in, 2));
        answers(i, plan, in);
    }
}

int main(int argc, char **argv)
{
    if (argc == 4 && strcmp(argv[1], "expect") == 0) {
        expect(argv[2], strtoul(argv[3], NULL, 10));
        return 0;
    }
    if (argc != 2 || (strcmp(argv[1], "build") && strcmp(argv[1], "read")))
        fail("usage: check build|read <stdin, or check expect DIRECTORY CASES");
    struct bytes in = {input, fread(input, 1, sizeof input, stdin)};
    for (size_t record = 1; in.len > 0; record++)
        (strcmp(argv[1], "build") ? read_record : build_record)(record, &in);
    return 0;
}
