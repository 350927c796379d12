/* Times the library's build and read beside those of the plain mapper, on the same input in one run. The two take turns, call by
   call, and which of them goes first changes each time. No buffer is cleared between the calls. All cases are gone through several
   times, so that a busy moment of the machine falls on a part of each and not on one of them. Results are compared before a case is
   timed. */
#define _POSIX_C_SOURCE 199309L

#include <stdbool.h>
#include <stdio.h>
#include <stdlib.h>
#include <string.h>
#include <time.h>

#include "mapper.h"
#include "plain.h"

/* The longest payload of any plan is a byte for each user element, 8 bits at most, and one for every eight of 200 HIs. Users have most
   elements with 100 blocks, one port, the normal prefix, CFI 1 and nothing in the centre: 13 symbols of 1200, less 200 of CRS in three. */
enum {
    MAX_PLAN = 2048,
    MAX_PAYLOAD = 13 * 1200 - 3 * 200 + 200 / 8,
    MAX_GRID = 201600,
    PASSES = 20,
    TURN = 25000000,                /* nanoseconds of a case in a pass */
    MAX_CALLS = 20000
};

/* Fields that a row leaves out are 0: identity 101 then, the normal prefix, the normal PHICH duration, subframe 1. */
struct scenario {
    const char *name;
    unsigned blocks, ports, bits, users, his;
    unsigned identity;
    bool extended, subframe_0, extended_phich;
};

struct input {
    size_t plan_len, payload_len, grid_len;
    uint8_t plan[MAX_PLAN], payload[MAX_PAYLOAD];
};

/* What one implementation is called with, and what it left. */
struct side {
    int64_t (*build)(const uint8_t *, size_t, const uint8_t *, size_t, uint8_t *, size_t);
    int64_t (*read)(const uint8_t *, size_t, const uint8_t *, size_t, uint8_t *, size_t);
    uint8_t grid[MAX_GRID], payload[MAX_PAYLOAD];
};

/* A case's calls in nanoseconds: of the library, of the plain mapper. */
struct calls {
    int n;
    uint32_t build[2][MAX_CALLS], read[2][MAX_CALLS];
};

struct times {
    double least, median;           /* microseconds */
};

/* The library's least times of a case. */
struct least {
    double build, read;
};

static struct input input;
static struct side sides[2] = {{.build = mapper_build, .read = mapper_read}, {.build = plain_build, .read = plain_read}};

static void fail(const char *name, const char *why)
{
    fprintf(stderr, "bench: %s: %s\n", name, why);
    exit(1);
}

/* Bytes that look like data, always the same ones. */
static void fill(uint8_t *bytes, size_t n)
{
    uint32_t x = 36211;
    for (size_t i = 0; i < n; i++) {
        x = x * 1664525 + 1013904223;
        bytes[i] = x >> 24;
    }
}

static void append(struct input *in, const uint8_t *bytes, size_t n)
{
    memcpy(in->plan + in->plan_len, bytes, n);
    in->plan_len += n;
}

/* CFI 1, with the extended PHICH duration 3; the blocks shared out evenly. Where bytes that look like data would set a spare bit, the
   payload is zeros. */
static void make(struct input *in, const struct scenario *c)
{
    in->plan_len = 0;
    append(in, (uint8_t[]){c->extended_phich ? 0x12 : 0x10, 0, c->identity ? c->identity : 101}, 3);
    append(in, (uint8_t[]){c->blocks, c->extended, c->ports, c->his ? 12 : 1, 1}, c->extended_phich ? 5 : 4);
    append(in, (uint8_t[]){0x11, 0, 0, !c->subframe_0, c->extended_phich ? 3 : 1}, 5);
    for (unsigned i = 0; i < c->his; i++)
        append(in, (uint8_t[]){0x20, i / 8, i % 8}, 3);
    for (unsigned i = 0; i < c->users; i++) {
        unsigned first = i * c->blocks / c->users, end = (i + 1) * c->blocks / c->users;
        append(in, (uint8_t[]){0x30, 0x12 + i, 0x34 + i, c->bits, first, end - first}, 6);
    }
    append(in, (uint8_t[]){0}, 1);
    int64_t payload_len = mapper_payload_len(in->plan, in->plan_len), grid_len = mapper_grid_len(in->plan, in->plan_len);
    if (payload_len < 0 || grid_len < 0 || payload_len > MAX_PAYLOAD || grid_len > MAX_GRID)
        fail(c->name, "the plan is refused");
    in->payload_len = payload_len;
    in->grid_len = grid_len;
    fill(in->payload, in->payload_len);
    if (plain_build(in->plan, in->plan_len, in->payload, in->payload_len, sides[1].grid, in->grid_len) == -12)
        memset(in->payload, 0, in->payload_len);
}

static int64_t build(struct side *side)
{
    return side->build(input.plan, input.plan_len, input.payload, input.payload_len, side->grid, input.grid_len);
}

static int64_t read_back(struct side *side)
{
    return side->read(input.plan, input.plan_len, side->grid, input.grid_len, side->payload, input.payload_len);
}

/* The same counts, the same grid, the payload back from both. Different bytes stand in the buffers before. */
static void verify(const char *name)
{
    for (int i = 0; i < 2; i++) {
        memset(sides[i].grid, 0x55 + i, input.grid_len);
        memset(sides[i].payload, 0x55 + i, input.payload_len);
    }
    int64_t n = build(&sides[0]);
    if (n < 0 || build(&sides[1]) != n || read_back(&sides[0]) != n || read_back(&sides[1]) != n)
        fail(name, "the counts differ");
    if (memcmp(sides[0].grid, sides[1].grid, input.grid_len))
        fail(name, "the grids differ");
    for (int i = 0; i < 2; i++)
        if (memcmp(sides[i].payload, input.payload, input.payload_len))
            fail(name, "a payload was not read back");
}

static uint64_t now(void)
{
    struct timespec t;
    clock_gettime(CLOCK_MONOTONIC, &t);
    return (uint64_t)t.tv_sec * 1000000000 + t.tv_nsec;
}

static uint32_t timed(int64_t (*call)(struct side *), struct side *side)
{
    uint64_t start = now();
    call(side);
    return now() - start;
}

static int ascending(const void *a, const void *b)
{
    uint32_t x = *(const uint32_t *)a, y = *(const uint32_t *)b;
    return (x > y) - (x < y);
}

static struct times times_of(uint32_t *list, int n)
{
    qsort(list, n, sizeof *list, ascending);
    return (struct times){list[0] / 1e3, list[n / 2] / 1e3};
}

/* One turn of a case. The first round is for the caches and is not counted. */
static void measure(struct calls *c)
{
    uint64_t end = now() + TURN;
    for (int round = -1; c->n < MAX_CALLS && now() < end; round++) {
        int first = round & 1, second = 1 - first, n = c->n;
        c->build[first][n] = timed(build, &sides[first]);
        c->build[second][n] = timed(build, &sides[second]);
        c->read[first][n] = timed(read_back, &sides[first]);
        c->read[second][n] = timed(read_back, &sides[second]);
        c->n += round >= 0;
    }
}

static void heading(const char *title)
{
    printf("\n%-30s|%16s %12s      |%16s %12s      |\n", title, "build: library", "plain", "read: library", "plain");
    for (int i = 0; i < 2; i++)
        printf("%-*s| %6s%7s %6s%6s%6s ", i ? 0 : 30, "", "least", "med.", "least", "med.", "x");
    printf("|%6s\n", "calls");
}

/* Answers with the library's least time. */
static double columns(uint32_t *library, uint32_t *plain, int n)
{
    struct times l = times_of(library, n), p = times_of(plain, n);
    printf("| %6.1f%7.1f %6.1f%6.1f%6.2f ", l.least, l.median, p.least, p.median, l.least / p.least);
    return l.least;
}

static struct least row(const char *name, struct calls *c)
{
    struct least l;
    printf("%-30s", name);
    l.build = columns(c->build[0], c->build[1], c->n);
    l.read = columns(c->read[0], c->read[1], c->n);
    printf("|%6d\n", c->n);
    return l;
}

/* Name, blocks, ports, bits of a symbol, users, HIs. A name alone heads a table; one whose rows' names are
   numbers shows growth. */
static const struct scenario ROWS[] = {
    {"Cases", 0},
    {"1 user 64QAM, N 100, P 4", 100, 4, 6, 1},
    {"1 user 256QAM, N 100, P 4", 100, 4, 8, 1},
    {"100 users 64QAM, N 100, P 4", 100, 4, 6, 100},
    {"1 user QPSK, N 100, P 1", 100, 1, 2, 1},
    {"15 users 64QAM, N 15, P 4", 15, 4, 6, 15},
    {"6 users 64QAM, N 6, P 4", 6, 4, 6, 6},
    {"200 HIs, no user, N 100, P 4", 100, 4, 6, 0, 200},
    {"200 HIs, PHICH extended, P 4", 100, 4, 6, 0, 200, .extended_phich = true},
    {"64QAM, P 4, C mod 3 = 0", 100, 4, 6, 1, .identity = 102},
    {"64QAM, P 4, C mod 3 = 1", 100, 4, 6, 1, .identity = 100},
    {"64QAM, P 4, C mod 3 = 2", 100, 4, 6, 1, .identity = 101},
    {"64QAM, P 4, subframe 0", 100, 4, 6, 1, .subframe_0 = true},
    {"64QAM, P 4, extended prefix", 100, 4, 6, 1, .extended = true},
    {"16QAM, N 100, P 2", 100, 2, 4, 1},
    {"64QAM, N 100, P 1", 100, 1, 6, 1},
    {"256QAM, N 100, P 1", 100, 1, 8, 1},
    {"no user, N 15, P 1", 15, 1, 6, 0},
    {"no user, N 6, P 1", 6, 1, 6, 0},
    {"Width: 1 user 64QAM, P 2", 0},
    {"6", 6, 2, 6, 1},              /* with one control symbol more than the others */
    {"15", 15, 2, 6, 1},
    {"25", 25, 2, 6, 1},
    {"50", 50, 2, 6, 1},
    {"75", 75, 2, 6, 1},
    {"100", 100, 2, 6, 1},
    {"Users: 64QAM, N 100, P 4", 0},
    {"1", 100, 4, 6, 1},
    {"2", 100, 4, 6, 2},
    {"5", 100, 4, 6, 5},
    {"10", 100, 4, 6, 10},
    {"25", 100, 4, 6, 25},
    {"50", 100, 4, 6, 50},
    {"100", 100, 4, 6, 100},
    {"HIs: no user, N 100, P 4", 0},
    {"25", 100, 4, 6, 0, 25},
    {"50", 100, 4, 6, 0, 50},
    {"100", 100, 4, 6, 0, 100},
    {"200", 100, 4, 6, 0, 200},
};
enum { ALL_ROWS = sizeof ROWS / sizeof ROWS[0] };

static struct calls calls[ALL_ROWS];
static size_t payload_bits[ALL_ROWS];

static void measure_all(void)
{
    for (int pass = 0; pass < PASSES; pass++) {
        for (int i = 0; i < ALL_ROWS; i++) {
            if (ROWS[i].blocks == 0)
                continue;
            make(&input, &ROWS[i]);
            verify(ROWS[i].name);
            measure(&calls[i]);
            payload_bits[i] = 8 * input.payload_len;
        }
    }
}

/* How time grows from the smallest of a table to the others: what one more of its kind adds, in nanoseconds, from a row to the next. Steady
   numbers are linear growth. */
static void growth(const int *sizes, const struct least *l, int n)
{
    printf("one more adds, ns: build");
    for (int i = 1; i < n; i++)
        printf(" %.0f", 1e3 * (l[i].build - l[i - 1].build) / (sizes[i] - sizes[i - 1]));
    printf("; read");
    for (int i = 1; i < n; i++)
        printf(" %.0f", 1e3 * (l[i].read - l[i - 1].read) / (sizes[i] - sizes[i - 1]));
    printf("\n");
}

/* The row of one user on 100 blocks and four ports; its payload is that user's alone. */
static int row_of_order(unsigned bits)
{
    for (int i = 0; i < ALL_ROWS; i++)
        if (ROWS[i].blocks == 100 && ROWS[i].ports == 4 && ROWS[i].users == 1 && ROWS[i].bits == bits)
            return i;
    fprintf(stderr, "bench: no row of one user with %u bits a symbol\n", bits);
    exit(1);
}

static void per_bit_line(const char *name, const double ns[4])
{
    printf("%-30s| %14.3f %12.3f      | %14.3f %12.3f      |\n", name, ns[0], ns[1], ns[2], ns[3]);
}

/* What a payload bit takes in the quickest calls of 64QAM and of 256QAM. The calls of a row stand in ascending order by now. */
static void per_bit(void)
{
    const int rows[2] = {row_of_order(6), row_of_order(8)};
    double ns[2][4], ratio[4];
    for (int i = 0; i < 2; i++) {
        const struct calls *c = &calls[rows[i]];
        const uint32_t least[4] = {c->build[0][0], c->build[1][0], c->read[0][0], c->read[1][0]};
        for (int k = 0; k < 4; k++)
            ns[i][k] = (double)least[k] / payload_bits[rows[i]];
    }
    for (int k = 0; k < 4; k++)
        ratio[k] = ns[1][k] / ns[0][k];
    printf("\n%-30s|%16s %12s      |%16s %12s      |\n", "Nanoseconds of a payload bit", "build: library", "plain", "read: library",
           "plain");
    per_bit_line(ROWS[rows[0]].name, ns[0]);
    per_bit_line(ROWS[rows[1]].name, ns[1]);
    per_bit_line("256QAM over 64QAM", ratio);
}

int main(void)
{
    static int sizes[ALL_ROWS];
    static struct least l[ALL_ROWS];
    int n = 0;
    measure_all();
    printf("\nMicroseconds of the quickest call and of the median one. x: the library's quickest over the plain mapper's.\n");
    for (int i = 0; i < ALL_ROWS; i++) {
        if (ROWS[i].blocks == 0) {
            heading(ROWS[i].name);
            n = 0;
            continue;
        }
        sizes[n] = atoi(ROWS[i].name);
        l[n++] = row(ROWS[i].name, &calls[i]);
        bool last = i + 1 == ALL_ROWS || ROWS[i + 1].blocks == 0;
        if (last && strchr(ROWS[i].name, ' ') == NULL)
            growth(sizes, l, n);
    }
    per_bit();
}
