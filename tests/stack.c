/* How deep mapper_build and mapper_read go on the stack. Each call runs on a stack of its own that was painted before, on the plans that
   ask most of it and on some of the narrowest cell; the deepest byte that lost its paint tells the depth. Fails above the limit. */
#include <stdbool.h>
#include <stdio.h>
#include <stdlib.h>
#include <string.h>
#include <ucontext.h>

#include "mapper.h"

/* No plan's payload is longer than 15,025 bytes: 15,000 user elements of 8 bits and 200 HIs (bench/bench.c counts them). */
enum { LIMIT = 4096, STACK = 1 << 20, MAX_PLAN = 2048, MAX_PAYLOAD = 15025, MAX_GRID = 201600 };

/* A byte that a call sets to the paint's own value is not seen, so each call is made with two paints. */
static const uint8_t PAINTS[2] = {0xA5, 0x5A};

static _Alignas(64) uint8_t stack[STACK];
static uint8_t plan[MAX_PLAN], payload[MAX_PAYLOAD], grid[MAX_GRID];
static size_t plan_len, payload_len, grid_len;
static int64_t answer;
static ucontext_t here, there;

static void append(const uint8_t *bytes, size_t n)
{
    memcpy(plan + plan_len, bytes, n);
    plan_len += n;
}

/* Four ports, as many PHICH groups as can be; the blocks shared out evenly. The extended PHICH duration needs three control symbols. */
static void make(uint8_t blocks, uint8_t prefix, bool extended_phich, uint8_t subframe, bool his, unsigned users, uint8_t bits)
{
    uint8_t groups = (12 * blocks + 47) / 48 << prefix, sequences = prefix ? 4 : 8;
    plan_len = 0;
    if (extended_phich)
        append((uint8_t[]){0x12, 1, 247, blocks, prefix, 4, 12, 1}, 8);
    else
        append((uint8_t[]){0x10, 1, 247, blocks, prefix, 4, 12}, 7);
    append((uint8_t[]){0x11, 3, 255, subframe, !extended_phich ? 1 : blocks == 6 ? 2 : 3}, 5);
    for (uint8_t group = 0; his && group < groups; group++)
        for (uint8_t sequence = 0; sequence < sequences; sequence++)
            append((uint8_t[]){0x20, group, sequence}, 3);
    for (unsigned i = 0; i < users; i++)
        append((uint8_t[]){0x30, 0x12 + i, 0x34 + i, bits, i * blocks / users, blocks / users}, 6);
    append((uint8_t[]){0}, 1);
    int64_t of_payload = mapper_payload_len(plan, plan_len), of_grid = mapper_grid_len(plan, plan_len);
    if (of_payload < 0 || of_payload > MAX_PAYLOAD || of_grid < 0 || of_grid > MAX_GRID) {
        fprintf(stderr, "stack: a plan is refused\n");
        exit(1);
    }
    payload_len = of_payload;
    grid_len = of_grid;
}

static void build(void)
{
    answer = mapper_build(plan, plan_len, payload, payload_len, grid, grid_len);
}

static void read_back(void)
{
    answer = mapper_read(plan, plan_len, grid, grid_len, payload, payload_len);
}

/* The bytes below the top of the painted stack that a call reaches; the few of the switch to that stack count too. */
static size_t depth(void (*call)(void), uint8_t paint)
{
    memset(stack, paint, sizeof stack);
    getcontext(&there);
    there.uc_stack.ss_sp = stack;
    there.uc_stack.ss_size = sizeof stack;
    there.uc_link = &here;
    makecontext(&there, call, 0);
    swapcontext(&here, &there);
    size_t untouched = 0;
    while (untouched < sizeof stack && stack[untouched] == paint)
        untouched++;
    return sizeof stack - untouched;
}

/* The first call, on the usual stack, lets the loader find what it has to find: that is no part of the library's need. */
static size_t deepest(const char *name, const char *what, void (*call)(void), int64_t expected)
{
    size_t most = 0;
    call();
    for (int i = 0; i < 2; i++) {
        size_t bytes = depth(call, PAINTS[i]);
        most = bytes > most ? bytes : most;
        if (expected ? answer != expected : answer < 0) {
            fprintf(stderr, "stack: %s: %s answers %lld\n", what, name, (long long)answer);
            exit(1);
        }
    }
    printf("stack: %-12s %-44s %6zu bytes\n", name, what, most);
    return most;
}

/* Build, read, and read of a grid whose very last byte is wrong. */
static size_t all_calls(const char *what)
{
    memset(payload, 0, sizeof payload);
    size_t most = deepest("build", what, build, 0);
    size_t bytes = deepest("read", what, read_back, 0);
    most = bytes > most ? bytes : most;
    grid[grid_len - 1] ^= 1;
    bytes = deepest("read refused", what, read_back, -13);
    return bytes > most ? bytes : most;
}

int main(void)
{
    static const struct {
        const char *what;
        uint8_t blocks, prefix;
        bool extended_phich;
        uint8_t subframe;
        bool his;
        unsigned users;
        uint8_t bits;
    } PLANS[] = {
        {"one user, 64QAM", 100, 0, false, 1, false, 1, 6},
        {"one user, 256QAM", 100, 0, false, 1, false, 1, 8},
        {"100 users", 100, 0, false, 1, false, 100, 6},
        {"200 HIs", 100, 0, false, 1, true, 0, 6},
        {"subframe 0, 200 HIs, 100 users", 100, 0, false, 0, true, 100, 6},
        {"extended prefix, subframe 0, HIs, 100 users", 100, 1, false, 0, true, 100, 8},
        {"6 blocks, subframe 0, HIs, 6 users", 6, 0, false, 0, true, 6, 8},
        {"extended PHICH, 200 HIs, 100 users", 100, 0, true, 0, true, 100, 6},
        {"both extended, HIs, 100 users", 100, 1, true, 0, true, 100, 8},
        {"6 blocks, extended PHICH, HIs", 6, 0, true, 0, true, 6, 8},
    };
    size_t most = 0;
    for (size_t i = 0; i < sizeof PLANS / sizeof PLANS[0]; i++) {
        make(PLANS[i].blocks, PLANS[i].prefix, PLANS[i].extended_phich, PLANS[i].subframe, PLANS[i].his, PLANS[i].users, PLANS[i].bits);
        size_t bytes = all_calls(PLANS[i].what);
        most = bytes > most ? bytes : most;
    }
    printf("stack: at most %zu of %d bytes\n", most, LIMIT);
    return most > LIMIT;
}
