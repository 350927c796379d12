/* The downlink mapper of document 01, with document 02's #102, #108 and #109, in plain C11. Section numbers are those of TS 36.211.

   How it is made fast: the sequence comes 48 bits at a time; a section becomes one byte for each symbol, and symbols become
   elements by tables; the grid is filled symbol row by symbol row, so that a row is silenced and filled while it is in the cache.
   Reading takes the symbols of a row, makes the row again from them and compares: a grid that no payload makes differs somewhere.

   Stack: build has one byte for each symbol of the subframe (16 kB), read a row for each port besides (14 kB). */
#include "plain.h"

#include <stdbool.h>
#include <string.h>

enum {
    MAX_BLOCKS = 100,
    MAX_PORTS = 4,
    MAX_GROUPS = 50,                       /* PHICH groups: ceil(12 * 100 / 48), twice in the extended prefix */
    MAX_UNITS = 25,
    MAX_HIS = 200,                         /* 25 groups of 8 sequences, or 50 of 4 */
    MAX_ROW = 36 * MAX_BLOCKS,             /* bytes of a symbol on a port */
    MAX_SYMBOLS = 12 * MAX_BLOCKS * 13,    /* no user has symbol 0 */
    PBCH_SYMBOLS = 240,
    CENTRE_HALVES = 12                     /* the centre 72 subcarriers in half blocks */
};

/* ---- Sequence (7.2) ---- */

/* Values n to n+61 of x1 and x2, the first in the top bit. Squaring the generators' polynomials gives x1(n+62) = x1(n+6)+x1(n) and
   x2(n+62) = x2(n+6)+x2(n+4)+x2(n+2)+x2(n), so 56 new values follow at once. */
struct gold {
    uint64_t x1, x2;
};

/* The registers at n = 1600: x1's are always the same, and x2's are the sum of one of these for each bit that c_init has. */
static const uint64_t X1_AT_1600 = 0x021A127A25950354;
static const uint64_t X2_AT_1600[31] = {
    0x0099110E0E0FFEB4, 0x80D59989090801EC, 0xC0F3DDCA8A8BFE40, 0xE0E0FFEB4B4A0194,
    0x70707FF5A5A500C8, 0x38383FFAD2D28064, 0x1C1C1FFD69694030, 0x0E0E0FFEB4B4A018,
    0x870707FF5A5A500C, 0x438383FFAD2D2804, 0x21C1C1FFD6969400, 0x10E0E0FFEB4B4A00,
    0x8870707FF5A5A500, 0x4438383FFAD2D280, 0x221C1C1FFD696940, 0x110E0E0FFEB4B4A0,
    0x88870707FF5A5A50, 0x44438383FFAD2D28, 0x2221C1C1FFD69694, 0x9110E0E0FFEB4B48,
    0xC88870707FF5A5A4, 0x644438383FFAD2D0, 0x32221C1C1FFD6968, 0x99110E0E0FFEB4B4,
    0x4C88870707FF5A58, 0x2644438383FFAD2C, 0x132221C1C1FFD694, 0x099110E0E0FFEB48,
    0x04C88870707FF5A4, 0x02644438383FFAD0, 0x0132221C1C1FFD68,
};

static struct gold gold_start(uint32_t c_init)
{
    struct gold g = {X1_AT_1600, 0};
    for (int i = 0; i < 31; i++)
        g.x2 ^= X2_AT_1600[i] & -(uint64_t)(c_init >> i & 1);
    return g;
}

/* The next n bits of c, 1 to 56, the first most significant. */
static inline uint64_t gold_bits(struct gold *g, unsigned n)
{
    uint64_t c = (g->x1 ^ g->x2) >> (64 - n);
    uint64_t y1 = g->x1 ^ g->x1 << 6;
    uint64_t y2 = g->x2 ^ g->x2 << 2 ^ g->x2 << 4 ^ g->x2 << 6;
    g->x1 = g->x1 << n | y1 >> (64 - n) << 2;
    g->x2 = g->x2 << n | y2 >> (64 - n) << 2;
    return c;
}

static void gold_skip(struct gold *g, unsigned n)
{
    for (; n >= 48; n -= 48)
        gold_bits(g, 48);
    if (n)
        gold_bits(g, n);
}

/* ---- Modulation (7.1) ---- */

/* An element's three bytes: the unit's, I, J. The byte of a unit is the unit, but 255 for unit 340. */
#define ELEMENT(u, i, j) (u), (uint8_t)(i), (uint8_t)(j)

#define BIT(x, n) ((x) >> (n) & 1)
#define SIGN(b) (1 - 2 * (int)(b))
#define I2(x) SIGN(BIT(x, 1))
#define J2(x) SIGN(BIT(x, 0))
#define I4(x) (SIGN(BIT(x, 3)) * (2 - SIGN(BIT(x, 1))))
#define J4(x) (SIGN(BIT(x, 2)) * (2 - SIGN(BIT(x, 0))))
#define I6(x) (SIGN(BIT(x, 5)) * (4 - SIGN(BIT(x, 3)) * (2 - SIGN(BIT(x, 1)))))
#define J6(x) (SIGN(BIT(x, 4)) * (4 - SIGN(BIT(x, 2)) * (2 - SIGN(BIT(x, 0)))))
#define I8(x) (SIGN(BIT(x, 7)) * (8 - SIGN(BIT(x, 5)) * (4 - SIGN(BIT(x, 3)) * (2 - SIGN(BIT(x, 1))))))
#define J8(x) (SIGN(BIT(x, 6)) * (8 - SIGN(BIT(x, 4)) * (4 - SIGN(BIT(x, 2)) * (2 - SIGN(BIT(x, 0))))))

#define FOUR(f, x) f(x), f((x) + 1), f((x) + 2), f((x) + 3)
#define SIXTEEN(f, x) FOUR(f, x), FOUR(f, (x) + 4), FOUR(f, (x) + 8), FOUR(f, (x) + 12)
#define SIXTY_FOUR(f, x) SIXTEEN(f, x), SIXTEEN(f, (x) + 16), SIXTEEN(f, (x) + 32), SIXTEEN(f, (x) + 48)
#define ALL_256(f) SIXTY_FOUR(f, 0), SIXTY_FOUR(f, 64), SIXTY_FOUR(f, 128), SIXTY_FOUR(f, 192)

/* An element and the next one's unit byte, which is the same: of two neighbours the first is stored in four bytes, the second in two. */
#define WITH_NEXT(u, i, j) {ELEMENT(u, i, j), (u)}

#define SINGLE2(x) WITH_NEXT(2, I2(x), J2(x))
#define SINGLE4(x) WITH_NEXT(10, I4(x), J4(x))
#define SINGLE6(x) WITH_NEXT(42, I6(x), J6(x))
#define SINGLE8(x) WITH_NEXT(170, I8(x), J8(x))
#define TWICE2(x) WITH_NEXT(4, I2(x), J2(x))
#define TWICE4(x) WITH_NEXT(20, I4(x), J4(x))
#define TWICE6(x) WITH_NEXT(84, I6(x), J6(x))
#define TWICE8(x) WITH_NEXT(255, I8(x), J8(x))
#define MINUS2(x) WITH_NEXT(4, -I2(x), J2(x))
#define MINUS4(x) WITH_NEXT(20, -I4(x), J4(x))
#define MINUS6(x) WITH_NEXT(84, -I6(x), J6(x))
#define MINUS8(x) WITH_NEXT(255, -I8(x), J8(x))
#define CONJ2(x) WITH_NEXT(4, I2(x), -J2(x))
#define CONJ4(x) WITH_NEXT(20, I4(x), -J4(x))
#define CONJ6(x) WITH_NEXT(84, I6(x), -J6(x))
#define CONJ8(x) WITH_NEXT(255, I8(x), -J8(x))

/* A symbol's bits, the first most significant, to elements: with one port; with two or four the symbol itself, minus its conjugate
   and its conjugate. And back: the bits of a level by its low five bits, with room for the other part's bits between them. */
struct modulation {
    uint8_t single[256][4], twice[256][4], minus[256][4], conj[256][4];
    uint8_t bits_of[32];
};

static const struct modulation QPSK = {
    {FOUR(SINGLE2, 0)}, {FOUR(TWICE2, 0)}, {FOUR(MINUS2, 0)}, {FOUR(CONJ2, 0)},
    {[1] = 0, [31] = 1}};
static const struct modulation QAM16 = {
    {SIXTEEN(SINGLE4, 0)}, {SIXTEEN(TWICE4, 0)}, {SIXTEEN(MINUS4, 0)}, {SIXTEEN(CONJ4, 0)},
    {[1] = 0, [3] = 1, [31] = 4, [29] = 5}};
static const struct modulation QAM64 = {
    {SIXTY_FOUR(SINGLE6, 0)}, {SIXTY_FOUR(TWICE6, 0)}, {SIXTY_FOUR(MINUS6, 0)}, {SIXTY_FOUR(CONJ6, 0)},
    {[3] = 0, [1] = 1, [5] = 4, [7] = 5, [29] = 16, [31] = 17, [27] = 20, [25] = 21}};
static const struct modulation QAM256 = {
    {ALL_256(SINGLE8)}, {ALL_256(TWICE8)}, {ALL_256(MINUS8)}, {ALL_256(CONJ8)},
    {[5] = 0, [7] = 1, [3] = 4, [1] = 5, [11] = 16, [9] = 17, [13] = 20, [15] = 21,
     [27] = 64, [25] = 65, [29] = 68, [31] = 69, [21] = 80, [23] = 81, [19] = 84, [17] = 85}};

static const struct modulation *modulation_of(unsigned q)
{
    return q == 2 ? &QPSK : q == 4 ? &QAM16 : q == 6 ? &QAM64 : &QAM256;
}

/* 48 bits of a section, in six bytes. In two parts, since compilers know the loads of two and of four bytes. */
static inline uint64_t load48(const uint8_t *b)
{
    uint32_t high = (uint32_t)b[0] << 24 | (uint32_t)b[1] << 16 | (uint32_t)b[2] << 8 | b[3];
    uint32_t low = (uint32_t)b[4] << 8 | b[5];
    return (uint64_t)high << 16 | low;
}

static inline void store48(uint8_t *b, uint64_t w)
{
    uint32_t high = (uint32_t)(w >> 16);
    b[0] = (uint8_t)(high >> 24);
    b[1] = (uint8_t)(high >> 16);
    b[2] = (uint8_t)(high >> 8);
    b[3] = (uint8_t)high;
    b[4] = (uint8_t)(w >> 8);
    b[5] = (uint8_t)w;
}

/* Bits to symbols, scrambled (6.3.1). The tail has fewer than 48 bits and ends with the section's last byte. */
static inline void scramble(const uint8_t *restrict bits, size_t n, unsigned q, struct gold g, uint8_t *restrict sym)
{
    const unsigned mask = (1u << q) - 1, word = 48 / q;
    for (; n >= word; n -= word, bits += 6, sym += word) {
        uint64_t w = load48(bits) ^ gold_bits(&g, 48);
#pragma GCC unroll 24
        for (unsigned i = 0; i < word; i++)
            sym[i] = w >> (48 - q * (i + 1)) & mask;
    }
    uint8_t last[6] = {0};
    memcpy(last, bits, (n * q + 7) / 8);
    uint64_t w = load48(last) ^ gold_bits(&g, 48);
    for (unsigned i = 0; i < n; i++)
        sym[i] = w >> (48 - q * (i + 1)) & mask;
}

/* And back. Spare bits are zero. */
static inline void descramble(const uint8_t *restrict sym, size_t n, unsigned q, struct gold g, uint8_t *restrict bits)
{
    const unsigned word = 48 / q;
    for (; n >= word; n -= word, bits += 6, sym += word) {
        uint64_t w = 0;
#pragma GCC unroll 24
        for (unsigned i = 0; i < word; i++)
            w |= (uint64_t)sym[i] << (48 - q * (i + 1));
        store48(bits, w ^ gold_bits(&g, 48));
    }
    if (n == 0)
        return;
    uint64_t w = 0;
    for (unsigned i = 0; i < n; i++)
        w = w << q | sym[i];
    uint8_t last[6];
    store48(last, (w ^ gold_bits(&g, n * q)) << (48 - n * q));
    memcpy(bits, last, (n * q + 7) / 8);
}

/* A symbol of eight bits is a byte of the section, scrambled; the same goes back. */
static void scramble_bytes(const uint8_t *restrict from, size_t n, struct gold g, uint8_t *restrict to)
{
    for (; n >= 6; n -= 6, from += 6, to += 6)
        store48(to, load48(from) ^ gold_bits(&g, 48));
    uint8_t last[6] = {0};
    memcpy(last, from, n);
    store48(last, load48(last) ^ gold_bits(&g, 48));
    memcpy(to, last, n);
}

static void to_symbols(const uint8_t *bits, size_t n, unsigned q, struct gold g, uint8_t *sym)
{
    switch (q) {
    case 2: scramble(bits, n, 2, g, sym); break;
    case 4: scramble(bits, n, 4, g, sym); break;
    case 6: scramble(bits, n, 6, g, sym); break;
    default: scramble_bytes(bits, n, g, sym);
    }
}

static void to_bits(const uint8_t *sym, size_t n, unsigned q, struct gold g, uint8_t *bits)
{
    switch (q) {
    case 2: descramble(sym, n, 2, g, bits); break;
    case 4: descramble(sym, n, 4, g, bits); break;
    case 6: descramble(sym, n, 6, g, bits); break;
    default: scramble_bytes(sym, n, g, bits);
    }
}

/* ---- The plan and refusals 1 to 7 and 18 ---- */

enum { CELL = 0x10, CELLX = 0x12, FRAME = 0x11, HI = 0x20, USER = 0x30, END = 0x00 };

struct user {
    uint16_t rnti;
    uint8_t bits, first, count;
    uint32_t elements;
    uint32_t start;                        /* of its symbols among all users' */
    uint32_t done;                         /* symbols in the rows before this one */
};

struct plan {
    unsigned identity, blocks, extended, ports, sixths;
    unsigned extended_phich;                   /* the extended PHICH duration */
    unsigned frame, subframe, cfi;
    unsigned control;                      /* symbols of the control region */
    unsigned slot, symbols, groups, sequences;
    unsigned n_his, n_users;
    const uint8_t *his;                    /* the first HI command */
    uint8_t his_used[MAX_GROUPS];          /* a bit for each sequence */
    uint64_t blocks_used[2];
    uint16_t rntis[MAX_BLOCKS];
    struct user users[MAX_BLOCKS];
};

static bool one_of(unsigned x, unsigned a, unsigned b, unsigned c, unsigned d)
{
    return x == a || x == b || x == c || x == d;
}

static bool is_width(unsigned n)
{
    return one_of(n, 6, 15, 25, 50) || n == 75 || n == 100;
}

static int take_cell(struct plan *p, const uint8_t *c)
{
    p->identity = c[1] << 8 | c[2];
    p->blocks = c[3];
    p->extended = c[4];
    p->ports = c[5];
    p->sixths = c[6];
    p->extended_phich = c[0] == CELLX ? c[7] : 0;
    if (p->identity > 503 || !is_width(p->blocks) || p->extended > 1
        || !one_of(p->ports, 1, 2, 4, 4) || !one_of(p->sixths, 1, 3, 6, 12) || p->extended_phich > 1)
        return 3;
    p->slot = p->extended ? 6 : 7;
    p->symbols = 2 * p->slot;
    p->groups = (p->sixths * p->blocks + 47) / 48 << p->extended;
    p->sequences = p->extended ? 4 : 8;
    return 0;
}

static int take_frame(struct plan *p, const uint8_t *c)
{
    p->frame = c[1] << 8 | c[2];
    p->subframe = c[3];
    p->cfi = c[4];
    p->control = p->blocks == 6 ? p->cfi + 1 : p->cfi;
    if (p->frame > 1023 || p->subframe > 9 || p->cfi < 1 || p->cfi > 3)
        return 4;
    return p->extended_phich && p->control < 3 ? 18 : 0;
}

static int take_hi(struct plan *p, const uint8_t *c)
{
    unsigned group = c[1], sequence = c[2];
    if (group >= p->groups || sequence >= p->sequences || (p->his_used[group] >> sequence & 1))
        return 5;
    p->his_used[group] |= 1u << sequence;
    if (p->n_his++ == 0)
        p->his = c;
    return 0;
}

/* The bits from `first` on, `count` of them, of 128 bits: word w. */
static uint64_t block_mask(unsigned first, unsigned count, unsigned w)
{
    unsigned low = first > 64 * w ? first - 64 * w : 0;
    unsigned end = first + count;
    unsigned high = end > 64 * w ? end - 64 * w : 0;
    if (low >= 64 || high <= low)
        return 0;
    uint64_t below_end = high >= 64 ? UINT64_MAX : (UINT64_C(1) << high) - 1;
    return below_end & UINT64_MAX << low;
}

static int take_user(struct plan *p, const uint8_t *c)
{
    unsigned rnti = c[1] << 8 | c[2], q = c[3], first = c[4], count = c[5];
    if (rnti == 0 || !one_of(q, 2, 4, 6, 8) || count == 0 || first + count > p->blocks)
        return 6;
    uint64_t low = block_mask(first, count, 0), high = block_mask(first, count, 1);
    bool used = (low & p->blocks_used[0]) || (high & p->blocks_used[1]);
    for (unsigned i = 0; i < p->n_users; i++)
        used |= p->rntis[i] == rnti;
    if (used)
        return 7;
    p->blocks_used[0] |= low;
    p->blocks_used[1] |= high;
    p->rntis[p->n_users] = rnti;
    p->users[p->n_users++] = (struct user){.rnti = rnti, .bits = q, .first = first, .count = count};
    return 0;
}

static size_t size_of(uint8_t command)
{
    switch (command) {
    case CELL: return 7;
    case CELLX: return 8;
    case FRAME: return 5;
    case HI: return 3;
    case USER: return 6;
    case END: return 1;
    default: return 0;
    }
}

/* 0, or the first refusal from left to right. Every USER that is taken has a block of its own, so the list never overflows. */
static int parse(struct plan *p, const uint8_t *w, size_t len)
{
    enum { AT_START, AFTER_CELL, AFTER_FRAME, AFTER_USER } state = AT_START;
    p->n_his = p->n_users = 0;
    p->his = NULL;
    memset(p->his_used, 0, sizeof p->his_used);
    memset(p->blocks_used, 0, sizeof p->blocks_used);
    for (size_t at = 0; at < len;) {
        const uint8_t *c = w + at;
        size_t size = size_of(c[0]);
        int refusal = 0;
        if (size == 0 || len - at < size)
            return 1;
        switch (c[0]) {
        case CELL:
        case CELLX:
            refusal = state != AT_START ? 2 : take_cell(p, c);
            state = AFTER_CELL;
            break;
        case FRAME:
            refusal = state != AFTER_CELL ? 2 : take_frame(p, c);
            state = AFTER_FRAME;
            break;
        case HI:
            refusal = state != AFTER_FRAME ? 2 : take_hi(p, c);
            break;
        case USER:
            refusal = state < AFTER_FRAME ? 2 : take_user(p, c);
            state = AFTER_USER;
            break;
        default:
            return state < AFTER_FRAME || at + 1 < len ? 2 : 0;
        }
        if (refusal)
            return refusal;
        at += size;
    }
    return 1;
}

/* ---- Owners by rows ---- */

/* How a row's half blocks of six subcarriers are filled: 6 places; 5, with a hole at k mod 6 = hole; 4, at k mod 3 = hole. */
struct shape {
    unsigned places, hole;
};

/* Of 6.10.1.2: how many ports have their reference signals in symbol l of a slot. */
static unsigned crs_ports(const struct plan *p, unsigned l)
{
    if (l == 0 || l == p->slot - 3)
        return p->ports == 1 ? 1 : 2;
    return l == 1 && p->ports == 4 ? 2 : 0;
}

static struct shape user_shape(const struct plan *p, unsigned s)
{
    unsigned l = s % p->slot, ports = crs_ports(p, l);
    if (ports == 0)
        return (struct shape){6, 0};
    if (ports == 2)
        return (struct shape){4, p->identity % 3};
    return (struct shape){5, (p->identity + (l ? 3 : 0)) % 6};
}

/* PBCH skips the reference signals of four ports, whatever P is. */
static struct shape pbch_shape(const struct plan *p, unsigned l)
{
    bool crs = l <= 1 || l == p->slot - 3;
    return crs ? (struct shape){4, p->identity % 3} : (struct shape){6, 0};
}

static bool has_sync(const struct plan *p, unsigned s)
{
    return p->subframe % 5 == 0 && (s == p->slot - 1 || s == p->slot - 2);
}

static bool has_pbch(const struct plan *p, unsigned s)
{
    return p->subframe == 0 && s >= p->slot && s < p->slot + 4;
}

static bool centre_taken(const struct plan *p, unsigned s)
{
    return has_sync(p, s) || has_pbch(p, s);
}

static unsigned min_of(unsigned a, unsigned b) { return a < b ? a : b; }
static unsigned max_of(unsigned a, unsigned b) { return a > b ? a : b; }

/* Each user's element count and the start of its symbols. Answers with the sum. */
static unsigned count_elements(struct plan *p)
{
    unsigned per_half = 0, per_centre_half = 0, sum = 0;
    for (unsigned s = p->control; s < p->symbols; s++) {
        unsigned places = user_shape(p, s).places;
        per_half += places;
        per_centre_half += centre_taken(p, s) ? places : 0;
    }
    for (unsigned i = 0; i < p->n_users; i++) {
        struct user *u = &p->users[i];
        unsigned low = 2u * u->first, high = low + 2u * u->count;
        unsigned from = max_of(low, p->blocks - 6), to = min_of(high, p->blocks + 6);
        u->elements = (high - low) * per_half - (to > from ? to - from : 0) * per_centre_half;
        u->start = sum;
        sum += u->elements;
    }
    return sum;
}

static size_t grid_len(const struct plan *p)
{
    return (size_t)36 * p->blocks * p->symbols * p->ports;
}

static size_t pbch_len(const struct plan *p)
{
    return p->subframe ? 0 : p->extended ? 54 : 60;
}

static size_t user_len(const struct user *u)
{
    return (u->bits * u->elements + 7) / 8;
}

static size_t payload_len(const struct plan *p)
{
    size_t len = pbch_len(p) + (p->n_his + 7) / 8;
    for (unsigned i = 0; i < p->n_users; i++)
        len += user_len(&p->users[i]);
    return len;
}

/* Whether a section of so many bits, which ends before `end`, has a spare bit set. */
static bool spare_set(const uint8_t *end, size_t bits)
{
    return bits % 8 && (end[-1] & 0xFF >> bits % 8);
}

static bool any_spare_set(const struct plan *p, const uint8_t *payload)
{
    const uint8_t *end = payload + pbch_len(p) + (p->n_his + 7) / 8;
    if (spare_set(end, p->n_his))
        return true;
    for (unsigned i = 0; i < p->n_users; i++) {
        end += user_len(&p->users[i]);
        if (spare_set(end, p->users[i].bits * p->users[i].elements))
            return true;
    }
    return false;
}

/* ---- Symbols at the places of a row (6.3.3.3, 6.3.4.3) ---- */

static inline void put(uint8_t *at, const uint8_t *element)
{
    memcpy(at, element, 3);
}

/* Two elements of the same unit, from the tables, at the offsets o0 and o1. */
static inline void put_two(uint8_t *at, size_t o0, size_t o1, const uint8_t *first, const uint8_t *second)
{
    if (o1 == o0 + 3) {
        memcpy(at + o0, first, 4);
        memcpy(at + o1 + 1, second + 1, 2);
    } else {
        put(at + o0, first);
        put(at + o1, second);
    }
}

/* Symbols in pairs, a pair every `step` bytes at the offsets o0 and o1: the symbols themselves on one port, minus the conjugate of
   the second and the conjugate of the first on the other. `stride` is from pair to pair among the symbols. */
static inline void put_pairs(uint8_t *restrict a, uint8_t *restrict b, const uint8_t *restrict sym, size_t n, size_t stride,
                             size_t step, size_t o0, size_t o1, const struct modulation *m)
{
    for (; n > 0; n--, a += step, b += step, sym += stride) {
        put_two(a, o0, o1, m->twice[sym[0]], m->twice[sym[1]]);
        put_two(b, o0, o1, m->minus[sym[1]], m->conj[sym[0]]);
    }
}

static inline void get_pairs(const uint8_t *restrict a, uint8_t *restrict sym, size_t n, size_t stride,
                             size_t step, size_t o0, size_t o1, const struct modulation *m)
{
    for (; n > 0; n--, a += step, sym += stride) {
        sym[0] = m->bits_of[a[o0 + 1] & 31] << 1 | m->bits_of[a[o0 + 2] & 31];
        sym[1] = m->bits_of[a[o1 + 1] & 31] << 1 | m->bits_of[a[o1 + 2] & 31];
    }
}

static inline void put_single(uint8_t *restrict a, const uint8_t *restrict sym, size_t n,
                              size_t step, size_t o0, size_t o1, const struct modulation *m)
{
    for (; n > 0; n--, a += step, sym += 2)
        put_two(a, o0, o1, m->single[sym[0]], m->single[sym[1]]);
}

/* Four ports: even pairs go on ports 0 and 2, odd ones on 1 and 3. The first pair here has the number `pair`. */
static inline void put_ports(unsigned ports, uint8_t *const row[], size_t at, const uint8_t *sym, size_t n, size_t pair,
                             size_t step, size_t o0, size_t o1, const struct modulation *m)
{
    if (ports == 1) {
        put_single(row[0] + at, sym, n, step, o0, o1, m);
    } else if (ports == 2) {
        put_pairs(row[0] + at, row[1] + at, sym, n, 2, step, o0, o1, m);
    } else {
        size_t odd = pair % 2;
        put_pairs(row[odd] + at, row[odd + 2] + at, sym, (n + 1) / 2, 4, 2 * step, o0, o1, m);
        at += step;
        put_pairs(row[1 - odd] + at, row[3 - odd] + at, sym + 2, n / 2, 4, 2 * step, o0, o1, m);
    }
}

static inline void get_ports(unsigned ports, const uint8_t *const row[], size_t at, uint8_t *sym, size_t n, size_t pair,
                             size_t step, size_t o0, size_t o1, const struct modulation *m)
{
    if (ports < 4) {
        get_pairs(row[0] + at, sym, n, 2, step, o0, o1, m);
    } else {
        size_t odd = pair % 2;
        get_pairs(row[odd] + at, sym, (n + 1) / 2, 4, 2 * step, o0, o1, m);
        get_pairs(row[1 - odd] + at + step, sym + 2, n / 2, 4, 2 * step, o0, o1, m);
    }
}

/* One port's rows with reference signals: five places of six. */
static void put_fives(uint8_t *row, const uint8_t *sym, size_t halves, unsigned hole, const struct modulation *m)
{
    for (; halves > 0; halves--, row += 18)
        for (unsigned k = 0; k < 6; k++)
            if (k != hole)
                put(row + 3 * k, m->single[*sym++]);
}

static void get_fives(const uint8_t *row, uint8_t *sym, size_t halves, unsigned hole, const struct modulation *m)
{
    for (; halves > 0; halves--, row += 18)
        for (unsigned k = 0; k < 6; k++)
            if (k != hole)
                *sym++ = m->bits_of[row[3 * k + 1] & 31] << 1 | m->bits_of[row[3 * k + 2] & 31];
}

/* Symbols from number `done` of a channel on, at the places of so many half blocks from `half` on. The offsets are written out for
   each hole, so that the compiler knows them. Answers with the number of places. */
static size_t put_halves(const struct plan *p, uint8_t *const row[], unsigned half, unsigned halves, struct shape shape,
                         const uint8_t *sym, size_t done, const struct modulation *m)
{
    size_t at = 18 * (size_t)half, n = halves * shape.places;
    if (shape.places == 6)
        put_ports(p->ports, row, at, sym, n / 2, done / 2, 6, 0, 3, m);
    else if (shape.places == 5)
        put_fives(row[0] + at, sym, halves, shape.hole, m);
    else if (shape.hole == 0)
        put_ports(p->ports, row, at, sym, n / 2, done / 2, 9, 3, 6, m);
    else if (shape.hole == 1)
        put_ports(p->ports, row, at, sym, n / 2, done / 2, 9, 0, 6, m);
    else
        put_ports(p->ports, row, at, sym, n / 2, done / 2, 9, 0, 3, m);
    return n;
}

static size_t get_halves(const struct plan *p, const uint8_t *const row[], unsigned half, unsigned halves, struct shape shape,
                         uint8_t *sym, size_t done, const struct modulation *m)
{
    size_t at = 18 * (size_t)half, n = halves * shape.places;
    if (shape.places == 6)
        get_ports(p->ports, row, at, sym, n / 2, done / 2, 6, 0, 3, m);
    else if (shape.places == 5)
        get_fives(row[0] + at, sym, halves, shape.hole, m);
    else if (shape.hole == 0)
        get_ports(p->ports, row, at, sym, n / 2, done / 2, 9, 3, 6, m);
    else if (shape.hole == 1)
        get_ports(p->ports, row, at, sym, n / 2, done / 2, 9, 0, 6, m);
    else
        get_ports(p->ports, row, at, sym, n / 2, done / 2, 9, 0, 3, m);
    return n;
}

/* ---- Reference and synchronisation signals (6.10.1, 6.11) ---- */

static void put_crs(const struct plan *p, uint8_t *const row[], unsigned s)
{
    unsigned l = s % p->slot, ports = crs_ports(p, l), n = 2 * p->subframe + s / p->slot;
    if (ports == 0)
        return;
    unsigned first = l == 1 ? 2 : 0;       /* the first of the ports here; the second is three subcarriers apart */
    unsigned v = l == 1 ? 3 * (n % 2) : l ? 3 : 0;
    uint8_t *a = row[first] + 3 * ((v + p->identity) % 6);
    uint8_t *b = row[first + ports - 1] + 3 * ((v + 3 + p->identity) % 6);
    struct gold g = gold_start(1024 * (7 * (n + 1) + l + 1) * (2 * p->identity + 1) + 2 * p->identity + !p->extended);
    gold_skip(&g, 2 * (110 - p->blocks));
    for (unsigned left = 2 * p->blocks; left > 0;) {
        uint64_t bits = gold_bits(&g, 48) << 16;
        for (unsigned i = min_of(24, left); i > 0; i--, left--, bits <<= 2, a += 18, b += 18) {
            const uint8_t *e = QPSK.single[bits >> 62];
            put(a, e);
            if (ports == 2)
                put(b, e);
        }
    }
}

static void put_pss(const struct plan *p, uint8_t *row)
{
    static const unsigned ROOT[3] = {25, 29, 34};
    unsigned w = ROOT[p->identity % 3];
    uint8_t *at = row + 3 * (6 * p->blocks - 31);
    for (unsigned i = 0; i < 62; i++, at += 3) {
        unsigned t = i <= 30 ? i * (i + 1) / 2 : (i + 1) * (i + 2) / 2;
        put(at, (uint8_t[]){ELEMENT(63, w * t % 63, 0)});
    }
}

/* The sequences of 6.11.2.1, value n in bit n, twice, so that a shift needs no remainder. */
#define TWICE(x) ((uint64_t)(x) | (uint64_t)(x) << 31)
static const uint64_t SSS_S = TWICE(0x5763E690), SSS_C = TWICE(0x4B3E3750), SSS_Z = TWICE(0x6A45F670);

static void put_sss(const struct plan *p, uint8_t *row)
{
    unsigned d = p->identity / 3, id = p->identity % 3;
    unsigned q1 = d / 30, q = (d + q1 * (q1 + 1) / 2) / 30, e = d + q * (q + 1) / 2;
    unsigned m0 = e % 31, m1 = (m0 + e / 31 + 1) % 31;
    unsigned even = p->subframe ? m1 : m0, odd = p->subframe ? m0 : m1;
    uint64_t signs_even = SSS_S >> even ^ SSS_C >> id;
    uint64_t signs_odd = SSS_S >> odd ^ SSS_C >> (id + 3) ^ SSS_Z >> even % 8;
    uint8_t *at = row + 3 * (6 * p->blocks - 31);
    for (unsigned n = 0; n < 31; n++, at += 6) {
        put(at, (uint8_t[]){ELEMENT(1, SIGN(signs_even >> n & 1), 0)});
        put(at + 3, (uint8_t[]){ELEMENT(1, SIGN(signs_odd >> n & 1), 0)});
    }
}

/* ---- Control symbols (6.7, 6.9) ---- */

/* PCFICH's four groups in ascending order, and in the order of its quads. */
static void pcfich_groups(const struct plan *p, unsigned quad[4], unsigned sorted[4])
{
    for (unsigned i = 0; i < 4; i++) {
        quad[i] = (p->identity + i * p->blocks / 2) % (2 * p->blocks);
        unsigned j = i;
        for (; j > 0 && sorted[j - 1] > quad[i]; j--)
            sorted[j] = sorted[j - 1];
        sorted[j] = quad[i];
    }
}

static struct gold control_sequence(const struct plan *p)
{
    return gold_start((p->subframe + 1) * (2 * p->identity + 1) * 512 + p->identity);
}

static void put_pcfich(const struct plan *p, uint8_t *const row[], const unsigned group[4])
{
    static const uint32_t CODEWORD[3] = {0x6DB6DB6D, 0xB6DB6DB6, 0xDB6DB6DB};
    struct gold g = control_sequence(p);
    uint32_t bits = CODEWORD[p->cfi - 1] ^ (uint32_t)gold_bits(&g, 32);
    uint8_t sym[16];
    for (unsigned i = 0; i < 16; i++)
        sym[i] = bits >> (30 - 2 * i) & 3;
    struct shape shape = {4, p->identity % 3};
    for (unsigned i = 0; i < 4; i++)
        put_halves(p, row, group[i], 1, shape, sym + 4 * i, 4 * i, &QPSK);
}

/* The i-th quads of all PHICH units: their symbol, the subcarriers of a group there, how many groups PCFICH leaves, and the number of
   unit 0's among these, in ascending order; the other units' follow. */
struct quads {
    unsigned symbol, size, left, start;
};

static struct quads quads_of(const struct plan *p, unsigned i)
{
    unsigned s = p->extended_phich ? i : 0;
    unsigned size = s == 0 || (s == 1 && p->ports == 4) ? 6 : 4;
    unsigned left = 12 * p->blocks / size - (s ? 0 : 4);
    return (struct quads){s, size, left, p->identity * left / (2 * p->blocks - 4) + i * left / 3};
}

static unsigned phich_group(const struct quads *q, const unsigned pcfich[4], unsigned unit)
{
    unsigned group = (q->start + unit) % q->left;
    for (unsigned j = 0; q->symbol == 0 && j < 4; j++)
        group += group >= pcfich[j];
    return group;
}

/* The spreading sequences by signs, the first most significant; the second half of them is multiplied by j. */
static const uint8_t WALSH4[4] = {0x0, 0x5, 0x3, 0x6};
static const uint8_t WALSH2[2] = {0x0, 0x1};

/* An HI's spreading: its unit, the places of a quad that it fills, their signs, whether it is multiplied by j. */
struct spread {
    unsigned unit, first, n, signs;
    bool by_j;
};

static struct spread spread_of(const struct plan *p, const uint8_t *hi)
{
    unsigned group = hi[1], sequence = hi[2];
    if (p->extended)
        return (struct spread){group / 2, 2 * (group % 2), 2, WALSH2[sequence % 2], sequence >= 2};
    return (struct spread){group, 0, 4, WALSH4[sequence % 4], sequence >= 4};
}

/* Which scrambling bit belongs to place i of quad `quad`, of twelve bits (six in the extended prefix, for both halves). */
static unsigned scrambling(const struct plan *p, unsigned c, unsigned quad, unsigned i)
{
    unsigned number = p->extended ? 2 * quad + i % 2 : 4 * quad + i;
    return c >> (11 - number) & 1;
}

struct sum {
    int8_t i, j;
};

/* Each unit's sums over its HIs, before scrambling: the three quads repeat them. A BPSK symbol is (1, 1) or (-1, -1). */
static void unit_sums(const struct plan *p, const uint8_t *bits, struct sum sums[MAX_UNITS][4])
{
    memset(sums, 0, sizeof(struct sum) * MAX_UNITS * 4);
    for (unsigned h = 0; h < p->n_his; h++) {
        struct spread w = spread_of(p, p->his + 3 * h);
        unsigned bit = bits[h / 8] >> (7 - h % 8) & 1;
        for (unsigned n = 0; n < w.n; n++) {
            int z = SIGN(bit ^ (w.signs >> (w.n - 1 - n) & 1));
            struct sum *sum = &sums[w.unit][w.first + n];
            sum->i += w.by_j ? -z : z;
            sum->j += z;
        }
    }
}

/* A quad of sums at the places of a group of `size` subcarriers, on the ports whose turn it is. A group of six skips two. */
static void put_quad(const struct plan *p, uint8_t *const row[], unsigned size, unsigned group, unsigned odd, const struct sum d[4])
{
    static const unsigned OFFSETS[3][2] = {{3, 6}, {0, 6}, {0, 3}};
    const unsigned *o = OFFSETS[size == 6 ? p->identity % 3 : 2];
    unsigned a = p->ports == 4 ? odd : 0, b = p->ports == 4 ? odd + 2 : 1;
    for (unsigned pair = 0; pair < 2; pair++, d += 2) {
        size_t at = 3 * (size_t)size * group + 3 * size / 2 * pair;
        unsigned unit = p->ports == 1 ? 2 : 4;
        put(row[a] + at + o[0], (uint8_t[]){ELEMENT(unit, d[0].i, d[0].j)});
        put(row[a] + at + o[1], (uint8_t[]){ELEMENT(unit, d[1].i, d[1].j)});
        if (p->ports == 1)
            continue;
        put(row[b] + at + o[0], (uint8_t[]){ELEMENT(unit, -d[1].i, d[1].j)});
        put(row[b] + at + o[1], (uint8_t[]){ELEMENT(unit, d[0].i, -d[0].j)});
    }
}

/* The quads that lie in symbol s. */
static void put_phich(const struct plan *p, uint8_t *const row[], unsigned s, const unsigned pcfich[4], struct sum sums[MAX_UNITS][4])
{
    struct gold g = control_sequence(p);
    unsigned c = (unsigned)gold_bits(&g, 12);
    for (unsigned quad = 0; quad < 3; quad++) {
        struct quads q = quads_of(p, quad);
        if (q.symbol != s)
            continue;
        for (unsigned unit = 0; unit < p->groups >> p->extended; unit++) {
            struct sum d[4];
            for (unsigned i = 0; i < 4; i++) {
                int sign = SIGN(scrambling(p, c, quad, i));
                d[i] = (struct sum){sign * sums[unit][i].i, sign * sums[unit][i].j};
            }
            put_quad(p, row, q.size, phich_group(&q, pcfich, unit), (quad + unit) % 2, d);
        }
    }
}

/* The HIs' bits, each from its unit's first quad, which lies in symbol 0: the spreading sequences are orthogonal there, so the product
   with one of them has the sign of its own bit. */
static void get_phich(const struct plan *p, const uint8_t *const row[], uint8_t *bits)
{
    static const unsigned PLACES[3][4] = {{1, 2, 4, 5}, {0, 2, 3, 5}, {0, 1, 3, 4}};
    unsigned quads[4], pcfich[4];
    pcfich_groups(p, quads, pcfich);
    struct quads first = quads_of(p, 0);
    struct gold g = control_sequence(p);
    unsigned c = (unsigned)gold_bits(&g, 12);
    memset(bits, 0, MAX_HIS / 8);
    for (unsigned h = 0; h < p->n_his; h++) {
        struct spread w = spread_of(p, p->his + 3 * h);
        const uint8_t *group = row[p->ports == 4 ? w.unit % 2 : 0] + 18 * (size_t)phich_group(&first, pcfich, w.unit);
        int product = 0;
        for (unsigned n = 0; n < w.n; n++) {
            const uint8_t *e = group + 3 * PLACES[p->identity % 3][w.first + n];
            int sign = SIGN(scrambling(p, c, 0, w.first + n) ^ (w.signs >> (w.n - 1 - n) & 1));
            product += sign * ((w.by_j ? -(int8_t)e[1] : (int8_t)e[1]) + (int8_t)e[2]);
        }
        bits[h / 8] |= (product < 0) << (7 - h % 8);
    }
}

/* ---- Rows ---- */

/* What the rows are made from. */
struct content {
    const uint8_t *his;                    /* the HIs' section */
    struct sum sums[MAX_UNITS][4];         /* the PHICH units' sums */
    size_t pbch_done;                      /* PBCH symbols in the rows before this one */
    uint8_t pbch[PBCH_SYMBOLS];
    uint8_t users[MAX_SYMBOLS];            /* a symbol's bits in each byte */
};

static void put_users(struct plan *p, uint8_t *const row[], unsigned s, const struct content *c)
{
    struct shape shape = user_shape(p, s);
    bool taken = centre_taken(p, s);
    for (unsigned i = 0; i < p->n_users; i++) {
        struct user *u = &p->users[i];
        const struct modulation *m = modulation_of(u->bits);
        const uint8_t *sym = c->users + u->start;
        unsigned low = 2u * u->first, high = low + 2u * u->count;
        unsigned end = taken ? min_of(high, p->blocks - CENTRE_HALVES / 2) : high;
        unsigned again = taken ? max_of(low, p->blocks + CENTRE_HALVES / 2) : high;
        if (low < end)
            u->done += put_halves(p, row, low, end - low, shape, sym + u->done, u->done, m);
        if (again < high)
            u->done += put_halves(p, row, again, high - again, shape, sym + u->done, u->done, m);
    }
}

/* As above, the other way; the symbols count as done only when they have been put. */
static void get_users(const struct plan *p, const uint8_t *const row[], unsigned s, struct content *c)
{
    struct shape shape = user_shape(p, s);
    bool taken = centre_taken(p, s);
    for (unsigned i = 0; i < p->n_users; i++) {
        const struct user *u = &p->users[i];
        const struct modulation *m = modulation_of(u->bits);
        uint8_t *sym = c->users + u->start;
        size_t done = u->done;
        unsigned low = 2u * u->first, high = low + 2u * u->count;
        unsigned end = taken ? min_of(high, p->blocks - CENTRE_HALVES / 2) : high;
        unsigned again = taken ? max_of(low, p->blocks + CENTRE_HALVES / 2) : high;
        if (low < end)
            done += get_halves(p, row, low, end - low, shape, sym + done, done, m);
        if (again < high)
            get_halves(p, row, again, high - again, shape, sym + done, done, m);
    }
}

static void put_control(const struct plan *p, uint8_t *const row[], unsigned s, struct content *c)
{
    unsigned quads[4], sorted[4];
    pcfich_groups(p, quads, sorted);
    if (s == 0) {
        put_pcfich(p, row, quads);
        unit_sums(p, c->his, c->sums);
    }
    put_phich(p, row, s, sorted, c->sums);
}

static void put_row(struct plan *p, uint8_t *const row[], unsigned s, struct content *c)
{
    for (unsigned port = 0; port < p->ports; port++)
        memset(row[port], 0, 36 * p->blocks);
    put_crs(p, row, s);
    if (s == 0 || (p->extended_phich && s < 3))
        put_control(p, row, s, c);
    if (has_sync(p, s))
        (s == p->slot - 1 ? put_pss : put_sss)(p, row[0]);
    if (has_pbch(p, s))
        c->pbch_done += put_halves(p, row, p->blocks - CENTRE_HALVES / 2, CENTRE_HALVES, pbch_shape(p, s - p->slot),
                                   c->pbch + c->pbch_done, c->pbch_done, &QPSK);
    if (s >= p->control)
        put_users(p, row, s, c);
}

static void get_row(const struct plan *p, const uint8_t *const row[], unsigned s, struct content *c)
{
    if (has_pbch(p, s))
        get_halves(p, row, p->blocks - CENTRE_HALVES / 2, CENTRE_HALVES, pbch_shape(p, s - p->slot),
                   c->pbch + c->pbch_done, c->pbch_done, &QPSK);
    if (s >= p->control)
        get_users(p, row, s, c);
}

/* ---- The calls ---- */

static struct gold pbch_sequence(const struct plan *p)
{
    struct gold g = gold_start(p->identity);
    gold_skip(&g, p->frame % 4 * (p->extended ? 432 : 480));
    return g;
}

static struct gold user_sequence(const struct plan *p, const struct user *u)
{
    return gold_start(u->rnti * UINT32_C(16384) + 512 * p->subframe + p->identity);
}

static void symbols_of_payload(const struct plan *p, const uint8_t *payload, struct content *c)
{
    if (p->subframe == 0)
        to_symbols(payload, 4 * pbch_len(p), 2, pbch_sequence(p), c->pbch);
    c->pbch_done = 0;
    c->his = payload + pbch_len(p);
    const uint8_t *section = c->his + (p->n_his + 7) / 8;
    for (unsigned i = 0; i < p->n_users; i++) {
        const struct user *u = &p->users[i];
        to_symbols(section, u->elements, u->bits, user_sequence(p, u), c->users + u->start);
        section += user_len(u);
    }
}

static void payload_of_symbols(const struct plan *p, const struct content *c, uint8_t *payload)
{
    if (p->subframe == 0)
        to_bits(c->pbch, 4 * pbch_len(p), 2, pbch_sequence(p), payload);
    payload += pbch_len(p);
    memcpy(payload, c->his, (p->n_his + 7) / 8);
    payload += (p->n_his + 7) / 8;
    for (unsigned i = 0; i < p->n_users; i++) {
        const struct user *u = &p->users[i];
        to_bits(c->users + u->start, u->elements, u->bits, user_sequence(p, u), payload);
        payload += user_len(u);
    }
}

/* The plan, then refusals 10 and 11. Answers with the count of user elements. */
static int64_t accept(struct plan *p, const uint8_t *plan, size_t plan_len, size_t grid, size_t payload)
{
    int refusal = parse(p, plan, plan_len);
    if (refusal)
        return -refusal;
    int64_t elements = count_elements(p);
    if (grid != grid_len(p))
        return -10;
    return payload == payload_len(p) ? elements : -11;
}

int64_t plain_check(const uint8_t *plan, size_t plan_len)
{
    struct plan p;
    return -parse(&p, plan, plan_len);
}

int64_t plain_grid_len(const uint8_t *plan, size_t plan_len)
{
    struct plan p;
    int refusal = parse(&p, plan, plan_len);
    return refusal ? -refusal : (int64_t)grid_len(&p);
}

int64_t plain_payload_len(const uint8_t *plan, size_t plan_len)
{
    struct plan p;
    int refusal = parse(&p, plan, plan_len);
    if (refusal)
        return -refusal;
    count_elements(&p);
    return (int64_t)payload_len(&p);
}

int64_t plain_build(const uint8_t *plan, size_t plan_len, const uint8_t *payload, size_t payload_len,
                    uint8_t *grid, size_t grid_len)
{
    struct plan p;
    struct content c;
    int64_t elements = accept(&p, plan, plan_len, grid_len, payload_len);
    if (elements < 0)
        return elements;
    if (any_spare_set(&p, payload))
        return -12;
    symbols_of_payload(&p, payload, &c);
    size_t row_len = 36 * p.blocks, port_len = row_len * p.symbols;
    for (unsigned s = 0; s < p.symbols; s++) {
        uint8_t *row[MAX_PORTS];
        for (unsigned port = 0; port < p.ports; port++)
            row[port] = grid + port * port_len + s * row_len;
        put_row(&p, row, s, &c);
    }
    return elements;
}

int64_t plain_read(const uint8_t *plan, size_t plan_len, const uint8_t *grid, size_t grid_len,
                   uint8_t *payload, size_t payload_len)
{
    struct plan p;
    struct content c;
    uint8_t due[MAX_PORTS][MAX_ROW], his[MAX_HIS / 8];
    int64_t elements = accept(&p, plan, plan_len, grid_len, payload_len);
    if (elements < 0)
        return elements;
    uint8_t *const made[MAX_PORTS] = {due[0], due[1], due[2], due[3]};
    size_t row_len = 36 * p.blocks, port_len = row_len * p.symbols;
    c.pbch_done = 0;
    c.his = his;
    for (unsigned s = 0; s < p.symbols; s++) {
        const uint8_t *row[MAX_PORTS];
        for (unsigned port = 0; port < p.ports; port++)
            row[port] = grid + port * port_len + s * row_len;
        if (s == 0)
            get_phich(&p, row, his);
        get_row(&p, row, s, &c);
        put_row(&p, made, s, &c);
        for (unsigned port = 0; port < p.ports; port++)
            if (memcmp(row[port], made[port], row_len))
                return -13;
    }
    payload_of_symbols(&p, &c, payload);
    return elements;
}
