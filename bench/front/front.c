/* The parts between a codeword and the line in plain C, in both directions, on the symbols and bits that time_front
 * makes: the baseline of bench/front/run. Prints the least nanoseconds of each part, and a sum of what it wrote.
 * front DIVISOR; soft values are divided by it, a power of two. */
#include <stdint.h>
#include <stdio.h>
#include <stdlib.h>
#include <time.h>

enum { SLOTS = 1440, BLOCK = 1476, HEADER = 90, MOST = 33192, GOLD = 262143, QPSK = 32400, PSK = 21600, BITS = 64800, MAX_SOFT = 511 };

typedef struct { int16_t i, q; } symbol;
typedef unsigned __int128 u128;

static double now(void) {
    struct timespec t;
    clock_gettime(CLOCK_MONOTONIC, &t);
    return t.tv_sec * 1e9 + t.tv_nsec;
}

/* ---- the payload of a frame */

static uint16_t quarters[MOST];

static void make_quarters(int number) {
    static uint8_t x[GOLD], y[GOLD];
    x[0] = 1;
    for (int i = 0; i < 18; i++) y[i] = 1;
    for (int i = 0; i + 18 < GOLD; i++) {
        x[i + 18] = x[i + 7] ^ x[i];
        y[i + 18] = y[i + 10] ^ y[i + 7] ^ y[i + 5] ^ y[i];
    }
    for (int i = 0; i < MOST; i++) {
        int a = (i + 131072) % GOLD;
        quarters[i] = 2 * (x[(a + number) % GOLD] ^ y[a]) + (x[(i + number) % GOLD] ^ y[i]);
    }
}

static inline int16_t negative(int16_t a) { return a == -32768 ? 32767 : -a; }

static inline symbol back(int quarter, symbol s) {
    int k = (4 - quarter) & 3, odd = k & 1;
    int16_t a = odd ? s.q : s.i, b = odd ? s.i : s.q;
    symbol o = {(k + 1) & 2 ? negative(a) : a, k & 2 ? negative(b) : b};
    return o;
}

__attribute__((noinline)) static void payload_of(const symbol *restrict frame, symbol *restrict payload, int slots, int blocks) {
    const symbol *sent = frame + HEADER;
    for (int b = 0; b <= blocks; b++) {
        int count = b < blocks ? SLOTS : 90 * slots - SLOTS * blocks;
        for (int s = 0; s < count; s++) payload[SLOTS * b + s] = back(quarters[BLOCK * b + s], sent[BLOCK * b + s]);
    }
}

/* ---- the search */

static u128 headers[5], odd, even;
static int fed;

static u128 header(int choice, int pilots) {
    static const uint32_t rows[6] = {0x55555555, 0x33333333, 0x0F0F0F0F, 0x00FF00FF, 0x0000FFFF, 0xFFFFFFFF};
    uint32_t sum = 0;
    uint64_t code = 0;
    for (int r = 0; r < 6; r++)
        if ((choice >> (5 - r)) & 1) sum ^= rows[r];
    for (int j = 0; j < 64; j++) code = code << 1 | (((sum >> (31 - j / 2)) & 1) ^ ((j & 1) & pilots));
    return ((u128)0x18D2E82 << 64) | (code ^ 0x719D83C953422DFAull);
}

static inline int ones(u128 x) { return __builtin_popcountll((uint64_t)x) + __builtin_popcountll((uint64_t)(x >> 64)); }

static inline int feed(symbol s) {
    const u128 first = ((u128)0x2AAAAAA << 64) | 0xAAAAAAAAAAAAAAAAull, second = ((u128)0x1555555 << 64) | 0x5555555555555555ull;
    odd = odd << 1 | (s.i + s.q < 0);
    even = even << 1 | (s.q - s.i < 0);
    fed = fed < HEADER ? fed + 1 : HEADER;
    if (fed < HEADER) return 0;
    u128 window = (odd & first) | (even & second);
    if (ones(window ^ headers[0]) <= 12) return 1;
    for (int k = 1; k < 5; k++)
        if (ones(window ^ headers[k]) <= 12) return 2;
    return 0;
}

__attribute__((noinline)) static unsigned feed_all(const symbol *s, int n) {
    unsigned found = 0;
    for (int k = 0; k < n; k++) found += feed(s[k]) != 0;
    return found;
}

/* ---- soft values */

/* Divided by 2^shift, toward zero, and held within MAX_SOFT. */
static inline int16_t quantized(int32_t d, int shift) {
    d = (d + (d >> 31 & ((1 << shift) - 1))) >> shift;
    return d > MAX_SOFT ? MAX_SOFT : d < -MAX_SOFT ? -MAX_SOFT : d;
}

__attribute__((noinline)) static void soft_qpsk(const symbol *restrict p, int16_t *restrict soft, int n, int shift) {
    for (int s = 0; s < n; s++) {
        soft[2 * s] = quantized(2800 * p[s].i, shift);
        soft[2 * s + 1] = quantized(2800 * p[s].q, shift);
    }
}

static inline int32_t most(int32_t a, int32_t b) { return a > b ? a : b; }

static inline int32_t nearest(int32_t a, int32_t b, int32_t x, int32_t y) { return most(most(a, b) + 100, most(x, y)); }

__attribute__((noinline)) static void soft_psk(const symbol *restrict p, int16_t *restrict first, int16_t *restrict second,
                                               int16_t *restrict third, int n, int shift) {
    for (int s = 0; s < n; s++) {
        int32_t i = p[s].i, q = p[s].q, a = 1400 * (i + q), b = 1400 * (i - q), x = 1980 * i, y = 1980 * q;
        first[s] = quantized(nearest(a, -a, x, -x) - nearest(b, -b, y, -y), shift);
        second[s] = quantized(nearest(a, b, x, y) - nearest(-a, -b, -x, -y), shift);
        third[s] = quantized(nearest(a, -b, -x, y) - nearest(-a, b, x, -y), shift);
    }
}

/* ---- codewords to symbols */

__attribute__((noinline)) static void map_qpsk(const uint8_t *restrict bits, symbol *restrict p, int n) {
    for (int s = 0; s < n; s++) {
        p[s].i = 700 - 1400 * bits[2 * s];
        p[s].q = 700 - 1400 * bits[2 * s + 1];
    }
}

__attribute__((noinline)) static void map_psk(const uint8_t *restrict first, const uint8_t *restrict second,
                                              const uint8_t *restrict third, symbol *restrict p, int n) {
    static const symbol points[8] = {{700, 700}, {990, 0}, {-990, 0}, {-700, -700}, {0, 990}, {700, -700}, {-700, 700}, {0, -990}};
    for (int s = 0; s < n; s++) p[s] = points[4 * first[s] + 2 * second[s] + third[s]];
}

/* ---- the same for all */

static symbol frame[33282], payload[QPSK];
static uint8_t bits[BITS];
static int16_t soft[BITS];

static void fill(void) {
    uint32_t z = 1;
    for (int s = 0; s < 33282; s++) {
        z = z * 1664525 + 1013904223;
        frame[s].i = (int16_t)((int)(z >> 20) - 2048);
        z = z * 1664525 + 1013904223;
        frame[s].q = (int16_t)((int)(z >> 20) - 2048);
    }
    z = 1;
    for (int k = 0; k < BITS; k++) {
        z = z * 1664525 + 1013904223;
        bits[k] = z >> 31;
    }
}

static uint32_t sum_symbols(const symbol *s, int n) {
    uint32_t sum = 0;
    for (int k = 0; k < n; k++) sum = (sum * 31 + (uint32_t)(s[k].i + 32768)) * 31 + (uint32_t)(s[k].q + 32768);
    return sum;
}

static uint32_t sum_soft(void) {
    uint32_t sum = 0;
    for (int k = 0; k < BITS; k++) sum = sum * 31 + (uint32_t)(soft[k] + 32768);
    return sum;
}

#define LEAST(name, call, sum)                       \
    do {                                             \
        double least = 1e12;                         \
        for (int round = 0; round < 300; round++) {  \
            double start = now();                    \
            call;                                    \
            double spent = now() - start;            \
            if (spent < least) least = spent;        \
        }                                            \
        printf("c_%s %.0f %u\n", name, least, (unsigned)(sum)); \
    } while (0)

int main(int count, char **words) {
    unsigned found = 0;
    if (count != 2) return 1;
    int shift = __builtin_ctz((unsigned)atoi(words[1]));
    fill();
    make_quarters(0);
    headers[0] = header(8, 1);
    for (int k = 0; k < 4; k++) headers[k + 1] = header(k / 2, k % 2);
    LEAST("feed", found += feed_all(frame, 33282), found);
    LEAST("payload_of", payload_of(frame, payload, 360, 22), sum_symbols(payload, QPSK));
    LEAST("soft_qpsk", soft_qpsk(frame, soft, QPSK, shift), sum_soft());
    LEAST("soft_psk", soft_psk(frame, soft, soft + PSK, soft + 2 * PSK, PSK, shift), sum_soft());
    LEAST("map_qpsk", map_qpsk(bits, payload, QPSK), sum_symbols(payload, QPSK));
    LEAST("map_psk", map_psk(bits, bits + PSK, bits + 2 * PSK, payload, PSK), sum_symbols(payload, PSK));
    return 0;
}
