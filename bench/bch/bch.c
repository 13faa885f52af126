/* A plain BCH encoder and decoder of a normal frame of QPSK 1/2 (Kbch 32208, t 12), one truth value a byte: a division
   register of three words, eight bits a step; syndromes from the rest of the division; Berlekamp and Massey by tables of
   logarithms; and the search over all places, which moves each term of the locator on from place to place. The search is
   there twice: by two tables of 256 entries for each power of alpha, a place at a time, and by shifts, sixteen runs of
   places at a time. The search by shifts is left out if the locator cannot have as many roots in the field as its degree: then
   x^65536 is not x modulo the locator. It prints the least microseconds of many frames. */
#include <stdint.h>
#include <stdio.h>
#include <stdlib.h>
#include <string.h>
#include <time.h>

enum { ORDER = 65535 };
static uint16_t power[2 * ORDER], logarithm[ORDER + 1];
static uint64_t table[256][3];
static uint16_t low[13][256], high[13][256];

static unsigned times(unsigned a, unsigned b) {
    return a && b ? power[logarithm[a] + logarithm[b]] : 0;
}

static void make_field(void) {
    unsigned x = 1;
    for (unsigned i = 0; i < ORDER; i++) {
        power[i] = power[i + ORDER] = (uint16_t)x;
        logarithm[x] = (uint16_t)i;
        x = x << 1 ^ (x >> 15) * 0x1002d;
    }
}

/* the products of each byte and each power of alpha */
static void make_products(void) {
    for (unsigned j = 1; j <= 12; j++)
        for (unsigned v = 0; v < 256; v++) low[j][v] = times(v, power[j]), high[j][v] = times(v << 8, power[j]);
}

/* the generator after its first bit, the highest bit first in three words */
static void make_table(unsigned t) {
    unsigned d = 16 * t;
    unsigned char g[193] = {1}, next[193];
    unsigned size = 0;
    for (unsigned i = 0; i < t; i++) {
        unsigned f[17] = {1}, b = power[2 * i + 1];
        for (unsigned k = 0; k < 16; k++) {
            for (unsigned j = 16; j > 0; j--) f[j] = f[j] ^ times(b, f[j - 1]);
            b = times(b, b);
        }
        memset(next, 0, sizeof next);
        for (unsigned a = 0; a <= size; a++)
            for (unsigned k = 0; k <= 16; k++) next[a + k] ^= g[a] & f[k];
        memcpy(g, next, sizeof g);
        size += 16;
    }
    uint64_t tail[3] = {0, 0, 0};
    for (unsigned i = 0; i < d; i++) tail[i / 64] |= (uint64_t)g[i + 1] << (63 - i % 64);
    for (unsigned v = 0; v < 256; v++) {
        uint64_t r[3] = {(uint64_t)v << 56, 0, 0};
        for (unsigned k = 0; k < 8; k++) {
            uint64_t out = -(r[0] >> 63);
            r[0] = (r[0] << 1 | r[1] >> 63) ^ (out & tail[0]);
            r[1] = (r[1] << 1 | r[2] >> 63) ^ (out & tail[1]);
            r[2] = r[2] << 1 ^ (out & tail[2]);
        }
        memcpy(table[v], r, sizeof r);
    }
}

static void divide(const unsigned char *message, unsigned k, uint64_t r[3]) {
    uint64_t a = 0, b = 0, c = 0;
    for (unsigned i = 0; i + 8 <= k; i += 8) {
        const unsigned char *m = message + i;
        unsigned byte = m[0] << 7 | m[1] << 6 | m[2] << 5 | m[3] << 4 | m[4] << 3 | m[5] << 2 | m[6] << 1 | m[7];
        const uint64_t *e = table[(a >> 56) ^ byte];
        a = (a << 8 | b >> 56) ^ e[0];
        b = (b << 8 | c >> 56) ^ e[1];
        c = c << 8 ^ e[2];
    }
    r[0] = a, r[1] = b, r[2] = c;
}

static void encode(const unsigned char *message, unsigned k, unsigned d, unsigned char *word) {
    uint64_t r[3];
    divide(message, k, r);
    memcpy(word, message, k);
    for (unsigned i = 0; i < d; i++) word[k + i] = r[i / 64] >> (63 - i % 64) & 1;
}

/* finds up to t + 1 places, by tables */
static unsigned search_by_tables(const unsigned *f, unsigned degree, unsigned n, unsigned t, unsigned *places) {
    unsigned count = 0;
    uint16_t terms[13] = {0};
    for (unsigned j = 0; j <= degree; j++) terms[j] = f[j];
    for (unsigned i = n; i-- > 0;) {
        unsigned sum = terms[0];
        for (unsigned j = 1; j <= 12; j++) {
            sum ^= terms[j];
            terms[j] = low[j][terms[j] & 255] ^ high[j][terms[j] >> 8];
        }
        if (!sum && count <= t) places[count++] = i;
    }
    return count;
}

enum { LANES = 16 };

/* x^by times a, by eleven at most */
static inline uint16_t shift(uint16_t a, unsigned by) {
    uint16_t carried = (uint16_t)(a >> (15 - by)) >> 1;
    return (uint16_t)(a << by) ^ carried ^ (uint16_t)(carried << 2) ^ (uint16_t)(carried << 3) ^ (uint16_t)(carried << 5);
}

/* the same by shifts, sixteen runs of places at a time */
static unsigned search_by_lanes(const unsigned *f, unsigned degree, unsigned n, unsigned t, unsigned *places) {
    unsigned count = 0, stride = n / LANES + 1;
    uint16_t terms[13][LANES] = {{0}};
    for (unsigned j = 0; j <= degree; j++)
        for (unsigned l = 0; l < LANES; l++) terms[j][l] = times(f[j], power[j * l * stride % ORDER]);
    for (unsigned step = 0; step < stride; step++) {
        uint16_t sums[LANES] = {0};
        for (unsigned j = 0; j <= degree; j++) {
            uint16_t *row = terms[j];
            if (j <= 11)
                for (unsigned l = 0; l < LANES; l++) sums[l] ^= row[l], row[l] = shift(row[l], j);
            else
                for (unsigned l = 0; l < LANES; l++) sums[l] ^= row[l], row[l] = shift(shift(row[l], 8), j - 8);
        }
        unsigned found = 0;
        for (unsigned l = 0; l < LANES; l++) found |= sums[l] == 0;
        if (found)
            for (unsigned l = 0; l < LANES; l++)
                if (!sums[l] && stride * l + step < n && count <= t) places[count++] = n - 1 - (stride * l + step);
    }
    return count;
}

/* the product by shifts */
static inline uint16_t product(uint16_t a, uint16_t b) {
    uint16_t sum = 0;
    for (unsigned i = 0; i < 16; i++, a >>= 1, b = shift(b, 1)) sum ^= (uint16_t)((a & 1) * b);
    return sum;
}

/* x times a remainder modulo x^d + low */
static void times_x(uint16_t *restrict remainder, const uint16_t *restrict low, unsigned d) {
    uint16_t top = remainder[d - 1];
    memmove(remainder + 1, remainder, (d - 1) * sizeof *remainder);
    remainder[0] = 0;
    if (top)
        for (unsigned i = 0; i < d; i++) remainder[i] ^= product(low[i], top);
}

/* whether x^65536 is x modulo x^d + low */
static int may_split(const unsigned *f, unsigned d) {
    uint16_t low[13], remainder[13] = {0, 1}, square[13];
    if (d < 2) return 1;
    for (unsigned i = 0; i < d; i++) low[i] = (uint16_t)f[i];
    for (unsigned k = 0; k < 16; k++) {
        memset(square, 0, sizeof square);
        for (unsigned i = d; i-- > 0;) {
            times_x(square, low, d);
            times_x(square, low, d);
            square[0] ^= product(remainder[i], remainder[i]);
        }
        memcpy(remainder, square, sizeof remainder);
    }
    remainder[1] ^= 1;
    for (unsigned i = 0; i < d; i++)
        if (remainder[i]) return 0;
    return 1;
}

typedef unsigned Search(const unsigned *f, unsigned degree, unsigned n, unsigned t, unsigned *places);

static int decode(unsigned char *word, unsigned k, unsigned d, unsigned t, Search *search) {
    uint64_t r[3], p[3] = {0, 0, 0};
    divide(word, k, r);
    for (unsigned i = 0; i < d; i++) p[i / 64] |= (uint64_t)word[k + i] << (63 - i % 64);
    for (unsigned i = 0; i < 3; i++) r[i] ^= p[i];
    if (!(r[0] | r[1] | r[2])) return 0;
    unsigned s[24], f[25] = {1}, spare[25] = {0}, next[25], degree = 0, size = 0, delta = 1;
    memset(s, 0, sizeof s);
    for (unsigned i = 0; i < d; i++)
        if (r[i / 64] >> (63 - i % 64) & 1)
            for (unsigned j = 0, at = d - 1 - i, e = at; j < 2 * t; j++, e = (e + at) % ORDER) s[j] ^= power[e];
    for (unsigned n = 0; n < 2 * t; n++) {
        unsigned wrong = 0;
        for (unsigned j = 0; j <= degree; j++) wrong ^= times(f[j], s[n - degree + j]);
        if (!wrong) continue;
        unsigned a = times(wrong, power[ORDER - logarithm[delta]]);
        memset(next, 0, sizeof next);
        if (2 * degree <= n) {
            unsigned by = n + 1 - 2 * degree, kept = degree + 1;
            for (unsigned j = 0; j < kept; j++) next[j + by] = f[j];
            for (unsigned j = 0; j < size; j++) next[j] ^= times(a, spare[j]);
            memcpy(spare, f, sizeof spare);
            size = kept, degree = n + 1 - degree, delta = wrong;
        } else {
            unsigned by = 2 * degree - n - 1;
            memcpy(next, f, sizeof next);
            for (unsigned j = 0; j < size; j++) next[j + by] ^= times(a, spare[j]);
        }
        memcpy(f, next, sizeof f);
    }
    if (degree > t || (search == search_by_lanes && !may_split(f, degree))) return -1;
    unsigned places[13];
    unsigned count = search(f, degree, k + d, t, places);
    if (count > t) return -1;
    for (unsigned i = 0; i < count; i++) word[places[i]] ^= 1;
    divide(word, k, r);
    for (unsigned i = 0; i < d; i++)
        if ((r[i / 64] >> (63 - i % 64) & 1) != word[k + i]) {
            for (unsigned j = 0; j < count; j++) word[places[j]] ^= 1;
            return -1;
        }
    return (int)count;
}

static double now(void) {
    struct timespec t;
    clock_gettime(CLOCK_MONOTONIC, &t);
    return t.tv_sec * 1e6 + t.tv_nsec * 1e-3;
}

int main(void) {
    unsigned k = 32208, t = 12, d = 16 * t, n = k + d, good = 0;
    unsigned char *message = malloc(k), *word = malloc(n), *sent = malloc(n);
    double encoding = 1e9, testing = 1e9, decoding[2] = {1e9, 1e9}, refusing[2] = {1e9, 1e9};
    Search *const searches[2] = {search_by_tables, search_by_lanes};
    make_field();
    make_products();
    make_table(t);
    for (unsigned i = 0; i < k; i++) message[i] = (5 * (i / 8) * (i / 8) + 37 * (i / 8) + 11) % 251 >> (7 - i % 8) & 1;
    for (unsigned i = 0; i < 400; i++) {
        message[i] ^= 1;
        double start = now();
        encode(message, k, d, word);
        double spent = now() - start;
        if (spent < encoding) encoding = spent;
        memcpy(sent, word, n);
        start = now();
        int clean = decode(word, k, d, t, search_by_tables);
        spent = now() - start;
        if (spent < testing) testing = spent;
        for (unsigned way = 0; way < 2; way++) {
            for (unsigned j = 0; j < t; j++) word[600 * j] ^= 1;
            start = now();
            int changed = decode(word, k, d, t, searches[way]);
            spent = now() - start;
            if (spent < decoding[way]) decoding[way] = spent;
            good += clean == 0 && changed == (int)t && !memcmp(word, sent, n);
            for (unsigned j = 0; j < 40; j++) word[600 * j] ^= 1;
            start = now();
            changed = decode(word, k, d, t, searches[way]);
            spent = now() - start;
            if (spent < refusing[way]) refusing[way] = spent;
            good += changed == -1;
            memcpy(word, sent, n);
        }
    }
    printf("c_encode %.1f\nc_undamaged %.1f\nc_decode %.1f\nc_by_lanes %.1f\n", encoding, testing, decoding[0], decoding[1]);
    printf("c_refuse %.1f\nc_refuse_by_lanes %.1f\nc_good %u\n", refusing[0], refusing[1], good / 4);
    free(message), free(word), free(sent);
}
