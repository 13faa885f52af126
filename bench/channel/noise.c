// The noise of `s2 noise`, in plain C: noise SEED level L, or noise SEED esn0 HUNDREDTHS, from standard input to standard output.
#include <math.h>
#include <stdint.h>
#include <stdio.h>
#include <stdlib.h>
#include <string.h>

#define MULTIPLIER 6364136223846793005ull

static uint64_t state, gain;

static uint32_t permuted(uint64_t s) {
    uint32_t word = (uint32_t)((s >> 18 ^ s) >> 27), turn = (uint32_t)(s >> 59);
    return word >> turn | word << (-turn & 31);
}

static uint32_t next_word(void) {
    uint32_t word = permuted(state);
    state = state * MULTIPLIER + gain;
    return word;
}

static void seed_with(uint64_t seed) {
    uint64_t words[4];
    for (int i = 0; i < 4; i++) {
        seed = seed * MULTIPLIER + 11634580027462260723ull;
        words[i] = permuted(seed);
    }
    gain = words[2] | words[3] << 32 | 1;
    state = (words[0] | words[1] << 32) + gain;
    state = state * MULTIPLIER + gain;
}

// What a byte weighs: itself by a level, its entry of the table by Es/N0.
static int weights[256];

// The quantile of a normal distribution, by halving.
static double quantile(double share) {
    double low = 0, high = 8;
    for (int i = 0; i < 60; i++) {
        double middle = (low + high) / 2;
        if (1 - erfc(middle / sqrt(2)) / 2 < share) low = middle;
        else high = middle;
    }
    return low;
}

// The entries: quantiles, but for the last two sizes, and the same less than 0. Returns the variance of the sum of eight.
static double fill_entries(void) {
    double squares = 0;
    for (int k = 0; k < 128; k++) {
        int size = k == 126 ? 2345 : k == 127 ? 3190 : (int)llrint(1024 * quantile((k + 128.5) / 256));
        weights[k] = size;
        weights[128 + k] = -size;
        squares += 2.0 * size * size;
    }
    return squares * 8 / 256;
}

static int weight_sum(void) {
    int sum = 0;
    for (int i = 0; i < 2; i++) {
        uint32_t word = next_word();
        sum += weights[word & 255] + weights[word >> 8 & 255] + weights[word >> 16 & 255] + weights[word >> 24];
    }
    return sum;
}

static uint64_t amplitude_of(int hundredths, double variance) {
    uint64_t amplitude = llrint(ldexp(700 * sqrt(10 / variance), 30)), step = llrint(ldexp(pow(10, -1 / 2000.0), 30));
    for (int i = -1000; i < hundredths; i++) amplitude = (amplitude * step + (1 << 29)) >> 30;
    return amplitude;
}

static int clamped(int value) { return value < -32768 ? -32768 : value > 32767 ? 32767 : value; }

static int level_gain(int level) { return (weight_sum() - 1020) * level / 256; }

static int gaussian_gain(uint64_t amplitude) {
    int sum = weight_sum();
    int size = (int)((abs(sum) * amplitude + (1 << 29)) >> 30);
    return sum < 0 ? -size : size;
}

int main(int count, char **words) {
    if (count != 4) return 1;
    static unsigned char bytes[65536];
    int is_level = !strcmp(words[2], "level"), strength = atoi(words[3]);
    uint64_t amplitude = is_level ? 0 : amplitude_of(strength, fill_entries());
    size_t length;
    for (int byte = 0; is_level && byte < 256; byte++) weights[byte] = byte;
    seed_with(strtoull(words[1], 0, 10));
    while ((length = fread(bytes, 1, sizeof bytes, stdin))) {
        for (size_t at = 0; at + 1 < length; at += 2) {
            int value = (int16_t)(bytes[at] << 8 | bytes[at + 1]);
            value = clamped(value + (is_level ? level_gain(strength) : gaussian_gain(amplitude)));
            bytes[at] = (unsigned char)(value >> 8);
            bytes[at + 1] = (unsigned char)value;
        }
        fwrite(bytes, 1, length, stdout);
    }
    return 0;
}
