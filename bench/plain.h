/* What the plain C modulator and receiver share (EN 302 307-1): modes, address rows, CRC-8, the outer code's generator, the
 * physical layer header and the scrambler's quarter turns. */
#include <stdint.h>
#include <stdio.h>
#include <stdlib.h>
#include <string.h>

enum { PACKET = 188, HEADER_SYMBOLS = 90, GOLD = 262143, MAX_BITS = 64800, MAX_SYMBOLS = 33282 };

typedef struct { int16_t i, q; } symbol;

/* ---- the mode */

static const int rates[11][5] = {
    {16008, 16200, 12, 3072, 3240},    {21408, 21600, 12, 5232, 5400},    {25728, 25920, 12, 6312, 6480},
    {32208, 32400, 12, 7032, 7200},    {38688, 38880, 12, 9552, 9720},    {43040, 43200, 10, 10632, 10800},
    {48408, 48600, 12, 11712, 11880},  {51648, 51840, 12, 12432, 12600},  {53840, 54000, 10, 13152, 13320},
    {57472, 57600, 8, 14232, 14400},   {58192, 58320, 8, 0, 0},
};
static const int psk_rates[6] = {4, 5, 6, 8, 9, 10};

static int modcod, is_short, pilots, kbch, k, n, t, q, width, slots;

static void set_mode(void) {
    const int *rate = rates[modcod <= 11 ? modcod - 1 : psk_rates[modcod - 12]];
    kbch = is_short ? rate[3] : rate[0];
    k = is_short ? rate[4] : rate[1];
    t = is_short ? 12 : rate[2];
    n = is_short ? 16200 : 64800;
    q = (n - k) / 360;
    width = modcod <= 11 ? 2 : 3;
    slots = n / width / 90;
}

/* ---- address rows */

static int row_length[180];
static uint16_t rows[180][24];

static void read_rows(const char *name) {
    FILE *file = fopen(name, "r");
    static char line[4096];
    int g = 0;
    if (!file) exit(1);
    while (g < k / 360 && fgets(line, sizeof line, file)) {
        char *word = strtok(line, " \t\r\n");
        if (!word || *word == '#') continue;
        for (; word; word = strtok(NULL, " \t\r\n")) rows[g][row_length[g]++] = (uint16_t)atoi(word);
        g++;
    }
    fclose(file);
}

/* ---- 5.1.4: CRC-8 */

static uint8_t crc_table[256];

static void make_crc_table(void) {
    for (int b = 0; b < 256; b++) {
        int crc = b;
        for (int i = 0; i < 8; i++) crc = crc & 0x80 ? (crc << 1) ^ 0xD5 : crc << 1;
        crc_table[b] = (uint8_t)crc;
    }
}

static uint8_t crc8(const uint8_t *bytes, int count) {
    uint8_t crc = 0;
    for (int i = 0; i < count; i++) crc = crc_table[crc ^ bytes[i]];
    return crc;
}

/* ---- 5.3.1: the generator of the outer code */

static uint64_t generator[3]; /* without its highest coefficient; the highest power at the top of word 0 */

static void make_generator(void) {
    int m = is_short ? 14 : 16, order = (1 << m) - 1, low = is_short ? 0x2B : 0x2D, degree = 0;
    static int power[1 << 16];
    static uint8_t g[200], product[200];
    for (int i = 0, x = 1; i < order; i++) {
        power[i] = x;
        x <<= 1;
        if (x >> m) x = (x ^ low) & order;
    }
    g[0] = 1;
    for (int root = 1; root < 2 * t; root += 2) { /* the minimal polynomial of a^root: product of x + a^(root 2^i) */
        int minimal[18] = {1}, logs = root;
        static int log_of[1 << 16];
        for (int i = 0; i < order; i++) log_of[power[i]] = i;
        for (int i = 0; i < m; i++, logs = logs * 2 % order)
            for (int d = i + 1; d >= 0; d--) {
                int times = d <= i && minimal[d] ? power[(log_of[minimal[d]] + logs) % order] : 0;
                minimal[d] = (d ? minimal[d - 1] : 0) ^ times;
            }
        memset(product, 0, sizeof product);
        for (int a = 0; a <= degree; a++)
            for (int b = 0; b <= m; b++) product[a + b] ^= g[a] & (uint8_t)minimal[b];
        degree += m;
        memcpy(g, product, sizeof g);
    }
    for (int d = 0; d < degree; d++) {
        int place = degree - 1 - d;
        if (g[d]) generator[place / 64] |= 1ull << (63 - place % 64);
    }
}

/* ---- 5.5: header and scrambler */

static symbol header_symbols[HEADER_SYMBOLS];
static uint8_t turns[MAX_SYMBOLS];

static void make_header(void) {
    static const uint32_t code[6] = {0x55555555, 0x33333333, 0x0F0F0F0F, 0x00FF00FF, 0x0000FFFF, 0xFFFFFFFF};
    uint32_t sum = 0;
    uint64_t bits = 0;
    for (int b = 0; b < 5; b++)
        if (modcod >> (4 - b) & 1) sum ^= code[b];
    if (is_short) sum ^= code[5];
    for (int b = 31; b >= 0; b--) {
        uint64_t y = sum >> b & 1;
        bits = bits << 2 | y << 1 | (y ^ (uint64_t)pilots);
    }
    bits ^= 0x719D83C953422DFAull;
    for (int s = 0; s < HEADER_SYMBOLS; s++) {
        int bit = s < 26 ? 0x18D2E82 >> (25 - s) & 1 : (int)(bits >> (63 - (s - 26)) & 1);
        int16_t a = bit ? -700 : 700;
        header_symbols[s].i = s % 2 ? (int16_t)-a : a;
        header_symbols[s].q = a;
    }
}

static void make_turns(uint32_t number) {
    static uint8_t x[GOLD + 18], y[GOLD + 18], z[GOLD];
    x[0] = 1;
    memset(y, 1, 18);
    for (int i = 0; i < GOLD; i++) {
        x[i + 18] = x[i + 7] ^ x[i];
        y[i + 18] = y[i + 10] ^ y[i + 7] ^ y[i + 5] ^ y[i];
    }
    for (uint32_t i = 0; i < GOLD; i++) z[i] = x[(i + number) % GOLD] ^ y[i];
    for (uint32_t i = 0; i < MAX_SYMBOLS; i++) turns[i] = (uint8_t)(2 * z[(i + 131072) % GOLD] + z[i]);
}
