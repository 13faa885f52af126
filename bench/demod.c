/* A DVB-S2 receiver of clean streams in plain C (EN 302 307-1, 5.1 to 5.5): it tells whether symbols give their packets back.
 * It reads frame by frame, turns back, makes soft values, takes hard decisions, tests the parity checks and the remainder of
 * the outer code, descrambles, reads the header and joins packets. It corrects nothing.
 * demod MODCOD SHORT PILOTS NUMBER ROLL_OFF DIVISOR ROWS SYMBOLS PACKETS; SHORT and PILOTS are 0 or 1, and DIVISOR is a power
 * of two. */
#include "plain.h"

enum { MAX_SOFT = 511 };

static int frame_symbols, shift;
static uint8_t bytes[4 * MAX_SYMBOLS];
static symbol frame[MAX_SYMBOLS], payload[MAX_SYMBOLS];
static int16_t soft[MAX_BITS];
static uint8_t word[MAX_BITS], sums[MAX_BITS], sequence[MAX_BITS], field[8192];

/* ---- 5.5: the frame */

static int read_frame(FILE *in) {
    size_t got = fread(bytes, 4, (size_t)frame_symbols, in);
    for (size_t i = 0; i < got; i++) {
        frame[i].i = (int16_t)(bytes[4 * i] << 8 | bytes[4 * i + 1]);
        frame[i].q = (int16_t)(bytes[4 * i + 2] << 8 | bytes[4 * i + 3]);
    }
    return (int)got;
}

static int is_header(void) {
    int wrong = 0;
    for (int s = 0; s < HEADER_SYMBOLS; s++) {
        int sum = s % 2 ? frame[s].q - frame[s].i : frame[s].i + frame[s].q;
        int sent = s % 2 ? header_symbols[s].q - header_symbols[s].i : header_symbols[s].i + header_symbols[s].q;
        wrong += (sum < 0) != (sent < 0);
    }
    return wrong <= 12;
}

static int16_t negated(int16_t v) { return v == -32768 ? 32767 : (int16_t)-v; }

static symbol turned_back(symbol s, int turn) {
    switch (turn) {
    case 1: return (symbol){s.q, negated(s.i)};
    case 2: return (symbol){negated(s.i), negated(s.q)};
    case 3: return (symbol){negated(s.q), s.i};
    default: return s;
    }
}

static void take_payload(void) {
    int at = 0, taken = 0;
    for (int s = 0; s < slots; s++) {
        for (int p = 0; p < 90; p++, at++) payload[taken++] = turned_back(frame[HEADER_SYMBOLS + at], turns[at]);
        if (pilots && s % 16 == 15 && s + 1 < slots) at += 36;
    }
}

/* ---- soft values: (d1 - d0) / divisor of the least squared distances, toward zero, held within MAX_SOFT */

static int16_t held(int32_t difference) {
    int32_t v = (difference + (difference >> 31 & ((1 << shift) - 1))) >> shift;
    return (int16_t)(v > MAX_SOFT ? MAX_SOFT : v < -MAX_SOFT ? -MAX_SOFT : v);
}

static int32_t most(int32_t a, int32_t b) { return a > b ? a : b; }

static int32_t nearest(int32_t a, int32_t b, int32_t x, int32_t y) { return most(most(a, b) + 100, most(x, y)); }

static void make_soft(void) {
    if (width == 2) {
        for (int s = 0; s < n / 2; s++) {
            soft[2 * s] = held(2800 * payload[s].i);
            soft[2 * s + 1] = held(2800 * payload[s].q);
        }
    } else {
        int first = modcod == 12 ? 2 * (n / 3) : 0, last = modcod == 12 ? 0 : 2 * (n / 3);
        for (int s = 0; s < n / 3; s++) {
            int32_t a = 1400 * (payload[s].i + payload[s].q), b = 1400 * (payload[s].i - payload[s].q);
            int32_t x = 1980 * payload[s].i, y = 1980 * payload[s].q;
            soft[first + s] = held(nearest(a, -a, x, -x) - nearest(b, -b, y, -y));
            soft[n / 3 + s] = held(nearest(a, b, x, y) - nearest(-a, -b, -x, -y));
            soft[last + s] = held(nearest(a, -b, -x, y) - nearest(-a, b, x, -y));
        }
    }
}

/* ---- 5.3: both codes */

static int none_is_zero(void) {
    for (int i = 0; i < n; i++)
        if (soft[i] == 0) return 0;
    return 1;
}

static int is_codeword(void) {
    for (int i = 0; i < n; i++) word[i] = soft[i] < 0;
    memset(sums, 0, (size_t)(n - k));
    for (int g = 0; g < k / 360; g++)
        for (int e = 0; e < row_length[g]; e++) {
            int j = rows[g][e];
            for (int m = 0; m < 360; m++) {
                sums[j] ^= word[360 * g + m];
                j += q;
                if (j >= n - k) j -= n - k;
            }
        }
    int odd = sums[0] ^ word[k];
    for (int j = 1; j < n - k; j++) odd |= sums[j] ^ word[k + j] ^ word[k + j - 1];
    return !odd;
}

static int is_bch_word(void) {
    uint64_t a = 0, b = 0, c = 0;
    int wrong = 0;
    for (int i = 0; i < kbch; i++) {
        uint64_t out = (a >> 63 ^ word[i]) & 1, mask = 0 - out;
        a = (a << 1 | b >> 63) ^ (generator[0] & mask);
        b = (b << 1 | c >> 63) ^ (generator[1] & mask);
        c = c << 1 ^ (generator[2] & mask);
    }
    for (int i = 0; i < k - kbch; i++) {
        uint64_t part = i < 64 ? a : i < 128 ? b : c;
        wrong |= word[kbch + i] ^ (part >> (63 - i % 64) & 1);
    }
    return !wrong;
}

/* ---- 5.1 and 5.2: the baseband frame and its packets */

static void make_sequence(void) {
    uint32_t state = 0x4A80; /* o[-1] .. o[-15] = 100101010000000, o[-1] the highest of 15 bits */
    for (int i = 0; i < kbch; i++) {
        uint32_t bit = (state ^ state >> 1) & 1; /* o[i-15] and o[i-14] */
        state = state >> 1 | bit << 14;
        sequence[i] = (uint8_t)bit;
    }
}

static void bytes_of(const uint8_t *bits, int count, uint8_t *out) {
    for (int i = 0; i < count; i++) {
        int byte = 0;
        for (int b = 0; b < 8; b++) byte = byte << 1 | bits[8 * i + b];
        out[i] = (uint8_t)byte;
    }
}

static int inside, have;
static uint8_t body[PACKET];
static uint64_t good, bad;

static void join(const uint8_t *data, int count, int syncd, FILE *out) {
    int at = 0;
    if (!count) return;
    if (inside && syncd != (PACKET - 1 - have < count ? 8 * (PACKET - 1 - have) : 65535)) inside = 0;
    if (!inside) {
        if (syncd == 65535) return;
        at = syncd / 8 + 1;
        inside = 1;
        have = 0;
    }
    while (at < count) {
        int part = PACKET - 1 - have < count - at ? PACKET - 1 - have : count - at;
        memcpy(body + 1 + have, data + at, (size_t)part);
        at += part;
        have += part;
        if (have < PACKET - 1 || at == count) break;
        if (crc8(body + 1, PACKET - 1) == data[at++]) {
            good++;
            if (fwrite(body, 1, PACKET, out) != PACKET) exit(1);
        } else {
            bad++;
        }
        have = 0;
    }
}

/* The header's DFL in bytes, or -1 where the header is refused. */
static int descramble(int *syncd) {
    uint8_t header[10];
    int dfl;
    for (int i = 0; i < kbch; i++) word[i] ^= sequence[i];
    bytes_of(word, 10, header);
    if (crc8(header, 9) != header[9] || (header[0] & 0xFC) != 0xF0 || header[2] != 5 || header[3] != 0xE0 || header[6] != 0x47) return -1;
    dfl = header[4] << 8 | header[5];
    *syncd = header[7] << 8 | header[8];
    if (dfl % 8 || dfl > kbch - 80) return -1;
    if (dfl && *syncd != 65535 && (*syncd % 8 || *syncd >= 1504 || *syncd >= dfl)) return -1;
    bytes_of(word + 80, dfl / 8, field);
    return dfl / 8;
}

/* ---- the whole chain */

int main(int argc, char **argv) {
    uint64_t frames = 0, delivered = 0, at = 0;
    FILE *in, *out;
    if (argc != 10) return 1;
    modcod = atoi(argv[1]);
    is_short = atoi(argv[2]);
    pilots = atoi(argv[3]);
    set_mode();
    frame_symbols = HEADER_SYMBOLS + 90 * slots + (pilots ? 36 * ((slots - 1) / 16) : 0);
    shift = __builtin_ctz((unsigned)atoi(argv[6]));
    read_rows(argv[7]);
    make_crc_table();
    make_generator();
    make_header();
    make_turns((uint32_t)atoi(argv[4]));
    make_sequence();
    in = fopen(argv[8], "rb");
    out = fopen(argv[9], "wb");
    if (!in || !out) return 1;
    body[0] = 0x47;
    while (read_frame(in) == frame_symbols && is_header()) {
        int likely, syncd = 0, count = -1;
        take_payload();
        make_soft();
        likely = is_codeword();
        if (is_bch_word()) count = descramble(&syncd);
        if (count >= 0) {
            join(field, count, syncd, out);
            delivered++;
        }
        frames++;
        printf("frame %llu at %llu %s %s\n", (unsigned long long)frames, (unsigned long long)at,
               !likely ? "broken" : none_is_zero() ? "sole" : "most-likely", count >= 0 ? "fixed 0" : "lost");
        at += (uint64_t)frame_symbols;
    }
    printf("end frames %llu delivered %llu packets %llu bad %llu\n", (unsigned long long)frames, (unsigned long long)delivered,
           (unsigned long long)good, (unsigned long long)bad);
    return fclose(out) != 0;
}
