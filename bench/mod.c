/* A DVB-S2 modulator in plain C (EN 302 307-1, 5.1 to 5.5): the baseline that `s2 mod` is timed against.
 * mod MODCOD SHORT PILOTS NUMBER ROLL_OFF ROWS PACKETS SYMBOLS; SHORT and PILOTS are 0 or 1. */
#include "plain.h"

/* ---- 5.2: the baseband frame */

static uint8_t message[MAX_BITS], word[MAX_BITS];

static void bits_of(const uint8_t *bytes, int count, uint8_t *bits) {
    for (int i = 0; i < count; i++)
        for (int b = 0; b < 8; b++) bits[8 * i + b] = bytes[i] >> (7 - b) & 1;
}

static void baseband_frame(const uint8_t *field, int bytes, uint64_t at, int roll_off) {
    int syncd = 8 * (int)((PACKET - at % PACKET) % PACKET), dfl = 8 * bytes;
    uint8_t header[10] = {(uint8_t)(0xF0 + roll_off), 0, 1504 >> 8, 1504 & 255, (uint8_t)(dfl >> 8),
                          (uint8_t)dfl, 0x47, (uint8_t)(syncd >> 8), (uint8_t)syncd};
    uint32_t state = 0x4A80 >> 0; /* o[-1] .. o[-15] = 100101010000000, o[-1] the highest of 15 bits */
    header[9] = crc8(header, 9);
    bits_of(header, 10, message);
    bits_of(field, bytes, message + 80);
    memset(message + 80 + dfl, 0, (size_t)(kbch - 80 - dfl));
    for (int i = 0; i < kbch; i++) {
        uint32_t bit = (state ^ state >> 1) & 1; /* o[i-15] and o[i-14] */
        state = state >> 1 | bit << 14;
        message[i] ^= (uint8_t)bit;
    }
}

/* ---- 5.3.1: BCH, by a division register of up to 192 bits, bit by bit */

static void bch_encode(void) {
    uint64_t a = 0, b = 0, c = 0;
    memcpy(word, message, (size_t)kbch);
    for (int i = 0; i < kbch; i++) {
        uint64_t out = (a >> 63 ^ message[i]) & 1, mask = 0 - out;
        a = (a << 1 | b >> 63) ^ (generator[0] & mask);
        b = (b << 1 | c >> 63) ^ (generator[1] & mask);
        c = c << 1 ^ (generator[2] & mask);
    }
    for (int i = 0; i < k - kbch; i++) {
        uint64_t part = i < 64 ? a : i < 128 ? b : c;
        word[kbch + i] = part >> (63 - i % 64) & 1;
    }
}

/* ---- 5.3.2: LDPC */

static void ldpc_encode(void) {
    uint8_t *parity = word + k;
    memset(parity, 0, (size_t)(n - k));
    for (int g = 0; g < k / 360; g++)
        for (int e = 0; e < row_length[g]; e++) {
            int j = rows[g][e];
            for (int m = 0; m < 360; m++) {
                parity[j] ^= word[360 * g + m];
                j += q;
                if (j >= n - k) j -= n - k;
            }
        }
    for (int j = 1; j < n - k; j++) parity[j] ^= parity[j - 1];
}

/* ---- 5.3.3 and 5.4: interleaver and points */

static const symbol psk[8] = {{700, 700}, {990, 0}, {-990, 0}, {-700, -700}, {0, 990}, {700, -700}, {-700, 700}, {0, -990}};
static symbol payload[MAX_SYMBOLS], frame[MAX_SYMBOLS];

static void map_symbols(void) {
    if (width == 2) {
        for (int s = 0; s < n / 2; s++) {
            payload[s].i = word[2 * s] ? -700 : 700;
            payload[s].q = word[2 * s + 1] ? -700 : 700;
        }
    } else {
        int first = modcod == 12 ? 2 * (n / 3) : 0, last = modcod == 12 ? 0 : 2 * (n / 3);
        for (int s = 0; s < n / 3; s++) payload[s] = psk[4 * word[first + s] + 2 * word[n / 3 + s] + word[last + s]];
    }
}

/* ---- 5.5: the physical layer frame */

static int make_frame(void) {
    static const symbol pilot = {700, 700};
    int at = HEADER_SYMBOLS, taken = 0;
    memcpy(frame, header_symbols, sizeof header_symbols);
    for (int s = 0; s < slots; s++) {
        memcpy(frame + at, payload + taken, 90 * sizeof(symbol));
        at += 90;
        taken += 90;
        if (pilots && s % 16 == 15 && s + 1 < slots)
            for (int p = 0; p < 36; p++) frame[at++] = pilot;
    }
    for (int i = HEADER_SYMBOLS; i < at; i++) {
        symbol s = frame[i];
        switch (turns[i - HEADER_SYMBOLS]) {
        case 1: frame[i] = (symbol){(int16_t)-s.q, s.i}; break;
        case 2: frame[i] = (symbol){(int16_t)-s.i, (int16_t)-s.q}; break;
        case 3: frame[i] = (symbol){s.q, (int16_t)-s.i}; break;
        default: break;
        }
    }
    return at;
}

static void write_frame(FILE *out, int symbols) {
    static uint8_t bytes[4 * MAX_SYMBOLS];
    for (int i = 0; i < symbols; i++) {
        bytes[4 * i] = (uint8_t)((uint16_t)frame[i].i >> 8);
        bytes[4 * i + 1] = (uint8_t)frame[i].i;
        bytes[4 * i + 2] = (uint8_t)((uint16_t)frame[i].q >> 8);
        bytes[4 * i + 3] = (uint8_t)frame[i].q;
    }
    if (fwrite(bytes, 4, (size_t)symbols, out) != (size_t)symbols) exit(1);
}

/* ---- the whole chain */

static void send_field(FILE *out, const uint8_t *field, int bytes, uint64_t at, int roll_off) {
    baseband_frame(field, bytes, at, roll_off);
    bch_encode();
    ldpc_encode();
    map_symbols();
    write_frame(out, make_frame());
}

int main(int argc, char **argv) {
    static uint8_t waiting[8192 + 2 * PACKET], packet[PACKET];
    uint64_t packets = 0, frames = 0, at = 0;
    int held = 0, size;
    FILE *in, *out;
    if (argc != 9) return 1;
    modcod = atoi(argv[1]);
    is_short = atoi(argv[2]);
    pilots = atoi(argv[3]);
    set_mode();
    size = (kbch - 80) / 8;
    read_rows(argv[6]);
    make_crc_table();
    make_generator();
    make_header();
    make_turns((uint32_t)atoi(argv[4]));
    in = fopen(argv[7], "rb");
    out = fopen(argv[8], "wb");
    if (!in || !out) return 1;
    waiting[held++] = 0;
    while (fread(packet, 1, PACKET, in) == PACKET) {
        if (packet[0] != 0x47) return 1;
        memcpy(waiting + held, packet + 1, PACKET - 1);
        held += PACKET - 1;
        waiting[held++] = crc8(packet + 1, PACKET - 1);
        packets++;
        while (held >= size) {
            send_field(out, waiting, size, at, atoi(argv[5]));
            memmove(waiting, waiting + size, (size_t)(held - size));
            held -= size;
            at += (uint64_t)size;
            frames++;
        }
    }
    if (packets && held) {
        send_field(out, waiting, held, at, atoi(argv[5]));
        frames++;
    }
    printf("packets %llu frames %llu\n", (unsigned long long)packets, (unsigned long long)frames);
    return fclose(out) != 0;
}
