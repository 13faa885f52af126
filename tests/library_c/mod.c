/* mod MODCOD SHORT PILOTS DUMMY ROWS PACKETS SYMBOLS WORDS PIECE
 * The files are those of `s2 mod --codewords`. Packets are given in pieces of PIECE bytes. */
#include "both.h"

static uint8_t out[146448], bits[64800];

static void take_all(s2_handle *tx, FILE *symbols, FILE *words) {
    size_t count = 0;
    int32_t result;
    while ((result = s2_transmitter_take(tx, out, sizeof out, &count)) == S2_OK) {
        fwrite(out, 1, count, symbols);
        must(s2_transmitter_word(tx, bits, sizeof bits, &count), "word");
        for (size_t i = 0; i < count; i += 8) {
            int byte = 0;
            for (size_t k = i; k < i + 8; k++) byte = 2 * byte + bits[k];
            putc(byte, words);
        }
    }
    if (result != S2_NONE_THERE) must(result, "take");
}

int main(int argc, char **argv) {
    if (argc < 10) return 64;
    s2_options o = {.size = sizeof o, .modcod = atoi(argv[1]), .is_short = atoi(argv[2]), .has_pilots = atoi(argv[3]), .dummy_every = atoi(argv[4])};
    s2_handle code = {0}, tx = {0};
    size_t length, all, piece = atoi(argv[9]);
    uint8_t *rows = contents(argv[5], &length), *packets = contents(argv[6], &all);
    FILE *symbols = fopen(argv[7], "wb"), *words = fopen(argv[8], "wb");
    if (!symbols || !words) return 73;
    must(s2_code_new(rows, length, o.modcod, o.is_short, &code), "code");
    must(s2_transmitter_new(&code, &o, &tx), "transmitter");
    s2_end(&code);
    for (size_t at = 0, taken = 0; at < all; at += taken) {
        must(s2_transmitter_put(&tx, packets + at, piece < all - at ? piece : all - at, &taken), "put");
        take_all(&tx, symbols, words);
    }
    must(s2_transmitter_close(&tx), "close");
    take_all(&tx, symbols, words);
    uint64_t packet_count, frames;
    must(s2_transmitter_counts(&tx, &packet_count, &frames), "counts");
    printf("packets %llu frames %llu\n", (unsigned long long)packet_count, (unsigned long long)frames);
    s2_end(&tx);
    free(rows);
    free(packets);
    return fclose(symbols) || fclose(words);
}
