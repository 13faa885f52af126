/* demod MODCOD SHORT PILOTS FLAGS ROWS SYMBOLS PACKETS CERTIFICATES VALUES WORDS BBFRAMES > report
 * FLAGS has letters: t tuned, u uncertified, f figures, r turns, e equalize, s resync. The report and the files are those of `s2 demod`. */
#include "both.h"
#include <inttypes.h>

static uint8_t buffer[1 << 20], bytes[1 << 23];
static int16_t soft[64800], last_soft[64800];
static uint8_t last_word[64800];
static size_t count;

static FILE *opened(const char *path) {
    FILE *file = fopen(path, "wb");
    if (!file) exit(73);
    return file;
}

static void put_bits(FILE *file) {
    for (size_t i = 0; i < count; i += 8) {
        int byte = 0;
        for (size_t k = i; k < i + 8; k++) byte = 2 * byte + bytes[k];
        putc(byte, file);
    }
}

static void put_records(s2_handle *rx, const s2_step *step, uint32_t kbch, FILE **files) {
    int32_t result = s2_receiver_certificate(rx, bytes, sizeof bytes, &count);
    if (result != S2_NONE_THERE) must(result, "certificate");
    if (result == S2_OK) fwrite(bytes, 1, count, files[1]);
    must(s2_receiver_soft(rx, soft, 64800, &count), "soft");
    memcpy(last_soft, soft, count * sizeof *soft);
    for (size_t i = 0; i < count; i++) fprintf(files[2], "%d%c", soft[i], i + 1 < count ? ' ' : '\n');
    must(s2_receiver_word(rx, bytes, sizeof bytes, &count), "word");
    memcpy(last_word, bytes, count);
    put_bits(files[3]);
    result = s2_receiver_bbframe(rx, bytes, sizeof bytes, &count);
    if (result != (step->outcome == S2_DELIVERED ? S2_OK : S2_NONE_THERE)) exit(2);
    if (result == S2_NONE_THERE) memset(bytes, 0, count = kbch / 8);
    fwrite(bytes, 1, count, files[4]);
}

/* Without a new frame there is no certificate, and the soft values and the word are those of the last frame, or zeros. */
static void must_stay(s2_handle *rx) {
    if (s2_receiver_certificate(rx, bytes, sizeof bytes, &count) != S2_NONE_THERE) exit(70);
    must(s2_receiver_soft(rx, soft, 64800, &count), "soft");
    if (memcmp(soft, last_soft, count * sizeof *soft)) exit(70);
    must(s2_receiver_word(rx, bytes, sizeof bytes, &count), "word");
    if (memcmp(bytes, last_word, count)) exit(70);
}

static void put_figures(s2_handle *rx) {
    s2_figures f = {.size = sizeof f};
    must(s2_receiver_figures(rx, &f), "figures");
    printf(" header %" PRIu32 " changed %" PRIu64 " rounds %" PRIu32, f.header, f.changed, f.rounds);
    printf(" known %" PRIu64 " power %" PRIu64 " along %" PRId64 " across %" PRId64, f.known, f.known_power, f.known_along, f.known_across);
    printf(" payload %" PRIu64 " power %" PRIu64 " along %" PRId64 " across %" PRId64, f.payload, f.payload_power, f.payload_along, f.payload_across);
    if (!f.equalized) return;
    printf(" gain along %" PRId64 " across %" PRId64, f.gain_along, f.gain_across);
    printf(" rotation along %" PRId64 " across %" PRId64, f.rotation_along, f.rotation_across);
}

static void put_sums(s2_handle *rx) {
    s2_figures f = {.size = sizeof f};
    int32_t result = s2_receiver_sums(rx, &f);
    if (result == S2_NONE_THERE) return;
    must(result, "sums");
    printf(" changed %" PRIu64 " of %" PRIu64, f.changed, f.changed_of);
    printf(" known %" PRIu64 " of %" PRIu64 " power %" PRIu64, f.known, f.known_of, f.known_power);
    printf(" payload %" PRIu64 " of %" PRIu64 " power %" PRIu64, f.payload, f.payload_of, f.payload_power);
}

static void put_line(s2_handle *rx, const s2_step *step) {
    static const char *const verdicts[] = {"broken", "parity", "most-likely", "sole"};
    printf("frame %" PRIu64 " at %" PRIu64 " %s", step->number, step->at, verdicts[step->verdict]);
    if (step->outcome == S2_DELIVERED) printf(" fixed %" PRIu32, step->fixed);
    else printf(" lost");
    if (step->has_figures) put_figures(rx);
    if (step->turn) printf(" turn %" PRIu32, step->turn);
    putchar('\n');
}

int main(int argc, char **argv) {
    if (argc < 12) return 64;
    s2_options o = {.size = sizeof o, .modcod = atoi(argv[1]), .is_short = atoi(argv[2]), .has_pilots = atoi(argv[3])};
    o.tuned = strchr(argv[4], 't') != NULL;
    o.uncertified = strchr(argv[4], 'u') != NULL;
    o.figures = strchr(argv[4], 'f') != NULL;
    o.turns = strchr(argv[4], 'r') != NULL;
    o.equalize = strchr(argv[4], 'e') != NULL;
    o.resync = strchr(argv[4], 's') != NULL;
    s2_handle code = {0}, rx = {0};
    s2_mode mode = {.size = sizeof mode};
    size_t length, room;
    uint8_t *rows = contents(argv[5], &length);
    FILE *in = fopen(argv[6], "rb"), *files[5];
    if (!in) return 66;
    for (int i = 0; i < 5; i++) files[i] = opened(argv[7 + i]);
    must(s2_mode_of(o.modcod, o.is_short, o.has_pilots, &mode), "mode");
    must(s2_code_new(rows, length, o.modcod, o.is_short, &code), "code");
    must(s2_receiver_new(&code, &o, &rx), "receiver");
    s2_end(&code);
    must_stay(&rx);
    s2_step step = {.size = sizeof step};
    while (step.kind != S2_STREAM_END) {
        must(s2_receiver_room(&rx, &room), "room");
        size_t got = fread(buffer, 1, room, in);
        must(s2_receiver_advance(&rx, buffer, got, &step), "advance");
        if (step.kind == S2_NONE) continue;
        if (step.kind == S2_FRAME) put_records(&rx, &step, mode.kbch, files);
        else must_stay(&rx);
        must(s2_receiver_packets(&rx, bytes, sizeof bytes, &count), "packets");
        fwrite(bytes, 1, count, files[0]);
        if (step.kind == S2_FRAME) put_line(&rx, &step);
        if (step.kind == S2_CUT) printf("cut at %" PRIu64 " symbols %" PRIu64 "\n", step.at, step.symbols);
    }
    s2_totals t = {.size = sizeof t};
    must(s2_receiver_totals(&rx, &t), "totals");
    printf("end frames %" PRIu64 " delivered %" PRIu64 " packets %" PRIu64 " bad %" PRIu64, t.frames, t.delivered, t.packets, t.bad);
    put_sums(&rx);
    putchar('\n');
    s2_end(&rx);
    free(rows);
    fclose(in);
    for (int i = 0; i < 5; i++)
        if (fclose(files[i])) return 74;
    return 0;
}
