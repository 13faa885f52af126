/* speed MODCOD FLAGS ROWS SYMBOLS PACKETS > report: what `s2 demod --tuned` does, with `--uncertified` if FLAGS has u. */
#include "both.h"
#include <inttypes.h>

static uint8_t buffer[1 << 20], packets[7520];

int main(int argc, char **argv) {
    if (argc < 6) return 64;
    static const char *const verdicts[] = {"broken", "parity", "most-likely", "sole"};
    s2_options o = {.size = sizeof o, .modcod = atoi(argv[1]), .tuned = 1, .uncertified = strchr(argv[2], 'u') != NULL};
    s2_handle code = {0}, rx = {0};
    size_t length, room, count;
    uint8_t *rows = contents(argv[3], &length);
    FILE *in = fopen(argv[4], "rb"), *out = fopen(argv[5], "wb");
    if (!in || !out) return 66;
    setvbuf(in, NULL, _IONBF, 0);
    must(s2_code_new(rows, length, o.modcod, 0, &code), "code");
    must(s2_receiver_new(&code, &o, &rx), "receiver");
    s2_step step = {.size = sizeof step};
    while (step.kind != S2_STREAM_END) {
        must(s2_receiver_room(&rx, &room), "room");
        must(s2_receiver_advance(&rx, buffer, fread(buffer, 1, room, in), &step), "advance");
        if (step.kind == S2_NONE) continue;
        must(s2_receiver_packets(&rx, packets, sizeof packets, &count), "packets");
        fwrite(packets, 1, count, out);
        if (step.kind == S2_FRAME) printf("frame %" PRIu64 " at %" PRIu64 " %s %" PRIu32 "\n", step.number, step.at, verdicts[step.verdict], step.fixed);
    }
    s2_end(&rx);
    s2_end(&code);
    free(rows);
    return fclose(in) || fclose(out);
}
