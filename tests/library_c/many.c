/* many MODCOD ROWS: makes and ends 1000 receivers, transmitters and judges, and takes their code from a shelf each time. Looks at the memory
 * that stays. */
#include "both.h"

static long pages(void) {
    long all = 0, here = 0;
    FILE *file = fopen("/proc/self/statm", "r");
    if (!file || fscanf(file, "%ld %ld", &all, &here) != 2) exit(66);
    fclose(file);
    return here;
}

static void turn(s2_handle *code, const s2_options *o) {
    s2_handle rx = {0}, tx = {0}, judge = {0};
    must(s2_receiver_new(code, o, &rx), "receiver");
    must(s2_receiver_reset(&rx), "reset");
    must(s2_transmitter_new(code, o, &tx), "transmitter");
    must(s2_judge_new(code, o, &judge), "judge");
    s2_end(&rx);
    s2_end(&tx);
    s2_end(&judge);
}

int main(int argc, char **argv) {
    if (argc < 3) return 64;
    s2_options o = {.size = sizeof o, .modcod = atoi(argv[1]), .tuned = 1};
    s2_handle code = {0}, shelf = {0};
    size_t length;
    uint8_t *rows = contents(argv[2], &length);
    must(s2_shelf_new(&shelf), "shelf");
    must(s2_shelf_code(&shelf, rows, length, o.modcod, 0, &code), "code");
    for (int i = 0; i < 50; i++) turn(&code, &o);
    long before = pages();
    for (int i = 0; i < 1000; i++) {
        turn(&code, &o);
        s2_end(&code);
        must(s2_shelf_code(&shelf, rows, length, o.modcod, 0, &code), "code again");
    }
    long grown = pages() - before;
    s2_end(&code);
    s2_end(&shelf);
    free(rows);
    printf("grown by %ld pages\n", grown);
    return grown > 256;
}
