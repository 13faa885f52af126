/* memory ROWS: refuses each allocation of each call that allocates, one after another. ROWS is a row file of rate 1/4, short frames. Then the result
 * is S2_NO_MEMORY, nothing is changed, and no block is kept. It is linked with --wrap for malloc, realloc and free. Prints a line for each
 * wrong answer. */
#include "both.h"

void *__real_malloc(size_t bytes);
void *__real_realloc(void *block, size_t bytes);
void __real_free(void *block);
void *__wrap_malloc(size_t bytes);
void *__wrap_realloc(void *block, size_t bytes);
void __wrap_free(void *block);

/* How many allocations succeed before one is refused, or -1; and the number of blocks. */
static long left = -1, blocks;

static int is_refused(void) {
    if (left != 0) {
        left -= left > 0;
        return 0;
    }
    left = -1;
    return 1;
}

void *__wrap_malloc(size_t bytes) {
    void *block = is_refused() ? NULL : __real_malloc(bytes);
    blocks += block != NULL;
    return block;
}

void *__wrap_realloc(void *block, size_t bytes) {
    void *made = is_refused() ? NULL : __real_realloc(block, bytes);
    blocks += made && !block;
    return made;
}

void __wrap_free(void *block) {
    blocks -= block != NULL;
    __real_free(block);
}

static uint8_t *rows, symbols[4 * 16686], out[1 << 19], before[1 << 19];
static size_t length, count, size;
static int failed;
static s2_options options = {.size = sizeof options, .modcod = 1, .is_short = 1};
static s2_handle code, shelf, rx, tx, judge, scan, made;

static int32_t code_new(void) { return s2_code_new(rows, length, 1, 1, &made); }
static int32_t shape_code(void) { return s2_code_of_shape(rows, length, 360, 9, 36, &made); }
static int32_t shelf_new(void) { return s2_shelf_new(&made); }
static int32_t shelf_code(void) { return s2_shelf_code(&shelf, rows, length, 1, 1, &made); }
static int32_t receiver_new(void) { return s2_receiver_new(&code, &options, &made); }
static int32_t receiver_reset(void) { return s2_receiver_reset(&rx); }
static int32_t receiver_bbframe(void) { return s2_receiver_bbframe(&rx, out, sizeof out, &count); }
static int32_t receiver_certificate(void) { return s2_receiver_certificate(&rx, out, sizeof out, &count); }
static int32_t transmitter_new(void) { return s2_transmitter_new(&code, &options, &made); }
static int32_t judge_new(void) { return s2_judge_new(&code, &options, &made); }
static int32_t judge_certificate(void) { return s2_judge_certificate(&judge, out, sizeof out, &count); }
static int32_t scan_new(void) { return s2_scan_new(&made); }
static int32_t scan_feed(void) { return s2_scan_feed(&scan, symbols, sizeof symbols); }
static int32_t scan_find(void) { return s2_scan_find(&scan, &count); }
static int32_t check(void) {
    s2_checked checked = {.size = sizeof checked};
    return s2_check(&code, before, size, &checked);
}

static void says(const char *name, long refused, const char *what) {
    printf("%s, allocation %ld refused: %s\n", name, refused, what);
    failed = 1;
}

/* Refuses the first allocation of a call, then the second, until it has as many as it needs. The tables of a code are kept if only memory for the
 * handle was refused, the last allocation. A shelf keeps a block for a code that it does not have yet. Returns how many were refused. */
static long refuse(const char *name, int32_t (*call)(void), int is_code, long spare) {
    for (long refused = 0, kept = 0;; refused++) {
        long there = blocks;
        count = 77;
        memset(out, 7, sizeof out);
        left = refused;
        int32_t result = call();
        int is_done = left >= 0;
        left = -1;
        if (is_done) {
            if (result != S2_OK) says(name, refused, "no success with all memory");
            if (kept && !is_code) says(name, refused - 1, "blocks are kept");
            s2_end(&made);
            return refused;
        }
        if (result != S2_NO_MEMORY) says(name, refused, "another result");
        if (made.live) says(name, refused, "a handle is filled");
        if (count != 77 || out[0] != 7 || out[sizeof out - 1] != 7) says(name, refused, "outputs are written");
        if (kept > spare) says(name, refused - 1, "blocks are kept");
        kept = blocks - there;
    }
}

/* The symbols of a frame, and its decision by a receiver and a judge. */
static void prepare(void) {
    static int16_t soft[16200];
    s2_step step = {.size = sizeof step};
    uint32_t verdict;
    must(s2_code_new(rows, length, 1, 1, &code), "code");
    must(s2_shelf_new(&shelf), "shelf");
    must(s2_receiver_new(&code, &options, &rx), "receiver");
    must(s2_transmitter_new(&code, &options, &tx), "transmitter");
    must(s2_judge_new(&code, &options, &judge), "judge");
    must(s2_scan_new(&scan), "scanner");
    memset(out, 71, sizeof out);
    must(s2_transmitter_put(&tx, out, 188 * 10, &count), "put");
    must(s2_transmitter_take(&tx, symbols, sizeof symbols, &count), "take");
    size_t bytes = count;
    must(s2_receiver_advance(&rx, symbols, bytes, &step), "advance");
    must(s2_receiver_soft(&rx, soft, 16200, &count), "soft");
    must(s2_judge_decide(&judge, soft, 16200, &verdict), "judge");
    must(s2_judge_certificate(&judge, before, sizeof before, &size), "certificate");
    if (step.kind != S2_FRAME || verdict != S2_SOLE) exit(70);
}

int main(int argc, char **argv) {
    if (argc < 2) return 64;
    rows = contents(argv[1], &length);
    prepare();
    struct {
        const char *name;
        int32_t (*call)(void);
        int is_code;
        long spare;
    } calls[] = {
        {"s2_code_new", code_new, 1}, {"s2_code_of_shape", shape_code, 1}, {"s2_shelf_new", shelf_new, 0},
        {"s2_shelf_code", shelf_code, 1, 1}, {"s2_receiver_new", receiver_new, 0}, {"s2_receiver_bbframe", receiver_bbframe, 0},
        {"s2_receiver_certificate", receiver_certificate, 0}, {"s2_receiver_reset", receiver_reset, 0}, {"s2_transmitter_new", transmitter_new, 0},
        {"s2_judge_new", judge_new, 0}, {"s2_judge_certificate", judge_certificate, 0}, {"s2_scan_new", scan_new, 0},
        {"s2_scan_feed", scan_feed, 0}, {"s2_scan_find", scan_find, 0}, {"s2_check", check, 0},
    };
    for (size_t i = 0; i < sizeof calls / sizeof *calls; i++)
        if (!refuse(calls[i].name, calls[i].call, calls[i].is_code, calls[i].spare)) says(calls[i].name, 0, "it does not allocate");
    s2_handle *all[] = {&code, &shelf, &rx, &tx, &judge, &scan};
    for (int i = 0; i < 6; i++) s2_end(all[i]);
    free(rows);
    return failed;
}
