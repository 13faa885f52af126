/* A library with the header s2.h and no modem: tests/python tests with it what the Python package passes to a library, and what it takes from it.
 *
 * Every output is computed from the frame's number, so a wrong length, place or order shows. A second call on a handle while one is at work,
 * a wrong kind of handle, and a copied handle end the process. fake_live counts the handles that were made and not ended. */
#define _DEFAULT_SOURCE
#include "s2.h"
#include <stdatomic.h>
#include <stdio.h>
#include <stdlib.h>
#include <string.h>
#include <unistd.h>

enum { CODE = 1, SHELF, RECEIVER, TRANSMITTER, JUDGE, SCANNER };
enum { ROOM = 40, FIELD = 100, BITS = 64800, CERTIFICATE = 600000 };

typedef struct {
    int kind;
    s2_handle *handle;
    atomic_int busy;
    s2_options options;
    uint32_t n, k, standard;
    uint64_t number, at, packets;
    uint32_t ends, is_closed, held, is_ready;
    uint8_t last[ROOM];
    size_t fed;
} Fake;

static atomic_int live;
int fake_live(void) { return live; }

static void fail(const char *why) {
    fprintf(stderr, "fake library: %s\n", why);
    abort();
}

static Fake *enter(s2_handle *handle, int kind, int32_t *result) {
    Fake *fake = handle->at;
    *result = S2_OK;
    if (!fake) {
        *result = S2_EMPTY;
        return NULL;
    }
    if (fake->handle != handle) fail("a handle was copied");
    if (fake->kind != kind) {
        *result = S2_OTHER_KIND;
        return NULL;
    }
    if (atomic_fetch_add(&fake->busy, 1)) fail("two calls at a time on a handle");
    return fake;
}

static int32_t leave(Fake *fake, int32_t result) {
    atomic_fetch_sub(&fake->busy, 1);
    return result;
}

static Fake *make(s2_handle *handle, int kind) {
    Fake *fake = calloc(1, sizeof *fake);
    fake->kind = kind;
    fake->handle = handle;
    handle->at = fake;
    handle->live = 1;
    live++;
    return fake;
}

#define ENTER(handle, kind)                      \
    int32_t entered;                             \
    Fake *fake = enter(handle, kind, &entered);  \
    if (!fake) return entered;
#define COPY(length, value)                                                                     \
    do {                                                                                        \
        *count = (length);                                                                      \
        if (*count > room) return leave(fake, S2_TOO_SHORT);                                    \
        for (size_t i = 0; i < *count; i++) out[i] = (value);                                   \
        return leave(fake, S2_OK);                                                              \
    } while (0)

uint32_t s2_version(void) { return S2_VERSION; }

int32_t s2_error_text(int32_t result, char *out, size_t room, size_t *count) {
    char text[40];
    *count = (size_t)snprintf(text, sizeof text, "text of %d", result);
    if (*count > room) return S2_TOO_SHORT;
    memcpy(out, text, *count);
    return S2_OK;
}

void s2_end(s2_handle *handle) {
    if (!handle->at) return;
    if (((Fake *)handle->at)->handle != handle) fail("a copy of a handle was ended");
    free(handle->at);
    *handle = (s2_handle){0};
    live--;
}

int32_t s2_mode_of(uint32_t modcod, uint32_t is_short, uint32_t has_pilots, s2_mode *mode) {
    if (mode->size != sizeof *mode) return S2_BAD_SIZE;
    if (modcod < 1 || modcod > 17) return S2_BAD_MODE;
    *mode = (s2_mode){sizeof *mode, 10 + is_short, 20 + has_pilots, 30, 40, 50, 60, 70, 80, {0}};
    return S2_OK;
}

int32_t s2_code_new(const uint8_t *text, size_t length, uint32_t modcod, uint32_t is_short, s2_handle *code) {
    if (modcod < 1 || modcod > 17 || is_short > 1) return S2_BAD_MODE;
    if (length >= 3 && !memcmp(text, "bad", 3)) return S2_BAD_ROWS;
    if (length >= 6 && !memcmp(text, "memory", 6)) return S2_NO_MEMORY;
    Fake *fake = make(code, CODE);
    fake->n = BITS;
    fake->k = (uint32_t)length;
    fake->standard = is_short;
    return S2_OK;
}

int32_t s2_shelf_new(s2_handle *shelf) {
    make(shelf, SHELF);
    return S2_OK;
}

int32_t s2_shelf_code(s2_handle *shelf, const uint8_t *text, size_t length, uint32_t modcod, uint32_t is_short, s2_handle *code) {
    ENTER(shelf, SHELF)
    return leave(fake, s2_code_new(text, length, modcod, is_short, code));
}

int32_t s2_code_of_shape(const uint8_t *text, size_t length, uint32_t group, uint32_t groups, uint32_t q, s2_handle *code) {
    if (!group || !groups || !q) return S2_BAD_SHAPE;
    if (length >= 3 && !memcmp(text, "bad", 3)) return S2_BAD_ROWS;
    Fake *fake = make(code, CODE);
    fake->n = group * (groups + q);
    fake->k = group * groups;
    return S2_OK;
}

int32_t s2_code_facts(s2_handle *code, uint32_t *n, uint32_t *k, uint32_t *is_standard) {
    ENTER(code, CODE)
    *n = fake->n, *k = fake->k, *is_standard = fake->standard;
    return leave(fake, S2_OK);
}

static int32_t on_code(s2_handle *code, const s2_options *options, s2_handle *handle, int kind) {
    ENTER(code, CODE)
    if (options->size != sizeof *options) return leave(fake, S2_BAD_SIZE);
    if (options->modcod > 17 || (kind != JUDGE && !options->modcod)) return leave(fake, S2_BAD_MODE);
    if (options->scrambling > 262141) return leave(fake, S2_BAD_SCRAMBLING);
    if ((options->given & S2_GIVEN_ROUNDS) && (options->rounds < 1 || options->rounds > 200)) return leave(fake, S2_BAD_TUNING);
    Fake *made = make(handle, kind);
    made->options = *options;
    made->n = fake->n;
    return leave(fake, S2_OK);
}

int32_t s2_receiver_new(s2_handle *code, const s2_options *options, s2_handle *receiver) { return on_code(code, options, receiver, RECEIVER); }
int32_t s2_transmitter_new(s2_handle *code, const s2_options *options, s2_handle *transmitter) {
    return on_code(code, options, transmitter, TRANSMITTER);
}
int32_t s2_judge_new(s2_handle *code, const s2_options *options, s2_handle *judge) { return on_code(code, options, judge, JUDGE); }

/* The options that the receiver was made with: not in the header. */
void fake_options(s2_handle *handle, s2_options *options) { *options = ((Fake *)handle->at)->options; }

static int32_t reset(s2_handle *handle, int kind) {
    ENTER(handle, kind)
    fake->number = fake->at = fake->packets = fake->ends = fake->is_closed = fake->held = fake->is_ready = 0;
    return leave(fake, S2_OK);
}
int32_t s2_receiver_reset(s2_handle *receiver) { return reset(receiver, RECEIVER); }
int32_t s2_transmitter_reset(s2_handle *transmitter) { return reset(transmitter, TRANSMITTER); }

int32_t s2_receiver_room(s2_handle *receiver, size_t *bytes) {
    ENTER(receiver, RECEIVER)
    *bytes = fake->ends ? 0 : ROOM;
    return leave(fake, S2_OK);
}

/* Waits until this many calls were at work at once; fails after a minute. */
static int32_t meet(int calls) {
    static atomic_int inside;
    atomic_fetch_add(&inside, 1);
    for (int tenths = 0; inside < calls; tenths++) {
        if (tenths == 600) return S2_NO_MEMORY;
        usleep(100000);
    }
    return S2_OK;
}

/* The first byte of a frame is 0 for a step without a frame. The next are verdict, outcome, what is fixed, and with how many calls it meets. */
int32_t s2_receiver_advance(s2_handle *receiver, const uint8_t *symbols, size_t length, s2_step *step) {
    ENTER(receiver, RECEIVER)
    if (step->size != sizeof *step) return leave(fake, S2_BAD_SIZE);
    if (length > (fake->ends ? 0u : ROOM)) return leave(fake, S2_TOO_MANY);
    *step = (s2_step){.size = sizeof *step, .kind = S2_NONE, .at = fake->at};
    if (length == ROOM) {
        memcpy(fake->last, symbols, ROOM);
        if (symbols[4] && meet(symbols[4])) return leave(fake, S2_NO_MEMORY);
        if (symbols[0]) {
            step->kind = S2_FRAME;
            step->verdict = symbols[1], step->outcome = symbols[2], step->fixed = symbols[3];
            step->has_figures = fake->options.figures;
            step->number = ++fake->number;
        }
        fake->at += ROOM / 4;
    } else if (fake->ends == 0 && length >= 4) {
        /* with resync the end completes a frame */
        fake->ends = 1;
        step->kind = fake->options.resync ? S2_FRAME : S2_CUT;
        step->number = fake->number += fake->options.resync;
        step->symbols = length / 4;
    } else if (fake->ends < 2) {
        fake->ends = 2;
        step->kind = S2_STREAM_END;
    }
    return leave(fake, S2_OK);
}

int32_t s2_receiver_packets(s2_handle *receiver, uint8_t *out, size_t room, size_t *count) {
    ENTER(receiver, RECEIVER)
    COPY(188 * (fake->number % 41), (uint8_t)(fake->number + i));
}
int32_t s2_receiver_soft(s2_handle *receiver, int16_t *out, size_t room, size_t *count) {
    ENTER(receiver, RECEIVER)
    COPY(fake->n, (int16_t)((fake->number * 7 + i) % 1023 - 511));
}
int32_t s2_receiver_word(s2_handle *receiver, uint8_t *out, size_t room, size_t *count) {
    ENTER(receiver, RECEIVER)
    COPY(fake->n, (uint8_t)((fake->number + i / 3) & 1));
}
int32_t s2_receiver_bbframe(s2_handle *receiver, uint8_t *out, size_t room, size_t *count) {
    ENTER(receiver, RECEIVER)
    if (fake->last[2]) return leave(fake, S2_NONE_THERE);
    COPY(6051, (uint8_t)(3 * fake->number + i));
}
int32_t s2_receiver_certificate(s2_handle *receiver, uint8_t *out, size_t room, size_t *count) {
    ENTER(receiver, RECEIVER)
    if (fake->last[1] < 2) return leave(fake, S2_NONE_THERE);
    COPY(CERTIFICATE, (uint8_t)(5 * fake->number + i));
}

static s2_figures figures_of(uint64_t number, uint32_t equalized) {
    uint32_t small = (uint32_t)number;
    int64_t large = (int64_t)number;
    s2_figures figures = {sizeof figures, small + 1, small + 2, equalized, number + 3, number + 4, number + 5, number + 6, number + 7, number + 8,
                          number + 9, -large - 10, -large - 11, number + 12, -large - 13, -large - 14, 0, 0, 0, 0};
    if (!equalized) return figures;
    figures.gain_along = large + 15, figures.gain_across = -large - 16;
    figures.rotation_along = -large - 17, figures.rotation_across = large + 18;
    return figures;
}
int32_t s2_receiver_figures(s2_handle *receiver, s2_figures *figures) {
    ENTER(receiver, RECEIVER)
    if (figures->size != sizeof *figures) return leave(fake, S2_BAD_SIZE);
    if (!fake->options.figures) return leave(fake, S2_NONE_THERE);
    *figures = figures_of(fake->number, fake->options.equalize);
    return leave(fake, S2_OK);
}
int32_t s2_receiver_sums(s2_handle *receiver, s2_figures *figures) {
    ENTER(receiver, RECEIVER)
    if (figures->size != sizeof *figures) return leave(fake, S2_BAD_SIZE);
    if (!fake->options.figures) return leave(fake, S2_NONE_THERE);
    *figures = figures_of(1000, 0);
    return leave(fake, S2_OK);
}
int32_t s2_receiver_totals(s2_handle *receiver, s2_totals *totals) {
    ENTER(receiver, RECEIVER)
    if (totals->size != sizeof *totals) return leave(fake, S2_BAD_SIZE);
    *totals = (s2_totals){sizeof *totals, 1, fake->number, 2, 3, 4, 5, 6, 7, 8, 9, UINT64_MAX, {0}};
    return leave(fake, S2_OK);
}

int32_t s2_transmitter_put(s2_handle *transmitter, const uint8_t *bytes, size_t length, size_t *taken) {
    ENTER(transmitter, TRANSMITTER)
    if (fake->is_closed) return leave(fake, S2_CLOSED);
    size_t i = 0;
    for (; i < length && !fake->is_ready; i++) {
        if (fake->fed % 188 == 0 && bytes[i] != 0x47) return leave(fake, S2_NO_SYNC);
        fake->fed++;
        fake->packets += fake->fed % 188 == 0;
        if (++fake->held == FIELD) fake->is_ready = 1;
    }
    *taken = i;
    return leave(fake, S2_OK);
}
int32_t s2_transmitter_close(s2_handle *transmitter) {
    ENTER(transmitter, TRANSMITTER)
    if (fake->is_closed) return leave(fake, S2_CLOSED);
    if (fake->fed % 188) return leave(fake, S2_CUT_PACKET);
    fake->is_closed = 1;
    fake->is_ready = fake->held > 0;
    return leave(fake, S2_OK);
}
int32_t s2_transmitter_ready(s2_handle *transmitter, uint32_t *is_ready) {
    ENTER(transmitter, TRANSMITTER)
    *is_ready = fake->is_ready;
    return leave(fake, S2_OK);
}
int32_t s2_transmitter_symbols(s2_handle *transmitter, uint8_t *out, size_t room, size_t *count) {
    ENTER(transmitter, TRANSMITTER)
    COPY(400, (uint8_t)(fake->number * 11 + i));
}
int32_t s2_transmitter_take(s2_handle *transmitter, uint8_t *out, size_t room, size_t *count) {
    ENTER(transmitter, TRANSMITTER)
    if (!fake->is_ready) return leave(fake, S2_NONE_THERE);
    fake->number++;
    fake->held = fake->is_ready = 0;
    COPY(400, (uint8_t)(fake->number * 11 + i));
}
int32_t s2_transmitter_word(s2_handle *transmitter, uint8_t *out, size_t room, size_t *count) {
    ENTER(transmitter, TRANSMITTER)
    COPY(fake->n, (uint8_t)((fake->number + i / 5) & 1));
}
int32_t s2_transmitter_counts(s2_handle *transmitter, uint64_t *packets, uint64_t *frames) {
    ENTER(transmitter, TRANSMITTER)
    *packets = fake->packets, *frames = fake->number;
    return leave(fake, S2_OK);
}

/* The verdict is the first soft value, and bits of the word are those of the values' signs. */
static uint8_t word[BITS];
int32_t s2_judge_decide(s2_handle *judge, const int16_t *soft, size_t length, uint32_t *verdict) {
    ENTER(judge, JUDGE)
    if (length != fake->n) return leave(fake, S2_BAD_SOFT);
    for (size_t i = 0; i < length; i++) {
        if (soft[i] < -511 || soft[i] > 511) return leave(fake, S2_BAD_SOFT);
        word[i] = soft[i] < 0;
    }
    fake->last[1] = (uint8_t)soft[0];
    *verdict = (uint32_t)soft[0];
    return leave(fake, S2_OK);
}
int32_t s2_judge_word(s2_handle *judge, uint8_t *out, size_t room, size_t *count) {
    ENTER(judge, JUDGE)
    COPY(fake->n, word[i]);
}
int32_t s2_judge_certificate(s2_handle *judge, uint8_t *out, size_t room, size_t *count) {
    ENTER(judge, JUDGE)
    if (fake->last[1] < 2) return leave(fake, S2_NONE_THERE);
    COPY(33, (uint8_t)(i + 1));
}

/* The bytes of a certificate are answer, sole, check and minus the cost. */
int32_t s2_check(s2_handle *code, const uint8_t *bytes, size_t length, s2_checked *checked) {
    ENTER(code, CODE)
    if (checked->size != sizeof *checked) return leave(fake, S2_BAD_SIZE);
    if (length != 4) return leave(fake, S2_BAD_CERTIFICATE);
    *checked = (s2_checked){sizeof *checked, bytes[0], bytes[1], bytes[2], -(int64_t)bytes[3], {0}};
    return leave(fake, S2_OK);
}

int32_t s2_scan_new(s2_handle *scanner) {
    make(scanner, SCANNER);
    return S2_OK;
}
int32_t s2_scan_feed(s2_handle *scanner, const uint8_t *symbols, size_t length) {
    ENTER(scanner, SCANNER)
    for (size_t i = 0; i < length; i++) fake->number += symbols[i];
    fake->fed += length;
    return leave(fake, fake->fed > 1000 ? S2_TOO_MANY : S2_OK);
}
int32_t s2_scan_find(s2_handle *scanner, size_t *count) {
    ENTER(scanner, SCANNER)
    *count = fake->fed / 4 % 5;
    return leave(fake, S2_OK);
}
int32_t s2_scan_at(s2_handle *scanner, size_t place, s2_seen *seen) {
    ENTER(scanner, SCANNER)
    if (seen->size != sizeof *seen) return leave(fake, S2_BAD_SIZE);
    uint32_t odd = place & 1;
    *seen = (s2_seen){sizeof *seen, (uint32_t)(7 * place), odd, !odd, (uint32_t)place, odd, !odd, 0, fake->number, 12, 13, 14, 15, {0}};
    return leave(fake, S2_OK);
}
