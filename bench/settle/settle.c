/* Settling in plain C, after the rule's description over checks and members: times it on the same noisy words of zeros as time_settle.rt.in,
   by a row file of rate 1/2 of normal frames on standard input, and tells what it finds by the same sums. */
#include <stdint.h>
#include <stdio.h>
#include <stdlib.h>
#include <string.h>
#include <time.h>

enum { GROUP = 360, GROUPS = 90, Q = 90, K = GROUP * GROUPS, M = GROUP * Q, N = K + M };

static int *first_member, *members;
static int16_t rests[N], amount[M], soft[N]; /* modulo 2^16 */
static int target[M];

static int by_number(const void *a, const void *b) { return *(const int *)a - *(const int *)b; }

static void read_rows(void) {
  static int pairs[M][64], count[M];
  char line[4096];
  for (int g = 0; g < GROUPS && fgets(line, sizeof line, stdin); g++) {
    char *at = line, *end;
    for (long x = strtol(at, &end, 10); end != at; at = end, x = strtol(at, &end, 10))
      for (int i = 0; i < GROUP; i++) {
        int j = (x + (long)i * Q) % M, bit = g * GROUP + i, seen = 0;
        for (int k = 0; k < count[j]; k++) seen |= pairs[j][k] == bit;
        if (!seen) pairs[j][count[j]++] = bit;
      }
  }
  first_member = calloc(M + 1, sizeof(int));
  int edges = 0;
  for (int j = 0; j < M; j++) {
    qsort(pairs[j], count[j], sizeof(int), by_number);
    if (j) pairs[j][count[j]++] = K + j - 1;
    pairs[j][count[j]++] = K + j;
    edges += count[j];
  }
  members = malloc(edges * sizeof(int));
  for (int j = 0, e = 0; j < M; j++) {
    first_member[j] = e;
    for (int k = 0; k < count[j]; k++) members[e++] = pairs[j][k];
    first_member[j + 1] = e;
  }
}

static inline int raised(int i, int t, int a) { return i == t ? a : -a; }

static inline int above(int a, int b) { return a > b ? a - b : 0; }

/* The move of a check. */
static inline void choose(int j, int margin, int further, int *to, int16_t *much) {
  int first = INT16_MAX, second = first, third = first, at = members[first_member[j]];
  for (int e = first_member[j]; e < first_member[j + 1]; e++) {
    int i = members[e], input = (int16_t)(rests[i] - raised(i, target[j], amount[j]));
    if (input < first) third = second, second = first, first = input, at = i;
    else if (input < second) third = second, second = input;
    else if (input < third) third = input;
  }
  int free = above(second - first, above(margin, third - second) / 2) / 2;
  if (further && amount[j] && at == target[j])
    free = above(free + above(free, amount[j]) / 2, (above(amount[j], free) + 1) / 2);
  *to = at;
  *much = free;
}

static inline void put(int j, int to, int16_t much) {
  for (int e = first_member[j]; e < first_member[j + 1]; e++) {
    int i = members[e];
    rests[i] += raised(i, to, much) - raised(i, target[j], amount[j]);
  }
  target[j] = to;
  amount[j] = much;
}

static void layer(int r, int margin, int further) {
  static int to[GROUP];
  static int16_t much[GROUP];
  for (int c = 0; c < GROUP; c++) choose(r + c * Q, margin, further, &to[c], &much[c]);
  for (int c = 0; c < GROUP; c++) put(r + c * Q, to[c], much[c]);
}

static int lacking(void) {
  int count = 0;
  for (int i = 0; i < N; i++) count += rests[i] < 1;
  return count;
}

static int settle(int passes) {
  long sum = 0;
  for (int i = 0; i < N; i++) rests[i] = 16 * soft[i], sum += abs(soft[i]);
  memset(target, 0, sizeof target);
  memset(amount, 0, sizeof amount);
  long margin = 16 * (sum / N) * 2 / 5, before = 0;
  for (int pass = 0;; pass++) {
    long now = lacking();
    if (!now) return 1;
    if (pass == passes || (pass >= 2 && now > N / 200 && now > before + 24)) return 0;
    if (pass) margin = margin * 5 * (now < before ? now : before) / (6 * before);
    int further = pass < 2 || now < before;
    before = now;
    for (int r = 0; r < Q; r++) layer(r, margin, further);
  }
}

static uint32_t seed;

static int64_t next_sum(void) {
  int64_t sum = 0;
  for (int k = 0; k < 12; k++) seed = seed * 1664525u + 1013904223u, sum += seed >> 16;
  return sum;
}

static uint32_t sum_of(void) {
  uint32_t sum = 0;
  for (int j = 0; j < M; j++)
    for (int e = first_member[j]; e < first_member[j + 1]; e++)
      sum = sum * 31 + (uint32_t)(-raised(members[e], target[j], amount[j]));
  return sum;
}

static long nanos(void) {
  struct timespec at;
  clock_gettime(CLOCK_PROCESS_CPUTIME_ID, &at);
  return at.tv_sec * 1000000000L + at.tv_nsec;
}

int main(void) {
  static const struct { const char *name; int deviation, value, passes, frames; } levels[] = {
      {"clean", 30, 239, 96, 8},        {"qpsk_at_2.0", 190, 239, 96, 4},  {"qpsk_at_2.7", 175, 239, 96, 8},
      {"qpsk_at_3.0", 169, 239, 96, 12}, {"qpsk_at_4.0", 151, 239, 96, 12}, {"qpsk_at_6.0", 120, 239, 96, 12},
      {"one_pass", 190, 239, 1, 8},     {"two_passes", 190, 239, 2, 8}};
  read_rows();
  for (size_t l = 0; l < sizeof levels / sizeof *levels; l++) {
    seed = 1;
    for (int f = 0; f < levels[l].frames; f++) {
      for (int i = 0; i < N; i++) {
        int64_t v = levels[l].value + levels[l].deviation * (next_sum() - 393210) / 65536;
        soft[i] = v < -511 ? -511 : v > 511 ? 511 : v;
      }
      long least = INT64_MAX;
      int found = 0;
      for (int k = 0; k < 3; k++) {
        long start = nanos();
        found = settle(levels[l].passes);
        long spent = nanos() - start;
        least = spent < least ? spent : least;
      }
      printf("%s %s %u %ld\n", levels[l].name, found ? "true" : "false", found ? sum_of() : 0, least);
    }
  }
}
