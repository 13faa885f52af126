// Layered min-sum in lanes, group by group, with the same rule and the same order of layers; times rounds.
// minsum GROUP GROUPS Q FACTOR ROWS NAME
#include <algorithm>
#include <chrono>
#include <cstdint>
#include <cstdio>
#include <cstdlib>
#include <fstream>
#include <sstream>
#include <string>
#include <vector>

typedef int16_t i16;

static const int CAP = 1023;

struct Entry { int row, shift; };

static void subtract(i16 *__restrict to, const i16 *__restrict a, const i16 *__restrict b, int n) {
    for (int i = 0; i < n; i++) to[i] = a[i] - b[i];
}

static void add(i16 *__restrict to, const i16 *__restrict from, int n) {
    for (int i = 0; i < n; i++) to[i] += from[i];
}

static i16 size_of(i16 v) { i16 n = (i16)-v; return v < n ? n : v; }

static void track(i16 *__restrict first, i16 *__restrict second, i16 *__restrict signs, const i16 *__restrict input, int n) {
    for (int i = 0; i < n; i++) {
        i16 v = input[i], size = size_of(v), least = first[i], next = second[i];
        i16 larger = least > size ? least : size;
        second[i] = next < larger ? next : larger;
        first[i] = least < size ? least : size;
        signs[i] = (i16)(signs[i] ^ v);
    }
}

// The sizes of messages to those that are not the least, and to those that are, once a check.
static void reduce(i16 *__restrict low, i16 *__restrict high, const i16 *__restrict first, const i16 *__restrict second, i16 lacks, int n) {
    for (int i = 0; i < n; i++) {
        low[i] = (i16)(first[i] - ((i16)(first[i] * lacks) >> 4));
        high[i] = (i16)(second[i] - ((i16)(second[i] * lacks) >> 4));
    }
}

static void send(i16 *__restrict input, i16 *__restrict message, const i16 *__restrict first, const i16 *__restrict low,
                 const i16 *__restrict high, const i16 *__restrict signs, int n) {
    for (int i = 0; i < n; i++) {
        i16 v = input[i], size = size_of(v), one = first[i], less = low[i], more = high[i], before = message[i];
        i16 reduced = size == one ? more : less;
        i16 mask = (i16)((i16)(signs[i] ^ v) >> 15);
        i16 sent = (i16)((reduced ^ mask) - mask);
        input[i] = (i16)(sent - before);
        message[i] = sent;
    }
}

struct Decoder {
    int group, groups, q;
    i16 lacks;
    std::vector<std::vector<Entry>> layers;
    std::vector<i16> soft, posteriors, messages, inputs, first, second, signs, low, high;
    std::vector<size_t> begins;

    Decoder(int group, int groups, int q, int factor, const std::vector<std::vector<int>> &rows)
        : group(group), groups(groups), q(q), lacks((i16)(16 - factor)), layers(q) {
        for (int g = 0; g < groups; g++)
            for (int x : rows[g]) layers[x % q].push_back({g, x / q});
        size_t all = 0, most = 0;
        for (int r = 0; r < q; r++) {
            layers[r].push_back({groups + r, 0});
            layers[r].push_back(r ? Entry{groups + r - 1, 0} : Entry{groups + q - 1, 1});
            begins.push_back(all);
            all += layers[r].size();
            most = std::max(most, layers[r].size());
        }
        posteriors.assign((size_t)(groups + q) * group, 0);
        messages.assign(all * group, 0);
        inputs.assign(most * group, 0);
        first.assign(group, 0);
        second = signs = low = high = first;
    }

    size_t edges() const { return messages.size() - 1; }

    void layer(int r) {
        const std::vector<Entry> &entries = layers[r];
        int n = group, count = (int)entries.size();
        i16 *sent = &messages[begins[r] * n];
        for (int e = 0; e < count; e++) {
            const i16 *row = &posteriors[(size_t)entries[e].row * n];
            int s = entries[e].shift;
            subtract(&inputs[(size_t)e * n], row + n - s, sent + (size_t)e * n, s);
            subtract(&inputs[(size_t)e * n + s], row, sent + (size_t)e * n + s, n - s);
        }
        // Check 0 has no parity bit before its own.
        if (r == 0) inputs[(size_t)(count - 1) * n] = CAP;
        std::fill(first.begin(), first.end(), CAP);
        std::fill(second.begin(), second.end(), CAP);
        std::fill(signs.begin(), signs.end(), 0);
        for (int e = 0; e < count; e++) track(first.data(), second.data(), signs.data(), &inputs[(size_t)e * n], n);
        reduce(low.data(), high.data(), first.data(), second.data(), lacks, n);
        for (int e = 0; e < count; e++) send(&inputs[(size_t)e * n], sent + (size_t)e * n, first.data(), low.data(), high.data(), signs.data(), n);
        if (r == 0) inputs[(size_t)(count - 1) * n] = 0;
        for (int e = 0; e < count; e++) {
            i16 *row = &posteriors[(size_t)entries[e].row * n];
            int s = entries[e].shift;
            add(row, &inputs[(size_t)e * n + s], n - s);
            add(row + n - s, &inputs[(size_t)e * n], s);
        }
    }

    void round() { for (int r = 0; r < q; r++) layer(r); }
};

int main(int argc, char **argv) {
    if (argc != 7) return 1;
    int group = atoi(argv[1]), groups = atoi(argv[2]), q = atoi(argv[3]), factor = atoi(argv[4]);
    std::ifstream in(argv[5]);
    std::vector<std::vector<int>> rows;
    for (std::string line; std::getline(in, line);) {
        std::istringstream words(line);
        std::vector<int> row;
        for (int x; words >> x;) row.push_back(x);
        if (!row.empty()) rows.push_back(row);
    }
    if ((int)rows.size() != groups) return 1;
    Decoder decoder(group, groups, q, factor, rows);
    uint32_t state = 1;
    // Values as a receiver has them: about 224, some wrong.
    for (int b = 0; b < group * (groups + q); b++) {
        state = state * 1664525u + 1013904223u;
        int value = 224 + (int)(state >> 23) - 256;
        int k = group * groups;
        int row = b < k ? b / group : groups + (b - k) % q, lane = b < k ? b % group : (b - k) / q;
        decoder.posteriors[(size_t)row * group + lane] = (i16)value;
    }
    double least = 1e9, sum = 0;
    for (int i = 0; i < 200; i++) {
        auto start = std::chrono::steady_clock::now();
        decoder.round();
        double us = std::chrono::duration<double, std::micro>(std::chrono::steady_clock::now() - start).count();
        least = std::min(least, us);
        sum += us;
    }
    long check = 0;
    for (i16 v : decoder.posteriors) check += v;
    printf("%s_%d least %.0f mean %.0f posteriors %ld\n", argv[6], factor, least, sum / 200, check);
}
