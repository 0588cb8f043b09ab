/* A libFuzzer target for the cell list call `planner_orientation`: bytes become a dimension, list lengths and vertex numbers; every list has memory of its own.
 * Besides what the sanitizers see it checks that a refusal leaves the signs as they were, that working lists are zero or untouched, and that signs are +1 or -1
 * and coherent. */
#include <stdint.h>
#include <stdlib.h>
#include <string.h>
#include "../include/planner.h"

static void must(int holds) { if (!holds) abort(); }

static int zero(const uint32_t *list, size_t n) {
    for (size_t i = 0; i < n; i++) if (list[i]) return 0;
    return 1;
}

static int as_filled(const uint32_t *list, size_t from, size_t to) {
    for (size_t i = from; i < to; i++) if (list[i] != 0xA5A5A5A5u) return 0;
    return 1;
}

static uint32_t *lend(size_t n) {
    uint32_t *list = malloc(4 * n);
    memset(list, 0xA5, 4 * n);
    return list;
}

static int by_number(const void *a, const void *b) {
    uint32_t x = *(const uint32_t *)a, y = *(const uint32_t *)b;
    return x < y ? -1 : x > y;
}

static int before(const uint32_t *a, const uint32_t *b, size_t k) {
    while (k--) if (a[k] != b[k]) return a[k] < b[k];
    return 0;
}

/* The cells of the words, sorted and without repeats, written over the words; how many. Insertion is enough for a few dozen words. */
static size_t cells_of(uint32_t *words, size_t count, size_t k) {
    uint32_t w[4];
    size_t m = 0;
    for (size_t i = 0; i < count; i++) {
        memcpy(w, words + i * k, 4 * k);
        qsort(w, k, 4, by_number);
        size_t at = 0;
        while (at < m && before(words + at * k, w, k)) at++;
        if (at < m && !before(w, words + at * k, k)) continue;
        memmove(words + (at + 1) * k, words + at * k, 4 * k * (m - at));
        memcpy(words + at * k, w, 4 * k);
        m++;
    }
    return m;
}

static int same_facet(const uint32_t *a, size_t i, const uint32_t *b, size_t j, size_t k) {
    for (size_t x = 0, p = 0, q = 0; x + 1 < k; x++, p++, q++) {
        if (p == i) p++;
        if (q == j) q++;
        if (a[p] != b[q]) return 0;
    }
    return 1;
}

static void coherent(const uint32_t *cells, size_t m, size_t k, const int32_t *signs) {
    for (size_t a = 0; a < m; a++)
        for (size_t b = a + 1; b < m && k > 1; b++)
            for (size_t i = 0; i < k; i++)
                for (size_t j = 0; j < k; j++)
                    if (same_facet(cells + a * k, i, cells + b * k, j, k))
                        must((i % 2 ? -signs[a] : signs[a]) == -(j % 2 ? -signs[b] : signs[b]));
}

int LLVMFuzzerTestOneInput(const uint8_t *data, size_t size) {
    if (size < 3) return 0;
    uint32_t d = data[0] % 6;
    size_t n = size - 3 > 160 ? 160 : size - 3, k = d + 1;
    size_t need[4] = {5 * n, n, n, n}, have[4];
    for (int i = 0; i < 4; i++) have[i] = need[i] + 2;
    int cramped = data[1] & 128 && n;
    if (cramped) have[data[1] % 4] = need[data[1] % 4] - 1;
    size_t given = data[2] & 1 ? n / k : data[2] % (n + 1);
    uint32_t *words = malloc(4 * n), *room[4];
    int32_t *signs = malloc(4 * given);
    for (size_t i = 0; i < n; i++) words[i] = data[3 + i] == 255 ? 4095u + data[1] % 3 : data[3 + i] & 31;
    for (int i = 0; i < 4; i++) room[i] = lend(have[i]);
    memset(signs, 0xA5, 4 * given);
    uint64_t r = planner_orientation(d, words, n, signs, given, room[0], have[0], room[1], have[1], room[2], have[2], room[3], have[3]);
    uint32_t number = planner_number(r);
    int late = number == 0 || number == 7 || number == 13 || (number == 12 && !cramped);
    must(!late || !cramped);
    for (int i = 0; i < 4; i++) {
        must(late ? zero(room[i], need[i]) : as_filled(room[i], 0, have[i]));
        must(!late || as_filled(room[i], need[i], have[i]));
    }
    if (number == 0) {
        size_t m = planner_value(r);
        must(m <= given && m == cells_of(words, n / k, k) && m > 0 && signs[0] == 1);
        for (size_t i = 0; i < m; i++) must(signs[i] == 1 || signs[i] == -1);
        coherent(words, m, k, signs);
        must(as_filled((uint32_t *)signs, m, given));
    } else {
        must(number <= 13 && as_filled((uint32_t *)signs, 0, given));
    }
    free(words);
    free(signs);
    for (int i = 0; i < 4; i++) free(room[i]);
    return 0;
}
