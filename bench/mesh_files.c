/* Times reading and writing mesh files against a plain loop in C that walks the same records, copies every field with memcpy and makes the same tests of the bytes, but not
 * those of a cell list. One line a file: its bytes, and for the loop, the reader and the writer the median in megabytes a second of CPU time. */
#define _GNU_SOURCE
#include <stdio.h>
#include <stdlib.h>
#include <string.h>
#include <time.h>
#include "planner.h"

#define MOST 2000000
#define RUNS 201

static uint8_t file[MOST], out[MOST];
static uint32_t words[MOST], births[MOST], pairs[MOST], room[4][MOST], shape[3];
static size_t cells, many, weights;

#define ROOM room[0], MOST, room[1], MOST, room[2], MOST, room[3], MOST

static uint32_t four(const uint8_t *p) { uint32_t n; memcpy(&n, p, 4); return n; }
static uint32_t two(const uint8_t *p) { uint16_t n; memcpy(&n, p, 2); return n; }

static void sorted(uint32_t *w, size_t n) {
    for (size_t i = 1; i < n; i++)
        for (size_t j = i; j && w[j] < w[j - 1]; j--) { uint32_t x = w[j]; w[j] = w[j - 1]; w[j - 1] = x; }
}

static int before(const uint32_t *v, const uint32_t *w, size_t n) {
    uint32_t a[4], b[4];
    memcpy(a, v, 4 * n), memcpy(b, w, 4 * n), sorted(a, n), sorted(b, n);
    while (n--) if (a[n] != b[n]) return a[n] < b[n];
    return 0;
}

/* the plain loop: 1 where the bytes are taken */
static int plain(const uint8_t *p, size_t size) {
    const uint8_t *end = p + size;
    if (size < 10 || four(p) != 6 || two(p + 4) != 1) return 0;
    size_t d = two(p + 6), n = d + 1, at = 0, top = 0, first = 0, r = 0, next = 0, k = 0;
    cells = two(p + 8), many = weights = 0;
    if (d > 3 || cells > 4096) return 0;
    for (p += 10; k < cells; k++, p += 6 + 4 * n, at += n) {
        if ((size_t)(end - p) < 6 + 4 * n || four(p) != 2 + 4 * n || two(p + 4) != 2) return 0;
        memcpy(words + at, p + 6, 4 * n);
        if (k && !before(words + at - n, words + at, n)) return 0;
        for (size_t i = 0; i < n; i++) if (words[at + i] >= top) top = (size_t)words[at + i] + 1;
    }
    for (;;) {
        if (end - p < 6) return 0;
        size_t len = four(p), kind = two(p + 4), sum = 0, low = 0;
        if (kind == 4) return len == 2 && p + 6 == end && (!r || next == top);
        if (kind != 3 || end - p < 14) return 0;
        size_t number = four(p + 6), own = two(p + 10), count = two(p + 12);
        if (number >= top || (r && (number != next || own != r)) || own < 2 || own > 64 || count < 2 || len != 10 + 6 * count) return 0;
        if ((size_t)(end - p) < 4 + len) return 0;
        if (!r) first = number, r = own;
        births[3 * many] = (uint32_t)number, births[3 * many + 1] = (uint32_t)own, births[3 * many + 2] = (uint32_t)count;
        for (p += 14; count; count--, p += 6) {
            uint32_t v = four(p), w = two(p + 4);
            if (v < low || v >= first || !w) return 0;
            pairs[2 * weights] = v, pairs[2 * weights + 1] = w;
            weights++, low = (size_t)v + 1, sum += w;
        }
        if (sum != r) return 0;
        many++, next = number + 1;
    }
}

static double now(void) {
    struct timespec t;
    clock_gettime(CLOCK_THREAD_CPUTIME_ID, &t);
    return (double)t.tv_sec * 1e9 + (double)t.tv_nsec;
}

static int rising(const void *a, const void *b) { return (*(const double *)a > *(const double *)b) - (*(const double *)a < *(const double *)b); }

static uint64_t once(int which, size_t size) {
    if (which == 0) return plain(file, size) ? 0 : 1ull << 32;
    if (which == 1) return planner_read_mesh(file, size, words, MOST, births, MOST, pairs, MOST, ROOM, shape);
    return planner_write_mesh(shape[0], words, cells * (shape[0] + 1), births, 3 * many, pairs, 2 * weights, out, MOST, ROOM);
}

int main(int argc, char **argv) {
    for (int i = 1; i < argc; i++) {
        FILE *f = fopen(argv[i], "rb");
        size_t size = f ? fread(file, 1, MOST, f) : 0;
        if (f) fclose(f);
        printf("%s %zu bytes, MB/s:", argv[i], size);
        for (int which = 0; which < 3; which++) {
            static double t[RUNS];
            for (int k = 0; k < RUNS; k++) {
                double s = now();
                if (planner_number(once(which, size)) != 0) {
                    printf(" refused\n");
                    return 1;
                }
                t[k] = now() - s;
            }
            qsort(t, RUNS, sizeof t[0], rising);
            printf(" %s %.0f", which == 0 ? "plain loop" : which == 1 ? "read_mesh" : "write_mesh", (double)size * 1000 / t[RUNS / 2]);
        }
        printf("%s\n", memcmp(file, out, size) ? ", written otherwise" : "");
    }
    return 0;
}
