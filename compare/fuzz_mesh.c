/* A libFuzzer target for `planner_read_mesh`: the input is the file; every list has memory of its own, and a sum of the bytes picks one that is lent too short. Besides what
 * the sanitizers see it checks that a refusal leaves every result list and the shape as they were, that working lists are zero or untouched, that lists of the promised
 * lengths are long enough, and that `planner_write_mesh` on the lists that were read writes the same bytes again and nothing past them.
 *
 * Built as compare/memory builds lent.c, the module with `-fsanitize=fuzzer-no-link,address` and this file with `-fsanitize=fuzzer,address` (compare/fuzz_mesh). */
#include <stdint.h>
#include <stdlib.h>
#include <string.h>
#include "../include/planner.h"

enum { WORDS, BIRTHS, PAIRS, KEYS, ROWS, SPARE, COUNTS, LISTS };

static void must(int holds) { if (!holds) abort(); }

static int zero(const uint32_t *list, size_t n) {
    for (size_t i = 0; i < n; i++) if (list[i]) return 0;
    return 1;
}

static int as_filled(const uint32_t *list, size_t from, size_t to) {
    for (size_t i = from; i < to; i++) if (list[i] != 0xA5A5A5A5u) return 0;
    return 1;
}

static uint32_t *lend(size_t n) {
    uint32_t *list = malloc(4 * n);
    memset(list, 0xA5, 4 * n);
    return list;
}

/* the lists that were read, written again into exactly as many bytes, and into one too few */
static void again(uint32_t d, const uint32_t *const *read, const size_t *got, const uint8_t *file, size_t size) {
    size_t n = got[WORDS], need[4] = {(d ? d : 1) * n, n, n, n};
    uint32_t *room[4];
    uint8_t *bytes = malloc(size), *less = malloc(size - 1);
    for (int i = 0; i < 4; i++) room[i] = lend(need[i]);
    uint64_t r = planner_write_mesh(d, read[WORDS], n, read[BIRTHS], got[BIRTHS], read[PAIRS], got[PAIRS], bytes, size, room[0], need[0], room[1], need[1], room[2], need[2], room[3], need[3]);
    must(r == size && !memcmp(bytes, file, size));
    memset(less, 0xA5, size - 1);
    r = planner_write_mesh(d, read[WORDS], n, read[BIRTHS], got[BIRTHS], read[PAIRS], got[PAIRS], less, size - 1, room[0], need[0], room[1], need[1], room[2], need[2], room[3], need[3]);
    must(planner_number(r) == PLANNER_TOO_SHORT);
    for (size_t i = 0; i + 1 < size; i++) must(less[i] == 0xA5);
    for (int i = 0; i < 4; i++) {
        must(zero(room[i], need[i]));
        free(room[i]);
    }
    free(bytes);
    free(less);
}

int LLVMFuzzerTestOneInput(const uint8_t *data, size_t size) {
    size_t n = size / 4, lens[LISTS] = {n, size / 8, size / 3, 3 * n, n, n, n};
    uint32_t sum = 0, shape[3] = {7, 7, 7}, *list[LISTS];
    for (size_t i = 0; i < size; i++) sum = sum * 31 + data[i];
    int which = sum % 16 < LISTS ? (int)(sum % 16) : -1;
    if (which >= 0) lens[which] = lens[which] * (sum / 16 % 8) / 8;
    for (int i = 0; i < LISTS; i++) list[i] = lend(lens[i]);
    uint8_t *file = malloc(size);
    memcpy(file, data, size);
    uint64_t r = planner_read_mesh(
        file, size, list[WORDS], lens[WORDS], list[BIRTHS], lens[BIRTHS], list[PAIRS], lens[PAIRS], list[KEYS], lens[KEYS], list[ROWS], lens[ROWS], list[SPARE], lens[SPARE],
        list[COUNTS], lens[COUNTS], shape);
    uint32_t number = planner_number(r);
    must(!memcmp(file, data, size));
    if (number == 0) {
        uint32_t d = shape[0], cells = planner_value(r);
        size_t got[3] = {(size_t)cells * (d + 1), 3 * (size_t)shape[1], 2 * (size_t)shape[2]};
        size_t need[4] = {(d ? d : 1) * got[WORDS], got[WORDS], got[WORDS], got[WORDS]};
        must(d <= 3 && size == 16 + (10 + 4 * (size_t)d) * cells + 14 * (size_t)shape[1] + 6 * (size_t)shape[2]);
        for (int i = 0; i < 3; i++) must(got[i] <= lens[i] && as_filled(list[i], got[i], lens[i]));
        for (int i = 0; i < 4; i++) must(zero(list[KEYS + i], need[i]) && as_filled(list[KEYS + i], need[i], lens[KEYS + i]));
        again(d, (const uint32_t *const *)list, got, data, size);
    } else {
        must(number <= 7 || number == 12 || (number >= 20 && number <= 22));
        must(number != 12 || which >= 0);
        must(shape[0] == 7 && shape[1] == 7 && shape[2] == 7);
        for (int i = 0; i < 3; i++) must(as_filled(list[i], 0, lens[i]));
        if (number < 7 || number >= 20)
            for (int i = KEYS; i < LISTS; i++) must(as_filled(list[i], 0, lens[i]));
    }
    free(file);
    for (int i = 0; i < LISTS; i++) free(list[i]);
    return 0;
}
