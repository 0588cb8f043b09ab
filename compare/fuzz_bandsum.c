/* A libFuzzer target for the program `bandsum`: bytes, in memory of just their length, to what it prints. Besides what the sanitizers see it checks that this is one line
 * `refused N` with N in document 01's table, or the six lines in their order, each with a number, and nothing after them.
 * `bandsum_sums::printed` is linked from the module of the crate `bandsum_sums`, where a struct is returned through the first argument and a list is a pointer to its address and length. */
#include <stdint.h>
#include <stdio.h>
#include <stdlib.h>
#include <string.h>

struct text { uint8_t bytes[128]; size_t len; };
struct list { const uint8_t *at; size_t len; };
void printed(struct text *out, struct list *bytes) __asm__("bandsum_sums::printed");

static void must(int holds) { if (!holds) abort(); }

int LLVMFuzzerTestOneInput(const uint8_t *data, size_t size) {
    static const char *names[] = {"cells", "vertices", "edges", "border", "sides"};
    uint8_t *copy = malloc(size ? size : 1);
    memcpy(copy, data, size);
    struct list bytes = {copy, size};
    struct text out;
    printed(&out, &bytes);
    must(memcmp(copy, data, size) == 0);
    free(copy);
    must(out.len > 0 && out.len < sizeof out.bytes && out.bytes[out.len - 1] == '\n');
    char said[129], again[129];
    memcpy(said, out.bytes, out.len);
    said[out.len] = 0;
    must(strlen(said) == out.len);
    unsigned n[5];
    char ordered[4];
    if (sscanf(said, "refused %u", &n[0]) == 1) {
        must(n[0] == 1 || n[0] == 3 || (n[0] >= 6 && n[0] <= 9) || n[0] == 17);
        snprintf(again, sizeof again, "refused %u\n", n[0]);
    } else {
        must(sscanf(said, "cells %u\nvertices %u\nedges %u\nborder %u\nsides %u\nordered %3s", &n[0], &n[1], &n[2], &n[3], &n[4], ordered) == 6);
        must(n[0] >= 1 && n[0] <= 4096 && n[1] <= 4096 && (n[4] == 1 || n[4] == 2) && (!strcmp(ordered, "yes") || !strcmp(ordered, "no")));
        int at = 0;
        for (int i = 0; i < 5; i++) at += snprintf(again + at, sizeof again - (size_t)at, "%s %u\n", names[i], n[i]);
        snprintf(again + at, sizeof again - (size_t)at, "ordered %s\n", ordered);
    }
    must(strcmp(said, again) == 0);
    return 0;
}
