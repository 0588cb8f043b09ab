/* lent FILE: makes the calls that compare.py wrote down, each list in memory of its own of just its length, and compares every answer and every list.
 * To be run under valgrind, or built with an address sanitizer, over libplanner.a: a read or a write past a list, or of a value that nobody wrote, is then found.
 * x86-64 only: it passes every whole number and pointer as a 64-bit argument and every float as a double. */
#include <dlfcn.h>
#include <stdint.h>
#include <stdio.h>
#include <stdlib.h>
#include <string.h>

typedef uint64_t (*call)(uint64_t, uint64_t, uint64_t, uint64_t, uint64_t, uint64_t, uint64_t, uint64_t, uint64_t, uint64_t, uint64_t, uint64_t, uint64_t,
                         uint64_t, uint64_t, uint64_t, uint64_t, uint64_t, uint64_t, uint64_t, uint64_t, uint64_t, uint64_t, uint64_t, uint64_t, uint64_t,
                         uint64_t, uint64_t, uint64_t, uint64_t, uint64_t, uint64_t, uint64_t, uint64_t, uint64_t, uint64_t, uint64_t, uint64_t, uint64_t,
                         uint64_t, uint64_t, uint64_t, uint64_t, uint64_t, uint64_t, uint64_t, uint64_t, uint64_t, double, double);

static void take(void *to, size_t n, FILE *f) {
    if (n && fread(to, 1, n, f) != n) { fprintf(stderr, "the file ends in the middle of a call\n"); exit(2); }
}

int main(int argc, char **argv) {
    FILE *f = argc > 1 ? fopen(argv[1], "rb") : NULL;
    if (!f) { fprintf(stderr, "usage: lent FILE\n"); return 2; }
    struct { char name[64]; uint64_t answer; uint32_t whole, floats, lists, fixed; } head;
    long made = 0, differences = 0;
    while (fread(&head, 88, 1, f) == 1) {
        uint64_t args[48] = {0};
        double floats[2] = {0};
        void *lists[24], *after[24];
        size_t sizes[24];
        unsigned n = head.whole, parts = head.lists + head.fixed;
        if (n > 8 || head.floats > 2 || parts > 24 || n + 2 * head.lists + head.fixed > 48) { fprintf(stderr, "a call with too many parts\n"); return 2; }
        take(args, 8 * n, f);
        take(floats, 8 * head.floats, f);
        for (unsigned i = 0; i < parts; i++) {
            uint32_t shape[2];
            take(shape, 8, f);
            sizes[i] = (size_t)shape[0] * shape[1];
            lists[i] = malloc(sizes[i]);
            after[i] = malloc(sizes[i]);
            take(lists[i], sizes[i], f);
            take(after[i], sizes[i], f);
            args[n++] = (uint64_t)(uintptr_t)lists[i];
            if (i < head.lists) args[n++] = shape[1];
        }
        call c;
        void *symbol = dlsym(RTLD_DEFAULT, head.name);
        if (!symbol) { fprintf(stderr, "%s is not in the library\n", head.name); return 2; }
        memcpy(&c, &symbol, sizeof c);
        uint64_t answer = c(args[0], args[1], args[2], args[3], args[4], args[5], args[6], args[7], args[8], args[9], args[10], args[11], args[12], args[13],
                            args[14], args[15], args[16], args[17], args[18], args[19], args[20], args[21], args[22], args[23], args[24], args[25], args[26], args[27],
                            args[28], args[29], args[30], args[31], args[32], args[33], args[34], args[35], args[36], args[37], args[38], args[39], args[40], args[41],
                            args[42], args[43], args[44], args[45], args[46], args[47], floats[0], floats[1]);
        int same = answer == head.answer;
        for (unsigned i = 0; i < parts; i++) {
            same = same && memcmp(lists[i], after[i], sizes[i]) == 0;
            free(lists[i]);
            free(after[i]);
        }
        made++;
        if (!same) { differences++; fprintf(stderr, "call %ld, %s: differs\n", made, head.name); }
    }
    printf("made %ld calls, %ld differences\n", made, differences);
    return differences ? 1 : 0;
}
