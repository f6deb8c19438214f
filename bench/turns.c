/* Image readers in turn over the same file and buffers. */
#include "turns.h"
#include "frames.h"
#include <stdio.h>
#include <stdlib.h>
#include <string.h>

void print_columns(const char *about, const char *size, const char *unit, const char *copied) {
    printf("| %s | %s | gcc -O3, ns/%s | clang -O3 | quayrudder | %s | ratio to the faster |\n", about, size, unit, copied);
    puts("|---|---|---|---|---|---|---|");
}

void print_best(const char *name, unsigned size, const double best[4], size_t n, int wrong) {
    double faster = best[0] < best[1] ? best[0] : best[1], scale = 1e9 / (double)n;
    printf("| %s | %4u | %6.3f | %6.3f | %6.3f | %6.3f | %5.2f |%s\n", name, size, best[0] * scale, best[1] * scale, best[2] * scale, best[3] * scale,
           best[2] / faster, wrong ? " WRONG" : "");
    fflush(stdout);
    if (wrong) exit(1);
}

void print_head(void) {
    print_columns("file", "side", "pixel", "memcpy of the image");
}

/* Each once; pixels are compared with those expected, if any are given. The answer: 0, or a refusal, or 99 where pixels differ. */
static int turn(reader *read, const void *file, uint32_t *px, size_t n, const uint32_t *expected, double best[4]) {
    int wrong = 0;
    for (int who = 0; who < 4; who++) {
        double t = now();
        wrong |= read(who, file, px);
        t = now() - t;
        if (t < best[who]) best[who] = t;
        if (expected && who < 3 && memcmp(px, expected, 4 * n)) wrong = 99;
    }
    return wrong;
}

void print_row(const char *name, unsigned side, reader *read, const void *file, size_t n, int rounds) {
    uint32_t *px = malloc(n * 4), *expected = malloc(n * 4);
    double best[4] = { 1e9, 1e9, 1e9, 1e9 };
    int wrong = read(0, file, expected);
    /* compared in the first round only, as bench.c says */
    for (int round = 0; round < rounds && !wrong; round++) wrong = turn(read, file, px, n, round ? 0 : expected, best);
    free(px), free(expected);
    print_best(name, side, best, n, wrong);
}
