/* Times the proved library against plain C by gcc -O3 and clang -O3: the same frames, the same buffers, in turn, best of several. */
#include "frames.h"
#include "quayrudder.h"
#include <stdio.h>
#include <stdlib.h>
#include <string.h>

/* Short rounds, many of them: on a shared machine some fall into a quiet moment. */
static int rounds(unsigned side) { return side <= 1024 ? 150 : 15; }

/* What was read or written is compared in the first round only: in every round it favours whoever has the first turn, since nothing is compared after memcpy. */
static int compared(int round) { return round == 0; }

static void row(const char *name, int format, unsigned side, int width, int under_width, unsigned below) {
    frame f = make(format, side, width, under_width, below);
    size_t n = f.plain.pixels;
    uint32_t *px = malloc(n * 4), *expected = malloc(n * 4);
    double best[4] = { 1e9, 1e9, 1e9, 1e9 };
    int repeat = side <= 512 ? 2 : 1;
    memset(px, 1, n * 4);
    int refused = plain(0, format, &f, expected);
    for (int round = 0; round < rounds(side); round++) {
        for (int who = 0; who < 4; who++) {
            double t = now();
            for (int k = 0; k < repeat; k++) {
                if (who < 2) refused |= plain(who, format, &f, px);
                else if (who == 2) refused |= (int)qr_read(f.bytes, f.length, px, n).refusal;
                else memcpy(px, f.bytes + HEADER, n * width);
            }
            t = (now() - t) / repeat;
            if (t < best[who]) best[who] = t;
            if (compared(round) && who == 2 && memcmp(px, expected, n * 4)) refused = 99;
        }
    }
    double faster = best[0] < best[1] ? best[0] : best[1];
    printf("| read %d, %s | %4u | %6.3f | %6.3f | %6.3f | %6.3f | %5.2f |%s\n", format, name, side, best[0] * 1e9 / n, best[1] * 1e9 / n,
           best[2] * 1e9 / n, best[3] * 1e9 / n, best[2] / faster, refused ? " WRONG" : "");
    fflush(stdout);
    free(px), free(expected), free(f.bytes);
    if (refused) exit(1);
}

static void write_row(const char *name, unsigned side, int width, int under_width, unsigned below) {
    frame f = make(100, side, width, under_width, below);
    size_t n = f.plain.pixels;
    uint32_t *px = malloc(n * 4);
    int refused = plain(0, 100, &f, px);
    plain_pixels p = { f.bytes, HEADER, px, n, width, under_width, f.plain.baseline };
    uint8_t *expected = malloc(f.length), *out = malloc(f.length);
    double best[4] = { 1e9, 1e9, 1e9, 1e9 };
    int repeat = side <= 512 ? 2 : 1;
    if (gcc_write_100(&p, expected) != f.length) refused = 99;
    for (int round = 0; round < rounds(side); round++) {
        for (int who = 0; who < 4; who++) {
            memset(out, 170, f.length);
            double t = now();
            for (int k = 0; k < repeat; k++) {
                if (who == 0) gcc_write_100(&p, out);
                else if (who == 1) clang_write_100(&p, out);
                else if (who == 2) refused |= (int)qr_write(f.bytes, f.length, px, n, width, under_width, out, f.length).refusal;
                else memcpy(out, px, n * width);
            }
            t = (now() - t) / repeat;
            if (t < best[who]) best[who] = t;
            if (compared(round) && who < 3 && memcmp(out, expected, f.length)) refused = 99;
        }
    }
    double faster = best[0] < best[1] ? best[0] : best[1];
    printf("| write 100, %s | %4u | %6.3f | %6.3f | %6.3f | %6.3f | %5.2f |%s\n", name, side, best[0] * 1e9 / n, best[1] * 1e9 / n,
           best[2] * 1e9 / n, best[3] * 1e9 / n, best[2] / faster, refused ? " WRONG" : "");
    fflush(stdout);
    free(px), free(expected), free(out), free(f.bytes);
    if (refused) exit(1);
}

int main(void) {
    unsigned sides[] = { 512, 1024, 4096 };
    puts("| frame | side | gcc -O3, ns/pixel | clang -O3 | quayrudder | memcpy of the image | ratio to the faster |");
    puts("|---|---|---|---|---|---|---|");
    for (int s = 0; s < 3; s++) {
        unsigned side = sides[s];
        row("width 1, none", 100, side, 1, 0, 0);
        row("width 1, underflows 2, 1% below", 100, side, 1, 2, 10);
        row("width 1, underflows 2, 10% below", 100, side, 1, 2, 100);
        row("width 1, underflows 2, half below", 100, side, 1, 2, 500);
        row("width 2, none", 100, side, 2, 0, 0);
        row("width 4, none", 100, side, 4, 0, 0);
        if (side <= 2048) row("width 1, 4,000 entries", 86, side, 1, 0, 0);
        if (side <= 2048) row("width 2, 4,000 entries", 86, side, 2, 0, 0);
    }
    row("width 1, 4,000 entries", 86, 2048, 1, 0, 0);
    for (int s = 0; s < 3; s++) {
        unsigned side = sides[s];
        write_row("width 1, none", side, 1, 0, 0);
        write_row("width 1, underflows 2, 1% below", side, 1, 2, 10);
        write_row("width 1, underflows 2, 10% below", side, 1, 2, 100);
        write_row("width 1, underflows 2, half below", side, 1, 2, 500);
        write_row("width 2, none", side, 2, 0, 0);
        write_row("width 4, none", side, 4, 0, 0);
    }
    return 0;
}
