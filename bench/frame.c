/* frame FORMAT SIDE WIDTH UNDERFLOW BELOW FILE: a frame like those of bench.c into a file, for FabIO to read, and the library's times for it in
   ns/pixel: reading, writing (0 for FORMAT 86), memcpy of the image. */
#include "frames.h"
#include "quayrudder.h"
#include <stdio.h>
#include <stdlib.h>
#include <string.h>

typedef struct { frame f; uint32_t *px; uint8_t *out; } lent;

static int run(int what, lent *l) {
    const frame *f = &l->f;
    size_t n = f->plain.pixels;
    if (what == 0) return (int)qr_read(f->bytes, f->length, l->px, n).refusal;
    if (what == 1) return (int)qr_write(f->bytes, f->length, l->px, n, f->plain.width, f->plain.under_width, l->out, f->length).refusal;
    memcpy(l->px, f->bytes + HEADER, n * f->plain.width);
    return 0;
}

static double best_of(int rounds, int what, lent *l) {
    double best = 1e9;
    for (int round = 0; round < rounds; round++) {
        double t = now();
        if (run(what, l)) puts("refused"), exit(1);
        t = now() - t;
        if (t < best) best = t;
    }
    return best * 1e9 / l->f.plain.pixels;
}

int main(int argc, char **argv) {
    if (argc != 7) return 2;
    int format = atoi(argv[1]), rounds = atoi(argv[2]) <= 1024 ? 60 : 9;
    lent l = { make(format, (unsigned)atoi(argv[2]), atoi(argv[3]), atoi(argv[4]), (unsigned)atoi(argv[5])), 0, 0 };
    l.px = malloc(l.f.plain.pixels * 4), l.out = malloc(l.f.length);
    memset(l.px, 1, l.f.plain.pixels * 4), memset(l.out, 1, l.f.length);
    FILE *file = fopen(argv[6], "wb");
    if (!file || fwrite(l.f.bytes, 1, l.f.length, file) != l.f.length || fclose(file)) return 1;
    double read = best_of(rounds, 0, &l), write = format == 100 ? best_of(rounds, 1, &l) : 0;
    printf("%.4f %.4f %.4f\n", read, write, best_of(rounds, 2, &l));
    free(l.px), free(l.out), free(l.f.bytes);
    return 0;
}
