/* Times a correction, its amending and its withdrawal on a held frame against plain C's reading of the same frame and memcpy of the held bytes: in turn,
   best of several. */
#include "frames.h"
#include "quayrudder.h"
#include <stdio.h>
#include <stdlib.h>
#include <string.h>

enum { ROUNDS = 7, ROOM = 64, LINES = 4 };

typedef struct {
    uint8_t *bytes, *expected, ledger[16 * LINES];
    size_t length;
    uint32_t *px;
} held;

/* The held bytes are the writer's frame of px, to the end of the buffer. */
static int as_written(const frame *f, held *h) {
    size_t n = f->plain.pixels;
    if (qr_write(f->bytes, f->length, h->px, n, f->plain.width, f->plain.under_width, h->expected, h->length).refusal) return 0;
    return memcmp(h->bytes, h->expected, h->length) == 0;
}

static int correct(held *h, size_t pixel, uint32_t count) {
    return (int)qr_correct(h->bytes, h->length, h->ledger, sizeof h->ledger, 0, pixel, count).refusal;
}

static int amend(held *h, uint32_t count) { return (int)qr_amend(h->bytes, h->length, h->ledger, sizeof h->ledger, 1, count).refusal; }

static int withdraw(held *h) { return (int)qr_withdraw(h->bytes, h->length, h->ledger, sizeof h->ledger, 3).refusal; }

/* A count of the four-byte table goes in, becomes the next one and comes out again, so that the tables grow and shrink. */
static void row(const frame *f, held *h, uint32_t *scratch, const char *name, unsigned side, const char *place, size_t pixel) {
    size_t n = f->plain.pixels;
    uint32_t old = h->px[pixel], count = f->plain.baseline + 70000;
    const uint32_t after[] = { 0, 0, count, count + 1, old };
    double best[6] = { 1e9, 1e9, 1e9, 1e9, 1e9, 1e9 };
    int repeat = side <= 1024 ? 8 : 1, wrong = 0;
    for (int round = 0; round < ROUNDS * repeat; round++) {
        for (int who = 0; who < 6; who++) {
            double t = now();
            if (who < 2) wrong |= plain(who, 100, f, scratch);
            else if (who == 2) wrong |= correct(h, pixel, count);
            else if (who == 3) wrong |= amend(h, count + 1);
            else if (who == 4) wrong |= withdraw(h);
            else memcpy(h->expected, h->bytes, h->length);
            t = now() - t;
            if (t < best[who]) best[who] = t;
            if (round == 0 && who >= 2 && who <= 4) h->px[pixel] = after[who], wrong |= !as_written(f, h);
        }
    }
    double faster = best[0] < best[1] ? best[0] : best[1];
    printf("| %s | %4u | %s | %6.3f | %6.3f |", name, side, place, best[0] * 1e9 / n, best[1] * 1e9 / n);
    for (int who = 2; who < 6; who++) printf(" %6.3f |", best[who] * 1e9 / n);
    for (int who = 2; who < 5; who++) printf(" %5.2f |", best[who] / faster);
    puts(wrong ? " WRONG" : "");
    fflush(stdout);
    if (wrong) exit(1);
}

static void form(unsigned side, int width, int under_width) {
    frame f = make(100, side, width, under_width, 10);
    size_t n = f.plain.pixels, length = f.length + ROOM;
    held h = { malloc(length), malloc(length), { 0 }, length, malloc(n * 4) };
    uint32_t *scratch = malloc(n * 4);
    char name[64];
    snprintf(name, sizeof name, under_width ? "width %d, underflows %d" : "width %d, none", width, under_width);
    if (qr_open(f.bytes, f.length, h.px, n, width, under_width, h.bytes, length).refusal) puts("not opened"), exit(1);
    row(&f, &h, scratch, name, side, "first", 0);
    row(&f, &h, scratch, name, side, "middle", n / 2);
    row(&f, &h, scratch, name, side, "last", n - 1);
    free(h.bytes), free(h.expected), free(h.px), free(scratch), free(f.bytes);
}

int main(void) {
    puts("| held frame | side | pixel | reading, gcc -O3, ns/pixel | clang -O3 | correction | amending | withdrawal | memcpy of the held bytes | correction to the faster | amending | withdrawal |");
    puts("|---|---|---|---|---|---|---|---|---|---|---|---|");
    for (unsigned side = 1024; side <= 4096; side *= 4)
        for (int width = 1; width <= 4; width *= 2)
            for (int under_width = 0; under_width <= 2; under_width++) form(side, width, under_width);
    return 0;
}
