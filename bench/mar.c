/* Times mar reading against plain C by gcc -O3 and clang -O3: the same files, the same buffers, in turn, best of many short rounds. */
#include "frames.h"
#include "plain_mar.h"
#include "quayrudder.h"
#include "turns.h"
#include <stdio.h>
#include <stdlib.h>
#include <string.h>

enum { ROUNDS = 200, PAIRS = 4000 };

typedef struct {
    uint8_t *bytes;
    size_t length;
    plain_mar plain;
} mar_file;

static void put(uint8_t *p, int width, int big, uint32_t v) {
    for (int i = 0; i < width; i++) p[big ? width - 1 - i : i] = (uint8_t)(v >> (8 * i));
}

/* Counts from 1 to 200, 0.5% of them above 255. */
static void put_image(uint8_t *image, size_t n, int big) {
    for (size_t i = 0; i < n; i++) put(image + 2 * i, 2, big, rnd() % 1000 < 5 ? 256 + rnd() % 60000 : 1 + rnd() % 200);
}

/* Pairs spread over the image, their addresses rising. */
static void put_pairs(uint8_t *image, size_t n, uint8_t *pairs, size_t n_pairs, int big) {
    for (size_t k = 0; k < n_pairs; k++) {
        size_t share = n / n_pairs, i = k * share + rnd() % share;
        put(image + 2 * i, 2, big, 65535);
        put(pairs + 8 * k, 4, big, (uint32_t)i + 1);
        put(pairs + 8 * k + 4, 4, big, 65536 + rnd() % 200000);
    }
}

static mar_file make_mar(unsigned side, int big, size_t n_pairs) {
    size_t n = (size_t)side * side, record = 2 * side, each = side / 4, records = (n_pairs + each - 1) / each;
    size_t length = record * (1 + side + records);
    uint8_t *bytes = calloc(length, 1), *image = bytes + record, *pairs = image + 2 * n;
    uint32_t header[6] = { side, side, (uint32_t)record, side == 1200 ? 1200 : 4000, (uint32_t)n_pairs, (uint32_t)records };
    for (int i = 0; i < 6; i++) put(bytes + 4 * i, 4, big, header[i]);
    put_image(image, n, big);
    put_pairs(image, n, pairs, n_pairs, big);
    return (mar_file){ bytes, length, { image, pairs, n, n_pairs, big } };
}

static int run(int who, const void *file, uint32_t *px) {
    const mar_file *f = file;
    if (who == 0) return gcc_read_mar(&f->plain, px);
    if (who == 1) return clang_read_mar(&f->plain, px);
    if (who == 2) return (int)qr_mar_read(f->bytes, f->length, px, f->plain.pixels).refusal;
    memcpy(px, f->plain.image, 2 * f->plain.pixels);
    return 0;
}

static void row(unsigned side, int big, size_t n_pairs) {
    mar_file f = make_mar(side, big, n_pairs);
    char name[64];
    snprintf(name, sizeof name, "read mar, %s-endian, %s pairs", big ? "big" : "little", n_pairs ? "4,000" : "no");
    print_row(name, side, run, &f, f.plain.pixels, ROUNDS);
    free(f.bytes);
}

int main(void) {
    print_head();
    for (int k = 0; k < 8; k++) row(k < 4 ? 1200 : 2000, k / 2 % 2, k % 2 ? PAIRS : 0);
    return 0;
}
