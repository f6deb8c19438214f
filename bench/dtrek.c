/* Times d*TREK reading against plain C by gcc -O3 and clang -O3: the same files, the same buffers, in turn, best of many short rounds. */
#include "dtrek_files.h"
#include "frames.h"
#include "plain_dtrek.h"
#include "quayrudder.h"
#include "turns.h"
#include <stdio.h>
#include <stdlib.h>
#include <string.h>

typedef struct {
    uint8_t *bytes;
    size_t length, pixels;
} dtrek_file;

static dtrek_file make_dtrek(unsigned side, int width, int big) {
    size_t n = (size_t)side * side, length = DTREK_HEADER + n * (size_t)width;
    uint8_t *bytes = malloc(length);
    put_closing(bytes + put_items(bytes, DTREK_HEADER, side, width, big));
    for (size_t i = DTREK_HEADER; i < length; i++) bytes[i] = (uint8_t)rnd();
    return (dtrek_file){ bytes, length, n };
}

static int run(int who, const void *file, uint32_t *px) {
    const dtrek_file *f = file;
    if (who == 0) return gcc_read_dtrek(f->bytes, f->length, px, f->pixels);
    if (who == 1) return clang_read_dtrek(f->bytes, f->length, px, f->pixels);
    if (who == 2) return (int)qr_dtrek_read(f->bytes, f->length, px, f->pixels).refusal;
    memcpy(px, f->bytes + DTREK_HEADER, f->length - DTREK_HEADER);
    return 0;
}

static void row(unsigned side, int width, int big) {
    dtrek_file f = make_dtrek(side, width, big);
    char name[64];
    snprintf(name, sizeof name, "read d*TREK, width %d, %s-endian", width, big ? "big" : "little");
    print_row(name, side, run, &f, f.pixels, side == 4096 ? 25 : side == 1024 ? 200 : 800);
    free(f.bytes);
}

int main(void) {
    print_head();
    for (int k = 0; k < 18; k++) row(k < 6 ? 512 : k < 12 ? 1024 : 4096, 1 << k % 6 / 2, k % 2);
    return 0;
}
