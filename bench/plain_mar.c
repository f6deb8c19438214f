/* mar .image files read by plain loops, one for each byte order. PREFIX names the compiler that builds this file. */
#include "plain_mar.h"
#include "plain_image.h"

static inline int replace(uint32_t *restrict out, size_t n, uint32_t address, uint32_t count) {
    if (address == 0 || address > n || out[address - 1] != 65535 || count <= 65535) return 13;
    out[address - 1] = count;
    return 0;
}

static int little_pairs(const uint8_t *restrict pairs, size_t n_pairs, uint32_t *restrict out, size_t n) {
    for (size_t k = 0; k < n_pairs; k++)
        if (replace(out, n, load32(pairs + 8 * k), load32(pairs + 8 * k + 4))) return 13;
    return 0;
}

static int big_pairs(const uint8_t *restrict pairs, size_t n_pairs, uint32_t *restrict out, size_t n) {
    for (size_t k = 0; k < n_pairs; k++)
        if (replace(out, n, __builtin_bswap32(load32(pairs + 8 * k)), __builtin_bswap32(load32(pairs + 8 * k + 4)))) return 13;
    return 0;
}

int JOIN(PREFIX, read_mar)(const plain_mar *f, uint32_t *pixels) {
    if (f->big) {
        big_image(f->image, f->pixels, pixels);
        return big_pairs(f->pairs, f->n_pairs, pixels, f->pixels);
    }
    little_image(f->image, f->pixels, pixels);
    return little_pairs(f->pairs, f->n_pairs, pixels, f->pixels);
}
