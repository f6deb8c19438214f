/* What plain C's readers of whole images share: names by compiler, loads, and the loops over 16-bit pixels. The machine is little-endian. */
#include <stddef.h>
#include <stdint.h>
#include <string.h>

#define JOIN2(a, b) a##_##b
#define JOIN(a, b) JOIN2(a, b)

static inline uint16_t load16(const uint8_t *p) {
    uint16_t v;
    memcpy(&v, p, 2);
    return v;
}

static inline uint32_t load32(const uint8_t *p) {
    uint32_t v;
    memcpy(&v, p, 4);
    return v;
}

static void little_image(const uint8_t *restrict image, size_t n, uint32_t *restrict out) {
    for (size_t i = 0; i < n; i++) out[i] = load16(image + 2 * i);
}

static void big_image(const uint8_t *restrict image, size_t n, uint32_t *restrict out) {
    for (size_t i = 0; i < n; i++) out[i] = __builtin_bswap16(load16(image + 2 * i));
}
