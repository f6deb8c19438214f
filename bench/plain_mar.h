/* Plain C to compare mar reading with: one pass over the image and one over the pairs, sizes trusted. Built once by each compiler, under its prefix. */
#include <stddef.h>
#include <stdint.h>

typedef struct {
    const uint8_t *image, *pairs;
    size_t pixels, n_pairs;
    int big; /* big-endian */
} plain_mar;

#define PLAIN_MAR_DECLARE(prefix) int prefix##_read_mar(const plain_mar *f, uint32_t *pixels);

PLAIN_MAR_DECLARE(gcc)
PLAIN_MAR_DECLARE(clang)
