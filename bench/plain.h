/* Plain C to compare with: readers in one pass and a writer in two, sizes trusted. Built once by each compiler, under its prefix. */
#include <stddef.h>
#include <stdint.h>

typedef struct {
    const uint8_t *image, *under, *two, *four;
    size_t pixels, n_under, n_two, n_four;
    int width, under_width; /* under_width 0: no baseline is subtracted */
    uint32_t baseline;
} plain_frame;

typedef struct {
    const uint8_t *header;
    size_t header_length;
    const uint32_t *values;
    size_t pixels;
    int width, under_width;
    uint32_t baseline;
} plain_pixels;

#define PLAIN_DECLARE(prefix)                                                            \
    int prefix##_read_100(const plain_frame *f, uint32_t *pixels);                       \
    int prefix##_read_86(const plain_frame *f, const uint8_t *table, size_t entries, uint32_t *pixels); \
    size_t prefix##_write_100(const plain_pixels *f, uint8_t *out);

PLAIN_DECLARE(gcc)
PLAIN_DECLARE(clang)
