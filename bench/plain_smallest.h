/* Plain C's smallest form, from a header's parts on. Built once by each compiler, under its prefix. */
#include <stddef.h>
#include <stdint.h>

typedef struct {
    size_t header_length;
    const uint32_t *values;
    size_t pixels;
    int has_baseline;
    uint32_t baseline;
} plain_given;

typedef struct {
    uint32_t width, underflow;
    uint64_t length;
} plain_form;

/* The form by one loop and by blocks, and the pixels' sum for memory's speed. */
#define SMALLEST_DECLARE(prefix)                              \
    plain_form prefix##_smallest_loop(const plain_given *g);   \
    plain_form prefix##_smallest_blocks(const plain_given *g); \
    uint32_t prefix##_sum(const uint32_t *values, size_t n);

SMALLEST_DECLARE(gcc)
SMALLEST_DECLARE(clang)
