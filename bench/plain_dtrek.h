/* Plain C to compare d*TREK reading with: the header's items looked through once, and one pass over the pixels. Built once by each compiler, under its prefix. */
#include <stddef.h>
#include <stdint.h>

#define PLAIN_DTREK_DECLARE(prefix) int prefix##_read_dtrek(const uint8_t *file, size_t length, uint32_t *pixels, size_t places);

PLAIN_DTREK_DECLARE(gcc)
PLAIN_DTREK_DECLARE(clang)
