/* Plain C's compaction, purge question and questions for the line that decides, built once by each compiler, under its prefix. All check the lines as the library does. */
#include <stddef.h>
#include <stdint.h>

/* The answer: 0 or a refusal. `lines` becomes the number of lines left, and `line` the one named, from 1, or 0. */
#define COMPACT_DECLARE(prefix)                                                                                                                    \
    int prefix##_compact(uint8_t *ledger, size_t length, uint64_t *lines);                                                                         \
    int prefix##_may_purge(const uint8_t *ledger, size_t length, uint64_t lines, uint32_t year, uint32_t month, uint32_t day);                     \
    int prefix##_why_day(const uint8_t *ledger, size_t length, uint64_t lines, uint32_t year, uint32_t month, uint32_t day, uint64_t *line);       \
    int prefix##_why_pixel(const uint8_t *ledger, size_t length, uint64_t lines, uint64_t pixel, uint64_t *line);

COMPACT_DECLARE(gcc)
COMPACT_DECLARE(clang)
