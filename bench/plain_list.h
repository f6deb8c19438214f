/* Plain C's listing, built once by each compiler, under its prefix. The answer is the text's length; `cancelled` is room for a flag a line. */
#include <stddef.h>
#include <stdint.h>

size_t gcc_list(const uint8_t *ledger, size_t lines, uint8_t *cancelled, char *out);
size_t clang_list(const uint8_t *ledger, size_t lines, uint8_t *cancelled, char *out);
