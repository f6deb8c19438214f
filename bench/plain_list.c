/* The listing of a ledger by plain loops: one pass back that finds the cancelled lines, one pass forward that prints. Lines are trusted.
   PREFIX names the compiler that builds this file. */
#include "plain_list.h"
#include <string.h>

#define JOIN2(a, b) a##_##b
#define JOIN(a, b) JOIN2(a, b)

static uint64_t bits(const uint8_t *line, int from, int count) {
    uint64_t v = 0;
    for (int i = from; i < from + count; i++) v = v << 1 | (line[i / 8] >> (7 - i % 8) & 1);
    return v;
}

/* Fields of whole bytes but for an offset of some bits: eight bytes from the one in which the field starts. */
static uint32_t field(const uint8_t *line, int from, int count) {
    uint64_t v = 0;
    if (from + 64 > 128) return (uint32_t)bits(line, from, count);
    for (int i = 0; i < 8; i++) v = v << 8 | line[from / 8 + i];
    return (uint32_t)(v << from % 8 >> (64 - count));
}

static char *text(char *at, const char *s) {
    size_t n = strlen(s);
    memcpy(at, s, n);
    return at + n;
}

static char *digits(char *at, uint32_t v, int count) {
    for (int i = count; i-- > 0; v /= 10) at[i] = (char)('0' + v % 10);
    return at + count;
}

static char *number(char *at, uint32_t v) {
    int count = 1;
    for (uint32_t rest = v; rest >= 10; rest /= 10) count++;
    return digits(at, v, count);
}

static char *show(char *at, const uint8_t *line) {
    switch (line[0] >> 6) {
    case 0:
        at = number(text(at, " correct "), field(line, 23, 24));
        at = number(text(at, " "), field(line, 47, 32));
        return number(text(at, " "), field(line, 79, 32));
    case 1:
        at = digits(text(at, " keep "), field(line, 2, 12), 4);
        at = digits(text(at, "-"), field(line, 14, 4), 2);
        return digits(text(at, "-"), field(line, 18, 5), 2);
    default: return text(at, " withdraw");
    }
}

size_t JOIN(PREFIX, list)(const uint8_t *ledger, size_t lines, uint8_t *cancelled, char *out) {
    char *at = out;
    uint32_t waiting = 0, standing = 0;
    for (size_t i = lines; i-- > 0;) {
        int is_withdrawal = ledger[16 * i] >> 6 == 2;
        cancelled[i] = !is_withdrawal && waiting > 0;
        standing += !is_withdrawal && waiting == 0;
        waiting = is_withdrawal ? waiting + 1 : waiting - cancelled[i];
    }
    for (size_t i = 0; i < lines; i++) {
        at = show(number(text(at, "line "), (uint32_t)i + 1), ledger + 16 * i);
        at = text(at, cancelled[i] ? " withdrawn\n" : "\n");
    }
    at = text(number(text(at, "standing "), standing), "\n");
    return (size_t)(at - out);
}
