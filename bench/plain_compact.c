/* Compaction and questions by plain loops. One pass forward checks every line, with no branch but for keep lines, and counts what stands. Compaction then builds the
   pile of standing lines from the front, in place; a question looks back for the last standing line of its sort. The machine is little-endian.
   PREFIX names the compiler that builds this file. */
#include "plain_compact.h"
#include <string.h>

#define JOIN2(a, b) a##_##b
#define JOIN(a, b) JOIN2(a, b)

enum { LINE = 16, KEEP = 1, WITHDRAWAL = 2, DATE_AT = 41, PIXEL_AT = 17, KIND_BITS = 0xC0 };

#define COUNTS ((1ull << DATE_AT) - 1)
#define DATE (((1ull << 21) - 1) << DATE_AT)
#define SPARE __builtin_bswap64((1ull << 17) - 1)
#define ALL (~0ull)

/* By kind: bits that are 0 in a line's first word, and in its second as it lies in memory. A line of kind 3 always has others. */
static const uint64_t first_zero[4] = { DATE, COUNTS, COUNTS | DATE, ALL }, second_zero[4] = { SPARE, ALL, ALL, ALL };

static inline uint64_t load64(const uint8_t *p) {
    uint64_t v;
    memcpy(&v, p, 8);
    return v;
}

static int is_leap(uint32_t year) {
    return year % 4 == 0 && (year % 100 != 0 || year % 400 == 0);
}

static int is_date(uint32_t year, uint32_t month, uint32_t day) {
    uint32_t last = month == 2 ? 28 + is_leap(year) : 30 + (month + month / 8) % 2;
    return year - 1 < 4095 && month - 1 < 12 && day - 1 < last;
}

/* How many lines stand, or -1 for refusal 20: a count that ever falls below 0 leaves its sign in `lowest`. */
static int64_t standing(const uint8_t *ledger, size_t length, uint64_t lines) {
    uint64_t bad = 0;
    int64_t count = 0, lowest = 0;
    if (lines > length / LINE) return -1;
    for (uint64_t i = 0; i < lines; i++) {
        uint64_t first = __builtin_bswap64(load64(ledger + LINE * i)), second = load64(ledger + LINE * i + 8), kind = first >> 62;
        bad |= (first & first_zero[kind]) | (second & second_zero[kind]);
        if (kind == KEEP) bad |= !is_date(first >> 50 & 4095, first >> 46 & 15, first >> DATE_AT & 31);
        count += 1 - (int64_t)(kind & WITHDRAWAL);
        lowest |= count;
    }
    return bad || lowest < 0 ? -1 : count;
}

/* Each line goes on top of the pile, which never reaches past it; a withdrawal lowers the top instead, and what it wrote there is written over or cleared. */
static void pile(uint8_t *ledger, uint64_t lines) {
    uint8_t *top = ledger;
    for (uint64_t i = 0; i < lines; i++) {
        ptrdiff_t step = LINE - 2 * LINE * (ledger[LINE * i] >> 7);
        memmove(top, ledger + LINE * i, LINE);
        top += step;
    }
}

int JOIN(PREFIX, compact)(uint8_t *ledger, size_t length, uint64_t *lines) {
    int64_t count = standing(ledger, length, *lines);
    if (count < 0) return 20;
    if ((uint64_t)count == *lines) return 0;
    pile(ledger, *lines);
    memset(ledger + LINE * count, 0, LINE * (*lines - (uint64_t)count));
    *lines = (uint64_t)count;
    return 0;
}

/* The number of the last standing line, from 1, whose first word as it lies in memory has these bits under the mask; 0 where none stands. */
static inline uint64_t last_line(const uint8_t *ledger, uint64_t lines, uint64_t mask, uint64_t bits) {
    uint64_t waiting = 0;
    for (; lines > 0; lines--) {
        uint64_t first = load64(ledger + LINE * (lines - 1));
        if ((first & mask) == bits && waiting == 0) break;
        waiting = (first & KIND_BITS) == WITHDRAWAL << 6 ? waiting + 1 : waiting - (waiting > 0);
    }
    return lines;
}

static inline int judge_day(const uint8_t *ledger, size_t length, uint64_t lines, uint32_t year, uint32_t month, uint32_t day, uint64_t *line) {
    *line = 0;
    if (standing(ledger, length, lines) < 0) return 20;
    if (!is_date(year, month, day)) return 25;
    uint64_t keep = last_line(ledger, lines, KIND_BITS, KEEP << 6), asked = year << 9 | month << 5 | day;
    if (keep == 0) return 26;
    uint64_t kept = (__builtin_bswap64(load64(ledger + LINE * (keep - 1))) & DATE) >> DATE_AT;
    *line = keep;
    return kept < asked ? 0 : 27;
}

int JOIN(PREFIX, may_purge)(const uint8_t *ledger, size_t length, uint64_t lines, uint32_t year, uint32_t month, uint32_t day) {
    uint64_t line;
    return judge_day(ledger, length, lines, year, month, day, &line);
}

int JOIN(PREFIX, why_day)(const uint8_t *ledger, size_t length, uint64_t lines, uint32_t year, uint32_t month, uint32_t day, uint64_t *line) {
    return judge_day(ledger, length, lines, year, month, day, line);
}

/* A correction's kind and date are 0, so its first word starts with the pixel. */
int JOIN(PREFIX, why_pixel)(const uint8_t *ledger, size_t length, uint64_t lines, uint64_t pixel, uint64_t *line) {
    uint64_t mask = __builtin_bswap64(~0ull << PIXEL_AT), bits = __builtin_bswap64(pixel << PIXEL_AT);
    *line = 0;
    if (standing(ledger, length, lines) < 0) return 20;
    if (pixel < 1 << 24) *line = last_line(ledger, lines, mask, bits);
    return 0;
}
