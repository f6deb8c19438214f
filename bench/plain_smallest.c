/* The smallest form by one pass that counts, in one loop or in blocks. PREFIX names the compiler that builds this file. */
#include "plain_smallest.h"

#define JOIN2(a, b) a##_##b
#define JOIN(a, b) JOIN2(a, b)
#define INLINE static inline __attribute__((always_inline))

enum { BLOCK = 64 };

/* Pixels that are above 254 and 65534, above the baseline, and above it by more than these; and whether some are above 255 and not above the baseline. Counting what
   is above a limit takes the fewest vector instructions. */
typedef struct {
    uint32_t two, four, over, low_two, low_four, large;
} counts;

/* Which limits are counted: those of a baseline only where there is one, and entries above 255 only where it is above 255. */
typedef enum { NO_BASELINE, SMALL_BASELINE, LARGE_BASELINE } limits;

/* Every limit in one loop. */
INLINE void count_loop(const uint32_t *px, size_t n, uint32_t base, limits l, counts *c) {
    counts k = { 0 };
    for (size_t i = 0; i < n; i++) {
        uint32_t v = px[i];
        k.two += v > 254, k.four += v > 65534;
        if (l != NO_BASELINE) k.over += v > base, k.low_two += v > base + 254, k.low_four += v > base + 65534;
        if (l == LARGE_BASELINE) k.large += v > 255;
    }
    *c = k;
    c->large = l == LARGE_BASELINE && k.large > k.over;
}

INLINE uint32_t count_above(const uint32_t *px, size_t n, uint32_t limit) {
    uint32_t k = 0;
    for (size_t i = 0; i < n; i++) k += px[i] > limit;
    return k;
}

/* Higher limits only where a lower one has a count, and entries above 255 until one is found. */
INLINE void count_block(const uint32_t *px, size_t n, uint32_t base, limits l, counts *c) {
    counts k = { 0 };
    for (size_t i = 0; i < n; i++) {
        k.two += px[i] > 254;
        if (l != NO_BASELINE) k.over += px[i] > base;
    }
    c->two += k.two, c->over += k.over;
    if (k.two == 0) return;
    for (size_t i = 0; i < n; i++) {
        k.four += px[i] > 65534;
        if (l != NO_BASELINE) k.low_two += px[i] > base + 254;
    }
    c->four += k.four, c->low_two += k.low_two;
    if (l == LARGE_BASELINE && !c->large) c->large = count_above(px, n, 255) > k.over;
    if (l != NO_BASELINE && k.four) c->low_four += count_above(px, n, base + 65534);
}

INLINE void count_blocks(const uint32_t *px, size_t n, uint32_t base, limits l, counts *c) {
    for (; n >= BLOCK; px += BLOCK, n -= BLOCK) count_block(px, BLOCK, base, l, c);
    count_block(px, n, base, l, c);
}

static uint64_t padded(uint64_t n) { return (n + 15) / 16 * 16; }

/* The first of the shortest: widths 1, 2, 4, and in each kind none, one-byte and two-byte entries. */
static plain_form choose(const plain_given *g, const counts *c) {
    plain_form best = { 0, 0, UINT64_MAX };
    uint64_t under = g->pixels - c->over;
    for (uint32_t width = 1; width <= 4; width *= 2) {
        for (uint32_t entry = 0; entry <= (g->has_baseline ? 2 : 0); entry++) {
            uint64_t length = g->header_length + g->pixels * width + padded(entry * under);
            if (width == 1) length += padded(2ull * (entry ? c->low_two : c->two));
            if (width < 4) length += padded(4ull * (entry ? c->low_four : c->four));
            if (length < best.length && !(entry == 1 && c->large)) best = (plain_form){ width, entry, length };
        }
    }
    return best;
}

#define DEFINE(name, count)                                                                                  \
    plain_form name(const plain_given *g) {                                                                  \
        counts c = { 0 };                                                                                    \
        if (!g->has_baseline) count(g->values, g->pixels, 0, NO_BASELINE, &c);                               \
        else if (g->baseline <= 255) count(g->values, g->pixels, g->baseline, SMALL_BASELINE, &c);           \
        else count(g->values, g->pixels, g->baseline, LARGE_BASELINE, &c);                                   \
        return choose(g, &c);                                                                                \
    }

DEFINE(JOIN(PREFIX, smallest_loop), count_loop)
DEFINE(JOIN(PREFIX, smallest_blocks), count_blocks)

uint32_t JOIN(PREFIX, sum)(const uint32_t *values, size_t n) {
    uint32_t sum = 0;
    for (size_t i = 0; i < n; i++) sum += values[i];
    return sum;
}
