/* Times the smallest form against plain C by gcc -O3 and clang -O3 and against a bare sum of the pixels: the same header and pixels, in turn, best of many rounds. */
#include "frames.h"
#include "plain_smallest.h"
#include "quayrudder.h"
#include "turns.h"
#include <stdio.h>
#include <stdlib.h>
#include <string.h>

/* Each column has two turns in a round, of which the better counts: plain C by one loop and by blocks, the library twice, the sum by either compiler. */
enum { GCC_LOOP, CLANG_LOOP, OURS, GCC_SUM, GCC_BLOCKS, CLANG_BLOCKS, OURS_AGAIN, CLANG_SUM, TURNS };

enum { NO_BASELINE = -1, SMALL_FRAMES = 20000, SMALL_SIDE = 24, MOST_SIDE = 2048 };

/* A round has the next of so many arrays of pixels: where it is always the same one, the processor learns which of its blocks have high counts. */
typedef struct {
    uint8_t *header;
    plain_given given;
    const uint32_t *arrays;
    size_t count;
} subject;

/* The header's line 79 with this baseline, or blank. Its underflow count is -1. */
static void set_baseline(subject *s, int baseline) {
    char text[81];
    s->given.has_baseline = baseline != NO_BASELINE;
    s->given.baseline = s->given.has_baseline ? (uint32_t)baseline : 0;
    snprintf(text, sizeof text, "NEXP   :1 0 %-68u", s->given.baseline);
    if (s->given.has_baseline) memcpy(s->header + 79 * 80, text, 80);
    else memset(s->header + 79 * 80, ' ', 80);
}

/* All 0 where it is refused. */
static plain_form ours(const subject *s) {
    qr_form_answer a = qr_smallest(s->header, HEADER, s->given.values, s->given.pixels);
    return a.refusal ? (plain_form){ 0, 0, 0 } : (plain_form){ a.width, a.underflow, a.length };
}

static plain_form form_by(int who, const subject *s) {
    const plain_given *g = &s->given;
    switch (who) {
    case GCC_LOOP: return gcc_smallest_loop(g);
    case GCC_BLOCKS: return gcc_smallest_blocks(g);
    case CLANG_LOOP: return clang_smallest_loop(g);
    case CLANG_BLOCKS: return clang_smallest_blocks(g);
    case GCC_SUM: return (plain_form){ 0, 0, gcc_sum(g->values, g->pixels) };
    case CLANG_SUM: return (plain_form){ 0, 0, clang_sum(g->values, g->pixels) };
    default: return ours(s);
    }
}

static int alike(plain_form a, plain_form b) { return a.width == b.width && a.underflow == b.underflow && a.length == b.length; }

/* Each once, after an untimed turn; the forms and lengths are compared with the first. The answer: whether any was wrong. */
static int turn(subject *s, size_t round, double best[4]) {
    s->given.values = s->arrays + round % s->count * s->given.pixels;
    plain_form first = form_by(GCC_LOOP, s);
    int wrong = 0;
    for (int who = 0; who < TURNS; who++) {
        double t = now();
        plain_form form = form_by(who, s);
        t = now() - t;
        if (t < best[who % 4]) best[who % 4] = t;
        if (who % 4 != GCC_SUM) wrong |= !alike(form, first);
    }
    return wrong;
}

static size_t rounds(unsigned side) { return side <= 512 ? 600 : side <= 1024 ? 300 : 30; }

static void row(const char *content, unsigned side, subject *s) {
    double best[4] = { 1e9, 1e9, 1e9, 1e9 };
    char name[80], baseline[24] = "no baseline";
    int wrong = 0;
    if (s->given.has_baseline) snprintf(baseline, sizeof baseline, "baseline %u", s->given.baseline);
    snprintf(name, sizeof name, "smallest, %s, %s", content, baseline);
    for (size_t round = 0; round < rounds(side) && !wrong; round++) wrong = turn(s, round, best);
    print_best(name, side, best, s->given.pixels, wrong);
}

static uint32_t below_255(void) { return rnd() % 255; }

static uint32_t half_above(void) { return rnd() % 2 ? rnd() % 255 : 255 + rnd() % 1000; }

static uint32_t up_to_70000(void) { return rnd() % 70001; }

/* Four contents with four baselines each. The counts with no function are a frame's, like measured ones. */
static void rows(unsigned side) {
    static const struct {
        const char *name;
        uint32_t (*count)(void);
    } contents[] = { { "all below 255", below_255 }, { "0.5% above", 0 }, { "half above", half_above }, { "up to 70000", up_to_70000 } };
    static const int baselines[] = { NO_BASELINE, 0, 32, 300 };
    frame f = make(100, side, 1, 0, 0), all = make(100, side < MOST_SIDE ? MOST_SIDE : side, 1, 0, 0);
    size_t n = all.plain.pixels;
    uint32_t *px = malloc(n * 4);
    subject s = { f.bytes, { HEADER, px, f.plain.pixels, 0, 0 }, px, n / f.plain.pixels };
    for (int k = 0; k < 4; k++) {
        if (!contents[k].count && plain(0, 100, &all, px)) exit(1);
        for (size_t i = 0; contents[k].count && i < n; i++) px[i] = contents[k].count();
        for (int b = 0; b < 4; b++) set_baseline(&s, baselines[b]), row(contents[k].name, side, &s);
    }
    free(px), free(f.bytes), free(all.bytes);
}

/* Some count about a limit, or any. */
static uint32_t near_limit(uint32_t baseline) {
    const uint32_t from[] = { 0, 250, 65530, baseline < 5 ? 0 : baseline - 5, baseline + 250, baseline + 65530 };
    return rnd() % 8 ? from[rnd() % 6] + rnd() % 10 : rnd();
}

/* Ends the program unless plain C and the library choose alike for small frames of counts about the limits. */
static void compare_small(void) {
    static const int baselines[] = { NO_BASELINE, 0, 32, 255, 256, 300, 65535 };
    frame f = make(100, SMALL_SIDE, 1, 0, 0);
    uint32_t px[SMALL_SIDE * SMALL_SIDE];
    subject s = { f.bytes, { HEADER, px, f.plain.pixels, 0, 0 }, px, 1 };
    double best[4] = { 1e9, 1e9, 1e9, 1e9 };
    int wrong = 0;
    for (int k = 0; k < SMALL_FRAMES && !wrong; k++) {
        uint32_t usual, share = rnd() % 101;
        set_baseline(&s, baselines[k % 7]);
        usual = near_limit(s.given.baseline);
        for (size_t i = 0; i < f.plain.pixels; i++) px[i] = rnd() % 100 < share ? usual : near_limit(s.given.baseline);
        wrong = turn(&s, 0, best);
    }
    free(f.bytes);
    if (wrong) puts("chosen otherwise: WRONG"), exit(1);
}

int main(void) {
    compare_small();
    print_columns("pixels", "side", "pixel", "sum of the pixels");
    rows(512), rows(1024), rows(4096);
    return 0;
}
