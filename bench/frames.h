/* Frames to time, and what the benchmark programs share. */
#include "plain.h"

enum { HEADER = 7680 };

typedef struct {
    uint8_t *bytes;
    size_t length;
    plain_frame plain;
    size_t entries_86;
} frame;

/* seconds */
double now(void);

/* The next pseudo-random number. */
uint32_t rnd(void);

/* A frame of counts like a measured one: 0.5% above 255, 0.005% above 65535, and `below` in 1000 at or below the baseline. */
frame make(int format, unsigned side, int width, int under_width, unsigned below);

/* Plain C's reading, by gcc (0) or clang (1). The answer: 0, or the refusal. */
int plain(int compiler, int format, const frame *f, uint32_t *px);
