/* Times header reading: qr_read on frames of one pixel, and on one whose last header line is refused. Best of several rounds. */
#include "frames.h"
#include "quayrudder.h"
#include <stdio.h>
#include <stdlib.h>
#include <string.h>

enum { ROUNDS = 200, CALLS = 5000 };

static void row(const char *name, const frame *f, uint32_t refusal) {
    uint32_t px = 0;
    double best = 1e9;
    int wrong = 0;
    for (int round = 0; round < ROUNDS; round++) {
        double t = now();
        for (int k = 0; k < CALLS; k++) wrong |= qr_read(f->bytes, f->length, &px, 1).refusal != refusal;
        t = (now() - t) / CALLS;
        if (t < best) best = t;
    }
    printf("| header, %s | %6.1f |%s\n", name, best * 1e9, wrong ? " WRONG" : "");
    if (wrong) exit(1);
}

int main(void) {
    frame binary = make(100, 1, 1, 2, 0), text = make(86, 1, 1, 0, 0);
    puts("| frame of one pixel | ns/call |");
    puts("|---|---|");
    row("FORMAT 100, baseline read", &binary, 0);
    row("FORMAT 86", &text, 0);
    memcpy(binary.bytes + 58 * 80, "LINEAR :1 1", 11);
    row("FORMAT 100, refused for LINEAR", &binary, 9);
    free(binary.bytes), free(text.bytes);
    return 0;
}
