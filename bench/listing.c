/* Times the listing of a ledger against plain C by gcc -O3 and clang -O3 and against memcpy of as many bytes: in turn, best of several. */
#include "frames.h"
#include "plain_list.h"
#include "quayrudder.h"
#include <stdio.h>
#include <stdlib.h>
#include <string.h>

enum { LINES = 4096, ROOM = 32 + 80 * LINES, ROUNDS = 300 };

static uint8_t ledger[16 * LINES], cancelled[LINES], out[ROOM], source[ROOM];
static char expected[ROOM];

static void put(uint8_t *line, int from, int count, uint32_t v) {
    for (int i = from + count; i-- > from; v >>= 1) line[i / 8] |= (uint8_t)((v & 1) << (7 - i % 8));
}

/* Corrections and keep lines, with `withdrawn` withdrawals in ten lines. */
static void fill(unsigned withdrawn) {
    int standing = 0;
    memset(ledger, 0, sizeof ledger);
    for (unsigned i = 0; i < LINES; i++) {
        uint8_t *line = ledger + 16 * i;
        if (i % 10 < withdrawn && standing > 0) {
            line[0] = 2 << 6, standing--;
            continue;
        }
        standing++;
        if (i % 7 == 3) put(line, 0, 2, 1), put(line, 2, 12, 2000 + i % 90), put(line, 14, 4, 1 + i % 12), put(line, 18, 5, 1 + i % 28);
        else put(line, 23, 24, i * 4093), put(line, 47, 32, i * 17), put(line, 79, 32, i * 104729);
    }
}

static size_t by(int who, size_t length) {
    if (who == 0) return gcc_list(ledger, LINES, cancelled, (char *)out);
    if (who == 1) return clang_list(ledger, LINES, cancelled, (char *)out);
    if (who == 2) return qr_list(ledger, sizeof ledger, out, sizeof out).length;
    memcpy(out, source, length);
    return length;
}

static void row(const char *name) {
    double best[4] = { 1e9, 1e9, 1e9, 1e9 };
    size_t length = gcc_list(ledger, LINES, cancelled, expected);
    int wrong = 0;
    for (int round = 0; round < ROUNDS; round++) {
        for (int who = 0; who < 4; who++) {
            double t = now();
            wrong |= by(who, length) != length;
            t = now() - t;
            if (t < best[who]) best[who] = t;
            if (who < 3) wrong |= memcmp(who == 2 ? out + sizeof out - length : out, expected, length) != 0;
        }
    }
    double faster = best[0] < best[1] ? best[0] : best[1];
    printf("| %s | %d | %6.1f | %6.1f | %6.1f | %6.1f | %5.2f |%s\n", name, LINES, best[0] * 1e9 / LINES, best[1] * 1e9 / LINES,
           best[2] * 1e9 / LINES, best[3] * 1e9 / LINES, best[2] / faster, wrong ? " WRONG" : "");
    if (wrong) exit(1);
}

int main(void) {
    puts("| ledger | lines | gcc -O3, ns/line | clang -O3 | quayrudder | memcpy of the text | ratio to the faster |");
    puts("|---|---|---|---|---|---|---|");
    fill(0);
    row("list, no withdrawals");
    fill(2);
    row("list, a fifth withdrawals");
    return 0;
}
