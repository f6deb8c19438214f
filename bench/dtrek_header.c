/* Times d*TREK header reading: one of the usual kind, and the longest with as many keywords as it holds. Best of several rounds. */
#include "dtrek_files.h"
#include "frames.h"
#include "quayrudder.h"
#include <stdio.h>
#include <stdlib.h>
#include <string.h>

enum { ROUNDS = 7, KEYS = 249, ITEM = 5, CLOSING = 4 };

/* Bytes that a keyword may have. */
static size_t key_bytes(uint8_t *list) {
    size_t n = 0;
    for (int b = 0; b < 256; b++)
        if (!b || !strchr(" \t\n=;{}", b)) list[n++] = (uint8_t)b;
    return n;
}

/* Keyword k of two bytes, with no value. */
static void put_short(uint8_t *p, size_t k) {
    uint8_t list[256];
    key_bytes(list);
    memcpy(p, (uint8_t[ITEM]){ list[k / KEYS], list[k % KEYS], '=', ';', '\n' }, ITEM);
}

/* Place k of n: rising, falling, or in no order. */
static size_t placed(int order, size_t k, size_t n) {
    if (order == 0) return k;
    return order == 1 ? n - 1 - k : k * 7919 % n;
}

/* The longest header, full of keywords of two bytes. The answer: how many keywords it has. */
static size_t make_crowded(uint8_t *bytes, int order) {
    size_t used = put_items(bytes, DTREK_MOST, 1, 1, 0), n = (DTREK_MOST - used - CLOSING) / ITEM;
    for (size_t k = 0; k < n; k++) put_short(bytes + used + ITEM * k, placed(order, k, n));
    put_closing(bytes + used + ITEM * n);
    return n + 6;
}

/* The longest header, full of keywords of this many bytes that differ in the last five. The answer: how many keywords it has. */
static size_t make_alike(uint8_t *bytes, size_t key) {
    size_t used = put_items(bytes, DTREK_MOST, 1, 1, 0), item = key + 3, n = (DTREK_MOST - used - CLOSING) / item;
    for (size_t k = 0; k < n; k++) {
        char digits[16];
        snprintf(digits, sizeof digits, "%05u", (unsigned)k);
        uint8_t *p = bytes + used + item * k;
        memset(p, 'A', key);
        memcpy(p + key - 5, digits, 5);
        memcpy(p + key, "=;\n", 3);
    }
    put_closing(bytes + used + item * n);
    return n + 6;
}

static void row(const char *name, const uint8_t *bytes, size_t length, size_t keys, int calls) {
    double best = 1e9;
    for (int round = 0; round < ROUNDS; round++) {
        double t = now();
        for (int k = 0; k < calls; k++)
            if (qr_dtrek_header(bytes, length).refusal) printf("%s: REFUSED\n", name), exit(1);
        t = (now() - t) / calls;
        if (t < best) best = t;
    }
    printf("| %s | %5zu | %5zu | %11.1f |\n", name, length, keys, best * 1e6);
    fflush(stdout);
}

int main(void) {
    static uint8_t bytes[DTREK_MOST];
    static const char *const orders[] = { "rising", "falling", "in no order" };
    puts("| header | bytes | keywords | microseconds |");
    puts("|---|---|---|---|");
    put_closing(bytes + put_items(bytes, DTREK_HEADER, 1, 1, 0));
    row("usual", bytes, DTREK_HEADER, 6, 2000);
    for (int order = 0; order < 3; order++) {
        char name[64];
        snprintf(name, sizeof name, "most keywords, %s", orders[order]);
        size_t keys = make_crowded(bytes, order);
        row(name, bytes, DTREK_MOST, keys, 1);
    }
    size_t keys = make_alike(bytes, 8);
    row("keywords of 8 bytes, three alike", bytes, DTREK_MOST, keys, 1);
    keys = make_alike(bytes, 100);
    row("keywords of 100 bytes, 95 alike", bytes, DTREK_MOST, keys, 1);
    return 0;
}
