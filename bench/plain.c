/* FORMAT 100 and 86 expanded, and FORMAT 100 written, by plain loops. PREFIX names the compiler that builds this file. */
#include "plain.h"
#include <stdio.h>
#include <string.h>

#define JOIN2(a, b) a##_##b
#define JOIN(a, b) JOIN2(a, b)

static inline uint32_t little(const uint8_t *p, int w) {
    uint32_t v = p[0];
    if (w > 1) v |= (uint32_t)p[1] << 8;
    if (w > 2) v |= (uint32_t)p[2] << 16 | (uint32_t)p[3] << 24;
    return v;
}

static inline int expand(const plain_frame *f, int w, int uw, uint32_t *out) {
    size_t a = 0, b = 0, c = 0;
    for (size_t i = 0; i < f->pixels; i++) {
        uint32_t v = little(f->image + i * w, w);
        if (w == 1 && v == 255) {
            if (a == f->n_two) return 14;
            v = little(f->two + 2 * a++, 2);
        }
        if (w < 4 && v == 65535) {
            if (b == f->n_four) return 14;
            v = little(f->four + 4 * b++, 4);
        }
        if (uw) {
            if (v == 0) {
                if (c == f->n_under) return 14;
                v = little(f->under + uw * c++, uw);
            } else {
                if (v > UINT32_MAX - f->baseline) return 15;
                v += f->baseline;
            }
        }
        out[i] = v;
    }
    return a == f->n_two && b == f->n_four && c == f->n_under ? 0 : 14;
}

int JOIN(PREFIX, read_100)(const plain_frame *f, uint32_t *pixels) {
    switch (f->width * 4 + f->under_width) {
    case 4: return expand(f, 1, 0, pixels);
    case 5: return expand(f, 1, 1, pixels);
    case 6: return expand(f, 1, 2, pixels);
    case 8: return expand(f, 2, 0, pixels);
    case 9: return expand(f, 2, 1, pixels);
    case 10: return expand(f, 2, 2, pixels);
    case 16: return expand(f, 4, 0, pixels);
    case 17: return expand(f, 4, 1, pixels);
    default: return expand(f, 4, 2, pixels);
    }
}

/* spaces, then digits to the end; -1 where it is neither */
static int64_t text_number(const uint8_t *p, int n) {
    int i = 0;
    int64_t v = 0;
    while (i < n && p[i] == ' ') i++;
    if (i == n) return -1;
    for (; i < n; i++) {
        if (p[i] < '0' || p[i] > '9') return -1;
        v = v * 10 + (p[i] - '0');
    }
    return v;
}

int JOIN(PREFIX, read_86)(const plain_frame *f, const uint8_t *table, size_t entries, uint32_t *pixels) {
    uint32_t mark = f->width == 1 ? 255 : 65535;
    size_t marks = 0;
    if (f->width == 4) {
        memcpy(pixels, f->image, f->pixels * 4);
        return entries ? 13 : 0;
    }
    for (size_t i = 0; i < f->pixels; i++) {
        uint32_t v = little(f->image + i * f->width, f->width);
        if (v == mark) { v = UINT32_MAX; marks++; }
        pixels[i] = v;
    }
    for (size_t k = 0; k < entries; k++) {
        int64_t v = text_number(table + 16 * k, 9), p = text_number(table + 16 * k + 9, 7);
        if (v < 0 || p < 0 || (size_t)p >= f->pixels || pixels[p] != UINT32_MAX) return 13;
        pixels[p] = (uint32_t)v;
    }
    return marks == entries ? 0 : 14;
}

static size_t padded(size_t n) { return (n + 15) / 16 * 16; }

/* Counts once and stores once; the machine is little-endian. */
static inline __attribute__((always_inline)) size_t store(const plain_pixels *f, int w, int uw, uint8_t *restrict out) {
    const uint32_t *restrict px = f->values;
    size_t nu = 0, n2 = 0, n4 = 0, n = f->pixels;
    uint32_t base = uw ? f->baseline : 0;
    for (size_t i = 0; i < n; i++) {
        uint32_t v = px[i];
        if (uw) {
            nu += v <= base;
            v = v <= base ? 0 : v - base;
        }
        if (w == 1) n2 += v >= 255;
        if (w < 4) n4 += v >= 65535;
    }
    uint8_t *image = out + f->header_length, *under = image + n * w, *two = under + padded(nu * uw), *four = two + padded(2 * n2);
    uint8_t *end = four + padded(4 * n4);
    memset(under + nu * uw, 0, padded(nu * uw) - nu * uw);
    memset(two + 2 * n2, 0, padded(2 * n2) - 2 * n2);
    memset(four + 4 * n4, 0, padded(4 * n4) - 4 * n4);
    for (size_t i = 0; i < n; i++) {
        uint32_t v = px[i];
        if (uw) {
            if (v <= base) {
                memcpy(under, &v, uw), under += uw;
                v = 0;
            } else v -= base;
        }
        if (w == 1 && v >= 255) {
            uint32_t entry = v < 65535 ? v : 65535;
            memcpy(two, &entry, 2), two += 2;
        }
        if (w < 4 && v >= 65535) memcpy(four, &v, 4), four += 4;
        if (w == 1 && v >= 255) v = 255;
        if (w == 2 && v >= 65535) v = 65535;
        memcpy(image + i * w, &v, w);
    }
    memcpy(out, f->header, f->header_length);
    char t[73];
    if (uw) snprintf(t, sizeof t, "%-24zu%-24zu%-24zu", nu, n2, n4);
    else snprintf(t, sizeof t, "%-24d%-24zu%-24zu", -1, n2, n4);
    memcpy(out + 20 * 80 + 8, t, 72);
    snprintf(t, sizeof t, "%-24d%-48d", w, uw);
    memcpy(out + 39 * 80 + 8, t, 72);
    return (size_t)(end - out);
}

size_t JOIN(PREFIX, write_100)(const plain_pixels *f, uint8_t *out) {
    switch (f->width * 4 + f->under_width) {
    case 4: return store(f, 1, 0, out);
    case 5: return store(f, 1, 1, out);
    case 6: return store(f, 1, 2, out);
    case 8: return store(f, 2, 0, out);
    case 9: return store(f, 2, 1, out);
    case 10: return store(f, 2, 2, out);
    case 16: return store(f, 4, 0, out);
    case 17: return store(f, 4, 1, out);
    default: return store(f, 4, 2, out);
    }
}
