/* Frames made like measured ones, in the bytes of FORMAT 100 and 86, with the parts that plain C reads. */
#define _POSIX_C_SOURCE 199309L
#include "frames.h"
#include <stdio.h>
#include <stdlib.h>
#include <string.h>
#include <time.h>

static uint64_t state = 88172645463325252u;
uint32_t rnd(void) {
    state ^= state << 13;
    state ^= state >> 7;
    state ^= state << 17;
    return (uint32_t)(state >> 16);
}

double now(void) {
    struct timespec t;
    clock_gettime(CLOCK_MONOTONIC, &t);
    return t.tv_sec + t.tv_nsec * 1e-9;
}

static void line(uint8_t *h, int position, const char *text) { memcpy(h + position * 80, text, strlen(text)); }

static size_t pad(size_t n, size_t m) { return (n + m - 1) / m * m; }

static void put(uint8_t *p, int w, uint32_t v) {
    for (int i = 0; i < w; i++) p[i] = (uint8_t)(v >> (8 * i));
}

frame make(int format, unsigned side, int width, int under_width, unsigned below) {
    size_t n = (size_t)side * side;
    uint32_t base = 32;
    size_t room = HEADER + n * width + pad(n * 2, 16) + pad(n / 16 * 2 + 64, 16) + pad(n / 16 * 4 + 64, 16) + 65536;
    frame f = { calloc(room, 1), 0, { 0 }, 0 };
    uint8_t *image = f.bytes + HEADER;
    uint8_t *under = malloc(n * 2 + 16), *two = malloc(n), *four = malloc(n), *text = malloc(16 * 4096);
    size_t nu = 0, n2 = 0, n4 = 0, n86 = 0;
    for (size_t i = 0; i < n; i++) {
        uint32_t r = rnd() % 1000000, v = 1 + rnd() % 200;
        if (format == 86) {
            if (r < 4000.0 * 1000000 / n && n86 < 4000) v = 300 + rnd() % 100000;
        } else if (r < 50) v = 70000 + rnd() % 100000;
        else if (r < 5000) v = 256 + rnd() % 60000;
        if (under_width && rnd() % 1000 < below) {
            put(under + under_width * nu++, under_width, rnd() % (base + 1));
            put(image + i * width, width, 0);
            continue;
        }
        if (format == 86) {
            uint32_t mark = width == 1 ? 255 : 65535;
            if (width < 4 && v >= mark) {
                char e[17];
                snprintf(e, sizeof e, "%9u%7u", v, (unsigned)i);
                memcpy(text + 16 * n86++, e, 16);
                v = mark;
            }
        } else if (width == 1 && v >= 255) {
            if (v >= 65535) put(four + 4 * n4++, 4, v);
            put(two + 2 * n2++, 2, v >= 65535 ? 65535 : v);
            v = 255;
        } else if (width == 2 && v >= 65535) {
            put(four + 4 * n4++, 4, v);
            v = 65535;
        }
        put(image + i * width, width, v);
    }
    uint8_t *at = image + n * width;
    f.plain = (plain_frame){ image, at, 0, 0, n, nu, n2, n4, width, under_width, base };
    char t[81];
    memset(f.bytes, ' ', HEADER);
    line(f.bytes, 1, "VERSION:8");
    line(f.bytes, 2, "HDRBLKS:15");
    line(f.bytes, 58, "LINEAR :1 0");
    line(f.bytes, 79, "NEXP   :1 0 32");
    snprintf(t, sizeof t, "FORMAT :%d", format), line(f.bytes, 0, t);
    snprintf(t, sizeof t, "NROWS  :%u", side), line(f.bytes, 40, t);
    snprintf(t, sizeof t, "NCOLS  :%u", side), line(f.bytes, 41, t);
    if (format == 86) {
        memcpy(at, text, 16 * n86), at += pad(16 * n86, 512);
        f.entries_86 = n86;
        snprintf(t, sizeof t, "NOVERFL:%zu", n86), line(f.bytes, 20, t);
        snprintf(t, sizeof t, "NPIXELB:%d", width), line(f.bytes, 39, t);
    } else {
        memcpy(at, under, under_width * nu), at += pad(under_width * nu, 16);
        f.plain.two = at, memcpy(at, two, 2 * n2), at += pad(2 * n2, 16);
        f.plain.four = at, memcpy(at, four, 4 * n4), at += pad(4 * n4, 16);
        if (under_width) snprintf(t, sizeof t, "NOVERFL:%zu %zu %zu", nu, n2, n4);
        else snprintf(t, sizeof t, "NOVERFL:-1 %zu %zu", n2, n4);
        line(f.bytes, 20, t);
        snprintf(t, sizeof t, "NPIXELB:%d %d", width, under_width), line(f.bytes, 39, t);
    }
    f.length = (size_t)(at - f.bytes);
    free(under), free(two), free(four), free(text);
    return f;
}

int plain(int compiler, int format, const frame *f, uint32_t *px) {
    if (format == 86)
        return compiler ? clang_read_86(&f->plain, f->plain.under, f->entries_86, px) : gcc_read_86(&f->plain, f->plain.under, f->entries_86, px);
    return compiler ? clang_read_100(&f->plain, px) : gcc_read_100(&f->plain, px);
}
