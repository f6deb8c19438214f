/* d*TREK files read by plain loops, one for each width and byte order. Keywords are not compared with each other, and
   padding is not looked at. PREFIX names the compiler that builds this file. */
#include "plain_dtrek.h"
#include "plain_image.h"

typedef struct {
    size_t start, columns, rows;
    int dim, width, big;
} header;

static void bytes1(const uint8_t *restrict image, size_t n, uint32_t *restrict out) {
    for (size_t i = 0; i < n; i++) out[i] = image[i];
}

static void little4(const uint8_t *restrict image, size_t n, uint32_t *restrict out) {
    for (size_t i = 0; i < n; i++) out[i] = load32(image + 4 * i);
}

static void big4(const uint8_t *restrict image, size_t n, uint32_t *restrict out) {
    for (size_t i = 0; i < n; i++) out[i] = __builtin_bswap32(load32(image + 4 * i));
}

static size_t number(const uint8_t *p, const uint8_t *end) {
    size_t v = 0;
    for (; p < end; p++)
        if (*p >= '0' && *p <= '9') v = 10 * v + (*p - '0');
    return v;
}

static int is(const uint8_t *p, const uint8_t *end, const char *text) {
    size_t n = strlen(text);
    return (size_t)(end - p) == n && !memcmp(p, text, n);
}

static const uint8_t *past_white(const uint8_t *p, const uint8_t *end) {
    while (p < end && (*p == ' ' || *p == '\t' || *p == '\n')) p++;
    return p;
}

static const uint8_t *before_white(const uint8_t *p, const uint8_t *end) {
    while (end > p && (end[-1] == ' ' || end[-1] == '\t' || end[-1] == '\n')) end--;
    return end;
}

static int type_width(const uint8_t *value, const uint8_t *end) {
    if (is(value, end, "unsigned char")) return 1;
    if (is(value, end, "unsigned short int")) return 2;
    return is(value, end, "unsigned long int") ? 4 : 0;
}

/* One item, from behind the last semicolon up to its own. */
static void take(header *h, const uint8_t *from, const uint8_t *semicolon) {
    const uint8_t *key = past_white(from, semicolon), *equals = memchr(key, '=', (size_t)(semicolon - key));
    if (!equals) return;
    const uint8_t *value = past_white(equals + 1, semicolon), *end = before_white(value, semicolon);
    if (is(key, equals, "DIM")) h->dim = (int)number(value, end);
    else if (is(key, equals, "SIZE1")) h->columns = number(value, end);
    else if (is(key, equals, "SIZE2")) h->rows = number(value, end);
    else if (is(key, equals, "BYTE_ORDER")) h->big = is(value, end, "big_endian");
    else if (is(key, equals, "Data_type")) h->width = type_width(value, end);
}

static header parse(const uint8_t *file, size_t start) {
    header h = { start, 0, 0, 0, 0, 0 };
    const uint8_t *end = file + h.start, *at = file + 1, *semicolon;
    while ((semicolon = memchr(at, ';', (size_t)(end - at)))) {
        take(&h, at, semicolon);
        at = semicolon + 1;
    }
    return h;
}

static int load(const header *h, const uint8_t *image, size_t n, uint32_t *out) {
    switch (h->width) {
    case 1: bytes1(image, n, out); return 0;
    case 2: (h->big ? big_image : little_image)(image, n, out); return 0;
    case 4: (h->big ? big4 : little4)(image, n, out); return 0;
    default: return 35;
    }
}

int JOIN(PREFIX, read_dtrek)(const uint8_t *file, size_t length, uint32_t *pixels, size_t places) {
    if (length < 512 || memcmp(file, "{\nHEADER_BYTES=", 15)) return 32;
    size_t start = number(file + 15, file + 20);
    if (length < start) return 1;
    header h = parse(file, start);
    size_t n = h.columns * h.rows;
    if (h.dim != 2) return 34;
    if (places < n) return 10;
    if (length < h.start + n * (size_t)h.width) return 11;
    return load(&h, file + h.start, n, pixels);
}
