/* mar_read FILE PIXELS: the numbers of the library's answer for a mar file, then each of its 25 header entries; the pixels go to a file. */
#include "quayrudder.h"
#include <inttypes.h>
#include <stdio.h>
#include <stdlib.h>

enum { MOST = 2000 * 2000, ROOM = 1 << 26 };

static size_t contents(const char *name, uint8_t *bytes) {
    FILE *file = fopen(name, "rb");
    if (!file) perror(name), exit(2);
    size_t length = fread(bytes, 1, ROOM, file);
    fclose(file);
    return length;
}

static void write_pixels(const char *name, const uint32_t *pixels, size_t n) {
    FILE *file = fopen(name, "wb");
    if (!file || fwrite(pixels, 4, n, file) != n || fclose(file)) perror(name), exit(2);
}

static void print_entry(const uint8_t *bytes, size_t length, uint32_t entry) {
    qr_mar_entry_answer a = qr_mar_entry(bytes, length, entry);
    printf("%" PRIu32 " %" PRIu32 " %" PRIu32 "\n", a.refusal, a.is_float, a.bits);
}

int main(int argc, char **argv) {
    if (argc != 3) return 2;
    uint8_t *bytes = malloc(ROOM);
    uint32_t *pixels = calloc(MOST, 4);
    if (!bytes || !pixels) return 2;
    size_t length = contents(argv[1], bytes);
    qr_read_answer a = qr_mar_read(bytes, length, pixels, MOST);
    printf("%" PRIu32 " %" PRIu32 " %" PRIu32 " %" PRIu32 " %" PRIu32 " %" PRIu64 "\n", a.refusal, a.place, a.column, a.rows, a.columns, a.end);
    for (uint32_t entry = 1; entry <= 25; entry++) print_entry(bytes, length, entry);
    write_pixels(argv[2], pixels, (size_t)a.rows * a.columns);
    free(bytes), free(pixels);
    return 0;
}
