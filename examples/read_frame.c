/* Reads a Bruker frame and says its size and its highest count, or why it is refused.
   cc read_frame.c $(pkg-config --cflags --libs quayrudder) -o read_frame */
#include <quayrudder.h>
#include <stdio.h>
#include <stdlib.h>

/* The bytes of a file; where it cannot be read to its end, the library refuses what there is. */
static uint8_t *contents(const char *name, size_t *length) {
    FILE *file = fopen(name, "rb");
    long end = file && !fseek(file, 0, SEEK_END) ? ftell(file) : -1;
    uint8_t *bytes = end < 0 ? NULL : malloc((size_t)end + 1);
    if (bytes) {
        rewind(file);
        *length = fread(bytes, 1, (size_t)end, file);
    }
    if (file)
        fclose(file);
    return bytes;
}

static size_t highest(const uint32_t *pixels, size_t count) {
    size_t best = 0;
    for (size_t at = 1; at < count; at++)
        if (pixels[at] > pixels[best])
            best = at;
    return best;
}

int main(int argc, char **argv) {
    size_t length = 0;
    uint8_t *frame = argc == 2 ? contents(argv[1], &length) : NULL;
    if (!frame)
        return fprintf(stderr, "read_frame FRAME: it cannot be read\n"), 2;

    /* The header says how many pixels there are; where it is refused, there are none and reading is refused too. */
    qr_header_answer header = qr_header(frame, length);
    size_t count = (size_t)header.rows * header.columns;
    uint32_t *pixels = malloc((count + 1) * sizeof *pixels);
    if (!pixels)
        return 2;
    qr_read_answer answer = qr_read(frame, length, pixels, count);
    if (answer.refusal)
        return printf("refusal %u at place %u\n", answer.refusal, answer.place), 1;

    size_t at = highest(pixels, count);
    printf("%u rows, %u columns; the highest count is %u in row %zu, column %zu\n", answer.rows, answer.columns, pixels[at],
           at / answer.columns, at % answer.columns);
    free(pixels);
    free(frame);
    return 0;
}
