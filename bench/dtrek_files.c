/* d*TREK files to time: the header. */
#include "dtrek_files.h"
#include <stdio.h>
#include <string.h>

static const char *type_name(int width) {
    return width == 1 ? "unsigned char" : width == 2 ? "unsigned short int" : "unsigned long int";
}

size_t put_items(uint8_t *bytes, size_t length, unsigned side, int width, int big) {
    char items[DTREK_HEADER];
    int used = snprintf(items, sizeof items, "{\nHEADER_BYTES=%5zu;\nDIM=2;\nSIZE1=%u;\nSIZE2=%u;\nBYTE_ORDER=%s_endian;\nData_type=%s;\n", length, side,
                        side, big ? "big" : "little", type_name(width));
    memset(bytes, ' ', length);
    memcpy(bytes, items, (size_t)used);
    return (size_t)used;
}

void put_closing(uint8_t *p) {
    memcpy(p, "}\n\f\n", 4);
}
