/* d*TREK files to time. */
#include <stddef.h>
#include <stdint.h>

enum { DTREK_HEADER = 512, DTREK_MOST = 99840 };

/* The items that are looked at, in a header of this many bytes, filled up with spaces. The answer: where a further item may stand. */
size_t put_items(uint8_t *bytes, size_t length, unsigned side, int width, int big);

/* The header's end, at this place. */
void put_closing(uint8_t *p);
