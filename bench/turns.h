/* Image readers timed in turn: plain C by gcc (0) and by clang (1), the library (2), and memcpy of the image (3). */
#include <stddef.h>
#include <stdint.h>

/* The answer: 0, or a refusal. */
typedef int reader(int who, const void *file, uint32_t *pixels);

/* The head of a table of times by side: what a row is about, its size, what a time is divided by, and what is copied. */
void print_columns(const char *about, const char *size, const char *unit, const char *copied);

/* One row of it: the best time of each side over n units. Ends the program where an answer was wrong. */
void print_best(const char *name, unsigned size, const double best[4], size_t n, int wrong);

/* The head of the table of files. */
void print_head(void);

/* One row: best of so many rounds over a file of n pixels. Ends the program where a reader refuses or its pixels are not those of gcc's. */
void print_row(const char *name, unsigned side, reader *read, const void *file, size_t n, int rounds);
