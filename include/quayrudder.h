/* The C interface of libquayrudder.a. refusal is 0 where the call is accepted, and otherwise a number of the table in docs/REFUSALS.md. */
#ifndef QUAYRUDDER_H
#define QUAYRUDDER_H
#include <stddef.h>
#include <stdint.h>

typedef struct { uint32_t refusal, place, column, rows, columns; uint64_t end; } qr_read_answer;
typedef struct { uint32_t refusal, place, column; uint64_t length; } qr_write_answer;
typedef struct { uint32_t refusal, place, column, rows, columns; uint64_t end, length; } qr_open_answer;
typedef struct { uint32_t refusal, place, column, width, underflow; uint64_t length; } qr_form_answer;
typedef struct { uint32_t refusal, place, column, rows, columns, width, underflow; uint64_t end, length; } qr_open_form_answer;
typedef struct { uint32_t refusal; uint64_t lines; } qr_ledger_answer;
typedef struct { uint32_t too_short; uint64_t length; } qr_list_answer;
typedef struct { uint32_t refusal; uint64_t line; } qr_why_answer;
typedef struct {
    uint32_t refusal, place, column, format, start, rows, columns, width, entries, subtracted, entry, baseline, underflows, two, four;
} qr_header_answer;
typedef struct { uint32_t refusal, is_float, bits; } qr_mar_entry_answer;
typedef struct { uint32_t refusal, start, rows, columns, width, big_endian; uint64_t end; } qr_dtrek_header_answer;
typedef struct { uint32_t refusal, found; uint64_t key_start, key_end, value_start, value_end, next; } qr_dtrek_item_answer;

/* A frame of FORMAT 100 or 86 into pixels. */
qr_read_answer qr_read(const uint8_t *frame, size_t frame_len, uint32_t *pixels, size_t pixels_len);

/* The frame of pixels from an accepted header, in a form: width 1, 2 or 4; underflow 0 for kind none, 1 or 2 for the baseline
   subtracted with entries of that many bytes. The rest of out becomes 0. */
qr_write_answer qr_write(const uint8_t *header, size_t header_len, const uint32_t *pixels, size_t pixels_len,
                         uint32_t width, uint32_t underflow, uint8_t *out, size_t out_len);

/* The form in which qr_write's frame of this header and these pixels has the fewest bytes, and that length. Among equals the smaller width, then kind none, then
   the narrower entry. Nothing lent changes. Refusals 1 to 10, and 16 for FORMAT 86. */
qr_form_answer qr_smallest(const uint8_t *header, size_t header_len, const uint32_t *pixels, size_t pixels_len);

/* A frame read into pixels and written into held, in the form asked for. length: of the frame held; the rest of held becomes 0. */
qr_open_answer qr_open(const uint8_t *frame, size_t frame_len, uint32_t *pixels, size_t pixels_len,
                       uint32_t width, uint32_t underflow, uint8_t *held, size_t held_len);

/* The same in the smallest form, which the answer names. Refused with 16 or 18: rows, columns and end are those of the frame read; width, underflow and length
   are 0. */
qr_open_form_answer qr_open_smallest(const uint8_t *frame, size_t frame_len, uint32_t *pixels, size_t pixels_len,
                                     uint8_t *held, size_t held_len);

/* One pixel of a held frame set to a count, and a correction line appended to the ledger, of which so many lines are used. */
qr_ledger_answer qr_correct(uint8_t *held, size_t held_len, uint8_t *ledger, size_t ledger_len,
                            uint64_t lines, uint64_t pixel, uint32_t count);

/* The last standing line taken back, and a withdrawal line appended. */
qr_ledger_answer qr_withdraw(uint8_t *held, size_t held_len, uint8_t *ledger, size_t ledger_len, uint64_t lines);

/* The last standing line, a correction, taken back and its pixel set to a count: a withdrawal line and a correction line appended, or neither.
   Only the frame after both is judged by its length and its underflow entries. Refusals 19, 20, 22, 31, 24, 23, 21, 17, 18, in this order. */
qr_ledger_answer qr_amend(uint8_t *held, size_t held_len, uint8_t *ledger, size_t ledger_len, uint64_t lines, uint32_t count);

/* A keep line appended to the ledger, of which so many lines are used. */
qr_ledger_answer qr_keep(uint8_t *ledger, size_t ledger_len, uint64_t lines, uint32_t year, uint32_t month, uint32_t day);

/* The ledger with its standing lines alone, in their order and from the first line on: the bytes of the lines that go become 0, those behind the lines used
   stay. lines in the answer is how many are left. Refusal 20 only. */
qr_ledger_answer qr_compact(uint8_t *ledger, size_t ledger_len, uint64_t lines);

/* 0: purge is allowed on this day. */
uint32_t qr_may_purge(const uint8_t *ledger, size_t ledger_len, uint64_t lines, uint32_t year, uint32_t month, uint32_t day);

/* The same question with its reason. line: the keep line that decides, the last that stands, by its number in the listing, from 1; with refusal 0 (yes)
   and 27 (not yet) there is one, with 20, 25 and 26 it is 0. */
qr_why_answer qr_why_day(const uint8_t *ledger, size_t ledger_len, uint64_t lines, uint32_t year, uint32_t month, uint32_t day);

/* The last correction of a pixel that stands, by its number in the listing; line 0 with refusal 0: the pixel is as opened. Refusal 20 only: the frame is not
   asked, so the number may be any. */
qr_why_answer qr_why_pixel(const uint8_t *ledger, size_t ledger_len, uint64_t lines, uint64_t pixel);

/* What a header says. start: its length; entries: of FORMAT 86's table; subtracted: 1 where the underflow count is not -1; entry: bytes of an
   underflow entry. A field that does not apply is 0. */
qr_header_answer qr_header(const uint8_t *frame, size_t frame_len);

/* An uncompressed mar .image file into pixels. rows and columns: 1200 or 2000; end: the byte after the last record; place: of the refused pair,
   from 0. */
qr_read_answer qr_mar_read(const uint8_t *file, size_t file_len, uint32_t *pixels, size_t pixels_len);

/* A mar header's entry, 1 to 25. is_float: 0 for a whole number, 1 for a single-precision float; bits: the number, or the float's bits. */
qr_mar_entry_answer qr_mar_entry(const uint8_t *file, size_t file_len, uint32_t entry);

/* A d*TREK image into pixels. rows: SIZE2; columns: SIZE1; end: the byte after the last pixel. */
qr_read_answer qr_dtrek_read(const uint8_t *file, size_t file_len, uint32_t *pixels, size_t pixels_len);

/* What a d*TREK header says. start: its length; rows: SIZE2; columns: SIZE1; width: bytes of a pixel; big_endian: 1 or 0; end: the byte after the
   last pixel. Refusals 32, 1, 33, 34, 35. */
qr_dtrek_header_answer qr_dtrek_header(const uint8_t *file, size_t file_len);

/* The item that is read on from byte at of a d*TREK header: 1 for the first, then next of the last answer. The keyword's bytes are from key_start to
   before key_end, those of the value without the white space around it from value_start to before value_end. found: 0 where no semicolon follows
   within the header. Refusals 32 and 1 as in reading, and 33 where what follows is no item. */
qr_dtrek_item_answer qr_dtrek_item(const uint8_t *file, size_t file_len, uint64_t at);

/* The text of a ledger's listing, the last length bytes of out. too_short: 1 where out has no room for it. */
qr_list_answer qr_list(const uint8_t *ledger, size_t ledger_len, uint8_t *out, size_t out_len);
#endif
