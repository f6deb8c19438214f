/* The C interface over a module that was compiled as a program with no proof: there an answer of more than two numbers goes through a pointer. */
#include "../../../include/quayrudder.h"

void rattle_qr_read(qr_read_answer *, const uint8_t *frame, size_t frame_len, uint32_t *pixels, size_t pixels_len);
qr_read_answer qr_read(const uint8_t *frame, size_t frame_len, uint32_t *pixels, size_t pixels_len) {
    qr_read_answer answer;
    rattle_qr_read(&answer, frame, frame_len, pixels, pixels_len);
    return answer;
}

void rattle_qr_write(qr_write_answer *, const uint8_t *header, size_t header_len, const uint32_t *pixels, size_t pixels_len, uint32_t width, uint32_t underflow, uint8_t *out, size_t out_len);
qr_write_answer qr_write(const uint8_t *header, size_t header_len, const uint32_t *pixels, size_t pixels_len, uint32_t width, uint32_t underflow, uint8_t *out, size_t out_len) {
    qr_write_answer answer;
    rattle_qr_write(&answer, header, header_len, pixels, pixels_len, width, underflow, out, out_len);
    return answer;
}

void rattle_qr_smallest(qr_form_answer *, const uint8_t *header, size_t header_len, const uint32_t *pixels, size_t pixels_len);
qr_form_answer qr_smallest(const uint8_t *header, size_t header_len, const uint32_t *pixels, size_t pixels_len) {
    qr_form_answer answer;
    rattle_qr_smallest(&answer, header, header_len, pixels, pixels_len);
    return answer;
}

void rattle_qr_open(qr_open_answer *, const uint8_t *frame, size_t frame_len, uint32_t *pixels, size_t pixels_len, uint32_t width, uint32_t underflow, uint8_t *held, size_t held_len);
qr_open_answer qr_open(const uint8_t *frame, size_t frame_len, uint32_t *pixels, size_t pixels_len, uint32_t width, uint32_t underflow, uint8_t *held, size_t held_len) {
    qr_open_answer answer;
    rattle_qr_open(&answer, frame, frame_len, pixels, pixels_len, width, underflow, held, held_len);
    return answer;
}

void rattle_qr_open_smallest(qr_open_form_answer *, const uint8_t *frame, size_t frame_len, uint32_t *pixels, size_t pixels_len, uint8_t *held, size_t held_len);
qr_open_form_answer qr_open_smallest(const uint8_t *frame, size_t frame_len, uint32_t *pixels, size_t pixels_len, uint8_t *held, size_t held_len) {
    qr_open_form_answer answer;
    rattle_qr_open_smallest(&answer, frame, frame_len, pixels, pixels_len, held, held_len);
    return answer;
}

qr_ledger_answer rattle_qr_correct(uint8_t *held, size_t held_len, uint8_t *ledger, size_t ledger_len, uint64_t lines, uint64_t pixel, uint32_t count);
qr_ledger_answer qr_correct(uint8_t *held, size_t held_len, uint8_t *ledger, size_t ledger_len, uint64_t lines, uint64_t pixel, uint32_t count) {
    return rattle_qr_correct(held, held_len, ledger, ledger_len, lines, pixel, count);
}

qr_ledger_answer rattle_qr_withdraw(uint8_t *held, size_t held_len, uint8_t *ledger, size_t ledger_len, uint64_t lines);
qr_ledger_answer qr_withdraw(uint8_t *held, size_t held_len, uint8_t *ledger, size_t ledger_len, uint64_t lines) {
    return rattle_qr_withdraw(held, held_len, ledger, ledger_len, lines);
}

qr_ledger_answer rattle_qr_amend(uint8_t *held, size_t held_len, uint8_t *ledger, size_t ledger_len, uint64_t lines, uint32_t count);
qr_ledger_answer qr_amend(uint8_t *held, size_t held_len, uint8_t *ledger, size_t ledger_len, uint64_t lines, uint32_t count) {
    return rattle_qr_amend(held, held_len, ledger, ledger_len, lines, count);
}

qr_ledger_answer rattle_qr_keep(uint8_t *ledger, size_t ledger_len, uint64_t lines, uint32_t year, uint32_t month, uint32_t day);
qr_ledger_answer qr_keep(uint8_t *ledger, size_t ledger_len, uint64_t lines, uint32_t year, uint32_t month, uint32_t day) {
    return rattle_qr_keep(ledger, ledger_len, lines, year, month, day);
}

qr_ledger_answer rattle_qr_compact(uint8_t *ledger, size_t ledger_len, uint64_t lines);
qr_ledger_answer qr_compact(uint8_t *ledger, size_t ledger_len, uint64_t lines) {
    return rattle_qr_compact(ledger, ledger_len, lines);
}

uint32_t rattle_qr_may_purge(const uint8_t *ledger, size_t ledger_len, uint64_t lines, uint32_t year, uint32_t month, uint32_t day);
uint32_t qr_may_purge(const uint8_t *ledger, size_t ledger_len, uint64_t lines, uint32_t year, uint32_t month, uint32_t day) {
    return rattle_qr_may_purge(ledger, ledger_len, lines, year, month, day);
}

qr_why_answer rattle_qr_why_day(const uint8_t *ledger, size_t ledger_len, uint64_t lines, uint32_t year, uint32_t month, uint32_t day);
qr_why_answer qr_why_day(const uint8_t *ledger, size_t ledger_len, uint64_t lines, uint32_t year, uint32_t month, uint32_t day) {
    return rattle_qr_why_day(ledger, ledger_len, lines, year, month, day);
}

qr_why_answer rattle_qr_why_pixel(const uint8_t *ledger, size_t ledger_len, uint64_t lines, uint64_t pixel);
qr_why_answer qr_why_pixel(const uint8_t *ledger, size_t ledger_len, uint64_t lines, uint64_t pixel) {
    return rattle_qr_why_pixel(ledger, ledger_len, lines, pixel);
}

void rattle_qr_header(qr_header_answer *, const uint8_t *frame, size_t frame_len);
qr_header_answer qr_header(const uint8_t *frame, size_t frame_len) {
    qr_header_answer answer;
    rattle_qr_header(&answer, frame, frame_len);
    return answer;
}

void rattle_qr_mar_read(qr_read_answer *, const uint8_t *file, size_t file_len, uint32_t *pixels, size_t pixels_len);
qr_read_answer qr_mar_read(const uint8_t *file, size_t file_len, uint32_t *pixels, size_t pixels_len) {
    qr_read_answer answer;
    rattle_qr_mar_read(&answer, file, file_len, pixels, pixels_len);
    return answer;
}

void rattle_qr_mar_entry(qr_mar_entry_answer *, const uint8_t *file, size_t file_len, uint32_t entry);
qr_mar_entry_answer qr_mar_entry(const uint8_t *file, size_t file_len, uint32_t entry) {
    qr_mar_entry_answer answer;
    rattle_qr_mar_entry(&answer, file, file_len, entry);
    return answer;
}

void rattle_qr_dtrek_read(qr_read_answer *, const uint8_t *file, size_t file_len, uint32_t *pixels, size_t pixels_len);
qr_read_answer qr_dtrek_read(const uint8_t *file, size_t file_len, uint32_t *pixels, size_t pixels_len) {
    qr_read_answer answer;
    rattle_qr_dtrek_read(&answer, file, file_len, pixels, pixels_len);
    return answer;
}

void rattle_qr_dtrek_header(qr_dtrek_header_answer *, const uint8_t *file, size_t file_len);
qr_dtrek_header_answer qr_dtrek_header(const uint8_t *file, size_t file_len) {
    qr_dtrek_header_answer answer;
    rattle_qr_dtrek_header(&answer, file, file_len);
    return answer;
}

void rattle_qr_dtrek_item(qr_dtrek_item_answer *, const uint8_t *file, size_t file_len, uint64_t at);
qr_dtrek_item_answer qr_dtrek_item(const uint8_t *file, size_t file_len, uint64_t at) {
    qr_dtrek_item_answer answer;
    rattle_qr_dtrek_item(&answer, file, file_len, at);
    return answer;
}

qr_list_answer rattle_qr_list(const uint8_t *ledger, size_t ledger_len, uint8_t *out, size_t out_len);
qr_list_answer qr_list(const uint8_t *ledger, size_t ledger_len, uint8_t *out, size_t out_len) {
    return rattle_qr_list(ledger, ledger_len, out, out_len);
}
