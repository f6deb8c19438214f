//! The proved library behind safe functions: with `cbf`, which does the same for libcbf, the only unsafe code of what is installed.
//!
//! A slice passes as a pointer and a length in elements. The library has no precondition beyond what a slice is.

/// What reading answers. `refusal` is 0 where the frame is accepted; every field that a case does not name is 0.
#[repr(C)]
#[derive(Clone, Copy, Debug, PartialEq, Eq)]
pub struct ReadAnswer {
    pub refusal: u32,
    pub place: u32,
    pub column: u32,
    pub rows: u32,
    pub columns: u32,
    pub end: u64,
}

#[repr(C)]
#[derive(Clone, Copy, Debug, PartialEq, Eq)]
pub struct WriteAnswer {
    pub refusal: u32,
    pub place: u32,
    pub column: u32,
    pub length: u64,
}

#[repr(C)]
#[derive(Clone, Copy, Debug, PartialEq, Eq)]
pub struct OpenAnswer {
    pub refusal: u32,
    pub place: u32,
    pub column: u32,
    pub rows: u32,
    pub columns: u32,
    pub end: u64,
    pub length: u64,
}

/// The smallest form and the length of the frame in it.
#[repr(C)]
#[derive(Clone, Copy, Debug, PartialEq, Eq)]
pub struct FormAnswer {
    pub refusal: u32,
    pub place: u32,
    pub column: u32,
    pub width: u32,
    pub underflow: u32,
    pub length: u64,
}

/// What opening in the smallest form answers; the form is 0 and 0 where nothing is held.
#[repr(C)]
#[derive(Clone, Copy, Debug, PartialEq, Eq)]
pub struct OpenFormAnswer {
    pub refusal: u32,
    pub place: u32,
    pub column: u32,
    pub rows: u32,
    pub columns: u32,
    pub width: u32,
    pub underflow: u32,
    pub end: u64,
    pub length: u64,
}

#[repr(C)]
#[derive(Clone, Copy, Debug, PartialEq, Eq)]
pub struct LedgerAnswer {
    pub refusal: u32,
    pub lines: u64,
}

/// What an accepted header says; where it is refused, every field but `refusal`, `place` and `column` is 0.
#[repr(C)]
#[derive(Clone, Copy, Debug, PartialEq, Eq)]
pub struct HeaderAnswer {
    pub refusal: u32,
    pub place: u32,
    pub column: u32,
    /// 86 or 100.
    pub format: u32,
    /// The header's length: the image starts there.
    pub start: u32,
    pub rows: u32,
    pub columns: u32,
    /// Bytes per pixel.
    pub width: u32,
    /// FORMAT 86's overflow entries.
    pub entries: u32,
    /// 1 where the baseline is in use, that is, the underflow count is not -1.
    pub subtracted: u32,
    /// Bytes of an underflow entry.
    pub entry: u32,
    pub baseline: u32,
    pub underflows: u32,
    pub two: u32,
    pub four: u32,
}

/// `length` bytes at the end of the lent buffer are the listing; `too_short` is 1 where the buffer is too short for it.
#[repr(C)]
#[derive(Clone, Copy, Debug, PartialEq, Eq)]
pub struct ListAnswer {
    pub too_short: u32,
    pub length: u64,
}

/// The ledger's line that decides, numbered from 1 as in the listing; 0 where none does.
#[repr(C)]
#[derive(Clone, Copy, Debug, PartialEq, Eq)]
pub struct WhyAnswer {
    pub refusal: u32,
    pub line: u64,
}

/// One entry of a mar image's header: a whole number, or a float where `is_float` is 1, as its 32 bits are stored.
#[repr(C)]
#[derive(Clone, Copy, Debug, PartialEq, Eq)]
pub struct MarEntryAnswer {
    pub refusal: u32,
    pub is_float: u32,
    pub bits: u32,
}

/// What an accepted d*TREK header says; where it is refused, every field but `refusal` is 0.
#[repr(C)]
#[derive(Clone, Copy, Debug, PartialEq, Eq)]
pub struct DtrekHeaderAnswer {
    pub refusal: u32,
    /// The header's length: the image starts there.
    pub start: u32,
    pub rows: u32,
    pub columns: u32,
    /// Bytes per pixel.
    pub width: u32,
    /// 1 where the most significant byte of a pixel comes first.
    pub big_endian: u32,
    /// The byte after the last pixel.
    pub end: u64,
}

/// Where the keyword and the value of a d*TREK header's item stand. `found` is 0 where no item is left.
#[repr(C)]
#[derive(Clone, Copy, Debug, PartialEq, Eq)]
pub struct DtrekItemAnswer {
    pub refusal: u32,
    pub found: u32,
    pub key_start: u64,
    pub key_end: u64,
    pub value_start: u64,
    pub value_end: u64,
    /// Where the next item is read on.
    pub next: u64,
}

/// A pixel width of 1, 2 or 4 bytes, and 0 for underflow kind none or the bytes of an underflow entry.
#[derive(Clone, Copy, Debug, PartialEq, Eq)]
pub struct Form {
    pub width: u32,
    pub underflow: u32,
}

#[derive(Clone, Copy, Debug, PartialEq, Eq)]
pub struct Date {
    pub year: u32,
    pub month: u32,
    pub day: u32,
}

mod c {
    use super::{DtrekHeaderAnswer, DtrekItemAnswer, FormAnswer, HeaderAnswer, LedgerAnswer};
    use super::{ListAnswer, MarEntryAnswer, OpenAnswer, OpenFormAnswer, ReadAnswer, WhyAnswer, WriteAnswer};

    #[rustfmt::skip]
    extern "C" {
        pub fn qr_read(frame: *const u8, frame_len: usize, pixels: *mut u32, pixels_len: usize) -> ReadAnswer;
        pub fn qr_write(
            header: *const u8, header_len: usize, pixels: *const u32, pixels_len: usize,
            width: u32, underflow: u32, out: *mut u8, out_len: usize,
        ) -> WriteAnswer;
        pub fn qr_open(
            frame: *const u8, frame_len: usize, pixels: *mut u32, pixels_len: usize,
            width: u32, underflow: u32, held: *mut u8, held_len: usize,
        ) -> OpenAnswer;
        pub fn qr_smallest(header: *const u8, header_len: usize, pixels: *const u32, pixels_len: usize) -> FormAnswer;
        pub fn qr_open_smallest(
            frame: *const u8, frame_len: usize, pixels: *mut u32, pixels_len: usize, held: *mut u8, held_len: usize,
        ) -> OpenFormAnswer;
        pub fn qr_correct(
            held: *mut u8, held_len: usize, ledger: *mut u8, ledger_len: usize,
            lines: u64, pixel: u64, count: u32,
        ) -> LedgerAnswer;
        pub fn qr_keep(
            ledger: *mut u8, ledger_len: usize, lines: u64, year: u32, month: u32, day: u32,
        ) -> LedgerAnswer;
        pub fn qr_withdraw(
            held: *mut u8, held_len: usize, ledger: *mut u8, ledger_len: usize, lines: u64,
        ) -> LedgerAnswer;
        pub fn qr_amend(
            held: *mut u8, held_len: usize, ledger: *mut u8, ledger_len: usize, lines: u64, count: u32,
        ) -> LedgerAnswer;
        pub fn qr_compact(ledger: *mut u8, ledger_len: usize, lines: u64) -> LedgerAnswer;
        pub fn qr_may_purge(
            ledger: *const u8, ledger_len: usize, lines: u64, year: u32, month: u32, day: u32,
        ) -> u32;
        pub fn qr_why_day(
            ledger: *const u8, ledger_len: usize, lines: u64, year: u32, month: u32, day: u32,
        ) -> WhyAnswer;
        pub fn qr_why_pixel(ledger: *const u8, ledger_len: usize, lines: u64, pixel: u64) -> WhyAnswer;
        pub fn qr_header(frame: *const u8, frame_len: usize) -> HeaderAnswer;
        pub fn qr_list(ledger: *const u8, ledger_len: usize, out: *mut u8, out_len: usize) -> ListAnswer;
        pub fn qr_mar_read(file: *const u8, file_len: usize, pixels: *mut u32, pixels_len: usize) -> ReadAnswer;
        pub fn qr_mar_entry(file: *const u8, file_len: usize, entry: u32) -> MarEntryAnswer;
        pub fn qr_dtrek_read(file: *const u8, file_len: usize, pixels: *mut u32, pixels_len: usize) -> ReadAnswer;
        pub fn qr_dtrek_header(file: *const u8, file_len: usize) -> DtrekHeaderAnswer;
        pub fn qr_dtrek_item(file: *const u8, file_len: usize, at: u64) -> DtrekItemAnswer;
    }
}

// SAFETY of each call below: every pointer and length is that of one live slice, and a `&mut` slice is lent to nobody
// else while the call runs.

/// Reads a frame of FORMAT 100 or 86.
pub fn read(frame: &[u8], pixels: &mut [u32]) -> ReadAnswer {
    unsafe { c::qr_read(frame.as_ptr(), frame.len(), pixels.as_mut_ptr(), pixels.len()) }
}

/// Writes a frame of FORMAT 100. The rest of `out` is 0 where the frame is written; else `out` is untouched.
pub fn write(header: &[u8], pixels: &[u32], form: Form, out: &mut [u8]) -> WriteAnswer {
    let (h, p) = (header.as_ptr(), pixels.as_ptr());
    let (n, m, l) = (header.len(), pixels.len(), out.len());
    unsafe { c::qr_write(h, n, p, m, form.width, form.underflow, out.as_mut_ptr(), l) }
}

/// Reads a frame and holds it in the form asked for.
pub fn open(frame: &[u8], pixels: &mut [u32], form: Form, held: &mut [u8]) -> OpenAnswer {
    let (f, p, h) = (frame.as_ptr(), pixels.as_mut_ptr(), held.as_mut_ptr());
    let (n, m, l) = (frame.len(), pixels.len(), held.len());
    unsafe { c::qr_open(f, n, p, m, form.width, form.underflow, h, l) }
}

/// The form in which the frame of this header and these pixels has the fewest bytes, and how many.
pub fn smallest(header: &[u8], pixels: &[u32]) -> FormAnswer {
    unsafe { c::qr_smallest(header.as_ptr(), header.len(), pixels.as_ptr(), pixels.len()) }
}

/// Reads a frame and holds it in the smallest form.
pub fn open_smallest(frame: &[u8], pixels: &mut [u32], held: &mut [u8]) -> OpenFormAnswer {
    let (f, p, h) = (frame.as_ptr(), pixels.as_mut_ptr(), held.as_mut_ptr());
    let (n, m, l) = (frame.len(), pixels.len(), held.len());
    unsafe { c::qr_open_smallest(f, n, p, m, h, l) }
}

/// Corrects the count of one pixel of a held frame, in place.
pub fn correct(held: &mut [u8], ledger: &mut [u8], lines: u64, pixel: u64, count: u32) -> LedgerAnswer {
    let (n, m) = (held.len(), ledger.len());
    unsafe { c::qr_correct(held.as_mut_ptr(), n, ledger.as_mut_ptr(), m, lines, pixel, count) }
}

/// Appends a keep line.
pub fn keep(ledger: &mut [u8], lines: u64, date: Date) -> LedgerAnswer {
    let n = ledger.len();
    unsafe { c::qr_keep(ledger.as_mut_ptr(), n, lines, date.year, date.month, date.day) }
}

/// Takes the last standing line back.
pub fn withdraw(held: &mut [u8], ledger: &mut [u8], lines: u64) -> LedgerAnswer {
    let (n, m) = (held.len(), ledger.len());
    unsafe { c::qr_withdraw(held.as_mut_ptr(), n, ledger.as_mut_ptr(), m, lines) }
}

/// Takes the last standing correction back and corrects its pixel to another count: two lines, or none.
pub fn amend(held: &mut [u8], ledger: &mut [u8], lines: u64, count: u32) -> LedgerAnswer {
    let (n, m) = (held.len(), ledger.len());
    unsafe { c::qr_amend(held.as_mut_ptr(), n, ledger.as_mut_ptr(), m, lines, count) }
}

/// Leaves the standing lines alone, in their order; the answer has how many they are.
pub fn compact(ledger: &mut [u8], lines: u64) -> LedgerAnswer {
    unsafe { c::qr_compact(ledger.as_mut_ptr(), ledger.len(), lines) }
}

/// May the frame be purged on this day: 0, or the refusal.
pub fn may_purge(ledger: &[u8], lines: u64, day: Date) -> u32 {
    unsafe { c::qr_may_purge(ledger.as_ptr(), ledger.len(), lines, day.year, day.month, day.day) }
}

/// The purge question with the keep line that decides it: the last that stands.
pub fn why_day(ledger: &[u8], lines: u64, day: Date) -> WhyAnswer {
    unsafe { c::qr_why_day(ledger.as_ptr(), ledger.len(), lines, day.year, day.month, day.day) }
}

/// The last standing correction of a pixel; line 0 with refusal 0 where the pixel is as opened.
pub fn why_pixel(ledger: &[u8], lines: u64, pixel: u64) -> WhyAnswer {
    unsafe { c::qr_why_pixel(ledger.as_ptr(), ledger.len(), lines, pixel) }
}

/// What the header of a frame says.
pub fn header(frame: &[u8]) -> HeaderAnswer {
    unsafe { c::qr_header(frame.as_ptr(), frame.len()) }
}

/// The bytes that the listing of a ledger of so many bytes needs at most.
pub fn list_room(ledger_len: usize) -> usize {
    32 + 80 * (ledger_len / 16)
}

/// The listing of a ledger, as the last bytes of `out`, which has at least `list_room` bytes.
pub fn list(ledger: &[u8], out: &mut [u8]) -> ListAnswer {
    let n = out.len();
    unsafe { c::qr_list(ledger.as_ptr(), ledger.len(), out.as_mut_ptr(), n) }
}

/// Reads an uncompressed mar image.
pub fn mar_read(file: &[u8], pixels: &mut [u32]) -> ReadAnswer {
    unsafe { c::qr_mar_read(file.as_ptr(), file.len(), pixels.as_mut_ptr(), pixels.len()) }
}

/// The header entry of a mar image with this number, from 1 to 25.
pub fn mar_entry(file: &[u8], entry: u32) -> MarEntryAnswer {
    unsafe { c::qr_mar_entry(file.as_ptr(), file.len(), entry) }
}

/// Reads a d*TREK image.
pub fn dtrek_read(file: &[u8], pixels: &mut [u32]) -> ReadAnswer {
    unsafe { c::qr_dtrek_read(file.as_ptr(), file.len(), pixels.as_mut_ptr(), pixels.len()) }
}

/// What the header of a d*TREK image says.
pub fn dtrek_header(file: &[u8]) -> DtrekHeaderAnswer {
    unsafe { c::qr_dtrek_header(file.as_ptr(), file.len()) }
}

/// The item of a d*TREK header that is read on from this byte: 1 for the first, then `next` of the last answer.
pub fn dtrek_item(file: &[u8], at: u64) -> DtrekItemAnswer {
    unsafe { c::qr_dtrek_item(file.as_ptr(), file.len(), at) }
}
