//! The static library, with guards: every slice is lent from the middle of a longer buffer whose other places are guards.
use quayrudder::{Date, Form, LedgerAnswer, ReadAnswer, WhyAnswer};

/// Places before and after a lent slice. Odd, so that bytes are lent unaligned.
const GUARD: usize = 67;

struct Lent<T> {
    cells: Vec<T>,
    length: usize,
    guard: T,
}

impl<T: Copy + PartialEq> Lent<T> {
    fn new(values: &[T], guard: T) -> Self {
        let length = values.len();
        let mut cells = Vec::with_capacity(length + 2 * GUARD);
        cells.resize(GUARD, guard);
        cells.extend_from_slice(values);
        cells.resize(length + 2 * GUARD, guard);
        Lent {
            cells,
            length,
            guard,
        }
    }

    fn middle(&mut self) -> &mut [T] {
        &mut self.cells[GUARD..GUARD + self.length]
    }

    fn guards_hold(&self) -> bool {
        let (before, rest) = self.cells.split_at(GUARD);
        let after = &rest[self.length..];
        before.iter().chain(after).all(|cell| *cell == self.guard)
    }

    /// Hands a slice lent for writing back. False where a guard was written.
    fn give_back(&mut self, values: &mut [T]) -> bool {
        values.copy_from_slice(self.middle());
        self.guards_hold()
    }

    /// False where a slice lent for reading, or a guard, was written.
    fn is_untouched(&mut self, values: &[T]) -> bool {
        self.middle() == values && self.guards_hold()
    }
}

const BYTE: u8 = 0xA7;
const WORD: u32 = 0xB6C5_D4E3;

/// The numbers of the answer in the order of the struct, and whether lent memory was respected.
pub type Answer = (Vec<u64>, bool);

fn words<const N: usize>(values: [u32; N]) -> Vec<u64> {
    values.map(u64::from).to_vec()
}

fn form((width, underflow): (u32, u32)) -> Form {
    Form { width, underflow }
}

fn date((year, month, day): (u32, u32, u32)) -> Date {
    Date { year, month, day }
}

type Reader = fn(&[u8], &mut [u32]) -> ReadAnswer;

fn read_by(reader: Reader, file: &[u8], pixels: &mut [u32]) -> Answer {
    let mut a = Lent::new(file, BYTE);
    let mut b = Lent::new(pixels, WORD);
    let r = reader(a.middle(), b.middle());
    let mut numbers = words([r.refusal, r.place, r.column, r.rows, r.columns]);
    numbers.push(r.end);
    (numbers, a.is_untouched(file) & b.give_back(pixels))
}

pub fn read(frame: &[u8], pixels: &mut [u32]) -> Answer {
    read_by(quayrudder::read, frame, pixels)
}

pub fn mar_read(file: &[u8], pixels: &mut [u32]) -> Answer {
    read_by(quayrudder::mar_read, file, pixels)
}

pub fn mar_entry(file: &[u8], entry: u32) -> Answer {
    let mut a = Lent::new(file, BYTE);
    let r = quayrudder::mar_entry(a.middle(), entry);
    let numbers = words([r.refusal, r.is_float, r.bits]);
    (numbers, a.is_untouched(file))
}

pub fn dtrek_read(file: &[u8], pixels: &mut [u32]) -> Answer {
    read_by(quayrudder::dtrek_read, file, pixels)
}

pub fn dtrek_header(file: &[u8]) -> Answer {
    let mut a = Lent::new(file, BYTE);
    let r = quayrudder::dtrek_header(a.middle());
    let mut numbers = words([r.refusal, r.start, r.rows, r.columns, r.width, r.big_endian]);
    numbers.push(r.end);
    (numbers, a.is_untouched(file))
}

pub fn dtrek_item(file: &[u8], at: u64) -> Answer {
    let mut a = Lent::new(file, BYTE);
    let r = quayrudder::dtrek_item(a.middle(), at);
    let mut numbers = words([r.refusal, r.found]);
    numbers.extend([r.key_start, r.key_end, r.value_start, r.value_end, r.next]);
    (numbers, a.is_untouched(file))
}

pub fn write(header: &[u8], pixels: &[u32], asked: (u32, u32), out: &mut [u8]) -> Answer {
    let mut a = Lent::new(header, BYTE);
    let mut b = Lent::new(pixels, WORD);
    let mut c = Lent::new(out, BYTE);
    let r = quayrudder::write(a.middle(), b.middle(), form(asked), c.middle());
    let mut numbers = words([r.refusal, r.place, r.column]);
    numbers.push(r.length);
    let read = a.is_untouched(header) & b.is_untouched(pixels);
    (numbers, read & c.give_back(out))
}

/// A call that reads a frame into pixels and holds it.
fn open_by<R>(
    call: impl Fn(&[u8], &mut [u32], &mut [u8]) -> R,
    frame: &[u8],
    pixels: &mut [u32],
    held: &mut [u8],
) -> (R, bool) {
    let mut a = Lent::new(frame, BYTE);
    let mut b = Lent::new(pixels, WORD);
    let mut c = Lent::new(held, BYTE);
    let r = call(a.middle(), b.middle(), c.middle());
    let written = b.give_back(pixels) & c.give_back(held);
    (r, a.is_untouched(frame) & written)
}

pub fn open(frame: &[u8], pixels: &mut [u32], asked: (u32, u32), held: &mut [u8]) -> Answer {
    let call = |f: &[u8], p: &mut [u32], h: &mut [u8]| quayrudder::open(f, p, form(asked), h);
    let (r, respected) = open_by(call, frame, pixels, held);
    let mut numbers = words([r.refusal, r.place, r.column, r.rows, r.columns]);
    numbers.extend([r.end, r.length]);
    (numbers, respected)
}

pub fn open_smallest(frame: &[u8], pixels: &mut [u32], held: &mut [u8]) -> Answer {
    let (r, respected) = open_by(quayrudder::open_smallest, frame, pixels, held);
    let mut numbers = words([r.refusal, r.place, r.column, r.rows, r.columns]);
    numbers.extend(words([r.width, r.underflow]));
    numbers.extend([r.end, r.length]);
    (numbers, respected)
}

pub fn smallest(header: &[u8], pixels: &[u32]) -> Answer {
    let mut a = Lent::new(header, BYTE);
    let mut b = Lent::new(pixels, WORD);
    let r = quayrudder::smallest(a.middle(), b.middle());
    let mut numbers = words([r.refusal, r.place, r.column, r.width, r.underflow]);
    numbers.push(r.length);
    (numbers, a.is_untouched(header) & b.is_untouched(pixels))
}

fn ledger_numbers(answer: LedgerAnswer) -> Vec<u64> {
    vec![u64::from(answer.refusal), answer.lines]
}

/// A call that is lent a held frame and its ledger.
fn change_by(
    call: impl Fn(&mut [u8], &mut [u8]) -> LedgerAnswer,
    held: &mut [u8],
    ledger: &mut [u8],
) -> Answer {
    let mut a = Lent::new(held, BYTE);
    let mut b = Lent::new(ledger, BYTE);
    let r = call(a.middle(), b.middle());
    let respected = a.give_back(held) & b.give_back(ledger);
    (ledger_numbers(r), respected)
}

pub fn correct(held: &mut [u8], ledger: &mut [u8], lines: u64, pixel: u64, count: u32) -> Answer {
    let call = |h: &mut [u8], l: &mut [u8]| quayrudder::correct(h, l, lines, pixel, count);
    change_by(call, held, ledger)
}

/// A call that is lent the ledger alone.
fn ledger_by(call: impl Fn(&mut [u8]) -> LedgerAnswer, ledger: &mut [u8]) -> Answer {
    let mut a = Lent::new(ledger, BYTE);
    let r = call(a.middle());
    (ledger_numbers(r), a.give_back(ledger))
}

pub fn keep(ledger: &mut [u8], lines: u64, day: (u32, u32, u32)) -> Answer {
    ledger_by(|l| quayrudder::keep(l, lines, date(day)), ledger)
}

pub fn compact(ledger: &mut [u8], lines: u64) -> Answer {
    ledger_by(|l| quayrudder::compact(l, lines), ledger)
}

pub fn withdraw(held: &mut [u8], ledger: &mut [u8], lines: u64) -> Answer {
    change_by(|h, l| quayrudder::withdraw(h, l, lines), held, ledger)
}

pub fn amend(held: &mut [u8], ledger: &mut [u8], lines: u64, count: u32) -> Answer {
    change_by(|h, l| quayrudder::amend(h, l, lines, count), held, ledger)
}

pub fn may_purge(ledger: &[u8], lines: u64, day: (u32, u32, u32)) -> Answer {
    let mut a = Lent::new(ledger, BYTE);
    let refusal = quayrudder::may_purge(a.middle(), lines, date(day));
    (vec![u64::from(refusal)], a.is_untouched(ledger))
}

fn why_by(ask: impl Fn(&[u8]) -> WhyAnswer, ledger: &[u8]) -> Answer {
    let mut a = Lent::new(ledger, BYTE);
    let r = ask(a.middle());
    (vec![r.refusal.into(), r.line], a.is_untouched(ledger))
}

pub fn why_day(ledger: &[u8], lines: u64, day: (u32, u32, u32)) -> Answer {
    why_by(|l| quayrudder::why_day(l, lines, date(day)), ledger)
}

pub fn why_pixel(ledger: &[u8], lines: u64, pixel: u64) -> Answer {
    why_by(|l| quayrudder::why_pixel(l, lines, pixel), ledger)
}

pub fn header(frame: &[u8]) -> Answer {
    let mut a = Lent::new(frame, BYTE);
    let r = quayrudder::header(a.middle());
    let mut numbers = words([
        r.refusal, r.place, r.column, r.format, r.start, r.rows, r.columns,
    ]);
    numbers.extend(words([
        r.width,
        r.entries,
        r.subtracted,
        r.entry,
        r.baseline,
    ]));
    numbers.extend(words([r.underflows, r.two, r.four]));
    (numbers, a.is_untouched(frame))
}

pub fn list(ledger: &[u8], out: &mut [u8]) -> Answer {
    let mut a = Lent::new(ledger, BYTE);
    let mut b = Lent::new(out, BYTE);
    let r = quayrudder::list(a.middle(), b.middle());
    let numbers = vec![u64::from(r.too_short), r.length];
    (numbers, a.is_untouched(ledger) & b.give_back(out))
}
