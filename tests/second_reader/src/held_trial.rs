//! One row of four pixels or others, held with its ledger: what the trials of amends, of compactions, of questions and of orders are made of.
use crate::case::{Call, Case, Step};
use crate::frame::{self, LINE, NAME};
use crate::ledger::{Date, Entry, BYTES};
use crate::order_claims;
use crate::random::Random;
use crate::sample::{self, Layout};
use crate::written_down::both;

pub const OPENED: [u32; 4] = [400, 401, 402, 403];
const BASELINE: u32 = 300;
pub const DATE: (u32, u32, u32) = (2031, 11, 2);
pub const KEEP: Entry = keep(DATE);
pub const WITHDRAWAL: Entry = Entry::Withdrawal;
/// A line of no kind.
pub const BAD: [u8; BYTES] = [0xC0; BYTES];
/// What stands in the ledger behind its lines.
const FREE: u8 = 0xA5;
/// Bytes that every frame here fits in.
const MOST: usize = 8000;

/// Counts at which a pixel is stored another way, in one form or another.
pub const EDGES: [u32; 12] = [
    0, 254, 255, 256, 300, 301, 555, 65534, 65535, 65834, 65835, 4294967295,
];

/// The baseline of a form's frames, 0 where none is subtracted.
pub fn base((_, underflow): (u32, u32)) -> u32 {
    match underflow {
        0 => 0,
        _ => BASELINE,
    }
}

/// What is done to the held buffer.
pub type Damage = fn(&mut Vec<u8>);

/// The counts read as the same, and the line is not as the writer spells it.
pub const RESPELLED: Damage = |held| held[20 * LINE + NAME..21 * LINE].rotate_right(1);

/// A held frame of one row, its ledger, and what is asked of them.
pub struct Trial {
    pub call: Call,
    pub form: (u32, u32),
    pub pixels: Vec<u32>,
    /// Bytes of the held buffer behind the frame.
    pub room: usize,
    pub lines: Vec<[u8; BYTES]>,
    /// Bytes of the ledger behind its lines.
    pub spare: usize,
    /// Lines claimed beside these.
    pub beyond: u64,
    pub count: u32,
    pub damage: Damage,
    pub steps: Vec<Step>,
}

/// What is done to a trial.
pub type Change = fn(&mut Trial);

pub const fn correction(pixel: u32, old: u32, new: u32) -> Entry {
    Entry::Correction { pixel, old, new }
}

pub const fn keep((year, month, day): (u32, u32, u32)) -> Entry {
    Entry::Keep(Date { year, month, day })
}

/// The frame of these pixels in a form.
fn written(pixels: &[u32], form: (u32, u32)) -> Vec<u8> {
    let header = sample::header(
        &mut Random(1),
        &Layout::one_row(pixels.len(), form, BASELINE),
    );
    let mut out = vec![0; MOST];
    match frame::write(&header, pixels, form.0, form.1, &mut out) {
        Ok(length) => out.truncate(length as usize),
        Err(refusal) => panic!("{refusal:?} for {pixels:?}"),
    }
    out
}

impl Trial {
    /// Pixel 2 was corrected from 402 to 1000; the frame just fits its buffer and two lines more the ledger. The count asked for is 500.
    pub fn new(call: Call) -> Trial {
        let mut trial = Trial {
            call,
            form: (1, 1),
            pixels: OPENED.to_vec(),
            room: 0,
            lines: Vec::new(),
            spare: 2 * BYTES,
            beyond: 0,
            count: 500,
            damage: |_| {},
            steps: Vec::new(),
        };
        trial.last(2, 402, 1000);
        trial
    }

    pub fn ledger(&mut self, entries: &[Entry]) {
        self.lines = entries.iter().map(|entry| entry.bytes()).collect();
    }

    /// This correction is the only line, and its pixel has the new count.
    pub fn last(&mut self, pixel: u32, old: u32, new: u32) {
        self.ledger(&[correction(pixel, old, new)]);
        self.pixels[pixel as usize] = new;
    }

    pub fn case(&self) -> Case {
        let mut buffer = written(&self.pixels, self.form);
        buffer.resize(buffer.len() + self.room, 0);
        (self.damage)(&mut buffer);
        let mut ledger = self.lines.concat();
        ledger.resize(ledger.len() + self.spare, FREE);
        let mut case = Case::of(self.call);
        case.step.count = self.count;
        Case {
            buffer,
            ledger,
            lines: (self.lines.len() as u64).wrapping_add(self.beyond),
            steps: self.steps.clone(),
            ..case
        }
    }
}

pub fn form_name((width, underflow): (u32, u32)) -> String {
    match underflow {
        0 => width.to_string(),
        _ => format!("{width}+{underflow}"),
    }
}

pub fn joined(numbers: impl Iterator<Item = u64>) -> String {
    let words: Vec<String> = numbers.map(|number| number.to_string()).collect();
    words.join(" ")
}

/// The listing of these lines as the library gives it, in one line.
pub fn listed(lines: &[u8]) -> String {
    let (outcome, note) = both(&Case::listing(lines));
    let text = outcome.listing_text();
    format!("{}{note}", text.trim_end().replace('\n', "; "))
}

/// What became of the bytes behind the lines used, of which the first ones were freed.
pub fn behind_words(before: &[u8], after: &[u8], freed: usize) -> String {
    let cleared = after[..freed].iter().all(|byte| *byte == 0);
    if !cleared || after[freed..] != before[freed..] {
        return ", the rest is not as it should be".to_string();
    }
    match freed {
        0 => String::new(),
        _ => format!(", {freed} bytes freed"),
    }
}

/// The counts of a frame of one row, or the first and the last of many, and where it ends.
pub fn held_words(held: &[u8]) -> Option<(String, usize)> {
    let counts = order_claims::counts(held);
    let end = frame::read(held, &mut counts.clone()).ok()?.end as usize;
    let words = match counts[..] {
        [first, .., last] if counts.len() > 24 => {
            format!("{} pixels, {first} to {last}", counts.len())
        }
        _ => joined(counts.into_iter().map(u64::from)),
    };
    Some((format!("{words}, ends at {end}"), end))
}

/// What became of the held buffer and of the ledger, where the bytes behind its lines were free.
pub fn after_words(before: &Case, after: &Case) -> String {
    if before.buffer == after.buffer && before.ledger == after.ledger {
        return "untouched".to_string();
    }
    let Some((held, end)) = held_words(&after.buffer) else {
        return "no frame held".to_string();
    };
    let (used, free) = after.ledger.split_at(after.lines as usize * BYTES);
    let freed = free.iter().take_while(|byte| **byte == 0).count();
    let cleared = after.buffer[end..].iter().all(|b| *b == 0);
    let rest = match cleared {
        true => behind_words(&vec![FREE; free.len()], free, freed),
        false => ", bytes behind the frame".to_string(),
    };
    format!("{held}{rest}; {}", listed(used))
}

/// A call of a list. An amend knows the pixel, for the two calls that it stands for.
#[derive(Clone, Copy)]
pub enum Deed {
    Correct(u64, u32),
    Keep((u32, u32, u32)),
    Withdraw,
    Amend(u64, u32),
    Compact,
    Purge((u32, u32, u32)),
    WhyDay((u32, u32, u32)),
    WhyPixel(u64),
}

impl Deed {
    pub fn step(self) -> Step {
        let (call, pixel, count, date) = match self {
            Deed::Correct(pixel, count) => (Call::Correct, pixel, count, DATE),
            Deed::Keep(date) => (Call::Keep, 0, 0, date),
            Deed::Withdraw => (Call::Withdraw, 0, 0, DATE),
            Deed::Amend(_, count) => (Call::Amend, 0, count, DATE),
            Deed::Compact => (Call::Compact, 0, 0, DATE),
            Deed::Purge(date) => (Call::Purge, 0, 0, date),
            Deed::WhyDay(date) => (Call::WhyDay, 0, 0, date),
            Deed::WhyPixel(pixel) => (Call::WhyPixel, pixel, 0, DATE),
        };
        Step {
            call,
            pixel,
            count,
            date,
        }
    }
}

/// Calls that are accepted where the ledger has room for 16 lines.
pub const ACCEPTED: [Deed; 11] = [
    Deed::Correct(2, 1000),
    Deed::Amend(2, 70000),
    Deed::Keep(DATE),
    Deed::Correct(1, 5),
    Deed::Amend(1, 600),
    Deed::Amend(1, 65835),
    Deed::Withdraw,
    Deed::Withdraw,
    Deed::Amend(2, 0),
    Deed::Correct(0, 400),
    Deed::Amend(0, 4294967295),
];

/// An opening in this form, and calls on a ledger of so many bytes.
pub fn list_case(form: (u32, u32), bytes: usize, steps: Vec<Step>) -> Case {
    Case {
        frame: written(&OPENED, form).into(),
        pixels: vec![0; OPENED.len()],
        form,
        buffer: vec![0; MOST],
        ledger: vec![FREE; bytes],
        steps,
        ..Case::of(Call::List)
    }
}
