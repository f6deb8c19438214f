//! What headers and pixels can be whose smallest form is asked for. Each has to be met.
use crate::case::{Call, Case};
use crate::compare::Outcome;
use crate::frame::{self, Header, LINE};
use crate::order_claims;
use crate::order_kinds::{named, Counted, FORMS};
use crate::smallest::{self, Weight};

/// A header and its N pixels, with the frame of each form.
struct Weighed<'a> {
    case: &'a Case,
    header: Header,
    pixels: &'a [u32],
    weights: &'a [Weight],
    chosen: &'a Weight,
}

impl Weighed<'_> {
    /// Whether another form that can be written has a frame of the same length.
    fn is_equal(&self, other: impl Fn((u32, u32)) -> bool) -> bool {
        let is_other = |weight: &&Weight| weight.fits && other(weight.form);
        let mut others = self.weights.iter().filter(is_other);
        others.any(|weight| weight.length == self.chosen.length)
    }

    /// The same width with an underflow kind, and the form chosen with another one.
    fn is_equal_kind(&self, chosen: u32, other: u32) -> bool {
        let (width, underflow) = self.chosen.form;
        underflow == chosen && self.is_equal(|form| form == (width, other))
    }

    /// What the header says of a baseline that is not in use.
    fn unused(&self) -> Option<Result<u64, u32>> {
        let baseline = frame::read_baseline(&self.case.frame[..self.header.length]);
        let unused = self.header.underflows.is_none();
        unused.then(|| baseline.map_err(|refusal| refusal.number))
    }

    fn ends_within(&self, line: usize) -> bool {
        (line + 1) * LINE <= self.header.length
    }

    /// Whether one pixel takes entries, and the others none.
    fn is_one_odd(&self, pixels: usize) -> bool {
        self.pixels.len() >= pixels && self.chosen.entries.iter().max() == Some(&1)
    }

    /// Whether a table of the form chosen has so many entries.
    fn has_entries(&self, (table, bytes, entries): (usize, u32, u64)) -> bool {
        let wide = table > 0 || self.chosen.form.1 == bytes;
        wide && self.chosen.entries[table] == entries
    }

    /// Whether a pixel has a count so far above zero or above the baseline.
    fn has_count(&self, (above_baseline, count): (bool, i64)) -> bool {
        let baseline = frame::form_baseline(&self.header, &self.case.frame, 1, 1);
        let base = match (above_baseline, baseline) {
            (false, _) => 0,
            (true, Ok(Some(baseline))) => baseline.into(),
            _ => return false,
        };
        let mut pixels = self.pixels.iter();
        pixels.any(|pixel| i64::from(*pixel) == base + count)
    }
}

type Holds = fn(&Weighed) -> bool;
const KINDS: [(&str, Holds); 20] = [
    ("equal to a larger width", |of| {
        of.is_equal(|form| form.0 > of.chosen.form.0)
    }),
    ("all widths equal", |of| {
        [1, 2, 4].map(|width| of.is_equal(|form| form.0 == width)) == [true; 3]
    }),
    ("equal to entries of one byte", |of| of.is_equal_kind(0, 1)),
    ("equal to entries of two bytes", |of| of.is_equal_kind(0, 2)),
    ("equal to wider entries, and none there", |of| {
        of.is_equal_kind(1, 2) && of.chosen.entries[0] == 0
    }),
    ("equal to wider entries, and some there", |of| {
        of.is_equal_kind(1, 2) && of.chosen.entries[0] > 0
    }),
    ("entries of one byte smaller but for a large one", |of| {
        let mut unfit = of.weights.iter().filter(|weight| !weight.fits);
        unfit.any(|weight| weight.length < of.chosen.length)
    }),
    ("-1, and a baseline subtracted", |of| {
        of.unused().is_some() && of.chosen.form.1 > 0
    }),
    ("-1, line 79 outside the header", |of| {
        of.unused() == Some(Err(7)) && !of.ends_within(79)
    }),
    ("-1, line 79 with another name", |of| {
        of.unused() == Some(Err(7)) && of.ends_within(79)
    }),
    ("-1, no number in line 79", |of| of.unused() == Some(Err(3))),
    ("-1, a number above 65535", |of| {
        matches!(of.unused(), Some(Ok(65536..)))
    }),
    ("a longer pixel array", |of| {
        of.case.pixels.len() > of.pixels.len()
    }),
    ("one pixel", |of| of.pixels.len() == 1),
    ("equal pixels", |of| {
        of.pixels.len() > 1 && of.pixels.iter().all(|pixel| *pixel == of.pixels[0])
    }),
    ("one odd pixel of 1024 or more", |of| of.is_one_odd(1024)),
    ("one odd pixel of 4096 or more", |of| of.is_one_odd(4096)),
    ("opened, another form before", |of| {
        let before = (of.header.width as u32, of.header.underflow_width as u32);
        of.case.step.call == Call::OpenSmallest && before != of.chosen.form
    }),
    ("opened, just long enough", |of| {
        of.is_opened_with(of.chosen.length)
    }),
    ("opened, a byte too short", |of| {
        of.is_opened_with(of.chosen.length - 1)
    }),
];

/// With pixels of four bytes a baseline makes no table shorter, and of equals kind none is the smaller.
fn can_be_smallest(form: (u64, u64)) -> bool {
    !matches!(form, (4, 1 | 2))
}

/// Table, bytes of an underflow entry, and entries about which the padding ends.
const ENTRIES: [(&str, (usize, u32, u64)); 8] = [
    ("16 underflow entries of one byte", (0, 1, 16)),
    ("17 underflow entries of one byte", (0, 1, 17)),
    ("8 underflow entries of two bytes", (0, 2, 8)),
    ("9 underflow entries of two bytes", (0, 2, 9)),
    ("8 two-byte entries", (1, 0, 8)),
    ("9 two-byte entries", (1, 0, 9)),
    ("4 four-byte entries", (2, 0, 4)),
    ("5 four-byte entries", (2, 0, 5)),
];

/// Counts about which a pixel is stored another way, of themselves or above the baseline.
const COUNTS: [(&str, (bool, i64)); 15] = [
    ("a pixel of 254", (false, 254)),
    ("a pixel of 255", (false, 255)),
    ("a pixel of 256", (false, 256)),
    ("a pixel of 65534", (false, 65534)),
    ("a pixel of 65535", (false, 65535)),
    ("a pixel of 65536", (false, 65536)),
    ("a pixel below the baseline", (true, -1)),
    ("a pixel of the baseline", (true, 0)),
    ("a pixel above the baseline", (true, 1)),
    ("a pixel 254 above it", (true, 254)),
    ("a pixel 255 above it", (true, 255)),
    ("a pixel 256 above it", (true, 256)),
    ("a pixel 65534 above it", (true, 65534)),
    ("a pixel 65535 above it", (true, 65535)),
    ("a pixel 65536 above it", (true, 65536)),
];

const WEIGHED: &str = "smallest form";
/// What lists of calls from an opening in the smallest form are counted by.
const LISTED: &str = "kept through corrections";
const OUTGROWN: &str = "kept where another is the smaller by then";

pub fn all() -> impl Iterator<Item = Counted> {
    let kinds = named(&FORMS, |form| can_be_smallest(*form)).chain(named(&KINDS, |_| true));
    let counts = named(&ENTRIES, |_| true).chain(named(&COUNTS, |_| true));
    let all = kinds.chain(counts).chain([LISTED, OUTGROWN]);
    all.map(|name| (WEIGHED, name))
}

impl Weighed<'_> {
    /// Whether it is an opening with so many bytes to hold the frame in.
    fn is_opened_with(&self, bytes: u64) -> bool {
        self.case.step.call == Call::OpenSmallest && self.case.buffer.len() as u64 == bytes
    }

    fn kinds(&self) -> impl Iterator<Item = &'static str> + '_ {
        let (width, underflow) = self.chosen.form;
        let forms = named(&FORMS, move |form| {
            *form == (width.into(), underflow.into())
        });
        let kinds = named(&KINDS, |holds| holds(self));
        let entries = named(&ENTRIES, |entries| self.has_entries(*entries));
        let counts = named(&COUNTS, |count| self.has_count(*count));
        forms.chain(kinds).chain(entries).chain(counts)
    }
}

/// The kinds of a case that asks for the smallest form or opens in it, where there is one.
fn of_choice(case: &Case, pixels: &[u32]) -> Option<Vec<&'static str>> {
    let header = frame::read_header(&case.frame).ok()?;
    let pixels = pixels.get(..header.pixels())?;
    let ((width, underflow), _) = smallest::smallest(&case.frame, pixels).ok()?;
    let weights = smallest::weights(&header, &case.frame, pixels);
    let chosen = weights
        .iter()
        .find(|weight| weight.form == (width, underflow))?;
    let weighed = Weighed {
        case,
        header,
        pixels,
        weights: &weights,
        chosen,
    };
    Some(weighed.kinds().collect())
}

/// What a list of calls from an opening in the smallest form is counted by.
fn of_list(outcome: &Outcome) -> Vec<&'static str> {
    let is_corrected = outcome.met.contains(&(Call::Correct, 0));
    if outcome.answer()[0] != 0 || !is_corrected {
        return Vec::new();
    }
    let held = &outcome.after.buffer;
    let (width, underflow) = (outcome.answer()[5] as u32, outcome.answer()[6] as u32);
    let now = smallest::smallest(held, &order_claims::counts(held));
    let outgrown = now.is_ok_and(|(form, _)| form != (width, underflow));
    let outgrown = outgrown.then_some(OUTGROWN);
    [LISTED].into_iter().chain(outgrown).collect()
}

pub fn of(case: &Case, outcome: &Outcome) -> Vec<Counted> {
    let is_read = [0, 18].contains(&outcome.answer()[0]);
    let kinds = match case.step.call {
        Call::Smallest | Call::OpenSmallest if is_read => {
            of_choice(case, &outcome.after.pixels).unwrap_or_default()
        }
        Call::SmallestList => of_list(outcome),
        _ => Vec::new(),
    };
    kinds.into_iter().map(|name| (WEIGHED, name)).collect()
}
