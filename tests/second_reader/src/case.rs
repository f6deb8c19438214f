//! A case: one call, a list of calls from an opening in either way, further calls with and without compaction, or runs of corrections, with all that is lent to it.
use crate::ledger::BYTES;
use std::fmt::Write;
use std::rc::Rc;

#[derive(Clone, Copy, Debug, PartialEq, Eq, PartialOrd, Ord)]
pub enum Call {
    Read,
    Write,
    Open,
    Smallest,
    OpenSmallest,
    Correct,
    Keep,
    Withdraw,
    Amend,
    Compact,
    Purge,
    WhyDay,
    WhyPixel,
    Header,
    Listing,
    MarRead,
    MarEntry,
    DtrekRead,
    DtrekHeader,
    DtrekItem,
    /// Further calls on a held frame and its ledger: after a compaction, and without one.
    Further,
    /// Runs of corrections and withdrawals, each on the same held frame and ledger. As a step it makes no call and starts the next run.
    Orders,
    /// A list of calls from an opening in the form asked for.
    List,
    /// The same from an opening in the smallest form.
    SmallestList,
}

pub const CALLS: [(Call, &str); 24] = [
    (Call::Read, "read"),
    (Call::Write, "write"),
    (Call::Open, "open"),
    (Call::Smallest, "smallest"),
    (Call::OpenSmallest, "open small"),
    (Call::Correct, "correct"),
    (Call::Keep, "keep"),
    (Call::Withdraw, "withdraw"),
    (Call::Amend, "amend"),
    (Call::Compact, "compact"),
    (Call::Purge, "purge"),
    (Call::WhyDay, "why day"),
    (Call::WhyPixel, "why pixel"),
    (Call::Header, "header"),
    (Call::Listing, "listing"),
    (Call::MarRead, "mar read"),
    (Call::MarEntry, "mar entry"),
    (Call::DtrekRead, "dtrek"),
    (Call::DtrekHeader, "dtrek head"),
    (Call::DtrekItem, "dtrek item"),
    (Call::Further, "further"),
    (Call::Orders, "orders"),
    (Call::List, "list"),
    (Call::SmallestList, "small list"),
];

impl Call {
    pub fn name(self) -> &'static str {
        CALLS[self as usize].1
    }

    pub fn is_list(self) -> bool {
        matches!(self, Call::List | Call::SmallestList)
    }

    /// Whether the smallest form is asked for, and no calls follow.
    pub fn is_smallest(self) -> bool {
        matches!(self, Call::Smallest | Call::OpenSmallest)
    }

    /// Whether it answers with a line that decides.
    pub fn is_why(self) -> bool {
        matches!(self, Call::WhyDay | Call::WhyPixel)
    }
}

/// A call's own arguments. Those that a call does not take are unused.
#[derive(Clone, Copy, Debug, PartialEq, Eq)]
pub struct Step {
    pub call: Call,
    /// A pixel, or the place from which an item of a d*TREK header is asked for.
    pub pixel: u64,
    /// A count, or the number of an entry in a mar header.
    pub count: u32,
    pub date: (u32, u32, u32),
}

#[derive(Clone, Debug, PartialEq, Eq)]
pub struct Case {
    pub step: Step,
    /// The frame, the mar image or the d*TREK image read or opened, or the writer's header. No call writes it, so copies of a case share it.
    pub frame: Rc<Vec<u8>>,
    pub pixels: Vec<u32>,
    pub form: (u32, u32),
    /// The output or the held buffer.
    pub buffer: Vec<u8>,
    pub ledger: Vec<u8>,
    pub lines: u64,
    /// The calls of a list after the opening, the further calls, or the runs.
    pub steps: Vec<Step>,
}

#[derive(Clone, Copy, Debug, PartialEq, Eq)]
pub enum Target {
    Frame,
    Buffer,
    Ledger,
}

/// A change to what is lent.
#[derive(Clone, Debug)]
pub enum Mutation {
    Patch(Target, usize, Vec<u8>),
    Insert(Target, usize, u8),
    Remove(Target, usize),
    Resize(Target, usize),
    /// Another number of pixel places.
    Pixels(usize),
}

impl Case {
    /// A call with nothing lent to it.
    pub fn of(call: Call) -> Case {
        Case {
            step: Step {
                call,
                pixel: 0,
                count: 0,
                date: (0, 0, 0),
            },
            frame: Rc::default(),
            pixels: Vec::new(),
            form: (0, 0),
            buffer: Vec::new(),
            ledger: Vec::new(),
            lines: 0,
            steps: Vec::new(),
        }
    }

    /// The listing of these lines, with room for it.
    pub fn listing(lines: &[u8]) -> Case {
        Case {
            buffer: vec![0; 32 + 80 * (lines.len() / BYTES)],
            ledger: lines.to_vec(),
            ..Case::of(Call::Listing)
        }
    }

    pub fn bytes(&self, target: Target) -> &Vec<u8> {
        match target {
            Target::Frame => &self.frame,
            Target::Buffer => &self.buffer,
            Target::Ledger => &self.ledger,
        }
    }

    fn bytes_mut(&mut self, target: Target) -> &mut Vec<u8> {
        match target {
            Target::Frame => Rc::make_mut(&mut self.frame),
            Target::Buffer => &mut self.buffer,
            Target::Ledger => &mut self.ledger,
        }
    }

    pub fn mutated(&self, mutations: &[Mutation]) -> Case {
        let mut case = self.clone();
        for mutation in mutations {
            match mutation {
                Mutation::Patch(target, at, new) => {
                    let bytes = case.bytes_mut(*target).iter_mut().skip(*at);
                    bytes.zip(new).for_each(|(byte, new)| *byte = *new);
                }
                Mutation::Insert(target, at, byte) => {
                    let bytes = case.bytes_mut(*target);
                    let at = (*at).min(bytes.len());
                    bytes.insert(at, *byte);
                }
                Mutation::Remove(target, at) => {
                    let bytes = case.bytes_mut(*target);
                    if *at < bytes.len() {
                        bytes.remove(*at);
                    }
                }
                Mutation::Resize(target, length) => {
                    case.bytes_mut(*target).resize(*length, 0);
                }
                Mutation::Pixels(length) => case.pixels.resize(*length, 65535),
            }
        }
        case
    }

    pub fn to_text(&self) -> String {
        let mut text = String::new();
        step_line(&mut text, "case", &self.step);
        let (width, underflow) = self.form;
        let _ = writeln!(text, "form {width} {underflow} {}", self.lines);
        for (name, bytes) in [
            ("frame", &*self.frame),
            ("buffer", &self.buffer),
            ("ledger", &self.ledger),
        ] {
            let _ = writeln!(text, "{name} {}", hex(bytes));
        }
        let pixels: Vec<u8> = self.pixels.iter().flat_map(|p| p.to_be_bytes()).collect();
        let _ = writeln!(text, "pixels {}", hex(&pixels));
        for step in &self.steps {
            step_line(&mut text, "step", step);
        }
        text
    }

    pub fn from_text(text: &str) -> Option<Case> {
        let mut lines = text.lines();
        let step = parse_step(lines.next()?)?;
        let numbers = parse_numbers(lines.next()?)?;
        let mut parts = lines.by_ref().take(4).map(parse_hex);
        let mut part = || parts.next().flatten();
        let (frame, buffer, ledger, pixels) = (part()?, part()?, part()?, part()?);
        let word = |bytes: &[u8]| u32::from_be_bytes([bytes[0], bytes[1], bytes[2], bytes[3]]);
        Some(Case {
            step,
            frame: frame.into(),
            pixels: pixels.chunks_exact(4).map(word).collect(),
            form: (*numbers.first()? as u32, *numbers.get(1)? as u32),
            buffer,
            ledger,
            lines: *numbers.get(2)?,
            steps: lines.map(parse_step).collect::<Option<_>>()?,
        })
    }
}

fn step_line(text: &mut String, word: &str, step: &Step) {
    let (year, month, day) = step.date;
    let call = step.call as usize;
    let (pixel, count) = (step.pixel, step.count);
    let _ = writeln!(text, "{word} {call} {pixel} {count} {year} {month} {day}");
}

fn parse_numbers(line: &str) -> Option<Vec<u64>> {
    let words = line.split_whitespace().skip(1);
    words.map(|word| word.parse().ok()).collect()
}

fn parse_step(line: &str) -> Option<Step> {
    let numbers = parse_numbers(line)?;
    let [call, pixel, count, year, month, day] = numbers[..] else {
        return None;
    };
    Some(Step {
        call: CALLS.get(call as usize)?.0,
        pixel,
        count: count as u32,
        date: (year as u32, month as u32, day as u32),
    })
}

fn hex(bytes: &[u8]) -> String {
    bytes.iter().fold(String::new(), |mut text, byte| {
        let _ = write!(text, "{byte:02x}");
        text
    })
}

fn parse_hex(line: &str) -> Option<Vec<u8>> {
    let digits = line.split_whitespace().nth(1).unwrap_or("");
    let pair = |at: usize| u8::from_str_radix(digits.get(at..at + 2)?, 16).ok();
    (0..digits.len()).step_by(2).map(pair).collect()
}
