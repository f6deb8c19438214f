//! Counts per call and refusal, of the ledgers compacted and asked, of the runs of corrections compared, and of what smallest forms were chosen for.
use crate::case::{Call, Case, Step, CALLS};
use crate::compare::Outcome;
use crate::ledger::{self, Date, Entry, BYTES};
use crate::order_claims;
use crate::order_kinds::{self, Start};
use crate::sample::{Size, SIZES};
use crate::smallest_kinds;
use std::collections::BTreeMap;

#[derive(Default)]
pub struct Tally {
    cases: u64,
    lists: u64,
    sizes: BTreeMap<Size, u64>,
    /// Whole mar images by their side.
    plates: BTreeMap<usize, u64>,
    rare: BTreeMap<&'static str, u64>,
    /// Accepted compactions and questions by what their ledgers were, and compared runs and smallest forms by what they were.
    ledgers: BTreeMap<(&'static str, &'static str), u64>,
    further: u64,
    met: BTreeMap<(Call, u64), u64>,
}

/// The refusals that a call can meet, and 0.
fn possible(call: Call) -> Vec<u64> {
    let reading = 0..=15;
    match call {
        Call::Read => reading.collect(),
        Call::Write => (0..=10).chain(16..=18).collect(),
        Call::Open => reading.chain(16..=18).collect(),
        Call::Smallest => (0..=10).chain([16]).collect(),
        Call::OpenSmallest => reading.chain([16, 18]).collect(),
        Call::Correct => vec![0, 17, 18, 19, 20, 21, 24],
        Call::Keep => vec![0, 20, 21, 25],
        Call::Withdraw => vec![0, 17, 18, 19, 20, 21, 22, 23, 24],
        Call::Amend => vec![0, 17, 18, 19, 20, 21, 22, 23, 24, 31],
        Call::Compact | Call::WhyPixel => vec![0, 20],
        Call::Purge | Call::WhyDay => vec![0, 20, 25, 26, 27],
        Call::Header => (0..=9).collect(),
        // 0, and 1 where the buffer is too short.
        Call::Listing => vec![0, 1],
        Call::MarRead => vec![0, 1, 10, 11, 13, 28, 29],
        Call::MarEntry => vec![0, 1, 28, 29, 37],
        Call::DtrekRead => vec![0, 1, 10, 11, 32, 33, 34, 35],
        Call::DtrekHeader => vec![0, 1, 32, 33, 34, 35],
        Call::DtrekItem => vec![0, 1, 32, 33],
        Call::Further | Call::Orders | Call::List | Call::SmallestList => Vec::new(),
    }
}

/// What a compacted ledger can be, told from its case and its entries. Each has to be met.
type Holds = fn(&Case, &[Entry]) -> bool;
const COMPACTED: [(&str, Holds); 9] = [
    ("no lines", |_, entries| entries.is_empty()),
    ("nothing cancelled", |_, entries| {
        !entries.is_empty() && !entries.contains(&Entry::Withdrawal)
    }),
    ("all cancelled", |_, entries| {
        !entries.is_empty() && ledger::last_standing(entries).is_none()
    }),
    ("one cancelled around another", |_, entries| {
        entries
            .windows(2)
            .any(|two| two == [Entry::Withdrawal, Entry::Withdrawal])
    }),
    ("amended", |_, entries| entries.windows(3).any(is_amend)),
    (
        "a keep line standing between cancelled ones",
        |_, entries| is_kept_between(entries),
    ),
    ("more than 100 lines", |_, entries| entries.len() > 100),
    ("no line free", |case, _| {
        case.lines > 0 && ledger::free(&case.ledger, case.lines) == 0
    }),
    ("a broken line at the end", |case, _| {
        !case.ledger.len().is_multiple_of(BYTES)
    }),
];

fn is_amend(three: &[Entry]) -> bool {
    match three {
        [Entry::Correction { pixel, .. }, Entry::Withdrawal, Entry::Correction { pixel: same, .. }] => {
            pixel == same
        }
        _ => false,
    }
}

fn is_kept_between(entries: &[Entry]) -> bool {
    let stands = |place: usize| ledger::stands(entries, place);
    let is_keep = |place: &usize| matches!(entries[*place], Entry::Keep(_)) && stands(*place);
    let withdrawn = |part: &[Entry]| part.contains(&Entry::Withdrawal);
    (0..entries.len())
        .filter(is_keep)
        .any(|place| withdrawn(&entries[..place]) && withdrawn(&entries[place..]))
}

/// A call refused for want of room, a compaction, and a call that uses the room.
fn is_room_used(three: &[(Call, u64)]) -> bool {
    let [(_, 21), (Call::Compact, 0), (call, 0)] = three else {
        return false;
    };
    *call != Call::Purge && *call != Call::Compact
}

/// A question for the line that decides, the ledger's entries, and the line named.
struct Asked<'a> {
    step: &'a Step,
    entries: &'a [Entry],
    line: usize,
}

impl Asked<'_> {
    fn is_of(&self, call: Call) -> bool {
        self.step.call == call && self.line > 0
    }

    /// The entries behind the line named.
    fn later(&self) -> &[Entry] {
        &self.entries[self.line..]
    }

    fn stands(&self, place: usize) -> bool {
        ledger::stands(self.entries, place)
    }

    fn kept(&self, place: usize) -> Option<Date> {
        self.entries[place].kept().filter(|_| self.stands(place))
    }

    fn is_other_correction(&self, place: usize) -> bool {
        let entry = self.entries[place];
        let is_other =
            matches!(entry, Entry::Correction { .. }) && !entry.corrects(self.step.pixel);
        is_other && self.stands(place)
    }

    /// Whether it is a pixel's question that names no line.
    fn is_as_opened(&self) -> bool {
        self.step.call == Call::WhyPixel && self.line == 0
    }

    fn is_corrected(&self, pixel: u64) -> bool {
        self.entries.iter().any(|entry| entry.corrects(pixel))
    }
}

/// What a ledger that is asked can be. Each has to be met.
type IsAsked = fn(&Asked) -> bool;
const ASKED: [(&str, IsAsked); 12] = [
    ("a later keep line cancelled", |asked| {
        let mut later = asked.later().iter();
        asked.is_of(Call::WhyDay) && later.any(|entry| entry.kept().is_some())
    }),
    ("an earlier keep line standing with a later date", |asked| {
        let mut earlier = 0..asked.line.saturating_sub(1);
        let named = |place: usize| asked.kept(place) > asked.kept(asked.line - 1);
        asked.is_of(Call::WhyDay) && earlier.any(named)
    }),
    ("a later correction of the pixel cancelled", |asked| {
        let mut later = asked.later().iter();
        asked.is_of(Call::WhyPixel) && later.any(|entry| entry.corrects(asked.step.pixel))
    }),
    ("a later correction of another pixel standing", |asked| {
        let mut later = asked.line..asked.entries.len();
        asked.is_of(Call::WhyPixel) && later.any(|place| asked.is_other_correction(place))
    }),
    ("amended", |asked| {
        asked.line > 2 && is_amend(&asked.entries[asked.line - 3..asked.line])
    }),
    ("as opened", |asked| {
        asked.is_as_opened() && !asked.entries.is_empty()
    }),
    ("as opened, its correction cancelled", |asked| {
        asked.is_as_opened() && asked.is_corrected(asked.step.pixel)
    }),
    ("a corrected pixel with higher bits", |asked| {
        let (higher, lower) = (asked.step.pixel >> 24, asked.step.pixel & 0xFF_FFFF);
        asked.is_as_opened() && higher > 0 && asked.is_corrected(lower)
    }),
    ("more than 100 lines", |asked| {
        asked.line > 0 && asked.entries.len() > 100
    }),
    ("a line above 65,535 named", |asked| asked.line > 65_535),
    ("the first of several lines named", |asked| {
        asked.line == 1 && asked.entries.len() > 1
    }),
    ("the last of several lines named", |asked| {
        asked.line == asked.entries.len() && asked.line > 1
    }),
];

/// Whether a question names a line behind a compaction.
fn is_asked_compacted(case: &Case, outcome: &Outcome) -> bool {
    let calls = outcome.met.iter().zip(&outcome.named);
    let list = calls.take(1 + case.steps.len());
    let mut behind = list.skip_while(|(met, _)| **met != (Call::Compact, 0));
    behind.any(|(_, named)| named.is_some())
}

const COMPACTING: &str = "ledgers compacted";
const ASKING: &str = "ledgers asked";
/// What lists of calls are counted by.
const ROOM_USED: (&str, &str) = (COMPACTING, "full, and the freed room used at once");
const ASKED_COMPACTED: (&str, &str) = (ASKING, "compacted");
const LIST_SHUFFLED: (&str, &str) = (order_kinds::COMPARED, "of a list of calls");

/// Every kind of ledger, of runs and of smallest forms that has to be met.
fn ledgers() -> impl Iterator<Item = (&'static str, &'static str)> {
    let compacted = COMPACTED.iter().map(|(name, _)| (COMPACTING, *name));
    let asked = ASKED.iter().map(|(name, _)| (ASKING, *name));
    let lists = [ROOM_USED, ASKED_COMPACTED, LIST_SHUFFLED];
    let ledgers = compacted.chain(asked).chain(lists);
    ledgers
        .chain(order_kinds::all())
        .chain(smallest_kinds::all())
}

impl Tally {
    pub fn add(&mut self, case: &Case, outcome: &Outcome) {
        let call = case.step.call;
        self.cases += 1;
        self.lists += u64::from(call.is_list());
        self.further += u64::from(call == Call::Further);
        let used = call.is_list() && outcome.met.windows(3).any(is_room_used);
        self.add_ledger(ROOM_USED, used);
        self.add_ledger(ASKED_COMPACTED, is_asked_compacted(case, outcome));
        let calls = outcome.runs.iter().flat_map(|run| &run.outcome.met);
        for key in outcome.met.iter().chain(calls) {
            *self.met.entry(*key).or_default() += 1;
        }
        self.add_runs(case, outcome);
        let forms = smallest_kinds::of(case, outcome).into_iter();
        forms.for_each(|kind| self.add_ledger(kind, true));
        match call {
            Call::Compact | Call::Further => self.add_compacted(case),
            Call::WhyDay | Call::WhyPixel => self.add_asked(case, outcome.answer()[1]),
            _ => {}
        }
    }

    fn add_ledger(&mut self, kind: (&'static str, &'static str), holds: bool) {
        *self.ledgers.entry(kind).or_default() += u64::from(holds);
    }

    /// Counts a case that starts with a compaction by its ledger.
    fn add_compacted(&mut self, case: &Case) {
        let Ok(entries) = ledger::entries(&case.ledger, case.lines) else {
            return;
        };
        for (name, holds) in COMPACTED {
            self.add_ledger((COMPACTING, name), holds(case, &entries));
        }
    }

    /// Counts a question by its ledger and the line named.
    fn add_asked(&mut self, case: &Case, line: u64) {
        let Ok(entries) = ledger::entries(&case.ledger, case.lines) else {
            return;
        };
        let asked = Asked {
            step: &case.step,
            entries: &entries,
            line: line as usize,
        };
        for (name, holds) in ASKED {
            self.add_ledger((ASKING, name), holds(&asked));
        }
    }

    /// Counts the pairs of runs that A7 is about.
    fn add_runs(&mut self, case: &Case, outcome: &Outcome) {
        let start = Start::of(&outcome.runs);
        for pair in order_claims::pairs(&outcome.runs) {
            let kinds = order_kinds::of(start.as_ref(), &pair);
            let listed = case.step.call.is_list() && pair.refusals() == [0, 0];
            self.add_ledger(LIST_SHUFFLED, listed);
            kinds
                .into_iter()
                .for_each(|kind| self.add_ledger(kind, true));
        }
    }

    /// Counts a case by its frame's size.
    pub fn add_size(&mut self, size: Option<Size>) {
        if let Some(size) = size {
            *self.sizes.entry(size).or_default() += 1;
        }
    }

    /// Counts a case by what is rare about it.
    pub fn add_rare(&mut self, rare: Option<&'static str>) {
        if let Some(name) = rare {
            *self.rare.entry(name).or_default() += 1;
        }
    }

    /// Counts a case of a whole mar image.
    pub fn add_plate(&mut self, side: usize) {
        *self.plates.entry(side).or_default() += 1;
    }

    pub fn cases(&self) -> u64 {
        self.cases
    }

    fn count(&self, call: Call, refusal: u64) -> u64 {
        self.met.get(&(call, refusal)).copied().unwrap_or(0)
    }

    pub fn all_reached(&self) -> bool {
        let reached = |call: Call| possible(call).iter().all(|r| self.count(call, *r) > 0);
        let met = |kind| self.ledgers.get(&kind).is_some_and(|count| *count > 0);
        CALLS.iter().all(|(call, _)| reached(*call)) && ledgers().all(met)
    }

    fn print_sizes(&self) {
        for (size, name) in SIZES {
            let count = self.sizes.get(&size).copied().unwrap_or(0);
            println!("{name}: {count}");
        }
        self.plates
            .iter()
            .for_each(|(side, count)| println!("mar images of {side} x {side}: {count}"));
        self.rare
            .iter()
            .for_each(|(name, count)| println!("{name}: {count}"));
        self.ledgers
            .iter()
            .for_each(|((what, name), count)| println!("{what}, {name}: {count}"));
    }

    pub fn print(&self) {
        println!(
            "cases {}, of them lists of calls {}, further calls with and without compaction {}",
            self.cases, self.lists, self.further
        );
        self.print_sizes();
        print!("{:>8}", "refusal");
        let counted = |(call, _): &&(Call, &str)| !possible(*call).is_empty();
        let calls: Vec<&(Call, &str)> = CALLS.iter().filter(counted).collect();
        calls.iter().for_each(|(_, name)| print!("{name:>11}"));
        println!();
        for refusal in (0..=29).chain(31..=35).chain([37]) {
            print!("{refusal:>8}");
            for (call, _) in &calls {
                match (
                    self.count(*call, refusal),
                    possible(*call).contains(&refusal),
                ) {
                    (0, false) => print!("{:>11}", "."),
                    (0, true) => print!("{:>11}", "MISSED"),
                    (count, _) => print!("{count:>11}"),
                }
            }
            println!();
        }
        if !self.all_reached() {
            println!("a refusal marked MISSED, or a ledger, runs or a smallest form counted 0, were not reached: give it more seconds");
        }
    }
}
