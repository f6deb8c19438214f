//! What held frames, ledgers and lists can be of which runs of corrections are compared. Each has to be met.
use crate::case::{Call, Case, Step};
use crate::compare::Run;
use crate::frame::{self, Header};
use crate::ledger::{self, Entry, BYTES};
use crate::order_claims::{self, Pair};
use std::collections::BTreeMap;

/// What compared runs start from.
pub struct Start<'a> {
    case: &'a Case,
    header: Header,
    counts: Vec<u32>,
    /// Bytes behind the frame.
    room: usize,
    entries: Vec<Entry>,
    standing: Vec<Entry>,
}

impl Start<'_> {
    /// None where the held buffer or the ledger cannot be read, so that all calls are refused.
    pub fn of(runs: &[Run]) -> Option<Start<'_>> {
        let case = &runs.first()?.outcome.after;
        let header = frame::read_header(&case.buffer).ok()?;
        let mut counts = order_claims::counts(&case.buffer);
        let extent = frame::read(&case.buffer, &mut counts).ok()?;
        let entries = ledger::entries(&case.ledger, case.lines).ok()?;
        Some(Start {
            case,
            header,
            counts,
            room: case.buffer.len() - extent.end as usize,
            standing: ledger::standing(&entries),
            entries,
        })
    }

    /// The last standing line.
    fn top(&self) -> Option<Entry> {
        self.standing.last().copied()
    }

    /// Whether the last standing line is a correction whose old count is not what the one before it of that pixel made it.
    fn is_old_count_false(&self) -> bool {
        let Some((Entry::Correction { pixel, old, .. }, before)) = self.standing.split_last()
        else {
            return false;
        };
        let mut earlier = before
            .iter()
            .rev()
            .filter(|entry| entry.corrects((*pixel).into()));
        matches!(earlier.next(), Some(Entry::Correction { new, .. }) if new != old)
    }

    /// Whether the last standing line is a correction to another count than is held.
    fn is_new_count_false(&self) -> bool {
        let held = |pixel: u32| self.counts.get(pixel as usize).copied();
        matches!(self.top(), Some(Entry::Correction { pixel, new, .. }) if held(pixel) != Some(new))
    }

    fn free(&self) -> &[u8] {
        &self.case.ledger[self.case.lines as usize * BYTES..]
    }

    /// Which of the three tables have an entry of this count.
    fn tables(&self, count: u32) -> [bool; 3] {
        let subtracted = self.header.underflows.is_some();
        let baseline = self.header.baseline as u32;
        let is_under = subtracted && count <= baseline;
        let stored = if is_under { 0 } else { count - baseline };
        let width = self.header.width;
        [
            is_under,
            width == 1 && stored >= 255,
            width < 4 && stored >= 65535,
        ]
    }

    /// Whether these corrections take an entry out of a table and put one in.
    fn come_and_go(&self, table: usize, steps: &[Step]) -> bool {
        let mut counts = BTreeMap::new();
        let (mut come, mut gone) = (false, false);
        for step in steps.iter().filter(|step| step.call == Call::Correct) {
            let held = self.counts.get(step.pixel as usize).copied().unwrap_or(0);
            let before = counts.insert(step.pixel, step.count).unwrap_or(held);
            let [before, after] = [before, step.count].map(|count| self.tables(count)[table]);
            come |= after && !before;
            gone |= before && !after;
        }
        come && gone
    }

    /// Whether a correction is to a count so far above the baseline.
    fn is_made(&self, above: u64, steps: &[Step]) -> bool {
        let count = self.header.baseline + above;
        let is_to = |step: &Step| step.call == Call::Correct && u64::from(step.count) == count;
        steps.iter().any(is_to)
    }
}

/// How often the pixel that is corrected most is corrected.
fn most_often(steps: &[Step]) -> usize {
    let mut often = BTreeMap::new();
    for step in steps.iter().filter(|step| step.call == Call::Correct) {
        *often.entry(step.pixel).or_default() += 1;
    }
    often.into_values().max().unwrap_or(0)
}

fn corrections(steps: &[Step]) -> usize {
    let corrections = steps.iter().filter(|step| step.call == Call::Correct);
    corrections.count()
}

/// Told from the start and from the longer of two runs.
type Holds = fn(&Start, &[Step]) -> bool;
const KINDS: [(&str, Holds); 12] = [
    ("no lines", |start, _| start.entries.is_empty()),
    ("standing lines", |start, _| start.top().is_some()),
    ("a keep line on top", |start, _| {
        matches!(start.top(), Some(Entry::Keep(_)))
    }),
    ("a false old count on top", |start, _| {
        start.is_old_count_false()
    }),
    ("another count on top than is held", |start, _| {
        start.is_new_count_false()
    }),
    ("cancelled lines", |start, _| {
        start.entries.contains(&Entry::Withdrawal)
    }),
    ("other bytes than 0 behind the lines", |start, _| {
        start.free().iter().any(|byte| *byte != 0)
    }),
    ("a frame that just fits", |start, _| start.room == 0),
    ("64 bytes or more behind the frame", |start, _| {
        start.room >= 64
    }),
    ("to 4294967295", |_, steps| {
        steps.iter().any(|step| step.count == u32::MAX)
    }),
    ("one pixel five times or more", |_, steps| {
        most_often(steps) >= 5
    }),
    ("20 corrections or more", |_, steps| {
        corrections(steps) >= 20
    }),
];

/// The tables that entries leave while others come, by their place in the frame.
const TABLES: [(&str, usize); 3] = [
    ("underflow entries come and go", 0),
    ("two-byte entries come and go", 1),
    ("four-byte entries come and go", 2),
];

/// Counts about which a pixel is stored another way, by how far they are above the baseline.
const EDGES: [(&str, u64); 7] = [
    ("to the baseline", 0),
    ("to 254 above it", 254),
    ("to 255 above it", 255),
    ("to 256 above it", 256),
    ("to 65534 above it", 65534),
    ("to 65535 above it", 65535),
    ("to 65536 above it", 65536),
];

/// Width and underflow width of each form.
pub const FORMS: [(&str, (u64, u64)); 9] = [
    ("in form 1", (1, 0)),
    ("in form 1+1", (1, 1)),
    ("in form 1+2", (1, 2)),
    ("in form 2", (2, 0)),
    ("in form 2+1", (2, 1)),
    ("in form 2+2", (2, 2)),
    ("in form 4", (4, 0)),
    ("in form 4+1", (4, 1)),
    ("in form 4+2", (4, 2)),
];

/// Why runs were not compared.
const REFUSED: [(&str, u64); 6] = [
    ("refused with 17", 17),
    ("refused with 18", 18),
    ("refused with 19", 19),
    ("refused with 20", 20),
    ("refused with 21", 21),
    ("refused with 24", 24),
];
const ONE_ORDER: &str = "refused with 18 in one order alone";

/// What runs are counted as, and their kind.
pub type Counted = (&'static str, &'static str);
pub const COMPARED: &str = "runs compared";
const NOT_COMPARED: &str = "runs not compared";

/// The names of those rows of a table that are wanted.
pub fn named<T>(
    table: &'static [(&'static str, T)],
    wanted: impl Fn(&T) -> bool,
) -> impl Iterator<Item = &'static str> {
    let rows = table.iter().filter(move |(_, what)| wanted(what));
    rows.map(|(name, _)| *name)
}

/// All kinds, the claims first.
pub fn all() -> impl Iterator<Item = Counted> {
    let kinds = named(&KINDS, |_| true).chain(named(&TABLES, |_| true));
    let forms = named(&EDGES, |_| true).chain(named(&FORMS, |_| true));
    let compared = order_claims::claims().chain(kinds).chain(forms);
    let refused = named(&REFUSED, |_| true).chain([ONE_ORDER]);
    let compared = compared.map(|name| (COMPARED, name));
    compared.chain(refused.map(|name| (NOT_COMPARED, name)))
}

/// The kinds of two runs that were compared, or that were not.
pub fn of(start: Option<&Start>, pair: &Pair) -> Vec<Counted> {
    let refusals = pair.refusals();
    let Some(start) = start.filter(|_| refusals == [0, 0]) else {
        return refused(refusals);
    };
    let steps = &pair.runs[0].steps;
    let held = (start.header.width, start.header.underflow_width);
    let kinds = named(&KINDS, |holds| holds(start, steps));
    let tables = named(&TABLES, |table| start.come_and_go(*table, steps));
    let edges = named(&EDGES, |above| start.is_made(*above, steps));
    let form = named(&FORMS, |form| *form == held);
    let all = kinds.chain(tables).chain(edges).chain(form);
    let all = all.chain([pair.claim()]);
    all.map(|name| (COMPARED, name)).collect()
}

fn refused(refusals: [u64; 2]) -> Vec<Counted> {
    let first = refusals.into_iter().find(|refusal| *refusal != 0);
    let names = named(&REFUSED, |refusal| Some(*refusal) == first);
    let one_order = refusals == [0, 18] || refusals == [18, 0];
    let names = names.chain(one_order.then_some(ONE_ORDER));
    names.map(|name| (NOT_COMPARED, name)).collect()
}
