//! A7's claims by running them: lists of corrections, with withdrawals of them or none, that leave each pixel with the same count leave the same held bytes.
use crate::case::{Call, Case, Step};
use crate::compare::{Outcome, Run};
use crate::frame;
use crate::ledger::BYTES;
use crate::random::Random;
use crate::sample;
use std::collections::{BTreeMap, BTreeSet};

/// Ends a run and starts the next one.
pub const ANEW: Step = Step {
    call: Call::Orders,
    pixel: 0,
    count: 0,
    date: (0, 0, 0),
};

/// The corrections of lists on larger frames are not made again.
const MOST_PIXELS: usize = 1 << 18;

/// The runs that a case's steps are.
pub fn runs(case: &Case) -> Vec<Vec<Step>> {
    let parts = case.steps.split(|step| step.call == Call::Orders);
    parts.map(<[Step]>::to_vec).collect()
}

/// Makes a run of no calls and then each of these, all on the case's held frame and ledger.
pub fn play(
    case: &Case,
    runs: Vec<Vec<Step>>,
    call: impl Fn(&Step, &mut Outcome) -> u64,
) -> Vec<Run> {
    let start = Case {
        buffer: case.buffer.clone(),
        ledger: case.ledger.clone(),
        lines: case.lines,
        ..Case::of(Call::Orders)
    };
    let make = |steps: Vec<Step>| {
        let mut outcome = Outcome::new(&start);
        outcome.make(&steps, &call);
        Run { steps, outcome }
    };
    let none = [Vec::new()].into_iter();
    none.chain(runs).map(make).collect()
}

/// What a list opened, unless it is too large.
pub fn start(opened: &Case) -> Option<Case> {
    (opened.pixels.len() <= MOST_PIXELS).then(|| opened.clone())
}

/// Makes a list's corrections again, as they are given and in other orders, on what it opened or on what it left. The case's own numbers choose which, whether
/// frame and ledger get room first, and whether pixels that the frame has not are among them.
pub fn of_list(
    case: &Case,
    opened: Option<Case>,
    left: &Case,
    call: impl Fn(&Step, &mut Outcome) -> u64,
) -> Vec<Run> {
    let mut random = Random(case.step.count.into());
    let header = frame::read_header(&left.buffer).unwrap_or_default();
    let all = random.once_in(8);
    let is_held = |pixel: u64| all || pixel < header.rows * header.columns;
    let is_made = |step: &&Step| step.call == Call::Correct && is_held(step.pixel);
    let list: Vec<Step> = case.steps.iter().filter(is_made).copied().collect();
    let Some(opened) = opened.filter(|_| !list.is_empty()) else {
        return Vec::new();
    };
    let mut from = match random.once_in(2) {
        true => opened,
        false => left.clone(),
    };
    if !random.once_in(4) {
        give_room(&mut random, &mut from, list.len());
    }
    let mut runs = vec![list.clone(), shuffled(&mut random, &list)];
    if random.once_in(3) {
        runs.extend(others(&mut random, &list).pop());
    }
    play(&from, runs, call)
}

/// Room for these corrections, as many more and the withdrawal of all.
pub fn give_room(random: &mut Random, case: &mut Case, corrections: usize) {
    let frame = case.buffer.len() + 48 + 24 * corrections;
    case.buffer.resize(frame, 0);
    let used = (case.ledger.len() as u64 / BYTES as u64).min(case.lines) as usize;
    let ledger = (used + 4 * corrections + 2) * BYTES;
    if case.ledger.len() < ledger {
        case.ledger.resize(ledger, random.byte());
    }
}

/// Lists that leave the same counts as this one: in another order, each pixel's last correction alone, with others before it, and with some withdrawn; and the
/// list with all of it withdrawn. They come in any order.
pub fn others(random: &mut Random, list: &[Step]) -> Vec<Vec<Step>> {
    let last = last_ones(list);
    let more = more_of(random, list);
    let taken_back = |steps: &[Step]| -> Vec<Step> {
        let withdrawal = |step: &Step| Step {
            call: Call::Withdraw,
            ..*step
        };
        steps.iter().map(withdrawal).collect()
    };
    let mut found = vec![
        shuffled(random, list),
        shuffled(random, &last),
        shuffled(random, &[&more[..], &last].concat()),
        [list, &taken_back(list)].concat(),
        [list, &more, &taken_back(&more)].concat(),
    ];
    random.shuffle(&mut found);
    found
}

/// A few corrections of the same pixels, to counts of the list or to the least or the most.
fn more_of(random: &mut Random, list: &[Step]) -> Vec<Step> {
    let one = |random: &mut Random| Step {
        count: match random.below(4) {
            0 => random.pick(&[0, u32::MAX]),
            1 => sample::count(random, 0),
            _ => random.pick(list).count,
        },
        ..random.pick(list)
    };
    let length = 1 + random.index(list.len().min(6));
    (0..length).map(|_| one(random)).collect()
}

/// The last correction of each pixel.
fn last_ones(list: &[Step]) -> Vec<Step> {
    let last: BTreeMap<u64, Step> = list.iter().map(|step| (step.pixel, *step)).collect();
    last.into_values().collect()
}

/// The list in another order, in which each pixel's last correction is still the last of that pixel.
pub fn shuffled(random: &mut Random, list: &[Step]) -> Vec<Step> {
    let mut places: Vec<usize> = (0..list.len()).collect();
    random.shuffle(&mut places);
    let pixels: BTreeSet<u64> = list.iter().map(|step| step.pixel).collect();
    for pixel in pixels {
        let is_of = |place: &usize| list[*place].pixel == pixel;
        let last = places.iter().filter(|place| is_of(place)).max().copied();
        let from = places.iter().position(|place| Some(*place) == last);
        let to = places.iter().rposition(is_of);
        if let (Some(from), Some(to)) = (from, to) {
            places.swap(from, to);
        }
    }
    places.into_iter().map(|place| list[place]).collect()
}

/// The counts held, or none where they cannot be read.
pub fn counts(held: &[u8]) -> Vec<u32> {
    let pixels = frame::read_header(held).map_or(0, |header| header.pixels());
    let mut counts = vec![0; pixels];
    match frame::read(held, &mut counts) {
        Ok(_) => counts,
        Err(_) => Vec::new(),
    }
}

/// The pixels that these calls leave with another count than the one held, with that count. None where they are not corrections and withdrawals of these.
fn left(steps: &[Step], held: &[u32]) -> Option<BTreeMap<u64, u32>> {
    let mut made = Vec::new();
    for step in steps {
        match step.call {
            Call::Correct => made.push((step.pixel, step.count)),
            Call::Withdraw => {
                made.pop()?;
            }
            _ => return None,
        }
    }
    let mut counts: BTreeMap<u64, u32> = made.into_iter().collect();
    counts.retain(|pixel, count| held.get(*pixel as usize) != Some(count));
    Some(counts)
}

/// Two runs that leave the same counts, the longer one first.
pub struct Pair<'a> {
    pub runs: [&'a Run; 2],
}

impl Pair<'_> {
    /// The first refusal of each, or 0.
    pub fn refusals(&self) -> [u64; 2] {
        let refused = |run: &Run| {
            let mut refusals = run.outcome.met.iter().map(|(_, refusal)| *refusal);
            refusals.find(|refusal| *refusal != 0).unwrap_or(0)
        };
        self.runs.map(refused)
    }

    fn is_accepted(&self) -> bool {
        self.refusals() == [0, 0]
    }

    /// The first of the claims that says something of these runs.
    pub fn claim(&self) -> &'static str {
        let mut claims = CLAIMS.iter().filter(|(_, says)| says(self.steps()));
        claims.next().map_or(SOME_WITHDRAWN, |(claim, _)| claim)
    }

    fn steps(&self) -> [&[Step]; 2] {
        self.runs.map(|run| &run.steps[..])
    }

    fn holds(&self) -> bool {
        let [one, other] = self.runs.map(|run| &run.outcome.after.buffer);
        one == other
    }
}

/// What is left where withdrawals stand in a list otherwise.
const SOME_WITHDRAWN: &str = "some withdrawn";
/// Each claim, and whether it is about two lists of which the first is the longer one, if one is.
type Says = fn([&[Step]; 2]) -> bool;
const CLAIMS: [(&str, Says); 7] = [
    ("two pixels, in either order", |lists| match lists {
        [[a, b], [c, d]] => {
            are_corrections(lists) && same(a, d) && same(b, c) && a.pixel != b.pixel
        }
        _ => false,
    }),
    (
        "one pixel twice, and the second alone",
        |lists| match lists {
            [[a, b], [c]] => are_corrections(lists) && a.pixel == b.pixel && same(b, c),
            _ => false,
        },
    ),
    ("one correction withdrawn", |lists| {
        lists[0].len() == 2 && lists[1].is_empty() && !are_corrections(lists)
    }),
    ("as many withdrawals as corrections", |lists| {
        let withdrawn = |step: &&Step| step.call == Call::Withdraw;
        let count = lists[0].iter().filter(withdrawn).count();
        lists[1].is_empty() && count > 1 && 2 * count == lists[0].len()
    }),
    ("lists in another order", |lists| {
        let sorted = |list: &[Step]| {
            let mut made: Vec<_> = list.iter().map(|step| (step.pixel, step.count)).collect();
            made.sort_unstable();
            made
        };
        are_corrections(lists) && sorted(lists[0]) == sorted(lists[1])
    }),
    ("the last ones alone", |lists| {
        are_corrections(lists) && last_ones(lists[0]).len() == lists[1].len()
    }),
    ("others before the last ones", are_corrections),
];

fn are_corrections(lists: [&[Step]; 2]) -> bool {
    lists.concat().iter().all(|step| step.call == Call::Correct)
}

/// Whether two corrections have the same pixel and count.
fn same(one: &Step, other: &Step) -> bool {
    (one.pixel, one.count) == (other.pixel, other.count)
}

/// The names of the claims.
pub fn claims() -> impl Iterator<Item = &'static str> {
    let named = CLAIMS.iter().map(|(claim, _)| *claim);
    named.chain([SOME_WITHDRAWN])
}

/// The pairs among these runs that A7 is about.
pub fn pairs(runs: &[Run]) -> Vec<Pair<'_>> {
    let Some(none) = runs.first() else {
        return Vec::new();
    };
    let held = counts(&none.outcome.after.buffer);
    let left: Vec<_> = runs.iter().map(|run| left(&run.steps, &held)).collect();
    let are_two = |one: usize, other: usize| {
        left[one].is_some() && left[one] == left[other] && runs[one].steps != runs[other].steps
    };
    let pair = |one: usize, other: usize| {
        let mut runs = [&runs[one], &runs[other]];
        runs.sort_by_key(|run| std::cmp::Reverse(run.steps.len()));
        Pair { runs }
    };
    let all = (0..runs.len()).flat_map(|other| (0..other).map(move |one| (one, other)));
    all.filter(|(one, other)| are_two(*one, *other))
        .map(|(one, other)| pair(one, other))
        .collect()
}

/// The claims that do not hold of these runs.
pub fn broken(runs: &[Run]) -> Vec<&'static str> {
    let pairs = pairs(runs);
    let broken = pairs
        .iter()
        .filter(|pair| pair.is_accepted() && !pair.holds());
    broken.map(|pair| pair.claim()).collect()
}
