//! A fixed list of amends, each with its answer written down in amend_trials.txt.
use crate::case::{Call, Step};
use crate::compare::Outcome;
use crate::frame::FORMS;
use crate::held_trial::{after_words, correction, form_name, joined, keep, list_case};
use crate::held_trial::{Change, Deed, Trial, ACCEPTED, DATE, EDGES, OPENED};
use crate::held_trial::{BAD, KEEP, RESPELLED, WITHDRAWAL};
use crate::ledger::BYTES;
use crate::written_down::{self, both};

const EXPECTED: &str = include_str!("../amend_trials.txt");

const COUNTS: [(&str, Change); 15] = [
    ("to 500", |_| {}),
    ("to the count taken back", |t| t.count = 1000),
    ("to the count before that", |t| t.count = 402),
    ("to 554", |t| t.count = 554),
    ("to 555", |t| t.count = 555),
    ("to 65834", |t| t.count = 65834),
    ("to 65835, 15 bytes more", |t| {
        t.count = 65835;
        t.room = 15;
    }),
    ("to 65835, 16 bytes more", |t| {
        t.count = 65835;
        t.room = 16;
    }),
    ("to 4294967295, 47 bytes more", |t| {
        t.count = u32::MAX;
        t.room = 47;
    }),
    ("to 301", |t| t.count = 301),
    ("to 300", |t| t.count = 300),
    ("to 256", |t| t.count = 256),
    ("to 255", |t| t.count = 255),
    ("to 0", |t| t.count = 0),
    ("two bytes for an underflow entry, to 300", |t| {
        t.form = (1, 2);
        t.count = 300;
    }),
];

const LEDGERS: [(&str, Change); 14] = [
    ("of the first pixel", |t| {
        t.pixels = OPENED.to_vec();
        t.last(0, 400, 70000);
    }),
    ("of the last pixel", |t| {
        t.pixels = OPENED.to_vec();
        t.last(3, 403, 9);
    }),
    ("of an amend", |t| {
        t.pixels[2] = 70000;
        t.ledger(&[
            correction(2, 402, 1000),
            WITHDRAWAL,
            correction(2, 402, 70000),
        ]);
    }),
    ("behind a keep line", |t| {
        t.ledger(&[KEEP, correction(2, 402, 1000)])
    }),
    ("before a keep line that is withdrawn", |t| {
        t.ledger(&[correction(2, 402, 1000), KEEP, WITHDRAWAL])
    }),
    ("of the second of two on the pixel", |t| {
        t.ledger(&[correction(2, 402, 9), correction(2, 9, 1000)])
    }),
    ("of the first, the second withdrawn", |t| {
        t.ledger(&[correction(2, 402, 1000), correction(2, 1000, 9), WITHDRAWAL])
    }),
    ("of the first, an amended one withdrawn", |t| {
        t.ledger(&[
            correction(2, 402, 1000),
            correction(1, 401, 9),
            WITHDRAWAL,
            correction(1, 401, 8),
            WITHDRAWAL,
        ])
    }),
    ("behind a line of no pixel", |t| {
        t.ledger(&[correction(4, 0, 0), correction(2, 402, 1000)])
    }),
    ("none free", |t| t.spare = 0),
    ("one free less a byte", |t| t.spare = 15),
    ("one free", |t| t.spare = 16),
    ("two free less a byte", |t| t.spare = 31),
    ("three free", |t| t.spare = 48),
];

/// The frame in between is the one that a withdrawal alone would leave.
const BETWEEN: [(&str, Change); 8] = [
    ("in between too long", |t| t.last(2, 70000, 1000)),
    ("in between too long, the last just fits", |t| {
        t.last(2, 70000, 1000);
        t.count = 600;
    }),
    ("in between it fits, the last is too long", |t| {
        t.count = 70000
    }),
    ("both too long", |t| {
        t.last(2, 70000, 1000);
        t.count = 70001;
    }),
    ("in between the entry is too large", |t| {
        t.last(2, 299, 1000)
    }),
    ("in between the entry fits, the last is too large", |t| {
        t.last(2, 255, 1000);
        t.count = 256;
    }),
    ("both entries too large", |t| {
        t.last(2, 299, 1000);
        t.count = 298;
    }),
    ("in between too large, the last is too long", |t| {
        t.last(2, 299, 1000);
        t.count = 70000;
    }),
];

const REFUSED: [(&str, Change); 19] = [
    ("the counts spelled otherwise", |t| t.damage = RESPELLED),
    ("a byte behind the frame", |t| {
        t.room = 1;
        t.damage = |held| held[7700] = 1;
    }),
    ("padding not zero", |t| t.damage = |held| held[7699] = 1),
    ("held less a byte", |t| {
        t.damage = |held| held.truncate(7699)
    }),
    ("no held bytes", |t| t.damage = Vec::clear),
    ("a line of no kind", |t| t.lines.push(BAD)),
    ("a withdrawal of nothing", |t| {
        t.ledger(&[WITHDRAWAL, correction(2, 402, 1000)])
    }),
    ("a spare bit", |t| t.lines[0][15] = 1),
    ("30 February", |t| {
        t.lines.insert(0, keep((2031, 2, 30)).bytes());
    }),
    ("as many lines claimed as bytes there are for", |t| {
        t.beyond = 2
    }),
    ("one more than there are bytes for", |t| t.beyond = 3),
    ("18446744073709551615 claimed", |t| t.beyond = u64::MAX - 1),
    ("no lines", |t| t.ledger(&[])),
    ("all withdrawn", |t| {
        t.ledger(&[KEEP, correction(2, 402, 1000), WITHDRAWAL, WITHDRAWAL])
    }),
    ("a keep line last", |t| {
        t.ledger(&[correction(2, 402, 1000), KEEP])
    }),
    ("keep lines alone", |t| t.ledger(&[KEEP])),
    ("pixel 4 of 4", |t| t.ledger(&[correction(4, 402, 1000)])),
    ("pixel 16777215", |t| {
        t.ledger(&[correction(16_777_215, 0, 0)])
    }),
    ("the pixel is 1001", |t| t.pixels[2] = 1001),
];

/// Two refusals due at once: the first of the order is given.
const PAIRS: [(&str, Change); 30] = [
    ("19 and 20", |t| {
        t.damage = RESPELLED;
        t.lines.insert(0, BAD);
    }),
    ("19 and 22", |t| {
        t.damage = RESPELLED;
        t.ledger(&[]);
    }),
    ("19 and 31", |t| {
        t.damage = RESPELLED;
        t.ledger(&[KEEP]);
    }),
    ("19 and 24", |t| {
        t.damage = RESPELLED;
        t.ledger(&[correction(4, 402, 1000)]);
    }),
    ("19 and 23", |t| {
        t.damage = RESPELLED;
        t.pixels[2] = 1001;
    }),
    ("19 and 21", |t| {
        t.damage = RESPELLED;
        t.spare = 16;
    }),
    ("19 and 17", |t| {
        t.damage = RESPELLED;
        t.count = 299;
    }),
    ("19 and 18", |t| {
        t.damage = RESPELLED;
        t.count = 70000;
    }),
    ("20 and 22", |t| t.ledger(&[WITHDRAWAL])),
    ("20 and 31", |t| t.lines = vec![BAD, KEEP.bytes()]),
    ("20 and 24", |t| {
        t.lines = vec![BAD, correction(4, 402, 1000).bytes()]
    }),
    ("20 and 23", |t| {
        t.lines.insert(0, BAD);
        t.pixels[2] = 1001;
    }),
    ("20 and 21", |t| {
        t.lines.insert(0, BAD);
        t.spare = 16;
    }),
    ("20 and 21, by lines claimed", |t| {
        t.spare = 0;
        t.beyond = 1;
    }),
    ("20 and 17", |t| {
        t.lines.insert(0, BAD);
        t.count = 299;
    }),
    ("20 and 18", |t| {
        t.lines.insert(0, BAD);
        t.count = 70000;
    }),
    ("22 and 21", |t| {
        t.ledger(&[]);
        t.spare = 0;
    }),
    ("22 and 21, all withdrawn", |t| {
        t.ledger(&[KEEP, WITHDRAWAL]);
        t.spare = 16;
    }),
    ("31 and 21", |t| {
        t.ledger(&[correction(2, 402, 1000), KEEP]);
        t.spare = 0;
    }),
    ("24 and 21", |t| {
        t.ledger(&[correction(4, 402, 1000)]);
        t.spare = 16;
    }),
    ("24 and a count too large for its entry", |t| {
        t.ledger(&[correction(4, 402, 1000)]);
        t.count = 299;
    }),
    ("24 and a count too long for the buffer", |t| {
        t.ledger(&[correction(4, 402, 1000)]);
        t.count = 70000;
    }),
    ("24 and a new count that no pixel has", |t| {
        t.ledger(&[correction(4, 402, 7)])
    }),
    ("23 and 21", |t| {
        t.pixels[2] = 1001;
        t.spare = 16;
    }),
    ("23 and 17", |t| {
        t.pixels[2] = 1001;
        t.count = 299;
    }),
    ("23 and 18", |t| {
        t.pixels[2] = 1001;
        t.count = 70000;
    }),
    ("21 and 17", |t| {
        t.spare = 16;
        t.count = 299;
    }),
    ("21 and 18", |t| {
        t.spare = 16;
        t.count = 70000;
    }),
    ("17 and 18", |t| {
        t.last(2, 402, 410);
        t.count = 299;
    }),
    ("18 there, with an entry that fits", |t| {
        t.last(2, 402, 410);
        t.count = 255;
    }),
];

fn answer_line(name: &str, trial: &Trial) -> String {
    let case = trial.case();
    let (outcome, note) = both(&case);
    let (words, after) = (outcome.words(), after_words(&case, &outcome.after));
    format!("{name}: {words}: {after}{note}")
}

fn changed_line((name, change): &(&str, Change)) -> String {
    let mut trial = Trial::new(Call::Amend);
    change(&mut trial);
    answer_line(name, &trial)
}

/// The amend, and what a withdrawal alone is answered.
fn between_lines((name, change): &(&str, Change)) -> [String; 2] {
    let mut trial = Trial::new(Call::Amend);
    change(&mut trial);
    let amended = answer_line(name, &trial);
    trial.call = Call::Withdraw;
    [
        amended,
        answer_line(&format!("{name}, withdrawn alone"), &trial),
    ]
}

/// A correction amended to each of these counts, in a buffer with room enough.
fn form_lines(form: (u32, u32)) -> impl Iterator<Item = String> {
    EDGES.into_iter().map(move |count| {
        let mut trial = Trial::new(Call::Amend);
        (trial.form, trial.count, trial.room) = (form, count, 48);
        answer_line(&format!("form {} to {count}", form_name(form)), &trial)
    })
}

fn by_amend(deed: Deed) -> Vec<Step> {
    vec![deed.step()]
}

fn by_two_calls(deed: Deed) -> Vec<Step> {
    match deed {
        Deed::Amend(pixel, count) => {
            vec![Deed::Withdraw.step(), Deed::Correct(pixel, count).step()]
        }
        other => by_amend(other),
    }
}

/// With room for seven lines.
const SOME_REFUSED: [Deed; 9] = [
    Deed::Amend(0, 1),
    Deed::Keep(DATE),
    Deed::Amend(0, 1),
    Deed::Correct(2, 1000),
    Deed::Amend(2, 500),
    Deed::Amend(2, 600),
    Deed::Amend(2, 700),
    Deed::Withdraw,
    Deed::Amend(0, 1),
];

/// The outcome of an opening and these calls, in words, and the outcome itself.
fn list_words(form: (u32, u32), lines: usize, steps: Vec<Step>) -> (String, Outcome) {
    let case = list_case(form, lines * BYTES, steps);
    let (outcome, note) = both(&case);
    let answers = joined(outcome.met.iter().map(|(_, refusal)| *refusal));
    let words = format!("{answers}: {}{note}", after_words(&case, &outcome.after));
    (words, outcome)
}

fn list_lines(form: (u32, u32)) -> [String; 2] {
    let steps = |way: fn(Deed) -> Vec<Step>| ACCEPTED.into_iter().flat_map(way).collect();
    let (by_amends, one) = list_words(form, 16, steps(by_amend));
    let (by_two, two) = list_words(form, 16, steps(by_two_calls));
    let files = |outcome: Outcome| (outcome.after.buffer, outcome.after.ledger);
    let same = match files(one) == files(two) {
        true => "the same bytes",
        false => "other bytes",
    };
    let name = form_name(form);
    [
        format!("list in {name}: {by_amends}"),
        format!("list in {name} by two calls each, {same}: {by_two}"),
    ]
}

fn refused_list_line() -> String {
    let steps = SOME_REFUSED.into_iter().flat_map(by_amend).collect();
    format!("list with refusals: {}", list_words((1, 1), 7, steps).0)
}

fn lines() -> impl Iterator<Item = String> {
    let changed = COUNTS.iter().chain(&LEDGERS).map(changed_line);
    let between = BETWEEN.iter().flat_map(between_lines);
    let refused = REFUSED.iter().chain(&PAIRS).map(changed_line);
    let forms = FORMS.into_iter().flat_map(form_lines);
    let lists = FORMS.into_iter().flat_map(list_lines);
    let calls = changed.chain(between).chain(refused).chain(forms);
    calls.chain(lists).chain([refused_list_line()])
}

pub fn run() -> bool {
    written_down::run("amend", EXPECTED, lines())
}
