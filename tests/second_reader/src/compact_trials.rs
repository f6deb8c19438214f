//! A fixed list of compactions, each with its answer written down in compact_trials.txt.
use crate::case::{Call, Step};
use crate::frame::FORMS;
use crate::held_trial::{behind_words, form_name, list_case};
use crate::held_trial::{Change, Deed, Trial, ACCEPTED, RESPELLED};
use crate::ledger::BYTES;
use crate::lettered::{self, further_line, list_line, list_words, set, shortened};
use crate::written_down::{self, both};

const EXPECTED: &str = include_str!("../compact_trials.txt");

/// A ledger and further calls, and what else is done to the trial.
const FURTHER: [(&str, &str, Change); 24] = [
    ("compacted twice", "akbww: c", |_| {}),
    ("compacted twice, all cancelled", "akww: c", |_| {}),
    ("compacted twice, nothing cancelled", "ak: c", |_| {}),
    ("compacted twice, no lines", ": c", |_| {}),
    ("withdrawn to the first line", "akbwwc: w w w", |t| {
        set(t, 555, 64)
    }),
    (
        "withdrawn, with keep lines between",
        "kawlbw: p q w p q w p q",
        |t| set(t, 402, 64),
    ),
    (
        "a purge on the day",
        "klaw: p q p=2032-2-29 p=2032-3-1",
        |_| {},
    ),
    (
        "a purge with the last keep line withdrawn",
        "klw: p q",
        |_| {},
    ),
    ("a purge with no keep line", "akw: p q p=2031-2-29", |_| {}),
    ("amended again", "awe: m=540 m=402 w", |t| set(t, 500, 80)),
    ("22", "akww: w m=5 q", |t| set(t, 402, 32)),
    ("31", "akwl: m=5 w m=5", |t| t.spare = 64),
    ("23", "akw: w m=5 2=500 w w", |t| set(t, 1001, 32)),
    ("24", "kwx: w m=5 4=5", |_| {}),
    ("25", "akw: k=2031-2-29 p=1900-2-29", |_| {}),
    ("19", "akw: w m=5 0=5 k q", |t| t.damage = RESPELLED),
    ("17", "akw: 0=299 m=299 w", |_| {}),
    ("18", "akw: 0=70000 m=70000 w", |_| {}),
    ("one pixel many times", "acwwg: 2=5 w w 2=402 m=1 w", |t| {
        set(t, 70000, 112)
    }),
    ("compacted in between", "akw: l w c k w c w c w", |t| {
        t.spare = 64
    }),
    ("none free: a keep entry", "akw: k k", |t| t.spare = 0),
    ("none free: a correction", "akw: 0=410 0=410", |t| {
        t.spare = 0
    }),
    ("none free: a withdrawal", "akw: w w", |t| t.spare = 0),
    ("one free: an amend", "akw: m=500 k", |t| t.spare = 16),
];

/// Names, bytes of the ledger, and the calls behind an opening.
const LISTS: &str = "\
room for a keep entry: 48: 2=1000 k w l c l w l
room for a correction: 48: k 2=1000 w 1=9 c 1=9
room for a withdrawal: 48: k l w w c w w
room for an amend: 48: 2=1000 m=500 m=600 c m=600 m=700 c m=700
room for one line of an amend's two: 48: k l w c 2=1000 m=500 c m=500 w
no room, all stand: 32: 2=1000 k l c l w m=5 0=5
room for a line less a byte: 47: 2=1000 w k c k k
two lines used over and over: 32: k w c 2=5 w c l w c w c 1=9
compacted before anything: 64: c c w q k c q
a ledger of no bytes: 0: c k 0=5 w c
a ledger of 15 bytes: 15: c k c
old counts stay with their lines: 160: 2=1000 2=9 k w c w c w w c
withdrawn between compactions: 160: 0=5 k 1=9 l c w w c w c w c w
purge questions around a compaction: 160: k l w p q c p q l q c q w q c q w q c q
an amend, compacted, withdrawn: 160: 2=1000 m=500 k c w w c w
the last correction after compaction: 160: 2=1000 k w c m=500 l m=7 w m=7";

/// The listing before, the answer, and the ledger after it.
fn answer_line(name: &str, trial: &Trial) -> String {
    let case = trial.case();
    let (outcome, note) = both(&case);
    let words = outcome.words();
    let after = &outcome.after;
    if outcome.answer()[0] != 0 {
        let touched = if after.ledger == case.ledger {
            "untouched"
        } else {
            "changed"
        };
        return format!("{name}: {words}: {touched}{note}");
    }
    let used = case.lines as usize * BYTES;
    let (left, rest) = after.ledger.split_at(after.lines as usize * BYTES);
    let behind = behind_words(&case.ledger[left.len()..], rest, used - left.len());
    let before = shortened(&case.ledger[..used]);
    format!(
        "{name}: {before} -> {words}{behind}: {}{note}",
        shortened(left)
    )
}

/// The calls of the amend trials' list, with a compaction behind each, in a ledger that would be too short without.
fn form_line(form: (u32, u32)) -> String {
    let alone = ACCEPTED.map(Deed::step).to_vec();
    let compacted = |step: &Step| [*step, Deed::Compact.step()];
    let each = alone.iter().flat_map(compacted).collect();
    let (words, with) = list_words(&list_case(form, 5 * BYTES, each));
    let (_, without) = list_words(&list_case(form, 16 * BYTES, alone));
    let same = match with.after.buffer == without.after.buffer {
        true => "the same frame as without",
        false => "another frame than without",
    };
    format!("list in {}, {same}: {words}", form_name(form))
}

fn lines() -> impl Iterator<Item = String> {
    let accepted = lettered::accepted(Call::Compact);
    let ledgers = accepted.chain(lettered::refused(Call::Compact));
    let compactions = ledgers.map(|(name, trial)| answer_line(&name, &trial));
    let further = FURTHER.iter().map(further_line);
    let lists = LISTS.lines().map(list_line);
    let forms = FORMS.into_iter().map(form_line);
    compactions.chain(further).chain(lists).chain(forms)
}

pub fn run() -> bool {
    written_down::run("compact", EXPECTED, lines())
}
