//! Ledgers spelled by letters, those that are refused among them, and calls by words: what the trials of compactions, of questions and of orders share.
use crate::case::{Call, Case, Step};
use crate::compare::Outcome;
use crate::held_trial::{after_words, correction, keep, list_case, listed};
use crate::held_trial::{Change, Deed, Trial, BAD, DATE, KEEP, WITHDRAWAL};
use crate::ledger::Entry;
use crate::written_down::both;

const LEAP_DAY: (u32, u32, u32) = (2032, 2, 29);

/// The entry that a letter stands for.
fn entry(letter: char) -> Entry {
    match letter {
        'a' => correction(2, 402, 1000),
        'b' => correction(1, 401, 9),
        'c' => correction(2, 1000, 555),
        'd' => correction(0, 400, 400),
        'e' => correction(2, 402, 500),
        'f' => correction(16_777_215, 4_294_967_295, 4_294_967_295),
        'g' => correction(2, 402, 70000),
        'h' => correction(1, 401, 8),
        'x' => correction(4, 402, 1000),
        'z' => correction(0, 0, 0),
        'k' => KEEP,
        'l' => keep(LEAP_DAY),
        'm' => keep((1, 1, 1)),
        'n' => keep((4095, 12, 31)),
        'w' => WITHDRAWAL,
        other => panic!("no entry {other}"),
    }
}

/// So many lines less are claimed.
const fn less(lines: u64) -> u64 {
    0u64.wrapping_sub(lines)
}

/// A word and how often it is meant: `k*3` three times, and `k` once.
fn times(word: &str) -> (&str, usize) {
    match word.split_once('*') {
        Some((word, times)) => (word, times.parse().unwrap_or(0)),
        None => (word, 1),
    }
}

/// Each number behind a plus sign with the baseline added.
pub fn raised(text: &str, base: u32) -> String {
    let mut parts = text.split('+');
    let mut raised = parts.next().unwrap_or("").to_string();
    for part in parts {
        let digits = part.bytes().take_while(u8::is_ascii_digit).count();
        let number: u64 = part[..digits].parse().unwrap_or(0);
        raised += &(u64::from(base) + number).to_string();
        raised += &part[digits..];
    }
    raised
}

/// The words of a text, each as often as it is meant.
pub fn repeated<'a>(words: impl Iterator<Item = &'a str>) -> Vec<&'a str> {
    let each = |word: &'a str| {
        let (word, times) = times(word);
        std::iter::repeat_n(word, times)
    };
    words.flat_map(each).collect()
}

/// The entries that letters stand for, where a part may be repeated: `k ab*3`.
fn spelled(text: &str) -> Vec<Entry> {
    let expanded = |part: &str| {
        let (letters, times) = times(part);
        letters.repeat(times)
    };
    let letters: String = text.split_whitespace().map(expanded).collect();
    letters.chars().map(entry).collect()
}

/// A ledger, of which the lines behind a bar are not claimed.
pub fn trial(call: Call, text: &str) -> Trial {
    let (claimed, behind) = text.split_once('|').unwrap_or((text, ""));
    let (mut entries, behind) = (spelled(claimed), spelled(behind));
    let mut trial = Trial::new(call);
    trial.beyond = less(behind.len() as u64);
    entries.extend(behind);
    trial.ledger(&entries);
    trial
}

/// A trial and its name.
pub type Named = (String, Trial);

fn plain(call: Call, (name, letters): &(&str, &str)) -> Named {
    (name.to_string(), trial(call, letters))
}

fn changed(call: Call, (name, letters, change): &(&str, &str, Change)) -> Named {
    let mut trial = trial(call, letters);
    change(&mut trial);
    (name.to_string(), trial)
}

/// Ledgers that are accepted.
pub fn accepted(call: Call) -> impl Iterator<Item = Named> {
    let all = STANDING.iter().chain(&LONG);
    let behind = BEHIND.iter().map(move |row| changed(call, row));
    all.map(move |row| plain(call, row)).chain(behind)
}

const STANDING: [(&str, &str); 40] = [
    ("nothing cancelled, a correction", "a"),
    ("nothing cancelled, a keep line", "k"),
    ("nothing cancelled, of both kinds", "akbl"),
    ("nothing cancelled, one pixel twice", "ac"),
    ("nothing cancelled, equal lines", "kkk"),
    ("no lines", ""),
    ("all cancelled, a correction", "aw"),
    ("all cancelled, a keep line", "kw"),
    ("all cancelled, one behind another", "awkwbw"),
    ("all cancelled, one around another", "akbwww"),
    ("all cancelled, both ways", "akwbwwlw"),
    ("the first alone stands", "akbww"),
    ("the one in the middle alone stands", "awkbw"),
    ("the last alone stands", "awkwb"),
    ("the first withdrawn", "awkb"),
    ("the second withdrawn", "akwb"),
    ("the last withdrawn", "akbw"),
    ("three around each other between two that stand", "akbcwwwl"),
    ("two side by side within one", "kalwbwwe"),
    ("three around each other, then one", "kalbwwwhw"),
    ("two levels twice", "akwwblwwh"),
    ("each stands behind a cancelled one", "awkbwlkwh"),
    ("each cancelled behind one that stands", "akwblwdkw"),
    ("keep lines between cancelled corrections", "awkbwlcwm"),
    ("a correction between cancelled keep lines", "kwalw"),
    ("the earlier keep line stands", "klmww"),
    ("a keep line withdrawn between corrections", "kalbwww"),
    ("amended", "awe"),
    ("amended twice", "awewg"),
    ("amended behind a keep line", "kawe"),
    ("amended and withdrawn", "awew"),
    ("amended, and another behind it", "awebwh"),
    ("amended, and another withdrawn", "awebwhw"),
    ("amended, and the first withdrawn too", "awebwhww"),
    ("equal keep lines, the second withdrawn", "kkw"),
    ("equal corrections, the second withdrawn", "aaw"),
    ("equal corrections, the last stands", "awawa"),
    ("old and new equal", "dwd"),
    ("the largest and the smallest numbers", "mwfnwf"),
    ("a line of zeros stands", "kwzaw"),
];

const LONG: [(&str, &str); 9] = [
    ("20 and 19 withdrawals", "ak*10 w*19"),
    ("20 and 20 withdrawals", "ak*10 w*20"),
    ("300 and 299 withdrawals", "akl*100 w*299"),
    ("64 cancelled, and one", "aw*64 k"),
    ("256, nothing cancelled", "akbl*64"),
    ("256, of which half stand", "akbw*64"),
    ("4096, all cancelled", "kw*2048"),
    ("4096, the last two stand", "kw*2047 ak"),
    ("4097, more than are listed", "kw*2048 l"),
];

/// What stands behind the lines, and how many are claimed.
const BEHIND: [(&str, &str, Change); 20] = [
    ("no byte behind", "akw", |t| t.spare = 0),
    ("one byte behind", "akw", |t| t.spare = 1),
    ("15 bytes behind", "akw", |t| t.spare = 15),
    ("a line behind", "akw", |t| t.spare = 16),
    ("a line and a byte behind", "akw", |t| t.spare = 17),
    ("two lines less a byte behind", "akw", |t| t.spare = 31),
    ("three lines behind", "akw", |t| t.spare = 48),
    ("no byte behind, nothing cancelled", "ak", |t| t.spare = 0),
    ("15 bytes behind, nothing cancelled", "ak", |t| t.spare = 15),
    ("no byte behind, all cancelled", "akww", |t| t.spare = 0),
    ("15 bytes behind, all cancelled", "akww", |t| t.spare = 15),
    ("no lines and no byte", "", |t| t.spare = 0),
    ("no lines and one byte", "", |t| t.spare = 1),
    ("no lines and 15 bytes", "", |t| t.spare = 15),
    ("three of five lines claimed", "akwlw", |t| {
        t.beyond = less(2)
    }),
    ("four of five lines claimed", "akwlw", |t| {
        t.beyond = less(1)
    }),
    ("none of three lines claimed", "akw", |t| t.beyond = less(3)),
    ("a withdrawal of nothing behind", "kww", |t| {
        t.beyond = less(1)
    }),
    ("a line of no kind behind", "akw", |t| {
        t.lines.push(BAD);
        t.beyond = less(1);
    }),
    ("two lines of zeros claimed", "kzz", |_| {}),
];

/// A line of no kind among others, of which some would move.
const BAD_LINES: [(&str, &str, Change); 7] = [
    ("a line of no kind alone", "", |t| t.lines.push(BAD)),
    ("a line of no kind first", "akw", |t| t.lines.insert(0, BAD)),
    ("a line of no kind between", "akw", |t| {
        t.lines.insert(2, BAD)
    }),
    ("a line of no kind last", "akw", |t| t.lines.push(BAD)),
    ("first, before some that would move", "awkbwl", |t| {
        t.lines.insert(0, BAD)
    }),
    ("between some that would move", "awkbwl", |t| {
        t.lines.insert(3, BAD)
    }),
    ("last, behind some that would move", "awkbwl", |t| {
        t.lines.push(BAD)
    }),
];

/// A ledger, and the line, the byte in it and the bits that are set there.
const BITS: [(&str, &str, (usize, usize, u8)); 19] = [
    ("a correction of kind 3", "ak", (0, 0, 0xC0)),
    ("a correction's last bit", "ak", (0, 15, 1)),
    ("a correction's first spare bit", "ak", (0, 13, 1)),
    ("a correction with a year", "ak", (0, 1, 4)),
    ("a correction with a month", "ak", (0, 2, 0x40)),
    ("a correction with a day", "ak", (0, 2, 2)),
    ("a keep line's last bit", "ak", (1, 15, 1)),
    ("a keep line's first spare bit", "ak", (1, 13, 1)),
    ("a keep line with a pixel", "ak", (1, 5, 2)),
    ("a keep line with an old count", "ak", (1, 9, 2)),
    ("a keep line with a new count", "ak", (1, 13, 2)),
    ("a withdrawal's last bit", "akw", (2, 15, 1)),
    ("a withdrawal's first spare bit", "akw", (2, 13, 1)),
    ("a withdrawal with a year", "akw", (2, 1, 4)),
    ("a withdrawal with a month", "akw", (2, 2, 0x40)),
    ("a withdrawal with a day", "akw", (2, 2, 2)),
    ("a withdrawal with a pixel", "akw", (2, 5, 2)),
    ("a withdrawal with an old count", "akw", (2, 9, 2)),
    ("a withdrawal with a new count", "akw", (2, 13, 2)),
];

const NO_DATES: [(&str, (u32, u32, u32)); 7] = [
    ("30 February", (2031, 2, 30)),
    ("29 February 1900", (1900, 2, 29)),
    ("31 April", (2031, 4, 31)),
    ("day 0", (2031, 11, 0)),
    ("month 0", (2031, 0, 2)),
    ("month 13", (2031, 13, 2)),
    ("year 0", (0, 11, 2)),
];

/// A withdrawal where nothing stands, alone and with lines that would move.
const NOTHING_STANDS: [(&str, &str); 8] = [
    ("a withdrawal of nothing alone", "w"),
    ("a withdrawal of nothing first", "wak"),
    ("a withdrawal of nothing last", "akwww"),
    ("a withdrawal of nothing between", "akwwwlb"),
    ("a withdrawal of nothing before others", "awwkl"),
    ("one before some that would move", "wawkbwl"),
    ("one between some that would move", "awkwwbwl"),
    ("one behind some that would move", "awkbwlwww"),
];

const CANCELLED: [(&str, &str, Change); 2] = [
    ("30 February, withdrawn", "kww", |t| {
        t.lines.insert(1, keep((2031, 2, 30)).bytes())
    }),
    ("a spare bit, withdrawn", "kaw", |t| t.lines[1][15] |= 1),
];

/// The bytes behind the lines, and the lines claimed beside these.
const CLAIMED: [(&str, &str, (usize, u64)); 13] = [
    ("one more than bytes hold", "akw", (0, 1)),
    ("one more, 15 bytes behind", "akw", (15, 1)),
    ("one more, free bytes there", "akw", (32, 1)),
    ("one more, and some would move", "awkbwl", (0, 1)),
    ("free bytes, and some would move", "awkbwl", (32, 1)),
    ("three more, bytes for two", "akw", (32, 3)),
    ("4294967299 lines", "akw", (32, 1 << 32)),
    ("1152921504606846979 lines", "akw", (32, 1 << 60)),
    ("9223372036854775811 lines", "akw", (32, 1 << 63)),
    ("18446744073709551615 lines", "akw", (32, less(4))),
    ("one line of no bytes", "", (0, 1)),
    ("one line of 15 bytes", "", (15, 1)),
    ("1152921504606846976 lines", "", (32, 1 << 60)),
];

fn with_bits(call: Call, row: &(&str, &str, (usize, usize, u8))) -> Named {
    let (name, letters, (line, byte, bits)) = row;
    let mut trial = trial(call, letters);
    trial.lines[*line][*byte] |= bits;
    (name.to_string(), trial)
}

fn with_date(call: Call, (name, date): &(&str, (u32, u32, u32))) -> Named {
    let mut trial = trial(call, "a");
    trial.lines.push(keep(*date).bytes());
    (name.to_string(), trial)
}

fn claiming(call: Call, row: &(&str, &str, (usize, u64))) -> Named {
    let (name, letters, (spare, beyond)) = row;
    let mut trial = trial(call, letters);
    (trial.spare, trial.beyond) = (*spare, *beyond);
    (format!("claimed, {name}"), trial)
}

/// Ledgers that are refused with 20.
pub fn refused(call: Call) -> impl Iterator<Item = Named> {
    let bad = BAD_LINES.iter().map(move |row| changed(call, row));
    let bits = BITS.iter().map(move |row| with_bits(call, row));
    let dates = NO_DATES.iter().map(move |row| with_date(call, row));
    let nothing = NOTHING_STANDS.iter().map(move |row| plain(call, row));
    let cancelled = CANCELLED.iter().map(move |row| changed(call, row));
    let claimed = CLAIMED.iter().map(move |row| claiming(call, row));
    let lines = bad.chain(bits).chain(dates);
    lines.chain(nothing).chain(cancelled).chain(claimed)
}

/// The count of pixel 2, and the bytes behind the lines.
pub fn set(trial: &mut Trial, count: u32, spare: usize) {
    trial.pixels[2] = count;
    trial.spare = spare;
}

/// The call that a word stands for.
fn deed(word: &str) -> Deed {
    match word {
        "w" => Deed::Withdraw,
        "c" => Deed::Compact,
        "k" => Deed::Keep(DATE),
        "l" => Deed::Keep(LEAP_DAY),
        "p" => Deed::Purge(DATE),
        "q" => Deed::Purge((2031, 11, 3)),
        other => {
            let found = other
                .strip_prefix('?')
                .map_or_else(|| counted(other), question);
            found.unwrap_or_else(|| panic!("no call {other}"))
        }
    }
}

/// The question for the line that decides: for a day, `2031-11-03`, or for a pixel, `2`.
pub fn question(text: &str) -> Option<Deed> {
    match date(text) {
        Some(date) => Some(Deed::WhyDay(date)),
        None => Some(Deed::WhyPixel(text.parse().ok()?)),
    }
}

fn date(text: &str) -> Option<(u32, u32, u32)> {
    let numbers: Option<Vec<u32>> = text.split('-').map(|text| text.parse().ok()).collect();
    match numbers?[..] {
        [year, month, day] => Some((year, month, day)),
        _ => None,
    }
}

/// A call with a date or a count: `k=2031-02-29`, `p=2031-02-29`, an amend `m=500`, or pixel 2 corrected to 500, `2=500`.
fn counted(word: &str) -> Option<Deed> {
    let (what, value) = word.split_once('=')?;
    match what {
        "k" => Some(Deed::Keep(date(value)?)),
        "p" => Some(Deed::Purge(date(value)?)),
        "m" => Some(Deed::Amend(0, value.parse().ok()?)),
        pixel => Some(Deed::Correct(pixel.parse().ok()?, value.parse().ok()?)),
    }
}

pub fn steps(words: &str) -> Vec<Step> {
    let words = words.split_whitespace();
    words.map(|word| deed(word).step()).collect()
}

/// The listing, or its first line and its last two where it has more than a dozen.
pub fn shortened(lines: &[u8]) -> String {
    let text = listed(lines);
    let parts: Vec<&str> = text.split("; ").collect();
    match parts[..] {
        [first, .., last, standing] if parts.len() > 13 => {
            format!("{first}; ..; {last}; {standing}")
        }
        _ => text,
    }
}

/// Each call's answer with and without compaction, and what is held in the end with it.
pub fn further_line((name, words, change): &(&str, &str, Change)) -> String {
    let (letters, calls) = words.split_once(':').unwrap_or((words, ""));
    let (name, mut trial) = changed(Call::Further, &(*name, letters, *change));
    trial.steps = steps(calls);
    let case = trial.case();
    let (outcome, note) = both(&case);
    let calls = outcome.calls();
    let (with, without) = calls.split_at(1 + case.steps.len());
    let (with, without) = (with.join(", "), without.join(", "));
    let after = after_words(&case, &outcome.after);
    format!("{name}: {without} -> {with}: {after}{note}")
}

pub fn list_words(case: &Case) -> (String, Outcome) {
    let (outcome, note) = both(case);
    let after = after_words(case, &outcome.after);
    let words = format!("{}: {after}{note}", outcome.calls().join(", "));
    (words, outcome)
}

pub fn list_line(row: &str) -> String {
    let parts: Vec<&str> = row.split(": ").collect();
    let [name, bytes, calls] = parts[..] else {
        panic!("no list: {row}");
    };
    let bytes = bytes.parse().unwrap_or(0);
    let (words, _) = list_words(&list_case((1, 1), bytes, steps(calls)));
    format!("list, {name}: {words}")
}
