//! A ledger's bytes as the library is lent them, and its listing taken apart.
use quayrudder::Date;
use std::fmt::{self, Display, Formatter};

const LINE: usize = 16;

/// The lines of a ledger file. A broken last one counts, so that the library refuses the ledger (20).
pub fn lines(ledger: &[u8]) -> u64 {
    ledger.len().div_ceil(LINE) as u64
}

/// A ledger as it is lent for a change: with room for further lines, unless its last line is broken.
pub struct Lent {
    pub bytes: Vec<u8>,
    pub lines: u64,
}

impl Lent {
    pub fn new(mut bytes: Vec<u8>, further: u64) -> Lent {
        let lines = lines(&bytes);
        if bytes.len().is_multiple_of(LINE) {
            bytes.resize(bytes.len() + LINE * further as usize, 0);
        }
        Lent { bytes, lines }
    }

    /// The bytes of the first lines.
    pub fn used(&self, lines: u64) -> &[u8] {
        &self.bytes[..LINE * lines as usize]
    }
}

/// What is wrong with a ledger's length, if anything is.
pub fn length_note(ledger: &[u8]) -> String {
    match ledger.len() % LINE {
        0 => String::new(),
        _ => format!("it has {} bytes, and a ledger is whole lines of {LINE} bytes", ledger.len()),
    }
}

/// 20 where the ledger is malformed, else 0: asked for no day, an accepted ledger answers 25.
pub fn refusal(ledger: &[u8]) -> u32 {
    let no_day = Date { year: 0, month: 0, day: 0 };
    match quayrudder::may_purge(ledger, lines(ledger), no_day) {
        25 => 0,
        number => number,
    }
}

/// The library's listing.
pub fn listing(ledger: &[u8]) -> String {
    let mut room = vec![0; quayrudder::list_room(ledger.len())];
    let answer = quayrudder::list(ledger, &mut room);
    let start = room.len() - answer.length as usize;
    String::from_utf8_lossy(&room[start..]).into_owned()
}

/// One line of the listing, by its words: `line 3 correct 17 300 301 withdrawn`.
#[derive(Clone, Debug, PartialEq, Eq)]
pub struct Line {
    pub number: u64,
    pub entry: Entry,
    pub withdrawn: bool,
}

#[derive(Clone, Debug, PartialEq, Eq)]
pub enum Entry {
    Correct { pixel: u64, old: u64, new: u64 },
    Keep { date: String },
    Withdraw,
}

/// As the listing has it.
impl Display for Line {
    fn fmt(&self, f: &mut Formatter) -> fmt::Result {
        write!(f, "line {} ", self.number)?;
        match &self.entry {
            Entry::Correct { pixel, old, new } => write!(f, "correct {pixel} {old} {new}")?,
            Entry::Keep { date } => write!(f, "keep {date}")?,
            Entry::Withdraw => f.write_str("withdraw")?,
        }
        f.write_str(if self.withdrawn { " withdrawn" } else { "" })
    }
}

/// The listing's lines, the last first.
pub fn backwards(listing: &str) -> impl Iterator<Item = Line> + '_ {
    listing.lines().rev().filter_map(parse)
}

/// The line that a withdrawal would take back.
pub fn last_standing(listing: &str) -> Option<Line> {
    backwards(listing).find(|line| !line.withdrawn && line.entry != Entry::Withdraw)
}

/// A line that stands, by its number from 1; none for 0. Its bytes alone are a ledger of one line, so only this line is listed.
pub fn line(ledger: &[u8], number: u64) -> Option<Line> {
    let place = usize::try_from(number).ok()?.checked_sub(1)?;
    let alone = ledger.chunks_exact(LINE).nth(place)?;
    backwards(&listing(alone)).next().map(|line| Line { number, ..line })
}

fn parse(text: &str) -> Option<Line> {
    let mut words = text.strip_prefix("line ")?.split(' ');
    let number = |words: &mut std::str::Split<char>| words.next()?.parse().ok();
    let place = number(&mut words)?;
    let entry = match words.next()? {
        "correct" => Entry::Correct { pixel: number(&mut words)?, old: number(&mut words)?, new: number(&mut words)? },
        "keep" => Entry::Keep { date: words.next()?.to_string() },
        _ => Entry::Withdraw,
    };
    Some(Line { number: place, entry, withdrawn: words.next() == Some("withdrawn") })
}

#[cfg(test)]
mod tests {
    use super::*;

    const LISTING: &str = "line 1 keep 2031-11-02\nline 2 correct 17 300 301 withdrawn\nline 3 withdraw\nstanding 1\n";

    #[test]
    fn a_listing_is_taken_apart() {
        let lines: Vec<Line> = backwards(LISTING).collect();
        let keep = Line { number: 1, entry: Entry::Keep { date: "2031-11-02".into() }, withdrawn: false };
        let correct = Line { number: 2, entry: Entry::Correct { pixel: 17, old: 300, new: 301 }, withdrawn: true };
        let withdraw = Line { number: 3, entry: Entry::Withdraw, withdrawn: false };
        assert_eq!(lines, [withdraw, correct, keep.clone()]);
        assert_eq!(last_standing(LISTING), Some(keep));
    }

    #[test]
    fn a_line_is_said_as_the_listing_has_it() {
        let mut said: Vec<String> = backwards(LISTING).map(|line| line.to_string()).collect();
        said.reverse();
        assert_eq!(said.join("\n") + "\nstanding 1\n", LISTING);
    }

    /// Three corrections of pixel 17, a keep date between them, and a withdrawal of the last.
    fn some_lines() -> Vec<u8> {
        let correct = |old: u128, new: u128| (17u128 << 81 | old << 49 | new << 17).to_be_bytes();
        let keep = [[0x5f, 0xbe, 0xc4].as_slice(), &[0; 13]].concat();
        let withdraw = [[0x80].as_slice(), &[0; 15]].concat();
        [correct(63, 300).as_slice(), &keep, &correct(300, 301), &correct(301, 5), &withdraw].concat()
    }

    #[test]
    fn a_line_alone_is_what_the_whole_listing_has_at_its_place() {
        let ledger = some_lines();
        let listed: Vec<Line> = backwards(&listing(&ledger)).collect();
        assert_eq!((listed.len(), listed[1].withdrawn), (5, true));
        for whole in listed.iter().filter(|line| line.entry != Entry::Withdraw && !line.withdrawn) {
            assert_eq!(line(&ledger, whole.number).as_ref(), Some(whole));
        }
        let third = Line { number: 3, entry: Entry::Correct { pixel: 17, old: 300, new: 301 }, withdrawn: false };
        assert_eq!(line(&ledger, 3), Some(third));
    }

    #[test]
    fn there_is_no_line_0_and_none_past_the_last() {
        let ledger = some_lines();
        assert_eq!([0, 6, u64::MAX].map(|number| line(&ledger, number)), [None, None, None]);
        assert_eq!(line(&ledger[..15], 1), None);
        assert_eq!(line(&[], 1), None);
    }

    #[test]
    fn an_empty_listing_has_no_lines() {
        assert_eq!(backwards("standing 0\n").count(), 0);
    }
}
