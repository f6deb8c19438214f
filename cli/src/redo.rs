//! The record of a change that touches several files: all of them become what it says, or none.
//!
//! It names the state of held file, ledger and log that it follows and the one that it makes. It is written and synced under
//! another name and then renamed into place. From then on the change is made: whoever finds the record with the files in
//! one of its two states puts them in place and removes it. Doing that again changes nothing.
use crate::digest::{from_hex, Digest, State};
use crate::failure::{Failure, Outcome};
use std::ffi::OsStr;
use std::os::unix::ffi::OsStrExt;
use std::path::{Path, PathBuf};

const MARK: &str = "quayrudder redo 3";
/// The record of a version that knows no log: the same without its digests and its part.
const MARK_WITHOUT_LOG: &str = "quayrudder redo 2";
/// What every version's record starts with.
pub const START: &[u8] = b"quayrudder redo ";
const PARTS: usize = 5;

#[derive(Clone, Debug, PartialEq, Eq)]
pub struct Record<'a> {
    pub follows: State,
    pub makes: State,
    /// The new contents of each file, where it gets any.
    pub held: Option<&'a [u8]>,
    pub ledger: Option<&'a [u8]>,
    pub sums: Option<&'a [u8]>,
    /// The holding's name in the folder that it is moved into.
    pub into: Option<PathBuf>,
    pub log: Option<&'a [u8]>,
}

impl<'a> Record<'a> {
    /// The record of a holding that is deleted, or moved.
    pub fn of_removal(follows: State, into: Option<PathBuf>) -> Record<'a> {
        Record { follows, makes: State::default(), held: None, ledger: None, sums: None, into, log: None }
    }

    pub fn is_removal(&self) -> bool {
        self.makes == State::default()
    }

    /// Is it the record of a compaction? Every other change appends lines or leaves the ledger.
    pub fn compacts(&self) -> bool {
        self.follows.ledger.zip(self.makes.ledger).is_some_and(|(before, after)| after.length < before.length)
    }

    /// Has the holding a log, before or after?
    pub fn has_log(&self) -> bool {
        self.follows.log.or(self.makes.log).is_some()
    }

    /// The record's bytes, part by part.
    pub fn write(&self, out: impl FnOnce(&[&[u8]]) -> Outcome<()>) -> Outcome<()> {
        let into = self.into.as_ref().map(|path| path.as_os_str().as_bytes());
        let parts = [self.held, self.ledger, self.sums, into, self.log];
        let lengths = parts.map(|part| part.map_or("-".into(), |bytes| bytes.len().to_string())).join(" ");
        let pair =
            |of: fn(&State) -> Option<Digest>| format!("{} {}", text(&of(&self.follows)), text(&of(&self.makes)));
        let (held, ledger, log) = (pair(|state| state.held), pair(|state| state.ledger), pair(|state| state.log));
        let head = format!("{MARK}\nheld {held}\nledger {ledger}\nlog {log}\nparts {lengths}\n\n");
        let contents = parts.map(Option::unwrap_or_default);
        let mut body = [&[head.as_bytes()], contents.as_slice()].concat();
        let sum = Digest::of_parts(&body).sha256;
        body.push(&sum);
        out(&body)
    }
}

/// Reads a record, or says why it cannot be used.
pub fn read<'a>(path: &Path, bytes: &'a [u8]) -> Outcome<Record<'a>> {
    let advice =
        "Nothing was changed or deleted. Move this file to a safe place, restore the held file, the ledger and the \
                  sums from their copies, and check them with `quayrudder verify`";
    parse(bytes).ok_or_else(|| {
        let why = match bytes.starts_with(b"quayrudder redo 1\n") {
            true => "is the record of an earlier version of this command, which does not say what state it follows",
            false => "is the record of an unfinished change, and damaged",
        };
        Failure::damaged(path, format!("{why}. {advice}"))
    })
}

pub fn parse(bytes: &[u8]) -> Option<Record<'_>> {
    let (body, sum) = bytes.split_at_checked(bytes.len().checked_sub(32)?)?;
    if Digest::of(body).sha256 != *sum {
        return None;
    }
    let end = body.windows(2).position(|pair| pair == b"\n\n")?;
    let head: Vec<&str> = std::str::from_utf8(&body[..end]).ok()?.split('\n').collect();
    let (held, ledger, log, parts) = match head[..] {
        [MARK, held, ledger, log, parts] => (held, ledger, log, parts.to_string()),
        [MARK_WITHOUT_LOG, held, ledger, parts] => (held, ledger, "log - -", format!("{parts} -")),
        _ => return None,
    };
    let (follows, makes) = states(held, ledger, log)?;
    let [held, ledger, sums, into, log] = cut(&body[end + 2..], parts.strip_prefix("parts ")?)?;
    let into = into.map(|bytes| PathBuf::from(OsStr::from_bytes(bytes)));
    Some(Record { follows, makes, held, ledger, sums, into, log })
}

/// The state before and the one after, by the lines of the three files.
fn states(held: &str, ledger: &str, log: &str) -> Option<(State, State)> {
    let held = digests(held.strip_prefix("held ")?)?;
    let ledger = digests(ledger.strip_prefix("ledger ")?)?;
    let log = digests(log.strip_prefix("log ")?)?;
    let follows = State { held: held.0, ledger: ledger.0, log: log.0 };
    Some((follows, State { held: held.1, ledger: ledger.1, log: log.1 }))
}

/// A digest is its length, a colon and its sum; a dash stands for a file that is missing.
fn text(digest: &Option<Digest>) -> String {
    digest.map_or("-".into(), |digest| format!("{}:{}", digest.length, digest.hex()))
}

fn digests(words: &str) -> Option<(Option<Digest>, Option<Digest>)> {
    let (first, second) = words.split_once(' ')?;
    Some((digest(first)?, digest(second)?))
}

fn digest(word: &str) -> Option<Option<Digest>> {
    match word.split_once(':') {
        None => (word == "-").then_some(None),
        Some((length, sum)) => Some(Some(Digest { length: length.parse().ok()?, sha256: from_hex(sum.as_bytes())? })),
    }
}

/// The parts of these lengths, which must be all that there is.
fn cut<'a>(mut bytes: &'a [u8], lengths: &str) -> Option<[Option<&'a [u8]>; PARTS]> {
    let (mut parts, mut words) = ([None; PARTS], lengths.split(' '));
    for part in &mut parts {
        let word = words.next()?;
        if word != "-" {
            let (first, rest) = bytes.split_at_checked(word.parse().ok()?)?;
            (*part, bytes) = (Some(first), rest);
        }
    }
    (bytes.is_empty() && words.next().is_none()).then_some(parts)
}

#[cfg(test)]
mod tests {
    use super::*;

    fn record<'a>(held: Option<&'a [u8]>) -> Record<'a> {
        let digest = |bytes: &[u8]| Some(Digest::of(bytes));
        let follows = State { held: None, ledger: digest(b"old"), log: None };
        let makes = State { held: digest(b"frame"), ledger: digest(b"new"), log: digest(b"# log") };
        Record { follows, makes, held, ledger: Some(b"new"), sums: Some(b"\n\n"), into: None, log: Some(b"# log") }
    }

    fn written(record: &Record) -> Vec<u8> {
        let mut bytes = Vec::new();
        let collect = |parts: &[&[u8]]| {
            bytes.extend(parts.concat());
            Ok(())
        };
        record.write(collect).unwrap();
        bytes
    }

    #[test]
    fn a_record_says_what_was_recorded() {
        let moved = Record::of_removal(record(None).makes, Some("bin/\n\n\u{e9}".into()));
        for record in [record(None), record(Some(b"frame")), record(Some(b"")), moved] {
            assert_eq!(parse(&written(&record)), Some(record));
        }
    }

    #[test]
    fn a_record_of_a_version_that_knows_no_log_is_read() {
        let old = Record { log: None, makes: State { log: None, ..record(None).makes }, ..record(None) };
        let bytes = written(&old);
        let head = String::from_utf8_lossy(&bytes[..bytes.len() - 32]).replace("redo 3\n", "redo 2\n");
        let body = head.replace("log - -\n", "").replace(" - -\n\n", " -\n\n");
        let bytes = [body.as_bytes(), &Digest::of(body.as_bytes()).sha256].concat();
        assert!(body.starts_with("quayrudder redo 2\nheld - ") && body.contains("\nparts - 3 2 -\n\nnew"), "{body}");
        assert_eq!(parse(&bytes), Some(old));
    }

    #[test]
    fn a_record_with_any_byte_changed_or_cut_off_is_damaged() {
        let bytes = written(&record(Some(b"frame")));
        for place in 0..bytes.len() {
            let mut changed = bytes.clone();
            changed[place] ^= 1;
            assert!(parse(&changed).is_none(), "byte {place}");
            assert!(parse(&bytes[..place]).is_none(), "cut at {place}");
        }
    }
}
