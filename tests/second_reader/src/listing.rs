//! The listing of a ledger.
use crate::ledger::{self, Entry, BYTES};

pub const MOST_LINES: usize = 4096;

fn words(entry: Entry) -> String {
    match entry {
        Entry::Correction { pixel, old, new } => format!("correct {pixel} {old} {new}"),
        Entry::Keep(date) => format!("keep {:04}-{:02}-{:02}", date.year, date.month, date.day),
        Entry::Withdrawal => "withdraw".to_string(),
    }
}

/// The text, and the bytes that a buffer for it has to have.
pub fn listing(bytes: &[u8]) -> (String, usize) {
    let lines = bytes.len() / BYTES;
    let whole = bytes.len().is_multiple_of(BYTES) && lines <= MOST_LINES;
    let entries = ledger::entries(bytes, lines as u64).ok().filter(|_| whole);
    let Some(entries) = entries else {
        return ("refused 20\n".to_string(), 32);
    };
    let mut text = String::new();
    for (place, entry) in entries.iter().enumerate() {
        let cancelled = *entry != Entry::Withdrawal && !ledger::stands(&entries, place);
        let end = if cancelled { " withdrawn" } else { "" };
        text += &format!("line {} {}{end}\n", place + 1, words(*entry));
    }
    text += &format!("standing {}\n", ledger::standing(&entries).len());
    (text, 32 + 80 * lines)
}
