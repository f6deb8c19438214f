//! The ledger: its lines, dates, and the calls that look at nothing else.

pub const BYTES: usize = 16;

#[derive(Clone, Copy, Debug, PartialEq, Eq, PartialOrd, Ord)]
pub struct Date {
    pub year: u32,
    pub month: u32,
    pub day: u32,
}

#[derive(Clone, Copy, Debug, PartialEq, Eq)]
pub enum Entry {
    Correction { pixel: u32, old: u32, new: u32 },
    Keep(Date),
    Withdrawal,
}

fn is_leap(year: u32) -> bool {
    year.is_multiple_of(4) && (!year.is_multiple_of(100) || year.is_multiple_of(400))
}

impl Date {
    pub fn is_calendar(self) -> bool {
        let days = match self.month {
            2 if is_leap(self.year) => 29,
            2 => 28,
            4 | 6 | 9 | 11 => 30,
            1..=12 => 31,
            _ => 0,
        };
        (1..=4095).contains(&self.year) && (1..=days).contains(&self.day)
    }
}

impl Entry {
    pub fn bytes(self) -> [u8; BYTES] {
        let word = match self {
            Entry::Correction { pixel, old, new } => {
                u128::from(pixel) << 81 | u128::from(old) << 49 | u128::from(new) << 17
            }
            Entry::Keep(date) => {
                let date = u128::from(date.year << 9 | date.month << 5 | date.day);
                1 << 126 | date << 105
            }
            Entry::Withdrawal => 2 << 126,
        };
        word.to_be_bytes()
    }

    /// The entry whose line these bytes are, if any.
    pub fn parse(bytes: &[u8]) -> Option<Entry> {
        let word = u128::from_be_bytes(bytes.try_into().ok()?);
        let cut = |from: u32, width: u32| (word >> from & ((1 << width) - 1)) as u32;
        let date = Date {
            year: cut(114, 12),
            month: cut(110, 4),
            day: cut(105, 5),
        };
        let entry = match cut(126, 2) {
            0 => Entry::Correction {
                pixel: cut(81, 24),
                old: cut(49, 32),
                new: cut(17, 32),
            },
            1 if date.is_calendar() => Entry::Keep(date),
            2 => Entry::Withdrawal,
            _ => return None,
        };
        (entry.bytes() == bytes).then_some(entry)
    }
}

/// Whether the entry at a place stands, counted on from the one after it.
pub fn stands(entries: &[Entry], place: usize) -> bool {
    let mut balance = 0i64;
    for entry in &entries[place + 1..] {
        balance += if *entry == Entry::Withdrawal { 1 } else { -1 };
        if balance > 0 {
            return false;
        }
    }
    entries[place] != Entry::Withdrawal
}

pub fn standing(entries: &[Entry]) -> Vec<Entry> {
    let places = (0..entries.len()).filter(|place| stands(entries, *place));
    places.map(|place| entries[place]).collect()
}

pub fn last_standing(entries: &[Entry]) -> Option<Entry> {
    let last = (0..entries.len())
        .rev()
        .find(|place| stands(entries, *place));
    last.map(|place| entries[place])
}

/// The lines claimed, or 20.
pub fn entries(ledger: &[u8], lines: u64) -> Result<Vec<Entry>, u32> {
    if lines > (ledger.len() / BYTES) as u64 {
        return Err(20);
    }
    let mut found = Vec::new();
    for bytes in ledger.chunks_exact(BYTES).take(lines as usize) {
        let entry = Entry::parse(bytes).ok_or(20u32)?;
        if entry == Entry::Withdrawal && last_standing(&found).is_none() {
            return Err(20);
        }
        found.push(entry);
    }
    Ok(found)
}

/// How many further lines the bytes hold.
pub fn free(ledger: &[u8], lines: u64) -> u64 {
    ((ledger.len() / BYTES) as u64).saturating_sub(lines)
}

pub fn append(ledger: &mut [u8], lines: u64, entry: Entry) {
    let from = lines as usize * BYTES;
    ledger[from..from + BYTES].copy_from_slice(&entry.bytes());
}

/// Puts these entries in place of the lines used, and 0 into what is left of their bytes.
pub fn replace(ledger: &mut [u8], lines: u64, entries: &[Entry]) {
    ledger[..lines as usize * BYTES].fill(0);
    for (line, entry) in (0..).zip(entries) {
        append(ledger, line, *entry);
    }
}

/// How many lines are left, which are those that stood, or 20.
pub fn compact(ledger: &mut [u8], lines: u64) -> Result<u64, u32> {
    let left = standing(&entries(ledger, lines)?);
    replace(ledger, lines, &left);
    Ok(left.len() as u64)
}

pub fn keep(ledger: &mut [u8], lines: u64, date: Date) -> Result<(), u32> {
    entries(ledger, lines)?;
    if !date.is_calendar() {
        return Err(25);
    }
    if free(ledger, lines) == 0 {
        return Err(21);
    }
    append(ledger, lines, Entry::Keep(date));
    Ok(())
}

impl Entry {
    pub fn kept(self) -> Option<Date> {
        match self {
            Entry::Keep(date) => Some(date),
            _ => None,
        }
    }

    /// Whether this is a correction of the pixel with this number.
    pub fn corrects(self, number: u64) -> bool {
        matches!(self, Entry::Correction { pixel, .. } if u64::from(pixel) == number)
    }
}

/// What a purge question is told, given the last standing keep date.
pub fn purge_answer(kept: Option<Date>, asked: Date) -> Result<(), u32> {
    if !asked.is_calendar() {
        return Err(25);
    }
    match kept {
        None => Err(26),
        Some(date) if date < asked => Ok(()),
        Some(_) => Err(27),
    }
}

pub fn may_purge(ledger: &[u8], lines: u64, asked: Date) -> Result<(), u32> {
    let standing = standing(&entries(ledger, lines)?);
    let kept = standing.iter().rev().find_map(|entry| entry.kept());
    purge_answer(kept, asked)
}

/// A refusal, or 0, and the line that decides, from 1, or 0.
pub type Reason = (u32, u64);

/// What a question for a day is told, given the last standing keep line and its date.
pub fn day_reason(kept: Option<(u64, Date)>, asked: Date) -> Reason {
    let answer = purge_answer(kept.map(|(_, date)| date), asked);
    let line = kept.map_or(0, |(line, _)| line);
    match answer {
        Ok(()) => (0, line),
        Err(27) => (27, line),
        Err(refusal) => (refusal, 0),
    }
}

/// The number and the entry of the last standing line of a sort.
fn last_line(entries: &[Entry], sort: impl Fn(Entry) -> bool) -> Option<(u64, Entry)> {
    let wanted = |place: &usize| sort(entries[*place]) && stands(entries, *place);
    let place = (0..entries.len()).rev().find(wanted)?;
    Some((place as u64 + 1, entries[place]))
}

pub fn why_day(ledger: &[u8], lines: u64, asked: Date) -> Reason {
    let entries = match entries(ledger, lines) {
        Ok(entries) => entries,
        Err(refusal) => return (refusal, 0),
    };
    let last = last_line(&entries, |entry| entry.kept().is_some());
    let kept = last.and_then(|(line, entry)| Some((line, entry.kept()?)));
    day_reason(kept, asked)
}

pub fn why_pixel(ledger: &[u8], lines: u64, number: u64) -> Reason {
    match entries(ledger, lines) {
        Ok(entries) => {
            let last = last_line(&entries, |entry| entry.corrects(number));
            (0, last.map_or(0, |(line, _)| line))
        }
        Err(refusal) => (refusal, 0),
    }
}
