//! The reference model: a stack of entries over the pixels opened.
use crate::frame;
use crate::ledger::{self, Date, Entry, Reason};

pub struct Model {
    pub header: Vec<u8>,
    pub opened: Vec<u32>,
    pub form: (u32, u32),
    pub held_length: usize,
    pub ledger_length: usize,
    /// Entries, each with the number of its line in the ledger.
    pub stack: Vec<(u64, Entry)>,
    pub lines: u64,
}

impl Model {
    /// 21 where the ledger has no room for so many lines more.
    fn must_have_room(&self, lines: u64) -> Result<(), u32> {
        let room = (self.ledger_length / ledger::BYTES) as u64;
        if self.lines + lines > room {
            return Err(21);
        }
        Ok(())
    }

    /// The stack's entries, oldest first.
    pub fn entries(&self) -> Vec<Entry> {
        self.stack.iter().map(|(_, entry)| *entry).collect()
    }

    /// Puts the entry of the next line on top.
    fn push(&mut self, entry: Entry) {
        self.lines += 1;
        self.stack.push((self.lines, entry));
    }

    pub fn pixels(&self) -> Vec<u32> {
        let mut pixels = self.opened.clone();
        for (_, entry) in &self.stack {
            if let Entry::Correction { pixel, new, .. } = entry {
                pixels[*pixel as usize] = *new;
            }
        }
        pixels
    }

    /// The held buffer that these pixels have, or 17 or 18.
    pub fn held(&self, pixels: &[u32]) -> Result<Vec<u8>, u32> {
        let mut held = vec![0; self.held_length];
        let (width, underflow) = self.form;
        match frame::write(&self.header, pixels, width, underflow, &mut held) {
            Ok(_) => Ok(held),
            Err(refusal) => Err(refusal.number),
        }
    }

    /// Each accepted call hands back the line that the ledger gains.
    pub fn correct(&mut self, pixel: u64, new: u32) -> Result<Entry, u32> {
        if pixel >= self.opened.len() as u64 {
            return Err(24);
        }
        self.must_have_room(1)?;
        self.push_correction(pixel as u32, new)
    }

    /// The correction over the stack as it is, if its frame can be written: 17, 18.
    fn push_correction(&mut self, pixel: u32, new: u32) -> Result<Entry, u32> {
        let mut pixels = self.pixels();
        let old = std::mem::replace(&mut pixels[pixel as usize], new);
        self.held(&pixels)?;
        let entry = Entry::Correction { pixel, old, new };
        self.push(entry);
        Ok(entry)
    }

    pub fn keep(&mut self, date: Date) -> Result<Entry, u32> {
        if !date.is_calendar() {
            return Err(25);
        }
        self.must_have_room(1)?;
        self.push(Entry::Keep(date));
        Ok(Entry::Keep(date))
    }

    pub fn withdraw(&mut self) -> Result<Entry, u32> {
        if self.stack.is_empty() {
            return Err(22);
        }
        self.must_have_room(1)?;
        self.stack.pop();
        self.lines += 1;
        Ok(Entry::Withdrawal)
    }

    /// A withdrawal and a correction, of which only the frame after both is judged.
    pub fn amend(&mut self, new: u32) -> Result<[Entry; 2], u32> {
        let last = *self.stack.last().ok_or(22u32)?;
        let (_, Entry::Correction { pixel, .. }) = last else {
            return Err(31);
        };
        self.must_have_room(2)?;
        self.withdraw()?;
        match self.push_correction(pixel, new) {
            Ok(entry) => Ok([Entry::Withdrawal, entry]),
            Err(refusal) => {
                self.lines -= 1;
                self.stack.push(last);
                Err(refusal)
            }
        }
    }

    /// The ledger's lines are then the stack's entries, numbered anew.
    pub fn compact(&mut self) {
        let entries = self.entries();
        self.stack.clear();
        self.lines = 0;
        entries.into_iter().for_each(|entry| self.push(entry));
    }

    /// The uppermost keep date, with its line's number.
    fn kept(&self) -> Option<(u64, Date)> {
        let dated = |(line, entry): &(u64, Entry)| Some((*line, entry.kept()?));
        self.stack.iter().rev().find_map(dated)
    }

    pub fn may_purge(&self, asked: Date) -> Result<(), u32> {
        ledger::purge_answer(self.kept().map(|(_, date)| date), asked)
    }

    pub fn why_day(&self, asked: Date) -> Reason {
        ledger::day_reason(self.kept(), asked)
    }

    pub fn why_pixel(&self, number: u64) -> Reason {
        let entries = self.stack.iter().rev();
        let mut corrections = entries.filter(|(_, entry)| entry.corrects(number));
        (0, corrections.next().map_or(0, |(line, _)| *line))
    }
}
