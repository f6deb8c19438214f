//! The held frame, changed by reading it, changing the pixels and writing it again.
use crate::frame::{self, Extent, Refusal};
use crate::ledger::{self, Entry};

/// The frame read, if it was, and the length held.
pub fn open(
    bytes: &[u8],
    pixels: &mut [u32],
    (width, underflow): (u32, u32),
    held: &mut [u8],
) -> (Extent, Result<u64, Refusal>) {
    match frame::read(bytes, pixels) {
        Ok(extent) => (extent, frame::write(bytes, pixels, width, underflow, held)),
        Err(refusal) => (Extent::default(), Err(refusal)),
    }
}

struct Held {
    pixels: Vec<u32>,
    width: u32,
    underflow: u32,
}

/// What the buffer holds, or 19.
fn take_up(held: &[u8]) -> Result<Held, u32> {
    let header = frame::read_header(held).map_err(|_| 19u32)?;
    let underflow = match header.underflows {
        None => 0,
        Some(_) if header.underflow_width == 0 => return Err(19),
        Some(_) => header.underflow_width as u32,
    };
    let size = header.width * header.rows * header.columns;
    if size > held.len() as u64 {
        return Err(19);
    }
    let mut pixels = vec![0; header.pixels()];
    frame::read(held, &mut pixels).map_err(|_| 19u32)?;
    let width = header.width as u32;
    let mut again = vec![0; held.len()];
    let written = frame::write(held, &pixels, width, underflow, &mut again);
    if written.is_err() || again != held {
        return Err(19);
    }
    Ok(Held {
        pixels,
        width,
        underflow,
    })
}

impl Held {
    /// The place of a correction's pixel, which has the count that it was given: 24, 23.
    fn corrected(&self, pixel: u32, new: u32) -> Result<usize, u32> {
        match self.pixels.get(pixel as usize) {
            None => Err(24),
            Some(count) if *count != new => Err(23),
            Some(_) => Ok(pixel as usize),
        }
    }
}

/// Writes the frame with one pixel changed and appends the entries: 21, 17, 18.
fn change(
    (buffer, ledger): (&mut [u8], &mut [u8]),
    lines: u64,
    mut held: Held,
    (pixel, count): (usize, u32),
    entries: &[Entry],
) -> Result<(), u32> {
    if ledger::free(ledger, lines) < entries.len() as u64 {
        return Err(21);
    }
    held.pixels[pixel] = count;
    let header = buffer.to_vec();
    frame::write(&header, &held.pixels, held.width, held.underflow, buffer)
        .map_err(|refusal| refusal.number)?;
    for (line, entry) in (lines..).zip(entries) {
        ledger::append(ledger, line, *entry);
    }
    Ok(())
}

pub fn correct(
    buffer: &mut [u8],
    ledger: &mut [u8],
    lines: u64,
    pixel: u64,
    count: u32,
) -> Result<(), u32> {
    let held = take_up(buffer)?;
    ledger::entries(ledger, lines)?;
    if pixel >= held.pixels.len() as u64 {
        return Err(24);
    }
    let place = pixel as usize;
    let entry = Entry::Correction {
        pixel: pixel as u32,
        old: held.pixels[place],
        new: count,
    };
    change((buffer, ledger), lines, held, (place, count), &[entry])
}

pub fn withdraw(buffer: &mut [u8], ledger: &mut [u8], lines: u64) -> Result<(), u32> {
    let held = take_up(buffer)?;
    let entries = ledger::entries(ledger, lines)?;
    match ledger::last_standing(&entries) {
        None => Err(22),
        Some(Entry::Correction { pixel, old, new }) => {
            let place = held.corrected(pixel, new)?;
            let entry = Entry::Withdrawal;
            change((buffer, ledger), lines, held, (place, old), &[entry])
        }
        Some(_) if ledger::free(ledger, lines) == 0 => Err(21),
        Some(_) => {
            ledger::append(ledger, lines, Entry::Withdrawal);
            Ok(())
        }
    }
}

/// The two lines at once. The frame with the old count is never written, so nothing can be wrong with it.
pub fn amend(buffer: &mut [u8], ledger: &mut [u8], lines: u64, count: u32) -> Result<(), u32> {
    let held = take_up(buffer)?;
    let entries = ledger::entries(ledger, lines)?;
    let last = ledger::last_standing(&entries).ok_or(22u32)?;
    let Entry::Correction { pixel, old, new } = last else {
        return Err(31);
    };
    let place = held.corrected(pixel, new)?;
    let new = count;
    let entries = [Entry::Withdrawal, Entry::Correction { pixel, old, new }];
    change((buffer, ledger), lines, held, (place, count), &entries)
}
