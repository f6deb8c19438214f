//! Deliberate faults laid over the library, to see that the comparison finds them.
use crate::dtrek;
use crate::frame::{read_header, FORMS};
use crate::ledger::{self, Entry, BYTES};
use crate::library::{self, Answer};
use crate::mar::Order;

#[derive(Clone, Copy, Debug, PartialEq, Eq)]
pub enum Fault {
    None,
    /// Kind none in width 1 stores 255 as a plain value.
    Threshold,
    /// The writer leaves the bytes after the frame as they were.
    Tail,
    /// A correction judges the pixel number before the ledger.
    Order,
    /// A bad pair of a mar image leaves the pixels as they were.
    Pixels,
    /// Pixels of two bytes, most significant first, of a d*TREK image are read the other way round.
    Swapped,
    /// An amend is refused where its withdrawal alone would make a frame that cannot be written.
    Between,
    /// A compaction leaves the freed bytes as they were.
    Freed,
    /// Of the standing keep lines the one with the latest date is named, and not the last.
    Latest,
    /// Where the line before is a correction of a later pixel, the two-byte entries of both stand in the order of the lines, and not of the pixels.
    Entries,
    /// Of forms with frames of one length the last is named.
    Later,
}

impl Fault {
    pub fn numbered(number: u64) -> Option<Fault> {
        let faults = [
            Fault::None,
            Fault::Threshold,
            Fault::Tail,
            Fault::Order,
            Fault::Pixels,
            Fault::Swapped,
            Fault::Between,
            Fault::Freed,
            Fault::Latest,
            Fault::Entries,
            Fault::Later,
        ];
        faults.get(number as usize).copied()
    }

    pub fn write(self, header: &[u8], pixels: &[u32], form: (u32, u32), out: &mut [u8]) -> Answer {
        let before = out.to_vec();
        let mut given = pixels.to_vec();
        if self == Fault::Threshold && form == (1, 0) {
            for pixel in given.iter_mut().filter(|pixel| **pixel == 255) {
                *pixel = 254;
            }
        }
        let (numbers, respected) = library::write(header, &given, form, out);
        if numbers[0] == 0 && given != pixels {
            mark_plain(header, pixels, out);
        }
        if numbers[0] == 0 && self == Fault::Tail {
            let length = numbers[3] as usize;
            out[length..].copy_from_slice(&before[length..]);
        }
        (numbers, respected)
    }

    pub fn smallest(self, header: &[u8], pixels: &[u32]) -> Answer {
        let (mut numbers, respected) = library::smallest(header, pixels);
        if self == Fault::Later && numbers[0] == 0 {
            let mut out = vec![0; numbers[5] as usize];
            let mut just_fits = |form| library::write(header, pixels, form, &mut out).0[0] == 0;
            let equal = FORMS.into_iter().rfind(|form| just_fits(*form));
            let (width, underflow) = equal.unwrap_or_default();
            (numbers[3], numbers[4]) = (width.into(), underflow.into());
        }
        (numbers, respected)
    }

    pub fn correct(
        self,
        held: &mut [u8],
        ledger: &mut [u8],
        lines: u64,
        pixel: u64,
        count: u32,
    ) -> Answer {
        if self == Fault::Order {
            let (mut frame, mut pages) = (held.to_vec(), ledger.to_vec());
            let (early, respected) = library::correct(&mut frame, &mut pages, 0, pixel, count);
            if early[0] == 24 {
                return (vec![24, lines], respected);
            }
        }
        let answer = library::correct(held, ledger, lines, pixel, count);
        if self == Fault::Entries && answer.0[0] == 0 && lines > 0 {
            exchange_entries(held, ledger, lines as usize, pixel as usize);
        }
        answer
    }

    pub fn amend(self, held: &mut [u8], ledger: &mut [u8], lines: u64, count: u32) -> Answer {
        if self == Fault::Between {
            let (mut frame, mut pages) = (held.to_vec(), ledger.to_vec());
            let (between, respected) = library::withdraw(&mut frame, &mut pages, lines);
            if [17, 18].contains(&between[0]) {
                return (between, respected);
            }
        }
        library::amend(held, ledger, lines, count)
    }

    pub fn compact(self, ledger: &mut [u8], lines: u64) -> Answer {
        let before = ledger.to_vec();
        let (numbers, respected) = library::compact(ledger, lines);
        if self == Fault::Freed && numbers[0] == 0 {
            let left = numbers[1] as usize * BYTES;
            ledger[left..].copy_from_slice(&before[left..]);
        }
        (numbers, respected)
    }

    pub fn why_day(self, ledger: &[u8], lines: u64, day: (u32, u32, u32)) -> Answer {
        let (mut numbers, respected) = library::why_day(ledger, lines, day);
        if self == Fault::Latest && numbers[1] != 0 {
            let entries = ledger::entries(ledger, lines).unwrap_or_default();
            let standing = (0..entries.len()).filter(|place| ledger::stands(&entries, *place));
            let latest = standing.max_by_key(|place| entries[*place].kept());
            numbers[1] = latest.map_or(0, |place| place as u64 + 1);
        }
        (numbers, respected)
    }

    pub fn mar_read(self, file: &[u8], pixels: &mut [u32]) -> Answer {
        if self != Fault::Pixels {
            return library::mar_read(file, pixels);
        }
        let before = pixels.to_vec();
        let answer = library::mar_read(file, pixels);
        if answer.0[0] == 13 {
            pixels.copy_from_slice(&before);
        }
        answer
    }

    pub fn dtrek_read(self, file: &[u8], pixels: &mut [u32]) -> Answer {
        let answer = library::dtrek_read(file, pixels);
        let swapped =
            |header: &dtrek::Header| (header.width, header.order) == (2, Order::BigEndian);
        let header = dtrek::read_header(file).ok().filter(swapped);
        if let Some(header) = header.filter(|_| self == Fault::Swapped && answer.0[0] == 0) {
            let image = &mut pixels[..header.pixels()];
            image
                .iter_mut()
                .for_each(|pixel| *pixel = (*pixel as u16).swap_bytes().into());
        }
        answer
    }
}

/// Exchanges the two-byte entry of the pixel just corrected with that of the line before, if that one corrects a later pixel and both have such entries.
fn exchange_entries(held: &mut [u8], ledger: &[u8], lines: usize, pixel: usize) {
    let before = Entry::parse(&ledger[(lines - 1) * BYTES..lines * BYTES]);
    let Some(Entry::Correction { pixel: later, .. }) = before else {
        return;
    };
    let later = later as usize;
    let Ok(header) = read_header(held) else {
        return;
    };
    let image = &held[header.length..header.length + header.pixels()];
    let is_marked = |place: usize| image.get(place) == Some(&255);
    if header.width != 1 || later <= pixel || !is_marked(pixel) || !is_marked(later) {
        return;
    }
    let underflow = header.underflow_width * header.underflows.unwrap_or(0);
    let table = header.length + header.pixels() + (underflow as usize).div_ceil(16) * 16;
    let entry = |place: usize| {
        let marked = image[..place].iter().filter(|stored| **stored == 255);
        table + 2 * marked.count()
    };
    let (one, other) = (entry(pixel), entry(later));
    held.swap(one, other);
    held.swap(one + 1, other + 1);
}

fn mark_plain(header: &[u8], pixels: &[u32], out: &mut [u8]) {
    let Ok(found) = read_header(header) else {
        return;
    };
    let image = &mut out[found.length..found.length + found.pixels()];
    for (stored, pixel) in image.iter_mut().zip(pixels) {
        if *pixel == 255 {
            *stored = 255;
        }
    }
}
