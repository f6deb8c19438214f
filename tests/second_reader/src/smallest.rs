//! The smallest form. A frame's length in each form comes from how many pixels lie above the counts at which one is stored another way; nothing is written for it.
use crate::frame::{self, refuse, Extent, Header, Refusal, FORMS};

/// A form and the length of the frame in it.
pub type Choice = ((u32, u32), u64);

/// What the frame of some pixels is in one form.
pub struct Weight {
    pub form: (u32, u32),
    /// Entries of the underflow, the two-byte and the four-byte table.
    pub entries: [u64; 3],
    /// Whether its underflow entries have room for their counts.
    pub fits: bool,
    pub length: u64,
}

fn weigh(
    header: &Header,
    pixels: &[u32],
    (width, underflow): (u32, u32),
    baseline: Option<u32>,
) -> Weight {
    let base = u64::from(baseline.unwrap_or(0));
    let from = |least: u64| {
        let above = pixels.iter().filter(|pixel| u64::from(**pixel) >= least);
        above.count() as u64
    };
    let all = pixels.len() as u64;
    let entries = [
        baseline.map_or(0, |_| all - from(base + 1)),
        if width == 1 { from(base + 255) } else { 0 },
        if width < 4 { from(base + 65535) } else { 0 },
    ];
    let mut low = pixels.iter().filter(|pixel| u64::from(**pixel) <= base);
    let [under, two, four] = entries;
    let tables = [u64::from(underflow) * under, 2 * two, 4 * four].map(|l| frame::padded(l, 16));
    Weight {
        form: (width, underflow),
        entries,
        fits: underflow != 1 || low.all(|pixel| *pixel <= 255),
        length: header.length as u64 + u64::from(width) * all + tables.iter().sum::<u64>(),
    }
}

/// The forms that the header has all for, each with its frame of these N pixels.
pub fn weights(header: &Header, bytes: &[u8], pixels: &[u32]) -> Vec<Weight> {
    let weight = |form: &(u32, u32)| {
        let baseline = frame::form_baseline(header, bytes, form.0, form.1).ok()?;
        Some(weigh(header, pixels, *form, baseline))
    };
    FORMS.iter().filter_map(weight).collect()
}

/// The smallest form: refusals 1 to 10, and 16 where there is no form at all.
pub fn smallest(bytes: &[u8], pixels: &[u32]) -> Result<Choice, Refusal> {
    let header = frame::read_header(bytes)?;
    let Some(pixels) = pixels.get(..header.pixels()) else {
        return refuse(10);
    };
    let weights = weights(&header, bytes, pixels);
    let fitting = weights.iter().filter(|weight| weight.fits);
    let least = fitting.min_by_key(|weight| (weight.length, weight.form));
    least.map_or_else(|| refuse(16), |weight| Ok((weight.form, weight.length)))
}

/// The frame read, if it was, and what is held of it in the smallest form.
pub fn open(
    bytes: &[u8],
    pixels: &mut [u32],
    held: &mut [u8],
) -> (Extent, Result<Choice, Refusal>) {
    let extent = match frame::read(bytes, pixels) {
        Ok(extent) => extent,
        Err(refusal) => return (Extent::default(), Err(refusal)),
    };
    let chosen = smallest(bytes, pixels);
    let written = chosen.and_then(|(form, _)| {
        let length = frame::write(bytes, pixels, form.0, form.1, held)?;
        Ok((form, length))
    });
    (extent, written)
}
