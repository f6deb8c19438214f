//! The small picture of a holding, and how many holdings get one.
use super::row::Row;
use crate::failure::Outcome;
use crate::options::Colours;
use crate::picture::{palette, Picture, Shading};
use crate::pixels::{limits, Counts};
use serde_json::{json, Value};
use std::path::Path;
use std::sync::atomic::{AtomicU32, Ordering::Relaxed};

/// The longest side in pixels.
const SIDE: u32 = 128;

/// A frame made small: each pixel is the greatest count of a square with this side.
pub struct Small {
    png: Vec<u8>,
    step: u32,
    black: u32,
    white: u32,
}

impl Small {
    pub fn new(file: &Path, counts: &Counts) -> Outcome<Small> {
        let step = counts.rows.max(counts.columns).div_ceil(SIDE).max(1);
        let small = reduced(counts, step);
        let (black, white) = limits(&small.pixels, None, None);
        let shading = Shading::new((black, white), true);
        let picture = Picture::new(file, &small, &shading, &palette(Colours::Grey), 1)?;
        Ok(Small { png: picture.png(file, Colours::Grey)?, step, black, white })
    }

    pub fn value(&self) -> Value {
        json!({"png": base64::encode(&self.png), "step": self.step, "black": self.black, "white": self.white})
    }
}

/// The greatest count of each square, so that no spot is lost.
fn reduced(counts: &Counts, step: u32) -> Counts {
    let (across, side) = (counts.columns as usize, step as usize);
    let band = |lines: &[u32]| -> Vec<u32> {
        let greatest = |start: usize| {
            let squares = lines.chunks(across).flat_map(|line| &line[start..across.min(start + side)]);
            squares.copied().max().unwrap_or_default()
        };
        (0..across).step_by(side).map(greatest).collect()
    };
    let pixels = counts.pixels.chunks(across * side).flat_map(band).collect();
    Counts { rows: counts.rows.div_ceil(step), columns: counts.columns.div_ceil(step), pixels }
}

/// How many more holdings get a picture.
pub struct Pictures {
    corrected: AtomicU32,
    others: AtomicU32,
}

impl Pictures {
    pub fn at_most(number: u32) -> Pictures {
        Pictures { corrected: number.into(), others: number.into() }
    }

    fn left(&self, corrections: u64) -> &AtomicU32 {
        if corrections > 0 {
            &self.corrected
        } else {
            &self.others
        }
    }

    /// May a holding with so many corrections get one still? Rows are made ahead of those that were granted theirs.
    pub fn may_be_wanted(&self, corrections: u64) -> bool {
        self.left(corrections).load(Relaxed) > 0
    }

    /// In the order of the rows: a picture stays where there is one left for it.
    pub fn grant(&self, mut row: Row) -> Row {
        let left = self.left(row.corrections());
        if row.picture.is_some() {
            let granted = left.fetch_update(Relaxed, Relaxed, |number| number.checked_sub(1));
            row.picture = row.picture.filter(|_| granted.is_ok());
        }
        row
    }
}

#[cfg(test)]
mod tests {
    use super::*;

    #[test]
    fn squares_that_are_cut_off_at_the_edges_count_too() {
        let counts = Counts { rows: 3, columns: 5, pixels: (0..15).collect() };
        let small = reduced(&counts, 2);
        assert_eq!((small.rows, small.columns, small.pixels), (2, 3, vec![6, 8, 9, 11, 13, 14]));
        assert_eq!(reduced(&counts, 1).pixels, counts.pixels);
    }

    #[test]
    fn the_longest_side_fits() {
        for (rows, columns, step) in [(1, 128, 1), (129, 7, 2), (4096, 4096, 32)] {
            let counts = Counts { rows, columns, pixels: vec![7; (rows * columns) as usize] };
            let small = Small::new(Path::new("a"), &counts).unwrap();
            let png = image::load_from_memory(&small.png).unwrap();
            assert_eq!(small.step, step);
            assert_eq!((png.height(), png.width()), (rows.div_ceil(step), columns.div_ceil(step)));
        }
    }
}
