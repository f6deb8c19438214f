//! Makes DIR/header.bin and DIR/counts.raw, from which `quayrudder write` makes the example frame: a lattice of spots over a
//! background that falls off from the middle, and one hot pixel.
#[path = "../tests/common/header.rs"]
mod header;

use header::Header;
use std::fs;
use std::path::PathBuf;

const ROWS: u32 = 256;
const COLUMNS: u32 = 384;
/// The hot pixel's row and column.
const HOT: (i64, i64) = (100, 250);
/// Steps between spots, along both axes.
const LATTICE: i64 = 24;

fn main() -> std::io::Result<()> {
    let folder = PathBuf::from(std::env::args_os().nth(1).unwrap_or(".".into()));
    let counts: Vec<u8> = (0..ROWS * COLUMNS).flat_map(|pixel| count(pixel).to_le_bytes()).collect();
    fs::write(folder.join("header.bin"), Header::new(ROWS, COLUMNS).bytes())?;
    fs::write(folder.join("counts.raw"), counts)
}

fn count(pixel: u32) -> u32 {
    let (row, column) = (i64::from(pixel / COLUMNS), i64::from(pixel % COLUMNS));
    if (row, column) == HOT {
        return 4_000_000;
    }
    let (y, x) = (row - i64::from(ROWS) / 2, column - i64::from(COLUMNS) / 2);
    let from_middle = y * y + x * x;
    let background = 4 + 2_000_000 / (from_middle + 20_000) + noise(pixel);
    let (dy, dx) = (nearest(y + x / 6), nearest(x - y / 6));
    let spot = strength(from_middle) >> (2 * (dy * dy + dx * dx)).min(40);
    (background + spot) as u32
}

/// The distance to the nearest spot along one axis.
fn nearest(place: i64) -> i64 {
    (place + LATTICE / 2).rem_euclid(LATTICE) - LATTICE / 2
}

fn strength(from_middle: i64) -> i64 {
    600_000_000 / (from_middle * from_middle / 400 + 2_000)
}

/// 0 to 7, the same at every run.
fn noise(pixel: u32) -> i64 {
    i64::from(pixel.wrapping_mul(2_654_435_769) >> 29)
}
