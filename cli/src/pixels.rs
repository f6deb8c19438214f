//! Counts in files: .npy, raw 32-bit numbers, 16-bit PGM; and the counts that a picture shows black and white.
use crate::failure::{Failure, Outcome};
use image::codecs::pnm;
use image::{ColorType, ImageError};
use std::io::Error;
use std::path::Path;

/// Counts row by row.
pub struct Counts {
    pub rows: u32,
    pub columns: u32,
    pub pixels: Vec<u32>,
}

/// Counts from a file. A raw file does not say how many rows it has.
pub struct Given {
    pub shape: Option<(u64, u64)>,
    pub pixels: Vec<u32>,
}

const NPY_MARK: &[u8; 6] = b"\x93NUMPY";

pub fn raw(pixels: &[u32]) -> Vec<u8> {
    pixels.iter().flat_map(|count| count.to_le_bytes()).collect()
}

pub fn npy(counts: &Counts) -> Vec<u8> {
    let said = format!("{{'descr': '<u4', 'fortran_order': False, 'shape': ({}, {}), }}", counts.rows, counts.columns);
    let start = NPY_MARK.len() + 4;
    let length = (start + said.len() + 1).next_multiple_of(64) - start;
    let mut bytes = NPY_MARK.to_vec();
    bytes.extend([1, 0]);
    bytes.extend((length as u16).to_le_bytes());
    bytes.extend(format!("{said:<width$}\n", width = length - 1).bytes());
    bytes.extend(raw(&counts.pixels));
    bytes
}

/// The counts above 65535 must be none, or are clipped.
pub fn pgm(file: &Path, counts: &Counts, clip: bool) -> Outcome<Vec<u8>> {
    let above = counts.pixels.iter().filter(|&&count| count > 65535).count();
    if above > 0 && !clip {
        let why = format!(
            "{above} counts are above 65535, the most that a PGM holds. Write an .npy or a .raw, or give --clip"
        );
        return Err(Failure::declined(file, why));
    }
    let samples: Vec<u16> = counts.pixels.iter().map(|&count| count.min(65535) as u16).collect();
    let (width, height) = (counts.columns, counts.rows);
    let header = pnm::GraymapHeader { encoding: pnm::SampleEncoding::Binary, width, height, maxwhite: 65535 };
    let mut bytes = Vec::new();
    pnm::PnmEncoder::new(&mut bytes)
        .with_header(header.into())
        .encode(samples.as_slice(), width, height, ColorType::L16)
        .map_err(encoder(file))?;
    Ok(bytes)
}

/// The counts shown black and white: those given, else those that leave out half a percent of the pixels each.
pub fn limits(pixels: &[u32], min: Option<u32>, max: Option<u32>) -> (u32, u32) {
    let mut sorted = pixels.to_vec();
    let mut quantile = |part: usize| {
        let place = (pixels.len() - 1) * part / 1000;
        *sorted.select_nth_unstable(place).1
    };
    let low = min.unwrap_or_else(|| quantile(5).min(max.unwrap_or(u32::MAX)));
    let high = max.unwrap_or_else(|| quantile(995).max(low));
    if low < high || max.is_some() {
        return (low, high);
    }
    (low, quantile(1000).max(low))
}

pub fn encoder(file: &Path) -> impl FnOnce(ImageError) -> Failure + '_ {
    |error| Failure::machine(file, "encode")(Error::other(error))
}

/// Counts from the bytes of a .raw file.
pub fn from_raw(file: &Path, bytes: &[u8]) -> Outcome<Given> {
    if !bytes.len().is_multiple_of(4) {
        let why = format!("has {} bytes, and a raw file is counts of 4 bytes each", bytes.len());
        return Err(Failure::declined(file, why));
    }
    let pixels = bytes.chunks_exact(4).map(|b| u32::from_le_bytes([b[0], b[1], b[2], b[3]])).collect();
    Ok(Given { shape: None, pixels })
}

/// Counts from the bytes of an .npy file.
pub fn from_npy(file: &Path, bytes: &[u8]) -> Outcome<Given> {
    let bad = |why: &str| Failure::declined(file, why);
    let (said, data) = split_npy(bytes).ok_or_else(|| bad("is no .npy file: its first bytes are wrong or missing"))?;
    let descr = said_in(said, "'descr':", "'", "'").ok_or_else(|| bad("does not say its kind of number"))?;
    let number = Number::parse(descr)
        .ok_or_else(|| bad("holds other things than whole numbers. Save it with astype('uint32')"))?;
    if said_in(said, "'fortran_order':", "", ",") != Some("False") {
        return Err(bad("is stored column by column. Save it with numpy.ascontiguousarray"));
    }
    let shape = said_in(said, "'shape':", "(", ")").and_then(parse_shape);
    let (rows, columns) = shape.ok_or_else(|| bad("is not an array of rows and columns"))?;
    if rows.checked_mul(columns).and_then(|n| n.checked_mul(number.size as u64)) != Some(data.len() as u64) {
        return Err(bad("does not have as many bytes as its shape says"));
    }
    let pixels: Option<Vec<u32>> = data.chunks_exact(number.size).map(|b| number.read(b)).collect();
    let pixels = pixels.ok_or_else(|| bad("has counts below 0 or above 4294967295"))?;
    Ok(Given { shape: Some((rows, columns)), pixels })
}

/// The text and the data of an .npy file.
fn split_npy(bytes: &[u8]) -> Option<(&str, &[u8])> {
    let rest = bytes.strip_prefix(NPY_MARK)?;
    let (version, rest) = rest.split_at_checked(2)?;
    let (length, rest) = rest.split_at_checked(if version[0] == 1 { 2 } else { 4 })?;
    let length = length.iter().rev().fold(0, |sum, &byte| sum * 256 + usize::from(byte));
    let (said, data) = rest.split_at_checked(length)?;
    Some((std::str::from_utf8(said).ok()?, data))
}

/// What stands behind a key, between an opening and a closing text.
fn said_in<'a>(said: &'a str, key: &str, open: &str, close: &str) -> Option<&'a str> {
    let behind = said[said.find(key)? + key.len()..].trim_start().strip_prefix(open)?;
    Some(behind[..behind.find(close)?].trim())
}

fn parse_shape(said: &str) -> Option<(u64, u64)> {
    let (rows, columns) = said.split_once(',')?;
    Some((rows.trim().parse().ok()?, columns.trim().parse().ok()?))
}

/// A kind of whole number, as numpy names it: `<u4`, `>i8`, `|u1`.
struct Number {
    big_end_first: bool,
    signed: bool,
    size: usize,
}

impl Number {
    fn parse(descr: &str) -> Option<Number> {
        let (order, kind) = descr.split_at_checked(1)?;
        let (kind, size) = kind.split_at_checked(1)?;
        let size = size.parse().ok().filter(|size| [1, 2, 4, 8].contains(size))?;
        (["u", "i"].contains(&kind)).then_some(Number { big_end_first: order == ">", signed: kind == "i", size })
    }

    fn read(&self, bytes: &[u8]) -> Option<u32> {
        let join = |sum: u64, &byte: &u8| sum * 256 + u64::from(byte);
        let value = if self.big_end_first { bytes.iter().fold(0, join) } else { bytes.iter().rev().fold(0, join) };
        let negative = self.signed && value >> (8 * self.size - 1) == 1;
        u32::try_from(value).ok().filter(|_| !negative)
    }
}
