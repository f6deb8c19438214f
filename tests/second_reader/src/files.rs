//! Frames and pixels in files, for comparison with outside programs. Both sides are asked and the library's answer is kept.
use crate::case::{Call, Case};
use crate::compare::{self, Outcome};
use crate::fault::Fault;
use crate::{dtrek, frame};
use std::io;

/// Both outcomes, printed: the numbers of each answer, and whether all that was lent is the same.
fn both(case: &Case) -> (Outcome, bool) {
    let left = compare::by_library(Fault::None, case);
    let right = compare::by_second_reader(case);
    println!("library {}", left.words());
    println!("second {}", right.words());
    let same = left == right;
    println!("{}", if same { "same" } else { "different" });
    if !same {
        print!("{}", compare::describe(Fault::None, case));
    }
    (left, same)
}

fn pixel_count(call: Call, bytes: &[u8]) -> usize {
    match call {
        Call::DtrekRead => dtrek::read_header(bytes).map_or(0, |header| header.pixels()),
        _ => frame::read_header(bytes).map_or(0, |header| header.pixels()),
    }
}

/// Reads a frame or a d*TREK image by this call; its pixels go to `out`, least significant byte first.
pub fn expand(call: Call, file: &str, out: &str) -> io::Result<bool> {
    let mut case = Case::of(call);
    case.frame = std::fs::read(file)?.into();
    case.pixels = vec![0; pixel_count(call, &case.frame)];
    let (outcome, same) = both(&case);
    let pixels = outcome.after.pixels.iter();
    let bytes: Vec<u8> = pixels.flat_map(|pixel| pixel.to_le_bytes()).collect();
    std::fs::write(out, bytes)?;
    Ok(same)
}

/// Writes the pixels of a file in a form; the frame goes to `out`.
pub fn store(header: &str, pixels: &str, form: (u32, u32), out: &str) -> io::Result<bool> {
    let mut case = Case::of(Call::Write);
    case.frame = std::fs::read(header)?.into();
    let word = |bytes: &[u8]| u32::from_le_bytes([bytes[0], bytes[1], bytes[2], bytes[3]]);
    case.pixels = std::fs::read(pixels)?.chunks_exact(4).map(word).collect();
    case.form = form;
    case.buffer = vec![7; case.frame.len() + 12 * case.pixels.len() + 64];
    let (outcome, same) = both(&case);
    let length = outcome.answer()[3] as usize;
    std::fs::write(out, &outcome.after.buffer[..length])?;
    Ok(same)
}
