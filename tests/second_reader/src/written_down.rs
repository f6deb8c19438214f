//! Trials whose answers are written down in a file: a line for each, as the library and the second reader answer.
use crate::case::Case;
use crate::compare::{self, Outcome};
use crate::fault::Fault;

/// What became of the array: the image's places and those behind them.
pub fn array_words(before: &[u32], after: &[u32], pixels: usize) -> String {
    if before == after {
        return "array untouched".to_string();
    }
    let (image, rest) = after.split_at(pixels);
    let kept = match rest == &before[pixels..] {
        true => "rest untouched",
        false => "rest touched",
    };
    if image.iter().all(|pixel| *pixel == 0) {
        return format!("zeros, {kept}");
    }
    let sum: u64 = image.iter().map(|pixel| u64::from(*pixel)).sum();
    let address = 1..;
    let weighted = image
        .iter()
        .zip(address)
        .map(|(pixel, a): (_, u128)| a * u128::from(*pixel));
    let weighted: u128 = weighted.sum();
    let (first, last) = (image[0], image[pixels - 1]);
    format!("first {first}, last {last}, sum {sum}, weighted {weighted}, {kept}")
}

/// The library's outcome, and a note where the second reader's is another.
pub fn both(case: &Case) -> (Outcome, &'static str) {
    let library = compare::by_library(Fault::None, case);
    let same = library == compare::by_second_reader(case);
    let note = if same { "" } else { ", second reader differs" };
    (library, note)
}

/// Prints a line for each trial. False where one is not as written down.
pub fn run(kind: &str, written: &str, lines: impl Iterator<Item = String>) -> bool {
    let mut expected = written.lines().filter(|line| !line.starts_with('#'));
    let mut different = 0;
    let mut count = 0;
    for line in lines {
        let wanted = expected.next().unwrap_or("nothing");
        println!("{line}");
        if line != wanted {
            println!("  written down: {wanted}");
            different += 1;
        }
        count += 1;
    }
    let left = expected.count();
    println!(
        "{kind} trials: {count}, not as written down: {different}, written down and not run: {left}"
    );
    different == 0 && left == 0
}
