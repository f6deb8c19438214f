//! The options of info, expand and view that hold for every file named.
use crate::formats::{self, Format};
use clap::{Args, ValueEnum};
use std::ops::Range;

#[derive(Args)]
pub struct InfoOptions {
    /// Also the lines of the header as they stand: title, date, exposure and so on
    #[arg(long)]
    pub header: bool,
    /// Read no more of a file than its header
    #[arg(long)]
    pub quick: bool,
}

#[derive(Args)]
pub struct ExpandOptions {
    /// The format, where the name does not end in it: npy, raw, pgm, tif, edf or cbf
    #[arg(long = "as", value_name = "FORMAT", value_parser = formats::parse)]
    pub format: Option<&'static Format>,
    /// Write counts above 65535 as 65535 (.pgm)
    #[arg(long)]
    pub clip: bool,
    /// Replace the file where it exists
    #[arg(long)]
    pub force: bool,
}

#[derive(Args)]
pub struct ViewOptions {
    /// The count shown black [default: that of the darkest 0.5 %]
    #[arg(long)]
    pub min: Option<u32>,
    /// The count shown white [default: that of the brightest 0.5 %]
    #[arg(long)]
    pub max: Option<u32>,
    /// A logarithmic scale
    #[arg(long)]
    pub log: bool,
    /// The colours from the lowest count shown to the highest
    #[arg(long, alias = "colors", value_enum, default_value_t = Colours::Grey)]
    pub colours: Colours,
    /// Only these rows, from A up to and without B, counted from 0
    #[arg(long, value_name = "A..B", value_parser = parse_range)]
    pub rows: Option<Range<u32>>,
    /// Only these columns, from C up to and without D, counted from 0
    #[arg(long, value_name = "C..D", value_parser = parse_range)]
    pub columns: Option<Range<u32>>,
    /// Show each pixel as N x N, 1 to 16
    #[arg(long, value_name = "N", default_value_t = 1, value_parser = clap::value_parser!(u32).range(1..=16))]
    pub zoom: u32,
    /// Draw a bar below the picture with the counts that its shades stand for
    #[arg(long)]
    pub scale: bool,
    /// Replace the file where it exists
    #[arg(long)]
    pub force: bool,
}

#[derive(Clone, Copy, Debug, PartialEq, Eq, ValueEnum)]
pub enum Colours {
    /// Black to white
    Grey,
    /// Black, red, yellow, white
    Heat,
    /// Violet, green, yellow, of evenly rising lightness
    Viridis,
}

/// `A..B`, half-open. Whether a frame has such rows or columns is for the frame to say.
pub fn parse_range(text: &str) -> Result<Range<u32>, String> {
    let number = |digits: &str| digits.parse().ok();
    let ends = text.split_once("..").and_then(|(from, to)| number(from).zip(number(to)));
    match ends {
        None => Err("a range is written like 100..200: from 100 up to and without 200, counted from 0".into()),
        Some((from, to)) if from >= to => Err(format!("from {from} up to and without {to} there is none")),
        Some((from, to)) => Ok(from..to),
    }
}
