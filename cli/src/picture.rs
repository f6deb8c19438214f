//! Pictures of counts: which shade a count has, the colours of the shades, a part of a frame, and its enlargement.
use crate::failure::{Failure, Outcome};
use crate::options::Colours;
use crate::pixels::{encoder, Counts};
use image::codecs::png::PngEncoder;
use image::{ColorType, ImageEncoder};
use std::borrow::Cow;
use std::ops::Range;
use std::path::Path;

/// As many pixels as a picture has at most. One with twice the sides of the largest frame has half of them.
const MOST: u64 = 1 << 27;

/// Viridis by seventeen of its colours, evenly spaced.
#[rustfmt::skip]
const VIRIDIS: [[u8; 3]; 17] = [
    [68, 1, 84], [72, 24, 106], [71, 45, 123], [66, 64, 134], [59, 82, 139], [51, 99, 141], [44, 114, 142], [38, 129, 142],
    [33, 144, 140], [31, 159, 136], [40, 174, 128], [62, 188, 116], [93, 201, 99], [130, 211, 76], [171, 220, 50],
    [213, 226, 26], [253, 231, 37],
];
const HEAT: [[u8; 3]; 4] = [[0, 0, 0], [255, 0, 0], [255, 255, 0], [255, 255, 255]];
const GREY: [[u8; 3]; 2] = [[0, 0, 0], [255, 255, 255]];

/// A colour for each shade.
pub type Palette = [[u8; 3]; 256];

pub fn palette(colours: Colours) -> Palette {
    let stops: &[[u8; 3]] = match colours {
        Colours::Grey => &GREY,
        Colours::Heat => &HEAT,
        Colours::Viridis => &VIRIDIS,
    };
    std::array::from_fn(|shade| between(stops, shade))
}

/// The colour of a shade, between the two stops next to it.
fn between(stops: &[[u8; 3]], shade: usize) -> [u8; 3] {
    let steps = stops.len() - 1;
    let place = (shade * steps / 255).min(steps - 1);
    let part = shade * steps - 255 * place;
    let mix = |one: u8, other: u8| ((usize::from(one) * (255 - part) + usize::from(other) * part + 127) / 255) as u8;
    std::array::from_fn(|channel| mix(stops[place][channel], stops[place + 1][channel]))
}

/// Which shade a count has: black at `low` and below, white at `high` and above.
pub struct Shading {
    pub low: u32,
    pub high: u32,
    log: bool,
}

impl Shading {
    pub fn new((low, high): (u32, u32), log: bool) -> Shading {
        Shading { low, high, log }
    }

    /// How far a count is on the way from black to white, 0 to 1.
    pub fn part(&self, count: u32) -> f64 {
        let above = |count: u32| f64::from(count.clamp(self.low, self.high) - self.low);
        let scale = |value: f64| if self.log { value.ln_1p() } else { value };
        scale(above(count)) / scale(above(self.high)).max(f64::MIN_POSITIVE)
    }

    pub fn shade(&self, count: u32) -> u8 {
        (self.part(count) * 255.0).round() as u8
    }

    /// The count that is so far on the way.
    pub fn count_at(&self, part: f64) -> u32 {
        let whole = f64::from(self.high - self.low);
        let above = if self.log { (part * whole.ln_1p()).exp_m1() } else { part * whole };
        self.low + above.round().min(whole) as u32
    }
}

/// The rows or columns asked for, of as many as there are.
pub fn within(file: &Path, what: &str, asked: Option<&Range<u32>>, there: u32) -> Outcome<Range<u32>> {
    match asked {
        None => Ok(0..there),
        Some(range) if range.end <= there => Ok(range.clone()),
        Some(Range { start, end }) => {
            let why = format!("has {there} {what}, numbered from 0, and --{what} asks for {start}..{end}");
            Err(Failure::declined(file, why))
        }
    }
}

/// The counts of a part of a frame, which lies within it.
pub fn part_of(counts: Counts, rows: &Range<u32>, columns: &Range<u32>) -> Counts {
    if (rows.len(), columns.len()) == (counts.rows as usize, counts.columns as usize) {
        return counts;
    }
    let across = columns.start as usize..columns.end as usize;
    let lines = counts.pixels.chunks_exact(counts.columns as usize);
    let lines = lines.skip(rows.start as usize).take(rows.len());
    let pixels = lines.flat_map(|line| &line[across.clone()]).copied().collect();
    Counts { rows: rows.len() as u32, columns: columns.len() as u32, pixels }
}

/// Pixels row by row, each with its three channels.
pub struct Picture {
    pub width: usize,
    pub height: usize,
    pub pixels: Vec<[u8; 3]>,
}

impl Picture {
    /// Each count as a square of pixels.
    pub fn new(file: &Path, counts: &Counts, shading: &Shading, palette: &Palette, zoom: u32) -> Outcome<Picture> {
        let (width, height) = (u64::from(counts.columns * zoom), u64::from(counts.rows * zoom));
        if width * height > MOST {
            let why = format!(
                "would have {width} x {height} pixels, and a picture has at most {MOST}. Give --rows and --columns, or a smaller --zoom"
            );
            return Err(Failure::declined(file, why));
        }
        let (width, height, zoom) = (width as usize, height as usize, zoom as usize);
        let mut pixels = Vec::with_capacity(width * height);
        for line in counts.pixels.chunks_exact(counts.columns as usize) {
            let start = pixels.len();
            let colours = line.iter().map(|&count| palette[usize::from(shading.shade(count))]);
            pixels.extend(colours.flat_map(|colour| std::iter::repeat_n(colour, zoom)));
            (1..zoom).for_each(|_| pixels.extend_from_within(start..start + width));
        }
        Ok(Picture { width, height, pixels })
    }

    /// The picture as a PNG: one channel where all three are the same in every shade.
    pub fn png(&self, file: &Path, colours: Colours) -> Outcome<Vec<u8>> {
        let (samples, kind) = match colours {
            Colours::Grey => (Cow::Owned(self.pixels.iter().map(|pixel| pixel[0]).collect()), ColorType::L8),
            _ => (Cow::Borrowed(self.pixels.as_flattened()), ColorType::Rgb8),
        };
        let mut bytes = Vec::new();
        PngEncoder::new(&mut bytes)
            .write_image(&samples, self.width as u32, self.height as u32, kind)
            .map_err(encoder(file))?;
        Ok(bytes)
    }
}
