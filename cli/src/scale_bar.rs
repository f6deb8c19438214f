//! The bar below a picture: its shades from black to white, and the counts that they stand for.
use crate::picture::{Palette, Picture, Shading};

const BLACK: [u8; 3] = [0; 3];
const WHITE: [u8; 3] = [255; 3];

/// The digits 0 to 9, seven rows of five dots each, the leftmost dot the highest bit.
#[rustfmt::skip]
const DIGITS: [[u8; 7]; 10] = [
    [0b01110, 0b10001, 0b10011, 0b10101, 0b11001, 0b10001, 0b01110],
    [0b00100, 0b01100, 0b00100, 0b00100, 0b00100, 0b00100, 0b01110],
    [0b01110, 0b10001, 0b00001, 0b00010, 0b00100, 0b01000, 0b11111],
    [0b11111, 0b00010, 0b00100, 0b00010, 0b00001, 0b10001, 0b01110],
    [0b00010, 0b00110, 0b01010, 0b10010, 0b11111, 0b00010, 0b00010],
    [0b11111, 0b10000, 0b11110, 0b00001, 0b00001, 0b10001, 0b01110],
    [0b00110, 0b01000, 0b10000, 0b11110, 0b10001, 0b10001, 0b01110],
    [0b11111, 0b00001, 0b00010, 0b00100, 0b01000, 0b01000, 0b01000],
    [0b01110, 0b10001, 0b10001, 0b01110, 0b10001, 0b10001, 0b01110],
    [0b01110, 0b10001, 0b10001, 0b01111, 0b00001, 0b00010, 0b01100],
];
const DIGIT_WIDTH: usize = 5;
const DIGIT_HEIGHT: usize = 7;

// Lengths in dots: the margin around, the bar's height with its frame, a tick below it, the gap between two counts, and the
// least width.
const MARGIN: usize = 4;
const BAR: usize = 10;
const TICK: usize = 3;
const GAP: usize = 4;
const LEAST: usize = 72;
const HEIGHT: usize = MARGIN + BAR + TICK + 1 + DIGIT_HEIGHT + MARGIN;
/// A picture so wide has dots of one pixel, one twice as wide has dots of two, up to so many.
const PICTURE_PER_DOT: usize = 320;
const LARGEST_DOT: usize = 8;
/// As many counts as there is room for, of these.
const TICKS: [u32; 4] = [9, 5, 3, 2];

/// A count and where it stands, both in pixels from the left.
struct Tick {
    text: String,
    at: usize,
    text_at: usize,
}

struct Bar<'a> {
    shading: &'a Shading,
    dot: usize,
    width: usize,
}

/// The picture with the bar below it. A picture that is narrower than the bar has white beside it.
pub fn below(picture: Picture, shading: &Shading, palette: &Palette) -> Picture {
    let dot = (picture.width / PICTURE_PER_DOT).clamp(1, LARGEST_DOT);
    let ends = text_width(shading.low, dot) + text_width(shading.high, dot) + (GAP + 2 * MARGIN) * dot;
    let (width, top) = (picture.width.max(ends).max(LEAST * dot), picture.height);
    let mut canvas = widened(picture, width);
    canvas.height += HEIGHT * dot;
    canvas.pixels.resize(width * canvas.height, WHITE);
    Bar { shading, dot, width }.draw(&mut canvas, top, palette);
    canvas
}

fn widened(picture: Picture, width: usize) -> Picture {
    if picture.width == width {
        return picture;
    }
    let mut pixels = Vec::with_capacity(width * picture.height);
    for line in picture.pixels.chunks_exact(picture.width) {
        pixels.extend_from_slice(line);
        pixels.resize(pixels.len() + width - picture.width, WHITE);
    }
    Picture { width, height: picture.height, pixels }
}

fn text_width(count: u32, dot: usize) -> usize {
    let digits = count.to_string().len();
    (digits * (DIGIT_WIDTH + 1) - 1) * dot
}

fn fill(canvas: &mut Picture, (x, y): (usize, usize), (width, height): (usize, usize), colour: [u8; 3]) {
    for row in y..y + height {
        let start = row * canvas.width + x;
        canvas.pixels[start..start + width].fill(colour);
    }
}

impl Bar<'_> {
    /// Where the shades start, and over how many pixels they go.
    fn shades(&self) -> (usize, usize) {
        ((MARGIN + 1) * self.dot, self.width - 2 * (MARGIN + 1) * self.dot)
    }

    fn draw(&self, canvas: &mut Picture, top: usize, palette: &Palette) {
        let (dot, (start, length)) = (self.dot, self.shades());
        let bar = top + MARGIN * dot;
        fill(canvas, (start - dot, bar), (length + 2 * dot, BAR * dot), BLACK);
        for place in 0..length {
            let shade = (place * 255 + (length - 1) / 2) / (length - 1);
            fill(canvas, (start + place, bar + dot), (1, (BAR - 2) * dot), palette[shade]);
        }
        let (ticks, texts) = (bar + BAR * dot, bar + (BAR + TICK + 1) * dot);
        for tick in self.ticks() {
            fill(canvas, (tick.at, ticks), (dot, TICK * dot), BLACK);
            self.write(canvas, (tick.text_at, texts), &tick.text);
        }
    }

    /// As many as there is room for.
    fn ticks(&self) -> Vec<Tick> {
        let apart = |pair: &[Tick]| {
            let end = pair[0].text_at + (pair[0].text.len() * (DIGIT_WIDTH + 1) - 1) * self.dot;
            end + GAP * self.dot <= pair[1].text_at
        };
        let tries = TICKS.map(|number| self.spaced(number));
        tries.into_iter().find(|ticks| ticks.windows(2).all(apart)).unwrap_or_default()
    }

    /// So many, evenly spaced, but for counts that would stand twice.
    fn spaced(&self, number: u32) -> Vec<Tick> {
        let parts = (0..number).map(|place| f64::from(place) / f64::from(number - 1));
        let mut counts: Vec<u32> = parts.map(|part| self.shading.count_at(part)).collect();
        counts.dedup();
        counts.into_iter().map(|count| self.tick(count)).collect()
    }

    fn tick(&self, count: u32) -> Tick {
        let (dot, (start, length)) = (self.dot, self.shades());
        let at = start + (self.shading.part(count) * (length - dot) as f64).round() as usize;
        let width = text_width(count, dot);
        let text_at = (at + dot / 2).saturating_sub(width / 2).clamp(dot, self.width - width - dot);
        Tick { text: count.to_string(), at, text_at }
    }

    fn write(&self, canvas: &mut Picture, (x, y): (usize, usize), text: &str) {
        for (place, digit) in text.bytes().enumerate() {
            let rows = DIGITS[usize::from(digit - b'0')].iter().enumerate();
            let dots = rows.flat_map(|(row, bits)| {
                let is_set = |column: &usize| bits >> (DIGIT_WIDTH - 1 - column) & 1 == 1;
                (0..DIGIT_WIDTH).filter(is_set).map(move |column| (column, row)).collect::<Vec<_>>()
            });
            for (column, row) in dots {
                let left = x + (place * (DIGIT_WIDTH + 1) + column) * self.dot;
                fill(canvas, (left, y + row * self.dot), (self.dot, self.dot), BLACK);
            }
        }
    }
}
