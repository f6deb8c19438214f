//! Valid frames, ledgers and dates, with values near the thresholds.
use crate::frame::{self, BLOCK, LINE, NAME};
use crate::ledger::{Date, Entry};
use crate::random::Random;

pub const WANTED: [(usize, &[u8; NAME]); 9] = [
    (0, b"FORMAT :"),
    (1, b"VERSION:"),
    (2, b"HDRBLKS:"),
    (20, b"NOVERFL:"),
    (39, b"NPIXELB:"),
    (40, b"NROWS  :"),
    (41, b"NCOLS  :"),
    (58, b"LINEAR :"),
    (79, b"NEXP   :"),
];

#[derive(Clone)]
pub struct Layout {
    pub format: u32,
    pub blocks: usize,
    pub rows: usize,
    pub columns: usize,
    pub width: u32,
    pub underflow: u32,
    pub baseline: u32,
    pub counts: Vec<i64>,
}

impl Layout {
    /// A row of so many pixels below a header of 15 blocks.
    pub fn one_row(columns: usize, (width, underflow): (u32, u32), baseline: u32) -> Layout {
        Layout {
            format: 100,
            blocks: 15,
            rows: 1,
            columns,
            width,
            underflow,
            baseline,
            counts: vec![if underflow == 0 { -1 } else { 0 }, 0, 0],
        }
    }

    pub fn pixels(&self) -> usize {
        self.rows * self.columns
    }
}

/// Pixel counts about powers of two, where a block of pixels may end.
const EDGES: [usize; 24] = [
    31, 32, 33, 63, 64, 65, 127, 128, 129, 255, 256, 257, 511, 512, 513, 514, 575, 1023, 1024,
    1025, 1026, 1537, 2047, 2048,
];

/// How large a frame is.
#[derive(Clone, Copy, Debug, PartialEq, Eq, PartialOrd, Ord)]
pub enum Size {
    Small,
    Line,
    Middle,
    Large,
    Full,
}

pub const SIZES: [(Size, &str); 5] = [
    (Size::Small, "frames to 24 x 24"),
    (Size::Line, "frames of one row or column, to 2048"),
    (Size::Middle, "frames to 512 x 512"),
    (
        Size::Large,
        "frames to 4096 x 4096 (FORMAT 86: 2048 x 2048)",
    ),
    (Size::Full, "frames of just that size"),
];

impl Size {
    /// Small mostly, and not large.
    pub fn usual(random: &mut Random) -> Size {
        match random.below(600) {
            0 => Size::Middle,
            1..=60 => Size::Line,
            _ => Size::Small,
        }
    }

    pub fn is_large(self) -> bool {
        self >= Size::Large
    }
}

/// Rows and columns.
fn shape(random: &mut Random, format: u32, size: Size) -> (usize, usize) {
    let side = if format == 86 { 2048 } else { 4096 };
    let bound = match size {
        Size::Small => random.pick(&[1, 2, 4, 8, 8, 24]),
        Size::Middle => 512,
        _ => side,
    };
    match size {
        Size::Line if random.once_in(3) => (random.pick(&EDGES), 1),
        Size::Line => (1, random.pick(&EDGES)),
        Size::Full => (side, side),
        _ => (1 + random.index(bound), 1 + random.index(bound)),
    }
}

pub fn layout(random: &mut Random, format: u32, size: Size) -> Layout {
    let (rows, columns) = shape(random, format, size);
    let blocks = match format {
        86 => random.pick(&[10, 15, 20, 60]),
        _ => random.pick(&[13, 13, 14, 15, 16, 64]),
    };
    let underflow = random.pick(&[0, 1, 2]);
    let short = format == 100 && underflow == 0 && random.once_in(2);
    Layout {
        format,
        blocks: if short {
            random.pick(&[10, 11, 12])
        } else {
            blocks
        },
        rows,
        columns,
        width: random.pick(&[1, 1, 2, 4]),
        underflow,
        baseline: random.pick(&[0, 1, 32, 64, 254, 255, 256, 300, 65534, 65535]),
        counts: vec![if underflow == 0 { -1 } else { 0 }, 0, 0],
    }
}

fn numeral(random: &mut Random, value: i64) -> String {
    let width = if random.once_in(4) {
        random.index(11)
    } else {
        0
    };
    if value < 0 {
        return value.to_string();
    }
    format!("{value:0width$}")
}

/// Fields with spaces before and between them, anywhere in the line, and perhaps something after the last.
pub fn spaced(random: &mut Random, fields: &[String]) -> Vec<u8> {
    let data = LINE - NAME;
    let used: usize = fields.iter().map(|field| field.len() + 1).sum();
    let mut slack = (data + 1).saturating_sub(used);
    let most = if random.once_in(2) { 4 } else { slack + 1 };
    let mut text = String::new();
    for (index, field) in fields.iter().enumerate() {
        let gap = random.index(most.min(slack + 1));
        slack -= gap;
        text.push_str(&" ".repeat(gap + usize::from(index > 0)));
        text.push_str(field);
    }
    if random.once_in(4) {
        text.push_str(" x -7\t.");
    }
    let mut text = text.into_bytes();
    text.resize(data, b' ');
    text
}

fn line_fields(random: &mut Random, line: usize, layout: &Layout) -> Vec<String> {
    let number = |value: usize| value as i64;
    let values = match line {
        0 => vec![i64::from(layout.format)],
        2 => vec![number(layout.blocks)],
        20 if layout.format == 86 => layout.counts[..1].to_vec(),
        20 => layout.counts.clone(),
        39 => vec![layout.width.into(), layout.underflow.into()],
        40 => vec![number(layout.rows)],
        41 => vec![number(layout.columns)],
        _ => Vec::new(),
    };
    let texts = |texts: &[&str]| texts.iter().map(|text| text.to_string()).collect();
    match line {
        1 => texts(&[random.pick(&["1", "17", "07", "8+", "11++", "5", "16"])]),
        58 => texts(&[
            random.pick(&["1", "1.0", "001.000", "1.00000000000000"]),
            random.pick(&["0", "0.0", "000", "00.000000"]),
        ]),
        79 => {
            let baseline = numeral(random, layout.baseline.into());
            let first = random.pick(&["1", "x", "-3", "0.5"]);
            vec![first.to_string(), "2".to_string(), baseline]
        }
        _ => values.iter().map(|v| numeral(random, *v)).collect(),
    }
}

pub fn header(random: &mut Random, layout: &Layout) -> Vec<u8> {
    let mut header = vec![random.pick(&[b' ', b' ', b'.', 0]); layout.blocks * BLOCK];
    for (line, name) in WANTED {
        let from = line * LINE;
        if from + LINE > header.len() || (line == 79 && layout.underflow == 0 && random.once_in(3))
        {
            continue;
        }
        let fields = line_fields(random, line, layout);
        header[from..from + NAME].copy_from_slice(name);
        header[from + NAME..from + LINE].copy_from_slice(&spaced(random, &fields));
    }
    header
}

/// A pixel's count.
pub fn count(random: &mut Random, baseline: u32) -> u32 {
    let near = random.pick(&[0u32, 1, 2, 254, 255, 256, 65534, 65535, 65536]);
    match random.below(16) {
        0 | 1 => near,
        2 | 3 => near.saturating_add(baseline),
        4 => baseline.saturating_sub(near),
        5 => u32::MAX - random.pick(&[0, 1, baseline]),
        6 => random.next() as u32,
        7 => random.below(70000) as u32,
        _ => baseline.saturating_add(1 + random.below(200) as u32),
    }
}

/// Counts of which none, some or all may need an entry: the library goes through pixels with few entries another way than through those with many.
pub fn counts(random: &mut Random, length: usize, baseline: u32) -> Vec<u32> {
    let plain = random.once_in(4);
    let seldom = random.pick(&[1, 1, 40, 200]);
    let one = |random: &mut Random| match !plain && random.once_in(seldom) {
        true => count(random, baseline),
        false => baseline.saturating_add(1 + random.below(253) as u32),
    };
    (0..length).map(|_| one(random)).collect()
}

/// The frame that the writer gives for these pixels, or for others where it refuses them.
pub fn written(random: &mut Random, layout: &Layout) -> Vec<u8> {
    let header = header(random, layout);
    let mut pixels = counts(random, layout.pixels(), layout.baseline);
    let mut out = vec![0; header.len() + 11 * pixels.len() + 64];
    let (width, underflow) = (layout.width, layout.underflow);
    if frame::write(&header, &pixels, width, underflow, &mut out).is_err() {
        pixels.fill(random.pick(&[0, 1, layout.baseline + 1, layout.baseline + 70000]));
    }
    match frame::write(&header, &pixels, width, underflow, &mut out) {
        Ok(length) => out.truncate(length as usize),
        Err(refusal) => panic!("{refusal:?} for a form at hand"),
    }
    out
}

fn table(values: &[u32], width: u32) -> Vec<u8> {
    let cut = |value: &u32| value.to_le_bytes()[..width as usize].to_vec();
    let mut bytes: Vec<u8> = values.iter().flat_map(cut).collect();
    bytes.resize(bytes.len().div_ceil(16) * 16, 0);
    bytes
}

fn stored(random: &mut Random, width: u32) -> u32 {
    let value = match random.below(4) {
        0 => random.pick(&[0, 255, 65535, 254, 65534]),
        1 => random.next() as u32,
        _ => 1 + random.below(250) as u32,
    };
    match width {
        1 => value & 0xFF,
        2 => value & 0xFFFF,
        _ if random.once_in(200) => value,
        _ => value & 0xFF_FFFF,
    }
}

/// A FORMAT 100 frame whose tables fit the image but need not be the writer's.
pub fn loose(random: &mut Random, layout: &Layout) -> Vec<u8> {
    let mut layout = layout.clone();
    let (mut image, mut tables) = (Vec::new(), [Vec::new(), Vec::new(), Vec::new()]);
    let steep = random.once_in(10);
    let seldom = random.pick(&[1, 1, 40, 200]);
    for _ in 0..layout.pixels() {
        let mut value = match random.once_in(seldom) {
            true => stored(random, layout.width),
            false => 1 + random.below(250) as u32,
        };
        image.extend_from_slice(&value.to_le_bytes()[..layout.width as usize]);
        if layout.width == 1 && value == 255 {
            value = random.pick(&[0, 255, 300, 65534, 65535, 65535]);
            tables[1].push(value);
        }
        if layout.width != 4 && value == 65535 {
            value = random.pick(&[0, 1, 65535, 70000, if steep { u32::MAX } else { 255 }]);
            tables[2].push(value);
        }
        if layout.underflow != 0 && value == 0 {
            tables[0].push(random.next() as u32);
        }
    }
    for (count, table) in layout.counts.iter_mut().zip(&tables) {
        *count += table.len() as i64;
    }
    let mut bytes = header(random, &layout);
    bytes.extend(image);
    for (values, width) in tables.iter().zip([layout.underflow, 2, 4]) {
        bytes.extend(table(values, width));
    }
    bytes
}

/// A loose frame whose counts and widths stand as the writer puts them.
pub fn loose_in_cells(random: &mut Random, layout: &Layout) -> Vec<u8> {
    let mut bytes = loose(random, layout);
    for line in [20, 39] {
        let data = &mut bytes[line * LINE + NAME..(line + 1) * LINE];
        let text = String::from_utf8_lossy(data).into_owned();
        let number = |field: &str| {
            field
                .parse::<i64>()
                .map_or(String::new(), |n| n.to_string())
        };
        let cells = text.split_whitespace().take(if line == 20 { 3 } else { 2 });
        let cells: String = cells
            .map(|field| format!("{:<24}", number(field)))
            .collect();
        data.copy_from_slice(format!("{cells:<72}").as_bytes());
    }
    bytes
}

fn aligned(random: &mut Random, value: usize, width: usize) -> String {
    match random.below(3) {
        0 => format!("{value:0width$}"),
        _ => format!("{value:>width$}"),
    }
}

pub fn format_86(random: &mut Random, layout: &Layout) -> Vec<u8> {
    let mut layout = layout.clone();
    let (mut image, mut entries) = (Vec::new(), Vec::new());
    for pixel in 0..layout.pixels() {
        let value = stored(random, layout.width);
        image.extend_from_slice(&value.to_le_bytes()[..layout.width as usize]);
        if (layout.width == 1 && value == 255) || (layout.width == 2 && value == 65535) {
            let intensity = random.pick(&[0, 255, 70000, 999_999_999]);
            entries.push(aligned(random, intensity, 9) + &aligned(random, pixel, 7));
        }
    }
    random.shuffle(&mut entries);
    layout.counts = vec![entries.len() as i64];
    let mut bytes = header(random, &layout);
    bytes.extend(image);
    bytes.extend(entries.concat().into_bytes());
    let fill = random.pick(&[0, b' ', b'x']);
    bytes.resize(bytes.len() + (512 - entries.len() * 16 % 512) % 512, fill);
    bytes
}

/// A calendar date.
pub fn date(random: &mut Random) -> Date {
    loop {
        let (year, month, day) = any_date(random);
        let date = Date { year, month, day };
        if date.is_calendar() {
            return date;
        }
    }
}

/// Dates that fit a line's fields, most of them of the calendar.
pub fn any_date(random: &mut Random) -> (u32, u32, u32) {
    let year = match random.below(3) {
        0 => random.below(41) as u32 * 100,
        1 => random.below(4096) as u32,
        _ => 2030 + random.below(4) as u32,
    };
    match random.below(4) {
        0 => random.pick(&[(2031, 11, 2), (2031, 11, 3), (4095, 12, 31), (1, 1, 1)]),
        1 => (
            year,
            random.pick(&[2, 2, 3]),
            random.pick(&[28, 29, 30, 31]),
        ),
        2 => (year, random.below(16) as u32, random.pick(&[0, 1, 30, 31])),
        _ => (
            year,
            1 + random.below(12) as u32,
            1 + random.below(28) as u32,
        ),
    }
}

/// Dates as a caller may give them, those of no calendar and of no field among them.
pub fn asked(random: &mut Random) -> (u32, u32, u32) {
    let (year, month, day) = any_date(random);
    match random.below(24) {
        0 => (random.next() as u32, month, day),
        1 => (year + 4096, month, day),
        2 => (year, month + random.pick(&[16, 256, 1 << 31]), day),
        3 => (year, month, day + random.pick(&[32, 256, 1 << 31])),
        _ => (year, month, day),
    }
}

/// A keep line, or a correction that, but for a few, has the pixel's own count as the new one.
fn entry(random: &mut Random, pixels: &[u32], baseline: u32) -> Entry {
    if random.once_in(3) {
        return Entry::Keep(date(random));
    }
    let far = random.once_in(12);
    let place = if far {
        random.below(1 << 24) as usize
    } else {
        random.index(pixels.len())
    };
    let own = pixels.get(place).copied().unwrap_or(0);
    let new = if random.once_in(10) {
        count(random, baseline)
    } else {
        own
    };
    let (pixel, old) = (place as u32, count(random, baseline));
    Entry::Correction { pixel, old, new }
}

/// What stands before a correction that amends another one: that one, of the same pixel, and its withdrawal.
fn amended(random: &mut Random, last: Entry, baseline: u32) -> Vec<Entry> {
    let Entry::Correction { pixel, old, .. } = last else {
        return Vec::new();
    };
    let new = count(random, baseline);
    vec![Entry::Correction { pixel, old, new }, Entry::Withdrawal]
}

/// Lines with more or fewer withdrawals among them, and now and then one for each that stood at the end.
pub fn entries(random: &mut Random, pixels: &[u32], baseline: u32) -> Vec<Entry> {
    let length = match random.once_in(100) {
        true => 300,
        false => random.pick(&[0, 1, 1, 2, 4, 8, 30]),
    };
    let mut lines = Vec::new();
    let mut depth = 0;
    let deep = random.pick(&[2, 2, 3, 3, 6, u64::MAX]);
    for _ in 0..random.index(length + 1) {
        if depth > 0 && random.once_in(deep) {
            depth -= 1;
            lines.push(Entry::Withdrawal);
            continue;
        }
        depth += 1;
        let last = entry(random, pixels, baseline);
        if random.once_in(8) && deep < u64::MAX {
            lines.extend(amended(random, last, baseline));
        }
        lines.push(last);
    }
    if random.once_in(8) {
        lines.resize(lines.len() + depth, Entry::Withdrawal);
    }
    lines
}
