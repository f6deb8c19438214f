//! Cases for the smallest form: pixels of few sorts, and so many of each that padding, equal lengths and entries of one byte decide.
use crate::case::{Call, Case};
use crate::frame::{self, LINE, NAME};
use crate::generate;
use crate::random::Random;
use crate::sample::{self, Layout, Size};

/// Numbers of pixels at which frames of two widths can have one length, or at which a block of them may end.
const FEW: [usize; 14] = [1, 2, 4, 8, 12, 16, 16, 24, 32, 32, 40, 48, 64, 96];
const MANY: [usize; 8] = [1023, 1024, 1025, 2048, 4095, 4096, 4096, 4096];

/// How many pixels are of another sort than most: one, and those with which a table takes 16 bytes more.
const ENTRIES: [usize; 11] = [1, 1, 1, 4, 5, 8, 9, 9, 16, 17, 17];

/// Counts from the first to before the second, which in every form take the same entries.
type Sort = (u64, u64);

fn sorts(baseline: u64) -> [Sort; 6] {
    [
        (0, 255),
        (baseline + 1, baseline + 255),
        (255, 65535),
        (baseline + 255, baseline + 65535),
        (65535, 1 << 32),
        (baseline + 65535, 1 << 32),
    ]
}

/// Counts of the underflow table: of one byte, of two if the baseline has two, and any.
fn low_sorts(baseline: u64) -> [Sort; 3] {
    [
        (0, baseline.min(255) + 1),
        (256.min(baseline), baseline + 1),
        (0, baseline + 1),
    ]
}

/// A count of this sort: the least, the most, or any.
fn count(random: &mut Random, (from, to): Sort) -> u32 {
    let any = from + random.below(to - from);
    random.pick(&[from, to - 1, any, any]) as u32
}

/// Counts about those at which a pixel is stored another way.
fn edge(random: &mut Random, baseline: u32) -> u32 {
    let edge = random.pick(&[0u32, 255, 65535]);
    let edge = edge.saturating_add(random.pick(&[0, baseline]));
    random.pick(&[edge.saturating_sub(1), edge, edge.saturating_add(1)])
}

/// How many pixels of another sort there are among so many.
fn others(random: &mut Random, length: usize) -> usize {
    let some = match length > 1000 && random.once_in(2) {
        true => 1,
        false => random.pick(&ENTRIES),
    };
    let half = length / 2 + random.index(2);
    let any = 1 + random.index(length);
    random
        .pick(&[some, some, some, some, half, any])
        .min(length)
}

/// Most pixels are of one sort, and some in a row are of others. In a third of the cases a baseline pays, and the others are below it.
pub fn counts(random: &mut Random, length: usize, baseline: u32) -> Vec<u32> {
    let (sorts, low) = (sorts(baseline.into()), low_sorts(baseline.into()));
    let all = [&sorts[..], &low].concat();
    let (most, rest, groups) = match random.below(3) {
        0 => (sorts[random.pick(&[1, 1, 3])], &low[..], 1),
        _ => (random.pick(&all), &all[..], random.index(4)),
    };
    let first = random.once_in(3).then(|| count(random, most));
    let mut counts = vec![0; length];
    counts
        .iter_mut()
        .for_each(|pixel| *pixel = first.unwrap_or_else(|| count(random, most)));
    for _ in 0..groups.min(length) {
        let (from, times) = (random.index(length), others(random, length));
        let sort = random.pick(rest);
        let edge = (groups > 1 && random.once_in(2)).then(|| edge(random, baseline));
        for place in from..from + times {
            counts[place % length] = edge.unwrap_or_else(|| count(random, sort));
        }
    }
    counts
}

fn layout(random: &mut Random, call: Call, size: Size) -> Layout {
    let old = call != Call::SmallestList && random.once_in(10);
    let mut layout = sample::layout(random, if old { 86 } else { 100 }, size);
    if random.once_in(2) {
        layout.baseline = random.pick(&[256, 300, 65534, 65535]);
    }
    if size.is_large() || old || random.once_in(3) {
        return layout;
    }
    let pixels = match random.once_in(8) {
        true => random.pick(&MANY),
        false => random.pick(&FEW),
    };
    let columns = match random.once_in(2) && pixels % 4 == 0 {
        true => pixels / 4,
        false => pixels,
    };
    (layout.rows, layout.columns) = (pixels / columns, columns);
    layout
}

/// What line 79 can be where no baseline is in use: of another name, or with no number that will do.
fn spoil_baseline(random: &mut Random, header: &mut [u8]) {
    let Some(line) = header.get_mut(79 * LINE..80 * LINE) else {
        return;
    };
    let texts = ["1 1", "1 1 x", "1 1 -1", "", "1 1 65536", "1 1 4294967295"];
    let text = random.pick(&texts);
    match random.once_in(3) {
        true => line[random.index(NAME)] ^= 1,
        false => line.copy_from_slice(format!("{:8}{text:72}", "NEXP   :").as_bytes()),
    }
}

fn header(random: &mut Random, layout: &Layout) -> Vec<u8> {
    let mut header = sample::header(random, layout);
    if layout.underflow == 0 && random.once_in(3) {
        spoil_baseline(random, &mut header);
    }
    header
}

/// The frame of such pixels in the layout's form, or in one in which it can be written.
fn frame(random: &mut Random, layout: &Layout) -> Vec<u8> {
    let header = header(random, layout);
    let counts = counts(random, layout.pixels(), layout.baseline);
    let mut out = vec![0; header.len() + 7 * counts.len() + 64];
    let mut written =
        |underflow| frame::write(&header, &counts, layout.width, underflow, &mut out).ok();
    let length = written(layout.underflow).or_else(|| written(2));
    out.truncate(length.map_or(header.len(), |length| length as usize));
    out
}

/// A question for the smallest form, an opening in it, or what a list starts from.
pub fn case(random: &mut Random, call: Call, size: Size) -> Case {
    let layout = layout(random, call, size);
    let frame = match (call, layout.format) {
        (Call::Smallest, 100) => header(random, &layout),
        (_, 100) if !random.once_in(4) => frame(random, &layout),
        _ => generate::frame_of(random, &layout),
    };
    generate::lent(random, call, &layout, frame, counts)
}
