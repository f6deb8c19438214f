//! Cases: a valid one for each call, and the damage done to it.
use crate::case::{Call, Case, Mutation, Step, Target};
use crate::compare;
use crate::dtrek_cases;
use crate::frame::{self, Header, LINE, NAME};
use crate::ledger::{Date, Entry, BYTES};
use crate::order_claims::{self, ANEW};
use crate::plates;
use crate::random::Random;
use crate::sample::{self, Layout, Size, WANTED};
use crate::{smallest, smallest_cases};

/// Texts for the number of rows or columns.
const SIZES: &[&str] = &[
    "0",
    "1",
    "2",
    "4096",
    "4097",
    "2048",
    "2049",
    "",
    "x",
    "1.0",
    "-1",
    "4294967295",
    "9999999999",
];

/// Texts for each wanted line, right and wrong.
const TEXTS: [&[&str]; 9] = [
    &[
        "86",
        "100",
        "0000000100",
        "00000000100",
        "101",
        "0",
        "",
        "100abc",
        "+100",
        "\t100",
        "4294967296",
    ],
    &[
        "1", "6", "06+", "0", "00", "18", "17++", "111", "1+++", "+", "1 +", "1+2", "", "-1",
    ],
    &[
        "10",
        "9",
        "11",
        "12",
        "13",
        "15",
        "64",
        "65",
        "20",
        "0",
        "x",
        "",
        "4294967295",
        "00000000010",
    ],
    &[
        "-1 0 0",
        "0 0 0",
        "-01 0 0",
        "0 -1 0",
        "1 2",
        "-1 0",
        "1 1 1",
        "-1 1 0",
        "-1 0 1",
        "0 0 x",
        "4294967295 4294967295 4294967295",
        "4294967296 0 0",
        "-1 4294967295 0",
        "-1 0 4294967295",
        "- 0 0",
        "",
    ],
    &[
        "1 0", "1 1", "1 2", "2 0", "2 1", "2 2", "4 0", "4 1", "4 2", "3 0", "0 0", "5 1", "1 3",
        "1", "x 0", "1 -1", "",
    ],
    SIZES,
    SIZES,
    &[
        "1 0",
        "1.0 0.0",
        "001.000 000",
        "1. 0",
        "1 .0",
        "+1 0",
        "1",
        "",
        "0 1",
        "2 0",
        "1.01 0",
        "1 0.1",
        "1 0 x",
        "1.0.0 0",
        "10 0",
        "1 00.00000000000000000",
        "1e0 0",
        "1,0 0",
    ],
    &[
        "0 0 0",
        "a b 65535",
        "1 1 65536",
        "1 1",
        "1 1 x",
        "1 1 -1",
        "",
        "x y 00000000001",
        "1 1 4294967295",
        "1 1 1",
    ],
];

fn line_text(line: usize, text: Vec<u8>, target: Target) -> Mutation {
    Mutation::Patch(target, line * LINE + NAME, text)
}

fn listed_text(random: &mut Random, target: Target) -> Mutation {
    let index = random.index(WANTED.len());
    let mut text = random.pick(TEXTS[index]).as_bytes().to_vec();
    text.resize(LINE - NAME, b' ');
    if random.once_in(2) {
        let free = text.iter().rev().take_while(|byte| **byte == b' ').count();
        text.rotate_right(random.index(free + 1));
    }
    line_text(WANTED[index].0, text, target)
}

fn random_text(random: &mut Random, target: Target) -> Mutation {
    let line = random.pick(&WANTED).0;
    let signs = b"  01234567890.+-\tx\0";
    let length = 1 + random.index(12);
    let text = (0..length).map(|_| random.pick(signs)).collect();
    line_text(line, text, target)
}

/// One character of a line's data, most often of the two lines that the writer sets.
fn line_byte(random: &mut Random, target: Target) -> Mutation {
    let other = random.pick(&WANTED).0;
    let line = random.pick(&[20, 39, other]);
    let any = random.index(LINE - NAME);
    let edge = random.pick(&[0, 1, 22, 23, 24, 25, 46, 47, 48, 49, 70, 71]);
    let column = random.pick(&[edge, any]);
    let at = line * LINE + NAME + column;
    Mutation::Patch(target, at, vec![random.pick(b"  019x.+-\t\0!")])
}

fn name_byte(random: &mut Random, target: Target) -> Mutation {
    let (line, name) = random.pick(&WANTED);
    let at = random.index(NAME);
    let other = random.pick(&[name[at] ^ 0x20, b' ', 0, name[at].wrapping_add(1)]);
    Mutation::Patch(target, line * LINE + at, vec![other])
}

/// The counts or widths that the header has, at other places, one of them perhaps one off.
fn number_off(random: &mut Random, bytes: &[u8], target: Target) -> Option<Mutation> {
    let header = frame::read_header(bytes).ok()?;
    let line = random.pick(&[20, 20, 20, 39, 40, 41]);
    let first = header.underflows.map_or(-1, |count| count as i64);
    let mut values = match line {
        20 if header.format == 86 => vec![header.overflows as i64],
        20 => vec![first, header.two_byte as i64, header.four_byte as i64],
        39 => vec![header.width as i64, header.underflow_width as i64],
        40 => vec![header.rows as i64],
        _ => vec![header.columns as i64],
    };
    let index = random.index(values.len());
    values[index] += random.pick(&[-1, 0, 1]);
    let fields: Vec<String> = values.iter().map(|value| value.to_string()).collect();
    Some(line_text(line, sample::spaced(random, &fields), target))
}

/// A byte of the image or the tables, of which the last ones are often padding.
fn body_byte(random: &mut Random, bytes: &[u8], target: Target) -> Mutation {
    let from = frame::read_header(bytes).map_or(0, |header| header.length);
    let length = bytes.len().saturating_sub(from);
    let late = random.once_in(2);
    let back = random.index(if late { length.min(40) } else { length });
    let at = bytes.len().saturating_sub(1 + back);
    let any = random.byte();
    let value = random.pick(&[0, 1, 255, 254, b' ', b'0', b'7', b'x', any]);
    Mutation::Patch(target, at, vec![value])
}

fn new_length(random: &mut Random, bytes: &[u8]) -> usize {
    let length = bytes.len();
    let header = frame::read_header(bytes).map_or(5120, |header| header.length);
    match random.below(8) {
        0 => random.pick(&[0, 1, 239, 240, 241, 5119, 5120]),
        1 => header - random.index(2),
        2 => header + random.index(length.saturating_sub(header) + 1),
        3 => random.index(length + 1),
        4 => length + 1 + random.index(40),
        _ => length.saturating_sub(1 + random.index(20)),
    }
}

/// A FORMAT 86 entry made wrong, or another one's.
fn text_entry(random: &mut Random, header: &Header, bytes: &[u8], from: usize) -> (usize, Vec<u8>) {
    let at = from + 16 * random.index(header.overflows as usize);
    let other = from + 16 * random.index(header.overflows as usize);
    let pixel = random.index(header.pixels() + 2);
    let blank = random.pick(&[(0, 9), (9, 7), (8, 1), (15, 1), (1, 1), (10, 1)]);
    match random.below(4) {
        0 => (at, bytes.get(other..other + 16).unwrap_or(&[]).to_vec()),
        1 => (at + 9, format!("{pixel:>7}").into_bytes()),
        2 => (at + blank.0, vec![b' '; blank.1]),
        _ => (at + random.index(16), vec![random.pick(b" 0x-+\t9")]),
    }
}

/// A table entry set to a value near a threshold.
fn table_entry(random: &mut Random, bytes: &[u8], target: Target) -> Option<Mutation> {
    let header = frame::read_header(bytes).ok()?;
    let mut from = header.length + header.width as usize * header.pixels();
    if header.format == 86 {
        let (at, text) = text_entry(random, &header, bytes, from);
        return Some(Mutation::Patch(target, at, text));
    }
    let underflow = (header.underflow_width, header.underflows.unwrap_or(0));
    let mut entries = Vec::new();
    for (width, count) in [underflow, (2, header.two_byte), (4, header.four_byte)] {
        let length = (width * count) as usize;
        if length > 0 {
            let place = random.index(count as usize);
            entries.push((from + place * width as usize, width as usize));
        }
        from += length.div_ceil(16) * 16;
    }
    if entries.is_empty() {
        return None;
    }
    let (at, width) = random.pick(&entries);
    let value = sample::count(random, header.baseline as u32);
    Some(Mutation::Patch(
        target,
        at,
        value.to_le_bytes()[..width].to_vec(),
    ))
}

/// A stored value set to a mark or to one beside it.
fn stored_value(random: &mut Random, bytes: &[u8], target: Target) -> Option<Mutation> {
    let header = frame::read_header(bytes).ok()?;
    let width = header.width as usize;
    let at = header.length + width * random.index(header.pixels());
    let value = random.pick(&[0u32, 1, 254, 255, 65534, 65535, u32::MAX]);
    Some(Mutation::Patch(
        target,
        at,
        value.to_le_bytes()[..width].to_vec(),
    ))
}

fn frame_damage(random: &mut Random, bytes: &[u8], target: Target) -> Mutation {
    let none = Mutation::Patch(target, 0, Vec::new());
    match random.below(18) {
        0..=2 => listed_text(random, target),
        3 => random_text(random, target),
        4 => name_byte(random, target),
        5 | 6 => number_off(random, bytes, target).unwrap_or(none),
        7 | 8 => body_byte(random, bytes, target),
        9 => Mutation::Remove(target, random.index(bytes.len())),
        10 if random.once_in(3) => {
            let at = random.index(bytes.len().min(6500));
            Mutation::Patch(target, at, vec![random.byte()])
        }
        10 => line_byte(random, target),
        11 | 12 => table_entry(random, bytes, target).unwrap_or(none),
        13 => stored_value(random, bytes, target).unwrap_or(none),
        14 | 15 => line_byte(random, target),
        _ => Mutation::Resize(target, new_length(random, bytes)),
    }
}

fn held_damage(random: &mut Random, held: &[u8]) -> Mutation {
    let target = Target::Buffer;
    let none = Mutation::Patch(target, 0, Vec::new());
    match random.below(8) {
        0 => frame_damage(random, held, target),
        1 => line_byte(random, target),
        2 => number_off(random, held, target).unwrap_or(none),
        3 | 4 => table_entry(random, held, target).unwrap_or(none),
        5 => stored_value(random, held, target).unwrap_or(none),
        _ => body_byte(random, held, target),
    }
}

fn ledger_damage(random: &mut Random, ledger: &[u8], lines: u64) -> Mutation {
    let lines = (lines as usize).min(ledger.len() / BYTES);
    let target = Target::Ledger;
    let at = random.index(lines * BYTES);
    match random.below(7) {
        0 | 1 => Mutation::Patch(target, at, vec![random.byte()]),
        2 => {
            let first = random.pick(&[0x80, 0xC0, 0x40, 0]);
            Mutation::Patch(target, at / BYTES * BYTES, vec![first])
        }
        3 => {
            let bit = ledger.get(at).copied().unwrap_or(0) ^ (1 << random.below(8));
            Mutation::Patch(target, at, vec![bit])
        }
        4 => {
            let mut line = vec![0; BYTES];
            line[0] = 0x80;
            Mutation::Patch(target, at / BYTES * BYTES, line)
        }
        5 => {
            let (year, month, day) = sample::any_date(random);
            let line = Entry::Keep(Date { year, month, day }).bytes().to_vec();
            Mutation::Patch(target, at / BYTES * BYTES, line)
        }
        _ => Mutation::Resize(target, random.index(ledger.len() + 1)),
    }
}

fn damage(random: &mut Random, case: &Case) -> Vec<Mutation> {
    let target = match case.step.call {
        Call::Read | Call::Write | Call::Open | Call::Header => Target::Frame,
        call if call.is_list() || call.is_smallest() => Target::Frame,
        Call::Correct | Call::Withdraw | Call::Amend | Call::Further | Call::Orders
            if random.once_in(2) =>
        {
            Target::Buffer
        }
        _ => Target::Ledger,
    };
    let length = match case.step.call {
        call if call.is_list() => 0,
        Call::Orders if !random.once_in(8) => 0,
        Call::Read | Call::Write | Call::Open | Call::Header => random.pick(&[0, 1, 1, 1, 1, 2, 4]),
        Call::OpenSmallest => random.pick(&[0, 0, 1, 1, 1, 2]),
        Call::Smallest => random.pick(&[0, 0, 0, 0, 1, 1, 2]),
        _ => random.pick(&[0, 0, 0, 1, 1, 2]),
    };
    let one = |random: &mut Random| match target {
        Target::Buffer => held_damage(random, &case.buffer),
        Target::Ledger => ledger_damage(random, &case.ledger, case.lines),
        _ => frame_damage(random, case.bytes(target), target),
    };
    (0..length).map(|_| one(random)).collect()
}

pub fn any_bytes(random: &mut Random, length: usize) -> Vec<u8> {
    let fill = random.byte();
    (0..length).map(|at| fill.wrapping_add(at as u8)).collect()
}

fn form(random: &mut Random) -> (u32, u32) {
    let odd = |random: &mut Random| random.pick(&[0, 3, 4, 5, 256, u32::MAX, 1 << 31]);
    let width = if random.once_in(20) {
        odd(random)
    } else {
        random.pick(&[1, 1, 2, 4])
    };
    let underflow = if random.once_in(20) {
        odd(random)
    } else {
        random.pick(&[0, 1, 2])
    };
    (width, underflow)
}

pub fn frame_of(random: &mut Random, layout: &Layout) -> Vec<u8> {
    match layout.format {
        86 => sample::format_86(random, layout),
        _ if random.once_in(2) => sample::loose(random, layout),
        _ => sample::written(random, layout),
    }
}

/// Bytes for a frame: often just enough, or one too few.
fn room(random: &mut Random, header: &[u8], pixels: &[u32], form: (u32, u32)) -> usize {
    let most = header.len() + 12 * pixels.len() + 64;
    let mut trial = vec![0; most];
    let exact = frame::write(header, pixels, form.0, form.1, &mut trial);
    let exact = exact.map_or(header.len(), |length| length as usize);
    match random.below(6) {
        0 => {
            let fewer = random.index(17);
            exact.saturating_sub(1 + random.pick(&[0, fewer]))
        }
        1 => exact,
        2 => {
            let any = random.index(most);
            random.pick(&[0, any, any])
        }
        _ => exact + random.index(80),
    }
}

fn step(random: &mut Random, call: Call, pixels: usize, baseline: u32) -> Step {
    let far = random.pick(&[pixels as u64, 1 << 24, 1 << 32, u64::MAX]);
    let pixel = if random.once_in(12) {
        far
    } else {
        random.below(pixels as u64)
    };
    Step {
        call,
        pixel,
        count: sample::count(random, baseline),
        date: sample::asked(random),
    }
}

fn frame_case(random: &mut Random, call: Call, size: Size) -> Case {
    let old = match call {
        Call::Read | Call::Header => random.once_in(3),
        Call::List => false,
        _ => random.once_in(12),
    };
    let layout = sample::layout(random, if old { 86 } else { 100 }, size);
    let frame = frame_of(random, &layout);
    lent(random, call, &layout, frame, sample::counts)
}

/// A call that is lent this frame, pixels by `counts`, and a buffer for what it writes.
pub fn lent(
    random: &mut Random,
    call: Call,
    layout: &Layout,
    mut frame: Vec<u8>,
    counts: fn(&mut Random, usize, u32) -> Vec<u32>,
) -> Case {
    if random.once_in(4) {
        frame.extend(any_bytes(random, 30));
    }
    let extra = random.index(3);
    let length = match random.below(24) {
        0 if !call.is_list() => layout.pixels() - 1,
        1 if !call.is_list() => 0,
        _ => layout.pixels() + extra,
    };
    let mut pixels = counts(random, length, layout.baseline);
    let mut room_pixels = pixels.clone();
    match call {
        Call::Write if random.once_in(20) => pixels.fill(layout.baseline),
        Call::Write | Call::Smallest => {}
        _ => drop(frame::read(&frame, &mut room_pixels)),
    }
    let form = match smallest::smallest(&frame, &room_pixels) {
        Ok((form, _)) if call.is_smallest() || call == Call::SmallestList => form,
        _ => form(random),
    };
    let room = match call {
        Call::Smallest => 0,
        _ => room(random, &frame, &room_pixels, form),
    };
    Case {
        step: step(random, call, layout.pixels(), layout.baseline),
        frame: frame.into(),
        pixels,
        form,
        buffer: any_bytes(random, room),
        ..Case::of(call)
    }
}

/// A pixel that is corrected, another beside it, or one with the same lower bits.
fn pixel_near(random: &mut Random, corrected: u64) -> u64 {
    match random.below(10) {
        0 => corrected.saturating_add(1),
        1 => corrected.saturating_sub(1),
        2 | 3 => corrected | 1 << random.pick(&[8, 16, 24, 24, 32, 32, 63]),
        4 => random.pick(&[0, (1 << 24) - 1, u64::MAX]),
        _ => corrected,
    }
}

/// Asks for one of these dates or for the day after it, and for one of these pixels or for one near it.
fn aim(random: &mut Random, dates: &[(u32, u32, u32)], pixels: &[u64], question: &mut Step) {
    if !dates.is_empty() {
        let (year, month, day) = random.pick(dates);
        question.date = (year, month, day + random.below(2) as u32);
    }
    if !pixels.is_empty() {
        let pixel = random.pick(pixels);
        question.pixel = pixel_near(random, pixel);
    }
}

/// Most questions are about what the calls before them put into the ledger.
fn aim_at_calls(random: &mut Random, before: &[Step], next: &mut Step) {
    if !next.call.is_why() || random.once_in(6) {
        return;
    }
    let made = |call: Call| before.iter().filter(move |step| step.call == call);
    let dates: Vec<_> = made(Call::Keep).map(|step| step.date).collect();
    let pixels: Vec<_> = made(Call::Correct).map(|step| step.pixel).collect();
    aim(random, &dates, &pixels, next);
}

/// Calls in any order. A compaction has often the call before it made again behind it: there may be room for it then.
fn steps(random: &mut Random, most: usize, pixels: usize, baseline: u32) -> Vec<Step> {
    let calls = [
        Call::Correct,
        Call::Correct,
        Call::Keep,
        Call::Withdraw,
        Call::Amend,
        Call::Purge,
        Call::WhyDay,
        Call::WhyPixel,
    ];
    let seldom = random.pick(&[4, 12, 40]);
    let mut steps = Vec::new();
    for _ in 0..random.index(most + 1) {
        let call = random.pick(&calls);
        let mut next = step(random, call, pixels, baseline);
        aim_at_calls(random, &steps, &mut next);
        steps.push(next);
        if random.once_in(seldom) {
            steps.push(step(random, Call::Compact, pixels, baseline));
            steps.extend(random.once_in(2).then_some(next));
        }
    }
    steps
}

fn list_case(random: &mut Random, call: Call, size: Size) -> Case {
    let mut case = match call {
        Call::SmallestList => smallest_cases::case(random, call, size),
        _ => frame_case(random, call, size),
    };
    let pixels = case.pixels.len();
    let most = match size {
        Size::Large | Size::Full => 2,
        _ if pixels > 2000 => 4,
        _ => 40,
    };
    let baseline = frame::read_header(&case.frame).map_or(0, |header| header.baseline as u32);
    case.steps = steps(random, most, pixels, baseline);
    let lines = random.pick(&[0, 1, 5, 20, 60, 60]) * BYTES + random.index(BYTES);
    case.ledger = any_bytes(random, lines);
    case
}

fn held_case(random: &mut Random, call: Call, size: Size) -> Case {
    let layout = sample::layout(random, 100, size);
    let mut buffer = match random.below(8) {
        0 => sample::loose_in_cells(random, &layout),
        _ => sample::written(random, &layout),
    };
    let mut pixels = vec![0; layout.pixels()];
    let _ = frame::read(&buffer, &mut pixels);
    if !random.once_in(4) {
        let most = random.pick(&[20, 70, 300]);
        buffer.resize(buffer.len() + random.index(most), 0);
    }
    let entries = sample::entries(random, &pixels, layout.baseline);
    let mut ledger: Vec<u8> = entries.iter().flat_map(|entry| entry.bytes()).collect();
    let used = entries.len() as u64;
    let spare = random.pick(&[0, 15, 16, 16, 17, 40, 64]);
    ledger.extend(any_bytes(random, spare));
    let lines = match random.below(24) {
        0 => used + 1,
        1 => random.below(used + 1),
        2 => random.pick(&[u64::MAX, 1 << 60, (1 << 60) + used, used + 5]),
        _ => used,
    };
    Case {
        step: step(random, call, layout.pixels(), layout.baseline),
        buffer,
        ledger,
        lines,
        ..Case::of(call)
    }
}

/// A question about what stands in the ledger's lines, cancelled ones included.
fn asked_for(random: &mut Random, ledger: &[u8], question: &mut Step) {
    let (mut dates, mut pixels) = (Vec::new(), Vec::new());
    for entry in ledger.chunks_exact(BYTES).filter_map(Entry::parse) {
        match entry {
            Entry::Keep(date) => dates.push((date.year, date.month, date.day)),
            Entry::Correction { pixel, .. } => pixels.push(pixel.into()),
            Entry::Withdrawal => {}
        }
    }
    aim(random, &dates, &pixels, question);
}

/// One question in so many is of a ledger whose last lines have numbers about 65,536.
const LONG_LEDGER: u64 = 120;

/// Puts corrections of one pixel before the ledger's lines.
fn lengthen(random: &mut Random, case: &mut Case) {
    let pixel = random.below(4) as u32;
    let (old, new) = (1, 1);
    let line = Entry::Correction { pixel, old, new }.bytes();
    let lines = 65_500 + random.index(100);
    case.ledger.splice(0..0, line.repeat(lines));
    case.lines = case.lines.saturating_add(lines as u64);
}

/// A question of a held frame's ledger, most often about its lines.
fn why_case(random: &mut Random, call: Call, size: Size) -> Case {
    let mut case = held_case(random, call, size);
    if random.once_in(LONG_LEDGER) {
        lengthen(random, &mut case);
    }
    if !random.once_in(4) {
        asked_for(random, &case.ledger, &mut case.step);
    }
    case
}

/// Further calls on a held frame and a ledger, which in half of the cases came about by calls.
fn further_case(random: &mut Random, size: Size) -> Case {
    let mut case = held_case(random, Call::Further, size);
    let header = frame::read_header(&case.buffer).unwrap_or_default();
    let (pixels, baseline) = (header.pixels(), header.baseline as u32);
    let most = match pixels {
        0..=2000 => 12,
        _ => 1,
    };
    if random.once_in(2) {
        let calls = steps(random, 2 * most, pixels, baseline);
        let room = random.pick(&[1, 5, 20, 60]) * BYTES + random.index(BYTES);
        case.ledger = any_bytes(random, room);
        case.lines = 0;
        case = compare::after(&case, &calls);
    }
    case.steps = steps(random, most, pixels, baseline);
    let is_question = |step: &&mut Step| step.call == Call::Purge || step.call.is_why();
    for question in case.steps.iter_mut().filter(is_question) {
        asked_for(random, &case.ledger, question);
    }
    case
}

/// Corrections of a few pixels, and now and then of one that the frame has not.
fn corrections(random: &mut Random, header: &Header) -> Vec<Step> {
    let (pixels, baseline) = (header.pixels() as u64, header.baseline as u32);
    let length = match pixels {
        0..=700 if random.once_in(24) => 20 + random.index(12),
        0..=2000 => random.pick(&[1, 2, 2, 2, 3, 4, 7]),
        _ => 2,
    };
    let few = 1 + random.below(6);
    let (first, apart) = (random.below(pixels), random.pick(&[1, 1, 7]));
    let unfit = random.once_in(8);
    let one = |random: &mut Random| {
        let mut next = step(random, Call::Correct, 0, baseline);
        next.pixel = (first + apart * random.below(few)) % pixels.max(1);
        let is_unfit =
            |count: u32| header.underflow_width == 1 && (256..=baseline).contains(&count);
        if is_unfit(next.count) && !unfit {
            next.count %= 256;
        }
        next
    };
    let mut list: Vec<Step> = (0..length).map(|_| one(random)).collect();
    if random.once_in(24) {
        list[0].pixel = random.pick(&[pixels, list[0].pixel | 1 << 32, u64::MAX]);
    }
    list
}

/// Corrections of a held frame, as they come and in other orders.
fn order_case(random: &mut Random, size: Size) -> Case {
    let mut case = held_case(random, Call::Orders, size);
    let header = frame::read_header(&case.buffer).unwrap_or_default();
    let list = corrections(random, &header);
    match random.below(8) {
        0 => {}
        1 => case
            .ledger
            .extend(any_bytes(random, 8 * list.len() * BYTES)),
        _ => order_claims::give_room(random, &mut case, list.len()),
    }
    let others = order_claims::others(random, &list);
    case.steps = list;
    for run in others.into_iter().take(1 + random.index(2)) {
        case.steps.push(ANEW);
        case.steps.extend(run);
    }
    case
}

/// Most often a ledger of whole lines, and room for its text or one byte less.
fn listing_case(random: &mut Random, size: Size) -> Case {
    let mut case = held_case(random, Call::Listing, size);
    if !random.once_in(8) {
        let lines = case.lines.min((case.ledger.len() / BYTES) as u64);
        case.ledger.truncate(lines as usize * BYTES);
    }
    let room = 32 + case.ledger.len() / BYTES * 80 + random.index(3);
    let short = if random.once_in(8) {
        1 + random.index(3)
    } else {
        0
    };
    case.buffer = any_bytes(random, room - short);
    case
}

/// A valid case and what is then done to its bytes.
pub struct Made {
    /// None where the call looks at no frame.
    pub size: Option<Size>,
    /// What else is counted.
    pub rare: Option<&'static str>,
    pub base: Case,
    pub damage: Vec<Mutation>,
}

/// One case in so many is large, and one large one in LARGEST is as large as its format allows.
const LARGE: u64 = 16_000;
const LARGEST: u64 = 5;

/// The size of the case with this number, the first being 0. The first large one comes early, so that a short run has it.
fn size(random: &mut Random, number: u64) -> Size {
    if number % LARGE != LARGE / 4 {
        return Size::usual(random);
    }
    match number / LARGE % LARGEST {
        0 => Size::Full,
        _ => Size::Large,
    }
}

/// From Keep on they look at no frame.
fn call(random: &mut Random, size: Size) -> Call {
    let calls = if size.is_large() { 23 } else { 39 };
    match random.below(calls) {
        0..=3 => Call::Read,
        4 | 5 => Call::Write,
        6 | 7 => Call::Open,
        8 | 9 => Call::Correct,
        10 | 11 => Call::Withdraw,
        12 | 13 => Call::Amend,
        14 | 15 => Call::List,
        16 => Call::Header,
        17 => Call::Further,
        18 | 19 => Call::Smallest,
        20 | 21 => Call::OpenSmallest,
        22 => Call::SmallestList,
        23 => Call::Keep,
        24 => Call::Purge,
        25 | 26 => Call::WhyDay,
        27 | 28 => Call::WhyPixel,
        29 => Call::Listing,
        30 | 31 => Call::Compact,
        32 => Call::MarEntry,
        33 => Call::MarRead,
        34 | 35 => Call::DtrekRead,
        36 => Call::DtrekHeader,
        37 => Call::DtrekItem,
        _ => Call::Orders,
    }
}

pub fn case(random: &mut Random, number: u64) -> Made {
    let size = size(random, number);
    let call = call(random, size);
    let base = match call {
        Call::MarEntry | Call::MarRead => return plates::headed_case(random, call),
        Call::DtrekRead | Call::DtrekHeader | Call::DtrekItem => {
            return dtrek_cases::case(random, call)
        }
        Call::Read | Call::Write | Call::Open | Call::Header => frame_case(random, call, size),
        Call::Listing => listing_case(random, size),
        Call::List | Call::SmallestList => list_case(random, call, size),
        Call::Smallest | Call::OpenSmallest => smallest_cases::case(random, call, size),
        Call::Further => further_case(random, size),
        Call::Orders => order_case(random, size),
        Call::WhyDay | Call::WhyPixel => why_case(random, call, size),
        _ => held_case(random, call, size),
    };
    let damage = damage(random, &base);
    let unframed = [Call::Keep, Call::Purge, Call::Listing, Call::Compact];
    let framed = !unframed.contains(&call) && !call.is_why();
    Made {
        size: framed.then_some(size),
        rare: None,
        base,
        damage,
    }
}

fn dated(call: Call, date: (u32, u32, u32), ledger: Vec<u8>, lines: u64) -> Case {
    let mut case = Case::of(call);
    case.step.date = date;
    Case {
        ledger,
        lines,
        ..case
    }
}

/// The end of February in every year and every day of a few years: kept, in a line, and asked.
pub fn calendar() -> Vec<Case> {
    let mut dates = Vec::new();
    for year in 0..4096 {
        dates.extend((28..=30).map(|day| (year, 2, day)));
    }
    for year in [0, 1, 1900, 2000, 2031, 2032, 4095] {
        for month in 0..16 {
            dates.extend((0..32).map(|day| (year, month, day)));
        }
    }
    let mut cases = Vec::new();
    for (year, month, day) in dates {
        let line = Entry::Keep(Date { year, month, day }).bytes().to_vec();
        cases.push(dated(Call::Keep, (year, month, day), vec![7; BYTES], 0));
        cases.push(dated(Call::Purge, (2031, 11, 3), line, 1));
        let first = Entry::Keep(Date {
            year: 1,
            month: 1,
            day: 1,
        });
        cases.push(dated(
            Call::Purge,
            (year, month, day),
            first.bytes().to_vec(),
            1,
        ));
    }
    cases
}
