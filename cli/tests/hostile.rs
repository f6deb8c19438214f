//! What the command takes apart by itself, from a million made-up and damaged inputs: an answer or an error, never a panic,
//! and no more memory than the input calls for.
#![allow(dead_code)]
#[path = "../src/args.rs"]
mod args;
#[path = "../src/digest.rs"]
mod digest;
#[path = "../src/failure.rs"]
mod failure;
#[path = "../src/files.rs"]
mod files;
#[path = "../src/formats.rs"]
mod formats;
#[path = "../src/given.rs"]
mod given;
#[path = "../src/ledger.rs"]
mod ledger;
#[path = "../src/options.rs"]
mod options;
#[path = "../src/output.rs"]
mod output;
#[path = "../src/pixels.rs"]
mod pixels;
#[path = "common/random.rs"]
mod random;
#[path = "../src/redo.rs"]
mod redo;
#[path = "../src/refusals.rs"]
mod refusals;
#[path = "../src/shard.rs"]
mod shard;
#[path = "../src/streams.rs"]
mod streams;
#[path = "../src/sums.rs"]
mod sums;
#[path = "../src/table.rs"]
mod table;
#[path = "../src/total.rs"]
mod total;
#[path = "../src/totals.rs"]
mod totals;
#[path = "../src/walk.rs"]
mod walk;

use digest::{Digest, State};
use random::Random;
use std::alloc::{GlobalAlloc, Layout, System};
use std::cell::Cell;
use std::path::Path;

/// For each parser.
const INPUTS: u64 = 200_000;

/// Notes the largest piece of memory that this thread asked for.
struct Noting;

thread_local! {
    static LARGEST: Cell<usize> = const { Cell::new(0) };
}

fn note(size: usize) {
    let _ = LARGEST.try_with(|largest| largest.set(largest.get().max(size)));
}

// SAFETY: every call is handed on to the system's allocator as it is.
unsafe impl GlobalAlloc for Noting {
    unsafe fn alloc(&self, layout: Layout) -> *mut u8 {
        note(layout.size());
        unsafe { System.alloc(layout) }
    }

    unsafe fn dealloc(&self, at: *mut u8, layout: Layout) {
        unsafe { System.dealloc(at, layout) }
    }

    unsafe fn realloc(&self, at: *mut u8, layout: Layout, size: usize) -> *mut u8 {
        note(size);
        unsafe { System.realloc(at, layout, size) }
    }
}

#[global_allocator]
static ALLOCATOR: Noting = Noting;

/// Texts that parsers stumble over.
const WORDS: [&[u8]; 14] = [
    b"18446744073709551615",
    b"18446744073709551616",
    b"-1",
    b"99999999999999999999999999",
    b"0",
    b"\n",
    b"\n\n",
    b" ",
    b"-",
    b"\xff\xfe",
    b"\\",
    b"'",
    b"(",
    b"\xf0\x9f\x92\xa9",
];

/// One sample with up to five damages, or bytes out of nothing.
fn damaged(random: &mut Random, samples: &[Vec<u8>]) -> Vec<u8> {
    if random.below(10) == 0 {
        return (0..random.below(300)).map(|_| random.next() as u8).collect();
    }
    let mut bytes = samples[random.below(samples.len())].clone();
    for _ in 0..random.below(6) {
        damage(random, &mut bytes);
    }
    bytes
}

fn damage(random: &mut Random, bytes: &mut Vec<u8>) {
    let (place, end) = (random.below(bytes.len() + 1), random.below(bytes.len() + 1));
    match random.below(6) {
        0 => bytes.truncate(place),
        1 => drop(bytes.drain(place.min(end)..place.max(end))),
        2 => drop(bytes.splice(place..place, WORDS[random.below(WORDS.len())].iter().copied())),
        3 => bytes.extend_from_within(place..),
        4 => drop(
            bytes.splice(place..(place + random.below(12)).min(bytes.len()), WORDS[random.below(5)].iter().copied()),
        ),
        _ => {
            if let Some(byte) = bytes.get_mut(place) {
                *byte ^= 1 << random.below(8);
            }
        }
    }
}

/// Gives every input to a parser, which says whether it took it. Some must be taken and some refused.
fn feed(seed: u64, samples: &[Vec<u8>], parse: impl Fn(&[u8]) -> bool) {
    let mut random = Random(seed);
    let mut taken = 0;
    for number in 0..INPUTS {
        let input = damaged(&mut random, samples);
        LARGEST.set(0);
        taken += u64::from(parse(&input));
        let (largest, most) = (LARGEST.get(), 8 * input.len() + 4096);
        assert!(largest <= most, "input {number} of {} bytes made one piece of {largest}", input.len());
    }
    assert!(taken > INPUTS / 100 && taken < INPUTS, "{taken} taken");
}

fn text(bytes: &[u8]) -> String {
    String::from_utf8_lossy(bytes).into_owned()
}

#[test]
fn npy_files() {
    let counts = |rows, columns| pixels::Counts { rows, columns, pixels: vec![7; (rows * columns) as usize] };
    let mut samples: Vec<Vec<u8>> = [(1, 4), (4, 4), (0, 9), (3, 1)].map(|(r, c)| pixels::npy(&counts(r, c))).to_vec();
    let long =
        b"\x93NUMPY\x02\x00\x40\x00\x00\x00{'descr': '|u1', 'fortran_order': False, 'shape': (2, 2), }     \n1234";
    samples.push(long.to_vec());
    feed(1, &samples, |bytes| pixels::from_npy(Path::new("a.npy"), bytes).is_ok());
}

#[test]
fn records() {
    let digest = |bytes: &[u8]| Some(Digest::of(bytes));
    let follows = State { held: None, ledger: digest(b"old"), log: None };
    let makes = State { held: digest(b"frame"), ledger: digest(b"new"), log: digest(b"# log") };
    let (held, ledger, sums, log) = (Some(&b"frame"[..]), Some(&b"new"[..]), Some(&b"sums"[..]), Some(&b"# log"[..]));
    let change = redo::Record { follows, makes, held, ledger, sums, into: None, log };
    let removal = redo::Record::of_removal(makes, Some("bin/a".into()));
    let samples = [change, removal].map(|record| {
        let mut bytes = Vec::new();
        let collect = |parts: &[&[u8]]| {
            bytes = parts.concat();
            Ok(())
        };
        record.write(collect).unwrap();
        bytes
    });
    // A record with a wrong sum is refused for that, so most get the right one again.
    let signed = |bytes: &[u8]| [bytes, &Digest::of(bytes).sha256].concat();
    feed(2, &samples, |bytes| {
        let body = &bytes[..bytes.len().saturating_sub(32)];
        redo::parse(bytes).is_some() | redo::parse(&signed(body)).is_some() | redo::parse(&signed(bytes)).is_some()
    });
}

#[test]
fn sums_files() {
    let files = ["a\\b.held", "a\\b.ledger", "a\\b.compacted"].map(Path::new);
    let notes = sums::frame_note(&[9; 32], Path::new("frame.sfrm"));
    let samples = [(notes, None), (Vec::new(), Some([3; 32]))]
        .map(|(notes, log)| sums::Sums { held: [1; 32], ledger: [2; 32], log, notes }.bytes(files));
    feed(3, &samples, |bytes| {
        sums::noted_frame(bytes);
        sums::Sums::parse(bytes, files).is_some()
    });
}

#[test]
fn dates_forms_pixels_and_ranges() {
    let dates = ["2031-11-02", "0001-01-01", "9999-99-99"];
    let others = ["1", "1+2", "4", "2577", "5,17", "18446744073709551615,1", "0..4", "90..110"];
    let samples: Vec<Vec<u8>> = dates.iter().chain(&others).map(|word| word.as_bytes().to_vec()).collect();
    feed(4, &samples, |bytes| {
        let word = text(bytes);
        let is_range = options::parse_range(&word).is_ok();
        args::parse_date(&word).is_ok() | args::parse_form(&word).is_ok() | args::parse_place(&word).is_ok() | is_range
    });
}

#[test]
fn totals_lines() {
    let whole = shard::Shard::WHOLE;
    let sweep = totals::Totals::new(totals::Kind::Sweep { day: "2031-11-03".into() }, whole);
    let lines = [sweep, totals::Totals::new(totals::Kind::Verify, whole)].map(|totals| totals.value().to_string());
    let samples = lines.map(String::into_bytes);
    feed(6, &samples, |bytes| shard::parse(&text(bytes)).is_ok() | matches!(total::totals_of(bytes), Ok(Some(_))));
}

#[test]
fn listings() {
    let listing = "line 1 keep 2031-11-02\nline 2 correct 17 300 301 withdrawn\nline 3 withdraw\nstanding 1\n";
    feed(5, &[listing.as_bytes().to_vec()], |bytes| {
        let listing = text(bytes);
        for line in ledger::backwards(&listing) {
            line.to_string();
        }
        ledger::last_standing(&listing).is_some()
    });
}

/// Any bytes are asked, and what is named is a line of the ledger.
#[test]
fn lines_of_ledgers() {
    let keep = [[0x5f, 0xbe, 0xc4].as_slice(), &[0; 13]].concat();
    let withdraw = [[0x80].as_slice(), &[0; 15]].concat();
    let correct = (17u128 << 81 | 300 << 49 | 301 << 17).to_be_bytes().to_vec();
    let samples = [[correct.clone(), keep.clone()].concat(), [keep, correct, withdraw].concat()];
    feed(7, &samples, |bytes| {
        let (lines, day) = (ledger::lines(bytes), quayrudder::Date { year: 1, month: 1, day: 1 });
        let answers = [quayrudder::why_day(bytes, lines, day), quayrudder::why_pixel(bytes, lines, 17)];
        let named = answers.map(|answer| answer.line == 0 || ledger::line(bytes, answer.line).is_some());
        let bare = [0, 1, lines, lines + 1, u64::MAX].map(|number| ledger::line(bytes, number));
        assert!(named == [true; 2] && bare[0].is_none() && bare[3].is_none() && bare[4].is_none(), "{bytes:?}");
        answers.iter().any(|answer| answer.line != 0)
    });
}

#[test]
fn tables() {
    let samples: [&[u8]; 4] = [
        b"holding,pixel,count\na,5,90\n\"b, c\",6,4294967295\n",
        b"who;row;column;count;holding\nanna;1;2;90;a\n;;;;\n",
        b"{\"holding\":\"a\",\"pixel\":5,\"count\":\"90\"}\n\n{\"row\":6,\"column\":1,\"count\":1,\"holding\":\"b\"}\n",
        b"\xef\xbb\xbfcount\tpixel\tholding\r\n1\t2\ta\r\n",
    ];
    feed(6, &samples.map(<[u8]>::to_vec), |bytes| table::read(bytes).is_ok_and(|table| !table.rows.is_empty()));
}
