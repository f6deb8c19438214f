//! A fixed list of mar images, each with its answer written down in mar_trials.txt.
use crate::case::{Call, Case};
use crate::mar::{Order, MARK, PAIR};
use crate::plate::{self, Plate};
use crate::written_down::{self, array_words, both};
use std::rc::Rc;

const EXPECTED: &str = include_str!("../mar_trials.txt");

/// Places lent behind the last pixel.
const SPARE: usize = 3;
/// The step between the pixels that have a pair, down from the last pixel.
const STEP: usize = 1000;
/// The address of the pixel of 65535 that has no pair.
const ALONE: usize = 5;

/// Entries 7 to 25: NaNs, infinities, zeros and the like among the floats.
const REST: [u32; 19] = [
    7,
    8,
    0x8000_0000,
    0xFFFF_FFFF,
    0x3F80_0000,
    0x7FC1_2345,
    0x7F80_0001,
    0xFFFF_FFFF,
    0x7F80_0000,
    0xFF80_0000,
    0x8000_0000,
    0x0000_0001,
    0x0000_0000,
    0x3FC5_5810,
    0x7F7F_FFFF,
    0xFFC0_0000,
    0x7FBF_FFFF,
    0x1234_5678,
    0x8000_0001,
];

/// An image in which the pixel with address `a` is stored as `a - 1` modulo 1000, but for 65535 at ALONE and under each
/// pair. Pair `k` has the address that is `k` steps before the last pixel, and the count 65536 + `k`.
#[derive(Clone)]
struct Image {
    plate: Plate,
    file: Rc<Vec<u8>>,
    /// Places of the array.
    places: usize,
}

fn header(plate: Plate, pairs: u32) -> Vec<u8> {
    let mut entries = plate.lead(pairs).to_vec();
    entries[3] = 0xDEAD_BEEF;
    entries.extend(REST);
    plate.header(&entries, 0xFF)
}

impl Image {
    fn new(plate: Plate, pairs: u32) -> Image {
        let pixels = plate.pixels();
        let mut stored: Vec<u16> = (0..pixels).map(|place| (place % 1000) as u16).collect();
        stored[ALONE - 1] = MARK;
        let address = |pair: u32| pixels - STEP * pair as usize;
        for pair in 0..pairs {
            stored[address(pair) - 1] = MARK;
        }
        let pairs: Vec<(u32, u32)> = (0..pairs).map(|k| (address(k) as u32, 65536 + k)).collect();
        let mut file = header(plate, pairs.len() as u32);
        file.extend(stored.iter().flat_map(|value| plate.pixel(*value)));
        file.extend(plate.table(&pairs, 0xEE));
        Image {
            plate,
            file: file.into(),
            places: pixels + SPARE,
        }
    }

    fn pixels(&self) -> u32 {
        self.plate.pixels() as u32
    }

    /// The place of the last pair of the first record.
    fn last(&self) -> usize {
        self.plate.pairs_per_record() - 1
    }

    fn put(&mut self, at: usize, bytes: &[u8]) {
        Rc::make_mut(&mut self.file)[at..at + bytes.len()].copy_from_slice(bytes);
    }

    fn length(&mut self, bytes: usize) {
        Rc::make_mut(&mut self.file).resize(bytes, 0xCC);
    }

    /// So many whole records, less some bytes.
    fn records(&mut self, records: usize, less: usize) {
        self.length(records * self.plate.record() - less);
    }

    fn entry(&mut self, entry: usize, value: u32) {
        self.put(4 * (entry - 1), &self.plate.number(value));
    }

    /// Another number of pairs, with the records that hold them.
    fn claim(&mut self, pairs: u32) {
        self.entry(5, pairs);
        self.entry(6, self.plate.records(pairs));
    }

    fn address(&mut self, pair: usize, address: u32) {
        let at = self.plate.image_end() + PAIR * pair;
        self.put(at, &self.plate.number(address));
    }

    fn count(&mut self, pair: usize, count: u32) {
        let at = self.plate.image_end() + PAIR * pair + 4;
        self.put(at, &self.plate.number(count));
    }

    fn pixel(&mut self, address: u32, value: u16) {
        let at = self.plate.record() + 2 * (address as usize - 1);
        self.put(at, &self.plate.pixel(value));
    }
}

/// What is done to an image with one record of pairs and one pair more.
type Change = fn(&mut Image);

const CHANGES: [(&str, Change); 61] = [
    ("no bytes", |i| i.length(0)),
    ("three bytes", |i| i.length(3)),
    ("first number 0", |i| i.entry(1, 0)),
    ("first number 1199", |i| i.entry(1, 1199)),
    ("first number 1201", |i| i.entry(1, 1201)),
    ("first number 1999", |i| i.entry(1, 1999)),
    ("first number 2001", |i| i.entry(1, 2001)),
    ("first number 2400", |i| i.entry(1, 2400)),
    ("first number with its halves swapped", |i| {
        i.entry(1, (i.plate.side as u32) << 16)
    }),
    ("no such size in three bytes", |i| {
        i.entry(1, 1);
        i.length(3);
    }),
    ("four bytes", |i| i.length(4)),
    ("a record less a byte", |i| i.records(1, 1)),
    ("a record less a byte and no array", |i| {
        i.records(1, 1);
        i.places = 0;
    }),
    ("second number the other size", |i| {
        i.entry(2, 3200 - i.plate.side as u32)
    }),
    ("second number one more", |i| {
        i.entry(2, i.plate.side as u32 + 1)
    }),
    ("second number with its bytes swapped", |i| {
        i.entry(2, (i.plate.side as u32).swap_bytes())
    }),
    ("first number with its bytes swapped", |i| {
        i.entry(1, (i.plate.side as u32).swap_bytes())
    }),
    ("third number the other record", |i| {
        i.entry(3, 6400 - i.plate.record() as u32)
    }),
    ("third number one less", |i| {
        i.entry(3, i.plate.record() as u32 - 1)
    }),
    ("third number 0", |i| i.entry(3, 0)),
    ("sixth number 1", |i| i.entry(6, 1)),
    ("sixth number 3", |i| i.entry(6, 3)),
    ("sixth number 0", |i| i.entry(6, 0)),
    ("fifth number 0", |i| i.entry(5, 0)),
    ("fifth number one record's", |i| {
        i.entry(5, i.plate.pairs_per_record() as u32)
    }),
    ("fifth number 4294967295", |i| i.entry(5, u32::MAX)),
    ("sixth number 1 and no array", |i| {
        i.entry(6, 1);
        i.places = 0;
    }),
    ("array one place short", |i| i.places -= SPARE + 1),
    ("no array", |i| i.places = 0),
    ("array one place short, header alone", |i| {
        i.places -= SPARE + 1;
        i.records(1, 0);
    }),
    ("header alone", |i| i.records(1, 0)),
    ("header and a byte", |i| i.length(i.plate.record() + 1)),
    ("image less a byte", |i| i.records(1 + i.plate.side, 1)),
    ("image alone", |i| i.records(1 + i.plate.side, 0)),
    ("first pairs less a byte", |i| {
        i.records(2 + i.plate.side, 1)
    }),
    ("first pairs alone", |i| i.records(2 + i.plate.side, 0)),
    ("last pairs less a byte", |i| i.records(3 + i.plate.side, 1)),
    ("4294967295 pairs claimed", |i| i.claim(u32::MAX)),
    ("one pair for each pixel claimed", |i| i.claim(i.pixels())),
    ("bad pair 0, last pairs less a byte", |i| {
        i.address(0, 0);
        i.records(3 + i.plate.side, 1);
    }),
    ("no pairs claimed, image less a byte", |i| {
        i.claim(0);
        i.records(1 + i.plate.side, 1);
    }),
    ("address 0 in pair 0", |i| i.address(0, 0)),
    ("address past the last pixel in pair 1", |i| {
        i.address(1, i.pixels() + 1)
    }),
    ("pair 0 at pixel 65535, pair 1 past the last pixel", |i| {
        i.pixel(65535, MARK);
        i.address(0, 65535);
        i.address(1, i.pixels() + 1);
    }),
    ("address 4294967295 in pair 2", |i| i.address(2, u32::MAX)),
    ("pixel 65534 under pair 3", |i| {
        i.pixel(i.pixels() - 3000, 65534)
    }),
    ("unmarked pixel in pair 4", |i| i.address(4, 6)),
    ("pair 6 at pair 5's pixel", |i| {
        i.address(6, i.pixels() - 5000)
    }),
    ("count 0 in pair 7", |i| i.count(7, 0)),
    ("count 65535 in the first record's last pair", |i| {
        i.count(i.last(), 65535)
    }),
    ("last pair at pair 0's pixel", |i| {
        i.address(i.last() + 1, i.pixels())
    }),
    ("bad pairs 250 and 20", |i| {
        i.count(250, 1);
        i.address(20, 7);
    }),
    ("one pair more claimed", |i| {
        i.claim(i.plate.pairs_per_record() as u32 + 2)
    }),
    ("address 0 in pair 0, no place to spare", |i| {
        i.address(0, 0);
        i.places -= SPARE;
    }),
    ("as it is", |_| {}),
    ("no place to spare", |i| i.places -= SPARE),
    ("bytes behind", |i| i.length(i.file.len() + 1000)),
    ("fourth number 0", |i| i.entry(4, 0)),
    ("one pair less claimed", |i| {
        i.claim(i.plate.pairs_per_record() as u32);
    }),
    ("count 4294967295 at the pixel alone", |i| {
        i.address(0, ALONE as u32);
        i.count(0, u32::MAX);
    }),
    ("pair 0 at pixel 1", |i| {
        i.pixel(1, MARK);
        i.address(0, 1);
    }),
];

fn read_line(name: &str, image: Image) -> String {
    let mut case = Case::of(Call::MarRead);
    case.frame = image.file;
    case.pixels = image.plate.array(image.places);
    let (outcome, note) = both(&case);
    let array = array_words(&case.pixels, &outcome.after.pixels, image.plate.pixels());
    format!(
        "{}: {name}: {}: {array}{note}",
        kind(image.plate),
        outcome.words()
    )
}

fn kind(plate: Plate) -> String {
    let order = match plate.order {
        Order::LittleEndian => "little",
        Order::BigEndian => "big",
    };
    format!("{} {order}", plate.side)
}

/// The question for an entry of a header record and nothing more, with something done to it.
fn entry_line(plate: Plate, entry: u32, name: &str, change: Change) -> String {
    let mut image = Image {
        plate,
        file: header(plate, 301).into(),
        places: 0,
    };
    change(&mut image);
    let mut case = Case::of(Call::MarEntry);
    case.frame = image.file;
    case.step.count = entry;
    let (outcome, note) = both(&case);
    let [refusal, is_float, bits] = outcome.answer() else {
        return "no answer".to_string();
    };
    let kind = kind(plate);
    format!("{kind}: entry {entry}{name}: {refusal} {is_float} {bits:08x}{note}")
}

fn entry_lines(plate: Plate) -> Vec<String> {
    let entries = [0, 26, u32::MAX].into_iter().chain(1..=25);
    let mut lines: Vec<String> = entries
        .map(|entry| entry_line(plate, entry, "", |_| {}))
        .collect();
    let changed: [(&str, Change); 4] = [
        (", no such size", |i| i.entry(1, 1199)),
        (", three bytes", |i| i.length(3)),
        (", a record less a byte", |i| i.records(1, 1)),
        (", sixth number 0", |i| i.entry(6, 0)),
    ];
    for (name, change) in changed {
        lines.extend([1, 26].map(|entry| entry_line(plate, entry, name, change)));
    }
    lines
}

fn lines() -> impl Iterator<Item = String> {
    let accepted = plate::kinds().into_iter().flat_map(|plate| {
        let pairs = [0, 1, 300, 301, 500, 501].into_iter();
        pairs.map(move |n| read_line(&format!("{n} pairs"), Image::new(plate, n)))
    });
    let kinds = [(Order::LittleEndian, 1200), (Order::BigEndian, 2000)];
    let kinds = kinds.map(|(order, side)| Plate { order, side });
    let changed = kinds.into_iter().flat_map(|plate| {
        let base = Image::new(plate, plate.pairs_per_record() as u32 + 1);
        CHANGES.into_iter().map(move |(name, change)| {
            let mut image = base.clone();
            change(&mut image);
            read_line(name, image)
        })
    });
    accepted
        .chain(changed)
        .chain(kinds.into_iter().flat_map(entry_lines))
}

pub fn run() -> bool {
    written_down::run("mar", EXPECTED, lines())
}
