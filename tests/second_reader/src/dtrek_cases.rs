//! Cases of d*TREK images: headers with every freedom that they have, odd contents, and the damage done to their bytes.
use crate::case::{Call, Case, Mutation, Target};
use crate::dtrek::{DIGITS, MOST_BYTES, START};
use crate::dtrek_file::{Item, Parts, Shape};
use crate::frame::BLOCK;
use crate::generate::Made;
use crate::mar::ORDERS;
use crate::random::Random;

/// One image in so many has the most pixels, and one in so many the most columns or rows.
const FULL: u64 = 6000;
const LONG: u64 = 100;
/// One header in so many is as long as it may be and has the most items, and one in so many has hundreds.
const CROWDED: u64 = 2500;
const MANY: u64 = 50;

/// Keywords beside those that are looked at.
#[rustfmt::skip]
const NEAR: [&str; 16] = [
    "dim", "DIM2", "DI", "SIZE", "SIZE3", "Size1", "SIZE11", "SIZE22", "BYTE_ORDE", "byte_order", "data_type",
    "DATA_TYPE", "Compression", "RAXIS_COMPRESSION_RATIO", "HEADER_BYTE", "_",
];

/// For each keyword that is looked at, what may stand as its value.
#[rustfmt::skip]
const CONTENTS: [(&str, &[&str]); 6] = [
    ("DIM", &["2", "02", "0000000002", "00000000002", "4294967298", "3", "1", "0", "", "2 2", "+2", "2.0", "\r2"]),
    ("SIZE1", SIZES),
    ("SIZE2", SIZES),
    ("BYTE_ORDER", &["little_endian", "big_endian", "Big_endian", "LITTLE_ENDIAN", "", "little", "big_endian.", "big endian", "big_endian\r"]),
    ("Data_type", &["unsigned char", "unsigned short int", "unsigned long int", "unsigned  char", "Unsigned char", "unsigned lont int", "signed char", "short int", "long int", "float IEEE", "Compressed", "Other_type", "", "unsigned", "unsigned int", "unsigned\tchar"]),
    ("COMPRESSION", &["none", "None", "NONE", "", "non", "none.", "none none", "Compressed"]),
];
#[rustfmt::skip]
const SIZES: &[&str] = &[
    "0", "00", "1", "2", "4095", "4096", "4097", "8192", "65536", "65537", "4294967295", "4294967296", "4294967297",
    "0000000003", "00000000003", "-1", "", "3 3", "x", "1.0", "99999999999999999999",
];

fn some(random: &mut Random, texts: &[&str]) -> Vec<u8> {
    random.pick(texts).as_bytes().to_vec()
}

/// None most often, else any white space.
fn white(random: &mut Random) -> Vec<u8> {
    let length = random.pick(&[0, 0, 0, 0, 1, 1, 2, 5]);
    (0..length).map(|_| random.pick(b" \t\n")).collect()
}

/// A byte that a keyword may have.
fn key_byte(random: &mut Random) -> u8 {
    let any = random.byte();
    let letter = b'A' + random.index(26) as u8;
    let byte = random.pick(&[letter, letter, any, b'_', 0x0C, b'\r', 0, b'"']);
    if b" \t\n=;{}".contains(&byte) {
        letter
    } else {
        byte
    }
}

fn any_value(random: &mut Random) -> Vec<u8> {
    let length = random.pick(&[0, 1, 3, 10, 40]);
    let odd = [(); 40]
        .map(|()| random.byte())
        .map(|byte| if byte == b';' { b':' } else { byte });
    let listed = some(
        random,
        &[
            "",
            "2",
            "{",
            "}",
            "}\n\x0C\n",
            "\n}\n\x0C\n   ",
            "DIM=2",
            "=",
            "a b\tc\nd",
            "d*TREK version 9.4W",
        ],
    );
    match random.below(3) {
        0 => odd[..length].to_vec(),
        _ => listed,
    }
}

/// An item that nothing is read from.
fn other_item(random: &mut Random) -> Item {
    let length = random.pick(&[1, 2, 3, 8]);
    let key: Vec<u8> = (0..length).map(|_| key_byte(random)).collect();
    let near = some(random, &NEAR);
    Item {
        before: white(random),
        key: if random.once_in(3) { near } else { key },
        value: any_value(random),
    }
}

/// Short items with keywords of their own, for so many bytes.
fn short_items(bytes: usize) -> Vec<Item> {
    let letters: Vec<u8> = (0..=255)
        .filter(|byte| !b" \t\n=;{}".contains(byte))
        .collect();
    let long = letters
        .iter()
        .flat_map(|a| letters.iter().map(|b| vec![*a, *b]));
    let item = |key| Item {
        before: Vec::new(),
        key,
        value: Vec::new(),
    };
    letters
        .iter()
        .map(|a| vec![*a])
        .chain(long)
        .take(bytes / 5)
        .map(item)
        .collect()
}

/// How many bytes of items the header gets beside those that are looked at.
fn crowd(random: &mut Random) -> usize {
    if random.once_in(CROWDED) {
        return MOST_BYTES - 4 * BLOCK;
    }
    match random.once_in(MANY) {
        true => random.index(4 * BLOCK),
        false => 0,
    }
}

/// The same keyword once more, some place after the first item.
fn repeat(random: &mut Random, parts: &mut Parts) {
    let place = random.index(parts.items.len());
    let again = random.index(parts.items.len() + 1);
    let mut item = parts.items[place].clone();
    if random.once_in(4) {
        item.key = b"HEADER_BYTES".to_vec();
    }
    item.value = any_value(random);
    parts.items.insert(again, item);
}

/// A value that may not be allowed, or the item left out.
fn odd_content(random: &mut Random, parts: &mut Parts) {
    let (key, values) = random.pick(&CONTENTS);
    let found = parts
        .items
        .iter()
        .position(|item| item.key == key.as_bytes());
    match found {
        Some(place) if random.once_in(4) => drop(parts.items.remove(place)),
        Some(place) => parts.items[place].value = some(random, values),
        None => parts.items.push(Item::new(key, random.pick(values))),
    }
}

/// The header's length as it may be written, or another text.
fn stated(random: &mut Random, length: usize) -> Vec<u8> {
    let listed = [
        format!("{length:<DIGITS$}"),
        format!("{length:0>DIGITS$}"),
        format!("{length:^DIGITS$}"),
        format!("{length:\t>DIGITS$}"),
        format!("{length:\n<DIGITS$}"),
        format!("{length}"),
    ];
    let odd = [
        "99840", "99841", "99328", "00000", "  513", "  511", " 1024", "5 12 ", "+512 ", "512.0",
        "     ", "51200", "00512", "100352", "\r 512",
    ];
    match random.below(3) {
        0 => some(random, &odd),
        _ => some(random, &listed.each_ref().map(String::as_str)),
    }
}

/// White space put before keywords and around values.
fn spread(random: &mut Random, items: &mut [Item]) {
    for item in items {
        let value = std::mem::take(&mut item.value);
        item.before = white(random);
        item.value = [white(random), value, white(random)].concat();
    }
}

fn parts(random: &mut Random, shape: &Shape) -> Parts {
    let mut parts = Parts::new(shape);
    let others = random.pick(&[0, 0, 1, 3, 10]);
    parts.items.extend((0..others).map(|_| other_item(random)));
    if random.once_in(4) {
        parts.items.push(Item::new("COMPRESSION", "none"));
    }
    for _ in 0..random.pick(&[0, 0, 0, 0, 1, 1, 2]) {
        odd_content(random, &mut parts);
    }
    spread(random, &mut parts.items);
    let crowd = short_items(crowd(random));
    let once_in = if crowd.is_empty() { 20 } else { 3 };
    parts.items.extend(crowd);
    random.shuffle(&mut parts.items);
    if random.once_in(once_in) {
        repeat(random, &mut parts);
    }
    parts.before_closing = white(random);
    let blocks = random.pick(&[1, 1, 1, 1, 1, 2, 3, 20]);
    parts.least = if random.once_in(100) {
        MOST_BYTES
    } else {
        BLOCK * blocks
    };
    if random.once_in(8) {
        parts.stated = Some(stated(random, parts.header().len()));
    }
    parts
}

fn shape(random: &mut Random) -> Shape {
    let short = 1 + random.index(4);
    let small = [1 + random.index(12), 1 + random.index(12)];
    let sides = match random.below(FULL) {
        0 => [4096, 4096],
        at if at % LONG == 1 => [4096, short],
        at if at % LONG == 2 => [short, 4096],
        at if at % 12 == 3 => [0, 0],
        at if at % 12 == 4 => [1 + random.index(100), 1 + random.index(60)],
        _ => small,
    };
    Shape {
        columns: sides[0],
        rows: sides[1],
        width: random.pick(&[1, 2, 4]),
        order: random.pick(&ORDERS),
    }
}

/// Bytes with no period that a block could have.
fn mixed(random: &mut Random, length: usize) -> Vec<u8> {
    let fill = random.byte();
    let byte = |at: u32| (at.wrapping_mul(0x9E37_79B1) >> 24) as u8 ^ fill;
    (0..length as u32).map(byte).collect()
}

/// What the syntax is made of, in any order, between a header's start and its padding.
fn soup(random: &mut Random) -> Vec<u8> {
    let pieces = [
        "\n",
        "\n",
        ";\n",
        ";\n",
        "=",
        ";",
        " ",
        "\t",
        "DIM",
        "SIZE1",
        "2",
        "}",
        "}\n\x0C\n",
        "{",
        "\x0C",
        "a=b;\n",
        "c=;\n",
        "\nd= 1;",
    ];
    let length = random.index(30);
    let text: Vec<u8> = (0..length).flat_map(|_| some(random, &pieces)).collect();
    let mut bytes = [START, b"  512;\n".as_slice(), &text, b"}\n\x0C\n"].concat();
    bytes.resize(BLOCK, b' ');
    bytes
}

/// A byte that means something in a header, or any other.
fn telling(random: &mut Random) -> u8 {
    let any = random.byte();
    random.pick(&[
        b';', b'\n', b' ', b'=', b'{', b'}', 0x0C, b'\t', b'\r', b'0', any,
    ])
}

/// A place within the header, most often at a byte that means something.
fn place(random: &mut Random, file: &[u8], header: usize) -> usize {
    let within = header.min(file.len());
    let marks: Vec<usize> = (0..within)
        .filter(|at| b";=\n{}\x0C".contains(&file[*at]))
        .collect();
    let listed = [
        random.index(22),
        header - 1,
        random.index(within.max(1)),
        header,
    ];
    match random.below(3) {
        0 => random.pick(&listed),
        _ if marks.is_empty() => 0,
        _ => (random.pick(&marks) + random.index(3)).saturating_sub(1),
    }
}

/// A byte put in, or taken out; the header most often keeps its length.
fn shifted(random: &mut Random, file: &[u8], header: usize) -> Vec<Mutation> {
    let at = place(random, file, header);
    let (byte, last) = (telling(random), header - 1);
    let put_in = Mutation::Insert(Target::Frame, at, byte);
    let taken_out = Mutation::Remove(Target::Frame, at);
    match random.below(6) {
        0 => vec![put_in],
        1 => vec![taken_out],
        2 | 3 => vec![put_in, Mutation::Remove(Target::Frame, header)],
        _ => vec![taken_out, Mutation::Insert(Target::Frame, last, b' ')],
    }
}

fn damage(random: &mut Random, case: &Case, header: usize, shape: &Shape) -> Vec<Mutation> {
    let end = header + shape.image_bytes();
    match random.below(8) {
        0..=2 => vec![Mutation::Patch(
            Target::Frame,
            place(random, &case.frame, header),
            vec![telling(random)],
        )],
        3 | 4 => shifted(random, &case.frame, header),
        5 => {
            let most = shape.pixels();
            vec![Mutation::Pixels(random.pick(&[
                0,
                most.saturating_sub(1),
                most,
                most + 1,
            ]))]
        }
        _ => {
            let edge =
                random.pick(&[1, 15, 20, 21, 22, header, header, end, end, end]) + random.index(3);
            vec![Mutation::Resize(Target::Frame, edge.saturating_sub(1))]
        }
    }
}

/// A place from which an item is asked for.
fn asked(random: &mut Random, file: &[u8], header: usize) -> u64 {
    let behind: Vec<usize> = (0..header.min(file.len()))
        .filter(|at| file[*at] == b';')
        .collect();
    let item = behind
        .get(random.index(behind.len()))
        .map_or(1, |at| at + 1);
    let any = random.index(header + 2);
    let near = random.pick(&[0, 1, 1, 2, 20, 21, header - 1, header, header + 1]);
    match random.below(12) {
        0 => random.pick(&[u64::MAX, 1 << 32, (1 << 32) + 1, 1 << 63]),
        1..=7 => item as u64,
        8 | 9 => near as u64,
        _ => any as u64,
    }
}

/// What a run should have met.
fn rare(shape: &Shape, header: usize) -> Option<&'static str> {
    match (shape.pixels(), header) {
        (0x100_0000, _) => Some("d*TREK images of 4096 x 4096"),
        (_, 90_000..) => Some("d*TREK headers from 90,000 bytes on"),
        (0, _) => Some("d*TREK images of no pixels"),
        _ => None,
    }
}

pub fn case(random: &mut Random, call: Call) -> Made {
    let shape = shape(random);
    let mut file = match random.below(12) {
        0 => soup(random),
        _ => parts(random, &shape).header(),
    };
    let header = file.len();
    file.extend(mixed(random, shape.image_bytes()));
    let trailing = random.pick(&[0, 0, 1, 7]);
    file.extend(mixed(random, trailing));
    let mut base = Case::of(call);
    base.step.pixel = asked(random, &file, header);
    base.pixels = vec![random.next() as u32; shape.pixels() + random.pick(&[0, 0, 1, 5])];
    base.frame = file.into();
    let times = random.pick(&[0, 0, 0, 1, 1, 2, 3]);
    let damage = (0..times).flat_map(|_| damage(random, &base, header, &shape));
    Made {
        size: None,
        rare: rare(&shape, header),
        damage: damage.collect(),
        base,
    }
}
