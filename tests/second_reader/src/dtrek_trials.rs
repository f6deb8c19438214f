//! A fixed list of d*TREK images, each with its answer written down in dtrek_trials.txt.
use crate::case::{Call, Case};
use crate::dtrek::{MOST_BYTES, START};
use crate::dtrek_file::{Item, Parts, Shape};
use crate::frame::BLOCK;
use crate::mar::{Order, ORDERS};
use crate::written_down::{self, array_words, both};

const EXPECTED: &str = include_str!("../dtrek_trials.txt");

/// Places lent behind the last pixel.
const SPARE: usize = 3;
/// Pixel `i`, from 0, is stored as `i + 1` times this, cut to its width.
const STEP: u32 = 2_654_435_761;
/// Bytes that no keyword has.
const EXCLUDED: &[u8] = b" \t\n=;{}";

#[derive(Clone)]
struct Image {
    shape: Shape,
    header: Vec<u8>,
    /// Bytes of the file.
    length: usize,
    /// Places of the array.
    places: usize,
}

/// Two rows of three pixels, two bytes each, most significant first.
const SHAPE: Shape = Shape {
    columns: 3,
    rows: 2,
    width: 2,
    order: Order::BigEndian,
};

impl Image {
    fn new(shape: Shape, header: Vec<u8>) -> Image {
        Image {
            length: header.len() + shape.image_bytes(),
            places: shape.pixels() + SPARE,
            shape,
            header,
        }
    }

    fn plain(shape: Shape) -> Image {
        Image::new(shape, Parts::new(&shape).header())
    }

    /// The bytes before the padding.
    fn text(&self) -> usize {
        self.header.len()
            - self
                .header
                .iter()
                .rev()
                .take_while(|byte| **byte == b' ')
                .count()
    }

    /// Another text at the only place of one, and as many spaces as fill whole blocks.
    fn swap(&mut self, old: &[u8], new: &[u8]) {
        let text = &self.header[..self.text()];
        let found: Vec<usize> = (0..text.len())
            .filter(|at| text[*at..].starts_with(old))
            .collect();
        let [at] = found[..] else {
            panic!("{} stands {} times", old.escape_ascii(), found.len());
        };
        let mut header = [&text[..at], new, &text[at + old.len()..]].concat();
        header.resize(header.len().next_multiple_of(BLOCK), b' ');
        self.length = self.length + header.len() - self.header.len();
        self.header = header;
    }

    /// Items put before the first of the required ones.
    fn add(&mut self, items: &[u8]) {
        self.swap(b"DIM=", &[items, b"DIM="].concat());
    }

    fn put(&mut self, at: usize, byte: u8) {
        self.header[at] = byte;
    }

    /// The characters of the header's length.
    fn state(&mut self, text: &str) {
        self.header
            .splice(START.len()..START.len() + 5, text.bytes());
    }

    /// A header as long as may be, stated so.
    fn longest(&mut self) {
        self.length += MOST_BYTES - self.header.len();
        self.header.resize(MOST_BYTES, b' ');
        self.state("99840");
    }

    /// Items with short keywords of their own, until the header is full; the last has this keyword.
    fn crowd(&mut self, last: &str) {
        let bytes: Vec<u8> = (0..=255).filter(|byte| !EXCLUDED.contains(byte)).collect();
        let key = |at: usize| vec![bytes[at / bytes.len()], bytes[at % bytes.len()]];
        let last = format!("{last}=;\n").into_bytes();
        let room = MOST_BYTES - self.text() - last.len();
        let items = (0..room / 5).flat_map(|at| [key(at), b"=;\n".to_vec()].concat());
        let items: Vec<u8> = items.chain(last).collect();
        self.swap(b"}\n\x0C\n", &[items.as_slice(), b"}\n\x0C\n"].concat());
        self.state("99840");
    }

    /// A value so long that the header without its padding has this length, of which one block is left.
    fn fill(&mut self, length: usize) {
        let value = "x".repeat(length - self.text() - b"A=;\n".len());
        self.add(format!("A={value};\n").as_bytes());
        self.header.truncate(BLOCK);
        self.length = BLOCK + self.shape.image_bytes();
    }

    fn file(&self) -> Vec<u8> {
        let pixels =
            (1..=self.shape.pixels() as u32).flat_map(|at| self.shape.pixel(at.wrapping_mul(STEP)));
        let mut file: Vec<u8> = self.header.iter().copied().chain(pixels).collect();
        file.resize(self.length, 0xCC);
        file
    }
}

/// What is done to an image.
type Change = fn(&mut Image);

/// One text of the header replaced by another.
const SWAPS: [(&str, &str, &str); 109] = [
    ("value after a space", "DIM=2", "DIM= 2"),
    ("tab before the semicolon", "DIM=2", "DIM=2\t"),
    ("newlines around a value", "DIM=2", "DIM=\n\n2\n"),
    ("spaces before a keyword", "DIM=", "    DIM="),
    ("tab before a keyword", "SIZE2=", "\tSIZE2="),
    ("newlines before a keyword", "SIZE2=", "\n\n\nSIZE2="),
    (
        "white space of every kind before the brace",
        "}\n\x0C\n",
        " \t\n\n }\n\x0C\n",
    ),
    ("empty value", "DIM=", "COMMENT=;\nDIM="),
    ("value of white space", "DIM=", "COMMENT= \t\n;\nDIM="),
    ("value with braces", "DIM=", "COMMENT={ } }{;\nDIM="),
    (
        "value with the end of the header in it",
        "DIM=",
        "COMMENT=}\n\x0C\n   ;\nDIM=",
    ),
    (
        "value with items in it",
        "DIM=",
        "COMMENT=a\nDIM=3\nb=c;\nDIM=",
    ),
    ("keyword of one byte", "DIM=", "a=1;\nDIM="),
    ("keyword with a digit first", "DIM=", "2D_A-b.c\"=1;\nDIM="),
    (
        "keyword with form feed and carriage return",
        "DIM=",
        "\x0C\rA=1;\nDIM=",
    ),
    (
        "keywords that differ in case",
        "DIM=",
        "dim=3;\nSize1=9;\nsize2=9;\ndata_type=x;\ncompression=x;\nDIM=",
    ),
    (
        "keywords that start as others",
        "DIM=",
        "DI=3;\nDIM2=3;\nSIZE=9;\nSIZE11=9;\nHEADER_BYTE=1;\nDIM=",
    ),
    ("R-AXIS ratio", "DIM=", "RAXIS_COMPRESSION_RATIO= 8;\nDIM="),
    ("compression none", "DIM=", "COMPRESSION=none;\nDIM="),
    (
        "compression none with white space",
        "DIM=",
        "COMPRESSION=\t none\n ;\nDIM=",
    ),
    ("DIM 02", "DIM=2", "DIM=02"),
    ("SIZE1 of ten digits", "SIZE1=3", "SIZE1=0000000003"),
    ("no newline after the length", "512;\n", "512; "),
    ("nothing after the length", "512;\n", "512;"),
    ("carriage return after the length", "512;\n", "512;\r\n"),
    ("space after a semicolon", "DIM=2;\n", "DIM=2; \n"),
    (
        "carriage return after a semicolon",
        "DIM=2;\n",
        "DIM=2;\r\n",
    ),
    ("no newline after a semicolon", "DIM=2;\n", "DIM=2;"),
    ("two semicolons", "DIM=2;\n", "DIM=2;;\n"),
    ("semicolon on a line of its own", "DIM=2;\n", "DIM=2;\n;\n"),
    ("no newline after the last semicolon", "int;\n", "int;"),
    ("space before the equals sign", "DIM=", "DIM ="),
    ("tab before the equals sign", "DIM=", "DIM\t="),
    ("newline before the equals sign", "DIM=", "DIM\n="),
    ("white space within a keyword", "DIM=", "D IM="),
    ("no equals sign", "DIM=2", "DIM2"),
    ("no keyword", "DIM=", "="),
    ("opening brace before a keyword", "DIM=", "{DIM="),
    ("closing brace in a keyword", "DIM=", "D}IM="),
    ("closing brace before a keyword", "DIM=", "}DIM="),
    ("carriage return before a keyword", "DIM=", "\rDIM="),
    ("form feed alone on a line", "DIM=", "\x0C\nDIM="),
    ("last semicolon missing", "int;", "int"),
    ("semicolon of another item missing", "DIM=2;", "DIM=2"),
    ("no brace", "}\n\x0C\n", "\n\x0C\n"),
    ("brace alone", "}\n\x0C\n", "}"),
    ("brace and newline alone", "}\n\x0C\n", "}\n"),
    ("last newline missing", "}\n\x0C\n", "}\n\x0C"),
    ("form feed missing", "}\n\x0C\n", "}\n\n"),
    ("first newline missing", "}\n\x0C\n", "}\x0C\n"),
    ("space after the brace", "}\n\x0C\n", "} \n\x0C\n"),
    ("space before the form feed", "}\n\x0C\n", "}\n \x0C\n"),
    ("carriage returns in the end", "}\n\x0C\n", "}\r\n\x0C\r\n"),
    ("end of the header twice", "}\n\x0C\n", "}\n\x0C\n}\n\x0C\n"),
    ("item after the end", "}\n\x0C\n", "}\n\x0C\nA=1;\n"),
    ("semicolon after the end", "}\n\x0C\n", "}\n\x0C\n;"),
    (
        "first and last keyword the same",
        "DIM=",
        "Data_type=1;\nDIM=",
    ),
    ("neighbours the same", "SIZE1=3;\n", "SIZE1=3;\nSIZE1=3;\n"),
    (
        "neighbours the same, second after white space",
        "SIZE1=3;\n",
        "SIZE1=3;\n \t\nSIZE1=3;\n",
    ),
    ("HEADER_BYTES twice", "DIM=", "HEADER_BYTES=  512;\nDIM="),
    (
        "HEADER_BYTES last",
        "}\n\x0C\n",
        "HEADER_BYTES=;\n}\n\x0C\n",
    ),
    (
        "a keyword that is not looked at twice",
        "DIM=2;\n",
        "A=1;\nDIM=2;\nA=;\n",
    ),
    ("a keyword three times", "DIM=", "A=1;\nA=2;\nA=3;\nDIM="),
    ("DIM missing", "DIM=2;\n", ""),
    ("SIZE1 missing", "SIZE1=3;\n", ""),
    ("SIZE2 missing", "SIZE2=2;\n", ""),
    ("BYTE_ORDER missing", "BYTE_ORDER=big_endian;\n", ""),
    ("Data_type missing", "Data_type=unsigned short int;\n", ""),
    ("DIM in small letters", "DIM=", "dim="),
    ("DIM 1", "DIM=2", "DIM=1"),
    ("DIM 3", "DIM=2", "DIM=3"),
    ("DIM 0", "DIM=2", "DIM=0"),
    ("DIM empty", "DIM=2", "DIM="),
    ("DIM +2", "DIM=2", "DIM=+2"),
    ("DIM 2.0", "DIM=2", "DIM=2.0"),
    ("DIM 2 2", "DIM=2", "DIM=2 2"),
    ("DIM of eleven digits", "DIM=2", "DIM=00000000002"),
    ("DIM 4294967298", "DIM=2", "DIM=4294967298"),
    ("SIZE1 0", "SIZE1=3", "SIZE1=0"),
    ("SIZE2 0", "SIZE2=2", "SIZE2=0"),
    ("SIZE1 4097", "SIZE1=3", "SIZE1=4097"),
    ("SIZE2 4097", "SIZE2=2", "SIZE2=4097"),
    ("SIZE1 4294967295", "SIZE1=3", "SIZE1=4294967295"),
    ("SIZE1 4294967296", "SIZE1=3", "SIZE1=4294967296"),
    ("SIZE2 4294967298", "SIZE2=2", "SIZE2=4294967298"),
    ("SIZE1 of eleven digits", "SIZE1=3", "SIZE1=00000000003"),
    ("SIZE1 empty", "SIZE1=3", "SIZE1="),
    ("SIZE2 -2", "SIZE2=2", "SIZE2=-2"),
    ("BYTE_ORDER empty", "=big_endian", "="),
    ("BYTE_ORDER with a capital", "=big_endian", "=Big_endian"),
    (
        "BYTE_ORDER with another underscore",
        "=big_endian",
        "=big_endian_",
    ),
    (
        "BYTE_ORDER with a carriage return",
        "=big_endian",
        "=big_endian\r",
    ),
    ("signed char", "unsigned short int", "signed char"),
    ("short int", "unsigned short int", "short int"),
    ("long int", "unsigned short int", "long int"),
    ("float IEEE", "unsigned short int", "float IEEE"),
    ("Compressed", "unsigned short int", "Compressed"),
    ("Other_type", "unsigned short int", "Other_type"),
    (
        "unsigned lont int",
        "unsigned short int",
        "unsigned lont int",
    ),
    (
        "two spaces in a type",
        "unsigned short int",
        "unsigned  short int",
    ),
    ("tab in a type", "unsigned short int", "unsigned\tshort int"),
    (
        "type with a capital",
        "unsigned short int",
        "Unsigned short int",
    ),
    ("type empty", "unsigned short int", ""),
    ("type of white space", "unsigned short int", " \n"),
    ("compression None", "DIM=", "COMPRESSION=None;\nDIM="),
    ("compression empty", "DIM=", "COMPRESSION=;\nDIM="),
    (
        "compression of white space",
        "DIM=",
        "COMPRESSION= \t;\nDIM=",
    ),
    (
        "compression none twice in a value",
        "DIM=",
        "COMPRESSION=none none;\nDIM=",
    ),
    ("compression another", "DIM=", "COMPRESSION=gzip;\nDIM="),
];

/// The characters of the length in a file that has a header of 512 bytes.
#[rustfmt::skip]
const LENGTHS: [&str; 25] = [
    "  512", "512  ", " 512 ", "00512", "\t\t512", "512\n\n", "\n512\t", " 0512", "  511", "  513",
    "  256", "    0", "00000", "     ", "5 12 ", "+512 ", "-512 ", "512.0", "0x200", "\r 512",
    "512; ", "99841", "99999", "0512", "100352",
];

const CHANGES: [(&str, Change); 64] = [
    ("as it is", |_| {}),
    ("no place to spare", |i| i.places -= SPARE),
    ("bytes behind", |i| i.length += 1000),
    (
        "every item after white space and with it around its value",
        |i| {
            let text = String::from_utf8_lossy(&i.header)
                .trim_end_matches(' ')
                .to_string();
            let (start, rest) = text.split_at(START.len() + 7);
            let spread = rest.replace("=", "= \t\n").replace(";\n", "\n\t ;\n \t\n");
            i.header = format!("{start}\n \t{spread}").into_bytes();
            i.header.resize(BLOCK, b' ');
        },
    ),
    ("items the other way round", |i| {
        other_order(i, |items| items.reverse())
    }),
    ("Data_type first", |i| {
        other_order(i, |items| items.rotate_right(1))
    }),
    ("SIZE2 before SIZE1", |i| {
        other_order(i, |items| items.swap(1, 2))
    }),
    ("value of every byte but a semicolon", |i| {
        let bytes: Vec<u8> = (0..=255).filter(|byte| *byte != b';').collect();
        i.add(&[b"A=", bytes.as_slice(), b";\n"].concat());
    }),
    ("a keyword of each byte that may be in one", |i| {
        let bytes = (0..=255).filter(|byte| !EXCLUDED.contains(byte));
        let items: Vec<u8> = bytes.flat_map(|byte| [byte, b'=', b';', b'\n']).collect();
        i.add(&items);
        i.state(" 1536");
    }),
    ("no padding", |i| i.fill(512)),
    ("one byte of padding", |i| i.fill(511)),
    ("length 1024", |i| {
        i.header.resize(1024, b' ');
        i.length += 512;
        i.state(" 1024");
    }),
    ("length 99840", |i| i.longest()),
    ("length 99840 full of items", |i| i.crowd("ABC")),
    ("length 99840 full of items, last as an early one", |i| {
        i.crowd("\x02\x02")
    }),
    ("length 99840 full of items, last HEADER_BYTES", |i| {
        i.crowd("HEADER_BYTES")
    }),
    ("length 99840 full of items, last DIM", |i| i.crowd("DIM")),
    ("length 99840 with an x as the last byte", |i| {
        i.longest();
        i.put(MOST_BYTES - 1, b'x');
    }),
    ("no bytes", |i| i.length = 0),
    ("one byte", |i| i.length = 1),
    ("20 bytes", |i| i.length = 20),
    ("first byte another", |i| i.put(0, b'[')),
    ("second byte another", |i| i.put(1, b' ')),
    ("carriage return before the first newline", |i| {
        i.header.insert(1, b'\r')
    }),
    ("space before HEADER_BYTES", |i| i.header.insert(2, b' ')),
    ("HEADER_BYTES in small letters", |i| {
        i.header[2..14].make_ascii_lowercase()
    }),
    ("space before the first equals sign", |i| {
        i.header.insert(14, b' ')
    }),
    ("colon for the first semicolon", |i| i.put(20, b':')),
    ("21 bytes", |i| i.length = 21),
    ("511 bytes", |i| i.length = 511),
    ("length 1024 stated, 1023 bytes", |i| {
        i.state(" 1024");
        i.length = 1023;
    }),
    ("length 1024 stated for 512", |i| {
        i.state(" 1024");
        i.length = 1100;
    }),
    ("length 99840, 99839 bytes", |i| {
        i.longest();
        i.length = MOST_BYTES - 1;
    }),
    ("x in the first byte of padding", |i| i.put(i.text(), b'x')),
    ("x in the middle of padding", |i| i.put(300, b'x')),
    ("x in the last byte of padding", |i| i.put(511, b'x')),
    ("zero byte in the first byte of padding", |i| {
        i.put(i.text(), 0)
    }),
    ("tab in the middle of padding", |i| i.put(300, b'\t')),
    ("newline in the last byte of padding", |i| i.put(511, b'\n')),
    ("one byte of the end past the header", |i| i.fill(513)),
    ("all but the brace of the end past the header", |i| {
        i.fill(515)
    }),
    ("the end past the header", |i| i.fill(516)),
    ("last newline past the header", |i| i.fill(517)),
    ("last semicolon past the header", |i| i.fill(518)),
    ("512 stated for a header of 1024", |i| {
        i.add(format!("A={};\n", "x".repeat(500)).as_bytes());
    }),
    ("array one place short", |i| i.places -= SPARE + 1),
    ("no array", |i| i.places = 0),
    ("image less a byte", |i| i.length -= 1),
    ("header alone", |i| i.length = 512),
    ("length 513 in 21 bytes", |i| {
        i.state("  513");
        i.length = 21;
    }),
    ("first byte another, 511 bytes", |i| {
        i.put(0, b'[');
        i.length = 511;
    }),
    ("x in the first byte of padding, 511 bytes", |i| {
        i.put(i.text(), b'x');
        i.length = 511;
    }),
    ("DIM missing, 511 bytes", |i| {
        i.swap(b"DIM=2;\n", b"");
        i.length = 511;
    }),
    ("DIM missing, x in the last byte of padding", |i| {
        i.swap(b"DIM=2;\n", b"");
        i.put(511, b'x');
    }),
    ("DIM 3, SIZE1 twice", |i| {
        i.swap(b"DIM=2;\n", b"DIM=3;\nSIZE1=3;\n")
    }),
    ("type another, SIZE1 twice", |i| {
        i.swap(b"unsigned short", b"short");
        i.add(b"SIZE1=3;\n");
    }),
    ("DIM 3, type another", |i| {
        i.swap(b"DIM=2", b"DIM=3");
        i.swap(b"unsigned short", b"short");
    }),
    ("SIZE1 4097, compression another", |i| {
        i.swap(b"SIZE1=3", b"SIZE1=4097");
        i.add(b"COMPRESSION=gzip;\n");
    }),
    ("Data_type missing, compression another", |i| {
        i.swap(b"Data_type=unsigned short int;\n", b"COMPRESSION=gzip;\n");
    }),
    ("DIM 3, no array", |i| {
        i.swap(b"DIM=2", b"DIM=3");
        i.places = 0;
    }),
    ("type another, no array", |i| {
        i.swap(b"unsigned short", b"short");
        i.places = 0;
    }),
    ("type another, header alone", |i| {
        i.swap(b"unsigned short", b"short");
        i.length = 512;
    }),
    ("compression another, image less a byte", |i| {
        i.add(b"COMPRESSION=gzip;\n");
        i.length -= 1;
    }),
    ("array one place short, image less a byte", |i| {
        i.places -= SPARE + 1;
        i.length -= 1;
    }),
];

fn other_order(image: &mut Image, turn: fn(&mut [Item])) {
    let mut parts = Parts::new(&image.shape);
    turn(&mut parts.items);
    image.header = parts.header();
}

fn read_line(name: &str, image: &Image) -> String {
    let mut case = Case::of(Call::DtrekRead);
    case.frame = image.file().into();
    case.pixels = (0..image.places as u32).map(|at| !at).collect();
    let (outcome, note) = both(&case);
    let array = array_words(&case.pixels, &outcome.after.pixels, image.shape.pixels());
    format!("{name}: {}: {array}{note}", outcome.words())
}

fn header_line(name: &str, image: &Image) -> String {
    let mut case = Case::of(Call::DtrekHeader);
    case.frame = image.file().into();
    let (outcome, note) = both(&case);
    format!("header of {name}: {}{note}", outcome.words())
}

fn changed(change: impl Fn(&mut Image)) -> Image {
    let mut image = Image::plain(SHAPE);
    change(&mut image);
    image
}

/// Each width in each byte order, in images of the least and the most columns and rows, and of none.
fn kinds() -> Vec<(String, Image)> {
    let sides = [(3, 2), (0, 0), (1, 1), (4096, 1), (1, 4096), (4096, 4096)];
    let kind = |(columns, rows), width, order| {
        let shape = Shape {
            columns,
            rows,
            width,
            order,
        };
        let word = match order {
            Order::LittleEndian => "little",
            Order::BigEndian => "big",
        };
        (
            format!("{columns} x {rows}, {width} {word}"),
            Image::plain(shape),
        )
    };
    let each = |sides| {
        [1, 2, 4]
            .into_iter()
            .flat_map(move |width| ORDERS.map(|order| kind(sides, width, order)))
    };
    sides.into_iter().flat_map(each).collect()
}

fn named<const N: usize>(changes: [(&str, Change); N]) -> impl Iterator<Item = (String, Image)> {
    let each = changes.map(|(name, change)| (name.to_string(), changed(change)));
    each.into_iter()
}

/// Other texts in the header.
fn texts() -> impl Iterator<Item = (String, Image)> {
    let lengths = LENGTHS.map(|text| {
        let name = format!("length `{}`", text.escape_debug());
        (name, changed(|image| image.state(text)))
    });
    let swap = |old: &str, new: &str| changed(|image| image.swap(old.as_bytes(), new.as_bytes()));
    let swaps = SWAPS.map(|(name, old, new)| (name.to_string(), swap(old, new)));
    lengths.into_iter().chain(swaps)
}

/// Items asked for: the image, and the places from which.
fn items() -> [(&'static str, Image, Vec<u64>); 9] {
    let comment = |text: &[u8]| changed(|image| image.add(text));
    let plain = changed(|_| {});
    let starts = vec![1, 21, 28, 37, 46, 69, 99];
    let none = vec![511, 512, 513, (1 << 32) + 1, u64::MAX];
    [
        ("an image", plain.clone(), starts),
        ("no item left", plain.clone(), none),
        ("no item there", plain.clone(), vec![0, 2, 20, 22, 68, 98]),
        (
            "white space",
            comment(b"\n \tA=\n\t 1 2\t ;\n"),
            vec![21, 22, 23],
        ),
        ("empty values", comment(b"A=;\nB= \t\n;\n"), vec![21, 25]),
        (
            "values with braces",
            comment(b"A={}\n;\nB=}\n\x0C\n  ;\n"),
            vec![21, 28],
        ),
        (
            "no items",
            comment(b"A;\n=1;\nB =1;\n{C=1;\n}\n\x0C\n;\n"),
            vec![21, 24, 28, 34, 40, 46],
        ),
        (
            "511 bytes",
            changed(|image| image.length = 511),
            vec![1, 600],
        ),
        (
            "length 513",
            changed(|image| image.state("  513")),
            vec![1, 600],
        ),
    ]
}

fn item_line(name: &str, image: &Image, at: u64) -> String {
    let mut case = Case::of(Call::DtrekItem);
    case.frame = image.file().into();
    case.step.pixel = at;
    let (outcome, note) = both(&case);
    format!("item from {at}, {name}: {}{note}", outcome.words())
}

fn lines() -> impl Iterator<Item = String> {
    let read = kinds().into_iter().chain(texts()).chain(named(CHANGES));
    let read = read.map(|(name, image)| read_line(&name, &image));
    let headers = kinds().into_iter().chain(named(CHANGES));
    let headers = headers.map(|(name, image)| header_line(&name, &image));
    let items = items().into_iter().flat_map(|(name, image, places)| {
        let line = move |at| item_line(name, &image, at);
        places.into_iter().map(line)
    });
    read.chain(headers).chain(items)
}

pub fn run() -> bool {
    written_down::run("d*TREK", EXPECTED, lines())
}
