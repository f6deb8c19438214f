//! Fixed headers and frames whose smallest form is asked for, openings in it and lists of calls behind them, each with its answer written down in
//! smallest_trials.txt.
use crate::case::{Call, Case};
use crate::compare::digest;
use crate::frame::{self, FORMS, LINE, NAME};
use crate::held_trial::{form_name, list_case};
use crate::lettered::{self, list_words, raised, repeated};
use crate::order_trials::form;
use crate::random::Random;
use crate::sample::{self, Layout, WANTED};
use crate::written_down::{self, array_words, both};

const EXPECTED: &str = include_str!("../smallest_trials.txt");

/// A name and the words for what is lent. `+255` is 255 above the baseline.
const CHOSEN: &str = "\
form 1: of=200*64
form 1, and a few above: of=200*60,300,400,70000*2
form 1+1: of=+1*64
form 1+1, and some below the baseline: of=+1*60,7*4
form 1+2: of=+1*63,256
form 2: base=0 of=1000*64
form 2, the baseline above all: base=65535 of=1000*64
form 2+1: base=65535 of=+1000*64
form 2+1, and some below the baseline: base=65535 of=+1000*60,7*4
form 2+2: base=65535 of=+1000*60,256*4
form 4: of=4000000*64
form 4, though a baseline leaves no entry: base=65535 of=+65535*64
form 4, the most: of=4294967295*64";

/// With `F` as each form that the header given names.
const EACH_FORM: [&str; 2] = [
    "given in F, form 1+1: as=F of=+1*60,7*4",
    "given in F, form 4: as=F of=70000*64",
];

/// With `E` as each of these counts.
const EACH_EDGE: [&str; 2] = ["E alone: of=E", "E among 40 above the baseline: of=+1*40,E"];
const EDGES: [u32; 16] = [
    0, 254, 255, 256, 299, 300, 301, 554, 555, 65534, 65535, 65536, 65834, 65835, 65836, 4294967295,
];

const EQUALS: &str = "\
1 and 2 equal: base=0 of=1*8,1000*8
1 and 2 not quite equal: base=0 of=1*7,1000*9
2 and 4 equal: base=0 of=1000*4,70000*4
2 and 4 not quite equal: base=0 of=1000*3,70000*5
1, 2 and 4 equal: base=0 of=1*8,70000*8
1+1 and 2 equal: of=+1*9,7*7
1+2 and 2 equal: of=+1*9,256*7
1+2 and 2 not quite equal: of=+1*7,256*9
2+1 and 4 equal: base=65535 of=+1000*5,7*3
2+2 and 4 equal: base=65535 of=+1000*5,256*3
1 and 1+1 equal, no entries: base=32 of=+1*16
1 and 1+1 equal, entries: base=32 of=100*40,7*8,260*8
1 and 1+1 not quite equal, 1 longer: base=32 of=100*40,7*8,260*9
1 and 1+1 not quite equal, 1+1 longer: base=32 of=100*40,7*17,260*8
2 and 2+1 equal, no entries: of=1000*16
2 and 2+1 equal, entries: base=32 of=1000*40,7*4,65540*4
2 and 2+1 not quite equal: base=32 of=1000*40,7*4,65540*5
1+1 and 1+2 equal, no entries: of=+1*24
1+1 and 1+2 equal, 8 entries: of=+1*24,7*8
1+1 and 1+2 not quite equal, 9 entries: of=+1*24,7*9
2+1 and 2+2 equal, no entries: base=65535 of=+1000*24
2+1 and 2+2 equal, 8 entries: base=65535 of=+1000*24,7*8
all of width 4 equal: of=+70000*40
all of width 1 equal, a single pixel: base=0 of=7";

/// Tables about the end of their padding.
const PADDING: &str = "\
8 two-byte entries: base=0 of=1*56,300*8
9 two-byte entries: base=0 of=1*55,300*9
4 four-byte entries: base=0 of=1*60,70000*4
5 four-byte entries: base=0 of=1*59,70000*5
4 four-byte entries in width 2: base=0 of=1000*60,70000*4
5 four-byte entries in width 2: base=0 of=1000*59,70000*5
16 underflow entries of one byte: of=+1*48,7*16
17 underflow entries of one byte: of=+1*47,7*17
33 underflow entries of one byte: of=+1*47,7*33
8 underflow entries of two bytes: of=+1*56,256*8
9 underflow entries of two bytes: of=+1*55,256*9
17 underflow entries of two bytes: of=+1*55,300*17
each table about full: of=+1*60,7*16,+300*4,+70000*4
each table one over: of=+1*60,7*17,+300*4,+70000*5";

/// Entries of one byte that cannot be.
const UNFIT: &str = "\
256 among small ones: of=+1*48,7*15,256
255 in its place: of=+1*48,7*15,255
256 among small ones, and 2 equal to 1+2: of=+1*16,7*15,256
256 among small ones, and then 2: of=+1*17,7*16,256
255 in its place, and then 1+1: of=+1*17,7*16,255
the baseline itself 256: base=256 of=+1*40,256
the baseline itself 255: base=255 of=+1*40,255
256 first: of=256,+1*40
256 in width 2: base=65535 of=+1000*48,7*15,256
255 in width 2: base=65535 of=+1000*48,7*15,255";

const BASELINES: &str = "\
-1: as=1 of=+1*64
-1, 13 blocks: as=1 blocks=13 of=+1*64
-1, 12 blocks: as=1 blocks=12 of=+1*64
-1, 10 blocks: as=1 blocks=10 of=+1*64
-1, line 79 misnamed: as=1 79! of=+1*64
-1, 65535: as=1 base=65535 of=+1*64
-1, 65536: as=1 79=1_2_65536 of=+1*64
-1, 4294967296: as=1 79=1_2_4294967296 of=+1*64
-1, two fields: as=1 79=1_2 of=+1*64
-1, no fields: as=1 79= of=+1*64
-1, another sign: as=1 79=1_2_3x of=+1*64
-1, ten digits: as=1 79=1_2_0000000300 of=+1*64
-1, eleven digits: as=1 79=1_2_00000000300 of=+1*64
-1, any two fields before: as=1 79=x_?_300_y of=+1*64
-1, misnamed, and 10: as=1 79! places=63 of=+1*64
a count of 0 with underflow width 0: 39=1_0 of=+1*64
counts that no image has: 20=5_6_7 of=+1*64
bytes behind the header: bytes=9000 of=+1*64";

const REFUSED: &str = "\
1, no bytes: bytes=0
1, under 240 bytes: bytes=239
1, 240 bytes: bytes=240
1, under the header: bytes=7679
2, line 0: 0!
2, line 1: 1!
2, line 2: 2!
3, line 0: 0=x
3, line 1: 1=1+++
3, line 2: 2=x
3, line 20: 20=0_-1_0
3, line 39: 39=1
3, line 40: 40=4294967296
3, line 41: 41=
3, line 79: 79=1_2
4: 0=99
5: 1=6
6: 2=9
7, line 20: 20!
7, line 39: 39!
7, line 40: 40!
7, line 41: 41!
7, line 58: 58!
7, line 79: 79!
7, 12 blocks: blocks=12
8, pixel width: 39=3_1
8, underflow width: 39=1_3
8, rows: 40=0
8, columns: 41=4097
8, baseline: 79=1_2_65536
8, underflows of no width: 20=1_0_0 39=1_0
9: 58=1_1
10, a place too few: places=63
10, no places: places=0
16: 0=86 20=0
16, width 4: 0=86 20=0 39=4
1 before 2: 0! bytes=239
2 before 3: 2! 0=x
4 before 3 of the next line: 0=99 1=x
5 before 3 of the next line: 1=6 2=x
6 before 1: 2=65 bytes=7679
1 before 7: 20! bytes=7679
7 before 3 of one line: 20! 20=x
3 before 7 of the next line: 20=x 39!
7 before 3 of the next line: 58! 79=1_2
3 before 8: 39=3_1 79=1_2
7 before 8: 39=3_1 79!
8 before 9: 39=3_1 58=2_0
9 before 10: 58=2_0 places=0
9 before 16: 0=86 20=0 58=2_0
10 before 16: 0=86 20=0 places=63";

const SHAPES: &str = "\
the array longer, and large counts behind: of=200*64 beyond=4294967295*64
8 by 8: rows=8 of=+1*60,7*4
64 rows: rows=64 of=+1*60,7*4
the first of 1024 odd: base=0 of=255,1*1023
the middle of 1024 odd: base=0 of=1*511,255,1*512
the last of 1024 odd: base=0 of=1*1023,255
the last of 1025 odd: base=0 rows=5 of=1*1024,65535
the first of 4096 odd: of=300,+1*4095
the middle of 4096 odd: of=+1*2047,256,+1*2048
the last of 4096 odd: rows=64 of=+1*4095,+255
the last of 8193 odd: rows=3 base=65535 of=+1000*8192,+65535";

/// Openings. Where no other length is given the held buffer has 9000 bytes.
const OPENED: &str = "\
form 1, just fits: of=200*64 as=4 held=7744
form 1, a byte too short: of=200*64 as=4 held=7743
form 1+1, just fits: of=+1*60,7*4 as=2 held=7760
form 1+1, a byte too short: of=+1*60,7*4 as=2 held=7759
form 1+2, just fits: of=+1*63,256 as=1 held=7760
form 1+2, a byte too short: of=+1*63,256 as=1 held=7759
form 2, just fits: base=0 of=1000*64 as=1+1 held=7808
form 2, a byte too short: base=0 of=1000*64 as=1+1 held=7807
form 2+1, just fits: base=65535 of=+1000*60,7*4 as=4+2 held=7824
form 2+1, a byte too short: base=65535 of=+1000*60,7*4 as=4+2 held=7823
form 2+2, just fits: base=65535 of=+1000*60,256*4 as=4 held=7824
form 2+2, a byte too short: base=65535 of=+1000*60,256*4 as=4 held=7823
form 4, just fits: of=70000*64 as=1+1 held=7936
form 4, a byte too short: of=70000*64 as=1+1 held=7935
no bytes to hold it in: of=+1*60,7*4 held=0
equal forms: base=0 of=1*8,70000*8 as=4+1
256 among small ones: of=+1*48,7*15,256 as=1+2
-1, line 79 misnamed: as=1 79! of=+1*64
-1, 12 blocks: as=2 blocks=12 of=+1*64
-1, 65536: as=4 79=1_2_65536 of=+1*64
bytes behind the frame: of=+1*60,7*4 bytes=9000
the array longer: of=+1*60,7*4 places=70
4096 pixels: rows=64 of=+1*4000,7*17,+300*9,70000*70 as=4 held=20000
1: bytes=7679
3: 20=0_0
8: 41=4097
10: places=63
11, in the image: as=1+1 of=+1*60,7*4 bytes=7743
11, in the padding: as=1+1 of=+1*60,7*4 bytes=7759
12: as=1+1 of=+1*60,7*4 byte=79,1
13: as=1 0=86 20=1 of=7*64 bytes=9000
14: as=1+1 of=+1*60,7*4 byte=0,0
14, a table that width 2 has not: as=2 20=-1_1_0 of=7*64 bytes=9000
15: as=4+1 of=+1*64 byte=0,255 byte=1,255 byte=2,255 byte=3,255
16: as=1 0=86 20=0 of=8*64
9 before 10: 58=2_0 places=0
10 before 11: places=63 bytes=7700
11 before 12: of=+1*60,7*4,+300*4 byte=79,1 bytes=7770
12 before 14: of=+1*60,7*4 byte=79,1 byte=0,0
13 before 14: as=1 0=86 20=1 of=7*63,255 bytes=9000
14 before 15: as=4+1 of=+1*64 byte=0,255 byte=1,255 byte=2,255 byte=3,255 byte=4,0
14 before 16: as=1 0=86 20=0 of=7*63,255
15 before 18: as=4+1 of=+1*64 byte=0,255 byte=1,255 byte=2,255 byte=3,255 held=0
16 before 18: as=1 0=86 20=0 of=8*64 held=0";

/// Openings of four pixels, 400 to 403 where no others are named, and calls on a ledger of 160 bytes. A form stays where another would be the smaller by then.
const LISTS: &str = "\
from 1+1 to counts for width 4: as=4 of=400,401,402,403: 0=70000 1=70001 2=70002 3=70003 w
from 1+1 to counts below the baseline: as=1 of=400,401,402,403: 0=1 1=2 2=255 3=256 3=0
from 1+1, just fits: as=2+2 of=400,401,402,403 held=7684: 0=554 1=555 2=300 3=301
from 1 to counts above the baseline: as=2 of=1,2,3,4: 0=400 1=401 2=402 3=403 w w
from 1+2: as=4 of=+1*60,256*4: 0=255 63=300 1=+255 w w w w
from 2 to counts of one byte: as=1+1 base=0 of=1000,1001,1002,1003: 0=1 1=2 2=3 3=4 m=70000
from 2+1: as=4 base=65535 of=+1000*60,7*4: 0=256 0=255 1=0 w
from 2+2: as=4+2 base=65535 of=+1000*60,256*4: 60=+1 61=+2 62=7 63=65535 m=65536
from 4 to counts of one byte: as=1+2 of=70000,70001,70002,70003: 0=1 1=2 2=3 3=4294967295
keep lines, compaction and questions: as=4 of=400,401,402,403: k 0=5 l ?0 p w c q 1=600 ?1 w w
more lines than the ledger has room for: as=1+1 of=400,401,402,403: 0=1 1=2 2=3 w w w 0=1 w 1=2 w 0=1 c 0=7
refused: as=1 79! of=400,401,402,403 held=7687: 0=1";

/// What a row is made of: its words by their names.
struct Row<'a> {
    words: Vec<&'a str>,
}

impl<'a> Row<'a> {
    fn text(&self, name: &str) -> Option<&'a str> {
        let named = |word: &&'a str| word.strip_prefix(name)?.strip_prefix('=');
        self.words.iter().find_map(named)
    }

    fn number(&self, name: &str) -> Option<usize> {
        self.text(name)?.parse().ok()
    }

    fn counts(&self, name: &str) -> Option<Vec<u32>> {
        let base = self.number("base").unwrap_or(300) as u32;
        let text = raised(self.text(name)?, base);
        let counts = repeated(text.split(','));
        counts.iter().map(|count| count.parse().ok()).collect()
    }

    /// The image's pixels: 64 one above the baseline where no others are named.
    fn image(&self) -> Vec<u32> {
        self.counts("of").unwrap_or_else(|| vec![301; 64])
    }

    fn form(&self) -> (u32, u32) {
        form(self.text("as").unwrap_or("1+1"))
    }

    fn header(&self) -> Vec<u8> {
        let (pixels, rows) = (self.image().len(), self.number("rows").unwrap_or(1));
        let baseline = self.number("base").unwrap_or(300) as u32;
        let layout = Layout {
            rows,
            blocks: self.number("blocks").unwrap_or(15),
            ..Layout::one_row(pixels / rows, self.form(), baseline)
        };
        let mut header = sample::header(&mut Random(1), &layout);
        set_line(&mut header, 79, &format!("1 2 {baseline}"));
        header
    }

    /// The header, or the frame of these pixels below it, with what is done to it.
    fn bytes(&self, call: Call) -> Vec<u8> {
        let mut bytes = self.header();
        if call != Call::Smallest {
            let (image, form) = (self.image(), self.form());
            let mut out = vec![0; bytes.len() + 7 * image.len() + 64];
            let length = frame::write(&bytes, &image, form.0, form.1, &mut out);
            out.truncate(length.map_or(0, |length| length as usize));
            bytes = out;
        }
        let start = self.header().len();
        let words = self.words.iter();
        words.for_each(|word| change(&mut bytes, start, word));
        bytes
    }

    fn case(&self, call: Call) -> Case {
        let mut pixels = match call {
            Call::Smallest => self.image(),
            _ => vec![7; self.image().len()],
        };
        pixels.extend(self.counts("beyond").unwrap_or_default());
        pixels.resize(self.number("places").unwrap_or(pixels.len()), 7);
        Case {
            frame: self.bytes(call).into(),
            pixels,
            buffer: vec![9; self.number("held").unwrap_or(9000)],
            ..Case::of(call)
        }
    }
}

/// Sets a line's name and data, if it lies within the header.
fn set_line(header: &mut [u8], line: usize, data: &str) {
    let name = WANTED.iter().find(|(wanted, _)| *wanted == line);
    let name = name.map_or("", |(_, name)| std::str::from_utf8(*name).unwrap_or(""));
    if let Some(place) = header.get_mut(line * LINE..(line + 1) * LINE) {
        place.copy_from_slice(format!("{name}{data:72}").as_bytes());
    }
}

/// Does to the bytes what one word says: another number of them, a byte behind the header, or another name or other data of a line.
fn change(bytes: &mut Vec<u8>, start: usize, word: &str) {
    let numbers = |text: &str| -> Vec<usize> {
        let parts = text.split(',');
        parts.filter_map(|part| part.parse().ok()).collect()
    };
    if let Some(line) = word.strip_suffix('!') {
        bytes[numbers(line)[0] * LINE + NAME - 1] = b';';
    }
    let (what, value) = word.split_once('=').unwrap_or((word, ""));
    match (what, what.parse::<usize>()) {
        ("bytes", _) => bytes.resize(numbers(value)[0], 0),
        ("byte", _) => bytes[start + numbers(value)[0]] = numbers(value)[1] as u8,
        (_, Ok(line)) => {
            let data = &mut bytes[line * LINE + NAME..(line + 1) * LINE];
            data.copy_from_slice(format!("{:72}", value.replace('_', " ")).as_bytes());
        }
        _ => {}
    }
}

/// A row's name and its words.
fn row(text: &str) -> (&str, Row<'_>) {
    let (name, words) = text.split_once(": ").unwrap_or((text, ""));
    let words = words.split_whitespace().collect();
    (name, Row { words })
}

fn smallest_line(text: &str) -> String {
    let (name, row) = row(text);
    let (outcome, note) = both(&row.case(Call::Smallest));
    format!("{name}: {}{note}", outcome.words())
}

/// A digest of the two lines that the writer sets and of all that is behind the header.
fn held_digest(held: &[u8], start: usize) -> String {
    let line = |line: usize| &held[line * LINE + NAME..(line + 1) * LINE];
    let bytes = [line(20), line(39), &held[start..]].concat();
    format!("{:016x}", digest(&bytes))
}

fn open_line(text: &str) -> String {
    let (name, row) = row(text);
    let case = row.case(Call::OpenSmallest);
    let (outcome, note) = both(&case);
    let after = &outcome.after;
    let array = array_words(&case.pixels, &after.pixels, row.image().len());
    let held = match after.buffer == case.buffer {
        true => "held untouched".to_string(),
        false => format!("held {}", held_digest(&after.buffer, row.header().len())),
    };
    format!("open, {name}: {}: {array}, {held}{note}", outcome.words())
}

/// The form that a held buffer's header names.
fn held_form(held: &[u8]) -> String {
    let named = |header: frame::Header| (header.width as u32, header.underflow_width as u32);
    frame::read_header(held).map_or("no form".to_string(), |header| form_name(named(header)))
}

fn list_line(text: &str) -> String {
    let (start, calls) = text.rsplit_once(": ").unwrap_or((text, ""));
    let (name, row) = row(start);
    let case = Case {
        ledger: list_case((1, 1), 160, Vec::new()).ledger,
        steps: lettered::steps(&raised(calls, row.number("base").unwrap_or(300) as u32)),
        ..row.case(Call::SmallestList)
    };
    let (words, outcome) = list_words(&case);
    let form = held_form(&outcome.after.buffer);
    format!("list, {name}: {}: held in {form}: {words}", outcome.words())
}

fn each<T: ToString>(
    rows: [&'static str; 2],
    letter: char,
    values: impl Iterator<Item = T> + Clone,
) -> impl Iterator<Item = String> {
    let with = move |row: &'static str| {
        let values = values.clone();
        values.map(move |value| row.replace(letter, &value.to_string()))
    };
    rows.into_iter().flat_map(with)
}

fn lines() -> impl Iterator<Item = String> {
    let forms = each(EACH_FORM, 'F', FORMS.into_iter().map(form_name));
    let edges = each(EACH_EDGE, 'E', EDGES.into_iter());
    let tables = [EQUALS, PADDING, UNFIT, BASELINES, REFUSED, SHAPES];
    let rows = CHOSEN.lines().map(str::to_string).chain(forms).chain(edges);
    let rows = rows.chain(tables.into_iter().flat_map(str::lines).map(str::to_string));
    let lists = LISTS.lines().map(list_line);
    let opened = OPENED.lines().map(open_line);
    rows.map(|row| smallest_line(&row))
        .chain(opened)
        .chain(lists)
}

pub fn run() -> bool {
    written_down::run("smallest", EXPECTED, lines())
}
