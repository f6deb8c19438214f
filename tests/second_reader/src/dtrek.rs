//! d*TREK images: a header of items, each a keyword with its value, and the pixels right behind it.
use crate::frame::{parse_number, refuse, Extent, Refusal, BLOCK};
use crate::mar::Order;
use std::collections::HashMap;
use std::ops::Range;

pub const START: &[u8] = b"{\nHEADER_BYTES=";
/// Characters of the header's length, before its semicolon.
pub const DIGITS: usize = 5;
pub const CLOSING: &[u8] = b"}\n\x0C\n";
/// Of a header.
pub const MOST_BYTES: usize = 195 * BLOCK;
/// Of rows, and of columns.
pub const MOST: u64 = 4096;
/// The types that are read, and the bytes of a pixel.
pub const TYPES: [(&[u8], usize); 3] = [
    (b"unsigned char", 1),
    (b"unsigned short int", 2),
    (b"unsigned long int", 4),
];

/// The places of an item's keyword and of its value, and the place behind its semicolon.
#[derive(Debug, PartialEq, Eq)]
pub struct Item {
    pub key: Range<usize>,
    pub value: Range<usize>,
    pub next: usize,
}

#[derive(Debug)]
pub struct Header {
    /// Bytes of the header.
    pub length: usize,
    pub rows: u32,
    pub columns: u32,
    pub width: usize,
    pub order: Order,
}

impl Header {
    pub fn pixels(&self) -> usize {
        self.rows as usize * self.columns as usize
    }

    pub fn end(&self) -> usize {
        self.length + self.width * self.pixels()
    }
}

fn is_white(byte: u8) -> bool {
    matches!(byte, b' ' | b'\t' | b'\n')
}

/// A part of a text without the white space around it; nothing is left at the part's end.
fn trimmed(text: &[u8], part: Range<usize>) -> Range<usize> {
    let solid = |place: &usize| !is_white(text[*place]);
    let first = part.clone().find(solid).unwrap_or(part.end);
    let last = part.clone().rfind(solid);
    first..last.map_or(part.end, |last| last + 1)
}

fn stated_length(file: &[u8]) -> Option<usize> {
    let rest = file.strip_prefix(START)?;
    let text = rest
        .get(..DIGITS)
        .filter(|_| rest.get(DIGITS) == Some(&b';'))?;
    let length = parse_number(&text[trimmed(text, 0..DIGITS)])? as usize;
    let blocks = 1..=MOST_BYTES / BLOCK;
    (length.is_multiple_of(BLOCK) && blocks.contains(&(length / BLOCK))).then_some(length)
}

/// The header's bytes, or 32 or 1.
fn header_text(file: &[u8]) -> Result<&[u8], Refusal> {
    match stated_length(file) {
        None => refuse(32),
        Some(length) => file.get(..length).map_or_else(|| refuse(1), Ok),
    }
}

/// The item from a place on: a newline, white space, keyword, `=`, and a value up to the next semicolon.
fn item_at(text: &[u8], at: usize) -> Option<Item> {
    let semicolon = at + text[at..].iter().position(|byte| *byte == b';')?;
    let part = at..semicolon;
    if text[at] != b'\n' {
        return None;
    }
    let start = part.clone().find(|place| !is_white(text[*place]))?;
    let ends = |place: &usize| is_white(text[*place]) || b"={}".contains(&text[*place]);
    let end = (start..semicolon).find(ends)?;
    (end > start && text[end] == b'=').then(|| Item {
        key: start..end,
        value: trimmed(text, end + 1..semicolon),
        next: semicolon + 1,
    })
}

/// Whether no item follows: a newline, white space, the closing brace with what belongs to it, and spaces to the end.
fn closes(rest: &[u8]) -> bool {
    let solid = rest.iter().position(|byte| !is_white(*byte));
    let closing = solid.and_then(|place| rest[place..].strip_prefix(CLOSING));
    rest.first() == Some(&b'\n') && closing.is_some_and(|pad| pad.iter().all(|byte| *byte == b' '))
}

/// The value of each keyword; none where the syntax is broken or a keyword stands twice.
fn values(text: &[u8]) -> Option<HashMap<&[u8], &[u8]>> {
    let mut found = HashMap::new();
    let mut at = 1;
    while !closes(&text[at..]) {
        let item = item_at(text, at)?;
        let twice = found.insert(&text[item.key], &text[item.value]).is_some();
        if twice {
            return None;
        }
        at = item.next;
    }
    Some(found)
}

/// Columns and rows: SIZE1 and SIZE2.
fn sizes(first: &[u8], second: &[u8]) -> Option<(u32, u32)> {
    let sizes = (parse_number(first)?, parse_number(second)?);
    let listed = |size: u64| (1..=MOST).contains(&size);
    let fits = sizes == (0, 0) || (listed(sizes.0) && listed(sizes.1));
    fits.then_some((sizes.0 as u32, sizes.1 as u32))
}

fn byte_order(text: &[u8]) -> Option<Order> {
    match text {
        b"little_endian" => Some(Order::LittleEndian),
        b"big_endian" => Some(Order::BigEndian),
        _ => None,
    }
}

/// What the required keywords say, with pixels of no width yet.
fn content(values: &HashMap<&[u8], &[u8]>, length: usize) -> Option<Header> {
    let value = |keyword: &str| values.get(keyword.as_bytes()).copied();
    let dimensions = parse_number(value("DIM")?)?;
    let (columns, rows) = sizes(value("SIZE1")?, value("SIZE2")?)?;
    let order = byte_order(value("BYTE_ORDER")?)?;
    value("Data_type")?;
    (dimensions == 2).then_some(Header {
        length,
        rows,
        columns,
        width: 0,
        order,
    })
}

/// The header's refusals: 32, 1, 33, 34, 35.
pub fn read_header(file: &[u8]) -> Result<Header, Refusal> {
    let text = header_text(file)?;
    let Some(values) = values(text) else {
        return refuse(33);
    };
    let Some(header) = content(&values, text.len()) else {
        return refuse(34);
    };
    let data_type = values[b"Data_type".as_slice()];
    let listed = TYPES.iter().find(|(name, _)| *name == data_type);
    let compression = values.get(b"COMPRESSION".as_slice());
    match listed {
        Some((_, width)) if compression.is_none_or(|text| *text == b"none") => Ok(Header {
            width: *width,
            ..header
        }),
        _ => refuse(35),
    }
}

/// The item from a place on, or none where no semicolon follows in the header: 32, 1, 33.
pub fn item(file: &[u8], at: u64) -> Result<Option<Item>, Refusal> {
    let text = header_text(file)?;
    let at = at.min(text.len() as u64) as usize;
    if !text[at..].contains(&b';') {
        return Ok(None);
    }
    item_at(text, at).map_or_else(|| refuse(33), |item| Ok(Some(item)))
}

/// Reading: the header's refusals, then 10 and 11.
pub fn read(file: &[u8], lent: &mut [u32]) -> Result<Extent, Refusal> {
    let header = read_header(file)?;
    if lent.len() < header.pixels() {
        return refuse(10);
    }
    let Some(image) = file.get(header.length..header.end()) else {
        return refuse(11);
    };
    let stored = image.chunks_exact(header.width);
    lent.iter_mut()
        .zip(stored)
        .for_each(|(pixel, bytes)| *pixel = header.order.number(bytes));
    Ok(Extent {
        rows: header.rows,
        columns: header.columns,
        end: header.end() as u64,
    })
}
