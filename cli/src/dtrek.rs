//! d*TREK images: the items of the header, and what is said of them.
use crate::failure::{printable, shown, Failure, Outcome, Refused};
use crate::info::{end_text, End};
use crate::refusals::dtrek_sentence;
use quayrudder::DtrekHeaderAnswer;
use serde_json::{json, Value};
use std::collections::HashSet;
use std::path::Path;

/// Keywords whose content is refused with 34, and with 35.
const REQUIRED: [&str; 5] = ["DIM", "SIZE1", "SIZE2", "BYTE_ORDER", "Data_type"];
const SUPPORTED: [&str; 2] = ["Data_type", "COMPRESSION"];
/// As many bytes as a refusal shows of what was found.
const GLIMPSE: usize = 40;

/// An item in printable characters.
struct Item {
    keyword: String,
    value: String,
    next: u64,
}

/// An accepted header and its items.
pub struct Header {
    answer: DtrekHeaderAnswer,
    items: Vec<Item>,
}

/// Is this a d*TREK image, or meant to be one? Neither a Bruker frame nor a mar image starts so.
pub fn is_dtrek(bytes: &[u8]) -> bool {
    bytes.first() == Some(&b'{')
}

/// The items up to the first place where there is none.
fn items(bytes: &[u8]) -> Vec<Item> {
    let first = quayrudder::dtrek_item(bytes, 1);
    let answers = std::iter::successors(Some(first), |last| Some(quayrudder::dtrek_item(bytes, last.next)));
    let part = |start: u64, end: u64| printable(&bytes[start as usize..end as usize]);
    let item = |a: quayrudder::DtrekItemAnswer| Item {
        keyword: part(a.key_start, a.key_end),
        value: part(a.value_start, a.value_end),
        next: a.next,
    };
    answers.take_while(|answer| answer.found == 1).map(item).collect()
}

/// The header with its items, or its refusal.
pub fn header(file: &Path, bytes: &[u8]) -> Outcome<Header> {
    let answer = quayrudder::dtrek_header(bytes);
    match answer.refusal {
        0 => Ok(Header { answer, items: items(bytes) }),
        number => Err(refused(file, bytes, number)),
    }
}

/// A refusal of a d*TREK image, with what was found.
pub fn refused(file: &Path, bytes: &[u8], number: u32) -> Failure {
    let note = match number {
        32 => format!("it starts with `{}`", glimpse(bytes, 0)),
        33 => broken(bytes),
        34 => contents(bytes, &REQUIRED),
        35 => contents(bytes, &SUPPORTED),
        _ => String::new(),
    };
    Failure::Refused(Refused { file: file.into(), number, place: 0, column: 0, note, said: dtrek_sentence(number) })
}

fn glimpse(bytes: &[u8], from: usize) -> String {
    let rest = bytes.get(from..).unwrap_or_default();
    printable(&rest[..rest.len().min(GLIMPSE)])
}

/// What is broken, as far as asking for the items shows it.
fn broken(bytes: &[u8]) -> String {
    let items = items(bytes);
    let mut met = HashSet::new();
    let twice = items.iter().find(|item| !met.insert(&item.keyword));
    let from = items.last().map_or(1, |item| item.next);
    let seen = glimpse(bytes, from as usize);
    match (twice, quayrudder::dtrek_item(bytes, from).refusal) {
        (Some(item), _) => format!("the keyword {} stands twice", item.keyword),
        (None, 0) => format!("the items end at byte {from} with `{seen}`"),
        (None, _) => format!("no item at byte {from}: `{seen}`"),
    }
}

/// What the header has for these keywords.
fn contents(bytes: &[u8], keywords: &[&str]) -> String {
    let items = items(bytes);
    let content = |keyword: &&str| match items.iter().find(|item| item.keyword == *keyword) {
        Some(item) => format!("{keyword}={}", item.value),
        None => format!("no {keyword}"),
    };
    keywords.iter().map(content).collect::<Vec<String>>().join(", ")
}

impl Header {
    pub fn pixel_count(&self) -> usize {
        self.answer.rows as usize * self.answer.columns as usize
    }

    /// What `info` says of an image.
    pub fn text(&self, file: &Path, end: Option<End>) -> String {
        let DtrekHeaderAnswer { rows, columns, width, start, .. } = self.answer;
        let (name, order) = (shown(file), self.order());
        let what = match self.pixel_count() {
            0 => "no pixels".to_string(),
            _ => format!("{rows} rows, {columns} columns, {width} bytes per pixel, {order}"),
        };
        let end = end_text("image", end);
        let lead = format!("{name}: d*TREK image, {what}\n  header {start} bytes, {end}");
        let lines = self.items.iter().map(|item| format!("\n  {}={}", item.keyword, item.value));
        [lead].into_iter().chain(lines).collect()
    }

    /// The same for `--json`.
    pub fn value(&self, file: &Path, end: Option<End>) -> Value {
        let DtrekHeaderAnswer { rows, columns, width, start, .. } = self.answer;
        let item = |item: &Item| json!({"keyword": item.keyword, "value": item.value});
        let items: Vec<Value> = self.items.iter().map(item).collect();
        json!({
            "file": shown(file), "format": "d*TREK", "rows": rows, "columns": columns, "width": width,
            "byte_order": self.order(), "header_bytes": start, "end": end.map(|end| end.end),
            "bytes": end.map(|end| end.bytes), "items": items,
        })
    }

    fn order(&self) -> &'static str {
        match self.answer.big_endian {
            0 => "little-endian",
            _ => "big-endian",
        }
    }
}
