//! mar images: the entries of the header, and what is said of them.
use crate::failure::{shown, Failure, Outcome, Refused};
use crate::info::{end_text, End};
use crate::refusals::mar_sentence;
use quayrudder::MarEntryAnswer;
use serde_json::{json, Value};
use std::path::Path;

/// The header's entries, from 1.
const NAMES: [&str; 25] = [
    "pixels in x",
    "pixels in y",
    "record length in bytes",
    "maximum number of records",
    "high-intensity pixels",
    "high-intensity records",
    "X-ray counts at start of exposure",
    "X-ray counts at end of exposure",
    "exposure time in seconds",
    "exposure dose in units",
    "sum of X-ray counts",
    "maximum radius",
    "minimum radius",
    "unused",
    "unused",
    "unused",
    "unused",
    "centre in x",
    "centre in y",
    "wavelength",
    "distance from crystal to detector",
    "PHI at start of exposure",
    "PHI at end of exposure",
    "OMEGA",
    "high-intensity multiplier",
];

/// The entries of an accepted header.
pub struct Entries(Vec<MarEntryAnswer>);

/// Is this a mar image? Whether a whole one, reading it says.
pub fn is_mar(bytes: &[u8]) -> bool {
    quayrudder::mar_entry(bytes, 1).refusal != 28
}

/// A refusal of a mar image, with the pair that it is about.
pub fn refused(file: &Path, number: u32, place: u32) -> Failure {
    let note = match number {
        13 => format!("pair {place}, counted from 0"),
        _ => String::new(),
    };
    Failure::Refused(Refused { file: file.into(), number, place, column: 0, note, said: mar_sentence(number) })
}

/// The header's entries, or its refusal.
pub fn entries(file: &Path, bytes: &[u8]) -> Outcome<Entries> {
    let numbers = 1..=NAMES.len() as u32;
    let answers: Vec<MarEntryAnswer> = numbers.map(|entry| quayrudder::mar_entry(bytes, entry)).collect();
    match answers.iter().find(|answer| answer.refusal != 0) {
        Some(answer) => Err(refused(file, answer.refusal, 0)),
        None => Ok(Entries(answers)),
    }
}

impl Entries {
    fn whole(&self, entry: usize) -> u32 {
        self.0[entry - 1].bits
    }

    pub fn pixel_count(&self) -> usize {
        self.whole(1) as usize * self.whole(2) as usize
    }

    /// What `info` says of an image.
    pub fn text(&self, file: &Path, end: Option<End>) -> String {
        let (columns, rows, pairs, records) = (self.whole(1), self.whole(2), self.whole(5), self.whole(6));
        let (name, end) = (shown(file), end_text("image", end));
        let start = format!(
            "{name}: mar image, {rows} rows, {columns} columns\n  high-intensity: pairs {pairs}, records {records}\n  {end}"
        );
        let lines = self.0.iter().zip(NAMES).zip(1..);
        lines.fold(start, |text, ((answer, name), entry)| {
            format!("{text}\n  {entry:>2} {name}: {}", number_text(answer))
        })
    }

    /// The same for `--json`.
    pub fn value(&self, file: &Path, end: Option<End>) -> Value {
        let lines = self.0.iter().zip(NAMES).zip(1..);
        let entries: Vec<Value> = lines.map(|((answer, name), entry)| entry_value(answer, name, entry)).collect();
        json!({
            "file": shown(file), "format": "mar", "rows": self.whole(2), "columns": self.whole(1),
            "high_intensity_pixels": self.whole(5), "high_intensity_records": self.whole(6),
            "end": end.map(|end| end.end), "bytes": end.map(|end| end.bytes), "entries": entries,
        })
    }
}

/// The shortest digits that read back as the same float; a NaN has its bits.
fn number_text(answer: &MarEntryAnswer) -> String {
    let float = f32::from_bits(answer.bits);
    match answer.is_float {
        0 => answer.bits.to_string(),
        _ if float.is_nan() => format!("NaN (bits {:08x})", answer.bits),
        _ => format!("{float:?}"),
    }
}

/// A float is the same shortest number, or null where JSON has none, and its bits.
fn entry_value(answer: &MarEntryAnswer, name: &str, entry: u32) -> Value {
    match answer.is_float {
        0 => json!({"entry": entry, "name": name, "value": answer.bits}),
        _ => {
            let number: Option<f64> = number_text(answer).parse().ok().filter(|number: &f64| number.is_finite());
            json!({"entry": entry, "name": name, "value": number, "bits": format!("{:08x}", answer.bits)})
        }
    }
}
