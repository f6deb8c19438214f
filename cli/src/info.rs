//! info: what a frame or an image is, from the whole of it or from its header alone.
use crate::args::Info;
use crate::batch::Said;
use crate::dtrek;
use crate::failure::{printable, shown, Failure, Outcome};
use crate::frames::{self, form_text, Kind};
use crate::mar;
use crate::names;
use crate::options::InfoOptions;
use crate::output::Output;
use crate::streams;
use quayrudder::HeaderAnswer;
use rustix::fs::{fadvise, Advice};
use serde_json::{json, Value};
use std::fs::File;
use std::io::Read;
use std::path::Path;

/// A Bruker header is lines of so many bytes.
const LINE: usize = 80;
/// Bruker and d*TREK headers are blocks of so many bytes, up to so many.
const BLOCK: usize = 512;
const BRUKER_BLOCKS: usize = 64;
const DTREK_BLOCKS: usize = 195;
/// The header records of mar images.
const MAR_RECORDS: [usize; 2] = [2400, 4000];

/// Where a frame ends, and the bytes of its file.
#[derive(Clone, Copy)]
pub struct End {
    pub end: u64,
    pub bytes: u64,
}

pub fn info(output: &mut Output, asked: &Info) -> Outcome<()> {
    let found = names::frames(&asked.names, None)?;
    found.each(output, &["accepted"], |item| {
        info_one(&item.path, &asked.options).map(|(text, value)| Said { text, value, counted: "accepted" })
    })
}

/// What one file is.
pub fn info_one(file: &Path, options: &InfoOptions) -> Outcome<(String, Value)> {
    let (bytes, kind, end) = if options.quick {
        let bytes = header_bytes(file)?;
        let kind = frames::kind(file, &bytes)?;
        (bytes, kind, None)
    } else {
        let bytes = streams::input(file)?;
        let frame = frames::read(file, &bytes)?;
        let end = End { end: frame.end, bytes: bytes.len() as u64 };
        (bytes, frame.kind, Some(end))
    };
    let (mut text, mut value) = match &kind {
        Kind::Bruker(header) => (bruker_text(file, header, end), bruker_value(file, header, end)),
        Kind::Mar(entries) => (entries.text(file, end), entries.value(file, end)),
        Kind::Dtrek(header) => (header.text(file, end), header.value(file, end)),
    };
    if let (Kind::Bruker(header), true) = (&kind, options.header) {
        let lines = header_lines(&bytes[..header.start as usize]);
        text.extend(lines.iter().map(|(_, line)| format!("\n  {line}")));
        value["lines"] = lines.iter().map(|(number, line)| json!({"line": number, "text": line})).collect();
    }
    if end.is_none() {
        value["beyond_header"] = json!("not read");
    }
    Ok((text, value))
}

/// The end of a frame or an image in words.
pub fn end_text(thing: &str, end: Option<End>) -> String {
    match end {
        Some(End { end, bytes }) => format!("{thing} ends at byte {end} of {bytes}"),
        None => "not read beyond the header".to_string(),
    }
}

fn bruker_text(file: &Path, h: &HeaderAnswer, end: Option<End>) -> String {
    let baseline = match h.subtracted {
        0 => "no baseline".to_string(),
        _ => format!("baseline {} subtracted", h.baseline),
    };
    let (form, entries) = match h.format {
        86 => (format!("{} bytes per pixel", h.width), format!("overflow {}", h.entries)),
        _ => (
            format!("form {}, {baseline}", form_text(h.width, h.entry)),
            format!("underflow {}, two-byte {}, four-byte {}", h.underflows, h.two, h.four),
        ),
    };
    let (name, end) = (shown(file), end_text("frame", end));
    format!(
        "{name}: FORMAT {}, {} rows, {} columns, {form}\n  entries: {entries}\n  header {} bytes, {end}",
        h.format, h.rows, h.columns, h.start,
    )
}

fn bruker_value(file: &Path, h: &HeaderAnswer, end: Option<End>) -> Value {
    json!({
        "file": shown(file), "format": h.format, "rows": h.rows, "columns": h.columns,
        "width": h.width, "underflow_width": h.entry, "baseline_subtracted": h.subtracted == 1, "baseline": h.baseline,
        "overflow_entries": h.entries, "underflow_entries": h.underflows,
        "two_byte_entries": h.two, "four_byte_entries": h.four,
        "header_bytes": h.start, "end": end.map(|end| end.end), "bytes": end.map(|end| end.bytes),
    })
}

/// The lines that are not blank, with their numbers from 0 and without the spaces at their ends.
fn header_lines(header: &[u8]) -> Vec<(usize, String)> {
    let end = |line: &[u8]| line.iter().rposition(|&byte| byte != b' ').map(|last| last + 1);
    let lines = header.chunks(LINE).enumerate();
    lines.filter_map(|(number, line)| end(line).map(|end| (number, printable(&line[..end])))).collect()
}

/// A file's bytes as far as its header goes: as long as the library finds the header cut short, they are read on to the next
/// place where one may end.
fn header_bytes(file: &Path) -> Outcome<Vec<u8>> {
    let failed = || Failure::machine(file, "read");
    let (mut source, mut bytes) = (streams::open(file)?, Vec::new());
    // a pipe takes no advice, and needs none: nothing is read ahead of it
    let _ = fadvise(&source, 0, 0, Advice::Random);
    let mut more = read_on(&mut source, &mut bytes, BLOCK).map_err(failed())?;
    for length in header_ends(&bytes) {
        if !more || !is_cut_short(&bytes) {
            break;
        }
        more = read_on(&mut source, &mut bytes, length).map_err(failed())?;
    }
    Ok(bytes)
}

/// Reads until there are so many bytes. Are there?
fn read_on(source: &mut File, bytes: &mut Vec<u8>, length: usize) -> std::io::Result<bool> {
    let missing = length.saturating_sub(bytes.len()) as u64;
    source.take(missing).read_to_end(bytes)?;
    Ok(bytes.len() >= length)
}

/// Where the header of a file that starts so may end.
fn header_ends(start: &[u8]) -> Vec<usize> {
    let blocks = |most: usize| (1..=most).map(|number| BLOCK * number).collect();
    if mar::is_mar(start) {
        MAR_RECORDS.to_vec()
    } else if dtrek::is_dtrek(start) {
        blocks(DTREK_BLOCKS)
    } else {
        blocks(BRUKER_BLOCKS)
    }
}

fn is_cut_short(bytes: &[u8]) -> bool {
    let refusal = if mar::is_mar(bytes) {
        quayrudder::mar_entry(bytes, 1).refusal
    } else if dtrek::is_dtrek(bytes) {
        quayrudder::dtrek_header(bytes).refusal
    } else {
        quayrudder::header(bytes).refusal
    };
    refusal == 1
}
