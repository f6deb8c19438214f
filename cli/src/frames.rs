//! Frames, mar images and d*TREK images as they are read, and frames as they are written.
use crate::args::Write;
use crate::dtrek;
use crate::failure::{shown, Failure, Outcome, Refused};
use crate::formats;
use crate::mar;
use crate::output::Output;
use crate::pixels::{Counts, Given};
use crate::refusals::sentence;
use crate::streams;
use quayrudder::{Form, HeaderAnswer, ReadAnswer};
use serde_json::json;
use std::path::Path;

/// A frame or an image that the library accepts.
pub struct Frame {
    pub kind: Kind,
    pub counts: Counts,
    pub end: u64,
}

/// What the header of a frame or an image says.
pub enum Kind {
    Bruker(HeaderAnswer),
    Mar(mar::Entries),
    Dtrek(dtrek::Header),
}

/// An accepted header, or its refusal.
pub fn header(file: &Path, bytes: &[u8]) -> Outcome<HeaderAnswer> {
    let header = quayrudder::header(bytes);
    match header.refusal {
        0 => Ok(header),
        number => Err(refused(file, bytes, number, header.place, header.column)),
    }
}

/// A refusal with what the file has at its place.
pub fn refused(file: &Path, bytes: &[u8], number: u32, place: u32, column: u32) -> Failure {
    let note = match number {
        3 => format!("header line {place} has `{}`", line_text(bytes, place as usize)),
        13 => format!("entry {place}, counted from 0"),
        _ if mar::is_mar(bytes) => only_read("mar"),
        _ if dtrek::is_dtrek(bytes) => only_read("d*TREK"),
        _ => String::new(),
    };
    Failure::Refused(Refused { file: file.into(), number, place, column, note, said: sentence(number) })
}

fn only_read(format: &str) -> String {
    format!("this is a {format} image, which only `info`, `view` and `expand` take")
}

fn line_text(bytes: &[u8], line: usize) -> String {
    let text = bytes.get(80 * line..).unwrap_or_default();
    String::from_utf8_lossy(&text[..text.len().min(80)]).trim_end().escape_debug().to_string()
}

/// The pixels that a header speaks of.
pub fn pixel_count(header: &HeaderAnswer) -> usize {
    header.rows as usize * header.columns as usize
}

/// As many bytes as a frame takes at most: nine for each pixel of one byte with an entry in each table, and three paddings.
pub fn most_bytes(header: &HeaderAnswer) -> usize {
    header.start as usize + 9 * pixel_count(header) + 48
}

/// The format of a file and what its header says, or the header's refusal.
pub fn kind(file: &Path, bytes: &[u8]) -> Outcome<Kind> {
    if mar::is_mar(bytes) {
        mar::entries(file, bytes).map(Kind::Mar)
    } else if dtrek::is_dtrek(bytes) {
        dtrek::header(file, bytes).map(Kind::Dtrek)
    } else {
        header(file, bytes).map(Kind::Bruker)
    }
}

impl Kind {
    fn pixel_count(&self) -> usize {
        match self {
            Kind::Bruker(header) => pixel_count(header),
            Kind::Mar(entries) => entries.pixel_count(),
            Kind::Dtrek(header) => header.pixel_count(),
        }
    }

    fn refused(&self, file: &Path, bytes: &[u8], answer: &ReadAnswer) -> Failure {
        match self {
            Kind::Bruker(_) => refused(file, bytes, answer.refusal, answer.place, answer.column),
            Kind::Mar(_) => mar::refused(file, answer.refusal, answer.place),
            Kind::Dtrek(_) => dtrek::refused(file, bytes, answer.refusal),
        }
    }
}

/// The whole of a frame or an image, from a file's bytes.
pub fn read(file: &Path, bytes: &[u8]) -> Outcome<Frame> {
    let kind = kind(file, bytes)?;
    let mut pixels = vec![0; kind.pixel_count()];
    let answer = match kind {
        Kind::Bruker(_) => quayrudder::read(bytes, &mut pixels),
        Kind::Mar(_) => quayrudder::mar_read(bytes, &mut pixels),
        Kind::Dtrek(_) => quayrudder::dtrek_read(bytes, &mut pixels),
    };
    if answer.refusal != 0 {
        return Err(kind.refused(file, bytes, &answer));
    }
    let counts = Counts { rows: answer.rows, columns: answer.columns, pixels };
    Ok(Frame { kind, counts, end: answer.end })
}

/// The counts of a frame or an image that has any.
pub fn counts(file: &Path) -> Outcome<Counts> {
    let counts = read(file, &streams::input(file)?)?.counts;
    match counts.pixels.is_empty() {
        true => Err(Failure::declined(file, "has no pixels: it is a header alone, which `info` shows")),
        false => Ok(counts),
    }
}

/// A form as it is asked for: `2`, or `1+2`.
pub fn form_text(width: u32, underflow: u32) -> String {
    match underflow {
        0 => width.to_string(),
        entry => format!("{width}+{entry}"),
    }
}

pub fn write(output: &mut Output, asked: &Write) -> Outcome<()> {
    output.make_way_for(&asked.output);
    streams::must_come_once([asked.header.as_path(), &asked.pixels])?;
    let format = formats::to_read(&asked.pixels, asked.format)?;
    let bytes = streams::input(&asked.header)?;
    let header = header(&asked.header, &bytes)?;
    let given = format.decode(&asked.pixels, &streams::input(&asked.pixels)?)?;
    must_fit(&asked.pixels, &given, &header)?;
    let mut out = vec![0; most_bytes(&header)];
    let answer = quayrudder::write(&bytes, &given.pixels, asked.form, &mut out);
    match answer.refusal {
        0 => {}
        10 => return Err(Failure::refused(&asked.pixels, 10)),
        number => return Err(refused(&asked.header, &bytes, number, answer.place, answer.column)),
    }
    streams::output(&asked.output, &out[..answer.length as usize], asked.force)?;
    let (name, Form { width, underflow }) = (shown(&asked.output), asked.form);
    let form = form_text(width, underflow);
    let text =
        format!("{name}: {} rows, {} columns, form {form}, {} bytes", header.rows, header.columns, answer.length);
    let value = json!({
        "file": name, "rows": header.rows, "columns": header.columns, "width": width, "underflow_width": underflow,
        "bytes": answer.length,
    });
    output.say(&text, &value)
}

/// Counts of another shape, or more of them, are a mistake. Too few are the library's refusal 10.
fn must_fit(file: &Path, given: &Given, header: &HeaderAnswer) -> Outcome<()> {
    let (rows, columns) = (u64::from(header.rows), u64::from(header.columns));
    match given.shape {
        Some(shape) if shape != (rows, columns) => {
            let why = format!("has {} rows and {} columns, and the header says {rows} and {columns}", shape.0, shape.1);
            Err(Failure::declined(file, why))
        }
        _ if given.pixels.len() as u64 > rows * columns => {
            let why = format!("has {} counts, and the header says {rows} rows of {columns}", given.pixels.len());
            Err(Failure::declined(file, why))
        }
        _ => Ok(()),
    }
}
