//! The formats in which counts are written and read: the one table of them, and the encoders that are short.
use crate::failure::{shown, Failure, Outcome};
use crate::pixels::{self, Counts, Given};
use crate::streams;
use std::io::{Cursor, Error};
use std::path::Path;
use tiff::encoder::{colortype::Gray32, TiffEncoder};

/// A way to write counts into a file of this name; counts that it cannot hold may be clipped.
type Encoder = fn(&Path, &Counts, bool) -> Outcome<Vec<u8>>;
type Decoder = fn(&Path, &[u8]) -> Outcome<Given>;

#[derive(Debug)]
pub struct Format {
    /// The endings of a file's name, and the words for `--as`; the first is the usual one.
    endings: &'static [&'static str],
    encode: Encoder,
    decode: Option<Decoder>,
}

static FORMATS: [Format; 6] = [
    Format { endings: &["npy"], encode: |_, counts, _| Ok(pixels::npy(counts)), decode: Some(pixels::from_npy) },
    Format {
        endings: &["raw"],
        encode: |_, counts, _| Ok(pixels::raw(&counts.pixels)),
        decode: Some(pixels::from_raw),
    },
    Format { endings: &["pgm"], encode: pixels::pgm, decode: None },
    Format { endings: &["tif", "tiff"], encode: |file, counts, _| tif(file, counts), decode: None },
    Format { endings: &["edf"], encode: |_, counts, _| Ok(edf(counts)), decode: None },
    Format { endings: &["cbf"], encode: |file, counts, _| cbf(file, counts), decode: None },
];

/// For `--as`.
pub fn parse(word: &str) -> Result<&'static Format, String> {
    named(word).ok_or_else(|| format!("it is one of {}", words()))
}

/// All words for `--as`, in a sentence.
pub fn words() -> String {
    listed(|_| true, "")
}

/// The format in which counts are written to a file.
pub fn to_write(file: &Path, asked: Option<&'static Format>) -> Outcome<&'static Format> {
    chosen(file, asked, |_| true)
}

/// The format in which counts are read from a file.
pub fn to_read(file: &Path, asked: Option<&'static Format>) -> Outcome<&'static Format> {
    chosen(file, asked, |format| format.decode.is_some())
}

fn named(ending: &str) -> Option<&'static Format> {
    FORMATS.iter().find(|format| format.endings.contains(&ending))
}

/// The usual endings of some of the formats in a sentence.
fn listed(fits: fn(&Format) -> bool, before: &str) -> String {
    let endings: Vec<String> =
        FORMATS.iter().filter(|format| fits(format)).map(|format| format!("{before}{}", format.ending())).collect();
    match endings.split_last() {
        Some((last, rest)) if !rest.is_empty() => format!("{} or {last}", rest.join(", ")),
        _ => endings.concat(),
    }
}

/// The format of the name's ending or the one asked for, which must not be two.
fn chosen(file: &Path, asked: Option<&'static Format>, fits: fn(&Format) -> bool) -> Outcome<&'static Format> {
    let ending = file.extension().and_then(|ending| ending.to_str()).unwrap_or_default();
    let name = shown(file);
    let why = match (named(ending), asked) {
        (Some(said), Some(asked)) if said.endings != asked.endings => {
            format!("`{name}` ends in .{ending}, and --as says {}", asked.ending())
        }
        (said, asked) => match asked.or(said).filter(|format| fits(format)) {
            Some(format) => return Ok(format),
            None if streams::is_stream(file) => format!("`-` needs --as with {}", listed(fits, "")),
            None => format!("`{name}` must end in {}, or --as must say one of them", listed(fits, ".")),
        },
    };
    Err(Failure::Usage(why))
}

impl Format {
    /// The usual ending of a file's name.
    pub fn ending(&self) -> &'static str {
        self.endings[0]
    }

    pub fn encode(&self, file: &Path, counts: &Counts, clip: bool) -> Outcome<Vec<u8>> {
        (self.encode)(file, counts, clip)
    }

    pub fn decode(&self, file: &Path, bytes: &[u8]) -> Outcome<Given> {
        match self.decode {
            Some(decode) => decode(file, bytes),
            None => Err(Failure::declined(file, "is of a format that is only written")),
        }
    }
}

/// One grey picture of 32 bits, unsigned and uncompressed.
fn tif(file: &Path, counts: &Counts) -> Outcome<Vec<u8>> {
    let mut bytes = Cursor::new(Vec::new());
    TiffEncoder::new(&mut bytes)
        .and_then(|mut encoder| encoder.write_image::<Gray32>(counts.columns, counts.rows, &counts.pixels))
        .map_err(|error| Failure::machine(file, "encode")(Error::other(error)))?;
    Ok(bytes.into_inner())
}

/// The ESRF data format: a header in braces, padded to a multiple of 512 bytes, and the counts.
fn edf(counts: &Counts) -> Vec<u8> {
    let data = pixels::raw(&counts.pixels);
    let said = format!(
        "{{\nHeaderID = EH:000001:000000:000000 ;\nImage = 1 ;\nByteOrder = LowByteFirst ;\nDataType = UnsignedInteger ;\n\
         Dim_1 = {} ;\nDim_2 = {} ;\nSize = {} ;\n",
        counts.columns,
        counts.rows,
        data.len()
    );
    let end = "}\n";
    let width = (said.len() + end.len()).next_multiple_of(512) - end.len();
    [format!("{said:<width$}{end}").into_bytes(), data].concat()
}

fn cbf(file: &Path, counts: &Counts) -> Outcome<Vec<u8>> {
    cbf::byte_offset(counts.rows as usize, counts.columns as usize, &counts.pixels).map_err(|error| match error {
        cbf::Error::Lost { .. } | cbf::Error::Longer { .. } => {
            let why = format!("cannot hold these counts: {error}. Write an .npy, a .raw, a .tif or an .edf");
            Failure::declined(file, why)
        }
        other => Failure::machine(file, "encode")(Error::other(other)),
    })
}
