//! A table of corrections as a laboratory sends it: CSV with a heading, or one JSON object a line.
use crate::args::Place;
use csv::{ByteRecord, ReaderBuilder, Trim};
use serde_json::Value;
use std::ffi::OsStr;
use std::os::unix::ffi::OsStrExt;
use std::path::PathBuf;

const COLUMNS: [&str; 5] = ["holding", "pixel", "row", "column", "count"];
/// What spreadsheets put before UTF-8.
const BYTE_ORDER_MARK: &[u8] = b"\xef\xbb\xbf";

/// The table is in memory, so the reader needs no large buffer of its own.
const BUFFER: usize = 4096;

/// What stands in the five columns of a row; nothing where a field is empty.
type Fields = [Option<Vec<u8>>; COLUMNS.len()];

pub struct Table {
    pub rows: Vec<Row>,
    /// The columns that say nothing to this command.
    pub unused: Vec<String>,
}

pub struct Row {
    /// From 1, without the heading.
    pub number: u64,
    pub holding: Option<PathBuf>,
    /// What is asked for, or what is wrong with the row.
    pub asked: Result<Asked, String>,
}

#[derive(Clone, Copy, Debug, PartialEq, Eq)]
pub struct Asked {
    pub place: Place,
    pub count: u32,
}

/// Takes a table apart, or says why it is none. A row that is malformed is one with its sentence.
pub fn read(bytes: &[u8]) -> Result<Table, String> {
    let bytes = bytes.strip_prefix(BYTE_ORDER_MARK).unwrap_or(bytes);
    match bytes.iter().find(|byte| !byte.is_ascii_whitespace()) {
        Some(b'{') => from_json(bytes),
        _ => from_csv(bytes),
    }
}

fn from_csv(bytes: &[u8]) -> Result<Table, String> {
    let mut builder = ReaderBuilder::new();
    builder.buffer_capacity(BUFFER).flexible(true).trim(Trim::All).delimiter(delimiter(bytes));
    let mut reader = builder.from_reader(bytes);
    let broken = |error: csv::Error| format!("is no CSV: {error}");
    let heading: Vec<String> = reader.byte_headers().map_err(broken)?.iter().map(text).collect();
    let places = places(&heading)?;
    let mut rows = Vec::new();
    for (record, number) in reader.into_byte_records().zip(1..) {
        let record = record.map_err(broken)?;
        if record.iter().any(|field| !field.is_empty()) {
            rows.push(csv_row(number, &record, &places, heading.len()));
        }
    }
    let unused = heading.into_iter().filter(|name| !name.is_empty() && column(name).is_none()).collect();
    Ok(Table { rows, unused })
}

/// The first of these that the heading has. Spreadsheets separate by semicolons where the comma is in numbers.
fn delimiter(bytes: &[u8]) -> u8 {
    let heading = bytes.split(|byte| b"\r\n".contains(byte)).find(|line| !line.is_empty()).unwrap_or_default();
    b",;\t".iter().copied().find(|byte| heading.contains(byte)).unwrap_or(b',')
}

/// Where each of the five columns stands.
fn places(heading: &[String]) -> Result<[Option<usize>; COLUMNS.len()], String> {
    let mut places = [None; COLUMNS.len()];
    for (place, name) in heading.iter().enumerate() {
        if let Some(known) = column(name) {
            if places[known].replace(place).is_some() {
                return Err(format!("has the column {} twice", COLUMNS[known]));
            }
        }
    }
    match places {
        [Some(_), Some(_), _, _, Some(_)] | [Some(_), _, Some(_), Some(_), Some(_)] => Ok(places),
        _ => Err(format!(
            "is no table of corrections: its first line must name the columns holding, count, and pixel or row and \
             column, and has `{}`",
            heading.join("`, `")
        )),
    }
}

fn csv_row(number: u64, record: &ByteRecord, places: &[Option<usize>; COLUMNS.len()], fields: usize) -> Row {
    let field = |place: Option<usize>| record.get(place?).filter(|field| !field.is_empty()).map(<[u8]>::to_vec);
    let mut row = row(number, places.map(field));
    if record.len() != fields {
        row.asked = Err(format!("the row has {} fields, and the heading {fields}", record.len()));
    }
    row
}

fn from_json(bytes: &[u8]) -> Result<Table, String> {
    let (mut rows, mut unused) = (Vec::new(), Vec::new());
    for (line, number) in bytes.split(|byte| *byte == b'\n').zip(1..) {
        if line.trim_ascii().is_empty() {
            continue;
        }
        let value: Value =
            serde_json::from_slice(line).map_err(|error| format!("line {number} is no JSON: {error}"))?;
        let object = value.as_object().ok_or_else(|| format!("line {number} is no JSON object"))?;
        let mut fields = Fields::default();
        for (name, value) in object {
            match column(name) {
                Some(known) => fields[known] = json_field(value),
                None if !unused.contains(name) => unused.push(name.clone()),
                None => {}
            }
        }
        rows.push(row(rows.len() as u64 + 1, fields));
    }
    Ok(Table { rows, unused })
}

fn json_field(value: &Value) -> Option<Vec<u8>> {
    match value {
        Value::Null => None,
        Value::String(text) => Some(text.clone().into_bytes()).filter(|text| !text.is_empty()),
        other => Some(other.to_string().into_bytes()),
    }
}

/// The column of this name. Its case and white space around it do not count.
fn column(name: &str) -> Option<usize> {
    COLUMNS.iter().position(|known| known.eq_ignore_ascii_case(name.trim()))
}

fn row(number: u64, fields: Fields) -> Row {
    let [holding, pixel, row, column, count] = fields;
    let count = count.ok_or_else(|| "the row has no count".to_string());
    let count = count.and_then(|digits| whole("count", &digits, u32::MAX.into()));
    let asked = place(pixel, row, column).and_then(|place| count.map(|count| Asked { place, count: count as u32 }));
    Row { number, holding: holding.map(|name| PathBuf::from(OsStr::from_bytes(&name))), asked }
}

fn place(pixel: Option<Vec<u8>>, row: Option<Vec<u8>>, column: Option<Vec<u8>>) -> Result<Place, String> {
    match (pixel, row, column) {
        (Some(pixel), None, None) => Ok(Place::Pixel(whole("pixel", &pixel, u64::MAX)?)),
        (None, Some(row), Some(column)) => {
            Ok(Place::At { row: whole("row", &row, u64::MAX)?, column: whole("column", &column, u64::MAX)? })
        }
        (Some(_), ..) => Err("the row has a pixel and also a row or a column: give one of both".into()),
        (None, ..) => Err("the row has no pixel, nor a row and a column".into()),
    }
}

/// A number in digits alone: a sign, a point or an exponent is a slip.
fn whole(name: &str, digits: &[u8], most: u64) -> Result<u64, String> {
    let number = std::str::from_utf8(digits).ok().filter(|text| text.bytes().all(|byte| byte.is_ascii_digit()));
    let number = number.and_then(|text| text.parse().ok()).filter(|number| *number <= most);
    number.ok_or_else(|| format!("{name} `{}` is no whole number from 0 to {most}", text(digits)))
}

/// On one line, whatever the bytes are.
fn text(bytes: &[u8]) -> String {
    String::from_utf8_lossy(bytes).escape_debug().to_string()
}

#[cfg(test)]
mod tests {
    use super::*;

    /// Each row's number, its holding, and what is asked for or wrong.
    fn rows(bytes: &[u8]) -> Vec<(u64, String, Result<Asked, String>)> {
        let name = |row: &Row| row.holding.clone().unwrap_or_default().to_string_lossy().into_owned();
        let table = read(bytes).unwrap();
        table.rows.into_iter().map(|row| (row.number, name(&row), row.asked)).collect()
    }

    fn pixel(number: u64, count: u32) -> Result<Asked, String> {
        Ok(Asked { place: Place::Pixel(number), count })
    }

    #[test]
    fn csv_of_every_kind_is_read() {
        let expected = [(1, "a".to_string(), pixel(5, 90)), (2, "b c".to_string(), pixel(6, 4294967295))];
        let tables: [&[u8]; 6] = [
            b"holding,pixel,count\na,5,90\nb c,6,4294967295\n",
            b"holding,pixel,count\r\na,5,90\r\n\r\n\"b c\", 6 ,4294967295",
            b"\xef\xbb\xbfCount;Pixel; Holding \n90;5;a\n4294967295;6;b c\n;;\n",
            b"count\tpixel\tholding\twho\n90\t5\ta\tanna\n4294967295\t6\tb c\t\n",
            b"{\"holding\":\"a\",\"pixel\":5,\"count\":\"90\"}\n\n{\"pixel\":6,\"count\":4294967295,\"holding\":\"b c\"}",
            b"\xef\xbb\xbf \n{\"Holding\":\"a\",\"pixel\":5,\"count\":90,\"row\":null}\n{\"pixel\":\"6\",\"count\":4294967295,\"holding\":\"b c\",\"row\":\"\"}\r\n",
        ];
        for table in tables {
            assert_eq!(rows(table), expected, "{}", text(table));
        }
    }

    #[test]
    fn columns_that_are_not_used_are_named_once() {
        assert_eq!(read(b"who,holding,pixel,count,when,\nx,a,5,90,y,\n").unwrap().unused, ["who", "when"]);
        let json = b"{\"holding\":\"a\",\"pixel\":5,\"count\":9,\"who\":1}\n{\"who\":2,\"when\":3}\n";
        assert_eq!(read(json).unwrap().unused, ["who", "when"]);
    }

    #[test]
    fn a_malformed_row_says_why() {
        let wrong = |line: &str| {
            let table = format!("holding,pixel,row,column,count\n{line}\n");
            rows(table.as_bytes()).remove(0).2.unwrap_err()
        };
        assert!(wrong("a,5,,,").contains("no count"));
        assert!(wrong("a,,,,5").contains("no pixel, nor a row and a column"));
        assert!(wrong("a,,1,,5").contains("no pixel, nor a row and a column"));
        assert!(wrong("a,1,1,1,5").contains("give one of both"));
        assert!(wrong("a,5,,,4294967296").contains("count `4294967296` is no whole number from 0 to 4294967295"));
        assert!(wrong("a,+5,,,1").contains("pixel `+5` is no whole number"));
        assert!(wrong("a,5,,,1.0").contains("count `1.0` is no whole number"));
        assert!(wrong("a,5,,,1,9").contains("the row has 6 fields, and the heading 5"));
        assert!(wrong("a,5").contains("the row has 2 fields"));
    }

    #[test]
    fn what_is_no_table_is_said_as_a_whole() {
        let wrong = |bytes: &[u8]| read(bytes).map(|_| ()).unwrap_err();
        assert!(wrong(b"").contains("is no table of corrections"));
        assert!(wrong(b"a,5,90\n").contains("and has `a`, `5`, `90`"));
        assert!(wrong(b"holding,row,count\na,1,2\n").contains("pixel or row and column"));
        assert!(wrong(b"holding,pixel,count,Count\na,1,2,3\n").contains("has the column count twice"));
        assert!(wrong(b"{\"holding\":\"a\",\"pixel\":5,\"count\":9}\n{\"holding\":\"b\"").contains("line 2 is no JSON"));
        assert!(wrong(b"{}\n[1]\n").contains("line 2 is no JSON object"));
    }
}
