//! Frames, read and written step by step over whole lists.

pub const LINE: usize = 80;
pub const NAME: usize = 8;
pub const BLOCK: usize = 512;

/// Pixel width and bytes of an underflow entry, 0 for kind none. Of two that give frames of one length the smallest form is the earlier.
pub const FORMS: [(u32, u32); 9] = [
    (1, 0),
    (1, 1),
    (1, 2),
    (2, 0),
    (2, 1),
    (2, 2),
    (4, 0),
    (4, 1),
    (4, 2),
];

#[derive(Clone, Copy, Debug, PartialEq, Eq)]
pub struct Refusal {
    pub number: u32,
    pub place: u32,
}

pub fn refuse<T>(number: u32) -> Result<T, Refusal> {
    refuse_at(number, 0)
}

pub fn refuse_at<T>(number: u32, place: usize) -> Result<T, Refusal> {
    let place = place as u32;
    Err(Refusal { number, place })
}

#[derive(Clone, Debug, Default)]
pub struct Header {
    pub format: u64,
    /// Bytes.
    pub length: usize,
    pub rows: u64,
    pub columns: u64,
    pub width: u64,
    pub underflow_width: u64,
    /// None is the count -1.
    pub underflows: Option<u64>,
    pub two_byte: u64,
    pub four_byte: u64,
    /// Entries of the FORMAT 86 table.
    pub overflows: u64,
    pub baseline: u64,
}

impl Header {
    pub fn pixels(&self) -> usize {
        (self.rows * self.columns) as usize
    }
}

#[derive(Clone, Copy, Debug, Default, PartialEq, Eq)]
pub struct Extent {
    pub rows: u32,
    pub columns: u32,
    pub end: u64,
}

fn data(bytes: &[u8], line: usize) -> &[u8] {
    &bytes[line * LINE + NAME..(line + 1) * LINE]
}

fn is_named(bytes: &[u8], line: usize, name: &[u8; NAME]) -> bool {
    bytes[line * LINE..].starts_with(name)
}

fn field(data: &[u8], index: usize) -> Option<&[u8]> {
    let runs = data.split(|byte| *byte == b' ');
    runs.filter(|run| !run.is_empty()).nth(index)
}

fn all_digits(text: &[u8]) -> bool {
    !text.is_empty() && text.iter().all(u8::is_ascii_digit)
}

fn decimal(digits: &[u8]) -> u64 {
    let step = |value: u64, digit: &u8| value * 10 + u64::from(digit - b'0');
    digits.iter().fold(0, step)
}

pub fn parse_number(text: &[u8]) -> Option<u64> {
    let fits = all_digits(text) && text.len() <= 10;
    fits.then(|| decimal(text))
        .filter(|value| *value <= u64::from(u32::MAX))
}

fn parse_version(text: &[u8]) -> Option<u64> {
    let digits = text.iter().take_while(|byte| byte.is_ascii_digit()).count();
    let (number, plus) = text.split_at(digits);
    let right = (1..=2).contains(&digits) && matches!(plus, b"" | b"+" | b"++");
    right.then(|| decimal(number))
}

fn number(bytes: &[u8], line: usize, index: usize) -> Result<u64, Refusal> {
    match field(data(bytes, line), index).and_then(parse_number) {
        Some(value) => Ok(value),
        None => refuse_at(3, line),
    }
}

/// FORMAT and the header's length in bytes.
fn read_lead(bytes: &[u8]) -> Result<(u64, usize), Refusal> {
    if bytes.len() < 3 * LINE {
        return refuse(1);
    }
    let names = [b"FORMAT :", b"VERSION:", b"HDRBLKS:"];
    if (0..3).any(|line| !is_named(bytes, line, names[line])) {
        return refuse(2);
    }
    let format = number(bytes, 0, 0)?;
    if format != 86 && format != 100 {
        return refuse(4);
    }
    let Some(version) = field(data(bytes, 1), 0).and_then(parse_version) else {
        return refuse_at(3, 1);
    };
    if !(1..=17).contains(&version) || version == 6 {
        return refuse(5);
    }
    let blocks = number(bytes, 2, 0)?;
    if !(10..=64).contains(&blocks) || (format == 86 && blocks % 5 != 0) {
        return refuse(6);
    }
    let length = blocks as usize * BLOCK;
    if bytes.len() < length {
        return refuse(1);
    }
    Ok((format, length))
}

fn need_line(header: &[u8], line: usize, name: &[u8; NAME]) -> Result<(), Refusal> {
    if (line + 1) * LINE > header.len() || !is_named(header, line, name) {
        return refuse(7);
    }
    Ok(())
}

fn read_counts(header: &[u8], found: &mut Header) -> Result<(), Refusal> {
    need_line(header, 20, b"NOVERFL:")?;
    if found.format == 86 {
        found.overflows = number(header, 20, 0)?;
        return Ok(());
    }
    if field(data(header, 20), 0) != Some(b"-1") {
        found.underflows = Some(number(header, 20, 0)?);
    }
    found.two_byte = number(header, 20, 1)?;
    found.four_byte = number(header, 20, 2)?;
    Ok(())
}

fn read_shape(header: &[u8], found: &mut Header) -> Result<(), Refusal> {
    need_line(header, 39, b"NPIXELB:")?;
    found.width = number(header, 39, 0)?;
    if found.format == 100 {
        found.underflow_width = number(header, 39, 1)?;
    }
    need_line(header, 40, b"NROWS  :")?;
    found.rows = number(header, 40, 0)?;
    need_line(header, 41, b"NCOLS  :")?;
    found.columns = number(header, 41, 0)?;
    Ok(())
}

pub fn read_baseline(header: &[u8]) -> Result<u64, Refusal> {
    need_line(header, 79, b"NEXP   :")?;
    number(header, 79, 2)
}

fn within_lists(found: &Header) -> bool {
    let side = if found.format == 86 { 2048 } else { 4096 };
    matches!(found.width, 1 | 2 | 4)
        && found.underflow_width <= 2
        && (1..=side).contains(&found.rows)
        && (1..=side).contains(&found.columns)
        && found.baseline <= 65535
        && !(found.underflow_width == 0 && found.underflows.is_some_and(|count| count > 0))
}

/// Whether the field is a decimal of the given whole part and a fraction of nothing.
fn is_decimal_of(text: Option<&[u8]>, whole: &[u8]) -> bool {
    let Some(text) = text else { return false };
    let point = text.iter().position(|byte| *byte == b'.');
    let (left, right) = match point {
        Some(at) => (&text[..at], &text[at + 1..]),
        None => (text, &b"0"[..]),
    };
    let zeros = left.iter().take_while(|byte| **byte == b'0').count();
    all_digits(left)
        && all_digits(right)
        && &left[zeros..] == whole
        && right.iter().all(|byte| *byte == b'0')
}

/// The header's refusals, 1 to 9.
pub fn read_header(bytes: &[u8]) -> Result<Header, Refusal> {
    let (format, length) = read_lead(bytes)?;
    let header = &bytes[..length];
    let mut found = Header {
        format,
        length,
        ..Header::default()
    };
    read_counts(header, &mut found)?;
    read_shape(header, &mut found)?;
    need_line(header, 58, b"LINEAR :")?;
    if found.underflows.is_some() {
        found.baseline = read_baseline(header)?;
    }
    if !within_lists(&found) {
        return refuse(8);
    }
    let linear = data(header, 58);
    if !is_decimal_of(field(linear, 0), b"1") || !is_decimal_of(field(linear, 1), b"") {
        return refuse(9);
    }
    Ok(found)
}

/// Numbers of the given width, least significant byte first.
fn numbers(bytes: &[u8], width: usize) -> Vec<u32> {
    let value = |part: &[u8]| part.iter().rev().fold(0, |v, b| v << 8 | u32::from(*b));
    bytes.chunks_exact(width).map(value).collect()
}

pub fn padded(length: u64, unit: u64) -> u64 {
    length.div_ceil(unit) * unit
}

/// A part of the frame from a place on, or 11.
fn part(bytes: &[u8], from: u64, length: u64) -> Result<&[u8], Refusal> {
    if from + length > bytes.len() as u64 {
        return refuse(11);
    }
    Ok(&bytes[from as usize..(from + length) as usize])
}

struct Parts<'a> {
    image: &'a [u8],
    /// Each table with its padding.
    tables: Vec<&'a [u8]>,
    end: u64,
}

/// Bytes of each table without padding.
fn table_lengths(header: &Header) -> Vec<u64> {
    if header.format == 86 {
        return vec![16 * header.overflows];
    }
    let underflow = header.underflow_width * header.underflows.unwrap_or(0);
    vec![underflow, 2 * header.two_byte, 4 * header.four_byte]
}

fn split<'a>(header: &Header, bytes: &'a [u8]) -> Result<Parts<'a>, Refusal> {
    let unit = if header.format == 86 { 512 } else { 16 };
    let size = header.width * header.rows * header.columns;
    let image = part(bytes, header.length as u64, size)?;
    let mut end = header.length as u64 + size;
    let mut tables = Vec::new();
    for length in table_lengths(header) {
        tables.push(part(bytes, end, padded(length, unit))?);
        end += padded(length, unit);
    }
    Ok(Parts { image, tables, end })
}

/// Puts the entries, in order, at the values that are `mark`. 14 unless they come out even.
fn replace(values: &mut [u32], mark: u32, entries: &[u32]) -> Result<(), Refusal> {
    let places: Vec<usize> = (0..values.len()).filter(|i| values[*i] == mark).collect();
    if places.len() != entries.len() {
        return refuse(14);
    }
    for (place, entry) in places.iter().zip(entries) {
        values[*place] = *entry;
    }
    Ok(())
}

fn unused(entries: &[u32]) -> Result<(), Refusal> {
    if entries.is_empty() {
        Ok(())
    } else {
        refuse(14)
    }
}

/// Step c.
fn lift(values: &mut [u32], entries: &[u32], baseline: u32) -> Result<(), Refusal> {
    let low: Vec<bool> = values.iter().map(|value| *value == 0).collect();
    replace(values, 0, entries)?;
    for (value, low) in values.iter_mut().zip(low) {
        if low {
            continue;
        }
        match value.checked_add(baseline) {
            Some(sum) => *value = sum,
            None => return refuse(15),
        }
    }
    Ok(())
}

fn expand_100(header: &Header, parts: &Parts) -> Result<Vec<u32>, Refusal> {
    let lengths = table_lengths(header);
    let widths = [header.underflow_width.max(1) as usize, 2, 4];
    let mut entries = Vec::new();
    for index in 0..3 {
        let (table, padding) = parts.tables[index].split_at(lengths[index] as usize);
        if padding.iter().any(|byte| *byte != 0) {
            return refuse(12);
        }
        entries.push(numbers(table, widths[index]));
    }
    let mut values = numbers(parts.image, header.width as usize);
    match header.width {
        1 => replace(&mut values, 255, &entries[1])?,
        _ => unused(&entries[1])?,
    }
    match header.width {
        4 => unused(&entries[2])?,
        _ => replace(&mut values, 65535, &entries[2])?,
    }
    if header.underflows.is_some() {
        lift(&mut values, &entries[0], header.baseline as u32)?;
    }
    Ok(values)
}

/// Spaces and then digits to the end.
fn right_aligned(text: &[u8]) -> Option<u64> {
    let spaces = text.iter().take_while(|byte| **byte == b' ').count();
    let digits = &text[spaces..];
    all_digits(digits).then(|| decimal(digits))
}

fn expand_86(header: &Header, parts: &Parts) -> Result<Vec<u32>, Refusal> {
    let mut values = numbers(parts.image, header.width as usize);
    let is_marked = |value: u32| match header.width {
        1 => value == 255,
        2 => value == 65535,
        _ => false,
    };
    let mut marked: Vec<bool> = values.iter().map(|value| is_marked(*value)).collect();
    let table = &parts.tables[0][..16 * header.overflows as usize];
    for (place, entry) in table.chunks_exact(16).enumerate() {
        let intensity = right_aligned(&entry[..9]);
        let pixel = right_aligned(&entry[9..]);
        let (Some(intensity), Some(pixel)) = (intensity, pixel) else {
            return refuse_at(13, place);
        };
        let pixel = pixel as usize;
        if pixel >= values.len() || !marked[pixel] {
            return refuse_at(13, place);
        }
        marked[pixel] = false;
        values[pixel] = intensity as u32;
    }
    if marked.contains(&true) {
        return refuse(14);
    }
    Ok(values)
}

/// Reading, refusals 1 to 15.
pub fn read(bytes: &[u8], lent: &mut [u32]) -> Result<Extent, Refusal> {
    let header = read_header(bytes)?;
    if lent.len() < header.pixels() {
        return refuse(10);
    }
    let parts = split(&header, bytes)?;
    let lent = &mut lent[..header.pixels()];
    lent.fill(0);
    let values = match header.format {
        86 => expand_86(&header, &parts)?,
        _ => expand_100(&header, &parts)?,
    };
    lent.copy_from_slice(&values);
    Ok(Extent {
        rows: header.rows as u32,
        columns: header.columns as u32,
        end: parts.end,
    })
}

/// The baseline that the form asks for, or 16.
pub fn form_baseline(
    header: &Header,
    bytes: &[u8],
    width: u32,
    underflow: u32,
) -> Result<Option<u32>, Refusal> {
    let listed = matches!(width, 1 | 2 | 4) && underflow <= 2;
    if header.format == 86 || !listed {
        return refuse(16);
    }
    if underflow == 0 {
        return Ok(None);
    }
    if header.underflows.is_some() {
        return Ok(Some(header.baseline as u32));
    }
    match read_baseline(&bytes[..header.length]) {
        Ok(baseline) if baseline <= 65535 => Ok(Some(baseline as u32)),
        _ => refuse(16),
    }
}

/// Stored values and the entries of the three tables.
#[derive(Default)]
struct Stored {
    image: Vec<u32>,
    underflow: Vec<u32>,
    two_byte: Vec<u32>,
    four_byte: Vec<u32>,
}

fn store(pixels: &[u32], width: u32, baseline: Option<u32>) -> Stored {
    let mut stored = Stored::default();
    for pixel in pixels {
        let mut value = *pixel;
        if let Some(baseline) = baseline {
            if value <= baseline {
                stored.underflow.push(value);
                value = 0;
            } else {
                value -= baseline;
            }
        }
        if width == 1 && value >= 255 {
            stored.two_byte.push(value.min(65535));
        }
        if width != 4 && value >= 65535 {
            stored.four_byte.push(value);
        }
        stored.image.push(match width {
            1 => value.min(255),
            2 => value.min(65535),
            _ => value,
        });
    }
    stored
}

fn put_numbers(out: &mut Vec<u8>, values: &[u32], width: u32) {
    for value in values {
        out.extend_from_slice(&value.to_le_bytes()[..width as usize]);
    }
}

fn put_table(out: &mut Vec<u8>, values: &[u32], width: u32) {
    let mut table = Vec::new();
    put_numbers(&mut table, values, width);
    table.resize(padded(table.len() as u64, 16) as usize, 0);
    out.extend(table);
}

/// Sets a line's data: each text at the left of a cell of 24 characters.
fn set_cells(header: &mut [u8], line: usize, cells: [String; 3]) {
    let text = format!("{:<24}{:<24}{:<24}", cells[0], cells[1], cells[2]);
    header[line * LINE + NAME..(line + 1) * LINE].copy_from_slice(text.as_bytes());
}

/// Writing, refusals 1 to 10 and 16 to 18. The answer is the frame's length.
pub fn write(
    bytes: &[u8],
    pixels: &[u32],
    width: u32,
    underflow: u32,
    out: &mut [u8],
) -> Result<u64, Refusal> {
    let header = read_header(bytes)?;
    if pixels.len() < header.pixels() {
        return refuse(10);
    }
    let baseline = form_baseline(&header, bytes, width, underflow)?;
    let stored = store(&pixels[..header.pixels()], width, baseline);
    if underflow == 1 && stored.underflow.iter().any(|entry| *entry > 255) {
        return refuse(17);
    }
    let mut frame = bytes[..header.length].to_vec();
    let first = match baseline {
        Some(_) => stored.underflow.len().to_string(),
        None => "-1".to_string(),
    };
    let counts = [stored.two_byte.len(), stored.four_byte.len()].map(|count| count.to_string());
    let [two_byte, four_byte] = counts;
    set_cells(&mut frame, 20, [first, two_byte, four_byte]);
    let widths = [width.to_string(), underflow.to_string(), String::new()];
    set_cells(&mut frame, 39, widths);
    put_numbers(&mut frame, &stored.image, width);
    put_table(&mut frame, &stored.underflow, underflow);
    put_table(&mut frame, &stored.two_byte, 2);
    put_table(&mut frame, &stored.four_byte, 4);
    if frame.len() > out.len() {
        return refuse(18);
    }
    out.fill(0);
    out[..frame.len()].copy_from_slice(&frame);
    Ok(frame.len() as u64)
}
