//! What each refusal of the library means and what to do about it: the one place for these sentences.

#[derive(Debug)]
pub struct Sentence {
    pub meaning: &'static str,
    pub advice: &'static str,
    /// The bytes are not what they must be; else what was asked for cannot be had.
    pub damage: bool,
}

const fn bad(meaning: &'static str, advice: &'static str) -> Sentence {
    Sentence { meaning, advice, damage: true }
}

const fn no(meaning: &'static str, advice: &'static str) -> Sentence {
    Sentence { meaning, advice, damage: false }
}

#[rustfmt::skip]
const SENTENCES: [Sentence; 38] = [
    bad("the bytes end within the header", "Compare the file's size with its copy: it is cut short, or it is no frame."),
    bad("a name of header lines 0 to 2 is wrong", "Check that this is a Bruker frame: it starts with `FORMAT :`."),
    bad("a header field is missing or is no number of one to ten digits", "Compare the header line with another frame of the series."),
    bad("FORMAT is neither 86 nor 100", "Only frames of these two formats can be read: look at header line 0."),
    bad("VERSION is not one of 1 to 17, or is 6", "Look at header line 1."),
    bad("HDRBLKS is not 10 to 64, or for FORMAT 86 no multiple of 5", "Look at header line 2."),
    bad("a needed header line has another name or ends past the header", "Look at header lines 20, 39, 40, 41, 58 and 79: the header has lost or gained bytes, or is too short."),
    bad("a pixel width, the rows, the columns or the baseline is out of range", "Look at header lines 39, 40, 41 and 79."),
    bad("LINEAR is not 1 and 0: the counts are scaled", "Scaled frames are not read: look at header line 58."),
    no("there are fewer counts than the header has pixels", "Give as many counts as the header's rows times columns."),
    bad("the file ends within the image or a table", "Compare the file's size with its copy: it is cut short."),
    bad("the padding after a table is not zero", "The tables are damaged, or NOVERFL (line 20) does not fit them: take another copy of the frame."),
    bad("an overflow entry is malformed, belongs to no marked pixel or is a second one", "The overflow table is damaged: take another copy of the frame."),
    bad("the tables have more or fewer entries than the image calls for", "Compare NOVERFL (line 20) with the image: take another copy of the frame."),
    bad("a count and the baseline are above 4,294,967,295 together", "Look at the baseline in header line 79."),
    no("this form cannot be had for this frame", "Ask for 1, 2 or 4, alone or with +1 or +2 (--form 1+2). FORMAT 86 is only read, and +1 and +2 need a baseline in header line 79."),
    no("an underflow entry is too large for one byte", "Use underflow entries of two bytes: open or write the frame with a form that ends in +2."),
    no("the held file has no room for the longer frame", "Lend it 48 bytes more: the command does so by itself."),
    bad("the held file is no frame as the writer makes it", "It was damaged or changed by hand: restore the holding from its copy."),
    bad("the ledger is malformed", "It was damaged, cut short or changed by hand: restore the holding from its copy."),
    no("the ledger is full", "Lend the ledger more bytes."),
    no("nothing stands that could be withdrawn", "Look at the lines with `quayrudder list`."),
    bad("the pixel is not the count that its ledger line says", "Held file and ledger are not of the same state: restore the holding from its copy."),
    no("the frame has no such pixel", "Pixels are numbered from 0, row by row; ROW,COLUMN both start at 0. `quayrudder info` shows rows and columns."),
    no("this is no calendar date", "Dates are days of the Gregorian calendar in the years 0001 to 4095, written YYYY-MM-DD."),
    no("no keep line stands, so a purge is not allowed", "Set a date with `quayrudder keep NAME YYYY-MM-DD`."),
    no("the keep date is not before the day asked", "Ask again for a day after the keep date."),
    bad("the first number is neither 1200 nor 2000", "Check that this is an uncompressed mar image."),
    bad("the sizes in the mar header do not fit together", "Entry 2 must be entry 1, entry 3 twice that, and entry 6 the records that the pairs of entry 5 fill: take another copy of the image."),
    bad("the underflow buffer is too short for the entries", "Lend as many bytes as the frame's underflow entries take without padding."),
    no("what stands last is a keep date, not a correction", "Take it back first with `quayrudder withdraw NAME`, or correct the pixel with `quayrudder correct NAME PIXEL COUNT`."),
    bad("the header's start or its length is wrong", "Check that this is a d*TREK image: it starts with `{`, a newline, `HEADER_BYTES=`, five characters with a multiple of 512 up to 99840, and a semicolon. A transfer as text may have changed its line ends."),
    bad("the header's syntax is broken, its end or padding is wrong, or a keyword stands twice", "Compare the header with another image of the series: items are `KEYWORD=value;`, each followed by a newline, and after the closing brace there are a newline, a form feed, a newline and then only spaces."),
    bad("a required keyword is missing or has another content", "Look at DIM (2), SIZE1 and SIZE2 (1 to 4096, or both 0), BYTE_ORDER (big_endian or little_endian) and Data_type."),
    bad("the pixels are of a type that is not read, or compressed", "Read are unsigned pixels of one, two and four bytes (char, short int, long int) without compression: look at Data_type and COMPRESSION."),
    bad("the array for the tenths is too short", "Lend as many places as the frame has pixels."),
    no("a mar header has no such entry", "Entries are numbered from 1 to 25."),
    bad("the header buffer is too short", "Lend 32,768 bytes for the header."),
];

// What else is said of a mar image.
const MAR_TRUNCATED: Sentence = bad(
    "the bytes end within the header record",
    "Compare the file's size with its copy: it is cut short, or it is no mar image.",
);
const MAR_DATA_TRUNCATED: Sentence = bad(
    "the file ends within the image or the high-intensity records",
    "Compare the file's size with its copy: it is cut short, or it is a compressed image (.pck), which is not read.",
);
const MAR_BAD_PAIR: Sentence = bad(
    "a high-intensity pair has no pixel of 65535 to itself, or its count is not above 65535",
    "The high-intensity records are damaged: take another copy of the image.",
);

// And of a d*TREK image.
const DTREK_TRUNCATED: Sentence =
    bad("the bytes end within the header", "Compare the file's size with its copy: it is cut short.");
const DTREK_DATA_TRUNCATED: Sentence =
    bad("the file ends within the image", "Compare the file's size with its copy: it is cut short.");

// And of a line taken back, alone or to be amended: the frame had its pixel and its old count, so the two files are not of one holding.
const LINE_NO_PIXEL: Sentence = bad(
    "the frame has no such pixel as the last standing line has",
    "Held file and ledger do not belong together: restore the holding from its copy.",
);
const LINE_OLD_COUNT: Sentence = bad(
    "the frame cannot hold the old count of the last standing line",
    "Held file and ledger do not belong together: restore the holding from its copy.",
);
const AMEND_NOTHING: Sentence =
    no("nothing stands that could be amended", "Correct the pixel with `quayrudder correct NAME PIXEL COUNT`.");

const UNKNOWN: Sentence =
    bad("the library gives a number that this command does not know", "Build command and library of the same state.");

/// What is said of a refusal in one kind of call.
pub type Sentences = fn(u32) -> &'static Sentence;

pub fn sentence(number: u32) -> &'static Sentence {
    let place = (number as usize).wrapping_sub(1);
    SENTENCES.get(place).unwrap_or(&UNKNOWN)
}

/// The sentence where a mar image is read.
pub fn mar_sentence(number: u32) -> &'static Sentence {
    match number {
        1 => &MAR_TRUNCATED,
        11 => &MAR_DATA_TRUNCATED,
        13 => &MAR_BAD_PAIR,
        _ => sentence(number),
    }
}

/// The sentence where a line is taken back.
pub fn withdraw_sentence(number: u32) -> &'static Sentence {
    match number {
        17 => &LINE_OLD_COUNT,
        24 => &LINE_NO_PIXEL,
        _ => sentence(number),
    }
}

/// The sentence where a correction is amended.
pub fn amend_sentence(number: u32) -> &'static Sentence {
    match number {
        22 => &AMEND_NOTHING,
        24 => &LINE_NO_PIXEL,
        _ => sentence(number),
    }
}

/// The sentence where a d*TREK image is read.
pub fn dtrek_sentence(number: u32) -> &'static Sentence {
    match number {
        1 => &DTREK_TRUNCATED,
        11 => &DTREK_DATA_TRUNCATED,
        _ => sentence(number),
    }
}
