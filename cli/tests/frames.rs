//! info, expand, view, write, and refusals 1 to 16, by the real command.
mod common;
use common::header::{Header, LENGTH};
use common::{folder, frame, old_frame, plain_frame, raw, tables_frame, Folder, OLD_ENTRY};

const TABLES: [u32; 4] = [35, 332, 70032, 30];

#[test]
fn info_says_what_a_frame_is() {
    let f = folder();
    f.put("a.sfrm", tables_frame());
    let said = f.done("info a.sfrm");
    assert_eq!(
        said,
        "a.sfrm: FORMAT 100, 1 rows, 4 columns, form 1+1, baseline 32 subtracted\n  \
         entries: underflow 1, two-byte 2, four-byte 1\n  header 7680 bytes, frame ends at byte 7732 of 7732\n"
    );
    let json = f.done("info a.sfrm --json");
    assert!(json.contains(r#""format":100,"rows":1,"columns":4"#) && json.contains(r#""end":7732"#), "{json}");
}

#[test]
fn info_says_what_a_frame_of_the_older_format_is() {
    let f = folder();
    f.put("a.sfrm", [old_frame(OLD_ENTRY), vec![7; 3]].concat());
    let said = f.done("info a.sfrm");
    assert!(said.contains("FORMAT 86, 1 rows, 4 columns, 1 bytes per pixel\n  entries: overflow 1"), "{said}");
    assert!(said.contains("frame ends at byte 8196 of 8199"), "{said}");
}

#[test]
fn info_goes_on_after_a_bad_frame_and_gives_the_worst_status() {
    let f = folder();
    f.put("a.sfrm", plain_frame());
    f.put("b.sfrm", "short");
    let ran = f.run("info b.sfrm a.sfrm");
    assert!(
        ran.status == Some(4) && ran.out.contains("a.sfrm: FORMAT 100") && ran.err.contains("refusal 1:"),
        "{ran:?}"
    );
    let ran = f.run("info b.sfrm missing a.sfrm");
    assert!(ran.status == Some(4) && ran.err.contains("missing: cannot read it: No such file"), "{ran:?}");
    let ran = f.run("info b.sfrm --json");
    assert!(ran.status == Some(4) && ran.out.contains(r#""refusal":1"#) && ran.err.is_empty(), "{ran:?}");
}

/// A frame with one header line changed, its refusal and a part of its sentence.
fn line_case(f: &Folder, line: usize, text: &str, number: u32, part: &str) {
    f.put("bad.sfrm", frame(Header::new(4, 4).line(line, text), &[60; 16]));
    let said = f.refused("info bad.sfrm", number);
    assert!(said.starts_with("quayrudder: bad.sfrm: ") && said.contains(part), "{said}");
}

#[test]
fn each_refusal_of_a_header_has_its_sentence() {
    let f = folder();
    line_case(&f, 0, "FORMIT :100", 2, "a name of header lines 0 to 2 is wrong");
    line_case(&f, 20, "NOVERFL:none 0 0", 3, "header line 20 has `NOVERFL:none 0 0`");
    line_case(&f, 0, "FORMAT :99", 4, "FORMAT is neither 86 nor 100");
    line_case(&f, 1, "VERSION:6", 5, "VERSION is not one of 1 to 17, or is 6");
    line_case(&f, 2, "HDRBLKS:9", 6, "HDRBLKS is not 10 to 64");
    line_case(&f, 40, "NROWZ  :4", 7, "a needed header line has another name");
    line_case(&f, 39, "NPIXELB:3 0", 8, "out of range");
    line_case(&f, 58, "LINEAR :2 0", 9, "LINEAR is not 1 and 0");
    f.put("bad.sfrm", &plain_frame()[..LENGTH - 1]);
    assert!(f.refused("info bad.sfrm", 1).contains("the bytes end within the header"));
}

#[test]
fn each_refusal_of_a_frame_has_its_sentence() {
    let f = folder();
    let case = |bytes: &[u8], number: u32, part: &str| {
        f.put("bad.sfrm", bytes);
        let said = f.refused("info bad.sfrm", number);
        assert!(said.contains(part), "{said}");
    };
    let whole = tables_frame();
    case(&whole[..whole.len() - 1], 11, "the file ends within the image or a table");
    let mut padding = whole.clone();
    *padding.last_mut().unwrap() = 1;
    case(&padding, 12, "the padding after a table is not zero");
    case(&old_frame("      300      x"), 13, "entry 0, counted from 0");
    case(&frame(Header::new(1, 4), &[1, 2, 3, 255]), 14, "more or fewer entries than the image calls for");
    let wide = Header::new(1, 1).line(20, "NOVERFL:0 0 0").line(39, "NPIXELB:4 1");
    case(&frame(wide, &[255; 4]), 15, "above 4,294,967,295 together");
}

#[test]
fn expand_writes_what_the_name_says() {
    let f = folder();
    f.put("a.sfrm", tables_frame());
    f.done("expand a.sfrm -o a.raw");
    assert_eq!(f.get("a.raw"), raw(&TABLES));
    f.done("expand a.sfrm -o a.npy");
    let npy = f.get("a.npy");
    assert!(npy.starts_with(b"\x93NUMPY\x01\x00\x76\x00{'descr': '<u4', 'fortran_order': False, 'shape': (1, 4), }"));
    assert_eq!((npy[127], &npy[128..]), (b'\n', raw(&TABLES).as_slice()));
    let ran = f.run("expand a.sfrm -o a.pgm");
    assert!(ran.status == Some(1) && ran.err.contains("1 counts are above 65535") && !f.has("a.pgm"), "{ran:?}");
    f.done("expand a.sfrm -o a.pgm --clip");
    assert_eq!(f.get("a.pgm"), b"P5\n4 1 65535\n\x00\x23\x01\x4c\xff\xff\x00\x1e");
}

#[test]
fn an_output_that_exists_is_kept_unless_forced() {
    let f = folder();
    f.put("a.sfrm", plain_frame());
    f.put("a.raw", "mine");
    let ran = f.run("expand a.sfrm -o a.raw");
    assert!(ran.status == Some(1) && ran.err.contains("a.raw: exists already and is kept"), "{ran:?}");
    assert_eq!(f.get("a.raw"), b"mine");
    f.done("expand a.sfrm -o a.raw --force");
    assert_eq!(f.get("a.raw").len(), 64);
}

#[test]
fn an_unknown_ending_is_bad_usage() {
    let f = folder();
    f.put("a.sfrm", plain_frame());
    let ends = [
        ("expand a.sfrm -o a.txt", "must end in .npy, .raw, .pgm, .tif, .edf or .cbf, or --as must say one of them"),
        ("view a.sfrm -o a.jpg", "must end in .png"),
    ];
    for (words, part) in ends {
        let ran = f.run(words);
        assert!(ran.status == Some(2) && ran.err.contains(part), "{ran:?}");
    }
    let ran = f.run("view a.sfrm -o a.png --min 9 --max 9");
    assert!(ran.status == Some(2) && ran.err.contains("--min must be below --max"), "{ran:?}");
}

#[test]
fn view_makes_a_picture() {
    let f = folder();
    f.put("a.sfrm", tables_frame());
    assert_eq!(f.done("view a.sfrm -o a.png --min 30 --max 332"), "a.png: 4 x 1 pixels, black 30, white 332\n");
    let grey = image::open(f.join("a.png")).unwrap().into_luma8();
    assert_eq!((grey.dimensions(), grey.into_raw()), ((4, 1), vec![4, 255, 255, 0]));
    f.done("view a.sfrm -o log.png --min 30 --max 332 --log");
    let grey = image::open(f.join("log.png")).unwrap().into_luma8().into_raw();
    assert_eq!(grey, [80, 255, 255, 0]);
    assert_eq!(f.done("view a.sfrm -o plain.png"), "plain.png: 4 x 1 pixels, black 30, white 332\n");
    f.put("flat.sfrm", frame(Header::new(2, 2), &[9; 4]));
    assert_eq!(f.done("view flat.sfrm -o flat.png"), "flat.png: 2 x 2 pixels, black 9, white 9\n");
}

#[test]
fn write_gives_a_frame_back() {
    let f = folder();
    f.put("a.sfrm", tables_frame());
    for counts in ["a.npy", "a.raw"] {
        f.done(&format!("expand a.sfrm -o {counts}"));
        f.done(&format!("write --header a.sfrm --pixels {counts} --form 1+1 -o b.sfrm --force"));
        let (a, b) = (f.get("a.sfrm"), f.get("b.sfrm"));
        assert_eq!((&a[LENGTH..], a.len()), (&b[LENGTH..], b.len()));
    }
    f.done("write --header a.sfrm --pixels a.npy --form 4 -o wide.sfrm");
    assert_eq!(&f.get("wide.sfrm")[LENGTH..], raw(&TABLES));
}

/// An .npy file of one row of four, with this kind of number.
fn npy(kind: &str, data: &[u8]) -> Vec<u8> {
    let said = format!("{{'descr': '{kind}', 'fortran_order': False, 'shape': (1, 4), }}\n");
    [b"\x93NUMPY\x01\x00", (said.len() as u16).to_le_bytes().as_slice(), said.as_bytes(), data].concat()
}

#[test]
fn write_takes_every_kind_of_whole_number() {
    let f = folder();
    f.put("a.sfrm", tables_frame());
    let signed: Vec<u8> = [35i64, 332, 70032, 30].iter().flat_map(|count| count.to_be_bytes()).collect();
    f.put("a.npy", npy(">i8", &signed));
    f.done("write --header a.sfrm --pixels a.npy --form 4 -o a4.sfrm");
    assert_eq!(&f.get("a4.sfrm")[LENGTH..], raw(&TABLES));
    let bad =
        [("<i2", [255; 8].as_slice(), "below 0"), ("<f4", &[0; 16], "whole numbers"), ("<u4", &[0; 15], "shape says")];
    for (kind, data, part) in bad {
        f.put("bad.npy", npy(kind, data));
        let ran = f.run("write --header a.sfrm --pixels bad.npy --form 4 -o bad.sfrm");
        assert!(ran.status == Some(1) && ran.err.contains(part) && !f.has("bad.sfrm"), "{ran:?}");
    }
}

#[test]
fn write_refuses_counts_and_forms_that_do_not_fit() {
    let f = folder();
    f.put("a.sfrm", tables_frame());
    f.put("old.sfrm", old_frame(OLD_ENTRY));
    f.put("few.raw", raw(&[1, 2, 3]));
    f.put("many.raw", raw(&[1, 2, 3, 4, 5]));
    f.put("low.raw", raw(&[280, 280, 280, 280]));
    f.put("high.sfrm", frame(Header::new(1, 4).line(79, "NEXP   :1 0 300"), &[]));
    let write = |header: &str, counts: &str, form: &str| {
        format!("write --header {header} --pixels {counts} --form {form} -o out")
    };
    assert!(f.refused(&write("a.sfrm", "few.raw", "1"), 10).contains("few.raw: "));
    assert!(f.refused(&write("a.sfrm", "low.raw", "3"), 16).contains("this form cannot be had"));
    assert!(f.refused(&write("old.sfrm", "low.raw", "1"), 16).contains("FORMAT 86 is only read"));
    assert!(f.refused(&write("high.sfrm", "low.raw", "1+1"), 17).contains("too large for one byte"));
    let ran = f.run(&write("a.sfrm", "many.raw", "1"));
    assert!(ran.status == Some(1) && ran.err.contains("has 5 counts, and the header says 1 rows of 4"), "{ran:?}");
    assert!(!f.has("out") && f.run(&write("a.sfrm", "low.raw", "one")).status == Some(2));
}
