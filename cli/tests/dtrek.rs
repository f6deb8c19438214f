//! info, expand and view of d*TREK images, and the other commands given one, by the real command.
mod common;
use common::{folder, only_read, Folder};
use serde_json::{json, Value};

/// Two rows of three pixels of two bytes, most significant first: 1 to 5 and 65535.
const ITEMS: &str = "DIM=2;\nSIZE1=3;\nSIZE2=2;\nBYTE_ORDER=big_endian;\nData_type=unsigned short int;\n";
const PIXELS: [u8; 12] = [0, 1, 0, 2, 0, 3, 0, 4, 0, 5, 255, 255];

fn image(items: &[u8], pixels: &[u8]) -> Vec<u8> {
    let mut bytes = [b"{\nHEADER_BYTES=  512;\n", items, b"}\n\x0C\n"].concat();
    bytes.resize(512, b' ');
    [&bytes, pixels].concat()
}

fn plain() -> Vec<u8> {
    image(ITEMS.as_bytes(), &PIXELS)
}

/// The plain image with a text of its header replaced.
fn changed(old: &str, new: &str) -> Vec<u8> {
    assert_eq!(ITEMS.matches(old).count(), 1);
    image(ITEMS.replace(old, new).as_bytes(), &PIXELS)
}

const INFO: &str = r#"a.img: d*TREK image, 2 rows, 3 columns, 2 bytes per pixel, big-endian
  header 512 bytes, image ends at byte 524 of 527
  HEADER_BYTES=512
  DIM=2
  SIZE1=3
  SIZE2=2
  BYTE_ORDER=big_endian
  Data_type=unsigned short int
  COMMENT=
  \x00\xff\\=a "b"\n\tc={}\xe9
  \\x00=x
"#;

#[test]
fn info_lists_the_items() {
    let f = folder();
    let odd = b" COMMENT= \t ;\n\x00\xFF\\=\na \"b\"\n\tc={}\xE9 ;\n\\x00=x;\n";
    f.put("a.img", [image(&[ITEMS.as_bytes(), odd].concat(), &PIXELS), vec![9; 3]].concat());
    assert_eq!(f.done("info a.img"), INFO);
    let said: Value = serde_json::from_str(&f.done("info a.img --json")).unwrap();
    let whole = ["format", "rows", "columns", "width", "byte_order", "header_bytes", "end", "bytes"]
        .map(|key| said[key].clone());
    assert_eq!(json!(whole), json!(["d*TREK", 2, 3, 2, "big-endian", 512, 524, 527]));
    assert_eq!(said["items"].as_array().unwrap().len(), 9);
    assert_eq!(said["items"][5], json!({"keyword": "Data_type", "value": "unsigned short int"}));
    assert_eq!(said["items"][7], json!({"keyword": r"\x00\xff\\", "value": r#"a "b"\n\tc={}\xe9"#}));
}

#[test]
fn expand_and_view_take_a_dtrek_image() {
    let f = folder();
    f.put("a.img", plain());
    assert_eq!(f.done("expand a.img -o a.raw"), "a.raw: 2 rows, 3 columns\n");
    let counts: Vec<u8> = [1u32, 2, 3, 4, 5, 65535].iter().flat_map(|count| count.to_le_bytes()).collect();
    assert_eq!(f.get("a.raw"), counts);
    assert_eq!(f.done("view a.img -o a.png --min 1 --max 65535"), "a.png: 3 x 2 pixels, black 1, white 65535\n");
    let grey = image::open(f.join("a.png")).unwrap().into_luma8();
    assert_eq!((grey.get_pixel(0, 0).0, grey.get_pixel(2, 1).0), ([0], [255]));
}

#[test]
fn each_type_and_byte_order_is_expanded() {
    let f = folder();
    let stored = [255, 254, 253, 252];
    let cases = [
        ("unsigned char", "big_endian", 4, [255, 254]),
        ("unsigned char", "little_endian", 4, [255, 254]),
        ("unsigned short int", "big_endian", 2, [0xFFFE, 0xFDFC]),
        ("unsigned short int", "little_endian", 2, [0xFEFF, 0xFCFD]),
        ("unsigned long int", "big_endian", 1, [0xFFFE_FDFC, 0]),
        ("unsigned long int", "little_endian", 1, [0xFCFD_FEFF, 0]),
    ];
    for (kind, order, columns, expected) in cases {
        let items =
            format!("Data_type={kind};\nSIZE1={columns};\nSIZE2=1;\nBYTE_ORDER= {order};\nDIM=2;\nCOMPRESSION=none;\n");
        f.put("a.img", image(items.as_bytes(), &stored));
        f.done("expand a.img -o a.raw --force");
        let raw = f.get("a.raw");
        let first = expected.iter().take(columns).flat_map(|count: &u32| count.to_le_bytes());
        assert!(raw.len() == 4 * columns && raw.into_iter().zip(first).all(|(a, b)| a == b), "{kind} {order}");
    }
}

/// The command on an image that is refused: the number, and a part of its sentence.
fn refused(f: &Folder, bytes: &[u8], number: u32, part: &str) {
    f.put("bad.img", bytes);
    let said = f.refused("info bad.img", number);
    assert!(said.starts_with("quayrudder: bad.img: ") && said.contains(part), "{said}");
}

#[test]
fn each_refusal_of_a_dtrek_image_has_its_sentence() {
    let f = folder();
    let whole = plain();
    refused(
        &f,
        &whole[..20],
        32,
        r"its length is wrong (it starts with `{\nHEADER_BYTES=  512`). Check that this is a d*TREK",
    );
    refused(&f, b"{\r\nHEADER_BYTES=  512;\r\n", 32, r"(it starts with `{\r\nHEADER_BYTES=  512;\r\n`)");
    refused(&f, b"{", 32, "(it starts with `{`)");
    refused(&f, &whole[..511], 1, "the bytes end within the header. Compare");
    refused(&f, &changed("DIM=2", "DIM =2"), 33, r"(no item at byte 21: `\nDIM =2;\nSIZE1=3;");
    refused(&f, &changed("DIM=", "SIZE2=;\nDIM="), 33, "(the keyword SIZE2 stands twice)");
    refused(&f, &changed("int;\n", "int;"), 33, "(the items end at byte 99 with `}");
    refused(&f, &changed("DIM=2;\n", ""), 34, "(no DIM, SIZE1=3, SIZE2=2, BYTE_ORDER=big_endian, Data_type=");
    refused(&f, &changed("SIZE1=3", "SIZE1=4097"), 34, "(DIM=2, SIZE1=4097, SIZE2=2,");
    refused(&f, &changed("unsigned short", "short"), 35, "(Data_type=short int, no COMPRESSION)");
    refused(&f, &changed("DIM=", "COMPRESSION=None;\nDIM="), 35, "(Data_type=unsigned short int, COMPRESSION=None)");
    refused(&f, &whole[..523], 11, "the file ends within the image. Compare");
    let ran = f.run("expand bad.img -o a.raw --json");
    assert!(ran.status == Some(4) && ran.out.contains(r#""refusal":11,"#) && !f.has("a.raw"), "{ran:?}");
}

#[test]
fn without_pixels_there_is_only_the_header() {
    let f = folder();
    let items = ITEMS.replace("SIZE1=3", "SIZE1=0").replace("SIZE2=2", "SIZE2=0");
    f.put("a.img", image(items.as_bytes(), &[]));
    let said = f.done("info a.img");
    assert!(
        said.starts_with("a.img: d*TREK image, no pixels\n  header 512 bytes, image ends at byte 512 of 512\n"),
        "{said}"
    );
    for words in ["expand a.img -o a.npy", "view a.img -o a.png"] {
        let ran = f.run(words);
        assert!(ran.status == Some(1) && ran.err.contains("a.img: has no pixels: it is a header alone"), "{ran:?}");
    }
    assert!(!f.has("a.npy") && !f.has("a.png"));
}

#[test]
fn other_commands_say_that_it_is_a_dtrek_image() {
    only_read(&plain(), b"{", "d*TREK");
}
