//! info, expand and view of mar images, and the other commands given one, by the real command.
mod common;
use common::{command, folder, only_read, ran};
use serde_json::{json, Value};
use std::process::{Command, Stdio};

/// Entries 7 to 25.
fn rest() -> Vec<u32> {
    let before = [9.5e9, 172.5, -0.0, f32::INFINITY, f32::NEG_INFINITY].map(f32::to_bits);
    let behind = [0.1, 600.25, 599.75, 1.5418, 250.0, 10.0, 11.0, 0.0, 1.0].map(f32::to_bits);
    [&[70, 80, 90, 4_000_000_000], before.as_slice(), &[0x7FC1_2345], &behind].concat()
}

/// An image of side * side pixels, most significant byte first: 1 but for the last, 65535, and pairs given by address and count.
fn image(side: u32, pairs: &[(u32, u32)]) -> Vec<u8> {
    let records = (pairs.len() as u32).div_ceil(side / 4);
    let lead = [side, side, 2 * side, 1200, pairs.len() as u32, records];
    let mut bytes: Vec<u8> = lead.into_iter().chain(rest()).flat_map(u32::to_be_bytes).collect();
    let pixels = side as usize * side as usize;
    bytes.resize(2 * side as usize, b' ');
    bytes.resize(2 * side as usize + 2 * pixels - 2, 0);
    bytes.extend([255, 255]);
    bytes[2 * side as usize..].chunks_exact_mut(2).take(pixels - 1).for_each(|pixel| pixel[1] = 1);
    bytes.extend(pairs.iter().flat_map(|pair| [pair.0.to_be_bytes(), pair.1.to_be_bytes()].concat()));
    bytes.resize(2 * side as usize * (1 + side + records) as usize, 7);
    bytes
}

const LAST: u32 = 1200 * 1200;

const INFO: &str = "\
a.image: mar image, 1200 rows, 1200 columns
  high-intensity: pairs 1, records 1
  image ends at byte 2884800 of 2884803
   1 pixels in x: 1200
   2 pixels in y: 1200
   3 record length in bytes: 2400
   4 maximum number of records: 1200
   5 high-intensity pixels: 1
   6 high-intensity records: 1
   7 X-ray counts at start of exposure: 70
   8 X-ray counts at end of exposure: 80
   9 exposure time in seconds: 90
  10 exposure dose in units: 4000000000
  11 sum of X-ray counts: 9500000000.0
  12 maximum radius: 172.5
  13 minimum radius: -0.0
  14 unused: inf
  15 unused: -inf
  16 unused: NaN (bits 7fc12345)
  17 unused: 0.1
  18 centre in x: 600.25
  19 centre in y: 599.75
  20 wavelength: 1.5418
  21 distance from crystal to detector: 250.0
  22 PHI at start of exposure: 10.0
  23 PHI at end of exposure: 11.0
  24 OMEGA: 0.0
  25 high-intensity multiplier: 1.0
";

#[test]
fn info_says_what_a_mar_image_is() {
    let f = folder();
    f.put("a.image", [image(1200, &[(LAST, 70000)]), vec![9; 3]].concat());
    assert_eq!(f.done("info a.image"), INFO);
    let said: Value = serde_json::from_str(&f.done("info a.image --json")).unwrap();
    let whole = json!([said["format"], said["rows"], said["columns"], said["end"], said["bytes"]]);
    assert_eq!(whole, json!(["mar", 1200, 1200, 2_884_800, 2_884_803]));
    assert_eq!(json!([said["high_intensity_pixels"], said["high_intensity_records"]]), json!([1, 1]));
    let entry = |number: usize| said["entries"][number - 1].clone();
    assert_eq!(entry(10), json!({"entry": 10, "name": "exposure dose in units", "value": 4_000_000_000u32}));
    assert_eq!(entry(17), json!({"entry": 17, "name": "unused", "value": 0.1, "bits": "3dcccccd"}));
    assert_eq!(entry(16), json!({"entry": 16, "name": "unused", "value": null, "bits": "7fc12345"}));
    assert_eq!(entry(15)["value"], Value::Null);
    assert_eq!(entry(13)["bits"], "80000000");
    assert_eq!(said["entries"].as_array().unwrap().len(), 25);
}

#[test]
fn expand_and_view_take_a_mar_image() {
    let f = folder();
    f.put("a.image", image(2000, &[(4_000_000, 70000)]));
    assert_eq!(f.done("expand a.image -o a.raw"), "a.raw: 2000 rows, 2000 columns\n");
    let raw = f.get("a.raw");
    let (last, others) = raw.split_last_chunk::<4>().map(|(others, last)| (last, others)).unwrap();
    assert_eq!((last, others.len()), (&70000u32.to_le_bytes(), 4 * 3_999_999));
    assert!(others.chunks_exact(4).all(|count| count == [1, 0, 0, 0]));
    assert_eq!(
        f.done("view a.image -o a.png --min 0 --max 70000"),
        "a.png: 2000 x 2000 pixels, black 0, white 70000\n"
    );
    let grey = image::open(f.join("a.png")).unwrap().into_luma8();
    assert_eq!((grey.get_pixel(0, 0).0, grey.get_pixel(1999, 1999).0), ([0], [255]));
}

#[test]
fn each_refusal_of_a_mar_image_has_its_sentence() {
    let f = folder();
    let whole = image(1200, &[(LAST, 70000), (LAST, 70001)]);
    let case = |bytes: &[u8], number: u32, part: &str| {
        f.put("bad.image", bytes);
        let said = f.refused("info bad.image", number);
        assert!(said.starts_with("quayrudder: bad.image: ") && said.contains(part), "{said}");
    };
    case(&whole[..2399], 1, "the bytes end within the header record");
    let mut header = whole[..2400].to_vec();
    case(&header, 11, "the file ends within the image or the high-intensity records");
    header[23] = 2;
    case(&header, 29, "the sizes in the mar header do not fit together");
    case(
        &whole,
        13,
        "a high-intensity pair has no pixel of 65535 to itself, or its count is not above 65535 (pair 1, counted",
    );
    let ran = f.run("expand bad.image -o a.raw --json");
    assert!(ran.status == Some(4) && ran.out.contains(r#""refusal":13,"place":1"#) && !f.has("a.raw"), "{ran:?}");
    case(&whole[1..], 2, "a name of header lines 0 to 2 is wrong. Check that this is a Bruker frame");
}

#[test]
fn other_commands_say_that_it_is_a_mar_image() {
    only_read(&image(1200, &[])[..2400], &1200u32.to_le_bytes(), "mar");
}

/// A pipe gives its bytes once.
#[test]
fn a_file_is_read_once() {
    let f = folder();
    f.put("a.image", image(1200, &[]));
    let mut cat = Command::new("cat").arg(f.join("a.image")).stdout(Stdio::piped()).spawn().unwrap();
    let said = command().args(["info", "/dev/stdin"]).stdin(cat.stdout.take().unwrap()).output().unwrap();
    assert!(cat.wait().unwrap().success());
    let ran = ran(said);
    assert!(ran.status == Some(0) && ran.out.contains("image ends at byte 2882400 of 2882400"), "{ran:?}");
}
