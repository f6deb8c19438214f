//! report by the real command: the page's rows, the same as data, hostile names, order, pictures and crashes.
mod common;
use common::header::Header;
use common::{command, faulty, folder, frame, plain_frame, ran, Folder, Ran, TODAY};
use serde_json::{json, Value};
use sha2::{Digest, Sha256};
use std::ffi::OsStr;
use std::fs;
use std::os::unix::ffi::OsStrExt;
use std::path::PathBuf;

/// The lines of a run with --json, the last of them apart.
fn data(f: &Folder, words: &str) -> (Vec<Value>, Value) {
    let ran = f.run(words);
    let mut lines = values(&ran.out);
    let last = lines.pop().unwrap_or_else(|| panic!("{words}: {ran:?}"));
    (lines, last)
}

fn values(lines: &str) -> Vec<Value> {
    lines.lines().map(|line| serde_json::from_str(line).unwrap()).collect()
}

/// The one value of a command with --json.
fn answer(f: &Folder, words: &str) -> Value {
    values(&f.run(&format!("{words} --json")).out).remove(0)
}

fn page(f: &Folder) -> String {
    String::from_utf8(f.get("r.html")).unwrap()
}

/// What stands between two texts, wherever both are.
fn between<'a>(text: &'a str, start: &'a str, end: &'a str) -> Vec<&'a str> {
    text.split(start).skip(1).map(|part| part.split_once(end).unwrap().0).collect()
}

const ROWS: &str = "<script type=\"application/x-ndjson\" class=\"rows\">\n";

/// The rows and the summary that a page has in it.
fn embedded(page: &str) -> (Vec<Value>, Value) {
    let rows = between(page, ROWS, "</script>").concat();
    let summary = between(page, "<script type=\"application/json\" id=\"summary\">", "</script>")[0];
    (values(&rows), serde_json::from_str(summary).unwrap())
}

/// Four whole holdings: corrected and kept, due, kept and withdrawn, without sums.
fn archive() -> Folder {
    let f = folder();
    f.put("a.sfrm", plain_frame());
    fs::create_dir(f.join("t")).unwrap();
    for name in ["corrected", "due", "taken", "unsealed"] {
        f.done(&format!("open a.sfrm --form 1+2 --room 100 -o t/{name}"));
    }
    let changes = [
        "correct t/corrected 6 70000",
        "correct t/corrected 15 0",
        "withdraw t/corrected",
        "keep t/corrected 2031-11-02",
        "keep t/due 2020-01-31 --shorten",
        "keep t/taken 2031-11-30",
        "withdraw t/taken",
        "keep t/unsealed 2031-11-30",
    ];
    changes.iter().for_each(|words| drop(f.done(words)));
    f.without_sums("t/unsealed");
    f
}

/// Two more that are damaged, and one whose ledger is refused.
fn damaged_archive() -> Folder {
    let f = archive();
    for name in ["z1", "z2", "z3"] {
        f.done(&format!("open a.sfrm --form 1+2 --room 100 -o t/{name}"));
    }
    f.put("t/z1.held", "mine");
    fs::remove_file(f.join("t/z2.sha256")).unwrap();
    f.put("t/z2.ledger", "x");
    f.put("t/z3.sha256", "no sums");
    f
}

#[test]
fn every_row_says_what_the_other_commands_say() {
    let f = archive();
    let (rows, _) = data(&f, "report t --json");
    let names: Vec<&str> = rows.iter().map(|row| row["name"].as_str().unwrap()).collect();
    assert_eq!(names, ["t/corrected", "t/due", "t/taken", "t/unsealed"]);
    for row in &rows {
        let name = row["name"].as_str().unwrap();
        let (listed, verified) = (answer(&f, &format!("list {name}")), answer(&f, &format!("verify {name}")));
        assert_eq!((&row["lines"], &row["sums"]), (&listed["lines"], &verified["sums"]), "{name}");
        let asked = f.run(&format!("may-purge {name} {TODAY}"));
        assert_eq!(row["purge"], asked.out.trim_end(), "{name}");
        let info = answer(&f, &format!("info {name}.held"));
        assert_eq!((&row["rows"], &row["columns"]), (&info["rows"], &info["columns"]));
        let bytes = f.get(&format!("{name}.held")).len() + f.get(&format!("{name}.ledger")).len();
        assert_eq!((&row["bytes"], &row["form"], &row["state"]), (&json!(bytes), &json!("1+2"), &json!("agree")));
    }
    let column = |key: &str| rows.iter().map(|row| row[key].clone()).collect::<Value>();
    assert_eq!(column("kept_until"), json!(["2031-11-02", "2020-01-31", null, "2031-11-30"]));
    assert_eq!(column("decided_by"), json!([4, 1, null, 1]));
    assert_eq!(column("corrections"), json!([1, 0, 0, 0]));
    assert_eq!(column("may_purge"), json!(["not yet", "yes", "no keep line", "not yet"]));
    assert_eq!(column("left_out"), json!([0, 0, 0, 0]));
}

#[test]
fn the_totals_are_those_of_the_rows() {
    let f = damaged_archive();
    let (rows, last) = data(&f, "report t --json");
    assert_eq!(
        last["totals"],
        json!({"holdings": 7, "agree": 4, "refused": 1, "declined": 0, "damaged": 2, "failed": 0})
    );
    assert_eq!(last["may_purge"], json!({"yes": 1, "not_yet": 2, "no_keep_line": 1, "not_known": 3}));
    assert_eq!(last["sums"], json!({"agree": 3, "none": 2, "bad": 2, "not_known": 0}));
    let bytes = |wanted: &dyn Fn(&Value) -> bool| -> u64 {
        rows.iter().filter(|row| wanted(row)).map(|row| row["bytes"].as_u64().unwrap()).sum()
    };
    assert_eq!(last["bytes"], bytes(&|_| true));
    let month = |month: &str| {
        let within = |row: &Value| row["kept_until"].as_str().is_some_and(|date| date.starts_with(month));
        let holdings = rows.iter().filter(|row| within(row)).count();
        json!({"month": month, "holdings": holdings, "bytes": bytes(&within)})
    };
    assert_eq!(last["due"], json!([month("2020-01"), month("2031-11")]));
    assert_eq!(
        (&last["due"][1]["holdings"], &last["corrections"], &last["day"]),
        (&json!(2), &json!(1), &json!(TODAY))
    );
}

#[test]
fn the_day_asked_for_is_the_libraries_to_judge() {
    let f = archive();
    let (rows, last) = data(&f, "report t --json --day 2031-11-03");
    let may: Vec<&Value> = rows.iter().map(|row| &row["may_purge"]).collect();
    assert_eq!(may, ["yes", "yes", "no keep line", "not yet"]);
    assert_eq!(last["day"], "2031-11-03");
    assert!(f.refused("report t -o r.html --day 2031-02-30", 25).contains("Gregorian"));
    assert!(!f.has("r.html"));
}

#[test]
fn what_is_damaged_comes_first_in_the_words_of_verify() {
    let f = damaged_archive();
    let ran = f.run("report t -o r.html");
    assert_eq!(ran.status, Some(4));
    assert_eq!(ran.out, "r.html: 7 holdings: 4 agree, 1 refused, 0 declined, 2 damaged, 0 failed\n");
    assert_eq!(ran.err, f.run("verify t").err);
    let (rows, _) = embedded(&page(&f));
    let names: Vec<&str> = rows.iter().map(|row| row["name"].as_str().unwrap()).collect();
    assert_eq!(names, ["t/z1", "t/z2", "t/z3", "t/corrected", "t/due", "t/taken", "t/unsealed"]);
    for row in &rows[..3] {
        let verified = f.run(&format!("verify {}", row["name"].as_str().unwrap()));
        let said = row["trouble"]["said"].as_str().unwrap();
        let own = verified.err.trim_end().trim_start_matches("quayrudder: ");
        assert_eq!(said.trim_end_matches('.'), own.trim_end_matches('.'));
        assert!(said.contains("estore") || said.contains("--seal"), "says what to do: {said}");
    }
    let column = |key: &str| rows[..3].iter().map(|row| row[key].clone()).collect::<Value>();
    assert_eq!(column("state"), json!(["damaged", "refused", "damaged"]));
    assert_eq!(column("sums"), json!(["bad", "none", "bad"]));
    assert_eq!(column("may_purge"), json!([null, null, null]));
}

#[test]
fn a_frame_that_does_not_fit_its_ledger_still_shows_both() {
    let f = archive();
    f.without_sums("t/corrected");
    f.put("t/corrected.held", f.get("t/due.held"));
    let (rows, _) = data(&f, "report t --json");
    let row = &rows[0];
    assert_eq!(
        (&row["name"], &row["state"], &row["trouble"]["refusal"]),
        (&json!("t/corrected"), &json!("refused"), &json!(23))
    );
    assert_eq!((&row["corrections"], &row["kept_until"]), (&json!(1), &json!("2031-11-02")));
    assert!(row["picture"]["png"].is_string());
}

#[test]
fn the_page_and_the_data_are_the_same() {
    let f = damaged_archive();
    f.run("report t -o r.html");
    let (rows, mut last) = data(&f, "report t --json");
    assert_eq!(embedded(&page(&f)), (rows.clone(), last.clone()));
    let (again, with_file) = data(&f, "report t --json -o second.html");
    last["file"] = json!("second.html");
    assert_eq!((again, with_file), (rows, last));
    assert_eq!(f.get("second.html"), f.get("r.html"));
}

/// A holding whose name is these bytes.
fn named(f: &Folder, name: &[u8]) {
    let path = |ending: &[u8]| f.path().join(OsStr::from_bytes(&[b"t/", name, ending].concat()));
    fs::create_dir_all(path(b"").parent().unwrap()).unwrap();
    fs::copy(f.join("t/due.held"), path(b".held")).unwrap();
    fs::copy(f.join("t/due.ledger"), path(b".ledger")).unwrap();
}

#[test]
fn hostile_names_are_text() {
    let f = archive();
    let long = [b'l'; 240];
    let names: [&[u8]; 9] = [
        b"<script>alert(1)<",
        b"<!--<script>",
        b"</script><script>document.title='x'",
        b"\"onload='alert(1)' x=`",
        "\u{2028}\u{2029}".as_bytes(),
        "\u{202e}gnp.\u{2066}exe".as_bytes(),
        b"\xff\xfe&amp;",
        b"new\nline\t\x1b[31m\\",
        &long,
    ];
    names.iter().for_each(|name| named(&f, name));
    ["held", "ledger"].iter().for_each(|ending| f.put(&format!("t/<img src=x onerror=alert(1)>.{ending}"), "x"));
    f.run("report t -o r.html");
    let page = page(&f);
    assert_eq!(
        (page.matches("<script").count(), page.matches("</script").count(), page.matches("<img").count()),
        (3, 3, 0)
    );
    assert_eq!(between(&page, ROWS, "</script>").concat().matches(['<', '>', '&', '\u{2028}', '\u{2029}']).count(), 0);
    let shown = |rows: Vec<Value>| -> Vec<String> {
        rows.iter().filter_map(|row| row["name"].as_str()).map(str::to_string).collect()
    };
    let (mut rows, mut listed) = (shown(embedded(&page).0), shown(values(&f.run("verify t --json").out)));
    listed.push("t/<img src=x onerror=alert(1)>".into());
    rows.sort();
    listed.sort();
    assert_eq!(rows, listed);
}

#[test]
fn the_folder_is_text_too() {
    let f = folder();
    let name = "</title><script>alert(1)<";
    fs::create_dir_all(f.join(name)).unwrap();
    let ran = ran(command().args(["report", name, "-o", "r.html"]).current_dir(f.path()).output().unwrap());
    assert_eq!(ran.out, "r.html: 0 holdings: 0 agree, 0 refused, 0 declined, 0 damaged, 0 failed\n");
    let page = page(&f);
    assert!(!page.contains("<script>alert") && embedded(&page).1["folder"] == name);
}

#[test]
fn the_policy_allows_the_pages_own_parts_alone() {
    let f = archive();
    f.run("report t -o r.html");
    let page = page(&f);
    let policy = between(&page, "<meta http-equiv=\"Content-Security-Policy\" content=\"", "\"")[0];
    let hash = |text: &str| base64::encode(Sha256::digest(text.as_bytes()));
    let (style, script) = (between(&page, "<style>", "</style>"), between(&page, "<script>", "</script>"));
    let expected = format!(
        "default-src 'none'; script-src 'sha256-{}'; style-src 'sha256-{}'; img-src data:; base-uri 'none'; form-action 'none'",
        hash(script[0]),
        hash(style[0])
    );
    assert_eq!((policy, style.len(), script.len()), (expected.as_str(), 1, 1));
    // The name of SVG is the only address, and is never fetched.
    assert_eq!(between(&page, "http", "\"").iter().filter(|rest| rest.contains("//")).count(), 1);
    assert!(
        !page.contains(" src=\"") && !page.contains("@import") && !page.contains("url(") && !page.contains("innerHTML")
    );
}

fn pictures(f: &Folder, words: &str) -> Vec<bool> {
    data(f, words).0.iter().map(|row| row["picture"].is_object()).collect()
}

#[test]
fn pictures_are_made_for_a_bounded_number() {
    let f = archive();
    f.done("correct t/unsealed 1 1");
    assert_eq!(pictures(&f, "report t --json"), [true; 4]);
    assert_eq!(pictures(&f, "report t --json --pictures 1"), [true, true, false, false]);
    assert_eq!(pictures(&f, "report t --json --pictures 0"), [false; 4]);
    assert_eq!(data(&f, "report t --json --pictures 1").1["pictures"], 2);
}

#[test]
fn a_picture_shows_the_greatest_counts_of_its_squares() {
    let f = folder();
    let mut counts = vec![10; 3 * 200];
    (counts[0], counts[201], counts[598]) = (60, 250, 200);
    f.put("wide.sfrm", frame(Header::new(3, 200), &counts));
    f.done("open wide.sfrm --form 1 -o wide");
    let picture = &data(&f, "report . --json").0[0]["picture"];
    let png = base64::decode(picture["png"].as_str().unwrap()).unwrap();
    let grey = image::load_from_memory(&png).unwrap().into_luma8();
    assert_eq!((grey.dimensions(), &picture["step"]), ((100, 2), &json!(2)));
    // Of 200 squares half a percent, one, may be brighter than white.
    assert_eq!((&picture["black"], &picture["white"]), (&json!(10), &json!(200)));
    let bright: Vec<usize> =
        grey.as_raw().iter().enumerate().filter(|(_, shade)| **shade > 0).map(|(place, _)| place).collect();
    assert_eq!(bright, [0, 199]);
    assert_eq!((grey.as_raw()[0], grey.as_raw()[199]), (255, 255));
}

#[test]
fn a_long_ledger_is_cut_and_says_so() {
    let f = folder();
    f.hold("1", 0);
    f.done("keep a 2031-11-02");
    let line = f.get("a.ledger");
    f.put("a.ledger", line.repeat(1003));
    f.without_sums("a");
    let row = &data(&f, "report . --json").0[0];
    let lines = row["lines"].as_array().unwrap();
    assert_eq!(
        (lines.len(), &row["left_out"], &lines[0]["line"], &lines[999]["line"]),
        (1000, &json!(3), &json!(4), &json!(1003))
    );
    assert_eq!((&row["decided_by"], &row["state"]), (&json!(1003), &json!("agree")));
}

#[test]
fn a_folder_that_cannot_be_read_and_a_holding_in_use_are_rows() {
    let f = archive();
    fs::create_dir(f.join("t/deep")).unwrap();
    let lock = fs::OpenOptions::new().write(true).create(true).truncate(false).open(f.join("t/due.lock")).unwrap();
    lock.lock().unwrap();
    let mut run = command();
    run.args(["report", "t", "--json", "--wait", "0"]).current_dir(f.path()).env("FAULT_OPENDIR", "deep");
    let ran = ran(run.output().unwrap());
    let rows = values(&ran.out);
    assert_eq!(ran.status, Some(3));
    assert_eq!((&rows[0]["name"], &rows[1]["name"], rows.len()), (&json!("t/deep"), &json!("t/due"), 6));
    assert_eq!((&rows[0]["state"], &rows[1]["state"]), (&json!("failed"), &json!("failed")));
    assert!(rows[1]["trouble"]["said"].as_str().unwrap().contains("in use by"));
    assert!(rows[1]["trouble"]["then"].as_str().unwrap().starts_with("Wait until that process is done"));
    assert_eq!(rows[5]["totals"]["failed"], 2);
}

#[test]
fn ledgers_that_belong_to_nothing_are_counted() {
    let f = archive();
    f.put("t/accounts.ledger", "mine");
    let (rows, last) = data(&f, "report t --json");
    assert_eq!((rows.len(), &last["not_holdings"]), (4, &json!(1)));
}

#[test]
fn an_output_is_kept_unless_forced_and_must_be_a_page() {
    let f = archive();
    f.put("r.html", "mine");
    let ran = f.run("report t -o r.html");
    assert!(ran.status == Some(1) && ran.err.contains("r.html: exists already and is kept"), "{ran:?}");
    assert_eq!(f.get("r.html"), b"mine");
    f.done("report t -o r.html --force");
    assert!(page(&f).starts_with("<!DOCTYPE html>"));
    let usage = |words: &str, part: &str| {
        let ran = f.run(words);
        assert!(ran.status == Some(2) && ran.err.contains(part), "{words}: {ran:?}");
    };
    usage("report t -o r.txt", "`r.txt` must end in .html");
    usage("report t", "-o OUT.html is missing");
    usage("report -o r.html", "<DIR>");
    usage("report t -o r.html --day tomorrow", "a date is written YYYY-MM-DD");
    assert_eq!(f.run("report nowhere -o n.html").status, Some(3));
    assert!(!f.has("n.html"));
}

#[test]
fn standard_output_is_the_page_alone() {
    let f = archive();
    f.done("report t -o r.html");
    let ran = f.run("report t -o -");
    assert_eq!((ran.status, ran.out.as_bytes()), (Some(0), f.get("r.html").as_slice()));
    assert_eq!(ran.err, "-: 4 holdings: 4 agree, 0 refused, 0 declined, 0 damaged, 0 failed\n");
    let both = f.run("report t -o - --json");
    assert_eq!((both.out, values(&both.err).len()), (ran.out, 5));
}

#[test]
fn a_question_makes_no_file_and_changes_none() {
    let f = damaged_archive();
    let all = |f: &Folder| {
        let names = fs::read_dir(f.join("t")).unwrap().map(|entry| entry.unwrap().path());
        let mut found: Vec<(PathBuf, Vec<u8>)> = names.map(|path| (path.clone(), fs::read(path).unwrap())).collect();
        found.sort();
        found
    };
    let before = all(&f);
    f.run("report t -o r.html");
    assert_eq!(all(&f), before);
}

/// The page made anew with this fault at each call in turn: it is the old one or the new one, whole. Gives the calls.
fn at_every_step(f: &Folder, fault: &str, old: &[u8], new: &[u8]) -> u32 {
    let mut steps = 0;
    let step = |at: u32| -> Option<Ran> {
        f.put("r.html", old);
        let mut run = command();
        run.args(["report", "t", "-o", "r.html", "--force"]).current_dir(f.path()).env("RAYON_NUM_THREADS", "1");
        faulty(f, run, fault, at)
    };
    while let Some(ran) = step(steps + 1) {
        let found = f.get("r.html");
        assert!(found == old || found == new, "{fault} {steps}: {ran:?}");
        assert!([None, Some(0), Some(3)].contains(&ran.status), "{fault} {steps}: {ran:?}");
        assert!(ran.status != Some(0) || found == new, "{fault} {steps}: {ran:?}");
        steps += 1;
    }
    steps
}

#[test]
fn killed_and_failed_at_every_step() {
    let f = archive();
    f.done("report t -o new.html");
    let new = f.get("new.html");
    let steps = ["before", "after", "torn", "5", "28"].map(|fault| at_every_step(&f, fault, b"old", &new));
    assert!(steps.iter().all(|number| *number >= 6), "{steps:?}");
}
