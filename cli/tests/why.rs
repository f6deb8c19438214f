//! why by the real command: the ledger line that decides for a day or a pixel, and the same line in may-purge, sweep, its log and report.
mod common;
use common::{command, command_on, folder, ran, Folder, Ran, DUE};
use serde_json::{json, Value};
use std::fs::{self, File};

/// Holding `a`, and these changes made in it.
fn held(changes: &[&str]) -> Folder {
    let f = folder();
    f.hold("1+2", 0);
    make(&f, changes);
    f
}

fn make(f: &Folder, changes: &[&str]) {
    changes.iter().for_each(|words| drop(f.done(words)));
}

/// Status and answer for a day. Its first line is what `may-purge` says, and the status is the same.
fn day(f: &Folder, day: &str) -> (Option<i32>, String) {
    let [why, may] = [format!("why a --day {day}"), format!("may-purge a {day}")].map(|words| f.run(&words));
    assert_eq!((why.status, why.out.lines().next(), why.err), (may.status, may.out.lines().next(), may.err), "{day}");
    assert_eq!(may.out.lines().count(), 1, "{day}");
    (why.status, why.out)
}

fn yes(line: u64, date: &str) -> (Option<i32>, String) {
    (Some(0), format!("yes: a may be purged: line {line} kept it until {date}\nline {line} keep {date}\n"))
}

fn not_yet(line: u64, date: &str) -> (Option<i32>, String) {
    (Some(1), format!("not yet: a is kept until {date} by line {line}\nline {line} keep {date}\n"))
}

fn no_keep_line() -> (Option<i32>, String) {
    (Some(1), "no: a has no keep date that stands\n".into())
}

/// The answer for a pixel by its number.
fn pixel(f: &Folder, pixel: u64) -> String {
    f.done(&format!("why a --pixel {pixel}"))
}

fn corrected(line: u64, pixel: u64, old: u32, new: u32) -> String {
    format!(
        "a: pixel {pixel} was corrected from {old} to {new} by line {line}\nline {line} correct {pixel} {old} {new}\n"
    )
}

fn as_opened(pixel: u64) -> String {
    format!("a: pixel {pixel} is as opened: no correction of it stands\n")
}

fn answer(ran: &Ran) -> Value {
    serde_json::from_str(&ran.out).unwrap()
}

// A day

#[test]
fn the_last_keep_line_decides_and_not_the_latest_date() {
    let f = held(&["keep a 2040-01-01", "keep a 2031-11-02 --shorten", "correct a 3 300"]);
    assert_eq!(day(&f, "2031-11-02"), not_yet(2, "2031-11-02"));
    assert_eq!(day(&f, DUE), yes(2, "2031-11-02"));
    assert_eq!(day(&f, "2050-01-01"), yes(2, "2031-11-02"));
    make(&f, &["keep a 2031-11-02"]);
    assert_eq!(day(&f, DUE), yes(4, "2031-11-02"));
}

#[test]
fn where_a_keep_line_is_withdrawn_the_one_before_decides() {
    let f = held(&["keep a 2031-11-02", "correct a 3 300", "keep a 2040-01-01", "keep a 2050-01-01"]);
    make(&f, &["withdraw a"]);
    assert_eq!(day(&f, DUE), not_yet(3, "2040-01-01"));
    make(&f, &["withdraw a"]);
    assert_eq!(day(&f, DUE), yes(1, "2031-11-02"));
    make(&f, &["withdraw a"]);
    assert_eq!(day(&f, DUE), yes(1, "2031-11-02"));
    make(&f, &["withdraw a"]);
    assert_eq!(day(&f, DUE), no_keep_line());
    make(&f, &["keep a 2031-11-02"]);
    assert_eq!(day(&f, DUE), yes(9, "2031-11-02"));
}

#[test]
fn the_edges_of_the_calendar_are_days_like_others() {
    let f = held(&["keep a 0001-01-01 --shorten"]);
    assert_eq!(day(&f, "0001-01-01"), not_yet(1, "0001-01-01"));
    assert_eq!(day(&f, "0001-01-02"), yes(1, "0001-01-01"));
    assert_eq!(f.done("keep a 4095-12-31"), "a: line 2: kept until 4095-12-31 (was 0001-01-01)\n");
    assert_eq!(day(&f, "4095-12-31"), not_yet(2, "4095-12-31"));
    let said = "a: line 3 withdraws line 2: kept until 4095-12-31; now kept until 0001-01-01\n";
    assert_eq!(f.done("withdraw a"), said);
    for none in ["0000-12-31", "4096-01-01", "2031-02-29"] {
        let said = f.refused(&format!("why a --day {none}"), 25);
        assert!(said.contains("a: refusal 25: this is no calendar date"), "{said}");
    }
}

#[test]
fn after_a_compaction_the_numbers_are_those_of_its_listing() {
    let f = held(&["correct a 3 70000", "amend a 300", "keep a 2040-01-01", "withdraw a", "keep a 2031-11-02"]);
    assert_eq!((day(&f, DUE), pixel(&f, 3)), (yes(6, "2031-11-02"), corrected(3, 3, 63, 300)));
    f.done("compact a");
    assert_eq!(f.done("list a"), "line 1 correct 3 63 300\nline 2 keep 2031-11-02\nstanding 2\n");
    assert_eq!((day(&f, DUE), pixel(&f, 3)), (yes(2, "2031-11-02"), corrected(1, 3, 63, 300)));
    make(&f, &["withdraw a"]);
    assert_eq!((day(&f, DUE), pixel(&f, 3)), (no_keep_line(), corrected(1, 3, 63, 300)));
}

// A pixel

#[test]
fn the_last_correction_of_a_pixel_that_stands_is_named() {
    let f = held(&["correct a 3 300", "correct a 4 1", "correct a 3 301", "keep a 2031-11-02", "correct a 5 70000"]);
    assert_eq!(pixel(&f, 3), corrected(3, 3, 300, 301));
    assert_eq!(pixel(&f, 4), corrected(2, 4, 64, 1));
    assert_eq!(pixel(&f, 5), corrected(5, 5, 65, 70000));
    assert_eq!(pixel(&f, 6), as_opened(6));
    make(&f, &["correct a 3 302", "withdraw a"]);
    assert_eq!(pixel(&f, 3), corrected(3, 3, 300, 301));
    make(&f, &["withdraw a", "withdraw a", "withdraw a"]);
    assert_eq!((pixel(&f, 3), pixel(&f, 5)), (corrected(1, 3, 63, 300), as_opened(5)));
    make(&f, &["withdraw a", "withdraw a"]);
    assert_eq!([3, 4, 5].map(|number| pixel(&f, number)), [3, 4, 5].map(as_opened));
}

#[test]
fn a_count_corrected_to_what_it_was_is_still_corrected() {
    let f = held(&["correct a 0 60", "correct a 15 4294967295"]);
    assert_eq!((pixel(&f, 0), pixel(&f, 15)), (corrected(1, 0, 60, 60), corrected(2, 15, 75, 4294967295)));
}

#[test]
fn a_pixel_by_row_and_column_is_the_one_that_correct_means() {
    let f = held(&["correct a 1,2 70000"]);
    assert_eq!(f.done("why a --pixel 1,2"), corrected(1, 6, 66, 70000));
    assert_eq!(f.done("why a --pixel 2,1"), as_opened(9));
    assert_eq!(f.done("why a --pixel 3,3"), as_opened(15));
    for place in ["0,4", "4,0", "1,18446744073709551615", "18446744073709551615,1", "4611686018427387904,0"] {
        let said = f.refused(&format!("why a --pixel {place}"), 24);
        assert_eq!(said, f.refused(&format!("correct a {place} 1"), 24), "{place}");
    }
}

#[test]
fn any_number_is_a_fair_question_to_the_ledger() {
    let f = held(&["correct a 3 300"]);
    for number in [16, u64::from(u32::MAX), 1 << 32 | 3, u64::MAX] {
        assert_eq!(pixel(&f, number), as_opened(number));
    }
}

// What is read

/// The files of which a run reads bytes.
fn reads(f: &Folder, words: &str) -> Vec<String> {
    let log = f.join("reads");
    let _ = fs::remove_file(&log);
    let mut run = command();
    run.args(words.split(' ')).current_dir(f.path()).env("FAULT_READS", &log);
    assert!(run.output().unwrap().status.code() < Some(2), "{words}");
    let lines = fs::read_to_string(log).unwrap();
    let mut names: Vec<String> = lines.lines().filter_map(|line| Some(line.rsplit_once(' ')?.1.into())).collect();
    names.sort();
    names.dedup();
    names.into_iter().filter(|name| name.starts_with("a.")).collect()
}

#[test]
fn only_a_row_and_column_need_the_held_file() {
    let f = held(&["correct a 3 300", "keep a 2031-11-02"]);
    let ledger = ["a.ledger", "a.sha256"];
    assert_eq!(reads(&f, "why a --pixel 3"), ledger);
    assert_eq!(reads(&f, "why a --day 2031-11-03"), ledger);
    assert_eq!(reads(&f, "why a --pixel 0,3"), ["a.held", "a.ledger", "a.sha256"]);
}

#[test]
fn a_held_file_that_is_damaged_or_missing_is_not_asked_for_a_number() {
    let f = held(&["correct a 3 300", "keep a 2031-11-02"]);
    f.put("a.held", "another");
    assert_eq!((pixel(&f, 3), day(&f, DUE)), (corrected(1, 3, 63, 300), yes(2, "2031-11-02")));
    let said = f.run("why a --pixel 0,3");
    assert!(said.status == Some(4) && said.err.contains("a.held: differs from its sum in a.sha256"), "{said:?}");
    f.without_sums("a");
    f.refused("why a --pixel 0,3", 19);
    fs::remove_file(f.join("a.held")).unwrap();
    assert_eq!(pixel(&f, 3), corrected(1, 3, 63, 300));
    for words in ["why a --day 2031-11-03", "why a --pixel 0,3"] {
        let said = f.run(words);
        assert!(said.status == Some(4) && said.err.contains("a.held: is missing") && said.out.is_empty(), "{said:?}");
    }
}

// What is refused

#[test]
fn a_malformed_ledger_is_refused_and_no_line_is_named() {
    let f = held(&["correct a 3 300", "keep a 2031-11-02"]);
    f.without_sums("a");
    let ledger = f.get("a.ledger");
    let withdrawals = [[0x80].as_slice(), &[0; 15]].concat().repeat(3);
    let bad = [&ledger[..31], &[ledger.as_slice(), &[0xc0; 16]].concat(), &[&withdrawals, ledger.as_slice()].concat()];
    for bytes in bad {
        f.put("a.ledger", bytes);
        for words in ["why a --day 2031-11-03", "why a --pixel 3", "why a --pixel 0,3", "why a --day 2031-02-29"] {
            let said = f.refused(words, 20);
            assert!(said.contains("a.ledger: refusal 20: the ledger is malformed"), "{words}: {said}");
            assert_eq!(said.contains("it has 31 bytes"), bytes.len() == 31, "{words}: {said}");
        }
    }
}

#[test]
fn just_one_of_a_day_and_a_pixel_is_asked_for() {
    let f = held(&[]);
    let usages = [
        ("why a", "required arguments were not provided"),
        ("why --day 2031-11-03", "required arguments were not provided"),
        ("why a --day 2031-11-03 --pixel 3", "cannot be used with"),
        ("why a b --pixel 3", "b"),
        ("why a --pixel", "requires a value"),
        ("why a/ --pixel 3", "is no name for a holding"),
    ];
    for (words, part) in usages {
        let ran = f.run(words);
        assert!(ran.status == Some(2) && ran.out.is_empty() && ran.err.contains(part), "{words}: {ran:?}");
    }
    for bad in ["x", "1,x", "1,", ",1", "1,2,3", "1.5", "0x3", "18446744073709551616", "1, 2", "٣"] {
        let mut run = command();
        let ran = ran(run.args(["why", "a", "--pixel", bad]).current_dir(f.path()).output().unwrap());
        let shows = ran.err.contains("a pixel is written like 2577 or, by row and column, 5,17");
        assert!(ran.status == Some(2) && ran.out.is_empty() && shows, "{bad}: {ran:?}");
    }
}

#[test]
fn a_holding_that_is_missing_or_in_use_has_its_sentence() {
    let f = held(&["keep a 2031-11-02"]);
    for words in ["why nosuch --day 2031-11-03", "why nosuch --pixel 3", "why nosuch --pixel 0,3"] {
        let ran = f.run(words);
        assert!(ran.status == Some(3) && ran.err.contains("nosuch.ledger: cannot find it"), "{words}: {ran:?}");
    }
    assert!(!f.has("nosuch.lock"));
    let lock = File::options().append(true).open(f.join("a.lock")).unwrap();
    lock.lock().unwrap();
    let by = format!("in use by process {}", std::process::id());
    for words in ["why a --day 2031-11-03 --wait 0", "why a --pixel 3 --wait 0", "why a --pixel 0,3 --wait 0"] {
        let ran = f.run(words);
        assert!(ran.status == Some(3) && ran.err.contains(&by) && ran.out.is_empty(), "{words}: {ran:?}");
    }
}

// As data

#[test]
fn the_same_as_data() {
    let f = held(&["correct a 3 300", "keep a 2031-11-02"]);
    let keep = json!({"line": 2, "kind": "keep", "date": "2031-11-02", "withdrawn": false});
    let yes = f.run("why a --day 2031-11-03 --json");
    let decided = json!({"name": "a", "day": DUE, "may_purge": true, "decided_by": 2, "kept_until": "2031-11-02",
        "deciding_line": keep});
    assert_eq!((yes.status, answer(&yes)), (Some(0), decided));
    let not_yet = f.run("why a --day 2031-11-02 --json");
    let decided = json!({"name": "a", "day": "2031-11-02", "may_purge": false, "refusal": 27, "decided_by": 2,
        "kept_until": "2031-11-02", "deciding_line": keep});
    assert_eq!((not_yet.status, answer(&not_yet)), (Some(1), decided));
    make(&f, &["withdraw a"]);
    let no = f.run("why a --day 2031-11-03 --json");
    let decided = json!({"name": "a", "day": DUE, "may_purge": false, "refusal": 26});
    assert_eq!((no.status, answer(&no)), (Some(1), decided));
    let correct = json!({"line": 1, "kind": "correct", "pixel": 3, "old": 63, "new": 300, "withdrawn": false});
    let decided = json!({"name": "a", "pixel": 3, "as_opened": false, "decided_by": 1, "deciding_line": correct});
    for place in ["3", "0,3"] {
        assert_eq!(answer(&f.run(&format!("why a --pixel {place} --json"))), decided);
    }
    let opened = f.run("why a --pixel 1,0 --json");
    let decided = json!({"name": "a", "pixel": 4, "as_opened": true});
    assert_eq!((opened.status, answer(&opened)), (Some(0), decided));
}

#[test]
fn failures_as_data() {
    let f = held(&[]);
    for (words, status, key, value) in [
        ("why a --day 2031-02-29 --json", 1, "refusal", json!(25)),
        ("why a --pixel 4,0 --json", 1, "refusal", json!(24)),
        ("why b --pixel 4 --json", 3, "file", json!("b.ledger")),
    ] {
        let ran = f.run(words);
        assert_eq!((ran.status, &answer(&ran)[key]), (Some(status), &value), "{words}");
        assert!(answer(&ran).get("may_purge").is_none() && ran.err.is_empty(), "{words}: {ran:?}");
    }
    let ran = f.run("why a --json");
    assert!(ran.status == Some(2) && answer(&ran)["usage"].is_string(), "{ran:?}");
}

// The same line elsewhere

/// A sweep on the day that is due, and its log.
fn swept(f: &Folder, words: &str) -> (String, String) {
    let ran = f.run_on(DUE, words);
    assert_eq!((ran.status, ran.err.as_str()), (Some(0), ""), "{words}");
    (ran.out, fs::read_to_string(f.join("quayrudder-purge.log")).unwrap())
}

/// The second of three keep lines decides: an earlier one has a later date, and a later one is withdrawn.
const DECIDED_BY_2: [&str; 5] =
    ["keep a 2040-01-01", "keep a 2031-11-02 --shorten", "correct a 3 300", "keep a 2050-01-01", "withdraw a"];

#[test]
fn what_goes_names_its_line_in_the_answer_and_in_the_log() {
    for (option, said, to, logged) in [
        ("--delete", "deleted       ./a", "", "deleting"),
        ("--into bin", "moved         ./a  to bin/a", r#""to":"bin/a","#, "moving to bin/a"),
    ] {
        let (text, log) = swept(&held(&DECIDED_BY_2), &format!("sweep . {option}"));
        assert_eq!(text.lines().next(), Some(format!("{said}  line 2 kept it until 2031-11-02").as_str()));
        assert!(log.contains(&format!("./a: {logged}\n  decided by line 2: kept until 2031-11-02\n")), "{log}");
        let (data, _) = swept(&held(&DECIDED_BY_2), &format!("sweep . {option} --json"));
        let word = said.split(' ').next().unwrap();
        let object = format!(r#"{{"name":"./a","answer":"{word}",{to}"decided_by":2,"kept_until":"2031-11-02"}}"#);
        assert_eq!(data.lines().next(), Some(object.as_str()));
    }
}

#[test]
fn the_log_has_what_was_answered_with_the_lock_held() {
    let f = held(&["keep a 2031-11-02"]);
    fs::remove_file(f.join("a.lock")).unwrap();
    let other = format!("{} keep a 2030-01-01 --shorten > /dev/null", env!("CARGO_BIN_EXE_quayrudder"));
    let mut sweep = command_on(DUE);
    sweep.args(["sweep", ".", "--delete"]).current_dir(f.path());
    let ran = ran(sweep.env("FAULT_RUN_AT", "create a.lock").env("FAULT_RUN", other).output().unwrap());
    assert_eq!(ran.out.lines().next(), Some("deleted       ./a  line 2 kept it until 2030-01-01"), "{ran:?}");
    let log = fs::read_to_string(f.join("quayrudder-purge.log")).unwrap();
    assert!(log.contains("./a: deleting\n  decided by line 2: kept until 2030-01-01\n"), "{log}");
}

#[test]
fn sweep_and_report_name_the_line_that_why_names() {
    let f = held(&DECIDED_BY_2);
    for asked in ["2031-11-02", DUE] {
        let [why, swept, row] = ["why a", "sweep .", "report ."].map(|words| {
            let ran = f.run(&format!("{words} --day {asked} --json"));
            serde_json::from_str::<Value>(ran.out.lines().next().unwrap()).unwrap()
        });
        for key in ["decided_by", "kept_until"] {
            assert_eq!((&why[key], &why[key]), (&swept[key], &row[key]), "{asked}: {key}");
        }
        assert_eq!((&why["decided_by"], &why["kept_until"]), (&json!(2), &json!("2031-11-02")));
        let said = f.run(&format!("may-purge ./a {asked}")).out;
        assert_eq!(row["purge"], said.trim_end());
    }
}
