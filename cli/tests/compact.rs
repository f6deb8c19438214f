//! compact, by the real command: what is left of a ledger, the log of what went, and what other commands do with it.
mod common;
use common::{command, folder, plain_frame, ran, state_of, Folder, Ran, DUE};
use serde_json::{json, Value};
use std::ffi::OsStr;
use std::fs::{self, Permissions};
use std::os::unix::ffi::OsStrExt;
use std::os::unix::fs::{symlink, PermissionsExt};
use std::process::Command;

/// Runs these commands one after the other.
fn all(f: &Folder, commands: &[&str]) {
    commands.iter().for_each(|words| drop(f.done(words)));
}

/// Holding `a`, with lines that are taken back in one another: five go, and a correction and a keep date stand.
fn nested() -> Folder {
    let f = folder();
    f.hold("1+2", 0);
    all(&f, &["correct a 3 300", "keep a 2040-01-01", "correct a 4 70000", "withdraw a", "withdraw a"]);
    all(&f, &["correct a 3 301", "withdraw a", "keep a 2031-11-02"]);
    f
}

const BEFORE: &str = "line 1 correct 3 63 300\nline 2 keep 2040-01-01 withdrawn\nline 3 correct 4 64 70000 withdrawn\n\
                      line 4 withdraw\nline 5 withdraw\nline 6 correct 3 300 301 withdrawn\nline 7 withdraw\n\
                      line 8 keep 2031-11-02\nstanding 2\n";
const AFTER: &str = "line 1 correct 3 63 300\nline 2 keep 2031-11-02\nstanding 2\n";
const COMPACTED: &str = "a: compacted from 8 lines to 2; the listing before is in a.compacted\n";

fn log(f: &Folder) -> String {
    String::from_utf8(f.get("a.compacted")).unwrap()
}

/// The answers to the purge question around both keep dates, but for the number of the line that decides.
fn purge_answers(f: &Folder) -> Vec<(Option<i32>, String)> {
    let days = ["2031-11-01", "2031-11-02", DUE, "2040-01-01", "2040-01-02", "2031-02-30"];
    let asked = days.iter().map(|day| f.run(&format!("may-purge a {day}")));
    asked.map(|ran| (ran.status, without_number(&(ran.out + &ran.err)))).collect()
}

/// A text without the word behind each `line`.
fn without_number(text: &str) -> String {
    let words: Vec<&str> = text.split_whitespace().collect();
    let behind = |place: &usize| *place > 0 && words[place - 1] == "line";
    (0..words.len()).filter(|place| !behind(place)).map(|place| words[place]).collect::<Vec<&str>>().join(" ")
}

/// A run that must end with this status, say this, and leave the holding as it is.
fn unchanged(f: &Folder, words: &str, status: i32, part: &str) -> Ran {
    let before = state_of(f, "a");
    let ran = f.run(words);
    assert!(ran.status == Some(status) && (ran.out.clone() + &ran.err).contains(part), "{words}: {ran:?}");
    assert!(state_of(f, "a") == before && !f.has("a.redo"), "{words}");
    ran
}

#[test]
fn the_lines_that_stand_are_left_alone() {
    let f = nested();
    let (held, answers) = (f.get("a.held"), purge_answers(&f));
    assert_eq!(f.done("list a"), BEFORE);
    assert_eq!(f.done("compact a"), COMPACTED);
    assert_eq!((f.done("list a").as_str(), f.get("a.ledger").len()), (AFTER, 32));
    assert!(f.get("a.held") == held && purge_answers(&f) == answers);
    assert_eq!(f.done("verify a"), "a: held frame, ledger and sums agree, 2 lines, 2 standing\n");
    assert!(f.sums_hold("a.sha256") && !f.has("a.redo"));
}

#[test]
fn the_log_has_the_listing_when_who_how_many_and_the_sums() {
    let f = nested();
    let sum = |name: &str| {
        let said = Command::new("sha256sum").arg(f.join(name)).output().unwrap().stdout;
        format!("{} bytes sha256 {}", f.get(name).len(), String::from_utf8_lossy(&said[..64]))
    };
    let said = |program: &str, word: &str| {
        let said = Command::new(program).arg(word).output().unwrap().stdout;
        String::from_utf8(said).unwrap().trim().to_string()
    };
    let (held, old, who) = (sum("a.held"), sum("a.ledger"), format!("{}@{}", said("id", "-un"), said("uname", "-n")));
    f.done("compact a");
    let new = sum("a.ledger");
    let first = format!(
        "# quayrudder compaction 2026-11-16T12:00:00Z {who} a: 8 lines before, 2 after\n# held {held}\n\
         # ledger before {old}\n# ledger after {new}\n{BEFORE}"
    );
    assert_eq!(log(&f), first);
    let sums = String::from_utf8(f.get("a.sha256")).unwrap();
    assert!(sums.contains("\n# compacted 2026-11-16T12:00:00Z from 8 lines to 2\n"), "{sums}");
    assert!(sums.lines().last().unwrap().ends_with("  a.compacted"), "{sums}");
}

#[test]
fn an_amended_ledger_is_compacted_and_amended_again() {
    let f = folder();
    f.hold("1+2", 0);
    all(&f, &["correct a 9 12", "correct a 3 70000", "amend a 300", "amend a 301"]);
    assert!(f.done("compact a").starts_with("a: compacted from 6 lines to 2; "));
    assert_eq!(f.done("list a"), "line 1 correct 9 69 12\nline 2 correct 3 63 301\nstanding 2\n");
    let said = "a: line 3 withdraws line 2: pixel 3 corrected from 63 to 301; line 4: pixel 3 corrected from 63 to 5\n";
    assert_eq!(f.done("amend a 5"), said);
    f.done("verify a");
}

#[test]
fn where_every_line_is_withdrawn_none_is_left() {
    let f = folder();
    f.hold("1", 0);
    let opened = f.get("a.held");
    all(&f, &["correct a 3 300", "keep a 2031-11-02", "withdraw a", "withdraw a"]);
    assert!(f.done("compact a").starts_with("a: compacted from 4 lines to 0; "));
    assert_eq!((f.get("a.ledger").len(), f.done("list a").as_str()), (0, "standing 0\n"));
    assert!(f.get("a.held").starts_with(&opened));
    f.refused("withdraw a", 22);
    assert_eq!(f.run("may-purge a 2050-01-01").out, "no: a has no keep date that stands\n");
    assert_eq!(f.done("correct a 3 300"), "a: line 1: pixel 3 corrected from 63 to 300\n");
}

#[test]
fn the_room_is_used_by_the_next_lines_and_the_lines_left_can_be_withdrawn() {
    let f = nested();
    f.done("compact a");
    assert_eq!(f.done("correct a 5 1"), "a: line 3: pixel 5 corrected from 65 to 1\n");
    assert_eq!(f.done("withdraw a"), "a: line 4 withdraws line 3: pixel 5 corrected from 65 to 1\n");
    assert_eq!(f.done("withdraw a"), "a: line 5 withdraws line 2: kept until 2031-11-02; no keep date stands now\n");
    assert_eq!(f.done("withdraw a"), "a: line 6 withdraws line 1: pixel 3 corrected from 63 to 300\n");
    f.done("expand a.held -o counts.raw");
    f.done("expand a.sfrm -o opened.raw");
    assert_eq!(f.get("counts.raw"), f.get("opened.raw"));
    assert_eq!(f.done("verify a"), "a: held frame, ledger and sums agree, 6 lines, 0 standing\n");
}

#[test]
fn further_calls_answer_as_they_do_without_it() {
    let (one, two) = (nested(), nested());
    one.done("compact a");
    for words in ["correct a 3 9", "withdraw a", "keep a 2050-01-01", "correct a 1 1", "amend a 2", "withdraw a"] {
        // Line numbers apart, which differ by the six lines that went.
        let last = |f: &Folder| f.done(words).split(": ").last().unwrap().to_string();
        assert_eq!(last(&one), last(&two), "{words}");
        assert_eq!(one.get("a.held"), two.get("a.held"), "{words}");
        assert_eq!(purge_answers(&one), purge_answers(&two), "{words}");
    }
    two.done("compact a");
    one.done("compact a");
    assert_eq!(one.get("a.ledger"), two.get("a.ledger"));
}

#[test]
fn a_ledger_whose_lines_all_stand_is_left_as_it_is() {
    let f = folder();
    f.hold("1", 0);
    unchanged(&f, "compact a", 0, "a: already compact, 0 lines, 0 standing\n");
    all(&f, &["correct a 3 300", "keep a 2031-11-02"]);
    unchanged(&f, "compact a", 0, "a: already compact, 2 lines, 2 standing\n");
    unchanged(&f, "compact a --no-log", 0, "a: already compact, 2 lines, 2 standing\n");
    unchanged(&f, "compact a --json", 0, "{\"name\":\"a\",\"already_compact\":true,\"lines\":2}\n");
    f.put("a.compacted", "of another program");
    unchanged(&f, "compact a", 0, "already compact");
    fs::remove_file(f.join("a.compacted")).unwrap();
    f.done("withdraw a");
    assert_eq!(f.done("compact a --json"), "{\"name\":\"a\",\"lines_before\":3,\"lines\":1,\"log\":\"a.compacted\"}\n");
    unchanged(&f, "compact a", 0, "a: already compact, 1 lines, 1 standing\n");
}

/// Compacts `a` while another command comes between the question and the lock.
fn overtaken(f: &Folder, words: &str) -> Ran {
    let other = format!("{} {words} > /dev/null", env!("CARGO_BIN_EXE_quayrudder"));
    let mut run = command();
    run.args(["compact", "a"]).current_dir(f.path()).env("FAULT_RUN", other).env("FAULT_RUN_AT", "create a.lock");
    ran(run.output().unwrap())
}

#[test]
fn what_comes_between_the_question_and_the_lock_counts() {
    let f = nested();
    let ran = overtaken(&f, "correct a 9 9");
    assert_eq!((ran.status, ran.out), (Some(0), COMPACTED.replace("8 lines to 2", "9 lines to 3")));
    assert!(f.done("list a").contains("line 3 correct 9 69 9\n") && f.done("verify a").contains("3 standing"));
    let f = nested();
    let ran = overtaken(&f, "compact a");
    assert_eq!((ran.status, ran.out.as_str()), (Some(0), "a: already compact, 2 lines, 2 standing\n"));
    assert_eq!(log(&f).matches("# quayrudder compaction ").count(), 1);
}

#[test]
fn a_second_compaction_goes_on_in_the_same_log() {
    let f = nested();
    f.done("compact a");
    let first = log(&f);
    all(&f, &["correct a 5 1", "withdraw a"]);
    let listing = f.done("list a");
    let ran = f.run_on("2027-01-01", "compact ./a.held");
    assert_eq!(ran.out, "./a: compacted from 4 lines to 2; the listing before is in ./a.compacted\n");
    let both = log(&f);
    let second = both.strip_prefix(&first).unwrap();
    assert!(
        second.starts_with("# quayrudder compaction 2027-01-01T12:00:00Z ") && second.contains(" a: 4 lines before")
    );
    assert!(second.ends_with(&listing), "{second}");
    let plain: String = both.lines().filter(|line| !line.starts_with('#')).map(|line| format!("{line}\n")).collect();
    assert_eq!(plain, BEFORE.to_string() + &listing);
    assert!(f.sums_hold("a.sha256") && f.done("list a") == AFTER);
}

#[test]
fn without_a_log_only_a_note_is_left() {
    let f = nested();
    assert_eq!(f.done("compact a --no-log"), "a: compacted from 8 lines to 2; no log is kept\n");
    assert!(!f.has("a.compacted") && f.done("list a") == AFTER && f.sums_hold("a.sha256"));
    assert!(String::from_utf8(f.get("a.sha256"))
        .unwrap()
        .contains("\n# compacted 2026-11-16T12:00:00Z from 8 lines to 2\n"));
    f.done("withdraw a");
    f.done("compact a");
    let first = log(&f);
    f.done("withdraw a");
    let said = f.done("compact a --no-log --json");
    assert_eq!(said, "{\"name\":\"a\",\"lines_before\":2,\"lines\":0,\"log\":null}\n");
    assert!(log(&f) == first && f.sums_hold("a.sha256"));
    f.done("verify a");
}

#[test]
fn a_file_of_another_program_is_neither_overwritten_nor_minded() {
    let f = nested();
    let path = f.join("a.compacted");
    let said = "a.compacted: exists already, is no log of this holding and is kept. Move it away, or give --no-log";
    let refused = |f: &Folder| {
        unchanged(f, "compact a", 1, said);
        f.done("verify a");
        all(f, &["correct a 7 7", "withdraw a"]);
    };
    f.put("a.compacted", "of another program");
    refused(&f);
    assert_eq!(f.get("a.compacted"), b"of another program");
    fs::remove_file(&path).unwrap();
    fs::create_dir(&path).unwrap();
    refused(&f);
    fs::remove_dir(&path).unwrap();
    for target in ["a.sfrm", "nowhere", "."] {
        symlink(target, &path).unwrap();
        refused(&f);
        fs::remove_file(&path).unwrap();
    }
    assert!(f.get("a.sfrm") == plain_frame() && !f.has("nowhere"));
    // Nobody writes into this pipe, so reading it would never end.
    assert!(Command::new("mkfifo").arg(&path).status().unwrap().success());
    assert_eq!(f.run("compact a").status, Some(1));
    assert!(f.done("compact a --no-log").ends_with("; no log is kept\n"));
    f.done("verify a");
    assert_eq!(f.run_on(DUE, "sweep . --delete").status, Some(0));
    assert!(fs::symlink_metadata(&path).is_ok() && !f.has("a.held") && !f.has("a.ledger"));
}

#[test]
fn a_log_behind_a_link_is_not_cut_off() {
    let f = nested();
    all(&f, &["compact a", "correct a 9 9", "withdraw a"]);
    fs::rename(f.join("a.compacted"), f.join("elsewhere")).unwrap();
    symlink("elsewhere", f.join("a.compacted")).unwrap();
    for words in ["withdraw a", "compact a", "correct a 1 1"] {
        unchanged(&f, words, 1, "a.compacted: is a symbolic link. Name the holding where its files lie");
    }
    f.done("verify a");
}

#[test]
fn a_log_that_is_not_what_its_sum_says_is_damage() {
    let f = nested();
    f.done("compact a");
    let (whole, sums) = (f.get("a.compacted"), f.get("a.sha256"));
    let damaged = |part: &str| {
        for words in ["verify a", "correct a 1 1", "keep a 2050-01-01", "withdraw a", "verify . --seal"] {
            unchanged(&f, words, 4, part);
        }
        let swept = f.run_on(DUE, "sweep . --delete");
        assert!(swept.status == Some(4) && swept.out.contains(part) && f.has("a.held"), "{swept:?}");
        let row: Value = serde_json::from_str(f.run("report . --json").out.lines().next().unwrap()).unwrap();
        assert_eq!((&row["state"], &row["sums"]), (&json!("damaged"), &json!("bad")));
        assert_eq!(f.done("list a"), AFTER);
    };
    for place in [0, 100] {
        let mut flipped = whole.clone();
        flipped[place] ^= 1;
        f.put("a.compacted", flipped);
        damaged("a.compacted: differs from its sum in ");
    }
    fs::remove_file(f.join("a.compacted")).unwrap();
    damaged("a.compacted: is missing, and ");
    f.put("a.compacted", &whole);
    let text = String::from_utf8(sums.clone()).unwrap();
    f.put("a.sha256", &text[..text.trim_end().rfind('\n').unwrap() + 1]);
    damaged("a.compacted: has no sum in ");
    f.put("a.sha256", sums);
    assert_eq!(f.done("verify a"), "a: held frame, ledger and sums agree, 2 lines, 2 standing\n");
}

#[test]
fn nothing_is_compacted_where_a_file_is_not_what_its_sum_says() {
    let f = nested();
    for name in ["a.held", "a.ledger"] {
        let whole = f.get(name);
        f.put(name, &whole[..whole.len() - 16]);
        unchanged(&f, "compact a", 4, &format!("{name}: differs from its sum in a.sha256"));
        f.put(name, whole);
    }
    all(&f, &["compact a", "withdraw a"]);
    f.put("a.compacted", "# quayrudder compaction of another day\n");
    unchanged(&f, "compact a", 4, "a.compacted: differs from its sum in a.sha256");
}

#[test]
fn a_holding_without_sums_has_a_log_too_and_is_sealed_with_it() {
    let f = nested();
    f.without_sums("a");
    assert_eq!(f.done("compact a"), COMPACTED);
    let first = log(&f);
    assert!(!f.has("a.sha256"));
    all(&f, &["withdraw a", "compact a"]);
    assert!(log(&f).starts_with(&first) && log(&f).matches("# quayrudder compaction ").count() == 2);
    f.done("verify --seal a");
    assert!(f.sums_hold("a.sha256") && f.get("a.sha256").ends_with(b"  a.compacted\n"));
}

#[test]
fn a_malformed_ledger_is_refused_and_nothing_changes() {
    let f = nested();
    f.without_sums("a");
    let ledger = f.get("a.ledger");
    let said = "a.ledger: refusal 20: the ledger is malformed";
    let withdrawals = [[0x80].as_slice(), &[0; 15]].concat();
    for bad in [&ledger[..ledger.len() - 1], &withdrawals, &[0xff; 16], &[ledger.as_slice(), &[0xc0; 16]].concat()] {
        f.put("a.ledger", bad);
        for words in ["compact a", "compact a --no-log"] {
            let ran = unchanged(&f, words, 4, said);
            assert!(ran.err.contains("restore the holding from its copy") && !f.has("a.compacted"), "{ran:?}");
        }
    }
}

#[test]
fn many_are_compacted_and_one_that_cannot_be_does_not_stop_them() {
    let f = nested();
    for name in ["b", "c", "deep/d"] {
        fs::create_dir_all(f.join("deep")).unwrap();
        f.done(&format!("open a.sfrm --form 1 -o {name}"));
        f.done(&format!("keep {name} 2031-11-02"));
    }
    all(&f, &["withdraw b", "withdraw deep/d"]);
    f.put("c.ledger", "cut short");
    let ran = f.run("compact nosuch a b c --below deep");
    let expected = COMPACTED.to_string()
        + "b: compacted from 2 lines to 0; the listing before is in b.compacted\n\
           deep/d: compacted from 2 lines to 0; the listing before is in deep/d.compacted\n\
           5 holdings: 3 compacted, 0 already compact, 0 refused, 0 declined, 1 damaged, 1 failed\n";
    assert_eq!((ran.status, ran.out), (Some(4), expected), "{}", ran.err);
    assert!(ran.err.contains("nosuch.ledger: cannot find it") && ran.err.contains("c.ledger: differs from its sum"));
    let again = f.run_with("compact --names-from - --json", b"a\nb\ndeep/d\n");
    let last = again.out.lines().last().unwrap();
    let totals = r#"{"totals":{"holdings":3,"compacted":0,"already_compact":3,"refused":0,"declined":0,"damaged":0,"failed":0}}"#;
    assert_eq!((again.status, last), (Some(0), totals));
    f.done("withdraw a");
    let twice = f.run("compact a ./a.ledger");
    assert!(twice.status == Some(1) && twice.err.contains("named more than once in this batch"), "{twice:?}");
    assert_eq!(f.get("a.ledger").len(), 48);
}

/// Runs these words, with this name for each `N`, which must be done with one line to say.
fn named(f: &Folder, name: &[u8], words: &str) {
    let word = |word| if word == "N" { OsStr::from_bytes(name) } else { OsStr::new(word) };
    let ran = ran(command().args(words.split(' ').map(word)).current_dir(f.path()).output().unwrap());
    assert!(ran.status == Some(0) && ran.out.lines().count() == 1, "{words}: {ran:?}");
}

#[test]
fn names_that_are_no_text_have_their_logs() {
    let f = folder();
    f.put("a.sfrm", plain_frame());
    for name in [b"n\xff".as_slice(), b"n\nstanding 9", b"n\\n", b"-n", b"# n", b"n", b"n.compacted", b" ", b"n.redo"] {
        let name = [b"./", name].concat();
        for words in ["open a.sfrm --form 1 -o N", "keep N 2031-11-02", "withdraw N", "compact N", "verify N"] {
            named(&f, &name, words);
        }
        let file = |ending: &[u8]| f.path().join(OsStr::from_bytes(&[&name, ending].concat()));
        let log = fs::read_to_string(file(b".compacted")).unwrap();
        assert!(log.lines().count() == 7 && log.ends_with("\nline 2 withdraw\nstanding 0\n"), "{log}");
        let mut sums = Command::new("sha256sum");
        sums.args(["--check", "--strict", "--quiet"]).arg(file(b".sha256")).current_dir(f.path());
        assert!(sums.status().unwrap().success(), "{log}");
    }
    let totals = "9 holdings: 9 agree (0 without sums, 0 sums made), 0 damaged, 0 failed, 0 not a holding";
    assert_eq!(f.done("verify .").lines().last(), Some(totals));
}

#[test]
fn a_log_is_as_strict_as_the_stricter_file_and_stays_so() {
    let f = nested();
    let mode = || fs::metadata(f.join("a.compacted")).unwrap().permissions().mode() & 0o777;
    fs::set_permissions(f.join("a.held"), Permissions::from_mode(0o640)).unwrap();
    fs::set_permissions(f.join("a.ledger"), Permissions::from_mode(0o604)).unwrap();
    f.done("compact a");
    assert_eq!(mode(), 0o600);
    fs::set_permissions(f.join("a.compacted"), Permissions::from_mode(0o444)).unwrap();
    all(&f, &["withdraw a", "compact a"]);
    assert_eq!(mode(), 0o444);
}

#[test]
fn the_log_moves_with_its_holding_and_is_in_the_purge_log_when_it_goes() {
    let f = nested();
    f.done("compact a");
    let (whole, text) = (state_of(&f, "a"), log(&f));
    fs::create_dir(f.join("bin")).unwrap();
    f.put("bin/a.compacted", "another");
    let ran = f.run_on(DUE, "sweep . --into bin");
    assert!(ran.status == Some(3) && ran.out.contains("bin/a.compacted: exists already and is kept"), "{ran:?}");
    assert_eq!(state_of(&f, "a"), whole);
    fs::remove_file(f.join("bin/a.compacted")).unwrap();
    assert_eq!(f.run_on(DUE, "sweep . --into bin").status, Some(0));
    assert!(state_of(&f, "bin/a") == whole && state_of(&f, "a") == [None, None, None, None]);
    f.done("verify bin");
    assert_eq!(f.run_on(DUE, "sweep bin --delete --log purge.log").status, Some(0));
    assert_eq!(state_of(&f, "bin/a"), [None, None, None, None]);
    let quoted: String = text.lines().map(|line| format!("  | {line}\n")).collect();
    let purged = String::from_utf8(f.get("purge.log")).unwrap();
    assert!(purged.contains(&format!("  | standing 2\n  compacted {} bytes sha256 ", text.len())), "{purged}");
    assert!(purged.contains(&quoted) && purged.ends_with(" bin/a: deleted\n"), "{purged}");
}

#[test]
fn no_holding_is_opened_beside_the_log_of_another() {
    let f = nested();
    f.done("compact a");
    ["a.held", "a.ledger", "a.sha256", "a.lock"].iter().for_each(|name| fs::remove_file(f.join(name)).unwrap());
    let ran = f.run("open a.sfrm --form 1 -o a");
    assert!(ran.status == Some(1) && ran.err.contains("a.compacted: exists already and is kept"), "{ran:?}");
    assert!(!f.has("a.held") && !f.has("a.lock"));
}

/// The record of a change, which is finished.
fn record_of(f: &Folder, words: &str) -> Vec<u8> {
    let mut killed = command();
    killed.args(words.split(' ')).current_dir(f.path());
    killed.env("FAULT", "after").env("FAULT_AT", "rename a.redo").output().unwrap();
    let record = f.get("a.redo");
    assert!(f.run("list a").err.contains("interrupted is finished"));
    record
}

/// A holding with three lines, and the record of the third.
fn with_old_record() -> (Folder, Vec<u8>) {
    let f = folder();
    f.hold("1", 100);
    all(&f, &["correct a 1 1", "correct a 2 2"]);
    let record = record_of(&f, "correct a 4 4");
    (f, record)
}

/// An old record that is put back is known as one: it changes nothing, and it is not said to be newer.
fn old_record(f: &Folder, record: &[u8], part: &str) {
    f.put("a.redo", record);
    let before = state_of(f, "a");
    for words in ["verify a", "correct a 9 9", "compact a"] {
        let ran = f.run(words);
        assert!(ran.status == Some(4) && ran.err.contains(part), "{words}: {ran:?}");
        assert!(state_of(f, "a") == before && f.has("a.redo"), "{words}");
    }
}

#[test]
fn an_old_record_put_back_beside_the_same_bytes_after_a_compaction_changes_nothing() {
    for (words, stranger, sums) in [
        ("compact a", "a.compacted", true),
        ("compact a", "a.compacted", false),
        ("compact a --no-log", "a.sha256", true),
    ] {
        let (f, record) = with_old_record();
        all(&f, &["withdraw a", words]);
        assert_eq!(f.done("list a"), "line 1 correct 1 61 1\nline 2 correct 2 62 2\nstanding 2\n");
        if !sums {
            f.without_sums("a");
        }
        old_record(&f, &record, &format!("another state than that of {stranger}: by their times the "));
    }
}

#[test]
fn a_compactions_own_record_is_not_done_again_on_the_same_lines() {
    for words in ["compact a", "compact a --no-log"] {
        let f = folder();
        f.hold("1", 100);
        all(&f, &["correct a 1 1", "withdraw a"]);
        let before = f.get("a.ledger");
        let record = record_of(&f, words);
        all(&f, &["correct a 1 1", "withdraw a"]);
        assert!(f.get("a.ledger") == before, "{words}");
        old_record(&f, &record, "another state than that of a.ledger: ");
    }
}

#[test]
fn lines_do_not_say_which_is_older_across_a_compaction() {
    for words in ["compact a", "compact a --no-log"] {
        let (f, record) = with_old_record();
        all(&f, &["withdraw a", "withdraw a", words]);
        assert_eq!(f.done("list a"), "line 1 correct 1 61 1\nstanding 1\n");
        old_record(&f, &record, "another state than that of a.ledger: by their times the ");
    }
}
