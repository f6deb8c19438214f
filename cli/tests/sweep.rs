//! The purge job.
mod common;
use common::{command_on, folder, ran, Folder, DUE};
use std::ffi::OsStr;
use std::fs;
use std::os::unix::ffi::OsStrExt;
use std::path::PathBuf;

/// A ledger line: kept until 2031-11-02.
const KEPT: [u8; 16] = [0x5f, 0xbe, 0xc4, 0, 0, 0, 0, 0, 0, 0, 0, 0, 0, 0, 0, 0];
const WITHDRAWAL: [u8; 16] = [0x80, 0, 0, 0, 0, 0, 0, 0, 0, 0, 0, 0, 0, 0, 0, 0];

fn holding(f: &Folder, name: &str, ledger: &[u8]) {
    f.put(&format!("{name}.held"), "frame");
    f.put(&format!("{name}.ledger"), ledger);
}

/// One holding for each answer.
fn archive() -> Folder {
    let f = folder();
    fs::create_dir_all(f.join("deep/er")).unwrap();
    let later = [&KEPT[..2], &[0xc6], &KEPT[3..]].concat();
    holding(&f, "b", &KEPT);
    holding(&f, "deep/er/a", &KEPT);
    holding(&f, "deep/later", &[KEPT.as_slice(), &later].concat());
    holding(&f, "deep/none", &[KEPT, WITHDRAWAL].concat());
    holding(&f, "empty", &[]);
    holding(&f, "broken", &KEPT[..15]);
    holding(&f, "malformed", &[0xff; 16]);
    f.put("deep/notes.txt", "not a ledger");
    f
}

const ANSWERS: &str = "\
yes           ./b  line 1 kept it until 2031-11-02
refused       ./broken  refusal 20: the ledger is malformed
yes           ./deep/er/a  line 1 kept it until 2031-11-02
not yet       ./deep/later  kept until 2031-11-03 by line 2
no keep line  ./deep/none
no keep line  ./empty
refused       ./malformed  refusal 20: the ledger is malformed
7 ledgers: 2 yes, 0 deleted, 0 moved, 1 not yet, 2 no keep line, 2 refused, 0 failed, 0 not a holding
";

#[test]
fn a_sweep_asks_every_ledger_and_deletes_nothing() {
    let f = archive();
    let ran = f.run("sweep . --day 2031-11-03");
    assert_eq!((ran.status, ran.out.as_str(), ran.err.as_str()), (Some(4), ANSWERS, ""));
    assert!(f.has("b.held") && f.has("b.ledger") && !f.has("quayrudder-purge.log"));
    let json = f.run("sweep . --day 2031-11-03 --json").out;
    let lines: Vec<&str> = json.lines().collect();
    assert_eq!(lines[0], r#"{"name":"./b","answer":"yes","decided_by":1,"kept_until":"2031-11-02"}"#);
    assert_eq!(lines[1], r#"{"name":"./broken","answer":"refused","refusal":20}"#);
    assert_eq!(lines[3], r#"{"name":"./deep/later","answer":"not yet","decided_by":2,"kept_until":"2031-11-03"}"#);
    assert_eq!(lines[4], r#"{"name":"./deep/none","answer":"no keep line"}"#);
    assert!(lines[7].starts_with(r#"{"totals":{"ledgers":7,"yes":2,"deleted":0,"moved":0,"not_yet":1"#), "{json}");
}

#[test]
fn a_sweep_deletes_what_may_be_purged_and_nothing_else() {
    let f = archive();
    let ran = f.run_on(DUE, "sweep . --delete");
    let expected = ANSWERS.replace("yes     ", "deleted ").replace("2 yes, 0 deleted", "0 yes, 2 deleted");
    assert_eq!((ran.status, ran.out), (Some(4), expected));
    for gone in ["b", "deep/er/a"] {
        assert_eq!(["held", "ledger", "lock", "redo"].map(|ending| f.has(&format!("{gone}.{ending}"))), [false; 4]);
    }
    for kept in ["deep/later", "deep/none", "empty", "broken", "malformed"] {
        assert_eq!(["held", "ledger"].map(|ending| f.has(&format!("{kept}.{ending}"))), [true; 2]);
    }
}

fn log(f: &Folder) -> String {
    fs::read_to_string(f.join("quayrudder-purge.log")).unwrap_or_default()
}

/// The sum as Debian's own program finds it.
fn sum(f: &Folder, name: &str) -> String {
    let ran = std::process::Command::new("sha256sum").arg(f.join(name)).output().unwrap();
    String::from_utf8(ran.stdout).unwrap()[..64].to_string()
}

#[test]
fn the_log_says_who_when_why_and_what_it_was() {
    let f = folder();
    f.hold("1", 100);
    f.done("correct a 3 300");
    f.done("keep a 2030-01-01");
    f.done("keep a 2031-11-02");
    let (held, ledger) = (sum(&f, "a.held"), sum(&f, "a.ledger"));
    let bytes = f.get("a.held").len();
    assert_eq!(f.run_on(DUE, "sweep . --day 2031-11-03 --delete").status, Some(0));
    let who = |program: &str, word: &str| {
        let ran = std::process::Command::new(program).arg(word).output().unwrap();
        String::from_utf8(ran.stdout).unwrap().trim().to_string()
    };
    let start = format!("2031-11-03T12:00:00Z {}@{} day 2031-11-03 ./a:", who("id", "-un"), who("uname", "-n"));
    let expected = format!(
        "{start} deleting\n  decided by line 3: kept until 2031-11-02\n  held {bytes} bytes sha256 {held}\n  \
         ledger 48 bytes sha256 {ledger}\n  | line 1 correct 3 63 300\n  | line 2 keep 2030-01-01\n  \
         | line 3 keep 2031-11-02\n  | standing 3\n{start} deleted\n"
    );
    assert_eq!(log(&f), expected);
}

#[test]
fn a_deletion_that_fails_half_way_is_logged_as_what_it_is() {
    let f = folder();
    holding(&f, "a", &KEPT);
    let run = |at: &str| {
        let mut sweep = command_on(DUE);
        sweep
            .args(["sweep", ".", "--day", DUE, "--delete"])
            .current_dir(f.path())
            .env("FAULT", "5")
            .env("FAULT_AT", at);
        ran(sweep.output().unwrap())
    };
    let failed = run("unlink a.held");
    assert!(failed.status == Some(3) && log(&f).ends_with("./a: not deleted\n"), "{failed:?}");
    assert!(f.has("a.held") && f.has("a.ledger") && !f.has("a.redo"));
    run("unlink a.ledger");
    assert!(!f.has("a.held") && f.has("a.ledger"));
    let last = log(&f).lines().last().unwrap().to_string();
    assert!(last.ends_with("./a: partly deleted: held file gone"), "{last}");
    let ran = f.run_on(DUE, "sweep .");
    assert!(ran.status == Some(4) && ran.out.contains("failed        ./a  ./a.held: is gone: a purge was"), "{ran:?}");
    assert!(
        f.run("keep a 2040-01-01").err.contains("`quayrudder sweep DIR --delete` finishes it") && f.has("a.ledger")
    );
    let ran = f.run_on(DUE, "sweep . --delete");
    assert!(
        ran.status == Some(0) && ran.out.starts_with("deleted       ./a  line 1 kept it until 2031-11-02\n"),
        "{ran:?}"
    );
    assert_eq!(f.names().into_iter().collect::<Vec<String>>(), ["quayrudder-purge.log"]);
}

#[test]
fn a_day_that_has_not_come_deletes_and_moves_nothing() {
    let f = archive();
    for words in ["sweep . --day 2999-01-01 --delete", "sweep . --day 2031-11-03 --into bin"] {
        let before = f.names();
        let ran = f.run_on("2031-11-02", words);
        let day = words.split(' ').nth(3).unwrap();
        let said =
            format!("quayrudder: --day: {day} is after today, 2031-11-02. Nothing goes for a day that has not come\n");
        assert_eq!((ran.status, ran.err, ran.out.as_str()), (Some(1), said, ""));
        assert_eq!(f.names(), before);
    }
    assert!(f.run("sweep . --day 2999-01-01").out.contains("3 yes"));
    assert!(f.run_on("2031-11-02", "sweep . --delete").out.contains("0 deleted"));
}

#[test]
fn no_zone_of_the_callers_makes_it_tomorrow() {
    let f = folder();
    holding(&f, "a", &KEPT);
    for zone in ["XXX-24", "XXX-167:59:59", "Pacific/Kiritimati"] {
        let mut sweep = command_on("2031-11-02");
        sweep.args(["sweep", ".", "--delete", "--day", DUE]).current_dir(f.path()).env("TZ", zone);
        let ran = ran(sweep.output().unwrap());
        assert!(ran.status == Some(1) && ran.err.contains("is after today, 2031-11-02"), "{zone}: {ran:?}");
    }
    assert!(f.has("a.held"));
}

#[test]
fn the_ledger_is_asked_again_with_its_lock_held() {
    let f = folder();
    f.hold("1", 0);
    f.done("keep a 2031-11-02");
    fs::remove_file(f.join("a.lock")).unwrap();
    let mut sweep = command_on(DUE);
    sweep.args(["sweep", ".", "--delete"]).current_dir(f.path()).env("FAULT_RUN_AT", "create a.lock");
    sweep.env("FAULT_RUN", format!("{} keep a 2040-01-01 > said", env!("CARGO_BIN_EXE_quayrudder")));
    let ran = ran(sweep.output().unwrap());
    assert!(String::from_utf8(f.get("said")).unwrap().contains("kept until 2040-01-01"));
    assert!(
        ran.status == Some(0) && ran.out.starts_with("not yet       ./a  kept until 2040-01-01 by line 2\n"),
        "{ran:?}"
    );
    assert!(f.has("a.held") && f.has("a.ledger") && log(&f).is_empty());
}

#[test]
fn a_holding_moved_into_a_bin_is_whole_there_and_is_asked_again() {
    let f = archive();
    f.put("c.sfrm", common::plain_frame());
    f.done("open c.sfrm --form 1 -o deep/c");
    f.done("keep deep/c 2031-11-01");
    let old = ["deep/c.held", "deep/c.ledger", "deep/c.sha256"].map(|name| f.get(name));
    let ran = f.run_on(DUE, "sweep . --into bin");
    assert!(
        ran.out.contains("moved         ./deep/c  to bin/deep/c  line 1 kept it until 2031-11-01\n")
            && ran.out.contains("3 moved"),
        "{ran:?}"
    );
    assert_eq!(["bin/deep/c.held", "bin/deep/c.ledger", "bin/deep/c.sha256"].map(|name| f.get(name)), old);
    for gone in ["b.held", "b.ledger", "b.lock", "deep/c.held", "deep/c.ledger", "deep/c.sha256", "deep/c.lock"] {
        assert!(!f.has(gone), "{gone}");
    }
    assert!(
        log(&f).contains("./deep/c: moving to bin/deep/c\n  decided by line 1")
            && log(&f).contains("./deep/c: moved\n")
    );
    let again = f.run_on(DUE, "sweep . --into bin");
    assert!(
        again.out.contains("0 moved") && again.out.starts_with("5 ledgers") || again.out.contains("\n5 ledgers"),
        "{again:?}"
    );
    f.done("verify bin/deep/c");
    f.done("keep bin/deep/c 2040-01-01");
    let ran = f.run_on("2032-05-05", "sweep bin --delete");
    assert!(ran.status == Some(0) && ran.out.contains("2 deleted") && f.has("bin/deep/c.held"), "{ran:?}");
    assert!(!f.has("bin/b.held") && !f.has("bin/b.ledger") && !f.has("bin/b.lock"));
}

/// A sweep that is killed after one call.
fn killed_after(f: &Folder, words: &str, call: &str) {
    let mut sweep = command_on(DUE);
    sweep.args(words.split(' ')).current_dir(f.path()).env("FAULT", "after").env("FAULT_AT", call).output().unwrap();
}

#[test]
fn a_removal_that_is_finished_later_names_its_line_while_the_ledger_is_there() {
    let reason = "deleted       ./a  line 2 kept it until 2031-11-02";
    for (call, said) in [("unlink a.held", reason), ("unlink a.ledger", "deleted       ./a")] {
        let f = folder();
        holding(&f, "a", &[KEPT, KEPT].concat());
        killed_after(&f, "sweep . --delete", call);
        assert!(f.has("a.redo") && !f.has("a.held"), "{call}");
        let ran = f.run_on(DUE, "sweep . --delete");
        assert_eq!((ran.status, ran.out.lines().next()), (Some(0), Some(said)), "{call}");
        assert!(log(&f).contains("./a: deleting\n  decided by line 2: kept until 2031-11-02\n"), "{}", log(&f));
    }
}

#[test]
fn a_move_cut_short_is_finished_even_after_the_bin_was_emptied() {
    let f = folder();
    holding(&f, "a", &KEPT);
    killed_after(&f, "sweep . --into bin", "rename a.ledger");
    assert!(f.has("a.redo") && f.has("bin/a.ledger") && !f.has("a.ledger"));
    assert!(f.run_on(DUE, "sweep bin --delete").out.contains("1 deleted"));
    let ran = f.run_on(DUE, "sweep . --into bin");
    assert!(ran.status == Some(0) && f.names().iter().all(|name| !name.starts_with("a.")), "{ran:?}");
}

#[test]
fn a_ledger_does_not_follow_a_held_file_that_is_gone() {
    let f = folder();
    holding(&f, "a", &KEPT);
    killed_after(&f, "sweep . --into bin", "rename a.held");
    let moved = f.get("bin/a.held");
    f.put("bin/a.held", "another");
    let ran = f.run_on(DUE, "sweep . --into bin");
    let said = "bin/a.held: is not the held file that was being moved here";
    assert!(ran.status == Some(4) && ran.out.contains(said) && f.has("a.ledger"), "{ran:?}");
    assert!(log(&f).ends_with("./a: partly moved: held file gone\n"));
    f.put("bin/a.held", moved);
    let mut elsewhere = command_on(DUE);
    let ran = common::ran(elsewhere.args(["sweep", "--delete"]).arg(f.path()).current_dir("/").output().unwrap());
    let to = fs::canonicalize(f.join("bin")).unwrap().join("a");
    assert!(
        ran.status == Some(0) && ran.out.contains(&format!("  to {}  line 1 kept it until", to.display())),
        "{ran:?}"
    );
    assert!(f.has("bin/a.ledger") && !f.has("a.ledger") && !f.has("a.redo"));
}

#[test]
fn a_bin_that_cannot_be_used_moves_nothing() {
    let f = folder();
    holding(&f, "a", &KEPT);
    assert_eq!(f.run_on(DUE, "sweep . --into .").status, Some(2));
    assert_eq!(f.run_on(DUE, "sweep . --into bin --delete").status, Some(2));
    fs::create_dir(f.join("bin")).unwrap();
    f.put("bin/a.held", "another");
    let ran = f.run_on(DUE, "sweep . --into bin");
    assert!(ran.status == Some(3) && ran.out.contains("bin/a.held: exists already and is kept"), "{ran:?}");
    assert_eq!((f.get("bin/a.held"), f.get("a.held")), (b"another".to_vec(), b"frame".to_vec()));
    let mut sweep = command_on(DUE);
    sweep.args(["sweep", ".", "--into", "elsewhere"]).current_dir(f.path()).env("FAULT_RENAMEAT2", "18");
    let ran = common::ran(sweep.output().unwrap());
    assert!(ran.status == Some(3) && ran.out.contains("must be on the same file system"), "{ran:?}");
    assert!(f.has("a.held") && f.has("a.ledger") && !f.has("a.redo") && log(&f).ends_with("./a: not moved\n"));
}

#[test]
fn a_question_makes_no_file() {
    let f = archive();
    f.put("accounts.ledger", "Assets:Bank 100 EUR");
    let count = || walkdir::WalkDir::new(f.path()).into_iter().count();
    let before = count();
    let ran = f.run("sweep . --day 2031-11-03");
    assert!(ran.out.starts_with("not a holding ./accounts\n") && ran.out.contains("1 not a holding\n"), "{ran:?}");
    for words in ["list b", "may-purge b 2031-11-03", "verify b", "verify .", "list accounts", "verify accounts"] {
        f.run(words);
    }
    for words in ["why b --day 2031-11-03", "why b --pixel 3", "why b --pixel 0,3", "why accounts --pixel 3"] {
        f.run(words);
    }
    assert_eq!(count(), before);
    f.run_on(DUE, "sweep . --delete");
    assert!(f.get("accounts.ledger") == b"Assets:Bank 100 EUR" && !f.has("accounts.lock"));
}

#[test]
fn a_ledger_alone_is_no_holding_and_stays() {
    let f = folder();
    f.put("a.ledger", KEPT);
    let ran = f.run_on(DUE, "sweep . --day 2031-11-03 --delete");
    assert!(ran.status == Some(0) && ran.out.starts_with("not a holding ./a\n") && f.has("a.ledger"), "{ran:?}");
    let changes = ["keep a 2040-01-01", "withdraw a", "correct a 1 1", "amend a 1", "compact a"];
    let questions = ["may-purge a 2031-11-03", "why a --day 2031-11-03", "why a --pixel 0,3", "verify a"];
    for words in questions.into_iter().chain(changes) {
        let ran = f.run(words);
        assert!(ran.status == Some(4) && ran.err.contains("a.held: is missing"), "{words}: {ran:?}");
    }
    assert!(f.get("a.ledger") == KEPT && !f.has("a.lock"));
    assert_eq!(f.done("list a"), "line 1 keep 2031-11-02\nstanding 1\n");
    assert_eq!(f.done("why a --pixel 3"), "a: pixel 3 is as opened: no correction of it stands\n");
}

#[test]
fn names_that_are_no_text_are_told_apart() {
    let f = folder();
    let names = [b"n\xff".as_slice(), b"n\xfe", b"n\\xff", b"n\n", b"n\xef\xbf\xbd"];
    for name in names {
        let path = |ending: &[u8]| -> PathBuf { f.path().join(OsStr::from_bytes(&[name, ending].concat())) };
        fs::write(path(b".held"), "frame").unwrap();
        fs::write(path(b".ledger"), KEPT).unwrap();
    }
    let said = [r"n\xff", r"n\xfe", r"n\\xff", r"n\n", "n\u{fffd}"];
    let json = f.run("sweep . --day 2031-11-03 --json").out;
    let found: std::collections::HashSet<String> = json.lines().take(5).map(str::to_string).collect();
    for name in said {
        let reason = r#""decided_by":1,"kept_until":"2031-11-02""#;
        let line = format!(r#"{{"name":{},"answer":"yes",{reason}}}"#, serde_json::json!(format!("./{name}")));
        assert!(found.contains(&line), "{line} in {json}");
    }
    assert_eq!(f.run_on(DUE, "sweep . --delete").status, Some(0));
    for name in said {
        assert!(log(&f).contains(&format!(" ./{name}: deleted\n")), "{name} in {}", log(&f));
    }
}

#[test]
fn what_a_killed_process_left_goes_with_the_holding() {
    let f = folder();
    holding(&f, "a", &KEPT);
    let strays = ["a.held.0123456789ab", "a.redo.0123456789AB", "a.compacted.0123456789ab", "b.held.0123456789ab"];
    strays.iter().for_each(|name| f.put(&format!(".{name}.quayrudder"), "frame"));
    f.put("b.lock", "quayrudder 4711\n");
    let own = ["a.held.tmp", ".a.held.mine.quayrudder", "theirs.lock", ".c.txt.0123456789ab.quayrudder"];
    own.iter().for_each(|name| f.put(name, "mine"));
    assert_eq!(f.run_on(DUE, "sweep . --day 2031-11-03 --delete").status, Some(0));
    let expected: Vec<&str> = vec![
        ".a.held.mine.quayrudder",
        ".c.txt.0123456789ab.quayrudder",
        "a.held.tmp",
        "quayrudder-purge.log",
        "theirs.lock",
    ];
    assert_eq!(f.names().into_iter().collect::<Vec<String>>(), expected);
}

#[test]
fn a_ledger_that_cannot_be_read_is_never_deleted() {
    let f = folder();
    holding(&f, "a", &KEPT);
    f.put("lost.held", "frame");
    std::os::unix::fs::symlink("nowhere", f.join("lost.ledger")).unwrap();
    fs::rename(f.join("a.ledger"), f.join("target")).unwrap();
    std::os::unix::fs::symlink("target", f.join("a.ledger")).unwrap();
    let ran = f.run_on(DUE, "sweep . --day 2031-11-03 --delete --log log");
    assert!(ran.status == Some(3) && ran.out.contains("0 deleted") && ran.out.contains("2 failed"), "{ran:?}");
    assert!(f.has("a.held") && f.has("lost.held") && f.has("target") && f.get("log").is_empty());
}

#[test]
fn a_day_or_a_folder_that_is_none_ends_the_sweep() {
    let f = archive();
    assert!(f.refused("sweep . --day 2031-02-30", 25).contains("--day: refusal 25"));
    let ran = f.run("sweep nosuch --day 2031-11-03");
    assert!(ran.status == Some(3) && ran.err.contains("nosuch: cannot read it"), "{ran:?}");
    let ran = f.run_on(DUE, "sweep . --delete --log nosuch/log");
    assert!(ran.status == Some(3) && ran.err.contains("nosuch/log: cannot open it") && f.has("b.held"), "{ran:?}");
}

#[test]
fn a_sweep_of_many_ledgers_keeps_the_order() {
    let f = folder();
    let names: Vec<String> = (0..3000).map(|number| format!("h{number:04}")).collect();
    for name in &names {
        holding(&f, name, &KEPT);
    }
    let said = f.done("sweep . --day 2031-11-02");
    let order: Vec<&str> = said.lines().take(3000).map(|line| &line[16..21]).collect();
    assert!(order.iter().eq(names.iter()), "{}", order[0]);
    assert!(said.contains("\n3000 ledgers: 0 yes, 0 deleted, 0 moved, 3000 not yet, 0 no keep line"));
}
