//! The machine fails at every step of every change: the holding is as before or as after, and the next command finds it so.
//!
//! A library preloaded into the real command makes one call fail or ends the process there (fault.c).
mod common;
use common::{command_on, folder, plain_frame, ran, state_of, Folder, Ran, State, DUE, TODAY};
use std::collections::BTreeSet;
use std::fs;
use std::process::Command;
use std::sync::OnceLock;

const KILLS: [&str; 3] = ["before", "after", "torn"];
/// EIO, ENOSPC, EROFS.
const ERRORS: [&str; 3] = ["5", "28", "30"];

/// The command in this folder. Sweeps run on the day that the holding is due.
fn prepared(f: &Folder, words: &str) -> Command {
    let mut run = command_on(if words.starts_with("sweep") { DUE } else { TODAY });
    run.args(words.split(' ')).current_dir(f.path());
    run
}

/// A run in which call `at` meets a fault, where there is such a call.
fn faulty(f: &Folder, words: &str, fault: &str, at: u32) -> Option<Ran> {
    common::faulty(f, prepared(f, words), fault, at)
}

const GONE: State = [None, None, None, None];

fn state(f: &Folder) -> State {
    state_of(f, "a")
}

/// A folder with a frame and, for the other changes, a holding of three lines; from before there were sums, to seal it.
fn before(words: &str) -> Folder {
    let f = folder();
    f.put("a.sfrm", plain_frame());
    if !words.starts_with("open") {
        f.done("open a.sfrm --form 1+2 --room 100 -o a");
        f.done("correct a 3 300");
        f.done("keep a 2031-11-02");
        f.done("correct a 4 70000");
    }
    if words.starts_with("compact") {
        f.done("withdraw a");
    }
    if words.contains("--seal") {
        f.without_sums("a");
    }
    f
}

/// A folder with a holding whose ledger was compacted to these three lines.
fn compacted() -> Folder {
    let f = before("open");
    f.done("open a.sfrm --form 1+2 --room 100 -o a");
    for words in ["correct a 3 300", "correct a 5 5", "withdraw a", "keep a 2031-11-02", "correct a 4 70000"] {
        f.done(words);
    }
    assert_eq!(f.done("compact a"), "a: compacted from 5 lines to 3; the listing before is in a.compacted\n");
    f
}

/// The folder as it was, from the bytes.
fn before_again(words: &str, old: &State) -> Folder {
    let f = folder();
    f.put("a.sfrm", plain_frame());
    if !words.starts_with("open") {
        f.put_state("a", old);
    }
    f
}

/// After a fault: what was said must be true, and the next command finds the holding whole.
fn check(f: &Folder, words: &str, ran: &Ran, old: &State, new: &State) {
    assert!([None, Some(0), Some(3)].contains(&ran.status), "{words}: {ran:?}");
    let next = f.run("verify a");
    let found = state(f);
    assert!(found == *old || found == *new, "{words}: {ran:?}, then {next:?}");
    assert_eq!(next.status, if found[1].is_some() { Some(0) } else { Some(3) }, "{words}: {next:?}");
    assert!(!f.has("a.redo"), "{words}: {ran:?}");
    if ran.status == Some(0) || ran.err.contains("finishes it") || ran.err.contains("is made") {
        assert_eq!(found, *new, "{words}: {ran:?}");
    } else if ran.status == Some(3) {
        assert_eq!(found, *old, "{words}: {ran:?}");
        assert!(ran.err.starts_with("quayrudder: a.") && ran.err.contains(": cannot "), "{ran:?}");
    }
    check_strays(f, words, &found);
}

/// After the next change nothing lies there that does not belong to the holding, and the sums are right by themselves.
fn check_strays(f: &Folder, words: &str, found: &State) {
    let change = if words.starts_with("open") { words } else { "keep a 2050-01-01" };
    let status = if words.starts_with("open") && found[1].is_some() { Some(1) } else { Some(0) };
    let next = f.run(change);
    assert_eq!(next.status, status, "{words}, then {change}: {next:?}");
    let belong = ["a.held", "a.ledger", "a.sha256", "a.compacted", "a.lock", "a.sfrm", "mark"];
    let strays: Vec<String> = f.names().into_iter().filter(|name| !belong.contains(&name.as_str())).collect();
    assert!(strays.is_empty(), "{words}: {strays:?}");
    assert_eq!(fs::metadata(f.join("a.lock")).unwrap().len(), 0, "{words}");
    assert!(!f.has("a.sha256") || f.sums_hold("a.sha256"), "{words}");
}

/// Every fault at every call of one change.
fn at_every_step(words: &str, faults: &[&str], least: u32) {
    at_every_step_of(&before(words), words, faults, least);
}

fn at_every_step_of(done: &Folder, words: &str, faults: &[&str], least: u32) {
    let old = state(done);
    done.done(words);
    let new = state(done);
    assert_ne!(old, new);
    for fault in faults {
        let mut steps = 0;
        loop {
            let f = before_again(words, &old);
            let Some(ran) = faulty(&f, words, fault, steps + 1) else { break };
            check(&f, words, &ran, &old, &new);
            steps += 1;
        }
        assert!(steps >= least, "{words}: only {steps} steps");
    }
}

#[test]
fn killed_at_every_step_of_a_correction() {
    at_every_step("correct a 1,1 65535", &KILLS, 26);
}

#[test]
fn failed_at_every_step_of_a_correction() {
    at_every_step("correct a 1,1 65535", &ERRORS, 26);
}

#[test]
fn killed_at_every_step_of_a_withdrawal() {
    at_every_step("withdraw a", &KILLS, 26);
}

#[test]
fn failed_at_every_step_of_a_withdrawal() {
    at_every_step("withdraw a", &ERRORS, 26);
}

#[test]
fn killed_at_every_step_of_an_amend() {
    at_every_step("amend a 65535", &KILLS, 26);
}

#[test]
fn failed_at_every_step_of_an_amend() {
    at_every_step("amend a 65535", &ERRORS, 26);
}

#[test]
fn killed_and_failed_at_every_step_of_opening() {
    at_every_step("open a.sfrm --form 1+2 --room 50 -o a", &KILLS, 26);
    at_every_step("open a.sfrm --form 1+2 --room 50 -o a", &ERRORS, 26);
}

#[test]
fn killed_and_failed_at_every_step_of_a_keep_line() {
    at_every_step("keep a 2032-01-01", &KILLS, 22);
    at_every_step("keep a 2032-01-01", &ERRORS, 22);
}

#[test]
fn killed_and_failed_at_every_step_of_sealing() {
    at_every_step("verify --seal a", &KILLS, 17);
    at_every_step("verify --seal a", &ERRORS, 17);
}

#[test]
fn killed_and_failed_at_every_step_of_a_compaction() {
    at_every_step("compact a", &KILLS, 26);
    at_every_step("compact a", &ERRORS, 26);
}

#[test]
fn killed_and_failed_at_every_step_of_a_compaction_without_a_log() {
    at_every_step("compact a --no-log", &["after", "28"], 22);
}

#[test]
fn killed_and_failed_at_every_step_where_there_is_a_log_already() {
    let f = compacted();
    f.done("withdraw a");
    at_every_step_of(&f, "compact a", &["torn", "5"], 26);
    at_every_step_of(&compacted(), "correct a 1,1 65535", &["after", "28"], 26);
}

/// The names and bytes of all that lies in a folder.
type Lying = Vec<(String, Vec<u8>)>;

/// A holding with a record of a correction that was not applied, and the state that it leads to.
fn unfinished() -> (Folder, State) {
    static MADE: OnceLock<(Lying, State)> = OnceLock::new();
    again(MADE.get_or_init(|| make_unfinished("correct a 5 5")))
}

/// The same with the record of a compaction.
fn unfinished_compaction() -> (Folder, State) {
    static MADE: OnceLock<(Lying, State)> = OnceLock::new();
    again(MADE.get_or_init(|| make_unfinished("compact a")))
}

fn again((files, new): &(Lying, State)) -> (Folder, State) {
    let f = folder();
    files.iter().for_each(|(name, bytes)| f.put(name, bytes));
    (f, new.clone())
}

/// Killed when the record has its name: all that lies there then, and the state after the change.
fn make_unfinished(words: &str) -> (Lying, State) {
    let f = before(words);
    let done = before_again(words, &state(&f));
    done.done(words);
    let mut killed = prepared(&f, words);
    killed.env("FAULT", "after").env("FAULT_AT", "rename a.redo").output().unwrap();
    assert!(f.has("a.redo") && state(&f) != state(&done));
    (f.names().into_iter().map(|name| (name.clone(), f.get(&name))).collect(), state(&done))
}

#[test]
fn every_command_finishes_an_unfinished_change_first() {
    let questions = ["list a", "verify a", "verify .", "may-purge a 2031-11-03", "sweep . --day 2031-11-03"];
    let reasons = ["why a --day 2031-11-03", "why a --pixel 5", "why a --pixel 1,1"];
    for words in questions.into_iter().chain(reasons) {
        let (f, new) = unfinished();
        let ran = f.run(words);
        let said = "a: a change that had been interrupted is finished";
        assert!(ran.status == Some(0) && ran.err.contains(said), "{words}: {ran:?}");
        assert_eq!(state(&f), new, "{words}");
        assert!(f.sums_hold("a.sha256"), "{words}");
    }
    for words in ["correct a 6 6", "amend a 6", "keep a 2033-01-01", "withdraw a", "compact a"] {
        let (f, _) = unfinished();
        assert_eq!(f.run(words).status, Some(0));
        let line = f.done("list a").lines().nth(3).unwrap().to_string();
        assert!(line.starts_with("line 4 correct 5 65 5"), "{line}");
    }
    let (f, new) = unfinished();
    assert_eq!(f.run("open a.sfrm --form 1 -o a").status, Some(1));
    assert_eq!(state(&f), new);
}

/// A change that is finished later meets these faults at every call, and is whole in the end.
fn finished_at_every_step(unfinished: fn() -> (Folder, State), faults: &[&str]) {
    for fault in faults {
        for at in 1.. {
            let (f, new) = unfinished();
            if faulty(&f, "list a", fault, at).is_none() {
                assert!(at > 12);
                break;
            }
            f.run("verify a");
            assert!(state(&f) == new && !f.has("a.redo"), "{fault} at {at}");
        }
    }
}

#[test]
fn finishing_may_be_interrupted_at_every_step_too() {
    finished_at_every_step(unfinished, &[KILLS, ERRORS].concat());
    finished_at_every_step(unfinished_compaction, &["after", "28"]);
}

#[test]
fn a_compaction_that_was_cut_short_is_finished_with_its_log_by_every_command() {
    for words in ["list a", "verify .", "may-purge a 2031-11-03", "sweep . --day 2031-11-03", "compact a"] {
        let (f, new) = unfinished_compaction();
        assert!(!f.has("a.compacted"));
        let ran = f.run(words);
        assert!(ran.status == Some(0) && ran.err.contains("interrupted is finished"), "{words}: {ran:?}");
        assert!(state(&f) == new && f.sums_hold("a.sha256"), "{words}");
    }
}

#[test]
fn a_file_in_the_way_of_a_log_that_is_to_come_is_kept() {
    let (f, new) = unfinished_compaction();
    f.put("a.compacted", "somebody's");
    let ran = f.run("list a");
    let said = "a.redo: is the record of a change to another state than that of a.compacted: ";
    assert!(ran.status == Some(4) && ran.err.contains(said) && f.has("a.redo"), "{ran:?}");
    assert_eq!(f.get("a.compacted"), b"somebody's");
    fs::remove_file(f.join("a.compacted")).unwrap();
    assert!(f.run("list a").status == Some(0) && state(&f) == new);
}

#[test]
fn a_file_that_comes_in_the_way_of_a_log_meanwhile_is_kept() {
    let (f, old) = (before("compact"), state(&before("compact")));
    let mut run = prepared(&f, "compact a");
    run.env("FAULT_RUN", "printf theirs > a.compacted").env("FAULT_RUN_AT", "rename a.compacted");
    let ran = ran(run.output().unwrap());
    assert!(ran.status == Some(1) && ran.err.contains("a.compacted: has come meanwhile and is kept"), "{ran:?}");
    assert!(f.get("a.compacted") == b"theirs" && state(&f)[..3] == old[..3] && !f.has("a.redo"));
    f.done("verify a");
}

#[test]
fn a_damaged_record_is_an_error_and_nothing_is_deleted() {
    let (f, _) = unfinished();
    let record = f.get("a.redo");
    let old = state(&f);
    f.put("a.redo", &record[..record.len() - 1]);
    let changes = ["correct a 1 1", "amend a 1", "withdraw a", "keep a 2040-01-01", "compact a"];
    let questions = ["list a", "verify a", "may-purge a 2040-01-01", "why a --day 2040-01-01", "why a --pixel 5"];
    for words in questions.into_iter().chain(changes) {
        let ran = f.run(words);
        let said = "a.redo: is the record of an unfinished change, and damaged. Nothing was changed or deleted.";
        assert!(ran.status == Some(4) && ran.err.contains(said), "{words}: {ran:?}");
        assert_eq!(state(&f), old);
    }
    let ran = f.run_on("2040-01-01", "sweep . --day 2040-01-01 --delete");
    assert!(ran.status == Some(4) && ran.out.starts_with("failed "), "{ran:?}");
    assert_eq!((state(&f), f.get("a.redo").len()), (old, record.len() - 1));
}

/// These faults at every call of a sweep that takes the holding away.
fn sweep_at_every_step(whole: &State, sweep: &str, faults: &[&str], least: u32) {
    for fault in faults {
        let mut steps = 0;
        loop {
            let f = before_again("correct", whole);
            let Some(ran) = faulty(&f, sweep, fault, steps + 1) else { break };
            steps += 1;
            check_sweep(&f, &format!("{sweep}, {fault} at {steps}: {ran:?}"), whole);
            let last = Some(state(&f)).filter(|found| found[0].is_some()).unwrap_or(whole.clone());
            let arrives = if sweep.contains("--into") { &last } else { &GONE };
            let next = ran_again(&f, sweep);
            assert!(next.status == Some(0) && state(&f) == GONE, "{fault} at {steps}: {ran:?}, then {next:?}");
            assert!(state_of(&f, "bin/a") == *arrives, "{fault} at {steps}");
            let expected = ["a.sfrm", "bin", "mark", "quayrudder-purge.log"].map(str::to_string);
            let expected = BTreeSet::from(expected);
            assert!(f.names().is_subset(&expected), "{fault} at {steps}: {:?}", f.names());
        }
        assert!(steps >= least, "{sweep}: only {steps} steps");
    }
}

fn ran_again(f: &Folder, words: &str) -> Ran {
    ran(prepared(f, words).output().unwrap())
}

/// After a fault in a sweep: nothing has gone unlogged, the ledger goes last, and a change is made in a whole holding or
/// not at all.
fn check_sweep(f: &Folder, said: &str, whole: &State) {
    let log = fs::read_to_string(f.join("quayrudder-purge.log")).unwrap_or_default();
    let found = state(f);
    assert!(
        found == *whole
            || log.contains(" ./a: deleting\n  decided by line 2")
            || log.contains("./a: moving to bin/a\n")
    );
    assert!(found[1].is_some() || found[0].is_none(), "{said}");
    if found[0].is_none() && found[1].is_some() {
        let keep = f.run("keep a 2031-11-05");
        assert!(keep.status == Some(4) && state(f) == found, "{said}, then {keep:?}");
    }
    if found[0].is_some() {
        let keep = f.run("withdraw a");
        assert!(keep.status == Some(0) && f.run("correct a 4 70000").status == Some(0), "{said}, then {keep:?}");
    }
}

#[test]
fn a_purge_is_in_the_log_before_it_is_made_and_is_finished_by_the_next() {
    sweep_at_every_step(&state(&before("correct")), "sweep . --delete", &[KILLS, ERRORS].concat(), 25);
}

#[test]
fn a_holding_is_moved_whole_at_every_step() {
    sweep_at_every_step(&state(&before("correct")), "sweep . --into bin", &[KILLS, ERRORS].concat(), 29);
}

#[test]
fn a_log_goes_and_moves_with_its_holding_at_every_step() {
    let whole = state(&compacted());
    sweep_at_every_step(&whole, "sweep . --delete", &["after", "5"], 26);
    sweep_at_every_step(&whole, "sweep . --into bin", &["after", "5"], 30);
    finishing_at_every_step(&whole, ["sweep . --into bin", "rename a.held"], &["before"], 16);
}

/// A sweep is killed when the held file has gone, and then the one that finishes it meets these faults at every call.
fn finishing_at_every_step(whole: &State, [sweep, first]: [&str; 2], faults: &[&str], least: u32) {
    for fault in faults {
        let mut steps = 0;
        loop {
            let f = before_again("correct", whole);
            prepared(&f, sweep).env("FAULT", "after").env("FAULT_AT", first).output().unwrap();
            assert!(!f.has("a.held") && f.has("a.ledger"));
            let Some(ran) = faulty(&f, sweep, fault, steps + 1) else { break };
            steps += 1;
            let next = ran_again(&f, sweep);
            assert!(next.status == Some(0) && state(&f) == GONE, "{fault} at {steps}: {ran:?}, then {next:?}");
            let arrived = if sweep.contains("--into") { whole } else { &GONE };
            assert!(
                state_of(&f, "bin/a") == *arrived && !f.has("a.redo") && !f.has("a.lock"),
                "{fault} at {steps}: {ran:?}"
            );
        }
        assert!(steps >= least, "{sweep}: only {steps} steps");
    }
}

#[test]
fn finishing_a_purge_or_a_move_may_be_interrupted_at_every_step_too() {
    let (whole, faults) = (state(&before("correct")), [KILLS, ERRORS].concat());
    finishing_at_every_step(&whole, ["sweep . --delete", "unlink a.held"], &faults, 15);
    finishing_at_every_step(&whole, ["sweep . --into bin", "rename a.held"], &faults, 15);
}

/// The calls of one run, without those that only say something.
fn calls(f: &Folder, words: &str) -> String {
    let log = f.join("log");
    assert!(prepared(f, words).env("FAULT_LOG", &log).output().unwrap().status.success());
    let text = fs::read_to_string(&log).unwrap();
    fs::remove_file(log).unwrap();
    let folder = f.path().file_name().unwrap().to_string_lossy().into_owned();
    let mut lines: Vec<String> = text.lines().filter(|line| !line.contains("pipe:")).map(without_random).collect();
    lines.dedup();
    lines.join("\n").replace(&folder, "FOLDER")
}

/// A temporary file's name without its random part.
fn without_random(line: &str) -> String {
    match line.strip_suffix(".quayrudder") {
        Some(start) => format!("{}new", &start[..start.len() - 12]),
        None => line.to_string(),
    }
}

/// A file's new contents are made, get their permissions and are synced.
fn staged(name: &str) -> String {
    ["create", "write", "fchmod", "fsync"].map(|call| format!("{call} .{name}.new\n")).concat()
}

const MARKED: &str = "create a.lock\npwrite a.lock\nfsync a.lock\n";
const RECORDED: &str = "rename a.redo\nfsync FOLDER\n";

#[test]
fn everything_is_synced_before_it_is_relied_on() {
    let all = ["a.held", "a.ledger", "a.sha256", "a.redo"].map(staged).concat();
    let placed = "rename a.held\nrename a.ledger\nrename a.sha256\nfsync FOLDER\nunlink a.redo\nftruncate a.lock";
    for words in ["correct a 1 1", "amend a 1"] {
        let f = before(words);
        assert_eq!(calls(&f, words), MARKED.to_string() + &all + RECORDED + placed);
    }
    let f = before("open");
    let all = all.replace("write .a.ledger.new\n", "");
    assert_eq!(calls(&f, "open a.sfrm --form 1 -o a"), MARKED.to_string() + &all + RECORDED + placed);
}

#[test]
fn a_log_is_synced_and_placed_before_the_ledger_changes() {
    let f = before("compact");
    let logged = ["a.compacted", "a.ledger", "a.sha256", "a.redo"].map(staged).concat();
    let placed = "rename a.compacted\nrename a.ledger\nrename a.sha256\nfsync FOLDER\nunlink a.redo\nftruncate a.lock";
    assert_eq!(calls(&f, "compact a"), MARKED.to_string() + &logged + RECORDED + placed);
    f.done("withdraw a");
    let (logged, placed) = (logged.replace(&staged("a.compacted"), ""), placed.replace("rename a.compacted\n", ""));
    assert_eq!(calls(&f, "compact a --no-log"), MARKED.to_string() + &logged + RECORDED + &placed);
    let mut questions = prepared(&f, "compact a");
    questions.env("FAULT_READS", f.join("reads"));
    assert!(ran(questions.output().unwrap()).out.starts_with("a: already compact"));
    let reads = fs::read_to_string(f.join("reads")).unwrap();
    assert!(reads.contains(" a.ledger\n") && !reads.contains(" a.held\n"), "{reads}");
}

#[test]
fn a_change_that_is_finished_later_is_synced_as_well() {
    let (f, _) = unfinished();
    let first =
        "create a.lock\n".to_string() + &calls_that_clear(&f) + "ftruncate a.lock\npwrite a.lock\nfsync a.lock\n";
    let again = ["a.held", "a.ledger", "a.sha256"].map(staged).concat() + "fsync FOLDER\n";
    let placed = "rename a.held\nrename a.ledger\nrename a.sha256\nfsync FOLDER\nunlink a.redo\nftruncate a.lock";
    assert_eq!(calls(&f, "list a"), first + &again + placed);
}

/// What the killed process had not put in place yet goes first.
fn calls_that_clear(f: &Folder) -> String {
    let entries = fs::read_dir(f.path()).unwrap().map(|entry| entry.unwrap().file_name().into_string().unwrap());
    let left = entries.filter(|name| name.ends_with(".quayrudder"));
    left.map(|name| without_random(&format!("unlink {name}")) + "\n").collect()
}

#[test]
fn an_output_is_synced_before_it_has_its_name_and_after() {
    let f = before("open");
    assert_eq!(calls(&f, "expand a.sfrm -o a.npy"), staged("a.npy") + "rename a.npy\nfsync FOLDER");
    assert_eq!(calls(&f, "expand a.sfrm -o a.npy --force"), staged("a.npy") + "rename a.npy\nfsync FOLDER");
}

#[test]
fn a_purge_that_is_given_up_is_synced() {
    let f = before("correct");
    faulty(&f, "sweep . --delete", "before", 1);
    let mut killed = prepared(&f, "sweep . --delete");
    killed.env("FAULT", "after").env("FAULT_AT", "rename a.redo").output().unwrap();
    assert!(f.has("a.redo") && f.has("a.held"));
    let cleared = "create a.lock\nftruncate a.lock\n";
    assert_eq!(calls(&f, "list a"), cleared.to_string() + "unlink a.redo\nfsync FOLDER");
    assert_eq!(state(&f), state(&before("correct")));
}

#[test]
fn a_purge_is_synced_after_each_step() {
    let start = "create quayrudder-purge.log\nfsync FOLDER\ncreate a.lock\n";
    let logged = "write quayrudder-purge.log\nfsync quayrudder-purge.log\n";
    let recorded = "pwrite a.lock\nfsync a.lock\n".to_string() + &staged("a.redo") + RECORDED;
    let end = "unlink a.redo\nunlink a.lock\nfsync FOLDER";
    let f = before("correct");
    let deleted = "unlink a.held\nfsync FOLDER\nunlink a.sha256\nunlink a.ledger\nfsync FOLDER\n";
    assert_eq!(
        calls(&f, "sweep . --delete"),
        start.to_string() + logged + &recorded + deleted + end + "\n" + logged.trim_end()
    );
    let f = before("correct");
    let both = "fsync bin\nfsync FOLDER\n";
    let made = "mkdir bin\nfsync FOLDER\n";
    let moved = format!("rename a.held\n{both}rename a.sha256\nrename a.ledger\n{both}");
    let run = calls(&f, "sweep . --into bin");
    assert_eq!(run, start.to_string() + logged + made + &recorded + &moved + end + "\n" + logged.trim_end());
}

/// Runs the command as on a folder in which nothing can be made, renamed or removed.
fn read_only(f: &Folder, words: &str) -> Ran {
    ran(prepared(f, words).env("FAULT", "readonly").output().unwrap())
}

#[test]
fn a_read_only_folder_answers_questions_and_takes_no_change() {
    let f = before("correct");
    let old = state(&f);
    for lock in [true, false] {
        if !lock {
            fs::remove_file(f.join("a.lock")).unwrap();
        }
        let reasons = ["why a --day 2031-11-03", "why a --pixel 5", "why a --pixel 1,1"];
        let questions = ["list a", "verify a", "may-purge a 2031-11-03", "sweep . --day 2031-11-03"];
        for words in questions.into_iter().chain(reasons) {
            assert_eq!(read_only(&f, words).status, Some(0), "{words}");
        }
        for words in ["correct a 1 1", "amend a 1", "withdraw a", "keep a 2040-01-01", "open a.sfrm --form 1 -o b"] {
            let ran = read_only(&f, words);
            assert!(ran.status == Some(3) && ran.err.contains("Read-only file system"), "{words}: {ran:?}");
        }
    }
    assert_eq!(state(&f), old);
    let f = before("compact");
    for words in ["compact a", "compact a --no-log"] {
        let ran = read_only(&f, words);
        assert!(ran.status == Some(3) && ran.err.contains("Read-only file system"), "{words}: {ran:?}");
    }
    assert_eq!(state(&f), state(&before("compact")));
}

#[test]
fn an_output_that_cannot_be_written_leaves_nothing_behind() {
    let f = before("open");
    for words in ["expand a.sfrm -o out.npy", "view a.sfrm -o out.png"] {
        for fault in ERRORS {
            for at in 1..=5 {
                let ran = faulty(&f, words, fault, at).unwrap();
                assert!(ran.status == Some(3) && ran.err.contains("out."), "{words} {at}: {ran:?}");
                let left: Vec<String> = f.names().into_iter().filter(|name| name.contains("out.")).collect();
                assert!(left.is_empty(), "{words} {at}: {left:?}");
            }
        }
    }
}
