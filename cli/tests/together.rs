//! Several processes at one holding.
mod common;
use common::header::Header;
use common::{command, folder, frame, Folder};
use std::collections::HashSet;
use std::fs::{self, File};
use std::process::{Child, Stdio};
use std::thread;
use std::time::Duration;

/// 32 rows of 32 pixels, with room for every correction.
fn large(f: &Folder) {
    f.put("a.sfrm", frame(Header::new(32, 32), &[50; 1024]));
    f.done("open a.sfrm --form 1+2 --room 65536 -o a");
}

/// 500 corrections by one process after the other.
fn technician(f: &Folder, first: u32) {
    for step in 0..500 {
        let (pixel, count) = ((first + step) % 1024, first + step);
        f.run_quietly(&format!("correct a {pixel} {count}"));
    }
}

#[test]
fn a_thousand_corrections_by_two_and_none_is_lost() {
    let f = folder();
    large(&f);
    thread::scope(|scope| {
        scope.spawn(|| technician(&f, 100_000));
        scope.spawn(|| technician(&f, 200_000));
    });
    let listing = f.done("list a");
    let counts: HashSet<u32> = listing.lines().filter(|line| line.contains(" correct ")).map(last_number).collect();
    let expected: HashSet<u32> = (100_000..100_500).chain(200_000..200_500).collect();
    assert_eq!(counts, expected);
    assert!(listing.ends_with("standing 1000\n"));
    assert_eq!(f.done("verify a"), "a: held frame, ledger and sums agree, 1000 lines, 1000 standing\n");
}

fn last_number(line: &str) -> u32 {
    line.rsplit(' ').next().unwrap().parse().unwrap()
}

#[test]
fn amends_by_two_are_made_whole_one_after_the_other() {
    let f = folder();
    large(&f);
    f.done("correct a 7 99");
    let amend_all = |first: u32| (first..first + 100).for_each(|count| f.run_quietly(&format!("amend a {count}")));
    thread::scope(|scope| {
        scope.spawn(|| amend_all(100_000));
        scope.spawn(|| amend_all(200_000));
    });
    let listing = f.done("list a");
    let lines: Vec<&str> = listing.lines().collect();
    let mut counts = HashSet::new();
    for pair in lines[1..].chunks_exact(2) {
        assert!(pair[0].ends_with(" withdraw") && pair[1].contains(" correct 7 50 "), "{pair:?}");
        counts.insert(pair[1].split(' ').nth(5).unwrap().parse::<u32>().unwrap());
    }
    assert_eq!(counts, (100_000..100_100).chain(200_000..200_100).collect());
    assert_eq!(f.done("verify a"), "a: held frame, ledger and sums agree, 401 lines, 1 standing\n");
}

#[test]
fn amends_beside_compactions_lose_no_line() {
    let f = folder();
    large(&f);
    f.done("correct a 7 99");
    thread::scope(|scope| {
        scope.spawn(|| (100_000..100_100).for_each(|count| f.run_quietly(&format!("amend a {count}"))));
        for _ in 0..2 {
            scope.spawn(|| (0..40).for_each(|_| f.run_quietly("compact a")));
        }
    });
    f.run_quietly("compact a");
    assert_eq!(f.done("list a"), "line 1 correct 7 50 100099\nstanding 1\n");
    assert_eq!(f.done("verify a"), "a: held frame, ledger and sums agree, 1 lines, 1 standing\n");
    let log = String::from_utf8(f.get("a.compacted")).unwrap();
    let withdrawn = log.lines().filter(|line| line.contains(" correct 7 50 ") && line.ends_with(" withdrawn"));
    let counts: Vec<u32> = withdrawn.map(|line| line.split(' ').nth(5).unwrap().parse().unwrap()).collect();
    assert_eq!(counts, [99].into_iter().chain(100_000..100_099).collect::<Vec<u32>>());
}

impl Folder {
    fn run_quietly(&self, words: &str) {
        let ran = self.run(words);
        assert_eq!(ran.status, Some(0), "{words}: {ran:?}");
    }
}

/// The lock of holding `a`, held by this process.
fn locked(f: &Folder) -> File {
    let lock = File::options().create(true).append(true).open(f.join("a.lock")).unwrap();
    lock.lock().unwrap();
    lock
}

/// A process that wants to correct pixel 1.
fn correcting(f: &Folder) -> Child {
    let mut run = command();
    run.args(["correct", "a", "1", "1"]).current_dir(f.path()).stdout(Stdio::piped()).stderr(Stdio::piped());
    run.spawn().unwrap()
}

#[test]
fn a_second_process_waits_and_says_so() {
    let f = folder();
    large(&f);
    let lock = locked(&f);
    let waiting = correcting(&f);
    thread::sleep(Duration::from_millis(900));
    assert_eq!(f.get("a.ledger").len(), 0);
    drop(lock);
    let ran = common::ran(waiting.wait_with_output().unwrap());
    assert_eq!(ran.status, Some(0));
    assert_eq!(ran.err, "quayrudder: waiting for a.lock: another process is at work on this holding\n");
    assert_eq!(f.get("a.ledger").len(), 16);
}

#[test]
fn questions_do_not_wait_for_each_other() {
    let f = folder();
    large(&f);
    let lock = File::open(f.join("a.lock")).unwrap();
    lock.lock_shared().unwrap();
    assert_eq!(f.done("list a"), "standing 0\n");
}

#[test]
fn a_holding_purged_while_its_lock_was_waited_for_is_missing() {
    let f = folder();
    large(&f);
    let lock = locked(&f);
    let waiting = correcting(&f);
    thread::sleep(Duration::from_millis(200));
    for ending in ["held", "ledger", "sha256", "lock"] {
        fs::remove_file(f.join(&format!("a.{ending}"))).unwrap();
    }
    drop(lock);
    let ran = common::ran(waiting.wait_with_output().unwrap());
    assert!(ran.status == Some(3) && ran.err.contains("a.ledger: cannot find it"), "{ran:?}");
    assert!(!f.has("a.lock") && !f.has("a.held") && !f.has("a.ledger"));
}

#[test]
fn a_lock_file_that_was_replaced_is_not_the_lock() {
    let f = folder();
    large(&f);
    let old = locked(&f);
    let waiting = correcting(&f);
    thread::sleep(Duration::from_millis(200));
    fs::remove_file(f.join("a.lock")).unwrap();
    let new = locked(&f);
    drop(old);
    thread::sleep(Duration::from_millis(200));
    assert_eq!(f.get("a.ledger").len(), 0);
    drop(new);
    assert_eq!(waiting.wait_with_output().unwrap().status.code(), Some(0));
    assert_eq!(f.get("a.ledger").len(), 16);
}

#[test]
fn a_keep_date_and_a_purge_at_once_are_never_both_made() {
    let f = folder();
    f.put("a.sfrm", common::plain_frame());
    for round in 0..60 {
        f.done("open a.sfrm --form 1 -o a");
        f.done("keep a 2031-11-02");
        let (swept, kept) = thread::scope(|scope| {
            let sweep = scope.spawn(|| f.run_on("2031-11-03", "sweep . --delete"));
            thread::sleep(Duration::from_micros(100 * round));
            let kept = f.run("keep a 2040-01-01");
            (sweep.join().unwrap(), kept)
        });
        let deleted = swept.out.starts_with("deleted ");
        assert_eq!((kept.status == Some(0), f.has("a.held")), (!deleted, !deleted), "{swept:?}, {kept:?}");
        for ending in ["held", "ledger", "sha256", "lock"] {
            let _ = fs::remove_file(f.join(&format!("a.{ending}")));
        }
    }
}

#[test]
fn questions_beside_changes_see_one_state() {
    let f = folder();
    large(&f);
    thread::scope(|scope| {
        scope.spawn(|| {
            for step in 0..150 {
                f.run_quietly(&format!("correct a {step} {}", 300 + step));
            }
        });
        for _ in 0..100 {
            f.run_quietly("verify a");
        }
    });
}
