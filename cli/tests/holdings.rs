//! open, correct, amend, keep, withdraw, list, may-purge, verify, and refusals 16 to 27 and 31, by the real command.
mod common;
use common::header::{Header, LENGTH};
use common::{folder, frame, old_frame, plain_frame, state_of, unraw, Folder, OLD_ENTRY};
use std::fs;
use std::process::Stdio;

/// The counts of holding `a`, as the held file expands.
fn counts(f: &Folder) -> Vec<u32> {
    f.done("expand a.held -o counts.raw --force");
    unraw(&f.get("counts.raw"))
}

#[test]
fn a_day_with_a_holding() {
    let f = folder();
    f.put("a.sfrm", plain_frame());
    let said = f.done("open a.sfrm --form 1+2 --room 100 -o a");
    assert_eq!(said, "a: 4 rows, 4 columns held in form 1+2, 7696 bytes and room for 100\n");
    assert_eq!((f.get("a.held").len(), f.get("a.ledger").len()), (LENGTH + 16 + 100, 0));
    assert_eq!(f.done("list a"), "standing 0\n");
    assert_eq!(f.done("correct a 1,2 70000"), "a: line 1: pixel 6 corrected from 66 to 70000\n");
    assert_eq!(f.done("keep a 2031-11-02"), "a: line 2: kept until 2031-11-02 (no date before)\n");
    assert_eq!(f.get("a.ledger")[16..20], [0x5f, 0xbe, 0xc4, 0]);
    assert_eq!(f.done("correct a 15 0"), "a: line 3: pixel 15 corrected from 75 to 0\n");
    assert_eq!((counts(&f)[6], counts(&f)[15]), (70000, 0));
    assert_eq!(f.done("verify a"), "a: held frame, ledger and sums agree, 3 lines, 3 standing\n");
    assert_eq!(f.done("withdraw a"), "a: line 4 withdraws line 3: pixel 15 corrected from 75 to 0\n");
    assert_eq!(f.done("withdraw a"), "a: line 5 withdraws line 2: kept until 2031-11-02; no keep date stands now\n");
    let listing = "line 1 correct 6 66 70000\nline 2 keep 2031-11-02 withdrawn\nline 3 correct 15 75 0 withdrawn\n\
                   line 4 withdraw\nline 5 withdraw\nstanding 1\n";
    assert_eq!(f.done("list a"), listing);
    assert_eq!((counts(&f)[6], counts(&f)[15]), (70000, 75));
    assert_eq!(f.done("verify a"), "a: held frame, ledger and sums agree, 5 lines, 1 standing\n");
}

#[test]
fn the_purge_question_has_a_status() {
    let f = folder();
    f.hold("1", 0);
    let asked = |day: &str| {
        let ran = f.run(&format!("may-purge a {day}"));
        (ran.status, ran.out + &ran.err)
    };
    assert_eq!(asked("2031-11-03"), (Some(1), "no: a has no keep date that stands\n".into()));
    f.done("keep a 2031-11-02");
    assert_eq!(asked("2031-11-02"), (Some(1), "not yet: a is kept until 2031-11-02 by line 1\n".into()));
    assert_eq!(asked("2031-11-03"), (Some(0), "yes: a may be purged: line 1 kept it until 2031-11-02\n".into()));
    let reason = r#""decided_by":1,"kept_until":"2031-11-02"}"#;
    let json = f.run("may-purge a 2031-11-02 --json");
    assert_eq!(json.out, format!("{{\"name\":\"a\",\"may_purge\":false,\"refusal\":27,{reason}\n"));
    let json = f.run("--json may-purge a 2031-11-03");
    assert_eq!((json.status, json.out), (Some(0), format!("{{\"name\":\"a\",\"may_purge\":true,{reason}\n")));
    f.done("withdraw a");
    let json = f.run("--json may-purge a 2031-11-03");
    let none = "{\"name\":\"a\",\"may_purge\":false,\"refusal\":26}\n";
    assert_eq!((json.status, json.out.as_str()), (Some(1), none));
    assert!(f.refused("may-purge a 1900-02-29", 25).contains("no calendar date"));
}

#[test]
fn dates_have_one_form() {
    let f = folder();
    f.hold("1", 0);
    for date in ["11/02/2031", "2031-11-2", "31-11-02", "2031-11-02 ", "+031-11-02", "２031-11-02", "2031/11/02"] {
        for words in [["keep", "a", date].as_slice(), &["may-purge", "a", date], &["why", "a", "--day", date]] {
            let ran = common::ran(common::command().args(words).current_dir(f.path()).output().unwrap());
            let shows = ran.err.contains("a date is written YYYY-MM-DD, for example 2031-11-02");
            assert!(ran.status == Some(2) && shows, "{date}: {ran:?}");
        }
    }
    assert!(f.refused("keep a 2031-02-30", 25).contains("Gregorian calendar"));
    assert!(f.refused("keep a 0000-01-01", 25).contains("years 0001 to 4095"));
    assert_eq!(f.get("a.ledger").len(), 0);
}

#[test]
fn open_keeps_what_exists_and_leaves_nothing_behind_when_refused() {
    let f = folder();
    f.hold("1", 0);
    let ran = f.run("open a.sfrm --form 2 -o a");
    assert!(ran.status == Some(1) && ran.err.contains("a.held: exists already and is kept"), "{ran:?}");
    f.put("old.sfrm", old_frame(OLD_ENTRY));
    f.refused("open old.sfrm --form 1 -o b", 16);
    f.put("high.sfrm", frame(Header::new(1, 1).line(79, "NEXP   :1 0 300"), &[250]));
    f.done("open high.sfrm --form 1+2 --room 0 -o high");
    f.put("low.sfrm", f.get("high.held"));
    f.done("open high.sfrm --form 1+1 --room 100 -o high1");
    assert!(f.refused("correct high1 0 299", 17).contains("form that ends in +2"));
    f.put("b.sfrm", "short");
    f.refused("open b.sfrm --form 1 -o b", 1);
    assert!(!f.has("b.held") && !f.has("b.ledger") && !f.has("b.lock"));
    assert_eq!(f.run("open nosuch --form 1 -o b").status, Some(3));
    assert_eq!(f.run("open a.sfrm --form 1 -o nosuch/b").status, Some(3));
}

/// A refused change leaves both files as they are.
fn untouched(f: &Folder, words: &str, number: u32, part: &str) {
    let files = || (f.get("a.held"), f.get("a.ledger"));
    let before = files();
    let said = f.refused(words, number);
    assert!(said.contains(part), "{said}");
    assert_eq!(before, files(), "{words}");
    assert!(!f.has("a.redo"));
}

#[test]
fn each_refusal_of_a_change_has_its_sentence() {
    let f = folder();
    f.hold("1", 0);
    untouched(&f, "correct a 16 1", 24, "the frame has no such pixel");
    untouched(&f, "correct a 0,4 1", 24, "ROW,COLUMN both start at 0");
    untouched(&f, "correct a 18446744073709551615,1 1", 24, "no such pixel");
    untouched(&f, "withdraw a", 22, "nothing stands");
    f.done("correct a 3,3 9");
    f.without_sums("a");
    let (held, ledger) = (f.get("a.held"), f.get("a.ledger"));
    f.put("a.ledger", [&ledger[..], &[1, 2, 3]].concat());
    untouched(&f, "correct a 1 1", 20, "a.ledger: refusal 20: the ledger is malformed (it has 19 bytes");
    untouched(&f, "keep a 2031-11-02", 20, "whole lines of 16 bytes");
    untouched(&f, "withdraw a", 20, "restore the holding");
    f.put("a.ledger", &ledger);
    f.put("a.held", plain_held(&held));
    untouched(&f, "withdraw a", 23, "the pixel is not the count that its ledger line says");
    f.put("a.held", &held[..held.len() - 1]);
    untouched(&f, "correct a 0 1", 19, "the held file is no frame as the writer makes it");
}

#[test]
fn a_correction_is_amended_and_the_listing_has_both_lines() {
    let f = folder();
    f.hold("1+2", 0);
    f.done("keep a 2031-11-02");
    f.done("correct a 1,2 70000");
    let said =
        "a: line 3 withdraws line 2: pixel 6 corrected from 66 to 70000; line 4: pixel 6 corrected from 66 to 700\n";
    assert_eq!((f.done("amend a 700").as_str(), counts(&f)[6]), (said, 700));
    let said = "a: line 5 withdraws line 4: pixel 6 corrected from 66 to 700; line 6: pixel 6 corrected from 66 to 7\n";
    assert_eq!((f.done("amend a.held 7").as_str(), counts(&f)[6]), (said, 7));
    let correction = |line: u64, new: u64| {
        format!(r#"{{"line":{line},"kind":"correct","pixel":6,"old":66,"new":{new},"withdrawn":false}}"#)
    };
    let (taken, appended) = (correction(6, 7), correction(8, 70));
    let said = format!("{{\"name\":\"a\",\"line\":7,\"withdraws\":{taken},\"appended\":{appended}}}\n");
    assert_eq!(f.done("amend a 70 --json"), said);
    let listing = "line 1 keep 2031-11-02\nline 2 correct 6 66 70000 withdrawn\nline 3 withdraw\n\
                   line 4 correct 6 66 700 withdrawn\nline 5 withdraw\nline 6 correct 6 66 7 withdrawn\n\
                   line 7 withdraw\nline 8 correct 6 66 70\nstanding 2\n";
    assert_eq!(f.done("list a"), listing);
    assert_eq!(f.done("verify a"), "a: held frame, ledger and sums agree, 8 lines, 2 standing\n");
    f.done("withdraw a");
    assert_eq!(counts(&f)[6], 66);
}

#[test]
fn an_amend_leaves_the_files_that_two_commands_leave() {
    let (one, two) = (folder(), folder());
    for f in [&one, &two] {
        f.hold("1+2", 0);
        f.done("correct a 9 12");
        f.done("correct a 3 70000");
    }
    one.done("amend a 300");
    two.done("withdraw a");
    two.done("correct a 3 300");
    assert_eq!(state_of(&one, "a"), state_of(&two, "a"));
}

#[test]
fn an_amend_gets_room_for_the_longer_frame() {
    let f = folder();
    f.hold("1+2", 0);
    f.done("correct a 3 50");
    assert_eq!(f.get("a.held").len(), LENGTH + 16);
    assert!(f.done("amend a 70000").ends_with("; line 3: pixel 3 corrected from 63 to 70000\n"));
    assert_eq!((f.get("a.held").len(), counts(&f)[3]), (LENGTH + 16 + 48, 70000));
    assert_eq!(f.done("verify a"), "a: held frame, ledger and sums agree, 3 lines, 1 standing\n");
}

#[test]
fn each_refusal_of_an_amend_has_its_sentence() {
    let f = folder();
    f.hold("1", 0);
    let nothing =
        "a: refusal 22: nothing stands that could be amended. Correct the pixel with `quayrudder correct NAME";
    untouched(&f, "amend a 1", 22, nothing);
    f.done("correct a 3,3 9");
    f.done("keep a 2031-11-02");
    let keep_last = "a: refusal 31: what stands last is a keep date, not a correction. Take it back first with \
                     `quayrudder withdraw NAME`, or correct the pixel with `quayrudder correct NAME PIXEL COUNT`.";
    untouched(&f, "amend a 1", 31, keep_last);
    f.done("withdraw a");
    assert!(f.done("amend a 8").starts_with("a: line 4 withdraws line 1: pixel 15 corrected from 75 to 9; line 5: "));
    f.without_sums("a");
    let (held, ledger) = (f.get("a.held"), f.get("a.ledger"));
    f.put("a.ledger", [&ledger[..], &[1, 2, 3]].concat());
    untouched(&f, "amend a 1", 20, "a.ledger: refusal 20: the ledger is malformed (it has 83 bytes");
    let pixel_16 = (16u128 << 81 | 75 << 49 | 8 << 17).to_be_bytes();
    f.put("a.ledger", [&ledger[..], &pixel_16].concat());
    for words in ["amend a 1", "withdraw a", "verify a"] {
        damaged(&f, words, "a.held: refusal 24: the frame has no such pixel as the last standing line has");
    }
    let scrubbed = f.run("verify .");
    assert!(scrubbed.status == Some(4) && scrubbed.out.contains("1 damaged"), "{scrubbed:?}");
    f.put("a.ledger", &ledger);
    f.put("a.held", plain_held(&held));
    untouched(&f, "amend a 1", 23, "a.held: refusal 23: the pixel is not the count that its ledger line says");
    f.put("a.held", &held[..held.len() - 1]);
    untouched(&f, "amend a 1", 19, "a.held: refusal 19: the held file is no frame as the writer makes it");
}

#[test]
fn an_old_count_that_the_frame_cannot_hold_is_damage() {
    let f = folder();
    f.put("a.sfrm", frame(Header::new(1, 1).line(79, "NEXP   :1 0 300"), &[250]));
    f.done("open a.sfrm --form 1+1 -o a");
    f.without_sums("a");
    f.put("a.ledger", (256u128 << 49 | 250 << 17).to_be_bytes());
    for words in ["withdraw a", "verify a"] {
        damaged(&f, words, "a.held: refusal 17: the frame cannot hold the old count of the last standing line");
    }
}

#[test]
fn an_amend_to_a_count_too_large_for_its_underflow_entry_is_refused() {
    let f = folder();
    f.put("a.sfrm", frame(Header::new(1, 1).line(79, "NEXP   :1 0 300"), &[250]));
    f.done("open a.sfrm --form 1+1 -o a");
    f.done("correct a 0 400");
    untouched(&f, "amend a 256", 17, "a.held: refusal 17: an underflow entry is too large for one byte");
    f.done("amend a 255");
    assert_eq!(counts(&f), [255]);
}

/// Refused as damage, with these words, and no byte changed.
fn damaged(f: &Folder, words: &str, part: &str) {
    let files = || (f.get("a.held"), f.get("a.ledger"));
    let (before, ran) = (files(), f.run(words));
    assert!(ran.status == Some(4) && ran.err.contains(part), "{words}: {ran:?}");
    assert_eq!(before, files(), "{words}");
}

/// The held bytes with pixel 15 as it was opened.
fn plain_held(held: &[u8]) -> Vec<u8> {
    let mut held = held.to_vec();
    held[LENGTH + 15] = 75;
    held
}

#[test]
fn each_refusal_of_a_question_has_its_sentence() {
    let f = folder();
    f.hold("2", 10);
    f.done("correct a 15 9");
    f.without_sums("a");
    let ledger = f.get("a.ledger");
    f.put("a.ledger", [ledger.as_slice(), &[0xc0; 16]].concat());
    let questions = [
        "list a",
        "may-purge a 2031-11-03",
        "verify a",
        "why a --day 2031-11-03",
        "why a --pixel 15",
        "why a --pixel 3,3",
    ];
    for words in questions {
        untouched(&f, words, 20, "a.ledger: refusal 20: the ledger is malformed. It was damaged");
    }
    f.put("a.ledger", &ledger[..7]);
    for words in questions {
        untouched(&f, words, 20, "it has 7 bytes, and a ledger is whole lines of 16 bytes");
    }
    let json = f.run("list a --json");
    assert!(json.status == Some(4) && json.out.contains(r#""refusal":20"#) && json.err.is_empty(), "{json:?}");
}

#[test]
fn verify_finds_what_is_wrong() {
    let f = folder();
    f.hold("1", 10);
    f.done("correct a 15 9");
    let held = f.get("a.held");
    assert_eq!(f.done("verify a a.held a.ledger").lines().count(), 3);
    f.without_sums("a");
    f.put("a.held", [&held[..held.len() - 1], &[1]].concat());
    untouched(&f, "verify a", 19, "a.held: refusal 19");
    f.put("a.held", plain_held(&held));
    untouched(&f, "verify a", 23, "a.held: refusal 23");
    f.put("a.held", &held);
    f.done("open a.sfrm --form 4 --room 0 -o b");
    fs::remove_file(f.join("b.held")).unwrap();
    let ran = f.run("verify nosuch b a");
    assert!(ran.status == Some(4) && ran.out.starts_with("a: held frame and ledger agree"), "{ran:?}");
    assert!(ran.err.contains("nosuch.ledger: cannot find it") && ran.err.contains("b.held: is missing"), "{ran:?}");
    assert!(!f.has("nosuch.lock"));
}

#[test]
fn bad_usage_has_its_status() {
    let f = folder();
    let usages = ["", "nonsense", "info", "correct a", "correct a x 1", "correct a 1,x 1", "correct a 1 4294967296"];
    for words in usages {
        assert_eq!(f.run(words).status, Some(2), "{words}");
    }
    for words in ["correct a 1 -1", "open a -o b", "sweep", "sweep . --day 11/02/2031", "list a/"] {
        assert_eq!(f.run(words).status, Some(2), "{words}");
    }
    for words in ["compact", "compact a/", "compact -", "compact a --log x"] {
        assert_eq!(f.run(words).status, Some(2), "{words}");
    }
    for words in ["amend", "amend a", "amend a x", "amend a -1", "amend a 4294967296", "amend a 1,2 3", "amend a/ 1"] {
        assert_eq!(f.run(words).status, Some(2), "{words}");
    }
}

#[test]
fn every_command_has_help_with_an_example() {
    let f = folder();
    let commands = "info expand view write open correct amend keep withdraw compact list may-purge why verify sweep";
    for command in commands.split(' ') {
        let help = f.done(&format!("{command} --help"));
        assert!(help.contains(&format!("  quayrudder {command} ")), "{help}");
    }
    let help = f.done("--help");
    assert!(help.contains("Exit status:") && commands.split(' ').all(|command| help.contains(command)), "{help}");
}

#[test]
fn a_link_is_not_cut_off() {
    let f = folder();
    f.hold("1", 0);
    fs::rename(f.join("a.held"), f.join("elsewhere")).unwrap();
    std::os::unix::fs::symlink("elsewhere", f.join("a.held")).unwrap();
    let ran = f.run("correct a 1 1");
    assert!(ran.status == Some(1) && ran.err.contains("a.held: is a symbolic link"), "{ran:?}");
    f.done("verify a");
}

#[test]
fn permissions_stay() {
    use std::os::unix::fs::PermissionsExt;
    let f = folder();
    f.hold("1", 0);
    fs::set_permissions(f.join("a.held"), fs::Permissions::from_mode(0o640)).unwrap();
    f.done("correct a 1 1");
    assert_eq!(fs::metadata(f.join("a.held")).unwrap().permissions().mode() & 0o777, 0o640);
}

#[test]
fn an_answer_that_cannot_be_written_has_its_status() {
    let f = folder();
    f.hold("1", 0);
    let run = |out: Stdio| {
        let mut run = common::command();
        common::ran(run.args(["correct", "a", "1", "1"]).current_dir(f.path()).stdout(out).output().unwrap())
    };
    let full = run(fs::File::options().write(true).open("/dev/full").unwrap().into());
    let sentence = "standard output: cannot write it: No space left on device";
    assert!(full.status == Some(3) && full.err.contains(sentence), "{full:?}");
    let (reader, writer) = std::io::pipe().unwrap();
    drop(reader);
    let closed = run(writer.into());
    assert_eq!((closed.status, closed.err.as_str()), (Some(3), ""));
    assert_eq!(f.get("a.ledger").len(), 32);
}
