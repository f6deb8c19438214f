//! Many names at once: below folders, from lists, in order and with totals; and holdings that get the room they need.
mod common;
use common::header::Header;
use common::{command, folder, frame, killed_in_turn, plain_frame, ran, tables_frame, Folder, Ran};
use serde_json::Value;
use std::fs::{self, File};
use std::os::unix::fs::symlink;

/// Three frames, one of them refused, and what is no frame: hidden files, a link, files of a holding.
fn tier() -> Folder {
    let f = folder();
    f.put_below("frames/b.sfrm", plain_frame());
    f.put_below("frames/deep/a.sfrm", tables_frame());
    f.put("frames/deep/bad.sfrm", "short");
    f.put("frames/.hidden.sfrm", plain_frame());
    f.put_below("frames/.trash/c.sfrm", plain_frame());
    f.put("frames/.b.npy.abcdefghijkl.quayrudder", "left behind");
    for ending in ["held", "ledger", "sha256", "compacted", "lock", "redo"] {
        f.put(&format!("frames/h.{ending}"), "of a holding");
    }
    symlink("b.sfrm", f.join("frames/link.sfrm")).unwrap();
    f
}

/// Holdings `a` to `c` of the plain frame, with no lines.
fn three() -> Folder {
    let f = folder();
    f.put("a.sfrm", plain_frame());
    for name in ["a", "b", "c"] {
        f.done(&format!("open a.sfrm --form 1 --room 0 -o {name}"));
    }
    f
}

fn last(text: &str) -> &str {
    text.lines().last().unwrap_or_default()
}

/// Each line of an answer in JSON.
fn values(text: &str) -> Vec<Value> {
    text.lines().map(|line| serde_json::from_str(line).unwrap()).collect()
}

#[test]
fn every_frame_below_a_folder_is_opened_below_another() {
    let f = tier();
    let ran = f.run("open --below frames --form 1+2 --room 32 -o archive");
    let expected = "archive/b: 4 rows, 4 columns held in form 1+2, 7696 bytes and room for 32\n\
                    archive/deep/a: 1 rows, 4 columns held in form 1+2, 7732 bytes and room for 32\n\
                    3 frames: 2 opened, 0 already open, 1 refused, 0 declined, 0 damaged, 0 failed\n";
    assert_eq!((ran.status, ran.out.as_str()), (Some(4), expected), "{ran:?}");
    assert!(ran.err.starts_with("quayrudder: frames/deep/bad.sfrm: refusal 1: ") && ran.err.lines().count() == 1);
    assert_eq!(last(&f.done("verify archive")).split(" (").next(), Some("2 holdings: 2 agree"));
    let json = f.run("open --below frames --form 1+2 --room 32 -o again --json");
    let said = values(&json.out);
    assert_eq!((json.status, said.len(), json.err.as_str()), (Some(4), 4, ""));
    assert_eq!((&said[2]["refusal"], &said[3]["totals"]["opened"]), (&1.into(), &2.into()));
    assert_eq!(said[3]["totals"]["already_open"], 0);
}

#[test]
fn named_frames_are_opened_into_a_folder() {
    let f = tier();
    let said = f.done("open frames/b.sfrm frames/deep/a.sfrm --form 1+2 -o new/archive");
    assert!(said.contains("new/archive/b: 4 rows") && said.contains("new/archive/a: 1 rows"), "{said}");
    assert_eq!(last(&said), "2 frames: 2 opened, 0 already open, 0 refused, 0 declined, 0 damaged, 0 failed");
    f.put("file", "");
    let ran = f.run("open frames/b.sfrm frames/deep/a.sfrm --form 1+2 -o file");
    assert!(ran.status == Some(2) && ran.err.contains("`file` must be a folder"), "{ran:?}");
}

#[test]
fn frames_of_one_name_are_both_declined_and_the_others_go_on() {
    let f = tier();
    f.put("frames/b.img", plain_frame());
    f.put("frames/c.sfrm", plain_frame());
    for (words, ending) in [("open --form 1", "held"), ("expand --as npy", "npy"), ("view", "png")] {
        let ran = f.run(&format!("{words} frames/b.img frames/b.sfrm frames/c.sfrm -o out"));
        let totals = " 0 refused, 2 declined, 0 damaged, 0 failed";
        assert!(ran.status == Some(1) && last(&ran.out).ends_with(totals), "{words}: {ran:?}");
        for name in ["frames/b.img", "frames/b.sfrm"] {
            assert!(ran.err.contains(&format!("{name}: out/b")) && ran.err.contains("another frame"), "{ran:?}");
        }
        assert!(f.has(&format!("out/c.{ending}")) && !f.has(&format!("out/b.{ending}")), "{words}");
    }
}

#[test]
fn a_batch_of_openings_goes_on_where_it_was_killed() {
    let f = folder();
    (0..20).for_each(|number| f.put_below(&format!("frames/f{number:02}.sfrm"), plain_frame()));
    let words = "open --below frames --form 1 --room 16 -o archive";
    killed_in_turn(&f, words, &["create f03.lock", "rename f05.redo", "rename f08.ledger", "rename f19.held"]);
    let again = f.run(words);
    assert_eq!((again.status, again.out.lines().count()), (Some(0), 21), "{again:?}");
    assert!(again.out.contains("archive/f00: already open, from this very frame in this form\n"), "{again:?}");
    let all = f.done(words);
    assert_eq!(last(&all), "20 frames: 0 opened, 20 already open, 0 refused, 0 declined, 0 damaged, 0 failed");
    assert!(f
        .done("verify archive")
        .ends_with("20 holdings: 20 agree (0 without sums, 0 sums made), 0 damaged, 0 failed, 0 not a holding\n"));
    let strays = fs::read_dir(f.join("archive")).unwrap().count();
    assert_eq!(strays, 20 * 4);
}

#[test]
fn only_the_same_frame_in_the_same_form_with_no_lines_is_already_open() {
    let f = three();
    f.put_below("frames/a.sfrm", plain_frame());
    let declined = |words: &str| {
        let ran = f.run(words);
        assert!(ran.status == Some(1) && ran.err.contains("a.held: exists already and is kept"), "{words}: {ran:?}");
    };
    let open = "open --below frames --form 1 -o .";
    assert!(f.done(open).starts_with("./a: already open"));
    assert!(f.done("open --below frames --form 1 --room 7 -o .").starts_with("./a: already open"));
    declined("open frames/a.sfrm --form 1 -o a");
    declined("open --below frames --form 2 -o .");
    f.put("frames/a.sfrm", frame(Header::new(4, 4), &[7; 16]));
    declined(open);
    f.put("frames/a.sfrm", [plain_frame(), vec![0]].concat());
    declined(open);
    f.put("frames/a.sfrm", plain_frame());
    f.done("keep a 2031-11-02");
    declined(open);
}

#[test]
fn names_come_from_lists() {
    let f = three();
    f.put("lines.txt", "a\n\nc\n");
    let totals = "2 holdings: 2 kept, 0 already kept, 0 refused, 0 declined, 0 damaged, 0 failed\n";
    let kept = |line: u32, date: &str, was: &str| {
        ["a", "c"].map(|name| format!("{name}: line {line}: kept until {date} ({was})\n")).concat() + totals
    };
    assert_eq!(f.done("keep --names-from lines.txt 2031-11-02"), kept(1, "2031-11-02", "no date before"));
    let ran = f.run_with("keep --names-from - 2032-11-02", b"a\0c\0");
    assert_eq!((ran.status, ran.out), (Some(0), kept(2, "2032-11-02", "was 2031-11-02")));
    f.put("two\nlines.sfrm", plain_frame());
    let ran = f.run_with("info --names-from -", b"two\nlines.sfrm\0");
    assert!(ran.status == Some(0) && ran.out.starts_with("two\\nlines.sfrm: FORMAT 100"), "{ran:?}");
    assert!(last(&ran.out).starts_with("1 frames: 1 accepted, 0 refused"), "{ran:?}");
    let ran = f.run_with("list b --names-from - --below .", b"c\n");
    let names: Vec<&str> = ran.out.lines().filter(|line| line.ends_with(':')).collect();
    assert_eq!(names, ["b:", "c:", "./a:", "./b:", "./c:"], "{ran:?}");
    assert_eq!(f.run("list --names-from nosuch").status, Some(3));
}

#[test]
fn a_day_stands_last_wherever_options_stand() {
    let f = three();
    for words in ["keep a --shorten 2031-11-01", "keep --shorten a 2031-11-02", "keep a 2031-11-03 --shorten"] {
        assert!(f.done(words).contains(": kept until 2031-11-0"), "{words}");
    }
    assert_eq!(last(&f.done("keep a b c 2031-11-04")).split(',').next(), Some("3 holdings: 3 kept"));
    for words in ["keep a b", "keep a", "keep 2031-11-02", "keep --below .", "keep 2031-11-02 a"] {
        let ran = f.run(words);
        assert!(ran.status == Some(2) && ran.err.starts_with("error: "), "{words}: {ran:?}");
    }
    let help = f.done("keep --help");
    assert!(help.contains("Usage: quayrudder keep [OPTIONS] [NAME]... <YYYY-MM-DD>"), "{help}");
}

#[test]
fn a_batch_keeps_what_is_not_kept_so_already() {
    let f = three();
    f.done("keep b 2031-11-02");
    f.put("c.ledger", [0xff; 16]);
    let ran = f.run("keep a b c nosuch 2031-11-02");
    let expected = "a: line 1: kept until 2031-11-02 (no date before)\nb: already kept until 2031-11-02\n\
                    4 holdings: 1 kept, 1 already kept, 0 refused, 0 declined, 1 damaged, 1 failed\n";
    assert_eq!((ran.status, ran.out.as_str()), (Some(4), expected), "{ran:?}");
    assert!(ran.err.contains("c.ledger: differs") && ran.err.contains("nosuch.ledger: cannot find it"), "{ran:?}");
    assert_eq!((f.get("a.ledger").len(), f.get("b.ledger").len()), (16, 16));
    assert!(f.done("keep b 2031-11-02").contains("line 2: kept until 2031-11-02 (was 2031-11-02)"));
    let json = values(&f.done("keep a b 2031-11-02 --json"));
    assert_eq!((&json[0]["already_kept"], &json[2]["totals"]["already_kept"]), (&"2031-11-02".into(), &2.into()));
    let earlier = f.run("keep a b 2030-11-02");
    assert!(earlier.status == Some(1) && last(&earlier.out).contains(" 2 declined"), "{earlier:?}");
}

#[test]
fn a_day_that_no_holding_takes_is_said_once() {
    let f = three();
    for (day, part) in [("2031-02-30", "refusal 25"), ("2026-11-15", "is before today")] {
        let ran = f.run(&format!("keep --below . {day}"));
        assert!(ran.status == Some(1) && ran.out.is_empty() && ran.err.contains(part), "{ran:?}");
        assert_eq!(ran.err.lines().count(), 1, "{ran:?}");
    }
    assert_eq!(last(&f.done("keep --below . 2026-11-15 --shorten")).split(',').next(), Some("3 holdings: 3 kept"));
}

#[test]
fn a_holding_named_twice_is_not_changed() {
    let f = three();
    f.done("keep --below . 2031-11-02");
    for words in ["withdraw a b a.held", "withdraw a ./a b", "withdraw a b --below ."] {
        let ran = f.run(words);
        assert!(ran.status == Some(1) && ran.err.contains("named more than once in this batch"), "{ran:?}");
        assert_eq!(f.get("a.ledger").len(), 16, "{words}");
        f.done("keep b 2031-11-02");
    }
    assert!(f.done("verify a a b").lines().count() == 3 && f.done("list a a").contains("2 listed"));
}

#[test]
fn withdrawals_and_listings_of_many() {
    let f = three();
    f.done("keep a b 2031-11-02");
    f.done("correct b 1 9");
    let ran = f.run("withdraw a b c");
    let expected = "a: line 2 withdraws line 1: kept until 2031-11-02; no keep date stands now\n\
                    b: line 3 withdraws line 2: pixel 1 corrected from 61 to 9\n\
                    3 holdings: 2 withdrawn, 1 refused, 0 declined, 0 damaged, 0 failed\n";
    assert_eq!((ran.status, ran.out.as_str()), (Some(1), expected), "{ran:?}");
    assert!(ran.err.contains("c: refusal 22"), "{ran:?}");
    let expected = "./a:\n  line 1 keep 2031-11-02 withdrawn\n  line 2 withdraw\n  standing 0\n\
                    ./b:\n  line 1 keep 2031-11-02\n  line 2 correct 1 61 9 withdrawn\n  line 3 withdraw\n  standing 1\n\
                    ./c:\n  standing 0\n3 holdings: 3 listed, 0 refused, 0 declined, 0 damaged, 0 failed\n";
    assert_eq!(f.done("list --below ."), expected);
    let json = values(&f.done("list a b --json"));
    assert_eq!(
        (&json[0]["name"], &json[1]["standing"], &json[2]["totals"]["listed"]),
        (&"a".into(), &1.into(), &2.into())
    );
}

#[test]
fn many_frames_are_expanded_as_asked() {
    let f = tier();
    let words = "expand --below frames --as raw -o frames/counts";
    let ran = f.run(words);
    let expected = "frames/counts/b.raw: 4 rows, 4 columns\nframes/counts/deep/a.raw: 1 rows, 4 columns\n\
                    3 frames: 2 expanded, 0 already expanded, 1 refused, 0 declined, 0 damaged, 0 failed\n";
    assert_eq!((ran.status, ran.out.as_str()), (Some(4), expected), "{ran:?}");
    f.done("expand frames/deep/a.sfrm -o one.raw");
    assert_eq!(f.get("frames/counts/deep/a.raw"), f.get("one.raw"));
    let mine = [7; 64];
    f.put("frames/counts/b.raw", mine);
    let again = f.run(words);
    let totals = "3 frames: 0 expanded, 1 already expanded, 1 refused, 1 declined, 0 damaged, 0 failed";
    assert!(again.status == Some(4) && last(&again.out) == totals, "{again:?}");
    assert_eq!(f.get("frames/counts/b.raw"), mine);
    let ran = f.run("expand --below frames -o counts");
    assert!(ran.status == Some(2) && ran.err.contains("--as"), "{ran:?}");
    f.done("expand frames/b.sfrm --as pgm -o picture.dat");
    assert!(f.get("picture.dat").starts_with(b"P5\n4 4 65535\n"));
    f.done("expand frames/b.sfrm --as raw -o one.raw --force");
    assert_eq!(f.get("one.raw").len(), 64);
}

#[test]
fn every_format_is_written_for_many_as_for_one() {
    let f = folder();
    let names: Vec<String> = (0..24).map(|number| format!("{number:02}")).collect();
    for (name, first) in names.iter().zip(0u8..) {
        let counts: Vec<u8> = (first..first + 16).collect();
        f.put_below(&format!("frames/{name}.sfrm"), frame(Header::new(4, 4), &counts));
    }
    for format in ["npy", "raw", "pgm", "tif", "edf", "cbf"] {
        f.done(&format!("expand --below frames --as {format} -o many"));
        for name in [&names[0], &names[11], &names[23]] {
            f.done(&format!("expand frames/{name}.sfrm -o {name}.{format}"));
            assert_eq!(f.get(&format!("{name}.{format}")), f.get(&format!("many/{name}.{format}")), "{format}");
        }
    }
}

#[test]
fn outputs_beside_their_frames_are_no_frames() {
    let f = folder();
    ["frames/a.sfrm", "frames/deep/b.sfrm"].iter().for_each(|name| f.put_below(name, plain_frame()));
    for (words, ending) in [("expand --as npy", "npy"), ("view", "png"), ("open --form 1", "held")] {
        let words = format!("{words} --below frames -o frames");
        assert!(last(&f.done(&words)).starts_with("2 frames: 2 "), "{words}");
        let again = f.done(&words);
        assert!(last(&again).starts_with("2 frames: 0 ") && last(&again).contains(", 2 already "), "{again}");
        ["frames/a", "frames/deep/b"]
            .iter()
            .for_each(|name| fs::remove_file(f.join(&format!("{name}.{ending}"))).unwrap());
    }
}

#[test]
fn a_batch_of_keep_dates_goes_on_where_it_was_killed() {
    let f = folder();
    (0..20).for_each(|number| f.put_below(&format!("frames/h{number:02}.sfrm"), plain_frame()));
    f.done("open --below frames --form 1 --room 0 -o archive");
    let words = "keep --below archive 2031-11-02";
    killed_in_turn(&f, words, &["pwrite h02.lock", "rename h05.redo", "rename h08.ledger", "unlink h19.redo"]);
    let again = f.run(words);
    assert!(again.status == Some(0) && again.out.contains("archive/h00: already kept until 2031-11-02"), "{again:?}");
    (0..20).for_each(|number| assert_eq!(f.get(&format!("archive/h{number:02}.ledger")).len(), 16, "{number}"));
    assert!(f.done("verify archive").contains("20 holdings: 20 agree"));
}

#[test]
fn many_frames_are_viewed() {
    let f = tier();
    let ran = f.run("view --below frames -o pictures --min 0 --max 100");
    let expected = "pictures/b.png: 4 x 4 pixels, black 0, white 100\n\
                    pictures/deep/a.png: 4 x 1 pixels, black 0, white 100\n\
                    3 frames: 2 viewed, 0 already viewed, 1 refused, 0 declined, 0 damaged, 0 failed\n";
    assert_eq!((ran.status, ran.out.as_str()), (Some(4), expected), "{ran:?}");
    f.done("view frames/b.sfrm -o b.png --min 0 --max 100");
    assert_eq!(f.get("b.png"), f.get("pictures/b.png"));
    assert!(last(&f.run("view --below frames -o pictures --min 0 --max 100").out).contains(" 2 already viewed,"));
}

#[test]
fn info_says_every_file_below_folders() {
    let f = tier();
    f.put_below("more/notes.txt", "not a frame");
    let ran = f.run("info --below frames --below more");
    let names: Vec<&str> = ran.out.lines().filter_map(|line| line.split_once(": FORMAT")).map(|part| part.0).collect();
    assert_eq!((ran.status, names), (Some(4), vec!["frames/b.sfrm", "frames/deep/a.sfrm"]), "{ran:?}");
    assert_eq!(last(&ran.out), "4 frames: 2 accepted, 2 refused, 0 declined, 0 damaged, 0 failed");
    assert!(ran.err.contains("more/notes.txt: refusal 1"), "{ran:?}");
    let ran = f.run("info --below nosuch");
    assert!(ran.status == Some(3) && ran.err.contains("nosuch: cannot read it"), "{ran:?}");
}

#[test]
fn a_folder_that_cannot_be_read_is_said_and_counted() {
    let f = tier();
    f.done("open frames/b.sfrm --form 1 -o h");
    let unread = |words: &str| {
        let mut run = command();
        run.args(words.split(' ')).current_dir(f.path()).env("FAULT_OPENDIR", "deep");
        let ran = ran(run.output().unwrap());
        assert!(ran.err.contains("frames/deep: cannot walk it"), "{words}: {ran:?}");
        (ran.status, last(&ran.out).to_string())
    };
    let totals = "2 frames: 1 accepted, 0 refused, 0 declined, 0 damaged, 1 failed";
    assert_eq!(unread("info --below frames"), (Some(3), totals.to_string()));
    let totals = "2 holdings: 1 kept, 0 already kept, 0 refused, 0 declined, 0 damaged, 1 failed";
    fs::rename(f.join("frames/h.held"), f.join("frames/k.held")).unwrap();
    assert_eq!(unread("keep --below . 2031-11-02"), (Some(3), totals.to_string()));
}

#[test]
fn standard_input_and_output_are_for_one() {
    let f = tier();
    for words in ["expand --below frames --as raw -o -", "view frames/b.sfrm frames/b.sfrm -o -", "info - -"] {
        let ran = f.run_with(words, &plain_frame());
        assert!(ran.status == Some(2) && ran.out.is_empty() && !f.has("-"), "{words}: {ran:?}");
    }
    assert_eq!(f.run_with("info - --names-from -", b"frames/b.sfrm").status, Some(2));
    let ran = f.run_with("open - frames/b.sfrm --form 1 -o archive", &plain_frame());
    assert!(ran.status == Some(0) && f.has("archive/-.held") && f.has("archive/b.held"), "{ran:?}");
}

#[test]
fn verify_takes_folders_by_either_way() {
    let f = three();
    f.put("b.held", "damaged");
    let plain = f.run("verify .");
    assert_eq!(plain.status, Some(4));
    for words in ["verify --below .", "verify . --wait 3"] {
        let ran = f.run(words);
        assert_eq!((ran.status, &ran.out, &ran.err), (plain.status, &plain.out, &plain.err), "{words}");
    }
    let json = values(&f.run("verify --below . --json").out);
    assert_eq!((json.len(), &json[3]["met"]), (4, &3.into()), "{json:?}");
    let listed = f.run_with("verify --names-from -", b"./a\n./b\n./c\n");
    assert_eq!((listed.status, listed.out, listed.err), (plain.status, plain.out, plain.err));
}

/// A run with holding `b` locked by this process.
fn with_b_locked(f: &Folder, words: &str) -> Ran {
    let lock = File::options().append(true).open(f.join("b.lock")).unwrap();
    lock.lock().unwrap();
    f.run(words)
}

#[test]
fn a_holding_in_use_does_not_stop_the_others() {
    let f = three();
    let ran = with_b_locked(&f, "keep --below . 2031-11-02 --wait 0");
    let totals = "3 holdings: 2 kept, 0 already kept, 0 refused, 0 declined, 0 damaged, 1 failed";
    assert!(ran.status == Some(3) && last(&ran.out) == totals && ran.err.contains("b.lock: in use by"), "{ran:?}");
    assert!(f.done("keep --below . 2031-11-02").contains("./b: line 1: kept"));
}

#[test]
fn answers_are_in_order_however_many_work() {
    let f = folder();
    let names: Vec<String> = (0..700).map(|number| format!("{:03}", (number * 37) % 700)).collect();
    names.iter().for_each(|name| f.put_below(&format!("frames/{name}.sfrm"), plain_frame()));
    let list: String = names.iter().map(|name| format!("frames/{name}.sfrm\n")).collect();
    let ran = f.run_with("open --names-from - --form 1 --room 0 -o archive", list.as_bytes());
    let said: Vec<&str> = ran.out.lines().filter_map(|line| line.strip_prefix("archive/")?.get(..3)).collect();
    assert_eq!((ran.status, said), (Some(0), names.iter().map(String::as_str).collect()));
    let kept = f.done("keep --below archive 2031-11-02");
    let said: Vec<&str> = kept.lines().filter_map(|line| line.strip_prefix("archive/")).collect();
    assert!(said.len() == 700 && said.is_sorted(), "{kept}");
    assert!(last(&kept).starts_with("700 holdings: 700 kept"), "{kept}");
}

#[test]
fn a_holding_without_room_is_corrected_all_the_same() {
    let f = folder();
    f.put("a.sfrm", frame(Header::new(4, 16), &[60; 64]));
    f.done("open a.sfrm --form 1+2 --room 0 -o a");
    let length = |f: &Folder| f.get("a.held").len();
    let (start, mut longest) = (length(&f), 0);
    // Seventeen of each kind, so that every table takes a second line of 16 bytes: of four bytes (and of two: 32 at once), below the baseline, of two.
    for step in 0..51 {
        let (pixel, count) = (step, [70_000, 3, 300][step % 3]);
        assert!(f.done(&format!("correct a {pixel} {count}")).contains(&format!("from 60 to {count}\n")));
        let said = f.done("verify a");
        assert!(said.contains(&format!("{} lines, {} standing", step + 1, step + 1)), "{said}");
        longest = longest.max(length(&f));
    }
    let entries = f.done("info a.held");
    assert!(entries.contains("underflow 17, two-byte 34, four-byte 17"), "{entries}");
    let tables = 48 + 80 + 80;
    assert!(length(&f) == longest && longest >= start + tables && longest < start + tables + 48, "{start} {longest}");
    (0..51).for_each(|_| drop(f.done("withdraw a")));
    assert!(f.done("verify a").contains("102 lines, 0 standing") && length(&f) == longest);
}

#[test]
fn a_withdrawal_gets_room_too() {
    let f = folder();
    f.put("a.sfrm", tables_frame());
    f.done("open a.sfrm --form 1+2 --room 0 -o a");
    f.done("correct a 2 40");
    f.without_sums("a");
    let (held, end) = (f.get("a.held"), values(&f.done("info a.held --json"))[0]["end"].as_u64().unwrap() as usize);
    assert_eq!(held.len() - end, 16);
    f.put("a.held", &held[..end]);
    assert_eq!(f.done("verify a").split(';').next(), Some("a: held frame and ledger agree, 1 lines, 1 standing"));
    assert!(f.done("withdraw a").contains("pixel 2 corrected from 70032 to 40"));
    assert!(
        f.done("expand a.held --as raw -o a.raw").contains("1 rows") && f.get("a.raw")[8..12] == 70032u32.to_le_bytes()
    );
}
