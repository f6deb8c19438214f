//! Corrections from a table: each holding's rows in one change or none, an answer for each row, and the machine failing.
mod common;
use common::{command, faulty, folder, killed_in_turn, plain_frame, ran, state_of, Folder, Ran, State};
use serde_json::Value;
use std::fs;

const KILLS: [&str; 3] = ["before", "after", "torn"];
/// EIO, ENOSPC.
const ERRORS: [&str; 2] = ["5", "28"];

/// Holdings `a`, `b` and `c` of the plain frame, whose pixels are 60 to 75.
fn three() -> Folder {
    let f = folder();
    ["a", "b", "c"].iter().for_each(|name| f.put(&format!("{name}.sfrm"), plain_frame()));
    f.done("open a.sfrm b.sfrm c.sfrm --form 1+2 --room 0 -o .");
    f
}

fn ledger_lines(f: &Folder, name: &str) -> usize {
    f.get(&format!("{name}.ledger")).len() / 16
}

#[test]
fn a_table_is_made_and_each_row_answered() {
    let f = three();
    f.put("t.csv", "holding,row,column,count,who\na,0,1,300,anna\nb,3,3,0,anna\na.held,0,1,301,bert\n./a,1,0,90,\n");
    let ran = f.run("correct --from t.csv");
    let expected = "row 1: a: line 1: pixel 1 corrected from 61 to 300\n\
                    row 2: b: line 1: pixel 15 corrected from 75 to 0\n\
                    row 3: a: line 2: pixel 1 corrected from 300 to 301\n\
                    row 4: ./a: line 3: pixel 4 corrected from 64 to 90\n\
                    4 rows: 4 made, 0 already made, 0 not made, 0 refused, 0 declined, 0 damaged, 0 failed\n";
    assert_eq!((ran.status, ran.out.as_str()), (Some(0), expected));
    assert_eq!(ran.err, "quayrudder: t.csv: columns not used: who\n");
    assert_eq!((ledger_lines(&f, "a"), ledger_lines(&f, "b"), ledger_lines(&f, "c")), (3, 1, 0));
    assert!(f.done("verify a b c").lines().count() == 3 && f.sums_hold("a.sha256"));
}

#[test]
fn json_lines_and_standard_input_do_as_well() {
    let f = three();
    let table = "{\"holding\":\"a\",\"pixel\":1,\"count\":300}\n{\"count\":\"7\",\"row\":0,\"column\":2,\"holding\":\"a\",\"why\":0}\n";
    let ran = f.run_with("correct --from - --json", table.as_bytes());
    let said: Vec<Value> = ran.out.lines().map(|line| serde_json::from_str(line).unwrap()).collect();
    assert_eq!((ran.status, ran.err.as_str(), said.len()), (Some(0), "", 4));
    assert_eq!(said[0]["not_used"][0], "why");
    assert_eq!((&said[1]["row"], &said[1]["name"], &said[1]["appended"]["new"]), (&1.into(), &"a".into(), &300.into()));
    assert_eq!(
        (&said[2]["row"], &said[2]["appended"]["line"], &said[2]["appended"]["old"]),
        (&2.into(), &2.into(), &62.into())
    );
    assert_eq!((&said[3]["totals"]["rows"], &said[3]["totals"]["made"]), (&2.into(), &2.into()));
    assert_eq!(f.run("correct --from t.csv a 1 1").status, Some(2));
}

#[test]
fn one_bad_row_and_none_of_its_holding_is_made() {
    let f = three();
    let before = state_of(&f, "a");
    f.put("t.csv", "holding,pixel,count\na,1,300\nb,1,300\na,16,1\na,17,1\nc,2,x\nc,1,300\nnosuch,1,1\n,1,1\nb/,1,1\n");
    let ran = f.run("correct --from t.csv");
    let lines: Vec<&str> = ran.out.lines().collect();
    assert_eq!((ran.status, ran.err.as_str(), lines.len()), (Some(3), "", 10), "{ran:?}");
    assert_eq!(lines[0], "row 1: a: not made: row 3 of this holding is refused");
    assert_eq!(lines[1], "row 2: b: line 1: pixel 1 corrected from 61 to 300");
    assert!(lines[2].starts_with("row 3: a.held: refusal 24: the frame has no such pixel"), "{}", lines[2]);
    assert!(lines[3].starts_with("row 4: a.held: refusal 24: "), "{}", lines[3]);
    assert_eq!(lines[4], "row 5: c: count `x` is no whole number from 0 to 4294967295");
    assert_eq!(lines[5], "row 6: c: not made: row 5 of this holding is refused");
    assert!(lines[6].starts_with("row 7: nosuch.ledger: cannot find it"), "{}", lines[6]);
    assert!(lines[7].ends_with("the row names no holding") && lines[8].starts_with("row 9: b/: "), "{lines:?}");
    assert_eq!(lines[9], "9 rows: 1 made, 0 already made, 2 not made, 2 refused, 3 declined, 0 damaged, 1 failed");
    assert_eq!((state_of(&f, "a"), ledger_lines(&f, "b"), ledger_lines(&f, "c")), (before, 1, 0));
    let json = f.run("correct --from t.csv --json").out;
    let said: Vec<Value> = json.lines().map(|line| serde_json::from_str(line).unwrap()).collect();
    assert_eq!((&said[2]["row"], &said[2]["name"], &said[2]["refusal"]), (&3.into(), &"a".into(), &24.into()));
    assert_eq!(said[0]["not_made"], "not made: row 3 of this holding is refused");
    assert_eq!((&said[1]["already_made"]["line"], &said[4]["row"]), (&1.into(), &5.into()));
}

#[test]
fn what_is_no_table_changes_nothing() {
    let f = three();
    let tables = [
        ("holding,count\na,1\n", "must name the columns holding, count, and pixel or row and column"),
        ("a,1,300\n", "is no table of corrections"),
        ("holding,pixel,pixel,count\na,1,1,300\n", "has the column pixel twice"),
        ("{\"holding\":\"a\",\"pixel\":1,\"count\":300}\n{\"holding\":\"b\",", "line 2 is no JSON"),
        ("", "is no table of corrections"),
    ];
    for (table, part) in tables {
        f.put("t.csv", table);
        let ran = f.run("correct --from t.csv");
        assert!(ran.status == Some(1) && ran.out.is_empty() && ran.err.contains(part), "{ran:?}");
        assert_eq!(ledger_lines(&f, "a"), 0);
    }
    assert_eq!(f.run("correct --from nosuch.csv").status, Some(3));
    f.put("t.csv", "holding,pixel,count\n");
    assert!(f.done("correct --from t.csv").starts_with("0 rows: 0 made"));
}

#[test]
fn a_table_given_again_is_not_made_again() {
    let f = three();
    f.put("t.csv", "holding,pixel,count\na,1,300\na,2,301\na,1,302\n");
    let words = "correct --from t.csv";
    let count = |word: &str| {
        let said = f.done(words);
        let totals = said.lines().last().unwrap().to_string();
        assert!(totals.contains(&format!(" 3 {word},")), "{said}");
        said
    };
    count("made");
    let again = count("already made");
    assert!(again.starts_with("row 1: a: already made, line 1: pixel 1 corrected from 61 to 300\n"), "{again}");
    f.done("keep a 2031-11-02");
    f.done("correct a 5 5");
    count("already made");
    assert_eq!(ledger_lines(&f, "a"), 5);
    // Another count for one of the pixels came later, so the table asks for something that is not so.
    f.done("correct a 2 7");
    count("made");
    assert_eq!(ledger_lines(&f, "a"), 9);
    // Withdrawn, the rows do not stand any more.
    f.done("withdraw a");
    count("made");
    assert!(f.done("verify a").contains("13 lines, 11 standing"));
    f.put("t.csv", "holding,pixel,count\na,2,301\na,1,302\n");
    assert!(f.done(words).contains(" 2 already made,"));
    f.put("t.csv", "holding,pixel,count\na,1,302\na,2,301\n");
    assert!(f.done(words).contains("2 rows: 2 made,"));
}

#[test]
fn the_rows_of_a_holding_are_one_change() {
    let f = three();
    f.put("t.csv", "holding,pixel,count\na,1,300\nb,1,1\n./a,2,70000\na.ledger,3,3\n");
    let log = f.join("log");
    let mut run = command();
    run.args(["correct", "--from", "t.csv"]).current_dir(f.path()).env("FAULT_LOG", &log).env("RAYON_NUM_THREADS", "1");
    assert_eq!(ran(run.output().unwrap()).status, Some(0));
    let text = fs::read_to_string(log).unwrap();
    for call in ["rename a.held", "rename a.ledger", "rename a.redo", "rename b.held"] {
        assert_eq!(text.lines().filter(|line| *line == call).count(), 1, "{call}");
    }
}

const TABLE: &str = "holding,pixel,count\na,1,300\na,2,70000\na,1,3\n";

/// A holding of one line and a table for it.
fn before(old: Option<&State>) -> Folder {
    let f = folder();
    f.put("t.csv", TABLE);
    match old {
        None => {
            f.hold("1+2", 0);
            f.done("correct a 9 9");
        }
        Some(old) => f.put_state("a", old),
    }
    f
}

/// After a fault the holding is as before or as after, as was said; and the table given again leaves each row made once.
fn check(f: &Folder, what: &str, ran: &Ran, old: &State, new: &State) {
    assert!([None, Some(0), Some(3)].contains(&ran.status), "{what}: {ran:?}");
    let next = f.run("verify a");
    let found = state_of(f, "a");
    assert!(next.status == Some(0) && (found == *old || found == *new), "{what}: {ran:?}, then {next:?}");
    let said = ran.out.clone() + &ran.err;
    if ran.status == Some(0) || said.contains("finishes it") || said.contains("is made") {
        assert_eq!(found, *new, "{what}: {ran:?}");
    } else if ran.status == Some(3) {
        assert!(found == *old && ran.out.matches(": cannot ").count() == 3, "{what}: {ran:?}");
    }
    let again = f.run("correct --from t.csv");
    let word = if found == *new { "3 already made" } else { "3 made" };
    assert!(again.status == Some(0) && again.out.contains(word) && state_of(f, "a") == *new, "{what}: {again:?}");
    f.done("keep a 2050-01-01");
    let belong = ["a.held", "a.ledger", "a.sha256", "a.lock", "a.sfrm", "t.csv", "mark"];
    let strays: Vec<String> = f.names().into_iter().filter(|name| !belong.contains(&name.as_str())).collect();
    assert!(strays.is_empty() && f.sums_hold("a.sha256"), "{what}: {strays:?}");
    assert_eq!(fs::metadata(f.join("a.lock")).unwrap().len(), 0, "{what}");
}

fn at_every_step(faults: &[&str]) {
    let done = before(None);
    let old = state_of(&done, "a");
    done.done("correct --from t.csv");
    let new = state_of(&done, "a");
    for fault in faults {
        let mut steps = 0;
        loop {
            let f = before(Some(&old));
            let mut run = command();
            run.args(["correct", "--from", "t.csv"]).current_dir(f.path());
            let Some(ran) = faulty(&f, run, fault, steps + 1) else { break };
            steps += 1;
            check(&f, &format!("{fault} at {steps}"), &ran, &old, &new);
        }
        assert!(steps >= 29, "only {steps} steps");
    }
}

#[test]
fn killed_at_every_step_of_a_table() {
    at_every_step(&KILLS);
}

#[test]
fn failed_at_every_step_of_a_table() {
    at_every_step(&ERRORS);
}

#[test]
fn a_table_goes_on_where_it_was_killed() {
    let f = folder();
    (0..40).for_each(|number| f.put_below(&format!("frames/h{number:02}.sfrm"), plain_frame()));
    f.done("open --below frames --form 1 --room 0 -o .");
    let row = |number: u32| format!("h{:02},{},{}\n", number % 40, number / 40, 300 + number);
    let rows: String = (0..120).map(row).collect();
    f.put("t.csv", format!("holding,pixel,count\n{rows}"));
    let calls = ["pwrite h00.lock", "rename h03.redo", "rename h07.held", "rename h10.sha256", "ftruncate h39.lock"];
    killed_in_turn(&f, "correct --from t.csv", &calls);
    let again = f.run("correct --from t.csv");
    assert_eq!((again.status, again.out.lines().count()), (Some(0), 121), "{again:?}");
    let numbers: Vec<usize> = again.out.lines().filter_map(row_number).collect();
    assert_eq!(numbers, (1..=120).collect::<Vec<usize>>());
    assert!(again.out.contains(": already made, line 1: pixel 0 corrected from 60 to 300\n"), "{}", again.out);
    (0..40).for_each(|number| assert_eq!(ledger_lines(&f, &format!("h{number:02}")), 3, "{number}"));
    let said = f.done("verify --below .");
    assert!(said.contains("40 holdings: 40 agree (0 without sums") && said.matches(" 3 standing").count() == 40);
}

fn row_number(line: &str) -> Option<usize> {
    line.strip_prefix("row ")?.split(':').next()?.parse().ok()
}
