//! Slips of the hand, half-restored files, links in the way: nothing goes early and nothing is lost.
mod common;
use common::{command, command_on, folder, plain_frame, ran, Folder, Ran};
use std::fs::{self, File, Permissions};
use std::os::unix::fs::{chown, symlink, MetadataExt, PermissionsExt};
use std::process::Command;
use std::thread;
use std::time::{Duration, Instant};

/// The three files of holding `a`.
fn files(f: &Folder) -> [Option<Vec<u8>>; 3] {
    ["a.held", "a.ledger", "a.sha256"].map(|name| fs::read(f.join(name)).ok())
}

/// A run that must end with this status, leave the holding as it is and say this.
fn unchanged(f: &Folder, words: &str, status: i32, part: &str) -> Ran {
    let before = files(f);
    let ran = f.run(words);
    assert!(ran.status == Some(status) && ran.err.contains(part), "{words}: {ran:?}");
    assert_eq!(files(f), before, "{words}");
    ran
}

#[test]
fn a_keep_date_is_shortened_only_where_that_is_said() {
    let f = folder();
    f.hold("1", 0);
    unchanged(&f, "keep a 0031-11-02", 1, "a: 0031-11-02 is before today, 2026-11-16. Nothing was changed.");
    unchanged(&f, "keep a 2026-11-15", 1, "give --shorten");
    assert_eq!(f.done("keep a 2040-01-01"), "a: line 1: kept until 2040-01-01 (no date before)\n");
    let said = "a: 2027-01-01 is before 2040-01-01, until which it is kept. Nothing was changed.";
    unchanged(&f, "keep a 2027-01-01", 1, said);
    let said = f.done("keep a 2027-01-01 --shorten");
    assert_eq!(said, "a: line 2: kept until 2027-01-01 (was 2040-01-01)\n");
    assert_eq!(f.done("keep a 2027-01-01"), "a: line 3: kept until 2027-01-01 (was 2027-01-01)\n");
    let json = f.done("keep a 2028-02-29 --json");
    assert!(json.ends_with("\"former\":\"2027-01-01\"}\n"), "{json}");
    unchanged(&f, "keep a 2023-02-29", 1, "refusal 25");
    assert_eq!(f.done("keep a 0031-11-02 --shorten"), "a: line 5: kept until 0031-11-02 (was 2028-02-29)\n");
    let said = "a: line 6 withdraws line 5: kept until 0031-11-02; now kept until 2028-02-29\n";
    assert_eq!(f.done("withdraw a"), said);
    unchanged(&f, "keep a 2028-02-28", 1, "before 2028-02-29, until which");
}

/// A holding of two lines with the record of its second one put back.
fn with_old_record(f: &Folder) -> Vec<u8> {
    f.hold("1", 100);
    f.done("correct a 1 1");
    let killed = |at: &str| {
        let mut run = command();
        run.args(["correct", "a", "2", "2"]).current_dir(f.path()).env("FAULT", "after").env("FAULT_AT", at);
        run.output().unwrap()
    };
    killed("rename a.redo");
    f.get("a.redo")
}

#[test]
fn an_old_record_put_back_changes_nothing() {
    let f = folder();
    let record = with_old_record(&f);
    assert!(f.run("list a").err.contains("a change that had been interrupted is finished"));
    f.done("keep a 2040-01-01");
    f.done("correct a 3 3");
    f.put("a.redo", &record);
    let said =
        "a.redo: is the record of a change to another state than that of a.ledger: the record is older, it makes \
                line 2 and the ledger has 4. Nothing was changed or deleted.";
    let changes = ["keep a 2041-01-01", "withdraw a", "correct a 4 4", "amend a 4", "compact a"];
    let questions = ["list a", "verify a", "may-purge a 2041-01-01", "why a --day 2041-01-01", "why a --pixel 3"];
    for words in questions.into_iter().chain(changes) {
        unchanged(&f, words, 4, said);
        assert_eq!(f.get("a.redo"), record);
    }
    let before = files(&f);
    let swept = f.run_on("2050-01-01", "sweep . --delete");
    assert!(swept.status == Some(4) && swept.out.contains("the record is older"), "{swept:?}");
    assert_eq!(files(&f), before);
    fs::remove_file(f.join("a.redo")).unwrap();
    assert_eq!(f.done("verify a"), "a: held frame, ledger and sums agree, 4 lines, 4 standing\n");
}

#[test]
fn a_record_beside_files_of_another_state_changes_nothing() {
    let f = folder();
    let record = with_old_record(&f);
    let (held, ledger) = (f.get("a.held"), f.get("a.ledger"));
    f.put("a.ledger", "");
    unchanged(
        &f,
        "list a",
        4,
        "than that of a.ledger: the ledger is older, it has 0 lines and the record makes line 2",
    );
    f.put("a.ledger", ledger);
    f.put("a.held", &held[..100]);
    unchanged(&f, "list a", 4, "another state than that of a.held: by their times the record is older, 20");
    fs::remove_file(f.join("a.held")).unwrap();
    let ran = f.run("keep a 2040-01-01");
    assert!(ran.status == Some(4) && ran.err.contains("than that of a.held: a.held is missing"), "{ran:?}");
    assert_eq!(f.get("a.redo"), record);
}

#[test]
fn a_record_of_an_earlier_version_is_not_used() {
    let f = folder();
    f.hold("1", 100);
    f.put("a.redo", [b"quayrudder redo 1\n".as_slice(), &[0; 20]].concat());
    unchanged(&f, "list a", 4, "a.redo: is the record of an earlier version of this command");
}

#[test]
fn the_last_record_put_back_is_done_again_and_changes_nothing() {
    let f = folder();
    let record = with_old_record(&f);
    f.run("list a");
    let before = files(&f);
    f.put("a.redo", record);
    assert_eq!(f.run("list a").status, Some(0));
    assert!(files(&f) == before && !f.has("a.redo"));
}

#[test]
fn a_question_leaves_the_lock_file_to_its_owner() {
    let f = folder();
    f.hold("1", 0);
    let lock = File::options().append(true).open(f.join("a.lock")).unwrap();
    lock.lock().unwrap();
    let mut question = command();
    let asking =
        question.args(["list", "a"]).current_dir(f.path()).stderr(std::process::Stdio::piped()).spawn().unwrap();
    thread::sleep(Duration::from_millis(200));
    for ending in ["held", "ledger", "sha256"] {
        let _ = fs::remove_file(f.join(&format!("a.{ending}")));
    }
    drop(lock);
    let said = ran(asking.wait_with_output().unwrap());
    assert!(said.err.contains("a.ledger: cannot ") && f.has("a.lock"), "{said:?}");
}

#[test]
fn a_lock_held_for_long_is_said_and_does_not_stop_the_sweep() {
    let f = folder();
    f.hold("1", 0);
    f.done("keep a 2031-11-02");
    f.done("open a.sfrm --form 1 -o b");
    f.done("keep b 2031-11-02");
    let lock = File::options().append(true).open(f.join("a.lock")).unwrap();
    lock.lock().unwrap();
    let (start, words) = (Instant::now(), "sweep . --delete --wait 1");
    let swept = f.run_on("2031-11-03", words);
    let by = format!("in use by process {}", std::process::id());
    assert!(swept.status == Some(3) && swept.out.contains(&format!("failed        ./a  {by}\n")), "{swept:?}");
    assert!(
        swept.out.contains("deleted       ./b  line 1 kept it until 2031-11-02\n")
            && start.elapsed() < Duration::from_secs(8)
    );
    assert!(f.has("a.held") && !f.has("b.held"));
    let reasons = ["why a --day 2031-11-03 --wait 0", "why a --pixel 1 --wait 0", "why a --pixel 0,1 --wait 0"];
    for words in ["correct a 1 1 --wait 0", "list a --wait 0", "verify . --wait 0"].into_iter().chain(reasons) {
        let ran = f.run(words);
        assert!(ran.status == Some(3) && ran.err.contains(&format!("a.lock: {by}")), "{words}: {ran:?}");
    }
    let json = f.run("list a --wait 0 --json");
    assert!(json.out.contains(&format!(r#""failed":"{by}""#)), "{json:?}");
}

#[test]
fn nothing_is_written_through_a_link() {
    let f = folder();
    f.hold("1", 0);
    let traps = ["a.held.tmp", "a.ledger.tmp", "a.redo.tmp", "out.npy.tmp", "b.held.tmp"];
    f.put("victim", "precious");
    traps.iter().for_each(|name| symlink("victim", f.join(name)).unwrap());
    f.done("correct a 1 1");
    f.done("expand a.held -o out.npy");
    f.done("open a.sfrm --form 1 -o b");
    f.put("counts.npy.tmp", "my own");
    f.done("expand a.held -o counts.npy");
    assert_eq!((f.get("victim"), f.get("counts.npy.tmp")), (b"precious".to_vec(), b"my own".to_vec()));
    fs::remove_file(f.join("a.lock")).unwrap();
    symlink("elsewhere", f.join("a.lock")).unwrap();
    let ran = f.run("correct a 2 2");
    assert!(ran.status == Some(3) && ran.err.contains("a.lock: cannot open it") && !f.has("elsewhere"), "{ran:?}");
}

#[test]
fn a_question_overtaken_by_a_change_and_a_purge_finds_nothing() {
    let f = folder();
    f.hold("1", 100);
    f.done("correct a 1 1");
    fs::remove_file(f.join("a.lock")).unwrap();
    let quayrudder = env!("CARGO_BIN_EXE_quayrudder");
    let meanwhile = format!(
        "case \"$CALL\" in 'open a.ledger') {quayrudder} withdraw a && {quayrudder} keep a 2020-01-01 --shorten;; \
         'open a.sha256') {quayrudder} sweep . --delete;; esac > /dev/null 2>&1 || true"
    );
    let mut question = command();
    let asked = question.args(["verify", "a"]).current_dir(f.path()).env("FAULT_RUN", meanwhile).output().unwrap();
    let said = ran(asked);
    assert!(said.status == Some(3) && said.err.contains("a.ledger: cannot find it") && !f.has("a.held"), "{said:?}");
}

/// A run with somebody else's file put in the way just before a call.
fn meanwhile(f: &Folder, words: &str, call: &str) -> Ran {
    let mut run = command();
    run.args(words.split(' ')).current_dir(f.path()).env("FAULT_RUN_AT", call);
    let name = call.strip_prefix("rename ").unwrap();
    ran(run.env("FAULT_RUN", format!("echo -n theirs > {name}")).output().unwrap())
}

#[test]
fn an_output_that_came_meanwhile_is_kept() {
    let f = folder();
    f.put("a.sfrm", plain_frame());
    let outputs =
        [("expand a.sfrm -o a.npy", "a.npy"), ("view a.sfrm -o a.png", "a.png"), ("report . -o r.html", "r.html")];
    for (words, out) in outputs {
        let ran = meanwhile(&f, words, &format!("rename {out}"));
        assert!(ran.status == Some(1) && ran.err.contains("has come meanwhile and is kept"), "{ran:?}");
        assert_eq!(f.get(out), b"theirs");
    }
    for theirs in ["h.held", "h.ledger", "h.sha256"] {
        let ran = meanwhile(&f, "open a.sfrm --form 1 -o h", &format!("rename {theirs}"));
        assert!(ran.status == Some(1) && f.get(theirs) == b"theirs", "{ran:?}");
        let own: Vec<String> = f.names().into_iter().filter(|name| name.contains("h.")).collect();
        assert!(own.iter().all(|name| name == theirs || name == "h.lock"), "{own:?}");
        fs::remove_file(f.join(theirs)).unwrap();
    }
    assert!(f.names().iter().all(|name| !name.ends_with(".quayrudder")), "{:?}", f.names());
}

#[test]
fn a_file_system_without_such_a_rename_overwrites_nothing_either() {
    let f = folder();
    f.put("a.sfrm", plain_frame());
    let run = |day: &str, words: &str| {
        let mut run = command_on(day);
        run.args(words.split(' ')).current_dir(f.path()).env("FAULT_RENAMEAT2", "22");
        ran(run.output().unwrap())
    };
    for words in ["open a.sfrm --form 1 -o a", "expand a.sfrm -o a.npy", "keep a 2031-11-02"] {
        assert_eq!(run(common::TODAY, words).status, Some(0), "{words}");
    }
    let mut late = command();
    late.args(["expand", "a.sfrm", "-o", "b.npy"]).current_dir(f.path()).env("FAULT_RENAMEAT2", "22");
    let late = late.env("FAULT_RUN_AT", "link b.npy").env("FAULT_RUN", "echo -n theirs > b.npy").output().unwrap();
    assert_eq!((late.status.code(), f.get("b.npy")), (Some(1), b"theirs".to_vec()));
    let moved = run("2031-11-03", "sweep . --into bin");
    assert!(moved.status == Some(0) && f.sums_hold("bin/a.sha256") && !f.has("a.held"), "{moved:?}");
    assert!(f.names().iter().all(|name| !name.ends_with(".quayrudder")), "{:?}", f.names());
}

#[test]
fn the_record_is_as_strict_as_the_stricter_file() {
    let f = folder();
    f.hold("1", 100);
    let mode = |name: &str| fs::metadata(f.join(name)).unwrap().permissions().mode() & 0o777;
    let set = |name: &str, mode: u32| fs::set_permissions(f.join(name), Permissions::from_mode(mode)).unwrap();
    set("a.held", 0o640);
    set("a.ledger", 0o604);
    set("a.sha256", 0o660);
    let mut run = command();
    run.args(["correct", "a", "1", "1"]).current_dir(f.path()).env("FAULT", "after").env("FAULT_AT", "rename a.redo");
    run.output().unwrap();
    assert_eq!((mode("a.redo"), mode("a.held")), (0o600, 0o640));
    assert!(f
        .names()
        .iter()
        .filter(|name| name.ends_with(".quayrudder"))
        .all(|name| mode(name) & 0o007 == 0 || name.contains("ledger")));
    f.run("list a");
    assert_eq!(["a.held", "a.ledger", "a.sha256"].map(mode), [0o640, 0o604, 0o660]);
}

#[test]
fn a_file_of_another_owner_stays_his() {
    let f = folder();
    f.hold("1", 100);
    let mine = fs::metadata(f.join("a.ledger")).unwrap().uid();
    if chown(f.join("a.held"), Some(1234), Some(1235)).is_err() {
        return;
    }
    f.done("correct a 1 1");
    let owner = |name: &str| fs::metadata(f.join(name)).map(|found| (found.uid(), found.gid())).unwrap();
    assert_eq!((owner("a.held"), owner("a.ledger").0), ((1234, 1235), mine));
}

#[test]
fn new_files_have_the_permissions_of_any_new_file() {
    let f = folder();
    f.put("a.sfrm", plain_frame());
    let mode = |name: &str| fs::metadata(f.join(name)).unwrap().permissions().mode() & 0o777;
    for (mask, expected) in [("022", 0o644), ("077", 0o600), ("002", 0o664)] {
        let quayrudder = env!("CARGO_BIN_EXE_quayrudder");
        let line = format!(
            "(umask {mask}; {quayrudder} open a.sfrm --form 1 -o h{mask}; {quayrudder} expand a.sfrm -o {mask}.npy) > /dev/null"
        );
        assert!(Command::new("sh").args(["-c", &line]).current_dir(f.path()).status().unwrap().success());
        let names =
            [format!("h{mask}.held"), format!("h{mask}.ledger"), format!("h{mask}.sha256"), format!("{mask}.npy")];
        assert_eq!(names.map(|name| mode(&name)), [expected; 4], "{mask}");
    }
}

#[test]
fn one_flipped_bit_is_found_and_said_of_which_file() {
    let f = folder();
    f.hold("1", 100);
    f.done("correct a 3 300");
    f.done("keep a 2031-11-02");
    assert!(f.sums_hold("a.sha256"));
    let (held, ledger) = (f.get("a.held"), f.get("a.ledger"));
    let flipped = |bytes: &[u8], place: usize| {
        let mut bytes = bytes.to_vec();
        bytes[place] ^= 1;
        bytes
    };
    f.put("a.held", flipped(&held, common::header::LENGTH + 7));
    for words in ["verify a", "correct a 1 1", "amend a 1", "keep a 2032-01-01", "withdraw a"] {
        unchanged(&f, words, 4, "a.held: differs from its sum in a.sha256. Restore the holding from its copy");
    }
    let swept = f.run_on("2031-11-03", "sweep . --delete");
    assert!(
        swept.status == Some(4) && swept.out.contains("a.held: differs from its sum") && f.has("a.held"),
        "{swept:?}"
    );
    f.put("a.ledger", flipped(&ledger, 12));
    unchanged(
        &f,
        "verify a",
        4,
        "a.held: differs from its sum in a.sha256, and so does a.ledger: these files are not of one",
    );
    f.put("a.held", &held);
    let reasons = ["why a --day 2031-11-03", "why a --pixel 1", "why a --pixel 0,1"];
    let others = ["verify a", "list a", "may-purge a 2031-11-03", "sweep . --day 2031-11-03"];
    for words in reasons.into_iter().chain(others) {
        let ran = f.run(words);
        assert!(ran.status == Some(4) && (ran.err + &ran.out).contains("a.ledger: differs from its sum"), "{words}");
    }
    f.put("a.ledger", &ledger);
    f.put("a.sha256", "nothing of the kind\n");
    unchanged(&f, "verify a", 4, "a.sha256: does not have the sums of this holding's files");
}

#[test]
fn opening_notes_the_sum_of_the_frame_that_came_in() {
    let f = folder();
    f.hold("1", 0);
    let came = Command::new("sha256sum").arg("a.sfrm").current_dir(f.path()).output().unwrap().stdout;
    let sums = String::from_utf8(f.get("a.sha256")).unwrap();
    assert!(sums.starts_with(&format!("# frame {}", String::from_utf8(came).unwrap())), "{sums}");
    f.done("correct a 1 1");
    let later = String::from_utf8(f.get("a.sha256")).unwrap();
    assert_eq!(sums.lines().next(), later.lines().next());
    assert!(sums != later && f.sums_hold("a.sha256"));
    let json = f.done("verify a --json");
    assert!(json.contains(&format!(r#""sums":"agree","frame_sha256":"{}""#, &sums[8..72])), "{json}");
}

#[test]
fn a_holding_from_before_is_sealed_once_it_agrees() {
    let f = folder();
    f.hold("1", 100);
    f.done("correct a 1 1");
    f.without_sums("a");
    let said = "a: held frame and ledger agree, 1 lines, 1 standing; it has no sums: --seal makes them\n";
    assert_eq!((f.done("verify a").as_str(), f.has("a.sha256")), (said, false));
    f.done("correct a 2 2");
    assert!(!f.has("a.sha256"));
    assert_eq!(f.done("verify --seal a"), "a: held frame and ledger agree, 2 lines, 2 standing; sums made\n");
    assert!(f.sums_hold("a.sha256"));
    let sums = f.get("a.sha256");
    assert_eq!(f.done("verify --seal a"), "a: held frame, ledger and sums agree, 2 lines, 2 standing\n");
    assert_eq!(f.get("a.sha256"), sums);
    f.put("a.held", &f.get("a.held")[1..]);
    unchanged(&f, "verify --seal a", 4, "a.held: differs from its sum");
    f.without_sums("a");
    let ran = f.run("verify --seal a");
    assert!(ran.status == Some(4) && ran.err.contains("refusal 19") && !f.has("a.sha256"), "{ran:?}");
}

#[test]
fn a_whole_folder_is_verified_with_totals() {
    let f = folder();
    f.hold("1", 100);
    fs::create_dir(f.join("deep")).unwrap();
    for name in ["deep/b", "deep/c", "deep/d"] {
        f.done(&format!("open a.sfrm --form 2 -o {name}"));
    }
    f.without_sums("deep/b");
    f.put("deep/c.held", "damaged");
    fs::remove_file(f.join("deep/d.held")).unwrap();
    let ran = f.run("verify .");
    let totals = "3 holdings: 2 agree (1 without sums, 0 sums made), 1 damaged, 0 failed, 1 not a holding\n";
    assert!(ran.status == Some(4) && ran.out.ends_with(totals), "{ran:?}");
    assert_eq!(ran.out.lines().next(), Some("./a: held frame, ledger and sums agree, 0 lines, 0 standing"));
    assert!(ran.err.contains("./deep/c.held: differs from its sum"), "{ran:?}");
    let json = f.run("verify . --seal --json").out;
    let totals: serde_json::Value = serde_json::from_str(json.lines().last().unwrap()).unwrap();
    assert_eq!((&totals["totals"]["agree"], &totals["totals"]["sums_made"]), (&2.into(), &1.into()), "{json}");
    assert!(f.sums_hold("deep/b.sha256"));
    let ran = f.run("verify nosuch");
    assert!(ran.status == Some(3) && ran.err.contains("nosuch.ledger: cannot find it"), "{ran:?}");
}

#[test]
fn bad_usage_obeys_json() {
    let f = folder();
    for words in
        ["--json nonsense", "keep a 11/02/2031 --json", "sweep --json", "expand a -o a.txt --json", "list a/ --json"]
    {
        let ran = f.run(words);
        let value: serde_json::Value = serde_json::from_str(&ran.out).unwrap();
        assert!(ran.status == Some(2) && value["usage"].is_string() && ran.err.is_empty(), "{words}: {ran:?}");
    }
    let ran = f.run("keep a 11/02/2031");
    assert!(ran.status == Some(2) && ran.out.is_empty() && ran.err.starts_with("error: "), "{ran:?}");
}

#[test]
fn no_and_damaged_have_different_statuses() {
    let f = folder();
    f.hold("1", 0);
    f.done("keep a 2031-11-02");
    let status = |words: &str| f.run(words).status;
    assert_eq!(status("may-purge a 2031-11-02"), Some(1));
    assert_eq!(status("correct a 99 1"), Some(1));
    assert_eq!(status("open a.sfrm --form 1 -o a"), Some(1));
    f.without_sums("a");
    f.put("a.ledger", [0xff; 16]);
    for words in ["may-purge a 2031-11-03", "list a", "verify a", "sweep . --day 2031-11-03", "keep a 2040-01-01"] {
        assert_eq!(status(words), Some(4), "{words}");
    }
    f.put("a.sfrm", "no frame");
    assert_eq!(status("info a.sfrm"), Some(4));
    let help = f.done("--help");
    assert!(help.contains("4  a frame, a ledger or a holding is refused or damaged"), "{help}");
}

#[test]
fn the_day_may_be_left_out_and_is_then_today() {
    let f = folder();
    f.hold("1", 0);
    f.done("keep a 2031-11-02");
    let asked = |day: &str| ran(command_on(day).args(["sweep", "."]).current_dir(f.path()).output().unwrap()).out;
    assert!(asked("2031-11-02").starts_with("not yet ") && asked("2031-11-03").starts_with("yes "));
}
