//! A tier divided among machines: the parts are the whole, and their totals add up to those of one run.
mod common;
use common::{command_on, folder, ran, Folder, Ran, DUE};
use serde_json::Value;
use std::collections::BTreeSet;
use std::fs;
use std::io::Write;
use std::process::Stdio;

/// A ledger line: kept until 2031-11-02.
const KEPT: [u8; 16] = [0x5f, 0xbe, 0xc4, 0, 0, 0, 0, 0, 0, 0, 0, 0, 0, 0, 0, 0];

/// Below `folder`: due, without a date, malformed, half of them damaged; strangers, and what killed processes left.
fn tier(f: &Folder, folder: &str) {
    if !f.has("a.held") {
        f.hold("1", 0);
    }
    let frame = f.get("a.held");
    fs::create_dir_all(f.join(folder).join("2021/deep")).unwrap();
    let put = |name: &str, bytes: &[u8]| fs::write(f.join(folder).join(name), bytes).unwrap();
    for number in 0..40 {
        let name = format!("{}h{number}", ["", "2021/", "2021/deep/"][number % 3]);
        put(&format!("{name}.held"), if number % 2 == 0 { &frame } else { b"damaged" });
        let ledger: &[u8] = if number % 5 == 0 { &[] } else { &KEPT };
        put(&format!("{name}.ledger"), if number % 7 == 0 { &ledger[..ledger.len().min(15)] } else { ledger });
        put(&format!("left{number}.lock"), b"quayrudder 4711\n");
        put(&format!(".left{number}.held.0123456789ab.quayrudder"), b"frame");
        put(&format!("accounts{number}.ledger"), b"Assets:Bank 100 EUR");
    }
}

/// One run and its JSON lines: those about single things, and the totals.
struct Said {
    status: Option<i32>,
    lines: Vec<String>,
    totals: String,
}

fn said(ran: Ran) -> Said {
    let mut lines: Vec<String> = ran.out.lines().map(str::to_string).collect();
    let totals = lines.pop().unwrap();
    assert!(totals.starts_with(r#"{"totals":{"#), "{totals}");
    Said { status: ran.status, lines, totals }
}

/// Runs all shards of a command, leaves what each says in `K.json`, and gives it.
fn divided(f: &Folder, words: &str, of: u32) -> Vec<Said> {
    let shard = |number: u32| {
        let ran = f.run_on(DUE, &format!("{words} --shard {number}/{of} --json"));
        f.put(&format!("{number}.json"), &ran.out);
        said(ran)
    };
    (1..=of).map(shard).collect()
}

fn files(of: u32) -> String {
    (1..=of).map(|number| format!(" {number}.json")).collect()
}

#[test]
fn shards_are_a_partition_and_add_up_to_one_plain_run() {
    let f = folder();
    tier(&f, "tier");
    for words in ["sweep tier --day 2031-11-03", "sweep tier --day 2031-11-02", "verify tier"] {
        let plain = said(f.run_on(DUE, &format!("{words} --json")));
        let shards = divided(&f, words, 4);
        let mut lines: Vec<&String> = shards.iter().flat_map(|shard| &shard.lines).collect();
        lines.sort();
        let mut expected: Vec<&String> = plain.lines.iter().collect();
        expected.sort();
        assert_eq!(lines, expected, "{words}");
        assert!(shards.iter().all(|shard| shard.lines.len() > 3), "{words}");
        let total = f.run(&format!("total --json{}", files(4)));
        assert_eq!((total.status, total.out.trim_end(), total.err.as_str()), (plain.status, &*plain.totals, ""));
        let (text, total) = (f.run_on(DUE, words).out, f.run(&format!("total{}", files(4))).out);
        assert_eq!(text.lines().last(), total.lines().next(), "{words}");
    }
}

#[test]
fn a_shard_is_the_same_from_another_mount_point() {
    let f = folder();
    for place in ["here", "deep/mounted/there"] {
        tier(&f, place);
    }
    let names = |folder: &str, shard: &str| -> BTreeSet<String> {
        let out = f.run_on(DUE, &format!("sweep {folder} --day {DUE} --json --shard {shard}")).out;
        let name = |line: &str| serde_json::from_str::<Value>(line).unwrap()["name"].as_str().map(str::to_string);
        let below = |name: String| name.replace("/./", "/").rsplit_once("here/").unwrap().1.to_string();
        out.lines().filter_map(name).map(below).collect()
    };
    let here = names("here", "2/3");
    assert!(here.len() > 10, "{here:?}");
    for folder in ["deep/mounted/there", "here/", "here/.", "./here", f.join("here").to_str().unwrap()] {
        assert_eq!(names(folder, "2/3"), here, "{folder}");
    }
    // The first 16 digits of the path's SHA-256, by Debian's own program, modulo 3.
    let sum = |name: &str| {
        f.put("name", name);
        let ran = std::process::Command::new("sha256sum").arg(f.join("name")).output().unwrap();
        u64::from_str_radix(&String::from_utf8(ran.stdout).unwrap()[..16], 16).unwrap()
    };
    assert!(here.iter().all(|name| sum(name) % 3 == 1), "{here:?}");
}

#[test]
fn a_shard_that_is_none_is_bad_usage() {
    let f = folder();
    tier(&f, "tier");
    for shard in ["0/4", "5/4", "1/0", "0/0", "1/65536", "1", "/", "1/", "/4", "1/4/4", "a/4", "+1/4", "-1/4", "1 /4"] {
        for command in ["sweep", "verify"] {
            let mut run = command_on(DUE);
            let ran =
                ran(run.args([command, "tier", &format!("--shard={shard}")]).current_dir(f.path()).output().unwrap());
            assert!(ran.status == Some(2) && ran.err.contains("3/8 is the third of eight"), "{shard}: {ran:?}");
        }
    }
    assert!(f.run("verify tier --shard 65535/65535").out.starts_with("0 holdings: "));
    let ran = f.run("verify tier/h1 --shard 1/2");
    assert!(ran.status == Some(2) && ran.err.contains("--shard divides folders, and `tier/h1` is none"), "{ran:?}");
    assert_eq!(f.run("verify nosuch --shard 1/2").status, Some(2));
}

#[test]
fn a_shard_takes_away_and_clears_only_what_is_its_own() {
    let f = folder();
    tier(&f, "tier");
    let names = || -> BTreeSet<String> {
        let entries = walkdir::WalkDir::new(f.join("tier")).into_iter().map(|entry| entry.unwrap());
        entries.map(|entry| entry.file_name().to_string_lossy().into_owned()).collect()
    };
    let plain = f.run_on(DUE, "sweep tier").out;
    let due = plain.lines().filter(|line| line.starts_with("yes ")).count();
    let left = |names: &BTreeSet<String>| names.iter().filter(|name| name.contains("left")).count();
    let mut deleted = 0;
    for (number, how) in [(1, "--delete"), (2, "--into bin"), (3, "--delete")] {
        let before = names();
        let out = f.run_on(DUE, &format!("sweep tier {how} --shard {number}/3")).out;
        let gone = out.lines().filter(|line| line.starts_with("deleted ") || line.starts_with("moved ")).count();
        let log = fs::read_to_string(f.join(&format!("tier/quayrudder-purge.{number}-of-3.log"))).unwrap();
        let logged = log.lines().filter(|line| line.ends_with(": deleted") || line.ends_with(": moved")).count();
        assert!(gone == logged && 0 < gone && gone < due, "{out}");
        let cleared = left(&before) - left(&names());
        assert!(0 < cleared && cleared < 80 && cleared % 2 == 0, "{cleared}");
        deleted += gone;
    }
    assert_eq!((deleted, left(&names()), f.has("tier/quayrudder-purge.log")), (due, 0, false));
}

#[test]
fn shards_that_delete_at_once_delete_all_and_nothing_twice() {
    let f = folder();
    tier(&f, "tier");
    let start = |number: u32| {
        let mut sweep = command_on(DUE);
        sweep.args(["sweep", "tier", "--delete", "--json", &format!("--shard={number}/3")]);
        sweep.current_dir(f.path()).stdout(Stdio::piped()).stderr(Stdio::piped()).spawn().unwrap()
    };
    let running: Vec<_> = (1..=3).map(start).collect();
    for (number, sweep) in (1..).zip(running) {
        let ran = ran(sweep.wait_with_output().unwrap());
        assert_eq!(ran.err, "");
        f.put(&format!("{number}.json"), ran.out);
    }
    let total = f.run(&format!("total{}", files(3)));
    let gone =
        "80 ledgers: 0 yes, 28 deleted, 0 moved, 0 not yet, 8 no keep line, 4 refused, 0 failed, 40 not a holding\n";
    assert_eq!((total.status, total.out.as_str(), total.err.as_str()), (Some(4), gone, ""));
    assert!(!f.run_on(DUE, "sweep tier").out.contains("yes  "));
}

/// Totals as a run of `verify` writes them.
fn verified(shard: &str, met: u32, unread: u32, status: u32) -> String {
    format!(
        r#"{{"totals":{{"holdings":2,"agree":2,"without_sums":0,"sums_made":0,"damaged":0,"failed":0,"not_a_holding":0}},"command":"verify","shard":"{shard}","met":{met},"unread":{unread},"status":{status}}}"#
    ) + "\n"
}

const LINE: &str = "{\"name\":\"tier/a\",\"agree\":true}\n";

/// `total` ends with this status, says these sentences on standard error, and this on standard output.
fn totalled(f: &Folder, files: &str, status: i32, sentences: &[&str], out: &str) {
    let ran = f.run(&format!("total {files}"));
    let err: String = sentences.iter().map(|sentence| format!("quayrudder: {sentence}\n")).collect();
    assert_eq!((ran.status, ran.err, ran.out), (Some(status), err, out.to_string()), "{files}");
}

#[test]
fn shards_that_are_missing_or_came_twice_are_named() {
    let f = folder();
    for number in [1, 2, 6, 8] {
        f.put(&format!("{number}.json"), LINE.to_owned() + &verified(&format!("{number}/8"), 9, 0, 0));
    }
    let missing = "--shard: missing are 3-5, 7 of 8. Run them, and give what they write too";
    let sum =
        "8 holdings: 8 agree (0 without sums, 0 sums made), 0 damaged, 0 failed, 0 not a holding; 4 of 8 shards\n";
    totalled(&f, "1.json 8.json 2.json 6.json", 1, &[missing], sum);
    let json = f.run("total --json 1.json 8.json 2.json 6.json").out;
    let sum: Value = serde_json::from_str(json.lines().last().unwrap()).unwrap();
    assert_eq!((&sum["missing"], &sum["shard"]), (&serde_json::json!([3, 4, 5, 7]), &Value::Null));
    assert!(json.starts_with(r#"{"file":"--shard","declined":"missing are 3-5, 7 of 8."#), "{json}");
    f.put("again.json", verified("2/8", 9, 0, 0) + &verified("6/8", 9, 0, 4));
    let twice = |line: u32, number: u32| {
        format!("again.json: line {line} is of shard {number}/8, as is line 2 of {number}.json. Give each shard once")
    };
    totalled(&f, "1.json 2.json 6.json again.json", 1, &[&twice(1, 2), &twice(2, 6)], "");
}

#[test]
fn totals_of_different_questions_are_not_added_up() {
    let f = folder();
    tier(&f, "tier");
    let run =
        |file: &str, words: &str| f.put(file, f.run_on(DUE, &format!("{words} --json")).out.lines().last().unwrap());
    run("a", "verify tier --shard 1/2");
    run("b", "sweep tier --shard 2/2");
    run("c", "sweep tier --shard 1/2 --day 2031-11-02");
    run("d", "verify tier --shard 2/3");
    run("e", "verify tier");
    let differ = |file: &str, this: &str, that: &str| {
        format!("{file}: line 1 is of {this}, and line 1 of {that}. Totals of different questions have no sum")
    };
    let (verify, sweep) = ("`verify` in 2 shards", "`sweep` for 2031-11-03 in 2 shards");
    totalled(&f, "a b", 1, &[&differ("b", sweep, &format!("a of {verify}"))], "");
    let earlier = "`sweep` for 2031-11-02 in 2 shards";
    totalled(&f, "b c", 1, &[&differ("c", earlier, &format!("b of {sweep}"))], "");
    totalled(&f, "a d", 1, &[&differ("d", "`verify` in 3 shards", &format!("a of {verify}"))], "");
    totalled(&f, "a e", 1, &[&differ("e", "`verify` undivided", &format!("a of {verify}"))], "");
}

#[test]
fn a_run_cut_short_is_said() {
    let f = folder();
    f.put("1.json", LINE.to_owned() + &verified("1/2", 9, 0, 0));
    f.put("2.json", LINE.repeat(3));
    f.put("empty.json", "");
    f.put("after.json", verified("2/2", 9, 0, 0) + LINE + "\n");
    let cut = |file: &str| format!("{file}: does not end with totals: the run did not end. Run its shard again");
    let missing = "--shard: missing are 2 of 2. Run them, and give what they write too";
    let part =
        "2 holdings: 2 agree (0 without sums, 0 sums made), 0 damaged, 0 failed, 0 not a holding; 1 of 2 shards\n";
    let whole = "4 holdings: 4 agree (0 without sums, 0 sums made), 0 damaged, 0 failed, 0 not a holding\n";
    totalled(&f, "1.json 2.json", 1, &[&cut("2.json"), missing], part);
    totalled(&f, "empty.json", 1, &[&cut("empty.json")], "");
    totalled(&f, "1.json after.json", 1, &[&cut("after.json")], whole);
    f.put("torn.json", LINE.to_owned() + &verified("2/2", 9, 0, 0)[..100]);
    let torn = "torn.json: line 2 breaks off: the run was cut short there. Run its shard again";
    totalled(&f, "torn.json 1.json", 1, &[torn, missing], part);
    // Another machine's run behind it counts.
    f.put("torn.json", LINE[..20].to_owned() + LINE + &verified("2/2", 9, 0, 0));
    let torn = "torn.json: line 1 is no JSON from column 23 on. Give what `--json` writes, as it is";
    totalled(&f, "torn.json 1.json", 1, &[torn], whole);
    totalled(&f, "nosuch", 3, &["nosuch: cannot open it: No such file or directory (os error 2)"], "");
}

#[test]
fn totals_that_are_not_the_commands_are_not_taken() {
    let f = folder();
    let good = verified("1/1", 9, 0, 0);
    let wrong = [
        good.replace("\"holdings\":2", "\"holdings\":-2"),
        good.replace("\"agree\":2", "\"agree\":2,\"more\":1"),
        good.replace("\"agree\":2,", ""),
        good.replace("verify", "list"),
        good.replace("\"verify\"", "\"sweep\",\"day\":\"2031-11-03\""),
        good.replace("1/1", "2/1"),
        good.replace("\"status\":0", "\"status\":5"),
        good.replace(",\"met\":9", ""),
    ];
    for text in wrong {
        f.put("a", format!("{LINE}{text}"));
        totalled(&f, "a", 1, &["a: line 2 has totals that no `sweep` or `verify` of this version writes"], "");
    }
    let most = verified("1/2", 9, 0, 0).replace("\"agree\":2", &format!("\"agree\":{}", u64::MAX));
    f.put("a", most + &verified("2/2", 9, 0, 0));
    totalled(&f, "a", 1, &["a: line 2 has counts that are too large to be added up"], "");
}

#[test]
fn the_gravest_status_counts_and_standard_input_has_many_runs() {
    let f = folder();
    let sum = "6 holdings: 6 agree (0 without sums, 0 sums made), 0 damaged, 0 failed, 0 not a holding\n";
    for status in [0, 3, 4] {
        let runs = [verified("3/3", 9, 0, 0), verified("1/3", 9, 0, status), verified("2/3", 9, 0, 0)];
        let mut total = command_on(DUE);
        let piped = total.args(["total", "-"]).stdin(Stdio::piped()).stdout(Stdio::piped()).stderr(Stdio::piped());
        let mut child = piped.current_dir(f.path()).spawn().unwrap();
        child.stdin.take().unwrap().write_all(runs.concat().as_bytes()).unwrap();
        let ran = ran(child.wait_with_output().unwrap());
        assert_eq!((ran.status, ran.out.as_str(), ran.err.as_str()), (Some(status as i32), sum, ""));
    }
}

#[test]
fn a_machine_that_does_not_see_the_whole_tier_is_named() {
    let f = folder();
    let sum = "4 holdings: 4 agree (0 without sums, 0 sums made), 0 damaged, 0 failed, 0 not a holding\n";
    f.put("a", verified("1/2", 9, 0, 0) + &verified("2/2", 0, 0, 0));
    let unmounted = "--shard: no ledger was met by 2 of 2. Others met some: is the tier mounted there? Run them again";
    totalled(&f, "a", 1, &[unmounted], sum);
    f.put("a", verified("1/2", 9, 1, 3) + &verified("2/2", 9, 0, 0));
    let unread = "--shard: folders could not be read by 1 of 2. What they have there is not counted";
    totalled(&f, "a", 3, &[unread], sum);
    // A sweep that takes everything away leaves nothing for the last shard to meet.
    let swept = |shard: &str, met: u32, gone: &str| {
        let counts = r#""ledgers":3,"yes":0,"deleted":0,"moved":0,"not_yet":0,"no_keep_line":0,"refused":0,"failed":0,"not_a_holding":0"#;
        let counts = counts.replace(&format!(r#""{gone}":0"#), &format!(r#""{gone}":3"#));
        let rest =
            format!(r#""command":"sweep","day":"2031-11-03","shard":"{shard}","met":{met},"unread":0,"status":0"#);
        format!("{{\"totals\":{{{counts}}},{rest}}}\n")
    };
    for gone in ["deleted", "moved"] {
        f.put("a", swept("1/2", 3, gone) + &swept("2/2", 0, "not_yet"));
        assert_eq!(f.run("total a").status, Some(0), "{gone}");
    }
    f.put("a", swept("1/2", 3, "yes") + &swept("2/2", 0, "not_yet"));
    assert_eq!(f.run("total a").status, Some(1));
}

#[test]
fn a_folder_that_cannot_be_read_is_said_by_every_shard_and_counted_by_one() {
    let f = folder();
    tier(&f, "tier");
    let failing = |words: &str| {
        let mut run = command_on(DUE);
        run.args(words.split(' ')).current_dir(f.path()).env("FAULT_OPENDIR", "deep");
        ran(run.output().unwrap())
    };
    let plain = said(failing("verify tier --json"));
    let mut own = 0;
    for number in 1..=3 {
        let ran = failing(&format!("verify tier --json --shard {number}/3"));
        assert!(ran.out.starts_with(r#"{"file":"tier/2021/deep","failed":"#), "{ran:?}");
        f.put(&format!("{number}.json"), &ran.out);
        let totals: Value = serde_json::from_str(&said(ran).totals).unwrap();
        own += totals["totals"]["failed"].as_u64().unwrap();
        assert_eq!(totals["unread"], 1);
    }
    assert_eq!(own, 1);
    let total = f.run(&format!("total --json{}", files(3)));
    assert_eq!((total.status, total.out.lines().last()), (plain.status, Some(&*plain.totals)));
}
