//! The order of corrections, by the real command: the frame that they leave whatever the order, and what the order decides.
mod common;
use common::header::{Header, LENGTH};
use common::random::Random;
use common::{command, faulty, folder, frame, plain_frame, ran, state_of, unraw, wide_frame, Folder, Ran, State};
use std::collections::BTreeMap;
use std::path::Path;
use std::process::Command;
use std::thread;

/// A pixel's number and the count that it gets.
type Correction = (usize, u32);

/// A held file, and its sum as it is noted beside it.
type Held = (Vec<u8>, String);

const FORMS: [&str; 9] = ["1", "1+1", "1+2", "2", "2+1", "2+2", "4", "4+1", "4+2"];

/// Around the baseline of 32, and around what one byte and two bytes hold, with the baseline subtracted and without.
const EDGES: [u32; 15] = [0, 31, 32, 33, 254, 255, 256, 286, 287, 65534, 65535, 65536, 65566, 65567, u32::MAX];

/// Holding `a` in this form, with room for all that is done here.
fn opened(form: &str) -> State {
    let f = folder();
    f.hold(form, 4096);
    state_of(&f, "a")
}

/// A copy of holding `a`, in which these corrections are made.
fn corrected(start: &State, list: &[Correction]) -> Folder {
    let f = folder();
    f.put_state("a", start);
    correct(&f, list);
    f
}

/// Makes these corrections of `a`, one after the other.
fn correct(f: &Folder, list: &[Correction]) {
    list.iter().for_each(|(pixel, count)| drop(f.done(&format!("correct a {pixel} {count}"))));
}

/// A copy in which the corrections of a table are made.
fn tabled(start: &State, list: &[Correction]) -> Folder {
    let f = corrected(start, &[]);
    f.put("t.csv", table(list));
    let said = f.done("correct --from t.csv");
    assert!(said.contains(&format!("{0} rows: {0} made,", list.len())), "{said}");
    f
}

const HEADING: &str = "holding,pixel,count\n";

fn table(list: &[Correction]) -> String {
    HEADING.to_string() + &rows("a", list)
}

fn rows(name: &str, list: &[Correction]) -> String {
    list.iter().map(|(pixel, count)| format!("{name},{pixel},{count}\n")).collect()
}

fn held(f: &Folder, name: &str) -> Held {
    let sums = String::from_utf8(f.get(&format!("{name}.sha256"))).unwrap();
    let sum = sums.lines().find_map(|line| line.strip_suffix(".held")?.split(' ').next()).unwrap();
    (f.get(&format!("{name}.held")), sum.to_string())
}

fn as_opened(start: &State) -> Held {
    held(&corrected(start, &[]), "a")
}

fn listing(f: &Folder) -> String {
    f.done("list a")
}

/// Both copies have the same frame and note the same sum of it, and each is whole.
fn must_have_one_frame(one: &Folder, two: &Folder) {
    assert!(held(one, "a") == held(two, "a"), "other frames after\n{}and\n{}", listing(one), listing(two));
    [one, two].iter().for_each(|f| drop(f.done("verify a")));
}

/// Tries, in each form, each count at an edge with another one.
fn in_every_form(try_counts: impl Fn(&State, u32, u32)) {
    for form in FORMS {
        let start = opened(form);
        EDGES.iter().zip(EDGES.iter().cycle().skip(4)).for_each(|(one, other)| try_counts(&start, *one, *other));
    }
}

// What is the same in every order

#[test]
fn corrections_of_different_pixels_leave_one_frame_in_either_order() {
    in_every_form(|start, anna, bert| {
        let [one, two] = [[(3, anna), (12, bert)], [(12, bert), (3, anna)]].map(|list| corrected(start, &list));
        must_have_one_frame(&one, &two);
        let line = |number, pixel, new| format!("line {number} correct {pixel} {} {new}\n", 60 + pixel);
        assert_eq!(listing(&one), line(1, 3, anna) + &line(2, 12, bert) + "standing 2\n");
        assert_eq!(listing(&two), line(1, 12, bert) + &line(2, 3, anna) + "standing 2\n");
    });
}

#[test]
fn of_two_corrections_of_one_pixel_the_second_decides() {
    in_every_form(|start, first, second| {
        let both = corrected(start, &[(6, first), (6, second)]);
        must_have_one_frame(&both, &corrected(start, &[(6, second)]));
        let lines = format!("line 1 correct 6 66 {first}\nline 2 correct 6 {first} {second}\nstanding 2\n");
        assert_eq!(listing(&both), lines);
    });
}

#[test]
fn a_correction_to_the_count_that_is_there_leaves_the_frame_and_has_its_line() {
    for start in FORMS.map(opened) {
        let f = corrected(&start, &[(6, 66)]);
        assert!(held(&f, "a") == as_opened(&start));
        assert_eq!(listing(&f), "line 1 correct 6 66 66\nstanding 1\n");
    }
}

/// Every edge in turn, at pixels some of which come again.
fn edge_list() -> Vec<Correction> {
    EDGES.iter().enumerate().map(|(at, count)| (at * 5 % 7 * 2, *count)).collect()
}

#[test]
fn each_withdrawal_gives_back_the_frame_before_its_correction() {
    for start in FORMS.map(opened) {
        let f = corrected(&start, &[]);
        let frame_before = |correction: Correction| {
            let before = held(&f, "a");
            correct(&f, &[correction]);
            before
        };
        let frames: Vec<Held> = edge_list().into_iter().map(frame_before).collect();
        let gives_back = |before: &Held| {
            f.done("withdraw a");
            held(&f, "a") == *before
        };
        assert!(frames.iter().rev().all(gives_back), "{}", listing(&f));
        assert!(held(&f, "a") == as_opened(&start) && listing(&f).ends_with("line 30 withdraw\nstanding 0\n"));
    }
}

// Tables

#[test]
fn a_shuffled_table_leaves_the_frame_of_each_pixel_s_last_row() {
    let list = [(3, 300), (5, 70000), (3, 20), (9, 65535), (5, 255), (3, 287)];
    let others = [[(5, 70000), (9, 65535), (3, 20), (3, 300), (3, 287), (5, 255)].as_slice(), &list[3..]];
    for start in FORMS.map(opened) {
        let whole = tabled(&start, &list);
        must_have_one_frame(&whole, &corrected(&start, &list));
        others.iter().for_each(|other| must_have_one_frame(&whole, &tabled(&start, other)));
        let another_last = tabled(&start, &[list[3], list[5], list[4], list[2]]);
        assert!(held(&whole, "a") != held(&another_last, "a"));
    }
}

#[test]
fn a_table_that_names_a_pixel_twice_makes_both_rows_and_the_last_decides() {
    let start = opened("1+2");
    let f = corrected(&start, &[]);
    let said = "row 1: a: line 1: pixel 6 corrected from 66 to 90\nrow 2: a: line 2: pixel 9 corrected from 69 to 7\n\
                row 3: a: line 3: pixel 6 corrected from 90 to 95\n3 rows: 3 made, ";
    f.put("t.csv", "holding,pixel,row,column,count\na,6,,,90\na,,2,1,7\na,,1,2,95\n");
    assert!(f.done("correct --from t.csv").starts_with(said));
    assert!(f.done("why a --pixel 6").ends_with("by line 3\nline 3 correct 6 90 95\n"));
    must_have_one_frame(&f, &corrected(&start, &[(9, 7), (6, 95)]));
    assert!(f
        .done("correct --from t.csv")
        .ends_with("3 rows: 0 made, 3 already made, 0 not made, 0 refused, 0 declined, 0 damaged, 0 failed\n"));
    // In another order it is another table: its rows are made, and no count changes.
    f.put("t.csv", table(&[(6, 90), (6, 95), (9, 7)]));
    assert!(f.done("correct --from t.csv").contains("3 rows: 3 made, "));
    must_have_one_frame(&f, &corrected(&start, &[(9, 7), (6, 95)]));
}

#[test]
fn a_refused_row_holds_back_its_holding_wherever_it_stands() {
    let start = opened("1+2");
    for at in 0..3 {
        let f = corrected(&start, &[]);
        let mut list = vec![(3, 300), (12, 20)];
        list.insert(at, (16, 1));
        f.put("t.csv", table(&list));
        let ran = f.run("correct --from t.csv");
        let refused = format!("row {}: a.held: refusal 24: the frame has no such pixel.", at + 1);
        assert!(ran.status == Some(1) && ran.out.contains(&refused) && ran.out.contains(" 2 not made, 1 refused,"));
        assert_eq!(state_of(&f, "a"), start);
    }
}

// Two at once

/// Corrections of one technician's own pixels, the odd or the even ones; each pixel twice.
fn technician(f: &Folder, first: usize) {
    let list = (first..32).step_by(2).map(|step| (step % 16, EDGES[step % EDGES.len()]));
    list.for_each(|(pixel, count)| assert_eq!(f.run(&format!("correct a {pixel} {count}")).status, Some(0)));
}

#[test]
fn two_technicians_at_once_leave_the_frame_of_one_after_the_other() {
    let start = opened("1+2");
    let expected = corrected(&start, &[]);
    technician(&expected, 0);
    technician(&expected, 1);
    for _ in 0..4 {
        let f = corrected(&start, &[]);
        thread::scope(|scope| {
            scope.spawn(|| technician(&f, 0));
            scope.spawn(|| technician(&f, 1));
        });
        must_have_one_frame(&f, &expected);
        assert!(listing(&f).ends_with("standing 32\n"));
    }
}

#[test]
fn whoever_gets_the_lock_first_the_frame_is_the_same() {
    let start = opened("1+2");
    let anna_first = corrected(&start, &[(3, 70000), (12, 20)]);
    let f = corrected(&start, &[]);
    let bert = format!("{} correct a 12 20 > /dev/null", env!("CARGO_BIN_EXE_quayrudder"));
    let mut anna = command();
    anna.args(["correct", "a", "3", "70000"]).current_dir(f.path());
    let ran = ran(anna.env("FAULT_RUN_AT", "create a.lock").env("FAULT_RUN", bert).output().unwrap());
    assert_eq!((ran.status, ran.out.as_str()), (Some(0), "a: line 2: pixel 3 corrected from 63 to 70000\n"));
    must_have_one_frame(&f, &anna_first);
    assert!(f.get("a.ledger") != anna_first.get("a.ledger"));
}

// What is not accepted in every order

/// Pixel 0 is below the baseline, and the held file has no room at all.
fn tight() -> State {
    let f = folder();
    let counts: Vec<u32> = [20].into_iter().chain(61..76).collect();
    f.put("a.sfrm", wide_frame(4, 4, &counts));
    f.done("open a.sfrm --form 1+2 --room 0 -o a");
    state_of(&f, "a")
}

/// An entry less in the underflow table, which leaves it empty, and the first of the two-byte table: 16 bytes each.
const SHORTER: Correction = (0, 60);
const LONGER: Correction = (5, 300);

/// What the library makes of a held file lent with so many bytes more: each refusal, and the held bytes.
fn by_library(start: &State, more: usize, list: &[Correction]) -> (Vec<u32>, Vec<u8>) {
    let (mut held, mut ledger, mut lines) = (start[0].clone().unwrap(), [0; 32], 0);
    held.resize(held.len() + more, 0);
    let correct = |(pixel, count): &Correction| {
        let answer = quayrudder::correct(&mut held, &mut ledger, lines, *pixel as u64, *count);
        lines = answer.lines;
        answer.refusal
    };
    (list.iter().map(correct).collect(), held)
}

#[test]
fn the_library_refuses_the_order_that_has_no_room_on_the_way() {
    let start = tight();
    let (refusals, frame) = by_library(&start, 0, &[SHORTER, LONGER]);
    assert_eq!((refusals, frame.len()), (vec![0, 0], LENGTH + 32));
    let (refusals, other) = by_library(&start, 0, &[LONGER, SHORTER]);
    assert!(refusals == [18, 0] && other == by_library(&start, 0, &[SHORTER]).1);
    let [one, two] = [[SHORTER, LONGER], [LONGER, SHORTER]].map(|list| by_library(&start, 16, &list));
    assert!(one == two && one.0 == [0, 0] && one.1 == [&frame[..], &[0; 16]].concat());
}

/// Refusal 18 does not come through: the file is lent longer, and stays so.
#[test]
fn the_command_makes_room_on_the_way_and_the_frame_is_the_same() {
    let start = tight();
    let [shorter_first, longer_first] = [[SHORTER, LONGER], [LONGER, SHORTER]].map(|list| corrected(&start, &list));
    let (frame, end) = (shorter_first.get("a.held"), LENGTH + 32);
    assert_eq!(frame.len(), end);
    assert!(longer_first.get("a.held") == [&frame[..], &[0; 48]].concat());
    let ends = |f: &Folder, bytes: usize| f.done("info a.held").contains(&format!("ends at byte {end} of {bytes}\n"));
    assert!(ends(&shorter_first, end) && ends(&longer_first, end + 48));
    assert!(held(&shorter_first, "a").1 != held(&longer_first, "a").1);
    assert_eq!(shorter_first.done("verify a"), longer_first.done("verify a"));
    for f in [&shorter_first, &longer_first] {
        f.done("withdraw a");
        f.done("withdraw a");
        let (held, opened) = (f.get("a.held"), start[0].as_ref().unwrap());
        assert!(held.starts_with(opened) && held[opened.len()..].iter().all(|byte| *byte == 0));
    }
}

/// The longer correction, met by a full disk at this call, and what was said. None where there is no such call.
fn disk_full(start: &State, at: u32) -> Option<(Folder, Ran)> {
    let f = corrected(start, &[]);
    let mut run = command();
    run.args(["correct", "a", "5", "300"]).current_dir(f.path());
    faulty(&f, run, "28", at).map(|ran| (f, ran))
}

#[test]
fn where_the_disk_has_no_room_on_the_way_nothing_is_lost() {
    let start = tight();
    let whole = corrected(&start, &[SHORTER, LONGER]);
    let runs = (1..).map_while(|at| disk_full(&start, at));
    let held_back: Vec<(Folder, Ran)> = runs.filter(|(_, ran)| ran.err.contains("as it was before")).collect();
    assert!(held_back.len() > 9, "only {}", held_back.len());
    for (f, ran) in held_back {
        assert!(ran.status == Some(3) && ran.err.contains("No space left on device"), "{ran:?}");
        assert_eq!(state_of(&f, "a"), start);
        correct(&f, &[SHORTER, LONGER]);
        must_have_one_frame(&f, &whole);
    }
}

#[test]
fn a_refused_first_correction_leaves_the_second_alone() {
    let f = folder();
    f.put("a.sfrm", frame(Header::new(1, 1).line(79, "NEXP   :1 0 300"), &[250]));
    f.done("open a.sfrm --form 1+1 -o a");
    let start = state_of(&f, "a");
    let advice = "a.held: refusal 17: an underflow entry is too large for one byte. Use underflow entries of two bytes";
    assert!(f.refused("correct a 0 256", 17).contains(advice));
    assert_eq!(state_of(&f, "a"), start);
    f.done("correct a 0 255");
    assert_eq!(state_of(&f, "a"), state_of(&corrected(&start, &[(0, 255)]), "a"));
}

// What the order decides

#[test]
fn a_withdrawal_takes_back_the_line_made_last() {
    let start = opened("1+2");
    let [one, two] = [[(3, 300), (12, 20)], [(12, 20), (3, 300)]].map(|list| corrected(&start, &list));
    assert!(one.done("why a --pixel 3").ends_with("by line 1\nline 1 correct 3 63 300\n"));
    assert!(two.done("why a --pixel 3").ends_with("by line 2\nline 2 correct 3 63 300\n"));
    assert_eq!(one.done("withdraw a"), "a: line 3 withdraws line 2: pixel 12 corrected from 72 to 20\n");
    assert_eq!(two.done("withdraw a"), "a: line 3 withdraws line 2: pixel 3 corrected from 63 to 300\n");
    assert!(held(&one, "a") != held(&two, "a"));
    must_have_one_frame(&one, &corrected(&start, &[(3, 300)]));
    must_have_one_frame(&two, &corrected(&start, &[(12, 20)]));
    [&one, &two].iter().for_each(|f| drop(f.done("withdraw a")));
    must_have_one_frame(&one, &two);
    assert!(held(&one, "a") == as_opened(&start));
}

#[test]
fn of_one_pixel_corrected_twice_a_withdrawal_gives_back_the_first_count() {
    let start = opened("1+2");
    let f = corrected(&start, &[(6, 300), (6, 20)]);
    f.done("withdraw a");
    must_have_one_frame(&f, &corrected(&start, &[(6, 300)]));
}

// Random lists

/// The lists are those of this seed.
const SEED: u64 = 0x0a7_5eed;
const LISTS: usize = 200;
const LINES: usize = 8;

/// What is made of each list: itself, a shuffle of it, and each pixel's last correction alone.
const KINDS: [&str; 3] = ["first", "shuffled", "last"];

/// Corrections of five pixels, so that most of them come more than once; a quarter of the counts are at no edge.
fn random_list(random: &mut Random) -> Vec<Correction> {
    let mut counts = EDGES.to_vec();
    counts.extend((0..5).map(|_| random.next() as u32));
    (0..LINES).map(|_| (random.below(5) * 3, counts[random.below(counts.len())])).collect()
}

fn last_counts(list: &[Correction]) -> BTreeMap<usize, u32> {
    list.iter().copied().collect()
}

/// The same corrections in a random order in which each pixel has the same last count.
fn shuffled(random: &mut Random, list: &[Correction]) -> Vec<Correction> {
    let mut other = list.to_vec();
    (1..other.len()).for_each(|at| other.swap(at, random.below(at + 1)));
    for last in last_counts(list) {
        let of_pixel = other.iter().rposition(|(pixel, _)| *pixel == last.0).unwrap();
        let found = other.iter().position(|correction| *correction == last).unwrap();
        other.swap(of_pixel, found);
    }
    other
}

/// A holding's name and what is corrected in it.
type Named = (String, Vec<Correction>);

/// The holdings of each list.
fn named_lists() -> Vec<[Named; 3]> {
    let mut random = Random(SEED);
    let named = |number: usize| {
        let list = random_list(&mut random);
        let others = [shuffled(&mut random, &list), last_counts(&list).into_iter().rev().collect()];
        let name = |kind: &str| format!("{kind}/{}/{number}", FORMS[number % FORMS.len()]);
        let ([first, shuffled, last], [shuffle, lasts]) = (KINDS.map(name), others);
        [(first, list), (shuffled, shuffle), (last, lasts)]
    };
    (0..LISTS).map(named).collect()
}

/// Opens the plain frame under each of these names, in the form that its folder says.
fn open_all(f: &Folder, lists: &[[Named; 3]]) {
    lists.iter().flatten().for_each(|(name, _)| f.put_below(&format!("frames/{name}.sfrm"), plain_frame()));
    for below in KINDS.iter().flat_map(|kind| FORMS.map(|form| format!("{kind}/{form}"))) {
        let form = below.rsplit('/').next().unwrap();
        f.done(&format!("open --below frames/{below} --form {form} -o {below}"));
    }
}

#[test]
fn random_lists_with_the_same_last_counts_leave_the_same_frame() {
    let (f, lists) = (folder(), named_lists());
    open_all(&f, &lists);
    let rows: String = lists.iter().flatten().map(|(name, list)| rows(name, list)).collect();
    f.put("t.csv", HEADING.to_string() + &rows);
    assert!(f.done("correct --from t.csv").contains(&format!(" {} made, 0 already made,", rows.lines().count())));
    let names: String = lists.iter().map(|[(name, _), ..]| format!("{name}.held\n")).collect();
    f.put("names", names);
    f.done("expand --names-from names --as raw -o counts");
    for (number, [first, others @ ..]) in lists.iter().enumerate() {
        let mut counts: Vec<u32> = (60..76).collect();
        last_counts(&first.1).into_iter().for_each(|(pixel, count)| counts[pixel] = count);
        assert_eq!(unraw(&f.get(&format!("counts/{number}.raw"))), counts, "{first:?}");
        let same = others.iter().all(|other| held(&f, &other.0) == held(&f, &first.0));
        assert!(same, "seed {SEED:#x}, {first:?}, {others:?}");
    }
    takes_all_back(&f, &lists);
}

/// As many withdrawals as each list has lines.
fn takes_all_back(f: &Folder, lists: &[[Named; 3]]) {
    (0..LINES).for_each(|_| drop(f.done("withdraw --below first")));
    let frames = FORMS.map(|form| as_opened(&opened(form)));
    for (number, [first, ..]) in lists.iter().enumerate() {
        assert!(held(f, &first.0) == frames[number % FORMS.len()], "seed {SEED:#x}, {first:?}");
    }
}

// The manual

/// What the shell says to a line in which `quayrudder` is the real command.
fn by_shell(f: &Folder, line: &str) -> String {
    let folder = Path::new(env!("CARGO_BIN_EXE_quayrudder")).parent().unwrap().display();
    let path = format!("{folder}:{}", std::env::var("PATH").unwrap());
    let ran = ran(Command::new("sh").args(["-c", line]).env("PATH", path).current_dir(f.path()).output().unwrap());
    ran.out + &ran.err
}

#[test]
fn the_manual_shows_what_the_commands_say() {
    let manual = std::fs::read_to_string(concat!(env!("CARGO_MANIFEST_DIR"), "/../docs/MANUAL.md")).unwrap();
    let (_, section) = manual.split_once("\n### In which order?\n").unwrap();
    let (section, _) = section.split_once("\n## ").unwrap();
    let example: Vec<&str> = section.lines().filter_map(|line| line.strip_prefix("    ")).collect();
    let f = folder();
    let mut counts = vec![42; 256 * 384];
    counts[100 * 384 + 250] = 4_000_000;
    f.put("lyso_0001.sfrm", wide_frame(256, 384, &counts));
    let lines = example.iter().filter_map(|line| line.strip_prefix("$ "));
    let said: String = lines.map(|line| format!("$ {line}\n{}", by_shell(&f, line))).collect();
    assert_eq!(said.lines().collect::<Vec<&str>>(), example);
}
