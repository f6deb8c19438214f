//! The second reader against values worked out by hand.
use crate::case::{Call, Case, Step};
use crate::compare::{self, Outcome, Run};
use crate::dtrek;
use crate::frame::{self, refuse, Refusal, FORMS};
use crate::further;
use crate::generate;
use crate::held;
use crate::ledger::{self, Date, Entry};
use crate::model::Model;
use crate::order_claims;
use crate::order_kinds::{self, Start};
use crate::random::Random;
use crate::sample::{self, Layout, Size};
use crate::smallest;
use crate::smallest_cases;
use crate::smallest_claims;
use crate::why_claims;

fn one_row(columns: usize, width: u32, underflow: u32) -> Layout {
    Layout::one_row(columns, (width, underflow), 32)
}

/// The bytes after the header that the writer gives for these pixels.
fn body(pixels: &[u32], width: u32, underflow: u32) -> Vec<u8> {
    let layout = one_row(pixels.len(), width, underflow);
    let header = sample::header(&mut Random(1), &layout);
    let mut out = vec![9; header.len() + 400];
    let length = frame::write(&header, pixels, width, underflow, &mut out);
    let length = length.map_or(0, |length| length as usize);
    let mut again = vec![0; pixels.len()];
    assert!(frame::read(&out, &mut again).is_ok_and(|extent| extent.end == length as u64));
    assert_eq!(again, pixels);
    assert!(out[length..].iter().all(|byte| *byte == 0));
    out[header.len()..length].to_vec()
}

#[test]
fn four_pixels_with_every_table() {
    let body = body(&[35, 332, 70032, 30], 1, 1);
    let mut expected = vec![3, 255, 255, 0, 30];
    expected.resize(20, 0);
    expected.extend([44, 1, 255, 255]);
    expected.resize(36, 0);
    expected.extend([0x70, 0x11, 1, 0]);
    expected.resize(52, 0);
    assert_eq!(body, expected);
}

#[test]
fn thresholds() {
    let lengths = [(254, 1), (255, 17), (65534, 17), (65535, 33)];
    for (pixel, length) in lengths {
        assert_eq!(body(&[pixel], 1, 0).len(), length);
    }
    assert_eq!(body(&[65535], 4, 0).len(), 4);
    assert_eq!(body(&[32], 1, 1).len(), 17);
    assert_eq!(body(&[33], 1, 1), [1]);
    assert_eq!(body(&[300; 8], 1, 0).len(), 8 + 16);
    assert_eq!(body(&[300; 9], 1, 0).len(), 9 + 32);
    assert_eq!(body(&[70000; 5], 2, 0).len(), 10 + 32);
}

#[test]
fn count_0_and_a_stored_0() {
    for (underflow, answer) in [(1, Some(14)), (0, None)] {
        let mut frame = sample::header(&mut Random(2), &one_row(1, 1, underflow));
        frame.push(0);
        let found = frame::read(&frame, &mut [7]);
        assert_eq!(found.err().map(|refusal: Refusal| refusal.number), answer);
    }
}

fn day(year: u32, month: u32, day: u32) -> Date {
    Date { year, month, day }
}

#[test]
fn keep_line() {
    let mut ledger = vec![1; 16];
    assert_eq!(ledger::keep(&mut ledger, 0, day(2031, 11, 2)), Ok(()));
    assert_eq!(ledger[..4], [0x5F, 0xBE, 0xC4, 0]);
    assert_eq!(ledger[4..], [0; 12]);
    assert_eq!(ledger::may_purge(&ledger, 1, day(2031, 11, 2)), Err(27));
    assert_eq!(ledger::may_purge(&ledger, 1, day(2031, 11, 3)), Ok(()));
    assert_eq!(ledger::keep(&mut ledger, 0, day(1900, 2, 29)), Err(25));
}

#[test]
fn standing_after_two_withdrawals() {
    let correction = |pixel| Entry::Correction {
        pixel,
        old: 1,
        new: 2,
    };
    let keep = Entry::Keep(day(2031, 11, 2));
    let gone = Entry::Withdrawal;
    let lines = [correction(1), keep, correction(2), gone, gone];
    assert_eq!(ledger::standing(&lines), [correction(1)]);
}

#[test]
fn compaction_frees_bytes_and_no_others() {
    let correction = |new| Entry::Correction {
        pixel: 1,
        old: 7,
        new,
    };
    let (keep, gone) = (Entry::Keep(day(2031, 11, 2)), Entry::Withdrawal);
    let lines = [correction(8), gone, keep, correction(9), keep, gone];
    let mut ledger: Vec<u8> = lines.iter().flat_map(|line| line.bytes()).collect();
    ledger.extend([5; 19]);
    let before = ledger.clone();
    assert_eq!(ledger::compact(&mut ledger, 8), Err(20));
    assert_eq!(ledger::compact(&mut ledger, 7), Err(20));
    assert_eq!(ledger, before);
    assert_eq!(ledger::compact(&mut ledger, 6), Ok(2));
    assert_eq!(ledger[..16], keep.bytes());
    assert_eq!(ledger[16..32], correction(9).bytes());
    assert_eq!(ledger[32..96], [0; 64]);
    assert_eq!(ledger[96..], [5; 19]);
    assert_eq!(ledger::compact(&mut ledger, 0), Ok(0));
    assert_eq!(ledger::may_purge(&ledger, 2, day(2031, 11, 3)), Ok(()));
}

/// A frame of 5 and 9, and a ledger that had pixel 1 corrected from 7 to 8, a keep date withdrawn, and 8 made 9.
fn compacted_case() -> (Case, [Entry; 2]) {
    let header = sample::header(&mut Random(1), &one_row(2, 4, 0));
    let mut buffer = vec![0; header.len() + 8];
    assert!(frame::write(&header, &[5, 9], 4, 0, &mut buffer).is_ok());
    let correction = |old, new| Entry::Correction { pixel: 1, old, new };
    let (keep, gone) = (Entry::Keep(day(2031, 11, 2)), Entry::Withdrawal);
    let left = [correction(7, 8), correction(8, 9)];
    let lines = [left[0], keep, gone, left[1]];
    let mut ledger: Vec<u8> = lines.iter().flat_map(|line| line.bytes()).collect();
    ledger.resize(6 * 16, 0);
    let base = Case::of(Call::Further);
    let date = (2031, 11, 3);
    let next = |call| Step {
        call,
        date,
        ..base.step
    };
    let steps = vec![Call::Withdraw, Call::Purge, Call::Withdraw, Call::Keep];
    let case = Case {
        buffer,
        ledger,
        lines: 4,
        steps: steps.into_iter().map(next).collect(),
        ..base.clone()
    };
    (case, left)
}

/// Whether A8's claim is found to hold where a compaction leaves these entries.
fn claim_holds(case: &Case, left: &[Entry]) -> bool {
    let mut with = Outcome::new(case);
    ledger::replace(&mut with.after.ledger, case.lines, left);
    with.after.lines = left.len() as u64;
    with.met.push((Call::Compact, 0));
    let without = further::make(case, &mut with, compare::second_step);
    further::agree(&without, &with)
}

#[test]
fn a_wrong_compaction_breaks_the_claim() {
    let (mut case, left) = compacted_case();
    let keep = Entry::Keep(day(1, 1, 1));
    assert!(claim_holds(&case, &left));
    assert!(!claim_holds(&case, &left[..1]));
    assert!(!claim_holds(&case, &left[1..]));
    assert!(!claim_holds(&case, &[left[1], left[0]]));
    assert!(!claim_holds(&case, &[keep, left[0], left[1]]));
    case.ledger.truncate(4 * 16);
    assert!(claim_holds(&case, &[]));
}

/// The claims found broken where questions for pixel 1, or for the day after the keep date, are answered this way.
fn broken(call: Call, answer: impl Fn(&Step, &mut Outcome) -> u64) -> Vec<&'static str> {
    let (case, _) = compacted_case();
    let date = (2031, 11, 3);
    let step = Step {
        call,
        pixel: 1,
        date,
        ..case.step
    };
    let make = |step: &Step, out: &mut Outcome| match step.call.is_why() {
        true => answer(step, out),
        false => compare::second_step(step, out),
    };
    let mut out = Outcome::new(&case);
    make(&step, &mut out);
    why_claims::check(&step, &mut out, &make);
    out.broken
}

/// Asked as if so many lines were used.
fn ask_of(lines: u64, step: &Step, out: &mut Outcome) -> u64 {
    let used = std::mem::replace(&mut out.after.lines, lines);
    let refusal = compare::second_step(step, out);
    out.after.lines = used;
    refusal
}

#[test]
fn a_wrong_line_breaks_the_claims() {
    let (case, _) = compacted_case();
    let listed = "the last one listed";
    for call in [Call::WhyDay, Call::WhyPixel] {
        assert!(broken(call, compare::second_step).is_empty());
    }
    let without_last = |step: &Step, out: &mut Outcome| ask_of(out.after.lines - 1, step, out);
    assert!(broken(Call::WhyPixel, without_last).contains(&listed));
    let without_withdrawal = |step: &Step, out: &mut Outcome| ask_of(2, step, out);
    let found = broken(Call::WhyDay, without_withdrawal);
    assert_eq!(found[..2], ["the purge question's refusal", listed]);
    let as_at_first = |step: &Step, out: &mut Outcome| ask_of(case.lines, step, out);
    let found = broken(Call::WhyPixel, as_at_first);
    assert_eq!(found, ["an earlier one after withdrawals"]);
    let before = |step: &Step, out: &mut Outcome| {
        let ledger = std::mem::replace(&mut out.after.ledger, case.ledger.clone());
        let refusal = ask_of(case.lines, step, out);
        out.after.ledger = ledger;
        refusal
    };
    assert!(broken(Call::WhyPixel, before).contains(&"the same after compaction"));
}

#[test]
fn a_wrong_count_breaks_the_claim() {
    let found = |pixel: u64, opened: [u32; 2], lines: u64| {
        let (mut case, _) = compacted_case();
        (case.pixels, case.step.pixel) = (opened.to_vec(), pixel);
        case.step.call = Call::WhyPixel;
        let mut out = Outcome::new(&case);
        ask_of(lines, &case.step, &mut out);
        why_claims::check_count(pixel, &mut out, &compare::second_step);
        out.broken.is_empty()
    };
    assert!(found(0, [5, 7], 4) && found(1, [5, 7], 4) && found(2, [5, 7], 4));
    assert!(!found(0, [6, 7], 4));
    assert!(!found(1, [5, 7], 3));
    assert!(!found(1, [5, 7], 0));
}

const BACK: Step = Step {
    call: Call::Withdraw,
    pixel: 0,
    count: 0,
    date: (0, 0, 0),
};

fn corrected(pixel: u64, count: u32) -> Step {
    let call = Call::Correct;
    Step {
        call,
        pixel,
        count,
        ..BACK
    }
}

/// Runs on the frame of 5 and 9 with a ledger of four lines and room for so many.
fn played(runs: &[&[Step]], room: usize, call: impl Fn(&Step, &mut Outcome) -> u64) -> Vec<Run> {
    let (mut case, _) = compacted_case();
    case.ledger.resize((4 + room) * 16, 7);
    let runs = runs.iter().map(|run| run.to_vec()).collect();
    order_claims::play(&case, runs, call)
}

fn broken_orders(runs: &[&[Step]], call: impl Fn(&Step, &mut Outcome) -> u64) -> Vec<&'static str> {
    order_claims::broken(&played(runs, 12, call))
}

/// The second reader, but for one call, the one that makes so many lines: pixel 1 has 65536 more after it.
fn wrong_at(lines: u64, pixel: u64) -> impl Fn(&Step, &mut Outcome) -> u64 {
    move |step, out| {
        let refusal = compare::second_step(step, out);
        if (out.after.lines, step.pixel) == (lines, pixel) {
            let last = out.after.buffer.len() - 2;
            out.after.buffer[last] ^= 1;
        }
        refusal
    }
}

#[test]
fn an_order_that_matters_breaks_the_claims() {
    let [a, b, c, d] = [
        corrected(0, 1),
        corrected(1, 2),
        corrected(0, 3),
        corrected(1, 4),
    ];
    let rows: [(&str, [&[Step]; 2], (u64, u64)); 7] = [
        ("two pixels, in either order", [&[a, b], &[b, a]], (6, 0)),
        (
            "one pixel twice, and the second alone",
            [&[b, d], &[d]],
            (6, 1),
        ),
        ("one correction withdrawn", [&[b, BACK], &[]], (6, 0)),
        (
            "as many withdrawals as corrections",
            [&[b, c, d, BACK, BACK, BACK], &[]],
            (10, 0),
        ),
        ("lists in another order", [&[a, b, c], &[b, a, c]], (5, 1)),
        ("the last ones alone", [&[a, b, c, d], &[d, c]], (8, 1)),
        (
            "others before the last ones",
            [&[a, c, b], &[c, b, c]],
            (6, 1),
        ),
    ];
    for (claim, runs, (lines, pixel)) in rows {
        assert_eq!(broken_orders(&runs, compare::second_step), [""; 0]);
        let found = broken_orders(&runs, wrong_at(lines, pixel));
        assert!(found.contains(&claim), "{claim}: {found:?}");
    }
    let taken_back: [&[Step]; 2] = [&[a, b, BACK], &[a]];
    let found = broken_orders(&taken_back, wrong_at(7, 0));
    assert_eq!(found, ["some withdrawn"]);
}

#[test]
fn bytes_that_no_count_shows_break_the_claim() {
    let [a, b] = [corrected(0, 1), corrected(1, 2)];
    let touched = |step: &Step, out: &mut Outcome| {
        out.after.buffer[250] ^= u8::from((out.after.lines, step.pixel) == (5, 0));
        compare::second_step(step, out)
    };
    let found = broken_orders(&[&[a, b], &[b, a]], touched);
    assert_eq!(found, ["two pixels, in either order"]);
}

#[test]
fn runs_that_are_not_compared() {
    let [a, b, c] = [corrected(0, 1), corrected(1, 2), corrected(0, 3)];
    let pairs = |runs: [&[Step]; 2]| {
        let runs = played(&runs, 3, compare::second_step);
        let pairs = order_claims::pairs(&runs);
        pairs.iter().map(|pair| pair.refusals()).collect::<Vec<_>>()
    };
    assert_eq!(pairs([&[a, b], &[b, a]]), [[0, 0]]);
    assert_eq!(pairs([&[a, b, a, b], &[b, a]]), [[21, 0]]);
    assert_eq!(pairs([&[a, c], &[c, a]]), [[0, 0]; 0]);
    assert_eq!(pairs([&[a, b], &[a]]), [[0, 0]; 0]);
    assert_eq!(pairs([&[a, BACK, BACK], &[a]]), [[0, 0]; 0]);
    assert_eq!(pairs([&[corrected(2, 5)], &[corrected(0, 5)]]), [[0, 0]]);
    let full = played(&[&[a, b], &[b, a]], 1, wrong_at(5, 0));
    assert_eq!(order_claims::broken(&full), [""; 0]);
    let full_behind_b = |step: &Step, out: &mut Outcome| {
        if (out.after.lines, step.pixel) == (4, 1) {
            out.after.ledger.truncate(5 * 16);
        }
        compare::second_step(step, out)
    };
    let either = [[&[a, b], &[b, a]], [&[b, a], &[a, b]]];
    let found = either.map(|runs| broken_orders(&runs.map(|run| &run[..]), full_behind_b));
    assert_eq!(found, [[""; 0]; 2]);
}

#[test]
fn shuffled_lists_keep_the_last_of_each_pixel() {
    let list: Vec<Step> = (0..12).map(|i| corrected(i % 3, i as u32)).collect();
    let mut orders = Vec::new();
    for seed in 0..50 {
        let mut order: Vec<u32> = order_claims::shuffled(&mut Random(seed), &list)
            .iter()
            .map(|step| step.count)
            .collect();
        let last = |pixel: u32| order.iter().rev().find(|count| **count % 3 == pixel);
        assert_eq!([0, 1, 2].map(last), [Some(&9), Some(&10), Some(&11)]);
        orders.push(order.clone());
        order.sort_unstable();
        assert_eq!(order, (0..12).collect::<Vec<_>>());
    }
    orders.sort_unstable();
    orders.dedup();
    assert!(orders.len() > 45);
}

#[test]
fn other_lists_leave_the_same_counts() {
    let mut random = Random(5);
    for seed in 0..200 {
        let length = 1 + random.index(5);
        let one = |random: &mut Random| corrected(random.below(2), random.below(5) as u32);
        let list: Vec<Step> = (0..length).map(|_| one(&mut random)).collect();
        let other = &order_claims::others(&mut Random(seed), &list)[0];
        let runs = played(&[&list, other], 40, compare::second_step);
        let pairs = order_claims::pairs(&runs);
        assert!(*other == list || !pairs.is_empty(), "{list:?} {other:?}");
        assert!(pairs.iter().all(|pair| pair.refusals() == [0, 0]));
        assert_eq!(order_claims::broken(&runs), [""; 0]);
    }
}

#[test]
fn kinds_of_compared_runs() {
    let [a, b] = [corrected(0, 254), corrected(1, u32::MAX)];
    let kinds = |change: fn(&mut Case)| {
        let (mut case, _) = compacted_case();
        case.ledger.resize(10 * 16, 0);
        change(&mut case);
        let runs = vec![vec![a, b], vec![b, a]];
        let runs = order_claims::play(&case, runs, compare::second_step);
        let kinds = order_kinds::of(Start::of(&runs).as_ref(), &order_claims::pairs(&runs)[0]);
        kinds.into_iter().map(|(_, name)| name).collect::<Vec<_>>()
    };
    let plain = [
        "standing lines",
        "cancelled lines",
        "a frame that just fits",
        "to 4294967295",
        "to 254 above it",
        "in form 4",
        "two pixels, in either order",
    ];
    assert_eq!(kinds(|_| {}), plain);
    let keep = |case: &mut Case| case.lines = 2;
    assert_eq!(kinds(keep)[..2], ["standing lines", "a keep line on top"]);
    let old = |case: &mut Case| case.ledger[3 * 16 + 8] ^= 1;
    assert_eq!(kinds(old)[1], "a false old count on top");
    let new = |case: &mut Case| case.ledger[3 * 16 + 12] ^= 1;
    assert_eq!(kinds(new)[1], "another count on top than is held");
    assert_eq!(
        kinds(|case| case.ledger.truncate(5 * 16)),
        ["refused with 21"]
    );
    let free = |case: &mut Case| case.ledger.resize(11 * 16, 1);
    assert!(kinds(free).contains(&"other bytes than 0 behind the lines"));
}

#[test]
fn the_line_that_decides() {
    let correction = |pixel| Entry::Correction {
        pixel,
        old: 7,
        new: 8,
    };
    let keep = |year| Entry::Keep(day(year, 2, 28));
    let gone = Entry::Withdrawal;
    let lines = [
        correction(3),
        keep(2040),
        keep(2031),
        correction(3),
        keep(2050),
        gone,
        gone,
        correction(4),
    ];
    let ledger: Vec<u8> = lines.iter().flat_map(|line| line.bytes()).collect();
    let on = |lines, year, month, date| ledger::why_day(&ledger, lines, day(year, month, date));
    assert_eq!(on(8, 2031, 2, 28), (27, 3));
    assert_eq!(on(8, 2031, 3, 1), (0, 3));
    assert_eq!(on(5, 2031, 3, 1), (27, 5));
    assert_eq!(on(1, 2031, 3, 1), (26, 0));
    assert_eq!(on(8, 2031, 2, 29), (25, 0));
    assert_eq!(on(9, 2031, 2, 29), (20, 0));
    let of = |lines, pixel| ledger::why_pixel(&ledger, lines, pixel);
    assert_eq!((of(8, 3), of(6, 3), of(3, 3)), ((0, 1), (0, 4), (0, 1)));
    assert_eq!((of(8, 4), of(7, 4), of(0, 3)), ((0, 8), (0, 0), (0, 0)));
    assert_eq!(
        (of(8, 3 + (1 << 24)), of(8, 3 + (1 << 32))),
        ((0, 0), (0, 0))
    );
    assert_eq!((of(8, u64::MAX), of(9, 3)), ((0, 0), (20, 0)));
}

#[test]
fn the_model_numbers_lines_anew() {
    let mut model = Model {
        ledger_length: 8 * 16,
        ..pair_model()
    };
    assert!(model.correct(0, 6).is_ok() && model.withdraw().is_ok());
    assert!(model.keep(day(2031, 11, 2)).is_ok() && model.correct(1, 8).is_ok());
    assert!(model.amend(9).is_ok());
    assert_eq!(model.why_day(day(2031, 11, 3)), (0, 3));
    assert_eq!(model.why_day(day(2031, 11, 2)), (27, 3));
    assert_eq!((model.why_pixel(0), model.why_pixel(1)), ((0, 0), (0, 6)));
    model.compact();
    assert_eq!(model.why_day(day(2031, 11, 3)), (0, 1));
    assert_eq!((model.why_pixel(0), model.why_pixel(1)), ((0, 0), (0, 2)));
    assert!(model.correct(1, 5).is_ok());
    assert_eq!((model.why_pixel(1), model.lines), ((0, 3), 3));
    assert_eq!(model.why_day(day(2031, 2, 29)), (25, 0));
}

#[test]
fn an_amend_keeps_the_count_before() {
    let header = sample::header(&mut Random(1), &one_row(2, 4, 0));
    let mut held = vec![0; header.len() + 8];
    assert!(frame::write(&header, &[5, 8], 4, 0, &mut held).is_ok());
    let correction = |new| Entry::Correction {
        pixel: 1,
        old: 7,
        new,
    };
    let mut ledger = correction(8).bytes().to_vec();
    ledger.resize(4 * 16, 0);
    assert_eq!(held::amend(&mut held, &mut ledger, 0, 9), Err(22));
    assert_eq!(held::amend(&mut held, &mut ledger, 1, 9), Ok(()));
    assert_eq!(held[header.len()..], [5, 0, 0, 0, 9, 0, 0, 0]);
    let lines = vec![correction(8), Entry::Withdrawal, correction(9)];
    assert_eq!(ledger::entries(&ledger, 3), Ok(lines));
    assert_eq!(held::amend(&mut held, &mut ledger, 3, 9), Err(21));
    assert_eq!(ledger::keep(&mut ledger, 3, day(2031, 11, 2)), Ok(()));
    assert_eq!(held::amend(&mut held, &mut ledger, 4, 9), Err(31));
}

/// Two pixels, 5 and 7, with room for five lines.
fn pair_model() -> Model {
    Model {
        header: sample::header(&mut Random(1), &one_row(2, 4, 0)),
        opened: vec![5, 7],
        form: (4, 0),
        held_length: 7688,
        ledger_length: 5 * 16,
        stack: Vec::new(),
        lines: 0,
    }
}

#[test]
fn the_model_amends_only_a_correction_on_top() {
    let mut model = pair_model();
    assert_eq!(model.amend(9), Err(22));
    assert!(model.keep(day(2031, 11, 2)).is_ok() && model.amend(9) == Err(31));
    assert!(model.correct(1, 8).is_ok());
    let (pixel, old, new) = (1, 7, 9);
    let correction = Entry::Correction { pixel, old, new };
    assert_eq!(model.amend(9), Ok([Entry::Withdrawal, correction]));
    assert_eq!((model.pixels(), model.lines), (vec![5, 9], 4));
    assert_eq!(model.amend(9), Err(21));
    model.held_length = 7687;
    model.ledger_length = 6 * 16;
    assert_eq!((model.amend(9), model.pixels()), (Err(18), vec![5, 9]));
}

#[test]
fn the_model_has_room_after_compaction() {
    let mut model = Model {
        ledger_length: 3 * 16,
        ..pair_model()
    };
    let keep = Entry::Keep(day(2031, 11, 2));
    assert!(model.keep(day(2031, 11, 2)).is_ok() && model.correct(1, 8).is_ok());
    assert!(model.withdraw().is_ok());
    assert_eq!(model.keep(day(2032, 1, 1)), Err(21));
    model.compact();
    assert_eq!((model.lines, model.entries()), (1, vec![keep]));
    assert!(model.correct(0, 6).is_ok());
    assert_eq!((model.pixels(), model.lines), (vec![6, 7], 2));
}

/// A question for the smallest form, or an opening in it of a frame in form 4, with a baseline of 32.
fn smallest_case(call: Call, pixels: &[u32]) -> Case {
    let header = sample::header(&mut Random(1), &one_row(pixels.len(), 4, 1));
    let mut frame = vec![0; header.len() + 4 * pixels.len()];
    assert!(frame::write(&header, pixels, 4, 0, &mut frame).is_ok());
    Case {
        frame: frame.into(),
        pixels: pixels.to_vec(),
        buffer: vec![7; header.len() + 100],
        ..Case::of(call)
    }
}

#[test]
fn the_smallest_form_by_hand() {
    let found = |pixels: &[u32]| {
        let case = smallest_case(Call::Smallest, pixels);
        let start = frame::read_header(&case.frame).map_or(0, |header| header.length as u64);
        let found = smallest::smallest(&case.frame, pixels);
        found.map(|(form, length)| (form, length - start))
    };
    assert_eq!(found(&[254; 20]), Ok(((1, 0), 20)));
    assert_eq!(found(&[255; 20]), Ok(((1, 1), 20)));
    assert_eq!(found(&[286; 20]), Ok(((1, 1), 20)));
    assert_eq!(found(&[287; 20]), Ok(((2, 0), 40)));
    let beside = |pixel: u32, times: usize| [vec![pixel; times], vec![100; 20]].concat();
    assert_eq!(found(&beside(286, 8)), Ok(((1, 1), 28)));
    assert_eq!(found(&beside(287, 8)), Ok(((1, 0), 44)));
    assert_eq!(found(&[65535; 20]), Ok(((2, 1), 40)));
    assert_eq!(found(&[65566; 20]), Ok(((2, 1), 40)));
    assert_eq!(found(&[65567; 20]), Ok(((4, 0), 80)));
    let case = smallest_case(Call::Smallest, &[5; 20]);
    assert_eq!(smallest::smallest(&case.frame, &[5; 19]), refuse(10));
}

#[test]
fn counted_lengths_are_the_writers() {
    let mut random = Random(14);
    for _ in 0..2000 {
        let case = smallest_cases::case(&mut random, Call::Smallest, Size::Small);
        let Ok(header) = frame::read_header(&case.frame) else {
            continue;
        };
        let Some(pixels) = case.pixels.get(..header.pixels()) else {
            continue;
        };
        let mut out = vec![0; smallest_claims::ample(&case)];
        let mut written =
            |form: (u32, u32)| frame::write(&case.frame, pixels, form.0, form.1, &mut out);
        let weights = smallest::weights(&header, &case.frame, pixels);
        let counted = |form| weights.iter().find(|weight| weight.form == form);
        for form in FORMS {
            let length = match counted(form) {
                None => refuse(16),
                Some(weight) if !weight.fits => refuse(17),
                Some(weight) => Ok(weight.length),
            };
            assert_eq!(length, written(form));
        }
        if let Ok((form, length)) = smallest::smallest(&case.frame, pixels) {
            assert_eq!(written(form), Ok(length));
            assert!(form.0 < 4 || form.1 == 0);
        }
    }
}

/// The claims found broken of a case of 40 and 1000, eight times each, where the second reader's outcome is falsified.
fn broken_choice(call: Call, places: usize, falsify: impl Fn(&mut Outcome)) -> Vec<&'static str> {
    let pixels = [vec![40; 8], vec![1000; 8]].concat();
    let mut case = smallest_case(call, &pixels);
    case.pixels.truncate(places);
    let mut out = Outcome::new(&case);
    compare::second_step(&case.step, &mut out);
    falsify(&mut out);
    smallest_claims::check(&case, &mut out, &compare::second_step);
    out.broken
}

#[test]
fn a_wrong_form_breaks_the_claims() {
    let asked_of = |places, place, number| {
        broken_choice(Call::Smallest, places, |out| out.falsify(place, number))
    };
    let asked = |place, number| asked_of(16, place, number);
    let length = smallest_length();
    assert_eq!(asked(0, 0), [""; 0]);
    let later = [
        "no accepted form is shorter",
        "the length foretold is written",
    ];
    assert_eq!(asked(5, length + 1), later);
    assert_eq!(asked(5, length - 1), later[1..]);
    assert_eq!(asked(3, 2), ["equals come later"]);
    assert_eq!(asked(3, 4), [later[1], "equals come later"]);
    let refused = ["refused where all nine are"];
    assert_eq!(
        (asked(0, 16), asked(0, 18)),
        (refused.into(), refused.into())
    );
    assert_eq!(asked_of(15, 0, 10), [""; 0]);
    assert_eq!(
        (asked_of(15, 0, 9), asked_of(15, 3, 1)),
        (refused.into(), refused.into())
    );
    assert_eq!(asked_of(15, 0, 0), [later[1], refused[0]]);
}

/// What the frame of 40 and 1000, eight times each, takes in form 1 and in form 2.
fn smallest_length() -> u64 {
    let header = sample::header(&mut Random(1), &one_row(16, 4, 1));
    header.len() as u64 + 32
}

#[test]
fn a_wrong_opening_breaks_the_claims() {
    let opened = |falsify: fn(&mut Outcome)| broken_choice(Call::OpenSmallest, 16, falsify);
    let (as_open, named) = (
        "as an opening in that form",
        "the form that is named without opening",
    );
    let refused = "refused where all nine openings are";
    assert_eq!(opened(|_| {}), [""; 0]);
    assert_eq!(opened(|out| out.after.pixels[15] ^= 1), [as_open]);
    assert_eq!(opened(|out| out.after.buffer[7] ^= 1), [as_open]);
    assert_eq!(opened(|out| out.falsify(5, 2)), [as_open, named]);
    assert_eq!(opened(|out| out.falsify(7, 9)), [as_open]);
    assert_eq!(opened(|out| out.falsify(8, 9)), [as_open, named]);
    assert_eq!(opened(|out| out.falsify(0, 18)), [as_open, refused]);
    let short = |falsify: fn(&mut Outcome)| broken_choice(Call::OpenSmallest, 15, falsify);
    assert_eq!(short(|_| {}), [""; 0]);
    assert_eq!(short(|out| out.falsify(0, 9)), [as_open]);
    assert_eq!(short(|out| out.falsify(6, 1)), [refused]);
}

#[test]
fn a_form_that_does_not_stay_breaks_the_claim() {
    let case = smallest_case(Call::SmallestList, &[400; 20]);
    let broken = |falsify: fn(&mut Outcome)| {
        let mut out = Outcome::new(&case);
        compare::second_step(&case.step, &mut out);
        falsify(&mut out);
        smallest_claims::check_form(&mut out, &compare::second_step);
        out.broken
    };
    assert_eq!(broken(|_| {}), [""; 0]);
    let stays = ["the form chosen stays"];
    assert_eq!(broken(|out| out.falsify(5, 1)), stays);
    assert_eq!(broken(|out| out.falsify(6, 1)), stays);
    assert_eq!(broken(|out| out.after.buffer.truncate(100)), stays);
}

const DTREK: &[u8] =
    b"{\nHEADER_BYTES=  512;\nSIZE1=2;\n\tSIZE2= 1 ;\nDIM=2;\nA={;\nBYTE_ORDER=big_endian;\n\
    Data_type=\n unsigned long int;\nCOMPRESSION=none;\n }\n\x0C\n";

/// The image of DTREK's header, padded, and two pixels.
fn dtrek_image() -> Vec<u8> {
    let mut file = DTREK.to_vec();
    file.resize(512, b' ');
    file.extend([255, 255, 255, 254, 0, 0, 1, 2]);
    file
}

#[test]
fn dtrek_pixels() {
    let mut pixels = [7; 3];
    let found = dtrek::read(&dtrek_image(), &mut pixels);
    assert!(found.is_ok_and(|extent| (extent.rows, extent.columns, extent.end) == (1, 2, 520)));
    assert_eq!(pixels, [4_294_967_294, 258, 7]);
}

#[test]
fn dtrek_refusals() {
    let numbered = |change: fn(&mut Vec<u8>)| {
        let mut file = dtrek_image();
        change(&mut file);
        dtrek::read(&file, &mut [7; 2])
            .err()
            .map(|refusal| refusal.number)
    };
    assert_eq!(numbered(|file| file[18] = b'x'), Some(32));
    assert_eq!(numbered(|file| file.truncate(511)), Some(1));
    assert_eq!(numbered(|file| file[511] = b'.'), Some(33));
    assert_eq!(numbered(|file| file[28] = b'0'), Some(34));
    assert_eq!(numbered(|file| file[28] = b'3'), Some(10));
    assert_eq!(numbered(|file| file.truncate(519)), Some(11));
    assert_eq!(numbered(|file| file.truncate(520)), None);
}

#[test]
fn dtrek_items() {
    let file = dtrek_image();
    let item = |at| dtrek::item(&file, at).ok().flatten();
    let text =
        |item: &dtrek::Item| [item.key.clone(), item.value.clone()].map(|part| file[part].to_vec());
    let all: Vec<dtrek::Item> =
        std::iter::successors(item(1), |last| item(last.next as u64)).collect();
    assert_eq!(all.len(), 8);
    assert_eq!(
        all.first().map(text),
        Some([b"HEADER_BYTES".to_vec(), b"512".to_vec()])
    );
    assert_eq!(all.get(4).map(text), Some([b"A".to_vec(), b"{".to_vec()]));
    assert_eq!(dtrek::item(&file, 0), refuse(33));
}

#[test]
fn case_files_come_back() {
    let mut random = Random(3);
    for number in 0..200 {
        let made = generate::case(&mut random, number);
        let case = made.base.mutated(&made.damage);
        assert_eq!(Case::from_text(&case.to_text()), Some(case));
    }
}

#[test]
fn shrinking_keeps_what_is_needed() {
    let needed = |some: &[u32]| some.contains(&37) && some.contains(&59);
    let kept = compare::shrink_list((0..100).collect(), needed);
    assert_eq!(kept, [37, 59]);
}
