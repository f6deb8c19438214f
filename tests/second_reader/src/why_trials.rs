//! A fixed list of questions for the line that decides, each with its answer written down in why_trials.txt.
use crate::case::Call;
use crate::held_trial::{Change, Deed, Trial};
use crate::ledger::BYTES;
use crate::lettered::{self, further_line, list_line, question, set, shortened, trial, Named};
use crate::written_down::{self, both};

const EXPECTED: &str = include_str!("../why_trials.txt");

/// What is asked of each of the ledgers that compaction is tried on.
const OF_ACCEPTED: &str = "2031-11-02 2031-11-03 2032-03-01 0 1 2 16777215";
/// What is asked of each of those that are refused: a day, one of no calendar, and pixels.
const OF_REFUSED: &str = "2031-11-03 2031-02-29 0 2";

/// Names, ledgers, and what is asked of them.
const ROWS: &str = "\
on the day, before and after it: k: 2031-11-01 2031-11-02 2031-11-03
another month or year: k: 2031-10-31 2031-12-01 2030-12-31 2032-01-01
kept until a leap day: l: 2032-02-28 2032-02-29 2032-03-01 2033-01-01
asked for a leap day: k: 2000-02-29 2028-02-29 2032-02-29 2400-02-29
asked for a leap day that is none: k: 1900-02-29 2031-02-29 2100-02-29 2032-02-30
kept until the first day: m: 1-1-1 1-1-2 4095-12-31
kept until the last day: n: 1-1-1 4095-12-30 4095-12-31
no month: k: 2031-0-3 2031-13-3 2031-15-3
no day: k: 2031-11-0 2031-11-31 2031-12-32
no year: k: 0-11-3 4096-11-3 4097-11-3
beyond a line's fields: k: 6127-11-3 2031-27-3 2031-11-35
beyond eight and sixteen bits: k: 67567-11-3 2031-267-3 2031-11-259
beyond 31 bits: k: 2147485679-11-3 2031-2147483659-3 2031-11-2147483651
the largest numbers: k: 4294967295-4294967295-4294967295 2031-11-4294967295
25, with corrections alone: ab: 2031-02-29 2031-11-31 2031-11-03
25, with all cancelled: kw: 2031-02-29 2031-11-31 2031-11-03
25, with no lines: : 2031-02-29 2031-11-31 2031-11-03
25, with a keep line not yet past: n: 2031-02-29 2031-11-31 2031-11-03
25, with a keep line long past: m: 2031-02-29 2031-11-31 2031-11-03
the later line has the later date: kl: 2031-11-03 2032-02-29 2032-03-01
the later line has the earlier date: lk: 2031-11-02 2031-11-03 2032-02-29
the latest date first: nk: 2031-11-02 2031-11-03 4095-12-31
the latest date between: knm: 1-1-1 1-1-2 2031-11-03
the earliest date last: nlkm: 1-1-1 1-1-2 4095-12-31
the earliest date between: kml: 2032-02-29 2032-03-01
the latest date is cancelled: knw: 2031-11-02 2031-11-03 4095-12-31
the earliest date is cancelled: nmw: 2031-11-03 4095-12-31
an equal line before: kk: 2031-11-02 2031-11-03
an equal line cancelled: kkkw: 2031-11-02 2031-11-03
an equal line withdrawn and made again: kwkwk: 2031-11-02 2031-11-03
corrections behind it: kab: 2031-11-02 2031-11-03
corrections before it: abk: 2031-11-02 2031-11-03
a cancelled one behind it: klw: 2031-11-03 2032-02-29
a cancelled one behind it, and a correction: klwa: 2031-11-03 2032-02-29
two cancelled side by side behind it: klwmw: 2031-11-02 2031-11-03
one cancelled around a correction behind it: klaww: 2031-11-02 2031-11-03
one cancelled within a correction behind it: kalww: 2031-11-02 2031-11-03
one cancelled beside one within another: klmwnwwb: 2031-11-02 2031-11-03
one that stands between two cancelled: nwkmw: 2031-11-02 2031-11-03
the last one behind three levels: nkalmwwwlb: 2032-02-29 2032-03-01
as many withdrawals as lines, then one more line: klmwwwn: 4095-12-30 4095-12-31
withdrawn down to it: kablmwwww: 2031-11-02 2031-11-03
withdrawn with it: akblmwwww: 2031-11-02 2031-11-03
a pixel and those beside it: a: 1 2 3
a pixel with higher bits: a: 258 65538 16777218 4294967298 9223372036854775810
all bits set: a: 255 65535 16777215 4294967295 18446744073709551615
pixel 0 with higher bits: d: 0 256 65536 16777216 4294967296 9223372036854775808
the largest pixel with higher bits: f: 16777215 33554431 4294967295 72057594037927935 18446744073709551615
those beside the largest pixel: f: 16777214 16777216 0
pixel 0 of 0 and 0: z: 0 1 16777216
pixel 0, which no correction names: abf: 0
pixel 0 of a withdrawal behind it: dbw: 0 1
counts are no pixels: a: 402 1000
dates are no pixels: ak: 11 2031 1039970
a pixel that the frame has not: x: 4 3 5
a pixel twice, the second withdrawn: acw: 2 1
a pixel twice, both withdrawn: acww: 2 1
a pixel three times: acc: 2 3
the same line three times, one withdrawn: aaaw: 2 3
the count stays as it is: dd: 0 1
another pixel behind it: ab: 2 1
other pixels behind it: abdfx: 2 1 0 16777215 4
two pixels in turn: abab: 1 2
two pixels in turn, the last withdrawn: ababw: 1 2
two pixels in turn, two withdrawn: ababww: 1 2
another pixel behind it, withdrawn: abw: 1 2
withdrawn, and another pixel behind: awb: 1 2
withdrawn, and the same pixel behind: awc: 2 1
a later one cancelled around another pixel's: acbww: 1 2
a later one cancelled within another pixel's: abcww: 1 2
a later one cancelled around a keep line: ackww: 2 2031-11-03
keep lines behind it: akl: 2 2031-11-03
keep lines around it: kal: 2 2031-11-03
amended, with another behind: aweb: 2 1
amended behind a line of the same pixel: acwe: 2 1
amended and withdrawn, a line of the pixel before: acwew: 2 1
amended between keep lines: kawel: 2 2031-11-02 2032-03-01
both kinds, the last of each cancelled: akblww: 0 1 2 2031-11-02 2031-11-03
none claimed: |ak: 2031-11-03 2031-02-29 2
one claimed, a later date behind: k|l: 2031-11-03 2032-02-29
one claimed, its withdrawal behind: k|w: 2031-11-02 2031-11-03
one claimed, the pixel again behind: a|c: 2 1
one claimed, its withdrawal behind it: a|w: 2 1
two claimed, two of each behind: ak|cl: 2 2031-11-03
cancelled, and made again behind: kw|k: 2031-11-03 0
a withdrawal of nothing behind them: akww|w: 2031-11-03 2
all but the last withdrawal claimed: akbw|w: 2031-11-03 2
line 255: k*255: 2031-11-02 2031-11-03
line 256: k*256: 2031-11-02 2031-11-03
line 257: b*256 k: 2031-11-03 1 2
line 1 of 257: k b*256: 2031-11-03 1 2
300 withdrawn down to it: k l*300 w*300: 2031-11-02 2031-11-03
299 withdrawn of 300 of the pixel: a c*300 w*299: 2 1
line 1 of 4096: k a*4095: 2031-11-02 2031-11-03 2 1
line 4096: a*4095 k: 2031-11-02 2031-11-03 2 1
line 1 of 4096, for a pixel: b a*4095: 1 2 0
line 4097: a*4096 k: 2031-11-03 2
line 65535: a*65534 k: 2031-11-03 2
line 65536: a*65535 k: 2031-11-03 2
line 65537: a*65536 k: 2031-11-03 2
the last lines of 70000: a*69998 kb: 2031-11-02 2031-11-03 0 1 2
the first lines of 70000: kb a*69998: 2031-11-02 2031-11-03 0 1 2
70000, later ones cancelled: ka b*69990 lw*2 cw*2: 2031-11-02 2031-11-03 1 2
65537 claimed of 70000: a*65536 k|lc b*4461: 2031-11-03 2032-03-01 1 2
70000, all cancelled: kw*34999 bw: 2031-11-03 1
70001, the last withdraws nothing: kw*35000 w: 2031-11-03 2031-02-29 1";

/// Ledgers and questions, with and without compaction before them.
const FURTHER: [(&str, &str, Change); 14] = [
    ("nothing cancelled", "akbl: ?2032-03-01 ?1 ?2", |_| {}),
    ("a cancelled one before", "awkb: ?2031-11-03 ?1 ?2", |_| {}),
    ("a cancelled one behind", "kblw: ?2031-11-03 ?1", |_| {}),
    ("all cancelled", "akww: ?2031-11-03 ?2", |_| {}),
    ("no lines", ": ?2031-11-03 ?2 ?2031-02-29", |_| {}),
    ("cancelled between", "akbwwcl: ?2032-02-29 ?1 ?2", |_| {}),
    (
        "an earlier line has the later date",
        "awlbwk: ?2031-11-03 ?1 ?2",
        |_| {},
    ),
    ("amended", "kawe: ?2031-11-02 ?2", |_| {}),
    ("amended twice", "bawewg: ?1 ?2", |_| {}),
    (
        "withdrawn line by line",
        "kwkaclbwkw: ?2 ?2031-11-03 w ?2 ?2031-11-03 w ?2 ?2031-11-03 w ?2 ?2031-11-03 w ?2 ?2031-11-03",
        |t| set(t, 555, 64),
    ),
    (
        "new lines behind",
        "awkw: l ?2032-03-01 2=500 ?2 k ?2032-03-01 w ?2032-03-01",
        |t| set(t, 402, 64),
    ),
    (
        "compacted again",
        "awkac: ?2 w ?2 c ?2 w ?2 c ?2 ?2031-11-03",
        |t| set(t, 555, 64),
    ),
    ("pixels of other frames", "kwxf: ?4 ?16777215 ?16777220", |_| {}),
    ("no line free", "akw: k ?2031-11-03 ?2", |t| t.spare = 0),
];

/// Names, bytes of the ledger, and the calls behind an opening.
const LISTS: &str = "\
asked of no lines: 160: ?2031-11-03 ?2031-02-29 ?0 ?3 ?4
a ledger of no bytes: 0: ?2031-11-03 k ?2031-11-03 ?0
a ledger of 15 bytes: 15: ?2031-11-03 2=5 ?2
asked after each call: 160: 2=1000 ?2 k ?2 ?2031-11-03 2=5 ?2 l ?2032-02-29 w ?2032-02-29 w ?2 w ?2031-11-03 w ?2
corrected back to the opened count: 160: 2=1000 2=402 ?2 w ?2 w ?2
corrected to the count it has: 160: 1=401 ?1 w ?1
refused calls leave the answers: 160: k 2=1000 4=5 k=2031-2-29 0=299 ?2031-11-03 ?2 ?4 ?0
refused withdrawals leave the answers: 32: k 2=1000 w ?2031-11-03 ?2
amended: 160: 2=1000 m=500 ?2 m=600 ?2 w ?2
amended over a line of the pixel: 160: 2=1000 2=5 m=500 ?2 w ?2 w ?2
compacted: 160: 0=5 w 2=1000 k ?2 ?2031-11-03 c ?2 ?2031-11-03 ?0
compacted, amended and compacted: 160: k w 2=1000 m=500 ?2 c ?2 m=600 ?2 c ?2 w ?2 c ?2
full, compacted, and the room used: 48: k 2=1000 w l ?2031-11-03 ?2 c ?2031-11-03 l ?2031-11-03 2=5 ?2
withdrawn until it is gone: 240: k 2=1000 l 1=9 2=5 ?2 ?2032-03-01 w ?2 w ?1 w ?2032-03-01 w ?2 w ?2032-03-01
two lines used over and over: 32: k w ?2031-11-03 c k ?2031-11-03 w c 2=5 ?2 w ?2 c ?2
purge questions beside it: 160: k p ?2031-11-02 q ?2031-11-03 l p ?2031-11-02 q ?2031-11-03 w p ?2031-11-02 q ?2031-11-03 w p ?2031-11-02";

/// What one question is answered, and whether what was lent is as it was.
fn answered(text: &str, trial: &Trial) -> String {
    let mut case = trial.case();
    case.step = question(text).map_or(case.step, Deed::step);
    let (outcome, note) = both(&case);
    let (numbers, after) = (outcome.answer(), &outcome.after);
    let kept = match (&after.ledger, &after.buffer) == (&case.ledger, &case.buffer) {
        true => "",
        false => ", not untouched",
    };
    format!("{text} {}/{}{kept}{note}", numbers[0], numbers[1])
}

fn answers(questions: &str, trial: &Trial) -> String {
    let questions = questions.split_whitespace();
    let answers: Vec<String> = questions.map(|text| answered(text, trial)).collect();
    answers.join(", ")
}

/// The listing of the lines claimed, and the answers.
fn accepted_line(name: &str, questions: &str, trial: &Trial) -> String {
    let case = trial.case();
    let listing = shortened(&case.ledger[..case.lines as usize * BYTES]);
    format!("{name}: {listing}: {}", answers(questions, trial))
}

fn refused_line((name, trial): Named) -> String {
    format!("{name}: {}", answers(OF_REFUSED, &trial))
}

fn row_line(row: &str) -> String {
    let parts: Vec<&str> = row.split(": ").collect();
    let [name, ledger, questions] = parts[..] else {
        panic!("no row: {row}");
    };
    accepted_line(name, questions, &trial(Call::WhyDay, ledger))
}

fn lines() -> impl Iterator<Item = String> {
    let accepted = lettered::accepted(Call::WhyDay);
    let accepted = accepted.map(|(name, trial)| accepted_line(&name, OF_ACCEPTED, &trial));
    let refused = lettered::refused(Call::WhyDay).map(refused_line);
    let rows = ROWS.lines().map(row_line);
    let further = FURTHER.iter().map(further_line);
    let lists = LISTS.lines().map(list_line);
    let questions = rows.chain(accepted).chain(refused);
    questions.chain(further).chain(lists)
}

pub fn run() -> bool {
    written_down::run("why", EXPECTED, lines())
}
