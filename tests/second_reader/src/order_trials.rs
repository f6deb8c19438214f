//! A fixed list of corrections made in several orders, each with its answers written down in order_trials.txt.
use crate::case::{Call, Step};
use crate::compare::{digest, Run};
use crate::frame::{self, FORMS, LINE, NAME};
use crate::held_trial::{base, form_name, held_words, joined, Damage, Trial};
use crate::held_trial::{EDGES, OPENED, RESPELLED};
use crate::ledger::BYTES;
use crate::lettered::{self, raised, repeated, trial};
use crate::order_claims::ANEW;
use crate::written_down::{self, both};

const EXPECTED: &str = include_str!("../order_trials.txt");

/// In each form. A row is a name, what it starts from, and runs of calls; `+255` is 255 above the baseline, and `-` is a run of no calls.
const EACH_FORM: &str = "\
two pixels, entries of two and of four bytes: : 0=+255 1=+65535 / 1=+65535 0=+255
two pixels, the least and the most: : 3=0 0=4294967295 / 0=4294967295 3=0
two pixels, on either side of the edges: : 1=+254 2=+65534 / 2=+65534 1=+254
two pixels, one leaves its tables and one comes: of=+70000,401,402,403: 0=+7 3=+80000 / 3=+80000 0=+7
two pixels that leave their tables: of=+70000,+300,0,+1: 1=+8 2=+9 / 2=+9 1=+8
one pixel twice, from the most and to it: : 2=+254 2=4294967295 / 2=4294967295 / 2=4294967295 2=4294967295
one correction withdrawn: : 1=4294967295 w / - / 1=0 w / 1=+256 w
four corrections and four withdrawals: : 0=0 1=+255 2=+65535 3=+1 w w w w / -
lists: : 0=+65535 1=0 0=+9 2=+255 1=+256 3=+65536 / 3=+65536 2=+255 1=+256 0=+9 / 1=4294967295 0=0 1=+256 2=5 3=+1 0=+9 2=+255 3=+65536";

/// With `E` as each of the counts at which a pixel is stored another way.
const EACH_EDGE: [&str; 2] = [
    "one pixel through E: : 2=E 2=410 / 2=410 / 2=E w 2=410",
    "E beside 410: room=48: 1=E 2=410 / 2=410 1=E / 1=410 2=410 1=E 2=5 w",
];

/// Pixels whose entries stand beside each other, and tables that take 16 bytes more or fewer.
const TABLES: &str = "\
two entries of two bytes: of=+300,+400,+1,+2: 0=+500 1=+600 / 1=+600 0=+500
two entries of four bytes: of=+70000,+80000,+1,+2: 0=+90000 1=+65535 / 1=+65535 0=+90000
two underflow entries: of=5,6,+1,+2: 0=7 1=8 / 1=8 0=7
two underflow entries of two bytes: form=2+2 of=256,299,+1,+2: 0=300 1=0 / 1=0 0=300
an entry comes between two: of=+300,+1,+500,+2: 1=+400 0=+600 / 0=+600 1=+400
an entry comes before the others, and one goes: of=+1,+300,+400,+2: 0=+299 2=+3 / 2=+3 0=+299
an entry comes behind the others, and one goes: of=+300,+400,+1,+2: 3=+299 0=+3 / 0=+3 3=+299
the entries exchanged: of=+300,+400,+1,+2: 0=+400 1=+300 / 1=+300 0=+400
equal entries: of=+1,+2,+3,+4: 1=+300 2=+300 / 2=+300 1=+300
two bytes become four: of=+300,+65534,+1,+2: 0=+70000 1=+65535 / 1=+65535 0=+70000
four bytes become two: of=+70000,+65535,+1,+2: 0=+300 1=+65534 / 1=+65534 0=+300
two bytes become four and four two: of=+70000,+300,+1,+2: 0=+300 1=+70000 / 1=+70000 0=+300
an underflow entry becomes one of four bytes, and back: of=5,+70000,+1,+2: 0=+70000 1=5 / 1=5 0=+70000
each table loses one and gains one: of=0,+300,+70000,+1,+2,+3: 0=+9 1=+8 2=+7 3=0 4=+300 5=+70000 / 5=+70000 4=+300 3=0 2=+7 1=+8 0=+9 / 3=0 0=+9 4=+300 1=+8 5=+70000 2=+7
the ninth entry of two bytes: of=+300*8,+1*4: 9=+300 11=+301 / 11=+301 9=+300
from ten entries of two bytes to eight: of=+300*10,+1*2: 0=+1 9=+2 / 9=+2 0=+1
nine entries of two bytes, eight or ten between: of=+300*9,+1*3: 0=+1 11=+400 / 11=+400 0=+1
the fifth entry of four bytes: of=+70000*4,+1*4: 6=+80000 5=+90000 / 5=+90000 6=+80000
five entries of four bytes, four or six between: of=+70000*5,+1*3: 4=+3 7=+80000 / 7=+80000 4=+3
the seventeenth underflow entry: of=0*16,+1*4: 18=5 17=6 / 17=6 18=5
the ninth underflow entry of two bytes: form=4+2 of=299*8,+1*4: 9=298 10=297 / 10=297 9=298
the first and the last of 300: of=+1*300: 0=+300 299=+400 / 299=+400 0=+300
a single pixel: of=+1: 0=+300 0=0 / 0=0 / 0=0 0=0 / 0=+70000 w 0=0";

/// What stands in the ledger, and the room that it has.
const LEDGERS: &str = "\
a line before: ledger=a of=400,401,1000,403: 0=5 1=600 / 1=600 0=5
the pixel of the line before: ledger=a of=400,401,1000,403: 2=5 2=600 / 2=600 / 2=600 2=1000 w
withdrawn down to the line before: ledger=a of=400,401,1000,403: 2=5 0=6 w w / -
two pixels over a false old count: ledger=ec of=400,401,555,403: 2=9 1=600 / 1=600 2=9
one pixel over a false old count: ledger=ec of=400,401,555,403: 2=9 2=600 / 2=600
withdrawn down to a false old count: ledger=ec of=400,401,555,403: 2=9 1=8 w w / -
two pixels over a line with another count than the pixel has: ledger=a: 2=5 1=600 / 1=600 2=5
withdrawn down to a line with another count than the pixel has: ledger=a: 2=5 w / - / 1=5 2=1000 w w
two pixels over a keep line: ledger=ak of=400,401,1000,403: 0=5 2=600 / 2=600 0=5
one pixel over a keep line: ledger=k: 0=70000 0=5 / 0=5
the most over a keep line: ledger=ak of=400,401,1000,403: 0=4294967295 2=16777217 / 2=16777217 0=4294967295 / 2=16777217 0=4294967295 1=0 w
withdrawn down to a keep line: ledger=akl of=400,401,1000,403: 0=5 2=6 w w / - / 2=402 w
over withdrawn lines: ledger=aw: 2=1000 0=5 / 0=5 2=1000 / 2=1000 w 0=5 2=1000
over lines withdrawn around each other: ledger=akbwww: 1=9 2=1000 / 2=1000 1=9
the most over withdrawn lines: ledger=aw: 2=70000 0=4294967295 / 0=4294967295 2=70000 / 0=5 w 0=4294967295 2=70000
withdrawn down to withdrawn lines: ledger=bakww of=400,9,402,403: 1=401 2=1000 1=5 w w w / -
over an amended line: ledger=awe of=400,401,500,403: 2=1000 2=402 / 2=402
over lines of pixels that the frame has not: ledger=xf: 0=5 3=6 / 3=6 0=5
over a line with equal counts: ledger=d: 0=400 0=5 / 0=5
over 30 lines: ledger=akblwwakblwwakblwwakblwwakblww: 1=8 2=7 / 2=7 1=8
the most over 30 lines: ledger=akblwwakblwwakblwwakblwwakblww: 1=4294967295 2=16777216 / 2=16777216 1=4294967295 / 2=5 w 2=16777216 1=4294967295
lines behind those claimed: ledger=k|clw: 0=5 1=600 / 1=600 0=5
no line free: ledger=k spare=0: 0=5 1=600 / 1=600 0=5
a line free less a byte: spare=15: 0=5 1=600 / 1=600 0=5
one line free, two pixels: ledger=k spare=16: 0=5 1=600 / 1=600 0=5
one line free, one pixel twice: spare=16: 0=5 0=600 / 0=600
one line free, a correction and its withdrawal: spare=16: 0=5 w / -
two lines free: spare=32: 0=5 1=600 / 1=600 0=5 / 0=5 1=600 w
two lines free less a byte: spare=31: 0=5 1=600 / 1=600 0=5
three lines free, two corrections and two withdrawals: spare=48: 0=5 1=600 w w / -";

/// Where calls are refused, and where lists leave other counts.
const REFUSED: &str = "\
18 in one order alone: of=70000,401,402,403 room=0: 0=410 1=0 / 1=0 0=410
18 in one order alone, an entry of two bytes: room=0 of=0,401,402,403: 0=410 1=600 / 1=600 0=410
18 in one order alone, the ninth entry: room=0 of=+300*8,+1*4: 0=+3 9=+300 / 9=+300 0=+3
18 in one order alone, 15 bytes more: room=15 of=70000,401,402,403: 0=410 1=0 / 1=0 0=410
accepted in both, 16 bytes more: room=16 of=70000,401,402,403: 0=410 1=0 / 1=0 0=410
18 in both orders: room=0: 0=600 1=411 / 1=411 0=600
18 for the first of one pixel: room=0: 0=600 0=411 / 0=411
18 for the second of one pixel: room=0: 0=411 0=600 / 0=600
18 in the middle of a list: room=0 of=70000,401,402,403: 1=410 0=411 2=0 3=412 / 1=410 2=0 3=412 0=411 / 3=412 1=410 0=411 2=0
just fits throughout: room=0 of=70000,401,402,403: 0=80000 1=1000 / 1=1000 0=80000 / 1=90000 1=1000 0=80000
17 for one of two pixels: : 0=299 1=600 / 1=600 0=299
17 for the first of one pixel: : 0=256 0=5 / 0=5
17 for the second of one pixel: : 0=5 0=300 / 0=300
17 before 18: room=0: 0=299 1=411 / 1=411 0=299
24 for pixel 4: : 4=5 0=6 / 0=6 4=5
24 for pixel 16777216: : 16777216=5 0=6 / 0=6 16777216=5
24 for pixel 4294967296: : 0=6 4294967296=5 / 0=6
24 for pixel 18446744073709551615: : 18446744073709551615=5 w / -
19 for counts spelled otherwise: held=respelled: 0=5 1=600 / 1=600 0=5
19 for a byte behind the frame: held=behind: 0=5 0=600 / 0=600
19 for padding that is not zero: held=padding of=400,401,402,1000: 0=5 w / -
19 for a buffer less a byte: held=short room=0: 0=5 1=600 / 1=600 0=5
19 for no bytes: held=none: 0=5 1=600 / 1=600 0=5
20 for a withdrawal of nothing: ledger=w: 0=5 1=600 / 1=600 0=5
20 for a withdrawal of nothing behind others: ledger=akwww: 0=5 0=600 / 0=600
20 for more lines claimed than there are bytes for: ledger=k spare=31 beyond=2: 0=5 w / -
20 for bytes that are no lines claimed: ledger=k spare=64 beyond=2: 0=5 1=600 / 1=600 0=5
19 before 20: held=respelled ledger=w: 0=5 4=6 / 4=6 0=5
20 before 24: ledger=w: 4=5 0=6 / 0=6 4=5
24 before 21: spare=0: 4=5 0=6 / 0=6 4=5
21 before 17 and 18: spare=0 room=0: 0=299 1=600 / 1=600 0=299
a withdrawal more than there are lines: : 0=5 w w / -
a withdrawal more than corrections, of a line with another count: ledger=a: 0=5 w w / -
a withdrawal more than corrections, of a false old count: ledger=ec of=400,401,555,403: 0=5 w w / -
the counts that the pixels have: : 0=400 1=401 / 1=401 0=400 / - / 0=400 w
the counts that the pixels have, at edges: of=255,0,+255,+65535: 0=255 1=0 2=+255 3=+65535 / 3=+65535 2=+255 1=0 0=255 / - / 0=255 1=0 w w
one pixel's own count between others: : 0=600 0=400 1=5 / 1=5 / 1=5 0=400
another last count of one pixel: : 0=5 0=6 / 0=6 0=5
another count of one pixel: : 0=5 1=600 / 1=601 0=5
one pixel left out: : 0=5 1=600 / 0=5
a withdrawal of the other: : 0=5 1=600 w / 0=5 / 1=600";

/// Many corrections.
const LONG: &str = "\
24 of eight pixels: of=+1*8: 0=+300 1=0 2=+70000 3=5 4=+65535 5=+254 6=+255 7=+65534 0=+1 1=+70000 2=0 3=+300 4=+2 5=+3 6=4294967295 7=4 7=+300 6=+9 5=0 4=+255 3=+70000 2=+11 1=+12 0=+80000 / 0=0 0=+80000 1=+12 2=+11 3=+70000 4=+255 5=0 6=+9 7=+300 / 7=4 7=+300 6=4294967295 6=+9 5=+254 5=+3 5=0 4=+65535 4=+2 4=+255 3=5 3=+300 3=+70000 2=+70000 2=0 2=+11 1=0 1=+70000 1=+12 0=+300 0=+1 0=+80000
24 and as many withdrawals: of=+1*8: 0=+300 1=0 2=+70000 3=5 4=+65535 5=+254 6=+255 7=+65534 0=+1 1=+70000 2=0 3=+300 4=+2 5=+3 6=4294967295 7=4 7=+300 6=+9 5=0 4=+255 3=+70000 2=+11 1=+12 0=+80000 w*24 / -
one pixel 100 times: spare=3200: 2=9*50 2=1000*49 2=500 / 2=500 / 2=70000*99 2=500
100 corrections and 100 withdrawals: spare=3200 ledger=k: 2=9*50 1=1000*50 w*100 / -
100 and 99 withdrawals: spare=3200: 2=9 1=1000*99 w*99 / 2=9
two pixels in turn: : 0=5 1=600 0=6 1=700 0=7 1=800 0=8 1=900 / 1=900 0=8 / 0=5 0=6 0=7 0=8 1=600 1=700 1=800 1=900";

pub fn form(name: &str) -> (u32, u32) {
    let named = FORMS.into_iter().find(|form| form_name(*form) == name);
    named.unwrap_or_else(|| panic!("no form {name}"))
}

fn damage(name: &str) -> Damage {
    match name {
        "respelled" => RESPELLED,
        "behind" => |held| held.last_mut().into_iter().for_each(|byte| *byte = 1),
        "padding" => |held| held[7699] = 1,
        "short" => |held| held.truncate(held.len() - 1),
        "none" => Vec::clear,
        other => panic!("no damage {other}"),
    }
}

/// Changes what a row starts from by one word.
fn set(trial: &mut Trial, word: &str) {
    let (what, value) = word.split_once('=').unwrap_or((word, ""));
    let number = || value.parse().unwrap_or(0);
    match what {
        "of" => {
            let text = raised(value, base(trial.form));
            let counts = repeated(text.split(','));
            let count = |text: &&str| text.parse().ok();
            trial.pixels = counts.iter().filter_map(count).collect();
        }
        "form" => trial.form = form(value),
        "held" => trial.damage = damage(value),
        "room" => trial.room = number(),
        "spare" => trial.spare = number(),
        "beyond" => trial.beyond = number() as u64,
        _ => assert!(what == "ledger", "no word {word}"),
    }
}

/// The calls of a run, with what ends it.
fn run_steps(words: &str) -> Vec<Step> {
    let words = match words {
        "-" => Vec::new(),
        words => repeated(words.split_whitespace()),
    };
    [lettered::steps(&words.join(" ")), vec![ANEW]].concat()
}

/// What a row starts from, and its runs.
fn started((setup, runs): (&str, &str), form: (u32, u32)) -> Trial {
    let mut words = setup.split_whitespace();
    let ledger = words.clone().find_map(|word| word.strip_prefix("ledger="));
    let mut trial = trial(Call::Orders, ledger.unwrap_or(""));
    (trial.form, trial.pixels) = (form, OPENED.to_vec());
    (trial.room, trial.spare) = (64, 64 * BYTES);
    words.by_ref().for_each(|word| set(&mut trial, word));
    let runs = raised(runs, base(trial.form));
    trial.steps = runs.split(" / ").flat_map(run_steps).collect();
    trial.steps.pop();
    trial
}

/// The refusals of a run's calls, those of a long one in short if they are the same.
fn refusals(run: &Run) -> String {
    let refusals: Vec<u64> = run
        .outcome
        .met
        .iter()
        .map(|(_, refusal)| *refusal)
        .collect();
    match refusals[..] {
        [] => "no calls".to_string(),
        [first, ..] if refusals.len() > 12 && refusals.iter().all(|refusal| *refusal == first) => {
            format!("{first} for each of {}", refusals.len())
        }
        _ => joined(refusals.into_iter()),
    }
}

fn is_accepted(run: &Run) -> bool {
    run.outcome.met.iter().all(|(_, refusal)| *refusal == 0)
}

/// The counts held, where the frame ends, and a digest of NOVERFL and of all that is behind the header.
fn held(run: &Run) -> String {
    let held = &run.outcome.after.buffer;
    let (Some((words, _)), Ok(header)) = (held_words(held), frame::read_header(held)) else {
        return "no frame".to_string();
    };
    let counts = &held[20 * LINE + NAME..21 * LINE];
    let digest = digest(&[counts, &held[header.length..]].concat());
    format!("{words}, {digest:016x}")
}

/// A later run beside the first.
fn beside(first: &Run, run: &Run) -> String {
    let compared = match is_accepted(first) && is_accepted(run) {
        true => "",
        false => "not compared, ",
    };
    let bytes = match first.outcome.after.buffer == run.outcome.after.buffer {
        true => "same bytes".to_string(),
        false => format!("other bytes, {}", held(run)),
    };
    format!("{} -> {compared}{bytes}", refusals(run))
}

fn row_line(row: &str, form: (u32, u32)) -> String {
    let parts: Vec<&str> = row.splitn(3, ": ").collect();
    let [name, setup, runs] = parts[..] else {
        panic!("no row: {row}");
    };
    let (outcome, note) = both(&started((setup, runs), form).case());
    let [_, first, later @ ..] = &outcome.runs[..] else {
        panic!("no runs: {row}");
    };
    let later = later.iter().map(|run| format!("; {}", beside(first, run)));
    let later: String = later.collect();
    format!(
        "{name}: {} -> {}{later}{note}",
        refusals(first),
        held(first)
    )
}

/// The rows of all, in one form.
fn form_lines(form: (u32, u32)) -> impl Iterator<Item = String> {
    let named = move |row: &str| format!("form {}, {}", form_name(form), row_line(row, form));
    EACH_FORM.lines().map(named)
}

fn edge_lines(row: &'static str) -> impl Iterator<Item = String> {
    EDGES
        .into_iter()
        .map(move |edge| row_line(&row.replace('E', &edge.to_string()), (1, 1)))
}

fn lines() -> impl Iterator<Item = String> {
    let forms = FORMS.into_iter().flat_map(form_lines);
    let edges = EACH_EDGE.into_iter().flat_map(edge_lines);
    let rows = [TABLES, LEDGERS, REFUSED, LONG].into_iter();
    let rows = rows.flat_map(str::lines).map(|row| row_line(row, (1, 1)));
    forms.chain(edges).chain(rows)
}

pub fn run() -> bool {
    written_down::run("order", EXPECTED, lines())
}
