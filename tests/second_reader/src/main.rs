//! Holds the library against a second reader: `compare --seed N --seconds S`, `replay FILE`, and frames in files.
#![forbid(unsafe_code)]

mod amend_trials;
mod case;
mod compact_trials;
mod compare;
mod dtrek;
mod dtrek_cases;
mod dtrek_file;
mod dtrek_trials;
mod fault;
mod files;
mod frame;
mod further;
mod generate;
mod held;
mod held_trial;
mod ledger;
mod lettered;
mod library;
mod listing;
mod mar;
mod mar_trials;
mod model;
mod order_claims;
mod order_kinds;
mod order_trials;
mod plate;
mod plates;
mod random;
mod sample;
mod smallest;
mod smallest_cases;
mod smallest_claims;
mod smallest_kinds;
mod smallest_trials;
mod tally;
#[cfg(test)]
mod trials;
mod why_claims;
mod why_trials;
mod written_down;

use case::{Call, Case, Mutation};
use fault::Fault;
use plates::Plates;
use random::Random;
use std::process::ExitCode;
use std::time::{Duration, Instant, SystemTime, UNIX_EPOCH};
use tally::Tally;

const USAGE: &str =
    "second_reader compare [--seed N] [--seconds S] [--fault 1..10] [--case FILE] [--trace 1]\n\
                     second_reader replay FILE [--fault 1..10]\n\
                     second_reader mar-trials\n\
                     second_reader dtrek-trials\n\
                     second_reader amend-trials\n\
                     second_reader compact-trials\n\
                     second_reader why-trials\n\
                     second_reader order-trials\n\
                     second_reader smallest-trials\n\
                     second_reader expand FRAME PIXELS\n\
                     second_reader expand-dtrek FILE PIXELS\n\
                     second_reader store HEADER PIXELS WIDTH UNDERFLOW FRAME";

struct Options {
    seed: u64,
    seconds: u64,
    fault: Fault,
    file: String,
    /// Writes each case before it is run, for a library that ends the program.
    trace: bool,
}

fn options(words: &[&str]) -> Option<Options> {
    let now = SystemTime::now().duration_since(UNIX_EPOCH).ok()?;
    let mut found = Options {
        seed: now.as_secs(),
        seconds: 20,
        fault: Fault::None,
        file: "difference.case".to_string(),
        trace: false,
    };
    for pair in words.chunks(2) {
        let [name, value] = pair else { return None };
        match *name {
            "--seed" => found.seed = value.parse().ok()?,
            "--seconds" => found.seconds = value.parse().ok()?,
            "--fault" => found.fault = Fault::numbered(value.parse().ok()?)?,
            "--case" => found.file = value.to_string(),
            "--trace" => found.trace = *value == "1",
            _ => return None,
        }
    }
    Some(found)
}

fn report(options: &Options, case: &Case) {
    println!("{}", compare::describe(options.fault, case));
    save(options, case);
    println!("case written to {}", options.file);
}

fn save(options: &Options, case: &Case) {
    if let Err(error) = std::fs::write(&options.file, case.to_text()) {
        panic!("{} cannot be written: {error}", options.file);
    }
}

/// Runs a case on both sides. False, and the case reported, where they differ.
fn agree(options: &Options, tally: &mut Tally, base: &Case, mutations: Vec<Mutation>) -> bool {
    let case = base.mutated(&mutations);
    if options.trace {
        save(options, &case);
    }
    let left = compare::by_library(options.fault, &case);
    let right = compare::by_second_reader(&case);
    tally.add(&case, &right);
    if left != right {
        println!("difference in case {}", tally.cases());
        report(options, &compare::shrink(options.fault, base, mutations));
    }
    left == right
}

/// Whether to go on: for the seconds asked, and on a slow machine up to four times as long until every refusal and every kind of ledger was met.
fn goes_on(options: &Options, tally: &Tally, elapsed: Duration) -> bool {
    let asked = Duration::from_secs(options.seconds);
    elapsed < asked || (elapsed < 4 * asked && !tally.all_reached())
}

/// One case in so many has a whole mar image.
const WHOLE_IMAGE: u64 = 400;

/// Whether both sides agree on the case with this number.
fn next(
    options: &Options,
    tally: &mut Tally,
    random: &mut Random,
    plates: &mut Plates,
    number: u64,
) -> bool {
    if number % WHOLE_IMAGE == WHOLE_IMAGE / 2 {
        let (side, base, damage) = plates.case(random);
        tally.add_plate(side);
        return agree(options, tally, base, damage);
    }
    let made = generate::case(random, number);
    tally.add_size(made.size);
    tally.add_rare(made.rare);
    agree(options, tally, &made.base, made.damage)
}

fn run_all(options: &Options, tally: &mut Tally) -> bool {
    let start = Instant::now();
    let mut random = Random(options.seed);
    let mut same = generate::calendar()
        .iter()
        .all(|case| agree(options, tally, case, Vec::new()));
    let mut plates = Plates::new(&mut random);
    let mut number = 0;
    while same && goes_on(options, tally, start.elapsed()) {
        same = next(options, tally, &mut random, &mut plates, number);
        number += 1;
    }
    println!("{:.2} s", start.elapsed().as_secs_f64());
    same
}

fn run_compare(options: &Options) -> ExitCode {
    println!("seed {}", options.seed);
    let mut tally = Tally::default();
    if !run_all(options, &mut tally) {
        return ExitCode::FAILURE;
    }
    tally.print();
    if tally.all_reached() {
        ExitCode::SUCCESS
    } else {
        ExitCode::FAILURE
    }
}

fn run_replay(file: &str, options: &Options) -> ExitCode {
    let text = std::fs::read_to_string(file).unwrap_or_default();
    let Some(case) = Case::from_text(&text) else {
        eprintln!("{file} is no case");
        return ExitCode::from(2);
    };
    println!("{} case", case.step.call.name());
    print!("{}", compare::describe(options.fault, &case));
    if compare::differ(options.fault, &case) {
        println!("differs");
        return ExitCode::FAILURE;
    }
    println!("the same");
    ExitCode::SUCCESS
}

fn verdict(result: std::io::Result<bool>) -> ExitCode {
    match result {
        Ok(true) => ExitCode::SUCCESS,
        Ok(false) => ExitCode::FAILURE,
        Err(error) => {
            eprintln!("{error}");
            ExitCode::from(2)
        }
    }
}

fn run(words: &[&str]) -> Option<ExitCode> {
    match words {
        ["compare", rest @ ..] => Some(run_compare(&options(rest)?)),
        ["replay", file, rest @ ..] => Some(run_replay(file, &options(rest)?)),
        ["mar-trials"] => Some(verdict(Ok(mar_trials::run()))),
        ["dtrek-trials"] => Some(verdict(Ok(dtrek_trials::run()))),
        ["amend-trials"] => Some(verdict(Ok(amend_trials::run()))),
        ["compact-trials"] => Some(verdict(Ok(compact_trials::run()))),
        ["why-trials"] => Some(verdict(Ok(why_trials::run()))),
        ["order-trials"] => Some(verdict(Ok(order_trials::run()))),
        ["smallest-trials"] => Some(verdict(Ok(smallest_trials::run()))),
        ["expand", frame, pixels] => Some(verdict(files::expand(Call::Read, frame, pixels))),
        ["expand-dtrek", file, pixels] => {
            Some(verdict(files::expand(Call::DtrekRead, file, pixels)))
        }
        ["store", header, pixels, width, underflow, frame] => {
            let form = (width.parse().ok()?, underflow.parse().ok()?);
            Some(verdict(files::store(header, pixels, form, frame)))
        }
        _ => None,
    }
}

fn main() -> ExitCode {
    let words: Vec<String> = std::env::args().skip(1).collect();
    let words: Vec<&str> = words.iter().map(String::as_str).collect();
    run(&words).unwrap_or_else(|| {
        eprintln!("{USAGE}");
        ExitCode::from(2)
    })
}
