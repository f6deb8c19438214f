//! `quayrudder`: the archive's command. What a frame, a ledger or a date is worth, the proved library decides.
#![forbid(unsafe_code)]

mod args;
mod batch;
mod clock;
mod compaction;
mod compaction_log;
mod completions;
mod corrections;
mod digest;
mod dtrek;
mod expand;
mod failure;
mod files;
mod formats;
mod frames;
mod given;
mod holding;
mod holdings;
mod info;
mod ledger;
mod locks;
mod mar;
mod names;
mod opening;
mod options;
mod output;
mod outputs;
mod picture;
mod pixels;
mod purge;
mod purge_log;
mod redo;
mod refusals;
mod removal;
mod report;
mod room;
mod rows;
mod scale_bar;
mod shard;
mod streams;
mod sums;
mod sweep;
mod table;
mod total;
mod totals;
mod verify;
mod view;
mod walk;
mod why;

use args::{Cli, Command};
use clap::Parser;
use failure::{Failure, Outcome, MACHINE};
use holding::Holding;
use output::Output;
use std::process::ExitCode;
use std::time::Duration;

/// How long a sweep waits for one holding.
const SWEEP_WAIT: u32 = 10;

fn main() -> ExitCode {
    clock::forget_the_callers_zone();
    cbf::without_temporary_files();
    let (mut output, done) = match Cli::try_parse() {
        Ok(cli) => {
            let mut output = Output::new(cli.json);
            let done = run(&mut output, cli.command, cli.wait);
            (output, done)
        }
        Err(error) => (Output::new(true), Err(misused(&error))),
    };
    let said = done.or_else(|failure| output.failed(&failure));
    if said.is_err() {
        output.status(MACHINE);
    }
    ExitCode::from(output.worst())
}

/// With --json, bad usage is said as any other failure. Else the parser says it, as it says help and version.
fn misused(error: &clap::Error) -> Failure {
    if !error.use_stderr() || !std::env::args_os().any(|word| word == "--json") {
        error.exit();
    }
    let text = error.to_string();
    Failure::Usage(text.trim_start_matches("error: ").trim_end().to_string())
}

fn run(output: &mut Output, command: Command, seconds: Option<u32>) -> Outcome<()> {
    let wait = seconds.map(|number| Duration::from_secs(number.into()));
    match command {
        Command::Info(asked) => info::info(output, &asked),
        Command::Expand(asked) => expand::expand(output, &asked),
        Command::View(asked) => view::view(output, &asked),
        Command::Write(asked) => frames::write(output, &asked),
        Command::Open(asked) => opening::open(output, &asked, wait),
        Command::Correct(asked) => corrections::correct(output, &asked, wait),
        Command::Amend { name, count } => corrections::amend(output, &Holding::named(&name, wait)?, count),
        Command::Keep(asked) => holdings::keep(output, &asked, wait),
        Command::Withdraw { names } => holdings::withdraw(output, &names, wait),
        Command::Compact(asked) => compaction::compact(output, &asked, wait),
        Command::List { names } => holdings::list(output, &names, wait),
        Command::MayPurge { name, day } => purge::may_purge(output, &Holding::named(&name, wait)?, day),
        Command::Why(asked) => why::why(output, &asked, wait),
        Command::Verify(asked) => verify::verify(output, &asked, wait),
        Command::Sweep(asked) => {
            let seconds = seconds.unwrap_or(SWEEP_WAIT);
            sweep::sweep(output, &asked, Duration::from_secs(seconds.into()))
        }
        Command::Report(asked) => report::report(output, &asked, wait),
        Command::Total { files } => total::total(output, &files),
        Command::Completions { shell } => completions::completions(output, shell),
    }
}
