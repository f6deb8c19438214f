//! The check of holdings, by name or all those below a folder: files against their sums, held frame against ledger.
use crate::args::Verify;
use crate::batch;
use crate::failure::{shown, Failure, Outcome, DAMAGED};
use crate::holding::{Change, Contents, Holding};
use crate::holdings::{accepted, accepted_or};
use crate::ledger::{self, Lent};
use crate::names::{self, Found, Item};
use crate::output::Output;
use crate::refusals::withdraw_sentence;
use crate::room;
use crate::shard::Shard;
use crate::sums;
use crate::totals::{self, Totals};
use serde_json::{json, Value};
use std::path::Path;
use std::time::Duration;

/// What a holding that agrees has.
pub struct Verdict {
    lines: u64,
    standing: u64,
    sums: Sealed,
    frame: Option<String>,
}

#[derive(Clone, Copy, PartialEq, Eq)]
pub enum Sealed {
    Before,
    Now,
    No,
}

impl Sealed {
    pub fn of(found: &Contents) -> Sealed {
        match found.sums {
            Some(_) => Sealed::Before,
            None => Sealed::No,
        }
    }

    /// The word for it in JSON.
    pub fn word(self) -> &'static str {
        match self {
            Sealed::Before => "agree",
            Sealed::Now => "made",
            Sealed::No => "none",
        }
    }
}

pub fn verify(output: &mut Output, asked: &Verify, wait: Option<Duration>) -> Outcome<()> {
    let mut totals = Totals::new(totals::Kind::Verify, asked.shard);
    let found = names::holdings(&asked.names, asked.shard, is_folder)?;
    if asked.shard != Shard::WHOLE {
        must_be_folders(&found)?;
    }
    let wait = found.wait(wait);
    totals.begin(output, &found.walked)?;
    totals.count_many("not a holding", found.not_holdings);
    let work = |item: &Item| verdict(&item.path, asked.seal, wait);
    let (things, length) = (found.things.name(), |item: &Item| found.things.length(item));
    batch::run(output, &found.items, things, length, work, |output, item, verdict| {
        totals.count(counted(&verdict));
        match verdict {
            Ok(verdict) => {
                let name = Holding::named(&item.path, None)?.name;
                output.say(&verdict.text(&name), &verdict.value(&name))
            }
            Err(failure) => output.failed(&failure),
        }
    })?;
    if found.listed {
        totals.say(output)
    } else {
        Ok(())
    }
}

/// A folder stands for the holdings below it, unless there is a holding of its name.
fn is_folder(path: &Path) -> bool {
    path.is_dir() && !Holding::named(path, None).is_ok_and(|holding| holding.must_exist().is_ok())
}

/// Only a name below a folder is in a shard.
fn must_be_folders(found: &Found) -> Outcome<()> {
    match found.items.iter().find(|item| !item.is_below()) {
        Some(item) => Err(Failure::Usage(format!("--shard divides folders, and `{}` is none", shown(&item.path)))),
        None => Ok(()),
    }
}

/// The words under which a verdict is counted.
fn counted(verdict: &Outcome<Verdict>) -> &'static [&'static str] {
    match verdict.as_ref().map(|verdict| verdict.sums) {
        Ok(Sealed::Before) => &["holdings", "agree"],
        Ok(Sealed::Now) => &["holdings", "agree", "sums made"],
        Ok(Sealed::No) => &["holdings", "agree", "without sums"],
        Err(failure) if failure.status() == DAMAGED => &["holdings", "damaged"],
        Err(_) => &["holdings", "failed"],
    }
}

fn verdict(name: &Path, seal: bool, wait: Option<Duration>) -> Outcome<Verdict> {
    let holding = Holding::named(name, wait)?;
    let found = holding.ask(Holding::read_whole)?;
    let sums = Sealed::of(&found);
    if seal && sums == Sealed::No {
        return sealed(&holding);
    }
    checked(&holding, found, sums)
}

/// Checks the holding with nobody else at it, and gives it sums.
fn sealed(holding: &Holding) -> Outcome<Verdict> {
    let (owned, found) = holding.change()?;
    let (state, sums) = (found.state, found.sums.is_some());
    let verdict = checked(holding, found, if sums { Sealed::Before } else { Sealed::Now })?;
    if !sums {
        owned.commit(state, &Change { notes: Some(b""), ..Change::default() })?;
    }
    Ok(verdict)
}

pub fn checked(holding: &Holding, found: Contents, sums: Sealed) -> Outcome<Verdict> {
    let frame = found.sums.and_then(|sums| sums::noted_frame(&sums.notes));
    let mut held = found.held;
    stands(holding, &mut held)?;
    let lines = ledger::lines(&found.ledger);
    let mut lent = Lent::new(found.ledger, lines);
    let refusal = withdraw_all(&mut held, &mut lent);
    if refusal != 22 {
        accepted_or(holding, refusal, &lent.bytes, withdraw_sentence)?;
    }
    Ok(Verdict { lines, standing: lent.lines - lines, sums, frame })
}

/// Is the held file a frame as the writer makes it? A correction of no pixel changes nothing: 24, or else 19.
fn stands(holding: &Holding, held: &mut [u8]) -> Outcome<()> {
    match quayrudder::correct(held, &mut [], 0, u64::MAX, 0).refusal {
        24 => Ok(()),
        number => accepted(holding, number, &[]),
    }
}

/// Takes back every line that stands, in copies of both files: 22 where held frame and ledger agree.
fn withdraw_all(held: &mut Vec<u8>, lent: &mut Lent) -> u32 {
    loop {
        let answer = room::lend(held, |held| quayrudder::withdraw(held, &mut lent.bytes, lent.lines));
        if answer.refusal != 0 {
            return answer.refusal;
        }
        lent.lines = answer.lines;
    }
}

impl Verdict {
    fn text(&self, name: &Path) -> String {
        let (name, counts) = (shown(name), format!("{} lines, {} standing", self.lines, self.standing));
        match self.sums {
            Sealed::Before => format!("{name}: held frame, ledger and sums agree, {counts}"),
            Sealed::Now => format!("{name}: held frame and ledger agree, {counts}; sums made"),
            Sealed::No => {
                format!("{name}: held frame and ledger agree, {counts}; it has no sums: --seal makes them")
            }
        }
    }

    fn value(&self, name: &Path) -> Value {
        json!({
            "name": shown(name), "agree": true, "lines": self.lines, "standing": self.standing,
            "sums": self.sums.word(), "frame_sha256": self.frame,
        })
    }
}
