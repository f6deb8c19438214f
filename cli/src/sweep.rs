//! The purge job: every ledger below a folder is asked, and holdings go only where that is asked for.
use crate::args::Sweep;
use crate::clock::{self, date_text};
use crate::failure::{shown, Failure, Outcome, DAMAGED, DONE, MACHINE};
use crate::files;
use crate::holding::{Holding, Owned};
use crate::holdings::must_be_in_calendar;
use crate::locks;
use crate::output::{progress, Output};
use crate::purge::{self, Keep, Purge};
use crate::purge_log::Log;
use crate::refusals::sentence;
use crate::removal::Interrupted;
use crate::shard::Shard;
use crate::totals::{self, Totals};
use crate::walk::{self, Kind, Lies};
use quayrudder::Date;
use rayon::prelude::*;
use serde_json::{json, Value};
use std::fs;
use std::path::{Path, PathBuf};
use std::time::Duration;

/// So many ledgers are asked at once, and then said in order.
const BATCH: usize = 1024;

/// What a ledger answers, or what became of its holding.
#[derive(Clone, Debug, PartialEq, Eq)]
enum Answer {
    Asked(Purge),
    /// With a record beside it: what that says is settled where the holding goes, and it is asked there.
    Unsettled,
    Gone(Gone),
    Refused {
        number: u32,
    },
    Failed {
        why: String,
        status: u8,
    },
    NotAHolding,
}

/// What went, and the line that decided it, unless an earlier sweep began and took the ledger.
#[derive(Clone, Debug, PartialEq, Eq)]
struct Gone {
    /// Where it was moved to; else it was deleted.
    to: Option<PathBuf>,
    by: Option<Keep>,
}

/// What is to be done with a holding that may go.
struct Job<'a> {
    folder: &'a Path,
    day: Date,
    removes: bool,
    /// Moved into this folder, where one is named; else deleted.
    into: Option<&'a Path>,
    wait: Duration,
    shard: Shard,
}

pub fn sweep(output: &mut Output, asked: &Sweep, wait: Duration) -> Outcome<()> {
    let day = asked.day.unwrap_or_else(clock::today);
    let removes = asked.delete || asked.into.is_some();
    let job = Job { folder: &asked.folder, day, removes, into: asked.into.as_deref(), wait, shard: asked.shard };
    job.must_be_a_day()?;
    let found = walk::find(&asked.folder, job.left_out()?.as_deref(), asked.shard)?;
    let mut log = if removes { Some(job.log(asked.log.as_deref())?) } else { None };
    let mut totals = Totals::new(totals::Kind::Sweep { day: date_text(day) }, asked.shard);
    totals.begin(output, &found)?;
    let names: Vec<(PathBuf, Lies)> = found.names.into_iter().collect();
    let bar = progress(names.len() as u64, "ledgers");
    for batch in names.chunks(BATCH) {
        let answers: Vec<Option<Answer>> =
            batch.par_iter().map(|(name, lies)| job.ask(name, lies)).inspect(|_| bar.inc(1)).collect();
        bar.suspend(|| job.say_batch(output, batch, answers, &mut log, &mut totals))?;
    }
    bar.finish_and_clear();
    totals.say(output)
}

impl Job<'_> {
    /// The day is judged before anything is walked.
    fn must_be_a_day(&self) -> Outcome<()> {
        let (option, today) = (Path::new("--day"), clock::today());
        must_be_in_calendar(option, self.day)?;
        if self.removes && clock::is_before(today, self.day) {
            let (day, today) = (date_text(self.day), date_text(today));
            let why = format!("{day} is after today, {today}. Nothing goes for a day that has not come");
            return Err(Failure::declined(option, why));
        }
        Ok(())
    }

    /// The folder that is moved into may lie below the one that is swept.
    fn left_out(&self) -> Outcome<Option<PathBuf>> {
        match self.into.and_then(|into| walk::inside(into, self.folder)) {
            Some(into) if into == self.folder => Err(Failure::Usage("--into must name another folder than DIR".into())),
            inside => Ok(inside),
        }
    }

    fn log(&self, named: Option<&Path>) -> Outcome<Log> {
        let usual = || self.folder.join(self.usual_log());
        Log::open(named.map_or_else(usual, Path::to_path_buf), &date_text(self.day))
    }

    /// One for each shard: two machines that append to one file over a network may lose entries.
    fn usual_log(&self) -> String {
        match self.shard {
            Shard::WHOLE => "quayrudder-purge.log".into(),
            Shard { number, of } => format!("quayrudder-purge.{number}-of-{of}.log"),
        }
    }

    /// The holding of a ledger that was found. Its name ends in none of a holding's endings, or they are part of it.
    fn holding(&self, name: &Path) -> Holding {
        Holding::exactly(name, Some(self.wait))
    }

    /// None where there is nothing to be said.
    fn ask(&self, name: &Path, lies: &Lies) -> Option<Answer> {
        match lies.kind(name) {
            Kind::Stranger => Some(Answer::NotAHolding),
            Kind::Nothing => None,
            Kind::Rest => {
                if self.removes {
                    let _ = self.clear(name, lies);
                }
                None
            }
            Kind::Holding if self.removes && lies.redo => Some(Answer::Unsettled),
            Kind::Holding => {
                let asked = self.holding(name).ask_ledger();
                Some(asked.map_or_else(|failure| Answer::failed(&failure), |ledger| self.answer(&ledger)))
            }
        }
    }

    fn answer(&self, ledger: &[u8]) -> Answer {
        purge::ask(ledger, self.day).map_or_else(|number| Answer::Refused { number }, Answer::Asked)
    }

    /// Removes what a killed process left where no holding came to be, or where one has gone.
    fn clear(&self, name: &Path, lies: &Lies) -> Outcome<()> {
        let holding = self.holding(name);
        let is_ours = fs::read(&holding.lock).is_ok_and(|mark| mark.starts_with(locks::MARK.as_bytes()));
        if is_ours || !lies.leftovers.is_empty() {
            let owned = holding.lock_alone()?;
            if holding.must_exist().is_err() {
                lies.leftovers.iter().try_for_each(|path| files::remove(path))?;
            }
            owned.leave_no_lock();
        }
        Ok(())
    }

    /// Takes away what may go, in path order, and says each answer.
    fn say_batch(
        &self,
        output: &mut Output,
        names: &[(PathBuf, Lies)],
        answers: Vec<Option<Answer>>,
        log: &mut Option<Log>,
        totals: &mut Totals,
    ) -> Outcome<()> {
        for ((name, lies), found) in names.iter().zip(answers) {
            let last = match (found, log.as_mut()) {
                (None, _) => continue,
                (Some(Answer::Asked(Purge::Yes(_)) | Answer::Unsettled), Some(log)) => self.remove(name, lies, log)?,
                (Some(found), _) => found,
            };
            totals.count(&["ledgers", last.word()]);
            output.status(last.status());
            let said = output.say(&last.text(name), &last.value(name));
            said.map_err(|failure| failure.so(format!("The sweep ended at {}.", shown(name))))?;
        }
        Ok(())
    }

    /// With nobody else at the holding. A log that cannot be written ends the sweep.
    fn remove(&self, name: &Path, lies: &Lies, log: &mut Log) -> Outcome<Answer> {
        let holding = self.holding(name);
        match holding.own_to_remove() {
            Ok((owned, Some(removal))) => self.finish(&owned, &removal, log),
            Ok((owned, None)) => self.begin(&owned, lies, log),
            Err(failure) => Ok(Answer::failed(&failure)),
        }
    }

    /// Asks again, and only then takes the holding away.
    fn begin(&self, owned: &Owned, lies: &Lies, log: &mut Log) -> Outcome<Answer> {
        let name = &owned.holding.name;
        let cleared = lies.leftovers.iter().try_for_each(|path| files::remove(path));
        let contents = match cleared.and_then(|()| owned.holding.read_plain()) {
            Ok(contents) => contents,
            Err(failure) => return Ok(Answer::failed(&failure)),
        };
        let by = match self.answer(&contents.ledger) {
            Answer::Asked(Purge::Yes(keep)) => keep,
            again => return Ok(again),
        };
        let into = self.into.map(|into| into.join(name.strip_prefix(self.folder).unwrap_or(name)));
        let what = into.as_ref().map_or("deleting".into(), |to| format!("moving to {}", shown(to)));
        log.before(&what, name, &contents, &by)?;
        let removed = owned.remove(contents.state, into.as_deref());
        log_removal(owned, removed, Gone { to: into, by: Some(by) }, log)
    }

    /// The ledger, while it is here, is the one that was asked when this began.
    fn finish(&self, owned: &Owned, removal: &Interrupted, log: &mut Log) -> Outcome<Answer> {
        log.after("finishing what was cut short", &owned.holding.name)?;
        let ledger = files::read_if_there(&owned.holding.ledger).ok().flatten();
        let by = ledger.and_then(|ledger| purge::keep_line(&ledger));
        let removed = owned.remove_the_rest(removal);
        log_removal(owned, removed, Gone { to: removal.into.clone(), by }, log)
    }
}

fn log_removal(owned: &Owned, removed: Outcome<()>, gone: Gone, log: &mut Log) -> Outcome<Answer> {
    let (name, done) = (&owned.holding.name, gone.word());
    match removed {
        Ok(()) => log.after(done, name).map(|()| Answer::Gone(gone)),
        Err(failure) => {
            log.after(&owned.remains(done), name)?;
            Ok(Answer::failed(&failure))
        }
    }
}

impl Gone {
    fn word(&self) -> &'static str {
        match self.to {
            Some(_) => "moved",
            None => "deleted",
        }
    }
}

impl Answer {
    fn failed(failure: &Failure) -> Answer {
        Answer::Failed { why: failure.reason(), status: failure.status().max(MACHINE) }
    }

    fn status(&self) -> u8 {
        match self {
            Answer::Refused { .. } => DAMAGED,
            Answer::Failed { status, .. } => *status,
            _ => DONE,
        }
    }

    fn word(&self) -> &'static str {
        match self {
            Answer::Asked(answer) => answer.word(),
            Answer::Gone(gone) => gone.word(),
            Answer::Refused { .. } => "refused",
            Answer::Failed { .. } | Answer::Unsettled => "failed",
            Answer::NotAHolding => "not a holding",
        }
    }

    /// The line that decides or has decided.
    fn by(&self) -> Option<&Keep> {
        match self {
            Answer::Asked(answer) => answer.keep(),
            Answer::Gone(gone) => gone.by.as_ref(),
            _ => None,
        }
    }

    fn text(&self, name: &Path) -> String {
        let mut text = format!("{:<13} {}", self.word(), shown(name));
        match self {
            Answer::Gone(Gone { to: Some(to), .. }) => text += &format!("  to {}", shown(to)),
            Answer::Refused { number } => text += &format!("  refusal {number}: {}", sentence(*number).meaning),
            Answer::Failed { why, .. } => text += &format!("  {why}"),
            _ => {}
        }
        match (self, self.by()) {
            (_, None) => text,
            (Answer::Asked(Purge::NotYet(_)), Some(keep)) => format!("{text}  {}", keep.present()),
            (_, Some(keep)) => format!("{text}  {}", keep.past()),
        }
    }

    fn value(&self, name: &Path) -> Value {
        let mut value = json!({"name": shown(name), "answer": self.word()});
        match self {
            Answer::Gone(Gone { to: Some(to), .. }) => value["to"] = json!(shown(to)),
            Answer::Refused { number } => value["refusal"] = json!(number),
            Answer::Failed { why, .. } => value["failed"] = json!(why),
            _ => {}
        }
        if let Some(keep) = self.by() {
            keep.add_to(&mut value);
        }
        value
    }
}
