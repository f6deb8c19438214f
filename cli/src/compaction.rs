//! The command that compacts ledgers: the lines that stand are left alone, and what went is kept in a log.
use crate::args::Compact;
use crate::batch::Said;
use crate::clock;
use crate::compaction_log;
use crate::failure::{shown, Failure, Outcome};
use crate::files;
use crate::holding::{Change, Contents, Holding};
use crate::holdings::{accepted, each};
use crate::ledger::{self, Lent};
use crate::output::Output;
use serde_json::json;
use std::time::Duration;

pub fn compact(output: &mut Output, asked: &Compact, wait: Option<Duration>) -> Outcome<()> {
    let words = ["compacted", "already compact"];
    each(output, &asked.names, wait, &words, |holding, _| compacted(holding, !asked.no_log))
}

/// Asks first, so that no held file is read for a ledger that stays as it is.
fn compacted(holding: &Holding, logged: bool) -> Outcome<Said> {
    let asked = holding.ask_ledger()?;
    if standing(holding, &asked)?.is_none() {
        return Ok(already_compact(holding, &asked));
    }
    let (owned, found) = holding.change()?;
    let Some(ledger) = standing(holding, &found.ledger)? else { return Ok(already_compact(holding, &found.ledger)) };
    let (time, before, after) = (clock::now(), ledger::lines(&found.ledger), ledger::lines(&ledger));
    let log = if logged { Some(log(holding, &found, &time, &ledger)?) } else { None };
    let note = format!("# compacted {time} from {before} lines to {after}\n");
    let notes = found.notes().map(|notes| [notes, note.as_bytes()].concat());
    let change = Change { ledger: Some(&ledger), log: log.as_deref(), notes: notes.as_deref(), ..Change::default() };
    owned.commit(found.state, &change)?;
    Ok(said(holding, (before, after), logged))
}

/// The lines of a ledger that stand, where others would go.
fn standing(holding: &Holding, ledger: &[u8]) -> Outcome<Option<Vec<u8>>> {
    let mut lent = Lent::new(ledger.to_vec(), 0);
    let answer = quayrudder::compact(&mut lent.bytes, lent.lines);
    accepted(holding, answer.refusal, &lent.bytes)?;
    Ok((answer.lines < lent.lines).then(|| lent.used(answer.lines).to_vec()))
}

/// The log with this compaction in it. A file of its name that is no log of this holding stays.
fn log(holding: &Holding, found: &Contents, time: &str, ledger: &[u8]) -> Outcome<Vec<u8>> {
    if found.log.is_none() && files::exists(&holding.log)? {
        let why = "exists already, is no log of this holding and is kept. Move it away, or give --no-log";
        return Err(Failure::declined(&holding.log, why));
    }
    Ok(compaction_log::with_entry(found, &holding.name, time, ledger))
}

fn already_compact(holding: &Holding, ledger: &[u8]) -> Said {
    let (name, lines) = (shown(&holding.name), ledger::lines(ledger));
    let text = format!("{name}: already compact, {lines} lines, {lines} standing");
    Said { text, value: json!({"name": name, "already_compact": true, "lines": lines}), counted: "already compact" }
}

fn said(holding: &Holding, (before, after): (u64, u64), logged: bool) -> Said {
    let (name, log) = (shown(&holding.name), logged.then(|| shown(&holding.log)));
    let kept = log.as_ref().map_or("no log is kept".into(), |log| format!("the listing before is in {log}"));
    let text = format!("{name}: compacted from {before} lines to {after}; {kept}");
    let value = json!({"name": name, "lines_before": before, "lines": after, "log": log});
    Said { text, value, counted: "compacted" }
}
