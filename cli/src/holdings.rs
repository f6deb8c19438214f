//! The commands on holdings that touch one line: keep, withdraw, list.
use crate::args::Keep;
use crate::batch::Said;
use crate::clock::{self, date_text};
use crate::failure::{shown, Failure, Outcome, Refused};
use crate::given::Names;
use crate::holding::{Change, Holding};
use crate::ledger::{self, Entry, Lent, Line};
use crate::names::{self, Doubled, Item};
use crate::output::Output;
use crate::purge;
use crate::refusals::{sentence, withdraw_sentence, Sentences};
use crate::room;
use crate::shard::Shard;
use quayrudder::Date;
use serde_json::{json, Value};
use std::path::Path;
use std::time::Duration;

/// A question may be asked twice.
const LISTED: &str = "listed";

/// Works on the holdings that are named or lie below folders. One that is named twice is not changed: an answer would
/// depend on which came first.
pub fn each(
    output: &mut Output,
    asked: &Names,
    wait: Option<Duration>,
    done: &[&'static str],
    work: impl Fn(&Holding, bool) -> Outcome<Said> + Sync,
) -> Outcome<()> {
    let found = names::holdings(asked, Shard::WHOLE, |_| false)?;
    let wait = found.wait(wait);
    let name = |item: &Item| Holding::named(&item.path, None).map_or(item.path.clone(), |holding| holding.name);
    let doubled = match done {
        [LISTED] => Doubled::default(),
        _ => found.doubled(name, "it is named more than once in this batch. Name it once"),
    };
    found.each(output, done, |item| {
        let holding = Holding::named(&item.path, wait)?;
        doubled.must_not_have(item, &holding.name)?;
        work(&holding, found.many)
    })
}

pub fn keep(output: &mut Output, asked: &Keep, wait: Option<Duration>) -> Outcome<()> {
    let (names, date) = (&asked.dated.names, asked.dated.date);
    if names.single().is_none() {
        must_be_a_day(date, asked.shorten)?;
    }
    each(output, names, wait, &["kept", "already kept"], |holding, many| kept(holding, date, asked.shorten, many))
}

/// What every holding would answer alike is answered once.
fn must_be_a_day(date: Date, shorten: bool) -> Outcome<()> {
    let name = date_text(date);
    must_be_in_calendar(Path::new(&name), date)?;
    match shorten {
        true => Ok(()),
        false => must_not_shorten(Path::new(&name), date, None),
    }
}

/// A ledger of no lines answers 26 for a calendar date.
pub fn must_be_in_calendar(named: &Path, date: Date) -> Outcome<()> {
    match quayrudder::may_purge(&[], 0, date) {
        26 => Ok(()),
        number => Err(Failure::refused(named, number)),
    }
}

fn kept(holding: &Holding, date: Date, shorten: bool, many: bool) -> Outcome<Said> {
    let (owned, found) = holding.change()?;
    let mut lent = Lent::new(found.ledger.clone(), 1);
    let answer = quayrudder::keep(&mut lent.bytes, lent.lines, date);
    accepted(holding, answer.refusal, &lent.bytes)?;
    let former = purge::keep_line(&found.ledger).map(|keep| keep.until);
    let (name, until) = (shown(&holding.name), date_text(date));
    if many && former.as_ref() == Some(&until) {
        let text = format!("{name}: already kept until {until}");
        return Ok(Said { text, value: json!({"name": name, "already_kept": until}), counted: "already kept" });
    }
    if !shorten {
        must_not_shorten(&holding.name, date, former.as_deref())?;
    }
    let ledger = lent.used(answer.lines);
    owned.commit(found.state, &Change { ledger: Some(ledger), notes: found.notes(), ..Change::default() })?;
    let was = former.as_ref().map_or("no date before".into(), |former| format!("was {former}"));
    let line = answer.lines;
    let text = format!("{name}: line {line}: kept until {until} ({was})");
    let appended = json!({"line": line, "kind": "keep", "date": until, "withdrawn": false});
    Ok(Said { text, value: json!({"name": name, "appended": appended, "former": former}), counted: "kept" })
}

/// A slip in the date must not let a frame go early. Dates of this form are in the order of their texts.
fn must_not_shorten(name: &Path, date: Date, former: Option<&str>) -> Outcome<()> {
    let (date, today) = (date_text(date), date_text(clock::today()));
    let than = match former {
        Some(former) if date.as_str() < former => format!("{former}, until which it is kept"),
        _ if date < today => format!("today, {today}"),
        _ => return Ok(()),
    };
    let why = format!("{date} is before {than}. Nothing was changed. If that is meant, give --shorten");
    Err(Failure::declined(name, why))
}

pub fn withdraw(output: &mut Output, asked: &Names, wait: Option<Duration>) -> Outcome<()> {
    each(output, asked, wait, &["withdrawn"], |holding, _| withdrawn(holding))
}

fn withdrawn(holding: &Holding) -> Outcome<Said> {
    let (owned, mut found) = holding.change()?;
    let mut lent = Lent::new(found.ledger.clone(), 1);
    let answer = room::lend(&mut found.held, |held| quayrudder::withdraw(held, &mut lent.bytes, lent.lines));
    accepted_or(holding, answer.refusal, &lent.bytes, withdraw_sentence)?;
    let ledger = lent.used(answer.lines);
    let change = Change { held: Some(&found.held), ledger: Some(ledger), notes: found.notes(), ..Change::default() };
    owned.commit(found.state, &change)?;
    let taken = ledger::last_standing(&ledger::listing(&found.ledger));
    let (mut text, mut value) = withdrawal(holding, answer.lines, taken.as_ref());
    if let Some(Line { entry: Entry::Keep { .. }, .. }) = taken {
        let now = purge::keep_line(ledger).map(|keep| keep.until);
        text += &now.as_ref().map_or("; no keep date stands now".into(), |now| format!("; now kept until {now}"));
        value["kept_until"] = json!(now);
    }
    Ok(Said { text, value, counted: "withdrawn" })
}

/// What is said of a withdrawal, the line of this number, and of the line that it takes back.
pub fn withdrawal(holding: &Holding, line: u64, taken: Option<&Line>) -> (String, Value) {
    let name = shown(&holding.name);
    let (mut text, mut value) = (format!("{name}: line {line}"), json!({"name": name, "line": line}));
    if let Some(taken) = taken {
        text += &format!(" withdraws line {}: {}", taken.number, line_text(taken));
        value["withdraws"] = line_value(taken);
    }
    (text, value)
}

pub fn accepted(holding: &Holding, refusal: u32, ledger: &[u8]) -> Outcome<()> {
    accepted_or(holding, refusal, ledger, sentence)
}

pub fn accepted_or(holding: &Holding, refusal: u32, ledger: &[u8], sentences: Sentences) -> Outcome<()> {
    match refusal {
        0 => Ok(()),
        number => Err(refused(holding, number, ledger, sentences)),
    }
}

/// A refusal names the file that it is about, and has its sentence from these.
pub fn refused(holding: &Holding, number: u32, ledger: &[u8], sentences: Sentences) -> Failure {
    let (file, note) = match number {
        17 | 18 | 19 | 23 | 24 => (&holding.held, String::new()),
        20 => (&holding.ledger, ledger::length_note(ledger)),
        _ => (&holding.name, String::new()),
    };
    let (file, said) = (file.clone(), sentences(number));
    Failure::Refused(Refused { file, number, place: 0, column: 0, note, said })
}

pub fn line_text(line: &Line) -> String {
    match &line.entry {
        Entry::Correct { pixel, old, new } => format!("pixel {pixel} corrected from {old} to {new}"),
        Entry::Keep { date } => format!("kept until {date}"),
        Entry::Withdraw => "withdrawal".to_string(),
    }
}

pub fn line_value(line: &Line) -> Value {
    let (number, withdrawn) = (line.number, line.withdrawn);
    match &line.entry {
        Entry::Correct { pixel, old, new } => json!({
            "line": number, "kind": "correct", "pixel": pixel, "old": old, "new": new, "withdrawn": withdrawn,
        }),
        Entry::Keep { date } => json!({"line": number, "kind": "keep", "date": date, "withdrawn": withdrawn}),
        Entry::Withdraw => json!({"line": number, "kind": "withdraw"}),
    }
}

pub fn list(output: &mut Output, asked: &Names, wait: Option<Duration>) -> Outcome<()> {
    each(output, asked, wait, &[LISTED], listed)
}

/// The listing; that of one of many stands below its name.
fn listed(holding: &Holding, many: bool) -> Outcome<Said> {
    let bytes = holding.ask(Holding::read_ledger)?;
    accepted(holding, ledger::refusal(&bytes), &bytes)?;
    let (name, listing) = (shown(&holding.name), ledger::listing(&bytes));
    let mut lines: Vec<Line> = ledger::backwards(&listing).collect();
    lines.reverse();
    let standing = lines.iter().filter(|line| !line.withdrawn && line.entry != Entry::Withdraw).count();
    let values: Vec<Value> = lines.iter().map(line_value).collect();
    let value = json!({"name": name, "lines": values, "standing": standing});
    let indented: String = listing.lines().map(|line| format!("\n  {line}")).collect();
    let text = if many { format!("{name}:{indented}") } else { listing };
    Ok(Said { text, value, counted: LISTED })
}
