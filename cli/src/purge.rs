//! The purge question: what a ledger answers for a day, and the keep line that decides.
use crate::failure::{shown, Outcome, DONE, NO};
use crate::holding::Holding;
use crate::holdings::refused;
use crate::ledger::{self, Entry, Line};
use crate::output::Output;
use crate::refusals::sentence;
use quayrudder::Date;
use serde_json::{json, Value};
use std::path::Path;

/// The first day of the calendar, which no keep date is before: whatever the line, the answer for it is 27 or 26.
const FIRST_DAY: Date = Date { year: 1, month: 1, day: 1 };

/// The keep line that decides, the last that stands: its number in the listing and its date.
#[derive(Clone, Debug, PartialEq, Eq)]
pub struct Keep {
    pub line: u64,
    pub until: String,
}

/// What a ledger answers: yes, or one of the two kinds of no.
#[derive(Clone, Debug, PartialEq, Eq)]
pub enum Purge {
    Yes(Keep),
    NotYet(Keep),
    NoKeepLine,
}

/// The library's answer, or the number of its refusal. A yes without its line would be none.
pub fn ask(ledger: &[u8], day: Date) -> Result<Purge, u32> {
    let answer = quayrudder::why_day(ledger, ledger::lines(ledger), day);
    match (answer.refusal, ledger::line(ledger, answer.line).and_then(Keep::of)) {
        (0, Some(keep)) => Ok(Purge::Yes(keep)),
        (27, Some(keep)) => Ok(Purge::NotYet(keep)),
        (26, _) => Ok(Purge::NoKeepLine),
        (number, _) => Err(number),
    }
}

/// The keep line that decides, whatever the day.
pub fn keep_line(ledger: &[u8]) -> Option<Keep> {
    ask(ledger, FIRST_DAY).ok()?.keep().cloned()
}

/// The answer of a holding's ledger.
pub fn answered(holding: &Holding, ledger: &[u8], day: Date) -> Outcome<Purge> {
    ask(ledger, day).map_err(|number| refused(holding, number, ledger, sentence))
}

pub fn may_purge(output: &mut Output, holding: &Holding, day: Date) -> Outcome<()> {
    let answer = answered(holding, &holding.ask_ledger()?, day)?;
    output.status(answer.status());
    output.say(&answer.text(&holding.name), &answer.value(json!({"name": shown(&holding.name)})))
}

impl Keep {
    fn of(line: Line) -> Option<Keep> {
        match line.entry {
            Entry::Keep { date } => Some(Keep { line: line.number, until: date }),
            _ => None,
        }
    }

    /// The line as the listing has it.
    pub fn as_line(&self) -> Line {
        Line { number: self.line, entry: Entry::Keep { date: self.until.clone() }, withdrawn: false }
    }

    /// Why the frame may go.
    pub fn past(&self) -> String {
        format!("line {} kept it until {}", self.line, self.until)
    }

    /// Why it may not yet go.
    pub fn present(&self) -> String {
        format!("kept until {} by line {}", self.until, self.line)
    }

    pub fn add_to(&self, value: &mut Value) {
        value["decided_by"] = json!(self.line);
        value["kept_until"] = json!(self.until);
    }
}

impl Purge {
    pub fn word(&self) -> &'static str {
        match self {
            Purge::Yes(_) => "yes",
            Purge::NotYet(_) => "not yet",
            Purge::NoKeepLine => "no keep line",
        }
    }

    /// The library's number, 0 for yes.
    pub fn refusal(&self) -> u32 {
        match self {
            Purge::Yes(_) => 0,
            Purge::NotYet(_) => 27,
            Purge::NoKeepLine => 26,
        }
    }

    /// The line that decides.
    pub fn keep(&self) -> Option<&Keep> {
        match self {
            Purge::Yes(keep) | Purge::NotYet(keep) => Some(keep),
            Purge::NoKeepLine => None,
        }
    }

    pub fn status(&self) -> u8 {
        match self {
            Purge::Yes(_) => DONE,
            _ => NO,
        }
    }

    /// The answer in a sentence.
    pub fn text(&self, name: &Path) -> String {
        let name = shown(name);
        match self {
            Purge::Yes(keep) => format!("yes: {name} may be purged: {}", keep.past()),
            Purge::NotYet(keep) => format!("not yet: {name} is {}", keep.present()),
            Purge::NoKeepLine => format!("no: {name} has no keep date that stands"),
        }
    }

    /// What was asked, and the answer.
    pub fn value(&self, mut asked: Value) -> Value {
        asked["may_purge"] = json!(matches!(self, Purge::Yes(_)));
        if self.refusal() != 0 {
            asked["refusal"] = json!(self.refusal());
        }
        if let Some(keep) = self.keep() {
            keep.add_to(&mut asked);
        }
        asked
    }
}
