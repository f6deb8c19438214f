//! What the report says of one holding: as `verify` checks it, `list` lists it and `may-purge` answers for it.
use super::pictures::{Pictures, Small};
use crate::batch::word_of;
use crate::failure::{shown, Failure, Outcome};
use crate::files;
use crate::frames::{self, form_text};
use crate::holding::{Contents, Holding};
use crate::holdings::line_value;
use crate::ledger::{self, Entry, Line};
use crate::purge::{self, Purge};
use crate::refusals::sentence;
use crate::verify::{checked, Sealed};
use quayrudder::{Date, HeaderAnswer};
use serde_json::{json, Value};
use std::path::Path;
use std::time::Duration;

/// The word for a holding that is what it must be.
pub const AGREE: &str = "agree";

/// As many lines of a ledger stand in a row at most, its last ones.
const MOST_LINES: usize = 1000;

pub struct Row {
    name: String,
    /// Of held file and ledger.
    pub bytes: u64,
    pub sums: &'static str,
    /// What the held frame's header says, where it is accepted.
    header: Option<HeaderAnswer>,
    /// What the ledger says, where it is accepted.
    pub ledger: Option<Account>,
    pub picture: Option<Small>,
    /// Why the holding is not what it must be.
    pub failure: Option<Failure>,
}

pub struct Account {
    pub corrections: u64,
    lines: Vec<Value>,
    left_out: u64,
    pub purge: Purge,
    /// The answer of `may-purge` in its sentence.
    said: String,
}

/// Looks at one holding. Only the clock, the disk or another process can make this fail, and then the row says so.
pub fn of(path: &Path, wait: Option<Duration>, day: Date, pictures: &Pictures) -> Outcome<Row> {
    let holding = Holding::named(path, wait)?;
    let name = shown(&holding.name);
    let found = match holding.ask(Holding::read_whole) {
        Ok(found) => found,
        Err(failure) => {
            let bytes = files::length(&holding.held) + files::length(&holding.ledger);
            return Ok(Row { bytes, ..Row::unread(name, unread_sums(&holding, &failure), failure) });
        }
    };
    let header = Some(quayrudder::header(&found.held)).filter(|header| header.refusal == 0);
    let ledger = Account::new(&holding, &found.ledger, day).ok();
    let (bytes, sealed) = ((found.held.len() + found.ledger.len()) as u64, Sealed::of(&found));
    let corrections = ledger.as_ref().map_or(0, |account| account.corrections);
    let picture = if pictures.may_be_wanted(corrections) { picture(&holding, &found) } else { None };
    let failure = checked(&holding, found, sealed).err();
    Ok(Row { name, bytes, sums: sealed.word(), header, ledger, picture, failure })
}

/// With a record beside them that cannot be used the files were not compared.
fn unread_sums(holding: &Holding, failure: &Failure) -> &'static str {
    match failure {
        Failure::Damaged { .. } if !files::exists(&holding.redo).unwrap_or(true) => "bad",
        _ => "not known",
    }
}

/// A held frame that is refused has none.
fn picture(holding: &Holding, found: &Contents) -> Option<Small> {
    let frame = frames::read(&holding.held, &found.held).ok()?;
    Small::new(&holding.held, &frame.counts).ok()
}

impl Account {
    fn new(holding: &Holding, bytes: &[u8], day: Date) -> Outcome<Account> {
        let purge = purge::answered(holding, bytes, day)?;
        let listing = ledger::listing(bytes);
        let stands = |line: &Line| !line.withdrawn && matches!(line.entry, Entry::Correct { .. });
        let corrections = ledger::backwards(&listing).filter(stands).count() as u64;
        let last = ledger::backwards(&listing).take(MOST_LINES);
        let mut lines: Vec<Value> = last.map(|line| line_value(&line)).collect();
        lines.reverse();
        let left_out = ledger::lines(bytes) - lines.len() as u64;
        let said = purge.text(&holding.name);
        Ok(Account { corrections, lines, left_out, purge, said })
    }

    /// What to do about a no.
    fn advice(&self) -> Option<&'static str> {
        Some(self.purge.refusal()).filter(|number| *number != 0).map(|number| sentence(number).advice)
    }
}

impl Row {
    /// The row of a folder that cannot be walked.
    pub fn of_folder(failure: Failure) -> Row {
        let name = failure.json()["file"].as_str().unwrap_or_default().to_string();
        Row::unread(name, "not known", failure)
    }

    fn unread(name: String, sums: &'static str, failure: Failure) -> Row {
        Row { name, bytes: 0, sums, header: None, ledger: None, picture: None, failure: Some(failure) }
    }

    pub fn state(&self) -> &'static str {
        self.failure.as_ref().map_or(AGREE, word_of)
    }

    pub fn corrections(&self) -> u64 {
        self.ledger.as_ref().map_or(0, |account| account.corrections)
    }

    pub fn value(&self) -> Value {
        let (header, account) = (self.header.as_ref(), self.ledger.as_ref());
        let keep = account.and_then(|account| account.purge.keep());
        json!({
            "name": self.name, "state": self.state(), "trouble": self.failure.as_ref().map(trouble),
            "bytes": self.bytes, "sums": self.sums,
            "rows": header.map(|header| header.rows), "columns": header.map(|header| header.columns),
            "form": header.map(|header| form_text(header.width, header.entry)),
            "kept_until": keep.map(|keep| &keep.until), "decided_by": keep.map(|keep| keep.line),
            "may_purge": account.map(|account| account.purge.word()), "purge": account.map(|account| &account.said),
            "advice": account.and_then(Account::advice), "corrections": account.map(|account| account.corrections),
            "lines": account.map(|account| &account.lines), "left_out": account.map(|account| account.left_out),
            "picture": self.picture.as_ref().map(Small::value),
        })
    }
}

/// The failure as data, in a sentence, and what to do once that is done.
fn trouble(failure: &Failure) -> Value {
    let mut value = failure.json();
    let said = failure.to_string();
    value["said"] = json!(format!("{}.", said.trim_end_matches('.')));
    value["then"] = json!(match failure {
        Failure::InUse { .. } => "Wait until that process is done, and make the report again.",
        Failure::Machine { .. } => "Nothing is known of it until that is put right: then make the report again.",
        _ => "Then check it with `quayrudder verify`.",
    });
    value
}
