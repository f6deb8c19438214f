//! The corrections: one pixel, those of a table, or the last one amended.
use crate::args::{Correct, Place};
use crate::failure::{shown, Failure, Outcome};
use crate::holding::{Change, Contents, Holding, Owned};
use crate::holdings::{accepted_or, line_text, line_value, withdrawal};
use crate::ledger::{self, Lent, Line};
use crate::output::Output;
use crate::refusals::{amend_sentence, sentence, Sentences};
use crate::room;
use crate::rows;
use crate::table::Asked;
use quayrudder::LedgerAnswer;
use serde_json::json;
use std::time::Duration;

pub fn correct(output: &mut Output, asked: &Correct, wait: Option<Duration>) -> Outcome<()> {
    match *asked {
        Correct { from: Some(ref file), .. } => rows::correct(output, file, wait),
        Correct { name: Some(ref name), pixel: Some(place), count: Some(count), .. } => {
            one(output, &Holding::named(name, wait)?, Asked { place, count })
        }
        _ => Err(Failure::Usage("give a holding, a pixel and a count, or a table with --from".into())),
    }
}

fn one(output: &mut Output, holding: &Holding, asked: Asked) -> Outcome<()> {
    let (owned, found) = holding.change()?;
    let mut draft = Draft::of(found, 1);
    draft.correct(holding, asked)?;
    let lines = draft.commit(&owned, 1)?;
    let name = shown(&holding.name);
    lines.iter().try_for_each(|line| {
        let text = format!("{name}: line {}: {}", line.number, line_text(line));
        output.say(&text, &json!({"name": name, "appended": line_value(line)}))
    })
}

/// Takes the last standing line back, a correction, and corrects its pixel to another count.
pub fn amend(output: &mut Output, holding: &Holding, count: u32) -> Outcome<()> {
    let (owned, found) = holding.change()?;
    let (before, taken) = (ledger::lines(&found.ledger), ledger::last_standing(&ledger::listing(&found.ledger)));
    let mut draft = Draft::of(found, 2);
    draft.amend(holding, count)?;
    let lines = draft.commit(&owned, 1)?;
    let (mut text, mut value) = withdrawal(holding, before + 1, taken.as_ref());
    lines.iter().for_each(|line| {
        text += &format!("; line {}: {}", line.number, line_text(line));
        value["appended"] = line_value(line);
    });
    output.say(&text, &value)
}

/// Both files of a holding as they become, and as they were found.
pub struct Draft {
    held: Vec<u8>,
    lent: Lent,
    found: Contents,
}

impl Draft {
    /// With room in the ledger for so many lines.
    pub fn of(mut found: Contents, lines: usize) -> Draft {
        let held = std::mem::take(&mut found.held);
        let lent = Lent::new(std::mem::take(&mut found.ledger), lines as u64);
        Draft { held, lent, found }
    }

    /// Makes a correction here. One that is refused changes nothing.
    pub fn correct(&mut self, holding: &Holding, asked: Asked) -> Outcome<()> {
        let (pixel, count) = (pixel_number(asked.place, &self.held), asked.count);
        self.make(holding, sentence, |held, ledger, lines| quayrudder::correct(held, ledger, lines, pixel, count))
    }

    /// Amends the last standing line here, if that is a correction. One that is refused changes nothing.
    fn amend(&mut self, holding: &Holding, count: u32) -> Outcome<()> {
        self.make(holding, amend_sentence, |held, ledger, lines| quayrudder::amend(held, ledger, lines, count))
    }

    fn make(
        &mut self,
        holding: &Holding,
        sentences: Sentences,
        call: impl Fn(&mut [u8], &mut [u8], u64) -> LedgerAnswer,
    ) -> Outcome<()> {
        let lent = &mut self.lent;
        let answer = room::lend(&mut self.held, |held| call(held, &mut lent.bytes, lent.lines));
        accepted_or(holding, answer.refusal, &lent.bytes, sentences)?;
        lent.lines = answer.lines;
        Ok(())
    }

    /// Makes the holding what this is, and gives its last lines.
    pub fn commit(&self, owned: &Owned, lines: usize) -> Outcome<Vec<Line>> {
        let ledger = self.lent.used(self.lent.lines);
        let (held, notes) = (Some(self.held.as_slice()), self.found.notes());
        owned.commit(self.found.state, &Change { held, ledger: Some(ledger), notes, ..Change::default() })?;
        let mut lines: Vec<Line> = ledger::backwards(&ledger::listing(ledger)).take(lines).collect();
        lines.reverse();
        Ok(lines)
    }
}

/// The number of the pixel meant. A column past the last is no pixel, and neither is the largest number.
pub fn pixel_number(place: Place, held: &[u8]) -> u64 {
    match place {
        Place::Pixel(number) => number,
        Place::At { row, column } => {
            let columns = u64::from(quayrudder::header(held).columns);
            let number = row.checked_mul(columns).and_then(|start| start.checked_add(column));
            number.filter(|_| column < columns).unwrap_or(u64::MAX)
        }
    }
}
