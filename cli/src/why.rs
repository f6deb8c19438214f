//! why: the ledger line that decides whether a holding may be purged, or what the count of a pixel is.
use crate::args::{Place, Why};
use crate::clock::date_text;
use crate::corrections::pixel_number;
use crate::failure::{shown, Failure, Outcome};
use crate::holding::Holding;
use crate::holdings::{accepted, line_value, refused};
use crate::ledger::{self, Entry, Line};
use crate::output::Output;
use crate::purge::{self, Keep};
use crate::refusals::sentence;
use quayrudder::Date;
use serde_json::{json, Value};
use std::time::Duration;

pub fn why(output: &mut Output, asked: &Why, wait: Option<Duration>) -> Outcome<()> {
    let holding = Holding::named(&asked.name, wait)?;
    match (asked.day, asked.pixel) {
        (Some(day), None) => of_day(output, &holding, day),
        (None, Some(place)) => of_pixel(output, &holding, place),
        _ => Err(Failure::Usage("give a day with --day, or a pixel with --pixel".into())),
    }
}

/// As `may-purge`, with the line.
fn of_day(output: &mut Output, holding: &Holding, day: Date) -> Outcome<()> {
    let answer = purge::answered(holding, &holding.ask_ledger()?, day)?;
    let value = answer.value(json!({"name": shown(&holding.name), "day": date_text(day)}));
    output.status(answer.status());
    say(output, answer.text(&holding.name), value, answer.keep().map(Keep::as_line))
}

fn of_pixel(output: &mut Output, holding: &Holding, place: Place) -> Outcome<()> {
    let (pixel, bytes) = match place {
        Place::Pixel(number) => (number, holding.ask(Holding::read_ledger)?),
        Place::At { .. } => located(holding, place)?,
    };
    let answer = quayrudder::why_pixel(&bytes, ledger::lines(&bytes), pixel);
    accepted(holding, answer.refusal, &bytes)?;
    let (name, line) = (shown(&holding.name), ledger::line(&bytes, answer.line));
    let (text, mut value) = (pixel_text(pixel, line.as_ref()), json!({"name": name, "pixel": pixel}));
    value["as_opened"] = json!(line.is_none());
    if let Some(line) = &line {
        value["decided_by"] = json!(line.number);
    }
    say(output, format!("{name}: {text}"), value, line)
}

/// A pixel by row and column as `correct` finds it in the held frame, and the ledger. A correction for which the ledger
/// has no room changes nothing: 21 where the frame has the pixel.
fn located(holding: &Holding, place: Place) -> Outcome<(u64, Vec<u8>)> {
    let mut found = holding.ask(Holding::read_whole)?;
    let pixel = pixel_number(place, &found.held);
    match quayrudder::correct(&mut found.held, &mut [], 0, pixel, 0).refusal {
        21 => Ok((pixel, found.ledger)),
        number => Err(refused(holding, number, &found.ledger, sentence)),
    }
}

fn pixel_text(pixel: u64, line: Option<&Line>) -> String {
    match line {
        Some(Line { number, entry: Entry::Correct { old, new, .. }, .. }) => {
            format!("pixel {pixel} was corrected from {old} to {new} by line {number}")
        }
        _ => format!("pixel {pixel} is as opened: no correction of it stands"),
    }
}

/// The sentence, and below it the line that decides as the listing has it.
fn say(output: &mut Output, mut text: String, mut value: Value, line: Option<Line>) -> Outcome<()> {
    if let Some(line) = line {
        text += &format!("\n{line}");
        value["deciding_line"] = line_value(&line);
    }
    output.say(&text, &value)
}
