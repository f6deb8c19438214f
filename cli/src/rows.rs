//! The corrections of a table: each holding's rows in one change or none of them, and an answer for each row.
use crate::batch::{self, Tally};
use crate::corrections::{pixel_number, Draft};
use crate::failure::{shown, Failure, Outcome, DONE, NO};
use crate::files;
use crate::holding::{Contents, Holding};
use crate::holdings::{line_text, line_value};
use crate::ledger::{self, Entry, Line};
use crate::names;
use crate::output::Output;
use crate::streams;
use crate::table::{self, Asked, Row};
use serde_json::{json, Value};
use std::collections::{HashMap, HashSet};
use std::path::{Path, PathBuf};
use std::sync::Arc;
use std::time::Duration;

/// The rows of one holding, by their places in the table.
struct Group {
    name: PathBuf,
    rows: Vec<usize>,
}

/// What became of a row.
enum Answer {
    Made(Line),
    /// The ledger has these rows already.
    Already(Line),
    /// Nothing is wrong with it, and another row of its holding cannot be made.
    NotMade {
        row: u64,
    },
    Failed(Arc<Failure>),
}

pub fn correct(output: &mut Output, file: &Path, wait: Option<Duration>) -> Outcome<()> {
    let table = table::read(&streams::input(file)?).map_err(|why| Failure::declined(file, why))?;
    if !table.unused.is_empty() {
        let text = format!("columns not used: {}", table.unused.join(", "));
        output.note(&format!("{}: {text}", shown(file)), &json!({"file": shown(file), "not_used": table.unused}))?;
    }
    let wait = wait.or(Some(names::WAIT));
    let (groups, answers) = grouped(&table.rows);
    let tally = Tally::new("rows", &["made", "already made", "not made"]);
    let mut report = Report { rows: &table.rows, answers, said: 0, tally };
    let work = |group: &Group| make(&Holding::exactly(&group.name, wait), &group.of(&table.rows));
    let length = |group: &Group| files::length(&Holding::exactly(&group.name, None).held);
    batch::run(output, &groups, "holdings", length, work, |output, group, made| {
        group.rows.iter().zip(made).for_each(|(row, answer)| report.answers[*row] = Some(answer));
        report.say_next(output)
    })?;
    report.say_next(output)?;
    report.tally.say(output)
}

/// The rows by their holdings, in the order of each one's first row. A row without a holding has its answer already.
fn grouped(rows: &[Row]) -> (Vec<Group>, Vec<Option<Answer>>) {
    let (mut groups, mut places) = (Vec::<Group>::new(), HashMap::new());
    let mut answers: Vec<Option<Answer>> = rows.iter().map(|_| None).collect();
    for (number, row) in rows.iter().enumerate() {
        let named = row.holding.as_deref().map(|path| Holding::named(path, None).map(|holding| holding.name));
        let Some(Ok(name)) = named else {
            let why = "the row names no holding";
            answers[number] = Some(failed(Failure::declined(row.holding.as_deref().unwrap_or(Path::new("-")), why)));
            continue;
        };
        let place = *places.entry(names::plain(&name)).or_insert(groups.len());
        if place == groups.len() {
            groups.push(Group { name, rows: Vec::new() });
        }
        groups[place].rows.push(number);
    }
    (groups, answers)
}

impl Group {
    fn of<'a>(&self, rows: &'a [Row]) -> Vec<&'a Row> {
        self.rows.iter().map(|row| &rows[*row]).collect()
    }
}

fn failed(failure: Failure) -> Answer {
    Answer::Failed(Arc::new(failure))
}

/// All rows of a holding, in one change or none.
fn make(holding: &Holding, rows: &[&Row]) -> Vec<Answer> {
    try_to_make(holding, rows).unwrap_or_else(|failure| {
        let failure = Arc::new(failure);
        rows.iter().map(|_| Answer::Failed(failure.clone())).collect()
    })
}

fn try_to_make(holding: &Holding, rows: &[&Row]) -> Outcome<Vec<Answer>> {
    let (owned, found) = holding.change()?;
    if let Some(lines) = already_made(&found, rows) {
        return Ok(lines.into_iter().map(Answer::Already).collect());
    }
    let mut draft = Draft::of(found, rows.len());
    let judged: Vec<Outcome<()>> = rows.iter().map(|row| judge(holding, &mut draft, row)).collect();
    let Some(first) = judged.iter().position(Result::is_err) else {
        return Ok(draft.commit(&owned, rows.len())?.into_iter().map(Answer::Made).collect());
    };
    let not_made = |()| Answer::NotMade { row: rows[first].number };
    Ok(judged.into_iter().map(|row| row.map_or_else(failed, not_made)).collect())
}

fn judge(holding: &Holding, draft: &mut Draft, row: &Row) -> Outcome<()> {
    match &row.asked {
        Ok(asked) => draft.correct(holding, *asked),
        Err(why) => Err(Failure::declined(&holding.name, why)),
    }
}

/// The lines that these rows are, where the ledger has just them, one behind the other, all of them stand, and none of
/// their pixels was corrected later: making them again would change no count.
fn already_made(found: &Contents, rows: &[&Row]) -> Option<Vec<Line>> {
    if ledger::refusal(&found.ledger) != 0 {
        return None;
    }
    let asked: Option<Vec<Asked>> = rows.iter().map(|row| row.asked.as_ref().ok().copied()).collect();
    let wanted = asked?.into_iter().map(|asked| (pixel_number(asked.place, &found.held), u64::from(asked.count)));
    let wanted: Vec<(u64, u64)> = wanted.collect();
    let mut lines: Vec<Line> = ledger::backwards(&ledger::listing(&found.ledger)).collect();
    lines.reverse();
    let is_row = |(line, wanted): (&Line, &(u64, u64))| correction(line) == Some(*wanted);
    let start = lines.windows(wanted.len()).rposition(|window| window.iter().zip(&wanted).all(is_row))?;
    let pixels: HashSet<u64> = wanted.iter().map(|(pixel, _)| *pixel).collect();
    let later = lines.split_off(start + wanted.len());
    let corrected = |line: &Line| correction(line).is_some_and(|(pixel, _)| pixels.contains(&pixel));
    (!later.iter().any(corrected)).then(|| lines.split_off(start))
}

/// The pixel and the new count of a correction that stands.
fn correction(line: &Line) -> Option<(u64, u64)> {
    match line.entry {
        Entry::Correct { pixel, new, .. } if !line.withdrawn => Some((pixel, new)),
        _ => None,
    }
}

/// The answers, said in the order of the rows.
struct Report<'a> {
    rows: &'a [Row],
    answers: Vec<Option<Answer>>,
    said: usize,
    tally: Tally,
}

impl Report<'_> {
    /// Says the answers up to the first that is still missing.
    fn say_next(&mut self, output: &mut Output) -> Outcome<()> {
        while let Some(answer) = self.answers.get_mut(self.said).and_then(Option::take) {
            let row = &self.rows[self.said];
            self.said += 1;
            self.tally.add(answer.word());
            output.status(answer.status());
            output.say(&answer.text(row), &answer.value(row))?;
        }
        Ok(())
    }
}

impl Answer {
    fn word(&self) -> &'static str {
        match self {
            Answer::Made(_) => "made",
            Answer::Already(_) => "already made",
            Answer::NotMade { .. } => "not made",
            Answer::Failed(failure) => batch::word_of(failure),
        }
    }

    fn status(&self) -> u8 {
        match self {
            Answer::Made(_) | Answer::Already(_) => DONE,
            Answer::NotMade { .. } => NO,
            Answer::Failed(failure) => failure.status(),
        }
    }

    fn text(&self, row: &Row) -> String {
        let (number, name) = (row.number, shown(&name(row)));
        match self {
            Answer::Made(line) => format!("row {number}: {name}: line {}: {}", line.number, line_text(line)),
            Answer::Already(line) => {
                format!("row {number}: {name}: already made, line {}: {}", line.number, line_text(line))
            }
            Answer::NotMade { .. } => format!("row {number}: {name}: {}", self.reason()),
            Answer::Failed(failure) => format!("row {number}: {failure}"),
        }
    }

    fn value(&self, row: &Row) -> Value {
        let mut value = json!({"row": row.number, "name": shown(&name(row))});
        match self {
            Answer::Made(line) => value["appended"] = line_value(line),
            Answer::Already(line) => value["already_made"] = line_value(line),
            Answer::NotMade { .. } => value["not_made"] = json!(self.reason()),
            Answer::Failed(failure) => {
                let more = failure.json();
                let more = more.as_object().into_iter().flatten();
                more.for_each(|(key, found)| value[key] = found.clone());
            }
        }
        value
    }

    fn reason(&self) -> String {
        match self {
            Answer::NotMade { row } => format!("not made: row {row} of this holding is refused"),
            _ => String::new(),
        }
    }
}

/// The holding that a row names, as it is shown.
fn name(row: &Row) -> PathBuf {
    let path = row.holding.clone().unwrap_or_default();
    Holding::named(&path, None).map_or(path, |holding| holding.name)
}
