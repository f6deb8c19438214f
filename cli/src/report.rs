//! report: what an archive holds, what is due and what was corrected, as a page for a browser and as data.
mod page;
mod pictures;
mod row;
mod spool;
mod summary;

use crate::args::Report;
use crate::batch;
use crate::clock;
use crate::failure::{shown, Failure, Outcome};
use crate::files;
use crate::given::Names;
use crate::holdings::must_be_in_calendar;
use crate::names::{self, Found, Item};
use crate::output::Output;
use crate::shard::Shard;
use crate::streams;
use pictures::Pictures;
use quayrudder::Date;
use row::Row;
use spool::Spool;
use std::path::Path;
use std::time::Duration;
use summary::Summary;

pub fn report(output: &mut Output, asked: &Report, wait: Option<Duration>) -> Outcome<()> {
    let day = asked.day.unwrap_or_else(clock::today);
    must_be_possible(output, asked)?;
    must_be_in_calendar(Path::new("--day"), day)?;
    let below = Names { below: vec![asked.folder.clone()], ..Names::default() };
    let found = names::holdings(&below, Shard::WHOLE, |_| false)?;
    let mut rows = Spool::new()?;
    let mut summary = Summary::new(&asked.folder, day, found.not_holdings);
    let pictures = Pictures::at_most(asked.pictures);
    gather(output, found, (day, wait), &pictures, |row| {
        summary.add(row);
        rows.add(&row.value(), row.failure.is_some())
    })?;
    give(output, asked, &summary, &mut rows)
}

/// What is wrong is said before the walk.
fn must_be_possible(output: &mut Output, asked: &Report) -> Outcome<()> {
    let Some(file) = &asked.output else {
        let nothing = || Failure::Usage("-o OUT.html is missing: give it for the page, or --json for the data".into());
        return if output.is_json() { Ok(()) } else { Err(nothing()) };
    };
    output.make_way_for(file);
    if streams::is_stream(file) {
        return Ok(());
    }
    match file.extension().is_some_and(|ending| ending == "html") {
        true => files::must_be_free(file, asked.force),
        false => Err(Failure::Usage(format!("`{}` must end in .html", shown(file)))),
    }
}

/// Looks at every holding, on all cores, and hands on the rows in path order after the folders that cannot be read.
fn gather(
    output: &mut Output,
    mut found: Found,
    (day, wait): (Date, Option<Duration>),
    pictures: &Pictures,
    mut add: impl FnMut(&Row) -> Outcome<()>,
) -> Outcome<()> {
    let (wait, things) = (found.wait(wait), found.things);
    let unread = std::mem::take(&mut found.walked.unread);
    unread.into_iter().map(Row::of_folder).try_for_each(|row| tell(output, &row).and_then(|()| add(&row)))?;
    let work = |item: &Item| row::of(&item.path, wait, day, pictures);
    batch::run(
        output,
        &found.items,
        things.name(),
        |item| things.length(item),
        work,
        |output, _, row| {
            let row = pictures.grant(row?);
            tell(output, &row)?;
            add(&row)
        },
    )
}

/// A failure is said as every command says it, unless its row will say it.
fn tell(output: &mut Output, row: &Row) -> Outcome<()> {
    match &row.failure {
        Some(failure) if output.is_json() => output.status(failure.status()),
        Some(failure) => output.failed(failure)?,
        None => {}
    }
    Ok(())
}

/// The page, and then the answer: with --json every row before it.
fn give(output: &mut Output, asked: &Report, summary: &Summary, rows: &mut Spool) -> Outcome<()> {
    let mut value = summary.value();
    let mut text = summary.text();
    if let Some(file) = &asked.output {
        streams::output_with(file, asked.force, |out| page::write(out, &value, rows.lines()?))?;
        text = format!("{}: {text}", shown(file));
        value["file"] = shown(file).into();
    }
    if output.is_json() {
        rows.lines().map_err(spool::failed).and_then(|lines| output.pass_on(lines))?;
    }
    output.say(&text, &value)
}
