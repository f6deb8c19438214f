//! The command that opens frames.
use crate::args::Open;
use crate::batch::Said;
use crate::digest::{hex, Digest, State};
use crate::failure::{shown, Outcome};
use crate::frames;
use crate::holding::{Change, Holding};
use crate::names;
use crate::output::Output;
use crate::outputs::Outputs;
use crate::streams;
use crate::sums;
use quayrudder::{Form, OpenAnswer};
use serde_json::json;
use std::path::Path;
use std::time::Duration;

/// A frame as it is to be held.
struct Opened {
    held: Vec<u8>,
    answer: OpenAnswer,
    /// That of the frame that came in.
    sha256: [u8; 32],
}

pub fn open(output: &mut Output, asked: &Open, wait: Option<Duration>) -> Outcome<()> {
    let found = names::frames(&asked.names, Some((&asked.output, "")))?;
    let wait = found.wait(wait);
    let outputs = Outputs::new(&found, &asked.output, "")?;
    found.each(output, &["opened", "already open"], |item| {
        let name = outputs.of(item)?;
        // The name of one of many is that of its frame, whatever it ends in.
        let holding = if found.many { Holding::exactly(&name, wait) } else { Holding::named(&name, wait)? };
        let opened = Opened::read(&item.path, asked.form)?;
        if found.many && opened.is(&holding)? {
            return Ok(already_open(&holding));
        }
        outputs.make_way(&name)?;
        opened.hold(&item.path, &holding, asked)
    })
}

impl Opened {
    fn read(file: &Path, form: Form) -> Outcome<Opened> {
        let frame = streams::input(file)?;
        let header = frames::header(file, &frame)?;
        let mut pixels = vec![0; frames::pixel_count(&header)];
        let mut held = vec![0; frames::most_bytes(&header)];
        let answer = quayrudder::open(&frame, &mut pixels, form, &mut held);
        match answer.refusal {
            0 => Ok(Opened { held, answer, sha256: Digest::of(&frame).sha256 }),
            number => Err(frames::refused(file, &frame, number, answer.place, answer.column)),
        }
    }

    /// Is this the holding of just this frame in just this form, as it was opened? Its room may be another.
    fn is(&self, holding: &Holding) -> Outcome<bool> {
        if holding.must_exist().is_err() {
            return Ok(false);
        }
        let found = holding.ask(Holding::read_whole)?;
        let noted = found.sums.as_ref().and_then(|sums| sums::noted_frame(&sums.notes));
        let frame = &self.held[..self.answer.length as usize];
        let same = found.held.strip_prefix(frame).is_some_and(|room| room.iter().all(|byte| *byte == 0));
        Ok(same && found.ledger.is_empty() && noted == Some(hex(&self.sha256)))
    }

    fn hold(mut self, frame: &Path, holding: &Holding, asked: &Open) -> Outcome<Said> {
        self.held.resize(self.answer.length as usize + asked.room as usize, 0);
        let owned = holding.create()?;
        let notes = sums::frame_note(&self.sha256, frame);
        let change = Change { held: Some(&self.held), ledger: Some(&[]), notes: Some(&notes), ..Change::default() };
        owned.commit(State::default(), &change).inspect_err(|_| owned.leave_no_lock())?;
        let (name, form) = (shown(&holding.name), frames::form_text(asked.form.width, asked.form.underflow));
        let (OpenAnswer { rows, columns, length, .. }, room) = (self.answer, asked.room);
        let text =
            format!("{name}: {rows} rows, {columns} columns held in form {form}, {length} bytes and room for {room}");
        let value = json!({
            "name": name, "rows": rows, "columns": columns, "width": asked.form.width,
            "underflow_width": asked.form.underflow, "bytes": length, "room": room,
        });
        Ok(Said { text, value, counted: "opened" })
    }
}

fn already_open(holding: &Holding) -> Said {
    let name = shown(&holding.name);
    let text = format!("{name}: already open, from this very frame in this form");
    Said { text, value: json!({"name": name, "already_open": true}), counted: "already open" }
}
