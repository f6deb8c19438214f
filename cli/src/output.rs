//! Where answers go: a text or one JSON object a line on standard output, failures in sentences on standard error.
use crate::failure::{Failure, Outcome, DONE};
use crate::streams;
use indicatif::{ProgressBar, ProgressStyle};
use serde_json::Value;
use std::io::{self, ErrorKind, Read, Write};
use std::path::Path;

pub struct Output {
    json: bool,
    worst: u8,
    /// Standard output is for an output file's bytes, and answers go to standard error.
    aside: bool,
}

/// The bytes of an output file, and what is said of it once they are written.
pub struct Made {
    pub bytes: Vec<u8>,
    pub text: String,
    pub value: Value,
}

impl Output {
    pub fn new(json: bool) -> Output {
        Output { json, worst: DONE, aside: false }
    }

    /// Leaves standard output to an output file that is `-`.
    pub fn make_way_for(&mut self, file: &Path) {
        self.aside = streams::is_stream(file);
    }

    /// Says one answer. Text and value say the same.
    pub fn say(&mut self, text: &str, value: &Value) -> Outcome<()> {
        let line = if self.json { value.to_string() } else { text.trim_end().to_string() };
        if self.aside {
            eprintln!("{line}");
            return Ok(());
        }
        let mut out = io::stdout().lock();
        writeln!(out, "{line}").and_then(|()| out.flush()).map_err(unread)
    }

    /// Says answers that are lines of JSON already.
    pub fn pass_on(&mut self, mut lines: impl Read) -> Outcome<()> {
        let mut out: Box<dyn Write> = if self.aside { Box::new(io::stderr()) } else { Box::new(io::stdout().lock()) };
        io::copy(&mut lines, &mut out).and_then(|_| out.flush()).map_err(unread)
    }

    pub fn is_json(&self) -> bool {
        self.json
    }

    /// Says what is good to know beside the answers.
    pub fn note(&mut self, text: &str, value: &Value) -> Outcome<()> {
        if self.json {
            return self.say("", value);
        }
        eprintln!("quayrudder: {text}");
        Ok(())
    }

    /// Says why something was not done, and keeps its exit status.
    pub fn failed(&mut self, failure: &Failure) -> Outcome<()> {
        self.status(failure.status());
        match failure {
            Failure::Unread => Ok(()),
            _ if self.json => self.say("", &failure.json()),
            _ => {
                eprintln!("quayrudder: {failure}");
                Ok(())
            }
        }
    }

    /// The worst status met is the command's.
    pub fn status(&mut self, status: u8) {
        self.worst = self.worst.max(status);
    }

    pub fn worst(&self) -> u8 {
        self.worst
    }
}

fn unread(error: io::Error) -> Failure {
    match error.kind() {
        ErrorKind::BrokenPipe => Failure::Unread,
        _ => Failure::machine(Path::new("standard output"), "write")(error)
            .so("Only the answer is lost: a change that was asked for is made."),
    }
}

/// A bar for long work, where somebody sees it.
pub fn progress(length: u64, things: &str) -> ProgressBar {
    let style = ProgressStyle::with_template(&format!("{{bar:40}} {{pos}}/{{len}} {things}, {{eta}} left"));
    ProgressBar::new(length).with_style(style.unwrap_or_else(|_| ProgressStyle::default_bar()))
}
