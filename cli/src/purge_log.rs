//! The log of a sweep: who took which holding away, when, on which ground, and what it was.
use crate::clock;
use crate::digest::Digest;
use crate::failure::{shown, Failure, Outcome};
use crate::files;
use crate::holding::Contents;
use crate::ledger;
use crate::purge::Keep;
use std::fs::{File, OpenOptions};
use std::io::Write;
use std::path::{Path, PathBuf};

/// An entry before and one after each holding, each on the disk before anything else happens.
pub struct Log {
    path: PathBuf,
    file: File,
    /// Who, and for which day.
    ground: String,
}

impl Log {
    pub fn open(path: PathBuf, day: &str) -> Outcome<Log> {
        let file = OpenOptions::new().append(true).create(true).open(&path).map_err(Failure::machine(&path, "open"))?;
        files::sync_folder_of(&path)?;
        Ok(Log { path, file, ground: format!("{} day {day}", who()) })
    }

    /// What is about to be done, the line that decides it, and all that the log will have of the holding.
    pub fn before(&mut self, what: &str, name: &Path, found: &Contents, by: &Keep) -> Outcome<()> {
        let (listing, state) = (ledger::listing(&found.ledger), &found.state);
        let decided = format!("decided by line {}: kept until {}", by.line, by.until);
        let (held, ledger) = (file_text(&state.held), file_text(&state.ledger));
        let log = found.log.as_ref().map_or(String::new(), |log| {
            format!("  compacted {}\n{}", file_text(&state.log), quoted(&String::from_utf8_lossy(log)))
        });
        let listing = quoted(&listing);
        self.write(name, &format!("{what}\n  {decided}\n  held {held}\n  ledger {ledger}\n{listing}{log}"))
    }

    pub fn after(&mut self, what: &str, name: &Path) -> Outcome<()> {
        self.write(name, &format!("{what}\n"))
    }

    fn write(&mut self, name: &Path, text: &str) -> Outcome<()> {
        let (what, rest) = text.split_once('\n').unwrap_or((text, ""));
        let entry = format!("{} {} {}: {what}\n{rest}", clock::now(), self.ground, shown(name));
        let written = self.file.write_all(entry.as_bytes()).and_then(|()| self.file.sync_all());
        written.map_err(|error| {
            Failure::machine(&self.path, "write")(error).so(format!("The sweep ended at {}.", shown(name)))
        })
    }
}

/// Lines of another text, each behind a bar.
fn quoted(text: &str) -> String {
    text.lines().map(|line| format!("  | {line}\n")).collect()
}

/// A file's length and sum.
pub fn file_text(digest: &Option<Digest>) -> String {
    digest.map_or("missing".into(), |digest| format!("{} bytes sha256 {}", digest.length, digest.hex()))
}

/// The user in whose right the process acts, and the machine.
pub fn who() -> String {
    let number = users::get_effective_uid();
    let name = users::get_user_by_uid(number).map(|user| shown(Path::new(user.name())));
    let machine = rustix::process::uname().nodename().to_string_lossy().into_owned();
    format!("{}@{}", name.unwrap_or_else(|| format!("uid {number}")), shown(Path::new(&machine)))
}
