//! A holding that goes: deleted, or moved into another folder. The held file goes first and the ledger last, and a record
//! says what is under way, so that the next sweep finishes it.
use crate::digest::{Digest, State};
use crate::failure::{shown, Failure, Outcome};
use crate::files;
use crate::holding::{Holding, Owned};
use crate::locks;
use crate::redo::{self, Record};
use std::fs;
use std::io::ErrorKind;
use std::path::{Path, PathBuf};

/// A removal that was cut short after its first step.
pub struct Interrupted {
    pub into: Option<PathBuf>,
    /// The held file, while the ledger that belongs to it is still here.
    held: Option<Digest>,
    /// Goes a log with them?
    log: bool,
}

impl Holding {
    /// For a removal: the holding alone, and the removal that was cut short here.
    pub fn own_to_remove(&self) -> Outcome<(Owned<'_>, Option<Interrupted>)> {
        self.must_exist()?;
        let owned = self.lock_alone()?;
        self.must_exist().inspect_err(|_| owned.leave_no_lock())?;
        let interrupted = owned.interrupted()?;
        if interrupted.is_none() {
            owned.settle()?;
        }
        Ok((owned, interrupted))
    }
}

impl Owned<'_> {
    /// The removal that a record says, where its first step has been made.
    fn interrupted(&self) -> Outcome<Option<Interrupted>> {
        let holding = self.holding;
        let Some(bytes) = files::read_if_there(&holding.redo)? else { return Ok(None) };
        let record = redo::read(&holding.redo, &bytes)?;
        let found = holding.found(&record)?;
        if !record.is_removal() || found == record.follows {
            return Ok(None);
        }
        self.must_be_partly_gone(&record, &found)?;
        let held = found.ledger.and(record.follows.held);
        Ok(Some(Interrupted { log: record.has_log(), into: record.into, held }))
    }

    fn must_be_partly_gone(&self, record: &Record, found: &State) -> Outcome<()> {
        let ledger = found.ledger.is_none() || found.ledger == record.follows.ledger;
        match (found.held, ledger) {
            (None, true) => Ok(()),
            (Some(_), _) => Err(self.holding.foreign(record, &self.holding.held)),
            (None, false) => Err(self.holding.foreign(record, &self.holding.ledger)),
        }
    }

    /// Every command but the sweep: a removal that has not begun is given up, and one that has is left to the sweep.
    pub fn give_up(&self, record: &Record, found: &State) -> Outcome<()> {
        let holding = self.holding;
        if *found == record.follows {
            return files::remove(&holding.redo).and_then(|()| files::sync_folder_of(&holding.redo));
        }
        self.must_be_partly_gone(record, found)?;
        let why = match &record.into {
            None => "is gone: a purge was interrupted here. `quayrudder sweep DIR --delete` finishes it".to_string(),
            Some(into) => {
                let name = shown(into);
                format!(
                    "is not here: the holding was being moved to {name}. `quayrudder sweep DIR --into BIN` finishes it"
                )
            }
        };
        Err(Failure::damaged(&holding.held, why))
    }

    /// Deletes the holding, which is in this state, or moves it to another name.
    pub fn remove(&self, follows: State, into: Option<&Path>) -> Outcome<()> {
        let holding = self.holding;
        let into = into.map(|name| self.make_way(name)).transpose()?;
        locks::mark(&self.lock);
        self.record(&Record::of_removal(follows, into.clone()))?;
        files::sync_folder_of(&holding.redo)
            .and_then(|()| self.take_away(into.as_deref(), follows.log.is_some()))
            .inspect_err(|_| self.forget_if_whole())
    }

    /// The name to move to, from the root, so that whoever finds the record finds it from anywhere. Nothing may be there.
    fn make_way(&self, name: &Path) -> Outcome<PathBuf> {
        let folder = files::folder(name);
        files::make_folder(folder, files::folder(&self.holding.ledger))?;
        let folder = fs::canonicalize(folder).map_err(Failure::machine(folder, "find"))?;
        must_be_free(&Holding::exactly(name, None))?;
        Ok(folder.join(name.file_name().unwrap_or_default()))
    }

    /// A removal that failed at its first step leaves no record.
    fn forget_if_whole(&self) {
        if files::exists(&self.holding.held).unwrap_or(false) {
            let _ = files::remove(&self.holding.redo);
        }
    }

    /// Finishes a removal. The ledger follows only the held file that it belongs to.
    pub fn remove_the_rest(&self, removal: &Interrupted) -> Outcome<()> {
        if let (Some(name), Some(digest)) = (&removal.into, removal.held) {
            let held = Holding::exactly(name, None).held;
            let moved = files::read_if_there(&held)?.map(|bytes| Digest::of(&bytes));
            if moved != Some(digest) {
                let why = "is not the held file that was being moved here. Restore the holding from its copy";
                return Err(Failure::damaged(&held, why));
            }
        }
        locks::mark(&self.lock);
        self.take_away(removal.into.as_deref(), removal.log)
    }

    /// The lock file, which goes last, is marked by then: left alone it is known as one of a holding.
    fn take_away(&self, into: Option<&Path>, log: bool) -> Outcome<()> {
        let holding = self.holding;
        let target = into.map(|name| Holding::exactly(name, None));
        let target = target.as_ref();
        take(&holding.held, target.map(|to| &to.held))?;
        sync_both(holding, target)?;
        take(&holding.sums, target.map(|to| &to.sums))?;
        if log {
            take(&holding.log, target.map(|to| &to.log))?;
        }
        take(&holding.ledger, target.map(|to| &to.ledger))?;
        sync_both(holding, target)?;
        files::remove(&holding.redo)?;
        files::remove(&holding.lock)?;
        files::sync_folder_of(&holding.ledger)
    }

    /// What has become of a holding whose removal failed.
    pub fn remains(&self, done: &str) -> String {
        let holding = self.holding;
        let gone = |path: &Path| files::exists(path).is_ok_and(|there| !there);
        match (gone(&holding.held), gone(&holding.ledger)) {
            (false, _) => format!("not {done}"),
            (true, false) => format!("partly {done}: held file gone"),
            (true, true) => format!("partly {done}: held file and ledger gone"),
        }
    }
}

/// A file goes. It may have gone already.
fn take(path: &Path, to: Option<&PathBuf>) -> Outcome<()> {
    let Some(to) = to else { return files::remove(path) };
    match files::rename_new(path, to) {
        Err(error) if error.kind() != ErrorKind::NotFound => Err(Failure::machine(path, "move")(error)
            .so("A holding is moved by renaming its files, so the folder must be on the same file system.")),
        _ => Ok(()),
    }
}

fn sync_both(holding: &Holding, target: Option<&Holding>) -> Outcome<()> {
    if let Some(target) = target {
        files::sync_folder_of(&target.ledger)?;
    }
    files::sync_folder_of(&holding.ledger)
}

fn must_be_free(target: &Holding) -> Outcome<()> {
    for path in [&target.held, &target.ledger, &target.log, &target.sums, &target.redo] {
        if files::exists(path)? {
            return Err(Failure::declined(path, "exists already and is kept. Sweep into another folder"));
        }
    }
    Ok(())
}
