//! A holding: NAME.held, the buffer with its room; NAME.ledger, 16 bytes for each line; NAME.compacted, the log of the
//! ledger's compactions, if there were any; NAME.sha256, the sums of all of them; and, while a change is being made,
//! NAME.lock and NAME.redo.
use crate::clock::time_text;
use crate::compaction_log;
use crate::digest::{Digest, State};
use crate::failure::{shown, Failure, Outcome};
use crate::files::{self, Access, Staged};
use crate::ledger;
use crate::locks;
use crate::redo::{self, Record};
use crate::streams;
use crate::sums::Sums;
use std::fs::{self, File};
use std::io::{Error, ErrorKind};
use std::path::{Path, PathBuf};
use std::time::Duration;

pub struct Holding {
    pub name: PathBuf,
    pub held: PathBuf,
    pub ledger: PathBuf,
    pub log: PathBuf,
    pub sums: PathBuf,
    pub redo: PathBuf,
    pub lock: PathBuf,
    /// How long another process is waited for; without end where this is none.
    wait: Option<Duration>,
}

/// The files of a holding at one time, as their sums say. A holding from before this was done has no sums.
pub struct Contents {
    pub held: Vec<u8>,
    pub ledger: Vec<u8>,
    pub log: Option<Vec<u8>>,
    pub sums: Option<Sums>,
    pub state: State,
}

/// New contents. A file without stays as it is, and the sums are written where there are notes for them.
#[derive(Default)]
pub struct Change<'a> {
    pub held: Option<&'a [u8]>,
    pub ledger: Option<&'a [u8]>,
    pub log: Option<&'a [u8]>,
    pub notes: Option<&'a [u8]>,
}

/// A holding that nobody else looks at or changes meanwhile.
pub struct Owned<'a> {
    pub holding: &'a Holding,
    pub lock: File,
}

impl Holding {
    /// The holding of this name. The name of its held file or of its ledger will do.
    pub fn named(path: &Path, wait: Option<Duration>) -> Outcome<Holding> {
        let ends = path.extension().is_some_and(|ending| ending == "held" || ending == "ledger");
        let name = if ends { path.with_extension("") } else { path.to_path_buf() };
        if name.file_name().is_none() || streams::is_stream(path) || path.as_os_str().as_encoded_bytes().ends_with(b"/")
        {
            return Err(Failure::Usage(format!("`{}` is no name for a holding", shown(path))));
        }
        Ok(Holding::exactly(&name, wait))
    }

    /// The holding of just this name.
    pub fn exactly(name: &Path, wait: Option<Duration>) -> Holding {
        let file = |ending| files::with_ending(name, ending);
        let [held, ledger, log, sums] = [".held", ".ledger", ".compacted", ".sha256"].map(file);
        Holding { name: name.into(), held, ledger, log, sums, redo: file(".redo"), lock: file(".lock"), wait }
    }

    /// Reads for a question, while nobody changes the holding. An unfinished change is finished first.
    ///
    /// No lock file is made. Where there was none, what was read counts only if none has come meanwhile and the holding
    /// is still there: only a purge removes a lock file.
    pub fn ask<T>(&self, read: impl Fn(&Holding) -> Outcome<T>) -> Outcome<T> {
        loop {
            self.must_exist()?;
            let no_lock = !files::exists(&self.lock)?;
            let lock = locks::shared(&self.lock, self.wait)?;
            if files::exists(&self.redo)? {
                drop(lock);
                self.own()?;
                continue;
            }
            let found = read(self);
            if lock.is_some() || !self.disturbed(no_lock)? {
                return found;
            }
        }
    }

    fn disturbed(&self, no_lock: bool) -> Outcome<bool> {
        Ok(no_lock && files::exists(&self.lock)? || files::exists(&self.redo)? || !files::exists(&self.ledger)?)
    }

    /// For a change: the holding, and what is in it. An unfinished change is finished first.
    pub fn change(&self) -> Outcome<(Owned<'_>, Contents)> {
        self.must_exist()?;
        if !files::exists(&self.redo)? {
            self.must_have_held()?;
        }
        let owned = self.own()?;
        self.must_exist().inspect_err(|_| owned.leave_no_lock())?;
        self.read_plain().map(|contents| (owned, contents))
    }

    /// For a new holding of this name.
    pub fn create(&self) -> Outcome<Owned<'_>> {
        let owned = self.own()?;
        for path in [&self.held, &self.ledger, &self.log, &self.sums] {
            if files::exists(path)? {
                owned.leave_no_lock();
                return Err(Failure::declined(path, "exists already and is kept. Give the new holding another name"));
            }
        }
        Ok(owned)
    }

    /// The holding for this process alone, with no change unfinished.
    fn own(&self) -> Outcome<Owned<'_>> {
        let owned = self.lock_alone()?;
        owned.settle()?;
        Ok(owned)
    }

    /// Locks the holding, and removes what a process that was killed here left behind.
    pub fn lock_alone(&self) -> Outcome<Owned<'_>> {
        let owned = Owned { holding: self, lock: locks::exclusive(&self.lock, self.wait)? };
        if locks::is_marked(&owned.lock) {
            files::remove_leftovers(&[&self.held, &self.ledger, &self.log, &self.sums, &self.redo])?;
            locks::unmark(&owned.lock);
        }
        Ok(owned)
    }

    pub fn must_exist(&self) -> Outcome<()> {
        match files::exists(&self.ledger)? || files::exists(&self.redo)? {
            true => Ok(()),
            false => Err(Failure::machine(&self.ledger, "find")(Error::from(ErrorKind::NotFound))
                .so("Make a holding with `quayrudder open FRAME --form FORM -o NAME`, or check the name.")),
        }
    }

    pub fn must_have_held(&self) -> Outcome<()> {
        match files::exists(&self.held)? {
            true => Ok(()),
            false => Err(Failure::damaged(
                &self.held,
                "is missing, and a ledger without its held file says nothing. Restore it from its copy",
            )),
        }
    }

    /// The ledger, asked for what it says of its held file, which is not read.
    pub fn ask_ledger(&self) -> Outcome<Vec<u8>> {
        self.ask(|holding| holding.must_have_held().and_then(|()| holding.read_ledger()))
    }

    /// The ledger, if it is what its sum says.
    pub fn read_ledger(&self) -> Outcome<Vec<u8>> {
        let ledger = files::read(&self.ledger)?;
        if let Some(sums) = self.read_sums()? {
            self.must_match(&sums, &State { ledger: Some(Digest::of(&ledger)), ..State::default() })?;
        }
        Ok(ledger)
    }

    /// All files, if they are what their sums say.
    pub fn read_whole(&self) -> Outcome<Contents> {
        self.must_have_held()?;
        let (held, ledger) = (files::read(&self.held)?, files::read(&self.ledger)?);
        let sums = self.read_sums()?;
        let log = self.read_log(sums.as_ref())?;
        let digest = |bytes: &Vec<u8>| Digest::of(bytes);
        let state = State { held: Some(digest(&held)), ledger: Some(digest(&ledger)), log: log.as_ref().map(digest) };
        if let Some(sums) = &sums {
            self.must_match(sums, &state)?;
        }
        Ok(Contents { held, ledger, log, sums, state })
    }

    /// The same, for files that are to be replaced: a link would be cut off from what it points to.
    pub fn read_plain(&self) -> Outcome<Contents> {
        [&self.held, &self.ledger, &self.sums].into_iter().try_for_each(|path| must_be_plain(path))?;
        let found = self.read_whole()?;
        if found.log.is_some() {
            must_be_plain(&self.log)?;
        }
        Ok(found)
    }

    fn read_sums(&self) -> Outcome<Option<Sums>> {
        let Some(bytes) = files::read_if_there(&self.sums)? else { return Ok(None) };
        let why = "does not have the sums of this holding's files. Look whether they are whole; \
                   then move it to a safe place and make the sums anew with `quayrudder verify --seal`";
        Sums::parse(&bytes, self.summed()).map(Some).ok_or_else(|| Failure::damaged(&self.sums, why))
    }

    /// The files that the sums are of.
    fn summed(&self) -> [&Path; 3] {
        [&self.held, &self.ledger, &self.log]
    }

    /// The log, where the holding has one. Sums say whether it has; without them the log itself does.
    fn read_log(&self, sums: Option<&Sums>) -> Outcome<Option<Vec<u8>>> {
        let summed = sums.map(|sums| sums.log.is_some());
        let found = match summed {
            Some(true) => files::read_if_there(&self.log)?,
            _ => compaction_log::read(&self.log)?,
        };
        let name = shown(&self.sums);
        let why = match (summed, &found) {
            (Some(true), None) => format!(
                "is missing, and {name} has its sum. Restore the holding from its copy; where no copy has it, move \
                 {name} to a safe place and make the sums anew with `quayrudder verify --seal`"
            ),
            (Some(false), Some(_)) => format!(
                "has no sum in {name}, so this log is of another state than the holding. Restore all files from one \
                 copy, or move the log to a safe place"
            ),
            _ => return Ok(found),
        };
        Err(Failure::damaged(&self.log, why))
    }

    /// Says which of these files is not what its sum says.
    fn must_match(&self, sums: &Sums, found: &State) -> Outcome<()> {
        let summed = [Some(sums.held), Some(sums.ledger), sums.log];
        let files = self.summed().into_iter().zip(summed).zip([found.held, found.ledger, found.log]);
        let differs = files.filter(|((_, sum), found)| found.is_some_and(|found| Some(found.sha256) != *sum));
        let differs: Vec<&Path> = differs.map(|((path, _), _)| path).collect();
        let sums = shown(&self.sums);
        match differs[..] {
            [] => Ok(()),
            [file] => Err(Failure::damaged(
                file,
                format!("differs from its sum in {sums}. Restore the holding from its copy"),
            )),
            _ => {
                let why = format!("differs from its sum in {sums}, and so does {}: ", shown(differs[1]));
                let advice = "these files are not of one state. Restore all of them from one copy";
                Err(Failure::damaged(differs[0], why + advice))
            }
        }
    }

    /// The files that a record is about as they are now.
    pub fn found(&self, record: &Record) -> Outcome<State> {
        let digest = |found: Option<Vec<u8>>| found.map(|bytes| Digest::of(&bytes));
        let log = if record.has_log() { files::read_if_there(&self.log) } else { compaction_log::read(&self.log) };
        let [held, ledger] = [&self.held, &self.ledger].map(|path| files::read_if_there(path));
        Ok(State { held: digest(held?), ledger: digest(ledger?), log: digest(log?) })
    }

    /// A record belongs to the files where each of them is as before it or as after it. A compaction may bring held file
    /// and ledger of earlier back; but notes are only added, so no note here is unknown to the record, and the sums come
    /// last, so where they have a compaction's own note its ledger is as after it.
    fn must_belong(&self, record: &Record, found: &State) -> Outcome<()> {
        let (follows, makes) = (&record.follows, &record.makes);
        let belongs = |of: fn(&State) -> Option<Digest>| of(found) == of(follows) || of(found) == of(makes);
        let notes = self.notes(record);
        let is_noted = record.compacts() && notes.as_ref().is_some_and(|(found, made)| found == made);
        let files = [
            (&self.ledger, belongs(|state| state.ledger) && !(is_noted && found.ledger != makes.ledger)),
            (&self.held, belongs(|state| state.held)),
            (&self.log, belongs(|state| state.log)),
            (&self.sums, notes.is_none_or(|(found, made)| made.starts_with(&found))),
        ];
        match files.iter().find(|(_, belongs)| !belongs) {
            Some((stranger, _)) => Err(self.foreign(record, stranger)),
            None => Ok(()),
        }
    }

    /// The notes of the sums that are here and of those that a record makes, where there are both.
    fn notes(&self, record: &Record) -> Option<(Vec<u8>, Vec<u8>)> {
        let notes = |bytes: &[u8]| Sums::parse(bytes, self.summed()).map(|sums| sums.notes);
        notes(&fs::read(&self.sums).ok()?).zip(notes(record.sums?))
    }

    /// The record and the files are not of one state.
    pub fn foreign(&self, record: &Record, stranger: &Path) -> Failure {
        let by_lines = if stranger == self.ledger { self.older_by_lines(record) } else { None };
        let older = by_lines.unwrap_or_else(|| self.older_by_time(stranger));
        let why = format!(
            "is the record of a change to another state than that of {}: {older}. Nothing was changed or deleted. Move \
             the older of the two to a safe place, restore what belongs to the newer, and check with `quayrudder verify`",
            shown(stranger)
        );
        Failure::damaged(&self.redo, why)
    }

    /// Lines are only appended from one compaction to the next, and each is noted in the sums. So where the notes are the
    /// same, the ledger that goes on from the other is the newer one.
    fn older_by_lines(&self, record: &Record) -> Option<String> {
        let (now, then) = (fs::read(&self.ledger).ok()?, record.ledger?);
        self.notes(record).filter(|(found, made)| found == made)?;
        let lines = |bytes: &[u8]| ledger::lines(bytes);
        if now.starts_with(then) && now.len() > then.len() {
            return Some(format!(
                "the record is older, it makes line {} and the ledger has {}",
                lines(then),
                lines(&now)
            ));
        }
        (then.starts_with(&now) && now.len() < then.len()).then(|| {
            format!("the ledger is older, it has {} lines and the record makes line {}", lines(&now), lines(then))
        })
    }

    fn older_by_time(&self, stranger: &Path) -> String {
        let time = |path: &Path| fs::metadata(path).and_then(|found| found.modified()).ok();
        match (time(&self.redo), time(stranger)) {
            (Some(record), Some(file)) => {
                let older = if record < file { "record" } else { "file" };
                let (record, file) = (time_text(record), time_text(file));
                format!("by their times the {older} is older, {record} for the record and {file} for the file")
            }
            _ => format!("{} is missing", shown(stranger)),
        }
    }
}

impl Change<'_> {
    /// The state that comes of this one.
    fn makes(&self, follows: &State) -> State {
        let digest = |new: Option<&[u8]>, old| new.map(Digest::of).or(old);
        State {
            held: digest(self.held, follows.held),
            ledger: digest(self.ledger, follows.ledger),
            log: digest(self.log, follows.log),
        }
    }
}

impl Contents {
    /// Where the holding has sums, a change writes them anew.
    pub fn notes(&self) -> Option<&[u8]> {
        self.sums.as_ref().map(|sums| sums.notes.as_slice())
    }
}

impl Owned<'_> {
    /// Makes the change, in all files or in none. Everything that takes room on the disk comes before the record has
    /// its name.
    pub fn commit(&self, follows: State, change: &Change) -> Outcome<()> {
        let holding = self.holding;
        let makes = change.makes(&follows);
        let sums = change.notes.and_then(|notes| self.sums_of(makes, notes));
        let Change { held, ledger, log, .. } = *change;
        let record = Record { follows, makes, held, ledger, sums: sums.as_deref(), into: None, log };
        locks::mark(&self.lock);
        let staged = self.stage(&record).and_then(|staged| self.record(&record).map(|()| staged));
        let staged = staged.map_err(|failure| failure.so("The holding is as it was before."))?;
        let is_new = |path: &Path| follows == State::default() || follows.log.is_none() && path == holding.log;
        files::sync_folder_of(&holding.redo)
            .and_then(|()| self.put(staged, |one| if is_new(one.path()) { one.put_new() } else { one.put() }))
            .map_err(|failure| failure.so("The change is recorded, and the next command on this holding finishes it."))
    }

    fn sums_of(&self, state: State, notes: &[u8]) -> Option<Vec<u8>> {
        let [held, ledger, log] = [state.held, state.ledger, state.log].map(|file| file.map(|digest| digest.sha256));
        let sums = Sums { held: held?, ledger: ledger?, log, notes: notes.to_vec() };
        Some(sums.bytes(self.holding.summed()))
    }

    /// Puts the record in place. Where this fails before it has its name, nothing has changed.
    pub fn record(&self, record: &Record) -> Outcome<()> {
        let holding = self.holding;
        let access = Access::of(&[&holding.held, &holding.ledger]);
        record.write(|parts| files::stage(&holding.redo, parts, access)?.put())
    }

    /// Finishes the change that a record says, or gives up a purge that has not begun.
    pub fn settle(&self) -> Outcome<()> {
        let holding = self.holding;
        let Some(bytes) = files::read_if_there(&holding.redo)? else { return Ok(()) };
        let record = redo::read(&holding.redo, &bytes)?;
        let found = holding.found(&record)?;
        let done = match record.is_removal() {
            true => self.give_up(&record, &found).map(|()| "a purge that had been interrupted is given up"),
            false => self.finish(&record, &found).map(|()| "a change that had been interrupted is finished"),
        };
        eprintln!("quayrudder: {}: {}", shown(&holding.name), done?);
        Ok(())
    }

    fn finish(&self, record: &Record, found: &State) -> Outcome<()> {
        self.holding.must_belong(record, found)?;
        locks::mark(&self.lock);
        self.stage(record)
            .and_then(|staged| files::sync_folder_of(&self.holding.redo).map(|()| staged))
            .and_then(|staged| self.put(staged, Staged::put))
            .map_err(|failure| failure.so("An earlier change is recorded and unfinished; nothing else was done."))
    }

    /// The log comes first, so that no line goes before it is logged.
    fn stage(&self, record: &Record) -> Outcome<Vec<Staged>> {
        let Holding { held, ledger, log, sums, .. } = self.holding;
        let contents = [(log, record.log), (held, record.held), (ledger, record.ledger), (sums, record.sums)];
        let given = contents.into_iter().filter_map(|(path, bytes)| bytes.map(|bytes| (path, bytes)));
        given.map(|(path, bytes)| files::stage(path, &[bytes], self.access(path)?)).collect()
    }

    /// A file stays as strict as it is. The log and the sums start as strict as held file and ledger together.
    fn access(&self, path: &PathBuf) -> Outcome<Access> {
        let Holding { held, ledger, .. } = self.holding;
        let is_added = path != held && path != ledger && !files::exists(path)?;
        Ok(if is_added { Access::of(&[held, ledger]) } else { Access::of(&[path]) })
    }

    fn put(&self, staged: Vec<Staged>, put: impl Fn(Staged) -> Outcome<()>) -> Outcome<()> {
        let mut placed = Vec::new();
        for one in staged {
            let path = one.path().to_path_buf();
            put(one).inspect_err(|failure| self.take_back(failure, &placed))?;
            placed.push(path);
        }
        files::sync_folder_of(&self.holding.ledger)?;
        files::remove(&self.holding.redo)?;
        locks::unmark(&self.lock);
        Ok(())
    }

    /// Somebody else's file has come into the way of a new holding or a new log: what was placed beside it goes again.
    fn take_back(&self, failure: &Failure, placed: &[PathBuf]) {
        if matches!(failure, Failure::Declined { .. }) {
            placed.iter().chain([&self.holding.redo]).for_each(|path| drop(files::remove(path)));
        }
    }

    /// For a holding that is not there: its lock file goes, unless a record is there to be finished.
    pub fn leave_no_lock(&self) {
        if self.holding.must_exist().is_err() {
            let _ = files::remove(&self.holding.lock);
        }
    }
}

fn must_be_plain(path: &Path) -> Outcome<()> {
    match fs::symlink_metadata(path) {
        Ok(found) if found.is_symlink() => {
            Err(Failure::declined(path, "is a symbolic link. Name the holding where its files lie"))
        }
        _ => Ok(()),
    }
}
