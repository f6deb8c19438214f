//! The holdings below a folder.
use crate::failure::{Failure, Outcome};
use crate::files;
use crate::redo;
use crate::shard::Shard;
use std::collections::BTreeMap;
use std::fs;
use std::path::{Path, PathBuf};
use walkdir::{DirEntry, WalkDir};

/// What lies under one name.
#[derive(Clone, Debug, Default, PartialEq, Eq)]
pub struct Lies {
    held: bool,
    ledger: bool,
    pub redo: bool,
    lock: bool,
    /// Temporary files that a killed process left.
    pub leftovers: Vec<PathBuf>,
}

pub enum Kind {
    Holding,
    /// A ledger that belongs to nothing.
    Stranger,
    /// What may be left where no holding is any more: a lock file, temporary files.
    Rest,
    /// A held file without its ledger: what is beside it may be needed.
    Nothing,
}

/// The names of one shard in path order, and what could not be walked.
#[derive(Default)]
pub struct Found {
    pub names: BTreeMap<PathBuf, Lies>,
    /// Every shard lacks what lies there.
    pub unread: Vec<Failure>,
    /// How many of these belong to this shard.
    pub own_unread: u64,
    /// Ledgers, those of other shards too.
    pub met: u64,
}

impl Lies {
    /// A holding is a ledger with its held file, or a record.
    pub fn kind(&self, name: &Path) -> Kind {
        if self.held && self.ledger || self.redo && files::starts_with(&files::with_ending(name, ".redo"), redo::START)
        {
            return Kind::Holding;
        }
        match (self.ledger, self.held) {
            (true, _) => Kind::Stranger,
            (false, true) => Kind::Nothing,
            (false, false) => Kind::Rest,
        }
    }

    fn note(&mut self, ending: &str) {
        match ending {
            "held" => self.held = true,
            "ledger" => self.ledger = true,
            "redo" => self.redo = true,
            "lock" => self.lock = true,
            _ => {}
        }
    }
}

/// Walks a folder, but for one that is left out. Names of other shards are not kept.
pub fn find(folder: &Path, but: Option<&Path>, shard: Shard) -> Outcome<Found> {
    let mut found = Found::default();
    let wanted = |entry: &DirEntry| but.is_none_or(|but| entry.path() != but);
    for (path, failure) in walk(folder, wanted, |entry| found.note(entry.path(), |name| shard.has(folder, name)))? {
        found.own_unread += u64::from(shard.has(folder, &path));
        found.unread.push(failure);
    }
    found.names.retain(|_, lies| lies.ledger || lies.redo || lies.lock || !lies.leftovers.is_empty());
    Ok(found)
}

/// The files below a folder that may be frames, in path order, and what could not be walked.
pub struct Files {
    pub files: Vec<PathBuf>,
    pub unread: Vec<Failure>,
}

/// Walks a folder, but for one that is left out, for regular files that are neither hidden nor named as a holding's are.
pub fn frames(folder: &Path, but: Option<&Path>) -> Outcome<Files> {
    let mut files = Vec::new();
    let hidden = |entry: &DirEntry| entry.depth() > 0 && entry.file_name().as_encoded_bytes().starts_with(b".");
    let wanted = |entry: &DirEntry| !hidden(entry) && but.is_none_or(|but| entry.path() != but);
    let unread = walk(folder, wanted, |entry| {
        if entry.file_type().is_file() && split(entry.path()).is_none() {
            files.push(entry.into_path());
        }
    })?;
    files.sort();
    Ok(Files { files, unread: unread.into_iter().map(|(_, failure)| failure).collect() })
}

/// A folder that lies in another, or is the same, by the other one's path.
pub fn inside(folder: &Path, outer: &Path) -> Option<PathBuf> {
    let (folder, whole) = (fs::canonicalize(folder).ok()?, fs::canonicalize(outer).ok()?);
    folder.strip_prefix(&whole).ok().map(|rest| outer.join(rest))
}

/// Notes everything below a folder that is no folder, and gives the paths that could not be walked.
fn walk(
    folder: &Path,
    wanted: impl Fn(&DirEntry) -> bool,
    mut note: impl FnMut(DirEntry),
) -> Outcome<Vec<(PathBuf, Failure)>> {
    fs::read_dir(folder).map_err(Failure::machine(folder, "read"))?;
    let mut unread = Vec::new();
    for entry in WalkDir::new(folder).into_iter().filter_entry(wanted) {
        match entry {
            Ok(entry) if !entry.file_type().is_dir() => note(entry),
            Ok(_) => {}
            Err(error) => {
                let path = error.path().unwrap_or(folder).to_path_buf();
                let failure = Failure::machine(&path, "walk")(error.into());
                unread.push((path, failure));
            }
        }
    }
    Ok(unread)
}

impl Found {
    fn note(&mut self, path: &Path, is_own: impl Fn(&Path) -> bool) {
        let staged = path.file_name().and_then(files::staged_for);
        let file = staged.map(|name| path.with_file_name(name));
        let Some((name, ending)) = split(file.as_deref().unwrap_or(path)) else { return };
        self.met += u64::from(staged.is_none() && ending == "ledger");
        if !is_own(&name) {
            return;
        }
        let lies = self.names.entry(name).or_default();
        match staged {
            Some(_) => lies.leftovers.push(path.into()),
            None => lies.note(ending),
        }
    }
}

/// A holding's name and the ending of one of its files.
fn split(path: &Path) -> Option<(PathBuf, &str)> {
    let ending = path.extension()?.to_str()?;
    ["held", "ledger", "redo", "lock", "sha256", "compacted"]
        .contains(&ending)
        .then(|| (path.with_extension(""), ending))
        .filter(|(name, _)| name.file_name().is_some())
}
