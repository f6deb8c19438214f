//! What a command works on: the names that are given, and what lies below folders.
use crate::batch::{self, Said, Tally};
use crate::failure::{shown, Failure, Outcome};
use crate::files;
use crate::given::Names;
use crate::holding::Holding;
use crate::output::Output;
use crate::shard::Shard;
use crate::streams;
use crate::walk::{self, Kind};
use std::collections::HashSet;
use std::ffi::OsStr;
use std::os::unix::ffi::OsStrExt;
use std::path::{Component, Path, PathBuf};
use std::sync::Arc;
use std::time::Duration;

/// How long one holding is waited for where names come from a list or a folder.
pub const WAIT: Duration = Duration::from_secs(10);

/// What the names are of.
#[derive(Clone, Copy, Debug, PartialEq, Eq)]
pub enum Things {
    Frames,
    Holdings,
}

impl Things {
    pub fn name(self) -> &'static str {
        match self {
            Things::Frames => "frames",
            Things::Holdings => "holdings",
        }
    }

    /// The length of the frame, or of the held file.
    pub fn length(self, item: &Item) -> u64 {
        match self {
            Things::Frames => files::length(&item.path),
            Things::Holdings => Holding::named(&item.path, None).map_or(0, |holding| files::length(&holding.held)),
        }
    }
}

/// A frame or a holding, and the folder below which it was found.
pub struct Item {
    pub path: PathBuf,
    below: Option<Arc<Path>>,
}

/// What is to be worked on, in order: names as given, those of the list, and then what each folder has in path order.
pub struct Found {
    pub things: Things,
    pub items: Vec<Item>,
    /// What the walks met, but for the names.
    pub walked: walk::Found,
    /// Ledgers that belong to nothing.
    pub not_holdings: u64,
    /// Is this more than one name that was given?
    pub many: bool,
    /// Do names come from a list or a folder?
    pub listed: bool,
}

impl Item {
    pub fn is_below(&self) -> bool {
        self.below.is_some()
    }

    /// The path that an output keeps: that below the folder, or else the name alone.
    pub fn rest(&self) -> &Path {
        let name = self.path.file_name().map_or(self.path.as_path(), Path::new);
        self.below.as_ref().and_then(|folder| self.path.strip_prefix(folder).ok()).unwrap_or(name)
    }
}

/// Holdings, by name or below folders. Some names may stand for a folder themselves.
pub fn holdings(asked: &Names, shard: Shard, is_folder: impl Fn(&Path) -> bool) -> Outcome<Found> {
    let mut found = Found::new(Things::Holdings, asked);
    for path in words(asked)? {
        match is_folder(&path) {
            true => found.add_holdings(&path, shard)?,
            false => found.items.push(Item { path, below: None }),
        }
    }
    asked.below.iter().try_for_each(|folder| found.add_holdings(folder, shard))?;
    Ok(found)
}

/// Frames, by name or below folders. Outputs are known by the folder that they go into and their ending.
pub fn frames(asked: &Names, outputs: Option<(&Path, &str)>) -> Outcome<Found> {
    let mut found = Found::new(Things::Frames, asked);
    let words = words(asked)?;
    streams::must_come_once(words.iter().chain(&asked.names_from).map(PathBuf::as_path))?;
    found.items.extend(words.into_iter().map(|path| Item { path, below: None }));
    for folder in &asked.below {
        let walked = frames_below(folder, outputs)?;
        found.walked.unread.extend(walked.unread);
        found.add(folder, walked.files);
    }
    Ok(found)
}

/// The files below a folder that may be frames. Outputs of an earlier run, below a folder in there or beside the frames,
/// are none.
fn frames_below(folder: &Path, outputs: Option<(&Path, &str)>) -> Outcome<walk::Files> {
    let Some((into, ending)) = outputs else { return walk::frames(folder, None) };
    let inside = walk::inside(into, folder);
    if inside.as_deref() != Some(folder) {
        return walk::frames(folder, inside.as_deref());
    }
    let mut walked = walk::frames(folder, None)?;
    walked.files.retain(|file| ending.is_empty() || file.extension() != Some(OsStr::new(ending)));
    Ok(walked)
}

/// The names as given, and then those of the list.
fn words(asked: &Names) -> Outcome<Vec<PathBuf>> {
    let listed = asked.names_from.as_deref().map_or(Ok(Vec::new()), list)?;
    Ok(asked.names.iter().cloned().chain(listed).collect())
}

/// The names in a file, each as its bytes are.
fn list(file: &Path) -> Outcome<Vec<PathBuf>> {
    let bytes = streams::input(file)?;
    let separator = if bytes.contains(&0) { 0 } else { b'\n' };
    let names = bytes.split(|byte| *byte == separator).filter(|name| !name.is_empty());
    Ok(names.map(|name| PathBuf::from(OsStr::from_bytes(name))).collect())
}

impl Found {
    fn new(things: Things, asked: &Names) -> Found {
        let (many, listed) = (asked.single().is_none(), asked.is_listed());
        Found { things, items: Vec::new(), walked: walk::Found::default(), not_holdings: 0, many, listed }
    }

    /// The holdings below a folder.
    fn add_holdings(&mut self, folder: &Path, shard: Shard) -> Outcome<()> {
        let walked = walk::find(folder, None, shard)?;
        self.walked.unread.extend(walked.unread);
        self.walked.own_unread += walked.own_unread;
        self.walked.met += walked.met;
        let mut holdings = Vec::new();
        for (name, lies) in walked.names {
            match lies.kind(&name) {
                // With its ending a name is just this one, whatever it ends in itself.
                Kind::Holding => holdings.push(files::with_ending(&name, ".ledger")),
                Kind::Stranger => self.not_holdings += 1,
                Kind::Rest | Kind::Nothing => {}
            }
        }
        self.add(folder, holdings);
        Ok(())
    }

    fn add(&mut self, folder: &Path, paths: Vec<PathBuf>) {
        let folder: Arc<Path> = folder.into();
        (self.many, self.listed) = (true, true);
        self.items.extend(paths.into_iter().map(|path| Item { path, below: Some(folder.clone()) }));
    }

    /// Somebody who names one holding waits for it; a list goes on.
    pub fn wait(&self, asked: Option<Duration>) -> Option<Duration> {
        asked.or(self.listed.then_some(WAIT))
    }

    /// Works on each of these, says the answers and, where there are many, the totals.
    pub fn each(
        &self,
        output: &mut Output,
        done: &[&'static str],
        work: impl Fn(&Item) -> Outcome<Said> + Sync,
    ) -> Outcome<()> {
        let (things, mut tally) = (self.things, Tally::new(self.things.name(), done));
        for failure in &self.walked.unread {
            tally.add(batch::word_of(failure));
            output.failed(failure)?;
        }
        let length = |item: &Item| things.length(item);
        batch::run(output, &self.items, things.name(), length, work, |output, _, answer| match answer {
            Ok(said) => {
                tally.add(said.counted);
                output.say(&said.text, &said.value)
            }
            Err(failure) => {
                tally.add(batch::word_of(&failure));
                output.failed(&failure)
            }
        })?;
        if self.many {
            tally.say(output)
        } else {
            Ok(())
        }
    }

    /// The targets that more than one of these would change or make.
    pub fn doubled(&self, target: impl Fn(&Item) -> PathBuf, why: &'static str) -> Doubled {
        let (mut met, mut targets) = (HashSet::new(), HashSet::new());
        for item in &self.items {
            let target = plain(&target(item));
            if met.contains(&target) {
                targets.insert(target);
            } else {
                met.insert(target);
            }
        }
        Doubled { targets, why }
    }
}

/// Targets that are left alone, and why.
#[derive(Default)]
pub struct Doubled {
    targets: HashSet<PathBuf>,
    why: &'static str,
}

impl Doubled {
    pub fn must_not_have(&self, item: &Item, target: &Path) -> Outcome<()> {
        match self.targets.contains(&plain(target)) {
            false => Ok(()),
            true => Err(Failure::declined(&item.path, format!("{} is not made: {}", shown(target), self.why))),
        }
    }
}

/// A path without the components that mean nothing.
pub fn plain(path: &Path) -> PathBuf {
    path.components().filter(|part| *part != Component::CurDir).collect()
}

#[cfg(test)]
mod tests {
    use super::*;

    #[test]
    fn a_list_does_not_wait_without_end() {
        let (words, second) =
            (Names { names: vec!["a".into(), "b".into()], ..Names::default() }, Duration::from_secs(1));
        let folder = Names { below: vec![".".into()], ..Names::default() };
        let list = Names { names_from: Some("list".into()), ..Names::default() };
        let wait = |asked: &Names, given| Found::new(Things::Holdings, asked).wait(given);
        assert_eq!((wait(&words, None), wait(&words, Some(second))), (None, Some(second)));
        assert_eq!(
            (wait(&folder, None), wait(&list, None), wait(&list, Some(second))),
            (Some(WAIT), Some(WAIT), Some(second))
        );
    }
}
