//! One lock file for each holding: exclusive for a change, shared for a question. Only who has it exclusively makes,
//! marks or removes the file.
use crate::failure::{shown, Failure, Outcome};
use rustix::fs::{major, minor, OFlags};
use std::fs::{self, File, OpenOptions, TryLockError};
use std::io::{self, ErrorKind};
use std::os::unix::fs::{FileExt, MetadataExt, OpenOptionsExt};
use std::path::Path;
use std::thread;
use std::time::{Duration, Instant};

/// How long a process waits before it says so.
const MOMENT: Duration = Duration::from_millis(500);
/// The longest pause between two attempts.
const PAUSE: Duration = Duration::from_millis(50);
/// The first bytes of a lock file while a change is being made: the number of the process follows.
pub const MARK: &str = "quayrudder ";

#[derive(Clone, Copy, PartialEq, Eq)]
enum Kind {
    Shared,
    Exclusive,
}

/// Locks the file at this path for a change; it is made where it is missing. The lock ends when the file is dropped.
pub fn exclusive(path: &Path, wait: Option<Duration>) -> Outcome<File> {
    loop {
        let file = open_or_make(path).map_err(Failure::machine(path, "open"))?;
        acquire(&file, path, Kind::Exclusive, wait)?;
        if still_there(&file, path) {
            return Ok(file);
        }
    }
}

/// Locks the file at this path for a question. None where there is no such file, or it may not be read.
pub fn shared(path: &Path, wait: Option<Duration>) -> Outcome<Option<File>> {
    loop {
        let file = match options().read(true).open(path) {
            Ok(file) => file,
            Err(error) if error.kind() == ErrorKind::NotFound || forbidden(&error) => return Ok(None),
            Err(error) => return Err(Failure::machine(path, "open")(error)),
        };
        acquire(&file, path, Kind::Shared, wait)?;
        if still_there(&file, path) {
            return Ok(Some(file));
        }
    }
}

/// A link is not followed: what it points to is nobody's lock.
fn options() -> OpenOptions {
    let mut options = OpenOptions::new();
    options.custom_flags(OFlags::NOFOLLOW.bits());
    options
}

/// Opened for writing, since some network file systems want that for an exclusive lock; else as far as it is allowed.
fn open_or_make(path: &Path) -> io::Result<File> {
    match options().read(true).write(true).create(true).truncate(false).open(path) {
        Err(error) if forbidden(&error) => options().read(true).open(path).map_err(|_| error),
        opened => opened,
    }
}

/// Was it refused because the folder or the file is read-only?
fn forbidden(error: &io::Error) -> bool {
    matches!(error.kind(), ErrorKind::PermissionDenied | ErrorKind::ReadOnlyFilesystem)
}

/// Tries until the lock is had or the time is over, and says after a moment what is waited for.
fn acquire(file: &File, path: &Path, kind: Kind, wait: Option<Duration>) -> Outcome<()> {
    let (start, mut pause, mut said) = (Instant::now(), Duration::from_millis(1), false);
    while !attempt(file, kind).map_err(Failure::machine(path, "lock"))? {
        let waited = start.elapsed();
        if wait.is_some_and(|most| waited >= most) {
            return Err(Failure::InUse { file: path.into(), process: holder(file) });
        }
        if waited >= MOMENT && !said {
            eprintln!("quayrudder: waiting for {}: another process is at work on this holding", shown(path));
            said = true;
        }
        thread::sleep(pause);
        pause = (2 * pause).min(PAUSE);
    }
    Ok(())
}

fn attempt(file: &File, kind: Kind) -> io::Result<bool> {
    let attempt = match kind {
        Kind::Shared => file.try_lock_shared(),
        Kind::Exclusive => file.try_lock(),
    };
    match attempt {
        Ok(()) => Ok(true),
        Err(TryLockError::WouldBlock) => Ok(false),
        Err(TryLockError::Error(error)) => Err(error),
    }
}

/// The process that has the lock, by the system's list: `1: FLOCK  ADVISORY  WRITE 4711 08:01:1234 0 EOF`.
fn holder(file: &File) -> Option<u32> {
    let found = file.metadata().ok()?;
    let place = format!("{:02x}:{:02x}:{}", major(found.dev()), minor(found.dev()), found.ino());
    let list = fs::read_to_string("/proc/locks").ok()?;
    let mut locks = list.lines().map(|line| line.split_whitespace().collect::<Vec<&str>>());
    let lock = locks.find(|words| words.get(1) == Some(&"FLOCK") && words.get(5) == Some(&place.as_str()))?;
    lock[4].parse().ok()
}

/// A purge removes the lock file, so the one that was waited for may be gone.
fn still_there(file: &File, path: &Path) -> bool {
    let identity = |found: fs::Metadata| (found.dev(), found.ino());
    let opened = file.metadata().map(identity).ok();
    opened.is_some() && opened == fs::symlink_metadata(path).map(identity).ok()
}

/// Notes in the lock file that temporary files are being made. A file that may not be written goes without.
pub fn mark(file: &File) {
    let text = format!("{MARK}{}\n", std::process::id());
    let _ = file.write_all_at(text.as_bytes(), 0).and_then(|()| file.sync_all());
}

/// Notes that none is left.
pub fn unmark(file: &File) {
    let _ = file.set_len(0);
}

/// Was the last process at work here killed?
pub fn is_marked(file: &File) -> bool {
    file.metadata().is_ok_and(|found| found.len() > 0)
}
