//! Files read whole, written anew beside their place, and put there in one step.
use crate::failure::{Failure, Outcome};
use rustix::fs::{cwd, renameat_with, RenameFlags};
use rustix::io::Errno;
use std::ffi::{OsStr, OsString};
use std::fs::{self, DirBuilder, File, Permissions};
use std::io::{self, ErrorKind, Read, Write};
use std::os::unix::ffi::OsStrExt;
use std::os::unix::fs::{fchown, DirBuilderExt, MetadataExt, PermissionsExt};
use std::path::{Path, PathBuf};
use tempfile::NamedTempFile;

/// A temporary file is `.FILE.RANDOM.quayrudder`, in the folder of the file that it is for.
const ENDING: &str = ".quayrudder";
const RANDOM: usize = 12;

pub fn read(path: &Path) -> Outcome<Vec<u8>> {
    fs::read(path).map_err(Failure::machine(path, "read"))
}

/// The bytes of a file, or none where it is missing.
pub fn read_if_there(path: &Path) -> Outcome<Option<Vec<u8>>> {
    match fs::read(path) {
        Err(error) if error.kind() == ErrorKind::NotFound => Ok(None),
        found => found.map(Some).map_err(Failure::machine(path, "read")),
    }
}

/// Is this a file, and are these its first bytes? Other programs have files with endings like ours.
pub fn starts_with(path: &Path, start: &[u8]) -> bool {
    let mut found = vec![0; start.len()];
    let is_file = fs::metadata(path).is_ok_and(|file| file.is_file());
    is_file && File::open(path).and_then(|mut file| file.read_exact(&mut found)).is_ok() && found == start
}

/// A file's length; none where it cannot be had.
pub fn length(path: &Path) -> u64 {
    fs::metadata(path).map_or(0, |found| found.len())
}

/// The path with an ending put behind its name.
pub fn with_ending(path: &Path, ending: &str) -> PathBuf {
    let mut name = OsString::from(path);
    name.push(ending);
    name.into()
}

/// The folder that a path lies in.
pub fn folder(path: &Path) -> &Path {
    match path.parent() {
        Some(parent) if parent != Path::new("") => parent,
        _ => Path::new("."),
    }
}

/// Whose a file is and who may read it.
#[derive(Clone, Copy, Debug, PartialEq, Eq)]
pub struct Access {
    mode: u32,
    owner: Option<(u32, u32)>,
}

impl Access {
    /// The strictest of the files that are there, else that of any new file.
    pub fn of(paths: &[&Path]) -> Access {
        let found: Vec<fs::Metadata> = paths.iter().filter_map(|path| fs::metadata(path).ok()).collect();
        let mode = found.iter().map(|file| file.mode() & 0o7777).reduce(|mode, other| mode & other);
        let owner = found.first().map(|file| (file.uid(), file.gid()));
        Access { mode: mode.unwrap_or_else(mode_of_a_new_file), owner }
    }

    /// Only root may give a file away. Who may not stays its owner, as with any file that is written anew.
    fn give(&self, file: &File) -> io::Result<()> {
        let made = file.metadata()?;
        if let Some((user, group)) = self.owner.filter(|owner| *owner != (made.uid(), made.gid())) {
            let _ = fchown(file, Some(user), Some(group));
        }
        file.set_permissions(Permissions::from_mode(self.mode))
    }
}

/// What the process's mask leaves, and nothing for others where the mask cannot be had.
fn mode_of_a_new_file() -> u32 {
    let status = fs::read_to_string("/proc/self/status").unwrap_or_default();
    let mask = status.lines().find_map(|line| line.strip_prefix("Umask:"));
    let mask = mask.and_then(|digits| u32::from_str_radix(digits.trim(), 8).ok());
    0o666 & !mask.unwrap_or(0o077)
}

/// New contents, written and synced beside the file that they are for. Dropped, they are removed.
pub struct Staged {
    fresh: NamedTempFile,
    path: PathBuf,
}

/// Writes and syncs a file's new contents beside it, in a file that nobody else has or can foresee.
pub fn stage(path: &Path, parts: &[&[u8]], access: Access) -> Outcome<Staged> {
    stage_with(path, access, |file| parts.iter().try_for_each(|part| file.write_all(part)))
}

/// The same, with contents that come piece by piece.
fn stage_with(path: &Path, access: Access, write: impl FnOnce(&mut File) -> io::Result<()>) -> Outcome<Staged> {
    let failed = || Failure::machine(path, "write");
    let mut start = OsString::from(".");
    start.push(path.file_name().unwrap_or_default());
    start.push(".");
    let mut builder = tempfile::Builder::new();
    builder.prefix(&start).suffix(ENDING).rand_bytes(RANDOM);
    let mut fresh = builder.tempfile_in(folder(path)).map_err(failed())?;
    write(fresh.as_file_mut()).map_err(failed())?;
    access.give(fresh.as_file()).and_then(|()| fresh.as_file().sync_all()).map_err(failed())?;
    Ok(Staged { fresh, path: path.into() })
}

impl Staged {
    /// The file that the contents are for.
    pub fn path(&self) -> &Path {
        &self.path
    }

    /// Puts the contents in the file's place.
    pub fn put(self) -> Outcome<()> {
        let Staged { fresh, path } = self;
        fresh.persist(&path).map(drop).map_err(|lost| Failure::machine(&path, "replace")(lost.error))
    }

    /// Puts the contents where no file is, or else leaves what is there.
    pub fn put_new(self) -> Outcome<()> {
        let fresh = self.fresh.into_temp_path();
        rename_new(&fresh, &self.path).map_err(|error| match error.kind() {
            ErrorKind::AlreadyExists => {
                Failure::declined(&self.path, "has come meanwhile and is kept. Give another name")
            }
            _ => Failure::machine(&self.path, "make")(error),
        })?;
        fresh.keep().map(drop).map_err(|lost| Failure::machine(&self.path, "make")(lost.error))
    }
}

/// Renames without overwriting, in one step. Where the file system has no such call, a second name is as good.
pub fn rename_new(from: &Path, to: &Path) -> io::Result<()> {
    match renameat_with(cwd(), from, cwd(), to, RenameFlags::NOREPLACE) {
        Err(Errno::INVAL | Errno::NOSYS | Errno::NOTSUP) => {
            fs::hard_link(from, to).and_then(|()| fs::remove_file(from))
        }
        renamed => renamed.map_err(io::Error::from),
    }
}

/// The name of the file that a temporary file was for.
pub fn staged_for(name: &OsStr) -> Option<&OsStr> {
    let name = name.as_bytes().strip_prefix(b".")?.strip_suffix(ENDING.as_bytes())?;
    let (file, random) = name.split_at_checked(name.len().checked_sub(RANDOM + 1)?)?;
    let is_random = random.strip_prefix(b".")?.iter().all(u8::is_ascii_alphanumeric);
    (is_random && !file.is_empty()).then_some(OsStr::from_bytes(file))
}

/// Removes the temporary files that a killed process left for these files, which lie in one folder.
pub fn remove_leftovers(paths: &[&Path]) -> Outcome<()> {
    let folder = folder(paths[0]);
    let failed = || Failure::machine(folder, "read");
    for entry in fs::read_dir(folder).map_err(failed())? {
        let entry = entry.map_err(failed())?;
        let name = entry.file_name();
        if staged_for(&name).is_some_and(|file| paths.iter().any(|path| path.file_name() == Some(file))) {
            remove(&entry.path())?;
        }
    }
    Ok(())
}

/// Makes what was renamed or removed in a file's folder last.
pub fn sync_folder_of(path: &Path) -> Outcome<()> {
    let folder = folder(path);
    File::open(folder).and_then(|open| open.sync_all()).map_err(Failure::machine(folder, "sync"))
}

/// Makes a folder and those that it lies in, as strict as another one, and makes them last.
pub fn make_folder(path: &Path, like: &Path) -> Outcome<()> {
    if path.is_dir() {
        return Ok(());
    }
    make_folder(folder(path), like)?;
    let mode = fs::metadata(like).map_or(0o700, |found| found.mode() & 0o777);
    match DirBuilder::new().mode(mode).create(path) {
        Err(error) if error.kind() != ErrorKind::AlreadyExists => Err(Failure::machine(path, "make")(error)),
        _ => sync_folder_of(path),
    }
}

/// Makes a folder for outputs, as strict as the one that it comes to lie in.
pub fn make_folder_below(path: &Path) -> Outcome<()> {
    let there = path.ancestors().find(|ancestor| ancestor.is_dir());
    make_folder(path, there.unwrap_or(Path::new(".")))
}

/// Removes a file that may be missing already.
pub fn remove(path: &Path) -> Outcome<()> {
    match fs::remove_file(path) {
        Err(error) if error.kind() != ErrorKind::NotFound => Err(Failure::machine(path, "remove")(error)),
        _ => Ok(()),
    }
}

/// Is there anything at this path? A broken link is.
pub fn exists(path: &Path) -> Outcome<bool> {
    match fs::symlink_metadata(path) {
        Ok(_) => Ok(true),
        Err(error) if error.kind() == ErrorKind::NotFound => Ok(false),
        Err(error) => Err(Failure::machine(path, "look at")(error)),
    }
}

/// Writes an output file. One that is there is kept unless `force` is given.
pub fn output(path: &Path, force: bool, write: impl FnOnce(&mut File) -> io::Result<()>) -> Outcome<()> {
    must_be_free(path, force)?;
    let staged = stage_with(path, Access::of(&[path]), write)?;
    if force { staged.put() } else { staged.put_new() }?;
    sync_folder_of(path)
}

pub fn must_be_free(path: &Path, force: bool) -> Outcome<()> {
    match !force && exists(path)? {
        true => Err(Failure::declined(path, "exists already and is kept. Give another name, or --force to replace it")),
        false => Ok(()),
    }
}
