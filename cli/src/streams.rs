//! `-`, standard input or output where one file is meant. A file of this name is `./-`.
use crate::failure::{Failure, Outcome};
use crate::files;
use std::fs::File;
use std::io::{self, ErrorKind, Read, Write};
use std::os::fd::AsFd;
use std::path::Path;

pub fn is_stream(path: &Path) -> bool {
    path.as_os_str() == "-"
}

/// The whole of a file, or of standard input.
pub fn input(path: &Path) -> Outcome<Vec<u8>> {
    if !is_stream(path) {
        return files::read(path);
    }
    let mut bytes = Vec::new();
    io::stdin().lock().read_to_end(&mut bytes).map_err(Failure::machine(path, "read"))?;
    Ok(bytes)
}

/// A file, or standard input, to be read piece by piece with nothing read ahead.
pub fn open(path: &Path) -> Outcome<File> {
    let opened = match is_stream(path) {
        true => io::stdin().as_fd().try_clone_to_owned().map(File::from),
        false => File::open(path),
    };
    opened.map_err(Failure::machine(path, "read"))
}

/// Writes an output file, as `files::output` does, or to standard output.
pub fn output(path: &Path, bytes: &[u8], force: bool) -> Outcome<()> {
    output_with(path, force, |out| out.write_all(bytes))
}

/// The same, with bytes that come piece by piece.
pub fn output_with(path: &Path, force: bool, write: impl FnOnce(&mut dyn Write) -> io::Result<()>) -> Outcome<()> {
    if !is_stream(path) {
        return files::output(path, force, |file| write(file));
    }
    let mut out = io::stdout().lock();
    write(&mut out).and_then(|()| out.flush()).map_err(|error| match error.kind() {
        ErrorKind::BrokenPipe => Failure::Unread,
        _ => Failure::machine(path, "write")(error),
    })
}

/// Standard input can be read once.
pub fn must_come_once<'a>(inputs: impl IntoIterator<Item = &'a Path>) -> Outcome<()> {
    match inputs.into_iter().filter(|path| is_stream(path)).count() {
        0 | 1 => Ok(()),
        _ => Err(Failure::Usage("`-` stands twice, and standard input can be read once".into())),
    }
}
