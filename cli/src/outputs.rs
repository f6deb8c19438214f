//! Where the outputs of frames go: to the file or holding that is named, or for many frames below a folder, by the
//! frames' own names.
use crate::batch::Said;
use crate::failure::{shown, Failure, Outcome};
use crate::files;
use crate::names::{Doubled, Found, Item};
use crate::output::Made;
use crate::streams;
use std::fs;
use std::path::{Path, PathBuf};

pub struct Outputs<'a> {
    output: &'a Path,
    ending: &'a str,
    many: bool,
    doubled: Doubled,
}

impl<'a> Outputs<'a> {
    /// Judges the names of all outputs before the first is made.
    pub fn new(found: &Found, output: &'a Path, ending: &'a str) -> Outcome<Outputs<'a>> {
        let mut outputs = Outputs { output, ending, many: found.many, doubled: Doubled::default() };
        if found.many {
            must_be_folder(output)?;
            let why = "another frame of this batch would get this name too. Give them apart, with another folder";
            outputs.doubled = found.doubled(|item| outputs.name(item), why);
        }
        Ok(outputs)
    }

    /// The output of this frame, unless another one would have the same.
    pub fn of(&self, item: &Item) -> Outcome<PathBuf> {
        let name = self.name(item);
        self.doubled.must_not_have(item, &name).map(|()| name)
    }

    /// Of many, the frame's path below its folder, with its last ending replaced.
    fn name(&self, item: &Item) -> PathBuf {
        match self.many {
            true => self.output.join(item.rest()).with_extension(self.ending),
            false => self.output.to_path_buf(),
        }
    }

    /// Makes the folder for an output, where it is one of many.
    pub fn make_way(&self, path: &Path) -> Outcome<()> {
        if self.many {
            files::make_folder_below(files::folder(path))
        } else {
            Ok(())
        }
    }

    /// Writes an output, and counts it by the first word; by the second where a batch finds the very same bytes there.
    pub fn put(&self, path: &Path, made: Made, force: bool, words: [&'static str; 2]) -> Outcome<Said> {
        let Made { bytes, text, value } = made;
        self.make_way(path)?;
        if self.many && !force && is_there(path, &bytes)? {
            return Ok(Said { text, value, counted: words[1] });
        }
        streams::output(path, &bytes, force).map(|()| Said { text, value, counted: words[0] })
    }
}

fn is_there(path: &Path, bytes: &[u8]) -> Outcome<bool> {
    let same_length = fs::metadata(path).is_ok_and(|found| found.is_file() && found.len() == bytes.len() as u64);
    Ok(same_length && files::read(path)? == bytes)
}

fn must_be_folder(path: &Path) -> Outcome<()> {
    match streams::is_stream(path) || fs::metadata(path).is_ok_and(|found| !found.is_dir()) {
        true => Err(Failure::Usage(format!("`{}` must be a folder, since there may be many outputs", shown(path)))),
        false => Ok(()),
    }
}
