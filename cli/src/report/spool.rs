//! Rows on the disk, as lines: those of holdings in trouble before the others.
use super::page::inert;
use crate::failure::{Failure, Outcome};
use serde_json::Value;
use std::fs::File;
use std::io::{self, BufRead, BufReader, BufWriter, Read, Seek, Write};

/// Two files without a name, which go with the process.
pub struct Spool {
    first: BufWriter<File>,
    rest: BufWriter<File>,
}

pub fn failed(error: io::Error) -> Failure {
    Failure::machine(&std::env::temp_dir(), "keep rows in")(error)
}

impl Spool {
    pub fn new() -> Outcome<Spool> {
        let file = || tempfile::tempfile().map(BufWriter::new).map_err(failed);
        Ok(Spool { first: file()?, rest: file()? })
    }

    pub fn add(&mut self, row: &Value, comes_first: bool) -> Outcome<()> {
        let file = if comes_first { &mut self.first } else { &mut self.rest };
        writeln!(file, "{}", inert(row)).map_err(failed)
    }

    /// All rows from the first on.
    pub fn lines(&mut self) -> io::Result<impl BufRead + '_> {
        self.first.flush()?;
        self.rest.flush()?;
        let (mut first, mut rest) = (self.first.get_ref(), self.rest.get_ref());
        first.rewind()?;
        rest.rewind()?;
        Ok(BufReader::new(first.chain(rest)))
    }
}
