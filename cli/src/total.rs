//! The totals of many machines' runs, added up. A shard that is missing or came twice is said.
use crate::failure::{shown, Failure, Outcome};
use crate::output::Output;
use crate::shard::Shard;
use crate::totals::{Kind, Totals};
use serde_json::{json, Value};
use std::collections::BTreeMap;
use std::fs::File;
use std::io::{self, BufRead, BufReader, Read};
use std::path::{Path, PathBuf};
use std::ptr;

/// No line of a run is longer, so that a file without lines is not read whole.
const LONGEST: u64 = 1 << 20;

/// A run that ended, and where its totals stand.
struct Run {
    totals: Totals,
    file: PathBuf,
    line: u64,
}

pub fn total(output: &mut Output, files: &[PathBuf]) -> Outcome<()> {
    let mut runs = Vec::new();
    for file in files {
        read(file, &mut runs).or_else(|failure| output.failed(&failure))?;
    }
    let Some(first) = runs.first() else { return Ok(()) };
    runs.iter().try_for_each(|run| run.must_be_like(first))?;
    let (shards, again) = by_shard(&runs);
    if !again.is_empty() {
        return again.iter().try_for_each(|failure| output.failed(failure));
    }
    let mut sum = Totals::new(first.totals.kind.clone(), Shard::WHOLE);
    for run in &runs {
        sum = sum.plus(&run.totals).ok_or_else(|| run.declined("has counts that are too large to be added up"))?;
    }
    output.status(sum.status);
    let missing = warn(output, &shards, first.totals.shard.of, &sum)?;
    say(output, &sum, &missing, first.totals.shard.of)
}

/// Takes the runs of one file. Of what is wrong in it, the first is said.
fn read(file: &Path, runs: &mut Vec<Run>) -> Outcome<()> {
    let (mut reader, file) = open(file)?;
    let (mut bytes, mut wrong, mut ended) = (Vec::new(), None, false);
    for line in 1.. {
        bytes.clear();
        let length = reader.by_ref().take(LONGEST).read_until(b'\n', &mut bytes);
        if length.map_err(Failure::machine(&file, "read"))? == 0 {
            break;
        }
        if bytes.trim_ascii().is_empty() {
            continue;
        }
        let found = totals_of(&bytes).map_err(|why| Failure::declined(&file, format!("line {line} {why}")));
        ended = matches!(found, Ok(Some(_)));
        match found {
            Ok(found) => runs.extend(found.map(|totals| Run { totals, file: file.clone(), line })),
            Err(failure) => drop(wrong.get_or_insert(failure)),
        }
    }
    let cut_short = || Failure::declined(&file, "does not end with totals: the run did not end. Run its shard again");
    match (wrong, ended) {
        (Some(failure), _) => Err(failure),
        (None, false) => Err(cut_short()),
        (None, true) => Ok(()),
    }
}

fn open(file: &Path) -> Outcome<(Box<dyn BufRead>, PathBuf)> {
    if file == Path::new("-") {
        return Ok((Box::new(io::stdin().lock()), "standard input".into()));
    }
    let opened = File::open(file).map_err(Failure::machine(file, "open"))?;
    Ok((Box::new(BufReader::new(opened)), file.into()))
}

/// The totals of a line, where it has any.
pub fn totals_of(line: &[u8]) -> Result<Option<Totals>, String> {
    let value: Value = serde_json::from_slice(line).map_err(|error| match error.is_eof() {
        true => "breaks off: the run was cut short there. Run its shard again".to_string(),
        false => format!("is no JSON from column {} on. Give what `--json` writes, as it is", error.column()),
    })?;
    Totals::read(&value).transpose()
}

impl Run {
    fn declined(&self, why: &str) -> Failure {
        Failure::declined(&self.file, format!("line {} {why}", self.line))
    }

    /// Is it a shard of the same question?
    fn must_be_like(&self, other: &Run) -> Outcome<()> {
        let question = |run: &Run| (run.totals.kind.clone(), run.totals.shard.of);
        if question(self) == question(other) {
            return Ok(());
        }
        let (this, that) = (self.asked(), other.asked());
        let (file, line) = (shown(&other.file), other.line);
        Err(self.declined(&format!(
            "is of {this}, and line {line} of {file} of {that}. Totals of different questions have no sum"
        )))
    }

    fn asked(&self) -> String {
        let shards = match self.totals.shard.of {
            1 => "undivided".to_string(),
            number => format!("in {number} shards"),
        };
        match &self.totals.kind {
            Kind::Sweep { day } => format!("`sweep` for {day} {shards}"),
            Kind::Verify => format!("`verify` {shards}"),
        }
    }
}

/// Each shard once, in order, and those that came again.
fn by_shard(runs: &[Run]) -> (BTreeMap<u16, &Run>, Vec<Failure>) {
    let (mut shards, mut again) = (BTreeMap::new(), Vec::new());
    for run in runs {
        let shard = run.totals.shard;
        let first: &Run = shards.entry(shard.number).or_insert(run);
        if !ptr::eq(first, run) {
            let (file, line) = (shown(&first.file), first.line);
            again
                .push(run.declined(&format!("is of shard {shard}, as is line {line} of {file}. Give each shard once")));
        }
    }
    (shards, again)
}

/// Says which shards are not all that they should be, and gives those that are missing.
fn warn(output: &mut Output, shards: &BTreeMap<u16, &Run>, of: u16, sum: &Totals) -> Outcome<Vec<u16>> {
    let mut say = |what: &str, numbers: &[u16], then: &str| match numbers {
        [] => Ok(()),
        _ => {
            let why = format!("{what} {} of {of}. {then}", ranges(numbers));
            output.failed(&Failure::declined(Path::new("--shard"), why))
        }
    };
    let those = |wanted: &dyn Fn(&Totals) -> bool| -> Vec<u16> {
        shards.iter().filter(|(_, run)| wanted(&run.totals)).map(|(number, _)| *number).collect()
    };
    let missing: Vec<u16> = (1..=of).filter(|number| !shards.contains_key(number)).collect();
    say("missing are", &missing, "Run them, and give what they write too")?;
    let unread = those(&|totals| totals.unread > 0);
    say("folders could not be read by", &unread, "What they have there is not counted")?;
    // A sweep that takes away leaves ever less to be met.
    let taken = sum.of("deleted") > 0 || sum.of("moved") > 0;
    let nothing = those(&|totals| !taken && totals.met == 0 && sum.met > 0);
    say("no ledger was met by", &nothing, "Others met some: is the tier mounted there? Run them again")?;
    Ok(missing)
}

/// A sum of all shards is what one run over the whole tier says.
fn say(output: &mut Output, sum: &Totals, missing: &[u16], of: u16) -> Outcome<()> {
    let (mut text, mut value) = (sum.text(), sum.value());
    if !missing.is_empty() {
        text += &format!("; {} of {of} shards", usize::from(of) - missing.len());
        value["shard"] = Value::Null;
        value["missing"] = json!(missing);
    }
    output.say(&text, &value)
}

/// `1-3, 7`
fn ranges(numbers: &[u16]) -> String {
    let runs = numbers.chunk_by(|first, second| first + 1 == *second);
    let text = |run: &[u16]| match run {
        [first, .., last] => format!("{first}-{last}"),
        _ => run.iter().map(u16::to_string).collect(),
    };
    runs.map(text).collect::<Vec<String>>().join(", ")
}
