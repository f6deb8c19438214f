//! One piece of work on many things: on all cores, answered in the order of the things, with totals.
use crate::failure::{Failure, Outcome};
use crate::output::{progress, Output};
use rayon::prelude::*;
use rayon::{ThreadPool, ThreadPoolBuilder};
use serde_json::{json, Value};

/// So many things for each core are worked on, and then said in order.
const BATCH: usize = 128;
/// Small things wait for the disk most of the time, so that many are worked on at once for each core.
const ABREAST: usize = 4;
/// The longest file of a small thing. Opening one of this length takes some 60 megabytes.
const SMALL: u64 = 4 << 20;
/// What becomes of things that are not done.
const NOT_DONE: [&str; 4] = ["refused", "declined", "damaged", "failed"];

/// What is said of a thing, and the word under which it is counted.
#[derive(Debug)]
pub struct Said {
    pub text: String,
    pub value: Value,
    pub counted: &'static str,
}

/// Works on each thing, whose file has this length, and says the answers. Only the answers of one batch are kept, never
/// what was read for them.
pub fn run<I: Sync, T: Send>(
    output: &mut Output,
    items: &[I],
    things: &str,
    length: impl Fn(&I) -> u64,
    work: impl Fn(&I) -> T + Sync,
    mut say: impl FnMut(&mut Output, &I, T) -> Outcome<()>,
) -> Outcome<()> {
    if let [item] = items {
        return say(output, item, work(item));
    }
    let (bar, crew) = (progress(items.len() as u64, things), crew());
    for batch in items.chunks(BATCH * rayon::current_num_threads()) {
        let all = || batch.par_iter().map(&work).inspect(|_| bar.inc(1)).collect::<Vec<T>>();
        let answers = match &crew {
            Some(crew) if batch.iter().all(|item| length(item) <= SMALL) => crew.install(all),
            _ => all(),
        };
        bar.suspend(|| batch.iter().zip(answers).try_for_each(|(item, answer)| say(output, item, answer)))?;
    }
    bar.finish_and_clear();
    Ok(())
}

/// Those who work on small things; as many as rayon's own variable says, where somebody has set it.
fn crew() -> Option<ThreadPool> {
    let abreast = if std::env::var_os("RAYON_NUM_THREADS").is_some() { 1 } else { ABREAST };
    ThreadPoolBuilder::new().num_threads(abreast * rayon::current_num_threads()).build().ok()
}

/// How many of the things came to what.
pub struct Tally {
    things: &'static str,
    number: u64,
    counts: Vec<(&'static str, u64)>,
}

impl Tally {
    /// With the words for what is done; those for what is not are the same everywhere.
    pub fn new(things: &'static str, done: &[&'static str]) -> Tally {
        let words = done.iter().copied().chain(NOT_DONE);
        Tally { things, number: 0, counts: words.map(|word| (word, 0)).collect() }
    }

    pub fn add(&mut self, word: &str) {
        self.number += 1;
        self.counts.iter_mut().filter(|(known, _)| *known == word).for_each(|(_, count)| *count += 1);
    }

    pub fn text(&self) -> String {
        let counts: Vec<String> = self.counts.iter().map(|(word, count)| format!("{count} {word}")).collect();
        format!("{} {}: {}", self.number, self.things, counts.join(", "))
    }

    pub fn value(&self) -> Value {
        let mut totals = json!({self.things: self.number});
        for (word, count) in &self.counts {
            totals[word.replace(' ', "_")] = json!(count);
        }
        json!({"totals": totals})
    }

    pub fn say(&self, output: &mut Output) -> Outcome<()> {
        output.say(&self.text(), &self.value())
    }
}

/// The word under which a failure is counted.
pub fn word_of(failure: &Failure) -> &'static str {
    let [refused, declined, damaged, failed] = NOT_DONE;
    match failure {
        Failure::Refused(_) => refused,
        Failure::Declined { .. } => declined,
        Failure::Damaged { .. } => damaged,
        Failure::Usage(_) | Failure::InUse { .. } | Failure::Machine { .. } | Failure::Unread => failed,
    }
}

#[cfg(test)]
mod tests {
    use super::*;

    /// How many threads there are for each of two files of these lengths.
    fn threads(length: u64) -> Vec<usize> {
        let mut seen = Vec::new();
        let note = |_: &mut Output, _: &u64, threads| {
            seen.push(threads);
            Ok(())
        };
        let work = |_: &u64| rayon::current_num_threads();
        run(&mut Output::new(true), &[1, length], "files", |length| *length, work, note).unwrap();
        seen
    }

    #[test]
    fn a_large_file_keeps_a_batch_to_one_for_each_core() {
        assert_eq!(threads(SMALL), [crew().unwrap().current_num_threads(); 2]);
        assert_eq!(threads(SMALL + 1), [rayon::current_num_threads(); 2]);
    }
}
