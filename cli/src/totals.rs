//! What a run over a tier counts, as its last line says it: `sweep` and `verify` write that line, and `total` reads it.
use crate::failure::{Outcome, DAMAGED};
use crate::output::Output;
use crate::shard::{self, Shard};
use crate::walk::Found;
use serde_json::{json, Map, Value};

/// A count's word, and what stands before it in the text.
type Word = (&'static str, &'static str);

const SWEEP: [Word; 9] = [
    ("", "ledgers"),
    (": ", "yes"),
    (", ", "deleted"),
    (", ", "moved"),
    (", ", "not yet"),
    (", ", "no keep line"),
    (", ", "refused"),
    (", ", "failed"),
    (", ", "not a holding"),
];

const VERIFY: [Word; 7] = [
    ("", "holdings"),
    (": ", "agree"),
    (" (", "without sums"),
    (", ", "sums made"),
    ("), ", "damaged"),
    (", ", "failed"),
    (", ", "not a holding"),
];

/// What was run: only runs of the same kind are added up.
#[derive(Clone, Debug, PartialEq, Eq)]
pub enum Kind {
    Sweep { day: String },
    Verify,
}

/// The totals of one run, or of several added up.
#[derive(Clone, Debug)]
pub struct Totals {
    pub kind: Kind,
    pub shard: Shard,
    /// The ledgers that were met below the folders, those of other shards too.
    pub met: u64,
    /// The folders that could not be read, and with them whatever this shard has there. Each is counted as failed by the
    /// shard that it belongs to.
    pub unread: u64,
    pub status: u8,
    counts: Vec<u64>,
}

impl Kind {
    fn command(&self) -> &'static str {
        match self {
            Kind::Sweep { .. } => "sweep",
            Kind::Verify => "verify",
        }
    }

    fn words(&self) -> &'static [Word] {
        match self {
            Kind::Sweep { .. } => &SWEEP,
            Kind::Verify => &VERIFY,
        }
    }
}

impl Totals {
    pub fn new(kind: Kind, shard: Shard) -> Totals {
        let counts = vec![0; kind.words().len()];
        Totals { kind, shard, met: 0, unread: 0, status: 0, counts }
    }

    /// Says what could not be walked, and counts what the others leave to this shard.
    pub fn begin(&mut self, output: &mut Output, found: &Found) -> Outcome<()> {
        self.met += found.met;
        self.unread += found.unread.len() as u64;
        self.count_many("failed", found.own_unread);
        found.unread.iter().try_for_each(|failure| output.failed(failure))
    }

    /// Counts one more thing of each of these words.
    pub fn count(&mut self, words: &[&str]) {
        words.iter().for_each(|word| self.count_many(word, 1));
    }

    pub fn count_many(&mut self, word: &str, number: u64) {
        let known = self.kind.words().iter().zip(&mut self.counts);
        known.filter(|((_, known), _)| *known == word).for_each(|(_, count)| *count += number);
    }

    /// How many were counted of this word.
    pub fn of(&self, word: &str) -> u64 {
        let known = self.kind.words().iter().zip(&self.counts);
        known.filter(|((_, known), _)| *known == word).map(|(_, count)| count).sum()
    }

    /// Ends a run.
    pub fn say(&mut self, output: &mut Output) -> Outcome<()> {
        self.status = output.worst();
        output.say(&self.text(), &self.value())
    }

    pub fn text(&self) -> String {
        let words = self.kind.words().iter().zip(&self.counts);
        words.map(|((before, word), count)| format!("{before}{count} {word}")).collect()
    }

    pub fn value(&self) -> Value {
        let words = self.kind.words().iter().zip(&self.counts);
        let counts: Map<String, Value> = words.map(|((_, word), count)| (key(word), json!(count))).collect();
        let mut value = json!({"totals": counts, "command": self.kind.command()});
        if let Kind::Sweep { day } = &self.kind {
            value["day"] = json!(day);
        }
        value["shard"] = json!(self.shard.to_string());
        value["met"] = json!(self.met);
        value["unread"] = json!(self.unread);
        value["status"] = json!(self.status);
        value
    }

    /// The totals of a line, where it has any; an error where they are of another command or version.
    pub fn read(line: &Value) -> Option<Result<Totals, String>> {
        let counts = line.get("totals")?.as_object()?;
        Some(read(line, counts).ok_or_else(|| "has totals that no `sweep` or `verify` of this version writes".into()))
    }

    /// What each run met and could not read is the same on every machine where nothing is wrong, and is not added.
    /// None where a sum has more than 64 bits.
    pub fn plus(mut self, other: &Totals) -> Option<Totals> {
        self.met = self.met.max(other.met);
        self.unread = self.unread.max(other.unread);
        self.status = self.status.max(other.status);
        for (count, more) in self.counts.iter_mut().zip(&other.counts) {
            *count = count.checked_add(*more)?;
        }
        Some(self)
    }
}

fn key(word: &str) -> String {
    word.replace(' ', "_")
}

fn read(line: &Value, counts: &Map<String, Value>) -> Option<Totals> {
    let text = |key: &str| line.get(key)?.as_str();
    let number = |key: &str| line.get(key)?.as_u64();
    let kind = match text("command")? {
        "sweep" => Kind::Sweep { day: text("day")?.to_string() },
        "verify" => Kind::Verify,
        _ => return None,
    };
    let mut totals = Totals::new(kind, shard::parse(text("shard")?).ok()?);
    let words = totals.kind.words();
    totals.counts = words.iter().map(|(_, word)| counts.get(&key(word))?.as_u64()).collect::<Option<Vec<u64>>>()?;
    (totals.met, totals.unread) = (number("met")?, number("unread")?);
    totals.status = u8::try_from(number("status")?).ok().filter(|status| *status <= DAMAGED)?;
    (counts.len() == words.len()).then_some(totals)
}
