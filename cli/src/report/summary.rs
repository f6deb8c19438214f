//! What the report says of all holdings together.
use super::row::{Row, AGREE};
use crate::batch::Tally;
use crate::clock::{self, date_text};
use crate::failure::shown;
use crate::purge::Keep;
use quayrudder::Date;
use serde_json::{json, Value};
use std::collections::BTreeMap;
use std::path::Path;

pub struct Summary {
    folder: String,
    day: String,
    made: String,
    tally: Tally,
    bytes: u64,
    corrections: u64,
    corrected: u64,
    pictures: u64,
    /// Ledgers that belong to nothing.
    not_holdings: u64,
    sums: BTreeMap<&'static str, u64>,
    may_purge: BTreeMap<&'static str, u64>,
    /// By the month of the last keep date: holdings and their bytes.
    months: BTreeMap<String, (u64, u64)>,
}

impl Summary {
    pub fn new(folder: &Path, day: Date, not_holdings: u64) -> Summary {
        Summary {
            folder: shown(folder),
            day: date_text(day),
            made: clock::now(),
            tally: Tally::new("holdings", &[AGREE]),
            bytes: 0,
            corrections: 0,
            corrected: 0,
            pictures: 0,
            not_holdings,
            sums: ["agree", "none", "bad", "not known"].map(|word| (word, 0)).into(),
            may_purge: ["yes", "not yet", "no keep line", "not known"].map(|word| (word, 0)).into(),
            months: BTreeMap::new(),
        }
    }

    pub fn add(&mut self, row: &Row) {
        let account = row.ledger.as_ref();
        self.tally.add(row.state());
        self.bytes += row.bytes;
        self.corrections += row.corrections();
        self.corrected += u64::from(row.corrections() > 0);
        self.pictures += u64::from(row.picture.is_some());
        *self.sums.entry(row.sums).or_default() += 1;
        *self.may_purge.entry(account.map_or("not known", |account| account.purge.word())).or_default() += 1;
        if let Some(Keep { until, .. }) = account.and_then(|account| account.purge.keep()) {
            let (holdings, bytes) = self.months.entry(until[..until.len().min(7)].into()).or_default();
            (*holdings, *bytes) = (*holdings + 1, *bytes + row.bytes);
        }
    }

    pub fn text(&self) -> String {
        self.tally.text()
    }

    pub fn value(&self) -> Value {
        let month = |(month, (holdings, bytes)): (&String, &(u64, u64))| json!({"month": month, "holdings": holdings, "bytes": bytes});
        let mut value = self.tally.value();
        value["folder"] = json!(self.folder);
        value["day"] = json!(self.day);
        value["made"] = json!(self.made);
        value["bytes"] = json!(self.bytes);
        value["corrections"] = json!(self.corrections);
        value["corrected"] = json!(self.corrected);
        value["pictures"] = json!(self.pictures);
        value["not_holdings"] = json!(self.not_holdings);
        value["sums"] = by_key(&self.sums);
        value["may_purge"] = by_key(&self.may_purge);
        value["due"] = self.months.iter().map(month).collect();
        value
    }
}

fn by_key(counts: &BTreeMap<&'static str, u64>) -> Value {
    counts.iter().map(|(word, count)| (word.replace(' ', "_"), json!(count))).collect()
}
