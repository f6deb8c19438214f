//! NAME.compacted: the log of a ledger's compactions, one entry behind the other. An entry is lines behind a `#`, and then
//! the listing of the ledger before.
use crate::digest::Digest;
use crate::failure::{shown, Outcome};
use crate::files;
use crate::holding::Contents;
use crate::ledger;
use crate::purge_log::{file_text, who};
use std::path::Path;

/// What every log starts with.
const START: &str = "# quayrudder compaction ";

/// The log at this path. A file of another program is none.
pub fn read(path: &Path) -> Outcome<Option<Vec<u8>>> {
    match files::starts_with(path, START.as_bytes()) {
        true => files::read_if_there(path),
        false => Ok(None),
    }
}

/// The log of what was found, with an entry more: who compacted which ledger to which at this time, and its listing.
pub fn with_entry(found: &Contents, name: &Path, time: &str, compacted: &[u8]) -> Vec<u8> {
    let (before, after) = (ledger::lines(&found.ledger), ledger::lines(compacted));
    let name = shown(name.file_name().map_or(name, Path::new));
    let (held, old) = (file_text(&found.state.held), file_text(&found.state.ledger));
    let (new, listing) = (file_text(&Some(Digest::of(compacted))), ledger::listing(&found.ledger));
    let head = format!("{START}{time} {} {name}: {before} lines before, {after} after", who());
    let entry = format!("{head}\n# held {held}\n# ledger before {old}\n# ledger after {new}\n{listing}");
    [found.log.as_deref().unwrap_or_default(), entry.as_bytes()].concat()
}
