//! expand: the counts of a frame or an image in a file.
use crate::args::Expand;
use crate::failure::{shown, Failure, Outcome};
use crate::formats::{self, Format};
use crate::frames;
use crate::names;
use crate::output::{Made, Output};
use crate::outputs::Outputs;
use serde_json::json;
use std::path::Path;

pub fn expand(output: &mut Output, asked: &Expand) -> Outcome<()> {
    output.make_way_for(&asked.output);
    let (options, format) = (&asked.options, format(asked)?);
    let found = names::frames(&asked.names, Some((&asked.output, format.ending())))?;
    let outputs = Outputs::new(&found, &asked.output, format.ending())?;
    found.each(output, &["expanded", "already expanded"], |item| {
        let file = outputs.of(item)?;
        let made = expand_one(&item.path, &file, format, options.clip)?;
        outputs.put(&file, made, options.force, ["expanded", "already expanded"])
    })
}

/// As the one file ends, or as --as says; many files have no ending yet.
fn format(asked: &Expand) -> Outcome<&'static Format> {
    match (asked.names.single(), asked.options.format) {
        (Some(_), format) => formats::to_write(&asked.output, format),
        (None, Some(format)) => Ok(format),
        (None, None) => {
            Err(Failure::Usage(format!("for many frames --as says how to write them: {}", formats::words())))
        }
    }
}

/// The counts of one frame, for a file of this name.
pub fn expand_one(frame: &Path, file: &Path, format: &Format, clip: bool) -> Outcome<Made> {
    let counts = frames::counts(frame)?;
    let bytes = format.encode(file, &counts, clip)?;
    let (name, rows, columns) = (shown(file), counts.rows, counts.columns);
    let text = format!("{name}: {rows} rows, {columns} columns");
    Ok(Made { bytes, text, value: json!({"file": name, "rows": rows, "columns": columns}) })
}
