//! view: a picture of a frame or an image.
use crate::args::View;
use crate::failure::{shown, Failure, Outcome};
use crate::frames;
use crate::names;
use crate::options::ViewOptions;
use crate::output::{Made, Output};
use crate::outputs::Outputs;
use crate::picture::{palette, part_of, within, Picture, Shading};
use crate::pixels;
use crate::scale_bar;
use crate::streams;
use serde_json::json;
use std::path::Path;

pub fn view(output: &mut Output, asked: &View) -> Outcome<()> {
    output.make_way_for(&asked.output);
    must_be_possible(asked)?;
    let found = names::frames(&asked.names, Some((&asked.output, "png")))?;
    let outputs = Outputs::new(&found, &asked.output, "png")?;
    found.each(output, &["viewed", "already viewed"], |item| {
        let file = outputs.of(item)?;
        let made = view_one(&item.path, &file, &asked.options)?;
        outputs.put(&file, made, asked.options.force, ["viewed", "already viewed"])
    })
}

/// The picture of one frame, for a file of this name.
pub fn view_one(frame: &Path, file: &Path, options: &ViewOptions) -> Outcome<Made> {
    let counts = frames::counts(frame)?;
    let rows = within(frame, "rows", options.rows.as_ref(), counts.rows)?;
    let columns = within(frame, "columns", options.columns.as_ref(), counts.columns)?;
    let counts = part_of(counts, &rows, &columns);
    let (black, white) = pixels::limits(&counts.pixels, options.min, options.max);
    let shading = Shading::new((black, white), options.log);
    let palette = palette(options.colours);
    let mut picture = Picture::new(file, &counts, &shading, &palette, options.zoom)?;
    if options.scale {
        picture = scale_bar::below(picture, &shading, &palette);
    }
    let (name, width, height) = (shown(file), picture.width, picture.height);
    let text = format!("{name}: {width} x {height} pixels, black {black}, white {white}");
    let value = json!({
        "file": name, "width": width, "height": height, "black": black, "white": white, "log": options.log,
        "rows": [rows.start, rows.end], "columns": [columns.start, columns.end],
    });
    Ok(Made { bytes: picture.png(file, options.colours)?, text, value })
}

fn must_be_possible(asked: &View) -> Outcome<()> {
    let (output, options) = (&asked.output, &asked.options);
    let is_png = output.extension().is_some_and(|ending| ending == "png");
    if asked.names.single().is_some() && !is_png && !streams::is_stream(output) {
        return Err(Failure::Usage(format!("`{}` must end in .png", shown(output))));
    }
    if options.min.zip(options.max).is_some_and(|(min, max)| min >= max) {
        return Err(Failure::Usage("--min must be below --max".into()));
    }
    Ok(())
}
