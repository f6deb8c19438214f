//! many_frames FOLDER NUMBER TABLE ROWS ARCHIVE: so many small frames, a thousand to a folder, no two alike, and a table of
//! corrections for the holdings that will be opened of them below ARCHIVE, for many.sh.
use std::fs::{self, File};
use std::io::{BufWriter, Write};
use std::path::Path;

const LINES: [(usize, &str); 9] = [
    (0, "FORMAT :100"),
    (1, "VERSION:11"),
    (2, "HDRBLKS:15"),
    (20, "NOVERFL:-1 0 0"),
    (39, "NPIXELB:1 0"),
    (40, "NROWS  :4"),
    (41, "NCOLS  :4"),
    (58, "LINEAR :1 0"),
    (79, "NEXP   :1 0 32"),
];

/// A thousand lie in each folder.
fn name(number: u64) -> String {
    format!("{:04}/h{number:07}", number / 1000)
}

fn main() -> std::io::Result<()> {
    let words: Vec<String> = std::env::args().collect();
    let [_, folder, number, table, rows, archive] = &words[..] else { panic!("FOLDER NUMBER TABLE ROWS ARCHIVE") };
    let (number, rows): (u64, u64) = (number.parse().expect("a number"), rows.parse().expect("a number of rows"));
    let mut frame = vec![b' '; 96 * 80];
    LINES.iter().for_each(|(line, text)| frame[80 * line..80 * line + text.len()].copy_from_slice(text.as_bytes()));
    frame.extend([50; 16]);
    for place in 0..number {
        let path = Path::new(folder).join(name(place)).with_extension("sfrm");
        fs::create_dir_all(path.parent().expect("a folder"))?;
        let pixels = frame.len() - 16;
        frame[pixels..pixels + 8].copy_from_slice(&place.to_le_bytes().map(|byte| byte & 0x7f));
        frame[pixels + 8] = (place >> 7 & 0x7f) as u8;
        fs::write(path, &frame)?;
    }
    let mut out = BufWriter::new(File::create(table)?);
    writeln!(out, "holding,row,column,count,remark")?;
    // One row in the order of the frames, then the next round: holdings come back where there are more rows than frames.
    for row in 0..rows {
        let (holding, column) = (row * number.div_ceil(rows).max(1) % number, row % 4);
        writeln!(out, "{archive}/{},3,{column},{},hot pixel", name(holding), 300 + row)?;
    }
    out.flush()
}
