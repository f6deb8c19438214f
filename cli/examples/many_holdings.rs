//! many_holdings NAME FOLDER NUMBER: copies of one holding with its sums, a thousand to a folder, for many.sh.
use std::fs;
use std::path::Path;

fn main() -> std::io::Result<()> {
    let words: Vec<String> = std::env::args().collect();
    let [_, name, folder, number] = &words[..] else { panic!("many_holdings NAME FOLDER NUMBER") };
    let number: u32 = number.parse().expect("a number of holdings");
    let files = ["held", "ledger", "sha256"].map(|ending| (ending, fs::read(format!("{name}.{ending}"))));
    let template = Path::new(name).file_name().unwrap_or_default().to_string_lossy().into_owned();
    for holding in 0..number {
        let inside = Path::new(folder).join(format!("{:04}", holding / 1000));
        fs::create_dir_all(&inside)?;
        let name = format!("h{holding:07}");
        for (ending, bytes) in &files {
            let bytes = bytes.as_ref().expect("the holding's file");
            let text = String::from_utf8_lossy(bytes);
            let path = inside.join(format!("{name}.{ending}"));
            match *ending {
                "sha256" => fs::write(path, text.replace(&format!("  {template}."), &format!("  {name}.")))?,
                _ => fs::write(path, bytes)?,
            }
        }
    }
    Ok(())
}
