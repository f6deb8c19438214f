//! The page: a template of our own with JSON in it. Nothing from outside comes into it but as JSON that holds no markup.
use crate::digest::Digest;
use serde_json::Value;
use std::io::{self, BufRead, BufWriter, Write};

const TEMPLATE: &str = include_str!("page.html");
const STYLE: &str = include_str!("page.css");
const SCRIPT: &str = include_str!("page.js");

/// Rows in one block: so many are read by the page before it lets the reader go on.
const BLOCK: usize = 2000;
const BLOCK_START: &[u8] = b"<script type=\"application/x-ndjson\" class=\"rows\">\n";
const BLOCK_END: &[u8] = b"</script>\n";

/// Fills the template, with rows as they stand in the spool.
pub fn write(out: &mut dyn Write, summary: &Value, mut rows: impl BufRead) -> io::Result<()> {
    let mut out = BufWriter::new(out);
    for piece in TEMPLATE.split("{{") {
        let (slot, text) = piece.split_once("}}").unwrap_or(("", piece));
        match slot {
            "policy" => out.write_all(policy().as_bytes())?,
            "style" => out.write_all(STYLE.as_bytes())?,
            "script" => out.write_all(SCRIPT.as_bytes())?,
            "summary" => out.write_all(inert(summary).as_bytes())?,
            "rows" => write_rows(&mut out, &mut rows)?,
            _ => {}
        }
        out.write_all(text.as_bytes())?;
    }
    out.flush()
}

/// JSON without a character that means anything to HTML or ends a line in a script. They stand in strings alone.
pub fn inert(value: &Value) -> String {
    let (text, mut safe) = (value.to_string(), String::new());
    for part in text.split_inclusive(is_markup) {
        let last = part.chars().next_back().filter(|c| is_markup(*c));
        safe.push_str(&part[..part.len() - last.map_or(0, char::len_utf8)]);
        safe.extend(last.map(|c| format!("\\u{:04x}", u32::from(c))));
    }
    safe
}

fn is_markup(c: char) -> bool {
    matches!(c, '<' | '>' | '&' | '\u{2028}' | '\u{2029}')
}

/// Only this style and this script count, pictures come from the page itself, and nothing is fetched or sent.
fn policy() -> String {
    let hash = |text: &str| format!("'sha256-{}'", base64::encode(Digest::of(text.as_bytes()).sha256));
    let (script, style) = (hash(SCRIPT), hash(STYLE));
    format!(
        "default-src 'none'; script-src {script}; style-src {style}; img-src data:; base-uri 'none'; form-action 'none'"
    )
}

fn write_rows(out: &mut impl Write, rows: &mut impl BufRead) -> io::Result<()> {
    while write_block(out, rows)? {}
    Ok(())
}

/// Are there rows left?
fn write_block(out: &mut impl Write, rows: &mut impl BufRead) -> io::Result<bool> {
    let mut line = Vec::new();
    out.write_all(BLOCK_START)?;
    let mut room = BLOCK;
    while room > 0 && rows.read_until(b'\n', &mut line)? > 0 {
        out.write_all(&line)?;
        line.clear();
        room -= 1;
    }
    out.write_all(BLOCK_END)?;
    Ok(room == 0)
}

#[cfg(test)]
mod tests {
    use super::*;
    use serde_json::json;

    #[test]
    fn hostile_text_comes_back_and_holds_no_markup() {
        for text in [
            "</script><script>alert(1)//",
            "<!-- <script",
            "a&b;&lt;",
            "\u{2028}\u{2029}",
            "\"\\'\0\n",
            "\u{202e}é",
            "",
        ] {
            let value = json!({text: [text, "plain", text]});
            let safe = inert(&value);
            assert!(!safe.chars().any(|c| is_markup(c) || c.is_control()), "{safe}");
            assert_eq!(serde_json::from_str::<Value>(&safe).unwrap(), value);
        }
    }

    #[test]
    fn rows_stand_in_blocks() {
        for (rows, blocks) in [(0, 1), (1, 1), (BLOCK - 1, 1), (BLOCK, 2), (2 * BLOCK + 1, 3)] {
            let (lines, mut out) = ("{}\n".repeat(rows), Vec::new());
            write(&mut out, &json!({}), lines.as_bytes()).unwrap();
            let page = String::from_utf8(out).unwrap();
            let start = String::from_utf8_lossy(BLOCK_START).into_owned();
            assert_eq!((page.matches(&start).count(), page.matches("\n{}").count()), (blocks, rows));
        }
    }

    #[test]
    fn every_slot_is_filled() {
        let mut out = Vec::new();
        write(&mut out, &json!({"summary": 1}), b"{}\n".as_slice()).unwrap();
        let page = String::from_utf8(out).unwrap();
        assert!([STYLE, SCRIPT, "{\"summary\":1}", &policy()].iter().all(|part| page.contains(part)));
        assert!(!page.contains("{{") && !page.contains("}}<"));
    }
}
