//! NAME.sha256: the sums of a holding's files, as sha256sum writes and checks them, and notes behind a `#`.
use crate::digest::{from_hex, hex};
use std::path::Path;

#[derive(Clone, Debug, PartialEq, Eq)]
pub struct Sums {
    pub held: [u8; 32],
    pub ledger: [u8; 32],
    /// That of the log of compactions, where there is one.
    pub log: Option<[u8; 32]>,
    /// The lines that sha256sum passes over, each with its end.
    pub notes: Vec<u8>,
}

impl Sums {
    /// Takes the sums of held file, ledger and log apart: each has one line, the log may have none, and there is no other.
    pub fn parse(bytes: &[u8], files: [&Path; 3]) -> Option<Sums> {
        let (mut sums, mut notes) = ([None; 3], Vec::new());
        let names = files.map(file_name);
        for line in bytes.strip_suffix(b"\n")?.split(|byte| *byte == b'\n') {
            if line.starts_with(b"#") {
                notes.extend([line, b"\n"].concat());
                continue;
            }
            let (sum, name) = parse_line(line)?;
            let place = names.iter().position(|known| *known == name)?;
            sums[place].replace(sum).map_or(Some(()), |_| None)?;
        }
        Some(Sums { held: sums[0]?, ledger: sums[1]?, log: sums[2], notes })
    }

    pub fn bytes(&self, files: [&Path; 3]) -> Vec<u8> {
        let sums = [Some(self.held), Some(self.ledger), self.log];
        let lines = sums.iter().zip(files).filter_map(|(sum, file)| sum.map(|sum| line(&sum, &file_name(file))));
        lines.fold(self.notes.clone(), |all, line| [all, line].concat())
    }
}

/// The note of the frame that was opened.
pub fn frame_note(sum: &[u8; 32], frame: &Path) -> Vec<u8> {
    [b"# frame ", line(sum, &file_name(frame)).as_slice()].concat()
}

/// The sum of the frame that was opened, as it was noted.
pub fn noted_frame(notes: &[u8]) -> Option<String> {
    let mut lines = notes.split(|byte| *byte == b'\n');
    let noted = lines.find_map(|line| line.strip_prefix(b"# frame "))?;
    parse_line(noted).map(|(sum, _)| hex(&sum))
}

fn file_name(path: &Path) -> Vec<u8> {
    path.file_name().unwrap_or_default().as_encoded_bytes().to_vec()
}

/// A name with a backslash or the end of a line in it is escaped, and the line then starts with a backslash.
fn line(sum: &[u8; 32], name: &[u8]) -> Vec<u8> {
    let escaped: Vec<u8> = name.iter().flat_map(|byte| escape(*byte)).collect();
    let start: &[u8] = if escaped.len() > name.len() { b"\\" } else { b"" };
    [start, hex(sum).as_bytes(), b"  ", &escaped, b"\n"].concat()
}

fn escape(byte: u8) -> Vec<u8> {
    match byte {
        b'\\' => b"\\\\".to_vec(),
        b'\n' => b"\\n".to_vec(),
        other => vec![other],
    }
}

fn parse_line(line: &[u8]) -> Option<([u8; 32], Vec<u8>)> {
    let (escaped, line) = line.strip_prefix(b"\\").map_or((false, line), |rest| (true, rest));
    let (sum, rest) = line.split_at_checked(64)?;
    let name = rest.strip_prefix(b"  ").or_else(|| rest.strip_prefix(b" *"))?;
    let name = if escaped { unescape(name)? } else { name.to_vec() };
    Some((from_hex(sum)?, name))
}

fn unescape(name: &[u8]) -> Option<Vec<u8>> {
    let mut bytes = name.iter();
    let mut plain = Vec::new();
    while let Some(&byte) = bytes.next() {
        plain.push(match (byte, byte == b'\\') {
            (_, true) => match bytes.next()? {
                b'\\' => b'\\',
                b'n' => b'\n',
                _ => return None,
            },
            (other, _) => other,
        });
    }
    Some(plain)
}

#[cfg(test)]
mod tests {
    use super::*;
    use std::ffi::OsStr;
    use std::os::unix::ffi::OsStrExt;
    use std::path::PathBuf;

    #[test]
    fn sums_come_back_for_every_name() {
        for name in [b"a".as_slice(), b"new\nline", b"back\\slash", b"\xff bytes", b"# hash", b"\\n"] {
            let path = |ending: &str| Path::new(OsStr::from_bytes(name)).with_extension(ending);
            let paths = ["held", "ledger", "compacted"].map(path);
            let [held, ledger, log] = [&paths[0], &paths[1], &paths[2]].map(PathBuf::as_path);
            let notes = frame_note(&[9; 32], Path::new("frame.sfrm"));
            let sums = Sums { held: [1; 32], ledger: [0xfe; 32], log: None, notes };
            for sums in [Sums { log: Some([7; 32]), ..sums.clone() }, sums] {
                let bytes = sums.bytes([held, ledger, log]);
                assert_eq!(Sums::parse(&bytes, [held, ledger, log]), Some(sums.clone()));
                assert_eq!(Sums::parse(&bytes, [ledger, Path::new("other"), log]), None);
                assert_eq!(noted_frame(&sums.notes), Some("09".repeat(32)));
            }
        }
    }

    #[test]
    fn a_line_too_few_or_too_many_is_no_sums_file() {
        let files = ["a.held", "a.ledger", "a.compacted"].map(Path::new);
        let bytes = Sums { held: [1; 32], ledger: [2; 32], log: Some([3; 32]), notes: Vec::new() }.bytes(files);
        let second = bytes.iter().position(|byte| *byte == b'\n').unwrap() + 1;
        for wrong in [&bytes[second..], &bytes[..second], &bytes[..bytes.len() - 1], &bytes.repeat(2), b"", b"\n"] {
            assert_eq!(Sums::parse(wrong, files), None, "{}", String::from_utf8_lossy(wrong));
        }
    }
}
