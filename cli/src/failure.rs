//! Why a command did not do what it was asked: what is said, and the exit status.
use crate::refusals::{sentence, Sentence};
use serde_json::{json, Value};
use std::fmt::{self, Display, Formatter};
use std::io;
use std::path::{Path, PathBuf};

pub const DONE: u8 = 0;
pub const NO: u8 = 1;
pub const USAGE: u8 = 2;
pub const MACHINE: u8 = 3;
pub const DAMAGED: u8 = 4;

pub type Outcome<T> = Result<T, Failure>;

/// A refusal of the library's.
#[derive(Debug)]
pub struct Refused {
    pub file: PathBuf,
    pub number: u32,
    pub place: u32,
    pub column: u32,
    /// What was found in this file, where there is more to say than the refusal's own sentence.
    pub note: String,
    pub said: &'static Sentence,
}

#[derive(Debug)]
pub enum Failure {
    Refused(Refused),
    /// The command's own refusal, which has no number.
    Declined {
        file: PathBuf,
        why: String,
    },
    /// The files of a holding are not what they must be.
    Damaged {
        file: PathBuf,
        why: String,
    },
    Usage(String),
    /// Another process has had the lock for too long.
    InUse {
        file: PathBuf,
        process: Option<u32>,
    },
    /// The machine failed, or a file is missing.
    Machine {
        file: PathBuf,
        doing: &'static str,
        error: io::Error,
        then: String,
    },
    /// Nobody reads the output any more.
    Unread,
}

impl Failure {
    pub fn refused(file: &Path, number: u32) -> Failure {
        let (file, said) = (file.into(), sentence(number));
        Failure::Refused(Refused { file, number, place: 0, column: 0, note: String::new(), said })
    }

    pub fn declined(file: &Path, why: impl Into<String>) -> Failure {
        Failure::Declined { file: file.into(), why: why.into() }
    }

    pub fn damaged(file: &Path, why: impl Into<String>) -> Failure {
        Failure::Damaged { file: file.into(), why: why.into() }
    }

    /// For `map_err`: what was being done to which file.
    pub fn machine(file: &Path, doing: &'static str) -> impl FnOnce(io::Error) -> Failure {
        let file = file.to_path_buf();
        move |error| Failure::Machine { file, doing, error, then: String::new() }
    }

    /// The same failure, with what it means for the holding.
    pub fn so(self, sentence: impl Into<String>) -> Failure {
        match self {
            Failure::Machine { file, doing, error, .. } => {
                Failure::Machine { file, doing, error, then: sentence.into() }
            }
            other => other,
        }
    }

    pub fn status(&self) -> u8 {
        match self {
            Failure::Refused(refused) => refused.status(),
            Failure::Declined { .. } => NO,
            Failure::Usage(_) => USAGE,
            Failure::InUse { .. } | Failure::Machine { .. } | Failure::Unread => MACHINE,
            Failure::Damaged { .. } => DAMAGED,
        }
    }

    pub fn json(&self) -> Value {
        match self {
            Failure::Refused(refused) => refused.json(),
            Failure::Declined { file, why } => json!({"file": shown(file), "declined": why}),
            Failure::Damaged { file, why } => json!({"file": shown(file), "damaged": why}),
            Failure::InUse { file, process } => {
                json!({"file": shown(file), "failed": self.reason(), "process": process})
            }
            Failure::Machine { file, .. } => json!({"file": shown(file), "failed": self.to_string()}),
            Failure::Usage(why) => json!({"usage": why}),
            Failure::Unread => json!({}),
        }
    }
}

impl Failure {
    /// The sentence where the holding is named beside it.
    pub fn reason(&self) -> String {
        match self {
            Failure::InUse { process: Some(number), .. } => format!("in use by process {number}"),
            Failure::InUse { process: None, .. } => "in use by another process".to_string(),
            other => other.to_string(),
        }
    }
}

impl Refused {
    /// What was asked for cannot be had (1), or the bytes are not what they must be.
    fn status(&self) -> u8 {
        if self.said.damage {
            DAMAGED
        } else {
            NO
        }
    }

    fn json(&self) -> Value {
        json!({
            "file": shown(&self.file), "refusal": self.number, "place": self.place, "column": self.column,
            "meaning": self.said.meaning, "found": self.note, "advice": self.said.advice,
        })
    }
}

impl Display for Refused {
    fn fmt(&self, f: &mut Formatter) -> fmt::Result {
        write!(f, "{}: refusal {}: {}", shown(&self.file), self.number, self.said.meaning)?;
        match self.note.as_str() {
            "" => write!(f, ". {}", self.said.advice),
            note => write!(f, " ({note}). {}", self.said.advice),
        }
    }
}

impl Display for Failure {
    fn fmt(&self, f: &mut Formatter) -> fmt::Result {
        match self {
            Failure::Refused(refused) => refused.fmt(f),
            Failure::Declined { file, why } | Failure::Damaged { file, why } => write!(f, "{}: {why}", shown(file)),
            Failure::InUse { file, .. } => write!(f, "{}: {}", shown(file), self.reason()),
            Failure::Usage(why) => f.write_str(why),
            Failure::Machine { file, doing, error, then } if then.is_empty() => {
                write!(f, "{}: cannot {doing} it: {error}", shown(file))
            }
            Failure::Machine { file, doing, error, then } => {
                write!(f, "{}: cannot {doing} it: {error}. {then}", shown(file))
            }
            Failure::Unread => Ok(()),
        }
    }
}

/// A path on one line. Whatever its bytes, no other path is shown so.
pub fn shown(path: &Path) -> String {
    let bytes = path.as_os_str().as_encoded_bytes();
    match path.to_str() {
        Some(text) if !text.chars().any(|c| c == '\\' || c.is_control()) => text.to_string(),
        _ => bytes.utf8_chunks().map(|chunk| escaped(chunk.valid()) + &as_hex(chunk.invalid())).collect(),
    }
}

fn escaped(text: &str) -> String {
    let escape = |c: char| if c == '\\' || c.is_control() { c.escape_default().to_string() } else { c.to_string() };
    text.chars().map(escape).collect()
}

fn as_hex(bytes: &[u8]) -> String {
    bytes.iter().map(|byte| format!("\\x{byte:02x}")).collect()
}

/// Printable ASCII as it is, but for the backslash; anything else as an escape. Two texts are the same only where their bytes are.
pub fn printable(bytes: &[u8]) -> String {
    let one = |&byte: &u8| match byte {
        b'"' | b'\'' => char::from(byte).to_string(),
        _ => byte.escape_ascii().to_string(),
    };
    bytes.iter().map(one).collect()
}
