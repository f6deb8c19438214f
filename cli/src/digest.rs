//! What a file's bytes are known by: their number and their SHA-256.
use sha2::{Digest as _, Sha256};

#[derive(Clone, Copy, Debug, PartialEq, Eq)]
pub struct Digest {
    pub length: u64,
    pub sha256: [u8; 32],
}

impl Digest {
    pub fn of(bytes: &[u8]) -> Digest {
        Digest::of_parts(&[bytes])
    }

    /// That of the parts, one behind the other.
    pub fn of_parts(parts: &[&[u8]]) -> Digest {
        let mut hasher = Sha256::new();
        parts.iter().for_each(|part| hasher.update(part));
        Digest { length: parts.iter().map(|part| part.len() as u64).sum(), sha256: hasher.finalize().into() }
    }

    pub fn hex(&self) -> String {
        hex(&self.sha256)
    }
}

/// Held file, ledger and the log of compactions at one time. A file that is missing has no digest.
#[derive(Clone, Copy, Debug, Default, PartialEq, Eq)]
pub struct State {
    pub held: Option<Digest>,
    pub ledger: Option<Digest>,
    pub log: Option<Digest>,
}

pub fn hex(bytes: &[u8]) -> String {
    bytes.iter().map(|byte| format!("{byte:02x}")).collect()
}

/// The bytes of 64 digits of the hexadecimal system.
pub fn from_hex(text: &[u8]) -> Option<[u8; 32]> {
    let digit = |byte: u8| char::from(byte).to_digit(16).map(|digit| digit as u8);
    let pair = |pair: &[u8]| Some(digit(pair[0])? * 16 + digit(pair[1])?);
    let bytes: Option<Vec<u8>> = (text.len() == 64).then(|| text.chunks(2).map(pair).collect())?;
    bytes?.try_into().ok()
}
