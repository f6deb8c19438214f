//! Which part of a tier one machine takes. A name's hash decides, so that every machine divides the tier alike.
use crate::digest::Digest;
use std::fmt::{self, Display, Formatter};
use std::path::Path;

/// Shard `number` of `of`, from 1.
#[derive(Clone, Copy, Debug, PartialEq, Eq)]
pub struct Shard {
    pub number: u16,
    pub of: u16,
}

impl Shard {
    /// The tier undivided.
    pub const WHOLE: Shard = Shard { number: 1, of: 1 };

    /// Does this shard take what lies under this path? What counts is the path from the folder that was given, so that
    /// it does not matter where a machine has mounted the tier: the first 16 digits of its SHA-256, modulo `of`.
    pub fn has(self, folder: &Path, path: &Path) -> bool {
        if self.of == 1 {
            return true;
        }
        let name = path.strip_prefix(folder).unwrap_or(path);
        let sum = Digest::of(name.as_os_str().as_encoded_bytes()).sha256;
        let hash = sum[..8].iter().fold(0, |hash: u64, byte| hash << 8 | u64::from(*byte));
        hash % u64::from(self.of) == u64::from(self.number) - 1
    }
}

impl Display for Shard {
    fn fmt(&self, f: &mut Formatter) -> fmt::Result {
        write!(f, "{}/{}", self.number, self.of)
    }
}

pub fn parse(text: &str) -> Result<Shard, String> {
    let number = |digits: &str| digits.parse().ok().filter(|_| digits.bytes().all(|digit| digit.is_ascii_digit()));
    let shard = text.split_once('/').and_then(|(k, n)| Some(Shard { number: number(k)?, of: number(n)? }));
    shard.filter(|shard| (1..=shard.of).contains(&shard.number)).ok_or_else(|| {
        "a shard is written K/N, with K from 1 to N and N at most 65535: 3/8 is the third of eight".to_string()
    })
}
