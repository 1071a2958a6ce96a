//! The text of a recorded case: bytes in hexadecimal, or, where it is long or
//! regular, parts with how often each stands there.

use crate::hex;
use std::fmt;
use std::str::FromStr;

/// The parts of a text, each with how often it stands there.
#[derive(Debug, Clone, PartialEq, Eq, Hash)]
pub struct CaseText(Vec<(usize, Vec<u8>)>);

impl CaseText {
    /// A text of parts.
    pub fn of_parts(parts: &[(usize, &[u8])]) -> Self {
        let parts = parts.iter().map(|(times, part)| (*times, part.to_vec()));
        Self(parts.collect())
    }

    /// The bytes of the text.
    pub fn bytes(&self) -> Vec<u8> {
        let parts = self.0.iter().map(|(times, part)| part.repeat(*times));
        parts.collect::<Vec<_>>().concat()
    }
}

impl From<Vec<u8>> for CaseText {
    fn from(text: Vec<u8>) -> Self {
        Self(vec![(1, text)])
    }
}

/// `HEX`, or `@TIMES HEX @TIMES HEX ..`.
impl fmt::Display for CaseText {
    fn fmt(&self, f: &mut fmt::Formatter<'_>) -> fmt::Result {
        if let [(1, text)] = self.0.as_slice() {
            return f.write_str(&hex::encode(text));
        }
        for (place, (times, part)) in self.0.iter().enumerate() {
            let space = if place == 0 { "" } else { " " };
            write!(f, "{space}@{times} {}", hex::encode(part))?;
        }
        Ok(())
    }
}

impl FromStr for CaseText {
    type Err = String;

    fn from_str(line: &str) -> Result<Self, String> {
        if !line.starts_with('@') {
            return hex::decode(line).map(Self::from);
        }
        let words: Vec<&str> = line.split(' ').collect();
        let parts = words.chunks(2).map(|pair| {
            let [times, part] = pair else {
                return Err(format!("`{line}` is not `@TIMES HEX ..`"));
            };
            let times = times.strip_prefix('@').and_then(|times| times.parse().ok());
            let times = times.ok_or_else(|| format!("`{line}` is not `@TIMES HEX ..`"))?;
            Ok((times, hex::decode(part)?))
        });
        parts.collect::<Result<_, _>>().map(Self)
    }
}
