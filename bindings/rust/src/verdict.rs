//! The verdict on a value: one word a field.

use crate::Unknown;
use std::fmt;

/// The verdict on the value of a field.
#[non_exhaustive]
#[derive(Debug, Clone, Copy, PartialEq, Eq, Hash)]
pub enum Verdict {
    /// 0: the value is good.
    Good,
    /// 1: the dictionary does not define the tag.
    Undefined,
    /// 2: the value does not have the form of the tag's type.
    WrongFormat,
    /// 3: the value is none of those that the definition admits.
    NotAdmitted,
}

impl Verdict {
    /// The verdict that this word is.
    ///
    /// # Errors
    /// [`Unknown::Verdict`] where it is not 0 to 3.
    pub fn from_word(word: u64) -> Result<Self, Unknown> {
        Ok(match word {
            0 => Self::Good,
            1 => Self::Undefined,
            2 => Self::WrongFormat,
            3 => Self::NotAdmitted,
            _ => return Err(Unknown::Verdict { word }),
        })
    }

    /// The verdict's word, 0 to 3.
    #[must_use]
    pub fn word(self) -> u64 {
        match self {
            Self::Good => 0,
            Self::Undefined => 1,
            Self::WrongFormat => 2,
            Self::NotAdmitted => 3,
        }
    }

    /// Whether the value is good.
    #[must_use]
    pub fn is_good(self) -> bool {
        self == Self::Good
    }
}

impl fmt::Display for Verdict {
    fn fmt(&self, f: &mut fmt::Formatter<'_>) -> fmt::Result {
        f.write_str(match self {
            Self::Good => "the value is good",
            Self::Undefined => "the tag is not defined",
            Self::WrongFormat => "the value does not have the form of its type",
            Self::NotAdmitted => "the value is none of those admitted",
        })
    }
}

/// The verdicts that a call wrote, one a field, in their order.
pub fn verdicts_in(words: &[u64]) -> impl Iterator<Item = Result<Verdict, Unknown>> + '_ {
    words.iter().map(|word| Verdict::from_word(*word))
}
