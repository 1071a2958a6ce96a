//! Why there is no answer: a refusal, a malformed message, or a word that is not known.

use crate::{Malformed, Refusal};
use std::fmt;

/// Why there is no answer.
#[non_exhaustive]
#[derive(Debug, Clone, Copy, PartialEq, Eq, Hash)]
pub enum Error {
    /// A call of the gate was refused.
    Refused(Refusal),
    /// The message is not a list of fields TAG=VALUE.
    Malformed(Malformed),
    /// The library's answer has a word that this version of the crate does not know.
    Unknown(Unknown),
}

/// A word in an answer that this version of the crate does not know. No library of the same version
/// gives one; where one is met, nothing may be concluded from the answer.
#[non_exhaustive]
#[derive(Debug, Clone, Copy, PartialEq, Eq, Hash)]
pub enum Unknown {
    /// A refusal whose number is above 14.
    Refusal {
        /// The refusal's number.
        number: u64,
        /// The refusal's place.
        place: u64,
    },
    /// Five words that are no event: the kind is not 1 to 11, or another word is none of its kind.
    Event {
        /// The five words.
        words: [u64; 5],
    },
    /// Fewer than five words after the last event.
    PartOfEvent {
        /// How many words are left.
        words: usize,
    },
    /// A verdict that is not 0 to 3.
    Verdict {
        /// The verdict's word.
        word: u64,
    },
    /// A number of words, or a place, that is not in what was lent.
    Length {
        /// The number or place given.
        given: u64,
        /// How many were lent.
        lent: usize,
    },
}

impl Error {
    /// The refusal, where there is one.
    #[must_use]
    pub fn refusal(self) -> Option<Refusal> {
        match self {
            Self::Refused(refusal) => Some(refusal),
            Self::Malformed(_) | Self::Unknown(_) => None,
        }
    }
}

impl fmt::Display for Error {
    fn fmt(&self, f: &mut fmt::Formatter<'_>) -> fmt::Result {
        match self {
            Self::Refused(refusal) => refusal.fmt(f),
            Self::Malformed(malformed) => malformed.fmt(f),
            Self::Unknown(unknown) => unknown.fmt(f),
        }
    }
}

impl fmt::Display for Unknown {
    fn fmt(&self, f: &mut fmt::Formatter<'_>) -> fmt::Result {
        match self {
            Self::Refusal { number, place } => {
                write!(f, "the library gives refusal {number}, place {place}, which is not known")
            }
            Self::Event { words } => {
                write!(f, "the library gives the event {words:?}, which is not known")
            }
            Self::PartOfEvent { words } => {
                write!(f, "the library gives {words} words after the last event")
            }
            Self::Verdict { word } => {
                write!(f, "the library gives verdict {word}, which is not known")
            }
            Self::Length { given, lent } => {
                write!(f, "the library gives the number or place {given}, of {lent} lent")
            }
        }
    }
}

impl std::error::Error for Error {}
impl std::error::Error for Unknown {}

impl From<Refusal> for Error {
    fn from(refusal: Refusal) -> Self {
        Self::Refused(refusal)
    }
}

impl From<Malformed> for Error {
    fn from(malformed: Malformed) -> Self {
        Self::Malformed(malformed)
    }
}

impl From<Unknown> for Error {
    fn from(unknown: Unknown) -> Self {
        Self::Unknown(unknown)
    }
}
