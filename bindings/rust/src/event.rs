//! The events of a walk: five words each, read into a record whose kind carries its numbers.

use crate::Unknown;
use std::fmt;

/// What happened, with its numbers.
#[non_exhaustive]
#[derive(Debug, Clone, Copy, PartialEq, Eq, Hash)]
pub enum Kind {
    /// 1: a group begins.
    Enter,
    /// 2, a fault: the count is no number.
    BadCount {
        /// The position of the count field in the field table, from 0.
        position: usize,
    },
    /// 3, a fault: an entry does not begin with its delimiter.
    Delim {
        /// The tag found in its place.
        tag: u32,
    },
    /// 4, a fault: a tag stands twice in an entry.
    Repeat {
        /// The tag.
        tag: u32,
    },
    /// 5: an entry ends.
    Close {
        /// The entry's number, from 0.
        entry: usize,
        /// How many distinct members it has directly.
        members: usize,
    },
    /// 6, a fault: the count is not the number of entries.
    Miscount {
        /// The number that the count field says.
        declared: u64,
        /// The number of entries that are there.
        entries: usize,
    },
    /// 7, a fault: the group is nested deeper than 32 and is not walked.
    Deep,
    /// 8: a group ends.
    Leave {
        /// Whether the group is well-formed, nested groups not counted.
        well_formed: bool,
        /// The number of its entries.
        entries: usize,
    },
    /// 9, a finding: a tag stands twice at the message level.
    Twice {
        /// The tag.
        tag: u32,
    },
    /// 10, a finding: a tag does not belong to the message type.
    Foreign {
        /// The tag.
        tag: u32,
    },
    /// 11, a finding: a required tag or group is missing.
    Missing {
        /// The tag, or the group's count tag.
        tag: u32,
    },
}

/// An event of a walk.
#[derive(Debug, Clone, Copy, PartialEq, Eq, Hash)]
pub struct Event {
    /// The group's count tag; 0 for a finding of the message level.
    pub group: u32,
    /// The group's depth, 0 at the top; 0 for a finding of the message level.
    pub depth: u32,
    /// What happened.
    pub kind: Kind,
}

impl Kind {
    /// The kind's number, 1 to 11.
    #[must_use]
    pub fn number(self) -> u64 {
        match self {
            Self::Enter => 1,
            Self::BadCount { .. } => 2,
            Self::Delim { .. } => 3,
            Self::Repeat { .. } => 4,
            Self::Close { .. } => 5,
            Self::Miscount { .. } => 6,
            Self::Deep => 7,
            Self::Leave { .. } => 8,
            Self::Twice { .. } => 9,
            Self::Foreign { .. } => 10,
            Self::Missing { .. } => 11,
        }
    }

    /// Whether it is a fault: the fields are no reading of the group. Kinds 2, 3, 4, 6, 7.
    #[must_use]
    pub fn is_fault(self) -> bool {
        matches!(self.number(), 2 | 3 | 4 | 6 | 7)
    }

    /// Whether it is a finding of the message level. Kinds 9 to 11.
    #[must_use]
    pub fn is_finding(self) -> bool {
        matches!(self.number(), 9..=11)
    }

    /// Whether a message with it may not pass: every kind but enter, close and leave.
    #[must_use]
    pub fn stops(self) -> bool {
        !matches!(self, Self::Enter | Self::Close { .. } | Self::Leave { .. })
    }

    /// The kind of this number, a and b; `None` where it is not known or a word is none of it.
    fn from_words(number: u64, a: u64, b: u64) -> Option<Self> {
        let place = |word: u64| usize::try_from(word).ok();
        let tag = |word: u64| u32::try_from(word).ok();
        Some(match (number, a, b) {
            (1, 0, 0) => Self::Enter,
            (2, _, 0) => Self::BadCount { position: place(a)? },
            (3, _, 0) => Self::Delim { tag: tag(a)? },
            (4, _, 0) => Self::Repeat { tag: tag(a)? },
            (5, _, _) => Self::Close { entry: place(a)?, members: place(b)? },
            (6, _, _) => Self::Miscount { declared: a, entries: place(b)? },
            (7, 0, 0) => Self::Deep,
            (8, 0 | 1, _) => Self::Leave { well_formed: a == 1, entries: place(b)? },
            (9, _, 0) => Self::Twice { tag: tag(a)? },
            (10, _, 0) => Self::Foreign { tag: tag(a)? },
            (11, _, 0) => Self::Missing { tag: tag(a)? },
            _ => return None,
        })
    }
}

impl Event {
    /// The event that these five words are: kind, group, depth, a, b.
    ///
    /// # Errors
    /// [`Unknown::Event`] where the kind is not 1 to 11, or another word is none of its kind.
    pub fn from_words(words: [u64; 5]) -> Result<Self, Unknown> {
        let [number, group, depth, a, b] = words;
        let unknown = Unknown::Event { words };
        let kind = Kind::from_words(number, a, b).ok_or(unknown)?;
        if kind.is_finding() && (group, depth) != (0, 0) {
            return Err(unknown);
        }
        Ok(Self {
            group: u32::try_from(group).map_err(|_| unknown)?,
            depth: u32::try_from(depth).map_err(|_| unknown)?,
            kind,
        })
    }
}

impl fmt::Display for Kind {
    fn fmt(&self, f: &mut fmt::Formatter<'_>) -> fmt::Result {
        match *self {
            Self::Enter => write!(f, "it begins"),
            Self::BadCount { position } => {
                write!(f, "its count, field {}, is no number", position.saturating_add(1))
            }
            Self::Delim { tag } => write!(f, "tag {tag} stands where an entry begins"),
            Self::Repeat { tag } => write!(f, "tag {tag} stands twice in an entry"),
            Self::Close { entry, members } => {
                write!(f, "entry {} ends with {members} members", entry.saturating_add(1))
            }
            Self::Miscount { declared, entries } => {
                write!(f, "its count says {declared}, its entries are {entries}")
            }
            Self::Deep => write!(f, "it is nested deeper than 32"),
            Self::Leave { entries, .. } => write!(f, "it ends after {entries} entries"),
            Self::Twice { tag } => write!(f, "tag {tag} stands twice"),
            Self::Foreign { tag } => write!(f, "tag {tag} does not belong to the type"),
            Self::Missing { tag } => write!(f, "tag {tag} is required and missing"),
        }
    }
}

impl fmt::Display for Event {
    fn fmt(&self, f: &mut fmt::Formatter<'_>) -> fmt::Result {
        if !self.kind.is_finding() {
            write!(f, "group {}, depth {}: ", self.group, self.depth)?;
        }
        self.kind.fmt(f)
    }
}

/// The events that a walk wrote, in their order. Words that are no event are an error in their
/// place, and the events after them follow; too few words for an event are an error at the end.
///
/// ```
/// use order_gate::{Event, Unknown};
///
/// let words = [1, 78, 0, 0, 0, 12, 78, 0, 0, 0];
/// let events: Result<Vec<Event>, Unknown> = order_gate::events_in(&words).collect();
/// assert_eq!(events, Err(Unknown::Event { words: [12, 78, 0, 0, 0] }));
/// ```
pub fn events_in(words: &[u64]) -> impl Iterator<Item = Result<Event, Unknown>> + '_ {
    words.chunks(5).map(|words| match words.try_into() {
        Ok(words) => Event::from_words(words),
        Err(_) => Err(Unknown::PartOfEvent { words: words.len() }),
    })
}
