//! Document 01's refusals: a number and its place.

use std::fmt;

/// A refusal of the table in "When the gate says no".
#[derive(Debug, Clone, Copy, PartialEq, Eq)]
pub struct Refusal {
    pub number: u8,
    pub place: u64,
}

impl Refusal {
    pub const fn new(number: u8, place: u64) -> Self {
        Self { number, place }
    }

    /// Refusal 11: a layout rule and the count tag of the group that breaks
    /// it, 0 for the top.
    pub const fn of_rule(rule: u64, tag: u32) -> Self {
        Self::new(11, (rule << 32) + tag as u64)
    }

    /// As the recorded lists have it.
    pub fn recorded(self) -> String {
        format!("refused {} {}", self.number, self.place)
    }
}

/// As document 01's `gatelist` prints it.
impl fmt::Display for Refusal {
    fn fmt(&self, f: &mut fmt::Formatter<'_>) -> fmt::Result {
        write!(f, "refused={} place={}", self.number, self.place)
    }
}
