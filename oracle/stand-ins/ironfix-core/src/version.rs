//! Stand-in for `ironfix_core::FixVersion`: one version, since no answer of
//! the oracle depends on it.

#[derive(Debug, Clone, Copy, PartialEq, Eq, Hash)]
pub enum FixVersion {
    Fix44,
}

impl FixVersion {
    pub const fn begin_string(self) -> &'static str {
        match self {
            Self::Fix44 => "FIX.4.4",
        }
    }
}
