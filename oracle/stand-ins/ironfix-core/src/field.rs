//! Stand-in for `ironfix_core::field`.

/// A field of a decoded message: its tag and its value's bytes.
#[derive(Debug, Clone, Copy, PartialEq, Eq)]
pub struct FieldRef<'a> {
    pub tag: u32,
    pub value: &'a [u8],
}
