//! Document 01's events: five words each, written by a visitor of the Rust's
//! walk.

use crate::group::GroupSpec;
use crate::walk::{EntryTags, Visitor};
use ironfix_core::field::FieldRef;
use std::fmt;

/// The kinds of events, in the order of their numbers from 1.
pub const KINDS: [&str; 11] = [
    "enter", "badcount", "delim", "repeat", "close", "miscount", "deep", "leave", "twice",
    "foreign", "missing",
];

pub const ENTER: u64 = 1;
pub const BADCOUNT: u64 = 2;
pub const DELIM: u64 = 3;
pub const REPEAT: u64 = 4;
pub const CLOSE: u64 = 5;
pub const MISCOUNT: u64 = 6;
pub const DEEP: u64 = 7;
pub const LEAVE: u64 = 8;
pub const TWICE: u64 = 9;
pub const FOREIGN: u64 = 10;
pub const MISSING: u64 = 11;

/// An event: kind, the group's count tag, depth, a and b. An unused word is
/// 0.
#[derive(Debug, Clone, Copy, PartialEq, Eq)]
pub struct Event(pub [u64; 5]);

impl Event {
    /// An event of the message walk: it has no group and no depth.
    pub(crate) fn of_message(kind: u64, tag: u32) -> Self {
        Self([kind, 0, 0, u64::from(tag), 0])
    }
}

impl fmt::Display for Event {
    fn fmt(&self, f: &mut fmt::Formatter<'_>) -> fmt::Result {
        let [kind, group, depth, a, b] = self.0;
        let name = usize::try_from(kind)
            .ok()
            .and_then(|kind| KINDS.get(kind.checked_sub(1)?))
            .unwrap_or(&"unknown");
        write!(f, "event={name} group={group} depth={depth} a={a} b={b}")
    }
}

/// Writes an event for each call of the walk.
///
/// The walk does not say a group's depth: it is the number of groups that
/// were entered and not left. Nor does it say the position of a count field,
/// which is found by its value: no two fields may share the first byte of
/// their values.
pub(crate) struct Recorder<'f, 'a> {
    fields: &'f [FieldRef<'a>],
    open: u64,
    pub(crate) events: Vec<Event>,
}

impl<'f, 'a> Recorder<'f, 'a> {
    pub(crate) fn new(fields: &'f [FieldRef<'a>]) -> Self {
        Self {
            fields,
            open: 0,
            events: Vec::new(),
        }
    }

    /// Writes an event of the innermost open group.
    fn write(&mut self, kind: u64, group: GroupSpec<'_>, a: u64, b: u64) {
        self.write_at(self.open - 1, kind, group, a, b);
    }

    fn write_at(&mut self, depth: u64, kind: u64, group: GroupSpec<'_>, a: u64, b: u64) {
        self.events
            .push(Event([kind, u64::from(group.count_tag()), depth, a, b]));
    }
}

impl<'s> Visitor<'s> for Recorder<'_, '_> {
    const TRACK: bool = true;

    fn enter_group(&mut self, group: GroupSpec<'s>) {
        self.open += 1;
        self.write(ENTER, group, 0, 0);
    }

    fn invalid_count(&mut self, group: GroupSpec<'s>, value: &[u8]) {
        let position = self
            .fields
            .iter()
            .position(|field| std::ptr::eq(field.value, value))
            .expect("the value is a field's");
        self.write(BADCOUNT, group, position as u64, 0);
    }

    fn delimiter_mismatch(&mut self, group: GroupSpec<'s>, found: u32) {
        self.write(DELIM, group, u64::from(found), 0);
    }

    fn repeated_tag(&mut self, group: GroupSpec<'s>, tag: u32) {
        self.write(REPEAT, group, u64::from(tag), 0);
    }

    fn entry_closed(&mut self, group: GroupSpec<'s>, entry: u64, seen: &EntryTags<'s>) {
        let members = group.members().iter();
        let distinct = members.filter(|tag| seen.contains(**tag)).count();
        self.write(CLOSE, group, entry, distinct as u64);
    }

    fn count_mismatch(&mut self, group: GroupSpec<'s>, declared: u64, actual: u64) {
        self.write(MISCOUNT, group, declared, actual);
    }

    /// The depth is the one the group would have had. It is not entered, so
    /// it is not left either.
    fn too_deep(&mut self, group: GroupSpec<'s>) {
        self.write_at(self.open, DEEP, group, 0, 0);
    }

    fn leave_group(&mut self, group: GroupSpec<'s>, well_formed: bool, entries: u64) {
        self.write(LEAVE, group, u64::from(well_formed), entries);
        self.open -= 1;
    }
}
