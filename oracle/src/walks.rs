//! The walks: a group at a position, and a whole message.

use crate::events::{BADCOUNT, DELIM, Event, FOREIGN, MISCOUNT, MISSING, REPEAT, Recorder, TWICE};
use crate::group::GroupSpec;
use crate::layouts::{Expansion, HandMade};
use crate::schema::Dictionary;
use crate::scope::Level;
use crate::validator::{ValidationError, Validator};
use crate::walk;
use ironfix_core::field::FieldRef;
use ironfix_core::message::RawMessage;
use std::collections::HashSet;

/// The top level of a layout.
#[derive(Clone, Copy)]
pub enum Top<'s> {
    Expanded(&'s Expansion<'s>),
    HandMade(&'s HandMade),
}

impl<'s> Top<'s> {
    fn members(self) -> &'s [u32] {
        match self {
            Self::Expanded(Expansion { level, .. }) => &level.members,
            Self::HandMade(layout) => layout.set.level_tags(),
        }
    }

    /// The group whose count tag is `tag`.
    fn group(self, tag: u32) -> Option<GroupSpec<'s>> {
        match self {
            Self::Expanded(Expansion { level, .. }) => level.group(tag).map(GroupSpec::from_layout),
            Self::HandMade(layout) => layout.set.get(tag),
        }
    }

    fn allows(self, tag: u32) -> bool {
        self.members().binary_search(&tag).is_ok()
    }

    /// The required tags, in their order, then the count tags of the required
    /// groups.
    fn required(self) -> (Vec<u32>, Vec<u32>) {
        match self {
            Self::Expanded(Expansion { level, .. }) => required_of(level),
            Self::HandMade(layout) => (layout.required.clone(), layout.required_groups.clone()),
        }
    }
}

fn required_of(level: &Level) -> (Vec<u32>, Vec<u32>) {
    let groups = level.groups.iter();
    (
        level.required.iter().map(|(tag, _)| *tag).collect(),
        groups
            .filter(|group| group.required)
            .map(|group| group.count_tag)
            .collect(),
    )
}

/// The events of the group `count_tag` of the top, its count field standing
/// at `position`, and the position behind the group. Nothing if the top has
/// no such group.
pub fn group_walk(
    fields: &[FieldRef<'_>],
    position: usize,
    count_tag: u32,
    top: Top<'_>,
) -> Option<(Vec<Event>, usize)> {
    let group = top.group(count_tag)?;
    let mut recorder = Recorder::new(fields);
    let behind = walk::walk_group(fields, position, group, 0, top.members(), &mut recorder);
    Some((recorder.events, behind))
}

/// The events of a message: the loop of `Validator::validate`, which hands
/// its own visitor to the walk, written again for the recorder.
pub fn message_walk(fields: &[FieldRef<'_>], dict: &Dictionary, top: Top<'_>) -> Vec<Event> {
    let mut recorder = Recorder::new(fields);
    let mut seen: HashSet<u32> = HashSet::new();
    let mut index = 0;
    while let Some(field) = fields.get(index) {
        let tag = field.tag;
        if dict.get_field(tag).is_none() {
            index += 1;
            continue;
        }
        if !seen.insert(tag) {
            recorder.events.push(Event::of_message(TWICE, tag));
        }
        if let Some(group) = top.group(tag) {
            index = walk::walk_group(fields, index, group, 0, top.members(), &mut recorder);
            continue;
        }
        if !top.allows(tag) {
            recorder.events.push(Event::of_message(FOREIGN, tag));
        }
        index += 1;
    }
    let (tags, groups) = top.required();
    for tag in tags {
        if tag != 10 && !seen.contains(&tag) {
            recorder.events.push(Event::of_message(MISSING, tag));
        }
    }
    for tag in groups {
        if !seen.contains(&tag) {
            recorder.events.push(Event::of_message(MISSING, tag));
        }
    }
    recorder.events
}

/// The message walk of a dictionary's own layout, compared with what
/// `Validator::validate` reports of the same message.
///
/// # Errors
/// Says where the two part.
pub fn checked_message_walk(
    fields: &[FieldRef<'_>],
    dict: &Dictionary,
    msg_type: &str,
    expansion: &Expansion<'_>,
) -> Result<Vec<Event>, String> {
    let events = message_walk(fields, dict, Top::Expanded(expansion));
    let message = RawMessage::new(msg_type, fields.to_vec());
    let errors = match Validator::new(dict).validate(&message) {
        Ok(()) => Vec::new(),
        Err(errors) => errors,
    };
    let limited = matches!(
        errors.last(),
        Some(ValidationError::ErrorLimitReached { .. })
    );
    let reported: Vec<[u64; 4]> = errors.iter().filter_map(structural).collect();
    let recorded: Vec<[u64; 4]> = events.iter().filter_map(fault).collect();
    // The Rust keeps 1,024 errors and drops those behind them.
    let same = if limited {
        recorded.starts_with(&reported)
    } else {
        recorded == reported
    };
    if same {
        Ok(events)
    } else {
        Err(format!(
            "Validator::validate reports {reported:?}, the events say {recorded:?}"
        ))
    }
}

/// Kind, group, a and b of an event that `Validator::validate` reports too.
/// Its error for a count has no position.
fn fault(event: &Event) -> Option<[u64; 4]> {
    let [kind, group, _, a, b] = event.0;
    match kind {
        BADCOUNT => Some([kind, group, 0, 0]),
        DELIM | REPEAT | MISCOUNT | TWICE | FOREIGN | MISSING => Some([kind, group, a, b]),
        _ => None,
    }
}

/// The same four numbers for an error of the structural walk.
fn structural(error: &ValidationError) -> Option<[u64; 4]> {
    let word = |tag: &u32| u64::from(*tag);
    match error {
        ValidationError::InvalidGroupCount { tag, .. } => Some([BADCOUNT, word(tag), 0, 0]),
        ValidationError::GroupDelimiterMismatch {
            count_tag, found, ..
        } => Some([DELIM, word(count_tag), word(found), 0]),
        ValidationError::RepeatedTagInGroupEntry { count_tag, tag, .. } => {
            Some([REPEAT, word(count_tag), word(tag), 0])
        }
        ValidationError::GroupCountMismatch {
            count_tag,
            declared,
            actual,
            ..
        } => Some([MISCOUNT, word(count_tag), *declared, *actual]),
        ValidationError::DuplicateTag { tag, .. } => Some([TWICE, 0, word(tag), 0]),
        ValidationError::FieldNotAllowedForMessage { tag, .. } => Some([FOREIGN, 0, word(tag), 0]),
        ValidationError::MissingRequiredField { tag, .. } => Some([MISSING, 0, word(tag), 0]),
        ValidationError::MissingRequiredGroup { count_tag, .. } => {
            Some([MISSING, 0, word(count_tag), 0])
        }
        _ => None,
    }
}
