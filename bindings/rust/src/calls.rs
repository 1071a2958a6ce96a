//! The seven calls as functions over slices that the caller lends.

use crate::ffi::{self, within};
use crate::{Error, Unknown};

/// No dictionary takes more words.
pub const MOST_DICTIONARY_WORDS: usize = 131_068;

/// No layout takes more words.
pub const MOST_LAYOUT_WORDS: usize = 59_399;

/// Enough words for the events of [`walk_message`] over so many fields, under every dictionary and
/// layout: five for each of 5 events a field, of 2,048 required tags and of 8,192 groups.
/// `GATE_EVENT_SPACE` of include/gate.h says where that is proved.
#[must_use]
pub const fn event_space(fields: usize) -> usize {
    fields.saturating_mul(5).saturating_add(2_048 + 8_192).saturating_mul(5)
}

/// Enough words for the events of [`walk_group`] over so many fields.
#[must_use]
pub const fn group_event_space(fields: usize) -> usize {
    fields.saturating_mul(25)
}

/// What an expansion gives.
#[derive(Debug, Clone, Copy, PartialEq, Eq)]
pub struct Expanded {
    /// How many words the layout takes.
    pub words: usize,
    /// The nodes spent, of 4,096: one for each group and each use of a component.
    pub nodes: u64,
}

/// What the walk of a group gives.
#[derive(Debug, Clone, Copy, PartialEq, Eq)]
pub struct Walked {
    /// How many words of events were written.
    pub words: usize,
    /// The position of the first field after the group.
    pub position: usize,
}

/// Reads a dictionary text into words, and returns how many it took.
///
/// # Errors
/// Refusals 1 to 5, then 13.
///
/// ```
/// use order_gate::{Error, Refusal};
///
/// let mut words = [0; 8];
/// let refused = order_gate::read_dictionary(b"hello\n", &mut words);
/// assert_eq!(refused, Err(Error::Refused(Refusal::UnknownForm { line: 1 })));
/// assert_eq!(words, [0; 8]);
/// ```
pub fn read_dictionary(text: &[u8], dictionary: &mut [u32]) -> Result<usize, Error> {
    let (lent, length) = (dictionary.as_mut_ptr(), dictionary.len());
    // SAFETY: both slices are whole, and only the second is written.
    let outcome = unsafe { ffi::gate_read_dictionary(text.as_ptr(), text.len(), lent, length) };
    outcome.words_of(length)
}

/// Reads a hand-made layout text into words, and returns how many it took.
///
/// # Errors
/// Refusals 1 to 4, then 10, 11 and 13.
///
/// ```
/// use order_gate::{Error, Refusal};
///
/// let mut words = [0; 100];
/// // The count tag 78 is no member of the top: rule 7.
/// let refused = order_gate::read_layout(b"group=78,79,1\nmember=79\nend=78\n", &mut words);
/// assert_eq!(refused, Err(Error::Refused(Refusal::RuleBroken { rule: 7, tag: 0 })));
/// ```
pub fn read_layout(text: &[u8], layout: &mut [u32]) -> Result<usize, Error> {
    let (lent, length) = (layout.as_mut_ptr(), layout.len());
    // SAFETY: both slices are whole, and only the second is written.
    let outcome = unsafe { ffi::gate_read_layout(text.as_ptr(), text.len(), lent, length) };
    outcome.words_of(length)
}

/// Lays out the groups of a message type.
///
/// # Errors
/// Refusal 2 (line 0) for words that are no dictionary, 6, then 7 to 10 as met, then 13.
pub fn expand(
    dictionary: &[u32],
    message_type: &[u8],
    layout: &mut [u32],
) -> Result<Expanded, Error> {
    // SAFETY: the slices are whole, and only the last is written.
    let outcome = unsafe {
        ffi::gate_expand(
            dictionary.as_ptr(),
            dictionary.len(),
            message_type.as_ptr(),
            message_type.len(),
            layout.as_mut_ptr(),
            layout.len(),
        )
    };
    let words = outcome.words_of(layout.len())?;
    Ok(Expanded { words, nodes: outcome.extra })
}

/// The members of the level named by its count tags from the top: a part of the layout's own words,
/// ascending.
///
/// # Errors
/// Refusal 11 (rule 0) for words that are no layout, 14 with the first count tag not found.
///
/// ```
/// let text = b"member=78\ngroup=78,79,1\nmember=79\nmember=80\nend=78\n";
/// let mut layout = [0; 100];
/// let words = order_gate::read_layout(text, &mut layout)?;
/// assert_eq!(order_gate::level_members(&layout[..words], &[78])?, [79, 80]);
/// # Ok::<(), order_gate::Error>(())
/// ```
pub fn level_members<'l>(layout: &'l [u32], path: &[u32]) -> Result<&'l [u32], Error> {
    let (lent, length) = (layout.as_ptr(), layout.len());
    // SAFETY: both slices are whole, and none is written.
    let outcome = unsafe { ffi::gate_level_members(lent, length, path.as_ptr(), path.len()) };
    let members = outcome.words_of(length)?;
    let first = within(outcome.extra, length)?;
    within(outcome.words, length - first)?;
    Ok(&layout[first..first + members])
}

/// Walks the top group with this count tag from the field at `position` on, and writes its events,
/// five words each; [`events_in`](crate::events_in) reads them. [`group_event_space`] words are
/// enough.
///
/// # Errors
/// Refusal 11 (rule 0) for words that are no layout, 12, 14, then 13.
pub fn walk_group(
    layout: &[u32],
    fields: &[u32],
    message: &[u8],
    position: usize,
    count_tag: u32,
    events: &mut [u64],
) -> Result<Walked, Error> {
    // SAFETY: the slices are whole, and only the last is written.
    let outcome = unsafe {
        ffi::gate_walk_group(
            layout.as_ptr(),
            layout.len(),
            fields.as_ptr(),
            fields.len(),
            message.as_ptr(),
            message.len(),
            position,
            count_tag,
            events.as_mut_ptr(),
            events.len(),
        )
    };
    let words = outcome.words_of(events.len())?;
    // A position outside the table is given back.
    let position = within(outcome.extra, position.max(fields.len() / 3))?;
    Ok(Walked { words, position })
}

/// Walks a whole message and writes its events, five words each; returns how many words.
/// [`events_in`](crate::events_in) reads them. [`event_space`] words are enough.
///
/// # Errors
/// Refusal 2 (line 0) for words that are no dictionary, 11 (rule 0) for words that are no layout,
/// 12, then 13.
pub fn walk_message(
    dictionary: &[u32],
    layout: &[u32],
    fields: &[u32],
    message: &[u8],
    events: &mut [u64],
) -> Result<usize, Error> {
    // SAFETY: the slices are whole, and only the last is written.
    let outcome = unsafe {
        ffi::gate_walk_message(
            dictionary.as_ptr(),
            dictionary.len(),
            layout.as_ptr(),
            layout.len(),
            fields.as_ptr(),
            fields.len(),
            message.as_ptr(),
            message.len(),
            events.as_mut_ptr(),
            events.len(),
        )
    };
    outcome.words_of(events.len())
}

/// Writes the verdict on each value, one word a field, and returns how many;
/// [`verdicts_in`](crate::verdicts_in) reads them. `strict` asks dates and times for FIX's ranges
/// too.
///
/// # Errors
/// Refusal 2 (line 0) for words that are no dictionary, 12, then 13.
pub fn verdicts(
    dictionary: &[u32],
    fields: &[u32],
    message: &[u8],
    strict: bool,
    verdicts: &mut [u64],
) -> Result<usize, Error> {
    // SAFETY: the slices are whole, and only the last is written.
    let outcome = unsafe {
        ffi::gate_verdicts(
            dictionary.as_ptr(),
            dictionary.len(),
            fields.as_ptr(),
            fields.len(),
            message.as_ptr(),
            message.len(),
            strict,
            verdicts.as_mut_ptr(),
            verdicts.len(),
        )
    };
    let (words, rows) = (outcome.words_of(verdicts.len())?, fields.len() / 3);
    if words != rows {
        return Err(Unknown::Length { given: outcome.words, lent: rows }.into());
    }
    Ok(words)
}
