//! A gate that owns its dictionary, the layouts of the message types met so far, and its buffers.

use crate::calls;
use crate::{
    Error, Event, MOST_DICTIONARY_WORDS, MOST_LAYOUT_WORDS, Separator, Verdict, event_space,
    events_in, group_event_space, split, verdicts_in,
};
use std::fmt;

/// A gate for the messages of one dictionary. It keeps the dictionary's words, the layout of each
/// message type that it has met, and the buffers of its calls, so that a message of a type that it
/// knows is judged without allocating once the buffers are as large as messages need.
///
/// A clone has the same dictionary and layouts, for another thread.
///
/// ```
/// use order_gate::{Gate, Separator};
///
/// let dictionary = b"def=35,String\ndef=78,NumInGroup\ndef=79,String\nbegin=header\nfield=35,1\n\
///                    end=header\nbegin=trailer\nend=trailer\nmessage=J,app\ngroup=78,79,1\n\
///                    end=78\nend=J\n";
/// let mut gate = Gate::new(dictionary)?.with_separator(Separator::Pipe);
///
/// assert!(gate.judge(b"35=J|78=2|79=A|79=B|")?.passes());
///
/// // One allocation of two is lost.
/// let judgement = gate.judge(b"35=J|78=2|79=A|")?;
/// let reasons: Vec<String> = judgement.reasons().map(|reason| reason.to_string()).collect();
/// assert_eq!(reasons, ["group 78, depth 0: its count says 2, its entries are 1"]);
/// # Ok::<(), order_gate::Error>(())
/// ```
#[derive(Debug, Clone)]
pub struct Gate {
    dictionary: Vec<u32>,
    /// The message types met so far, ascending, each with its layout's words.
    layouts: Vec<(Vec<u8>, Vec<u32>)>,
    separator: Separator,
    strict: bool,
    fields: Vec<u32>,
    buffers: Buffers,
}

/// What the calls of a gate write.
#[derive(Debug, Clone, Default)]
struct Buffers {
    event_words: Vec<u64>,
    events: Vec<Event>,
    verdict_words: Vec<u64>,
    verdicts: Vec<Verdict>,
}

impl Buffers {
    /// Reads the events of the words that a walk wrote.
    fn read_events(&mut self, words: usize) -> Result<(), Error> {
        self.events.clear();
        for event in events_in(&self.event_words[..words]) {
            self.events.push(event?);
        }
        Ok(())
    }

    /// Lends at least so many words for events.
    fn lend_events(&mut self, words: usize) -> &mut [u64] {
        if self.event_words.len() < words {
            self.event_words.resize(words, 0);
        }
        &mut self.event_words
    }

    fn walk_message(
        &mut self,
        dictionary: &[u32],
        layout: &[u32],
        fields: &[u32],
        message: &[u8],
    ) -> Result<(), Error> {
        let lent = self.lend_events(event_space(fields.len() / 3));
        let words = calls::walk_message(dictionary, layout, fields, message, lent)?;
        self.read_events(words)
    }

    fn judge_values(
        &mut self,
        dictionary: &[u32],
        fields: &[u32],
        message: &[u8],
        strict: bool,
    ) -> Result<(), Error> {
        self.verdict_words.resize(fields.len() / 3, 0);
        let lent = &mut self.verdict_words;
        let words = calls::verdicts(dictionary, fields, message, strict, lent)?;
        self.verdicts.clear();
        for verdict in verdicts_in(&self.verdict_words[..words]) {
            self.verdicts.push(verdict?);
        }
        Ok(())
    }
}

impl Gate {
    /// Reads a dictionary text. Fields are separated by byte 01, and values are judged in strict
    /// mode.
    ///
    /// # Errors
    /// Refusals 1 to 5.
    pub fn new(dictionary_text: &[u8]) -> Result<Self, Error> {
        let mut dictionary = vec![0; MOST_DICTIONARY_WORDS];
        let words = calls::read_dictionary(dictionary_text, &mut dictionary)?;
        dictionary.truncate(words);
        dictionary.shrink_to_fit();
        Ok(Self {
            dictionary,
            layouts: Vec::new(),
            separator: Separator::Soh,
            strict: true,
            fields: Vec::new(),
            buffers: Buffers::default(),
        })
    }

    /// The same gate for messages whose fields are separated so.
    #[must_use]
    pub fn with_separator(self, separator: Separator) -> Self {
        Self { separator, ..self }
    }

    /// The same gate in strict mode or not: whether dates and times are asked for FIX's ranges too.
    #[must_use]
    pub fn with_strict(self, strict: bool) -> Self {
        Self { strict, ..self }
    }

    /// The dictionary's words.
    #[must_use]
    pub fn dictionary(&self) -> &[u32] {
        &self.dictionary
    }

    /// The words of the layout of a message type, which is kept.
    ///
    /// # Errors
    /// Refusals 6 to 10. Nothing is kept of a type that is refused.
    pub fn layout(&mut self, message_type: &[u8]) -> Result<&[u32], Error> {
        let index = self.kept(message_type)?;
        Ok(&self.layouts[index].1)
    }

    /// The members of a level of a message type, named by its count tags from the top, ascending.
    ///
    /// # Errors
    /// Refusals 6 to 10, and 14 with the first count tag not found.
    pub fn level_members(&mut self, message_type: &[u8], path: &[u32]) -> Result<&[u32], Error> {
        calls::level_members(self.layout(message_type)?, path)
    }

    /// The events of the walk of the top group with this count tag, from the field at `position`
    /// on, and the position of the first field after the group.
    ///
    /// # Errors
    /// Refusals 6 to 10, 12 and 14.
    pub fn walk_group(
        &mut self,
        message_type: &[u8],
        fields: &[u32],
        message: &[u8],
        position: usize,
        count_tag: u32,
    ) -> Result<(&[Event], usize), Error> {
        let index = self.kept(message_type)?;
        let layout = &self.layouts[index].1;
        let lent = self.buffers.lend_events(group_event_space(fields.len() / 3));
        let walked = calls::walk_group(layout, fields, message, position, count_tag, lent)?;
        self.buffers.read_events(walked.words)?;
        Ok((&self.buffers.events, walked.position))
    }

    /// The events of the walk of a message of this type, whose field table is given.
    ///
    /// # Errors
    /// Refusals 6 to 10, and 12.
    pub fn walk_message(
        &mut self,
        message_type: &[u8],
        fields: &[u32],
        message: &[u8],
    ) -> Result<&[Event], Error> {
        let index = self.kept(message_type)?;
        self.buffers.walk_message(&self.dictionary, &self.layouts[index].1, fields, message)?;
        Ok(&self.buffers.events)
    }

    /// The verdict on each value of a message whose field table is given.
    ///
    /// # Errors
    /// Refusal 12.
    pub fn verdicts(&mut self, fields: &[u32], message: &[u8]) -> Result<&[Verdict], Error> {
        self.buffers.judge_values(&self.dictionary, fields, message, self.strict)?;
        Ok(&self.buffers.verdicts)
    }

    /// Splits a message into its fields, lays out its type, walks it and judges its values.
    ///
    /// # Errors
    /// [`Error::Malformed`] where a field is not TAG=VALUE or there is no type; refusals 6 to 10.
    pub fn judge<'g>(&'g mut self, message: &'g [u8]) -> Result<Judgement<'g>, Error> {
        let message_type = split(message, self.separator, &mut self.fields)?;
        let index = self.kept(message_type)?;
        let (dictionary, fields) = (&self.dictionary, &self.fields);
        self.buffers.walk_message(dictionary, &self.layouts[index].1, fields, message)?;
        self.buffers.judge_values(dictionary, fields, message, self.strict)?;
        Ok(Judgement {
            message_type,
            fields,
            events: &self.buffers.events,
            verdicts: &self.buffers.verdicts,
        })
    }

    /// Where the layout of a message type is kept; it is made where it is not.
    fn kept(&mut self, message_type: &[u8]) -> Result<usize, Error> {
        let found = self.layouts.binary_search_by(|(kept, _)| kept.as_slice().cmp(message_type));
        let index = match found {
            Ok(index) => return Ok(index),
            Err(index) => index,
        };
        let mut layout = vec![0; MOST_LAYOUT_WORDS];
        let expanded = calls::expand(&self.dictionary, message_type, &mut layout)?;
        layout.truncate(expanded.words);
        layout.shrink_to_fit();
        self.layouts.insert(index, (message_type.to_vec(), layout));
        Ok(index)
    }
}

/// What a gate found of a message.
#[derive(Debug, Clone, Copy)]
#[must_use = "a message passes only if there is no reason against it"]
pub struct Judgement<'g> {
    message_type: &'g [u8],
    fields: &'g [u32],
    events: &'g [Event],
    verdicts: &'g [Verdict],
}

/// A reason why a message does not pass.
#[non_exhaustive]
#[derive(Debug, Clone, Copy, PartialEq, Eq, Hash)]
pub enum Reason {
    /// A fault of a group, or a finding of the message level.
    Event(Event),
    /// A value that is not good.
    Value {
        /// The field, from 1.
        field: usize,
        /// Its tag.
        tag: u32,
        /// The verdict on its value.
        verdict: Verdict,
    },
}

impl<'g> Judgement<'g> {
    /// The message's type: the value of its first MsgType (35).
    #[must_use]
    pub fn message_type(&self) -> &'g [u8] {
        self.message_type
    }

    /// The message's field table: tag, first byte and byte after the last, of each field.
    #[must_use]
    pub fn fields(&self) -> &'g [u32] {
        self.fields
    }

    /// The events of the walk.
    #[must_use]
    pub fn events(&self) -> &'g [Event] {
        self.events
    }

    /// The verdict on each field's value.
    #[must_use]
    pub fn verdicts(&self) -> &'g [Verdict] {
        self.verdicts
    }

    /// Why the message does not pass: each fault and finding, then each value that is not good.
    pub fn reasons(&self) -> impl Iterator<Item = Reason> + 'g {
        let events = self.events.iter().filter(|event| event.kind.stops());
        let tags = self.fields.iter().step_by(3);
        let values = self.verdicts.iter().zip(tags).enumerate();
        let bad = values.filter(|(_, (verdict, _))| !verdict.is_good());
        events.map(|event| Reason::Event(*event)).chain(bad.map(|(index, (verdict, tag))| {
            Reason::Value { field: index + 1, tag: *tag, verdict: *verdict }
        }))
    }

    /// Whether there is no reason against the message.
    #[must_use]
    pub fn passes(&self) -> bool {
        self.reasons().next().is_none()
    }
}

impl fmt::Display for Reason {
    fn fmt(&self, f: &mut fmt::Formatter<'_>) -> fmt::Result {
        match self {
            Self::Event(event) => event.fmt(f),
            Self::Value { field, tag, verdict } => write!(f, "field {field}, tag {tag}: {verdict}"),
        }
    }
}

#[cfg(test)]
mod tests {
    use super::Buffers;
    use crate::{Error, Unknown};

    #[test]
    fn an_unknown_event_is_an_error_of_the_gate() {
        let event_words = vec![1, 78, 0, 0, 0, 12, 78, 0, 0, 0, 8, 78, 0, 1, 0];
        let mut buffers = Buffers { event_words, ..Buffers::default() };
        assert_eq!(buffers.read_events(5), Ok(()));
        let unknown = Unknown::Event { words: [12, 78, 0, 0, 0] };
        assert_eq!(buffers.read_events(15), Err(Error::Unknown(unknown)));
        let unknown = Unknown::PartOfEvent { words: 2 };
        assert_eq!(buffers.read_events(7), Err(Error::Unknown(unknown)));
    }
}
