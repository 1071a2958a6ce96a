#![doc = include_str!("../README.md")]
#![deny(missing_docs)]

mod calls;
mod error;
mod event;
mod ffi;
mod gate;
mod message;
mod refusal;
mod verdict;

pub use calls::{
    Expanded, MOST_DICTIONARY_WORDS, MOST_LAYOUT_WORDS, Walked, event_space, expand,
    group_event_space, level_members, read_dictionary, read_layout, verdicts, walk_group,
    walk_message,
};
pub use error::{Error, Unknown};
pub use event::{Event, Kind, events_in};
pub use gate::{Gate, Judgement, Reason};
pub use message::{FieldFault, MOST_FIELDS, MOST_MESSAGE_BYTES, Malformed, Separator, split};
pub use refusal::Refusal;
pub use verdict::{Verdict, verdicts_in};
