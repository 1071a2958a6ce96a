//! The oracle: IronFix's own files compiled unchanged, and what is needed to
//! ask them for value answers, counts, layouts, events and verdicts.

#![forbid(unsafe_code)]

// The Rust, unchanged. A part of it that the oracle does not call is unused
// here.
#[allow(dead_code)]
#[path = "../../docs/src/ironfix-dictionary/src/group.rs"]
pub mod group;
#[allow(dead_code)]
#[path = "../../docs/src/ironfix-dictionary/src/schema.rs"]
pub mod schema;
#[allow(dead_code)]
#[path = "../../docs/src/ironfix-dictionary/src/scope.rs"]
mod scope;
#[allow(dead_code)]
#[path = "../../docs/src/ironfix-dictionary/src/validator.rs"]
pub mod validator;
#[allow(dead_code)]
#[path = "../../docs/src/ironfix-dictionary/src/walk.rs"]
mod walk;

#[allow(dead_code)]
mod composition;

// The oracle's own.
pub mod answers;
pub mod arrangement;
pub mod case_text;
pub mod cases;
pub mod dictionary_words;
pub mod events;
pub mod expansion;
pub mod expansion_cases;
pub mod hex;
pub mod layouts;
pub mod lines;
pub mod message_cases;
pub mod numbers;
pub mod reader;
pub mod refusal;
pub mod text_cases;
pub mod texts;
pub mod values;
pub mod verdict_cases;
pub mod verdicts;
pub mod walk_cases;
pub mod walks;
