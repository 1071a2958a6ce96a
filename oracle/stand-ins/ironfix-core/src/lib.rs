//! Stand-in for ironfix-core: what the dictionary crate's files name of it.
//! `validation` is the Rust's own file.

pub mod field;
pub mod message;
#[path = "../../../../docs/src/ironfix-core/src/validation.rs"]
pub mod validation;
mod version;

pub use version::FixVersion;
