//! The calls of include/gate.h, and what each returns.

use crate::{Error, Refusal, Unknown};

#[repr(C)]
#[derive(Clone, Copy)]
pub struct Outcome {
    pub refusal: u64,
    pub place: u64,
    pub words: u64,
    pub extra: u64,
}

impl Outcome {
    /// The outcome of a call that was not refused.
    pub fn answered(self) -> Result<Self, Error> {
        if self.refusal == 0 {
            return Ok(self);
        }
        let unknown = Unknown::Refusal { number: self.refusal, place: self.place };
        match Refusal::new(self.refusal, self.place) {
            Some(refusal) => Err(refusal.into()),
            None => Err(unknown.into()),
        }
    }

    /// How many of the lent words were written, where the call was not refused.
    pub fn words_of(self, lent: usize) -> Result<usize, Error> {
        within(self.answered()?.words, lent)
    }
}

/// A number of words, or a place, among those that were lent.
pub fn within(given: u64, lent: usize) -> Result<usize, Error> {
    match usize::try_from(given) {
        Ok(number) if number <= lent => Ok(number),
        _ => Err(Unknown::Length { given, lent }.into()),
    }
}

unsafe extern "C" {
    pub fn gate_read_dictionary(
        text: *const u8,
        text_length: usize,
        dictionary: *mut u32,
        dictionary_length: usize,
    ) -> Outcome;

    pub fn gate_read_layout(
        text: *const u8,
        text_length: usize,
        layout: *mut u32,
        layout_length: usize,
    ) -> Outcome;

    pub fn gate_expand(
        dictionary: *const u32,
        dictionary_length: usize,
        message_type: *const u8,
        type_length: usize,
        layout: *mut u32,
        layout_length: usize,
    ) -> Outcome;

    pub fn gate_level_members(
        layout: *const u32,
        layout_length: usize,
        path: *const u32,
        path_length: usize,
    ) -> Outcome;

    pub fn gate_walk_group(
        layout: *const u32,
        layout_length: usize,
        fields: *const u32,
        fields_length: usize,
        message: *const u8,
        message_length: usize,
        position: usize,
        count_tag: u32,
        events: *mut u64,
        events_length: usize,
    ) -> Outcome;

    pub fn gate_walk_message(
        dictionary: *const u32,
        dictionary_length: usize,
        layout: *const u32,
        layout_length: usize,
        fields: *const u32,
        fields_length: usize,
        message: *const u8,
        message_length: usize,
        events: *mut u64,
        events_length: usize,
    ) -> Outcome;

    pub fn gate_verdicts(
        dictionary: *const u32,
        dictionary_length: usize,
        fields: *const u32,
        fields_length: usize,
        message: *const u8,
        message_length: usize,
        strict: bool,
        verdicts: *mut u64,
        verdicts_length: usize,
    ) -> Outcome;
}

#[cfg(test)]
mod tests {
    use super::{Outcome, within};
    use crate::{Error, Refusal, Unknown};

    fn outcome(refusal: u64, place: u64, words: u64) -> Outcome {
        Outcome { refusal, place, words, extra: 0 }
    }

    #[test]
    fn each_refusal_is_an_error_with_its_number_and_place() {
        for number in 1..=14 {
            let refused = outcome(number, 0, 0).words_of(10).expect_err("a refusal");
            assert_eq!(refused.refusal().map(Refusal::number), Some(number));
        }
        let refused = outcome(13, 77, 0).words_of(10);
        assert_eq!(refused, Err(Error::Refused(Refusal::SpaceShort { words_needed: 77 })));
    }

    #[test]
    fn a_refusal_above_14_is_an_unknown_word() {
        for number in [15, 16, 255, 1 << 32, u64::MAX] {
            let unknown = Unknown::Refusal { number, place: 7 };
            assert_eq!(outcome(number, 7, 5).words_of(10), Err(Error::Unknown(unknown)));
            assert_eq!(
                unknown.to_string(),
                format!("the library gives refusal {number}, place 7, which is not known")
            );
        }
    }

    #[test]
    fn more_words_than_were_lent_are_an_unknown_word() {
        assert_eq!(outcome(0, 0, 10).words_of(10), Ok(10));
        for given in [11, u64::MAX] {
            let unknown = Error::Unknown(Unknown::Length { given, lent: 10 });
            assert_eq!(outcome(0, 0, given).words_of(10), Err(unknown));
            assert_eq!(within(given, 10), Err(unknown));
        }
    }
}
