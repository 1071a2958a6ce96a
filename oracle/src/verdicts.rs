//! Verdicts on values: 0 good, 1 tag undefined, 2 wrong format, 3 not
//! admitted.

use crate::schema::{Dictionary, MessageCategory, MessageDef};
use crate::validator::{ValidationError, Validator};
use crate::values;
use ironfix_core::field::FieldRef;
use ironfix_core::message::RawMessage;

pub const GOOD: u8 = 0;
pub const UNDEFINED: u8 = 1;
pub const WRONG_FORMAT: u8 = 2;
pub const NOT_ADMITTED: u8 = 3;

/// The verdict on each field.
///
/// `check_value` cannot be called from outside its file. `Validator::validate`
/// calls it once for each field, so each field is validated as a message of
/// its own, against a dictionary of the same definitions with one empty
/// message type. With one dictionary it makes no difference to `check_value`
/// what the header, the trailer and the bodies hold.
pub fn verdicts(fields: &[FieldRef<'_>], dict: &Dictionary, strict: bool) -> Vec<u8> {
    let mut definitions = Dictionary::new(dict.version);
    definitions.fields.clone_from(&dict.fields);
    definitions.add_message(MessageDef::new("0", "0", MessageCategory::App, []));
    let validator = Validator::new(&definitions);
    fields
        .iter()
        .map(|field| {
            let verdict = check_value(&validator, field);
            let admits_strict = matches!(verdict, GOOD | NOT_ADMITTED);
            if strict && admits_strict && !in_range(&definitions, field) {
                WRONG_FORMAT
            } else {
                verdict
            }
        })
        .collect()
}

/// The Rust's verdict on one field.
fn check_value(validator: &Validator<'_>, field: &FieldRef<'_>) -> u8 {
    let errors = match validator.validate(&RawMessage::new("0", vec![*field])) {
        Ok(()) => return GOOD,
        Err(errors) => errors,
    };
    let mut verdicts = errors.iter().filter_map(|error| match error {
        ValidationError::UnknownTag { .. } => Some(UNDEFINED),
        ValidationError::InvalidFieldFormat { .. } => Some(WRONG_FORMAT),
        ValidationError::InvalidEnumValue { .. } => Some(NOT_ADMITTED),
        _ => None,
    });
    verdicts.next().unwrap_or(GOOD)
}

/// The strict test of a field whose value has the form of its type.
fn in_range(dict: &Dictionary, field: &FieldRef<'_>) -> bool {
    let Some(def) = dict.get_field(field.tag) else {
        return true;
    };
    values::is_strictly_valid_value(def.field_type, field.value)
}
