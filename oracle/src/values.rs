//! Values and counts: the Rust's answers, and document 01's strict answer.

use crate::schema::FieldType;
use crate::walk;

/// The field types in the order of the Rust's enum: a type's number is its
/// place here.
pub const FIELD_TYPES: [FieldType; 34] = [
    FieldType::Int,
    FieldType::Length,
    FieldType::SeqNum,
    FieldType::NumInGroup,
    FieldType::TagNum,
    FieldType::DayOfMonth,
    FieldType::Float,
    FieldType::Qty,
    FieldType::Price,
    FieldType::PriceOffset,
    FieldType::Amt,
    FieldType::Percentage,
    FieldType::Char,
    FieldType::Boolean,
    FieldType::String,
    FieldType::MultipleCharValue,
    FieldType::MultipleStringValue,
    FieldType::Country,
    FieldType::Currency,
    FieldType::Exchange,
    FieldType::MonthYear,
    FieldType::UtcTimestamp,
    FieldType::UtcTimeOnly,
    FieldType::UtcDateOnly,
    FieldType::LocalMktDate,
    FieldType::LocalMktTime,
    FieldType::TzTimeOnly,
    FieldType::TzTimestamp,
    FieldType::Data,
    FieldType::XmlData,
    FieldType::Language,
    FieldType::Pattern,
    FieldType::Tenor,
    FieldType::Reserved,
];

/// The name of a field type, spelled as the Rust spells the variant.
pub fn name_of(field_type: FieldType) -> String {
    format!("{field_type:?}")
}

/// The number of a field type.
pub fn number_of(field_type: FieldType) -> usize {
    field_type as usize
}

/// The field type of that name, spelled exactly as the Rust's variant.
pub fn field_type_named(name: &str) -> Option<FieldType> {
    FIELD_TYPES
        .into_iter()
        .find(|field_type| name_of(*field_type) == name)
}

/// The Rust's answer: the form test on the value as `check_value` hands it
/// over, after `from_utf8_lossy`.
pub fn is_valid_value(field_type: FieldType, value: &[u8]) -> bool {
    field_type.is_valid_value(&String::from_utf8_lossy(value))
}

/// Document 01's strict answer: the Rust's test, and for the five date and
/// time types the ranges of month, day, hour, minute and second.
pub fn is_strictly_valid_value(field_type: FieldType, value: &[u8]) -> bool {
    is_valid_value(field_type, value)
        && match field_type {
            FieldType::MonthYear => month_year_in_range(value),
            FieldType::UtcDateOnly | FieldType::LocalMktDate => date_in_range(value),
            FieldType::UtcTimeOnly => time_in_range(value),
            // The form test has found 8 digits and a dash.
            FieldType::UtcTimestamp => date_in_range(&value[..8]) && time_in_range(&value[9..]),
            _ => true,
        }
}

/// YYYYMM, YYYYMMDD or YYYYMMwN: the month, and the day where there is one.
fn month_year_in_range(value: &[u8]) -> bool {
    month_in_range(value) && (value.len() == 6 || value[6] == b'w' || day_in_range(value))
}

/// YYYYMMDD.
fn date_in_range(value: &[u8]) -> bool {
    month_in_range(value) && day_in_range(value)
}

fn month_in_range(value: &[u8]) -> bool {
    (1..=12).contains(&two_digits(&value[4..6]))
}

fn day_in_range(value: &[u8]) -> bool {
    (1..=31).contains(&two_digits(&value[6..8]))
}

/// HH:MM:SS, perhaps with a fraction behind it.
fn time_in_range(value: &[u8]) -> bool {
    two_digits(&value[..2]) <= 23
        && two_digits(&value[3..5]) <= 59
        && two_digits(&value[6..8]) <= 60
}

/// The number that two digits make.
fn two_digits(digits: &[u8]) -> u8 {
    (digits[0] - b'0') * 10 + (digits[1] - b'0')
}

/// The Rust's `parse_count`.
pub fn parse_count(value: &[u8]) -> Option<u64> {
    walk::parse_count(value)
}
