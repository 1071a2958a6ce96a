//! The lines of document 01's texts and their forms. A line that has no form
//! of its kind of text is none.

use crate::schema::{FieldType, MessageCategory};
use crate::values::FIELD_TYPES;

/// The names of the field types, spelled as the Rust's variants, in their
/// order.
pub const TYPE_NAMES: [&str; 34] = [
    "Int",
    "Length",
    "SeqNum",
    "NumInGroup",
    "TagNum",
    "DayOfMonth",
    "Float",
    "Qty",
    "Price",
    "PriceOffset",
    "Amt",
    "Percentage",
    "Char",
    "Boolean",
    "String",
    "MultipleCharValue",
    "MultipleStringValue",
    "Country",
    "Currency",
    "Exchange",
    "MonthYear",
    "UtcTimestamp",
    "UtcTimeOnly",
    "UtcDateOnly",
    "LocalMktDate",
    "LocalMktTime",
    "TzTimeOnly",
    "TzTimestamp",
    "Data",
    "XmlData",
    "Language",
    "Pattern",
    "Tenor",
    "Reserved",
];

/// A line of a dictionary text.
#[derive(Debug, Clone, Copy, PartialEq, Eq)]
pub enum DictionaryLine<'t> {
    /// `def=TAG,TYPE`
    Definition(u32, FieldType),
    /// `value=V`
    Value(&'t str),
    /// `begin=header`
    BeginHeader,
    /// `begin=trailer`
    BeginTrailer,
    /// `component=N`; N as written, which is the component's Rust name.
    Component(&'t str),
    /// `message=T,app` or `message=T,admin`
    Message(&'t str, MessageCategory),
    /// `field=TAG,R`
    Field(u32, bool),
    /// `group=COUNT,DELIMITER,R`
    Group(GroupHead<'t>),
    /// `use=N,R`
    Use(&'t str, bool),
    /// `end=header`, `end=trailer`, `end=N`, `end=T` or `end=COUNT`. A number
    /// has one spelling, so blocks are told apart by the name as written.
    End(&'t str),
}

/// A line of a layout text.
#[derive(Debug, Clone, Copy, PartialEq, Eq)]
pub enum LayoutLine<'t> {
    /// `member=TAG`
    Member(u32),
    /// `required=TAG`
    Required(u32),
    /// `group=COUNT,DELIMITER,R`
    Group(GroupHead<'t>),
    /// `end=COUNT`
    End(&'t str),
}

/// What a `group` line says.
#[derive(Debug, Clone, Copy, PartialEq, Eq)]
pub struct GroupHead<'t> {
    /// COUNT as written, which the block's `end` line repeats.
    pub name: &'t str,
    pub count_tag: u32,
    pub delimiter_tag: u32,
    pub required: bool,
}

/// The lines of a text, without their line feeds. A last line that has none
/// is nothing.
pub fn lines(text: &[u8]) -> impl Iterator<Item = Option<&[u8]>> {
    text.split_inclusive(|byte| *byte == b'\n')
        .map(|line| line.strip_suffix(b"\n"))
}

/// The form of a line of a dictionary text.
pub fn dictionary_line(line: &[u8]) -> Option<DictionaryLine<'_>> {
    let (key, value) = key_and_value(line)?;
    Some(match key {
        "def" => {
            let [tag, name] = parts(value)?;
            DictionaryLine::Definition(number(tag)?, field_type(name)?)
        }
        "value" => DictionaryLine::Value(admitted(value)?),
        "begin" => match value {
            "header" => DictionaryLine::BeginHeader,
            "trailer" => DictionaryLine::BeginTrailer,
            _ => return None,
        },
        "component" => DictionaryLine::Component(numeral(value)?),
        "message" => {
            let [msg_type, category] = parts(value)?;
            let category = match category {
                "app" => MessageCategory::App,
                "admin" => MessageCategory::Admin,
                _ => return None,
            };
            DictionaryLine::Message(message_type(msg_type)?, category)
        }
        "field" => {
            let [tag, required] = parts(value)?;
            DictionaryLine::Field(number(tag)?, flag(required)?)
        }
        "group" => DictionaryLine::Group(group_head(value)?),
        "use" => {
            let [name, required] = parts(value)?;
            DictionaryLine::Use(numeral(name)?, flag(required)?)
        }
        "end" => {
            let envelope = matches!(value, "header" | "trailer");
            let known = envelope || numeral(value).is_some() || message_type(value).is_some();
            DictionaryLine::End(known.then_some(value)?)
        }
        _ => return None,
    })
}

/// The form of a line of a layout text.
pub fn layout_line(line: &[u8]) -> Option<LayoutLine<'_>> {
    let (key, value) = key_and_value(line)?;
    Some(match key {
        "member" => LayoutLine::Member(number(value)?),
        "required" => LayoutLine::Required(number(value)?),
        "group" => LayoutLine::Group(group_head(value)?),
        "end" => LayoutLine::End(numeral(value)?),
        _ => return None,
    })
}

/// The tag and the value of a line of msg.txt. The value is all behind the
/// first `=`.
pub fn message_line(line: &[u8]) -> Option<(u32, &[u8])> {
    let equals = line.iter().position(|byte| *byte == b'=')?;
    let tag = std::str::from_utf8(&line[..equals]).ok()?;
    Some((number(tag)?, &line[equals + 1..]))
}

/// What stands before the first `=` and what stands behind it. No form has a
/// byte that is not ASCII.
fn key_and_value(line: &[u8]) -> Option<(&str, &str)> {
    let line = std::str::from_utf8(line).ok()?;
    line.split_once('=')
}

/// The parts between commas, if they are `N`.
fn parts<const N: usize>(value: &str) -> Option<[&str; N]> {
    let mut between = value.split(',');
    let mut parts = [""; N];
    for part in &mut parts {
        *part = between.next()?;
    }
    between.next().is_none().then_some(parts)
}

fn group_head(value: &str) -> Option<GroupHead<'_>> {
    let [count, delimiter, required] = parts(value)?;
    Some(GroupHead {
        name: count,
        count_tag: number(count)?,
        delimiter_tag: number(delimiter)?,
        required: flag(required)?,
    })
}

/// "32-bit, without leading zeros; 0 is allowed."
fn number(text: &str) -> Option<u32> {
    let digits = !text.is_empty() && text.bytes().all(|byte| byte.is_ascii_digit());
    let leading_zero = text.len() > 1 && text.starts_with('0');
    if !digits || leading_zero {
        return None;
    }
    text.parse().ok()
}

/// A number as it is written.
fn numeral(text: &str) -> Option<&str> {
    number(text).map(|_| text)
}

/// "R is 1 for required, else 0."
fn flag(text: &str) -> Option<bool> {
    match text {
        "1" => Some(true),
        "0" => Some(false),
        _ => None,
    }
}

/// "T is 1 to 4 letters or digits."
fn message_type(text: &str) -> Option<&str> {
    let good = (1..=4).contains(&text.len()) && text.bytes().all(|b| b.is_ascii_alphanumeric());
    good.then_some(text)
}

/// "V is 1 to 32 bytes, 21 to 7E hexadecimal."
fn admitted(text: &str) -> Option<&str> {
    let good = (1..=32).contains(&text.len()) && text.bytes().all(|b| (0x21..=0x7e).contains(&b));
    good.then_some(text)
}

/// "TYPE spelled as a `FieldType`."
fn field_type(text: &str) -> Option<FieldType> {
    let place = TYPE_NAMES.iter().position(|name| *name == text)?;
    Some(FIELD_TYPES[place])
}

#[cfg(test)]
mod tests {
    use super::*;

    #[test]
    fn type_names_are_the_names_of_the_variants() {
        for (name, field_type) in TYPE_NAMES.iter().zip(FIELD_TYPES) {
            assert_eq!(*name, format!("{field_type:?}"));
        }
    }
}
