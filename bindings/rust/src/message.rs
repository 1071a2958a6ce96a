//! A FIX message split into its fields: a field table, or what is malformed.

use std::fmt;

/// A message has at most so many bytes.
pub const MOST_MESSAGE_BYTES: usize = 65_536;

/// A field table has at most so many fields.
pub const MOST_FIELDS: usize = 4_096;

const SOH: u8 = 1;
const CHECK_SUM: u32 = 10;
const MSG_TYPE: u32 = 35;

/// What separates the fields of a message. The other of the two is no separator.
#[non_exhaustive]
#[derive(Debug, Clone, Copy, PartialEq, Eq, Hash, Default)]
pub enum Separator {
    /// Byte 01, FIX's separator. A `|` belongs to the value that it stands in.
    #[default]
    Soh,
    /// The byte `|`, for messages that are written to be read. A byte 01 is malformed.
    Pipe,
}

/// Why bytes are no message.
#[non_exhaustive]
#[derive(Debug, Clone, Copy, PartialEq, Eq, Hash)]
pub enum Malformed {
    /// There are no bytes.
    Empty,
    /// There are more than [`MOST_MESSAGE_BYTES`].
    TooLong,
    /// There is no field with tag 35.
    NoMessageType,
    /// A field is not TAG=VALUE, or may not stand there.
    Field {
        /// The field, from 1.
        number: usize,
        /// What is wrong with it.
        fault: FieldFault,
    },
}

/// What is wrong with a field.
#[non_exhaustive]
#[derive(Debug, Clone, Copy, PartialEq, Eq, Hash)]
pub enum FieldFault {
    /// It has no bytes.
    Empty,
    /// It holds a byte 00, which ends a text for some of those who read the message after the gate.
    NulByte,
    /// It holds a byte 01, and the separator is `|`.
    SohByte,
    /// It has no `=`.
    NoEquals,
    /// It has nothing before its `=`.
    NoTag,
    /// A byte before its `=` is no digit.
    TagNotNumber,
    /// Its tag is above 4,294,967,295.
    TagTooLarge,
    /// Its tag has a leading zero.
    LeadingZero,
    /// It has nothing after its `=`.
    NoValue,
    /// It stands after CheckSum (10), which ends a message.
    AfterCheckSum,
    /// It is one more than [`MOST_FIELDS`].
    TooMany,
}

impl fmt::Display for Malformed {
    fn fmt(&self, f: &mut fmt::Formatter<'_>) -> fmt::Result {
        match self {
            Self::Empty => write!(f, "it is empty"),
            Self::TooLong => write!(f, "it has more than 65,536 bytes"),
            Self::NoMessageType => write!(f, "it has no MsgType (35)"),
            Self::Field { number, fault } => write!(f, "field {number}: {fault}"),
        }
    }
}

impl fmt::Display for FieldFault {
    fn fmt(&self, f: &mut fmt::Formatter<'_>) -> fmt::Result {
        f.write_str(match self {
            Self::Empty => "it is empty",
            Self::NulByte => "it holds a byte 00",
            Self::SohByte => "it holds a byte 01, and the fields are separated by |",
            Self::NoEquals => "it has no =",
            Self::NoTag => "it has no tag",
            Self::TagNotNumber => "its tag is not a number",
            Self::TagTooLarge => "its tag is above 4294967295",
            Self::LeadingZero => "its tag has a leading zero",
            Self::NoValue => "it has no value",
            Self::AfterCheckSum => "it stands after CheckSum (10), which ends a message",
            Self::TooMany => "a message has at most 4096 fields",
        })
    }
}

impl std::error::Error for Malformed {}

/// Splits a message into its field table: the words of `fields` become, for each field, its tag and
/// where its value begins and ends in the message. Returns the value of the first MsgType (35). A
/// separator may stand after the last field.
///
/// # Errors
/// What is malformed, of the first such field; `fields` then holds the fields before it.
///
/// ```
/// use order_gate::{FieldFault, Malformed, Separator};
///
/// let mut fields = Vec::new();
/// let message_type = order_gate::split(b"35=D|54=1|", Separator::Pipe, &mut fields)?;
/// assert_eq!((message_type, &fields[..]), (&b"D"[..], &[35, 3, 4, 54, 8, 9][..]));
///
/// let refused = order_gate::split(b"35=D|054=1|", Separator::Pipe, &mut fields);
/// assert_eq!(refused, Err(Malformed::Field { number: 2, fault: FieldFault::LeadingZero }));
/// # Ok::<(), Malformed>(())
/// ```
pub fn split<'m>(
    message: &'m [u8],
    separator: Separator,
    fields: &mut Vec<u32>,
) -> Result<&'m [u8], Malformed> {
    fields.clear();
    if message.len() > MOST_MESSAGE_BYTES {
        return Err(Malformed::TooLong);
    }
    let byte = match separator {
        Separator::Soh => SOH,
        Separator::Pipe => b'|',
    };
    if message.is_empty() {
        return Err(Malformed::Empty);
    }
    let listed = message.strip_suffix(&[byte]).unwrap_or(message);
    let (mut first, mut message_type, mut tag_before) = (0, None, None);
    for (index, field) in listed.split(|found| *found == byte).enumerate() {
        let malformed = |fault| Malformed::Field { number: index + 1, fault };
        if index == MOST_FIELDS {
            return Err(malformed(FieldFault::TooMany));
        }
        let (tag, value) = read_field(field, separator).map_err(malformed)?;
        if tag_before == Some(CHECK_SUM) {
            return Err(malformed(FieldFault::AfterCheckSum));
        }
        if tag == MSG_TYPE && message_type.is_none() {
            message_type = Some(&message[first + value..first + field.len()]);
        }
        // Both are at most MOST_MESSAGE_BYTES.
        fields.extend([tag, (first + value) as u32, (first + field.len()) as u32]);
        tag_before = Some(tag);
        first += field.len() + 1;
    }
    message_type.ok_or(Malformed::NoMessageType)
}

/// The tag of a field TAG=VALUE, and where its value begins.
fn read_field(field: &[u8], separator: Separator) -> Result<(u32, usize), FieldFault> {
    if field.is_empty() {
        return Err(FieldFault::Empty);
    }
    if field.contains(&0) {
        return Err(FieldFault::NulByte);
    }
    if separator == Separator::Pipe && field.contains(&SOH) {
        return Err(FieldFault::SohByte);
    }
    let Some(digits) = field.iter().position(|byte| *byte == b'=') else {
        return Err(FieldFault::NoEquals);
    };
    let tag = read_tag(&field[..digits])?;
    if digits + 1 == field.len() {
        return Err(FieldFault::NoValue);
    }
    Ok((tag, digits + 1))
}

/// The number that the digits of a tag make: 32-bit, without leading zeros; 0 is allowed.
fn read_tag(digits: &[u8]) -> Result<u32, FieldFault> {
    if digits.is_empty() {
        return Err(FieldFault::NoTag);
    }
    let mut tag: u32 = 0;
    for byte in digits {
        if !byte.is_ascii_digit() {
            return Err(FieldFault::TagNotNumber);
        }
        let digit = u32::from(byte - b'0');
        let larger = tag.checked_mul(10).and_then(|tag| tag.checked_add(digit));
        tag = larger.ok_or(FieldFault::TagTooLarge)?;
    }
    if digits.len() > 1 && digits[0] == b'0' {
        return Err(FieldFault::LeadingZero);
    }
    Ok(tag)
}
