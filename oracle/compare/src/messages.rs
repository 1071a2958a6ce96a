//! Messages made up: fields that are readings of groups but for some faults,
//! and values for verdicts.

use oracle::cases;
use oracle::layouts::PlainLevel;
use oracle::numbers::Numbers;
use oracle::walk_cases::{self, Fields};
use std::sync::OnceLock;

/// A message and its field table.
pub struct Message {
    pub bytes: Vec<u8>,
    pub table: Vec<u32>,
}

impl Message {
    /// The values one behind the other, at times with bytes between them.
    pub fn new(numbers: &mut Numbers, fields: &Fields) -> Self {
        let mut message = Self {
            bytes: Vec::new(),
            table: Vec::new(),
        };
        for (tag, value) in fields {
            if numbers.once_in(3) {
                message.bytes.extend_from_slice(b"\x01=");
            }
            let first = message.bytes.len() as u32;
            message.bytes.extend_from_slice(value);
            message.table.extend([*tag, first, message.bytes.len() as u32]);
        }
        message
    }

    /// The same with a word of the table changed, out, or too many.
    pub fn damaged(mut self, numbers: &mut Numbers) -> Self {
        let place = numbers.place(self.table.len() + 1);
        match numbers.below(5) {
            0 => self.table.insert(place, numbers.below(40) as u32),
            1 => self.table.truncate(place),
            2 if place < self.table.len() => self.table[place] = u32::MAX - numbers.below(3) as u32,
            3 if place < self.table.len() => self.table[place] = numbers.below(1 + self.bytes.len() as u64 * 2) as u32,
            _ => self.bytes.truncate(numbers.place(self.bytes.len() + 1)),
        }
        self
    }

    pub fn fields(&self) -> usize {
        self.table.len() / 3
    }
}

/// Fields of a layout's top and readings of its groups, with faults, over tags
/// below `tags`.
pub fn fields_of(numbers: &mut Numbers, top: &PlainLevel, tags: u64, size: usize) -> Fields {
    let mut fields = if top.groups.is_empty() {
        (0..numbers.below(8)).map(|_| walk_cases::random_field(numbers, tags)).collect()
    } else {
        walk_cases::random_message(numbers, top, tags, size)
    };
    for tag in &top.members {
        if numbers.once_in(3) {
            fields.insert(numbers.place(fields.len() + 1), (*tag, b"1".to_vec()));
        }
    }
    fields
}

/// Values at the limits of their types.
fn values() -> &'static [Vec<u8>] {
    static VALUES: OnceLock<Vec<Vec<u8>>> = OnceLock::new();
    VALUES.get_or_init(|| {
        let mut values: Vec<Vec<u8>> = cases::value_cases().into_iter().map(|(_, value)| value).collect();
        values.sort();
        values.dedup();
        values
    })
}

const TOKENS: [&str; 14] = [
    "A", "B", "D", "1", "2", "007", "Y", "N", "20240229", "202413", "=", "1,2", "~!abcdefghijklmnopqrstuvwxyz1234", "",
];

/// Fields with values for verdicts.
pub fn valued_fields(numbers: &mut Numbers, tags: u64, count: usize) -> Fields {
    (0..count)
        .map(|_| {
            let value = if numbers.once_in(2) {
                numbers.pick(values()).clone()
            } else {
                let tokens: Vec<&str> = (0..=numbers.below(3)).map(|_| *numbers.pick(&TOKENS)).collect();
                tokens.join(" ").into_bytes()
            };
            (numbers.below(tags) as u32, value)
        })
        .collect()
}
