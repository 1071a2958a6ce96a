//! The layouts and messages that are walked, the same on every run.

use crate::arrangement;
use crate::layouts::{self, Expansion, PlainLevel};
use crate::numbers::Numbers;
use crate::schema::Dictionary;
use crate::texts;
use std::fmt::Write;

/// A layout, as the Rust has it and as words, and the messages walked on it.
pub struct Case {
    pub name: String,
    pub dict: &'static Dictionary,
    pub words: Vec<u32>,
    pub messages: Vec<Message>,
}

/// A message whose first field is the count field of the top group.
pub struct Message {
    pub bytes: Vec<u8>,
    /// Three words a field.
    pub table: Vec<u32>,
}

/// The count tag of the only group of the top.
pub const TOP_GROUP: u32 = 1;

/// The members of level `level` have the tags from here on, the delimiter
/// first. The count tag of the group nested in the level is its last member.
fn first_tag(level: usize) -> u32 {
    100_000 * (level as u32 + 1)
}

impl Case {
    /// Groups nested in each other, each entry level with so many members.
    /// The message has so many other fields.
    fn new(name: &str, members: &[u32], others: u32) -> Self {
        let mut text = String::from("begin=header\nend=header\nbegin=trailer\nend=trailer\n");
        text.push_str("message=D,app\n");
        for other in 0..others {
            let _ = writeln!(text, "field={},0", 10 + other);
        }
        for (level, count) in members.iter().enumerate() {
            let first = first_tag(level);
            let tag = count_tag(level, members);
            let _ = writeln!(text, "group={tag},{first},1");
            let nested = u32::from(level + 1 < members.len());
            for member in 1..count - nested {
                let _ = writeln!(text, "field={},0", first + member);
            }
        }
        for level in (0..members.len()).rev() {
            let _ = writeln!(text, "end={}", count_tag(level, members));
        }
        text.push_str("end=D\n");
        let dict = texts::dictionary(text.as_bytes()).expect("an accepted dictionary text");
        let dict: &'static Dictionary = Box::leak(Box::new(dict));
        let layout = PlainLevel::from(&expand(dict).level);
        Self {
            name: name.to_string(),
            dict,
            words: arrangement::words(&layout),
            messages: Vec::new(),
        }
    }

    pub fn expansion(&self) -> Expansion<'static> {
        expand(self.dict)
    }
}

fn expand(dict: &'static Dictionary) -> Expansion<'static> {
    let Ok(expansion) = layouts::expand(dict, "D") else {
        unreachable!("the type has a layout");
    };
    expansion
}

/// The count tag of the group at that level: the top group's is 1, that of a
/// nested one the last member of the level around.
fn count_tag(level: usize, members: &[u32]) -> u32 {
    match level.checked_sub(1) {
        None => TOP_GROUP,
        Some(around) => first_tag(around) + members[around] - 1,
    }
}

/// Writes fields behind each other.
#[derive(Default)]
pub struct Writer {
    bytes: Vec<u8>,
    table: Vec<u32>,
}

impl Writer {
    pub fn field(&mut self, tag: u32, value: &str) {
        self.bytes.extend_from_slice(format!("{tag}=").as_bytes());
        let first = self.bytes.len() as u32;
        self.bytes.extend_from_slice(value.as_bytes());
        self.table.extend([tag, first, self.bytes.len() as u32]);
        self.bytes.push(1);
    }

    fn fields(&self) -> usize {
        self.table.len() / 3
    }

    pub fn message(self) -> Message {
        Message {
            bytes: self.bytes,
            table: self.table,
        }
    }
}

/// How the entries of a message are made up.
#[derive(Clone, Copy, PartialEq, Eq)]
enum Entries {
    /// All entries of a level have the same members in the same order, and
    /// every nested group has two entries: as a market data message has.
    Alike,
    /// Up to five members of the level in any order, and one to three entries
    /// in a nested group, which stands anywhere: no two are alike.
    Mixed,
}

/// A nested group.
fn group(numbers: &mut Numbers, kind: Entries, writer: &mut Writer, members: &[u32], level: usize) {
    let entries = match kind {
        Entries::Alike => 2,
        Entries::Mixed => 1 + numbers.below(3),
    };
    writer.field(count_tag(level, members), &entries.to_string());
    for _ in 0..entries {
        entry(numbers, kind, writer, members, level);
    }
}

/// The delimiter, other members, and a nested group among them.
fn entry(numbers: &mut Numbers, kind: Entries, writer: &mut Writer, members: &[u32], level: usize) {
    let first = first_tag(level);
    writer.field(first, "delim");
    let nested = level + 1 < members.len();
    let plain = members[level] - 1 - u32::from(nested);
    let taken: Vec<u32> = match kind {
        Entries::Alike => vec![1 + plain / 5, 1 + plain / 2, plain],
        Entries::Mixed => mixed(numbers, plain),
    };
    let place = match kind {
        Entries::Alike => taken.len(),
        Entries::Mixed => numbers.place(taken.len() + 1),
    };
    for (index, member) in taken.iter().enumerate() {
        if nested && index == place {
            group(numbers, kind, writer, members, level + 1);
        }
        writer.field(first + member, "value");
    }
    if nested && place == taken.len() {
        group(numbers, kind, writer, members, level + 1);
    }
}

/// Up to five of the plain members, each once.
fn mixed(numbers: &mut Numbers, plain: u32) -> Vec<u32> {
    let mut taken = Vec::new();
    for _ in 0..numbers.below(6) {
        let member = 1 + numbers.below(u64::from(plain)) as u32;
        if !taken.contains(&member) {
            taken.push(member);
        }
    }
    taken
}

/// Entries of the top group until there are so many fields.
fn message(numbers: &mut Numbers, kind: Entries, members: &[u32], fields: usize) -> Message {
    loop {
        let mut writer = Writer::default();
        // The count is known behind the last entry: it is written in four
        // digits and put there then.
        writer.field(TOP_GROUP, "0000");
        let past = writer.bytes.len() - 1;
        let mut entries = 0;
        while writer.fields() < fields {
            entry(numbers, kind, &mut writer, members, 0);
            entries += 1;
        }
        writer.bytes[past - 4..past].copy_from_slice(format!("{entries:04}").as_bytes());
        if kind == Entries::Alike || writer.fields() <= fields + 20 {
            return writer.message();
        }
    }
}

/// Sixteen messages of about so many fields each.
fn with_messages(mut case: Case, kind: Entries, members: &[u32], fields: usize, seed: u64) -> Case {
    let mut numbers = Numbers::new(seed);
    case.messages = (0..16)
        .map(|_| message(&mut numbers, kind, members, fields))
        .collect();
    case
}

pub fn cases() -> Vec<Case> {
    use Entries::{Alike, Mixed};
    let shapes: [(&str, &[u32], usize, Entries); 8] = [
        (
            "3,000 fields, members 40/20/5, entries alike",
            &[40, 20, 5],
            3_000,
            Alike,
        ),
        (
            "3,000 fields, members 40/20/5, mixed entries",
            &[40, 20, 5],
            3_000,
            Mixed,
        ),
        (
            "3,000 fields, members 400/200/100, entries alike",
            &[400, 200, 100],
            3_000,
            Alike,
        ),
        (
            "3,000 fields, members 400/200/100, mixed entries",
            &[400, 200, 100],
            3_000,
            Mixed,
        ),
        (
            "3,000 fields, 2,000 members, entries alike",
            &[2_000],
            3_000,
            Alike,
        ),
        (
            "3,000 fields, 2,000 members, mixed entries",
            &[2_000],
            3_000,
            Mixed,
        ),
        (
            "3,000 fields, members 2,000/20/5, mixed entries",
            &[2_000, 20, 5],
            3_000,
            Mixed,
        ),
        (
            "30 fields, members 40/20/5, mixed entries",
            &[40, 20, 5],
            30,
            Mixed,
        ),
    ];
    let numbered = shapes.into_iter().zip(1..);
    numbered
        .map(|((name, members, fields, kind), seed)| {
            with_messages(Case::new(name, members, 0), kind, members, fields, seed)
        })
        .collect()
}

/// A case whose entries are alike, or mixed, with so many other fields of the
/// message in the layout.
pub fn alike_case(name: &str, members: &[u32], fields: usize, others: u32) -> Case {
    with_messages(
        Case::new(name, members, others),
        Entries::Alike,
        members,
        fields,
        50,
    )
}

pub fn mixed_case(name: &str, members: &[u32], fields: usize, others: u32) -> Case {
    with_messages(
        Case::new(name, members, others),
        Entries::Mixed,
        members,
        fields,
        51,
    )
}
