//! What accepted texts say: the Rust's dictionary of a dictionary text, the
//! layout of a layout text, the field table of msg.txt. Rust names are the
//! decimal tags and component numbers.

use crate::layouts::PlainLevel;
use crate::lines::DictionaryLine;
use crate::reader;
use crate::refusal::Refusal;
use crate::schema::{
    ComponentDef, ComponentRef, Dictionary, FieldDef, FieldRef, GroupDef, Member, MessageDef,
    Version,
};
use std::collections::HashMap;

/// Reads a dictionary text.
///
/// # Errors
/// Refusals 1 to 5.
pub fn dictionary(text: &[u8]) -> Result<Dictionary, Refusal> {
    let mut lines = reader::dictionary(text)?.into_iter().peekable();
    let mut dict = Dictionary::new(Version::Fix44);
    while let Some(line) = lines.next() {
        match line {
            DictionaryLine::Definition(tag, field_type) => {
                let mut admitted = HashMap::new();
                while let Some(DictionaryLine::Value(value)) =
                    lines.next_if(|line| matches!(line, DictionaryLine::Value(_)))
                {
                    admitted.insert(value.to_string(), String::new());
                }
                let mut def = FieldDef::new(tag, tag.to_string(), field_type);
                if !admitted.is_empty() {
                    def = def.with_values(admitted);
                }
                dict.add_field(def);
            }
            DictionaryLine::BeginHeader => {
                (dict.header, dict.header_groups) = envelope(body(&mut lines));
            }
            DictionaryLine::BeginTrailer => {
                (dict.trailer, dict.trailer_groups) = envelope(body(&mut lines));
            }
            DictionaryLine::Component(name) => {
                dict.add_component(ComponentDef::new(name, body(&mut lines)));
            }
            DictionaryLine::Message(msg_type, category) => {
                let members = body(&mut lines);
                dict.add_message(MessageDef::new(msg_type, msg_type, category, members));
            }
            other => unreachable!("{other:?} stands outside of a block"),
        }
    }
    Ok(dict)
}

/// The lines of a body, and its `end` line.
fn body<'t>(lines: &mut impl Iterator<Item = DictionaryLine<'t>>) -> Vec<Member> {
    let mut members = Vec::new();
    while let Some(line) = lines.next() {
        members.push(match line {
            DictionaryLine::Field(tag, required) => Member::Field(FieldRef {
                tag,
                name: tag.to_string(),
                required,
            }),
            DictionaryLine::Group(head) => Member::Group(GroupDef::new(
                head.count_tag,
                head.name,
                head.delimiter_tag,
                head.required,
                body(lines),
            )),
            DictionaryLine::Use(name, required) => {
                Member::Component(ComponentRef::new(name, required))
            }
            DictionaryLine::End(_) => return members,
            other => unreachable!("{other:?} stands in a block"),
        });
    }
    unreachable!("a block stays open")
}

/// The header's or the trailer's fields and groups.
fn envelope(members: Vec<Member>) -> (Vec<FieldRef>, Vec<GroupDef>) {
    let mut fields = Vec::new();
    let mut groups = Vec::new();
    for member in members {
        match member {
            Member::Field(field) => fields.push(field),
            Member::Group(group) => groups.push(group),
            Member::Component(_) => unreachable!("`use` is not allowed there"),
        }
    }
    (fields, groups)
}

/// Reads a layout text.
///
/// # Errors
/// Refusals 1 to 4, 10 and 11.
pub fn layout(text: &[u8]) -> Result<PlainLevel, Refusal> {
    reader::layout(text).map(|(top, _)| top)
}

/// A message: its bytes and its field table.
#[derive(Debug, Clone, Default)]
pub struct Message {
    bytes: Vec<u8>,
    rows: Vec<[u32; 3]>,
}

impl Message {
    /// The fields as the Rust has them.
    pub fn fields(&self) -> Vec<ironfix_core::field::FieldRef<'_>> {
        self.rows
            .iter()
            .map(|&[tag, first, end]| ironfix_core::field::FieldRef {
                tag,
                value: &self.bytes[first as usize..end as usize],
            })
            .collect()
    }

    /// The value of the first field 35, else nothing.
    pub fn msg_type(&self) -> String {
        let field = self.fields().into_iter().find(|field| field.tag == 35);
        field.map_or_else(String::new, |field| {
            String::from_utf8_lossy(field.value).into_owned()
        })
    }
}

/// Reads msg.txt: one `TAG=VALUE` line a field.
///
/// # Errors
/// Refusals 1 and 2.
pub fn message(text: &[u8]) -> Result<Message, Refusal> {
    Ok(Message {
        bytes: text.to_vec(),
        rows: reader::message(text)?,
    })
}
