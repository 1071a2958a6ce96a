//! Which texts are accepted, and the refusal of every other: document 01's
//! refusals 1 to 5 for a dictionary text, 1 to 4, 10 and 11 for a layout text,
//! 1 and 2 for msg.txt. The Rust has no such texts; this is written from
//! document 01 alone.
//!
//! The lines are read from the top, the first faulty one decides, and of two
//! faults on it the lower number is given.

use crate::layouts::{PlainGroup, PlainLevel};
use crate::lines::{self, DictionaryLine, GroupHead, LayoutLine};
use crate::refusal::Refusal;
use std::collections::HashSet;

/// The most bytes of a text.
pub const LONGEST_TEXT: usize = 65_536;
/// The most group blocks that may be open at one time.
pub const MOST_OPEN_GROUPS: usize = 40;
/// The most members of all levels of a layout.
pub const MOST_MEMBERS: usize = 8_192;
/// The most entries of all required lists of a layout.
pub const MOST_REQUIRED: usize = 2_048;

const TOO_LONG: u8 = 1;
const NO_FORM: u8 = 2;
const NOT_ALLOWED: u8 = 3;
const TOO_MANY_OPEN: u8 = 4;
const DEFINED_AGAIN: u8 = 5;
const OVER_A_LIMIT: u8 = 10;

/// The lines of a text behind the test of its length, each with its form. A
/// line of no form ends in refusal 2.
fn lines_of<'t, L>(
    text: &'t [u8],
    form: impl Fn(&'t [u8]) -> Option<L>,
) -> Result<impl Iterator<Item = (u64, Result<L, Refusal>)>, Refusal> {
    if text.len() > LONGEST_TEXT {
        return Err(Refusal::new(TOO_LONG, 0));
    }
    let lines = (1..).zip(lines::lines(text));
    Ok(lines.map(move |(number, line)| {
        let form = line.and_then(&form);
        (number, form.ok_or(Refusal::new(NO_FORM, number)))
    }))
}

/// The lines of an accepted dictionary text.
///
/// # Errors
/// Refusals 1 to 5.
pub fn dictionary(text: &[u8]) -> Result<Vec<DictionaryLine<'_>>, Refusal> {
    let mut reading = DictionaryReading::default();
    let mut accepted = Vec::new();
    for (number, line) in lines_of(text, lines::dictionary_line)? {
        let line = line?;
        reading
            .take(line)
            .map_err(|fault| Refusal::new(fault, number))?;
        accepted.push(line);
    }
    if !reading.may_stop() {
        return Err(Refusal::new(NOT_ALLOWED, accepted.len() as u64 + 1));
    }
    Ok(accepted)
}

/// How far a dictionary text is read. A block that is open does not change
/// the stage until it is closed, except that a message leaves the components
/// behind.
#[derive(Debug, Clone, Copy, Default, PartialEq, Eq)]
enum Stage {
    #[default]
    Start,
    /// A definition stands above, so values may follow.
    Definitions,
    /// `end=header` was read.
    Header,
    /// `end=trailer` was read: components may follow.
    Trailer,
    Messages,
}

/// What a block is; it decides whether `use` lines may stand in it and what
/// its end means.
#[derive(Debug, Clone, Copy, PartialEq, Eq)]
enum BlockKind {
    Header,
    Trailer,
    Component,
    Message,
    Group,
}

/// A body holds fields, then groups, then uses: the last part that a line of
/// it belonged to.
#[derive(Debug, Clone, Copy, PartialEq, Eq, PartialOrd)]
enum Part {
    Fields,
    Groups,
    Uses,
}

#[derive(Debug)]
struct Block<'t> {
    kind: BlockKind,
    /// What its `end` line names.
    name: &'t str,
    part: Part,
}

#[derive(Debug, Default)]
struct DictionaryReading<'t> {
    stage: Stage,
    /// The open blocks, the innermost last.
    open: Vec<Block<'t>>,
    tags: HashSet<u32>,
    components: HashSet<&'t str>,
    types: HashSet<&'t str>,
}

impl<'t> DictionaryReading<'t> {
    /// Takes a line, or says the number of its fault.
    fn take(&mut self, line: DictionaryLine<'t>) -> Result<(), u8> {
        if !self.allows(line) {
            return Err(NOT_ALLOWED);
        }
        match line {
            DictionaryLine::Definition(tag, _) => {
                defined(self.tags.insert(tag))?;
                self.stage = Stage::Definitions;
            }
            DictionaryLine::Value(_) => {}
            DictionaryLine::BeginHeader => self.open(BlockKind::Header, "header"),
            DictionaryLine::BeginTrailer => self.open(BlockKind::Trailer, "trailer"),
            DictionaryLine::Component(name) => {
                defined(self.components.insert(name))?;
                self.open(BlockKind::Component, name);
            }
            DictionaryLine::Message(msg_type, _) => {
                defined(self.types.insert(msg_type))?;
                self.stage = Stage::Messages;
                self.open(BlockKind::Message, msg_type);
            }
            DictionaryLine::Field(..) => {}
            DictionaryLine::Group(group) => {
                let kinds = self.open.iter().map(|block| block.kind);
                let groups = kinds.filter(|kind| *kind == BlockKind::Group).count();
                if groups == MOST_OPEN_GROUPS {
                    return Err(TOO_MANY_OPEN);
                }
                self.innermost_is_at(Part::Groups);
                self.open(BlockKind::Group, group.name);
            }
            DictionaryLine::Use(..) => self.innermost_is_at(Part::Uses),
            DictionaryLine::End(_) => self.close(),
        }
        Ok(())
    }

    /// Whether the line may stand here.
    fn allows(&self, line: DictionaryLine<'t>) -> bool {
        let Some(block) = self.open.last() else {
            return match line {
                DictionaryLine::Definition(..) | DictionaryLine::BeginHeader => {
                    matches!(self.stage, Stage::Start | Stage::Definitions)
                }
                DictionaryLine::Value(_) => self.stage == Stage::Definitions,
                DictionaryLine::BeginTrailer => self.stage == Stage::Header,
                DictionaryLine::Component(_) => self.stage == Stage::Trailer,
                DictionaryLine::Message(..) => {
                    matches!(self.stage, Stage::Trailer | Stage::Messages)
                }
                DictionaryLine::Field(..)
                | DictionaryLine::Group(_)
                | DictionaryLine::Use(..)
                | DictionaryLine::End(_) => false,
            };
        };
        match line {
            DictionaryLine::Field(..) => block.part <= Part::Fields,
            DictionaryLine::Group(_) => block.part <= Part::Groups,
            DictionaryLine::Use(..) => {
                !matches!(block.kind, BlockKind::Header | BlockKind::Trailer)
            }
            DictionaryLine::End(name) => block.name == name,
            DictionaryLine::Definition(..)
            | DictionaryLine::Value(_)
            | DictionaryLine::BeginHeader
            | DictionaryLine::BeginTrailer
            | DictionaryLine::Component(_)
            | DictionaryLine::Message(..) => false,
        }
    }

    fn open(&mut self, kind: BlockKind, name: &'t str) {
        self.open.push(Block {
            kind,
            name,
            part: Part::Fields,
        });
    }

    fn innermost_is_at(&mut self, part: Part) {
        if let Some(block) = self.open.last_mut() {
            block.part = part;
        }
    }

    fn close(&mut self) {
        match self.open.pop().map(|block| block.kind) {
            Some(BlockKind::Header) => self.stage = Stage::Header,
            Some(BlockKind::Trailer) => self.stage = Stage::Trailer,
            _ => {}
        }
    }

    /// "the text stops with a block open, or a dictionary text before
    /// `end=trailer`": neither.
    fn may_stop(&self) -> bool {
        self.open.is_empty() && matches!(self.stage, Stage::Trailer | Stage::Messages)
    }
}

/// The fault of a name that was already there.
fn defined(new: bool) -> Result<(), u8> {
    if new { Ok(()) } else { Err(DEFINED_AGAIN) }
}

/// An accepted layout text: its layout, and how many lines it has.
///
/// # Errors
/// Refusals 1 to 4, then 10, then 11: of all broken rules the first, groups
/// in the order of their `end` lines, the top last, and of each the lowest
/// rule number.
pub fn layout(text: &[u8]) -> Result<(PlainLevel, u64), Refusal> {
    let (top, line_count) = ruleless_layout(text)?;
    match broken_rule(&top) {
        Some((rule, tag)) => Err(Refusal::of_rule(rule, tag)),
        None => Ok((top, line_count)),
    }
}

/// The same, whatever rules the layout breaks.
///
/// # Errors
/// Refusals 1 to 4, then 10.
pub fn ruleless_layout(text: &[u8]) -> Result<(PlainLevel, u64), Refusal> {
    let (top, line_count) = layout_lines(text)?;
    if top.all_members() > MOST_MEMBERS || top.all_required() > MOST_REQUIRED {
        return Err(Refusal::new(OVER_A_LIMIT, 0));
    }
    Ok((top, line_count))
}

/// The layout that the lines of a layout text give, and the number of lines:
/// refusals 1 to 4.
fn layout_lines(text: &[u8]) -> Result<(PlainLevel, u64), Refusal> {
    let mut top = PlainLevel::default();
    // The open groups, the innermost last.
    let mut open: Vec<(GroupHead<'_>, PlainLevel)> = Vec::new();
    let mut line_count = 0;
    for (number, line) in lines_of(text, lines::layout_line)? {
        let refused = |fault| Err(Refusal::new(fault, number));
        let groups_open = open.len();
        let level = open.last_mut().map_or(&mut top, |(_, level)| level);
        match line? {
            LayoutLine::Member(tag) if level.required.is_empty() && level.groups.is_empty() => {
                level.members.push(tag);
            }
            LayoutLine::Required(tag) if level.groups.is_empty() => level.required.push(tag),
            LayoutLine::Group(_) if groups_open == MOST_OPEN_GROUPS => {
                return refused(TOO_MANY_OPEN);
            }
            LayoutLine::Group(head) => open.push((head, PlainLevel::default())),
            LayoutLine::End(name) => match open.pop_if(|(head, _)| head.name == name) {
                Some((head, entry)) => {
                    let around = open.last_mut().map_or(&mut top, |(_, level)| level);
                    around.groups.push(PlainGroup {
                        count_tag: head.count_tag,
                        delimiter_tag: head.delimiter_tag,
                        required: head.required,
                        entry,
                    });
                }
                None => return refused(NOT_ALLOWED),
            },
            LayoutLine::Member(_) | LayoutLine::Required(_) => return refused(NOT_ALLOWED),
        }
        line_count = number;
    }
    if !open.is_empty() {
        return Err(Refusal::new(NOT_ALLOWED, line_count + 1));
    }
    Ok((top, line_count))
}

/// The first broken rule and the count tag of the group that breaks it, 0
/// for the top.
pub fn broken_rule(top: &PlainLevel) -> Option<(u64, u32)> {
    let in_groups = top.groups.iter().find_map(broken_in_group);
    let top_rules = [
        (5, is_ascending(&top.count_tags())),
        (6, is_ascending(&top.members)),
        (7, are_members(top)),
    ];
    in_groups.or_else(|| first_broken(&top_rules, 0))
}

/// The same in a group: the groups of its entry end before it does.
fn broken_in_group(group: &PlainGroup) -> Option<(u64, u32)> {
    let entry = &group.entry;
    let in_groups = entry.groups.iter().find_map(broken_in_group);
    let rules = [
        (1, is_ascending(&entry.members)),
        (2, entry.members.contains(&group.delimiter_tag)),
        (3, is_ascending(&entry.count_tags())),
        (4, are_members(entry)),
    ];
    in_groups.or_else(|| first_broken(&rules, group.count_tag))
}

fn first_broken(rules: &[(u64, bool)], tag: u32) -> Option<(u64, u32)> {
    let broken = rules.iter().find(|(_, holds)| !holds);
    broken.map(|(rule, _)| (*rule, tag))
}

fn is_ascending(tags: &[u32]) -> bool {
    tags.windows(2).all(|pair| pair[0] < pair[1])
}

/// Whether the count tags of a level's groups are members of it.
fn are_members(level: &PlainLevel) -> bool {
    let tags = level.count_tags();
    tags.iter().all(|tag| level.members.contains(tag))
}

/// The tag, the first byte and the byte behind the last of each field of
/// msg.txt.
///
/// # Errors
/// Refusals 1 and 2.
pub fn message(text: &[u8]) -> Result<Vec<[u32; 3]>, Refusal> {
    let mut rows = Vec::new();
    let mut start = 0;
    for (_, line) in lines_of(text, |line| {
        lines::message_line(line).map(|field| (field, line.len()))
    })? {
        let ((tag, value), line_length) = line?;
        let end = start + line_length;
        rows.push([tag, (end - value.len()) as u32, end as u32]);
        start = end + 1;
    }
    Ok(rows)
}
