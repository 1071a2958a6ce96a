//! Layouts: the Rust's expansion of a message type, and hand-made ones.

use crate::group::{GroupSet, GroupSpec, SpecError};
use crate::schema::{Dictionary, GroupDef, Member, MessageDef};
use crate::scope::{Level, ScopeBuilder};
use crate::validator::{MAX_SCOPE_NODES, ValidationError, resolve};
use std::fmt::Write;

/// A level of a layout: its tags and its groups, and nothing else. Any level
/// can be written so, whatever rule it breaks.
#[derive(Debug, Clone, Default, PartialEq, Eq)]
pub struct PlainLevel {
    pub members: Vec<u32>,
    pub required: Vec<u32>,
    pub groups: Vec<PlainGroup>,
}

/// A group of such a level.
#[derive(Debug, Clone, PartialEq, Eq)]
pub struct PlainGroup {
    pub count_tag: u32,
    pub delimiter_tag: u32,
    pub required: bool,
    pub entry: PlainLevel,
}

impl PlainLevel {
    /// The count tags of the level's groups, in their order.
    pub fn count_tags(&self) -> Vec<u32> {
        self.groups.iter().map(|group| group.count_tag).collect()
    }

    /// How many members this level and all levels below have.
    pub fn all_members(&self) -> usize {
        let below = self.groups.iter().map(|group| group.entry.all_members());
        self.members.len() + below.sum::<usize>()
    }

    /// How many entries the required lists of this level and of all levels
    /// below have.
    pub fn all_required(&self) -> usize {
        let below = self.groups.iter().map(|group| group.entry.all_required());
        self.required.len() + below.sum::<usize>()
    }
}

impl From<&Level> for PlainLevel {
    fn from(level: &Level) -> Self {
        let groups = level.groups.iter().map(|group| PlainGroup {
            count_tag: group.count_tag,
            delimiter_tag: group.delimiter_tag,
            required: group.required,
            entry: Self::from(&group.entry),
        });
        Self {
            members: level.members.clone(),
            required: level.required.iter().map(|(tag, _)| *tag).collect(),
            groups: groups.collect(),
        }
    }
}

/// The expansion of one message type.
pub struct Expansion<'d> {
    pub(crate) level: Level,
    dict: &'d Dictionary,
    msg_def: &'d MessageDef,
}

/// Why a message type has no layout.
#[derive(Debug, PartialEq, Eq)]
pub enum Refused {
    /// The type is not defined.
    UnknownMsgType,
    /// All errors of the Rust's expansion, which goes on behind the first.
    Schema(Vec<ValidationError>),
}

/// Expands `msg_type`, one dictionary being transport and application.
pub fn expand<'d>(dict: &'d Dictionary, msg_type: &str) -> Result<Expansion<'d>, Refused> {
    let (msg_def, _) = resolve(dict, dict, msg_type).ok_or(Refused::UnknownMsgType)?;
    let (scope, errors) = ScopeBuilder::expand(dict, dict, msg_def);
    if !errors.is_empty() {
        return Err(Refused::Schema(errors));
    }
    Ok(Expansion {
        level: scope.level,
        dict,
        msg_def,
    })
}

impl Expansion<'_> {
    /// The layout.
    pub fn layout(&self) -> PlainLevel {
        PlainLevel::from(&self.level)
    }

    /// Whether the expansion spends that many nodes.
    ///
    /// The Rust does not give them out. They are what is left of its limit
    /// when as many groups more as go are added to the message: each takes
    /// one node.
    pub fn spends(&self, nodes: usize) -> bool {
        let fits = |more: usize| {
            let mut wider = self.msg_def.clone();
            for _ in 0..more {
                wider.push(Member::Group(GroupDef::new(0, "0", 0, false, [])));
            }
            let (_, errors) = ScopeBuilder::expand(self.dict, self.dict, &wider);
            errors.is_empty()
        };
        let left = MAX_SCOPE_NODES - nodes;
        fits(left) && !fits(left + 1)
    }
}

/// The lines of an expansion: the nodes spent, then each level.
pub fn expansion_lines(expansion: &Expansion<'_>, nodes: usize) -> String {
    let mut text = format!("nodes={nodes}\n");
    level_lines(&expansion.layout(), "top", &mut text);
    text
}

/// A level's members, required list and groups, then the level of each group,
/// named by the count tags from the top.
fn level_lines(level: &PlainLevel, name: &str, text: &mut String) {
    let _ = writeln!(
        text,
        "level={name} members={} required={} groups={}",
        list(&level.members),
        list(&level.required),
        list(&level.count_tags()),
    );
    for group in &level.groups {
        let name = match name {
            "top" => group.count_tag.to_string(),
            _ => format!("{name}/{}", group.count_tag),
        };
        let _ = writeln!(
            text,
            "group={name} delimiter={} required={}",
            group.delimiter_tag,
            u8::from(group.required),
        );
        level_lines(&group.entry, &name, text);
    }
}

/// A layout as a layout text.
pub fn layout_text(layout: &PlainLevel) -> String {
    let mut text = String::new();
    level_text(layout, &mut text);
    text
}

fn level_text(level: &PlainLevel, text: &mut String) {
    for tag in &level.members {
        let _ = writeln!(text, "member={tag}");
    }
    for tag in &level.required {
        let _ = writeln!(text, "required={tag}");
    }
    for group in &level.groups {
        let (count, delimiter) = (group.count_tag, group.delimiter_tag);
        let _ = writeln!(
            text,
            "group={count},{delimiter},{}",
            u8::from(group.required)
        );
        level_text(&group.entry, text);
        let _ = writeln!(text, "end={count}");
    }
}

/// Tags with commas between them, `-` for none.
fn list(tags: &[u32]) -> String {
    if tags.is_empty() {
        return "-".to_string();
    }
    let tags: Vec<String> = tags.iter().map(u32::to_string).collect();
    tags.join(",")
}

/// The lines of all errors of the Rust's expansion: document 01's number, with
/// the name where the Rust gives one.
pub fn error_lines(refused: &Refused) -> String {
    match refused {
        Refused::UnknownMsgType => "error=6\n".to_string(),
        Refused::Schema(errors) => errors
            .iter()
            .map(|error| match error {
                ValidationError::UnknownComponent { name } => format!("error=7 name={name}\n"),
                ValidationError::SchemaTooDeep { name, .. } => format!("error=8 name={name}\n"),
                ValidationError::SchemaTooLarge { .. } => "error=9\n".to_string(),
                other => unreachable!("not an error of the expansion: {other}"),
            })
            .collect(),
    }
}

/// A hand-made layout that meets the seven rules.
pub struct HandMade {
    pub(crate) set: GroupSet<'static>,
    pub(crate) required: Vec<u32>,
    pub(crate) required_groups: Vec<u32>,
}

/// Builds a hand-made layout with the Rust's constructors, which look at the
/// rules.
pub fn hand_made(level: &PlainLevel) -> Result<HandMade, SpecError> {
    let set = GroupSet::with_level_tags(groups_of(level)?, leak(level.members.clone()))?;
    let groups = level.groups.iter();
    Ok(HandMade {
        set,
        required: level.required.clone(),
        required_groups: groups
            .filter(|group| group.required)
            .map(|group| group.count_tag)
            .collect(),
    })
}

/// The specs of a level's groups, the nested ones first.
fn groups_of(level: &PlainLevel) -> Result<&'static [GroupSpec<'static>], SpecError> {
    let mut specs = Vec::new();
    for group in &level.groups {
        let nested = groups_of(&group.entry)?;
        let members = leak(group.entry.members.clone());
        specs.push(GroupSpec::new(
            group.count_tag,
            group.delimiter_tag,
            members,
            nested,
        )?);
    }
    Ok(leak(specs))
}

/// The Rust's tables are borrowed; a program that ends soon may leave them.
fn leak<T>(list: Vec<T>) -> &'static [T] {
    Box::leak(list.into_boxed_slice())
}

/// Document 01's rule and tag of a rule that the Rust found broken: the count
/// tag of the group whose rule it is, 0 for the top.
pub fn broken_rule(error: SpecError) -> (u64, u32) {
    match error {
        SpecError::UnsortedMembers { count_tag } => (1, count_tag),
        SpecError::DelimiterNotMember { count_tag, .. } => (2, count_tag),
        SpecError::UnsortedNested { count_tag } => (3, count_tag),
        SpecError::NestedNotMember { count_tag, .. } => (4, count_tag),
        SpecError::UnsortedGroups => (5, 0),
        SpecError::UnsortedLevelTags => (6, 0),
        SpecError::GroupNotAtLevel { .. } => (7, 0),
    }
}
