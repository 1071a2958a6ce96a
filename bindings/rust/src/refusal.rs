//! The 14 refusals of the gate: what each means, and where.

use std::fmt;

/// Why a call was refused, with its place.
#[non_exhaustive]
#[derive(Debug, Clone, Copy, PartialEq, Eq, Hash)]
pub enum Refusal {
    /// 1: a text has more than 65,536 bytes.
    TextTooLong,
    /// 2: a line is of no form that its kind of text knows, or lent words are no dictionary.
    UnknownForm {
        /// The line, from 1; 0 where lent words are no dictionary.
        line: u64,
    },
    /// 3: a line is not allowed there, or the text stops too early.
    NotAllowed {
        /// The line, from 1; the last plus 1 where the text stops too early.
        line: u64,
    },
    /// 4: 41 group blocks are open.
    TooManyOpen {
        /// The line that opens the last of them.
        line: u64,
    },
    /// 5: a tag, a component or a message type is defined again.
    DefinedAgain {
        /// The line that does so.
        line: u64,
    },
    /// 6: the message type is not defined.
    TypeNotDefined,
    /// 7: a component is used that is not defined.
    ComponentNotDefined {
        /// The component.
        component: u64,
    },
    /// 8: groups and components are nested deeper than 32.
    TooDeep {
        /// The count tag or the component that would be the next.
        name: u64,
    },
    /// 9: there are more than 4,096 groups and uses.
    OutOfNodes {
        /// The count tag or the component that would be the next.
        name: u64,
    },
    /// 10: there are more than 8,192 members or 2,048 required tags.
    MembersOver,
    /// 11: a layout rule is broken, or lent words are no layout.
    RuleBroken {
        /// The rule, 1 to 7; 0 where lent words are no layout.
        rule: u64,
        /// The count tag of the group that breaks it; 0 for the top.
        tag: u32,
    },
    /// 12: a field table is not accepted.
    BadField {
        /// The first field, from 1, that starts after its end or ends after the message; 0 where
        /// the table's words are not in threes or it has more than 4,096 fields.
        field: u64,
    },
    /// 13: the space that was lent is short.
    SpaceShort {
        /// How many words are needed.
        words_needed: u64,
    },
    /// 14: there is no group with this count tag.
    NoSuchGroup {
        /// The count tag.
        count_tag: u64,
    },
}

impl Refusal {
    /// The refusal of this number and place; `None` where the number is not 1 to 14.
    #[must_use]
    pub fn new(number: u64, place: u64) -> Option<Self> {
        Some(match number {
            1 => Self::TextTooLong,
            2 => Self::UnknownForm { line: place },
            3 => Self::NotAllowed { line: place },
            4 => Self::TooManyOpen { line: place },
            5 => Self::DefinedAgain { line: place },
            6 => Self::TypeNotDefined,
            7 => Self::ComponentNotDefined { component: place },
            8 => Self::TooDeep { name: place },
            9 => Self::OutOfNodes { name: place },
            10 => Self::MembersOver,
            11 => Self::RuleBroken { rule: place >> 32, tag: place as u32 },
            12 => Self::BadField { field: place },
            13 => Self::SpaceShort { words_needed: place },
            14 => Self::NoSuchGroup { count_tag: place },
            _ => return None,
        })
    }

    /// The refusal's number, 1 to 14.
    #[must_use]
    pub fn number(self) -> u64 {
        match self {
            Self::TextTooLong => 1,
            Self::UnknownForm { .. } => 2,
            Self::NotAllowed { .. } => 3,
            Self::TooManyOpen { .. } => 4,
            Self::DefinedAgain { .. } => 5,
            Self::TypeNotDefined => 6,
            Self::ComponentNotDefined { .. } => 7,
            Self::TooDeep { .. } => 8,
            Self::OutOfNodes { .. } => 9,
            Self::MembersOver => 10,
            Self::RuleBroken { .. } => 11,
            Self::BadField { .. } => 12,
            Self::SpaceShort { .. } => 13,
            Self::NoSuchGroup { .. } => 14,
        }
    }

    /// The refusal's place, as document 01's table gives it.
    #[must_use]
    pub fn place(self) -> u64 {
        match self {
            Self::TextTooLong | Self::TypeNotDefined | Self::MembersOver => 0,
            Self::UnknownForm { line }
            | Self::NotAllowed { line }
            | Self::TooManyOpen { line }
            | Self::DefinedAgain { line } => line,
            Self::ComponentNotDefined { component } => component,
            Self::TooDeep { name } | Self::OutOfNodes { name } => name,
            Self::RuleBroken { rule, tag } => (rule << 32) + u64::from(tag),
            Self::BadField { field } => field,
            Self::SpaceShort { words_needed } => words_needed,
            Self::NoSuchGroup { count_tag } => count_tag,
        }
    }
}

/// What each rule of a layout asks, from rule 1 on.
const RULES: [&str; 7] = [
    "members strictly ascending",
    "the delimiter a member",
    "nested count tags strictly ascending",
    "each nested count tag a member",
    "groups strictly ascending",
    "members strictly ascending",
    "each group's count tag a member",
];

impl fmt::Display for Refusal {
    fn fmt(&self, f: &mut fmt::Formatter<'_>) -> fmt::Result {
        match *self {
            Self::TextTooLong => write!(f, "the text has more than 65,536 bytes"),
            Self::UnknownForm { line: 0 } => write!(f, "the lent words are no dictionary"),
            Self::UnknownForm { line } => {
                write!(f, "line {line} has no form known to its kind of text")
            }
            Self::NotAllowed { line } => {
                write!(f, "line {line} is not allowed there, or the text ends before it too early")
            }
            Self::TooManyOpen { line } => write!(f, "line {line} opens group block 41"),
            Self::DefinedAgain { line } => {
                write!(f, "line {line} defines a tag, a component or a message type again")
            }
            Self::TypeNotDefined => write!(f, "the message type is not defined"),
            Self::ComponentNotDefined { component } => {
                write!(f, "component {component} is not defined")
            }
            Self::TooDeep { name } => write!(f, "{name} is nested deeper than 32"),
            Self::OutOfNodes { name } => write!(f, "{name} is group or use 4,097"),
            Self::MembersOver => {
                write!(f, "there are more than 8,192 members or 2,048 required tags")
            }
            Self::RuleBroken { rule: 0, .. } => write!(f, "the lent words are no layout"),
            Self::RuleBroken { rule, tag } => {
                let asked =
                    usize::try_from(rule).ok().and_then(|rule| RULES.get(rule.wrapping_sub(1)));
                let asked = asked.unwrap_or(&"unknown");
                match rule {
                    5..=7 => write!(f, "the top breaks rule {rule}, {asked}"),
                    _ => write!(f, "group {tag} breaks rule {rule}, {asked}"),
                }
            }
            Self::BadField { field: 0 } => write!(
                f,
                "the field table's words are not in threes, or it has more than 4,096 fields"
            ),
            Self::BadField { field } => {
                write!(f, "field {field} starts after its end or ends after the message")
            }
            Self::SpaceShort { words_needed } => {
                write!(f, "the lent space is short: {words_needed} words are needed")
            }
            Self::NoSuchGroup { count_tag } => write!(f, "there is no group {count_tag}"),
        }
    }
}

impl std::error::Error for Refusal {}
