//! Document 01's expansion as far as the Rust does not give it out: the
//! refusal that is met first, with its place, and the nodes spent.
//!
//! The Rust goes on behind an error, names no group or component where its
//! nodes are used up, and has no limit for members and required entries. The
//! order of the additions is the Rust's.

use crate::layouts::{self, Expansion, Refused};
use crate::reader::{MOST_MEMBERS, MOST_REQUIRED};
use crate::refusal::Refusal;
use crate::schema::{ComponentRef, Dictionary, FieldRef, GroupDef};
use crate::validator::{MAX_SCOPE_DEPTH, MAX_SCOPE_NODES, ValidationError};

const NO_TYPE: u8 = 6;
const NO_COMPONENT: u8 = 7;
const TOO_DEEP: u8 = 8;
const NO_NODE: u8 = 9;
const OVER_A_LIMIT: u8 = 10;

/// The expansion of a message type and the nodes spent, or the refusal.
///
/// # Errors
/// Says where this and the Rust part; limit 10 is not in the Rust.
pub fn expand<'d>(
    dict: &'d Dictionary,
    msg_type: &str,
) -> Result<Result<(Expansion<'d>, usize), Refusal>, String> {
    let met = meet(dict, msg_type);
    let rust = layouts::expand(dict, msg_type);
    match (met, rust) {
        (Err(refusal), _) if refusal.number == OVER_A_LIMIT => Ok(Err(refusal)),
        (Ok(nodes), Ok(expansion)) if expansion.spends(nodes) => Ok(Ok((expansion, nodes))),
        (Err(refusal), Err(refused)) if is_first_error(refusal, &refused) => Ok(Err(refusal)),
        (met, rust) => Err(format!(
            "{msg_type}: {met:?}, but the Rust says {:?}",
            rust.map(|_| "that other nodes are spent")
        )),
    }
}

/// The same without the Rust's word on how many nodes are spent, which costs
/// two expansions more.
///
/// # Errors
/// As above.
pub fn expand_quickly<'d>(
    dict: &'d Dictionary,
    msg_type: &str,
) -> Result<Result<(Expansion<'d>, usize), Refusal>, String> {
    match (meet(dict, msg_type), layouts::expand(dict, msg_type)) {
        (Ok(nodes), Ok(expansion)) => Ok(Ok((expansion, nodes))),
        _ => expand(dict, msg_type),
    }
}

/// Whether a refusal is the first error of the Rust's expansion. For refusal
/// 9 the Rust gives no name.
fn is_first_error(refusal: Refusal, refused: &Refused) -> bool {
    let is_named = |name: &String| refusal.place.to_string() == *name;
    match refused {
        Refused::UnknownMsgType => refusal == Refusal::new(NO_TYPE, 0),
        Refused::Schema(errors) => match errors.first() {
            Some(ValidationError::UnknownComponent { name }) => {
                refusal.number == NO_COMPONENT && is_named(name)
            }
            Some(ValidationError::SchemaTooDeep { name, .. }) => {
                refusal.number == TOO_DEEP && is_named(name)
            }
            Some(ValidationError::SchemaTooLarge { .. }) => refusal.number == NO_NODE,
            _ => false,
        },
    }
}

/// The nodes that a whole expansion spends, or what is met first.
fn meet(dict: &Dictionary, msg_type: &str) -> Result<usize, Refusal> {
    let message = dict.get_message(msg_type).ok_or(Refusal::new(NO_TYPE, 0))?;
    let mut spent = Spent {
        dict,
        nodes: 0,
        members: 0,
        required: 0,
        path: Vec::new(),
    };
    spent.fields(&dict.header, true)?;
    spent.groups(&dict.header_groups, 0)?;
    spent.fields(&dict.trailer, true)?;
    spent.groups(&dict.trailer_groups, 0)?;
    spent.fields(message.fields(), true)?;
    spent.groups(message.groups(), 0)?;
    spent.uses(message.components(), true, 0)?;
    Ok(spent.nodes)
}

/// What an expansion has used up.
struct Spent<'d> {
    dict: &'d Dictionary,
    nodes: usize,
    /// Members and required entries of all levels, before any is dropped.
    members: usize,
    required: usize,
    /// The components that are open.
    path: Vec<&'d str>,
}

impl<'d> Spent<'d> {
    /// A group or a use at that depth: first the depth, then a node.
    fn node(&mut self, name: &str, depth: usize) -> Result<(), Refusal> {
        let refused = |number| Err(Refusal::new(number, number_of(name)));
        if depth > MAX_SCOPE_DEPTH {
            return refused(TOO_DEEP);
        }
        if self.nodes == MAX_SCOPE_NODES {
            return refused(NO_NODE);
        }
        self.nodes += 1;
        Ok(())
    }

    fn member(&mut self) -> Result<(), Refusal> {
        self.members += 1;
        if self.members > MOST_MEMBERS {
            return Err(Refusal::new(OVER_A_LIMIT, 0));
        }
        Ok(())
    }

    /// Fields of a body; `required` says whether theirs counts.
    fn fields(&mut self, fields: &'d [FieldRef], required: bool) -> Result<(), Refusal> {
        for field in fields {
            self.member()?;
            self.required += usize::from(required && field.required);
            if self.required > MOST_REQUIRED {
                return Err(Refusal::new(OVER_A_LIMIT, 0));
            }
        }
        Ok(())
    }

    fn groups(&mut self, groups: &'d [GroupDef], depth: usize) -> Result<(), Refusal> {
        for group in groups {
            self.node(&group.name, depth)?;
            // The count tag in the level around, the delimiter in the entry.
            self.member()?;
            self.member()?;
            self.fields(group.fields(), true)?;
            self.groups(group.groups(), depth + 1)?;
            self.uses(group.components(), true, depth + 1)?;
        }
        Ok(())
    }

    fn uses(
        &mut self,
        uses: &'d [ComponentRef],
        required: bool,
        depth: usize,
    ) -> Result<(), Refusal> {
        for reference in uses {
            let name = reference.name.as_str();
            self.node(name, depth)?;
            let component = self.dict.get_component(name);
            let component = component.ok_or_else(|| Refusal::new(NO_COMPONENT, number_of(name)))?;
            if self.path.contains(&name) {
                continue;
            }
            self.path.push(name);
            let required = required && reference.required;
            self.fields(component.fields(), required)?;
            self.groups(component.groups(), depth + 1)?;
            self.uses(component.components(), required, depth + 1)?;
            self.path.pop();
        }
        Ok(())
    }
}

/// Names are numbers in decimal.
fn number_of(name: &str) -> u64 {
    name.parse().expect("a name that is a number")
}
