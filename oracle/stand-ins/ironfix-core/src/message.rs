//! Stand-in for `ironfix_core::message`: a message type and a field list,
//! given and not decoded.

use crate::field::FieldRef;

/// The value of MsgType (35).
#[derive(Debug, Clone, PartialEq, Eq)]
pub struct MsgType(String);

impl MsgType {
    pub fn as_str(&self) -> &str {
        &self.0
    }
}

/// A message: its type and its fields in their order.
#[derive(Debug, Clone)]
pub struct RawMessage<'a> {
    msg_type: MsgType,
    fields: Vec<FieldRef<'a>>,
}

impl<'a> RawMessage<'a> {
    pub fn new(msg_type: &str, fields: Vec<FieldRef<'a>>) -> Self {
        Self {
            msg_type: MsgType(msg_type.to_string()),
            fields,
        }
    }

    pub fn msg_type(&self) -> &MsgType {
        &self.msg_type
    }

    pub fn field_slice(&self) -> &[FieldRef<'a>] {
        &self.fields
    }
}
