//! Stand-in for the Rust's composition.rs: a pair of dictionaries. The oracle
//! never makes one, since one dictionary serves as transport and application.

use crate::schema::Dictionary;

#[derive(Debug, Clone, Copy)]
pub struct SessionDictionary<'d> {
    transport: &'d Dictionary,
    application: &'d Dictionary,
}

impl<'d> SessionDictionary<'d> {
    pub const fn transport(&self) -> &'d Dictionary {
        self.transport
    }

    pub const fn application(&self) -> &'d Dictionary {
        self.application
    }
}
