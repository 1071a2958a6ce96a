//! Stand-in for serde: the two derives that schema.rs names. They expand to
//! nothing and accept the `#[serde(..)]` attributes, since serialized
//! dictionaries are no part of what the oracle compares.

use proc_macro::TokenStream;

#[proc_macro_derive(Serialize, attributes(serde))]
pub fn serialize(_item: TokenStream) -> TokenStream {
    TokenStream::new()
}

#[proc_macro_derive(Deserialize, attributes(serde))]
pub fn deserialize(_item: TokenStream) -> TokenStream {
    TokenStream::new()
}
