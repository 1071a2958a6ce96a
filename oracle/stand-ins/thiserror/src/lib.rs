//! Stand-in for thiserror: `derive(Error)`, which writes `Display` from the
//! `#[error("..")]` texts and an empty `std::error::Error`.
//!
//! It knows the forms that the Rust uses: an enum whose variants have named
//! fields, unnamed fields or none, and a struct with unnamed fields; no
//! generics, no `transparent`, no `source`, no arguments behind the text.

use proc_macro::{Delimiter, Group, TokenStream, TokenTree};

/// A struct or a variant: its name, its text and its fields.
struct Case {
    name: String,
    text: Option<TokenTree>,
    fields: Fields,
}

enum Fields {
    None,
    Named(Vec<String>),
    Unnamed(usize),
}

#[proc_macro_derive(Error, attributes(error))]
pub fn error(item: TokenStream) -> TokenStream {
    let mut tokens = item.into_iter().peekable();
    let mut text = None;
    while let Some(token) = tokens.next() {
        match &token {
            TokenTree::Punct(punct) if punct.as_char() == '#' => {
                if let Some(TokenTree::Group(attribute)) = tokens.next() {
                    text = error_text(&attribute).or(text);
                }
            }
            TokenTree::Ident(word) if word.to_string() == "struct" => {
                let name = tokens.next().expect("a name behind `struct`").to_string();
                let fields = match tokens.next() {
                    Some(TokenTree::Group(body)) => fields_of(&body),
                    _ => Fields::None,
                };
                let own = Case {
                    name: "Self".to_string(),
                    text,
                    fields,
                };
                return implement(&name, &[own], "");
            }
            TokenTree::Ident(word) if word.to_string() == "enum" => {
                let name = tokens.next().expect("a name behind `enum`").to_string();
                let Some(TokenTree::Group(body)) = tokens.next() else {
                    panic!("no body behind `enum {name}`");
                };
                return implement(&name, &cases_of(&body), "Self::");
            }
            _ => {}
        }
    }
    panic!("neither a struct nor an enum");
}

/// The text in `[error("..")]`, or nothing for another attribute.
fn error_text(attribute: &Group) -> Option<TokenTree> {
    let mut tokens = attribute.stream().into_iter();
    match (tokens.next(), tokens.next()) {
        (Some(TokenTree::Ident(word)), Some(TokenTree::Group(argument)))
            if word.to_string() == "error" =>
        {
            argument.stream().into_iter().next()
        }
        _ => None,
    }
}

/// The variants of an enum's body.
fn cases_of(body: &Group) -> Vec<Case> {
    let mut cases = Vec::new();
    let mut text = None;
    let mut tokens = body.stream().into_iter().peekable();
    while let Some(token) = tokens.next() {
        match token {
            TokenTree::Punct(punct) if punct.as_char() == '#' => {
                if let Some(TokenTree::Group(attribute)) = tokens.next() {
                    text = error_text(&attribute).or(text);
                }
            }
            TokenTree::Ident(name) => {
                let fields = match tokens.peek() {
                    Some(TokenTree::Group(body)) => fields_of(body),
                    _ => Fields::None,
                };
                cases.push(Case {
                    name: name.to_string(),
                    text: text.take(),
                    fields,
                });
            }
            _ => {}
        }
    }
    cases
}

/// The fields of a struct or a variant.
fn fields_of(body: &Group) -> Fields {
    if body.delimiter() == Delimiter::Brace {
        Fields::Named(named_fields(body))
    } else {
        Fields::Unnamed(unnamed_fields(body))
    }
}

/// The names before a single colon.
fn named_fields(body: &Group) -> Vec<String> {
    let mut names = Vec::new();
    let mut last = None;
    let mut in_type = false;
    for token in body.stream() {
        match token {
            TokenTree::Punct(punct) if punct.as_char() == ',' => in_type = false,
            TokenTree::Punct(punct) if punct.as_char() == ':' && !in_type => {
                names.extend(last.take());
                in_type = true;
            }
            TokenTree::Ident(name) if !in_type => last = Some(name.to_string()),
            _ => {}
        }
    }
    names
}

/// The number of parts between commas.
fn unnamed_fields(body: &Group) -> usize {
    let mut parts = 0;
    let mut open = false;
    for token in body.stream() {
        let comma = matches!(&token, TokenTree::Punct(punct) if punct.as_char() == ',');
        if !comma && !open {
            parts += 1;
        }
        open = !comma;
    }
    parts
}

/// `Display` and `std::error::Error` for `name`.
fn implement(name: &str, cases: &[Case], prefix: &str) -> TokenStream {
    let mut arms = String::new();
    for case in cases {
        let Case {
            name: variant,
            text,
            fields,
        } = case;
        let text = text
            .as_ref()
            .unwrap_or_else(|| panic!("{name}: {variant} has no text"));
        let arm = match fields {
            Fields::None => format!("{prefix}{variant} => write!(f, {text}),"),
            Fields::Named(names) => format!(
                "{prefix}{variant} {{ {} }} => write!(f, {text}),",
                names.join(", ")
            ),
            Fields::Unnamed(count) => {
                let parts: Vec<String> = (0..*count).map(|part| format!("part{part}")).collect();
                let parts = parts.join(", ");
                format!("{prefix}{variant}({parts}) => write!(f, {text}, {parts}),")
            }
        };
        arms.push_str(&arm);
    }
    let code = format!(
        "impl ::std::fmt::Display for {name} {{
            #[allow(unused_variables)]
            fn fmt(&self, f: &mut ::std::fmt::Formatter<'_>) -> ::std::fmt::Result {{
                match self {{ {arms} }}
            }}
        }}
        impl ::std::error::Error for {name} {{}}"
    );
    code.parse().expect("the code written here parses")
}
