//! Copies two files of the Rust, each with what the benchmark wants behind it:
//! the recording visitor in the module of walk.rs, since the words of a set of
//! tags are private to it; and `validate` once more in validator.rs, with the
//! layout given and not expanded anew.

use std::path::PathBuf;
use std::{env, fs};

const RUST: &str = "../docs/src/ironfix-dictionary/src";
const VISITOR: &str = "src/visitor.rs";

fn main() {
    let root = PathBuf::from(env::var("CARGO_MANIFEST_DIR").expect("cargo sets it"));
    let out = PathBuf::from(env::var("OUT_DIR").expect("cargo sets it"));
    // `include!` takes no inner comments.
    let rust = |name: &str| {
        let path = format!("{RUST}/{name}");
        println!("cargo:rerun-if-changed={path}");
        let text = fs::read_to_string(root.join(path)).expect("the Rust is there");
        text.replace("\n//!", "\n//")
    };
    let visitor = fs::read_to_string(root.join(VISITOR)).expect("visitor.rs is there");
    println!("cargo:rerun-if-changed={VISITOR}");
    fs::write(out.join("walk.rs"), rust("walk.rs") + &visitor).expect("OUT_DIR can be written");
    let validator = rust("validator.rs");
    let kept = validate_kept(&validator);
    fs::write(out.join("validator.rs"), validator + &kept).expect("OUT_DIR can be written");
}

/// The body of `validate` with a layout that is given.
fn validate_kept(validator: &str) -> String {
    let first = validator
        .find("    pub fn validate(")
        .expect("validate is there");
    let past = first + validator[first..].find("\n    }\n").expect("it ends") + 7;
    let body = &validator[first..past];
    let (from, to) = (
        body.find("        let (Scope {").expect("it expands"),
        body.find("        let tags = TagResolver")
            .expect("it resolves"),
    );
    let body = format!(
        "{}        let Scope {{ level, envelope }} = scope;\n{}",
        &body[..from],
        &body[to..]
    );
    let body = body
        .replace(
            "pub fn validate(&self, msg: &RawMessage<'_>)",
            "pub(crate) fn validate_kept(&self, msg: &RawMessage<'_>, scope: &Scope)",
        )
        .replace("envelope: &envelope", "envelope")
        .replace("Some((msg_def, body))", "Some((_, body))");
    format!(
        "\n// ---- behind this line: `validate` with a layout that is given, put here by bench/build.rs\n\nimpl Validator<'_> {{\n{body}}}\n"
    )
}
