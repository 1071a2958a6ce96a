//! The messages of bindings/c/tests: `Gate::judge` says of each what bindings/c/judge.c says of it.

use order_gate::{Error, Gate, Separator};
use std::ffi::OsStr;
use std::fs;
use std::path::{Path, PathBuf};

fn folder() -> PathBuf {
    PathBuf::from(env!("CARGO_MANIFEST_DIR")).join("../c/tests")
}

/// The lines that judge.c prints of a message.
fn judged(gate: &mut Gate, number: usize, message: &[u8]) -> Vec<String> {
    let stop = |reason: String| format!("message {number}: stop: {reason}");
    match gate.judge(message) {
        Ok(judgement) if judgement.passes() => vec![format!("message {number}: pass")],
        Ok(judgement) => judgement.reasons().map(|reason| stop(reason.to_string())).collect(),
        Err(Error::Refused(refusal)) => {
            let (number, place) = (refusal.number(), refusal.place());
            vec![stop(format!("the message type: refused with {number}, place {place}:"))]
        }
        Err(error) => vec![stop(error.to_string())],
    }
}

fn compare(messages: &Path, separator: Separator) {
    let dictionary = fs::read(folder().join("order.dict")).expect("a dictionary");
    let mut gate = Gate::new(&dictionary).expect("an accepted text").with_separator(separator);
    let input = fs::read(messages).expect("messages");
    let stored = fs::read_to_string(messages.with_extension(format!(
        "{}.out",
        messages.extension().and_then(OsStr::to_str).expect("an extension")
    )));
    let stored = stored.expect("stored output");
    let mut expected = stored.lines().filter(|line| line.starts_with("message "));
    for (index, line) in input.split_inclusive(|byte| *byte == b'\n').enumerate() {
        let Some(message) = line.strip_suffix(b"\n") else {
            // What a missing line feed means is for who reads lines.
            assert!(expected.next().is_some_and(|line| line.ends_with("may be cut short")));
            continue;
        };
        for line in judged(&mut gate, index + 1, message) {
            let stored = expected.next().unwrap_or("nothing");
            // judge.c puts the refusal in its own words after the colon.
            let same =
                stored == line || line.contains(" refused with ") && stored.starts_with(&line);
            assert!(same, "{}: stored {stored}, here {line}", messages.display());
        }
    }
    assert_eq!(expected.next(), None, "{}", messages.display());
}

#[test]
fn each_message_is_judged_as_by_judge_c() {
    let (mut soh, mut pipe) = (0, 0);
    for entry in fs::read_dir(folder()).expect("the folder of the C tests") {
        let path = entry.expect("an entry").path();
        match path.extension().and_then(OsStr::to_str) {
            Some("soh") => {
                compare(&path, Separator::Soh);
                soh += 1;
            }
            Some("pipe") => {
                compare(&path, Separator::Pipe);
                pipe += 1;
            }
            _ => {}
        }
    }
    assert!(soh >= 2 && pipe >= 10, "{soh} and {pipe} files of messages");
}
