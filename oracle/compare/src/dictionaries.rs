//! Dictionary texts and layout texts made up, whole and damaged, small and at
//! the limits of document 01.

use oracle::lines::TYPE_NAMES;
use oracle::numbers::Numbers;
use oracle::reader::LONGEST_TEXT;
use oracle::{expansion_cases, text_cases};

/// The tags that definitions, fields and groups have.
pub const TAGS: u64 = 16;

/// The admitted values that definitions have.
const ADMITTED: [&str; 12] = [
    "A", "B", "D", "1", "2", "007", "Y", "N", "20240229", "=", "1,2", "~!abcdefghijklmnopqrstuvwxyz1234",
];

pub fn dictionary_text(numbers: &mut Numbers) -> Vec<u8> {
    if numbers.once_in(40) {
        return at_a_limit(numbers);
    }
    let mut text = if numbers.once_in(4) {
        text_cases::random_dictionary(numbers)
    } else {
        whole_dictionary(numbers)
    };
    if numbers.once_in(4) {
        text_cases::damage_lines(numbers, &mut text, text_cases::DICTIONARY_LINES);
    }
    bytes(numbers, &text)
}

/// The lines of a text, at times with a byte exchanged, out or in.
fn bytes(numbers: &mut Numbers, lines: &[String]) -> Vec<u8> {
    let mut text: Vec<u8> = lines.iter().flat_map(|line| format!("{line}\n").into_bytes()).collect();
    if numbers.once_in(8) && !text.is_empty() {
        let place = numbers.place(text.len());
        let byte = *numbers.pick(b"0123456789=,\n\r\0A~\x7f\x80\xff ");
        match numbers.below(4) {
            0 => text[place] = byte,
            1 => text.insert(place, byte),
            2 => text.truncate(place),
            _ => {
                text.remove(place);
            }
        }
    }
    text
}

/// Definitions of some tags, bodies that use up to six components.
fn whole_dictionary(numbers: &mut Numbers) -> Vec<String> {
    let mut text = Vec::new();
    for tag in (0..TAGS).chain([35]) {
        if numbers.once_in(4) {
            continue;
        }
        text.push(format!("def={tag},{}", numbers.pick(&TYPE_NAMES)));
        if numbers.once_in(3) {
            for _ in 0..numbers.below(4) {
                text.push(format!("value={}", numbers.pick(&ADMITTED)));
            }
        }
    }
    if numbers.once_in(2) {
        shuffle_definitions(numbers, &mut text);
    }
    let defined = numbers.below(7);
    let used = defined + u64::from(numbers.once_in(6));
    for name in ["header", "trailer"] {
        text.push(format!("begin={name}"));
        expansion_cases::random_body(numbers, 1, used, false, &mut text);
        text.push(format!("end={name}"));
    }
    for name in 1..=defined {
        text.push(format!("component={name}"));
        expansion_cases::random_body(numbers, 1, used, true, &mut text);
        text.push(format!("end={name}"));
    }
    for name in ["D", "8", "AE", "zz9Z"].iter().take(1 + numbers.place(4)) {
        text.push(format!("message={name},{}", numbers.pick(&["app", "admin"])));
        expansion_cases::random_body(numbers, 3, used, true, &mut text);
        text.push(format!("end={name}"));
    }
    text
}

/// Definitions in another order, each with its values.
fn shuffle_definitions(numbers: &mut Numbers, text: &mut Vec<String>) {
    let mut blocks: Vec<Vec<String>> = Vec::new();
    for line in text.drain(..) {
        match blocks.last_mut() {
            Some(block) if line.starts_with("value=") => block.push(line),
            _ => blocks.push(vec![line]),
        }
    }
    for place in (1..blocks.len()).rev() {
        blocks.swap(place, numbers.place(place + 1));
    }
    text.extend(blocks.into_iter().flatten());
}

const ENVELOPE: &str = "begin=header\nend=header\nbegin=trailer\nend=trailer\n";

/// A text at a limit, or one more or less.
fn at_a_limit(numbers: &mut Numbers) -> Vec<u8> {
    let about = |numbers: &mut Numbers, limit: usize| limit - 1 + numbers.place(3);
    match numbers.below(6) {
        0 => {
            // So many bytes: definitions of nothing but their tags.
            let size = about(numbers, LONGEST_TEXT);
            let mut text = String::new();
            let mut tag = 1_000_000_000u64;
            while text.len() + ENVELOPE.len() + 60 < size {
                text.push_str(&format!("def={tag},Int\n"));
                tag += 1 + numbers.below(3);
            }
            let rest = size - text.len() - ENVELOPE.len() - 7;
            let (first, second) = (rest.min(32), rest.saturating_sub(32));
            text.push_str(&format!("value={}\n", "x".repeat(first.max(1))));
            if second > 7 {
                text.push_str(&format!("value={}\n", "y".repeat((second - 7).min(32))));
            }
            text.push_str(ENVELOPE);
            text.into_bytes()
        }
        1 => {
            // Open group blocks, which are depths too.
            let depth = *numbers.pick(&[32, 33, 34, 39, 40, 41]);
            let opened: String = (1..=depth).map(|tag| format!("group={tag},99,1\n")).collect();
            let closed: String = (1..=depth).rev().map(|tag| format!("end={tag}\n")).collect();
            format!("{ENVELOPE}message=D,app\n{opened}{closed}end=D\n").into_bytes()
        }
        2 => {
            // Nodes: 63 uses of a component with 64 uses.
            let more = about(numbers, 1);
            let uses = "use=2,1\n".repeat(64);
            let body = "use=1,1\n".repeat(63) + &"use=2,0\n".repeat(more);
            format!("{ENVELOPE}component=1\n{uses}end=1\ncomponent=2\nend=2\nmessage=D,app\n{body}end=D\n").into_bytes()
        }
        3 => {
            // Members: 64 uses of a component with 128 fields.
            let more = about(numbers, 1);
            let fields: String = (1..=128).map(|tag| format!("field={tag},0\n")).collect();
            let own: String = (1..=more).map(|tag| format!("field={tag},0\n")).collect();
            let body = own + &"use=1,1\n".repeat(if more == 0 { 64 } else { 63 + numbers.place(2) });
            format!("{ENVELOPE}component=1\n{fields}end=1\nmessage=D,app\n{body}end=D\n").into_bytes()
        }
        4 => {
            // Required entries: 32 uses of a component with 64 of them.
            let more = about(numbers, 1);
            let fields: String = (1..=64).map(|tag| format!("field={tag},1\n")).collect();
            let own: String = (1..=more).map(|tag| format!("field={tag},1\n")).collect();
            format!("{ENVELOPE}component=1\n{fields}end=1\nmessage=D,app\n{own}{}end=D\n", "use=1,1\n".repeat(32)).into_bytes()
        }
        _ => {
            // Components that use each other, in a chain and in a ring.
            let length = about(numbers, 33);
            let ring = numbers.once_in(2);
            let mut text = ENVELOPE.to_string();
            for name in 1..=length {
                let next = if name < length { name + 1 } else if ring { 1 } else { 77 };
                let used = if name < length || ring || numbers.once_in(2) { format!("use={next},1\n") } else { String::new() };
                text.push_str(&format!("component={name}\nfield={name},1\n{used}end={name}\n"));
            }
            text.push_str("message=D,app\nuse=1,1\nend=D\n");
            text.into_bytes()
        }
    }
}

pub fn layout_text(numbers: &mut Numbers) -> Vec<u8> {
    if numbers.once_in(60) {
        return layout_at_a_limit(numbers);
    }
    let mut text = Vec::new();
    let depth = numbers.below(5);
    text_cases::random_level(numbers, depth, &mut text);
    if numbers.once_in(4) {
        text_cases::damage_lines(numbers, &mut text, text_cases::LAYOUT_LINES);
    }
    bytes(numbers, &text)
}

fn layout_at_a_limit(numbers: &mut Numbers) -> Vec<u8> {
    match numbers.below(3) {
        0 => "required=1\n".repeat(2_047 + numbers.place(3)).into_bytes(),
        1 => {
            let depth = *numbers.pick(&[33, 34, 39, 40, 41]);
            let opened: String = (1..=depth).map(|tag| format!("member={tag}\ngroup={tag},{},1\n", tag + 1)).collect();
            let closed: String = (1..=depth).rev().map(|tag| format!("end={tag}\n")).collect();
            format!("{opened}member={}\n{closed}", depth + 1).into_bytes()
        }
        _ => {
            let size = LONGEST_TEXT - 1 + numbers.place(3);
            let mut text: String = (0..).map(|tag| format!("member={tag}\n")).take(4_000).collect();
            while text.len() + 30 < size {
                text.push_str("required=1234567890\n");
            }
            text.push_str(&format!("required={}\n", "1".repeat(size - text.len() - 10)));
            text.into_bytes()
        }
    }
}
