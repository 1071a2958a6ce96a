//! Reading a dictionary text beside the plain reader of the oracle, and the
//! expansion of a message type beside `ScopeBuilder::expand`.

use crate::beside::{Comparison, Maker, side};
use crate::layouts::{self, PlainLevel};
use crate::schema::Dictionary;
use crate::{arrangement, dictionary_words, reader, texts};
use std::fmt::Write;
use std::hint::black_box;

const ORDERS: &[u8] = include_bytes!("../../examples/fix44/new-order-single.dict");
const ALLOCATIONS: &[u8] = include_bytes!("../../examples/fix44/allocation-instruction.dict");
const ALL: &[u8] = include_bytes!("../../examples/fix44/fix44.dict");

/// So many definitions, their tags in no order, and so many header fields.
fn dictionary_text(definitions: u32, fields: u32) -> Vec<u8> {
    let tag = |number: u32| 1 + number.wrapping_mul(7_919) % 65_521;
    let mut text = String::new();
    for number in 0..definitions {
        let _ = writeln!(text, "def={},String", tag(number));
    }
    text.push_str("begin=header\n");
    for number in 0..fields {
        let _ = writeln!(text, "field={},0", number % 10);
    }
    text.push_str("end=header\nbegin=trailer\nend=trailer\n");
    text.into_bytes()
}

fn reading(name: &str, text: &[u8]) -> Comparison<'static> {
    let text: &'static [u8] = text.to_vec().leak();
    let lines = reader::dictionary(text).expect("an accepted text");
    let words: &'static [u32] = dictionary_words::words(&lines).leak();
    let mut space = vec![0; words.len()];
    assert_eq!(
        order_gate::read_dictionary(text, &mut space),
        Ok(words.len())
    );
    assert_eq!(space, words);
    Comparison {
        title: format!(
            "{name}: {} bytes, {} lines, {} words",
            text.len(),
            lines.len(),
            words.len()
        ),
        unit: "line",
        units: lines.len(),
        sides: vec![
            side("plain reader and words", move || {
                let lines = reader::dictionary(black_box(text)).expect("an accepted text");
                black_box(dictionary_words::words(&lines));
            }),
            side("read_dictionary", move || {
                let _ = black_box(order_gate::read_dictionary(black_box(text), &mut space));
            }),
            side("is_dictionary alone", move || {
                let _ = black_box(order_gate::verdicts(
                    black_box(words),
                    &[],
                    b"",
                    false,
                    &mut [],
                ));
            }),
        ],
    }
}

fn expansion(text: &'static [u8], msg_type: &'static str) -> Comparison<'static> {
    let lines = reader::dictionary(text).expect("an accepted text");
    let words = dictionary_words::words(&lines);
    let dict: &'static Dictionary =
        Box::leak(Box::new(texts::dictionary(text).expect("an accepted text")));
    let Ok(expansion) = layouts::expand(dict, msg_type) else {
        unreachable!("the type has a layout");
    };
    let layout = arrangement::words(&PlainLevel::from(&expansion.level));
    let mut space = vec![0; layout.len()];
    let expanded = order_gate::expand(&words, msg_type.as_bytes(), &mut space);
    assert_eq!(expanded.map(|expanded| expanded.words), Ok(layout.len()));
    assert_eq!(space, layout);
    Comparison {
        title: format!(
            "expansion of {msg_type}: {} dictionary words, {} layout words",
            words.len(),
            layout.len()
        ),
        unit: "call",
        units: 1,
        sides: vec![
            side("ScopeBuilder::expand", move || {
                black_box(layouts::expand(black_box(dict), msg_type).is_ok());
            }),
            side("expand", move || {
                let _ = black_box(order_gate::expand(
                    black_box(&words),
                    msg_type.as_bytes(),
                    &mut space,
                ));
            }),
        ],
    }
}

pub fn comparisons() -> Vec<Maker> {
    vec![
        Box::new(|| reading("dictionary of FIX 4.4 orders", ORDERS)),
        Box::new(|| reading("dictionary of three FIX 4.4 types", ALL)),
        Box::new(|| {
            reading(
                "1,500 definitions, 3,300 fields",
                &dictionary_text(1_500, 3_300),
            )
        }),
        Box::new(|| reading("1 definition, 5,900 fields", &dictionary_text(1, 5_900))),
        Box::new(|| reading("3,800 definitions", &dictionary_text(3_800, 0))),
        Box::new(|| expansion(ORDERS, "D")),
        Box::new(|| expansion(ALLOCATIONS, "J")),
        Box::new(|| expansion(ALL, "D")),
        Box::new(|| expansion(ALL, "J")),
        Box::new(|| expansion(ALL, "W")),
    ]
}
