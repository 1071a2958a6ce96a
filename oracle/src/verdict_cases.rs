//! The verdicts of the recorded list, always the same and in the same order:
//! dictionaries, and messages whose values are judged.

use crate::cases;
use crate::dictionary_words;
use crate::hex;
use crate::lines::DictionaryLine;
use crate::numbers::Numbers;
use crate::reader;
use crate::schema::FieldType;
use crate::values::{self, FIELD_TYPES};
use crate::walk_cases::decimals;
use std::fmt::Write;

/// A field: its tag and its value.
type Field = (u32, Vec<u8>);

/// The most fields of a message of the list, and the most bytes of its
/// values: so that no line is too long.
const MOST_FIELDS: usize = 1_500;
const MOST_BYTES: usize = 24_000;

/// A list of dictionaries and messages.
#[derive(Default)]
struct Cases {
    text: String,
}

impl Cases {
    /// A dictionary and the values judged by it, in as many messages as they
    /// need: each with a `plain` and a `strict` line.
    fn add(&mut self, title: &str, dictionary: &[u8], fields: &[Field]) {
        let lines = reader::dictionary(dictionary).expect("an accepted dictionary text");
        if !title.is_empty() {
            let _ = writeln!(self.text, "# {title}");
        }
        let words = dictionary_words::words(&lines);
        let _ = writeln!(self.text, "dictionary {}", decimals(&words));
        let mut message = Vec::new();
        let mut rows: Vec<[u32; 3]> = Vec::new();
        for (tag, value) in fields {
            if rows.len() == MOST_FIELDS || message.len() + value.len() > MOST_BYTES {
                self.message(&message, &rows);
                message.clear();
                rows.clear();
            }
            let first = message.len() as u32;
            message.extend_from_slice(value);
            rows.push([*tag, first, message.len() as u32]);
        }
        self.message(&message, &rows);
    }

    fn message(&mut self, message: &[u8], rows: &[[u32; 3]]) {
        let _ = writeln!(self.text, "message {}", hex::encode(message));
        let rows = decimals(rows.as_flattened());
        let _ = writeln!(self.text, "{}", format!("fields {rows}").trim_end());
        self.text.push_str("plain\nstrict\n");
    }
}

/// All verdicts.
pub fn verdict_cases() -> String {
    let mut cases = Cases::default();
    examples(&mut cases);
    types(&mut cases);
    dates(&mut cases);
    long_values(&mut cases);
    tokens(&mut cases);
    random_dictionaries(&mut cases);
    cases.text
}

/// The lines of definitions, parted by spaces, before an empty header and
/// trailer.
fn definitions(text: &str) -> Vec<u8> {
    let envelope = "begin=header end=header begin=trailer end=trailer";
    let lines = format!("{text} {envelope}");
    let lines = lines.split_whitespace();
    lines
        .flat_map(|line| format!("{line}\n").into_bytes())
        .collect()
}

fn field(tag: u32, value: impl AsRef<[u8]>) -> Field {
    (tag, value.as_ref().to_vec())
}

// ---- the worked example and the dictionaries of examples/

fn examples(cases: &mut Cases) {
    cases.add(
        "the worked example",
        &definitions("def=35,String def=448,String def=447,Char value=D def=453,NumInGroup"),
        &[
            field(35, "D"),
            field(453, "2"),
            field(448, "A"),
            field(447, "D"),
            field(448, "B"),
        ],
    );
    cases.add("no fields", &definitions("def=35,String"), &[]);
    cases.add(
        "no definitions",
        &definitions(""),
        &[field(0, ""), field(35, "D")],
    );
    let fix44 = "examples/fix44, messages";
    let messages: [(&str, &[u8], &[u8]); 4] = [
        (
            fix44,
            include_bytes!("../../examples/fix44/new-order-single.dict"),
            include_bytes!("../../examples/fix44/new-order-single.msg"),
        ),
        (
            fix44,
            include_bytes!("../../examples/fix44/allocation-instruction.dict"),
            include_bytes!("../../examples/fix44/allocation-instruction.msg"),
        ),
        (
            fix44,
            include_bytes!("../../examples/fix44/market-data-snapshot.dict"),
            include_bytes!("../../examples/fix44/market-data-snapshot.msg"),
        ),
        (
            "examples/block-order",
            include_bytes!("../../examples/block-order/block-order.dict"),
            include_bytes!("../../examples/block-order/whole.msg"),
        ),
    ];
    for (title, dictionary, message) in messages {
        let rows = reader::message(message).expect("an accepted message");
        let fields: Vec<Field> = rows
            .iter()
            .map(|&[tag, first, past]| field(tag, &message[first as usize..past as usize]))
            .collect();
        cases.add(title, dictionary, &fields);
    }
    let dictionary = include_bytes!("../../examples/fix44/fix44.dict");
    cases.add(
        "examples/fix44, around each definition's values",
        dictionary,
        &around(dictionary, 1),
    );
}

/// For each definition of a dictionary every `step`th of its admitted values
/// and values beside them, and for one without admitted values a few of its
/// type; then tags that may not be defined.
fn around(dictionary: &[u8], step: usize) -> Vec<Field> {
    let lines = reader::dictionary(dictionary).expect("an accepted dictionary text");
    let mut fields = Vec::new();
    let mut tag = 0;
    for (place, line) in lines.iter().enumerate() {
        match *line {
            DictionaryLine::Definition(defined, field_type) => {
                tag = defined;
                fields.push(field(tag, ""));
                for value in cases::examples(field_type) {
                    fields.push(field(tag, value));
                }
                fields.push(field(tag + 1, "1"));
            }
            DictionaryLine::Value(value) if place % step == 0 => {
                for beside in [
                    value.to_string(),
                    format!("{value}0"),
                    value[1..].to_string(),
                    format!("{value} {value}"),
                    value.to_lowercase(),
                ] {
                    fields.push(field(tag, beside));
                }
            }
            _ => {}
        }
    }
    fields
}

// ---- types

/// Each type without admitted values and with some, and values of all types.
fn types(cases: &mut Cases) {
    let mut lines = Vec::new();
    for (number, field_type) in FIELD_TYPES.into_iter().enumerate() {
        let name = values::name_of(field_type);
        lines.push(format!("def={number},{name}"));
        lines.push(format!("def={},{name}", 100 + number));
        for value in [
            "0", "1", "A", "Y", "1.", "-0", "31", "US", "USD", "20240229",
        ] {
            lines.push(format!("value={value}"));
        }
        for value in cases::examples(field_type) {
            if !value.contains(' ') {
                lines.push(format!("value={value}"));
            }
        }
    }
    let fields: Vec<Field> = cases::value_cases()
        .into_iter()
        .enumerate()
        .filter(|(place, (_, value))| place % 7 == 0 && value.len() < 64)
        .flat_map(|(_, (field_type, value))| {
            let number = values::number_of(field_type) as u32;
            [(number, value.clone()), (100 + number, value)]
        })
        .collect();
    cases.add(
        "each type, with admitted values and without",
        &definitions(&lines.join(" ")),
        &fields,
    );
}

/// The types that strict mode looks at, without admitted values, with some
/// that are in range and with some that are not.
fn dates(cases: &mut Cases) {
    let asked: [(FieldType, &[&str]); 5] = [
        (
            FieldType::MonthYear,
            &[
                "202412", "202413", "20241301", "20240131", "20240132", "202413w5", "202400w1",
                "202401w6",
            ],
        ),
        (
            FieldType::UtcDateOnly,
            &["20241231", "20241301", "20240100", "20240132", "2024010"],
        ),
        (
            FieldType::LocalMktDate,
            &["20241231", "20241301", "20240100", "20240132", "2024010"],
        ),
        (
            FieldType::UtcTimeOnly,
            &[
                "23:59:60",
                "24:00:00",
                "00:60:00",
                "00:00:61",
                "23:59:59.999",
                "24:00:00.5",
                "00:00",
            ],
        ),
        (
            FieldType::UtcTimestamp,
            &[
                "20241231-23:59:60",
                "20241301-00:00:00",
                "20240101-24:00:00",
                "20240100-00:00:00",
                "20240101-00:60:00",
                "20240101-00:00:61.1",
                "20240101",
            ],
        ),
    ];
    let mut lines = Vec::new();
    let mut fields = Vec::new();
    for (place, (field_type, texts)) in asked.into_iter().enumerate() {
        let tag = 10 * place as u32;
        let name = values::name_of(field_type);
        lines.push(format!("def={tag},{name}"));
        lines.push(format!("def={},{name} value={}", tag + 1, texts[0]));
        lines.push(format!(
            "def={},{name} value={} value={}",
            tag + 2,
            texts[1],
            texts[2]
        ));
        for text in texts {
            fields.extend((tag..tag + 4).map(|tag| field(tag, text)));
        }
        for (_, value) in cases::value_cases()
            .into_iter()
            .filter(|(asked, _)| *asked == field_type)
        {
            fields.push((tag, value));
        }
    }
    cases.add(
        "strict mode's types, with admitted values in and out of range",
        &definitions(&lines.join(" ")),
        &fields,
    );
}

// ---- admitted values

/// Values of up to 33 bytes that differ in one place, and bytes that no
/// admitted value has.
fn long_values(cases: &mut Cases) {
    let letters = "ABCDEFGHIJKLMNOPQRSTUVWXYZabcdefg";
    let mut lines = vec!["def=1,String".to_string()];
    for len in [1, 3, 4, 5, 8, 16, 31, 32] {
        lines.push(format!("value={}", &letters[..len]));
    }
    lines.push(
        "def=2,String value==,~! def=3,Char value=! value=~ def=4,Data value=FFFD".to_string(),
    );
    let mut fields = Vec::new();
    for len in 0..=33 {
        fields.push(field(1, &letters[..len]));
        for place in 0..len {
            let mut other = letters.as_bytes()[..len].to_vec();
            other[place] ^= 0x20;
            fields.push((1, other));
        }
    }
    for bytes in [
        "A\0",
        "\0A",
        "A ",
        " A",
        "A\n",
        "A\u{7f}",
        "\u{fffd}",
        "A\u{fffd}",
        "\u{e9}",
        "A\u{e9}",
        "=,~!",
        "=,~",
    ] {
        fields.extend((1..5).map(|tag| field(tag, bytes)));
    }
    for bytes in [
        &b"\xff"[..],
        b"A\xff",
        b"\xffA",
        b"\xe2\x82",
        b"A\xe2\x82",
        b"\xc1",
        b"\xc0\x80",
        b"\xed\xa0\x80",
        b"!",
        b"~",
        b"\x7f",
        b" ",
        b"\x20\x21",
    ] {
        fields.extend((1..5).map(|tag| field(tag, bytes)));
    }
    cases.add(
        "admitted values of 1 to 32 bytes, and values beside them",
        &definitions(&lines.join(" ")),
        &fields,
    );
}

/// Lists of tokens, of which some are admitted and some are not.
fn tokens(cases: &mut Cases) {
    let dictionary = definitions(
        "def=1,MultipleCharValue value=A value=B value=1 def=2,MultipleStringValue value=A value=AB value=ABC \
         def=3,MultipleCharValue def=4,MultipleStringValue def=5,String value=A value=AB \
         def=6,MultipleCharValue value=AB def=7,MultipleStringValue value=B",
    );
    let tokens: [&[u8]; 9] = [
        b"A",
        b"B",
        b"AB",
        b"C",
        b"",
        b"ABC",
        b"\xff",
        b"\xe2\x82",
        "\u{e9}".as_bytes(),
    ];
    let mut lists: Vec<Vec<u8>> = tokens.iter().map(|token| token.to_vec()).collect();
    for first in tokens {
        for second in tokens {
            lists.push([first, second].join(&b' '));
            for third in [&b"A"[..], b"C", b""] {
                lists.push([first, second, third].join(&b' '));
            }
        }
    }
    let fields: Vec<Field> = lists
        .iter()
        .flat_map(|list| (1..9).map(move |tag| field(tag, list)))
        .collect();
    cases.add("lists of tokens", &dictionary, &fields);
}

// ---- dictionaries made up

/// Definitions of any tag and type with up to six admitted values, and values
/// that are admitted, nearly so, or of any bytes.
fn random_dictionaries(cases: &mut Cases) {
    let mut numbers = Numbers::new(17);
    let all = cases::value_cases();
    for _ in 0..120 {
        let mut lines = Vec::new();
        let mut defined: Vec<(u32, Vec<String>)> = Vec::new();
        for _ in 0..1 + numbers.below(12) {
            let tag = random_tag(&mut numbers);
            if defined.iter().any(|(other, _)| *other == tag) {
                continue;
            }
            let field_type = *numbers.pick(&FIELD_TYPES);
            lines.push(format!("def={tag},{}", values::name_of(field_type)));
            let mut admitted = Vec::new();
            for _ in 0..numbers.below(7) {
                let value = random_value(&mut numbers, field_type);
                lines.push(format!("value={value}"));
                admitted.push(value);
            }
            defined.push((tag, admitted));
        }
        let mut fields = Vec::new();
        for _ in 0..60 {
            let (tag, admitted) = numbers.pick(&defined).clone();
            let tag = if numbers.once_in(12) {
                random_tag(&mut numbers)
            } else {
                tag
            };
            let value = match numbers.below(5) {
                0 | 1 if !admitted.is_empty() => {
                    let mut parts = vec![numbers.pick(&admitted).clone()];
                    while numbers.once_in(3) {
                        parts.push(numbers.pick(&admitted).clone());
                    }
                    parts.join(" ").into_bytes()
                }
                2 if !admitted.is_empty() => {
                    let mut value = numbers.pick(&admitted).clone().into_bytes();
                    let place = numbers.place(value.len());
                    value[place] = numbers.below(256) as u8;
                    value
                }
                _ => numbers.pick(&all).1.clone(),
            };
            fields.push((tag, value));
        }
        cases.add("", &definitions(&lines.join(" ")), &fields);
    }
}

fn random_tag(numbers: &mut Numbers) -> u32 {
    match numbers.below(8) {
        0 => u32::MAX - numbers.below(3) as u32,
        1 => numbers.below(1 << 32) as u32,
        _ => numbers.below(30) as u32,
    }
}

/// An example of the type without spaces, or visible bytes.
fn random_value(numbers: &mut Numbers, field_type: FieldType) -> String {
    let examples = cases::examples(field_type);
    if !examples.is_empty() && !numbers.once_in(3) {
        return numbers
            .pick(examples)
            .split(' ')
            .next()
            .unwrap_or("A")
            .to_string();
    }
    let len = if numbers.once_in(4) {
        1 + numbers.below(32)
    } else {
        1 + numbers.below(3)
    };
    (0..len)
        .map(|_| char::from(0x21 + numbers.below(0x5e) as u8))
        .collect()
}
