//! The message walks of the recorded list, always the same and in the same
//! order: dictionary texts, layouts, and messages that are walked and judged.

use crate::arrangement;
use crate::expansion;
use crate::expansion_cases::random_body;
use crate::hex;
use crate::layouts::{PlainGroup, PlainLevel};
use crate::lines::DictionaryLine;
use crate::numbers::Numbers;
use crate::reader;
use crate::texts;
use crate::walk_cases::{self, Fields, decimals};
use std::fmt::Write;

/// A list of dictionaries, layouts and messages.
#[derive(Default)]
struct Cases {
    text: String,
}

impl Cases {
    fn title(&mut self, title: &str) {
        let _ = writeln!(self.text, "# {title}");
    }

    fn dictionary(&mut self, text: &[u8]) {
        let _ = writeln!(self.text, "dictionary {}", hex::encode(text));
    }

    fn layout(&mut self, layout: &PlainLevel) {
        self.layout_words(&arrangement::words(layout));
    }

    fn layout_words(&mut self, words: &[u32]) {
        let line = format!("layout {}", decimals(words));
        let _ = writeln!(self.text, "{}", line.trim_end());
    }

    /// A message, walked and judged by the dictionary and the layout above it.
    fn message(&mut self, fields: &Fields) {
        let mut bytes = Vec::new();
        let mut table = Vec::new();
        for (tag, value) in fields {
            let first = bytes.len() as u32;
            bytes.extend_from_slice(value);
            table.extend([*tag, first, bytes.len() as u32]);
            bytes.push(b'\n');
        }
        self.table(&bytes, &table);
    }

    fn table(&mut self, bytes: &[u8], table: &[u32]) {
        let _ = writeln!(self.text, "message {}", hex::encode(bytes));
        let line = format!("fields {}", decimals(table));
        let _ = writeln!(self.text, "{}", line.trim_end());
        self.text.push_str("walk\nplain\nstrict\n");
    }
}

/// All message walks.
pub fn message_cases() -> String {
    let mut cases = Cases::default();
    small(&mut cases);
    examples(&mut cases);
    random_dictionaries(&mut cases);
    unrelated_layouts(&mut cases);
    deep(&mut cases);
    long(&mut cases);
    refusals(&mut cases);
    cases.text
}

/// The lines of a text, parted by spaces.
fn lines(text: &str) -> Vec<u8> {
    let lines = text.split_whitespace();
    lines
        .flat_map(|line| format!("{line}\n").into_bytes())
        .collect()
}

/// Fields `TAG=VALUE`, parted by spaces.
fn fields(text: &str) -> Fields {
    text.split_whitespace()
        .map(|field| {
            let (tag, value) = field.split_once('=').expect("TAG=VALUE");
            (tag.parse().expect("a tag"), value.as_bytes().to_vec())
        })
        .collect()
}

/// The layout of a type that has one.
fn layout_of(text: &[u8], msg_type: &str) -> Option<PlainLevel> {
    let dict = texts::dictionary(text).expect("an accepted dictionary text");
    let expanded = expansion::expand_quickly(&dict, msg_type).expect("an answer");
    expanded.ok().map(|(expansion, _)| expansion.layout())
}

// ---- small messages

const WORKED: &str = "def=35,String def=448,String def=447,Char value=D def=453,NumInGroup \
    begin=header field=35,1 end=header begin=trailer end=trailer \
    message=D,app group=453,448,1 field=447,1 end=453 end=D";

const ORDER: &str = "def=10,String def=11,String def=35,String def=40,Char value=1 value=2 \
    def=99,String def=78,NumInGroup def=79,String def=80,Qty def=60,UtcTimestamp \
    begin=header field=35,1 end=header begin=trailer field=10,1 end=trailer \
    component=1 field=40,1 field=11,1 end=1 \
    message=D,app field=11,1 field=60,0 group=78,79,1 field=80,1 end=78 use=1,1 end=D \
    message=0,admin end=0";

fn small(cases: &mut Cases) {
    cases.title("the worked example");
    cases.dictionary(&lines(WORKED));
    cases.layout(&layout_of(&lines(WORKED), "D").expect("a layout"));
    cases.message(&fields("35=D 453=2 448=A 447=D 448=B"));
    let order = lines(ORDER);
    cases.dictionary(&order);
    cases.layout(&layout_of(&order, "D").expect("a layout"));
    for (title, message) in [
        ("no fields: 11 and 40 missing, 11 by each use, not 10", ""),
        ("all there", "35=D 11=x 40=1 78=1 79=a 80=5 10=000"),
        ("the last required tag twice", "35=D 11=x 40=1 40=2 78=0"),
        ("an undefined tag, twice", "35=D 11=x 40=1 7=v 7=v 78=0"),
        ("a foreign tag, twice", "35=D 11=x 40=1 99=v 99=v 78=0"),
        ("a group twice", "35=D 11=x 40=1 78=1 79=a 78=1 79=b"),
        ("a group's tags around it", "35=D 79=a 78=1 79=a 80=5 11=x 80=6 40=1"),
        ("a group of count 0, and its delimiter", "35=D 78=0 79=a 11=x 40=1"),
        ("a group that ends at an undefined tag", "35=D 78=2 79=a 7=v 79=b 11=x 40=1"),
        ("a count that is none", "35=D 78=x 79=a 79=b 11=x 40=1"),
        ("no delimiter", "35=D 78=1 80=5 11=x 40=1"),
        ("a member repeated", "35=D 78=1 79=a 80=5 80=6 11=x 40=1"),
        ("too few entries, last of the message", "35=D 11=x 40=1 78=3 79=a 80=5 79=b"),
        ("a required tag in an entry alone is missing", "35=D 78=1 79=a 11=x 40=1"),
        ("the trailer ahead of the header", "10=000 40=1 11=x 78=0 35=D"),
        ("values of every verdict", "35=D 11= 40=3 60=20240229-24:00:00 7=v 78=1 79=a 80=. 10=0"),
        ("times in range and out of it", "35=D 60=20240229-23:59:60 60=20241301-00:00:00 60=20240229-23:60:00"),
    ] {
        cases.title(&format!("{title}: {message}"));
        cases.message(&fields(message));
    }
    cases.title("a type without a body");
    cases.layout(&layout_of(&order, "0").expect("a layout"));
    cases.message(&fields("35=0"));
    cases.message(&fields("35=0 10=1 11=x 78=1 79=a"));
}

// ---- examples/

macro_rules! example {
    ($name:literal) => {
        include_bytes!(concat!("../../examples/", $name)).as_slice()
    };
}

/// The messages of examples/ as they are and damaged, and messages made up of
/// the layouts of their types.
fn examples(cases: &mut Cases) {
    let mut numbers = Numbers::new(21);
    let block_order = example!("block-order/block-order.dict");
    let fix44 = example!("fix44/fix44.dict");
    let messages: [(&[u8], &str, &[&[u8]]); 5] = [
        (
            block_order,
            "J",
            &[
                example!("block-order/whole.msg"),
                example!("block-order/allocation-lost.msg"),
                example!("block-order/fields-out-of-entry.msg"),
                example!("block-order/count-lies.msg"),
                example!("block-order/nested-count-lies.msg"),
            ],
        ),
        (fix44, "D", &[example!("fix44/new-order-single.msg")]),
        (fix44, "J", &[example!("fix44/allocation-instruction.msg")]),
        (fix44, "W", &[example!("fix44/market-data-snapshot.msg")]),
        (
            example!("fix44/allocation-instruction.dict"),
            "J",
            &[example!("fix44/allocation-instruction.msg")],
        ),
    ];
    for (text, msg_type, known) in messages {
        cases.title(&format!("examples/, type {msg_type}"));
        cases.dictionary(text);
        let layout = layout_of(text, msg_type).expect("a layout");
        cases.layout(&layout);
        let tags = tags_of(text);
        for message in known {
            let whole = texts::message(message).expect("an accepted message");
            let whole: Fields = whole
                .fields()
                .iter()
                .map(|field| (field.tag, field.value.to_vec()))
                .collect();
            cases.message(&whole);
            for _ in 0..24 {
                let mut message = whole.clone();
                for _ in 0..=numbers.below(3) {
                    damage(&mut numbers, &tags, &mut message);
                }
                cases.message(&message);
            }
        }
        for _ in 0..12 {
            let mut message = walk_cases::random_message(&mut numbers, &layout, 900, 50);
            for tag in &layout.required {
                if !numbers.once_in(3) {
                    let value = value_of(&mut numbers, text, *tag);
                    message.insert(numbers.place(message.len() + 1), (*tag, value));
                }
            }
            message.insert(0, (35, msg_type.as_bytes().to_vec()));
            cases.message(&message);
        }
    }
}

/// The tags that a dictionary text defines, and two that it may not.
fn tags_of(text: &[u8]) -> Vec<u32> {
    let lines = reader::dictionary(text).expect("an accepted dictionary text");
    let defined = lines.iter().filter_map(|line| match line {
        DictionaryLine::Definition(tag, _) => Some(*tag),
        _ => None,
    });
    defined.chain([1, 9_999]).collect()
}

/// An admitted value of a tag, or one that may not be.
fn value_of(numbers: &mut Numbers, text: &[u8], tag: u32) -> Vec<u8> {
    let lines = reader::dictionary(text).expect("an accepted dictionary text");
    let mut at_tag = false;
    let mut values = vec!["1", "v"];
    for line in lines {
        match line {
            DictionaryLine::Definition(defined, _) => at_tag = defined == tag,
            DictionaryLine::Value(value) if at_tag => values.push(value),
            _ => {}
        }
    }
    numbers.pick(&values).as_bytes().to_vec()
}

/// One field out, in, twice, in another place, or with another tag or value.
fn damage(numbers: &mut Numbers, tags: &[u32], message: &mut Fields) {
    let place = numbers.place(message.len());
    let other = numbers.place(message.len());
    match numbers.below(8) {
        0 => {
            message.remove(place);
        }
        1 => message.insert(other, message[place].clone()),
        2 => message.insert(place, (*numbers.pick(tags), b"1".to_vec())),
        3 => message[place].0 = *numbers.pick(tags),
        4 => message.swap(place, other),
        5 => message[place].1 = message[other].1.clone(),
        6 => message[place].1 = numbers.pick(&["", "0", "2", "x"]).as_bytes().to_vec(),
        _ => {
            let moved = message.remove(place);
            message.push(moved);
        }
    }
}

// ---- dictionaries made up

/// Most tags of `tags` as definitions of some type, and 35.
fn definitions(numbers: &mut Numbers, tags: u64) -> Vec<String> {
    let mut text = vec!["def=35,String".to_string()];
    for tag in 0..tags {
        if !numbers.once_in(7) {
            let name = numbers.pick(&["String", "Int", "Char", "UtcDateOnly", "MultipleCharValue"]);
            text.push(format!("def={tag},{name}"));
            for value in ["v", "1", "2"] {
                if numbers.once_in(6) {
                    text.push(format!("value={value}"));
                }
            }
        }
    }
    text
}

/// Few tags and components that use each other; messages of each type.
fn random_dictionaries(cases: &mut Cases) {
    let mut numbers = Numbers::new(22);
    cases.title("dictionaries made up");
    for _ in 0..220 {
        let components = numbers.below(5);
        let mut text = definitions(&mut numbers, 16);
        for name in ["header", "trailer"] {
            text.push(format!("begin={name}"));
            random_body(&mut numbers, 1, components, false, &mut text);
            text.push(format!("end={name}"));
        }
        for name in 1..=components {
            text.push(format!("component={name}"));
            random_body(&mut numbers, 1, components, true, &mut text);
            text.push(format!("end={name}"));
        }
        for msg_type in ["A", "B"] {
            text.push(format!("message={msg_type},app"));
            random_body(&mut numbers, 3, components, true, &mut text);
            text.push(format!("end={msg_type}"));
        }
        let text = lines(&text.join(" "));
        cases.dictionary(&text);
        for msg_type in ["A", "B"] {
            let Some(layout) = layout_of(&text, msg_type) else {
                continue;
            };
            cases.layout(&layout);
            for _ in 0..2 {
                let mut message = random_fields(&mut numbers, &layout, 14, 24);
                if !numbers.once_in(3) {
                    message.insert(0, (35, msg_type.as_bytes().to_vec()));
                }
                cases.message(&message);
            }
        }
    }
}

/// Fields of a layout's top and readings of its groups, with faults.
fn random_fields(numbers: &mut Numbers, top: &PlainLevel, tags: u64, size: usize) -> Fields {
    let mut message = if top.groups.is_empty() {
        let count = numbers.below(8);
        (0..count)
            .map(|_| walk_cases::random_field(numbers, tags))
            .collect()
    } else {
        walk_cases::random_message(numbers, top, tags, size)
    };
    for tag in &top.members {
        if numbers.once_in(3) {
            message.insert(numbers.place(message.len() + 1), (*tag, b"1".to_vec()));
        }
    }
    message
}

/// Layouts that no type of the dictionary has.
fn unrelated_layouts(cases: &mut Cases) {
    let mut numbers = Numbers::new(23);
    cases.title("layouts that are not the dictionary's");
    for _ in 0..150 {
        let tags = 2 + numbers.below(12);
        let depth = 1 + numbers.below(4);
        let mut text = definitions(&mut numbers, tags + 2);
        text.push("begin=header end=header begin=trailer end=trailer".to_string());
        cases.dictionary(&lines(&text.join(" ")));
        let layout = walk_cases::random_layout(&mut numbers, tags, depth);
        cases.layout(&layout);
        for _ in 0..2 {
            let message = random_fields(&mut numbers, &layout, tags, 20);
            cases.message(&message);
        }
    }
}

// ---- limits

/// A group in a group, so many times: the count tags are 100, 101 .., and 1 is
/// the delimiter of each.
fn nested(levels: u32) -> PlainLevel {
    let mut around = PlainLevel::default();
    for depth in (0..levels).rev() {
        let mut entry = around;
        entry.members.insert(0, 1);
        around = PlainLevel {
            members: vec![100 + depth],
            required: Vec::new(),
            groups: vec![PlainGroup {
                count_tag: 100 + depth,
                delimiter_tag: 1,
                required: true,
                entry,
            }],
        };
    }
    around
}

/// Groups that are entered at depth 32, and too deep at depth 33.
fn deep(cases: &mut Cases) {
    let mut text = "def=1,String ".to_string();
    for tag in 100..140 {
        let _ = write!(text, "def={tag},NumInGroup ");
    }
    text.push_str("begin=header end=header begin=trailer end=trailer");
    cases.title("33, 34 and 40 levels");
    cases.dictionary(&lines(&text));
    for levels in [33, 34, 40] {
        cases.layout(&nested(levels));
        let down: String = (0..levels)
            .map(|depth| format!("{}=1 1=v ", 100 + depth))
            .collect();
        cases.message(&fields(&down));
        cases.message(&fields(&format!("{down} {down} 1=v 139=1")));
    }
}

/// 4,096 fields; 2,000 definitions; a level of 8,000 members.
fn long(cases: &mut Cases) {
    let order = lines(ORDER);
    let layout = layout_of(&order, "D").expect("a layout");
    cases.title("4,096 fields: twice each, undefined each, entries; 2,400 foreign ones");
    cases.dictionary(&order);
    cases.layout(&layout);
    for (tag, count) in [(11, 4_096), (99, 2_400), (7, 4_096)] {
        let rows: Vec<u32> = (0..count).flat_map(|_| [tag, 0, 0]).collect();
        cases.table(b"", &rows);
    }
    let mut rows = vec![78, 0, 4];
    rows.extend((0..4_095).flat_map(|_| [79, 4, 4]));
    cases.table(b"4095", &rows);
    rows[2] = 2;
    cases.table(b"4095", &rows);
    cases.title("2,000 definitions, all seen and one twice; a level of 8,000 members");
    let mut text: String = (0..2_000)
        .map(|tag| format!("def={},Int ", 3 * tag))
        .collect();
    text.push_str("begin=header end=header begin=trailer end=trailer");
    cases.dictionary(&lines(&text));
    let wide = PlainLevel {
        members: (0..8_000).collect(),
        required: (0..2_000).collect(),
        groups: Vec::new(),
    };
    cases.layout(&wide);
    cases.message(&Fields::new());
    let mut message: Fields = (0..2_000).map(|rank| (3 * rank, Vec::new())).collect();
    cases.message(&message);
    message.reverse();
    message.push((3 * 1_234, b"1".to_vec()));
    message.push((8_001, b"1".to_vec()));
    cases.message(&message);
}

// ---- refusals

/// Words of no dictionary and of no layout, tables with a bad field, and two
/// of these at once.
fn refusals(cases: &mut Cases) {
    let order = lines(ORDER);
    let layout = layout_of(&order, "D").expect("a layout");
    let words = arrangement::words(&layout);
    let good: &[u32] = &[35, 0, 1, 11, 1, 2];
    let tables: [&[u32]; 12] = [
        good,
        &[],
        &[35],
        &[35, 0],
        &[35, 0, 1, 11],
        &[35, 1, 0],
        &[35, 0, 4],
        &[35, 0, 1, 11, 2, 1],
        &[35, 0, 1, 11, 1, 4, 11, 9, 8],
        &[35, 0, u32::MAX],
        &[35, u32::MAX, u32::MAX],
        &[35, 3, 3],
    ];
    cases.title("field tables that are refused, and some that are not");
    cases.dictionary(&order);
    cases.layout(&layout);
    for table in tables {
        cases.table(b"Dxy", table);
    }
    for count in [4_096, 4_097] {
        let rows: Vec<u32> = (0..count).flat_map(|_| [7, 0, 0]).collect();
        cases.table(b"Dxy", &rows);
        cases.table(b"Dxy", &rows[1..]);
    }
    cases.title("layout words that are refused, or longer than their layout");
    let mut damaged: Vec<Vec<u32>> = vec![Vec::new(), vec![0], words[1..].to_vec()];
    damaged.push(words[..words.len() - 1].to_vec());
    damaged.push([words.as_slice(), &[7, 7, 7]].concat());
    for place in 0..words.len() {
        for word in [words[place].wrapping_add(1), 0, u32::MAX] {
            let mut changed = words.clone();
            changed[place] = word;
            damaged.push(changed);
        }
    }
    for words in &damaged {
        cases.layout_words(words);
        cases.table(b"Dxy", good);
    }
    cases.title("no dictionary; then no layout and a bad table beside it");
    cases.layout(&layout);
    cases.dictionary(b"");
    cases.table(b"Dxy", good);
    cases.dictionary(b"def=35,String\n");
    cases.table(b"Dxy", &[35]);
    cases.layout_words(&words[1..]);
    cases.table(b"Dxy", good);
    cases.table(b"Dxy", &[35]);
    cases.dictionary(&order);
    cases.table(b"Dxy", &[35]);
    cases.layout(&layout);
    cases.table(b"Dxy", good);
}
