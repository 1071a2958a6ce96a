//! The dictionary texts and layout texts of the recorded lists, always the
//! same and in the same order.

use crate::case_text::CaseText;
use crate::layouts;
use crate::lines::TYPE_NAMES;
use crate::numbers::Numbers;
use crate::reader::{self, LONGEST_TEXT};
use crate::texts;
use std::collections::HashSet;

/// A list that keeps the first of equal cases.
#[derive(Default)]
struct Cases {
    list: Vec<CaseText>,
    known: HashSet<CaseText>,
}

impl Cases {
    fn add(&mut self, text: impl Into<CaseText>) {
        let text = text.into();
        if self.known.insert(text.clone()) {
            self.list.push(text);
        }
    }

    /// Lines parted by spaces.
    fn lines(&mut self, text: &str) {
        self.add(lines(text));
    }

    /// Lines parted by spaces, but the line at `*` is `line` to the letter.
    fn with_line(&mut self, text: &str, line: &[u8]) {
        let (above, below) = text.split_once('*').expect("a place for the line");
        self.add([&lines(above), line, b"\n", &lines(below)].concat());
    }

    fn parts(&mut self, parts: &[(usize, &[u8])]) {
        self.add(CaseText::of_parts(parts));
    }
}

/// Lines parted by spaces.
fn lines(text: &str) -> Vec<u8> {
    text.split_whitespace()
        .flat_map(|line| format!("{line}\n").into_bytes())
        .collect()
}

/// The header and the trailer with nothing in them.
const ENVELOPE: &str = "begin=header end=header begin=trailer end=trailer";

/// A dictionary with a line of each form.
const SMALL_DICTIONARY: &str = "def=35,String def=447,Char value=D \
    begin=header field=35,1 end=header begin=trailer field=10,1 end=trailer \
    component=7 group=453,448,0 field=447,1 end=453 end=7 \
    message=D,app field=11,1 use=7,0 end=D";

/// A layout with a line of each form.
const SMALL_LAYOUT: &str = "member=9 member=35 required=35 \
    group=9,1,1 member=1 member=5 required=5 group=5,6,0 member=6 end=5 end=9";

/// The dictionaries of examples/.
const EXAMPLES: [&[u8]; 5] = [
    include_bytes!("../../examples/block-order/block-order.dict"),
    include_bytes!("../../examples/fix44/new-order-single.dict"),
    include_bytes!("../../examples/fix44/allocation-instruction.dict"),
    include_bytes!("../../examples/fix44/market-data-snapshot.dict"),
    include_bytes!("../../examples/fix44/fix44.dict"),
];

/// What may stand for a number, and what may not.
const NUMBERS: [&str; 34] = [
    "0",
    "1",
    "9",
    "10",
    "999999999",
    "1000000000",
    "4294967290",
    "4294967294",
    "4294967295",
    "",
    "00",
    "01",
    "007",
    "010",
    "04294967295",
    "4294967296",
    "4294967297",
    "4294967300",
    "4294967305",
    "5000000000",
    "9999999999",
    "10000000000",
    "42949672950",
    "18446744073709551616",
    "18446744073709551617",
    "340282366920938463463374607431768211457",
    "+1",
    "-1",
    "-0",
    "1.0",
    "1a",
    "a",
    "0x1",
    "1_0",
];

/// What may stand for R, and what may not.
const FLAGS: [&str; 14] = [
    "0", "1", "", "2", "9", "00", "01", "10", "11", "+1", "-0", "Y", "true", "/",
];

/// The bytes just outside and just inside the ranges of letters and digits.
const EDGES: &[u8] = b"/09:@AZ[`az{-_ .~\x7f\x80\xff\0\r";

/// All dictionary texts.
pub fn dictionary_cases() -> Vec<CaseText> {
    let mut cases = Cases::default();
    whole_dictionaries(&mut cases);
    stages(&mut cases, &dictionary_stages(), DICTIONARY_LINES, |text| {
        reader::dictionary(text).is_ok()
    });
    dictionary_numbers(&mut cases);
    dictionary_flags(&mut cases);
    message_types(&mut cases);
    admitted_values(&mut cases);
    type_names(&mut cases);
    other_lines(&mut cases);
    two_faults(&mut cases);
    open_groups_of_a_dictionary(&mut cases);
    defined_again(&mut cases);
    last_lines(&mut cases, &dictionary_stages(), DICTIONARY_LINES);
    long_dictionaries(&mut cases);
    cut_and_damaged(&mut cases, &lines(SMALL_DICTIONARY));
    random_dictionaries(&mut cases);
    cases.list
}

/// All layout texts.
pub fn layout_cases() -> Vec<CaseText> {
    let mut cases = Cases::default();
    whole_layouts(&mut cases);
    stages(&mut cases, &layout_stages(), LAYOUT_LINES, |text| {
        reader::layout(text).is_ok()
    });
    layout_numbers(&mut cases);
    layout_flags(&mut cases);
    other_layout_lines(&mut cases);
    open_groups_of_a_layout(&mut cases);
    broken_rules(&mut cases);
    many_required(&mut cases);
    last_lines(&mut cases, &layout_stages(), LAYOUT_LINES);
    long_layouts(&mut cases);
    cut_and_damaged(&mut cases, &lines(SMALL_LAYOUT));
    random_layouts(&mut cases);
    cases.list
}

// ---- both kinds of text

/// A place in a text: the lines above it, and lines below that make it whole.
type Stage = (String, String);

/// Each line at each place. The text stops behind it; if the line may stand
/// there, the text is also made whole, by the first lines below some place
/// that do so.
fn stages(cases: &mut Cases, stages: &[Stage], forms: &[&str], whole: impl Fn(&[u8]) -> bool) {
    for (above, _) in stages {
        for form in forms {
            let stopped = [&lines(above), form.as_bytes(), b"\n"].concat();
            let mut made_whole = stages
                .iter()
                .map(|(_, below)| [stopped.clone(), lines(below)].concat());
            let made_whole = made_whole.find(|text| whole(text));
            cases.add(stopped);
            if let Some(text) = made_whole {
                cases.add(text);
            }
        }
    }
}

/// Each line as a last line without its line feed, where some text would go
/// on with it and where none would.
fn last_lines(cases: &mut Cases, stages: &[Stage], forms: &[&str]) {
    for (above, below) in stages {
        let whole = [lines(above), lines(below)].concat();
        cases.add(whole[..whole.len().saturating_sub(1)].to_vec());
    }
    for form in forms {
        cases.add(form.as_bytes().to_vec());
        for (above, _) in stages.iter().step_by(7) {
            cases.add([&lines(above), form.as_bytes()].concat());
        }
    }
}

/// Every beginning of a text, and the text with one byte exchanged, taken
/// out, put in or doubled at every place.
fn cut_and_damaged(cases: &mut Cases, text: &[u8]) {
    for size in 0..=text.len() {
        cases.add(text[..size].to_vec());
    }
    for (place, byte) in text.iter().enumerate() {
        let with = |instead: &[u8]| [&text[..place], instead, &text[place + 1..]].concat();
        for other in b"\0\n ,01=\xff" {
            cases.add(with(&[*other]));
        }
        cases.add(with(&[]));
        cases.add(with(&[*byte, *byte]));
        cases.add(with(&[b'0', *byte]));
        cases.add(with(&[byte ^ 0x20]));
    }
}

// ---- dictionary texts

fn whole_dictionaries(cases: &mut Cases) {
    cases.lines("");
    cases.lines(ENVELOPE);
    cases.lines(SMALL_DICTIONARY);
    // Document 01's own.
    cases.lines(
        "def=35,String def=448,String def=447,Char value=D def=453,NumInGroup \
         begin=header field=35,1 end=header begin=trailer end=trailer \
         message=D,app group=453,448,1 field=447,1 end=453 end=D",
    );
    for text in EXAMPLES {
        cases.add(text.to_vec());
    }
}

/// The lines of the table of places: known ones at places where they may
/// stand and where they may not, ends of each form, and lines of no form.
pub const DICTIONARY_LINES: &[&str] = &[
    "def=1,Int",
    "def=2,Int",
    "value=A",
    "begin=header",
    "begin=trailer",
    "component=5",
    "component=6",
    "message=D,app",
    "message=E,admin",
    "field=9,0",
    "group=9,9,0",
    "use=5,0",
    "use=6,1",
    "end=header",
    "end=trailer",
    "end=5",
    "end=6",
    "end=D",
    "end=E",
    "end=1",
    "end=3",
    "end=0",
    "end=01",
    "end=00001",
    "member=1",
    "x",
    "",
];

fn dictionary_stages() -> Vec<Stage> {
    let mut stages = Vec::new();
    let mut add = |above: &str, below: &str| stages.push((above.to_string(), below.to_string()));
    add("", ENVELOPE);
    add("def=1,Int", ENVELOPE);
    add("def=1,Int value=A", ENVELOPE);
    let blocks = [
        (
            "def=1,Int begin=header",
            "end=header begin=trailer end=trailer",
        ),
        (
            "def=1,Int begin=header end=header begin=trailer",
            "end=trailer",
        ),
        (
            "def=1,Int begin=header end=header begin=trailer end=trailer component=5",
            "end=5",
        ),
        (
            "def=1,Int begin=header end=header begin=trailer end=trailer component=5 end=5 \
             message=D,app",
            "end=D",
        ),
    ];
    for (block, end) in blocks {
        for above in ["", "field=3,0", "group=1,2,0 end=1", "use=5,0"] {
            let envelope = block.ends_with("header") || block.ends_with("trailer");
            if !(envelope && above.starts_with("use")) {
                add(&format!("{block} {above}"), end);
            }
            add(
                &format!("{block} group=1,2,0 {above}"),
                &format!("end=1 {end}"),
            );
            add(
                &format!("{block} group=1,2,0 group=3,4,0 {above}"),
                &format!("end=3 end=1 {end}"),
            );
        }
    }
    add(
        "def=1,Int begin=header end=header",
        "begin=trailer end=trailer",
    );
    let envelope = format!("def=1,Int {ENVELOPE}");
    add(&envelope, "");
    add(&format!("{envelope} component=5 end=5"), "");
    add(
        &format!("{envelope} component=5 end=5 message=D,app end=D"),
        "",
    );
    stages
}

/// Each number at each place that takes one.
fn dictionary_numbers(cases: &mut Cases) {
    for number in NUMBERS {
        let mut add = |text: String| cases.lines(&text);
        add(format!("def={number},Int {ENVELOPE}"));
        add(format!("{ENVELOPE} component={number} end={number}"));
        add(format!("{ENVELOPE} message=D,app field={number},0 end=D"));
        add(format!(
            "{ENVELOPE} message=D,app group={number},1,0 end={number} end=D"
        ));
        add(format!(
            "{ENVELOPE} message=D,app group=1,{number},0 end=1 end=D"
        ));
        add(format!("{ENVELOPE} message=D,app use={number},0 end=D"));
        add(format!("{ENVELOPE} component=1 end={number}"));
        add(format!(
            "{ENVELOPE} message=D,app group=1,1,0 end={number} end=D"
        ));
        add(format!("{ENVELOPE} message=D,app end={number}"));
        add(format!("begin=header end={number}"));
    }
}

fn dictionary_flags(cases: &mut Cases) {
    for flag in FLAGS {
        let mut add = |body: String| {
            cases.lines(&format!("{ENVELOPE} message=D,app {body} end=D"));
        };
        add(format!("field=1,{flag}"));
        add(format!("group=1,2,{flag} end=1"));
        add(format!("use=1,{flag}"));
    }
    for flag in [&b" 1"[..], b"1 ", b"1\r", b"\x001", b"1\0", b"\x31\x80"] {
        for form in [&b"field=1,"[..], b"group=1,2,", b"use=1,"] {
            let line = [form, flag].concat();
            cases.with_line(&format!("{ENVELOPE} message=D,app * end=D"), &line);
        }
    }
}

fn message_types(cases: &mut Cases) {
    let block = |msg_type: &[u8]| {
        let head = [&b"message="[..], msg_type, b",app\n"].concat();
        [&lines(ENVELOPE), &head[..], b"end=", msg_type, b"\n"].concat()
    };
    for msg_type in [
        "", "A", "z", "0", "9", "AB", "00", "a1Z", "ABCD", "0453", "zzzz", "ABCDE", "00000",
        "header", "trailer", "app", "admin", "ABCDEFGH",
    ] {
        cases.add(block(msg_type.as_bytes()));
        cases.lines(&format!("{ENVELOPE} message=D,app end={msg_type}"));
    }
    for size in 1..=5 {
        for place in 0..size {
            for byte in EDGES {
                let mut msg_type = vec![b'A'; size];
                msg_type[place] = *byte;
                cases.add(block(&msg_type));
            }
        }
    }
    for category in [
        "app",
        "admin",
        "",
        "App",
        "ADMIN",
        "apps",
        "ap",
        "application",
        "1",
        "app,",
        ",app",
        "app,app",
        "admin,app",
        "business",
    ] {
        cases.lines(&format!("{ENVELOPE} message=D,{category} end=D"));
    }
}

fn admitted_values(cases: &mut Cases) {
    let text = format!("def=1,String * {ENVELOPE}");
    for byte in 0..=255u8 {
        cases.with_line(&text, &[b"value=", &[byte][..]].concat());
    }
    for size in [0, 1, 2, 31, 32, 33, 34, 64, 255, 256, 257] {
        cases.with_line(&text, &[b"value=", &vec![b'A'; size][..]].concat());
    }
    for size in [1, 2, 31, 32, 33] {
        for byte in [0x00, b' ', b'!', b',', b'=', b'~', 0x7f, 0x80, 0xff] {
            for place in [0, size - 1] {
                let mut value = vec![b'A'; size];
                value[place] = byte;
                cases.with_line(&text, &[b"value=", &value[..]].concat());
            }
        }
    }
    for value in ["=", "==", ",", "a=b", "a,b", "=a", "value=A", "D,D,D"] {
        cases.with_line(&text, format!("value={value}").as_bytes());
    }
    cases.lines(&format!("def=1,Int value=A value=A value=B {ENVELOPE}"));
}

fn type_names(cases: &mut Cases) {
    let text = format!("* {ENVELOPE}");
    let mut add = |name: &str| cases.with_line(&text, format!("def=1,{name}").as_bytes());
    for name in TYPE_NAMES {
        add(name);
        add(&name.to_uppercase());
        add(&name.to_lowercase());
        add(&name[1..]);
        add(&name[..name.len() - 1]);
        add(&format!("{name}s"));
        add(&format!("{name} "));
        add(&format!(" {name}"));
        add(&format!("{name}{name}"));
        add(&format!("{name},"));
        add(&format!("{name}\r"));
        add(&format!("{name}\0"));
        // One letter exchanged for the next, at each place.
        for place in 0..name.len() {
            let mut other = name.as_bytes().to_vec();
            other[place] += 1;
            add(&String::from_utf8(other).expect("ASCII"));
        }
    }
    for name in [
        "",
        "UTCTimestamp",
        "UTCTIMESTAMP",
        "UTCDateOnly",
        "MultipleValueString",
        "MULTIPLEVALUESTRING",
        "Quantity",
        "XID",
        "XIDREF",
        "NumINGroup",
        "Reserved100Plus",
        "RESERVED100PLUS",
        "Time",
        "Date",
        "Bool",
        "0",
        "14",
    ] {
        add(name);
    }
}

/// Lines of no form, at places where a line of that key would be good.
fn other_lines(cases: &mut Cases) {
    let first = format!("* {ENVELOPE}");
    for line in [
        &b""[..],
        b" ",
        b"=",
        b"==",
        b",",
        b"def",
        b"def=",
        b"def=1",
        b"def=1,",
        b"def=,Int",
        b"def=1,Int,",
        b"def=1,Int,Int",
        b"def=1=Int",
        b"def==1,Int",
        b"def =1,Int",
        b" def=1,Int",
        b"def= 1,Int",
        b"def=1 ,Int",
        b"def=1, Int",
        b"def=1,Int ",
        b"def=1,Int\t",
        b"def=1,Int\r",
        b"def=1,Int\0",
        b"\0def=1,Int",
        b"\0",
        b"\r",
        b"\xef\xbb\xbfdef=1,Int",
        b"d\x00ef=1,Int",
        b"DEF=1,Int",
        b"Def=1,Int",
        b"de=1,Int",
        b"deff=1,Int",
        b"def:1,Int",
        b"# 1",
        b"//",
        b"begin",
        b"begin=",
        b"begin=head",
        b"begin=headers",
        b"begin=Header",
        b"begin=header ",
        b"begin=header,",
        b"begin=header\r",
        b"begin=message",
        b"begin=0",
        b"begin=D",
        b"definition=1,Int",
        b"\xc3\xa9=1",
    ] {
        cases.with_line(&first, line);
    }
    let body = format!("{ENVELOPE} message=D,app * end=D");
    for line in [
        &b"field"[..],
        b"field=",
        b"field=1",
        b"field=1,",
        b"field=,1",
        b"field=1,1,",
        b"field=1,1,1",
        b"field=1=1",
        b"field=1,=1",
        b"field =1,1",
        b"Field=1,1",
        b"fields=1,1",
        b"fiel=1,1",
        b"group=1,2",
        b"group=1,2,",
        b"group=1,,0",
        b"group=,2,0",
        b"group=1,2,0,",
        b"group=1,2,0,0",
        b"group=1 2 0",
        b"groups=1,2,0",
        b"use=1",
        b"use=1,",
        b"use=,1",
        b"use=1,0,0",
        b"use=a,0",
        b"uses=1,0",
        b"end",
        b"end=",
        b"end =D",
        b"end=D ",
        b"end=D\r",
        b"end=D,app",
        b"end=headers",
        b"end=Header",
        b"end=HEADER",
        b"end=header,",
        b"end=message",
        b"end=component",
        b"end=-1",
        b"end==D",
        b"ende=D",
        b"required=1",
        b"member=1",
        b"component",
        b"component=",
        b"component=1,1",
        b"message=D",
        b"message=D,",
    ] {
        cases.with_line(&body, line);
    }
    for text in [SMALL_DICTIONARY, ENVELOPE] {
        let text = String::from_utf8(lines(text)).expect("ASCII");
        cases.add(text.replace('\n', "\r\n").into_bytes());
        cases.add(text.replace('\n', "\n\n").into_bytes());
        cases.add(text.replace('\n', "\r").into_bytes());
        cases.add(text.replace('\n', "\0").into_bytes());
        cases.add(format!("\n{text}").into_bytes());
        cases.add(format!("{text}\n").into_bytes());
        cases.add(format!("{text} ").into_bytes());
        cases.add(format!("{text}\0").into_bytes());
        cases.add(format!("\u{feff}{text}").into_bytes());
    }
}

fn two_faults(cases: &mut Cases) {
    let open: String = (1..=40).map(|tag| format!("group={tag},0,0 ")).collect();
    for text in [
        "def=35,Int def=35,Foo",
        "def=35,Int def=35,Int,",
        "def=35,Int begin=header def=35,Int",
        "def=35,Int begin=header end=header def=35,Int",
        "def=35,Int begin=header def=35,Foo",
        "begin=header use=1,2",
        "begin=header use=1,0 nonsense",
        "begin=header end=trailers",
        "def=1,Int def=1,Int nonsense",
        "def=1,Int def=1,Int def=1,Foo",
    ] {
        cases.lines(text);
    }
    for behind in [
        "component=1 component=1",
        "component=1 end=1 message=D,app component=1",
        "component=1 end=1 message=D,app end=D component=1",
        "component=1 end=1 message=D,app end=D component=01",
        "component=1 end=1 component=1,",
        "message=D,app message=D,app",
        "message=D,app message=D,apps",
        "message=D,app end=D message=D,apps",
        "message=D,app end=D message=D,admin",
        "message=D,app end=D component=1 component=1",
        "message=D,app field=1,0 message=D,admin",
        "message=D,app use=1,0 field=1,2",
        "message=D,app use=1,0 group=1,2,2",
        "message=D,app use=1,0 group=1,2,0 group=1,2,3",
    ] {
        cases.lines(&format!("{ENVELOPE} {behind}"));
    }
    for fault in [
        "group=41,0,0",
        "group=41,0,2",
        "group=041,0,0",
        "group=41,0",
        "use=1,0 group=41,0,0",
        "use=1,0 group=41,0,2",
        "def=1,Int",
        "component=1",
        "message=D,app",
        "end=39",
        "end=41",
        "end=40 group=40,0,0 group=41,0,0",
        "end=40 use=1,0 group=41,0,0",
    ] {
        cases.lines(&format!("{ENVELOPE} message=D,app {open} {fault}"));
        cases.add(
            [
                lines(&format!("{ENVELOPE} message=D,app {open}")),
                fault.replace(' ', "\n").into_bytes(),
            ]
            .concat(),
        );
    }
}

/// `count` group blocks, each in the one before, with `inside` in the last.
fn nested(count: usize, inside: &str) -> String {
    let open: String = (1..=count).map(|tag| format!("group={tag},0,0 ")).collect();
    let close: String = (1..=count).rev().map(|tag| format!("end={tag} ")).collect();
    format!("{open} {inside} {close}")
}

fn open_groups_of_a_dictionary(cases: &mut Cases) {
    for count in [1, 2, 38, 39, 40, 41, 42, 64] {
        for inside in ["", "field=9,0", "use=9,1"] {
            let body = nested(count, inside);
            cases.lines(&format!(
                "begin=header {body} end=header begin=trailer end=trailer"
            ));
            cases.lines(&format!(
                "begin=header end=header begin=trailer {body} end=trailer"
            ));
            cases.lines(&format!("{ENVELOPE} component=1 {body} end=1"));
            cases.lines(&format!("{ENVELOPE} message=D,app {body} end=D"));
        }
    }
    // Closed blocks do not count.
    let forty = nested(40, "");
    cases.lines(&format!("{ENVELOPE} message=D,app {forty} {forty} end=D"));
    cases.lines(&format!(
        "{ENVELOPE} component=1 {forty} end=1 message=D,app {forty} end=D"
    ));
    let deep = nested(39, "group=50,0,0 end=50 group=51,0,0 end=51");
    cases.lines(&format!("{ENVELOPE} message=D,app {deep} end=D"));
    let deeper = nested(40, "group=50,0,0 end=50");
    cases.lines(&format!("{ENVELOPE} message=D,app {deeper} end=D"));
    let siblings = "group=1,0,0 end=1 ".repeat(45);
    cases.lines(&format!("{ENVELOPE} message=D,app {siblings} end=D"));
    // Groups that all have one count tag.
    for count in [40, 41] {
        let open = "group=7,7,1 ".repeat(count);
        let close = "end=7 ".repeat(count);
        cases.lines(&format!("{ENVELOPE} message=7,app {open} {close} end=7"));
    }
}

/// Definitions, components and types that stand again, at each distance.
fn defined_again(cases: &mut Cases) {
    let numbers: [u64; 9] = [0, 1, 2, 35, 255, 256, 65_536, 2_147_483_648, 4_294_967_295];
    let types = ["D", "d", "0", "00", "AB", "BA", "1", "01", "AAAA"];
    for last in 1..=numbers.len() {
        for again in 0..last {
            // In a mixed order, and for definitions with values between them.
            let order = |place: usize| (place * 4 + again) % numbers.len();
            let tag = |place: usize| numbers[order(place)];
            let name = |place: usize| types[order(place)];
            let defs: String = (0..last).map(|p| format!("def={},Int ", tag(p))).collect();
            cases.lines(&format!("{defs} def={},Char {ENVELOPE}", tag(again)));
            let defs: String = (0..last)
                .map(|p| format!("def={},Char value=A value=B ", tag(p)))
                .collect();
            cases.lines(&format!("{defs} def={},Int {ENVELOPE}", tag(again)));
            let components: String = (0..last)
                .map(|p| format!("component={} end={} ", tag(p), tag(p)))
                .collect();
            let number = tag(again);
            cases.lines(&format!(
                "{ENVELOPE} {components} component={number} end={number}"
            ));
            let messages: String = (0..last)
                .map(|p| format!("message={},app end={} ", name(p), name(p)))
                .collect();
            let msg_type = name(again);
            for category in ["app", "admin"] {
                cases.lines(&format!(
                    "{ENVELOPE} {messages} message={msg_type},{category} end={msg_type}"
                ));
            }
        }
        // All of them once.
        let defs: String = numbers[..last]
            .iter()
            .map(|tag| format!("def={tag},Int "))
            .collect();
        let components: String = numbers[..last]
            .iter()
            .map(|tag| format!("component={tag} end={tag} "))
            .collect();
        let messages: String = types[..last]
            .iter()
            .map(|name| format!("message={name},app end={name} "))
            .collect();
        cases.lines(&format!("{defs} {ENVELOPE} {components} {messages}"));
    }
    // Among many.
    for (step, again) in [(1, 0), (7, 100), (11, 199)] {
        let tag = |place: usize| (place * step) % 200;
        let defs: String = (0..200).map(|p| format!("def={},Int ", tag(p))).collect();
        cases.lines(&format!("{defs} {ENVELOPE}"));
        cases.lines(&format!("{defs} def={},Int {ENVELOPE}", tag(again)));
        let components: String = (0..200)
            .map(|p| format!("component={} end={} ", tag(p), tag(p)))
            .collect();
        cases.lines(&format!("{ENVELOPE} {components}"));
        cases.lines(&format!("{ENVELOPE} {components} component={}", tag(again)));
        let messages: String = (0..200)
            .map(|p| format!("message={},app end={} ", tag(p), tag(p)))
            .collect();
        cases.lines(&format!("{ENVELOPE} {messages}"));
        cases.lines(&format!("{ENVELOPE} {messages} message={},app", tag(again)));
    }
    // What may stand twice.
    cases.lines(&format!(
        "{ENVELOPE} component=1 field=1,0 field=1,1 group=1,1,0 end=1 group=1,1,0 end=1 \
         use=1,0 use=1,0 end=1"
    ));
    cases.lines(&format!(
        "def=5,Int {ENVELOPE} component=5 end=5 message=5,app end=5"
    ));
}

/// Texts of 65,536 bytes and around, accepted and not, and long lines.
fn long_dictionaries(cases: &mut Cases) {
    let envelope = lines(ENVELOPE);
    for size in [LONGEST_TEXT - 1, LONGEST_TEXT, LONGEST_TEXT + 1] {
        cases.parts(&[(size, b"\n")]);
        cases.parts(&[(size, b"\0")]);
        cases.parts(&[(size, b"a")]);
        cases.parts(&[(1, b"value="), (size - 7, b"A"), (1, b"\n")]);
        // Whole dictionaries of that size: values, or fields of a message.
        let head: &[u8] = b"def=1,String\n";
        let rest = size - head.len() - envelope.len();
        cases.parts(&[
            (1, head),
            ((rest - 16) / 8, b"value=A\n"),
            (
                1,
                format!("value={}\n", "B".repeat(9 + rest % 8)).as_bytes(),
            ),
            (1, &envelope),
        ]);
        let head = [&envelope[..], b"message=D,app\n"].concat();
        let rest = size - head.len() - 6;
        let last = format!("field=1{},0\n", "0".repeat(rest % 10)).into_bytes();
        cases.parts(&[
            (1, &head),
            ((rest - last.len()) / 10, b"field=1,0\n"),
            (1, &last),
            (1, b"end=D\n"),
        ]);
    }
    for size in [70_000, 131_072] {
        cases.parts(&[(size, b"\n")]);
        cases.parts(&[(1, &envelope), (size - envelope.len(), b"x")]);
    }
    for size in [1_000, 4_096, 60_000] {
        cases.parts(&[
            (1, b"def=1,String\nvalue="),
            (size, b"A"),
            (1, b"\n"),
            (1, &envelope),
        ]);
        cases.parts(&[(1, b"def="), (size, b"1"), (1, b",Int\n"), (1, &envelope)]);
        cases.parts(&[(1, b"def="), (size, b"0"), (1, b",Int\n"), (1, &envelope)]);
        cases.parts(&[(size, b"d"), (1, b"ef=1,Int\n"), (1, &envelope)]);
        cases.parts(&[(1, b"begin=header"), (size, b","), (1, b"\n")]);
        cases.parts(&[(1, b"begin=header\nend="), (size, b"A"), (1, b"\n")]);
    }
    // Many lines, and the fault at the last or behind it.
    cases.parts(&[
        (1, b"def=1,String\n"),
        (5_000, b"value=AB\n"),
        (1, b"value=\n"),
    ]);
    cases.parts(&[(1, b"def=1,String\n"), (5_000, b"value=AB\n")]);
    cases.parts(&[
        (1, b"def=1,String\n"),
        (5_000, b"value=AB\n"),
        (1, b"def=1,Int\n"),
    ]);
    let body: &[u8] = b"group=1,2,0\nend=1\n";
    cases.parts(&[
        (1, &envelope),
        (1, b"component=1\n"),
        (3_000, body),
        (1, b"end=1\n"),
    ]);
    cases.parts(&[
        (1, &envelope),
        (1, b"component=1\n"),
        (3_000, body),
        (1, b"use=1,1\n"),
        (1, body),
    ]);
    cases.parts(&[
        (1, &envelope),
        (1, b"message=D,app\n"),
        (6_000, b"use=5,1\n"),
        (1, b"end=D\n"),
    ]);
    cases.parts(&[(41, b"group=1,1,1\n")]);
    cases.parts(&[(1, b"begin=header\n"), (40, b"group=1,1,1\n")]);
    cases.parts(&[(1, b"begin=header\n"), (41, b"group=1,1,1\n")]);
    cases.parts(&[
        (1, b"begin=header\n"),
        (40, b"group=1,1,1\n"),
        (40, b"end=1\n"),
        (1, b"end=header\nbegin=trailer\nend=trailer\n"),
    ]);
}

/// The lines of a dictionary made up.
pub fn random_dictionary(numbers: &mut Numbers) -> Vec<String> {
    let mut text = Vec::new();
    for _ in 0..numbers.below(4) {
        let name = numbers.pick(&["Int", "Char", "String", "UtcTimestamp"]);
        text.push(format!("def={},{name}", numbers.below(30)));
        for _ in 0..numbers.below(3) {
            text.push(format!("value={}", numbers.pick(&["A", "B", "=", "1,2"])));
        }
    }
    for name in ["header", "trailer"] {
        text.push(format!("begin={name}"));
        random_body(numbers, 1, false, &mut text);
        text.push(format!("end={name}"));
    }
    for _ in 0..numbers.below(3) {
        let name = numbers.below(30);
        text.push(format!("component={name}"));
        random_body(numbers, 2, true, &mut text);
        text.push(format!("end={name}"));
    }
    for _ in 0..numbers.below(3) {
        let msg_type = *numbers.pick(&["D", "8", "AE", "J", "1", "2", "header"]);
        let msg_type = if msg_type == "header" { "h" } else { msg_type };
        let category = numbers.pick(&["app", "admin"]);
        text.push(format!("message={msg_type},{category}"));
        random_body(numbers, 3, true, &mut text);
        text.push(format!("end={msg_type}"));
    }
    text
}

fn random_body(numbers: &mut Numbers, depth: u64, uses: bool, text: &mut Vec<String>) {
    for _ in 0..numbers.below(3) {
        text.push(format!("field={},{}", numbers.below(9), numbers.below(2)));
    }
    if depth > 0 && numbers.once_in(2) {
        for _ in 0..=numbers.below(2) {
            let tag = numbers.below(9);
            text.push(format!(
                "group={tag},{},{}",
                numbers.below(9),
                numbers.below(2)
            ));
            random_body(numbers, depth - 1, true, text);
            text.push(format!("end={tag}"));
        }
    }
    if uses {
        for _ in 0..numbers.below(2) {
            text.push(format!("use={},{}", numbers.below(9), numbers.below(2)));
        }
    }
}

/// Dictionaries made up, as they are and with lines out, in, twice or in
/// other places.
fn random_dictionaries(cases: &mut Cases) {
    let mut numbers = Numbers::new(3);
    for _ in 0..900 {
        let mut text = random_dictionary(&mut numbers);
        for _ in 0..numbers.below(3) {
            damage_lines(&mut numbers, &mut text, DICTIONARY_LINES);
        }
        cases.lines(&text.join(" "));
    }
}

/// One line out, in, twice, or changed for another.
pub fn damage_lines(numbers: &mut Numbers, text: &mut Vec<String>, forms: &[&str]) {
    if text.is_empty() {
        return;
    }
    let place = numbers.place(text.len());
    let other = numbers.place(text.len());
    match numbers.below(6) {
        0 => {
            text.remove(place);
        }
        1 => text.insert(place, (*numbers.pick(forms)).to_string()),
        2 => text.insert(other, text[place].clone()),
        3 => text.swap(place, other),
        4 => text[place] = text[other].clone(),
        _ => text.truncate(place + 1),
    }
}

// ---- layout texts

fn whole_layouts(cases: &mut Cases) {
    cases.lines("");
    cases.lines(SMALL_LAYOUT);
    cases.lines("member=35 member=453 required=35 group=453,448,1 member=447 member=448 required=447 end=453");
    // The layouts of the examples.
    for (text, msg_type) in EXAMPLES.iter().zip(["J", "D", "J", "W"]) {
        let dict = texts::dictionary(text).expect("an accepted dictionary text");
        let layout = layouts::expand(&dict, msg_type)
            .map(|expansion| expansion.layout())
            .unwrap_or_default();
        cases.add(layouts::layout_text(&layout).into_bytes());
    }
    // A group that is its own delimiter, and one in a group of its count tag.
    cases.lines("member=1 group=1,1,0 member=1 end=1");
    cases.lines("member=1 group=1,1,0 member=1 group=1,1,0 member=1 end=1 end=1");
    // Required tags are not looked at.
    cases.lines("required=7 required=7 required=4294967295");
    cases.lines("member=1 group=1,2,0 member=2 required=2 required=9 required=9 end=1");
}

pub const LAYOUT_LINES: &[&str] = &[
    "member=1",
    "member=20",
    "member=4294967295",
    "required=1",
    "required=20",
    "group=9,9,0",
    "group=3,9,1",
    "group=20,20,1",
    "end=3",
    "end=5",
    "end=9",
    "end=0",
    "end=03",
    "end=D",
    "end=header",
    "field=1,0",
    "use=1,0",
    "def=1,Int",
    "value=1",
    "begin=header",
    "component=1",
    "message=D,app",
    "x",
    "",
];

fn layout_stages() -> Vec<Stage> {
    let mut stages = Vec::new();
    let levels = [
        ("member=3 member=9", ""),
        ("member=3 group=3,4,0 member=4 member=5", "end=3"),
        (
            "member=3 group=3,4,0 member=4 member=5 group=5,6,1 member=6",
            "end=5 end=3",
        ),
    ];
    for (level, below) in levels {
        for above in ["", "required=9", "member=9 group=9,10,0 member=10 end=9"] {
            stages.push((format!("{level} {above}"), below.to_string()));
        }
    }
    for (level, below) in [
        ("", ""),
        ("member=3 group=3,4,0", "member=4 end=3"),
        ("group=3,4,0", "member=4 end=3"),
        (
            "member=3 group=3,4,0 member=4 member=5 group=5,6,0",
            "member=6 end=5 end=3",
        ),
        ("member=3 member=20 group=3,4,0 member=4 end=3", ""),
    ] {
        stages.push((level.to_string(), below.to_string()));
    }
    // Ways to go on behind a group that a line opens.
    for below in [
        "member=9 end=9",
        "member=20 end=20",
        "member=9 end=3",
        "member=9 end=9 end=3",
        "member=20 end=20 end=3",
        "member=9 end=9 end=5 end=3",
    ] {
        stages.push(("member=3 member=9".to_string(), below.to_string()));
    }
    stages
}

fn layout_numbers(cases: &mut Cases) {
    for number in NUMBERS {
        let mut add = |text: String| cases.lines(&text);
        add(format!("member={number}"));
        add(format!("required={number}"));
        add(format!(
            "member={number} group={number},1,0 member=1 end={number}"
        ));
        add(format!("member=1 group=1,{number},0 member={number} end=1"));
        add(format!("member=1 group=1,2,0 member=2 end={number}"));
        add(format!("end={number}"));
    }
}

fn layout_flags(cases: &mut Cases) {
    for flag in FLAGS {
        cases.lines(&format!("member=1 group=1,2,{flag} member=2 end=1"));
    }
    for flag in [&b" 1"[..], b"1 ", b"1\r", b"\x001", b"1\0", b"\x31\x80"] {
        let line = [b"group=1,2,", flag].concat();
        cases.with_line("member=1 * member=2 end=1", &line);
    }
}

fn other_layout_lines(cases: &mut Cases) {
    for line in [
        &b""[..],
        b" ",
        b"=",
        b"member",
        b"member=",
        b"member=5,",
        b"member=5,0",
        b"member=5 ",
        b"member= 5",
        b" member=5",
        b"member =5",
        b"member=5\r",
        b"member=5\0",
        b"member=\xb2",
        b"Member=5",
        b"members=5",
        b"membe=5",
        b"member==5",
        b"required",
        b"required=",
        b"required=5,1",
        b"Required=5",
        b"require=5",
        b"group=5",
        b"group=5,6",
        b"group=5,6,",
        b"group=5,6,0,",
        b"group=5,,0",
        b"group=,6,0",
        b"end",
        b"end=",
        b"end=4,",
        b"end=04",
        b"end=D",
        b"end=header",
        b"end=trailer",
        b"field=5,0",
        b"use=5,0",
        b"def=5,Int",
        b"value=5",
        b"begin=header",
        b"component=5",
        b"message=D,app",
        b"\0",
        b"\xff",
    ] {
        cases.with_line("member=4 * member=6", line);
        cases.with_line("member=4 group=4,1,0 member=1 * end=4", line);
    }
    for text in [SMALL_LAYOUT, "member=1"] {
        let text = String::from_utf8(lines(text)).expect("ASCII");
        cases.add(text.replace('\n', "\r\n").into_bytes());
        cases.add(text.replace('\n', "\n\n").into_bytes());
        cases.add(text.replace('\n', "\r").into_bytes());
        cases.add(text.replace('\n', "\0").into_bytes());
        cases.add(format!("\n{text}").into_bytes());
        cases.add(format!("{text}\n").into_bytes());
        cases.add(format!("{text} ").into_bytes());
        cases.add(format!("{text}\0").into_bytes());
    }
}

/// A layout of `count` groups, each in the one before, that meets the rules.
fn nested_layout(count: usize) -> String {
    let mut text = "member=1 ".to_string();
    for tag in 1..=count {
        text += &format!("group={tag},100,0 ");
        if tag < count {
            text += &format!("member={} ", tag + 1);
        }
        text += "member=100 ";
    }
    let close: String = (1..=count).rev().map(|tag| format!("end={tag} ")).collect();
    text + &close
}

fn open_groups_of_a_layout(cases: &mut Cases) {
    for count in [1, 2, 33, 34, 39, 40, 41, 42, 60] {
        cases.lines(&nested_layout(count));
        cases.lines(&nested(count, ""));
        cases.lines(&nested(count, "member=1"));
        cases.lines(&nested(count, "required=1 member=1"));
    }
    let open: String = (1..=40).map(|tag| format!("group={tag},0,0 ")).collect();
    for fault in [
        "group=41,0,0",
        "group=41,0,2",
        "group=041,0,0",
        "end=40 group=40,0,0 group=41,0,0",
        "end=39",
    ] {
        cases.lines(&format!("{open} {fault}"));
    }
    cases.add([lines(&open), b"group=41,0,0".to_vec()].concat());
    cases.lines(&"group=1,0,0 member=0 end=1 ".repeat(45));
    for count in [40, 41] {
        cases.parts(&[(count, b"group=7,7,1\nmember=7\n"), (count, b"end=7\n")]);
        cases.parts(&[
            (1, b"member=7\n"),
            (count, b"group=7,7,1\nmember=7\n"),
            (count, b"end=7\n"),
        ]);
        cases.parts(&[(count, b"group=7,7,1\nmember=7\n")]);
    }
}

/// Each rule broken alone and with others, at the top and below.
fn broken_rules(cases: &mut Cases) {
    // Ways to break the rules of an entry of a group with delimiter 5, and a
    // whole one.
    let entries = [
        "member=5 member=6",
        "member=6 member=5",
        "member=5 member=5",
        "member=6 member=7",
        "",
        "member=5 member=8 group=8,1,0 member=1 end=8 group=8,1,0 member=1 end=8",
        "member=5 member=8 member=9 group=9,1,0 member=1 end=9 group=8,1,0 member=1 end=8",
        "member=5 group=8,1,0 member=1 end=8",
        "member=7 member=5 group=8,1,0 member=1 end=8",
        "member=6 group=8,1,0 member=1 end=8",
        "member=5 group=9,1,0 member=1 end=9 group=8,1,0 member=1 end=8",
        "group=8,1,0 end=8",
        "member=5 group=8,1,0 end=8",
    ];
    for entry in entries {
        cases.lines(&format!("member=3 group=3,5,0 {entry} end=3"));
        cases.lines(&format!("group=3,5,0 {entry} end=3"));
        cases.lines(&format!("member=4 member=3 group=3,5,1 {entry} end=3"));
        cases.lines(&format!(
            "member=2 group=2,3,0 member=3 group=3,5,0 {entry} end=3 end=2"
        ));
        cases.lines(&format!(
            "member=2 group=2,3,0 group=3,5,0 {entry} end=3 end=2"
        ));
        for other in entries {
            cases.lines(&format!(
                "member=3 member=4 group=3,5,0 {entry} end=3 group=4,5,1 {other} end=4"
            ));
            cases.lines(&format!(
                "member=3 member=4 group=4,5,0 {entry} end=4 group=3,5,1 {other} end=3"
            ));
        }
    }
    // Rules 5 to 7 at the top.
    let good = |tag: u32| format!("group={tag},5,0 member=5 end={tag}");
    for members in [
        "",
        "member=3",
        "member=4",
        "member=3 member=4",
        "member=4 member=3",
        "member=3 member=3 member=4",
    ] {
        cases.lines(members);
        for (first, second) in [(3, 4), (4, 3), (3, 3), (4, 4)] {
            cases.lines(&format!("{members} {} {}", good(first), good(second)));
        }
        cases.lines(&format!("{members} {}", good(3)));
    }
    // The limits of tags.
    for tag in [0u32, 1, 4_294_967_294, 4_294_967_295] {
        cases.lines(&format!("group={tag},1,0 member=1 end={tag}"));
        cases.lines(&format!("member={tag} group={tag},{tag},0 end={tag}"));
        cases.lines(&format!(
            "member={tag} group={tag},{tag},0 member={tag} group=5,6,0 member=6 end=5 end={tag}"
        ));
        cases.lines(&format!(
            "member={tag} group={tag},{tag},0 member={tag} member={tag} end={tag}"
        ));
    }
    cases.lines("member=0 member=4294967295");
    cases.lines("member=4294967295 member=0");
    cases.lines("member=2147483647 member=2147483648");
    cases.lines("member=2147483648 member=2147483647");
}

fn many_required(cases: &mut Cases) {
    for count in [2_047, 2_048, 2_049, 5_000] {
        cases.parts(&[(count, b"required=1\n")]);
        cases.parts(&[(1, b"member=2\nmember=1\n"), (count, b"required=1\n")]);
        cases.parts(&[
            (1, b"member=1\ngroup=1,2,0\nmember=2\n"),
            (count, b"required=1\n"),
            (1, b"end=1\n"),
        ]);
        cases.parts(&[
            (1, b"member=1\n"),
            (count - 1_000, b"required=1\n"),
            (1, b"group=1,2,0\nmember=2\n"),
            (1_000, b"required=1\n"),
            (1, b"end=1\n"),
        ]);
        // 2, 3 and 4 come first.
        cases.parts(&[(count, b"required=1\n"), (1, b"member=1\n")]);
        cases.parts(&[(count, b"required=1\n"), (1, b"required=01\n")]);
        cases.parts(&[(count, b"required=1\n"), (1, b"group=1,2,0\n")]);
        cases.parts(&[(count, b"required=1\n"), (41, b"group=1,2,0\n")]);
    }
}

fn long_layouts(cases: &mut Cases) {
    for size in [LONGEST_TEXT - 1, LONGEST_TEXT, LONGEST_TEXT + 1] {
        cases.parts(&[(size, b"\n")]);
        cases.parts(&[(size, b"\0")]);
        cases.parts(&[(1, b"member="), (size - 8, b"1"), (1, b"\n")]);
        // Lines of 9 bytes, and the last as long as is left.
        let last = format!("member=1{}\n", "0".repeat(size % 9)).into_bytes();
        cases.parts(&[((size - last.len()) / 9, b"member=1\n"), (1, &last)]);
    }
    // Accepted, and one byte too long: as many required tags as there may be.
    let required: &[u8] = b"required=4294967295\n";
    for size in [LONGEST_TEXT, LONGEST_TEXT + 1] {
        let members = members_of_size(size - 2_048 * required.len());
        cases.parts(&[(1, &members), (2_048, required)]);
    }
    cases.parts(&[(7_281, b"member=1\n")]);
    cases.parts(&[(7_282, b"member=1\n")]);
    cases.parts(&[(5_957, b"required=1\n")]);
    cases.parts(&[(70_000, b"x")]);
    cases.parts(&[(131_072, b"\n")]);
    // Many members, all in order, the last two out of order, or two alike.
    let ascending: String = (0..600).map(|tag| format!("member={tag} ")).collect();
    cases.lines(&ascending);
    cases.lines(&format!("{ascending} member=598"));
    cases.lines(&format!("{ascending} member=599"));
    cases.lines(&format!("{ascending} group=599,7,0 member=7 end=599"));
    cases.lines(&format!("{ascending} group=600,7,0 member=7 end=600"));
    let groups: String = (0..200)
        .map(|tag| format!("group={tag},1,0 member=1 end={tag} "))
        .collect();
    let members: String = (0..200).map(|tag| format!("member={tag} ")).collect();
    cases.lines(&format!("{members} {groups}"));
    cases.lines(&format!(
        "{members} {groups} group=199,1,0 member=1 end=199"
    ));
    cases.lines(&format!(
        "{members} {groups} group=200,1,0 member=1 end=200"
    ));
}

/// Ascending members whose lines have that size together: 18 bytes for a tag
/// of ten digits, and one or two shorter tags ahead for the rest.
fn members_of_size(size: usize) -> Vec<u8> {
    let count = size.div_ceil(18);
    let short = 18 * count - size;
    let shorter = [short.min(9), short.saturating_sub(9)];
    let members = (0..count).map(|place| match shorter.get(place) {
        Some(digits) if *digits > 0 => "1".repeat(10 - digits),
        _ => (4_000_000_000 + place).to_string(),
    });
    members
        .flat_map(|tag| format!("member={tag}\n").into_bytes())
        .collect()
}

/// The lines of a level: of few tags, ascending as a rule.
pub fn random_level(numbers: &mut Numbers, depth: u64, text: &mut Vec<String>) {
    let mut members: Vec<u64> = (1..=6).filter(|_| numbers.below(3) != 0).collect();
    if numbers.once_in(12) && members.len() > 1 {
        let place = numbers.place(members.len());
        members.swap(0, place);
    }
    for tag in &members {
        text.push(format!("member={tag}"));
    }
    for _ in 0..numbers.below(2) {
        text.push(format!("required={}", numbers.below(8)));
    }
    if depth == 0 {
        return;
    }
    let mut tags: Vec<u64> = members
        .iter()
        .copied()
        .filter(|_| numbers.once_in(3))
        .collect();
    if numbers.once_in(10) {
        tags.push(numbers.below(7));
    }
    if numbers.once_in(10) {
        tags.reverse();
    }
    for tag in tags {
        let start = text.len();
        text.push(String::new());
        random_level(numbers, depth - 1, text);
        // A delimiter among the members, as a rule.
        let first = text
            .get(start + 1)
            .and_then(|line| line.strip_prefix("member="));
        let delimiter = match first {
            Some(first) if !numbers.once_in(8) => first.to_string(),
            _ => numbers.below(7).to_string(),
        };
        text[start] = format!("group={tag},{delimiter},{}", numbers.below(2));
        text.push(format!("end={tag}"));
    }
}

fn random_layouts(cases: &mut Cases) {
    let mut numbers = Numbers::new(4);
    for _ in 0..1_200 {
        let mut text = Vec::new();
        random_level(&mut numbers, 3, &mut text);
        if numbers.once_in(4) {
            damage_lines(&mut numbers, &mut text, LAYOUT_LINES);
        }
        cases.lines(&text.join(" "));
    }
}
