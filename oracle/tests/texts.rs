//! Which texts document 01 accepts, and the refusal and place of every other.

use oracle::reader;
use oracle::refusal::Refusal;
use oracle::values::{FIELD_TYPES, name_of};

/// Lines parted by spaces.
fn lines(text: &str) -> Vec<u8> {
    text.split_whitespace()
        .flat_map(|line| format!("{line}\n").into_bytes())
        .collect()
}

/// `accepted LINES` or `refused N P`.
fn answer(accepted: Result<u64, Refusal>) -> String {
    match accepted {
        Ok(lines) => format!("accepted {lines}"),
        Err(refusal) => refusal.recorded(),
    }
}

fn dictionary(text: &[u8]) -> String {
    answer(reader::dictionary(text).map(|lines| lines.len() as u64))
}

fn layout(text: &[u8]) -> String {
    answer(reader::layout(text).map(|(_, lines)| lines))
}

fn message(text: &[u8]) -> String {
    answer(reader::message(text).map(|rows| rows.len() as u64))
}

/// Lines parted by spaces, and what becomes of them.
fn dictionary_is(text: &str, expected: &str) {
    assert_eq!(dictionary(&lines(text)), expected, "{text}");
}

fn layout_is(text: &str, expected: &str) {
    assert_eq!(layout(&lines(text)), expected, "{text}");
}

/// The header and the trailer, four lines without anything in them.
const ENVELOPE: &str = "begin=header end=header begin=trailer end=trailer";

/// A body's lines in a message: line 6 on.
fn in_message(body: &str) -> String {
    format!("{ENVELOPE} message=D,app {body} end=D")
}

/// A line is of a known form if it is not refused with 2.
fn is_known(line: &[u8]) -> bool {
    let text = [line, b"\n"].concat();
    reader::dictionary(&text) != Err(Refusal::new(2, 1))
}

fn is_known_in_a_layout(line: &[u8]) -> bool {
    let text = [line, b"\n"].concat();
    reader::layout(&text).err() != Some(Refusal::new(2, 1))
}

/// Numbers of 32 bits as they are written, and others.
const NUMBERS: [&str; 5] = ["0", "1", "10", "4294967294", "4294967295"];
const NO_NUMBERS: [&str; 20] = [
    "",
    "00",
    "01",
    "04294967295",
    "4294967296",
    "4294967297",
    "9999999999",
    "10000000000",
    "18446744073709551616",
    "18446744073709551617",
    "340282366920938463463374607431768211456",
    "+1",
    "-1",
    "-0",
    " 1",
    "1 ",
    "1.0",
    "1a",
    "0x1",
    "1_0",
];

// ---- lines and forms

#[test]
fn a_text_over_65536_bytes_is_refused_with_1() {
    let fill = |size: usize| {
        let mut text = b"def=1,String\n".to_vec();
        let rest = lines(ENVELOPE);
        while text.len() + rest.len() + 8 <= size {
            text.extend_from_slice(b"value=A\n");
        }
        let value = size - text.len() - rest.len();
        if value > 0 {
            text.truncate(text.len() - 8);
            let longer = "A".repeat(value + 1);
            text.extend_from_slice(format!("value={longer}\n").as_bytes());
        }
        text.extend_from_slice(&rest);
        assert_eq!(text.len(), size);
        text
    };
    assert!(dictionary(&fill(65_535)).starts_with("accepted "));
    assert!(dictionary(&fill(65_536)).starts_with("accepted "));
    assert_eq!(dictionary(&fill(65_537)), "refused 1 0");
    // Length comes before every line.
    assert_eq!(dictionary(&[b'\n'; 65_536]), "refused 2 1");
    assert_eq!(dictionary(&[b'\n'; 65_537]), "refused 1 0");
    assert_eq!(layout(&[0; 65_536]), "refused 2 1");
    assert_eq!(layout(&[0; 65_537]), "refused 1 0");
    assert_eq!(message(&[b'x'; 65_536]), "refused 2 1");
    assert_eq!(message(&[b'x'; 65_537]), "refused 1 0");
}

#[test]
fn a_last_line_without_its_line_feed_has_no_form() {
    assert_eq!(dictionary(b"def=1,Int"), "refused 2 1");
    assert_eq!(dictionary(b"begin=header"), "refused 2 1");
    // Out of place as well, and the text stops early: 2 is lower.
    assert_eq!(dictionary(b"begin=header\nend=trailer"), "refused 2 2");
    let whole = lines(ENVELOPE);
    assert_eq!(dictionary(&whole), "accepted 4");
    assert_eq!(dictionary(&whole[..whole.len() - 1]), "refused 2 4");
    assert_eq!(layout(b"member=1"), "refused 2 1");
    assert_eq!(layout(b"member=1\nend=1"), "refused 2 2");
    assert_eq!(message(b"35=D\n55=X"), "refused 2 2");
    // A line above decides first.
    assert_eq!(dictionary(b"end=header\nbegin=header"), "refused 3 1");
}

#[test]
fn nothing_is_trimmed_or_skipped() {
    for line in [
        &b""[..],
        b" ",
        b"=",
        b"def",
        b"def=",
        b"def =1,Int",
        b" def=1,Int",
        b"def=1,Int ",
        b"def= 1,Int",
        b"def=1 ,Int",
        b"def=1, Int",
        b"def=1,Int\r",
        b"begin=header\r",
        b"def=1,Int\0",
        b"\0def=1,Int",
        b"def=1,\0Int",
        b"\xef\xbb\xbfdef=1,Int",
        b"DEF=1,Int",
        b"Def=1,Int",
        b"# a comment",
        b"def:1,Int",
        b"field=1,1\t",
        b"value=\xc3\xa9",
        b"value=\x80",
        b"value=\xff",
        b"message=\xc3\xa9,app",
        b"unknown=1",
    ] {
        assert!(!is_known(line), "{:?}", String::from_utf8_lossy(line));
    }
    assert_eq!(
        dictionary(b"begin=header\nend=header\n\nbegin=trailer\nend=trailer\n"),
        "refused 2 3"
    );
    let windows = String::from_utf8(lines(ENVELOPE)).expect("ASCII");
    let windows = windows.replace('\n', "\r\n");
    assert_eq!(dictionary(windows.as_bytes()), "refused 2 1");
}

#[test]
fn types_are_spelled_as_the_variants() {
    for field_type in FIELD_TYPES {
        let name = name_of(field_type);
        let known = |name: &str| is_known(format!("def=1,{name}").as_bytes());
        assert!(known(&name));
        assert!(!known(&name.to_uppercase()));
        assert!(!known(&name.to_lowercase()));
        assert!(!known(&name[1..]));
        assert!(!known(&name[..name.len() - 1]));
        assert!(!known(&format!("{name}s")));
        assert!(!known(&format!("{name} ")));
    }
    for name in [
        "UTCTimestamp",
        "UTCTIMESTAMP",
        "MultipleValueString",
        "Quantity",
        "XID",
        "NumINGroup",
        "Reserved100Plus",
        "UtcDate",
        "Time",
        "Date",
        "14",
        "",
    ] {
        assert!(!is_known(format!("def=1,{name}").as_bytes()), "{name}");
    }
}

#[test]
fn numbers_have_32_bits_and_no_leading_zeros() {
    let forms: [fn(&str) -> String; 8] = [
        |number| format!("def={number},Int"),
        |number| format!("component={number}"),
        |number| format!("field={number},0"),
        |number| format!("group={number},1,0"),
        |number| format!("group=1,{number},0"),
        |number| format!("use={number},0"),
        |number| format!("member={number}"),
        |number| format!("required={number}"),
    ];
    for (place, form) in forms.into_iter().enumerate() {
        let known = if place < 6 {
            is_known
        } else {
            is_known_in_a_layout
        };
        for number in NUMBERS {
            assert!(known(form(number).as_bytes()), "{}", form(number));
        }
        for number in NO_NUMBERS {
            assert!(!known(form(number).as_bytes()), "{}", form(number));
        }
    }
    // An `end` line of a layout text names a count tag.
    for number in NUMBERS {
        assert!(is_known_in_a_layout(format!("end={number}").as_bytes()));
    }
    for number in NO_NUMBERS {
        assert!(!is_known_in_a_layout(format!("end={number}").as_bytes()));
    }
}

#[test]
fn required_is_1_or_0() {
    for (required, known) in [
        ("0", true),
        ("1", true),
        ("", false),
        ("2", false),
        ("00", false),
        ("01", false),
        ("10", false),
        ("+1", false),
        ("-0", false),
        ("Y", false),
        ("N", false),
        (" 1", false),
        ("1 ", false),
    ] {
        for line in [
            format!("field=1,{required}"),
            format!("group=1,2,{required}"),
            format!("use=1,{required}"),
        ] {
            assert_eq!(is_known(line.as_bytes()), known, "{line}");
        }
        let line = format!("group=1,2,{required}");
        assert_eq!(is_known_in_a_layout(line.as_bytes()), known, "{line}");
    }
}

#[test]
fn message_types_are_1_to_4_letters_or_digits() {
    for (msg_type, known) in [
        ("", false),
        ("D", true),
        ("d", true),
        ("0", true),
        ("00", true),
        ("AE", true),
        ("a1Z9", true),
        ("0453", true),
        ("ABCDE", false),
        ("-", false),
        ("A-", false),
        ("A ", false),
        (" A", false),
        ("A.B", false),
        ("_", false),
        ("é", false),
        ("/", false),
        (":", false),
        ("@", false),
        ("[", false),
        ("`", false),
        ("{", false),
    ] {
        for category in ["app", "admin"] {
            let line = format!("message={msg_type},{category}");
            assert_eq!(is_known(line.as_bytes()), known, "{line}");
        }
        let line = format!("end={msg_type}");
        assert_eq!(is_known(line.as_bytes()), known, "{line}");
    }
    // Two types that differ in case.
    dictionary_is(
        &format!("{ENVELOPE} message=D,app end=D message=d,admin end=d"),
        "accepted 8",
    );
}

#[test]
fn values_are_1_to_32_bytes_from_21_to_7e() {
    for byte in 0..=255u8 {
        let mut line = b"value=".to_vec();
        line.push(byte);
        let known = byte != b'\n' && (0x21..=0x7e).contains(&byte);
        assert_eq!(is_known(&line), known, "{byte:02x}");
        line.push(b'A');
        assert_eq!(is_known(&line), known, "{byte:02x}");
    }
    for (size, known) in [(0, false), (1, true), (31, true), (32, true), (33, false)] {
        let line = format!("value={}", "~".repeat(size));
        assert_eq!(is_known(line.as_bytes()), known, "{size}");
    }
    // The key ends at the first `=`; the value may hold more, and commas.
    for line in ["value==", "value=a=b", "value=,", "value=a,b", "value=,,"] {
        assert!(is_known(line.as_bytes()), "{line}");
    }
    for line in ["value=A B", "value= A", "value=A ", "value=\t"] {
        assert!(!is_known(line.as_bytes()), "{line}");
    }
}

#[test]
fn an_end_line_of_any_form_is_known() {
    // In message D, behind which nothing else is open.
    for (end, expected) in [
        ("D", "accepted 6"),
        ("E", "refused 3 6"),
        ("header", "refused 3 6"),
        ("trailer", "refused 3 6"),
        ("453", "refused 3 6"),
        ("99999", "refused 3 6"),
        ("4294967295", "refused 3 6"),
        ("4294967296", "refused 2 6"),
        ("0", "refused 3 6"),
        ("0453", "refused 3 6"),
        ("00453", "refused 2 6"),
        ("headers", "refused 2 6"),
        ("Header", "refused 2 6"),
        ("message", "refused 2 6"),
        ("", "refused 2 6"),
        ("D,app", "refused 2 6"),
    ] {
        dictionary_is(&format!("{ENVELOPE} message=D,app end={end}"), expected);
    }
    // In a group: `end=0453` has the form of a T, and does not close it.
    for (end, expected) in [
        ("453", "accepted 8"),
        ("0453", "refused 3 7"),
        ("00453", "refused 2 7"),
        ("D", "refused 3 7"),
        ("header", "refused 3 7"),
    ] {
        let text = in_message(&format!("group=453,448,0 end={end}"));
        dictionary_is(&text, expected);
    }
    // A message may be called 0453; then `end=453` does not close it.
    dictionary_is(
        &format!("{ENVELOPE} message=0453,app end=0453"),
        "accepted 6",
    );
    dictionary_is(
        &format!("{ENVELOPE} message=0453,app end=453"),
        "refused 3 6",
    );
}

#[test]
fn each_kind_of_text_has_its_own_forms() {
    for line in [
        "end=D",
        "end=header",
        "end=trailer",
        "end=01",
        "end=",
        "field=1,0",
        "use=1,0",
        "def=1,Int",
        "value=A",
        "begin=header",
        "component=1",
        "message=D,app",
        "member=1,1",
        "required=1,0",
        "member=",
        "member",
    ] {
        assert!(!is_known_in_a_layout(line.as_bytes()), "{line}");
    }
    for line in ["member=1", "required=1", "members=1"] {
        assert!(!is_known(line.as_bytes()), "{line}");
    }
}

#[test]
fn a_form_has_its_parts_and_no_more() {
    for line in [
        "field=1",
        "field=1,0,0",
        "field=,0",
        "field=1,",
        "field=",
        "group=1,2",
        "group=1,2,0,0",
        "group=1,2,0,",
        "group=1,,0",
        "group=,2,0",
        "use=1",
        "use=1,0,",
        "def=1",
        "def=1,Int,",
        "def=1,Int,Int",
        "def=,Int",
        "message=D",
        "message=D,",
        "message=D,App",
        "message=D,ADMIN",
        "message=D,app,",
        "message=D,admin,app",
        "message=,app",
        "component=1,1",
        "component=",
        "begin=message",
        "begin=Header",
        "begin=header,",
        "begin=",
        "end=header,",
        "def=1=Int",
        "field=1=1",
    ] {
        assert!(!is_known(line.as_bytes()), "{line}");
    }
}

// ---- places in the text

#[test]
fn values_follow_a_definition() {
    dictionary_is(&format!("value=A {ENVELOPE}"), "refused 3 1");
    dictionary_is(
        &format!("def=1,Int value=A value=A {ENVELOPE}"),
        "accepted 7",
    );
    dictionary_is("def=1,Int begin=header value=A", "refused 3 3");
    dictionary_is(
        "def=1,Int begin=header end=header value=A begin=trailer end=trailer",
        "refused 3 4",
    );
    dictionary_is(&format!("def=1,Int {ENVELOPE} value=A"), "refused 3 6");
    dictionary_is(
        &format!("def=1,Int value=A def=2,Int value=B {ENVELOPE}"),
        "accepted 8",
    );
}

#[test]
fn header_and_trailer_are_needed_and_nothing_else() {
    dictionary_is(ENVELOPE, "accepted 4");
    dictionary_is("begin=header end=header", "refused 3 3");
    dictionary_is("begin=header end=header begin=trailer", "refused 3 4");
    dictionary_is("begin=trailer end=trailer", "refused 3 1");
    dictionary_is("begin=header end=header message=D,app end=D", "refused 3 3");
    dictionary_is("begin=header end=header component=1 end=1", "refused 3 3");
    dictionary_is("def=1,Int", "refused 3 2");
    dictionary_is(&format!("{ENVELOPE} component=1 end=1"), "accepted 6");
}

#[test]
fn the_order_is_definitions_header_trailer_components_messages() {
    for (text, expected) in [
        ("begin=header def=1,Int", "refused 3 2"),
        ("begin=header end=header def=1,Int", "refused 3 3"),
        ("begin=header begin=header", "refused 3 2"),
        ("begin=header end=header begin=header", "refused 3 3"),
        ("begin=header begin=trailer", "refused 3 2"),
        (
            "begin=header end=header begin=trailer begin=trailer",
            "refused 3 4",
        ),
        ("begin=header end=header end=header", "refused 3 3"),
        ("end=header", "refused 3 1"),
        ("field=1,0", "refused 3 1"),
        ("group=1,2,0", "refused 3 1"),
        ("use=1,0", "refused 3 1"),
        ("component=1", "refused 3 1"),
        ("message=D,app", "refused 3 1"),
    ] {
        dictionary_is(text, expected);
    }
    for (behind, expected) in [
        ("begin=header", "refused 3 5"),
        ("begin=trailer", "refused 3 5"),
        ("end=trailer", "refused 3 5"),
        ("def=1,Int", "refused 3 5"),
        ("field=1,0", "refused 3 5"),
        ("group=1,2,0", "refused 3 5"),
        ("use=1,0", "refused 3 5"),
        ("component=1 component=2", "refused 3 6"),
        ("component=1 message=D,app", "refused 3 6"),
        ("component=1 end=1 end=1", "refused 3 7"),
        ("component=1 end=1 field=1,0", "refused 3 7"),
        ("component=1 end=1 component=2 end=2", "accepted 8"),
        ("message=D,app end=D component=1", "refused 3 7"),
        ("message=D,app component=1", "refused 3 6"),
        ("message=D,app message=E,app", "refused 3 6"),
        ("message=D,app end=D end=D", "refused 3 7"),
        ("message=D,app end=D field=1,0", "refused 3 7"),
        ("message=D,app end=D def=1,Int", "refused 3 7"),
        ("message=D,app end=D begin=header", "refused 3 7"),
        ("message=D,app end=D message=E,admin end=E", "accepted 8"),
        ("component=1 end=1 message=D,app end=D", "accepted 8"),
    ] {
        dictionary_is(&format!("{ENVELOPE} {behind}"), expected);
    }
}

#[test]
fn a_body_has_fields_then_groups_then_uses() {
    for (body, expected) in [
        ("field=1,0 field=2,1", "accepted 8"),
        ("field=1,0 group=2,3,0 end=2 use=4,0", "accepted 10"),
        ("use=4,0 use=4,0", "accepted 8"),
        ("group=2,3,0 end=2 field=1,0", "refused 3 8"),
        ("use=4,0 field=1,0", "refused 3 7"),
        ("use=4,0 group=2,3,0", "refused 3 7"),
        ("group=2,3,0 end=2 use=4,0 group=5,6,0", "refused 3 9"),
        ("group=2,3,0 end=2 use=4,0 field=5,0", "refused 3 9"),
        // The same in a group block.
        (
            "group=2,3,0 field=1,0 group=4,5,0 end=4 use=6,1 end=2",
            "accepted 12",
        ),
        ("group=2,3,0 group=4,5,0 end=4 field=1,0", "refused 3 9"),
        ("group=2,3,0 use=6,1 group=4,5,0", "refused 3 8"),
        ("group=2,3,0 use=6,1 field=4,0", "refused 3 8"),
        // A group's uses do not bind the body around.
        (
            "group=2,3,0 use=6,1 end=2 group=4,5,0 end=4 use=6,0",
            "accepted 12",
        ),
    ] {
        dictionary_is(&in_message(body), expected);
    }
}

#[test]
fn header_and_trailer_have_no_uses_but_their_groups_may() {
    dictionary_is("begin=header use=1,0", "refused 3 2");
    dictionary_is("begin=header field=8,1 use=1,0", "refused 3 3");
    dictionary_is(
        "begin=header group=627,628,0 end=627 use=1,0",
        "refused 3 4",
    );
    dictionary_is(
        "begin=header end=header begin=trailer use=1,0",
        "refused 3 4",
    );
    dictionary_is(
        "begin=header group=627,628,0 use=1,0 end=627 end=header \
         begin=trailer group=1,2,0 group=3,4,0 use=1,0 end=3 use=5,1 end=1 end=trailer",
        "accepted 13",
    );
}

#[test]
fn a_text_that_stops_early_has_the_line_behind_the_last_as_its_place() {
    assert_eq!(dictionary(b""), "refused 3 1");
    assert_eq!(layout(b""), "accepted 0");
    assert_eq!(message(b""), "accepted 0");
    dictionary_is("begin=header", "refused 3 2");
    dictionary_is(&format!("{ENVELOPE} component=1"), "refused 3 6");
    dictionary_is(&format!("{ENVELOPE} message=D,app"), "refused 3 6");
    dictionary_is(
        &format!("{ENVELOPE} message=D,app group=1,2,0"),
        "refused 3 7",
    );
    dictionary_is(
        &format!("{ENVELOPE} message=D,app group=1,2,0 end=1"),
        "refused 3 8",
    );
    layout_is("member=1 group=1,2,0", "refused 3 3");
}

#[test]
fn an_end_line_closes_the_innermost_block() {
    dictionary_is(
        &format!("{ENVELOPE} message=453,app group=453,448,0 end=453 end=453"),
        "accepted 8",
    );
    dictionary_is(
        &format!("{ENVELOPE} message=453,app group=453,448,0 end=453"),
        "refused 3 8",
    );
    dictionary_is(&in_message("group=1,2,0 group=3,4,0 end=1"), "refused 3 8");
    dictionary_is(
        &format!("{ENVELOPE} component=5 group=5,5,0 group=5,5,0 end=5 end=5 end=5"),
        "accepted 10",
    );
    // A component and a message that share a name.
    dictionary_is(
        &format!("{ENVELOPE} component=5 end=5 message=5,app end=5"),
        "accepted 8",
    );
}

#[test]
fn of_two_faults_on_a_line_the_lower_number_is_given() {
    dictionary_is("def=35,Int def=35,Foo", "refused 2 2");
    dictionary_is("def=35,Int begin=header def=35,Int", "refused 3 3");
    dictionary_is(
        &format!("{ENVELOPE} component=1 component=1"),
        "refused 3 6",
    );
    dictionary_is(
        &format!("{ENVELOPE} component=1 end=1 message=D,app end=D component=1"),
        "refused 3 9",
    );
    dictionary_is(
        &format!("{ENVELOPE} message=D,app message=D,app"),
        "refused 3 6",
    );
    assert_eq!(dictionary(b"def=1,Int\ndef=1,Int"), "refused 2 2");
    let open: String = (1..=40).map(|tag| format!("group={tag},0,0 ")).collect();
    dictionary_is(&in_message(&format!("{open} group=41,0,0")), "refused 4 46");
    dictionary_is(&in_message(&format!("{open} group=41,0,2")), "refused 2 46");
    dictionary_is(
        &in_message(&format!("{open} use=1,0 group=41,0,0")),
        "refused 3 47",
    );
    dictionary_is(&in_message(&format!("{open} def=1,Int")), "refused 3 46");
    // A fault above decides, whatever its number.
    dictionary_is("def=1,Int def=1,Int nonsense", "refused 5 2");
}

// ---- refusals 4 and 5

#[test]
fn forty_groups_may_be_open() {
    let open = |count: u32| -> String {
        let groups = (1..=count).map(|tag| format!("group={tag},0,0 member=0 "));
        groups.collect()
    };
    let close = |count: u32| -> String {
        let ends = (1..=count).rev().map(|tag| format!("end={tag} "));
        ends.collect()
    };
    let body = |count: u32| {
        let text = format!("{}{}", open(count), close(count));
        text.replace("member=0 ", "")
    };
    dictionary_is(&in_message(&body(40)), "accepted 86");
    dictionary_is(&in_message(&body(41)), "refused 4 46");
    // Blocks of other kinds do not count, closed groups neither.
    dictionary_is(
        &format!("{ENVELOPE} component=1 {} {} end=1", body(40), body(40)),
        "accepted 166",
    );
    dictionary_is(
        &format!(
            "begin=header {} end=header begin=trailer end=trailer",
            body(41)
        ),
        "refused 4 42",
    );
    dictionary_is(
        &format!(
            "begin=header {} end=header begin=trailer {} end=trailer",
            body(40),
            body(40)
        ),
        "accepted 164",
    );
    // A layout text likewise; its rules come later.
    layout_is(
        &format!("{}{}", open(40), close(40)),
        "refused 11 17179869223",
    );
    layout_is(&format!("{}{}", open(41), close(41)), "refused 4 81");
    layout_is(&format!("{} group=41,0,0", open(40)), "refused 4 81");
    layout_is(&format!("{} group=41,0,2", open(40)), "refused 2 81");
    let siblings = "group=1,0,0 member=0 end=1 ".repeat(41);
    layout_is(&siblings, "refused 11 21474836480");
}

#[test]
fn tags_components_and_types_are_defined_once() {
    dictionary_is(&format!("def=1,Int def=1,Int {ENVELOPE}"), "refused 5 2");
    dictionary_is(
        &format!("def=1,Int value=A def=1,Char {ENVELOPE}"),
        "refused 5 3",
    );
    dictionary_is(
        &format!("def=1,Int def=2,Int def=1,Int {ENVELOPE}"),
        "refused 5 3",
    );
    dictionary_is(
        &format!("{ENVELOPE} component=1 end=1 component=1"),
        "refused 5 7",
    );
    dictionary_is(
        &format!("{ENVELOPE} message=D,app end=D message=D,admin end=D"),
        "refused 5 7",
    );
    // Lines that may stand twice.
    dictionary_is(
        &in_message("field=1,0 field=1,1 group=1,1,0 end=1 group=1,1,0 end=1 use=1,0 use=1,0"),
        "accepted 14",
    );
    dictionary_is(
        &format!("def=1,Int value=1 value=1 {ENVELOPE}"),
        "accepted 7",
    );
    layout_is("required=1 required=1", "accepted 2");
    // A name of each kind.
    dictionary_is(
        &format!("def=5,Int {ENVELOPE} component=5 end=5 message=5,app end=5"),
        "accepted 9",
    );
    // Nothing says that a body's tags and components must be defined.
    dictionary_is(&in_message("field=9,1 use=9,1"), "accepted 8");
    // `01` is a type of its own.
    dictionary_is(
        &format!("{ENVELOPE} message=1,app end=1 message=01,app end=01"),
        "accepted 8",
    );
}

#[test]
fn a_component_is_defined_at_its_line() {
    dictionary_is(
        &format!("{ENVELOPE} component=5 component=5"),
        "refused 3 6",
    );
    dictionary_is(
        &format!("{ENVELOPE} component=5 use=5,1 use=6,1 end=5 component=6 end=6"),
        "accepted 10",
    );
}

// ---- layout texts

#[test]
fn a_level_has_members_then_required_then_groups() {
    layout_is(
        "member=1 member=2 required=2 group=2,3,1 member=3 end=2",
        "accepted 6",
    );
    layout_is("required=1 member=1", "refused 3 2");
    layout_is(
        "member=1 group=1,2,0 member=2 end=1 member=3",
        "refused 3 5",
    );
    layout_is(
        "member=1 group=1,2,0 member=2 end=1 required=3",
        "refused 3 5",
    );
    layout_is("member=1 group=1,2,0 required=9 member=2", "refused 3 4");
    layout_is("end=1", "refused 3 1");
    layout_is("member=1 group=1,2,0 member=2 end=2", "refused 3 4");
    layout_is("member=1 group=1,2,0 member=2 end=1 end=1", "refused 3 5");
    // Required tags need be no members, may repeat and may be the delimiter.
    layout_is("required=7 group=7,7,0", "refused 3 3");
    layout_is("required=7 required=7", "accepted 2");
    layout_is(
        "member=1 group=1,2,0 member=2 required=2 required=9 end=1",
        "accepted 6",
    );
    // A group may be its own delimiter and hold a group of its own count tag.
    layout_is(
        "member=1 group=1,1,0 member=1 group=1,1,0 member=1 end=1 end=1",
        "accepted 7",
    );
}

#[test]
fn required_entries_over_2048_are_refused_with_10_before_11() {
    layout_is(&"required=1 ".repeat(2_048), "accepted 2048");
    layout_is(&"required=1 ".repeat(2_049), "refused 10 0");
    layout_is(
        &format!("member=2 member=1 {}", "required=1 ".repeat(2_048)),
        "refused 11 25769803776",
    );
    layout_is(
        &format!("member=2 member=1 {}", "required=1 ".repeat(2_049)),
        "refused 10 0",
    );
    // All levels together.
    let half = "required=1 ".repeat(1_024);
    let text = |more: &str| format!("member=1 {half} group=1,2,0 member=2 {half} {more} end=1");
    layout_is(&text(""), "accepted 2052");
    layout_is(&text("required=1"), "refused 10 0");
    // 3 comes first.
    layout_is(
        &format!("{} member=1", "required=1 ".repeat(2_049)),
        "refused 3 2050",
    );
}

#[test]
fn the_first_broken_rule_is_given() {
    let place = |rule: u64, tag: u32| Refusal::of_rule(rule, tag).recorded();
    for (text, rule, tag) in [
        ("member=9 group=9,1,0 member=2 member=1 end=9", 1, 9),
        ("member=9 group=9,1,0 member=1 member=1 end=9", 1, 9),
        ("member=9 group=9,1,0 member=2 end=9", 2, 9),
        ("member=9 group=9,1,0 end=9", 2, 9),
        (
            "member=9 group=9,1,0 member=1 member=3 group=3,5,0 member=5 end=3 group=3,5,0 member=5 end=3 end=9",
            3,
            9,
        ),
        (
            "member=9 group=9,1,0 member=1 group=3,5,0 member=5 end=3 end=9",
            4,
            9,
        ),
        (
            "member=3 group=3,5,0 member=5 end=3 group=3,5,0 member=5 end=3",
            5,
            0,
        ),
        ("member=3 member=3", 6, 0),
        ("group=3,5,0 member=5 end=3", 7, 0),
        // The lowest rule of a group.
        ("group=9,9,0 member=2 member=1 end=9", 1, 9),
        (
            "group=9,9,0 member=2 group=3,5,0 member=5 end=3 end=9",
            2,
            9,
        ),
        // A nested group ends before the group around it, and the top last.
        (
            "member=2 member=1 group=9,9,0 member=8 group=3,5,0 end=3 end=9",
            2,
            3,
        ),
        ("group=8,8,0 member=8 end=8 group=7,7,0 end=7", 2, 7),
        (
            "member=2 member=1 group=8,8,0 member=8 end=8 group=7,7,0 member=7 end=7",
            5,
            0,
        ),
        ("member=2 member=1 group=8,8,0 member=8 end=8", 6, 0),
        // Groups that end earlier come first, wherever they begin.
        (
            "group=8,8,0 group=5,5,0 end=5 end=8 group=7,7,0 end=7",
            2,
            5,
        ),
        (
            "group=8,8,0 group=5,5,0 member=5 end=5 end=8 group=7,7,0 end=7",
            2,
            8,
        ),
        // The largest place.
        (
            "group=4294967295,1,0 member=1 group=4,5,0 member=5 end=4 end=4294967295",
            4,
            u32::MAX,
        ),
    ] {
        layout_is(text, &place(rule, tag));
    }
}

// ---- msg.txt

#[test]
fn a_message_line_is_a_tag_and_any_value() {
    for (text, expected) in [
        (&b"35=D\n"[..], "accepted 1"),
        (b"35=\n", "accepted 1"),
        (b"35==\n", "accepted 1"),
        (b"35=a=b,c\r\n58=\0\xff\n", "accepted 2"),
        (b"0=x\n4294967295=y\n", "accepted 2"),
        (b"35=D\n4294967296=x\n", "refused 2 2"),
        (b"035=D\n", "refused 2 1"),
        (b" 35=D\n", "refused 2 1"),
        (b"=D\n", "refused 2 1"),
        (b"35\n", "refused 2 1"),
        (b"\n", "refused 2 1"),
        (b"35=D\n\n", "refused 2 2"),
        (b"35=D", "refused 2 1"),
        (b"\xff=D\n", "refused 2 1"),
    ] {
        assert_eq!(
            message(text),
            expected,
            "{:?}",
            String::from_utf8_lossy(text)
        );
    }
    assert_eq!(
        reader::message(b"35=D\n1=\n2=a=b\n"),
        Ok(vec![[35, 3, 4], [1, 7, 7], [2, 10, 13]])
    );
}
