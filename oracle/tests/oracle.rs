//! The oracle on document 01's own examples, and on itself.

use oracle::answers::Kind;
use oracle::events::{DEEP, Event};
use oracle::layouts::{self, Expansion, HandMade, Refused};
use oracle::numbers::Numbers;
use oracle::refusal::Refusal;
use oracle::schema::{Dictionary, FieldType};
use oracle::validator::ValidationError;
use oracle::values::{self, FIELD_TYPES};
use oracle::walks::{self, Top};
use oracle::{expansion, reader, texts, verdicts};

/// Lines parted by spaces.
fn lines(text: &str) -> Vec<u8> {
    text.split_whitespace()
        .flat_map(|line| format!("{line}\n").into_bytes())
        .collect()
}

fn dictionary(text: &str) -> Dictionary {
    texts::dictionary(&lines(text)).expect("an accepted dictionary text")
}

fn message(text: &str) -> texts::Message {
    texts::message(&lines(text)).expect("an accepted message")
}

fn hand_made(text: &str) -> HandMade {
    let level = texts::layout(&lines(text)).expect("an accepted layout text");
    layouts::hand_made(&level).expect("a layout that meets the rules")
}

fn expansion<'d>(dict: &'d Dictionary, msg_type: &str) -> Expansion<'d> {
    let expanded = layouts::expand(dict, msg_type);
    expanded.unwrap_or_else(|refused| panic!("{refused:?}"))
}

/// The expansion of a type and the nodes spent, or the refusal. The Rust
/// agrees.
fn expand<'d>(dict: &'d Dictionary, msg_type: &str) -> Result<(Expansion<'d>, usize), Refusal> {
    expansion::expand(dict, msg_type).expect("the Rust agrees")
}

fn nodes(dict: &Dictionary, msg_type: &str) -> usize {
    expand(dict, msg_type).expect("an expansion").1
}

fn event_lines(events: &[Event]) -> Vec<String> {
    events.iter().map(Event::to_string).collect()
}

/// The events of a group walk from position 0, `kind:group:depth:a:b` each,
/// and the position behind.
fn walk(layout: &str, msg: &str, count_tag: u32) -> (String, usize) {
    let layout = hand_made(layout);
    let msg = message(msg);
    let (events, behind) =
        walks::group_walk(&msg.fields(), 0, count_tag, Top::HandMade(&layout)).expect("a group");
    let events: Vec<String> = events
        .iter()
        .map(|event| {
            let words: Vec<String> = event.0.iter().map(u64::to_string).collect();
            words.join(":")
        })
        .collect();
    (events.join(" "), behind)
}

const DICT: &str = "def=35,String def=448,String def=447,Char value=D def=453,NumInGroup \
    begin=header field=35,1 end=header begin=trailer end=trailer \
    message=D,app group=453,448,1 field=447,1 end=453 end=D";

#[test]
fn one_list_in_full() {
    let dict = dictionary(DICT);
    let msg = message("35=D 453=2 448=A 447=D 448=B");
    assert_eq!(msg.msg_type(), "D");
    let fields = msg.fields();
    let expansion = expansion(&dict, "D");
    assert_eq!(nodes(&dict, "D"), 1);
    let events = walks::checked_message_walk(&fields, &dict, "D", &expansion);
    assert_eq!(
        event_lines(&events.expect("the Rust agrees")),
        [
            "event=enter group=453 depth=0 a=0 b=0",
            "event=close group=453 depth=0 a=0 b=2",
            "event=close group=453 depth=0 a=1 b=1",
            "event=leave group=453 depth=0 a=1 b=2",
        ]
    );
    assert_eq!(verdicts::verdicts(&fields, &dict, false), [0; 5]);
}

#[test]
fn verdict_digits() {
    let dict = dictionary(
        "def=1,Int def=2,Char value=A value=B def=3,MultipleCharValue value=A value=B \
         def=4,MonthYear value=202401 begin=header end=header begin=trailer end=trailer",
    );
    let text =
        b"1=5\n9=5\n1=x\n2=A\n2=C\n2=AB\n3=A B\n3=A C\n3=A  B\n4=202401\n4=202402\n4=202413\n4=x\n";
    let msg = texts::message(text).expect("an accepted message");
    let plain = [0, 1, 2, 0, 3, 2, 0, 3, 2, 0, 3, 3, 2];
    let strict = [0, 1, 2, 0, 3, 2, 0, 3, 2, 0, 3, 2, 2];
    assert_eq!(verdicts::verdicts(&msg.fields(), &dict, false), plain);
    assert_eq!(verdicts::verdicts(&msg.fields(), &dict, true), strict);
}

#[test]
fn counts() {
    let count = |value: &str| values::parse_count(value.as_bytes());
    assert_eq!(count(""), None);
    assert_eq!(count("007"), Some(7));
    assert_eq!(count("18446744073709551615"), Some(u64::MAX));
    assert_eq!(count("18446744073709551616"), None);
    assert_eq!(count("+1"), None);
}

#[test]
fn values_of_document_01() {
    let plain = |field_type, value: &str| values::is_valid_value(field_type, value.as_bytes());
    let strict =
        |field_type, value: &str| values::is_strictly_valid_value(field_type, value.as_bytes());
    assert!(plain(FieldType::Int, "-0"));
    assert!(!plain(FieldType::Int, "-"));
    assert!(plain(FieldType::Price, "5."));
    assert!(!plain(FieldType::Price, "."));
    assert!(plain(FieldType::DayOfMonth, "0031"));
    assert!(!plain(FieldType::DayOfMonth, "32"));
    assert!(plain(FieldType::MultipleCharValue, "A B"));
    assert!(!plain(FieldType::MultipleCharValue, "A  B"));
    assert!(plain(FieldType::MonthYear, "202402w5"));
    assert!(!plain(FieldType::MonthYear, "202402w6"));
    assert!(plain(FieldType::MonthYear, "202413"));
    assert!(!strict(FieldType::MonthYear, "202413"));
    assert!(plain(FieldType::UtcTimeOnly, "09:30:00.123456789012"));
    assert!(!plain(FieldType::UtcTimeOnly, "09:30:00.1234567890123"));
    assert!(values::is_valid_value(FieldType::Char, b"\xff"));
    assert!(values::is_valid_value(FieldType::Char, b"\xe2\x82"));
    assert!(!values::is_valid_value(FieldType::Char, b"\xc0\x80"));
}

#[test]
fn field_types_stand_in_the_order_of_the_enum() {
    for (number, field_type) in FIELD_TYPES.into_iter().enumerate() {
        assert_eq!(values::number_of(field_type), number);
        let name = values::name_of(field_type);
        assert_eq!(values::field_type_named(&name), Some(field_type));
    }
}

/// A message of `count` groups, each nested in the one before.
fn nested_groups(count: usize) -> Dictionary {
    let open: String = (1..=count)
        .map(|tag| format!("group={tag},1000,0 "))
        .collect();
    let close: String = (1..=count).rev().map(|tag| format!("end={tag} ")).collect();
    dictionary(&format!(
        "begin=header end=header begin=trailer end=trailer message=D,app {open}{close}end=D"
    ))
}

#[test]
fn nested_33_expand_and_34_do_not() {
    assert_eq!(nodes(&nested_groups(33), "D"), 33);
    assert_eq!(
        layouts::expand(&nested_groups(34), "D").err(),
        Some(Refused::Schema(vec![ValidationError::SchemaTooDeep {
            name: "34".to_string(),
            limit: 32,
        }]))
    );
    assert_eq!(
        expand(&nested_groups(34), "D").err(),
        Some(Refusal::new(8, 34))
    );
}

/// 64 groups, each of its delimiter alone, in a component used 63 times, and
/// `more` such groups.
fn many_nodes(more: usize) -> Dictionary {
    let groups = |count: usize| -> String {
        (1..=count)
            .map(|tag| format!("group={tag},1000,0 end={tag} "))
            .collect()
    };
    dictionary(&format!(
        "begin=header end=header begin=trailer end=trailer component=7 {} end=7 \
         message=D,app {} {} end=D",
        groups(64),
        groups(more),
        "use=7,1 ".repeat(63),
    ))
}

#[test]
fn nodes_4096_are_good_and_4097_are_not() {
    assert_eq!(nodes(&many_nodes(1), "D"), 4096);
    assert_eq!(
        layouts::expand(&many_nodes(2), "D").err(),
        Some(Refused::Schema(vec![ValidationError::SchemaTooLarge {
            limit: 4096
        }]))
    );
    // Two groups, 62 uses of 65 nodes each, a use, and 64 groups in it: the
    // last is node 4,097.
    assert_eq!(expand(&many_nodes(2), "D").err(), Some(Refusal::new(9, 64)));
}

#[test]
fn expansion_follows_document_01() {
    let dict = dictionary(
        "begin=header field=8,1 group=627,628,0 use=1,1 end=627 end=header \
         begin=trailer field=10,1 end=trailer \
         component=1 field=5,1 group=50,51,1 end=50 use=1,1 end=1 \
         message=D,app field=8,1 field=11,0 group=50,52,0 field=52,1 field=53,1 field=53,1 end=50 \
         use=1,0 end=D",
    );
    assert_eq!(
        layouts::expansion_lines(&expansion(&dict, "D"), nodes(&dict, "D")),
        "nodes=8\n\
         level=top members=5,8,10,11,50,627 required=8,10,8 groups=50,627\n\
         group=50 delimiter=52 required=0\n\
         level=50 members=52,53 required=53 groups=-\n\
         group=627 delimiter=628 required=0\n\
         level=627 members=5,50,628 required=5 groups=50\n\
         group=627/50 delimiter=51 required=1\n\
         level=627/50 members=51 required=- groups=-\n"
    );
    assert_eq!(
        layouts::expand(&dict, "E").err(),
        Some(Refused::UnknownMsgType)
    );
    assert_eq!(expand(&dict, "E").err(), Some(Refusal::new(6, 0)));
}

/// Members and required entries are counted before anything is dropped, and
/// as they are met.
#[test]
fn members_8192_and_required_2048_are_good_and_one_more_is_not() {
    let met = |components: &str, body: &str| {
        let dict = dictionary(&format!(
            "begin=header end=header begin=trailer end=trailer {components} message=D,app {body} end=D"
        ));
        expand(&dict, "D").map(|(_, nodes)| nodes)
    };
    let over = Err(Refusal::new(10, 0));
    let members = format!(
        "component=1 {} end=1 component=2 field=5,0 end=2",
        "field=5,0 ".repeat(512)
    );
    let most = "use=1,1 ".repeat(16);
    assert_eq!(met(&members, &most), Ok(16));
    assert_eq!(met(&members, &format!("{most} use=2,0")), over);
    assert_eq!(
        met(&members, &format!("{most} use=9,0 use=2,0")),
        Err(Refusal::new(7, 9))
    );
    assert_eq!(met(&members, &format!("{most} use=2,0 use=9,0")), over);
    // A group adds its count tag and its delimiter.
    assert_eq!(met(&members, &format!("group=1,2,0 end=1 {most}")), over);
    let required = members.replace(",0", ",1");
    let most = "use=1,1 ".repeat(4);
    assert_eq!(met(&required, &most), Ok(4));
    assert_eq!(met(&required, &format!("{most} use=2,1")), over);
    assert_eq!(met(&required, &format!("{most} use=2,0")), Ok(5));
}

#[test]
fn an_undefined_component_is_named() {
    let dict = dictionary(
        "begin=header end=header begin=trailer end=trailer message=D,admin use=12,1 use=3,0 end=D",
    );
    let refused = layouts::expand(&dict, "D").err().expect("a refusal");
    assert_eq!(
        layouts::error_lines(&refused),
        "error=7 name=12\nerror=7 name=3\n"
    );
    assert_eq!(expand(&dict, "D").err(), Some(Refusal::new(7, 12)));
}

#[test]
fn small_walks() {
    // A nested group of count 0 ends only at a tag of the level around.
    let nested = "member=9 group=9,1,0 member=1 group=1,2,0 member=2 end=1 end=9";
    assert_eq!(
        walk(nested, "9=1 1=0 2=v", 9),
        (
            "1:9:0:0:0 1:1:1:0:0 5:1:1:0:1 6:1:1:0:1 8:1:1:0:1 5:9:0:0:1 8:9:0:1:1".to_string(),
            3
        )
    );
    let one = "member=9 group=9,1,0 member=1 end=9";
    assert_eq!(
        walk(one, "9=0 1=v", 9),
        ("1:9:0:0:0 5:9:0:0:1 6:9:0:0:1 8:9:0:0:1".to_string(), 2)
    );
    // The delimiter is a nested count tag.
    let own = "member=9 group=9,1,0 member=1 group=1,1,0 member=1 end=1 end=9";
    assert_eq!(
        walk(own, "9=1 1=0", 9),
        (
            "1:9:0:0:0 1:1:1:0:0 8:1:1:1:0 5:9:0:0:1 8:9:0:1:1".to_string(),
            2
        )
    );
    assert_eq!(
        walk(own, "9=2 1=0 1=0", 9),
        (
            "1:9:0:0:0 1:1:1:0:0 8:1:1:1:0 5:9:0:0:1 1:1:1:0:0 8:1:1:1:0 5:9:0:1:1 8:9:0:1:2"
                .to_string(),
            3
        )
    );
    // The level around has the tag.
    let around = "member=2 member=9 group=9,1,0 member=1 member=2 end=9";
    assert_eq!(
        walk(around, "9=0 2=v", 9),
        ("1:9:0:0:0 8:9:0:1:0".to_string(), 1)
    );
    assert_eq!(
        walk(around, "9=1 1=v 2=v", 9),
        ("1:9:0:0:0 5:9:0:0:2 8:9:0:1:1".to_string(), 3)
    );
    assert_eq!(
        walk(
            "member=1 member=9 group=9,1,0 member=1 end=9",
            "9=1 1=v 1=v",
            9
        ),
        ("1:9:0:0:0 5:9:0:0:1 8:9:0:1:1".to_string(), 2)
    );
    // The level around a nested group is the group it stands in, and a tag in
    // a nested entry is not one of the entry around.
    let nested = "member=2 member=9 group=9,1,0 member=1 group=1,2,0 member=2 end=1 end=9";
    assert_eq!(
        walk(nested, "9=1 1=0 2=v", 9),
        (
            "1:9:0:0:0 1:1:1:0:0 5:1:1:0:1 6:1:1:0:1 8:1:1:0:1 5:9:0:0:1 8:9:0:1:1".to_string(),
            3
        )
    );
    let both = "member=9 group=9,1,0 member=1 member=2 group=1,2,0 member=2 end=1 end=9";
    assert_eq!(
        walk(both, "9=1 1=1 2=v 2=v", 9),
        (
            "1:9:0:0:0 1:1:1:0:0 5:1:1:0:1 8:1:1:1:1 5:9:0:0:2 8:9:0:1:1".to_string(),
            4
        )
    );
    // A count that is none, a member ahead of the delimiter, a tag twice.
    assert_eq!(
        walk(around, "9=x 2=v 2=v 1=v", 9),
        (
            "1:9:0:0:0 2:9:0:0:0 3:9:0:2:0 4:9:0:2:0 5:9:0:0:1 5:9:0:1:1 8:9:0:0:2".to_string(),
            4
        )
    );
    // A position outside of the table.
    let (events, behind) = walk(one, "", 9);
    assert_eq!((events.as_str(), behind), ("", 0));
}

#[test]
fn badcount_has_the_position_of_its_field() {
    let layout = hand_made("member=9 group=9,1,0 member=1 group=1,2,0 member=2 end=1 end=9");
    let msg = message("7= 9=1 1= 2=");
    let (events, behind) =
        walks::group_walk(&msg.fields(), 1, 9, Top::HandMade(&layout)).expect("a group");
    assert_eq!(behind, 4);
    assert!(events.contains(&Event([2, 1, 1, 2, 0])));
}

#[test]
fn deep_has_the_depth_the_group_would_have_had() {
    // Group k has count tag k + 100 and delimiter 1; depth 0 to 39.
    let mut layout = "member=100 ".to_string();
    for tag in 100..140 {
        layout.push_str(&format!("group={tag},1,0 member=1 "));
        if tag < 139 {
            layout.push_str(&format!("member={} ", tag + 1));
        }
    }
    for tag in (100..140).rev() {
        layout.push_str(&format!("end={tag} "));
    }
    let open: String = (100..133).map(|tag| format!("{tag}=1 1=v ")).collect();
    let layout = hand_made(&layout);
    let msg = message(&format!("{open} 133=1"));
    let (events, _) =
        walks::group_walk(&msg.fields(), 0, 100, Top::HandMade(&layout)).expect("a group");
    let deep: Vec<&Event> = events.iter().filter(|event| event.0[0] == DEEP).collect();
    assert_eq!(deep, [&Event([DEEP, 133, 33, 0, 0])]);
    let last = events.last().expect("events");
    assert_eq!(*last, Event([8, 100, 0, 1, 1]));
}

#[test]
fn seven_rules() {
    let broken = |text: &str| {
        let (level, _) = reader::ruleless_layout(&lines(text)).expect("an accepted layout text");
        layouts::broken_rule(layouts::hand_made(&level).err().expect("a broken rule"))
    };
    let group = |inner: &str| format!("member=9 group=9,1,0 {inner} end=9");
    assert_eq!(broken(&group("member=2 member=1")), (1, 9));
    assert_eq!(broken(&group("member=2")), (2, 9));
    let nested = "group=3,5,0 member=5 end=3";
    assert_eq!(
        broken(&group(&format!("member=1 member=3 {nested} {nested}"))),
        (3, 9)
    );
    assert_eq!(broken(&group(&format!("member=1 {nested}"))), (4, 9));
    assert_eq!(broken(&format!("member=3 {nested} {nested}")), (5, 0));
    assert_eq!(broken("member=3 member=3"), (6, 0));
    assert_eq!(broken(nested), (7, 0));
}

#[test]
fn texts_that_are_not_accepted() {
    let empty = "begin=header end=header begin=trailer end=trailer";
    assert!(texts::dictionary(&lines(empty)).is_ok());
    for text in [
        "",
        "begin=header end=header",
        "begin=header field=035,1 end=header begin=trailer end=trailer",
        "begin=header use=1,1 end=header begin=trailer end=trailer",
        "def=35,STRING begin=header end=header begin=trailer end=trailer",
        "def=1,Int def=1,Int begin=header end=header begin=trailer end=trailer",
        "begin=header end=header begin=trailer end=trailer message=D,app use=1,1 field=1,1 end=D",
    ] {
        assert!(texts::dictionary(&lines(text)).is_err(), "{text}");
    }
    assert!(texts::message(b"35=D").is_err());
    assert!(texts::message(b"=D\n").is_err());
    assert!(texts::layout(&lines("required=1 member=1")).is_err());
}

#[test]
fn errors_are_worded_as_in_the_rust() {
    let error = ValidationError::MissingRequiredField {
        tag: 35,
        name: "MsgType".to_string(),
    };
    assert_eq!(error.to_string(), "missing required field MsgType(35)");
}

/// A body over tags 1 to 9, groups nested to that depth.
fn body(numbers: &mut Numbers, depth: u64) -> String {
    let mut text = String::new();
    for _ in 0..numbers.below(4) {
        text += &format!("field={},{} ", 1 + numbers.below(9), numbers.below(2));
    }
    for _ in 0..if depth == 0 { 0 } else { numbers.below(3) } {
        let tag = 1 + numbers.below(9);
        let head = format!("group={tag},{},{} ", 1 + numbers.below(9), numbers.below(2));
        text += &format!("{head}{}end={tag} ", body(numbers, depth - 1));
    }
    text
}

/// The loop of `Validator::validate` was written again for the recorder; it
/// and the Rust's own say the same of many messages.
#[test]
fn message_walks_agree_with_the_validator() {
    let mut numbers = Numbers::new(1);
    let mut events = 0;
    for _ in 0..20_000 {
        let mut text = String::new();
        for tag in 1..=9 {
            if numbers.below(8) != 0 {
                text += &format!("def={tag},String ");
            }
        }
        text += &format!("begin=header {}end=header ", body(&mut numbers, 1));
        text += "begin=trailer field=10,1 end=trailer ";
        text += &format!("message=D,app {}end=D", body(&mut numbers, 3));
        let dict = dictionary(&text);
        let expansion = expansion(&dict, "D");
        let msg: String = (0..numbers.below(12))
            .map(|_| {
                let value = ["0", "1", "2", "3", "x", ""][numbers.below(6) as usize];
                format!("{}={value} ", 1 + numbers.below(10))
            })
            .collect();
        let msg = message(&msg);
        let walked = walks::checked_message_walk(&msg.fields(), &dict, "D", &expansion)
            .unwrap_or_else(|error| panic!("{text}: {error}"));
        // The same layout by the Rust's other constructors.
        let layout = hand_made(&layouts::layout_text(&expansion.layout()));
        assert_eq!(
            walks::message_walk(&msg.fields(), &dict, Top::HandMade(&layout)),
            walked
        );
        events += walked.len();
    }
    assert!(events > 100_000);
}

#[test]
fn the_recorded_lists_are_the_oracles_answers() {
    for (kind, _, file) in Kind::ALL {
        let path = format!(
            "{}/../crates/replay/data/{file}",
            env!("CARGO_MANIFEST_DIR")
        );
        let list = std::fs::read_to_string(path).expect("a recorded list");
        let no_comment = |line: &&str| !line.starts_with('#');
        let recorded: Vec<&str> = list.lines().filter(no_comment).collect();
        let answers = kind.answers(&kind.cases()).expect("answers");
        let answers: Vec<&str> = answers.lines().filter(no_comment).collect();
        assert!(recorded == answers, "{file} is not what the oracle says");
        let longest = recorded.iter().map(|line| line.len()).max();
        assert!(
            longest <= Some(60_000),
            "{file} has a line of {longest:?} bytes"
        );
    }
}
