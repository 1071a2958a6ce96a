//! A gate that owns its dictionary: whole messages, malformed ones, and the layouts that it keeps.

use order_gate::{
    Error, Event, FieldFault, Gate, Kind, MOST_FIELDS, MOST_MESSAGE_BYTES, Malformed, Reason,
    Refusal, Separator, Verdict,
};
use std::fs;
use std::path::PathBuf;

/// A file of the repository.
fn file(name: &str) -> Vec<u8> {
    let path = PathBuf::from(env!("CARGO_MANIFEST_DIR")).join("../..").join(name);
    fs::read(&path).unwrap_or_else(|error| panic!("{}: {error}", path.display()))
}

/// The lines of a file of examples/, one field each, as a message separated by byte 01.
fn example(name: &str) -> Vec<u8> {
    file(name).into_iter().map(|byte| if byte == b'\n' { 1 } else { byte }).collect()
}

fn gate(dictionary: &str) -> Gate {
    Gate::new(&file(dictionary)).expect("an accepted dictionary")
}

/// The small dictionary of the C tests, for messages separated by `|`.
fn orders() -> Gate {
    gate("bindings/c/tests/order.dict").with_separator(Separator::Pipe)
}

fn reasons(gate: &mut Gate, message: &[u8]) -> Vec<String> {
    let judgement = gate.judge(message).expect("a message");
    let reasons: Vec<String> = judgement.reasons().map(|reason| reason.to_string()).collect();
    assert_eq!(judgement.passes(), reasons.is_empty());
    reasons
}

#[test]
fn block_orders_are_judged() {
    let mut gate = gate("examples/block-order/block-order.dict");
    for (name, expected) in [
        ("whole", &[][..]),
        ("allocation-lost", &["group 78, depth 0: its count says 3, its entries are 2"]),
        (
            "fields-out-of-entry",
            &[
                "group 78, depth 0: tag 80 stands twice in an entry",
                "group 78, depth 0: tag 467 stands twice in an entry",
            ],
        ),
        ("count-lies", &["group 78, depth 0: its count says 2, its entries are 3"]),
        ("nested-count-lies", &["group 539, depth 1: its count says 2, its entries are 1"]),
        // What a walk does not see (examples/block-order/README.md).
        ("parties-in-another-entry", &[]),
        ("quantity-missing", &[]),
        ("allocation-named-twice", &[]),
    ] {
        let message = example(&format!("examples/block-order/{name}.msg"));
        assert_eq!(reasons(&mut gate, &message), expected, "{name}");
    }
}

#[test]
fn messages_of_fix_44_pass() {
    for name in ["new-order-single", "allocation-instruction", "market-data-snapshot"] {
        let mut gate = gate(&format!("examples/fix44/{name}.dict"));
        let message = example(&format!("examples/fix44/{name}.msg"));
        assert_eq!(reasons(&mut gate, &message), [""; 0], "{name}");
    }
}

#[test]
fn a_judgement_holds_what_was_found() {
    let mut gate = orders();
    let judgement = gate.judge(b"35=J|54=9|55=x|78=1|79=A|80=1").expect("a message");
    assert_eq!(judgement.message_type(), b"J");
    assert_eq!(judgement.fields()[3..6], [54, 8, 9]);
    let group = |kind| Event { group: 78, depth: 0, kind };
    let expected = [
        group(Kind::Enter),
        group(Kind::Close { entry: 0, members: 2 }),
        group(Kind::Leave { well_formed: true, entries: 1 }),
    ];
    assert_eq!(judgement.events(), expected);
    let good = Verdict::Good;
    assert_eq!(judgement.verdicts(), [good, Verdict::NotAdmitted, good, good, good, good]);
    let reason = Reason::Value { field: 2, tag: 54, verdict: Verdict::NotAdmitted };
    assert_eq!(judgement.reasons().collect::<Vec<_>>(), [reason]);
    assert!(!judgement.passes());
}

#[test]
fn a_malformed_message_leaves_the_gate_as_it_was() {
    let mut gate = orders();
    let good = b"35=J|54=1|55=x|78=1|79=A|80=1";
    for (message, number, fault) in [
        (&b"35=J|54x1"[..], 2, FieldFault::NoEquals),
        (b"35=J|4294967350=1", 2, FieldFault::TagTooLarge),
        (b"35=J|054=1", 2, FieldFault::LeadingZero),
        (b"35=J|+54=1", 2, FieldFault::TagNotNumber),
        (b"35=J|=1", 2, FieldFault::NoTag),
        (b"35=J|54=", 2, FieldFault::NoValue),
        (b"35=J||54=1", 2, FieldFault::Empty),
        (b"35=J|54=1\0", 2, FieldFault::NulByte),
        (b"35=J|55=a\x01b", 2, FieldFault::SohByte),
        (b"35=J|10=000|54=1", 3, FieldFault::AfterCheckSum),
    ] {
        let malformed = Malformed::Field { number, fault };
        assert_eq!(gate.judge(message).err(), Some(Error::Malformed(malformed)));
        assert_eq!(reasons(&mut gate, good), [""; 0]);
    }
    for (message, malformed) in [
        (&b""[..], Malformed::Empty),
        (b"54=1", Malformed::NoMessageType),
        (&[b'x'; MOST_MESSAGE_BYTES + 1], Malformed::TooLong),
    ] {
        assert_eq!(gate.judge(message).err(), Some(Error::Malformed(malformed)));
    }
}

#[test]
fn a_message_has_at_most_4096_fields() {
    let mut gate = orders();
    let message = |entries: usize, more: &str| {
        format!("35=J|54=1|55=x|78={entries}{}{more}", "|79=A|80=1".repeat(entries))
    };
    assert_eq!(reasons(&mut gate, message(2_046, "").as_bytes()), [""; 0]);
    let malformed = Malformed::Field { number: MOST_FIELDS + 1, fault: FieldFault::TooMany };
    let refused = gate.judge(message(2_046, "|10=000").as_bytes()).err();
    assert_eq!(refused, Some(Error::Malformed(malformed)));
}

#[test]
fn a_pipe_belongs_to_its_value_where_byte_01_separates() {
    let mut gate = orders().with_separator(Separator::Soh);
    let message = b"35=J\x0154=1\x0155=a|54=2\x0178=1\x0179=A\x0180=1\x01";
    assert_eq!(reasons(&mut gate, message), [""; 0]);
}

#[test]
fn layouts_are_kept_by_message_type() {
    let mut gate = orders();
    let layout = gate.layout(b"J").expect("a layout").to_vec();
    assert_eq!(gate.layout(b"J"), Ok(&layout[..]));
    assert_eq!(gate.level_members(b"J", &[78]), Ok(&[79, 80, 90][..]));
    assert_eq!(gate.level_members(b"J", &[78, 90]), Ok(&[91][..]));
    let refused = Error::Refused(Refusal::NoSuchGroup { count_tag: 91 });
    assert_eq!(gate.level_members(b"J", &[91]), Err(refused));
    for _ in 0..2 {
        assert_eq!(gate.layout(b"ZZ"), Err(Error::Refused(Refusal::TypeNotDefined)));
        let component = Refusal::ComponentNotDefined { component: 2 };
        assert_eq!(gate.layout(b"K"), Err(Error::Refused(component)));
    }
    let mut clone = gate.clone();
    assert_eq!(clone.layout(b"J"), Ok(&layout[..]));
    assert_eq!(clone.dictionary(), gate.dictionary());
}

#[test]
fn a_field_table_is_walked_and_judged() {
    let mut gate = orders().with_strict(false);
    // 35=J, 78=2, 79=A, 75=20241301.
    let (fields, message) = ([35, 0, 1, 78, 1, 2, 79, 2, 3, 75, 3, 11], b"J2A20241301");
    let group = |kind| Event { group: 78, depth: 0, kind };
    let expected = [
        group(Kind::Enter),
        group(Kind::Close { entry: 0, members: 1 }),
        group(Kind::Miscount { declared: 2, entries: 1 }),
        group(Kind::Leave { well_formed: false, entries: 1 }),
    ];
    let walked = gate.walk_group(b"J", &fields, message, 1, 78);
    assert_eq!(walked, Ok((&expected[..], 3)));
    let events = gate.walk_message(b"J", &fields, message).expect("events");
    assert_eq!(events[..4], expected);
    let missing = |tag| Event { group: 0, depth: 0, kind: Kind::Missing { tag } };
    assert_eq!(events[4..], [missing(54), missing(55)]);
    assert_eq!(gate.verdicts(&fields, message), Ok(&[Verdict::Good; 4][..]));
    let mut strict = gate.with_strict(true);
    let verdicts = strict.verdicts(&fields, message).expect("verdicts");
    assert_eq!(verdicts[3], Verdict::WrongFormat);
    let refused = Error::Refused(Refusal::BadField { field: 4 });
    assert_eq!(strict.verdicts(&fields, b"J2A"), Err(refused));
    assert_eq!(strict.walk_message(b"J", &fields, b"J2A"), Err(refused));
    assert_eq!(strict.walk_group(b"J", &fields, b"J2A", 1, 78), Err(refused));
}

#[test]
fn a_dictionary_that_is_refused_makes_no_gate() {
    let refused = Gate::new(b"def=054,Char\n").err();
    assert_eq!(refused, Some(Error::Refused(Refusal::UnknownForm { line: 1 })));
    let refused = Gate::new(&[b'a'; 65_537]).err();
    assert_eq!(refused, Some(Error::Refused(Refusal::TextTooLong)));
}

#[test]
fn a_gate_goes_to_another_thread() {
    let mut gate = orders();
    let judged = std::thread::spawn(move || reasons(&mut gate, b"35=J|54=1|55=x|78=0"));
    assert_eq!(judged.join().expect("no panic"), [""; 0]);
}
