//! The words of the library read into events, verdicts and refusals: those that are known, and
//! those that are not.

use order_gate::{Event, Kind, Refusal, Unknown, Verdict, events_in, verdicts_in};

/// Every kind with its words a and b.
const KINDS: [(Kind, u64, u64); 12] = [
    (Kind::Enter, 0, 0),
    (Kind::BadCount { position: 7 }, 7, 0),
    (Kind::Delim { tag: 80 }, 80, 0),
    (Kind::Repeat { tag: u32::MAX }, u32::MAX as u64, 0),
    (Kind::Close { entry: 3, members: 4 }, 3, 4),
    (Kind::Miscount { declared: u64::MAX, entries: 2 }, u64::MAX, 2),
    (Kind::Deep, 0, 0),
    (Kind::Leave { well_formed: true, entries: 2 }, 1, 2),
    (Kind::Leave { well_formed: false, entries: 0 }, 0, 0),
    (Kind::Twice { tag: 54 }, 54, 0),
    (Kind::Foreign { tag: 0 }, 0, 0),
    (Kind::Missing { tag: 35 }, 35, 0),
];

fn group_of(kind: Kind) -> (u32, u32) {
    if kind.is_finding() { (0, 0) } else { (78, 2) }
}

#[test]
fn each_kind_is_read_from_its_words() {
    for (kind, a, b) in KINDS {
        let (group, depth) = group_of(kind);
        let words = [kind.number(), group.into(), depth.into(), a, b];
        assert_eq!(Event::from_words(words), Ok(Event { group, depth, kind }));
        assert_eq!(events_in(&words).collect::<Vec<_>>(), [Ok(Event { group, depth, kind })]);
    }
}

#[test]
fn faults_and_findings_are_those_of_gate_h() {
    for (kind, _, _) in KINDS {
        assert_eq!(kind.is_fault(), [2, 3, 4, 6, 7].contains(&kind.number()), "{kind:?}");
        assert_eq!(kind.is_finding(), [9, 10, 11].contains(&kind.number()), "{kind:?}");
        assert_eq!(kind.stops(), kind.is_fault() || kind.is_finding(), "{kind:?}");
    }
}

#[test]
fn an_unknown_kind_is_an_error_and_hides_nothing() {
    for number in [0, 12, 13, 255, 1 << 32, u64::MAX] {
        let strange = [number, 78, 0, 0, 0];
        let mut words = strange.to_vec();
        words.extend([6, 78, 0, 3, 2]);
        let events: Vec<_> = events_in(&words).collect();
        let miscount = Kind::Miscount { declared: 3, entries: 2 };
        let behind = Event { group: 78, depth: 0, kind: miscount };
        assert_eq!(events, [Err(Unknown::Event { words: strange }), Ok(behind)]);
        assert!(events_in(&words).collect::<Result<Vec<_>, _>>().is_err());
    }
}

#[test]
fn words_that_are_none_of_their_kind_are_an_error() {
    let wide = 1 << 32;
    for words in [
        [1, wide, 0, 0, 0],  // a count tag of 33 bits
        [1, 78, wide, 0, 0], // a depth of 33 bits
        [1, 78, 0, 1, 0],    // enter has no a
        [1, 78, 0, 0, 1],    // and no b
        [2, 78, 0, 1, 1],    // badcount has no b
        [3, 78, 0, wide, 0], // a tag of 33 bits
        [4, 78, 0, wide, 0],
        [4, 78, 0, 80, 1],
        [7, 78, 33, 1, 0],
        [8, 78, 0, 2, 0], // neither well-formed nor not
        [9, 0, 0, wide, 0],
        [10, 78, 0, 54, 0], // a finding has no group
        [11, 0, 1, 54, 0],  // and no depth
        [11, 0, 0, 54, 1],
    ] {
        assert_eq!(Event::from_words(words), Err(Unknown::Event { words }));
    }
}

#[test]
fn part_of_an_event_is_an_error() {
    let words = [1, 78, 0, 0, 0, 8, 78, 0, 1];
    let events: Vec<_> = events_in(&words).collect();
    assert_eq!(events.len(), 2);
    assert_eq!(events[1], Err(Unknown::PartOfEvent { words: 4 }));
    assert_eq!(events_in(&[]).count(), 0);
}

#[test]
fn verdicts_are_0_to_3() {
    let known = [Verdict::Good, Verdict::Undefined, Verdict::WrongFormat, Verdict::NotAdmitted];
    for (word, verdict) in (0..).zip(known) {
        assert_eq!(Verdict::from_word(word), Ok(verdict));
        assert_eq!(verdict.word(), word);
        assert_eq!(verdict.is_good(), word == 0);
    }
    for word in [4, 9, u64::MAX] {
        assert_eq!(Verdict::from_word(word), Err(Unknown::Verdict { word }));
        let verdicts: Vec<_> = verdicts_in(&[0, word, 3]).collect();
        let expected =
            [Ok(Verdict::Good), Err(Unknown::Verdict { word }), Ok(Verdict::NotAdmitted)];
        assert_eq!(verdicts, expected);
    }
}

#[test]
fn refusals_are_1_to_14() {
    for number in 1..=14 {
        // Rule 2 at tag 453; for the other refusals a number like any other.
        let place = (2 << 32) + 453;
        let refusal = Refusal::new(number, place).expect("a refusal");
        assert_eq!(refusal.number(), number);
        assert!([0, place].contains(&refusal.place()), "{refusal:?}");
        assert!(!refusal.to_string().is_empty());
    }
    for number in [0, 15, u64::MAX] {
        assert_eq!(Refusal::new(number, 0), None);
    }
    let refusal = Refusal::RuleBroken { rule: 2, tag: 453 };
    assert_eq!(refusal.to_string(), "group 453 breaks rule 2, the delimiter a member");
    assert_eq!((refusal.number(), refusal.place()), (11, (2 << 32) + 453));
    assert_eq!(
        Refusal::new(11, 9 << 32).map(|refusal| refusal.to_string()).as_deref(),
        Some("group 0 breaks rule 9, unknown")
    );
}

#[test]
fn the_numbers_are_those_of_gate_h() {
    let header = include_str!("../../../include/gate.h");
    let number = |name: &str| {
        let line = header.lines().find(|line| line.trim_start().starts_with(&format!("{name} =")));
        let line = line.unwrap_or_else(|| panic!("{name} is not in gate.h"));
        let digits = line.split(['=', ',', '/']).nth(1).expect("a number").trim();
        digits.parse::<u64>().expect("a number")
    };
    for (kind, _, _) in KINDS {
        let name = format!("{kind:?}");
        let name = name.split(' ').next().expect("the name of the case").to_uppercase();
        assert_eq!(number(&format!("GATE_EVENT_{name}")), kind.number());
    }
    for (name, verdict) in [
        ("GATE_VERDICT_GOOD", Verdict::Good),
        ("GATE_VERDICT_UNDEFINED", Verdict::Undefined),
        ("GATE_VERDICT_WRONG_FORMAT", Verdict::WrongFormat),
        ("GATE_VERDICT_NOT_ADMITTED", Verdict::NotAdmitted),
    ] {
        assert_eq!(number(name), verdict.word());
    }
    for (name, most) in [
        ("GATE_FIELDS", order_gate::MOST_FIELDS),
        ("GATE_DICTIONARY_WORDS", order_gate::MOST_DICTIONARY_WORDS),
        ("GATE_LAYOUT_WORDS", order_gate::MOST_LAYOUT_WORDS),
        ("GATE_TEXT_TOO_LONG", 1),
        ("GATE_NO_SUCH_GROUP", 14),
    ] {
        assert_eq!(number(name), most as u64);
    }
    let version = concat!("#define GATE_VERSION \"", env!("CARGO_PKG_VERSION"), "\"");
    assert!(header.lines().any(|line| line == version), "{version} is not in gate.h");
}
