//! The functions over slices: an answer, its refusals, and the lent words after both.

use order_gate::{Error, Event, Expanded, Kind, Refusal, Unknown, Verdict, Walked};
use order_gate::{event_space, events_in, group_event_space, verdicts_in};

/// Document 01's worked example.
const DICTIONARY: &[u8] = b"def=35,String\ndef=448,String\ndef=447,Char\nvalue=D\n\
    def=453,NumInGroup\nbegin=header\nfield=35,1\nend=header\nbegin=trailer\nend=trailer\n\
    message=D,app\ngroup=453,448,1\nfield=447,1\nend=453\nend=D\n";
/// 35=D, 453=2, 448=A, 447=D, 448=B.
const MESSAGE: &[u8] = b"D2ADB";
const FIELDS: [u32; 15] = [35, 0, 1, 453, 1, 2, 448, 2, 3, 447, 3, 4, 448, 4, 5];
/// The layout of D (docs/ARRANGEMENT.md).
const LAYOUT: [u32; 19] =
    [1, 13, 15, 17, 17, 18, 19, 10, 11, 11, 453, 448, 1, 35, 453, 447, 448, 35, 447];
const EVENTS: [u64; 20] = [1, 453, 0, 0, 0, 5, 453, 0, 0, 2, 5, 453, 0, 1, 1, 8, 453, 0, 1, 2];

/// A word that no answer holds.
const MARK: u32 = 0xABAD_CAFE;

fn refused<T>(refusal: Refusal) -> Result<T, Error> {
    Err(Error::Refused(refusal))
}

fn dictionary() -> Vec<u32> {
    let mut words = vec![MARK; 1_000];
    let count = order_gate::read_dictionary(DICTIONARY, &mut words).expect("an accepted text");
    assert!(words[count..].iter().all(|word| *word == MARK));
    words.truncate(count);
    words
}

/// The events of the words, none of which may be unknown.
fn read(words: &[u64]) -> Vec<Event> {
    events_in(words).collect::<Result<_, Unknown>>().expect("events that are known")
}

#[test]
fn a_dictionary_takes_the_words_that_are_needed() {
    let needed = dictionary().len();
    let mut words = vec![MARK; needed - 1];
    let answer = order_gate::read_dictionary(DICTIONARY, &mut words);
    assert_eq!(answer, refused(Refusal::SpaceShort { words_needed: needed as u64 }));
    assert!(words.iter().all(|word| *word == MARK));
}

#[test]
fn a_broken_text_is_refused_at_its_line() {
    let mut words = [MARK; 100];
    let answer = order_gate::read_dictionary(b"def=35,String\ndef=35,Char\n", &mut words);
    assert_eq!(answer, refused(Refusal::DefinedAgain { line: 2 }));
    let answer = order_gate::read_dictionary(&[b'a'; 65_537], &mut words);
    assert_eq!(answer, refused(Refusal::TextTooLong));
    assert_eq!(words, [MARK; 100]);
}

#[test]
fn a_type_is_laid_out() {
    let mut words = [MARK; 20];
    let expanded = order_gate::expand(&dictionary(), b"D", &mut words);
    assert_eq!(expanded, Ok(Expanded { words: 19, nodes: 1 }));
    assert_eq!(words[..19], LAYOUT);
    assert_eq!(words[19], MARK);
    let answer = order_gate::expand(&dictionary(), b"E", &mut words);
    assert_eq!(answer, refused(Refusal::TypeNotDefined));
    let answer = order_gate::expand(&[7, 7], b"D", &mut words);
    assert_eq!(answer, refused(Refusal::UnknownForm { line: 0 }));
}

#[test]
fn a_layout_text_gives_the_same_words() {
    let text = b"member=35\nmember=453\nrequired=35\ngroup=453,448,1\nmember=447\nmember=448\n\
        required=447\nend=453\n";
    let mut words = [MARK; 20];
    assert_eq!(order_gate::read_layout(text, &mut words), Ok(19));
    assert_eq!(words[..19], LAYOUT);
    assert_eq!(words[19], MARK);
}

#[test]
fn a_level_is_named_by_its_count_tags() {
    assert_eq!(order_gate::level_members(&LAYOUT, &[]), Ok(&[35, 453][..]));
    assert_eq!(order_gate::level_members(&LAYOUT, &[453]), Ok(&[447, 448][..]));
    let answer = order_gate::level_members(&LAYOUT, &[453, 9]);
    assert_eq!(answer, refused(Refusal::NoSuchGroup { count_tag: 9 }));
    let answer = order_gate::level_members(&LAYOUT[..18], &[]);
    assert_eq!(answer, refused(Refusal::RuleBroken { rule: 0, tag: 0 }));
}

#[test]
fn a_group_is_walked() {
    let mut events = [u64::from(MARK); 21];
    let walked = order_gate::walk_group(&LAYOUT, &FIELDS, MESSAGE, 1, 453, &mut events);
    assert_eq!(walked, Ok(Walked { words: 20, position: 5 }));
    assert_eq!(events[..20], EVENTS);
    assert_eq!(events[20], u64::from(MARK));
    let answer = order_gate::walk_group(&LAYOUT, &FIELDS, MESSAGE, 1, 35, &mut events);
    assert_eq!(answer, refused(Refusal::NoSuchGroup { count_tag: 35 }));
    let answer = order_gate::walk_group(&LAYOUT, &FIELDS, &MESSAGE[..4], 1, 453, &mut events);
    assert_eq!(answer, refused(Refusal::BadField { field: 5 }));
    let answer = order_gate::walk_group(&LAYOUT, &FIELDS, MESSAGE, 1, 453, &mut events[..19]);
    assert_eq!(answer, refused(Refusal::SpaceShort { words_needed: 20 }));
}

#[test]
fn a_position_outside_the_table_is_given_back() {
    let mut events = [0; 20];
    for position in [5, 6, usize::MAX] {
        let walked = order_gate::walk_group(&LAYOUT, &FIELDS, MESSAGE, position, 453, &mut events);
        assert_eq!(walked, Ok(Walked { words: 0, position }));
    }
}

#[test]
fn a_message_is_walked() {
    let mut events = [u64::from(MARK); 21];
    let words = order_gate::walk_message(&dictionary(), &LAYOUT, &FIELDS, MESSAGE, &mut events);
    assert_eq!(words, Ok(20));
    assert_eq!(events[..20], EVENTS);
    let group = |kind| Event { group: 453, depth: 0, kind };
    let expected = [
        group(Kind::Enter),
        group(Kind::Close { entry: 0, members: 2 }),
        group(Kind::Close { entry: 1, members: 1 }),
        group(Kind::Leave { well_formed: true, entries: 2 }),
    ];
    assert_eq!(read(&events[..20]), expected);

    let fields = &FIELDS[3..6];
    let words = order_gate::walk_message(&dictionary(), &LAYOUT, fields, MESSAGE, &mut events);
    let expected = [
        group(Kind::Enter),
        group(Kind::Miscount { declared: 2, entries: 0 }),
        group(Kind::Leave { well_formed: false, entries: 0 }),
        Event { group: 0, depth: 0, kind: Kind::Missing { tag: 35 } },
    ];
    assert_eq!(read(&events[..words.expect("room")]), expected);
}

/// A chain of groups, each in the entry of the one before: group k has the count tag 2k + 2, the
/// delimiter 1 and the next count tag as its members. The top has 2,048 required tags, all missing.
fn chain(groups: u32) -> Vec<u32> {
    let mut text = String::from("member=2\n");
    (0..2_048).for_each(|tag| text.push_str(&format!("required={}\n", 1_000 + tag)));
    for tag in (1..=groups).map(|group| 2 * group) {
        text.push_str(&format!("group={tag},1,0\nmember=1\nmember={}\n", tag + 2));
    }
    (1..=groups).rev().for_each(|group| text.push_str(&format!("end={}\n", 2 * group)));
    let mut layout = vec![0; order_gate::MOST_LAYOUT_WORDS];
    let words = order_gate::read_layout(text.as_bytes(), &mut layout).expect("a layout");
    layout.truncate(words);
    layout
}

#[test]
fn the_space_for_events_is_enough() {
    // Each field is the count of the next group of the chain, and no number: 5 events each but 2.
    let fields: Vec<u32> = (1..=33).flat_map(|group| [2 * group, 0, 1]).collect();
    let mut events = vec![0; group_event_space(33)];
    let walked = order_gate::walk_group(&chain(33), &fields, b"x", 0, 2, &mut events);
    assert_eq!(walked, Ok(Walked { words: group_event_space(33) - 10, position: 33 }));

    // 128 chains of 32 fields; every one but the first is there twice. Then what is missing.
    let text = b"def=2,String\nbegin=header\nend=header\nbegin=trailer\nend=trailer\n";
    let mut dictionary = vec![0; 1_000];
    let words = order_gate::read_dictionary(text, &mut dictionary).expect("an accepted text");
    let fields = fields[..3 * 32].repeat(128);
    let mut events = vec![0; event_space(4_096)];
    let (dictionary, layout) = (&dictionary[..words], chain(32));
    let words = order_gate::walk_message(dictionary, &layout, &fields, b"x", &mut events);
    assert_eq!(words, Ok(5 * (128 * 158 + 127 + 2_048)));
    assert_eq!((event_space(0), event_space(4_096)), (51_200, 153_600));
    assert_eq!(event_space(usize::MAX), usize::MAX);
}

#[test]
fn values_are_judged() {
    let mut words = [9; 6];
    let count = order_gate::verdicts(&dictionary(), &FIELDS, MESSAGE, false, &mut words);
    assert_eq!(count, Ok(5));
    assert_eq!(words, [0, 0, 0, 0, 0, 9]);
    let fields = [447, 0, 0, 447, 2, 3, 1, 0, 1];
    let count = order_gate::verdicts(&dictionary(), &fields, MESSAGE, true, &mut words);
    assert_eq!(count, Ok(3));
    let verdicts: Result<Vec<Verdict>, Unknown> = verdicts_in(&words[..3]).collect();
    let expected = vec![Verdict::WrongFormat, Verdict::NotAdmitted, Verdict::Undefined];
    assert_eq!(verdicts, Ok(expected));
}

#[test]
fn empty_slices_are_lent() {
    let answer = order_gate::read_dictionary(&[], &mut []);
    assert_eq!(answer, refused(Refusal::NotAllowed { line: 1 }));
    let answer = order_gate::read_layout(&[], &mut []);
    assert_eq!(answer, refused(Refusal::SpaceShort { words_needed: 7 }));
    let answer = order_gate::expand(&[], &[], &mut []);
    assert_eq!(answer, refused(Refusal::UnknownForm { line: 0 }));
    let answer = order_gate::level_members(&[], &[]);
    assert_eq!(answer, refused(Refusal::RuleBroken { rule: 0, tag: 0 }));
    let walked = order_gate::walk_group(&LAYOUT, &[], &[], 0, 453, &mut []);
    assert_eq!(walked, Ok(Walked { words: 0, position: 0 }));
}

#[test]
fn threads_call_side_by_side() {
    let threads: Vec<_> = (0..4)
        .map(|_| std::thread::spawn(|| (0..200).for_each(|_| a_message_is_walked())))
        .collect();
    for thread in threads {
        thread.join().expect("no call fails");
    }
}
