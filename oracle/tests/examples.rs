//! The dictionaries and messages of examples/.

use oracle::events::{BADCOUNT, DEEP, DELIM, Event, MISCOUNT, REPEAT};
use oracle::layouts;
use oracle::schema::Dictionary;
use oracle::{expansion, reader, texts, verdicts, walks};

fn file(name: &str) -> Vec<u8> {
    let path = format!("{}/../examples/{name}", env!("CARGO_MANIFEST_DIR"));
    std::fs::read(&path).unwrap_or_else(|error| panic!("{path}: {error}"))
}

fn dictionary(name: &str) -> Dictionary {
    texts::dictionary(&file(name)).expect("an accepted dictionary text")
}

/// The layout of a message type, as lines.
fn layout(dict: &Dictionary, msg_type: &str) -> String {
    let expanded = expansion::expand(dict, msg_type).expect("the Rust agrees");
    let (expansion, nodes) = expanded.expect("an expansion");
    layouts::expansion_lines(&expansion, nodes)
}

/// The events of a message and its verdicts.
fn judged(dict: &Dictionary, name: &str) -> (Vec<Event>, Vec<u8>) {
    let msg = texts::message(&file(name)).expect("an accepted message");
    let (fields, msg_type) = (msg.fields(), msg.msg_type());
    let expansion = layouts::expand(dict, &msg_type).map_err(|refused| format!("{refused:?}"));
    let expansion = expansion.expect("an expansion");
    let events = walks::checked_message_walk(&fields, dict, &msg_type, &expansion);
    (
        events.expect("the Rust agrees"),
        verdicts::verdicts(&fields, dict, true),
    )
}

const MESSAGES: [(&str, &str, usize); 3] = [
    ("D", "new-order-single", 26),
    ("J", "allocation-instruction", 39),
    ("W", "market-data-snapshot", 13),
];

#[test]
fn the_messages_have_the_same_layouts_together_and_alone() {
    let all = dictionary("fix44/fix44.dict");
    for (msg_type, name, nodes) in MESSAGES {
        let one = dictionary(&format!("fix44/{name}.dict"));
        assert_eq!(layout(&all, msg_type), layout(&one, msg_type));
        assert!(layout(&all, msg_type).starts_with(&format!("nodes={nodes}\n")));
        for (tag, def) in &one.fields {
            let other = all.get_field(*tag).expect("a definition in fix44.dict");
            assert_eq!(def.field_type, other.field_type);
            assert_eq!(def.values, other.values);
        }
    }
}

#[test]
fn every_tag_of_a_body_is_defined_and_every_definition_is_used() {
    for name in ["fix44/fix44.dict", "block-order/block-order.dict"] {
        let text = file(name);
        let lines = reader::dictionary(&text).expect("an accepted dictionary text");
        let (mut defined, mut used) = (Vec::new(), Vec::new());
        for line in lines {
            use oracle::lines::DictionaryLine as Line;
            match line {
                Line::Definition(tag, _) => defined.push(tag),
                Line::Field(tag, _) => used.push(tag),
                Line::Group(group) => used.extend([group.count_tag, group.delimiter_tag]),
                _ => {}
            }
        }
        assert!(defined.is_sorted());
        used.sort_unstable();
        used.dedup();
        assert_eq!(defined, used, "{name}");
    }
}

#[test]
fn the_messages_of_fix44_are_good() {
    let dict = dictionary("fix44/fix44.dict");
    for (_, name, _) in MESSAGES {
        let (events, verdicts) = judged(&dict, &format!("fix44/{name}.msg"));
        let kinds = events.iter().map(|event| event.0[0]);
        assert!(
            kinds.into_iter().all(|kind| [1, 5, 8].contains(&kind)),
            "{name}"
        );
        assert!(verdicts.iter().all(|verdict| *verdict == 0), "{name}");
    }
}

#[test]
fn the_block_order_is_whole_or_says_what_is_lost() {
    let dict = dictionary("block-order/block-order.dict");
    let faults = |name: &str| -> Vec<[u64; 5]> {
        let (events, verdicts) = judged(&dict, &format!("block-order/{name}.msg"));
        assert!(verdicts.iter().all(|verdict| *verdict == 0), "{name}");
        let faults = events.into_iter().map(|event| event.0);
        faults
            .filter(|event| ![1, 5, 8].contains(&event[0]))
            .inspect(|event| {
                assert!([BADCOUNT, DELIM, REPEAT, MISCOUNT, DEEP].contains(&event[0]));
            })
            .collect()
    };
    assert!(faults("whole").is_empty());
    assert_eq!(faults("allocation-lost"), [[MISCOUNT, 78, 0, 3, 2]]);
    assert_eq!(
        faults("fields-out-of-entry"),
        [[REPEAT, 78, 0, 80, 0], [REPEAT, 78, 0, 467, 0]]
    );
    assert_eq!(faults("count-lies"), [[MISCOUNT, 78, 0, 2, 3]]);
    assert_eq!(faults("nested-count-lies"), [[MISCOUNT, 539, 1, 2, 1]]);
    // what a walk does not see
    assert!(faults("parties-in-another-entry").is_empty());
    assert!(faults("quantity-missing").is_empty());
    assert!(faults("allocation-named-twice").is_empty());
}
