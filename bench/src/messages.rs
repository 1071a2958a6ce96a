//! The message walk with the verdicts beside `Validator::validate`: orders of
//! FIX 4.4 with parties and allocations, short ones and long lists.

use crate::arrangement;
use crate::beside::{Comparison, Maker, side};
use crate::cases::{Message, Writer};
use crate::layouts::{self, PlainLevel};
use crate::schema::Dictionary;
use crate::validator::{Validator, resolve};
use crate::{dictionary_words, fields, reader, scope::ScopeBuilder, texts};
use ironfix_core::message::RawMessage;
use std::hint::black_box;

const ORDERS: &[u8] = include_bytes!("../../examples/fix44/new-order-single.dict");
const ALL: &[u8] = include_bytes!("../../examples/fix44/fix44.dict");
const BLOCK: &[u8] = include_bytes!("../../examples/block-order/block-order.dict");
const BLOCK_WHOLE: &str = include_str!("../../examples/block-order/whole.msg");

/// An order with so many parties and allocations, every second of them with a
/// nested group.
fn order(parties: usize, allocations: usize) -> Message {
    let mut writer = Writer::default();
    for (tag, value) in [
        (8, "FIX.4.4"),
        (9, "430"),
        (35, "D"),
        (49, "DESK"),
        (56, "BROKER"),
        (34, "215"),
        (52, "20240517-09:30:00.125"),
        (11, "ORD-0001"),
    ] {
        writer.field(tag, value);
    }
    if parties > 0 {
        writer.field(453, &parties.to_string());
    }
    for party in 0..parties {
        writer.field(448, "TRADER7");
        writer.field(447, "D");
        writer.field(452, "11");
        if party % 2 == 1 {
            writer.field(802, "1");
            writer.field(523, "EQUITIES");
            writer.field(803, "24");
        }
    }
    writer.field(1, "BLOCK-1");
    if allocations > 0 {
        writer.field(78, &allocations.to_string());
    }
    for allocation in 0..allocations {
        writer.field(79, "ACC-A");
        writer.field(80, "600");
        if allocation % 2 == 1 {
            writer.field(539, "1");
            writer.field(524, "CUSTODIAN-A");
            writer.field(525, "D");
            writer.field(538, "28");
        }
    }
    for (tag, value) in [
        (63, "0"),
        (21, "1"),
        (55, "VOD.L"),
        (54, "1"),
        (60, "20240517-09:29:59.998"),
        (38, "1000"),
        (40, "2"),
        (44, "72.5"),
        (15, "GBP"),
        (59, "0"),
        (58, "a block order"),
    ] {
        writer.field(tag, value);
    }
    writer.message()
}

/// The block order of examples/.
fn block_order() -> Message {
    let mut writer = Writer::default();
    for line in BLOCK_WHOLE.lines() {
        let (tag, value) = line.split_once('=').expect("a field");
        writer.field(tag.parse().expect("a tag"), value);
    }
    writer.message()
}

fn comparison(
    text: &'static [u8],
    name: &str,
    msg_type: &'static str,
    message: Message,
) -> Comparison<'static> {
    let lines = reader::dictionary(text).expect("an accepted text");
    let words: Vec<u32> = dictionary_words::words(&lines);
    let dict: &'static Dictionary =
        Box::leak(Box::new(texts::dictionary(text).expect("an accepted text")));
    let Ok(expansion) = layouts::expand(dict, msg_type) else {
        unreachable!("the type has a layout");
    };
    let layout = arrangement::words(&PlainLevel::from(&expansion.level));
    let message: &'static Message = Box::leak(Box::new(message));
    let raw = RawMessage::new(msg_type, fields(message));
    let count = raw.field_slice().len();
    let validator = Validator::new(dict);
    let (msg_def, _) = resolve(dict, dict, msg_type).expect("the type is defined");
    let (scope, _) = ScopeBuilder::expand(dict, dict, msg_def);
    assert_eq!(validator.validate(&raw), Ok(()));
    assert_eq!(validator.validate_kept(&raw, &scope), Ok(()));

    let mut events = vec![0; 25 * count + 5 * layout.len()];
    let mut verdicts = vec![0; count];
    let Message { bytes, table } = message;
    let walked =
        order_gate::walk_message(&words, &layout, table, bytes, &mut events).expect("no refusal");
    let clean = order_gate::events_in(&events[..walked])
        .all(|event| event.is_ok_and(|event| !event.kind.stops()));
    assert!(clean);
    assert_eq!(
        order_gate::verdicts(&words, table, bytes, false, &mut verdicts),
        Ok(count)
    );
    assert!(verdicts.iter().all(|verdict| *verdict == 0));

    let title = format!(
        "{name}: {count} fields, {} dictionary words, {} layout words",
        words.len(),
        layout.len()
    );
    let raw_kept = raw.clone();
    let (words, layout): (&'static [u32], &'static [u32]) = (words.leak(), layout.leak());
    let (mut events2, mut verdicts2) = (events.clone(), verdicts.clone());
    Comparison {
        title,
        unit: "message",
        units: 1,
        sides: vec![
            side("Validator::validate", move || {
                black_box(validator.validate(black_box(&raw)).is_ok());
            }),
            side("its body, the layout kept", move || {
                black_box(
                    validator
                        .validate_kept(black_box(&raw_kept), &scope)
                        .is_ok(),
                );
            }),
            side("walk_message and verdicts", move || {
                let walked =
                    order_gate::walk_message(words, layout, black_box(table), bytes, &mut events);
                let judged =
                    order_gate::verdicts(words, black_box(table), bytes, false, &mut verdicts);
                let _ = black_box((walked, judged));
            }),
            side("walk_message alone", move || {
                let _ = black_box(order_gate::walk_message(
                    words,
                    layout,
                    black_box(table),
                    bytes,
                    &mut events2,
                ));
            }),
            side("verdicts alone", move || {
                let _ = black_box(order_gate::verdicts(
                    words,
                    black_box(table),
                    bytes,
                    false,
                    &mut verdicts2,
                ));
            }),
            side("the check of the dictionary alone", move || {
                let _ = black_box(order_gate::verdicts(
                    black_box(words),
                    &[],
                    b"",
                    false,
                    &mut [],
                ));
            }),
        ],
    }
}

pub fn comparisons() -> Vec<Maker> {
    let shapes = [
        (ORDERS, "FIX 4.4 order", 0, 0),
        (ORDERS, "FIX 4.4 order", 2, 2),
        (ORDERS, "FIX 4.4 order", 4, 8),
        (ORDERS, "FIX 4.4 order", 8, 12),
        (ALL, "FIX 4.4 order, dictionary of three types", 4, 8),
        (ORDERS, "FIX 4.4 list", 40, 450),
        (ORDERS, "FIX 4.4 list", 40, 700),
    ];
    let orders = shapes.map(|(text, name, parties, allocations)| -> Maker {
        Box::new(move || {
            let name = format!("{name}, {parties} parties, {allocations} allocations");
            comparison(text, &name, "D", order(parties, allocations))
        })
    });
    let mut makers = Vec::from(orders);
    makers.push(Box::new(|| {
        comparison(BLOCK, "the block order of examples/", "J", block_order())
    }));
    makers
}
