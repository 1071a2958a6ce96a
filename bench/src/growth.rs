//! How the cost of a group walk grows with fields, nesting, members and layout
//! words.

use crate::beside::{Comparison, Maker, side};
use crate::cases::{self, Case};
use crate::{AMPLE, Walks};
use std::hint::black_box;

fn comparison(case: Case) -> Comparison<'static> {
    let case: &'static Case = Box::leak(Box::new(case));
    let walks: &'static Walks<'static> = Box::leak(Box::new(Walks::new(case)));
    let messages = case.messages.len();
    let (mut rust, mut gate) = (Vec::with_capacity(AMPLE / 5), vec![0; AMPLE]);
    Comparison {
        title: format!("{}: {} layout words", case.name, case.words.len()),
        unit: "field",
        units: walks.all_fields(),
        sides: vec![
            side("walk.rs", move || {
                for message in 0..messages {
                    black_box(walks.rust(message, &mut rust));
                }
            }),
            side("walk_group, one pass", move || {
                for message in 0..messages {
                    let _ = black_box(walks.gate(message, &mut gate));
                }
            }),
        ],
    }
}

fn mixed(name: String, members: &[u32], fields: usize, others: u32) -> Maker {
    let members = members.to_vec();
    Box::new(move || comparison(cases::mixed_case(&name, &members, fields, others)))
}

fn alike(name: String, members: &[u32], fields: usize) -> Maker {
    let members = members.to_vec();
    Box::new(move || comparison(cases::alike_case(&name, &members, fields, 0)))
}

pub fn comparisons() -> Vec<Maker> {
    let mut all = Vec::new();
    for fields in [10, 30, 100, 300, 1_000, 3_000] {
        all.push(mixed(
            format!("{fields} fields, members 40/20/5"),
            &[40, 20, 5],
            fields,
            0,
        ));
    }
    for depth in [1, 2, 4, 8] {
        all.push(alike(
            format!("3,000 fields, {depth} levels of 20 members"),
            &vec![20; depth],
            3_000,
        ));
    }
    for members in [5, 20, 64, 65, 128, 256, 512, 513, 1_000, 2_000, 4_000] {
        all.push(mixed(
            format!("3,000 fields, one level of {members} members"),
            &[members],
            3_000,
            0,
        ));
    }
    for others in [0, 100, 1_000, 4_000] {
        for fields in [30, 3_000] {
            let name =
                format!("{fields} fields, members 40/20/5, {others} other fields in the layout");
            all.push(mixed(name, &[40, 20, 5], fields, others));
        }
    }
    all
}
