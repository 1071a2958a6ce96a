//! The gate beside the Rust: both optimised, in one process.

// The Rust, unchanged; walk.rs and validator.rs have something behind them
// (build.rs). A part of it that the benchmark does not call is unused here.
#[allow(dead_code)]
#[path = "../../docs/src/ironfix-dictionary/src/group.rs"]
pub mod group;
#[allow(dead_code)]
#[path = "../../docs/src/ironfix-dictionary/src/schema.rs"]
pub mod schema;
#[allow(dead_code)]
#[path = "../../docs/src/ironfix-dictionary/src/scope.rs"]
mod scope;
#[allow(dead_code)]
mod validator {
    include!(concat!(env!("OUT_DIR"), "/validator.rs"));
}
#[allow(dead_code)]
mod walk {
    include!(concat!(env!("OUT_DIR"), "/walk.rs"));
}

// The oracle's reading of texts and its layouts.
#[allow(dead_code)]
#[path = "../../oracle/src/arrangement.rs"]
mod arrangement;
#[allow(dead_code)]
#[path = "../../oracle/src/composition.rs"]
mod composition;
#[allow(dead_code)]
#[path = "../../oracle/src/dictionary_words.rs"]
mod dictionary_words;
#[allow(dead_code)]
#[path = "../../oracle/src/layouts.rs"]
mod layouts;
#[allow(dead_code)]
#[path = "../../oracle/src/lines.rs"]
mod lines;
#[allow(dead_code)]
#[path = "../../oracle/src/numbers.rs"]
mod numbers;
#[allow(dead_code)]
#[path = "../../oracle/src/reader.rs"]
mod reader;
#[allow(dead_code)]
#[path = "../../oracle/src/refusal.rs"]
mod refusal;
#[allow(dead_code)]
#[path = "../../oracle/src/texts.rs"]
mod texts;
#[allow(dead_code)]
#[path = "../../oracle/src/values.rs"]
mod values;

mod beside;
mod cases;
mod dictionaries;
mod growth;
mod messages;
mod stack;

use cases::{Case, Message, TOP_GROUP};
use group::GroupSpec;
use ironfix_core::field::FieldRef;
use layouts::Expansion;
use order_gate::{Error, Walked};
use std::hint::black_box;
use std::time::Instant;
use walk::Recorder;

/// Words for the events of a walk over 4,096 fields: more than it can need.
const AMPLE: usize = 102_400;

/// A case, ready to be walked by both.
struct Walks<'c> {
    case: &'c Case,
    expansion: Expansion<'static>,
    fields: Vec<Vec<FieldRef<'c>>>,
    /// The words that the events of each message need.
    needed: Vec<usize>,
}

/// Which walk runs, and on which event space.
#[derive(Clone, Copy)]
enum Side {
    Rust,
    /// One pass: the space holds whatever the walk may need.
    Ample,
    /// The space is just what the walk needs, so that a first pass counts.
    Exact,
}

/// The spaces that the walks write into.
struct Spaces {
    rust: Vec<[u64; 5]>,
    gate: Vec<u64>,
}

impl<'c> Walks<'c> {
    fn new(case: &'c Case) -> Self {
        let mut walks = Self {
            case,
            expansion: case.expansion(),
            fields: case.messages.iter().map(fields).collect(),
            needed: Vec::new(),
        };
        let level = &walks.expansion.level;
        let entry = &level.groups[0].entry;
        for (path, members) in [(&[][..], &level.members), (&[TOP_GROUP], &entry.members)] {
            assert_eq!(
                order_gate::level_members(&case.words, path),
                Ok(&members[..])
            );
        }
        let mut spaces = Spaces::new();
        for message in 0..case.messages.len() {
            let next = walks.rust(message, &mut spaces.rust);
            walks.needed.push(5 * spaces.rust.len());
            for space in [AMPLE, walks.needed[message]] {
                let words = walks.needed[message];
                let walked = walks.gate(message, &mut spaces.gate[..space]);
                assert_eq!(
                    walked,
                    Ok(Walked {
                        words,
                        position: next
                    })
                );
                assert_eq!(spaces.rust.as_flattened(), &spaces.gate[..words]);
            }
        }
        walks
    }

    fn rust(&self, message: usize, events: &mut Vec<[u64; 5]>) -> usize {
        let fields = &self.fields[message];
        let level = &self.expansion.level;
        let group = level.group(TOP_GROUP).map(GroupSpec::from_layout);
        let group = group.expect("the layout has the group");
        let mut recorder = Recorder::new(fields, std::mem::take(events));
        let next = walk::walk_group(fields, 0, group, 0, &level.members, &mut recorder);
        *events = recorder.events;
        next
    }

    fn gate(&self, message: usize, events: &mut [u64]) -> Result<Walked, Error> {
        let Message { bytes, table } = &self.case.messages[message];
        order_gate::walk_group(&self.case.words, table, bytes, 0, TOP_GROUP, events)
    }

    fn run(&self, side: Side, message: usize, spaces: &mut Spaces) {
        match side {
            Side::Rust => {
                black_box(bench_rust(self, message, &mut spaces.rust));
            }
            Side::Ample => {
                let _ = black_box(bench_gate(self, message, &mut spaces.gate));
            }
            Side::Exact => {
                let space = &mut spaces.gate[..self.needed[message]];
                let _ = black_box(bench_gate(self, message, space));
            }
        }
    }

    fn all_fields(&self) -> usize {
        self.fields.iter().map(Vec::len).sum()
    }
}

/// What callgrind counts: from the entry of these functions to their end.
#[unsafe(no_mangle)]
#[inline(never)]
fn bench_rust(walks: &Walks<'_>, message: usize, events: &mut Vec<[u64; 5]>) -> usize {
    walks.rust(message, events)
}

#[unsafe(no_mangle)]
#[inline(never)]
fn bench_gate(walks: &Walks<'_>, message: usize, events: &mut [u64]) -> Result<Walked, Error> {
    walks.gate(message, events)
}

impl Spaces {
    fn new() -> Self {
        Self {
            rust: Vec::with_capacity(AMPLE / 5),
            gate: vec![0; AMPLE],
        }
    }
}

fn fields(message: &Message) -> Vec<FieldRef<'_>> {
    let (rows, _) = message.table.as_chunks::<3>();
    rows.iter()
        .map(|[tag, first, past]| FieldRef {
            tag: *tag,
            value: &message.bytes[*first as usize..*past as usize],
        })
        .collect()
}

/// Times of all messages in turn, each walked by the Rust and by the gate one
/// after the other, in an order that changes from round to round. A side's
/// figure is the sum of its messages' medians, which no interruption moves.
fn time(walks: &Walks<'_>, side: Side, rounds: usize) {
    let sides = [Side::Rust, side];
    let messages = walks.fields.len();
    let mut spaces = Spaces::new();
    let mut times = vec![vec![Vec::with_capacity(rounds); messages]; 2];
    for round in 0..rounds {
        for message in 0..messages {
            for turn in 0..2 {
                let side = (turn + round) % 2;
                let began = Instant::now();
                walks.run(sides[side], message, &mut spaces);
                times[side][message].push(began.elapsed().as_nanos());
            }
        }
    }
    for list in times.iter_mut().flatten() {
        list.sort_unstable();
    }
    let a_field = |side: usize, part: usize| {
        let sum: u128 = times[side]
            .iter()
            .map(|list| list[rounds * part / 100])
            .sum();
        sum as f64 / walks.all_fields() as f64
    };
    println!(
        "  {:15} {:7.2} ns a field, the Rust {:7.2}: {:5.2} times (10th percentiles: {:5.2})",
        match side {
            Side::Exact => "counted first",
            _ => "one pass",
        },
        a_field(1, 50),
        a_field(0, 50),
        a_field(1, 50) / a_field(0, 50),
        a_field(1, 10) / a_field(0, 10),
    );
}

/// Walks each message once on one side, for callgrind.
fn once(walks: &Walks<'_>, side: Side) {
    let mut spaces = Spaces::new();
    for message in 0..walks.fields.len() {
        walks.run(side, message, &mut spaces);
    }
}

/// The comparisons of other calls.
fn others() -> Vec<beside::Maker> {
    let mut all = messages::comparisons();
    all.extend(dictionaries::comparisons());
    all
}

fn time_each(makers: &[beside::Maker], rounds: &str) {
    let rounds = rounds.parse().expect("a number of rounds");
    for make in makers {
        make().time(rounds);
    }
}

fn main() {
    let words: Vec<String> = std::env::args().skip(1).collect();
    let words: Vec<&str> = words.iter().map(String::as_str).collect();
    let cases = cases::cases();
    match words.as_slice() {
        ["cases"] => {
            for (number, case) in cases.iter().enumerate() {
                let walks = Walks::new(case);
                let events: usize = walks.needed.iter().sum::<usize>() / 5;
                println!(
                    "{number} {}: {} messages, {} fields, {events} events, {} layout words",
                    case.name,
                    case.messages.len(),
                    walks.all_fields(),
                    case.words.len(),
                );
            }
        }
        ["time", rounds] => {
            let rounds = rounds.parse().expect("a number of rounds");
            for case in &cases {
                let walks = Walks::new(case);
                println!("{}", case.name);
                time(&walks, Side::Ample, rounds);
                time(&walks, Side::Exact, rounds);
            }
        }
        ["once", side, number] => {
            let number: usize = number.parse().expect("the number of a case");
            let side = match *side {
                "rust" => Side::Rust,
                "ample" => Side::Ample,
                "exact" => Side::Exact,
                other => panic!("no side {other}"),
            };
            once(&Walks::new(&cases[number]), side);
        }
        ["stack"] => stack::measure(),
        ["others", rounds] => time_each(&others(), rounds),
        ["growth", rounds] => time_each(&growth::comparisons(), rounds),
        ["other-sides"] => {
            for (number, make) in others().iter().enumerate() {
                let comparison = make();
                println!("{}", comparison.title);
                for (side, each) in comparison.sides.iter().enumerate() {
                    println!("{number} {side} {}", each.name);
                }
            }
        }
        ["other", number, side] => {
            let number: usize = number.parse().expect("the number of a comparison");
            let side: usize = side.parse().expect("the number of a side");
            others()[number]().once(side);
        }
        _ => {
            eprintln!("bench cases | time ROUNDS | once rust|ample|exact CASE | stack");
            eprintln!("      others ROUNDS | growth ROUNDS | other-sides | other COMPARISON SIDE");
            std::process::exit(2);
        }
    }
}
