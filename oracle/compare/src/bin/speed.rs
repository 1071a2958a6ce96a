//! Reading a dictionary text, its check and its lookups, beside plain Rust:
//!
//!     cargo run --release --offline -p compare --bin speed
//!
//! Both sides read the same text in turn; a figure is the median of the rounds.
//! The plain reader is oracle/src/reader.rs, which knows every refusal, with
//! oracle/src/dictionary_words.rs for the words.

use oracle::{dictionary_words, reader};
use std::hint::black_box;
use std::time::Instant;

const ROUNDS: usize = 301;
/// As many fields as a table has.
const FIELDS: u32 = 4_096;

/// So many definitions, and fields of the header up to 60 kB.
fn dictionary_text(definitions: u32, fields: u32) -> Vec<u8> {
    // Tags in no order.
    let tag = |number: u32| 1 + number.wrapping_mul(7_919) % 65_521;
    let mut text = String::new();
    for number in 0..definitions {
        text.push_str(&format!("def={},String\n", tag(number)));
    }
    text.push_str("begin=header\n");
    for number in 0..fields {
        text.push_str(&format!("field={},0\n", number % 10));
    }
    text.push_str("end=header\nbegin=trailer\nend=trailer\n");
    text.into_bytes()
}

/// The median times of both, in nanoseconds.
fn beside(mut gate: impl FnMut(), mut rust: impl FnMut()) -> (f64, f64) {
    let mut times = (Vec::new(), Vec::new());
    for _ in 0..ROUNDS {
        let start = Instant::now();
        gate();
        let middle = Instant::now();
        rust();
        times.0.push((middle - start).as_nanos() as f64);
        times.1.push(middle.elapsed().as_nanos() as f64);
    }
    (median(times.0), median(times.1))
}

fn median(mut times: Vec<f64>) -> f64 {
    times.sort_by(f64::total_cmp);
    times[times.len() / 2]
}

fn main() {
    for (definitions, fields) in [(1_500, 3_300), (1, 5_900), (3_800, 0)] {
        let text = dictionary_text(definitions, fields);
        let lines = reader::dictionary(&text).expect("an accepted text");
        let words = dictionary_words::words(&lines);
        println!("{} bytes, {} lines, {definitions} definitions, {} words", text.len(), lines.len(), words.len());

        let mut space = vec![0; words.len()];
        let (gate, rust) = beside(
            || assert_eq!(order_gate::read_dictionary(black_box(&text), &mut space), Ok(words.len())),
            || {
                let lines = reader::dictionary(black_box(&text)).expect("an accepted text");
                black_box(dictionary_words::words(&lines));
            },
        );
        println!("  read_dictionary {:.0} us, plain Rust {:.0} us: {:.2} times", gate / 1e3, rust / 1e3, gate / rust);

        // No field, so that the check of the words is all there is.
        let (gate, rust) = beside(
            || assert_eq!(order_gate::verdicts(black_box(&words), &[], b"", false, &mut []), Ok(0)),
            || {
                black_box(reader::dictionary(black_box(&text)).is_ok());
            },
        );
        let word = gate / words.len() as f64;
        println!("  is_dictionary {:.0} us, {word:.2} ns a word; reading the text in plain Rust {:.0} us", gate / 1e3, rust / 1e3);

        let mut tags: Vec<u32> = words[4 + 10 * lines.len()..][..definitions as usize].to_vec();
        tags.sort_unstable();
        let table: Vec<u32> = (0..FIELDS).flat_map(|field| [tags[(field.wrapping_mul(31) % definitions) as usize], 0, 1]).collect();
        let mut verdicts = vec![0; FIELDS as usize];
        let check = gate;
        let (gate, rust) = beside(
            || assert_eq!(order_gate::verdicts(black_box(&words), &table, b"A", false, &mut verdicts), Ok(FIELDS as usize)),
            || {
                let found = table.iter().step_by(3).filter(|tag| black_box(&tags).binary_search(tag).is_ok());
                assert_eq!(found.count(), FIELDS as usize);
            },
        );
        let each = |time: f64| time / f64::from(FIELDS);
        println!("  a field's lookup with its verdict {:.1} ns, a binary search alone {:.1} ns", each(gate - check), each(rust));
    }
}
