//! The cases of the recorded lists (crates/replay/data), through the library.

use crate::messages::Message;
use crate::rounds;
use crate::run::Run;
use oracle::answers::Kind;
use oracle::layouts::{self, HandMade};
use oracle::lines::TYPE_NAMES;
use oracle::numbers::Numbers;
use oracle::{arrangement, cases, hex, text_cases, texts, values};

/// As many values as a table has fields.
const TABLE: usize = 4_096;

pub fn compare(run: &mut Run) -> Result<(), String> {
    let mut numbers = Numbers::new(1);
    for text in text_cases::dictionary_cases() {
        rounds::dictionary_text(run, &mut numbers, &text.bytes())?;
    }
    for text in text_cases::layout_cases() {
        rounds::layout_text(run, &mut numbers, &text.bytes())?;
    }
    expansions(run, &mut numbers)?;
    walks(run, &mut numbers)?;
    values_of_all_types(run, &mut numbers)
}

fn expansions(run: &mut Run, numbers: &mut Numbers) -> Result<(), String> {
    let mut dictionary = None;
    for line in Kind::Expansions.cases().lines() {
        match line.split_once(' ') {
            Some(("dictionary", text)) => {
                let text = hex::decode(text)?;
                let words = rounds::dictionary_text(run, numbers, &text)?.ok_or("a refused text")?;
                let dict = texts::dictionary(&text).map_err(|refusal| refusal.recorded())?;
                dictionary = Some((words, dict));
            }
            Some(("expand", msg_type)) => {
                let (words, dict) = dictionary.as_ref().ok_or("no dictionary")?;
                rounds::expansion_of(run, numbers, words, dict, &hex::decode(msg_type)?)?;
            }
            _ => {}
        }
    }
    Ok(())
}

fn walks(run: &mut Run, numbers: &mut Numbers) -> Result<(), String> {
    let mut layout: Option<(Vec<u32>, HandMade)> = None;
    let mut message = Message {
        bytes: Vec::new(),
        table: Vec::new(),
    };
    for line in Kind::Walks.cases().lines() {
        let (key, rest) = line.split_once(' ').unwrap_or((line, ""));
        let words = || rest.split(' ').filter(|word| !word.is_empty()).map(|word| word.parse::<u64>().expect("a number"));
        match key {
            "layout" => {
                let words: Vec<u32> = words().map(|word| word as u32).collect();
                let plain = arrangement::layout(&words).ok_or("not the words of a layout")?;
                layout = Some((words, layouts::hand_made(&plain).map_err(|error| error.to_string())?));
            }
            "message" => message.bytes = hex::decode(rest)?,
            "fields" => message.table = words().map(|word| word as u32).collect(),
            "walk" => {
                let walk: Vec<u64> = words().collect();
                let (lent, made) = layout.as_ref().ok_or("no layout")?;
                rounds::group_walk(run, numbers, (lent, made), &message, walk[0] as usize, walk[1] as u32)?;
            }
            _ => {}
        }
    }
    Ok(())
}

/// Every recorded value under each tag, the tag being the number of its type.
fn values_of_all_types(run: &mut Run, numbers: &mut Numbers) -> Result<(), String> {
    let mut text: String = (0..).zip(TYPE_NAMES).map(|(tag, name)| format!("def={tag},{name}\n")).collect();
    text.push_str("begin=header\nend=header\nbegin=trailer\nend=trailer\n");
    let words = rounds::dictionary_text(run, numbers, text.as_bytes())?.ok_or("a refused text")?;
    let dict = texts::dictionary(text.as_bytes()).map_err(|refusal| refusal.recorded())?;
    let fields: Vec<(u32, Vec<u8>)> = cases::value_cases()
        .into_iter()
        .map(|(field_type, value)| (values::number_of(field_type) as u32, value))
        .collect();
    for part in fields.chunks(TABLE) {
        let message = Message::new(numbers, &part.to_vec());
        for strict in [false, true] {
            rounds::verdicts_of(run, numbers, (&words, &dict), &message, strict)?;
        }
    }
    Ok(())
}
