//! The arrangement of a dictionary in 32-bit words, as docs/ARRANGEMENT.md
//! gives it: the number of lines, of definitions, of components and of
//! messages; ten words a line; then an index for each of the three, the names
//! ascending, then for each the number of its record.

use crate::lines::{DictionaryLine, TYPE_NAMES};
use crate::reader;
use crate::schema::{Dictionary, FieldDef, MessageCategory, Version};
use crate::values::{self, FIELD_TYPES};
use std::collections::HashMap;

const DEFINITION: u32 = 1;
const VALUE: u32 = 2;
const COMPONENT: u32 = 5;
const MESSAGE: u32 = 6;

/// How many words a record has.
const RECORD: usize = 10;
/// How many words stand before the records.
const HEAD: usize = 4;

/// The words of the lines of an accepted text.
pub fn words(lines: &[DictionaryLine<'_>]) -> Vec<u32> {
    let records: Vec<[u32; RECORD]> = lines.iter().map(|line| record(*line)).collect();
    let indexes = [DEFINITION, COMPONENT, MESSAGE].map(|kind| index(&records, kind));
    let mut words = vec![lines.len() as u32];
    words.extend(indexes.iter().map(|names| names.len() as u32));
    words.extend(records.as_flattened());
    for names in indexes {
        words.extend(names.iter().map(|(name, _)| name));
        words.extend(names.iter().map(|(_, number)| number));
    }
    words
}

/// The names of the records of a kind, ascending, and their numbers.
fn index(records: &[[u32; RECORD]], kind: u32) -> Vec<(u32, u32)> {
    let numbered = records.iter().zip(0..);
    let mut names: Vec<(u32, u32)> = numbered
        .filter(|(record, _)| record[0] == kind)
        .map(|(record, number)| (record[1], number))
        .collect();
    names.sort_unstable();
    names
}

fn record(line: DictionaryLine<'_>) -> [u32; RECORD] {
    let mut record = [0; RECORD];
    let words: &[u32] = match line {
        DictionaryLine::Definition(tag, field_type) => {
            &[DEFINITION, tag, values::number_of(field_type) as u32]
        }
        DictionaryLine::Value(value) => {
            let mut bytes = [0; 32];
            bytes[..value.len()].copy_from_slice(value.as_bytes());
            let (parts, _) = bytes.as_chunks::<4>();
            for (word, part) in record[2..].iter_mut().zip(parts) {
                *word = u32::from_be_bytes(*part);
            }
            &[VALUE, value.len() as u32]
        }
        DictionaryLine::BeginHeader => &[3],
        DictionaryLine::BeginTrailer => &[4],
        DictionaryLine::Component(name) => &[COMPONENT, number(name)],
        DictionaryLine::Message(msg_type, category) => &[
            MESSAGE,
            letters(msg_type),
            u32::from(category == MessageCategory::App),
        ],
        DictionaryLine::Field(tag, required) => &[7, tag, u32::from(required)],
        DictionaryLine::Group(head) => &[
            8,
            head.count_tag,
            head.delimiter_tag,
            u32::from(head.required),
        ],
        DictionaryLine::Use(name, required) => &[9, number(name), u32::from(required)],
        DictionaryLine::End("header") => &[10],
        DictionaryLine::End("trailer") => &[11],
        DictionaryLine::End(name) if name.len() <= 4 => &[12, letters(name)],
        DictionaryLine::End(name) => &[13, number(name)],
    };
    record[..words.len()].copy_from_slice(words);
    record
}

fn number(name: &str) -> u32 {
    name.parse().expect("a number of 32 bits")
}

/// Up to four letters, the first in the highest byte.
fn letters(name: &str) -> u32 {
    let mut bytes = [0; 4];
    bytes[..name.len()].copy_from_slice(name.as_bytes());
    u32::from_be_bytes(bytes)
}

/// A dictionary of the definitions alone that the records hold.
///
/// # Errors
/// Says what is no definition.
pub fn definitions(words: &[u32]) -> Result<Dictionary, String> {
    let lines = *words.first().ok_or("no words")? as usize;
    let records = words.get(HEAD..HEAD + RECORD * lines);
    let (records, _) = records.ok_or("not the words of a dictionary")?.as_chunks();
    let mut dict = Dictionary::new(Version::Fix44);
    for (place, record) in records.iter().enumerate() {
        let &[DEFINITION, tag, number, ..]: &[u32; RECORD] = record else {
            continue;
        };
        let field_type = *FIELD_TYPES.get(number as usize).ok_or("no such type")?;
        let behind = records[place + 1..].iter();
        let values = behind.take_while(|record| record[0] == VALUE).map(value);
        let values: HashMap<_, _> = values.map(|value| (value, String::new())).collect();
        let mut def = FieldDef::new(tag, tag.to_string(), field_type);
        if !values.is_empty() {
            def = def.with_values(values);
        }
        dict.add_field(def);
    }
    Ok(dict)
}

/// The value of a `value=V` record.
fn value(record: &[u32; RECORD]) -> String {
    let bytes = record[2..].iter().flat_map(|word| word.to_be_bytes());
    bytes.take(record[1] as usize).map(char::from).collect()
}

/// Whether the words begin with the arrangement of an accepted text: the text
/// of their records is made, read, and arranged anew.
pub fn is_dictionary(lent: &[u32]) -> bool {
    text_of(lent).is_some_and(|text| match reader::dictionary(&text) {
        Ok(lines) => lent.starts_with(&words(&lines)),
        Err(_) => false,
    })
}

/// The text that the records tell. Records of no line end in nothing.
fn text_of(words: &[u32]) -> Option<Vec<u8>> {
    let lines = usize::try_from(*words.first()?).ok()?;
    let records = words.get(HEAD..)?.as_chunks::<RECORD>().0.get(..lines)?;
    let mut text = Vec::new();
    for record in records {
        text.extend(line_text(record)?);
        text.push(b'\n');
    }
    Some(text)
}

fn line_text(record: &[u32; RECORD]) -> Option<Vec<u8>> {
    let [kind, first, second, third, ..] = *record;
    let text = match kind {
        1 => format!("def={first},{}", TYPE_NAMES.get(second as usize)?),
        2 => {
            let bytes: Vec<u8> = record[2..].iter().flat_map(|word| word.to_be_bytes()).collect();
            let value = bytes.get(..first as usize)?;
            return Some([b"value=", value].concat());
        }
        3 => "begin=header".to_string(),
        4 => "begin=trailer".to_string(),
        5 => format!("component={first}"),
        6 => {
            let category = if second == 1 { "app" } else { "admin" };
            return Some([b"message=", spelled(first).as_slice(), format!(",{category}").as_bytes()].concat());
        }
        7 => format!("field={first},{second}"),
        8 => format!("group={first},{second},{third}"),
        9 => format!("use={first},{second}"),
        10 => "end=header".to_string(),
        11 => "end=trailer".to_string(),
        12 => return Some([b"end=", spelled(first).as_slice()].concat()),
        13 => format!("end={first}"),
        _ => return None,
    };
    Some(text.into_bytes())
}

/// The bytes of a word up to the first 0.
fn spelled(word: u32) -> Vec<u8> {
    word.to_be_bytes().into_iter().take_while(|byte| *byte != 0).collect()
}

#[cfg(test)]
mod tests {
    use super::*;

    const TEXT: &[u8] = b"def=35,String\nbegin=header\nfield=35,1\nend=header\nbegin=trailer\nend=trailer\ncomponent=7\nend=7\n";

    #[test]
    fn the_example_of_the_arrangement() {
        let words = words(&reader::dictionary(TEXT).expect("an accepted text"));
        assert_eq!(words.len(), 88);
        assert_eq!(words[..7], [8, 1, 1, 0, 1, 35, 14]);
        assert_eq!(words[74..], [12, 922_746_880, 0, 0, 0, 0, 0, 0, 0, 0, 35, 0, 7, 6]);
        assert!(is_dictionary(&words));
        assert!(is_dictionary(&[words.as_slice(), &[9, 9]].concat()));
    }

    #[test]
    fn other_words_are_no_dictionary() {
        let words = words(&reader::dictionary(TEXT).expect("an accepted text"));
        assert!(!is_dictionary(&[]));
        assert!(!is_dictionary(&words[..87]));
        for place in 0..88 {
            let mut other = words.clone();
            other[place] += 1;
            // Another type, and another tag of the header's field, may stand there.
            assert_eq!(is_dictionary(&other), [6, 25].contains(&place), "{place}");
        }
    }
}
