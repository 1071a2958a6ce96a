//! The recorded lists: the cases of each kind, one or more lines a case, and
//! the answers to such lines. A line of a recorded list is a line of the cases
//! with its answer behind it.

use crate::case_text::CaseText;
use crate::layouts::HandMade;
use crate::refusal::Refusal;
use crate::schema::Dictionary;
use crate::walks::Top;
use crate::{
    arrangement, cases, dictionary_words, expansion, expansion_cases, hex, layouts, message_cases,
    reader, text_cases, texts, values, verdict_cases, verdicts, walk_cases, walks,
};
use ironfix_core::field::FieldRef;
use std::str::FromStr;

/// The most fields of a field table.
pub const MOST_FIELDS: usize = 4_096;

/// The most lines of a dictionary text whose words are recorded.
const MOST_LINES_WITH_WORDS: usize = 1_200;

/// The kinds of recorded lists.
#[derive(Debug, Clone, Copy, PartialEq, Eq)]
pub enum Kind {
    /// `is_valid_value`, plain and strict.
    Values,
    /// `parse_count`.
    Counts,
    /// Reading dictionary texts.
    DictionaryTexts,
    /// Reading layout texts.
    LayoutTexts,
    /// `walk_group`.
    Walks,
    /// `ScopeBuilder::expand`.
    Expansions,
    /// `check_value`, plain and strict.
    Verdicts,
    /// The loop of `Validator::validate`, and the verdicts of the message.
    Messages,
}

impl Kind {
    /// Each kind, with its name and the file of its list.
    pub const ALL: [(Self, &'static str, &'static str); 8] = [
        (Self::Values, "values", "is_valid_value.cases"),
        (Self::Counts, "counts", "parse_count.cases"),
        (
            Self::DictionaryTexts,
            "dictionary-texts",
            "read_dictionary.cases",
        ),
        (Self::LayoutTexts, "layout-texts", "read_layout.cases"),
        (Self::Walks, "walks", "walk_group.cases"),
        (Self::Expansions, "expansions", "expand.cases"),
        (Self::Verdicts, "verdict-words", "check_values.cases"),
        (Self::Messages, "messages", "walk_message.cases"),
    ];

    pub fn named(name: &str) -> Option<Self> {
        let known = Self::ALL.iter().find(|(_, known, _)| *known == name);
        known.map(|(kind, ..)| *kind)
    }

    /// The cases of the recorded list.
    pub fn cases(self) -> String {
        match self {
            Self::Values => value_cases(),
            Self::Counts => count_cases(),
            Self::DictionaryTexts => text_lines(&text_cases::dictionary_cases()),
            Self::LayoutTexts => text_lines(&text_cases::layout_cases()),
            Self::Walks => walk_cases::walk_cases(),
            Self::Expansions => expansion_cases::expansion_cases(),
            Self::Verdicts => verdict_cases::verdict_cases(),
            Self::Messages => message_cases::message_cases(),
        }
    }

    /// The answers to cases.
    ///
    /// # Errors
    /// Says which line is of no known form, or where the oracle and the Rust
    /// part.
    pub fn answers(self, cases: &str) -> Result<String, String> {
        match self {
            Self::Values => value_answers(cases),
            Self::Counts => count_answers(cases),
            Self::DictionaryTexts => text_answers(cases, |text| Ok(dictionary_answer(text))),
            Self::LayoutTexts => text_answers(cases, layout_answer),
            Self::Walks => walk_answers(cases),
            Self::Expansions => expansion_answers(cases),
            Self::Verdicts => verdict_answers(cases),
            Self::Messages => message_answers(cases),
        }
    }
}

fn value_cases() -> String {
    cases::value_cases()
        .into_iter()
        .map(|(field_type, value)| {
            format!("{} {}\n", values::name_of(field_type), hex::encode(&value))
        })
        .collect()
}

fn count_cases() -> String {
    cases::count_cases()
        .into_iter()
        .map(|value| format!("{}\n", hex::encode(&value)))
        .collect()
}

fn text_lines(texts: &[CaseText]) -> String {
    texts.iter().map(|text| format!("{text}\n")).collect()
}

/// `TYPE HEX` gives `T HEX P S`: the type's number, the value, the Rust's
/// answer and the strict answer.
fn value_answers(lines: &str) -> Result<String, String> {
    let mut answers = String::new();
    for line in lines.lines() {
        let (name, value) = line
            .split_once(' ')
            .ok_or_else(|| format!("`{line}` is not `TYPE HEX`"))?;
        let field_type = values::field_type_named(name)
            .ok_or_else(|| format!("`{name}` is not a field type"))?;
        let bytes = hex::decode(value)?;
        answers.push_str(&format!(
            "{:02} {} {} {}\n",
            values::number_of(field_type),
            hex::encode(&bytes),
            u8::from(values::is_valid_value(field_type, &bytes)),
            u8::from(values::is_strictly_valid_value(field_type, &bytes)),
        ));
    }
    Ok(answers)
}

/// `HEX` gives `HEX ANSWER`: the count, or `none`.
fn count_answers(lines: &str) -> Result<String, String> {
    let mut answers = String::new();
    for line in lines.lines() {
        let bytes = hex::decode(line)?;
        let answer = match values::parse_count(&bytes) {
            Some(count) => count.to_string(),
            None => "none".to_string(),
        };
        answers.push_str(&format!("{} {answer}\n", hex::encode(&bytes)));
    }
    Ok(answers)
}

/// Each text with its answer behind it.
fn text_answers(
    lines: &str,
    answer: impl Fn(&[u8]) -> Result<String, String>,
) -> Result<String, String> {
    let mut answers = String::new();
    for line in lines.lines() {
        let text: CaseText = line.parse()?;
        answers.push_str(&format!("{text} {}\n", answer(&text.bytes())?));
    }
    Ok(answers)
}

/// `accepted LINES WORD WORD ..` with the words of the dictionary, or `refused
/// N P`, for a dictionary text. The words of a longer text would make a line of
/// the list too long: `accepted LINES` alone.
pub fn dictionary_answer(text: &[u8]) -> String {
    match reader::dictionary(text) {
        Ok(lines) if lines.len() <= MOST_LINES_WITH_WORDS => {
            let words = dictionary_words::words(&lines);
            format!("accepted {} {}", lines.len(), walk_cases::decimals(&words))
        }
        Ok(lines) => format!("accepted {}", lines.len()),
        Err(refusal) => refusal.recorded(),
    }
}

/// `accepted LINES` and on a line of their own `words WORD WORD ..`, those of
/// the layout, or `refused N P`, for a layout text.
///
/// # Errors
/// The rules are asked of the Rust too; says where it parts.
pub fn layout_answer(text: &[u8]) -> Result<String, String> {
    if let Ok((top, _)) = reader::ruleless_layout(text) {
        let rust = layouts::hand_made(&top).err().map(layouts::broken_rule);
        let own = reader::broken_rule(&top);
        if rust != own {
            return Err(format!("the Rust says {rust:?} is broken, not {own:?}"));
        }
    }
    Ok(match reader::layout(text) {
        Ok((top, lines)) => {
            let words = arrangement::words(&top);
            format!("accepted {lines}\nwords {}", walk_cases::decimals(&words))
        }
        Err(refusal) => refusal.recorded(),
    })
}

/// A `walk` line gives itself, the position behind the walk and the words of
/// its events. It is asked of the `layout`, `message` and `fields` above it.
fn walk_answers(lines: &str) -> Result<String, String> {
    let mut answers = String::new();
    let mut layout: Option<HandMade> = None;
    let mut message = Vec::new();
    let mut table = Table::default();
    for line in lines.lines() {
        let (key, rest) = line.split_once(' ').unwrap_or((line, ""));
        answers.push_str(line);
        match key {
            "layout" => {
                let words: Vec<u32> = numbers(rest)?;
                let plain = arrangement::layout(&words).ok_or("not the words of a layout")?;
                layout = Some(layouts::hand_made(&plain).map_err(|error| error.to_string())?);
            }
            "message" => message = hex::decode(rest)?,
            "fields" => table = Table::new(&numbers(rest)?, &message)?,
            "walk" => {
                let words: Vec<u64> = numbers(rest)?;
                let (&[position, count_tag], Some(layout)) = (words.as_slice(), &layout) else {
                    return Err(format!(
                        "`{line}` is not `walk POSITION COUNT` behind a layout"
                    ));
                };
                let count_tag = u32::try_from(count_tag).map_err(|error| error.to_string())?;
                let top = Top::HandMade(layout);
                let walk = walks::group_walk(&table.fields(), position as usize, count_tag, top);
                let (events, behind) = walk.ok_or_else(|| format!("no group {count_tag}"))?;
                answers.push_str(&format!(" {behind}"));
                for word in events.iter().flat_map(|event| event.0) {
                    answers.push_str(&format!(" {word}"));
                }
            }
            _ if line.starts_with('#') => {}
            _ => return Err(format!("`{line:.60}` is of no known form")),
        }
        answers.push('\n');
    }
    Ok(answers)
}

/// An `expand` line gives itself, the nodes spent and the words of the layout,
/// or the refusal. It is asked of the `dictionary` above it.
fn expansion_answers(lines: &str) -> Result<String, String> {
    let mut answers = String::new();
    let mut dict = None;
    for line in lines.lines() {
        let (key, rest) = line.split_once(' ').unwrap_or((line, ""));
        answers.push_str(line);
        match key {
            "dictionary" => {
                let read = texts::dictionary(&hex::decode(rest)?);
                dict = Some(read.map_err(|refusal| format!("`{line:.60}..` is {refusal}"))?);
            }
            "expand" => {
                let dict = dict.as_ref().ok_or("no dictionary")?;
                let msg_type = hex::decode(rest)?;
                let msg_type = String::from_utf8_lossy(&msg_type);
                let answer = match expansion::expand(dict, &msg_type)? {
                    Ok((expansion, nodes)) => {
                        let words = arrangement::words(&expansion.layout());
                        format!("{nodes} {}", walk_cases::decimals(&words))
                    }
                    Err(refusal) => refusal.recorded(),
                };
                answers.push_str(&format!(" {answer}"));
            }
            _ if line.starts_with('#') => {}
            _ => return Err(format!("`{line:.60}` is of no known form")),
        }
        answers.push('\n');
    }
    Ok(answers)
}

/// A `plain` or `strict` line gives itself and a word for each field. It is
/// asked of the `dictionary`, `message` and `fields` above it.
fn verdict_answers(lines: &str) -> Result<String, String> {
    let mut answers = String::new();
    let mut dict = None;
    let mut message = Vec::new();
    let mut table = Table::default();
    for line in lines.lines() {
        let (key, rest) = line.split_once(' ').unwrap_or((line, ""));
        answers.push_str(line);
        match key {
            "dictionary" => dict = Some(dictionary_words::definitions(&numbers(rest)?)?),
            "message" => message = hex::decode(rest)?,
            "fields" => table = Table::new(&numbers(rest)?, &message)?,
            "plain" | "strict" => {
                let dict = dict.as_ref().ok_or("no dictionary")?;
                for verdict in verdicts::verdicts(&table.fields(), dict, key == "strict") {
                    answers.push_str(&format!(" {verdict}"));
                }
            }
            _ if line.starts_with('#') => {}
            _ => return Err(format!("`{line:.60}` is of no known form")),
        }
        answers.push('\n');
    }
    Ok(answers)
}

/// What is lent to a message walk: the dictionary and the layout, where the
/// words are those of one, the bytes of the message and its field table.
#[derive(Default)]
struct Lent {
    dict: Option<Dictionary>,
    layout: Option<HandMade>,
    layout_words: Vec<u32>,
    message: Vec<u8>,
    table: Vec<u32>,
}

/// A `walk` line gives itself and the words of the events of the message, a
/// `plain` or `strict` line itself and a word for each field, or the refusal.
/// They are asked of the `dictionary`, a text, and the `layout`, `message` and
/// `fields` above them.
fn message_answers(lines: &str) -> Result<String, String> {
    let mut answers = String::new();
    let mut lent = Lent::default();
    for line in lines.lines() {
        let (key, rest) = line.split_once(' ').unwrap_or((line, ""));
        answers.push_str(line);
        match key {
            // The words of a text that is refused are none.
            "dictionary" => lent.dict = texts::dictionary(&hex::decode(rest)?).ok(),
            "layout" => {
                lent.layout_words = numbers(rest)?;
                lent.layout = layout_in(&lent.layout_words);
            }
            "message" => lent.message = hex::decode(rest)?,
            "fields" => lent.table = numbers(rest)?,
            "walk" => answers.push_str(&answer_of(lent.walk()?)),
            "plain" | "strict" => answers.push_str(&answer_of(lent.verdicts(key == "strict")?)),
            _ if line.starts_with('#') => {}
            _ => return Err(format!("`{line:.60}` is of no known form")),
        }
        answers.push('\n');
    }
    Ok(answers)
}

/// The layout that words begin with, if it meets the rules and the limits.
fn layout_in(words: &[u32]) -> Option<HandMade> {
    let top = arrangement::layout_at_start(words)?;
    if top.all_members() > reader::MOST_MEMBERS || top.all_required() > reader::MOST_REQUIRED {
        return None;
    }
    layouts::hand_made(&top).ok()
}

/// Words behind a space each, or the refusal.
fn answer_of(answer: Result<Vec<u64>, Refusal>) -> String {
    match answer {
        Ok(words) => words.iter().map(|word| format!(" {word}")).collect(),
        Err(refusal) => format!(" {}", refusal.recorded()),
    }
}

/// What row 12 of document 01's table says of a field table.
pub fn bad_field(table: &[u32], message: &[u8]) -> Option<Refusal> {
    let (rows, rest) = table.as_chunks::<3>();
    if !rest.is_empty() || rows.len() > MOST_FIELDS {
        return Some(Refusal::new(12, 0));
    }
    let bad = |row: &[u32; 3]| row[1] > row[2] || row[2] as usize > message.len();
    let field = rows.iter().position(bad)?;
    Some(Refusal::new(12, field as u64 + 1))
}

impl Lent {
    /// The words of the events. Where the layout is that of the message's type
    /// they are compared with the errors of `Validator::validate`.
    fn walk(&self) -> Result<Result<Vec<u64>, Refusal>, String> {
        let Some(dict) = &self.dict else {
            return Ok(Err(Refusal::new(2, 0)));
        };
        let Some(layout) = &self.layout else {
            return Ok(Err(Refusal::new(11, 0)));
        };
        if let Some(refusal) = bad_field(&self.table, &self.message) {
            return Ok(Err(refusal));
        }
        let table = Table::new(&self.table, &self.message)?;
        let fields = table.fields();
        let events = walks::message_walk(&fields, dict, Top::HandMade(layout));
        let type_field = fields.iter().find(|field| field.tag == 35);
        let msg_type = String::from_utf8_lossy(type_field.map_or(b"", |field| field.value));
        if let Ok((expansion, _)) = expansion::expand_quickly(dict, &msg_type)?
            && arrangement::words(&expansion.layout()) == self.layout_words
            && events != walks::checked_message_walk(&fields, dict, &msg_type, &expansion)?
        {
            return Err("the two layouts of a type are walked differently".to_string());
        }
        Ok(Ok(events.iter().flat_map(|event| event.0).collect()))
    }

    fn verdicts(&self, strict: bool) -> Result<Result<Vec<u64>, Refusal>, String> {
        let Some(dict) = &self.dict else {
            return Ok(Err(Refusal::new(2, 0)));
        };
        if let Some(refusal) = bad_field(&self.table, &self.message) {
            return Ok(Err(refusal));
        }
        let table = Table::new(&self.table, &self.message)?;
        let verdicts = verdicts::verdicts(&table.fields(), dict, strict);
        Ok(Ok(verdicts.into_iter().map(u64::from).collect()))
    }
}

/// A field table whose values are copied, each with a byte behind it: the
/// recording visitor knows a field by the address of its value, and rows may
/// share their bytes.
#[derive(Default)]
pub struct Table {
    bytes: Vec<u8>,
    rows: Vec<(u32, usize, usize)>,
}

impl Table {
    /// # Errors
    /// The words are not in threes, or a row's bytes are not there.
    pub fn new(words: &[u32], message: &[u8]) -> Result<Self, String> {
        let (rows, rest) = words.as_chunks::<3>();
        if !rest.is_empty() {
            return Err("fields are not in threes".to_string());
        }
        let mut table = Self::default();
        for &[tag, first, end] in rows {
            let value = message.get(first as usize..end as usize);
            let value = value.ok_or_else(|| format!("no bytes {first} to {end}"))?;
            let start = table.bytes.len();
            table.bytes.extend_from_slice(value);
            table.rows.push((tag, start, table.bytes.len()));
            table.bytes.push(0);
        }
        Ok(table)
    }

    /// The fields as the Rust has them.
    pub fn fields(&self) -> Vec<FieldRef<'_>> {
        let rows = self.rows.iter();
        rows.map(|&(tag, first, end)| FieldRef {
            tag,
            value: &self.bytes[first..end],
        })
        .collect()
    }
}

/// Decimal numbers with a space between them, or nothing.
fn numbers<N: FromStr>(text: &str) -> Result<Vec<N>, String> {
    let words = text.split(' ').filter(|_| !text.is_empty());
    let numbers = words.map(|word| word.parse().map_err(|_| format!("`{word}` is no number")));
    numbers.collect()
}
