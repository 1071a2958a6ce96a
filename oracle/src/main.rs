//! The commands of the oracle; see README.md.

use oracle::answers::{self, Kind, MOST_FIELDS};
use oracle::events::Event;
use oracle::layouts::{self, Expansion, HandMade};
use oracle::refusal::Refusal;
use oracle::schema::Dictionary;
use oracle::walks::{self, Top};
use oracle::{expansion, texts, verdicts};
use std::io::{self, Read, Write};
use std::process::ExitCode;

fn main() -> ExitCode {
    let arguments: Vec<String> = std::env::args().skip(1).collect();
    let words: Vec<&str> = arguments.iter().map(String::as_str).collect();
    let answer = match words.as_slice() {
        ["cases", kind] if let Some(kind) = Kind::named(kind) => Ok(kind.cases()),
        [kind] if let Some(kind) = Kind::named(kind) => {
            input().and_then(|cases| kind.answers(&cases))
        }
        ["dictionary-text", text] => {
            file(text).map(|text| answers::dictionary_answer(&text) + "\n")
        }
        ["layout-text", text] => {
            file(text).and_then(|text| answers::layout_answer(&text).map(|answer| answer + "\n"))
        }
        ["layout", dict, msg_type] => layout(dict, msg_type),
        ["expanded-text", dict, msg_type] => expanded_text(dict, msg_type),
        ["events", "message", dict, msg] => message_events(dict, msg),
        ["events", "group", dict, msg, position, count] => group_events(dict, msg, position, count),
        ["events", "layout-message", layout, dict, msg] => layout_message_events(layout, dict, msg),
        ["events", "layout-group", layout, msg, position, count] => {
            layout_group_events(layout, msg, position, count)
        }
        ["verdicts", dict, msg] => verdict_line(dict, msg, false),
        ["verdicts", dict, msg, "strict"] => verdict_line(dict, msg, true),
        ["list", dict, msg] => list(dict, msg),
        _ => Err(USAGE.to_string()),
    };
    let written = answer.and_then(|text| {
        io::stdout()
            .lock()
            .write_all(text.as_bytes())
            .map_err(|error| error.to_string())
    });
    match written {
        Ok(()) => ExitCode::SUCCESS,
        Err(error) => {
            eprintln!("oracle: {error}");
            ExitCode::from(2)
        }
    }
}

const USAGE: &str = "usage: oracle COMMAND
  cases KIND | KIND             the cases of a recorded list; the answers to
                                the cases on standard input. KIND is one of
    values counts dictionary-texts layout-texts walks expansions verdict-words
    messages
  dictionary-text FILE          `accepted LINES WORD WORD ..` or `refused N P`
  layout-text FILE              `accepted LINES` and a line `words WORD WORD ..`, or `refused N P`
  layout DICT TYPE
  expanded-text DICT TYPE       the same layout as a layout text
  events message DICT MSG
  events group DICT MSG POSITION COUNT
  events layout-message LAYOUT DICT MSG
  events layout-group LAYOUT MSG POSITION COUNT
  verdicts DICT MSG [strict]
  list DICT MSG                 what document 01's gatelist prints";

fn input() -> Result<String, String> {
    let mut text = String::new();
    io::stdin()
        .lock()
        .read_to_string(&mut text)
        .map_err(|error| error.to_string())?;
    Ok(text)
}

fn file(path: &str) -> Result<Vec<u8>, String> {
    std::fs::read(path).map_err(|error| format!("{path}: {error}"))
}

fn dictionary(path: &str) -> Result<Dictionary, String> {
    texts::dictionary(&file(path)?).map_err(|refusal| format!("{path}: {refusal}"))
}

fn message(path: &str) -> Result<texts::Message, String> {
    texts::message(&file(path)?).map_err(|refusal| format!("{path}: {refusal}"))
}

/// A hand-made layout.
fn hand_made(path: &str) -> Result<HandMade, String> {
    let level = texts::layout(&file(path)?).map_err(|refusal| format!("{path}: {refusal}"))?;
    layouts::hand_made(&level).map_err(|error| format!("{path}: {error}"))
}

/// The expansion of a type and the nodes spent, or the line of the refusal.
fn expanded<'d>(
    dict: &'d Dictionary,
    msg_type: &str,
) -> Result<Result<(Expansion<'d>, usize), String>, String> {
    let answer = expansion::expand(dict, msg_type)?;
    Ok(answer.map_err(|refusal| format!("{refusal}\n")))
}

fn layout(dict: &str, msg_type: &str) -> Result<String, String> {
    let dict = dictionary(dict)?;
    Ok(match expanded(&dict, msg_type)? {
        Ok((expansion, nodes)) => layouts::expansion_lines(&expansion, nodes),
        Err(refused) => match layouts::expand(&dict, msg_type) {
            Ok(_) => refused,
            Err(errors) => refused + &layouts::error_lines(&errors),
        },
    })
}

fn expanded_text(dict: &str, msg_type: &str) -> Result<String, String> {
    Ok(match expanded(&dictionary(dict)?, msg_type)? {
        Ok((expansion, _)) => layouts::layout_text(&expansion.layout()),
        Err(refused) => refused,
    })
}

fn event_lines(events: &[Event]) -> String {
    events.iter().map(|event| format!("{event}\n")).collect()
}

fn message_events(dict: &str, msg: &str) -> Result<String, String> {
    let (dict, msg) = (dictionary(dict)?, message(msg)?);
    match expanded(&dict, &msg.msg_type())? {
        Ok((expansion, _)) => {
            walks::checked_message_walk(&msg.fields(), &dict, &msg.msg_type(), &expansion)
                .map(|events| event_lines(&events))
        }
        Err(refused) => Ok(refused),
    }
}

fn group_events(dict: &str, msg: &str, position: &str, count: &str) -> Result<String, String> {
    let (dict, msg) = (dictionary(dict)?, message(msg)?);
    match expanded(&dict, &msg.msg_type())? {
        Ok((expansion, _)) => group_lines(&msg, position, count, Top::Expanded(&expansion)),
        Err(refused) => Ok(refused),
    }
}

fn layout_message_events(layout: &str, dict: &str, msg: &str) -> Result<String, String> {
    let (layout, dict, msg) = (hand_made(layout)?, dictionary(dict)?, message(msg)?);
    let events = walks::message_walk(&msg.fields(), &dict, Top::HandMade(&layout));
    Ok(event_lines(&events))
}

fn layout_group_events(
    layout: &str,
    msg: &str,
    position: &str,
    count: &str,
) -> Result<String, String> {
    let (layout, msg) = (hand_made(layout)?, message(msg)?);
    group_lines(&msg, position, count, Top::HandMade(&layout))
}

/// The events of a group walk, then the position behind the group.
fn group_lines(
    msg: &texts::Message,
    position: &str,
    count: &str,
    top: Top<'_>,
) -> Result<String, String> {
    let position = position
        .parse()
        .map_err(|_| format!("`{position}` is not a position"))?;
    let count = count
        .parse()
        .map_err(|_| format!("`{count}` is not a tag"))?;
    Ok(
        match walks::group_walk(&msg.fields(), position, count, top) {
            Some((events, behind)) => format!("{}position={behind}\n", event_lines(&events)),
            None => format!("refused=14 place={count}\n"),
        },
    )
}

fn verdict_digits(dict: &Dictionary, msg: &texts::Message, strict: bool) -> String {
    verdicts::verdicts(&msg.fields(), dict, strict)
        .iter()
        .map(u8::to_string)
        .collect()
}

fn verdict_line(dict: &str, msg: &str, strict: bool) -> Result<String, String> {
    let (dict, msg) = (dictionary(dict)?, message(msg)?);
    Ok(format!(
        "verdicts={}\n",
        verdict_digits(&dict, &msg, strict)
    ))
}

/// What `gatelist` prints: the calls in their order, and the first refusal as
/// the only line.
fn list(dict_path: &str, msg_path: &str) -> Result<String, String> {
    let refused = |refusal: Refusal| Ok(format!("{refusal}\n"));
    let dict = match texts::dictionary(&file(dict_path)?) {
        Ok(dict) => dict,
        Err(refusal) => return refused(refusal),
    };
    let msg = match texts::message(&file(msg_path)?) {
        Ok(msg) => msg,
        Err(refusal) => return refused(refusal),
    };
    let (fields, msg_type) = (msg.fields(), msg.msg_type());
    let expansion = match expansion::expand(&dict, &msg_type)? {
        Ok((expansion, _)) => expansion,
        Err(refusal) => return refused(refusal),
    };
    if fields.len() > MOST_FIELDS {
        return refused(Refusal::new(12, 0));
    }
    let events = walks::checked_message_walk(&fields, &dict, &msg_type, &expansion)?;
    Ok(format!(
        "type={msg_type} fields={}\n{}verdicts={}\n",
        fields.len(),
        event_lines(&events),
        verdict_digits(&dict, &msg, false),
    ))
}
