//! A round: a text or a layout made up from a seed, and every call that can be
//! made with it.

use crate::dictionaries::{self, TAGS};
use crate::lent::{Expected, Lent, compare as compare_call};
use crate::messages::{self, Message};
use crate::run::Run;
use oracle::answers::Table;
use oracle::layouts::{self, HandMade, PlainLevel};
use oracle::lines::DictionaryLine;
use oracle::numbers::Numbers;
use oracle::refusal::Refusal;
use oracle::schema::Dictionary;
use oracle::walks::{self, Top};
use oracle::{arrangement, dictionary_words, expansion, reader, texts, verdicts, walk_cases};

/// No dictionary.
const NO_DICTIONARY: Refusal = Refusal::new(2, 0);
/// No layout.
const NO_LAYOUT: Refusal = Refusal::new(11, 0);
const MOST_FIELDS: usize = 4_096;

/// The round of a seed.
pub fn compare(seed: u64, run: &mut Run) -> Result<(), String> {
    let mut numbers = Numbers::new(seed.wrapping_mul(0x9E37_79B9_7F4A_7C15));
    for _ in 0..4 {
        numbers.below(2);
    }
    match numbers.below(8) {
        0..4 => dictionary_round(run, &mut numbers),
        4 => layout_round(run, &mut numbers),
        _ => walk_round(run, &mut numbers),
    }
}

fn dictionary_round(run: &mut Run, numbers: &mut Numbers) -> Result<(), String> {
    let text = dictionaries::dictionary_text(numbers);
    let Some(words) = dictionary_text(run, numbers, &text)? else {
        return Ok(());
    };
    let dict = texts::dictionary(&text).expect("an accepted text");
    let mut types: Vec<Vec<u8>> = dict.messages.keys().map(|name| name.clone().into_bytes()).collect();
    types.sort();
    types.extend([b"D".to_vec(), b"".to_vec(), b"zz9Z1".to_vec(), b"\xff".to_vec()]);
    for msg_type in types {
        let Some(layout) = expansion_of(run, numbers, &words, &dict, &msg_type)? else {
            continue;
        };
        let made = layouts::hand_made(&layout).map_err(|error| format!("{error}"))?;
        let lent = arrangement::words(&layout);
        for _ in 0..3 {
            let fields = messages::fields_of(numbers, &layout, TAGS, 24);
            let message = Message::new(numbers, &fields);
            message_walk(run, numbers, (&words, &dict), (&lent, &made), &message)?;
            group_walks(run, numbers, (&lent, &layout, &made), &message)?;
        }
        members(run, numbers, &lent, &layout)?;
    }
    for strict in [false, true] {
        let count = numbers.place(40);
        let fields = messages::valued_fields(numbers, TAGS + 2, count);
        let message = Message::new(numbers, &fields);
        verdicts_of(run, numbers, (&words, &dict), &message, strict)?;
        let message = message.damaged(numbers);
        verdicts_of(run, numbers, (&words, &dict), &message, strict)?;
    }
    damaged_dictionary(run, numbers, &words)
}

fn layout_round(run: &mut Run, numbers: &mut Numbers) -> Result<(), String> {
    for _ in 0..8 {
        let text = dictionaries::layout_text(numbers);
        if let Some(layout) = layout_text(run, numbers, &text)? {
            let lent = arrangement::words(&layout);
            members(run, numbers, &lent, &layout)?;
            damaged_layout(run, numbers, &lent)?;
        }
    }
    Ok(())
}

fn walk_round(run: &mut Run, numbers: &mut Numbers) -> Result<(), String> {
    let tags = 1 + numbers.below(14);
    let depth = 1 + numbers.below(4);
    let layout = walk_cases::random_layout(numbers, tags, depth);
    let made = layouts::hand_made(&layout).map_err(|error| format!("{error}"))?;
    let lent = arrangement::words(&layout);
    let text = definitions(numbers, tags);
    let lines = reader::dictionary(&text).expect("an accepted text");
    let words = dictionary_words::words(&lines);
    let dict = texts::dictionary(&text).expect("an accepted text");
    for _ in 0..6 {
        let size = 8 + numbers.place(32);
        let fields = messages::fields_of(numbers, &layout, tags, size);
        let message = Message::new(numbers, &fields);
        group_walks(run, numbers, (&lent, &layout, &made), &message)?;
        message_walk(run, numbers, (&words, &dict), (&lent, &made), &message)?;
        let message = message.damaged(numbers);
        group_walks(run, numbers, (&lent, &layout, &made), &message)?;
        message_walk(run, numbers, (&words, &dict), (&lent, &made), &message)?;
    }
    members(run, numbers, &lent, &layout)?;
    damaged_layout(run, numbers, &lent)
}

/// Definitions of most tags, and nothing else.
fn definitions(numbers: &mut Numbers, tags: u64) -> Vec<u8> {
    let mut text = String::new();
    for tag in 0..tags + 2 {
        if !numbers.once_in(6) {
            text.push_str(&format!("def={tag},String\n"));
        }
    }
    text.push_str("begin=header\nend=header\nbegin=trailer\nend=trailer\n");
    text.into_bytes()
}

// ---- the calls

/// read_dictionary; the words of an accepted text.
pub fn dictionary_text(run: &mut Run, numbers: &mut Numbers, text: &[u8]) -> Result<Option<Vec<u32>>, String> {
    let read = reader::dictionary(text);
    run.reached("texts of 65,536 bytes", text.len() == 65_536);
    run.reached("texts of 65,537 bytes", text.len() == 65_537);
    let expected: Expected<u32> = read.as_ref().map(|lines| (dictionary_words::words(lines), 0)).map_err(|refusal| *refusal);
    let lent = Lent::new(run.guarded, numbers.once_in(2), text);
    compare_call(run, numbers, "read_dictionary", &expected, 40, |space| {
        order_gate::read_dictionary(&lent, space).map(|words| (words, 0))
    })
    .map_err(|difference| format!("{difference}\ntext {:?}", String::from_utf8_lossy(text)))?;
    Ok(expected.ok().map(|(words, _)| words))
}

/// read_layout; the layout of an accepted text.
pub fn layout_text(run: &mut Run, numbers: &mut Numbers, text: &[u8]) -> Result<Option<PlainLevel>, String> {
    let read = reader::layout(text).map(|(layout, _)| layout);
    let expected: Expected<u32> = read.as_ref().map(|layout| (arrangement::words(layout), 0)).map_err(|refusal| *refusal);
    let lent = Lent::new(run.guarded, numbers.once_in(2), text);
    compare_call(run, numbers, "read_layout", &expected, 40, |space| {
        order_gate::read_layout(&lent, space).map(|words| (words, 0))
    })
    .map_err(|difference| format!("{difference}\ntext {:?}", String::from_utf8_lossy(text)))?;
    Ok(read.ok())
}

/// expand; the layout where there is one.
pub fn expansion_of(
    run: &mut Run,
    numbers: &mut Numbers,
    words: &[u32],
    dict: &Dictionary,
    msg_type: &[u8],
) -> Result<Option<PlainLevel>, String> {
    let name = String::from_utf8_lossy(msg_type);
    // The Rust's word on the nodes now and then.
    let expanded = if numbers.once_in(32) {
        expansion::expand(dict, &name)?
    } else {
        expansion::expand_quickly(dict, &name)?
    };
    let expanded = expanded.map(|(expansion, nodes)| (expansion.layout(), nodes as u64));
    let expected: Expected<u32> = expanded
        .as_ref()
        .map(|(layout, nodes)| (arrangement::words(layout), *nodes))
        .map_err(|refusal| *refusal);
    if let Ok((layout, nodes)) = &expanded {
        run.reached("expansions of 4,096 nodes", *nodes == 4_096);
        run.reached("expansions of 2,048 required entries", layout.all_required() == 2_048);
    }
    let lent = Lent::new(run.guarded, numbers.once_in(2), words);
    let lent_type = Lent::new(run.guarded, numbers.once_in(2), msg_type);
    compare_call(run, numbers, "expand", &expected, 40, |space| {
        order_gate::expand(&lent, &lent_type, space).map(|expanded| (expanded.words, expanded.nodes))
    })
    .map_err(|difference| format!("{difference}\ntype {name}"))?;
    Ok(expanded.ok().map(|(layout, _)| layout))
}

/// level_members, for a path that is there and for one that is not.
pub fn members(run: &mut Run, numbers: &mut Numbers, lent: &[u32], layout: &PlainLevel) -> Result<(), String> {
    for _ in 0..4 {
        let mut path = Vec::new();
        let mut level = Some(layout);
        while let Some(here) = level
            && !numbers.once_in(4)
        {
            let tag = match here.groups.is_empty() || numbers.once_in(6) {
                true => numbers.below(TAGS) as u32,
                false => numbers.pick(&here.groups).count_tag,
            };
            path.push(tag);
            level = here.groups.iter().find(|group| group.count_tag == tag).map(|group| &group.entry);
        }
        let lent = Lent::new(run.guarded, numbers.once_in(2), lent);
        let lent_path = Lent::new(run.guarded, numbers.once_in(2), &path);
        let given = order_gate::level_members(&lent, &lent_path);
        run.called("level_members");
        let same = match (level, given) {
            (Some(level), Ok(given)) => level.members == given,
            (None, Err(order_gate::Error::Refused(given))) => {
                let tag = u64::from(*path.last().expect("a tag not found"));
                run.refused(Refusal::new(14, tag));
                (given.number(), given.place()) == (14, tag)
            }
            _ => false,
        };
        if !same {
            return Err(format!("level_members {path:?}: the gate {given:?}"));
        }
    }
    Ok(())
}

/// What row 12 of document 01's table says of a field table.
fn bad_field(message: &Message) -> Option<Refusal> {
    let (rows, rest) = message.table.as_chunks::<3>();
    if !rest.is_empty() || rows.len() > MOST_FIELDS {
        return Some(Refusal::new(12, 0));
    }
    let bad = |row: &[u32; 3]| row[1] > row[2] || row[2] as usize > message.bytes.len();
    let field = rows.iter().position(bad)?;
    Some(Refusal::new(12, field as u64 + 1))
}

/// walk_group from some positions, for each group of the top and for none.
pub fn group_walks(
    run: &mut Run,
    numbers: &mut Numbers,
    (lent, layout, made): (&[u32], &PlainLevel, &HandMade),
    message: &Message,
) -> Result<(), String> {
    let mut tags = layout.count_tags();
    tags.push(numbers.below(TAGS) as u32);
    for tag in tags {
        for _ in 0..3 {
            let position = numbers.place(message.fields() + 2);
            group_walk(run, numbers, (lent, made), message, position, tag)?;
        }
    }
    Ok(())
}

pub fn group_walk(
    run: &mut Run,
    numbers: &mut Numbers,
    (lent, made): (&[u32], &HandMade),
    message: &Message,
    position: usize,
    tag: u32,
) -> Result<(), String> {
    let expected: Expected<u64> = match bad_field(message) {
        Some(refusal) => Err(refusal),
        None => {
            let table = Table::new(&message.table, &message.bytes)?;
            match walks::group_walk(&table.fields(), position, tag, Top::HandMade(made)) {
                Some((events, behind)) => Ok((events.iter().flat_map(|event| event.0).collect(), behind as u64)),
                None => Err(Refusal::new(14, u64::from(tag))),
            }
        }
    };
    if let Ok((words, _)) = &expected {
        run.walked(words);
    }
    let lent = Lent::new(run.guarded, numbers.once_in(2), lent);
    let table = Lent::new(run.guarded, numbers.once_in(2), &message.table);
    let bytes = Lent::new(run.guarded, numbers.once_in(2), &message.bytes);
    let ample = 25 * message.fields();
    compare_call(run, numbers, "walk_group", &expected, ample, |space| {
        order_gate::walk_group(&lent, &table, &bytes, position, tag, space).map(|walked| (walked.words, walked.position as u64))
    })
    .map_err(|difference| {
        let words = &*lent;
        let (table, bytes) = (&message.table, &message.bytes);
        format!("{difference}\nlayout {words:?}\nfields {table:?}\nmessage {bytes:?}\nposition {position} tag {tag}")
    })
}

pub fn message_walk(
    run: &mut Run,
    numbers: &mut Numbers,
    (words, dict): (&[u32], &Dictionary),
    (lent, made): (&[u32], &HandMade),
    message: &Message,
) -> Result<(), String> {
    let expected: Expected<u64> = match bad_field(message) {
        Some(refusal) => Err(refusal),
        None => {
            let table = Table::new(&message.table, &message.bytes)?;
            let events = walks::message_walk(&table.fields(), dict, Top::HandMade(made));
            Ok((events.iter().flat_map(|event| event.0).collect(), 0))
        }
    };
    if let Ok((words, _)) = &expected {
        run.walked(words);
    }
    let words = Lent::new(run.guarded, numbers.once_in(2), words);
    let lent = Lent::new(run.guarded, numbers.once_in(2), lent);
    let table = Lent::new(run.guarded, numbers.once_in(2), &message.table);
    let bytes = Lent::new(run.guarded, numbers.once_in(2), &message.bytes);
    let ample = 25 * message.fields() + 5 * lent.len();
    compare_call(run, numbers, "walk_message", &expected, ample, |space| {
        order_gate::walk_message(&words, &lent, &table, &bytes, space).map(|words| (words, 0))
    })
    .map_err(|difference| {
        let (layout, table, bytes) = (&*lent, &message.table, &message.bytes);
        format!("{difference}\nlayout {layout:?}\nfields {table:?}\nmessage {bytes:?}")
    })
}

pub fn verdicts_of(
    run: &mut Run,
    numbers: &mut Numbers,
    (words, dict): (&[u32], &Dictionary),
    message: &Message,
    strict: bool,
) -> Result<(), String> {
    let expected: Expected<u64> = match bad_field(message) {
        Some(refusal) => Err(refusal),
        None => {
            let table = Table::new(&message.table, &message.bytes)?;
            let verdicts = verdicts::verdicts(&table.fields(), dict, strict);
            Ok((verdicts.into_iter().map(u64::from).collect(), 0))
        }
    };
    if let Ok((words, _)) = &expected {
        run.judged(words);
    }
    let words = Lent::new(run.guarded, numbers.once_in(2), words);
    let table = Lent::new(run.guarded, numbers.once_in(2), &message.table);
    let bytes = Lent::new(run.guarded, numbers.once_in(2), &message.bytes);
    compare_call(run, numbers, "verdicts", &expected, 9, |space| {
        order_gate::verdicts(&words, &table, &bytes, strict, space).map(|words| (words, 0))
    })
    .map_err(|difference| {
        let (table, bytes) = (&message.table, &message.bytes);
        format!("{difference}\nfields {table:?}\nmessage {bytes:?}\nstrict {strict}")
    })
}

// ---- lent words that are no arrangement

/// Words with one or two changes, cut short, or made up.
fn damaged(numbers: &mut Numbers, words: &[u32]) -> Vec<u32> {
    let mut words = words.to_vec();
    for _ in 0..=numbers.below(2) {
        if words.is_empty() {
            return words;
        }
        let place = match numbers.below(3) {
            0 => numbers.place(words.len().min(8)),
            _ => numbers.place(words.len()),
        };
        match numbers.below(9) {
            0 => words[place] = words[place].wrapping_add(1),
            1 => words[place] = words[place].wrapping_sub(1),
            2 => words[place] = 0,
            3 => words[place] = u32::MAX - numbers.below(4) as u32,
            4 => words[place] = numbers.below(64) as u32,
            5 => words.truncate(place),
            6 => {
                let other = numbers.place(words.len());
                words.swap(place, other);
            }
            7 => words[place] = words[numbers.place(words.len())],
            _ => words.push(numbers.below(64) as u32),
        }
    }
    words
}

fn damaged_dictionary(run: &mut Run, numbers: &mut Numbers, words: &[u32]) -> Result<(), String> {
    for _ in 0..6 {
        let words = damaged(numbers, words);
        if dictionary_words::is_dictionary(&words) {
            continue;
        }
        let lent = Lent::new(run.guarded, numbers.once_in(2), &words);
        let refused: Expected<u32> = Err(NO_DICTIONARY);
        compare_call(run, numbers, "expand", &refused, 40, |space| {
            order_gate::expand(&lent, b"D", space).map(|expanded| (expanded.words, expanded.nodes))
        })
        .map_err(|difference| format!("{difference}\ndictionary {words:?}"))?;
        let refused: Expected<u64> = Err(NO_DICTIONARY);
        compare_call(run, numbers, "verdicts", &refused, 9, |space| {
            order_gate::verdicts(&lent, &[1], b"", false, space).map(|words| (words, 0))
        })?;
        compare_call(run, numbers, "walk_message", &refused, 9, |space| {
            order_gate::walk_message(&lent, &[1], &[1], b"", space).map(|words| (words, 0))
        })?;
    }
    Ok(())
}

/// Whether words begin with the arrangement of a layout that meets the rules
/// and the limits.
fn is_layout(lent: &[u32]) -> bool {
    let Some(top) = arrangement::layout_at_start(lent) else {
        return false;
    };
    reader::broken_rule(&top).is_none() && top.all_members() <= reader::MOST_MEMBERS && top.all_required() <= reader::MOST_REQUIRED
}

fn damaged_layout(run: &mut Run, numbers: &mut Numbers, words: &[u32]) -> Result<(), String> {
    let lines: Vec<DictionaryLine<'_>> = reader::dictionary(b"begin=header\nend=header\nbegin=trailer\nend=trailer\n").expect("an accepted text");
    let dictionary = dictionary_words::words(&lines);
    for _ in 0..6 {
        let words = damaged(numbers, words);
        let lent = Lent::new(run.guarded, numbers.once_in(2), &words);
        let given = order_gate::level_members(&lent, &[]);
        run.called("level_members");
        let passes = is_layout(&words);
        let same = match given {
            Ok(_) => passes,
            Err(order_gate::Error::Refused(refusal)) => {
                !passes && (refusal.number(), refusal.place()) == (11, 0)
            }
            Err(_) => false,
        };
        if !same {
            return Err(format!("level_members of {words:?}: is a layout {passes}, the gate {given:?}"));
        }
        if passes {
            continue;
        }
        run.refused(NO_LAYOUT);
        let refused: Expected<u64> = Err(NO_LAYOUT);
        compare_call(run, numbers, "walk_group", &refused, 9, |space| {
            order_gate::walk_group(&lent, &[1], b"", 0, 0, space).map(|walked| (walked.words, walked.position as u64))
        })?;
        compare_call(run, numbers, "walk_message", &refused, 9, |space| {
            order_gate::walk_message(&dictionary, &lent, &[1], b"", space).map(|words| (words, 0))
        })?;
    }
    Ok(())
}
