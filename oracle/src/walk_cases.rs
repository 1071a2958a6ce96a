//! The group walks of the recorded list, always the same and in the same
//! order: layouts, messages, and from where each is walked.

use crate::arrangement;
use crate::hex;
use crate::layouts::{self, PlainGroup, PlainLevel};
use crate::numbers::Numbers;
use crate::texts;
use std::fmt::Write;

/// A layout and a message: `layout`, `message` and `fields` lines, and a
/// `walk` line for each position of the table, one past it, and each group of
/// the top.
struct Block {
    /// What the block shows, in a comment.
    title: String,
    layout: PlainLevel,
    bytes: Vec<u8>,
    /// Tag, first byte and byte behind the last.
    rows: Vec<[u32; 3]>,
    /// The positions, if not all.
    positions: Option<Vec<u64>>,
}

impl Block {
    fn new(title: &str, layout: &PlainLevel, fields: &[(u32, Vec<u8>)]) -> Self {
        let mut bytes = Vec::new();
        let mut rows = Vec::new();
        for (tag, value) in fields {
            bytes.extend_from_slice(format!("{tag}=").as_bytes());
            let first = bytes.len() as u32;
            bytes.extend_from_slice(value);
            rows.push([*tag, first, bytes.len() as u32]);
            bytes.push(1);
        }
        Self {
            title: title.to_string(),
            layout: layout.clone(),
            bytes,
            rows,
            positions: None,
        }
    }

    /// Walks from these positions only.
    fn at(mut self, positions: &[u64]) -> Self {
        self.positions = Some(positions.to_vec());
        self
    }

    fn write(&self, text: &mut String) {
        if !self.title.is_empty() {
            let _ = writeln!(text, "# {}", self.title);
        }
        let words = arrangement::words(&self.layout);
        let _ = writeln!(text, "layout {}", decimals(&words));
        let _ = writeln!(text, "message {}", hex::encode(&self.bytes));
        let rows = decimals(self.rows.as_flattened());
        let _ = writeln!(text, "{}", format!("fields {rows}").trim_end());
        let all: Vec<u64> = (0..=self.rows.len() as u64).collect();
        for position in self.positions.as_ref().unwrap_or(&all) {
            for count_tag in self.layout.count_tags() {
                let _ = writeln!(text, "walk {position} {count_tag}");
            }
        }
    }
}

/// Numbers with a space between them.
pub fn decimals<N: ToString>(numbers: &[N]) -> String {
    let numbers: Vec<String> = numbers.iter().map(N::to_string).collect();
    numbers.join(" ")
}

/// All walks.
pub fn walk_cases() -> String {
    let mut blocks = Vec::new();
    small_walks(&mut blocks);
    examples(&mut blocks);
    random_walks(&mut blocks);
    deep_walks(&mut blocks);
    wide_walks(&mut blocks);
    shared_bytes(&mut blocks);
    long_walks(&mut blocks);
    let mut text = String::new();
    for block in blocks {
        block.write(&mut text);
    }
    text
}

/// A layout from the lines of its text, parted by spaces.
fn layout(text: &str) -> PlainLevel {
    let lines: String = text
        .split_whitespace()
        .map(|line| format!("{line}\n"))
        .collect();
    texts::layout(lines.as_bytes()).expect("an accepted layout text")
}

/// Fields `TAG=VALUE`, parted by spaces.
fn fields(text: &str) -> Vec<(u32, Vec<u8>)> {
    text.split_whitespace()
        .map(|field| {
            let (tag, value) = field.split_once('=').expect("TAG=VALUE");
            (tag.parse().expect("a tag"), value.as_bytes().to_vec())
        })
        .collect()
}

// ---- small walks

/// The worked example, and the smallest messages that tell wrong readings of
/// a group apart.
fn small_walks(blocks: &mut Vec<Block>) {
    let parties = layout(
        "member=35 member=453 required=35 group=453,448,1 member=447 member=448 required=447 end=453",
    );
    let message = fields("35=D 453=2 448=A 447=D 448=B");
    let behind = u64::MAX;
    blocks.push(Block::new("the worked example", &parties, &message).at(&[
        0,
        1,
        2,
        3,
        4,
        5,
        6,
        4096,
        4_294_967_295,
        4_294_967_296,
        behind,
    ]));
    let one = "group=9,1,0 member=1 end=9";
    let two = "group=9,1,0 member=1 member=2 end=9";
    let nested = "group=9,1,0 member=1 group=1,2,0 member=2 end=1 end=9";
    let own = "group=9,1,0 member=1 group=1,1,0 member=1 end=1 end=9";
    for (title, message, around, group) in [
        (
            "a nested group of count 0, and a tag that the level around lacks",
            "9=1 1=0 2=v",
            "9",
            nested,
        ),
        ("a group of count 0, and its delimiter", "9=0 1=v", "9", one),
        (
            "a delimiter that is a nested count tag",
            "9=1 1=0",
            "9",
            own,
        ),
        (
            "a group of count 0, and a tag of the level around",
            "9=0 2=v",
            "2,9",
            two,
        ),
        (
            "a tag of the group and of the level around",
            "9=1 1=v 2=v",
            "2,9",
            two,
        ),
        (
            "a delimiter behind the declared entries that the level around has",
            "9=1 1=v 1=v",
            "1,9",
            one,
        ),
        (
            "a tag in a nested entry and in the entry around",
            "9=1 1=1 2=v 2=v",
            "9",
            "group=9,1,0 member=1 member=2 group=1,2,0 member=2 end=1 end=9",
        ),
        (
            "the level around a nested group is the group it stands in",
            "9=1 1=0 2=v",
            "2,9",
            nested,
        ),
        (
            "the delimiter of the group around ends a nested group",
            "9=2 1=0 1=0",
            "9",
            own,
        ),
        // Further ones.
        ("no field", "", "9", one),
        ("a count field alone", "9=1", "9", one),
        ("a count of 0 alone", "9=0", "9", one),
        ("a count that is none", "9=x 2=v 2=v 1=v", "2,9", two),
        ("an empty count", "9= 1=v", "9", two),
        ("a count with a sign", "9=+1 1=v", "9", two),
        ("a count with leading zeros", "9=007 1=v", "9", two),
        ("the largest count", "9=18446744073709551615 1=v", "9", two),
        ("a count too large", "9=18446744073709551616 1=v", "9", two),
        ("a member ahead of the delimiter", "9=1 2=v 1=v", "9", two),
        (
            "a member ahead of the delimiter, and a repeat",
            "9=1 2=v 2=v",
            "9",
            two,
        ),
        (
            "a count of 0 and a member that is no delimiter",
            "9=0 2=v 1=v",
            "9",
            two,
        ),
        (
            "a repeated tag three times",
            "9=1 1=v 2=v 2=v 2=v",
            "9",
            two,
        ),
        ("a repeat, and too few entries", "9=2 1=v 2=v 2=v", "9", two),
        ("too few entries", "9=3 1=v 2=v 1=v", "9", two),
        ("too many entries", "9=1 1=v 1=v 1=v", "9", two),
        ("a foreign tag between entries", "9=2 1=v 7=v 1=v", "9", two),
        (
            "a repeated nested count tag is walked again",
            "9=1 1=v 3=1 4=v 3=1 4=v",
            "9",
            "group=9,1,0 member=1 member=3 group=3,4,0 member=4 end=3 end=9",
        ),
        (
            "a nested fault is not the group's",
            "9=2 1=v 3=2 4=v 1=v 3=1 4=v",
            "9",
            "group=9,1,0 member=1 member=3 group=3,4,0 member=4 end=3 end=9",
        ),
        (
            "a group that is its own delimiter",
            "9=2 9=v 9=v 9=v",
            "9",
            "group=9,9,0 member=9 end=9",
        ),
        (
            "a group in a group of its count tag",
            "9=1 1=v 9=1 1=v",
            "9",
            "group=9,1,0 member=1 member=9 group=9,1,0 member=1 end=9 end=9",
        ),
        (
            "its own count tag is an ordinary member",
            "9=1 1=v 9=2 1=v",
            "1,9",
            "group=9,1,0 member=1 member=9 end=9",
        ),
    ] {
        let members: String = around
            .split(',')
            .map(|tag| format!("member={tag} "))
            .collect();
        let layout = layout(&format!("{members} {group}"));
        blocks.push(Block::new(
            &format!("{title}: {message}"),
            &layout,
            &fields(message),
        ));
    }
}

// ---- the messages of examples/

fn examples(blocks: &mut Vec<Block>) {
    macro_rules! example {
        ($name:literal) => {
            include_bytes!(concat!("../../examples/", $name))
        };
    }
    let block_order: &[u8] = example!("block-order/block-order.dict");
    let messages: [(&[u8], &str, &[u8]); 8] = [
        (
            block_order,
            "block-order/whole.msg",
            example!("block-order/whole.msg"),
        ),
        (
            block_order,
            "block-order/allocation-lost.msg",
            example!("block-order/allocation-lost.msg"),
        ),
        (
            block_order,
            "block-order/fields-out-of-entry.msg",
            example!("block-order/fields-out-of-entry.msg"),
        ),
        (
            block_order,
            "block-order/count-lies.msg",
            example!("block-order/count-lies.msg"),
        ),
        (
            block_order,
            "block-order/nested-count-lies.msg",
            example!("block-order/nested-count-lies.msg"),
        ),
        (
            example!("fix44/new-order-single.dict"),
            "fix44/new-order-single.msg",
            example!("fix44/new-order-single.msg"),
        ),
        (
            example!("fix44/allocation-instruction.dict"),
            "fix44/allocation-instruction.msg",
            example!("fix44/allocation-instruction.msg"),
        ),
        (
            example!("fix44/market-data-snapshot.dict"),
            "fix44/market-data-snapshot.msg",
            example!("fix44/market-data-snapshot.msg"),
        ),
    ];
    for (dict, name, message) in messages {
        let dict = texts::dictionary(dict).expect("an accepted dictionary text");
        let message = texts::message(message).expect("an accepted message");
        let expansion = layouts::expand(&dict, &message.msg_type()).ok();
        let layout = expansion.expect("an expansion").layout();
        let fields: Vec<(u32, Vec<u8>)> = message
            .fields()
            .iter()
            .map(|field| (field.tag, field.value.to_vec()))
            .collect();
        blocks.push(Block::new(&format!("examples/{name}"), &layout, &fields));
    }
}

// ---- walks made up

const COUNTS: [&str; 12] = [
    "x",
    "",
    "+1",
    "-1",
    "1.",
    "007",
    "00",
    "4294967296",
    "18446744073709551615",
    "18446744073709551616",
    "\u{ff11}",
    "1\0",
];

const VALUES: [&str; 6] = ["v", "0", "1", "2", "3", ""];

fn random_walks(blocks: &mut Vec<Block>) {
    let mut numbers = Numbers::new(5);
    for _ in 0..620 {
        let tags = 1 + numbers.below(12);
        let depth = 1 + numbers.below(4);
        let layout = random_layout(&mut numbers, tags, depth);
        let message = random_message(&mut numbers, &layout, tags, 16);
        blocks.push(Block::new("", &layout, &message));
    }
    for _ in 0..110 {
        let tags = 6 + numbers.below(7);
        let layout = random_layout(&mut numbers, tags, 4);
        let message = random_message(&mut numbers, &layout, tags, 32);
        blocks.push(Block::new("", &layout, &message));
    }
}

/// A layout over tags 1 to `tags` that meets the rules and has a group at the
/// top.
pub fn random_layout(numbers: &mut Numbers, tags: u64, depth: u64) -> PlainLevel {
    loop {
        let top = random_level(numbers, tags, depth);
        if !top.groups.is_empty() {
            return top;
        }
    }
}

fn random_level(numbers: &mut Numbers, tags: u64, depth: u64) -> PlainLevel {
    let mut members: Vec<u32> = (1..=tags as u32).filter(|_| numbers.once_in(2)).collect();
    if members.is_empty() {
        members.push(1 + numbers.below(tags) as u32);
    }
    let mut groups = Vec::new();
    for count_tag in members.clone() {
        if depth > 0 && numbers.once_in(3) {
            let entry = random_level(numbers, tags, depth - 1);
            groups.push(PlainGroup {
                count_tag,
                delimiter_tag: *numbers.pick(&entry.members),
                required: numbers.once_in(2),
                entry,
            });
        }
    }
    let required = (0..numbers.below(3)).map(|_| numbers.below(tags + 2) as u32);
    PlainLevel {
        required: required.collect(),
        members,
        groups,
    }
}

pub type Fields = Vec<(u32, Vec<u8>)>;

/// Fields of the top and readings of its groups, then up to three faults.
pub fn random_message(numbers: &mut Numbers, top: &PlainLevel, tags: u64, size: usize) -> Fields {
    let mut message = Vec::new();
    for _ in 0..=numbers.below(3) {
        if numbers.once_in(3) {
            message.push(random_field(numbers, tags));
        }
        let group = numbers.pick(&top.groups);
        reading(numbers, group, size, &mut message);
        if message.len() >= size {
            break;
        }
    }
    if numbers.once_in(2) {
        message.push(random_field(numbers, tags));
    }
    for _ in 0..numbers.below(4) {
        damage(numbers, tags, &mut message);
    }
    message
}

pub fn random_field(numbers: &mut Numbers, tags: u64) -> (u32, Vec<u8>) {
    let value = numbers.pick(&VALUES).as_bytes().to_vec();
    (numbers.below(tags + 2) as u32, value)
}

/// The fields of a reading of a group, except that too many are cut short.
fn reading(numbers: &mut Numbers, group: &PlainGroup, size: usize, message: &mut Fields) {
    let entries = *numbers.pick(&[0, 1, 1, 2, 2, 3]);
    message.push((group.count_tag, entries.to_string().into_bytes()));
    for _ in 0..entries {
        item(numbers, group, group.delimiter_tag, size, message);
        let mut others: Vec<u32> = group.entry.members.clone();
        others.retain(|tag| *tag != group.delimiter_tag);
        while !others.is_empty() && message.len() < size {
            let tag = others.swap_remove(numbers.place(others.len()));
            if numbers.once_in(2) {
                item(numbers, group, tag, size, message);
            }
        }
        if message.len() >= size {
            return;
        }
    }
}

/// A field of an entry, or the reading of a nested group.
fn item(numbers: &mut Numbers, group: &PlainGroup, tag: u32, size: usize, message: &mut Fields) {
    let nested = group
        .entry
        .groups
        .iter()
        .find(|nested| nested.count_tag == tag);
    match nested {
        Some(nested) if message.len() < size => reading(numbers, nested, size, message),
        _ => message.push((tag, numbers.pick(&VALUES).as_bytes().to_vec())),
    }
}

/// One field out, in, twice, in another place, or with another tag or value.
pub fn damage(numbers: &mut Numbers, tags: u64, message: &mut Fields) {
    if message.is_empty() {
        message.push(random_field(numbers, tags));
        return;
    }
    let place = numbers.place(message.len());
    match numbers.below(9) {
        0 => {
            message.remove(place);
        }
        1 => message.insert(place, message[place].clone()),
        2 => message.insert(place, random_field(numbers, tags)),
        3 => message[place].0 = numbers.below(tags + 2) as u32,
        4 => {
            let other = numbers.place(message.len());
            message.swap(place, other);
        }
        5 => message[place].1 = numbers.pick(&COUNTS).as_bytes().to_vec(),
        6 => message[place].1 = numbers.pick(&VALUES).as_bytes().to_vec(),
        7 => message.truncate(place),
        _ => {
            let moved = message.remove(place);
            message.push(moved);
        }
    }
}

// ---- deep walks

/// Groups nested `levels` deep, the one at each depth given by its count tag,
/// its delimiter and its members, which also have the next count tag.
fn chain(levels: u32, at: impl Fn(u32) -> (u32, u32, Vec<u32>)) -> PlainLevel {
    // The level in which the group of a depth stands.
    let mut around = PlainLevel::default();
    for depth in (0..levels).rev() {
        let (count_tag, delimiter_tag, members) = at(depth);
        let mut entry = around;
        entry.members.extend(members);
        entry.members.sort_unstable();
        entry.members.dedup();
        around = PlainLevel {
            members: vec![count_tag],
            required: Vec::new(),
            groups: vec![PlainGroup {
                count_tag,
                delimiter_tag,
                required: false,
                entry,
            }],
        };
    }
    around
}

/// Layouts of 33, 34 and 40 levels, in which a group can be too deep.
fn deep_walks(blocks: &mut Vec<Block>) {
    let mut numbers = Numbers::new(6);
    // The delimiter is the same at all depths.
    let same = |levels: u32| chain(levels, |depth| (100 + depth, 1, vec![1]));
    let down = |levels: u32| -> Fields {
        let pairs = (0..levels).map(|depth| format!("{}=1 1=v ", 100 + depth));
        fields(&pairs.collect::<String>())
    };
    for levels in [33, 34, 40] {
        let title = format!("{levels} levels, all entered");
        blocks.push(Block::new(&title, &same(levels), &down(levels)));
    }
    for levels in [34, 40] {
        let layout = same(levels);
        for more in ["133=1 1=v 133=0", "133=1 133=1 1=v 132=2 1=v 133=2 1=v"] {
            let mut message = down(33);
            message.extend(fields(more));
            let title = format!("{levels} levels, too deep, and on: {more}");
            let block = Block::new(&title, &layout, &message);
            blocks.push(block.at(&[0, 1, 2, 66, 67, 68]));
        }
    }
    // Each depth with its own delimiter: down to the last one that is walked,
    // then fields of that depth and of those around, and perhaps a fault.
    let further = [
        "133=1",
        "133=x",
        "133=1 233=v",
        "232=v",
        "232=v 133=1",
        "231=v 132=1 232=v 133=2",
        "230=v 131=1 231=v 132=2 232=v 133=1 232=v 133=0",
        "132=1 232=v",
        "134=1",
        "7=v",
    ];
    for levels in [34, 40] {
        let layout = chain(levels, |depth| {
            (100 + depth, 200 + depth, vec![200 + depth])
        });
        for _ in 0..40 {
            let mut message = Vec::new();
            for depth in 0..33 {
                message.extend(fields(&format!("{}=1 {}=v", 100 + depth, 200 + depth)));
            }
            for _ in 0..2 + numbers.below(4) {
                let more = numbers.pick::<&str>(&further);
                message.extend(fields(more));
            }
            if numbers.once_in(3) {
                let place = numbers.place(message.len());
                message[place].1 = numbers.pick(&["2", "0", "x"]).as_bytes().to_vec();
            }
            let title = format!("{levels} levels, and fields of the last");
            blocks.push(Block::new(&title, &layout, &message).at(&[0]));
        }
    }
    // Each group opens with the next: the delimiter is its count tag.
    for levels in [33, 34, 40] {
        let layout = chain(levels, |depth| (1 + depth, 2 + depth, vec![2 + depth]));
        let message: String = (1..=levels + 1).map(|tag| format!("{tag}=1 ")).collect();
        let title = format!("{levels} levels, each delimiter a nested count tag");
        blocks.push(Block::new(&title, &layout, &fields(&message)));
    }
    // One tag is the count tag and the delimiter of every group.
    for (levels, count) in [
        (33, "1"),
        (34, "1"),
        (40, "1"),
        (34, "2"),
        (34, "0"),
        (34, "x"),
    ] {
        let layout = chain(levels, |_| (7, 7, vec![7]));
        let message = format!("7={count} ").repeat(levels as usize + 2);
        let title = format!("{levels} levels of one tag, each count {count}");
        let block = Block::new(&title, &layout, &fields(&message));
        blocks.push(block.at(&[0, 1, 2, 3, 10, 33, 34, 35]));
    }
    // The most events that fields can have: every count is none, every group
    // begins with a member ahead of its delimiter.
    let dearest = chain(40, |depth| (2 * depth + 2, 1, vec![1]));
    for size in [1, 2, 3, 10, 32, 33, 34, 40] {
        let message: String = (0..size).map(|k| format!("{}=x ", 2 * k + 2)).collect();
        let title = format!("{size} fields of the dearest message");
        blocks.push(Block::new(&title, &dearest, &fields(&message)).at(&[0, 1, size]));
    }
    // Two groups in the last level that is walked, both too deep.
    let mut wide = chain(33, |depth| (100 + depth, 1, vec![1, 2]));
    let mut last = &mut wide;
    while !last.groups.is_empty() {
        last = &mut last.groups[0].entry;
    }
    for count_tag in [200, 201] {
        last.members.push(count_tag);
        last.groups.push(PlainGroup {
            count_tag,
            delimiter_tag: 3,
            required: false,
            entry: PlainLevel {
                members: vec![3],
                required: Vec::new(),
                groups: Vec::new(),
            },
        });
    }
    for more in [
        "200=1 201=1",
        "200=1 200=1 201=1",
        "201=1 3=v",
        "200=x 2=v 201=",
        "200=1 1=v 200=1 1=v 201=1",
    ] {
        let mut message = down(33);
        message.extend(fields(more));
        let title = format!("two groups too deep: {more}");
        blocks.push(Block::new(&title, &wide, &message).at(&[0, 1, 66, 67]));
    }
}

// ---- wide walks

/// Levels of 64 members and around, of 512 and around, and of as many as a
/// layout may have.
fn wide_walks(blocks: &mut Vec<Block>) {
    let mut numbers = Numbers::new(7);
    for (width, messages) in [
        (63, 3),
        (64, 4),
        (65, 4),
        (127, 2),
        (128, 3),
        (129, 3),
        (511, 3),
        (512, 4),
        (513, 4),
        (600, 4),
        (1_000, 2),
        (2_000, 1),
    ] {
        for turn in 0..messages {
            // Tags 1, 4, 7 .., one of them a nested count tag.
            let tag = |rank: u64| 1 + 3 * rank as u32;
            let members: Vec<u32> = (0..width).map(tag).collect();
            let delimiter_tag = tag([0, width - 1, width / 2, 64.min(width - 1)][turn]);
            let nested_tag = tag([width - 1, 0, 63.min(width - 2), width / 3][turn]);
            let nested = PlainGroup {
                count_tag: nested_tag,
                delimiter_tag: 2,
                required: false,
                entry: PlainLevel {
                    members: if turn == 1 {
                        (0..70).map(|n| 2 + 3 * n).collect()
                    } else {
                        vec![2, 4]
                    },
                    required: Vec::new(),
                    groups: Vec::new(),
                },
            };
            let group = PlainGroup {
                count_tag: 9_999,
                delimiter_tag,
                required: true,
                entry: PlainLevel {
                    members,
                    required: vec![tag(width / 2)],
                    groups: vec![nested],
                },
            };
            let layout = PlainLevel {
                members: vec![4, 9_999, 10_000],
                required: Vec::new(),
                groups: vec![group],
            };
            let message = wide_message(&mut numbers, width, delimiter_tag, nested_tag);
            let title = format!("a level of {width} members");
            blocks.push(Block::new(&title, &layout, &message));
        }
    }
    // 8,192 members in all.
    let members: Vec<u32> = (0..8_191).collect();
    let layout = PlainLevel {
        members: vec![9],
        required: Vec::new(),
        groups: vec![PlainGroup {
            count_tag: 9,
            delimiter_tag: 8_190,
            required: false,
            entry: PlainLevel {
                members,
                required: Vec::new(),
                groups: Vec::new(),
            },
        }],
    };
    let message = fields(
        "9=2 8190=v 0=v 63=v 64=v 511=v 512=v 4095=v 4096=v 8189=v 8128=v 8127=v 8190=v 8189=v 0=v \
         64=v 8189=v 512=v 8191=v",
    );
    blocks.push(Block::new("a level of 8,191 members", &layout, &message));
    full_entries(blocks, &layout);
}

/// Entries that have most of the members of a wide level, or all of them, and
/// then one again. All values but the count's are empty.
fn full_entries(blocks: &mut Vec<Block>, widest: &PlainLevel) {
    for (width, entries) in [
        (64, 2),
        (65, 3),
        (128, 2),
        (130, 2),
        (512, 2),
        (513, 2),
        (1_100, 1),
    ] {
        let mut layout = widest.clone();
        layout.groups[0].delimiter_tag = 0;
        layout.groups[0].entry.members = (0..width).collect();
        let mut rows = vec![[9, 0, 1]];
        for entry in 0..entries {
            // The second entry from the last member down.
            let others = (1..width - entry).map(|tag| if entry == 1 { width - tag } else { tag });
            rows.push([0, 1, 1]);
            rows.extend(others.map(|tag| [tag, 1, 1]));
        }
        rows.push([width - 1, 1, 1]);
        blocks.push(Block {
            title: format!("{entries} entries of up to {width} members"),
            layout,
            bytes: entries.to_string().into_bytes(),
            rows,
            positions: Some(vec![0, 1, 2, u64::from(width)]),
        });
    }
    let mut rows = vec![[9, 0, 1], [8_190, 1, 1]];
    rows.extend((0..4_094).map(|place| [2 * place, 1, 1]));
    blocks.push(Block {
        title: "an entry of 4,095 members".to_string(),
        layout: widest.clone(),
        bytes: b"1".to_vec(),
        rows,
        positions: Some(vec![0, 1, 4_095]),
    });
}

/// Two entries whose tags stand at and beside the edges of words of 64.
fn wide_message(numbers: &mut Numbers, width: u64, delimiter: u32, nested: u32) -> Fields {
    let mut message = vec![(9_999, b"2".to_vec())];
    for _ in 0..2 {
        message.push((delimiter, b"v".to_vec()));
        if delimiter == nested {
            continue;
        }
        for _ in 0..5 + numbers.below(4) {
            let edge = 64 * numbers.below(width.div_ceil(64));
            let rank = (edge + width + numbers.below(3) - 1) % width;
            let tag = 1 + 3 * rank as u32;
            if tag == nested {
                message.push((tag, b"1".to_vec()));
                message.push((2, b"v".to_vec()));
            } else if tag != delimiter {
                message.push((tag, b"v".to_vec()));
            }
        }
    }
    if numbers.once_in(2) {
        let place = 1 + numbers.place(message.len() - 1);
        let again = message[place].clone();
        message.push(again);
    }
    message.push((10_000, b"1".to_vec()));
    message
}

// ---- field tables over shared bytes

/// Rows that stand in any order, overlap, are empty or share all their bytes.
fn shared_bytes(blocks: &mut Vec<Block>) {
    let mut numbers = Numbers::new(8);
    for turn in 0..60 {
        let tags = 2 + numbers.below(8);
        let layout = random_layout(&mut numbers, tags, 3);
        let bytes: Vec<u8> = (0..numbers.below(9))
            .map(|_| *numbers.pick(b"0012233x\0\xff"))
            .collect();
        let message = random_message(&mut numbers, &layout, tags, 14);
        let rows = message.iter().map(|(tag, _)| {
            let end = numbers.below(bytes.len() as u64 + 1);
            let first = numbers.below(end + 1);
            // Values of one or no byte, as a rule.
            let end = if numbers.once_in(3) {
                end
            } else {
                end.min(first + 1)
            };
            [*tag, first as u32, end as u32]
        });
        let rows = rows.collect();
        blocks.push(Block {
            title: if turn == 0 {
                "values that share their bytes"
            } else {
                ""
            }
            .to_string(),
            layout,
            bytes,
            rows,
            positions: None,
        });
    }
    // The largest tags.
    let top = u32::MAX;
    let layout = layout(&format!(
        "member=0 member={top} group={top},{top},1 member=0 member={top} required={top} \
         group=0,{top},0 member={top} end=0 end={top}"
    ));
    let message: Fields = [top, top, 0, top, top, 0, 0, top, 1]
        .into_iter()
        .zip(["2", "v", "1", "v", "v", "0", "1", "v", "v"])
        .map(|(tag, value)| (tag, value.as_bytes().to_vec()))
        .collect();
    blocks.push(Block::new("the largest tag", &layout, &message));
}

// ---- long walks

fn long_walks(blocks: &mut Vec<Block>) {
    let one = layout("member=9 group=9,1,0 member=1 member=2 end=9");
    // 4,096 fields: as many entries as there can be. Their values are empty.
    for (count, title) in [
        ("4095", "4,095 entries"),
        ("4096", "4,095 entries, one too few"),
    ] {
        let mut rows = vec![[9, 0, 4]];
        rows.extend([[1, 4, 4]; 4_095]);
        blocks.push(Block {
            title: title.to_string(),
            layout: one.clone(),
            bytes: count.as_bytes().to_vec(),
            rows,
            positions: Some(vec![0, 4_094, 4_095, 4_096]),
        });
    }
    // One entry of many repeats, and many nested groups in one entry.
    let mut rows = vec![[9, 0, 1], [1, 1, 1]];
    rows.extend([[2, 1, 1]; 1_000]);
    blocks.push(Block {
        title: "999 repeats".to_string(),
        layout: one,
        bytes: b"1".to_vec(),
        rows,
        positions: Some(vec![0, 1, 2]),
    });
    let nested =
        layout("member=9 group=9,1,0 member=1 member=3 group=3,4,0 member=4 member=5 end=3 end=9");
    let mut rows = vec![[9, 0, 3]];
    for _ in 0..200 {
        rows.extend([[1, 3, 3], [3, 3, 4], [4, 3, 3], [5, 3, 3], [4, 3, 3]]);
    }
    blocks.push(Block {
        title: "200 entries with 2 nested entries each".to_string(),
        layout: nested,
        bytes: b"2002".to_vec(),
        rows,
        positions: Some(vec![0, 1, 2, 5, 996]),
    });
}
