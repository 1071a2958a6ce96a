//! The expansions of the recorded list, always the same and in the same
//! order: dictionaries, and the message types that are asked of each.

use crate::hex;
use crate::numbers::Numbers;
use std::fmt::Write;

/// A list of dictionaries and types.
#[derive(Default)]
struct Cases {
    text: String,
}

impl Cases {
    /// A dictionary and the types asked of it.
    fn add(&mut self, title: &str, dictionary: &[u8], types: &[&[u8]]) {
        if !title.is_empty() {
            let _ = writeln!(self.text, "# {title}");
        }
        let _ = writeln!(self.text, "dictionary {}", hex::encode(dictionary));
        for msg_type in types {
            let _ = writeln!(self.text, "expand {}", hex::encode(msg_type));
        }
    }

    /// Components and messages behind an empty header and trailer, lines
    /// parted by spaces.
    fn behind_envelope(&mut self, title: &str, text: &str, types: &[&[u8]]) {
        let envelope = "begin=header end=header begin=trailer end=trailer";
        self.add(title, &lines(&format!("{envelope} {text}")), types);
    }

    /// Components and the body of message D behind an empty header and
    /// trailer.
    fn body(&mut self, title: &str, components: &str, body: &str) {
        let text = format!("{components} message=D,app {body} end=D");
        self.behind_envelope(title, &text, &[b"D"]);
    }
}

/// Lines parted by spaces.
fn lines(text: &str) -> Vec<u8> {
    text.split_whitespace()
        .flat_map(|line| format!("{line}\n").into_bytes())
        .collect()
}

/// All expansions.
pub fn expansion_cases() -> String {
    let mut cases = Cases::default();
    examples(&mut cases);
    types(&mut cases);
    bodies(&mut cases);
    requiredness(&mut cases);
    equal_groups(&mut cases);
    open_components(&mut cases);
    depths(&mut cases);
    nodes(&mut cases);
    limits(&mut cases);
    random_dictionaries(&mut cases);
    cases.text
}

fn examples(cases: &mut Cases) {
    cases.add(
        "the worked example",
        &lines(
            "def=35,String def=448,String def=447,Char value=D def=453,NumInGroup \
             begin=header field=35,1 end=header begin=trailer end=trailer \
             message=D,app group=453,448,1 field=447,1 end=453 end=D",
        ),
        &[b"D", b"E"],
    );
    let block_order = include_bytes!("../../examples/block-order/block-order.dict");
    cases.add("examples/block-order", block_order, &[b"J", b"D"]);
    let fix44 = include_bytes!("../../examples/fix44/fix44.dict");
    cases.add("examples/fix44", fix44, &[b"D", b"J", b"W", b"8"]);
}

/// Types that are defined and types that are not.
fn types(cases: &mut Cases) {
    let text = "message=D,app field=1,1 end=D message=d,admin field=2,0 end=d \
        message=AB,app field=3,1 end=AB message=0,admin field=4,1 end=0 \
        message=00,app field=5,1 end=00 message=zzzz,app field=6,1 end=zzzz";
    cases.behind_envelope(
        "types",
        text,
        &[
            b"D",
            b"d",
            b"AB",
            b"0",
            b"00",
            b"zzzz",
            b"",
            b"E",
            b"A",
            b"B",
            b"BA",
            b"DD",
            b"DA",
            b"000",
            b"zzz",
            b"zzzzz",
            b"D ",
            b" D",
            b"D\0",
            b"D\n",
            b"\xff",
            b"D\xff",
            b"header",
            b"zzzzzzzzzzzzzzzzzzzzzzzzzzzzzzzzzzzzzzzz",
        ],
    );
    cases.behind_envelope("no message", "", &[b"D", b""]);
    cases.behind_envelope(
        "only the body asked for is expanded",
        "component=5 use=6,1 end=5 message=D,app field=1,1 end=D message=E,app use=5,1 end=E \
         message=F,app use=7,1 use=6,1 end=F",
        &[b"D", b"E", b"F"],
    );
    cases.behind_envelope(
        "a component and a message of one name",
        "component=5 field=1,1 end=5 component=6 field=2,1 end=6 message=5,app use=6,1 end=5 \
         message=6,app use=5,0 end=6",
        &[b"5", b"6"],
    );
}

/// What each line adds, and in which order.
fn bodies(cases: &mut Cases) {
    cases.add(
        "the order: header, trailer, fields, groups, components",
        &lines(
            "begin=header field=8,1 field=35,1 group=627,628,1 field=629,1 use=1,1 end=627 end=header \
             begin=trailer field=93,0 field=10,1 group=20,21,0 use=2,1 end=20 end=trailer \
             component=1 field=5,1 group=50,51,1 field=52,1 end=50 use=2,1 end=1 \
             component=2 field=6,1 field=7,0 end=2 \
             message=D,app field=35,1 field=11,1 field=10,1 group=50,53,0 field=53,1 field=54,1 field=54,1 \
             end=50 use=1,1 use=2,0 end=D message=E,admin end=E",
        ),
        &[b"D", b"E"],
    );
    for (title, body) in [
        ("nothing", ""),
        ("one field", "field=1,0"),
        (
            "members are sorted",
            "field=9,0 field=3,1 field=7,0 field=1,1 field=4294967295,1 field=0,1",
        ),
        (
            "equal members, and required tags of the top that repeat",
            "field=5,1 field=5,1 field=5,0 field=4,1 field=5,1",
        ),
        ("a group of its delimiter alone", "group=1,2,0 end=1"),
        (
            "a delimiter that is a field too",
            "group=1,2,0 field=2,0 end=1",
        ),
        (
            "a required delimiter is dropped",
            "group=1,2,0 field=2,1 field=3,1 field=2,1 end=1",
        ),
        (
            "later repeats of a required tag are dropped",
            "group=1,2,0 field=4,1 field=3,1 field=4,1 field=3,1 field=5,1 end=1",
        ),
        (
            "an optional one ahead of a required one",
            "group=1,2,0 field=4,0 field=4,1 field=4,0 end=1",
        ),
        ("a group that is its own delimiter", "group=1,1,1 end=1"),
        (
            "a field and a group of one tag",
            "field=1,1 group=1,2,1 field=1,1 end=1",
        ),
        (
            "a group in a group of its count tag",
            "group=1,2,0 group=1,3,1 group=1,4,0 end=1 end=1 end=1",
        ),
        (
            "groups are sorted",
            "group=9,1,0 end=9 group=3,1,1 end=3 group=7,1,0 end=7 group=1,1,1 end=1",
        ),
        (
            "a nested count tag is the delimiter",
            "group=1,3,0 group=3,4,1 field=5,1 end=3 end=1",
        ),
        (
            "the limits of tags",
            "group=4294967295,0,1 field=4294967295,1 group=0,4294967295,0 end=0 end=4294967295",
        ),
        (
            "a deep tree",
            "group=1,2,0 group=3,4,0 group=5,6,0 end=5 group=7,8,1 end=7 end=3 group=9,10,0 end=9 end=1 group=11,12,0 group=13,14,0 end=13 end=11",
        ),
    ] {
        cases.body(title, "", body);
    }
}

/// A field is required only if every use above it is, up to the group or the
/// message; a group likewise.
fn requiredness(cases: &mut Cases) {
    for flags in 0..16 {
        let flag = |bit: u32| (flags >> bit) & 1;
        let components = format!(
            "component=1 field=11,{d} group=12,13,{d} field=14,{d} end=12 use=2,{b} end=1 \
             component=2 field=21,{d} group=22,23,{d} field=24,1 use=3,{c} end=22 use=3,{c} end=2 \
             component=3 field=31,{d} group=32,33,{d} end=32 end=3",
            b = flag(1),
            c = flag(2),
            d = flag(3),
        );
        let body = format!("use=1,{}", flag(0));
        cases.body(&format!("a chain of uses, {flags:04b}"), &components, &body);
        let body = format!("group=1,2,0 use=1,{} end=1", flag(0));
        cases.body("the same in a group", &components, &body);
    }
    cases.body(
        "used as required and as optional",
        "component=1 field=5,1 group=6,7,1 end=6 end=1",
        "use=1,0 use=1,1 use=1,0",
    );
    cases.body(
        "the chain starts anew in a group",
        "component=1 group=6,7,1 use=2,1 end=6 end=1 component=2 field=8,1 group=9,10,1 end=9 end=2",
        "use=1,0",
    );
}

/// Of groups of one count tag the first in the order of expansion stays.
fn equal_groups(cases: &mut Cases) {
    cases.add(
        "the header's group hides the message's",
        &lines(
            "begin=header group=453,1,0 field=2,1 end=453 end=header \
             begin=trailer group=453,3,1 end=453 group=454,3,1 end=454 end=trailer \
             component=9 group=454,8,0 end=454 group=455,8,0 end=455 end=9 \
             message=D,app group=453,4,1 field=5,1 end=453 group=454,6,0 end=454 group=455,7,1 end=455 \
             use=9,1 end=D message=E,app use=9,0 end=E",
        ),
        &[b"D", b"E"],
    );
    for (title, body) in [
        (
            "twice in a body",
            "group=1,2,0 field=3,1 end=1 group=1,4,1 field=5,1 end=1",
        ),
        (
            "three, and others between",
            "group=5,2,0 end=5 group=1,3,1 end=1 group=5,4,1 end=5 group=1,6,0 end=1 group=5,7,0 end=5",
        ),
        (
            "in an entry",
            "group=9,1,0 group=5,2,0 field=8,1 end=5 group=5,3,1 end=5 use=1,1 end=9",
        ),
        (
            "a dropped group still takes nodes and needs its components",
            "group=1,2,0 end=1 group=1,3,0 use=77,0 end=1",
        ),
        ("of a component used twice", "use=1,1 use=1,0"),
        (
            "the message's group ahead of the component's",
            "group=5,2,1 end=5 use=1,1",
        ),
    ] {
        cases.body(
            title,
            "component=1 group=5,6,0 field=7,1 end=5 group=4,8,1 end=4 end=1",
            body,
        );
    }
}

/// A use of a component that is open on its own path adds nothing more.
fn open_components(cases: &mut Cases) {
    for (title, components, body) in [
        (
            "it uses itself",
            "component=1 field=5,1 use=1,1 end=1",
            "use=1,1",
        ),
        (
            "it uses itself three times",
            "component=1 field=5,1 use=1,1 use=1,0 use=1,1 end=1",
            "use=1,0 use=1,1",
        ),
        (
            "two use each other",
            "component=1 field=5,1 use=2,1 end=1 component=2 field=6,1 use=1,1 end=2",
            "use=1,1 use=2,1",
        ),
        (
            "three in a ring",
            "component=1 field=5,1 use=2,1 end=1 component=2 field=6,1 use=3,0 end=2 \
             component=3 field=7,1 use=1,1 use=2,1 use=3,1 end=3",
            "use=3,1 use=2,0",
        ),
        (
            "itself in its own group",
            "component=1 field=5,1 group=6,7,1 use=1,1 end=6 end=1",
            "use=1,1",
        ),
        (
            "open through groups of another",
            "component=1 field=5,1 group=6,7,1 group=8,9,0 use=2,1 end=8 end=6 end=1 \
             component=2 field=10,1 group=11,12,0 use=1,1 use=2,1 end=11 end=2",
            "group=20,21,0 use=1,1 end=20 use=2,1",
        ),
        (
            "the same component at two places",
            "component=1 field=5,1 end=1 component=2 use=1,1 use=1,0 end=2",
            "group=6,7,0 use=1,1 use=2,1 end=6 use=1,1 use=2,0",
        ),
        ("undefined", "", "use=12,1 use=3,0"),
        (
            "undefined in a component",
            "component=1 use=12,0 end=1",
            "use=1,0",
        ),
        (
            "undefined behind one that is open",
            "component=1 use=1,0 use=12,0 end=1",
            "use=1,0",
        ),
        (
            "undefined in a group",
            "",
            "group=1,2,0 use=4294967295,1 end=1",
        ),
        ("undefined, number 0", "component=1 end=1", "use=0,1"),
    ] {
        cases.body(title, components, body);
    }
    cases.add(
        "undefined in a group of the header",
        &lines(
            "begin=header group=1,2,0 use=9,1 end=1 end=header begin=trailer end=trailer \
             message=D,app use=8,1 end=D",
        ),
        &[b"D", b"E"],
    );
}

/// `count` groups, each in the one before, and `inside` in the last.
fn nested(count: usize, inside: &str) -> String {
    let open: String = (1..=count)
        .map(|tag| format!("group={tag},1000,0 "))
        .collect();
    let close: String = (1..=count).rev().map(|tag| format!("end={tag} ")).collect();
    format!("{open} {inside} {close}")
}

/// Components 1 to `count`, each using the next, and `inside` in the last.
fn chained(count: usize, inside: &str) -> String {
    let links = (1..count).map(|name| format!("component={name} use={},1 end={name} ", name + 1));
    let links: String = links.collect();
    format!("{links} component={count} {inside} end={count}")
}

/// "33 nested groups expand, 34 don't": depths 32 and 33.
fn depths(cases: &mut Cases) {
    for count in [32, 33, 34, 40] {
        cases.body(&format!("{count} nested groups"), "", &nested(count, ""));
        cases.add(
            &format!("{count} nested groups in the header"),
            &lines(&format!(
                "begin=header {} end=header begin=trailer end=trailer message=D,app end=D",
                nested(count, "")
            )),
            &[b"D"],
        );
        cases.body(
            &format!("{count} components, each used by the one before"),
            &chained(count, "field=5,1"),
            "use=1,1",
        );
    }
    for (groups, title) in [(32, "a use at depth 32"), (33, "a use at depth 33")] {
        cases.body(
            title,
            "component=7 field=9,1 end=7",
            &nested(groups, "use=7,1"),
        );
        cases.body(title, "", &nested(groups, "use=7,1"));
    }
    for links in [17, 18] {
        // Groups around and components inside, to depths 32 and 33.
        cases.body(
            &format!("16 groups around {links} components"),
            &chained(links, "field=5,1"),
            &nested(16, "use=1,1"),
        );
        cases.body(
            &format!("a chain of {links} components around 16 groups"),
            &chained(links, &nested(16, "")),
            "use=1,1",
        );
    }
    // A use of an open component is as deep as any other.
    for count in [32, 33, 34] {
        cases.body(
            &format!("{count} components, the last of which uses the first"),
            &chained(count, "use=1,1"),
            "use=1,1",
        );
    }
    // What is too deep is met before what stands behind it.
    cases.body(
        "too deep, then undefined",
        "",
        &format!("{} use=5,1", nested(34, "")),
    );
    cases.body(
        "undefined, then too deep",
        &format!("component=1 {} end=1", nested(33, "")),
        "use=5,1 use=1,1",
    );
    cases.body(
        "too deep comes before undefined at one use",
        "",
        &nested(33, "use=5,1"),
    );
    cases.body(
        "a dropped group can be too deep",
        "",
        &format!("group=1,2,0 end=1 {}", nested(34, "")),
    );
}

/// `groups` groups, each of its delimiter alone.
fn plain_groups(groups: usize) -> String {
    (1..=groups)
        .map(|tag| format!("group={tag},1000,0 end={tag} "))
        .collect()
}

/// "4,096 nodes, good; two groups: refused."
fn nodes(cases: &mut Cases) {
    let sixty_four = format!("component=7 {} end=7", plain_groups(64));
    for more in [0, 1, 2, 3] {
        let body = format!("{} {}", plain_groups(more), "use=7,1 ".repeat(63));
        let title = format!("64 groups in a component used 63 times, and {more} groups");
        cases.body(&title, &sixty_four, &body);
    }
    // 64 uses of a component with 63 uses: 4,096 nodes. What stands behind.
    let uses = format!(
        "component=1 {} end=1 component=2 field=5,0 end=2 component=3 use=3,1 end=3",
        "use=2,1 ".repeat(63)
    );
    let sixty_four = "use=1,1 ".repeat(64);
    for more in [
        "",
        "use=2,1",
        "use=1,1",
        "use=3,0",
        "use=99,0",
        "use=4294967295,1",
    ] {
        let title = format!("4,096 nodes of uses, and {more}");
        cases.body(&title, &uses, &format!("{sixty_four} {more}"));
    }
    let sixty_three = "use=1,1 ".repeat(63);
    for (title, more) in [
        (
            "4,032 nodes, and 63 uses and one undefined at node 4,096",
            "use=2,1 ".repeat(63) + "use=99,0",
        ),
        (
            "4,032 nodes, and 64 uses and one undefined at node 4,097",
            "use=2,1 ".repeat(64) + "use=99,0",
        ),
        ("a use of itself takes a node", "use=3,1 ".repeat(32)),
        (
            "a use of itself takes a node, and is the one too many",
            "use=3,1 ".repeat(32) + "use=2,1",
        ),
        (
            "the use within is node 4,097",
            "use=2,1 ".to_string() + &"use=3,1 ".repeat(32),
        ),
    ] {
        cases.body(title, &uses, &format!("{sixty_three} {more}"));
    }
    // Groups that are nested where the nodes are used up.
    let deep = format!(
        "component=4 {} end=4 component=1 {} end=1 component=2 end=2",
        nested(10, ""),
        "use=2,1 ".repeat(63)
    );
    for last in [0, 1, 5, 9, 10, 11] {
        let fill = "use=2,1 ".repeat(64 - last);
        let title = format!("{last} nodes left for a component of 10 nested groups");
        cases.body(&title, &deep, &format!("{sixty_three} {fill} use=4,1"));
    }
    // With no node left, what is too deep is said to be too deep.
    let deepest = format!(
        "component=4 {} end=4 component=1 {} end=1 component=2 end=2",
        nested(32, "use=2,1"),
        "use=2,1 ".repeat(63)
    );
    for left in [32, 33, 34] {
        let fill = "use=2,1 ".repeat(64 - left);
        let title = format!("{left} nodes left for 34 of them, the last too deep");
        cases.body(&title, &deepest, &format!("{sixty_three} {fill} use=4,1"));
    }
    // The header's groups take nodes first.
    cases.add(
        "nodes of the header",
        &lines(&format!(
            "begin=header group=1,2,0 {} end=1 end=header \
             begin=trailer group=3,4,0 end=3 group=5,6,0 end=5 end=trailer \
             component=1 {} end=1 component=2 end=2 message=D,app use=2,1 end=D message=E,app end=E",
            "use=1,1 ".repeat(63) + &"use=2,1 ".repeat(61),
            "use=2,1 ".repeat(63),
        )),
        &[b"D", b"E"],
    );
}

/// Refusal 10, which is document 01's own: 8,192 members and 2,048 required
/// entries before anything is dropped, as met.
fn limits(cases: &mut Cases) {
    let fields = |count: usize, required: u8| -> String {
        (0..count)
            .map(|tag| format!("field={},{required} ", tag % 200))
            .collect()
    };
    let members = format!(
        "component=1 {} end=1 component=2 field=5,0 end=2 component=3 group=8,9,0 end=8 end=3 \
         component=4 end=4",
        fields(256, 0)
    );
    // 31 uses: 7,936 members; 256 are left.
    let most = "use=1,0 ".repeat(31);
    let left = |count: usize| "use=2,0 ".repeat(count);
    for (title, more) in [
        ("8,192 members", "use=1,0".to_string()),
        ("8,193 members", "use=1,0 use=2,0".to_string()),
        (
            "8,192 members, and a use of nothing",
            "use=1,0 use=4,0".to_string(),
        ),
        ("a delimiter is member 8,192", left(254) + "use=3,0"),
        ("a delimiter is member 8,193", left(255) + "use=3,0"),
        ("a count tag is member 8,193", left(256) + "use=3,0"),
        (
            "undefined ahead of member 8,193",
            left(256) + "use=77,0 use=2,0",
        ),
        ("undefined behind member 8,193", left(257) + "use=77,0"),
        ("undefined at 8,192 members", left(256) + "use=77,0"),
    ] {
        cases.body(title, &members, &format!("{most} {more}"));
    }
    // Each of these groups adds 64 members, and all but one are dropped.
    let sixty_two = format!("component=1 {} end=1", fields(62, 0));
    for (title, more) in [
        ("members of dropped groups count, 8,192", ""),
        ("members of dropped groups count, 8,193", "field=5,0"),
    ] {
        let groups = "group=8,9,0 use=1,1 end=8 ".repeat(128);
        cases.body(title, &sixty_two, &format!("{more} {groups}"));
    }
    let required = format!(
        "component=1 {} end=1 component=2 field=5,1 end=2 component=3 field=5,0 group=8,9,1 end=8 end=3",
        fields(128, 1)
    );
    let most = "use=1,1 ".repeat(15);
    for (title, more) in [
        ("2,048 required entries", "use=1,1"),
        ("2,049 required entries", "use=1,1 use=2,1"),
        (
            "2,048 required entries, and optional ones",
            "use=1,1 use=2,0 use=1,0 use=3,1",
        ),
        (
            "a required entry that is dropped",
            "use=1,1 group=5,5,0 field=5,1 end=5",
        ),
        ("undefined ahead of entry 2,049", "use=1,1 use=77,0 use=2,1"),
        ("undefined behind entry 2,049", "use=1,1 use=2,1 use=77,0"),
    ] {
        let (groups, uses): (Vec<&str>, Vec<&str>) = more.split(' ').partition(|line| {
            ["group", "field", "end"]
                .iter()
                .any(|key| line.starts_with(key))
        });
        // Groups stand ahead of uses: the entries are met in that order.
        cases.body(
            title,
            &required,
            &format!("{} {most} {}", groups.join(" "), uses.join(" ")),
        );
    }
    cases.body(
        "required entries of the entries of groups",
        &required,
        &"group=1,2,0 use=1,1 end=1 group=3,4,0 use=1,1 end=3 ".repeat(8),
    );
    cases.body(
        "required entries of the entries of groups, and one more",
        &required,
        &("group=1,2,0 use=1,1 end=1 ".repeat(16) + "group=3,4,0 field=9,1 end=3"),
    );
    // Nodes are looked at before members. 63 uses of component 1 are 4,032
    // nodes and 3,969 members, 42 of component 2 are 42 nodes and 4,200
    // members.
    let both = format!(
        "component=1 {} end=1 component=2 {} end=2 component=3 field=1,0 end=3 \
         component=4 group=6,7,0 end=6 end=4",
        "use=3,0 ".repeat(63),
        fields(100, 0)
    );
    let most = format!("{} {}", "use=1,0 ".repeat(63), "use=2,0 ".repeat(42));
    for (title, members, nodes) in [
        (
            "node 4,097 at a count tag that would be member 8,193",
            2,
            21,
        ),
        (
            "node 4,096 at a count tag that would be member 8,193",
            3,
            20,
        ),
        (
            "node 4,096 at a delimiter that would be member 8,193",
            2,
            20,
        ),
        ("node 4,096 at a delimiter that is member 8,192", 1, 20),
    ] {
        let body = format!(
            "{} {most} {} use=4,0",
            fields(members, 0),
            "use=3,0 ".repeat(nodes)
        );
        cases.body(title, &both, &body);
    }
}

/// Dictionaries made up: few tags and components, uses of each other.
fn random_dictionaries(cases: &mut Cases) {
    let mut numbers = Numbers::new(9);
    for _ in 0..560 {
        // Up to six components; some dictionaries use one that is not there.
        let defined = numbers.below(7);
        let used = if numbers.once_in(4) {
            defined + 1
        } else {
            defined
        };
        let mut text = Vec::new();
        for name in ["header", "trailer"] {
            text.push(format!("begin={name}"));
            random_body(&mut numbers, 1, used, false, &mut text);
            text.push(format!("end={name}"));
        }
        for name in 1..=defined {
            text.push(format!("component={name}"));
            random_body(&mut numbers, 1, used, true, &mut text);
            text.push(format!("end={name}"));
        }
        let types: Vec<&[u8]> = vec![b"A", b"B", b"C"];
        let types = &types[..1 + numbers.place(3)];
        for (place, msg_type) in ["A", "B", "C"].iter().take(types.len()).enumerate() {
            let category = if place == 1 { "admin" } else { "app" };
            text.push(format!("message={msg_type},{category}"));
            random_body(&mut numbers, 3, used, true, &mut text);
            text.push(format!("end={msg_type}"));
        }
        cases.add("", &lines(&text.join(" ")), types);
    }
}

pub fn random_body(numbers: &mut Numbers, depth: u64, used: u64, uses: bool, text: &mut Vec<String>) {
    let tag = |numbers: &mut Numbers| 1 + numbers.below(14);
    let required = |numbers: &mut Numbers| u8::from(numbers.below(3) != 0);
    for _ in 0..numbers.below(4) {
        text.push(format!("field={},{}", tag(numbers), required(numbers)));
    }
    if depth > 0 {
        for _ in 0..numbers.below(3) {
            let count = tag(numbers);
            text.push(format!(
                "group={count},{},{}",
                tag(numbers),
                required(numbers)
            ));
            random_body(numbers, depth - 1, used, true, text);
            text.push(format!("end={count}"));
        }
    }
    if uses && used > 0 && !numbers.once_in(3) {
        for _ in 0..=numbers.below(2) {
            let name = 1 + numbers.below(used);
            text.push(format!("use={name},{}", required(numbers)));
        }
    }
}
