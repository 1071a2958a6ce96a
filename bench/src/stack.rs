//! The stack that the calls need: a thread runs on painted memory, and the
//! paint tells how far down it went.

use crate::arrangement;
use crate::layouts::{PlainGroup, PlainLevel};
use std::ffi::c_void;
use std::ptr;

const SIZE: usize = 8 << 20;
const PAINT: u8 = 0xa5;

static FIX_44: &[u8] = include_bytes!("../../examples/fix44/new-order-single.dict");
static NESTED_33: &[u8] = include_bytes!("../../crates/gatelists/data/33-nested-groups.dict");
static NODES_4096: &[u8] = include_bytes!("../../crates/gatelists/data/4096-nodes.dict");

/// The size and the alignment of glibc's pthread_attr_t on x86-64.
#[repr(C, align(8))]
struct Attributes([u8; 56]);

unsafe extern "C" {
    fn pthread_attr_init(attributes: *mut Attributes) -> i32;
    fn pthread_attr_setstack(attributes: *mut Attributes, low: *mut c_void, size: usize) -> i32;
    fn pthread_create(
        thread: *mut usize,
        attributes: *const Attributes,
        start: extern "C" fn(*mut c_void) -> *mut c_void,
        argument: *mut c_void,
    ) -> i32;
    fn pthread_join(thread: usize, answer: *mut *mut c_void) -> i32;
}

/// What the thread runs: nothing, for the stack that a thread needs anyway.
struct Task<'t> {
    call: &'t mut dyn FnMut(),
}

extern "C" fn run(argument: *mut c_void) -> *mut c_void {
    // The caller waits for this thread and leaves the task alone till then.
    let task = unsafe { &mut *argument.cast::<Task>() };
    (task.call)();
    ptr::null_mut()
}

/// The bytes of a painted stack that a thread with this call touched.
fn touched(call: &mut dyn FnMut()) -> usize {
    let mut task = Task { call };
    let layout = std::alloc::Layout::from_size_align(SIZE, 4096).expect("a good size");
    unsafe {
        let low = std::alloc::alloc(layout);
        assert!(!low.is_null());
        low.write_bytes(PAINT, SIZE);
        let mut attributes = Attributes([0; 56]);
        let mut thread = 0;
        assert_eq!(pthread_attr_init(&mut attributes), 0);
        assert_eq!(pthread_attr_setstack(&mut attributes, low.cast(), SIZE), 0);
        let argument = ptr::from_mut(&mut task).cast();
        assert_eq!(pthread_create(&mut thread, &attributes, run, argument), 0);
        assert_eq!(pthread_join(thread, ptr::null_mut()), 0);
        let bytes = std::slice::from_raw_parts(low, SIZE);
        let clean = bytes.iter().take_while(|byte| **byte == PAINT).count();
        std::alloc::dealloc(low, layout);
        SIZE - clean
    }
}

/// Groups nested in each other to this depth, so many of them with `wide`
/// members, the others with three: the delimiter, another, and the count tag
/// of the nested group. Group `number` has the count tag `number + 1`.
fn chain(groups: u32, wide: &[u32]) -> PlainLevel {
    let mut entry = PlainLevel::default();
    for number in (0..groups).rev() {
        let members = wide.get(number as usize).copied().unwrap_or(3);
        // The delimiter has the lowest tag behind the count tags.
        let first = groups + 1;
        entry.members = (first..first + members - 1).collect();
        if entry.groups.is_empty() {
            entry.members.push(first + members - 1);
        } else {
            entry.members.insert(0, number + 2);
        }
        entry = PlainLevel {
            groups: vec![PlainGroup {
                count_tag: number + 1,
                delimiter_tag: first,
                required: false,
                entry,
            }],
            ..PlainLevel::default()
        };
    }
    entry.members = vec![1];
    entry
}

/// One entry in each group of the chain: its count field, its delimiter.
fn message(groups: u32) -> (Vec<u32>, Vec<u8>) {
    let mut fields = Vec::new();
    for number in 0..groups {
        fields.extend([number + 1, 0, 1]);
        fields.extend([groups + 1, 0, 0]);
    }
    (fields, b"1".to_vec())
}

fn walks(thread: usize) {
    let mut widest = vec![513; 15];
    widest.push(400);
    for (name, groups, wide) in [
        ("one group", 1, vec![]),
        ("two groups", 2, vec![]),
        ("33 groups of 3 members", 33, vec![]),
        ("one group of 513 members", 1, vec![513]),
        ("two groups of 513 members", 2, vec![513; 2]),
        ("33 groups, 15 of them of 513 members", 33, widest),
        ("34 groups, the last too deep", 34, vec![513; 15]),
        ("one group of 8,191 members", 1, vec![8_191]),
    ] {
        let words = arrangement::words(&chain(groups, &wide));
        let (fields, bytes) = message(groups);
        let mut events = vec![0; 5_000];
        let mut walked = None;
        let stack = touched(&mut || {
            walked = Some(order_gate::walk_group(
                &words,
                &fields,
                &bytes,
                0,
                1,
                &mut events,
            ));
        });
        let walked = walked.expect("the walk ran").expect("no refusal");
        let events = walked.words / 5;
        println!(
            "walk_group, {name}: {} bytes, {events} events",
            stack - thread
        );
    }
}

/// The calls that keep arrays of their own: reading, expanding, walking a message, judging its values.
fn others(thread: usize) {
    let mut words = vec![0; order_gate::MOST_DICTIONARY_WORDS];
    let mut layout = vec![0; order_gate::MOST_LAYOUT_WORDS];
    for (name, text, msg_type) in [
        ("FIX 4.4 orders", FIX_44, "D"),
        ("33 groups nested", NESTED_33, "D"),
        ("4,096 nodes", NODES_4096, "D"),
    ] {
        let (mut size, mut expanded) = (None, None);
        let stack = touched(&mut || size = Some(order_gate::read_dictionary(text, &mut words)));
        println!("read_dictionary, {name}: {} bytes", stack - thread);
        let dictionary = &words[..size.expect("it ran").expect("a good text")];
        let stack = touched(&mut || {
            expanded = Some(order_gate::expand(
                dictionary,
                msg_type.as_bytes(),
                &mut layout,
            ))
        });
        let expanded = expanded.expect("it ran").expect("a layout");
        println!(
            "expand, {name}: {} bytes, {} nodes",
            stack - thread,
            expanded.nodes
        );
        let used = &layout[..expanded.words];
        let (fields, message, mut space) = ([8, 0, 1], b"1", vec![0; 50_000]);
        let stack = touched(&mut || {
            order_gate::walk_message(dictionary, used, &fields, message, &mut space)
                .expect("an answer");
        });
        println!("walk_message, {name}: {} bytes", stack - thread);
        let stack = touched(&mut || {
            order_gate::verdicts(dictionary, &fields, message, true, &mut space)
                .expect("an answer");
        });
        println!("verdicts, {name}: {} bytes", stack - thread);
    }
    let stack = touched(&mut || {
        order_gate::read_layout(
            b"member=78\ngroup=78,79,1\nmember=79\nend=78\n",
            &mut layout,
        )
        .expect("a layout");
    });
    println!("read_layout: {} bytes", stack - thread);
}

pub fn measure() {
    let thread = touched(&mut || ());
    println!("a thread that runs nothing: {thread} bytes");
    walks(thread);
    others(thread);
}
