//! Slices that are lent to the gate, and the comparison of one call. A guarded
//! slice stands at the end of its pages or at their beginning, and the pages
//! around it may not be touched.

use crate::run::Run;
use oracle::numbers::Numbers;
use oracle::refusal::Refusal;
use std::fmt::Debug;
use std::ops::{Deref, DerefMut};

const PAGE: usize = 4_096;

unsafe extern "C" {
    fn mmap(address: *mut u8, length: usize, protection: i32, flags: i32, file: i32, offset: i64) -> *mut u8;
    fn mprotect(address: *mut u8, length: usize, protection: i32) -> i32;
    fn munmap(address: *mut u8, length: usize) -> i32;
}

const NO_ACCESS: i32 = 0;
const READ_AND_WRITE: i32 = 3;
/// MAP_PRIVATE and MAP_ANONYMOUS.
const OWN_PAGES: i32 = 0x22;

/// A copy of a slice that is lent.
pub enum Lent<T> {
    Plain(Vec<T>),
    Guarded(Guarded<T>),
}

pub struct Guarded<T> {
    pages: *mut u8,
    length_of_pages: usize,
    first: *mut T,
    length: usize,
}

impl<T: Copy> Lent<T> {
    pub fn new(guarded: bool, at_end: bool, words: &[T]) -> Self {
        if guarded {
            Self::Guarded(Guarded::new(at_end, words))
        } else {
            Self::Plain(words.to_vec())
        }
    }
}

impl<T: Copy> Guarded<T> {
    fn new(at_end: bool, words: &[T]) -> Self {
        let size = size_of_val(words);
        let inner = size.div_ceil(PAGE) * PAGE;
        let length_of_pages = inner + 2 * PAGE;
        // SAFETY: fresh pages; the first and the last are closed, and the copy
        // stands between them, on a whole element from either side.
        unsafe {
            let pages = mmap(std::ptr::null_mut(), length_of_pages, READ_AND_WRITE, OWN_PAGES, -1, 0);
            assert!(!pages.is_null() && pages as isize != -1, "no pages");
            assert_eq!(mprotect(pages, PAGE, NO_ACCESS), 0);
            assert_eq!(mprotect(pages.add(PAGE + inner), PAGE, NO_ACCESS), 0);
            let space = if at_end { inner - size } else { 0 };
            let first = pages.add(PAGE + space).cast::<T>();
            std::ptr::copy_nonoverlapping(words.as_ptr(), first, words.len());
            Self {
                pages,
                length_of_pages,
                first,
                length: words.len(),
            }
        }
    }
}

impl<T> Drop for Guarded<T> {
    fn drop(&mut self) {
        // SAFETY: the pages are this value's own.
        unsafe {
            munmap(self.pages, self.length_of_pages);
        }
    }
}

impl<T> Deref for Lent<T> {
    type Target = [T];

    fn deref(&self) -> &[T] {
        match self {
            Self::Plain(words) => words,
            // SAFETY: so many elements were copied there.
            Self::Guarded(guarded) => unsafe { std::slice::from_raw_parts(guarded.first, guarded.length) },
        }
    }
}

impl<T> DerefMut for Lent<T> {
    fn deref_mut(&mut self) -> &mut [T] {
        match self {
            Self::Plain(words) => words,
            // SAFETY: as above, and the value is borrowed alone.
            Self::Guarded(guarded) => unsafe { std::slice::from_raw_parts_mut(guarded.first, guarded.length) },
        }
    }
}

/// A word of a space that is lent.
pub trait Word: Copy + PartialEq + Debug {
    /// A word that tells whether it was written over.
    fn mark(number: u64) -> Self;
}

impl Word for u32 {
    fn mark(number: u64) -> Self {
        0xC0DE_0000 | number as u32
    }
}

impl Word for u64 {
    fn mark(number: u64) -> Self {
        0xC0DE_0000_0000_0000 | number
    }
}

/// What a call should give: the words written and what it says beside them.
pub type Expected<W> = Result<(Vec<W>, u64), Refusal>;

/// What the gate gave: how many words, and what it says beside them.
pub type Given = Result<(usize, u64), order_gate::Error>;

/// Makes a call with spaces of several lengths and compares. `ample` is a
/// length that is more than enough.
pub fn compare<W: Word>(
    run: &mut Run,
    numbers: &mut Numbers,
    call: &'static str,
    expected: &Expected<W>,
    ample: usize,
    mut gate: impl FnMut(&mut [W]) -> Given,
) -> Result<(), String> {
    let mut lengths = vec![numbers.place(8)];
    match expected {
        Ok((words, _)) => {
            let needed = words.len();
            lengths.push(needed);
            lengths.push(needed + ample);
            if needed > 0 {
                lengths.push(needed - 1);
                lengths.push(numbers.place(needed));
            }
        }
        Err(_) => lengths.push(ample),
    }
    for length in lengths {
        let marks: Vec<W> = (0..length as u64).map(W::mark).collect();
        let mut space = Lent::new(run.guarded, numbers.once_in(2), &marks);
        let given = gate(&mut space);
        let expected = within(expected, length);
        run.called(call);
        if let Err(refusal) = expected {
            run.refused(refusal);
        }
        let (words, extra) = expected.unwrap_or((&[], 0));
        let same = match (expected, given) {
            (Ok(_), Ok(given)) => given == (words.len(), extra),
            (Err(refusal), Err(order_gate::Error::Refused(given))) => {
                (u64::from(refusal.number), refusal.place) == (given.number(), given.place())
            }
            _ => false,
        };
        if !same {
            let expected = expected.map(|(words, extra)| (words.len(), extra));
            return Err(format!("{call}, space {length}: the Rust {expected:?}, the gate {given:?}"));
        }
        let left = &marks[words.len()..];
        let (written, behind) = space.split_at(words.len());
        if written != words || behind != left {
            return Err(format!("{call}, space {length}: the lent words differ"));
        }
    }
    Ok(())
}

/// What is expected where so many words are lent.
fn within<W>(expected: &Expected<W>, length: usize) -> Result<(&[W], u64), Refusal> {
    match expected {
        Ok((words, _)) if words.len() > length => Err(Refusal::new(13, words.len() as u64)),
        Ok((words, extra)) => Ok((words, *extra)),
        Err(refusal) => Err(*refusal),
    }
}
