//! A case of one call on memory made by hand: what is lent, what else the call takes, its answer, and what it leaves.

use oracle::{UNTOUCHED, UNTOUCHED_WIDE};

use crate::cases::{numbers, Case, Part};
use crate::coded;

/// Memory that a call is lent, by its parts.
pub trait Lent {
    fn parts(&self) -> Vec<Part>;

    /// The numbers that a call takes first because of it.
    fn taken(&self) -> Vec<u64> {
        Vec::new()
    }
}

/// A word or place, and the names of the parts that are made of such.
pub trait Word: Copy + Into<u64> {
    const WORDS: &'static str;
    const LIST: &'static str;

    /// One that no call has written to.
    const UNTOUCHED: Self;
}

impl Word for u32 {
    const WORDS: &'static str = "words";
    const LIST: &'static str = "list";
    const UNTOUCHED: Self = UNTOUCHED;
}

impl Word for u64 {
    const WORDS: &'static str = "wide_words";
    const LIST: &'static str = "wide_list";
    const UNTOUCHED: Self = UNTOUCHED_WIDE;
}

/// A record's words, and a list.
#[derive(Clone)]
pub struct Memory<W> {
    pub words: Vec<W>,
    pub list: Vec<W>,
}

impl<W: Word> Memory<W> {
    pub fn untouched(words: usize, places: usize) -> Self {
        Self {
            words: vec![W::UNTOUCHED; words],
            list: vec![W::UNTOUCHED; places],
        }
    }
}

impl<W: Word> Lent for Memory<W> {
    fn parts(&self) -> Vec<Part> {
        vec![
            (W::WORDS, numbers(&self.words)),
            (W::LIST, numbers(&self.list)),
        ]
    }
}

/// A call that leaves another memory behind.
pub fn changed<M: Lent>(
    name: &'static str,
    before: &M,
    taken: &[u64],
    answer: u64,
    after: &M,
) -> Case {
    let mut case = Case::lent(before.parts());
    case.call(
        name,
        &[taken, &before.taken()].concat(),
        answer,
        after.parts(),
    );
    case.compare();
    case
}

/// A call that leaves all as it was.
pub fn kept(name: &'static str, memory: &impl Lent, taken: &[u64], answer: u64) -> Case {
    changed(name, memory, taken, answer, memory)
}

pub fn refused(name: &'static str, memory: &impl Lent, taken: &[u64], c: u32) -> Case {
    kept(name, memory, taken, coded(Err(c)))
}
