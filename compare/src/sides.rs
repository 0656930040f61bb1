//! Both sides of a trial, each with its memory, and the same calls on both.

use std::fmt::{Debug, Display};

use crate::differ;

/// A call on what stands in lent memory: a record, and a list of places.
pub trait Call: Copy + Debug {
    type Record: Clone + PartialEq + Debug;
    type Place: Copy + PartialEq + Debug;
    /// What it says.
    type Said: PartialEq + Debug;

    /// Calls the library.
    fn proved(self, lent: &mut Lent<Self>) -> Self::Said;
}

/// The library, the original, or document 01's steps.
pub trait Side<C: Call> {
    /// The record, with what lies behind it if anything does, and the list.
    fn memory(&self) -> (C::Record, &[C::Place]);
    fn call(&mut self, call: C) -> C::Said;
}

/// The library's side: the memory that it is lent.
pub struct Lent<C: Call> {
    pub record: C::Record,
    pub list: Vec<C::Place>,
}

impl<C: Call> Lent<C> {
    /// Memory that holds what another side's does.
    pub fn like(side: &impl Side<C>) -> Self {
        let (record, list) = side.memory();
        let list = list.to_vec();
        Self { record, list }
    }
}

impl<C: Call> Side<C> for Lent<C> {
    fn memory(&self) -> (C::Record, &[C::Place]) {
        (self.record.clone(), &self.list)
    }

    fn call(&mut self, call: C) -> C::Said {
        call.proved(self)
    }
}

/// A record's words in memory that has more, which no call writes to.
pub fn with_rest<W: Copy, const WORDS: usize, const ALL: usize>(
    words: [W; WORDS],
    untouched: W,
) -> [W; ALL] {
    let mut all = [untouched; ALL];
    all[..WORDS].copy_from_slice(&words);
    all
}

/// Makes the same calls on both sides, until they differ. `next` gives a call by the expected side before it.
pub fn followed<C: Call, S: Side<C>>(
    input: impl Display,
    ours: &mut Lent<C>,
    theirs: &mut S,
    calls: u64,
    mut next: impl FnMut(&S) -> C,
) -> Option<String> {
    let mut made = Vec::new();
    (0..calls).find_map(|_| {
        let call = next(theirs);
        made.push(call);
        let (said, expected) = (ours.call(call), theirs.call(call));
        differ(
            format_args!("{input}, {made:?}"),
            (said, ours.memory()),
            (expected, theirs.memory()),
        )
    })
}

/// The same from what stands on the expected side now, which is the input.
pub fn followed_on<C: Call, S: Side<C>>(
    theirs: &mut S,
    calls: u64,
    next: impl FnMut(&S) -> C,
) -> Option<String> {
    let (before, mut ours) = (Lent::like(theirs), Lent::like(theirs));
    followed(
        format_args!("{:?}", before.memory()),
        &mut ours,
        theirs,
        calls,
        next,
    )
}
