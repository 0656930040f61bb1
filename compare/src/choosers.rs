//! Trials of choosers.

use oracle::{Chooser, Draws, Told, UNTOUCHED_WIDE};

use crate::document_choosers::{sample, Memory, LIMIT};
use crate::sides::{self, followed, followed_on, with_rest, Side};
use crate::{differ, told, word};

type Lent = sides::Lent<Call>;

/// A call on a chooser.
#[derive(Clone, Copy, Debug)]
enum Call {
    GrowK,
    Next,
    ShrinkN,
    Fits,
}

impl Call {
    fn any(draws: &mut Draws) -> Self {
        match draws.below(16) {
            0 => Call::Fits,
            1..7 => Call::GrowK,
            7..11 => Call::Next,
            _ => Call::ShrinkN,
        }
    }

    /// What it says, by a side's own calls.
    fn said<M>(
        self,
        memory: &mut M,
        grow_k: fn(&mut M) -> Told<u64>,
        next: fn(&mut M) -> Told<Option<u64>>,
        shrink_n: fn(&mut M) -> Told<u64>,
        fits: fn(&M) -> Told<bool>,
    ) -> Told<Option<u64>> {
        match self {
            Call::GrowK => grow_k(memory).map(Some),
            Call::Next => next(memory),
            Call::ShrinkN => shrink_n(memory).map(Some),
            Call::Fits => fits(memory).map(|yes| Some(yes.into())),
        }
    }
}

impl sides::Call for Call {
    /// The words, with one more behind them.
    type Record = [u64; 4];
    type Place = u64;
    type Said = Told<Option<u64>>;

    fn proved(self, lent: &mut Lent) -> Told<Option<u64>> {
        self.said(
            lent,
            |lent| told(proved::chooser_grow_k(&mut lent.record, &mut lent.list)),
            |lent| told(proved::chooser_next(&mut lent.record, &mut lent.list)),
            |lent| told(proved::chooser_shrink_n(&mut lent.record, &mut lent.list)),
            |lent| told(proved::chooser_fits(&lent.record, &lent.list)),
        )
    }
}

impl Side<Call> for Chooser {
    fn memory(&self) -> ([u64; 4], &[u64]) {
        (with_rest(self.words, UNTOUCHED_WIDE), &self.list)
    }

    fn call(&mut self, call: Call) -> Told<Option<u64>> {
        let fits = |side: &Self| Ok(side.made());
        call.said(self, Self::grow_k, Self::next_number, Self::shrink_n, fits)
    }
}

impl Side<Call> for Memory {
    fn memory(&self) -> ([u64; 4], &[u64]) {
        (with_rest(self.words, UNTOUCHED_WIDE), &self.list)
    }

    fn call(&mut self, call: Call) -> Told<Option<u64>> {
        let fits = |side: &Self| Ok(side.fits());
        call.said(self, Self::grow_k, Self::next_number, Self::shrink_n, fits)
    }
}

/// An n up to the limit: small, at a power of two or one off, or of any length.
fn any_n(draws: &mut Draws) -> u64 {
    let n = match draws.below(4) {
        0 => draws.below(12),
        1 => draws.below(256),
        2 => (1 << draws.below(63)) + draws.below(3) - 1,
        _ => draws.below(LIMIT) >> draws.below(62),
    };
    n.min(LIMIT)
}

/// An n above the limit.
fn above_limit(draws: &mut Draws) -> u64 {
    word(draws).max(LIMIT + 1 + draws.below(2))
}

/// Both sides with nothing made.
fn lent(places: u64) -> (Lent, Chooser) {
    let theirs = Chooser::lent(places as usize);
    (Lent::like(&theirs), theirs)
}

/// Makes a chooser on both sides: by `new` where there is no k.
fn made(
    state: u64,
    n: u64,
    k: Option<u64>,
    ours: &mut Lent,
    theirs: &mut Chooser,
) -> Option<String> {
    let (list, words) = (&mut ours.list, &mut ours.record);
    let places = list.len();
    let (said, expected) = match k {
        None => (proved::chooser_new(state, n, words), theirs.make(state, n)),
        Some(k) => (
            proved::chooser_new_with_k(state, k, n, words, list),
            theirs.make_with_k(state, n, k),
        ),
    };
    differ(
        format_args!("state {state:#x} n {n} k {k:?}, {places} places"),
        (told(said), ours.memory()),
        (expected, theirs.memory()),
    )
}

/// A chooser made with k of n, and calls after that. The list is too short for the samples, just holds them, has some more
/// places or many.
pub fn histories(draws: &mut Draws) -> Option<String> {
    let (state, n) = (word(draws), any_n(draws));
    let most = match draws.below(64) {
        0 => 100,
        1..16 => 30,
        _ => 8,
    };
    let k = draws.below(n.min(most) + 1);
    let begun = Some(k).filter(|_| draws.below(4) != 0);
    let places = match draws.below(8) {
        0 => draws.below(k + 1),
        1 => k,
        2..4 => k + draws.below(4),
        _ => k + 32,
    };
    let (mut ours, mut theirs) = lent(places);
    made(state, n, begun, &mut ours, &mut theirs).or_else(|| {
        followed(
            format_args!("state {state:#x} n {n} k {begun:?}, {places} places"),
            &mut ours,
            &mut theirs,
            draws.below(30),
            |_| Call::any(draws),
        )
    })
}

/// `new_with_k` beside document 01's S(k, n).
pub fn samples(draws: &mut Draws) -> Option<String> {
    let (state, n) = (word(draws), any_n(draws));
    let k = draws.below(n.min(20) + 1);
    let mut ours = vec![UNTOUCHED_WIDE; k as usize + 2];
    let mut expected = sample(state, k, n);
    expected.resize(ours.len(), UNTOUCHED_WIDE);
    let said = proved::chooser_new_with_k(state, k, n, &mut [0; 3], &mut ours);
    differ(
        format_args!("state {state:#x} n {n} k {k}"),
        (told(said), ours),
        (Ok(()), expected),
    )
}

/// Choosers that document 01 refuses to make, and a record shorter than its words.
pub fn refusals(draws: &mut Draws) -> Option<String> {
    let (state, n) = (word(draws), any_n(draws));
    let (k, n) = match draws.below(3) {
        0 => (None, above_limit(draws)),
        1 => (Some(word(draws)), above_limit(draws)),
        _ => (Some((n + 1 + draws.below(3)).max(word(draws))), n),
    };
    let (mut ours, mut theirs) = lent(draws.below(8));
    made(state, n, k, &mut ours, &mut theirs).or_else(|| {
        let words = draws.below(3) as usize;
        let (record, list) = (&mut ours.record[..words], &mut ours.list);
        let said = [
            proved::chooser_new(state, n, record).err(),
            proved::chooser_new_with_k(state, k.unwrap_or(0), n, record, list).err(),
            proved::chooser_grow_k(record, list).err(),
            proved::chooser_next(record, list).err(),
            proved::chooser_shrink_n(record, list).err(),
            proved::chooser_fits(record, list).err(),
        ];
        let short = |k| match n {
            n if n > 1 << 62 => 1,
            n if k > n => 3,
            _ => 4,
        };
        differ(
            format_args!("state {state:#x} n {n} k {k:?}, {words} words"),
            (said.map(|c| c.map(|c| c.0)), ours.memory()),
            (
                [short(0), short(k.unwrap_or(0)), 4, 4, 4, 4].map(Some),
                theirs.memory(),
            ),
        )
    })
}

/// A record made by hand that fits its list: any samples below n, the lowest ones now and then, and all of them now and then.
fn fitting(draws: &mut Draws) -> Memory {
    let n = match draws.below(16) {
        0 => above_limit(draws),
        _ => any_n(draws),
    };
    let range = match draws.below(4) {
        0 => n.min(8),
        _ => n,
    };
    let mut list: Vec<u64> = match draws.below(8) {
        0 => (0..range.min(8)).collect(),
        _ => (0..range.min(draws.below(9)))
            .map(|_| draws.below(range))
            .collect(),
    };
    list.sort();
    list.dedup();
    let k = list.len() as u64;
    list.resize(k as usize + draws.below(4) as usize, UNTOUCHED_WIDE);
    Memory {
        words: [word(draws), n, k],
        list,
    }
}

/// Spoils n, k, one place of the list, or which sample is the last.
fn spoil(memory: &mut Memory, draws: &mut Draws) {
    let Memory { words, list } = memory;
    let [_, n, k] = *words;
    let places = list.len() as u64;
    let at = draws.below(k.max(1)) as usize;
    match draws.below(4) {
        0 => words[1] = [0, k, list.first().map_or(0, |&x| x), n / 2][draws.below(4) as usize],
        1 => words[2] = [k + 1, places, places + 1, u64::MAX][draws.below(4) as usize],
        _ if k == 0 => words[2] = 1 + draws.below(3),
        2 => list[at] = [n, u64::MAX, list[0], draws.below(n)][draws.below(4) as usize],
        _ => list.swap(at, k as usize - 1),
    }
}

/// Calls on records made by hand, half of them spoilt.
pub fn handmade(draws: &mut Draws) -> Option<String> {
    let mut theirs = fitting(draws);
    if draws.below(2) == 0 {
        spoil(&mut theirs, draws);
    }
    followed_on(&mut theirs, 1 + draws.below(4), |_| Call::any(draws))
}
