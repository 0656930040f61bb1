//! Trials of reservoirs.

use oracle::{ConsistentReservoir, Draws, Reservoir, Told, UNTOUCHED};

use crate::document::{size, Memory};
use crate::orders::{above_limit, any_n, LIMIT};
use crate::sides::{self, followed, followed_on, with_rest, Side};
use crate::{differ, told, word};

type Lent = sides::Lent<Call>;

/// The number that an admit brings in and the one that it puts out.
type Exchange = Option<(u32, u32)>;

/// What a call says, and the list of a sample after it.
type Said = (Told<Exchange>, Vec<u32>);

/// A call on a reservoir. A sample is asked for in a list of so many places.
#[derive(Clone, Copy, Debug)]
enum Call {
    Admit,
    GrowLayer,
    Sample(u64),
    Fits,
}

impl Call {
    /// An admit more often than not.
    fn any(draws: &mut Draws) -> Self {
        match draws.below(16) {
            0 => Call::Fits,
            1 => Call::Sample(draws.below(16)),
            2 => Call::Sample(2000),
            3..6 => Call::GrowLayer,
            _ => Call::Admit,
        }
    }

    /// What it says, by a side's own calls.
    fn said<M>(
        self,
        memory: &mut M,
        admit: fn(&mut M) -> Told<Exchange>,
        grow_layer: fn(&mut M) -> Told<()>,
        sample: fn(&M, &mut [u32]) -> Told<()>,
        fits: fn(&M) -> Told<bool>,
    ) -> Said {
        let mut out = Vec::new();
        let said = match self {
            Call::Admit => admit(memory),
            Call::GrowLayer => grow_layer(memory).map(|()| None),
            Call::Sample(places) => {
                out.resize(places as usize, UNTOUCHED);
                sample(memory, &mut out).map(|()| None)
            }
            Call::Fits => fits(memory).map(|yes| yes.then_some((0, 0))),
        };
        (said, out)
    }
}

impl sides::Call for Call {
    /// The words, with one more behind them.
    type Record = [u32; 7];
    type Place = u32;
    type Said = Said;

    fn proved(self, lent: &mut Lent) -> Said {
        self.said(
            lent,
            |lent| told(proved::reservoir_next(&mut lent.record, &mut lent.list)),
            |lent| {
                told(proved::reservoir_grow_layer(
                    &mut lent.record,
                    &mut lent.list,
                ))
            },
            |lent, out| told(proved::reservoir_sample(&lent.record, &lent.list, out)),
            |lent| told(proved::reservoir_fits(&lent.record, &lent.list)),
        )
    }
}

impl Side<Call> for Reservoir {
    fn memory(&self) -> ([u32; 7], &[u32]) {
        (with_rest(self.words, UNTOUCHED), &self.list)
    }

    fn call(&mut self, call: Call) -> Said {
        let fits = |side: &Self| Ok(side.opened());
        call.said(self, Self::admit, Self::grow_layer, Self::sample, fits)
    }
}

impl Side<Call> for Memory {
    fn memory(&self) -> ([u32; 7], &[u32]) {
        (with_rest(self.words, UNTOUCHED), &self.list)
    }

    fn call(&mut self, call: Call) -> Said {
        let fits = |side: &Self| Ok(side.fits());
        call.said(self, Self::admit, Self::grow_layer, Self::sample, fits)
    }
}

/// Opens on both sides.
fn opened(k: u32, n: u32, key: u64, ours: &mut Lent, theirs: &mut Reservoir) -> Option<String> {
    let said = proved::reservoir_new(key, k, n, &mut ours.record, &mut ours.list);
    let expected = theirs.open(k, n, key);
    let places = ours.list.len();
    differ(
        format_args!("key {key:#x} k {k} n {n}, {places} places"),
        (told(said), ours.memory()),
        (expected, theirs.memory()),
    )
}

/// Both sides with nothing opened.
fn lent(places: u64) -> (Lent, Reservoir) {
    let theirs = Reservoir::lent(places as usize);
    (Lent::like(&theirs), theirs)
}

/// A list's length for an opening: too short for it, just long enough, with some more places or many.
pub fn any_places(k: u32, n: u32, key: u64, draws: &mut Draws) -> u64 {
    let used = ConsistentReservoir::new(k, n, key).values().len() as u64;
    match draws.below(8) {
        0 => draws.below(used),
        1 => used,
        2..4 => used + draws.below(u64::from(k) + 2),
        _ => used + 8 * u64::from(k) + 64,
    }
}

/// A reservoir opened with k of n, and calls after that.
pub fn histories(draws: &mut Draws) -> Option<String> {
    let n = any_n(draws).max(1);
    let most = match draws.below(64) {
        0 => 1000,
        1..16 => 100,
        _ => 10,
    };
    let k = 1 + draws.below(u64::from(n).min(most)) as u32;
    let key = word(draws);
    let places = any_places(k, n, key, draws);
    let (mut ours, mut theirs) = lent(places);
    opened(k, n, key, &mut ours, &mut theirs).or_else(|| {
        followed(
            format_args!("key {key:#x} k {k} n {n}, {places} places"),
            &mut ours,
            &mut theirs,
            draws.below(30),
            |_| Call::any(draws),
        )
    })
}

/// An open's k and n that document 01 refuses: n above the limit, k 0, or k above n.
pub fn refused_open(draws: &mut Draws) -> (u32, u32) {
    let n = any_n(draws);
    match draws.below(3) {
        0 => (word(draws) as u32, above_limit(draws)),
        1 => (0, n),
        _ => (n + 1 + (word(draws) as u32) % LIMIT, n),
    }
}

/// Openings that document 01 refuses, and a record shorter than its words.
pub fn refusals(draws: &mut Draws) -> Option<String> {
    let (k, n) = refused_open(draws);
    let key = word(draws);
    let (mut ours, mut theirs) = lent(draws.below(8));
    opened(k, n, key, &mut ours, &mut theirs).or_else(|| {
        let words = draws.below(6) as usize;
        let (record, list) = (&mut ours.record[..words], &mut ours.list);
        let mut out = [UNTOUCHED; 4];
        let said = [
            proved::reservoir_new(key, k, n, record, list).err(),
            proved::reservoir_next(record, list).err(),
            proved::reservoir_grow_layer(record, list).err(),
            proved::reservoir_sample(record, list, &mut out).err(),
            proved::reservoir_fits(record, list).err(),
        ];
        differ(
            format_args!("key {key:#x} k {k} n {n}, {words} words"),
            (said.map(|c| c.map(|c| c.0)), out, ours.memory()),
            (
                [oracle::short_open(k, n), 4, 4, 4, 4].map(Some),
                [UNTOUCHED; 4],
                theirs.memory(),
            ),
        )
    })
}

/// A listed number of a layer: below n as often as not, at either bound, or any.
fn listed(draws: &mut Draws, n: u32, size: u32) -> u32 {
    match draws.below(8) {
        0 => n.min(size - 1),
        1 => size - 1,
        2..4 => draws.below(u64::from(size)) as u32,
        4 => n - 1,
        _ => draws.below(u64::from(n)) as u32,
    }
}

/// A record made by hand that fits its list, or nearly: any numbers, some of them twice.
pub fn fitting(draws: &mut Draws) -> Memory {
    let j = match draws.below(8) {
        0 => 14,
        1 => 13,
        2 => draws.below(15) as u32,
        _ => draws.below(3) as u32,
    };
    let n = match draws.below(4) {
        0 => size(j),
        1 => 1 + draws.below(4) as u32,
        _ => 1 + draws.below(u64::from(size(j))) as u32,
    };
    // Only numbers below n in one of four: a growth comes next.
    let top = if draws.below(4) == 0 { n } else { size(j) };
    let used = 1 + draws.below(8) as usize;
    let mut list: Vec<u32> = (0..used).map(|_| listed(draws, n, top)).collect();
    list[used - 1] = draws.below(u64::from(n)) as u32;
    let k = list.iter().filter(|&&x| x < n).count() as u32;
    let rest = draws.below(2) * draws.below(50) + draws.below(4);
    list.resize(used + rest as usize, UNTOUCHED);
    let key = word(draws);
    Memory {
        words: [key as u32, (key >> 32) as u32, k, n, j, used as u32],
        list,
    }
}

fn one_of(draws: &mut Draws, some: [u32; 4]) -> u32 {
    some[draws.below(4) as usize]
}

/// Spoils one word of the record, one place of the list, or which number is the last.
pub fn spoil(memory: &mut Memory, draws: &mut Draws) {
    let Memory { words, list } = memory;
    let [_, _, k, n, j, used] = *words;
    let (places, size) = (list.len() as u32, size(j));
    let at = draws.below(u64::from(used)) as usize;
    match draws.below(6) {
        0 => words[2] = one_of(draws, [0, k + 1, k - 1, n + 1]),
        1 => words[3] = one_of(draws, [0, n + 1, size + 1, u32::MAX]),
        2 => words[4] = one_of(draws, [j.wrapping_sub(1), j + 1, 15, u32::MAX]),
        3 => words[5] = one_of(draws, [used - 1, used + 1, places + 1, u32::MAX]),
        4 => list[at] = one_of(draws, [n, size, size - 1, u32::MAX]),
        _ => list.swap(at, used as usize - 1),
    }
}

/// Calls on records made by hand, half of them spoilt.
pub fn handmade(draws: &mut Draws) -> Option<String> {
    let mut theirs = fitting(draws);
    if draws.below(2) == 0 {
        spoil(&mut theirs, draws);
    }
    followed_on(&mut theirs, 1 + draws.below(3), |_| Call::any(draws))
}
