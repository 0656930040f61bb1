//! Trials of rounds: histories beside the original's own types, and calls on memory made by hand.

use oracle::{Draws, Round, RoundCall, Told, UNTOUCHED, UNTOUCHED_WIDE};

use crate::document_rounds;
use crate::lookups::{self, few_slots};
use crate::orders::any_n;
use crate::reservoirs::{self, any_places, refused_open};
use crate::sides::{self, followed, followed_on, with_rest, Side};
use crate::slots::{self, any_byte, any_bytes, any_slot};
use crate::{differ, told, word};

pub type Lent = sides::Lent<Call>;

/// An open's numbers: key, k and n.
pub type Open = (u64, u32, u32);

/// How many places a plan's two lists and its scratch have.
#[derive(Clone, Copy, Debug)]
pub struct Room {
    pub locations: usize,
    pub terminals: usize,
    pub scratch: usize,
}

impl Room {
    /// What a plan of k locations in a table of so many bytes needs.
    pub fn for_plan(k: u32, bytes: usize) -> Self {
        Self {
            locations: k as usize,
            terminals: k as usize,
            scratch: bytes,
        }
    }

    /// That, or more, or now and then less.
    pub fn any(k: u32, bytes: usize, draws: &mut Draws) -> Self {
        // A record made by hand may have any k.
        let k = k.min(2000) as usize;
        let mut places = || match draws.below(8) {
            0 => k.saturating_sub(1),
            1..4 => k,
            _ => k + draws.below(8) as usize,
        };
        Self {
            locations: places(),
            terminals: places(),
            scratch: lookups::any_places(bytes, draws),
        }
    }
}

/// A call on a round but open.
#[derive(Clone, Copy, Debug)]
pub enum Call {
    Change(RoundCall),
    Plan(Room),
    Fits,
}

impl Call {
    fn any(side: &impl Side<Call>, draws: &mut Draws) -> Self {
        let (([_, _, k, .., total, _], table), _) = side.memory();
        match draws.below(16) {
            0 => Call::Fits,
            1..4 => Call::Plan(Room::any(k, table.len(), draws)),
            4..8 => Call::Change(RoundCall::Admit),
            8..12 => Call::Change(RoundCall::Join),
            _ => Call::Change(RoundCall::Withdraw(any_slot(total, draws))),
        }
    }
}

/// What a call says: its values, a plan's two lists after it, and whether what had to stay of the scratch did.
#[derive(Clone, Debug, PartialEq)]
pub struct Said {
    pub values: Told<Vec<u32>>,
    pub plan: [Vec<u32>; 2],
    kept: bool,
}

impl Said {
    fn only(values: Told<Vec<u32>>) -> Self {
        let plan = [vec![], vec![]];
        Self {
            values,
            plan,
            kept: true,
        }
    }

    fn fits(yes: bool) -> Self {
        Self::only(Ok(vec![yes.into()]))
    }

    /// A plan into lists of so many places.
    fn planned(room: Room, plan: impl FnOnce(&mut [u32], &mut [u32]) -> Told<()>) -> Self {
        let mut lists = [room.locations, room.terminals].map(|places| vec![UNTOUCHED; places]);
        let [locations, terminals] = &mut lists;
        let values = plan(locations, terminals).map(|()| vec![]);
        Self {
            plan: lists,
            ..Self::only(values)
        }
    }
}

/// The library's change of a round.
fn changed(call: RoundCall, lent: &mut Lent) -> Told<Vec<u32>> {
    let ((words, table), list) = (&mut lent.record, &mut lent.list);
    match call {
        RoundCall::Admit => told(proved::round_admit(words, list, table))
            .map(|pair| pair.map_or(vec![], |(came, went)| vec![came, went])),
        RoundCall::Join => told(proved::round_join(words, list, table)).map(|slot| vec![slot]),
        RoundCall::Withdraw(slot) => {
            told(proved::round_withdraw(slot, words, list, table)).map(|()| vec![])
        }
    }
}

/// The library's plan. A refused one leaves the scratch, and none writes behind it.
fn planned(room: Room, lent: &Lent) -> Said {
    let ((words, table), list) = (&lent.record, &lent.list);
    let mut memory = vec![UNTOUCHED_WIDE; room.scratch + 2];
    let scratch = &mut memory[..room.scratch];
    let mut said = Said::planned(room, |locations, terminals| {
        told(proved::round_plan(
            words, list, table, locations, terminals, scratch,
        ))
    });
    let free = said.values.as_ref().map_or(0, |_| room.scratch);
    said.kept = memory[free..].iter().all(|&x| x == UNTOUCHED_WIDE);
    said
}

impl sides::Call for Call {
    /// The words, with one more behind them, and the table.
    type Record = ([u32; 8], Vec<u8>);
    type Place = u32;
    type Said = Said;

    fn proved(self, lent: &mut Lent) -> Said {
        match self {
            Call::Change(call) => Said::only(changed(call, lent)),
            Call::Plan(room) => planned(room, lent),
            Call::Fits => {
                let (words, table) = &lent.record;
                Said::fits(proved::round_fits(words, &lent.list, table).unwrap())
            }
        }
    }
}

impl Side<Call> for Round {
    fn memory(&self) -> (([u32; 8], Vec<u8>), &[u32]) {
        let words = with_rest(self.words(), UNTOUCHED);
        ((words, self.table().to_vec()), self.list())
    }

    fn call(&mut self, call: Call) -> Said {
        match call {
            Call::Change(call) => Said::only(Round::call(self, call)),
            Call::Plan(room) => Said::planned(room, |locations, terminals| {
                self.plan(locations, terminals, room.scratch)
            }),
            Call::Fits => Said::fits(self.opened()),
        }
    }
}

impl Side<Call> for document_rounds::Round {
    fn memory(&self) -> (([u32; 8], Vec<u8>), &[u32]) {
        let mut words = with_rest(self.reservoir.words, UNTOUCHED);
        words[6] = self.slots.total;
        ((words, self.slots.table.clone()), &self.reservoir.list)
    }

    fn call(&mut self, call: Call) -> Said {
        match call {
            Call::Change(call) => Said::only(Self::call(self, call)),
            Call::Plan(room) => Said::planned(room, |locations, terminals| {
                self.plan(locations, terminals, room.scratch)
            }),
            Call::Fits => Said::fits(self.fits()),
        }
    }
}

/// Opens on the library's side.
pub fn open(lent: &mut Lent, (key, k, n): Open) -> Told<()> {
    told(proved::round_open(
        key,
        k,
        n,
        &mut lent.record.0,
        &mut lent.list,
    ))
}

/// Opens on both sides.
fn opened((key, k, n): Open, ours: &mut Lent, theirs: &mut Round) -> Option<String> {
    let said = open(ours, (key, k, n));
    let expected = theirs.open(key, k, n);
    let places = ours.list.len();
    differ(
        format_args!("key {key:#x} k {k} n {n}, {places} places"),
        (said, ours.memory()),
        (expected, theirs.memory()),
    )
}

/// An open's numbers: k up to 20, now and then up to 200, of any n, or refused ones.
pub fn any_open(draws: &mut Draws) -> Open {
    if draws.below(16) == 0 {
        let (k, n) = refused_open(draws);
        return (word(draws), k, n);
    }
    let n = any_n(draws).max(1);
    let most = if draws.below(64) == 0 { 200 } else { 20 };
    let k = 1 + draws.below(u64::from(n).min(most)) as u32;
    (word(draws), k, n)
}

/// A list's length for an open.
pub fn places_for((key, k, n): Open, draws: &mut Draws) -> usize {
    if k == 0 || k > n || n > 1 << 30 {
        return draws.below(80) as usize;
    }
    any_places(k, n, key, draws) as usize
}

/// A table with any bytes.
pub fn any_table(draws: &mut Draws) -> Vec<u8> {
    let bytes = any_bytes(draws);
    (0..bytes).map(|_| any_byte(draws)).collect()
}

/// Up to three rounds, one after the other in the same memory, each opened and followed.
pub fn histories(draws: &mut Draws) -> Option<String> {
    let mut open = any_open(draws);
    let mut theirs = Round::lent(places_for(open, draws), any_table(draws));
    let mut ours = Lent::like(&theirs);
    let lent = format!("{} places, {} bytes", ours.list.len(), ours.record.1.len());
    (0..1 + draws.below(3)).find_map(|turn| {
        let input = format!("{open:?}, open {turn} in {lent}");
        let difference = opened(open, &mut ours, &mut theirs).or_else(|| {
            let calls = draws.below(30);
            followed(input, &mut ours, &mut theirs, calls, |round| {
                Call::any(round, draws)
            })
        });
        open = any_open(draws);
        difference
    })
}

/// Calls on records, lists and tables made by hand, half of them spoilt in one or the other.
pub fn handmade(draws: &mut Draws) -> Option<String> {
    let mut theirs = document_rounds::Round {
        reservoir: reservoirs::fitting(draws),
        slots: few_slots(draws),
    };
    match draws.below(4) {
        0 => reservoirs::spoil(&mut theirs.reservoir, draws),
        1 => slots::spoil(&mut theirs.slots, draws),
        _ => {}
    }
    followed_on(&mut theirs, 1 + draws.below(4), |round| {
        Call::any(round, draws)
    })
}

/// A record shorter than its words: every call is 4, an open 1, 2 or 3 where it is one of these, and leaves what it is lent.
pub fn refusals(draws: &mut Draws) -> Option<String> {
    let (key, k, n) = any_open(draws);
    let mut theirs = Round::lent(draws.below(80) as usize, any_table(draws));
    let mut ours = Lent::like(&theirs);
    let _ = open(&mut ours, (key, k, n));
    let _ = theirs.open(key, k, n);
    let words = draws.below(7) as usize;
    let (record, table) = (&mut ours.record.0[..words], &mut ours.record.1);
    let (list, mut plan, mut scratch) = (&mut ours.list, [[UNTOUCHED; 4]; 2], [0; 4]);
    let [locations, terminals] = &mut plan;
    let said = [
        proved::round_open(key, k, n, record, list).err(),
        proved::round_admit(record, list, table).err(),
        proved::round_join(record, list, table).err(),
        proved::round_withdraw(0, record, list, table).err(),
        proved::round_plan(record, list, table, locations, terminals, &mut scratch).err(),
        proved::round_fits(record, list, table).err(),
    ];
    differ(
        format_args!("key {key:#x} k {k} n {n}, {words} words"),
        (said.map(|c| c.map(|c| c.0)), plan, ours.memory()),
        (
            [oracle::short_open(k, n), 4, 4, 4, 4, 4].map(Some),
            [[UNTOUCHED; 4]; 2],
            theirs.memory(),
        ),
    )
}
